"""The writes that a device has to make to its flash, in order, from the tables of docs/FORMATS.md."""

from support.builders import little
from support.files import PAIR
from support.flashes import FLAG
from support.stories import flash_in, run_of

MAGIC, UNSET = bytes.fromhex("77c295f360d2ef7f3552500f2cb67980"), 16 * b"\xff"
STEADY, SWAP, SETTLE, TRIAL, BACK, BACK_SETTLE = range(1, 7)

# The number of the first sector of a side, relative to the primary one.
PRIMARY, SECONDARY = 0, 6

# What an interrupted write leaves.
PATTERN = 0x5A


def record(kind, mask=0, permanent=0, left=0, sequence=1, floors=(0, 0)):
    """The 56 bytes of a record."""
    head = bytes([kind, mask, permanent, left]) + little(sequence, 4)
    return (head + b"".join(little(floor, 4) for floor in floors)).ljust(56, b"\0")


def trailer(statuses=0, size=None, withdrawn=False, done=False, confirmed=False, magic=UNSET, sector=512):
    """The sector of a trailer with N status units and these fields."""
    flag = lambda is_set: FLAG if is_set else UNSET[:8]
    number = UNSET[:8] if size is None else little(size, 8)
    fields = flag(withdrawn) + number + UNSET[:8] + flag(done) + flag(confirmed) + magic
    return (statuses * FLAG).ljust(sector - len(fields), b"\xff") + fields


class Expected:
    """A flash of two images of two sectors each, and the writes that a device has to make on it."""

    def __init__(self, whole, records=1):
        """The log has N records, the first of them in the first place of its first sector."""
        self.whole, self.sector, self.records, self.writes = bytearray(whole), len(whole) // 16, records, []

    def program(self, at, part):
        """Writes these bytes there."""
        self.writes.append((bytes(self.whole), at, len(part)))
        self.whole[at : at + len(part)] = part

    def erase(self, sector):
        """Erases the sector of this number."""
        self.program(self.sector * sector, self.sector * b"\xff")

    def append(self, part):
        """Appends a record and its gate. In a new sector, erases it first, and closes the last one afterwards."""
        places = self.sector // 64 - 1
        ring, place = self.records // places % 3, self.records % places
        if place == 0:
            self.erase(13 + ring)
        at = self.sector * (13 + ring) + 64 * place
        self.program(at, part)
        self.program(at + 56, FLAG)
        if place == 0:
            self.program(self.sector * (14 + (ring - 1) % 3) - 8, FLAG)
        self.records += 1

    def field(self, number, side, back):
        """The address of a trailer's field, by its distance from the end."""
        return self.sector * (3 * number + side + 3) - back

    def clear(self, number, side):
        """Erases the trailer, unless it is erased."""
        at = self.sector * (3 * number + side + 2)
        if self.whole[at : at + self.sector] != self.sector * b"\xff":
            self.erase(3 * number + side + 2)

    def size(self, number, side, size):
        """Writes a trailer for a swap of N bytes."""
        self.clear(number, side)
        self.program(self.field(number, side, 48), little(size, 8))

    def has_field(self, number, back, part):
        """Whether a field of an image's primary trailer holds this."""
        at = self.field(number, PRIMARY, back)
        return self.whole[at : at + len(part)] == part

    def settle(self, number, is_confirmed, is_back=False):
        """Settles both trailers after a swap."""
        self.erase(3 * number + 8)
        fields = [(32, FLAG), *([(24, FLAG)] if is_confirmed else []), (16, MAGIC)]
        is_right = all(
            self.has_field(number, back, part) or self.has_field(number, back, UNSET[: len(part)])
            for back, part in fields
        )
        if is_back or not is_right or not (is_confirmed or self.has_field(number, 24, UNSET[:8])):
            self.erase(3 * number + 2)
        for back, part in fields:
            if not self.has_field(number, back, part):
                self.program(self.field(number, PRIMARY, back), part)

    def swap(self, number, side, used):
        """The steps of an image's swap of N sectors that its trailer of this side doesn't count."""
        units = self.sector * (3 * number + side + 2)
        for step in range(3 * used):
            if self.whole[units + 8 * step : units + 8 * step + 8] != 8 * b"\xff":
                continue
            first = 3 * number + used - 1 - step // 3
            taken, given = [(first + 6, 12), (first, first + 6), (12, first)][step % 3]
            self.erase(given)
            for offset in range(0, self.sector, 256):
                at, size = self.sector * taken + offset, min(256, self.sector - offset)
                self.program(self.sector * given + offset, bytes(self.whole[at : at + size]))
            self.program(units + 8 * step, FLAG)


def assert_writes(test, whole, events, expected, own=PAIR):
    """These events make these writes in this order and no others. One write after the other is interrupted and torn
    into other bytes, and at last none is."""
    count = len(expected.writes)
    for number in range(1, count + 2):
        test.file("flash", whole)
        _, out, err = run_of(test, events, own, [(number, f"hex:{PATTERN:02x}")])
        wanted = bytearray(expected.whole)
        if number <= count:
            before, at, size = expected.writes[number - 1]
            wanted[:] = before[:at] + size * bytes([PATTERN]) + before[at + size :]
        test.assertEqual((number <= count, b""), (b" cut\n" in out, err), f"write {number} of {count}: {out}")
        got = flash_in(test)
        if got != wanted:
            at = next((at for at, pair in enumerate(zip(got, wanted)) if pair[0] != pair[1]), "its length")
            test.fail(f"write {number} of {count}: the flash differs at {at}")
