"""What a device writes to its flash, byte by byte: trailers, swaps and the log.

The tests make flash files with any state in the log. `Expected` computes what the device has to write, from the tables
of docs/FORMATS.md. Which contents a boot leaves, from every place of a swap and any trailers, is proved. """

from support.builders import device, image, little, version
from support.expected_writes import (
    BACK, BACK_SETTLE, MAGIC, PRIMARY, SECONDARY, SETTLE, STEADY, SWAP, TRIAL, UNSET, Expected, assert_writes, record,
    trailer
)
from support.files import PAIR
from support.flashes import FLAG
from support.program import ProgramTest
from support.stories import IMAGES, PATIENT, manifest_of, new_device, state

# The running images and the requested ones, in the first bytes of their slots.
OLD, NEW = image([], own=version(1)), image([], own=version(2))


def odd_sector(number, front=b"", size=512):
    """The bytes of a sector after those of its front, different in each sector."""
    return front + bytes((number * 37 + at * 3 + at // 256) % 251 for at in range(len(front), size))


def slots_of(first, second, size=512):
    """The sectors of the slots of both images: the primary ones begin with one image, the secondary ones with
    another."""
    fronts = {0: first, 3: first, 6: second, 9: second}
    return {it: odd_sector(it, fronts.get(it, b""), size) for it in (0, 1, 3, 4, 6, 7, 9, 10)}


def flash_with(record_bytes, sectors, size=512):
    """A flash whose log has only this record, and whose other sectors are these. Sectors without a number are
    erased."""
    log = record_bytes + FLAG + (3 * size - 72) * b"\xff" + FLAG
    return b"".join(sectors.get(number, size * b"\xff") for number in range(13)) + log


# The sectors of the slots before the swap of the new images, and after it.
WAITING, RUNNING = slots_of(OLD, NEW), slots_of(NEW, OLD)

ERASED, BAD = 512 * b"\xff", 512 * b"\x3c"
REQUEST = trailer(confirmed=True, magic=MAGIC)
TRIED, STAYS = trailer(done=True, magic=MAGIC), trailer(done=True, confirmed=True, magic=MAGIC)

# Trailers of image 0 to settle: a name, the record, the primary and the secondary trailer, and the primary one
# afterwards. A settled trailer is written once.
SETTLED = [
    ("erased trailers of a trial", SETTLE, 0, ERASED, ERASED, TRIED, 3),
    ("erased trailers, permanently", SETTLE, 1, ERASED, ERASED, STAYS, 4),
    ("a size and a status unit, permanently", SETTLE, 1, trailer(1, 96), REQUEST,
        trailer(1, 96, done=True, confirmed=True, magic=MAGIC), 4),
    ("a size and a status unit, of a way back", BACK_SETTLE, 0, trailer(1, 96), trailer(magic=MAGIC), STAYS, 5),
    ("a trial that is confirmed too early", SETTLE, 0, trailer(1, confirmed=True), ERASED, TRIED, 4),
    ("filled trailers, permanently", SETTLE, 1, BAD, BAD, STAYS, 5),
    ("a settled trial", SETTLE, 0, TRIED, ERASED, TRIED, 1),
]


def settled(kind, permanent, primary, secondary):
    """A flash whose boot settles the trailers of image 0, the writes of this boot, and how many of them are to the
    trailers."""
    slots = {**WAITING, 0: RUNNING[0], 6: RUNNING[6]} if kind == SETTLE else WAITING
    whole = flash_with(record(kind, 1, permanent), {**slots, 2: primary, 8: secondary, 5: BAD, 11: BAD})
    expected = Expected(whole)
    expected.settle(0, permanent or kind == BACK_SETTLE, kind == BACK_SETTLE)
    count = len(expected.writes)
    expected.append(record(TRIAL, 1) if kind == SETTLE and not permanent else record(STEADY))
    return whole, expected, count


class TrailerTest(ProgramTest):
    def test_trailers_are_settled_in_order(self):
        for name, kind, permanent, primary, secondary, wanted, writes in SETTLED:
            with self.subTest(name):
                whole, expected, count = settled(kind, permanent, primary, secondary)
                left = tuple(bytes(expected.whole[at : at + 512]) for at in (1024, 4096))
                self.assertEqual((writes, (wanted, ERASED)), (count, left))
                assert_writes(self, whole, "boot", expected)

    def test_a_request_and_its_withdrawal_are_written_in_order(self):
        """To an erased slot, and to a filled one: the device erases its old contents first, and its trailer after the
        first sector."""
        new, needing = new_device(self), IMAGES["needing.img"]
        for kind, flag in [("test", []), ("permanent", [(4584, FLAG)])]:
            self.file("own.json", manifest_of(1, f"0 {kind} needing.img"))
            for whole, erased in [(new, ()), (new[:3072] + 3 * BAD + new[4608:], (6, 8, 7))]:
                with self.subTest(f"a request ({kind}) on a slot with {len(erased)} filled sectors"):
                    expected = Expected(whole)
                    expected.append(record(STEADY))
                    for sector in erased:
                        expected.erase(sector)
                    for at, part in [(3072, needing[:8]), (3080, needing[8:]), *flag, (4592, MAGIC), (4552, FLAG)]:
                        expected.program(at, part)
                    expected.erase(6)
                    expected.erase(8)
                    events = "boot, accept own.json, piece 0 needing.img, finish 0, withdraw 0"
                    assert_writes(self, whole, events, expected)

    def test_a_confirmation_writes_one_flag_once(self):
        for name, first in [("a settled trailer", TRIED), ("a filled trailer", BAD)]:
            with self.subTest(name):
                whole = flash_with(record(TRIAL, 3, left=2), {**RUNNING, 2: first, 5: TRIED, 11: BAD})
                expected = Expected(whole)
                expected.append(record(TRIAL, 3, left=1))
                if first == TRIED:
                    expected.program(1512, FLAG)
                expected.program(3048, FLAG)
                assert_writes(self, whole, "boot, confirm 0, confirm 0, confirm 1, confirm 1", expected, PATIENT)


def end_of_swap(expected, mask, permanent=0, is_back=False, **same):
    """The writes after a swap: its record, the trailers, and the last record."""
    expected.append(record(BACK_SETTLE if is_back else SETTLE, mask, permanent, **same))
    for number in (0, 1):
        if mask & (1 << number):
            expected.settle(number, is_back or permanent, is_back)
    is_trial = not is_back and not permanent
    expected.append(record(TRIAL, mask, **same) if is_trial else record(STEADY, **same))


class SwapTest(ProgramTest):
    def test_an_upgrade_for_good_is_written_in_order(self):
        """The boot clears the trailer, and writes the size and the record of the set, and everything that follows."""
        floors = (7, 0x0A0B0C0D)
        counted = lambda number, at, body=b"": image([(0x50, little(floors[at], 4))], own=version(number), body=body)
        coming = counted(2, 1, 688 * b"b")
        slots = {**slots_of(OLD, NEW), 0: odd_sector(0, counted(1, 0)), 3: odd_sector(3, counted(1, 1))}
        slots.update({9: coming[:512], 10: odd_sector(10, coming[512:]), 11: REQUEST})
        same = {"sequence": 0x01020304, "floors": floors}
        for primary in (ERASED, BAD):
            with self.subTest(f"a trailer that begins with {primary[0]}"):
                whole = flash_with(record(STEADY, **same), {**slots, 5: primary})
                expected = Expected(whole)
                expected.size(1, PRIMARY, 0x0304)
                # The record of the swap, and the size, worked by hand.
                expected.append(bytes.fromhex("0202010004030201070000000d0c0b0a") + bytes(40))
                expected.swap(1, PRIMARY, 2)
                end_of_swap(expected, 2, 1, **same)
                self.assertEqual((0x0304, "0403000000000000"), (len(coming), expected.whole[3024:3032].hex()))
                assert_writes(self, whole, "boot", expected)

    def test_a_revert_is_written_in_order(self):
        """It clears the secondary trailer, and counts its steps there."""
        slots = {**RUNNING, 3: WAITING[3], 2: TRIED}
        for name, secondary in [("an erased trailer", ERASED), ("a request", REQUEST), ("a filled trailer", BAD)]:
            with self.subTest(name):
                whole = flash_with(record(TRIAL, 1), {**slots, 8: secondary})
                expected = Expected(whole)
                expected.size(0, SECONDARY, len(NEW))
                expected.append(record(BACK, 1))
                expected.swap(0, SECONDARY, 1)
                end_of_swap(expected, 1, is_back=True)
                assert_writes(self, whole, "boot", expected)

    def test_the_steps_of_a_swap_are_written_in_order(self):
        """Of sectors of two pieces of 256 bytes, and of 576 bytes, whose last piece has 64."""
        for sector, size, writes in [(512, None, 48), (576, 600, 60)]:
            with self.subTest(f"a swap of sectors of {sector} bytes"):
                own = self.file("own.json", device(sector=sector))
                trailers = dict.fromkeys((2, 5), trailer(size=size, sector=sector))
                slots = {**slots_of(OLD, NEW, sector), **trailers, 12: odd_sector(16, size=sector)}
                expected = Expected(flash_with(record(SWAP, 3), slots, sector))
                whole = bytes(expected.whole)
                for number in (0, 1):
                    expected.swap(number, PRIMARY, 2)
                erases = sum(size == sector for _, _, size in expected.writes)
                self.assertEqual((12, writes), (erases, len(expected.writes)))
                end_of_swap(expected, 3)
                assert_writes(self, whole, "boot", expected, own)


# How many records the log holds, a place, and its bytes, worked by hand.
BY_HAND = [
    (0, 6656, bytes.fromhex("01000000000000000000000005000000") + bytes(40) + FLAG + 1464 * b"\xff" + FLAG),
    (7, 7160, FLAG + bytes.fromhex("0100000007000000")),
    (7, 7224, FLAG),
    (7, 7672, UNSET[:8]),
    (14, 7672, FLAG + bytes.fromhex("010000000e000000")),
    (14, 7736, FLAG + 448 * b"\xff"),
    (21, 8184, FLAG),
    (49, 7168, bytes.fromhex("0100000031000000")),
]

# A device whose image 1 may have no counter below 5, and how many records it appends: they pass through the ring twice.
FLOORS, APPENDS = (0, 5), 50


class LogTest(ProgramTest):
    def test_fifty_records_are_written_in_order(self):
        new = new_device(self, images=("one.img", "patched.img"))
        expected, marks, erases = Expected(new), [0], [0]
        for sequence in range(1, APPENDS + 1):
            self.file(f"{sequence}.json", manifest_of(sequence, "0 test needing.img"))
            expected.append(record(STEADY, sequence=sequence, floors=FLOORS))
            marks.append(len(expected.writes))
            erases.append(sum(size == 512 for _, _, size in expected.writes))
        self.assertEqual([it // 7 for it in range(APPENDS + 1)], erases)
        self.assertEqual([2 * it + 2 * (it // 7) for it in range(APPENDS + 1)], marks)
        for number, at, part in BY_HAND:
            whole = expected.writes[marks[number]][0]
            self.assertEqual(part, whole[at : at + len(part)], f"after {number} records, byte {at}")
        events = ["boot", *(f"accept {number}.json" for number in range(1, APPENDS + 1))]
        assert_writes(self, new, ", ".join(events), expected)

    def test_only_a_valid_record_is_a_state(self):
        """If the last record isn't, no earlier one is used."""
        new = new_device(self)
        for it, shown in [
            (record(STEADY, sequence=2**32 - 1, floors=(9, 2**32 - 2)),
                state("steady", "-", 2**32 - 1, [9, 2**32 - 2], "none none")),
            (record(TRIAL, 2, 1, left=6), state("trial", "1", 1, [0, 0], "none none", 6)),
            *((it, None) for it in (record(STEADY, 1), record(TRIAL, 4), record(7, 1))),
        ]:
            with self.subTest(f"record {it.hex()}"):
                self.file("flash", new[:6720] + it + FLAG + new[6784:])
                end = (0, shown, b"") if shown else (1, b"refused boot 4 NotProvisioned\n", b"")
                self.assertEqual(end, self.run_program(["show", PAIR, "flash"]))
