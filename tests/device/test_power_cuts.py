"""Power cuts at each write of a device, and what the next boots print."""

from support.files import PAIR, read
from support.flashes import flash_of
from support.program import ProgramTest
from support.stories import PATIENT, STAYED, UPGRADE, UPLOAD_REPLIES, WAITS, new_device, run_of, state
from support.worked import BACK, PLAIN, SCRIPT, SUM_OF_WRITES, TORN, TRIED, USUAL, cut_at, ended

# What an interrupted write leaves, and whether a unit that was to be programmed isn't erased then.
TORN_UNITS = {"keep": False, "done": True, "hex:ff": False, "hex:00": True}

# Events of which the last one is interrupted at each of its writes: a name, the device, the events, the replies before
# the cut, the reply of the next boot, its reply if the last write set its unit, and whether the event has one write.
EVENTS = [
    (
        "permanent requests are taken once", PAIR,
        "boot, accept for-good.json, piece 0 needing.img, piece 1 partner.img, finish 0, finish 1, boot",
        UPLOAD_REPLIES, "permanent|take 0 2.0.0+0|take 1 2.0.0+0", STAYED, False,
    ),
    ("a trial of three boots begins", PATIENT, UPGRADE, UPLOAD_REPLIES, TRIED, "trial-again 0 1 left 1", False),
    (
        "a last confirmation counts where its unit was set", PAIR, f"{UPGRADE}, confirm 0, confirm 1",
        [*UPLOAD_REPLIES, TRIED, "done"], BACK, STAYED, True,
    ),
]

REQUESTED = "boot, accept first.json, piece 0 needing.img, finish 0"

# The bytes of a sector as a script writes them: a trailer with a good magic, erased otherwise.
GOOD_TRAILER = f"hex:{496 * 'ff'}77c295f360d2ef7f3552500f2cb67980"


class WorkedCutTest(ProgramTest):
    """The worked run of ten events and 91 writes."""

    def run_cut(self, number, torn):
        self.file("flash", self.whole)
        return self.run_program(["run", PAIR, "flash", "-"], given=f"cut {number} {torn}\n".encode() + read(SCRIPT))

    def setUp(self):
        super().setUp()
        self.whole = flash_of(self)

    def test_each_write_is_cut(self):
        for torn in TORN:
            with self.subTest(f"a cut at each of {SUM_OF_WRITES} writes: {torn}"):
                for number in range(1, SUM_OF_WRITES + 1):
                    replies, sequence, types = cut_at(number, torn)
                    self.assertEqual(ended(replies), self.run_cut(number, torn), f"write {number}")
                    shown = state("steady", "-", sequence, [0, 0], " ".join(types))
                    self.assertEqual((0, shown, b""), self.run_program(["show", PAIR, "flash"]), f"write {number}")

    def test_a_cut_after_the_last_write_is_none(self):
        self.assertEqual(ended(USUAL), self.run_cut(SUM_OF_WRITES + 1, "hex:00"))


class EventCutTest(ProgramTest):
    def writes_of(self, device, whole, events):
        """How many writes these events make, fewer than 1000. A cut at a later write has no effect."""
        few, beyond = 0, 1000
        while beyond - few > 1:
            middle = (few + beyond) // 2
            self.file("flash", whole)
            _, output, _ = run_of(self, events, device, [(middle, "keep")])
            few, beyond = (middle, beyond) if b" cut\n" in output else (few, middle)
        return few

    def writes_of_last(self, device, whole, events):
        """The numbers of the writes of the last of these events, which are consecutive."""
        before = self.writes_of(device, whole, events.rpartition(", ")[0])
        return range(before + 1, self.writes_of(device, whole, events) + 1)

    def test_the_next_boot_ends_what_was_cut(self):
        for name, own, events, replies, then, done, is_one in EVENTS:
            with self.subTest(f"cut at each write: {name}"):
                whole = new_device(self, own)
                writes = self.writes_of_last(own, whole, events)
                self.assertTrue(len(writes) == 1 if is_one else len(writes) >= 25, writes)
                for number in writes:
                    for torn, sets in TORN_UNITS.items():
                        self.file("flash", whole)
                        reply = done if sets and number == writes[-1] else then
                        got = run_of(self, f"{events}, boot", own, [(number, torn)])
                        self.assertEqual(ended([*replies, "cut", reply]), got, f"write {number}, {torn}")

    def test_a_withdrawn_request_stands_or_is_gone(self):
        whole = new_device(self)
        writes = self.writes_of_last(PAIR, whole, f"{REQUESTED}, withdraw 0")
        # The withdrawn unit, the first sector of the slot, and the trailer.
        self.assertEqual(3, len(writes))
        for done, number in enumerate(writes):
            for torn in [*TORN_UNITS, *[GOOD_TRAILER] * (done > 0)]:
                self.file("flash", whole)
                reply = WAITS if done == 0 and not TORN_UNITS[torn] else PLAIN
                got = run_of(self, f"{REQUESTED}, withdraw 0, boot", cuts=[(number, torn)])
                self.assertEqual(ended([PLAIN, *3 * ["done"], "cut", reply]), got, f"write {number}, {torn}")
