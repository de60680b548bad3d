"""What `slots` prints for a device. The contents, requests, progress and decision that it prints are proved."""

import fcntl
import re

from support.files import EXAMPLES, PAIR, read
from support.printed import error
from support.program import ProgramTest
from support.stories import UPLOADED, flash_in, new_device, run_of, state

OLD, FIRST_NEW, SECOND_NEW = (read(f"{EXAMPLES}/descriptions/{it}.txt") for it in ("one", "needing", "partner"))


def listed(number, primary, secondary, request="none"):
    """The lines of an image: the contents of each slot, and its request."""
    return f"slot {number} primary\n".encode() + primary + f"slot {number} secondary\n".encode() + secondary + (
        f"request {number} {request}\n".encode()
    )


# Events on a new device, and its list.
ERASED, RUNS = b"erased\n", b"run 0 1.0.0+0\nrun 1 1.0.0+0\n"
LISTS = {
    "reset": state("steady", "-", 0, [0, 0], "none none") + listed(0, OLD, ERASED) + listed(1, OLD, ERASED) + RUNS,
    UPLOADED: state("steady", "-", 1, [0, 0], "test test") + listed(0, OLD, FIRST_NEW, "test")
    + listed(1, OLD, SECOND_NEW, "test") + b"take 0 2.0.0+0\ntake 1 2.0.0+0\n",
    f"{UPLOADED}, boot": state("trial", "0 1", 1, [0, 0], "revert revert") + listed(0, FIRST_NEW, OLD)
    + listed(1, SECOND_NEW, OLD),
    "boot, accept first.json, piece 0 needing.img, finish 0": state("steady", "-", 1, [0, 0], "test none")
    + listed(0, OLD, FIRST_NEW, "test") + listed(1, OLD, ERASED) + RUNS + b"refuse 0 needs 1 2.0.0+0\n",
}


class SlotsTest(ProgramTest):
    def test_devices_at_rest_and_on_trial(self):
        for events, wanted in LISTS.items():
            with self.subTest(events):
                new_device(self)
                self.assertEqual(0, run_of(self, events)[0])
                whole = flash_in(self)
                self.assertEqual((0, wanted, b""), self.run_program(["slots", PAIR, "flash"]))
                self.assertEqual(whole, flash_in(self))

    def test_swap_that_was_interrupted(self):
        """Two sizes and a record of two writes come before it. A step takes four writes, the last one of its unit."""
        new_device(self)
        run_of(self, UPLOADED)
        run_of(self, "boot", cuts=[(2 + 2 + 3 * 4 + 4, "keep")])
        out = self.run_program(["slots", PAIR, "flash"])[1].decode()
        self.assertEqual(["moved 0 3 of 3", "moved 1 0 of 3"], re.findall("^moved .*", out, re.M))

    def test_flash_that_another_program_holds(self):
        new_device(self)
        for how, end in [(fcntl.LOCK_EX, error("flash in use")), (fcntl.LOCK_SH, (0, LISTS["reset"], b""))]:
            with self.held("flash", how):
                self.assertEqual(end, self.run_program(["slots", PAIR, "flash"]))
