"""Journals of devices over a driver in C: of each length, and with contents that the library never records.

That a journal records exactly the writes of its call, and that the bounds of the header are enough, is proved.
"""

import ctypes
import unittest
from ctypes import byref, c_size_t, c_uint8, c_uint64

from support.builders import image, version
from support.compiled import C, needs_compiler
from support.driven import CUT, DRIVER_FAILED, INCLUDE, JOURNAL, JOURNAL_TOO_SMALL, LONG, NAMES, NEEDING, NEWER, PARTNER
from support.driven import STRICT, DriverTest, manifest_of
from support.files import ROOT, folder_for
from support.processors import ARM, HERE, SMALL_ARM, needs_arm, needs_small_arm

# What a call asks of a journal at most: two components of images of two sectors, a piece of 96 bytes, and two images.
BOUNDS = {"accept": JOURNAL["ACCEPT"](2, 2 + 2), "piece": JOURNAL["PIECE"](96), "provision": JOURNAL["PROVISION"](2)}
BOUNDS |= {"finish": JOURNAL["FINISH"](), "withdraw": JOURNAL["WITHDRAW"](), "boot": JOURNAL["BOOT"](2, 512)}

# One step of a swap of sectors of 512 bytes.
STEP = 12 + 512 + 2 * 12 + 20


def words(*numbers):
    return b"".join(it.to_bytes(4, "little") for it in numbers)


@needs_compiler
class JournalsTest(DriverTest):
    def test_a_call_with_less_than_its_bound_changes_nothing(self):
        """But a boot: then the device isn't booted."""
        device = self.new_device(capacity=LONG)
        self.assertEqual(1, device.boot())
        manifest = manifest_of(1, [(0, NEEDING, 0), (1, PARTNER, 0)])
        calls = [("accept", (manifest,)), ("piece", (0, NEEDING)), ("finish", (0,)), ("withdraw", (0,))]
        for name, given in [*calls, ("provision", ()), ("boot", ())]:
            state, bound = device.state(), BOUNDS[name]
            for capacity in range(bound):
                device.device.journal_capacity = capacity
                self.assertEqual(JOURNAL_TOO_SMALL, getattr(device, name)(*given), name)
                flash, writes, saved, memory = device.state()
                self.assertEqual((state[:2], state[3]), ((flash, writes), memory), name)
                self.assertTrue(name == "boot" or saved == state[2], name)
            self.assertFalse(name == "boot" and device.is_booted)
            device.device.journal_capacity = bound
            self.assertEqual(int(name == "boot"), getattr(device, name)(*given), name)

    def test_a_boot_with_the_shortest_journal_ends(self):
        """Of eight images, wherever the log is, and of larger sectors."""
        for sector, count, records in [*((512, 8, it) for it in range(8)), (1024, 2, 0), (4096, 2, 0)]:
            with self.subTest(f"{count} images, sectors of {sector} bytes, {records} records"):
                device = self.new_device(sector, count * [1])
                self.assertEqual(1, device.boot())
                for record in range(records):
                    self.assertEqual(0, device.accept(manifest_of(record + 1, [(0, NEEDING, 0)])))
                self.request(device, count * [NEWER], records + 1)
                self.assertEqual((1, count * ["2.0.0+0"]), (device.boot(), [*device.versions()]))
                self.assertEqual((1, 2**count - 1), (device.boot(), device.device.reverted))
                self.assertEqual(count * ["1.0.0+0"], [*device.versions()])

    def test_an_attempt_repeats_no_more_of_a_step_than_the_first_began(self):
        """Here a journal holds two steps, what follows the last one, and 100 bytes. The first attempt performs 4
        writes (two sizes and a record) and a step, and then has 440 bytes of two steps left: an erase (12) and a
        program of 256 bytes (268), but not another one."""
        device = self.new_device(capacity=BOUNDS["boot"] + STEP + 100)
        self.request(device, (NEEDING, PARTNER))
        first = len(device.flash.made)
        self.assertEqual((1, 38 + 2), (device.boot(), device.device.result.writes))
        self.assertEqual(38 + 2, len(device.flash.made) - first)

    def test_the_shortest_journal_erases_one_sector_more_than_a_long_one(self):
        files, erases = [image([], body=bytes(count * 1024 - 100), own=version(2)) for count in (3, 2)], []
        for capacity in (4 * LONG, JOURNAL["BOOT"](2, 1024)):
            device = self.new_device(1024, (3, 2), capacity=4 * LONG)
            self.request(device, files)
            device.device.journal_capacity = capacity
            first = len(device.flash.made)
            self.assertEqual(1, device.boot())
            erases.append(sum(new == 1024 * b"\xff" for _, _, new in device.flash.made[first:]))
        self.assertGreaterEqual(erases[0], 3 * 5)
        self.assertEqual(erases[0] + 1, erases[1])

    def test_calls_read_short_arguments_from_the_low_bits_of_a_register(self):
        device = self.new_device(capacity=LONG)
        numbers = device.boot(), device.accept(manifest_of(1, [(1, NEEDING, 0)]))
        self.assertEqual((1, 0), numbers)
        flash, saved = (byref(device.setup), device.memory, c_size_t(len(device.memory))), device.device.saved
        before = bytes(saved)
        for name, more in (("piece", [NEEDING, c_size_t(len(NEEDING))]), ("withdraw", []), ("confirm", [])):
            got = []
            for short in (c_uint8(1), c_uint64(0xA5A5_A5A5_A5A5_A501)):
                ctypes.memmove(byref(saved), before, len(before))
                made = NAMES._CallResult()
                given = byref(saved), device.journal, c_size_t(LONG), short, *more, byref(made)
                number = getattr(self.calls, f"bootswap_journal_{name}")(*flash, *given)
                got.append((number, bytes(made), bytes(device.journal[: made.journal_length]), bytes(saved)))
            self.assertEqual(got[0], got[1], name)
            self.assertEqual({"piece": 0}.get(name, 4), got[0][0], name)


# Journals after which a write would be wrong, by what is wrong, and the number of their bytes that the library says it
# used.
GOOD = words(0, 512, 8) + b"ABCDEFGH"
MALFORMED = {
    "half of the numbers": (GOOD[:11], 11),
    "a kind that isn't known": (words(2, 512, 8) + bytes(8), 20),
    "an erase of half a sector": (words(1, 512, 256) + bytes(8), 12),
    "an erase within a sector": (words(1, 520, 512) + bytes(8), 12),
    "an erase of no bytes": (words(1, 512, 0) + bytes(8), 12),
    "a program of no bytes": (words(0, 512, 0) + bytes(8), 12),
    "a program of half a unit": (words(0, 512, 4) + bytes(8), 16),
    "a program within a unit": (words(0, 516, 8) + bytes(8), 20),
    "a program past the flash": (words(0, 5120, 8) + bytes(8), 20),
    "a program past all addresses": (words(0, 2**32 - 8, 16) + bytes(16), 28),
    "a program longer than the flash": (words(0, 0, 2**32 - 8) + bytes(8), 20),
    "a program longer than the journal": (words(0, 512, 64) + bytes(8), 20),
    "a program whose last unit is missing": (words(0, 512, 16) + bytes(8), 20),
    "more bytes than the journal has": (GOOD, 21),
    "far more bytes than it has": (GOOD, 2**63),
}


@needs_compiler
class MalformedTest(unittest.TestCase):
    """Journals of a stand-in for the library."""

    processor = HERE

    @classmethod
    def setUpClass(cls):
        folder = folder_for(cls)
        cls.program, files = f"{folder}/malformed", [f"{C}/malformed.c", f"{ROOT}/bindings/c/driver.c"]
        cls.processor.compile([*STRICT, "-O1", *INCLUDE, *files, "-o", cls.program])

    def ran(self, call, number, used, journal):
        """Makes a call that returns a number, and says that it used N bytes of a journal. Returns what is printed."""
        return self.processor.output_of(self.program, call, str(number), str(used), journal.hex()).decode().splitlines()

    def test_a_write_that_is_malformed_is_a_failure(self):
        """The write before it is performed. No byte after the journal is read."""
        for name, (journal, used) in MALFORMED.items():
            with self.subTest(name):
                performed = [f"program 512 {b'ABCDEFGH'.hex()}"] * (used <= len(journal))
                got = self.ran("confirm", 0, 20 + used, GOOD + journal)
                self.assertEqual([*performed, f"{DRIVER_FAILED} 1 0"], got)

    def test_writes_are_made_in_their_order_up_to_the_last_byte(self):
        wanted = ["erase 1024 512", f"program 1032 {bytes(range(16)).hex()}", "0 1 1"]
        journal = words(1, 1024, 512) + words(0, 1032, 16) + bytes(range(16))
        self.assertEqual(wanted, self.ran("confirm", 0, 40, journal))

    def test_a_boot_whose_attempts_are_all_cut_ends(self):
        """After three for each sector of the slots, and seventeen."""
        shortest, most = JOURNAL["BOOT"](1, 512), 3 * 2 + 17
        for journal, used in ((bytes(shortest), 0), ((words(0, 512, 8) + bytes(shortest))[:shortest], 20)):
            *performed, last = self.ran("boot", CUT, used, journal)
            self.assertEqual((f"{JOURNAL_TOO_SMALL} {most} 1", most * (used > 0)), (last, len(performed)))

    def test_two_boots_that_revert_are_a_failure(self):
        self.assertEqual([f"{DRIVER_FAILED} 2 0"], self.ran("boot", 2, 0, bytes(JOURNAL["BOOT"](1, 512))))


@needs_arm
class ArmMalformedTest(MalformedTest):
    processor = ARM


@needs_small_arm
class SmallArmMalformedTest(MalformedTest):
    processor = SMALL_ARM
