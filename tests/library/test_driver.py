"""Devices over a driver in C, bindings/c/driver.c: power fails at each write, and the driver in each of its calls.

On ARM, test_file_device.py kills devices over driver.c, and test_c_file.py compares the library with that for this
processor.
"""

import itertools
import json
import os
import shutil
import unittest
from ctypes import POINTER, c_uint8

from support.compiled import needs_compiler
from support.driven import DRIVER_FAILED, INCLUDE, LONG, NAMES, NEEDING, NEW, NEWER, OLD, PARTNER, STRICT
from support.driven import Driven, DriverTest, manifest_of, replies_of, reply_of, setup_of
from support.files import EXAMPLES, ROOT, folder_for, names_in, read, write
from support.libraries import fenced, output_of, symbols
from support.processors import HERE
from support.program import ProgramTest
from support.worked import SUM_OF_WRITES, WORKED

PAIR = f"{EXAMPLES}/devices/pair.json"

# What an upgrade that is confirmed calls of the driver: a read of the flash, and the writes of its events, as the
# tables of docs/FORMATS.md have them. The last boot records that the trial is over.
CALLS = 1 + sum((0, 2, 2, 1, 2, 1, 38, 1, 1, 2))


def make_call(device, event):
    """Makes the call of a line of a script, and returns its number. A device that lost power is opened again."""
    word, *words = event.split()
    if word == "accept":
        given = json.loads(read(f"{ROOT}/{words[0]}"))
        manifest = NAMES._Manifest(given["sequence-number"], len(given["components"]))
        for row, it in zip(manifest.components, given["components"]):
            row.image, row.size, row.is_permanent = it["component-id"], it["size"], it["kind"] == "permanent"
            row.digest[:] = bytes.fromhex(it["payload-digest"])
        return device.accept(manifest)
    if word == "piece":
        file = read(f"{ROOT}/{words[1]}")
        at, length = map(int, words[2:]) if len(words) > 2 else (0, len(file))
        return device.piece(int(words[0]), file[at : at + length])
    return getattr(device, word)(*map(int, words))


def play(device, events):
    """Plays events on a device, and yields the device and the replies after each. After a power cut it is a new device
    over what the flash holds."""
    for event in events:
        number = make_call(device, event)
        replies = replies_of(device, number)
        if number == DRIVER_FAILED:
            device.flash.restart()
            device = Driven(device.calls, device.setup, device.flash, device.capacity, device.is_mapped)
            if device.open() != 0:
                device.flash.wrong.append("the device isn't opened again")
        yield device, replies


def ways_to_tear(change):
    """What a write leaves: nothing of the new bytes, all, the first half, or a pattern."""
    _, old, new = change
    half = new[: len(new) // 2] + old[len(new) // 2 :]
    return "keep", "done", f"hex:{half.hex()}", "hex:005a"


@needs_compiler
class ScriptsTest(DriverTest, ProgramTest):
    """Scripts with a power cut at each of their writes, beside `run` with the same cut.

    A boot over a driver that reverts boots once more. So the script for `run` has another `boot` after such a boot.
    """

    def test_each_script_answers_as_run_does_whichever_write_is_cut(self):
        for name in names_in("scripts"):
            with self.subTest(name):
                lines = read(f"{EXAMPLES}/scripts/{name}.txt").decode().splitlines()
                own = dict(line.split()[1:] for line in lines if line.startswith("cut "))
                own = {int(number): torn for number, torn in own.items()}
                events = [line for line in lines if not line.startswith("cut ")]
                device_file = f"{EXAMPLES}/devices/{name if name in names_in('devices') else 'pair'}.json"
                self.first = self.provisioned(device_file, json.loads(read(device_file)))
                writes, _ = self.compare(device_file, own, events)
                if name == WORKED:
                    self.assertEqual(SUM_OF_WRITES, writes)

    def test_a_boot_that_reverts_and_takes_a_request_answers_as_run_does(self):
        """Only another program leaves such a flash."""
        self.first = self.on_trial_with_request().state()[0]
        # Two reverts and an upgrade of an image whose swap moves one sector: each swap makes 3 * 4 writes and more.
        self.assertGreaterEqual(self.compare(PAIR, {}, ["boot", "boot"])[1], 4 * 36)

    def compare(self, device_file, own, events):
        """Compares each cut of a script that has cuts of its own. Returns its number of writes, and that of the
        cuts."""
        given = json.loads(read(device_file))
        setup = setup_of(given["sector"], given["sectors"], given.get("trial-boots", 1))
        device = self.over(self.first, setup, LONG)
        device.flash.cuts = own
        device.open()
        states, replies = [device.state()], []
        for device, got in play(device, events):
            states.append(device.state())
            replies.append(got)
        self.expect_run(device_file, own, events, replies, device)
        made, count = device.flash.made, 0
        writes = [(at, it) for at in range(len(events)) for it in range(states[at][1] + 1, states[at + 1][1] + 1)]
        for at, number in writes:
            for torn in () if number in own else ways_to_tear(made[number - 1]):
                count += 1
                cuts = {**own, number: torn}
                other = self.over(device.flash.bytes, setup, LONG)
                other.put(states[at])
                other.flash.cuts = cuts
                later = [*play(other, events[at:])]
                self.expect_run(device_file, cuts, events, [*replies[:at], *(got for _, got in later)], later[-1][0])
                self.assertEqual([], self.flashes.pop().wrong)
        return len(made), count

    def provisioned(self, device_file, given):
        """The flash file that `provision` makes. Provisioning over a driver makes the same."""
        self.file("flash", b"")
        self.run_program(["provision", device_file, "flash", *len(given["sectors"]) * [f"{EXAMPLES}/images/one.img"]])
        whole = read(f"{self.folder}/flash")
        self.assertEqual(whole, self.new_device(given["sector"], given["sectors"]).flash.bytes)
        return whole

    def expect_run(self, device_file, cuts, events, replies, device):
        """A run of the program with these cuts prints the replies, and leaves the same flash."""
        self.file("flash", self.first)
        script = [f"cut {number} {torn}" for number, torn in sorted(cuts.items())]
        script += [event for event, given in zip(events, replies) for _ in given]
        replies = [reply for given in replies for reply in given]
        status = 3 if replies[-1] == "cut" else int(replies[-1].startswith("refused"))
        wanted = status, "".join(f"{at} {reply}\n" for at, reply in enumerate(replies, 1)).encode(), b""
        got = self.run_program(["run", device_file, "flash", "-"], given="".join(f"{it}\n" for it in script).encode())
        self.assertEqual(wanted, got, cuts)
        self.assertEqual(read(f"{self.folder}/flash"), device.flash.bytes, cuts)


@needs_compiler
class FailuresTest(DriverTest):
    def upgrade(self, device):
        """Yields the numbers that the calls of an upgrade to two images return, which are then confirmed."""
        yield device.open()
        yield device.boot()
        yield device.accept(manifest_of(1, [(0, NEEDING, 0), (1, PARTNER, 0)]))
        for number, file in enumerate((NEEDING, PARTNER)):
            yield device.piece(number, file)
            yield device.finish(number)
        yield device.boot()
        yield device.confirm(0)
        yield device.confirm(1)
        yield device.boot()

    def test_a_device_boots_again_after_any_call_of_its_driver_failed(self):
        for count in itertools.count(1):
            device = self.new_device(capacity=LONG)
            device.flash.fails_at = device.flash.calls + count
            if DRIVER_FAILED not in self.upgrade(device):
                break
            self.assertFalse(device.is_booted, count)
            refused = [device.boot(), device.finish(0), device.provision(), device.piece(0, b"")]
            self.assertEqual(4 * [DRIVER_FAILED], refused, count)
            device.flash.restart()
            self.assertEqual((0, 1), (device.open(), device.boot()), count)
            self.assertIn([*device.versions()], (OLD, NEW), count)
        # The driver doesn't read a flash that is mapped.
        self.assertEqual(CALLS - self.is_mapped, count - 1)

    def test_a_refused_call_makes_its_writes(self):
        """`finish` writes the bytes that were held back before it compares the digest."""
        device = self.new_device()
        self.assertEqual((1, 0), (device.boot(), device.accept(manifest_of(1, [(0, bytes(77), 0)]))))
        self.assertEqual((0, 4), (device.piece(0, bytes(76) + b"Z"), device.finish(0)))
        self.assertEqual("refused upload 6 DigestWrong", reply_of(device, 4))
        self.assertEqual((6 * 512 + 72, 8 * b"\xff", bytes(4) + b"Z" + 3 * b"\xff"), device.flash.made[-1])

    def test_a_boot_of_several_attempts_ends_after_a_power_cut(self):
        """With the shortest journal. The next boot ends it, unless the last write was interrupted."""
        device = self.new_device()
        self.request(device, (NEEDING, PARTNER))
        for ends, later in (((1, 0, NEW), (1, 3, OLD)), ((1, 3, OLD), (1, 0, OLD))):
            state, first = device.state(), len(device.flash.made)
            self.assertEqual(ends, (device.boot(), device.device.reverted, [*device.versions()]))
            made, after = device.flash.made[first:], device.state()
            for number, change in enumerate(made, 1):
                for torn in ways_to_tear(change):
                    device.put(state)
                    device.flash.cuts = {device.flash.writes + number: torn}
                    self.assertEqual(DRIVER_FAILED, device.boot())
                    device.flash.restart()
                    got = device.open(), device.boot(), device.device.reverted, [*device.versions()]
                    wanted = [(0, *it) for it in (ends, later)[: 1 + (number == len(made))]]
                    self.assertIn(got, wanted, f"write {number}, {torn}")
            device.put(after)

    def other_over(self, device):
        """Another device over what the flash of a device holds."""
        return self.over(device.flash.bytes, device.setup, device.capacity)

    def test_an_application_resumes_what_its_loader_booted(self):
        """It takes uploads and confirms a trial, and makes no boot of its own."""
        loader, files = self.new_device(), (NEEDING, PARTNER)
        got, application = [loader.boot()], self.other_over(loader)
        got += [application.resume(), application.accept(manifest_of(1, [(0, NEEDING, 0), (1, PARTNER, 0)]))]
        for number, file in enumerate(files):
            got += [application.piece(number, file), application.finish(number)]
        self.assertEqual([1, *6 * [0]], got)
        loader = self.other_over(application)
        self.assertEqual([0, 1, 3], [loader.open(), loader.boot(), loader.device.result.set])
        application = self.other_over(loader)
        self.assertEqual((0, True), (application.resume(), application.is_booted))
        self.assertEqual(loader.flash.bytes, application.flash.bytes)
        self.assertEqual([0, 0], [application.confirm(0), application.confirm(1)])
        loader = self.other_over(application)
        self.assertEqual([0, 1, NEW], [loader.open(), loader.boot(), [*loader.versions()]])
        # A flash that is mapped isn't read.
        application.flash.fails_at = application.flash.calls + 1
        wanted = (0, True) if self.is_mapped else (DRIVER_FAILED, False)
        self.assertEqual(wanted, (application.resume(), application.is_booted))

    def test_a_device_that_is_not_opened_is_refused(self):
        """So is one that has neither a flash nor memory for a copy. Nothing is read."""
        device = self.new_device()
        other = self.other_over(device)
        if self.is_mapped:
            other.device.flash = POINTER(c_uint8)()
        manifest = manifest_of(1, [(0, NEEDING, 0)])
        got = [other.boot(), other.provision(), other.finish(0), other.accept(manifest)]
        other.device.flash, other.device.copy = 2 * [POINTER(c_uint8)()]
        got += [other.open(), other.resume(), other.boot()]
        self.assertEqual((7 * [DRIVER_FAILED], False), (got, other.is_booted))

    def test_a_boot_that_reverts_and_finds_damage_is_refused(self):
        """The damaged image is outside of the set."""
        device = self.new_device()
        self.request(device, [NEWER])
        self.assertEqual(1, device.boot())
        device.flash.bytes[3 * 512 + 40] ^= 1
        self.assertEqual(0, device.open())
        self.assertEqual("refused boot 5 RunningDamaged 1", reply_of(device, device.boot()))
        self.assertEqual((1, False), (device.device.reverted, device.is_booted))
        self.assertEqual(["1.0.0+0", None], [*device.versions()])
        self.assertEqual((4, 0), (device.boot(), device.device.reverted))

    def test_a_damaged_image_is_written_again(self):
        """As docs/PORTING.md says. During a swap all images are, and the device is provisioned."""
        device = self.new_device()
        self.request(device, (NEEDING, PARTNER))
        whole, before = bytes(device.flash.bytes), device.state()
        device.flash.bytes[3 * 512 : 5 * 512] = bytes(2 * 512)
        self.assertEqual([0, 4, 1], [device.open(), device.boot(), device.device.result.detail])
        device.flash.bytes[3 * 512 : 5 * 512] = whole[3 * 512 : 5 * 512]
        self.assertEqual([0, 1, NEW], [device.open(), device.boot(), [*device.versions()]])
        device.put(before)
        device.flash.cuts = {device.flash.writes + 20: "keep"}
        self.assertEqual(DRIVER_FAILED, device.boot())
        device.flash.restart()
        device.flash.bytes[: 13 * 512] = bytes(13 * 512)
        self.assertEqual([0, 4], [device.open(), device.boot()])
        for at in (0, 3 * 512):
            device.flash.bytes[at : at + 2 * 512] = whole[:1024]
        got = [device.open(), device.boot(), device.provision(), device.boot(), [*device.versions()]]
        self.assertEqual([0, 4, 0, 1, OLD], got)

    def test_provisioning_that_failed_is_made_again(self):
        device = self.new_device()
        calls, first = device.flash.calls, bytes(device.flash.bytes)
        device.flash.bytes[2 * 512] = 0
        self.assertEqual((0, 0), (device.open(), device.provision()))
        for n in range(1, device.flash.calls - calls):
            device.flash.bytes[2 * 512] = 0
            device.open()
            device.flash.fails_at = device.flash.calls + n
            self.assertEqual(DRIVER_FAILED, device.provision(), n)
            device.flash.restart()
            self.assertEqual([0, 0, 1], [device.open(), device.provision(), device.boot()], n)
            self.assertEqual(first, device.flash.bytes, n)


class MappedFailuresTest(FailuresTest):
    """The same for a flash that is mapped into memory, so that there is no copy of it."""

    is_mapped = True


@needs_compiler
class SourcesTest(unittest.TestCase):
    def setUp(self):
        self.folder = folder_for(self)

    def test_the_sources_and_the_listing_of_the_manual_compile_without_a_warning(self):
        """The headers also as C++."""
        listing, header = f"{self.folder}/listing.c", f"{self.folder}/header.cpp"
        for path, text in ((listing, "\n".join(fenced("docs/PORTING.md", "c"))), (header, "#include <driver.h>\n")):
            write(path, text)
        for compiler in filter(shutil.which, ("gcc", "clang")):
            for file in (f"{ROOT}/bindings/c/driver.c", f"{ROOT}/bindings/c/file_device.c", listing):
                with self.subTest(f"{os.path.basename(file)} by {compiler}"):
                    output_of([compiler, *STRICT, *INCLUDE, "-O2", "-c", file, "-o", f"{self.folder}/made.o"])
            output_of([compiler, "-x", "c++", *STRICT[1:], *INCLUDE, "-fsyntax-only", header])

    def test_the_driver_calls_the_library_memcpy_and_memset_only(self):
        """It has no data of its own."""
        made = f"{self.folder}/driver.o"
        HERE.compile([*STRICT, *INCLUDE, "-O1", "-fno-pie", "-c", f"{ROOT}/bindings/c/driver.c", "-o", made])
        called = {it[0] for it in symbols(made) if it[1] == "U" and not it[0].startswith("bootswap_")}
        self.assertEqual({"memcpy", "memset"}, called)
        self.assertEqual([], [it[0] for it in symbols(made) if it[1].upper() in "BDC"])
