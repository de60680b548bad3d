"""Tests of the Python module and of its library: each example of the repository, a power cut at each write of a boot, and
contents that no call wrote. `python3 bindings/python/test_bootswap.py` runs them."""

import array
import copy
import hashlib
import json
import os
import random
import sys
import threading
import time
import unittest
import uuid
from unittest import mock

import bootswap
from bootswap import BadManifest, Component, Cut, Device, Fault, ImageFault, Kind, Manifest, ManifestFault, Need, Number
from bootswap import Phase, Reason, State, UploadFault, Version

EXAMPLES = f"{os.path.dirname(os.path.realpath(__file__))}/../../examples"


def read(name):
    with open(f"{EXAMPLES}/{name}", "rb") as it:
        return it.read()


def names_in(folder):
    return sorted(os.path.splitext(it)[0] for it in os.listdir(f"{EXAMPLES}/{folder}"))


def device_of(name):
    """Returns the device of a device file, provisioned with the same image in all primary slots."""
    it = json.loads(read(f"devices/{name}.json"))
    vendor, class_id = uuid.UUID(it["vendor-id"]), uuid.UUID(it["class-id"])
    device = Device(it["sector"], it["sectors"], it.get("trial-boots", 1), vendor, class_id, raises_refusals=False)
    for image in range(len(it["sectors"])):
        device.write(image, read("images/one.img"))
    assert device.provision().number == Number.DONE
    return device


def components_of(manifest):
    """Returns the components in the JSON text of a manifest."""
    for it in manifest["components"]:
        kind = Kind.PERMANENT if it["kind"] == "permanent" else Kind.TEST
        precursor = bytes.fromhex(it["precursor-digest"]) if "precursor-digest" in it else None
        yield Component(it["component-id"], it["size"], bytes.fromhex(it["payload-digest"]), kind, precursor)


class Script:
    """The events of a script on a device, and the lines that the command `run` prints for each."""

    def __init__(self, device):
        self.device, self.armed, self.writes, self.lines, self.count = device, {}, 0, [], 0

    def play(self, text):
        for line in text.splitlines():
            word, *words = line.split()
            if word == "cut":
                write, left = words
                self.armed[int(write)] = bytes.fromhex(left[4:]) if left.startswith("hex:") else left
                continue
            self.count += 1
            reply = self.call(word, words)
            self.writes += reply.writes
            self.lines += self.told(reply)
        return "".join(f"{it}\n" for it in self.lines)

    def call(self, word, words):
        cuts = [Cut(write - self.writes, left) for write, left in self.armed.items() if write > self.writes]
        if word == "boot":
            return self.device.boot(cuts)
        if word == "accept":
            manifest = self.device.read_manifest(read(words[0].removeprefix("examples/")))
            return self.device.accept(manifest.sequence, manifest.components, cuts)
        if word == "piece":
            file = read(words[1].removeprefix("examples/"))
            at, length = map(int, words[2:]) if len(words) > 2 else (0, len(file))
            return self.device.piece(int(words[0]), file[at : at + length], cuts)
        return getattr(self.device, word)(int(words[0]), cuts)

    def told(self, reply):
        images = " ".join(map(str, reply.images))
        if reply.number == Number.BOOTED:
            kind = "permanent" if reply.permanent else "trial" if reply.images else "plain"
            return [f"{self.count} {kind}", *reply.report.splitlines()]
        if reply.number == Number.TRIAL_AGAIN:
            return [f"{self.count} trial-again {images} left {reply.left}"]
        if reply.number == Number.REVERTED:
            return [f"{self.count} reverted {images}"]
        if reply.number == Number.REFUSED:
            return [f"{self.count} refused upload {reply.detail} {reply.detail.name}"]
        return [f"{self.count} {reply.number.name.lower()}"]


class Texts(unittest.TestCase):
    def test_each_table_has_its_report(self):
        for name in names_in("tables"):
            table, report = read(f"tables/{name}.txt").decode(), read(f"reports/{name}.txt").decode()
            self.assertEqual(bootswap.choose(table), report)
            self.assertTrue(bootswap.check(table, report))

    def test_a_report_of_another_table_is_wrong(self):
        self.assertFalse(bootswap.check(read("tables/neither.txt").decode(), read("reports/either.txt").decode()))

    def test_a_bad_line_is_named(self):
        with self.assertRaises(bootswap.BootswapError) as caught:
            bootswap.choose("image 0 1.0.0+0 0 0\nimage 2 1.0.0+0 0 0\n")
        self.assertEqual((caught.exception.number, caught.exception.line), (Number.NO_TABLE, 2))
        with self.assertRaises(bootswap.BootswapError) as caught:
            bootswap.check("image 0 1.0.0+0 0 0\n", "run 0 1.0.0+0\nrun\n")
        self.assertEqual((caught.exception.number, caught.exception.line), (Number.NO_REPORT, 2))

    def test_running_images_that_do_not_fit_are_refused(self):
        with self.assertRaises(bootswap.BootswapError) as caught:
            bootswap.choose("image 0 1.0.0+0 0 0\nneeds 0 2.0.0+0\n")
        self.assertEqual(caught.exception.number, Number.INVALID_SET)


class Images(unittest.TestCase):
    def test_each_image_has_its_description(self):
        for name in names_in("images"):
            told, lines = bootswap.describe(read(f"images/{name}.img")), []
            if isinstance(told, int):
                lines = [f"refused {told} {told.name}"]
            else:
                lines += [f"version {told.version}", f"length {told.length}", f"counter {told.counter}"]
                lines += [f"digest {told.digest.hex()}"]
                lines += [f"needs {it.image} {it.minimum}" for it in told.needs]
                lines += ["needs-one" + "".join(f" {it.image} {it.minimum}" for it in one) for one in told.groups]
            wanted = read(f"descriptions/{name}.txt").decode()
            self.assertTrue(wanted.startswith("\n".join(lines)), (name, lines, wanted))

    def test_the_digest_of_abc(self):
        wanted = "ba7816bf8f01cfea414140de5dae2223b00361a396177a9cb410ff61f20015ad"
        self.assertEqual(bootswap.digest(b"abc").hex(), wanted)


class Buffers(unittest.TestCase):
    """Any buffer is its bytes, as for `hashlib`."""

    def buffers(self, name):
        """Returns a file of whole units of 4 bytes as bytes, and as buffers whose items are others."""
        file = read(name)
        file += b"\xff" * (-len(file) % 4)
        numbers, spread = array.array("I", file), bytearray(2 * len(file))
        spread[::2] = file
        views = [memoryview(file).cast("H"), memoryview(file).cast("B", [2, len(file) // 2]), memoryview(spread)[::2]]
        return file, [bytearray(file), numbers, *views]

    def test_a_digest(self):
        file, buffers = self.buffers("images/one.img")
        for buffer in buffers:
            self.assertEqual(bootswap.digest(buffer), hashlib.sha256(file).digest())
        numbers = array.array("I", [1, 2, 3])
        self.assertEqual(bootswap.digest(numbers), hashlib.sha256(numbers).digest())

    def test_a_description(self):
        file, buffers = self.buffers("images/one.img")
        for buffer in buffers:
            self.assertEqual(bootswap.describe(buffer), bootswap.describe(file))

    def test_a_component(self):
        file, buffers = self.buffers("images/one.img")
        for buffer in buffers:
            self.assertEqual(Component.of(0, buffer), Component(0, len(file), hashlib.sha256(file).digest()))

    def test_the_text_of_a_manifest(self):
        it = json.loads(read("manifests/both.json"))
        device = Device(512, [2, 2], 1, uuid.UUID(it["vendor-id"]), uuid.UUID(it["class-id"]))
        text = read("manifests/both.json")
        text += b" " * (-len(text) % 4)
        for buffer in (bytearray(text), array.array("I", text), memoryview(text).cast("H")):
            self.assertEqual(device.read_manifest(buffer), device.read_manifest(text))

    def test_a_written_file_and_an_upload(self):
        (old, olds), (new, news) = self.buffers("images/one.img"), self.buffers("images/patched.img")
        for first, second in zip(olds, news):
            device = Device(512, [2])
            device.write(0, first)
            self.assertEqual(device.flash, old + b"\xff" * (len(device.flash) - len(old)))
            device.provision()
            device.boot()
            digests = array.array("I", hashlib.sha256(new).digest()), array.array("I", device.slot(0).digest)
            device.accept(1, [Component(0, len(new), digests[0], Kind.PERMANENT, digests[1])])
            device.piece(0, second)
            device.finish(0)
            self.assertEqual(str(device.boot().versions[0]), "1.1.0+0")

    def test_a_flash(self):
        flash = array.array("I", b"\xff" * 512 * 10)
        device = Device(512, [2], flash=flash)
        device.write(0, read("images/one.img"))
        device.provision()
        self.assertEqual(device.boot().versions, (device.slot(0).version,))
        self.assertEqual(device.state().phase, Phase.STEADY)
        self.assertEqual(flash.tobytes()[:4], read("images/one.img")[:4])

    def test_items_that_are_no_bytes_are_no_digest(self):
        device = device_of("pair")
        device.boot()
        for given in (array.array("I", [300] * 32), array.array("H", [1] * 32), b"", bytes(33)):
            with self.assertRaises(ValueError):
                device.accept(1, [Component(0, 8, given)])
            with self.assertRaises(ValueError):
                device.accept(1, [Component(0, 8, bytes(32), precursor=given)])

    def test_what_is_no_buffer(self):
        device = device_of("pair")
        device.boot()
        flash = bytes(device.flash)
        for given in ("abcdefgh", [1, 2, 3, 4], 8, None):
            calls = [lambda: bootswap.digest(given), lambda: bootswap.describe(given), lambda: Component.of(0, given)]
            calls += [lambda: device.piece(0, given), lambda: device.write(0, given)]
            calls += [lambda: device.accept(1, [Component(0, 8, given)])]
            calls += [lambda: device.read_manifest(given)] * (given != "abcdefgh")
            for call in calls:
                with self.subTest(given), self.assertRaises(TypeError):
                    call()
        self.assertEqual(device.flash, flash)


class Threads(unittest.TestCase):
    """Calls in several threads at the same time."""

    def run_in_threads(self, count, call):
        """Calls something in threads that change often, and raises what one of them raises."""
        interval, errors = sys.getswitchinterval(), []

        def run(number):
            try:
                call(number)
            except Exception as error:
                errors.append(error)

        threads = [threading.Thread(target=run, args=(number,)) for number in range(count)]
        sys.setswitchinterval(1e-5)
        try:
            for it in threads:
                it.start()
            for it in threads:
                it.join()
        finally:
            sys.setswitchinterval(interval)
        self.assertEqual(errors, [])

    def test_manifests(self):
        text = json.loads(read("manifests/both.json"))
        vendor, class_id = uuid.UUID(text["vendor-id"]), uuid.UUID(text["class-id"])

        def read_many(number):
            device, value = Device(512, [2, 2], 1, vendor, class_id), {**text, "sequence-number": number}
            given = json.dumps(value)
            wanted = Manifest(number, tuple(components_of(value)))
            for _ in range(1000):
                self.assertEqual(device.read_manifest(given), wanted)

        self.run_in_threads(8, read_many)

    def test_the_calls_of_a_device_follow_each_other(self):
        device, running, most = device_of("pair"), [], []

        def slowly(*given):
            running.append(given)
            time.sleep(0.002)
            most.append(len(running))
            running.pop()
            return 0

        names = [f"simulate_{it}" for it in "provision boot accept piece finish withdraw confirm".split()]
        names += ["reset", "slot", "state"]
        calls = [device.provision, device.boot, lambda: device.accept(1, []), lambda: device.piece(0, b"")]
        calls += [lambda: device.finish(0), lambda: device.withdraw(0), lambda: device.confirm(0), device.reset]
        calls += [lambda: device.slot(0), lambda: self.assertRaises(ValueError, device.state), device.start]
        with mock.patch.multiple(bootswap._LIBRARY, **{f"bootswap_{it}": slowly for it in names}):
            self.run_in_threads(len(calls), lambda number: calls[number]())
        self.assertEqual(most, [1] * len(calls))

    def test_the_calls_of_two_devices_do_not(self):
        both = threading.Barrier(2, timeout=20)
        devices = device_of("pair"), device_of("pair")
        with mock.patch.object(bootswap._LIBRARY, "bootswap_simulate_finish", lambda *given: both.wait() * 0):
            self.run_in_threads(2, lambda number: devices[number].finish(0))

    def test_a_copy_of_a_device_is_another_one(self):
        device = device_of("pair")
        device.boot()
        other = copy.deepcopy(device)
        self.assertTrue(other.is_booted)
        other.accept(7, [Component.of(0, read("images/patched.img"))])
        other.reset()
        self.assertEqual((device.state().sequence, device.is_booted), (0, True))
        self.assertEqual((other.state().sequence, other.is_booted), (7, False))


class Manifests(unittest.TestCase):
    def setUp(self):
        it = json.loads(read("manifests/both.json"))
        self.vendor, self.class_id = uuid.UUID(it["vendor-id"]), uuid.UUID(it["class-id"])

    def device(self, images=2, **more):
        return Device(512, [2] * images, **{"vendor": self.vendor, "class_id": self.class_id, **more})

    def check_refused(self, fault, device, text, room=None):
        with self.assertRaises(BadManifest) as caught:
            device.read_manifest(text, room)
        self.assertEqual((caught.exception.fault, str(caught.exception)), (fault, f"the manifest is refused: {fault.name}"))

    def test_each_text_is_read(self):
        for name in names_in("manifests"):
            text = read(f"manifests/{name}.json")
            value = json.loads(text)
            wanted = Manifest(value["sequence-number"], tuple(components_of(value)))
            self.assertEqual(self.device(8).read_manifest(text), wanted, name)
            self.assertEqual(self.device(8).read_manifest(text.decode()), wanted, name)

    def test_the_largest_manifest_is_read(self):
        fields = {"kind": "test", "size": 2**32 - 1, "precursor-digest": "f" * 64}
        components = [{"component-id": i, "payload-digest": f"{i:064x}", **fields} for i in range(8)]
        value = {"manifest-version": 1, "sequence-number": 2**32 - 1, "vendor-id": f"urn:uuid:{self.vendor}"}
        value = {**value, "class-id": f"urn:uuid:{self.class_id}", "components": components}
        wanted = Manifest(2**32 - 1, tuple(components_of(value)))
        self.assertEqual(self.device(8).read_manifest(json.dumps(value)), wanted)

    def test_the_lowest_refusal_is_raised(self):
        text = read("manifests/both.json").decode()
        twice = text.replace('"component-id": 1', '"component-id": 0')
        for fault, device, given in (
            (ManifestFault.NotJson, self.device(), ""),
            (ManifestFault.NotJson, self.device(), text[:-2]),
            (ManifestFault.NotJson, self.device(), b"\xff"),
            (ManifestFault.BadKey, self.device(), text.replace("kind", "sort")),
            (ManifestFault.BadValue, self.device(vendor=self.class_id), text.replace("permanent", "forever")),
            (ManifestFault.WrongVendor, self.device(vendor=self.class_id, class_id=self.vendor), text),
            (ManifestFault.WrongClass, self.device(1, class_id=self.vendor), text),
            (ManifestFault.NoComponent, self.device(1), text),
            (ManifestFault.RepeatedComponent, self.device(), twice),
        ):
            self.check_refused(fault, device, given)

    def test_less_memory_is_refused_and_more_is_not(self):
        text, device = read("manifests/both.json"), self.device()
        wanted, most, found = device.read_manifest(text), bootswap.MANIFEST_ROOM + len(text), []
        for room in range(0, most, 8):
            try:
                found.append(device.read_manifest(text, room) == wanted)
            except BadManifest as error:
                self.assertEqual(error.fault, ManifestFault.NoMemory)
                found.append(None)
        self.assertEqual(found, [None] * found.count(None) + [True] * found.count(True))
        self.assertLess(2000, 8 * found.count(None))
        self.assertLess(8 * found.count(None), most - 4000)


class Devices(unittest.TestCase):
    def test_each_script_has_its_output(self):
        for name in names_in("scripts"):
            kind = name if name in names_in("devices") else "pair"
            said = Script(device_of(kind)).play(read(f"scripts/{name}.txt").decode())
            self.assertEqual(said, read(f"outputs/{name}.txt").decode(), name)

    def requested(self):
        """Returns a booted device with permanent requests for both images."""
        device = device_of("pair")
        device.boot()
        needing, partner = read("images/needing.img"), read("images/partner.img")
        device.accept(1, [Component.of(0, needing, Kind.PERMANENT), Component.of(1, partner, Kind.PERMANENT)])
        for image, file in enumerate((needing, partner)):
            for at in range(0, len(file), 5):
                self.assertEqual(device.piece(image, file[at : at + 5]).number, Number.DONE)
            self.assertEqual(device.finish(image).number, Number.DONE)
        return device

    def test_a_boot_that_is_cut_at_any_write_ends_with_the_same_set(self):
        before = self.requested()
        kept, flash = bytes(before._saved), bytes(before.flash)
        writes = before.boot().writes
        self.assertGreater(writes, 20)
        new = Version(2)
        for write in range(1, writes + 1):
            device = Device(512, [2, 2], flash=bytearray(flash))
            device._saved = type(device._saved).from_buffer_copy(kept)
            self.assertEqual(device.boot([Cut(write, b"\x5a\x00")]).number, Number.CUT)
            self.assertFalse(device.is_booted)
            reply = device.boot()
            self.assertEqual((reply.number, reply.versions), (Number.BOOTED, (new, new)), write)
            self.assertEqual([device.slot(image).version for image in (0, 1)], [new, new])
            self.assertTrue(bootswap.check(reply.table, reply.report))

    def test_the_log_has_the_state(self):
        device = Device(512, [2, 2], trial_boots=3)
        with self.assertRaises(bootswap.BootswapError) as caught:
            device.state()
        self.assertEqual(caught.exception.number, Number.NO_LOG)
        for image in (0, 1):
            device.write(image, read("images/one.img"))
        device.provision()
        self.assertEqual(device.state(), State(Phase.STEADY, (), False, 0, 0, (0, 0)))
        device.boot()
        file = read("images/patched.img")
        device.accept(7, [Component.of(1, file)])
        self.assertEqual(device.state(), State(Phase.STEADY, (), False, 0, 7, (0, 0)))
        device.piece(1, file)
        device.finish(1)
        self.assertEqual(device.boot().images, (1,))
        self.assertEqual(device.state(), State(Phase.TRIAL, (1,), False, 2, 7, (0, 0)))
        self.assertEqual(device.boot().left, 1)
        self.assertEqual(device.state(), State(Phase.TRIAL, (1,), False, 1, 7, (0, 0)))
        device.confirm(1)
        self.assertEqual(device.boot().number, Number.BOOTED)
        self.assertEqual(device.state(), State(Phase.STEADY, (), False, 0, 7, (0, 5)))
        device.flash[device.place(1, 1) + 3 * 512 :] = b"\x00" * (len(device.flash) - device.place(1, 1) - 3 * 512)
        with self.assertRaises(bootswap.BootswapError) as caught:
            device.state()
        self.assertEqual(caught.exception.number, Number.NO_LOG)

    def test_a_boot_that_is_cut_leaves_its_phase_in_the_log(self):
        device = self.requested()
        kept, flash, phases = bytes(device._saved), bytes(device.flash), []
        for write in range(1, device.boot().writes + 1):
            device.flash[:], device._saved = flash, type(device._saved).from_buffer_copy(kept)
            device.boot([Cut(write)])
            state = device.state()
            self.assertEqual((state.images, state.permanent), ((0, 1), True) if state.phase > 1 else ((), False))
            phases.append(state.phase)
        phases = [phase for i, phase in enumerate(phases) if phase not in phases[i - 1 : i]]
        self.assertEqual(phases, [Phase.STEADY, Phase.SWAP, Phase.SETTLE])

    def on_trial(self, requested=(1,), **more):
        """Returns a device whose next boot reverts image 1, which is on trial. If image 0 is requested too, it isn't taken
        yet: it was damaged in that boot, and is intact again."""
        device, file = Device(512, [2, 2], **more), read("images/patched.img")
        for image in (0, 1):
            device.write(image, read("images/one.img"))
        device.provision()
        device.boot()
        device.accept(1, [Component.of(image, file) for image in requested])
        for image in requested:
            device.piece(image, file)
            device.finish(image)
        device.flash[device.place(0, side=1) + 40] ^= 1
        self.assertEqual(device.start().images, (1,))
        device.flash[device.place(0, side=1) + 40] ^= 1
        return device

    def check_not_booted(self, device):
        """Checks that a saved state which says that the device is booted opens no call over an interrupted boot."""
        flash = bytes(device.flash)
        calls = {
            "accept": lambda: device.accept(9, [Component.of(0, read("images/patched.img"))]),
            "piece": lambda: device.piece(0, b"abcdefgh"),
            "finish": lambda: device.finish(0),
            "withdraw": lambda: device.withdraw(1),
            "confirm": lambda: device.confirm(1),
        }
        for name, call in calls.items():
            device._saved.is_booted = 1
            self.assertEqual(call().fault, Fault.NotBooted, name)
            self.assertEqual(device.flash, flash, name)

    def test_a_saved_state_opens_no_call_over_an_interrupted_boot(self):
        for before, phases in ((self.requested(), {Phase.SWAP, Phase.SETTLE}), (self.on_trial(), {Phase.BACK, Phase.BACK_SETTLE})):
            before.raises_refusals, kept, flash, seen = False, bytes(before._saved), bytes(before.flash), set()
            for write in range(1, before.boot().writes + 1):
                before.flash[:], before._saved = flash, type(before._saved).from_buffer_copy(kept)
                before.boot([Cut(write)])
                phase = before.state().phase
                if phase in phases:
                    self.check_not_booted(before)
                    seen.add(phase)
                before._saved.is_booted = 0
                self.assertIn(before.boot().number, (Number.BOOTED, Number.REVERTED), write)
            self.assertEqual(seen, phases)

    def test_a_loader_boots_once_more_after_a_boot_that_reverted(self):
        single, device = self.on_trial(), self.on_trial()
        boots, replies = [single.boot() for _ in range(3)], [device.start() for _ in range(2)]
        self.assertEqual([it.number for it in boots], [Number.REVERTED, Number.BOOTED, Number.BOOTED])
        self.assertEqual([(it.number, it.images, it.reverted) for it in replies], [
            (Number.BOOTED, (), (1,)),
            (Number.BOOTED, (), ()),
        ])
        self.assertEqual(replies[0].writes, boots[0].writes + boots[1].writes)
        self.assertEqual(replies[0].versions, (Version(1), Version(1)))
        self.assertEqual((device.flash, bytes(device._saved)), (single.flash, bytes(single._saved)))

    def test_a_loader_starts_nothing_after_a_refused_second_boot(self):
        for raises in (True, False):
            device = self.on_trial(raises_refusals=raises)
            device.flash[device.place(0) + 40] ^= 1
            if raises:
                with self.assertRaises(bootswap.Refused) as caught:
                    device.start()
                self.assertEqual(str(caught.exception), "boot is refused: RunningDamaged 0")
            reply = caught.exception.reply if raises else device.start()
            self.assertEqual((reply.number, reply.fault, reply.detail), (Number.REFUSED, Fault.RunningDamaged, 0))
            self.assertEqual((reply.reverted, reply.writes > 0, device.is_booted), ((1,), True, False))

    def test_the_cuts_of_a_start_count_the_writes_of_both_boots(self):
        device = self.on_trial(requested=(0, 1))
        kept, flash, numbers = bytes(device._saved), bytes(device.flash), set()
        first = device.boot().writes
        second = device.boot()
        self.assertEqual((second.images, second.writes > 20), ((0,), True))
        for write in range(1, first + second.writes + 1):
            device.flash[:], device._saved = flash, type(device._saved).from_buffer_copy(kept)
            reply = device.start([Cut(write), Cut(2**64 - 1)])
            self.assertEqual((reply.number, reply.writes, device.is_booted), (Number.CUT, write, False))
            self.assertEqual(reply.reverted, (1,) if write > first else ())
            reply = device.start()
            self.assertEqual((reply.number, reply.images, reply.versions[1]), (Number.BOOTED, (0,), Version(1)))
            numbers.add(reply.reverted)
        self.assertEqual(numbers, {(), (1,)})

    def test_a_manifest_without_components_is_refused(self):
        device = device_of("pair")
        device.boot()
        device.raises_refusals, flash, kept = True, bytes(device.flash), bytes(device._saved)
        for sequence in (0, 1, 2**32 - 1):
            with self.assertRaises(bootswap.Refused) as caught:
                device.accept(sequence, [])
            self.assertEqual(str(caught.exception), "accept is refused: Manifest BadValue")
            self.assertEqual(caught.exception.reply.detail, ManifestFault.BadValue)
            self.assertEqual((device.flash, bytes(device._saved)), (flash, kept))

    def test_what_a_boot_refuses_is_told_as_fields(self):
        device = device_of("either")
        Script(device).play("boot\naccept examples/manifests/either.json\npiece 0 examples/images/either.img\nfinish 0")
        (refusal,) = device.boot().refusals
        needs = (Need(1, Version(2)), Need(2, Version(2)))
        self.assertEqual((refusal.image, refusal.reason, refusal.needs), (0, Reason.NeedsOne, needs))

    def test_uploads_are_kept_between_calls_and_not_over_another_flash(self):
        device = device_of("pair")
        device.boot()
        file = read("images/patched.img")
        device.accept(1, [Component.of(0, file)])
        device.piece(0, file[:13])
        device.flash[device.place(0, 1) + 40] = 0
        reply = device.piece(0, file[13:])
        self.assertEqual((reply.fault, reply.detail), (Fault.Upload, UploadFault.NoSession))
        self.assertEqual(device.finish(0).fault, Fault.NotBooted)
        device.flash[device.place(0, 1) + 40] = 0xFF
        self.assertFalse(device.is_booted)

    def test_a_refusal_that_nobody_asked_for_is_raised(self):
        device = Device(512, [2])
        device.write(0, read("images/one.img"))
        with self.assertRaises(bootswap.Refused) as caught:
            device.boot()
        self.assertEqual(str(caught.exception), "boot is refused: NotProvisioned")
        self.assertEqual(caught.exception.reply.fault, Fault.NotProvisioned)
        device.provision()
        device.boot()
        with self.assertRaises(bootswap.Refused) as caught:
            device.piece(0, b"abcdefgh")
        self.assertEqual(str(caught.exception), "piece is refused: Upload NoSession")
        self.assertEqual(caught.exception.reply.detail, UploadFault.NoSession)
        with self.assertRaises(bootswap.Refused) as caught:
            device.accept(1, [Component.of(1, b"abcdefgh")])
        self.assertEqual(str(caught.exception), "accept is refused: Manifest NoComponent")
        self.assertEqual(caught.exception.reply.detail, ManifestFault.NoComponent)
        kept, flash = bytes(device._saved), bytes(device.flash)
        with self.assertRaises(bootswap.Refused) as caught:
            device.accept(1, [Component.of(0, b"abc"), Component.of(0, b"abcdefgh")])
        self.assertEqual(str(caught.exception), "accept is refused: Manifest RepeatedComponent")
        self.assertEqual(caught.exception.reply.detail, ManifestFault.RepeatedComponent)
        self.assertEqual((bytes(device._saved), bytes(device.flash)), (kept, flash))
        device.accept(1, [Component.of(0, b"abc")])
        device.piece(0, b"abc")
        with self.assertRaises(bootswap.Refused) as caught:
            device.finish(0)
        self.assertEqual(str(caught.exception), "finish is refused: Upload NotAnImage Short")
        self.assertEqual(caught.exception.reply.check, ImageFault.Short)
        device.flash[device.place(0)] = 0
        with self.assertRaises(bootswap.Refused) as caught:
            device.boot()
        self.assertEqual(str(caught.exception), "boot is refused: RunningDamaged 0")

    def test_arguments_that_do_not_fit_change_nothing(self):
        device = device_of("pair")
        device.boot()
        kept, flash = bytes(device._saved), bytes(device.flash)
        file = read("images/one.img")
        calls = [
            lambda: device.accept(-1, [Component.of(0, file)]),
            lambda: device.accept(2**32, [Component.of(0, file)]),
            lambda: device.accept(1, [Component.of(256, file)]),
            lambda: device.accept(1, [Component(0, -1, bytes(32))]),
            lambda: device.accept(1, [Component(0, 2**32, bytes(32))]),
            lambda: device.accept(1, [Component(0, 8, bytes(31))]),
            lambda: device.accept(1, [Component(0, 8, bytes(32), precursor=bytes(33))]),
            lambda: device.piece(-1, b"abcdefgh"),
            lambda: device.finish(256),
            lambda: device.boot([Cut(-1)]),
            lambda: device.boot([Cut(2**64)]),
            lambda: device.boot([Cut(1, b"123456789")]),
            lambda: device.boot([Cut(1, "half")]),
            lambda: device.write(0, b"\xff" * 1025),
            lambda: device.write(2, b"\xff"),
            lambda: device.write(0, b"\xff", side=2),
            lambda: device.place(-1),
            lambda: device.slot(256),
            lambda: Device(-512, [2]),
            lambda: Device(512, [2**32]),
            lambda: Device(512, [2], trial_boots=-1),
            lambda: Device(512, []),
        ]
        for number, call in enumerate(calls):
            with self.subTest(number), self.assertRaises(ValueError):
                call()
            self.assertEqual((bytes(device._saved), bytes(device.flash)), (kept, flash), number)
        device.write(1, b"\xff" * 1024, side=1)

    def test_any_contents_are_answered(self):
        numbers, device = random.Random(7), device_of("pair")
        for _ in range(3000):
            kept = bytes([numbers.choice((0, 1, 2)), 0, 0, 0]) + numbers.randbytes(416)
            if numbers.random() < 0.5:
                kept = kept[:4] + bytes(numbers.choice((0, 0, 1, 255)) for _ in range(416))
            device._saved = type(device._saved).from_buffer_copy(kept)
            device.flash[numbers.randrange(len(device.flash))] = numbers.randrange(256)
            call = numbers.choice((device.boot, lambda: device.piece(0, b"abcdefgh"), lambda: device.finish(1)))
            self.assertIn(call().number, (Number.BOOTED, Number.DONE, Number.REFUSED))

    def test_sizes_that_make_no_device_are_refused(self):
        for sector, sectors, boots, text in (
            (100, [2], 1, "no map has sectors of 100 bytes and slots of [2] sectors"),
            (500, [2], 1, "no map has sectors of 500 bytes and slots of [2] sectors"),
            (448, [2], 1, "no map has sectors of 448 bytes and slots of [2] sectors"),
            (131136, [2], 1, "no map has sectors of 131136 bytes and slots of [2] sectors"),
            (0, [2], 1, "no map has sectors of 0 bytes and slots of [2] sectors"),
            (512, [2, 0], 1, "no map has sectors of 512 bytes and slots of [2, 0] sectors"),
            (512, [20], 1, "no map has sectors of 512 bytes and slots of [20] sectors"),
            (131072, [2**32 - 1], 1, "no map has sectors of 131072 bytes and slots of [4294967295] sectors"),
            (512, [2], 0, "a trial has 1 to 7 boots, and not 0"),
            (512, [2], 8, "a trial has 1 to 7 boots, and not 8"),
        ):
            with self.assertRaises(ValueError) as caught:
                Device(sector, sectors, boots)
            self.assertEqual(str(caught.exception), text)
        for length in (1, 512 * 9, 512 * 10 + 1):
            with self.assertRaises(ValueError) as caught:
                Device(512, [2], flash=bytearray(length))
            self.assertEqual(str(caught.exception), f"the flash of this device doesn't have {length} bytes")
        with self.assertRaises(TypeError):
            Device(512, [2], flash=bytes(512 * 10))
        for sector, sectors, boots, count in ((512, [19], 1, 44), (131072, [2], 7, 10), (576, [1] * 8, 7, 36)):
            self.assertEqual(Device(sector, sectors, boots).flash, b"\xff" * sector * count)
        Device(512, [2], flash=bytearray(512 * 11))

    def test_calls_that_are_not_made_change_nothing(self):
        for flash in (b"", b"\xff", b"\xff" * 512 * 9, b"\xff" * (512 * 10 + 1)):
            device = Device(512, [2])
            device.flash[:] = flash
            with self.assertRaises(bootswap.BootswapError) as caught:
                device.boot()
            self.assertEqual((caught.exception.number, device.flash), (Number.NO_FLASH, flash))
        device = Device(512, [2])
        del device.flash[512:]
        with self.assertRaises(ValueError):
            device.write(0, b"\x00" * 600)
        self.assertEqual(device.flash, b"\xff" * 512)
        with self.assertRaises(bootswap.BootswapError) as caught:
            Device(512, [2]).slot(1)
        self.assertEqual(caught.exception.number, Number.NO_IMAGE)
        with self.assertRaises(bootswap.BootswapError) as caught:
            Device(512, [2]).boot([Cut(1)] * 17)
        self.assertEqual(caught.exception.number, Number.TOO_MANY)


if __name__ == "__main__":
    unittest.main()
