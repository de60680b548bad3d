"""Devices over a flash driver: the calls of bindings/c/driver.h on a flash whose driver is in Python."""

import ctypes
import hashlib
import unittest
from ctypes import CFUNCTYPE, POINTER, byref, c_char, c_int, c_size_t, c_uint8, c_uint32, c_void_p

from support.builders import image, version
from support.files import EXAMPLES, ROOT, folder_for, read
from support.headers import journal_bounds
from support.libraries import python_module
from support.processors import HERE

DRIVER_FAILED, JOURNAL_TOO_SMALL, CUT = 32, 33, 5

# The bytes after each journal, which no call may write.
CANARY = bytes(range(0xA0, 0xE0))

# What C asks of the names that it calls.
STRICT = ["-std=c11", "-Wall", "-Wextra", "-Wpedantic", "-Wconversion", "-Werror"]
INCLUDE = ["-I", f"{ROOT}/include", "-I", f"{ROOT}/bindings/c"]

# A journal that is long enough for each call of the tests, and the bounds of the header.
LONG, JOURNAL = 16384, journal_bounds()

NEWER = image([], own=version(2))
ONE, NEEDING, PARTNER = (read(f"{EXAMPLES}/images/{name}.img") for name in ("one", "needing", "partner"))
OLD, NEW = 2 * ["1.0.0+0"], 2 * ["2.0.0+0"]

FAULTS = {1: "NotBooted", 2: "OnTrial", 3: "NotOnTrial", 4: "NotProvisioned", 5: "RunningDamaged", 6: "InvalidSet"}
UPLOAD_FAULTS = dict(enumerate(
    "OldSequence TooBig NoSession TooMuch SizeWrong DigestWrong NotAnImage WrongPrecursor NothingRequested".split(), 1
))

# The structs of bindings/python.
NAMES = python_module()


class Driver(ctypes.Structure):
    """The driver of bindings/c/driver.h."""

    _fields_ = [(it, CFUNCTYPE(c_int, c_void_p, c_uint32, POINTER(c_uint8), c_uint32)) for it in ("read", "program")]
    _fields_ += [("erase", CFUNCTYPE(c_int, c_void_p, c_uint32, c_uint32)), ("context", c_void_p)]


class Device(ctypes.Structure):
    """The device of bindings/c/driver.h."""

    _fields_ = [("setup", POINTER(NAMES._Setup)), ("driver", POINTER(Driver)), ("flash", POINTER(c_uint8))]
    _fields_ += [("flash_length", c_size_t), ("copy", POINTER(c_uint8)), ("journal", POINTER(c_uint8))]
    _fields_ += [("journal_capacity", c_size_t), ("saved", NAMES._SavedState), ("result", NAMES._CallResult)]
    _fields_ += [("reverted", c_uint8), ("is_stale", c_uint8)]


def setup_of(sector, sectors, trial_boots=1):
    made = NAMES._Setup(sector, len(sectors))
    made.sectors[: len(sectors)], made.trial_boots = sectors, trial_boots
    return made


def manifest_of(sequence, components):
    """The manifest of these components: for each the image, the bytes of its file, and whether it is permanent."""
    made = NAMES._Manifest(sequence, len(components))
    for row, (number, file, is_permanent) in zip(made.components, components):
        row.image, row.size, row.is_permanent = number, len(file), is_permanent
        row.digest[:] = hashlib.sha256(file).digest()
    return made


class Flash:
    """A flash and its driver. `cuts` says what writes leave at which power fails, by their numbers. The call of the
    driver of number `fails_at` fails, and changes nothing. `wrong` lists what no call may ask of a driver. `mapped` is
    memory that shows the contents, if the flash is mapped."""

    def __init__(self, contents, sector):
        self.bytes, self.sector, self.mapped = bytearray(contents), sector, None
        self.cuts, self.fails_at = {}, None
        self.calls, self.writes, self.is_off, self.wrong, self.made = 0, 0, False, [], []

    def restart(self):
        self.is_off = False

    def show(self, at=0, length=None):
        """Makes the memory of a mapped flash show a range of it."""
        if self.mapped is not None:
            shown = bytes(self.bytes[at : len(self.bytes) if length is None else at + length])
            ctypes.memmove(ctypes.addressof(self.mapped) + at, shown, len(shown))

    def refuses(self, what):
        """Counts a call, and returns whether it fails."""
        self.calls += 1
        if self.is_off:
            self.wrong.append(f"{what} after a call of the driver failed")
        if self.calls == self.fails_at:
            self.is_off = True
        return self.is_off

    def read(self, context, at, out, length):
        if self.refuses("a read"):
            return 1
        if at + length > len(self.bytes):
            self.wrong.append(f"a read of {length} bytes from byte {at} on")
        ctypes.memmove(out, bytes(self.bytes[at : at + length]), length)
        return 0

    def program(self, context, at, given, length):
        if length == 0 or at % 8 or length % 8 or at + length > len(self.bytes):
            self.wrong.append(f"a program of {length} bytes at byte {at}")
        elif any(it != 0xFF for it in self.bytes[at : at + length]):
            self.wrong.append(f"a program of {length} bytes at byte {at}, which aren't erased")
        return self.write("a program", at, ctypes.string_at(given, length))

    def erase(self, context, at, length):
        if length != self.sector or at % length or at + length > len(self.bytes):
            self.wrong.append(f"an erase of {length} bytes at byte {at}")
        return self.write("an erase", at, length * b"\xff")

    def write(self, what, at, new):
        if self.refuses(what):
            return 1
        self.writes += 1
        old = bytes(self.bytes[at : at + len(new)])
        self.made.append((at, old, new))
        torn = self.cuts.get(self.writes)
        self.bytes[at : at + len(new)] = new if torn is None else torn_bytes(old, new, torn)
        self.show(at, len(new))
        self.is_off = torn is not None
        return int(self.is_off)


def torn_bytes(old, new, torn):
    """What a write leaves that is torn as the line `cut` of a script says."""
    if torn in ("keep", "done"):
        return old if torn == "keep" else new
    pattern = bytes.fromhex(torn.removeprefix("hex:"))
    return (pattern * (len(new) // len(pattern) + 1))[: len(new)]


class Driven:
    """A device over a flash. `capacity` is the length of its journal in bytes. `memory` is what the library reads: the
    flash itself if it is mapped into memory, or a copy of it."""

    def __init__(self, calls, setup, flash, capacity, is_mapped=False):
        self.calls, self.setup, self.flash, self.capacity, self.is_mapped = calls, setup, flash, capacity, is_mapped
        functions = [kind(getattr(flash, name)) for name, kind in Driver._fields_[:3]]
        self.driver, self.memory = Driver(*functions, None), (c_uint8 * len(flash.bytes))()
        self.journal = (c_uint8 * (capacity + len(CANARY)))()
        self.journal[capacity:] = CANARY
        memory, journal = (ctypes.cast(it, POINTER(c_uint8)) for it in (self.memory, self.journal))
        shown, copy = (memory, None) if is_mapped else (None, memory)
        if is_mapped:
            self.driver.read, flash.mapped = type(self.driver.read)(), self.memory
            flash.show()
        parts = ctypes.pointer(setup), ctypes.pointer(self.driver), shown, len(self.memory), copy, journal, capacity
        self.device = Device(*parts)
        self.table, self.report = ((c_char * it)() for it in (20480, 2048))

    def call(self, name, *words):
        """Makes a call, and returns its number."""
        number = getattr(self.calls, name)(byref(self.device), *words)
        if bytes(self.journal[self.capacity :]) != CANARY:
            self.flash.wrong.append(f"{name} wrote past the journal's end")
        if number < DRIVER_FAILED and bytes(self.memory) != self.flash.bytes[: len(self.memory)]:
            self.flash.wrong.append(f"after {name} the library doesn't read what the flash holds")
        return number

    def open(self):
        self.flash.show()
        return self.call("bootswap_open")

    reset = open

    def resume(self):
        self.flash.show()
        return self.call("bootswap_device_resume")

    def provision(self):
        return self.call("bootswap_device_provision")

    def boot(self):
        """Boots, with the texts of the boot."""
        texts = (part for it in (self.table, self.report) for part in (it, c_size_t(len(it))))
        return self.call("bootswap_device_boot_with_texts", *texts)

    def accept(self, manifest):
        return self.call("bootswap_device_accept", byref(manifest))

    def piece(self, number, file):
        return self.call("bootswap_device_piece", c_uint8(number), bytes(file), c_size_t(len(file)))

    def finish(self, number):
        return self.call("bootswap_device_finish", c_uint8(number))

    def withdraw(self, number):
        return self.call("bootswap_device_withdraw", c_uint8(number))

    def confirm(self, number):
        return self.call("bootswap_device_confirm", c_uint8(number))

    @property
    def is_booted(self):
        return self.device.saved.is_booted == 1

    def versions(self):
        """The versions of the images at the front of the primary slots."""
        found, memory = NAMES._Description(), (self.memory, c_size_t(len(self.memory)))
        for number in range(self.setup.images):
            words = byref(self.setup), *memory, c_uint8(number), c_uint8(0), byref(found)
            it = None if self.calls.bootswap_slot(*words) else found.version
            yield it and f"{it.major}.{it.minor}.{it.revision}+{it.build}"

    def state(self):
        """What a call begins with: the flash, its number of writes, the saved state and what the library reads."""
        return bytes(self.flash.bytes), self.flash.writes, bytes(self.device.saved), bytes(self.memory)

    def put(self, state):
        """Puts a state back."""
        self.flash.bytes[:], self.flash.writes, saved, memory = state
        ctypes.memmove(byref(self.device.saved), saved, len(saved))
        ctypes.memmove(self.memory, memory, len(memory))
        self.device.flash, self.device.is_stale = ctypes.cast(self.memory, POINTER(c_uint8)), 0
        self.flash.restart()


def replies_of(device, number):
    """The replies to a call. A boot over a driver that reverts has two, as two boots of `run`: it boots once more."""
    reverted = device.device.reverted
    return [f"reverted {images_of(reverted)}"] * (reverted != 0) + [reply_of(device, number)]


def images_of(mask):
    return " ".join(str(i) for i in range(8) if mask >> i & 1)


def reply_of(device, number):
    """The lines that `run` prints for a reply, without the event's number (docs/FORMATS.md, "Replies of a device")."""
    result, images = device.device.result, images_of(device.device.result.set)
    if number in (DRIVER_FAILED, CUT):
        return "cut"
    if number == 1:
        kind = "permanent" if result.permanent else "trial" if result.set else "plain"
        return f"{kind}\n{device.report.raw[: result.report_length].decode()}".rstrip("\n")
    if number == 3:
        return f"trial-again {images} left {result.left}"
    if number == 4:
        return refused(result)
    return "done" if number == 0 else f"number {number}"


def refused(result):
    if result.fault == 10:
        check = [str(result.check)] if result.detail == 7 else []
        return " ".join(["refused upload", str(result.detail), UPLOAD_FAULTS[result.detail], *check])
    if result.fault == 9:
        return f"refused manifest {result.detail} NoComponent"
    number = [str(result.detail)] if result.fault == 5 else []
    return " ".join(["refused boot", str(result.fault), FAULTS[result.fault], *number])


class DriverTest(unittest.TestCase):
    """A test of driver.c over the library, with a driver in Python. No call may ask of a driver what it mustn't."""

    is_mapped = False

    @classmethod
    def setUpClass(cls):
        folder = folder_for(cls)
        words = [*STRICT, *INCLUDE, "-O1", "-fPIC", "-shared", "-o", f"{folder}/driven.so"]
        library = ["-Wl,--whole-archive", HERE.archive(), "-Wl,--no-whole-archive"]
        HERE.compile([*words, f"{ROOT}/bindings/c/driver.c", *library])
        cls.calls = ctypes.CDLL(f"{folder}/driven.so")

    def setUp(self):
        super().setUp()
        self.flashes = []

    def tearDown(self):
        self.assertEqual([], [it for flash in self.flashes for it in flash.wrong][:5])

    def over(self, contents, setup, capacity):
        """A device over these contents of a flash, with a journal of this length."""
        self.flashes.append(Flash(contents, setup.sector_size))
        return Driven(self.calls, setup, self.flashes[-1], capacity, self.is_mapped)

    def new_device(self, sector=512, sectors=(2, 2), capacity=None, running=ONE):
        """A provisioned device, whose slots run the same image, with the shortest journal."""
        contents = bytearray(b"\xff" * sector * (2 * sum(it + 1 for it in sectors) + 4))
        for number in range(len(sectors)):
            at = sector * sum(it + 1 for it in sectors[:number])
            contents[at : at + len(running)] = running
        capacity = JOURNAL["BOOT"](len(sectors), sector) if capacity is None else capacity
        device = self.over(contents, setup_of(sector, sectors), capacity)
        self.assertEqual((0, 0), (device.open(), device.provision()))
        return device

    def request(self, device, files, sequence=1):
        """Boots a device, and requests these files for its images."""
        manifest = manifest_of(sequence, [(number, file, False) for number, file in enumerate(files)])
        numbers = [device.boot(), device.accept(manifest)]
        for number, file in enumerate(files):
            numbers += [device.piece(number, file), device.finish(number)]
        self.assertEqual([1, *(1 + 2 * len(files)) * [0]], numbers)

    def on_trial_with_request(self):
        """A device with image 0 on trial, and the slot and the trailer of a request for image 1 from another device."""
        device, other = self.new_device(), self.new_device()
        self.request(device, [NEWER])
        self.assertEqual((1, 1), (device.boot(), device.device.result.set))
        numbers = other.boot(), other.accept(manifest_of(1, [(1, NEWER, False)]))
        self.assertEqual((1, 0, 0, 0), (*numbers, other.piece(1, NEWER), other.finish(1)))
        device.flash.bytes[9 * 512 : 12 * 512] = other.flash.bytes[9 * 512 : 12 * 512]
        self.assertEqual(0, device.open())
        return device
