"""The libraries for C in programs in C: an upgrade, manifests, null pointers, and what the libraries need.

On 64-bit ARM the programs run in `qemu-aarch64`.
"""

import ctypes
import os
import shutil
import unittest
from ctypes import POINTER, byref, c_char, c_size_t, c_uint8

from support.builders import CLASS, VENDOR
from support.compiled import C, needs_compiler
from support.driven import LONG, NAMES, NEEDING, DriverTest, manifest_of
from support.files import EXAMPLES, ROOT, folder_for, read
from support.headers import declared
from support.libraries import output_of, symbols
from support.manifests import listing_of
from support.processors import ARM, HERE, needs_arm

STRICT = ["-std=c11", "-Wall", "-Wextra", "-Werror", "-Wconversion"]
STRICT += ["-I", f"{ROOT}/include", "-I", f"{ROOT}/bindings/c"]

# What the library calls that it doesn't have itself. So it never allocates.
CALLED = {"memcpy", "memmove", "memset"}

# How the library for manifests allocates.
ALLOCATOR = {"rattle_alloc", "rattle_dealloc", "rattle_realloc"}


@needs_compiler
class ProgramsTest(unittest.TestCase):
    processor = HERE

    @classmethod
    def setUpClass(cls):
        cls.folder = folder_for(cls)
        cls.archive, cls.manifests = cls.processor.archive(), cls.processor.manifest_archive()

    def test_a_program_of_fewer_than_100_lines_upgrades_whichever_write_is_cut(self):
        life, program = f"{ROOT}/bindings/c/life.c", f"{self.folder}/life"
        self.assertLess(len(read(life).splitlines()), 100)
        self.processor.compile([*STRICT, "-Wno-conversion", life, self.archive, "-o", program])
        images = [f"{EXAMPLES}/images/{it}.img" for it in ("one", "patched")]
        for write in (1, 5, 9, 13, 17):
            printed = self.processor.output_of(program, *images, str(write))
            self.assertEqual(b"power failed in write %d\npermanent\ntake 0 1.1.0+0\n" % write, printed)

    def test_a_manifest_is_read_in_the_memory_that_is_given(self):
        program, files = f"{self.folder}/manifest", [f"{C}/manifest.c", f"{ROOT}/bindings/c/manifest.c"]
        self.processor.compile([*STRICT, *files, self.manifests, self.archive, "-o", program])
        own = [VENDOR.replace("-", ""), CLASS.replace("-", "")]
        text = f"{EXAMPLES}/manifests/both.json"
        for what, words, wanted in (
            ("enough memory", [*own, text, "13000"], listing_of(read(text))),
            ("too little memory", [*own, text, "3000"], b"refused 8 NoMemory\n"),
            ("no memory", [*own, text, "0"], b"refused 8 NoMemory\n"),
            ("no text and no memory", [*own, os.devnull, "0"], b"refused 1 NotJson\n"),
            ("another vendor", [own[1], own[1], text, "13000"], b"refused 4 WrongVendor\n"),
        ):
            with self.subTest(what):
                self.assertEqual(wanted, self.processor.output_of(program, *words))

    def test_the_library_calls_functions_of_memory_alone(self):
        """It requests none. That for manifests requests memory of the program."""
        for archive, wanted in ((self.archive, CALLED), (self.manifests, CALLED | ALLOCATOR)):
            self.assertEqual(wanted, {it[0] for it in symbols(archive, self.processor.nm, "--undefined-only")})

    def test_the_libraries_have_no_data_that_a_call_might_change(self):
        """So any number of threads may call at the same time."""
        for archive in (self.archive, self.manifests):
            found = symbols(archive, self.processor.nm, "--defined-only")
            self.assertEqual([], [it[0] for it in found if it[1] in "bBcCdDsS"])


@needs_compiler
class NullTest(DriverTest):
    """Null with a length of 0 passes no bytes, as any other pointer does."""

    def arguments(self, types, none, has_bytes):
        """Arguments of a call on a device, and the objects that it may write: `none` and a length of 0 for bytes, but
        for the first ones if it has these."""
        words, written = [], []
        for kind, after in zip(types, [*types[1:], None]):
            if kind is c_size_t:
                words.append(c_size_t(len(written[-1]) if has_bytes else 0))
                has_bytes = False
            elif not hasattr(kind, "contents"):
                words.append(kind(0))
            elif after is c_size_t and has_bytes:
                given = self.text if kind is POINTER(c_char) else self.flash_bytes
                written.append(ctypes.create_string_buffer(given, len(given)))
                words.append(written[-1])
            elif after is c_size_t:
                words.append(ctypes.cast(none, kind) if none else kind())
            else:
                written.append(kind._type_())
                if kind._type_ in self.given:
                    ctypes.memmove(byref(written[-1]), byref(self.given[kind._type_]), ctypes.sizeof(kind._type_))
                words.append(byref(written[-1]))
        return words, written

    def test_null_is_no_bytes_in_each_call(self):
        device, numbers = self.new_device(capacity=LONG), set()
        self.assertEqual(1, device.boot())
        self.assertEqual(0, device.accept(manifest_of(1, [(0, NEEDING, 0)])))
        self.text, self.flash_bytes = b"image 0 1.0.0+0 0 0\n", bytes(device.flash.bytes)
        self.given = {NAMES._Setup: device.setup, NAMES._SavedState: device.device.saved}
        self.given[NAMES._Manifest] = manifest_of(2, [(0, NEEDING, 0)])
        self.given[NAMES._ImageParts] = NAMES._ImageParts(header_size=32)
        none = ctypes.pointer(c_uint8())
        for name in (it for it in declared("call") if not it.endswith(("_name", "_manifest", "_reset"))):
            for has_bytes in (False, True):
                got = []
                for pointer in (None, none):
                    words, written = self.arguments(getattr(NAMES._LIBRARY, name).argtypes, pointer, has_bytes)
                    number = getattr(self.calls, name)(*words)
                    # The one call that returns nothing.
                    got.append((0 if name == "bootswap_digest" else number, [bytes(it) for it in written]))
                self.assertEqual(got[0], got[1], f"{name}, {has_bytes}")
                numbers.add(got[0][0])
        self.assertLessEqual({0, 1, 18, 24, 25, 28}, numbers)


@needs_compiler
class ManifestMemoryTest(unittest.TestCase):
    """bindings/c/manifest.c over a stand-in for the library."""

    def setUp(self):
        self.folder = folder_for(self)

    def test_calls_in_two_threads_have_their_own_memory(self):
        """Null with a length of 0 is no memory, and nothing undefined is computed of it."""
        flags = [*STRICT, "-Wpedantic", "-pthread", "-fsanitize=undefined", "-fno-sanitize-recover=all"]
        files = [f"{C}/manifest_memory.c", f"{ROOT}/bindings/c/manifest.c"]
        for compiler in filter(shutil.which, ("gcc", "clang")):
            with self.subTest(compiler):
                output_of([compiler, *flags, *files, "-o", f"{self.folder}/{compiler}"])
                output_of([f"{self.folder}/{compiler}"], timeout=120)

    def test_without_threads_it_has_no_variable_of_a_thread(self):
        for flag in ("-ffreestanding", "-DBOOTSWAP_NO_THREADS"):
            made = f"{self.folder}/manifest.o"
            output_of(["cc", *STRICT, flag, "-c", f"{ROOT}/bindings/c/manifest.c", "-o", made])
            self.assertNotIn(b".tbss", output_of(["objdump", "--section-headers", made]))


@needs_arm
class ArmProgramsTest(ProgramsTest):
    processor = ARM
