"""The library as one file of C, as `bindings/build --c` leaves it.

support/c/scenarios.c plays random scenarios with each call of both headers. Whatever processor and compiler: the file
of C prints exactly what the library for this processor prints, a number and a hash of everything that a call may
write. 10,000 scenarios take 3 minutes for each program of this processor; the gate plays 300 on each processor and
machine.
"""

import itertools
import os
import shutil
import unittest

from support.bare import MACHINES
from support.compiled import C, needs_compiler
from support.files import ROOT, folder_for, read
from support.libraries import c_folder, output_of, symbols
from support.processors import ARM, HERE, SMALL_ARM

STRICT = ["-std=c11", "-Wall", "-Wextra", "-Werror"]
COPIES = [f"include/{name}.h" for name in ("bootswap", "bootswap_names", "bootswap_simulate")]
COPIES += ["bindings/c/driver.c", "bindings/c/driver.h", "bindings/c_file/CMakeLists.txt"]

# The first and the last scenario.
FIRST, LAST = "0", "299"


@needs_compiler
class CFileTest(unittest.TestCase):
    @classmethod
    def setUpClass(cls):
        cls.folder = folder_for(cls)
        c_folder(f"{cls.folder}/c")
        cls.file = f"{cls.folder}/c/bootswap.c"
        cls.words = [*STRICT, "-O1", "-I", f"{cls.folder}/c", f"{C}/scenarios.c"]
        HERE.compile([*cls.words, HERE.archive(), "-o", f"{cls.folder}/native"])
        cls.printed = HERE.output_of(f"{cls.folder}/native", FIRST, LAST).splitlines()

    def expect_same(self, printed):
        """A program prints what the library for this processor prints. The first other line is shown."""
        pairs = itertools.zip_longest(self.printed, printed.splitlines())
        self.assertEqual([], [it for it in pairs if it[0] != it[1]][:1])

    def test_the_scenarios_end_each_call_in_several_ways(self):
        ends = {tuple(line.rsplit(b" ", 2)[0].split(b" ")) for line in self.printed}
        for call in (b"provision", b"boot", b"accept", b"piece", b"finish", b"withdraw", b"confirm"):
            self.assertGreaterEqual(len({int(it[-1]) for it in ends if it[0] == call} & {0, 1, 4, 5}), 2, call)

    def test_the_file_answers_as_the_library_and_does_nothing_undefined(self):
        program = f"{self.folder}/here"
        HERE.compile(["-fsanitize=address,undefined", "-fno-sanitize-recover", *self.words, self.file, "-o", program])
        self.expect_same(HERE.output_of(program, FIRST, LAST))

    def test_the_library_answers_so_on_arm(self):
        """That of 32-bit ARM is the file of C."""
        for it in (ARM, SMALL_ARM):
            with self.subTest(it.target):
                if it.missing():
                    self.skipTest(f"not installed: {it.missing()}")
                it.compile([*self.words, it.archive(), "-o", f"{self.folder}/arm"])
                self.expect_same(it.output_of(f"{self.folder}/arm", FIRST, LAST))

    def test_it_answers_so_on_machines_without_an_operating_system(self):
        """An access that isn't aligned is a fault on both of ARM."""
        for machine in MACHINES:
            with self.subTest(machine.name):
                if machine.missing():
                    self.skipTest(f"not installed: {machine.missing()}")
                program, seeds = f"{self.folder}/{machine.name}.elf", [f"-DFIRST={FIRST}", f"-DLAST={LAST}"]
                machine.compile([*self.words, *seeds, self.file], program)
                self.expect_same(machine.output_of(program))

    @unittest.skipUnless(shutil.which("clang"), "there is no clang")
    def test_clang_compiles_it_without_a_warning(self):
        output_of(["clang", "-O0", *STRICT, "-c", self.file, "-o", f"{self.folder}/clang.o"])

    def test_the_folder_has_the_file_and_copies(self):
        self.assertEqual({"bootswap.c", *map(os.path.basename, COPIES)}, {*os.listdir(f"{self.folder}/c")})
        for path in COPIES:
            self.assertEqual(read(f"{ROOT}/{path}"), read(f"{self.folder}/c/{os.path.basename(path)}"), path)
        head = read(self.file).decode().partition("*/")[0]
        for text in ("bindings/build --c", "Don't edit it", "Apache License, Version 2.0", "These are trusted"):
            self.assertIn(text, head)

    def test_only_the_calls_are_visible_and_they_call_functions_of_memory_and_arithmetic(self):
        """No data is written."""
        HERE.compile([*STRICT, "-O0", "-c", self.file, "-o", f"{self.folder}/names.o"])
        rows = symbols(f"{self.folder}/names.o")
        public = {it[0] for it in rows if it[1].isupper() and it[1] != "U"}
        self.assertEqual(set(), {it for it in public if not it.startswith("bootswap_")})
        known = {"memcpy", "memmove", "memset", "__popcountdi2", "__stack_chk_fail"}
        self.assertEqual(set(), {it[0] for it in rows if it[1] == "U"} - known)
        self.assertEqual([], [it[0] for it in rows if it[1] in "dDbBC"])
