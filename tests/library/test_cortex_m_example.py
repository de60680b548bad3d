"""The loader and the application of examples/cortex_m, as docs/PORTING.md has a reader make them in an empty folder."""

import os
import re
import shutil
import subprocess
import time
import unittest

from support.files import ROOT, read
from support.libraries import c_folder, output_of
from support.program import ProgramTest

MISSING = [it for it in ("make", "arm-none-eabi-gcc", "qemu-system-arm") if not shutil.which(it)]

# How many seconds the machine may take for a line.
LIMIT = 120

# Lines that are of make and of CMake, and not of the machine.
OF_BUILD = re.compile(r"\[ *\d+%\]|qemu-system-arm |Consolidate |Scanning ")


def block_of_porting(kind, beginning):
    """Returns the lines of the first block of the page that begins so."""
    pattern = rf"^```{kind}\n({re.escape(beginning)}.*?)^```$"
    return re.search(pattern, read(f"{ROOT}/docs/PORTING.md").decode(), re.DOTALL | re.MULTILINE)[1].splitlines()


@unittest.skipIf(MISSING, f"not installed: {' and '.join(MISSING)}")
class CortexMExampleTest(ProgramTest):
    runs_once = True

    def test_it_upgrades_by_make(self):
        self.expect_upgrade("", block_of_porting("sh", "cp ../bootswap/"))

    @unittest.skipUnless(shutil.which("cmake"), "there is no cmake")
    def test_it_upgrades_by_cmake(self):
        copy = block_of_porting("sh", "cp ../bootswap/")[0]
        self.expect_upgrade("/build", [copy, *block_of_porting("sh", "cmake -B build")])

    def make(self, build, before, run):
        """Makes the example in an empty folder beside a clone that has out/c, by commands. The last one runs the
        machine."""
        self.empty, clone = f"{self.folder}/empty", f"{self.folder}/bootswap"
        os.mkdir(self.empty)
        c_folder(f"{clone}/out/c")
        for name in ("board", "examples"):
            os.symlink(f"{ROOT}/{name}", f"{clone}/{name}")
        for command in (*before, re.sub("( --target)? run$", "", run)):
            output = output_of(["bash", "-c", command], cwd=self.empty).decode(errors="replace")
            self.assertNotRegex(output, "warning:|CMake Warning|dropped")
        for name, number in (("old", "1.0.0"), ("new", "2.0.0")):
            words = [f"{self.empty}{build}/{name}.bin", "--version", number, "--header-size", "512"]
            self.assertEqual((0, b"done\n", b""), self.run_program(["make-image", f"{name}.img", *words]))
            self.assertEqual(read(f"{self.folder}/{name}.img"), read(f"{self.empty}{build}/{name}.img"))

    def run_machine(self, run, last, seconds=0):
        """Runs the machine until it prints a line, and N seconds more, takes its power away, and returns the lines,
        without those of the build."""
        found, both = [], {"stdin": subprocess.DEVNULL, "stdout": subprocess.PIPE, "stderr": subprocess.STDOUT}
        with subprocess.Popen(["bash", "-c", run], cwd=self.empty, start_new_session=True, **both) as machine:
            os.set_blocking(machine.stdout.fileno(), False)
            end, rest = time.monotonic() + LIMIT, b""
            while last not in found and machine.poll() is None and time.monotonic() < end:
                rest += machine.stdout.read() or b""
                *lines, rest = rest.split(b"\n")
                found += [it.decode("ascii", "replace") for it in lines]
                time.sleep(0.01)
            time.sleep(seconds)
            os.killpg(machine.pid, 9)
        return [it for it in found if not OF_BUILD.match(it)]

    def expect_upgrade(self, build, commands):
        """It prints what the page says, and continues if its power fails during the upload or the swap."""
        wanted, (*before, run) = block_of_porting("", "loader: "), commands
        self.make(build, before, run)
        self.assertEqual(wanted, self.run_machine(run, wanted[-1]))
        self.assertEqual([*wanted[-5:-2], wanted[-1]], self.run_machine(run, wanted[-1]))
        for seconds in (0.2, 0.8, 1.6, 2.4):
            os.remove(f"{self.empty}{build}/flash")
            self.run_machine(run, wanted[4], seconds)
            got = self.run_machine(run, wanted[-1])
            self.assertEqual(wanted[-1], got[-1], got)
            self.assertIn(wanted[-3], got, f"{seconds} s after the upload begins")
