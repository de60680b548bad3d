"""Which files `run`, `provision` and `show` accept as a flash, and how they hold and write it."""

import fcntl
import os
import re
import shutil
import subprocess
import time
import unittest

from support.commands import ABC_MANIFEST
from support.files import ONE, PAIR, read
from support.flashes import flash_of, log_record
from support.printed import CANNOT_MAKE, IN_USE
from support.program import LIMIT, ProgramTest, is_written_by_one, obey_permissions, shown
from support.worked import PLAIN, numbered

RUN, SHOW = ["run", PAIR, "flash", "-"], ["show", PAIR, "flash"]
REFUSED = (1, b"", IN_USE)

# Commands that write or read the flash file, two of them through a link.
ON_FLASH = [RUN, ["provision", PAIR, "flash", ONE, ONE], SHOW]
ON_FLASH += [["run", PAIR, "by-link", "-"], ["provision", PAIR, "by-link", ONE, ONE]]

# A script whose second event writes.
SCRIPT = f"boot\naccept {ABC_MANIFEST}\n".encode()

# A shell's command that runs a program in its folder, which is mounted read-only for this program alone.
READ_ONLY = 'mount --bind . . && mount -o remount,bind,ro . && cd "$PWD" && exec "$0" "$@"'


class FlashFileTest(ProgramTest):
    def setUp(self):
        super().setUp()
        self.whole, self.flash = flash_of(self), f"{self.folder}/flash"
        os.symlink("flash", f"{self.folder}/by-link")

    def test_a_file_that_is_held_is_refused(self):
        for how, refused in [(fcntl.LOCK_EX, {"run", "provision", "show"}), (fcntl.LOCK_SH, {"run", "provision"})]:
            for arguments in ON_FLASH:
                with self.subTest(f"{shown(arguments)} of a flash with lock {how}"), self.held("flash", how):
                    status, out, err = self.run_program(arguments, given=b"reset\n")
                    self.assertEqual(REFUSED if arguments[0] in refused else (0, out, b""), (status, out, err))
                    self.assertEqual(self.whole, read(self.flash))

    def test_the_hold_is_checked_before_the_length(self):
        self.file("flash", self.whole + b"x")
        with self.held("flash"):
            for arguments in (RUN, SHOW):
                self.assertEqual(REFUSED, self.run_program(arguments))

    def test_a_run_that_waits_holds_the_file(self):
        """It doesn't write a file that takes the name."""
        streams = {"stdin": subprocess.PIPE, "stdout": subprocess.PIPE, "stderr": subprocess.PIPE}
        waits = subprocess.Popen([self.program, *RUN], cwd=self.folder, **streams)
        until = time.monotonic() + LIMIT
        while not is_written_by_one(self.flash) and time.monotonic() < until:
            time.sleep(0.05)
        for arguments in ON_FLASH:
            with self.subTest(f"{shown(arguments)} meanwhile"):
                self.assertEqual(REFUSED, self.run_program(arguments))
        moved = f"{self.folder}/moved"
        os.rename(self.flash, moved)
        self.file("flash", b"another")
        out, err = waits.communicate(SCRIPT, timeout=LIMIT)
        self.assertEqual((4, numbered([PLAIN, "done"]), CANNOT_MAKE), (waits.returncode, out, err))
        self.assertEqual(b"another", read(self.flash))
        self.assertNotEqual(self.whole, read(moved))
        os.rename(moved, self.flash)
        self.assertEqual((0, b"", b""), self.run_program(RUN))

    def test_what_is_no_file_is_no_flash(self):
        os.mkfifo(f"{self.folder}/pipe")
        for name in ("pipe", ".", "/dev/null"):
            for command in (["show", PAIR, name], ["run", PAIR, name, "-"]):
                with self.subTest(shown(command)):
                    self.assertEqual((1, b"", f"error: cannot read {name}\n".encode()), self.run_program(command))

    def test_a_file_of_another_length_is_no_flash(self):
        for size in (0, 8191, 8193, 1 << 40):
            with open(self.flash, "wb") as it:
                it.truncate(size)
            for arguments in (RUN, SHOW):
                with self.subTest(f"{arguments[0]} of {size} bytes"):
                    self.assertEqual((1, b"", b"error: flash size\n"), self.run_program(arguments, given=SCRIPT))
                    self.assertEqual(size, os.path.getsize(self.flash))

    def test_a_file_that_can_only_be_read_ends_a_run_before_its_first_event(self):
        os.chmod(self.flash, 0o444)
        for how in ([], ["--durable"]):
            for given in (SCRIPT, b"boot\n", b"", b"boots\n"):
                with self.subTest(f"{how} {given!r}"):
                    got = self.run_program(["run", *how, PAIR, "flash", "-"], given=given, preexec_fn=obey_permissions)
                    self.assertEqual((4, b"", CANNOT_MAKE), got)
        self.assertEqual(0, self.run_program(SHOW, preexec_fn=obey_permissions)[0])
        self.assertEqual(self.whole, read(self.flash))

    @unittest.skipUnless(os.getuid() == 0 and shutil.which("unshare"), "only root can mount a folder read-only")
    def test_a_read_only_file_system_ends_a_run_before_its_first_event(self):
        for how in ([], ["--durable"]):
            words = ["unshare", "--mount", "sh", "-c", READ_ONLY, self.program, "run", *how, PAIR, "flash", "-"]
            done = subprocess.run(words, cwd=self.folder, input=SCRIPT, timeout=LIMIT, capture_output=True)
            if re.match(b"mount|unshare", done.stderr):
                self.skipTest(f"no folder can be mounted read-only here: {done.stderr}")
            self.assertEqual((4, b"", CANNOT_MAKE), (done.returncode, done.stdout, done.stderr), how)
            self.assertEqual(self.whole, read(self.flash), how)

    def test_a_run_writes_in_place(self):
        """By any of its names, and only the bytes that differ."""
        second = f"{self.folder}/second"
        os.link(self.flash, second)
        for how in ([], ["--durable"]):
            with self.subTest(f"run {how} by a link"), open(self.flash, "r+b") as it:
                it.write(self.whole)
                it.flush()
                got = self.run_program(["run", *how, PAIR, "by-link", "-"], given=SCRIPT)
                self.assertEqual((0, numbered([PLAIN, "done"]), b""), got)
                self.assertEqual(self.whole[:6720] + log_record(1, 0, 0) + self.whole[6784:], read(second))
                self.assertTrue(os.path.islink(f"{self.folder}/by-link") and os.path.samefile(second, self.flash))
