"""The boards in QEMU: their replies, and that they survive kills."""

import os
import re
import subprocess
import sys
import unittest

from support.files import ROOT, copy_parts, folder_for, read
from support.libraries import TARGET, archive_for, c_folder, output_of
from support.program import ProgramTest
from support.stories import STAYED
from support.worked import NO_SESSION, NO_TRIAL, NOTHING_REQUESTED, NOT_UP, PLAIN, TRIED, numbered

sys.path.insert(0, f"{ROOT}/board")

import machine
import parts
from platforms import PLATFORMS

# How many seconds a command of the board may take.
LIMIT = 600

# Ten events that upgrade and revert, by the files that `board/run` makes, and their replies.
# docs/FORMATS.md says each reply. The board boots once more after a boot that reverts: it has one
# reply more.
REVERT = ["boot", "accept {0}/new.json", "piece 0 {0}/new0.img", "piece 1 {0}/new1.img"]
REVERT += ["finish 0", "finish 1", "boot", "confirm 0", "boot", "boot"]
REVERTED = [PLAIN, *5 * ["done"], TRIED, "done", "reverted 0 1", PLAIN, PLAIN]

# Ten events after these. A file of another length comes for image 0, and no byte for image 1.
REFUSED = ["boot", "withdraw 0", "confirm 1", "piece 0 {0}/new.json", "accept {0}/new.json"]
REFUSED += ["piece 0 {0}/new.json", "finish 0", "piece 1 {0}/new1.img 0 0", "reset", "finish 2"]
REFUSALS = [PLAIN, NOTHING_REQUESTED, NO_TRIAL, NO_SESSION, "done"]
REFUSALS += ["done", "refused upload 5 SizeWrong", "done", "done", NOT_UP]

# The script of board/README.md, after these.
UPGRADE = read(f"{ROOT}/board/upgrade.txt").decode().replace("out/board", "{0}").splitlines()
SCRIPTS = {"pc": "upgrade.txt", "rv32": "rv32/upgrade.txt", "cortex-m": "cortex_m/upgrade.txt"}
UPGRADED = [PLAIN, *5 * ["done"], TRIED, "done", "done", STAYED]

# Each with the major versions of the images that run, and the status.
RUNS = [
    ("revert", REVERT, REVERTED, "11221111", 0),
    ("refusals", REFUSED, REFUSALS, "11", 1),
    ("upgrade.txt", UPGRADE, UPGRADED, "112222", 0),
]

# What `board/kill` prints if nothing failed.
SUMMARY = (
    r"{0} kills in \d+ starts; \d+ fell within the writes of a call\n"
    r"\d+ upgrades and \d+ reverts ended\n0 mixed sets of images, 0 bricks\nseed 7, \d+ s\n"
)

# Lines for the board that are events, with the replies, and lines that aren't.
DIGEST = 32 * "5a"
LINES = [
    (f"accept 0 2 test 1 {DIGEST} -", "refused manifest 6 NoComponent"),
    (f"accept 0 0 test 8193 {DIGEST} -", "refused upload 2 TooBig"),
    (f"accept 0 0 test 3 {DIGEST} {DIGEST}", "refused upload 8 WrongPrecursor"),
    (f"accept 4294967295 0 permanent 3 {DIGEST} - 1 test 8192 {DIGEST} -", "done"),
    (f"accept 4294967294 0 test 3 {DIGEST} -", "refused upload 1 OldSequence"),
    ("piece 0 616263", "done"),
    ("finish 0", "refused upload 6 DigestWrong"),
    (f"piece 1 {8192 * '5a'}", "done"),
    ("finish 255", NO_SESSION),
    ("piece 255 -", NO_SESSION),
]
UNREADABLE = ["", "boot now", "boo", " boot", "boot ", "confirm 256", "finish", "finish 0 0"]
UNREADABLE += ["finish  0", "piece 0 5", "piece 0 5G", "piece 0", "piece 0 ", "piece 0 -5"]
UNREADABLE += ["boot reset", "boot provision", "finish confirm 0", "accept piece 0 -", "stack 1"]
UNREADABLE += [f"piece 1 {8193 * '5a'}", 40000 * "z", "accept 1"]
UNREADABLE += [f"accept 4294967296 0 test 3 {DIGEST} -", f"accept 1 0 test 3 {DIGEST}"]
UNREADABLE += [f"accept 1 0 test 3 {DIGEST}5a -", f"accept 1{9 * f' 0 test 3 {DIGEST} -'}"]

BAD_SCRIPTS = ["cut 1 keep\nboot\n", "boot\nfinish\n", "boot\npiece 0 absent.img\n", "finish 0\n"]


class Board:
    """`board/run` and `board/kill` on a machine, over the library that was built."""

    runs_once = True

    @classmethod
    def setUpClass(cls):
        cls.platform = PLATFORMS[cls.name]
        missing = cls.platform.missing()
        if missing:
            raise unittest.SkipTest(f"there is no {', and no '.join(missing)}")
        cls.made = folder_for(cls)
        cls.library = cls.library_in(cls.made)

    @classmethod
    def library_in(cls, folder):
        """Returns the file of the library: made by the translator, for a machine of 32 bits."""
        c_folder(f"{folder}/c")
        return f"{folder}/c/bootswap.c"

    def run_board(self, name, *arguments, given="", **environment):
        """Returns the status, standard output and standard error of a command of the board."""
        words = [sys.executable, "-B", f"{ROOT}/board/{name}", "--library", self.library]
        words += ["--machine", self.name] if self.name != "pc" else []
        streams = {"stdout": subprocess.PIPE, "stderr": subprocess.PIPE, "text": True}
        streams["env"] = {**os.environ, **environment}
        done = subprocess.run([*words, *arguments], input=given, timeout=LIMIT, **streams)
        return done.returncode, done.stdout, done.stderr

    def test_it_answers_as_run_does_and_leaves_the_same_flash(self):
        """It runs the images of each report. `run` needs a boot more at the end of a script for each revert: all
        events after a revert are boots."""
        device = f"{ROOT}/board/device.json"
        for name, events, replies, versions, status in RUNS:
            with self.subTest(name):
                script = "".join(f"{it}\n" for it in events).format(self.made)
                ran = "".join(f"image {at % 2} version {it}.0.0\n" for at, it in enumerate(versions))
                got = self.run_board("run", "-", "--out", self.made, given=script)
                self.assertEqual((status, numbered(replies).decode(), ran), got)
                if name == "revert":
                    images = [f"{self.made}/old{it}.img" for it in (0, 1)]
                    self.assertEqual((0, b"done\n", b""), self.run_program(["provision", device, "flash", *images]))
                script += "boot\n" * sum(it.startswith("reverted") for it in replies)
                got = self.run_program(["run", device, "flash", "-"], given=script.encode())
                self.assertEqual((status, numbered(replies), b""), got)
                self.assertEqual(read(f"{self.folder}/flash"), self.platform.read_flash(f"{self.made}/flash"))

    def test_it_survives_kills_at_random_moments_of_upgrades_and_reverts(self):
        status, out, err = self.run_board("kill", str(self.kills), "--seed", "7", "--out", self.made)
        self.assertEqual((0, ""), (status, err))
        self.assertRegex(out, rf"\A{SUMMARY.format(self.kills)}\Z")

    def test_its_script_is_that_of_the_others(self):
        """With the names of its files."""
        wanted = "\n".join([*UPGRADE, ""]).replace("{0}", os.path.relpath(self.platform.out(), ROOT))
        self.assertEqual(wanted, read(f"{ROOT}/board/{SCRIPTS[self.name]}").decode())

    def test_a_wrong_script_is_refused_before_it_is_turned_on(self):
        for script in BAD_SCRIPTS:
            status, out, err = self.run_board("run", "-", "--out", self.made, given=script)
            self.assertEqual((2, ""), (status, out))
            self.assertRegex(err, r"\Aboard: script line ")

    def test_it_refuses_each_line_that_is_no_event(self):
        """It answers all others, and says how much of its stack was used."""
        flash = f"{self.made}/lines"
        bootloader = parts.build(self.platform, self.made, self.library)
        machine.provision(self.platform, bootloader, self.made, flash)
        with machine.Machine(self.platform, bootloader, flash) as board:
            self.assertRegex(board.answer(), r"\A1 plain\n")
            for number, (line, reply) in enumerate(LINES, 2):
                board.send(line)
                self.assertEqual(f"{number} {reply}\n", board.answer(), line[:80])
            for line in UNREADABLE:
                board.send(line)
                self.assertEqual("unreadable\n", board.answer(), line[:80])
            board.send("stack")
            found = re.fullmatch(rf"{len(LINES) + 2} stack (\d+) of (\d+)\n", board.answer())
            self.assertTrue(1000 < int(found[1]) < int(found[2]), found[0])

    def test_what_is_missing_is_named(self):
        absent = f"{self.folder}/absent.a"
        library = f"board: there is no {absent}: {self.platform.builder} makes it\n"
        system = f"board: there is no {', and no '.join(f'`{it}`' for it in self.programs)}\n"
        for name, argument in (("run", "-"), ("kill", "1")):
            self.assertEqual((125, "", library), self.run_board(name, argument, "--library", absent))
            self.assertEqual((125, "", system), self.run_board(name, argument, PATH=self.folder))


class PcTest(Board, ProgramTest):
    name, kills = "pc", 20
    programs = ("gcc", "ld", "qemu-system-x86_64")

    @classmethod
    def library_in(cls, folder):
        return archive_for(TARGET)


class Rv32Test(Board, ProgramTest):
    name, kills = "rv32", 6
    programs = ("riscv64-unknown-elf-gcc", "riscv64-unknown-elf-ld", "qemu-system-riscv32")


class CortexMTest(Board, ProgramTest):
    name, kills = "cortex-m", 6
    programs = ("arm-none-eabi-gcc", "cmake", "make", "qemu-system-arm")

    def copy_clone(self):
        """Makes a clone that has what the board needs, and returns its folder."""
        clone = f"{self.folder}/clone"
        copy_parts(("board", "examples"), clone)
        os.mkdir(f"{clone}/out")
        os.symlink(os.path.dirname(self.library), f"{clone}/out/c")
        return clone

    def test_a_folder_is_built_anew_only_for_another_clone(self):
        folder, clone = f"{self.folder}/out", self.copy_clone()
        parts.build(self.platform, folder, self.library)
        library = f"{folder}/bootswap/CMakeFiles/bootswap.dir/bootswap.c.obj"
        first = os.stat(library).st_mtime_ns
        parts.build(self.platform, folder, self.library)
        self.assertEqual(first, os.stat(library).st_mtime_ns)
        words = [sys.executable, "-B", f"{clone}/board/run", "--machine", "cortex-m"]
        output_of([*words, "--out", folder, f"{self.folder}/{self.file('script', b'boot')}"])

    def test_the_commands_of_the_readme_build_the_same(self):
        clone, page = self.copy_clone(), read(f"{ROOT}/board/cortex_m/README.md").decode()
        shown = re.search(r"^## The build\n.*?^```sh\n(.*?)^```$", page, re.MULTILINE | re.DOTALL)[1]
        output_of(["bash", "-e", "-c", shown], cwd=clone)
        parts.build(self.platform, self.made, self.library)
        for name in ("bootloader.elf", "old0.img", "old1.img", "new0.img", "new1.img"):
            self.assertEqual(read(f"{self.made}/{name}"), read(f"{clone}/build/{name}"), name)
