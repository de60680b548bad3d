"""`./bootswap --unproved`: what it passes to `rt try`, what it refuses, and one real run.

All but the last run a toolchain that only pretends: it notes what it was given.
"""

import json
import os
import shutil
import signal
import subprocess
import sys
import time
import unittest

from support.files import EXAMPLES, ROOT, folder_for, read, write_script
from support.program import short

from unproved import hint_for

# How many seconds a run of the pretended toolchain may take, and one of the toolchain, which others slow down.
LIMIT, REAL_LIMIT = 30, 1500

RT = f"""#!{sys.executable} -IS
import json, os, sys, time
with open(os.environ["PRETENDED_NOTES"], "w") as it:
    json.dump([sys.argv[1:], sys.stdin.read(), os.environ["TMPDIR"]], it)
if "PRETENDED_HANGS" in os.environ:
    open(os.environ["TMPDIR"] + "/left", "w").close()
    time.sleep(300)
print("answer")
sys.stderr.write(os.environ["PRETENDED_SAYS"])
"""

STARTED = b"bootswap: nothing of the program that runs here is proved: `rt try` compiles it with checks, "
STARTED += b"in about a minute; "
ENDED = "checked: ended status={0}\nrun=ended status={0} runners=1 proved=no\n"
STOPPED = "interpreter: no-answer: the run did not finish within 1 step: the program may loop forever\n"
TOO_LONG = "checked: no-answer: wrote more than 1048576 bytes to standard output or to standard error, "
TOO_LONG += "the limit on each\nrun=no-answer proved=no\n"
FAULT = "checked: fault: an overflow\nrun=fault runners=1 proved=no\n"

PAIR, ONE = "examples/devices/pair.json", "examples/images/one.img"
SWEEP = ["sweep", PAIR, "examples/scripts/reverted.txt", ONE, ONE]
OF_SCRIPT = ["examples/manifests/trial.json", "examples/images/needing.img", "examples/images/partner.img"]

TWO_LINES = f"boot\naccept {OF_SCRIPT[0]}\npiece 0 {OF_SCRIPT[1]} 0 4\n"

# What is refused, and what of the arguments is to blame.
REFUSED = {
    "provision": ["provision", PAIR, "flash", ONE, ONE],
    "run": ["run", PAIR, "flash", "a script"],
    "make-image": ["make-image", "own.img", ONE, "--version", "1"],
    "extract": ["extract", PAIR, "flash", "0", "primary", "own.img"],
    "--svg": [*SWEEP, "--svg", "own.svg"],
}

# Files that are passed: the arguments, what is on standard input, the names of the files, and what the program reads
# there.
PASSED = [
    (["choose", "examples/tables/three.txt"], "", ["examples/tables/three.txt"], ""),
    (["choose", "./examples//tables/three.txt"], "", ["examples/tables/three.txt"], ""),
    (["choose", "nowhere"], "", [], ""),
    (["choose", "examples"], "", [], ""),
    (["choose", f"{EXAMPLES}/tables/three.txt"], "", [], ""),
    (["choose", "-"], "a table", [], "a table"),
    ([], "a table", [], "a table"),
    (["check", "examples/tables/three.txt", "-"], "a report", ["examples/tables/three.txt"], "a report"),
    (["plan", "-", f"--request=0={ONE}"], "a fleet", [ONE], "a fleet"),
    (["plan", "-", "--request", f"0={ONE}"], "a fleet", [ONE], "a fleet"),
    (SWEEP, "", [PAIR, SWEEP[2], ONE, *OF_SCRIPT], ""),
    (["sweep", PAIR, "-", ONE], TWO_LINES, [PAIR, ONE, *OF_SCRIPT[:2]], None),
    (["sweep", PAIR, "script", ONE], "an image", [PAIR, "script", ONE], "an image"),
    (["run", "--help"], "", [], ""),
    (["codes"], "", [], ""),
]


class UnprovedTest(unittest.TestCase):
    """A folder with the examples, in which `./bootswap --unproved` runs."""

    def setUp(self):
        self.folder = folder_for(self)
        os.symlink(EXAMPLES, f"{self.folder}/examples")
        for it in ("bin", "temporary", "below"):
            os.mkdir(f"{self.folder}/{it}")
        for name, text in (("script", "piece 0 -\n"), ("above", ""), ("stdin", ""), ("a=b", ""), ("bin/rt", RT)):
            write_script(f"{self.folder}/{name}", text)

    def started(self, words, says=ENDED.format(0), at=".", **more):
        """Starts a command over the pretended toolchain."""
        environment = {**os.environ, "PATH": f"{self.folder}/bin", "TMPDIR": f"{self.folder}/temporary"}
        environment.update(PRETENDED_NOTES=f"{self.folder}/notes", PRETENDED_SAYS=says, **more)
        streams = {"stdin": subprocess.PIPE, "stdout": subprocess.PIPE, "stderr": subprocess.PIPE}
        words = [sys.executable, "-B", f"{ROOT}/bootswap", "--unproved", *words]
        return subprocess.Popen(words, cwd=f"{self.folder}/{at}", env=environment, **streams)

    def ended(self, words, given="", **how):
        """Runs a command. Returns its status, its outputs, and the toolchain's notes."""
        ran, notes = self.started(words, **how), f"{self.folder}/notes"
        out, err = ran.communicate(given.encode(), timeout=LIMIT)
        noted = json.loads(read(notes)) if os.path.exists(notes) else None
        return ran.returncode, out, err, noted

    def test_files_of_the_arguments_are_passed(self):
        for words, given, names, wanted in PASSED:
            with self.subTest(" ".join(words)):
                *_, noted = self.ended(words, given)
                data = [it for name in names for it in ("--data", f"{name}={self.folder}/{name}")]
                passed = ["try", "--steps", "1", "--seconds", "86400", *data, "--", *words]
                self.assertEqual([passed, given if wanted is None else wanted], noted[:2])
        self.assertEqual([], os.listdir(f"{self.folder}/temporary"))

    def test_a_command_without_input_does_not_wait_for_its_end(self):
        ran = self.started(["codes"])
        self.assertEqual(0, ran.wait(LIMIT))
        ran.communicate()

    def test_status_and_notes_are_passed_on(self):
        says = STARTED + b"`./bootswap choose nowhere` proves and builds it\nnote: of the program\n"
        for status in (0, 1, 2, 3):
            noted = f"note: of the program\n{STOPPED}{ENDED.format(status)}"
            self.assertEqual((status, b"answer\n", says), self.ended(["choose", "nowhere"], says=noted)[:3])

    def test_a_missing_answer_is_explained(self):
        too_long = "bootswap: the answer is longer than 1 MiB, and --unproved prints no more: "
        for says, wanted in (
            (FAULT, f"{FAULT}bootswap: `rt try` ended without an answer of the program\n"),
            (TOO_LONG, f"{too_long}`./bootswap codes` prints all of it\n"),
        ):
            status, _, err, _ = self.ended(["codes"], says=says)
            self.assertEqual((125, wanted), (status, err.decode().partition("\n")[2]))

    def test_what_writes_a_file_is_refused(self):
        for what, words in REFUSED.items():
            typed = " ".join(words).replace("a script", "'a script'")
            why = f"--unproved writes no file, and {what} does"
            self.expect_refusal(2, f"{why}: `./bootswap {typed}` proves and builds the program, and runs it", words)

    def test_a_name_that_cannot_be_passed_is_refused(self):
        for name, at in (("../above", "below"), ("stdin", "."), ("a=b", ".")):
            said = f"--unproved can't pass a file by the name {name}: type its full path"
            self.expect_refusal(2, said, ["choose", name], at=at)

    def test_without_rt_it_says_so(self):
        os.remove(f"{self.folder}/bin/rt")
        said = "the Rattle toolchain's command rt is not on the PATH; it compiles the program"
        self.expect_refusal(127, said, ["choose", "nowhere"])

    def expect_refusal(self, status, said, words, **how):
        """It may say before that it starts."""
        got, out, err, noted = self.ended(words, **how)
        self.assertEqual((status, b"", [f"bootswap: {said}"], None), (got, out, err.decode().splitlines()[-1:], noted))

    def test_a_signal_ends_it_and_leaves_no_file(self):
        for number, wanted in ((signal.SIGINT, 130), (signal.SIGTERM, 128 + signal.SIGTERM)):
            ran = self.started(["codes"], PRETENDED_HANGS="")
            until = time.monotonic() + LIMIT
            while not any("left" in names for *_, names in os.walk(f"{self.folder}/temporary")):
                self.assertLess(time.monotonic(), until, "the pretended toolchain isn't reached")
                time.sleep(0.02)
            ran.send_signal(number)
            ran.communicate(timeout=LIMIT)
            self.assertEqual((wanted, []), (ran.returncode, os.listdir(f"{self.folder}/temporary")))

    def test_a_build_begins_with_a_hint(self):
        for words, shown in (
            (["choose", "a table"], "choose 'a table'"),
            (["provision", "device", "flash", "image"], " ".join(SWEEP)),
            (["sweep", "device", "script", "image", "--svg=own.svg"], " ".join(SWEEP)),
            (["run", "--help"], "run --help"),
        ):
            wanted = f"`./bootswap --unproved {shown}` answers in about a minute, without a proof"
            self.assertEqual(wanted, hint_for(words))

    @unittest.skipUnless(shutil.which("rt"), "the Rattle toolchain's command rt is not on the PATH")
    def test_the_toolchain_answers(self):
        words = [f"{ROOT}/bootswap", "--unproved", "choose", "examples/tables/three.txt"]
        streams = {"stdin": subprocess.DEVNULL, "capture_output": True}
        ran = subprocess.run(words, cwd=self.folder, timeout=REAL_LIMIT, **streams)
        self.assertEqual((0, read(f"{EXAMPLES}/reports/three.txt")), (ran.returncode, ran.stdout), short(ran.stderr))
        self.assertRegex(ran.stderr, rb"\A" + STARTED + rb".*\n\Z")
