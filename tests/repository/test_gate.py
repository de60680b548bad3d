"""That signals end `./gate` and `./mutants`, and all that these started; and what runs beside `rt ci`.

A copy of the gate runs in a small repository, with a toolchain that only pretends. At one step of it a command starts
processes that would run for minutes, some in sessions of their own. At the first step one of them ignores signals. When
the step is reached, the test sends a signal. Five seconds later no process may be left, and no temporary file.
"""

import contextlib
import io
import os
import shutil
import signal
import subprocess
import time
import unittest
from unittest import mock

from support.files import ROOT, copy_parts, folder_for, read, write, write_script
from support.page import MISSING

import mutants
from beside import Beside
from builder import LIBRARY
from ending import adopt_orphans, forget_ended
from mutants import Mutant
from results import Counts
from side_by_side import Task, side_by_side

# How many seconds the gate may take to reach a step, and to end.
REACHED, ENDED = 60, 5

# What runs at the step: processes that would run on, and a file that shows that they are started.
HANG = """#!/bin/sh
mktemp -d > /dev/null
sleep 300 &
setsid sleep 300 &
(setsid sh -c 'while :; do sleep 0.3; done' &)
[ "$PRETENDED_STEP" != ci ] || sh -c 'trap "" TERM INT HUP; sleep 300; sleep 300' &
touch "$PRETENDED_FOLDER/reached"
wait
sleep 300
"""

# Each command of the toolchain hangs at its step, and else pretends to succeed.
COMMANDS = {
    "rt": """#!/bin/sh
[ "$1" = "$PRETENDED_STEP" ] && exec hang
case "$1" in
    version) echo pretended ;;
    doc) echo "$PRETENDED_FOLDER/FIRST.md" ;;
    ci) echo "1 passed, 0 failed" ;;
esac
""",
    "rattle": """#!/bin/sh
[ "$1" = "$PRETENDED_STEP" ] && exec hang
while [ "$#" -gt 1 ]; do
    [ "$1" = -o ] && touch "$2"
    shift
done
""",
    "rattle-link": """#!/bin/sh
while [ "$#" -gt 1 ]; do
    [ "$1" = -o ] && cp "$PRETENDED_FOLDER/bin/hang" "$2"
    shift
done
""",
    "hang": HANG,
}

# The small repository's crates, a mutant, and a test of the program.
CRATES = f"common:\nbootswap: common\n{LIBRARY} staticlib: common\n"
EDIT = "file: src/lib.rt\nfunction: one\nold: 1\nnew: 2\n"
TEST = """from support.program import ProgramTest

class ChooseTest(ProgramTest):
    def test_choose(self):
        self.run_program(["choose"])
"""
FILES = {
    "crates.txt": CRATES,
    "crates/common/src/lib.rt": "fn one() -> u8 {\n    1\n}\n",
    "crates/common/must-fail/two.edit": EDIT,
    "crates/bootswap/src/main.rt": "fn main() {}\n",
    f"crates/{LIBRARY}/src/lib.rt": "",
    "tests/test_choose.py": TEST,
}

# Each step: the commands, of which the last one is ended, and which command of the toolchain hangs there. The library
# of the page is no module, so that the page waits.
STEPS = {
    "rt ci": ([["./gate"]], "ci"),
    "the mutants": ([["./gate"]], "check"),
    "a build": ([["./gate", "--tests", "choose"]], "build"),
    "a test of the program": ([["./gate", "--tests", "choose"]], None),
    "the page": ([["web/build"], ["./gate", "--tests", "PageTest"]], None),
    "./mutants": ([["./mutants"]], "must-fail"),
}

COPIED = ("tools", "tests/support", "tests/library/__init__.py", "tests/library/test_page.py")
COPIED += ("web", "examples", "bindings", "gate", "mutants")


class GateTest(unittest.TestCase):
    def setUp(self):
        """Makes a small repository with the files of the gate, and a toolchain that only pretends."""
        self.folder = folder_for(self)
        self.files, self.repository = f"{self.folder}/files", f"{self.folder}/repository"
        for it in (self.files, self.repository):
            os.mkdir(it)
        copy_parts(COPIED, self.repository)
        # A check of the pretended toolchain takes no memory.
        builder = read(f"{ROOT}/tools/builder.py").decode().replace("\nMEMORY = 2_300_000_000\n", "\nMEMORY = 1\n")
        places = {f"repository/{name}": text for name, text in {**FILES, "tools/builder.py": builder}.items()}
        for name, text in {**places, **{f"bin/{name}": text for name, text in COMMANDS.items()}}.items():
            os.makedirs(os.path.dirname(f"{self.folder}/{name}"), exist_ok=True)
            write_script(f"{self.folder}/{name}", text)
        # What is left below this process is what the gate started.
        adopt_orphans()
        self.addCleanup(adopt_orphans, False)

    def start(self, commands, step):
        """Runs commands in the repository, and starts the last one as the first process of a group."""
        with contextlib.suppress(FileNotFoundError):
            os.remove(f"{self.folder}/reached")
        environment = {**os.environ, "PATH": f"{self.folder}/bin:{os.environ['PATH']}", "TMPDIR": self.files}
        environment.update(PRETENDED_FOLDER=self.folder, PRETENDED_STEP=step or "")
        # What the pretended toolchain makes doesn't belong with what was proved.
        environment.pop("BOOTSWAP_PROVED", None)
        streams = dict.fromkeys(("stdin", "stdout", "stderr"), subprocess.DEVNULL)
        for it in commands[:-1]:
            subprocess.run(it, check=True, cwd=self.repository, env=environment, **streams)
        return subprocess.Popen(commands[-1], start_new_session=True, cwd=self.repository, env=environment, **streams)

    def is_reached(self, name):
        """Returns whether what is started at the step runs: the browser with its page, or what a command hangs with."""
        if name != "the page":
            return os.path.exists(f"{self.folder}/reached")
        lines = [words for _, words in running_below(os.getpid())]
        return all(any(word in it for it in lines) for word in (b"--type=renderer", b"web/serve"))

    def clear(self, ran):
        """Ends what the gate left, and removes its files, so that the next step begins without them."""
        until = time.monotonic() + ENDED
        while (left := running_below(os.getpid())) and time.monotonic() < until:
            for pid, _ in left:
                with contextlib.suppress(ProcessLookupError):
                    os.kill(pid, signal.SIGKILL)
            ran.poll()
        ran.wait(ENDED)
        forget_ended()
        for it in (self.files, f"{self.repository}/out", f"{self.repository}/crates/bootswap/out"):
            shutil.rmtree(it, ignore_errors=True)
        os.mkdir(self.files)

    def expect_end(self, name, number, send):
        """A signal at a step ends the command, all that it started, and removes its files."""
        ran = self.start(*STEPS[name])
        try:
            is_soon(lambda: self.is_reached(name) or ran.poll() is not None, REACHED)
            self.assertTrue(self.is_reached(name), f"it isn't reached, and the status is {ran.poll()}")
            self.assertIsNone(ran.poll(), "it ended before the signal")
            send(ran.pid, number)
            is_soon(lambda: ran.poll() is not None and not running_below(os.getpid()), ENDED)
            self.assertEqual([], [words[:120] for _, words in running_below(os.getpid())][:8])
            self.assertEqual((128 + number, []), (ran.poll(), os.listdir(self.files)))
        finally:
            self.clear(ran)

    def test_a_signal_ends_each_step(self):
        """Ctrl-C in a terminal goes to the whole group."""
        for name in STEPS:
            for number, send in ((signal.SIGTERM, os.kill), (signal.SIGINT, os.killpg)):
                with self.subTest(f"{signal.Signals(number).name} ends {name}"):
                    if name == "the page" and MISSING:
                        self.skipTest(f"there is no {' and no '.join(MISSING)}")
                    self.expect_end(name, number, send)


class BesideTest(unittest.TestCase):
    def test_a_task_runs_beside_rt_ci_once_its_crates_are_proved(self):
        begun = f"{folder_for(self)}/begun"
        lines = "rt: low proved", "rt: high: its tests are proved", "1 passed, 0 failed"
        script = f"echo '{lines[0]}'; until [ -e {begun} ]; do sleep 0.1; done; echo '{lines[1]}'; printf '{lines[2]}'"
        first, second = (Task(it, lambda: write(begun, "") or Counts(1)) for it in ("first", "second"))
        beside = Beside([(second, {"low", "high"}), (first, {"low"})])
        with mock.patch("beside.free_memory", lambda: 10**12):
            with subprocess.Popen(["timeout", "60", "sh", "-c", script], stdout=subprocess.PIPE, bufsize=0) as ran:
                self.assertEqual([*lines], [it.decode() for it in beside.lines_of(ran)])
        self.assertEqual([second], beside.left())
        self.assertEqual(Counts(2), side_by_side(beside.left(), 1, beside.running)[0])


class MutantsTest(unittest.TestCase):
    def test_mutants_that_were_refused_are_tried_again_after_a_change_or_if_asked(self):
        """Those that weren't refused are tried each time."""
        mutant, trial = Mutant("two.edit"), mock.Mock()
        mutant.function = "one"
        trial.together, out = lambda left: [*left], folder_for(self)
        rows = ("a", False, ["why"], True), ("a", False, [], True), ("a", False, [], False), ("a", True, [], True)
        for digest, anew, faults, is_tried in (*rows, ("b", False, [], True), ("b", False, [], False)):
            trial.tried = mock.Mock(return_value={mutant: faults})
            parts = {"OUT": out, "Trial": lambda *_: trial, "mutants_of": lambda _: [mutant]}
            parts["digest_of"] = lambda _: digest
            with mock.patch.multiple(mutants, **parts), contextlib.redirect_stdout(io.StringIO()) as said:
                counts = mutants.try_mutants("common", None, anew)
            self.assertEqual((is_tried, not faults), (trial.tried.called, counts == Counts(1)), (digest, anew))
            self.assertEqual(not is_tried, "refused at one, as before: nothing has changed" in said.getvalue())


def running():
    """Yields the number, the parent and the words of each process that hasn't ended."""
    for pid in filter(str.isdecimal, os.listdir("/proc")):
        # One that ends meanwhile has no files any more.
        with contextlib.suppress(OSError):
            status = dict(it.split(b":\t", 1) for it in read(f"/proc/{pid}/status").splitlines() if b":\t" in it)
            if not status[b"State"].startswith(b"Z"):
                yield int(pid), int(status[b"PPid"]), read(f"/proc/{pid}/cmdline").replace(b"\0", b" ")


def running_below(top):
    """Returns the number and the words of each process that one started, or that these started."""
    rows, found, below = [*running()], [], {top}
    while below:
        more = [(pid, words) for pid, parent, words in rows if parent in below]
        found += more
        below = {pid for pid, _ in more}
    return found


def is_soon(holds, seconds):
    """Waits until something holds, for N seconds at most."""
    until = time.monotonic() + seconds
    while not holds() and time.monotonic() < until:
        time.sleep(0.05)
