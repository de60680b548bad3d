"""What examples/fleet/sweep_parts.py prints, also after an interrupt."""

import contextlib
import os
import pty
import signal
import subprocess
import sys

from support.dask import LIMIT, DaskTest
from support.files import EXAMPLES, ONE, PAIR, ROOT, read
from support.fleet import FLEET, write_script
from support.printed import error

SWEEP_PARTS = [sys.executable, "-B", f"{FLEET}/sweep_parts.py"]
FILES = [PAIR, f"{EXAMPLES}/scripts/reverted.txt", ONE, ONE]
PICTURE = read(f"{ROOT}/docs/sweep.svg")


def is_running(number):
    """Whether there is a process of this number that hasn't ended."""
    try:
        return b") Z " not in read(f"/proc/{number}/stat")
    except FileNotFoundError:
        return False


class SweepPartsTest(DaskTest):
    runs_once = True

    def setUp(self):
        super().setUp()
        self.file("boot", b"boot\n")
        self.files = [PAIR, "boot", ONE, ONE]

    def swept(self, *arguments):
        """Runs sweep_parts.py, and returns its status and what it prints."""
        if not any(it.startswith("--program=") for it in arguments):
            arguments = [*arguments, f"--program={self.program}"]
        streams = {"stdin": subprocess.DEVNULL, "capture_output": True, "timeout": LIMIT}
        done = subprocess.run([*SWEEP_PARTS, *arguments], cwd=self.folder, **streams)
        return done.returncode, done.stdout, done.stderr

    def start(self, *arguments, **streams):
        """Starts sweep_parts.py, which ends with the test."""
        ran = subprocess.Popen([*SWEEP_PARTS, *arguments], cwd=self.folder, **streams)
        self.addCleanup(ran.wait)
        self.addCleanup(ran.kill)
        return ran

    def at_terminal(self, *arguments):
        """Starts it with a terminal as standard error, and returns the process and the other end of the terminal."""
        ours, theirs = pty.openpty()
        self.addCleanup(os.close, ours)
        ran = self.start(*arguments, stdout=subprocess.PIPE, stderr=theirs)
        os.close(theirs)
        return ran, ours

    def test_parts_add_up_to_the_sweep_of_one_process(self):
        # Second cuts of the complete script would take too long.
        self.file("upgrade.txt", b"".join(read(FILES[1]).splitlines(True)[:7]))
        for options in ([], ["--twice"], ["--sample=40", "--seed=3"]):
            with self.subTest(f"{options}"):
                files = [PAIR, "upgrade.txt", ONE, ONE] if "--twice" in options else FILES
                whole = self.run_program(["sweep", "--svg=whole.svg", *options, *files])
                self.assertEqual(whole, self.swept(*files, *options, "--processes=2", "--parts=5", "--svg=parts.svg"))
                self.assertEqual(read(f"{self.folder}/whole.svg"), read(f"{self.folder}/parts.svg"))

    def test_faults(self):
        self.assertEqual(error("cannot read none"), self.swept(PAIR, "none", ONE, ONE))
        status, out, err = self.swept(*FILES, "--parts=0")
        self.assertEqual((2, b""), (status, out))
        self.assertIn(b"--parts: invalid positive value: '0'\n", err)

    def test_picture_that_is_not_made(self):
        """It is refused before a program runs, and no input and no other file is replaced."""
        self.file("device.json", read(PAIR))
        self.file("names", b"boot\naccept abc\n")
        self.file("abc", b"abc")
        self.file("notes", b"notes\n")
        os.link(f"{self.folder}/abc", f"{self.folder}/abc-second")
        os.symlink("abc", f"{self.folder}/abc-link")
        os.symlink("nowhere", f"{self.folder}/dangling")
        os.mkfifo(f"{self.folder}/pipe")
        for name, message in [
            *((it, "picture is an input") for it in ("./device.json", "abc", "abc-second", "abc-link", "names")),
            *((it, f"cannot write {it}") for it in ("none/svg", ".", "pipe", "dangling")),
            ("notes", "notes is no picture"),
        ]:
            with self.subTest(name):
                got = self.swept("device.json", "names", ONE, ONE, f"--svg={name}", "--program=false")
                self.assertEqual(error(message), got)
        self.assertEqual((b"abc", b"notes\n"), (read(f"{self.folder}/abc"), read(f"{self.folder}/notes")))

    def drawn(self, name, meanwhile, *options):
        """Sweeps a script of one event with a picture, and changes files in the middle. Returns the status and the
        errors."""
        waits = 'case "$*" in *--part*) touch began; while [ -e began ]; do sleep 0.05; done;; esac'
        program = write_script(self, "waits", f'{waits}; exec {self.program} "$@"')
        pipes = {"stdout": subprocess.PIPE, "stderr": subprocess.PIPE}
        ran = self.start(*self.files, "--parts=1", program, f"--svg={name}", *options, **pipes)
        self.waited(lambda: os.path.exists(f"{self.folder}/began") or ran.poll() is not None)
        meanwhile()
        with contextlib.suppress(FileNotFoundError):
            os.remove(f"{self.folder}/began")
        _, err = ran.communicate(timeout=LIMIT)
        return ran.returncode, err

    def test_name_of_a_picture_is_looked_up_once(self):
        """It is before the first part. What another program makes there stays."""
        path = self.path
        self.file("picture", PICTURE)
        os.chmod(path("picture"), 0o640)
        self.file("device.json", read(PAIR))
        os.symlink("picture", path("link"))

        def turn():
            os.remove(path("link"))
            os.symlink("device.json", path("link"))

        self.assertEqual((0, b""), self.drawn("link", turn))
        self.assertEqual((read(PAIR), 0o640), (read(path("device.json")), os.stat(path("picture")).st_mode & 0o777))
        self.assertNotEqual(PICTURE, read(path("picture")))
        got = self.drawn("new", lambda: self.file("new", b"another program's"))
        self.assertEqual(((1, b"error: cannot write new\n"), b"another program's"), (got, read(path("new"))))
        self.file("notes", b"notes\n")
        self.assertEqual((0, b""), self.drawn("notes", lambda: None, "--force"))
        for name in ("picture", "notes"):
            self.assertTrue(read(path(name)).startswith(PICTURE[:40]), name)
        self.assertEqual([], [it for it in os.listdir(self.folder) if it.startswith(".bootswap-")])

    def test_interrupt_prints_the_sum_so_far(self):
        """It ends the parts that have not ended."""
        _, first, _ = self.run_program(["sweep", "--part=1/3", *FILES])
        # The other parts take too long.
        lines = f'case "$*" in *--part=1/*|*--merge*) exec {self.program} "$@";; *) exec sleep 1000;; esac'
        program = write_script(self, "slow", lines)
        for number in (signal.SIGINT, signal.SIGTERM):
            with self.subTest(number.name):
                ran, ours = self.at_terminal(*FILES, "--processes=2", "--parts=3", program)
                shown = b""
                while b"1 of 3 parts" not in shown:
                    shown += os.read(ours, 4096)
                ran.send_signal(number)
                out, _ = ran.communicate(timeout=LIMIT)
                self.assertEqual((130, first), (ran.returncode, out))
                self.assertIn(b"sweep_parts.py: interrupted: the sum of 1 parts\r\n", shown + os.read(ours, 4096))

    def test_kill_leaves_no_process(self):
        self.file("began", b"")
        program = write_script(self, "slow", "echo $$ >> began; exec sleep 1000")
        ran = self.start(*FILES, "--processes=3", program, stderr=subprocess.DEVNULL)
        numbers = lambda: [int(it) for it in read(f"{self.folder}/began").split()]
        self.waited(lambda: len(numbers()) == 3)
        ran.kill()
        ran.wait()
        try:
            self.waited(lambda: not any(map(is_running, numbers())), 20)
        finally:
            for number in filter(is_running, numbers()):
                os.kill(number, signal.SIGKILL)

    def test_progress_within_a_part(self):
        """A terminal shows the share of the cuts that are done, also within a part, and the time that is left."""
        shows = "printf '\\rsweep: cuts 3 of 4, 19 runs, 2 s left\\033[K' >&2; sleep 1; printf '\\r\\033[K' >&2"
        program = write_script(self, "shows", f'case "$*" in *--part*) {shows};; esac; exec {self.program} "$@"')
        ran, ours = self.at_terminal(*self.files, "--processes=1", "--parts=2", program)
        out, _ = ran.communicate(timeout=LIMIT)
        self.assertEqual(self.run_program(["sweep", *self.files])[:2], (ran.returncode, out))
        # Of two equal parts a first one that is at 3 of 4 is 3/8 of all, and a second one 7/8.
        line = rb"\r\x1b\[K%d of 2 parts, %s %% of the cuts, \d+ s left"
        shown = os.read(ours, 1 << 16)
        self.assertRegex(shown, line % (0, rb"37\.5") + b".*" + line % (1, rb"87\.5"))
        self.assertTrue(shown.endswith(b"\r\x1b[K"))
