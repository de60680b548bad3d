"""Runs the built program."""

import contextlib
import ctypes
import fcntl
import json
import os
import resource
import shutil
import subprocess
import sys
import tempfile
import threading
import time
import unittest

from support.files import EXAMPLES, ROOT, files_in, read

sys.path.insert(0, f"{ROOT}/tools")

from commits import version_in

# How many seconds a run of the program may take.
LIMIT = 20


# The base of tests that run no program.
CaseTest = unittest.TestCase


def error_line(err):
    """The error line that says what an object of an error says. Any other text stays as it is."""
    if not (err.startswith(b'{"error":{') and err.endswith(b"}\n")):
        return err
    return f"error: {json.loads(err)['error']['text']}\n".encode()


def is_written_by_one(path):
    """Whether a program holds a file exclusively, by the locks that the system lists."""
    of_file = f":{os.stat(path).st_ino} "
    return any("FLOCK" in it and "WRITE" in it and of_file in it for it in read("/proc/locks").decode().splitlines())


def obey_permissions():
    """Makes the program of a superuser obey the permissions of files."""
    drop_from_bound, override = 24, 1
    ctypes.CDLL(None, use_errno=True).prctl(drop_from_bound, override, 0, 0, 0)


class FolderTest(unittest.TestCase):
    """A test in a folder of its own."""

    def setUp(self):
        self.folder = tempfile.mkdtemp(prefix="bootswap-test-")
        self.addCleanup(shutil.rmtree, self.folder, ignore_errors=True)

    def path(self, name):
        """Returns the path of a file in the folder."""
        return f"{self.folder}/{name}"

    def file(self, name, contents):
        """Writes a file in the folder, and returns its name."""
        with open(self.path(name), "wb") as it:
            it.write(contents)
        return name

    def put(self, name, contents):
        """Writes a file in the folder, and returns its path."""
        return self.path(self.file(name, contents))

    @contextlib.contextmanager
    def held(self, name, how=fcntl.LOCK_EX):
        """Holds a file meanwhile, as another program does."""
        with open(self.path(name), "rb") as it:
            fcntl.flock(it, how)
            yield


class ProgramTest(FolderTest):
    """A test of the built program, which runs in the folder."""

    def setUp(self):
        super().setUp()
        self.program = os.environ.get("BOOTSWAP_PROGRAM") or f"{ROOT}/out/bootswap"
        if not os.access(self.program, os.X_OK):
            self.fail(f"there is no {self.program}: run `./bootswap codes`, or name a program in BOOTSWAP_PROGRAM")
        # Scripts name files relative to the root of the repository.
        os.symlink(EXAMPLES, self.path("examples"))

    def version(self):
        """Returns the version and the commit that the program has."""
        return version_in(self.program)

    def run_program(self, arguments, given=b"", pieces=0, closed=None, most=None, **streams):
        """Returns the status, standard output and standard error of a run.

        Standard input is `given`, written whole or in N `pieces`. `streams` are other ends of the three streams.
        `closed` is the number of a stream that the program finds closed. With `most`, a file takes no byte from this
        offset on: a write there fails.
        """
        streams = {"stdin": subprocess.PIPE, "stdout": subprocess.PIPE, "stderr": subprocess.PIPE, **streams}
        if closed is not None:
            streams["preexec_fn"] = lambda: os.close(closed)
        if most is not None:
            # The signal of such a write stays ignored, as in this process.
            limit = lambda: resource.setrlimit(resource.RLIMIT_FSIZE, (most, most))
            streams.update(preexec_fn=limit, restore_signals=False)
        ran = subprocess.Popen([self.program, *arguments], cwd=self.folder, **streams)
        if pieces:
            threading.Thread(target=feed, args=(ran.stdin, given, pieces)).start()
            ran.stdin = None
        try:
            out, err = ran.communicate(None if pieces else given, timeout=LIMIT)
        except subprocess.TimeoutExpired:
            ran.kill()
            ran.communicate()
            return f"not ended after {LIMIT} seconds", b"", b""
        return ran.returncode, out or b"", err or b""

    def assert_refuses(self, end, arguments, **how):
        """The run ends so, and no file is made, changed or removed."""
        before = [*files_in(self.folder)]
        self.assertEqual(end, self.run_program(arguments, **how))
        self.assertEqual(before, [*files_in(self.folder)])


def short(value):
    """The text of a value, without its middle if it is long."""
    text = repr(value)
    return text if len(text) < 400 else f"{text[:190]} .. {text[-190:]}"


def shown(arguments):
    """The arguments of a run as a name shows them."""
    return " ".join(map(os.path.basename, arguments)) or "with no argument"


def feed(stream, given, pieces):
    """Writes to a program's standard input in N pieces, with a pause after each."""
    size = -(-len(given) // pieces)
    try:
        with stream:
            for at in range(0, len(given), size):
                stream.write(given[at : at + size])
                stream.flush()
                time.sleep(0.02)
    except BrokenPipeError:
        # The program stopped reading. Its output is compared all the same.
        pass
