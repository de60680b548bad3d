"""Ends `./gate` as a whole: when it returns or a signal ends it, no process that it started is left, and no temporary file.

A process may start others in sessions of their own, as the browser and `rt` do, and end before these. So the gate has the
system make it the parent of each such orphan, and finds all that it started below itself in /proc.
"""

import contextlib
import ctypes
import os
import shutil
import signal
import tempfile
import time

SIGNALS = (signal.SIGTERM, signal.SIGINT, signal.SIGHUP)

# The request of prctl(2) that makes a process the parent of the orphans below it.
SET_CHILD_SUBREAPER = 36

# How many seconds processes have to end after SIGTERM, and then after SIGKILL.
ASKED, KILLED = 1, 3


def adopt_orphans(adopts=True):
    ctypes.CDLL(None, use_errno=True).prctl(SET_CHILD_SUBREAPER, int(adopts), 0, 0, 0)


def parents():
    """Returns the parent of each process that hasn't ended, by their numbers."""
    found = {}
    for name in filter(str.isdecimal, os.listdir("/proc")):
        # One that ends meanwhile has no file any more.
        with contextlib.suppress(OSError), open(f"/proc/{name}/stat", encoding="utf-8", errors="replace") as it:
            # A command's name is in parentheses, and may itself have some.
            state, parent = it.read().rpartition(")")[2].split()[:2]
            if state not in "ZX":
                found[int(name)] = int(parent)
    return found


def processes_below(top):
    """Returns the processes that one started, and those that these started, as far as they run."""
    known, found = parents(), []
    below = [top]
    while below:
        below = [it for it, parent in known.items() if parent in below]
        found += below
    return found


def forget_ended():
    """Reads the status of each child that ended. Only then does the system forget the child."""
    with contextlib.suppress(ChildProcessError):
        while os.waitpid(-1, os.WNOHANG) != (0, 0):
            pass


def end_processes():
    """Ends everything that this process started: by SIGTERM, and after a second by SIGKILL what still runs."""
    for number, seconds in ((signal.SIGTERM, ASKED), (signal.SIGKILL, KILLED)):
        until, asked = time.monotonic() + seconds, set()
        while True:
            left = processes_below(os.getpid())
            if not left:
                return
            for process in left:
                if process not in asked or number == signal.SIGKILL:
                    with contextlib.suppress(ProcessLookupError, PermissionError):
                        os.kill(process, number)
            asked.update(left)
            forget_ended()
            if time.monotonic() > until:
                break
            time.sleep(0.01)


class Whole:
    """All that this process starts, and the temporary files of all that."""

    def __init__(self, room):
        """Makes a folder for temporary files, and one for large files in `room`."""
        self.owner = os.getpid()
        self.files, self.large = (tempfile.mkdtemp(prefix="bootswap-gate-", dir=it) for it in (None, room))
        # `rt` runs programs in this one as another user.
        os.chmod(self.files, 0o711)
        os.environ["TMPDIR"] = tempfile.tempdir = self.files

    def clear(self):
        # A thread here may start one more process when that which it waited for is ended, and that one may write files.
        for _ in range(2):
            end_processes()
            for it in (self.files, self.large):
                shutil.rmtree(it, ignore_errors=True)

    def end(self, number, _):
        """Ends this process by a signal. A child that was forked, and runs no other program, has this handler too."""
        for it in SIGNALS:
            signal.signal(it, signal.SIG_IGN)
        if os.getpid() == self.owner:
            with contextlib.suppress(OSError):
                os.write(2, f"gate: ended by {signal.Signals(number).name}\n".encode())
            self.clear()
        os._exit(128 + number)


@contextlib.contextmanager
def blocked_signals():
    """Makes signals wait until the block ends."""
    signal.pthread_sigmask(signal.SIG_BLOCK, SIGNALS)
    try:
        yield
    finally:
        signal.pthread_sigmask(signal.SIG_UNBLOCK, SIGNALS)


@contextlib.contextmanager
def ended_as_a_whole(room=None):
    """Ends all processes that are started inside, and removes all temporary files, when that is done and when a signal ends
    this process: then its status is 128 + the signal's number. It gives a folder in `room`, for large temporary files."""
    with blocked_signals():
        adopt_orphans()
        whole = Whole(room)
        for it in SIGNALS:
            # `nohup` has a process ignore SIGHUP.
            if it != signal.SIGHUP or signal.getsignal(it) != signal.SIG_IGN:
                signal.signal(it, whole.end)
    try:
        yield whole.large
    finally:
        with blocked_signals():
            whole.clear()
