"""Runs the program for `./bootswap --unproved`: compiled with checks, before anything of it is proved.

The toolchain's `rt try` compiles the program in a temporary folder. There it runs the program on copies of the files that
the arguments name, and that the script of a `sweep` names. It writes nothing into the clone, so a build may run at the
same time.
"""

import os
import re
import shlex
import shutil
import signal
import subprocess
import sys
import tempfile

from builder import ROOT, NotBuilt, tell
from needed import HELP
from programs import NoToolchain

OPTION = "--unproved"

# The commands that write a file.
WRITING = ("provision", "run", "make-image", "extract")

# A command that shows what the program is for.
EXAMPLE = ("sweep", "examples/devices/pair.json", "examples/scripts/reverted.txt", *("examples/images/one.img",) * 2)

# The names of standard input.
INPUT = ("-", "/dev/stdin")

# The names that `rt try` keeps for itself in the folder in which the program runs.
TAKEN = ("program", "stdin", "stdout", "stderr")

# The most bytes that `rt try` passes as standard input.
MOST_INPUT = 64 << 20

# How many seconds the program may run. `rt try` has a limit, and whoever waits can type Ctrl-C.
SECONDS = 86_400

# How many seconds `rt try` has to end after a signal.
ASKED = 10

# The last lines of `rt try` if the program ended, and what it says if the output is too long.
ENDED = re.compile(r"^(interpreter: .*\n)?(checked: .*\n)?(races: .*\n)?run=ended status=(\d+) .*proved=no\n\Z", re.MULTILINE)
TOO_LONG = "bytes to standard output or to standard error, the limit on each"


class NoAnswer(NotBuilt):
    """Why the program has no answer."""

    status = 125


class NotRun(NoAnswer):
    """Why a command isn't run unproved. Nothing was compiled."""

    status = 2


def run_unproved(words):
    """Compiles the program, runs it with these arguments, and returns the exit status."""
    what = what_writes(words)
    if what:
        raise NotRun(f"{OPTION} writes no file, and {what} does: {typed(words)} proves and builds the program, and runs it")
    if not shutil.which("rt"):
        raise NoToolchain("the Rattle toolchain's command rt is not on the PATH; it compiles the program")
    tell(
        "nothing of the program that runs here is proved: `rt try` compiles it with checks, in about a minute; "
        f"{typed(words)} proves and builds it"
    )
    for number in (signal.SIGTERM, signal.SIGHUP):
        signal.signal(number, lambda number, _: sys.exit(128 + number))
    with tempfile.TemporaryDirectory(prefix="bootswap-unproved-") as folder:
        names, given = read_by(words)
        said = tried([*try_words(names), "--", *words], given, folder)
    return status_of(said, words)


def status_of(said, words):
    """Prints what the program wrote on standard error, and returns its status, by what `rt try` said. Raises `NoAnswer` if it
    didn't end."""
    ended = ENDED.search(said)
    if not ended and TOO_LONG in said:
        raise NoAnswer(f"the answer is longer than 1 MiB, and {OPTION} prints no more: {typed(words)} prints all of it")
    os.write(2, os.fsencode(said[: ended.start()] if ended else said))
    if not ended:
        raise NoAnswer("`rt try` ended without an answer of the program")
    return int(ended[4])


def what_writes(words):
    """Returns what of these arguments makes the program write a file, or None."""
    command, rest = words[:1], words[1:]
    if command and command[0] in WRITING and rest[:1] not in ([it] for it in HELP):
        return command[0]
    return "--svg" if command == ["sweep"] and any(it.partition("=")[0] == "--svg" for it in rest) else None


def typed(words):
    """Returns a command as it is typed."""
    return f"`{shlex.join(['./bootswap', *words])}`"


def hint_for(words):
    """Returns the line that a build begins with: what answers in a minute, this command or the example of the README."""
    shown = EXAMPLE if what_writes(words) else words
    return f"{typed([OPTION, *shown])} answers in about a minute, without a proof"


def read_by(words):
    """Returns the names of the files that a command reads, and what standard input has, if it reads that."""
    names = [name for it in words for name in names_in(it)]
    given = given_input() if not words or any(it in INPUT for it in names) else None
    if words[:1] == ["sweep"]:
        # Any of the files may be the script. The lines of others name no file that is there.
        texts = [contents_of(it) for it in names if os.path.isfile(it)]
        names += [name for it in [given or b"", *texts] for name in names_in_script(it)]
        if given is None and any(it in INPUT for it in names):
            given = given_input()
    return names, given or b""


def names_in(word):
    """Returns what may be the name of a file in an argument: the argument, and what follows each `=`, as in
    `--request=0=FILE`."""
    parts = word.split("=")
    return ["=".join(parts[first:]) for first in range(len(parts))]


def names_in_script(text):
    """Yields the names of files in a script: those of its lines `accept FILE` and `piece I FILE ..`."""
    for line in text.split(b"\n"):
        words = line.split(b" ")
        at = {b"accept": 1, b"piece": 2}.get(words[0])
        if at and at < len(words):
            yield os.fsdecode(words[at])


def contents_of(name):
    """Returns the bytes of a file, or none if it can't be read. The program reports that itself."""
    try:
        with open(name, "rb") as it:
            return it.read()
    except OSError:
        return b""


def given_input():
    """Returns all of standard input. `rt try` itself waits at most two seconds for the next bytes."""
    if os.isatty(0):
        tell("reading standard input, up to Ctrl-D")
    try:
        with open(0, "rb", closefd=False) as it:
            given = it.read(MOST_INPUT + 1)
    except OSError:
        return b""
    if len(given) > MOST_INPUT:
        raise NotRun(f"{OPTION} passes at most {MOST_INPUT >> 20} MiB of standard input: name a file")
    return given


def try_words(names):
    """Returns the command that compiles the program and runs it, with copies of these files. The program itself opens those
    with a full path, and reports those that are missing."""
    # Else the interpreter would run the program too, which takes longer than it takes to compile it.
    words = ["rt", "try", "--steps", "1", "--seconds", str(SECONDS)]
    for name in dict.fromkeys(names):
        if os.path.isabs(name) or not (os.path.isfile(name) and os.access(name, os.R_OK)):
            continue
        parts = os.path.normpath(name).split("/")
        if ".." in name.split("/") or "=" in name or parts[0] in TAKEN:
            raise NotRun(f"{OPTION} can't pass a file by the name {shlex.quote(name)}: type its full path")
        words += ["--data", f"{'/'.join(parts)}={os.path.abspath(name)}"]
    return words


def tried(words, given, folder):
    """Runs `rt try` with this standard input and its temporary files in a folder, and returns what it says on standard error.
    The program's output goes to standard output."""
    with open(f"{folder}/input", "w+b") as it:
        it.write(given)
        it.seek(0)
        # It has a session of its own, so that Ctrl-C reaches it only from here, as one signal: a second one would interrupt
        # its end.
        how = {"stdin": it, "stderr": subprocess.PIPE, "start_new_session": True}
        how["env"] = {**os.environ, "TMPDIR": folder}
        ran = subprocess.Popen(words, cwd=f"{ROOT}/crates/bootswap", **how)
    try:
        with ran.stderr:
            said = ran.stderr.read()
        ran.wait()
        return os.fsdecode(said)
    except BaseException:
        end(ran)
        raise


def end(ran):
    """Ends `rt try`, which ends what it started."""
    for number in (signal.SIGINT, signal.SIGTERM, signal.SIGHUP):
        signal.signal(number, signal.SIG_IGN)
    ran.terminate()
    try:
        ran.wait(ASKED)
    except subprocess.TimeoutExpired:
        ran.kill()
        ran.wait()
