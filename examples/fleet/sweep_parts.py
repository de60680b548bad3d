#!/usr/bin/env python3
"""Sweeps power cuts with several processes or machines: prints what `bootswap sweep` prints, and draws the same picture.

Each worker runs `bootswap sweep --part K/N`, and `bootswap sweep --merge` adds the outputs. Ctrl-C or SIGTERM ends the sweep
with what was found so far: the sum of the parts that have ended, and how many they are. A terminal shows meanwhile how many have
ended, the share of the cuts that are done, and the estimated time that is left. The picture replaces a file only if that is
empty or begins as such a picture, or by --force.

The processes of this machine end with this one, also if it is killed (with setpriv, util-linux 2.33).

With --dask ADDRESS the workers are those of a dask scheduler, as for `parts.py`. Each has the program and the files at the same
paths. If a worker dies, the scheduler gives its parts to others. Of these only ended parts count as done.

The exit status is that of `bootswap sweep`, or 130 after an interrupt.
"""

from __future__ import annotations

import argparse
import contextlib
import functools
import os
import queue
import re
import shutil
import signal
import subprocess
import sys
import tempfile
import threading
import time
import tty
from collections.abc import Callable, Iterator
from typing import Any

sys.dont_write_bytecode = True

from pictures import Picture, PictureError, add_picture, picture_of
from workers import add_workers, bound, positive, repeated, workers_of

EXAMPLE = """example:
  examples/fleet/sweep_parts.py device.json script.txt a.img b.img --twice --svg sweep.svg
"""

# Parts for each worker. What an interrupt loses, and how long a worker may wait at the end, is about one part.
SHARE = 8


# A progress line of `bootswap sweep`, or its end, and what it says of the first cuts.
PROGRESS = re.compile(rb"\r(?:sweep: [^\r\n]*)?\x1b\[K")
CUTS = re.compile(rb"cuts (\d+) of (\d+)")


class Interrupted(Exception):
    """The sweep is to end with what was found so far."""


class Children:
    """The processes that work on parts on this machine. They are killed, since one that begins after an interrupt ignores what
    this process ignores then."""

    def __init__(self) -> None:
        self.running: set[subprocess.Popen] = set()
        self.lock, self.is_stopped = threading.Lock(), False

    def add(self, child: subprocess.Popen) -> None:
        with self.lock:
            self.running.add(child)
            if self.is_stopped:
                child.kill()

    def stop(self) -> None:
        """Ends them, and those that begin later."""
        with self.lock:
            self.is_stopped = True
            for child in self.running:
                child.kill()


class Progress:
    """How far the parts are, each from 0 to 1, and what a terminal shows of it."""

    def __init__(self, parts: int) -> None:
        self.done, self.began, self.shown = dict.fromkeys(range(1, parts + 1), 0.0), time.monotonic(), ""

    def note(self, number: int, line: bytes) -> None:
        """Notes what the progress line of a part says."""
        found = CUTS.search(line)
        if found and int(found[2]):
            self.done[number] = min(1.0, int(found[1]) / int(found[2]))

    def tell(self, ended: int) -> None:
        """Shows the progress at a terminal, if it has changed."""
        share, went = sum(self.done.values()) / len(self.done), time.monotonic() - self.began
        line = f"{ended} of {len(self.done)} parts, {100 * share:.1f} % of the cuts"
        # A share that is too small says nothing of the time.
        line += f", {went * (1 - share) / share:.0f} s left" if share > 0.001 else ""
        if line != self.shown:
            tell(line)
            self.shown = line


def errors_of(stream: int, told: Callable[[bytes], Any]) -> bytes:
    """Returns the output of a standard error until it is closed, without progress lines, which it passes to `told`."""
    text = b""
    # Linux ends a terminal's output with an error once nobody writes to it.
    with contextlib.suppress(OSError):
        while more := os.read(stream, 1 << 16):
            text += more
            for line in PROGRESS.findall(text):
                told(line)
            text = PROGRESS.sub(b"", text)
    return text


def ended_in_time(ran: subprocess.Popen, stream: int, told: Callable[[bytes], Any], limit: float | None) -> bytes:
    """Waits until a process ends, and returns what it wrote to its standard error. It is killed if it takes too long."""
    is_late = threading.Event()
    timer = threading.Timer(limit or threading.TIMEOUT_MAX, lambda: (is_late.set(), ran.kill()))
    timer.daemon = True
    timer.start()
    errors = errors_of(stream, told)
    ran.wait()
    timer.cancel()
    if is_late.is_set():
        raise subprocess.TimeoutExpired(ran.args, limit)
    return errors


def swept(
    words: list[str], limit: float | None, began: Callable[[subprocess.Popen], Any] | None, told: Callable | None
) -> tuple[int, bytes]:
    """Runs `bootswap sweep`, and returns its status and output. A worker calls this, perhaps on another machine.

    Each progress line is passed to `told`, if there is one. A process shows these lines only at a terminal.
    """
    ours, theirs = os.openpty() if told else os.pipe()
    if told:
        tty.setraw(theirs)
    with tempfile.TemporaryFile() as out, open(ours, "rb"):
        # A child of its own session doesn't get Ctrl-C, but is stopped.
        streams = {"stdin": subprocess.DEVNULL, "stdout": out, "stderr": theirs}
        with open(theirs, "wb"):
            ran = subprocess.Popen(bound(words), start_new_session=True, **streams)
        if began:
            began(ran)
        errors = ended_in_time(ran, ours, told or bytes, limit)
        out.seek(0)
        printed = out.read()
    # Status 1 with an output says that a run ended in another way than expected.
    if ran.returncode not in (0, 1) or b"error: " in errors or not printed:
        raise RuntimeError(errors.decode(errors="replace").rstrip() or f"{words[0]}: status {ran.returncode}")
    return ran.returncode, printed


def swept_anew(*how: Any) -> tuple[int, bytes]:
    """Does the same, and once more if it takes too long."""
    return repeated(lambda: swept(*how))


def next_of(ended: queue.SimpleQueue, told: Callable[[], Any]) -> Any:
    """Returns the next part that ends. It waits in steps, since a signal just before a wait doesn't end it."""
    while True:
        told()
        try:
            return ended.get(timeout=0.2)
        except queue.Empty:
            pass


def parts_of(args: argparse.Namespace, outputs: dict[int, bytes]) -> int:
    """Adds the outputs of the parts by their numbers, as they end, and returns how many parts there are."""
    children = Children()
    with workers_of(args) as (submit, workers):
        count = args.parts or SHARE * workers
        progress, futures = Progress(count), {}
        ended: queue.SimpleQueue = queue.SimpleQueue()
        try:
            for number in range(1, count + 1):
                words = [args.program, "sweep", f"--part={number}/{count}", *args.options, *args.files]
                is_told = sys.stderr.isatty() and not args.dask
                told = functools.partial(progress.note, number) if is_told else None
                futures[submit(swept_anew, words, args.limit, None if args.dask else children.add, told)] = number
            for future in futures:
                future.add_done_callback(ended.put)
            for _ in range(count):
                future = next_of(ended, lambda: progress.tell(len(outputs)))
                outputs[futures[future]] = future.result()[1]
                progress.done[futures[future]] = 1.0
        finally:
            for future in futures:
                future.cancel()
            children.stop()
    return count


def names_in(script: str) -> Iterator[bytes]:
    """Yields the names of files in a script. No name is longer than a line that is read here."""
    if not os.path.isfile(script):
        return
    with contextlib.suppress(OSError), open(script, "rb") as lines:
        while line := lines.readline(1 << 16):
            word, *words = line.rstrip(b"\n").split(b" ", 3)
            yield from {b"accept": words[:1], b"piece": words[1:2]}.get(word, [])


def inputs_of(args: argparse.Namespace) -> Iterator[str | bytes]:
    """Yields the names of all files that the sweep reads."""
    yield from args.files
    yield shutil.which(args.program) or args.program
    before = b""
    for name in names_in(args.files[1]) if len(args.files) > 1 else ():
        # A script usually has many pieces of one file.
        if name != before:
            yield name
        before = name


def merged(args: argparse.Namespace, outputs: dict[int, bytes]) -> tuple[int, bytes, bytes]:
    """Returns the status and the output of `bootswap sweep --merge` over outputs, and its picture if there is to be one."""
    with tempfile.TemporaryDirectory(prefix="bootswap-sweep-") as folder:
        names = [f"{folder}/{number}" for number in sorted(outputs)]
        for name, number in zip(names, sorted(outputs)):
            with open(name, "wb") as it:
                it.write(outputs[number])
        drawn = [f"--svg={folder}/svg"] if args.svg is not None else []
        status, out = swept([args.program, "sweep", "--merge", *drawn, *names], None, None, None)
        if not drawn:
            return status, out, b""
        with open(f"{folder}/svg", "rb") as it:
            return status, out, it.read()


def write_sum(args: argparse.Namespace, outputs: dict[int, bytes], picture: Picture | None) -> int:
    """Prints the sum of outputs, and returns its status. If the picture can't be written, the sum is printed nevertheless."""
    status, out, drawn = merged(args, outputs)
    try:
        if picture:
            picture.write(drawn)
    except PictureError as error:
        print(error, file=sys.stderr)
        status = 1
    sys.stdout.buffer.write(out)
    return status


def tell(text: str) -> None:
    """Shows the progress at a terminal, in place of the last one."""
    if sys.stderr.isatty():
        print(f"\r\033[K{text}", end="", file=sys.stderr, flush=True)


def interrupt(*_: Any) -> None:
    """Ends the sweep at the first signal. Later ones are ignored, so that the sum is complete."""
    for number in (signal.SIGINT, signal.SIGTERM):
        signal.signal(number, signal.SIG_IGN)
    raise Interrupted


def arguments() -> argparse.Namespace:
    parser = argparse.ArgumentParser(
        description=__doc__, epilog=EXAMPLE, formatter_class=argparse.RawDescriptionHelpFormatter
    )
    parser.add_argument("files", metavar="FILE", nargs="+", help="DEVICE SCRIPT IMAGE.., as those of `bootswap sweep`")
    parser.add_argument("--parts", type=positive, metavar="N", help=f"default: {SHARE} a worker")
    add_picture(parser, "--svg", "draws the output")
    for option in ("--sample", "--seed"):
        parser.add_argument(option, metavar="N", help="as that of `bootswap sweep`")
    parser.add_argument("--twice", action="store_true", help="as that of `bootswap sweep`")
    add_workers(parser, "none")
    args = parser.parse_args()
    if "-" in args.files:
        parser.error("each part reads the files anew, so - can't be one")
    numbers = [f"--{it}={vars(args)[it]}" for it in ("sample", "seed") if vars(args)[it] is not None]
    args.options = [*numbers, *["--twice"] * args.twice]
    return args


def main() -> int:
    args, outputs, count = arguments(), {}, 0
    picture = picture_of(args.svg, inputs_of(args), args.force)
    for number in (signal.SIGINT, signal.SIGTERM):
        signal.signal(number, interrupt)
    try:
        count = parts_of(args, outputs)
    except Interrupted:
        pass
    except RuntimeError as error:
        print(error, file=sys.stderr)
        return 1
    finally:
        tell("")
    if not count and not outputs:
        print("sweep_parts.py: interrupted before a part had ended", file=sys.stderr)
        return 130
    status = write_sum(args, outputs, picture)
    if not count:
        print(f"sweep_parts.py: interrupted: the sum of {len(outputs)} parts", file=sys.stderr)
        return 130
    return status


if __name__ == "__main__":
    sys.exit(main())
