#!/usr/bin/env python3
"""Prints the summary of a large fleet: `bootswap plan FLEET --summary`, by several processes or machines.

The fleet is split at its device lines. A worker runs `bootswap plan - --summary` for each part, and `bootswap plan --merge`
adds the summaries in order. So the output is that of one process, whatever the parts are.

With --dask ADDRESS the workers are those of a dask scheduler: `dask scheduler` on one machine, `dask worker ADDRESS` on each
of the others, and dask.distributed of the same version on all (Debian's python3-distributed). Each has the program and the
images at the paths of --program and --request. If a worker dies, the scheduler gives its parts to others.

A table of more than 65,536 bytes is bad whatever its rest is, so no more than that is held of one. If a process of a worker
doesn't end in time, such as a stopped one, it is killed and its part is done once more.

The exit status is 0, or 1 if the table of a device is bad or not valid.
"""

from __future__ import annotations

import argparse
import collections
import functools
import itertools
import re
import subprocess
import sys
import tempfile
from collections.abc import Iterable, Iterator

sys.dont_write_bytecode = True

from workers import AHEAD, add_workers, bound, in_order, positive, repeated, workers_of

EXAMPLE = """example:
  examples/fleet/make_fleet.py --devices 1000000 > out/fleet.txt
  examples/fleet/parts.py out/fleet.txt
"""

# A device line after another line. A line that only begins as one belongs to the table of the device before it.
DEVICE = re.compile(rb"\ndevice [!-~]{1,255}(?=\n)")

# The most bytes of a device line, with the line feeds before and after it.
LINE = len(b"\ndevice ") + 255 + len(b"\n")

# The bytes of a table that are held if it is longer. They show `plan` that it is too long.
MOST = LINE + 65536 + 1

# The summaries of one sum.
BATCH = 100

# How many seconds a part may take, and how many more for each MiB of it.
LIMIT, LIMIT_OF_MIB = 60, 1


def last_device(text: bytes, first: int) -> int:
    """Returns where the last device line begins that ends after a place, other than at the front, or 0."""
    start = max(0, first - LINE)
    # Usually it is near the end.
    for near in (max(start, len(text) - 4096), start):
        found = collections.deque(DEVICE.finditer(text, near), maxlen=1)
        if found:
            return found[0].start() + 1
    return 0


def shortened(table: bytes) -> bytes:
    """Returns the front of a table that is too long, and its last line if that may become a device line."""
    if len(table) <= MOST + LINE:
        return table
    last = table.rfind(b"\n", len(table) - LINE)
    # No device line has a space at its end or at its front.
    return table[:MOST] + b" " + (table[last:] if last >= 0 else b"\n ")


def parts_of(stream: Iterable[bytes]) -> Iterator[bytes]:
    """Yields parts of a fleet, of which each begins with a device line, from blocks of its bytes."""
    rest = b""
    for block in stream:
        seen = len(rest)
        rest += block
        at = last_device(rest, seen)
        if at:
            yield rest[:at]
            rest = rest[at:]
        rest = shortened(rest)
    if rest:
        yield rest


def planned(program: str, limit: float, words: list[str], given: bytes = b"") -> bytes:
    """Returns what `bootswap plan` prints. Status 1 with a summary is no fault: it says that some table is bad."""
    command = bound([program, "plan", *words])
    ran = repeated(lambda: subprocess.run(command, input=given, capture_output=True, timeout=limit))
    if ran.returncode not in (0, 1) or not ran.stdout:
        raise RuntimeError(f"{program} plan: status {ran.returncode}, {ran.stderr.decode(errors='replace').rstrip()}")
    return ran.stdout


def summary_of(program: str, limit: float, options: list[str], part: bytes) -> bytes:
    """Returns the summary of a part. A worker calls this, perhaps on another machine."""
    return planned(program, limit, ["-", "--summary", *options], part)


def added(program: str, limit: float, summaries: list[bytes]) -> bytes:
    """Returns the sum of summaries."""
    with tempfile.TemporaryDirectory(prefix="bootswap-fleet-") as folder:
        names = [f"{folder}/{number}" for number in range(len(summaries))]
        for name, summary in zip(names, summaries):
            with open(name, "wb") as it:
                it.write(summary)
        return planned(program, limit, ["--merge", *names])


def merged(program: str, limit: float, summaries: Iterator[bytes]) -> bytes:
    """Returns the sum of any number of summaries, of which few are held at a time."""
    total = b""
    while batch := [*itertools.islice(summaries, BATCH)]:
        total = added(program, limit, [total, *batch] if total else batch)
    return total


def arguments() -> argparse.Namespace:
    parser = argparse.ArgumentParser(
        description=__doc__, epilog=EXAMPLE, formatter_class=argparse.RawDescriptionHelpFormatter
    )
    parser.add_argument("fleet", metavar="FLEET", help="file of a fleet; - is standard input")
    parser.add_argument("--request", action="append", default=[], metavar="I=IMAGE", help="as that of `bootswap plan`")
    parser.add_argument("--bytes", type=positive, default=1 << 20, metavar="N", help="of a part, about; default: %(default)s")
    add_workers(parser, f"{LIMIT}, and {LIMIT_OF_MIB} for each MiB of --bytes")
    return parser.parse_args()


def summary_in(args: argparse.Namespace) -> bytes:
    """Returns the summary of the fleet that the arguments name."""
    options = [it for request in args.request for it in ("--request", request)]
    limit = args.limit or LIMIT + LIMIT_OF_MIB * (args.bytes >> 20)
    with sys.stdin.buffer if args.fleet == "-" else open(args.fleet, "rb") as fleet, workers_of(args) as (submit, count):
        parts = parts_of(iter(lambda: fleet.read(args.bytes), b""))
        planned_part = functools.partial(submit, summary_of, args.program, limit, options)
        return merged(args.program, limit, in_order(planned_part, parts, AHEAD * count))


def main() -> int:
    try:
        summary = summary_in(arguments())
    except (OSError, RuntimeError) as error:
        print(f"parts.py: {error}", file=sys.stderr)
        return 1
    sys.stdout.buffer.write(summary)
    keys = {line.split(b" ", 2)[2] for line in summary.splitlines()}
    return 1 if keys & {b"bad", b"not-valid"} else 0


if __name__ == "__main__":
    sys.exit(main())
