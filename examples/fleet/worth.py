#!/usr/bin/env python3
"""Prints what the greatest set is worth: how many requests it takes, and how many MCUboot's rule takes.

For each mix of faults it makes tables as make_fleet.py does, with a new release for every ten devices. `bootswap` decides
each table through bindings/python, which needs out/libbootswap.so (bindings/build makes it) or the library that the
environment names in BOOTSWAP_LIBRARY. Then mcuboot_rule.py decides it by both of its rules.

  Needs        probability that a new image needs another one
  Faults       share of damaged requests, of missing ones among those that others need, and of devices that run 1.0.0
  Requests     in all tables
  Taken        by the greatest set, and by MCUboot's rules `code` and `design`
  Left behind  devices of which the rule `code` takes nothing, though the greatest set takes something
  One fault    devices left behind that have one fault only

The result doesn't depend on the number of processes.
"""

from __future__ import annotations

import argparse
import collections
import multiprocessing
import os
import shutil
import subprocess
import sys
from collections.abc import Iterator
from typing import NamedTuple

FLEET = os.path.dirname(os.path.realpath(__file__))
# An installed module of Python is found without this.
sys.path.append(f"{FLEET}/../../bindings/python")
sys.dont_write_bytecode = True

from make_fleet import Fleet, Mix, table_text
from mcuboot_rule import taken_by_code, taken_by_design
from pictures import PictureError, add_picture, picture_of

EXAMPLE = """example:
  bindings/build && examples/fleet/worth.py --tables 1000000 --plot docs/worth.svg
"""

# The mixes: each number of images with each of these probabilities and shares.
IMAGES, NEEDS, FAULTS = range(2, 9), (0.1, 0.3), (0.01, 0.05)

# How many tables a process decides in one go, and how many devices get the same release.
CHUNK, PER_RELEASE = 2000, 10

COUNTS = ("tables", "requests", "greatest", "code", "design", "behind", "by_one")


class Task(NamedTuple):
    """Some tables of a mix, by their numbers."""

    mix: Mix
    tables: int
    seed: str
    first: int
    end: int


def mixes() -> Iterator[Mix]:
    """Yields the mixes, in the order of the rows."""
    for needs in NEEDS:
        for faults in FAULTS:
            for images in IMAGES:
                yield Mix(images, needs, 0.2, faults, faults, faults)


def tasks(tables: int, seed: str) -> Iterator[Task]:
    """Yields all tasks, so that each mix gets about the same number of tables."""
    every = [*mixes()]
    for place, mix in enumerate(every):
        count = tables * (place + 1) // len(every) - tables * place // len(every)
        for first in range(0, count, CHUNK):
            yield Task(mix, count, seed, first, min(first + CHUNK, count))


def greatest_of(table: str) -> int:
    """Returns how many requests the greatest set takes."""
    from bootswap import choose

    return f"\n{choose(table)}".count("\ntake ")


def counts_of(task: Task) -> tuple[Mix, collections.Counter]:
    """Decides the tables of a task, and returns its mix and what it counted."""
    seen: collections.Counter = collections.Counter()
    fleet = Fleet(task.mix, task.tables, task.seed, max(1, task.tables // PER_RELEASE))
    for number in range(task.first, task.end):
        device = fleet.device(number)
        greatest, code = greatest_of(table_text(device.images)), len(taken_by_code(device.images))
        is_behind = greatest > 0 and code == 0
        seen["tables"] += 1
        seen["requests"] += sum(it.request is not None for it in device.images)
        seen["greatest"] += greatest
        seen["code"] += code
        seen["design"] += len(taken_by_design(device.images))
        seen["behind"] += is_behind
        seen["by_one"] += is_behind and device.faults == 1
    return task.mix, seen


def measured(tables: int, seed: str, processes: int) -> dict[Mix, collections.Counter]:
    """Decides all tables by several processes, and returns the counts of each mix."""
    found = {mix: collections.Counter() for mix in mixes()}
    with multiprocessing.Pool(processes) as pool:
        for mix, seen in pool.imap_unordered(counts_of, tasks(tables, seed)):
            found[mix].update(seen)
    return found


def percent(part: int, whole: int) -> str:
    return f"{100 * part / whole:.1f} %" if whole else "-"


def markdown(found: dict[Mix, collections.Counter], images: list[int]) -> str:
    """Returns a table of the mixes with these numbers of images."""
    head = ("Images", "Needs", "Faults", "Requests", "Taken: greatest set", "`code`", "`design`", "Left behind", "One fault")
    rows = [head, ["---"] * len(head)]
    for mix, seen in found.items():
        if mix.images in images:
            taken = [percent(seen[it], seen["requests"]) for it in ("greatest", "code", "design")]
            behind = [percent(seen[it], seen["tables"]) for it in ("behind", "by_one")]
            rows.append([mix.images, mix.density, f"{mix.damaged:.0%}", seen["requests"], *taken, *behind])
    return "".join(f"| {' | '.join(map(str, it))} |\n" for it in rows)


def csv(found: dict[Mix, collections.Counter]) -> str:
    """Returns all counts, a line for each mix."""
    rows = [("images", "needs", "faults", *COUNTS)]
    rows += [(it.images, it.density, it.damaged, *(seen[name] for name in COUNTS)) for it, seen in found.items()]
    return "".join(f"{','.join(map(str, it))}\n" for it in rows)


def gnuplot(found: dict[Mix, collections.Counter]) -> str:
    """Returns the commands of a plot: what the greatest set and MCUboot's rule `code` take, for each number of images."""
    commands = [
        "set terminal svg size 720,420 font 'sans-serif,12' background 'white'",
        "set xlabel 'images of a device'; set ylabel 'requests taken, %'; set yrange [0:100]; set xrange [1.8:8.2]",
        "set key inside left bottom; set grid ytics; set tics nomirror",
    ]
    lines = []
    for color, (needs, faults) in enumerate((needs, faults) for needs in NEEDS for faults in FAULTS):
        for rule, dash in (("greatest", 1), ("code", 2)):
            name = f"{'greatest set' if rule == 'greatest' else 'MCUboot (code)'}, needs {needs}, faults {faults:.0%}"
            rows = [(it, seen) for it, seen in found.items() if (it.density, it.damaged) == (needs, faults)]
            points = "".join(f"{it.images} {100 * seen[rule] / max(1, seen['requests'])}\n" for it, seen in rows)
            commands.append(f"${rule}{color} << END\n{points}END")
            lines.append(f"${rule}{color} with linespoints lc {color + 1} dt {dash} pt {8 - dash} title '{name}'")
    return "\n".join([*commands, f"plot {', '.join(lines)}", ""])


def plot(found: dict[Mix, collections.Counter]) -> bytes:
    """Returns the plot as SVG."""
    return subprocess.run(["gnuplot", "-"], input=gnuplot(found).encode(), stdout=subprocess.PIPE, check=True).stdout


def main() -> None:
    parser = argparse.ArgumentParser(
        description=__doc__, epilog=EXAMPLE, formatter_class=argparse.RawDescriptionHelpFormatter
    )
    parser.add_argument("--tables", type=int, default=28000, metavar="N", help="of all mixes; default: %(default)s")
    parser.add_argument("--seed", default="1", metavar="TEXT", help="default: %(default)s")
    parser.add_argument("--processes", type=int, default=os.cpu_count(), metavar="N", help="default: all processors")
    parser.add_argument("--images", type=int, nargs="+", default=[*IMAGES], metavar="N", help="rows to print; default: all")
    parser.add_argument("--csv", action="store_true", help="print all counts as CSV, and no Markdown")
    add_picture(parser, "--plot", "draw a plot of all mixes too, as SVG; needs gnuplot")
    args = parser.parse_args()
    if args.plot and not shutil.which("gnuplot"):
        parser.error("--plot needs the program gnuplot")
    picture = picture_of(args.plot, [], args.force)
    found = measured(args.tables, args.seed, args.processes)
    print(csv(found) if args.csv else markdown(found, args.images), end="")
    if picture:
        try:
            picture.write(plot(found))
        except (PictureError, subprocess.CalledProcessError) as error:
            raise SystemExit(str(error)) from None


if __name__ == "__main__":
    main()
