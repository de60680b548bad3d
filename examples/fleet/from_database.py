#!/usr/bin/env python3
"""Prints the devices of a database as a fleet for `bootswap plan`.

The database is a file of SQLite with the two tables of devices.sql: `running` has what runs on each device, and `needs` what
each version of an image needs. The release isn't in it: `bootswap plan` gets its images by --request.

Each value is checked, since a line feed or a space in one could begin another line. The first wrong one ends the program with
status 1, after the devices before it.
"""

from __future__ import annotations

import argparse
import collections
import functools
import itertools
import pathlib
import re
import reprlib
import signal
import sqlite3
import sys
from collections.abc import Callable, Iterator
from contextlib import closing

sys.dont_write_bytecode = True

from fleet_tables import NUMBER, Version, version_of, version_text

EXAMPLE = """example:
  examples/fleet/from_database.py :memory: --script examples/fleet/devices.sql
"""

RUNNING = "SELECT device, image, version, counter, floor FROM running ORDER BY device, image"
NEEDS = "SELECT image, version, other, minimum FROM needs ORDER BY image, version, other, minimum"

# The largest number of an image, and the largest security counter.
IMAGE, COUNTER = 255, 2**32 - 1


def name_of(text: str) -> str:
    """Returns the name of a device."""
    if not re.fullmatch(r"[!-~]{1,255}", text):
        raise ValueError
    return text


def number_of(text: str, largest: int) -> int:
    """Returns a number as a table has it."""
    if not re.fullmatch(NUMBER, text) or (number := int(text)) > largest:
        raise ValueError
    return number


# What the values of each column are, and how one is read.
KINDS: dict[str, Callable] = {
    "a name of 1 to 255 characters from ! to ~": name_of,
    "the number of an image, 0 to 255": functools.partial(number_of, largest=IMAGE),
    "a version": version_of,
    "a security counter, 0 to 4294967295": functools.partial(number_of, largest=COUNTER),
}
DEVICE, NUMBERED, VERSIONED, COUNTED = KINDS


def value_of(value: object, kind: str) -> str | int | Version:
    """Returns a value of a column, or ends the program if it isn't of its kind."""
    try:
        if not isinstance(value, (int, str)):
            raise ValueError
        return KINDS[kind](str(value))
    except ValueError:
        raise SystemExit(f"from_database.py: {reprlib.repr(value)} isn't {kind}") from None


# Few of these rows differ. Without `typed` 1.0 would be found as 1.
@functools.lru_cache(maxsize=100_000, typed=True)
def image_of(image: object, version: object, counter: object, floor: object) -> tuple[tuple[int, Version], str]:
    """Returns the number and the version of a running image, and its line."""
    image, version = value_of(image, NUMBERED), value_of(version, VERSIONED)
    counter, floor = value_of(counter, COUNTED), value_of(floor, COUNTED)
    return (image, version), f"image {image} {version_text(version)} {counter} {floor}\n"


def fleet_of(database: sqlite3.Connection) -> Iterator[str]:
    """Yields the lines of each device."""
    needs = collections.defaultdict(list)
    for image, version, other, minimum in database.execute(NEEDS):
        needed = f"needs {value_of(other, NUMBERED)} {version_text(value_of(minimum, VERSIONED))}\n"
        needs[value_of(image, NUMBERED), value_of(version, VERSIONED)].append(needed)
    for device, images in itertools.groupby(database.execute(RUNNING), lambda row: row[0]):
        lines = [f"device {value_of(device, DEVICE)}\n"]
        for _, *values in images:
            key, line = image_of(*values)
            lines += [line, *needs.get(key, ())]
        yield "".join(lines)


def opened(name: str, may_be_new: bool) -> sqlite3.Connection:
    """Returns a database. SQLite makes a missing one, which is of use to a script alone."""
    if may_be_new or name == ":memory:":
        return sqlite3.connect(name)
    return sqlite3.connect(f"{pathlib.Path(name).absolute().as_uri()}?mode=rw", uri=True)


def main() -> None:
    parser = argparse.ArgumentParser(
        description=__doc__, epilog=EXAMPLE, formatter_class=argparse.RawDescriptionHelpFormatter
    )
    parser.add_argument("database", metavar="DATABASE", help="file of SQLite, or :memory: for an empty database")
    parser.add_argument("--script", metavar="FILE", help="run this file of SQL first")
    args = parser.parse_args()
    try:
        with closing(opened(args.database, bool(args.script))) as database:
            if args.script:
                with open(args.script, encoding="utf-8") as it:
                    database.executescript(it.read())
            for text in fleet_of(database):
                print(text, end="")
    except sqlite3.Error as error:
        raise SystemExit(f"from_database.py: {args.database}: {error}") from None


if __name__ == "__main__":
    # A reader that has enough ends this program without a message.
    signal.signal(signal.SIGPIPE, signal.SIG_DFL)
    main()
