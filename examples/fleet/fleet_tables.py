"""Tables of devices as Python values, for the programs of this folder.

A version is a tuple of four numbers: tuples have the order of versions. `read_table` is for tables that `bootswap` accepts.
It raises `ValueError` for some others, and reads the rest somehow. `bootswap choose` reports which tables are bad.
"""

from __future__ import annotations

import re
from collections.abc import Iterable, Iterator
from typing import BinaryIO, NamedTuple

Version = tuple[int, int, int, int]

# The number of an image and its lowest version.
Need = tuple[int, Version]

# What a device line is, without its line feed.
DEVICE_LINE = re.compile(rb"device [!-~]{1,255}")

# A request that isn't an intact image.
DAMAGED = "damaged"

# The most bytes and the most images of a table.
MOST_BYTES, MOST_IMAGES = 65536, 8

NUMBER = "(0|[1-9][0-9]{0,9})"

VERSION = re.compile(rf"{NUMBER}(?:\.{NUMBER}(?:\.{NUMBER}(?:\+{NUMBER})?)?)?")


class Entry(NamedTuple):
    """A running or requested image. A group is the list of its alternatives."""

    version: Version
    counter: int
    needs: list[Need]
    groups: list[list[Need]]


class Image(NamedTuple):
    """The part of a table for one image. The request is an entry, DAMAGED or None."""

    running: Entry
    floor: int
    request: Entry | str | None


def version_of(text: str) -> Version:
    """Returns a version, of which parts may be left out from the right."""
    found = VERSION.fullmatch(text)
    major, minor, revision, build = map(int, found.groups("0")) if found else (256, 0, 0, 0)
    if major > 255 or minor > 255 or revision > 65535 or build > 2**32 - 1:
        raise ValueError(f"{text[:80]!r} isn't a version")
    return major, minor, revision, build


def version_text(version: Version) -> str:
    """Returns a version as `bootswap` prints it."""
    return "{}.{}.{}+{}".format(*version)


def needs_of(words: list[str]) -> list[Need]:
    """Returns the needs that pairs of words say."""
    return [(int(image), version_of(minimum)) for image, minimum in zip(words[::2], words[1::2])]


def read_table(text: bytes) -> list[Image]:
    """Returns the images of a table."""
    images: list[Image] = []
    entry = None
    if len(text) > MOST_BYTES:
        raise ValueError(f"a table of more than {MOST_BYTES} bytes")
    for line in text.decode("ascii").removesuffix("\n").split("\n"):
        word, *words = line.split(" ")
        if word == "image" and len(images) < MOST_IMAGES:
            _, version, counter, floor = words
            entry = Entry(version_of(version), int(counter), [], [])
            images.append(Image(entry, int(floor), None))
        elif word in ("request", "damaged") and images:
            entry = None if word == "damaged" else Entry(version_of(words[0]), int(words[1]), [], [])
            images[-1] = images[-1]._replace(request=entry or DAMAGED)
        elif word == "needs" and entry:
            entry.needs.extend(needs_of(words))
        elif word == "needs-one" and entry:
            entry.groups.append(needs_of(words))
        else:
            raise ValueError(f"{line[:80]!r} isn't a line of a table here")
    return images


def lines_in(stream: BinaryIO) -> Iterator[bytes]:
    """Yields the lines of a fleet. Of a line that is longer than a table may be it yields the first bytes."""
    while line := stream.readline(MOST_BYTES + 1):
        yield line
        while line and not line.endswith(b"\n"):
            line = stream.readline(MOST_BYTES + 1)


def devices_in(lines: Iterable[bytes]) -> Iterator[tuple[str, bytes]]:
    """Yields the name and the table of each device of a fleet. Of a table that is too long it yields as much as shows that.
    Raises `ValueError` if the fleet begins with another line."""
    name, table, size = None, [], 0
    for line in lines:
        if DEVICE_LINE.fullmatch(line.removesuffix(b"\n")):
            if name is not None:
                yield name, b"".join(table)
            name, table, size = line[7:].rstrip(b"\n").decode("ascii"), [], 0
        elif name is None:
            raise ValueError(f"a fleet begins with a line `device NAME`, and not with {line[:80]!r}")
        elif size <= MOST_BYTES:
            table.append(line)
            size += len(line)
    if name is not None:
        yield name, b"".join(table)
