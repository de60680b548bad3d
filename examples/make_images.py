#!/usr/bin/env python3
"""Makes the intact images of examples/images by their format, and replaces no other file.

An image is a header of 32 bytes, a body, a protected area where the image has a security counter or needs others (each
of some, or one of several), and an unprotected area with the SHA-256 of what stands before it. docs/FORMATS.md has the whole format.
"""

import argparse
import hashlib
import os
import struct
import sys

BODY = b"ABCD"


def version(major, minor, revision=0, build=0):
    return struct.pack("<BBHI", major, minor, revision, build)


def area(magic, entries):
    """An area of entries, each a type and a value."""
    filled = b"".join(struct.pack("<HH", kind, len(value)) + value for kind, value in entries)
    return struct.pack("<HH", magic, 4 + len(filled)) + filled


def asked(other, least):
    """What asks for an image at a version, in a dependency or as an alternative of a group."""
    return bytes([other, 0, 0, 0]) + least


def image(own, counter=None, needs=(), groups=(), body=BODY, header_size=32):
    """An image of this version, with this security counter, that needs each image at a version, and one of each group."""
    entries = [] if counter is None else [(0x50, struct.pack("<I", counter))]
    entries += [(0x40, asked(*it)) for it in needs]
    entries += [(0xA0, b"".join(asked(*it) for it in group)) for group in groups]
    protected = area(0x6908, entries) if entries else b""
    lengths = struct.pack("<HHI", header_size, len(protected), len(body))
    header = struct.pack("<II", 0x96F3B83D, 0) + lengths + bytes(4) + own
    digested = header.ljust(header_size, b"\0") + body + protected
    return digested + area(0x6907, [(0x10, hashlib.sha256(digested).digest())])


IMAGES = {
    "one": image(version(1, 0)),
    "needing": image(version(2, 0), needs=[(1, version(2, 0))]),
    "partner": image(version(2, 0), needs=[(0, version(2, 0))]),
    "needing3": image(version(3, 0), needs=[(1, version(3, 0))]),
    "partner3": image(version(3, 0), needs=[(0, version(3, 0))]),
    "counted": image(version(1, 0), counter=5, needs=[(1, version(2, 0))]),
    "patched": image(version(1, 1), counter=5),
    "stale": image(version(1, 2), counter=4),
    "either": image(version(2, 0), groups=[[(1, version(2, 0)), (2, version(2, 0))]]),
}


def has(name, contents):
    """Whether a file has these contents."""
    if not os.path.isfile(name) or os.path.getsize(name) != len(contents):
        return False
    with open(name, "rb") as it:
        return it.read() == contents


def main(words):
    parser = argparse.ArgumentParser(description=__doc__, formatter_class=argparse.RawDescriptionHelpFormatter)
    parser.add_argument("folder", metavar="FOLDER", help="an existing folder")
    folder = parser.parse_args(words).folder
    files = {f"{folder}/{name}.img": contents for name, contents in IMAGES.items()}
    for name, contents in files.items():
        if os.path.lexists(name) and not has(name, contents):
            sys.exit(f"make_images.py: {name} is another file")
    for name, contents in files.items():
        if not os.path.lexists(name):
            try:
                with open(name, "xb") as it:
                    it.write(contents)
            except OSError as error:
                sys.exit(f"make_images.py: {name}: {error.strerror}")


if __name__ == "__main__":
    main(sys.argv[1:])
