#!/usr/bin/env python3
"""Makes an image of a body by its format, as `bootswap make-image` does, where that program isn't built."""

import argparse
import os
import struct
import sys

sys.path.insert(0, os.path.dirname(os.path.realpath(__file__)))
sys.dont_write_bytecode = True

from make_images import image, version


def arguments():
    parser = argparse.ArgumentParser(description=__doc__)
    parser.add_argument("image", help="the file to make")
    parser.add_argument("body", help="the file with the body, such as what a linker made")
    parser.add_argument("--version", required=True, help="three numbers, as 1.2.3")
    parser.add_argument("--header-size", type=int, default=32, help="the bytes of the header, 32 or more")
    needs = {"action": "append", "default": [], "metavar": "'J V'"}
    parser.add_argument("--needs", **needs, help="an image that it needs, and its lowest version, as '1 2.0.0'; repeatable")
    parser.add_argument("--force", action="store_true", help="replaces any file")
    return parser.parse_args()


def version_of(text):
    return version(*map(int, text.split(".")))


def main(asked):
    needs = [(int(other), version_of(least)) for other, least in map(str.split, asked.needs)]
    try:
        with open(asked.body, "rb") as it:
            body = it.read()
        made = image(version_of(asked.version), needs=needs, body=body, header_size=asked.header_size)
        with open(asked.image, "wb" if asked.force else "xb") as it:
            it.write(made)
    except OSError as error:
        sys.exit(f"make_image.py: {error.filename}: {error.strerror}")
    except (TypeError, ValueError, struct.error):
        sys.exit(f"make_image.py: no image has the version {asked.version} and a header of {asked.header_size} bytes")


if __name__ == "__main__":
    main(arguments())
