#!/usr/bin/env python3
"""Prints a fleet of random devices with a stated mix of faults: for each device a line `device NAME`, then its table.

The fleet gets a release, which brings new images 2.0.0:

- Each new image needs each other image with the probability --density: its new version if the release changes it, else
  1.4.0. The release doesn't change a share --unchanged of the images.
- A device runs 1.4.0 of each image. A share --older of the devices runs 1.0.0.
- A device requests the images of the release. A request may be damaged (--damaged), or missing though others need it
  (--partnerless).

With --releases N the first 1/N of the devices gets one release, the next 1/N another one, and so on.

The same options print the same fleet on each machine. The parts 1/4, 2/4, 3/4 and 4/4 (--part) together are the complete
fleet, so several processes can make it. Memory doesn't grow with the fleet.
"""

from __future__ import annotations

import argparse
import functools
import os
import random
import sys
from typing import NamedTuple

sys.dont_write_bytecode = True

from fleet_tables import DAMAGED, Entry, Image, version_text

EXAMPLE = """example:
  examples/fleet/make_fleet.py --devices 3 --images 2 --density 1 --unchanged 0
  examples/fleet/make_fleet.py --devices 1000000 --images 4 --damaged 0.01 > out/fleet.txt

The first one prints three devices of two images that need each other.
"""

# What an older device runs, what the others run, and what a release brings.
OLD, CURRENT, NEW = (1, 0, 0, 0), (1, 4, 0, 0), (2, 0, 0, 0)

# Security counters, of which a new image has the higher one.
COUNTER, NEW_COUNTER = 1, 2


class Mix(NamedTuple):
    """What a fleet consists of. Without `images` and `density`, each is the share of faults of a kind."""

    images: int
    density: float
    unchanged: float = 0.0
    older: float = 0.0
    damaged: float = 0.0
    partnerless: float = 0.0
    bad: float = 0.0


class Release(NamedTuple):
    """The new images, by their numbers; which of them others need; what runs on an older device, and on others."""

    new: dict[int, Entry]
    partners: set[int]
    old: list[Entry]
    current: list[Entry]


class Device(NamedTuple):
    """A device: its number from 0, its release, its images, and the number of its faults."""

    number: int
    images: list[Image]
    faults: int

    def name(self) -> str:
        return f"truck-{self.number + 1:06}"


def release_at_random(mix: Mix, numbers: random.Random) -> Release:
    """Returns a release that changes one image or more."""
    every = range(mix.images)
    changed = [it for it in every if numbers.random() >= mix.unchanged] or [int(numbers.random() * mix.images)]
    needed = [[other for other in every if other != it and numbers.random() < mix.density] for it in every]
    running = lambda version: [Entry(version, COUNTER, [(it, OLD) for it in needed[at]], []) for at in every]
    needs = lambda image: [(it, NEW if it in changed else CURRENT) for it in needed[image]]
    new = {it: Entry(NEW, NEW_COUNTER, needs(it), []) for it in changed}
    partners = {other for it in changed for other in needed[it] if other in changed}
    return Release(new, partners, running(OLD), running(CURRENT))


class Fleet:
    """The devices of a fleet, each made from its number alone."""

    def __init__(self, mix: Mix, devices: int, seed: str, releases: int = 1) -> None:
        self.mix, self.devices, self.seed, self.releases = mix, devices, seed, releases
        self.release = functools.lru_cache(maxsize=2)(self.made_release)

    def made_release(self, number: int) -> Release:
        return release_at_random(self.mix, random.Random(f"{self.seed} release {number}"))

    def device(self, number: int) -> Device:
        """Returns a device."""
        mix, numbers = self.mix, random.Random(f"{self.seed} device {number}")
        release = self.release(number * self.releases // self.devices)
        is_older = numbers.random() < mix.older
        images, faults = [], int(is_older)
        for it, running in enumerate(release.old if is_older else release.current):
            request = release.new.get(it)
            if request and numbers.random() < mix.damaged:
                request, faults = DAMAGED, faults + 1
            elif it in release.partners and numbers.random() < mix.partnerless:
                request, faults = None, faults + 1
            images.append(Image(running, COUNTER, request))
        return Device(number, images, faults)

    def is_bad(self, number: int) -> bool:
        """Returns whether the table of a device is spoiled."""
        return self.mix.bad > 0 and random.Random(f"{self.seed} bad {number}").random() < self.mix.bad


def need_lines(entry: Entry) -> str:
    return "".join(f"needs {image} {version_text(minimum)}\n" for image, minimum in entry.needs)


def table_text(images: list[Image]) -> str:
    """Returns the text of a table without groups."""
    lines = []
    for number, (running, floor, request) in enumerate(images):
        lines.append(f"image {number} {version_text(running.version)} {running.counter} {floor}\n{need_lines(running)}")
        if request is DAMAGED:
            lines.append("damaged\n")
        elif request:
            lines.append(f"request {version_text(request.version)} {request.counter}\n{need_lines(request)}")
    return "".join(lines)


def spoiled(text: str, number: int) -> str:
    """Returns a bad table: nothing, one that ends with an empty line, or one whose first line isn't that of image 0."""
    return ["", f"{text}\n", text.replace("image 0 ", "image 00 ", 1)][number % 3]


def part_of(text: str) -> tuple[int, int]:
    """Returns the two numbers of a part K/N."""
    part, _, parts = text.partition("/")
    if not 1 <= int(part) <= int(parts):
        raise ValueError
    return int(part), int(parts)


def share(text: str) -> float:
    """Returns a share from 0 to 1."""
    if not 0 <= float(text) <= 1:
        raise ValueError
    return float(text)


def arguments() -> argparse.Namespace:
    parser = argparse.ArgumentParser(
        description=__doc__, epilog=EXAMPLE, formatter_class=argparse.RawDescriptionHelpFormatter
    )
    shares = {
        "density": (0.2, "probability that a new image needs another one"),
        "unchanged": (0.2, "share of images that the release doesn't change"),
        "older": (0.0, "share of devices that run 1.0.0"),
        "damaged": (0.0, "share of damaged requests"),
        "partnerless": (0.0, "share of missing requests, of those that others need"),
        "bad": (0.0, "share of devices with a bad table"),
    }
    parser.add_argument("--devices", type=int, default=1000, metavar="N", help="default: %(default)s")
    parser.add_argument("--images", type=int, default=4, choices=range(2, 9), help="images of a device; default: 4")
    for name, (default, text) in shares.items():
        parser.add_argument(f"--{name}", type=share, default=default, metavar="P", help=f"{text}; default: {default}")
    parser.add_argument("--releases", type=int, default=1, metavar="N", help="default: %(default)s")
    parser.add_argument("--seed", default="1", metavar="TEXT", help="default: %(default)s")
    parser.add_argument("--part", type=part_of, default=(1, 1), metavar="K/N", help="print part K of N only")
    return parser.parse_args()


def numbers_of(devices: int, part: int, parts: int) -> range:
    """Returns the numbers of the devices in a part."""
    return range(devices * (part - 1) // parts, devices * part // parts)


def main() -> None:
    args = arguments()
    fleet = Fleet(Mix(*(getattr(args, it) for it in Mix._fields)), args.devices, args.seed, args.releases)
    for number in numbers_of(args.devices, *args.part):
        device = fleet.device(number)
        text = table_text(device.images)
        print(f"device {device.name()}\n{spoiled(text, number) if fleet.is_bad(number) else text}", end="")


if __name__ == "__main__":
    try:
        main()
    except BrokenPipeError:
        # Whoever reads has enough. Python must not write the rest at its end.
        os.dup2(os.open(os.devnull, os.O_WRONLY), sys.stdout.fileno())
