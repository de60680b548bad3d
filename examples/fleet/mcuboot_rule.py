#!/usr/bin/env python3
"""Prints which requests MCUboot would take on each device of a fleet, by one of two rules. This is a model: no code of
MCUboot runs here.

Both rules leave out each request that MCUboot doesn't install whatever the other images are: one that isn't an intact
image; one that is older than what runs (with MCUBOOT_DOWNGRADE_PREVENTION); one whose security counter is below the floor
(with MCUBOOT_HW_ROLLBACK_PROT). If one of the remaining requests has an unmet dependency, they differ:

  code    No request is installed. Source: `boot_verify_dependencies` in boot/bootutil/src/loader.c, with the comment "Cannot
          upgrade due to non-met dependencies, so disable all image upgrades".
  design  That request isn't installed, and the check restarts from the first image. Source: docs/design.md, "Multiple image
          boot", loop 2. web/mcuboot.js models this rule too, with trials and reverts.

Both sources are in https://github.com/mcu-tools/mcuboot. This model wasn't compared with them. It is generous where a
table says more than MCUboot reads: the build number of a version counts (as with MCUBOOT_VERSION_CMP_USE_BUILD_NUMBER), and
a group, which MCUboot doesn't have, is met if one of its alternatives is. Running images are expected to fit each other.
"""

from __future__ import annotations

import argparse
import sys

sys.dont_write_bytecode = True

from fleet_tables import Entry, Image, Version, devices_in, lines_in, read_table, version_text

EXAMPLE = """example:
  examples/fleet/make_fleet.py --devices 1000 > out/fleet.txt
  examples/fleet/mcuboot_rule.py out/fleet.txt
"""


def are_needs_met(entry: Entry, versions: list[Version]) -> bool:
    """Returns whether these versions meet all that an image needs."""
    is_met = lambda need: need[0] < len(versions) and versions[need[0]] >= need[1]
    return all(map(is_met, entry.needs)) and all(any(map(is_met, it)) for it in entry.groups)


def is_installable(image: Image) -> bool:
    """Returns whether MCUboot installs the request of an image if all dependencies are met."""
    running, floor, request = image
    return isinstance(request, Entry) and request.version >= running.version and request.counter >= floor


def unmet(images: list[Image], taken: set[int]) -> int | None:
    """Returns the first of these requests that has an unmet dependency if they are taken, or None."""
    versions = [(it.request if number in taken else it.running).version for number, it in enumerate(images)]
    return next((it for it in sorted(taken) if not are_needs_met(images[it].request, versions)), None)


def taken_by_code(images: list[Image]) -> set[int]:
    """Returns the numbers of the requests that the rule `code` takes."""
    taken = {number for number, it in enumerate(images) if is_installable(it)}
    return taken if unmet(images, taken) is None else set()


def taken_by_design(images: list[Image]) -> set[int]:
    """Returns the numbers of the requests that the rule `design` takes."""
    taken = {number for number, it in enumerate(images) if is_installable(it)}
    while (number := unmet(images, taken)) is not None:
        taken.remove(number)
    return taken


RULES = {"code": taken_by_code, "design": taken_by_design}


def lines_of(table: bytes, rule: str) -> str:
    """Returns the lines of a device: those of the images in a report, or `bad` for a table that can't be read."""
    try:
        images = read_table(table)
    except ValueError:
        return "bad\n"
    taken = RULES[rule](images)
    runs = [("take", it.request) if number in taken else ("run", it.running) for number, it in enumerate(images)]
    return "".join(f"{word} {number} {version_text(it.version)}\n" for number, (word, it) in enumerate(runs))


def main() -> None:
    parser = argparse.ArgumentParser(
        description=__doc__, epilog=EXAMPLE, formatter_class=argparse.RawDescriptionHelpFormatter
    )
    parser.add_argument("fleet", metavar="FLEET", help="file of a fleet; - is standard input")
    parser.add_argument("--rule", choices=RULES, default="code", help="default: code")
    args = parser.parse_args()
    try:
        with sys.stdin.buffer if args.fleet == "-" else open(args.fleet, "rb") as fleet:
            for name, table in devices_in(lines_in(fleet)):
                print(f"device {name}\n{lines_of(table, args.rule)}", end="")
    except (OSError, ValueError) as error:
        raise SystemExit(f"mcuboot_rule.py: {error}") from None


if __name__ == "__main__":
    main()
