#!/usr/bin/env python3
"""Prints what a release reaches, as bars: what devices take, and which requests they refuse and why.

It reads a summary of `bootswap plan --summary`. Each bar is a share of all devices. A device takes one set, and may refuse
several requests. The exit status is 1 if the summary has another line.
"""

from __future__ import annotations

import argparse
import html
import re
import sys
from typing import BinaryIO, NamedTuple

sys.dont_write_bytecode = True

from pictures import PictureError, add_picture, picture_of

EXAMPLE = """example:
  ./bootswap plan out/fleet.txt --summary | examples/fleet/reach.py -
"""

# A line of a summary.
LINE = re.compile(rb"([1-9][0-9]{0,19}) [!-~]{1,255} ([ -~]+)\n?")

# No line is longer: a key has at most a reason with eight versions.
MOST_LINE = 1024

# The widths in characters of a label and of the longest bar.
LABEL, WIDTH = 44, 40

# The numbers of pixels of the picture: of a row, of the labels, of the longest bar, and of the counts.
ROW, TEXT, BAR, COUNT = 18, 340, 300, 150

COLORS = {"take": "#2b7a4b", "refuse": "#b5502f", "not taken": "#888888"}


class Row(NamedTuple):
    """A bar: its kind, its label, and a number of devices."""

    kind: str
    label: str
    count: int


def label_of(key: str) -> tuple[str, str]:
    """Returns the kind of a key, and the text that stands for it."""
    word, _, rest = key.partition(" ")
    if word == "take":
        return ("take", key) if rest else ("not taken", "take nothing")
    if word == "refuse":
        return "refuse", key
    return "not taken", {"bad": "bad table", "not-valid": "running images don't fit"}.get(word, key)


def counts_in(stream: BinaryIO) -> dict[str, int]:
    """Returns the count of each key of a summary, or ends the program at a wrong line."""
    counts: dict[str, int] = {}
    for number, line in enumerate(iter(lambda: stream.readline(MOST_LINE), b""), 1):
        found = LINE.fullmatch(line)
        key = found[2].decode("ascii") if found else ""
        if not found or key in counts or len(line) == MOST_LINE:
            raise SystemExit(f"reach.py: line {number} isn't one of a summary")
        counts[key] = int(found[1])
    if counts and max(counts.values()) > counts.get("device", 0):
        raise SystemExit("reach.py: the summary counts fewer devices than results")
    return counts


def rows_of(counts: dict[str, int], most: int) -> tuple[int, list[Row]]:
    """Returns the number of devices, and the bars: for the sets and for the refusals the most frequent ones first."""
    devices = counts.pop("device", 0)
    rows = [Row(*label_of(key), count) for key, count in counts.items()]
    rows.sort(key=lambda it: (it.kind == "refuse", -it.count))
    blocks = [[it for it in rows if (it.kind == "refuse") == is_refused] for is_refused in (False, True)]
    return devices, [it for block in blocks for it in shortened(block, most)]


def shortened(rows: list[Row], most: int) -> list[Row]:
    """Returns the first rows, and one with the sum of the others."""
    rest = rows[most:]
    sums = [Row(rest[0].kind, f"{len(rest)} others", sum(it.count for it in rest))] if rest else []
    return [*rows[:most], *sums]


def text_of(devices: int, rows: list[Row]) -> str:
    """Returns the bars as text."""
    lines = [f"{devices} devices\n"]
    for it in rows:
        share = it.count / devices
        label = it.label if len(it.label) <= LABEL else f"{it.label[: LABEL - 2]}.."
        lines.append(f"{label:{LABEL}} {100 * share:6.2f} %  {'#' * round(WIDTH * share):{WIDTH}} {it.count}\n")
    return "".join(lines)


def svg_of(devices: int, rows: list[Row]) -> str:
    """Returns the bars as a picture."""
    width, height = TEXT + BAR + COUNT, ROW * (len(rows) + 2)
    font = 'font-family="sans-serif" font-size="12"'
    parts = [f'<svg xmlns="http://www.w3.org/2000/svg" width="{width}" height="{height}" {font}>']
    parts.append(f'<rect width="{width}" height="{height}" fill="white"/>')
    parts.append(f'<text x="8" y="{ROW}">{devices} devices</text>')
    for place, it in enumerate(rows, 1):
        y, share = ROW * place + 8, it.count / devices
        parts.append(f'<text x="8" y="{y + 12}">{html.escape(it.label)}</text>')
        parts.append(f'<rect x="{TEXT}" y="{y + 2}" width="{BAR * share:.1f}" height="{ROW - 4}" fill="{COLORS[it.kind]}"/>')
        parts.append(f'<text x="{TEXT + BAR * share + 6:.1f}" y="{y + 12}">{it.count} ({100 * share:.2f} %)</text>')
    return "\n".join([*parts, "</svg>", ""])


def main() -> None:
    parser = argparse.ArgumentParser(
        description=__doc__, epilog=EXAMPLE, formatter_class=argparse.RawDescriptionHelpFormatter
    )
    parser.add_argument("summary", metavar="SUMMARY", help="file of a summary; - is standard input")
    parser.add_argument("--most", type=int, default=12, metavar="N", help="bars of a kind; default: %(default)s")
    add_picture(parser, "--svg", "draw the bars into this file too")
    args = parser.parse_args()
    picture = picture_of(args.svg, [0 if args.summary == "-" else args.summary], args.force)
    try:
        with sys.stdin.buffer if args.summary == "-" else open(args.summary, "rb") as stream:
            devices, rows = rows_of(counts_in(stream), args.most)
    except OSError as error:
        raise SystemExit(f"reach.py: {args.summary}: {error.strerror}") from None
    print(text_of(devices, rows), end="", flush=True)
    if picture:
        try:
            picture.write(svg_of(devices, rows).encode())
        except PictureError as error:
            raise SystemExit(str(error)) from None


if __name__ == "__main__":
    main()
