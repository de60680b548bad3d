"""Scripts for `bootswap run` as lines for the board, which has no files (script.h)."""

import json
import uuid

from files import DEVICE, read

# The events that name no file, and the number of words after each. `stack` is the board's own.
PLAIN = {"finish": 1, "withdraw": 1, "confirm": 1, "boot": 0, "reset": 0, "stack": 0}


class BadScript(Exception):
    """A line that the board can't take."""


def manifest_words(name):
    """Returns the words of a line `accept` for the file of a manifest."""
    manifest, device = json.loads(read(name)), json.loads(read(DEVICE))
    for key in ("vendor-id", "class-id"):
        if uuid.UUID(manifest[key]) != uuid.UUID(device[key]):
            raise BadScript(f"the manifest is for another {key}")
    words = [str(manifest["sequence-number"])]
    for it in manifest["components"]:
        words += [str(it["component-id"]), it["kind"], str(it["size"])]
        words += [it["payload-digest"].lower(), it.get("precursor-digest", "-").lower()]
    return words


def piece_words(image, name, start="0", count=None):
    """Returns the words of a line `piece` for a part of a file, or for all of it."""
    file = read(name)
    first, end = int(start), len(file) if count is None else int(start) + int(count)
    if end > len(file):
        raise BadScript(f"{name} has {len(file)} bytes")
    return [image, file[first:end].hex() or "-"]


def board_line(line):
    """Returns the line for the board of a line of a script."""
    word, *words = line.split(" ")
    try:
        if word == "accept" and len(words) == 1:
            words = manifest_words(words[0])
        elif word == "piece" and len(words) in (2, 4):
            words = piece_words(*words)
        elif word == "cut":
            raise BadScript("board/kill takes the power of the board away, and not a script")
        elif PLAIN.get(word) != len(words):
            raise BadScript("not an event")
    except (OSError, ValueError, KeyError, TypeError) as error:
        raise BadScript(f"{type(error).__name__}: {error}") from error
    return " ".join([word, *words])


def board_lines(text):
    """Returns the lines for the board of a script. The first is `boot`, which is the power-up."""
    lines = []
    for number, line in enumerate(text.splitlines(), 1):
        try:
            lines.append(board_line(line))
        except BadScript as error:
            raise BadScript(f"script line {number}: {error}") from error
    if lines[:1] != ["boot"]:
        raise BadScript("script line 1: the first event of the board is `boot`")
    return lines
