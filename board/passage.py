"""An upgrade of two images that need each other, line by line, wherever the last power cut was."""

import os
import re

from lines import board_line

# How many bytes of an image come in one piece.
PIECE = 1500

OLD, NEW = ["1.0.0", "1.0.0"], ["2.0.0", "2.0.0"]


def kinds_in(text):
    """Returns the words of the replies in a text whose lines are complete. A boot that reverts has
    two: `reverted`, and that of the boot after it."""
    return re.findall(r"^\d+ ([a-z-]+)[^\n]*\n", text, re.MULTILINE)


def versions_in(text):
    """Returns the versions of the images that ran, in their order."""
    return re.findall(r"^image \d version ([\d.]+)\n", text, re.MULTILINE)


def upload_lines(folder):
    """Returns the lines that upload and request both new images, and boot."""
    lines = [board_line(f"accept {folder}/new.json")]
    for image in (0, 1):
        name = f"{folder}/new{image}.img"
        size = os.path.getsize(name)
        for start in range(0, size, PIECE):
            count = min(PIECE, size - start)
            lines.append(board_line(f"piece {image} {name} {start} {count}"))
    return [*lines, "finish 0", "finish 1", "boot"]


class Passage:
    """An upgrade that is confirmed, or one that isn't, and is reverted.

    After each boot it says which lines come next, by what the boot answered alone. A power cut ends
    the uploads, so they begin again, unless both images were requested.
    """

    def __init__(self, kind, folder):
        self.kind, self.upload, self.was_tried = kind, upload_lines(folder), False

    def next_lines(self, text):
        """Returns the lines after the answer to a boot. There are none if the passage ended."""
        replies, versions = kinds_in(text), versions_in(text)
        if replies[-1] in ("trial", "trial-again"):
            self.was_tried = True
            return ["confirm 0", "confirm 1", "boot"] if self.kind == "upgrade" else ["boot"]
        if self.kind == "upgrade":
            has_ended = versions == NEW
        else:
            has_ended = versions == OLD and ("reverted" in replies or self.was_tried)
        return [] if has_ended else [*self.upload]
