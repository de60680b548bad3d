"""Flash files: how tests make them, and what they have to contain."""

import json

from support.builders import little
from support.files import ONE, PAIR, read
from support.stories import IMAGES


# A status unit that is set, and the gate of a record.
FLAG = b"\1" + 7 * b"\xff"

ONE_IMAGE = IMAGES["one.img"]


def flash_of(test, device=PAIR):
    """Provisions the file `flash` with the same image in all slots, and returns its bytes, or none if this
    fails."""
    flash = f"{test.folder}/{test.file('flash', b'')}"
    images = len(json.loads(read(device))["sectors"])
    test.run_program(["provision", device, "flash", *images * [ONE]])
    return read(flash)


def placed(size, parts):
    """N bytes 0xFF, with these parts at their places."""
    whole = bytearray(size * b"\xff")
    for at, part in parts.items():
        whole[at : at + len(part)] = part
    return bytes(whole)


def log_record(sequence, *floors):
    """The record of a device at rest, with its gate."""
    stored = b"".join(little(it, 4) for it in floors)
    return little(1, 4) + little(sequence, 4) + stored + bytes(48 - len(stored)) + FLAG


def new_parts():
    """The parts of a new flash of `one.img` and `patched.img`, by their places."""
    return {0: ONE_IMAGE, 1536: IMAGES["patched.img"], 6656: log_record(0, 0, 5), 8184: FLAG}
