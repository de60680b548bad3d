"""The files that a device receives, and runs of it."""

import hashlib

from support.builders import VENDOR, component, device, image, manifest, version
from support.files import EXAMPLES, PAIR, read
from support.worked import PLAIN

# The device with trials of three boots, and the one of three images.
PATIENT, THREE = f"{EXAMPLES}/devices/patient.json", f"{EXAMPLES}/devices/either.json"

# Files of images. `newer.img` has version 2.0.0+0 and no dependency.
NAMES = ("one", "needing", "partner", "counted", "patched", "stale")

IMAGES = {f"{name}.img": read(f"{EXAMPLES}/images/{name}.img") for name in NAMES}
IMAGES["newer.img"] = image([], own=version(2))

# Files that are no images. `long.img` is one byte longer than a slot of two sectors, `short.img` lacks the last
# byte of an image.
TEXTS = {it: it.encode() for it in ("ab", "abc", "abcd", "abd")}
TEXTS.update({"long.img": 1025 * b"Z", "slot.img": 1024 * b"Z", "sector.img": 512 * b"Z"})
TEXTS.update({"short.img": IMAGES["one.img"][:-1], "empty.img": b""})

# Device files. That of `small.json` makes no map, and `other.json` is malformed.
DEVICES = {
    "pair.json": read(PAIR),
    "three.json": read(THREE),
    "uneven.json": device(sectors=[2, 1]),
    "small.json": device(sector=64, sectors=[2]),
    "other.json": b"{}",
}

# Manifests: the sequence number, and each file with its image and its kind of request. A device of two images
# refuses `absent-image.json` and `too-long.json`.
MANIFESTS = {
    "trial.json": [1, "0 test needing.img", "1 test partner.img"],
    "for-good.json": [7, "0 permanent needing.img", "1 permanent partner.img"],
    "first-for-good.json": [7, "0 permanent needing.img", "1 test partner.img"],
    "second-for-good.json": [7, "0 test needing.img", "1 permanent partner.img"],
    "first.json": [1, "0 test needing.img"],
    "second.json": [2, "1 test partner.img"],
    "old.json": [0, "0 test needing.img"],
    "patched.json": [1, "0 permanent patched.img"],
    "stale.json": [2, "0 test stale.img"],
    "two-of-three.json": [1, "0 test newer.img", "2 test newer.img"],
    "text.json": [1, "0 test abc"],
    "newer.json": [1, "0 test newer.img"],
    "absent-image.json": [1, "2 test abc"],
    "too-long.json": [1, "1 test long.img"],
}


def digest_of(whole):
    """The SHA-256 of a file, as a manifest has it."""
    return hashlib.sha256(whole).hexdigest()


def manifest_of(sequence, *files):
    """The bytes of a manifest of these files."""
    components = []
    for number, kind, name in map(str.split, files):
        whole = {**IMAGES, **TEXTS}[name]
        components.append(component(component_id=int(number), kind=kind, size=len(whole), payload_digest=digest_of(whole)))
    return manifest(sequence_number=sequence, components=components)


FILES = {**IMAGES, **TEXTS, **DEVICES, **{name: manifest_of(*parts) for name, parts in MANIFESTS.items()}}
FILES["other-vendor.json"] = manifest(vendor_id=f"{VENDOR[:-1]}e")

# The upload of two images that need each other, and its replies.
UPLOADED = "boot, accept trial.json, piece 0 needing.img, piece 1 partner.img, finish 1, finish 0"
UPGRADE = f"{UPLOADED}, boot"

UPLOAD_REPLIES = [PLAIN, *5 * ["done"]]
TWO = ("one.img", "one.img")

# The reply `plain` if both new images stay, and if image 0 waits for image 1.
STAYED, WAITS = "plain|run 0 2.0.0+0|run 1 2.0.0+0", f"{PLAIN}|refuse 0 needs 1 2.0.0+0"


def flash_in(test):
    """The bytes of the flash file."""
    return read(f"{test.folder}/flash")


def new_device(test, device=PAIR, images=TWO):
    """Writes all files, provisions a device with these images, and returns the bytes of its flash file, or none."""
    for name, contents in FILES.items():
        test.file(name, contents)
    test.file("flash", b"")
    test.run_program(["provision", device, "flash", *images])
    return flash_in(test)


def script_of(events):
    """The script of these events, which are separated by commas."""
    return "".join(f"{event}\n" for event in events.split(", ")).encode()


def run_of(test, events, device=PAIR, cuts=(), options=()):
    """How a run of these events ends, with power cuts at these writes, and with these options."""
    given = "".join(f"cut {number} {torn}\n" for number, torn in cuts).encode() + script_of(events)
    return test.run_program(["run", *options, device, "flash", "-"], given=given)


def state(kind, images, sequence, floors, swaps, left=0):
    """What `show` prints for a flash with this state."""
    lines = [f"state {kind}", f"set {images}", *([f"left {left}"] if left else []), f"sequence {sequence}"]
    lines += [f"floor {number} {floor}" for number, floor in enumerate(floors)]
    lines += [f"swap {number} {swap}" for number, swap in enumerate(swaps.split())]
    return "".join(f"{line}\n" for line in lines).encode()
