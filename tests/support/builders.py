"""Images, device files and manifests, built from docs/FORMATS.md."""

import hashlib
import json


def little(value, size):
    return value.to_bytes(size, "little")


def area(magic, entries):
    """An area of entries, each a type and a value."""
    body = b"".join(little(kind, 2) + little(len(value), 2) + value for kind, value in entries)
    return little(magic, 2) + little(4 + len(body), 2) + body


COUNTER = (0x50, little(7, 4))
DEPENDENCY = (0x40, bytes([1, 0, 0, 0, 2, 3, 4, 0, 5, 0, 0, 0]))

# The bytes that ask for image 1 in 2.0.0+0, in a dependency or as an alternative.
ON_FIRST = bytes([1, 0, 0, 0, 2, 0, 0, 0, 0, 0, 0, 0])


def group(alternatives, last=b""):
    """The entry of a group of N alternatives, each equal to DEPENDENCY, with bytes after them."""
    return (0xA0, alternatives * DEPENDENCY[1] + last)


def version(major, minor=0, revision=0, build=0):
    return bytes([major, minor]) + little(revision, 2) + little(build, 4)


def header(protected_size, body_size, magic=0x96F3B83D, header_size=32, flags=0, own=version(1, 2, 3, 4)):
    lengths = little(header_size, 2) + little(protected_size, 2) + little(body_size, 4)
    return little(magic, 4) + little(0, 4) + lengths + little(flags, 4) + own + little(0, 4)


def image(protected=(COUNTER, DEPENDENCY), body=b"ABCD", digests=1, digest_kind=0x10, more=(), filler=b"", **fields):
    """An image with these protected entries, N digests, other unprotected entries, a filler after its header,
    and these fields.

    Its version is 1.2.3+4, unless `own` gives another.
    """
    inner = area(0x6908, protected) if protected else b""
    fields = {"header_size": 32 + len(filler), **fields}
    hashed = header(len(inner), len(body), **fields) + filler + body + inner
    return hashed + area(0x6907, [*digests * [(digest_kind, hashlib.sha256(hashed).digest())], *more])


VENDOR, CLASS = "886313e1-3b8a-5372-9b90-0c9aee199e5d", "11111111-2222-5333-8444-555555555555"

# The SHA-256 of the bytes "abc" (FIPS 180's examples).
ABC = "ba7816bf8f01cfea414140de5dae2223b00361a396177a9cb410ff61f20015ad"


def spelled(fields, changes, without):
    """The JSON text of an object of these fields with changes, and without some. Each `-` of a name is written
    `_`."""
    fields = {**fields, **changes}
    return json.dumps({name.replace("_", "-"): fields[name] for name in fields if name not in without}).encode()


def device(*without, **changes):
    usual = {"sector": 512, "sectors": [2, 2], "vendor_id": VENDOR, "class_id": CLASS}
    return spelled(usual, changes, without)


def component(*without, **changes):
    usual = {"component-id": 0, "kind": "test", "payload-digest": ABC, "size": 3}
    changes = {name.replace("_", "-"): it for name, it in changes.items()}
    return {name: it for name, it in {**usual, **changes}.items() if name not in without}


def manifest(*without, components=(component(),), **changes):
    usual = {"manifest_version": 1, "sequence_number": 1, "vendor_id": VENDOR, "class_id": CLASS}
    return spelled({**usual, "components": list(components)}, changes, without)
