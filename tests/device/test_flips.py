"""What a bootloader starts after a bit of the flash flipped.

A device of two images is in one of eleven states. A bit of its flash flips, and the bootloader boots. If it starts the
images, each has to be intact, and they have to fit each other. Here both are read by docs/FORMATS.md, without the
library.

BOOTSWAP_EVERY_FLIP=1 tries every bit instead of each 17th one, and prints what happened in each state.
"""

import hashlib
import os
import shutil
import struct
import subprocess
import tempfile
from collections import Counter
from functools import lru_cache

from support.compiled import needs_compiler
from support.driven import INCLUDE, STRICT
from support.files import EXAMPLES, ROOT
from support.processors import HERE
from support.program import CaseTest

IMAGES = [f"{EXAMPLES}/images/{name}.img" for name in ("one", "needing", "partner")]
OLD, NEW = (1, 0, 0, 0), (2, 0, 0, 0)

# What a boot returns after which a loader may start the images. Only the library answers that it reverted.
BOOTED, REVERTED, TRIAL_AGAIN = 1, 2, 3

# The states in their order, and what a boot returns and starts if no bit flipped.
STATES = [
    ("steady", BOOTED, OLD),
    ("requested", BOOTED, NEW),
    ("swap", BOOTED, NEW),
    ("mid-swap", BOOTED, NEW),
    ("settle", BOOTED, NEW),
    ("mid-settle", BOOTED, NEW),
    ("trial of one boot", BOOTED, OLD),
    ("trial of three boots", TRIAL_AGAIN, NEW),
    ("back", BOOTED, OLD),
    ("mid-back", BOOTED, OLD),
    ("back-settle", BOOTED, OLD),
]

# An entry of support/c/flips.c, and the number of its bit if none flipped.
ENTRY, NO_BIT = struct.Struct("<3I1024s1024s"), 2**32 - 1

# How many bits the flash has, and how far the bits that flip are apart.
BITS, STEP = 8 * 16 * 512, 17


def area(part, magic):
    """The entries of an area at the front of these bytes, or None."""
    if len(part) < 4:
        return None
    found, total = struct.unpack_from("<HH", part)
    at, entries = 4, []
    while found == magic and at + 4 <= total <= len(part):
        kind, length = struct.unpack_from("<HH", part, at)
        entries.append((kind, part[at + 4 : at + 4 + length]))
        at += 4 + length
    return entries if found == magic and at == total else None


@lru_cache(maxsize=None)
def image_in(slot):
    """The version of the image at the front of a slot and what it needs, or None if it isn't intact."""
    magic, _, front, inner, body, flags = struct.unpack_from("<IIHHII", slot)
    end = front + body + inner
    if magic != 0x96F3B83D or front < 32 or flags & ~0x111 or end > len(slot):
        return None
    protected, more = area(slot[front + body : end], 0x6908) if inner else [], area(slot[end:], 0x6907)
    if protected is None or more is None:
        return None
    if [value for kind, value in more if kind == 0x10] != [hashlib.sha256(slot[:end]).digest()]:
        return None
    needs = [value for kind, value in protected if kind == 0x40]
    return struct.unpack_from("<BBHI", slot, 20), [(it[0], struct.unpack_from("<BBHI", it, 4)) for it in needs]


def outcome(number, slots):
    """What a bootloader starts that jumps as docs/PORTING.md says."""
    if number not in (BOOTED, REVERTED, TRIAL_AGAIN):
        return "not started"
    images = [image_in(it) for it in slots]
    if None in images:
        return "damaged"
    versions = [version for version, _ in images]
    fits = all(at < len(versions) and versions[at] >= least for _, needs in images for at, least in needs)
    return "started" if fits else "mixed" if number != TRIAL_AGAIN else "mixed on trial"


@needs_compiler
class FlipsTest(CaseTest):
    @classmethod
    def setUpClass(cls):
        cls.folder = tempfile.mkdtemp(prefix="bootswap-flips-")
        cls.addClassCleanup(shutil.rmtree, cls.folder, ignore_errors=True)
        files = [f"{ROOT}/tests/support/c/flips.c", f"{ROOT}/bindings/c/driver.c", HERE.archive()]
        faults = HERE.compiled([*STRICT, "-O2", *INCLUDE, *files, "-o", f"{cls.folder}/flips"])
        if faults:
            raise AssertionError(f"flips.c compiles: {faults[0]}")

    def entries(self, step):
        """What flips.c writes: the state, the bit, what the boot returned, and the primary slots."""
        words = [f"{self.folder}/flips", str(step), *IMAGES]
        with subprocess.Popen(words, stdout=subprocess.PIPE) as ran:
            while entry := ran.stdout.read(ENTRY.size):
                yield ENTRY.unpack(entry)
        self.assertEqual(0, ran.returncode)

    def test_no_boot_starts_images_that_are_damaged_or_do_not_fit(self):
        is_every = os.environ.get("BOOTSWAP_EVERY_FLIP") == "1"
        seen, usual, wrong = [Counter() for _ in STATES], {}, [[] for _ in STATES]
        for state, bit, number, *slots in self.entries(1 if is_every else STEP):
            if bit == NO_BIT:
                usual[state] = number, [image_in(it) and image_in(it)[0] for it in slots]
                continue
            got = outcome(number, slots)
            seen[state][got] += 1
            wrong[state] += [f"bit {bit}: {got}, {number}"] * (got not in ("started", "not started"))
        for state, (name, number, version) in enumerate(STATES):
            flips = sum(seen[state].values())
            with self.subTest(f"{name}: each of {flips} flips"):
                self.assertEqual((number, 2 * [version]), usual[state])
                self.assertEqual([], wrong[state][:5])
                # Most bits are of no image that is started, and some are.
                self.assertGreaterEqual(flips, BITS // STEP)
                self.assertGreaterEqual(seen[state]["started"], flips // 2)
                self.assertGreater(seen[state]["not started"], 0)
            if is_every:
                print(f"{name}: {dict(sorted(seen[state].items()))}")
