"""The programs that `./bootswap` runs: the complete one, and its core (needed.py).

A program is current if its stamp, NAME.stamp beside it in out/, names the sources, the program and the toolchain as they are
now. These digests are compared only if a file may have changed (unchanged.py).
"""

import hashlib
import os
import shutil
import time

from builder import OUT, NotBuilt, asked_of_rt, build, crates_of, tell, text_of
from needed import WHOLE
from unchanged import lines_now, remember


class NoToolchain(NotBuilt):
    """There is nothing to build the program with."""


def file_of(name):
    return f"{OUT}/{name}"


def stamp_of(name, crates, toolchain):
    """Returns the stamp of a program as it is now."""
    with open(file_of(name), "rb") as it:
        program = hashlib.sha256(it.read()).hexdigest()
    return f"sources {crates[-1].digest('')}\nprogram {program}\ntoolchain {toolchain}\n"


def toolchain_of_stamp(name):
    """Returns the toolchain of the last build. Without `rt` it counts as the current one."""
    lines = (text_of(f"{file_of(name)}.stamp") or "").splitlines()
    return next((it.partition(" ")[2] for it in lines if it.startswith("toolchain ")), None)


def is_current(name, toolchain):
    if not os.access(file_of(name), os.X_OK):
        return False
    toolchain = toolchain or toolchain_of_stamp(name)
    return text_of(f"{file_of(name)}.stamp") == stamp_of(name, crates_of(name), toolchain)


def current_for(name, hint=None):
    """Returns the file of a current program that does what this one does. If there is none, prints the hint, and proves and
    builds it."""
    now, lines = time.time_ns(), {it: lines_now(it) for it in (WHOLE, name)}
    toolchain = asked_of_rt("version") if shutil.which("rt") else None
    for enough in lines:
        if is_current(enough, toolchain):
            remember(enough, lines[enough], now)
            return file_of(enough)
    if not toolchain:
        raise NoToolchain("the Rattle toolchain's command rt is not on the PATH; it proves and builds the program")
    if hint:
        tell(hint)
    stamp, crates = f"{file_of(name)}.stamp", crates_of(name)
    if os.path.exists(stamp):
        os.remove(stamp)
    build(crates, toolchain)
    with open(stamp, "w", encoding="utf-8") as it:
        it.write(stamp_of(name, crates, toolchain))
    return file_of(name)
