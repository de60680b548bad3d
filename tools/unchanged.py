"""Whether a program is as it was when its digests were compared last, by sizes and times, as `make` and git find that.

Digests decide whether a program is current: of its sources and of itself (programs.py). If it is, a record NAME.seen beside
its stamp lists these files, their folders and the toolchain's command, each with its size, its number and its times. While
they stay the same, nothing changed: whatever changes a file sets the time of its last change, which no program can put back. A
file system may count times in steps of up to two seconds, so nothing is recorded if a file is younger.

This module imports nothing that takes long: `./bootswap` asks it at each call.
"""

import os

from needed import WHOLE, needed_for

ROOT = os.path.dirname(os.path.dirname(os.path.realpath(__file__)))

# How long ago a file must have changed, in nanoseconds.
MARGIN = 2_000_000_000


def record_of(name):
    return f"{ROOT}/out/{name}.seen"


def line_of(path):
    """Returns what changes with a file or a folder, its times, its size and its number, and its path. A missing one has none."""
    try:
        it = os.stat(path)
    except OSError:
        return None
    return f"{it.st_mtime_ns} {it.st_ctime_ns} {it.st_size} {it.st_ino} {it.st_dev} {path}"


def kit():
    """Returns the command `rt` on the PATH, and the file with what `rt version` prints. It may be only a way to another one: then
    that file isn't where a kit has it."""
    for folder in os.get_exec_path():
        command = os.path.realpath(f"{folder}/rt")
        if os.path.isfile(command) and os.access(command, os.X_OK):
            return [command, f"{os.path.dirname(os.path.dirname(command))}/KIT-ID"]
    return []


def paths_of(name):
    """Yields the files and folders that a program is made of, and itself."""
    yield from (f"{ROOT}/crates.txt", f"{ROOT}/out/{name}", f"{ROOT}/out/{name}.stamp", f"{ROOT}/crates")
    for crate in sorted(os.listdir(f"{ROOT}/crates")):
        yield f"{ROOT}/crates/{crate}"
        for part in ("src", "specs", "proofs"):
            for at, _, names in os.walk(f"{ROOT}/crates/{crate}/{part}"):
                yield at
                yield from (f"{at}/{it}" for it in names)


def lines_now(name):
    """Returns the record of all that a program depends on. Take it before the digests: what changes after that differs from it."""
    return [repr(kit()), *map(line_of, [*kit(), *paths_of(name)])]


def remember(name, lines, now):
    """Keeps the record with which a program was found to be current, if no file had changed shortly before this time."""
    if None in lines or any(int(it) > now - MARGIN for line in lines[1:] for it in line.split(" ", 2)[:2]):
        return
    try:
        with open(f"{record_of(name)}.{os.getpid()}", "w", encoding="utf-8", errors="surrogateescape") as it:
            it.write("\n".join(lines))
        os.replace(it.name, record_of(name))
    except OSError:
        # The next call compares the digests again.
        pass


def is_unchanged(name):
    """Returns whether nothing changed since a program was found to be current."""
    try:
        with open(record_of(name), encoding="utf-8", errors="surrogateescape") as it:
            command, *lines = it.read().split("\n")
    except (OSError, ValueError):
        return False
    return command == repr(kit()) and all(line_of(it.split(" ", 5)[-1]) == it for it in lines)


def unchanged_for(words):
    """Returns the file of a program that is current and does what these arguments ask for, or None if that isn't known."""
    name = WHOLE if os.path.exists(f"{ROOT}/out/{WHOLE}") else needed_for(words)
    return f"{ROOT}/out/{name}" if is_unchanged(name) else None
