"""The commit in a built program, as `--version` prints it: `2.0.0 (0123456789ab)`.

The sources have zeros for the first digits of the commit, since proving each commit anew would take too long. The build
writes the digits into the linked program. A `+` for the blank says that the crates differed from the commit.
"""

import os
import re
import subprocess

ROOT = os.path.dirname(os.path.dirname(os.path.realpath(__file__)))

# How many digits of a commit a program has.
DIGITS = 12

# The version and the commit in a program.
PLACE = re.compile(rb"\d+\.\d+\.\d+([ +]\([0-9a-f]{%d}\))" % DIGITS)

# What a program is made of.
SOURCES = ("crates", "crates.txt")


def said_by_git(*words):
    """Returns what `git` says of this clone, or None if this folder is no clone. A folder of another clone isn't one."""
    return said_here(*words) if said_here("rev-parse", "--show-prefix") == "" else None


def said_here(*words):
    """Returns what `git` says in this folder, or None if it fails or is missing."""
    try:
        done = subprocess.run(["git", "-C", ROOT, *words], stdin=subprocess.DEVNULL, capture_output=True, text=True)
    except OSError:
        return None
    return None if done.returncode else done.stdout.strip()


def commit_here():
    """Returns the commit of this clone, and whether the crates differ from it. Outside of a clone it returns None."""
    commit = said_by_git("rev-parse", "HEAD")
    return commit and (commit, said_by_git("status", "--porcelain", "--", *SOURCES) != "")


def write_commit(program, commit, differs=False):
    """Writes a commit over the one in a program, and returns whether the program has exactly one place for it."""
    with open(program, "r+b") as it:
        places = [*PLACE.finditer(it.read())]
        if len(places) == 1:
            it.seek(places[0].start(1))
            it.write(f"{'+' if differs else ' '}({commit[:DIGITS]})".encode())
    return len(places) == 1


def version_in(program):
    """Returns the version and the commit in a program, as `--version` prints them."""
    with open(program, "rb") as it:
        (place,) = PLACE.finditer(it.read())
    return place[0].decode()
