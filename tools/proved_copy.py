"""A copy of the repository in which `rt ci` proves and builds everything from nothing, for `./gate`.

The copy has no mutants: `rt ci` would check the complete crate for each. They are tried over what it proved (`mutants.py`).
"""

import fcntl
import os
import re
import shutil
import subprocess

from builder import ROOT, asked_of_rt, free_memory, library_crates
from results import Counts, report

LEFT_OUT = shutil.ignore_patterns(".git", "out", "must-fail", "mutants")

# What the largest check of a crate takes, in bytes, as measured. `rt ci` plans with up to twice as much, and then
# leaves processors idle.
LARGEST_CHECK = 5_000_000_000

SUM = re.compile(r"(\d+) passed, (\d+) failed")


def checks_at_a_time(largest):
    """Returns how many checks may run at the same time: one on each processor, if the free memory holds the largest of them
    that often, in bytes."""
    return min(len(os.sched_getaffinity(0)), free_memory() // largest)


def environment_of_rt():
    """Returns the environment for `rt ci`, with the number of checks at the same time. If the caller gives that number, or
    memory is short, `rt` plans for itself."""
    number = checks_at_a_time(LARGEST_CHECK)
    return {"RT_JOBS": str(number), **os.environ} if number > 1 else dict(os.environ)


class ProvedCopy:
    """A copy of the repository in a folder, and what `rt ci` leaves there."""

    def __init__(self, folder):
        self.folder = f"{folder}/bootswap"
        shutil.copytree(ROOT, self.folder, ignore=LEFT_OUT)

    def check_by_rt(self, beside, anew=False):
        """Runs `rt ci`, and tasks beside it, prints its output, and returns its counts. If it isn't asked to prove all anew,
        it takes over what it proved before on this machine of the same files, and says which crates those are.

        Its last line gets a prefix `rt ci: `, so that only the gate's last line is a sum.
        """
        streams = {"stdin": subprocess.DEVNULL, "stdout": subprocess.PIPE, "bufsize": 0}
        try:
            ran = subprocess.Popen(["rt", "ci", *["--anew"] * anew], cwd=self.folder, env=environment_of_rt(), **streams)
        except OSError:
            print("FAILED rt ci\n     the Rattle toolchain's command rt is not on the PATH", flush=True)
            return Counts(failed=1)
        with ran:
            try:
                passed, failed = passed_on(beside.lines_of(ran))
            except BaseException:
                ran.terminate()
                raise
        if ran.returncode and not failed:
            print(f"FAILED rt ci: its status is {ran.returncode}", flush=True)
            failed = 1
        return Counts(passed, failed)

    def program(self, name="bootswap"):
        return f"{self.folder}/crates/{name}/out/{name}"

    def programs(self):
        """Returns the programs that LLVM and Rattle's own compiler built, each with the suffix of its tests' names. If the
        second one wasn't built, `rt ci` has reported that."""
        suffixes = {self.program(): "", f"{self.program()}.by-rattle": ", built by Rattle's own compiler"}
        return {it: suffix for it, suffix in suffixes.items() if not suffix or os.path.exists(it)}

    def library(self, name):
        return library_in(self.folder, name)

    def build_archive(self, target, name):
        """Builds a static library for a target, and returns the counts."""
        return report(f"{name} is built for {target}", archive_over(self.folder, target, name)[1])


def library_in(folder, name):
    """Returns the library that `rt ci` made of a crate in a repository, which has the statements of what was proved."""
    return f"{folder}/crates/{name}/out/rlib/{name}.rlib"


def archive_over(folder, target, name):
    """Builds a static library for a target over what `rt ci` made in a repository, unless that is done, and returns its file and
    what is wrong."""
    *below, library = library_crates(target, name)
    for crate in below:
        crate.made = library_in(folder, crate.name)
    library.made, said = f"{folder}/{name}.{target}.a", ""
    with open(f"{library.made}.lock", "w", encoding="utf-8") as lock:
        fcntl.flock(lock, fcntl.LOCK_EX)
        if not os.path.exists(library.made):
            words = library.words(os.path.dirname(asked_of_rt("doc")))
            streams = {"stdin": subprocess.DEVNULL, "stdout": subprocess.PIPE, "stderr": subprocess.STDOUT}
            ran = subprocess.run(words, cwd=library.folder, errors="replace", **streams)
            said = ran.stdout[-2000:] if ran.returncode else ""
    return library.made, said.splitlines()


def passed_on(lines):
    """Prints the lines of `rt ci`, and returns how many passed and failed by the last one."""
    sum = None
    for line in lines:
        text = line.decode(errors="replace")
        sum = SUM.fullmatch(text)
        print(f"rt ci: {text}" if sum else text, flush=True)
    return map(int, sum.groups()) if sum else (0, 1)
