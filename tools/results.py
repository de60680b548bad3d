"""The lines that `./gate` prints of checks, and how many of these passed, failed and were skipped."""

import functools
from typing import NamedTuple


class Counts(NamedTuple):
    """How many checks passed and failed, and how many were skipped."""

    passed: int = 0
    failed: int = 0
    skipped: int = 0

    def and_then(self, more):
        return Counts(*map(sum, zip(self, more)))

    def __str__(self):
        return f"{self.passed} passed, {self.failed} failed, {self.skipped} skipped"


def sum_of(counts):
    return functools.reduce(Counts.and_then, counts, Counts())


def report(name, faults):
    """Prints the line of a check, and below it what is wrong. Returns its counts."""
    print(f"{'FAILED' if faults else 'ok'} {name}", *faults, sep="\n     ", flush=True)
    return Counts(int(not faults), int(bool(faults)))


def skip(name, why):
    """Prints why a check can't be made here. Returns its counts."""
    print(f"skipped {name}: {why}", flush=True)
    return Counts(skipped=1)
