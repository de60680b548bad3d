"""Runs the tests in tests/ for `./gate`: each test class in a process of its own, and a line for each test or case."""

import contextlib
import functools
import json
import math
import os
import sys
import traceback
import unittest

from builder import OUT, ROOT, text_of
from results import Counts, report, skip
from side_by_side import Task

TESTS = f"{ROOT}/tests"

# How many seconds each class took when it last ran here.
SECONDS = f"{OUT}/test-seconds.json"


class Result(unittest.TestResult):
    """Prints a line for each test, or for each case of a test that has cases. A case is a `subTest`."""

    def __init__(self, suffix):
        super().__init__()
        self.suffix, self.counts, self.cases = suffix, Counts(), 0

    def startTest(self, test):
        super().startTest(test)
        self.cases = 0

    def tell(self, name, faults):
        self.counts = self.counts.and_then(report(f"{name}{self.suffix}", faults))

    def addSuccess(self, test):
        if not self.cases:
            self.tell(name_of(test), [])

    def addSubTest(self, test, subtest, error):
        self.cases += 1
        self.tell(name_of(subtest), faults_of(test, error) if error else [])

    def addFailure(self, test, error):
        self.tell(name_of(test), faults_of(test, error))

    def addError(self, test, error):
        self.tell(name_of(test), faults_of(test, error))

    def addSkip(self, test, reason):
        self.cases += 1
        self.counts = self.counts.and_then(skip(f"{name_of(test)}{self.suffix}", reason))


def name_of(test):
    """Returns the message of a case, or the name of a test."""
    return getattr(test, "_message", None) or test.id()


def faults_of(test, error):
    """Returns what is wrong: what a failed check says, or where another error comes from; and the test."""
    kind, value, trace = error
    if issubclass(kind, AssertionError):
        faults = str(value).splitlines()
    else:
        faults = "".join(traceback.format_exception(kind, value, trace)).splitlines()
    return [*faults, f"in {test.id()}"]


def classes_of(patterns):
    """Returns the tests by their classes: all, or those whose names have one of these patterns, as unittest's -k has them."""
    loader = unittest.TestLoader()
    loader.testNamePatterns = [it if "*" in it else f"*{it}*" for it in patterns] or None
    found = {}
    for test in tests_in(loader.discover(TESTS, top_level_dir=TESTS)):
        found.setdefault(type(test), []).append(test)
    return found


def tests_in(suite):
    """Yields each test of a suite, and of the suites in it."""
    for it in suite:
        if isinstance(it, unittest.TestSuite):
            yield from tests_in(it)
        else:
            yield it


def run_class(tests, program, suffix):
    """Runs the tests of a class over a program, and returns their counts."""
    os.environ["BOOTSWAP_PROGRAM"] = program
    result = Result(suffix)
    unittest.TestSuite(tests).run(result)
    return result.counts


def is_of_program(test_class):
    """Returns whether the tests of a class run over each program, and not once."""
    # Only now is tests/ where modules are found.
    from support.program import ProgramTest

    return issubclass(test_class, ProgramTest) and not getattr(test_class, "runs_once", False)


def longest_first(tasks):
    """Returns tasks in the order of the seconds that they took when they last ran here. New ones come first."""
    known = known_seconds()
    return sorted(tasks, key=lambda it: -known.get(it.name, math.inf))


def known_seconds():
    # A run that was interrupted may have left half a file.
    with contextlib.suppress(ValueError):
        return json.loads(text_of(SECONDS) or "{}")
    return {}


def remember(seconds):
    """Keeps how many seconds tasks took, by their names. A part of the gate that runs later begins with the longest."""
    os.makedirs(os.path.dirname(SECONDS), exist_ok=True)
    with open(SECONDS, "w", encoding="utf-8") as it:
        json.dump({**known_seconds(), **seconds}, it)


def test_tasks(programs, patterns=()):
    """Returns the tests as tasks: one for each class, or for each class and program. The programs have suffixes, which follow
    the names of their tests."""
    tasks = []
    for test_class, tests in classes_of(patterns).items():
        chosen = [*programs.items()] if is_of_program(test_class) else [*programs.items()][:1]
        for program, suffix in chosen:
            name = f"{test_class.__module__}.{test_class.__qualname__}{suffix}"
            tasks.append(Task(name, functools.partial(run_class, tests, program, suffix)))
    return tasks
