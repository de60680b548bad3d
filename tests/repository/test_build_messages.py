"""What a build says: how long the crates take that are left, and what it is doing. No build here proves anything."""

import contextlib
import fcntl
import io
import os
import tempfile
import time
import unittest
from unittest import mock

import support.program  # tools/ is on the path from here on

import builder
import needed
from schedule import expected

ANNOUNCED = (
    r"\Aproving and building the core of the program: {} of 25 crates are left\. That takes about (\d+) min on 4 idle "
    r"processors \((\d+) min of CPU time\), up to 9\.2 GB of memory and 1\.1 GB of disk\Z"
)


class OfSeconds:
    """A crate that takes N CPU-seconds."""

    def __init__(self, seconds, *own):
        self.seconds, self.own = seconds, own

    def below(self):
        return [*self.own]


class BuildMessageTest(unittest.TestCase):
    def build(self, left):
        """Returns a build of the core of which the last N crates are left, on 4 processors."""
        crates = builder.crates_of(needed.CORE)
        with mock.patch.object(builder.Crate, "is_built", lambda it, _: it not in crates[-left:]), mock.patch.object(
            builder, "free_memory", lambda: 20e9
        ), mock.patch.object(os, "sched_getaffinity", lambda _: range(4)):
            return builder.Build(crates, "a toolchain", "nowhere", -1)

    def said(self, is_watched, does):
        """Returns the lines that a build prints, on a terminal or not, at most every tenth of a second."""
        with tempfile.TemporaryDirectory() as folder, contextlib.redirect_stderr(io.StringIO()) as said:
            silent = min(builder.SILENT, 0.1)
            with mock.patch.multiple(builder, LOG=f"{folder}/log", SILENT=silent, is_watched=lambda: is_watched):
                does()
        return said.getvalue().splitlines()

    def test_a_build_announces_what_is_left(self):
        # The most minutes by the clock that it may say, by the number of crates that are left.
        for left, most in {25: 16, 2: 3, 1: 1}.items():
            with self.subTest(f"{left} crates are left"):
                text = self.build(left).announcement()
                self.assertRegex(text, ANNOUNCED.format(left))
                minutes, of_cpu = (int(it.split()[0]) for it in text.replace("(", "about ").split("about ")[1:])
                self.assertTrue(1 <= minutes <= min(most, of_cpu), text)

    def test_crates_that_can_be_built_at_the_same_time_are(self):
        lowest = OfSeconds(60)
        above = [OfSeconds(40, lowest), OfSeconds(40, lowest)]
        for left, most, wanted in (([lowest, *above], 1, (140, 140)), (above, 2, (40, 80)), (above[:1], 2, (26, 52))):
            self.assertEqual(wanted, expected([lowest, *above], left, most, most))

    def test_a_build_says_what_it_does_on_a_terminal_only(self):
        for is_watched in (True, False):
            build = self.build(1)
            build.build = lambda crate, jobs: (time.sleep(0.5), (True, "nothing"))[1]
            said = "\n".join(self.said(is_watched, build.run))
            expect = self.assertRegex if is_watched else self.assertNotRegex
            expect(said, r"bootswap: bootswap_core under way \(\d+ s\); 1 left")

    def test_a_build_says_that_it_waits_for_another(self):
        with tempfile.TemporaryDirectory() as folder:
            held, other = (os.open(folder, os.O_RDONLY) for _ in range(2))
            fcntl.flock(held, fcntl.LOCK_EX)
            # The other build ends when it is waited for the fifth time.
            waits = iter(range(5))
            sleep = lambda seconds: next(waits, None) is None and fcntl.flock(held, fcntl.LOCK_UN)
            with mock.patch.object(builder.time, "sleep", sleep), mock.patch.object(builder, "SILENT", 0):
                said = self.said(True, lambda: builder.wait_for(other))
            os.close(held)
            os.close(other)
        self.assertEqual(6 * ["bootswap: waiting for another build, or `rt`, to end here"], said)
