"""That `rt ci` passes before and after `./bootswap` built, in a small repository: its lowest crate, and a program."""

import os
import shutil
import subprocess
import unittest

from support.files import ROOT, copy_parts, folder_for, write
from support.program import short

from builder import BUILD

PROGRAM = """//! A program that depends on the crate below it.
#![tactic(auto)]

fn main() {}
"""
COPIED = ["bootswap", "tools", "HANDLES", ".gitignore"]
COPIED += [f"crates/common/{it}" for it in ("src", "specs", "proofs", "must-fail")]

# How many seconds one command may take: it proves a crate, and the program, or tries some mutants.
LIMIT = 600


@unittest.skipUnless(shutil.which("rt"), "the Rattle toolchain's command rt is not on the PATH")
class ToolchainTest(unittest.TestCase):
    def setUp(self):
        self.repository = folder_for(self)
        copy_parts(COPIED, self.repository)
        # `rt` keeps files there while it runs.
        os.mkdir(f"{self.repository}/.git")
        os.makedirs(f"{self.repository}/crates/bootswap/src")
        for name, text in (("crates.txt", "common:\nbootswap: common\n"), ("crates/bootswap/src/main.rt", PROGRAM)):
            write(f"{self.repository}/{name}", text)

    def output_of(self, *words):
        """Runs a command at the top of the repository, which has to succeed, and returns what it prints."""
        streams = {"stdin": subprocess.DEVNULL, "stdout": subprocess.PIPE, "stderr": subprocess.STDOUT, "text": True}
        done = subprocess.run(words, cwd=self.repository, timeout=LIMIT, **streams)
        self.assertEqual(0, done.returncode, f"{words}: {short(done.stdout[-1000:])}")
        return done.stdout

    def built(self):
        """The names of what the builder keeps for its next build."""
        return sorted(os.listdir(f"{self.repository}/{os.path.relpath(BUILD, ROOT)}"))

    def test_both_build_in_one_clone(self):
        self.assertRegex(self.output_of("rt", "ci"), r"\d+ passed, 0 failed\s*\Z")
        # `codes` asks for the complete program, and not for its core.
        self.assertIn("bootswap is proved", self.output_of("./bootswap", "codes"))
        built = self.built()
        self.assertRegex(self.output_of("rt", "ci"), r"\d+ passed, 0 failed\s*\Z")
        self.assertEqual(built, self.built())
        self.assertEqual("", self.output_of("./bootswap", "codes"))
