"""The version, and the commit in a program."""

import os
import re
import shutil
import subprocess
import sys
import time
import unittest
import unittest.mock

from support.files import ROOT, read
from support.program import FolderTest, ProgramTest

sys.path.insert(0, f"{ROOT}/tools")

import builder
from commits import version_in, write_commit
from installing import major, version

COMMIT = "0123456789abcdef0123456789abcdef01234567"
UNKNOWN = "000000000000"

# Where the version is written beside the header, which decides: a file, and what is before and after it there.
PLACES = [
    ("crates/command_line/src/commands.rt", 'pub const VERSION: &str = "', '";'),
    ("crates/command_line/src/commands.rt", 'const VERSION_AND_COMMIT: &str = "', f' ({UNKNOWN})";'),
    ("crates/bootswap_core/stdout", "bootswap ", f" ({UNKNOWN})\n"),
    ("bindings/rust/Cargo.toml", '\nversion = "', '"\n'),
    ("docs/TUTORIAL.md", "$ ./bootswap --version\nbootswap ", f" ({COMMIT[:12]})\n"),
]

# Says what a clone's tools know of its commit.
ASKS = """
import sys
sys.path.insert(0, "tools")
sys.dont_write_bytecode = True
import commits
print(commits.commit_here())
"""


def text_of(file):
    """Returns the text of a file of the repository."""
    return read(f"{ROOT}/{file}").decode()


class VersionTest(unittest.TestCase):
    """The version in files of the repository."""

    def test_places_have_the_version_of_the_header(self):
        for file, before, after in PLACES:
            with self.subTest(file):
                self.assertIn(before + version() + after, text_of(file))
        shared = re.search(r'^SHARED_NAME = "(.*)"$', text_of("bindings/python/bootswap.py"), re.MULTILINE)[1]
        self.assertEqual(f"libbootswap.so.{major()}", shared)

    def test_last_release_is_that_of_the_changelogs(self):
        """Its day is that of the manual pages."""
        page = text_of("crates/arguments/src/manual/page.rt")
        day = re.search(r'^const EDITION: &str = " 1 (\S*) ', page, re.MULTILINE)[1]
        last = re.search(r"^## \[\d.*$", text_of("CHANGELOG.md"), re.MULTILINE)[0]
        self.assertEqual(f"## [{version()}] - {day}", last)
        entry = text_of("debian/changelog").partition("\n\nbootswap ")[0]
        found = re.fullmatch(r"bootswap \((.*)\) .*>  (.*) 00:00:00 \+0000", entry, re.DOTALL).groups()
        self.assertEqual((f"{version()}-1", time.strftime("%a, %d %b %Y", time.strptime(day, "%Y-%m-%d"))), found)


class PrintedVersionTest(ProgramTest):
    def test_program_prints_its_version_and_commit(self):
        printed = self.version()
        self.assertRegex(printed, r"\A" + re.escape(version()) + r"[ +]\([0-9a-f]{12}\)\Z")
        for word in ("--version", "-V"):
            self.assertEqual((0, f"bootswap {printed}\n".encode(), b""), self.run_program([word]))

    def test_manual_page_has_the_version_alone(self):
        self.assertIn(f' "bootswap {version()}"\n'.encode(), self.run_program(["help", "man"])[1])


class WrittenCommitTest(FolderTest):
    """A commit that is written into a program."""

    def program(self, text):
        """Makes a file with a text between other bytes."""
        return self.put("program", b"\x7fELF\x00(" + text + b"\x00\xff")

    def test_commit_replaces_zeros_or_another(self):
        """Nothing else is changed."""
        for before in (b"1.0.0 (000000000000)", b"1.0.0 (ba9876543210)", b"1.0.0+(ba9876543210)"):
            for differs, after in ((False, b"1.0.0 (0123456789ab)"), (True, b"1.0.0+(0123456789ab)")):
                with self.subTest(f"{before} to {after}"):
                    program = self.program(before)
                    self.assertTrue(write_commit(program, COMMIT, differs))
                    self.assertEqual(b"\x7fELF\x00(" + after + b"\x00\xff", read(program))
                    self.assertEqual(after.decode(), version_in(program))

    def test_program_without_one_place_is_not_changed(self):
        place = b"1.0.0 (000000000000)"
        for text in (b"", b"1.0.0", b"1.0.0 (00000000000)", b"1.0.0 (0000000000000)", b"000000000000", place + place):
            with self.subTest(f"{text}"):
                program = self.program(text)
                before = read(program)
                self.assertFalse(write_commit(program, COMMIT))
                self.assertEqual(before, read(program))

    def test_build_writes_its_commit(self):
        """It fails if the program has no place for it. Outside a clone it writes nothing."""
        zeros = b"1.0.0 (000000000000)"
        for commit, linked, wanted in [
            ((COMMIT, False), zeros, (0, b"1.0.0 (0123456789ab)")),
            ((COMMIT, True), zeros, (0, b"1.0.0+(0123456789ab)")),
            (None, zeros, (0, zeros)),
            ((COMMIT, False), b"", (1, b"")),
        ]:
            with self.subTest(f"{linked} of {commit}"):
                self.assertEqual(wanted, self.link(commit, linked))

    def link(self, commit, linked):
        """Has a build of a commit link a program, for which the linker writes this, and returns the status and the
        program."""
        build = builder.Build.__new__(builder.Build)
        build.commit, build.kit = commit, "kit"
        crate = builder.Crate("a_program", [], [], False)

        def call(words, _):
            with open(words[words.index("-o") + 1], "wb") as it:
                it.write(linked)
            return 0, ""

        build.call = call
        with unittest.mock.patch.object(builder, "OUT", self.folder):
            status, _ = build.link(crate)
        return status, read(f"{self.folder}/a_program")


class CommitTest(FolderTest):
    """What the tools know of the commit of a clone."""

    def setUp(self):
        super().setUp()
        self.clone = self.path("clone")
        for name in ("tools/commits.py", "docs/page", "crates/one/src/lib.rt", "crates.txt", ".gitignore"):
            self.write(name, text_of(name) if name.startswith("tools/") else "out/\n")

    def write(self, name, text):
        path = f"{self.clone}/{name}"
        os.makedirs(os.path.dirname(path), exist_ok=True)
        with open(path, "w", encoding="utf-8") as it:
            it.write(text)

    def git(self, *words):
        author = ["-c", "user.name=A", "-c", "user.email=a@example.org"]
        done = subprocess.run(["git", "-C", self.clone, *author, *words], check=True, capture_output=True, text=True)
        return done.stdout.strip()

    def known(self, **how):
        words = [sys.executable, "-c", ASKS]
        return subprocess.run(words, cwd=self.clone, capture_output=True, text=True, **how).stdout.strip()

    def commit(self):
        self.git("init", "--quiet")
        self.git("add", "--all")
        self.git("commit", "--quiet", "--message", "all")
        return self.git("rev-parse", "HEAD")

    def test_no_commit_is_known(self):
        """There is no clone, no commit in it, no git, or the clone is around this folder."""
        self.assertEqual("None", self.known())
        self.git("init", "--quiet")
        self.assertEqual("None", self.known())
        self.commit()
        self.assertEqual("None", self.known(env={"PATH": self.clone}))
        around, self.clone = self.clone, f"{self.clone}/inside"
        shutil.copytree(f"{around}/tools", f"{self.clone}/tools")
        self.assertEqual("None", self.known())

    def test_crates_differ_from_the_commit(self):
        """A page, or something built, makes no difference."""
        commit = self.commit()
        self.write("docs/page", "another\n")
        self.write("crates/one/out/library", "built\n")
        self.assertEqual(f"{(commit, False)}", self.known())
        for name in ("crates/one/src/lib.rt", "crates/one/src/more.rt", "crates.txt"):
            with self.subTest(name):
                self.write(name, "another\n")
                self.assertEqual(f"{(commit, True)}", self.known())
                self.git("stash", "--quiet", "--include-untracked")
        os.remove(f"{self.clone}/crates.txt")
        self.assertEqual(f"{(commit, True)}", self.known())
