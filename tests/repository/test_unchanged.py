"""That `./bootswap` notices each change of what its program was made of, and reads nothing again if there was none.

It works in a small repository, with a toolchain that only pretends.
"""

import os
import shutil
import subprocess
import sys
import tempfile
import time
import unittest
from unittest import mock

from support.files import ROOT, copy_parts, write
import support.program  # tools/ is on the path from here on

import unchanged

KIT = {
    "KIT-ID": "pretended\n",
    "bin/rt": """#!/bin/sh
kit=$(dirname "$(dirname "$0")")
case "$1" in version) cat "$kit/KIT-ID" ;; doc) echo "$kit/FIRST.md" ;; esac
""",
    "bin/rattle": """#!/bin/sh
while [ "$#" -gt 1 ]; do
    [ "$1" = -o ] && touch "$2"
    shift
done
""",
    "bin/rattle-link": """#!/bin/sh
while [ "$#" -gt 1 ]; do
    [ "$1" = -o ] && printf '#!/bin/sh\\necho "answers $1"\\n' > "$2" && chmod 755 "$2"
    shift
done
""",
}
SOURCES = {
    "crates.txt": "common:\nbootswap: common\n",
    "crates/common/src/lib.rt": "fn one() -> u8 {\n    1\n}\n",
    "crates/common/specs/Lib.antt": "",
    "crates/bootswap/src/main.rt": "fn main() {}\n",
}

# How many seconds may pass between two times of a file system that are the same.
TICK = 0.05


def rewrite(path, old, new):
    """Changes a file, but neither its size nor the time of that."""
    before = os.stat(path)
    with open(path, "r+b") as it:
        text = it.read()
        it.seek(0)
        it.write(text.replace(old, new))
    os.utime(path, ns=(before.st_atime_ns, before.st_mtime_ns))
    after = os.stat(path)
    assert old in text and (after.st_size, after.st_mtime_ns) == (before.st_size, before.st_mtime_ns)


def replace(path, text):
    """Puts another file in the place of one, of the same size and time."""
    before = os.stat(path)
    write(f"{path}.new", text)
    os.utime(f"{path}.new", ns=(before.st_atime_ns, before.st_mtime_ns))
    os.replace(f"{path}.new", path)


# What may change in the repository or in the kit beside it.
CHANGES = {
    "a source": lambda at: rewrite(f"{at}/crates/common/src/lib.rt", b"1", b"2"),
    "another source in its place": lambda at: replace(f"{at}/crates/bootswap/src/main.rt", "fn nain() {}\n"),
    "the table of crates": lambda at: rewrite(f"{at}/crates.txt", b":", b" "),
    "a new source": lambda at: open(f"{at}/crates/common/src/new.rt", "w", encoding="utf-8").close(),
    "a new folder": lambda at: os.mkdir(f"{at}/crates/common/proofs"),
    "a source less": lambda at: os.remove(f"{at}/crates/common/specs/Lib.antt"),
    "another name": lambda at: os.rename(f"{at}/crates/common/specs/Lib.antt", f"{at}/crates/common/specs/One.antt"),
    "the program": lambda at: rewrite(f"{at}/out/bootswap", b"$", b"#"),
    "the program's mode": lambda at: os.chmod(f"{at}/out/bootswap", 0o644),
    "its stamp": lambda at: rewrite(f"{at}/out/bootswap.stamp", b"/", b"_"),
    "the record": lambda at: os.remove(f"{at}/out/bootswap.seen"),
    "half of the record": lambda at: os.truncate(f"{at}/out/bootswap.seen", 200),
    "the toolchain": lambda at: rewrite(f"{at}/kit/KIT-ID", b"p", b"q"),
    "no toolchain": lambda at: os.remove(f"{at}/kit/bin/rt"),
}


class UnchangedTest(unittest.TestCase):
    """Changes after a program was found to be current."""

    def setUp(self):
        self.top = os.path.realpath(tempfile.mkdtemp(prefix="bootswap-unchanged-"))
        self.addCleanup(shutil.rmtree, self.top)
        self.environment = {**os.environ, "PATH": f"{self.top}/kit/bin:{os.environ['PATH']}"}

    def start(self):
        """Makes the repository anew, as it is after a build."""
        shutil.rmtree(self.top)
        copy_parts(("tools", "bootswap"), self.top)
        built = {"out/bootswap": "#!/bin/sh\necho $1\n", "out/bootswap.stamp": "a/b"}
        for name, text in {**SOURCES, **built, **{f"kit/{it}": text for it, text in KIT.items()}}.items():
            path = f"{self.top}/{name}"
            os.makedirs(os.path.dirname(path), exist_ok=True)
            write(path, text)
            os.chmod(path, 0o755 if text.startswith("#!") else 0o644)

    def remembered(self, after):
        """Records the program as current, N nanoseconds from now, and returns what is then recorded for `codes`."""
        unchanged.remember("bootswap", unchanged.lines_now("bootswap"), time.time_ns() + after)
        return unchanged.unchanged_for(["codes"])

    def test_each_change_is_noticed_also_if_size_and_time_of_the_file_stay(self):
        with mock.patch.object(unchanged, "ROOT", self.top), mock.patch.dict(os.environ, self.environment):
            for name, change in CHANGES.items():
                with self.subTest(name):
                    self.start()
                    self.assertEqual(f"{self.top}/out/bootswap", self.remembered(2 * unchanged.MARGIN))
                    time.sleep(TICK)
                    change(self.top)
                    self.assertIsNone(unchanged.unchanged_for(["codes"]))

    def test_files_that_were_just_written_are_not_recorded(self):
        """They might change again within a step of the clock."""
        self.start()
        with mock.patch.object(unchanged, "ROOT", self.top), mock.patch.dict(os.environ, self.environment):
            self.assertIsNone(self.remembered(0))

    def test_the_first_call_builds_and_one_after_a_change(self):
        self.start()
        shutil.rmtree(f"{self.top}/out")
        for name, is_building in (("first", True), ("second", False), ("third", False), ("after a change", True)):
            if name == "after a change":
                rewrite(f"{self.top}/crates/common/src/lib.rt", b"1", b"2")
            words, streams = [f"{self.top}/bootswap", "codes"], {"stdin": subprocess.DEVNULL, "capture_output": True}
            done = subprocess.run(words, env=self.environment, text=True, **streams)
            with self.subTest(name):
                self.assertEqual("answers codes\n", done.stdout, done.stderr)
                self.assertEqual(is_building, "proving and building the program" in done.stderr)
                # Files that were just written aren't recorded.
                self.assertEqual(name != "first", os.path.exists(f"{self.top}/out/bootswap.seen"))
            time.sleep(2.2 if name == "first" else 0)

    def test_no_call_imports_a_slow_module_before_it_asks(self):
        asks = "import sys; sys.path.insert(0, 'tools'); import unchanged; print(*sys.modules)"
        done = subprocess.run([sys.executable, "-SBc", asks], cwd=ROOT, capture_output=True, text=True, check=True)
        slow = {"builder", "hashlib", "json", "re", "shutil", "subprocess", "typing"}
        self.assertEqual(set(), slow & {*done.stdout.split()})
