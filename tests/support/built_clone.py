"""A clone of the repository in which the program and the library are built, for tests of what is installed and
packed."""

import os
import shutil
import subprocess
import sys
import unittest

from support.files import copy_parts, write
from support.libraries import TARGET, archive_for, manifest_archive_for
from support.program import ProgramTest, short

from installing import share

# What the tools need of a clone beside out/.
NEEDED = ("bindings", "board", "debian", "docs", "examples", "include", "tools", "LICENSE", "README.md", "CHANGELOG.md")

# Prints the stamp of the program of a clone, as its build writes it.
STAMP = """
import sys
sys.path.insert(0, "tools")
sys.dont_write_bytecode = True
from programs import WHOLE, crates_of, stamp_of
print(stamp_of(WHOLE, crates_of(WHOLE), "a toolchain"), end="")
"""

# Runs a script on a system of its own: this one, over which a layer lies that is thrown away. The clone is there too.
LAYER = r"""
set -e
mount -t tmpfs tmpfs "$1"
mkdir "$1/upper" "$1/work" "$1/root"
mount -t overlay overlay -o lowerdir=/,upperdir="$1/upper",workdir="$1/work" "$1/root"
mkdir -p "$1/root$2"
mount --bind "$2" "$1/root$2"
mount --bind /dev "$1/root/dev"
exec chroot "$1/root" /bin/bash -ec "cd $2; $USES" uses "${@:3}"
"""
needs_layer = unittest.skipUnless(os.getuid() == 0 and shutil.which("unshare"), "only root can lay such a layer")

# The names of the static libraries.
LIBRARIES = ("libbootswap.a", "libbootswap_manifest.a")


class BuiltCloneTest(ProgramTest):
    """A test of the tools in a clone that has the built program and the libraries in out/."""

    @classmethod
    def setUpClass(cls):
        cls.archives = archive_for(TARGET), manifest_archive_for(TARGET)

    def setUp(self):
        super().setUp()
        self.clone = f"{self.folder}/clone"
        copy_parts(NEEDED, self.clone)
        os.mkdir(f"{self.clone}/out")
        shutil.copy(self.program, f"{self.clone}/out/bootswap")
        # The clone has no crates, so this is the program of its sources.
        write(f"{self.clone}/crates.txt", "bootswap:\n")
        self.write_stamp()
        for archive, name in zip(self.archives, LIBRARIES):
            shutil.copy(archive, f"{self.clone}/out/{name}")
        self.assertTrue(share(self.archives, f"{self.clone}/out/libbootswap.so"))

    def write_stamp(self):
        """Writes that the program in out/ was built from the sources of the clone."""
        with open(f"{self.clone}/out/bootswap.stamp", "w", encoding="utf-8") as it:
            subprocess.run([sys.executable, "-c", STAMP], cwd=self.clone, stdout=it, check=True)

    def run_tool(self, name, *words, **how):
        """Runs a tool of the clone, and returns its status and what it says."""
        done = subprocess.run([f"{self.clone}/tools/{name}", *words], capture_output=True, **how)
        return done.returncode, done.stdout + done.stderr

    def expect_tool(self, name, *words, status=0, said=b"", **how):
        """A tool ends so, and says exactly this."""
        self.assertEqual((status, said), self.run_tool(name, *words, **how), f"{name} {words}")


    def uses_on_system(self, script, *words, path="/usr/sbin:/usr/bin:/sbin:/bin"):
        """Runs a script on a system of its own, which begins in the clone. Returns both outputs."""
        layer = f"{self.folder}/layer"
        os.mkdir(layer)
        how = {"stdin": subprocess.DEVNULL, "capture_output": True, "text": True}
        words = ["unshare", "--mount", "bash", "-c", LAYER, "layer", layer, self.clone, *words]
        done = subprocess.run(words, env={"PATH": path, "USES": script, "LC_ALL": "C"}, **how)
        if "mount" in done.stderr and not done.stdout:
            self.skipTest(f"no layer can be laid over the system here: {short(done.stderr.encode())}")
        return done.stdout, done.stderr


def places_below(top):
    """Returns the files and links below a folder, as paths from there."""
    return {os.path.relpath(f"{at}/{name}", top) for at, _, names in os.walk(top) for name in names}
