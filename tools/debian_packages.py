"""Makes the packages that debian/ describes, by `dpkg-buildpackage`."""

import os
import re
import shutil
import subprocess

from builder import ROOT, text_of
from installing import NotInstalled

# The names of the packages.
NAMES = ("bootswap", "libbootswap-dev", "python3-bootswap", "bootswap-doc")

# What they are made of, beside what is built.
SOURCES = ("CHANGELOG.md", "LICENSE", "README.md", "bindings/c", "bindings/python", "debian", "docs", "examples", "include")
SOURCES += ("tools",)


def file_of(name):
    """Returns the file name of a package."""
    version = re.match(r"bootswap \((.*?)\)", text_of(f"{ROOT}/debian/changelog"))[1]
    return f"{name}_{version}_{'all' if name == 'bootswap-doc' else 'amd64'}.deb"


def debian_packages(folder, made, seconds, built):
    """Makes the packages in a folder, in a copy of the sources within another one, and returns their names. `built` are the
    program and the libraries by their names in out/."""
    copy = f"{made}/source"
    os.makedirs(f"{copy}/out")
    subprocess.run(["cp", "--recursive", "--parents", *SOURCES, copy], cwd=ROOT, check=True)
    for name, file in built.items():
        shutil.copy(file, f"{copy}/out/{name}")
    build(copy, {**os.environ, "SOURCE_DATE_EPOCH": str(seconds)})
    for name in NAMES:
        shutil.move(f"{made}/{file_of(name)}", f"{folder}/{file_of(name)}")
    return [file_of(it) for it in NAMES]


def build(copy, environment):
    """Runs Debian's tools in a copy of the sources."""
    if not shutil.which("dpkg-buildpackage"):
        raise NotInstalled("dpkg-buildpackage isn't installed")
    words = ["dpkg-buildpackage", "--build=binary", "--unsigned-changes", "--unsigned-buildinfo"]
    done = subprocess.run(words, cwd=copy, env=environment, stdin=subprocess.DEVNULL, capture_output=True, text=True)
    if done.returncode:
        said = [it for it in done.stderr.splitlines() if "error: " in it] or [f"dpkg-buildpackage failed: {done.stderr[-500:]}"]
        raise NotInstalled(said[0])
