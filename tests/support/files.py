"""The files of the examples, and files that tests compare."""

import os
import shutil
import stat
import tempfile

ROOT = os.path.dirname(os.path.dirname(os.path.dirname(os.path.realpath(__file__))))
EXAMPLES = f"{ROOT}/examples"

# What is made in folders of the repository.
MADE = shutil.ignore_patterns("out", "__pycache__", "target", "Cargo.lock")

# The device file of the examples of manifests and scripts, and the image at the front of its flash.
PAIR = f"{EXAMPLES}/devices/pair.json"

ONE = f"{EXAMPLES}/images/one.img"


def read(path):
    with open(path, "rb") as it:
        return it.read()


def write(path, contents, mode="w"):
    """Writes text or bytes to a file, and makes its folder."""
    os.makedirs(os.path.dirname(path), exist_ok=True)
    is_text = isinstance(contents, str)
    with open(path, mode if is_text else f"{mode}b", encoding="utf-8" if is_text else None) as it:
        it.write(contents)


def write_script(path, contents):
    write(path, contents)
    os.chmod(path, 0o755)


def copy_parts(names, folder):
    """Copies files and folders of the repository, without what is made in these."""
    for name in names:
        os.makedirs(os.path.dirname(f"{folder}/{name}"), exist_ok=True)
        if os.path.isdir(f"{ROOT}/{name}"):
            shutil.copytree(f"{ROOT}/{name}", f"{folder}/{name}", ignore=MADE)
        else:
            shutil.copy(f"{ROOT}/{name}", f"{folder}/{name}")


def folder_for(test):
    """Makes a folder for a test, or for the tests of a class, which is removed after them."""
    folder = tempfile.mkdtemp(prefix="bootswap-test-")
    cleanup = test.addClassCleanup if isinstance(test, type) else test.addCleanup
    cleanup(shutil.rmtree, folder, ignore_errors=True)
    return folder


def names_in(folder):
    return sorted(os.path.splitext(it)[0] for it in os.listdir(f"{EXAMPLES}/{folder}"))


def table(name):
    return f"{EXAMPLES}/tables/{name}.txt"


def report(name):
    return f"{EXAMPLES}/reports/{name}.txt"


def files_in(folder):
    """The files of a folder: the name, the mode, the target of a link, and the contents of a plain file."""
    for name in sorted(os.listdir(folder)):
        path = f"{folder}/{name}"
        kind = os.lstat(path).st_mode
        link = os.readlink(path) if os.path.islink(path) else ""
        yield name, kind, link, read(path) if stat.S_ISREG(kind) else b""
