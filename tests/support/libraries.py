"""The static libraries of include/bootswap.h and of include/bootswap_manifest.h, for the tests that link them.

Tests don't prove it anew. They take what `bindings/build` and `web/build` built. The complete gate builds it over the
libraries of the crates below it that `rt ci` proved in the folder BOOTSWAP_PROVED.
"""

import ctypes
import importlib.util
import os
import re
import subprocess
import sys
import unittest
from unittest import mock

from support.files import ROOT, read
from support.program import short

sys.path.append(f"{ROOT}/bindings")

from builder import ARM_TARGET, LIBRARY, MANIFEST_LIBRARY, TARGET, WEB_TARGET, asked_of_rt, library_crates, link_for_web
from c_file.folder import write_folder
from installing import share
from proved_copy import archive_over

BUILDERS = {TARGET: "bindings/build", WEB_TARGET: "bindings/build --c"}
BUILDERS[ARM_TARGET] = f"bindings/build --target {ARM_TARGET}"


def archive_for(target, name=LIBRARY):
    """Returns the file of a library for a target. Skips the tests that need it if it isn't built."""
    crates, proved = library_crates(target, name), os.environ.get("BOOTSWAP_PROVED")
    if proved:
        archive, faults = archive_over(proved, target, name)
        if faults:
            raise AssertionError("\n".join(["the library isn't built:", *faults]))
        return archive
    if not crates[-1].is_built(asked_of_rt("version")):
        raise unittest.SkipTest(f"the library isn't built, or not of these sources: {BUILDERS[target]} builds it")
    return crates[-1].made


def manifest_archive_for(target):
    """Returns the file of the library for manifests, as `archive_for`."""
    return archive_for(target, MANIFEST_LIBRARY)


def shared_library(folder):
    """Makes the library for Python, as `bindings/build` does, and returns its file."""
    shared = f"{folder}/libbootswap.so"
    if not share([archive_for(TARGET), manifest_archive_for(TARGET)], shared):
        raise AssertionError("the library for Python isn't linked")
    return shared


def web_module(folder):
    """Returns the file of the library as a module of WebAssembly, and skips the tests that need it if it isn't
    built."""
    module = f"{folder}/bootswap.wasm"
    is_linked, output = link_for_web(archive_for(WEB_TARGET), module)
    if not is_linked:
        raise AssertionError(f"the library of the page is linked: {output}")
    return module


def c_folder(folder):
    """Leaves the library as one file of C in a folder, as `bindings/build --c` does. Skips the tests that need it if
    it isn't built."""
    write_folder(archive_for(WEB_TARGET), folder)


def python_module():
    """Loads bindings/python/bootswap.py, over a library that does nothing."""
    spec = importlib.util.spec_from_file_location("bootswap", f"{ROOT}/bindings/python/bootswap.py")
    module = importlib.util.module_from_spec(spec)
    with mock.patch.object(ctypes, "CDLL"), mock.patch.dict(sys.modules, {spec.name: module}):
        spec.loader.exec_module(module)
    return module


def fenced(path, language):
    """Returns the blocks of a page in Markdown that are in a language."""
    blocks = re.findall(r"^```(\S*)\n(.*?)^```$", read(f"{ROOT}/{path}").decode(), re.MULTILINE | re.DOTALL)
    return [body for kind, body in blocks if kind == language]


def symbols(file, nm="nm", *words):
    """Returns the symbols of a file: of each the name, the letter of its kind, and numbers."""
    rows = map(str.split, output_of([nm, *words, "--format=posix", file]).decode().splitlines())
    return [it for it in rows if len(it) > 1 and len(it[1]) == 1]


def output_of(arguments, **how):
    """Runs a command, which has to succeed, and returns what it prints."""
    faults, output = ran(arguments, **how)
    if faults:
        raise AssertionError(f"{short(arguments)}: {faults[0]}")
    return output


def ran(arguments, **how):
    """Runs a command, and returns what is wrong with it, if something is, and what it printed."""
    done = subprocess.run(arguments, stdin=subprocess.DEVNULL, stdout=subprocess.PIPE, stderr=subprocess.STDOUT, **how)
    return [f"status {done.returncode}: {short(done.stdout[-2000:])}"] if done.returncode else [], done.stdout
