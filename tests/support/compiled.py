"""Libraries in C that a program loads first, and that change what its system calls do."""

import os
import shutil
import subprocess
import unittest

from support.files import ROOT

# The programs and libraries in C of the tests.
C = f"{ROOT}/tests/support/c"

needs_compiler = unittest.skipUnless(shutil.which("cc"), "there is no C compiler `cc`")


def preloaded(test, name):
    """Compiles support/c/NAME.c once for a test, and returns the environment in which a program loads it first."""
    library = f"{test.folder}/{name}.so"
    if not os.path.exists(library):
        subprocess.run(["cc", "-O1", "-fPIC", "-shared", "-o", library, f"{C}/{name}.c"], check=True)
    return {**os.environ, "LD_PRELOAD": library}
