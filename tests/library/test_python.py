"""The libraries in Python, their headers in C++, and what bindings/README.md shows of them."""

import os
import shutil
import subprocess
import sys
import unittest

from support.compiled import needs_compiler
from support.files import ROOT, copy_parts, folder_for
from support.libraries import fenced, output_of, shared_library
from support.processors import HERE

# How many seconds the tests of the module, and a command of the page, may take.
LIMIT = 120


@needs_compiler
class PythonTest(unittest.TestCase):
    @classmethod
    def setUpClass(cls):
        cls.folder = folder_for(cls)
        cls.archives = HERE.archive(), HERE.manifest_archive()
        cls.shared = shared_library(cls.folder)

    def test_the_headers_compile_as_cpp(self):
        text = "".join(f"#include <bootswap{it}.h>\n" for it in ("_manifest", "_simulate", "_names"))
        words = ["cc", "-x", "c++", "-Wall", "-Wextra", "-Werror", "-I", f"{ROOT}/include", "-fsyntax-only", "-"]
        subprocess.run(words, input=text, text=True, check=True)

    def test_the_tests_of_the_module_pass(self):
        tests = [sys.executable, "-B", f"{ROOT}/bindings/python/test_bootswap.py"]
        output_of(tests, env={**os.environ, "BOOTSWAP_LIBRARY": self.shared}, timeout=LIMIT)

    def test_the_readme_prints_what_it_shows(self):
        """At the top of a clone in which `bindings/build` made the libraries."""
        clone = f"{self.folder}/clone"
        copy_parts(("bindings", "examples", "include"), clone)
        os.mkdir(f"{clone}/out")
        for file, name in zip((*self.archives, self.shared), ("bootswap.a", "bootswap_manifest.a", "bootswap.so")):
            shutil.copy(file, f"{clone}/out/lib{name}")
        first, _, commands = fenced("bindings/README.md", "sh")[0].partition("\n")
        self.assertEqual("bindings/build", first)
        printed, *_, report = fenced("bindings/README.md", "")
        environment = {name: it for name, it in os.environ.items() if name not in ("BOOTSWAP_LIBRARY", "PYTHONPATH")}
        for words, wanted in (
            (["bash", "-ec", commands], printed),
            ([sys.executable, "-c", fenced("bindings/README.md", "python")[0]], report),
        ):
            done = subprocess.run(words, cwd=clone, env=environment, timeout=LIMIT, capture_output=True, text=True)
            self.assertEqual((0, wanted), (done.returncode, done.stdout), done.stderr[-2000:])
