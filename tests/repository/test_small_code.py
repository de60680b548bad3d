"""The toolchain whose compiler makes small code: its flags, its files, and what is built again if the flags change."""

import os
import subprocess
import tempfile
import unittest
from unittest import mock

from support.files import write_script
import support.program  # tools/ is on the path from here on

import builder
import small_code


class SmallCodeTest(unittest.TestCase):
    def setUp(self):
        """Makes a toolchain whose clang prints what it is given, in a folder whose name needs quotes."""
        holder = tempfile.TemporaryDirectory(prefix="bootswap it's small-")
        self.addCleanup(holder.cleanup)
        self.kit, self.folder = f"{holder.name}/kit", f"{holder.name}/small"
        for it in ("bin", "lib"):
            os.makedirs(f"{self.kit}/toolchain/{it}")
        for name in ("clang", *small_code.TOOLS):
            path = f"{self.kit}/toolchain/bin/{name}"
            write_script(path, '#!/bin/sh\nprintf "%s\\n" "$0" "$@"\n')

    def test_its_clang_passes_the_flags_last_and_its_other_files_are_the_toolchains(self):
        for _ in range(2):
            made = small_code.toolchain_for_size(f"{self.kit}/toolchain", self.folder)
            words = ["-c", "a b.bc", "-O3"]
            said = subprocess.run([f"{made}/bin/clang", *words], capture_output=True, text=True, check=True).stdout
            self.assertEqual([f"{self.kit}/toolchain/bin/clang", *words, *small_code.FLAGS], said.splitlines())
        self.assertIn("-O", [it[:2] for it in small_code.FLAGS])
        self.assertEqual({"clang", *small_code.TOOLS}, {*os.listdir(f"{made}/bin")})
        for it in ("lib", *(f"bin/{it}" for it in small_code.TOOLS)):
            self.assertTrue(os.path.samefile(f"{self.kit}/toolchain/{it}", f"{made}/{it}"), it)

    def test_the_library_for_webassembly_alone_is_compiled_for_size_and_anew_with_other_flags(self):
        for target, is_small in ((builder.WEB_TARGET, True), (builder.TARGET, False), (builder.ARM_TARGET, False)):
            with self.subTest(target), mock.patch.object(builder, "OUT", self.folder):
                library = builder.library_crates(target)[-1]
                words, first = library.words(self.kit), library.digest("a toolchain")
                wanted = f"{self.folder}/toolchain" if is_small else f"{self.kit}/toolchain"
                self.assertEqual(wanted, words[words.index("--toolchain") + 1])
                with mock.patch.object(small_code, "FLAGS", ("-O1",)):
                    second = builder.library_crates(target)[-1].digest("a toolchain")
                self.assertEqual(is_small, first != second)
