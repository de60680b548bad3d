"""The folder of `bindings/build --c` in projects of CMake: as a part of a project, and installed."""

import os
import re
import shutil
import tempfile
import unittest

from support.compiled import needs_compiler
from support.files import EXAMPLES, ROOT, folder_for, read
from support.libraries import c_folder, fenced, output_of, ran, symbols

import empty_projects
from installing import major, version

IMAGES = [f"{EXAMPLES}/images/{it}" for it in empty_projects.IMAGES]

# What the program of the empty project prints with these images.
LIVES, BOOTS = empty_projects.LIVES.encode(), empty_projects.BOOTS.encode()

# The warnings that our own builds ask for.
STRICT = "-DCMAKE_C_FLAGS=-Wall -Wextra -Wpedantic -Werror"

# The options: the calls that each leaves out of the library, one that stays, and what the project then prints.
OPTIONS = {
    "UPLOADS": ({"bootswap_journal_accept"}, "bootswap_journal_boot_with_texts", BOOTS),
    "TEXTS": ({"bootswap_choose", "bootswap_choose_in", "bootswap_check_in"}, "bootswap_journal_accept", BOOTS),
    "SIMULATION": ({"bootswap_simulate_provision"}, "bootswap_choose", LIVES),
}


@needs_compiler
@unittest.skipUnless(shutil.which("cmake"), "there is no cmake")
class CMakeTest(unittest.TestCase):
    @classmethod
    def setUpClass(cls):
        cls.top = folder_for(cls)
        cls.library = f"{cls.top}/c"
        c_folder(cls.library)

    def setUp(self):
        self.folder = tempfile.mkdtemp(dir=self.top)

    def build(self, found, *words):
        """Makes a project in an empty folder, which takes the library so, and builds it without a warning."""
        empty_projects.write_cmake(self.folder, found)
        shutil.rmtree(f"{self.folder}/build", ignore_errors=True)
        build = f"{self.folder}/build"
        for it in (["-S", self.folder, "-B", build, STRICT, *words], ["--build", build]):
            self.assertNotIn(b"arning", output_of(["cmake", *it]))

    def expect_boot(self, wanted=LIVES, program="in_memory"):
        """The program of the project prints what it has to."""
        self.assertEqual(wanted, output_of([f"{self.folder}/build/{program}", *IMAGES]))

    def install(self):
        """Installs the library below a prefix of this test, and returns it."""
        prefix, build = f"{self.folder}/prefix", f"{self.folder}/library"
        words = ["-S", self.library, "-B", build, f"-DCMAKE_INSTALL_PREFIX={prefix}", STRICT]
        for it in (words, ["--build", build], ["--install", build]):
            output_of(["cmake", *it])
        return prefix

    def test_a_project_that_has_the_folder_as_a_part_boots(self):
        """Installed, it installs nothing of the library."""
        self.build(empty_projects.part(self.library))
        self.expect_boot()
        output_of(["cmake", "--install", f"{self.folder}/build", "--prefix", f"{self.folder}/prefix"])
        self.assertFalse(os.path.exists(f"{self.folder}/prefix"))

    def test_a_project_that_finds_the_installed_library_boots(self):
        """It finds this major version, and up to this version."""
        where = f"-DCMAKE_PREFIX_PATH={self.install()}"
        self.build(empty_projects.package(version()), where)
        self.expect_boot()
        later = re.sub(r"\d+$", lambda it: str(int(it[0]) + 1), version())
        for asked, is_found in ((f"{major()}.0", True), (later, False), (int(major()) + 1, False)):
            shutil.rmtree(f"{self.folder}/build")
            empty_projects.write_cmake(self.folder, empty_projects.package(asked))
            faults, output = ran(["cmake", "-S", self.folder, "-B", f"{self.folder}/build", where])
            self.assertEqual(is_found, not faults, f"{asked}: {output}")

    def test_what_the_readme_shows_builds(self):
        """A project with the folder in it, and one that finds it installed."""
        shutil.copytree(self.library, f"{self.folder}/bootswap")
        self.build(f"add_executable(loader in_memory.c)\n{fenced('bindings/c_file/README.md', 'cmake')[0]}")
        self.expect_boot(program="loader")
        os.makedirs(f"{self.folder}/clone/out")
        os.symlink(self.library, f"{self.folder}/clone/out/c")
        commands = next(it for it in fenced("bindings/c_file/README.md", "sh") if it.startswith("cmake -S out/c"))
        output_of(["bash", "-e", "-c", commands], cwd=f"{self.folder}/clone")
        found = re.search(r"`(find_package\(bootswap .*?\))`", read(f"{ROOT}/bindings/c_file/README.md").decode())[1]
        self.build(found, f"-DCMAKE_PREFIX_PATH={self.folder}/clone/prefix")
        self.expect_boot()

    def test_headers_library_and_package_are_installed(self):
        found = {name for _, _, names in os.walk(self.install()) for name in names}
        wanted = {it for it in os.listdir(self.library) if it.endswith(".h")} | {"libbootswap.a"}
        self.assertEqual(wanted | {f"bootswap-config{it}.cmake" for it in ("", "-noconfig", "-version")}, found)

    def test_an_option_leaves_its_calls_and_their_code_out(self):
        """A program that doesn't need them boots."""
        whole = self.functions()
        for part, (absent, present, printed) in OPTIONS.items():
            with self.subTest(part):
                names = self.functions(part)
                self.assertEqual(set(), absent & names)
                self.assertIn(present, names)
                self.assertGreaterEqual(len(whole) - len(names), 10)
                self.expect_boot(printed)

    def functions(self, part=None):
        """Builds a project with the library without a part, and returns the functions in the library."""
        found, words = empty_projects.part(self.library), ["-DCMAKE_BUILD_TYPE=MinSizeRel"]
        if part:
            found += f"\nadd_definitions(-DBOOTSWAP_WITHOUT_{part})"
            words.append(f"-DBOOTSWAP_{part}=OFF")
        self.build(found, *words)
        # A compiler names the parts and copies of a function that it makes.
        found = symbols(f"{self.folder}/build/bootswap/libbootswap.a")
        return {re.sub(r"\..*", "", it[0]) for it in found if it[1] in "tT"}

    def test_its_version_is_that_of_the_header_alone(self):
        self.assertNotIn(version(), read(f"{self.library}/CMakeLists.txt").decode())
