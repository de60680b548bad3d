"""What `tools/install` installs, and `tools/uninstall` removes."""

import os
import re
import shutil
import stat
import sys
import unittest

from support.built_clone import BuiltCloneTest, needs_layer, places_below
from support.commands import COMMANDS
from support.compiled import needs_compiler
from support.files import ROOT, read, write
from support.headers import declared
from support.libraries import fenced, output_of

from installing import LIST, major, version

# The manual pages that pandoc makes, and what an installation says without it.
MADE_PAGES = {f"share/man/man3/{it}.3" for it in ("libbootswap", *declared("call"))}
MADE_PAGES.add("share/man/man5/bootswap-formats.5")
LEFT_OUT = b"install: pandoc, which makes bootswap-formats(5) and libbootswap(3), isn't installed: "
LEFT_OUT += b"these pages are left out\n"
NO_PANDOC = b"" if shutil.which("pandoc") else LEFT_OUT

# The places of an installation, but for the examples and Python's folder.
PLACES = {
    *("bin/bootswap", "lib/libbootswap.a", "lib/libbootswap_manifest.a", "lib/libbootswap.so"),
    *(f"include/bootswap{it}.h" for it in ("", "_manifest", "_names", "_simulate")),
    *(f"lib/libbootswap.so.{major()}", f"lib/libbootswap.so.{version()}", "lib/pkgconfig/bootswap.pc"),
    *(f"lib/cmake/bootswap/bootswap-config{it}.cmake" for it in ("", "-version")),
    *(f"share/doc/bootswap/{it}" for it in ("LICENSE", "CHANGELOG.md", "README.md")),
    *(f"share/doc/bootswap/docs/{it}" for it in os.listdir(f"{ROOT}/docs")),
    LIST,
    *("share/man/man1/bootswap.1", *(f"share/man/man1/bootswap-{it}.1" for it in COMMANDS)),
    *(() if NO_PANDOC else MADE_PAGES),
    *("share/bash-completion/completions/bootswap", "share/zsh/vendor-completions/_bootswap"),
    "share/fish/vendor_completions.d/bootswap.fish",
}

# What life.c prints with a cut of write 5.
LIFE_PRINTS = b"power failed in write 5\npermanent\ntake 0 1.1.0+0\n"

# What an installation says if the system's linker doesn't search its folder.
NOT_SEARCHED = (
    "install: programs find the library in {}/lib by LD_LIBRARY_PATH, or if /etc/ld.so.conf names it and ldconfig ran\n"
)

# Installs below /usr/local. Then the library is found without an environment that says where, until it is removed.
USES = r"""
load() { "$1" -c 'import ctypes, sys; ctypes.CDLL(sys.argv[1])' "$2" 2> /dev/null && echo found || echo absent; }
tools/install
load "$1" "$2"
tools/uninstall
load "$1" "$2"
ldconfig -p | grep bootswap || echo "not in the cache"
"""

CMAKE_LISTS = """cmake_minimum_required(VERSION 3.16)
project(life C)
find_package(bootswap {version} REQUIRED)
add_executable(life life.c)
target_link_libraries(life bootswap::bootswap)
add_executable(life_alone life.c)
target_link_libraries(life_alone bootswap::static)
"""


@needs_compiler
class InstallTest(BuiltCloneTest):
    """An installation of the built program and library, from a clone with these in out/."""

    def setUp(self):
        super().setUp()
        self.prefix, self.system = f"{self.folder}/prefix", f"{self.folder}/system"

    def install(self):
        """Installs below the prefix of this test, and returns the environment in which programs find it."""
        self.expect_tool("install", "--prefix", self.prefix, said=NO_PANDOC + NOT_SEARCHED.format(self.prefix).encode())
        library = f"{self.prefix}/lib"
        return {**os.environ, "LD_LIBRARY_PATH": library, "PKG_CONFIG_PATH": f"{library}/pkgconfig"}

    def install_in_root(self, **how):
        """Installs below a folder that stands for the root."""
        self.expect_tool("install", "--prefix", "/usr", "--destdir", self.system, said=NO_PANDOC, **how)

    def images(self):
        return [f"{self.prefix}/share/doc/bootswap/examples/images/{it}.img" for it in ("one", "patched")]

    def expect_life(self, program, **how):
        self.assertEqual(LIFE_PRINTS, output_of([program, *self.images(), "5"], **how))

    def test_each_file_is_in_its_place(self):
        """And only there, below the folder that stands for the root."""
        self.install_in_root()
        found = places_below(f"{self.system}/usr")
        self.assertEqual(["usr"], os.listdir(self.system))
        examples = {f"share/doc/bootswap/examples/{it}" for it in places_below(f"{ROOT}/examples")}
        examples |= {f"share/doc/bootswap/examples/c/{it}" for it in os.listdir(f"{ROOT}/bindings/c")}
        module = {it for it in found if re.fullmatch(r"lib/python3[.\d]*/(dist|site)-packages/bootswap\.py", it)}
        self.assertEqual(1, len(module))
        self.assertEqual(PLACES | examples | module, found)
        printed = output_of([f"{self.system}/usr/bin/bootswap", "--version"]).decode()
        self.assertEqual(f"bootswap {self.version()}\n", printed)
        self.assertEqual(b"prefix=/usr", read(f"{self.system}/usr/lib/pkgconfig/bootswap.pc").splitlines()[0])

    def test_everybody_may_use_it_whatever_the_umask_is(self):
        self.install_in_root(umask=0o077)
        for at, folders, names in os.walk(self.system):
            for name in [*folders, *names]:
                found = os.lstat(f"{at}/{name}")
                allowed = (0o755,) if stat.S_ISDIR(found.st_mode) else (0o644, 0o755)
                self.assertTrue(stat.S_ISLNK(found.st_mode) or stat.S_IMODE(found.st_mode) in allowed, name)
        self.assertTrue(os.access(f"{self.system}/usr/bin/bootswap", os.X_OK))

    def test_exactly_what_was_installed_is_removed(self):
        """A file of somebody else stays, and so does its folder. What Python compiled of the module is removed too."""
        os.makedirs(f"{self.prefix}/lib")
        write(f"{self.prefix}/lib/other.so", "other\n")
        self.install()
        (module,) = (it for it in places_below(self.prefix) if it.endswith("/bootswap.py"))
        other = f"{os.path.dirname(module)}/bootswap_other.py"
        shutil.copy(f"{self.prefix}/{module}", f"{self.prefix}/{other}")
        words = [sys.executable, "-m", "compileall", "-q", self.prefix]
        output_of(words, env={**os.environ, "PYTHONPYCACHEPREFIX": ""})
        self.expect_tool("uninstall", "--prefix", self.prefix)
        left = {re.sub(r"__pycache__/(\w+).*", r"\1.py", it) for it in places_below(self.prefix)}
        self.assertEqual({"lib/other.so", other}, left)
        said = f"uninstall: nothing is installed: there is no {self.prefix}/{LIST}\n".encode()
        self.expect_tool("uninstall", "--prefix", self.prefix, status=1, said=said)

    def test_what_could_not_be_removed_is_removed_later(self):
        self.install()
        fault = f"{self.prefix}/lib/libbootswap.a"
        os.remove(fault)
        os.mkdir(fault)
        said = f"uninstall: {fault}: Is a directory\n".encode()
        self.expect_tool("uninstall", "--prefix", self.prefix, status=1, said=said)
        os.rmdir(fault)
        self.expect_tool("uninstall", "--prefix", self.prefix)
        self.assertEqual([], os.listdir(self.prefix))

    @needs_layer
    def test_programs_find_the_library_below_usr_local_until_it_is_removed(self):
        path = f"{os.path.dirname(sys.executable)}:/usr/sbin:/usr/bin:/sbin:/bin"
        got = self.uses_on_system(USES, sys.executable, f"libbootswap.so.{major()}", path=path)
        self.assertEqual(("found\nabsent\nnot in the cache\n", NO_PANDOC.decode()), got)

    def test_without_pandoc_its_pages_are_left_out(self):
        """A line says so. The pages of the commands are there."""
        os.makedirs(f"{self.folder}/path")
        os.symlink(sys.executable, f"{self.folder}/path/python3")
        said = LEFT_OUT + NOT_SEARCHED.format(self.prefix).encode()
        environment = {**os.environ, "PATH": f"{self.folder}/path"}
        self.expect_tool("install", "--prefix", self.prefix, said=said, env=environment)
        found = {it for it in places_below(self.prefix) if it.startswith("share/man/")}
        self.assertEqual({it for it in PLACES - MADE_PAGES if it.startswith("share/man/")}, found)

    def test_libraries_may_have_another_folder(self):
        """Programs find them there by pkg-config too. They are removed from there."""
        words = ("--prefix", self.prefix, "--libdir", "lib/a/b", "--destdir", self.folder)
        self.expect_tool("install", *words, said=NO_PANDOC)
        top = f"{self.folder}{self.prefix}"
        self.assertTrue(os.path.exists(f"{top}/lib/a/b/libbootswap.so"))
        self.assertIn("libdir=${prefix}/lib/a/b", read(f"{top}/lib/a/b/pkgconfig/bootswap.pc").decode().splitlines())
        self.expect_tool("uninstall", *words)
        self.assertEqual(set(), places_below(top))

    def test_an_older_installation_is_replaced(self):
        self.install()
        old = f"{self.prefix}/share/bootswap/old"
        for path, text in ((old, "old\n"), (f"{self.prefix}/{LIST}", "share/bootswap/old\n")):
            write(path, text, "a")
        self.install()
        self.assertFalse(os.path.exists(old))
        self.assertTrue(os.path.exists(f"{self.prefix}/lib/libbootswap.so"))

    def test_what_is_not_built_and_wrong_arguments_are_refused(self):
        """Nothing is written."""
        for file, how in (("libbootswap.so", "bindings/build"), ("bootswap", "./bootswap codes")):
            os.remove(f"{self.clone}/out/{file}")
            said = f"install: out/{file} isn't built: run {how}\n".encode()
            self.expect_tool("install", "--prefix", self.prefix, status=1, said=said)
        for tool in ("install", "uninstall"):
            self.assertEqual(2, self.run_tool(tool, "--prefix", "usr")[0])
        self.assertFalse(os.path.exists(self.prefix))

    def test_a_folder_that_cannot_be_made_is_named(self):
        with open(self.prefix, "w", encoding="utf-8"):
            pass
        status, said = self.run_tool("install", "--prefix", self.prefix)
        self.assertEqual(1, status)
        self.assertIn(self.prefix.encode(), said)

    @unittest.skipUnless(all(map(shutil.which, ("man", "groff", "pandoc"))), "there is no man, groff or pandoc")
    def test_man_finds_the_pages(self):
        """All have the date of the release."""
        self.install()
        pages = {"bootswap-run": "BOOTSWAP-RUN(1)", "bootswap_simulate_boot": "LIBBOOTSWAP(3)"}
        days = set()
        for name, title in {**pages, "bootswap-formats": "BOOTSWAP-FORMATS(5)"}.items():
            words = ["man", "-M", f"{self.prefix}/share/man", name]
            lines = output_of(words, env={"PATH": "/usr/bin:/bin", "LC_ALL": "C.UTF-8"}).decode().splitlines()
            self.assertTrue(lines[0].startswith(title), lines[0])
            days.add(tuple(lines[-1].split()[:3]))
        self.assertEqual(1, len(days), days)

    @unittest.skipUnless(shutil.which("pkg-config"), "there is no pkg-config")
    def test_a_program_in_c_finds_the_shared_library_by_pkg_config(self):
        environment, program = self.install(), f"{self.folder}/life"
        flags = output_of(["pkg-config", "--cflags", "--libs", "bootswap"], env=environment).decode().split()
        output_of(["cc", f"{self.prefix}/share/doc/bootswap/examples/c/life.c", *flags, "-o", program])
        self.expect_life(program, env=environment)
        self.assertIn(f"[libbootswap.so.{major()}]".encode(), output_of(["readelf", "-d", program]))

    @unittest.skipUnless(shutil.which("cmake"), "there is no cmake")
    def test_a_program_in_c_finds_both_libraries_by_cmake(self):
        environment, source, made = self.install(), f"{self.folder}/source", f"{self.folder}/made"
        os.mkdir(source)
        shutil.copy(f"{self.prefix}/share/doc/bootswap/examples/c/life.c", source)
        write(f"{source}/CMakeLists.txt", CMAKE_LISTS.format(version=version()))
        for words in (["-S", source, "-B", made, f"-DCMAKE_PREFIX_PATH={self.prefix}"], ["--build", made]):
            output_of(["cmake", *words], env=environment)
        for name in ("life", "life_alone"):
            self.expect_life(f"{made}/{name}")

    def test_python_finds_the_module_and_that_the_library(self):
        self.install()
        (folder,) = {os.path.dirname(it) for it in places_below(self.prefix) if it.endswith("/bootswap.py")}
        program = fenced("bindings/README.md", "python")[0].replace("bindings/python", ".")
        environment = {name: it for name, it in os.environ.items() if name != "BOOTSWAP_LIBRARY"}
        environment["PYTHONPATH"] = f"{self.prefix}/{folder}"
        printed = output_of([sys.executable, "-c", program], cwd=self.folder, env=environment)
        self.assertEqual(b"take 0 1.1.0+0\n", printed)
