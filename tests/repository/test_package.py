"""The packages that `tools/package` makes, and what tries and verifies them."""

import calendar
import gzip
import os
import re
import shutil
import subprocess
import sys
import time
import unittest

from support.built_clone import LIBRARIES, BuiltCloneTest, needs_layer, places_below
from support.compiled import needs_compiler
from support.files import EXAMPLES, ROOT, folder_for, read, write, write_script
from support.libraries import ARM_TARGET, archive_for, c_folder, manifest_archive_for, output_of

import empty_projects
from commits import write_commit
from installing import major, version

# What packages name as the commit of their sources, and the time of their files.
COMMIT = "0123456789abcdef0123456789abcdef01234567"
# The time of the packages: the day of the last release, as the one before it is in their changelog too.
DAY = re.search(r"^## \[\d.* - (.*)$", read(f"{ROOT}/CHANGELOG.md").decode(), re.MULTILINE)[1]
SECONDS = str(calendar.timegm(time.strptime(DAY, "%Y-%m-%d")))

# What the packed program prints as its version.
VERSION = f"bootswap {version()} ({COMMIT[:12]})\n"

DEBIAN = (
    *(f"{it}_{version()}-1_amd64.deb" for it in ("bootswap", "libbootswap-dev", "python3-bootswap")),
    f"bootswap-doc_{version()}-1_all.deb",
)
ARCHIVES = (
    f"bootswap-{version()}-x86_64-linux.tar.xz",
    f"libbootswap-{version()}-aarch64-linux.tar.xz",
    f"bootswap-{version()}-c.tar.xz",
)

# The crate for Rust, if there is a cargo.
CRATE = (f"bootswap-{version()}.crate",) * bool(shutil.which("cargo"))

# Some files of each package, the others being examples and documents.
FILES = {
    "bootswap": {
        *("bin/bootswap", f"lib/x86_64-linux-gnu/libbootswap.so.{major()}"),
        *("share/man/man1/bootswap-run.1.gz", "share/man/man5/bootswap-formats.5.gz"),
        "share/bash-completion/completions/bootswap",
    },
    "libbootswap-dev": {
        *("include/bootswap.h", "include/bootswap_manifest.h", "lib/x86_64-linux-gnu/libbootswap.a"),
        "lib/x86_64-linux-gnu/libbootswap_manifest.a",
        *("lib/x86_64-linux-gnu/libbootswap.so", "lib/x86_64-linux-gnu/pkgconfig/bootswap.pc"),
        "lib/x86_64-linux-gnu/cmake/bootswap/bootswap-config.cmake",
        *("share/man/man3/libbootswap.3.gz", "share/man/man3/bootswap_simulate_boot.3.gz"),
    },
    "python3-bootswap": {"lib/python3/dist-packages/bootswap.py"},
    "bootswap-doc": {"share/doc/bootswap/README.md", "share/doc/bootswap/docs/TUTORIAL.md"},
}

# What a user does with the packages on a system of its own, and what it prints. The folders of the toolchain aren't on
# the PATH.
USES = r"""
dpkg --install --force-bad-path out/packages/*.deb > /dev/null
cd /tmp
bootswap --version
examples=/usr/share/doc/bootswap/examples
bootswap provision $examples/devices/pair.json pair.flash $examples/images/one.img $examples/images/one.img
cc /usr/share/doc/libbootswap-dev/examples/c/life.c $(pkg-config --cflags --libs bootswap) -o life
./life $examples/images/one.img $examples/images/patched.img 5
/usr/bin/python3 -c 'import bootswap; print(bootswap.digest(b"").hex()[:8])'
dpkg --purge bootswap-doc python3-bootswap libbootswap-dev bootswap > /dev/null
find /usr -name '*bootswap*'
"""

PRINTED = f"""{VERSION}done
power failed in write 5
permanent
take 0 1.1.0+0
e3b0c442
"""

# A function in which a compiler has something to check, and what a hardened library has then.
COPIES = """
void copies(const char *from, size_t length, char *to) {
    char here[8];
    memcpy(here, from, length);
    memcpy(to, here, sizeof here);
}
"""
HARDENED = ("BIND_NOW", "GNU_RELRO", "__stack_chk_fail", "__memcpy_chk")
SHARE = """
import sys
sys.path.insert(0, "tools")
from installing import share
sys.exit(not share(sys.argv[2:], sys.argv[1]))
"""

# A folder with a clean Debian, as `tools/try_packages --root` makes it.
SYSTEM = os.environ.get("BOOTSWAP_DEBIAN_ROOT")

# What makes the packages for Debian.
TOOLS = ("dpkg-buildpackage", "dh", "dh_python3", "pandoc")


@needs_compiler
@unittest.skipUnless(all(map(shutil.which, TOOLS)), f"one of these is missing: {', '.join(TOOLS)}")
class PackedTest(BuiltCloneTest):
    """A test of packages of a clone with the built program and libraries."""

    @classmethod
    def setUpClass(cls):
        super().setUpClass()
        cls.arm = archive_for(ARM_TARGET), manifest_archive_for(ARM_TARGET)
        cls.c = folder_for(cls)
        c_folder(cls.c)

    def setUp(self):
        super().setUp()
        shutil.copytree(self.c, f"{self.clone}/out/c", ignore=shutil.ignore_patterns("packages"))
        os.mkdir(f"{self.clone}/out/{ARM_TARGET}")
        for archive, name in zip(self.arm, LIBRARIES):
            shutil.copy(archive, f"{self.clone}/out/{ARM_TARGET}/{name}")
        self.made = f"{self.clone}/out/packages"
        self.environment = {**os.environ, "SOURCE_COMMIT": COMMIT, "SOURCE_DATE_EPOCH": SECONDS}

    def packages(self):
        """Leaves the packages of the clone as each test finds it. They are made for the first test of a class that
        needs them."""
        if os.path.exists(f"{self.c}/packages"):
            shutil.copytree(f"{self.c}/packages", self.made)
        else:
            self.package()
            shutil.copytree(self.made, f"{self.c}/packages")

    def package(self):
        """Makes the packages."""
        said = "".join(f"out/packages/{it}\n" for it in (*DEBIAN, *ARCHIVES, *CRATE, "SHA256SUMS")).encode()
        left_out = f"package: bootswap-{version()}.crate is left out: there is no cargo\n".encode() * (not CRATE)
        self.expect_tool("package", said=said + left_out, env=self.environment)


class PackageTest(PackedTest):
    """What is in the packages, and that they can be used on this system."""

    def test_packages_have_the_same_bytes(self):
        """Whenever they are made, whoever made the files, and whichever commit with the same crates the program was
        built from."""
        self.package()
        first = {it: read(f"{self.made}/{it}") for it in os.listdir(self.made)}
        for at, _, names in os.walk(f"{self.clone}/examples"):
            for name in names:
                os.utime(f"{at}/{name}", (1, 1))
                os.chmod(f"{at}/{name}", 0o600 | os.stat(f"{at}/{name}").st_mode & 0o100)
        shutil.rmtree(self.made)
        write_commit(f"{self.clone}/out/bootswap", "f" * 40, differs=True)
        self.write_stamp()
        self.package()
        self.assertEqual([], [it for it in first if read(f"{self.made}/{it}") != first[it]])

    def test_a_package_has_its_files(self):
        """Root owns them, and no file is in two packages. It depends on the packages that it uses."""
        self.packages()
        output_of(["sha256sum", "--check", "--strict", "SHA256SUMS"], cwd=self.made)
        own = rf"bootswap \(= {re.escape(version())}-1\)"
        depends = (r"libc6 \(>= 2\.\d+\)", own, rf"{own}, python3:any \(>= 3\.9~\)", "")
        seen = {}
        for (name, wanted), file, needed in zip(FILES.items(), DEBIAN, depends):
            with self.subTest(name):
                output = output_of(["dpkg-deb", "--contents", f"{self.made}/{file}"]).decode()
                rows = [it.split() for it in output.splitlines()]
                files = {it[5].removeprefix("./usr/") for it in rows if it[0][0] in "-l"}
                self.assertEqual(set(), wanted - files)
                self.assertEqual({"root/root"}, {it[1] for it in rows})
                self.assertEqual(set(), {it for it in files if seen.setdefault(it, name) != name})
                output = output_of(["dpkg-deb", "--field", f"{self.made}/{file}", "Depends"]).decode()
                self.assertRegex(output, rf"\A{needed}\s*\Z")

    def test_documents_and_changes_are_where_a_reader_looks(self):
        """Each document that a manual page names is where the page says. A package has the changes of all versions,
        and its own changelog begins with this version."""
        self.packages()
        system, named = f"{self.folder}/system", set()
        for it in DEBIAN:
            output_of(["dpkg-deb", "--extract", f"{self.made}/{it}", system])
        for at, _, names in os.walk(f"{system}/usr/share/man"):
            for name in names:
                text = gzip.decompress(read(f"{at}/{name}")).decode()
                folder = re.search(r"/usr/share/doc/[\w/]+|$", text)[0]
                documents = {*re.findall(r"(?:docs/)?[A-Z]+\.md", text)}
                named |= documents
                self.assertEqual([], [it for it in documents if not os.path.exists(f"{system}{folder}/{it}")], name)
        self.assertEqual(set(), {"COMMANDS.md", "FLEETS.md", "docs/PORTING.md"} - named)
        for name in FILES:
            files = (f"{system}/usr/share/doc/{name}/changelog{it}.gz" for it in ("", ".Debian"))
            changes, own = (gzip.decompress(read(it)) for it in files)
            self.assertEqual(read(f"{ROOT}/CHANGELOG.md"), changes)
            self.assertTrue(own.decode().startswith(f"bootswap ({version()}-1) unstable; "), name)

    def test_an_archive_is_unpacked_to_one_folder(self):
        """The program runs there, or the library of a board is there."""
        self.packages()
        for name in ARCHIVES:
            output_of(["tar", "--extract", "--file", f"{self.made}/{name}"], cwd=self.folder)
        here, arm, c = (f"{self.folder}/{it.removesuffix('.tar.xz')}" for it in ARCHIVES)
        self.assertEqual(VERSION.encode(), output_of([f"{here}/bin/bootswap", "--version"]))
        self.assertEqual(read(self.arm[0]), read(f"{arm}/lib/libbootswap.a"))
        self.assertTrue(os.path.exists(f"{arm}/include/bootswap.h"))
        self.assertIn(f" {version()}, commit {COMMIT[:12]}: ", read(f"{c}/bootswap.c").decode().splitlines()[1])
        words = ["cc", "-std=c11", "-Wall", "-Wextra", "-Werror", "-c", f"{c}/bootswap.c", f"{c}/driver.c"]
        output_of(words, cwd=self.folder)

    def check_all(self, checks_of, archive):
        """On this system an archive passes what `tools/try_packages` checks on a clean one."""
        place = f"{self.folder}/projects"
        os.mkdir(place)
        for it in (f"{self.made}/{archive}", *(f"{EXAMPLES}/images/{it}" for it in empty_projects.IMAGES)):
            shutil.copy(it, place)
        environment = {name: it for name, it in os.environ.items() if name not in ("BOOTSWAP_C", "CARGO_TARGET_DIR")}
        for check in checks_of(place, version()):
            with self.subTest(check.name):
                output = output_of(["bash", "-c", check.command], cwd=place, env=environment)
                self.assertEqual(check.printed, output.decode())
        return place

    @unittest.skipUnless(shutil.which("cmake"), "there is no cmake")
    def test_projects_of_cmake_take_the_archive_of_the_file_of_c(self):
        """A Cortex-M's example is built in it. It has the digests of its files."""
        self.packages()
        top = f"{self.check_all(empty_projects.checks_of_c, ARCHIVES[2])}/{ARCHIVES[2].removesuffix('.tar.xz')}"
        listed = {it.split("  ", 1)[1] for it in read(f"{top}/SHA256SUMS").decode().splitlines()} | {"SHA256SUMS"}
        self.assertEqual(places_below(top), listed)
        commands = re.findall(r"^    ((?:make|cmake) .*run)$", read(f"{top}/README").decode(), re.MULTILINE)
        self.assertEqual(2, len(commands))
        for command in commands if shutil.which("arm-none-eabi-gcc") else []:
            # What it runs is an endless machine, which test_cortex_m_example.py runs.
            command = re.sub("( --target)? run$", "", command)
            output = output_of(["bash", "-c", command], cwd=f"{top}/examples/cortex_m").decode(errors="replace")
            self.assertNotRegex(output, "warning:|CMake Warning")

    @unittest.skipUnless(CRATE and shutil.which("rustc"), "there is no cargo")
    def test_a_project_of_cargo_takes_the_crate(self):
        """It has the file of C, and passes its own tests."""
        self.packages()
        top = f"{self.check_all(empty_projects.checks_of_crate, *CRATE)}/bootswap-{version()}"
        self.assertIn(f", commit {COMMIT[:12]}: ", read(f"{top}/c/bootswap.c").decode().splitlines()[1])
        self.assertEqual(read(f"{ROOT}/LICENSE"), read(f"{top}/LICENSE"))

    def test_the_shared_library_is_hardened(self):
        """What the C compiler makes checks the stack and the lengths of copies, and has no table of calls that can be
        written."""
        write(f"{self.clone}/bindings/c/manifest.c", COPIES, "a")
        library = f"{self.folder}/hardened.so"
        output_of([sys.executable, "-B", "-c", SHARE, library, *self.archives], cwd=self.clone)
        output = output_of(["readelf", "--wide", "--segments", "--dynamic", "--dyn-syms", library]).decode()
        self.assertEqual([], [it for it in HARDENED if it not in output])

    @unittest.skipUnless(shutil.which("lintian"), "there is no lintian")
    def test_lintian_has_nothing_to_say(self):
        self.packages()
        for name in DEBIAN:
            done = subprocess.run(["lintian", "--allow-root", f"{self.made}/{name}"], capture_output=True, text=True)
            self.assertEqual([], [it for it in done.stdout.splitlines() if it[:2] in ("E:", "W:")], name)

    @needs_layer
    def test_the_packages_are_enough_and_leave_nothing(self):
        """For the program, a C program and a Python program."""
        self.packages()
        printed, said = self.uses_on_system(USES)
        self.assertEqual(PRINTED, printed, said)

    def expect_refusal(self, said, **environment):
        self.expect_tool("package", status=1, said=f"package: {said}\n".encode(), env={**os.environ, **environment})

    def test_what_cannot_be_packed_is_refused(self):
        self.expect_refusal("commit the changes first, or name the commit of the sources in SOURCE_COMMIT")
        said = f"SOURCE_COMMIT isn't a complete commit: {COMMIT[:12]}"
        self.expect_refusal(said, SOURCE_COMMIT=COMMIT[:12], SOURCE_DATE_EPOCH=SECONDS)
        self.expect_refusal("there is no commit to take the time from: set SOURCE_DATE_EPOCH", SOURCE_COMMIT=COMMIT)
        both, library = {"SOURCE_COMMIT": COMMIT, "SOURCE_DATE_EPOCH": SECONDS}, f"{self.clone}/out/libbootswap.a"
        os.rename(library, f"{library}.kept")
        self.expect_refusal("out/libbootswap.a isn't built: run bindings/build", **both)
        os.rename(f"{library}.kept", library)
        # A program that wasn't built from the sources would name their commit.
        write(f"{self.clone}/crates.txt", "another: \nbootswap: another\n", "a")
        self.expect_refusal("out/bootswap isn't built from these sources: run ./bootswap codes", **both)

    def test_the_archive_of_what_is_not_built_is_left_out(self):
        """So is one that was made before."""
        self.packages()
        os.remove(f"{self.clone}/out/{ARM_TARGET}/libbootswap.a")
        os.remove(f"{self.clone}/out/c/bootswap.c")
        status, said = self.run_tool("package", env=self.environment)
        lines = [f"out/packages/{it}" for it in (*DEBIAN, ARCHIVES[0], "SHA256SUMS")]
        why = f"out/{ARM_TARGET}/libbootswap.a isn't built: run bindings/build --target {ARM_TARGET}"
        lines.append(f"package: {ARCHIVES[1]} is left out: {why}")
        why = "out/c/bootswap.c isn't built: run bindings/build --c"
        lines.append(f"package: {ARCHIVES[2]} is left out: {why}")
        lines.append(f"package: bootswap-{version()}.crate is left out: {why if CRATE else 'there is no cargo'}")
        self.assertEqual((0, sorted(lines)), (status, sorted(said.decode().splitlines())))
        checked = output_of(["sha256sum", "--check", "--strict", "SHA256SUMS"], cwd=self.made)
        self.assertEqual(len(DEBIAN) + 1, len(checked.splitlines()))
        self.assertEqual([], [it for it in (*ARCHIVES[1:], *CRATE) if os.path.exists(f"{self.made}/{it}")])

    def test_without_packages_nothing_is_tried(self):
        said = f"try_packages: out/packages/{DEBIAN[0]} isn't built: run tools/package\n".encode()
        self.expect_tool("try_packages", "--root", f"{self.folder}/system", status=1, said=said)
        self.assertFalse(os.path.exists(f"{self.folder}/system"))

    def test_verify_compares_an_archive_with_what_its_commit_makes(self):
        """It names the files that differ."""
        commit = self.commit_with_builders()
        for name in ("SOURCE_COMMIT", "SOURCE_DATE_EPOCH"):
            del self.environment[name]
        self.package()
        kept, top = f"{self.folder}/{ARCHIVES[0]}", ARCHIVES[0].removesuffix(".tar.xz")
        shutil.copy(f"{self.made}/{ARCHIVES[0]}", kept)
        status, said = self.run_tool("verify", kept, env=self.environment)
        self.assertEqual(0, status, said)
        self.assertTrue(said.startswith(f"{ARCHIVES[0]}: the same bytes as built from {commit}\n".encode()), said)
        output_of(["tar", "--extract", "--file", kept], cwd=self.folder)
        printed = output_of([f"{self.folder}/{top}/bin/bootswap", "--version"]).decode()
        self.assertEqual(f"bootswap {version()} ({commit[:12]})\n", printed)
        with open(f"{self.folder}/{top}/bin/bootswap", "ab") as it:
            it.write(b"!")
        output_of(["tar", "--create", "--xz", "--file", kept, top], cwd=self.folder)
        status, said = self.run_tool("verify", kept, env=self.environment)
        wanted = f"bin/bootswap\n{ARCHIVES[0]}: not the bytes that are built from {commit}\n".encode()
        self.assertEqual((1, True), (status, said.startswith(wanted)), said)

    def commit_with_builders(self):
        """Makes a repository of the clone, whose builders take what is built already, and returns its commit."""
        built = f"{self.folder}/built"
        shutil.copytree(f"{self.clone}/out", built)
        script = f"#!/bin/sh\nmkdir -p out && cp -r {built}/. out\n"
        for name, text in (("bootswap", script), ("bindings/build", script), (".gitignore", "out/\n__pycache__/\n")):
            write_script(f"{self.clone}/{name}", text)
        author = ["-c", "user.name=A", "-c", "user.email=a@example.org"]
        for words in (["init", "--quiet"], ["add", "--all"], [*author, "commit", "--quiet", "--message", "all"]):
            output_of(["git", "-C", self.clone, *words])
        return output_of(["git", "-C", self.clone, "rev-parse", "HEAD"]).decode().strip()


@unittest.skipUnless(os.getuid() == 0 and SYSTEM, "root has to name a clean Debian in BOOTSWAP_DEBIAN_ROOT")
class CleanSystemTest(PackedTest):
    """The packages on a system that has neither the clone nor the toolchain."""

    runs_once = True

    def test_they_are_installed_used_and_removed(self):
        """As the documents say, and nothing of them is left. Empty projects take the archives of makers of firmware.
        What was packed isn't skipped."""
        self.packages()
        status, said = self.run_tool("try_packages", "--root", SYSTEM)
        self.assertTrue(said.decode().endswith(f" 0 failed, {int(not CRATE)} skipped\n"), said.decode())
        self.assertEqual(0, status)
