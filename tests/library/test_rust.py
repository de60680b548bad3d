"""The crate of bindings/rust: its tests, its lints and its documents, a device whose process is killed, and other
targets."""

import os
import re
import shutil
import unittest

from support import file_device
from support.compiled import C, needs_compiler, preloaded
from support.driven import INCLUDE
from support.files import EXAMPLES, ROOT, folder_for, read, write
from support.libraries import TARGET, archive_for, c_folder, fenced, output_of, ran, symbols
from support.processors import HERE

import empty_projects

CRATE = f"{ROOT}/bindings/rust"

# Targets without an operating system, and the prefix of the compiler that build.rs takes.
ARM_TARGETS = [f"thumbv{it}-none-eabi" for it in ("6m", "7m", "7em", "8m.base", "8m.main")]
ARM_TARGETS += [f"thumbv{it}-none-eabihf" for it in ("7em", "8m.main")]
BARE_TARGETS = {it: "arm-none-eabi-" for it in ARM_TARGETS}
BARE_TARGETS |= {f"riscv32{it}-unknown-none-elf": "riscv64-unknown-elf-" for it in ("imac", "imc")}

# What has build.rs compile by clang.
CLANG = {"CC": "clang", "AR": "llvm-ar"}

# The helpers of a C compiler that Rust's compiler_builtins has too.
HELPERS = "mem(cpy|move|set)|__aeabi_(u?idiv(mod)?|u?ldivmod|lmul|llsl|llsr|lasr|mem(cpy|move|set|clr)[48]?)"
HELPERS += "|__(ashl|ashr|lshr|mul|u?div|u?mod)[ds]i3|__c[lt]z[ds]i2"

needs_cargo = unittest.skipUnless(shutil.which("cargo") and shutil.which("rustc"), "there is no cargo")

# The traits of the crate embedded-storage 0.3, which can't be fetched by an offline cargo, and a flash that has them.
EMBEDDED_STORAGE = """
mod embedded_storage {
    pub mod nor_flash {
        pub trait ErrorType {
            type Error: core::fmt::Debug;
        }
        pub trait ReadNorFlash: ErrorType {
            const READ_SIZE: usize;
            fn read(&mut self, offset: u32, bytes: &mut [u8]) -> Result<(), Self::Error>;
            fn capacity(&self) -> usize;
        }
        pub trait NorFlash: ReadNorFlash {
            const WRITE_SIZE: usize;
            const ERASE_SIZE: usize;
            fn erase(&mut self, from: u32, to: u32) -> Result<(), Self::Error>;
            fn write(&mut self, offset: u32, bytes: &[u8]) -> Result<(), Self::Error>;
        }
    }
}

fn is_flash<F: bootswap::NorFlash>() {}

pub fn adapts<F: embedded_storage::nor_flash::NorFlash>() {
    is_flash::<Adapter<F>>()
}

fn main() {
    println!("it adapts");
}
"""


def copied(folder):
    """Copies the crate, and the library as one file of C, to the folders `crate` and `c` of a folder. Returns the
    environment in which an offline cargo builds the crate over them."""
    shutil.copytree(CRATE, f"{folder}/crate", ignore=shutil.ignore_patterns("target", "Cargo.lock"))
    c_folder(f"{folder}/c")
    environment = {**os.environ, "CARGO_TARGET_DIR": f"{folder}/target", "CARGO_NET_OFFLINE": "true"}
    return {**environment, "BOOTSWAP_C": f"{folder}/c", "RUSTDOCFLAGS": "-D warnings", "CARGO_TERM_COLOR": "never"}


@needs_compiler
@needs_cargo
class RustTest(unittest.TestCase):
    @classmethod
    def setUpClass(cls):
        cls.folder = folder_for(cls)
        cls.environment, cls.crate = copied(cls.folder), f"{cls.folder}/crate"

    def cargo(self, *words, cwd=None, **variables):
        """Runs cargo, which has to succeed, and returns what it prints."""
        return output_of(["cargo", *words], cwd=cwd or self.crate, env={**self.environment, **variables}).decode()

    def run_project(self, name, features, main, *words, **variables):
        """Makes an empty project that takes the crate, and returns what its program prints."""
        empty_projects.write_cargo(f"{self.folder}/{name}", self.crate, features, main)
        return self.cargo("run", "--quiet", "--", *words, cwd=f"{self.folder}/{name}", **variables)

    def test_its_own_tests_and_examples_pass_without_a_warning(self):
        output = self.cargo("test")
        passed = [int(it) for it in re.findall(r"test result: ok. (\d+) passed", output)]
        self.assertTrue(len(passed) >= 4 and sum(passed) >= 20, output)
        self.assertNotIn("warning", output)
        self.assertNotIn("warning", self.cargo("doc"))
        wanted = {"README.md", "build.rs", "src/lib.rs", "tests/header.rs", "examples/upgrade.rs"}
        self.assertEqual(set(), wanted - {*self.cargo("package", "--list", "--allow-dirty").split()})

    @unittest.skipUnless(shutil.which("cargo-clippy"), "there is no clippy")
    def test_clippy_has_no_warning(self):
        self.cargo("clippy", "--all-targets", "--", "-D", "warnings")

    @unittest.skipUnless(shutil.which("rustfmt"), "there is no rustfmt")
    def test_it_is_formatted(self):
        self.cargo("fmt", "--check")

    def test_an_empty_project_boots_a_device(self):
        """Also over the archive of `bindings/build`."""
        archives, image = f"{self.folder}/archives", f"{EXAMPLES}/images/{empty_projects.IMAGES[0]}"
        os.makedirs(archives)
        shutil.copy(archive_for(TARGET), f"{archives}/libbootswap.a")
        for name, features in (("one_file", ""), ("prebuilt", ', features = ["prebuilt"]')):
            printed = self.run_project(name, features, None, image, BOOTSWAP_LIB=archives)
            self.assertEqual(empty_projects.BOOTS, printed, name)

    def test_the_loader_and_the_application_of_the_example_upgrade_a_device(self):
        plays = (1, "true"), (2, "false"), (2, "false")
        wanted = "".join(f"vectors 512, version {number}, resets {resets}\n" for number, resets in plays)
        self.assertEqual(wanted, self.cargo("run", "--quiet", "--example", "upgrade"))

    def test_the_adapter_of_the_readme_takes_a_flash_of_embedded_storage(self):
        main = fenced("bindings/rust/README.md", "rust,ignore")[0] + EMBEDDED_STORAGE
        self.assertEqual("it adapts\n", self.run_project("adapter", "", main, RUSTFLAGS="-A dead_code"))

    def test_without_the_file_of_c_the_build_says_what_makes_it(self):
        environment = {**self.environment, "BOOTSWAP_C": f"{self.folder}/nowhere"}
        said = f"bootswap: there is no {self.folder}/nowhere/bootswap.c: `bindings/build --c` makes it"
        self.assertIn(said, ran(["cargo", "check"], cwd=self.crate, env=environment)[1].decode())

    def run_build(self, program, target, out, system, **variables):
        """Runs build.rs for a target, and returns what is wrong and what it printed."""
        os.mkdir(out)
        variables.update(OUT_DIR=out, TARGET=target, HOST=TARGET, OPT_LEVEL="s", CARGO_CFG_TARGET_OS=system)
        return ran([program], env={**self.environment, **variables, "CARGO_MANIFEST_DIR": self.crate})

    def test_it_is_built_for_processors_without_an_operating_system(self):
        """By gcc and by clang. The file of C calls functions of memory and helpers of arithmetic only. For another
        processor build.rs asks for a compiler."""
        program = f"{self.folder}/build"
        output_of(["rustc", "--edition=2021", f"{self.crate}/build.rs", "-o", program])
        for target, prefix in BARE_TARGETS.items():
            for name, archiver, variables in ((f"{prefix}gcc", f"{prefix}ar", {}), ("clang", "llvm-ar", CLANG)):
                with self.subTest(f"{target} by {name}"):
                    missing = [it for it in (name, archiver, f"{prefix}nm") if not shutil.which(it)]
                    if missing:
                        self.skipTest(f"not installed: {' and '.join(missing)}")
                    out = f"{self.folder}/{target}-{name}"
                    faults, output = self.run_build(program, target, out, "none", **variables)
                    self.assertEqual([], faults)
                    self.assertNotIn(b"warning", output)
                    called = [it[0] for it in symbols(f"{out}/libbootswap.a", f"{prefix}nm") if it[1] == "U"]
                    self.assertEqual([], [it for it in called if not re.fullmatch(HELPERS, it)])
        target = "sparc64-unknown-linux-gnu"
        said = f"bootswap: no C compiler is known for {target}: name one in CC_sparc64_unknown_linux_gnu\n".encode()
        self.assertIn(said, self.run_build(program, target, f"{self.folder}/{target}", "linux")[1])

    def test_its_errors_have_the_numbers_of_driver_h(self):
        driver, values = (read(f"{ROOT}/bindings/{it}").decode() for it in ("c/driver.h", "rust/src/values.rs"))
        names = {"Flash": "DRIVER_FAILED", "JournalTooSmall": "JOURNAL_TOO_SMALL"}
        arms = re.findall(r"^            Self::(\w+).* => (\d+),$", values, re.MULTILINE)
        wanted = dict(re.findall(r"^    BOOTSWAP_(\w+) = (\d+)", driver, re.MULTILINE))
        self.assertEqual(wanted, {names.get(name, name): number for name, number in arms})


@needs_compiler
@needs_cargo
class RustFileDeviceTest(file_device.FileDevice):
    """The example of a device over a file, whose process is killed: it prints what that in C prints."""

    most_kills = 300

    @classmethod
    def build(cls):
        cls.environment = copied(cls.folder)
        cls.build_example()
        HERE.compile(["-O1", "-c", f"{cls.folder}/c/bootswap.c", "-o", f"{cls.folder}/bootswap.o"])
        cls.program, cls.preloaded = f"{cls.folder}/target/release/examples/file_device", preloaded(cls, "power")

    @classmethod
    def build_example(cls):
        words = ["cargo", "build", "--quiet", "--release", "--example", "file_device"]
        output_of(words, cwd=f"{cls.folder}/crate", env=cls.environment)

    def test_it_makes_the_writes_of_the_device_in_c(self):
        """With the shortest journal, and with one that holds two steps of a swap. Both print the same and leave the
        same in an upgrade, a revert, and a confirmed upgrade."""
        one, needing, partner = file_device.ONE, file_device.NEEDING, file_device.PARTNER
        steps = [("provision", one, one), ("boot",), ("boot", "upload", needing, partner), ("boot",), ("boot",)]
        steps += [("boot", "upload", needing, partner), ("boot", "confirm"), ("boot",)]
        sources = {f"{self.folder}/file_device.c": f"{ROOT}/bindings/c/file_device.c"}
        sources[f"{self.folder}/crate/examples/file_device.rs"] = f"{CRATE}/examples/file_device.rs"
        in_c, in_rust = f"{self.folder}/device_in_c", self.program
        for more in (0, 600):
            for copy, source in sources.items():
                length = r"SETUP\.boot_journal_length\(\)|BOOTSWAP_JOURNAL_BOOT\(IMAGES, SECTOR\)"
                write(copy, re.sub(length, rf"\g<0> + {more}", read(source).decode(), count=1))
            self.build_example()
            files = [f"{ROOT}/bindings/c/driver.c", f"{C}/power.c", f"{self.folder}/bootswap.o"]
            HERE.compile(["-O1", *INCLUDE, f"{self.folder}/file_device.c", *files, "-o", in_c])
            for commands in steps:
                before = read(self.flash) if os.path.exists(self.flash) else b""
                wanted = self.step(in_c, before, commands)
                self.assertEqual(wanted, self.step(in_rust, before, commands), f"{more}: {commands}")
                self.assertEqual(0, wanted[0][0])

    def step(self, program, before, commands):
        """Runs commands on a flash of these bytes. Returns how that ends, the bytes then, and the number of writes of
        a boot that upgrades or reverts."""
        self.program = program
        self.put(before)
        ran_so, after = self.run_device(*commands), read(self.flash)
        is_swap = commands == ("boot",) and ran_so[1] in (file_device.TRIAL, file_device.BACK)
        count = self.writes(before, least=20) if is_swap else 0
        self.put(after)
        return ran_so, after, count
