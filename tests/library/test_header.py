"""That the headers, the crate for Rust, Python and the page have the same structs, calls and numbers.

Compilers say where C and Rust have each field, and `ctypes` where Python has it. That the library has the same structs
show the calls that fill and read each field: those of bindings/python/test_bootswap.py, and of test_c_file.py.
"""

import ctypes
import json
import re
import shutil
import subprocess
import tempfile
import unittest

from support.compiled import needs_compiler
from support.files import ROOT, read
from support.headers import declared
from support.libraries import output_of, python_module
from support.program import ProgramTest

# Names of Python that are others in C. `_SavedUpload` is only within another struct, and has no name there.
OTHER_NAMES, WITHIN = {"call_result": "result"}, "_SavedUpload"

# What is compared with the headers comes after this. A text is of bytes in Python.
START = """#include <stddef.h>
#include <stdint.h>
#define char uint8_t
#include <bootswap_manifest.h>
#include <bootswap_simulate.h>
"""

# The functions bootswap_.._name and their enums in Python.
KINDS = {"status": "Number", "fault": "Fault", "manifest_fault": "ManifestFault", "upload_fault": "UploadFault"}
KINDS |= {"check": "ImageFault", "reason": "Reason"}

# Bounds of the journal. The flash of a setup that has a map has fewer than 2^32 bytes, in sectors of 512 bytes or more.
JOURNAL_BOUNDS = {
    "PROVISION(8)": 144 + 8 * 24,
    "ACCEPT(2, 2 + 3)": 120 + 2 * 32 + 5 * 12,
    "ACCEPT((uint8_t)8, 8388607)": 120 + 8 * 32 + 8388607 * 12,
    "PIECE(1 << 20)": 31 + (1 << 20),
    "FINISH": 68,
    "WITHDRAW": 44,
    "CONFIRM": 20,
    "STEP(576)": 12 + 576 + 3 * 12 + 20,
    "STEP(1 << 17)": 12 + 131072 + 512 * 12 + 20,
    "BOOT(1, 512)": 12 + 512 + 2 * 12 + 20 + 2 * 120 + 92,
    "BOOT(8, 4096)": 12 + 4096 + 16 * 12 + 20 + 2 * 120 + 8 * 92,
}

# Compilers for words of 64 and of 32 bits.
COMPILERS = ("cc", "cc -m32", "aarch64-linux-gnu-gcc", "arm-none-eabi-gcc")
COMPILERS += ("riscv64-unknown-elf-gcc -march=rv32imac -mabi=ilp32",)

PYTHON = python_module()
ENUMS = {kind: getattr(PYTHON, name) for kind, name in KINDS.items()}
STRUCTS = [it for it in vars(PYTHON).values() if isinstance(it, type) and issubclass(it, ctypes.Structure)]


def in_words(name, between):
    """Returns a name of Python with a sign between its words, as NoMap."""
    return re.sub(r"(?<=[a-z])(?=[A-Z])", between, name).replace("_", between)


def struct_in_c(kind):
    name = in_words(kind.__name__.strip("_"), "_").lower()
    return f"bootswap_{OTHER_NAMES.get(name, name)}"


def type_in_c(kind):
    """Returns the name in C of a type of `ctypes`."""
    if hasattr(kind, "contents"):
        return f"{type_in_c(kind._type_)} *"
    return f"struct {struct_in_c(kind)}" if issubclass(kind, ctypes.Structure) else f"uint{8 * ctypes.sizeof(kind)}_t"


def numbers_in(kind, path=""):
    """Yields the numbers in a type of `ctypes`: the path, the offset and the size of each."""
    if issubclass(kind, ctypes.Array):
        parts = [(f"[{i}]", kind._type_, i * ctypes.sizeof(kind._type_)) for i in range(kind._length_)]
    elif issubclass(kind, ctypes.Structure):
        parts = [(f".{name}"[not path :], field, getattr(kind, name).offset) for name, field in kind._fields_]
    else:
        yield path, 0, ctypes.sizeof(kind)
        return
    for name, part, start in parts:
        yield from ((inner, start + at, size) for inner, at, size in numbers_in(part, f"{path}{name}"))


def facts_of_structs():
    """Yields what C has to say of structs: the size of each, and the place and the type of each number in it. These
    fill it, so C has no other field."""
    for kind in STRUCTS:
        rows, of = [*numbers_in(kind)], f"struct {struct_in_c(kind)}"
        if kind.__name__ != WITHIN:
            yield f"sizeof({of}) == {sum(size for _, _, size in rows)}"
            for path, at, size in rows:
                type_is = f"_Generic((({of} *)0)->{path}, uint{8 * size}_t: 1, default: 0)"
                yield f"offsetof({of}, {path}) == {at} && {type_is}"


def page_table(name):
    """Returns a table of web/library.js."""
    text = read(f"{ROOT}/web/library.js").decode()
    body = re.search(rf"^(?:export )?const {name} = ([{{\[].*?[}}\]]);$", text, re.MULTILINE | re.DOTALL)[1]
    return json.loads(re.sub(r",(\s*[}\]])", r"\1", re.sub(r"(\w+):(?= )", r'"\1":', body)))


@needs_compiler
class HeaderTest(ProgramTest):
    runs_once = True

    def errors(self, text, compiler="cc"):
        """Returns what a C compiler says of a text."""
        flags = ["-std=c11", "-ffreestanding", "-fsyntax-only", "-I", f"{ROOT}/include"]
        words = [*compiler.split(), *flags, "-x", "c", "-"]
        return subprocess.run(words, input=f"{text}\n", capture_output=True, text=True).stderr

    def expect(self, facts, compiler="cc"):
        """Facts hold in C."""
        self.assertEqual("", self.errors(START + "\n".join(f'_Static_assert({it}, "{it}");' for it in facts), compiler))

    def test_each_processor_has_the_structs_and_the_bounds_of_the_journal(self):
        self.assertEqual({*declared("struct")}, {struct_in_c(it) for it in STRUCTS if it.__name__ != WITHIN})
        bounds = {f"BOOTSWAP_JOURNAL_{it}": wanted for it, wanted in JOURNAL_BOUNDS.items()}
        facts = [f"{it} == {wanted}u && sizeof {it} == sizeof(size_t)" for it, wanted in bounds.items()]
        for compiler in COMPILERS:
            with self.subTest(compiler):
                if not shutil.which(compiler.split()[0]) or self.errors("", compiler):
                    self.skipTest("not installed")
                self.expect([*facts_of_structs(), *facts], compiler)

    @unittest.skipUnless(shutil.which("rustc"), "there is no rustc")
    def test_the_crate_has_the_structs(self):
        """But for the cuts of a simulation, and for what reads a manifest's text."""
        kinds = [it for it in STRUCTS if it.__name__ not in ("_Cut", "_Identity")]
        lines, wanted = [f'#[path = "{ROOT}/bindings/rust/src/sys.rs"] mod sys;', "fn main() {"], []
        for kind in kinds:
            name = kind.__name__.strip("_")
            lines.append(f"let it = std::mem::MaybeUninit::<sys::{name}>::uninit(); let it = it.as_ptr();")
            lines.append(f'println!("{name} {{}}", std::mem::size_of::<sys::{name}>());')
            wanted.append(f"{name} {ctypes.sizeof(kind)}")
            for field, of in kind._fields_:
                place = f"unsafe {{ std::ptr::addr_of!((*it).{field}) }}"
                lines.append(f'println!("{name}.{field} {{}}", {place} as usize - it as usize);')
                wanted.append(f"{name}.{field} {getattr(kind, field).offset}")
        with tempfile.TemporaryDirectory() as folder:
            words = ["rustc", "--edition=2021", "-A", "warnings", "-", "-o", f"{folder}/structs"]
            subprocess.run(words, input="\n".join([*lines, "}"]), text=True, check=True)
            self.assertEqual(wanted, output_of([f"{folder}/structs"]).decode().splitlines())

    def test_calls_of_python_are_declared_so(self):
        calls = {name: getattr(PYTHON._LIBRARY, name) for name in declared("call") if not name.endswith("_name")}
        lines = []
        for name, it in calls.items():
            result = type_in_c(it.restype) if it.restype else "void"
            lines.append(f"{result} {name}({', '.join(map(type_in_c, it.argtypes))});")
        self.assertEqual("", self.errors("\n".join(["#define const", START, *lines])))

    def test_numbers_and_limits_of_python_are_those_of_the_header(self):
        for enum in [*ENUMS.values()][:4]:
            names = {it: in_words(it.name, "_").upper() for it in enum}
            if enum is PYTHON.Fault:
                names[enum.InvalidSet] = "RUNNING_INVALID"
            self.expect(f"BOOTSWAP_{name} == {it.value}" for it, name in names.items())
        limits = {"IMAGES": PYTHON.MOST_IMAGES, "CUTS": PYTHON.MOST_CUTS}
        limits |= {"TABLE_LENGTH": PYTHON.TABLE_ROOM, "REPORT_LENGTH": PYTHON.REPORT_ROOM}
        self.expect(f"BOOTSWAP_MAX_{name} == {limit}" for name, limit in limits.items())

    def test_names_are_those_of_python_and_the_program(self):
        """bootswap_names.h has the names that `codes` lists."""
        lines = [f'printf("{it} %u %s\\n", n, bootswap_{it}_name(n));' for it in KINDS]
        start = ["#include <stdio.h>", "#include <bootswap_names.h>", "int main(void) {"]
        text = "\n".join([*start, "for (uint32_t n = 0; n < 64; n++) {", *lines, "}}", ""])
        with tempfile.TemporaryDirectory() as folder:
            words = ["cc", "-std=c11", "-Wall", "-Wextra", "-Werror", "-I", f"{ROOT}/include", "-x", "c", "-"]
            subprocess.run([*words, "-o", f"{folder}/names"], input=text, text=True, check=True)
            rows = [it.split() for it in output_of([f"{folder}/names"]).decode().splitlines()]
        codes = self.run_program(["codes"])[1].decode()
        for kind, enum in ENUMS.items():
            with self.subTest(kind):
                found = {int(number): name for of, number, name in rows if of == kind and name != "unknown"}
                names = {it.value: it.name for it in enum}
                if kind in ("status", "reason"):
                    names = {number: in_words(name, "-").lower() for number, name in names.items()}
                else:
                    listed = re.findall(r"^ +(\d+) (\w+) ", codes, re.MULTILINE)
                    self.assertEqual(set(), {(str(number), name) for number, name in found.items()} - {*listed})
                self.assertEqual(names, found)

    def test_the_page_has_the_structs_and_the_numbers(self):
        facts = [f"sizeof(struct bootswap_{name}) == {size}" for name, size in page_table("SIZES").items()]
        for name, offsets in page_table("OFFSETS").items():
            facts += [f"offsetof(struct bootswap_{name}, {field}) == {at}" for field, at in offsets.items()]
        capacity = page_table("CAPACITY")
        facts += [f"BOOTSWAP_MAX_{it.upper()}_LENGTH == {capacity[it]}" for it in ("table", "report")]
        self.expect(facts)
        names = [in_words(it.name, "-").lower() for it in PYTHON.Number if it < 16]
        self.assertEqual(names, page_table("NUMBERS"))
        for table, enum in (("FAULTS", PYTHON.Fault), ("UPLOAD_FAULTS", PYTHON.UploadFault)):
            shown = {it.value for it in enum} - ({PYTHON.Fault.Upload} if table == "FAULTS" else set())
            self.assertEqual(shown, {*map(int, page_table(table))})
