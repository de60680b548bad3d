"""The translation of WebAssembly to C, instruction by instruction.

Each instruction of the subset is translated, compiled, and compared with the same function in `node`:
support/instruction_cases.py and support/control_cases.py have the cases. What has no translation is refused.
"""

import shutil
import unittest

from support import translated
from support.compiled import needs_compiler
from support.files import folder_for, read
from support.instruction_cases import DATA
from support.libraries import output_of, ran
from support.wasm import Assembler, Data, Function, text, unsigned

from c_file.archive import only_member
from c_file.errors import NotTranslated
from c_file.instructions import TABLE, Decoder
from c_file.translate import translated as translation
from c_file.wasm_object import read_object

STRICT = ["-std=c11", "-Wall", "-Wextra", "-Werror"]

# Programs that are tested: the compiler and its arguments, and what runs them. One is for words of 32 bits.
BUILDS = {
    "gcc -O0": (["cc", "-O0"], []),
    "gcc -O1, and no undefined behaviour": (["cc", "-O1", "-fsanitize=undefined", "-fno-sanitize-recover"], []),
    "clang -O1": (["clang", "-O1"], []),
    "32-bit ARM, -O1": (["arm-linux-gnueabihf-gcc", "-static", "-O1"], ["qemu-arm"]),
}


@needs_compiler
@unittest.skipUnless(shutil.which("node"), "there is no `node`")
class CasesTest(unittest.TestCase):
    @classmethod
    def setUpClass(cls):
        cls.folder = folder_for(cls)
        cls.cases = translated.all_cases()
        translated.write_sources(cls.cases, cls.folder)
        cls.expected = translated.expected(cls.cases, cls.folder)

    def test_each_case_returns_what_node_returns(self):
        program, files = f"{self.folder}/program", [f"{self.folder}/{it}.c" for it in ("cases", "main")]
        for name, (words, runner) in BUILDS.items():
            with self.subTest(name):
                missing = [it for it in (words[0], *runner) if not shutil.which(it)]
                if missing:
                    self.skipTest(f"not installed: {' and '.join(missing)}")
                output_of([*words, *STRICT, *files, "-o", program])
                self.assertEqual([], translated.faults_of([*runner, program], self.cases, self.expected))

    def test_each_instruction_is_in_a_case(self):
        made, seen = read_object(translated.assembler_of(self.cases).object()), set()
        for function in range(len(made.functions)):
            decoder = Decoder(made, function)
            decoder.locals()
            seen.update(it.meaning.name for it in decoder.instructions())
        self.assertEqual({"select t"}, {it.name for it in TABLE.values()} - seen)

    def test_data_has_the_alignment_of_its_segment(self):
        written = read(f"{self.folder}/cases.c").decode()
        for i, it in enumerate(DATA):
            self.assertIn(f"struct BOOTSWAP_ALIGNED({it.alignment}) data_{i} {{", written)

    def test_an_object_is_always_translated_to_the_same_text(self):
        made, header = translated.assembler_of(self.cases).object(), translated.header_of(self.cases)
        first, second = (translation(made, [("cases.h", header)], ["Twice."]) for _ in range(2))
        self.assertEqual(first, second)

    def test_a_compiler_for_a_big_endian_processor_is_refused(self):
        words = ["-D__BYTE_ORDER__=__ORDER_BIG_ENDIAN__", "-Wno-builtin-macro-redefined", "-fsyntax-only"]
        self.assertIn("little-endian", str(ran(["cc", *words, f"{self.folder}/cases.c"])[0]))


# What is refused: the body of a function of one i64 with an i64 local, or other parts of an object, and a part of the
# error.
BODIES = {
    "i32.const 0; f32.add": "opcode 0x92",
    "bytes 4300000000": "opcode 0x43",
    "i64.const 1; memory.grow": "opcode 0x40",
    "memory.size": "opcode 0x3f",
    "i32.const 0; bytes 110000": "opcode 0x11",
    "bytes d200": "opcode 0xd2",
    "bytes fc00": "opcode 0xfc00",
    "bytes fc0a0100": "memory.copy of another memory",
    "bytes 0200; end": "block of type 0",
    "bytes 027b; end": "block of type -5",
    "bytes 1000": "a call without the relocation",
    "bytes 2300": "global.get 0",
    "global.get; i64.const 24; i64.sub; global.set": "an unusual prologue",
    "global.get; local.get 0; i64.sub; global.set": "the ends of the frame",
    "local.get 0; global.set": "the ends of the frame",
    "global.get; i64.const -16; i64.and; local.tee 1; global.set": "the ends of the frame",
    "global.get; i64.const 32; i64.sub; global.set; global.get; i64.const 48; i64.sub; global.set":
        "an unusual prologue",
    "global.get; i64.const 32; i64.sub; i64.const 0x7fffffff; i64.add; i64.const 64; i64.add; drop":
        "an address 2147483679 bytes",
    "global.get; i64.const 70000; i64.lt_s; drop": "a comparison of the frame with 70000",
    "global.get; local.tee 1; i64.load 8 0; drop": "a function that has no frame",
    "global.get; i64.const 32; i64.sub; local.tee 1; local.get 0; i64.or; drop": "`|` of an address",
    "global.get; i64.const 32; i64.sub; local.tee 1; i64.const 40; i64.xor; drop": "`^` of an address",
    "global.get; i64.const 32; i64.sub; local.tee 1; i64.const 24; i64.or; drop": "`|` of an address",
    "global.get; i64.const 32; i64.sub; local.set 1; i64.const 0; local.get 1; i64.sub; local.get 1; i64.add; drop":
        "the distance of two addresses",
    "local.get 0; br 7": "more blocks than there are",
    "i64.add": "without its operands",
    "i32.const 5; i32.load 4 0; drop": "an address of 32 bits",
    "block": "has no end",
    "end; nop": "goes on",
}


# An address 8 bytes before a frame of 32 bytes, and what uses it in a way that is refused.
OUTSIDE = "global.get; i64.const 32; i64.sub; local.tee 1; i64.const -8; i64.add"
USES_OUTSIDE = {
    "i64.load 8 0; drop": "an access of 8 bytes, -40 bytes from the end of a frame of 32 bytes",
    "i32.load16_u 1 7; drop": "an access of 2 bytes, -33 bytes",
    "i64.load 8 32; drop": None,
    "i64.load 8 33; drop": "an access of 8 bytes, -7 bytes",
    "i64.load32_u 4 36; drop": None,
    "i64.load32_u 4 37; drop": "an access of 4 bytes, -3 bytes",
    "i64.const 0; i64.store 8 0": "an access of 8 bytes, -40 bytes",
    "i32.const 0; i64.const 3; memory.fill": "an access of 3 bytes, -40 bytes",
    "local.get 1; i64.const 8; memory.copy": "an access of 8 bytes, -40 bytes",
    "local.get 0; i64.const 1; memory.copy": "an access of 1 bytes, -40 bytes",
    "local.tee 1; local.get 0; i64.eq; drop": "more than 32 bits",
    "local.get 1; i64.lt_u; drop": "more than 32 bits",
    "i64.eqz; drop": "more than 32 bits",
    "i64.const 3; i64.shr_u; drop": "more than 32 bits",
    "i64.const 3; i64.div_u; drop": "more than 32 bits",
    "i64.clz; drop": "more than 32 bits",
    "i32.wrap_i64; drop": "more than 32 bits",
    "local.get 1; i32.const 1; select; drop": "more than 32 bits",
    "call bootswap_0": "more than 32 bits",
    "local.set 1; local.get 0; local.get 1; i64.store 8 0": "more than 32 bits",
    "local.set 1; local.get 1; local.get 0; i64.add; local.set 1; local.get 0; local.get 1; i64.store 8 0":
        "more than 32 bits",
    "i64.const 3; i64.mul; drop": "`*` of an address outside",
    "i64.const 16; i64.and; drop": "`&` of an address outside",
    "i64.const 4; i64.or; drop": "`|` of an address outside",
    "local.get 1; i64.sub; drop": "`-` of an address outside",
    "local.set 1; i64.const 5; local.get 1; i64.sub; drop": "`-` of an address outside",
    "global.set": "the ends of the frame",
}


# The declaration of a function of one i64, and functions that are refused for other reasons than their instructions.
HEADER = "void bootswap_0(uint64_t a);\n"
IDLE = Function("bootswap_0", [64], None, "nop", [64])
USED = Function("bootswap_0", [64], None, "i64.const @it; i64.load 8 0; drop")
NUMBERS = [Data("it", bytes(16))]
PLACE = [*NUMBERS, Data("place", bytes(8), {0: ("it", 0)})]

# What is in an archive before the bytes of a member.
MEMBER = b"a.o/".ljust(48) + b"3".ljust(10) + b"`\n"


def of(body, result=None):
    return Function("bootswap_0", [64], result, body, [64])


class RefusedTest(unittest.TestCase):
    """What isn't understood is refused, with an error that names it."""

    def translate(self, function, header=HEADER, data=(), imports=None, kinds=None, **parts):
        made = Assembler([function], data, imports, kinds).object(**parts)
        return translation(made, [("cases.h", header)], [])

    def refused(self, wanted, function=IDLE, **parts):
        """An object with a function is refused for this reason."""
        with self.subTest(f"{wanted} of {function.body}, {parts}"), self.assertRaises(NotTranslated) as caught:
            self.translate(function, **parts)
        self.assertIn(wanted, str(caught.exception))

    def test_instructions(self):
        for body, wanted in BODIES.items():
            self.refused(wanted, of(body))
        self.refused("bootswap_0", of("i32.const 0; f32.add"))

    def test_places_outside_of_a_frame(self):
        for use, wanted in USES_OUTSIDE.items():
            if wanted:
                self.refused(wanted, of(f"{OUTSIDE}; {use}"))
            else:
                self.translate(of(f"{OUTSIDE}; {use}"))
        self.refused("more than 32 bits", of(OUTSIDE, 64), header="uint64_t bootswap_0(uint64_t a);\n")
        for number, is_taken in ((-1, False), (0, True), (16, True), (17, False)):
            function = of(f"i64.const @it+{number}; local.get 0; i64.eq; drop")
            if is_taken:
                self.translate(function, data=NUMBERS)
            else:
                self.refused("more than 32 bits", function, data=NUMBERS)

    def test_imports(self):
        for more in (b"\x01\x70\0\x01", b"\x03\x7f\0"):
            self.refused("the import env.other", extra_imports=text("env") + text("other") + more, extra_import_count=1)
        self.refused("the imported function other", of("call other"), imports={"other": None})
        self.refused("32-bit addresses", extra_imports=text("env") + text("m") + b"\x02\0\x01", extra_import_count=1)

    def test_sections(self):
        for kind in (4, 5, 6, 8, 9, 13):
            self.refused(f"section {kind}", extra_section=bytes([kind]) + unsigned(1) + b"\0")

    def test_relocations(self):
        access = of("i64.const 0; i64.load 8 @it; drop")
        for kind in ("constant", "access", "data"):
            for number in (1, 2, 4, 11, 18, 26):
                self.refused("relocation", access if kind == "access" else USED, data=PLACE, kinds={kind: number})
        self.refused("a relocation of kind 0", USED, data=NUMBERS, kinds={"constant": 0})

    def test_data(self):
        self.refused("it isn't constant", USED, data=[Data("it", bytes(8), section=".data")])
        self.refused("outside of the data", USED, data=[Data("it", bytes(8), {0: ("it", 9)})])

    def test_headers(self):
        for header, wanted in (
            (f"{HEADER}void bootswap_1(void);\n", "bootswap_1"),
            ("", "bootswap_0"),
            ("void bootswap_0(uint32_t a);\n", "other types"),
            ("void bootswap_0(float a);\n", "`float a`"),
        ):
            self.refused(wanted, header=header)

    def test_files(self):
        self.assertEqual(b"abc", only_member(b"!<arch>\n" + MEMBER + b"abc\n"))
        for contents in (b"x", b"!<arch>\n", b"!<arch>\nc_interface.o/", b"!<arch>\n" + 2 * (MEMBER + b"abc\n")):
            with self.subTest(contents), self.assertRaises(NotTranslated):
                only_member(contents)
        for contents in (b"\x7fELF", b"\0asm\1\0\0\0\1\x85"):
            with self.subTest(contents), self.assertRaises(NotTranslated):
                translation(contents, [], [])
