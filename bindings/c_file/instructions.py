"""THE SUBSET: each instruction of WebAssembly that is translated, and how its bytes are read.

TABLE has them all, with the names of the specification. Every other instruction is refused. `form` names the method of
`emit.Writer` that writes the instruction, and `detail` is what that method has to know.
"""

from dataclasses import dataclass
from typing import Optional

from c_file.errors import NotTranslated
from c_file.wasm_object import CONSTANT_ADDRESS, FUNCTION, GLOBAL, LOAD_OFFSET, Reader, Relocation


@dataclass(frozen=True)
class Meaning:
    """An instruction of the subset. `operand` says what follows its opcode, `width` is that of its result."""

    name: str
    form: str
    operand: str = "none"
    width: int = 0
    detail: object = None


@dataclass(frozen=True)
class Access:
    """A load or a store: the number of bytes, and whether a load extends their sign."""

    size: int
    is_signed: bool = False


@dataclass(frozen=True)
class Instruction:
    """An instruction of a function. `at` is its place in the code section. `value` is its operand, `alignment` that of an
    access. A relocation says that the operand is an address of data or a function."""

    meaning: Meaning
    at: int
    value: object = None
    alignment: int = 1
    relocation: Optional[Relocation] = None


# The type of a block: none, i32 or i64.
BLOCK_RESULTS = {-64: None, -1: 32, -2: 64}

CONTROL = {
    0x00: Meaning("unreachable", "unreachable"),
    0x01: Meaning("nop", "nop"),
    0x02: Meaning("block", "block", "block"),
    0x03: Meaning("loop", "loop", "block"),
    0x04: Meaning("if", "if_", "block"),
    0x05: Meaning("else", "else_"),
    0x0B: Meaning("end", "end"),
    0x0C: Meaning("br", "br", "index"),
    0x0D: Meaning("br_if", "br_if", "index"),
    0x0E: Meaning("br_table", "br_table", "table"),
    0x0F: Meaning("return", "return_"),
    0x10: Meaning("call", "call", "function"),
    0x1A: Meaning("drop", "drop"),
    0x1B: Meaning("select", "select"),
    0x1C: Meaning("select t", "select", "types"),
    0x20: Meaning("local.get", "local_get", "index"),
    0x21: Meaning("local.set", "local_set", "index"),
    0x22: Meaning("local.tee", "local_tee", "index"),
    0x23: Meaning("global.get", "global_get", "global"),
    0x24: Meaning("global.set", "global_set", "global"),
    0xFC0A: Meaning("memory.copy", "memory_copy", "two zeros"),
    0xFC0B: Meaning("memory.fill", "memory_fill", "zero"),
}

MEMORY = {
    0x28: Meaning("i32.load", "load", "memory", 32, Access(4)),
    0x29: Meaning("i64.load", "load", "memory", 64, Access(8)),
    0x2C: Meaning("i32.load8_s", "load", "memory", 32, Access(1, True)),
    0x2D: Meaning("i32.load8_u", "load", "memory", 32, Access(1)),
    0x2E: Meaning("i32.load16_s", "load", "memory", 32, Access(2, True)),
    0x2F: Meaning("i32.load16_u", "load", "memory", 32, Access(2)),
    0x30: Meaning("i64.load8_s", "load", "memory", 64, Access(1, True)),
    0x31: Meaning("i64.load8_u", "load", "memory", 64, Access(1)),
    0x32: Meaning("i64.load16_s", "load", "memory", 64, Access(2, True)),
    0x33: Meaning("i64.load16_u", "load", "memory", 64, Access(2)),
    0x34: Meaning("i64.load32_s", "load", "memory", 64, Access(4, True)),
    0x35: Meaning("i64.load32_u", "load", "memory", 64, Access(4)),
    0x36: Meaning("i32.store", "store", "memory", 32, Access(4)),
    0x37: Meaning("i64.store", "store", "memory", 64, Access(8)),
    0x3A: Meaning("i32.store8", "store", "memory", 32, Access(1)),
    0x3B: Meaning("i32.store16", "store", "memory", 32, Access(2)),
    0x3C: Meaning("i64.store8", "store", "memory", 64, Access(1)),
    0x3D: Meaning("i64.store16", "store", "memory", 64, Access(2)),
    0x3E: Meaning("i64.store32", "store", "memory", 64, Access(4)),
}

# The operators of C for comparisons: the signed ones convert their operands.
COMPARED = ("==", "!=", "s<", "u<", "s>", "u>", "s<=", "u<=", "s>=", "u>=")
COMPARISON_NAMES = ("eq", "ne", "lt_s", "lt_u", "gt_s", "gt_u", "le_s", "le_u", "ge_s", "ge_u")

# Functions of one operand, and of two, in the order of their opcodes: name, form, detail.
COUNTS = (("clz", "count", "clz"), ("ctz", "count", "ctz"), ("popcnt", "count", "popcnt"))
BINARY = (
    ("add", "binary", "+"),
    ("sub", "binary", "-"),
    ("mul", "binary", "*"),
    ("div_s", "signed_division", "div_s"),
    ("div_u", "division", "/"),
    ("rem_s", "signed_division", "rem_s"),
    ("rem_u", "division", "%"),
    ("and", "binary", "&"),
    ("or", "binary", "|"),
    ("xor", "binary", "^"),
    ("shl", "shift", "<<"),
    ("shr_s", "shift", "s>>"),
    ("shr_u", "shift", ">>"),
    ("rotl", "rotate", "rotl"),
    ("rotr", "rotate", "rotr"),
)

CONVERSIONS = {
    0xA7: Meaning("i32.wrap_i64", "wrap", width=32),
    0xAC: Meaning("i64.extend_i32_s", "extend", width=64, detail=32),
    0xAD: Meaning("i64.extend_i32_u", "extend_unsigned", width=64),
    0xC0: Meaning("i32.extend8_s", "extend", width=32, detail=8),
    0xC1: Meaning("i32.extend16_s", "extend", width=32, detail=16),
    0xC2: Meaning("i64.extend8_s", "extend", width=64, detail=8),
    0xC3: Meaning("i64.extend16_s", "extend", width=64, detail=16),
    0xC4: Meaning("i64.extend32_s", "extend", width=64, detail=32),
}


def numeric():
    """Returns the constants, comparisons and arithmetic of both widths, by their opcodes."""
    made = {}
    for width, constant, test, arithmetic in ((32, 0x41, 0x45, 0x67), (64, 0x42, 0x50, 0x79)):
        kind = f"i{width}"
        made[constant] = Meaning(f"{kind}.const", "const", "constant", width)
        made[test] = Meaning(f"{kind}.eqz", "eqz", width=32)
        for i, (name, operator) in enumerate(zip(COMPARISON_NAMES, COMPARED)):
            made[test + 1 + i] = Meaning(f"{kind}.{name}", "compare", width=32, detail=operator)
        for i, (name, form, detail) in enumerate(COUNTS + BINARY):
            made[arithmetic + i] = Meaning(f"{kind}.{name}", form, width=width, detail=detail)
    return made


TABLE = {**CONTROL, **MEMORY, **numeric(), **CONVERSIONS}


class Decoder(Reader):
    """Reads the instructions of a function."""

    def __init__(self, made, function):
        super().__init__(made.data, *made.bodies[function - len(made.imports)])
        self.object, self.name, self.relocations = made, made.name_of(function), made.relocations.get("reloc.CODE", {})

    def place(self):
        return self.at - self.object.code_start

    def refuse(self, what, at):
        raise NotTranslated(f"{self.name}: {what} at {at} of the code isn't in the subset that is translated")

    def locals(self):
        """Reads the widths of the locals that aren't parameters."""
        rows = self.rows(lambda: (self.unsigned(), self.width()))
        return [width for count, width in rows for _ in range(count)]

    def instructions(self):
        """Reads the instructions. No relocation of the function may be left over."""
        first = self.place()
        found = []
        while self.at < self.end:
            found.append(self.instruction())
        used = sum(it.relocation is not None for it in found)
        if used != sum(first <= at < self.place() for at in self.relocations):
            raise NotTranslated(f"{self.name}: a relocation changes no operand of an instruction")
        return found

    def instruction(self):
        at, opcode = self.place(), self.byte()
        if opcode == 0xFC:
            opcode = 0xFC00 + self.unsigned()
        if opcode not in TABLE:
            self.refuse(f"the instruction of opcode {opcode:#x}", at)
        meaning = TABLE[opcode]
        return getattr(self, f"with_{meaning.operand.replace(' ', '_')}")(meaning, at)

    def relocated(self, *kinds):
        """Returns the relocation of the operand that is read next. One of another kind is refused."""
        found = self.relocations.get(self.place())
        if found is not None and found.kind not in kinds:
            self.refuse(f"a relocation of kind {found.kind}", self.place())
        return found

    def with_none(self, meaning, at):
        return Instruction(meaning, at)

    def with_block(self, meaning, at):
        kind = self.signed()
        if kind not in BLOCK_RESULTS:
            self.refuse(f"{meaning.name} of type {kind}", at)
        return Instruction(meaning, at, BLOCK_RESULTS[kind])

    def with_index(self, meaning, at):
        return Instruction(meaning, at, self.unsigned())

    def with_table(self, meaning, at):
        return Instruction(meaning, at, self.rows(self.unsigned) + [self.unsigned()])

    def with_types(self, meaning, at):
        self.rows(self.width)
        return Instruction(meaning, at)

    def with_function(self, meaning, at):
        """A call: its relocation names the function, and the number in the code has to be the same function."""
        relocation, index = self.relocated(FUNCTION), self.unsigned()
        if relocation is None or self.object.symbols[relocation.symbol].index != index:
            self.refuse("a call without the relocation of its function", at)
        return Instruction(meaning, at, index, relocation=relocation)

    def with_global(self, meaning, at):
        """The only global is the stack's pointer, see read_imports."""
        relocation, index = self.relocated(GLOBAL), self.unsigned()
        if relocation is None or index != 0:
            self.refuse(f"{meaning.name} {index}", at)
        return Instruction(meaning, at, index, relocation=relocation)

    def with_memory(self, meaning, at):
        alignment = 1 << self.unsigned()
        relocation, offset = self.relocated(LOAD_OFFSET), self.unsigned()
        return Instruction(meaning, at, offset, alignment, relocation)

    def with_constant(self, meaning, at):
        relocation, number = self.relocated(CONSTANT_ADDRESS), self.signed()
        if relocation is not None and meaning.width != 64:
            self.refuse("an address of 32 bits", at)
        return Instruction(meaning, at, number % 2**meaning.width, relocation=relocation)

    def with_zero(self, meaning, at):
        """The only memory is that of number 0."""
        if self.byte() != 0:
            self.refuse(f"{meaning.name} of another memory", at)
        return Instruction(meaning, at)

    def with_two_zeros(self, meaning, at):
        self.with_zero(meaning, at)
        return self.with_zero(meaning, at)
