"""A tiny assembler of WebAssembly with 64-bit addresses, for the tests of bindings/c_file.

It has the opcodes of the specification's index of instructions on its own: what it shares with the translator wouldn't
be tested. It makes a relocatable object, and a module with the same functions that `node` runs.

    Function("twice", [64], 64, "local.get 0; local.get 0; i64.add")

A body is a text of instructions. A block may be followed by the width of its result, and a load or store has two
numbers: its alignment in bytes and its offset. `@name+8` in the place of a number is an address of data: 8 bytes after
that of the symbol.
"""

from dataclasses import dataclass, field

TYPES = {32: 0x7F, 64: 0x7E}
NO_RESULT = 0x40

PLAIN = {"unreachable": 0, "nop": 1, "else": 5, "end": 0x0B, "return": 0x0F, "drop": 0x1A, "select": 0x1B}
BLOCKS = {"block": 2, "loop": 3, "if": 4}
INDEXED = {"br": 0x0C, "br_if": 0x0D, "local.get": 0x20, "local.set": 0x21, "local.tee": 0x22}
CONSTANTS = {"i32.const": 0x41, "i64.const": 0x42}
RAW = {"memory.copy": b"\xfc\x0a\0\0", "memory.fill": b"\xfc\x0b\0", "memory.grow": b"\x40\0", "memory.size": b"\x3f\0"}

ACCESSES = """i32.load i64.load f32.load f64.load i32.load8_s i32.load8_u i32.load16_s i32.load16_u i64.load8_s
i64.load8_u i64.load16_s i64.load16_u i64.load32_s i64.load32_u i32.store i64.store f32.store f64.store i32.store8
i32.store16 i64.store8 i64.store16 i64.store32"""
ACCESSES = {name: 0x28 + i for i, name in enumerate(ACCESSES.split())}

COMPARISONS = "eqz eq ne lt_s lt_u gt_s gt_u le_s le_u ge_s ge_u".split()
ARITHMETIC = "clz ctz popcnt add sub mul div_s div_u rem_s rem_u and or xor shl shr_s shr_u rotl rotr".split()
for width, compares, computes in ((32, 0x45, 0x67), (64, 0x50, 0x79)):
    PLAIN.update({f"i{width}.{name}": compares + i for i, name in enumerate(COMPARISONS)})
    PLAIN.update({f"i{width}.{name}": computes + i for i, name in enumerate(ARITHMETIC)})
PLAIN.update({"i32.wrap_i64": 0xA7, "i64.extend_i32_s": 0xAC, "i64.extend_i32_u": 0xAD, "f32.add": 0x92})
EXTENSIONS = ("i32.extend8_s", "i32.extend16_s", "i64.extend8_s", "i64.extend16_s", "i64.extend32_s")
PLAIN.update({name: 0xC0 + i for i, name in enumerate(EXTENSIONS)})

# Where a module has its data, and the end of its stack, which grows towards address 0.
DATA, STACK_END = 1 << 17, 1 << 17


@dataclass
class Function:
    """A function: the widths of its parameters, of its result if it has one, and of its locals, and its
    instructions."""

    name: str
    params: list
    result: object
    body: str
    locals: list = field(default_factory=list)
    is_exported: bool = True


@dataclass
class Data:
    """Bytes of data. `addresses` are the places of addresses: for each the name of other data, and a number that is
    added. The symbol of the data is `at` bytes after its start."""

    name: str
    contents: bytes
    addresses: dict = field(default_factory=dict)
    alignment: int = 8
    section: str = ".rodata"
    at: int = 0


def leb128(number, is_end, length):
    """Returns a number as LEB128, of this length if one is given. `is_end` takes the rest, and the sign of the last
    byte."""
    out = bytearray()
    while True:
        out.append(number & 0x7F | 0x80)
        number >>= 7
        if is_end(number, out[-1] & 0x40) and length in (None, len(out)):
            out[-1] &= 0x7F
            return bytes(out)


def unsigned(number, length=None):
    return leb128(number, lambda rest, sign: rest == 0, length)


def signed(number, length=None):
    return leb128(number, lambda rest, sign: rest == (-1 if sign else 0), length)


def text(name):
    return unsigned(len(name.encode())) + name.encode()


def rows(items):
    return unsigned(len(items)) + b"".join(items)


def section(kind, contents):
    return bytes([kind]) + unsigned(len(contents)) + contents


def as_signed(number, width):
    number %= 1 << width
    return number - (1 << width) if number >> width - 1 else number


class Assembler:
    """The functions and data of an object or a module. `imports` are names of imported functions without parameters,
    and the widths of their results."""

    def __init__(self, functions, data=(), imports=None, relocation_kinds=None):
        self.functions, self.data, self.imports = functions, list(data), list((imports or {}).items())
        self.indices = {name: i for i, (name, _) in enumerate(self.imports)}
        self.indices.update({it.name: len(self.imports) + i for i, it in enumerate(functions)})
        self.kinds = {"call": 0, "global": 7, "access": 14, "constant": 15, "data": 16, **(relocation_kinds or {})}
        self.places, at = {}, DATA
        for it in self.data:
            at = -(-at // 16) * 16
            self.places[it.name] = at
            at += len(it.contents)

    # Symbols of an object: the functions, the data, and the stack's pointer.

    def symbol_of(self, name):
        names = [*self.indices, *(it.name for it in self.data), "__stack_pointer"]
        return names.index(name)

    def address_of(self, name):
        return self.places[name] + next(it.at for it in self.data if it.name == name)

    def body(self, function):
        """Returns the bytes of a function, and its relocations: for each the place in the bytes, its kind, symbol and
        addend."""
        out, found = bytearray(rows([unsigned(1) + bytes([TYPES[it]]) for it in function.locals])), []
        for words in (it.split() for it in function.body.replace("\n", ";").split(";") if it.strip()):
            self.instruction(out, found, words)
        out.append(0x0B)
        return bytes(out), found

    def instruction(self, out, found, words):
        name, *rest = words
        if name in PLAIN:
            out.append(PLAIN[name])
        elif name in RAW:
            out += RAW[name]
        elif name == "bytes":
            out += bytes.fromhex("".join(rest))
        elif name in BLOCKS:
            out += bytes([BLOCKS[name], TYPES[int(rest[0])] if rest else NO_RESULT])
        elif name in INDEXED:
            out += bytes([INDEXED[name]]) + unsigned(int(rest[0]))
        elif name == "br_table":
            out += b"\x0e" + rows([unsigned(int(it)) for it in rest[:-1]]) + unsigned(int(rest[-1]))
        elif name == "call":
            out.append(0x10)
            found.append((len(out), self.kinds["call"], self.symbol_of(rest[0]), 0))
            out += unsigned(self.indices[rest[0]], 5)
        elif name in ("global.get", "global.set"):
            out.append(0x23 + (name == "global.set"))
            found.append((len(out), self.kinds["global"], self.symbol_of("__stack_pointer"), 0))
            out += unsigned(0, 5)
        elif name in CONSTANTS:
            out.append(CONSTANTS[name])
            out += self.number(found, len(out), rest[0], "constant", signed, int(name[1:3]))
        else:
            out += bytes([ACCESSES[name]]) + unsigned(int(rest[0]).bit_length() - 1)
            out += self.number(found, len(out), rest[1], "access", unsigned, 64)

    def number(self, found, at, word, kind, encoded, width):
        """Returns the bytes of a number, which may be an address of data."""
        if not word.startswith("@"):
            number = int(word, 0)
            return encoded(as_signed(number, width) if encoded is signed else number)
        name, _, addend = word[1:].partition("+")
        found.append((at, self.kinds[kind], self.symbol_of(name), int(addend or 0)))
        return encoded(self.address_of(name) + int(addend or 0), 10)

    def types(self):
        kinds = [([], result) for _, result in self.imports] + [(it.params, it.result) for it in self.functions]
        in_bytes = lambda widths: rows([bytes([TYPES[it]]) for it in widths if it])
        return [b"\x60" + in_bytes(params) + in_bytes([result]) for params, result in kinds]

    def exports(self):
        return [text(it.name) + b"\0" + unsigned(self.indices[it.name]) for it in self.functions if it.is_exported]

    def code(self):
        """Returns the contents of the code section, and its relocations."""
        out, found = bytearray(unsigned(len(self.functions))), []
        for it in self.functions:
            body, inner = self.body(it)
            out += unsigned(len(body))
            found += [(len(out) + at, *rest) for at, *rest in inner]
            out += body
        return bytes(out), found

    def segments(self):
        """Returns the contents of the data section, and its relocations."""
        out, found = bytearray(unsigned(len(self.data))), []
        for it in self.data:
            contents = bytearray(it.contents)
            out += b"\0\x42" + signed(self.places[it.name]) + b"\x0b" + unsigned(len(contents))
            for at, (name, addend) in it.addresses.items():
                found.append((len(out) + at, self.kinds["data"], self.symbol_of(name), addend))
                contents[at : at + 8] = (self.address_of(name) + addend).to_bytes(8, "little")
            out += contents
        return bytes(out), found

    def object(self, extra_imports=b"", extra_import_count=0, extra_section=b""):
        """Returns the bytes of a relocatable object."""
        imports = [text("env") + text("__linear_memory") + b"\x02\x04\x01",
                   text("env") + text("__stack_pointer") + b"\x03\x7e\x01"]
        imports += [text("env") + text(name) + b"\0" + unsigned(i) for i, (name, _) in enumerate(self.imports)]
        code, in_code = self.code()
        data, in_data = self.segments()
        out = b"\0asm\1\0\0\0" + section(1, rows(self.types()))
        out += section(2, unsigned(len(imports) + extra_import_count) + b"".join(imports) + extra_imports)
        out += section(3, rows([unsigned(len(self.imports) + i) for i in range(len(self.functions))]))
        out += section(7, rows(self.exports())) + extra_section + section(10, code) + section(11, data)
        out += section(0, self.linking())
        with_addend = [self.kinds[it] for it in ("access", "constant", "data")]
        for number, (name, found) in enumerate((("reloc.CODE", in_code), ("reloc.DATA", in_data))):
            words = []
            for at, kind, symbol, addend in found:
                end = signed(addend) if kind in with_addend else b""
                words.append(unsigned(kind) + unsigned(at) + unsigned(symbol) + end)
            out += section(0, text(name) + unsigned(4 + number) + rows(words))
        return out

    def linking(self):
        """Returns the section of an object with its symbols and the names of its segments."""
        symbols = [b"\0\x10" + unsigned(i) for i in range(len(self.imports))]
        symbols += [b"\0\0" + unsigned(self.indices[it.name]) + text(it.name) for it in self.functions]
        for i, it in enumerate(self.data):
            place = unsigned(i) + unsigned(it.at) + unsigned(len(it.contents) - it.at)
            symbols.append(b"\x01\0" + text(it.name) + place)
        symbols.append(b"\x02\x10\0")
        names = [text(f"{it.section}.{it.name}") + unsigned(it.alignment.bit_length() - 1) + b"\0" for it in self.data]
        parts = ((8, rows(symbols)), (5, rows(names)))
        return text("linking") + b"\x02" + b"".join(bytes([kind]) + unsigned(len(it)) + it for kind, it in parts)

    def module(self):
        """Returns the bytes of a module with a memory of its own, for functions that import nothing."""
        out = b"\0asm\1\0\0\0" + section(1, rows(self.types()))
        out += section(3, rows([unsigned(i) for i in range(len(self.functions))])) + section(5, rows([b"\x04\x08"]))
        out += section(6, rows([b"\x7e\x01\x42" + signed(STACK_END) + b"\x0b"]))
        out += section(7, rows([*self.exports(), text("memory") + b"\x02\0"]))
        return out + section(10, self.code()[0]) + section(11, self.segments()[0])
