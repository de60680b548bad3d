"""Reading a relocatable object of WebAssembly with 64-bit addresses.

The format is that of the WebAssembly specification ("Modules", "Binary Format") with the sections `linking` and `reloc.*` of
WebAssembly's tool conventions ("Linking"). An object isn't linked: relocations say which of its numbers are functions, and
which are addresses of data. So the translation doesn't have to guess which numbers are addresses.
"""

from dataclasses import dataclass, field
from typing import Optional

from c_file.errors import NotTranslated

MAGIC = b"\0asm\1\0\0\0"

# The widths of the two types of numbers that are taken.
WIDTHS = {0x7F: 32, 0x7E: 64}

# Relocations: what the number at their place is.
FUNCTION, GLOBAL, LOAD_OFFSET, CONSTANT_ADDRESS, DATA_ADDRESS = 0, 7, 14, 15, 16
WITH_ADDEND = {LOAD_OFFSET, CONSTANT_ADDRESS, DATA_ADDRESS}

# Kinds of symbols and of imports, and a flag of symbols.
FUNCTION_SYMBOL, DATA_SYMBOL, GLOBAL_SYMBOL, SECTION_SYMBOL = 0, 1, 2, 3
IMPORTED_FUNCTION, IMPORTED_MEMORY, IMPORTED_GLOBAL = 0, 2, 3
UNDEFINED, EXPLICIT_NAME = 0x10, 0x40

STACK_POINTER = "__stack_pointer"

# The limits of a memory with 64-bit addresses, without a largest size.
MEMORY_OF_64_BITS = 4


@dataclass(frozen=True)
class Type:
    """The type of a function: the widths of its parameters and of its result, if it has one."""

    params: tuple
    result: Optional[int]


@dataclass(frozen=True)
class Symbol:
    """A symbol. `index` is its function, global or segment. `offset` is the place of data in its segment."""

    kind: int
    name: str
    index: int
    offset: int = 0
    is_undefined: bool = False


@dataclass(frozen=True)
class Relocation:
    kind: int
    symbol: int
    addend: int


@dataclass(frozen=True)
class Segment:
    """Bytes of data. `start` is their place in the section, where their relocations count from."""

    name: str
    alignment: int
    start: int
    contents: bytes


@dataclass
class Object:
    """An object. A function's index counts the imported functions first. `bodies` are places in `data`."""

    data: bytes
    types: list = field(default_factory=list)
    imports: list = field(default_factory=list)
    functions: list = field(default_factory=list)
    exports: dict = field(default_factory=dict)
    bodies: list = field(default_factory=list)
    segments: list = field(default_factory=list)
    symbols: list = field(default_factory=list)
    relocations: dict = field(default_factory=dict)
    code_start: int = 0

    def type_of(self, function):
        return self.types[self.functions[function]]

    def name_of(self, function):
        """Returns the name of a function, as its symbol or its import has it."""
        if function < len(self.imports):
            return self.imports[function]
        names = [it.name for it in self.symbols if it.kind == FUNCTION_SYMBOL and it.index == function]
        return names[0] if names else f"function {function}"


class Reader:
    """Reads bytes from a place on, up to an end."""

    def __init__(self, data, at, end):
        self.data, self.at, self.end = data, at, end

    def byte(self):
        if self.at >= self.end:
            raise NotTranslated(f"the object ends early, at its byte {self.at}")
        self.at += 1
        return self.data[self.at - 1]

    def unsigned(self):
        """Reads an unsigned LEB128 number."""
        value, shift, more = 0, 0, True
        while more:
            it = self.byte()
            value |= (it & 0x7F) << shift
            shift, more = shift + 7, it >= 0x80
        return value

    def signed(self):
        """Reads a signed LEB128 number."""
        value, shift, it = 0, 0, 0x80
        while it >= 0x80:
            it = self.byte()
            value |= (it & 0x7F) << shift
            shift += 7
        return value - (1 << shift) if it & 0x40 else value

    def take(self, length):
        if self.at + length > self.end:
            raise NotTranslated(f"the object ends early, at its byte {self.end}")
        self.at += length
        return self.data[self.at - length : self.at]

    def name(self):
        return self.take(self.unsigned()).decode("utf-8", "replace")

    def width(self):
        """Reads a type of numbers, and returns its width."""
        kind = self.byte()
        if kind not in WIDTHS:
            raise NotTranslated(f"a value of type {kind:#x} at byte {self.at - 1} of the object: only i32 and i64 are taken")
        return WIDTHS[kind]

    def rows(self, read):
        return [read() for _ in range(self.unsigned())]


def read_object(data):
    """Reads an object. Raises NotTranslated for a section that has no translation."""
    if not data.startswith(MAGIC):
        raise NotTranslated("this is no object of WebAssembly")
    made, reader = Object(data), Reader(data, len(MAGIC), len(data))
    while reader.at < reader.end:
        kind, size = reader.byte(), reader.unsigned()
        section = Reader(data, reader.at, min(reader.at + size, len(data)))
        if kind not in SECTIONS:
            raise NotTranslated(f"section {kind} of the object: it has no translation")
        SECTIONS[kind](made, section)
        reader.take(size)
    return made


def read_types(made, reader):
    def read():
        if reader.byte() != 0x60:
            raise NotTranslated(f"no type of a function at byte {reader.at - 1} of the object")
        params, results = reader.rows(reader.width), reader.rows(reader.width)
        if len(results) > 1:
            raise NotTranslated("a function with more than one result")
        return Type(tuple(params), results[0] if results else None)

    made.types = reader.rows(read)


def read_imports(made, reader):
    """Reads the imports: functions, the memory, and the stack's pointer, which is the only global."""

    def read():
        module, name, kind = reader.name(), reader.name(), reader.byte()
        if kind == IMPORTED_FUNCTION:
            made.imports.append(name)
            made.functions.append(reader.unsigned())
        elif kind == IMPORTED_MEMORY:
            if reader.byte() != MEMORY_OF_64_BITS:
                raise NotTranslated("a memory with 32-bit addresses, a limit or threads: only objects for wasm64 are taken")
            reader.unsigned()
        elif kind == IMPORTED_GLOBAL and name == STACK_POINTER:
            reader.take(2)
        else:
            raise NotTranslated(f"the import {module}.{name}: it has no translation")

    reader.rows(read)


def read_functions(made, reader):
    made.functions += reader.rows(reader.unsigned)


def read_exports(made, reader):
    def read():
        name, kind, index = reader.name(), reader.byte(), reader.unsigned()
        if kind != 0:
            raise NotTranslated(f"the export {name}, which is no function")
        made.exports[name] = index

    reader.rows(read)


def read_code(made, reader):
    made.code_start = reader.at

    def read():
        size = reader.unsigned()
        reader.take(size)
        return reader.at - size, reader.at

    made.bodies = reader.rows(read)


def read_data(made, reader):
    """Reads the segments. Their place in memory is the linker's to choose, so it isn't used."""
    section = reader.at

    def read():
        if reader.unsigned() != 0:
            raise NotTranslated(f"a segment of another kind at byte {reader.at - 1} of the object")
        if reader.byte() not in (0x41, 0x42) or reader.signed() is None or reader.byte() != 0x0B:
            raise NotTranslated(f"a segment without a constant place at byte {reader.at} of the object")
        contents = reader.take(reader.unsigned())
        return Segment("", 1, reader.at - len(contents) - section, contents)

    made.segments = reader.rows(read)


def read_custom(made, reader):
    """Reads the sections for the linker. The others have no meaning for the machine."""
    name = reader.name()
    if name == "linking":
        read_linking(made, reader)
    elif name in ("reloc.CODE", "reloc.DATA"):
        read_relocations(made, reader, name)
    elif name.startswith("reloc.") and not name.startswith("reloc..debug"):
        raise NotTranslated(f"relocations of the section {name.removeprefix('reloc.')}")


def read_linking(made, reader):
    if reader.unsigned() != 2:
        raise NotTranslated("another version of the section `linking`")
    while reader.at < reader.end:
        part, size = reader.byte(), reader.unsigned()
        inner = Reader(reader.data, reader.at, reader.at + size)
        if part == 5:
            name_segments(made, inner)
        elif part == 8:
            made.symbols = inner.rows(lambda: read_symbol(made, inner))
        elif size > 1 or inner.byte() != 0:
            raise NotTranslated(f"part {part} of the section `linking`: functions that run first, or shared groups")
        reader.take(size)


def name_segments(made, reader):
    rows = reader.rows(lambda: (reader.name(), 1 << reader.unsigned(), reader.unsigned()))
    if len(rows) != len(made.segments):
        raise NotTranslated("the section `linking` names another number of segments")
    made.segments = [Segment(name, alignment, it.start, it.contents) for it, (name, alignment, _) in zip(made.segments, rows)]


def read_symbol(made, reader):
    kind, flags = reader.byte(), reader.unsigned()
    is_undefined = bool(flags & UNDEFINED)
    if kind == DATA_SYMBOL:
        name = reader.name()
        segment, offset, _ = (0, 0, 0) if is_undefined else (reader.unsigned(), reader.unsigned(), reader.unsigned())
        return Symbol(kind, name, segment, offset, is_undefined)
    if kind == SECTION_SYMBOL:
        return Symbol(kind, "", reader.unsigned())
    if kind not in (FUNCTION_SYMBOL, GLOBAL_SYMBOL):
        raise NotTranslated(f"a symbol of kind {kind}: it is no function, data or global")
    index = reader.unsigned()
    if not is_undefined or flags & EXPLICIT_NAME:
        return Symbol(kind, reader.name(), index, 0, is_undefined)
    return Symbol(kind, made.imports[index] if kind == FUNCTION_SYMBOL else STACK_POINTER, index, 0, True)


def read_relocations(made, reader, name):
    reader.unsigned()
    found = {}

    def read():
        kind, at, symbol = reader.unsigned(), reader.unsigned(), reader.unsigned()
        if kind not in (FUNCTION, GLOBAL, LOAD_OFFSET, CONSTANT_ADDRESS, DATA_ADDRESS):
            raise NotTranslated(f"a relocation of kind {kind} at {at} of {name.removeprefix('reloc.')}")
        if symbol >= len(made.symbols) or at in found:
            raise NotTranslated(f"a relocation of no symbol, or two, at {at} of {name.removeprefix('reloc.')}")
        found[at] = Relocation(kind, symbol, reader.signed() if kind in WITH_ADDEND else 0)

    reader.rows(read)
    made.relocations[name] = found


def ignore(made, reader):
    """The number of segments, which the section of data has too."""


SECTIONS = {0: read_custom, 1: read_types, 2: read_imports, 3: read_functions, 7: read_exports}
SECTIONS.update({10: read_code, 11: read_data, 12: ignore})
