"""Constant data as arrays of C.

Each segment of the module's data is an object of C with the same bytes. What the module reads of it are its bytes, at an address
that a relocation names. So the segments may lie anywhere, in any order.

A place with a relocation holds an address of 8 bytes: that of data of the module, which C's linker knows. On a processor of 32
bits its four high bytes are 0. A segment with such places is a struct without padding, of bytes and addresses by turns.

Data that isn't constant is refused: the library has none, and so its calls share nothing.
"""

from c_file.errors import NotTranslated
from c_file.wasm_object import DATA_ADDRESS, DATA_SYMBOL

# The names of segments that are constant.
CONSTANT = (".rodata", ".data.rel.ro")

ADDRESS_LENGTH, BYTES_A_LINE = 8, 24


class Data:
    """The data of an object."""

    def __init__(self, made):
        self.object, self.relocations = made, made.relocations.get("reloc.DATA", {})

    def place_of(self, relocation):
        """Returns the segment that a relocation leads to, and the offset in it: the place of its symbol plus its addend."""
        symbol = self.object.symbols[relocation.symbol]
        if symbol.kind != DATA_SYMBOL or symbol.is_undefined:
            raise NotTranslated(f"an address of {symbol.name or 'a section'}, which is no data of the object")
        return symbol.index, symbol.offset + relocation.addend

    def holds(self, relocation):
        """Returns whether a relocation leads into the data that it names, or to its end."""
        segment, offset = self.place_of(relocation)
        return 0 <= offset <= len(self.object.segments[segment].contents)

    def addresses_in(self, number):
        """Returns the relocations in a segment by their offsets."""
        it = self.object.segments[number]
        return {at - it.start: found for at, found in sorted(self.relocations.items()) if 0 <= at - it.start < len(it.contents)}

    def reached_from(self, segments):
        """Returns these segments and those that they hold addresses of, lowest first."""
        found, left = set(), sorted(segments)
        while left:
            number = left.pop()
            if number not in found:
                found.add(number)
                left += [self.place_of(it)[0] for it in self.addresses_in(number).values()]
        return sorted(found)

    def check(self, number):
        it = self.object.segments[number]
        if not it.name.startswith(CONSTANT):
            raise NotTranslated(f"the data {it.name}: it isn't constant")
        for at, relocation in self.addresses_in(number).items():
            if relocation.kind != DATA_ADDRESS or at + ADDRESS_LENGTH > len(it.contents):
                raise NotTranslated(f"the data {it.name}: a relocation of kind {relocation.kind} at its byte {at}")
            if not self.holds(relocation):
                raise NotTranslated(f"the data {it.name}: an address outside of the data that it names, at its byte {at}")

    def parts_of(self, number):
        """Yields the parts of a segment: the bytes before the first address, that address, and so on. An address is the pair of
        its segment and the offset there. C has no empty objects, so empty data is a byte, which nothing reads."""
        contents, start = self.object.segments[number].contents or b"\0", 0
        for at, relocation in self.addresses_in(number).items():
            yield contents[start:at]
            yield self.place_of(relocation)
            start = at + ADDRESS_LENGTH
        yield contents[start:]

    def declarations(self, numbers):
        """Returns the segments as C: first all of them without their contents, since they may hold addresses of each other."""
        for number in numbers:
            self.check(number)
        yield from (self.type_of(number) for number in numbers)
        yield from (f"static const struct data_{number} data_{number};\n" for number in numbers)
        yield from (self.definition(number) for number in numbers)

    def type_of(self, number):
        it = self.object.segments[number]
        fields = []
        for i, part in enumerate(self.parts_of(number)):
            if part:
                fields.append(f"struct w_address p{i};" if isinstance(part, tuple) else f"uint8_t p{i}[{len(part)}];")
        alignment = f"BOOTSWAP_ALIGNED({it.alignment})"
        return f"/* {it.name} */\nstruct {alignment} data_{number} {{\n    {' '.join(fields)}\n}};\n"

    def definition(self, number):
        parts = [written(it) for it in self.parts_of(number) if it]
        return f"static const struct data_{number} data_{number} = {{\n" + ",\n".join(parts) + "\n};\n"


def written(part):
    """Returns a part of a segment as C."""
    if isinstance(part, tuple):
        return f"    W_ADDRESS(data_{part[0]}, {part[1]})"
    rows = [part[at : at + BYTES_A_LINE] for at in range(0, len(part), BYTES_A_LINE)]
    return "    {" + ",\n     ".join(", ".join(map(str, row)) for row in rows) + "}"
