"""Values as the translation has them: an expression of C, and what is known of it."""

from dataclasses import dataclass
from typing import Optional

from c_file.widths import NUMBER, SMALL, WIDE, Fact

# The type of C for each width, and that of what is kept narrow.
UNSIGNED, SIGNED, NARROW = {8: "uint8_t", 16: "uint16_t", 32: "uint32_t", 64: "uint64_t"}, {}, "uintptr_t"
SIGNED.update({width: name[1:] for width, name in UNSIGNED.items()})

# A longer expression gets a variable of its own.
LONGEST = 160


@dataclass(frozen=True)
class Value:
    """A value of 32 or 64 bits. The expression is an operand of any operator of C, changes nothing, and reads the variables
    `reads`. `number` is the value of a constant. `fact` is what is known of a value of 64 bits: if it is narrow, the
    expression has the type `uintptr_t`, else `uint64_t`. One of 32 bits has the type `uint32_t`."""

    text: str
    width: int
    fact: Optional[Fact] = None
    reads: frozenset = frozenset()
    number: Optional[int] = None

    @property
    def is_narrow(self):
        return self.width == 64 and self.fact.is_narrow

    @property
    def c_type(self):
        return NARROW if self.is_narrow else UNSIGNED[self.width]

    def wide(self):
        """Returns the expression with all bits of the value."""
        if not self.is_narrow:
            return self.text
        return f"{self.number}u" if self.number is not None else f"(uint64_t){self.text}"

    def low(self):
        """Returns the expression as a `uintptr_t`. It has the lowest bits, which are all bits of a narrow value."""
        return self.text if self.is_narrow else f"({NARROW}){self.text}"

    def as_kept(self, fact):
        """Returns the expression as a variable of this width keeps it, of which this is known."""
        return self.text if self.width == 32 else self.low() if fact.is_narrow else self.wide()


def word(text, *operands):
    """A value of 32 bits that is made of these."""
    return Value(text, 32, None, reads_of(operands))


def known(text, fact, *operands):
    """A value of 64 bits, of which this is known."""
    return Value(text, 64, fact, reads_of(operands))


def wide(text, *operands):
    return known(text, WIDE, *operands)


def number_below(text, *operands):
    """A value of 64 bits that is below 2^32: its expression has the type `uintptr_t`."""
    return known(text, NUMBER, *operands)


def reads_of(operands):
    return frozenset().union(*(it.reads for it in operands))


def constant(number, width):
    """A constant. One of 64 bits that is below 2^32 is narrow."""
    if width == 32:
        return Value(f"{number}u", 32, number=number)
    if number < 2**32:
        return Value(f"(uintptr_t){number}u", 64, SMALL, number=number)
    return Value(f"{number}ull", 64, WIDE, number=number)
