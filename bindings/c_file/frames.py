"""Frames: the module's own stack on C's stack.

A module has a stack in its memory: a function subtracts the size of its frame from the global `__stack_pointer`, and adds it
again before it returns. In C each frame is an array of bytes of its function, so C's stack holds it, and the global is gone.

This keeps the meaning: a frame is memory that no other object has while the function runs, and its first contents are any. Both
kinds of frames are that, if a stack is large enough. So addresses in frames are followed as what they are, the end of the frame
minus a number (a FRAME of widths.py), and whatever can't be followed is refused: a frame whose size isn't constant, an access
outside of it, and another number in the global.

LLVM may compute an address as a place outside of the frame and a number that leads back into it. No pointer of C may be there,
but a `uintptr_t` may hold any sum (an OUTSIDE of widths.py). If the place of an access is known, it is checked here: all of its
bytes are in the frame. Otherwise a number that isn't constant is in its address. The module is proved to access its own objects
only, and LLVM knows of no frame but the function's own. So that number leads into the frame, as from a place in the frame.

A frame of the module is aligned to 16 bytes, and one in C to 8, as the stack of 32-bit ARM is: that takes less code and less
stack. No access of the subset needs more. But LLVM may add a number by `|` where it knows that the address has none of its bits.
It knows the lowest four bits of an address in a frame at most. The others depend on where the stack lies, and nothing that the
module computes does. So `|` of such an address is a sum in C. Of any other address it is refused, unless it is of the lowest
three bits, which are as in the module.

The module checks for each function that its stack has room, and traps otherwise: it compares an address of the frame with a
small number. C's compiler decides where its stack lies and what happens when it is full. So these comparisons have the result
that they have in a stack that is large enough. How much stack a processor needs has to be measured.

A function with a frame isn't inlined in C. A compiler that inlines may join the frames of functions that run after each other:
then the stack needs their sum. gcc 12 with -Os joins none that matter here. Inlined, a boot on a Cortex-M4 takes 13,472 bytes of
stack and not 13,520, and 64 bytes more code. Other compilers and options may join more.
"""

from c_file.errors import NotTranslated
from c_file.values import Value, constant, known
from c_file.widths import ADDRESS, Fact, Kind

# Each frame of the module begins and ends at a multiple of this, and each in C at a multiple of that.
ALIGNMENT, ALIGNMENT_IN_C = 16, 8

# The lowest bytes of the module's memory, in which no frame of a large stack lies. A check compares with less than this.
LOWEST = 65536

# The address of no place this far from a frame is computed: a distance is a constant of 32 bits in C.
FARTHEST = 2**31

# The name of the frame in C.
NAME = "frame"


def size_of_frame(name, instructions):
    """Returns the size of the frame of a function, or 0 if it has none: what it subtracts from the stack's pointer."""
    sizes = set()
    for i, it in enumerate(instructions):
        names = [following.meaning.name for following in instructions[i : i + 3]]
        if names == ["global.get", "i64.const", "i64.sub"]:
            sizes.add(instructions[i + 1].value)
    if len(sizes) > 1 or any(it % ALIGNMENT or not 0 < it < 2**31 for it in sizes):
        raise NotTranslated(f"{name}: an unusual prologue, which makes frames of {sorted(sizes)} bytes")
    return max(sizes, default=0)


class Frame:
    """The frame of a function: its size in bytes, and whether a place is known to be outside of it (see `Facts`)."""

    def __init__(self, name, size, has_outside):
        self.name, self.size, self.has_outside = name, size, has_outside

    def refuse(self, what):
        raise NotTranslated(f"{self.name}: {what}: an unusual prologue or epilogue")

    def at(self, offset):
        """Returns the address at a distance from the end of the frame, in it or outside."""
        if self.has_outside and abs(offset) >= FARTHEST:
            self.refuse(f"an address {offset} bytes from the end of a frame")
        kind = Kind.FRAME if self.holds(offset) or not self.has_outside else Kind.OUTSIDE
        start, place = self.size + offset, Value(NAME, 64, ADDRESS, frozenset([NAME]))
        return known(f"((uintptr_t){NAME} {'-' if start < 0 else '+'} {abs(start)}u)", Fact(kind, offset), place)

    def holds(self, offset, length=0):
        """Returns whether the frame has this number of bytes from a place on."""
        return -self.size <= offset <= -length

    def check(self, base, offset, length):
        """Refuses an access of a number of bytes, if it is at a known place, and not in the frame."""
        if self.has_outside and base.fact.is_place and not self.holds(base.fact.offset + offset, length):
            at = base.fact.offset + offset
            self.refuse(f"an access of {length} bytes, {at} bytes from the end of a frame of {self.size} bytes")

    def set(self, value):
        """Checks what is written to the stack's pointer: where the frame begins, or ends. Nothing has to be done in C."""
        if value.fact.kind is not Kind.FRAME or value.fact.offset not in (0, -self.size):
            self.refuse("another number in the stack's pointer than the ends of the frame")

    def sum(self, operator, one, other):
        """Returns the sum or difference of an address in the frame and a number, or None if these are something else."""
        if other.fact.is_place and operator in "+|":
            one, other = other, one
        is_frame = one.fact.kind is Kind.FRAME
        if one.fact.is_place and operator in "+-" and other.number is not None:
            return self.at(one.fact.offset + (signed(other.number) if operator == "+" else -signed(other.number)))
        if is_frame and operator == "|" and other.is_narrow and not other.fact.is_address:
            if other.number is None:
                return known(f"({one.text} + {other.text})", ADDRESS, one, other)
            if other.number < ALIGNMENT and one.fact.offset & other.number == 0:
                return self.at(one.fact.offset + other.number)
        self.check_bits(operator, one, other)
        return None

    def check_bits(self, operator, one, other):
        """Refuses bits of an address that may only be known of the module's frames."""
        if operator in "|^" and (one.fact.is_address or other.fact.is_address):
            if not any(it.number is not None and it.number < ALIGNMENT_IN_C for it in (one, other)):
                raise NotTranslated(f"{self.name}: `{operator}` of an address, whose alignment isn't known")

    def comparison(self, operator, one, other):
        """Returns the result of a check that the stack has room, or None if a comparison is something else: an address of a
        frame is above each number that is below LOWEST."""
        kinds = [it.fact is not None and it.fact.kind is Kind.FRAME for it in (one, other)]
        if True not in kinds:
            return None
        number = other.number if kinds[0] else one.number
        if number is None:
            return None
        if number >= LOWEST:
            self.refuse(f"a comparison of the frame with {number}")
        sign = operator.strip("su")
        return constant(int(sign == "!=" or sign.startswith(">" if kinds[0] else "<")), 32)

    def declaration(self):
        """Returns the array in C. Its contents are any, as those of the module's stack are."""
        if self.size == 0:
            self.refuse("the stack's pointer is used in a function that has no frame")
        return f"uint8_t {NAME}[{self.size}] BOOTSWAP_ALIGNED(BOOTSWAP_FRAME_ALIGNMENT);"


def signed(number):
    return number - 2**64 if number >= 2**63 else number

