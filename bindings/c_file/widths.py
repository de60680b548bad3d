"""Which values of 64 bits are kept in C's `uintptr_t`, which has 32 bits on a small processor.

An address has 64 bits in the module, and `usize` too. On a processor of 32 bits most of these values are below 2^32. What is
known of a value says whether it is, and why that keeps the meaning:

SMALL    a constant below 2^32.
NUMBER   a number below 2^32: an unsigned load of at most 32 bits, an extended i32, a length that C passes as `size_t`, a
         comparison with a mask, a remainder by such a number. Each rule of arithmetic.py is a bound of the result.
ADDRESS  an address of the machine: a pointer that C passes, the address of data or of a frame, or one of these plus or minus a
         number. The machine's addresses are below 2^32, and so is the one after the last byte of an object. The module is
         proved to access only objects that it was given, and its own. So an address plus or minus a number is below 2^32
         where the number leads into an object. Before that sums and differences may wrap, and wrap alike in 32 and in 64 bits.
FRAME    an ADDRESS whose place in the function's own frame is known, see frames.py.
OUTSIDE  an address that is known to lie outside of the frame or the data from which it was computed, or one of these plus or
         minus a number. Its distance from there may be known. Only its lowest 32 bits are those of the module's address: it may
         wrap around either end of the address space, where the module's doesn't. So it is refused wherever more bits than these
         count: see `Lines.pop` of emit.py.
WIDE     any number: it is kept in `uint64_t`.
APART    as WIDE, and the distance of two addresses is in it: an address was subtracted, or two were added. It is exact, and may be
         below 0. With an address added to it, nothing would say whether the sum is an address. So that is refused. A distance
         that was stored in memory isn't followed.

A sum of two numbers, a difference, a product or a number shifted left may not fit 32 bits. So these are WIDE.

On a processor of 64 bits `uintptr_t` holds every value, and nothing is cut off.
"""

import enum
from dataclasses import dataclass
from typing import Optional


class Kind(enum.Enum):
    """What is known of a value of 64 bits. UNSEEN is a variable that no instruction was seen to write yet."""

    UNSEEN, SMALL, FRAME, ADDRESS, NUMBER, WIDE, APART, OUTSIDE = range(8)


@dataclass(frozen=True)
class Fact:
    """What is known of a value of 64 bits. `offset` is the place of a FRAME, counted from the end of the frame: it isn't
    above 0. It is that of an OUTSIDE too, or None if it isn't known."""

    kind: Kind
    offset: Optional[int] = None

    @property
    def is_narrow(self):
        return self.kind not in (Kind.WIDE, Kind.APART)

    @property
    def is_address(self):
        return self.kind in (Kind.ADDRESS, Kind.FRAME, Kind.OUTSIDE)

    @property
    def is_place(self):
        """Whether the distance from the end of the function's own frame is known."""
        return self.offset is not None


UNSEEN, SMALL, ADDRESS, NUMBER = map(Fact, (Kind.UNSEEN, Kind.SMALL, Kind.ADDRESS, Kind.NUMBER))
WIDE, APART, OUTSIDE = map(Fact, (Kind.WIDE, Kind.APART, Kind.OUTSIDE))


def joined(one, other):
    """Returns what is known of a value that is one of two values. An address or a number is WIDE: it is the value in full, and
    either meaning stays right. With an OUTSIDE only the lowest bits of either are kept."""
    if one == other or other == UNSEEN:
        return one
    if one == UNSEEN:
        return other
    if Kind.OUTSIDE in (one.kind, other.kind):
        return OUTSIDE
    if one.is_address and other.is_address:
        return ADDRESS
    for it, second in ((one, other), (other, one)):
        if it == SMALL and second.is_narrow:
            return ADDRESS if second.is_address else second
    return APART if APART in (one, other) else WIDE


def without_place(fact):
    """What is known of an address if its place in the frame isn't."""
    return fact if not fact.is_place else OUTSIDE if fact.kind is Kind.OUTSIDE else ADDRESS


class Facts:
    """What is known of each variable, parameter and result of each function.

    They begin UNSEEN. Each pass over the functions joins what is written to them, and passes are made until nothing changes.
    So in the end a fact holds of each value that the variable ever gets, if it holds of what the pass saw: induction on the
    steps of a run.

    There are two rounds of passes. In the first a variable may seem to hold one place of the frame, until a later pass sees that
    it moves. A sum of that place and a number may be outside then, though the variable's is not. So in the first round no place
    is outside, and it only finds the variables that move. The second begins anew, and knows these from the start.
    """

    def __init__(self):
        self.known, self.has_changed, self.moving, self.has_outside = {}, False, set(), False

    def begin_second_round(self):
        self.known, self.has_outside = {}, True

    def of(self, function, variable):
        return self.known.get((function, variable), UNSEEN)

    def note(self, function, variable, fact):
        """Joins what is known of a value that is written to a variable."""
        if (function, variable) in self.moving:
            fact = without_place(fact)
        old = self.of(function, variable)
        new = joined(old, fact)
        if any(it.is_place and it != new for it in (old, fact)):
            self.moving.add((function, variable))
        if new != old:
            self.known[function, variable] = new
            self.has_changed = True
