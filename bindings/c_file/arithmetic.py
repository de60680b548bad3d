"""Arithmetic, comparisons and conversions, as C that has the meaning of WebAssembly.

Numbers of WebAssembly wrap around, and so do C's unsigned types: everything is computed in these. Each function here returns
the value of an instruction. What C leaves undefined never happens: an amount of a shift is masked, as WebAssembly masks it, and
each division that could fail is a call of prelude.h, which traps or returns what WebAssembly returns.

If the result of operands of 64 bits is narrow (widths.py), it is computed in `uintptr_t`. Each function says why the result is
right then: it is below 2^32, or an address.
"""

from c_file.errors import NotTranslated
from c_file.values import SIGNED, UNSIGNED, Value, constant, known, number_below, wide, word
from c_file.widths import ADDRESS, APART, NUMBER, OUTSIDE, SMALL, UNSEEN, WIDE, Kind, joined


def binary(operator, width, one, other):
    """+, -, *, &, | and ^."""
    if width == 32:
        return word(f"({one.text} {operator} {other.text})", one, other)
    fact = known_of_binary(operator, one, other)
    if fact.is_narrow:
        return known(f"({one.low()} {operator} {other.low()})", fact, one, other)
    return known(f"({in_64_bits(one)} {operator} {in_64_bits(other)})", fact, one, other)


def in_64_bits(value):
    """Returns the expression of a value of 64 bits whose type is `uint64_t`, also of a constant."""
    return f"{value.number}ull" if value.number is not None else value.wide()


def known_of_binary(operator, one, other):
    """What is known of the result for 64 bits.

    `&` has no bit that a narrow operand lacks; with a constant of more bits it rounds an address down. `|` and `^` of narrow
    values have no bit from 32 on. `|` sets low bits of an address that has zeros there, as `+` would.
    """
    if UNSEEN in (one.fact, other.fact):
        return UNSEEN
    if operator in "+-":
        return known_of_sum(operator, one.fact, other.fact)
    if Kind.OUTSIDE in (one.fact.kind, other.fact.kind):
        raise NotTranslated(f"`{operator}` of an address outside of its frame or data")
    addresses = one.fact.is_address + other.fact.is_address
    if operator == "&" and (one.is_narrow or other.is_narrow):
        is_rounded = addresses == 1 and any(it.number is not None and not it.is_narrow for it in (one, other))
        return ADDRESS if is_rounded else NUMBER
    if operator in "|^" and one.is_narrow and other.is_narrow:
        return ADDRESS if operator == "|" and addresses else NUMBER
    return WIDE


def known_of_sum(operator, one, other):
    """What is known of a sum or a difference: an address plus or minus a number is an address, of an OUTSIDE another one. The
    distance of two addresses is exact, so none of them may be an OUTSIDE."""
    is_apart = APART in (one, other)
    if is_apart and (one.is_address or other.is_address):
        raise NotTranslated(f"`{operator}` of an address, and a number that was made of the distance of two addresses")
    is_outside = Kind.OUTSIDE in (one.kind, other.kind)
    if is_apart or other.is_address and (operator == "-" or one.is_address):
        if is_outside:
            raise NotTranslated(f"`{operator}` of an address outside of its frame or data, and another address")
        return APART
    if is_outside:
        return OUTSIDE
    return ADDRESS if one.is_address or other.is_address else WIDE


def division(operator, width, one, other):
    """Unsigned / and %. Division by zero traps in WebAssembly. A quotient isn't above its dividend, and a remainder is below its
    divisor."""
    is_safe = other.number not in (None, 0)
    name = {"/": "div", "%": "rem"}[operator]
    if width == 32:
        return word(quotient(f"{name}32", operator, is_safe, one.text, other.text), one, other)
    if one.is_narrow and other.is_narrow:
        return number_below(quotient(f"{name}ptr", operator, is_safe, one.text, other.text), one, other)
    text = quotient(f"{name}64", operator, is_safe, in_64_bits(one), in_64_bits(other))
    if operator == "%" and other.is_narrow:
        return number_below(f"(uintptr_t){text}", one, other)
    return wide(text, one, other)


def quotient(helper, operator, is_safe, one, other):
    return f"({one} {operator} {other})" if is_safe else f"w_{helper}({one}, {other})"


def signed_division(name, width, one, other):
    """Signed / and %: prelude.h has them, with the remainder of the lowest number by -1, which C leaves undefined."""
    if width == 32:
        return word(f"w_{name}32({one.text}, {other.text})", one, other)
    return wide(f"w_{name}64({in_64_bits(one)}, {in_64_bits(other)})", one, other)


def shift(operator, width, one, amount):
    """Shifts. WebAssembly takes the amount modulo the width. C leaves a shift by the width or more undefined.

    A narrow value shifted right isn't above itself. `uintptr_t` may have 32 bits, so only a constant amount below 32 is shifted
    in it. Any value has at most 32 bits after a shift right by 32 or more. Signed shifts of narrow values are unsigned ones:
    bit 63 is 0.
    """
    masked = f"{amount.number % width}" if amount.number is not None else f"({amount.as_kept(SMALL)} & {width - 1}u)"
    places = None if amount.number is None else amount.number % width
    if width == 64 and one.is_narrow and operator != "<<":
        if places is not None and places < 32:
            return number_below(f"({one.text} >> {masked})", one, amount)
        operator = ">>"
    if operator == "s>>":
        text = f"({UNSIGNED[width]})(({SIGNED[width]}){wide_text(one)} >> {masked})"
        return word(f"({text})", one, amount) if width == 32 else wide(f"({text})", one, amount)
    text = f"({wide_text(one)} {operator} {masked})"
    if width == 32:
        return word(text, one, amount)
    if operator == ">>" and places is not None and places >= 32:
        return number_below(f"(uintptr_t){text}", one, amount)
    return wide(text, one, amount)


def wide_text(value):
    return value.text if value.width == 32 else in_64_bits(value)


def rotate(name, width, one, amount):
    """Rotations: prelude.h has them, for any amount."""
    if width == 32:
        return word(f"w_{name}32({one.text}, {amount.text})", one, amount)
    return wide(f"w_{name}64({in_64_bits(one)}, (uint32_t){amount.text})", one, amount)


def count(name, width, one):
    """Counts of zeros and ones: prelude.h has them. They are at most 64."""
    if width == 32:
        return word(f"w_{name}32({one.text})", one)
    return number_below(f"(uintptr_t)w_{name}64({in_64_bits(one)})", one)


def eqz(one):
    if one.number is not None:
        return constant(int(one.number == 0), 32)
    return word(f"(uint32_t)({one.text} == 0)", one)


def compare(operator, one, other):
    """Comparisons. The signed ones convert both operands to signed types.

    Two narrow values are compared as they are kept: both are below 2^32, so their signed order in 64 bits is the unsigned one.
    """
    is_signed, sign = operator.startswith("s"), operator.strip("su")
    if one.width == 64 and one.is_narrow and other.is_narrow:
        return word(f"(uint32_t)({one.text} {sign} {other.text})", one, other)
    cast = f"({SIGNED[one.width]})" if is_signed else ""
    return word(f"(uint32_t)({cast}{wide_text(one)} {sign} {cast}{wide_text(other)})", one, other)


def wrap(one):
    """The lowest 32 bits of a number of 64."""
    if one.number is not None:
        return constant(one.number % 2**32, 32)
    return word(f"(uint32_t){one.text}", one)


def extend_unsigned(one):
    """A number of 32 bits as one of 64: it is below 2^32."""
    return constant(one.number, 64) if one.number is not None else number_below(f"(uintptr_t){one.text}", one)


def extend(from_width, width, one):
    """The lowest bits as a signed number of more bits."""
    text = f"(({UNSIGNED[width]})({SIGNED[width]})({SIGNED[from_width]}){one.text})"
    return word(text, one) if width == 32 else wide(text, one)


def chosen(condition, one, other):
    """`select`: the first value unless the condition is 0. Both are computed already, and have no effects."""
    if condition.number is not None:
        return one if condition.number else other
    fact = None if one.width == 32 else joined_fact(one, other)
    text = f"({condition.text} ? {one.as_kept(fact)} : {other.as_kept(fact)})"
    return Value(text, one.width, fact, condition.reads | one.reads | other.reads)


def joined_fact(one, other):
    """What is known of one of two values: that of a frame is only known to be an address."""
    fact = joined(one.fact, other.fact)
    return ADDRESS if fact.is_address else fact
