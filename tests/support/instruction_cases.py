"""Cases of the instructions of WebAssembly: functions, and inputs with which none traps.

The kinds of the parameters of a function are those of C:

    word      a uint32_t, an i32 of the module
    wide      a uint64_t, an i64
    number    a size_t, an i64 below 2^32
    memory    an address of 64 bytes, an i64. They hold PATTERN before each call, and are compared after it.
"""

import itertools
import random
from dataclasses import dataclass, field

from support.wasm import Data, Function

PATTERN = bytes((37 * i + 129) % 256 for i in range(64))

WIDTHS = {"word": 32, "wide": 64, "number": 64, "memory": 64}

CORNERS = [0, 1, 2, 7, 31, 32, 63, 64, 2**31 - 1, 2**31, 2**32 - 1, 2**32, 2**63 - 1, 2**63, 2**64 - 2**31, 2**64 - 1]

SHIFTS = "shl shr_s shr_u rotl rotr".split()
BINARY = ["add", "sub", "mul", "div_s", "div_u", "rem_s", "rem_u", "and", "or", "xor", *SHIFTS]
COMPARISONS = "eq ne lt_s lt_u gt_s gt_u le_s le_u ge_s ge_u".split()
UNARY = "clz ctz popcnt eqz extend8_s extend16_s extend32_s".split()

LOADS = {f"i32.load{it}": 32 for it in ("", "8_s", "8_u", "16_s", "16_u")}
LOADS |= {f"i64.load{it}": 64 for it in ("", "8_s", "8_u", "16_s", "16_u", "32_s", "32_u")}
STORES = {f"i32.store{it}": 32 for it in ("", "8", "16")} | {f"i64.store{it}": 64 for it in ("", "8", "16", "32")}

# The address of a place in the memory, by the number after it.
PLACE = "local.get 0; local.get 1; i64.add"


def values_of(kind):
    """Returns corner values of a kind, and some random ones from a fixed seed."""
    most = 2**64 if kind == "wide" else 2**32
    drawn = random.Random(kind)
    return [it for it in CORNERS if it < most] + [drawn.randrange(most) for _ in range(4)] + [drawn.randrange(2**9)]


def inputs_of(*kinds):
    """Returns all inputs of corner values."""
    return [*itertools.product(*map(values_of, kinds))]


@dataclass
class Case:
    """A function. `result` is the width of its result, if it has one. `others` are functions that it calls."""

    name: str
    params: list
    result: object
    body: str
    inputs: list
    locals: list = field(default_factory=list)
    others: list = field(default_factory=list)

    def function(self, name):
        return Function(name, [WIDTHS[it] for it in self.params], self.result, self.body, self.locals)

    @property
    def length(self):
        """How many bytes are compared after a call: its result, and the memory."""
        return 8 + len(PATTERN) * ("memory" in self.params)


def is_defined(name, one, other, width):
    """Whether an instruction doesn't trap."""
    overflows = one == 1 << width - 1 and other == (1 << width) - 1
    return not (name[:3] in ("div", "rem") and other == 0 or name == "div_s" and overflows)


def arithmetic():
    """Instructions of two operands, with each kind of operand and with constants."""
    for width, kinds in ((32, ["word"]), (64, ["wide", "number"])):
        for name in [*BINARY, *COMPARISONS]:
            result = 32 if name in COMPARISONS else width
            for one, other in itertools.product(kinds, kinds):
                inputs = [it for it in inputs_of(one, other) if is_defined(name, *it, width)]
                body = f"local.get 0; local.get 1; i{width}.{name}"
                yield Case(f"i{width}.{name} of {one}, {other}", [one, other], result, body, inputs)
            constants = (0, 1, 31, 32, 63, 64, 65) if name in SHIFTS else (1, 255, 2**31, 2**64 - 8)
            for one, number in itertools.product(kinds, constants):
                body = f"local.get 0; i{width}.const {number}; i{width}.{name}"
                inputs = [(it,) for it in values_of(one) if is_defined(name, it, number % 2**width, width)]
                yield Case(f"i{width}.{name} of {one}, {number}", [one], result, body, inputs)


def unary():
    for width, kinds in ((32, ["word"]), (64, ["wide", "number"])):
        for name, kind in itertools.product(UNARY, kinds):
            if width == 64 or name != "extend32_s":
                inputs = [*inputs_of(kind), *((it,) for it in (0x7F, 0x80, 0xFF, 0x7FFF, 0x8000, 0xFFFF))]
                result = 32 if name == "eqz" else width
                yield Case(f"i{width}.{name} of {kind}", [kind], result, f"local.get 0; i{width}.{name}", inputs)
    for name, kind in (("i32.wrap_i64", "wide"), ("i32.wrap_i64", "number"), ("i64.extend_i32_u", "word"),
                       ("i64.extend_i32_s", "word")):
        yield Case(f"{name} of {kind}", [kind], int(name[1:3]), f"local.get 0; {name}", inputs_of(kind))


def widths():
    """Results that don't fit 32 bits, made of numbers that do, and what is narrow again."""
    for name, rest in (
        ("add", "i64.const 1; i64.shr_u"), ("add", "i64.const 32; i64.shr_u"), ("sub", "i64.const 33; i64.shr_u"),
        ("sub", "i64.const 0; i64.lt_s; i64.extend_i32_u"), ("mul", "i64.const 32; i64.shr_u"),
        ("shl", "i64.const 31; i64.shr_u"), ("or", "i64.const 1; i64.add; i64.const 32; i64.shr_u"),
        ("xor", "i64.const 1; i64.add"), ("and", "i64.const 1; i64.add"),
    ):
        body = f"local.get 0; local.get 1; i64.{name}; {rest}"
        yield Case(f"i64.{name} of numbers; {rest}", ["number", "number"], 64, body, inputs_of("number", "number"))
    body = "local.get 0; i64.extend_i32_u; i64.const 12; i64.shl; i64.const 3; i64.add"
    yield Case("an extended word shifted left", ["word"], 64, body, inputs_of("word"))
    body = "i64.const -1; local.get 0; local.get 1; select"
    inputs = [*itertools.product(values_of("number"), (0, 1, 2**31))]
    yield Case("select of a number or a wide one", ["number", "word"], 64, body, inputs)
    body, inputs = f"{PLACE}; local.get 0; local.get 2; i64.add; i64.sub", [(0, 0), (5, 9), (9, 5), (60, 1), (1, 60)]
    yield Case("the difference of two addresses", ["memory", "number", "number"], 64, body, inputs)
    body, inputs = f"{PLACE}; i64.const -8; i64.add; i32.load8_u 1 3", [(8,), (20,), (63,)]
    yield Case("a constant below 0 added to an address", ["memory", "number"], 32, body, inputs)
    body, inputs = f"{PLACE}; i64.const -8; i64.and; i32.load8_u 1 1", [(it,) for it in range(56)]
    yield Case("an address rounded down", ["memory", "number"], 32, body, inputs)


def size_of(name, width):
    """Returns the number of bytes of an access."""
    digits = "".join(it for it in name.partition(".")[2] if it.isdigit())
    return int(digits or width) // 8


def memory():
    """Each access, aligned to its size and to nothing."""
    for name, width in {**LOADS, **STORES}.items():
        size = size_of(name, width)
        for alignment, offset, places in ((size, 8, range(0, 40, size)), (1, 3, range(9))):
            title = f"{name} aligned to {alignment}"
            if name in LOADS:
                body = f"{PLACE}; {name} {alignment} {offset}"
                yield Case(title, ["memory", "number"], width, body, [(it,) for it in places])
                continue
            for kind in ("word",) if width == 32 else ("wide", "number"):
                body = f"{PLACE}; local.get 2; {name} {alignment} {offset}"
                inputs = [*itertools.product(places, values_of(kind))]
                yield Case(f"{title}, {kind}", ["memory", "number", kind], None, body, inputs)
    # A store may lie before or after a load in the memory's order: the load's value is that of its time.
    body = "local.get 0; i64.load 8 8; local.get 0; i64.const 5; i64.store 8 8; local.get 0; i64.load 8 8; i64.sub"
    yield Case("a load before a store", ["memory"], 64, body, [()])


def ranges():
    """memory.copy and memory.fill. Ranges that overlap are copied as if through other memory."""
    places = f"{PLACE}; local.get 0; local.get 2; i64.add"
    inputs = [(0, 8, 30), (8, 0, 30), (0, 40, 0), (3, 4, 40), (4, 3, 40), (0, 0, 64), (1, 0, 63), (0, 1, 63)]
    body = f"{places}; local.get 3; memory.copy"
    yield Case("memory.copy", ["memory", "number", "number", "number"], None, body, inputs)
    for length in (1, 8, 33):
        body = f"{places}; i64.const {length}; memory.copy"
        inputs = [(0, 4), (4, 0), (0, 1), (1, 0), (20, 12), (12, 20)]
        yield Case(f"memory.copy of {length} bytes", ["memory", "number", "number"], None, body, inputs)
    body = f"{PLACE}; local.get 2; local.get 3; memory.fill"
    inputs = [(0, 0, 64), (3, 255, 9), (8, 0x1234, 5), (8, 7, 0)]
    yield Case("memory.fill", ["memory", "number", "word", "number"], None, body, inputs)
    body = "i64.const 0; i64.const 0; i64.const 0; local.get 0; i64.sub; local.get 0; i64.add; memory.copy"
    yield Case("memory.copy of no bytes at address 0", ["number"], None, body, [(0,), (3,)])


def numeric_cases():
    return [*arithmetic(), *unary(), *widths(), *memory(), *ranges()]


# Data of the cases of control_cases.py: bytes, and addresses of them.
DATA = [
    Data("numbers", bytes(range(100, 164)), alignment=16),
    Data("inner", bytes(range(200, 232)), alignment=4, at=8),
    Data("addresses", bytes(24) + b"\x07" * 9, {0: ("numbers", 5), 16: ("inner", 2)}),
    Data("cycle", bytes(16), {8: ("cycle", 0)}),
    Data("empty", b"", alignment=1),
    Data("self", bytes(8), {0: ("addresses", 16)}, section=".data.rel.ro"),
]
