"""Cases of control: blocks, branches, locals, calls, frames and data. See instruction_cases.py."""

import itertools

from support.instruction_cases import Case, inputs_of
from support.wasm import Function

PAIRS = [*itertools.product((0, 1, 2, 5, 2**31, 2**32 - 1), repeat=2)]

# The prologue and the epilogue of a frame of 32 bytes, whose address is local 1, with the toolchain's check of the
# stack.
ENTER = """global.get; i64.const 32; i64.sub; local.tee 1; global.set
block; local.get 1; i64.const 15; i64.gt_s; br_if 0; unreachable; end"""
LEAVE = "local.get 1; i64.const 32; i64.add; global.set"


def each(*numbers):
    """Inputs of one number."""
    return [(it,) for it in numbers]


def case(name, kinds, inputs, body, locals=0, others=()):
    """A case with N locals of 64 bits. `kinds` are those of its parameters, and the width of its result."""
    *params, result = kinds.split()
    return Case(name, params, int(result) or None, body, inputs, locals * [64], [*others])


def inner(name, params, result, body, locals=0):
    """A function that a case calls."""
    return Function(name, params, result, body, locals * [64], False)


BLOCKS = [
    case("select", "word word word 32", [(7, 9, it) for it in (0, 1, 2**31, 2**32 - 1)],
         "local.get 0; local.get 1; local.get 2; select"),
    case("br_table", "word 32", each(*range(7), 2**31, 2**32 - 1), """
         block; block; block; block; local.get 0; br_table 2 0 1 0 3; end; i32.const 10; return; end; i32.const 20
         return; end; i32.const 30; return; end; i32.const 40"""),
    case("br_table with a result", "word 32", each(*range(5)),
         "block 32; i32.const 5; local.get 0; br_table 0 1 0; end; i32.const 100; i32.add"),
    case("a loop", "wide 64", each(1, 2, 100), """
         block; loop; local.get 1; local.get 0; i64.add; local.set 1; local.get 0; i64.const 1; i64.sub; local.tee 0
         i64.eqz; br_if 1; br 0; end; unreachable; end; local.get 1""", 1),
    case("a block with a result", "wide wide 64", PAIRS, """
         block 64; local.get 0; local.get 1; i64.const 3; i64.gt_u; br_if 0; i64.const 1; i64.add; end; i64.const 2
         i64.mul"""),
    case("if with a result", "word word 32", PAIRS, """
         local.get 0; if 32; local.get 1; i32.const 1; i32.add; else; local.get 1; i32.const 1; i32.sub; end
         i32.const 3; i32.mul"""),
    case("if without else", "word word 32", PAIRS, "local.get 0; if; i32.const 9; local.set 1; end; local.get 1"),
    case("return in a branch", "word word 32", PAIRS, """
         local.get 0; if; local.get 1; return; else; local.get 0; local.set 1; end; local.get 1; i32.const 7
         i32.add"""),
    case("dead code after a branch", "word 32", each(0, 3), """
         block 32; block; local.get 0; i32.eqz; br_if 0; i32.const 4; br 1; unreachable; end; i32.const 8; end"""),
    case("branches out of a loop", "word 32", each(0, 3), """
         block; loop; block; local.get 0; br_if 0; br 2; end; local.get 0; i32.const 1; i32.sub; local.set 0; br 0; end
         end; local.get 0"""),
    case("blocks in dead code", "word 32", each(5),
         "block; br 0; block; loop; br 1; end; end; if; else; end; end; nop; local.get 0"),
]

LOCALS = [
    case("a local that is written after it was read", "wide wide 64", PAIRS,
         "local.get 0; local.get 1; local.set 0; local.get 0; i64.sub"),
    case("local.tee", "wide wide 64", PAIRS,
         "local.get 0; local.get 1; local.tee 0; i64.sub; local.get 0; i64.const 3; i64.mul; i64.add"),
    case("a value below a loop", "wide 64", each(0, 5, 20), """
         local.get 0; loop; local.get 0; i64.const 1; i64.add; local.tee 0; i64.const 9; i64.lt_u; br_if 0; end
         i64.const 100; i64.mul; local.get 0; i64.add"""),
    case("a local that is read and then written in a loop", "wide 64", each(0, 5, 20), """
         loop; local.get 0; local.get 0; i64.const 1; i64.add; local.set 0; local.get 1; i64.add; local.set 1
         local.get 0; i64.const 9; i64.lt_u; br_if 0; end; local.get 1""", 1),
    case("a local that begins as 0", "word 64", each(0, 1),
         "local.get 1; i64.const 5; i64.add; local.get 0; if; i64.const 7; local.set 1; end; local.get 1; i64.add", 1),
    # A local that first holds a number, and then one of 64 bits; and one that is either.
    case("a local with two values", "number wide 64", inputs_of("number", "wide"), """
         local.get 0; i64.const 15; i64.and; local.set 2; local.get 2; local.get 1; i64.mul; local.set 2; local.get 2
         i64.const 40; i64.shr_u""", 1),
    case("a local that is narrow or wide", "number wide 64", inputs_of("number", "wide"), """
         local.get 0; local.set 2; local.get 1; i64.const 7; i64.gt_u; if; local.get 1; local.set 2; end; local.get 2
         i64.const 33; i64.rotl""", 1),
    case("drop", "word word 32", PAIRS,
         "local.get 0; local.get 0; local.get 1; local.set 0; i32.add; drop; local.get 0"),
]

CALLS = [
    case("a call", "wide word 64", PAIRS,
         "local.get 0; local.get 1; call mixed; i64.const 3; i64.rotl; local.get 0; i64.add", 0,
         [inner("mixed", [64, 32], 64, "local.get 0; local.get 1; i64.extend_i32_s; i64.xor")]),
    case("calls with a number and a wide one", "number wide 64", inputs_of("number", "wide"),
         "local.get 0; call twice; local.get 1; call twice; i64.add", 0,
         [inner("twice", [64], 64, "local.get 0; i64.const 2; i64.mul")]),
    case("the order of arguments", "wide wide 64", PAIRS, "local.get 1; local.get 0; call minus", 0,
         [inner("minus", [64, 64], 64, "local.get 0; local.get 1; i64.sub")]),
    case("a function that calls itself", "word 32", each(0, 1, 9), "local.get 0; call down", 0,
         [inner("down", [32], 32, """local.get 0; i32.eqz; if; i32.const 1; return; end
          local.get 0; i32.const 1; i32.sub; call down; local.get 0; i32.mul""")]),
    case("a call without a result", "memory word 0", each(9, 300), "local.get 0; local.get 1; call put", 0,
         [inner("put", [64, 32], None, "local.get 0; local.get 1; i32.store8 1 2")]),
    case("a parameter that isn't read", "wide wide 64", PAIRS,
         "local.get 0; local.get 1; call first; drop; local.get 1", 0,
         [inner("first", [64, 64], 64, "local.get 0")]),
]

FRAMES = [
    case("a frame", "wide 64", inputs_of("wide"), f"""
         {ENTER}; local.get 1; local.get 0; i64.store 8 8; local.get 1; i64.const 16; i64.add; i64.const 77
         i64.store 8 0; local.get 1; i64.load 8 8; {LEAVE}""", 1),
    case("the address of a frame passed on", "wide 64", inputs_of("wide"), f"""
         {ENTER}; local.get 1; local.get 0; i64.store 8 0; local.get 1; i64.const 24; i64.add; i64.const 5
         i64.store 8 0; local.get 1; call frame_sum; {LEAVE}""", 1,
         [inner("frame_sum", [64], 64, "local.get 0; i64.load 8 0; local.get 0; i64.load 8 24; i64.add")]),
    case("a place in a frame by `or`", "wide 64", each(3, 2**63),
         f"{ENTER}; local.get 1; i64.const 8; i64.or; local.get 0; i64.store 8 0; local.get 1; i64.load 8 8; {LEAVE}",
         1),
    case("a place in a frame by a number", "number 64", each(*range(9)), f"""
         {ENTER}; local.get 1; i64.const 0; i64.store 8 16; local.get 0; i64.const 7; i64.and; local.get 1; i64.const 16
         i64.add; i64.or; i64.const 9; i64.store8 1 0; local.get 1; i64.load 8 16; {LEAVE}""", 1),
    case("a frame of a function that calls none", "wide 64", each(3, 2**63), """
         global.get; i64.const 64; i64.sub; local.tee 1; local.get 0; i64.store 8 40; block; local.get 1; i64.const 16
         i64.lt_s; br_if 0; local.get 1; i64.load 8 40; return; end; unreachable""", 1),
    case("frames of a function that calls itself", "wide 64", each(0, 1, 30), "local.get 0; call deep", 0,
         [inner("deep", [64], 64, f"""{ENTER}; local.get 1; local.get 0; i64.store 8 0; local.get 0; i64.eqz; if
          else; local.get 0; i64.const 1; i64.sub; call deep; local.set 2; end
          local.get 1; i64.load 8 0; local.get 2; i64.add; {LEAVE}""", 2)]),
    case("a check of the stack without a frame", "word 32", each(8), """
         block; block; global.get; i64.const 16; i64.lt_s; br_if 0; br 1; end; unreachable; end; local.get 0"""),
]

# Addresses that leave a frame, and are brought back before they are used.
OUTSIDE = [
    case("a place before a frame plus a number", "number 64", each(*range(1, 5)), f"""
         {ENTER}; local.get 1; i64.const -8; i64.add; local.set 2; local.get 2; local.get 0; i64.const 3; i64.shl
         i64.add; i64.const 77; i64.store 8 0; local.get 1; local.get 0; i64.const 1; i64.sub; i64.const 3; i64.shl
         i64.add; i64.load 8 0; {LEAVE}""", 2),
    case("a place after a frame minus a number", "number 64", each(*range(2, 6)), f"""
         {ENTER}; local.get 1; i64.const 40; i64.add; local.get 0; i64.const 3; i64.shl; i64.sub; local.tee 2
         local.get 0; i64.store 8 0; local.get 1; local.get 2; i64.const 8; memory.copy; local.get 1; i64.load 8 0
         {LEAVE}""", 2),
    case("a place outside of a frame plus a constant", "wide 64", each(3, 2**63), f"""
         {ENTER}; local.get 1; i64.const 48; i64.add; local.tee 2; i64.const -24; i64.add; local.get 0; i64.store 8 0
         local.get 1; i64.load 8 24; local.get 2; i64.const 64; i64.sub; i64.load 8 40; i64.xor; local.get 0; i64.add
         {LEAVE}""", 2),
    case("an address that begins before a frame", "number 64", each(0, 9, 31), f"""
         {ENTER}; local.get 1; i64.const -1; i64.add; local.set 2; loop; local.get 2; i64.const 1; i64.add; local.tee 2
         local.get 3; i64.store8 1 0; local.get 3; i64.const 1; i64.add; local.tee 3; i64.const 32; i64.lt_u; br_if 0
         end; local.get 1; local.get 0; i64.add; i64.load8_u 1 0; {LEAVE}""", 3),
    case("memory.fill of a place before a frame plus a number", "number 64", each(16), f"""
         {ENTER}; local.get 1; i64.const -16; i64.add; local.get 0; i64.add; i32.const 200; i64.const 16; memory.fill
         local.get 1; i64.load8_u 1 0; {LEAVE}""", 1),
    # The local is a frame's address, and then an object's. The sum leaves the frame, and is used when it is in the
    # object.
    case("an address that moves from a frame to an object", "memory 64", [()], """
         global.get; i64.const 32; i64.sub; local.tee 5; global.set; local.get 5; local.set 1; loop; local.get 1
         i64.const 40; i64.add; local.set 2; local.get 3; i64.eqz; i32.eqz; if; local.get 2; call word_at; local.set 4
         end; local.get 0; local.set 1; local.get 3; i64.const 1; i64.add; local.tee 3; i64.const 2; i64.lt_u; br_if 0
         end; local.get 5; i64.const 32; i64.add; global.set; local.get 4""", 5,
         [inner("word_at", [64], 64, "local.get 0; i64.load 8 0")]),
]

OF_DATA = [
    case("an address of data with an addend", "32", [()], "i64.const @numbers+3; i32.load8_u 1 4"),
    case("a symbol within its segment", "32", [()], "i64.const @inner+1; i32.load8_u 1 0"),
    case("data at an index", "number 32", each(0, 3, 54), "local.get 0; i32.load8_u 1 @numbers+9"),
    case("an address before its data", "number 32", each(8, 20),
         "local.get 0; i64.const @numbers+-8; i64.add; i32.load8_u 1 0"),
    case("an address in constant data", "32", [()], "i64.const @addresses; i64.load 8 0; i32.load8_u 1 0"),
    case("the second address", "32", [()], "i64.const 0; i64.load 8 @addresses+16; i32.load8_u 1 0"),
    case("bytes after addresses", "32", [()],
         "i64.const @addresses; i32.load8_u 1 24; i64.const @addresses; i32.load8_u 1 8; i32.add"),
    case("an address of addresses", "32", [()], "i64.const @self; i64.load 8 0; i64.load 8 0; i32.load8_u 1 1"),
    case("data that holds its own address", "32", [()], "i64.const @cycle; i64.load 8 8; i64.const @cycle; i64.eq"),
    case("the address of empty data", "32", [()], "i64.const @empty; i64.eqz"),
    case("an aligned load of data", "64", [()], "i64.const @numbers; i64.load 8 8"),
]


def control_cases():
    return [*BLOCKS, *LOCALS, *CALLS, *FRAMES, *OUTSIDE, *OF_DATA]
