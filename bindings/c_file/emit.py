"""Writing one function as C.

WebAssembly's stack of values is followed while the instructions are read. So the values on it are expressions of C, which are
pure: they read variables, and change nothing. What has effects or may change later is written as a statement right away, in the
order of the instructions:

- A load, a call and a division become a variable of their own.
- Before a local is written, each value on the stack that reads it is put into a variable of its own. So is each one that reads
  any local before a block begins, since jumps may lead there from places that write it.

A block is a label at its end, a loop one at its start, and a branch is a `goto`. A result of a block is a variable that each
branch to its end sets. What follows a branch, up to the end of its block, is never run, and is left out.
"""

from dataclasses import dataclass
from typing import Optional

from c_file import arithmetic, frames
from c_file.errors import NotTranslated
from c_file.frames import Frame
from c_file.values import LONGEST, NARROW, UNSIGNED, Value, constant, known, number_below, wide, word
from c_file.widths import ADDRESS, OUTSIDE, SMALL, Kind, without_place

# The functions of the toolchain around each export. `__rattle_enter` returns 0 unless an earlier call trapped or still runs,
# which never happens in the proved library: no call traps, and none makes another one. So nothing has to be kept in C.
ENTER, LEAVE, TRAP = "__rattle_enter", "__rattle_leave", "__rattle_trap"


@dataclass
class Line:
    """A line of C. One that writes a variable is left out if nothing reads that. `kept` is written then in its place: the
    effects of the expression."""

    text: str
    variable: Optional[str] = None
    kept: Optional[str] = None


@dataclass
class Block:
    """A block that isn't at its end yet. `height` is that of the stack below it, `result` the width of its result.
    `branches` is the number of branches to its label. `falls_through` says whether the part before `else` reaches its end."""

    kind: str
    height: int
    result: Optional[int]
    number: int
    branches: int = 0
    falls_through: bool = False

    @property
    def label(self):
        return f"L{self.number}"

    @property
    def variable(self):
        return f"r{self.number}"


class Lines:
    """The lines of a function, its stack of values, and its variables."""

    def __init__(self, code, facts):
        self.code, self.facts, self.index = code, facts, code.index
        self.lines, self.stack, self.blocks, self.used, self.temporaries = [], [], [], set(), 0

    def fact_of(self, variable):
        return self.facts.of(self.index, variable)

    def type_of(self, variable, width):
        """Returns the type of C of a variable, as far as it is known."""
        return NARROW if width == 64 and self.fact_of(variable).is_narrow else UNSIGNED[width]

    def line(self, text, *values):
        """Writes a line that uses these values."""
        self.read(values)
        self.lines.append(Line(text))

    def read(self, values):
        for it in values:
            self.used |= it.reads

    def keep(self, value, has_effects=False):
        """Puts a value into a new variable, which is never written again, and returns its value there."""
        self.read([value])
        self.temporaries += 1
        name = f"t{self.temporaries}"
        kept = f"(void){value.text};" if has_effects else None
        self.lines.append(Line(f"{value.c_type} {name} = {value.text};", name, kept))
        return Value(name, value.width, value.fact, frozenset([name]))

    def set(self, name, variable, value):
        """Writes a value to a variable, in the type that is known of the variable."""
        if value.width == 64:
            self.facts.note(self.index, variable, value.fact)
        self.read([value])
        text = value.as_kept(self.fact_of(variable))
        if text != name:
            self.lines.append(Line(f"{name} = {text};", name))

    def flush(self, name=None):
        """Keeps the values on the stack that read a local, or any local, before it may change."""
        for i, it in enumerate(self.stack):
            if any(read.startswith("l") if name is None else read == name for read in it.reads):
                self.stack[i] = self.keep(it)

    def push(self, value):
        self.stack.append(self.keep(value) if len(value.text) > LONGEST else value)

    def pop(self, may_be_outside=False):
        """Takes a value off the stack. An address outside of its object is refused unless only its lowest 32 bits count: it may
        be the operand of a sum or a difference, be kept in a variable, and be the address of an access."""
        if len(self.stack) <= self.blocks[-1].height:
            raise NotTranslated(f"{self.code.name}: an instruction without its operands")
        value = self.stack.pop()
        if not may_be_outside:
            self.check_inside(value)
        return value

    def pop_two(self, may_be_outside=False):
        other = self.pop(may_be_outside)
        return self.pop(may_be_outside), other

    def check_inside(self, value):
        if value.fact is not None and value.fact.kind is Kind.OUTSIDE:
            raise NotTranslated(f"{self.code.name}: an address outside of its frame or data, of which more than 32 bits count")


class Control(Lines):
    """Blocks, branches, and what the stack is at their ends."""

    def __init__(self, code, facts):
        super().__init__(code, facts)
        self.results, self.is_dead, self.numbers = [], False, 0

    def open(self, kind, result):
        self.flush()
        self.numbers += 1
        self.blocks.append(Block(kind, len(self.stack), result, self.numbers))
        if result is not None:
            self.results.append((self.blocks[-1].variable, result))

    def block(self, it):
        self.open("block", it.value)

    def loop(self, it):
        """The label of a loop is at its start. It is left out if no branch leads there."""
        self.open("loop", it.value)
        label = self.blocks[-1].label
        self.lines.append(Line(f"{label}:;", label))

    def if_(self, it):
        condition = self.pop()
        self.open("if", it.value)
        self.line(f"if ({condition.text}) {{", condition)

    def else_(self, it):
        block = self.blocks[-1]
        block.kind, block.falls_through = "else", not self.is_dead
        self.give(block)
        del self.stack[block.height :]
        self.is_dead = False
        self.line("} else {")

    def end(self, it):
        """Ends a block. What follows is never run if its end isn't reached, by falling through or by a branch. A branch right
        before the end isn't needed."""
        block = self.blocks[-1]
        if block.kind == "function":
            if not self.is_dead:
                self.return_(it)
            return
        self.give(block)
        self.blocks.pop()
        if self.lines and self.lines[-1].text == f"goto {block.label};" and block.kind == "block":
            self.lines.pop()
            self.is_dead, block.branches = False, block.branches - 1
        if block.kind in ("if", "else"):
            self.line("}")
        is_reached = block.branches > 0 and block.kind != "loop"
        if is_reached:
            self.line(f"{block.label}:;")
        self.is_dead = self.is_dead and not (is_reached or block.falls_through or block.kind == "if")
        del self.stack[block.height :]
        if block.result is not None:
            fact = None if block.result == 32 else self.fact_of(block.variable)
            self.stack.append(Value(block.variable, block.result, fact, frozenset([block.variable])))

    def give(self, block):
        """Sets the result of a block to the value on the stack."""
        if block.result is not None and not self.is_dead:
            self.set(block.variable, block.variable, self.top())

    def top(self):
        """Returns the value that a branch or a return takes along. It stays on the stack. One in a frame is an address for
        what comes later."""
        if len(self.stack) <= self.blocks[-1].height:
            raise NotTranslated(f"{self.code.name}: a result without a value")
        it = self.stack[-1]
        return Value(it.text, it.width, it.fact and without_place(it.fact), it.reads, it.number)

    def branch(self, depth):
        """Writes a branch out of a number of blocks."""
        if depth >= len(self.blocks):
            raise NotTranslated(f"{self.code.name}: a branch out of more blocks than there are")
        block = self.blocks[-1 - depth]
        if block.kind == "function":
            self.leave()
            return
        if block.kind != "loop":
            self.give(block)
        block.branches += 1
        self.used.add(block.label)
        self.line(f"goto {block.label};")

    def leave(self):
        if self.code.result is None:
            self.line("return;")
            return
        value = self.top()
        self.check_inside(value)
        if value.width == 64:
            self.facts.note(self.index, "result", value.fact)
        self.line(f"return {value.as_kept(self.fact_of('result'))};", value)

    def br(self, it):
        self.branch(it.value)
        self.is_dead = True

    def br_if(self, it):
        condition = self.pop()
        if condition.number is not None:
            if condition.number:
                self.br(it)
            return
        start = len(self.lines)
        self.branch(it.value)
        inner = self.lines[start:]
        del self.lines[start:]
        if len(inner) == 1:
            self.line(f"if ({condition.text}) {inner[0].text}", condition)
        else:
            self.line(f"if ({condition.text}) {{", condition)
            self.lines += inner
            self.line("}")

    def br_table(self, it):
        """The last branch is that of each other number."""
        value = self.pop()
        self.line(f"switch ({value.text}) {{", value)
        for number, depth in enumerate(it.value[:-1]):
            self.line(f"case {number}:")
            self.branch(depth)
        self.line("default:")
        self.branch(it.value[-1])
        self.line("}")
        self.is_dead = True

    def return_(self, it):
        self.leave()
        self.is_dead = True

    def unreachable(self, it):
        self.line("BOOTSWAP_UNREACHABLE();")
        self.is_dead = True

    def nop(self, it):
        """Does nothing."""


class Writer(Control):
    """Writes a function. `program` has the names of functions and data. `code` are its variables and instructions. `facts` says
    what is known of its variables, and learns what is written to them. `calls` are the functions that it calls, and `segments`
    the data that it uses."""

    def __init__(self, program, code, facts):
        super().__init__(code, facts)
        self.program, self.calls, self.segments = program, set(), set()
        self.frame = Frame(code.name, code.frame_size, facts.has_outside)

    def text(self):
        """Returns the function as C."""
        self.blocks.append(Block("function", 0, self.code.result, 0))
        for variable in self.code.variables.zeroed:
            self.facts.note(self.index, variable, SMALL)
        skipped = 0
        for it in self.code.variables.instructions:
            name = it.meaning.name
            if self.is_dead and (skipped or name not in ("end", "else")):
                skipped += (name in ("block", "loop", "if")) - (name == "end")
                continue
            getattr(self, it.meaning.form)(it)
        return "\n".join([*self.head(), *(f"    {it}" for it in self.body()), "}", ""])

    def signature(self):
        """Returns the head of the function in C."""
        widths = self.code.variables.widths[: self.code.params]
        words = [f"{self.type_of(i, width)} l{i}" for i, width in enumerate(widths)]
        result = "void" if self.code.result is None else self.type_of("result", self.code.result)
        attribute = "BOOTSWAP_NOINLINE " if self.frame.size else ""
        return f"{attribute}static {result} {self.code.c_name}({', '.join(words) or 'void'})"

    def head(self):
        """Returns the head of the function, and the declarations of the variables that are read."""
        lines, code = [f"{self.signature()} {{"], self.code
        for i, width in enumerate(code.variables.widths):
            is_read = f"l{i}" in self.used
            if i < code.params:
                lines += [] if is_read else [f"    (void)l{i};"]
            elif is_read:
                lines.append(f"    {self.type_of(i, width)} l{i}{' = 0' if i in code.variables.zeroed else ''};")
        lines += [f"    {self.type_of(name, width)} {name};" for name, width in self.results if name in self.used]
        return lines + ([f"    {self.frame.declaration()}"] if frames.NAME in self.used else [])

    def body(self):
        for it in self.lines:
            if it.variable is None or it.variable in self.used:
                yield it.text
            elif it.kept is not None:
                yield it.kept

    # Variables and calls.

    def local_get(self, it):
        if it.value is None or it.value >= len(self.code.variables.widths):
            raise NotTranslated(f"{self.code.name}: a local at {it.at} of the code that isn't there")
        name, width = f"l{it.value}", self.code.variables.widths[it.value]
        fact = self.fact_of(it.value) if width == 64 else None
        if fact is not None and fact.is_place:
            self.push(self.frame.at(fact.offset))
        else:
            self.push(Value(name, width, fact, frozenset([name])))

    def local_set(self, it):
        """A variable that is always the same place in the frame isn't needed: each use is that place."""
        value, name = self.pop(True), f"l{it.value}"
        if it.value is None:
            return
        self.flush(name)
        if value.width == 64:
            self.facts.note(self.index, it.value, value.fact)
        if not self.fact_of(it.value).is_place:
            self.set(name, it.value, value)

    def local_tee(self, it):
        if it.value is not None:
            self.stack.append(self.stack[-1])
            self.local_set(it)
            self.pop(True)
            self.local_get(it)

    def global_get(self, it):
        self.push(self.frame.at(0))

    def global_set(self, it):
        self.frame.set(self.pop(True))

    def call(self, it):
        kind = self.program.type_of(it.value)
        given = [self.pop() for _ in kind.params][::-1]
        if self.program.is_imported(it.value):
            self.call_toolchain(self.program.name_of(it.value), kind)
            return
        self.calls.add(it.value)
        words = []
        for i, value in enumerate(given):
            if value.width == 64:
                self.facts.note(it.value, i, without_place(value.fact))
            words.append(value.as_kept(self.facts.of(it.value, i)))
        text = f"{self.program.c_name_of(it.value)}({', '.join(words)})"
        if kind.result is None:
            self.line(f"{text};", *given)
        else:
            fact = self.facts.of(it.value, "result") if kind.result == 64 else None
            made = word(text, *given) if kind.result == 32 else known(text, fact, *given)
            self.stack.append(self.keep(made, has_effects=True))

    def call_toolchain(self, name, kind):
        """A call of one of the toolchain's own functions: no other function is imported."""
        if name == ENTER and kind.result == 32 and not kind.params:
            self.push(constant(0, 32))
        elif name == TRAP and kind.result is None:
            self.line("BOOTSWAP_UNREACHABLE();")
        elif name != LEAVE or kind.result is not None:
            raise NotTranslated(f"{self.code.name}: a call of the imported function {name}")

    def drop(self, it):
        self.pop(True)

    def select(self, it):
        condition = self.pop()
        one, other = self.pop_two()
        self.push(arithmetic.chosen(condition, one, other))

    # Memory.

    def place(self, base, it):
        """Returns the expression of the address of an access. In the module the sum doesn't wrap: it is the address of bytes of
        an object. In C it may, if the base is an OUTSIDE that did, and is the address of the same bytes again."""
        text = base.low() if base.width == 64 else None
        if text is None:
            raise NotTranslated(f"{self.code.name}: an address of 32 bits at {it.at} of the code")
        self.frame.check(base, it.value, it.meaning.detail.size)
        if it.relocation is not None:
            self.check_inside(base)
            return f"{text} + {self.address(it.relocation)}"
        return f"{text} + {it.value}u" if it.value else text

    def address(self, relocation):
        """Returns the expression of the address of data that a relocation names: its symbol's place and the addend."""
        segment, offset = self.program.data.place_of(relocation)
        self.segments.add(segment)
        return f"((uintptr_t)&data_{segment} {'-' if offset < 0 else '+'} {abs(offset)}u)"

    @staticmethod
    def access(it, sign):
        """Returns the kind of an access. One whose alignment may be lower than its size is one of single bytes to C, where the
        processor needs that."""
        size = it.meaning.detail.size
        return f"{'aligned' if it.alignment >= size else 'unaligned'}_{sign}{8 * size}"

    def load(self, it):
        base, width, size = self.pop(True), it.meaning.width, it.meaning.detail.size
        address = self.place(base, it)
        if it.meaning.detail.is_signed:
            text = f"({UNSIGNED[width]})(int{width}_t)W_LOAD({self.access(it, 's')}, {address})"
            made = word(text, base) if width == 32 else wide(text, base)
        elif width == 32:
            made = word(f"(uint32_t)W_LOAD({self.access(it, 'u')}, {address})", base)
        elif size < 8:
            made = number_below(f"(uintptr_t)W_LOAD({self.access(it, 'u')}, {address})", base)
        else:
            made = wide(f"W_LOAD({self.access(it, 'u')}, {address})", base)
        self.stack.append(self.keep(made))

    def store(self, it):
        value, base, size = self.pop(), self.pop(True), it.meaning.detail.size
        given = value.wide() if size == 8 else f"({UNSIGNED[8 * size]}){value.text}"
        self.line(f"W_STORE({self.access(it, 'u')}, {self.place(base, it)}, {given});", base, value)

    def memory_copy(self, it):
        length, start, to = self.pop(), self.pop(True), self.pop(True)
        for base in (start, to):
            self.frame.check(base, 0, length.number or 0)
        name = "W_MOVE" if length.number else "w_copy"
        self.line(f"{name}({to.low()}, {start.low()}, {length.low()});", to, start, length)

    def memory_fill(self, it):
        length, byte, to = self.pop(), self.pop(), self.pop(True)
        self.frame.check(to, 0, length.number or 0)
        self.line(f"w_fill({to.low()}, {byte.text}, {length.low()});", to, byte, length)

    # Numbers: see arithmetic.py.

    def const(self, it):
        if it.relocation is None:
            self.push(constant(it.value, it.meaning.width))
        else:
            fact = ADDRESS if self.program.data.holds(it.relocation) else OUTSIDE
            self.push(known(self.address(it.relocation), fact))

    def binary(self, it):
        one, other = self.pop_two(True)
        made = self.frame.sum(it.meaning.detail, one, other) if it.meaning.width == 64 else None
        self.push(made or arithmetic.binary(it.meaning.detail, it.meaning.width, one, other))

    def division(self, it):
        self.stack.append(self.keep(arithmetic.division(it.meaning.detail, it.meaning.width, *self.pop_two()), has_effects=True))

    def signed_division(self, it):
        made = arithmetic.signed_division(it.meaning.detail, it.meaning.width, *self.pop_two())
        self.stack.append(self.keep(made, has_effects=True))

    def shift(self, it):
        self.push(arithmetic.shift(it.meaning.detail, it.meaning.width, *self.pop_two()))

    def rotate(self, it):
        self.push(arithmetic.rotate(it.meaning.detail, it.meaning.width, *self.pop_two()))

    def count(self, it):
        self.push(arithmetic.count(it.meaning.detail, it.meaning.width, self.pop()))

    def eqz(self, it):
        self.push(arithmetic.eqz(self.pop()))

    def compare(self, it):
        one, other = self.pop_two()
        self.push(self.frame.comparison(it.meaning.detail, one, other) or arithmetic.compare(it.meaning.detail, one, other))

    def wrap(self, it):
        self.push(arithmetic.wrap(self.pop()))

    def extend_unsigned(self, it):
        self.push(arithmetic.extend_unsigned(self.pop()))

    def extend(self, it):
        self.push(arithmetic.extend(it.meaning.detail, it.meaning.width, self.pop()))
