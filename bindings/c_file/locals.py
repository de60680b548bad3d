"""Giving each independent value of a local its own variable.

LLVM reuses a local for values that have nothing to do with each other, such as an address and later a number of 64 bits. One
variable of C for both would have to hold either. So each local is divided into the groups of its definitions that meet in a
use, and each group becomes a variable.

This keeps the meaning: a use of a local reads what one of the definitions that reach it wrote, along any path. All of these
are in the same group, so they write the variable that the use reads. Other groups never reach the use.
"""

from dataclasses import dataclass, replace

from c_file.errors import NotTranslated

OPENING = ("block", "loop", "if")
WRITING = ("local.set", "local.tee")


@dataclass(frozen=True)
class Variables:
    """The variables of a function: their widths, the parameters first, and which of the others begin as 0, as locals do in
    WebAssembly. A definition that nothing reads has no variable: its instruction has the value None."""

    instructions: list
    widths: list
    zeroed: frozenset


def divided(instructions, widths, params):
    """Returns the instructions of a function with variables in the place of its locals, whose widths are given."""
    groups, uses = groups_of(instructions, len(widths))
    made, numbers, zeroed = list(widths[:params]), {groups.find(("start", it)): it for it in range(params)}, set()

    def variable(definition, local):
        root = groups.find(definition)
        if root not in numbers:
            numbers[root] = len(made)
            made.append(widths[local])
        return numbers[root]

    for local in range(params, len(widths)):
        if ("start", local) in groups.used:
            zeroed.add(variable(("start", local), local))
    used = {groups.find(it) for found in uses.values() for it in found}
    out = []
    for i, it in enumerate(instructions):
        if it.meaning.name == "local.get" and i in uses:
            it = replace(it, value=variable(min(uses[i], key=str), it.value))
        elif it.meaning.name in WRITING:
            it = replace(it, value=variable(i, it.value) if groups.find(i) in used else None)
        out.append(it)
    return Variables(out, made, frozenset(zeroed))


class Groups:
    """Definitions of locals in disjoint groups (union and find). A definition is the index of an instruction, or the start
    of the function."""

    def __init__(self):
        self.parents, self.used = {}, set()

    def find(self, definition):
        while self.parents.setdefault(definition, definition) != definition:
            definition = self.parents[definition]
        return definition

    def join(self, definitions):
        self.used |= definitions
        first, *rest = sorted(definitions, key=str)
        for it in rest:
            self.parents[self.find(it)] = self.find(first)


def groups_of(instructions, count):
    """Returns the groups of the definitions, and for each use of a local the definitions that reach it."""
    uses = reaching(instructions, count)
    groups = Groups()
    for i in sorted(uses):
        groups.join(uses[i])
    return groups, uses


def reaching(instructions, count):
    """Returns the definitions that reach each use of a local: the usual analysis of data flow, run until nothing changes."""
    following = successors(instructions)
    starts = {0} | {to for i, found in following.items() if found != [i + 1] for to in found}
    states, left, uses = {0: [frozenset([("start", it)]) for it in range(count)]}, [0], {}
    while left:
        i = left.pop()
        now = list(states[i])
        while True:
            it = instructions[i]
            if it.meaning.name == "local.get":
                uses[i] = uses.get(i, frozenset()) | now[it.value]
            elif it.meaning.name in WRITING:
                now[it.value] = frozenset([i])
            if following[i] != [i + 1] or i + 1 in starts or i + 1 == len(instructions):
                break
            i += 1
        left += [to for to in following[i] if to < len(instructions) and merged(states, to, now)]
    return uses


def merged(states, to, now):
    """Adds the definitions that reach an instruction from another one. Returns whether there were new ones."""
    old = states.get(to)
    states[to] = list(now) if old is None else [one | other for one, other in zip(old, now)]
    return old is None or states[to] != old


def successors(instructions):
    """Returns for each instruction those that may run after it. The end of the function is their number."""
    ends, elses = matching(instructions)
    nest, found = [], {}

    def target(depth):
        if depth >= len(nest):
            return len(instructions)
        opening = nest[-1 - depth]
        return opening if instructions[opening].meaning.name == "loop" else ends[opening]

    for i, it in enumerate(instructions):
        name, following = it.meaning.name, [i + 1]
        if name in OPENING:
            nest.append(i)
            if name == "if":
                following.append(elses.get(i, ends[i] - 1) + 1)
        elif name == "else":
            following = [ends[nest[-1]]]
        elif name == "end" and nest:
            nest.pop()
        elif name in ("br", "br_if"):
            following = [target(it.value)] + [i + 1] * (name == "br_if")
        elif name == "br_table":
            following = sorted({target(depth) for depth in it.value})
        elif name in ("return", "unreachable"):
            following = []
        found[i] = following
    return found


def matching(instructions):
    """Returns the `end` and the `else` of each block, by the index of its first instruction."""
    nest, ends, elses = [], {}, {}
    for i, it in enumerate(instructions):
        if it.meaning.name in OPENING:
            nest.append(i)
        elif it.meaning.name == "else":
            elses[nest[-1]] = i
        elif it.meaning.name == "end" and nest:
            ends[nest.pop()] = i
        elif it.meaning.name == "end" and i + 1 < len(instructions):
            raise NotTranslated(f"a function ends at {it.at} of the code, and goes on")
    if nest or instructions[-1].meaning.name != "end" or len(instructions) - 1 in ends.values():
        raise NotTranslated(f"a block or function before {instructions[-1].at} of the code has no end")
    return ends, elses
