"""The translation, put together.

    translated(object_bytes, headers, about) -> the text of the file

Functions are written in passes, until what is known of the variables of all functions doesn't change any more. The same object
and headers always make the same text: everything is in the order of the object.
"""

import os
import re
from dataclasses import dataclass

from c_file import exports
from c_file.data import Data
from c_file.emit import Writer
from c_file.errors import NotTranslated
from c_file.frames import size_of_frame
from c_file.instructions import Decoder
from c_file.locals import Variables, divided
from c_file.wasm_object import read_object
from c_file.widths import Facts

PRELUDE = f"{os.path.dirname(os.path.realpath(__file__))}/prelude.h"

# The longest name of a function in C, besides the number that makes it its own.
LONGEST_NAME = 80


@dataclass(frozen=True)
class Code:
    """A function: its names, the number of its parameters, the width of its result, its variables and its frame."""

    index: int
    name: str
    c_name: str
    params: int
    result: object
    variables: Variables
    frame_size: int


class Program:
    """An object whose functions are translated."""

    def __init__(self, made):
        self.object, self.data, self.codes = made, Data(made), {}
        self.names = c_names([made.name_of(it) for it in range(len(made.functions))])

    def type_of(self, function):
        return self.object.type_of(function)

    def name_of(self, function):
        return self.object.name_of(function)

    def c_name_of(self, function):
        return self.names[function]

    def is_imported(self, function):
        return function < len(self.object.imports)

    def code(self, function):
        """Returns a function, read once."""
        if function not in self.codes:
            kind, decoder = self.type_of(function), Decoder(self.object, function)
            widths = [*kind.params, *decoder.locals()]
            instructions = decoder.instructions()
            name, variables = self.name_of(function), divided(instructions, widths, len(kind.params))
            frame = size_of_frame(name, instructions)
            self.codes[function] = Code(
                function, name, self.c_name_of(function), len(kind.params), kind.result, variables, frame
            )
        return self.codes[function]

    def written(self, facts):
        """Writes each function that an export reaches, callers first. Returns the writers and texts by the functions."""
        left, found = sorted(set(self.object.exports.values()), reverse=True), {}
        while left:
            function = left.pop()
            if function in found:
                continue
            if self.is_imported(function):
                raise NotTranslated(f"the export of the imported function {self.name_of(function)}")
            writer = Writer(self, self.code(function), facts)
            found[function] = writer, writer.text()
            left += sorted(writer.calls - found.keys(), reverse=True)
        return found


def c_names(names):
    """Returns names in C for functions. Each begins with w_, so it is no name of a header."""
    found = []
    for i, name in enumerate(names):
        made = "w_" + re.sub(r"_+", "_", re.sub(r"\W", "_", name.replace("rattle::export ", "export_"))).strip("_")[:LONGEST_NAME]
        found.append(made if made not in found else f"{made}_{i}")
    return found


def translated(object_bytes, headers, about):
    """Returns the file of C. `headers` are the names and the texts of the headers that declare the exports. `about` are the
    lines at its head."""
    program = Program(read_object(object_bytes))
    found = exports.prototypes([text for _, text in headers])
    exports.check(program, found)
    facts, functions = written(program, found)
    order = sorted(functions)
    segments = program.data.reached_from(set().union(*(writer.segments for writer, _ in functions.values())))
    with open(PRELUDE, encoding="utf-8") as prelude:
        parts = [head(about), prelude.read()]
    parts += ["".join(f'#include "{name}"\n' for name, _ in headers)]
    parts += program.data.declarations(segments)
    parts += ["".join(f"{functions[it][0].signature()};\n" for it in order)]
    parts += [functions[it][1] for it in order]
    parts += [exports.definition(program, it, facts) for it in found]
    return "\n".join(parts)


def written(program, found):
    """Returns what is known of the variables in the end, and the functions that are written with it: see `Facts`."""
    facts, functions = Facts(), None
    for is_second in (False, True):
        if is_second:
            facts.begin_second_round()
        exports.note_parameters(program, found, facts)
        facts.has_changed = True
        while facts.has_changed:
            facts.has_changed = False
            functions = program.written(facts)
    return facts, functions


def head(about):
    """Returns the comment at the head of the file."""
    return "/*\n" + "".join(f" * {line}".rstrip() + "\n" for line in about) + " */"
