"""The exports: functions of C as the headers declare them.

A parameter of C becomes that of the module: a pointer and a `size_t` a number of 64 bits, the others one of 32 bits. A pointer
is an address, and a `size_t` a number that is below 2^32 on a processor of 32 bits (widths.py). Of a shorter type the lowest
bits of its register count, whatever the others are, as in the libraries for 64 bits.
"""

import re
from dataclasses import dataclass

from c_file.errors import NotTranslated
from c_file.widths import ADDRESS, NUMBER, WIDE

COMMENT = re.compile(r"/\*.*?\*/", re.DOTALL)
PROTOTYPE = re.compile(r"^(\w+) (bootswap_\w+)\(([^()]*)\);", re.DOTALL | re.MULTILINE)

# The widths of types of C that are no pointers, in the module, and what is known of those of 64 bits.
WIDTHS = {"size_t": 64, "uint64_t": 64, "uint32_t": 32, "uint16_t": 32, "uint8_t": 32}
KNOWN = {"pointer": ADDRESS, "size_t": NUMBER, "uint64_t": WIDE}
RESULTS = {"void": None, "uint32_t": 32, "uint64_t": 64}

# The parts of the library that a macro leaves out, if it is defined where the file is compiled. The functions of the module that
# only these calls need aren't compiled then.
PARTS = {
    "BOOTSWAP_WITHOUT_UPLOADS": re.compile("bootswap_(journal|simulate)_(accept|piece|finish|withdraw)"),
    "BOOTSWAP_WITHOUT_TEXTS": re.compile("bootswap_(journal_boot_with_texts|simulate_boot|choose(_in)?|check(_in)?)"),
    "BOOTSWAP_WITHOUT_SIMULATION": re.compile("bootswap_simulate_.*"),
}

# Types that are shorter than a register, with their bits.
SHORT = {"uint16_t": 0xFFFF, "uint8_t": 0xFF}


@dataclass(frozen=True)
class Parameter:
    """A parameter: its declaration, its name, and its type, which is "pointer" if it is one."""

    text: str
    name: str
    kind: str

    @property
    def width(self):
        return WIDTHS.get(self.kind, 64)

    def given(self, fact):
        """Returns the parameter as the module gets it."""
        if self.kind in SHORT:
            return f"w_low({self.name}, {SHORT[self.kind]:#x})"
        if self.width == 32:
            return f"(uint32_t){self.name}"
        return f"({'uintptr_t' if fact.is_narrow else 'uint64_t'}){self.name}"


@dataclass(frozen=True)
class Prototype:
    result: str
    name: str
    params: tuple


def prototypes(headers):
    """Returns the prototypes of the functions in the texts of headers, in their order."""
    found = []
    for result, name, words in (row for text in headers for row in PROTOTYPE.findall(COMMENT.sub("", text))):
        given = [" ".join(it.split()) for it in words.split(",") if it.strip() != "void"]
        found.append(Prototype(result, name, tuple(parameter(name, it) for it in given)))
    return found


def parameter(function, text):
    name = re.search(r"\w+$", text)[0]
    kind = "pointer" if "*" in text else text.removesuffix(name).strip()
    if kind != "pointer" and kind not in WIDTHS:
        raise NotTranslated(f"{function}: the parameter `{text}` has a type that isn't known")
    return Parameter(text, name, kind)


def check(program, found):
    """Checks that the object exports exactly these functions, with these parameters."""
    exports = program.object.exports
    if sorted(exports) != sorted(it.name for it in found):
        raise NotTranslated(f"the headers and the object differ in {sorted(set(exports) ^ {it.name for it in found})}")
    for it in found:
        kind = program.type_of(exports[it.name])
        if it.result not in RESULTS or (kind.params, kind.result) != (tuple(p.width for p in it.params), RESULTS[it.result]):
            raise NotTranslated(f"{it.name}: its prototype has other types than the object")


def note_parameters(program, found, facts):
    """Notes what is known of the parameters that C passes."""
    for it in found:
        for i, param in enumerate(it.params):
            if param.width == 64:
                facts.note(program.object.exports[it.name], i, KNOWN[param.kind])


def definition(program, it, facts):
    """Returns the function of C that calls the export, if none of the parts that it belongs to is left out."""
    text, macros = call_of(program, it, facts), [macro for macro, calls in PARTS.items() if calls.fullmatch(it.name)]
    return f"#if {' && '.join(f'!defined {macro}' for macro in macros)}\n{text}#endif\n" if macros else text


def call_of(program, it, facts):
    """Returns the function of C that calls the export."""
    index = program.object.exports[it.name]
    given = ", ".join(param.given(facts.of(index, i)) for i, param in enumerate(it.params))
    words = ", ".join(param.text for param in it.params)
    call = f"{program.c_name_of(index)}({given});"
    return f"{it.result} {it.name}({words or 'void'}) {{\n    {'return ' if it.result != 'void' else ''}{call}\n}}\n"
