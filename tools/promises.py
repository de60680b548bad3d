"""The promises of docs/PROOFS.md, and the mutants that break them.

A promise is a sentence in bold at the beginning of a paragraph, in a section that names its crates. After its text, on a line
of their own, its entry has the calls that make it. `tools/docs` writes the lines `Definitions:` (tools/definitions.py) and
`Mutants:` after them. If only laws make the promise, it has no mutants. A mutant names each promise that it breaks in a line
`promise:` of its `.edit` file, without the full stop.
"""

import dataclasses
import glob
import os
import re

from crate_heads import ROOT, text_of

PAGE = "docs/PROOFS.md"

SECTION = re.compile(r"^## ([^\n]*)\n.*?(?=^## |\Z)", re.MULTILINE | re.DOTALL)
# If the heading of a section doesn't name its crates, a line does.
CRATES = re.compile(r"^Crates: (.*?)\.", re.MULTILINE | re.DOTALL)
# A promise, and its entry up to the next paragraph that begins in bold, or the next heading.
ENTRY = re.compile(r"^\*\*([^*]+?)\.?\*\*.*?(?=^\*\*|^#|\Z)", re.MULTILINE | re.DOTALL)
# The calls that make the promise of an entry: the line after its text.
CALLS = re.compile(r"(?<=\\\n).*?(?=\\\n|\n\n|\n*\Z)", re.DOTALL)
# How many mutants of a promise the page names at most.
MOST_SHOWN = 2
LINE = re.compile(r"^Mutants: .*?(?=\n\n|\n*\Z)", re.MULTILINE | re.DOTALL)
DEFINITIONS = re.compile(r"\\\nDefinitions: .*?(?=\\\n|\n\n|\n*\Z)", re.DOTALL)
# What a section says of "each call".
EACH_CALL = re.compile(r"\*Each call\* is (.*?)\.\s", re.DOTALL)


@dataclasses.dataclass
class Section:
    """A section of the page: the crates that it is about, and their promises, in order."""

    crates: list
    promises: list


@dataclasses.dataclass(frozen=True)
class Mutant:
    """A mutant: its crate, its name, whether the gate tries it, and the promises that it breaks."""

    crate: str
    name: str
    is_in_gate: bool
    promises: tuple

    def section_of(self, promise, sections):
        """Returns the section that has a promise of this: one about its crate, or else the only one; None if there is none."""
        having = [it for it in sections if promise in it.promises]
        own = [it for it in having if self.crate in it.crates] or having
        return own[0] if len(own) == 1 else None


def promises_in(text):
    """Returns the entries of promises in a text."""
    return [*ENTRY.finditer(text)]


def name_of(entry):
    """Returns the promise of an entry."""
    return " ".join(entry[1].split())


def crates_of(section):
    """Returns the crates that a section is about."""
    line = CRATES.search(section)
    return re.findall(r"`(\w+)`", line[1] if line else section.partition("\n")[0])


def read_sections(text):
    """Returns the sections of the page that make promises."""
    sections = []
    for section in SECTION.finditer(text):
        entries = [name_of(it) for it in promises_in(section[0])]
        if entries:
            sections.append(Section(crates_of(section[0]), entries))
    return sections


def read_mutants():
    """Returns the mutants of all crates: those that the gate tries first, by their names."""
    paths = [sorted(glob.glob(f"crates/*/{it}/*.edit", root_dir=ROOT), key=os.path.basename) for it in ("must-fail", "mutants")]
    return [read_mutant(it) for it in sum(paths, [])]


def read_mutant(path):
    """Returns a mutant."""
    promises = tuple(re.findall(r"^promise: *(.*?) *$", text_of(path), re.MULTILINE))
    _, crate, folder, name = path.split("/")
    return Mutant(crate, name.removesuffix(".edit"), folder == "must-fail", promises)


def faults_of(text, mutants, sections):
    """Returns what is wrong with the promises of the page and of mutants."""
    broken = {promise for it in mutants for promise in it.promises}
    for entry in promises_in(text):
        if not CALLS.search(entry[0]):
            yield f"{PAGE}: the promise has no calls: {name_of(entry)}"
        is_law = re.search(r"^[Ll]aws? `", entry[0], re.MULTILINE) and name_of(entry) not in broken
        if not is_law and not LINE.search(entry[0]):
            yield f"{PAGE}: the promise has no line `Mutants:`: {name_of(entry)}"
    listed = {crate for it in sections for crate in it.crates}
    for mutant in mutants:
        named = f"crates/{mutant.crate}: the mutant {mutant.name}"
        if mutant.crate not in listed:
            yield f"{named} is of a crate that no section of {PAGE} is about"
        if not mutant.promises:
            yield f"{named} names no promise"
        for promise in mutant.promises:
            if not mutant.section_of(promise, sections):
                yield f"{named} names a promise that {PAGE} doesn't make, or makes in several sections: {promise}"


def breaking(promise, section, mutants, sections):
    """Returns what the page says of the mutants that break a promise of a section: the names of some that the gate tries, or
    else of one in parentheses, and how many more there are. One of another crate, or of a crate that has one of the same name,
    is named with its crate."""
    found = [it for it in mutants if promise in it.promises and it.section_of(promise, sections) == section]
    in_gate = [it for it in found if it.is_in_gate]
    shown = in_gate[:MOST_SHOWN] or found[:1]
    names = [it.name for it in shown]
    known = {it: it.crate in section.crates and names.count(it.name) == 1 for it in shown}
    words = [f"`{it.name}`" if is_known else f"`{it.name}` of `{it.crate}`" for it, is_known in known.items()]
    words = words if in_gate else [f"({it})" for it in words]
    return ", ".join(words + [f"+{len(found) - len(shown)}"] * (len(found) > len(shown))) or "none"


def calls_of(entry, section):
    """Returns the calls that make the promise of an entry, in a section."""
    calls = CALLS.search(entry)[0]
    each = EACH_CALL.search(section)
    return re.sub("^Each call", lambda it: each[1] if each else it[0], calls)


def written(text, definitions_line, mutants_line, mutants, sections):
    """Returns the text of the page with its lines `Definitions:` and `Mutants:` made anew, each by the function for it."""
    every = iter(sections)

    def section_anew(section):
        if not promises_in(section[0]):
            return section[0]
        own = next(every)
        return ENTRY.sub(lambda it: entry_anew(it, own, section[0]), section[0])

    def entry_anew(entry, own, section):
        new = DEFINITIONS.sub("", entry[0])
        line = definitions_line(calls_of(new, section), own.crates)
        new = CALLS.sub(lambda it: it[0] + line, new, count=1)
        return LINE.sub(lambda _: mutants_line(breaking(name_of(entry), own, mutants, sections)), new)

    return SECTION.sub(section_anew, text)
