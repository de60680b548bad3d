"""What the contract of a call says: its text, and each definition that it speaks of, found from name to name.

A definition is in a file of `crates/NAME/specs/`, a type of the program in one of `crates/NAME/src/`. What std and the ported
crates define is only named, and so is a definition that the page leaves abstract.

A page asks for the statement of a call by these words: `CRATE::CALL` or `CRATE::TYPE::METHOD`, then `clause NAME` if it
shows one clause of the contract, `field NAME` for each field that it shows of the record in the contract, if it doesn't show
all, and `abstract NAME` for a definition that is not shown.
"""

import dataclasses
import functools
import glob
import itertools
import re
import textwrap

from crate_heads import ROOT, read_crates, text_of

USE = re.compile(r"(?:ghost )?use ([\w.]+)(?:\.\{([^}]*)\}| as (\w+));?$")
HEAD = re.compile(r"(?:(?:abbrev|unfoldable|pub|record|data) )*([^\s:({]+)")
KEYWORD = re.compile(r"(?:abbrev|unfoldable|pub|record|data) ")
FIELD = re.compile(r"  pub (\S+) :")
NAME = re.compile(r"[A-Za-z_][\w'-]*(?:\.[A-Za-z_][\w'-]*)*")


@dataclasses.dataclass
class Definition:
    """A definition, with the comment before it and its lines in its file."""

    name: str
    lines: list

    def only(self, fields):
        """Returns a record with only these fields, or None if it isn't a record that has them all."""
        starts = [n for n, line in enumerate(self.lines) if FIELD.match(line)]
        names = [FIELD.match(self.lines[n])[1] for n in starts]
        if not {*fields} <= {*names}:
            return None
        # A field's comment is before it.
        begins = [n - next(k for k in itertools.count() if not self.lines[n - k - 1].startswith("  --")) for n in starts]
        kept = self.lines[: begins[0]]
        for name, start, end in zip(names, begins, [*begins[1:], len(self.lines)]):
            kept += self.lines[start:end] if name in fields else []
        return Definition(self.name, kept)

    def words(self):
        """Yields the names in it, without its comments."""
        for line in self.lines:
            yield from NAME.findall(line.partition("--")[0])


class Uses:
    """What names a file takes from others."""

    def __init__(self):
        self.names, self.modules = {}, {}

    def add(self, line):
        module, names, alias = USE.match(line).groups()
        for name in [it.strip() for it in (names or "").split(",") if it.strip()]:
            original, _, here = name.partition(" as ")
            self.names[here or original] = (module, original)
        if alias:
            self.modules[alias] = module

    def place_of(self, word):
        """Returns the module and the name there that a word stands for, or None."""
        first, _, rest = word.partition(".")
        if first in self.names:
            return self.names[first]
        return (self.modules[first], rest.partition(".")[0]) if rest and first in self.modules else None


class Module:
    """A file of definitions."""

    def __init__(self, path):
        self.path, self.uses, self.definitions = path, Uses(), {}
        comment, last = [], None
        for line in text_of(path).splitlines():
            if line.startswith("use "):
                self.uses.add(line)
            elif not line:
                comment, last = [], None
            elif line.startswith("--"):
                comment.append(line)
            else:
                last = self.add(line, comment, last)
                comment = []

    def add(self, line, comment, last):
        """Adds a line to the definition that it begins or belongs to, and returns that."""
        if not line.startswith((" ", "}")):
            name = HEAD.match(line)[1]
            if KEYWORD.match(line) or name not in self.definitions:
                last = self.definitions[name] = Definition(name, [])
            else:
                last = self.definitions[name]
        last.lines += [*comment, line]
        return last


@functools.cache
def module_of(name):
    """Returns the file of definitions of this name, or None if it is not of this repository."""
    _, crate, part, *rest = [*name.split("."), ""]
    path = f"crates/{crate}/{part}/{'/'.join(it for it in rest if it)}.antt"
    return Module(path) if part == "specs" and glob.glob(f"{ROOT}/{path}") else None


@functools.cache
def code_of(crate):
    """Returns the texts of a crate's sources, by their paths."""
    paths = sorted(glob.glob(f"crates/{crate}/src/**/*.rt", root_dir=ROOT, recursive=True))
    return {path: text_of(path) for path in paths}


def type_named(crate, name):
    """Returns the path and the declaration of a type of a crate, without comments and attributes."""
    for path, text in code_of(crate).items():
        found = re.search(rf"^(?:pub(?:\(crate\))? )?(?:struct|enum) {name}\b[^{{;]*(?:;|\{{.*?^\}})$", text, re.MULTILINE | re.DOTALL)
        if found:
            lines = [it for it in found[0].splitlines() if not it.strip().startswith(("///", "#["))]
            return path, lines
    raise LookupError(f"crate {crate} has no type {name}")


@dataclasses.dataclass(frozen=True)
class Place:
    """What a page asks for: a call, one clause of its contract or all, fields of the record in it or all, and what stays
    abstract."""

    call: str
    clause: str | None
    fields: tuple
    abstract: tuple

    @classmethod
    def of(cls, words):
        """Returns what the words of a page ask for."""
        named = {"clause": [], "field": [], "abstract": []}
        for kind, name in zip(words[1::2], words[2::2]):
            named[kind].append(name)
        return cls(words[0], *(named["clause"] or [None]), tuple(named["field"]), tuple(named["abstract"]))


def only_clause(contract, name):
    """Returns the lines of a contract with one of its `ensures` clauses, and all that is `requires`."""
    starts = [n for n, line in enumerate(contract) if re.match(r" +(requires|ensures)\b", line)]
    kept = contract[: starts[0]]
    for start, end in zip(starts, [*starts[1:], len(contract)]):
        if re.match(rf" +(requires\b|ensures {name}\b)", contract[start]):
            kept += contract[start:end]
    return kept


def contract_of(place):
    """Returns the contract that a page asks for: its file, its lines, and what names its file takes."""
    crate, *of_type, name = place.call.split("::")
    margin = "    " if of_type else ""
    head = rf"^(?:#\[[^\n]*\n)*{margin}pub (?:extern \"C\" )?fn {name}\b.*?(?=^{margin}\{{)"
    for file, text in code_of(crate).items():
        found = re.search(head, text, re.MULTILINE | re.DOTALL)
        if found and all(re.search(rf"^impl\b.* {it}\b", text, re.MULTILINE) for it in of_type):
            uses = Uses()
            for line in re.findall(r"^ghost use .*;$", text, re.MULTILINE):
                uses.add(line)
            lines = textwrap.dedent(found[0]).splitlines()
            return file, only_clause(lines, place.clause) if place.clause else lines, uses
    raise LookupError(f"crate {crate} has no call {name}")


class Statement:
    """All that the contract of a call speaks of: the lines of definitions and types by their files and names, crate by crate,
    the highest first, in each in the order in which a reader needs them first, and names from outside."""

    def __init__(self, place):
        self.abstract, self.fields = place.abstract, place.fields
        self.file, self.contract, uses = contract_of(place)
        self.shown, self.outside, self.waiting = {}, {}, []
        for line in self.contract:
            for word in NAME.findall(line):
                self.visit(uses.place_of(word))
        # The list grows: what a definition speaks of comes after all that was named before.
        for module, definition in self.waiting:
            self.visit_words(module, definition)
        # No definition speaks of a crate above its own.
        height = {it.name: n for n, it in enumerate(read_crates())}
        self.shown = dict(sorted(self.shown.items(), key=lambda it: -height[it[0][0].split("/")[1]]))

    def visit(self, place):
        """Adds what is at a place."""
        if place is None:
            return
        name, word = place
        _, crate, *parts = name.split(".")
        if not glob.glob(f"{ROOT}/crates/{crate}"):
            self.outside.setdefault(name.removeprefix("Rattle."), set()).add(word)
        elif "declared" in parts:
            kind = parts[-2] if parts[-1] == "TheVariants" else word
            path, lines = type_named(crate, kind)
            self.shown.setdefault((path, kind), lines)
        else:
            self.visit_definition(module_of(name), word)

    def visit_definition(self, module, word):
        if word in self.abstract:
            return None
        if word not in module.definitions:
            # A constructor, which its type brings, or a name that the module passes on.
            return self.visit(module.uses.names.get(word)) or self.visit_constructor(module, word)
        if (module.path, word) not in self.shown:
            definition = module.definitions[word]
            definition = self.fields and definition.only(self.fields) or definition
            self.shown[module.path, word] = definition.lines
            self.waiting.append((module, definition))

    def visit_words(self, module, definition):
        """Adds what a definition speaks of."""
        for it in definition.words():
            first = it.partition(".")[0]
            if first in module.definitions or first in {c for d in module.definitions.values() for c in constructors(d)}:
                self.visit_definition(module, first)
            else:
                self.visit(module.uses.place_of(it))

    def visit_constructor(self, module, word):
        for name, it in module.definitions.items():
            if word in constructors(it):
                self.visit_definition(module, name)


@functools.cache
def statement_of(place):
    """Returns what the contract that a page asks for speaks of."""
    return Statement(place)


def shown_after(earlier, place):
    """Returns what the contract at a place speaks of and earlier ones don't."""
    known = {at for it in earlier for at in statement_of(it).shown}
    return {at: lines for at, lines in statement_of(place).shown.items() if at not in known}


def count(shown):
    """Returns how many definitions are shown, how many lines and comment lines they have, and how many types there are."""
    found = [lines for (path, _), lines in shown.items() if path.endswith(".antt")]
    lines = [line for it in found for line in it]
    comments = sum(line.strip().startswith("--") for line in lines)
    return len(found), len(lines), comments, len(shown) - len(found)


def constructors(definition):
    """Returns the constructors of a definition by cases."""
    if not any(" data " in f" {it}" for it in definition.lines):
        return []
    return [found[1] for it in definition.lines if (found := re.match(r"  (?:pub )?([A-Z]\w*) :", it))]


def counted(count, what):
    """Returns a count of things in words."""
    return f"{count} {what}{'' if count == 1 else 's'}"


def in_words(counts):
    """Returns the counts of a statement in words."""
    definitions, lines, comments, types = counts
    kinds = f"{counted(definitions, 'definition')} in {lines} lines, {comments} of them comments"
    return f"{kinds}, and {counted(types, 'type')} of the program"


def total_of(places):
    """Returns the line of a page that says how much it has in all sections."""
    counts = [count(shown_after(places[:n], it)) for n, it in enumerate(places)]
    return f"All sections: {in_words([sum(them) for them in zip(*counts)])}."


def block(language, path, parts):
    """Returns the lines of a page for parts of a file."""
    lines = [line for part in parts for line in [*part, ""]]
    return [f"`{path.removeprefix('crates/')}`", "", f"```{language}", *lines[:-1], "```", ""]


def lines_of(place, earlier):
    """Returns the lines of a page for the contract that it asks for, and what that speaks of and earlier ones don't."""
    statement, shown = statement_of(place), shown_after(earlier, place)
    page = [f"{in_words(count(shown))}.", ""] if shown else []
    page += block("rust", statement.file, [statement.contract])
    for path, found in itertools.groupby(shown.items(), key=lambda it: it[0][0]):
        page += block("rust" if path.endswith(".rt") else "text", path, [lines for _, lines in found])
    outside = [f"- `{module}`: {', '.join(sorted(names))}" for module, names in sorted(statement.outside.items())]
    return [*page, "Defined by the standard library and ported crates:", "", *outside]
