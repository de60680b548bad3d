"""The files of definitions that a promise of docs/PROOFS.md speaks of: those that the contracts of its calls name.

The calls of a promise are in groups, separated by semicolons: functions or types, and in parentheses clauses of their contracts.
A clause is an `ensures` of a function, or a field of a record that its contract names, also by way of other records.
"""

import functools
import os
import re

from cited_names import CITED
from crate_heads import ROOT
from statements import FIELD, NAME, Uses, code_of, module_of

FUNCTION = re.compile(r"^( *)(?:pub(?:\([^)]*\))? )?(?:extern \"C\" )?fn (\w+)\b(.*?)(?=^\1\{|;$)", re.MULTILINE | re.DOTALL)
BLOCK = re.compile(r"^(?:pub )?(?:unsafe )?(?:impl|trait)\b([^{]*)\{.*?^\}", re.MULTILINE | re.DOTALL)
GHOST = re.compile(r"^ +ghost (\w+) = (\{.*?\});$", re.MULTILINE | re.DOTALL)
PARENTHESES = re.compile(r"\(([^)]*)\)")
# How far below a contract the record of a clause is.
MOST_LEVELS = 4


def clauses_of(contract):
    """Returns the names in each clause of a contract, by the name of the clause, or "" if it has none."""
    parts = re.split(r"^ +ensures\b", contract, flags=re.MULTILINE)[1:]
    return [(it.partition("{")[0].strip(), NAME.findall(it.partition("{")[2])) for it in parts]


@functools.cache
def contracts_of(crate):
    """Returns the contracts of a crate: the function or the types that it is of, its clauses, and what names its file takes."""
    found = []
    for text in code_of(crate).values():
        uses = Uses()
        for line in re.findall(r"^ *(ghost use .*;)$", text, re.MULTILINE):
            uses.add(line)
        found += [({it[2]}, clauses_of(it[3]), uses) for it in FUNCTION.finditer(text)]
        for block in BLOCK.finditer(text):
            types = {*re.findall(r"\b[A-Z]\w*", block[1])}
            found.append((types, [(name, NAME.findall(it)) for name, it in GHOST.findall(block[0])], uses))
            found += [(types, clauses_of(it[3]), uses) for it in FUNCTION.finditer(block[0])]
    return found


def contracts_named(names, crates):
    """Returns the contracts of the functions among names, and of the blocks that speak of the most of the types among them."""
    every = [it for crate in crates for it in contracts_of(crate)]
    types = {it for it in names if it[0].isupper()}
    most = max((len(of & types) for of, _, _ in every), default=0)
    return [it for it in every if it[0] & ({*names} - types) or most and len(it[0] & types) == most]


def definitions_of(words, uses, module=None):
    """Yields the definitions that words name, each with its file, in a file of code or in a module."""
    for word in words:
        place = uses.place_of(word)
        if module and word.partition(".")[0] in module.definitions:
            yield module, module.definitions[word.partition(".")[0]]
        elif place and "declared" not in place[0] and (found := module_of(place[0])) and place[1] in found.definitions:
            yield found, found.definitions[place[1]]


def fields_of(definition):
    """Returns the fields of a definition."""
    return {found[1] for line in definition.lines if (found := FIELD.match(line))}


def files_of_group(contracts, wanted):
    """Returns the files that the wanted clauses of contracts speak of. A contract without any of them counts as a whole."""
    level, known = [], set()
    for _, clauses, uses in contracts:
        own = {name for name, _ in clauses} & wanted
        known |= own
        level += [it for name, words in clauses if not own or name in own for it in definitions_of(words, uses)]
    files = [module.path for module, _ in level]
    for _ in range(MOST_LEVELS):
        wanted, below = wanted - known, []
        for module, it in level if wanted else []:
            fields = fields_of(it) & wanted
            known |= fields
            if fields:
                files += [module.path, *(it.path for it, _ in definitions_of(it.only(fields).words(), module.uses, module))]
            below += definitions_of(it.words(), module.uses, module)
        level = list({(module.path, it.name): (module, it) for module, it in below}.values())
    return files


def files_of(calls, crates):
    """Returns the files of definitions of a promise, by its calls and the crates of its section. Files of other crates count
    only if there are none of these."""
    files = []
    for group in calls.split(";"):
        names = CITED.findall(PARENTHESES.sub("", group))
        named = [it for name in names for it in name.split("::")[:1] if os.path.isdir(f"{ROOT}/crates/{it}")]
        wanted = {it for part in PARENTHESES.findall(group) for it in CITED.findall(part) if it.islower()}
        files += files_of_group(contracts_named([it.split("::")[-1] for it in names], named or crates), wanted)
    own = [it for it in files if it.split("/")[1] in crates]
    return [*dict.fromkeys(own or files)]
