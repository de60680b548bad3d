"""The crates of this repository: what `crates.txt` says of each, and what its head says, which is the comment that its
`lib.rt` or `main.rt` begins with.

The first sentence of a head says what the crate is for. Items of a list say more, each begun by one of `LABELS`:

    //! The trailer after each slot, with MCUboot's fields.
    //!
    //! - Promises: Settling can be repeated.
    //! - Main calls: `read_trailer`, `settle`
    //! - Allocates: no.
    //! - Callers: `swap_scratch`, `boot_core`
"""

import dataclasses
import os
import re

ROOT = os.path.dirname(os.path.dirname(os.path.realpath(__file__)))

# A crate of which something is proved has `Promises` and `Main calls`. If `Callers` names crates, it names all that call
# this one, except tests. If it names none, as in "any crate", any may call it.
LABELS = ("Promises", "Main calls", "Allocates", "Callers")

ITEM = re.compile(rf"- ({'|'.join(LABELS)}): (.*)")
FIRST_SENTENCE = re.compile(r"(.+?)\.(?: |$)")


@dataclasses.dataclass
class Crate:
    """A crate: the crates of the repository that it calls, as `crates.txt` has them, what it is for, and the items of its head by
    their labels, without their full stops."""

    name: str
    calls: list
    purpose: str
    items: dict

    @property
    def is_test(self):
        return self.name.endswith("_tests")


def text_of(path):
    """Returns the text of a file of the repository."""
    with open(f"{ROOT}/{path}", encoding="utf-8") as file:
        return file.read()


def head_of(name):
    """Returns the lines of a crate's head."""
    root = next(it for it in ("lib.rt", "main.rt") if os.path.exists(f"{ROOT}/crates/{name}/src/{it}"))
    comment = re.match(r"(?:///?!?.*\n)*", text_of(f"crates/{name}/src/{root}"))[0]
    return [re.sub(r"^///?!? ?", "", line) for line in comment.splitlines()]


def read_head(lines):
    """Returns what a crate is for, and the items of its head by their labels."""
    first = " ".join(lines[: lines.index("")] if "" in lines else lines)
    sentence = FIRST_SENTENCE.match(first)
    items, label = {}, None
    for line in lines:
        item = ITEM.match(line)
        if item:
            label = item[1]
            items[label] = item[2]
        elif label and line.startswith("  "):
            items[label] += f" {line.strip()}"
        else:
            label = None
    return sentence[1] if sentence else "", {label: text.removesuffix(".") for label, text in items.items()}


def read_crates():
    """Returns the crates in the order of `crates.txt`, lowest first, those of tests after all others."""
    lines = [it.partition("#")[0].strip() for it in text_of("crates.txt").splitlines()]
    parts = [it.partition(":") for it in lines if it]
    called = {head.split()[0]: rest.split() for head, _, rest in parts}
    crates = []
    for name, below in called.items():
        crates.append(Crate(name, [it for it in below if it in called], *read_head(head_of(name))))
    return sorted(crates, key=lambda it: it.is_test)


def faults_of(crates):
    """Returns what is wrong with the heads of crates."""
    names = {it.name for it in crates}
    for crate in crates:
        if not crate.purpose:
            yield f"{crate.name}: its head doesn't begin with a sentence"
        if "Allocates" not in crate.items:
            yield f"{crate.name}: its head has no item `Allocates`"
        if ("Promises" in crate.items) != ("Main calls" in crate.items):
            yield f"{crate.name}: its head has one of `Promises` and `Main calls` alone"
        named = names & set(re.findall(r"`(\w+)`", crate.items.get("Callers", "")))
        callers = {it.name for it in crates if crate.name in it.calls and not it.is_test}
        if named and named != callers:
            yield f"{crate.name}: its head names as callers {sorted(named)}, and crates.txt has {sorted(callers)}"
