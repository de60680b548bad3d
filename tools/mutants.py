"""Tries the mutants of the crates for `./gate`: edits of the code that break a promise, each of which the prover has to refuse.

A mutant is a file must-fail/NAME.edit of a crate, as `rt must-fail` reads it. The line `file:` names a file. Each line `old:`
has a text that occurs once there, and the line `new:` after it has its replacement. The line `function:`, which `rt` skips,
names the function that can't be proved any more, the edited one or its caller, as its path below the crate.

`rt must-fail` checks a complete crate for each mutant. This checks only the functions that mutants name, and what they call.
A function is proved from its own body and from the contracts of what it calls. So mutants of several functions are tried in
one check: each has to be refused at its function, and all other functions have to be proved. If a function calls another one
that is refused, its mutant is tried in the next check. A mutant that changes more than the body of its function is tried alone.
"""

import hashlib
import os
import re
import shutil
import signal
import subprocess
import tempfile

from builder import OUT, ROOT, asked_of_rt, crates_of, text_of
from results import Counts, report, sum_of

# The last line of a check of some functions: how many there were, those that they call among them, and were proved.
ENDED = re.compile(r"only=(\d+) proved=(\d+)")

# A function's line, and what it says of one that isn't proved: for a goal of its own, or since it calls one that isn't.
FUNCTION = re.compile(r"fn (\S+): (.*)")
OWN_GOAL = re.compile(r"not proved$|no proof: expected answers in ")
CALLS = re.compile(r"\bit calls `")

# What it says of a function that isn't named by a mutant: it is proved, or its turn comes when those that it calls are.
FINE = re.compile(rf"proved|.*{CALLS.pattern}")

# What a check prints if it can't read a text, for example if a proof names what an edit removed.
UNREAD = "is not in scope|has no field|has no `|is no name|was not admitted|operand is missing|expected the end|cannot continue"
UNREAD = re.compile(UNREAD)

# A goal that isn't proved: its file and line.
GOAL = re.compile(r"note: (\S+):(\d+):\d+: it is not proved that ")

# The line that begins a function.
BEGIN = re.compile(r"(?P<indent> *)(?:pub(?:\([a-z]+\))? )?(?:const |unsafe |extern \"C\" )*fn (\w+)")

# How many lines of a check are shown if it didn't end as expected, and the lines that only count what was read.
MOST_SHOWN = 12
COUNTED = re.compile(r"(statements|crate) \w+: modules |logic ")


class BadEdit(Exception):
    """Why a mutant can't be tried."""


class Mutant:
    """An edit of a crate's code, and the function that is not to be proved with it."""

    def __init__(self, path):
        self.name = os.path.basename(path).removesuffix(".edit")
        self.function, self.changes, file, old = "", [], "", ""
        for line in (text_of(path) or "").splitlines():
            word, _, rest = line.partition(":")
            rest = rest.removeprefix(" ")
            if word == "file":
                file = rest.strip()
            elif word == "function":
                self.function = rest.strip()
            elif word == "old":
                old = rest
            elif word == "new":
                self.changes.append((file, old, rest))

    def edit(self, folder, texts):
        """Makes its changes in texts of files, by their paths in the crate's folder. A file without a text there is read."""
        if not self.function or not self.changes:
            raise BadEdit("it names no function, or changes nothing")
        for file, old, new in self.changes:
            text = texts.get(file) or text_of(f"{folder}/{file}") or ""
            if not file.startswith("src/") or not old or text.count(old) != 1:
                raise BadEdit(f"{file}, which has to be in src/, doesn't have the text once: {old}")
            texts[file] = text.replace(old, new)

    def place(self, folder):
        """Returns the file and the lines, from 1, of its function, if all its changes are in the body of this function."""
        places = {place_of(self.function.rpartition("::")[2], folder, file, old) for file, old, _ in self.changes}
        return places.pop() if len(places) == 1 else None


def place_of(function, folder, file, text):
    """Returns the file and the lines of the function whose body has a text, or None if no function's body has it."""
    lines = (text_of(f"{folder}/{file}") or "").split("\n")
    at = next((number for number, line in enumerate(lines) if text in line), 0)
    begins = [number for number in range(at) if BEGIN.match(lines[number])]
    begin = BEGIN.match(lines[begins[-1]]) if begins else None
    if not begin or begin[2] != function:
        return None
    # Files are laid out: a function ends at a brace as far to the right as it begins.
    end = f"{begin['indent']}}}"
    if end in lines[begins[-1] : at] or end not in lines[at:]:
        return None
    return file, begins[-1] + 1, lines.index(end, at) + 1


def mutants_of(name):
    """Returns the mutants of a crate that the gate tries."""
    folder = f"{ROOT}/crates/{name}/must-fail"
    files = sorted(os.listdir(folder)) if os.path.isdir(folder) else []
    return [Mutant(f"{folder}/{it}") for it in files if it.endswith(".edit")]


def crates_with_mutants():
    """Returns the names of the crates that have mutants, those first whose trials take longest."""
    counts = {name: len(mutants_of(name)) for name in sorted(os.listdir(f"{ROOT}/crates"))}
    seconds = {name: crates_of(name)[-1].seconds / 3 + 6 * count for name, count in counts.items() if count}
    return sorted(seconds, key=lambda name: -seconds[name])


def names_below(name):
    """Returns the names of the crates that a crate depends on. Its mutants are tried over their libraries."""
    return [it.name for it in crates_of(name)[:-1]]


class Trial:
    """The mutants of a crate, tried over the libraries of the crates below it."""

    def __init__(self, name, library_of, kept):
        *below, self.crate = crates_of(name)
        for crate in below:
            crate.made = library_of(crate.name)
        self.kit, self.kept = os.path.dirname(asked_of_rt("doc")), kept

    def together(self, mutants):
        """Returns those of some mutants that are tried in one check: each is one of another function."""
        of_one = {it.function: it for it in reversed(mutants) if it.place(self.crate.folder)}
        return mutants[:1] if mutants[0] not in of_one.values() else [*of_one.values()]

    def check(self, mutants):
        """Checks the functions that mutants name, and what they call, with these edits. Returns the status and the lines of
        the output. The next check uses what was proved."""
        with tempfile.TemporaryDirectory(prefix="bootswap-mutant-") as room:
            for part in ("src", "specs", "proofs"):
                if os.path.isdir(f"{self.crate.folder}/{part}"):
                    shutil.copytree(f"{self.crate.folder}/{part}", f"{room}/{part}")
            texts = {}
            for mutant in mutants:
                mutant.edit(self.crate.folder, texts)
            for file, text in texts.items():
                with open(f"{room}/{file}", "w", encoding="utf-8") as it:
                    it.write(text)
            functions = sorted({it.function for it in mutants})
            words = [*self.crate.check_words(self.kit, functions), "--incremental", self.kept]
            streams = {"stdin": subprocess.DEVNULL, "stdout": subprocess.PIPE, "stderr": subprocess.STDOUT}
            ran = subprocess.run(words, cwd=room, text=True, errors="replace", **streams)
            if ran.returncode == -signal.SIGKILL:
                # Most likely for memory, of which there may be more now.
                ran = subprocess.run(words, cwd=room, text=True, errors="replace", **streams)
        return ran.returncode, ran.stdout.rstrip("\n").split("\n")

    def tried(self, mutants):
        """Tries mutants in one check. Returns what is wrong with each: nothing if it is refused at its function for what it
        does. None if it has to be tried again, because its function calls another one that is refused, or because there is no
        verdict on some mutants together."""
        is_alone = len(mutants) == 1
        try:
            status, lines = self.check(mutants)
        except BadEdit as why:
            return dict.fromkeys(mutants, [str(why)] if is_alone else None)
        said = dict(it.groups() for it in map(FUNCTION.fullmatch, lines) if it)
        named = {f"{self.crate.name}::{it.function}" for it in mutants}
        others = [it for it, verdict in said.items() if not FINE.match(verdict) and it not in named]
        if status not in (0, 1) or not ENDED.fullmatch(lines[-1]) or others:
            why = ["the check didn't end as it has to", *others, *last_of(lines)]
            return dict.fromkeys(mutants, why if is_alone else None)
        verdicts = {it: said.get(f"{self.crate.name}::{it.function}", "") for it in mutants}
        return {it: self.faults_of(it, verdict, lines, is_alone) for it, verdict in verdicts.items()}

    def faults_of(self, mutant, verdict, lines, is_alone):
        """Returns what is wrong with a mutant by the verdict on its function."""
        if CALLS.search(verdict):
            return None
        if not OWN_GOAL.match(verdict):
            return [f"of its function the check says: {verdict}", *last_of(lines)]
        # What is found wrong in the proof of the function, which has a folder of its path, or at a goal of it.
        folder, place = f"./proofs/{mutant.function.replace('::', '/')}/", mutant.place(self.crate.folder)
        told = [it for it in lines if it.startswith(folder) and ": error: " in it]
        goals = [it for it in map(GOAL.match, lines) if it]
        of_it = [it for it in goals if is_alone or it[1] == place[0] and place[1] <= int(it[2]) <= place[2]]
        if told and not of_it and all(map(UNREAD.search, told)):
            return ["it is refused only since its proof names what it takes away", *told[:MOST_SHOWN]]
        return []


def last_of(lines):
    """Returns the last lines of a check, except those that count what it read."""
    return [it for it in lines if not COUNTED.match(it)][-MOST_SHOWN:]


def digest_of(name):
    """Returns a digest of all that decides about the mutants of a crate: its sources, those of the crates below it, the
    toolchain, the mutants and the code here."""
    folder = f"{ROOT}/crates/{name}/must-fail"
    texts = [(it, text_of(f"{folder}/{it}")) for it in sorted(os.listdir(folder))]
    own = crates_of(name)[-1].digest(asked_of_rt("version"))
    return hashlib.sha256(repr((own, texts, text_of(__file__))).encode()).hexdigest()


def try_mutants(name, library_of, anew=False):
    """Tries the mutants of a crate, over the libraries that this names by their crates, and returns the counts of
    those that were refused, and weren't. If all were refused before, and nothing has changed since, it says so instead,
    unless they are to be tried anew."""
    kept, digest, left = f"{OUT}/mutants/{name}", digest_of(name), mutants_of(name)
    if not anew and text_of(kept) == digest:
        return sum_of(report(f"{line_of(name, it)}, as before: nothing has changed", []) for it in left)
    with tempfile.TemporaryDirectory(prefix="bootswap-kept-") as folder:
        counts, trial = Counts(), Trial(name, library_of, f"{folder}/proved")
        while left:
            chosen = trial.together(left)
            tried = trial.tried(chosen)
            if all(faults is None for faults in tried.values()):
                alone = trial.tried(chosen[:1])[chosen[0]]
                tried = {chosen[0]: ["its function calls one that isn't proved"] if alone is None else alone}
            for mutant, faults in tried.items():
                if faults is not None:
                    left.remove(mutant)
                    counts = counts.and_then(report(line_of(name, mutant), faults))
    if not counts.failed:
        os.makedirs(os.path.dirname(kept), exist_ok=True)
        with open(kept, "w", encoding="utf-8") as it:
            it.write(digest)
    return counts


def line_of(name, mutant):
    return f"mutant {name}/{mutant.name} is refused at {mutant.function}"
