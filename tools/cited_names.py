"""What the pages of docs/ name of the code: files, calls and definitions. Each has to be there."""

import functools
import glob
import os
import re

import promises
from crate_heads import ROOT, text_of

CITED = re.compile(r"`([^`\n]+)`")
FILE = re.compile(r"(?:\./)?[\w./]+\.(?:rt|antt|py|c|js|rs)")
PATH = re.compile(r"(?:\w+::)*(\w+)::(\w+)")
LINK = re.compile(r"\]\(([^)#:]+)(?:#[^)]*)?\)")


@functools.cache
def sources():
    """Returns the words in each file of a crate, by its path below crates/: those of its path and of its text, without
    comments."""
    paths = [path for it in ("rt", "antt") for path in glob.glob(f"*/*/**/*.{it}", root_dir=f"{ROOT}/crates", recursive=True)]
    texts = {it: re.sub(r"^\s*//.*", "", text_of(f"crates/{it}"), flags=re.MULTILINE) for it in paths if "/out/" not in it}
    return {path: {*re.findall(r"\w+", path + text)} for path, text in texts.items()}


@functools.cache
def words_of(crate=""):
    """Returns the words in the files of a crate, or of all."""
    return {word for path, words in sources().items() if path.startswith(f"{crate}/" if crate else "") for word in words}


def unknown_words(text, crate=""):
    """Returns the words in names which a text cites that a crate doesn't have, or no crate."""
    names = [it for it in CITED.findall(text) if re.fullmatch(r"[\w:]+", it)]
    return sorted({word for it in names for word in re.findall(r"\w+", it)} - words_of(crate))


def unknown_paths(text):
    """Returns the paths of calls that a text cites, as `ascii::number`, if no file has both of its last two words."""
    paths = [it for it in CITED.findall(text) if PATH.fullmatch(it)]
    return [it for it in paths if not any({*PATH.fullmatch(it).groups()} <= words for words in sources().values())]


@functools.cache
def other_files():
    """Returns the paths of files that are of no crate."""
    folders = (".ci", "bench", "bindings", "examples", "tests", "tools", "web")
    return [path for it in folders for path in glob.glob(f"{it}/**/*.*", root_dir=ROOT, recursive=True)]


def unknown_files(text):
    """Returns the files that a text cites and that aren't there. A text may leave out the folder."""
    files = [it for it in CITED.findall(text) if FILE.fullmatch(it)]
    known = [f"/{path}" for path in [*sources(), *other_files()]]
    return [it for it in files if not any(path.endswith(f"/{it.removeprefix('../')}") for path in known)]


def faults_of(page, text):
    """Returns what is wrong with the names in a page."""
    text = re.sub(r"^```.*?^```", "", text, flags=re.MULTILINE | re.DOTALL)
    names = [*unknown_paths(text), *unknown_files(text)]
    if page == promises.PAGE:
        names += unknown_words("".join(promises.CALLS.search(it[0])[0] for it in promises.promises_in(text)))
    names += [it for it in LINK.findall(text) if not os.path.exists(f"{ROOT}/docs/{it}")]
    return [f"{page}: it names {it}, which isn't there" for it in dict.fromkeys(names)]
