"""The examples of the libraries, as tests run them and as doc comments show them.

In `crates/layer_tests/src/examples/` the lines of an example stand between two comments:

    // example: CRATE::CALL
    let running = Version::parse("1.9.2+7")?;
    // end of example

CALL is a public item of the crate, as `choose` or `Version::parse`. `tools/docs` writes the lines into its doc comment, as
the section `# Examples`, and appends the section if the comment lacks it.
"""

import dataclasses
import glob
import re
import textwrap

from crate_heads import ROOT, text_of

SOURCES = "crates/layer_tests/src/examples/**/*.rt"

EXAMPLE = re.compile(r"^ *// example: (\w+)::([\w:]+)\n(.*?)^ *// end of example\n", re.MULTILINE | re.DOTALL)
MARK = re.compile(r"^ *// (?:example: |end of example)", re.MULTILINE)
ITEM = r"pub (?:fn|struct|enum|trait|const) {}\b"
HEADING = re.compile(r" *///+ # ")

# How long a line of code is at most.
WIDTH = 100


@dataclasses.dataclass
class Example:
    """An example: the crate and the call that it is of, and its lines."""

    crate: str
    call: str
    lines: list


def read_examples(text):
    """Returns the examples in the text of a file."""
    return [Example(it[1], it[2], textwrap.dedent(it[3]).splitlines()) for it in EXAMPLE.finditer(text)]


def item_lines(lines, call):
    """Returns the numbers of the lines at which an item of this name begins in a file."""
    kind, _, name = call.rpartition("::")
    if not kind:
        return [number for number, line in enumerate(lines) if re.match(ITEM.format(name), line)]
    found, is_inside = [], False
    for number, line in enumerate(lines):
        if re.match(rf"impl(?:<.*?>)? {kind}\b(?!.* for )|pub trait {kind}\b", line):
            is_inside = True
        elif line == "}":
            is_inside = False
        elif is_inside and re.match(rf"    (?:pub )?fn {name}\b", line):
            found.append(number)
    return found


def doc_comment(lines, item):
    """Returns the first line of the doc comment of the item at a line, and the line after it; None if there is no comment."""
    end = item
    while end and not lines[end - 1].lstrip().startswith("///"):
        if not lines[end - 1].strip():
            return None
        end -= 1
    start = end
    while start and lines[start - 1].lstrip().startswith("///"):
        start -= 1
    return (start, end) if start < end else None


def with_example(lines, item, example):
    """Returns the lines of a file whose item at this line shows an example in its doc comment. None if it has no comment."""
    place = doc_comment(lines, item)
    if not place:
        return None
    start, end = place
    before = re.match(" *///", lines[start])[0]
    section = [f"{before} {it}".rstrip() for it in ["# Examples", "", "```text", *example.lines, "```"]]
    first = next((it for it in range(start, end) if lines[it] == f"{before} # Examples"), None)
    if first is None:
        return [*lines[:end], before, *section, *lines[end:]]
    last = next((it for it in range(first + 1, end) if HEADING.match(lines[it])), end)
    rest = [before, *lines[last:end]] if last < end else []
    return [*lines[:first], *section, *rest, *lines[end:]]


def written(examples, sources):
    """Returns the files whose doc comments change if each shows its example, with their new texts, and what is wrong.

    `sources` are the texts of all files of the crates by their paths.
    """
    new, faults = dict(sources), []
    for example in examples:
        name = f"{example.crate}::{example.call}"
        paths = [it for it in sorted(new) if it.startswith(f"crates/{example.crate}/src/")]
        places = [(path, item) for path in paths for item in item_lines(new[path].split("\n"), example.call)]
        if len(places) != 1:
            faults.append(f"an example is of {name}, and {len(places)} items have this name")
            continue
        path, item = places[0]
        before = new[path].split("\n")
        lines = with_example(before, item, example)
        if lines is None:
            faults.append(f"{path}: {name} has an example and no doc comment")
        elif any(len(it) > WIDTH for it in {*lines}.difference(before)):
            faults.append(f"{path}: the example of {name} has a line of more than {WIDTH} characters there")
        else:
            new[path] = "\n".join(lines)
    return {path: text for path, text in new.items() if text != sources[path]}, faults


def read_all():
    """Returns the examples of the tests, the texts of all files that may show one, and what is wrong with the tests."""
    tests = {it: text_of(it) for it in sorted(glob.glob(SOURCES, root_dir=ROOT, recursive=True))}
    examples = [example for text in tests.values() for example in read_examples(text)]
    faults = [
        f"{path}: a comment that begins or ends an example has no partner"
        for path, text in tests.items()
        if len(MARK.findall(text)) != 2 * len(read_examples(text))
    ]
    crates = sorted({it.crate for it in examples})
    paths = [it for crate in crates for it in glob.glob(f"crates/{crate}/src/**/*.rt", root_dir=ROOT, recursive=True)]
    return examples, {it: text_of(it) for it in paths}, faults
