"""The commands of docs/TUTORIAL.md, and of other documents, with what they print."""

import re

from builder import ROOT, text_of

# The version and the commit that a document shows.
VERSION = re.compile(r"(?<=^bootswap )\d+\.\d+\.\d+[ +]\([0-9a-f]{12}\)$", re.MULTILINE)


def commands_of(document, version):
    """Yields the commands of a document, `$ ` and a command, each with the lines below it. They print this version."""
    for block in re.findall(r"^```console\n(.*?)^```$", text_of(f"{ROOT}/{document}"), re.MULTILINE | re.DOTALL):
        for part in re.split(r"^\$ ", block, flags=re.MULTILINE)[1:]:
            command, printed = part.split("\n", 1)
            yield command, VERSION.sub(version, printed)
