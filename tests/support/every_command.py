"""Every command, each with a small run. The tests of what holds for all commands loop over this table."""

from typing import NamedTuple

from support.files import EXAMPLES, ONE, PAIR, read, report, table
from support.flashes import flash_of

# The files that the runs read, besides `flash`.
FILES = {
    "table": read(table("pair")),
    "report": read(report("pair")),
    "fleet": b"device a\n" + read(table("pair")),
    "image": read(ONE),
    "device": read(PAIR),
    "manifest": read(f"{EXAMPLES}/manifests/abc.json"),
    "script": b"boot\n",
    "body": b"ABCD",
}


class Command(NamedTuple):
    """A command.

    `words` are the arguments of a run that ends with status 0, `takes` is the end of its usage, `makes` is the file that this run makes or changes, and
    `json` is whether the command takes `--json`.
    """

    name: str
    words: str
    takes: str
    json: bool = False
    makes: str = ""

    @property
    def usage(self):
        return f"{self.name} [OPTIONS] {self.takes}".strip()

    def arguments(self):
        return [self.name, *self.words.split()]

    def inputs(self):
        """Returns the place and the name of each file that the run reads."""
        names = [it.rpartition("=")[2] for it in self.arguments()]
        return [(at, it) for at, it in enumerate(names) if at and (it in FILES or it == "flash")]

    def reading(self, at, name):
        """Returns the arguments of the run with another file at a place."""
        words = self.arguments()
        words[at] = "".join(words[at].rpartition("=")[:2]) + name
        return words


EVERY = [
    Command("choose", "table", "<TABLE>", json=True),
    Command("check", "table report", "<TABLE> <REPORT>", json=True),
    Command("plan", "fleet", "<FLEET>...", json=True),
    Command("image", "image", "<FILE>", json=True),
    Command("manifest", "device manifest", "<DEVICE> <FILE>", json=True),
    Command("make-device", "--sector=512 --slots=2,2 --vendor=python.org --class=sensor",
        "--sector <BYTES> --slots <N,N,..>\n           --vendor <DOMAIN> --class <NAME>"),
    Command("make-image", "made body --version=1", "--version <VERSION> <OUT> <BODY>", makes="made"),
    Command("make-manifest", "device --sequence=1 --test=0=image", "--sequence <N> <DEVICE>"),
    Command("provision", "device new image image", "<DEVICE> <FLASH> <IMAGE>...", makes="new"),
    Command("extract", "device flash 0 primary made", "<DEVICE> <FLASH> <IMAGE> <SIDE> <OUT>", makes="made"),
    Command("show", "device flash", "<DEVICE> <FLASH>", json=True),
    Command("slots", "device flash", "<DEVICE> <FLASH>", json=True),
    Command("run", "device flash script", "<DEVICE> <FLASH> <SCRIPT>", json=True, makes="flash"),
    Command("sweep", "device script image image",
        "<DEVICE> <SCRIPT> <IMAGE>...\n       bootswap sweep --merge [--svg <FILE>] <OUTPUT>...", json=True),
    Command("codes", "", "", json=True),
]

BY_NAME = {it.name: it for it in EVERY}


def write_inputs(test, before=""):
    """Writes each file that the runs read, with these letters before its name."""
    for name, contents in {**FILES, "flash": flash_of(test)}.items():
        test.file(before + name, contents)
