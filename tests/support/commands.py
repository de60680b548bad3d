"""The arguments of commands that several tests run."""

from support.every_command import EVERY
from support.files import EXAMPLES, ONE, PAIR, read


COMMANDS = tuple(it.name for it in EVERY)


def make_manifest(*options, of=PAIR, sequence=1):
    """The arguments of `make-manifest` for a device, a sequence number and options."""
    return ["make-manifest", of, "--sequence", str(sequence), *options]


# The commands that make a file: the arguments, the file, and how they end if it can't be made.
MAKING = [
    (["provision", PAIR, "flash", ONE, ONE], "flash", (4, b"", b"error: flash file\n")),
    (["extract", PAIR, "flash", "0", "primary", "copied"], "copied", (1, b"", b"error: cannot write copied\n")),
    (
        ["make-image", "made", "body", "--version=1.0.0", "--counter=5", "--needs=1 2.0.0", "--needs-one=1 2 2 2"],
        "made",
        (1, b"", b"error: cannot write made\n"),
    ),
]

ABC_MANIFEST = f"{EXAMPLES}/manifests/abc.json"


def replaced_by(arguments, made):
    """Returns other contents of a file that the command of these arguments replaces: it makes a flash, a picture or an image,
    and made these bytes."""
    image = read(f"{EXAMPLES}/images/counted.img")
    return {"provision": bytes(len(made)), "sweep": made + b"\n"}.get(arguments[0], image)
