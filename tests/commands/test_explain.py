"""The notes of `--explain`."""

import hashlib
import os
import subprocess

from support.builders import ABC, CLASS, COUNTER, DEPENDENCY, component, device, image, little, manifest, version
from support.commands import make_manifest
from support.every_command import EVERY, write_inputs
from support.files import ONE, PAIR, names_in, read, table
from support.flashes import flash_of
from support.printed import error, refused
from support.program import ProgramTest, obey_permissions
from support.stories import IMAGES, flash_in, new_device, script_of
from support.tables import text_of
from support.worked import PLAIN, numbered

VERSIONS = [
    "a VERSION is major.minor.revision+build, of which last parts may be left out; numbers are",
    "decimal, without leading zeros; one space separates words",
]
REASONS = [
    "a REASON is damaged, older, counter, no-such-image J, needs J VERSION, or needs-one with",
    "one to four pairs J VERSION",
]

NEEDS, GROUPS = " `needs J VERSION`,", " `needs-one J VERSION ..`,"
REQUESTS, NEXT = " `request VERSION COUNTER`, `damaged`,", " `image 1 VERSION COUNTER FLOOR`"

# Tables that are refused at their last line, the line as it is printed, and what is accepted there.
TABLES = [
    (b"image 1 1 0 0\n", "image 1 1 0 0", " `image 0 VERSION COUNTER FLOOR`"),
    (b"image 0 1 0 0\nneeds 00 1\n", "needs 00 1", NEEDS + GROUPS + REQUESTS + NEXT),
    (b"image 0 1 0 0\nneeds-one 0 1\nneeds 0 1", "needs 0 1", GROUPS + REQUESTS + NEXT),
    (b"image 0 1 0 0\nrequest 2 0\ndamaged\n", "damaged", NEEDS + GROUPS + NEXT),
    (b"image 0 1 0 0\ndamaged\nneeds 0 1\n", "needs 0 1", NEXT),
    (b"image 0 1 0 0\n\xff\n", "\\xff", NEEDS + GROUPS + REQUESTS + NEXT),
    (b"".join(b"image %d 1 0 0\n" % it for it in range(9)), "image 8 1 0 0",
        NEEDS + GROUPS + REQUESTS + " no further image: a table has 8 at most"),
]

# A table whose first six requests are refused, each for another reason, and the notes.
REFUSED = text_of(
    "image 0 2.0.0+0 0 0, damaged, image 1 2.0.0+0 0 0, request 1.9.0+0 0, image 2 1.0.0+0 5 5, request 2.0.0+0 4, "
    "image 3 1.0.0+0 0 0, request 2.0.0+0 0, needs 9 1.0.0+0, image 4 1.0.0+0 0 0, request 2.0.0+0 0, needs 2 2.0.0+0, "
    "image 5 1.0.0+0 0 0, request 2.0.0+0 0, needs-one 0 3.0.0+0 9 1.0.0+0, image 6 1.0.0+0 0 0, request 2.0.0+0 0"
)
WHY_REFUSED = [
    "image 0: the bytes that are requested are no intact image",
    "image 1: 1.9.0+0 is requested, and 2.0.0+0 runs, which is newer",
    "image 2: 2.0.0+0 is requested with the security counter 4, below the floor 5",
    "image 3: 2.0.0+0 needs image 9; there are images 0 to 6",
    "image 4: 2.0.0+0 needs image 2 from 2.0.0+0 on, which can have 1.0.0+0 at best",
    "image 5: 2.0.0+0 needs one of these: image 0 from 3.0.0+0 on, which can have 2.0.0+0 at best; image 9 from"
    " 1.0.0+0 on, which isn't there",
]

# Wrong reports for a file with a table, and why they are wrong.
OF_REPORTS = text_of("image 0 1 0 0, request 2 0, needs 1 2, image 1 1 0 5, request 2 5")
OF_OLDER = text_of("image 0 2 0 0, request 1 0, image 1 2 0 0, damaged, image 2 1 9 9, request 2 8")
REPORTS = [
    ("reports", "take 0 2", ["the report tells of 1 images, and the table of 2"]),
    ("reports", "take 0 2, take 1 2.0.1", ["report line 2: image 1 would run 2.0.0+0, and 2.0.1+0 is told"]),
    ("reports", "take 0 2, run 1 1", ["image 1: the report neither takes nor refuses its request"]),
    ("reports", "take 0 2, take 1 2, refuse 1 older", ["image 1: the report decides its request 2 times"]),
    ("reports", "take 0 2, take 1 2, refuse 7 older", [
        "report line 3: there is no image 7; the table has images 0 and 1"
    ]),
    ("reports", "take 0 2, run 1 1, refuse 1 older", [
        "image 0: 2.0.0+0 needs image 1 from 2.0.0+0 on, which is 1.0.0+0"
    ]),
    ("reports", "run 0 1, run 1 1, refuse 1 counter, refuse 0 needs 1 2", [
        "report line 3: `counter` is no reason to refuse image 1 after the lines before"
    ]),
    ("reports", "run 0 1, take 1 2, refuse 0 needs 1 2", [
        "report line 3: `needs 1 2.0.0+0` is no reason to refuse image 0 after the lines before"
    ]),
    ("older", "take 0 1, take 1 2, take 2 2", [
        "report line 1 takes 1.0.0+0, and 2.0.0+0 runs, which is newer",
        "report line 2 takes a request that is no intact image",
        "report line 3 takes the security counter 8, below the floor 9",
    ]),
]

WORDS = "cut, accept, piece, finish, withdraw, confirm, boot and reset"
NO_NUMBER = "`%s` is no number of an image: 0 to 255, decimal, without leading zeros"

# Second lines that no script may have, and why.
LINES = {
    "boot now": "nothing follows `boot`",
    "fly": f"`fly` is no word that a line begins with; those are {WORDS}",
    "finish 01": NO_NUMBER % "01",
    "piece x one": NO_NUMBER % "x",
    "piece 0 one 1": "`piece` is followed by the number of an image, the name of a file without a space, and, for a"
    " part of it, its first byte and how many",
    "piece 0 one 01 1": "a file may be followed by two numbers, its first byte and how many: decimal, without leading"
    " zeros",
    "piece 0 one 2 2": "one has 3 bytes, and not 2 from byte 2 on, the first being byte 0",
    "piece 0 -": "standard input is read once, and was read before",
    "accept a b": "`accept` is followed by the name of one file, in UTF-8 and without a space",
    "cut 0 keep": "`0` is no number of a write: 1 to 4294967295, decimal, without leading zeros",
    "cut 1 hex:0": "`hex:0` says nothing that a cut leaves: `keep`, `done`, or `hex:` with an even number of digits",
    "cut 1 keep": "cuts come before the first event",
}


def sha256(whole):
    return hashlib.sha256(whole).hexdigest()


def damaged_images():
    """Yields damaged images: the refusal, the bytes, and the notes."""
    whole = image()
    hashed = len(whole) - 40
    last = whole[:-1] + b"\0"
    yield "1 Short", whole[:31], ["there are 31 bytes, and a header has 32"]
    yield "2 BadMagic", b"\1" + whole[1:], ["at byte 0 stands 0x96f3b801, and an image begins with 0x96f3b83d"]
    yield "3 BadHeaderSize", image(header_size=31), [
        "at byte 8 stands 31 as the length of the header, and it is 32 at least"
    ]
    yield "4 UnsupportedFlags", image(flags=0x213), ["at byte 16 stand the flags 0x213; 0x202 of them aren't accepted"]
    yield "5 Truncated", whole[:-1], [
        "there are 103 bytes; the header has 32 and the body 4, up to byte 36",
        "at byte 36 the protected area begins, which has 28 bytes",
        "at byte 64 the area of entries begins, which has 40 bytes",
    ]
    yield "6 BadTlvMagic", whole[:hashed] + b"\0" + whole[hashed + 1 :], [
        "at byte 64 stands 0x6900, and the area there begins with 0x6907"
    ]
    yield "7 BadTlvSize", whole[: hashed + 2] + little(41, 2) + whole[hashed + 4 :] + b"\0", [
        "the entry at byte 104 doesn't fit into its area, which ends before byte 105"
    ]
    yield "8 NoDigest", image(digest_kind=0x11), ["the area at byte 64 has no entry of the type 0x10, a SHA-256"]
    yield "9 TwoDigests", image(digests=2), ["digest entries stand at byte 68 and at byte 104, and there is one"]
    yield "10 BadDigest", last, [
        f"at byte 68 stands the digest {last[-32:].hex()}",
        f"the SHA-256 of the 64 bytes before its area is {sha256(whole[:hashed])}",
    ]
    yield "11 BadDependency", image(protected=((0x40, DEPENDENCY[1][:-1]),)), [
        "the entry at byte 40, of the type 0x40 and 11 bytes, isn't 12 bytes an image, or its bytes behind a number"
        " aren't 0"
    ]
    yield "12 TooManyDependencies", image(protected=17 * (DEPENDENCY,)), [
        "the entry at byte 296, of the type 0x40 and 12 bytes, is the 17th dependency, and there are 16 at most"
    ]
    yield "14 BadCounter", image(protected=(COUNTER, COUNTER)), [
        "the entry at byte 48, of the type 0x50 and 4 bytes, is a second security counter"
    ]
    yield "14 BadCounter", image(protected=((0x50, b"\7"),)), [
        "the entry at byte 40, of the type 0x50 and 1 bytes, is a security counter that isn't 4 bytes long"
    ]
    yield "13 TrailingBytes", whole + b"ab", ["the image ends before byte 104, and 2 bytes more follow"]


# Malformed device files, and the notes.
DEVICES = [
    (b"{", "EOF while parsing at line 1 column 1"),
    (b"[]", "the device file is no object in braces"),
    (device("sector"), "the device file has no `sector`"),
    (device(colour="red"), "the device file has `colour`, which isn't known"),
    (
        device(sector="512"),
        '`sector` of the device file is "512", and has to be a number from 0 to 4294967295, in digits alone',
    ),
    (device(sectors=[2, -1]), "`sectors` has -1 for image 1, and it has to be a number from 1 on, in digits alone"),
    (device(sectors=2), "`sectors` of the device file is 2, and has to be a list in square brackets"),
    (device(vendor_id="xyz"), '`vendor-id` of the device file is "xyz", and has to be a UUID in quotation marks'),
    (device(trial_boots=8), "`trial-boots` is 8, and a trial has 1 to 7 boots"),
]

# Sizes that make no map, the refusal, and the note, in which NAME is the key of a device file or the option.
MAPS = [
    (100, [2, 2], "1 BadSector", "`NAME` is 100, and a sector has 512 to 131072 bytes, a multiple of 64"),
    (512, [1] * 9, "2 BadCount", "`NAMEs` has 9 entries, one an image, and there are 1 to 8"),
    (512, [2, 0], "2 BadCount", "`NAMEs` has 0 for image 1, and it is 1 at least"),
    (512, [2, 20], "3 TrailerFull", "image 1 has 20 sectors; its trailer would have 24 bytes a sector and 56 more, 536,"
        " and a sector has 512: a slot has 19 sectors at most"),
    (131072, [5459, 5459, 5459, 1], "4 TooLarge", "all slots, the scratch and the log together have 4294967295 bytes at"
        " most"),
]

OTHER = "22222222-2222-5333-8444-555555555555"
OTHER_CLASS = f"`class-id` is {OTHER}, and the device's is {CLASS}"

# Manifests that the device refuses, the refusals, and the notes.
MANIFESTS = [
    (b"1 2", "1 NotJson", ["invalid JSON at line 1 column 3"]),
    (b"[1, 2]", "2 BadKey", ["the manifest is no object in braces"]),
    (manifest("class_id"), "2 BadKey", ["the manifest has no `class-id`"]),
    (manifest().replace(b'"components": [', b'"components": 7, "others": ['), "2 BadKey", [
        "the manifest has `others`, which isn't known",
        "`components` of the manifest is 7, and has to be a list in square brackets",
    ]),
    (manifest(components=[component("size", color=1)]), "2 BadKey", [
        "entry 0 of `components` has no `size`", "entry 0 of `components` has `color`, which isn't known"
    ]),
    (manifest(manifest_version=2), "3 BadValue", ["`manifest-version` is 2, and has to be 1"]),
    (manifest(components=[component(kind="both")]), "3 BadValue", [
        '`kind` of entry 0 of `components` is "both", and has to be "test" or "permanent"'
    ]),
    (manifest(components=[]), "3 BadValue", ["`components` has 0 entries, and there are 1 to 8"]),
    (manifest(class_id=OTHER), "5 WrongClass", [OTHER_CLASS]),
    (manifest(components=[component(component_id=2)]), "6 NoComponent", [
        "entry 0 of `components` is for image 2, and the device has images 0 and 1"
    ]),
    (manifest(components=[component(), component()]), "7 RepeatedComponent", [
        "entry 1 of `components` is for image 0, as one before it"
    ]),
]

# A fleet with each result, the notes on it, and those on its summary.
FLEET = b"device a\nimage 0 1.0.0+0 0 0\nrequest 2.0.0+0 0\ndevice b\n" + REFUSED
FLEET += b"device c\nimage 00 1 0 0\ndevice d\nimage 0 1 0 0\nneeds 7 1\ndevice e\n" + 65537 * b"x" + b"\n"
NEEDED = "because no version of image 2 that is still possible is at least 2.0.0+0"
NONE = "because none of these is still possible: image 0 from 3.0.0+0 on, image 9 from 1.0.0+0 on"
OF_FLEET = [
    "b refuses image 0, because the bytes that are requested are no intact image",
    "b refuses image 1, because 2.0.0+0 runs, which is newer",
    "b refuses image 2, because its security counter is below the floor",
    "b refuses image 3, because it needs image 9, which isn't there",
    f"b refuses image 4, {NEEDED}",
    f"b refuses image 5, {NONE}",
    "c has a bad table: its line 1 is the first wrong one",
    "d runs images that don't fit each other",
    "e has a table of more than 65536 bytes",
]
OF_SUMMARY = [
    "2 devices have bad tables; the first is c",
    "5 devices are in the fleet; the first is a",
    "1 device runs images that don't fit each other; it is d",
    "1 device refuses image 0, because the bytes that are requested are no intact image; it is b",
    "1 device refuses image 1 version 1.9.0+0, because a newer version runs; it is b",
    "1 device refuses image 2 version 2.0.0+0, because its security counter is below the floor; it is b",
    "1 device refuses image 3 version 2.0.0+0, because it needs image 9, which isn't there; it is b",
    f"1 device refuses image 4 version 2.0.0+0, {NEEDED}; it is b",
    f"1 device refuses image 5 version 2.0.0+0, {NONE}; it is b",
    "1 device takes image 0 version 2.0.0+0; it is a",
    "1 device takes image 6 version 2.0.0+0; it is b",
]

# Rows of summaries that FLEET doesn't have, and their notes. A key that `plan` doesn't print has none.
OTHER_ROWS = {
    "2 a bad": "2 devices have bad tables; the first is a",
    "1 a device": "1 device is in the fleet; it is a",
    "1 a foo bar": None,
    "2 a not-valid": "2 devices run images that don't fit each other; the first is a",
    "2 a refuse 0 2.0.0+0 older": "2 devices refuse image 0 version 2.0.0+0, because a newer version runs; the first is"
    " a",
    "2 a take": "2 devices take nothing; the first is a",
    "2 a take 0 2.0.0+0 1 2.0.0+0": "2 devices take image 0 version 2.0.0+0, image 1 version 2.0.0+0; the first is a",
}


NO_STATE = "the log of the flash holds no state: run `provision` first, with the same device file"
GONE = "nothing: No such file or directory (os error 2)"
RETURN = "a carriage return ends it; a line ends with a line feed alone"
IS_NO_IMAGE = "at byte 0 stands 0x96f3b801, and an image begins with 0x96f3b83d"
NO_SIZE = "short has 3 bytes, and the flash of the device has 8192"

# The files that the runs below name, beside `flash`.
FILES = {
    "reports": OF_REPORTS, "older": OF_OLDER, "short": b"abc", "one": b"abc", "body": b"ABCD", "boot": b"boot\n",
    "part": b"boot\npiece 0 - 4 1\n", "sum": b"18446744073709551615 a device\n", "other": b"notes of a meeting\n",
    "erased": 8192 * b"\xff", "damaged": b"\1" + image()[1:], "needing": image(protected=(DEPENDENCY,), own=version(1)),
}

CHOOSE, RUN = ["choose", "-"], ["run", PAIR, "flash", "-"]


def faults_of_texts():
    """Yields runs with a fault in a text: the arguments, standard input, how they end, and the notes."""
    for text, line, choices in TABLES:
        number = text.removesuffix(b"\n").count(b"\n") + 1
        notes = [f"table line {number} is `{line}`", f"here may stand{choices}", *VERSIONS]
        yield CHOOSE, text, error(f"table line {number}"), notes
    begins = "`image 0 VERSION COUNTER FLOOR`"
    yield CHOOSE, b"", error("table line 1"), [f"the table is empty; it begins with {begins}"]
    notes = ["table line 1 is `image 0 1 0 0\\r`", RETURN, f"here may stand {begins}", *VERSIONS]
    yield CHOOSE, b"image 0 1 0 0\r\n", error("table line 1"), notes
    given = text_of("image 0 1 0 0, needs 1 2, image 1 1.5 0 0, needs-one 0 3 4 1")
    yield CHOOSE, given, error("running set not valid"), [
        "image 0: 1.0.0+0 needs image 1 from 2.0.0+0 on, which is 1.5.0+0",
        "image 1: 1.5.0+0 needs one of these: image 0 from 3.0.0+0 on, which is 1.0.0+0; image 4 from 1.0.0+0 on, which"
        " isn't there",
    ]
    for name, report, notes in REPORTS:
        yield ["check", name, "-"], text_of(report), (1, b"no\n", b""), notes
    notes = ["report line 2 is `fly 1 1`", "here may stand `run 1 VERSION`, `take 1 VERSION`, `refuse I REASON`"]
    yield ["check", table("pair"), "-"], b"run 0 1\nfly 1 1\n", error("report line 2"), notes + REASONS + VERSIONS
    for line, why in LINES.items():
        yield RUN, f"boot\n{line}\n".encode(), error("script line 2"), [f"script line 2 is `{line}`", why]
    notes = ["script line 2 is `cut 3 done`", "the numbers of cuts rise, and write 3 can't follow write 3"]
    yield RUN, b"cut 3 keep\ncut 3 done\nboot\n", error("script line 2"), notes
    notes = ["script line 1 is `boot\\r`", RETURN, LINES["fly"].replace("fly", "boot\\r")]
    yield RUN, b"boot\r\n", error("script line 1"), notes
    notes = ["script line 2 is `piece 0 - 4 1`", "- has 4 bytes, and not 1 from byte 4 on, the first being byte 0"]
    yield ["run", PAIR, "flash", "part"], b"abcd", error("script line 2"), notes
    notes = ["script line 1 is `cut 3 keep`", "a sweep cuts each write itself, and its script cuts none"]
    yield ["sweep", PAIR, "-", ONE, ONE], b"cut 3 keep\nboot\n", error("script line 1"), notes
    notes = ["a fleet begins with a line `device NAME`; a NAME is 1 to 255 visible characters of ASCII"]
    yield ["plan", table("pair")], b"", error("fleet line 1"), notes
    yield ["plan", "--merge", "sum", "sum"], b"", error("cannot merge sum line 1"), [
        "line 1 is `18446744073709551615 a device`", "a summary has lines `COUNT FIRST KEY` as `plan --summary` prints"
        " them, sorted by the bytes of KEY; the counts of a KEY add up to less than 2^64",
    ]


def faults_of_files():
    """Yields runs with a fault in another file, or in the values of a new one."""
    yield ["choose", "nothing"], b"", error("cannot read nothing"), [GONE]
    notes = [GONE, "script line 2 names it: `accept nothing`"]
    yield RUN, b"boot\naccept nothing\n", error("cannot read nothing"), notes
    for name, why in [(".", "is a directory"), ("/dev/null", "neither a plain file nor a block device")]:
        for arguments in ["show", PAIR, name], ["run", PAIR, name, "-"]:
            yield arguments, b"", error(f"cannot read {name}"), [f"{name}: {why}"]
    for refusal, whole, notes in damaged_images():
        yield ["image", "-"], whole, refused(refusal), notes
    for text, note in DEVICES:
        yield ["show", "-", "absent"], text, error("device file"), ["- is no device file:", note]
    for sector, slots, refusal, note in MAPS:
        end, given = refused(f"map {refusal}"), device(sector=sector, sectors=slots)
        yield ["show", "-", "absent"], given, end, [note.replace("NAME", "sector")]
        option, listed = note.replace("NAMEs", "--slots").replace("NAME", "--sector"), ",".join(map(str, slots))
        arguments = ["make-device", f"--sector={sector}", f"--slots={listed}", "--vendor=v", "--class=c"]
        yield arguments, b"", end, [option]
    for text, refusal, notes in MANIFESTS:
        yield ["manifest", PAIR, "-"], text, refused(refusal), notes
    for options, refusal, note in [
        (["--header-size=31"], "1 BadHeaderSize", "`--header-size` is 31, and a header has 32 bytes at least"),
        (["--flags=530"], "2 UnsupportedFlags", "`--flags` is 530, which is 0x212; 0x202 of them aren't"
            " accepted, and 0x111 are"),
        (17 * ["--needs=1 2"], "3 TooManyDependencies", "there are 17 dependencies, and an image has 16 at most"),
        (5 * ["--needs-one=1 1"], "6 BadGroups", "there are 5 `--needs-one`, and an image has 4 at most"),
        (["--needs-one=1 1", "--needs-one=1 1 2 1 3 1 4 1 5 1"], "6 BadGroups", "`--needs-one` number 2 names 5"
            " images, and may name 1 to 4"),
    ]:
        yield ["make-image", "made", "body", "--version=1", *options], b"", refused(refusal), [note]
    not_there, twice = "%s is for image %d, and the device has images 0 and 1", "b is for image 0, as a is"
    for options, refusal, notes in [
        (["--test=2=a"], "6 NoComponent", [not_there % ("a", 2)]),
        (["--test=0=a", "--permanent=0=b"], "7 RepeatedComponent", [twice]),
        (["--test=0=a", "--test=0=b", "--test=255=c"], "6 NoComponent", [twice, not_there % ("c", 255)]),
    ]:
        yield make_manifest(*options), b"", refused(refusal), notes


def faults_of_flashes():
    """Yields runs with a fault in a flash, or in an image or a file for a new one."""
    notes = ["image 0: 1.0.0+0 needs image 1 from 2.3.4+5 on, which is 1.0.0+0"]
    yield ["provision", PAIR, "unmade", "needing", ONE], b"", refused("boot 6 InvalidSet"), notes
    notes = ["damaged is no intact image:", IS_NO_IMAGE]
    yield ["provision", PAIR, "unmade", "damaged", ONE], b"", refused("boot 5 RunningDamaged 0"), notes
    notes = ["other has 19 bytes, and the flash of the device has 8192"]
    yield ["provision", PAIR, "other", ONE, ONE], b"", error("flash size"), notes
    notes = ["`--force` replaces other by the image"]
    yield ["extract", PAIR, "flash", "0", "primary", "other"], b"", error("other is no image"), notes
    for command in ("show", "slots"):
        yield [command, PAIR, "erased"], b"", refused("boot 4 NotProvisioned"), [NO_STATE]
    end = (1, b"1 refused boot 4 NotProvisioned\n", b"")
    yield ["run", PAIR, "erased", "-"], b"boot\n", end, ["of reply 1:", NO_STATE]
    for arguments in (
        ["show", PAIR, "short"], ["extract", PAIR, "short", "0", "primary", "copy"], ["run", PAIR, "short", "boot"],
        make_manifest(f"--test=0={ONE}", "--precursor=short"),
    ):
        yield arguments, b"", error("flash size"), [NO_SIZE]
    notes = ["- has more bytes than the flash of the device, which has 8192"]
    yield ["show", PAIR, "-"], 8195 * b"x", error("flash size"), notes


class ExplainTest(ProgramTest):
    def assert_notes(self, notes, arguments, end, **how):
        """With `--explain` the run ends so with these notes, and without it so without them."""
        status, out, err = end
        noted = "".join(f"note: {it}\n" for it in notes).encode()
        self.assertEqual((status, out, err + noted), self.run_program([*arguments, "--explain"], **how))
        self.assertEqual(end, self.run_program(arguments, **how))


class ExplainFaultTest(ExplainTest):
    def assert_each(self, faults):
        flash_of(self)
        for name, contents in FILES.items():
            self.file(name, contents)
        for arguments, given, end, notes in faults:
            with self.subTest(f"{arguments[0]}: {notes[0]}"):
                self.assert_notes(notes, arguments, end, given=given)

    def test_faults_of_texts(self):
        self.assert_each(faults_of_texts())

    def test_faults_of_files(self):
        self.assert_each(faults_of_files())

    def test_faults_of_flashes(self):
        self.assert_each(faults_of_flashes())

    def test_run_without_a_fault_has_no_notes(self):
        write_inputs(self)
        for it in EVERY:
            with self.subTest(it.name):
                usual = self.run_program(it.arguments()), flash_in(self)
                self.assertEqual(usual, (self.run_program([*it.arguments(), "--explain"]), flash_in(self)))

    def test_reason_for_each_refused_request(self):
        status, out, err = self.run_program(["choose", "--explain", "-"], given=REFUSED)
        self.assertEqual((0, sorted(WHY_REFUSED)), (status, sorted(it[6:] for it in err.decode().splitlines())))
        for name in names_in("tables"):
            _, out, err = self.run_program(["choose", table(name), "--explain"])
            self.assertEqual(out.count(b"refuse "), err.count(b"note: image "), name)

    def test_body_that_may_be_another_file(self):
        for body, notes in [
            (b"", ["body is empty: the image has no code"]),
            (b"\x7fELF\2\1\1", ["body is an ELF file: a device runs the bytes of the body as they are, such as"
                " `objcopy -O binary` makes them"]),
            (image([]), ["body begins as an image does: the new image has its header before that of the body"]),
            (b"\x7fEL", []),
        ]:
            with self.subTest(f"{body[:4]}"):
                arguments = ["make-image", "made", self.file("body", body), "--version=1"]
                self.assert_notes(notes, arguments, (0, b"done\n", b""))

    def test_images_that_changed_places(self):
        """Each new image that needs the image of its own place is named."""
        needing = lambda number: image(((0x40, bytes([number, 0, 0, 0, 1]) + bytes(7)),), own=version(2))
        self.file("a.img", needing(1))
        self.file("b.img", needing(0))
        self.file("boot", b"boot\n")
        own = "%s is for image %d and needs image %d, which is itself: it may be the file of another image"
        for arguments in ["provision", PAIR, "flash"], ["sweep", PAIR, "boot"]:
            for images, notes in [("ba", [own % ("b.img", 0, 0), own % ("a.img", 1, 1)]), ("ab", [])]:
                with self.subTest(f"{arguments[0]} {images}"):
                    given = [*arguments, *(f"{it}.img" for it in images)]
                    self.assert_notes(notes, given, self.run_program(given))


class ExplainPlanTest(ExplainTest):
    """Fleets and summaries."""

    def test_results_of_devices(self):
        self.file("fleet", FLEET)
        self.assert_notes(OF_FLEET, ["plan", "fleet"], self.run_program(["plan", "fleet"]))
        # Both outputs to one file have the notes after the device that they are on.
        mixed = self.run_program(["plan", "fleet", "--explain"], stderr=subprocess.STDOUT)[1].decode()
        self.assertIn(f"device c\nbad-line 1\nnote: {OF_FLEET[6]}\ndevice d\n", mixed)

    def test_rows_of_a_summary(self):
        self.file("fleet", FLEET)
        arguments = ["plan", "fleet", "--summary"]
        self.assert_notes(OF_SUMMARY, arguments, self.run_program(arguments))
        self.file("rows", "".join(f"{it}\n" for it in OTHER_ROWS).encode())
        notes = [it for it in OTHER_ROWS.values() if it]
        self.assert_notes(notes, ["plan", "--merge", "rows"], (1, read(f"{self.folder}/rows"), b""))

    def test_notes_that_cannot_be_written(self):
        self.file("fleet", FLEET)
        with open("/dev/full", "wb") as full:
            got = self.run_program(["plan", "fleet", "--explain"], stderr=full)
        self.assertEqual(self.run_program(["plan", "fleet"])[:2], got[:2])


NO_IMAGE = "there is no image %d; the device has images 0 and 1"
NO_UPLOAD = "image %d: no upload is open: `accept` of a manifest that names it opens one, and `finish`, `boot`, `reset`"
NO_UPLOAD += " and a power cut close it"
NO_REQUEST = "image %d: no request is pending: `finish` of its upload requests it, until a boot takes it"
NO_TRIAL = "image %d: it isn't on trial: a boot that says `trial` begins one, and a later boot ends it"
NO_BOOT = "the device isn't booted: it needs a `boot` first, also after a `reset` and after a power cut"
ON_TRIAL = "a set of images is on trial: the device takes no uploads and withdrawals until a boot ends the trial"

# Events, the reply to each, and the notes on the reply.
REPLIES = [
    ("finish 0", "refused boot 1 NotBooted", [NO_BOOT]),
    ("boot", PLAIN, []),
    ("piece 0 abc", "refused upload 3 NoSession", [NO_UPLOAD % 0]),
    ("finish 2", "refused upload 3 NoSession", [NO_IMAGE % 2]),
    ("withdraw 1", "refused upload 9 NothingRequested", [NO_REQUEST % 1]),
    ("confirm 0", "refused boot 3 NotOnTrial", [NO_TRIAL % 0]),
    ("confirm 255", "refused boot 3 NotOnTrial", [NO_IMAGE % 255]),
    ("accept foreign", "refused manifest 5 WrongClass", [OTHER_CLASS]),
    ("accept wide", "refused upload 2 TooBig", ["the file for image 1 has 1025 bytes, and its slot 1024"]),
    ("accept after", "refused upload 8 WrongPrecursor", [f"the file for image 0 follows the image {64 * '0'}"]),
    ("accept text.json", "done", []),
    ("piece 0 abcd", "refused upload 4 TooMuch", ["the manifest says 3 bytes for image 0, and 4 came"]),
    ("accept text.json", "done", []),
    ("piece 0 abcd 0 2", "done", []),
    ("finish 0", "refused upload 5 SizeWrong", ["the manifest says 3 bytes for image 0, and 2 came"]),
    ("accept text.json", "done", []),
    ("piece 0 abd", "done", []),
    ("finish 0", "refused upload 6 DigestWrong", [
        f"the manifest says the SHA-256 {ABC} for image 0", f"that of the 3 bytes that came is {sha256(b'abd')}"
    ]),
    ("accept text.json", "done", []),
    ("piece 0 abc", "done", []),
    ("finish 0", "refused upload 7 NotAnImage 1", ["there are 3 bytes, and a header has 32"]),
    ("accept newer.json", "done", []),
    ("accept old.json", "refused upload 1 OldSequence", [
        "the manifest has the sequence number 0, and one with a higher number was accepted"
    ]),
    ("accept older", "done", []),
    ("piece 0 newer.img", "done", []),
    ("piece 1 older.img", "done", []),
    ("finish 0", "done", []),
    ("finish 1", "done", []),
    ("boot", "trial|take 0 2.0.0+0|run 1 1.0.0+0|refuse 1 older", [
        "image 1: 0.9.0+0 is requested, and 1.0.0+0 runs, which is newer"
    ]),
    ("withdraw 0", "refused boot 2 OnTrial", [ON_TRIAL]),
    ("reset", "done", []),
]

UPLOAD = "piece 0 needing.img, piece 1 partner.img, finish 0, finish 1"
TRIED = "image %d is requested permanently, and on trial: another image of the set is for a test, and the set is tried"
TRIED += " and reverts as a whole"
BACK = "image %d was requested permanently, and reverts: the set was on trial as a whole"

# Events on a new device, and the notes by the number of the reply.
MIXED = [
    (f"boot, accept first-for-good.json, {UPLOAD}, boot, boot", {7: TRIED % 0, 8: BACK % 0}),
    (f"cut 38 keep, boot, accept second-for-good.json, {UPLOAD}, boot, boot, boot", {8: TRIED % 1, 9: BACK % 1}),
    (f"boot, accept trial.json, {UPLOAD}, boot, boot", {}),
    (f"boot, accept for-good.json, {UPLOAD}, boot, boot", {}),
    (f"boot, accept first-for-good.json, {UPLOAD}, boot, confirm 0, confirm 1, boot, boot", {7: TRIED % 0}),
]


class ExplainDeviceTest(ExplainTest):
    """Replies, flash files and slots."""

    def test_replies(self):
        new_device(self)
        images = IMAGES["newer.img"], image([], own=version(0, 9))
        self.file("older.img", images[1])
        parts = [{"component_id": at, "size": len(it), "payload_digest": sha256(it)} for at, it in enumerate(images)]
        self.file("older", manifest(sequence_number=2, components=[component(**it) for it in parts]))
        self.file("foreign", manifest(class_id=OTHER))
        self.file("wide", manifest(components=[component(component_id=1, size=1025)]))
        self.file("after", manifest(components=[component(precursor_digest=64 * "0")]))
        events, replies, noted = zip(*REPLIES)
        notes = [it for at, own in enumerate(noted, 1) if own for it in (f"of reply {at}:", *own)]
        whole, given = flash_in(self), script_of(", ".join(events))
        run = ["run", PAIR, "flash", "-"]
        usual = self.run_program(run, given=given)
        self.assertEqual((0, numbered(replies), b""), usual)
        self.file("flash", whole)
        wanted = "".join(f"note: {it}\n" for it in notes).encode()
        self.assertEqual((0, usual[1], wanted), self.run_program([*run, "--explain"], given=given))

    def test_images_of_a_mixed_trial(self):
        """A trial and its end name each image that was requested permanently."""
        for events, notes in MIXED:
            with self.subTest(events):
                new_device(self)
                wanted = "".join(f"note: of reply {at}:\nnote: {it}\n" for at, it in notes.items())
                got = self.run_program(["run", PAIR, "flash", "-", "--explain"], given=script_of(events))
                self.assertEqual(wanted, got[2].decode())

    def test_slots(self):
        """A slot that holds no image is described. That this one is, and no other, is proved."""
        whole = flash_of(self)
        arguments = make_manifest(f"--test=1={ONE}", "--precursor=flash")
        for front, note in [
            (1024 * b"\xff", "the primary slot of image 1 is erased: its 1024 bytes are 0xff"),
            (b"\1", "at byte 0 stands 0x96f3b801, and an image begins with 0x96f3b83d"),
        ]:
            with self.subTest(note):
                self.file("flash", whole[:1536] + front + whole[1536 + len(front) :])
                self.assert_notes([note], ["extract", PAIR, "flash", "1", "primary", "copy"], refused("2 BadMagic"))
                self.assert_notes([note], arguments, refused("boot 5 RunningDamaged 1"))
        out = self.run_program(["slots", PAIR, "flash"])[1]
        self.assert_notes([note], ["slots", PAIR, "flash"], (1, out, b""))

    def test_requests_that_the_next_boot_refuses(self):
        new_device(self)
        given = script_of("boot, accept first.json, piece 0 needing.img, finish 0")
        self.run_program(["run", PAIR, "flash", "-"], given=given)
        out = self.run_program(["slots", PAIR, "flash"])[1]
        self.assertTrue(out.endswith(b"refuse 0 needs 1 2.0.0+0\n"))
        notes = ["image 0: 2.0.0+0 needs image 1 from 2.0.0+0 on, which can have 1.0.0+0 at best"]
        self.assert_notes(notes, ["slots", PAIR, "flash"], (0, out, b""))

    def test_held_files(self):
        flash_of(self)
        self.file("own", b"old")
        held = "another program holds %s, or is replacing it: one that writes it holds it alone"
        for name, arguments in [
            ("flash", ["show", PAIR, "flash"]), ("flash", ["run", PAIR, "flash", self.file("boot", b"boot\n")]),
            ("flash", ["extract", PAIR, "flash", "0", "primary", "copy"]),
            ("flash", ["provision", PAIR, "flash", ONE, ONE]), ("own", ["make-image", "own", ONE, "--version=1"]),
            ("flash", make_manifest(f"--test=0={ONE}", "--precursor=flash")),
        ]:
            with self.subTest(arguments[0]), self.held(name):
                self.assert_notes([held % name], arguments, error(f"{'image' if name == 'own' else name} in use"))

    def test_flash_that_cannot_be_written(self):
        flash_of(self)
        os.chmod(f"{self.folder}/flash", 0o444)
        notes = ["flash can't be opened for writing: its permissions, or those of its file system, allow only reading"]
        how = {"given": b"boot\n", "preexec_fn": obey_permissions}
        self.assert_notes(notes, ["run", PAIR, "flash", "-"], error("flash file", 4), **how)
