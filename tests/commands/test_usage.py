"""Which arguments the commands accept, and what they print for wrong ones."""

from support.every_command import BY_NAME, EVERY, write_inputs
from support.files import read
from support.printed import error, refused, wrong_usage
from support.program import ProgramTest
from support.stories import flash_in, new_device

MISSING = "the following required arguments were not provided:"
ONE_FILE = "standard input, `-`, can be read for one file only"
IS_WRITTEN = "the flash file is written to, so it can't be standard input, `-`"
IS_MADE = "the image file is made, so it can't be standard input, `-`"
TWICE = "the argument '%s' cannot be used multiple times"

# The faults of arguments by commands, `` if they name none, and arguments that have them.
WRONG = {
    "": {
        "unrecognized subcommand 'frob'": ["frob"],
        "unrecognized subcommand 'fr\\nob\\u{1b}'": ["fr\nob\x1b"],
        "unrecognized subcommand 'runn'\n\n  tip: a similar subcommand exists: 'run'": ["runn a b c"],
        "unexpected argument '--frob' found": ["--frob"],
        "unexpected argument '--durable' found\n\n  tip: 'run --durable' exists": ["--durable run a b c"],
        "invalid UTF-8 was detected in one or more arguments": [b"\xff", b"choose \xff", b"run a b c\xff"],
    },
    "choose": {f"{MISSING}\n  <TABLE>": ["choose"], "unexpected argument 'b' found": ["choose a b"]},
    "check": {
        f"{MISSING}\n  <TABLE>\n  <REPORT>": ["check"], f"{MISSING}\n  <REPORT>": ["check a"], ONE_FILE: ["check - -"]
    },
    "plan": {
        f"{MISSING}\n  <FLEET>...": ["plan", "plan --merge"],
        "name one fleet, or add summaries by `--merge`": ["plan a b", "plan - -"],
        "`--merge` adds summaries, so there is no `--request` or `--summary`": [
            "plan --merge a --summary", "plan --merge a b --request 0=c"
        ],
        "`--request` is the number of an image, 0 to 7, and its file, which can't be standard input: 0=a.img": [
            "plan a --request b", "plan a --request 8=b", "plan a --request 0=-"
        ],
        TWICE % "--merge": ["plan --merge --merge a"],
        ONE_FILE: ["plan --merge - a -"],
    },
    "image": {f"{MISSING}\n  <FILE>": ["image"]},
    "manifest": {f"{MISSING}\n  <FILE>": ["manifest a"], ONE_FILE: ["manifest - -"]},
    "make-device": {
        f"{MISSING}\n  --class <NAME>": ["make-device --sector=512 --slots=2,2 --vendor=v"],
        TWICE % "--class <NAME>": ["make-device --sector=512 --slots=2,2 --vendor=v --class=c --class=d"],
        "`--sector` is a number of bytes, 512 to 131072, such as 4096, 0x1000 or 4k": [
            f"make-device --sector={it} --slots={it} --vendor=v --class=c" for it in ("4kB", "x")
        ],
        "`--slots` are numbers of sectors, one for each image, separated by commas, such as 2,2: the bytes of a slot"
        " divided by `--sector`": ["make-device --sector=512 --slots=2,, --vendor=v --class=c"],
        "`--trial-boots` is a number from 1 to 7": [
            f"make-device --sector=512 --slots=2 --vendor=v --class=c --trial-boots={it}" for it in (0, 8)
        ],
    },
    "make-image": {
        f"{MISSING}\n  --version <VERSION>": ["make-image a b"],
        IS_MADE: ["make-image - - --version=1"],
        TWICE % "--counter <N>": ["make-image a b --version=1 --counter=1 --security-counter=1"],
        "`--version` is `major.minor.revision+build`, such as 1.4.2+7, up to 255.255.65535+4294967295; last parts may"
        " be left out": ["make-image a b --version=", "make-image a b --version=256"],
        "`--counter` is a number, in digits, below 4294967296": ["make-image a b --version=1 --security-counter=0x1"],
        "`--header-size` is a number of bytes, 32 to 65535, such as 512, 0x200 or 1k": [
            "make-image a b --version=1 --header-size=64k"
        ],
        "`--load-address` is an address, 0 to 4294967295, such as 131072, 0x20000 or 128k": [
            "make-image a b --version=1 --load-addr=4096M"
        ],
        "`--flags` is a number, 0 to 4294967295, such as 16 or 0x10": ["make-image a b --version=1 --flags=0x1g"],
        "`--needs` is the number of an image and a version, in one word: '1 2.0.0'": [
            "make-image a b --version=1 --needs=1,2"
        ],
        "`--dependencies` is the number of an image and a version, in brackets: '(1, 2.0.0)'": [
            "make-image a b --version=1 --dependencies=1"
        ],
        "`--needs-one` is numbers of images, each with a version, in one word: '1 2.0.0 2 2.0.0'": [
            "make-image a b --version=1 --needs-one=1"
        ],
    },
    "make-manifest": {
        f"{MISSING}\n  <DEVICE>": ["make-manifest --sequence=1 --test=0=a"],
        f"{MISSING}\n  --sequence <N>": ["make-manifest a --test=0=a"],
        TWICE % "--sequence <N>": ["make-manifest a --sequence=1 --sequence=1"],
        "`--sequence` is a number, in digits, below 4294967296": ["make-manifest a --test=0=b --sequence=4294967296"],
        "`--test` is the number of an image and its file: 0=a.img": ["make-manifest a --sequence=1 --test=256=b"],
        "`--permanent` is the number of an image and its file: 0=a.img": ["make-manifest a --sequence=1 --permanent=b"],
        "give one to eight files that may come, by `--test I=FILE` or `--permanent I=FILE`": [
            "make-manifest a --sequence=1", f"make-manifest a --sequence=1{5 * ' --test=0=b'}{4 * ' --permanent=0=b'}"
        ],
        ONE_FILE: ["make-manifest - --sequence=1 --test=0=-", "make-manifest a --sequence=1 --precursor=- --test=0=-"],
    },
    "provision": {
        f"{MISSING}\n  <IMAGE>...": ["provision a b"],
        ONE_FILE: ["provision - f a -", "provision d f - b -"],
        IS_WRITTEN: ["provision d - a", "provision - - -"],
    },
    "extract": {
        f"{MISSING}\n  <SIDE>\n  <OUT>": ["extract a b 0"],
        "unexpected argument 'f' found": ["extract a b 0 primary e f"],
        "IMAGE is the number of an image, in digits, below 256": [f"extract a b {it} first e" for it in ("256", "00")],
        "SIDE is `primary` or `secondary`": ["extract a b 0 Primary e"],
        ONE_FILE: ["extract - - 0 primary e"],
        IS_MADE: ["extract a b 0 primary -"],
    },
    "show": {
        f"{MISSING}\n  <FLASH>": ["show a"],
        "unexpected argument '--durable' found\n\n  tip: to pass '--durable' as a value, use '-- --durable'": [
            "show --durable a b"
        ],
        ONE_FILE: ["show - -"],
    },
    "slots": {"unexpected argument 'c' found": ["slots a b c"], ONE_FILE: ["slots - -"]},
    "run": {
        f"{MISSING}\n  <FLASH>\n  <SCRIPT>": ["run a"],
        "unexpected argument '--explian' found\n\n  tip: a similar argument exists: '--explain'": [
            "run --explian a b c"
        ],
        TWICE % "--durable": ["run --durable --durable a b c"],
        "unexpected value 'true' for '--durable' found; no more were expected": ["run --durable=true a b c"],
        ONE_FILE: ["run - f -"],
        IS_WRITTEN: ["run d - s", "run - - s"],
    },
    "sweep": {
        f"{MISSING}\n  <FILE>...": ["sweep", "sweep --merge"],
        f"{MISSING}\n  <IMAGE>...": ["sweep a b --part=1/2"],
        "`--merge` makes no runs, so it can't be used with --twice, --sample, --seed or --part": [
            f"sweep --merge {it} a" for it in ("--twice", "--sample=1", "--seed=x", "--part=1/2")
        ],
        "`--part` is the number of a part, `/`, and the number of parts: 1/4": [
            f"sweep a b c --part={it}" for it in ("1", "0/1", "2/1", "1/4294967296")
        ],
        TWICE % "--sample <N>": ["sweep a b c --sample=1 --sample=1"],
        "`--sample` is a number, in digits, below 4294967296": ["sweep a b c --sample=4294967296"],
        "`--seed` is a number, in digits, below 4294967296": ["sweep a b c --seed=1.5"],
        ONE_FILE: ["sweep - b -", "sweep a b - -", "sweep --merge - a -"],
        "the picture is made, so it can't be standard input, `-`": ["sweep a b c --svg=-", "sweep --merge - --svg=-"],
    },
    "codes": {"unexpected argument 'a' found": ["codes a"]},
}

# Arguments of which several are wrong, and how a run ends: by the first of them.
FIRST_WRONG = [
    ("run other.json absent none", error("device file")),
    ("run small.json absent none", refused("map 1 BadSector")),
    ("run pair.json abc none", error("flash size")),
    ("run pair.json flash abc", error("script line 1")),
    ("show other.json absent", error("device file")),
    ("slots small.json absent", refused("map 1 BadSector")),
    ("provision pair.json flash absent", error("image count")),
    ("provision pair.json gone/flash one.img absent", error("cannot read absent")),
    ("check abc absent", error("table line 1")),
    ("check absent gone", error("cannot read absent")),
    ("extract gone absent 9 primary made", error("cannot read gone")),
    ("extract pair.json absent 9 primary made", error("no image 9")),
    ("make-manifest gone --sequence=1 --test=9=a", error("cannot read gone")),
    ("make-manifest small.json --sequence=1 --test=9=a", refused("map 1 BadSector")),
    ("make-manifest pair.json --sequence=1 --test=0=a --test=0=a --test=255=a", refused("6 NoComponent")),
    ("make-manifest pair.json --sequence=1 --precursor=gone --test=0=absent", error("cannot read gone")),
    ("make-image gone/made absent --version=1", error("cannot read absent")),
]


class UsageTest(ProgramTest):
    def test_wrong_arguments_end_with_the_fault_and_the_usage(self):
        self.assertEqual({"", *BY_NAME}, {*WRONG})
        for name, faults in WRONG.items():
            usage = BY_NAME[name].usage if name else "[COMMAND]"
            for fault, several in faults.items():
                for line in several:
                    with self.subTest(f"{line!r}"):
                        arguments = line.split(b" " if isinstance(line, bytes) else " ")
                        self.assertEqual(wrong_usage(fault, usage), self.run_program(arguments))

    def test_first_wrong_argument_is_reported(self):
        whole = new_device(self)
        for arguments, end in FIRST_WRONG:
            with self.subTest(arguments):
                self.assertEqual(end, self.run_program(arguments.split()))
        self.assertEqual(whole, flash_in(self))

    def made(self, command):
        """Returns the file that a run made."""
        return read(f"{self.folder}/{command.makes}") if command.makes else b""

    def test_options_stand_anywhere(self):
        """Options may stand before and after names, and have their values after `=` or as the next argument."""
        write_inputs(self)
        for it in EVERY:
            name, *words = it.arguments()
            usual = self.run_program([name, *words]), self.made(it)
            self.assertEqual(0, usual[0][0], it.name)
            options, names = ([word for word in words if word.startswith("--") == wanted] for wanted in (True, False))
            parted = [part for word in options for part in word.split("=", 1)]
            for arguments in [*options, *names], [*names, *parted], [*reversed(options), *names, "--explain"]:
                with self.subTest(f"{name} {' '.join(arguments)}"):
                    self.assertEqual(usual, (self.run_program([name, *arguments]), self.made(it)))

    def test_names_begin_with_hyphens_after_two(self):
        write_inputs(self)
        write_inputs(self, "--")
        for it in EVERY:
            name, *words = it.arguments()
            with self.subTest(name):
                usual = self.run_program([name, *words])
                options = [word for word in words if word.startswith("--")]
                places = {it.arguments()[at] for at, _ in it.inputs()} | {it.makes}
                names = [f"--{word}" if word in places else word for word in words if word not in options]
                self.assertEqual(usual, self.run_program([name, *options, "--", *names]))
                if it.makes:
                    self.assertEqual(self.made(it), read(f"{self.folder}/--{it.makes}"))
