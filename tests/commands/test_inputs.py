"""Input files: from standard input, unreadable, without an end, as long as may be, and with odd names."""

import os

from support.every_command import BY_NAME, EVERY, FILES, write_inputs
from support.files import read
from support.printed import DONE, error, refused
from support.program import ProgramTest

# Names of files that don't exist, and how they are printed: characters that would end the line, or turn its
# direction, are escaped.
NAMES = {
    "absent": "absent",
    "folder": "folder",
    "absent/table": "absent/table",
    "a b": "a b",
    "a\nerror: \x1b[2J\t\x7f\x85\u00e9'\\": "a\\nerror: \\u{1b}[2J\\t\\u{7f}\\u{85}\u00e9'\\",
    "\r": "\\r",
    "a\u2028b\u2029c\u2027\u202f": "a\\u{2028}b\\u{2029}c\u2027\u202f",
    "a\u202egpj.\u061c\u200f\u2066b\u2069\u05d0": "a\\u{202e}gpj.\\u{61c}\\u{200f}\\u{2066}b\\u{2069}\u05d0",
}

# The longest texts, from docs/FORMATS.md.
MOST_TABLE, MOST_JSON, MOST_SCRIPT = 65_536, 1_048_576, 268_435_456

# What commands make, as they call it if it is an input.
KINDS = {"make-image": "image", "extract": "image", "provision": "flash", "sweep": "picture"}

ENDLESS = "/dev/zero"

# The error lines for inputs without an end. The first lines of most have a fault.
OF_ENDLESS = {
    "table": "table line 1",
    "report": "report line 1",
    "device": "device file",
    "script": "script line 1",
    "manifest": f"{ENDLESS} is longer than {MOST_JSON} bytes",
}


def padded(text, size):
    return text + b" " * (size - len(text))


class InputTest(ProgramTest):
    def setUp(self):
        super().setUp()
        write_inputs(self)
        os.mkdir(f"{self.folder}/folder")

    def test_standard_input_is_read_for_a_hyphen(self):
        for it in EVERY:
            for at, name in it.inputs():
                if name != it.makes:
                    with self.subTest(f"{it.name}: {name}"):
                        usual, given = self.run_program(it.arguments()), read(f"{self.folder}/{name}")
                        self.assertEqual(usual, self.run_program(it.reading(at, "-"), given=given, pieces=3))

    def test_unreadable_input_is_named_in_one_line(self):
        for it in EVERY:
            for at, name in it.inputs():
                for other, shown in NAMES.items():
                    with self.subTest(f"{it.name}: {other!r} as {name}"):
                        self.assert_refuses(error(f"cannot read {shown}"), it.reading(at, other))

    def test_folder_as_standard_input_is_unreadable(self):
        for it in EVERY:
            for at, name in it.inputs():
                if name != it.makes:
                    with self.subTest(f"{it.name}: {name}"):
                        folder = os.open(self.folder, os.O_RDONLY)
                        self.addCleanup(os.close, folder)
                        got = self.run_program(it.reading(at, "-"), given=None, stdin=folder)
                        self.assertEqual(error("cannot read -"), got)

    def test_file_may_be_named_by_a_hyphen(self):
        self.file("-", b"")
        self.assertEqual(refused("1 Short"), self.run_program(["image", "./-"]))

    def test_endless_input_is_refused(self):
        for it in EVERY:
            for at, name in it.inputs():
                if name in OF_ENDLESS:
                    with self.subTest(f"{it.name}: {name}"):
                        self.assert_refuses(error(OF_ENDLESS[name]), it.reading(at, ENDLESS))
        for number in (0, 1):
            self.assert_refuses(error(f"image {number} too big"), BY_NAME["provision"].reading(3 + number, ENDLESS))
        self.assertEqual(error(f"cannot read {ENDLESS}"), self.run_program(["show", "device", ENDLESS]))
        with open(ENDLESS, "rb") as zeros:
            self.assertEqual(error("flash size"), self.run_program(["show", "device", "-"], given=None, stdin=zeros))

    def test_texts_of_the_longest_size_are_read(self):
        usual = self.run_program(["manifest", "device", "manifest"])
        for name in ("device", "manifest"):
            self.file(f"longest-{name}", padded(FILES[name], MOST_JSON))
            self.file(f"longer-{name}", padded(FILES[name], MOST_JSON + 1))
        self.assertEqual(usual, self.run_program(["manifest", "longest-device", "longest-manifest"]))
        end = error(f"longer-manifest is longer than {MOST_JSON} bytes")
        self.assertEqual(end, self.run_program(["manifest", "device", "longer-manifest"]))
        self.assertEqual(error("device file"), self.run_program(["manifest", "longer-device", "manifest"]))
        given = padded(b"image 0 1.0.0+0 0 0\nrequest 2.0.0+0 0\n", 10 * MOST_TABLE)
        self.assertEqual(error("table line 3"), self.run_program(["choose", "-"], given=given))
        given = padded(b"run 0 1.0.0+0\n", 10 * MOST_TABLE)
        self.assertEqual(error("report line 2"), self.run_program(["check", "table", "-"], given=given))

    def test_script_is_refused_at_the_line_that_is_too_much(self):
        """This line exceeds the longest size by some of its bytes, or by its line feed alone."""
        line, longer = b"withdraw 0\n", b"withdraw 10\n"
        for count in (0, (MOST_SCRIPT + 1) % len(line)):
            given = longer * count + line * (MOST_SCRIPT // len(line) + 9)
            end = error(f"script line {given[:MOST_SCRIPT].count(line[-1:]) + 1}")
            self.assertEqual(end, self.run_program(["run", "device", "flash", "-"], given=given))

    def test_input_as_the_output(self):
        """It is refused by any of its names, also if it is standard input."""
        for it in [BY_NAME[name] for name in KINDS]:
            for at, name in it.inputs():
                os.symlink(name, self.path("link"))
                os.link(self.path(name), self.path("second"))
                for other in (name, f"./{name}", self.path(name), "link", "second"):
                    for given in (name, "-"):
                        words = [other if word == it.makes else word for word in it.reading(at, given)]
                        words += [f"--svg={other}"] * (it.name == "sweep")
                        with self.subTest(" ".join(words)), open(self.path(name), "rb") as stream:
                            self.assert_refuses(error(f"{KINDS[it.name]} is an input"), words, given=None, stdin=stream)
                for link in ("link", "second"):
                    os.remove(self.path(link))
        with open(self.path("body"), "rb") as given:
            self.assertEqual(DONE, self.run_program(["make-image", "new", "-", "--version=1"], stdin=given))
