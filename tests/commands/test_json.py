"""Answers and errors as JSON. Which object an answer has is proved, except for `codes`."""

import json
import os
import re
import subprocess

from support.every_command import EVERY, write_inputs
from support.files import EXAMPLES, ONE, PAIR, ROOT, read, table
from support.flashes import flash_of
from support.program import ProgramTest, obey_permissions
from support.stories import new_device, script_of

ABSENT = "No such file or directory (os error 2)"

# The most bytes of a manifest, the bytes of the flash of the example's device, and those of a slot of its.
MOST_JSON, FLASH, SLOT = 1 << 20, 8192, 1024

# Commands, what standard input gives, and the object of the error but for its text.
ERRORS = [
    (["choose", "-"], b"image 1 1 0 0\n", {"kind": "table_line", "line": 1}),
    (["choose", "-"], b"image 0 1.0.0+0 0 0\nneeds 0 2.0.0+0\n", {"kind": "not_valid"}),
    (["choose", "absent"], b"", {"kind": "cannot_read", "input": "absent", "system": ABSENT}),
    (["check", table("pair"), "-"], b"fly\n", {"kind": "report_line", "line": 1}),
    (["plan", table("pair")], b"", {"kind": "fleet_line", "line": 1}),
    (["plan", "-", f"--request=0={ONE}", f"--request=0={ONE}"], b"", {"kind": "requested_twice", "image": 0}),
    (["plan", "-", f"--request=0={PAIR}"], b"", {"kind": "not_an_image", "input": PAIR}),
    (["plan", "--merge", table("pair")], b"", {"kind": "cannot_merge", "input": table("pair"), "line": 1}),
    (["manifest", PAIR, "-"], b"#" * (MOST_JSON + 1), {"kind": "too_long", "input": "-", "most": MOST_JSON}),
    (["manifest", "-", ONE], b"{", {"kind": "device_file"}),
    (["show", PAIR, "-"], b"\xff", {"kind": "flash_size", "length": 1, "wanted": FLASH}),
    (["slots", PAIR, "-"], b"\xff" * (FLASH + 9), {"kind": "flash_size", "length": FLASH + 1, "wanted": FLASH}),
    (["run", PAIR, "flash", "-"], b"boo\n", {"kind": "script_line", "line": 1, "fault": "spelling"}),
    (["run", PAIR, "flash", "-"], b"boot\ncut 1 keep\n", {"kind": "script_line", "line": 2, "fault": "order"}),
    (["run", PAIR, "flash", "-"], b"accept -\n", {"kind": "script_line", "line": 1, "fault": "input_read"}),
    (["run", PAIR, "flash", "-"], b"piece 0 abc a b\n", {"kind": "script_line", "line": 1, "fault": "part_numbers"}),
    (["run", PAIR, "flash", "-"], b"piece 0 abc 2 2\n", {
        "kind": "script_line", "line": 1, "fault": "no_part", "length": 3
    }),
    (["run", PAIR, "flash", "-"], b"accept absent\n", {"kind": "cannot_read", "input": "absent", "system": ABSENT}),
    (["sweep", PAIR, "-", ONE, ONE], b"cut 1 keep\nboot\n", {"kind": "script_line", "line": 1, "fault": "cut"}),
    (["sweep", PAIR, "-", ONE], b"boot\n", {"kind": "image_count", "images": 2}),
    (["sweep", PAIR, "-", ONE, "flash"], b"boot\n", {"kind": "image_too_big", "image": 1, "most": SLOT}),
    (["sweep", "--svg=abc", PAIR, "-", ONE, ONE], b"boot\n", {"kind": "not_a_picture", "input": "abc"}),
    (["sweep", "--svg=script", PAIR, "script", ONE, ONE], b"", {"kind": "picture_is_input"}),
    (["sweep", "--svg=gone/picture", PAIR, "script", ONE, ONE], b"", {
        "kind": "cannot_write", "input": "gone/picture", "system": ABSENT
    }),
]

# A fleet with each result that docs/JSON.md doesn't show, and the objects of its devices.
FLEET = b"device a\nimage 0 1 0 0\nrequest 0.9 0\ndevice b\nimage 0 1 0 0\nneeds 7 1\ndevice c\n" + 65537 * b"x"
FLEET += b"\ndevice d\nimage 0 1 0 0\nrequest 2 0\nneeds-one 0 3 9 1\ndevice e\nimage 0 1 0 0\ndamaged\n"


def object_line(value):
    """The compact text of a value, its members in the order of their names, and a line feed."""
    return json.dumps(value, sort_keys=True, separators=(",", ":")).encode() + b"\n"


def notes_in(err):
    return [it.removeprefix("note: ") for it in err.decode().splitlines()]


class JsonTest(ProgramTest):
    def assert_object(self, value, arguments, status=0, **how):
        self.assertEqual((status, object_line(value), b""), self.run_program([*arguments, "--json"], **how))

    def test_answer_is_compact_and_sorted(self):
        write_inputs(self)
        for it in EVERY:
            with self.subTest(it.name):
                status, out, err = self.run_program([*it.arguments(), "--json"])
                if it.json:
                    self.assertEqual((0, object_line(json.loads(out)), b""), (status, out, err))
                else:
                    self.assertEqual((2, b""), (status, out))
                    self.assertIn(b"unexpected argument '--json' found", err)

    def test_codes_are_those_of_the_text(self):
        text = self.run_program(["codes"])[1].decode()
        groups = json.loads(self.run_program(["codes", "--json"])[1])["groups"]
        codes = [it for group in groups for it in group["codes"]]
        lines = [line for line in text.splitlines() if re.match(r" {2,5}[^ ]", line)]
        words = [f"{it['code']} {it['name']}" if "code" in it else it["reason"] for it in codes]
        self.assertEqual([re.split(r"  +", line.strip())[0] for line in lines], words)
        flat = " ".join(text.split())
        self.assertEqual([], [it for it in codes if not it["meaning"] or " ".join(it["meaning"].split()) not in flat])

    def test_notes_are_a_member(self):
        write_inputs(self)
        fleet = self.file("fleet", FLEET)
        for arguments in [
            ["choose", f"{EXAMPLES}/tables/reasons.txt"], ["check", "table", f"{EXAMPLES}/reports/three.txt"],
            ["image", "table"], ["manifest", PAIR, "table"], ["plan", fleet, "--summary"],
        ]:
            with self.subTest(arguments[0]):
                status, _, err = self.run_program([*arguments, "--explain"])
                found = json.loads(self.run_program([*arguments, "--json"])[1])
                self.assertTrue(notes_in(err))
                self.assert_object({**found, "notes": notes_in(err)}, [*arguments, "--explain"], status)

    def test_notes_of_devices_and_replies(self):
        """A device has its notes as a member, and the notes on a reply follow its object."""
        self.file("fleet", FLEET)
        out = self.run_program(["plan", "fleet", "--json", "--explain"])[1]
        noted = [json.loads(it).get("notes") for it in out.splitlines()]
        self.assertEqual([[it] for it in notes_in(self.run_program(["plan", "fleet", "--explain"])[2])], noted)
        ends = []
        for option in ([], ["--json"]):
            new_device(self)
            given = script_of("confirm 0, boot, withdraw 0")
            ends.append(self.run_program(["run", PAIR, "flash", "-", "--explain", *option], given=given))
        notes = dict(re.findall(r"note: of reply (\d+):\nnote: (.*)\n", ends[0][2].decode()))
        objects = [json.loads(it) for it in ends[1][1].splitlines()]
        self.assertEqual([1, 1, 2, 3, 3], [it["event"] for it in objects])
        self.assertEqual([{"event": it, "notes": [notes[f"{it}"]]} for it in (1, 3)], [objects[1], objects[4]])

    def test_long_runs_are_printed_as_they_go(self):
        """The first objects of a run and of a plan come before their input ends."""
        new_device(self)
        count = 10_000
        self.file("script", b"boot\n" * count)
        command = [self.program, "run", PAIR, "flash", "script", "--json"]
        with subprocess.Popen(command, cwd=self.folder, stdout=subprocess.PIPE) as ran:
            first = json.loads(ran.stdout.readline())
            # The objects are far longer than a pipe's buffer, so the run waits for its reader.
            self.assertIsNone(ran.poll())
            events = [first["event"], *(json.loads(line)["event"] for line in ran.stdout)]
        self.assertEqual([*range(1, count + 1)], events)
        device = b"device %d\nimage 0 2.0.0+0 0 0\nrequest 3.0.0+0 0\n"
        command = [self.program, "plan", "-", "--json"]
        with subprocess.Popen(command, stdin=subprocess.PIPE, stdout=subprocess.PIPE) as ran:
            # The objects are longer than the program's buffer, and the fleet is hardly longer than that of a pipe.
            ran.stdin.write(b"".join(device % it for it in range(1_200)))
            ran.stdin.flush()
            first = json.loads(ran.stdout.readline())
            ran.stdin.close()
            names = [first["device"], *(json.loads(line)["device"] for line in ran.stdout)]
        self.assertEqual([f"{it}" for it in range(1_200)], names)


class JsonErrorTest(ProgramTest):
    """The object of each kind of error, beside the error line without `--json`."""

    def setUp(self):
        super().setUp()
        self.file("abc", b"abc")
        self.file("script", b"boot\n")
        flash_of(self)

    def assert_error(self, arguments, wanted, **how):
        status, out, err = self.run_program([*arguments, "--explain"], **how)
        line, *notes = err.decode().splitlines()
        self.assertEqual((b"", "error: "), (out, line[:7]))
        value = {"error": {**wanted, "text": line[7:]}}
        self.assertEqual((status, b"", object_line(value)), self.run_program([*arguments, "--json"], **how))
        noted = {**value, "notes": [it.removeprefix("note: ") for it in notes]} if notes else value
        got = self.run_program([*arguments, "--json", "--explain"], **how)
        self.assertEqual((status, b"", object_line(noted)), got)

    def test_each_kind(self):
        for arguments, given, wanted in ERRORS:
            with self.subTest(f"{' '.join(arguments)}: {wanted['kind']}"):
                self.assert_error(arguments, wanted, given=given)

    def test_locked_flash(self):
        with self.held("flash"):
            self.assert_error(["show", PAIR, "flash"], {"kind": "flash_in_use"})

    def test_flash_that_cannot_be_written(self):
        os.chmod(f"{self.folder}/flash", 0o444)
        wanted = {"kind": "flash_file", "system": "Permission denied (os error 13)"}
        self.assert_error(["run", PAIR, "flash", "script"], wanted, preexec_fn=obey_permissions)

    def test_wrong_usage_is_a_text(self):
        status, out, err = self.run_program(["choose", "--frob", "--json"])
        self.assertEqual((2, b"", b"error: unexpected argument"), (status, out, err[:26]))

    def test_document_lists_the_kinds(self):
        """docs/JSON.md has a row for each kind that a test here sees, and for no other but `memory`."""
        text = read(f"{ROOT}/docs/JSON.md").decode()
        table_of_kinds = text[text.index("| `kind` |") :].partition("\n\n")[0]
        rows = re.findall(r"^\| (`[a-z_]+`(?:, `[a-z_]+`)*) \|", table_of_kinds, re.M)
        listed = {it for row in rows for it in re.findall(r"[a-z_]+", row)} - {"kind"}
        self.assertEqual({wanted["kind"] for *_, wanted in ERRORS} | {"flash_in_use", "flash_file", "memory"}, listed)
