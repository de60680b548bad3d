"""Which line of a script `run` reports, and the files that lines name. That lines are read exactly is proved."""

from support.files import EXAMPLES, PAIR, read
from support.program import ProgramTest
from support.stories import FILES, flash_in, manifest_of, new_device
from support.worked import NOT_UP, PLAIN, numbered

# Scripts, and the error of each: the first wrong line decides. The file `abc` has three bytes.
BAD_SCRIPTS = [
    (b"boot\n\nboot\n", "script line 2"),
    (b"boots\n", "script line 1"),
    (b"boot\naccept \xff\n", "script line 2"),
    (b"accept \tabsent\n", "cannot read \\tabsent"),
    (b"piece 0 abc 0 4\n", "script line 1"),
    (b"cut 2 keep\ncut 3 keep\ncut 1 keep\n", "script line 3"),
    (b"cut 3 keep\ncut 4 keep\nboot\ncut 5 keep\n", "script line 4"),
    (b"boots\naccept absent\n", "script line 1"),
    (b"boot\naccept absent\nboots\n", "cannot read absent"),
    (b"piece 0 absent 0 x\n", "cannot read absent"),
    (b"boot\naccept trial.json\npiece 0 needing.img\nfinish 0\nboot\nboots\n", "script line 6"),
    (b"reset\nboot\nboots", "script line 3"),
]

TEXT, DEVICE = manifest_of(1, "0 test abc"), read(PAIR)

# Scripts that name standard input: DEVICE, the script, standard input, and the replies or the error.
OF_INPUT = [
    ("-", b"boot\naccept text.json\n", DEVICE, [PLAIN, "done"]),
    ("-", b"boot\naccept -\n", DEVICE, "script line 2"),
    (PAIR, b"boot\naccept text.json\npiece 0 - 0 3\nreset\n", b"abcd", [PLAIN, *3 * ["done"]]),
    (PAIR, b"piece 0 - 0 5\n", b"abcd", "script line 1"),
    (PAIR, b"boot\naccept -\npiece 0 -\n", TEXT, "script line 3"),
    (PAIR, b"boot\naccept trial.json\npiece 0 -\nfinish 0\n", read(f"{EXAMPLES}/images/needing.img"),
        [PLAIN, *3 * ["done"]]),
]


class ScriptTest(ProgramTest):
    def setUp(self):
        super().setUp()
        self.new = new_device(self)

    def run_script(self, script):
        return self.run_program(["run", PAIR, "flash", "-"], given=script)

    def test_the_first_wrong_line_is_reported_before_any_event(self):
        for script, message in BAD_SCRIPTS:
            with self.subTest(f"bad script: {script!r}"):
                self.assertEqual((1, b"", f"error: {message}\n".encode()), self.run_script(script))
                self.assertEqual(self.new, flash_in(self))

    def test_a_script_may_have_no_event_and_no_last_line_feed(self):
        for script in (b"", b"cut 1 keep\ncut 4294967295 hex:fF00\n"):
            self.assertEqual((0, b"", b""), self.run_script(script), script)
        self.file("gr\u00f6\u00dfe", FILES["trial.json"])
        got = self.run_script("boot\naccept gr\u00f6\u00dfe\nreset".encode())
        self.assertEqual((0, numbered([PLAIN, "done", "done"]), b""), got)

    def test_pieces_of_a_file_of_a_terabyte_are_read(self):
        with open(f"{self.folder}/huge", "wb") as it:
            it.truncate(1 << 40)
        for part in (f"{1 << 39} 5", f"{(1 << 40) - 8} 8", f"{1 << 40} 0"):
            script = 50 * f"piece 0 huge {part}\n".encode()
            self.assertEqual((1, numbered(50 * [NOT_UP]), b""), self.run_script(script), part)
        self.assertEqual((1, b"", b"error: script line 1\n"), self.run_script(f"piece 0 huge {1 << 40} 1\n".encode()))

    def test_standard_input_is_read_once(self):
        for own, script, given, end in OF_INPUT:
            with self.subTest(f"{own[-9:]}, with the script {script!r}"):
                self.file("flash", self.new)
                ended = (1, b"", f"error: {end}\n".encode()) if isinstance(end, str) else (0, numbered(end), b"")
                got = self.run_program(["run", own, "flash", self.file("script", script)], given=given)
                self.assertEqual(ended, got)
