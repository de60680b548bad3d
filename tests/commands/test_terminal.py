"""What a terminal shows besides the output: hints, a note that a table is read, and colors."""

import os
import pty
import termios

from support.commands import make_manifest
from support.files import ONE, PAIR, read, report, table
from support.flashes import flash_of
from support.printed import error, wrong_usage
from support.program import ProgramTest

NOTE = b"note: reading a table from standard input; `bootswap --help` tells more\n"
HINT = b"note: --explain says more\n"
ERROR, CYAN_NOTE = b"\x1b[1;31merror:\x1b[0m", b"\x1b[1;36mnote:\x1b[0m"

# The environment without colors, and others.
PLAIN = {**os.environ, "NO_COLOR": "1", "TERM": "xterm"}
EMPTY = {**PLAIN, "NO_COLOR": ""}
UNSET = {name: value for name, value in EMPTY.items() if name != "NO_COLOR"}
BARE = {name: value for name, value in UNSET.items() if name != "TERM"}
DUMB = {**EMPTY, "TERM": "dumb"}

# Error lines that have notes, by the arguments that cause them, and error lines that have none.
WITH_NOTES = [
    (["choose", "bad"], "table line 1"),
    (["choose", "unmet"], "running set not valid"),
    (["check", table("pair"), "bad"], "report line 1"),
    (["plan", "bad"], "fleet line 1"),
    (["show", "bad", "flash"], "device file"),
    (["show", PAIR, "bad"], "flash size"),
    (["run", PAIR, "flash", "bad"], "script line 1"),
    (["sweep", PAIR, "bad", ONE, ONE], "script line 1"),
    (["image", "absent"], "cannot read absent"),
    (["provision", PAIR, "new", ONE], "image count"),
    (["provision", PAIR, "new", ONE, "long"], "image 1 too big"),
    (["provision", PAIR, "absent/new", ONE, ONE], "flash file"),
    (["extract", PAIR, "flash", "2", "primary", "copy"], "no image 2"),
    (["extract", PAIR, "flash", "0", "primary", "absent/copy"], "cannot write absent/copy"),
    (make_manifest("--test=0=absent"), "cannot read absent"),
]
WITHOUT_NOTES = [
    (["provision", PAIR, ONE, ONE, ONE], "flash is an input"),
    (["make-image", "bad", "bad", "--version=1"], "image is an input"),
    (["sweep", PAIR, "boot", ONE, ONE, f"--svg={PAIR}"], "picture is an input"),
]


class TerminalTest(ProgramTest):
    def setUp(self):
        super().setUp()
        flash_of(self)
        self.file("bad", b"no\n")
        self.file("boot", b"boot\n")
        self.file("long", 1025 * b"x")
        self.file("unmet", b"image 0 1 0 0\nneeds 0 2\n")

    def at_terminal(self, arguments, env=PLAIN, **how):
        """Returns the status and the output of a run, and what it prints on a terminal as standard error."""
        ours, theirs = pty.openpty()
        settings = termios.tcgetattr(theirs)
        settings[1] &= ~termios.OPOST
        termios.tcsetattr(theirs, termios.TCSANOW, settings)
        status, out, _ = self.run_program(arguments, stderr=theirs, env=env, **how)
        os.close(theirs)
        message = b""
        try:
            while part := os.read(ours, 4096):
                message += part
        except OSError:
            # A terminal that nobody writes to any more ends with an error.
            pass
        os.close(ours)
        return status, out, message

    def test_error_line_with_notes_has_a_hint(self):
        for arguments, text in WITH_NOTES + WITHOUT_NOTES:
            with self.subTest(f"{arguments[0]}: {text}"):
                status, out, line = error(text, 4 if text == "flash file" else 1)
                hint = HINT if (arguments, text) in WITH_NOTES else b""
                self.assertEqual((status, out, line + hint), self.at_terminal(arguments))
                self.assertEqual((status, out, line), self.run_program(arguments))
                got = self.at_terminal([*arguments, "--explain"])
                self.assertTrue(got[2].startswith(line) and HINT not in got[2])
                self.assertEqual(bool(hint), got[2] != line)

    def test_file_in_use_has_a_hint(self):
        with self.held("flash"):
            for arguments, line in [
                (["show", PAIR, "flash"], b"error: flash in use\n"),
                (["make-image", "flash", ONE, "--version=1"], b"error: image in use\n"),
            ]:
                self.assertEqual((1, b"", line + HINT), self.at_terminal(arguments))

    def test_other_runs_have_no_hint(self):
        """Outputs, wrong arguments, and a choice without arguments, which takes no option, have none."""
        for arguments, status, given in [
            (["choose", table("pair")], 0, b""),
            (["check", table("three"), report("pair")], 1, b""),
            (["run", PAIR, "flash", "-"], 1, b"withdraw 0\n"),
            (["frob"], 2, b""),
            ([], 1, b"no\n"),
        ]:
            with self.subTest(f"{arguments}"):
                got = self.at_terminal(arguments, given=given)
                self.assertEqual((status, False), (got[0], HINT in got[2]))

    def test_table_from_a_terminal_is_asked_for(self):
        """It is only without arguments."""
        for arguments, note in ([], NOTE), (["choose", "-"], b""):
            with self.subTest(f"{arguments}"):
                ours, theirs = pty.openpty()
                # The last byte ends the input.
                os.write(ours, read(table("pair")) + b"\4")
                self.assertEqual((0, read(report("pair")), note), self.run_program(arguments, stdin=theirs))
                os.close(ours)
                os.close(theirs)

    def test_words_are_colored_if_a_terminal_shows_colors(self):
        """`--color` decides before the environment."""
        plain, colored = b"error: table line 1\n" + HINT, ERROR + b" table line 1\n" + CYAN_NOTE + HINT[5:]
        for name, env, options, wanted in [
            ("NO_COLOR unset", UNSET, [], colored),
            ("NO_COLOR empty", EMPTY, [], colored),
            ("NO_COLOR and TERM unset", BARE, [], colored),
            ("NO_COLOR set", PLAIN, [], plain),
            ("TERM dumb", DUMB, [], plain),
            ("auto", UNSET, ["--color=auto"], colored),
            ("auto, NO_COLOR set", PLAIN, ["--color", "auto"], plain),
            ("never", UNSET, ["--color=never"], plain),
            ("always, NO_COLOR set", PLAIN, ["--color=always"], colored),
            ("always, TERM dumb", DUMB, ["--color", "always"], colored),
        ]:
            with self.subTest(name):
                self.assertEqual((1, b"", wanted), self.at_terminal(["choose", "bad", *options], env))

    def test_colors_without_a_terminal(self):
        """Only `--color=always` colors, and never standard output."""
        line, colored = b"error: table line 1\n", ERROR + b" table line 1\n"
        for options, err in ([], line), (["--color=auto"], line), (["--color=always"], colored):
            self.assertEqual((1, b"", err), self.run_program(["choose", "bad", *options], env=UNSET))
        end = (0, read(report("pair")), b"")
        self.assertEqual(end, self.run_program(["choose", table("pair"), "--color=always"]))
        got = self.run_program(["run", "--color=always", PAIR, "flash", "-"], given=b"finish 0\n")
        self.assertEqual((1, b"1 refused boot 1 NotBooted\n", b""), got)
        first, *notes = self.run_program(["choose", "bad", "--explain", "--color=always"])[2].splitlines(True)
        self.assertEqual(colored, first)
        self.assertTrue(notes and all(it.startswith(CYAN_NOTE + b" ") for it in notes))
        self.assertTrue(self.run_program(["choose", "--color=always"])[2].startswith(ERROR + b" the following"))

    def test_other_colors_are_refused(self):
        """After `--` such a word is a name."""
        self.file("--color=blue", read(table("pair")))
        end = wrong_usage("`--color` is `always`, `never` or `auto`", "[COMMAND]")
        for value in (["--color=blue"], ["--color", "Always"], ["--color="]):
            self.assertEqual(end, self.run_program(["choose", table("pair"), *value]))
        self.assertEqual((0, read(report("pair")), b""), self.run_program(["choose", "--", "--color=blue"]))
