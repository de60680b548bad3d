"""What the core answers: the same as the complete program, or a refusal."""

import os
import subprocess

from support.every_command import EVERY
from support.files import EXAMPLES, ONE, PAIR, ROOT, read
from support.printed import error
from support.program import LIMIT, ProgramTest, shown

SCRIPT = f"{EXAMPLES}/scripts/interrupted.txt"

# What both answer alike, with the standard input: commands of the core, with good and bad files; help; wrong arguments.
ALIKE = [
    (["provision", PAIR, "flash", ONE, ONE], b""),
    (["run", PAIR, "flash", SCRIPT], b""),
    (["run", "--durable", PAIR, "flash", "-"], b"boot\nreset\nboot\n"),
    (["run", "--strict", PAIR, "flash", "-"], b"confirm 0\nboot\n"),
    (["run", PAIR, "flash", "-"], b"cut 1\nboot\n"),
    (["run", PAIR, "flash", "-"], b"confirm 7\nboot 7\n"),
    (["run", "-", "flash", SCRIPT], b"no device"),
    (["run", PAIR, "nowhere", "-"], b"boot\n"),
    (["run", PAIR, ONE, "-"], b"boot\n"),
    (["provision", PAIR, "other", ONE], b""),
    (["provision", PAIR, "other", "-", "nowhere"], b"no image"),
    *(([it], b"") for it in ("--version", "--help", "-h", "nothing")),
    *(([it.name, "--help"], b"") for it in EVERY),
    (["help", "slots"], b""),
    (["show", PAIR], b""),
    (["run", PAIR, "flash"], b""),
    (["run", PAIR, "flash", SCRIPT, "more"], b""),
    (["provision", PAIR, "-", ONE, ONE], b""),
    (["run", PAIR, "flash\x1b", "--all\x1b"], b""),
]

# What the core refuses besides: wrong arguments of other commands, and options.
MORE = [["check", "-", "-"], ["sweep", PAIR, SCRIPT, ONE, "--sample", "many"]]
MORE += [["run", PAIR, "flash", SCRIPT, "--explain"], ["run", PAIR, "flash", SCRIPT, "--json"]]


class CoreTest(ProgramTest):
    runs_once = True

    def setUp(self):
        super().setUp()
        self.core = os.environ.get("BOOTSWAP_CORE") or f"{ROOT}/out/bootswap_core"
        if not os.access(self.core, os.X_OK):
            self.skipTest(f"there is no {self.core}: `./bootswap help` builds it in a clone in which nothing is built")

    def end_of(self, program, arguments, given=b""):
        """Runs a program in a folder of its own, and returns how it ends and the contents of the flash after that."""
        folder = f"{self.folder}/{os.path.basename(program)}"
        if not os.path.exists(folder):
            os.mkdir(folder)
            # Scripts name files relative to the root of the repository.
            os.symlink(EXAMPLES, f"{folder}/examples")
        ran = subprocess.run([program, *arguments], input=given, capture_output=True, cwd=folder, timeout=LIMIT)
        flash = f"{folder}/flash"
        return (ran.returncode, ran.stdout, ran.stderr), read(flash) if os.path.exists(flash) else None

    def test_answers_as_the_complete_program(self):
        for arguments, given in ALIKE:
            with self.subTest(f"{shown(arguments)} {given}"):
                self.assertEqual(*(self.end_of(it, arguments, given) for it in (self.program, self.core)))

    def test_refuses_other_commands(self):
        for arguments in [*(it.arguments() for it in EVERY if it.name not in ("provision", "run")), *MORE]:
            with self.subTest(shown(arguments)):
                self.assertEqual((error("not in the core of bootswap"), None), self.end_of(self.core, arguments))
