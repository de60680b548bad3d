"""The words that the completion scripts offer in each shell."""

import contextlib
import os
import re
import shutil
import subprocess

from support.files import read
from support.program import ProgramTest

# What is offered for the last of these words, in a folder with the files `one.img`, `two.img` and the folder `made`.
OFFERED = {
    ("ch",): ("check", "choose"),
    ("p",): ("plan", "provision"),
    ("make-",): ("make-device", "make-image", "make-manifest"),
    ("help", "c"): ("check", "choose", "codes", "completions"),
    ("help", "man", "s"): ("show", "slots", "sweep"),
    ("help", "completions", ""): ("bash", "fish", "zsh"),
    ("choose", "o"): ("one.img",),
    ("choose", "--ex"): ("--explain",),
    ("plan", "o"): ("one.img",),
    ("plan", "--s"): ("--summary",),
    ("plan", "--merge", "one.img", "t"): ("two.img",),
    ("make-image", "--force", "--cou"): ("--counter",),
    ("make-image", "--sec"): ("--security-counter",),
    ("make-manifest", "--p"): ("--permanent", "--precursor"),
    ("make-manifest", "dev", "--precursor", "t"): ("two.img",),
    ("run", "--dur"): ("--durable",),
    ("sweep", "--svg", "o"): ("one.img",),
    ("sweep", "dev", "scr", "a", "b", "t"): ("two.img",),
    ("extract", "dev", "flash", "0", ""): ("primary", "secondary"),
    ("extract", "dev", "flash", "--force", "0", "s"): ("secondary",),
    ("extract", "dev", "flash", "0", "primary", "o"): ("one.img",),
    ("extract", "dev", "o"): ("one.img",),
    ("nonsense", ""): (),
}

BASH = """
source ../script
COMP_WORDS=(bootswap "$@")
COMP_CWORD=$#
_bootswap
printf '%s\\n' "${COMPREPLY[@]}"
"""

# A terminal of zsh, in which a line is typed, and a key that lists what fits. `compadd` of zsh takes what the script
# offers. Here it also writes what fits to the file `offered`.
ZSH = """
zmodload zsh/zpty
zpty shell zsh -f -i
zpty -w shell 'PROMPT=; autoload -Uz compinit; compinit -u -D; source ../script; zstyle ":completion:*" list-colors'
zpty -w shell 'compadd() { local -a fits; builtin compadd -O fits "$@"; builtin compadd "$@"; keep $fits }'
zpty -w shell 'keep() { print -rl -- $@ >> ../offered }'
zpty -w shell 'asks() { : > ../offered; zle list-choices; : > ../asked }; zle -N asks; bindkey "^T" asks; : > ../ready'
until [[ -e ../ready ]]; do sleep 0.05; done
zpty -w -n shell "bootswap $1"$'\\x14'
until [[ -e ../asked ]]; do sleep 0.05; done
zpty -d shell
"""


class CompletionsTest(ProgramTest):
    def setUp(self):
        super().setUp()
        os.remove(f"{self.folder}/examples")
        self.place = f"{self.folder}/place"
        os.makedirs(f"{self.place}/made")
        for name in ("one.img", "two.img"):
            with open(f"{self.place}/{name}", "wb"):
                pass

    def write_script(self, shell):
        """Writes the script of a shell to the file `script`, out of sight of the completions of files."""
        if not shutil.which(shell):
            self.skipTest(f"there is no {shell}")
        status, out, err = self.run_program(["help", "completions", shell])
        self.assertEqual((0, b""), (status, err))
        self.file("script", out)

    def asked(self, words):
        """Runs a shell where files are completed, and returns what it prints."""
        ran = subprocess.run(
            words,
            cwd=self.place,
            stdin=subprocess.DEVNULL,
            capture_output=True,
            env={"PATH": f"{self.folder}:/usr/bin:/bin", "HOME": self.folder, "TERM": "dumb", "LC_ALL": "C.UTF-8"},
            timeout=60,
            check=False,
        )
        return ran.stdout.decode(), ran.stderr.decode()

    def assert_offered(self, offered, found):
        self.assertEqual({it.rstrip("/") for it in offered}, {it.rstrip("/") for it in found.split("\n") if it})

    def test_bash(self):
        self.write_script("bash")
        for words, offered in OFFERED.items():
            with self.subTest(f"{words}"):
                out, err = self.asked(["bash", "--norc", "-c", BASH, "bash", *words])
                self.assertEqual("", err)
                self.assert_offered(offered, out)

    def test_fish(self):
        self.write_script("fish")
        for words, offered in OFFERED.items():
            if words[0] != "nonsense":
                with self.subTest(f"{words}"):
                    line = " ".join(["bootswap", *words])
                    out, err = self.asked(["fish", "--no-config", "-c", f"source ../script; complete -C '{line}'"])
                    self.assertEqual("", err)
                    self.assert_offered(offered, re.sub(r"\t.*", "", out))

    def test_zsh(self):
        self.write_script("zsh")
        self.assertEqual(("", ""), self.asked(["zsh", "-n", "../script"]))
        for words, offered in OFFERED.items():
            with self.subTest(f"{words}"):
                for name in ("ready", "asked", "offered"):
                    with contextlib.suppress(FileNotFoundError):
                        os.remove(f"{self.folder}/{name}")
                _, err = self.asked(["zsh", "-f", "-c", ZSH, "zsh", " ".join(words)])
                self.assertEqual("", err)
                self.assert_offered(offered, read(f"{self.folder}/offered").decode())

    def test_other_shell_is_refused_as_another_command_is(self):
        for arguments, wrong in [(["nonsense"], "nonsense"), (["BASH"], "BASH"), (["zsh", "more"], "more")]:
            end = self.run_program(["help", "completions", *arguments])
            self.assertEqual((2, b""), end[:2])
            self.assertEqual(self.run_program(["help", wrong]), end)

    def test_shells_are_named_if_none_is(self):
        status, out, err = self.run_program(["help", "completions"])
        self.assertEqual((2, b""), (status, out))
        self.assertIn(b"bash, zsh or fish", err)
