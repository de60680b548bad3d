"""The commands of README.md and of docs/: what they print is what the pages show."""

import os
import re
import shutil
import subprocess
import sys
import tempfile

from support.files import EXAMPLES, ROOT, read
from support.program import ProgramTest

from tutorial import commands_of


def quick_start():
    """The commands of the README, each with its output. The first one runs the program without a proof, and shows what
    the proved one prints."""
    text = read(f"{ROOT}/README.md").decode()
    first = re.search(r"^```sh\n(\./bootswap --unproved .*?)^```\n\n```\n(.*?)^```$", text, re.M | re.S).groups()
    yield first[0].replace(" --unproved", "", 1), first[1]
    second = r"^```sh\n(\./bootswap provision .*?)^\./gate$.*?^```\n.*?^```\n(done\n.*?)^```$"
    yield re.search(second, text, re.M | re.S).groups()


def formats_script():
    """A command that runs the script of docs/FORMATS.md, and the output that is shown there."""
    text = read(f"{ROOT}/docs/FORMATS.md").decode()
    script, output = re.search(r"^```\n(cut .*?)^```$.*?^```\n(1 .*?)^```$", text, re.M | re.S).groups()
    files = "examples/devices/pair.json out/script.flash"
    made = f"./bootswap provision {files} examples/images/one.img examples/images/one.img"
    return f"{made} && ./bootswap run {files} - <<'END'\n{script}END\n", f"done\n{output}"


class DocumentTest(ProgramTest):
    runs_once = True

    def test_each_command_prints_what_is_shown(self):
        os.mkdir(f"{self.folder}/out")
        for name in ("bootswap", "out/bootswap"):
            os.symlink(self.program, f"{self.folder}/{name}")
        pages = (f"docs/{it}.md" for it in ("TUTORIAL", "FLEETS", "JSON"))
        documents = {it: commands_of(it, self.version()) for it in pages}
        documents |= {"README.md": quick_start(), "docs/FORMATS.md": [formats_script()]}
        how = {"stdout": subprocess.PIPE, "stderr": subprocess.STDOUT, "text": True, "cwd": self.folder, "timeout": 120}
        how["env"] = {**os.environ, "PATH": f"{self.folder}:{os.environ['PATH']}", "LC_ALL": "C.UTF-8"}
        for document, commands in documents.items():
            for number, (command, shown) in enumerate(commands, 1):
                with self.subTest(f"{document}, command {number}"):
                    if "out/parts" in command and not shutil.which("parallel"):
                        self.skipTest("there is no GNU parallel")
                    ran = subprocess.run(["bash", "-c", command], **how)
                    self.assertEqual(shown, ran.stdout, command)

    def test_the_script_makes_the_images_of_the_examples(self):
        with tempfile.TemporaryDirectory() as made:
            subprocess.run([sys.executable, f"{EXAMPLES}/make_images.py", made], check=True)
            for name in os.listdir(made):
                self.assertEqual(read(f"{EXAMPLES}/images/{name}"), read(f"{made}/{name}"), name)
