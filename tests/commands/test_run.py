"""What `run` prints for scripts: the replies of a device."""

import os
import resource
import subprocess
import time

from support.files import EXAMPLES, PAIR, names_in, read
from support.flashes import flash_of
from support.program import LIMIT, ProgramTest
from support.stories import flash_in, new_device, script_of
from support.worked import PLAIN, numbered

# How many boots a long script has. Their replies are far longer than a pipe's buffer.
MANY = 20_000


def status_after(output):
    """The status of a run with this output, by its last reply."""
    kinds = [line.split()[1] for line in output.decode().splitlines() if line[0].isdigit()]
    return {"refused": 1, "cut": 3}.get(kinds[-1], 0)


class RunTest(ProgramTest):
    def test_example_scripts(self):
        """Each script of the examples prints its output, and leaves a flash with its state."""
        for name in names_in("scripts"):
            own = f"{EXAMPLES}/devices/{name}.json"
            of = own if os.path.exists(own) else PAIR
            wanted, state = read(f"{EXAMPLES}/outputs/{name}.txt"), read(f"{EXAMPLES}/states/{name}.txt")
            for options in ([], ["--durable"]):
                with self.subTest(f"{name} {options}"):
                    flash_of(self, device=of)
                    arguments = ["run", *options, of, "flash", f"{EXAMPLES}/scripts/{name}.txt"]
                    self.assertEqual((status_after(wanted), wanted, b""), self.run_program(arguments))
                    self.assertEqual((0, state, b""), self.run_program(["show", of, "flash"]))

    def test_reply_is_written_before_the_next_event(self):
        """A killed run has printed a prefix of whole lines."""
        whole = new_device(self)
        self.file("script", MANY * b"boot\n" + script_of("accept trial.json, piece 0 needing.img"))
        output = numbered([*MANY * [PLAIN], "done", "done"])
        command = [self.program, "run", PAIR, "flash", "script"]
        with subprocess.Popen(command, cwd=self.folder, stdout=subprocess.PIPE) as ran:
            first = ran.stdout.readline()
            # The pipe is full long before the last event, which writes the flash. The run waits then.
            time.sleep(1)
            ran.kill()
            got = first + ran.stdout.read()
        self.assertTrue(output.startswith(got) and got.endswith(b"\n") and len(got) < len(output))
        self.assertEqual(whole, flash_in(self))
        self.assertEqual((0, output, b""), self.run_program(["run", PAIR, "flash", "script"]))
        self.assertNotEqual(whole, flash_in(self))

    def test_long_run_takes_little_memory(self):
        new_device(self)
        self.file("script", MANY * b"boot\n")
        most = 10 << 20
        limited = {"preexec_fn": lambda: resource.setrlimit(resource.RLIMIT_AS, (most, most)), "timeout": LIMIT}
        command = [self.program, "run", PAIR, "flash", "script", "--json", "--explain"]
        ran = subprocess.run(command, cwd=self.folder, capture_output=True, **limited)
        self.assertEqual((0, MANY), (ran.returncode, ran.stdout.count(b"\n")))
