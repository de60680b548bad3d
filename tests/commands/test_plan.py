"""What `plan` prints for fleets, and how much memory it takes. A plan, its summary and sums of them are proved."""

import resource
import subprocess

from support.files import names_in, read, report, table
from support.printed import error
from support.program import ProgramTest

ONE = b"image 0 1.0.0+0 0 0\n"


class PlanTest(ProgramTest):
    def test_report_of_a_device_is_that_of_its_table(self):
        parts = [(b"device %s\n" % it.encode(), it) for it in names_in("tables")]
        fleet, wanted = (b"".join(line + read(of(it)) for line, it in parts) for of in (table, report))
        self.assertEqual((0, wanted, b""), self.run_program(["plan", "-"], given=fleet, pieces=5))

    def test_first_line_without_end(self):
        """A first line that is too long for a device is refused before it ends."""
        self.assertEqual(error("fleet line 1"), self.run_program(["plan", "/dev/zero"]))

    def test_large_fleet_takes_little_memory(self):
        """A fleet of more bytes than the memory that the program may use is planned as any other."""
        most = 10 << 20
        fleet = b"".join(b"device %d\n%srequest %d.0.0 0\n" % (it, ONE, it % 2) for it in range(250_000))
        self.assertGreater(len(fleet), most)
        self.file("fleet", fleet)
        for options in (["--json", "--explain"], ["--explain"], ["--json", "--summary", "--explain"]):
            with self.subTest(f"{options}"):
                limited = {"preexec_fn": lambda: resource.setrlimit(resource.RLIMIT_AS, (most, most))}
                streams = {"stdout": subprocess.DEVNULL, "stderr": subprocess.DEVNULL}
                ran = subprocess.run([self.program, "plan", "fleet", *options], cwd=self.folder, **streams, **limited)
                self.assertEqual(0, ran.returncode)
