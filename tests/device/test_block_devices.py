"""What the program does if a flash file is a block device, or can't be written. Tests only imitate block devices."""

import fcntl
import os
import shutil
import subprocess

from support.compiled import needs_compiler, preloaded
from support.files import EXAMPLES, PAIR, read
from support.flashes import new_parts, placed
from support.printed import CANNOT_MAKE, DONE, IN_USE
from support.program import LIMIT, ProgramTest
from support.stories import flash_in, new_device, run_of, script_of
from support.worked import BACK, PLAIN, SUM_OF_WRITES, TRIED, USUAL, WORKED_EVENTS, WRITES, ended

REFUSED = (1, b"", IN_USE)
MAKE = ["provision", PAIR, "flash", "one.img", "patched.img"]


def mounted(number, source="/dev/x"):
    """The line of /proc for a mounted file system."""
    other = "22 27 0:21 / /proc rw,relatime - proc proc rw\n"
    return f"{other}36 35 {number} / /mnt\\040a rw shared:1 - ext4 {source} rw\n"


# The number of the flash's device, what uses that or another device, and whether the flash is in use then. The disk 8:0
# has two partitions, and `node` is another node of the first one.
USED = [
    ("8:1", {}, False),
    ("8:1", {"mounts": mounted("8:1")}, True),
    ("8:1", {"mounts": mounted("8:0")}, True),
    ("8:1", {"mounts": mounted("8:2")}, False),
    ("8:1", {"mounts": mounted("8:10")}, False),
    ("8:0", {"mounts": mounted("8:2")}, True),
    ("8:0", {"mounts": mounted("8:16")}, False),
    ("8:0", {"holders": ["sda/sda2"]}, True),
    ("8:0", {"holders": ["sdb"]}, False),
    ("8:1", {"holders": ["sda/sda1"]}, True),
    ("8:1", {"holders": ["sda"]}, True),
    ("8:1", {"holders": ["sda/sda2"]}, False),
    ("8:1", {"mounts": mounted("0:30", "/dev/node")}, True),
    ("8:16", {"mounts": mounted("0:30", "/dev/node")}, False),
    ("8:1", {"swaps": "/dev/node partition 8 0 -2\n"}, True),
    ("8:0", {"swaps": "/dev/node\tpartition 8 0 -2\n"}, True),
    ("8:16", {"swaps": "/dev/node partition 8 0 -2\n"}, False),
]


class PretendedTest(ProgramTest):
    """A test with support/c/calls.c, on a new flash."""

    def setUp(self):
        super().setUp()
        self.new, self.flash = new_device(self), f"{self.folder}/flash"

    def pretending(self, **what):
        """The environment of a run in which the library pretends this."""
        return {**preloaded(self, "calls"), **{name: str(it) for name, it in what.items()}}

    def as_block_device(self, name, bytes):
        """Writes these bytes to a file, and returns the environment in which it is a block device."""
        return self.pretending(BLOCK_DEVICE=os.stat(f"{self.folder}/{self.file(name, bytes)}").st_ino)

    def counted(self):
        """How many writes a run made, and how many syncs directly after a write."""
        return tuple(map(int, read(f"{self.folder}/count").split()))

    def system_of(self, mounts="", swaps="", holders=()):
        """Makes a folder that replaces /proc, /sys and /dev: a disk 8:0 with two partitions, and what uses them."""
        system = f"{self.folder}/system"
        shutil.rmtree(system, ignore_errors=True)
        swaps = f"Filename Type Size Used Priority\n{swaps}"
        texts = {"proc/self/mountinfo": mounts, "proc/swaps": swaps, "dev/node": ""}
        devices = {"sda": "8:0", "sda/sda1": "8:1", "sda/sda2": "8:2", "sdb": "8:16"}
        for folder, number in devices.items():
            texts[f"sys/devices/{folder}/dev"] = f"{number}\n"
            texts.update({f"sys/devices/{folder}/partition": "1\n"} if "/" in folder else {})
        for name, text in texts.items():
            os.makedirs(os.path.dirname(f"{system}/{name}"), exist_ok=True)
            with open(f"{system}/{name}", "w", encoding="ascii") as it:
                it.write(text)
        os.makedirs(f"{system}/sys/dev/block")
        for folder, number in devices.items():
            os.makedirs(f"{system}/sys/devices/{folder}/holders")
            os.symlink(f"../../devices/{folder}", f"{system}/sys/dev/block/{number}")
        for folder in holders:
            os.symlink("../../dm-0", f"{system}/sys/devices/{folder}/holders/dm-0")
        return system


@needs_compiler
class BlockDeviceTest(PretendedTest):
    def holds(self, wanted):
        """The flash holds these bytes, and no file is left beside it."""
        self.assertEqual(wanted, flash_in(self))
        self.assertEqual([], [it for it in os.listdir(self.folder) if it.startswith(".bootswap-")])

    def test_a_block_device_is_written_in_place(self):
        env = self.as_block_device("flash", bytes(8192))
        self.assertEqual(DONE, self.run_program(MAKE, env=env))
        self.holds(placed(8192, new_parts()))
        self.assertEqual(env["BLOCK_DEVICE"], str(os.stat(self.flash).st_ino))

    def test_a_refusal_writes_nothing(self):
        env = self.as_block_device("flash", bytes(8192))
        too_big = [*MAKE[:-1], "long.img"]
        self.assertEqual((1, b"", b"error: image 1 too big\n"), self.run_program(too_big, env=env))
        with self.held("flash", fcntl.LOCK_SH):
            self.assertEqual(REFUSED, self.run_program(MAKE, env=env))
        self.holds(bytes(8192))

    def test_a_block_device_has_the_length_of_the_flash(self):
        for size in (0, 8191, 8193):
            with self.subTest(f"a block device of {size} bytes"):
                env = self.as_block_device("flash", bytes(size))
                self.assertEqual((1, b"", b"error: flash size\n"), self.run_program(MAKE, env=env))
                self.holds(bytes(size))

    def test_each_write_to_a_block_device_is_synced(self):
        """Before the next one. To a plain file a run syncs only the last write."""
        for name, env, synced in [
            ("a block device", self.as_block_device("flash", self.new), SUM_OF_WRITES), ("a plain file", {}, 1)
        ]:
            with self.subTest(f"a run on {name}"):
                self.file("flash", self.new)
                env = {**self.pretending(WRITE_COUNT=f"{self.folder}/count"), **env}
                got = self.run_program(["run", PAIR, "flash", "-"], given=script_of(WORKED_EVENTS), env=env)
                self.assertEqual((ended(USUAL), (SUM_OF_WRITES, synced)), (got, self.counted()))

    def test_a_block_device_whose_write_failed_is_written_again(self):
        """It holds a part of the new flash."""
        env, wanted = self.as_block_device("flash", bytes(8192)), placed(8192, new_parts())
        failing = {**env, "FAILING_WRITE": "1"}
        self.assertEqual((4, b"", CANNOT_MAKE), self.run_program(MAKE, env=failing))
        self.holds(wanted[:4096] + bytes(4096))
        self.assertEqual(DONE, self.run_program(MAKE, env=env))
        self.holds(wanted)

    def test_a_block_device_that_the_system_uses_is_refused(self):
        """Or whose disk or partitions it uses. It can be shown."""
        made, boots = ["provision", PAIR, "flash", "one.img", "one.img"], ["run", PAIR, "flash", "-"]
        for row, (number, uses, is_used) in enumerate(USED):
            with self.subTest(f"a block device {number}, row {row}: {', '.join(uses) or 'not used'}"):
                system = self.system_of(**uses)
                self.file("flash", self.new)
                nodes = f"{os.stat(self.flash).st_ino}@{number},{os.stat(f'{system}/dev/node').st_ino}@8:1"
                env = self.pretending(BLOCK_DEVICE=nodes, PRETENDED=system)
                got = [self.run_program(arguments, given=b"boot\n", env=env) for arguments in (made, boots)]
                self.assertEqual(2 * [REFUSED] if is_used else [DONE, ended([PLAIN])], got)
                self.assertEqual(0, self.run_program(["show", PAIR, "flash"], env=env)[0])
                self.assertEqual(self.new, flash_in(self))

    def test_two_nodes_of_a_block_device_are_not_written_at_the_same_time(self):
        """Two nodes of two devices are."""
        system = self.system_of()
        for other, is_one in (("8:1", True), ("8:2", False)):
            with self.subTest(f"a block device 8:1 that is run, by a node of {other}"):
                self.file("flash", self.new)
                node = f"{self.folder}/{self.file('node', self.new)}"
                nodes = f"{os.stat(self.flash).st_ino}@8:1,{os.stat(node).st_ino}@{other}"
                env = self.pretending(BLOCK_DEVICE=nodes, PRETENDED=system)
                os.mkfifo(f"{self.folder}/script")
                run = [self.program, "run", PAIR, "flash", "script"]
                waits = subprocess.Popen(run, cwd=self.folder, env=env, stdout=subprocess.PIPE, stderr=subprocess.PIPE)
                # The run opens the script after it holds the flash.
                with open(f"{self.folder}/script", "wb") as script:
                    got = [self.run_program(["run", PAIR, "node", "-"], given=b"boot\n", env=env)]
                    got.append(self.run_program(["provision", PAIR, "node", "one.img", "one.img"], env=env))
                    shown = self.run_program(["show", PAIR, "node"], env=env)[::2]
                    script.write(b"boot\n")
                out, err = waits.communicate(timeout=LIMIT)
                os.remove(f"{self.folder}/script")
                self.assertEqual(2 * [REFUSED] if is_one else [ended([PLAIN]), DONE], got)
                self.assertEqual((1, IN_USE) if is_one else (0, b""), shown)
                self.assertEqual(ended([PLAIN]), (waits.returncode, out, err))

    def test_only_a_flash_is_written_to_a_block_device(self):
        self.file("body", b"ABCD")
        script = f"{EXAMPLES}/scripts/reverted.txt"
        for arguments in (
            ["make-image", "made", "body", "--version=1"],
            ["extract", PAIR, "flash", "0", "primary", "made"],
            ["sweep", "--sample=1", "--svg", "made", PAIR, script, "one.img", "one.img"],
        ):
            with self.subTest(f"{arguments[0]} onto a block device"):
                env = self.as_block_device("made", bytes(8192))
                self.assertEqual((1, b"", b"error: cannot write made\n"), self.run_program(arguments, env=env))
                self.assertEqual(bytes(8192), read(f"{self.folder}/made"))


@needs_compiler
class FailingWriteTest(PretendedTest):
    def test_a_device_tries_no_write_after_one_that_wrote_its_first_half(self):
        """The next boot completes an upgrade whose write failed. With half of its last gate the record counts: the rest
        of it has the bytes of an erased unit."""
        upgrade, last = ", ".join(WORKED_EVENTS.split(", ")[:7]), sum(WRITES[:7])
        for number in range(1, last + 1):
            self.file("flash", self.new)
            env = self.pretending(FAILING_WRITE=number, WRITE_COUNT=f"{self.folder}/count")
            status, _, err = self.run_program(["run", PAIR, "flash", "-"], given=script_of(upgrade), env=env)
            self.assertEqual((4, CANNOT_MAKE, number), (status, err, self.counted()[0]), f"write {number}")
            if number > sum(WRITES[:6]):
                self.assertEqual(ended([BACK if number == last else TRIED]), run_of(self, "boot"), f"write {number}")
