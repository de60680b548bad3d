"""What the program does at the limits of a process: the length of files, and memory. Each error line is one write."""

import resource
import socket
import subprocess
import threading

from support.files import ONE, PAIR
from support.flashes import flash_of
from support.printed import CANNOT_MAKE
from support.program import LIMIT, ProgramTest, shown
from support.stories import flash_in
from support.worked import ACCEPT_FAILS, NO_SESSION, PLAIN, SCRIPT, USUAL, ended


def within(kind, most):
    """A function for a new process, which sets its limit, and resets each signal before it runs the program."""
    return {"preexec_fn": lambda: resource.setrlimit(kind, (most, most))}


class FileLimitTest(ProgramTest):
    """Files as long as a process may write them."""

    def test_a_device_loses_power_at_the_limit_of_its_flash_file(self):
        """The first write past the limit is that of a record, or the erase of the log's next sector."""
        whole = flash_of(self)
        for options in ([], ["--durable"]):
            for limit, replies in [(0, ACCEPT_FAILS), (7168, [*USUAL[:8], "cut", "cut"])]:
                with self.subTest(f"run {options} of a flash file that can't be written from byte {limit} on"):
                    self.file("flash", whole)
                    got = self.run_program(["run", *options, PAIR, "flash", SCRIPT], most=limit)
                    self.assertEqual(ended(replies, 4, CANNOT_MAKE), got)
                    self.assertEqual(whole[limit:], flash_in(self)[limit:])

    def test_a_boot_that_writes_nothing_reaches_no_limit(self):
        flash_of(self)
        self.assertEqual(ended([PLAIN]), self.run_program(["run", PAIR, "flash", "-"], given=b"boot\n", most=0))


# The most bytes of a file that a line of a script may name.
MOST_FILE = 4_294_967_295

# How a run ends of a piece that no upload takes, that the file doesn't have, and that is too long.
UNUSED, MISSING = ended([PLAIN, NO_SESSION], 1), (1, b"", b"error: script line 2\n")
LONGER = {it: (1, b"", f"error: {it} is longer than {MOST_FILE} bytes\n".encode()) for it in ("long", "/dev/zero")}

# Pieces of files, one of 6 * 10^9 bytes, and how a run of them ends.
PARTS = [
    ("long 5000000000 10", UNUSED),
    ("long 5999999999 1", UNUSED),
    ("long 6000000000 1", MISSING),
    (f"long {2**64 - 1} 1", MISSING),
    ("long 0 5000000000", LONGER["long"]),
    (f"long 1000000000 {MOST_FILE + 1}", LONGER["long"]),
    ("/dev/zero 1000000000 10", UNUSED),
    (f"/dev/zero {MOST_FILE - 5} 5", UNUSED),
    (f"/dev/zero {MOST_FILE - 5} 6", LONGER["/dev/zero"]),
    (f"/dev/zero {2**64 - 1} 1", LONGER["/dev/zero"]),
    (f"/dev/null 0 {2**64 - 1}", MISSING),
    ("/dev/null 0 0", UNUSED),
]

# The memory of a run that reads pieces: more than the program needs, and less than the bytes before a piece. The memory
# that is enough for each command below, and what is taken away at a time.
LITTLE, PAGE = 64_000_000, 4096
ENOUGH = 2000 * PAGE
NO_MEMORY = (1, b"", b"error: memory\n")


class MemoryLimitTest(ProgramTest):
    def setUp(self):
        super().setUp()
        flash_of(self)

    def test_the_bytes_before_a_piece_take_no_memory(self):
        """A piece that is too long is refused like such a file."""
        with open(f"{self.folder}/long", "wb") as it:
            it.truncate(6_000_000_000)
        for part, wanted in PARTS:
            with self.subTest(f"piece 0 {part}"):
                script, how = f"boot\npiece 0 {part}\n".encode(), within(resource.RLIMIT_AS, LITTLE)
                self.assertEqual(wanted, self.run_program(["run", PAIR, "flash", "-"], given=script, **how))

    def test_less_and_less_memory_kills_no_command(self):
        """It ends as usual or out of memory, until the system can't start it: its loader reports that with status
        127."""
        for arguments in (["--version"], ["show", PAIR, "flash"], ["sweep", "--sample=0", PAIR, SCRIPT, ONE, ONE]):
            with self.subTest(f"{shown(arguments)} with less and less memory"):
                usual = self.run_program(arguments)
                got, most, refused = usual, ENOUGH, 0
                while got in (usual, NO_MEMORY) and most > 0:
                    refused += got == NO_MEMORY
                    most -= PAGE
                    got = self.run_program(arguments, **within(resource.RLIMIT_AS, most))
                self.assertEqual((127, True), (got[0], refused > 0), f"{most} bytes: {got}")


# Names that can't be read, and how an error line prints them: at most 4,096 bytes, and no half of a character.
YES, PATH, ESCAPE = "a" * 4096, "b/" * 2500, 341 * "\\u{1b}"
NAMES = [
    ("no\n/a\x1b", "no\\n/a\\u{1b}"),
    ("a b" * 1000, "a b" * 1000),
    (YES, YES),
    (f"{YES}c", f"{YES[:2048]}...{YES[:2047]}c"),
    (PATH, f"{PATH[:2048]}...{PATH[-2048:]}"),
    (1000 * "\x1b", f"{ESCAPE}...{ESCAPE}"),
    ("x" + 3000 * "ä", f"x{1023 * 'ä'}...{1024 * 'ä'}"),
    (100_000 * "z", f"{2048 * 'z'}...{2048 * 'z'}"),
]


class ErrorLineTest(ProgramTest):
    def writes_of(self, arguments, stream):
        """Runs a command with an output that keeps writes apart, and returns the status and the bytes of each write."""
        ours, theirs = socket.socketpair(socket.AF_UNIX, socket.SOCK_SEQPACKET)
        streams = {**dict.fromkeys(("stdin", "stdout", "stderr"), subprocess.DEVNULL), stream: theirs}
        messages = []

        def take():
            while message := ours.recv(1 << 20):
                messages.append(message)

        taking = threading.Thread(target=take)
        taking.start()
        with theirs:
            ran = subprocess.Popen([self.program, *arguments], cwd=self.folder, **streams)
        status = ran.wait(LIMIT)
        taking.join(LIMIT)
        ours.close()
        return status, messages

    def test_an_error_line_is_one_write(self):
        for name, printed in NAMES:
            with self.subTest(f"an error line with a name of {len(name)} characters"):
                line = f"error: cannot read {printed}\n".encode()
                self.assertEqual((1, [line]), self.writes_of(["choose", name], "stderr"))

    def test_other_texts_are_two_writes_at_most(self):
        for arguments, stream in [(["frob"], "stderr"), (["--help"], "stdout"), (["help", "run"], "stdout")]:
            with self.subTest(shown(arguments)):
                status, out, err = self.run_program(arguments)
                got = self.writes_of(arguments, stream)
                self.assertEqual((status, out or err, True), (got[0], b"".join(got[1]), len(got[1]) <= 2))
