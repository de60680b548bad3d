"""When a run reads the files that a script names, and how much of them it holds in memory."""

import fcntl
import hashlib
import os
import resource
import struct
import subprocess
import termios
import threading
import time

from support.builders import component, device, image, manifest
from support.files import ONE, PAIR, read
from support.flashes import flash_of
from support.program import LIMIT, ProgramTest
from support.stories import manifest_of, new_device, run_of, script_of
from support.worked import PLAIN, numbered

# The most address space of a run, besides its flash, its script, one piece and the program's file, in bytes: the
# system's libraries, the stack, and everything else.
BESIDE = 4_000_000


class ScriptMemoryTest(ProgramTest):
    def run_within(self, arguments, most):
        """How a run ends whose address space has this limit, besides the program's file."""
        limit = os.path.getsize(self.program) + most
        return self.run_program(arguments, preexec_fn=lambda: resource.setrlimit(resource.RLIMIT_AS, (limit, limit)))

    def test_many_pieces_take_the_memory_of_one(self):
        sectors, piece = 256, 1 << 20
        whole = image([], body=(sectors * 131072 - 72) * b"p")
        self.file("wide.json", device(sector=131072, sectors=[sectors]))
        self.file("wide.img", whole)
        parts = [f"piece 0 wide.img {at} {min(piece, len(whole) - at)}" for at in range(0, len(whole), piece)]
        named = component(size=len(whole), payload_digest=hashlib.sha256(whole).hexdigest())
        self.file("wide-manifest.json", manifest(components=[named]))
        self.file("wide-script", script_of(", ".join(["boot", "accept wide-manifest.json", *parts, "finish 0"])))
        self.run_program(["provision", "wide.json", "wide-flash", ONE])
        flash = os.path.getsize(f"{self.folder}/wide-flash")
        got = self.run_within(["run", "wide.json", "wide-flash", "wide-script"], flash + piece + BESIDE)
        self.assertEqual((0, numbered(["plain|run 0 1.0.0+0", *(len(parts) + 2) * ["done"]]), b""), got)

    def test_many_events_take_the_memory_of_their_script(self):
        count = 100_000
        flash_of(self)
        text = count * b"boot\n"
        self.file("boots", text)
        got = self.run_within(["run", PAIR, "flash", "boots"], len(text) + BESIDE)
        # Not compared by assertEqual, which takes minutes for the difference.
        self.assertTrue(got == (0, numbered(count * [PLAIN]), b""), got[0])


class ScriptFileTest(ProgramTest):
    def test_a_pipe_is_read_once(self):
        """Its bytes are read when its line is checked, and saved for the event."""
        new_device(self)
        self.file("m.json", manifest_of(1, "0 test one.img"))
        os.mkfifo(f"{self.folder}/pipe")

        def fill():
            with open(f"{self.folder}/pipe", "wb") as it:
                it.write(read(ONE))

        writer = threading.Thread(target=fill)
        writer.start()
        got = run_of(self, "boot, accept m.json, piece 0 pipe, finish 0")
        writer.join()
        self.assertEqual((0, numbered([PLAIN, *3 * ["done"]]), b""), got)

    def test_pieces_of_the_flash_are_those_from_before_the_run(self):
        """The secondary slot of image 0 is erased until the first upload is written."""
        first, second = read(f"{os.path.dirname(ONE)}/needing.img"), 96 * b"\xff"
        parts = [(number, len(it), hashlib.sha256(it).hexdigest()) for number, it in enumerate((first, second))]
        text = manifest(components=[component(component_id=at, size=size, payload_digest=it) for at, size, it in parts])
        for name in ("flash", "linked"):
            with self.subTest(f"the flash by the name {name}"):
                new_device(self)
                if name == "linked":
                    os.link(f"{self.folder}/flash", f"{self.folder}/linked")
                self.file("m.json", text)
                events = f"boot, accept m.json, piece 0 needing.img, finish 0, piece 1 {name} 3072 96, finish 1"
                replies = [PLAIN, *4 * ["done"], "refused upload 7 NotAnImage 2"]
                self.assertEqual((1, numbered(replies), b""), run_of(self, events))

    def test_a_file_that_changes_ends_the_run(self):
        """After N boots the run waits for its reader. Meanwhile the file goes, or gets too short."""
        count, gone = 3000, f"{self.folder}/gone"
        for line, change, message in [
            (b"piece 0 gone\n", lambda: os.remove(gone), b"error: cannot read gone\n"),
            (b"piece 0 gone 4 8\n", lambda: os.truncate(gone, 4), b"error: script line 3001\n"),
        ]:
            with self.subTest(f"{line!r} of a file that changes"):
                flash_of(self)
                self.file("gone", 20 * b"g")
                self.file("boots", count * b"boot\n" + line + b"boot\n")
                streams = {"stdin": subprocess.DEVNULL, "stdout": subprocess.PIPE, "stderr": subprocess.PIPE}
                ran = subprocess.Popen([self.program, "run", PAIR, "flash", "boots"], cwd=self.folder, **streams)
                until = time.monotonic() + LIMIT
                while unread_in(ran.stdout) < 60_000 and time.monotonic() < until:
                    time.sleep(0.01)
                change()
                out, err = ran.communicate(timeout=LIMIT)
                self.assertEqual((1, True, message), (ran.returncode, out == numbered(count * [PLAIN]), err))


def unread_in(pipe):
    """How many unread bytes a pipe holds."""
    return struct.unpack("i", fcntl.ioctl(pipe, termios.FIONREAD, b"\0\0\0\0"))[0]
