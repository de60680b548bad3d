"""The board in QEMU: its power, and its serial port."""

import os
import select
import subprocess
import time

from parts import make_flash

# How many seconds an answer of the board may take.
LIMIT = 120

PROMPT = b"> "


class Silent(Exception):
    """The board didn't answer, or QEMU ended."""


class Machine:
    """The board with its power on. `with` takes it away at its end."""

    def __init__(self, platform, bootloader, flash):
        streams = {"stdin": subprocess.PIPE, "stdout": subprocess.PIPE}
        self.process = subprocess.Popen(platform.words(bootloader, flash), bufsize=0, **streams)
        self.unread = b""

    def __enter__(self):
        return self

    def __exit__(self, *_):
        self.take_power()

    def send(self, line):
        """Sends a line to the serial port."""
        left = f"{line}\n".encode()
        while left:
            left = left[self.process.stdin.write(left) :]

    def answer(self, until=None):
        """Returns what the board writes before its next prompt, or None if it wrote no prompt until
        this time."""
        limit = time.monotonic() + LIMIT
        while self.unread != PROMPT and not self.unread.endswith(b"\n" + PROMPT):
            left = min(until or limit, limit) - time.monotonic()
            if left > 0:
                self.receive(left)
            elif until and until < limit:
                return None
            else:
                raise Silent(f"no answer in {LIMIT} seconds, after {self.unread!r}")
        text, self.unread = self.unread[: -len(PROMPT)], b""
        return text.decode("ascii", "replace")

    def receive(self, seconds):
        """Waits for more bytes, at most N seconds."""
        if not select.select([self.process.stdout], [], [], seconds)[0]:
            return
        more = os.read(self.process.stdout.fileno(), 65536)
        if not more:
            raise Silent(f"QEMU ended, after {self.unread!r}")
        self.unread += more

    def take_power(self):
        """Takes the power away, and returns what the board wrote after its last prompt."""
        self.process.kill()
        rest, _ = self.process.communicate()
        self.unread += rest or b""
        return self.unread.decode("ascii", "replace")


def provision(platform, bootloader, folder, flash):
    """Makes the file of a flash, and has the board provision it."""
    make_flash(platform, folder, flash)
    with Machine(platform, bootloader, flash) as machine:
        machine.answer()
        machine.send("provision")
        text = machine.answer()
    if text != "2 done\n":
        raise Silent(f"the board isn't provisioned: {text!r}")
