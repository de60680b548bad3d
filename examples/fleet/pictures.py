"""Files of pictures that the programs of this folder make.

The name is resolved once, before the work, and what it leads to is held until the picture is made. A picture never replaces an
input, and replaces a file that isn't empty and doesn't begin as a picture of `bootswap` only by `--force`.
"""

from __future__ import annotations

import argparse
import contextlib
import fcntl
import os
import re
import stat
from collections.abc import Iterable

# How pictures begin: those of `bootswap sweep` and reach.py, and those of gnuplot for worth.py.
HEADS = re.compile(
    rb'<svg xmlns="http://www\.w3\.org/2000/svg" width="\d+" height="\d+" (viewBox="0 0 \d+ \d+" )?'
    rb'font-family="sans-serif" font-size="12">\n<rect width="(\d+|100%)" height="(\d+|100%)" fill="white"/>\n'
    rb'|<\?xml version="1\.0" encoding="utf-8"  standalone="no"\?>\n<svg \n width="\d+" height="\d+"\n viewBox="0 0 \d+ \d+"\n'
)

# No head is longer.
MOST_HEAD = 1024

# The read, write and execute rights of a file.
RIGHTS = 0o777


class PictureError(Exception):
    """Why a picture isn't made."""


def add_picture(parser: argparse.ArgumentParser, option: str, text: str) -> None:
    """Adds the arguments of a picture."""
    parser.add_argument(option, metavar="FILE", help=text)
    parser.add_argument("--force", action="store_true", help="replace FILE even if it isn't a picture of bootswap")


def identity(file: str | bytes | int) -> tuple[int, int] | None:
    """Returns the numbers of the file that a name or a descriptor leads to, or None."""
    try:
        found = os.stat(file)
    except (OSError, ValueError):
        return None
    return found.st_dev, found.st_ino


class Picture:
    """The place of a picture: a folder, a name in it, and the file that has this name, locked."""

    def __init__(self, name: str, inputs: Iterable[str | bytes | int], force: bool) -> None:
        self.name, self.old = name, None
        path = os.path.realpath(name)
        self.base = os.path.basename(path)
        try:
            if os.path.islink(path) or (os.path.islink(name) and not os.path.exists(name)):
                raise OSError("it leads nowhere")
            self.folder = os.open(os.path.dirname(path), os.O_RDONLY | os.O_DIRECTORY)
            if not os.access(".", os.W_OK | os.X_OK, dir_fd=self.folder):
                raise OSError("no file can be made there")
            with contextlib.suppress(FileNotFoundError):
                self.old = os.open(self.base, os.O_RDWR | os.O_NOFOLLOW | os.O_NONBLOCK, dir_fd=self.folder)
        except OSError:
            raise self.error() from None
        if self.old is not None:
            self.check_old(inputs, force)

    def error(self) -> PictureError:
        return PictureError(f"error: cannot write {self.name}")

    def check_old(self, inputs: Iterable[str | bytes | int], force: bool) -> None:
        """Locks the file that is to be replaced, if it may be."""
        if not stat.S_ISREG(os.fstat(self.old).st_mode):
            raise self.error()
        if identity(self.old) in map(identity, inputs):
            raise PictureError("error: picture is an input")
        try:
            fcntl.flock(self.old, fcntl.LOCK_EX | fcntl.LOCK_NB)
        except OSError:
            raise self.error() from None
        head = os.pread(self.old, MOST_HEAD, 0)
        if head and not HEADS.match(head) and not force:
            raise PictureError(f"error: {self.name} is no picture")

    def write(self, contents: bytes) -> None:
        """Makes the picture. A failure changes nothing."""
        new = f".bootswap-{os.urandom(8).hex()}"
        mode = RIGHTS & os.fstat(self.old).st_mode if self.old is not None else None
        try:
            made = os.open(new, os.O_WRONLY | os.O_CREAT | os.O_EXCL, 0o666 if mode is None else 0o600, dir_fd=self.folder)
            with contextlib.ExitStack() as undo:
                undo.callback(self.remove, new)
                with open(made, "wb") as it:
                    it.write(contents)
                    it.flush()
                    if mode is not None:
                        os.fchmod(made, mode)
                    os.fsync(made)
                self.take_name(new)
        except OSError:
            raise self.error() from None
        with contextlib.suppress(OSError):
            os.fsync(self.folder)

    def take_name(self, new: str) -> None:
        """Gives a new file the name. It replaces the held file alone."""
        folders = {"src_dir_fd": self.folder, "dst_dir_fd": self.folder}
        if self.old is None:
            try:
                os.link(new, self.base, **folders)
                return
            except FileExistsError:
                raise
            except OSError:
                # A file system without hard links: an empty file takes the name first.
                self.old = os.open(self.base, os.O_WRONLY | os.O_CREAT | os.O_EXCL, 0o600, dir_fd=self.folder)
        found = os.stat(self.base, dir_fd=self.folder, follow_symlinks=False)
        if (found.st_dev, found.st_ino) != identity(self.old):
            raise OSError("another file has the name")
        os.rename(new, self.base, **folders)

    def remove(self, name: str) -> None:
        with contextlib.suppress(FileNotFoundError):
            os.remove(name, dir_fd=self.folder)


def picture_of(name: str | None, inputs: Iterable[str | bytes | int], force: bool) -> Picture | None:
    """Returns the place of a picture, if there is to be one. Ends the program if none can be made there."""
    try:
        return Picture(name, inputs, force) if name is not None else None
    except PictureError as error:
        raise SystemExit(str(error)) from None
