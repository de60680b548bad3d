"""Outputs that can't be written, or only up to some byte."""

import fcntl
import os


from support.every_command import BY_NAME, EVERY, write_inputs
from support.files import read, report
from support.printed import OF_SENSOR, PARTS, error
from support.program import ProgramTest, shown
from support.stories import flash_in

# The offset of outputs in their files: beyond all bytes of a flash, so that the size limit doesn't apply to the flash.
OFFSET = 8192


class OutputTest(ProgramTest):
    def within(self, arguments, room):
        """Runs the program with outputs that take N bytes each, and returns the status and the bytes taken."""
        names = self.path("taken-out"), self.path("taken-err")
        with open(names[0], "wb") as out, open(names[1], "wb") as err:
            out.seek(OFFSET)
            err.seek(OFFSET)
            status, _, _ = self.run_program(arguments, most=OFFSET + room, stdout=out, stderr=err)
        return status, *(read(it)[OFFSET:] for it in names)

    def test_output_that_takes_no_byte_ends_with_1(self):
        write_inputs(self)
        ways = [[], ["--explain"]]
        runs = [it.arguments() + more for it in EVERY for more in ways + [["--json"]] * it.json]
        runs += [["plan", "fleet", "--summary"], ["plan", "fleet", "--summary", "--json"], ["--help"], ["--version"]]
        with open("/dev/full", "wb") as full:
            for arguments in runs:
                with self.subTest(shown(arguments)):
                    self.assertEqual((1, b"", b""), self.run_program(arguments, stdout=full))
                    self.assertEqual((1, b"", b""), self.run_program(arguments, closed=1))
            for arguments in ["choose", "absent"], ["choose", "absent", "--json"], ["frob"]:
                with self.subTest(shown(arguments)):
                    self.assertEqual((1, b"", b""), self.run_program(arguments, stderr=full))

    def test_output_with_little_room_gets_a_prefix(self):
        write_inputs(self)
        runs = [it.arguments() for it in EVERY] + [["check", "table", report("three")], ["image", "table"], ["frob"]]
        runs += [["choose", "absent"], ["manifest", "table", "absent"]]
        runs += [["provision", "device", "new", "image", "body"]]
        for arguments in runs:
            flash = flash_in(self)
            _, out, err = self.run_program(arguments)
            for room in sorted({0, 1, len(out) // 2, max(len(out), len(err)) - 1}):
                with self.subTest(f"{shown(arguments)}: {room} bytes"):
                    self.file("flash", flash)
                    # Standard error is written after all of standard output.
                    printed = out[:room], b"" if room < len(out) else err[:room]
                    self.assertEqual((1, *printed), self.within(arguments, room))

    def test_parts_of_a_device_are_written_after_it(self):
        arguments = ["make-device", "--sector=512", "--slots=2,2", "--vendor=python.org", "--class=sensor"]
        for room in (0, 1, 100, len(PARTS) - 1):
            with open(f"{self.folder}/parts", "wb") as parts:
                got = self.run_program(arguments, stderr=parts, most=room)
            self.assertEqual((1, OF_SENSOR, b""), got, f"{room} bytes")
            self.assertEqual(PARTS[:room], read(f"{self.folder}/parts"))

    def test_file_that_cannot_be_made(self):
        """Its name leads to no plain file, or another program holds what is there. Nothing is changed."""
        write_inputs(self)
        os.symlink("nowhere", self.path("astray"))
        os.symlink("image", self.path("by-link"))
        os.mkfifo(self.path("pipe"))
        makers = ("make-image", "image"), ("make-image", "by-link"), ("extract", "image"), ("provision", "flash")
        for command, held in makers:
            it, message = BY_NAME[command], "flash in use" if command == "provision" else "image in use"
            into = lambda name: [name if word == it.makes else word for word in it.arguments()]
            for name in (".", "pipe", "/dev/null", "astray", "no\n/made\x1b"):
                with self.subTest(f"{command} {name!r}"):
                    shown = name.replace("\n", "\\n").replace("\x1b", "\\u{1b}")
                    end = error("flash file", 4) if command == "provision" else error(f"cannot write {shown}")
                    self.assert_refuses(end, into(name))
            for how in (fcntl.LOCK_EX, fcntl.LOCK_SH):
                with self.subTest(f"{command} of a file with lock {how}"), self.held(held, how):
                    self.assert_refuses(error(message), into(held))
