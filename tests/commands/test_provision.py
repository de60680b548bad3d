"""What `provision` writes to a flash file, and what it refuses."""

import os

from support.files import ONE, PAIR, read
from support.flashes import FLAG, ONE_IMAGE, flash_of, log_record, new_parts, placed
from support.printed import DONE, error, refused
from support.program import ProgramTest
from support.stories import flash_in, new_device, state

# Arguments that are refused before the file `made` is made, and the first fault of each.
REFUSED = [
    ("pair.json made one.img", error("image count")),
    ("pair.json made absent one.img one.img", error("image count")),
    ("pair.json made long.img absent", error("image 0 too big")),
    ("pair.json made absent long.img", error("cannot read absent")),
    ("pair.json made abc long.img", error("image 1 too big")),
    ("uneven.json made slot.img slot.img", error("image 1 too big")),
    ("uneven.json made slot.img sector.img", refused("boot 5 RunningDamaged 0")),
    ("pair.json made one.img short.img", refused("boot 5 RunningDamaged 1")),
    ("pair.json made empty.img empty.img", refused("boot 5 RunningDamaged 0")),
    ("pair.json made counted.img one.img", refused("boot 6 InvalidSet")),
    ("pair.json gone/made one.img short.img", refused("boot 5 RunningDamaged 1")),
    ("other.json made absent", error("device file")),
    ("small.json made absent", refused("map 1 BadSector")),
    ("pair.json gone/made one.img one.img", error("flash file", 4)),
    ("pair.json . one.img one.img", error("flash file", 4)),
]


class ProvisionTest(ProgramTest):
    def assert_unchanged(self, end, arguments, **how):
        self.assert_refuses(end, ["provision", *arguments], **how)

    def test_bytes_of_a_new_flash(self):
        """It holds the images, any bytes after them in their slots, and the first record of the log."""
        self.assertEqual(placed(8192, new_parts()), new_device(self, images=["one.img", "patched.img"]))
        end = (0, state("steady", "-", 0, [0, 5], "none none"), b"")
        self.assertEqual(end, self.run_program(["show", PAIR, "flash"]))
        full = ONE_IMAGE + (1024 - len(ONE_IMAGE)) * b"Z"
        parts = {0: ONE_IMAGE, 1536: full, 6656: log_record(0), 8184: FLAG}
        self.assertEqual(placed(8192, parts), new_device(self, images=["one.img", self.file("full.img", full)]))

    def test_first_fault_is_reported(self):
        """No file is made, and one that exists stays as it was."""
        new_device(self)
        for old in (None, 9000 * b"Z"):
            if old:
                self.file("made", old)
            for arguments, end in REFUSED:
                with self.subTest(f"{arguments}, {'over a file' if old else 'of a new file'}"):
                    self.assert_unchanged(end, arguments.split())

    def test_replaces_what_may_be_a_flash_and_another_file_only_by_force(self):
        whole = flash_of(self)
        for name, old, may_be in [
            ("an empty file", b"", True), ("erased bytes", 9000 * b"\xff", True), ("a flash", whole, True),
            ("a file of the length of the flash", 8192 * b"x", True), ("text", b"notes of a meeting\n", False),
            ("an image", read(ONE), False), ("a byte too many", whole + b"\xff", False),
            ("erased but for its last byte", 9000 * b"\xff" + b"\0", False),
            ("erased but for its first byte", b"\0" + 9000 * b"\xff", False),
        ]:
            with self.subTest(name):
                self.file("flash", old)
                if not may_be:
                    self.assert_unchanged(error("flash size"), [PAIR, "flash", ONE, ONE])
                force = [] if may_be else ["--force"]
                self.assertEqual(DONE, self.run_program(["provision", *force, PAIR, "flash", ONE, ONE]))
                self.assertEqual(whole, flash_in(self))

    def test_input_that_cannot_be_read_comes_before_one_as_the_flash(self):
        self.file("image", read(ONE))
        self.assert_unchanged(error("cannot read absent"), [PAIR, "image", "image", "absent"])
        os.symlink("made", self.path("to-made"))
        self.assert_unchanged(error("cannot read to-made"), [PAIR, "made", "to-made", ONE])

    def test_pipe_as_standard_input_and_the_flash(self):
        os.mkfifo(f"{self.folder}/pipe")
        given = os.open(f"{self.folder}/pipe", os.O_RDONLY | os.O_NONBLOCK)
        self.addCleanup(os.close, given)
        with open(f"{self.folder}/pipe", "wb") as writer:
            writer.write(read(PAIR))
        self.assert_unchanged(error("flash is an input"), ["-", "pipe", ONE, ONE], stdin=given)
