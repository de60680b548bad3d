"""The files to which `extract` copies an image, and what it refuses. What it copies is proved."""


from support.builders import image, version
from support.files import EXAMPLES, PAIR, read
from support.flashes import flash_of, placed
from support.printed import DONE, error, refused
from support.program import ProgramTest

# The image that the file holds before.
OLD = read(f"{EXAMPLES}/images/counted.img")


def extract(number=0, side="primary", flash="flash", out="copy"):
    return ["extract", PAIR, flash, f"{number}", side, out]


class ExtractTest(ProgramTest):
    def setUp(self):
        super().setUp()
        self.whole = flash_of(self)
        self.file("copy", OLD)

    def copy(self):
        return read(f"{self.folder}/copy")

    def test_image_that_fills_its_slot(self):
        """It is copied to its last byte. With one bit turned, it is refused."""
        full = image([], body=952 * b"x", own=version(1))
        self.file("flash", placed(8192, {0: full}))
        self.assertEqual((DONE, full), (self.run_program(extract()), self.copy()))
        self.file("flash", placed(8192, {0: full, 1023: bytes([full[-1] ^ 1])}))
        self.assert_refuses(refused("10 BadDigest"), extract())

    def test_copy_that_cannot_be_made(self):
        self.assert_refuses(error("no image 2"), extract(2))
        self.file("short", self.whole[:-1])
        self.assert_refuses(error("flash size"), extract(flash="short"))
        with self.held("flash"):
            self.assert_refuses(error("flash in use"), extract())
