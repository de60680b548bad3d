"""Files that `make-image` makes: over which files, and with which mode."""

import os
import stat

from support.files import EXAMPLES, ONE, files_in, read
from support.printed import DONE
from support.program import ProgramTest

COUNTED = read(f"{EXAMPLES}/images/counted.img")


class ImageFileTest(ProgramTest):
    def setUp(self):
        super().setUp()
        self.file("body", b"ABCD")
        self.file("own", COUNTED)
        os.symlink("own", self.path("own-link"))
        os.link(self.path("own"), self.path("own-second"))

    def expect_files(self, ended, changed, *arguments, **how):
        """`make-image` ends so, and only these files are made, changed or removed."""
        before = {*files_in(self.folder)}
        got = self.run_program(["make-image", *arguments], **how)
        self.assertEqual((ended, changed), (got, {it[0] for it in before ^ {*files_in(self.folder)}}))

    def test_an_image_file_is_replaced_whole(self):
        for old in (None, b"", COUNTED):
            with self.subTest(f"image in the place of {'nothing' if old is None else f'{len(old)} bytes'}"):
                os.remove(self.path("own"))
                if old is not None:
                    self.file("own", old)
                self.expect_files(DONE, {"own"}, "own", "body", "--version=1.0.0+0")
                self.assertEqual(read(ONE), read(self.path("own")))

    def test_a_replaced_file_keeps_its_mode_and_its_second_name_the_old_image(self):
        os.chmod(self.path("own"), 0o640)
        # The mode of the second name is another one from now on.
        self.expect_files(DONE, {"own"}, "own-link", "body", "--version=1.0.0+0")
        self.assertEqual((read(ONE), COUNTED), (read(self.path("own")), read(self.path("own-second"))))
        self.assertEqual(0o640, stat.S_IMODE(os.stat(self.path("own")).st_mode))

    def test_a_body_that_comes_first_stays(self):
        """Only `--force` replaces it."""
        message = b"error: body is no image\n"
        self.expect_files((1, b"", message), set(), "body", "own", "--version=1")
        message += b"note: OUT comes first, then BODY: `--force` replaces body by an image of own\n"
        self.expect_files((1, b"", message), set(), "body", "own", "--version=1", "--explain")
        self.expect_files(DONE, {"body"}, "body", "own", "--version=1", "--force")
