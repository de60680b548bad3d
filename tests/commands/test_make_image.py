"""Images that `make-image` makes, beside those of other programs. What it makes and refuses is proved."""

import hashlib

from support.builders import area, header, version
from support.files import EXAMPLES, read
from support.images import changed, description
from support.printed import DONE
from support.program import ProgramTest

# The images of examples/images that `make-image` makes from the body `ABCD`, and the options.
EXAMPLE_IMAGES = {
    "one": ["--version", "1.0.0+0"],
    "needing": ["--version", "2.0.0+0", "--needs", "1 2.0.0+0"],
    "partner": ["--needs=0 2", "--version=2"],
    "counted": ["--version", "1.0.0+0", "--counter", "5", "--needs", "1 2.0.0+0"],
    "stale": ["--version", "1.2", "--security-counter=4"],
    "either": ["--version", "2.0.0+0", "--needs-one", "1 2.0.0+0 2 2.0.0+0"],
}

# The options of an image with every option, and its bytes, by hand from docs/FORMATS.md.
ALL_OPTIONS = [
    *("--version", "1.4.2+7", "--needs-one", "2 1.0.0", "--needs", "255 0", "--flags", "273"),
    *("--counter", "4294967295", "--needs-one", "3 255.255.65535+4294967295 4 1.2 5 1 6 1"),
    *("--needs", "1 2.0.0", "--header-size", "64", "--load-address", "134217728"),
]
OF_ALL_OPTIONS = bytes.fromhex(
    "3db8f396000000084000700004000000110100000104020007000000000000000000000000000000000000000000000000000000"
    "0000000000000000000000004142434408697000"
    "50000400ffffffff40000c00ff000000000000000000000040000c000100000002000000"
    "00000000a0000c00020000000100000000000000a000300003000000ffffffffffffffff"
    "040000000102000000000000050000000100000000000000060000000100000000000000"
    "0769280010002000896e4f7e6453b9acfeb7fb1a9f84bdb472b1442b371fab3d17cceefe97572120"
)

# The same as in MCUboot's imgtool: dependencies in brackets, an address with a unit, and flags in hexadecimal.
AS_IN_IMGTOOL = [
    *("--version", "1.4.2+7", "--needs-one", "2 1.0.0", "--dependencies=(255,0)", "--flags=0x111"),
    *("--security-counter=4294967295", "--needs-one", "3 255.255.65535+4294967295 4 1.2 5 1 6 1"),
    *("--dependencies", "(1, 2.0.0)", "--header-size=0x40", "--load-addr=128M"),
]

# The options of an image at each limit of its header, and its description for a body of three million bytes, of which
# another program computed the digest.
LIMITS = ["--load-address=305419896", "--header-size=65535", "--flags=273", "--version=255.254.65533+4294967292"]
LIMITS += ["--counter=4294967295", *16 * ["--needs=1 2.0.0"]]
OF_LIMITS = description(
    3065843,
    "58d8c18dbecfc0547e7ab5a950269401a32499ba9e8c94571b9c847aec831792",
    own="255.254.65533+4294967292",
    counter=4294967295,
    needs=16 * ["1 2.0.0+0"],
)


class MakeImageTest(ProgramTest):
    def assert_makes(self, wanted, options, body=b"ABCD"):
        got = self.run_program(["make-image", "made", self.file("body", body), "--force", *options])
        self.assertEqual((DONE, wanted), (got, read(f"{self.folder}/made")))

    def test_images_of_the_examples(self):
        for name, options in EXAMPLE_IMAGES.items():
            with self.subTest(name):
                self.assert_makes(read(f"{EXAMPLES}/images/{name}.img"), options)

    def test_every_option(self):
        self.assert_makes(OF_ALL_OPTIONS, ALL_OPTIONS)
        self.assert_makes(OF_ALL_OPTIONS, AS_IN_IMGTOOL)

    def test_greatest_numbers(self):
        self.assertEqual(DONE, self.run_program(["make-image", "made", self.file("body", 3_000_000 * b"Z"), *LIMITS]))
        self.assertEqual((0, OF_LIMITS, b""), self.run_program(["image", "made"]))
        front = changed(header(0, 0, header_size=65535, own=version(0)), 4, 4 * b"\xff") + bytes(65503)
        whole = front + area(0x6907, [(0x10, hashlib.sha256(front).digest())])
        options = ["--version=0", "--load-addr=0xFFFFFFFF", "--header-size=0xffff", "--flags=0k"]
        self.assert_makes(whole, options, b"")
