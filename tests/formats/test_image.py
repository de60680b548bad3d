"""What `image` prints for images. That each is described, or refused by the first check that fails, is proved.

Here are the rows that were worked by hand, and images whose digests another program computed.
"""

from support.builders import COUNTER, DEPENDENCY, ON_FIRST, group, image, little, version
from support.files import EXAMPLES, ONE, names_in, read
from support.images import OF_ONE, changed, description
from support.program import ProgramTest

A, B0 = read(ONE), read(f"{EXAMPLES}/images/needing.img")
REFUSED = [
    ("31 bytes", A[:31], "1 Short"),
    ("flag 0x20", changed(A, 16, little(0x20, 4)), "4 UnsupportedFlags"),
    ("a byte too few", A[:-1], "5 Truncated"),
    ("a header longer than the file", changed(A, 8, b"\xff\xff"), "5 Truncated"),
    ("a body longer than the file", changed(A, 12, 4 * b"\xff"), "5 Truncated"),
    ("an area longer than the file", changed(A, 38, b"\x29"), "5 Truncated"),
    ("a protected area that isn't there", changed(A, 10, b"\x03"), "6 BadTlvMagic"),
    ("an area shorter than its head", changed(A, 38, b"\x03"), "7 BadTlvSize"),
    ("an area shorter than its entry", changed(A, 38, b"\x27"), "7 BadTlvSize"),
    ("an entry longer than the file", changed(A, 42, b"\xff\xff"), "7 BadTlvSize"),
    ("a protected area of another length", changed(B0, 38, b"\x18"), "7 BadTlvSize"),
    ("a changed digest", changed(A, 75, bytes([A[75] ^ 1])), "10 BadDigest"),
    ("a group of 25 bytes", image([group(2, b"\0")]), "11 BadDependency"),
    ("17 dependencies", image(17 * [DEPENDENCY]), "12 TooManyDependencies"),
    ("a byte too many", A + b"\0", "13 TrailingBytes"),
    ("two counters", image([COUNTER, COUNTER]), "14 BadCounter"),
    ("five groups", image(5 * [group(1)]), "15 TooManyGroups"),
]


def intact_images():
    """Intact images, and what `image` prints for each."""
    plain = lambda *more: image([], own=version(1), more=more)
    signed = plain((0x01, bytes(range(32))), (0x22, bytes(range(70))))
    yield "a hash of a key and a signature", signed, description(186, OF_ONE)
    yield "a counter outside the hashed bytes", plain((0x50, little(7, 4))), description(84, OF_ONE)
    digest = "679db1266140e6129b424ef7aa84467f1b7e7c43ab92c2ae016bf0f6006dfceb"
    of_vendor = image([(0xA1, b"\1\2\3"), (0x50, little(7, 4))], own=version(1), more=[(0xFEA0, b"maker")])
    yield "entries of a vendor in both areas", of_vendor, description(104, digest, counter=7)
    digest = "42d0dcc7dee94329c07f7f11e409eeaf2d455993c81cca123bea2be17abcd390"
    sixteen = image([(0x40, little(it, 4) + version(2)) for it in range(16)], own=version(1))
    yield "sixteen dependencies", sixteen, description(336, digest, needs=[f"{it} 2.0.0+0" for it in range(16)])
    digest = "959b351f24e328aeda152a1f7cb19d2cc7e78d5dd8e5afdabc6b55d63dee11e8"
    long = image([], body=4194307 * b"Z", own=version(7, 8, 9, 10))
    yield "four megabytes", long, description(4194379, digest, own="7.8.9+10")


class ImageTest(ProgramTest):
    def test_example_images_have_their_descriptions(self):
        for name in names_in("images"):
            wanted = read(f"{EXAMPLES}/descriptions/{name}.txt")
            ended, file = (int(wanted.startswith(b"refused ")), wanted, b""), f"{EXAMPLES}/images/{name}.img"
            with self.subTest(f"image {name}"):
                self.assertEqual(ended, self.run_program(["image", file]))
                self.assertEqual(ended, self.run_program(["image", "-"], given=read(file)))

    def test_refused_images(self):
        for name, whole, refusal in REFUSED:
            with self.subTest(f"refused image: {name}"):
                got = self.run_program(["image", "-"], given=whole)
                self.assertEqual((1, f"refused {refusal}\n".encode(), b""), got)

    def test_intact_images_are_described(self):
        for name, whole, wanted in intact_images():
            with self.subTest(f"intact image: {name}"):
                self.assertEqual((0, wanted, b""), self.run_program(["image", self.file("image", whole)]))

    def test_bodies_of_any_length_are_hashed(self):
        """The digest of each is that of Python, for bodies that end in each byte of a block of 64."""
        entries = [COUNTER, *3 * [(0x40, ON_FIRST)]]
        for count in range(64):
            whole = image(entries, count * b"Z", filler=bytes(8), flags=0x10, own=version(3, 1, 4, 1))
            wanted = description(len(whole), whole[-32:].hex(), own="3.1.4+1", counter=7, needs=3 * ["1 2.0.0+0"])
            got = self.run_program(["image", self.file("image", whole)])
            self.assertEqual((0, wanted, b""), got, f"a body of {count} bytes")
