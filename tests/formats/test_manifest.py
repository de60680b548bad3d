"""What `manifest` prints for manifests and device files. That both are read exactly, or refused, is proved.

Here are the rows that were worked by hand, other spellings, and the texts of examples/.
"""

from support.builders import ABC, CLASS, VENDOR, component, device, manifest
from support.files import EXAMPLES, PAIR, names_in, read
from support.program import ProgramTest

LISTING = f"sequence 1\ncomponent 0 3 test {ABC}\n".encode()

# Manifests for the usual device that are refused: what is odd, the text, and the refusal.
MANIFESTS = [
    ("no object's end", b"{", "1 NotJson"),
    ("200 nested lists", 200 * b"[" + 200 * b"]", "1 NotJson"),
    ("a byte that isn't text", manifest(vendor_id="x").replace(b'"x"', b'"\xff"'), "1 NotJson"),
    ("a key too many", manifest(more=0), "2 BadKey"),
    ("version 2", manifest(manifest_version=2), "3 BadValue"),
    ("image 256", manifest(components=[component(component_id=256)]), "3 BadValue"),
    ("a fraction", manifest(components=[component(size=3.0)]), "3 BadValue"),
    ("a number past its field", manifest(components=[component(size=2**32)]), "3 BadValue"),
    ("63 digits", manifest(components=[component(payload_digest=ABC[:-1])]), "3 BadValue"),
    ("no UUID", manifest(vendor_id=VENDOR[:-1]), "3 BadValue"),
    ("no UUID, and another class", manifest(vendor_id=VENDOR[:-1], class_id=VENDOR), "3 BadValue"),
    ("another vendor", manifest(vendor_id=f"{VENDOR[:-1]}e"), "4 WrongVendor"),
    ("another class", manifest(class_id=VENDOR), "5 WrongClass"),
    ("image 2", manifest(components=[component(component_id=2)]), "6 NoComponent"),
    ("an image twice", manifest(components=2 * [component()]), "7 RepeatedComponent"),
]

# A manifest with keys in another order, an escape, digits of either case, and other spellings of identifiers.
SPELLED = rf""" {{"sequence-number": 4294967295, "manifest-version": 1, "components": [
    {{"kind": "perma\u006eent", "size": 4294967295, "component-id": 1,
     "precursor-digest": "00112233445566778899AABBCCDDEEFF00112233445566778899aabbccddeeff",
     "payload-digest": "{ABC.upper()}"}},
    {{"kind": "test", "size": 0, "component-id": 0,
     "payload-digest": "E3B0C44298FC1C149AFBF4C8996FB92427AE41E4649B934CA495991B7852B855"}}],
  "vendor-id": "urn:uuid:{VENDOR.upper()}", "class-id": "{{{CLASS}}}"}} """.encode()
OF_SPELLED = f"""sequence 4294967295
component 1 4294967295 permanent {ABC} precursor {2 * "00112233445566778899aabbccddeeff"}
component 0 0 test e3b0c44298fc1c149afbf4c8996fb92427ae41e4649b934ca495991b7852b855
""".encode()

# Device files: what is odd, the text, and the refusal of its map, `None` for a fault, or `` for none.
DEVICES = [
    ("a key too many", device(images=2), None),
    ("eight boots of a trial", device(trial_boots=8), None),
    ("sectors of 500 bytes", device(sector=500, sectors=[1]), "1 BadSector"),
    ("no images", device(sectors=[]), "2 BadCount"),
    ("slots of twenty sectors of 512 bytes", device(sectors=[20]), "3 TrailerFull"),
    ("eight images of 5459 sectors", device(sector=131072, sectors=8 * [5459]), "4 TooLarge"),
    ("5459 sectors", device(sector=131072, sectors=[5459]), ""),
    ("slots of nineteen sectors of 512 bytes", device(sectors=[19]), ""),
    ("seven boots of a trial", device(trial_boots=7), ""),
]


class ManifestTest(ProgramTest):
    def test_example_manifests_have_their_listings(self):
        for name in names_in("manifests"):
            wanted, file = read(f"{EXAMPLES}/listings/{name}.txt"), f"{EXAMPLES}/manifests/{name}.json"
            ended = (int(wanted.startswith(b"refused ")), wanted, b"")
            for arguments, given in [((PAIR, file), b""), ((PAIR, "-"), read(file)), (("-", file), read(PAIR))]:
                with self.subTest(f"manifest {name}, {arguments.index('-') if given else 'no'} standard input"):
                    self.assertEqual(ended, self.run_program(["manifest", *arguments], given=given))

    def test_refused_manifests(self):
        for name, text, refusal in MANIFESTS:
            with self.subTest(f"manifest with {name}"):
                ended = (1, f"refused {refusal}\n".encode(), b"")
                self.assertEqual(ended, self.run_program(["manifest", PAIR, "-"], given=text))

    def test_each_spelling_is_read(self):
        self.assertEqual((0, OF_SPELLED, b""), self.run_program(["manifest", PAIR, "-"], given=SPELLED))

    def test_device_files(self):
        """Each is checked before the manifest is read."""
        for name, text, refusal in DEVICES:
            with self.subTest(f"device file with {name}"):
                ended = (1, f"refused map {refusal}\n".encode(), b"") if refusal else (0, LISTING, b"")
                ended = (1, b"", b"error: device file\n") if refusal is None else ended
                sample = "absent" if ended[0] else self.file("sample", manifest())
                self.assertEqual(ended, self.run_program(["manifest", self.file("device", text), sample]))
