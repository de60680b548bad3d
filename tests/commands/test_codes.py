"""The list of `codes`, beside those of the source and of docs/FORMATS.md."""

import os
import re

from support.files import ROOT, read
from support.program import ProgramTest


def words_of(text):
    """Returns a text with one space between two words."""
    return " ".join(text.split())


def lists_of_the_formats():
    """Returns the lists of refusals in docs/FORMATS.md. Their lines are shorter than those of `codes`."""
    blocks = re.findall(r"^```\n(.*?)^```$", read(f"{ROOT}/docs/FORMATS.md").decode(), re.MULTILINE | re.DOTALL)
    return {words_of(it) for it in blocks if re.match(r" 1 [A-Z]|damaged ", it)}


# Where the source has the numbers and names of refusals, by the headings of the list that `codes` prints.
LISTS = {
    "An image": ("image_reading", "ImageError"),
    "The values of `make-image`": ("tlv", "MakeError"),
    "The sizes of a device": ("sector_map", "MapError"),
    "A device": ("machine", "Fault"),
    "A manifest": ("manifest", "ManifestError"),
    "An upload": ("machine", "UploadError"),
}


def numbers_of(crate, kind):
    """Returns the numbers and names of an enum's variants from the source of its crate."""
    for folder, _, files in os.walk(f"{ROOT}/crates/{crate}/src"):
        for name in files:
            text = read(f"{folder}/{name}").decode()
            if f"pub enum {kind} {{" in text:
                arm = rf"{kind}::(\w+)(?:\(_\))? => "
                numbers = {variant: int(number) for variant, number in re.findall(rf"{arm}(\d+),", text)}
                names = dict(re.findall(rf'{arm}"(\w+)",', text))
                return sorted((number, names.get(variant)) for variant, number in numbers.items())
    return []


class CodesTest(ProgramTest):
    def setUp(self):
        super().setUp()
        status, self.out, err = self.run_program(["codes"])
        self.assertEqual((0, b""), (status, err))

    def test_formats_and_help_have_the_lists(self):
        lists = {words_of(it.partition("\n")[2]) for it in self.out.decode().split("\n\n")[1:]}
        self.assertEqual(7, len(lists))
        self.assertEqual(lists_of_the_formats(), lists)
        self.assertIn(self.out, self.run_program(["help", "codes"])[1])

    def test_refusals_of_the_source_are_listed_in_order(self):
        for head, (crate, kind) in LISTS.items():
            with self.subTest(kind):
                listed = re.search(rf"^{head}[,: ].*\n((?:.+\n)*)", self.out.decode(), re.MULTILINE)
                rows = re.findall(r"^ {2,3}(\d+) (\w+) ", listed[1], re.MULTILINE)
                self.assertTrue(rows)
                self.assertEqual(numbers_of(crate, kind), [(int(number), name) for number, name in rows])
