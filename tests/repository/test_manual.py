"""The manual pages: those of the commands, which the program prints, and bootswap-formats(5) and libbootswap(3)."""

import re
import shutil
import subprocess
import tempfile
import unittest
from collections import Counter

from support.commands import COMMANDS
from support.files import ROOT, read
from support.headers import comments, declared
from support.program import ProgramTest

from manual_pages import formats_page, library_pages

SECTIONS = ["NAME", "SYNOPSIS", "DESCRIPTION", "OPTIONS", "EXIT STATUS", "EXAMPLES", "SEE ALSO"]
PAGES = [[], *([it] for it in COMMANDS)]

needs_man = unittest.skipUnless(shutil.which("man") and shutil.which("groff"), "there is no man, or no groff")
needs_mandoc = unittest.skipUnless(shutil.which("mandoc"), "there is no mandoc")


def words_of(text):
    """Returns the words of a text, and how often each is there."""
    return Counter(re.findall(r"[a-z0-9]+", text.lower()))


def shown(page, words, width=80):
    """Returns a page as a program shows it in a terminal of this width. It has no warning."""
    section = re.search(r"^\.TH \S+ (\d)", page, re.MULTILINE)[1]
    with tempfile.NamedTemporaryFile("w", suffix=f".{section}") as it:
        it.write(page)
        it.flush()
        environment = {"PATH": "/usr/bin:/bin", "MANWIDTH": str(width), "LC_ALL": "C.UTF-8"}
        done = subprocess.run([*words, it.name], capture_output=True, env=environment, check=True)
    assert done.stderr == b"", done.stderr.decode()
    return re.sub(".\x08", "", done.stdout.decode())


MAN, LINT = ["man", "--warnings", "-l"], ["mandoc", "-T", "lint", "-W", "warning"]


class CommandPagesTest(ProgramTest):
    def pages(self):
        """Yields the arguments of each page, the page, and the long help."""
        for names in PAGES:
            page, help_text = (self.run_program(words) for words in (["help", "man", *names], [*names, "--help"]))
            self.assertEqual((0, b""), page[::2])
            yield names, page[1].decode(), help_text[1].decode()

    def test_a_page_has_a_title_and_its_sections(self):
        """That of the program lists all commands."""
        for names, page, _ in self.pages():
            title = "\\-".join(it.replace("-", "\\-").upper() for it in ["bootswap", *names])
            self.assertTrue(page.startswith(f".TH {title} 1 "), page[:80])
            found = re.findall(r"^\.SH (.*)$", page, re.MULTILINE)
            self.assertEqual(SECTIONS, [it for it in found if it != "COMMANDS"])
            for it in () if names else COMMANDS:
                self.assertIn("\n.B " + it.replace("-", "\\-") + "\n", page)

    def test_a_page_names_each_option_of_the_help(self):
        for _, page, help_text in self.pages():
            listed = help_text.partition("\nOptions:\n")[2].partition("\n\nExit status")[0]
            options = re.findall(r"^ +(?:-\w, )?(--[\w-]+)", listed, re.MULTILINE)
            self.assertTrue(options)
            page = page.replace("\\-", "-")
            self.assertEqual([], [it for it in options if f"\\fB{it}\\fR" not in page])

    @needs_mandoc
    def test_mandoc_has_no_warning(self):
        for _, page, _ in self.pages():
            self.assertEqual("", shown(page, LINT))

    @needs_man
    def test_man_shows_the_description_of_the_help(self):
        for _, page, help_text in self.pages():
            described = help_text.partition("\nUsage: ")[0].split()
            self.assertEqual(set(), {*described} - {*shown(page, MAN).split()})

    def test_an_unknown_page_is_answered_as_help_answers_it(self):
        for words in [["nonsense"], [""], ["choose", "check"], ["a\nb"]]:
            got = self.run_program(["help", "man", *words])
            self.assertEqual((2, b""), got[:2])
            self.assertEqual(self.run_program(["help", *words]), got)


@unittest.skipUnless(shutil.which("pandoc"), "there is no pandoc")
class MadePagesTest(unittest.TestCase):
    """The pages that are made of docs/FORMATS.md and of the headers."""

    @classmethod
    def setUpClass(cls):
        cls.library = library_pages("2000-01-01", "1.2.3")
        cls.pages = {"bootswap-formats.5": formats_page("2000-01-01", "1.2.3")}
        cls.pages["libbootswap.3"] = cls.library["libbootswap"]

    def test_a_page_has_its_name_section_date_and_version(self):
        for name, page in self.pages.items():
            title = '.TH {} {} 2000-01-01 "bootswap 1.2.3"'.format(*name.upper().split("."))
            self.assertIn(title, page.splitlines()[:2])
            found = re.findall("^.SH (.*)$", page, re.MULTILINE)
            self.assertEqual(("NAME", "SEE ALSO"), (found[0], found[-1]))

    @needs_mandoc
    def test_mandoc_has_no_warning(self):
        for name, page in self.pages.items():
            self.assertEqual("", shown(page, LINT), name)

    @needs_man
    def test_a_page_fits_80_columns_and_has_all_words_of_its_source(self):
        """A terminal of more columns has wider columns of tables, so that no word is wrapped."""
        formats = re.sub(r"\]\([^)]*\)", "", read(f"{ROOT}/docs/FORMATS.md").decode())
        kinds = (it for kind in ("call", "constant", "number", "struct", "enum") for it in declared(kind))
        for name, source in (("bootswap-formats.5", formats), ("libbootswap.3", " ".join([*comments(), *kinds]))):
            page = self.pages[name]
            self.assertEqual([], [it for it in shown(page, MAN).splitlines() if len(it) > 80])
            wide = shown(re.sub(r"\blw\([\d.]+n\)", "lw(150n)", page), MAN, 1000)
            self.assertEqual(Counter(), words_of(source) - words_of(wide), name)

    def test_each_call_has_a_page(self):
        others = {name: text for name, text in self.library.items() if name != "libbootswap"}
        self.assertEqual({it: ".so man3/libbootswap.3\n" for it in declared("call")}, others)
