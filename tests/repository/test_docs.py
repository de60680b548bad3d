"""What `tools/docs` writes: lists in docs/, and examples in doc comments."""

import re
import subprocess
import sys
import unittest

from support.files import ROOT
import support.program  # tools/ is on the path from here on

import examples

EXAMPLE = """    // example: chooser::Table::pick
    let table = Table::new();
    if table.pick() {
        return;
    }
    // end of example
"""

# A file with the call of the example, and one with another item of its name.
CALL = """/// A table.
pub struct Table;

impl Table {
    /// Picks a row.
    ///
    /// # Errors
    /// None.
    #[inline]
    pub fn pick(&self) -> bool {
        true
    }
}
"""
OTHER = """impl Sink for Table {
    fn pick(&self) {}
}

/// Picks nothing.
fn pick() {}
"""
SHOWN = """    /// None.
    ///
    /// # Examples
    ///
    /// ```text
    /// let table = Table::new();
    /// if table.pick() {
    ///     return;
    /// }
    /// ```
    #[inline]
"""


class DocsTest(unittest.TestCase):
    def test_lists_and_examples_are_as_the_tool_writes_them(self):
        streams = {"stdin": subprocess.DEVNULL, "stdout": subprocess.PIPE, "stderr": subprocess.STDOUT, "text": True}
        done = subprocess.run([sys.executable, f"{ROOT}/tools/docs", "--check"], **streams)
        self.assertEqual((0, ""), (done.returncode, done.stdout), "`tools/docs` writes them anew")


class ExamplesTest(unittest.TestCase):
    def setUp(self):
        self.examples = examples.read_examples(f"fn test() {{\n{EXAMPLE}}}\n")

    def expect(self, text, faults, call):
        """The new text of the file with the call, None if it doesn't change, and the faults."""
        sources = {"chooser/src/table.rt": call, "chooser/src/other.rt": OTHER, "tlv/src/table.rt": CALL}
        sources = {f"crates/{name}": it for name, it in sources.items()}
        wanted = {"crates/chooser/src/table.rt": text} if text else {}
        self.assertEqual((wanted, faults), examples.written(self.examples, sources))

    def test_a_section_is_appended_to_the_doc_comment_or_written_anew_in_its_place(self):
        shown = CALL.replace("    /// None.\n    #[inline]\n", SHOWN)
        later = shown.replace("    /// ```\n    #", "    /// ```\n    ///\n    /// # Safety\n    /// Safe.\n    #")
        self.expect(shown, [], CALL)
        self.expect(None, [], shown)
        for it in (shown, later):
            self.expect(it, [], it.replace("Table::new", "Table::old"))

    def test_an_example_needs_one_item_with_a_doc_comment(self):
        name, many = "chooser::Table::pick", "an example is of chooser::Table::pick, and {} items have this name"
        without = f"crates/chooser/src/table.rt: {name} has an example and no doc comment"
        self.expect(None, [many.format(0)], CALL.replace("pick", "choose"))
        self.expect(None, [many.format(2)], CALL + CALL)
        self.expect(None, [without], re.sub("    ///.*\n", "", CALL))

    def test_a_line_that_is_too_long_is_refused(self):
        self.examples[0].lines.append("x" * 93)
        _, (fault,) = examples.written(self.examples, {"crates/chooser/src/table.rt": CALL})
        self.assertIn("a line of more than 100 characters", fault)
