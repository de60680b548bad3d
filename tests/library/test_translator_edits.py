"""Wrong translations: edits of bindings/c_file that the cases of test_translation.py have to notice.

Each edit changes one place of a copy of the translator, such that only some inputs, places or widths differ. The named
cases are translated with the copy, compiled and run: at least one has to differ, or stop for undefined behaviour.
Without an edit each case passes.
"""

import os
import shutil
import sys
import unittest

from support import translated
from support.compiled import needs_compiler
from support.files import ROOT, folder_for, read, write
from support.libraries import ran

HERE = ["cc", "-O1", "-fsanitize=address,undefined", "-fno-sanitize-recover"], []
SMALL = ["arm-linux-gnueabihf-gcc", "-static", "-O1"], ["qemu-arm"]

# The edits that differ when the cases run: the file, a text that is in it once, another text, and a pattern of the
# names of cases.
EDITS = [
    ("instructions.py", '("rem_s", "signed_division", "rem_s")', '("rem_s", "division", "%")', "^i64.rem_s"),
    ("prelude.h", "        if (other + 1 == 0) return 0; ", "        ", "^i64.rem_s"),
    ("prelude.h", "(int##width##_t)one / (int##width##_t)other", "one / other", "^i32.div_s"),
    ("arithmetic.py", "({amount.as_kept(SMALL)} & {width - 1}u)", "({amount.as_kept(SMALL)})", "^i32.shl"),
    ("prelude.h", "return a >> (n & 31) | a << ((0 - n) & 31)", "return a >> (n & 31) | a << (32 - n)", "^i32.rotr"),
    ("arithmetic.py", "one.is_narrow and other.is_narrow:\n        return word(", "True:\n        return word(",
     "^i64.lt_s"),
    ("emit.py", "it.alignment >= size else", "True else", "^i64.load aligned to 1"),
    ("emit.py", "self.stack.append(self.keep(made))", "self.stack.append(made)", "a load before a store"),
    ("prelude.h", "W_MOVE(to, from, length) memmove(", "W_MOVE(to, from, length) memcpy(", "memory.copy"),
    ("emit.py", "self.branch(it.value[-1])", "self.branch(it.value[0])", "^br_table"),
    ("emit.py", '        if block.kind != "loop":\n            self.give(block)\n        block', "        block",
     "with a result"),
    ("emit.py", "given = [self.pop() for _ in kind.params][::-1]", "given = [self.pop() for _ in kind.params]",
     "order of arguments"),
    ("emit.py", "        self.flush(name)\n", "", "written in a loop"),
    ("emit.py", "        self.flush()\n        self.numbers", "        self.numbers", "below a loop"),
    ("emit.py", "{' = 0' if i in code.variables.zeroed else ''}", "{' = 1' if i in code.variables.zeroed else ''}",
     "begins as 0"),
    ("locals.py", "one | other for one, other in zip(old, now)", "one for one, other in zip(old, now)",
     "if without|narrow or wide"),
    ("emit.py", "            self.local_get(it)\n\n", "            self.stack.append(constant(0, 64))\n\n",
     "local.tee"),
    ("frames.py", "{abs(start)}u)", "{abs(start) + 8}u)", "^frames of|a frame"),
    ("frames.py", '">" if kinds[0] else "<"', '"<" if kinds[0] else ">"', "^a frame$|check of the stack"),
    ("frames.py", "self.at(one.fact.offset + (", "self.at(min(one.fact.offset, 0) + (", "outside of a frame"),
    ("data.py", "symbol.offset + relocation.addend", "symbol.offset", "addend"),
    ("data.py", "start = at + ADDRESS_LENGTH", "start = at", "bytes after addresses|second address"),
    ("emit.py", "'-' if offset < 0 else '+'", "'+'", "before its data"),
]

# Those of which a processor of 32 bits alone shows the difference.
EDITS_FOR_SMALL = [
    ("arithmetic.py", "places is not None and places >= 32", "places is not None", "^i64.shr_u of wide, 31"),
    ("arithmetic.py", "ADDRESS if one.is_address or other.is_address else WIDE", "NUMBER", "^i64.add of number"),
    ("arithmetic.py", "ADDRESS if one.is_address or other.is_address else WIDE", "ADDRESS", "^i64.sub"),
    ("arithmetic.py", "        return APART\n", "        return ADDRESS\n", "difference of two addresses"),
    ("arithmetic.py", "and (one.is_narrow or other.is_narrow)", "", "^i64.and of wide, wide"),
    ("arithmetic.py", "    return WIDE\n\n\ndef known_of_sum", "    return NUMBER\n\n\ndef known_of_sum", "^i64.mul"),
    ("arithmetic.py", "if one.is_narrow and other.is_narrow:\n        return number_below(quotient",
     "if True:\n        return number_below(quotient", "^i64.div_u of wide"),
    ("widths.py", "    return APART if APART in (one, other) else WIDE", "    return NUMBER",
     "narrow or wide|select of"),
    ("wasm_object.py", "reader.signed() if kind in WITH_ADDEND", "reader.unsigned() if kind in WITH_ADDEND",
     "before its data"),
]

# Those after which nothing is translated, or nothing compiles.
EDITS_WITHOUT_PROGRAM = [
    ("arithmetic.py", "{amount.number % width}", "{amount.number}", "^i64.shr_u of wide, 64"),
    ("frames.py", '== "+" else -signed(', '== "-" else -signed(', "^a frame$|passed on"),
    ("frames.py", "-self.size <= offset <= -length", "-self.size <= offset < -length", "^a frame$"),
    ("widths.py", "if any(it.is_place and it != new for it in (old, fact)):", "if False:", "moves from a frame"),
    ("data.py", "at - it.start: found", "at: found", "constant data|second address"),
]


@needs_compiler
@unittest.skipUnless(shutil.which("node"), "there is no `node`")
class EditsTest(unittest.TestCase):
    def setUp(self):
        self.folder = folder_for(self)

    def outcome(self, file, old, new, pattern, build):
        """Translates cases with an edit, compiles and runs them. Returns whether there is a program, and what is
        wrong."""
        bindings, (words, runner) = f"{self.folder}/bindings", build
        shutil.rmtree(bindings, ignore_errors=True)
        shutil.copytree(f"{ROOT}/bindings/c_file", f"{bindings}/c_file")
        text = read(f"{bindings}/c_file/{file}").decode()
        self.assertEqual(1, text.count(old))
        write(f"{bindings}/c_file/{file}", text.replace(old, new))
        environment = {**os.environ, "BOOTSWAP_BINDINGS": bindings, "PYTHONDONTWRITEBYTECODE": "1"}
        translator = [sys.executable, "-m", "support.translated", pattern, self.folder]
        faults, _ = ran(translator, cwd=f"{ROOT}/tests", env=environment)
        program, files = f"{self.folder}/program", [f"{self.folder}/{it}.c" for it in ("cases", "main")]
        faults = faults or ran([*words, "-std=c11", "-Werror=shift-count-overflow", *files, "-o", program])[0]
        if faults:
            return False, faults
        cases = translated.all_cases(pattern)
        return True, translated.faults_of([*runner, program], cases, translated.expected(cases, self.folder))

    def expect_noticed(self, edits, is_run=True, build=HERE):
        for edit in edits:
            with self.subTest(f"{edit[0]}: {edit[1]} -> {edit[2]}"):
                has_run, faults = self.outcome(*edit, build)
                self.assertEqual((is_run, True), (has_run, bool(faults)), faults[:1])

    def test_each_edit_is_noticed(self):
        self.expect_noticed(EDITS)
        self.expect_noticed(EDITS_WITHOUT_PROGRAM, is_run=False)

    @unittest.skipUnless(all(map(shutil.which, (SMALL[0][0], "qemu-arm"))), "no gcc for 32-bit ARM, or no qemu-arm")
    def test_each_edit_is_noticed_on_32_bit_arm(self):
        self.expect_noticed(EDITS_FOR_SMALL, build=SMALL)
