"""Cases of instruction_cases.py as programs: translated to C by bindings/c_file, and as a module that `node` runs.

A program reads for each case the number of its inputs and these, each word as 8 bytes. For each it writes the result,
and the memory if the case has it. What `node` writes is expected.

    python3 -m support.translated PATTERN FOLDER    writes the sources of the cases whose names have the pattern
"""

import os
import re
import subprocess
import sys

from support.files import ROOT, write
from support.instruction_cases import DATA, PATTERN, numeric_cases
from support.control_cases import control_cases
from support.wasm import Assembler

# The folder with c_file. A test of edits has a copy.
sys.path.insert(0, os.environ.get("BOOTSWAP_BINDINGS") or f"{ROOT}/bindings")

C_TYPES = {"word": "uint32_t", "wide": "uint64_t", "number": "size_t", "memory": "uint8_t *"}
C_RESULTS = {None: "void", 32: "uint32_t", 64: "uint64_t"}

C_HEAD = """#include <stddef.h>
#include <stdint.h>
#include <stdio.h>
#include <string.h>
#include "cases.h"
_Alignas(16) static uint8_t memory[64];
static const uint8_t pattern[64] = {%s};
static uint64_t in(void) {
    uint64_t number = 0;
    if (fread(&number, 8, 1, stdin) != 1) number = 0;
    return number;
}
static void out(uint64_t number) { fwrite(&number, 8, 1, stdout); }
"""

# A trap of a module would end it: no case has one.
NODE = """const fs = require('fs');
const [, , file, ...cases] = process.argv;
const it = new WebAssembly.Instance(new WebAssembly.Module(fs.readFileSync(file))).exports;
const input = fs.readFileSync(0), out = [], at = 4096, pattern = Buffer.from('%s', 'hex');
let place = 0;
const next = () => { place += 8; return input.readBigUInt64LE(place - 8); };
cases.forEach((kinds, i) => {
  const [result, ...words] = kinds.split(',');
  for (let count = next(); count > 0n; count--) {
    const memory = Buffer.from(it.memory.buffer, at, 64);
    pattern.copy(memory);
    const given = words.map(kind => kind == 'memory' ? BigInt(at) : kind == 'word' ? Number(next()) : next());
    const got = it[`bootswap_${i}`](...given), number = Buffer.alloc(8);
    if (result != 'None') number.writeBigUInt64LE(BigInt.asUintN(Number(result), BigInt(got)));
    out.push(number);
    if (words.includes('memory')) out.push(Buffer.from(memory));
  }
});
fs.writeSync(1, Buffer.concat(out));
"""


def all_cases(pattern=""):
    """Returns the cases in whose names a pattern is found."""
    return [it for it in (*numeric_cases(), *control_cases()) if re.search(pattern, it.name)]


def assembler_of(cases):
    """Returns the assembler of the functions of all cases: case 5 is the function bootswap_5."""
    others = [function for it in cases for function in it.others]
    return Assembler([it.function(f"bootswap_{i}") for i, it in enumerate(cases)] + others, DATA)


def prototype(number, case):
    words = ", ".join(f"{C_TYPES[kind]}{'' if '*' in C_TYPES[kind] else ' '}a{i}" for i, kind in enumerate(case.params))
    return f"{C_RESULTS[case.result]} bootswap_{number}({words or 'void'})"


def header_of(cases):
    head = "#include <stddef.h>\n#include <stdint.h>\n"
    return head + "".join(f"{prototype(i, it)};\n" for i, it in enumerate(cases))


def program_of(cases):
    """Returns a program in C that calls the functions of the cases."""
    calls = []
    for i, it in enumerate(cases):
        reads = "".join(f"        {C_TYPES[kind]} a{k} = ({C_TYPES[kind]})in();\n" for k,
                        kind in enumerate(it.params) if kind != "memory")
        words = ", ".join("memory" if kind == "memory" else f"a{k}" for k, kind in enumerate(it.params))
        call = f"bootswap_{i}({words})"
        shown = f"        out({call});\n" if it.result else f"        {call};\n        out(0);\n"
        shown += "        fwrite(memory, sizeof memory, 1, stdout);\n" if "memory" in it.params else ""
        body = f"        memcpy(memory, pattern, sizeof memory);\n{reads}{shown}"
        calls.append(f"    for (uint64_t count = in(); count > 0; count--) {{\n{body}    }}\n")
    return "".join([C_HEAD % ", ".join(map(str, PATTERN)), "int main(void) {\n", *calls, "    return 0;\n}\n"])


def write_sources(cases, folder):
    """Translates the cases, and writes cases.c, its header, and main.c, which calls them."""
    from c_file.translate import translated

    header = header_of(cases)
    files = {"cases.h": header, "main.c": program_of(cases)}
    files["cases.c"] = translated(assembler_of(cases).object(), [("cases.h", header)], ["Cases of tests."])
    for name, text in files.items():
        write(f"{folder}/{name}", text)


def input_of(cases):
    parts = []
    for it in cases:
        parts.append(len(it.inputs).to_bytes(8, "little"))
        parts += [word.to_bytes(8, "little") for words in it.inputs for word in words]
    return b"".join(parts)


def expected(cases, folder):
    """Returns what `node` writes, in a folder for its files."""
    files = {"cases.wasm": assembler_of(cases).module(), "cases.js": (NODE % PATTERN.hex()).encode()}
    for name, contents in files.items():
        write(f"{folder}/{name}", contents)
    kinds = [",".join([str(it.result), *it.params]) for it in cases]
    words = ["node", "--experimental-wasm-memory64", *(f"{folder}/{it}" for it in ("cases.js", "cases.wasm")), *kinds]
    wanted = subprocess.run(words, input=input_of(cases), stdout=subprocess.PIPE, check=True).stdout
    assert len(wanted) == sum(it.length * len(it.inputs) for it in cases)
    return wanted


def faults_of(words, cases, wanted):
    """Runs a program of the cases. Returns what is wrong, a line for each case that differs."""
    done, faults, place = subprocess.run(words, input=input_of(cases), capture_output=True), [], 0
    for case in cases:
        for given in case.inputs:
            one, other = (it[place : place + case.length] for it in (done.stdout, wanted))
            place += case.length
            if one != other:
                faults.append(f"{case.name} of {given} returns {one[:8][::-1].hex()}, and not {other[:8][::-1].hex()}")
    if done.returncode:
        faults.append(f"status {done.returncode}: {done.stderr[-600:].decode(errors='replace')}")
    return faults


if __name__ == "__main__":
    write_sources(all_cases(sys.argv[1]), sys.argv[2])
