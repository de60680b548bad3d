"""The folder that `bindings/build --c` leaves: the library as one file of C, and what belongs to it."""

import os
import re
import shutil
import sys

ROOT = os.path.dirname(os.path.dirname(os.path.dirname(os.path.realpath(__file__))))

sys.path.append(f"{ROOT}/tools")

from c_file.archive import only_member
from c_file.translate import translated
from commits import DIGITS, commit_here

# The headers of the calls. Each name of a library's function is in exactly one of them.
HEADERS = ("bootswap.h", "bootswap_simulate.h")

# What else is in the folder.
COPIES = ("include/bootswap.h", "include/bootswap_names.h", "include/bootswap_simulate.h")
COPIES += ("bindings/c/driver.c", "bindings/c/driver.h", "bindings/c_file/CMakeLists.txt")

ABOUT = """bootswap {version}{commit}: the library of bootswap.h and bootswap_simulate.h as one file of C.

`bindings/build --c` made this file. Don't edit it: it is a translation of the proved library, and the next one replaces it.
Compile it with any C compiler that has what is listed below, for a little-endian processor with addresses of 32 or 64 bits.
With -ffunction-sections and a linker's --gc-sections a program has only the calls that it uses. The file calls memmove and
memset, and whatever the compiler makes of copies: memcpy, and helpers for 64-bit arithmetic. It has no data that is written.

The library is proved. These are trusted: the toolchain's compiler for WebAssembly, the translator in bindings/c_file of the
repository, and the C compiler. bindings/c_file/README.md says how the translation keeps the meaning, and how it is tested.

Names that begin with w_ or W_ are of this file alone. A function w_NAME is the function NAME of the module: its parameters and
variables are l0, l1 and so on, r1 is the result of block 1, L1 its label, t1 a value that was computed, and `frame` its part
of the module's stack.

Copyright The authors of bootswap. Licensed under the Apache License, Version 2.0: http://www.apache.org/licenses/LICENSE-2.0
SPDX-License-Identifier: Apache-2.0"""


def read(path):
    with open(path, encoding="utf-8") as it:
        return it.read()


def about():
    """Returns the lines at the head of the file: its version and commit, and how it was made."""
    version = re.search(r'#define BOOTSWAP_VERSION "(.*)"', read(f"{ROOT}/include/bootswap.h"))[1]
    commit = commit_here()
    of_commit = f", commit {commit[0][:DIGITS]}{' with changes' * commit[1]}" if commit else ""
    return ABOUT.format(version=version, commit=of_commit).splitlines()


def named(text, commit):
    """Returns the text of the file with this commit in its first line, whatever commit it named."""
    return re.sub(r"\A(/\*\n \* bootswap [^ ,:]+)[^:]*:", rf"\1, commit {commit[:DIGITS]}:", text)


def translation_of(archive):
    """Returns the text of the file for a static library for wasm64."""
    with open(archive, "rb") as it:
        made = only_member(it.read())
    return translated(made, [(name, read(f"{ROOT}/include/{name}")) for name in HEADERS], about())


def write_folder(archive, folder):
    """Leaves the folder for a static library for wasm64. Nothing changes if there is no translation."""
    text = translation_of(archive)
    os.makedirs(folder, exist_ok=True)
    for path in COPIES:
        shutil.copyfile(f"{ROOT}/{path}", f"{folder}/{os.path.basename(path)}")
    with open(f"{folder}/bootswap.c", "w", encoding="utf-8") as it:
        it.write(text)
