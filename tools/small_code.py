"""The toolchain with a compiler that makes small code, for the library for WebAssembly.

The toolchain's `rattle build` has its clang compile at -O3, and has no flag for another level. It takes clang from the folder of
`--toolchain`. This makes such a folder: its tools are the toolchain's own, and its clang is a script that adds the flags below.
The last of several levels counts.
"""

import os
import shlex

FLAGS = ("-Os", "-mllvm", "-unroll-runtime=false")

TOOLS = ("ld.lld", "llvm-ar", "rattle-x64")


def toolchain_for_size(toolchain, folder):
    """Makes the folder beside a toolchain's, and returns it. Several processes may make it at the same time."""
    os.makedirs(f"{folder}/bin", exist_ok=True)
    for name in ("lib", *(f"bin/{it}" for it in TOOLS)):
        replace(f"{folder}/{name}", lambda made, name=name: os.symlink(f"{toolchain}/{name}", made))
    replace(f"{folder}/bin/clang", lambda made: write_script(made, f"{toolchain}/bin/clang"))
    return folder


def replace(path, make):
    """Makes a file under another name, and moves it to its own in one step."""
    made = f"{path}.{os.getpid()}"
    make(made)
    os.replace(made, path)


def write_script(path, clang):
    with open(path, "w", encoding="utf-8") as it:
        it.write(f"#!/bin/sh\nexec {shlex.quote(clang)} \"$@\" {shlex.join(FLAGS)}\n")
    os.chmod(path, 0o755)
