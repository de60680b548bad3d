"""The programs of examples/fleet."""

import os
import subprocess
import sys

from support.files import EXAMPLES

FLEET = f"{EXAMPLES}/fleet"


def tool(name, *arguments, given=b"", **environment):
    """Runs a program of examples/fleet, and returns its status and what it prints."""
    words = [sys.executable, "-B", f"{FLEET}/{name}", *arguments]
    done = subprocess.run(words, input=given, capture_output=True, env={**os.environ, **environment})
    return done.returncode, done.stdout, done.stderr


def write_script(test, name, lines):
    """Writes a script that takes the place of the program."""
    test.file(name, f"#!/bin/sh\n{lines}\n".encode())
    os.chmod(f"{test.folder}/{name}", 0o755)
    return f"--program=./{name}"
