"""How the scripts of the repository read their arguments, and how they fail."""

import functools
import glob
import http.server
import os
import subprocess
import sys
import tempfile
import unittest

from support.files import EXAMPLES, ROOT, read, write

# How many seconds a script may take.
LIMIT = 60


def scripts():
    """Yields the scripts in Python, as paths. `bootswap` passes its arguments to the program."""
    for folder in ("", "bench/", "bindings/", "board/", "examples/", "examples/fleet/", "tools/", "web/"):
        for path in sorted(glob.glob(f"{ROOT}/{folder}*")):
            is_script = os.path.isfile(path) and os.access(path, os.X_OK) and path != f"{ROOT}/bootswap"
            if is_script and read(path).startswith(b"#!/usr/bin/env python3"):
                yield path


class ArgumentTest(unittest.TestCase):
    def ran(self, *words, **environment):
        """Returns the status of a script, and what it prints on the two streams."""
        how = {"stdin": subprocess.DEVNULL, "capture_output": True, "text": True, "env": {**os.environ, **environment}}
        done = subprocess.run([sys.executable, "-B", *words], timeout=LIMIT, **how)
        return done.returncode, done.stdout, done.stderr

    def test_each_script_has_a_help_and_refuses_unknown_arguments(self):
        found = [*scripts()]
        self.assertGreater(len(found), 20)
        for script in found:
            with self.subTest(os.path.relpath(script, ROOT)):
                status, out, err = self.ran(script, "--help")
                self.assertEqual((0, ""), (status, err))
                self.assertRegex(out, r"\Ausage: (.*\n){6}")
                status, out, err = self.ran(script, "--no-such-option")
                self.assertEqual((2, ""), (status, out))
                self.assertRegex(err, r"\Ausage: (.*\n)*.*error: .*\n\Z")

    def expect_fault(self, said, *words, status=1, **environment):
        """A script fails with one line, which has this form."""
        with self.subTest(said):
            got, _, err = self.ran(*words, **environment)
            self.assertEqual(status, got, err)
            self.assertRegex(err, rf"\A{said}\n\Z")

    def test_what_is_missing_or_wrong_is_named(self):
        with tempfile.TemporaryDirectory() as folder:
            gone, fleet = f"{folder}/gone", f"{folder}/fleet"
            write(fleet, "device a\nimage 0 1.0.0+0 0 0\n")
            # Python finds this module before any other of its name.
            write(f"{folder}/distributed.py", "raise ImportError('No module')\n")
            self.expect_fault("make_images.py: .*No such file or directory", f"{EXAMPLES}/make_images.py", gone)
            words = f"{EXAMPLES}/make_image.py", gone, fleet, "--version", "one"
            self.expect_fault("make_image.py: no image has the version one.*bytes", *words)
            self.expect_fault("reach.py: .*", f"{EXAMPLES}/fleet/reach.py", gone)
            self.expect_fault("mcuboot_rule.py: .*", f"{EXAMPLES}/fleet/mcuboot_rule.py", gone)
            words = f"{EXAMPLES}/fleet/parts.py", "--dask", "tcp://localhost:1", fleet
            said = r"parts.py: --dask takes dask.distributed \(Debian: python3-distributed\): .*"
            self.expect_fault(said, *words, PYTHONPATH=folder)
            said = "bench: there is no out/libbootswap.so: bindings/build makes it"
            self.expect_fault(said, f"{ROOT}/bench/upgrade", status=125, BOOTSWAP_LIBRARY=gone)
            self.expect_fault("verify: .*No such file or directory", f"{ROOT}/tools/verify", gone)

    def test_a_port_that_cannot_be_used_is_named(self):
        handler = functools.partial(http.server.SimpleHTTPRequestHandler, directory=EXAMPLES)
        with http.server.HTTPServer(("localhost", 0), handler) as other:
            port = str(other.server_port)
            # Any file serves as the library here.
            library = f"{EXAMPLES}/images/one.img"
            said = f"serve: port {port}: .*Address already in use"
            self.expect_fault(said, f"{ROOT}/web/serve", port, BOOTSWAP_MODULE=library)
        status, _, err = self.ran(f"{ROOT}/web/serve", "65536")
        self.assertEqual(2, status)
        self.assertTrue(err.endswith("error: there is no port 65536\n"), err)
