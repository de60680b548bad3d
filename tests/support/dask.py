"""Programs of examples/fleet whose parts are done by the workers of dask."""

import json
import os
import subprocess
import sys
import time

from support.files import read
from support.program import ProgramTest, short

# How many seconds workers of another process may take.
LIMIT = 120


def python_with(module):
    """Returns a Python that has a module, or None. Debian's packages are those of its own Python."""
    find = f"import importlib.util, sys; sys.exit(not importlib.util.find_spec({module!r}))"
    every = (it for it in (sys.executable, "/usr/bin/python3") if os.path.exists(it))
    return next((it for it in every if subprocess.run([it, "-c", find]).returncode == 0), None)


class DaskTest(ProgramTest):
    """Tests with three workers of dask, of which one dies."""

    def started(self, python, module, *options):
        """Starts a process of dask, which ends with the test."""
        words = [python, "-m", f"distributed.cli.{module}", *options]
        with open(f"{self.folder}/{module}.log", "ab") as log:
            process = subprocess.Popen(words, cwd=self.folder, stdout=log, stderr=log)
        self.addCleanup(process.wait)
        self.addCleanup(process.kill)
        return process

    def waited(self, is_so, limit=LIMIT):
        """Waits until something is so, and fails if that takes too long."""
        until = time.monotonic() + limit
        while not is_so():
            self.assertLess(time.monotonic(), until, "it doesn't go on")
            time.sleep(0.05)

    def expect_of_dask(self, name, words, wanted):
        """A case: a program ends with this status and output, though a worker of dask dies in the middle."""
        python = python_with("distributed")
        if not python:
            self.skipTest("there is no dask.distributed")
        began, program, address = (f"{self.folder}/{it}" for it in ("began", "slow", "address"))
        self.file("began", b"")
        # Each part takes a while, and says first which worker has it.
        self.file("slow", f'#!/bin/sh\necho $PPID >> {began}\nsleep 0.2\nexec {self.program} "$@"\n'.encode())
        os.chmod(program, 0o755)
        options = ["--host=127.0.0.1", "--port=0", "--no-dashboard"]
        self.started(python, "dask_scheduler", *options, f"--scheduler-file={address}")
        self.waited(lambda: os.path.exists(address))
        options = ["--no-nanny", "--nthreads=1", "--no-dashboard", f"--local-directory={self.folder}"]
        workers = [self.started(python, "dask_worker", f"--scheduler-file={address}", *options) for _ in range(3)]
        words = [python, "-B", *words, "--program", program, "--dask", json.loads(read(address))["address"]]
        ran = subprocess.Popen(words, stdout=subprocess.PIPE, stderr=subprocess.PIPE, cwd=self.folder)
        self.addCleanup(ran.kill)
        first = str(workers[0].pid).encode()
        self.waited(lambda: read(began).split().count(first) >= 2)
        workers[0].kill()
        out, err = ran.communicate(timeout=LIMIT)
        parts, of_first = len(read(began).split()), read(began).split().count(first)
        faults = [] if (ran.returncode, out) == wanted else [f"{ran.returncode}, {short(out)}, {short(err)}"]
        faults += [f"the worker had {of_first} of {parts} parts"] * (of_first * 2 > parts)
        with self.subTest(name):
            self.assertEqual([], faults)
