"""The processors on which the library is tested: this one, 64-bit ARM as `qemu-aarch64` runs it, and 32-bit ARM with
the library as one file of C."""

import atexit
import functools
import shutil
import tempfile
import unittest
from dataclasses import dataclass

from support.libraries import ARM_TARGET, TARGET, archive_for, c_folder, manifest_archive_for, output_of, ran


@dataclass(frozen=True)
class Processor:
    """A processor: the target of its library, its compiler of C and `nm`, and the words before a program that it
    runs."""

    target: str
    compiler: tuple
    nm: str
    runner: tuple

    def missing(self):
        """Returns what is needed for it and isn't installed."""
        return " and ".join(it for it in (self.compiler[0], self.nm, *self.runner) if not shutil.which(it))

    def archive(self):
        """Returns the file of its library. Skips the tests that need it if it isn't built."""
        return archive_for(self.target)

    def manifest_archive(self):
        """Returns the file of its library for manifests, as `archive`."""
        return manifest_archive_for(self.target)

    def compile(self, words):
        """Runs its compiler, which has to succeed."""
        output_of([*self.compiler, *words])

    def output_of(self, program, *words):
        """Runs a program for it, which has to succeed, and returns what it prints."""
        return output_of([*self.runner, program, *words])

    def compiled(self, words):
        """Runs its compiler, and returns what is wrong."""
        return ran([*self.compiler, *words])[0]


HERE = Processor(TARGET, ("cc",), "nm", ())
ARM = Processor(ARM_TARGET, ("aarch64-linux-gnu-gcc", "-static"), "aarch64-linux-gnu-nm", ("qemu-aarch64",))


@dataclass(frozen=True)
class SmallProcessor(Processor):
    """A processor of 32 bits. The toolchain has no target for it: its library is the file of C of `bindings/build
    --c`."""

    def archive(self):
        return library_of_c(self)


@functools.lru_cache(maxsize=None)
def library_of_c(processor):
    """Compiles the library as one file of C for a processor, and returns its file."""
    folder = tempfile.mkdtemp(prefix="bootswap-small-")
    atexit.register(shutil.rmtree, folder, ignore_errors=True)
    c_folder(folder)
    faults = processor.compiled(["-Os", "-c", f"{folder}/bootswap.c", "-o", f"{folder}/bootswap.o"])
    if faults:
        raise AssertionError(f"bootswap.c compiles: {faults[0]}")
    return f"{folder}/bootswap.o"


# Addresses of functions of Thumb have another lowest bit than their symbols, so it isn't Thumb.
SMALL_COMPILER = ("arm-linux-gnueabihf-gcc", "-static", "-marm")
SMALL_ARM = SmallProcessor("arm-linux-gnueabihf", SMALL_COMPILER, "arm-linux-gnueabihf-nm", ("qemu-arm",))

needs_arm = unittest.skipIf(ARM.missing(), f"not installed: {ARM.missing()}")
needs_small_arm = unittest.skipIf(SMALL_ARM.missing(), f"not installed: {SMALL_ARM.missing()}")
