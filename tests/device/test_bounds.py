"""What no clause bounds: the stack of each call of the library, and the instructions of a boot."""

import glob
import platform
import re
import shutil
import tempfile
import unittest

from support.builders import image, version
from support.compiled import needs_compiler
from support.files import EXAMPLES, ROOT, read
from support.libraries import ran
from support.processors import HERE
from support.program import CaseTest

needs_this_processor = unittest.skipUnless(
    (platform.system(), platform.machine()) == ("Linux", "x86_64"), "the limits are for Linux on x86-64"
)
needs_valgrind = unittest.skipUnless(shutil.which("valgrind"), "there is no valgrind")

STACK = f"{ROOT}/bench/stack.c"
BOOTS = f"{ROOT}/tests/support/c/boots.c"
STRICT = ["-std=c11", "-O2", "-Wall", "-Wextra", "-Werror", "-I", f"{ROOT}/include"]

# The instructions of each boot of boots.c, for each image, in digests of one image. They come from docs/DESIGN.md,
# "What each call reads": a check takes one digest. Nothing is requested; or an upgrade checks both slots twice; or a
# revert checks both slots once, and the old image once more. The copies of a swap take less than a quarter of a digest.
DIGESTS = {"plain": 1, "upgrade": 4.25, "revert": 3.25}

# What else a boot does, as a part of that.
MARGIN = 1.06


def limits_in(page):
    """Returns the most bytes of stack of each call, by the table of docs/PORTING.md."""
    section = page.split("## Memory and stack\n")[1].split("\n## ")[0]
    return {name: int(most.replace(",", "")) for name, most in re.findall(r"^\| `(.*)` \| ([\d,]+) \|$", section, re.M)}


class ProgramInC(CaseTest):
    """A test of a program in C over the library, in a folder of its own."""

    @classmethod
    def setUpClass(cls):
        cls.folder = tempfile.mkdtemp(prefix="bootswap-bounds-")
        cls.addClassCleanup(shutil.rmtree, cls.folder, ignore_errors=True)
        cls.archive = HERE.archive()

    def compiled(self, source, *words):
        """Compiles a program with the library, and returns its file."""
        program = f"{self.folder}/program"
        faults = HERE.compiled([*STRICT, source, self.archive, *words, "-o", program])
        self.assertEqual([], faults)
        return program


@needs_compiler
@needs_this_processor
class StackTest(ProgramInC):
    """What bench/stack.c measures, and the limits that docs/PORTING.md and README.md name."""

    @classmethod
    def setUpClass(cls):
        super().setUpClass()
        cls.limits = limits_in(read(f"{ROOT}/docs/PORTING.md").decode())

    def test_each_call_takes_its_stack(self):
        """No call takes more than its limit, and none a fifth less: then the limit is too high."""
        program = self.compiled(STACK, "-static")
        faults, output = ran([program, *(f"{EXAMPLES}/images/{name}.img" for name in ("one", "patched"))])
        self.assertEqual([], faults)
        taken = {name: int(most) for name, most in map(str.split, output.decode().splitlines())}
        self.assertEqual(taken.keys(), self.limits.keys())
        for name, bytes in taken.items():
            with self.subTest(f"stack of {name}"):
                self.assertLessEqual(bytes, self.limits[name])
                self.assertGreaterEqual(bytes, 0.8 * self.limits[name])

    def test_the_readme_names_the_most(self):
        wanted = f"{-(-max(self.limits.values()) // 1000)} kB of stack"
        self.assertIn(wanted, read(f"{ROOT}/README.md").decode())


@needs_compiler
@needs_valgrind
class InstructionsTest(ProgramInC):
    """The instructions of the boots in boots.c, as valgrind counts them."""

    def test_a_boot_takes_few_more_instructions_than_its_digests(self):
        """With 1 to 8 images of 16 KiB, so they are linear in the images."""
        program = self.compiled(BOOTS)
        for name, minor in (("running", 0), ("new", 1)):
            with open(f"{self.folder}/{name}", "wb") as it:
                it.write(image(protected=(), body=bytes(16384), own=version(1, minor)))
        for images in range(1, 9):
            counts = self.counted(program, images)
            self.assertEqual(len(DIGESTS), len(counts["booted"]))
            for boot, taken in zip(DIGESTS, counts["booted"]):
                with self.subTest(f"instructions of a boot, {boot}, {images} images"):
                    self.assertLessEqual(taken, MARGIN * DIGESTS[boot] * images * counts["digested"][0])

    def counted(self, program, images):
        """The instructions of the boots and digests of a run."""
        dumps = f"{self.folder}/dump-{images}"
        words = [f"--dump-before={it}" for it in ("bootswap_simulate_boot", "booted", "bootswap_digest", "digested")]
        valgrind = ["valgrind", "-q", "--tool=callgrind", f"--callgrind-out-file={dumps}", *words]
        faults, _ = ran([*valgrind, program, f"{self.folder}/running", f"{self.folder}/new", str(images)], timeout=120)
        self.assertEqual([], faults)
        counts = {"booted": [], "digested": []}
        for dump in sorted(glob.glob(f"{dumps}.*"), key=lambda it: int(it.rpartition(".")[2])):
            text = read(dump).decode()
            trigger = re.search(r"^desc: Trigger: --dump-before=(\w+)$", text, re.M)[1]
            # A dump has what ran since the one before it.
            if trigger in counts:
                counts[trigger].append(int(re.search(r"^summary: (\d+)$", text, re.M)[1]))
        return counts
