"""What `choose` prints for tables, and `check` for reports."""

from support.files import names_in, read, report, table
from support.printed import error
from support.program import ProgramTest
from support.tables import ALMOST, GREATEST, text_of

# Tables, worked by hand: what one shows, its lines, and its report.
ASKING, RUNS = "image 0 1.0.0+0 0 0, request 2.0.0+0 0", "run 0 1.0.0+0, run 1 1.0.0+0"
CHOICES = [
    ("parts of versions may be left out", "image 0 1 0 0, request 1.1 0", "take 0 1.1.0+0"),
    ("a lower build number is older", "image 0 1.2.3+4 0 0, request 1.2.3+3 0", "run 0 1.2.3+4, refuse 0 older"),
    ("an equal version isn't", "image 0 1.2.3+4 0 0, request 1.2.3+4 0", "take 0 1.2.3+4"),
    ("a counter that is the floor", "image 0 1.0.0+0 5 5, request 1.1.0+0 5", "take 0 1.1.0+0"),
    ("a request that needs itself is taken", f"{ASKING}, needs 0 2.0.0+0", "take 0 2.0.0+0"),
    ("an alternative that isn't there", f"{ASKING}, needs-one 7 1 1 1, image 1 1 0 0", "take 0 2.0.0+0, run 1 1.0.0+0"),
    ("no alternative is there", f"{ASKING}, needs-one 7 1", "run 0 1.0.0+0, refuse 0 needs-one 7 1.0.0+0"),
    (
        "a chain", "image 0 1 0 0, image 1 1 0 0, request 2 0, needs 0 2, image 2 1 0 0, request 2 0, needs 1 2",
        f"{RUNS}, run 2 1.0.0+0, refuse 1 needs 0 2.0.0+0, refuse 2 needs 1 2.0.0+0",
    ),
    (
        "a first unmet need", f"{ASKING}, needs 1 2, image 1 1 0 0, image 2 1 0 0, request 2 0, needs 0 2, needs 1 2",
        f"{RUNS}, run 2 1.0.0+0, refuse 0 needs 1 2.0.0+0, refuse 2 needs 0 2.0.0+0",
    ),
    (
        "what depends on a refused request comes before higher ones",
        f"{ASKING}, needs 2 2, image 1 1 0 0, image 2 1 0 0, request 2 0, needs 1 2, image 3 1 0 0, request 2 0, "
        "needs 1 2",
        f"{RUNS}, run 2 1.0.0+0, run 3 1.0.0+0, refuse 2 needs 1 2.0.0+0, refuse 0 needs 2 2.0.0+0, "
        "refuse 3 needs 1 2.0.0+0",
    ),
]


def widest(running, needed):
    """A table with the most lines and the greatest numbers: eight images of this version that need image 7 in
    it, and requests of the same version that need image 7 in another one."""
    needs = lambda version: 16 * f", needs 7 {version}" + 4 * (", needs-one" + 4 * f" 7 {version}")
    image = f"image %d {running} 4294967295 4294967295{needs(running)}"
    request = f"request {running} 4294967295{needs(needed)}"
    return ", ".join(f"{image % it}, {request}" for it in range(8))


LIMITS = [
    ("each limit, all taken", widest(GREATEST, GREATEST), ", ".join(f"take {it} {GREATEST}" for it in range(8))),
    ("each limit, all refused", widest(ALMOST, GREATEST), ", ".join(
        [f"run {it} {ALMOST}" for it in range(8)] + [f"refuse {it} needs 7 {GREATEST}" for it in range(8)]
    )),
]

# Tables that are refused, and the error line.
BAD_TABLES = [
    (b"", "table line 1"), (b"image 1 1.0.0+0 0 0\n", "table line 1"),
    (b"image 0 1 0 0\nneeds " + 2**20 * b"1" + b"\n", "table line 2"),
    (b"image 0 1.0.0+0 0 0\nneeds 0 2.0.0+0\n", "running set not valid"),
]

# Reports for tables, and whether they are right.
BOTH_OLDER = "image 0 1.0.0+0 0 0, request 0.9.0+0 0, image 1 1.0.0+0 0 0, request 0.9.0+0 0"
PAIR, CHAIN, ITSELF = f"{ASKING}, needs 1 2, image 1 1 0 0, request 2 0, needs 0 2", CHOICES[7][1], CHOICES[4][1]
REPORTS = [
    (BOTH_OLDER, f"{RUNS}, refuse 1 older, refuse 0 older", "yes"),
    (BOTH_OLDER, f"{RUNS}, refuse 0 older, refuse 0 older", "no"),
    (PAIR, f"{RUNS}, refuse 0 needs 1 2.0.0+0, refuse 1 needs 0 2.0.0+0", "no"),
    (CHAIN, CHOICES[7][2], "yes"),
    (CHAIN, f"{RUNS}, run 2 1.0.0+0, refuse 2 needs 1 2.0.0+0, refuse 1 needs 0 2.0.0+0", "no"),
    (ITSELF, "run 0 1.0.0+0, refuse 0 needs 0 2.0.0+0", "no"),
    (f"{ASKING}, needs 7 1", "run 0 1.0.0+0, refuse 0 no-such-image 7", "yes"),
    (f"{ASKING}, needs 7 1", "run 0 1.0.0+0, refuse 0 needs 7 1.0.0+0", "no"),
]


class ChooseTest(ProgramTest):
    def test_example_tables_have_their_reports(self):
        """They are read from a file, or from standard input, in pieces or without the last line feed."""
        for name in names_in("tables"):
            with self.subTest(name):
                given, end = read(table(name)), (0, read(report(name)), b"")
                self.assertEqual(end, self.run_program(["choose", table(name)]))
                self.assertEqual(end, self.run_program([], given=given, pieces=5))
                self.assertEqual(end, self.run_program([], given=given[:-1]))
                self.assertEqual((0, b"yes\n", b""), self.run_program(["check", table(name), report(name)]))

    def test_worked_tables(self):
        for name, lines, wanted in CHOICES + LIMITS:
            with self.subTest(name):
                self.assertEqual((0, text_of(wanted), b""), self.run_program([], given=text_of(lines)))

    def test_refused_tables(self):
        for text, fault in BAD_TABLES:
            with self.subTest(f"{text[:30]}"):
                self.assertEqual(error(fault), self.run_program(["choose", self.file("table", text)]))

    def test_worked_reports(self):
        for lines, given, verdict in REPORTS:
            with self.subTest(given):
                end = int(verdict == "no"), f"{verdict}\n".encode(), b""
                arguments = ["check", self.file("table", text_of(lines)), "-"]
                self.assertEqual(end, self.run_program(arguments, given=text_of(given)))
        self.assertEqual(error("report line 1"), self.run_program(["check", table("pair"), "-"]))
