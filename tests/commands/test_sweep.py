"""What `sweep` prints and draws, and that `run` and `slots` print the same for each cut."""

import contextlib
import hashlib
import os
import re
import select
import subprocess
import time
import xml.etree.ElementTree

from support.builders import component, device, image, manifest, version
from support.files import EXAMPLES, ONE, PAIR, ROOT, read
from support.flashes import flash_of
from support.printed import error, refused
from support.program import ProgramTest
from support.worked import SUM_OF_WRITES, TORN, WORKED, WRITES

SCRIPT = f"{EXAMPLES}/scripts/{WORKED}.txt"
FILES = [PAIR, SCRIPT, ONE, ONE]
SWEEP = ["sweep", *FILES]
OLD, NEW = ("".join(f"run {image} {version}\n" for image in (0, 1)) for version in ("1.0.0+0", "2.0.0+0"))
PICTURE = read(f"{ROOT}/docs/sweep.svg")

# The events of the worked run, as `sweep` prints them.
EVENTS = ["boot", "accept", "piece 0", "piece 1", "finish 1", "finish 0", "boot", "confirm 0", "boot", "boot"]

# What the boot after a cut does, for each write of each event. At first nothing is requested, or only one
# image. Then the boot takes both, or reverts the set on trial. If the last write of an event is done, the boot
# does what it does after the event.
MARKS = ["", "..", "..", "..", ".", "*", 37 * "t" + "*", "r", 43 * "r" + "*", ""]

# A script of a set that is confirmed, with a boot that ends the trial.
KEPT = "boot\naccept {0}/manifests/trial.json\npiece 0 {0}/images/needing.img\npiece 1 {0}/images/partner.img\n"
KEPT += "finish 0\nfinish 1\nboot\nconfirm 0\nconfirm 1\nboot\n"


def sweep_text(marks_of_events, *rest):
    """What `sweep` prints for EVENTS with these characters, and then these lines."""
    lines, first = [], 1
    for number, (event, marks) in enumerate(zip(EVENTS, marks_of_events), 1):
        lines.append(f"{number} {event}" + (f" from {first} {marks}" if marks else "") + "\n")
        first += len(marks)
    return "".join([*lines, *rest]).encode()


def marks_in(out):
    """The characters for all writes."""
    return "".join(re.findall(r" from \d+ (\S+)$", out.decode(), re.M))


def boot_after(reply):
    """The character for the reply of the boot after a cut."""
    kinds = {"plain": ".", "trial": "t", "permanent": "p", "reverted": "r", "trial-again": "a"}
    return kinds.get(reply.split()[1].decode(), "x")


def script_file(test, events):
    return test.file("script", "".join(events).encode())


def upload_events(test, sequence, kind, files):
    """The events that upload and request these files for images 0, 1 and so on."""
    parts = []
    for number, name in enumerate(files):
        whole = read(os.path.join(test.folder, name))
        digest = hashlib.sha256(whole).hexdigest()
        parts.append(component(component_id=number, kind=kind, size=len(whole), payload_digest=digest))
    accepted = test.file(f"manifest-{sequence}", manifest(components=parts, sequence_number=sequence))
    pieces = [f"piece {number} {name}\n" for number, name in enumerate(files)]
    return [f"accept {accepted}\n", *pieces, *(f"finish {number}\n" for number in range(len(files)))]


def replaced_requests(test):
    """The events that request two images, then two others in place of these, and boot."""
    two, three = (
        [test.file(f"image-{major}-{number}", image((), own=version(major, number))) for number in (0, 1)]
        for major in (2, 3)
    )
    return ["boot\n", *upload_events(test, 1, "permanent", two), *upload_events(test, 2, "permanent", three), "boot\n"]


def big_device(test):
    """Makes a device file, and an image that a boot reads in some hundredths of a second."""
    test.file("big.json", device(sector=65536, sectors=[62]))
    return test.file("big.img", image([], body=4_000_000 * b"x", own=version(1)))


class SweepTest(ProgramTest):
    def by_hand(self, whole, events, number, torn):
        """Runs the events with this write interrupted, a boot after it, and then the other events. Returns the event,
        the character of the boot, and the versions at the end, or None if nothing was interrupted."""
        cut = f"cut {number} {torn}\n"

        def replies(script):
            self.file("flash", whole)
            out = self.run_program(["run", PAIR, "flash", "-"], given=(cut + "".join(script)).encode())[1]
            return [line for line in out.split(b"\n") if line[:1].isdigit()]

        at = next((at for at, line in enumerate(replies(events)) if line.endswith(b" cut")), None)
        if at is None:
            return None
        after = replies([*events[: at + 1], "boot\n", *events[at + 1 :]])[at + 1]
        listed = self.run_program(["slots", PAIR, "flash"])[1]
        return at, boot_after(after), tuple(re.findall(rb"^slot \d primary\nversion (\S+)$", listed, re.M))

    def test_worked_run(self):
        """Every end is the same: both images were tried and reverted. So is it with a second cut in the boot after the
        first."""
        self.assertEqual(WRITES, [*map(len, MARKS)])
        runs = 1 + 6 * SUM_OF_WRITES
        self.assertEqual((0, sweep_text(MARKS, f"runs {runs}\nend {runs} uncut\n", OLD), b""), self.run_program(SWEEP))
        status, out, err = self.run_program(["sweep", "--twice", *FILES])
        self.assertEqual((0, b""), (status, err))
        [(number, of_end)] = re.findall(rb"^runs (\d+)\nend (\d+) uncut\n" + re.escape(OLD).encode(), out, re.M)
        self.assertEqual(number, of_end)
        self.assertGreater(int(number), 20 * runs)

    def test_permanent_set_and_long_trial(self):
        """A permanent set is marked `p`. A trial of three boots is marked `a`: a power cut takes one boot of it."""
        files = [f"{EXAMPLES}/images/{name}.img" for name in ("needing", "partner")]
        script = script_file(self, ["boot\n", *upload_events(self, 1, "permanent", files), "boot\n"])
        out = self.run_program(["sweep", PAIR, script, ONE, ONE])[1]
        # If the last write is done, the next boot takes nothing more.
        self.assertRegex(out.decode(), re.compile(r"^7 boot from \d+ p{20,}\*?\.*$", re.M))
        out = self.run_program(["sweep", f"{EXAMPLES}/devices/patient.json", SCRIPT, ONE, ONE])[1]
        self.assertRegex(out.decode(), re.compile(r"^8 confirm 0 from \d+ a$", re.M))

    def test_cut_that_leaves_one_of_two_requests(self):
        """No cut next to it does, so it is reported as `other`, and ends with status 1."""
        whole, events = flash_of(self), replaced_requests(self)
        status, out, err = self.run_program(["sweep", PAIR, script_file(self, events), ONE, ONE])
        self.assertEqual((1, b""), (status, err))
        number, torn = re.search(r"^other \d+ cut (\d+) (keep|done|hex:\S+)$", out.decode(), re.M).groups()
        cut, _, versions = self.by_hand(whole, events, int(number), torn)
        self.assertEqual("accept manifest-2\n", events[cut])
        self.assertIn(versions, [(b"1.0.0+0", b"2.1.0+0"), (b"2.0.0+0", b"1.0.0+0")])

    def test_samples(self):
        """`--sample` makes N runs, and the same runs for the same seed."""
        sample = lambda number, seed: self.run_program(["sweep", f"--sample={number}", f"--seed={seed}", *FILES])
        self.assertEqual(sample(30, 7), sample(30, 7))
        self.assertNotEqual(sample(30, 7), sample(30, 8))
        for seed in (0, 7, 2**32 - 1):
            status, out, err = sample(30, seed)
            self.assertEqual((0, b""), (status, err))
            self.assertIn(b"runs 31\nend 31 uncut\n", out)
            self.assertTrue(10 < len(marks_in(out)) - marks_in(out).count("_") <= 30)
        none = sweep_text([len(it) * "_" for it in MARKS], f"runs 1\nend 1 uncut\n{OLD}")
        self.assertEqual((0, none, b""), sample(0, 1))
        end = (0, f"runs 1\nend 1 uncut\n{OLD}".encode(), b"")
        self.assertEqual(end, self.run_program(["sweep", PAIR, "-", ONE, ONE]))

    def test_each_cut_is_that_of_a_run(self):
        """For a trial that is confirmed, with each write interrupted, `sweep` prints what `run` and `slots` print."""
        whole, events = flash_of(self), KEPT.format(EXAMPLES).splitlines(True)
        status, out, err = self.run_program(["sweep", PAIR, script_file(self, events), ONE, ONE])
        self.assertEqual((0, b""), (status, err))
        marks, ends, number = [], {}, 0
        while self.by_hand(whole, events, number + 1, "keep"):
            number += 1
            found = [self.by_hand(whole, events, number, torn) for torn in TORN]
            marks.append({mark for _, mark, _ in found})
            for *_, versions in found:
                ends[versions] = ends.get(versions, 0) + 1
        printed = marks_in(out)
        self.assertEqual(number, len(printed))
        # Scripts can't tear a write in half, so the half may be the other character.
        self.assertEqual([], [(at, mark) for at, mark in enumerate(printed) if mark != "*" and {mark} != marks[at]])
        sets = {lines: int(count) for count, lines in re.findall(r"^end (\d+) .*\n((?:run .*\n)*)", out.decode(), re.M)}
        self.assertEqual({OLD, NEW}, {*sets})
        counted = f"runs {1 + 6 * number}\nend {sets[NEW]} uncut\n{NEW}end {sets[OLD]} cut 1 keep\n{OLD}"
        self.assertIn(counted, out.decode())
        # Without the half of each write, and without the run that isn't interrupted.
        for lines, versions in ((OLD, (b"1.0.0+0",) * 2), (NEW, (b"2.0.0+0",) * 2)):
            self.assertTrue(ends[versions] <= sets[lines] <= ends[versions] + number + 1)

    def test_refusals(self):
        """They come before the runs, and no picture is made or changed."""
        for name, contents in {
            "abc": b"abc", "picture": PICTURE, "cuts": b"cut 3 keep\nboot\n", "no-map.json": device(sector=0),
        }.items():
            self.file(name, contents)
        for arguments, end in [
            ([PAIR, "cuts", ONE, ONE], error("script line 1")),
            (["no-map.json", SCRIPT, ONE, ONE], refused("map 1 BadSector")),
            ([PAIR, SCRIPT, ONE, "nothing"], error("cannot read nothing")),
            ([PAIR, SCRIPT, ONE, "abc"], refused("boot 5 RunningDamaged 1")),
        ]:
            with self.subTest(" ".join(arguments[:2])):
                self.assert_refuses(end, ["sweep", "--svg=picture", *arguments])


# An output of one run of two events, and texts that can't be merged with it: the part of it that is replaced, the new
# text, and the line that is wrong.
OUTPUT = b"1 boot\n2 accept from 1 .t\nruns 1\nend 1 uncut\nrun 0 1.0.0+0\n"
WRONG = [
    (b"1 boot", b"2 boot", 1), (b"1 boot", b"1 reset", 1), (b"1 boot", b"1 frob", 1), (b"1 boot", b"\xff boot", 1),
    (b"1 boot\n", b"", 1), (b"accept from 1", b"accept from 2", 2), (b".t", b".u", 2), (b".t", b"..t", 2),
    (b" from 1 .t", b"", 2), (b"runs", b"3 boot\nruns", 3), (b"runs 1", b"runs 18446744073709551616", 3),
    (b"end 1", b"end 0", 4), (b"uncut", b"cut 1", 4), (b"uncut", b"cut 1 keep cut 2", 4), (b"run 0", b"run 1", 5),
    (b"1.0.0+0", b"1.0.0", 5), (b"run 0 1.0.0+0\n", b"", 5), (b"1.0.0+0\n", b"1.0.0+0\n\n", 6),
    (b"1.0.0+0\n", b"1.0.0+0\nrefused 1 cut 1 keep\nother 1 cut 1 keep\n", 6),
]


class SweepPartsTest(ProgramTest):
    """Sweeps whose runs are shared by several processes."""

    def parts_of(self, count, *arguments):
        """Runs the parts of a sweep, and returns the names of their outputs."""
        names = []
        for number in range(1, count + 1):
            status, out, err = self.run_program(["sweep", f"--part={number}/{count}", *arguments])
            self.assertEqual((True, b""), (status in (0, 1), err))
            names.append(self.file(f"part-{number}", out))
        return names

    def test_parts_of_the_worked_run(self):
        """They have a third of its runs each. The merged picture and JSON are those of one process."""
        names = self.parts_of(3, *FILES)
        counts = [int(re.search(r"^runs (\d+)$", read(f"{self.folder}/{it}").decode(), re.M)[1]) for it in names]
        self.assertEqual([1 + 2 * SUM_OF_WRITES, 2 * SUM_OF_WRITES, 2 * SUM_OF_WRITES], counts)
        whole = self.run_program(["sweep", "--json", *FILES])
        self.assertEqual(whole, self.run_program(["sweep", "--merge", "--svg=merged.svg", "--json", *names]))
        self.assertEqual(PICTURE, read(f"{self.folder}/merged.svg"))
        out = self.run_program(["sweep", "--part=300/300", *FILES])[1]
        self.assertEqual((SUM_OF_WRITES, SUM_OF_WRITES - 1), (len(marks_in(out)), marks_in(out).count("_")))

    def test_output_that_cannot_be_merged(self):
        """It is wrong or of other events, and is named with its first wrong line."""
        self.file("right", OUTPUT)
        twice = OUTPUT.replace(b"runs 1", b"runs 2").replace(b"end 1", b"end 2")
        self.assertEqual((0, twice, b""), self.run_program(["sweep", "--merge", "right", "right"]))
        for old, new, line in [(OUTPUT, b"", 1), *WRONG]:
            with self.subTest(f"{old} {new}"):
                self.assertEqual(1, OUTPUT.count(old))
                self.file("wrong", OUTPUT.replace(old, new))
                got = self.run_program(["sweep", "--merge", "right", "wrong"])
                self.assertEqual(error(f"cannot merge wrong line {line}"), got)
        self.assertEqual(error("cannot read nothing"), self.run_program(["sweep", "--merge", "right", "nothing"]))
        self.assertEqual(error("picture is an input"), self.run_program(["sweep", "--merge", "--svg=./right", "right"]))
        self.assertEqual(OUTPUT, read(f"{self.folder}/right"))


SVG = "{http://www.w3.org/2000/svg}"

# The text of a square in the picture, by the character in the output.
WORDS = {
    ".": "the next boot took nothing",
    "t": "the next boot took a set on trial",
    "r": "the next boot went back",
    "*": "the next boot said one thing or another",
}


def squares_in(tree):
    """The squares for writes, each of which has a title."""
    return [it for it in tree.iter(f"{SVG}rect") if it.find(f"{SVG}title") is not None]


class PictureTest(ProgramTest):
    """The picture of a sweep."""

    def test_picture_has_a_square_for_each_write(self):
        self.assertEqual(self.run_program(SWEEP), self.run_program(["sweep", "--svg=made", *FILES]))
        self.assertEqual(PICTURE, read(f"{self.folder}/made"))
        tree = xml.etree.ElementTree.fromstring(PICTURE)
        wanted = [f"write {number}: {WORDS[mark]}" for number, mark in enumerate("".join(MARKS), 1)]
        self.assertEqual(wanted, [it.find(f"{SVG}title").text for it in squares_in(tree)])
        labels = [it.text for it in tree.iter(f"{SVG}text")]
        self.assertEqual([f"{at} {it}" for at, it in enumerate(EVENTS, 1)], labels[:10])

    def test_picture_of_a_long_event(self):
        """A row has at most 120 squares, and all squares, texts and the legend lie within the picture."""
        old, new = (self.file(f"image-{it}", image([], body=bytes(7000), own=version(it))) for it in (1, 2))
        script = script_file(self, ["boot\n", *upload_events(self, 1, "permanent", [new]), "boot\n"])
        big = self.file("big.json", device(sectors=[16]))
        out = self.run_program(["sweep", "--sample=0", "--svg=long.svg", big, script, old])[1]
        tree = xml.etree.ElementTree.parse(f"{self.folder}/long.svg").getroot()
        width, height = int(tree.get("width")), int(tree.get("height"))
        self.assertEqual(f"0 0 {width} {height}", tree.get("viewBox"))
        self.assertLess(width, 1500)
        rows = [int(it.get("y")) for it in squares_in(tree)]
        self.assertEqual(120, max(map(rows.count, rows)))
        self.assertEqual(len(marks_in(out)), len(rows))
        self.assertLess(max(rows) + 16, height)
        for it in tree.iter(f"{SVG}text"):
            self.assertTrue(int(it.get("x")) < width - 250 and int(it.get("y")) < height, it.text)

    def test_replaces_another_file_only_by_force(self):
        """It replaces an empty file and a picture of a sweep without."""
        sweep = ["sweep", "--sample=0", "--svg=made", *FILES]
        merge = ["sweep", "--merge", "--svg=made", self.file("part", self.run_program(SWEEP)[1])]
        first, _, rest = PICTURE.partition(b"\n")
        for name, old in {
            "text": b"notes of a meeting\n",
            "an image": read(ONE),
            "another picture": first.replace(b' font-family="sans-serif"', b"") + b"\n" + rest,
            "a picture without a background": first + b"\n</svg>\n",
            "a picture in another element": b"<?xml version='1.0'?>\n" + PICTURE,
        }.items():
            for arguments in (sweep, merge):
                with self.subTest(f"{name} {arguments[1]}"):
                    self.file("made", old)
                    self.assertEqual(error("made is no picture"), self.run_program(arguments))
                    self.assertEqual(old, read(f"{self.folder}/made"))
                    self.assertEqual((0, b""), self.run_program([*arguments, "--force"])[::2])
                    self.assertTrue(read(f"{self.folder}/made").startswith(first))
        for old in (b"", PICTURE):
            self.file("made", old)
            self.assertEqual((0, b""), self.run_program(sweep)[::2])
            self.assertNotIn(read(f"{self.folder}/made"), (b"", PICTURE))

    def test_input_as_the_picture(self):
        """An input, the script, and a file that the script names are refused, by any name."""
        files = {"abc": b"abc", "script": read(SCRIPT), "image": read(ONE), "names": b"boot\naccept abc\n"}
        files |= {"pieces": b"boot\npiece 0 abc 1 2\npiece 1 script\n"}
        for name, contents in files.items():
            self.file(name, contents)
        os.link(f"{self.folder}/abc", f"{self.folder}/abc-second")
        for script, name in [
            ("script", "script"), ("script", "./image"), ("names", "abc"), ("names", "abc-second"),
            ("pieces", f"{self.folder}/abc"), ("pieces", "script"),
        ]:
            for given, way in [(script, b""), ("-", files[script])][: 1 + (script in ("names", "pieces"))]:
                with self.subTest(f"{name} {given}"):
                    arguments = ["sweep", f"--svg={name}", PAIR, given, ONE, "image"]
                    self.assert_refuses(error("picture is an input"), arguments, given=way)

    def test_picture_that_cannot_be_made(self):
        """It is refused before the runs, which would take longer than a test may."""
        big = big_device(self)
        self.file("long", 4000 * b"boot\n")
        self.file("held", b"old")
        os.mkfifo(f"{self.folder}/pipe")
        with self.held("held"):
            for name in (".", "pipe", "/dev/null", "held", "no/folder"):
                with self.subTest(name):
                    got = self.run_program(["sweep", f"--svg={name}", "big.json", "long", big])
                    self.assertEqual(error(f"cannot write {name}"), got)


# What the progress line says after its first event.
SUMS = rb"\d+ runs, \d+ other, \d+ refused"
DOING = rb"first run, event \d+ of \d+|second run|cuts \d+ of \d+, " + SUMS + rb"(?:, \d+ s left)?"


class SweepProgressTest(ProgramTest):
    """What a terminal shows during a sweep."""

    def printed_until(self, arguments, wanted):
        """Runs a sweep with a terminal as standard error, until it printed this, for a minute at most.

        Returns the match, and after how many seconds the output began. Then the sweep is killed.
        """
        ours, theirs = os.openpty()
        self.addCleanup(os.close, ours)
        began, printed, first = time.monotonic(), b"", None
        ran = subprocess.Popen([self.program, *arguments], cwd=self.folder, stdout=subprocess.DEVNULL, stderr=theirs)
        os.close(theirs)
        # Linux ends a terminal's output with an error once nobody writes to it.
        with contextlib.suppress(OSError):
            while not re.search(wanted, printed) and time.monotonic() - began < 60:
                if select.select([ours], [], [], 0.1)[0]:
                    printed += os.read(ours, 4096)
                    first = first or time.monotonic() - began
        ran.kill()
        ran.wait()
        self.assertRegex(printed, wanted)
        return re.search(wanted, printed), first

    def test_progress_is_a_line_that_is_erased(self):
        ours, theirs = os.openpty()
        usual = self.run_program(SWEEP)
        self.assertEqual(usual, self.run_program(SWEEP, stderr=theirs))
        os.close(theirs)
        printed = b""
        with contextlib.suppress(OSError):
            while more := os.read(ours, 4096):
                printed += more
        os.close(ours)
        line = rb"\rsweep: first run, event 1 of 10\x1b\[K(\rsweep: (" + DOING + rb")\x1b\[K)*\r\x1b\[K"
        self.assertTrue(re.fullmatch(line, printed), printed)

    def test_progress_begins_within_two_seconds(self):
        """It goes on during the first run of a long script, and during the first write of `--twice`."""
        big = big_device(self)
        self.file("long", 2000 * b"boot\n")
        self.file("manifest", manifest(components=[component()]))
        self.file("twice", 100 * b"boot\n" + b"accept manifest\n")
        start = rb"^\rsweep: first run, event 1 of "
        for arguments, wanted in [
            (["big.json", "long", big], start + rb"2000\x1b\[K.*event [1-9]\d+ of 2000\x1b\[K"),
            (["--twice", "big.json", "twice", big], start + rb"101\x1b\[K.*\rsweep: cuts 0 of \d+, \d+ runs"),
        ]:
            with self.subTest(" ".join(arguments)):
                self.assertLess(self.printed_until(["sweep", *arguments], wanted)[1], 2)

    def test_sums_of_the_runs_so_far(self):
        """A killed sweep leaves them on the terminal. They are those of a sweep of as many runs."""
        script = script_file(self, replaced_requests(self))
        sample = lambda number: ["sweep", f"--sample={number}", PAIR, script, ONE, ONE]
        line = rb"\rsweep: cuts \d+ of 1000000, (\d+) runs, ([1-9]\d*) other, 0 refused(?:, \d+ s left)?\x1b\[K$"
        runs, other = map(int, self.printed_until(sample(1000000), line)[0].groups())
        # The run without a cut counts too.
        out = self.run_program(sample(runs - 1))[1]
        self.assertIn(b"\nruns %d\n" % runs, out)
        self.assertIn(b"\nother %d cut " % other, out)
        self.assertNotIn(b"\nrefused", out)
