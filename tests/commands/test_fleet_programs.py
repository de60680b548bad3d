"""The programs of examples/fleet, except sweep_parts.py."""

import collections
import importlib.util
import json
import os
import re
import shutil
import sqlite3
import subprocess
import sys
import unittest
import xml.etree.ElementTree

from support.dask import DaskTest
from support.files import EXAMPLES, ROOT, read
from support.fleet import FLEET, tool, write_script
from support.libraries import shared_library
from support.program import FolderTest, ProgramTest
from support.tables import text_of

sys.path.append(FLEET)
sys.dont_write_bytecode = True

import fleet_tables
import make_fleet
import mcuboot_rule
import worth

# board/ has another parts.py.
FOUND = importlib.util.spec_from_file_location("fleet_parts", f"{FLEET}/parts.py")
parts = importlib.util.module_from_spec(FOUND)
FOUND.loader.exec_module(parts)

RELEASE = [f"--request={at}={EXAMPLES}/images/{name}.img" for at, name in enumerate(("needing", "partner"))]
ONE = b"image 0 1.0.0+0 0 0\n"

# The share of each fault of a made fleet.
MADE = {"older": 0.2, "damaged": 0.1, "partnerless": 0.15, "bad": 0.05}
SHARES = [f"--{name}={share}" for name, share in MADE.items()]

# Plays devices by web/mcuboot.js: reads their images from standard input, and prints what runs after a boot.
PLAY = """
import { PerImage } from "./mcuboot.js";
import { readFileSync } from "node:fs";
const runs = ({ running, requests }) => {
  const device = new PerImage(running);
  requests.forEach((it, image) => it && device.request(image, it, true));
  device.boot();
  return device.told().runs;
};
console.log(JSON.stringify(JSON.parse(readFileSync(0, "utf8")).map(runs)));
"""


def of_page(entry):
    """An image as web/mcuboot.js has it."""
    version = lambda it: dict(zip(("major", "minor", "revision", "build"), it))
    needs = [{"image": image, "minimum": version(minimum)} for image, minimum in entry.needs]
    return {"version": version(entry.version), "needs": needs}


class RuleTest(ProgramTest):
    """MCUboot's rules in mcuboot_rule.py and web/mcuboot.js."""

    runs_once = True

    def test_design_takes_the_greatest_set(self):
        """The rule `code` takes it only if no request has an unmet dependency, else nothing."""
        # `read_table` reads some tables that are bad for `plan`.
        fleet = tool("make_fleet.py", "--devices=2000", "--density=0.5", *SHARES[:3])[1]
        plan, design = self.run_program(["plan", "-"], given=fleet)[1], tool("mcuboot_rule.py", "-", given=fleet)[1]
        self.assertEqual(re.sub(rb"^refuse .*\n", b"", plan, flags=re.M), design)
        code = tool("mcuboot_rule.py", "-", "--rule=code", given=fleet)[1]
        unmet = 0
        for planned, taken, nothing in zip(*(it.split(b"device ") for it in (plan, design, code))):
            if re.search(rb"^refuse . (needs|no-such-image)", planned, re.M):
                unmet += 1
                self.assertNotIn(b"take ", nothing)
            else:
                self.assertEqual(taken, nothing)
        self.assertGreater(unmet, 100)

    @unittest.skipUnless(shutil.which("node"), "there is no node")
    def test_page_has_the_rule_design(self):
        fleet = tool("make_fleet.py", "--devices=2000", "--density=0.5", "--damaged=0.1", "--partnerless=0.15")[1]
        tables = [fleet_tables.read_table(it) for _, it in fleet_tables.devices_in(fleet.splitlines(True))]
        # The page has no damaged requests: it gets the others.
        wanted = [[it if isinstance(it, fleet_tables.Entry) else None for *_, it in table] for table in tables]
        given = [
            {"running": [of_page(it.running) for it in table], "requests": [it and of_page(it) for it in requests]}
            for table, requests in zip(tables, wanted)
        ]
        for name in ("mcuboot.js", "library.js"):
            shutil.copy(f"{ROOT}/web/{name}", self.folder)
        self.file("package.json", b'{"type": "module"}')
        words = ["node", f"{self.folder}/{self.file('play.js', PLAY.encode())}"]
        played = subprocess.run(words, input=json.dumps(given).encode(), stdout=subprocess.PIPE, check=True)
        runs = []
        for table in tables:
            taken = mcuboot_rule.taken_by_design(table)
            entries = [it.request if at in taken else it.running for at, it in enumerate(table)]
            runs.append([fleet_tables.version_text(it.version) for it in entries])
        self.assertEqual(runs, json.loads(played.stdout))

    def test_table_that_is_bad_for_plan(self):
        """It is bad here too: also one of more than 65,536 bytes, of more than 8 images, or with a long line."""
        for name, table in {
            "65,537 bytes": ONE + b"needs 0 1.0.0\n" * 4680,
            "9 images": b"".join(ONE.replace(b"0 1", b"%d 1" % it, 1) for it in range(9)),
            "a long line": ONE + b"needs" + (8 << 20) * b" 0 1" + b"\n",
            "a version with a leading zero": b"image 0 01.0.0+0 0 0\n",
            "a version past its end": b"image 0 256.0.0+0 0 0\n",
            "a form feed between lines": ONE.replace(b"\n", b"\f") + b"needs 0 1.0.0\n",
        }.items():
            with self.subTest(name):
                fleet = b"device a\n" + table + b"device b\n" + ONE
                end = (0, b"device a\nbad\ndevice b\nrun 0 1.0.0+0\n", b"")
                self.assertEqual(end, tool("mcuboot_rule.py", "-", given=fleet))


class MakerTest(unittest.TestCase):
    """make_fleet.py"""

    def made(self, *options):
        status, out, err = tool("make_fleet.py", "--devices=2000", *SHARES, *options)
        self.assertEqual((0, b""), (status, err))
        return out

    def test_parts_are_the_complete_fleet(self):
        complete = self.made("--releases=7")
        for count in (1, 3, 16):
            several = [self.made("--releases=7", f"--part={it + 1}/{count}") for it in range(count)]
            self.assertEqual(complete, b"".join(several), f"{count} parts")
        self.assertNotEqual(complete, self.made("--releases=7", "--seed=2"))
        names = re.findall(rb"^device (.*)$", complete, re.M)
        self.assertEqual([b"truck-%06d" % it for it in range(1, 2001)], names)

    def test_shares_of_faults(self):
        """They are those that are stated, within five standard deviations."""
        seen = collections.Counter()
        fleet = self.made("--density=1", "--unchanged=0", "--images=5")
        for _, text in fleet_tables.devices_in(fleet.splitlines(keepends=True)):
            is_bad = not text or text.endswith(b"\n\n") or text.startswith(b"image 00 ")
            seen.update(devices=1, bad=is_bad)
            if not is_bad:
                images = fleet_tables.read_table(text)
                seen.update(good=1, older=images[0].running.version == (1, 0, 0, 0))
                seen.update(images=len(images), damaged=sum(it.request == fleet_tables.DAMAGED for it in images))
                seen.update(partnerless=sum(it.request is None for it in images))
        of = {"older": seen["good"], "damaged": seen["images"], "bad": seen["devices"]}
        of["partnerless"] = seen["images"] - seen["damaged"]
        for name, share in MADE.items():
            with self.subTest(name):
                self.assertAlmostEqual(share * of[name], seen[name], delta=5 * (of[name] * share * (1 - share)) ** 0.5)


class WorthTest(ProgramTest):
    """worth.py, over the library for Python."""

    runs_once = True

    def test_counts(self):
        """They are those of `plan` and of mcuboot_rule.py, whatever the number of processes is."""
        library = shared_library(self.folder)
        lines = ["images,needs,faults,tables,requests,greatest,code,design,behind,by_one"]
        for mix in worth.mixes():
            devices = [*map(make_fleet.Fleet(mix, 30, "1", 3).device, range(30))]
            fleet = "".join(f"device d\n{make_fleet.table_text(it.images)}" for it in devices).encode()
            plan = self.run_program(["plan", "-"], given=fleet)[1].decode().split("device d\n")[1:]
            seen = collections.Counter()
            for device, lines_of in zip(devices, plan):
                greatest, code = lines_of.count("take "), len(mcuboot_rule.taken_by_code(device.images))
                is_behind = greatest > code == 0
                requests = sum(it.request is not None for it in device.images)
                seen.update(requests=requests, greatest=greatest, code=code)
                seen.update(behind=is_behind, by_one=is_behind and device.faults == 1)
            counts = [seen[it] for it in ("requests", "greatest", "code", "greatest", "behind", "by_one")]
            lines.append(",".join(map(str, [mix.images, mix.density, mix.damaged, 30, *counts])))
        for processes in (1, 3):
            arguments = "--tables=840", "--csv", f"--processes={processes}"
            status, out, err = tool("worth.py", *arguments, BOOTSWAP_LIBRARY=library)
            self.assertEqual((0, lines, b""), (status, out.decode().splitlines(), err))


# A column of each table of devices.sql, and values that it may not have.
WRONG_VALUES = [
    ("running", "device", ["a\nimage 0", 256 * "a", b"a"]),
    ("running", "image", ["0 1.0.0", 256, 0.5]),
    ("running", "version", ["1.0\ndevice ghost", "1.0.0\n", "1.0 0", "01.0", "1.0.65536", "\u0661", None]),
    ("running", "counter", ["0 0\ndevice ghost\nimage 0 1 0", 2**32, -1, b"0"]),
    ("running", "floor", ["0\ndevice ghost\nimage 0 1 0 0", None]),
    ("needs", "image", ["0\nx", None]),
    ("needs", "version", ["2.1\n"]),
    ("needs", "other", ["1 1.0\nneeds 1", 256]),
    ("needs", "minimum", ["1.0\n", "1.0\ndevice ghost", "256"]),
]

# The fleet of devices.sql.
OF_DATABASE = text_of(
    "device truck-1, image 0 1.0.0+0 0 0, image 1 1.0.0+0 0 0, device truck-2, image 0 1.0.0+0 0 0, "
    "device truck-3, image 0 2.1.0+0 0 0, needs 1 1.0.0+0, image 1 1.0.0+0 0 0, "
    "device truck-4, image 0 1.0.0+0 0 0, image 1 1.0.0+0 3 3"
)


class DatabaseTest(FolderTest):
    """from_database.py"""

    def printed(self, change, *values):
        """What it prints for the database of the example, changed by a statement."""
        name = self.put("devices.db", b"")
        database = sqlite3.connect(name)
        database.executescript(read(f"{FLEET}/devices.sql").decode())
        database.execute(change, values)
        database.commit()
        database.close()
        return tool("from_database.py", name)

    def assert_fault(self, err):
        """The program printed one line on its fault."""
        self.assertRegex(err, rb"\Afrom_database.py: .*\n\Z")

    def test_fleet_of_a_database(self):
        end = (0, OF_DATABASE, b"")
        self.assertEqual(end, tool("from_database.py", ":memory:", "--script", f"{FLEET}/devices.sql"))
        # What a version needs is found however its row writes the version.
        self.assertEqual(end, self.printed("UPDATE needs SET version = '2.1', minimum = '1'"))

    def test_value_that_a_column_may_not_have(self):
        """It ends the program. No line of another one is printed for it."""
        for table, column, values in WRONG_VALUES:
            # One row has the value, so that the key of the table stays one.
            where = "WHERE device = 'truck-4' AND image = 1" if table == "running" else ""
            for value in values:
                with self.subTest(f"{table}.{column} = {value!r:.40}"):
                    status, out, err = self.printed(f"UPDATE {table} SET {column} = ? {where}", value)
                    self.assertEqual((1, False), (status, b"ghost" in out))
                    self.assertLessEqual(out.count(b"device "), 4)
                    self.assert_fault(err)

    def test_file_that_is_no_database(self):
        for name, contents in (("none", None), ("text", b"no database" * 100)):
            with self.subTest(name):
                if contents:
                    self.put(name, contents)
                status, out, err = tool("from_database.py", f"{self.folder}/{name}")
                self.assertEqual((1, b"", bool(contents)), (status, out, os.path.exists(f"{self.folder}/{name}")))
                self.assert_fault(err)


def blocks_of(text, size):
    """The bytes of a text in blocks."""
    return [text[at : at + size] for at in range(0, len(text), size)]


class SplitTest(unittest.TestCase):
    """How parts.py splits a fleet."""

    def test_table_that_is_too_long_is_cut(self):
        """Little more of it is held than shows that it is too long, in time that grows with its bytes."""
        tables = {
            "lines that begin as device lines": 300_000 * b"device a b\n",
            "a long line": (32 << 20) * b"x" + b"\n",
            "a long line that ends as a device line": (1 << 20) * b"x" + b"device c\n",
        }
        # A line is cut after its name for one of these.
        tables |= {f"after byte {it} of a line": it * b"x" + b"\n" + 20_000 * b"device a b\n" for it in range(11)}
        first, last = b"device a\n" + ONE, b"device b\n" + ONE
        for name, table in tables.items():
            with self.subTest(name):
                began = os.times().user
                held, *rest = parts.parts_of(blocks_of(first + table + last, 1 << 20))
                # It takes a tenth of this. What searches or copies everything anew with each block takes longer.
                self.assertLess(os.times().user - began, 2)
                self.assertEqual([last], rest)
                # `plan` says of both tables that they are too long, if their lines are no device lines.
                self.assertTrue(held.startswith(first) and held.endswith(b"\n"))
                self.assertNotRegex(held, rb"\ndevice [ac]\n")
                self.assertTrue(65536 < len(held) - len(b"device a\n") < 2 << 20)

    def test_device_line_is_found_however_blocks_part_it(self):
        devices = [b"device %s\n%s" % (it * b"n", ONE) for it in (1, 255, 2)]
        text = b"".join(devices) + b"device " + 256 * b"n" + b"\ndevice z"
        for size in (*range(1, 12), 263, 264, 265, len(text)):
            with self.subTest(f"blocks of {size} bytes"):
                got = [*parts.parts_of(blocks_of(text, size))]
                self.assertEqual(text, b"".join(got))
                self.assertTrue(all(it.startswith(b"device ") and it[-1:] in b"\nz" for it in got))
                self.assertTrue(size > 12 or len(got) == 3)


class PartsTest(DaskTest):
    """parts.py"""

    runs_once = True

    def setUp(self):
        super().setUp()
        status, fleet, _ = tool("make_fleet.py", *"--devices 4000 --bad .01 --damaged .05 --partnerless .1".split())
        # This line belongs to the table before it, which is bad.
        self.file("fleet", fleet.replace(b"\ndevice truck-002000\n", b"\ndevice truck 2000\n"))
        self.fleet, self.wanted = f"{self.folder}/fleet", self.run_program(["plan", "fleet", "--summary"])
        self.assertEqual((1, b""), self.wanted[::2])

    def parted(self, *options):
        return tool("parts.py", *options, f"--program={self.program}")

    def test_parts_of_any_size_have_the_summary_of_the_fleet(self):
        for size, processes in ((1 << 20, 2), (20_000, 3), (3_000, 1)):
            with self.subTest(f"{size} bytes"):
                self.assertEqual(self.wanted, self.parted(self.fleet, f"--bytes={size}", f"--processes={processes}"))
        wanted = self.run_program(["plan", "fleet", "--summary", *RELEASE])
        self.assertEqual(wanted, self.parted(self.fleet, "--bytes=20000", *RELEASE))
        self.file("empty", b"")
        self.assertEqual((0, b"", b""), self.parted(f"{self.folder}/empty"))

    def test_faults(self):
        """A program that fails ends with its error and no summary. A part has a byte or more."""
        status, out, err = tool("parts.py", self.fleet, "--program=false")
        self.assertEqual((True, b""), (status > 0, out))
        self.assertIn(b"false plan: status 1", err)
        status, out, err = self.parted(self.fleet, "--bytes=0")
        self.assertEqual((2, b""), (status, out))
        self.assertIn(b"--bytes: invalid positive value: '0'\n", err)

    def test_stopped_worker(self):
        """A part whose process is stopped is done once more. If that stops too, the program ends."""
        self.file("fleet", b"device a\n" + ONE)
        wanted = self.run_program(["plan", "fleet", "--summary"])
        for lines, limit, end in [
            (f'mkdir stopped 2>/dev/null && kill -STOP $$; exec {self.program} "$@"', 10, wanted),
            ("kill -STOP $$", 2, (1, b"", b"parts.py: a worker didn't end within 2 s, twice\n")),
        ]:
            with self.subTest(f"{end}"):
                words = [sys.executable, "-B", f"{FLEET}/parts.py", "fleet", f"--limit={limit}"]
                words.append(write_script(self, "stops", lines))
                done = subprocess.run(words, cwd=self.folder, capture_output=True, timeout=60)
                self.assertEqual(end, (done.returncode, done.stdout, done.stderr))

    def test_dask(self):
        """A worker of dask dies in the middle, and the summary is that of the fleet."""
        words = [f"{FLEET}/parts.py", self.fleet, "--bytes=20000"]
        self.expect_of_dask("a worker of dask dies", words, self.wanted[:2])


SUMMARY = b"2 a device\n1 a bad\n1 b take 0 2.0.0+0\n"


class PictureTest(FolderTest):
    """reach.py, the plot of worth.py, and make_images.py."""

    def test_bars_are_the_shares_of_a_summary(self):
        summary = b"1000 a device\n100 a bad\n300 b refuse 1 2.0.0+0 needs 0 2.0.0+0\n50 b refuse 1 damaged\n"
        summary += b"300 c take\n350 d take 0 2.0.0+0\n250 d take 1 2.0.0+0\n"
        wanted = [
            ("take 0 2.0.0+0", "35.00", 14 * "#", "350"), ("take nothing", "30.00", 12 * "#", "300"),
            ("2 others", "35.00", 14 * "#", "350"),
            ("refuse 1 2.0.0+0 needs 0 2.0.0+0", "30.00", 12 * "#", "300"), ("refuse 1 damaged", "5.00", 2 * "#", "50"),
        ]
        status, out, err = tool("reach.py", "-", "--most=2", "--svg", f"{self.folder}/svg", given=summary)
        rows = re.findall(r"^(.*?) +(\d+\.\d\d) %  (#*) +(\d+)$", out.decode().partition("\n")[2], re.M)
        self.assertEqual((0, wanted, b""), (status, rows, err))
        bars = xml.etree.ElementTree.parse(f"{self.folder}/svg").getroot().iter("{http://www.w3.org/2000/svg}rect")
        self.assertEqual([105.0, 90.0, 105.0, 90.0, 15.0], [float(it.get("width")) for it in bars][1:])
        self.assertEqual((0, b"0 devices\n", b""), tool("reach.py", "-", given=b""))

    def test_text_that_is_no_summary(self):
        for text, line in [
            (SUMMARY + b"1 b refuse 0 \x1b[2J\n", 4), (SUMMARY + b"1 b bad\n", 4), (SUMMARY.replace(b"d\n", b"d\r"), 2),
            (b"a device\n", 1), (b"-1 a device\n", 1), (b"1_0 a device\n", 1), (b"1 a " + (1 << 20) * b"x", 1),
        ]:
            with self.subTest(f"{text[-20:]}"):
                fault = b"reach.py: line %d isn't one of a summary\n" % line
                self.assertEqual((1, b"", fault), tool("reach.py", "-", given=text))
        fault = b"reach.py: the summary counts fewer devices than results\n"
        self.assertEqual((1, b"", fault), tool("reach.py", "-", given=b"1 a bad\n"))

    def test_input_as_the_picture(self):
        """It is refused, also if it is standard input."""
        summary, end = self.put("summary", SUMMARY), (1, b"", b"error: picture is an input\n")
        self.assertEqual(end, tool("reach.py", summary, "--svg", summary))
        with open(summary, "rb") as stream:
            words = [sys.executable, "-B", f"{FLEET}/reach.py", "-", "--svg", summary]
            done = subprocess.run(words, stdin=stream, capture_output=True)
        self.assertEqual((end, SUMMARY), ((done.returncode, done.stdout, done.stderr), read(summary)))

    def test_replaces_a_picture_or_by_force(self):
        summary = self.put("summary", SUMMARY)
        tool("reach.py", summary, "--svg", f"{self.folder}/svg")
        picture = read(f"{self.folder}/svg")
        for old, options in [(picture, []), (read(f"{ROOT}/docs/sweep.svg"), []), (b"", []), (b"notes\n", ["--force"])]:
            with self.subTest(f"{old[:20]}"):
                place = self.put("place", old)
                os.chmod(place, 0o640)
                self.assertEqual((0, b""), tool("reach.py", summary, "--svg", place, *options)[::2])
                self.assertEqual((picture, 0o640), (read(place), os.stat(place).st_mode & 0o777))
        self.assertEqual([], [it for it in os.listdir(self.folder) if it.startswith(".")])

    def test_plot_replaces_only_a_plot(self):
        """This is checked before any table is decided. If gnuplot fails, the old one stays."""
        self.put("gnuplot", b"#!/bin/sh\nexit 3\n")
        os.chmod(f"{self.folder}/gnuplot", 0o755)
        path = f"{self.folder}:{os.environ['PATH']}"
        notes, old = self.put("notes", b"notes\n"), read(f"{ROOT}/docs/worth.svg")
        # No table needs the library.
        got = tool("worth.py", "--tables=0", "--plot", notes, PATH=path)
        self.assertEqual(((1, b"", f"error: {notes} is no picture\n".encode()), b"notes\n"), (got, read(notes)))
        plot = self.put("plot", old)
        status, _, err = tool("worth.py", "--tables=0", "--plot", plot, PATH=path)
        self.assertEqual((1, True, False, old), (status, b"gnuplot" in err, b"Traceback" in err, read(plot)))

    def test_images_replace_no_other_file(self):
        """make_images.py then makes none."""
        other = self.put("patched.img", b"another program's")
        done = subprocess.run([sys.executable, "-B", f"{EXAMPLES}/make_images.py", self.folder], capture_output=True)
        self.assertEqual(1, done.returncode)
        self.assertRegex(done.stderr, rb"\A.*patched.img.*\n\Z")
        self.assertEqual((["patched.img"], b"another program's"), (os.listdir(self.folder), read(other)))
