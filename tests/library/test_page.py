"""What the page of web/ shows, how it looks, and its links and controls."""

import base64
import http.client
import json
import os
import time
import unittest

from support.files import PAIR as PAIR_DEVICE
from support.files import folder_for, write
from support.flashes import flash_of
from support.libraries import web_module
from support.page import EVENTS, Page, needs_browser
from support.program import ProgramTest

NARROW, WIDE = 390, 1240

BOOT = {"do": "boot"}
PAIR = [{"image": it, "version": "2.0.0", "needs": f"{1 - it} 2.0.0", "permanent": False} for it in (0, 1)]
ALONE = [{"image": 0, "version": "2.0.0", "needs": "", "permanent": True}]
UPLOAD = {"do": "upload", "rows": PAIR}


def cut(at, left):
    return {"do": "boot", "cut": {"write": at, "left": left}}


# Scenes that together show everything that the page can show: each with the number of images, and its events.
SCENES = {
    "one image": {"images": 1, "actions": [BOOT, {"do": "upload", "rows": ALONE}, BOOT]},
    "a pair before its swap": {"images": 2, "actions": [BOOT, UPLOAD]},
    "a pair after a cut": {"images": 2, "actions": [BOOT, UPLOAD, cut(25, [90, 165])]},
    "a pair of which one is refused": {"images": 2, "actions": [BOOT, {"do": "upload", "rows": PAIR[:1]}, BOOT]},
    "a pair that MCUboot breaks": {"images": 2, "actions": [BOOT, UPLOAD, BOOT, {"do": "confirm", "image": 0}, BOOT]},
    "three images on trial": {
        "images": 3, "boots": 3, "actions": [BOOT, UPLOAD, BOOT, BOOT, {"do": "withdraw", "image": 2}],
    },
}


def click(name):
    return f"document.getElementById('{name}').click()"


def confirm(image):
    return f"document.querySelector('[aria-label=\"Confirm image {image}\"]').click()"


CLICK_UPLOAD = "document.querySelector('#upload > button').click()"
CHECKED = "[...document.querySelectorAll('#events .checked')].map(it => it.textContent)"
DESCRIPTION = "document.getElementById('flash').getAttribute('aria-label')"
MOVE = "(it => {{ it.value = {}; it.oninput(); }})(document.getElementById('write'))"
SHOWN = "(it => it && it.checkVisibility() ? it.textContent : '')(document.getElementById('{}'))"
DONE = "[...document.querySelectorAll('#events li b')].map(it => it.textContent)"

CONTROLS = {"button", "link", "textbox", "combobox", "checkbox", "slider", "spinbutton", "radio", "switch", "listbox"}
CONTROLS.add("DisclosureTriangle")

# A new device of two images by docs/FORMATS.md: both images run, and the log has its first record.
NEW_PAIR = (
    "The flash now. Image 0: primary 1.0.0, trailer empty; secondary erased, trailer empty. "
    "Image 1: primary 1.0.0, trailer empty; secondary erased, trailer empty. "
    "Shared by the images: scratch erased; log 1 record: Steady, erased, erased."
)


def hash_of(scene):
    """Returns the hash of a link to a scene, or to any other value."""
    return "#" + base64.b64encode(json.dumps(scene).encode()).decode()


def acting(*actions):
    return hash_of({"images": 2, "boots": 1, "actions": [*actions]})


# Hashes that are no scene.
WRONG = {
    "null": hash_of(None),
    "an action that isn't there": acting({"do": "fly"}),
    "an action alone": hash_of({"do": "act"}),
    "an action of every object": acting({"do": "constructor"}),
    "no JSON": "#" + base64.b64encode(b"no JSON").decode(),
    "a number": hash_of(7),
    "no action": acting(None),
    "no list of actions": hash_of({"images": 2, "actions": "boot"}),
    "too many images": hash_of({"images": 4}),
    "images in words": hash_of({"images": "two"}),
    "no boot of a trial": hash_of({"boots": 0}),
    "an image that isn't there": acting(BOOT, {"do": "confirm", "image": 2}),
    "a cut of no write": acting(cut(0, "keep")),
    "a cut that leaves nothing known": acting(cut(1, "half")),
    "an upload of nothing": acting(BOOT, {"do": "upload", "rows": []}),
    "an upload of no version": acting(BOOT, {"do": "upload", "rows": [{**PAIR[0], "version": "x"}]}),
    "an upload of one image twice": acting(BOOT, {"do": "upload", "rows": [PAIR[0], PAIR[0]]}),
    "a further key of an action": acting({**BOOT, "then": "\u2028"}),
    "an argument of another action": acting({**BOOT, "image": 0}),
    "a further key of an upload": acting(BOOT, {"do": "upload", "rows": [{**PAIR[0], "then": "\u2028"}]}),
    "a line separator in a version": acting(BOOT, {"do": "upload", "rows": [{**PAIR[0], "version": "2.0.0\u2028"}]}),
    "a line separator for a request": acting(BOOT, {"do": "upload", "rows": [{**PAIR[0], "permanent": "\u2028"}]}),
}

# The links on the page to scenes, and the events of these.
EXAMPLES_OF_LINKS = {
    "example-cut": ["provision", "boot", "upload image 0 2.0.0+0, image 1 2.0.0+0", "boot, cut at write 50"],
    "example-reverted": [
        "provision", "boot", "upload image 0 2.0.0+0, image 1 2.0.0+0", "boot", "confirm image 0", "boot",
    ],
    "example-refused": ["provision", "boot", "upload image 0 2.0.0+0", "boot"],
}


class ServeTest(unittest.TestCase):
    """`web/serve` without a browser, over any file in place of the library."""

    def test_it_answers_each_name(self):
        """A file that isn't there, and a name that no file can have."""
        folder = folder_for(self)
        write(f"{folder}/bootswap.wasm", b"")
        page = Page(folder)
        self.addCleanup(page.close)
        for name, wanted in {"index.html?%00": 200, "absent": 404, "index.html%00": 404, "%00": 404}.items():
            connection = http.client.HTTPConnection(page.address.removeprefix("http://"), timeout=10)
            connection.request("GET", f"/{name}")
            self.assertEqual(wanted, connection.getresponse().status, name)
            connection.close()


@needs_browser
class PageTest(ProgramTest):
    """The page in one browser, which the tests share: each opens it anew."""

    runs_once = True

    @classmethod
    def setUpClass(cls):
        cls.files = folder_for(cls)
        cls.module = web_module(cls.files)
        cls.page = Page(cls.files)
        cls.addClassCleanup(cls.page.close)
        cls.page.start()

    def setUp(self):
        super().setUp()
        self.page.visit()
        self.run_all, self.run_on_page = self.page.run_all, self.page.run

    def tearDown(self):
        self.assertEqual([], self.page.faults(), "the page's own code has errors")

    def printed(self, script):
        """What the program prints for each event of a script, without the number at the front."""
        flash_of(self)
        _, out, _ = self.run_program(["run", PAIR_DEVICE, "flash", f"examples/scripts/{script}.txt"])
        events = []
        for line in out.decode().splitlines():
            number, _, rest = line.partition(" ")
            if number == str(len(events) + 1):
                events.append(rest)
            else:
                events[-1] += f"\n{line}"
        return events

    def text_of(self, name):
        return self.run_on_page(f"document.getElementById('{name}').textContent")

    def test_it_says_what_the_program_prints_also_after_a_cut_and_a_link_carries_the_scene(self):
        """For the ten events of examples/scripts/confirmed.txt, of which the page makes five by one click, with a cut
        at a third of the writes of the boot that takes the set."""
        boot, *upload, takes, first, second, last = self.printed("confirmed")
        self.assertEqual({"done"}, {*upload})
        self.run_all(click("boot"), CLICK_UPLOAD)
        writes = int(self.run_on_page("document.getElementById('write').max"))
        self.run_on_page(MOVE.format(writes // 3))
        self.assertEqual(f"after {writes // 3} of {writes} writes", self.text_of("shown"))
        self.run_all("document.getElementById('leaves').value = 'torn'", click("cut"), click("boot"))
        self.run_all(confirm(0), confirm(1), click("boot"))
        wanted = ["done", boot, "done", "cut", takes, first, second, last]
        self.assertEqual(wanted, self.run_on_page(EVENTS))
        self.assertEqual(3 * ["check: yes"], self.run_on_page(CHECKED))
        self.page.visit(self.run_on_page("location.hash"))
        self.assertEqual(wanted, self.run_on_page(EVENTS))

    def test_mcuboot_breaks_a_pair_that_the_device_reverts(self):
        """One image of the pair is confirmed: MCUboot's rule reverts only the other one."""
        self.run_all(click("beside"), click("boot"), CLICK_UPLOAD, click("boot"))
        self.run_all(confirm(0), click("boot"), click("boot"))
        events = self.run_on_page(EVENTS)
        self.assertTrue(events[-2].startswith("reverted"), events)
        self.assertEqual("plain\nrun 0 1.0.0+0\nrun 1 1.0.0+0", events[-1])
        broken = "image 0 2.0.0+0, image 1 1.0.0+0. Broken: image 0 needs image 1 at 2.0.0+0."
        self.assertIn(broken, self.text_of("mcuboot"))

    def test_a_refused_request_has_a_sentence_and_is_taken_later(self):
        """A request for one image of a pair alone, and then for the other one. A text that is no version is
        reported."""
        tick = "document.querySelector('[name=tick{}]').click()"
        self.run_on_page("document.getElementById('images').value = 3")
        self.page.renew()
        self.run_all(click("boot"), tick.format(1), CLICK_UPLOAD, click("boot"))
        said = self.run_on_page("document.querySelector('#events li:last-child').textContent")
        self.assertIn("refuse 0 needs 1 2.0.0+0", said)
        self.assertIn("Image 0 isn't taken: it needs image 1 at 2.0.0+0, which can't run.", said)
        self.run_all(tick.format(0), tick.format(1), CLICK_UPLOAD, click("boot"))
        events = self.run_on_page(EVENTS)
        self.assertEqual("trial\ntake 0 2.0.0+0\ntake 1 2.0.0+0\nrun 2 1.0.0+0", events[-1])
        self.run_all("document.querySelector('[name=version1]').value = '2.x'", CLICK_UPLOAD)
        self.assertRegex(self.text_of("fault"), r"\Aimage 1: a version")
        self.assertEqual(events, self.run_on_page(EVENTS))

    def test_each_scene_fits_a_narrow_and_a_wide_screen_with_contrast_and_a_legend(self):
        for name, scene in SCENES.items():
            with self.subTest(name):
                for width in (NARROW, WIDE):
                    self.page.resize(width)
                    self.page.visit(hash_of(scene))
                    self.page.look("showAll")
                    self.assertEqual([], self.page.look("tooWide"), width)
                for what, least in (("faint", 50), ("notInLegend", 1)):
                    found = self.page.look(what)
                    self.assertEqual([], found["faults"], what)
                    self.assertGreaterEqual(found["count"], least, what)

    def test_each_control_has_a_name_of_its_own(self):
        """It says of which image it is."""
        self.page.visit(hash_of({"images": 3}))
        names = [name for role, name in self.page.controls() if role in CONTROLS]
        self.assertEqual([], [it for it in names if not it.strip() or names.count(it) > 1])
        wanted = {f"{what} image {it}" for what in ("Confirm", "Withdraw") for it in range(3)}
        wanted |= {f"{what} of image {it}" for what in ("Version", "Needs", "Request") for it in range(3)}
        wanted |= {*(f"Image {it}" for it in range(3)), "Boot", "Reset", "Cut here", "Images", "Boots of a trial"}
        self.assertEqual(set(), wanted - {*names})

    def drawings(self):
        """The names of the drawings, as a screen reader has them."""
        return [name for role, name in self.page.controls() if role in ("image", "img")]

    def test_the_drawing_has_a_text_that_follows_it(self):
        self.page.visit(hash_of({"images": 2}))
        self.assertEqual(NEW_PAIR, self.run_on_page(DESCRIPTION))
        self.assertEqual(1, len(self.drawings()))
        self.page.visit(acting(BOOT, UPLOAD, cut(25, [90, 165])))
        texts = [NEW_PAIR, self.run_on_page(DESCRIPTION)]
        self.assertIn("torn", texts[1])
        for at in (1, 2):
            self.run_on_page(MOVE.format(at))
            texts.append(self.run_on_page(DESCRIPTION))
        self.assertRegex(texts[2], r"\AThe flash after 1 of ")
        self.assertEqual(4, len({*texts}), texts)
        self.assertEqual(texts[-1:], self.drawings())

    def test_a_link_that_is_no_scene_is_ignored_and_reported(self):
        for name, it in WRONG.items():
            with self.subTest(name):
                self.page.visit(it)
                said = "The link's scene isn't understood, so this is a new device."
                got = [self.run_on_page(SHOWN.format("note")), self.run_on_page(DONE)]
                self.assertEqual([said, ["provision"]], got)
                self.assertNotEqual(it, self.run_on_page("location.hash"))
                self.run_on_page(click("boot"))
                got = [self.run_on_page(SHOWN.format("note")), self.run_on_page(DONE)]
                self.assertEqual(["", ["provision", "boot"]], got)

    def test_links_on_the_page_lead_to_scenes(self):
        for name, events in EXAMPLES_OF_LINKS.items():
            self.run_all("document.body.dataset.ready = ''", click(name))
            self.page.wait()
            self.assertEqual(["", events], [self.run_on_page(SHOWN.format("note")), self.run_on_page(DONE)], name)

    def test_linked_docs_are_served(self):
        links = self.run_on_page("[...document.querySelectorAll('nav a:not([id])')].map(it => it.href)")
        self.assertEqual(3, len(links))
        for it in links:
            text = self.run_on_page(f"fetch({json.dumps(it)}).then(it => it.ok ? it.text() : '')")
            self.assertTrue(text.startswith("# "), it)

    def test_a_boot_is_played_until_a_user_stops_it(self):
        self.page.visit(acting(BOOT, UPLOAD))
        value = "Number(document.getElementById('write').value)"
        self.run_on_page(click("play"))
        until = time.monotonic() + 5
        while self.run_on_page(value) < 2 and time.monotonic() < until:
            time.sleep(0.05)
        self.run_on_page(click("play"))
        stopped = self.run_on_page(value)
        time.sleep(0.5)
        self.assertGreaterEqual(stopped, 2)
        self.assertEqual(stopped, self.run_on_page(value))

    def test_a_page_without_its_library_says_why_and_shows_no_device(self):
        kept = f"{self.module}.kept"
        os.rename(self.module, kept)
        self.addCleanup(os.replace, kept, self.module)
        for reason in ("bootswap.wasm: 404", "The browser has to have WebAssembly with 64-bit memory."):
            self.page.visit("", "failed")
            said = self.run_on_page(SHOWN.format("trouble"))
            self.assertTrue(said.startswith("There is no device to show, as its library didn't load: "), said)
            self.assertIn(reason, said)
            self.assertFalse(self.run_on_page("document.querySelector('main').checkVisibility()"))
            self.assertEqual([], self.page.look("faint")["faults"])
            write(self.module, b"no module")
