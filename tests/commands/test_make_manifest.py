"""The text of a manifest that `make-manifest` prints, and its notes. What it prints and refuses is proved."""

import json

from support.builders import image, version
from support.commands import make_manifest
from support.files import EXAMPLES, ONE, read
from support.flashes import flash_of
from support.printed import OF_ABC, note_lines
from support.program import ProgramTest
from support.stories import IMAGES, UPLOADED, flash_in, new_device, run_of

NEEDING, PARTNER = f"{EXAMPLES}/images/needing.img", f"{EXAMPLES}/images/partner.img"
NO_IMAGE = note_lines(b"abc is no intact image: 1 Short")
BOTH_KINDS = note_lines(b"a boot tries these images as a set: those of --permanent revert too unless each is confirmed")


class MakeManifestTest(ProgramTest):
    def test_text_of_a_manifest(self):
        self.file("abc", b"abc")
        self.assertEqual((0, OF_ABC, NO_IMAGE), self.run_program(make_manifest("--permanent=1=abc", sequence=7)))

    def test_manifest_of_the_example(self):
        status, out, err = self.run_program(make_manifest(f"--test=0={NEEDING}", f"--test=1={PARTNER}"))
        value = json.loads(read(f"{EXAMPLES}/manifests/trial.json"))
        self.assertEqual((0, value, b""), (status, json.loads(out), err))


# The notes on the state of a device.
TRYING = note_lines(b"a set of images is on trial: the device takes no uploads until a boot ends the trial")
LOWER = "note: the device accepted a manifest of sequence number %d, and refuses a lower one\n"

# Events that request image 0, and events that raise its floor to 5.
FIRST_COMES = "boot, accept first.json, piece 0 needing.img, finish 0"
FLOOR_RAISED = "boot, accept patched.json, piece 0 patched.img, finish 0, boot"


def own_note(name, number):
    """The note on a file whose image needs the image that it is."""
    text = f"{name} is for image {number} and needs image {number}, which is itself: it may be the file of another"
    return note_lines(f"{text} image".encode())


def refused_note(number, reason):
    """The note for an image that the next boot of the flash would refuse."""
    return note_lines(f"a boot would refuse image {number}: {reason}".encode())


def on(number, major=1):
    """The entry of a dependency on an image from a version on."""
    return 0x40, bytes([number, 0, 0, 0, major, 0, 0, 0, 0, 0, 0, 0])


def one_of(*numbers):
    """The entry of a group of images, each from version 1.0.0+0 on."""
    return 0xA0, b"".join(on(it)[1] for it in numbers)


# What image 0 of two needs, whether it needs this image, and why no boot can take it.
NEVER_TAKEN = [
    ([on(2)], False, "no-such-image 2"),
    ([on(1), on(255), on(2)], False, "no-such-image 255"),
    ([on(0, 3)], True, "needs 0 3.0.0+0"),
    ([one_of(1, 0), one_of(2, 7)], True, "needs-one 2 1.0.0+0 7 1.0.0+0"),
    ([on(0, 2)], True, None),
    ([on(1, 255)], False, None),
    ([one_of(2, 1)], False, None),
]

# Requests on the flash of a device, files that could come next, and the notes for them.
NEXT_BOOTS = [
    ("", ["--test=0=needing.img"], refused_note(0, "needs 1 2.0.0+0")),
    ("", ["--test=0=needing.img", "--permanent=1=partner.img"], BOTH_KINDS),
    ("", ["--permanent=0=needing.img", "--permanent=1=partner.img"], b""),
    ("", ["--test=0=older.img"], refused_note(0, "older")),
    ("", ["--test=0=abc"], NO_IMAGE),
    (f"{FIRST_COMES}, accept second.json", ["--test=1=partner.img"], b""),
    (FIRST_COMES, ["--test=0=one.img"], b""),
    (FLOOR_RAISED, ["--test=0=stale.img"], refused_note(0, "counter")),
    (f"{UPLOADED}, boot", ["--test=0=older.img"], TRYING),
]

# Events, a sequence number, the notes, and the device's reply to the manifest after its next boot.
STATES = [
    ("boot, accept for-good.json", 6, LOWER % 7, "refused upload 1 OldSequence"),
    ("boot, accept for-good.json", 7, "", "done"),
    (f"{UPLOADED}, boot", 1, TRYING.decode(), "refused upload 8 WrongPrecursor"),
    (f"{UPLOADED}, boot", 0, LOWER % 1 + TRYING.decode(), "refused upload 1 OldSequence"),
    (f"{UPLOADED}, boot, confirm 0, confirm 1", 1, TRYING.decode(), "done"),
    (f"{UPLOADED}, boot, boot", 1, "", "done"),
]


class NoteTest(ProgramTest):
    """Notes on files that a device won't take."""

    def notes(self, *options, **how):
        """Returns the notes of a run that prints a manifest."""
        status, out, err = self.run_program(make_manifest(*options, **how))
        self.assertEqual((0, b"{"), (status, out[:1]))
        self.file("made.json", out)
        return err

    def test_file_that_does_not_fit_or_is_damaged(self):
        self.file("full", image([], body=952 * b"x"))
        self.file("more", image([], body=953 * b"x"))
        self.file("changed\n", read(ONE)[:-1] + b"x")
        self.assertEqual(b"", self.notes("--test=0=full"))
        self.assertEqual(note_lines(b"more has 1025 bytes, and the slots of image 0 1024"), self.notes("--test=0=more"))
        self.assertEqual(note_lines(b"changed\\n is no intact image: 10 BadDigest"), self.notes("--test=0=changed\n"))
        with open("/dev/full", "wb") as full:
            self.assertEqual(1, self.run_program(make_manifest("--test=0=more"), stderr=full)[0])

    def test_image_that_no_boot_takes(self):
        """It is noted once, with a flash and without one."""
        flash_of(self)
        for needs, is_own, reason in NEVER_TAKEN:
            with self.subTest(f"{needs}"):
                self.file("one", image(needs, own=version(2)))
                wanted = (own_note("one", 0) if is_own else b"") + (refused_note(0, reason) if reason else b"")
                self.assertEqual(wanted, self.notes("--test=0=one"))
                if reason:
                    self.assertEqual(wanted, self.notes("--test=0=one", "--precursor=flash"))

    def test_file_of_another_image(self):
        new_device(self)
        for options, note in [
            (("--test=0=partner.img", "--test=1=needing.img"), own_note("partner.img", 0) + own_note("needing.img", 1)),
            (("--test=0=needing.img", "--test=1=partner.img"), b""),
        ]:
            self.assertEqual(note, self.notes(*options))
            self.assertEqual(note, self.notes(*options, "--precursor=flash"))
        # What runs doesn't fit, so nothing is said of the next boot.
        self.file("flash", IMAGES["needing.img"] + flash_in(self)[96:])
        self.assertEqual(own_note("needing.img", 1), self.notes("--test=1=needing.img", "--precursor=flash"))

    def test_next_boot(self):
        """With a flash it is noted which files the next boot would refuse, and why. Without one nothing is."""
        for events, options, note in NEXT_BOOTS:
            with self.subTest(f"{events}: {' '.join(options)}"):
                new_device(self)
                self.file("older.img", image([], own=version(0, 9)))
                if events:
                    self.assertEqual(0, run_of(self, events)[0])
                self.assertEqual(note, self.notes(*options, "--precursor=flash", sequence=9))
                self.assertEqual(note if note in (NO_IMAGE, BOTH_KINDS) else b"", self.notes(*options, sequence=9))

    def test_state_of_the_device(self):
        """With a flash it is noted that its device accepted a higher sequence number, and that it is on trial. The
        device replies as the note says."""
        for events, sequence, notes, reply in STATES:
            with self.subTest(f"{sequence} after {events}"):
                new_device(self)
                run_of(self, events)
                self.assertEqual(b"", self.notes("--test=0=newer.img", sequence=sequence))
                got = self.notes("--test=0=newer.img", "--precursor=flash", sequence=sequence)
                self.assertEqual(notes.encode(), got)
                out = run_of(self, "boot, accept made.json")[1]
                self.assertEqual(f"2 {reply}", out.decode().splitlines()[-1])

    def test_both_kinds(self):
        """It is noted if a test image and a permanent one come together, though neither needs the other."""
        for at in (0, 1):
            self.file(f"new{at}", image([], own=version(2, at)))
        for kinds, note in [("permanent test", BOTH_KINDS), ("permanent permanent", b""), ("test test", b"")]:
            files = [f"--{kind}={at}=new{at}" for at, kind in enumerate(kinds.split())]
            self.assertEqual(note, self.notes(*files), kinds)
