"""What devices reply to events, worked by hand: requests, trials, uploads, cuts and damaged images.

Each row is a new device and its steps. The examples' scripts have more trials.
"""

from support.builders import component, image, little, manifest, version
from support.files import PAIR
from support.flashes import FLAG
from support.images import OF_ONE
from support.program import ProgramTest
from support.stories import (
    IMAGES, PATIENT, STAYED, THREE, UPGRADE, UPLOAD_REPLIES, UPLOADED, WAITS, digest_of, flash_in, manifest_of,
    new_device, run_of, state
)
from support.worked import BACK, NO_SESSION, NO_TRIAL, NOT_UP, NOTHING_REQUESTED, PLAIN, TRIED, ended

ON_TRIAL, TRYING = "refused boot 2 OnTrial", [*UPLOAD_REPLIES, TRIED]
OLD_SEQUENCE, TOO_BIG = "refused upload 1 OldSequence", "refused upload 2 TooBig"
PIECES = "piece 0 needing.img, piece 1 partner.img, finish 0, finish 1"
OF_THREE, RUNS_PATCHED = "plain|run 0 1.0.0+0|run 1 1.1.0+0|run 2 1.0.0+0", "plain|run 0 1.1.0+0|run 1 1.0.0+0"

# Where the secondary slots of the device of two images begin, and what a part of them holds that is erased.
FIRST_SLOT, SECOND_SLOT, ERASED = 3072, 4608, 16 * b"\xff"
NEEDING = IMAGES["needing.img"]


def of_sizes(sequence, *sizes, **more):
    """A manifest of this sequence number for files of these sizes, for images 0, 1 and so on."""
    parts = [component(component_id=at, size=it, **more) for at, it in enumerate(sizes)]
    return manifest(sequence_number=sequence, components=parts)


def of_file(whole, **more):
    """A manifest for this file, for image 0."""
    return of_sizes(1, len(whole), payload_digest=digest_of(whole), **more)


# The files that the devices receive beside those of stories.py, and the replies to the `finish` of an upload.
FILES = {
    "whole.json": of_sizes(1, 1024),
    "long.json": of_sizes(2, 1025),
    "old-long.json": of_sizes(0, 1025),
    "second-long.json": of_sizes(2, 96, 1025),
    "partner.json": manifest_of(1, "1 test partner.img"),
    "right.json": of_file(NEEDING, precursor_digest=OF_ONE),
    "wrong.json": of_file(NEEDING, precursor_digest=f"{OF_ONE[:-1]}d"),
}
LETTERS = {count: image([], count * b"A", own=version(1)) for count in (214, 218, 952, 953)}
FINISHED = {
    "a counter": (IMAGES["counted.img"], "done"),
    "two images": (IMAGES["one.img"] + IMAGES["counted.img"], "refused upload 7 NotAnImage 13"),
    "a digest across byte 256": (LETTERS[214], "done"),
    "an entry across byte 256": (LETTERS[218], "done"),
    "a full slot": (LETTERS[952], "done"),
    "an image without its last byte": (LETTERS[953][:1024], "refused upload 7 NotAnImage 5"),
}
SEQUENCE_7 = state("steady", "-", 7, [0, 0], "none none")
REVERTS = state("trial", "0 1", 1, [0, 0], "revert revert")
REVERTS_LATER = state("trial", "0 1", 1, [0, 0], "revert revert", left=2)


def damaged(at, byte=b"@"):
    """A step: a byte of the flash is another one."""
    return lambda test: test.file("flash", flash_in(test)[:at] + byte + flash_in(test)[at + 1 :])


# Rows: what one shows, the device, and its steps. These are events with their replies, what `show` prints, bytes of the
# flash by their places, and changes.
ROWS = [
    ("a set on trial", PAIR, (f"{UPGRADE}, accept trial.json", [*TRYING, ON_TRIAL]), REVERTS, {1488: little(96, 8)}),
    ("a confirmed set stays after the next boot", PAIR, (
        f"{UPGRADE}, accept other.json, piece 0 abc, finish 0, withdraw 0, confirm 2, confirm 1, confirm 1, confirm 0,"
        " accept trial.json, boot, confirm 0, accept other.json, boot",
        [*TRYING, *4 * [ON_TRIAL], NO_TRIAL, *3 * ["done"], ON_TRIAL, STAYED, NO_TRIAL, "refused manifest 2 BadKey",
         STAYED],
    )),
    ("two of three images are tried, and revert", THREE, (
        "boot, accept two-of-three.json, piece 0 newer.img, piece 2 newer.img, finish 0, finish 2, boot, confirm 0,"
        " reset, confirm 0, boot, withdraw 0, boot",
        [OF_THREE, *5 * ["done"], "trial|take 0 2.0.0+0|run 1 1.1.0+0|take 2 2.0.0+0", "done", "done", NOT_UP,
         "reverted 0 2", NOTHING_REQUESTED, OF_THREE],
    )),
    ("a cut in the first write of a manifest", PAIR, (
        "cut 1 hex:00, boot, accept trial.json, piece 0 needing.img, boot", [PLAIN, "cut", NOT_UP, PLAIN]
    )),
    ("a sequence is accepted again, and a lower one isn't", PAIR, (
        "cut 7 keep, boot, accept trial.json, piece 0 needing.img, piece 1 partner.img, finish 1, boot,"
        " accept trial.json, accept old.json", [PLAIN, *3 * ["done"], "cut", PLAIN, "done", OLD_SEQUENCE],
    )),
    ("permanent requests are taken without a trial", PAIR, (
        f"boot, accept for-good.json, {PIECES}, boot, boot",
        [*UPLOAD_REPLIES, "permanent|take 0 2.0.0+0|take 1 2.0.0+0", STAYED],
    ), SEQUENCE_7),
    *((f"a test beside a permanent request: {it}", PAIR, (
        f"boot, accept {it}-for-good.json, {PIECES}, boot, boot", [*TRYING, BACK]
    )) for it in ("first", "second")),
    ("a request waits for the image that it needs", PAIR, (
        "boot, accept first.json, piece 0 needing.img, finish 0, boot, accept second.json, piece 1 partner.img,"
        " finish 1, boot", [PLAIN, *3 * ["done"], WAITS, *3 * ["done"], TRIED],
    )),
    ("two requests are shown", PAIR, (
        f"boot, accept second-for-good.json, {PIECES}", UPLOAD_REPLIES
    ), state("steady", "-", 7, [0, 0], "test perm")),
    ("a request is withdrawn", PAIR, (
        f"{UPLOADED}, withdraw 1, withdraw 1, boot", [*UPLOAD_REPLIES, "done", NOTHING_REQUESTED, WAITS]
    ), state("steady", "-", 1, [0, 0], "test none")),
    ("a request below the floor", PAIR, (
        "boot, accept patched.json, piece 0 patched.img, finish 0, boot",
        [PLAIN, *3 * ["done"], "permanent|take 0 1.1.0+0|run 1 1.0.0+0"],
    ), state("steady", "-", 1, [5, 0], "none none"), (
        "boot, accept stale.json, piece 0 stale.img, finish 0, boot",
        [RUNS_PATCHED, *3 * ["done"], f"{RUNS_PATCHED}|refuse 0 counter"],
    ), state("steady", "-", 2, [5, 0], "test none")),
    ("a trial of three boots reverts", PATIENT, (UPGRADE, TRYING), REVERTS_LATER, {
        6912: bytes.fromhex("0403000201000000") + bytes(48) + FLAG
    }, ("boot, boot, boot, boot", ["trial-again 0 1 left 1", "trial-again 0 1 left 0", BACK, PLAIN])),
    ("a trial of three boots is confirmed in parts", PATIENT, (
        f"{UPGRADE}, confirm 0, boot, confirm 1, boot", [*TRYING, "done", "trial-again 0 1 left 1", "done", STAYED]
    )),
    # An upload holds bytes back until their unit is complete.
    ("pieces of two images in turn", PAIR, (
        "boot, accept trial.json, piece 0 needing.img 0 5, piece 1 partner.img 0 1", [PLAIN, *3 * ["done"]]
    ), {FIRST_SLOT: ERASED, SECOND_SLOT: ERASED}, (
        "boot, accept trial.json, piece 0 needing.img 0 5, piece 1 partner.img 0 1, piece 0 needing.img 5 11, "
        "piece 1 partner.img 1 95, piece 0 needing.img 16 80, finish 1, finish 0, boot", [PLAIN, *8 * ["done"], TRIED]
    )),
    ("a refused manifest leaves uploads open", PAIR, (
        "boot, accept whole.json, piece 0 needing.img 0 5, accept long.json, accept old-long.json,"
        " accept second-long.json, accept partner.json, piece 0 needing.img 5 11",
        [PLAIN, "done", "done", TOO_BIG, OLD_SEQUENCE, TOO_BIG, "done", "done"],
    ), {FIRST_SLOT: NEEDING[:16] + ERASED}),
    ("an upload of the same image begins again", PAIR, (
        "boot, accept whole.json, piece 0 needing.img 0 11, accept whole.json, piece 0 slot.img, piece 0 abc 0 1,"
        " finish 0",
        [PLAIN, *4 * ["done"], "refused upload 4 TooMuch", NO_SESSION],
    ), {FIRST_SLOT: 1024 * b"Z" + ERASED}),
    ("refused uploads are closed", PAIR, (
        "boot, accept text.json, piece 0 abc, finish 0, finish 0, accept text.json, piece 0 abd, finish 0,"
        " accept text.json, piece 0 ab, finish 0, accept text.json, piece 0 abcd, finish 0, piece 2 abc, withdraw 2",
        [PLAIN, "done", "done", "refused upload 7 NotAnImage 1", NO_SESSION, "done", "done",
         "refused upload 6 DigestWrong", "done", "done", "refused upload 5 SizeWrong", "done",
         "refused upload 4 TooMuch", NO_SESSION, NO_SESSION, NOTHING_REQUESTED],
    )),
    ("a precursor has to run", PAIR, (
        "boot, accept right.json, accept wrong.json, piece 0 needing.img, finish 0",
        [PLAIN, "done", "refused upload 8 WrongPrecursor", "done", "done"],
    )),
    ("manifests for other devices", PAIR, (
        "boot, accept abc, accept other-vendor.json, accept absent-image.json",
        [PLAIN, *(f"refused manifest {it}" for it in ("1 NotJson", "4 WrongVendor", "6 NoComponent"))],
    )),
    *((f"an upload of {name}", PAIR, lambda test, whole=whole: test.file("own.img", whole), lambda test, whole=whole: (
        test.file("own.json", of_file(whole))
    ), ("boot, accept own.json, piece 0 own.img, finish 0", [PLAIN, "done", "done", reply]))
        for name, (whole, reply) in FINISHED.items()),
    ("a damaged request that another one needs", PAIR, (UPLOADED, UPLOAD_REPLIES), damaged(3104), (
        "boot", [f"{PLAIN}|refuse 0 damaged|refuse 1 needs 0 2.0.0+0"]
    )),
    ("a damaged running image", PAIR, damaged(32), ("boot, finish 0", ["refused boot 5 RunningDamaged 0", NOT_UP])),
    ("a damaged old image of a trial", PAIR, (UPGRADE, TRYING), damaged(3104), (
        "boot, confirm 0, confirm 1, boot", ["trial-again 0 1 left 0", "done", "done", STAYED]
    )),
]


class DeviceTest(ProgramTest):
    def test_rows(self):
        for name, own, *steps in ROWS:
            with self.subTest(name):
                new_device(self, own, ["one.img", "patched.img", "one.img"] if own == THREE else ["one.img", "one.img"])
                for file, contents in FILES.items():
                    self.file(file, contents)
                for step in steps:
                    self.take(step, own)

    def take(self, step, own):
        if callable(step):
            step(self)
        elif isinstance(step, bytes):
            self.assertEqual((0, step, b""), self.run_program(["show", own, "flash"]))
        elif isinstance(step, dict):
            self.assertEqual(step, {at: flash_in(self)[at : at + len(part)] for at, part in step.items()})
        else:
            events, replies = step
            self.assertEqual(ended(replies, int(replies[-1].startswith("refused"))), run_of(self, events, own))
