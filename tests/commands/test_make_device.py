"""Which device files `make-device` prints, and the parts of their flashes."""

import json
import os
import uuid

from support.builders import ABC, image, manifest
from support.printed import DONE, OF_SENSOR, PARTS, note_lines
from support.program import ProgramTest

# The note before the parts if the vendor's name is empty.
NO_VENDOR = note_lines(
    b"`--vendor` is empty: the vendor ID is made from a domain name, and each device without one has the same"
)

# Devices at the limits of their sizes: sectors, slots, vendors, classes, and boots of a trial.
NEW_DEVICES = [
    (512, [1], "example.com", ""),
    (512, [19], "example.com", "Weather station", 2),
    (512, 8 * [1], "b\u00fccher.example", "a\nb\"c\\", 7),
    (4096, [100, 168, 1], "", "x", 3),
    (131072, [5459, 5459, 5459], "x" * 300, "-", 1),
]


def parts_of(sector, slots):
    """What `make-device` prints about the parts of a flash, from the table of parts in docs/FORMATS.md."""
    named = [
        (f"{part} {number} {side}", count)
        for side in ("primary", "secondary")
        for number, sectors in enumerate(slots)
        for part, count in (("slot", sectors), ("trailer", 1))
    ]
    at, lines = 0, []
    for name, count in [*named, ("scratch", 1), ("log", 3)]:
        lines.append(f"{name} {at} {count * sector}")
        at += count * sector
    lines += [f"largest {number} {sectors * sector}" for number, sectors in enumerate(slots)]
    return "\n".join([*lines, f"flash {at}", ""]).encode()


def make_device(sector, slots, vendor="v", name="c", *boots):
    options = [f"--sector={sector}", f"--slots={','.join(map(str, slots))}", f"--vendor={vendor}", f"--class={name}"]
    return ["make-device", *options, *(f"--trial-boots={it}" for it in boots)]


class MakeDeviceTest(ProgramTest):
    def test_text_of_a_device_file(self):
        self.assertEqual((0, OF_SENSOR, PARTS), self.run_program(make_device(512, [2, 2], "python.org", "sensor")))
        out = OF_SENSOR.replace(b'"}', b'",\n "trial-boots":3}')
        self.assertEqual((0, out, PARTS), self.run_program(make_device(512, [2, 2], "python.org", "sensor", 3)))

    def test_device_files_have_what_was_asked_for(self):
        """`manifest` and `provision` accept them, and a new flash has the bytes that were told."""
        for sector, slots, vendor, name, *boots in NEW_DEVICES:
            with self.subTest(f"{sector} {slots}"):
                status, out, err = self.run_program(make_device(sector, slots, vendor, name, *boots))
                vendor_id = uuid.uuid5(uuid.NAMESPACE_DNS, vendor)
                ids = {"vendor-id": f"{vendor_id}", "class-id": f"{uuid.uuid5(vendor_id, name)}"}
                value = {"sector": sector, "sectors": slots, **ids, **({"trial-boots": boots[0]} if boots else {})}
                self.assertEqual((0, value), (status, json.loads(out)))
                self.assertEqual((b"" if vendor else NO_VENDOR) + parts_of(sector, slots), err)
                made = self.file("made", out)
                sent = self.file("sent", manifest(vendor_id=ids["vendor-id"], class_id=ids["class-id"]))
                listed = f"sequence 1\ncomponent 0 3 test {ABC}\n".encode()
                self.assertEqual((0, listed, b""), self.run_program(["manifest", made, sent]))
                if sector * sum(slots) < 2**24:
                    images = len(slots) * [self.file("one", image([]))]
                    self.assertEqual(DONE, self.run_program(["provision", made, "new", *images]))
                    self.assertEqual(int(err.split()[-1]), os.path.getsize(f"{self.folder}/new"))
                    os.remove(f"{self.folder}/new")
