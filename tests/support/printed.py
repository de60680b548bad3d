"""How runs end, and other texts that several tests expect."""

from support.builders import ABC, CLASS, VENDOR

# Error lines.
CANNOT_MAKE = b"error: flash file\n"
IN_USE = b"error: flash in use\n"


# How a run ends: its status, its output, and its errors.
DONE = (0, b"done\n", b"")


def error(text, status=1):
    return status, b"", f"error: {text}\n".encode()


def refused(text):
    return 1, f"refused {text}\n".encode(), b""


def wrong_usage(fault, usage):
    return error(f"{fault}\n\nUsage: bootswap {usage}\n\nFor more information, try '--help'.", 2)


def note_lines(*lines):
    return b"".join(b"note: %s\n" % it for it in lines)


# The manifest of the file `abc`, byte by byte.
OF_ABC = f"""{{"manifest-version":1,"sequence-number":7,
 "vendor-id":"{VENDOR}",
 "class-id":"{CLASS}",
 "components":[
  {{"component-id":1,"kind":"permanent","size":3,
   "payload-digest":"{ABC}"}}]}}
""".encode()

# The device file of the class `sensor`, byte by byte, and the parts of its flash.
OF_SENSOR = f"""{{"sector":512,"sectors":[2,2],
 "vendor-id":"{VENDOR}",
 "class-id":"9ed1b5d5-f629-5008-93c6-1958ba5b9953"}}
""".encode()
PARTS = b"""slot 0 primary 0 1024
trailer 0 primary 1024 512
slot 1 primary 1536 1024
trailer 1 primary 2560 512
slot 0 secondary 3072 1024
trailer 0 secondary 4096 512
slot 1 secondary 4608 1024
trailer 1 secondary 5632 512
scratch 6144 512
log 6656 1536
largest 0 1024
largest 1 1024
flash 8192
"""
