"""Tables of images, as text."""


def text_of(lines):
    """The bytes of a text whose lines are separated by a comma and a space."""
    return "".join(f"{it}\n" for it in lines.split(", ")).encode()


# The greatest version, and the one before it.
GREATEST, ALMOST = "255.255.65535+4294967295", "255.255.65535+4294967294"
