"""Reading a static library: the format of `ar`."""

from c_file.errors import NotTranslated

MAGIC, HEADER_LENGTH, NAME, SIZE = b"!<arch>\n", 60, slice(0, 16), slice(48, 58)


def members_of(archive):
    """Yields the name and the bytes of each member of an archive, without its index of symbols."""
    if not archive.startswith(MAGIC):
        raise NotTranslated("this is no static library")
    at = len(MAGIC)
    while at < len(archive):
        header = archive[at : at + HEADER_LENGTH]
        if len(header) < HEADER_LENGTH or header[58:] != b"`\n" or not header[SIZE].strip().isdigit():
            raise NotTranslated(f"no member of the static library begins at its byte {at}")
        start, size = at + HEADER_LENGTH, int(header[SIZE])
        name = header[NAME].decode("ascii", "replace").rstrip()
        if name not in ("/", "//", "/SYM64/"):
            yield name.rstrip("/"), archive[start : start + size]
        # A member begins at an even place.
        at = start + size + size % 2


def only_member(archive):
    """Returns the bytes of the only member of an archive."""
    members = [*members_of(archive)]
    if len(members) != 1:
        raise NotTranslated(f"the static library has {len(members)} members, and not one: {[name for name, _ in members]}")
    return members[0][1]
