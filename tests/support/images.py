"""What `image` has to print for an image."""

# Another program computed the digests of these images.
OF_ONE = "a3e71cf40711fbfbade5131cd38ef12419ade325218beabf515b5fa1df6d5c8c"


def description(length, digest, own="1.0.0+0", counter=0, needs=()):
    """What `image` prints for an image with these values."""
    lines = [f"version {own}", f"length {length}", f"counter {counter}", f"digest {digest}"]
    return "".join(f"{it}\n" for it in [*lines, *(f"needs {it}" for it in needs)]).encode()


def changed(whole, place, bytes):
    """These bytes with others at a place."""
    return whole[:place] + bytes + whole[place + len(bytes) :]
