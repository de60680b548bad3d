"""What the headers of include/ declare, as text."""

import glob
import re

from support.files import ROOT, read

# A declaration of each kind, with its name.
DECLARED = {
    "call": r"^(?:static inline )?(?:const )?\w+ \*?(bootswap_\w+)\(",
    "constant": r"^#define (BOOTSWAP_\w+)(?:\([\w, ]+\))? .",
    "number": r"^    (BOOTSWAP_\w+) = \d+,? ",
    "struct": r"^struct (\w+) \{$",
    "enum": r"^enum (\w+) \{$",
}


def headers():
    """Returns the texts of the headers by their names."""
    return {it.rpartition("/")[2]: read(it).decode() for it in sorted(glob.glob(f"{ROOT}/include/*.h"))}


def declared(kind):
    """Returns the names of all declarations of a kind."""
    return [it for text in headers().values() for it in re.findall(DECLARED[kind], text, re.MULTILINE)]


def comments():
    """Returns the texts of all comments, with one space between two words."""
    found = [it for text in headers().values() for it in re.findall(r"/\*(.*?)\*/", text, re.DOTALL)]
    return [" ".join(re.sub(r"^ \*", "", it, flags=re.MULTILINE).split()) for it in found]


def journal_bounds():
    """Returns the macros BOOTSWAP_JOURNAL_.. of bootswap.h as functions, by the rest of their names."""
    macro, bounds = r"^#define BOOTSWAP_JOURNAL_(\w+)(?:\(([\w, ]+)\))? ((?:.*\\\n)*.*)$", {}
    for name, parameters, body in re.findall(macro, headers()["bootswap.h"], re.MULTILINE):
        body = re.sub(r"\(size_t\)|\\\n|BOOTSWAP_JOURNAL_(?=\w+\()", "", body).replace("/", "//")
        bounds[name] = eval(f"lambda {parameters}: {body.strip()}", bounds)
    return {name: bound for name, bound in bounds.items() if name.isupper()}

