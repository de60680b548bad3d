"""Makes the manual pages that the program doesn't print, by pandoc: bootswap-formats(5) from docs/FORMATS.md, and libbootswap(3)
from the comments and declarations of the headers."""

import re
import shutil
import subprocess
import textwrap

from builder import ROOT, text_of

# The headers, and the sections that they are in libbootswap(3).
HEADERS = {
    "bootswap.h": "Description",
    "bootswap_simulate.h": "Simulation",
    "bootswap_manifest.h": "Manifests",
    "bootswap_names.h": "Names",
}

# How many columns a line of code has, in a terminal of 80 columns.
COLUMNS = 69

FORMATS = """## Description
{text}

## See also

**bootswap**(1), **libbootswap**(3)

The documents that this page names are in the folder share/doc/bootswap/docs of an installation. On Debian this is
/usr/share/doc/bootswap/docs, of the package bootswap-doc.
"""

LIBRARY = """## Synopsis

```
{includes}

cc program.c $(pkg-config --cflags --libs bootswap)
```

{text}

## See also

**bootswap**(1), **pkg-config**(1), **bootswap-formats**(5)

The documents that this page names are in the folder share/doc/bootswap of an installation. On Debian this is
/usr/share/doc/bootswap, of the package bootswap-doc. The files of bindings/c are among the examples.
"""

# The head of a page. Words stay whole and lines unstretched, so that what is printed can be found and copied.
HEAD = """'\\" t
.TH {title} {section} {day} "bootswap {version}"
.nh
.ad l
.SH NAME
{name} \\- {about}
"""

# What declares nothing for a user of a header: its guards, includes, and what only C++ reads. And the body of a call.
SKIPPED = re.compile(r"^#ifdef __cplusplus\n(?:.*\n)*?#endif\n|^#(?:ifndef|include|endif|define \w+_H$).*\n", re.MULTILINE)
BODY = re.compile(r"(?<=\)) \{\n(?:.*\n)*?\}", re.MULTILINE)


class NoPandoc(Exception):
    """There is nothing to make the pages with."""

    def __init__(self):
        super().__init__("pandoc, which makes bootswap-formats(5) and libbootswap(3), isn't installed")


def formats_page(day, version):
    """Returns the page of the formats, which has this date."""
    _, _, text = text_of(f"{ROOT}/docs/FORMATS.md").partition("\n")
    return page("bootswap-formats", 5, "formats of the files and outputs of bootswap", FORMATS.format(text=text), (day, version))


def library_pages(day, version):
    """Returns the page of the library, which has this date, and for each call one that leads there, by their names."""
    headers = {title: text_of(f"{ROOT}/include/{it}") for it, title in HEADERS.items()}
    includes = "\n".join(f"#include <{it}>" for it in HEADERS)
    sections = "\n\n".join(f"## {title}\n\n{markdown_of(it)}" for title, it in headers.items())
    calls = re.findall(r"^\w[\w ]+ \*?(bootswap_\w+)\(", "".join(headers.values()), re.MULTILINE)
    text = LIBRARY.format(includes=includes, text=sections)
    own = page("libbootswap", 3, "bootloader core and updater for C", text, (day, version))
    return {"libbootswap": own, **{it: ".so man3/libbootswap.3\n" for it in calls}}


def page(name, section, about, text, origin):
    """Returns a document as a manual page."""
    if not shutil.which("pandoc"):
        raise NoPandoc
    words = ["pandoc", "--from=gfm", "--to=man", "--shift-heading-level-by=-1", f"--lua-filter={ROOT}/tools/manual_page.lua"]
    body = subprocess.run(words, input=text, capture_output=True, text=True, check=True).stdout
    title, (day, version) = name.upper(), origin
    head = HEAD.format(title=title, section=section, day=day, version=version, name=name, about=about)
    # A table may be on several pages of paper.
    body = body.replace("\ntab(", "\nnokeep tab(")
    return head + re.sub(r"(^\.S[HS] .*\n)\.PP\n", r"\1", body, flags=re.MULTILINE)


def markdown_of(header):
    """Returns a header as Markdown: its comments, and each declaration below its comment as code."""
    _, *parts = re.split(r"^/\*((?:.*\n)*?.*?)\*/\n", SKIPPED.sub("", header), flags=re.MULTILINE)
    blocks = []
    for comment, code in zip(parts[::2], parts[1::2]):
        names = re.findall(r"^(?:enum|struct) \w+(?= \{)|\bbootswap_\w+(?=\()", code, re.MULTILINE)
        blocks += [f"### {it}" for it in names[:1]]
        # The first space after the mark of a line belongs to the mark, but for code, which four indent in Markdown.
        blocks.append(re.sub(r"^ \*(?:(?=   )| ?)", "", comment, flags=re.MULTILINE).strip())
        blocks += [f"```\n{listing(code)}\n```"] * bool(code.strip())
    return "\n\n".join(blocks)


def listing(code):
    """Returns declarations whose lines fit a terminal. A comment at the end of a line is above that line."""
    text = re.sub(r"\s*\\\n\s*|(?<=,)\n +", " ", BODY.sub(";", code.strip()))
    text = re.sub(r"/\*.*?\*/", lambda it: " ".join(it[0].split()), text, flags=re.DOTALL)
    lines = []
    for line in text.splitlines():
        space, declared, comment = re.fullmatch(r"( *)(.*?)(?: *(/\*.*))?", line).groups()
        for part, further in ((comment or "", "   "), (declared, "    ")):
            indents = {"initial_indent": space, "subsequent_indent": f"{space}{further}"}
            lines += textwrap.wrap(part, COLUMNS, break_long_words=False, break_on_hyphens=False, **indents)
        lines += [""] * (not line)
    return "\n".join(lines)
