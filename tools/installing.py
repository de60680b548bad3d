"""What an installation has, where each file is, and how it is put there and taken away.

`tools/install`, `tools/uninstall` and `tools/package` use this. Places are below a prefix, such as /usr/local.
"""

import contextlib
import glob
import os
import re
import shutil
import subprocess
import sys
from typing import NamedTuple, Optional

from arguments import parser_of
from builder import OUT, ROOT, text_of
from manual_pages import formats_page, library_pages

# The list of what was installed, one place a line. A folder that the installation made ends with a slash.
LIST = "share/bootswap/installed"

# The name of the file with the commit of what is packed, beside the documents.
COMMIT = "commit"

# Where each shell looks for completions.
COMPLETIONS = {
    "bash": "share/bash-completion/completions/bootswap",
    "zsh": "share/zsh/vendor-completions/_bootswap",
    "fish": "share/fish/vendor_completions.d/bootswap.fish",
}

# Where the documents and the examples are, those of bindings/c among them.
DOCUMENTS = "share/doc/bootswap"
EXAMPLES = f"{DOCUMENTS}/examples"

# What distributions ask of a C compiler: checks of the stack and of lengths, and no table of calls that can be written. A
# compiler that checks lengths by default would complain of another level.
HARDENED = ["-O2", "-fstack-protector-strong", "-U_FORTIFY_SOURCE", "-D_FORTIFY_SOURCE=2", "-Wl,-z,relro,-z,now"]

PKG_CONFIG = """prefix={prefix}
includedir=${{prefix}}/include
libdir=${{prefix}}/{libraries}

Name: bootswap
Description: Bootloader core that upgrades images which depend on each other as one transaction
Version: {version}
Cflags: -I${{includedir}}
Libs: -L${{libdir}} -lbootswap
"""

CMAKE = """# The library of bootswap.h: bootswap::bootswap is the shared one, bootswap::static the static one.
get_filename_component(bootswap_libraries "${{CMAKE_CURRENT_LIST_DIR}}/../.." ABSOLUTE)
get_filename_component(bootswap_include "${{bootswap_libraries}}/{to_prefix}/include" ABSOLUTE)
if(NOT TARGET bootswap::bootswap)
    add_library(bootswap::bootswap SHARED IMPORTED)
    set_target_properties(bootswap::bootswap PROPERTIES
        IMPORTED_LOCATION "${{bootswap_libraries}}/libbootswap.so.{version}"
        IMPORTED_SONAME "libbootswap.so.{major}"
        INTERFACE_INCLUDE_DIRECTORIES "${{bootswap_include}}")
    add_library(bootswap::static STATIC IMPORTED)
    set_target_properties(bootswap::static PROPERTIES
        IMPORTED_LOCATION "${{bootswap_libraries}}/libbootswap.a"
        INTERFACE_INCLUDE_DIRECTORIES "${{bootswap_include}}")
endif()
unset(bootswap_include)
unset(bootswap_libraries)
"""

CMAKE_VERSION = """set(PACKAGE_VERSION "{version}")
if(PACKAGE_FIND_VERSION VERSION_EQUAL PACKAGE_VERSION)
    set(PACKAGE_VERSION_EXACT TRUE)
endif()
if(PACKAGE_FIND_VERSION VERSION_LESS_EQUAL PACKAGE_VERSION AND PACKAGE_FIND_VERSION_MAJOR EQUAL {major})
    set(PACKAGE_VERSION_COMPATIBLE TRUE)
endif()
"""


class NotInstalled(Exception):
    """Why nothing is installed."""


class Item(NamedTuple):
    """A file of an installation: a copy of a file, a text, bytes, or a link."""

    place: str
    source: Optional[str] = None
    text: Optional[str] = None
    contents: Optional[bytes] = None
    link: Optional[str] = None
    mode: int = 0o644


def version():
    """Returns the version, as the header of the library has it."""
    return re.search(r'#define BOOTSWAP_VERSION "(.*)"', text_of(f"{ROOT}/include/bootswap.h"))[1]


def major():
    return version().partition(".")[0]


def share(archives, shared):
    """Makes a shared library of everything in static ones, and of the memory for manifests. Returns whether it
    succeeded."""
    words = ["cc", *HARDENED, "-shared", "-fPIC", "-s", f"-Wl,-soname,libbootswap.so.{major()}", "-o", shared]
    words += ["-I", f"{ROOT}/include", f"{ROOT}/bindings/c/manifest.c"]
    return subprocess.run([*words, "-Wl,--whole-archive", *archives, "-Wl,--no-whole-archive"]).returncode == 0


def items(prefix, libraries, python, program, archives, shared):
    """Returns the files of an installation below a prefix: the program, the static libraries and the shared one in a folder, the
    module of Python in another, the documents, and what belongs to them. The pages that pandoc makes are `page_items`."""
    library = [*shared_items(libraries, shared), *library_items(prefix, libraries, archives)]
    return [*program_items(program), *library, *python_items(python), *document_items()]


def page_items(program):
    """Returns the manual pages that the program doesn't print. They have the date of those that it prints."""
    day = day_of(program)
    library = [Item(f"share/man/man3/{name}.3", text=text) for name, text in library_pages(day, version()).items()]
    return [Item("share/man/man5/bootswap-formats.5", text=formats_page(day, version())), *library]


def program_items(program):
    """Returns the files of the program: itself, its manual pages and completions, which it prints, its licence, and the
    examples."""
    commands = [[], *([it] for it in commands_of(program))]
    pages = {"-".join(["bootswap", *words]): ["help", "man", *words] for words in commands}
    return [
        Item("bin/bootswap", program, mode=0o755),
        *(Item(f"share/man/man1/{name}.1", contents=printed(program, words)) for name, words in pages.items()),
        *(Item(place, contents=printed(program, ["help", "completions", it])) for it, place in COMPLETIONS.items()),
        Item(f"{DOCUMENTS}/LICENSE", f"{ROOT}/LICENSE"),
        *copies(f"{ROOT}/examples", EXAMPLES),
    ]


def document_items():
    """Returns the documents, which the manual pages name. Their links to each other lead to the same places as in the
    repository."""
    top = [Item(f"{DOCUMENTS}/{it}", f"{ROOT}/{it}") for it in ("README.md", "CHANGELOG.md")]
    return [*top, *copies(f"{ROOT}/docs", f"{DOCUMENTS}/docs")]


def commands_of(program):
    """Returns the commands of a program that have a manual page, as its help lists them."""
    listed = printed(program, ["--help"]).decode().partition("\nCommands:\n")[2].partition("\n\n")[0]
    return [it for it in re.findall(r"^  (\S+)  ", listed, re.MULTILINE) if it != "help"]


def printed(program, words):
    """Returns what a program prints."""
    done = subprocess.run([program, *words], stdin=subprocess.DEVNULL, capture_output=True)
    if done.returncode:
        raise NotInstalled(f"{program} {' '.join(words)} failed")
    return done.stdout


def day_of(program):
    """Returns the date that the manual pages of a program have: the day of its release."""
    found = re.match(r"\.TH \S+ 1 (\d{4}-\d\d-\d\d) ", printed(program, ["help", "man"]).decode())
    if not found:
        raise NotInstalled(f"{program} prints no manual page with a date")
    return found[1]


def shared_items(libraries, shared):
    """Returns the files that a program needs which is linked with the shared library, in the folder of libraries."""
    full = f"libbootswap.so.{version()}"
    return [Item(f"{libraries}/{full}", shared), Item(f"{libraries}/libbootswap.so.{major()}", link=full)]


def library_items(prefix, libraries, archives):
    """Returns the files that one needs to compile and link a C program, with the folder of libraries below a prefix."""
    to_prefix = "/".join(".." for _ in libraries.split("/"))
    names = {"prefix": prefix, "libraries": libraries, "to_prefix": to_prefix, "version": version(), "major": major()}
    return [
        *(Item(f"include/{it}", f"{ROOT}/include/{it}") for it in sorted(os.listdir(f"{ROOT}/include"))),
        *(Item(f"{libraries}/{os.path.basename(it)}", it) for it in archives),
        Item(f"{libraries}/libbootswap.so", link=f"libbootswap.so.{version()}"),
        Item(f"{libraries}/pkgconfig/bootswap.pc", text=PKG_CONFIG.format(**names)),
        Item(f"{libraries}/cmake/bootswap/bootswap-config.cmake", text=CMAKE.format(**names)),
        Item(f"{libraries}/cmake/bootswap/bootswap-config-version.cmake", text=CMAKE_VERSION.format(**names)),
        *copies(f"{ROOT}/bindings/c", f"{EXAMPLES}/c"),
    ]


def python_items(folder):
    """Returns the file of the module of Python, in a folder below the prefix."""
    return [Item(f"{folder}/bootswap.py", f"{ROOT}/bindings/python/bootswap.py")]


def copies(folder, place):
    """Yields the files of a folder of the repository, below a place."""
    for at, folders, names in os.walk(folder):
        folders[:] = sorted(it for it in folders if it != "__pycache__")
        for name in sorted(names):
            file = f"{at}/{name}"
            mode = 0o755 if os.access(file, os.X_OK) else 0o644
            yield Item(f"{place}/{os.path.relpath(file, folder)}", file, mode=mode)


def python_folder(prefix):
    """Returns where this Python looks for modules below a prefix, or where Debian's does, if it looks nowhere there."""
    below = [it for it in sys.path if it.startswith(f"{prefix}/lib/") and it.endswith("-packages")]
    return os.path.relpath(below[0], prefix) if below else "lib/python3/dist-packages"


def install(top, every):
    """Puts files below a folder, which stands for the prefix. What an earlier installation put there is removed first.

    The list of them is written first, so that an installation that failed can be removed too.
    """
    uninstall(top)
    every = sorted([*every, Item(LIST)], key=lambda it: it.place)
    folders = sorted({it for item in every for it in folders_to(top, item.place)})
    places = [*folders, *(it.place for it in every)]
    with usual_modes():
        for item in [Item(LIST, text="".join(f"{it}\n" for it in places)), *(it for it in every if it.place != LIST)]:
            os.makedirs(os.path.dirname(f"{top}/{item.place}"), exist_ok=True)
            put(f"{top}/{item.place}", item)


@contextlib.contextmanager
def usual_modes():
    """Lets everybody use new folders, whatever the umask of the caller is."""
    before = os.umask(0o022)
    try:
        yield
    finally:
        os.umask(before)


def folders_to(top, place):
    """Yields the folders to a place that aren't there yet, each with a slash at its end."""
    parts = place.split("/")[:-1]
    for number in range(len(parts)):
        folder = "/".join(parts[: number + 1])
        if not os.path.isdir(f"{top}/{folder}"):
            yield f"{folder}/"


def put(file, item):
    """Puts one file where it belongs. What was there is replaced."""
    if os.path.lexists(file):
        os.remove(file)
    if item.link:
        os.symlink(item.link, file)
        return
    if item.source:
        shutil.copyfile(item.source, file)
    else:
        with open(file, "wb") as it:
            it.write(item.contents if item.text is None else item.text.encode())
    os.chmod(file, item.mode)


def uninstall(top):
    """Removes what the list names: its files, what Python compiled of them, and those of its folders that are empty then.
    Returns whether there was a list.

    The list is the last file, so that an uninstallation that failed can be repeated.
    """
    places = (text_of(f"{top}/{LIST}") or "").splitlines()
    for place in places:
        if place != LIST and not place.endswith("/"):
            with_no_fault(os.remove, f"{top}/{place}")
            remove_compiled(f"{top}/{place}")
    remove_folders(top, places)
    if places:
        with_no_fault(os.remove, f"{top}/{LIST}")
        remove_folders(top, places)
    return bool(places)


def remove_folders(top, places):
    """Removes the folders among these places that are empty."""
    for place in reversed(places):
        if place.endswith("/"):
            with_no_fault(os.rmdir, f"{top}/{place}")


def remove_compiled(file):
    """Removes what Python compiled of a file, and the folder of that if it is empty then."""
    folder, name = os.path.split(file)
    if name.endswith(".py"):
        for it in glob.glob(f"{glob.escape(folder)}/__pycache__/{glob.escape(name[:-3])}.*.pyc"):
            with_no_fault(os.remove, it)
        with_no_fault(os.rmdir, f"{folder}/__pycache__")


def with_no_fault(remove, path):
    """Removes a file, or a folder if it is empty. What is gone already, or isn't empty, stays so."""
    try:
        remove(path)
    except FileNotFoundError:
        pass
    except OSError:
        if remove is not os.rmdir:
            raise


def built(name, how):
    """Returns a file that was built in out/, or says how to build it."""
    file = f"{OUT}/{name}"
    if not os.path.isfile(file):
        raise NotInstalled(f"out/{name} isn't built: run {how}")
    return file


def given_folders(words, about):
    """Returns the folders that the arguments name."""
    parser = parser_of(about)
    parser.add_argument("--prefix", metavar="DIR", default="/usr/local", help="where to install (default: /usr/local)")
    parser.add_argument("--libdir", metavar="DIR", default="lib", help="where libraries are below that (default: lib)")
    parser.add_argument("--destdir", metavar="DIR", default="", help="a folder that stands for the root of the system")
    given = parser.parse_args(words)
    if not os.path.isabs(given.prefix):
        parser.error("--prefix has to begin with /")
    given.prefix = os.path.normpath(given.prefix)
    return given


def built_libraries(folder="", how="bindings/build"):
    """Returns the static libraries that were built in a folder of out/, or says how to build them."""
    return [built(f"{folder}{it}", how) for it in ("libbootswap.a", "libbootswap_manifest.a")]
