"""What the board is made of: the bootloader, the images, the manifest of the upgrade, the flash."""

import contextlib
import hashlib
import json
import os
import subprocess
import sys

from files import BOARD, DEVICE, ROOT, read, write
from platforms import STRICT

sys.path.insert(0, f"{ROOT}/examples")

from make_images import image, version


class Missing(Exception):
    """Something that is needed isn't there, or doesn't compile."""


def call(words, folder):
    """Runs a command of the compiler, or of CMake."""
    both = {"stdout": subprocess.PIPE, "stderr": subprocess.STDOUT, "text": True}
    done = subprocess.run(words, cwd=folder, **both)
    if done.returncode:
        raise Missing(f"{' '.join(words)} failed:\n{done.stdout}")


def is_of(made, stamp):
    """Whether a file was made of what a stamp says."""
    are_there = os.path.exists(made) and os.path.exists(f"{made}.stamp")
    return are_there and read(f"{made}.stamp") == stamp


def library_object(platform, folder, library):
    """Returns the file of the library that is linked. One in C is compiled, unless the folder has
    it: that takes 15 seconds."""
    library = os.path.realpath(library)
    if not library.endswith(".c"):
        return library
    words = [*platform.compiler(), *STRICT, f"-I{ROOT}/include", "-c", library]
    headers = [f"{ROOT}/include/{it}" for it in sorted(os.listdir(f"{ROOT}/include"))]
    read_here = [" ".join(words).encode(), *map(read, [library, *headers])]
    stamp = b"\n".join(hashlib.sha256(it).hexdigest().encode() for it in read_here)
    made = f"{folder}/bootswap.o"
    if not is_of(made, stamp):
        call([*words, "-o", made], folder)
        write(f"{made}.stamp", stamp)
    return made


def build_bootloader(platform, folder, library):
    """Compiles the bootloader over the library, and returns the file that QEMU loads."""
    folder, sources = os.path.realpath(folder), platform.sources()
    places = (f"{ROOT}/include", f"{ROOT}/bindings/c", BOARD, f"{BOARD}/{platform.folder}")
    included = [f"-I{it}" for it in places]
    call([*platform.compiler(), *STRICT, *included, "-c", *sources], folder)
    objects = [f"{os.path.splitext(os.path.basename(it))[0]}.o" for it in sources]
    objects.append(library_object(platform, folder, library))
    linked = f"{folder}/bootloader.elf"
    call(platform.link_words(objects, linked), folder)
    return platform.finish(call, linked)


def program(platform, folder, text):
    """Returns the bytes of the tiny program that writes a text."""
    source = f"{BOARD}/{platform.folder}/image.S"
    call([*platform.compiler(), f'-DTEXT="{text}"', "-c", source, "-o", "image.o"], folder)
    linker = [f"{platform.prefix}ld", *platform.linker_flags, f"-Ttext={platform.body_at:#x}"]
    call([*linker, "-e", "image", "-o", "image.elf", "image.o"], folder)
    copier = [f"{platform.prefix}objcopy", "-O", "binary", "-j", ".text"]
    call([*copier, "image.elf", "image.bin"], folder)
    return read(f"{folder}/image.bin")


def make_image(platform, folder, name, number, major):
    """Makes a file of an image. Version 2 needs version 2 of the other one."""
    needs = [(1 - number, version(major, 0))] if major == 2 else []
    body = program(platform, folder, f"image {number} version {major}.0.0")
    write(f"{folder}/{name}{number}.img", image(version(major, 0), needs=needs, body=body))


def make_images(platform, folder):
    """Makes old0.img and old1.img, which run at first, and new0.img and new1.img."""
    for number in (0, 1):
        make_image(platform, folder, "old", number, 1)
        make_image(platform, folder, "new", number, 2)


def build_by_cmake(platform, folder, library):
    """Builds the bootloader and the images by the machine's CMakeLists.txt, over the folder of the
    library, and returns the file that QEMU loads."""
    folder, source = os.path.realpath(folder), f"{BOARD}/{platform.folder}"
    words = [f"-DBOOTSWAP={os.path.dirname(os.path.realpath(library))}"]
    words.append(f"-DCMAKE_TOOLCHAIN_FILE={platform.toolchain}")
    # CMake refuses a folder that it configured for a clone which was moved since.
    with contextlib.suppress(FileNotFoundError):
        os.remove(f"{folder}/CMakeCache.txt")
    call(["cmake", "-S", source, "-B", folder, *words], folder)
    call(["cmake", "--build", folder], folder)
    return f"{folder}/bootloader.elf"


def component(number, file):
    """A component of a manifest, for a test."""
    digest = hashlib.sha256(file).hexdigest()
    sizes = {"size": len(file), "payload-digest": digest}
    return {"component-id": number, "kind": "test", **sizes}


def make_manifest(folder):
    """Makes the manifest of the new images, new.json."""
    device = json.loads(read(DEVICE))
    fields = {"manifest-version": 1, "sequence-number": 1}
    fields.update({key: device[key] for key in ("vendor-id", "class-id")})
    files = [read(f"{folder}/new{it}.img") for it in (0, 1)]
    fields["components"] = [component(*it) for it in enumerate(files)]
    write(f"{folder}/new.json", json.dumps(fields, indent=1).encode())


def slots():
    """Returns where the primary slots begin in the flash."""
    device, places, at = json.loads(read(DEVICE)), [], 0
    for length in device["sectors"]:
        places.append(at)
        at += device["sector"] * (length + 1)
    return places


def make_flash(platform, folder, flash):
    """Makes the file of a flash as a factory programs it: erased, but for the old images."""
    device = json.loads(read(DEVICE))
    sectors = 2 * sum(it + 1 for it in device["sectors"]) + 4
    contents = bytearray(device["sector"] * sectors * b"\xff")
    for number, at in enumerate(slots()):
        file = read(f"{folder}/old{number}.img")
        contents[at : at + len(file)] = file
    platform.write_flash(flash, contents)


def build(platform, folder, library):
    """Makes everything but the flash, and returns the file of the bootloader."""
    missing = platform.missing()
    if missing:
        raise Missing(f"there is no {', and no '.join(missing)}")
    if not os.path.exists(library):
        raise Missing(f"there is no {library}: {platform.builder} makes it")
    os.makedirs(folder, exist_ok=True)
    if platform.toolchain:
        bootloader = build_by_cmake(platform, folder, library)
    else:
        make_images(platform, folder)
        bootloader = build_bootloader(platform, folder, library)
    make_manifest(folder)
    return bootloader
