"""Empty projects that take the library as a maker of firmware does, and boot a device in memory: by CMake from the one file of C,
and by cargo from the crate. `tools/try_packages` and tests make them."""

import os
import shutil
from typing import NamedTuple

HERE = os.path.dirname(os.path.realpath(__file__))

CMAKE = """cmake_minimum_required(VERSION 3.16)
project(in_memory LANGUAGES C)
{found}
add_executable(in_memory in_memory.c)
target_link_libraries(in_memory PRIVATE bootswap::bootswap)
"""

CARGO = """[package]
name = "empty"
version = "0.1.0"
edition = "2021"

[dependencies]
bootswap = {{ path = "{crate}"{features} }}

[workspace]
"""

# The images in the folder examples/images that the programs take: their versions are 1.0.0 and 1.1.0.
IMAGES = ("one.img", "patched.img")

# What in_memory.c prints with them: two boots, or one if it is built without uploads or texts. main.rs prints the second one.
LIVES = "plain\nrun 0 1.0.0+0\npermanent\ntake 0 1.1.0+0\n"
BOOTS = "runs 1.0.0+0\n"


class Check(NamedTuple):
    """A command of the shell, in the folder of the archives, the images and the projects, and what it has to print."""

    name: str
    command: str
    printed: str = ""


def part(folder):
    """Returns how a project of CMake has the library as a part of it."""
    return f'add_subdirectory("{folder}" bootswap)'


def package(version):
    """Returns how a project of CMake finds the installed library."""
    return f"find_package(bootswap {version} CONFIG REQUIRED)"


def write(file, text):
    os.makedirs(os.path.dirname(file), exist_ok=True)
    with open(file, "w", encoding="utf-8") as it:
        it.write(text)


def write_cmake(folder, found):
    """Makes a project of CMake that takes the library so."""
    write(f"{folder}/CMakeLists.txt", CMAKE.format(found=found))
    shutil.copyfile(f"{HERE}/in_memory.c", f"{folder}/in_memory.c")


def write_cargo(folder, crate, features="", main=None):
    """Makes a project of cargo that takes the crate in a folder. Its program is main.rs, or this text."""
    write(f"{folder}/Cargo.toml", CARGO.format(crate=crate, features=features))
    if main is None:
        with open(f"{HERE}/main.rs", encoding="utf-8") as it:
            main = it.read()
    write(f"{folder}/src/main.rs", main)


def quietly(command):
    """Returns a command that prints the output of another one, only if that fails."""
    return f"{{ {command}; }} > log 2>&1 || {{ cat log; echo failed; }}"


def c_archive(version):
    return f"bootswap-{version}-c.tar.xz"


def crate(version):
    return f"bootswap-{version}.crate"


def checks_of_c(folder, version):
    """Makes projects beside the archive of the library as one file of C, and returns the checks of both."""
    top = f"bootswap-{version}-c"
    write_cmake(f"{folder}/part", part(f"../{top}"))
    write_cmake(f"{folder}/installed", package(version))
    install = f"cmake -S {top} -B library -DCMAKE_INSTALL_PREFIX=$PWD/prefix && cmake --build library && cmake --install library"
    images = " ".join(IMAGES)
    return [
        Check(f"{c_archive(version)} is unpacked", f"tar --extract --file {c_archive(version)}"),
        Check("its checksums", f"cd {top} && sha256sum --check --quiet --strict SHA256SUMS"),
        Check("a project of CMake has it as a part", quietly("cmake -S part -B part/build && cmake --build part/build")),
        Check("that project boots a device", f"part/build/in_memory {images}", LIVES),
        Check("it is installed by CMake", quietly(install)),
        Check("a project of CMake finds it", quietly("cmake -S installed -B installed/build -DCMAKE_PREFIX_PATH=$PWD/prefix && "
                                                     "cmake --build installed/build")),
        Check("this project boots a device", f"installed/build/in_memory {images}", LIVES),
    ]


def checks_of_crate(folder, version):
    """Makes a project of cargo beside the crate, and returns the checks of both."""
    top = f"bootswap-{version}"
    write_cargo(f"{folder}/cargo", f"../{top}")
    return [
        Check(f"{crate(version)} is unpacked", f"tar --extract --file {crate(version)}"),
        Check("its own tests", quietly(f"cargo test --offline --manifest-path {top}/Cargo.toml")),
        Check("a project of cargo takes it", quietly("cargo build --offline --manifest-path cargo/Cargo.toml")),
        Check("this project boots a device, in Rust", f"cargo/target/debug/empty {IMAGES[0]}", BOOTS),
    ]
