"""The three machines: how a program is built for each, where its flash is kept, and how QEMU runs
it."""

import os
import shutil

from files import BOARD, ROOT, read, write

STRICT = ["-std=c11", "-Wall", "-Wextra", "-Werror"]

# A program without an operating system. The last option keeps GCC from replacing the loop of
# memcpy() by a call of memcpy().
BARE = ["-ffreestanding", "-fno-stack-protector", "-fno-pie"]
BARE += ["-fno-tree-loop-distribute-patterns"]

# For a processor of 32 bits: only what is called is linked, and the code is small.
SMALL = ["-Os", "-ffunction-sections", "-fdata-sections", f"-I{BOARD}/bare"]

# The files that all machines have.
SHARED = ["images", "main", "memory", "replies", "script", "serial_text", "stack"]

# QEMU without any device but the machine's own, and with the serial port on its own streams. That
# of the Cortex-M is multiplexed: otherwise QEMU 7.2 sometimes stops reading its standard input.
BARE_MACHINE = ["-no-reboot", "-nodefaults", "-display", "none"]
PLAIN = [*BARE_MACHINE, "-serial", "stdio"]
MULTIPLEXED = [*BARE_MACHINE, "-chardev", "stdio,id=port,mux=on", "-serial", "chardev:port"]


def option(path):
    """Returns a path as a part of one of QEMU's options."""
    return path.replace(",", ",,")


def pflash(unit, path, how):
    """Returns QEMU's words for a NOR flash whose contents are a file."""
    return ["-drive", f"if=pflash,format=raw,unit={unit},{how},file={option(path)}"]


# QEMU writes each change of a flash to its file before the processor continues. So it loses none if
# it is killed. With `cache=writethrough` it would also sync each one, which counts only if the host
# loses its power.
READ_ONLY, WRITTEN = "readonly=on", "cache=writeback"


class Platform:
    """A machine, and what all of them have."""

    # The name for --machine, and the folder of its files.
    name = folder = None

    # The prefix of the compiler's programs, their options, and those of the linker.
    prefix, flags, linker_flags = "", [], []

    # The sources in C that it has besides its own and those of all machines.
    shared = []

    # The library, and what makes it.
    library, builder = f"{ROOT}/out/c/bootswap.c", "bindings/build --c"

    # For which address the body of an image is linked.
    body_at = 0

    # CMake's toolchain file, if CMake builds it. Otherwise our own calls of gcc do.
    toolchain = None

    def files(self):
        """Returns what the machine needs besides programs: names, and whether they are there."""
        return []

    def programs(self):
        """Returns the programs that it needs."""
        return [f"{self.prefix}gcc", f"{self.prefix}ld", self.emulator]

    def missing(self):
        """Returns what the system lacks."""
        found = [f"`{it}`" for it in self.programs() if not shutil.which(it)]
        return found + [name for name, is_there in self.files() if not is_there]

    def out(self):
        """Returns the folder in which it is built."""
        return f"{ROOT}/out/board/{self.name}"

    def sources(self):
        """Returns its sources."""
        own = sorted(os.listdir(f"{BOARD}/{self.folder}"))
        names = [f"{self.folder}/{it}" for it in own if it.endswith((".c", ".S"))]
        names.remove(f"{self.folder}/image.S")
        names += [f"{it}.c" for it in SHARED + self.shared]
        return [f"{BOARD}/{it}" for it in names] + [f"{ROOT}/bindings/c/driver.c"]

    def compiler(self):
        """Returns the command that compiles."""
        return [f"{self.prefix}gcc", *self.flags]

    def link_words(self, objects, made):
        """Returns the command that links the bootloader. The last object is the library."""
        script = f"{BOARD}/{self.folder}/board.ld"
        words = [*self.compiler(), "-nostdlib", "-static", "-Wl,--gc-sections", "-T", script]
        return [*words, "-o", made, *objects, "-lgcc"]

    def finish(self, call, linked):
        """Makes what QEMU loads of the linked bootloader, and returns its file."""
        return linked

    def write_flash(self, path, contents):
        """Writes the file of the flash."""
        write(path, contents)

    def read_flash(self, path):
        """Returns the flash as bootswap sees it."""
        return read(path)


class Pc(Platform):
    """A PC (`q35`) whose second flash is that of the board. The first one has its firmware."""

    name = folder = "pc"
    emulator = "qemu-system-x86_64"
    flags = [*BARE, "-O2", "-mno-red-zone"]
    shared = ["uart_16550"]
    library, builder = f"{ROOT}/out/libbootswap.a", "bindings/build"

    # The firmware: where Debian's package seabios has it, and where others do.
    FIRMWARE = ["/usr/share/seabios/bios-256k.bin", "/usr/share/qemu/bios-256k.bin"]

    def firmware(self):
        return next(filter(os.path.exists, self.FIRMWARE), None)

    def files(self):
        return [("bios-256k.bin (Debian's package seabios)", self.firmware())]

    def out(self):
        return f"{ROOT}/out/board"

    def link_words(self, objects, made):
        # Of the library, only what the bootloader calls.
        script = f"{BOARD}/{self.folder}/board.ld"
        return ["ld", "-n", "--gc-sections", "-T", script, "-o", made, *objects]

    def words(self, bootloader, flash):
        machine = ["-M", "q35", "-cpu", "max", "-accel", "tcg", "-m", "64"]
        drives = pflash(0, self.firmware(), READ_ONLY) + pflash(1, flash, WRITTEN)
        return [self.emulator, *machine, *PLAIN, "-kernel", bootloader, *drives]


class Rv32(Platform):
    """RISC-V `virt` with 32 bits. The bootloader is in its first flash, and its second is that of
    the board. bootswap sees the first 4 KiB of each sector of 256 KiB."""

    name = folder = "rv32"
    emulator, prefix = "qemu-system-riscv32", "riscv64-unknown-elf-"
    flags = [*BARE, *SMALL, "-march=rv32imac", "-mabi=ilp32"]
    linker_flags = ["-melf32lriscv"]
    shared = ["uart_16550"]

    # To where jump.c copies it.
    body_at = 0x80040000

    # The length of each of the two flashes, and that of a sector.
    LENGTH, PART_SECTOR, SECTOR = 32 << 20, 256 << 10, 4096

    def finish(self, call, linked):
        rom = f"{os.path.dirname(linked)}/bootloader.rom"
        call([f"{self.prefix}objcopy", "-O", "binary", linked, rom], None)
        os.truncate(rom, self.LENGTH)
        return rom

    def write_flash(self, path, contents):
        with open(path, "wb") as it:
            it.truncate(self.LENGTH)
            for at in range(0, len(contents), self.SECTOR):
                it.seek(at // self.SECTOR * self.PART_SECTOR)
                it.write(contents[at : at + self.SECTOR])
        # The rest, which nothing reads, has no bytes on disk.

    def read_flash(self, path):
        fronts = []
        with open(path, "rb") as it:
            for number in range(16):
                it.seek(number * self.PART_SECTOR)
                fronts.append(it.read(self.SECTOR))
        return b"".join(fronts)

    def words(self, bootloader, flash):
        machine = ["-M", "virt", "-cpu", "rv32", "-accel", "tcg", "-m", "4", "-bios", "none"]
        drives = pflash(0, bootloader, READ_ONLY) + pflash(1, flash, WRITTEN)
        return [self.emulator, *machine, *PLAIN, *drives]


class CortexM(Platform):
    """A Cortex-M4 (`mps2-an386`). The bootloader reads and writes the file of its flash by
    semihosting. The images run in place, so each is linked for its slot. CMake builds it."""

    name, folder = "cortex-m", "cortex_m"
    emulator = "qemu-system-arm"
    toolchain = f"{ROOT}/examples/cortex_m/cortex_m4.cmake"

    def programs(self):
        # Unless it is told otherwise, CMake builds by make.
        makes = [] if os.environ.get("CMAKE_GENERATOR") else ["make"]
        return ["arm-none-eabi-gcc", "cmake", *makes, self.emulator]

    def words(self, bootloader, flash):
        files = f"enable=on,target=native,arg={option(os.path.realpath(flash))}"
        machine = ["-M", "mps2-an386", "-accel", "tcg", "-semihosting-config", files]
        # QEMU warns of a network card that isn't connected.
        machine += ["-nic", "user,restrict=on"]
        return [self.emulator, *machine, *MULTIPLEXED, "-kernel", bootloader]


PLATFORMS = {it.name: it for it in (Pc(), Rv32(), CortexM())}
