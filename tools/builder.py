"""Proves and builds the program `bootswap` or its core for `./bootswap`, and the static libraries of `bindings/build`,
`web/build` and `bench/run`.

The toolchain's `rattle build` proves each crate over the statements of the crates below it. Crates are built side by side,
as far as processors and memory allow. Each has a library NAME.rlib in the folder BUILD, and beside it a file NAME.stamp with
a digest of the sources that it was made of. So an interrupted build continues with the crates that it had not yet built.
"""

import contextlib
import fcntl
import functools
import hashlib
import os
import re
import signal
import subprocess
import sys
import time
from concurrent.futures import FIRST_COMPLETED, ThreadPoolExecutor, wait

import small_code
from commits import ROOT, commit_here, write_commit
from schedule import SECONDS, Schedule, expected

OUT = f"{ROOT}/out"
LOG = f"{OUT}/bootswap.log"

# A library is a folder with sources, and `rt` stops at a source that is in no crate. It accepts those below a crate's
# out/rlib, where it has the library of that crate. A program has none, so `rt` needs nothing there.
BUILD = f"{ROOT}/crates/bootswap/out/rlib"

# What a build makes, as it is called, and the most GB of disk that it takes.
MADE = {
    "bootswap": ("the program", 1.8),
    "bootswap_core": ("the core of the program", 1.1),
    "c_interface": ("the library", 1),
    "manifest_interface": ("the library for manifests", 0.2),
}

# How many seconds a build is silent at most on a terminal.
SILENT = 30

# The most memory that the check of a crate has taken, in bytes.
MEMORY = 2_300_000_000

# The crates of the libraries of include/bootswap.h and of include/bootswap_manifest.h.
LIBRARY = "c_interface"
MANIFEST_LIBRARY = "manifest_interface"

TARGET = "x86_64-unknown-linux-gnu"
ARM_TARGET = "aarch64-unknown-linux-gnu"
WEB_TARGET = "wasm64-unknown-unknown"


class NotBuilt(Exception):
    """Why the program could not be built."""


def tell(text):
    print(f"bootswap: {text}", file=sys.stderr, flush=True)


def is_watched():
    """Returns whether somebody may sit before a terminal and wait."""
    return sys.stderr.isatty()


class Crate:
    """A crate of the repository, as crates.txt has it."""

    def __init__(self, name, of_kit, own, is_static):
        self.name, self.of_kit, self.own, self.is_static = name, of_kit, own, is_static
        self.folder = f"{ROOT}/crates/{name}"
        self.is_program = os.path.isfile(f"{self.folder}/src/main.rt")
        self.made = f"{BUILD}/{name}.{'o' if self.is_program else 'a' if is_static else 'rlib'}"
        self.stamp = f"{BUILD}/{name}.stamp"
        self.target = TARGET
        self.files = sorted(files_of(self.folder))
        lines = sum(contents.count(b"\n") for path, contents in self.files if path.endswith(".rt"))
        self.seconds = SECONDS.get(name, lines / 6)

    @functools.lru_cache(maxsize=None)
    def below(self):
        """Returns the crates that it depends on, each after those that it depends on itself."""
        found = []
        for crate in self.own:
            found += [it for it in [*crate.below(), crate] if it not in found]
        return found

    @functools.lru_cache(maxsize=None)
    def digest(self, toolchain):
        """Returns a digest of everything that it is made of."""
        sum = hashlib.sha256(repr((self.name, self.of_kit, toolchain, *flags_of(self.target), self.files)).encode())
        for crate in self.own:
            sum.update(crate.digest(toolchain).encode())
        return sum.hexdigest()

    def is_built(self, toolchain):
        """Returns whether an earlier build made it of these sources. A program has a stamp of its own, in programs.py."""
        return not self.is_program and os.path.exists(self.made) and text_of(self.stamp) == self.digest(toolchain)

    def words(self, kit, jobs=1):
        """Returns the command that proves and builds it, in N processes."""
        words = [f"{kit}/bin/rattle", "build", "--crate-name", self.name]
        words += ["src/main.rt" if self.is_program else "src/lib.rt"]
        for name in ["std", *self.of_kit]:
            words += ["--extern", f"{name}={kit}/rlibs/{name}.rlib"]
        for crate in self.own:
            words += ["--extern", f"{crate.name}={crate.made}"]
        for folder in sorted({f"{kit}/rlibs", *(os.path.dirname(it.made) for it in self.below())}):
            words += ["-L", f"dependency={folder}"]
        words += ["--antt-project", f"{kit}/rattle/logic/antt-project.json", "--logic-built", f"{kit}/logic_built"]
        words += ["--jobs", str(jobs), "--links", f"{self.name}=", "-o", self.made]
        if self.is_program:
            return [*words, "--toolchain", f"{kit}/toolchain", "--backend", "rattle"]
        if self.is_static:
            words += ["--crate-type", "staticlib", "--target", self.target]
            return [*words, "--toolchain", toolchain_for(self.target, kit), "--backend", "llvm"]
        return [*words, "--statements"]

    def check_words(self, kit, functions):
        """Returns the command that checks it, or these functions of it and what they call, each given as its path in the
        crate."""
        words = self.words(kit)
        # A check takes no place to write to, and makes no statements or code.
        for word, values in (("-o", 1), ("--statements", 0), ("--toolchain", 1), ("--backend", 1)):
            if word in words:
                at = words.index(word)
                del words[at : at + 1 + values]
        words[1] = "check"
        return [*words, *(f"--only={it}" for it in functions)]

    def aim(self, target):
        """Has a static library built for another target, beside the one for this processor."""
        self.target, self.made, self.stamp = target, f"{BUILD}/{self.name}.{target}.a", f"{BUILD}/{self.name}.{target}.stamp"


def flags_of(target):
    """Returns a target and the flags that its compiler gets besides the toolchain's own."""
    return target, *(small_code.FLAGS if target == WEB_TARGET else ())


def toolchain_for(target, kit):
    """Returns the folder of the tools that compile for a target: for WebAssembly one whose compiler makes small code."""
    return small_code.toolchain_for_size(f"{kit}/toolchain", f"{OUT}/toolchain") if target == WEB_TARGET else f"{kit}/toolchain"


def files_of(folder):
    """Yields the path and the contents of each file that a check of a crate reads."""
    for part in ("src", "specs", "proofs"):
        for at, _, names in os.walk(f"{folder}/{part}"):
            for name in names:
                with open(f"{at}/{name}", "rb") as it:
                    yield os.path.relpath(f"{at}/{name}", folder), it.read()


def text_of(path):
    """Returns the text of a file, or None if it can't be read."""
    try:
        with open(path, encoding="utf-8") as it:
            return it.read()
    except (OSError, UnicodeDecodeError):
        return None


def parts_of_crates():
    """Returns what crates.txt has of each crate: its name with its kind, and the names of those that it depends on."""
    lines = [line.partition("#")[0] for line in (text_of(f"{ROOT}/crates.txt") or "").splitlines()]
    return [(name.split(), below.split()) for name, colon, below in (it.partition(":") for it in lines) if colon]


def names_of_crates():
    return [name for (name, *_), _ in parts_of_crates()]


def crates_of(last="bootswap"):
    """Returns the crates that a crate depends on, and this one, lowest first."""
    parts = parts_of_crates()
    rows = {name: below for (name, *_), below in parts}
    static = {name for (name, *kind), _ in parts if kind == ["staticlib"]}
    known = {}

    def crate_of(name):
        if name not in known:
            own = [crate_of(it) for it in rows[name] if it in rows]
            known[name] = Crate(name, [it for it in rows[name] if it not in rows], own, name in static)
        return known[name]

    if last not in rows:
        raise NotBuilt(f"{ROOT}/crates.txt names no crate {last}")
    return [*crate_of(last).below(), crate_of(last)]


def free_memory():
    """Returns the bytes of free memory, as the system reports them."""
    found = re.search(r"MemAvailable: +(\d+)", text_of("/proc/meminfo") or "")
    return 1024 * int(found[1]) if found else MEMORY


class Build:
    """A running build: what is left, what runs, and what may start."""

    def __init__(self, crates, toolchain, kit, held):
        self.toolchain, self.kit, self.held, self.start = toolchain, kit, held, time.monotonic()
        self.crates, self.processors = crates, len(os.sched_getaffinity(0))
        # That of the sources which were read just now. The build may take an hour, in which others may be committed.
        self.commit = commit_here()
        self.most = int(0.9 * free_memory() // MEMORY)
        left = [it for it in crates if not it.is_built(toolchain)]
        self.schedule = Schedule(crates, left, self.processors, self.most)
        self.running, self.processes, self.is_stopped = {}, set(), False

    def seconds(self):
        return f"{time.monotonic() - self.start:.0f} s"

    def run(self):
        """Proves and builds everything that is left."""
        if self.most <= 0:
            raise NotBuilt(f"a check takes up to {MEMORY / 1e9:.1f} GB of memory, and less is free")
        tell(self.announcement())
        with ThreadPoolExecutor(self.processors) as pool:
            try:
                while self.schedule.left or self.running:
                    for crate, jobs in self.schedule.started().items():
                        self.running[pool.submit(self.build, crate, jobs)] = crate
                    ended = wait(self.running, SILENT, FIRST_COMPLETED).done
                    for ran in ended:
                        self.end(self.running.pop(ran), ran.result())
                    if not ended and is_watched():
                        tell(f"{self.under_way()} under way ({self.seconds()}); {self.left()} left")
            finally:
                self.stop()
        tell(f"built ({self.seconds()})")

    def announcement(self):
        """Returns what is built, and what that takes: by the crates that are left, and not from nothing."""
        (what, disk), left = MADE[self.crates[-1].name], self.schedule.left
        at_once = min(self.processors, self.most)
        clock, used = (f"{max(round(it / 60), 1)} min" for it in expected(self.crates, left, self.processors, self.most))
        return (
            f"proving and building {what}: {len(left)} of {len(self.crates)} crates are left. That takes about {clock} on "
            f"{at_once} idle {'processor' if at_once == 1 else 'processors'} ({used} of CPU time), up to {at_once * MEMORY / 1e9:.1f} GB of memory and {disk} GB of disk"
        )

    def under_way(self):
        """Returns the crates that are being built."""
        return ", ".join(it.name for it in self.running.values())

    def left(self):
        """Returns how many crates aren't built yet."""
        return len(self.schedule.left) + len(self.running)

    def build(self, crate, jobs):
        """Proves and builds a crate in N processes, and returns whether that succeeded, and the output."""
        if os.path.isfile(crate.stamp):
            os.remove(crate.stamp)
        digest = crate.digest(self.toolchain)
        status, said = self.call(crate.words(self.kit, jobs), crate.folder)
        if status == -signal.SIGKILL and not self.is_stopped:
            # Most likely for memory, of which there may be more now, and one process takes least.
            status, said = self.call(crate.words(self.kit), crate.folder)
        if not status and crate.is_program:
            status, more = self.link(crate)
            said += more
        if not status:
            with open(crate.stamp, "w", encoding="utf-8") as it:
                it.write(digest)
        return not status, said

    def link(self, crate):
        """Links a program and writes the commit into it, and returns the status and the output."""
        program = f"{OUT}/{crate.name}"
        status, said = self.call(link_words(self.kit, crate.made, program), crate.folder)
        if not status and self.commit and not write_commit(program, *self.commit):
            return 1, f"{said}{program} hasn't exactly one place for the commit\n"
        return status, said

    def call(self, words, folder):
        """Runs a command of the toolchain, and returns its status and output.

        The command holds the lock of the build too. So no other build starts while it runs, even if this process is killed.
        """
        streams = {"stdin": subprocess.DEVNULL, "stdout": subprocess.PIPE, "stderr": subprocess.STDOUT}
        start = time.monotonic()
        ran = subprocess.Popen(words, cwd=folder, pass_fds=[self.held], **streams)
        self.processes.add(ran)
        if self.is_stopped:
            kill(ran)
        with ran.stdout:
            said = ran.stdout.read().decode(errors="replace")
        _, status, used = os.wait4(ran.pid, 0)
        ran.returncode = os.waitstatus_to_exitcode(status)
        self.processes.discard(ran)
        cost = f"{time.monotonic() - start:.0f} s, {used.ru_utime + used.ru_stime:.0f} s of a processor"
        return ran.returncode, f"{' '.join(words)}\n{said}took {cost}\n"

    def end(self, crate, result):
        """Reports that a crate is proved, and what is left, or raises why it isn't."""
        is_done, said = result
        with open(LOG, "a", encoding="utf-8") as it:
            it.write(f"== {crate.name}\n{said}\n")
        if not is_done:
            raise NotBuilt(f"{crate.name} isn't proved, or can't be built; what was said is in {LOG}")
        self.schedule.end(crate)
        more = f", {self.under_way()} under way" if self.running else ""
        tell(f"{crate.name} is proved ({self.seconds()}); {self.left()} left{more}")

    def stop(self):
        """Ends what still runs, if the build failed or was interrupted."""
        self.is_stopped = True
        for ran in [*self.processes]:
            kill(ran)


def kill(ran):
    """Ends a process that `Build.call` waits for. `Popen.kill` might wait for it too, and take its times away."""
    with contextlib.suppress(ProcessLookupError):
        os.kill(ran.pid, signal.SIGKILL)


def link_words(kit, made, program):
    words = [f"{kit}/bin/rattle-link", "--target", TARGET, "--toolchain", f"{kit}/toolchain", "-o", program, made]
    return [*words, f"{kit}/c/libos_c.a", f"{kit}/c/liblibc_c.a"]


def asked_of_rt(word):
    """Returns the line that `rt` prints for a command."""
    try:
        ran = subprocess.run(["rt", word], stdin=subprocess.DEVNULL, stdout=subprocess.PIPE, check=True)
    except (OSError, subprocess.CalledProcessError) as error:
        raise NotBuilt(f"rt {word} failed") from error
    return ran.stdout.decode(errors="replace").strip()


def build(crates, toolchain):
    """Proves and builds these crates: a program as out/NAME, a library as NAME.a in the folder BUILD."""
    with locked() as held:
        try:
            for folder in (OUT, BUILD):
                os.makedirs(folder, exist_ok=True)
            open(LOG, "w", encoding="utf-8").close()
        except OSError as error:
            raise NotBuilt(f"{error.filename} can't be written ({error.strerror})") from error
        # The gate has its own way to end.
        if signal.getsignal(signal.SIGTERM) is signal.SIG_DFL:
            signal.signal(signal.SIGTERM, lambda *_: sys.exit(128 + signal.SIGTERM))
        Build(crates, toolchain, os.path.dirname(asked_of_rt("doc")), held).run()


@contextlib.contextmanager
def locked():
    """Waits until no other build runs in this clone, and yields the lock's descriptor. What the other one built isn't built
    again.

    The lock is the folder of the program's crate, as `rt` locks it: `rt ci` moves the crate's out/ away while it runs.
    """
    held = os.open(os.path.dirname(os.path.dirname(BUILD)), os.O_RDONLY)
    try:
        wait_for(held)
        yield held
    finally:
        os.close(held)


def wait_for(held):
    """Waits for the lock of this descriptor, and says so: once, and on a terminal again and again."""
    said = None
    while True:
        with contextlib.suppress(BlockingIOError):
            return fcntl.flock(held, fcntl.LOCK_EX | fcntl.LOCK_NB)
        if said is None or is_watched() and time.monotonic() - said >= SILENT:
            tell("waiting for another build, or `rt`, to end here")
            said = time.monotonic()
        time.sleep(0.2)


def library_crates(target=TARGET, name=LIBRARY):
    """Returns the crates of a static library for a target, lowest first."""
    crates = crates_of(name)
    if target != TARGET:
        crates[-1].aim(target)
    return crates


def static_library(target=TARGET, name=LIBRARY):
    """Proves and builds a static library for a target, if that isn't done yet, and returns its file."""
    crates, toolchain = library_crates(target, name), asked_of_rt("version")
    if not crates[-1].is_built(toolchain):
        build(crates, toolchain)
    return crates[-1].made


def link_for_web(archive, module):
    """Links a static library to a module of WebAssembly, and returns whether that succeeded, and the output."""
    kit = os.path.dirname(asked_of_rt("doc"))
    words = [f"{kit}/bin/rattle-link", "--target", WEB_TARGET, "--toolchain", f"{kit}/toolchain", "-o", module, archive]
    ran = subprocess.run(words, stdin=subprocess.DEVNULL, stdout=subprocess.PIPE, stderr=subprocess.STDOUT)
    return ran.returncode == 0, ran.stdout.decode(errors="replace")
