"""A clean Debian in a folder, on which `tools/try_packages` installs, uses and removes packages."""

import os
import pty
import re
import select
import shutil
import subprocess
import time

from builder import ROOT, text_of
from commits import version_in
from empty_projects import IMAGES, c_archive, checks_of_c, checks_of_crate, crate
from installing import version
from results import Counts, report, skip
from tutorial import commands_of

# Debian 12, and what one needs there beside the packages: a C compiler, Python, `man`, and completion; for the archives of makers
# of firmware what unpacks them, CMake and cargo.
SUITE = "bookworm"
NEEDED = ("gcc", "libc6-dev", "pkg-config", "python3", "man-db", "bash-completion", "xz-utils", "cmake", "make", "cargo")

# Where the packages are used, by a user who isn't root.
PLACE = "/tmp/tried"
NOBODY = 65534

ENVIRONMENT = {"PATH": "/usr/sbin:/usr/bin:/sbin:/bin", "LC_ALL": "C.UTF-8", "HOME": PLACE, "TERM": "dumb"}

# What any package changes: caches, logs, and what `dpkg` itself keeps. Its `info/` lists what is installed.
CHANGING = re.compile(r"/(dev|proc|sys|tmp|run|var/(log|cache)|var/lib/dpkg/(?!info/).*|etc/ld.so.cache)(/|$)")

# What documents promise of the examples in C and Python.
C_PRINTS = "power failed in write 5\npermanent\ntake 0 1.1.0+0\n"
PYTHON_PRINTS = "take 0 1.1.0+0\n"

COMPILE = "cc /usr/share/doc/libbootswap-dev/examples/c/life.c $(pkg-config --cflags --libs bootswap) -o life"
EXAMPLES = "/usr/share/doc/bootswap/examples"

# How long one command may take, in seconds. The tests of the crate take the longest.
LIMIT = 600


class NoSystem(Exception):
    """Why there is no clean system."""


def make_system(root):
    """Makes a clean Debian in a folder, from the network."""
    words = ["debootstrap", "--variant=minbase", f"--include={','.join(NEEDED)}", SUITE, root]
    try:
        done = subprocess.run(words, stdin=subprocess.DEVNULL, capture_output=True, text=True)
    except FileNotFoundError as error:
        raise NoSystem("debootstrap isn't installed") from error
    if done.returncode:
        raise NoSystem(f"debootstrap failed: {done.stdout[-500:]}{done.stderr[-500:]}")


def lacking(root):
    """Returns what a clean system in a folder lacks of what is needed."""
    known = (text_of(f"{root}/var/lib/dpkg/status") or "").splitlines()
    return [it for it in NEEDED if f"Package: {it}" not in known]


class CleanSystem:
    """A system in a folder, and the packages and archives to try there."""

    def __init__(self, root, packages, archives):
        self.root, self.packages, self.archives, self.counts = root, packages, archives, Counts()

    def call(self, command, user=NOBODY):
        """Runs a command of the shell in the folder where packages are used, and returns its status and what it prints."""
        streams = {"stdin": subprocess.DEVNULL, "stdout": subprocess.PIPE, "stderr": subprocess.STDOUT}
        words = self.words(user, "bash", "-c", f"cd {PLACE} && {command}")
        try:
            done = subprocess.run(words, env=ENVIRONMENT, timeout=LIMIT, **streams)
        except subprocess.TimeoutExpired:
            return None, f"not ended after {LIMIT} seconds"
        return done.returncode, done.stdout.decode(errors="replace")

    def words(self, user, *words):
        """Returns the command that runs another one in the system, in which it has a /proc."""
        system = ["unshare", f"--mount-proc={self.root}/proc", "chroot", f"--userspec={user}:{user}", "--groups="]
        return [*system, self.root, *words]

    def case(self, name, faults):
        """Reports a check, and returns whether it passed."""
        self.counts = self.counts.and_then(report(name, faults))
        return not faults

    def prints(self, name, command, wanted, user=NOBODY):
        """Checks that a command prints exactly this."""
        _, printed = self.call(command, user)
        return self.case(name, [] if printed == wanted else [command, f"{printed!r}, and not {wanted!r}"])

    def done(self, name, command):
        """Checks that a command of root succeeds."""
        status, printed = self.call(command, 0)
        return self.case(name, [] if status == 0 else [command, f"{status}: {printed}"])

    def state(self):
        """Returns what is there: the files outside of caches, and the packages that `dpkg` knows."""
        below = (f"{at}/{name}" for at, folders, names in os.walk(self.root) for name in [*folders, *names])
        files = {it.removeprefix(self.root) for it in below}
        _, known = self.call("dpkg-query --show --showformat '${Package} ${db:Status-Status}\\n'", 0)
        return {it for it in files if not CHANGING.match(it)} | {*known.splitlines()}

    def try_all(self):
        """Makes all checks, and returns their counts."""
        place = f"{self.root}{PLACE}"
        os.makedirs(f"{place}/packages")
        try:
            os.chown(place, NOBODY, NOBODY)
            for it in self.packages:
                shutil.copy(it, f"{place}/packages")
            before = self.state()
            self.build_projects()
            if self.done("the packages are installed", "dpkg --install packages/*.deb"):
                self.use()
            names = " ".join(os.path.basename(it).partition("_")[0] for it in self.packages)
            self.done("the packages are removed", f"dpkg --purge {names}")
            self.case("nothing is left, and nothing is missing", sorted(self.state() ^ before))
        finally:
            shutil.rmtree(place)
        return self.counts

    def build_projects(self):
        """Takes the archives into empty projects of CMake and of cargo, before the packages are there."""
        place = f"{self.root}{PLACE}/projects"
        for name, checks_of in ((c_archive(version()), checks_of_c), (crate(version()), checks_of_crate)):
            archive = next((it for it in self.archives if os.path.basename(it) == name), None)
            if not archive:
                self.counts = self.counts.and_then(skip(name, "`tools/package` left it out"))
                continue
            os.makedirs(place, exist_ok=True)
            for it in (archive, *(f"{ROOT}/examples/images/{it}" for it in IMAGES)):
                shutil.copy(it, place)
            checks = checks_of(place, version())
            self.call(f"chown --recursive {NOBODY}:{NOBODY} projects", 0)
            for check in checks:
                # Each check needs those before it.
                if not self.prints(check.name, f"cd projects && {check.command}", check.printed):
                    break
            shutil.rmtree(place)

    def use(self):
        """Uses the packages as their documents say."""
        self.done("a folder for the tutorial", f"ln -s {EXAMPLES} /usr/bin/bootswap . && install -d -o {NOBODY} out")
        version = version_in(f"{self.root}/usr/bin/bootswap")
        for number, (command, wanted) in enumerate(commands_of("docs/TUTORIAL.md", version), 1):
            self.prints(f"docs/TUTORIAL.md, command {number}", command, wanted)
        self.prints("the example in C compiles", COMPILE, "")
        self.prints("the example in C", "./life examples/images/one.img examples/images/patched.img 5", C_PRINTS)
        self.prints("the example in Python", f"python3 - <<'END'\n{python_example()}END", PYTHON_PRINTS)
        for page in ("bootswap", "bootswap-run"):
            _, shown = self.call(f"man {page}")
            self.case(f"man {page}", [] if re.search(rf"^NAME\n +{page} - ", shown, re.MULTILINE) else [shown[:500]])
        typed = self.typed("bootswap ru\t", "bootswap run ")
        self.case("TAB completes a command", [] if typed else ["`bootswap ru` isn't completed to `bootswap run `"])

    def typed(self, line, wanted):
        """Types a line in a terminal, as a new user of the system has it, and returns whether this appears."""
        terminal, end = pty.openpty()
        words = self.words(NOBODY, "bash", "--rcfile", "/etc/skel/.bashrc", "-i")
        shell = subprocess.Popen(words, env=ENVIRONMENT, stdin=end, stdout=end, stderr=end)
        try:
            os.write(terminal, b"PS1='rea''dy '\n")
            if not appears(terminal, b"ready "):
                return False
            os.write(terminal, line.encode())
            return appears(terminal, wanted.encode())
        finally:
            shell.kill()
            shell.wait()
            os.close(end)
            os.close(terminal)


def python_example():
    """Returns the program of bindings/README.md, as it is where the module is installed."""
    program = re.search(r"^```python\n(.*?)^```$", text_of(f"{ROOT}/bindings/README.md"), re.MULTILINE | re.DOTALL)[1]
    return program.replace('sys.path.insert(0, "bindings/python")\n', "")


def appears(terminal, wanted, seconds=20):
    """Returns whether a terminal shows this within some seconds."""
    shown, end = b"", time.monotonic() + seconds
    while wanted not in shown and time.monotonic() < end:
        if select.select([terminal], [], [], 0.1)[0]:
            shown += os.read(terminal, 4096)
    return wanted in shown
