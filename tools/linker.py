"""The system's dynamic linker: whether it searches a folder for shared libraries, and the cache of what it found."""

import os
import re
import shutil
import subprocess

# Where its command is, also if only the PATH of root has these.
FOLDERS = "/usr/sbin:/sbin"


def update_cache(folder):
    """Has the linker read a folder anew, if it searches it. Returns what the user has to do, so that programs find the
    libraries there, or nothing."""
    if not searches(folder):
        return f"programs find the library in {folder} by LD_LIBRARY_PATH, or if /etc/ld.so.conf names it and ldconfig ran"
    is_done, _ = ldconfig()
    return "" if is_done else f"run ldconfig as root, so that programs find the library in {folder}"


def searches(folder):
    """Returns whether the linker searches a folder by itself."""
    _, said = ldconfig("-N", "-X", "-v")
    return os.path.realpath(folder) in {os.path.realpath(it) for it in re.findall(r"^(/[^:]*):", said, re.MULTILINE)}


def ldconfig(*words):
    """Runs `ldconfig`, and returns whether it succeeded, and what it prints."""
    command = shutil.which("ldconfig", path=f"{os.environ.get('PATH', '')}:{FOLDERS}")
    if not command:
        return False, ""
    done = subprocess.run([command, *words], stdin=subprocess.DEVNULL, capture_output=True, text=True)
    return done.returncode == 0, done.stdout
