"""Runs tasks beside `rt ci`, on processors and in memory that its checks leave free.

Near the end of `rt ci` few crates are left, which depend on each other, and processors are idle. A task waits for the
crates that it names: `rt ci` prints a line for each that is proved, and then its library is in place.
"""

import os
import re

from builder import MEMORY, free_memory
from ending import processes_below
from side_by_side import Running, Task

PROVED = re.compile(rb"rt: (\w+) (?:proved|is kept: .*)")

# The memory that has to stay free for the checks of `rt ci` that run, in bytes. They grow while they run.
RESERVE = 4_000_000_000


class Beside:
    """Tasks that wait for crates, those of them that run, and the crates that are proved."""

    def __init__(self, tasks):
        """Takes tasks in their order, each with the names of the crates that it waits for."""
        self.waiting, self.running, self.proved = [*tasks], Running(), set()

    def left(self):
        """Returns the tasks that weren't started."""
        return [task for task, _ in self.waiting]

    def lines_of(self, ran):
        """Yields the lines that `rt ci` prints, which runs, and meanwhile starts tasks. Its output isn't buffered here."""
        rest, part = b"", b""
        while part is not None:
            self.start_one(ran.pid)
            part = b""
            if self.running.wait(ran.stdout, 1):
                part = os.read(ran.stdout.fileno(), 1 << 16) or None
            *lines, rest = (rest + (part or b"")).split(b"\n")
            for line in lines:
                found = PROVED.fullmatch(line)
                self.proved |= {found[1].decode()} if found else set()
                yield line
        yield from filter(None, [rest])

    def start_one(self, top):
        """Starts the first task whose crates are proved, if a processor and memory are free. `rt ci` begins with few checks, and
        soon has many: so nothing is started before a crate is proved."""
        ready = next((it for it in self.waiting if self.proved.issuperset(it[1])), None)
        if ready and self.proved and self.is_room(top):
            self.waiting.remove(ready)
            task, _ = ready
            self.running.start(Task(task.name, lambda: run_nicely(task)))

    def is_room(self, top):
        busy = len(self.running.tasks) + sum(map(is_check, processes_below(top)))
        return busy < len(os.sched_getaffinity(0)) and free_memory() > MEMORY + RESERVE


def run_nicely(task):
    """Runs a task on what time other processes leave."""
    os.nice(10)
    return task.run()


def is_check(pid):
    """Returns whether a process is one of the toolchain that proves or compiles."""
    try:
        with open(f"/proc/{pid}/comm", encoding="utf-8") as it:
            return it.read().startswith("rattle")
    except OSError:
        return False
