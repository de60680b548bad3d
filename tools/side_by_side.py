"""Runs tasks at the same time, each in a process of its own, and prints what each printed in one piece."""

import contextlib
import io
import multiprocessing
import multiprocessing.connection
import time
from typing import Callable, NamedTuple

from results import Counts, report


class Task(NamedTuple):
    """A part of the checks: its name, and a function that prints the lines of these checks and returns their counts."""

    name: str
    run: Callable[[], Counts]


# A task is a function of this process, so each process is a copy of it.
FORK = multiprocessing.get_context("fork")


class Running:
    """Tasks that run, the sum of the counts of those that ended, and how many seconds each of these took, by their names."""

    def __init__(self):
        self.tasks, self.counts, self.seconds = {}, Counts(), {}

    def start(self, task):
        results, sender = FORK.Pipe(duplex=False)
        process = FORK.Process(target=send_results, args=(task, sender))
        process.start()
        sender.close()
        self.tasks[results] = task, process, time.monotonic()

    def wait(self, stream=None, seconds=None):
        """Waits until a task ends, or a stream can be read, or N seconds have passed. Prints what ended tasks printed. Returns
        whether the stream can be read."""
        ready = multiprocessing.connection.wait([*self.tasks, *filter(None, [stream])], seconds)
        for results in [it for it in ready if it is not stream]:
            task, process, began = self.tasks.pop(results)
            self.counts = self.counts.and_then(end(task, process, results))
            self.seconds[task.name] = time.monotonic() - began
        return stream in ready


def side_by_side(tasks, most, running=None):
    """Starts tasks in their order, so that at most `most` of them run at the same time, but one at least. Prints the output of
    each when it ends. Tasks that run already may be given. Returns the sum of the counts of all, and how many seconds each
    took, by their names."""
    left, running = [*reversed(tasks)], running or Running()
    while left or running.tasks:
        while left and len(running.tasks) < max(most, 1):
            running.start(left.pop())
        running.wait()
    return running.counts, running.seconds


def send_results(task, sender):
    """Runs a task, and sends what it printed and its counts."""
    output = io.StringIO()
    with contextlib.redirect_stdout(output):
        counts = task.run()
    sender.send((output.getvalue(), counts))


def end(task, process, results):
    """Prints what a task printed, and returns its counts. A task that ends without results has failed."""
    with results:
        try:
            output, counts = results.recv()
        except EOFError:
            output, counts = "", None
    process.join()
    print(output, end="", flush=True)
    return counts or report(task.name, [f"its process ended with status {process.exitcode}"])
