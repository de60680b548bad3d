"""The workers to which `parts.py` and `sweep_parts.py` give their parts: processes of this machine, or those of dask."""

from __future__ import annotations

import argparse
import collections
import contextlib
import functools
import os
import shutil
import subprocess
import sys
from collections.abc import Callable, Iterable, Iterator
from concurrent.futures import ThreadPoolExecutor
from typing import Any

OUT = os.path.realpath(f"{os.path.dirname(os.path.realpath(__file__))}/../../out")
PROGRAM = f"{OUT}/bootswap" if os.access(f"{OUT}/bootswap", os.X_OK) else "bootswap"

# Has Linux kill a process once the thread that started it ends, also by SIGKILL. The shell sees an end before that.
WITH_STARTER = ["setpriv", "--pdeathsig", "KILL", "sh", "-c", '[ "$PPID" = "$0" ] && exec "$@"']

# The most parts that are held for each worker, so that it never waits for the next one.
AHEAD = 3


@contextlib.contextmanager
def local_workers(processes: int) -> Iterator[tuple[Callable[..., Any], int]]:
    """Yields a function that submits a call, and the number of workers: processes of this machine."""
    with ThreadPoolExecutor(processes) as pool:
        yield pool.submit, processes


def bound(words: list[str]) -> list[str]:
    """Returns the words of a command that ends with this process, where there is setpriv (util-linux 2.33)."""
    return [*WITH_STARTER, str(os.getpid()), *words] if shutil.which("setpriv") else words


def repeated(call: Callable[[], Any]) -> Any:
    """Returns what a call returns. If its process doesn't end in time, since it is stopped or hangs, it is called once more."""
    with contextlib.suppress(subprocess.TimeoutExpired):
        return call()
    try:
        return call()
    except subprocess.TimeoutExpired as error:
        raise RuntimeError(f"a worker didn't end within {error.timeout:g} s, twice") from None


@contextlib.contextmanager
def dask_workers(address: str) -> Iterator[tuple[Callable[..., Any], int]]:
    """Yields the same for the workers of a dask scheduler, once there is one."""
    try:
        import cloudpickle
        from distributed import Client
    except ImportError as error:
        raise RuntimeError(f"--dask takes dask.distributed (Debian: python3-distributed): {error}") from None

    # The workers get the code of this module too.
    cloudpickle.register_pickle_by_value(sys.modules[__name__])
    try:
        client = Client(address)
    except (OSError, ValueError) as error:
        raise RuntimeError(f"--dask {address}: {error}") from None
    with client:
        client.wait_for_workers(1)
        # A part is passed as an argument, which the scheduler keeps. A scattered one would be lost with its worker.
        yield functools.partial(client.submit, pure=False), sum(client.ncores().values())


def workers_of(args: argparse.Namespace) -> contextlib.AbstractContextManager[tuple[Callable[..., Any], int]]:
    """Returns the workers that the arguments of `add_workers` name."""
    return dask_workers(args.dask) if args.dask else local_workers(args.processes)


def in_order(submit: Callable[[Any], Any], parts: Iterable[Any], most: int) -> Iterator[Any]:
    """Submits parts, of which at most a number are held at a time, and yields their results in order."""
    waiting: collections.deque = collections.deque()
    for part in parts:
        waiting.append(submit(part))
        if len(waiting) == most:
            yield waiting.popleft().result()
    while waiting:
        yield waiting.popleft().result()


def positive(text: str) -> int:
    """Returns a number from 1 on."""
    number = int(text)
    if number < 1:
        raise ValueError
    return number


def add_workers(parser: argparse.ArgumentParser, limit: str) -> None:
    """Adds the arguments that name the program and the workers. `limit` is the default of --limit."""
    parser.add_argument("--program", default=PROGRAM, metavar="FILE", help="default: %(default)s")
    help_of_limit = f"how long a part may take; one that takes longer is done once more; default: {limit}"
    parser.add_argument("--limit", type=positive, metavar="SECONDS", help=help_of_limit)
    workers = parser.add_mutually_exclusive_group()
    workers.add_argument("--processes", type=positive, default=os.cpu_count(), metavar="N", help="default: all processors")
    workers.add_argument("--dask", metavar="ADDRESS", help="scheduler, such as tcp://10.0.0.1:8786")
