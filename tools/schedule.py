"""Which crates a build starts next, and how many processes check each.

A crate is checked by one process while others keep the other processors busy: a second process costs a fifth to a half more
CPU time, since each reads the libraries below for itself. Near the end of a build fewer crates are ready than processors are
free. There a crate gets several processes. Their number is fixed when its check starts.
"""

# How long the check of a crate takes, in CPU-seconds, as measured in a first build on 4 processors. Lines are a poor guess of
# it: much of `command_line` and `manifest` is what `clap` and JSON bring.
SECONDS = {
    "arguments": 190, "boot_cli": 140, "boot_core": 161, "bootswap": 70, "bootswap_core": 50, "c_interface": 150,
    "certificate": 10, "checker": 63, "chooser": 61, "command_line": 123, "common": 28, "creating": 142,
    "decision": 39, "device_commands": 100, "device_texts": 105, "explaining": 300, "flash_contents": 20,
    "flash_model": 72, "host": 70, "image_header": 31, "image_reading": 106, "inputs": 120, "inspecting": 250,
    "machine": 40, "manifest": 86, "manifest_interface": 60, "reports": 140, "sector_map": 33, "set_log": 68,
    "slice_flash": 45, "swap_scratch": 35, "sweep": 220, "system_host": 224, "tlv": 53, "trailer": 75, "upload": 106,
    "validity": 41, "version_order": 27,
}

# More processes than these hardly make the check of a crate faster.
MOST_JOBS = 4

# What each further process of a check costs, as a part of the CPU time that one process takes.
FURTHER = 0.3


class Schedule:
    """The crates of a build: those that are left, and those that run, each with its number of processes."""

    def __init__(self, crates, left, processors, most):
        """Takes the crates of a build, those of them that aren't built, the number of processors, and how many processes the
        memory allows."""
        self.left, self.running, self.processors, self.most = left, {}, processors, most
        # How long the checks take that have to follow each other, from a crate on.
        self.chain = {it: it.seconds for it in crates}
        for crate in reversed(crates):
            for it in crate.own:
                self.chain[it] = max(self.chain[it], it.seconds + self.chain[crate])

    def started(self):
        """Starts the crates that are ready, those with the longest chain first, and returns each with its number of
        processes."""
        waits = {*self.left, *self.running}
        ready = [it for it in self.left if waits.isdisjoint(it.below())]
        ready.sort(key=lambda it: -self.chain[it])
        ready = ready[: self.processors - len(self.running)]
        started = {}
        for number, crate in enumerate(ready):
            room = self.most - sum(self.running.values())
            if room > 0:
                started[crate] = min(self.jobs_of(crate, len(ready) - number), room)
                self.running[crate] = started[crate]
                self.left.remove(crate)
        return started

    def jobs_of(self, crate, ready):
        """Returns how many processes check a crate, which is one of some that are ready: its share of the free processors.

        If its chain takes longer than the rest of the build would on all processors, it gets one more than are free. From a
        third on, a part of a process counts as one: the last crates of the chain otherwise leave processors idle.
        """
        free = max(self.processors - sum(self.running.values()), 0)
        rest = sum(it.seconds for it in [*self.left, *self.running]) / self.processors
        share, wanted = -(-free // ready), min(int(self.chain[crate] / rest + 2 / 3), free + 1)
        return min(max(1, share, wanted), MOST_JOBS)

    def end(self, crate):
        del self.running[crate]


def expected(crates, left, processors, most):
    """Returns how many seconds a build takes on idle processors, and how many CPU-seconds: of these crates those that are
    left, scheduled as above."""
    schedule, ends, clock, used = Schedule(crates, [*left], processors, most), {}, 0, 0
    while schedule.left or ends:
        for crate, jobs in schedule.started().items():
            seconds = crate.seconds * (1 + FURTHER * (jobs - 1))
            ends[crate], used = clock + seconds / jobs, used + seconds
        first = min(ends, key=ends.get)
        clock = ends.pop(first)
        schedule.end(first)
    return clock, used
