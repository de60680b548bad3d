"""What the program does if a system call or a request for memory fails, or transfers one byte."""

import os
import subprocess

from support.commands import MAKING, replaced_by
from support.compiled import needs_compiler, preloaded
from support.files import EXAMPLES, ONE, PAIR, read, report, table
from support.flashes import flash_of
from support.printed import CANNOT_MAKE, DONE
from support.program import ProgramTest, error_line, shown
from support.stories import flash_in
from support.worked import (
    BACK, NEEDS, NO_SESSION, NO_TRIAL, NOT_UP, PLAIN, SCRIPT, SUM_OF_WRITES, TRIED, USUAL, cut_at, ended, event_of,
    numbered
)

# The files to which support/c/calls.c writes its counts.
COUNTS = ("count", "taken", "wrong")

# The faults after which a call has failed, and those that change each call that reads or writes, and not the result of
# a run.
FAILING, HARMLESS = ("fail", "nothing"), ("interrupt", "trickle")

NO_MEMORY = (1, b"", b"error: memory\n")


@needs_compiler
class FaultTest(ProgramTest):
    def with_fault(self, fault, at=0):
        """The environment of a run in which call N has this fault.

        The library writes three files: `count` has the number of such calls, `taken` the number of bytes read, and
        `wrong` what the call with the fault was to do.
        """
        count, taken, wrong = (f"{self.folder}/{name}" for name in COUNTS)
        env = {**preloaded(self, "calls"), "FAULT": fault, "FAULT_AT": str(at)}
        return {**env, "FAULT_COUNT": count, "FAULT_READ": taken, "FAULT_WRONG": wrong}

    def number_in(self, name):
        """The number in this file after a run with a fault."""
        return int(read(f"{self.folder}/{name}"))

    def wrong_call(self):
        """What the call with the fault was to do in the last run: nothing if there was none, or if it was a memory
        request."""
        return read(f"{self.folder}/wrong").decode().strip()

    def each_fault(self, fault, run):
        """Runs once for each call of this kind, with the fault in this call, and yields its number and how the run
        ends."""
        # Call 0 doesn't exist. This run counts the calls.
        yield 0, run(self.with_fault(fault))
        for at in range(1, self.number_in("count") + 1):
            yield at, run(self.with_fault(fault, at))


def is_end_after(fault, got, usual):
    """Whether a run may end so after a fault, if it usually ends in this other way. Notes may be left out from one
    on."""
    status, out, err = got
    if b"note: " in usual[2] and got[:2] == usual[:2] and usual[2].startswith(err):
        return True
    if fault == "memory":
        return (status, out, error_line(err)) == NO_MEMORY
    if fault not in FAILING:
        return False
    is_told = error_line(err).startswith(b"error: cannot read ") and not out
    return status == 1 and usual[1].startswith(out) and (is_told or usual[2].startswith(err))


def runs_with_faults():
    """Runs of each command, with each kind of result."""
    full = [table("full"), report("full")]
    yield from [[], ["choose", full[0]], ["check", *full], ["check", "-", report("pair")], ["choose", "absent"]]
    yield from [["choose", table("groups"), "--json"], ["check", table("pair"), table("three")]]
    yield from [["image", f"{EXAMPLES}/images/either.img"], ["image", f"{EXAMPLES}/images/either.img", "--json"]]
    yield ["manifest", PAIR, f"{EXAMPLES}/manifests/both.json"]
    yield from [["show", PAIR, "flash"], ["show", PAIR, "gone", "--json"], ["slots", PAIR, "flash"]]
    yield ["make-device", "--sector", "512", "--slots", "2,2", "--vendor", "python.org", "--class", "sensor"]
    files = [f"--test=0={EXAMPLES}/images/needing.img", f"--permanent=1={EXAMPLES}/images/padded.img"]
    yield from [["make-manifest", PAIR, "--sequence", "1", "--precursor", "flash", *files], ["codes"]]
    yield from [["sweep", "--sample=1", PAIR, SCRIPT, ONE, ONE], ["sweep", PAIR, SCRIPT, ONE, "gone"]]
    yield from [["frob"], [b"\xff"], ["check", "-", "-"], ["make-image", "a", "b", "--version=x"]]
    yield from [["--help"], ["--version"], ["help", "man", "run"], ["help", "completions", "bash"]]


def explained_runs():
    """Runs with `--explain`: a refused table, a refused report, refused requests, and malformed files."""
    yield from [["choose", "-"], ["choose", table("neither")], ["check", table("pair"), report("three")]]
    yield from [["image", PAIR], ["manifest", PAIR, "-"], ["show", PAIR, "gone"], ["slots", PAIR, "flash"]]
    yield from [["sweep", PAIR, "-", ONE, ONE], ["sweep", PAIR, SCRIPT, PAIR, ONE]]


class CommandFaultTest(FaultTest):
    """Commands that read."""

    def check_faults(self, arguments, given, harmless):
        """Each open, read, write and allocation of a run fails in turn. Reads and writes transfer one byte, in turn or
        all of them, or every other one is interrupted."""
        usual = self.run_program(arguments, given=given)
        run = lambda env: self.run_program(arguments, given=given, env=env)
        for fault in ("fail", "nothing", "short", "memory"):
            with self.subTest(f"{fault}: {shown(map(str, arguments))}"):
                for at, got in self.each_fault(fault, run):
                    if got != usual:
                        is_right = is_end_after(fault, without_later_notes(fault, got), usual)
                        self.assertTrue(is_right, f"at call {at}: {got}")
        for fault in harmless:
            with self.subTest(f"{fault}: {shown(map(str, arguments))}"):
                self.assertEqual(usual, run(self.with_fault(fault)))

    def test_a_failed_call_is_reported(self):
        flash_of(self)
        for arguments in runs_with_faults():
            self.check_faults(arguments, read(table("pair")), HARMLESS)

    def test_a_failed_call_shortens_notes(self):
        """With `--explain` the output is one that the run may have without it, and the notes are the first of the usual
        ones."""
        flash_of(self)
        for arguments in explained_runs():
            self.check_faults([*arguments, "--explain"], b"image 0 1.0.0+0 0 0\nneeds 00 1\n", ())

    def test_a_failed_read_is_all_that_is_printed(self):
        """A read without memory is reported as such."""
        unread = {f"error: cannot read {name}\n".encode() for name in ("-", PAIR, report("pair"))}
        for fault, messages in (("unread", unread), ("starve", {NO_MEMORY[2]})):
            for arguments in (["choose", "-"], ["check", "-", report("pair")], ["image", "-"], ["manifest", PAIR, "-"]):
                with self.subTest(f"{fault}: {shown(arguments)}"):
                    run = lambda env: self.run_program(arguments, given=read(table("pair")), env=env)
                    for at, (status, out, err) in self.each_fault(fault, run):
                        if at > 0:
                            self.assertEqual((1, b""), (status, out), f"at call {at}")
                            self.assertIn(err, messages, f"at call {at}")


def without_later_notes(fault, got):
    """How a run ends whose notes come after an error line."""
    status, out, err = got
    return (status, out, err[: err.index(b"\nnote: ") + 1]) if fault in FAILING and b"\nnote: " in err else got


class ReadAmountTest(FaultTest):
    def test_one_byte_past_the_limit_is_read(self):
        """Of a file that is too long, and nothing of the next file."""
        long, first = self.file("long", 2_000_000 * b" "), self.file("first", b"image 0 1.0.0 0 0\n")
        of_device, of_table = (os.path.getsize(it) for it in (PAIR, f"{self.folder}/first"))
        for arguments, message, most in [
            (["choose", long], "table line 1", 65_537),
            (["check", first, long], "report line 1", of_table + 65_537),
            (["manifest", long, long], "device file", 1_048_577),
            (["manifest", PAIR, long], "long is longer than 1048576 bytes", of_device + 1_048_577),
            (["provision", PAIR, "new", long, long], "image 0 too big", of_device + 1025),
        ]:
            with self.subTest(f"how much is read: {shown(arguments)}"):
                got = self.run_program(arguments, env=self.with_fault("none"))
                self.assertEqual(((1, b"", f"error: {message}\n".encode()), most), (got, self.number_in("taken")))

    def test_only_named_pieces_are_read(self):
        """Of a plain file: to check the line, and for the event."""
        flash = len(flash_of(self))
        self.file("long", 2_000_000 * b" ")
        script = self.file("script", b"boot\npiece 0 long 5 10\npiece 1 long 1999000 1000\n")
        got = self.run_program(["run", PAIR, "flash", script], env=self.with_fault("none"))
        most = os.path.getsize(PAIR) + flash + os.path.getsize(f"{self.folder}/script") + 2 * (10 + 1000)
        self.assertEqual((ended([PLAIN, *2 * [NO_SESSION]], 1), most), (got, self.number_in("taken")))


# The calls that a command can't do without: if they fail, nothing was written, or not all of it is on the disk.
NEEDED = ("sync", "write", "link", "rename", "remove", "change", "draw", "print")


def is_made_after(fault, wrong, got, left, kept, made, refusal):
    """Whether a command that makes a file may end so and leave these files.

    It found the files `kept`, and usually leaves `made`. `wrong` is what the call with the fault was to do, and
    `refusal` how the command ends if the file can't be made.
    """
    status, out, err = got
    if got == DONE:
        return left == made and wrong not in NEEDED
    # The reply is written last, and this may fail.
    if fault in FAILING and status == 1 and not err and b"done\n".startswith(out) and left == made:
        return True
    if fault == "memory":
        return got == NO_MEMORY and left == kept
    # The file takes its name before the folder is synced, and before its temporary name is removed.
    if got == refusal and wrong in ("sync", "remove") and left == made:
        return fault in FAILING
    is_told = got == refusal or (status == 1 and err.startswith(b"error: cannot read "))
    return fault in FAILING and is_told and not out and left == kept


class MakingFaultTest(FaultTest):
    def test_a_file_is_as_it_was_or_complete(self):
        """And no other file is left."""
        self.file("body", b"ABCD")
        for arguments, file, refusal in MAKING:
            path = f"{self.folder}/{file}"
            flash_of(self)
            self.run_program(arguments)
            whole = read(path)
            others = {*os.listdir(self.folder), *COUNTS, "calls.so"} - {file}
            for old in (None, replaced_by(arguments, whole)):
                kept, made = {} if old is None else {file: old}, {file: whole}

                def run(env):
                    if old is None and os.path.exists(path):
                        os.remove(path)
                    elif old is not None:
                        self.file(file, old)
                    got = self.run_program(arguments, env=env)
                    return got, {it: read(f"{self.folder}/{it}") for it in os.listdir(self.folder) if it not in others}

                name = f"{arguments[0]} of a file {'that is there' if old else 'that is new'}"
                for fault in ("fail", "nothing", "short", "memory"):
                    with self.subTest(f"{fault}: {name}"):
                        for at, (got, left) in self.each_fault(fault, run):
                            wrong = self.wrong_call()
                            is_right = is_made_after(fault, wrong, got, left, kept, made, refusal)
                            self.assertTrue(is_right, f"at call {at}, to {wrong}: {got}, {sorted(left)}")
                for fault in HARMLESS:
                    with self.subTest(f"{fault}: {name}"):
                        self.assertEqual((DONE, made), run(self.with_fault(fault)))


# How many calls `run --durable` adds to one sync for each write. It looks up the folder, opens it and closes it. Before
# the first event it syncs the file and the folder, checks that the name leads to the file (two calls), and the length
# of the file. At the end it syncs the folder again.
SYNCED_ONCE = 3 + 5 + 1


def outputs_without_memory():
    """The outputs of the worked run if its `accept` gets no memory: nothing is requested then."""
    idle = [*4 * [NO_SESSION], PLAIN, NO_TRIAL, PLAIN, PLAIN]
    for refusal in ("manifest 8 NoMemory", "upload 11 NoMemory", "boot 8 NoMemory"):
        yield numbered([PLAIN, f"refused {refusal}", *idle])


def outputs_without_file():
    """The outputs of the worked run if the flash file takes no more writes, from each write on."""
    for number in range(1, SUM_OF_WRITES + 1):
        for torn in ("keep", "done"):
            replies, _, _ = cut_at(number, torn)
            # A boot that has something to write is interrupted too, and so is each boot after it.
            for at in range(event_of(number) + 1, 10):
                if replies[at].split("|")[0] in ("trial", "reverted 0 1"):
                    replies[at:] = ["cut" if later in (6, 8, 9) else NOT_UP for later in range(at, 10)]
                    break
            yield numbered(replies)


def is_run_after(fault, wrong, got, kept, flashes):
    """Whether the worked run may end so, with these bytes in the flash file.

    `wrong` is what the call with the fault was to do. `flashes` has the contents of the file before the run, and after
    each of its events. """
    status, out, err = got
    if (got, kept) == (ended(USUAL), flashes[-1]):
        return wrong not in NEEDED
    if (fault, wrong, got) == ("fail", "open", (4, b"", CANNOT_MAKE)):
        return kept == flashes[0]
    if fault == "fail" and wrong in ("sync", "write") and (status, err) != (4, CANNOT_MAKE):
        return False
    message = max(at for at in range(len(USUAL)) if out.startswith(numbered(USUAL[:at])))
    # Each event whose reply was printed is done, and so is the one whose reply could not be printed whole. Memory may
    # also lack for the next event.
    is_stopped = kept == flashes[message + 1] or fault == "memory" and kept == flashes[message]
    if fault == "memory":
        is_refused = (status, err) == (0, b"") and out in outputs_without_memory() and kept == flashes[0]
        return is_refused or got == ended(USUAL[:message], 1, NO_MEMORY[2]) and is_stopped
    if fault != "fail":
        return False
    if status == 4:
        # The last call that can fail is the sync at the end.
        is_unsynced = (out, kept) == (numbered(USUAL), flashes[-1])
        return err == CANNOT_MAKE and (is_unsynced or out in {*outputs_without_file()})
    # A file that a line names is read again for its event.
    is_unread = err.startswith(b"error: cannot read ") and out == numbered(USUAL[:message]) and kept == flashes[message]
    return status == 1 and (is_unread or not err and numbered(USUAL).startswith(out) and is_stopped)


class RunFaultTest(FaultTest):
    def setUp(self):
        super().setUp()
        self.before = flash_of(self)

    def run_worked(self, options, env=os.environ):
        self.file("flash", self.before)
        return self.run_program(["run", *options, PAIR, "flash", SCRIPT], env=env), flash_in(self)

    def boots(self):
        """A device boots from the flash file that a run left, with its images or with the decision of a boot."""
        got = self.run_program(["run", PAIR, "flash", "-"], given=b"boot\n")
        self.assertIn(got, [ended([reply]) for reply in (PLAIN, NEEDS, TRIED, BACK)])

    def test_a_run_with_a_fault_leaves_what_it_replied(self):
        """The worked run, with the contents of its flash file, and a boot from it."""
        lines, flashes, calls = read(SCRIPT).splitlines(keepends=True), [self.before], {}
        for count in range(1, len(lines) + 1):
            self.file("flash", self.before)
            self.run_program(["run", PAIR, "flash", "-"], given=b"".join(lines[:count]))
            flashes.append(flash_in(self))
        for options in ([], ["--durable"]):
            for fault in ("fail", "short", "memory"):
                with self.subTest(f"{fault}: run {options} of a device"):
                    for at, (got, kept) in self.each_fault(fault, lambda env: self.run_worked(options, env)):
                        wrong = self.wrong_call()
                        # Before the first event `--durable` syncs the file.
                        is_unsure = bool(options) and fault == "fail" and got == (4, b"", CANNOT_MAKE)
                        is_right = is_unsure and kept == self.before or is_run_after(fault, wrong, got, kept, flashes)
                        self.assertTrue(is_right, f"at call {at}, to {wrong}: {got}")
                        self.boots()
                    calls[len(options), fault] = at
            for fault in HARMLESS:
                with self.subTest(f"{fault}: run {options} of a device"):
                    self.assertEqual((ended(USUAL), flashes[-1]), self.run_worked(options, self.with_fault(fault)))
        # The calls that `--durable` adds: the syncs, and the calls on the folder.
        self.assertEqual(SUM_OF_WRITES + SYNCED_ONCE, calls[1, "fail"] - calls[0, "fail"])

    def test_notes_on_the_last_reply_come_before_an_error(self):
        """With `--json --explain`."""
        self.file("script", f"boot\nconfirm 0\naccept {EXAMPLES}/manifests/trial.json\n".encode())

        def run(env=os.environ):
            self.file("flash", self.before)
            arguments = ["run", "--json", "--explain", PAIR, "flash", "script"]
            return self.run_program(arguments, env=env, stderr=subprocess.STDOUT)[:2]

        status, out = run()
        refused, noted = [line for line in out.splitlines(keepends=True) if line.startswith(b'{"event":2,')]
        self.assertEqual((0, True, True), (status, b'"refused"' in refused, b'"notes"' in noted))
        ends = [got for _, got in self.each_fault("fail", run) if b'"kind":"cannot_read"' in got[1]]
        before = {(status, text.split(b'{"error":')[0]) for status, text in ends if refused in text}
        self.assertEqual({(1, out[: out.index(noted) + len(noted)])}, before)
