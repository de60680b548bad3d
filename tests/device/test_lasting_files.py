"""How commands make files that survive a crash: when these reach the disk, who may use them, and what other programs
may do."""

import errno
import functools
import os
import re
import shlex
import stat

from support.compiled import needs_compiler, preloaded
from support.files import EXAMPLES, ONE, PAIR, read
from support.printed import CANNOT_MAKE, IN_USE
from support.program import ProgramTest
from support.stories import flash_in, new_device
from support.worked import PLAIN, SCRIPT, ended, numbered

PATCHED = f"{EXAMPLES}/images/patched.img"

# The name of a new file until it takes its own.
NEW = r"\.bootswap-[0-9a-f]{16}"


def cannot_write(name):
    return 1, b"", f"error: cannot write {name}\n".encode()


# The commands that make the file `made`: their arguments, and how they end if it can't be made or is in use.
IMAGE_IN_USE = (1, b"", b"error: image in use\n")
MAKING = [
    (["provision", PAIR, "made", ONE, ONE, "--force"], (4, b"", CANNOT_MAKE), (1, b"", IN_USE)),
    (["make-image", "made", "body", "--version=1", "--force"], cannot_write("made"), IMAGE_IN_USE),
    (["extract", PAIR, "flash", "0", "primary", "made", "--force"], cannot_write("made"), IMAGE_IN_USE),
    (["sweep", "--sample=1", "--svg", "made", "--force", PAIR, SCRIPT, ONE, ONE], *2 * [cannot_write("made")]),
]

# The permissions of files that are replaced. Only root may write to a file that nobody may write.
MODES = [0o640, 0o600, 0o666, *([0o444] if os.getuid() == 0 else [])]


def of_each_command(test):
    """Makes a test of one for each command: it gets the command's arguments, what it makes, and how it ends
    otherwise."""

    @functools.wraps(test)
    def test_of_each(self):
        for arguments, refusal, in_use in MAKING:
            with self.subTest(f"{test.__name__}: {arguments[0]}"):
                self.put("made", None)
                self.assertEqual((0, b"", b""), self.make(arguments))
                test(self, arguments, self.contents(), refusal, in_use)

    return test_of_each


@needs_compiler
class StagedTest(ProgramTest):
    """A test with support/c/calls.c, beside a new flash."""

    def setUp(self):
        super().setUp()
        self.new, self.made, self.name = new_device(self), f"{self.folder}/made", os.path.basename(self.folder)
        self.file("body", b"ABCD")

    def staged(self, at=None, do="", fail=None, error=0, **more):
        """The environment of a run that logs its calls, with the command `do` run before one of them, or some
        failing."""
        log = f"{self.folder}/log"
        if os.path.exists(log):
            os.remove(log)
        env = {**preloaded(self, "calls"), "STAGE_LOG": log, **{name: str(it) for name, it in more.items()}}
        env |= {} if at is None else {"STAGE_AT": at, "STAGE_DO": do}
        return env | ({} if fail is None else {"STAGE_FAIL": fail, "STAGE_ERROR": str(error)})

    def calls(self, *names):
        """The logged calls on new files, on the folder, and on these files."""
        text = re.sub(NEW, "NEW", read(f"{self.folder}/log").decode().replace(self.name, "FOLDER"))
        return [it for it in text.splitlines() if {"NEW", "FOLDER", *names} & {*it.split()[1:]}]

    def put(self, name, bytes, mode=0o644):
        """Makes a file with these contents, or removes it."""
        path = f"{self.folder}/{name}"
        if os.path.lexists(path):
            os.remove(path)
        if bytes is not None:
            os.chmod(f"{self.folder}/{self.file(name, bytes)}", mode)

    def contents(self, name="made"):
        path = f"{self.folder}/{name}"
        return os.readlink(path) if os.path.islink(path) else read(path) if os.path.exists(path) else None

    def mode(self):
        return stat.S_IMODE(os.stat(self.made).st_mode)

    def left_over(self):
        return [it for it in os.listdir(self.folder) if it.startswith(".bootswap-")]

    def make(self, arguments, **how):
        """How a command ends, without the answer of a sweep."""
        status, out, err = self.run_program(arguments, env=self.staged(**how))
        return (status, b"", err) if arguments[0] == "sweep" or status == 0 else (status, out, err)

    def others(self, *commands):
        """A shell command that runs the program with each of these arguments, and records what it prints and its
        status."""
        run = lambda arguments: " ".join(map(shlex.quote, [self.program, *arguments]))
        return " ; ".join([*(f"{{ {run(it)} ; echo $? ; }} >>said 2>&1 </dev/null" for it in commands), "true"])


class NewFileTest(StagedTest):
    @of_each_command
    def test_a_new_file_is_on_the_disk_before_it_takes_its_name(self, arguments, whole, refusal, in_use):
        """And its name before the command ends."""
        self.put("made", None)
        self.assertEqual((0, b"", b""), self.make(arguments))
        begin = ["folder FOLDER", "make NEW 666", "lock NEW", "write NEW", "sync NEW"]
        self.assertEqual([*begin, "link NEW made", "remove NEW", "sync FOLDER"], self.calls("made"))

    @of_each_command
    def test_a_file_is_replaced_with_its_mode(self, arguments, whole, refusal, in_use):
        for mode in MODES:
            self.put("made", b"old", mode)
            self.assertEqual(((0, b"", b""), mode), (self.make(arguments), self.mode()))
            begin = ["open made", "lock made", "folder FOLDER", f"make NEW {mode & 0o600:o}", "lock NEW", "write NEW"]
            end = [f"change NEW {mode:o}", "sync NEW", "rename NEW made", "sync FOLDER"]
            self.assertEqual([*begin, *end], self.calls("made"))

    @of_each_command
    def test_a_folder_that_cannot_be_synced_at_all_is_no_fault(self, arguments, whole, refusal, in_use):
        """A sync that fails is reported."""
        for old in (None, b"old"):
            for call, error, ends, left in [
                ("sync", errno.EIO, refusal, whole),
                ("sync", errno.EINVAL, (0, b"", b""), whole),
                ("sync", errno.EOPNOTSUPP, (0, b"", b""), whole),
                ("folder", errno.EACCES, (0, b"", b""), whole),
                ("folder", errno.EIO, refusal, old),
            ]:
                self.put("made", old)
                got = self.make(arguments, fail=f"{call} {self.name}", error=error)
                found = got, self.contents(), self.left_over()
                self.assertEqual((ends, left, []), found, (call, os.strerror(error), old))

    @of_each_command
    def test_a_file_that_another_program_puts_there_stays(self, arguments, whole, refusal, in_use):
        for do, left in [("printf another >made", b"another"), ("ln -s nowhere made", "nowhere")]:
            self.put("made", None)
            got = self.make(arguments, at="link", do=do)
            self.assertEqual((in_use, left, []), (got, self.contents(), self.left_over()))

    def test_the_later_of_two_makers_is_refused(self):
        self.run_program(["provision", PAIR, "flash", PATCHED, ONE])
        second, run = ["provision", PAIR, "made", PATCHED, ONE], ["run", PAIR, "made", self.file("boots", b"boot\n")]
        got = self.make(["provision", PAIR, "made", ONE, ONE], at="link", do=self.others(second, run))
        self.assertEqual(((1, b"", IN_USE), flash_in(self)), (got, self.contents()))
        booted = numbered(["plain|run 0 1.1.0+0|run 1 1.0.0+0"])
        self.assertEqual(b"done\n0\n" + booted + b"0\n", self.contents("said"))

    @of_each_command
    def test_a_file_system_may_have_no_hard_links(self, arguments, whole, refusal, in_use):
        umask = os.umask(0)
        os.umask(umask)
        for error in (errno.EPERM, errno.EOPNOTSUPP, errno.ENOSYS, errno.EMLINK):
            self.put("made", None)
            self.assertEqual((0, b"", b""), self.make(arguments, fail="link", error=error))
            end = ["link NEW made", "make made 600", "lock made", "rename NEW made", "sync FOLDER"]
            self.assertEqual((end, whole, []), (self.calls("made")[5:], self.contents(), self.left_over()))
            self.assertEqual(0o666 & ~umask, self.mode())
        self.put("made", None)
        how = {"at": "make made", "do": "printf another >made", "fail": "link", "error": errno.EPERM}
        self.assertEqual((in_use, b"another", []), (self.make(arguments, **how), self.contents(), self.left_over()))

    @of_each_command
    def test_a_name_may_have_the_longest_length(self, arguments, whole, refusal, in_use):
        long = 255 * "n"
        for _ in ("a new file", "a file that is replaced"):
            self.assertEqual(0, self.run_program([long if it == "made" else it for it in arguments])[0])
            self.assertEqual(whole, self.contents(long))
        os.remove(f"{self.folder}/{long}")

    @of_each_command
    def test_the_next_run_ignores_what_a_killed_run_left(self, arguments, whole, refusal, in_use):
        for at, old, held in [
            ("write .bootswap-", None, None), ("link", None, None), ("remove", None, whole), ("rename", b"old", b"old")
        ]:
            self.put("made", old)
            self.assertEqual(-9, self.make(arguments, at=at, do="kill -9 $PPID")[0])
            left = self.left_over()
            self.assertEqual((held, True), (self.contents(), len(left) == 1 and bool(re.fullmatch(NEW, left[0]))), at)
            self.assertEqual((0, b"", b""), self.make(arguments))
            self.assertEqual((whole, left), (self.contents(), self.left_over()), at)
            os.remove(f"{self.folder}/{left[0]}")


class ReplacedFileTest(StagedTest):
    def test_a_flash_is_held_while_it_is_made(self):
        """The file that is replaced, and the new one from its making until the command ends."""
        arguments, boot = ["provision", PAIR, "made", ONE, ONE], ["run", PAIR, "made", self.file("boots", b"boot\n")]
        end = f"sync {self.name}"
        for old, at in [(self.new, "rename"), (self.new, end), (None, "remove"), (None, end)]:
            with self.subTest(f"others before its {at.split()[0]}"):
                self.put("made", old)
                self.put("said", None)
                self.assertEqual((0, b"", b""), self.make(arguments, at=at, do=self.others(boot, arguments)))
                self.assertEqual(2 * (IN_USE + b"1\n"), self.contents("said"))

    @of_each_command
    def test_what_takes_the_name_meanwhile_stays(self, arguments, whole, refusal, in_use):
        """A command replaces the file that it looked up and holds."""
        own, link = "printf own >part && mv part made", "ln -sf other made"
        for at, do, left in [
            ("open made", link, "other"), ("write .bootswap-", own, b"own"), ("write .bootswap-", link, "other"),
            ("sync .bootswap-", "rm made", None),
        ]:
            self.put("made", b"old", 0o640)
            self.put("other", b"another's", 0o600)
            got = self.make(arguments, at=at, do=do)
            self.assertEqual((in_use, left, []), (got, self.contents(), self.left_over()), (at, do))
            self.assertEqual(b"another's", self.contents("other"))

    @of_each_command
    def test_a_link_is_followed_once(self, arguments, whole, refusal, in_use):
        """What is checked is what is replaced. Each command replaces an empty file."""
        self.put("made", b"")
        self.put("other", read(PATCHED))
        self.put("by-link", None)
        os.symlink("made", f"{self.folder}/by-link")
        by_link = ["by-link" if it == "made" else it for it in arguments if it != "--force"]
        self.assertEqual((0, b"", b""), self.make(by_link, at="open made", do="ln -sf other by-link"))
        self.assertEqual((whole, read(PATCHED)), (self.contents(), self.contents("other")))

    def test_a_link_is_compared_with_the_inputs_when_it_is_followed(self):
        for arguments, what in [
            (["provision", "input", "by-link", ONE, ONE], "flash"),
            (["make-image", "by-link", "input", "--version=1", "--force"], "image"),
            (["extract", "input", "flash", "0", "primary", "by-link", "--force"], "image"),
            (["sweep", "--sample=1", "--svg=by-link", "input", SCRIPT, ONE, ONE], "picture"),
        ]:
            with self.subTest(arguments[0]):
                self.put("made", b"")
                self.put("input", read(PAIR))
                self.put("by-link", None)
                os.symlink("made", f"{self.folder}/by-link")
                got = self.make(arguments, at="look by-link", do="ln -sf input by-link")
                self.assertEqual((1, b"", f"error: {what} is an input\n".encode()), got)
                self.assertEqual((b"", read(PAIR)), (self.contents(), self.contents("input")))

    @of_each_command
    def test_a_file_of_another_user_loses_its_identity_bits(self, arguments, whole, refusal, in_use):
        """It doesn't have the set-user-ID or set-group-ID bits of the one that it replaces."""
        for what, kept in (("STAGE_UID_OF", 0), ("STAGE_GID_OF", 0), (None, 0o6000)):
            self.put("made", b"old", 0o6755)
            how = {} if what is None else {what: os.stat(self.made).st_ino}
            self.assertEqual(((0, b"", b""), 0o755 | kept), (self.make(arguments, **how), self.mode()), what)


# A script whose first event writes nothing, and whose second event writes.
ACCEPTS, ACCEPTED = b"boot\naccept trial.json\n", ended([PLAIN, "done"])
FAILED = (4, b"", CANNOT_MAKE)


class DurableRunTest(StagedTest):
    def steps(self, *kinds):
        """The logged calls of these kinds."""
        text = read(f"{self.folder}/log").decode().replace(self.name, "FOLDER")
        return [it for it in text.splitlines() if it.split()[0] in kinds]

    def run_device(self, *words, flash="flash", given=ACCEPTS, **how):
        self.put("flash", self.new)
        env, streams = self.staged(**{it: how.pop(it) for it in ("at", "do", "fail", "error") if it in how}), how
        return self.run_program(["run", *words, PAIR, flash, "-"], given=given, env=env, **streams)

    def test_a_durable_run_syncs_before_its_first_event(self):
        """The file and its name. Each run syncs the file at its end."""
        os.symlink("flash", f"{self.folder}/by-link")
        for flash in ("flash", "by-link"):
            with self.subTest(f"run {flash}"):
                self.assertEqual(ACCEPTED, self.run_device("--durable", flash=flash))
                first = self.steps("sync", "write", "print")[:3]
                self.assertEqual(["sync flash", "sync FOLDER", "print"], [*first[:2], first[2].split()[0]])
                self.assertEqual(ACCEPTED, self.run_device(flash=flash))
                steps = self.steps("sync", "write")
                self.assertEqual(("write flash", "sync flash"), (steps[0], steps[-1]))
                self.assertNotIn("sync FOLDER", steps)

    def test_a_durable_run_whose_sync_fails_runs_nothing(self):
        for call in ("sync flash", f"sync {self.name}"):
            self.assertEqual(FAILED, self.run_device("--durable", fail=call, error=errno.EIO), call)
            self.assertEqual(self.new, flash_in(self))

    def test_a_run_that_ends_early_syncs_its_file(self):
        """And reports if this fails."""
        manifest = read(f"{self.folder}/trial.json")
        for how in ({}, {"fail": "sync flash", "error": errno.EIO}):
            with self.subTest(f"a run that ends early {how}"):
                self.file("trial.json", manifest)
                with open("/dev/full", "wb") as full:
                    got = self.run_device(stdout=full, **how)
                self.assertEqual(FAILED if how else (1, b"", b""), got)
                self.assertEqual("sync flash", self.steps("sync", "write")[-1])
                got = self.run_device(at="print", do="rm trial.json", **how)
                gone = ended([PLAIN], 1, b"error: cannot read trial.json\n")
                self.assertEqual(ended([PLAIN], 4, CANNOT_MAKE) if how else gone, got)
                self.assertEqual("sync flash", self.steps("sync", "write")[-1])

    def test_a_write_that_fails_comes_before_a_reply_that_does(self):
        """The first reply fits in its file, and the second one doesn't. No write of the flash fits."""
        reply = numbered([PLAIN])
        with open(f"{self.folder}/output", "wb") as output:
            got = self.run_device(stdout=output, most=len(reply))
        self.assertEqual((FAILED, reply), (got, self.contents("output")))

    def test_a_write_that_fails_is_explained(self):
        status, _, err = self.run_device("--explain", fail="write flash", error=errno.ENOSPC)
        self.assertEqual(4, status)
        self.assertIn(CANNOT_MAKE + f"note: flash: {os.strerror(errno.ENOSPC)}".encode(), err)

    def test_a_run_ends_with_an_error_if_its_flash_is_lost(self):
        usual = [PLAIN, "done", PLAIN]
        for flash, do in [
            ("flash", "rm flash"),
            ("flash", "mv flash moved"),
            ("flash", "cp flash part && mv part flash"),
            ("flash", "truncate -s 8191 flash"),
            ("flash", "truncate -s 8193 flash"),
            ("by-link", "cp flash part && ln -sf part by-link"),
            ("by-link", "rm by-link"),
            # The file is behind a link, and not lost.
            ("flash", "mv flash moved && ln -s moved flash"),
        ]:
            for option in ([], ["--durable"]):
                with self.subTest(f"run {option} and `{do}` meanwhile"):
                    for name in ("flash", "by-link", "moved"):
                        self.put(name, None)
                    os.symlink("flash", f"{self.folder}/by-link")
                    got = self.run_device(*option, flash=flash, given=ACCEPTS + b"boot\n", at="print", do=do)
                    self.assertEqual(ended(usual) if "ln -s moved" in do else ended(usual, 4, CANNOT_MAKE), got)
