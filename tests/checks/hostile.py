#!/usr/bin/env python3
"""Runs with a file of progress that can't be one, that isn't the run's own, or that another run has.

    tests/checks/hostile.py [PROGRAM]    PROGRAM: crates/cdc_app/out/cdc_app

Each case has a folder of its own. A run that is refused reports it in the last line of standard output, names the file on standard
error, and leaves the folder as it was; one that isn't leaves the record, in the file that was named, and no other file. If the
check is run as root, the program is run as nobody, so that modes and owners count.

Runs that may not have all their threads, or whose address space is small, are out of memory. A run that comes while another
one is held in a save is refused, and so is one whose file something else writes meanwhile; without a C compiler, cc, these
parts are left out, and a line reports it. Then runs are ended
halfway, by SIGTERM and by a standard output that nobody reads any more: the file holds a whole record, or isn't there; the
file next to it holds at most a prefix of a record, and the next run removes it.

The last line is `hostile: N passed, M failed`; the status is 1 where one failed.
"""
import contextlib
import fcntl
import os
import random
import re
import resource
import shutil
import signal
import stat
import subprocess
import sys
import time

sys.dont_write_bytecode = True
sys.path.insert(0, os.path.join(os.path.dirname(os.path.realpath(__file__)), "..", "common"))
import checked
import ending
import holding
import nobody
import scripts

SCRIPT = b"""subscriber all
accounts 1000
account id=1 ledger=700 code=10
account id=2 ledger=700 code=10
transfers 2000
transfer id=1 debit_account_id=1 credit_account_id=2 amount=100 ledger=700 code=1
"""
# What a run of the script prints, the first time and where its one event was confirmed before.
BATCHES = b"batch 1: 0 0\nbatch 2: 0\n"
PRINTED = BATCHES + b"subscriber 1 applied 1 last 2000 ended yes closed no\naccount 1 0 100 0 0\naccount 2 0 0 0 100\n"
PRINTED_LATER = BATCHES + b"subscriber 1 applied 0 last 0 ended yes closed no\n"
STORE = b"fault: store\n"
NO_MEMORY = b"fault: out_of_memory\n"
EXHAUSTED = b"fault: sessions_exhausted\n"
GREATEST = 2**64 - 1
# What standard error reports of a file, after its name: the error of the store, and what to do.
UNREAD = "read_fault: it can't be read, or another run has it: let that one end, or name another file"
UNOPENED = "read_fault: it can't be opened: name a file that can be read, or one that isn't there in a folder that is"
NO_FILE = "read_fault: it is no regular file: name another one"
UNWRITTEN = (
    "write_fault: the record can't be written: the file and its folder have to be writable, no other run may have the file, and "
    "a file at its name with .new appended has to be what a save left"
)
OTHER = "bad_record: it holds something else than a progress record: name another file"
EMPTY = "bad_record: it is empty, and no progress record: name another file, or remove it to start from scratch"
DAMAGED = (
    "bad_record: it begins as a progress record, and isn't a whole one: restore it, or remove it to start from scratch"
)
USED_UP = b"relayplum: sessions_exhausted: the saved session has the greatest number there is\n"
RECORD = re.compile(rb"tb-cdc 2 (0|[1-9][0-9]*) (0|[1-9][0-9]*) (0|[1-9][0-9]*)\n")
# A prefix of a record, as a save leaves it that was broken off.
PREFIX = re.compile(rb"(t|tb|tb-|tb-c|tb-cd|tb-cdc|tb-cdc [0-9 ]*\n?)?")
TRANSFERS, ENDED = 60, 10  # of the long runs; how many of them are ended by each means


def record(session, timestamp, start=0):
    """The text of a progress record."""
    return b"tb-cdc 2 %d %d %d\n" % (session, timestamp, start)


def as_nobody(processes=None, megabytes=None, written=None):
    """Makes a process nobody's, who may have so many processes and threads, and it so much of an address space and so many bytes
    in a file that it writes. The files that it makes have the modes that `plain` has."""
    os.umask(0o022)
    if os.geteuid() == 0:
        nobody.become()
    if processes is not None:
        resource.setrlimit(resource.RLIMIT_NPROC, (processes, processes))
    if megabytes is not None:
        resource.setrlimit(resource.RLIMIT_AS, (megabytes << 20, megabytes << 20))
    if written is not None:
        # (a write beyond the limit fails, and the signal that comes with it ends nothing)
        signal.signal(signal.SIGXFSZ, signal.SIG_IGN)
        resource.setrlimit(resource.RLIMIT_FSIZE, (written, written))


class Hostile(checked.Checks):
    """The cases, and how they ended."""

    def __init__(self, program, room):
        # (nobody has to reach the program)
        super().__init__(f"{room}/program", room)
        os.chmod(room, 0o755)
        shutil.copyfile(program, self.program)
        os.chmod(self.program, 0o755)
        self.folders = 0

    # -- folders

    def folder(self):
        """A new folder, with the script."""
        self.folders += 1
        made = f"{self.room}/{self.folders}"
        os.mkdir(made)
        self.write(made, "script", SCRIPT)
        self.give(made)
        return made

    def give(self, path):
        if os.geteuid() == 0:
            os.chown(path, nobody.NUMBER, nobody.NUMBER, follow_symlinks=False)

    def write(self, folder, name, text, mode=0o644):
        path = f"{folder}/{name}"
        with open(path, "wb") as file:
            file.write(text)
        os.chmod(path, mode)
        self.give(path)

    def make(self, folder, name, how, *arguments):
        how(*arguments, f"{folder}/{name}")
        self.give(f"{folder}/{name}")

    # -- runs

    def start(self, folder, saved, script="script", env=None, options=(), **limits):
        arguments = [self.program, "run", script, "--progress", saved, *options]
        how = {"stdin": subprocess.DEVNULL, "stdout": subprocess.PIPE, "stderr": subprocess.PIPE, "env": env}
        return subprocess.Popen(arguments, cwd=folder, preexec_fn=lambda: as_nobody(**limits), **how)

    def end(self, run):
        """How a run ended: its status, and what it printed; and what it said on standard error."""
        try:
            out, errors = run.communicate(timeout=checked.SECONDS)
        except subprocess.TimeoutExpired:
            run.kill()
            run.communicate()
            return ("none", f"it hasn't ended after {checked.SECONDS} seconds"), b""
        return (run.returncode, out), errors

    def refused(self, what, folder, saved, why, script="script", **limits):
        """A run is refused by its store, and the folder is as it was."""
        before = contents(folder)
        self.is_refused(what, self.end(self.start(folder, saved, script, **limits)), saved, why)
        self.same(f"{what}: what is left", before, contents(folder))

    def is_refused(self, what, ended, saved, why):
        """A run has ended since its store refused the file."""
        self.same(what, ((1, STORE), f"{saved}: store: {why}\n"), (ended[0], ended[1].decode(errors="replace")))

    def done(self, what, folder, saved, printed, changed):
        """A run comes to its end, and changes these files alone, or takes them away."""
        wanted = {**contents(folder), **changed}
        ended, _ = self.end(self.start(folder, saved))
        self.same(what, (0, printed), ended)
        self.same(f"{what}: what is left", {name: it for name, it in wanted.items() if it}, contents(folder))


def contents(folder):
    """What a folder has: of each file its kind, its mode and what it holds, or where a link leads."""
    found = {}
    for at, folders, files in os.walk(folder):
        for name in folders + files:
            path = os.path.join(at, name)
            mode, held = os.lstat(path).st_mode, None
            if stat.S_ISLNK(mode):
                held = os.readlink(path)
            elif stat.S_ISREG(mode):
                held = held_in(path, stat.S_IMODE(mode))
            found[os.path.relpath(path, folder)] = oct(mode), held
    return found


def held_in(path, mode):
    """Returns what a file holds. If its owner may not read it, its mode is another one meanwhile."""
    is_readable = mode & stat.S_IRUSR
    if not is_readable:
        os.chmod(path, mode | stat.S_IRUSR)
    with open(path, "rb") as file:
        held = file.read()
    if not is_readable:
        os.chmod(path, mode)
    return held


def plain(text, mode=0o644):
    return oct(stat.S_IFREG | mode), text


# ---------------------------------------------------------------------------------------------------------------------
# What can't be a file of progress, or may not be replaced.


def unreachable(hostile):
    hostile.refused("a folder that isn't there", hostile.folder(), "nowhere/saved", UNWRITTEN)
    hostile.refused("a path below a file", hostile.folder(), "script/saved", UNOPENED)
    folder = hostile.folder()
    hostile.make(folder, "saved", os.mkdir)
    hostile.refused("a folder", folder, "saved", NO_FILE)
    folder = hostile.folder()
    hostile.make(folder, "saved", os.symlink, "other")
    hostile.make(folder, "other", os.symlink, "saved")
    hostile.refused("links that lead to one another", folder, "saved", UNOPENED)
    folder = hostile.folder()
    hostile.make(folder, "saved", os.symlink, "nowhere")
    hostile.refused("a link that leads nowhere", folder, "saved", UNWRITTEN)
    folder = hostile.folder()
    hostile.make(folder, "saved", os.mkfifo)
    hostile.refused("a pipe", folder, "saved", NO_FILE)
    hostile.refused("a device", hostile.folder(), "/dev/null", NO_FILE)
    hostile.refused("a name that is too long", hostile.folder(), 300 * "x", UNOPENED)
    hostile.refused("a name that is too long with .new appended", hostile.folder(), 252 * "x", UNWRITTEN)
    # (the first byte of a process's memory is never there)
    hostile.refused("a file of which no byte can be read", hostile.folder(), "/proc/self/mem", UNREAD)


def unwritable(hostile):
    folder = hostile.folder()
    hostile.write(folder, "saved", record(3, 0), 0o200)
    hostile.refused("a file that can't be read", folder, "saved", UNREAD)
    folder = hostile.folder()
    hostile.write(folder, "saved", record(3, 0), 0o444)
    hostile.refused("a file that nobody may write", folder, "saved", UNWRITTEN)
    for name, held in (("with a record", True), ("without one", False)):
        folder = hostile.folder()
        if held:
            hostile.write(folder, "saved", record(3, 0))
        os.chmod(folder, 0o555)
        hostile.refused(f"a folder that can't be written, {name}", folder, "saved", UNWRITTEN)


def no_room(hostile):
    """A save whose write fails at once, or halfway, leaves nothing at the new name; the next run finds nothing in its way."""
    for written in (0, 10):
        for held in (None, record(3, 0)):
            folder = hostile.folder()
            if held:
                hostile.write(folder, "saved", held)
            what = f"room for {written} bytes, {held!r} saved"
            hostile.refused(what, folder, "saved", UNWRITTEN, written=written)
            hostile.done(f"{what}, then room", folder, "saved", PRINTED, {"saved": plain(record(4 if held else 1, 2000))})


def no_record(hostile):
    for text, why in [
        (b"x", OTHER),
        (b"", EMPTY),
        (record(3, 0)[:-1], DAMAGED),
        (record(3, 0) + b"\n", DAMAGED),
        (record(3, 0) + 120 * b"0", DAMAGED),
        (SCRIPT, OTHER),
        (record(GREATEST + 1, 0), DAMAGED),
        (record(3, 0, 1), DAMAGED),
        (b"tb-cdc 3 3 0 0\n", DAMAGED),
    ]:
        folder = hostile.folder()
        hostile.write(folder, "saved", text)
        hostile.refused(f"a file of {text[:40]!r}", folder, "saved", why)
    folder = hostile.folder()
    hostile.refused("the script itself", folder, "script", OTHER)
    folder = hostile.folder()
    hostile.write(folder, "saved", record(GREATEST, 0))
    before = contents(folder)
    hostile.same("the greatest session", ((1, EXHAUSTED), USED_UP), hostile.end(hostile.start(folder, "saved")))
    hostile.same("the greatest session: what is left", before, contents(folder))


def in_the_way(hostile):
    """What stands at the name that a save writes first, and isn't of a save, or is of one that goes on."""
    folder = hostile.folder()
    hostile.make(folder, "saved.new", os.mkdir)
    hostile.refused("a folder at the new name", folder, "saved", UNWRITTEN)
    folder = hostile.folder()
    os.rename(f"{folder}/script", f"{folder}/saved.new")
    hostile.refused("the script at the new name", folder, "saved", UNWRITTEN, script="saved.new")
    for text in (b"x", record(3, 0) + 120 * b"0"):
        folder = hostile.folder()
        hostile.write(folder, "saved", record(3, 0))
        hostile.write(folder, "saved.new", text)
        hostile.refused(f"a file of {text[:20]!r} at the new name", folder, "saved", UNWRITTEN)
    folder = hostile.folder()
    hostile.write(folder, "other", record(7, 0))
    hostile.make(folder, "saved.new", os.symlink, "other")
    hostile.refused("a link at the new name", folder, "saved", UNWRITTEN)
    for name, why in (("saved", UNREAD), ("saved.new", UNWRITTEN)):
        folder = hostile.folder()
        hostile.write(folder, name, record(3, 0))
        with open(f"{folder}/{name}", "rb") as held:
            fcntl.flock(held, fcntl.LOCK_EX)
            hostile.refused(f"{name} is locked", folder, "saved", why)
        changed = {"saved": plain(record(4 if name == "saved" else 1, 2000)), "saved.new": None}
        hostile.done(f"{name} was locked", folder, "saved", PRINTED, changed)


# ---------------------------------------------------------------------------------------------------------------------
# What is kept.


def kept(hostile):
    saved = {"saved": plain(record(1, 2000))}
    for left in (b"", b"tb-", record(1, 0)[:10], record(1, 0)):
        folder = hostile.folder()
        hostile.write(folder, "saved.new", left)
        hostile.done(f"{left!r} was left of a save", folder, "saved", PRINTED, {**saved, "saved.new": None})
    for mode in (0o600, 0o640, 0o666):
        folder = hostile.folder()
        hostile.write(folder, "saved", record(3, 2000), mode)
        changed = {"saved": plain(record(4, 2000), mode)}
        hostile.done(f"the mode {mode:o}", folder, "saved", PRINTED_LATER, changed)
    for where in ("there/target", "{folder}/there/target"):
        folder = hostile.folder()
        hostile.make(folder, "there", os.mkdir)
        hostile.write(folder, "there/target", record(3, 0), 0o600)
        hostile.make(folder, "saved", os.symlink, where.format(folder=folder))
        changed = {"there/target": plain(record(4, 2000), 0o600)}
        hostile.done(f"a link to {where}", folder, "saved", PRINTED, changed)


# ---------------------------------------------------------------------------------------------------------------------
# Too few threads, and too little of an address space.


def wants_memory(hostile, what, begins=True, **limits):
    """A run under limits comes to its end, or fails as out of memory, and leaves a whole record or none. One of which nobody
    knows whether the system can begin it at all may also end before it has printed anything."""
    folder = hostile.folder()
    ended, errors = hostile.end(hostile.start(folder, "saved", **limits))
    right = ended == (0, PRINTED) or ended == (1, NO_MEMORY) and b"out_of_memory" in errors
    unbegun = not begins and ended[0] not in (0, 1, "none") and ended[1] == b""
    hostile.same(what, True, right or unbegun or (ended, errors))
    held = contents(folder).get("saved")
    hostile.same(f"{what}: the record", True, not held or bool(RECORD.fullmatch(held[1])))


def few_threads(hostile):
    """A run that may not have all its threads wants memory; how many others nobody has, nobody knows."""
    for processes in range(1, 9):
        wants_memory(hostile, f"at most {processes} threads", processes=processes)


def small_spaces(hostile):
    """So does one whose threads' stacks find no room."""
    for megabytes in (*range(2, 64, 2), *range(64, 257, 8)):
        wants_memory(hostile, f"an address space of {megabytes} MB", begins=megabytes >= 16, megabytes=megabytes)


# ---------------------------------------------------------------------------------------------------------------------
# Two runs over one file, and runs that are ended.


def long_folder(hostile):
    folder = hostile.folder()
    hostile.write(folder, "long", scripts.long_script(TRANSFERS, 50).encode())
    return folder


def a_run_while_another_is_on(hostile):
    """The second run comes while the first is held in its second save, with a record saved."""
    what = "a run that comes while another is on"
    library = holding.library_in(hostile.room, "hostile", what)
    if library is None:
        return
    folder = long_folder(hostile)
    hostile.make(folder, "hold", os.mkfifo)
    first = hostile.start(folder, "saved", "long", env=holding.environment(library, at=2))
    held = holding.wait_until_held(first, f"{folder}/hold")
    hostile.same(f"{what}: it is on, with a record saved", True, held is not None and os.path.exists(f"{folder}/saved"))
    second = hostile.end(hostile.start(folder, "saved", "long"))
    hostile.is_refused(f"{what}: it is refused", second, "saved", UNREAD)
    if held is not None:
        os.close(held)
    ended, errors = hostile.end(first)
    hostile.same(f"{what}: the first one goes on", 0, ended[0] and (ended, errors))
    left = contents(folder)
    hostile.same(f"{what}: the record", True, "saved" in left and bool(RECORD.fullmatch(left["saved"][1])) or left)
    hostile.same(f"{what}: the new name", False, "saved.new" in left)


def a_file_that_something_else_writes(hostile):
    """Something that knows no locks writes the file: as the run is held between two saves, between a save and the load of a
    restart, or between the load that found no file and the first save. The run is refused, and what was written stays."""
    library = holding.library_in(hostile.room, "hostile", "a file that something else writes")
    if library is None:
        return
    cases = (
        ("rename", "after a save", ()),
        ("rename", "before a restart", ("--restart-after", "1")),
        ("look", "after a load that found none", ()),
    )
    for call, when, options in cases:
        for text in (record(7, 2000), record(0, 0), SCRIPT, b""):
            what, folder = f"{text[:20]!r} is written {when}", hostile.folder()
            hostile.make(folder, "hold", os.mkfifo)
            run = hostile.start(folder, "saved", env=holding.environment(library, call=call), options=options)
            held = holding.wait_until_held(run, f"{folder}/hold")
            hostile.same(f"{what}: it is held", (True, call == "rename"), (held is not None, os.path.exists(f"{folder}/saved")))
            hostile.write(folder, "saved", text)
            before = contents(folder)
            if held is not None:
                os.close(held)
            hostile.is_refused(what, hostile.end(run), "saved", UNWRITTEN)
            hostile.same(f"{what}: what is left", before, contents(folder))


def two_runs(hostile):
    """Of runs that begin at once each comes to its end or is refused. It may be that none comes to its end: a store gives its lock
    back while it looks at its file again, and finds the other one's then. The next run goes on from what they left."""
    what = "two runs that begin at once"
    for _ in range(4):
        folder = long_folder(hostile)
        runs = [hostile.start(folder, "saved", "long") for _ in range(2)]
        ends = [hostile.end(it) for it in runs]
        others = [(ended, b"saved: store: " in errors) for ended, errors in ends if ended[0] != 0]
        hostile.same(f"{what}: those that don't come to their end", [((1, STORE), True)] * len(others), others)
        hostile.same(f"{what}: what is left", True, is_whole(folder))
        goes_on(hostile, what, folder)


def goes_on(hostile, what, folder):
    """The next run comes to its end, and leaves the record alone."""
    ended, errors = hostile.end(hostile.start(folder, "saved", "long"))
    hostile.same(f"{what}: a run that goes on", 0, ended[0] and (ended, errors))
    hostile.same(f"{what}: no other file is left", False, "saved.new" in contents(folder))


def is_whole(folder, saved=True):
    """A record, or none; and beside it at most a prefix of one."""
    left = contents(folder)
    held, new = left.pop("saved", None), left.pop("saved.new", None)
    ours = held is None or RECORD.fullmatch(held[1])
    return bool(ours and (new is None or PREFIX.fullmatch(new[1])) and set(left) == {"script", "long"}) or (held, new, set(left))


def ended_runs(hostile, seed=1):
    rng, folder = random.Random(seed), long_folder(hostile)
    begun = time.monotonic()
    wanted = hostile.end(hostile.start(folder, "saved", "long"))[0]
    hostile.same("a long run", 0, wanted[0])
    took = time.monotonic() - begun
    for how in ("SIGTERM", "a closed standard output"):
        folder = long_folder(hostile)
        for _ in range(ENDED):
            run = hostile.start(folder, "saved", "long")
            with contextlib.suppress(subprocess.TimeoutExpired):
                run.wait(rng.uniform(0, 1) * took)
            if how == "SIGTERM":
                run.send_signal(signal.SIGTERM)
            else:
                run.stdout.close()
                run.stdout = None
            ended, errors = hostile.end(run)
            # (a run that has printed before it was ended has come to its end)
            right = {"SIGTERM": (-signal.SIGTERM, 0), "a closed standard output": (1, -signal.SIGPIPE, 0)}[how]
            hostile.same(f"{how}: the status", True, ended[0] in right or (ended, errors))
            hostile.same(f"{how}: what is left", True, is_whole(folder))
        goes_on(hostile, how, folder)


PARTS = (
    unreachable,
    unwritable,
    no_room,
    no_record,
    in_the_way,
    kept,
    few_threads,
    small_spaces,
    a_run_while_another_is_on,
    a_file_that_something_else_writes,
    two_runs,
    ended_runs,
)


def main(arguments):
    return checked.main(arguments, __doc__, Hostile, PARTS)


if __name__ == "__main__":
    ending.run(main)
