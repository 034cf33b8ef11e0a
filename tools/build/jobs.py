"""Makes the crates, in as many jobs as there is memory for: each from its library or its record in proved/, or by a proof; or links
the program alone, from its object code there."""
import concurrent.futures
import contextlib
import functools
import json
import os
import re
import shutil
import subprocess
import threading
import time

from . import Stop, say
from .crates import Snapshot
from .parts import Library, Parts
from .proved import LIBRARY, OBJECT, RECORD, Proved, Stale, put_together, unpack_library, unpack_object, unpacked

# The memory that a job needs, in bytes, and the most jobs that a crate has if others are made at the same time.
EACH, MOST = 3_000_000_000, 2
# The work that even the smallest crate takes, in bytes of sources. These bytes decide the order of the crates.
ANYWAY = 500_000
# How much is printed of the line why a crate isn't proved.
MOST_OF_A_REASON = 300
# How a crate may be made, by what has to be trusted besides the toolchain: the author of the program's object code, of the crate's
# library, of its record, or nobody. All but a proof are named after what proved/ has.
PROOF = "proof"
WAYS = (OBJECT, LIBRARY, RECORD, PROOF)
# What has to be there for each: a library is put together from its record too.
NEEDS = {OBJECT: (OBJECT,), LIBRARY: (LIBRARY, RECORD), RECORD: (RECORD,)}
# The compilers: Rattle's own is the quicker one, LLVM makes the quicker program.
QUICK, OPTIMISING = "rattle", "llvm"


class Interrupted(Exception):
    """The build was interrupted."""


def trust(how):
    """Returns the rank of a way: the higher, the less has to be trusted."""
    return WAYS.index(how)


class Build:
    """A build of the program in a folder of its own, `at`, which gets the library of each crate, and a note of what it was made from.
    Nothing is made in a way that asks for more trust than `way`."""

    def __init__(self, top, crates, toolchain, at, way=OBJECT, compiler=QUICK):
        self.top, self.crates, self.toolchain, self.at, self.way, self.compiler = top, crates, toolchain, at, way, compiler
        self.proved = Proved(top)
        self.parts = Parts(toolchain, self.proved.folder, sorted({it for crate in crates for it in crate.of_toolchain}))
        self.sources = Snapshot(crates, f"{at}/sources")
        self.program = crates[-1]
        # By crate: how it was made, and the way among it and those below that asks for the most trust; by crate and way, why it wasn't
        # made in that way; by crate, how much work depends on it.
        self.made_by, self.how, self.refused, self.behind = {}, {}, {}, {}
        self.children, self.alone = set(), threading.Lock()
        self.measure()

    # -----------------------------------------------------------------------------------------------------------------
    # Where things are, and what is there already.

    def library(self, crate):
        return f"{self.at}/{crate.name}" if crate.is_program else f"{self.at}/{crate.name}.rlib"

    def object(self, program):
        return f"{self.at}/{program.name}.o"

    def record(self, crate):
        return f"{self.at}/{crate.name}.record"

    def note(self, crate):
        return f"{self.at}/{crate.name}.made"

    def log(self, crate):
        return f"{self.at}/{crate.name}.log"

    def logged(self, crate):
        """Returns the lines that the toolchain printed of a crate."""
        with open(self.log(crate), encoding="utf-8", errors="replace") as it:
            return it.read().split("\n")

    @functools.lru_cache(maxsize=None)
    def key(self, crate):
        return self.sources.key(crate, self.toolchain.identity)

    def weakest(self, crate, how):
        """Returns the way that asks for the most trust, of a crate made in this way and of all below it."""
        return min([how, *(self.how[it.name] for it in crate.below)], key=trust)

    def made(self, crate):
        """Returns what was noted when the crate's library was made, from these sources, in a way that is asked for; or None."""
        with contextlib.suppress(OSError, ValueError, KeyError):
            with open(self.note(crate), encoding="utf-8") as it:
                note = json.load(it)
            is_whole = os.path.exists(self.library(crate)) and (not crate.is_program or note["compiler"] == self.compiler)
            if is_whole and note["key"] == self.key(crate) and trust(note["how"]) >= trust(self.way):
                return note
        return None

    def is_made(self, crate):
        """Returns whether the crate's library was made already; then it is taken."""
        note = self.made(crate)
        if note:
            self.made_by[crate.name], self.how[crate.name] = note["made_by"], note["how"]
        return bool(note)

    def note_made(self, crate, made_by):
        """Notes how a crate was made."""
        how = self.weakest(crate, made_by)
        with open(self.note(crate), "w", encoding="utf-8") as it:
            json.dump({"key": self.key(crate), "made_by": made_by, "how": how, "compiler": self.compiler}, it)
        self.made_by[crate.name], self.how[crate.name] = made_by, how

    # -----------------------------------------------------------------------------------------------------------------
    # How one crate is made.

    def run(self, crate, *commands):
        """Runs commands in the crate's folder, each in a process group of its own, until one fails. Returns the last status."""
        for arguments in commands:
            with open(self.log(crate), "ab") as out:
                how = {"cwd": self.sources.folder(crate), "stdin": subprocess.DEVNULL, "stdout": out, "stderr": subprocess.STDOUT}
                with self.alone:
                    if self.children is None:
                        raise Interrupted
                    child = subprocess.Popen(arguments, start_new_session=True, **how)
                    self.children.add(child)
                if self.is_ahead(crate):
                    give_way(child.pid)
                child.wait()
            with self.alone:
                if self.children is None:
                    raise Interrupted
                self.children.discard(child)
            if child.returncode < 0:
                raise Stop(killed(crate, -child.returncode))
            if child.returncode:
                return child.returncode
        return 0

    def is_ahead(self, crate):
        """Returns whether more work depends on another crate."""
        return self.behind[crate.name] < max((self.behind[it.name] for it in self.crates if it.name not in self.how), default=0)

    def commands(self, crate, arguments):
        """Returns the commands that make the crate's library, or the program."""
        build = [self.toolchain.rattle, "build", *self.toolchain.arguments(crate, self.at), *arguments]
        if not crate.is_program:
            return [[*build, "-o", self.library(crate)]]
        return [[*build, *self.toolchain.compiling(self.compiler), "-o", self.object(crate)], self.linking(crate)]

    def linking(self, program):
        return self.toolchain.linking(self.object(program), self.library(program))

    @functools.lru_cache(maxsize=None)
    def parts_of(self, crate):
        """Returns the parts of a crate's library, which is made."""
        return Library(self.library(crate))

    def libraries_below(self, crate):
        """Returns the libraries of the crates below, those first on which it stands itself."""
        return [self.parts_of(it) for it in reversed(crate.below)]

    def unpack_record(self, crate):
        record = self.record(crate)
        unpacked(self.proved.archive(crate, RECORD), record)
        put_together(record, self.parts, self.libraries_below(crate))
        return record

    def from_object(self, program):
        """Links the program from its object code."""
        unpack_object(self.proved.archive(program, OBJECT), f"{self.at}/object", self.object(program))
        if self.run(program, self.linking(program)):
            raise Stale(f"it can't be linked: {reason_in(self.logged(program))}")

    def from_library(self, crate):
        """Puts the library together as it was built."""
        text = self.proved.archive(crate, LIBRARY)
        unpack_library(text, self.unpack_record(crate), self.library(crate), {"toolchain": f"{self.toolchain.at}/rlibs", "crate": self.at})

    def from_record(self, crate):
        """Has the toolchain make the crate from its sources and its proof record. The toolchain compares both."""
        record = self.unpack_record(crate)
        if self.run(crate, *self.commands(crate, ["--crate-checked", record])):
            lines = [line for line in self.logged(crate) if line.startswith(("rattle", "error"))]
            raise Stale(f"the toolchain refuses it: {(lines or ['it gives no reason'])[0][:MOST_OF_A_REASON]}")

    def prove(self, crate, jobs):
        """Proves the crate from scratch and makes it; returns the status. The library has statements alone, as if it were made from a
        record. So either kind can be built over the other."""
        statements = [] if crate.is_program else ["--statements"]
        return self.run(crate, *self.commands(crate, [*self.toolchain.proving(jobs), *statements]))

    def may_take(self, crate, how):
        """Returns whether the crate may be made in this way. A record may also be used over crates that were proved here."""
        # (the object code is by one of the compilers)
        if trust(how) < trust(self.way) or (how == OBJECT and self.compiler != QUICK):
            return False
        return all(self.proved.serves(crate, it, self.key(crate)) for it in NEEDS[how])

    def take(self, crate, how, make):
        """Makes the crate from what proved/ has; returns whether that was possible. What was refused isn't tried again."""
        if not self.may_take(crate, how) or (crate.name, how) in self.refused:
            return False
        try:
            make(crate)
            return True
        except Stale as why:
            self.refused[crate.name, how] = str(why)
            return False
        finally:
            shutil.rmtree(self.record(crate), ignore_errors=True)

    def forget(self, crate):
        """Removes what was noted of the crate."""
        for file in (self.log(crate), self.note(crate)):
            with contextlib.suppress(FileNotFoundError):
                os.remove(file)

    def link_program(self):
        """Links the program from its object code, which needs no crate below it; returns whether that was possible. One that was made in
        a better way already stays."""
        begun = time.monotonic()
        made = self.made(self.program)
        if not self.may_take(self.program, OBJECT) or (made and made["how"] != OBJECT):
            return False
        say("linking the program first from its object code in proved/, which takes seconds")
        self.forget(self.program)
        if not self.take(self.program, OBJECT, self.from_object):
            return False
        self.how.update((it.name, OBJECT) for it in self.program.below)
        self.note_made(self.program, OBJECT)
        say(f"{self.program.name} linked, {time.monotonic() - begun:.0f} s")
        return True

    def plan(self):
        """Returns what there is to do if the program isn't linked, and about how long it takes."""
        left = [it for it in self.crates if not self.made(it)]
        proofs = [it for it in left if not any(self.may_take(it, how) for how in (LIBRARY, RECORD))]
        if proofs:
            return f"{len(proofs)} of {len(self.crates)} crates have to be proved, which takes minutes to an hour"
        which = "their libraries" if all(self.may_take(it, LIBRARY) for it in left if not it.is_program) else "their proof records"
        return f"its crates come from {which} in proved/, which takes minutes" if left else "its crates are made already"

    def make(self, crate, jobs):
        """Makes a crate. Those below it are made already."""
        begun = time.monotonic()
        if self.is_made(crate):
            return
        self.forget(crate)
        if self.take(crate, LIBRARY, self.from_library):
            how, done = LIBRARY, "unpacked as built"
        elif self.take(crate, RECORD, self.from_record):
            how, done = RECORD, "built from its proof record"
        else:
            say(f"proving {crate.name}, {self.count(crate)}")
            if self.prove(crate, jobs):
                raise Stop(self.unproved(crate))
            how, done = PROOF, "proved"
        self.stop_if_moved(crate)
        self.note_made(crate, how)
        say(f"{crate.name} {done}, {self.count(crate)}, {int(time.monotonic() - begun)} s")

    def stop_if_moved(self, crate):
        """Stops if a source of the crate has changed since the build began. What was made is of the sources as they were."""
        file = self.sources.moved(crate)
        if file:
            raise Stop(f"{file} changed while the program was built: start it again")

    def stop_if_any_moved(self):
        for crate in self.crates:
            self.stop_if_moved(crate)

    def unproved(self, crate):
        """Returns why a crate isn't proved, in one line, and then the file that has all that the checker printed."""
        why = reason_in(self.logged(crate))
        return f"{crate.name} isn't proved: {why}\n{os.path.relpath(self.log(crate))} has all that the checker printed"

    def count(self, crate):
        return f"{self.crates.index(crate) + 1} of {len(self.crates)}"

    # -----------------------------------------------------------------------------------------------------------------
    # All of them.

    def end(self):
        """Ends all processes that were started."""
        with self.alone:
            children, self.children = self.children or set(), None
        for it in children:
            with contextlib.suppress(OSError):
                os.killpg(it.pid, 9)

    def measure(self):
        """Notes for each crate how much work depends on it."""
        size = {it.name: ANYWAY + sum(os.path.getsize(f"{it.folder}/{file}") for file in self.sources.of[it.name]) for it in self.crates}
        for crate in reversed(self.crates):
            above = [self.behind[it.name] for it in self.crates if crate.name in it.straight]
            self.behind[crate.name] = size[crate.name] + max(above, default=0)

    def jobs_for(self, crate, idle, ready, left, running, room):
        """Returns how many jobs a crate gets: one if it isn't proved here, and all there are if everything waits for it."""
        if self.may_take(crate, RECORD):
            return 1
        most = room if all(crate in it.below for it in left) and not running else MOST
        return max(1, min(most, idle // ready))

    @contextlib.contextmanager
    def ending(self):
        """Ends what was started if anything fails."""
        try:
            yield
        except BaseException:
            self.end()
            raise

    def start(self):
        """Makes the program, and prints what there is to wait for: links it, or makes all crates."""
        with self.ending():
            is_linked = self.link_program()
        if is_linked:
            self.stop_if_any_moved()
        else:
            say(f"building the program first: {self.plan()}")
            self.all()

    def all(self):
        """Makes each crate as soon as those below it are made. Those on which the most work depends come first."""
        left, running, room = sorted(self.crates, key=lambda it: -self.behind[it.name]), {}, lanes()
        with concurrent.futures.ThreadPoolExecutor(room) as pool, self.ending():
            while left or running:
                ready = [it for it in left if all(low.name in self.how for low in it.below)]
                idle = room - sum(jobs for _, jobs in running.values())
                for at, crate in enumerate(ready):
                    if idle <= 0:
                        break
                    left.remove(crate)
                    jobs = self.jobs_for(crate, idle, len(ready) - at, left, running, room)
                    idle -= jobs
                    running[pool.submit(self.make, crate, jobs)] = crate, jobs
                for it in concurrent.futures.wait(running, return_when=concurrent.futures.FIRST_COMPLETED).done:
                    del running[it]
                    it.result()
        self.stop_if_any_moved()


def reason_in(lines):
    """Returns the line of the checker that has the reason why a crate isn't proved: the first about a goal in a source, or else about
    an error, or about a function, or the last line."""
    lines = [it for it in lines if it.strip() and not it.startswith("so far: ")]
    for pattern in (r"(?:note: |error: )?(src/\S+: it is not proved .*)", r"((?:\S+: )?error\b.*)", r"(.*: not proved)"):
        for line in lines:
            found = re.fullmatch(pattern, line)
            if found:
                return found[1][:MOST_OF_A_REASON]
    return lines[-1][:MOST_OF_A_REASON] if lines else "the checker printed nothing"


def killed(crate, number):
    """Returns the sentence of a crate whose check was ended by a signal."""
    if number == 9:
        return f"the system ended the check of {crate.name}, most likely since memory ran out: RT_JOBS=1 makes one crate at a time"
    return f"the check of {crate.name} was ended by signal {number}"


def give_way(pid):
    """Gives a process a low priority, so that the crate on which the most work depends comes first. A system that shares its processors
    among sessions first needs this of the session too."""
    with contextlib.suppress(OSError):
        os.setpriority(os.PRIO_PROCESS, pid, 10)
    with contextlib.suppress(OSError):
        with open(f"/proc/{pid}/autogroup", "w", encoding="ascii") as it:
            it.write("10")


def lanes():
    """Returns how many jobs there may be at a time: one for each processor that has enough memory, or RT_JOBS."""
    wanted = os.environ.get("RT_JOBS", "")
    if re.fullmatch("[1-9][0-9]?", wanted):
        return int(wanted)
    with open("/proc/meminfo", encoding="utf-8") as it:
        free = re.search(r"MemAvailable:\s+(\d+)", it.read())
    memory = int(free[1]) * 1024 // EACH if free else 1
    return max(1, min(len(os.sched_getaffinity(0)), memory))
