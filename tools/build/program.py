"""The built program, and the notes of what it was built from."""
import contextlib
import fcntl
import json
import os
import shutil
import subprocess
import sys
import time

from . import Stop, say
from .crates import APP, Sums, crates_of, sum_of
from .jobs import OPTIMISING, PROOF, QUICK, Build, Interrupted, trust
from .proved import LIBRARY, OBJECT, RECORD, Stale
from .toolchain import Toolchain

# What a build prints of the way in which it was made.
WAYS = {
    OBJECT: "the object code in proved/",
    LIBRARY: "the libraries in proved/",
    RECORD: "the proof records in proved/",
    PROOF: "proofs made here",
}
COMPILERS = {QUICK: "Rattle's own compiler", OPTIMISING: "LLVM"}
# A second in nanoseconds; in seconds, how long a tick is waited for at a time; and how often, at most.
SECOND, TRY, MOST_TRIES = 1_000_000_000, 0.001, 5_000


class Program:
    """The program, `path`, and three notes beside it. `built` has the sums of the sources and of the program, the toolchain's
    identity and the way. `files` has the names of all these files, and `stamps` what `find` printed of them when the sums
    last agreed. The launcher compares it, and so does `is_current`: the sums are taken only if it differs."""

    def __init__(self, top):
        self.top = top
        self.out = f"{top}/crates/{APP}/out"
        self.path = f"{self.out}/{APP}"
        self.built, self.files, self.stamps = f"{self.path}.built", f"{self.path}.files", f"{self.path}.stamps"

    def note(self):
        """Returns what the note has, or nothing if there is none."""
        with contextlib.suppress(OSError, ValueError):
            with open(self.built, encoding="utf-8") as it:
                note = json.load(it)
            if isinstance(note, dict):
                return note
        return {}

    def is_current(self, way=OBJECT, compiler=QUICK):
        """Returns whether the program is the one that was built, from these sources and by this toolchain, in a way and by a compiler
        at least as good as those asked for."""
        note = self.note()
        try:
            if trust(note["way"]) < trust(way) or (compiler == OPTIMISING and note["compiler"] != OPTIMISING):
                return False
        except (KeyError, ValueError):
            return False
        return self.is_unchanged() or self.compare()

    def agrees(self):
        """Returns whether the program, the sources and the toolchain are those of the note, by their sums. Without a toolchain the sources
        alone decide."""
        note = self.note()
        try:
            if note["program"] != sum_of(self.path) or note["toolchain"] != identity(note["toolchain"]):
                return False
        except (OSError, KeyError):
            return False
        return os.access(self.path, os.X_OK) and note["sources"] == Sums(crates_of(self.top)).whole()

    def is_unchanged(self):
        """Returns whether `find` prints what it printed when the sums last agreed."""
        with contextlib.suppress(OSError):
            with open(self.stamps, "rb") as it:
                noted = it.read()
            return bool(noted) and noted == self.printed()
        return False

    def printed(self):
        """Returns what the launcher prints of the files that decide."""
        find = [f"{self.top}/relayplum", "--stamps"]
        return subprocess.run(find, stdout=subprocess.PIPE, stderr=subprocess.DEVNULL, check=False).stdout

    def build(self, way=OBJECT, compiler=QUICK):
        """Builds the program. Only one process does so at a time."""
        at = f"{self.out}/start"
        os.makedirs(at, exist_ok=True)
        with open(f"{at}/lock", "w", encoding="ascii") as lock:
            try:
                fcntl.flock(lock, fcntl.LOCK_EX | fcntl.LOCK_NB)
            except BlockingIOError:
                say("another process is building the program: waiting for it")
                fcntl.flock(lock, fcntl.LOCK_EX)
                if self.is_current(way, compiler):
                    return
            self.make(at, way, compiler)
        self.compare()

    def make(self, at, way, compiler):
        begun = time.monotonic()
        crates = crates_of(self.top)
        toolchain = Toolchain()
        try:
            build = Build(self.top, crates, toolchain, at, way, compiler)
        except Stale as why:
            raise Stop(str(why)) from None
        try:
            build.start()
        except Interrupted:
            raise KeyboardInterrupt from None
        self.put(build)
        report(build)
        say(f"built in {int(time.monotonic() - begun)} s")

    def put(self, build):
        """Moves the program to its place, with its note."""
        for file in (self.built, self.files, self.stamps):
            with contextlib.suppress(FileNotFoundError):
                os.remove(file)
        shutil.copyfile(build.library(build.program), f"{self.path}.new")
        os.chmod(f"{self.path}.new", 0o755)
        os.replace(f"{self.path}.new", self.path)
        note = {"program": sum_of(self.path), "sources": build.sources.whole(), "toolchain": build.toolchain.identity}
        note.update(way=build.how[APP], compiler=build.compiler, kit=build.toolchain.name, commits=commits_of(build))
        with open(f"{self.built}.new", "w", encoding="utf-8") as it:
            json.dump(note, it)
        os.replace(f"{self.built}.new", self.built)

    def list_files(self):
        """Notes the names of the files that decide, this note first, each with a zero byte behind it."""
        toolchain = Toolchain() if shutil.which("rt") else None
        names = [os.path.relpath(it, self.top) for it in (self.files, self.path, self.built, f"{self.top}/crates.txt")]
        names += [f"crates/{crate.name}/{file}" for crate in crates_of(self.top) for file in crate.files()]
        names += [f"{toolchain.at}/KIT-ID", toolchain.rattle] if toolchain else []
        note = b"".join(os.fsencode(it) + b"\0" for it in names)
        with contextlib.suppress(OSError):
            with open(self.files, "rb") as it:
                if it.read() == note:
                    return
        with contextlib.suppress(OSError):
            with open(f"{self.files}.new", "wb") as out:
                out.write(note)
            os.replace(f"{self.files}.new", self.files)

    def compare(self):
        """Returns whether the sums agree; then the next start needs only what `find` prints, which is noted.

        Each change of a file sets its time, but only to the tick of the clock: two changes within a tick look the same. So `find` comes
        first, then the clock leaves the tick of the last change that it printed, then the sums are taken. A change before a file's sum is
        taken is in the sum. A later one gives the file a later time than all that are noted, so `find` prints something else."""
        self.list_files()
        printed = self.printed()
        is_past = has_toolchain(printed) and self.outwait(last_change(printed))
        if not self.agrees():
            return False
        if is_past:
            with contextlib.suppress(OSError):
                with open(f"{self.stamps}.new", "wb") as out:
                    out.write(printed)
                os.replace(f"{self.stamps}.new", self.stamps)
        return True

    def outwait(self, last):
        """Waits until a file that is written here, beside the sources, gets a later time than `last`; returns whether it does. A time that is
        further ahead than a second is of another clock, and isn't waited for."""
        with contextlib.suppress(OSError):
            for _ in range(MOST_TRIES):
                with open(f"{self.stamps}.new", "wb") as it:
                    it.write(b"now")
                ahead = last - os.stat(f"{self.stamps}.new").st_ctime_ns
                if ahead < 0 or ahead > SECOND:
                    return ahead < 0
                time.sleep(TRY)
        return False


def last_change(printed):
    """Returns the time of the last change among the files that `find` printed, in nanoseconds; of none, one that never comes. A time without
    a fraction counts to the end of its second, since some filesystems keep whole seconds."""
    times = [line.rsplit(b" ", 1)[1].partition(b".") for line in printed.splitlines()[1:] if line.count(b" ") == 2]
    exact = [int(seconds + fraction[:9].ljust(9, b"0")) for seconds, _, fraction in times]
    return max((it if it % SECOND else it + SECOND - 1 for it in exact), default=sys.maxsize)


def has_toolchain(printed):
    """Returns whether the toolchain of this machine, if it has one, is the one that the launcher printed."""
    return not shutil.which("rt") or printed.startswith(os.fsencode(f"{Toolchain().at}\n"))


def identity(otherwise):
    """Returns the identity of this machine's toolchain, or `otherwise` if it has none."""
    return Toolchain().identity if shutil.which("rt") else otherwise


def taken(build):
    """Returns the crates that were made from what proved/ has of them: of a program that was linked, itself alone."""
    return [it for it in build.crates if build.made_by.get(it.name, PROOF) != PROOF]


def commits_of(build):
    """Returns the commits of what was taken from proved/."""
    return sorted({build.proved.commit(it, build.made_by[it.name]) for it in taken(build)})


def report(build):
    """Prints how the crates were made, and why something in proved/ wasn't used."""
    ways = {build.made_by[it.name] for it in taken(build)}
    if ways:
        is_whole = OBJECT in ways or len(taken(build)) == len(build.crates)
        which = "all crates" if is_whole else f"{len(taken(build))} of {len(build.crates)} crates"
        say(f"{which} taken from {WAYS[min(ways, key=trust)]}, of {', '.join(commits_of(build))}; ./relayplum --prove proves them here")
    proved = [it for it in build.crates if build.made_by.get(it.name) == PROOF]
    if proved:
        say(f"proved here: {' '.join(it.name for it in proved)}")
    for (name, how), why in build.refused.items():
        say(f"the {'object code' if how == OBJECT else how} of {name} in proved/ was not taken: {why}")
    stale = [it.name for it in proved if build.proved.has(it, RECORD) and (it.name, RECORD) not in build.refused]
    if stale and build.way != PROOF:
        say(f"proved/ has the records of other sources, or of another toolchain, of: {' '.join(stale)}")
