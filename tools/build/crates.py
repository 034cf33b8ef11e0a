"""The crates of crates.txt, and the sources that a build reads of them."""
import hashlib
import json
import os
import shutil

from . import Stop

APP = "cdc_app"
PARTS = ("src", "specs", "proofs")


def sum_of(file):
    """Returns the SHA-256 of a file."""
    with open(file, "rb") as it:
        return hashlib.sha256(it.read()).hexdigest()


class Crate:
    """A crate: the crates that it names, all crates below it, and the toolchain's libraries that it names."""

    def __init__(self, top, name, straight, of_toolchain):
        self.name, self.straight, self.of_toolchain = name, straight, of_toolchain
        self.folder = f"{top}/crates/{name}"
        self.is_program = os.path.isfile(f"{self.folder}/src/main.rt")
        self.below = []

    def files(self):
        """Returns the files that a proof of the crate reads, each by its path in the crate's folder."""
        found = []
        for part in PARTS:
            for at, _, names in os.walk(f"{self.folder}/{part}"):
                found += [os.path.relpath(f"{at}/{it}", self.folder) for it in names if it.endswith((".rt", ".antt"))]
        return sorted(found)

    def sums(self):
        """Returns the sum of each of these files, by its path."""
        return {it: sum_of(f"{self.folder}/{it}") for it in self.files()}


def crates_of(top):
    """Returns the crates below the program and the program itself, lowest first."""
    lines = []
    with open(f"{top}/crates.txt", encoding="utf-8") as it:
        for line in it:
            head, _, uses = line.partition("#")[0].replace(",", " ").partition(":")
            if head.split():
                lines.append((head.split()[0], uses.split()))
    names = {name for name, _ in lines}
    known = {name: Crate(top, name, [it for it in uses if it in names], [it for it in uses if it not in names]) for name, uses in lines}
    if APP not in known:
        raise Stop(f"crates.txt has no line of {APP}")
    found, on_the_way = [], []

    def visit(name):
        if name in on_the_way:
            raise Stop(f"crates.txt: these wait for one another: {' '.join(on_the_way[on_the_way.index(name) :])}")
        on_the_way.append(name)
        crate = known[name]
        for it in crate.straight:
            if known[it] not in found:
                visit(it)
            crate.below += [low for low in [*known[it].below, known[it]] if low not in crate.below]
        on_the_way.pop()
        if crate not in found:
            found.append(crate)

    visit(APP)
    return found


class Sums:
    """The sums of the crates' sources, taken once."""

    def __init__(self, crates):
        self.crates = crates
        self.of = {it.name: it.sums() for it in crates}

    def own(self, crate):
        """Returns what a crate is made from, apart from the crates below it."""
        return [crate.name, crate.straight, crate.of_toolchain, sorted(self.of[crate.name].items())]

    def key(self, crate, toolchain):
        """Returns the sum of all that a crate's library is made from: its sources, those below it, and the toolchain."""
        made_from = [toolchain, self.own(crate), [self.own(it) for it in crate.below]]
        return hashlib.sha256(json.dumps(made_from).encode()).hexdigest()

    def whole(self):
        """Returns the sum of all sources of the program."""
        return hashlib.sha256(json.dumps([self.own(it) for it in self.crates]).encode()).hexdigest()


class Snapshot(Sums):
    """A copy of the sources, and their sums. A build reads the copy, so that what it makes is of these sums, whatever is
    edited meanwhile."""

    def __init__(self, crates, at):
        self.crates, self.at, self.of = crates, at, {}
        shutil.rmtree(at, ignore_errors=True)
        for crate in crates:
            self.of[crate.name] = {it: self.copy(crate, it) for it in crate.files()}

    def copy(self, crate, file):
        """Copies a file, and returns its sum."""
        with open(f"{crate.folder}/{file}", "rb") as it:
            text = it.read()
        to = f"{self.folder(crate)}/{file}"
        os.makedirs(os.path.dirname(to), exist_ok=True)
        with open(to, "wb") as out:
            out.write(text)
        return hashlib.sha256(text).hexdigest()

    def folder(self, crate):
        """Returns the folder of a crate's copy."""
        return f"{self.at}/{crate.name}"

    def moved(self, crate):
        """Returns a file of the crate that is not as it was copied, or None."""
        try:
            now, then = crate.sums(), self.of[crate.name]
        except OSError as error:
            return os.path.relpath(error.filename, os.path.dirname(os.path.dirname(crate.folder)))
        changed = [it for it in sorted({*now, *then}) if now.get(it) != then.get(it)]
        return f"crates/{crate.name}/{changed[0]}" if changed else None
