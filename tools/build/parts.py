"""Parts of other libraries that proof records contain. proved/ doesn't store them again: each is read from the library of a crate
below, or from the toolchain, whole or as some of its lines, and compared with the sum that the record has."""
import hashlib
import json
import lzma
import os
import re
import threading

# The name that a part of the toolchain has in a library's list of parts, with the library that it belongs to.
OF_TOOLCHAIN = re.compile(r"part/Rattle-(?!cdc_)(\w+)")
# The list of parts in a library or a record, and the file that has the parts, one after another.
LIST, CHECKED = "toolchain/checked.json", "toolchain/checked.a"


class Missing(Exception):
    """A part that the toolchain doesn't have."""


def sum_of(part):
    return hashlib.sha256(part).hexdigest()[:16]


def rows_of(folder):
    """Returns the list of parts in a library or a record: name, place and size of each."""
    with open(f"{folder}/{LIST}", encoding="utf-8") as it:
        return [json.loads(line) for line in it]


class Library:
    """The parts of one of the toolchain's libraries, by name."""

    def __init__(self, folder):
        self.file, self.rows = f"{folder}/{CHECKED}", {}
        if os.path.isfile(self.file):
            self.rows = {name: (at, size) for name, at, size in rows_of(folder)}

    def has(self, name, part):
        """Returns whether a part of this name is there, with these bytes."""
        return name in self.rows and self.rows[name][1] == len(part) and self.part(name) == part

    def part(self, name):
        """Returns a part, or None."""
        if name not in self.rows:
            return None
        at, size = self.rows[name]
        with open(self.file, "rb") as it:
            it.seek(at)
            return it.read(size)


class Parts:
    """The parts of the toolchain's libraries, by their sums. For a part that is some lines of a library's part, the file `derived.xz` of
    the folder has a recipe: the lines to take, and a few lines of its own."""

    def __init__(self, toolchain, folder, libraries):
        self.toolchain, self.file, self.names = toolchain, f"{folder}/derived.xz", libraries
        self.libraries, self.known, self.recipes, self.alone = {}, {}, None, threading.Lock()

    def library(self, name):
        if name not in self.libraries:
            self.libraries[name] = Library(self.toolchain.library(name))
        return self.libraries[name]

    def candidates(self, name):
        """Yields the parts of a name, of the library that the name begins with, then of the others."""
        own = OF_TOOLCHAIN.match(name)
        for library in dict.fromkeys([*([own[1]] if own else []), *self.names]):
            part = self.library(library).part(name)
            if part is not None:
                yield library, part

    def find(self, name, sum, below):
        """Returns the part of a name that has a sum: of the libraries of the crates below, or of the toolchain."""
        for part in (it.part(name) for it in below):
            if part is not None and sum_of(part) == sum:
                return part
        with self.alone:
            if sum not in self.known:
                self.known[sum] = self.taken(name, sum) or self.derived(name, sum)
            if self.known[sum] is None:
                raise Missing(f"neither the crates below nor the toolchain have a part {name} of the sum {sum}")
            return self.known[sum]

    def taken(self, name, sum):
        return next((part for _, part in self.candidates(name) if sum_of(part) == sum), None)

    def derived(self, name, sum):
        """Makes a part by its recipe. Returns None if there is none, or if it makes another part."""
        recipe = self.load().get(sum)
        if recipe is None:
            return None
        library, *lines = recipe
        whole = self.library(library).part(name)
        part = follow(lines, whole) if whole is not None else b""
        return part if sum_of(part) == sum else None

    def load(self):
        """Returns the recipes, by the sum of what they make."""
        if self.recipes is None:
            self.recipes = {}
            if os.path.isfile(self.file):
                with lzma.open(self.file) as it:
                    blocks = it.read().split(b"\n\n\n")
                for block in filter(None, blocks):
                    sum, library, *lines = block.split(b"\n")
                    self.recipes[sum.decode()] = [library.decode(), *lines]
        return self.recipes

    def derive(self, name, part):
        """Adds the recipe of a part that no library has whole: the one with the fewest bytes of its own."""
        found = [(library, recipe(part, whole)) for library, whole in self.candidates(name)]
        if not found:
            return False
        library, lines = min(found, key=lambda it: sum(len(line) for line in it[1]))
        self.load()[sum_of(part)] = [library, *lines]
        self.known[sum_of(part)] = part
        return True

    def write(self, sums):
        """Writes the recipes of the parts that are named by their sums."""
        blocks = [b"\n".join([sum.encode(), self.load()[sum][0].encode(), *self.recipes[sum][1:]]) for sum in sorted(sums) if sum in self.load()]
        os.makedirs(os.path.dirname(self.file), exist_ok=True)
        with open(f"{self.file}.new", "wb") as out:
            out.write(lzma.compress(b"\n\n\n".join(blocks), preset=6))
        os.replace(f"{self.file}.new", self.file)


def recipe(part, whole):
    """Returns the lines of a recipe: `A B` takes the lines A to B of the whole, and `=TEXT` is a line of its own."""
    places, lines, found, after = {}, whole.split(b"\n"), [], 0
    for at, line in enumerate(lines):
        places.setdefault(line, []).append(at)
    for line in part.split(b"\n"):
        at = next((it for it in places.get(line, ()) if it >= after), None)
        if at is None:
            found.append(line)
        elif found and isinstance(found[-1], tuple) and found[-1][1] == at - 1:
            found[-1] = (found[-1][0], at)
            after = at + 1
        else:
            found.append((at, at))
            after = at + 1
    return [b"%d %d" % it if isinstance(it, tuple) else b"=" + it for it in found]


def follow(lines, whole):
    """Returns the part that a recipe makes of the whole."""
    source, made = whole.split(b"\n"), []
    for line in lines:
        if line.startswith(b"="):
            made.append(line[1:])
        else:
            first, last = line.split()
            made += source[int(first) : int(last) + 1]
    return b"\n".join(made)
