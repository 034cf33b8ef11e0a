"""What proved/ has of each crate: its proof record, and its library as built; of the program, its object code. A check of the crate
wrote the record; from it and the sources the toolchain makes the library without a second proof. A library and the object code are
used as they are."""
import hashlib
import io
import json
import lzma
import os
import re
import shutil
import tarfile

from .crates import sum_of
from .parts import CHECKED, LIST, OF_TOOLCHAIN, Missing, rows_of
from .parts import sum_of as sum_of_part

# What a record has instead of the file of parts: its own parts, and the places of those that are taken from other libraries.
OWN, CUT = "toolchain/checked.own", "toolchain/checked.cut"
# The list of a library's files, with the source of each.
FILES = "files"
# The most bytes of a file or a part of the toolchain that may be stored again.
SMALL = 2048


class Stale(Exception):
    """Why a record, a library or the program's object code doesn't serve here."""


# What proved/ may have of a crate.
OBJECT, LIBRARY, RECORD = "object", "library", "record"


def as_built(crate):
    """Returns what proved/ has of a crate as it was built."""
    return OBJECT if crate.is_program else LIBRARY


def line_of(crate, what):
    """Returns the name of the line that the list has for an archive. Records and libraries are written with a release, the object code
    more often, so it has a line of its own."""
    return f"{crate.name}.{what}" if what == OBJECT else crate.name


class Proved:
    """The folder proved/, and its list, index.json. It has a line for each crate and one for the program's object code: the commit, the kit
    and its identity, the sum of all that was read, and the sums of the files. Two lines may be of different sources."""

    def __init__(self, top):
        self.folder = f"{top}/proved"
        self.index = {}
        if os.path.isfile(f"{self.folder}/index.json"):
            try:
                with open(f"{self.folder}/index.json", encoding="utf-8") as it:
                    self.index = json.load(it)
            except ValueError:
                raise Stale("proved/index.json can't be read") from None

    def file(self, crate, what):
        return f"{self.folder}/{crate.name}.{what}.tar.xz"

    def line(self, crate, what):
        """Returns the line of an archive. (Release 1.1.0 has the object code in the line of the program's record.)"""
        line = self.index.get(line_of(crate, what), {})
        return line if what in line else self.index.get(crate.name, {})

    def has(self, crate, what):
        """Returns whether there is such an archive of the crate, even of other sources."""
        return what in self.line(crate, what) and os.path.isfile(self.file(crate, what))

    def serves(self, crate, what, key):
        """Returns whether there is one that was made from the sources with this key."""
        return self.has(crate, what) and self.line(crate, what)["key"] == key

    def archive(self, crate, what):
        """Returns the archive's bytes. Raises Stale if they aren't those that were written."""
        try:
            with open(self.file(crate, what), "rb") as it:
                text = it.read()
        except OSError as error:
            raise Stale(f"it can't be read: {error.strerror}") from None
        if hashlib.sha256(text).hexdigest() != self.line(crate, what)[what]:
            raise Stale("it isn't the file that proved/index.json names")
        return text

    def write(self, crate, what, text, key, **said):
        """Writes an archive, and its line of the list. What else is said stays as it was noted with the first archive of these sources."""
        os.makedirs(self.folder, exist_ok=True)
        name = line_of(crate, what)
        known = self.index.get(name, {})
        if known.get("key") != key:
            known = {"key": key, **said}
        self.index.get(crate.name, {}).pop(what, None)
        self.index[name] = {**known, what: hashlib.sha256(text).hexdigest()}
        self.replace(f"{crate.name}.{what}.tar.xz", text)
        self.write_index()

    def write_index(self):
        self.replace("index.json", listing(self.index))

    def replace(self, name, text):
        with open(f"{self.folder}/{name}.new", "wb") as out:
            out.write(text)
        os.replace(f"{self.folder}/{name}.new", f"{self.folder}/{name}")

    def others(self, crates):
        """Returns the files of the folder, and the names in the list, that are of none of these crates."""
        own = {"index.json", "derived.xz"} | {f"{it.name}.{what}.tar.xz" for it in crates for what in (RECORD, as_built(it))}
        names = {line_of(it, what) for it in crates for what in (RECORD, as_built(it))}
        return [it for it in files_in(self.folder) if it not in own] + [it for it in sorted(self.index) if it not in names]

    def remove_others(self, crates):
        """Removes them."""
        for it in self.others(crates):
            if it in self.index:
                del self.index[it]
            else:
                os.remove(f"{self.folder}/{it}")
        self.write_index()

    def commit(self, crate, what):
        return self.line(crate, what).get("commit", "?")


def listing(index):
    return (json.dumps(index, indent=1, sort_keys=True) + "\n").encode()


def packed(folder, names):
    """Returns an archive of some files of a folder: the same bytes for the same files."""
    made = io.BytesIO()
    with tarfile.open(fileobj=made, mode="w", format=tarfile.USTAR_FORMAT) as tar:
        for name in sorted(names):
            info = tarfile.TarInfo(name)
            info.size = os.path.getsize(f"{folder}/{name}")
            with open(f"{folder}/{name}", "rb") as it:
                tar.addfile(info, it)
    return lzma.compress(made.getvalue(), preset=6)


def unpacked(text, to):
    """Unpacks an archive into a folder, which is emptied first."""
    shutil.rmtree(to, ignore_errors=True)
    try:
        with tarfile.open(fileobj=io.BytesIO(text), mode="r:xz") as it:
            for member in it.getmembers():
                if not member.isfile() or os.path.normpath(member.name) != member.name or member.name.startswith(("/", "..")):
                    raise Stale("it isn't laid out as an archive of proved/")
                put(f"{to}/{member.name}", it.extractfile(member))
    except (EOFError, ValueError, lzma.LZMAError, tarfile.TarError) as error:
        raise Stale(f"it can't be read: {error}") from None


def put(file, source):
    os.makedirs(os.path.dirname(file), exist_ok=True)
    with open(file, "wb") as out:
        shutil.copyfileobj(source, out)


def files_in(folder):
    """Returns the files of a folder and of those in it, by their paths."""
    return sorted(os.path.relpath(f"{at}/{name}", folder) for at, _, names in os.walk(folder) for name in names)


# ---------------------------------------------------------------------------------------------------------------------
# Records.


def cut_out(record, parts, below):
    """Takes out of a record the parts that the libraries of the crates below or the toolchain have. A program's record has no parts."""
    if not os.path.isfile(f"{record}/{CHECKED}"):
        return
    with open(f"{record}/{CHECKED}", "rb") as it:
        whole = it.read()
    own, cut, end = [], [], 0
    for name, at, size in sorted(rows_of(record), key=lambda it: it[1]):
        part = whole[at : at + size]
        sum = sum_of_part(part)
        if not any(it.has(name, part) for it in below):
            if not OF_TOOLCHAIN.match(name):
                continue
            if parts.taken(name, sum) is None and parts.derived(name, sum) is None and not parts.derive(name, part):
                continue
        own.append(whole[end:at])
        cut.append(f"{at} {sum}\n")
        end = at + size
    own.append(whole[end:])
    for name, text in ((OWN, b"".join(own)), (CUT, "".join(cut).encode())):
        with open(f"{record}/{name}", "wb") as out:
            out.write(text)
    os.remove(f"{record}/{CHECKED}")


def put_together(record, parts, below):
    """Puts the parts of other libraries back into a record."""
    if not os.path.isfile(f"{record}/{CUT}"):
        return
    try:
        names = {at: name for name, at, _ in rows_of(record)}
        with open(f"{record}/{CUT}", encoding="utf-8") as it:
            cut = [line.split() for line in it]
        with open(f"{record}/{OWN}", "rb") as own, open(f"{record}/{CHECKED}", "wb") as out:
            for at, sum in cut:
                out.write(own.read(int(at) - out.tell()))
                out.write(parts.find(names[int(at)], sum, below))
            shutil.copyfileobj(own, out)
    except Missing as why:
        raise Stale(str(why)) from None
    except (OSError, ValueError, KeyError):
        raise Stale("its list of parts can't be read") from None
    os.remove(f"{record}/{OWN}")
    os.remove(f"{record}/{CUT}")


def sums_in(record):
    """Returns the sums of the parts that were taken out of a record."""
    if not os.path.isfile(f"{record}/{CUT}"):
        return set()
    with open(f"{record}/{CUT}", encoding="utf-8") as it:
        return {line.split()[1] for line in it}


def sources_in(record):
    """Returns the sum of each source that the check read which wrote a record: of the file as it is written, where macros write
    `impl` blocks into it."""
    try:
        with open(f"{record}/inputs", encoding="utf-8") as it:
            found = re.findall(r'(?m)^(file|written) "([^"]*)" (\w+)$', it.read())
        return {name: sum for which in ("file", "written") for what, name, sum in found if what == which}
    except (OSError, ValueError):
        raise Stale("it has no list of what was checked") from None


# ---------------------------------------------------------------------------------------------------------------------
# The program's object code.


def unpack_object(text, room, to):
    """Unpacks the program's object code into a file; `room` is a folder that is used for it."""
    unpacked(text, room)
    names = files_in(room)
    if names != [os.path.basename(to)]:
        raise Stale("it isn't laid out as an archive of object code")
    os.replace(f"{room}/{names[0]}", to)
    shutil.rmtree(room)


# ---------------------------------------------------------------------------------------------------------------------
# Libraries. Of a library's files those of the record's parts come from the record, those that the toolchain or a crate below has
# from there, and the others stand in the archive.


def sources_of(library, toolchain, lower):
    """Returns where each file of a library comes from: `record`, `toolchain PATH`, `crate PATH` or nothing, with its sum."""
    found = {}
    for name in files_in(library):
        file = f"{library}/{name}"
        sum, size = sum_of(file), os.path.getsize(file)
        if name in (CHECKED, LIST):
            found[name] = "record", sum
        elif size > SMALL:
            found[name] = toolchain.place(size, sum) or lower.place(size, sum) or "", sum
        else:
            found[name] = "", sum
    return found


class Files:
    """Files of some folders, by what they hold, named by their paths below a top."""

    def __init__(self, kind, top, folders):
        self.kind, self.top, self.sizes, self.sums = kind, top, {}, {}
        for folder in folders:
            for name in files_in(f"{top}/{folder}"):
                if name != CHECKED:
                    self.sizes.setdefault(os.path.getsize(f"{top}/{folder}/{name}"), []).append(f"{folder}/{name}")

    def place(self, size, sum):
        """Returns the kind and the path of a file of a size and a sum, or None."""
        for path in self.sizes.get(size, ()):
            if path not in self.sums:
                self.sums[path] = sum_of(f"{self.top}/{path}")
            if self.sums[path] == sum:
                return f"{self.kind} {path}"
        return None


def pack_library(library, toolchain, lower):
    """Returns the archive of a library, over the files of the toolchain's libraries and of the crates below."""
    sources = sources_of(library, toolchain, lower)
    with open(f"{library}/{FILES}", "w", encoding="utf-8") as out:
        out.writelines(f"{json.dumps([name, source, sum])}\n" for name, (source, sum) in sorted(sources.items()))
    try:
        return packed(library, [FILES, *(name for name, (source, _) in sources.items() if not source)])
    finally:
        os.remove(f"{library}/{FILES}")


def unpack_library(text, record, to, tops):
    """Puts a library together from its archive, the crate's record and what the tops of `toolchain` and `crate` have."""
    unpacked(text, to)
    try:
        with open(f"{to}/{FILES}", encoding="utf-8") as it:
            rows = [json.loads(line) for line in it]
        for name, source, sum in rows:
            kind, _, path = source.partition(" ")
            if kind == "record":
                os.makedirs(os.path.dirname(f"{to}/{name}"), exist_ok=True)
                os.replace(f"{record}/{name}", f"{to}/{name}")
            elif kind:
                if sum_of(f"{tops[kind]}/{path}") != sum:
                    raise Stale(f"{path} isn't the one that it was built with")
                with open(f"{tops[kind]}/{path}", "rb") as it:
                    put(f"{to}/{name}", it)
        os.remove(f"{to}/{FILES}")
    except (OSError, ValueError, KeyError) as error:
        raise Stale(f"it can't be put together: {error}") from None
