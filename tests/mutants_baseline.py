"""The mutation baseline, tests/mutants.txt: how each mutant was answered, on what that rests, and which of its answers are
tried again. tests/mutants.py reads and writes it; CONTRIBUTING.md, "The mutation baseline", has the rules.

No answer is decided here. Needs no toolchain, and Python 3.8 or later.
"""
import contextlib
import datetime
import fcntl
import hashlib
import os
import re
import shutil
import subprocess
import sys
import tempfile
from collections import namedtuple

import mutants_digests

FILE = "tests/mutants.txt"
HEAD = """\
# How each mutant was answered, by the group in which it was tried. `tests/mutants.py --write` writes this file;
# CONTRIBUTING.md, "The mutation baseline", has what the digests are of.
"""
REFUSED = "refused"
# One in so many groups is tried again for each commit: all of a crate at once, since what they call is then proved only once; of a
# crate that takes more than so many seconds of CPU time, all of a part that takes less.
SHARE, TOGETHER = 8, 1200
# What a crate's answers rest on: its own files, what it sees of the crates below it, and by what it was tried.
Digests = namedtuple("Digests", "own below by")
# A crate's lines: its digests, what its trial took of CPU time and memory, and for each edit its answer and its group.
Entry = namedtuple("Entry", "name digests seconds megabytes answers")
# What is done with a crate: its lines and its digests now, the line that reports it, whether it is tried whole, whether its lines
# are stale, and the edits that are tried where it is not.
Plan = namedtuple("Plan", "crate entry digests report is_whole is_stale names")

# ---------------------------------------------------------------------------------------------------------------------
# Digests.


def rows_of(root):
    """Returns for each crate of crates.txt its settings, which stand before the colon, and what it stands on."""
    with open(f"{root}/crates.txt", encoding="utf-8") as file:
        rows = [it.partition("#")[0].replace(",", " ").partition(":") for it in file]
    return {head.split()[0]: (" ".join(head.split()[1:]), uses.split()) for head, _, uses in rows if head.split()}


def digests_of(root, crate, by):
    """Returns the digests of a crate as it stands. Which of the crates below it names itself is not in them, nor which of these
    names a library of the toolchain."""
    rows, views = rows_of(root), mutants_digests.views_below(crate)
    names = [crate.name, *sorted(it.name for it in crate.below())]
    settings = {it: rows.get(it, ("", []))[0] for it in names}
    libraries = {use for it in names for use in rows.get(it, ("", []))[1]} - {*rows}
    below = [" ".join(sorted(libraries)), settings[crate.name]]
    for it in names[1:]:
        if it in views or settings[it]:
            below += [it, settings[it], views.get(it, "")]
    return Digests(mutants_digests.own_digest(crate), mutants_digests.digest(below), by)


def by_of(script, toolchain):
    """Returns the digest of what tries the edits: the script, and the logic that the toolchain reports to prove by. The name of
    its kit is not in it: machines have kits of other names with the same logic."""
    with open(script, "rb") as file:
        return mutants_digests.digest([file.read(), toolchain.strip().rpartition(b" logic ")[2]])


# ---------------------------------------------------------------------------------------------------------------------
# The file.


def read(root):
    """Returns what the baseline has of each crate, nothing where there is none."""
    if not os.path.isfile(f"{root}/{FILE}"):
        return {}
    number, found, name = "[0-9]+", {}, None
    head = re.compile(rf"crate (\w+) own=(\w+) below=(\w+) by=(\w+) seconds=({number}) megabytes=({number})")
    with open(f"{root}/{FILE}", encoding="utf-8") as file:
        for at, line in enumerate(file, 1):
            line = line.rstrip("\n")
            of_crate, of_edit = head.fullmatch(line), re.fullmatch(rf"  (\S+) (\w+) ({number})", line)
            if of_crate and of_crate[1] not in found:
                name, own, below, by, seconds, megabytes = of_crate.groups()
                found[name] = Entry(name, Digests(own, below, by), int(seconds), int(megabytes), {})
            elif of_edit and name and of_edit[1] not in found[name].answers:
                found[name].answers[of_edit[1]] = of_edit[2], int(of_edit[3])
            elif line and not line.startswith("#"):
                sys.exit(f"mutants: {FILE}:{at} cannot be read: {line[:80]}")
    return found


def text_of(entries):
    """Returns the text of a baseline."""
    lines = [HEAD]
    for name in sorted(entries):
        it = entries[name]
        own, below, by = it.digests
        lines.append(f"crate {name} own={own} below={below} by={by} seconds={it.seconds} megabytes={it.megabytes}\n")
        lines += [f"  {edit} {answer} {group}\n" for edit, (answer, group) in sorted(it.answers.items())]
    return "".join(lines)


@contextlib.contextmanager
def held(folder):
    """Keeps another run from writing in this folder meanwhile."""
    handle = os.open(folder, os.O_RDONLY)
    try:
        fcntl.flock(handle, fcntl.LOCK_EX)
        yield
    finally:
        os.close(handle)


def write(root, entries=(), without=()):
    """Puts the lines of these crates into the baseline as it is now, and takes those of others out."""
    with held(f"{root}/{os.path.dirname(FILE)}"):
        merged = {name: it for name, it in read(root).items() if name not in without}
        merged.update((it.name, it) for it in entries)
        handle, made = tempfile.mkstemp(prefix=".mutants-", dir=f"{root}/{os.path.dirname(FILE)}")
        with os.fdopen(handle, "w", encoding="utf-8") as file:
            file.write(text_of(merged))
        os.chmod(made, 0o644)
        os.replace(made, f"{root}/{FILE}")


# ---------------------------------------------------------------------------------------------------------------------
# What is tried.


def commit_of(root, given=""):
    """Returns what the groups are chosen by: the commit that was given, that of the repository, or else the day."""
    if given:
        return given
    if os.path.lexists(f"{root}/.git") and shutil.which("git"):
        arguments = ["git", "-c", "safe.directory=*", "-C", root, "rev-parse", "HEAD"]
        ran = subprocess.run(arguments, stdout=subprocess.PIPE, stderr=subprocess.DEVNULL)
        if not ran.returncode:
            return ran.stdout.decode().strip()
    return datetime.date.today().isoformat()


def is_chosen(commit, entry, group):
    """Returns whether this commit has this group of a crate tried again."""
    part = group % (entry.seconds // TOGETHER + 1)
    return int(hashlib.sha256(f"{commit} {entry.name} {part}".encode()).hexdigest(), 16) % SHARE == 0


def stale_for(entry, digests, edits):
    """Returns what a crate's lines don't agree with, or nothing where they stand."""
    names = "its own files", "what it sees of the crates below it", "the script or the logic"
    why = [name for name, one, other in zip(names, entry.digests, digests) if one != other]
    if not why and ({*entry.answers} != {*edits} or any(answer != REFUSED for answer, _ in entry.answers.values())):
        why = ["the edits that it names"]
    return ", ".join(why)


def plan(crate, edits, entry, digests, commit, is_named=False):
    """Returns what is done with a crate that has these edits; is_named: whether it is to be tried whatever its lines have."""
    count = f"{crate.name}: {len(edits)} mutant{'' if len(edits) == 1 else 's'}: "
    stale = stale_for(entry, digests, edits) if entry else ""
    if not entry or stale or is_named:
        report = f"the baseline is stale ({stale}), so all are tried" if stale else "all are tried, as was asked"
        report = report if entry else "no baseline, so all are tried"
        return Plan(crate, entry, digests, count + report, True, bool(stale), [])
    names = sorted(edit for edit, (_, group) in entry.answers.items() if is_chosen(commit, entry, group))
    report = f"the answers of the baseline are taken, {len(names)} tried again"
    return Plan(crate, entry, digests, count + report, False, False, names)


def cost_of(plans):
    """Returns a function that gives how much work a plan is: what was measured, and else by lines at the rate of the others."""
    known = [it for it in plans if it.entry]
    lines, seconds = sum(it.crate.count(rb"\n") for it in known), sum(it.entry.seconds for it in known)
    rate = seconds / lines if lines and seconds else 2

    def cost(it):
        if not it.entry:
            return rate * it.crate.count(rb"\n")
        return it.entry.seconds * (1 if it.is_whole else len(it.names) / max(len(it.entry.answers), 1))

    return cost


def memory_of(plan, estimate):
    """Returns how many bytes a crate's trial is to have: a quarter more than was measured, and else the estimate."""
    return plan.entry.megabytes * 1_250_000 if plan.entry and plan.entry.megabytes else estimate
