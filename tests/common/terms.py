"""Finds the terms of tests/checks/terms.txt, which this project doesn't use, in a text or in the name of a file."""
import fnmatch
import os
import re
from dataclasses import dataclass, field

FILE = "tests/checks/terms.txt"
# What begins a line of a comment, and so stands between the words of a term where the comment goes on.
LEADER = re.compile(r"(?m)^[ \t]*(?://[/!]?|--(?= )|#+!?|\*(?!\*)|\.\\\")?[ \t]*")
# Where an identifier is parted: at its underscores, and before a capital.
CAMEL = re.compile(r"(?<=[a-z0-9])(?=[A-Z])")
TERM = re.compile(r"(?P<pattern>\S.*?) => (?P<instead>.*?)(?:, in (?P<globs>\S.*))?")
EXCEPTION = re.compile(r"  except (?P<pattern>.*?), in (?P<globs>\S[^:]*): (?P<reason>\S.*)")


@dataclass
class Term:
    """A term, what is written in its place, the files in which it is looked for, and where it is right."""

    pattern: re.Pattern
    instead: str
    globs: list
    exceptions: list = field(default_factory=list)


def compiled(pattern, flags=0):
    """Returns the expression for a pattern: a space in it is a hyphen, a space or the end of a line."""
    pattern = pattern.replace(" ", r"[-\s]+")
    return re.compile(rf"(?<![A-Za-z])(?:{pattern})(?![A-Za-z])", flags)


def is_in(path, globs):
    return not globs or any(fnmatch.fnmatch(path, it) for it in globs)


class Unreadable(Exception):
    """A line of the list of terms that can't be read."""


def terms_in(text):
    """Returns the terms that a list has."""
    found = []
    for at, line in enumerate(text.split("\n"), 1):
        if not line.strip() or line.startswith("#"):
            continue
        term, exception = TERM.fullmatch(line), EXCEPTION.fullmatch(line)
        if exception and found:
            found[-1].exceptions.append((compiled(exception["pattern"]), exception["globs"].split()))
        elif term and not line.startswith(" "):
            found.append(Term(compiled(term["pattern"], re.IGNORECASE), term["instead"], (term["globs"] or "").split()))
        else:
            raise Unreadable(f"{FILE}:{at}: it is neither a term nor an exception of one: {line}")
    return found


def parted(text):
    """Returns a text with each identifier in its parts, and each line without what makes it a comment."""
    return CAMEL.sub(" ", LEADER.sub("", text)).replace("_", " ")


def found_in(path, text, terms):
    """Yields the terms in a text: the line, what stands there, and what to write."""
    text = parted(text)
    for term in terms:
        if not is_in(path, term.globs):
            continue
        allowed = [it.span() for pattern, globs in term.exceptions if is_in(path, globs) for it in pattern.finditer(text)]
        for it in term.pattern.finditer(text):
            if not any(start <= it.start() and it.end() <= end for start, end in allowed):
                yield text.count("\n", 0, it.start()) + 1, " ".join(it[0].split()), term.instead


def found_in_name(path, terms):
    """Yields the terms of the name of a file or a folder: what stands there, and what to write."""
    for _, what, instead in found_in(path, os.path.basename(path), terms):
        yield what, instead
