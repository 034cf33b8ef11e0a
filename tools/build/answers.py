"""Answers that need no program: help, the version, unknown commands and flags. docs/help has the texts that the program prints."""
import contextlib
import os
import re

from . import Stop
from .program import COMPILERS, WAYS, Program

USAGE = 2


def write(text):
    """Writes a text to standard output. If the reader has gone away, this returns 1; another failure is reported."""
    left = text.encode()
    try:
        while left:
            left = left[os.write(1, left) :]
    except BrokenPipeError:
        return 1
    except OSError as error:
        raise Stop(f"standard output: {error.strerror}") from None
    return 0


class Help:
    """The texts of docs/help: of the program, of each command, and the version."""

    def __init__(self, top):
        self.at = f"{top}/docs/help"

    def text(self, name):
        with contextlib.suppress(OSError):
            with open(f"{self.at}/{name}.txt", encoding="utf-8") as it:
                return it.read()
        return None

    def commands(self):
        listed = re.search(r"(?ms)^Commands:\n(.*?)\n\n", self.text("relayplum") or "")
        return re.findall(r"(?m)^  ([a-z]+) ", listed[1]) if listed else []

    def flags(self, name):
        """Returns each flag of a command, and whether a value follows it."""
        options = (self.text(name) or "").partition("\nOptions:\n")[2].partition("\n\n")[0]
        found = {}
        for line in re.findall(r"(?m)^ +(-.*)$", options):
            for flag, value in re.findall(r"(--?[a-zA-Z][a-z-]*)(?:, |[ =]\[?(<[^>]*>))?", line.partition("  ")[0]):
                found[flag] = bool(value) and "[" not in line.partition("  ")[0]
        return found


def answer(top, arguments):
    """Answers arguments that ask for help, or that no command has; returns the status, or None where the program has to answer."""
    help = Help(top)
    commands = help.commands()
    if not arguments or not commands:
        return None
    first = arguments[0]
    asks = [it for it in arguments if it in ("--help", "-h")]
    if first == "help" and len(arguments) < 3:
        name = arguments[1] if len(arguments) == 2 else "relayplum"
    elif asks and (first in commands or first in asks):
        name = first if first in commands else "relayplum"
    else:
        return unknown(help, commands, arguments)
    text = help.text(name)
    return unknown(help, commands, arguments[1:] or arguments) if text is None else write(text)


def unknown(help, commands, arguments):
    """Names a command or a flag that there is not, and returns the status of a usage error; else None."""
    first, wrong = arguments[0], None
    if first not in commands:
        wrong = f"there is no command {first}: the commands are {', '.join(commands)}"
    else:
        flags, rest = help.flags(first), iter(arguments[1:])
        for argument in rest:
            flag = argument.partition("=")[0]
            if argument == "--":
                break
            if argument.startswith("-") and argument != "-":
                if flag not in flags:
                    wrong = f"{first} has no flag {flag}"
                    break
                if flags[flag] and "=" not in argument:
                    next(rest, None)
    if wrong is None:
        return None
    raise Stop(f"{wrong}\n`relayplum --help` lists all commands and flags", USAGE)


def version(top):
    """Prints the version, and how the program that stands here was built."""
    program = Program(top)
    text = Help(top).text("version") or "relayplum\n"
    if not program.is_current():
        return write(text + "not built: the first command builds it\n")
    note = program.note()
    of = f" of {', '.join(note['commits'])}" if note["commits"] else ""
    return write(f"{text}built from {WAYS[note['way']]}{of}, with {note['kit']}, by {COMPILERS[note['compiler']]}\n")
