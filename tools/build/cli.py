"""What the launcher leaves to Python: the flags before the command, and the build if the program isn't current."""
import os
import signal
import sys

from . import Stop, answers, install, say, unproved
from .jobs import OPTIMISING, PROOF, QUICK
from .program import Program
from .proved import OBJECT, RECORD

FLAGS = {"--from-records": RECORD, "--prove": PROOF}


def flags_of(arguments):
    """Returns the way, the compiler, whether nothing is proved, the folder to install to, and the arguments of the program."""
    way, compiler, is_unproved, to = None, QUICK, False, None
    while arguments:
        first = arguments[0]
        if first in FLAGS:
            if way not in (None, FLAGS[first]):
                raise Stop("--from-records and --prove exclude each other", answers.USAGE)
            way = FLAGS[first]
        elif first == "--optimised":
            compiler = OPTIMISING
        elif first == "--unproved":
            is_unproved = True
        elif first == "--install" or first.startswith("--install="):
            to = first.partition("=")[2] if "=" in first else "".join(arguments[1:2])
            if not to:
                raise Stop("--install needs a folder: --install DIR", answers.USAGE)
            arguments = arguments if "=" in first else arguments[1:]
        else:
            break
        arguments = arguments[1:]
    if is_unproved and (way or compiler == OPTIMISING or to):
        raise Stop("--unproved builds nothing: it goes with no other flag before the command", answers.USAGE)
    return way or OBJECT, compiler, is_unproved, to, arguments


def run(top, arguments):
    way, compiler, is_unproved, to, arguments = flags_of(arguments)
    if arguments[:1] in (["--version"], ["-V"]) and not is_unproved:
        return answers.version(top)
    if is_unproved:
        return unproved.run(top, arguments)
    program = Program(top)
    if not program.is_current(way, compiler):
        status = None if to else answers.answer(top, arguments)
        if status is not None:
            return status
        program.build(way, compiler)
    if to:
        install.install(program, to)
        return 0
    os.execv(program.path, [program.path, *arguments])


def main(top, arguments):
    for number in (signal.SIGTERM, signal.SIGHUP):
        signal.signal(number, lambda number, _: sys.exit(128 + number))
    try:
        return run(top, arguments)
    except Stop as why:
        for line in str(why).split("\n"):
            say(line)
        return why.status
    except KeyboardInterrupt:
        return 130
    except OSError as error:
        say(f"{error.filename}: {error.strerror}" if error.filename else str(error))
        return 1

