"""Runs the sources without a proof, for anyone who is writing them."""
import os
import shutil
import subprocess
import sys

from . import Stop, say
from .crates import APP

# The flags with a value that is no file, even if a file has its name.
NUMBERED = (
    "--window", "--prefetch", "--lose-confirm", "--lose-publish", "--restart-after", "--repeat", "--close", "--start-after",
    "--random", "--steps", "--faults", "--queue", "--every", "--busy", "--binding", "--after", "--vhost", "--user", "--heartbeat",
    "--limit", "--sql", "--sql-schema",
)
# The flags of a command whose value is a file that is handed on by its whole path.
WHOLE_PATHS = (
    ("follow", "--book"), ("audit", "--state"), ("chain", "--state"),
    ("consume", "--book"), ("consume", "--report"), ("consume", "--password-file"),
)


def handed_on(arguments):
    """Returns the `--data` arguments, and the arguments of the program. The run has a folder of its own, so each file that is read
    is handed on as a copy, and one that is written by its whole path."""
    data, handed, before = [], [], ""
    for place, argument in enumerate(arguments):
        if before == "--progress" or (arguments[0], before) in WHOLE_PATHS:
            handed.append(os.path.realpath(argument))
        elif argument.startswith("--diagram=") and argument != "--diagram=-":
            handed.append(f"--diagram={os.path.realpath(argument.partition('=')[2])}")
        elif place > 0 and before not in NUMBERED and (place, argument) != (1, "-") and os.path.isfile(argument):
            # (`rt try` takes a name up to its first equals sign)
            name = f"{len(data) // 2 + 1}-{os.path.basename(argument).replace('=', '-')}"
            data += ["--data", f"{name}={os.path.realpath(argument)}"]
            handed.append(name)
        else:
            handed.append(argument)
        before = argument
    return data, handed


def run(top, arguments):
    """Runs the program by `rt try`, and returns its status."""
    if not shutil.which("rt"):
        raise Stop("there is no `rt` on the path: Rattle's toolchain is needed")
    data, handed = handed_on(arguments)
    say("nothing is proved: running the sources directly, for at most 60 s and 1 MiB of output")
    ran = subprocess.run(["rt", "try", *data, "--", *handed], cwd=f"{top}/crates/{APP}", stderr=subprocess.PIPE, check=False)
    lines = ran.stderr.decode(errors="replace").splitlines(True)
    if any(it.startswith("checked: ended") for it in lines):
        lines = [it for it in lines if not it.startswith(("checked: ", "run=", "interpreter: ", "races: "))]
    sys.stderr.write("".join(lines))
    if ran.returncode == 6:
        say("the run reached a limit of unproved runs; without --unproved there is none")
    return ran.returncode
