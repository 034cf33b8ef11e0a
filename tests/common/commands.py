"""What the checks of one command share: runs of it, and the count of what passed."""
import os
import subprocess
import tempfile

import rooms

SECONDS = 300  # that a run may take: a last guard against one that hangs
MOST_SHOWN = 10
program = command = None
is_long = False  # whether more is tried than the gate does
passed = 0
failures = []


def begin(of_program, of_command, of_long=False):
    """Sets the program and the command that are checked, and whether more is tried than the gate does."""
    global program, command, is_long
    program, command, is_long = of_program, of_command, of_long


def check(name, is_right, found):
    """Counts a check, and keeps what was found if it failed."""
    global passed
    if is_right:
        passed += 1
    else:
        failures.append(f"failed: {name}: {found!r}"[:1500])


def run(arguments, stream, env=None):
    """Runs the command over these bytes: its status, standard output and standard error. They come from a file: the command saves
    each time that no whole line is waiting, and through a pipe that depends on whether it or this process is faster."""
    with tempfile.TemporaryFile() as file:
        file.write(stream)
        file.seek(0)
        done = subprocess.run([program, command, *arguments], stdin=file, capture_output=True, env=env, timeout=SECONDS)
    return done.returncode, done.stdout.decode(), done.stderr.decode(errors="replace")


def ended(name=None):
    """Prints what failed, and how many checks passed, under a name or the command's; returns the status."""
    for it in failures[:MOST_SHOWN]:
        print(it)
    print(f"{name or command}: {passed} passed, {len(failures)} failed")
    return 1 if failures else 0


def parser_of(text):
    """A parser of the arguments of a script that checks a command; `text` is the script's help."""
    parser = rooms.parser_of_first(text)
    parser.add_argument("--soak", action="store_true", help="tries more than the gate does, for minutes")
    return parser


def main(arguments, text, of_command, parts, random_streams, streams):
    """Checks a command over the program that the arguments name; `text` is the script's help. Each part has a folder of its own;
    then come the random streams, so many if the arguments give no number. Returns the status."""
    parser = parser_of(text)
    parser.add_argument("--streams", type=int, default=streams, metavar="N", help="random streams; default: %(default)s")
    options = rooms.options_of(parser, arguments)
    begin(options.program, of_command, options.soak)
    with rooms.room(f"{of_command}-") as folder:
        for part in parts:
            room = os.path.join(folder, part.__name__)
            os.mkdir(room)
            part(room)
        random_streams(options.streams)
    return ended()
