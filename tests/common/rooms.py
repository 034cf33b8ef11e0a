"""What the scripts share that run the program: which one that is, and a folder for what its runs read and write."""
import argparse
import os
import pathlib
import tempfile

TOP = pathlib.Path(__file__).resolve().parents[2]
PROGRAM = TOP / 'crates/cdc_app/out/cdc_app'
MEMORY = '/dev/shm'


def parser_of(text, default=str(PROGRAM)):
    """A parser of a script's arguments, with the program among them; the text is the script's help."""
    parser = argparse.ArgumentParser(description=text, formatter_class=argparse.RawDescriptionHelpFormatter)
    parser.add_argument('--program', default=default, metavar='PATH', help=f'default: {default or "the one that LLVM makes"}')
    return parser


def parser_of_first(text):
    """The same for a script that takes the program as its first argument."""
    parser = argparse.ArgumentParser(description=text, formatter_class=argparse.RawDescriptionHelpFormatter)
    parser.add_argument('program', nargs='?', default=str(PROGRAM), metavar='PROGRAM', help='default: %(default)s')
    return parser


def options_of(parser, arguments):
    """What the arguments ask for; the program by its whole path."""
    options = parser.parse_args(arguments)
    options.program = str(pathlib.Path(options.program).resolve())
    if not os.path.isfile(options.program) or not os.access(options.program, os.X_OK):
        parser.error(f'{options.program} is no program; `./relayplum books examples/first-transfer.script` builds it')
    return options


def room(prefix):
    """A folder that goes when it is left. It is in memory where it can be: each save of progress waits for the disk."""
    in_memory = MEMORY if os.access(MEMORY, os.W_OK | os.X_OK) else None
    return tempfile.TemporaryDirectory(prefix=prefix, dir=in_memory)


def on_processors(count):
    """What leaves a process the first so many processors that there are."""
    those = sorted(os.sched_getaffinity(0))[:count]
    return lambda: os.sched_setaffinity(0, those)


def shortened(outcome):
    text = str(outcome)
    return text if len(text) < 1000 else f'{text[:300]} .. {text[-600:]}'
