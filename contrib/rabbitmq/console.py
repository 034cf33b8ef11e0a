"""What the scripts here print for a person, and how they end."""
import os
import pathlib
import sys

FAILED, USAGE_ERROR = 1, 2


class Stop(Exception):
    """Why a script can't go on, in a sentence, and the exit status for it."""

    def __init__(self, sentence, status=FAILED):
        super().__init__(sentence)
        self.status = status


def say(sentence):
    """Prints a sentence on standard error, under the script's name."""
    print(f'{pathlib.Path(sys.argv[0]).stem}: {sentence}', file=sys.stderr, flush=True)


def run(main):
    """Runs a script and exits with its status. If it has to stop, or nobody reads what it prints, there is no trace."""
    try:
        try:
            status = main()
        finally:
            if sys.stdout is not None:
                sys.stdout.flush()
    except Stop as why:
        say(why)
        status = why.status
    except KeyboardInterrupt:
        status = 130
    except OSError as error:
        if not isinstance(error, BrokenPipeError):
            say(f'{error.filename or "the output"}: {error.strerror}')
        # What is left unwritten is dropped, so that Python doesn't try again.
        if sys.stdout is not None:
            os.dup2(os.open(os.devnull, os.O_WRONLY), sys.stdout.fileno())
        status = FAILED
    sys.exit(status)


def help_alone():
    """Prints the comment at the head of the script and ends it, if its help is asked for. A script that lacks what it needs to
    read its arguments calls this first."""
    if {'-h', '--help'} & set(sys.argv[1:]):
        run(lambda: print(sys.modules['__main__'].__doc__))
