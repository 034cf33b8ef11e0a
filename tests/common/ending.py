"""How a script ends: with its status, and without a traceback if nobody reads what it prints."""
import os
import sys


def run(main):
    """Calls main with the arguments and exits with the status that it returns, or with 1 if the reader of standard output has
    gone."""
    try:
        try:
            status = main(sys.argv[1:])
        finally:
            if sys.stdout is not None:
                sys.stdout.flush()
    except KeyboardInterrupt:
        status = 130
    except BrokenPipeError:
        # What is left unwritten is dropped, so that Python doesn't try again.
        os.dup2(os.open(os.devnull, os.O_WRONLY), sys.stdout.fileno())
        status = 1
    sys.exit(status)
