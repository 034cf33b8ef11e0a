"""Builds the program: the crates and their sources, the toolchain, what proved/ holds, and the jobs that make each crate."""
import sys


class Stop(Exception):
    """What ends the script: the sentences that it prints, each on a line, and the exit status."""

    def __init__(self, why, status=1):
        super().__init__(why)
        self.status = status


def say(text):
    """Prints a line on standard error, in one write, so that two threads' lines don't run into one another."""
    try:
        sys.stderr.write(f"relayplum: {text}\n")
        sys.stderr.flush()
    except (AttributeError, OSError, ValueError):
        pass  # (nobody reads it)
