"""Holds a run in one of its calls, such as in the middle of a save of its progress, for as long as a check needs: by a pipe, so
that no check depends on how fast the machine is."""
import errno
import os
import pathlib
import re
import shutil
import subprocess
import time

import needs

SOURCE = os.path.join(os.path.dirname(os.path.realpath(__file__)), "hold.c")
SECONDS = 300  # that a run may take until it is held, and until all its other threads wait: a last guard
# Of a thread: its state, and how often it has left a processor.
RAN = re.compile(r"(?m)^(?:State|(?:non)?voluntary_ctxt_switches):\s+(\S+)")


def library_in(folder, step, part):
    """Builds the library that holds a run. Without a C compiler it prints that this part of a step isn't tried; then None."""
    if shutil.which("cc") is None:
        print(f"{step}: not tried: {part}: {needs.no_command('cc')}")
        return None
    library = os.path.join(folder, "hold.so")
    subprocess.run(["cc", "-shared", "-fPIC", "-O1", "-Wall", "-Werror", "-o", library, SOURCE], check=True)
    os.chmod(library, 0o755)
    return library


def environment(library, at=1, call="sync"):
    """The environment of a run that is held in its first fsync, or in a later one, or in another call that hold.c names."""
    return dict(os.environ, LD_PRELOAD=str(library), HOLD=call, HOLD_AT=str(at))


def wait_until_held(run, pipe):
    """Waits until a run is held at this pipe, and returns the end of the pipe that holds it: the run goes on once that is
    closed. None if the run has ended before."""
    until = time.monotonic() + SECONDS
    while run.poll() is None and time.monotonic() < until:
        try:
            return os.open(pipe, os.O_WRONLY | os.O_NONBLOCK)
        except OSError as error:
            # (the pipe has no reader yet)
            if error.errno != errno.ENXIO:
                raise
            time.sleep(0.01)
    return None


def threads_of(run):
    """Of each thread of a run its state, and how often it has left a processor."""
    found = {}
    for it in pathlib.Path(f"/proc/{run.pid}/task").glob("*/status"):
        found[it.parent.name] = RAN.findall(it.read_text())
    return found


def wait_until_at_rest(run):
    """Waits until all threads of a run wait for each other, or are held. Each of them slept while it was looked at twice, and has
    not run between, so there was a time at which none was left to wake another one. False if the run has ended before."""
    until = time.monotonic() + SECONDS
    while run.poll() is None and time.monotonic() < until:
        try:
            before = threads_of(run)
            if all(it[0] == "S" for it in before.values()) and threads_of(run) == before:
                return True
        except (OSError, IndexError):
            pass  # (a thread has ended meanwhile)
        time.sleep(0.01)
    return False
