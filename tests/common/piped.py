"""Runs of a command over a pipe that a check fills step by step, so that no check depends on how fast the machine is: it goes on
when the run has printed a line, when a file has changed, or when all threads of the run wait."""
import contextlib
import fcntl
import os
import subprocess
import tempfile
import termios
import threading
import time

import commands
import holding

PART = 50_000  # bytes that are written at a time: an empty pipe takes them at once, so one read has them all


def filled(pipe):
    """Fills a pipe, so that the next write into it waits, and returns with how many bytes."""
    os.set_blocking(pipe, False)
    count = 0
    for size in (4096, 1):
        with contextlib.suppress(BlockingIOError):
            while True:
                count += os.write(pipe, b"." * size)
    os.set_blocking(pipe, True)
    return count


class Piped:
    """A run of the command whose input comes from a pipe, and whose output goes into one. With `is_held` it waits at its first write
    until it is released. A run that takes too long is killed."""

    def __init__(self, arguments, is_held=False, env=None):
        out, into = os.pipe()
        self.ahead = filled(into) if is_held else 0
        self.errors = tempfile.TemporaryFile()
        self.child = subprocess.Popen(
            [commands.program, commands.command, *arguments],
            stdin=subprocess.PIPE, stdout=into, stderr=self.errors, bufsize=0, env=env,
        )
        os.close(into)
        self.out = os.fdopen(out, "rb")
        self.guard = threading.Timer(commands.SECONDS, self.child.kill)
        self.guard.daemon = True
        self.guard.start()

    def write(self, given):
        """Writes these bytes; nothing if the run has ended."""
        with contextlib.suppress(BrokenPipeError):
            self.child.stdin.write(given)

    def write_ahead(self, given):
        """Writes these bytes in parts, each once the one before has been read, and returns whether all were read."""
        for at in range(0, len(given), PART):
            self.write(given[at : at + PART])
            holding.wait_until_at_rest(self.child)
            if self.unread():
                return False
        return True

    def unread(self):
        """How many bytes the run has not read."""
        count = bytearray(4)
        fcntl.ioctl(self.child.stdin, termios.FIONREAD, count)
        return int.from_bytes(count, "little")

    def close(self):
        """Ends the input."""
        self.child.stdin.close()

    def line(self):
        """The next line that the run prints; nothing if it has ended."""
        return self.out.readline().decode()

    def wait_for(self, path, part):
        """Waits until a file has this part."""
        until = time.monotonic() + commands.SECONDS
        while self.child.poll() is None and time.monotonic() < until:
            with contextlib.suppress(OSError), open(path, "rb") as it:
                if part in it.read():
                    return
            time.sleep(0.01)

    def release(self):
        """Lets a run that was held go on."""
        self.out.read(self.ahead)

    def ended(self):
        """The status, what was printed and not yet read, and standard error, once the run has ended. The input isn't ended by this."""
        printed = self.out.read().decode()
        status = self.child.wait()
        self.guard.cancel()
        self.out.close()
        with contextlib.suppress(BrokenPipeError):
            self.child.stdin.close()
        self.errors.seek(0)
        return status, printed, self.errors.read().decode(errors="replace")
