"""A consumer: a process that is given lines, and answers with lines."""
import array
import contextlib
import fcntl
import os
import re
import select
import signal
import subprocess
import termios
import time

from . import Stop, tracing

NAMES_AN_ERROR = re.compile(r"(Error|Exception)\b")
LOOK, MOST_LOOKS = 0.001, 1000  # seconds between two looks at whether a consumer is idle, and how many there are
AT_ONCE = 65536  # bytes


class Ended(Exception):
    """The consumer has ended, or has closed its standard output; `status` as the system reports it."""

    def __init__(self, status):
        super().__init__(status)
        self.status = status


class Silent(Exception):
    """The consumer hasn't answered in time."""


class Consumer:
    """A command that runs in a folder. It is one process after another, since it is killed and started again. The
    lines that it prints are its answers. Its standard error goes to a file next to the folder."""

    def __init__(self, command, folder, seconds):
        self.command, self.folder, self.seconds = command, folder, seconds
        self.errors = f"{folder}.errors"
        self.process = self.traced = None
        self.begin()

    def begin(self):
        """Forgets what the process before was given and has printed."""
        self.traced, self.lines, self.rest = None, [], b""
        self.unwritten, self.is_closing = b"", False

    def start(self):
        self.begin()
        with open(self.errors, "ab") as errors:
            how = {"stdin": subprocess.PIPE, "stdout": subprocess.PIPE, "stderr": errors}
            try:
                self.process = subprocess.Popen(self.command, cwd=self.folder, start_new_session=True, **how)
            except OSError as why:
                raise Stop(f"{self.command[0]}: {why.strerror}") from None
        for pipe in (self.process.stdin, self.process.stdout):
            os.set_blocking(pipe.fileno(), False)

    def give(self, line):
        """Gives a line. What the pipe has no room for is written later, by `write`."""
        self.unwritten += line
        self.write()

    def close(self):
        """Ends the input, after all lines that were given."""
        self.is_closing = True
        self.write()

    def write(self):
        """Writes what the pipe has room for. A consumer that doesn't read any more shows when its answer is awaited."""
        stdin = self.process.stdin
        try:
            while self.unwritten:
                self.unwritten = self.unwritten[os.write(stdin.fileno(), self.unwritten[:AT_ONCE]) :]
        except BlockingIOError:
            return
        except BrokenPipeError:
            self.unwritten = b""
        if self.is_closing and not stdin.closed:
            stdin.close()

    def take(self):
        """Takes the whole lines that the consumer has printed into `lines`. Returns whether more may come."""
        if self.process is None:
            return False
        with contextlib.suppress(BlockingIOError):
            while True:
                data = os.read(self.process.stdout.fileno(), AT_ONCE)
                if not data:
                    return False
                *lines, self.rest = (self.rest + data).split(b"\n")
                self.lines += lines
        return True

    def answer(self):
        """Returns the next line that the consumer prints."""
        until = time.monotonic() + self.seconds
        while not self.lines:
            if not self.take() and not self.lines:
                if not self.rest:
                    raise Ended(self.wait(until))
                self.lines, self.rest = [self.rest], b""  # (the last line may lack its line feed)
            if not self.lines and not self.is_ready(until):
                raise Silent()
        return self.lines.pop(0)

    def is_ready(self, until):
        """Waits until the consumer has printed something, or has read something if more waits for it. Returns false
        if neither happens in time."""
        to_write = [self.process.stdin] if self.unwritten else []
        ready = select.select([self.process.stdout], to_write, [], max(0, until - time.monotonic()))
        if ready[1]:
            self.write()
        return any(ready)

    def wait(self, until):
        """Returns the status of a consumer that has closed its standard output, or None if it doesn't end in time."""
        try:
            return self.process.wait(max(1, until - time.monotonic()))
        except subprocess.TimeoutExpired:
            return None

    def trace(self):
        """From now on, the consumer can be stopped at a write. Returns whether the system permits it. First waits
        until the consumer is idle, so that what it does after its last answer isn't counted."""
        for _ in range(MOST_LOOKS):
            if self.is_idle():
                break
            time.sleep(LOOK)
        try:
            self.traced = tracing.Traced(self.process.pid)
        except tracing.Refused:
            return False
        return True

    def is_idle(self):
        """Returns whether the consumer has read all that it was given, and all its threads wait."""
        self.write()
        if self.unwritten or self.process.stdin.closed or unread_in(self.process.stdin.fileno()):
            return False
        return all(state_of(it) == "S" for it in tracing.threads_of(self.process.pid))

    def kill(self):
        """Kills the consumer with all that it has started, and takes what it has printed."""
        if self.process is None:
            return
        kill_group(self.process.pid)
        if self.traced:
            self.process.returncode = self.traced.reap()
        self.process.wait()
        self.take()
        self.unwritten = b""
        for it in (self.process.stdin, self.process.stdout):
            with contextlib.suppress(OSError):
                it.close()
        self.process = None

    def last_error(self):
        """Returns the last line on standard error that names an error, or else the last one, or ''."""
        with contextlib.suppress(OSError), open(self.errors, "rb") as file:
            lines = [it.strip() for it in file.read().decode(errors="replace").split("\n") if it.strip()]
            return next((it for it in reversed(lines) if NAMES_AN_ERROR.search(it)), lines[-1] if lines else "")
        return ""


def kill_group(process):
    """Kills a process and its process group."""
    for kill in (os.killpg, os.kill):
        with contextlib.suppress(OSError):
            kill(process, signal.SIGKILL)


def unread_in(pipe):
    """Returns how many bytes of a pipe nobody has read."""
    count = array.array("i", [0])
    fcntl.ioctl(pipe, termios.FIONREAD, count)
    return count[0]


def state_of(thread):
    """Returns the letter of a thread's state."""
    with contextlib.suppress(OSError), open(f"/proc/{thread}/stat", encoding="ascii", errors="replace") as file:
        return file.read().rpartition(")")[2].split()[0]
    return "S"
