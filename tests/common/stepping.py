"""Runs that stop before and after each of their system calls. A check can kill one there, cut a write short, or let another run go
on meanwhile, so that nothing depends on how fast the machine is. Needs Linux on x86-64 and a kernel that permits it; else
`tracing.Refused`."""
import ctypes
import os
import platform
import signal
import subprocess
import sys
import tempfile

sys.path.append(os.path.join(os.path.dirname(os.path.realpath(__file__)), "..", "..", "tools"))
from trying import tracing
from trying.tracing import CHANGES, ENTRY, OPENS, OPENS_NEW, WRITES

TRACE_ME, POKE, SET_OPTIONS = 0, 6, 0x4200
COUNT = 96  # where a stopped process has its third argument: of a write, how many bytes
# Further calls that change what a kill leaves: modes, owners and attributes.
OTHER_CHANGES = {90: "chmod", 91: "fchmod", 92: "chown", 93: "fchown", 260: "fchownat", 268: "fchmodat"}
SIZED = (1, 18)  # the writes whose third argument is a number of bytes: write and pwrite64


def is_traced():
    """Asks for the stops, in the new process."""
    tracing.function()(TRACE_ME, 0, None, None)


class Stepped:
    """A run of a program with one thread, from one stop to the next. It is stopped before its first instruction at first."""

    def __init__(self, arguments, stream):
        """`stream`: the file that is its standard input."""
        if platform.system() != "Linux" or platform.machine() != "x86_64":
            raise tracing.Refused("it isn't Linux on x86-64")
        tracing.function()  # (so that the new process has it)
        self.out, self.errors = tempfile.TemporaryFile(), tempfile.TemporaryFile()
        self.child = subprocess.Popen(
            arguments, stdin=stream, stdout=self.out, stderr=self.errors, preexec_fn=is_traced,
        )
        self.info, self.status, self.signal = tracing.Info(), None, 0
        _, status = os.waitpid(self.child.pid, 0)
        try:
            tracing.ptrace(SET_OPTIONS, self.child.pid, None, tracing.SYSGOOD | tracing.EXITKILL)
        except OSError as why:
            self.child.kill()
            raise tracing.Refused(why.strerror) from None

    def step(self):
        """Lets the run go on to its next stop, and returns whether there is one: if not, the run has ended."""
        while True:
            tracing.ptrace(tracing.SYSCALL, self.child.pid, None, self.signal)
            _, status = os.waitpid(self.child.pid, 0)
            if not os.WIFSTOPPED(status):
                self.ended(status)
                return False
            number = os.WSTOPSIG(status)
            self.signal = 0 if number in (tracing.AT_SYSCALL, tracing.TRAP) else number
            if number == tracing.AT_SYSCALL:
                return True

    def is_before(self):
        """Looks at the stop, and returns whether it is before a call, and not after one."""
        info = self.info
        tracing.ptrace(tracing.GET_SYSCALL_INFO, self.child.pid, ctypes.sizeof(info), ctypes.addressof(info))
        return info.op == ENTRY

    def is_change(self):
        """Whether the call before which the run is stopped changes what a kill leaves."""
        number = self.info.number
        is_new = number in OPENS and self.info.arguments[OPENS[number]] & OPENS_NEW
        return number in WRITES or number in CHANGES or number in OTHER_CHANGES or bool(is_new)

    def name(self):
        """The name of the call before which the run is stopped; its number if it never changes anything."""
        number = self.info.number
        names = {**WRITES, **CHANGES, **OTHER_CHANGES, **dict.fromkeys(OPENS, "open")}
        return names.get(number, f"call {number}")

    def parts(self, is_everywhere):
        """How many bytes a run may write in the call before which it is stopped, from 0. One or two bytes are written together."""
        size = self.info.arguments[2] if self.info.number in SIZED else 0
        some = [0, 1, size // 2, size - 1] if is_everywhere else [0, size // 2]
        return some if size > 4 else [0]

    def write_part(self, size):
        """Has the write before which the run is stopped write so many bytes alone."""
        tracing.ptrace(POKE, self.child.pid, COUNT, size)
        self.step()

    def kill(self):
        """Kills the run by signal 9, where it is stopped."""
        os.kill(self.child.pid, signal.SIGKILL)
        _, status = os.waitpid(self.child.pid, 0)
        self.ended(status)

    def ended(self, status):
        self.status = self.child.returncode = tracing.status_of(status)

    def printed(self):
        """What the run has printed, and standard error; the run has ended."""
        texts = []
        for it in (self.out, self.errors):
            it.seek(0)
            texts.append(it.read().decode(errors="replace"))
            it.close()
        return texts
