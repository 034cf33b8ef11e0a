"""Runs a process from one system call to the next, so that it can be killed before a certain write instead of at a
certain time.

This needs Linux on x86-64 and a kernel that permits it: `Refused` otherwise.
"""
import contextlib
import ctypes
import functools
import os
import platform
import signal
import time

SEIZE, INTERRUPT, SYSCALL, GET_SYSCALL_INFO = 0x4206, 0x4207, 24, 0x420E
# A stop at a system call has bit 7 in its signal. New threads and processes are traced, too. All are killed if the
# tracer ends.
SYSGOOD, FORK, VFORK, CLONE, EXITKILL = 1, 2, 4, 8, 0x100000
ALL_CHILDREN = 0x40000000  # __WALL
ENTRY, EXIT = 1, 2
AT_SYSCALL, TRAP = signal.SIGTRAP | 0x80, signal.SIGTRAP
STEP = 0.02  # seconds between two looks at a process that makes no call
# Calls that change what a kill leaves: those that write to a descriptor, those that change files by name, and those
# that open a file, with the argument that has their flags.
WRITES = {1: "write", 18: "pwrite64", 20: "writev", 40: "sendfile", 44: "sendto", 46: "sendmsg", 296: "pwritev",
          307: "sendmmsg", 326: "copy_file_range", 328: "pwritev2"}
CHANGES = {76: "truncate", 77: "ftruncate", 82: "rename", 83: "mkdir", 84: "rmdir", 85: "creat", 86: "link",
           87: "unlink", 88: "symlink", 258: "mkdirat", 263: "unlinkat", 264: "renameat", 265: "linkat",
           266: "symlinkat", 285: "fallocate", 316: "renameat2"}
OPENS = {2: 1, 257: 2}
OPENS_NEW = os.O_CREAT | os.O_TRUNC


class Refused(Exception):
    """The kernel doesn't permit it."""


class Info(ctypes.Structure):
    """What the kernel reports of a stop at a system call."""

    _fields_ = [("op", ctypes.c_uint8), ("pad", ctypes.c_uint8 * 3), ("arch", ctypes.c_uint32),
                ("pointer", ctypes.c_uint64), ("stack", ctypes.c_uint64), ("number", ctypes.c_uint64),
                ("arguments", ctypes.c_uint64 * 6), ("more", ctypes.c_uint64 * 2)]


@functools.lru_cache(maxsize=None)
def function():
    found = ctypes.CDLL(None, use_errno=True).ptrace
    found.restype = ctypes.c_long
    found.argtypes = [ctypes.c_long, ctypes.c_long, ctypes.c_void_p, ctypes.c_void_p]
    return found


def ptrace(request, thread, address=None, data=None):
    if function()(request, thread, address, data) < 0:
        raise OSError(ctypes.get_errno(), os.strerror(ctypes.get_errno()))


def own_threads_of(process):
    """Returns the threads of a process."""
    with contextlib.suppress(OSError):
        return [int(it) for it in os.listdir(f"/proc/{process}/task")]
    return []


def children_of(process):
    """Returns the processes that a process has started."""
    found = []
    for thread in own_threads_of(process):
        with contextlib.suppress(OSError), open(f"/proc/{process}/task/{thread}/children", encoding="ascii") as file:
            found += map(int, file.read().split())
    return found


def threads_of(process):
    """Returns the threads of a process, of its children, and of theirs."""
    found = own_threads_of(process)
    for child in children_of(process):
        found += threads_of(child)
    return found


class Traced:
    """A process whose threads stop at each system call, from now until it is killed."""

    def __init__(self, process):
        self.process, self.writes, self.status = process, 0, None
        self.stopped = {}  # the threads that wait to be resumed, each with the signal that it then gets
        self.writing = set()  # the threads whose last call was a write
        if platform.system() != "Linux" or platform.machine() != "x86_64":
            raise Refused("it isn't Linux on x86-64")
        known = set()
        try:
            while set(threads_of(process)) - known:
                for thread in set(threads_of(process)) - known:
                    known.add(thread)
                    with contextlib.suppress(ProcessLookupError):
                        ptrace(SEIZE, thread, None, SYSGOOD | FORK | VFORK | CLONE | EXITKILL)
                        ptrace(INTERRUPT, thread)
        except OSError as why:
            raise Refused(why.strerror) from None

    def run(self, most, is_answered, is_idle, seconds):
        """Lets the process run up to the start of its write number `most`. It also stops once the process has
        answered, has ended, is idle, or has taken so many seconds. If `most` is 0, no write stops it. Returns how
        many writes the process has made, and whether it stopped in time."""
        until, self.writes = time.monotonic() + seconds, 0
        signal.pthread_sigmask(signal.SIG_BLOCK, [signal.SIGCHLD])
        try:
            while self.status is None:
                if time.monotonic() > until:
                    return self.writes, False
                self.resume()
                thread, status = os.waitpid(-1, ALL_CHILDREN | os.WNOHANG)
                if thread:
                    if self.is_end(thread, status, most, is_answered):
                        break
                elif signal.sigtimedwait([signal.SIGCHLD], STEP) is None and is_idle():
                    break
        except ChildProcessError:
            pass
        finally:
            signal.pthread_sigmask(signal.SIG_UNBLOCK, [signal.SIGCHLD])
        return self.writes, True

    def resume(self):
        """Lets each stopped thread run to its next system call."""
        for thread, number in self.stopped.items():
            with contextlib.suppress(ProcessLookupError):
                ptrace(SYSCALL, thread, None, number)
        self.stopped = {}

    def is_end(self, thread, status, most, is_answered):
        """Takes a stop of a thread, and returns whether to stop them all."""
        if not os.WIFSTOPPED(status):
            self.status = status_of(status) if thread == self.process else None
            return thread == self.process
        number = status >> 8
        self.stopped[thread] = 0 if number >> 8 or number & 0xFF in (AT_SYSCALL, TRAP) else number
        if number != AT_SYSCALL:
            return False
        info = Info()
        try:
            ptrace(GET_SYSCALL_INFO, thread, ctypes.sizeof(info), ctypes.addressof(info))
        except OSError:
            return False
        if info.op == EXIT:
            return thread in self.writing and is_answered()
        self.writing.discard(thread)
        if info.op == ENTRY and self.is_write(thread, info):
            if self.writes + 1 == most:
                return True
            self.writes += 1
            self.writing.add(thread)
        return False

    @staticmethod
    def is_write(thread, info):
        """Returns whether a call changes what a kill leaves."""
        if info.number in WRITES:
            with contextlib.suppress(OSError):
                return not os.readlink(f"/proc/{thread}/fd/{info.arguments[0]}").startswith("anon_inode:")
            return True
        return info.number in CHANGES or info.number in OPENS and bool(info.arguments[OPENS[info.number]] & OPENS_NEW)

    def reap(self):
        """Waits until all threads of the killed process have ended. Returns its status."""
        with contextlib.suppress(ChildProcessError):
            while True:
                thread, status = os.waitpid(-1, ALL_CHILDREN)
                if os.WIFSTOPPED(status):
                    with contextlib.suppress(ProcessLookupError):
                        ptrace(SYSCALL, thread, None, signal.SIGKILL)
                elif thread == self.process:
                    self.status = status_of(status)
        return self.status


def status_of(status):
    """Returns an exit status, or the negative number of the signal that ended a process."""
    return -os.WTERMSIG(status) if os.WIFSIGNALED(status) else os.WEXITSTATUS(status)
