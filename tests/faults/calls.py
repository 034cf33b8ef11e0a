"""Has each allocation of one call refused in turn, for the calls that no command makes: a part of sweep.py.

The program is cdc_calls, which makes the value first, prints `made` on standard error, and makes the call then, once more
where it was refused. An allocation that is refused before that ends the program with a fault and nothing printed, or changes nothing
where it is one of those that read the arguments: a run whose argument names no call shows how many these are. Each one
that comes after `made` is the call's own: the first call is refused, the second gives what it gives without a refusal.
"""
import os
import subprocess
import threading

SECONDS = 300  # that a run may take: a last guard against one that hangs
NAMES = ["items", "batch", "results", "delivery", "packet", "binding", "body", "foreign", "message", "parsed", "script", "steps",
         "accounts", "transfers", "pulse", "log", "index", "read", "queue", "messages", "predecessors", "broker", "publish", "next",
         "session", "world", "submit", "start", "poll", "send", "arrive", "deliver", "take", "taken", "entry", "follow", "book",
         "audit", "state", "resume"]
# The statuses: the value wasn't made, the arguments name no call, and something couldn't be printed.
NOT_MADE, BAD_ARGUMENTS, NOT_PRINTED = 2, 8, 9
MADE = b"made\n"


class Sweep:
    """The runs of cdc_calls, and what went wrong with them."""

    def __init__(self, program, library, room):
        self.program, self.library, self.room = program, library, room
        self.lock = threading.Lock()
        self.runs = 0
        self.failures = []

    def run(self, name, **plan):
        """Makes the call under a plan. Answers the status, what was printed, and whether the value was made."""
        with self.lock:
            self.runs += 1
        env = dict(os.environ, LD_PRELOAD=self.library, **plan)
        done = subprocess.run([self.program, name], stdin=subprocess.DEVNULL, capture_output=True, env=env,
                              timeout=SECONDS)
        return done.returncode, done.stdout, done.stderr == MADE

    def fail(self, what):
        with self.lock:
            self.failures.append(f"failed: {what}")

    def reading(self):
        """How many allocations it takes to read the arguments."""
        calls = os.path.join(self.room, "calls-none")
        ended = self.run("none", CALLS=calls)
        if ended != (BAD_ARGUMENTS, b"", False):
            self.fail(f"cdc_calls none: {ended}")
        return self.counted(calls)

    def counted(self, calls):
        """How many allocations a run made."""
        with open(calls, "rb") as file:
            return int(dict(line.split() for line in file)[b"allocation"])

    def allocations(self, name):
        """The numbers of allocations in a run that has none refused, and what it prints."""
        calls = os.path.join(self.room, f"calls-{name}")
        status, printed, made = self.run(name, CALLS=calls)
        refused, _, value = printed.partition(b"\n")
        if status != 0 or refused != b"refused 0" or not value or not made:
            self.fail(f"cdc_calls {name}: {status}, {printed!r}")
        return range(1, self.counted(calls) + 1), value

    def sweep(self, pool):
        arguments = self.reading()
        for name in NAMES:
            numbers, value = self.allocations(name)
            own = []
            for number, ended in zip(numbers, pool.map(lambda it: self.run(name, FAULT=f"allocation:{it}"), numbers)):
                if number <= arguments:
                    right = ended == (0, b"refused 0\n" + value, True) or ended[0] == NOT_MADE and not ended[1]
                elif ended[2]:
                    own.append(number)
                    right = ended == (0, b"refused 1\n" + value, True)
                else:
                    right = ended[0] in (NOT_MADE, NOT_PRINTED) and not ended[1]
                if not right:
                    self.fail(f"cdc_calls {name}, allocation:{number}: {ended}")
            # The call comes last, and it grows.
            if not own or own != list(numbers)[-len(own):]:
                self.fail(f"cdc_calls {name}: its own allocations are {own} of {len(numbers)}")
            print(f"cdc_calls {name}: {len(numbers)} allocations, {len(own)} of them the call's", flush=True)
