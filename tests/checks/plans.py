#!/usr/bin/env python3
"""What a run's plan asks for is what it does: its window, its prefetch and each of its rewinds. Random steps have each fault.

  tests/checks/plans.py [PROGRAM]    PROGRAM: crates/cdc_app/out/cdc_app

All events of the script come to the ledger in one batch, so the connector's first poll gets as many as its window allows, and it
publishes all of these before it looks at a confirm. A restart after the last one of these has the next session send them all
again; a restart after one more has it send no more than a window again. So the trace shows the window.

A subscriber's thread is held before it does anything, until all other threads wait (holding.py). By then its queue has
delivered as many positions as its prefetch allows. If the plan has it rewind at the last of these, each acknowledgement has
it redeliver the next position, so all but the first are redelivered. So the trace shows the prefetch.

Then queues rewind at several positions: the trace shows that each is redelivered, if at least two deliveries may be
unacknowledged.

Random steps have no fault if none is asked for. If many are, each kind is among the steps of some seeds.

Each run prints what it would print without a plan. Without a C compiler, `cc`, the prefetch isn't tried, and a line
reports that. The last line is `plans: N passed, M failed`; the status is 1 if one failed.
"""
import os
import re
import subprocess
import sys

sys.dont_write_bytecode = True
sys.path.insert(0, os.path.join(os.path.dirname(os.path.realpath(__file__)), "..", "common"))
import checked
import ending
import holding
import traces

TRANSFERS = 70  # more than any window or prefetch
WINDOWS, DEFAULT_WINDOW = (1, 2, 3, 8, 64), 1
PREFETCHES, DEFAULT_PREFETCH = (1, 2, 3, 8, 64), 8
SEEDS = 10  # of random steps
FAULTS = {"crash", "rewind", "break", "close", "arrive twice", "answer twice", "arrive never", "answer never", "ack of an earlier one"}
# The timestamp of the first event: that of its batch.
FIRST = 2000
ACCOUNTS = "accounts 1000\naccount id=1 ledger=700 code=10\naccount id=2 ledger=700 code=10\n"
SUBSCRIBERS = ("all", "all ledger=700", "any ledger=700")
AGAIN = re.compile(r"(?m)^again (\d+): position (\d+), ")
SENT_AGAIN = re.compile(r"(?m)^event (\d+), .*; sent again by session 2, taken$")


def script_of(transfers):
    """Subscribers of all events, and one batch of transfers, each of 1 from account 1 to account 2."""
    lines = [f"subscriber {it}\n" for it in SUBSCRIBERS] + [ACCOUNTS, "transfers 2000\n"]
    for number in range(1, transfers + 1):
        lines.append(f"transfer id={number} debit_account_id=1 credit_account_id=2 amount=1 ledger=700 code=1\n")
    return "".join(lines)


def printed_of(transfers):
    """What a run of this script prints."""
    results, last = " 0" * transfers, FIRST + transfers - 1
    book = f"account 1 0 {transfers} 0 0\naccount 2 0 0 0 {transfers}\n"
    books = [f"subscriber {it} applied {transfers} last {last} ended yes closed no\n{book}" for it in range(1, len(SUBSCRIBERS) + 1)]
    return f"batch 1: 0 0\nbatch 2:{results}\n" + "".join(books)


def faults_in(steps):
    """The kinds of faults in the lines of a step file. A packet or a confirm is lost if it never comes, and a later one does; an
    acknowledgement is an earlier one if it is no later than another one of its subscriber before it."""
    found, seen, acked = set(), {"arrive": [], "answer": []}, {}
    for word, *numbers in map(str.split, steps):
        if word in ("crash", "rewind", "break", "close"):
            found.add(word)
        elif word in seen:
            found |= {f"{word} twice"} if numbers[0] in seen[word] else set()
            seen[word].append(numbers[0])
        elif word == "ack":
            subscriber, number = map(int, numbers)
            found |= {"ack of an earlier one"} if number <= acked.get(subscriber, 0) else set()
            acked[subscriber] = max(number, acked.get(subscriber, 0))
    for word, came in seen.items():
        if came and set(range(1, max(map(int, came)))) - set(map(int, came)):
            found.add(f"{word} never")
    return found


class Plans(checked.Checks):
    """The runs, and how they ended."""

    def __init__(self, program, room):
        super().__init__(program, room)
        with open(f"{room}/script", "w", encoding="ascii") as file:
            file.write(script_of(TRANSFERS))
        os.mkfifo(f"{room}/hold")

    def start(self, plan, env=None):
        arguments = [self.program, "run", "script", "--trace", *plan]
        how = {"stdin": subprocess.DEVNULL, "stdout": subprocess.PIPE, "stderr": subprocess.PIPE}
        return subprocess.Popen(arguments, cwd=self.room, env=env, **how)

    def end(self, plan, run):
        """Checks what a run printed and that its trace agrees with that and with the plan; returns the trace."""
        what = " ".join(plan) or "no plan"
        try:
            out, errors = run.communicate(timeout=checked.SECONDS)
        except subprocess.TimeoutExpired:
            run.kill()
            out, errors = run.communicate()
        out, errors = out.decode(), errors.decode(errors="replace")
        self.same(what, (0, printed_of(TRANSFERS)), (run.returncode, out))
        self.same(f"{what}: the trace", [], traces.complaints(plan, out, errors))
        return errors

    def trace(self, plan):
        return self.end(plan, self.start(plan))

    # -- windows

    def window(self, plan, window):
        """A plan whose window is this one: the events that are sent again after a restart."""
        for after in {1, window - 1, window} - {0}:
            arguments = [*plan, "--restart-after", str(after)]
            sent = [int(it) for it in SENT_AGAIN.findall(self.trace(arguments))]
            self.same(f"{' '.join(arguments)}: sent again", list(range(FIRST, FIRST + after)), sent)
        arguments = [*plan, "--restart-after", str(window + 1)]
        sent = [int(it) for it in SENT_AGAIN.findall(self.trace(arguments))]
        self.same(f"{' '.join(arguments)}: the last one is sent again", [FIRST + window], sent[-1:])
        self.same(f"{' '.join(arguments)}: no more than a window is", True, len(sent) <= window or sent)

    def windows(self):
        self.window([], DEFAULT_WINDOW)
        for window in WINDOWS:
            self.window(["--window", str(window)], window)

    # -- prefetches

    def held(self, subscriber, plan, library):
        """The trace of a run whose subscriber of this number is held until all others wait. Threads are started in the order
        of their places, from the last: the last subscriber's is the first."""
        env = holding.environment(library, at=len(SUBSCRIBERS) - subscriber + 1, call="thread")
        run = self.start(plan, env)
        held = holding.wait_until_held(run, f"{self.room}/hold")
        rested = held is not None and holding.wait_until_at_rest(run)
        if held is not None:
            os.close(held)
        trace = self.end(plan, run)
        self.same(f"{' '.join(plan)}: it was held until all others waited", True, rested)
        return trace

    def prefetch(self, plan, prefetch, library):
        """A plan whose prefetch is this one: the positions that are redelivered to a subscriber."""
        for subscriber in range(1, len(SUBSCRIBERS) + 1):
            arguments = [*plan, "--repeat", f"{subscriber}:{prefetch}"]
            again = AGAIN.findall(self.held(subscriber, arguments, library))
            wanted = [(str(subscriber), str(position)) for position in range(2, prefetch + 1)]
            self.same(f"{' '.join(arguments)}: redelivered", wanted, again)

    def prefetches(self):
        library = holding.library_in(self.room, "plans", "prefetches")
        if library is None:
            return
        self.prefetch([], DEFAULT_PREFETCH, library)
        for prefetch in PREFETCHES:
            self.prefetch(["--prefetch", str(prefetch)], prefetch, library)

    # -- rewinds

    def rewinds(self):
        """The trace has each position at which a queue rewinds (traces.py). The last one is that of the end mark."""
        plan = []
        for place in ("1:1", "1:2", "2:1", "2:70", "3:3", "3:4", "3:69", "1:71"):
            plan += ["--repeat", place]
            for more in ([], ["--prefetch", "2"], ["--prefetch", "64", "--window", "64"]):
                places = {(queue, position) for queue, position in AGAIN.findall(self.trace([*more, *plan]))}
                wanted = {tuple(it.split(":")) for it in plan[1::2]}
                self.same(f"{' '.join([*more, *plan])}: redelivered", set(), wanted - places)

    # -- random steps

    def random_faults(self, faults):
        """The kinds of faults of random steps, so many for each seed."""
        found = set()
        for seed in range(1, SEEDS + 1):
            arguments = ["simulate", "script", "--random", str(seed), "--steps", "400", "--faults", str(faults)]
            status, _, errors = self.run(arguments)
            self.same(f"{' '.join(arguments)}: the status", 0, status)
            found |= faults_in(it for it in errors.splitlines() if not it.startswith("#"))
        return found

    def random(self):
        self.same("no random fault", set(), self.random_faults(0))
        self.same("each random fault", FAULTS, self.random_faults(40))


def main(arguments):
    return checked.main(arguments, __doc__, Plans, [Plans.windows, Plans.prefetches, Plans.rewinds, Plans.random])


if __name__ == "__main__":
    ending.run(main)
