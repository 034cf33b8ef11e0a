"""Has each allocation, each start of a thread and each call beneath a save or a load of progress fail in turn under `run`: a part
of sweep.py.

- An allocation that is refused makes the run fail, whichever thread it was on, or changes nothing. A thread that can't be started makes it
  fail too. Both are reported as out of memory. Standard error names the actor that failed, and each actor fails once. No actor
  that received the failure of another one hides it, and no run waits for good.
- A run of one client with one event in its window saves four records, one after another; the trace of a good run has which
  call is of which save. Where one of these calls is refused, or done and answered as refused, or where the process ends there,
  before the call or after it:
  - the file holds the record of the save before, whole, or what it held at the start; only from the rename on it holds the new one;
  - beside it is nothing, or a prefix of a record;
  - the run is refused by the store, and standard error names the file;
  - the next run goes on from what the file holds: it prints what comes after that, and leaves the last record alone.
  A write that takes one byte of several has failed, so its save is refused in the same way.
"""
import itertools
import os
import re
import subprocess
import threading

import json_text

SECONDS = 300  # that a run may take: a last guard against one that hangs
# How many allocations of each thread are refused one by one; its actor has to run out of memory at one of them.
OF_THREAD = 8
NO_MEMORY = (1, b"fault: out_of_memory\n")
STORE = (1, b"fault: store\n")
NOT_READ = (1, b"fault: read_fault\n")
ENDED = (70, b"")
S = "accounts 1000\naccount id=1 ledger=700 code=10\naccount id=2 ledger=700 code=10\n"
ALL, POSTED, OTHERS = "subscriber all\n", "subscriber all event_type=two_phase_posted\n", "subscriber all ledger=800\n"
HOLD_AND_POST = S + """transfers 2000
transfer id=10 debit_account_id=1 credit_account_id=2 amount=100 ledger=700 code=1 flags=2
transfers 3000
transfer id=11 pending_id=10 amount=40 flags=4
transfer id=12 debit_account_id=2 credit_account_id=1 amount=5 ledger=700 code=1
"""
with open(os.path.join(os.path.dirname(os.path.realpath(__file__)), "two-clients.script"), encoding="ascii") as file:
    TWO_CLIENTS = "client 1\n" + file.read()
BATCHES = "batch 1: 0 0\nbatch 2: 0\nbatch 3: 0 0\n"
ALL_KEPT = "subscriber 1 applied 3 last 3001 ended yes closed no\naccount 1 0 40 0 5\naccount 2 0 5 0 40\n"
POSTED_KEPT = "subscriber 2 applied 1 last 3000 ended yes closed no\naccount 1 0 40 0 0\naccount 2 0 0 0 40\n"
NONE_KEPT = "subscriber {} applied 0 last 0 ended yes closed no\n"
OF_TWO = "batch 1: 0 0\nbatch 2: 0\nbatch 3: 0 0\nbatch 4: 0\nsubscriber 1 applied 2 last T ended yes closed no\n"
OF_TWO += "account 1 0 5 0 0\naccount 2 0 0 0 5\naccount 3 0 7 0 0\naccount 4 0 0 0 7\n"
OTHERS_KEPT = "subscriber 2 applied 1 last T ended yes closed no\naccount 3 0 7 0 0\naccount 4 0 0 0 7\n"
# The scripts, what a run of each prints, the windows, and what else is asked for.
CASES = [
    ("one client, two subscribers", ALL + POSTED + HOLD_AND_POST, BATCHES + ALL_KEPT + POSTED_KEPT, (1, 2), []),
    ("one client, one subscriber", ALL + HOLD_AND_POST, BATCHES + ALL_KEPT, (2,), []),
    ("two clients, two subscribers", ALL + OTHERS + TWO_CLIENTS, OF_TWO + OTHERS_KEPT, (1, 2), []),
    ("two clients, one subscriber", ALL + TWO_CLIENTS, OF_TWO, (1,), []),
    ("objects", ALL + HOLD_AND_POST, BATCHES + ALL_KEPT, (2,), ["--json"]),
    ("traced", ALL + POSTED + HOLD_AND_POST, BATCHES + ALL_KEPT + POSTED_KEPT, (2,), ["--explain", "--trace"]),
]
# What a run of the first script prints that goes on from a timestamp.
LATER = {
    0: BATCHES + ALL_KEPT + POSTED_KEPT,
    2000: BATCHES + ALL_KEPT.replace("applied 3", "applied 2") + POSTED_KEPT,
    3000: BATCHES + "subscriber 1 applied 1 last 3001 ended yes closed no\naccount 2 0 5 0 40\naccount 1 0 40 0 5\n"
    + NONE_KEPT.format(2),
    3001: BATCHES + NONE_KEPT.format(1) + NONE_KEPT.format(2),
}
TIMESTAMPS = sorted(LATER)
KIND_OF = {"open": "open", "look": "open", "read": "read", "write": "write", "sync": "sync", "rename": "rename"}
HOW = ["", " after", " end", " after end"]
RECORD = re.compile(rb"tb-cdc (?:1 (?=\d+ \d+\n)|2 (?=\d+ \d+ \d+\n))(\d+) (\d+)(?: 0)?\n")
WANTED = re.compile(r"relayplum: out_of_memory: (no memory was left|no thread could be started)(?: for ([a-z]+(?: [a-z]+| \d+)))?\n")
# The lines of a trace where the run ran out of memory for some of it.
LACKING = re.compile(
    rb"out of memory: not all publishes are listed|again \d: out of memory: not all are listed"
    rb"|subscriber \d: \d+ deliver(?:y|ies), \d+ applied, each once; the other (?:one|\d+), if not redelivered, .*"
)
PREFIX = re.compile(rb"(t|tb|tb-|tb-c|tb-cd|tb-cdc|tb-cdc [0-9 ]*\n?)?")


def record(session, timestamp):
    return b"tb-cdc 2 %d %d 0\n" % (session, timestamp)


# What the file and the one beside it hold before a run.
STARTS = {
    "no file": (None, None),
    "an old record": (b"tb-cdc 1 3 0\n", None),
    "an old record and what a broken save left": (record(3, 0), record(4, 0)[:-4]),
}


def contents(path):
    """What a file holds; None where there is no file."""
    try:
        with open(path, "rb") as file:
            return file.read()
    except FileNotFoundError:
        return None


def places_of(script):
    """The actors of a run of a script, in the order of their places."""
    lines = script.splitlines()
    clients = sorted({int(it.split()[1]) for it in lines if it.startswith("client ")} or {1})
    subscribers = range(1, 1 + sum(it.startswith("subscriber ") for it in lines))
    return ["the ledger", *[f"client {it}" for it in clients], "the connector", "the broker", *[f"subscriber {it}" for it in subscribers]]


def is_reported(errors, whole):
    """Whether standard error has of a run what it has without a refusal, less what there was no memory for."""
    return all(line in whole.splitlines() or LACKING.fullmatch(line) for line in errors.splitlines())


def as_text(printed):
    """The text that objects stand for; what is none is left as it is."""
    try:
        return json_text.rendered(printed)
    except (ValueError, KeyError, TypeError):
        return printed


def settled(text):
    """A report of two clients without what hangs on the order of their batches: timestamps, and the order of accounts."""
    lines = re.sub(r"last [1-9]\d*", "last T", text).splitlines(True)
    parts, accounts = [], []
    for line in [*lines, ""]:
        if line.startswith("account "):
            accounts.append(line)
        else:
            parts, accounts = [*parts, *sorted(accounts), line], []
    return "".join(parts)


class Sweep:
    """The runs, and what went wrong with them."""

    def __init__(self, program, library, room):
        self.program, self.library, self.room = program, library, room
        self.places = itertools.count()
        self.lock = threading.Lock()
        self.runs = 0
        self.failures = []

    def fail(self, what):
        with self.lock:
            self.failures.append(f"failed: run, {what}")

    def folder(self):
        made = os.path.join(self.room, f"runs-{next(self.places)}")
        os.mkdir(made)
        return made

    def run(self, script, arguments, folder=None, **plan):
        """Runs a script under a plan. Answers the status and what was printed, and what standard error said."""
        with self.lock:
            self.runs += 1
        env = dict(os.environ, LD_PRELOAD=self.library, **plan)
        arguments = [self.program, "run", "-", *arguments]
        try:
            done = subprocess.run(arguments, input=script.encode(), capture_output=True, env=env, cwd=folder, timeout=SECONDS)
        except subprocess.TimeoutExpired:
            return ("none", f"it hasn't ended after {SECONDS} seconds"), b""
        return (done.returncode, as_text(done.stdout) if "--json" in arguments else done.stdout), done.stderr

    # -- allocations and threads

    def sweep_case(self, pool, name, script, printed, window, asked):
        """Each allocation and each start of a thread is refused."""
        arguments = ["--window", str(window), *asked]
        reads = (lambda text: text) if script.count("client") < 2 else settled
        is_right = lambda ended: ended[0] == 0 and reads(ended[1].decode()) == printed
        calls, folder = {"allocation": 0, "thread": 0}, self.folder()
        # (how many allocations there are hangs on the threads)
        for _ in range(3):
            ended, whole = self.run(script, arguments, CALLS=os.path.join(folder, "calls"))
            if not is_right(ended):
                self.fail(f"{name}, window {window}, no fault: {ended}")
            found = dict(line.split() for line in contents(os.path.join(folder, "calls")).decode().splitlines())
            calls = {kind: max(count, int(found[kind])) for kind, count in calls.items()}
        counts, places = {}, places_of(script)
        plans = [f"{kind}:{number}" for kind, count in calls.items() for number in range(1, count + 1)]
        for plan, (ended, errors) in zip(plans, pool.map(lambda plan: self.run(script, arguments, FAULT=plan), plans)):
            said = WANTED.fullmatch(errors.decode())
            refused = ended == NO_MEMORY and said is not None
            kind, number = plan.split(":")
            if refused and kind == "thread":
                # (the last actor is started first)
                refused = said.groups() == ("no thread could be started", places[-int(number)])
            elif refused and said[1] == "no memory was left":
                refused = said[2] in (None, *places)
            elif refused:
                # (to start a thread takes some memory too)
                refused = said[2] in places
            if not refused and not (kind == "allocation" and is_right(ended) and is_reported(errors, whole)):
                self.fail(f"{name}, window {window}, {plan}: {ended}, {errors!r}")
            counts[refused] = counts.get(refused, 0) + 1
        if calls["thread"] != len(places):
            self.fail(f"{name}, window {window}: {calls['thread']} threads were started, not {len(places)}")
        is_unmoved = lambda ended, errors: is_right(ended) and is_reported(errors, whole)
        self.sweep_threads(pool, f"{name}, window {window}", lambda plan: self.run(script, arguments, FAULT=plan), places, is_unmoved)
        outcomes = f"{counts.get(True, 0)} ended it, {counts.get(False, 0)} changed nothing"
        print(f"run, {name}, window {window}: {calls['allocation']} allocations, {calls['thread']} threads ({outcomes})", flush=True)

    def sweep_threads(self, pool, what, run, places, is_unmoved):
        """The first allocations of each thread are refused. These belong to one actor, however the threads are scheduled: either
        standard error names that actor, or nothing changes. Each actor is named at least once."""
        for thread, place in enumerate(reversed(places), 1):
            plans, met = [f"on-thread:{thread}:{number}" for number in range(1, OF_THREAD + 1)], 0
            for plan, (ended, errors) in zip(plans, pool.map(run, plans)):
                said = WANTED.fullmatch(errors.decode())
                is_met = ended == NO_MEMORY and said is not None and said.groups() == ("no memory was left", place)
                met += is_met
                if not is_met and not is_unmoved(ended, errors):
                    self.fail(f"{what}, {plan}, {place}: {ended}, {errors!r}")
            if not met:
                self.fail(f"{what}: {place} was out of memory at none of the first {OF_THREAD} allocations of its thread")

    # -- saves and loads

    def place(self, start):
        """A folder of its own with what the files hold before a run."""
        folder = self.folder()
        for name, holds in zip(("saved", "saved.new"), start):
            if holds is not None:
                with open(os.path.join(folder, name), "wb") as file:
                    file.write(holds)
        return folder

    def saving(self, folder, **plan):
        return self.run(CASES[0][1], ["--progress", "saved"], folder, **plan)

    def calls_of(self, start):
        """The calls of a good run, as they come: each with its kind, its number among these, what it is done to, and how many
        records were saved before it."""
        folder = self.place(start)
        trace = os.path.join(folder, "trace")
        self.saving(folder, TRACE=trace)
        counts, saved, found = {}, 0, []
        for line in contents(trace).decode().splitlines():
            what, path = line.split(" ")[:2]
            kind = KIND_OF.get(what)
            if kind:
                counts[kind] = counts.get(kind, 0) + 1
                found.append((kind, counts[kind], os.path.basename(path), saved))
            saved += what == "rename"
        if saved != len(TIMESTAMPS):
            self.fail(f"a run saves {saved} records, not {len(TIMESTAMPS)}")
        return found

    def failing_call(self, name, start, call, how):
        """One call of a run that saves fails, or each write takes one byte: what is answered, what the files hold, and that the next
        run goes on."""
        kind, number, path, saved = call
        folder, plan = self.place(start), kind if kind == "short" else f"{kind}:{number}{how}"
        ended, errors = self.saving(folder, FAULT=plan)
        session = int(RECORD.fullmatch(start[0])[1]) + 1 if start[0] else 1
        records = [start[0], *(record(session, timestamp) for timestamp in TIMESTAMPS)]
        wanted = records[saved + (kind == "rename" and "after" in how)]
        holds, beside = (contents(os.path.join(folder, it)) for it in ("saved", "saved.new"))
        if "end" in how:
            right = ended == ENDED
        else:
            right = ended == STORE and b"saved: store: " in errors and errors.count(b"\n") == 1
        if not right or holds != wanted or not (beside is None or PREFIX.fullmatch(beside)):
            self.fail(f"{name}, {plan} of {path}: {ended}, {errors!r}; saved: {holds!r}, wanted {wanted!r}; beside it {beside!r}")
            return
        before = RECORD.fullmatch(holds) if holds else None
        timestamp = int(before[2]) if before else 0
        ended, _ = self.saving(folder)
        left = [contents(os.path.join(folder, it)) for it in ("saved", "saved.new")]
        last = record(int(before[1]) + 1 if before else 1, TIMESTAMPS[-1])
        if ended != (0, LATER[timestamp].encode()) or left != [last, None]:
            self.fail(f"{name}, {plan} of {path}, the next run: {ended}, {left}")

    def sweep_saves(self, pool, name, start):
        """Each call of a run that saves its progress fails."""
        of_file = [it for it in self.calls_of(start) if it[2] in ("saved", "saved.new")]
        tries = [(it, how) for it in of_file for how in HOW] + [(("short", 1, "saved.new", 0), "")]
        if start == STARTS["an old record"]:
            self.sweep_allocations(pool, name, start)
        list(pool.map(lambda it: self.failing_call(name, start, *it), tries))
        for kind in ("open", "read", "write", "sync", "rename"):
            if kind not in {it[0] for it in of_file}:
                self.fail(f"{name}: a run that saves does no {kind}")
        print(f"run, {name}: {len(of_file)} calls of the file of progress, {len(tries)} tries", flush=True)

    def refused_allocation(self, name, start, number):
        """An allocation of a run that saves is refused: the file holds a whole record, or what it held, and the next run goes on."""
        folder = self.place(start)
        ended, errors = self.saving(folder, FAULT=f"allocation:{number}")
        holds, beside = (contents(os.path.join(folder, it)) for it in ("saved", "saved.new"))
        found = RECORD.fullmatch(holds)
        right = ended == NO_MEMORY and b"out_of_memory" in errors or ended == (0, LATER[0].encode())
        if not right or not found or int(found[2]) not in LATER or beside is not None:
            self.fail(f"{name}, allocation:{number}: {ended}, {errors!r}; saved: {holds!r}; beside it {beside!r}")
            return
        ended, _ = self.saving(folder)
        if ended != (0, LATER[int(found[2])].encode()):
            self.fail(f"{name}, allocation:{number}, the next run: {ended}")

    def sweep_allocations(self, pool, name, start):
        """Each allocation of a run that saves its progress is refused."""
        folder = self.place(start)
        self.saving(folder, CALLS=os.path.join(folder, "calls"))
        found = dict(line.split() for line in contents(os.path.join(folder, "calls")).decode().splitlines())
        numbers = range(1, int(found["allocation"]) + 1)
        list(pool.map(lambda number: self.refused_allocation(name, start, number), numbers))
        print(f"run, {name}: {len(numbers)} allocations", flush=True)

    def sweep(self, pool):
        for name, script, printed, windows, asked in CASES:
            for window in windows:
                self.sweep_case(pool, name, script, printed, window, asked)
        for name, start in STARTS.items():
            self.sweep_saves(pool, name, start)
