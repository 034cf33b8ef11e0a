#!/usr/bin/env python3
"""Deliveries of simulations and of runs, what must come of them, and random steps to the end, beside the model.

  tests/checks/deliveries.py [PROGRAM] [--cases N] [--case K]    PROGRAM: crates/cdc_app/out/cdc_app; N cases, 300 by default

A case is a script of the soak, a subscriber, and steps: mostly those of `simulate --random`, with or without `--to-end`, else a
step file of the soak. All are made of the case's number alone. The model plays the steps. What `simulate` prints with
`--deliveries`, with `--expect` and without both has to be the model's, byte for byte, by the seed as by the step file that it
prints, and standard error names each subscriber that was delivered more events than it applied. With `--to-end` every subscriber has received the end mark and is open, and has
the book that `books` prints of it, unless the ledger refused a batch as a whole. What is delivered is a stream that `follow` takes:
it comes to the book that the simulation prints, `--chained` too, unless the connector started after a timestamp.

Each case also has a plan of a run over a script of one client. What comes when isn't fixed in a run, so two runs have different
deliveries. Those of one have to be lines of the model, at positions that the plan's prefetch and rewinds allow. A position
always brings the same item. With a window of one event that is the item that the model's broker has there. Otherwise the
events that come first are those of the queue, in order. The model's subscriber takes these deliveries, closes with the last one
if the plan asks for it, and comes to the book that a run of this plan prints; so does `follow`. The results of `--expect`, of
another run, apply just the events of that book.

examples/boundaries.script has the values that it promises, by the model's events. Its books are the model's, and so are
its deliveries in ten simulations.

The last line is `deliveries: N passed, M failed`; the status is 1 if one failed.
"""
import collections
import concurrent.futures
import json
import os
import pathlib
import random
import re
import subprocess
import sys

sys.dont_write_bytecode = True
sys.path += [os.path.join(os.path.dirname(os.path.realpath(__file__)), "..", it) for it in ("common", "checks")]
import ending
import model
import rooms
import soak

SECONDS, JOBS = 300, 2  # that a run may take, a last guard; cases at a time
CASES, FEWEST = 300, 300  # by default; from so many on each of COVERED has to come up
MOST_SHOWN = 5
COUNTED = re.compile(r"relayplum: subscriber (\d+) applied (\d+) of (\d+) deliveries")
COVERED = (
    "applied", "duplicate", "end", "redelivered", "a duplicate of an end mark", "closed", "not ended", "nothing is delivered",
    "no such subscriber", "the end", "a refused step", "no event", "a filtered queue", "a later start", "close", "break", "rewind", "crash",
    "a run", "a run's duplicate", "a run's rewind", "a run's item published twice", "a run's close", "a run's duplicate of an end mark",
    "a run of no such subscriber",
)
PREFETCH = 8  # of a run, by default
BOUNDARIES = rooms.TOP / "examples/boundaries.script"
# For each field of an event the bits at whose boundaries it has values: just below, at it, and for some above it.
AROUND = {
    "id": (31, 53, 63, 64, 127),
    "amount": (31, 53, 63, 64, 127),
    "user_data_128": (53, 63, 64, 127),
    "user_data_64": (31, 53, 63),
}
GREATEST = {"amount": 2**128 - 1, "user_data_128": 2**128 - 1, "user_data_64": 2**64 - 1, "user_data_32": 2**32 - 1,
            "code": 65535, "ledger": 2**32 - 1, "timeout": 2**32 - 1, "timestamp": 2**63 - 1, "id": 2**128 - 2}
SIMULATIONS = 10


class Case:
    """A script, the arguments that make random steps, or None and a step file, and a subscriber."""

    def __init__(self, number):
        rng = random.Random(f"deliveries {number}")
        for _ in range(3):
            # (a third of the soak's scripts has no event)
            self.script = "".join(f"{line}\n" for line in soak.ScriptMaker(rng).script()).encode()
            if model.run_batches(model.read_script(self.script))[0].events:
                break
        self.window = rng.choice([1, 1, 2, 3, 8, 64])
        script = model.read_script(self.script)
        self.subscribers = len(script.bindings)
        kind = rng.choice(["random", "random", "to the end", "to the end", "steps"])
        self.is_to_end, self.random, self.steps = kind == "to the end", None, b""
        if kind == "steps":
            self.steps = "".join(f"{line}\n" for line in soak.StepMaker(rng, script, self.window).steps()).encode()
        else:
            self.random = ["--random", str(number), "--steps", str(rng.choice([0, 20, 60, 120, 200, 400]))]
            self.random += ["--faults", str(rng.choice([0, 3, 10, 10, 40]))] + ["--to-end"] * self.is_to_end
        self.subscriber = min(rng.randint(1, self.subscribers + (rng.random() < 0.05)), model.MOST_SUBSCRIBERS)


class Trial:
    """What is wrong with what the program makes of a case, and what came up in it."""

    def __init__(self, program, number, room):
        self.program, self.number, self.case = program, number, Case(number)
        self.room = pathlib.Path(room) / str(number)
        self.wrong, self.seen = [], collections.Counter()

    def run(self, *arguments, stream=b""):
        """Runs the program in the folder of the case: its status, and what it prints on standard output and standard error."""
        done = subprocess.run([self.program, *arguments], input=stream, capture_output=True, timeout=SECONDS, cwd=self.room)
        return done.returncode, done.stdout.decode(), done.stderr.decode(errors="replace")

    def same(self, what, wanted, found):
        if wanted != found:
            self.wrong.append(f"{what}:\n  wanted: {rooms.shortened(wanted)}\n  found:  {rooms.shortened(found)}")

    def tried(self):
        self.room.mkdir()
        (self.room / "script").write_bytes(self.case.script)
        ways, steps, window = [], self.case.steps, ["--window", str(self.case.window)]
        if self.case.random:
            ways.append(["simulate", "script", *self.case.random, *window])
            steps = self.run(*ways[0])[2].encode()
        (self.room / "steps").write_bytes(steps)
        ways.append(["simulate", "script", "steps", *window])
        report = model.simulate(self.case.script, steps, self.case.window)
        for way in ways:
            status, printed, said = self.run(*way)
            self.same(" ".join(way), (report.status, report.text), (status, printed))
            self.counts(report.world, " ".join(way), said)
        asked = ["--deliveries", str(self.case.subscriber)]
        for expects in (False, True):
            wanted = model.only_deliveries(report, self.case.subscriber, expects)
            for way in ways:
                arguments = [*way, *asked, *["--expect"] * expects]
                status, deliveries, said = self.run(*arguments)
                self.same(" ".join(arguments), (wanted.status, wanted.text), (status, deliveries))
                if self.case.subscriber <= self.case.subscribers:
                    self.counts(report.world, " ".join(arguments), said)
        self.see(report)
        if self.case.is_to_end:
            self.ended(report.world, printed)
        if self.case.subscriber <= self.case.subscribers:
            self.followed(report.world)
        RunTrial(self, self.number).tried()
        return self.wrong, self.seen

    def ended(self, world, printed):
        """Compares the subscribers of steps to the end with those of `books`."""
        ends = {(seat.subscriber.ended, seat.subscriber.closed) for seat in world.seats}
        self.same("to the end: whether each subscriber is ended and closed", {(True, False)}, ends)
        if world.batches:
            self.seen["a refused batch"] += 1
        else:
            wanted, found = (books_in(text) for text in (model.books(self.case.script).text, printed))
            self.same("to the end: the books", wanted, found)

    def counts(self, world, what, said):
        """Compares the lines on standard error about deliveries that were not applied."""
        wanted = []
        for number, seat in enumerate(world.seats, 1):
            if model.events_delivered(world, number) != len(seat.subscriber.applied):
                wanted.append((number, len(seat.subscriber.applied), model.events_delivered(world, number)))
        self.same(f"{what}, standard error", wanted, [tuple(map(int, it)) for it in COUNTED.findall(said)])

    def followed(self, world):
        """Compares the book of a follower of the deliveries with that of the subscriber."""
        number = self.case.subscriber
        subscriber, stream = world.seats[number - 1].subscriber, model.delivery_lines(world, number).encode()
        wanted = model.subscriber_lines(1, subscriber).replace(" closed yes\n", " closed no\n")
        start = 0 if world.progress is None else world.progress[2]
        is_late = any(world.broker.bindings[number - 1].matches(it) for it in world.ledger.events if it.timestamp <= start)
        for arguments in (["follow"], ["follow", "--chained"])[: 1 if is_late else 2]:
            self.same(" ".join(arguments), (0, wanted), self.run(*arguments, stream=stream)[:2])

    def see(self, report):
        """Notes what came up."""
        self.seen.update({step.word for step, _ in report.steps})
        self.seen["the end"] += self.case.is_to_end
        self.seen["a refused step"] += report.refused is not None
        self.seen["no event"] += not report.world.ledger.events
        start = 0 if report.world.progress is None else report.world.progress[2]
        self.seen["a later start"] += any(it.timestamp <= start for it in report.world.ledger.events)
        if self.case.subscriber > self.case.subscribers:
            self.seen["no such subscriber"] += 1
            return
        seat = report.world.seats[self.case.subscriber - 1]
        binding = report.world.broker.bindings[self.case.subscriber - 1]
        self.seen["a filtered queue"] += any(not binding.matches(event) for event in report.world.ledger.events)
        self.seen["closed"] += seat.subscriber.closed
        self.seen["not ended"] += not seat.subscriber.ended
        self.seen["nothing is delivered"] += not seat.deliveries
        self.seen.update({model.RESULTS_OF_ANSWERS[it.answer] for it in seat.deliveries})
        self.seen["redelivered"] += any(it.redelivered for it in seat.deliveries)
        is_second_end = (it.item is model.END_MARK and it.answer != "ended" for it in seat.deliveries)
        self.seen["a duplicate of an end mark"] += any(is_second_end)


class Run:
    """A script of one client, a plan of a run, and a subscriber."""

    def __init__(self, number):
        rng = random.Random(f"deliveries of a run {number}")
        for _ in range(3):
            maker = soak.ScriptMaker(rng)
            maker.clients = 1
            self.data = "".join(f"{line}\n" for line in maker.script()).encode()
            self.script = model.read_script(self.data)
            self.events = model.run_batches(self.script)[0].events
            if self.events:
                break
        self.subscribers = len(self.script.bindings)
        self.subscriber = rng.randint(1, self.subscribers)
        self.prefetch = rng.choice([None, 1, 2, 2, 3, 64])
        self.window = rng.choice([1, 1, 1, 2, 8, 64])
        fed = [it for it in self.events if self.script.bindings[self.subscriber - 1].matches(it)]
        self.rewinds = {rng.randint(1, len(fed) + 2) for _ in range(rng.choice([0, 1, 2, 5]))}
        self.plan = ["--window", str(self.window)]
        self.plan += [] if self.prefetch is None else ["--prefetch", str(self.prefetch)]
        for option in ("--lose-confirm", "--lose-publish", "--restart-after"):
            for _ in range(rng.choice([0, 0, 1, 2])):
                self.plan += [option, str(rng.randint(1, len(self.events) + 2))]
        for position in sorted(self.rewinds):
            self.plan += ["--repeat", f"{self.subscriber}:{position}"]
        if rng.random() < 0.3:
            self.plan += ["--close", f"{self.subscriber}:{rng.randint(1, len(fed) + 1)}"]


class RunTrial:
    """What is wrong with the deliveries of a run, and what came up in it."""

    def __init__(self, trial, number):
        self.trial, self.case = trial, Run(number)
        self.seen = trial.seen
        self.plan = model.plan_of(self.case.plan)
        self.fed = [it for it in self.case.events if self.binding.matches(it)]

    @property
    def binding(self):
        return self.case.script.bindings[self.case.subscriber - 1]

    def wrong(self, what):
        self.trial.wrong.append(f"run {' '.join(self.case.plan)}, subscriber {self.case.subscriber}: {what}")

    def run(self, *arguments):
        return self.trial.run("run", "run.script", *self.case.plan, *arguments)

    def tried(self):
        (self.trial.room / "run.script").write_bytes(self.case.data)
        report = model.run(self.case.data, self.plan)
        self.trial.same(f"run {' '.join(self.case.plan)}", (report.status, report.text), self.run()[:2])
        self.seen["a run"] += 1
        asked = ["--deliveries", str(self.case.subscriber)]
        status, printed, said = self.run(*asked)
        self.trial.same(f"run {' '.join(self.case.plan)} --deliveries, the status", 0, status)
        deliveries = self.deliveries_in(printed)
        if deliveries is not None:
            self.positions(deliveries)
            self.items(deliveries)
            self.applied(deliveries, printed, said, report.text)
        self.expected(*self.run(*asked, "--expect")[:2])
        self.none()

    def deliveries_in(self, printed):
        """The deliveries that these lines state: positions, whether they are redelivered, and items. None if a line isn't the
        model's."""
        items = {self.content(model.delivery_line(self.fed, 1, 1, False, it)): it for it in [*self.fed, model.END_MARK]}
        found = []
        for count, line in enumerate(printed.splitlines(keepends=True), 1):
            members = json.loads(line)
            item = items.get(self.content(line))
            position, redelivered = members.get("position"), members.get("redelivered")
            if item is None or line != model.delivery_line(self.fed, count, position, redelivered, item):
                self.wrong(f"line {count} is no delivery of its queue: {line}")
                return None
            found.append((position, redelivered, item))
        return found

    @staticmethod
    def content(line):
        """What a line has of its item alone."""
        members = json.loads(line)
        return json.dumps({key: it for key, it in members.items() if key not in ("delivery", "position", "redelivered")})

    def positions(self, deliveries):
        """The positions rise by 1, except after the first delivery of one at which the queue rewinds."""
        furthest, before, prefetch = 0, 0, self.case.prefetch or PREFETCH
        rewound, again = set(), collections.Counter(position for position, _, _ in deliveries)
        for count, (position, redelivered, _) in enumerate(deliveries, 1):
            may_rewind = before == furthest and before in self.case.rewinds and before not in rewound
            least = max(1, before - prefetch + 1) if may_rewind else before + 1
            if not least <= position <= before + 1 or redelivered != (position <= furthest):
                self.wrong(f"delivery {count} at position {position}, redelivered {redelivered}, after {before} of {furthest}")
            rewound |= {before} if may_rewind else set()
            self.seen["a run's rewind"] += position <= before
            furthest, before = max(furthest, position), position
        kept = self.case.rewinds & set(range(1, furthest + 1)) if prefetch > 1 and not self.plan.close else set()
        for position in kept:
            if again[position] < 2:
                self.wrong(f"position {position} comes only once")

    def items(self, deliveries):
        """Each position brings the item that the queue has there."""
        queue = {}
        for position, _, item in deliveries:
            if queue.setdefault(position, item) is not item:
                self.wrong(f"position {position} brings two items")
        found = [queue[it] for it in sorted(queue)]
        distinct = list(dict.fromkeys(found))
        self.seen["a run's item published twice"] += len(found) > len(distinct)
        if self.case.window == 1:
            taken, _ = model.published(self.case.events, self.plan, None)
            wanted = [it for it in taken if it is model.END_MARK or self.binding.matches(it)]
        else:
            wanted, found = [*self.fed, model.END_MARK], distinct
        if found != wanted[: len(found)] or not self.plan.close and found != wanted:
            self.wrong(f"its queue has other items: {[getattr(it, 'timestamp', 'end') for it in found]}")

    def applied(self, deliveries, printed, said, report):
        """A subscriber that takes these deliveries comes to the book of the report, and so does a follower."""
        number, subscriber = self.case.subscriber, model.Subscriber()
        close_after = self.plan.close_after(number)
        for position, _, item in deliveries:
            answer = subscriber.take(item)
            if answer == "after close":
                self.wrong(f"position {position} comes after the close")
            self.seen["a run's duplicate"] += answer == "repeat"
            self.seen["a run's duplicate of an end mark"] += item is model.END_MARK and answer != "ended"
            if close_after is not None and len(subscriber.applied) >= close_after:
                subscriber.closed = True
        self.seen["a run's close"] += subscriber.closed
        found = model.subscriber_lines(number, subscriber).splitlines()
        self.trial.same(f"run {' '.join(self.case.plan)} --deliveries {number}, the book", books_of(number, report), found)
        followed = model.subscriber_lines(1, subscriber).replace(" closed yes\n", " closed no\n")
        for arguments in (["follow"], ["follow", "--chained"]):
            found = self.trial.run(*arguments, stream=printed.encode())[:2]
            self.trial.same(f"run {' '.join(self.case.plan)} --deliveries {number} | {' '.join(arguments)}", (0, followed), found)
        events = sum(item is not model.END_MARK for _, _, item in deliveries)
        counts = [(number, len(subscriber.applied), events)] if len(subscriber.applied) < events else []
        found = [it for it in (tuple(map(int, it)) for it in COUNTED.findall(said)) if it[0] == number]
        self.trial.same(f"run {' '.join(self.case.plan)} --deliveries {number}, standard error", counts, found)

    def expected(self, status, printed):
        """What must come of the deliveries of another run: these apply just the events of the queue, up to the close."""
        close_after = self.plan.close_after(self.case.subscriber)
        applied, has_ended, text = [], False, ""
        wanted = self.fed if close_after is None else self.fed[:close_after]
        for count, line in enumerate(printed.splitlines(keepends=True), 1):
            result = json.loads(line).get("result")
            answer = {"applied": "applied", "end": "ended"}.get(result, "repeat")
            if answer == "applied":
                applied = self.fed[: len(applied) + 1]
            has_ended |= answer == "ended"
            text += model.expected_line(count, answer, applied)
        self.trial.same(f"run {' '.join(self.case.plan)} --expect", (0, text), (status, printed))
        if applied != wanted or has_ended == (close_after is not None and close_after <= len(self.fed)):
            self.wrong(f"--expect applies {len(applied)} of {len(wanted)}, ended {has_ended}")

    def none(self):
        """A subscriber that the script doesn't have: a usage error, and nothing is run."""
        number = self.case.subscribers + 1
        if number > model.MOST_SUBSCRIBERS:
            return
        self.seen["a run of no such subscriber"] += 1
        status, printed, said = self.run("--progress", "run.saved", "--deliveries", str(number))
        wanted = (2, "", f"relayplum: --deliveries {number}: the script has no such subscriber\n", False)
        found = (status, printed, said, (self.trial.room / "run.saved").exists())
        self.trial.same(f"run {' '.join(self.case.plan)} --deliveries {number}", wanted, found)


def books_of(number, text):
    """The lines of the subscriber of this number."""
    lines, is_its = [], False
    for line in books_in(text):
        is_its = line.startswith(f"subscriber {number} ") or is_its and line.startswith("account ")
        lines += [line] if is_its else []
    return lines


def books_in(text):
    """The lines of the subscribers."""
    return [line for line in text.splitlines() if line.startswith(("subscriber ", "account "))]


class Boundaries:
    """The script of boundaries: what is wrong with it, and how many checks there were."""

    def __init__(self, program):
        self.program, self.data, self.count, self.wrong = program, BOUNDARIES.read_bytes(), 0, []
        self.events = model.run_batches(model.read_script(self.data))[0].events

    def same(self, what, wanted, found):
        self.count += 1
        if wanted != found:
            wanted, found = rooms.shortened(wanted), rooms.shortened(found)
            self.wrong.append(f"boundaries: {what}:\n  wanted: {wanted}\n  found:  {found}")

    def tried(self):
        self.values()
        report = model.books(self.data)
        refused = re.findall(r"(?m)^batch \d+:.* [1-9]\d*.*$", report.text.replace("pulse 1", ""))
        self.same("all requests are accepted", [], refused)
        self.same("the books", (report.status, report.text), self.run("books", str(BOUNDARIES))[:2])
        for seed in range(1, SIMULATIONS + 1):
            asked = ["simulate", str(BOUNDARIES), "--random", str(seed), "--to-end"]
            report = model.simulate(self.data, self.run(*asked)[2].encode())
            for expects in (False, True):
                wanted = model.only_deliveries(report, 1, expects)
                found = self.run(*asked, "--deliveries", "1", *["--expect"] * expects)[:2]
                self.same(f"seed {seed}, the deliveries, expected {expects}", (wanted.status, wanted.text), found)

    def run(self, *arguments):
        done = subprocess.run([self.program, *arguments], capture_output=True, timeout=SECONDS)
        return done.returncode, done.stdout.decode(), done.stderr.decode()

    def values(self):
        """The values of the events."""
        stored = [it for event in self.events for it in (event.transfer, event.debit_account, event.credit_account)]
        values = collections.defaultdict(set, {"timestamp": {it.timestamp for it in [*stored, *self.events]}})
        for it in stored:
            for name, value in vars(it.request).items():
                values[name].add(value)
        for name, bits in AROUND.items():
            missing = [it for it in bits if not {2**it - 1, 2**it} <= values[name]]
            self.same(f"{name}: at and below each boundary", [], missing)
        self.same("ids and amounts above 2^53", [True, True], [2**53 + 1 in values[it] for it in ("id", "amount")])
        around = {2**it + more for it in (31, 53) for more in (-1, 0, 1)}
        self.same("timestamps around 2^31 and 2^53", set(), around - values["timestamp"])
        since_1970 = range(1_700_000_000 * 10**9, 2_000_000_000 * 10**9)
        self.same("nanoseconds since 1970", True, any(it.timestamp in since_1970 for it in self.events))
        self.same("the greatest values", {}, {name: it for name, it in GREATEST.items() if max(values[name]) != it})
        for what, kind, wanted in [
            ("accounts", model.NewAccount, {0, 1, 8, 9, 11, 12, 13}),
            ("transfers", model.NewTransfer, {0, 1, 2, 3, 4, 5, 8, 9}),
        ]:
            flags = {it.request.flags for it in stored if isinstance(it.request, kind)}
            self.same(f"flags of {what}", True, wanted <= flags)
        sums = [it for event in self.events for it in (event.debit_balances, event.credit_balances)]
        self.same("an account in every balance at once", True, any(all(vars(it).values()) for it in sums))
        self.same("each kind of event", set(model.EVENT_TYPES), {it.kind for it in self.events})


def try_case(asked):
    return Trial(*asked).tried()


def main(arguments):
    parser = rooms.parser_of_first(__doc__)
    parser.add_argument("--cases", type=int, default=CASES, metavar="N", help="default: %(default)s")
    parser.add_argument("--case", type=int, metavar="K", help="this case alone")
    options = rooms.options_of(parser, arguments)
    numbers = range(options.cases) if options.case is None else [options.case]
    failed, seen = 0, collections.Counter()
    with rooms.room("deliveries-") as room, concurrent.futures.ProcessPoolExecutor(JOBS) as pool:
        asked = [(options.program, number, room) for number in numbers]
        for number, (wrong, found) in zip(numbers, pool.map(try_case, asked, chunksize=10)):
            failed, seen = failed + bool(wrong), seen + found
            if wrong and failed <= MOST_SHOWN:
                print(f"failed: case {number}: {wrong[0]}")
    boundaries = Boundaries(options.program)
    boundaries.tried()
    for it in boundaries.wrong[:MOST_SHOWN]:
        print(f"failed: {it}")
    missing = [it for it in COVERED if not seen[it]] if len(numbers) >= FEWEST else []
    for it in missing:
        print(f"failed: it never came up: {it}")
    passed = len(numbers) - failed + len(COVERED) - len(missing) + boundaries.count - len(boundaries.wrong)
    failed += len(boundaries.wrong)
    print("deliveries: cases with " + ", ".join(f"{it} {seen[it]}" for it in COVERED))
    print(f"deliveries: {passed} passed, {failed + len(missing)} failed")
    return 1 if failed or missing else 0


if __name__ == "__main__":
    ending.run(main)
