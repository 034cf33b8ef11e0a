#!/usr/bin/env python3
"""Runs every random check for a given time: all commands, by numbers that the gate doesn't try.

  tests/checks/long_soak.py [PROGRAM] [--seed S] [--seconds T] [--jobs J]    PROGRAM: crates/cdc_app/out/cdc_app
  tests/checks/long_soak.py [PROGRAM] [--seed S] --round K

A round has cases of each check, made of the seed and the round's number alone:

- `books`, `messages`, `simulate` and `run` over scripts, steps and plans of soak.py;
- `follow` over streams that are lost, repeated, shuffled and merged (follow.py);
- `audit`, and then `follow`, over a ledger's streams, whole and with an event that is left out, doubled, swapped or changed
  (audit.py);
- `--deliveries`, `--expect` and `--to-end` of simulations and runs, and `follow` over the deliveries (deliveries.py);
- the three consumers of examples/consumers over deliveries; the right one is also killed (consumers.py).

What the program prints has to be what the models of these checks have. The counts of each part are printed at the end, and what
differs by the round that has it: --round K tries it again. The default is seed 1 and 60 seconds.

The last line is `long_soak: N passed, M failed`; the status is 1 if one failed.
"""
import collections
import concurrent.futures
import itertools
import os
import pathlib
import shutil
import sys
import tempfile
import time

sys.dont_write_bytecode = True
sys.path += [os.path.join(os.path.dirname(os.path.realpath(__file__)), "..", it) for it in ("common", "checks")]
import audit
import commands
import consumers
import deliveries
import ending
import follow
import rooms
import soak

MOST_SHOWN = 5
# How many cases of each check a round has, and the room that a seed's numbers have.
SCRIPTS, STREAMS, LEDGERS, DELIVERIES, SEEDS = 20, 40, 10, 8, 4
NUMBERS = 10**8


class Round:
    """What came of one round: counts of the parts, of what soak.py counts, and what is wrong."""

    def __init__(self, program, seed, number):
        self.program, self.seed, self.number = program, seed, number
        self.counts, self.seen, self.wrong = collections.Counter(), collections.Counter(), []

    def numbers(self, count):
        """Returns the numbers of this round's cases of a check."""
        first = self.seed * NUMBERS + self.number * count
        return range(first, first + count)

    def check(self, part, wrong):
        """Counts a check of a part, and keeps what is wrong with it."""
        self.counts[part] += 1
        if wrong:
            self.wrong.append(f"round {self.number}, {part}: {rooms.shortened(wrong)}")

    def tried(self):
        with tempfile.TemporaryDirectory(prefix="round-", dir=self.room()) as folder:
            self.scripts(folder)
            self.streams()
            self.ledgers()
            self.deliveries(folder)
            self.consumers(pathlib.Path(folder))
        return self

    @staticmethod
    def room():
        return rooms.MEMORY if os.access(rooms.MEMORY, os.W_OK | os.X_OK) else None

    def scripts(self, folder):
        numbers = range(self.number * SCRIPTS + 1, (self.number + 1) * SCRIPTS + 1)
        counts, runs, differing = soak.run_chunk(self.program, folder, self.seed, numbers)
        self.seen += counts
        self.counts["books, messages, simulate, run"] += runs
        for number, command in differing:
            self.wrong.append(f"soak.py --seed {self.seed} --case {number}: {command}")

    def streams(self):
        commands.begin(self.program, "follow")
        for number in self.numbers(STREAMS):
            self.check("follow", follow.random_stream(number))

    def ledgers(self):
        for number in self.numbers(LEDGERS):
            commands.begin(self.program, "audit")
            wrong, tried = audit.random_stream(number)
            self.check("audit of a ledger's stream", wrong)
            self.counts["audit of a changed stream"] += len(tried)
            self.seen.update(("changed streams", f"{kind}, {'refused' if status else 'accepted'}") for kind, status in tried)
            commands.begin(self.program, "follow")
            bodies = audit.bodies_of(number)
            rng = audit.random.Random(f"follow {number}")
            for kind, stream, _ in [("whole", bodies, None), *(audit.mutants(rng, bodies) if bodies else ())]:
                self.check("follow of a changed stream" if kind != "whole" else "follow of a ledger's stream", self.followed(stream))

    @staticmethod
    def followed(stream):
        """Returns what is wrong with what `follow` makes of these events, or None."""
        model, text = follow.Model(False), audit.text_of(stream)
        for number, line in enumerate(text.decode().splitlines(), 1):
            model.take(number, line)
        found = commands.run([], text)
        return None if found[:2] == (0, model.text()) else f"{found!r}, not {model.text()!r}"

    def deliveries(self, folder):
        for number in self.numbers(DELIVERIES):
            wrong, seen = deliveries.Trial(self.program, number, folder).tried()
            self.check("deliveries", wrong)
            self.seen.update({("deliveries", name): count for name, count in seen.items() if name in deliveries.COVERED})
            shutil.rmtree(f"{folder}/{number}")

    def consumers(self, folder):
        for number in self.numbers(SEEDS):
            has_duplicate, checks, wrong = consumers.try_seed(self.program, number, folder)
            self.counts["consumers"] += checks
            self.seen["seeds of consumers", "with a duplicate" if has_duplicate else "without one"] += 1
            self.wrong += [f"round {self.number}, consumers: {it}" for it in wrong]


def try_round(asked):
    """Tries a round; what isn't caught there is wrong too."""
    number = asked[-1]
    try:
        return Round(*asked).tried()
    except Exception as error:  # (a worker's exception would end all)
        failed = Round(*asked)
        failed.counts["rounds that ended early"] += 1
        failed.wrong.append(f"round {number}: {type(error).__name__}: {error}")
        return failed


def rounds_until(end, options):
    """Yields the rounds to try until the time is up."""
    for number in itertools.count():
        if time.monotonic() >= end:
            return
        yield options.program, options.seed, number


def tried(asked, jobs):
    """Yields each round when it was tried: so many are tried at a time."""
    running = set()
    with concurrent.futures.ProcessPoolExecutor(jobs) as pool:
        for it in asked:
            running.add(pool.submit(try_round, it))
            if len(running) >= jobs:
                done, running = concurrent.futures.wait(running, return_when=concurrent.futures.FIRST_COMPLETED)
                yield from (it.result() for it in done)
        yield from (it.result() for it in running)


def report(options, rounds, took, counts, seen, wrong):
    """Prints the counts and what is wrong; returns the status."""
    for it in wrong[:MOST_SHOWN]:
        print(f"failed: {it}")
    print(f"long_soak: seed {options.seed}, {rounds} rounds, {took:.0f} s")
    print("long_soak: " + ", ".join(f"{part} {count}" for part, count in sorted(counts.items())))
    own = {group for group, _ in seen} - set(soak.EXPECTED)
    print(soak.summary(collections.Counter({it: count for it, count in seen.items() if it[0] not in own})), end="")
    for group in sorted(own):
        print(f"{group}: " + ", ".join(f"{name} {count}" for (of, name), count in sorted(seen.items()) if of == group))
    print(f"long_soak: {sum(counts.values()) - len(wrong)} passed, {len(wrong)} failed")
    return 1 if wrong else 0


def main(arguments):
    parser = rooms.parser_of_first(__doc__)
    parser.add_argument("--seed", type=int, default=1, metavar="S")
    parser.add_argument("--seconds", type=float, default=60, metavar="T")
    parser.add_argument("--jobs", type=int, default=2, metavar="J")
    parser.add_argument("--round", type=int, metavar="K", help="this round alone")
    options = rooms.options_of(parser, arguments)
    begun = last = time.monotonic()
    asked = rounds_until(begun + options.seconds, options)
    if options.round is not None:
        asked = [(options.program, options.seed, options.round)]
    rounds, counts, seen, wrong = 0, collections.Counter(), collections.Counter(), []
    for it in tried(asked, options.jobs):
        rounds, counts, seen, wrong = rounds + 1, counts + it.counts, seen + it.seen, wrong + it.wrong
        if time.monotonic() - last >= 60:
            last = time.monotonic()
            print(f"long_soak: {rounds} rounds, {len(wrong)} failed", file=sys.stderr, flush=True)
    return report(options, rounds, time.monotonic() - begun, counts, seen, wrong)


if __name__ == "__main__":
    ending.run(main)
