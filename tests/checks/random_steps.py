#!/usr/bin/env python3
"""Counts the kinds of faults among random steps, against how many were asked for: each kind has to occur.

  tests/checks/random_steps.py [PROGRAM] [--seeds N]    PROGRAM: crates/cdc_app/out/cdc_app; N seeds, 300 by default

A step or a comment shows a fault if, by the steps before it, nobody would take it to make progress: a packet or a confirm that
is left out or doesn't come in its turn, a crash though nothing was lost, an acknowledgement that isn't the last one sent or came
before, a rewind, a break, a close. Of each seed at most as many faults show as were asked for, and with `--faults 0` none; with
`--to-end` no subscriber is closed. Of all seeds together most of the faults asked for show, and each kind has its share.

The last line is `random_steps: N passed, M failed`; the status is 1 if one failed.
"""
import collections
import concurrent.futures
import os
import subprocess
import sys

sys.dont_write_bytecode = True
sys.path.insert(0, os.path.join(os.path.dirname(os.path.realpath(__file__)), "..", "common"))
import ending
import rooms

SCRIPT = f"{rooms.TOP}/examples/marketplace.script"
SECONDS, JOBS = 300, 2  # that a run may take, a last guard; runs at a time
SEEDS = 300
# How many faults each seed is asked for, and the arguments besides.
FAULTS = 12
WAYS = {
    "": ["--faults", str(FAULTS)],
    "with a window": ["--faults", str(FAULTS), "--window", "4"],
    "to the end": ["--faults", str(FAULTS), "--to-end"],
    "without faults": ["--faults", "0"],
    "without faults, to the end": ["--faults", "0", "--to-end"],
}
# A ninth of the faults that are drawn are of each kind, and of the closes three quarters are rewinds instead, or all to the end.
# What can't come is drawn again, and a packet or a confirm can only be left out while one is on its way, which is seldom. Of what
# is asked for each kind has at least this share; rewinds more than come of the closes alone, which is at most 0.16.
SHARES = {
    "crash": 0.1,
    "packet left out": 0.01,
    "confirm left out": 0.015,
    "arrive": 0.1,
    "answer": 0.08,
    "rewind": 0.2,
    "break": 0.1,
    "ack": 0.05,
    "close": 0.02,
}
MOST_OF_THEM = 0.7


class Steps:
    """What the steps so far have done, as far as a fault shows by it."""

    def __init__(self):
        self.arrived = self.answered = 0  # the greatest number that came or was left out
        self.is_waiting = False  # whether the session waits for something that doesn't come
        self.sent, self.acked = collections.Counter(), collections.Counter()  # acknowledgements of a subscriber
        self.faults = collections.Counter()

    def comment(self, parts):
        if parts[1:2] + parts[3:] == ["packet", "is", "left", "out"]:
            self.arrived, self.is_waiting = int(parts[2]), True
            self.faults["packet left out"] += 1
        elif parts[1:2] + parts[3:] == ["confirm", "is", "left", "out"]:
            self.answered, self.is_waiting = int(parts[2]), True
            self.faults["confirm left out"] += 1

    def step(self, word, *numbers):
        if word == "start":
            self.is_waiting = False
        elif word == "crash" and not self.is_waiting:
            self.faults[word] += 1
        elif word == "arrive":
            self.arrived = self.come(word, int(numbers[0]), self.arrived)
        elif word == "answer":
            self.answered = self.come(word, int(numbers[0]), self.answered)
        elif word == "take":
            self.sent[numbers[0]] += 1
        elif word == "ack":
            subscriber, which = numbers[0], int(numbers[1])
            if which < self.sent[subscriber] or which <= self.acked[subscriber]:
                self.faults[word] += 1
            self.acked[subscriber] = max(self.acked[subscriber], which)
        elif word in ("rewind", "break", "close"):
            self.faults[word] += 1

    def come(self, word, number, last):
        """A packet or a confirm comes. Returns the greatest number of one."""
        if number != last + 1:
            self.faults[word] += 1
        self.is_waiting = self.is_waiting or number > last + 1
        return max(number, last)


def faults_of(text):
    """Returns how many faults of each kind show in a step file."""
    steps = Steps()
    for parts in map(str.split, text.splitlines()):
        if parts[:1] == ["#"]:
            steps.comment(parts)
        elif parts:
            steps.step(*parts)
    return steps.faults


def steps_of(program, seed, arguments):
    """Returns the step file that a seed makes."""
    whole = [program, "simulate", SCRIPT, "--random", str(seed), *arguments]
    done = subprocess.run(whole, stdout=subprocess.DEVNULL, stderr=subprocess.PIPE, timeout=SECONDS, check=True)
    return done.stderr.decode()


def complaints(way, all_faults):
    """Returns what is wrong with the faults of all seeds, and how many checks there were."""
    wrong, checks = [], len(all_faults)
    asked = 0 if way.startswith("without") else FAULTS
    for seed, faults in enumerate(all_faults, 1):
        if sum(faults.values()) > asked:
            wrong.append(f"seed {seed}: {asked} faults are asked for, and these show: {dict(faults)}")
    if asked == 0:
        return wrong, checks
    total, count = sum(all_faults, collections.Counter()), asked * len(all_faults)
    if sum(total.values()) < MOST_OF_THEM * count:
        wrong.append(f"{count} faults are asked for, and {sum(total.values())} show")
    for kind, share in SHARES.items():
        checks += 1
        is_closed_off = kind == "close" and way == "to the end"
        if total[kind] if is_closed_off else total[kind] < share * count:
            wrong.append(f"{count} faults are asked for, and {total[kind]} of the kind: {kind}")
    return wrong, checks + 1


def main(arguments):
    parser = rooms.parser_of_first(__doc__)
    parser.add_argument("--seeds", type=int, default=SEEDS, metavar="N", help="default: %(default)s")
    options = rooms.options_of(parser, arguments)
    passed, failed = 0, 0
    with concurrent.futures.ThreadPoolExecutor(JOBS) as pool:
        for way, more in WAYS.items():
            texts = pool.map(lambda seed: steps_of(options.program, seed, more), range(1, options.seeds + 1))
            wrong, checks = complaints(way, [faults_of(text) for text in texts])
            passed, failed = passed + checks - len(wrong), failed + len(wrong)
            for it in wrong[:5]:
                print(f"failed: random steps {way}: {it}")
    print(f"random_steps: {passed} passed, {failed} failed")
    return 1 if failed else 0


if __name__ == "__main__":
    ending.run(main)
