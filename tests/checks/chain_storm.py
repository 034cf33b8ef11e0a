#!/usr/bin/env python3
"""`chain` into `follow --chained` under each fault of contrib/rabbitmq/storm.py, with queues in this process in place of a broker's.

  tests/checks/chain_storm.py [PROGRAM] [--cases N] [--seed N] [--soak]    PROGRAM: crates/cdc_app/out/cdc_app; N cases, 24 by default

Each case has a ledger's events, and two to four queues with a binding each. `chain --state` reads the events from a pipe; what it prints
is put into its queues; a `follow --chained --book` of each queue is given the queue's lines, and its saves acknowledge them. Two or three
faults come on the way, the first one by turns:

- of a node that leads the first queue: the last lines are published again, of which the queue may have lost some; the lines that aren't
  acknowledged are delivered again. One that is stopped delivers nothing meanwhile;
- of a node that follows: lines are published again, and the follower's connection closes;
- `chain` is killed by signal 9, and started again over the whole stream, or from the event after the state's last one; or it is stopped;
- the follower is killed by signal 9, its connection closes between two lines or amid one, its supervisor is killed with it or stopped.
  It is started again, and gets the lines that aren't acknowledged.

No line may be left out: in the end each book has to be that of the events of its binding, once, in order, with the end, and as the model
of a follower has it. A follower may refuse only a line that was cut off, and that isn't kept. That the faults are those of storm.py is
compared with its table. Besides, lines that are lost after `chain` have to be reported as a gap; and once the state and the book are
deleted and the events sent again, the book is whole.

The last line is `chain_storm: N passed, M failed`; the status is 1 if one failed.
"""
import ast
import collections
import concurrent.futures
import contextlib
import json
import os
import random
import re
import select
import signal
import subprocess
import sys
import tempfile
import time

sys.dont_write_bytecode = True
sys.path += [os.path.join(os.path.dirname(os.path.realpath(__file__)), "..", it) for it in ("common", "faults")]
import chain
import commands
import ending
import rooms
from commands import check
from follow import Model, own
from model import Chain

JOBS = 2  # cases at a time
CASES, MANY, EVENTS = 24, 1000, (60, 200)  # cases, those of --soak, and how many events one has
STORM = rooms.TOP / "contrib/rabbitmq/storm.py"
TURNS = [("kill", "leader"), ("stop", "bridge"), ("kill", "consume"), ("stop", "leader"), ("close", "consume"), ("kill", "bridge"),
         ("stop", "loop"), ("kill", "follower"), ("kill", "socat"), ("close", "consume"), ("stop", "follower"), ("kill", "loop")]
END = '{"end":true}'
SAVED = re.compile(rb"saved (\d+)\n")
STATE = re.compile(r"chain-state 1 last (\d+) ")


def turns_of_storm():
    """The table TURNS of storm.py, which needs a client of RabbitMQ, so that it isn't imported."""
    tree = ast.parse(STORM.read_text(encoding="utf-8"))
    names, table = {}, None
    for it in tree.body:
        if isinstance(it, ast.Assign) and isinstance(it.targets[0], ast.Tuple) and isinstance(it.value, ast.Tuple):
            names.update((name.id, value.value) for name, value in zip(it.targets[0].elts, it.value.elts) if isinstance(value, ast.Constant))
        elif isinstance(it, ast.Assign) and getattr(it.targets[0], "id", None) == "TURNS":
            table = it.value
    return [tuple(names[it.id] if isinstance(it, ast.Name) else it.value for it in pair.elts) for pair in table.elts]


# ---------------------------------------------------------------------------------------------------------------------
# Processes and queues.


class Fed:
    """A run of the program, which is given bytes and read from without waiting."""

    def __init__(self, *arguments):
        self.errors = tempfile.TemporaryFile()
        self.child = subprocess.Popen(
            [commands.program, *arguments], stdin=subprocess.PIPE, stdout=subprocess.PIPE, stderr=self.errors, bufsize=0)
        for pipe in (self.child.stdin, self.child.stdout):
            os.set_blocking(pipe.fileno(), False)
        self.waiting, self.printed, self.ends = b"", b"", False

    def give(self, given):
        self.waiting += given

    def end(self):
        """Ends its input once it has all that it was given."""
        self.ends = True

    def pump(self):
        """Writes what it takes, and reads what is there."""
        with contextlib.suppress(BlockingIOError, BrokenPipeError):
            while self.waiting:
                self.waiting = self.waiting[os.write(self.child.stdin.fileno(), self.waiting[:4096]) :]
        if self.ends and not self.waiting and not self.child.stdin.closed:
            self.child.stdin.close()
        with contextlib.suppress(BlockingIOError):
            while part := os.read(self.child.stdout.fileno(), 65536):
                self.printed += part

    def is_over(self):
        if self.child.poll() is None:
            return False
        self.pump_rest()
        return True

    def pump_rest(self):
        """Reads all that is left once it has ended."""
        with contextlib.suppress(BlockingIOError):
            while part := os.read(self.child.stdout.fileno(), 65536):
                self.printed += part

    def signal(self, number):
        """Sends a signal; nothing if it has ended."""
        self.child.send_signal(number)

    def kill(self):
        """Kills it by signal 9, after which what it had printed is read."""
        self.child.kill()
        self.child.wait()
        self.pump_rest()

    def close(self):
        if self.child.poll() is None:
            self.child.kill()
        self.child.wait()
        for pipe in (self.child.stdin, self.child.stdout, self.errors):
            pipe.close()

    def said(self):
        self.errors.seek(0)
        return self.errors.read().decode(errors="replace")


class Queue:
    """A broker's queue: the lines that were published, in order, how many of them are acknowledged, and how many were delivered."""

    def __init__(self):
        self.lines, self.acknowledged, self.delivered = [], 0, 0

    def next_lines(self, count):
        lines = self.lines[self.delivered : self.delivered + count]
        self.delivered += len(lines)
        return lines

    def acknowledge(self, saved):
        """The delivered events up to this timestamp are acknowledged. An end isn't."""
        while self.acknowledged < self.delivered and 0 < self.lines[self.acknowledged][0] <= saved:
            self.acknowledged += 1

    def redeliver(self):
        self.delivered = self.acknowledged

    def publish_again(self, count, loses):
        """The last lines are published once more; those that weren't delivered may be lost before."""
        again = self.lines[len(self.lines) - count :]
        if loses:
            del self.lines[max(self.delivered, len(self.lines) - count) :]
        self.lines += again


class Case:
    """A ledger's events on their way through `chain` and queues to followers, and what happens to them."""

    def __init__(self, folder, seed, number):
        self.rng = random.Random(f"{seed} {number}")
        self.folder = folder
        self.bindings = self.rng.choices(chain.BINDINGS[:5], k=self.rng.choice([2, 3, 4]))
        self.bodies = chain.stream_of(self.rng, self.rng.randint(*EVENTS))
        self.lines = [(int(it["timestamp"]), own(it)) for it in self.bodies]
        others = [it for it in TURNS if it[1] not in ("leader", "follower")]
        chosen = [TURNS[number % len(TURNS)], *self.rng.choices(others, k=self.rng.choice([1, 2]))]
        self.faults = sorted((self.rng.randrange(len(self.lines) * 4 // 5), *it) for it in chosen)
        self.queues = [Queue() for _ in self.bindings]
        self.followers = [None] * len(self.bindings)
        self.bridge, self.given, self.partial, self.stopped = None, 0, b"", []
        self.books = [None] * len(self.bindings)
        self.hits = collections.Counter()
        self.wrong = None

    # ---- what is started

    def start_bridge(self, may_skip=False):
        """Starts `chain` over the whole stream, or over what comes after its state's last event."""
        state = os.path.join(self.folder, "chain.state")
        self.bridge = Fed("chain", *chain.options_of(self.bindings), "--state", state, "--every", "7")
        self.given, self.partial = 0, b""
        if may_skip and os.path.exists(state) and self.rng.random() < 0.5:
            last = int(STATE.findall(chain.read(state))[-1])
            self.given = sum(timestamp <= last for timestamp, _ in self.lines)

    def start_follower(self, place):
        book = os.path.join(self.folder, f"{place}.book")
        self.followers[place] = Fed("follow", "--chained", "--binding", self.bindings[place], "--book", book, "--every", "5")
        self.queues[place].redeliver()

    # ---- what goes on

    def feed_bridge(self):
        count = self.rng.choice([1, 3, 10])
        lines = [line for _, line in self.lines[self.given : self.given + count]]
        self.given += len(lines)
        self.bridge.give(chain.text_of(lines))
        if self.given == len(self.lines) and not self.bridge.ends:
            self.bridge.give(chain.text_of([END]))
            self.bridge.end()

    def publish(self):
        """Puts the whole lines that `chain` has printed into their queues."""
        *lines, self.partial = (self.partial + self.bridge.printed).split(b"\n")
        self.bridge.printed = b""
        for line in lines:
            value = json.loads(line)
            timestamp = 0 if value.get("end") else int(value["body"]["timestamp"])
            self.queues[value["queue"] - 1].lines.append((timestamp, line.decode()))

    def feed_follower(self, place):
        """Delivers some lines, and acknowledges what the book has."""
        follower, queue = self.followers[place], self.queues[place]
        for line in queue.next_lines(0 if follower.ends else self.rng.choice([1, 2, 8])):
            follower.give(chain.text_of([line[1]]))
        for saved in SAVED.findall(follower.printed):
            queue.acknowledge(int(saved))

    def restart_ended(self, place):
        """A follower that has ended is started again, if there is more to come; `True`: it has everything."""
        follower, queue = self.followers[place], self.queues[place]
        if not follower.is_over():
            return False
        status, said = follower.child.returncode, follower.said()
        is_cut = status == 2 and "not_json" in said
        if status not in (0, -signal.SIGKILL) and not is_cut:
            self.wrong = (self.bindings[place], status, said, follower.printed)
        if status == 0 and follower.printed.splitlines()[-1:] and b" ended yes " in follower.printed and self.bridge_is_done():
            self.books[place] = SAVED.sub(b"", follower.printed).decode()
            return True
        follower.close()
        self.start_follower(place)
        return False

    def bridge_is_done(self):
        return self.bridge.is_over() and self.bridge.child.returncode == 0

    def published(self):
        return max((it.lines[-1][0] for it in self.queues if it.lines), default=0)

    def resume_some(self):
        """What is stopped goes on after some rounds."""
        for it in self.stopped:
            it[0] -= 1
            if it[0] == 0:
                it[1]()
        self.stopped = [it for it in self.stopped if it[0] > 0]

    def run(self):
        """What is wrong with the books in the end, or with how something ended, or None."""
        try:
            self.start_bridge()
            for place in range(len(self.bindings)):
                self.start_follower(place)
            until = time.monotonic() + commands.SECONDS
            while None in self.books and not self.wrong:
                if time.monotonic() > until:
                    self.wrong = "it takes too long"
                self.one_round()
        finally:
            for it in (self.bridge, *self.followers):
                if it is not None:
                    it.close()
        return self.wrong or self.wrong_books()

    def one_round(self):
        """What goes on between two looks at what is there."""
        if not self.bridge.is_over():
            self.feed_bridge()
            self.bridge.pump()
        self.publish()
        if self.bridge.is_over() and self.bridge.child.returncode != 0:
            self.wrong = ("chain", self.bridge.child.returncode, self.bridge.said())
        for place, (follower, queue) in enumerate(zip(self.followers, self.queues)):
            if self.books[place] is not None:
                continue
            if not any(place == it[2] for it in self.stopped):
                self.feed_follower(place)
                follower.pump()
            if self.bridge_is_done() and queue.delivered == len(queue.lines):
                follower.end()
            self.restart_ended(place)
        self.resume_some()
        while self.faults and not self.wrong and sum(timestamp <= self.published() for timestamp, _ in self.lines) >= self.faults[0][0]:
            _, how, victim = self.faults.pop(0)
            self.hits[f"{how} {victim}"] += 1
            getattr(self, f"{how}_{victim}")()
        select.select([it.child.stdout for it in (self.bridge, *self.followers) if not it.is_over()], [], [], 0.002)

    def wrong_books(self):
        """Which book isn't that of its queue, if one isn't."""
        model, queues = Chain([0] * len(self.bindings)), [[] for _ in self.bindings]
        for body in [*self.bodies, None]:
            made = model.take(None, []) if body is None else model.take(int(body["timestamp"]), chain.taken_by(self.bindings, body))
            for queue, previous in made:
                queues[queue - 1].append(chain.line_of(queue, previous, body))
        for place, lines in enumerate(queues):
            follower = Model(True)
            for number, line in enumerate(lines, 1):
                follower.take(number, line)
            if self.books[place] != follower.text():
                return self.bindings[place], self.books[place], follower.text()
        return None

    # ---- faults

    def wait(self, place, resume):
        self.stopped.append([self.rng.randrange(1, 30), resume, place])

    def kill_bridge(self):
        if not self.bridge.is_over():
            self.bridge.kill()
            self.publish()
            self.bridge.close()
            self.start_bridge(may_skip=True)

    def stop_bridge(self):
        bridge = self.bridge
        if not bridge.is_over():
            bridge.signal(signal.SIGSTOP)
            self.wait(None, lambda: bridge.signal(signal.SIGCONT))

    def kill_leader(self):
        queue = self.queues[0]
        queue.publish_again(self.rng.randrange(min(len(queue.lines), 16) + 1), loses=True)
        self.close_consume()

    def stop_leader(self):
        """The queue delivers nothing, and then again what isn't acknowledged."""
        self.wait(0, self.close_consume)

    def kill_follower(self):
        queue = self.queues[0]
        queue.publish_again(self.rng.randrange(min(len(queue.lines), 16) + 1), loses=False)
        self.close_consume()

    def stop_follower(self):
        self.wait(None, self.kill_follower)

    def kill_consume(self):
        if self.books[0] is None:
            self.followers[0].kill()

    def close_consume(self):
        """The follower's input ends between two lines."""
        if self.books[0] is None:
            follower = self.followers[0]
            follower.waiting = follower.waiting[: follower.waiting.rfind(b"\n") + 1]
            follower.end()

    def kill_socat(self):
        """The follower's input ends amid a line."""
        queue = self.queues[0]
        if self.books[0] is None and not self.followers[0].ends:
            for line in queue.next_lines(1):
                text = line[1].encode()
                self.followers[0].give(text[: self.rng.randrange(1, len(text))])
            self.followers[0].end()

    def kill_loop(self):
        self.kill_consume()

    def stop_loop(self):
        follower = self.followers[0]
        if not follower.is_over():
            follower.signal(signal.SIGSTOP)
            self.wait(0, lambda: follower.signal(signal.SIGCONT))


# ---------------------------------------------------------------------------------------------------------------------
# The checks.


def run_case(seed, number):
    with rooms.room("chain-storm-") as folder:
        case = Case(folder, seed, number)
        faults = list(case.faults)
        wrong = case.run()
        return wrong and f"seed {seed}, case {number}, {case.bindings}, {faults}: {wrong!r}", case.hits


def storm(seed, count):
    hits = collections.Counter()
    with concurrent.futures.ProcessPoolExecutor(JOBS, initializer=commands.begin, initargs=(commands.program, None)) as pool:
        for wrong, found in pool.map(run_case, [seed] * count, range(count)):
            check("a case", wrong is None, wrong)
            hits.update(found)
    check("each fault comes", count < len(TURNS) or all(hits[f"{how} {victim}"] for how, victim in TURNS), hits)
    print(f"chain_storm: faults: {', '.join(f'{name}: {number}' for name, number in sorted(hits.items()))}")


def lost_after(folder):
    """Lines that are lost after `chain` are a gap for the follower. With the state and the book deleted, all events sent again are
    applied."""
    bodies = chain.stream_of(random.Random(3), 40)
    stream = chain.text_of([*map(own, bodies), END])
    state, book = os.path.join(folder, "chain.state"), os.path.join(folder, "a.book")

    def printed(given):
        commands.command = "chain"
        found = commands.run(["--queue", "all", "--state", state], given)
        check("chain", found[0] == 0, found)
        return found[1].splitlines(keepends=True)

    def followed(lines):
        commands.command = "follow"
        return commands.run(["--chained", "--book", book], "".join(lines).encode())

    lines = printed(stream)
    whole = Model(True)
    for number, line in enumerate(lines, 1):
        whole.take(number, line)
    for place in range(len(lines) - 1):
        found = followed(lines[:place] + lines[place + 1 :])
        check(f"line {place + 1} is lost", found[0] == 3 and f":{place + 1}: gap: " in found[2], found)
        again = followed(printed(stream))
        check(f"chain prints nothing again that is in its state, after line {place + 1}", again[0] == 0 and " ended no " in again[1], again)
        os.remove(state)
        os.remove(book)
        again = followed(printed(stream))
        check(f"it is sent again, with line {place + 1}", again[0] == 0 and SAVED.sub(b"", again[1].encode()).decode() == whole.text(), again)
        os.remove(book)


def main(arguments):
    parser = commands.parser_of(__doc__)
    parser.add_argument("--cases", type=int, metavar="N", help=f"cases; default: {CASES}")
    parser.add_argument("--seed", type=int, default=1, metavar="N", help="the same seed gives the same events and faults; default: %(default)s")
    options = rooms.options_of(parser, arguments)
    commands.begin(options.program, None, options.soak)
    found = turns_of_storm()
    check("the faults are those of storm.py", found == TURNS, found)
    with rooms.room("chain-storm-") as folder:
        lost_after(folder)
    storm(options.seed, options.cases or (MANY if options.soak else CASES))
    return commands.ended("chain_storm")


if __name__ == "__main__":
    ending.run(main)
