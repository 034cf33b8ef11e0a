#!/usr/bin/env python3
"""The command chain: streams by hand, random streams beside a model, what followers make of the lines, and runs that are killed.

  tests/checks/chain.py [PROGRAM] [--streams N] [--soak]    PROGRAM: crates/cdc_app/out/cdc_app; N random streams, 2,000 by default

By hand: each kind of line, each fault and status, what standard error reports, and the saved state, which other bindings refuse;
with standard output closed the command is refused. Logs: each save but the first of a run appends a frame; a log that is cut anywhere
goes on from its last whole frame.
Random streams have duplicates, ends, lines that are ignored, and events by their bodies, in envelopes and as `messages --json` prints
them; up to four queues take them. They are cut in two, and the second run goes on from the state of the first. What is printed has to
be that of the model. The lines of each queue are lost, repeated and shuffled, and `follow --chained` has to report or skip each gap,
and to keep a prefix of the queue. Killed: a run ends at each read, write, sync and rename, and is started again over the whole stream.
What both print has each line of each queue, in order; lines may come twice.

Ends at calls of the C library need a C compiler, `cc`. Kills by signal 9 need Linux on x86-64. The last line is `chain: N passed, M
failed`; the status is 1 where one failed.
"""
import concurrent.futures
import json
import os
import random
import subprocess
import sys

sys.dont_write_bytecode = True
sys.path += [os.path.join(os.path.dirname(os.path.realpath(__file__)), "..", it) for it in ("common", "faults")]
import commands
import ending
import follow
import interrupted
import rooms
from commands import check, run
from follow import event, numbers, own
from frames import frame, framed
from model import Chain

JOBS = 2  # runs at a time
STREAMS, MOST_LINES = 2000, 30  # random streams, and lines of each
BINDINGS = ("all", "all ledger=700", "all ledger=701", "any event_type=two_phase_posted", "any transfer_code=2 ledger=701", "all ledger=7")


# ---------------------------------------------------------------------------------------------------------------------
# The lines.


def headers_of(body):
    return {
        "event_type": body["type"],
        "ledger": body["ledger"],
        "transfer_code": body["transfer"]["code"],
        "debit_account_code": body["debit_account"]["code"],
        "credit_account_code": body["credit_account"]["code"],
    }


def takes(binding, body):
    """Whether a binding takes the event of a body."""
    mode, *pairs = binding.split()
    found = headers_of(body)
    equal = [str(found[name]) == value for name, value in (it.split("=") for it in pairs)]
    return all(equal) if mode == "all" else any(equal)


def taken_by(bindings, body):
    """The numbers of the queues that take the event of a body."""
    return [number for number, binding in enumerate(bindings, 1) if takes(binding, body)]


def line_of(queue, previous, body):
    """The line of a queue: that of `messages --queue`, with the queue's number in front. No body: that of the end."""
    front = f'{{"queue":{queue},"kind":"{"end" if body is None else "message"}","previous":"{previous}",'
    if body is None:
        return front + '"end":true}\n'
    headers = json.dumps(headers_of(body), separators=(",", ":"))
    return front + f'"headers":{headers},"timestamp":{int(body["timestamp"]) // 10**9},"body":{own(body)}}}\n'


def state_of(bindings, model):
    rows = "".join(f"queue {place} {binding}\n" for place, binding in zip(model.places, bindings))
    return f"chain-state 1 last {model.last} ended {'yes' if model.ended else 'no'}\n{rows}"


def options_of(bindings):
    return [word for binding in bindings for word in ("--queue", binding)]


def skipped(count):
    """What standard error reports of so many duplicates that were skipped."""
    return {0: "", 1: "standard input: 1 duplicate was skipped\n"}.get(count, f"standard input: {count} duplicates were skipped\n")


def text_of(lines):
    return "".join(f"{it}\n" for it in lines).encode()


# ---------------------------------------------------------------------------------------------------------------------
# By hand.

FIRST, SECOND, THIRD = event(10), event(20, ledger=701), event(30, kind="two_phase_posted")
LEDGER, POSTED = "all ledger=700", "any event_type=two_phase_posted"
END = '{"end":true}'
LINES = [line_of(1, 0, FIRST), line_of(1, 10, THIRD) + line_of(2, 0, THIRD), line_of(1, 30, None) + line_of(2, 30, None)]


def rows():
    """Each row: what it is, the queues, the stream, what is printed, the status, and a part of standard error: all of it where the status
    is 0."""
    both, first, second, third = [LEDGER, POSTED], own(FIRST), own(SECOND), own(THIRD)
    yield "an empty stream", both, [], "", 0, ""
    yield "three events and the end", both, [first, second, third, END], "".join(LINES), 0, ""
    yield "no end", both, [first, second, third], "".join(LINES[:2]), 0, ""
    yield "no event", both, [END], line_of(1, 0, None) + line_of(2, 0, None), 0, ""
    yield "the same queue twice", [LEDGER, LEDGER], [first], line_of(1, 0, FIRST) + line_of(2, 0, FIRST), 0, ""
    yield "a duplicate", both, [first, first, second, third, END], "".join(LINES), 0, skipped(1)
    yield "an earlier event", both, [second, first, third], line_of(1, 0, THIRD) + line_of(2, 0, THIRD), 0, skipped(1)
    yield "duplicates after the end", both, [first, END, first, END], LINES[0] + line_of(1, 10, None) + line_of(2, 0, None), 0, skipped(2)
    yield "an event after the end", both, [first, END, third, first], LINES[0] + line_of(1, 10, None) + line_of(2, 0, None), 3, ":3: after_end"
    yield "an event after the end that no queue takes", both, [first, END, second], LINES[0] + line_of(1, 10, None) + line_of(2, 0, None), 3, ":3: after_end"
    yield "an envelope", both, [json.dumps({"x": 1, "body": FIRST})], LINES[0], 0, ""
    yield "a line of a queue", both, [line_of(7, 3, FIRST).strip()], LINES[0], 0, ""
    yield "the end of a queue", both, [first, line_of(7, 3, None).strip()], LINES[0] + line_of(1, 10, None) + line_of(2, 0, None), 0, ""
    yield "numbers as JSON numbers", both, [json.dumps(numbers(FIRST))], LINES[0], 0, ""
    yield "blank lines and headers", both, ["", " \t", "event_type=x", first], LINES[0], 0, ""
    yield "a bad line", both, [first, "x", third], LINES[0], 2, ":2:1: not_json"
    yield "a timestamp out of range", both, [first, own(event(2**63))], LINES[0], 2, ":2: out_of_range"
    yield "a line that is too long", both, [first, " " * 65537], LINES[0], 2, "too_long"


USAGE = [[], ["--queue", ""], ["--queue", "some"], ["--queue", "all x=1"], ["--queue", "all", "--every", "0"], ["--queue", "all", "a", "b"]]


def by_hand(folder):
    for name, bindings, lines, printed, status, said in rows():
        found = run(options_of(bindings), text_of(lines))
        is_right = found[:2] == (status, printed) and said in found[2] and (status != 0 or found[2] == said)
        check(name, is_right, found)
        file = os.path.join(folder, "stream")
        with open(file, "wb") as it:
            it.write(text_of(lines))
        check(f"{name}, in a file", run([file, *options_of(bindings)], b"")[:2] == (status, printed), found)
    for arguments in USAGE:
        found = run(arguments, b"")
        check(f"usage: {arguments}", found[0] == 2 and not found[1] and found[2].startswith("error: "), found)
    found = run([os.path.join(folder, "nowhere"), "--queue", "all"], b"")
    check("a stream that isn't there", found[:2] == (1, "") and "read_fault" in found[2], found)


def states(folder):
    """A state goes on where it was saved, under each text of its bindings that means the same; any other one is refused, and stays."""
    state, both = os.path.join(folder, "a.state"), [LEDGER, POSTED]
    options = [*options_of(both), "--state", state]
    found = run(options, text_of([own(FIRST), own(SECOND)]))
    saved = "chain-state 1 last 20 ended no\nqueue 10 all ledger=700\nqueue 0 any event_type=two_phase_posted\n"
    check("a state", found == (0, LINES[0], "") and read(state) == log_of(saved), (found, read(state)))
    check("nothing is left beside a state", os.listdir(folder) == ["a.state"], os.listdir(folder))
    found = run(options, text_of([own(FIRST), own(THIRD)]))
    check("it goes on", found == (0, LINES[1], skipped(1)), found)
    found = run([*options_of(["all ledger=0700", "any event_type=two_phase_posted event_type=two_phase_posted"]), "--state", state], text_of([END]))
    check("under other texts of its bindings", found == (0, LINES[2], ""), found)
    found = run(options, text_of([END, own(event(40))]))
    check("it has ended", found[:2] == (3, "") and ":2: after_end" in found[2], found)
    before = read(state)
    for others in ([LEDGER], [POSTED, LEDGER], [LEDGER, POSTED, "all"], ["all ledger=701", POSTED], ["any ledger=700", POSTED]):
        found = run([*options_of(others), "--state", state], text_of([END]))
        check(f"a state of other queues: {others}", found[:2] == (2, "") and "store" in found[2], found)
        check(f"it stays: {others}", read(state) == before, read(state))
    for name, text in [*(("cut", before[:place]) for place in range(len(before))), ("before", "\n" + before), ("zero", before.replace("last ", "last 0"))]:
        other = os.path.join(folder, "other.state")
        with open(other, "w", encoding="ascii") as it:
            it.write(text)
        found = run([*options_of(both), "--state", other], text_of([END]))
        check(f"no state: {name}: {text!r}", found[:2] == (2, "") and "store" in found[2] and read(other) == text, found)
    found = run([*options_of(both), "--state", folder], b"")
    check("a state that is a folder", found[:2] == (1, "") and "store" in found[2], found)
    with open(state, "w", encoding="ascii") as it:
        it.write(saved)
    found = run(options, text_of([own(SECOND), own(THIRD)]))
    check("a state alone, as earlier versions saved it", found == (0, LINES[1], skipped(1)), found)
    later = saved.replace("last 20", "last 30").replace("queue 10", "queue 30").replace("queue 0 any", "queue 30 any")
    check("it is saved as a log", read(state) == log_of(later), read(state))
    os.remove(state)


def logs(folder):
    """The first save of a run replaces the file and each later one appends a frame. A log that is cut goes on from its last whole frame."""
    bindings, state, other = [LEDGER, POSTED], os.path.join(folder, "a.state"), os.path.join(folder, "other.state")
    bodies = stream_of(random.Random(5), 7)
    stream = os.path.join(folder, "stream")
    with open(stream, "wb") as it:
        it.write(text_of([*(own(it) for it in bodies), END]))
    model, wanted = Chain([0] * len(bindings)), []
    for place, body in enumerate([*bodies, None]):
        model.take(*((None, []) if body is None else (int(body["timestamp"]), taken_by(bindings, body))))
        if place % 2:
            wanted.append(state_of(bindings, model))
    arguments = [*options_of(bindings), "--state"]
    found = run([stream, *arguments, state, "--every", "2"], b"")
    log = read(state)
    # (after the last line the state is saved once more)
    check("a frame for each save", found[0] == 0 and log == log_of(*wanted, wanted[-1]), (found, log, wanted))
    ends = [len(log_of(*wanted[: it + 1])) for it in range(len(wanted))]

    def resumed(text):
        """The status over an empty stream after this text, and the state that is saved then."""
        with open(other, "w", encoding="ascii") as it:
            it.write(text)
        status = run([*arguments, other], b"")[0]
        return status, read(other)

    for place in range(len(log)):
        whole = sum(end <= place for end in ends)
        after = (0, log_of(wanted[whole - 1])) if whole else (2, log[:place])
        check(f"a log that is cut at {place}", resumed(log[:place]) == after, place)
    two = log_of(*wanted[:2])
    size = two.index("\n", two.index("chain-state 1 bytes")) + 1
    wrong = two[:size] + "x" * (ends[1] - size - len(two[two.index("end 1 "):])) + two[two.index("end 1 "):]
    for name, text, after in (
        ("other bytes after it", two + "\0" * 40, (0, log_of(wanted[1]))),
        ("a last frame without a state", wrong, (0, log_of(wanted[0]))),
        ("a frame without a state before another one", wrong + log[ends[1] : ends[2]], (2, wrong + log[ends[1] : ends[2]])),
        ("a frame with another number", log_of(wanted[0]) + log[ends[1] : ends[2]], (0, log_of(wanted[0]))),
    ):
        check(f"a log with {name}", resumed(text) == after, (name, resumed(text)))
    for name in (state, other, stream):
        os.remove(name)


def log_of(*states):
    """The text of a log of these states."""
    return b"".join(frame(number, it.encode(), b"chain-state") for number, it in enumerate(states)).decode()


def last_state(path):
    """The last state of a log."""
    return framed(read(path).encode(), b"chain-state")[-1].decode()


def read(path):
    with open(path, encoding="ascii") as it:
        return it.read()


# ---------------------------------------------------------------------------------------------------------------------
# Random streams.


def stream_of(rng, count):
    """A ledger's events, by their bodies, with timestamps that rise."""
    timestamp, bodies = rng.choice([0, 5, 10**9]), []
    for _ in range(count):
        timestamp += rng.choice([1, 1, 2, 50, 10**9])
        debit, credit = rng.sample(range(1, 5), 2)
        bodies.append(event(timestamp, debit, credit, kind=rng.choice(follow.KINDS), ledger=rng.choice([700, 701]), code=rng.choice([1, 2])))
    return bodies


def written(rng, body):
    """A line of an event: its body, an envelope round it, or a line of `messages`."""
    form = rng.choice([lambda it: it, numbers])
    return rng.choice([
        lambda: own(body),
        lambda: json.dumps(form(body)),
        lambda: json.dumps({"body": form(body), "x": 1}),
        lambda: line_of(rng.randrange(9), rng.randrange(9), body).strip(),
        lambda: f'{{"kind":"message","timestamp":1,"queues":[],"body":{own(body)}}}',
    ])()


def lines_of(rng, bodies):
    """The lines of a stream, with duplicates, ignored lines, and perhaps the end, once or twice; each with its body, or None for the
    end, or () if it is ignored."""
    lines = [(written(rng, body), body) for body in bodies]
    for _ in range(rng.choice([0, 0, 2, 6])):
        place = rng.randrange(len(lines) + 1)
        lines[place:place] = [(written(rng, body), body) for body in rng.sample(bodies, min(len(bodies), rng.choice([1, 3])))]
    for _ in range(rng.choice([0, 0, 2])):
        lines.insert(rng.randrange(len(lines) + 1), (rng.choice(["", " \t ", "event_type=x ledger=1"]), ()))
    for _ in range(rng.choice([0, 1, 1, 2])):
        lines.append((rng.choice(['{"end":true}', line_of(3, 7, None).strip()]), None))
    if rng.random() < 0.1:
        lines.insert(rng.randrange(len(lines) + 1), ('{"end":true}', None))
    return lines


def chained(model, bindings, lines):
    """What is printed of these lines, and the status."""
    printed = ""
    for _, body in lines:
        if body == ():
            continue
        made = model.take(None, []) if body is None else model.take(int(body["timestamp"]), taken_by(bindings, body))
        if made is None:
            return printed, 3
        printed += "".join(line_of(queue, previous, body) for queue, previous in made)
    return printed, 0


def random_stream(seed):
    """A random stream that is cut in two, and what is wrong with what the program makes of it, or None."""
    rng = random.Random(seed)
    bindings = [rng.choice(BINDINGS) for _ in range(rng.choice([1, 2, 2, 3, 4]))]
    lines = lines_of(rng, stream_of(rng, rng.randrange(MOST_LINES)))
    model, printed = Chain([0] * len(bindings)), ""
    cut = rng.randrange(len(lines) + 1)
    again = rng.choice([0, 0, rng.randrange(cut + 1)])  # how many lines before the cut are redelivered
    with rooms.room("chain-") as folder:
        state = os.path.join(folder, "state")
        arguments = [*options_of(bindings), "--state", state, "--every", str(rng.choice([1, 2, 7, 1000]))]
        for part in (lines[:cut], lines[cut - again :]):
            model.duplicates = 0
            wanted, status = chained(model, bindings, part)
            found = run(arguments, text_of(line for line, _ in part))
            is_right = found[:2] == (status, wanted) and last_state(state) == state_of(bindings, model)
            if not is_right or (status == 0 and found[2] != skipped(model.duplicates)):
                return f"seed {seed}: {arguments}: {found!r}, not {(status, wanted, skipped(model.duplicates))!r}; {read(state)!r}"
            printed += found[1]
    return followed(rng, len(bindings), printed, model.ended)


def random_streams(count):
    with concurrent.futures.ThreadPoolExecutor(JOBS) as pool:
        for wrong in pool.map(random_stream, range(count)):
            check("a random stream", wrong is None, wrong)


# ---------------------------------------------------------------------------------------------------------------------
# Followers of the lines.


def run_follow(arguments, lines):
    """Runs `follow` over these lines."""
    done = subprocess.run([commands.program, "follow", *arguments], input=text_of(lines), capture_output=True, timeout=commands.SECONDS)
    return done.returncode, done.stdout.decode()


def followed(rng, queues, printed, has_ended):
    """What is wrong with what a follower makes of the lines of one queue, as they are and then lost, repeated and shuffled, or None."""
    queue = rng.randrange(1, queues + 1)
    lines = [it for it in printed.splitlines() if json.loads(it)["queue"] == queue]
    for given, is_whole in ((lines, True), (follow.disturbed(rng, lines), False)):
        model, stop = follow.Model(True), ""
        skips = rng.random() < 0.5
        for number, line in enumerate(given, 1):
            stopped = model.take(number, line)
            if stopped and not (skips and stopped.startswith("gap: ")):
                stop = stopped
                break
        found = run_follow(["--chained", *["--skip-gaps"] * skips], given)
        if found != (3 if stop else 0, model.text() + stop):
            return f"queue {queue}: {found!r}, not {model.text() + stop!r}"
        if is_whole and (stop or model.gaps or model.ended != has_ended or model.applied != len(lines) - has_ended):
            return f"queue {queue}: its lines are no chain: {stop!r}, {lines!r}"
        prefix = [int(json.loads(it)["previous"]) for it in lines]
        if model.seen not in [0, *prefix, *(int(json.loads(it)["body"]["timestamp"]) for it in lines if "body" in json.loads(it))]:
            return f"queue {queue}: {model.seen} isn't a place of it"
    return None


# ---------------------------------------------------------------------------------------------------------------------
# Runs that are killed.


class KilledChain(interrupted.Interrupted):
    """A chain that is interrupted, and started again over the whole stream: no line of a queue is left out."""

    bindings = [LEDGER, "all ledger=701", POSTED]
    bodies = stream_of(random.Random(11), 14)
    stream = text_of([*(own(it) for it in bodies), END])
    rows = 40

    def arguments(self, name):
        return [*options_of(self.bindings), "--state", self.path(name), "--every", "3"]

    def wanted(self):
        """The lines of each queue."""
        printed = chained(Chain([0] * len(self.bindings)), self.bindings, [*(("", it) for it in self.bodies), ("", None)])[0]
        return [self.of_queue(printed, queue) for queue in range(1, len(self.bindings) + 1)]

    @staticmethod
    def of_queue(printed, queue):
        """The whole lines of a queue."""
        return [it for it in printed.splitlines(keepends=True) if it.endswith("\n") and it.startswith(f'{{"queue":{queue},')]

    def wrong_after(self, printed, name, wrong_of):
        """What is wrong after runs that have printed this, and after one more."""
        status, more, errors = commands.run(self.arguments(name), self.stream)
        if status != 0:
            return status, more, errors
        for queue, lines in enumerate(self.wanted(), 1):
            again = self.of_queue(more, queue)
            before = self.of_queue(printed, queue)
            count = max((lines.index(it) + 1 for it in before if it in lines), default=0)
            is_right = set(before) <= set(lines) and again == lines[len(lines) - len(again) :] and len(again) >= len(lines) - count
            if not is_right or set(before) | set(again) != set(lines):
                return queue, before, again, lines
        return None

    def complaint(self, number, plan):
        """What is wrong after the run was ended or a call was refused, and after it went on."""
        name = f"{number}.saved"
        status, printed, errors = self.run(name, FAULT=plan)
        wrong = self.wrong_after(printed, name, None)
        if wrong:
            return f"{plan}: {(status, printed, errors)!r}, then {wrong!r}"
        return None if "end" in plan or status in (0, 1) else f"{plan}: {(status, printed, errors)!r}"

    def wrong_of(self, name, saved):
        return None


def closed(folder):
    """With standard output closed no line is lost: the command is refused, and leaves no state."""
    state = os.path.join(folder, "closed.state")
    for numbers_closed, wanted in (((0, 2), 0), ((1,), 1), ((0, 1), 1), ((0, 1, 2), 1)):
        for options in (options_of([LEDGER]), [*options_of([LEDGER]), "--state", state]):
            found = subprocess.run(
                [commands.program, "chain", *options], stdin=subprocess.DEVNULL, stdout=subprocess.DEVNULL, stderr=subprocess.PIPE,
                preexec_fn=lambda: [os.close(it) for it in numbers_closed], timeout=commands.SECONDS, check=False,
            )
            is_reported = b"write_fault" in found.stderr or 2 in numbers_closed or not wanted
            check(f"{options} with {numbers_closed} closed", found.returncode == wanted and is_reported, found)
            check(f"no state of {options} with {numbers_closed} closed", not wanted or not os.path.exists(state), os.listdir(folder))
            if os.path.exists(state):
                os.remove(state)


def killed(folder):
    """Runs that end at each call, or for which it is refused."""
    interrupted.check_all(KilledChain, folder)


def main(arguments):
    return commands.main(arguments, __doc__, "chain", [by_hand, states, logs, closed, killed], random_streams, STREAMS)


if __name__ == "__main__":
    ending.run(main)
