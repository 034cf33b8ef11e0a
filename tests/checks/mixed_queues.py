#!/usr/bin/env python3
"""Streams in which lines of several queues are mixed, also of another ledger's, with ends and lines that are none: what `follow --chained`
makes of them, beside a model.

  tests/checks/mixed_queues.py [PROGRAM] [--streams N] [--soak]    PROGRAM: crates/cdc_app/out/cdc_app; N streams, 1,000 by default

Each stream has the lines of one to four queues, as `chain` puts an event into each queue that takes it, and often those of a queue of
another ledger, whose timestamps are among the same numbers. They come one after the other, or in turns; some are lost, doubled, moved or
named after another message; ends come early, twice and of other queues. Among them are blank lines, headers, and lines that are no JSON
or name no predecessor. The follower stops at a gap or skips it, takes each event or those of a binding, and begins at the first message
or at another one.

The result of each line, the status and the line at which following stops have to be those of the model, which reads JSON by Python's own
parser, and of a quarter of the streams the printed book. Besides, whatever came: each line that was applied, passed by or received as the end names the timestamp of the one
before it, from the start on. --soak: 100,000 streams.

The last line is `mixed_queues: N passed, M failed`; the status is 1 if one failed.
"""
import collections
import concurrent.futures
import json
import os
import random
import sys

sys.dont_write_bytecode = True
sys.path += [os.path.join(os.path.dirname(os.path.realpath(__file__)), "..", it) for it in ("common", "faults")]
import chain
import commands
import ending
import rooms
from commands import check, run
from follow import Model, as_json, disturbed, event, own
from model import Chain

JOBS = 2  # runs at a time
STREAMS, MANY, MOST_EVENTS = 1000, 100_000, 14  # streams, those of --soak, and events of a ledger
PRINTED = 0.25  # of how many streams the book is printed, too, and not only the result of each line
BAD_LINES = {"x": "not_json", '{"end":true}': "missing", "[1]": "not_an_object", own(event(7)): "missing"}


# ---------------------------------------------------------------------------------------------------------------------
# Streams.


def queues_of(rng, bindings, bodies):
    """The lines of each queue, with its end."""
    model, queues = Chain([0] * len(bindings)), [[] for _ in bindings]
    for body in [*bodies, None]:
        made = model.take(None, []) if body is None else model.take(int(body["timestamp"]), chain.taken_by(bindings, body))
        for queue, previous in made:
            queues[queue - 1].append(chain.line_of(queue, previous, body).strip())
    return queues


def mixed(rng, queues):
    """The lines of queues, one queue after the other, or in turns."""
    queues = [[*it] for it in queues]
    if rng.random() < 0.2:
        return [it for queue in queues for it in queue]
    lines = []
    while any(queues):
        queue, count = rng.choice([it for it in queues if it]), rng.choice([1, 1, 2, 5])
        lines += queue[:count]
        del queue[:count]
    return lines


def renamed(rng, line, lines):
    """A line that names another message, as its predecessor, than it did."""
    value = json.loads(line)
    value["previous"] = json.loads(rng.choice(lines))["previous"]
    return json.dumps(value)


def stream_of(rng):
    """The lines of a stream."""
    bindings = [rng.choice(chain.BINDINGS) for _ in range(rng.choice([1, 2, 2, 3, 4]))]
    queues = queues_of(rng, bindings, chain.stream_of(rng, rng.randrange(MOST_EVENTS)))
    if rng.random() < 0.4:
        queues += queues_of(rng, ["all"], chain.stream_of(rng, rng.randrange(MOST_EVENTS)))
    queues = [it if rng.random() < 0.7 else it[:-1] for it in queues]
    lines = disturbed(rng, mixed(rng, [it for it in queues if it]))
    for _ in range(rng.choice([0, 0, 1, 3]) if lines else 0):
        place = rng.randrange(len(lines))
        lines[place] = renamed(rng, lines[place], lines)
    for _ in range(rng.choice([0, 0, 1, 2]) if lines else 0):
        lines.insert(rng.randrange(len(lines) + 1), json.dumps({"end": True, "previous": json.loads(rng.choice(lines))["previous"]}))
    for _ in range(rng.choice([0, 0, 2])):
        lines.insert(rng.randrange(len(lines) + 1), rng.choice(["", " \t ", "event_type=x ledger=1"]))
    if rng.random() < 0.1:
        lines.insert(rng.randrange(len(lines) + 1), rng.choice([*BAD_LINES]))
    return lines


# ---------------------------------------------------------------------------------------------------------------------
# The model.


def is_skipped(line):
    return not line.strip() or line.startswith("event_type=")


def followed(model, lines, skips):
    """What following comes to: the status, the book and why it stopped, and the result of each line."""
    results = ""
    for number, line in enumerate(lines, 1):
        if line in BAD_LINES:
            kept = {"applied": model.applied, "last": str(model.last), "accounts": []}
            results += as_json({"kind": "expect", "line": number, "result": "bad_line", "name": BAD_LINES[line], **kept})
            return 2, f"{model.text()}fault: line {number}: {BAD_LINES[line]}\n", results
        stop = model.take(number, "" if is_skipped(line) else line)
        results += model.expected(number)
        if stop and not (skips and stop.startswith("gap: ")):
            return 3, model.text() + stop, results
    return 0, model.text(), results


def wrong_chain(start, lines, results):
    """The number of the first line that was seen and doesn't name the one that was seen before it, or None; and the results."""
    seen, found = start, []
    for it in map(json.loads, results.splitlines()):
        found.append(it["result"])
        if it["result"] not in ("applied", "passed", "end"):
            continue
        value = json.loads(lines[it["line"] - 1])
        if "end" not in found[:-1] and int(value["previous"]) != seen:
            return it["line"], found
        if it["result"] != "end":
            seen = int(value["body"]["timestamp"])
    return None, found


def random_stream(seed):
    """What is wrong with what the program makes of a random stream, or None; and the results of its lines."""
    rng = random.Random(f"mixed {seed}")
    lines, skips, ledger = stream_of(rng), rng.random() < 0.8, rng.choice([None, None, 700])
    starts = [int(json.loads(it)["previous"]) for it in lines if not is_skipped(it) and it not in BAD_LINES]
    after = rng.choice([0, 0, rng.choice(starts)]) if starts else 0
    status, printed, results = followed(Model(True, ledger, after), lines, skips)
    arguments = ["--chained", *["--skip-gaps"] * skips]
    arguments += ["--binding", f"all ledger={ledger}"] if ledger else []
    arguments += ["--after", str(after)] if after else []
    stream = chain.text_of(lines)
    if rng.random() < PRINTED:
        found = run(arguments, stream)
        if found[:2] != (status, printed):
            return f"seed {seed}: {arguments}: {found!r}, not {(status, printed)!r}: {lines!r}", []
    found = run([*arguments, "--expect"], stream)
    if found[:2] != (status, results):
        return f"seed {seed}: {arguments}, --expect: {found!r}, not {(status, results)!r}: {lines!r}", []
    wrong, outcomes = wrong_chain(after, lines, found[1])
    return None if wrong is None else f"seed {seed}: {arguments}: line {wrong} is no part of the chain: {lines!r}", outcomes


def random_streams(count):
    outcomes = collections.Counter()
    with concurrent.futures.ProcessPoolExecutor(JOBS, initializer=commands.begin, initargs=(commands.program, "follow")) as pool:
        for wrong, found in pool.map(random_stream, range(count), chunksize=50):
            check("a random stream", wrong is None, wrong)
            outcomes.update(found)
    wanted = {"applied", "passed", "duplicate", "gap", "end", "after_end", "nothing", "bad_line"}
    check("each result comes", count < STREAMS or set(outcomes) == wanted, outcomes)
    print(f"mixed_queues: lines by result: {', '.join(f'{name}: {number}' for name, number in sorted(outcomes.items()))}")


def main(arguments):
    parser = commands.parser_of(__doc__)
    parser.add_argument("--streams", type=int, metavar="N", help=f"streams; default: {STREAMS}")
    options = rooms.options_of(parser, arguments)
    commands.begin(options.program, "follow", options.soak)
    random_streams(options.streams or (MANY if options.soak else STREAMS))
    return commands.ended("mixed_queues")


if __name__ == "__main__":
    ending.run(main)
