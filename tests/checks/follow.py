#!/usr/bin/env python3
"""The command follow: streams by hand, random streams beside a model, and books that are killed and refused while they are saved.

  tests/checks/follow.py [PROGRAM] [--streams N] [--soak]    PROGRAM: crates/cdc_app/out/cdc_app; N random streams, 300 by default

By hand: each kind of line, each fault, each status, where a line ends, and what standard error reports; how often a file and a
pipe are saved; books as logs, which are cut at each byte, and which grow to 30,000 accounts; books that something else replaces
meanwhile; standard descriptors that are closed. Random streams of a queue are lost, repeated, shuffled and merged from two
publishers; what is printed, the counts of lines, the results of --expect, and what standard error reports of gaps have to be those
of a small model, which reads JSON by Python's own parser. Killed: the program ends at each read, write, sync and rename of a stream with a book, and is started again with the lines
from an earlier `saved` on; it has to come to the book of a run without a stop. By signal 9 it is killed before each system call, and
amid each write: what is found has all that was reported as saved, and a run over the whole stream comes to its book. Refused: each
allocation, read, write, open, sync and rename is refused in turn; the book has to be the old one or a later one, and whole.
Rivalry: 450 pairs of followers over one book, whose system calls come in a random order; one is refused, or both follow.

Replaced, Refused, ends at calls of the C library, and a thread that can't be started, need a C compiler, `cc`. Kills by signal 9 and
Rivalry need Linux on x86-64. --soak kills at more places, cuts a longer log, and tries 9,000 pairs. The last line is `follow: N passed,
M failed`; the status is 1 where one failed.
"""
import concurrent.futures
import contextlib
import itertools
import json
import os
import random
import re
import shutil
import sqlite3
import subprocess
import sys

sys.dont_write_bytecode = True
sys.path += [os.path.join(os.path.dirname(os.path.realpath(__file__)), "..", it) for it in ("common", "faults")]
import commands
import ending
import holding
import interrupted
import keeping
import needs
import rivals
import rooms
import sweep
from commands import check, run
from frames import framed
from piped import Piped

JOBS = 2  # runs at a time
STREAMS, MOST_LINES = 300, 40  # random streams, and lines of each
KINDS = ("single_phase", "two_phase_pending", "two_phase_posted", "two_phase_voided", "two_phase_expired")


# ---------------------------------------------------------------------------------------------------------------------
# Messages.


def account(id, balances, code=1):
    names = ("debits_pending", "debits_posted", "credits_pending", "credits_posted")
    return {
        "id": str(id),
        **{name: str(value) for name, value in zip(names, balances)},
        "user_data_128": "0",
        "user_data_64": "0",
        "user_data_32": 0,
        "code": code,
        "flags": 0,
        "timestamp": "1",
    }


def event(timestamp, debit=1, credit=2, balances=((0, 5, 0, 0), (0, 0, 0, 5)), kind="single_phase", ledger=700, code=1):
    """An event's body, as Python has it, in the order of TigerBeetle's documentation."""
    return {
        "timestamp": str(timestamp),
        "type": kind,
        "ledger": ledger,
        "transfer": {
            "id": str(timestamp),
            "amount": "5",
            "pending_id": "0",
            "user_data_128": "0",
            "user_data_64": "0",
            "user_data_32": 0,
            "timeout": 0,
            "code": code,
            "flags": 0,
            "timestamp": str(timestamp),
        },
        "debit_account": account(debit, balances[0]),
        "credit_account": account(credit, balances[1]),
    }


def own(body):
    """A body as a connector writes it: its members in order, without white space."""
    return json.dumps(body, sort_keys=True, separators=(",", ":"))


def numbers(value):
    """The same with each decimal string as a JSON number."""
    if isinstance(value, dict):
        return {name: numbers(it) for name, it in value.items()}
    return int(value) if isinstance(value, str) and value.isdigit() else value


def chained(previous, body):
    return json.dumps({"previous": str(previous), "body": body})


def end(previous=None):
    return json.dumps({"end": True} if previous is None else {"end": True, "previous": str(previous)})


# ---------------------------------------------------------------------------------------------------------------------
# The model.


BALANCES = ("debits_pending", "debits_posted", "credits_pending", "credits_posted")
COUNTED = {"applied": "applied", "duplicate": "duplicates", "passed": "passed", "gap": "gaps_skipped", "nothing": "lines_skipped"}


def as_json(value):
    """An object as the program prints it."""
    return json.dumps(value, separators=(",", ":")) + "\n"


class Model:
    """What a follower keeps and prints, by streams of well-formed lines, or of blank ones."""

    def __init__(self, is_chained, ledger=None, after=0):
        self.is_chained, self.ledger, self.seen = is_chained, ledger, after
        self.applied = self.last = self.gaps = 0
        self.ended = False
        self.book = {}
        self.result, self.changed = "nothing", []  # of the last line: its result, and the accounts that it changed

    def take(self, number, line):
        """Takes a line; returns the line that is printed where following stops at it: at a gap, unless gaps are skipped, or at what
        contradicts the end."""
        self.result, self.changed = "nothing", []
        if not line.strip():
            return None
        value = json.loads(line)
        previous = int(value["previous"]) if self.is_chained else self.seen
        body = value.get("body", value)
        timestamp = None if value.get("end") else int(body["timestamp"])
        is_taken = timestamp is None or self.ledger in (None, body["ledger"])
        if timestamp is not None and timestamp <= self.seen:
            self.result = "duplicate"
            return None
        if self.ended:
            is_other = previous != self.seen if timestamp is None else self.is_chained or is_taken
            self.result = "after_end" if is_other else "duplicate" if timestamp is None else "passed"
            return f"after_end: line {number}: ended after {self.seen}\n" if is_other else None
        if previous != self.seen:
            self.gaps += 1
            self.result = "gap"
            return f"gap: line {number}: after {previous}, expected after {self.seen}\n"
        if timestamp is None:
            self.ended = True
            self.result = "end"
        elif is_taken:
            self.seen = self.last = timestamp
            self.applied += 1
            self.result = "applied"
            for side in ("debit_account", "credit_account"):
                shown = body[side]
                self.book[int(shown["id"])] = shown
                self.changed.append({"id": str(shown["id"]), **{name: str(shown[name]) for name in BALANCES}})
        else:
            self.result = "passed"
            if self.is_chained:
                self.seen = timestamp
        return None

    def text(self):
        ended = "yes" if self.ended else "no"
        lines = [f"subscriber 1 applied {self.applied} last {self.last} ended {ended} closed no\n"]
        for id, shown in self.book.items():
            lines.append(f"account {id} {' '.join(str(shown[name]) for name in BALANCES)}\n")
        return "".join(lines)

    def expected(self, number):
        """The line that --expect prints of the last line, which has this number."""
        kept = {"applied": self.applied, "last": str(self.last), "accounts": self.changed}
        return as_json({"kind": "expect", "line": number, "result": self.result, **kept})


def counts_of(results):
    """How many lines came to what, by their results."""
    counts = dict.fromkeys(COUNTED.values(), 0)
    for it in results:
        if it in COUNTED:
            counts[COUNTED[it]] += 1
    return counts


def counted(applied=0, duplicates=0, passed=0, gaps_skipped=0, lines_skipped=0):
    """The last line that --json prints, by these counts."""
    counts = (applied, duplicates, passed, gaps_skipped, lines_skipped)
    return as_json({"kind": "followed", **dict(zip(COUNTED.values(), counts))})


def saved(timestamp, *counts):
    """The line of a save that --json prints, by these counts."""
    return as_json({"kind": "saved", "timestamp": str(timestamp), **dict(zip(COUNTED.values(), counts))})


# ---------------------------------------------------------------------------------------------------------------------
# By hand.

NOTHING = "subscriber 1 applied 0 last 0 ended no closed no\n"
ONE = "subscriber 1 applied 1 last 10 ended no closed no\naccount 1 0 5 0 0\naccount 2 0 0 0 5\n"
TWO = "subscriber 1 applied 2 last 20 ended no closed no\naccount 1 0 9 0 0\naccount 2 0 0 0 9\n"
GREATEST = 2**63 - 1  # the greatest timestamp of a ledger
UNREAD = "standard input: lines have previous, which is ignored without --chained\n"
FIRST, SECOND = event(10), event(20, balances=((0, 9, 0, 0), (0, 0, 0, 9)))


REPORTED = re.compile(
    r"(?m)^standard input: applied (\d+), duplicates (\d+), passed (\d+), gaps skipped (\d+), lines skipped (\d+)\n")


def silent(found):
    """The status of a run and what it has printed, if standard error reports counts and nothing else; else all of it."""
    return found[:2] if reported(found[2])[0] == "" and reported(found[2])[1] else found


def reported(errors):
    """What standard error reports besides the counts, and the counts, or None if it has none."""
    found = REPORTED.search(errors)
    return REPORTED.sub("", errors, count=1), found and tuple(map(int, found.groups()))


def without(body, *names):
    """A body without a member, which is named by its path."""
    copy = json.loads(json.dumps(body))
    part = copy
    for name in names[:-1]:
        part = part[name]
    del part[names[-1]]
    return copy


def with_member(body, value, *names):
    copy = json.loads(json.dumps(body))
    part = copy
    for name in names[:-1]:
        part = part[name]
    part[names[-1]] = value
    return copy


def padded(body, length):
    """A body's line of this many bytes, by spaces inside the object."""
    text = own(body)
    return text[:-1] + " " * (length - len(text)) + "}"


def rows():
    """Each row: what it is, the arguments, the stream, what is printed, the status, and a part of standard error: all
    of it where the status is 0. Or how many gaps it reports to be skipped, and nothing else than counts."""
    first, second = own(FIRST), own(SECOND)
    lines = lambda *given: "".join(f"{it}\n" for it in given).encode()
    yield "an empty stream", [], b"", NOTHING, 0, ""
    yield "a body", [], lines(first), ONE, 0, ""
    yield "a body without a line feed", [], first.encode(), ONE, 0, ""
    yield "two bodies", [], lines(first, second), TWO, 0, ""
    yield "a body twice", [], lines(first, first), ONE, 0, ""
    yield "an earlier body", [], lines(second, first), TWO.replace("applied 2", "applied 1"), 0, ""
    yield "a body as it is documented", [], lines(json.dumps(FIRST)), ONE, 0, ""
    yield "numbers as JSON numbers", [], lines(json.dumps(numbers(FIRST))), ONE, 0, ""
    yield "further members", [], lines(json.dumps({**FIRST, "more": [1, {"a": None}]})), ONE, 0, ""
    yield "an envelope", [], lines(json.dumps({"x": 1, "body": FIRST})), ONE, 0, ""
    yield "the end", [], lines(first, end()), ONE.replace("ended no", "ended yes"), 0, ""
    ended = ONE.replace("ended no", "ended yes")
    yield "the end twice, and a duplicate between", [], lines(first, end(), first, end()), ended, 0, ""
    yield "an event after the end", [], lines(first, end(), second, end()), (
        ended + "after_end: line 3: ended after 10\n"
    ), 3, ":3: after_end: the event has the timestamp 20, and the stream ended after 10"
    yield "an event after the end that the binding doesn't take", ["--binding", "all ledger=700"], lines(
        first, end(), own({**SECOND, "ledger": 701})
    ), ended, 0, ""
    yield "the greatest timestamp", [], lines(own(event(GREATEST))), ONE.replace("last 10", f"last {GREATEST}"), 0, ""
    for timestamp in (GREATEST + 1, 2**64 - 1):
        yield f"the timestamp {timestamp}", [], lines(first, own(event(timestamp)), second), (
            ONE + "fault: line 2: out_of_range\n"
        ), 2, ":2: out_of_range: timestamp is "
    yield "no end, since its member is false", [], lines('{"end":false}'), NOTHING + "fault: line 1: missing\n", 2, "missing"
    yield "blank lines and headers", [], lines("", " \t", "event_type=x", first), ONE, 0, ""
    yield "carriage returns", [], (first + "\r\n\r\n").encode(), ONE, 0, ""
    mark = b"\xef\xbb\xbf" + lines(first)
    yield "a byte order mark", [], mark, NOTHING + "fault: line 1: not_json\n", 2, "not_json"
    yield "no JSON", [], lines(first, "{"), ONE + "fault: line 2: not_json\n", 2, ":2:2: not_json"
    yield "bytes that are no text", [], b"\"\xff\"\n", NOTHING + "fault: line 1: not_json\n", 2, "not_json"
    yield "a line of zeros", [], b"\0\0\n", NOTHING + "fault: line 1: not_json\n", 2, "not_json"
    yield "no object", [], lines("7"), NOTHING + "fault: line 1: not_an_object\n", 2, "not_an_object"
    yield "a member is missing", [], lines(json.dumps(without(FIRST, "debit_account", "id"))), (
        NOTHING + "fault: line 1: missing\n"
    ), 2, ":1: missing: debit_account.id is missing"
    yield "a wrong type", [], lines(json.dumps(with_member(FIRST, [], "ledger"))), NOTHING + "fault: line 1: wrong_type\n", 2, "wrong_type: ledger is []: a whole number"
    yield "a negative number", [], lines(json.dumps(with_member(FIRST, -1, "timestamp"))), (
        NOTHING + "fault: line 1: wrong_type\n"
    ), 2, "wrong_type: timestamp is -1: a whole number"
    yield "a number too large", [], lines(json.dumps(with_member(FIRST, str(2**128), "transfer", "id"))), (
        NOTHING + "fault: line 1: out_of_range\n"
    ), 2, "out_of_range: transfer.id is "
    yield "an unknown kind", [], lines(json.dumps(with_member(FIRST, "x", "type"))), NOTHING + "fault: line 1: unknown_kind\n", 2, ""
    yield "a fault after two events", [], lines(first, second, "x"), TWO + "fault: line 3: not_json\n", 2, ":3:1: not_json"
    yield "an envelope whose body is none", [], lines('{"body":7}'), NOTHING + "fault: line 1: not_an_object\n", 2, ""
    yield "a line of 65,536 bytes", [], lines(padded(FIRST, 65536)), ONE, 0, ""
    yield "a line of 65,537 bytes", [], lines(padded(FIRST, 65537)), NOTHING + "fault: line 1: too_long\n", 2, "too_long"
    yield "a last line of 65,536 bytes", [], padded(FIRST, 65536).encode(), ONE, 0, ""
    yield "a last line of 65,537 bytes", [], padded(FIRST, 65537).encode(), NOTHING + "fault: line 1: too_long\n", 2, "too_long"
    yield "megabytes without a line feed", [], b" " * 3_000_000, NOTHING + "fault: line 1: too_long\n", 2, "too_long"
    chain = ["--chained"]
    yield "a chain", chain, lines(chained(0, FIRST), chained(10, SECOND)), TWO, 0, ""
    yield "a chain and its end", chain, lines(chained(0, FIRST), end(10)), ONE.replace("ended no", "ended yes"), 0, ""
    yield "a gap", chain, lines(chained(0, FIRST), chained(15, SECOND)), (
        ONE + "gap: line 2: after 15, expected after 10\n"
    ), 3, ":2: gap: "
    yield "a gap before the first event", chain, lines(chained(10, SECOND)), NOTHING + "gap: line 1: after 10, expected after 0\n", 3, "gap"
    yield "a gap before the end", chain, lines(chained(0, FIRST), end(20)), (
        ONE + "gap: line 2: after 20, expected after 10\n"
    ), 3, "gap"
    yield "an event after a gap that is skipped", [*chain, "--skip-gaps"], lines(
        chained(10, SECOND), chained(0, FIRST), chained(10, SECOND)
    ), TWO, 0, 1
    yield "three gaps that are skipped", [*chain, "--skip-gaps"], lines(chained(10, SECOND), end(10), chained(5, FIRST)), (
        NOTHING
    ), 0, 3
    yield "a gap that is skipped twice", [*chain, "--skip-gaps"], lines(
        chained(0, FIRST), chained(15, SECOND), chained(15, SECOND)
    ), ONE, 0, 2
    yield "duplicates are no gaps", [*chain, "--skip-gaps"], lines(chained(0, FIRST), chained(7, FIRST), chained(90, FIRST)), ONE, 0, ""
    yield "an event of another queue", chain, lines(chained(0, FIRST), chained(0, SECOND), chained(10, event(30))), (
        ONE + "gap: line 2: after 0, expected after 10\n"
    ), 3, ":2: gap: the message before this one in its queue has the timestamp 0, and the last one that came has 10: this message is of"
    yield "an event of another queue that is skipped", [*chain, "--skip-gaps"], lines(
        chained(0, FIRST), chained(0, event(15)), chained(10, SECOND)
    ), TWO, 0, 1
    yield "the end of another queue", chain, lines(chained(0, FIRST), end(0)), (
        ONE + "gap: line 2: after 0, expected after 10\n"
    ), 3, ":2: gap: "
    yield "a redelivery after the end", chain, lines(chained(0, FIRST), end(10), chained(0, FIRST), end(10)), ended, 0, ""
    for name, options in (("an event after the end of a chain", chain), ("with gaps that are skipped", [*chain, "--skip-gaps"])):
        yield name, options, lines(chained(0, FIRST), end(10), chained(10, SECOND)), (
            ended + "after_end: line 3: ended after 10\n"
        ), 3, ":3: after_end: the event has the timestamp 20"
    yield "an event after the end, of which the binding takes none", [*chain, "--binding", "all ledger=701"], lines(
        chained(0, FIRST), end(10), chained(10, SECOND)
    ), NOTHING.replace("ended no", "ended yes") + "after_end: line 3: ended after 10\n", 3, "after_end"
    for previous in (0, 20):
        yield f"another end, after {previous}", chain, lines(chained(0, FIRST), end(10), end(previous)), (
            ended + "after_end: line 3: ended after 10\n"
        ), 3, f":3: after_end: this end comes after {previous}, and the stream ended after 10"
    yield "a chain's timestamp out of range", chain, lines(chained(0, FIRST), chained(10, event(GREATEST + 1))), (
        ONE + "fault: line 2: out_of_range\n"
    ), 2, "out_of_range"
    yield "a gap that is skipped before a bad line", [*chain, "--skip-gaps"], lines(chained(10, SECOND), "x"), (
        NOTHING + "fault: line 2: not_json\n"
    ), 2, 1
    yield "predecessors that nobody reads", [], lines(chained(0, FIRST), chained(15, SECOND)), TWO, 0, UNREAD
    yield "an end with a predecessor that nobody reads", [], lines(end(10)), NOTHING.replace("ended no", "ended yes"), 0, UNREAD
    yield "a predecessor of a body, that nobody reads", [], lines(json.dumps({**FIRST, "previous": "9"})), ONE, 0, UNREAD
    yield "a duplicate whose predecessor is missing", chain, lines(chained(0, FIRST), chained(10, SECOND), chained(7, FIRST)), TWO, 0, ""
    yield "no predecessor", chain, lines(first), NOTHING + "fault: line 1: missing\n", 2, "previous"
    yield "a predecessor that is no number", chain, lines(json.dumps({"previous": "x", "body": FIRST})), (
        NOTHING + "fault: line 1: wrong_type\n"
    ), 2, "previous"
    yield "a predecessor of more than 64 bits", chain, lines(chained(2**64, FIRST)), NOTHING + "fault: line 1: out_of_range\n", 2, "previous"
    yield "a predecessor as a JSON number", chain, lines(json.dumps({"previous": 0, "body": FIRST})), ONE, 0, ""
    yield "a body that has a predecessor itself", chain, lines(json.dumps({**FIRST, "previous": "0"})), ONE, 0, ""
    yield "a binding that takes nothing", ["--binding", "all ledger=701"], lines(first, second), NOTHING, 0, ""
    yield "a binding that takes all", ["--binding", "all ledger=700"], lines(first, second), TWO, 0, ""
    yield "a chain past an event that the binding doesn't take", [*chain, "--binding", "all ledger=700"], lines(
        chained(0, {**FIRST, "ledger": 701}), chained(10, SECOND)
    ), TWO.replace("applied 2", "applied 1"), 0, ""
    later = TWO.replace("applied 2", "applied 1")
    late = ["--after", "10"]
    yield "a late start of a chain", [*chain, *late], lines(chained(10, SECOND)), later, 0, ""
    yield "a late start, and a redelivery from before it", [*chain, *late], lines(chained(0, FIRST), chained(10, SECOND)), later, 0, ""
    yield "a late start amid an event", [*chain, *late], lines(chained(15, SECOND)), (
        NOTHING + "gap: line 1: after 15, expected after 10\n"
    ), 3, "has the timestamp 15, and the last one that came has 10"
    yield "a late start and a first event", [*chain, *late], lines(chained(0, SECOND)), (
        NOTHING + "gap: line 1: after 0, expected after 10\n"
    ), 3, ":1: gap: "
    yield "a late start at the end", [*chain, *late], lines(end(10)), NOTHING.replace("ended no", "ended yes"), 0, ""
    yield "a late start and an earlier end", [*chain, *late], lines(end(0)), NOTHING + "gap: line 1: after 0, expected after 10\n", 3, "gap"
    yield "a late start without --chained", late, lines(first, second), later, 0, ""
    yield "a late start before all events", ["--after", "9"], lines(first, second), TWO, 0, ""
    yield "a late start after all events", ["--after", "20"], lines(first, second), NOTHING, 0, ""
    yield "the latest start", ["--after", str(GREATEST)], lines(first, own(event(GREATEST))), NOTHING, 0, ""


JSON_ROWS = [
    (
        "as JSON",
        ["--json", "--chained"],
        f"{chained(0, FIRST)}\n{chained(30, SECOND)}\n",
        '{"kind":"subscriber","subscriber":1,"applied":1,"last":"10","ended":false,"closed":false}\n'
        '{"kind":"account","subscriber":1,"id":"1","debits_pending":"0","debits_posted":"5","credits_pending":"0","credits_posted":"0"}\n'
        '{"kind":"account","subscriber":1,"id":"2","debits_pending":"0","debits_posted":"0","credits_pending":"0","credits_posted":"5"}\n'
        '{"kind":"gap","line":2,"after":"30","expected_after":"10"}\n'
        + counted(applied=1),
        3,
    ),
    (
        "what contradicts the end, as JSON",
        ["--json", "--chained"],
        f"{end(0)}\n{chained(0, FIRST)}\n",
        '{"kind":"subscriber","subscriber":1,"applied":0,"last":"0","ended":true,"closed":false}\n'
        '{"kind":"after_end","line":2,"ended_after":"0"}\n'
        + counted(),
        3,
    ),
    (
        "a bad line as JSON",
        ["--json"],
        "{\n",
        '{"kind":"subscriber","subscriber":1,"applied":0,"last":"0","ended":false,"closed":false}\n'
        '{"kind":"line_fault","line":1,"name":"not_json"}\n'
        + counted(),
        2,
    ),
    (
        "no gap that is skipped, as JSON",
        ["--json", "--chained", "--skip-gaps"],
        "",
        '{"kind":"subscriber","subscriber":1,"applied":0,"last":"0","ended":false,"closed":false}\n'
        + counted(),
        0,
    ),
    (
        "three gaps that are skipped, as JSON",
        ["--json", "--chained", "--skip-gaps"],
        f"{chained(10, SECOND)}\n{end(10)}\n{chained(5, FIRST)}\n",
        '{"kind":"subscriber","subscriber":1,"applied":0,"last":"0","ended":false,"closed":false}\n'
        + counted(gaps_skipped=3),
        0,
    ),
    (
        "a gap that is skipped before a bad line, as JSON",
        ["--json", "--chained", "--skip-gaps"],
        f"{chained(10, SECOND)}\nx\n",
        '{"kind":"subscriber","subscriber":1,"applied":0,"last":"0","ended":false,"closed":false}\n'
        '{"kind":"line_fault","line":2,"name":"not_json"}\n'
        + counted(gaps_skipped=1),
        2,
    ),
]

# A line of each kind: blank; applied; a duplicate; one that the binding doesn't take; one that comes too early; the end; the end
# again; and an event after it.
OTHER_LEDGER, EARLY, LATE = event(20, ledger=701), event(30), event(40)
EACH_KIND = [
    "",
    chained(0, FIRST),
    chained(0, FIRST),
    chained(10, OTHER_LEDGER),
    chained(15, EARLY),
    end(20),
    end(20),
    chained(20, LATE),
]
OF_700 = ["--chained", "--binding", "all ledger=700"]
SHOWN = (
    '{"id":"1","debits_pending":"0","debits_posted":"5","credits_pending":"0","credits_posted":"0"},'
    '{"id":"2","debits_pending":"0","debits_posted":"0","credits_pending":"0","credits_posted":"5"}'
)
EXPECTED = [
    '{"kind":"expect","line":1,"result":"nothing","applied":0,"last":"0","accounts":[]}\n',
    '{"kind":"expect","line":2,"result":"applied","applied":1,"last":"10","accounts":[' + SHOWN + "]}\n",
    '{"kind":"expect","line":3,"result":"duplicate","applied":1,"last":"10","accounts":[]}\n',
    '{"kind":"expect","line":4,"result":"passed","applied":1,"last":"10","accounts":[]}\n',
    '{"kind":"expect","line":5,"result":"gap","applied":1,"last":"10","accounts":[]}\n',
    '{"kind":"expect","line":6,"result":"end","applied":1,"last":"10","accounts":[]}\n',
    '{"kind":"expect","line":7,"result":"duplicate","applied":1,"last":"10","accounts":[]}\n',
    '{"kind":"expect","line":8,"result":"after_end","applied":1,"last":"10","accounts":[]}\n',
]
NO_JSON = '{"kind":"expect","line":1,"result":"bad_line","name":"not_json","applied":0,"last":"0","accounts":[]}\n'
EXPECT_ROWS = [
    ("each kind of line", [*OF_700, "--skip-gaps"], EACH_KIND, "".join(EXPECTED), 3),
    ("a gap", OF_700, EACH_KIND, "".join(EXPECTED[:5]), 3),
    ("up to the end", [*OF_700, "--skip-gaps"], EACH_KIND[:6], "".join(EXPECTED[:6]), 0),
    ("no lines", [], [], "", 0),
    ("a bad line", [], ["x", own(FIRST)], NO_JSON, 2),
]
USAGE = [["--skip-gaps"], ["--after", "0"], ["--after", "9223372036854775808"], ["--after", "x"], ["--every", "0"], ["--every", "x"], ["--binding", ""], ["--binding", "some"], ["--binding", "all x=1"], ["a", "b"]]
USAGE += [["--expect", *it] for it in (["--book", "a.book"], ["--every", "2"], ["--json"])]


def by_hand(folder):
    for name, arguments, stream, printed, status, said in rows():
        found = run(arguments, stream)
        said, gaps = ("", said) if isinstance(said, int) else (said, None)
        errors, counts = reported(found[2])
        is_right = found[:2] == (status, printed) and said in errors and (status != 0 or errors == said) and counts is not None
        is_right = is_right and gaps in (None, counts[3])
        check(name, is_right, found)
        file = os.path.join(folder, "stream")
        with open(file, "wb") as it:
            it.write(stream)
        check(f"{name}, in a file", run([file, *arguments], b"")[:2] == (status, printed), found)
    for name, arguments, stream, printed, status in JSON_ROWS:
        found = run(arguments, stream.encode())
        check(name, found[:2] == (status, printed), found)
    for name, arguments, lines, printed, status in EXPECT_ROWS:
        found = run([*arguments, "--expect"], text_of(lines))
        check(f"--expect: {name}", found[:2] == (status, printed), found)
    for arguments in USAGE:
        found = run(arguments, b"")
        check(f"usage: {arguments}", found[0] == 2 and not found[1] and found[2].startswith("error: "), found)
    found = run([os.path.join(folder, "nowhere")], b"")
    check("a stream that isn't there", found[:2] == (1, "fault: read_fault\n") and "read_fault" in found[2], found)
    found = run([folder], b"")
    check("a stream that is a folder", found[:2] == (1, "fault: read_fault\n"), found)


def counts(folder):
    """The counts of each kind of line, with each save and at the end, of this run alone."""
    found = run([*OF_700, "--skip-gaps", "--json"], text_of(EACH_KIND))
    end_of_all = '{"kind":"after_end","line":8,"ended_after":"20"}\n' + counted(1, 2, 1, 1, 1)
    check("the counts of each kind of line", found[0] == 3 and found[1].endswith(end_of_all), found)
    book = os.path.join(folder, "counted.book")
    arguments = [*OF_700, "--skip-gaps", "--json", "--every", "1", "--book", book]
    found = run(arguments, text_of(EACH_KIND[:6]))
    saves = [(0, 0, 0, 0, 0, 1), (10, 1, 0, 0, 0, 1), (10, 1, 1, 0, 0, 1), (20, 1, 1, 1, 0, 1)] + [(20, 1, 1, 1, 1, 1)] * 3
    printed = "".join(saved(*it) for it in saves)
    is_right = found[1].startswith(printed) and found[1].endswith(counted(1, 1, 1, 1, 1)) and found[1].count('"saved"') == len(saves)
    check("the counts of each save", found[0] == 0 and is_right, found)
    found = run(arguments, text_of(EACH_KIND[1:2]))
    printed = saved(20, 0, 1, 0, 0, 0)
    check("the counts of a later run", found[1].startswith(printed) and found[1].endswith(counted(duplicates=1)), found)


# ---------------------------------------------------------------------------------------------------------------------
# Random streams.


def queue_of(rng, count, first_id):
    """The lines of a queue, each with its predecessor, and its end."""
    balances, last, timestamp, lines = {}, 0, rng.randrange(3), []
    for _ in range(count):
        timestamp += rng.choice([1, 1, 2, 50])
        debit, credit = rng.sample(range(first_id, first_id + 4), 2)
        for id, place in ((debit, 1), (credit, 3)):
            balances.setdefault(id, [0, 0, 0, 0])[place] += 5
        body = event(timestamp, debit, credit, (balances[debit], balances[credit]), rng.choice(KINDS), rng.choice([700, 701]))
        form = rng.choice([lambda it: it, numbers])
        lines.append(chained(last, form(body)))
        last = timestamp
    return [*lines, end(last)]


def disturbed(rng, lines):
    """Lines that are lost, repeated and shuffled."""
    lines = [it for it in lines if rng.random() > rng.choice([0, 0, 0.1])]
    for _ in range(rng.choice([0, 0, 3, 8])):
        if lines:
            lines.insert(rng.randrange(len(lines) + 1), rng.choice(lines))
    for _ in range(rng.choice([0, 0, 2])):
        if len(lines) > 1:
            place = rng.randrange(len(lines) - 1)
            lines[place : place + 2] = reversed(lines[place : place + 2])
    if rng.random() < 0.1:
        rng.shuffle(lines)
    return lines


def random_stream(seed):
    """A random stream, and what is wrong with what the program makes of it, or None."""
    rng = random.Random(seed)
    lines = disturbed(rng, queue_of(rng, rng.randrange(MOST_LINES), 1))
    if rng.random() < 0.2:
        other = disturbed(rng, queue_of(rng, rng.randrange(MOST_LINES), 3))
        lines = [it for pair in zip(lines, other) for it in pair] + lines[len(other) :] + other[len(lines) :]
    lines = [it for line in lines for it in ([rng.choice(["", " "])] if rng.random() < 0.05 else []) + [line]]
    is_chained, skips, ledger = rng.random() < 0.7, rng.random() < 0.5, rng.choice([None, 700])
    starts = [int(json.loads(it)["previous"]) for it in lines if it.strip()]
    after = rng.choice([0, 0, rng.choice(starts)]) if starts else 0
    model, printed, status, results, results_printed = Model(is_chained, ledger, after), "", 0, [], ""
    for number, line in enumerate(lines, 1):
        stop = model.take(number, line)
        results_printed += model.expected(number)
        if stop and not (skips and stop.startswith("gap: ")):
            printed, status = stop, 3
            break
        results.append(model.result)
    arguments = ["--chained"] * is_chained + ["--skip-gaps"] * (is_chained and skips)
    arguments += ["--binding", f"all ledger={ledger}"] if ledger else []
    arguments += ["--after", str(after)] if after else []
    found = run(arguments, text_of(lines))
    expected = (status, model.text() + printed)
    said = "" if is_chained or not starts else UNREAD
    counts = tuple(counts_of(results).values())
    if found[:2] != expected or reported(found[2])[1] != counts or (status == 0 and reported(found[2])[0] != said):
        return f"seed {seed}: {arguments}: {found!r}, not {expected!r}, {said!r} and {counts!r}"
    found = run([*arguments, "--expect"], text_of(lines))
    if found[:2] != (status, results_printed):
        return f"seed {seed}: {arguments}, --expect: {found!r}, not {results_printed!r}"
    found, last = run([*arguments, "--json"], text_of(lines)), counted(*counts_of(results).values())
    return None if found[0] == status and found[1].endswith(last) else f"seed {seed}: {arguments}, --json: {found!r}, not {last!r}"


def random_streams(count):
    with concurrent.futures.ThreadPoolExecutor(JOBS) as pool:
        for wrong in pool.map(random_stream, range(count)):
            check("a random stream", wrong is None, wrong)


# ---------------------------------------------------------------------------------------------------------------------
# Books.


def stream_of(count):
    return queue_of(random.Random(7), count, 1)


def text_of(lines):
    return "".join(f"{it}\n" for it in lines).encode()


def books(folder):
    """A book that is kept: going on, and what is refused."""
    lines = stream_of(30)
    text = lambda given: "".join(f"{it}\n" for it in given).encode()
    whole = run(["--chained"], text(lines))[1]
    book = os.path.join(folder, "a.book")
    found = run(["--chained", "--book", book, "--every", "7"], text(lines[:12]))
    check("a book's saves", found[0] == 0 and interrupted.SAVED.findall(found[1]), found)
    found = run(["--chained", "--book", book], text(lines))
    check("a book goes on", found[0] == 0 and found[1].endswith(whole), found)
    check("nothing is left beside a book", sorted(os.listdir(folder)) == ["a.book"], os.listdir(folder))
    before = open(book, "rb").read()
    found = run(["--book", book], text(lines))
    check("a book of a chained stream", found[:2] == (2, "fault: store\n") and "store" in found[2], found)
    found = run(["--chained", "--binding", "all ledger=700", "--book", book], text(lines))
    check("a book of another binding", found[:2] == (2, "fault: store\n") and "store" in found[2], found)
    check("it stays", open(book, "rb").read() == before, before)
    alone = framed(before)[0]
    for name, content in [
        ("empty", b""),
        ("another kind", b"tb-cdc 2 1 0 0\n"),
        ("a cut book", before[:-5]),
        ("a cut line of a book", alone[:-5]),
        ("a further blank line after a book", alone + b"\n"),
        ("an account twice", alone + alone[alone.index(b"account ") :].split(b"\n")[0] + b"\n"),
        ("a leading zero", before.replace(b" applied ", b" applied 0", 1)),
        ("another version", before.replace(b"book 1", b"book 2", 1)),
    ]:
        other = os.path.join(folder, "other")
        with open(other, "wb") as file:
            file.write(content)
        found = run(["--chained", "--book", other], text(lines))
        check(f"a book that is none: {name}", found[:2] == (2, "fault: store\n") and f"{other}: store" in found[2], found)
        check(f"it stays: {name}", open(other, "rb").read() == content, name)
        os.remove(other)
    found = run(["--chained", "--book", folder], b"")
    check("a book that is a folder", found[:2] == (1, "fault: store\n") and "regular file" in found[2], found)
    found = run(["--chained", "--book", os.path.join(folder, "no", "where")], b"")
    check("a book in no folder", found[:2] == (1, "fault: store\n"), found)
    with open(book, "rb") as held:
        import fcntl

        fcntl.flock(held, fcntl.LOCK_EX)
        found = run(["--chained", "--book", book], text(lines))
        check("a locked book", found[:2] == (1, "fault: store\n"), found)
    beside = book + ".new"
    with open(beside, "wb") as file:
        file.write(b"mine\n")
    found = run(["--chained", "--book", book], text(lines))
    check("another's file beside a book", found[0] == 1 and found[1] == "fault: store\n", found)
    check("it stays, too", open(beside, "rb").read() == b"mine\n", "")
    os.remove(beside)
    link = os.path.join(folder, "link")
    os.symlink(book, link)
    found = run(["--chained", "--book", link], text(lines))
    check("a book behind a link", found[0] == 0 and os.path.islink(link) and found[1].endswith(whole), found)
    os.remove(link)
    os.chmod(book, 0o444)
    found = run(["--chained", "--book", book], text(lines))
    check("a book that nobody may write", found[:2] == (1, "fault: store\n"), found)
    os.chmod(book, 0o600)
    os.remove(book)


def late_starts(folder):
    """A book that begins after an event is resumed with --after only while that event is the last one seen."""
    text = lambda *given: "".join(f"{it}\n" for it in given).encode()
    later = TWO.replace("applied 2", "applied 1")
    for name in ("late.book", "sqlite:late.db"):
        book = os.path.join(folder, name) if name == "late.book" else f"sqlite:{folder}/late.db"
        path = os.path.join(folder, name.removeprefix("sqlite:"))
        options = ["--chained", "--book", book, "--after"]
        found = run([*options, "10"], b"")
        check(f"{name}: a late start without a line", silent(found) == (0, f"saved 10\n{NOTHING}"), found)
        found = run([*options, "10"], text(chained(10, SECOND)))
        check(f"{name}: it begins there", silent(found) == (0, f"saved 20\n{later}"), found)
        before = open(path, "rb").read()
        for timestamp in ("10", "19", "21"):
            found = run([*options, timestamp], text(chained(20, event(30))))
            check(f"{name}: --after {timestamp} of a book at 20", found[:2] == (2, "fault: store\n"), found)
            check(f"{name}: what is reported then", "bad_record: the last event that it has seen has the timestamp 20, and --after" in found[2], found)
            check(f"{name}: it stays then", open(path, "rb").read() == before, timestamp)
        found = run([*options, "20"], text(chained(10, SECOND)))
        check(f"{name}: --after 20 of a book at 20", silent(found) == (0, f"saved 20\n{later}"), found)
        found = run(["--chained", "--book", book], text(end(20)))
        check(f"{name}: no --after", silent(found) == (0, f"saved 20\n{later.replace('ended no', 'ended yes')}"), found)
        os.remove(path)


def meanings(folder):
    """A book is resumed under any text of its binding that means the same, and under no other."""
    text = lambda *given: "".join(f"{it}\n" for it in given).encode()
    ten = "all ledger=700" + " transfer_code=1" * 9
    for name, path in (("a log", os.path.join(folder, "m.book")), ("SQLite", os.path.join(folder, "m.db"))):
        book = path if name == "a log" else f"sqlite:{path}"
        for saved, same, others in (
            ("all ledger=0700", ["all ledger=700", "all  ledger=00700", "all ledger=700 ledger=700"], ["all", "any ledger=700", "all ledger=70"]),
            (
                "any transfer_code=1 ledger=700",
                ["any ledger=700 transfer_code=01", "any ledger=700 transfer_code=1 ledger=0700"],
                ["any ledger=700", "any transfer_code=1", "any ledger=700 transfer_code=1 ledger=701", "all transfer_code=1 ledger=700"],
            ),
            ("all event_type=single_phase", ["all event_type=single_phase event_type=single_phase"], ["all event_type=two_phase_pending"]),
            ("all", [" all "], ["all ledger=700"]),
            (ten, ["all transfer_code=1 ledger=700"], [f"{ten[:-1]}2"]),
        ):
            run(["--chained", "--book", book, "--binding", saved], text(chained(0, FIRST)))
            before = open(path, "rb").read()
            for binding in others:
                found = run(["--chained", "--book", book, "--binding", binding], text(chained(10, SECOND)))
                check(f"{name} of {saved!r}: {binding!r}", found[:2] == (2, "fault: store\n") and "bad_record" in found[2], found)
                check(f"{name} of {saved!r}: it stays", open(path, "rb").read() == before, binding)
            for binding in [saved, *same]:
                found = run(["--chained", "--book", book, "--binding", binding], text(chained(0, FIRST)))
                check(f"{name} of {saved!r}: {binding!r}", silent(found) == (0, f"saved 10\n{ONE}"), found)
            os.remove(path)


def kept_in(path):
    """What a log holds up to its last whole frame, by its text alone: the timestamp of the last event seen, and the book. A file that
    isn't there holds nothing; None if the base isn't whole."""
    if not os.path.exists(path):
        return 0, NOTHING
    with open(path, "rb") as it:
        contents = framed(it.read(), is_cut=True)
    accounts = {}
    for content in contents:
        head, _, subscriber, *rows = content.decode().splitlines()
        accounts.update((it.split()[1], it) for it in rows)
    return (int(head.split()[-1]), "".join(f"{it}\n" for it in [subscriber, *accounts.values()])) if contents else None


def logs(folder):
    """A book is a log: each save but the first appends what changed."""
    lines = stream_of(30)
    text = lambda given: "".join(f"{it}\n" for it in given).encode()
    book = os.path.join(folder, "a.book")
    found = run(["--chained", "--book", book, "--every", "3"], text(lines[:20]))
    log = open(book, "rb").read()
    contents = framed(log)
    check("a base and records", found[0] == 0 and len(contents) == 7, (found, len(contents)))
    printed = [run(["--chained"], text(lines[:count]))[1].encode() for count in (*range(3, 20, 3), 20)]
    check("a base is the book", contents[0].split(b"\n", 2)[2] == printed[0], (contents[0], printed[0]))
    for number, (content, whole) in enumerate(zip(contents, printed)):
        rows = content.split(b"\n")[2:]
        check(f"record {number} has rows of the book", set(rows) <= set(whole.split(b"\n")), (rows, whole))
    ends = ends_in(log)
    alone = os.path.join(folder, "alone")
    with open(alone, "wb") as it:
        it.write(contents[0])
    found = run(["--chained", "--book", alone], text(lines))
    check("a book alone goes on", found[0] == 0 and found[1].endswith(run(["--chained"], text(lines))[1]), found)
    for name, last in (("zeros", b"\0" * 40), ("another book's frame", b"book 7 bytes 2\nx\nend 7 bytes 2\n"), ("a line", b"more\n")):
        with open(alone, "wb") as it:
            it.write(log + last)
        found = run(["--chained", "--book", alone], b"")
        check(f"a log and then {name}", found[:1] == (0,) and found[1].endswith(printed[-1].decode()), found)
        with open(alone, "rb") as it:
            check(f"{name} are gone after a save", len(framed(it.read())) == 1, name)
    for name, changed in (
        ("a frame that is missing", log.replace(log[ends[1] : ends[2]], b"")),
        ("a frame with another number", log.replace(b"book 3 bytes", b"book 4 bytes", 1)),
    ):
        with open(alone, "wb") as it:
            it.write(changed)
        found = run(["--chained", "--book", alone], b"")
        check(f"{name} ends the log", found[0] == 0 and found[1].endswith(printed[1 if "missing" in name else 2].decode()), found)
    os.remove(alone)
    os.remove(book)


def ends_in(log):
    """Where each frame of a log ends."""
    contents = framed(log)
    sizes = [sum(len(b"%s %d bytes %d\n" % (it, number, len(content))) for it in (b"book", b"end")) for number, content in enumerate(contents)]
    return list(itertools.accumulate(size + len(content) for size, content in zip(sizes, contents)))


def cuts(folder):
    """A log that is cut at any byte is the book of its last whole frame. One that is cut within its base is refused, and stays."""
    lines, every = stream_of(40 if commands.is_long else 12), 3
    books, book = books_of(lines, every)[1:], os.path.join(folder, "a.book")
    found = run(["--chained", "--book", book, "--every", str(every)], text_of(lines))
    with open(book, "rb") as it:
        log = it.read()
    ends = ends_in(log)
    check("a log to cut", found[0] == 0 and len(ends) == len(books) > 4, (found, ends))
    with concurrent.futures.ThreadPoolExecutor(JOBS) as pool:
        rows = [(f"{book}.{place}", log[:place], sum(it <= place for it in ends)) for place in range(len(log) + 1)]
        for wrong in pool.map(lambda row: cut(*row, books), rows):
            check("a log that is cut", wrong is None, wrong)


def cut(path, log, frames, books):
    """What is wrong with a run over a log that is cut after so many whole frames, or None."""
    with open(path, "wb") as it:
        it.write(log)
    last, text = books[frames - 1]
    found = run(["--chained", "--book", path], b"")
    wanted = (0, f"saved {last}\n{text}") if frames else (2, "fault: store\n")
    kept = kept_in(path) == books[frames - 1] if frames else open(path, "rb").read() == log
    is_right = found[:2] == wanted and kept and not os.path.exists(f"{path}.new")
    os.remove(path)
    return None if is_right else f"cut at {len(log)}: {found!r}, not {wanted!r}"


def grown(folder):
    """A book of 30,000 accounts, with a real ledger's numbers: its records outgrow its base, so new bases replace them."""
    chosen, first, accounts = random.Random(13), 10**36, 30_000
    stream, book = os.path.join(folder, "stream"), os.path.join(folder, "a.book")
    with open(stream, "w", encoding="ascii") as it:
        for number in range(1, 60_001):
            debit, credit = chosen.sample(range(accounts), 2)
            shown = ((0, number, 0, 0), (0, 0, 0, number))
            it.write(own(event(1_700_000_000 * 10**9 + number, first + debit, first + credit, shown)) + "\n")
    whole = run([stream], b"")
    check("a large stream", whole[0] == 0 and whole[1].count("\n") > 29_000, whole[1][:200])
    found = run([stream, "--book", book, "--every", "1000"], b"")
    check("its saves", len(interrupted.SAVED.findall(found[1])) == 61, len(interrupted.SAVED.findall(found[1])))
    check("its book", found[0] == 0 and found[1].endswith(whole[1]), found[1][:200])
    with open(book, "rb") as it:
        log = it.read()
    frames = framed(log)
    check("new bases replaced its records", 1 < len(frames) < 40, len(frames))
    check("its records hold what changed", max(map(len, frames[1:])) < len(frames[0]), [len(it) for it in frames])
    check("its log isn't over three times its book", len(log) < 3 * len(whole[1]) + 2**20, (len(log), len(whole[1])))
    again = run(["--book", book], b"")
    check("it goes on from its book", again[0] == 0 and again[1].endswith(whole[1]), again[1][:200])
    os.remove(stream)
    os.remove(book)


def saves(folder):
    """A regular file is saved after every N lines and at the end, however large it is; so is one at standard input."""
    lines = stream_of(1000)
    text = "".join(f"{it}\n" for it in lines).encode()
    file = os.path.join(folder, "stream")
    with open(file, "wb") as it:
        it.write(text)
    for every, count in (("7", 144), ("300", 4), ("1001", 2), ("1002", 1), ("1000000", 1)):
        for name, given, stream in (("a file", [file], b""), ("standard input", [], text)):
            book = os.path.join(folder, f"{every}.book")
            found = run([*given, "--chained", "--book", book, "--every", every], stream)
            times = len(interrupted.SAVED.findall(found[1]))
            check(f"the saves of {name} after every {every} lines", found[0] == 0 and times == count, (times, found[2]))
            os.remove(book)


def pipes(folder):
    """A pipe: of a slow one each line is saved before the next one is awaited; of one whose writer is ahead every N lines are,
    wherever a read ends. A run ends whatever the thread waits for that reads ahead."""
    first, second = chained(0, FIRST), chained(10, SECOND)
    for part in (slow, ahead, cut_lines, bad_lines):
        part(os.path.join(folder, part.__name__), first, second)


def slow(book, *lines):
    """Each line is written once the one before is reported as saved."""
    piped = Piped(["--chained", "--book", book, "--every", "1000000"])
    for line, saved in zip(lines, ("saved 10\n", "saved 20\n")):
        piped.write(f"{line}\n".encode())
        found = piped.line()
        check("a line of a slow pipe is saved before the next one is awaited", found == saved, found)
    piped.close()
    found = piped.ended()
    check("the end of a slow pipe", silent(found) == (0, "saved 20\n" + TWO), found)


def ahead(book, *_):
    """All is written while the save of the first line is held, and all is read ahead by then."""
    lines = [f"{chained(it - 1, event(it))}\n" for it in range(1, 502)]
    text = "".join(lines[1:]).encode()
    for every, saved in ((100, [1, 101, 201, 301, 401, 501, 501]), (300, [1, 301, 501]), (10**6, [1, 501])):
        piped = Piped(["--chained", "--book", book, "--every", str(every)], is_held=True)
        piped.write(lines[0].encode())
        piped.wait_for(book, b" applied 1 ")
        is_read = piped.write_ahead(text)
        piped.close()
        holding.wait_until_at_rest(piped.child)
        piped.release()
        status, printed, _ = piped.ended()
        times = [int(it) for it in interrupted.SAVED.findall(printed)]
        check(f"a pipe whose writer is ahead, every {every} lines", (is_read, status, times) == (True, 0, saved), (is_read, status, times))
        os.remove(book)


def cut_lines(book, first, second):
    """A part of a line is no line, so the lines before it are saved. At the end it is the last line."""
    half = len(second) // 2
    piped = Piped(["--chained", "--book", book])
    piped.write(f"{first}\n{second[:half]}".encode())
    found = piped.line()
    check("half a line comes, and the line before it is saved", found == "saved 10\n", found)
    piped.write(f"{second[half:]}\n".encode())
    found = piped.line()
    check("the other half comes", found == "saved 20\n", found)
    piped.write(first[:half].encode())
    piped.close()
    found = piped.ended()
    check("a pipe that ends in the middle of a line", found[:2] == (2, f"saved 20\n{TWO}fault: line 3: not_json\n"), found)
    os.remove(book)
    piped = Piped(["--chained", "--book", book])
    piped.write(f"{first}\n{second}".encode())
    found = piped.line()
    check("a line without its line feed is awaited", found == "saved 10\n", found)
    piped.close()
    found = piped.ended()
    check("a pipe that ends without a line feed", silent(found) == (0, "saved 20\n" + TWO), found)


def bad_lines(book, first, _):
    """A bad line ends the run while the pipe is open: the thread that reads ahead waits for bytes, or for room."""
    printed = f"saved 10\n{ONE}fault: line 2: not_json\n"
    piped = Piped(["--chained", "--book", book])
    piped.write(f"{first}\nx\n".encode())
    found = piped.ended()
    check("a bad line while the pipe is open", found[:2] == (2, printed), found)
    os.remove(book)
    piped = Piped(["--chained", "--book", book], is_held=True)
    piped.write(f"{first}\n".encode())
    piped.wait_for(book, b" applied 1 ")
    is_read = piped.write_ahead(b"x\n" * 2_000_000)
    check("what is read ahead is bounded", not is_read, is_read)
    piped.release()
    found = piped.ended()
    check("a bad line while more is waiting than is read ahead", found[:2] == (2, "saved 10\n" + printed), found)


def starved(folder):
    """The thread that reads a pipe ahead can't be started, or finds no memory."""
    if shutil.which("cc") is None:
        print(f"follow: not tried: a thread that can't be started: {needs.no_command('cc')}")
        return
    library = sweep.built_library(folder)
    for plan, why in (("thread:1", "no thread could be started"), ("on-thread:1:1", "no memory was left")):
        piped = Piped([], env=dict(os.environ, LD_PRELOAD=library, FAULT=plan))
        piped.write(f"{own(FIRST)}\n".encode())
        piped.close()
        found = piped.ended()
        errors = reported(found[2])[0]
        is_right = found[:2] == (1, "fault: out_of_memory\n") and errors == f"relayplum: out_of_memory: {why}\n"
        check(f"a pipe, refused {plan}", is_right, found)


def started(folder, library, call, arguments, stream):
    """A run in a folder that is held in a call, and the end of the pipe that holds it."""
    os.mkfifo(os.path.join(folder, "hold"))
    with open(os.path.join(folder, "stream"), "wb") as it:
        it.write(stream)
    child = subprocess.Popen(
        [commands.program, "follow", "stream", *arguments], cwd=folder, env=holding.environment(library, call=call),
        stdin=subprocess.DEVNULL, stdout=subprocess.PIPE, stderr=subprocess.PIPE,
    )
    return child, holding.wait_until_held(child, os.path.join(folder, "hold"))


def released(child, pipe):
    """The status and the standard output of a run that was held."""
    os.close(pipe)
    out, _ = child.communicate(timeout=commands.SECONDS)
    return child.returncode, out.decode()


def replaced(folder):
    """A follower that has opened a book, which another one replaces before it is locked, goes on with the new one. A book that
    something else puts in place during a save stays."""
    library = holding.library_in(folder, "follow", "books that are replaced")
    if library is None:
        return
    lines = stream_of(30)
    text = lambda given: "".join(f"{it}\n" for it in given).encode()
    whole = run(["--chained"], text(lines))[1]
    room = os.path.join(folder, "locked")
    os.mkdir(room)
    book = os.path.join(room, "a.book")
    run(["--chained", "--book", book], text(lines[:5]))
    child, pipe = started(room, library, "lock", ["--chained", "--book", "a.book"], text(lines[15:]))
    first = run(["--chained", "--book", book], text(lines[:15]))
    check("the first follower", first[0] == 0, first)
    found = released(child, pipe)
    check("the second follower goes on from the first one's book", found[0] == 0 and found[1].endswith(whole), found)
    room = os.path.join(folder, "saved")
    os.mkdir(room)
    book = os.path.join(room, "a.book")
    run(["--chained", "--book", book], text(lines[:5]))
    child, pipe = started(room, library, "sync", ["--chained", "--book", "a.book"], text(lines))
    before = open(book, "rb").read()
    with open(book + ".copy", "wb") as it:
        it.write(before)
    os.replace(book + ".copy", book)
    number = os.stat(book).st_ino
    found = released(child, pipe)
    check("a save into a book that was put in place", found == (1, "fault: store\n"), found)
    check("that book stays", os.stat(book).st_ino == number and open(book, "rb").read() == before, "")
    check("nothing is left beside it", "a.book.new" not in os.listdir(room), os.listdir(room))


def closed(folder):
    """With standard descriptors closed, a book, a state and a record hold what they hold otherwise: no message gets into them."""
    lines = [*stream_of(20), chained(5, event(10**6))]  # (standard error reports the first line and the last one)
    script = os.path.join(rooms.TOP, "examples", "two-phase.script")
    stream, bodies = os.path.join(folder, "stream"), os.path.join(folder, "bodies")
    with open(stream, "wb") as it:
        it.write(text_of(lines))
    messages = subprocess.run([commands.program, "messages", script], capture_output=True, check=True).stdout
    with open(bodies, "wb") as it:
        it.write(messages + b"x\n")
    book = books_of(lines, is_chained=False)[-1]
    for name, arguments, wanted in (
        ("book", ["follow", stream, "--book", "FILE", "--every", "3"], (3, book)),
        ("book in SQLite", ["follow", stream, "--book", "sqlite:FILE", "--every", "3"], (3, book)),
        ("book of nothing", ["follow", "--book", "FILE"], (0, (0, NOTHING))),
        ("book of nothing in SQLite", ["follow", "--book", "sqlite:FILE"], (0, (0, NOTHING))),
        ("state", ["audit", bodies, "--state", "FILE", "--every", "1"], None),
        ("record", ["run", script, "--progress", "FILE", "--close", "9:1"], None),
    ):
        open_one = ended_with(folder, arguments, ())
        if wanted:
            check(f"a {name} with none closed", (open_one[0], open_one[1][:2]) == wanted, open_one)
        for numbers_closed in ((0,), (1,), (2,), (0, 1), (0, 2), (1, 2), (0, 1, 2)):
            found = ended_with(folder, arguments, numbers_closed)
            check(f"a {name} with {numbers_closed} closed", found == open_one, (found, open_one))


def ended_with(folder, arguments, numbers_closed):
    """Of a run with these descriptors closed, and of one that goes on from its file: the status, what the file holds then, and the
    names in the folder."""
    path = os.path.join(folder, "kept")

    def close():
        for it in numbers_closed:
            os.close(it)

    found = []
    for _ in range(2):
        status = subprocess.run(
            [commands.program, *(it.replace("FILE", path) for it in arguments)], stdin=subprocess.DEVNULL,
            stdout=subprocess.DEVNULL, stderr=subprocess.DEVNULL, preexec_fn=close, timeout=commands.SECONDS, check=False,
        ).returncode
        found += [status, held_in(path), sorted(os.listdir(folder))]
    os.remove(path)
    return found


def held_in(path):
    """What a log or a book in SQLite holds: the timestamp of the last event seen, the text with its accounts, and what else SQL finds.
    Of another file all of it."""
    with open(path, "rb") as it:
        held = it.read()
    with contextlib.suppress(ValueError):
        if framed(held):
            return kept_in(path)
    if held.startswith(b"SQLite"):
        with contextlib.suppress(sqlite3.DatabaseError), contextlib.closing(sqlite3.connect(path)) as connection:
            ((text,),) = connection.execute("SELECT text FROM book").fetchall()
            head, _, rest = text.decode().split("\n", 2)
            accounts = connection.execute("SELECT id, debits_pending, debits_posted, credits_pending, credits_posted FROM accounts ORDER BY place")
            rest += "".join(f"account {' '.join(row)}\n" for row in accounts.fetchall())
            return int(head.split()[-1]), rest, connection.execute("PRAGMA integrity_check").fetchall(), list(connection.iterdump())
    return held


def books_of(lines, every=1, is_chained=True):
    """What a book may hold that is saved after so many lines each, and at the end, or before any: the timestamp of the last event
    seen, and the text."""
    model, books = Model(is_chained), [(0, NOTHING)]
    for number, line in enumerate(lines, 1):
        model.take(number, line)
        if number % every == 0 or number == len(lines):
            books.append((model.seen, model.text()))
    return books


def timestamp_of(line):
    """The timestamp of a line's event; of an end one above all."""
    value = json.loads(line)
    return GREATEST + 1 if "end" in value else int(value["body"]["timestamp"])


class InterruptedFollow(interrupted.Interrupted):
    """A stream whose book is saved after every three events."""

    every, rows = 3, 40

    def __init__(self, library, folder):
        self.lines = self.lines_of()
        self.stream = text_of(self.lines)
        self.books = self.books_of()
        self.timestamps = [timestamp_of(it) for it in self.lines]
        super().__init__(library, folder)

    def lines_of(self):
        return stream_of(12)

    def books_of(self):
        """What may be saved: a run that fails saves what it has followed."""
        return books_of(self.lines)

    def arguments(self, name):
        return ["--chained", "--book", self.path(name), "--every", str(self.every)]

    def wrong_of(self, name, saved):
        """A run over what comes after what was reported as saved comes to the book of the whole."""
        last = saved[-1] if saved else 0
        count = sum(it <= last for it in self.timestamps)
        return self.unlike(name, last) or self.wrong_from(self.path(name), text_of(self.lines[count:]))

    def wrong_of_kill(self, name, saved):
        """A run over the whole stream comes to its book."""
        return self.unlike(name, saved[-1] if saved else 0) or self.wrong_from(self.path(name), self.stream)

    def unlike(self, name, last):
        """What is found, if that is no book of the stream that has all up to a timestamp."""
        found = kept_in(self.path(name))
        return None if found in self.books and found[0] >= last else (last, found)

    def wrong_from(self, path, stream):
        """What is wrong after a run that goes on from what is there."""
        again = run(["--chained", "--book", path], stream)
        is_right = again[0] == 0 and again[1].endswith(self.books[-1][1]) and kept_in(path) == self.books[-1]
        is_right = is_right and not os.path.exists(f"{path}.new")
        os.remove(path)
        return None if is_right else again


class ReplacedLog(InterruptedFollow):
    """A stream whose last save replaces the log by a new base, since its records have over 1 MiB."""

    every, saves, most = 700, 6, 10**38
    is_killed_everywhere, rows = False, 0

    def books_of(self):
        return books_of(self.lines, self.every)

    def points(self, is_everywhere):
        """The calls of the last save: it opens a file, sets its mode, writes it and renames it."""
        points = super().points(is_everywhere)
        renames = sorted({it.changes for it in points if it.name == "rename"})
        check("the last save replaces the log", len(renames) == 3 and renames[-1] > 15, renames)
        return [it for it in points if renames[-1] - 3 <= it.changes <= renames[-1]]

    def lines_of(self):
        """Each account once between two saves, with numbers as long as they may be."""
        lines = []
        for it in range(1, self.every * self.saves + 1):
            debit, shown = self.most + 2 * it % (2 * self.every), [self.most + it] * 4
            lines.append(chained(it - 1, event(it, debit, debit + 1, (shown, shown))))
        return lines


def killed(folder):
    interrupted.check_all(InterruptedFollow, folder)
    room = os.path.join(folder, "replaced")
    os.mkdir(room)
    interrupted.check_kills(ReplacedLog, room)


def kept(folder):
    """What a save leaves of a book."""
    arguments = lambda path: ["--chained", "--every", "3", "--book", path]
    keeping.owned(folder, arguments, text_of(stream_of(10)))
    keeping.limited(folder, arguments, text_of(stream_of(40)))


def rivalry(folder):
    """Two followers over one book, in random starts."""
    lines = stream_of(4)
    left = [b"", b"book 0 by", b"book 0 bytes 87\nbook 1 chained yes seen 0\nbin"]
    rivals.check_all(rivals.Rivals(folder, lines, books_of(lines), kept_in, left), 0.9)


def memory(folder):
    """A stream ten times as long takes no more memory, beside a page or two."""
    most = []
    for count in (20_000, 200_000):
        file = os.path.join(folder, "long")
        with open(file, "w", encoding="ascii") as it:
            for number in range(1, count + 1):
                it.write(own(event(number)) + "\n")
        child = subprocess.Popen([commands.program, "follow", file], stdout=subprocess.PIPE, stderr=subprocess.DEVNULL)
        out = child.stdout.read()
        _, status, used = os.wait4(child.pid, 0)
        child.returncode = status
        check(f"{count} lines", status == 0 and out.startswith(b"subscriber 1 applied %d " % count), out)
        most.append(used.ru_maxrss)
        os.remove(file)
    check("memory doesn't grow", most[1] <= most[0] + 256, most)


def main(arguments):
    parts = [by_hand, counts, books, late_starts, meanings, logs, cuts, grown, saves, pipes, starved, replaced, closed, killed, kept, rivalry, memory]
    return commands.main(arguments, __doc__, "follow", parts, random_streams, STREAMS)


if __name__ == "__main__":
    ending.run(main)
