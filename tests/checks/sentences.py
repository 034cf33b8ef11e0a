#!/usr/bin/env python3
"""What standard error has, whole: the diagnostics and traces that no other check compares sentence by sentence.

  tests/checks/sentences.py [PROGRAM]    PROGRAM: crates/cdc_app/out/cdc_app

Each row has arguments, the exit status and all of standard error. Sentences on lines of scripts and step files are rows of
tests/checks/arguments/faults.rows, and those on files of progress are in tests/checks/hostile.py. Then which fault a command
reports, as text and as JSON: a read that fails isn't reported as out of memory, and a bad script comes before steps that
can't be read.

The last line is `sentences: N passed, M failed`; the status is 1 if one failed.
"""
import fcntl
import json
import os
import pty
import re
import select
import subprocess
import sys
import time

sys.dont_write_bytecode = True
sys.path.insert(0, os.path.join(os.path.dirname(os.path.realpath(__file__)), "..", "common"))
import checked
import ending

MORE = "\nFor more information, try '--help'.\n"
OPENED = "accounts 1000\naccount id=1 ledger=700 code=10\naccount id=2 ledger=700 code=10\n"
TRANSFER = "transfer id={} debit_account_id=1 credit_account_id=2 amount={} ledger=700 code=1{}\n".format
ONE = f"subscriber all\n{OPENED}transfers 2000\n{TRANSFER(1, 100, '')}"
TWO = f"subscriber all\n{OPENED}transfers 2000\n{TRANSFER(1, 5, '')}{TRANSFER(2, 7, '')}"
EXPIRES = f"subscriber all\n{OPENED}transfers 2000\n{TRANSFER(1, 5, '')}{TRANSFER(2, 7, ' flags=2 timeout=1')}pulse 1000002001\n"
FILES = {
    "one.script": ONE,
    "two.script": TWO,
    "expires.script": EXPIRES,
    "none.script": f"subscriber all\n{OPENED}",
    "bad.script": "subscriber all\naccounts x\n",
    "unsubscribed.script": OPENED,
    "long.script": "#" + "x" * 1_048_576,
    "none.steps": "",
    "batches.steps": "batch\n" * 3,
    "confirms.steps": "batch\nbatch\nclose_ledger\nstart\npublish\narrive 1\npoll\npublish\npublish\narrive 2\narrive 3\nanswer 3\n",
    "waits.steps": "batch\nbatch\nclose_ledger\nstart\npublish\narrive 1\npoll\npublish\npublish\npublish\n",
    # A chain that opens a pending transfer and posts more than it holds: as the chain isn't accepted, nothing is stored.
    "chain.script": f"subscriber all\n{OPENED}transfers 2000\n{TRANSFER(1, 5, ' flags=3')}transfer id=2 pending_id=1 amount=6 flags=4\n",
    "something": "something else\n",
}

# ---------------------------------------------------------------------------------------------------------------------
# Streams.

SIDES = (("debit_account", 1, ("0", "{0}", "0", "0")), ("credit_account", 2, ("0", "0", "0", "{0}")))
BALANCES = ("debits_pending", "debits_posted", "credits_pending", "credits_posted")


def body(timestamp, moved, posted):
    """The body of an event that moves an amount from account 1 to account 2, and comes to so much posted on each."""
    transfer = {"id": str(timestamp), "amount": str(moved), "pending_id": "0", "user_data_128": "0", "user_data_64": "0"}
    transfer.update({"user_data_32": 0, "timeout": 0, "code": 1, "flags": 0, "timestamp": str(timestamp)})
    found = {"timestamp": str(timestamp), "type": "single_phase", "ledger": 700, "transfer": transfer}
    for side, number, balances in SIDES:
        account = {"id": str(number), **{it: balance.format(posted) for it, balance in zip(BALANCES, balances)}}
        account.update({"user_data_128": "0", "user_data_64": "0", "user_data_32": 0, "code": 10, "flags": 0, "timestamp": str(number)})
        found[side] = account
    return found


def lines_of(*values):
    return "".join(json.dumps(it) + "\n" for it in values)


FILES["gap.stream"] = lines_of({"previous": "0", "body": body(10, 5, 5)}, {"previous": "15", "body": body(20, 5, 15)})
FILES["wrong.stream"] = lines_of(body(10, 5, 5), body(20, 5, 11))

# ---------------------------------------------------------------------------------------------------------------------
# Rows.

BOOK = (
    "write_fault: the book can't be written: the file and its folder have to be writable and to have room, nobody else may "
    "change the file, and a file at its name with .new appended has to be what a save left\n"
)
NO_BOOK = "bad_record: it holds no book: name another file\n"
NO_FOLDER = "write_fault: No such file or directory (os error 2)\n"
NO_FILE = "read_fault: it is no regular file: name another one\n"
UNOPENED = "read_fault: it can't be opened: name a file that can be read, or one that isn't there in a folder that is\n"
TAKEN = "read_fault: it can't be read, or another program has it: let that one end, or name another file\n"
LATE = "the broker accepted only"
BINDING = "a binding starts with all or any, as in 'all ledger=700'"


def counts_of(place, applied=0, gaps=0):
    """What `follow` reports of the lines of a stream."""
    return f"{place}: applied {applied}, duplicates 0, passed 0, gaps skipped {gaps}, lines skipped 0\n"


def rows():
    """Each row: the arguments, the status, and standard error."""
    yield ["books", b"\xff"], 2, "error: an argument is not UTF-8 text\n"
    yield ["simulate", "one.script", "-"], 1, "-: read_fault: No such file or directory (os error 2)\n"
    yield ["follow", "gap.stream", "--skip-gaps"], 2, f"error: --skip-gaps needs --chained or --checked\n{MORE}"
    for option, command, wrong, wanted in [
        ("--queue", ["messages", "one.script"], "9", "the number of a subscriber, from 1 to 8"),
        ("--repeat", ["run", "one.script"], "0:1", "a queue from 1, a colon and a position from 1, such as 1:2"),
        ("--close", ["run", "one.script"], "1", "a subscriber from 1, a colon and a number of events from 1, such as 1:2"),
        ("--binding", ["follow", "gap.stream"], "some", BINDING),
        ("--start-after", ["run", "one.script"], "x", "a timestamp in nanoseconds, from 0 to 9223372036854775807"),
        ("--lose-confirm", ["run", "one.script"], "0", "a number from 1 to 18446744073709551615"),
        ("--prefetch", ["run", "one.script"], "65", "a number from 1 to 64"),
        ("--busy", ["follow", "gap.stream"], "86401", "a number from 0 to 86400"),
        ("--after", ["follow", "gap.stream"], "0", "a timestamp in nanoseconds, from 1 to 9223372036854775807"),
    ]:
        yield [*command, option, wrong], 2, f"error: {option} {wrong}: {wanted}\n{MORE}"
    # A name can't move the cursor of a terminal, nor begin a line.
    odd, shown = "a\x1b[1m\nb", r"a\u{1b}[1m\u{a}b"
    for arguments in (["books", odd], ["messages", odd], ["follow", odd], ["audit", odd], ["simulate", "one.script", odd]):
        counts = counts_of(shown) if arguments[0] == "follow" else ""
        yield arguments, 1, f"{counts}{shown}: read_fault: No such file or directory (os error 2)\n"
    yield ["follow", "gap.stream", "--book", f"none/{odd}"], 1, f"none/{shown}: store: {NO_FOLDER}"
    diagram = "this file holds something else than a diagram, which would be lost; name another one"
    yield ["simulate", "one.script", "none.steps", "--diagram=something"], 2, f"error: --diagram=something: {diagram}\n"
    yield ["messages", "one.script", "--queue", "2"], 2, "relayplum: --queue 2: the script has no such subscriber\n"
    no_subscriber = "no_subscriber: the file has no line that begins with subscriber, as subscriber all\n"
    yield ["books", "unsubscribed.script"], 2, f"unsubscribed.script: {no_subscriber}"
    too_long = "too_long: the file has more bytes than a {} may have, which is 1048576\n"
    yield ["books", "long.script"], 2, f"long.script: {too_long.format('script')}"
    yield ["simulate", "one.script", "long.script"], 2, f"long.script: {too_long.format('step file')}"
    # The first publish is lost and sent again, so the broker accepts one less than reach it.
    yield ["run", "two.script", "--lose-publish", "1", "--lose-confirm", "4"], 0, f"relayplum: --lose-confirm 4: {LATE} 3 publishes\n"
    yield ["run", "none.script", "--lose-publish", "1", "--lose-confirm", "2"], 0, f"relayplum: --lose-confirm 2: {LATE} 1 publish\n"
    yield ["run", "one.script", "--close", "1:2"], 0, "relayplum: --close 1:2: subscriber 1 applied only 1 event\n"
    yield ["run", "one.script", "--close", "2:1"], 0, "relayplum: --close 2:1: there is no subscriber 2\n"
    yield ["run", "one.script", "--close", "9:1"], 0, "relayplum: --close 9:1: there is no subscriber 9\n"
    yield ["run", "one.script", "--repeat", "9:1"], 0, "relayplum: --repeat 9:1: there is no queue 9\n"
    # The closed subscriber receives one more event and the end mark.
    other = "the other 2 are end marks, or came after a close"
    line = f"subscriber 1: 3 deliveries, 1 applied, each once; 0 redelivered, applied no second time; {other}\n"
    yield ["run", "two.script", "--trace", "--close", "1:1"], 0, line
    left = "no batch is left of the script's 2"
    yield ["simulate", "one.script", "batches.steps"], 1, f"batches.steps:3: batch: not enabled: {left}\n"
    yield ["simulate", "two.script", "confirms.steps", "--window", "2"], 1, (
        "confirms.steps:12: answer 3: not enabled: only 2 confirms were ever sent\n"
    )
    yield ["simulate", "two.script", "waits.steps", "--window", "2"], 1, (
        "waits.steps:10: publish: not enabled: the end mark waits for 2 confirms, from that of tag 1 on\n"
    )
    posts = "24 exceeds_pending_transfer_amount: transfer 1, of its own chain, can't be posted or voided like that"
    yield ["books", "--explain", "chain.script"], 0, (
        f"chain.script:6: batch 2 transfer 1 (id 1): 38 linked_event_failed: transfer 2, in its chain, wasn't accepted: {posts}\n"
        f"chain.script:7: batch 2 transfer 2 (id 2): {posts}\n"
    )
    gap = "the message before this one in its queue has the timestamp 15, and the last one that came has 10"
    yield ["follow", "--chained", "gap.stream"], 3, (
        f"{counts_of('gap.stream', applied=1)}gap.stream:2: gap: {gap}: messages between them are missing\n"
    )
    yield ["audit", "wrong.stream"], 3, (
        "wrong.stream:2: balances: the balances don't follow from those before: an earlier event of the account was lost, moved "
        "or changed, or this one was\n"
    )
    follow = ["follow", "--chained", "gap.stream", "--skip-gaps", "--book"]
    yield [*follow, "."], 1, f".: store: {NO_FILE}"
    yield [*follow, "something/book"], 1, f"something/book: store: {UNOPENED}"
    yield [*follow, "/proc/self/mem"], 1, f"/proc/self/mem: store: {TAKEN}"
    yield [*follow, "nowhere/book"], 1, f"nowhere/book: store: {NO_FOLDER}"
    yield [*follow, "something"], 2, f"something: store: {NO_BOOK}"
    tip = "\nFor random steps: 'relayplum simulate one.script --random 1'.\n"
    usage = "error: the following required arguments were not provided:\n  <STEPS>\n"
    yield ["simulate", "one.script"], 2, (usage, tip)


# Steps, and the trace of each. Two events are offered at once, and no other one follows.
LAST_TWO = [
    ("batch", "batch 1, items 2, accepted 2, refused 0"),
    ("batch", "batch 2, items 2, accepted 2, refused 0"),
    ("close_ledger", "the ledger takes no more batches"),
    ("start", "session 1 begins after 0"),
    ("publish", "packet 1, connect of session 1"),
    ("arrive 1", "taken, session 1 is connected"),
    ("poll", "2 events, 2000 to 2001, the last ones"),
    ("publish", "packet 2, event 2000 under tag 1 of session 1, transfer 1, 5 from 1 to 2"),
    ("publish", "packet 3, event 2001 under tag 2 of session 1, transfer 2, 7 from 1 to 2"),
    ("arrive 3", "ignored, tag 1 comes first"),
    ("arrive 2", "taken, event 2000, transfer 1, 5 from 1 to 2"),
    ("arrive 3", "taken, event 2001, transfer 2, 7 from 1 to 2"),
    ("answer 1", "counted"),
    ("answer 2", "counted"),
    ("publish", "packet 4, end mark under tag 3"),
    ("arrive 4", "taken, end mark"),
    ("arrive 4", "ignored, its tag 3 was taken already"),
    ("send 1", "position 1, event 2000, transfer 1, 5 from 1 to 2"),
    ("send 1", "position 2, event 2001, transfer 2, 7 from 1 to 2"),
    ("send 1", "position 3, end mark"),
    ("rewind 1", "begins again at position 1"),
    ("take 1", "applied 2000, transfer 1, 5 from 1 to 2"),
    ("take 1", "applied 2001, transfer 2, 7 from 1 to 2"),
    ("take 1", "heard the end mark"),
    ("send 1", "position 1, event 2000, transfer 1, 5 from 1 to 2"),
    ("send 1", "position 2, event 2001, transfer 2, 7 from 1 to 2"),
    ("send 1", "position 3, end mark"),
    ("take 1", "repeat of 2000, transfer 1, 5 from 1 to 2"),
    ("take 1", "repeat of 2001, transfer 2, 7 from 1 to 2"),
    ("take 1", "repeat of the end mark"),
]
# A transfer expires by a pulse; a subscriber is closed and receives what comes after that.
CLOSED = [
    ("batch", "batch 1, items 2, accepted 2, refused 0"),
    ("batch", "batch 2, items 2, accepted 2, refused 0"),
    ("batch", "batch 3, a pulse, expired 1"),
    ("close_ledger", "the ledger takes no more batches"),
    ("start at 2000", "session 1 begins after 2000, events left out so far: 1"),
    ("publish", "packet 1, connect of session 1"),
    ("arrive 1", "taken, session 1 is connected"),
    ("poll", "2 events, 2001 to 1000002001, the last ones"),
    ("publish", "packet 2, event 2001 under tag 1 of session 1, transfer 2 pending, 7 from 1 to 2"),
    ("publish", "packet 3, event 1000002001 under tag 2 of session 1, transfer 2 expired, 7 from 1 to 2"),
    ("arrive 2", "taken, event 2001, transfer 2 pending, 7 from 1 to 2"),
    ("arrive 3", "taken, event 1000002001, transfer 2 expired, 7 from 1 to 2"),
    ("answer 2", "counted"),
    ("answer 1", "counted"),
    ("save", "session 1 is confirmed up to 1000002001"),
    ("publish", "packet 4, end mark under tag 3"),
    ("arrive 4", "taken, end mark"),
    ("send 1", "position 1, event 2001, transfer 2 pending, 7 from 1 to 2"),
    ("take 1", "applied 2001, transfer 2 pending, 7 from 1 to 2"),
    ("close 1", "the subscriber applies no more"),
    ("send 1", "position 2, event 1000002001, transfer 2 expired, 7 from 1 to 2"),
    ("send 1", "position 3, end mark"),
    ("take 1", "ignored, the subscriber is closed: event 1000002001, transfer 2 expired, 7 from 1 to 2"),
    ("take 1", "ignored, the subscriber is closed: end mark"),
]


class Sentences(checked.Checks):
    """The runs, and how they ended."""

    def __init__(self, program, room):
        super().__init__(program, room)
        for name, text in FILES.items():
            self.write(name, text)
        os.mkdir(f"{room}/folder")

    def write(self, name, text):
        with open(f"{self.room}/{name}", "w", encoding="ascii") as file:
            file.write(text)

    def run(self, arguments):
        status, printed, errors = super().run(arguments)
        return status, printed.decode(), errors

    def rows(self):
        for arguments, status, wanted in rows():
            found = self.run(arguments)
            what = " ".join(str(it) for it in arguments)
            if isinstance(wanted, tuple):
                # (the argument parser's own usage stands between)
                begins, ends = wanted
                self.same(what, (status, begins, ends), (found[0], found[2][: len(begins)], found[2][-len(ends) :]))
            else:
                self.same(what, (status, wanted), (found[0], found[2]))

    def held_book(self):
        """A book that another program has, and one that it has begun to save."""
        for name, why in (("book", TAKEN), ("book.new", BOOK)):
            self.run(["follow", "--chained", "--book", "book", "none.steps"])
            self.write("book.new", "")
            with open(f"{self.room}/{name}", "rb") as held:
                fcntl.flock(held, fcntl.LOCK_EX)
                found = self.run(["follow", "--chained", "gap.stream", "--skip-gaps", "--book", "book"])
            skipped = counts_of("gap.stream", applied=1, gaps=1) if name == "book.new" else ""
            self.same(f"{name} is locked", (1, "fault: store\n", f"{skipped}book: store: {why}"), found)

    def traces(self):
        # (the first one takes two events twice each)
        for script, steps, last in (
            ("two.script", LAST_TWO, ["relayplum: subscriber 1 applied 2 of 4 deliveries"]),
            ("expires.script", CLOSED, []),
        ):
            self.write("traced.steps", "".join(f"{step}\n" for step, _ in steps))
            status, _, errors = self.run(["simulate", script, "traced.steps", "--trace", "--window", "2"])
            wanted = [*(f"{step}: {it}" for step, it in steps), *last]
            self.same(f"a trace over {script}", (0, wanted), (status, errors.splitlines()))

    def watched(self):
        """On a terminal `follow` reports each second how many lines were read. Blank lines are written until it does."""
        typed, terminal = pty.openpty()
        how = {"stdin": subprocess.PIPE, "stdout": subprocess.PIPE, "stderr": terminal}
        with subprocess.Popen([self.program, "follow"], cwd=self.room, **how) as run:
            os.close(terminal)
            until, lines, errors = time.monotonic() + checked.SECONDS, 0, b""
            while b"\n" not in errors and time.monotonic() < until:
                run.stdin.write(b"\n")
                run.stdin.flush()
                lines += 1
                if select.select([typed], [], [], 0.05)[0]:
                    errors += os.read(typed, 4096)
            run.stdin.close()
            run.stdout.read()
        os.close(typed)
        found = re.match(rb"standard input: (\d+) lines read, (\d+) a second\r\n", errors)
        read, rate = map(int, found.groups()) if found else (0, 0)
        # (so many lines in one second, or in several)
        is_right = found is not None and 0 < read <= lines and rate in (read // it for it in range(1, checked.SECONDS))
        self.same("follow on a terminal", True, is_right or errors)

    # -- which fault

    def read_faults(self):
        """A folder as the file that a command reads first, or second."""
        commands = [
            ["books", "folder"],
            ["books", "--check", "folder"],
            ["messages", "folder"],
            ["messages", "--check", "folder"],
            ["messages", "--queue", "1", "folder"],
            ["simulate", "folder", "none.steps"],
            ["simulate", "one.script", "folder"],
            ["simulate", "--check", "folder", "none.steps"],
            ["simulate", "--check", "one.script", "folder"],
            ["simulate", "folder", "--random", "1"],
            ["run", "folder"],
            ["follow", "folder"],
            ["audit", "folder"],
        ]
        for command in commands:
            for form, fault in (([], "fault: read_fault\n"), (["--json"], '{"kind":"fault","name":"read_fault"}\n')):
                arguments = [*command, *form]
                status, printed, errors = self.run(arguments)
                self.same(" ".join(arguments), (1, fault), (status, printed[-len(fault) :]))
                counts = counts_of("folder") if arguments == ["follow", "folder"] else ""
                wanted = f"{counts}folder: read_fault: Is a directory (os error 21)\n"
                self.same(f"{' '.join(arguments)}: standard error", wanted, errors)

    def bad_script_first(self):
        """The script is validated before the steps are read: whatever the steps are, its fault is the one that is reported."""
        why = "bad.script:2:10: bad_number: `x` as `accounts` is no number; a number is one or more digits from 0 to 9\n"
        fault = '{"kind":"file_fault","file":"script","line":2,"column":10,"word":"x","name":"bad_number"}\n'
        for steps in ("folder", "nowhere", "long.script", "something", "none.steps"):
            for check in ([], ["--check"]):
                for form, wanted in (([], "fault: script line 2: bad_number\n"), (["--json"], fault)):
                    arguments = ["simulate", *check, *form, "bad.script", steps]
                    self.same(" ".join(arguments), (2, wanted, why), self.run(arguments))


def main(arguments):
    parts = [
        Sentences.rows,
        Sentences.held_book,
        Sentences.traces,
        Sentences.watched,
        Sentences.read_faults,
        Sentences.bad_script_first,
    ]
    return checked.main(arguments, __doc__, Sentences, parts)


if __name__ == "__main__":
    ending.run(main)
