#!/usr/bin/env python3
"""What standard error reports of streams, books and arguments with errors: each whole line, by hand.

  tests/checks/stream_errors.py [PROGRAM]    PROGRAM: crates/cdc_app/out/cdc_app

- A stream that is pretty JSON, an array, of another encoding, compressed or a script; a message as text in another; a member
  with a value that can't stand there; in a file and through a pipe.
- A book or a state that isn't the one that is asked for, or can't be written: what it holds, what was asked, and why.
- Arguments: bindings, empty names, control characters.
- What it means that an audit refuses an event.

The last line is `stream_errors: N passed, M failed`; the status is 1 if one failed.
"""
import gzip
import json
import os
import subprocess
import sys

sys.dont_write_bytecode = True
sys.path.insert(0, os.path.join(os.path.dirname(os.path.realpath(__file__)), "..", "common"))
import checked
import ending

KINDS = "single_phase, two_phase_pending, two_phase_posted, two_phase_voided and two_phase_expired"
ONE_A_LINE = "one object a line is expected"
TO_2_128 = "a whole number from 0 to 2^128-1"
MOST_LINE = 65536
SCRIPT = "subscriber all\naccounts 1000\naccount id=1 ledger=700 code=10\n"


def account(number, **more):
    """Returns an account of an event."""
    sums = dict.fromkeys(("debits_pending", "debits_posted", "credits_pending", "credits_posted"), "0")
    data = {"user_data_128": "0", "user_data_64": "0", "user_data_32": 0}
    return {"id": str(number), **sums, **data, "code": 10, "flags": 0, "timestamp": str(999 + number), **more}


def event(timestamp, **more):
    """Returns an event: 5 is moved from account 1 to account 2, for the first time."""
    data = {"user_data_128": "0", "user_data_64": "0", "user_data_32": 0}
    transfer = {"id": str(timestamp), "amount": "5", "pending_id": "0", **data, "timeout": 0, "code": 1, "flags": 0}
    return {"timestamp": str(timestamp), "type": "single_phase", "ledger": 700,
            "transfer": {**transfer, "timestamp": str(timestamp)},
            "debit_account": account(1, debits_posted="5"), "credit_account": account(2, credits_posted="5"), **more}


def line_of(value):
    return json.dumps(value, separators=(",", ":")).encode() + b"\n"


def changed(part, **fields):
    """Returns an event with these fields in one of its parts."""
    whole = event(2000)
    return line_of({**whole, part: {**whole[part], **fields}})


def without(*names):
    return line_of({name: value for name, value in event(2000).items() if name not in names})


GOOD = line_of(event(2000))
PRETTY = json.dumps(event(2000), indent=2).encode() + b"\n"
# A stream, its flags, and where its error is, its name and its sentence.
STREAMS = [
    ("pretty JSON", [], PRETTY, "1:2: not_json: the line ends within an object, and one object a line is expected: "
     "`jq -c . FILE` makes them so"),
    ("an array, pretty", [], b"[\n" + PRETTY + b"]\n", f"1:1: not_json: an array begins here, and {ONE_A_LINE}: "
     "`jq -c '.[]' FILE` makes them so"),
    ("an array in a line", [], b"[" + GOOD[:-1] + b"]\n", f"1:1: not_an_object: an array begins here, and {ONE_A_LINE}: "
     "`jq -c '.[]' FILE` makes them so"),
    ("a long array in a line", [], b"[" + GOOD[:-1] * 200 + b"]\n", f"1:1: too_long: an array begins here, and {ONE_A_LINE}: "
     "`jq -c '.[]' FILE` makes them so"),
    ("a byte order mark", [], b"\xef\xbb\xbf" + GOOD, "1:1: not_json: the stream begins with a byte order mark, bytes 239, 187 "
     "and 191: save it without one"),
    ("UTF-16", [], b"\xff\xfe" + GOOD.decode().encode("utf-16-le"), "1:1: not_json: the stream is UTF-16: save it as UTF-8, "
     "without a byte order mark"),
    ("gzip", [], gzip.compress(GOOD, mtime=0), "1:1: not_json: this is gzip: `gzip -dc FILE` prints the stream that it holds"),
    ("a script", [], SCRIPT.encode(), "1:1: not_json: `subscriber` begins a line of a script, whose messages `relayplum messages "
     "FILE` prints"),
    ("a script's comment", [], b"# Ann pays\n" + SCRIPT.encode(), "1:1: not_json: `#` begins a line of a script, whose messages "
     "`relayplum messages FILE` prints"),
    ("another text", [], b"hello\n", f"1:1: not_json: `h` is unexpected here: {ONE_A_LINE.replace('one object', 'one JSON object')}"),
    ("a comma too many", [], GOOD + b'{"a":1,}\n', "2:8: not_json: `}` is unexpected here: one JSON object a line is expected"),
    ("a number", [], b"17\n", "1: not_an_object: the line is no JSON object"),
    ("payload as text", [], line_of({"payload_bytes": 9, "payload": GOOD.decode(), "payload_encoding": "string"}),
     "1: missing: payload is a text, and an event is expected: `jq -c '.payload | fromjson' FILE` prints the events"),
    ("body as text", [], line_of({"previous": "0", "body": GOOD.decode()}), "1: not_an_object: body is a text, and an object is "
     "expected: `jq -c '.body |= fromjson' FILE` makes it one"),
    ("an amount below 0", [], changed("transfer", amount=-5), f"1: wrong_type: transfer.amount is -5: {TO_2_128}"),
    ("an amount of 2^128", [], changed("transfer", amount=str(2**128)), f'1: out_of_range: transfer.amount is "{2**128}": {TO_2_128}'),
    ("an amount with a point", [], changed("transfer", amount=1.5), f"1: wrong_type: transfer.amount is 1.5: {TO_2_128}, and one "
     "above 2^64-1 stands in quotes"),
    ("a balance as a list", [], changed("debit_account", debits_posted=["5"]), f'1: wrong_type: debit_account.debits_posted is '
     f'["5"]: {TO_2_128}'),
    ("a code of 65536", [], changed("transfer", code=65536), "1: out_of_range: transfer.code is 65536: a whole number from 0 to 65535"),
    ("a ledger as null", [], line_of(event(2000, ledger=None)), "1: wrong_type: ledger is null: a whole number from 0 to 2^32-1"),
    ("no ledger", [], without("ledger"), "1: missing: ledger is missing: a whole number from 0 to 2^32-1"),
    ("an account as text", [], line_of(event(2000, debit_account="1")), '1: wrong_type: debit_account is "1": a JSON object'),
    ("a long value", [], changed("transfer", amount="x" * 100), f'1: wrong_type: transfer.amount is "{"x" * 59}..: {TO_2_128}'),
    ("a control character", [], changed("transfer", amount="\x7f\u009b31m"), "1: wrong_type: transfer.amount is "
     f'"\\u{{7f}}\\u{{9b}}31m": {TO_2_128}'),
    ("an unknown kind", [], line_of(event(2000, type="refund")), f'1: unknown_kind: type is "refund": one of {KINDS}'),
    ("a timestamp of 2^63", [], line_of(event(2**63)), f'1: out_of_range: timestamp is "{2**63}": a whole number from 0 to 2^63-1'),
    ("no previous", ["--chained"], GOOD, "1: missing: previous is missing: with --chained each line names the timestamp of the "
     "message before it in its queue, or \"0\"; `relayplum chain` adds it"),
    ("previous as a list", ["--chained"], line_of({"previous": [], "body": event(2000)}), "1: wrong_type: previous is []: a whole "
     "number from 0 to 2^64-1"),
    ("previous of 2^64", ["--chained"], line_of({"previous": str(2**64), "body": event(2000)}), f'1: out_of_range: previous is '
     f'"{2**64}": a whole number from 0 to 2^64-1'),
    ("a long line", [], b"{" + b" " * MOST_LINE + b"}\n", f"1: too_long: the line has more than {MOST_LINE} bytes, which a line has at "
     "most"),
]

# What an audit refuses by a rule, where the other commands have a line that is no event.
BY_RULE = {"a timestamp of 2^63": "1: timestamps: no ledger gives such a timestamp: it was changed"}


def streams(checks):
    """Each stream in a file, and through a pipe; the other commands report the same."""
    for what, flags, data, sentence in STREAMS:
        (checks.room / "stream").write_bytes(data)
        status, _, errors = checks.run(["follow", *flags, "stream"])
        lines = errors.splitlines()
        checks.same(f"{what}: the status and the sentence", (2, f"stream:{sentence}"), (status, lines[-1] if lines else ""))
        found = checks.piped(["follow", *flags, "-"], data).splitlines()
        checks.same(f"{what}: through a pipe", f"standard input:{sentence}", found[-1] if found else "")
        if not flags:
            for arguments in (["audit"], ["follow", "--checked"], ["chain", "--queue", "all"], ["follow", "--expect"]):
                errors = checks.run([*arguments, "stream"])[2].splitlines()
                wanted = BY_RULE.get(what, sentence) if arguments == ["audit"] else sentence
                checks.same(f"{what}: {' '.join(arguments)}", f"stream:{wanted}", errors[-1] if errors else "")


# How a book or a state is made, the command that can't use it, and what standard error reports.
BOOKS = [
    ("another binding", ["follow", "--book", "BOOK", "stream"], ["follow", "--book", "BOOK", "--binding", "all ledger=700"],
     "it is a book of --binding 'all', and --binding 'all ledger=700' is asked for: name its binding, or another file"),
    ("a chained book", ["follow", "--chained", "--book", "BOOK", "chained"], ["follow", "--book", "BOOK"],
     "it is a book of --chained, and one without it is asked for: name its options, or another file"),
    ("no chained book", ["follow", "--book", "BOOK", "stream"], ["follow", "--chained", "--book", "BOOK"],
     "it is a book without --chained, and one of --chained is asked for: name its options, or another file"),
    ("a checked book", ["follow", "--checked", "--book", "BOOK", "stream"], ["follow", "--book", "BOOK"],
     "it is a book of --checked, and one without it is asked for: name another file"),
    ("no checked book", ["follow", "--book", "BOOK", "stream"], ["follow", "--checked", "--book", "BOOK"],
     "it is a book without --checked, and one of --checked is asked for: name another file"),
    ("a checked book of another binding", ["follow", "--checked", "--book", "BOOK", "stream"],
     ["follow", "--checked", "--book", "BOOK", "--binding", "any ledger=1"],
     "it is a book of --binding 'all', and --binding 'any ledger=1' is asked for: name its binding, or another file"),
    ("a state of an audit", ["audit", "--state", "BOOK", "stream"], ["follow", "--book", "BOOK"],
     "it is the state of an audit, and a book is asked for: name another file"),
    ("a state of a chain", ["chain", "--queue", "all", "--state", "BOOK", "stream"], ["follow", "--book", "BOOK"],
     "it is the state of a chain, and a book is asked for: name another file"),
    ("a book for an audit", ["follow", "--book", "BOOK", "stream"], ["audit", "--state", "BOOK"],
     "it is a book, and the state of an audit is asked for: name another file"),
    ("a state with --foreign", ["audit", "--foreign", "--state", "BOOK", "stream"], ["audit", "--state", "BOOK"],
     "it is the state of an audit with --foreign, and one without it is asked for: name another file"),
    ("a state of other queues", ["chain", "--queue", "all", "--state", "BOOK", "stream"],
     ["chain", "--queue", "any ledger=1", "--state", "BOOK"],
     "it is the state of a chain of other queues, or damaged: name its queues in their order, or another file"),
    ("an SQLite book as a text file", ["follow", "--book", "sqlite:BOOK", "stream"], ["follow", "--book", "BOOK"],
     "it is an SQLite file, and a text file is asked for: a book in it is sqlite:FILE: name another file"),
    ("an SQLite book of another binding", ["follow", "--book", "sqlite:BOOK", "stream"],
     ["follow", "--book", "sqlite:BOOK", "--binding", "any ledger=1"],
     "it is a book of --binding 'all', and --binding 'any ledger=1' is asked for: name its binding, or another file"),
    ("an SQLite book that is chained", ["follow", "--chained", "--book", "sqlite:BOOK", "chained"],
     ["follow", "--book", "sqlite:BOOK"],
     "it is a book of --chained, and one without it is asked for: name its options, or another file"),
]


def books(checks):
    """A book or a state of another kind: what it holds, and what was asked."""
    (checks.room / "stream").write_bytes(GOOD)
    (checks.room / "chained").write_bytes(line_of({"previous": "0", "body": event(2000)}))
    for place, (what, made, asked, sentence) in enumerate(BOOKS):
        name = f"book-{place}"
        made, asked = ([it.replace("BOOK", name) for it in arguments] for arguments in (made, asked))
        checks.same(f"{what}: it is made", 0, checks.run(made)[0])
        shown = next(it for it in asked if it.endswith(name))
        status, _, errors = checks.run([*asked, "stream"])
        checks.same(what, (2, f"{shown}: store: bad_record: {sentence}\n"), (status, errors))
    for what, data, sentence in [
        ("a later version", b"book 2 chained no seen 0\nbinding all\n",
         "it is of version 2, and this program reads version 1: use the program that wrote it, or name another file"),
        ("a damaged book", b"book 1 chained no seen 7\nbinding all\nsubscriber 1 applied x\n", "it is a book that is damaged: name another file"),
        ("another text", b"hello\n", "it holds no book: name another file"),
    ]:
        (checks.room / "book").write_bytes(data)
        status, _, errors = checks.run(["follow", "--book", "book", "stream"])
        checks.same(what, (2, f"book: store: bad_record: {sentence}\n"), (status, errors))
    for name in ("none/x", "none/x.db"):
        for prefix in ("", "sqlite:"):
            status, _, errors = checks.run(["follow", "--book", f"{prefix}{name}", "stream"])
            wanted = f"{prefix}{name}: store: write_fault: No such file or directory (os error 2)\n"
            checks.same(f"--book {prefix}{name}", (1, wanted), (status, errors))
    errors = checks.run(["audit", "--state", "none/x", "stream"])[2]
    checks.same("--state none/x", "none/x: store: write_fault: No such file or directory (os error 2)\n", errors)


DIGITS = "a number is one or more digits from 0 to 9"
HEADERS = "event_type, ledger, transfer_code, debit_account_code and credit_account_code"
STARTS_WITH = "a binding starts with all or any, as in 'all ledger=700'"
ARGUMENTS = [
    (["follow", "--binding", "all ledger=two"], f"--binding all ledger=two: `two` as `ledger` is no number; {DIGITS}, and up to "
     "4294967295 here"),
    (["follow", "--binding", "all ledger=4294967296"], "--binding all ledger=4294967296: `4294967296` is too large: `ledger` is "
     "4294967295 at most"),
    (["follow", "--binding", "all legder=2"], "--binding all legder=2: `legder`: did you mean `ledger`?"),
    (["follow", "--binding", "all colour=2"], f"--binding all colour=2: `colour` is no header; these are {HEADERS}"),
    (["follow", "--binding", "all transfer_code=-1"], f"--binding all transfer_code=-1: `-1` as `transfer_code` has a sign; {DIGITS}, "
     "and up to 65535 here"),
    (["follow", "--binding", "all event_type=single_fase"], "--binding all event_type=single_fase: `single_fase`: did you mean "
     "`single_phase`?"),
    (["follow", "--binding", "al ledger=2"], f"--binding al ledger=2: {STARTS_WITH}"),
    (["follow", "--binding", "some"], f"--binding some: {STARTS_WITH}"),
    (["follow", "--binding", ""], f"--binding : {STARTS_WITH}"),
    (["chain", "--queue", "all ledger"], "--queue all ledger: `ledger` has no `=`; a pair is a header and its value, as `ledger=700`"),
    (["follow", "--book="], "--book : the name of a file is empty"),
    (["follow", "--book", "sqlite:"], "--book sqlite:: the name of a file is empty"),
    (["audit", "--state="], "--state : the name of a file is empty"),
    (["chain", "--queue", "all", "--state="], "--state : the name of a file is empty"),
    (["run", "--progress=", "-"], "--progress : the name of a file is empty"),
    (["follow", "--every", "\x1b[31mred"], "--every \\u{1b}[31mred: a number from 1 to 18446744073709551615"),
]


def arguments(checks):
    """Usage errors: the word, its value and what may stand there."""
    for given, sentence in ARGUMENTS:
        status, printed, errors = checks.run(given)
        wanted = f"error: {sentence}\n\nFor more information, try '--help'.\n"
        checks.same(f"arguments: {given}", (2, b"", wanted), (status, printed, errors))
    errors = checks.run(["simulate", "S"])[2]
    checks.same("simulate without steps", "For random steps: 'relayplum simulate S --random 1'.", errors.splitlines()[-1])
    name = "\x1b]0;title\x07"
    for given in (["follow", name], ["books", name], ["follow", "--book", f"{name}/x", "-"], ["simulate", name], [name],
                  ["follow", f"--{name}"], ["audit", "--state", f"{name}/x", "-"]):
        errors = checks.run(given)[2]
        is_shown = "\\u{1b}]0;title\\u{7}" in errors
        checks.same(f"control characters: {given}", (False, False, True), ("\x1b" in errors, "\x07" in errors, is_shown))


def refusals(checks):
    """What it means that an audit refuses an event."""
    later = event(3000, debit_account=account(1, debits_posted="10"), credit_account=account(2, credits_posted="10"))
    wrong = event(4000, debit_account=account(1, debits_posted="5"), credit_account=account(2, credits_posted="15"))
    for what, events, sentence in [
        ("a duplicate at once", [event(2000), event(2000)], "2: timestamps: the event before it has the same timestamp: one of them "
         "is a duplicate, which --duplicates skips"),
        ("a duplicate later", [event(2000), later, event(2000)], "3: timestamps: a later event came before it: it is a duplicate, "
         "which --duplicates skips, or it was moved"),
        ("an event of no transfer", [changed("transfer", code=0)], "1: shape: no ledger stores what it shows: it was changed"),
        ("a lost event", [event(2000), wrong], "2: balances: the balances don't follow from those before: an earlier event of the "
         "account was lost, moved or changed, or this one was"),
    ]:
        data = b"".join(it if isinstance(it, bytes) else line_of(it) for it in events)
        (checks.room / "audited").write_bytes(data)
        status, _, errors = checks.run(["audit", "audited"])
        checks.same(f"audit: {what}", (3, f"audited:{sentence}\n"), (status, errors))


class Stream_Errors(checked.Checks):
    """Runs of the program over streams, books and arguments with errors."""

    def __init__(self, program, room):
        super().__init__(program, room)
        self.room = checked.rooms.pathlib.Path(room)

    def piped(self, arguments, data):
        """Runs it over these bytes, which come through a pipe, and returns standard error."""
        done = subprocess.run([self.program, *arguments], cwd=self.room, input=data, capture_output=True, timeout=checked.SECONDS)
        return done.stderr.decode(errors="replace")


if __name__ == "__main__":
    ending.run(lambda given: checked.main(given, __doc__, Stream_Errors, (streams, books, arguments, refusals)))
