"""The states that `audit --state` saves: their text, going on from them, and those that are killed and refused while they are saved.

Part of audit.py. By hand: the text of a state with every kind of line. Logs: each save but the first appends the lines since the
one before; a log that is cut anywhere is read up to its last whole frame. Cut: each stream of the rows by hand is cut at each line, a
long one at some, audited up to there with a state, and then from there on; it has to come to what the whole stream comes to. Files that are no
state are refused, and stay. Duplicates: a state doesn't have the lines that were skipped, and a stream may be delivered again from its first
event to an audit that is resumed. Killed: the program ends at each open, read, write, sync and rename of a stream with a state, and is
started again with the lines after the last one that was reported as saved, or that the state has; it has to come to the state of a
run without a stop. By signal 9 it is killed before each system call, and amid each write. Refused: each allocation and each of
these calls is refused in turn. Refused, and ends at calls of the C library, need `cc`; kills by signal 9 need Linux on x86-64.
"""
import concurrent.futures
import fcntl
import json
import os
import random
import re
import sys

sys.path.append(os.path.join(os.path.dirname(os.path.realpath(__file__)), "..", "faults"))
import audit
import interrupted
import keeping
from audit import END, EXPIRY, HELD, PAID, POST, SECOND, SINGLE, THREE, TIMED, UP, account, event, expiry, text_of, with_transfer
from commands import check, run
from frames import frame, framed
from piped import Piped

JOBS = 2  # runs at a time
MOST_CUTS, DRAWN_CUTS = 100, 20  # a stream with more lines is cut at so many drawn ones
STORE, OTHER = (1, "fault: store\n"), (2, "fault: store\n")  # a file that fails, or one that holds something else


def own(body):
    """A body as the program prints it."""
    return json.dumps(body, sort_keys=True, separators=(",", ":"))


def read(path):
    with open(path, "rb") as it:
        return it.read()


def write(path, content):
    with open(path, "wb") as it:
        it.write(content)


def base_of(text):
    """The text of a log that is a base with this state."""
    return frame(0, text, b"audit-state")


def parts_of(path):
    """The state in the base of a log, and the lines of each of its records."""
    base, *records = framed(read(path), b"audit-state")
    return base.decode(), [it.decode() for it in records]


def state_of(path, *arguments):
    """The state that a log holds, once it is read with these arguments and saved as a whole."""
    found = run([*arguments, "--state", path], b"")
    base, records = parts_of(path)
    check("a state that is read is saved as a whole", found[0] == 0 and not records, (found, records))
    return base


def texts():
    """Each row: what it is, the stream, the arguments, and the text of the state after it."""
    head = "audit-state 1 foreign no linked no\n"
    fields = "fields 1 0 0 0 700 1 0 1\nfields 2 0 0 0 700 1 0 2\n"
    yield "nothing", [], [], head + "subscriber 1 applied 0 last 0 ended no closed no\n"
    paid = "account 1 0 30 0 0\naccount 2 0 0 0 30\n"
    yield "one event", [PAID], [], (
        head + "subscriber 1 applied 1 last 10 ended no closed no\n" + paid + "plain 1\n" + fields + "time 10\n"
    )
    yield "an open transfer", [PAID, HELD], [], (
        head + "subscriber 1 applied 2 last 20 ended no closed no\naccount 1 10 30 0 0\naccount 2 0 0 10 30\n"
        "plain 1\nheld 2 10\nopen " + own(HELD) + "\n" + fields + "time 10\ntime 20\n"
    )
    yield "a post, and the end", [PAID, HELD, POST, END], [], (
        head + "subscriber 1 applied 3 last 30 ended yes closed no\naccount 1 0 34 0 0\naccount 2 0 0 0 34\n"
        "plain 1\nsettled 2 10\nplain 3\n" + fields + "time 10\ntime 20\ntime 30\n"
    )
    yield "an expiry", [PAID, TIMED, EXPIRY], [], (
        head + f"subscriber 1 applied 3 last {UP} ended no closed no\n" + paid
        + "expired " + own(EXPIRY) + "\nplain 1\nsettled 2 10\n" + fields + f"time 10\ntime 20\ntime {UP}\n"
    )
    linked = with_transfer(PAID, flags=1)
    yield "a chain", [linked], [], (
        "audit-state 1 foreign no linked yes\nsubscriber 1 applied 1 last 10 ended no closed no\n" + paid + "plain 1\n" + fields
        + "time 10\n"
    )
    second = with_transfer(event(11, 2, SINGLE, 1, (1, 0, 31, 0, 0), (2, 0, 0, 0, 31)), flags=1)
    yield "a chain of two so far", [linked, second], [], (
        "audit-state 1 foreign no linked yes 2\nsubscriber 1 applied 2 last 11 ended no closed no\n"
        "account 1 0 31 0 0\naccount 2 0 0 0 31\nplain 1\nplain 2\n" + fields + "time 10\ntime 11\n"
    )
    other = {**PAID, "debit_account": account(1, 0, 30, 0, 0, user_data_128="5", user_data_64="6", user_data_32=7, flags=24)}
    yield "another ledger's", [other], ["--foreign"], (
        "audit-state 1 foreign yes linked no\nsubscriber 1 applied 1 last 10 ended no closed no\n" + paid + "plain 1\n"
        "fields 1 5 6 7 700 1 8 1\nfields 2 0 0 0 700 1 0 2\ntime 10\n"
    )


def by_hand(folder):
    state = os.path.join(folder, "a.state")
    for name, stream, arguments, text in texts():
        found = run([*arguments, "--state", state], text_of(stream))
        check(f"a state's text: {name}", found[0] == 0 and state_of(state, *arguments) == text, (found, read(state)))
        last = re.search(r" last (\d+)", text).group(1)
        check(f"a state's last save: {name}", interrupted.SAVED.findall(found[1])[-1:] == [last], found)
        found = run([*arguments, "--state", state, "--book"], b"")
        kept = "".join(it for it in text.splitlines(True) if it.startswith(("subscriber", "account ")))
        check(f"a state that is read: {name}", found[0] == 0 and found[1].endswith(kept), found)
        check(f"a state that stays: {name}", read(state) == base_of(text.encode()), read(state))
        write(state, text.encode())
        check(f"a state that version 1.1 saved: {name}", state_of(state, *arguments) == text, read(state))
        os.remove(state)
    found = run(["--state", state, "--every", "1", "--json"], text_of([PAID]))
    lines = [json.loads(it) for it in found[1].splitlines()]
    check("a save as JSON", {"kind": "saved", "timestamp": "10"} in lines, found)
    check("nothing is left beside a state", sorted(os.listdir(folder)) == ["a.state"], os.listdir(folder))
    os.remove(state)


def without_saves(printed):
    return interrupted.SAVED.sub("", printed)


def logs(folder):
    """Each save but the first appends the lines since the one before, and a log that is cut is read up to its last whole frame."""
    events = [PAID, TIMED, THREE, expiry(30 + SECOND, TIMED, 5), expiry(30 + 2 * SECOND, THREE, 0), END, END]
    lines = [own(it) + "\n" for it in events]
    state, other = os.path.join(folder, "a.state"), os.path.join(folder, "other")
    stream = os.path.join(folder, "stream")
    write(stream, "".join(lines).encode())
    found = run([stream, "--state", state, "--every", "3"], b"")
    log = read(state)
    base, records = parts_of(state)
    check("a base and records", found[0] == 0 and records == ["".join(lines[3:6]), lines[6]], (found, records))
    wanted = []
    for count in (3, 6, 7):
        run(["--state", other], "".join(lines[:count]).encode())
        wanted.append(state_of(other))
        os.remove(other)
    check("a base is the state", base == wanted[0], (base, wanted[0]))
    ends = [log.index(b"\n", log.index(b"end %d bytes" % it)) + 1 for it in range(3)]
    for place in range(len(log) + 1):
        write(other, log[:place])
        whole = sum(end <= place for end in ends)
        if whole:
            check(f"a log that is cut at {place}", state_of(other) == wanted[whole - 1], place)
        else:
            found = run(["--state", other], b"")
            check(f"a base that is cut at {place}", found[:2] == OTHER and read(other) == log[:place], (place, found))
        os.remove(other)
    first, second = lines[0].encode(), lines[6].encode()
    size = log.index(b"\n", log.index(b"audit-state 2")) + 1
    for name, last, text in (
        ("zeros behind it", log + b"\0" * 40, wanted[2]),
        ("a book's frame behind it", log + b"book 3 bytes 2\nx\nend 3 bytes 2\n", wanted[2]),
        ("zeros in its last frame", log[:size] + b"\0" * len(second) + log[size + len(second) :], wanted[1]),
        ("a frame with another number", log.replace(b"audit-state 2 bytes", b"audit-state 3 bytes"), wanted[1]),
        ("no second record", log[: ends[0]] + log[ends[1] :], wanted[0]),
    ):
        write(other, last)
        check(f"a log with {name}", state_of(other) == text, name)
        os.remove(other)
    for name, content in (
        ("a record that isn't accepted before another one", base_of(base.encode()) + frame(1, first, b"audit-state") + frame(2, second, b"audit-state")),
        ("a base that is no state", base_of(b"book 1 chained no\n") + log[ends[0] :]),
        ("a base with a byte too many", base_of(base.encode() + b"\n") + log[ends[0] :]),
    ):
        write(other, content)
        found = run(["--state", other], b"")
        check(f"a log with {name}", found[:2] == OTHER and read(other) == content, found)
        os.remove(other)
    os.remove(state)


def places_in(stream):
    """Where a stream is cut: at each line. Of a long one, each run of which takes long: at its first and last lines, and at lines
    drawn by its length."""
    count = len(stream)
    if count <= MOST_CUTS:
        return range(count + 1)
    drawn = random.Random(count).sample(range(count), DRAWN_CUTS)
    return sorted({0, 1, 2, count - 2, count - 1, count, *drawn})


def cut(row):
    """What is wrong with a stream that is cut at some line and goes on."""
    number, folder, arguments, name, stream, printed, status = row
    for place in places_in(stream):
        state = os.path.join(folder, f"{number}.{place}")
        first = run([*arguments, "--state", state, "--every", "1"], text_of(stream[:place]))
        then = run([*arguments, "--state", state, "--every", "1", "--book"], text_of(stream[place:]))
        whole = run([*arguments, "--book"], text_of(stream))
        if first[0] == 0:
            # (the second part numbers its lines from 1)
            shown = without_saves(then[1])
            later = re.sub(r"(?m)^refused: line (\d+):", lambda it: f"refused: line {int(it[1]) + place}:", shown)
            if (then[0], later) != (status, whole[1]):
                return f"{name}, cut at {place}: {then!r}, not {whole!r}"
        elif (first[0], without_saves(first[1])) != (status, printed):
            return f"{name}, cut at {place}: {first!r}"
        os.remove(state)
    return None


def cuts(folder):
    """Each stream of the rows by hand is cut."""
    rows = [(folder, [], *row) for row in audit.rows()]
    rows += [(folder, ["--foreign"], *row) for row in audit.rows_of_another_ledger()]
    with concurrent.futures.ThreadPoolExecutor(JOBS) as pool:
        for complaint in pool.map(cut, [(number, *row) for number, row in enumerate(rows)]):
            check("a stream that is cut", complaint is None, complaint)


def refused(folder):
    """Files that are no state."""
    state = os.path.join(folder, "a.state")
    stream = [PAID, TIMED]
    run(["--state", state], text_of(stream))
    before = state_of(state).encode()
    found = run(["--foreign", "--state", state], b"")
    check("a state without --foreign", found[:2] == OTHER and f"{state}: store" in found[2], found)
    check("it stays", read(state) == base_of(before), before)
    plain, held = b"plain 1\n", b"held 2 10\n"
    for name, content in [
        ("empty", b""),
        ("a book", b"book 1 chained no seen 0\nbinding all\nsubscriber 1 applied 0 last 0 ended no closed no\n"),
        ("a progress record", b"tb-cdc 2 1 0 0\n"),
        ("a state that is cut", before[:-5]),
        ("a further blank line", before + b"\n"),
        ("an account twice", before.replace(b"account 2 0 0 10 30\n", b"account 2 0 0 10 30\naccount 2 0 0 10 30\n")),
        ("a transfer twice", before.replace(plain, plain + plain)),
        ("an open transfer twice", before.replace(b"fields 1", b"open " + own(TIMED).encode() + b"\nfields 1")),
        ("other fields twice", before + b"fields 2 0 0 0 700 1 0 1\n"),
        ("another order", before.replace(plain + held, b"").replace(b"fields 1", plain + held + b"fields 1")),
        ("a leading zero", before.replace(b"held 2 10", b"held 2 010")),
        ("a number past its width", before.replace(b"fields 1 0 0 0 700 1 0 1", b"fields 1 0 0 0 700 65536 0 1")),
        ("another version", before.replace(b"audit-state 1", b"audit-state 2")),
        ("an unknown line", before + b"more 1\n"),
        ("an open line that is no body", before.replace(b"open {", b"open [{")),
        ("a body with a space", before.replace(b'open {"', b'open { "')),
        ("a closed subscriber", before.replace(b"closed no", b"closed yes")),
    ]:
        check(f"another file: {name}", content != before, name)
        other = os.path.join(folder, "other")
        for kept in (content, base_of(content)):
            write(other, kept)
            found = run(["--state", other], text_of(stream))
            check(f"a state that is none: {name}", found[:2] == OTHER and f"{other}: store" in found[2], found)
            check(f"it stays: {name}", read(other) == kept, name)
            os.remove(other)
    check("a folder", run(["--state", folder], b"")[:2] == STORE, folder)
    check("no folder", run(["--state", os.path.join(folder, "no", "where")], b"")[:2] == STORE, folder)
    with open(state, "rb") as it:
        fcntl.flock(it, fcntl.LOCK_EX)
        check("a locked state", run(["--state", state], b"")[:2] == STORE, state)
    beside = state + ".new"
    write(beside, b"book 1 is mine\n")
    later = event(30, 3, audit.POSTED, 4, (1, 0, 34, 0, 0), (2, 0, 0, 0, 34), 2)
    check("a book beside a state", run(["--state", state], text_of([later]))[:2] == STORE, state)
    check("it stays, too", read(beside) == b"book 1 is mine\n" and read(state) == base_of(before), state)
    os.remove(beside)
    os.remove(state)
    for arguments in (["--every", "0"], ["--every", "x"], ["--state"]):
        found = run(arguments, b"")
        check(f"usage: {arguments}", found[0] == 2 and not found[1] and found[2].startswith("error: "), found)


def duplicates(folder):
    """With --duplicates a state has only what was audited, and a resumed audit skips what was audited before."""
    state, plain = os.path.join(folder, "a.state"), os.path.join(folder, "plain.state")
    events = [PAID, TIMED, THREE, expiry(30 + SECOND, TIMED, 5), expiry(30 + 2 * SECOND, THREE, 0)]
    lines = [own(it) + "\n" for it in events]
    skips = ["--duplicates", "--state", state, "--every", "1"]
    found = run(skips, "".join([lines[0], lines[0], lines[1], lines[0], lines[2], lines[1]]).encode())
    records = parts_of(state)[1]
    check("a skipped line isn't saved", found[0] == 0 and "".join(records) == "".join(lines[1:3]), (found, records))
    run(["--state", plain], "".join(lines[:3]).encode())
    check("a state without duplicates", state_of(state) == state_of(plain), read(state))
    found = run(skips, "".join(lines).encode())
    wanted = f"accepted 5 last {30 + 2 * SECOND}\nduplicates 3\n"
    check("what was audited before is skipped", (found[0], without_saves(found[1])) == (0, wanted), found)
    run(["--state", plain], "".join(lines[3:]).encode())
    check("a resumed state without duplicates", state_of(state) == state_of(plain), read(state))
    before = state_of(state)
    found = run(["--state", state], "".join(lines).encode())
    refused = "refused: line 1: timestamps: 10, after " + str(30 + 2 * SECOND) + "\n"
    check("without the flag it is refused", found[0] == 3 and found[1].endswith(refused), found)
    check("a state of such a refusal", state_of(state) == before, read(state))
    for place in range(len(lines) + 1):
        other = os.path.join(folder, "other")
        first = ["--duplicates", "--state", other, "--every", "2"]
        run(first, "".join(lines[:place]).encode())
        found = run(first, "".join(lines).encode())
        wanted = f"accepted 5 last {30 + 2 * SECOND}\nduplicates {place}\n"
        check(f"a redelivery after {place} events", (found[0], without_saves(found[1])) == (0, wanted), found)
        check(f"its state after {place} events", state_of(other) == before, read(other))
        os.remove(other)
    os.remove(state)
    os.remove(plain)


def slow(folder):
    """Each line of a pipe is saved before the next one is awaited."""
    piped = Piped(["--state", os.path.join(folder, "a.state"), "--every", "1000000"])
    for given, saved in ((PAID, "saved 10\n"), (HELD, "saved 20\n"), (POST, "saved 30\n"), (END, "saved 30\n")):
        piped.write(text_of([given]))
        found = piped.line()
        check("an event of a slow pipe is saved before the next one is awaited", found == saved, found)
    piped.close()
    found = piped.ended()
    check("the end of a slow pipe", found == (0, "saved 30\naccepted 3 last 30\n", ""), found)


def last_in(path):
    """The timestamp of the last event of a log, perhaps with a torn end."""
    base, *records = framed(read(path), b"audit-state", is_cut=True)
    stamps = [json.loads(it).get("timestamp", 0) for record in records for it in record.splitlines()]
    return max(int(it) for it in [re.search(rb" last (\d+) ", base).group(1), *stamps])


class InterruptedAudit(interrupted.Interrupted):
    """An audit that saves its state after each event."""

    def __init__(self, library, folder):
        self.events = [PAID, TIMED, THREE, expiry(30 + SECOND, TIMED, 5), expiry(30 + 2 * SECOND, THREE, 0)]
        self.stream = text_of(self.events)
        whole = os.path.join(folder, "whole")
        self.whole = run(["--book", "--state", whole], self.stream)
        self.state = state_of(whole)
        super().__init__(library, folder)

    def arguments(self, name):
        return ["--state", self.path(name), "--every", "1"]

    def wrong_of(self, name, saved):
        """The state has every event that was reported as saved; with those after its last one it comes to the whole."""
        path = self.path(name)
        last = last_in(path) if os.path.exists(path) else 0
        again = run(["--book", "--state", path], text_of([it for it in self.events if int(it["timestamp"]) > last]))
        is_whole = again[0] == 0 and without_saves(again[1]) == without_saves(self.whole[1]) and state_of(path) == self.state
        return None if last >= max(saved, default=0) and is_whole else (last, again)


def killed(folder):
    interrupted.check_all(InterruptedAudit, folder)


def kept(folder):
    """What a save leaves of a state. (The second run of those that keep an owner has no line, since an audit refuses duplicates.)"""
    arguments = lambda path: ["--every", "1", "--state", path]
    keeping.owned(folder, arguments, b"")
    keeping.limited(folder, arguments, text_of([PAID, TIMED, THREE]))


def states(folder):
    for part in (by_hand, logs, cuts, duplicates, slow, refused, killed, kept):
        room = os.path.join(folder, f"state-{part.__name__}")
        os.mkdir(room)
        part(room)
