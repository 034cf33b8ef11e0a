#!/usr/bin/env python3
"""The command follow with a book in an SQLite file: what SQL finds there, beside whom it saves, and saves that are killed.

  tests/checks/sqlite_books.py [PROGRAM] [--soak]    PROGRAM: crates/cdc_app/out/cdc_app

What a book has to hold comes from the model of follow.py, and is read by Python's own sqlite3. What the rows have of accounts besides
balances is also compared with rows by hand, of events at real sizes. Other files are refused, and stay as they are. A book keeps its
mode and owner, and a save that meets a limit on sizes is a failed one. A program that has the file open, and reads nothing at that time, keeps no save waiting; one amid its rows does. Killed and
refused: the program ends at each open, read, write and sync of a stream with a book, or one of these is refused; sqlite3 has to find
a whole book, of what was reported as saved or of later events, and following goes on to the book of a run without a stop. The same of
runs that are killed by signal 9 before each system call that changes something, and amid each write. Rivalry: 50 pairs of followers
over one book, whose system calls come in a random order; one is refused, or both follow.

Refused, and ends at calls of the C library, need a C compiler, `cc`; kills by signal 9 and Rivalry need Linux on x86-64. --soak kills
before every system call, and tries 1,000 pairs. The last line is `sqlite_books: N passed, M failed`; the status is 1 where one failed.
"""
import contextlib
import fcntl
import json
import os
import resource
import shutil
import signal
import sqlite3
import subprocess
import sys

sys.dont_write_bytecode = True
sys.path += [os.path.join(os.path.dirname(os.path.realpath(__file__)), "..", it) for it in ("common", "faults")]
import commands
import ending
import follow
import frames
import interrupted
import keeping
import rivals
import rooms
from commands import check, run

BALANCES = "debits_pending, debits_posted, credits_pending, credits_posted"
DETAILS = "last_timestamp, ledger, code, flags, user_data_128, user_data_64, user_data_32"
UNKNOWN = (None,) * 7
EVERY = 40  # of the allocations, one in so many is refused
REFUSED, OTHER = (1, "fault: store\n"), (2, "fault: store\n")  # a file that fails, or one that holds something else
WAITS = b"another program is reading the book"


def text_of(lines):
    return "".join(f"{it}\n" for it in lines).encode()


class Detailed(follow.Model):
    """A follower of a chained stream, and what the last event that has an account shows of it besides its balances."""

    def __init__(self):
        super().__init__(True)
        self.details = {}

    def take(self, number, line):
        applied = self.applied
        found = super().take(number, line)
        if self.applied > applied:
            body = json.loads(line)["body"]
            for side in ("debit_account", "credit_account"):
                self.details[int(body[side]["id"])] = details_of(body, body[side])
        return found


def details_of(body, shown):
    """What an event shows of this account, as a row has it."""
    small = [int(it) for it in (body["ledger"], shown["code"], shown["flags"])]
    great = [str(shown[name]) for name in ("user_data_128", "user_data_64")]
    return (str(body["timestamp"]), *small, *great, int(shown["user_data_32"]))


def model_of(lines, unknown=0):
    """The model after these lines, where what the first ones show besides balances isn't known."""
    model = Detailed()
    for number, line in enumerate(lines, 1):
        model.take(number, line)
        if number == unknown:
            model.details.clear()
    return model


def expected(model):
    """The rows that the tables have to hold."""
    names = BALANCES.split(", ")
    row_of = lambda id, shown: (str(id), *(str(shown[name]) for name in names), *model.details.get(id, UNKNOWN))
    return (str(model.last), str(model.applied)), [row_of(id, shown) for id, shown in model.book.items()]


def heading_of(model):
    """The lines of a book's text that `book` has: all but those of the accounts."""
    return "".join(it for it in model.text().splitlines(True) if not it.startswith("account "))


def rows_in(connection):
    """The row of the book without its text, the accounts, and the text."""
    ((last, applied, text),) = connection.execute("SELECT last, applied, text FROM book").fetchall()
    accounts = connection.execute(f"SELECT id, {BALANCES}, {DETAILS} FROM accounts ORDER BY place").fetchall()
    return ((last, applied), accounts), text.decode()


def rows_of(path):
    with contextlib.closing(sqlite3.connect(path)) as connection:
        assert connection.execute("PRAGMA integrity_check").fetchall() == [("ok",)]
        return rows_in(connection)


def folder_of(path):
    """What a folder holds, by name."""
    return {name: open(os.path.join(path, name), "rb").read() for name in sorted(os.listdir(path))}


# ---------------------------------------------------------------------------------------------------------------------
# Tables.


def tables(folder):
    """What SQL finds after a run, and after one that goes on."""
    lines = follow.stream_of(30)
    path, text_path = os.path.join(folder, "a.db"), os.path.join(folder, "a.book")
    for part in (lines[:12], lines):
        found = run(["--chained", "--book", f"sqlite:{path}", "--every", "7"], text_of(part))
        in_text = run(["--chained", "--book", text_path, "--every", "7"], text_of(part))
        check("a run with a book in SQLite", found[0] == 0 and found == in_text, (found, in_text))
        rows, text = rows_of(path)
        check("its tables", rows == expected(model_of(part)), rows)
        whole = os.path.join(folder, "whole.book")
        run(["--chained", "--book", whole], text_of(part))
        with open(whole, "rb") as it:
            lines_of = [line for line in frames.framed(it.read())[0].decode().splitlines(True) if not line.startswith("account ")]
            check("its text", text == "rows " + "".join(lines_of), text)
        os.remove(whole)
        check("nothing is left beside it", sorted(os.listdir(folder)) == ["a.book", "a.db"], os.listdir(folder))
        check("its journal", open(path, "rb").read()[18:20] == b"\1\1", "")
    before = folder_of(folder)
    for wrong in (["--book", f"sqlite:{path}"], ["--chained", "--binding", "all ledger=700", "--book", f"sqlite:{path}"]):
        found = run(wrong, text_of(lines))
        check("a book of another stream", found[:2] == OTHER and f"sqlite:{path}: store" in found[2], found)
        check("it stays", folder_of(folder) == before, wrong)
    link = os.path.join(folder, "link")
    os.symlink(path, link)
    found = run(["--chained", "--book", f"sqlite:{link}"], text_of(lines))
    check("a book behind a link", found[0] == 0 and os.path.islink(link) and sorted(os.listdir(folder)) == ["a.book", "a.db", "link"], found)


# ---------------------------------------------------------------------------------------------------------------------
# Other files.


def made(path, *statements):
    with contextlib.closing(sqlite3.connect(path)) as connection:
        for it in statements:
            connection.execute(it)
        connection.commit()


def others(folder):
    """Files that hold no book are refused, and stay as they are, with nothing beside them."""
    lines = follow.stream_of(6)
    room = os.path.join(folder, "room")
    for name, make in [
        ("a text", lambda path: open(path, "w", encoding="ascii").write("book 1 chained yes seen 0\n")),
        ("a longer text", lambda path: open(path, "w", encoding="ascii").write("SQLite format 2\n" * 1000)),
        ("nothing", lambda path: open(path, "wb").close()),
        ("a byte", lambda path: open(path, "wb").write(b"S")),
        ("no page", lambda path: open(path, "wb").write(b"SQLite format 3\0")),
        ("no header", lambda path: open(path, "wb").write(b"SQLite format 3\0" + bytes(8176))),
        ("a table", lambda path: made(path, "CREATE TABLE note (id INTEGER PRIMARY KEY, title TEXT)", "INSERT INTO note VALUES (1, 'a')")),
        ("a table in WAL mode", lambda path: made(path, "PRAGMA journal_mode = WAL", "CREATE TABLE note (title TEXT)")),
        ("a view", lambda path: made(path, "CREATE VIEW note AS SELECT 1")),
        ("a table of that name", lambda path: made(path, "CREATE TABLE book (id INTEGER PRIMARY KEY, text BLOB)")),
        ("two others", lambda path: made(path, "CREATE TABLE book (id INTEGER PRIMARY KEY)", "CREATE TABLE accounts (id TEXT)")),
        ("another text", lambda path: made(path, "CREATE TABLE book (text BLOB)", "CREATE TABLE accounts (id TEXT)", "INSERT INTO book VALUES (x'00')")),
    ]:
        os.mkdir(room)
        path = os.path.join(room, "a.db")
        make(path)
        before = folder_of(room)
        found = run(["--chained", "--book", f"sqlite:{path}"], text_of(lines))
        check(f"a file that holds no book: {name}", found[:2] == OTHER and f"sqlite:{path}: store" in found[2], found)
        check(f"it stays: {name}", folder_of(room) == before, (name, sorted(os.listdir(room))))
        shutil.rmtree(room)
    for name, statement in [
        ("a table", "CREATE TABLE note (title TEXT)"),
        ("an index", "CREATE INDEX of_ids ON accounts (id)"),
        ("a view", "CREATE VIEW ids AS SELECT id FROM accounts"),
        ("a trigger", "CREATE TRIGGER of_rows AFTER INSERT ON accounts BEGIN SELECT 1; END"),
    ]:
        os.mkdir(room)
        path = os.path.join(room, "a.db")
        run(["--chained", "--book", f"sqlite:{path}"], text_of(lines[:3]))
        made(path, statement)
        before = folder_of(room)
        found = run(["--chained", "--book", f"sqlite:{path}"], text_of(lines))
        check(f"a book that has more: {name}", found[:2] == OTHER and f"sqlite:{path}: store" in found[2], found)
        check(f"it stays: {name}", folder_of(room) == before, (name, sorted(os.listdir(room))))
        shutil.rmtree(room)
    os.mkdir(room)
    path = os.path.join(room, "a.db")
    found = run(["--chained", "--book", f"sqlite:{path}"], text_of(lines))
    check("a file that isn't there", found[0] == 0 and rows_of(path)[0] == expected(model_of(lines)), found)
    before = folder_of(room)
    with open(path, "rb") as held:
        fcntl.flock(held, fcntl.LOCK_EX)
        found = run(["--chained", "--book", f"sqlite:{path}"], text_of(lines))
        check("a book that another follower has", found[:2] == REFUSED, found)
    with contextlib.closing(sqlite3.connect(path, isolation_level=None)) as connection:
        connection.execute("BEGIN EXCLUSIVE")
        found = run(["--chained", "--book", f"sqlite:{path}"], text_of(lines))
        check("a book that another program writes", found[:2] == REFUSED, found)
    check("it stays as it was", folder_of(room) == before, sorted(os.listdir(room)))
    found = run(["--chained", "--book", f"sqlite:{room}"], b"")
    check("a folder", found[:2] == REFUSED and "regular file" in found[2], found)
    found = run(["--chained", "--book", f"sqlite:{os.path.join(folder, 'no', 'where')}"], b"")
    check("a book in no folder", found[:2] == REFUSED, found)


def without_details(path):
    """Makes the table of the accounts one of earlier versions."""
    columns = f"id TEXT NOT NULL, {BALANCES.replace(',', ' TEXT NOT NULL,')} TEXT NOT NULL"
    made(
        path,
        "ALTER TABLE accounts RENAME TO later",
        f"CREATE TABLE accounts (place INTEGER PRIMARY KEY, {columns}) STRICT",
        f"INSERT INTO accounts SELECT place, id, {BALANCES} FROM later",
        "DROP TABLE later",
    )


def earlier(folder):
    """A book as an earlier version saved it is read, and the first save makes it one of today's: one whose accounts lack the columns
    for details, and one whose text has the accounts, too, as version 1.1 saved it."""
    lines = follow.stream_of(30)
    path, text_path = os.path.join(folder, "a.db"), os.path.join(folder, "a.book")
    run(["--chained", "--book", text_path], text_of(lines[:12]))
    with open(text_path, "rb") as it:
        text = frames.framed(it.read())[0]
    for name, statements in [("without details", []), ("of version 1.1", [f"UPDATE book SET text = x'{text.hex()}'"])]:
        run(["--chained", "--book", f"sqlite:{path}"], text_of(lines[:12]))
        without_details(path)
        made(path, *statements)
        found = run(["--chained", "--book", f"sqlite:{path}"], b"")
        rows, text = rows_of(path)
        check(f"a book {name}", found[0] == 0 and rows == expected(model_of(lines[:12], unknown=12)), (found, rows))
        check(f"its text is one without accounts then: {name}", text.startswith("rows book 1 ") and "account " not in text, text)
        found = run(["--chained", "--book", f"sqlite:{path}", "--every", "5"], text_of(lines))
        check(f"it goes on: {name}", found[0] == 0 and rows_of(path)[0] == expected(model_of(lines, unknown=12)), found)
        os.remove(path)
    run(["--chained", "--book", f"sqlite:{path}"], text_of(lines[:12]))
    for name, statement in [
        ("a part of the details", "UPDATE accounts SET code = NULL WHERE place = 1"),
        ("a timestamp with a leading zero", "UPDATE accounts SET last_timestamp = '0' || last_timestamp WHERE place = 1"),
        ("a code that is too large", "UPDATE accounts SET code = 65536 WHERE place = 1"),
        ("a balance of 129 bits", f"UPDATE accounts SET debits_posted = '{2**128}' WHERE place = 1"),
        ("a balance with a sign", "UPDATE accounts SET debits_posted = '+' || debits_posted WHERE place = 1"),
        ("a timestamp of 65 bits", f"UPDATE accounts SET last_timestamp = '{2**64}' WHERE place = 1"),
        ("an account that is there twice", "UPDATE accounts SET id = (SELECT id FROM accounts WHERE place = 1) WHERE place = 2"),
        ("no row of the first account", "DELETE FROM accounts WHERE place = 1"),
        ("no row of an account between two others", "DELETE FROM accounts WHERE place = 2"),
        ("a row at place 0", "UPDATE accounts SET place = 0 WHERE place = (SELECT max(place) FROM accounts)"),
        ("a row below place 0", "UPDATE accounts SET place = -3 WHERE place = (SELECT max(place) FROM accounts)"),
        ("a row at a later place", "UPDATE accounts SET place = place + 1 WHERE place = (SELECT max(place) FROM accounts)"),
        ("a text of another version", "UPDATE book SET text = CAST(replace(CAST(text AS TEXT), 'book 1 ', 'book 2 ') AS BLOB)"),
        ("a text with another mark", "UPDATE book SET text = CAST('row' || substr(CAST(text AS TEXT), 5) AS BLOB)"),
        ("no text", "DELETE FROM book"),
    ]:
        other = os.path.join(folder, "other.db")
        shutil.copy(path, other)
        made(other, statement)
        found = run(["--chained", "--book", f"sqlite:{other}"], b"")
        check(f"a book that is none: {name}", found[:2] == OTHER, found)


# Accounts with numbers of 37 digits.
A, B, C = 10**36 + 1, 10**36 + 2, 9 * 10**36 + 3
START = 1780000000000000000  # a timestamp of 19 digits


def shown(id, balances, code, flags, great, middle, small):
    names = BALANCES.split(", ")
    data = {"user_data_128": str(great), "user_data_64": str(middle), "user_data_32": small, "code": code, "flags": flags}
    return {"id": str(id), **dict(zip(names, map(str, balances))), **data, "timestamp": str(START)}


def details(folder):
    """What the rows have of accounts besides balances, by hand: of each account what the last event that was applied shows of it, and
    of one event with the same account on both sides what the credited side shows."""
    path = os.path.join(folder, "a.db")
    largest = (2**16 - 1, 2**16 - 1, 2**128 - 1, 2**64 - 1, 2**32 - 1)

    def event(after, debited, credited, ledger):
        body = follow.event(START + after, ledger=ledger)
        return {**body, "debit_account": debited, "credit_account": credited}

    first = event(1, shown(A, (0, 5, 0, 0), 1, 2, 3, 4, 5), shown(B, (0, 0, 0, 5), *largest), 2**32 - 1)
    second = event(2, shown(B, (0, 6, 0, 5), 6, 7, 8, 9, 10), shown(C, (0, 0, 0, 6), 11, 12, 13, 14, 15), 16)
    same = event(3, shown(C, (1, 0, 0, 6), 17, 18, 19, 20, 21), shown(C, (1, 0, 1, 6), 22, 23, 24, 25, 26), 27)
    late = event(1, shown(A, (9, 9, 9, 9), 28, 29, 30, 31, 32), shown(C, (9, 9, 9, 9), 33, 34, 35, 36, 37), 38)
    skipped = event(5, shown(A, (9, 9, 9, 9), 39, 40, 41, 42, 43), shown(B, (9, 9, 9, 9), 44, 45, 46, 47, 48), 49)
    row_a = (str(A), "0", "5", "0", "0", str(START + 1), 2**32 - 1, 1, 2, "3", "4", 5)
    row_b = (str(B), "0", "0", "0", "5", str(START + 1), 2**32 - 1, 2**16 - 1, 2**16 - 1, str(2**128 - 1), str(2**64 - 1), 2**32 - 1)
    later_b = (str(B), "0", "6", "0", "5", str(START + 2), 16, 6, 7, "8", "9", 10)
    row_c = (str(C), "0", "0", "0", "6", str(START + 2), 16, 11, 12, "13", "14", 15)
    later_c = (str(C), "1", "0", "1", "6", str(START + 3), 27, 22, 23, "24", "25", 26)
    one, two = follow.chained(0, first), follow.chained(START + 1, second)
    three, four = follow.chained(START + 2, same), follow.chained(0, late)
    gap = follow.chained(START + 4, skipped)
    of_two, of_all = [row_a, later_b, row_c], [row_a, later_b, later_c]
    for name, runs in [
        ("of one event", [([one], [row_a, row_b])]),
        ("in one run, saved once", [([one, two, three, four], of_all)]),
        ("in runs of one event", [([one], [row_a, row_b]), ([two], of_two), ([three], of_all), ([four], of_all), ([], of_all)]),
        ("after a gap that is skipped", [([one, two], of_two), ([gap, three], of_all)]),
    ]:
        for every in ("1", "1000"):
            for lines, rows in runs:
                found = run(["--chained", "--skip-gaps", "--book", f"sqlite:{path}", "--every", every], text_of(lines))
                check(f"details {name}, every {every}", found[0] == 0 and rows_of(path)[0][1] == rows, (found, rows_of(path)))
            os.remove(path)
    others = follow.chained(START + 1, event(2, second["debit_account"], second["credit_account"], 16))
    run(["--chained", "--binding", "all ledger=4294967295", "--book", f"sqlite:{path}"], text_of([one, others]))
    check("details of an event that the binding doesn't take", rows_of(path)[0][1] == [row_a, row_b], rows_of(path))


def written(folder):
    """Rows that another program has written are replaced by the next save; with another text the file is refused."""
    lines = [it for it in follow.stream_of(24) if "end" not in json.loads(it)]
    path = os.path.join(folder, "a.db")
    child = followed(path)
    for count in range(1, 5):
        child.stdin.write(text_of(lines[count - 1 : count]))
        check("a save", child.stdout.readline().startswith(b"saved "), count)
    made(path, "UPDATE accounts SET debits_posted = '7'")
    child.stdin.write(text_of(lines[4:5]))
    check("a save after another program's", child.stdout.readline().startswith(b"saved "), "")
    check("all rows are the book's", rows_of(path)[0] == expected(model_of(lines[:5])), rows_of(path))
    made(path, "UPDATE book SET text = x'00'")
    child.stdin.write(text_of(lines[5:6]))
    child.stdin.close()
    check("another text", (child.stdout.read(), child.wait(commands.SECONDS)) == (b"fault: store\n", 1), "")


def leftovers(folder):
    """Beside a book that isn't there yet, only what its own making leaves is removed: a prefix of a new file."""
    lines = follow.stream_of(6)
    made_path = os.path.join(folder, "made.db")
    run(["--chained", "--book", f"sqlite:{made_path}"], b"")
    with contextlib.closing(sqlite3.connect(made_path)) as connection:
        connection.execute("DROP TABLE accounts")
        connection.execute("DROP TABLE book")
    path = os.path.join(folder, "a.db")
    new = new_file(folder)
    for name, content, is_ours in [
        ("an empty file", b"", True),
        ("the mark", new[:16], True),
        ("half a page", new[:2048], True),
        ("a whole page", new, True),
        ("a longer file", new + b"\0", False),
        ("another page", new[:100] + b"\x05" + new[101:], False),
        ("another's database", open(made_path, "rb").read(), False),
    ]:
        with open(path + ".new", "wb") as it:
            it.write(content)
        found = run(["--chained", "--book", f"sqlite:{path}"], text_of(lines))
        if is_ours:
            check(f"a leftover: {name}", found[0] == 0 and sorted(os.listdir(folder)) == ["a.db", "made.db"], found)
            os.remove(path)
        else:
            check(f"another's file beside a book: {name}", found[:2] == REFUSED and not os.path.exists(path), found)
            check(f"it stays: {name}", folder_of(folder).get("a.db.new") == content, name)
            for it in ("a.db", "a.db.new"):
                with contextlib.suppress(FileNotFoundError):
                    os.remove(os.path.join(folder, it))


def new_file(folder):
    """The bytes of a new book's file, by hand: the header of a database of one page of 4,096 bytes without a table."""
    page = bytearray(4096)
    page[:24] = b"SQLite format 3\0\x10\0\x01\x01\0@  "
    page[31], page[47], page[59], page[100], page[105] = 1, 4, 1, 13, 16
    path = os.path.join(folder, "page")
    with open(path, "wb") as it:
        it.write(page)
    with contextlib.closing(sqlite3.connect(path)) as connection:
        check("the page is SQLite's", connection.execute("PRAGMA integrity_check").fetchall() == [("ok",)], "")
    os.remove(path)
    return bytes(page)


def moved(folder):
    """A book that is moved away gets no save, no other file is made at its name, and it is whole when it is back."""
    lines = [it for it in follow.stream_of(12) if "end" not in json.loads(it)]
    path, away = os.path.join(folder, "a.db"), os.path.join(folder, "away.db")
    child = followed(path)
    child.stdin.write(text_of(lines[:1]))
    check("a save", child.stdout.readline().startswith(b"saved "), "")
    os.rename(path, away)
    child.stdin.write(text_of(lines[1:2]))
    child.stdin.close()
    out = child.stdout.read()
    check("a save of a book that is moved away", (child.wait(commands.SECONDS), out) == (1, b"fault: store\n"), out)
    check("no other file is made", os.listdir(folder) == ["away.db"], os.listdir(folder))
    os.rename(away, path)
    check("the book is whole", rows_of(path)[0] == expected(model_of(lines[:1])), "")
    child = followed(path)
    child.stdin.write(text_of(lines[1:2]))
    check("a save of the book that is back", child.stdout.readline().startswith(b"saved "), "")
    os.rename(path, away)
    os.rename(away, path)
    child.stdin.write(text_of(lines[2:3]))
    check("a book that was away between two saves", child.stdout.readline().startswith(b"saved "), "")
    child.stdin.close()
    check("it is followed to its end", child.wait(commands.SECONDS) == 0, child.stderr.read())
    check("and it has all events", rows_of(path)[0] == expected(model_of(lines[:3])), "")


def owned(folder):
    """A book keeps its mode and, if root follows, its owner; no file beside it can be read by more users."""
    lines, path = follow.stream_of(12), os.path.join(folder, "a.db")
    arguments = ["--chained", "--book", f"sqlite:{path}"]
    for mode in keeping.MODES:
        run(arguments, text_of(lines[:6]))
        os.chmod(path, mode)
        if os.geteuid() == 0:
            os.chown(path, keeping.NOBODY, keeping.NOBODY)
        before = keeping.owner_of(path)
        found = run(arguments, text_of(lines))
        check(f"a book of mode {mode:o} keeps it, and its owner", (found[0], keeping.owner_of(path)) == (0, before), (found, before))
        check(f"beside a book of mode {mode:o}", os.listdir(folder) == ["a.db"], os.listdir(folder))
        os.remove(path)


def limited(folder):
    """If a limit on sizes is met, and its signal is ignored as the launcher ignores it, the save has failed; what was saved stays."""
    lines, path = follow.stream_of(24), os.path.join(folder, "a.db")
    command = [commands.program, "follow", "--chained", "--every", "1", "--book", f"sqlite:{path}"]
    for limit in (1, 4096, 5000, 8192, 12288, 20000):
        done = subprocess.run(command, input=text_of(lines), capture_output=True, timeout=commands.SECONDS, restore_signals=False,
                              preexec_fn=lambda: ignored_at(limit))
        check(f"files of at most {limit} bytes", done.returncode == 1 and done.stdout.endswith(b"fault: store\n"), done)
        saved = [it for it in done.stdout.decode().splitlines() if it.startswith("saved ")]
        if saved:
            wanted = [it for it in map(json.loads, lines) if "end" not in it and int(it["timestamp"]) <= int(saved[-1].split()[1])]
            check(f"what was saved within {limit} bytes", rows_of(path)[0] == expected(model_of(lines[: len(wanted)])), saved)
        found = run(["--chained", "--book", f"sqlite:{path}"], text_of(lines))
        check(f"after files of at most {limit} bytes", found[0] == 0 and rows_of(path)[0] == expected(model_of(lines)), found)
        os.remove(path)


def ignored_at(limit):
    """Limits the sizes of files of a run, whose signal is ignored."""
    signal.signal(signal.SIGXFSZ, signal.SIG_IGN)
    resource.setrlimit(resource.RLIMIT_FSIZE, (limit, limit))


# ---------------------------------------------------------------------------------------------------------------------
# Readers.


def followed(path):
    return subprocess.Popen(
        [commands.program, "follow", "--chained", "--book", f"sqlite:{path}", "--every", "1"],
        stdin=subprocess.PIPE, stdout=subprocess.PIPE, stderr=subprocess.PIPE, bufsize=0,
    )


def readers(folder):
    """A program that keeps the file open sees each save. One amid its rows has a save wait."""
    lines = [it for it in follow.stream_of(24) if "end" not in json.loads(it)]
    path = os.path.join(folder, "a.db")
    run(["--chained", "--book", f"sqlite:{path}"], text_of(lines[:6]))
    with contextlib.closing(sqlite3.connect(path, timeout=60)) as reader:
        check("a reader's first rows", rows_in(reader)[0] == expected(model_of(lines[:6])), "")
        child = followed(path)
        for count in range(7, len(lines) + 1):
            child.stdin.write(text_of(lines[count - 1 : count]))
            line = child.stdout.readline()
            rows = rows_in(reader)[0]
            check("a reader sees a save", line.startswith(b"saved ") and rows == expected(model_of(lines[:count])), (line, rows))
        child.stdin.close()
        check("an idle reader keeps nobody waiting", child.wait(commands.SECONDS) == 0, child.stderr.read())
    run(["--chained", "--book", f"sqlite:{path}"], b"")
    with contextlib.closing(sqlite3.connect(path, timeout=60)) as reader:
        rows = reader.execute("SELECT * FROM accounts")
        rows.fetchone()
        child = followed(path)
        check("a reader amid its rows is waited for", WAITS in child.stderr.readline(), "")
        rows.fetchall()
    child.stdin.close()
    check("and then the save goes on", child.wait(commands.SECONDS) == 0, child.stderr.read())


# ---------------------------------------------------------------------------------------------------------------------
# Killed and refused.


class InterruptedFollow(interrupted.Interrupted):
    """A stream whose book is saved after every three events."""

    is_killed_everywhere, count = False, 6

    def __init__(self, library, folder):
        self.lines = follow.stream_of(self.count)
        self.stream = text_of(self.lines)
        self.books = [model_of(self.lines[:count]) for count in range(len(self.lines) + 1)]
        super().__init__(library, folder)

    def plans(self):
        """Of the allocations, some."""
        plans = super().plans()
        some = [it for it in plans if it.startswith("allocation:")][::EVERY]
        return [it for it in plans if not it.startswith("allocation:")] + some

    def arguments(self, name):
        return ["--chained", "--book", f"sqlite:{self.path(name)}", "--every", "3"]

    def unlike(self, path, last):
        """What sqlite3 finds, if that is no book of what was saved, or of later events."""
        if not os.path.exists(path):
            return None if last == 0 else "no file"
        with contextlib.closing(sqlite3.connect(path)) as connection:
            names = [it for (it,) in connection.execute("SELECT name FROM sqlite_master")]
            if not names:
                return None if last == 0 else "no tables"
        rows, text = rows_of(path)
        fits = any(rows == expected(it) and text.endswith(heading_of(it)) and it.last >= last for it in self.books)
        return None if fits else (rows, text)

    def wrong_of(self, name, saved):
        """sqlite3 reads a copy of the files first; of every other run also the files. A run over what comes after what was reported as
        saved comes to the book of the whole."""
        last, path = saved[-1] if saved else 0, self.path(name)
        copy = f"{path}.copy"
        self.copy(path, copy)
        wrong = self.unlike(copy, last)
        if not wrong and int(name.split(".")[0]) % 2:
            wrong = self.unlike(path, last)
        return wrong or self.wrong_from(path, text_of(it for it in self.lines if follow.timestamp_of(it) > last))

    def wrong_of_kill(self, name, saved):
        """sqlite3 reads a copy of the files first. A run over the whole stream comes to its book."""
        path = self.path(name)
        self.copy(path, f"{path}.copy")
        return self.unlike(f"{path}.copy", saved[-1] if saved else 0) or self.wrong_from(path, self.stream)

    @staticmethod
    def copy(path, other):
        """Copies the files of a book."""
        for suffix in ("", "-wal"):
            if os.path.exists(path + suffix):
                shutil.copy(path + suffix, other + suffix)

    def wrong_from(self, path, stream):
        """What is wrong after a run that goes on from what is there."""
        again = run(["--chained", "--book", f"sqlite:{path}"], stream)
        is_left = any(os.path.exists(path + suffix) for suffix in ("-wal", ".new"))
        if again[0] != 0 or not again[1].endswith(self.books[-1].text()) or is_left:
            return again
        return self.unlike(path, self.books[-1].last)


class KilledFollow(InterruptedFollow):
    """A shorter stream, for the kills: its book is made, saved, and saved at the end."""

    count, rows = 4, 10

    def points(self, is_everywhere):
        """Of the points, not those at which a plan ends a run, too."""
        planned = ("open", "write", "pwrite64", "rename")
        return [it for it in super().points(is_everywhere) if is_everywhere or it.part or it.name not in planned]


def killed(folder):
    interrupted.check_plans(InterruptedFollow, folder)
    room = os.path.join(folder, "kills")
    os.mkdir(room)
    interrupted.check_kills(KilledFollow, room)


def kept_in(path):
    """What sqlite3 finds: the timestamp of the last event seen, and the book. A file that isn't there holds nothing."""
    if not os.path.exists(path):
        return 0, follow.NOTHING
    (_, accounts), text = rows_of(path)
    head, _, *rest = text.splitlines(True)
    rest += [f"account {' '.join(it[:5])}\n" for it in accounts]
    return (int(head.split()[-1]), "".join(rest)) if head.startswith("rows book ") else text


class Rivals(rivals.Rivals):
    """Pairs of followers over a book in SQLite."""

    scheme, is_replaced = "sqlite:", False


def rivalry(folder):
    """Two followers over one book, in random starts."""
    lines = follow.stream_of(3)
    new = new_file(folder)
    rivals.check_all(Rivals(folder, lines, follow.books_of(lines), kept_in, [b"", new[:16], new]), 0.1)


def main(arguments):
    options = rooms.options_of(commands.parser_of(__doc__), arguments)
    commands.begin(options.program, "follow", options.soak)
    with rooms.room("sqlite-books-") as folder:
        for part in (tables, details, others, earlier, written, leftovers, moved, owned, limited, readers, killed, rivalry):
            room = os.path.join(folder, part.__name__)
            os.mkdir(room)
            part(room)
    return commands.ended("sqlite_books")


if __name__ == "__main__":
    ending.run(main)
