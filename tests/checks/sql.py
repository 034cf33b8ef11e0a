#!/usr/bin/env python3
"""A follower's book in PostgreSQL: what a server holds after the saves that `follow --sql` prints.

  tests/checks/sql.py [PROGRAM] [--model] [--seed N] [--soak]    PROGRAM: crates/cdc_app/out/cdc_app

--model: this script's own text of each save is executed, and no program. Else the program's text has to be that text, byte for byte,
and is the one that is executed. Arguments and positions that the program refuses are tried too.

The script starts a server of its own, in a folder of its own and on a socket in it; root runs it as the user postgres. If PostgreSQL
isn't installed, only texts and arguments are checked. Tables: after a run and after one that resumes from the row, they hold what the
model of follow.py has. Kills: the follower, psql, its backend or the whole server is killed between two saves or amid one; no account
is wrong, nothing is lost that was reported as saved, and the next follower goes on to the tables of a run without a stop. Pipes: the
same of a program that is killed while it follows a pipe into psql. Rivals: of followers that start at one row, one saves at a time, and
the tables are those of a prefix of the queue. Stale: a follower that was stopped and wakes up after another one has saved changes
nothing. Cuts: a save's text that is cut off at any byte is committed or changes nothing. Numbers: the greatest value in every column.
Names: a schema whose name is a reserved word. Closed: standard descriptors. Moved: a position
that was moved back. Every other schema has a table of events. Supervisor: contrib/postgresql/supervise.py prints what is saved, and ends both.

The last line is `sql: N passed, M failed`; the status is 1 if one failed.
"""
import contextlib
import json
import os
import random
import shutil
import signal
import subprocess
import sys
import tempfile
import time

sys.dont_write_bytecode = True
sys.path += [os.path.join(os.path.dirname(os.path.realpath(__file__)), "..", it) for it in ("common", "faults")]
import commands
import ending
import follow
from commands import check

COLUMNS = ("debits_pending", "debits_posted", "credits_pending", "credits_posted")
DETAILS = ("code", "flags", "user_data_128", "user_data_64", "user_data_32")
ROW = (*COLUMNS, "last_timestamp", "ledger", *DETAILS)
USER_DATA = ("user_data_128", "user_data_64", "user_data_32")
TRANSFER = ("id", "amount", "pending_id", *USER_DATA, "timeout", "code", "flags", "timestamp")
ACCOUNT = ("id", *COLUMNS, *USER_DATA, "code", "flags", "timestamp")
SIDES = ("debit_account", "credit_account")
EVENT = ("type", "timestamp", "ledger", *(f"transfer_{it}" for it in TRANSFER), *(f"{side}_{it}" for side in SIDES for it in ACCOUNT))
SECONDS = 60  # that a run may take: a last guard against one that hangs
PER_STATEMENT = 1000
PREAMBLE = r"""\set QUIET on
\set ON_ERROR_STOP on
\set AUTOCOMMIT on
\set ON_ERROR_ROLLBACK off
\pset tuples_only on
\pset format unaligned
SET idle_in_transaction_session_timeout = '60s';
DO $$BEGIN IF current_setting('synchronous_commit') = 'off' THEN RAISE 'synchronous_commit is off, so a commit can be lost'; END IF; END$$;
"""

# ---------------------------------------------------------------------------------------------------------------------
# The text, from FORMATS.


def position(seen, applied, last, ended):
    flag = "yes" if ended else "no"
    return f"book 1 chained yes seen {seen}\nbinding all\nsubscriber 1 applied {applied} last {last} ended {flag} closed no"


def place_of(model):
    return model.seen, model.applied, model.last, model.ended


def columns(between, place):
    seen, applied, last, _ = place
    return between.join([f"position = '{position(*place)}'", f"seen = {seen}", f"last = {last}", f"applied = {applied}"])


def first_row(name, place=(0, 0, 0, False)):
    seen, applied, last, _ = place
    return f"""INSERT INTO "{name}".book (id, position, seen, last, applied) VALUES (1, '{position(*place)}', {seen}, {last}, {applied});\n"""


def keeps_events(name):
    """Whether the schema of this name has a table of events."""
    return name.startswith("e")


def type_of(column):
    """The type of a column that has numbers."""
    for ending, kind in (("_128", "numeric(39)"), ("_64", "numeric(20)"), ("timestamp", "numeric(20)"), ("code", "integer"), ("flags", "integer")):
        if column.endswith(ending):
            return kind
    return "bigint" if column.endswith(("_32", "ledger", "timeout")) else "numeric(39)"


def columns_of(names):
    return ", ".join(f"{it} {type_of(it)} NOT NULL" for it in names)


def events_schema(name):
    kinds = columns_of(EVENT[2:])
    return (
        f'CREATE TABLE "{name}".events (timestamp numeric(20) PRIMARY KEY, type text NOT NULL, {kinds});\n'
        f"COMMENT ON TABLE \"{name}\".events IS 'The events that were applied. Rows are only added.';\n"
    )


def schema(name, place=(0, 0, 0, False)):
    book, accounts = f'"{name}".book', f'"{name}".accounts'
    return (
        f'BEGIN;\nCREATE SCHEMA "{name}";\n'
        f"CREATE TABLE {book} (id smallint PRIMARY KEY CHECK (id = 1), position text NOT NULL, seen numeric(20) NOT NULL, "
        f"last numeric(20) NOT NULL, applied numeric(20) NOT NULL);\n"
        f"COMMENT ON TABLE {book} IS 'Where the follower is in its stream. Its saves alone may change the row.';\n"
        f"CREATE TABLE {accounts} (id numeric(39) PRIMARY KEY, {columns_of(ROW)});\n"
        f"COMMENT ON TABLE {accounts} IS 'Each account after the last event that has it.';\n"
        f"{events_schema(name) if keeps_events(name) else ''}{first_row(name, place)}COMMIT;\n"
    )


def statements_of(head, tail, rows):
    """The statements that put these rows."""
    parts = [rows[it : it + PER_STATEMENT] for it in range(0, len(rows), PER_STATEMENT)]
    return "".join(head + ",\n".join(f"({', '.join(map(str, it))})" for it in part) + tail for part in parts)


def accounts_of(name, changed):
    """The statements that put these accounts, each a number and its columns."""
    head = f'INSERT INTO "{name}".accounts (id, {", ".join(ROW)}) VALUES\n'
    tail = f"\nON CONFLICT (id) DO UPDATE SET {', '.join(f'{it} = excluded.{it}' for it in ROW)};\n"
    return statements_of(head, tail, changed)


def events_of(name, added):
    """The statements that add these events, each a kind and numbers."""
    quoted = [(f"'{it[0]}'", *it[1:]) for it in added]
    return statements_of(f'INSERT INTO "{name}".events ({", ".join(EVENT)}) VALUES\n', ";\n", quoted)


def transaction(name, before, after, changed, added=()):
    book = f'"{name}".book'
    ended = f"SELECT ('ended ' || seen) FROM {book} WHERE id = 1 AND position LIKE '% ended yes %';\n" if after[3] else ""
    return (
        f"BEGIN;\nDO $$BEGIN\nUPDATE {book} SET {columns(', ', after)}\nWHERE id = 1 AND {columns(' AND ', before)};\n"
        f"IF NOT FOUND THEN RAISE '{book} is not where this follower left it'; END IF;\nEND$$;\n"
        f"{accounts_of(name, changed)}{events_of(name, list(added)) if keeps_events(name) else ''}"
        f"COMMIT;\nSELECT ('saved ' || seen) FROM {book} WHERE id = 1;\n{ended}"
    )


def row_of(body, side):
    """An account's number and its columns, as an event shows it."""
    shown = body[side]
    return (*(int(shown[it]) for it in ("id", *COLUMNS)), int(body["timestamp"]), int(body["ledger"]), *(int(shown[it]) for it in DETAILS))


def event_of(body):
    """An event's kind and numbers."""
    numbers = [body["timestamp"], body["ledger"], *(body["transfer"][it] for it in TRANSFER)]
    return (body["type"], *map(int, numbers + [body[side][it] for side in SIDES for it in ACCOUNT]))


def body_of(line):
    value = json.loads(line)
    return value.get("body", value)


def resumed(text):
    """The model of a follower with this position."""
    parts = text.split()
    model = follow.Model(True)
    model.seen, model.applied, model.last = (int(parts[parts.index(it) + 1]) for it in ("seen", "applied", "last"))
    model.ended = parts[parts.index("ended") + 1] == "yes"
    return model


def texts_of(name, at, lines, every):
    """The text of each save of a follower that resumes at this position."""
    model = resumed(at)
    before, changed, added = place_of(model), {}, []
    unsaved = 0
    for number, line in enumerate(lines, 1):
        if model.take(number, line) is not None:
            break
        if model.result == "applied":
            body = body_of(line)
            for side in SIDES:
                # (an account keeps the place in which it came among the changes)
                changed[int(body[side]["id"])] = row_of(body, side)
            added.append(event_of(body))
        unsaved += 1
        if unsaved == every:
            yield transaction(name, before, place_of(model), list(changed.values()), added)
            before, changed, added, unsaved = place_of(model), {}, [], 0
    yield transaction(name, before, place_of(model), list(changed.values()), added)


def stream_of(count):
    """A stream whose events show each column of their transfers and accounts by other numbers."""
    lines = []
    for number, line in enumerate(follow.stream_of(count)):
        value = json.loads(line)
        body = value.get("body", value)
        if "transfer" not in body:
            lines.append(line)
            continue
        for place, part in enumerate(("transfer", *SIDES)):
            some = 3 * number + place + 1
            body[part].update(user_data_128=str(2**128 - some), user_data_64=str(2**64 - some), user_data_32=2**32 - some, flags=some % 2**16)
        body["transfer"].update(pending_id=str(2**127 + number), timeout=2**32 - 1 - number)
        lines.append(json.dumps(value))
    return lines


# ---------------------------------------------------------------------------------------------------------------------
# A server.


def tools():
    """The folder of the server's programs; None if it isn't installed."""
    root = "/usr/lib/postgresql"
    found = sorted(os.listdir(root), key=lambda it: [int(x) for x in it.split(".") if x.isdigit()]) if os.path.isdir(root) else []
    for version in reversed(found):
        folder = os.path.join(root, version, "bin")
        if all(os.path.exists(os.path.join(folder, it)) for it in ("initdb", "pg_ctl", "psql")):
            return folder
    return None


class Server:
    def __init__(self, folder):
        self.folder, self.tools = folder, tools()
        self.data = os.path.join(folder, "data")
        self.user = ["setpriv", "--reuid=postgres", "--regid=postgres", "--clear-groups"] if os.geteuid() == 0 else []
        if self.user:
            shutil.chown(folder, "postgres")
        self.call("initdb", "-D", self.data, "-U", "ledger", "-A", "trust", "-N")
        self.start()

    def call(self, tool, *arguments):
        subprocess.run([*self.user, os.path.join(self.tools, tool), *arguments], check=True, stdout=subprocess.DEVNULL, cwd=self.folder)

    def start(self):
        options = f"-k {self.folder} -c listen_addresses=''"
        self.call("pg_ctl", "-D", self.data, "-l", os.path.join(self.folder, "log"), "-o", options, "-w", "start")

    def stop(self, mode="fast"):
        self.call("pg_ctl", "-D", self.data, "-m", mode, "-w", "stop")

    def crash(self):
        """Kills every process of the server, as if the machine had stopped but for its disk."""
        self.stop("immediate")
        self.start()

    def psql(self, *more):
        return [os.path.join(self.tools, "psql"), "-X", "-h", self.folder, "-U", "ledger", "-d", "postgres", *more]

    def ask(self, statement):
        done = subprocess.run(self.psql("-At", "-c", statement), capture_output=True, text=True, check=True, timeout=SECONDS)
        return done.stdout

    def run(self, text, *more):
        """Executes a text: the status, what was printed, and standard error."""
        done = subprocess.run(self.psql(*more), input=text, capture_output=True, text=True, timeout=SECONDS)
        return done.returncode, done.stdout, done.stderr

    def accounts(self, name):
        rows = self.ask(f'SELECT id, {", ".join(ROW)} FROM "{name}".accounts ORDER BY id').split()
        return [tuple(map(int, it.split("|"))) for it in rows]

    def events(self, name):
        rows = self.ask(f'SELECT {", ".join(EVENT)} FROM "{name}".events ORDER BY timestamp').split() if keeps_events(name) else []
        return [(it.split("|")[0], *map(int, it.split("|")[1:])) for it in rows]

    def tables(self, name):
        """The accounts and the events."""
        return self.accounts(name), self.events(name)

    def at(self, name):
        return self.ask(f'SELECT position FROM "{name}".book')


def expected(name, lines, seen=10**18):
    """The accounts and the events after the events of these lines up to this one."""
    model, accounts, events = follow.Model(True), {}, []
    for number, line in enumerate(lines, 1):
        if model.seen >= seen:
            break
        model.take(number, line)
        if model.result == "applied":
            body = body_of(line)
            accounts.update((int(body[side]["id"]), row_of(body, side)) for side in SIDES)
            events.append(event_of(body))
    return sorted(accounts.values()), events if keeps_events(name) else []


def is_prefix(server, name, lines):
    """Whether the tables are those of the events up to the last one seen."""
    return server.tables(name) == expected(name, lines, resumed(server.at(name)).seen)


def last_saved(printed):
    """The last timestamp that was reported as saved; 0 if none was."""
    return max([int(it.split()[1]) for it in printed.decode().split("\n")[:-1] if it.startswith("saved ")], default=0)


# ---------------------------------------------------------------------------------------------------------------------
# What the program prints.


def called(program, arguments, lines=()):
    """Runs `follow` over these lines: its status, standard output and standard error."""
    with tempfile.TemporaryFile("w+") as file:
        file.write("".join(f"{line}\n" for line in lines))
        file.seek(0)
        done = subprocess.run([program, "follow", *arguments], stdin=file, capture_output=True, text=True, timeout=SECONDS, check=False)
    return done.returncode, done.stdout, done.stderr


@contextlib.contextmanager
def file_of(text):
    """A file with this text."""
    with tempfile.NamedTemporaryFile("w") as file:
        file.write(text)
        file.flush()
        yield file.name


def events_flag(name):
    return ["--events"] if keeps_events(name) else []


def same_schema(program, name, more=(), place=(0, 0, 0, False)):
    """Checks the text that makes the tables."""
    status, printed, said = called(program, ["--chained", "--sql-schema", name, *events_flag(name), *more])
    check("the program's schema is the model's", (status, printed, said) == (0, schema(name, place), ""), (status, printed[:500], said))


def same_texts(program, name, at, lines, every):
    """The preamble and the text of each save from this position; what the program prints has to be that."""
    wanted = [PREAMBLE, *texts_of(name, at, lines, every)]
    if program is not None:
        with file_of(at) as resume:
            arguments = ["--chained", "--sql", name, "--resume", resume, "--every", str(every), *events_flag(name)]
            status, printed, said = called(program, arguments, lines)
        check("the program's text is the model's", (status, printed) == (0, "".join(wanted)), (status, printed[:500], said))
    return wanted


def position_of(lines):
    """The position after these lines, as psql prints it."""
    model = follow.Model(True)
    for number, line in enumerate(lines, 1):
        model.take(number, line)
    return position(*place_of(model)) + "\n"


def printed(program):
    """Checks the texts that need no server."""
    lines = stream_of(60)
    for every in (1, 7, 1000):
        same_texts(program, "bank", position(0, 0, 0, False) + "\n", lines, every)
        same_texts(program, "_", position_of(lines[:25]), lines[10:], every)
        same_texts(program, "events", position_of(lines[:25]), lines[10:], every)
    seen = resumed(position_of(lines)).seen
    same_texts(program, "bank", position_of(lines), [*lines, follow.end(seen)], 3)
    same_texts(program, "bank", position_of([*lines, follow.end(seen)]), [], 3)
    same_schema(program, "bank")
    same_schema(program, "events")
    same_schema(program, "bank", ("--after", "2000"), (2000, 0, 0, False))


def refused(program):
    """Checks what the program refuses: arguments, positions, a reader that has ended."""
    lines = stream_of(12)
    at = position(0, 0, 0, False) + "\n"
    with file_of(at) as resume:
        for name in ("", "Bank", "1bank", "ban-k", "ban k", 'ban"k', "bänk"):
            for arguments in (["--sql", name, "--resume", resume], ["--sql-schema", name]):
                status, text, said = called(program, ["--chained", *arguments], lines)
                check(f"the name {name!r}", (status, text) == (2, "") and "the name of a schema" in said, (status, text, said))
        for arguments in (
            ["--sql", "bank"], ["--resume", resume], ["--sql-schema", "bank", "--resume", resume],
            *(["--sql", "bank", "--resume", resume, *more] for more in (["--book", "b"], ["--json"], ["--expect"], ["--sql-schema", "bank"])),
            *(["--sql-schema", "bank", *more] for more in (["--book", "b"], ["--json"], ["--expect"], ["--every", "2"])),
            ["--events"], ["--events", "--book", "b"], ["--events", "--expect"],
        ):  # fmt: skip
            status, text, said = called(program, ["--chained", *arguments], lines)
            check(f"the arguments {arguments}", (status, text) == (2, "") and said.startswith("error: "), (status, text, said))
        for more in (["--binding", "all ledger=7"], []):
            status, text, said = called(program, [*more, *(["--chained"] if more else []), "--sql", "bank", "--resume", resume], lines)
            check(f"another stream: {more}", (status, text) == (2, "") and "bad_record" in said, (status, text, said))
        status, text, said = called(program, ["--chained", "--sql", "bank", "--resume", resume, "--after", "5"], lines)
        check("another place", (status, text) == (2, "") and "--after names" in said, (status, text, said))
        for close in (0, 100):
            child = subprocess.Popen(
                [program, "follow", "--chained", "--sql", "bank", "--resume", resume],
                stdin=subprocess.PIPE, stdout=subprocess.PIPE, stderr=subprocess.PIPE,
            )  # fmt: skip
            child.stdout.read(close)
            child.stdout.close()
            with contextlib.suppress(BrokenPipeError):
                child.stdin.write("".join(f"{line}\n" for line in lines).encode())
                child.stdin.close()
            said = child.stderr.read().decode()
            child.stderr.close()
            check("a reader that has ended", child.wait(SECONDS) == 1 and ("write_fault" in said or close == 0), said)
    for text in ("", at[:-3], at + "account 1 0 0 0 1\n", "book 2" + at[6:], at + at):
        with file_of(text) as resume:
            status, text, said = called(program, ["--chained", "--sql", "bank", "--resume", resume], lines)
        check("no position", (status, text) == (2, "") and "bad_record" in said, (status, text, said))
    status, text, said = called(program, ["--chained", "--sql", "bank", "--resume", "/nonexistent"], lines)
    check("no file", (status, text) == (1, "") and "read_fault" in said, (status, text, said))


def closed(program):
    """With standard descriptors closed, the text is the same, or none if standard output is closed, and no message gets into a file."""
    lines = [*stream_of(12), follow.chained(5, follow.event(10**6))]  # (standard error reports the gap at the last line)
    at = position(0, 0, 0, False) + "\n"
    wanted = "".join([PREAMBLE, *texts_of("bank", at, lines, 5)])
    for numbers in ((), (0,), (1,), (2,), (0, 1), (0, 2), (1, 2), (0, 1, 2)):
        with tempfile.TemporaryDirectory() as folder:
            paths = {it: os.path.join(folder, it) for it in ("at", "stream", "out", "err")}
            for name, text in (("at", at), ("stream", "".join(f"{it}\n" for it in lines))):
                with open(paths[name], "w") as file:
                    file.write(text)
            arguments = ["--chained", "--sql", "bank", "--resume", paths["at"], "--every", "5", paths["stream"]]
            with open(paths["out"], "wb") as out, open(paths["err"], "wb") as err:
                close = lambda given=numbers: [os.close(it) for it in given]
                done = subprocess.run([program, "follow", *arguments], stdin=subprocess.DEVNULL, stdout=out, stderr=err, preexec_fn=close, check=False)
            found = {}
            for name, path in paths.items():
                with open(path) as file:
                    found[name] = file.read()
            check(f"{numbers} closed: the status", done.returncode == 3, done)
            check(f"{numbers} closed: the text", found["out"] == ("" if 1 in numbers else wanted), found["out"][:500])
            check(f"{numbers} closed: a message", ("gap" in found["err"]) == (2 not in numbers), found["err"])
            check(f"{numbers} closed: the files", found["at"] == at and found["stream"].count("\n") == len(lines), found)


# ---------------------------------------------------------------------------------------------------------------------
# What is tried with the server.


class Tried:
    def __init__(self, server, program):
        self.server, self.program = server, program
        # (every other one has a table of events)
        self.names = (f"{'te'[it % 2]}{it}" for it in range(10**6))

    def made(self, name=None):
        """A schema of its own."""
        name = name or next(self.names)
        if self.program is not None:
            same_schema(self.program, name)
        status, _, said = self.server.run(schema(name), "-q", "-v", "ON_ERROR_STOP=1")
        check("the schema's text", status == 0, said)
        return name

    def texts(self, name, lines, every):
        """The preamble and the text of each save from where the row is, of the program or of the model."""
        return same_texts(self.program, name, self.server.at(name), lines, every)

    def whole(self):
        """A run, and one that goes on with duplicates."""
        lines = stream_of(60)
        name = self.made()
        for part, every in ((lines[:25], 7), (lines[10:], 1), (lines, 1000)):
            text = "".join(self.texts(name, part, every))
            status, printed, said = self.server.run(text)
            check("a run", status == 0 and said == "", (status, said))
            check("it reports each save", printed.count("saved ") == text.count("\nCOMMIT;"), printed)
            check("its tables", is_prefix(self.server, name, lines), self.server.at(name))
        check("all events", self.server.tables(name) == expected(name, lines), "")
        ended = self.server.run("".join(self.texts(name, [*lines, follow.end(resumed(self.server.at(name)).seen)], 1000)))
        check("the end", ended[1].endswith(f"ended {resumed(self.server.at(name)).seen}\n"), ended)

    def refusals(self):
        """What stops a follower, and changes nothing."""
        lines = stream_of(12)
        name = self.made()
        texts = self.texts(name, lines, 4)
        check("a schema that exists", self.server.run(schema(name), "-q", "-v", "ON_ERROR_STOP=1")[0] == 3, "")
        for column, value in (("position", "position || ' '"), ("seen", "seen + 1"), ("last", "last + 1"), ("applied", "applied + 1")):
            self.server.ask(f'UPDATE "{name}".book SET {column} = {value}')
            found = self.server.run("".join(texts))
            check(f"another {column}", found[0] == 3 and found[1] == "" and "is not where this follower left it" in found[2], found)
            self.server.ask(f'DELETE FROM "{name}".book')
            self.server.ask(first_row(name))
        check("nothing changed", self.server.tables(name) == ([], []), "")
        off = subprocess.run(
            self.server.psql(), input="".join(texts), capture_output=True, text=True, env={**os.environ, "PGOPTIONS": "-c synchronous_commit=off"}
        )
        check("synchronous_commit off", off.returncode == 3 and off.stdout == "" and "synchronous_commit" in off.stderr, off)
        goes_on = [it.replace("\\set ON_ERROR_STOP on\n", "") for it in texts]
        self.server.run("".join(texts))
        found = self.server.run("".join(goes_on))
        seen = resumed(self.server.at(name)).seen
        check("a client that goes on", set(found[1].split("\n")) <= {f"saved {seen}", f"ended {seen}", ""}, found)
        check("its tables", is_prefix(self.server, name, lines), "")

    def cuts(self, step):
        """A save's text that is cut off."""
        lines = stream_of(6)
        name = self.made()
        preamble, first, *_ = self.texts(name, lines, 3)
        start = self.server.at(name)
        commit = first.index("COMMIT;") + len("COMMIT")
        wanted = expected(name, lines, resumed(self.server.at(name)).seen)
        for cut in range(0, len(first), step):
            self.server.run(preamble + first[:cut])
            is_committed = self.server.at(name) != start
            check(f"a cut at {cut}", is_committed == (cut >= commit) and is_prefix(self.server, name, lines), cut)
            if is_committed:
                self.server.ask(f'DELETE FROM "{name}".book')
                for table in ("accounts", *(["events"] if keeps_events(name) else [])):
                    self.server.ask(f'DELETE FROM "{name}".{table}')
                self.server.ask(first_row(name))
        check("before", wanted == ([], []), wanted)

    def numbers(self):
        """The greatest numbers, and a name that is a reserved word."""
        timestamp = 2**64 - 1
        greatest = {"numeric(39)": 2**128 - 1, "numeric(20)": timestamp, "bigint": 2**32 - 1, "integer": 2**16 - 1}
        for word in ("select", "user", "_", "table", "else", "end", "except"):
            name = self.made(word)
            place = (timestamp, timestamp, timestamp, False)
            rows = [tuple(greatest[type_of(it)] for it in ("id", *ROW))]
            events = [("two_phase_pending", *(greatest[type_of(it)] for it in EVENT[1:]))]
            found = self.server.run(PREAMBLE + transaction(name, (0, 0, 0, False), place, rows, events))
            check("the greatest numbers", found[:2] == (0, f"saved {timestamp}\n"), found)
            check("they are there", self.server.tables(name) == (rows, events if keeps_events(name) else []), "")

    def moved_back(self):
        """A position that was moved back: the events' keys stop the follower; without them it comes to the same accounts."""
        lines = stream_of(30)
        for name in (self.made(), self.made()):
            start = first_row(name)
            self.server.run("".join(self.texts(name, lines, 5)))
            self.server.ask(f'DELETE FROM "{name}".book')
            self.server.ask(start)
            status, printed, said = self.server.run("".join(self.texts(name, lines, 5)))
            if keeps_events(name):
                check("a position moved back", (status, printed) == (3, "") and "events_pkey" in said, (status, printed, said))
            else:
                check("a position moved back", status == 0, said)
            check("its tables", self.server.tables(name) == expected(name, lines), name)

    def kills(self, count, rng):
        """Kills of psql, its backend or the server."""
        for _ in range(count):
            lines = stream_of(40)
            name = self.made()
            reported = 0
            for _ in range(3):
                reported = max(reported, self.killed(name, lines, rng))
                seen = resumed(self.server.at(name)).seen
                check("nothing that was saved is lost", seen >= reported, (seen, reported))
                check("a prefix", is_prefix(self.server, name, lines), name)
            self.server.run("".join(self.texts(name, lines, 3)))
            check("it goes on to the end", self.server.tables(name) == expected(name, lines), name)

    def killed(self, name, lines, rng):
        """Executes saves, and kills something meanwhile; returns the last timestamp that was reported as saved."""
        what = rng.choice(["psql", "psql", "backend", "backend", "follower", "server"])
        text = "".join(self.texts(name, lines, rng.choice([1, 2, 5])))
        until = rng.randrange(len(text))
        child = subprocess.Popen(self.server.psql(), stdin=subprocess.PIPE, stdout=subprocess.PIPE, stderr=subprocess.DEVNULL)
        with contextlib.suppress(BrokenPipeError):
            child.stdin.write(text[:until].encode())
            child.stdin.flush()
            time.sleep(rng.random() * 0.02)
            if what == "psql":
                child.kill()
            elif what == "backend":
                self.server.ask("SELECT pg_terminate_backend(pid) FROM pg_stat_activity WHERE pid <> pg_backend_pid() AND backend_type = 'client backend'")
            elif what == "server":
                self.server.crash()
            if what != "follower":
                child.stdin.write(text[until:].encode())
        with contextlib.suppress(BrokenPipeError):
            child.stdin.close()
        printed = child.stdout.read()
        child.wait(SECONDS)
        return last_saved(printed)

    def pipes(self, count, rng):
        """Kills of a program that follows a pipe into psql, or of that psql."""
        for _ in range(count):
            lines = stream_of(40)
            name = self.made()
            reported = 0
            for _ in range(3):
                with file_of(self.server.at(name)) as resume:
                    reported = max(reported, self.piped(name, resume, lines, rng))
                check("nothing that was saved is lost", resumed(self.server.at(name)).seen >= reported, reported)
                check("a prefix", is_prefix(self.server, name, lines), name)
            self.server.run("".join(self.texts(name, lines, 3)))
            check("it goes on to the end", self.server.tables(name) == expected(name, lines), name)

    def piped(self, name, resume, lines, rng):
        """Follows lines from a pipe into psql, and kills one of both; returns the last timestamp that was reported as saved."""
        client = subprocess.Popen(self.server.psql(), stdin=subprocess.PIPE, stdout=subprocess.PIPE, stderr=subprocess.DEVNULL)
        every = str(rng.choice([1, 2, 5]))
        arguments = ["follow", "--chained", "--sql", name, "--resume", resume, "--every", every, *events_flag(name)]
        program = subprocess.Popen([self.program, *arguments], stdin=subprocess.PIPE, stdout=client.stdin, stderr=subprocess.DEVNULL)
        client.stdin.close()
        with contextlib.suppress(BrokenPipeError):
            program.stdin.write("".join(f"{it}\n" for it in lines[: rng.randrange(len(lines))]).encode())
            program.stdin.flush()
            time.sleep(rng.random() * 0.05)
            rng.choice([program, client]).kill()
            program.stdin.write("".join(f"{it}\n" for it in lines).encode())
        with contextlib.suppress(BrokenPipeError):
            program.stdin.close()
        printed = client.stdout.read()
        client.stdout.close()
        program.wait(SECONDS)
        client.wait(SECONDS)
        return last_saved(printed)

    def supervised(self):
        """The supervisor over a whole stream, over duplicates, and over a psql that ends."""
        lines = stream_of(30)
        seen = resumed(position_of(lines)).seen
        name = self.made()
        script = os.path.join(os.path.dirname(os.path.realpath(__file__)), "..", "..", "contrib", "postgresql", "supervise.py")
        for part in (lines, [*lines, follow.end(seen)]):
            done = subprocess.run(
                [sys.executable, script, "--psql", " ".join(self.server.psql()), "--relayplum", self.program, name, "--chained", *events_flag(name)],
                input="".join(f"{it}\n" for it in part), capture_output=True, text=True, timeout=SECONDS, check=False,
            )  # fmt: skip
            found = (done.returncode, done.stdout.split("\n")[-2:-1])
            ends = "ended" if resumed(position_of(part)).ended else "saved"
            check("a supervised run", found == (0, [f"{ends} {seen}"]), (done.returncode, done.stdout, done.stderr))
        check("its tables", self.server.tables(name) == expected(name, lines), name)
        fails = subprocess.run(
            [sys.executable, script, "--psql", f"{' '.join(self.server.psql())} -c nothing", "--relayplum", self.program, name, "--chained"],
            stdin=subprocess.DEVNULL, capture_output=True, text=True, timeout=SECONDS, check=False,
        )  # fmt: skip
        check("a psql that fails", fails.returncode != 0, fails)

    def rivals(self, count, rng):
        """Followers that start at one row, and save at a time."""
        for _ in range(count):
            lines = stream_of(30)
            name = self.made()
            level = rng.choice(["read committed", "repeatable read", "serializable"])
            environment = {**os.environ, "PGOPTIONS": f"-c default_transaction_isolation={level.replace(' ', chr(92) + ' ')}"}
            texts = ["".join(self.texts(name, lines, rng.choice([1, 2, 3, 7]))) for _ in range(3)]
            children = [
                subprocess.Popen(self.server.psql(), stdin=subprocess.PIPE, stdout=subprocess.DEVNULL, stderr=subprocess.DEVNULL, env=environment)
                for _ in texts
            ]
            for child, text in zip(children, texts):
                with contextlib.suppress(BrokenPipeError):
                    child.stdin.write(text.encode())
                    child.stdin.close()
            statuses = sorted(it.wait(SECONDS) for it in children)
            check("one rival goes on to the end", statuses == [0, 3, 3], statuses)
            check("a prefix", is_prefix(self.server, name, lines), name)

    def stale(self, count, rng):
        """A client that is stopped, and wakes up after another one has saved."""
        for _ in range(count):
            lines = stream_of(20)
            name = self.made()
            preamble, *saves = self.texts(name, lines, 4)
            first = rng.randrange(1, len(saves))
            child = subprocess.Popen(self.server.psql(), stdin=subprocess.PIPE, stdout=subprocess.PIPE, stderr=subprocess.DEVNULL)
            child.stdin.write((preamble + "".join(saves[:first])).encode())
            child.stdin.flush()
            for _ in range(first):
                child.stdout.readline()
            os.kill(child.pid, signal.SIGSTOP)
            with contextlib.suppress(BrokenPipeError):
                child.stdin.write("".join(saves[first:]).encode())
                child.stdin.close()
            self.server.run("".join(self.texts(name, lines, 3)))
            at = self.server.at(name)
            os.kill(child.pid, signal.SIGCONT)
            check("a stale client stops", child.wait(SECONDS) == 3, "")
            child.stdout.close()
            check("it changes nothing", self.server.at(name) == at and self.server.tables(name) == expected(name, lines), name)


def main(arguments):
    parser = commands.parser_of(__doc__)
    parser.add_argument("--seed", type=int, default=1, metavar="N", help="of what is killed, and when; default: %(default)s")
    parser.add_argument("--model", action="store_true", help="executes this script's own text, and no program's")
    options = parser.parse_args(arguments)
    if not options.model:
        printed(options.program)
        refused(options.program)
        closed(options.program)
    if tools() is None:
        print("sql: not tried: the saves on a server, since there is no PostgreSQL (Debian package postgresql)")
        return commands.ended("sql")
    more = 10 if options.soak else 1
    folder = tempfile.mkdtemp(prefix="sql-", dir="/tmp")
    try:
        server = Server(folder)
        try:
            tried = Tried(server, None if options.model else options.program)
            rng = random.Random(options.seed)
            tried.whole()
            tried.whole()
            tried.refusals()
            tried.numbers()
            tried.moved_back()
            tried.cuts(1 if options.soak else 37)
            tried.cuts(1 if options.soak else 97)
            tried.kills(10 * more, rng)
            tried.rivals(5 * more, rng)
            tried.stale(3 * more, rng)
            if not options.model:
                tried.pipes(5 * more, rng)
                tried.supervised()
        finally:
            server.stop("immediate")
    finally:
        shutil.rmtree(folder, ignore_errors=True)
    return commands.ended("sql")


if __name__ == "__main__":
    ending.run(main)
