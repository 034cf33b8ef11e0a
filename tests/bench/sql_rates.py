#!/usr/bin/env python3
"""How many events a second a book in PostgreSQL takes: `follow --sql` into psql, beside a consumer that uses psycopg.

  tests/bench/sql_rates.py [PROGRAM] [--events N] [--every N] [--accounts N,..] [--times N] [--table]
  PROGRAM: crates/cdc_app/out/cdc_app

For each number of accounts one stream, of random accounts, and one series of runs over a server that the script starts itself, in turn
and then the other way round:

  follow     the program alone, its text into a file
  psql       psql alone, over that text
  both       the program into psql
  unnest     psql over a text whose rows come as arrays by unnest
  upserts    psycopg: for each event two upserts, committed with the position after each save
  batches    psycopg: the accounts that changed, by execute_values, committed with the position after each save

--table: with the table of events (the program's runs only). Printed are the medians of events a second, with the least and the greatest,
and the CPU time of an event in microseconds, that of the server and that of its clients. psycopg is of Debian's package
python3-psycopg2, for /usr/bin/python3; without it the last two are left out.
"""
import argparse
import json
import os
import random
import resource
import statistics
import subprocess
import sys
import tempfile
import time

sys.dont_write_bytecode = True
sys.path += [os.path.join(os.path.dirname(os.path.realpath(__file__)), "..", it) for it in ("common", "faults", "checks")]
import ending
import sql

COLUMNS = ("debits_pending", "debits_posted", "credits_pending", "credits_posted")
TICKS = os.sysconf("SC_CLK_TCK")


def stream_of(accounts, count):
    """A chained stream of transfers between random accounts."""
    rng = random.Random(accounts)
    balances = {}
    lines, before = [], 0
    for number in range(1, count + 1):
        timestamp = 1_700_000_000_000_000_000 + number
        sides = {}
        for side, column in (("debit_account", 1), ("credit_account", 3)):
            id = rng.randrange(accounts) + 10**36
            shown = balances.setdefault(id, [0] * 4)
            shown[column] += 5
            sides[side] = {
                "id": str(id), **dict(zip(COLUMNS, map(str, shown))), "user_data_128": "0", "user_data_64": "0",
                "user_data_32": 0, "code": 1, "flags": 0, "timestamp": "1",
            }  # fmt: skip
        transfer = {
            "id": str(timestamp), "amount": "5", "pending_id": "0", "user_data_128": "0", "user_data_64": "0", "user_data_32": 0,
            "timeout": 0, "code": 1, "flags": 0, "timestamp": str(timestamp),
        }  # fmt: skip
        body = {"timestamp": str(timestamp), "type": "single_phase", "ledger": 700, "transfer": transfer, **sides}
        lines.append(json.dumps({"previous": str(before), "body": body}))
        before = timestamp
    return lines


def spent(server):
    """The CPU time of the server's processes and of those that have ended, in seconds."""
    with open(os.path.join(server.data, "postmaster.pid")) as file:
        root = int(file.readline())
    total = 0
    for pid in filter(str.isdigit, os.listdir("/proc")):
        try:
            with open(f"/proc/{pid}/stat") as file:
                fields = file.read().rsplit(")", 1)[1].split()
        except OSError:
            continue
        if int(pid) == root:
            total += sum(map(int, fields[11:15]))
        elif int(fields[1]) == root:
            total += sum(map(int, fields[11:13]))
    return total / TICKS


def spent_here():
    """The CPU time of this process and of those that it has waited for, in seconds."""
    return sum(it.ru_utime + it.ru_stime for it in map(resource.getrusage, (resource.RUSAGE_SELF, resource.RUSAGE_CHILDREN)))


def has_psycopg():
    try:
        import psycopg2  # noqa: F401
    except ImportError:
        return False
    return True


class Series:
    def __init__(self, server, program, lines, every, name):
        self.server, self.program, self.lines, self.every, self.name = server, program, lines, every, name
        self.folder = tempfile.mkdtemp(dir=server.folder)
        self.stream = os.path.join(self.folder, "stream")
        with open(self.stream, "w") as file:
            file.write("".join(f"{it}\n" for it in lines))
        self.at = os.path.join(self.folder, "at")
        with open(self.at, "w") as file:
            file.write(sql.position(0, 0, 0, False) + "\n")

    def made(self):
        self.server.ask(f'DROP SCHEMA IF EXISTS "{self.name}" CASCADE')
        done = self.server.run(sql.schema(self.name), "-q", "-v", "ON_ERROR_STOP=1")
        if done[0] != 0:
            sys.exit(done[2])

    def timed(self, run):
        """Events a second of a run, and microseconds of CPU time an event: the server's, and its clients'."""
        self.made()
        server, clients, start = spent(self.server), spent_here(), time.monotonic()
        run()
        seconds = time.monotonic() - start
        server, clients = spent(self.server) - server, spent_here() - clients
        count = len(self.lines)
        return count / seconds, 1e6 * server / count, 1e6 * clients / count

    def contenders(self):
        """What is measured, by its name."""
        text, other = os.path.join(self.folder, "text"), os.path.join(self.folder, "unnest")
        self.unnest(other)
        found = {
            "follow": lambda: self.text(text),
            "psql": lambda: self.psql(text),
            "both": self.both,
            "unnest": lambda: (self.plain(), self.psql(other)),
        }
        if has_psycopg():
            found["upserts"] = lambda: self.upserts(False)
            found["batches"] = lambda: self.upserts(True)
        return found

    def follow(self, out):
        more = ["--events"] if hasattr(sql, "keeps_events") and sql.keeps_events(self.name) else []
        arguments = ["follow", "--chained", "--sql", self.name, "--resume", self.at, "--every", str(self.every), *more, self.stream]
        return subprocess.Popen([self.program, *arguments], stdout=out, stderr=subprocess.DEVNULL)

    def text(self, path):
        with open(path, "w") as file:
            if self.follow(file).wait() != 0:
                sys.exit("the program failed")

    def psql(self, path):
        with open(path) as file:
            subprocess.run(self.server.psql(), stdin=file, stdout=subprocess.DEVNULL, check=True)

    def both(self):
        follower = self.follow(subprocess.PIPE)
        subprocess.run(self.server.psql(), stdin=follower.stdout, stdout=subprocess.DEVNULL, check=True)
        follower.wait()

    def saves(self):
        """The accounts of each save, and the timestamp of its last event."""
        changed = {}
        for number, line in enumerate(self.lines, 1):
            body = json.loads(line)["body"]
            for side in ("debit_account", "credit_account"):
                shown = body[side]
                changed[shown["id"]] = (shown["id"], *(shown[it] for it in COLUMNS))
            if number % self.every == 0 or number == len(self.lines):
                yield list(changed.values()), body["timestamp"]
                changed = {}

    def unnest(self, path):
        names = ("id", *COLUMNS)
        with open(path, "w") as file:
            file.write(sql.PREAMBLE)
            for rows, last in self.saves():
                arrays = ", ".join(f"'{{{','.join(it)}}}'::numeric[]" for it in zip(*rows))
                file.write(
                    f'BEGIN;\nUPDATE "{self.name}".plain SET seen = {last};\n'
                    f'INSERT INTO "{self.name}".balances ({", ".join(names)}) SELECT * FROM unnest({arrays})\n'
                    f'ON CONFLICT (id) DO UPDATE SET {", ".join(f"{it} = excluded.{it}" for it in COLUMNS)};\nCOMMIT;\n'
                )

    def plain(self):
        """Tables without details, for texts that put balances alone."""
        columns = ", ".join(f"{it} numeric(39) NOT NULL" for it in COLUMNS)
        self.server.ask(f'CREATE TABLE "{self.name}".balances (id numeric(39) PRIMARY KEY, {columns})')
        self.server.ask(f'CREATE TABLE "{self.name}".plain (seen numeric(20)); INSERT INTO "{self.name}".plain VALUES (0)')

    def upserts(self, batched):
        from psycopg2 import connect, extras

        self.plain()
        connection = connect(host=self.server.folder, user="ledger", dbname="postgres")
        cursor = connection.cursor()
        names = ("id", *COLUMNS)
        head = f'INSERT INTO "{self.name}".balances ({", ".join(names)}) VALUES '
        tail = f' ON CONFLICT (id) DO UPDATE SET {", ".join(f"{it} = excluded.{it}" for it in COLUMNS)}'
        if batched:
            for rows, last in self.saves():
                extras.execute_values(cursor, head + "%s" + tail, [tuple(map(int, it)) for it in rows], page_size=1000)
                cursor.execute(f'UPDATE "{self.name}".plain SET seen = %s', (int(last),))
                connection.commit()
        else:
            for number, line in enumerate(self.lines, 1):
                body = json.loads(line)["body"]
                for side in ("debit_account", "credit_account"):
                    cursor.execute(head + "(%s, %s, %s, %s, %s)" + tail, [int(body[side][it]) for it in names])
                if number % self.every == 0 or number == len(self.lines):
                    cursor.execute(f'UPDATE "{self.name}".plain SET seen = %s', (int(body["timestamp"]),))
                    connection.commit()
        connection.close()


def main(arguments):
    parser = argparse.ArgumentParser(description=__doc__, formatter_class=argparse.RawDescriptionHelpFormatter)
    parser.add_argument("program", nargs="?", default=os.path.join(os.path.dirname(__file__), "../../crates/cdc_app/out/cdc_app"))
    parser.add_argument("--events", type=int, default=20_000, metavar="N")
    parser.add_argument("--every", type=int, default=1000, metavar="N")
    parser.add_argument("--accounts", type=lambda it: [int(x) for x in it.split(",")], default=[10, 1000, 100_000], metavar="N,..")
    parser.add_argument("--times", type=int, default=5, metavar="N")
    parser.add_argument("--table", action="store_true")
    options = parser.parse_args(arguments)
    if not has_psycopg():
        print(f"left out: upserts, batches: {sys.executable} has no psycopg2 (Debian package python3-psycopg2, for /usr/bin/python3)")
    if sql.tools() is None:
        print("sql_rates: not tried: there is no PostgreSQL (Debian package postgresql)")
        return 2
    server = sql.Server(tempfile.mkdtemp(prefix="rates-", dir="/tmp"))
    try:
        for accounts in options.accounts:
            load = os.getloadavg()[0]
            series = Series(server, options.program, stream_of(accounts, options.events), options.every, "events" if options.table else "bank")
            contenders = series.contenders()
            found = {name: [] for name in contenders}
            for at in range(options.times):
                # (psql needs the text that follow makes)
                for name in contenders if at % 2 == 0 else reversed(contenders):
                    found[name].append(series.timed(contenders[name]))
            loads = f"load {load:.1f} to {os.getloadavg()[0]:.1f}"
            print(f"{accounts:,} accounts, {options.events:,} events, saves of {options.every:,}, {options.times} runs of each, {loads}")
            for name, runs in found.items():
                rates, servers, clients = zip(*runs)
                spread = f"({min(rates):,.0f} to {max(rates):,.0f})"
                print(f"  {name:8} {statistics.median(rates):10,.0f} events/s {spread:22} server {statistics.median(servers):5.0f} us, "
                      f"clients {statistics.median(clients):5.0f} us", flush=True)
    finally:
        server.stop("immediate")
        subprocess.run(["rm", "-rf", server.folder], check=False)
    return 0


if __name__ == "__main__":
    ending.run(main)
