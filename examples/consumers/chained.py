#!/usr/bin/env python3
"""A consumer that notices what is missing: it applies an event only if `previous` is the last one that it has applied.

    chained.py BOOK    reads deliveries from standard input; BOOK is a file of SQLite
"""
import json
import sqlite3
import sys

SUMS = ("debits_pending", "debits_posted", "credits_pending", "credits_posted")
book = sqlite3.connect(sys.argv[1])
with book:
    book.execute(f"CREATE TABLE IF NOT EXISTS account (id PRIMARY KEY, {', '.join(SUMS)})")
    book.execute("CREATE TABLE IF NOT EXISTS place (key PRIMARY KEY, last, applied, ended)")
    book.execute("INSERT OR IGNORE INTO place VALUES (1, 0, 0, 0)")


def take(delivery):
    """Applies a delivery if it is the next one. Returns the result, and the accounts that it changed."""
    last, ended = book.execute("SELECT last, ended FROM place").fetchone()
    if ended or "body" in delivery and int(delivery["body"]["timestamp"]) <= last:
        return "duplicate", []
    if int(delivery["previous"]) != last:
        return "gap", []
    if "end" in delivery:
        book.execute("UPDATE place SET ended = 1")
        return "end", []
    accounts = []
    for account in (delivery["body"]["debit_account"], delivery["body"]["credit_account"]):
        accounts.append({name: account[name] for name in ("id", *SUMS)})
        book.execute("INSERT OR REPLACE INTO account VALUES (?, ?, ?, ?, ?)", tuple(accounts[-1].values()))
    book.execute("UPDATE place SET last = ?, applied = applied + 1", [int(delivery["body"]["timestamp"])])
    return "applied", accounts


for line in sys.stdin:
    with book:  # all of it is saved, or none
        result, accounts = take(json.loads(line))
    applied, last = book.execute("SELECT applied, last FROM place").fetchone()
    print(json.dumps({"result": result, "applied": applied, "last": str(last), "accounts": accounts}), flush=True)
