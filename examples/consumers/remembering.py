#!/usr/bin/env python3
"""A consumer that applies each event once: it saves the last timestamp with its book, in one transaction.

    remembering.py BOOK    reads deliveries from standard input; BOOK is a file of SQLite
"""
import json
import sqlite3
import sys

SUMS = ("debits_pending", "debits_posted", "credits_pending", "credits_posted")
book = sqlite3.connect(sys.argv[1])
with book:
    book.execute(f"CREATE TABLE IF NOT EXISTS account (id PRIMARY KEY, {', '.join(SUMS)})")
    book.execute("CREATE TABLE IF NOT EXISTS place (key PRIMARY KEY, last, applied, ended)")
    book.execute("INSERT OR IGNORE INTO place VALUES (1, 0, 0, 0)")


def take(delivery):
    """Applies a delivery, unless it is a duplicate. Returns the result, and the accounts that it changed."""
    last, ended = book.execute("SELECT last, ended FROM place").fetchone()
    if "end" in delivery and not ended:
        book.execute("UPDATE place SET ended = 1")
        return "end", []
    if ended or int(delivery["body"]["timestamp"]) <= last:
        return "duplicate", []
    body, accounts = delivery["body"], []
    for account in (body["debit_account"], body["credit_account"]):
        accounts.append({name: account[name] for name in ("id", *SUMS)})
        book.execute("INSERT OR REPLACE INTO account VALUES (?, ?, ?, ?, ?)", tuple(accounts[-1].values()))
    book.execute("UPDATE place SET last = ?, applied = applied + 1", [int(body["timestamp"])])
    return "applied", accounts


for line in sys.stdin:
    delivery = json.loads(line)
    with book:  # all of it is saved, or none
        result, accounts = take(delivery)
    applied, last = book.execute("SELECT applied, last FROM place").fetchone()
    said = {"kind": "expect", "delivery": delivery["delivery"], "result": result, "applied": applied, "last": str(last)}
    print(json.dumps({**said, "accounts": accounts}, separators=(",", ":")), flush=True)
