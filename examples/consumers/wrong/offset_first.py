#!/usr/bin/env python3
"""It saves its offset, the last timestamp, and then its book. A kill between the two loses an event.

    try-consumer -- python3 offset_first.py
    seed 2, delivery 12: your consumer has applied 9 events, expected 10
"""
import json
import os
import sys

NAMES = ("id", "debits_pending", "debits_posted", "credits_pending", "credits_posted")


def load(name, otherwise):
    if not os.path.exists(name):
        return otherwise
    with open(name) as file:
        return json.load(file)


def save(name, value):
    with open(f"{name}.new", "w") as file:
        json.dump(value, file)
    os.replace(f"{name}.new", name)


last, book = load("offset", "0"), load("book", {"applied": 0, "ended": False, "accounts": {}})
for line in sys.stdin:
    delivery, result, accounts = json.loads(line), "duplicate", []
    if "end" in delivery and not book["ended"]:
        result, book["ended"] = "end", True
    elif "body" in delivery and int(delivery["body"]["timestamp"]) > int(last):
        result, body, last = "applied", delivery["body"], delivery["body"]["timestamp"]
        save("offset", last)
        accounts = [{name: body[side][name] for name in NAMES} for side in ("debit_account", "credit_account")]
        book["accounts"].update((it["id"], it) for it in accounts)
        book["applied"] += 1
    save("book", book)
    said = {"delivery": delivery["delivery"], "result": result, "applied": book["applied"], "last": last}
    print(json.dumps({**said, "accounts": accounts}), flush=True)
