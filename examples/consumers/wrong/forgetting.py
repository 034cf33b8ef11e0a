#!/usr/bin/env python3
"""It keeps the timestamps that it has seen in memory, and its book in a file. A restart forgets what it has seen.

    try-consumer -- python3 forgetting.py
    seed 1, delivery 2: expected duplicate, your consumer applied it
"""
import json
import os
import sys

NAMES = ("id", "debits_pending", "debits_posted", "credits_pending", "credits_posted")
seen, book = set(), {"applied": 0, "last": "0", "accounts": {}}
if os.path.exists("book"):
    with open("book") as file:
        book = json.load(file)

for line in sys.stdin:
    delivery, result, accounts = json.loads(line), "duplicate", []
    time = delivery["body"]["timestamp"] if "body" in delivery else "end"
    if time not in seen:
        seen.add(time)
        result = "end"
        if "body" in delivery:
            result, body = "applied", delivery["body"]
            accounts = [{name: body[side][name] for name in NAMES} for side in ("debit_account", "credit_account")]
            book["accounts"].update((it["id"], it) for it in accounts)
            book.update(applied=book["applied"] + 1, last=time)
            with open("book.new", "w") as file:
                json.dump(book, file)
            os.replace("book.new", "book")
    said = {"delivery": delivery["delivery"], "result": result, "applied": book["applied"], "last": book["last"]}
    print(json.dumps({**said, "accounts": accounts}), flush=True)
