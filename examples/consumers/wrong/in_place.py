#!/usr/bin/env python3
"""It writes its state over the old one, in place. The first call truncates the file, and the second one writes it. A
kill between the two leaves an empty file.

    try-consumer -- python3 in_place.py
    seed 10, delivery 2: your consumer ended with status 1 before it answered
"""
import json
import os
import sys

NAMES = ("id", "debits_pending", "debits_posted", "credits_pending", "credits_posted")
state = {"applied": 0, "last": "0", "ended": False, "accounts": {}}
if os.path.exists("state"):
    with open("state") as file:
        state = json.load(file)

for line in sys.stdin:
    delivery, result, accounts = json.loads(line), "duplicate", []
    if "end" in delivery and not state["ended"]:
        result, state["ended"] = "end", True
    elif "body" in delivery and int(delivery["body"]["timestamp"]) > int(state["last"]):
        result, body = "applied", delivery["body"]
        accounts = [{name: body[side][name] for name in NAMES} for side in ("debit_account", "credit_account")]
        state["accounts"].update((it["id"], it) for it in accounts)
        state.update(applied=state["applied"] + 1, last=body["timestamp"])
    with open("state", "w") as file:
        json.dump(state, file)
    said = {"delivery": delivery["delivery"], "result": result, "applied": state["applied"], "last": state["last"]}
    print(json.dumps({**said, "accounts": accounts}), flush=True)
