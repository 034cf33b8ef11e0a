#!/usr/bin/env python3
"""It takes a delivery with the flag `redelivered` for a duplicate. But such a delivery may never have been applied, and
an event that was published twice has no such flag.

    try-consumer -- python3 by_redelivered.py
    seed 1, delivery 16: expected duplicate, your consumer applied it
"""
import json
import os
import sys

NAMES = ("id", "debits_pending", "debits_posted", "credits_pending", "credits_posted")
state = {"applied": 0, "last": "0"}
if os.path.exists("state"):
    with open("state") as file:
        state = json.load(file)

for line in sys.stdin:
    delivery, result, accounts = json.loads(line), "duplicate", []
    if not delivery["redelivered"]:
        result = "end"
        if "body" in delivery:
            result, body = "applied", delivery["body"]
            state = {"applied": state["applied"] + 1, "last": body["timestamp"]}
            accounts = [{name: body[side][name] for name in NAMES} for side in ("debit_account", "credit_account")]
    with open("state.new", "w") as file:
        json.dump(state, file)
    os.replace("state.new", "state")
    print(json.dumps({"delivery": delivery["delivery"], "result": result, **state, "accounts": accounts}), flush=True)
