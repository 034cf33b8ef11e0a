#!/usr/bin/env python3
"""It remembers the ids of transfers to find duplicates. An expiry has the id of the transfer that expires, and is lost.

    try-consumer -- python3 by_id.py
    without faults, delivery 16: expected applied, your consumer took it for a duplicate
"""
import json
import os
import sys

NAMES = ("id", "debits_pending", "debits_posted", "credits_pending", "credits_posted")
state = {"ids": [], "last": "0", "ended": False}
if os.path.exists("state"):
    with open("state") as file:
        state = json.load(file)

for line in sys.stdin:
    delivery, result, accounts = json.loads(line), "duplicate", []
    if "end" in delivery and not state["ended"]:
        result, state["ended"] = "end", True
    elif "body" in delivery and delivery["body"]["transfer"]["id"] not in state["ids"]:
        result, body = "applied", delivery["body"]
        state["ids"].append(body["transfer"]["id"])
        state["last"] = body["timestamp"]
        accounts = [{name: body[side][name] for name in NAMES} for side in ("debit_account", "credit_account")]
    with open("state.new", "w") as file:
        json.dump(state, file)
    os.replace("state.new", "state")
    said = {"delivery": delivery["delivery"], "result": result, "applied": len(state["ids"]), "last": state["last"]}
    print(json.dumps({**said, "accounts": accounts}), flush=True)
