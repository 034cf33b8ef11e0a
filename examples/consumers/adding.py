#!/usr/bin/env python3
"""A consumer that adds amounts up. It is wrong: it doesn't check for duplicates, and counts each of them again."""
import json
import sys

SIDES = {"debit_account": ("debits_pending", "debits_posted"), "credit_account": ("credits_pending", "credits_posted")}
book = {}  # the four sums of each account, by its id
held = {}  # the amount of each pending transfer, by its id
applied, last = 0, "0"


def changes(body):
    """Returns what an event adds to the pending and to the posted sum of each side."""
    kind, transfer = body["type"], body["transfer"]
    amount = int(transfer["amount"])
    if kind == "single_phase":
        return 0, amount
    if kind == "two_phase_pending":
        held[transfer["id"]] = amount
        return amount, 0
    pending = held.get(transfer["id" if kind == "two_phase_expired" else "pending_id"], 0)
    return -pending, amount if kind == "two_phase_posted" else 0


for line in sys.stdin:
    delivery, result, accounts = json.loads(line), "end", []
    if "body" in delivery:
        body, result = delivery["body"], "applied"
        applied, last = applied + 1, body["timestamp"]
        for side, names in SIDES.items():
            sums = book.setdefault(body[side]["id"], dict.fromkeys(sum(SIDES.values(), ()), 0))
            for name, change in zip(names, changes(body)):
                sums[name] += change
            accounts.append({"id": body[side]["id"], **{name: str(value) for name, value in sums.items()}})
    said = {"kind": "expect", "delivery": delivery["delivery"], "result": result, "applied": applied, "last": last}
    print(json.dumps({**said, "accounts": accounts}, separators=(",", ":")), flush=True)
