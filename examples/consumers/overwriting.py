#!/usr/bin/env python3
"""A consumer that overwrites balances with those of each event. It is wrong: it doesn't check for duplicates, so a
duplicate takes its book back in time."""
import json
import sys

SUMS = ("debits_pending", "debits_posted", "credits_pending", "credits_posted")
book = {}  # the four sums of each account, by its id
applied, last = 0, "0"

for line in sys.stdin:
    delivery, result, accounts = json.loads(line), "end", []
    if "body" in delivery:
        body, result = delivery["body"], "applied"
        applied, last = applied + 1, body["timestamp"]
        for account in (body["debit_account"], body["credit_account"]):
            book[account["id"]] = {name: account[name] for name in SUMS}
            accounts.append({"id": account["id"], **book[account["id"]]})
    said = {"kind": "expect", "delivery": delivery["delivery"], "result": result, "applied": applied, "last": last}
    print(json.dumps({**said, "accounts": accounts}, separators=(",", ":")), flush=True)
