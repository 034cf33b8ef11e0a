#!/usr/bin/env python3
"""The command audit: streams by hand that each break one rule, and random streams of a ledger that are changed, beside a model.

  tests/checks/audit.py [PROGRAM] [--streams N] [--soak]    PROGRAM: crates/cdc_app/out/cdc_app; N random streams, 400 by default

By hand: each rule broken alone, with the line that is printed, in both forms; what follows the end; bad lines; the book. Random
streams are the events of the model's ledger for random scripts of the soak: each has to be accepted, with the ledger's balances.
Then one event is left out, doubled, swapped with the next one or changed in one field: the program has to accept or refuse
just what a small model of the rules does, at the same line and by the same rule, which reads JSON by Python's own parser. A
double, a swap, another balance, and another amount that is moved or held have to be refused; so has what follows an event that is
left out, if its amount isn't 0 and one of its accounts appears again. What no rule finds is counted by kind and printed. Random
scripts of pending transfers that expire, many of them at once, do the same with two expiries exchanged, and with one left out.
Each stream is also delivered again from random places on, with --duplicates: it comes to what it comes to without, and each
redelivery is counted. A changed stream comes to what the model makes of what is left of it.
States that are saved are tried by audit_states.py; --soak kills these runs at more places.

The last line is `audit: N passed, M failed`; the status is 1 if one failed.
"""
import collections
import concurrent.futures
import json
import os
import random
import sys

sys.dont_write_bytecode = True
sys.path += [os.path.join(os.path.dirname(os.path.realpath(__file__)), "..", it) for it in ("common", "checks")]
import commands
import ending
import model
import soak
from commands import check, run

JOBS = 2  # runs at a time
STREAMS = 400
BALANCES = ("debits_pending", "debits_posted", "credits_pending", "credits_posted")
SIDES = ("debit_account", "credit_account")
FIXED = ("user_data_128", "user_data_64", "user_data_32", "ledger", "code", "flags", "timestamp")
STORES = ("single_phase", "two_phase_pending", "two_phase_posted", "two_phase_voided")
MOVES, HOLDS = ("single_phase", "two_phase_posted"), ("two_phase_pending",)
SETTLES = ("two_phase_posted", "two_phase_voided", "two_phase_expired")
DATA = ("user_data_128", "user_data_64", "user_data_32")
GREATEST = 2**63 - 1  # timestamp
BATCH = 1000  # items
SECOND = 10**9


def text_of(bodies):
    return "".join(json.dumps(it) + "\n" for it in bodies).encode()


# ---------------------------------------------------------------------------------------------------------------------
# The model.


def settled_id(body):
    transfer = body["transfer"]
    return int(transfer["id"] if body["type"] == "two_phase_expired" else transfer["pending_id"])


def expires_at(body):
    """When the pending transfer of a body expires."""
    return int(body["transfer"]["timestamp"]) + int(body["transfer"]["timeout"]) * SECOND


def flags_of(flags):
    """The bits of a transfer's flags: linked, pending, post and void."""
    return [bool(flags & bit) for bit in (1, 2, 4, 8)]


def transfer_result(body):
    """Why a ledger refuses a request with an event's own fields, by the name of the result, or None."""
    transfer, most = body["transfer"], 2**128 - 1
    id, pending_id, flags = int(transfer["id"]), int(transfer["pending_id"]), int(transfer["flags"])
    _, pending, post, void = flags_of(flags)
    plain = not (post or void)
    lines = (
        (flags & ~15, "reserved_flag"),
        (id == 0, "id_must_not_be_zero"),
        (id == most, "id_must_not_be_int_max"),
        (pending + post + void > 1, "flags_are_mutually_exclusive"),
        (plain and pending_id, "pending_id_must_be_zero"),
        (not plain and pending_id == 0, "pending_id_must_not_be_zero"),
        (not plain and pending_id == id, "pending_id_must_be_different"),
        (not pending and int(transfer["timeout"]), "timeout_reserved_for_pending_transfer"),
        (int(body["ledger"]) == 0, "ledger_must_not_be_zero"),
        (int(transfer["code"]) == 0, "code_must_not_be_zero"),
        (body["type"] in HOLDS and int(transfer["timeout"]) and expires_at(body) > GREATEST, "overflows_timeout"),
    )
    return next((name for test, name in lines if test), None)


def account_result(ledger, account):
    """The same of an account."""
    id, flags = int(account["id"]), int(account["flags"])
    lines = (
        (flags & ~15, "reserved_flag"),
        (id == 0, "id_must_not_be_zero"),
        (id == 2**128 - 1, "id_must_not_be_int_max"),
        (flags & 2 and flags & 4, "flags_are_mutually_exclusive"),
        (ledger == 0, "ledger_must_not_be_zero"),
        (int(account["code"]) == 0, "code_must_not_be_zero"),
    )
    return next((name for test, name in lines if test), None)


def shape(body):
    """The sentence on an event's own fields, or None."""
    kind, transfer = body["type"], body["transfer"]
    id = int(transfer["id"])
    if kind in STORES:
        result = transfer_result(body)
        if result:
            return f"shape: transfer {id} is invalid: {result}"
        if flags_of(int(transfer["flags"]))[1:] != [kind == it for it in STORES[1:]]:
            return f"shape: transfer {id} has the flags of another kind"
        if int(transfer["timestamp"]) != int(body["timestamp"]):
            times = f"{int(transfer['timestamp'])}, in an event at {int(body['timestamp'])}"
            return f"shape: transfer {id} has timestamp {times}"
    for side in SIDES:
        result = account_result(int(body["ledger"]), body[side])
        if result:
            return f"shape: account {int(body[side]['id'])} is invalid: {result}"
    return None


def fixed_of(body, side):
    """The fields of an account that never change."""
    return {it: int(body["ledger"] if it == "ledger" else body[side][it]) for it in FIXED}


def limit(account):
    """The sentence on an account's sums, or None."""
    id, flags = int(account["id"]), int(account["flags"])
    sums = {side: int(account[f"{side}_pending"]) + int(account[f"{side}_posted"]) for side in ("debits", "credits")}
    for side, total in sums.items():
        if total >= 2**128:
            return f"limits: account {id} has {side} above 128 bits"
    for bit, side, other in ((2, "debits", "credits"), (4, "credits", "debits")):
        most = int(account[f"{other}_posted"])
        if flags & bit and sums[side] > most:
            return f"limits: account {id} has {side} of {sums[side]}, above its {other} of {most}"
    return None


def is_linked(body):
    """Whether an event stores a transfer that is linked to the next one."""
    return body["type"] in STORES and bool(int(body["transfer"]["flags"]) & 1)


class Audit:
    """What an audit knows of the events so far, and why the next one is refused."""

    def __init__(self):
        self.count, self.last, self.chain, self.expired = 0, 0, 0, None
        self.balances, self.stored, self.pending, self.settled, self.fixed = {}, set(), {}, set(), {}
        self.open, self.times, self.created, self.links = {}, set(), {}, {}

    def refusal(self, body):
        """Why an event is refused, as the rule and its sentence, or None."""
        timestamp, kind, transfer = int(body["timestamp"]), body["type"], body["transfer"]
        id, amount = int(transfer["id"]), int(transfer["amount"])
        debit, credit = body["debit_account"], body["credit_account"]
        if timestamp <= self.last:
            return f"timestamps: {timestamp}, after {self.last}"
        if int(debit["id"]) == int(credit["id"]):
            return f"accounts: account {int(debit['id'])} is debited and credited"
        if timestamp > GREATEST:
            return f"timestamps: {timestamp} is above the greatest timestamp"
        why = shape(body) or self.other_fields(body)
        if why:
            return why
        if kind in STORES and id in self.stored:
            return f"id: transfer {id} came before"
        released = 0
        if kind in SETTLES:
            of = settled_id(body)
            if of not in self.pending:
                return f"pending: no pending transfer {of} came before"
            if of in self.settled:
                return f"ended: pending transfer {of} ended before"
            why = self.other_transfer(body, self.pending[of])
            if why:
                return why
            released = int(self.pending[of]["transfer"]["amount"])
        why = self.other_order(body)
        if why:
            return why
        if self.chain and (kind not in STORES or timestamp != self.last + 1):
            return f"chains: event {timestamp} isn't the next of the chain at {self.last}"
        for account in (debit, credit):
            why = limit(account)
            if why:
                return why
        held, posted = amount if kind in HOLDS else 0, amount if kind in MOVES else 0
        for account, side in ((debit, 0), (credit, 2)):
            before = self.balances.get(int(account["id"]), (0, 0, 0, 0))
            for place, name in enumerate(BALANCES):
                added = (held, posted)[place - side] if place - side in (0, 1) else 0
                less = released if place == side else 0
                shown = int(account[name])
                if shown + less != before[place] + added:
                    reason = f" and this transfer's {added}" if added else ""
                    reason += f" less the pending transfer's {less}" if less else ""
                    return f"balances: account {int(account['id'])} has {name} {shown}, after {before[place]}{reason}"
        return self.other_chains(body)

    def other_chains(self, body):
        """The sentence on a chain that can't have its next item, or None."""
        timestamp = int(body["timestamp"])
        if timestamp - 1 in self.links:
            return f"links: account {self.links[timestamp - 1]} at {timestamp - 1}, linked, right before an event"
        linked = {int(body[side]["timestamp"]) for side in SIDES if int(body[side]["flags"]) & 1}
        for side in SIDES:
            id, created = int(body[side]["id"]), int(body[side]["timestamp"])
            if created in linked and int(body[side]["flags"]) & 1:
                if created + 1 == timestamp or id not in self.fixed and created + 1 in self.times:
                    return f"links: account {id} at {created}, linked, right before an event"
                if id not in self.fixed and self.links_around(linked, created) >= BATCH:
                    return f"links: account {id} at {created}, in a chain longer than a batch"
        if is_linked(body):
            if self.chain + 2 > BATCH:
                return f"links: event {timestamp} is in a chain longer than a batch"
            if timestamp >= GREATEST:
                return f"links: event {timestamp} is linked, at the greatest timestamp"
        return None

    def links_around(self, linked, created):
        """How many linked accounts in a row this timestamp is one of, with those of an event."""
        low = high = created
        while low - 1 in self.links or low - 1 in linked:
            low -= 1
        while high + 1 in self.links or high + 1 in linked:
            high += 1
        return high - low + 1

    def other_fields(self, body):
        """The sentence on the fields of both accounts that never change, or None."""
        for side in SIDES:
            id = int(body[side]["id"])
            shown = fixed_of(body, side)
            for name, before in self.fixed.get(id, shown).items():
                if shown[name] != before:
                    return f"fields: account {id} has {name} {shown[name]}, after {before}"
        for side in SIDES:
            id, created = int(body[side]["id"]), int(body[side]["timestamp"])
            if not 0 < created < int(body["timestamp"]):
                return f"created: account {id} at {created}, in an event at {int(body['timestamp'])}"
        for side in SIDES:
            id, created = int(body[side]["id"]), int(body[side]["timestamp"])
            if id not in self.fixed and created in self.times:
                return f"created: account {id} at {created}, as an event"
            if id not in self.fixed and created in self.created:
                return f"created: account {id} at {created}, as account {self.created[created]}"
        debit, credit = ((int(body[side]["id"]), int(body[side]["timestamp"])) for side in SIDES)
        if debit[1] == credit[1]:
            return f"created: account {credit[0]} at {credit[1]}, as account {debit[0]}"
        return None

    def other_transfer(self, body, pending):
        """The sentence on what an event has of the pending transfer that it settles, or None."""
        of, amount, held = settled_id(body), int(body["transfer"]["amount"]), int(pending["transfer"]["amount"])
        same = all(int(body[side]["id"]) == int(pending[side]["id"]) for side in SIDES)
        same = same and int(body["ledger"]) == int(pending["ledger"])
        names = ["code"] if body["type"] in STORES else pending["transfer"]
        same = same and all(int(body["transfer"][it]) == int(pending["transfer"][it]) for it in names)
        if body["type"] in STORES:
            same = same and all(int(body["transfer"][it]) or not int(pending["transfer"][it]) for it in DATA)
        if not same:
            return f"settles: pending transfer {of} has other accounts, another ledger, code or user data"
        if amount > held or body["type"] not in MOVES and amount < held:
            return f"amount: {amount} of pending transfer {of}, which holds {held}"
        timestamp, timeout, end = int(body["timestamp"]), int(pending["transfer"]["timeout"]), expires_at(pending)
        if body["type"] not in STORES and timeout == 0:
            return f"timeouts: pending transfer {of} has no timeout"
        if body["type"] not in STORES and timestamp < end:
            return f"timeouts: pending transfer {of} expires at {timestamp}, and its time is up at {end}"
        if body["type"] in STORES and timeout and end <= timestamp:
            return f"timeouts: pending transfer {of} is settled at {timestamp}, and its time is up at {end}"
        return None

    def other_order(self, body):
        """The sentence on an event by the open pending transfer that is first to expire, or None."""
        if not self.open:
            return None
        end, stored, first = min(self.open.values())
        expiry = body["type"] not in STORES
        if expiry and (end, stored) < (expires_at(body), int(body["transfer"]["timestamp"])):
            id = settled_id(body)
            return f"expiries: pending transfer {id} expires before pending transfer {first}, which is first to expire"
        if self.expired is not None and end == expires_at(self.expired):
            if not expiry or int(body["timestamp"]) != int(self.expired["timestamp"]) + 1:
                last = settled_id(self.expired)
                return f"expiries: pending transfer {first} expires with pending transfer {last}, and not right after it"
        return None

    def take(self, body):
        """Takes an event that isn't refused."""
        if body["type"] not in STORES:
            self.expired = body
        self.count, self.last = self.count + 1, int(body["timestamp"])
        self.times.add(self.last)
        self.chain = self.chain + 1 if is_linked(body) else 0
        if body["type"] in STORES:
            self.stored.add(int(body["transfer"]["id"]))
        if body["type"] in HOLDS:
            id, stored = int(body["transfer"]["id"]), int(body["transfer"]["timestamp"])
            self.pending[id] = body
            if int(body["transfer"]["timeout"]):
                self.open[id] = (expires_at(body), stored, id)
        if body["type"] in SETTLES:
            self.settled.add(settled_id(body))
            self.open.pop(settled_id(body), None)
        for side in SIDES:
            account = body[side]
            self.fixed.setdefault(int(account["id"]), fixed_of(body, side))
            self.created.setdefault(int(account["timestamp"]), int(account["id"]))
            if int(account["flags"]) & 1:
                self.links.setdefault(int(account["timestamp"]), int(account["id"]))
            self.balances[int(account["id"])] = tuple(int(account[name]) for name in BALANCES)

    def book(self):
        return "".join(f"account {id} {' '.join(map(str, shown))}\n" for id, shown in self.balances.items())


def audited(bodies, book=False, skips=False):
    """What the program has to print of these events, with --duplicates if `skips` is true, and its status."""
    it, refused, skipped = Audit(), "", 0
    for number, body in enumerate(bodies, 1):
        if skips and int(body["timestamp"]) <= it.last:
            skipped += 1
            continue
        why = it.refusal(body)
        if why:
            refused = f"refused: line {number}: {why}\n"
            break
        it.take(body)
    shown = f"subscriber 1 applied {it.count} last {it.last} ended no closed no\n{it.book()}" if book else ""
    counted = f"duplicates {skipped}\n" if skips else ""
    return f"accepted {it.count} last {it.last}\n{counted}{shown}{refused}", 3 if refused else 0


# ---------------------------------------------------------------------------------------------------------------------
# By hand.


def account(id, *balances, **others):
    members = {"user_data_128": "0", "user_data_64": "0", "user_data_32": 0, "code": 1, "flags": 0}
    members["timestamp"] = str(id)
    return {"id": str(id), **{name: str(value) for name, value in zip(BALANCES, balances)}, **members, **others}


SINGLE, PENDING, POSTED, VOIDED, EXPIRED = (*STORES, "two_phase_expired")
FLAGS = {PENDING: 2, POSTED: 4, VOIDED: 8}


def event(timestamp, id, kind, amount, debit, credit, pending=0):
    """An event's body; an account is its id and its four balances."""
    flags = FLAGS.get(kind, 0)
    members = {"user_data_128": "0", "user_data_64": "0", "user_data_32": 0, "timeout": 0, "code": 1, "flags": flags}
    transfer = {"id": str(id), "amount": str(amount), "pending_id": str(pending), **members, "timestamp": str(timestamp)}
    return {
        "timestamp": str(timestamp),
        "type": kind,
        "ledger": 700,
        "transfer": transfer,
        "debit_account": account(*debit),
        "credit_account": account(*credit),
    }


def with_transfer(body, **others):
    """A body with other fields of its transfer."""
    return {**body, "transfer": {**body["transfer"], **others}}


# Account 1 pays 30 to account 2, and holds back 10 for it, of which 4 are posted.
PAID = event(10, 1, SINGLE, 30, (1, 0, 30, 0, 0), (2, 0, 0, 0, 30))
HELD = event(20, 2, PENDING, 10, (1, 10, 30, 0, 0), (2, 0, 0, 10, 30))
POST = event(30, 3, POSTED, 4, (1, 0, 34, 0, 0), (2, 0, 0, 0, 34), 2)
VOID = event(30, 3, VOIDED, 10, (1, 0, 30, 0, 0), (2, 0, 0, 0, 30), 2)
# Or it holds back 10 for a second, after which they expire.
TIMED = with_transfer(HELD, timeout=1)
UP = 20 + SECOND
EXPIRY = {**VOID, "timestamp": str(UP), "type": EXPIRED, "transfer": TIMED["transfer"]}
END = {"end": True}


def rows():
    """Each row: what it is, the stream, what is printed, and the status."""
    yield "nothing", [], "accepted 0 last 0\n", 0
    yield "one event", [PAID], "accepted 1 last 10\n", 0
    yield "a post", [PAID, HELD, POST], "accepted 3 last 30\n", 0
    yield "a void", [PAID, HELD, VOID], "accepted 3 last 30\n", 0
    yield "an expiry", [PAID, TIMED, EXPIRY], f"accepted 3 last {UP}\n", 0
    yield "envelopes and the end", [{"previous": "0", "body": PAID}, END], "accepted 1 last 10\n", 0
    yield "the end twice", [PAID, END, END], "accepted 1 last 10\n", 0
    yield "an event after the end", [PAID, END, HELD], "accepted 1 last 10\nrefused: line 3: end: event 20 came after the end\n", 3
    yield "an event at 0", [{**PAID, "timestamp": "0"}], "accepted 0 last 0\nrefused: line 1: timestamps: 0, after 0\n", 3
    yield "one timestamp twice", [PAID, {**HELD, "timestamp": "10"}], (
        "accepted 1 last 10\nrefused: line 2: timestamps: 10, after 10\n"
    ), 3
    yield "an event twice", [PAID, PAID], "accepted 1 last 10\nrefused: line 2: timestamps: 10, after 10\n", 3
    one = event(10, 1, SINGLE, 5, (1, 0, 5, 0, 5), (1, 0, 5, 0, 5))
    yield "one account", [one], "accepted 0 last 0\nrefused: line 1: accounts: account 1 is debited and credited\n", 3
    again = event(20, 1, SINGLE, 1, (1, 0, 31, 0, 0), (2, 0, 0, 0, 31))
    yield "an id twice", [PAID, again], "accepted 1 last 10\nrefused: line 2: id: transfer 1 came before\n", 3
    yield "a post of nothing", [PAID, POST], "accepted 1 last 10\nrefused: line 2: pending: no pending transfer 2 came before\n", 3
    of_single = event(30, 3, POSTED, 4, (1, 0, 34, 0, 0), (2, 0, 0, 0, 34), 1)
    yield "a post of a single-phase transfer", [PAID, of_single], (
        "accepted 1 last 10\nrefused: line 2: pending: no pending transfer 1 came before\n"
    ), 3
    yield "an expiry of what was posted", [PAID, TIMED, POST, EXPIRY], (
        "accepted 3 last 30\nrefused: line 4: ended: pending transfer 2 ended before\n"
    ), 3
    second = event(UP + 1, 4, VOIDED, 10, (1, 0, 30, 0, 0), (2, 0, 0, 0, 30), 2)
    yield "a void of what expired", [PAID, TIMED, EXPIRY, second], (
        f"accepted 3 last {UP}\nrefused: line 4: ended: pending transfer 2 ended before\n"
    ), 3
    third = event(30, 3, SINGLE, 1, (1, 0, 35, 0, 0), (2, 0, 0, 0, 35))
    yield "an event that was left out", [PAID, third], (
        "accepted 1 last 10\nrefused: line 2: balances: account 1 has debits_posted 35, after 30 and this transfer's 1\n"
    ), 3
    wrong = event(20, 2, PENDING, 10, (1, 10, 30, 0, 0), (2, 0, 0, 9, 30))
    yield "credits that aren't held", [PAID, wrong], (
        "accepted 1 last 10\nrefused: line 2: balances: account 2 has credits_pending 9, after 0 and this transfer's 10\n"
    ), 3
    whole = event(30, 3, POSTED, 4, (1, 6, 34, 0, 0), (2, 0, 0, 6, 34), 2)
    yield "a post that releases its own amount", [PAID, HELD, whole], (
        "accepted 2 last 20\nrefused: line 3: balances: account 1 has debits_pending 6, after 10 less the pending transfer's 10\n"
    ), 3
    other = event(20, 2, SINGLE, 1, (1, 0, 31, 0, 0), (2, 0, 7, 0, 31))
    yield "a side that doesn't move", [PAID, other], (
        "accepted 1 last 10\nrefused: line 2: balances: account 2 has debits_posted 7, after 0\n"
    ), 3
    turned = event(20, 2, SINGLE, 1, (1, 0, 30, 0, 1), (2, 0, 1, 0, 30))
    yield "debit and credit exchanged", [PAID, turned], (
        "accepted 1 last 10\nrefused: line 2: balances: account 1 has debits_posted 30, after 30 and this transfer's 1\n"
    ), 3
    most = 2**128 - 1
    full = event(10, 1, SINGLE, most, (1, 0, most, 0, 0), (2, 0, 0, 0, most))
    over = event(20, 2, SINGLE, 1, (1, 0, 0, 0, 0), (3, 0, 0, 0, 1))
    yield "a sum past 128 bits", [full, over], (
        f"accepted 1 last 10\nrefused: line 2: balances: account 1 has debits_posted 0, after {most} and this transfer's 1\n"
    ), 3

    yield from rows_of_fields()
    yield from rows_of_times()
    yield from rows_of_chains()


def rows_of_fields():
    """The rows of what a transfer and an account may have, and of a pending transfer that is settled."""
    first = "accepted 0 last 0\nrefused: line 1: "
    second, third = "accepted 1 last 10\nrefused: line 2: ", "accepted 2 last 20\nrefused: line 3: "
    yield "no ledger", [{**PAID, "ledger": 0}], first + "shape: transfer 1 is invalid: ledger_must_not_be_zero\n", 3
    yield "a timeout that none may have", [with_transfer(PAID, timeout=1)], (
        first + "shape: transfer 1 is invalid: timeout_reserved_for_pending_transfer\n"
    ), 3
    yield "a post without a code", [PAID, HELD, with_transfer(POST, code=0)], (
        third + "shape: transfer 3 is invalid: code_must_not_be_zero\n"
    ), 3
    yield "another kind's flags", [with_transfer(PAID, flags=2)], first + "shape: transfer 1 has the flags of another kind\n", 3
    yield "linked", [with_transfer(PAID, flags=1)], "accepted 1 last 10\n", 0
    linked = with_transfer(PAID, flags=1)
    yield "a chain that breaks", [linked, HELD], second + "chains: event 20 isn't the next of the chain at 10\n", 3
    next_one = event(11, 2, PENDING, 10, (1, 10, 30, 0, 0), (2, 0, 0, 10, 30))
    yield "a chain", [linked, next_one], "accepted 2 last 11\n", 0
    yield "another timestamp", [with_transfer(PAID, timestamp="9")], (
        first + "shape: transfer 1 has timestamp 9, in an event at 10\n"
    ), 3
    exclusive = {**PAID, "credit_account": account(2, 0, 0, 0, 30, flags=6)}
    yield "two limits", [exclusive], first + "shape: account 2 is invalid: flags_are_mutually_exclusive\n", 3
    other = {**HELD, "credit_account": account(2, 0, 0, 10, 30, code=2)}
    yield "another code", [PAID, other], second + "fields: account 2 has code 2, after 1\n", 3
    other = {**HELD, "ledger": 701}
    yield "another ledger", [PAID, other], second + "fields: account 1 has ledger 701, after 700\n", 3
    later = {**PAID, "debit_account": account(1, 0, 30, 0, 0, timestamp="10")}
    yield "an account of later", [later], first + "created: account 1 at 10, in an event at 10\n", 3
    nothing = {**PAID, "debit_account": account(1, 0, 30, 0, 0, timestamp="0")}
    yield "an account of 0", [nothing], first + "created: account 1 at 0, in an event at 10\n", 3
    together = {**PAID, "credit_account": account(2, 0, 0, 0, 30, timestamp="1")}
    yield "two accounts at once", [together], first + "created: account 2 at 1, as account 1\n", 3
    for side, taken in (("debit_account", 1), ("credit_account", 2)):
        new = event(20, 2, SINGLE, 0, (1, 0, 30, 0, 0), (3, 0, 0, 0, 0))
        if side == "debit_account":
            new = event(20, 2, SINGLE, 0, (3, 0, 0, 0, 0), (2, 0, 0, 0, 30))
        yield f"an account of its own, {side}", [PAID, new], "accepted 2 last 20\n", 0
        for time, thing in ((taken, f"account {taken}"), (10, "an event")):
            other = {**new, side: account(3, 0, 0, 0, 0, timestamp=str(time))}
            printed = second + f"created: account 3 at {time}, as {thing}\n"
            yield f"an account at {time}, {side}", [PAID, other], printed, 3
    settles = "settles: pending transfer 2 has other accounts, another ledger, code or user data\n"
    other = event(30, 3, POSTED, 4, (1, 6, 34, 0, 0), (3, 0, 0, 0, 4), 2)
    yield "a post to another account", [PAID, HELD, other], third + settles, 3
    yield "a void with another code", [PAID, HELD, with_transfer(VOID, code=2)], third + settles, 3
    yield "an expiry with another timeout", [PAID, TIMED, with_transfer(EXPIRY, timeout=2)], third + settles, 3
    for name in DATA:
        held = with_transfer(HELD, **{name: 7 if name == "user_data_32" else "7"})
        yield f"a post without {name}", [PAID, held, POST], third + settles, 3
        yield f"a void without {name}", [PAID, held, VOID], third + settles, 3
        given = with_transfer(POST, **{name: 8 if name == "user_data_32" else "8"})
        yield f"a post with another {name}", [PAID, held, given], "accepted 3 last 30\n", 0
        yield f"a post with a {name}", [PAID, HELD, given], "accepted 3 last 30\n", 0
    more = event(30, 3, POSTED, 11, (1, 0, 41, 0, 0), (2, 0, 0, 0, 41), 2)
    yield "a post of more", [PAID, HELD, more], third + "amount: 11 of pending transfer 2, which holds 10\n", 3
    yield "a void of less", [PAID, HELD, with_transfer(VOID, amount="9")], (
        third + "amount: 9 of pending transfer 2, which holds 10\n"
    ), 3
    endless = {**EXPIRY, "transfer": HELD["transfer"]}
    yield "an expiry without a timeout", [PAID, HELD, endless], third + "timeouts: pending transfer 2 has no timeout\n", 3
    soon = {**EXPIRY, "timestamp": str(UP - 1)}
    yield "an expiry too soon", [PAID, TIMED, soon], (
        third + f"timeouts: pending transfer 2 expires at {UP - 1}, and its time is up at {UP}\n"
    ), 3
    last = event(UP - 1, 3, POSTED, 4, (1, 0, 34, 0, 0), (2, 0, 0, 0, 34), 2)
    yield "a post just in time", [PAID, TIMED, last], f"accepted 3 last {UP - 1}\n", 0
    late = event(UP, 3, POSTED, 4, (1, 0, 34, 0, 0), (2, 0, 0, 0, 34), 2)
    yield "a post too late", [PAID, TIMED, late], (
        third + f"timeouts: pending transfer 2 is settled at {UP}, and its time is up at {UP}\n"
    ), 3
    limited = {**PAID, "debit_account": account(1, 0, 30, 0, 0, flags=2)}
    yield "debits above credits", [limited], first + "limits: account 1 has debits of 30, above its credits of 0\n", 3
    limited = {**PAID, "credit_account": account(2, 0, 0, 0, 30, flags=4)}
    yield "credits above debits", [limited], first + "limits: account 2 has credits of 30, above its debits of 0\n", 3
    full = event(10, 1, PENDING, 1, (1, 1, 2**128 - 1, 0, 0), (2, 0, 0, 1, 0))
    yield "debits above 128 bits", [full], first + "limits: account 1 has debits above 128 bits\n", 3


def chain_of(count, first, linked_last):
    """So many events in a row between accounts 1 and 2, each but the last one linked, or all of them."""
    bodies = (event(first + n, 1 + n, SINGLE, 1, (1, 0, n + 1, 0, 0), (2, 0, 0, 0, n + 1)) for n in range(count))
    return [with_transfer(it, flags=int(linked_last or n < count - 1)) for n, it in enumerate(bodies)]


def between_linked(timestamp, id, *sides):
    """An event that moves nothing between two accounts: each is an id, when it was created, and its flags."""
    debit, credit = (account(id, 0, 0, 0, 0, timestamp=str(created), flags=flags) for id, created, flags in sides)
    body = event(timestamp, id, SINGLE, 0, (1, 0, 0, 0, 0), (2, 0, 0, 0, 0))
    return {**body, "debit_account": debit, "credit_account": credit}


def rows_of_chains():
    """The rows of chains that can't have their next item."""
    first, second = "accepted 0 last 0\nrefused: line 1: ", "accepted 1 last 10\nrefused: line 2: "
    after = "links: account 3 at {}, linked, right before an event\n"
    yield "a linked account before its event", [between_linked(10, 1, (3, 9, 1), (2, 2, 0))], first + after.format(9), 3
    yield "a credited one", [between_linked(10, 1, (2, 2, 0), (3, 9, 1))], first + after.format(9), 3
    yield "an unlinked account before its event", [between_linked(10, 1, (3, 9, 8), (2, 2, 0))], "accepted 1 last 10\n", 0
    event_first = [between_linked(10, 1, (1, 1, 0), (2, 2, 0)), between_linked(20, 2, (3, 9, 1), (2, 2, 0))]
    yield "a linked account before an earlier event", event_first, second + after.format(9), 3
    event_first = [between_linked(10, 1, (1, 1, 0), (2, 2, 0)), between_linked(20, 2, (3, 11, 1), (2, 2, 0))]
    yield "a linked account after an earlier event", event_first, "accepted 2 last 20\n", 0
    between = [between_linked(10, 1, (3, 5, 1), (2, 6, 1)), between_linked(20, 2, (1, 7, 0), (4, 11, 0))]
    yield "a chain of accounts", between, "accepted 2 last 20\n", 0
    yield "a linked transfer at the greatest timestamp", [with_transfer(at(GREATEST, PAID), flags=1)], (
        first + f"links: event {GREATEST} is linked, at the greatest timestamp\n"
    ), 3
    yield "a linked transfer before it", [with_transfer(at(GREATEST - 1, PAID), flags=1)], (
        f"accepted 1 last {GREATEST - 1}\n"
    ), 0
    yield "a whole chain of a batch", chain_of(BATCH, 10, False), f"accepted {BATCH} last {BATCH + 9}\n", 0
    yield "a chain of a batch, cut off", chain_of(BATCH - 1, 10, True), f"accepted {BATCH - 1} last {BATCH + 8}\n", 0
    yield "a longer chain", chain_of(BATCH, 10, True), (
        f"accepted {BATCH - 1} last {BATCH + 8}\nrefused: line {BATCH}: "
        f"links: event {BATCH + 9} is in a chain longer than a batch\n"
    ), 3
    pairs = [(created, created + 1) for created in range(1, BATCH - 1, 2)]
    accounts = [between_linked(5000 + one, one, (one, one, 1), (other, other, 1)) for one, other in pairs]
    count, last = len(accounts), 5000 + pairs[-1][0]
    ends = [(BATCH - 1, 1), (BATCH + 1, 1)], [(BATCH - 1, 1), (BATCH, 0)]
    for name, ((one, flags), (other, others)) in zip(("with a gap", "of a batch"), ends):
        body = between_linked(9000, 9000, (one, one, flags), (other, other, others))
        yield f"accounts linked in a row, {name}", [*accounts, body], f"accepted {count + 1} last 9000\n", 0
    body = between_linked(9000, 9000, (BATCH, BATCH, 1), (BATCH - 1, BATCH - 1, 1))
    yield "too many accounts linked in a row", [*accounts, body], (
        f"accepted {count} last {last}\nrefused: line {count + 1}: "
        f"links: account {BATCH} at {BATCH}, in a chain longer than a batch\n"
    ), 3


def at(timestamp, body):
    """A body at another timestamp, with the transfer that it stores."""
    return with_transfer({**body, "timestamp": str(timestamp)}, timestamp=str(timestamp))


def expiry(timestamp, pending, held):
    """The expiry of a pending transfer between accounts 1 and 2, after which so much is held."""
    balances = {"debit_account": account(1, held, 30, 0, 0), "credit_account": account(2, 0, 0, held, 30)}
    return {**pending, **balances, "timestamp": str(timestamp), "type": EXPIRED}


# Account 1 holds back 5 more until the 10 of transfer 2 have expired, or until both expire at once.
THREE = with_transfer(event(30, 3, PENDING, 5, (1, 15, 30, 0, 0), (2, 0, 0, 15, 30)), timeout=2)
LONG = with_transfer(HELD, timeout=2)
LATE = with_transfer(at(UP, THREE), timeout=1)
UP_BOTH = 20 + 2 * SECOND


def rows_of_times():
    """The rows of the order in which pending transfers expire, and of the greatest timestamp."""
    fifth, up = f"accepted 4 last {30 + 2 * SECOND}\nrefused: line 5: expiries: ", 30 + 2 * SECOND
    one, other = expiry(up, TIMED, 5), expiry(up + 1, THREE, 0)
    yield "two expiries", [PAID, TIMED, THREE, one, other], f"accepted 5 last {up + 1}\n", 0
    yield "two expiries apart", [PAID, TIMED, THREE, one, expiry(up + 9, THREE, 0)], f"accepted 5 last {up + 9}\n", 0
    late = "pending transfer 3 expires before pending transfer 2, which is first to expire\n"
    yield "an expiry before the first one", [PAID, TIMED, THREE, expiry(up, THREE, 10)], (
        "accepted 3 last 30\nrefused: line 4: expiries: " + late
    ), 3
    free = with_transfer(THREE, timeout=0)
    yield "an expiry, and one without a timeout", [PAID, TIMED, free, expiry(up, TIMED, 5)], f"accepted 4 last {up}\n", 0
    balances = {"debit_account": account(1, 5, 30, 0, 0), "credit_account": account(2, 0, 0, 5, 30)}
    void = with_transfer({**at(40, VOID), **balances}, id="4")
    yield "an expiry after the first one is voided", [PAID, TIMED, THREE, void, expiry(up, THREE, 0)], f"accepted 5 last {up}\n", 0
    both = [PAID, LONG, LATE]
    one, other = expiry(UP_BOTH, LONG, 5), expiry(UP_BOTH + 1, LATE, 0)
    yield "two expiries of one time", [*both, one, other], f"accepted 5 last {UP_BOTH + 1}\n", 0
    fifth = f"accepted 4 last {UP_BOTH}\nrefused: line 5: expiries: "
    apart = fifth + "pending transfer 3 expires with pending transfer 2, and not right after it\n"
    yield "two expiries of one time apart", [*both, one, expiry(UP_BOTH + 2, LATE, 0)], apart, 3
    paid = event(UP_BOTH + 1, 4, SINGLE, 1, (1, 5, 31, 0, 0), (2, 0, 0, 5, 31))
    balances = {"debit_account": account(1, 0, 31, 0, 0), "credit_account": account(2, 0, 0, 0, 31)}
    between = [*both, one, paid, {**expiry(UP_BOTH + 2, LATE, 0), **balances}]
    yield "an event between two expiries of one time", between, apart, 3
    yield "one of two expiries of one time alone", [*both, one, at(9 * UP_BOTH, paid)], apart, 3
    yield "the second of two expiries of one time", [*both, expiry(UP_BOTH, LATE, 10)], (
        f"accepted 3 last {UP}\nrefused: line 4: expiries: " + late
    ), 3
    # (no ledger's stream begins so, since the second one has no timestamp left: the one exception of the law)
    yield "one of two expiries of one time at the greatest timestamp", [*both, expiry(GREATEST, LONG, 5)], f"accepted 4 last {GREATEST}\n", 0
    yield "one of them a timestamp before", [*both, expiry(GREATEST - 1, LONG, 5), expiry(GREATEST, LATE, 0)], (
        f"accepted 5 last {GREATEST}\n"
    ), 0
    yield "the greatest timestamp", [at(GREATEST, PAID)], f"accepted 1 last {GREATEST}\n", 0
    yield "a greater timestamp", [at(GREATEST + 1, PAID)], (
        f"accepted 0 last 0\nrefused: line 1: timestamps: {GREATEST + 1} is above the greatest timestamp\n"
    ), 3
    yield "the greatest expiry time", [PAID, at(GREATEST - SECOND, TIMED)], f"accepted 2 last {GREATEST - SECOND}\n", 0
    yield "a greater expiry time", [PAID, at(GREATEST - SECOND + 1, TIMED)], (
        "accepted 1 last 10\nrefused: line 2: shape: transfer 2 is invalid: overflows_timeout\n"
    ), 3
    yield "no expiry time", [PAID, at(GREATEST, HELD)], f"accepted 2 last {GREATEST}\n", 0


def rows_of_another_ledger():
    """The rows with flags that this ledger hasn't: what they are, the stream, what is printed with --foreign, and the status."""
    first, second = "accepted 0 last 0\nrefused: line 1: ", "accepted 1 last 10\nrefused: line 2: "
    yield "a transfer's flag", [with_transfer(PAID, flags=16)], "accepted 1 last 10\n", 0
    yield "a flag and another timestamp", [with_transfer(PAID, flags=256, timestamp="5")], "accepted 1 last 10\n", 0
    yield "no flag and another timestamp", [with_transfer(PAID, timestamp="5")], (
        first + "shape: transfer 1 has timestamp 5, in an event at 10\n"
    ), 3
    yield "a linked transfer's flag", [with_transfer(PAID, flags=17), HELD], (
        second + "chains: event 20 isn't the next of the chain at 10\n"
    ), 3
    timed = with_transfer(TIMED, flags=18)
    yield "an expiry's flag", [PAID, timed, {**EXPIRY, "transfer": timed["transfer"]}], f"accepted 3 last {UP}\n", 0
    open_one = {**PAID, "debit_account": account(1, 0, 30, 0, 0, flags=16)}
    closed = {**HELD, "debit_account": account(1, 10, 30, 0, 0, flags=48)}
    yield "an account's flags that change", [open_one, closed], "accepted 2 last 20\n", 0
    other = {**HELD, "debit_account": account(1, 10, 30, 0, 0, flags=24)}
    yield "a flag of ours that changes", [open_one, other], second + "fields: account 1 has flags 8, after 0\n", 3
    limited = {**PAID, "debit_account": account(1, 0, 30, 0, 0, flags=18)}
    yield "a limit and a flag", [limited], first + "limits: account 1 has debits of 30, above its credits of 0\n", 3


def rows_with_duplicates():
    """What a stream is, the stream, and what is printed with --duplicates, with the status."""
    yield "nothing", [], "accepted 0 last 0\nduplicates 0\n", 0
    yield "no duplicate", [PAID, HELD, POST], "accepted 3 last 30\nduplicates 0\n", 0
    yield "an event twice", [PAID, PAID], "accepted 1 last 10\nduplicates 1\n", 0
    yield "an event three times", [PAID, HELD, HELD, HELD, POST], "accepted 3 last 30\nduplicates 2\n", 0
    yield "a rewind", [PAID, HELD, PAID, HELD, POST], "accepted 3 last 30\nduplicates 2\n", 0
    yield "a rewind within a chain", [with_transfer(PAID, flags=1), with_transfer(PAID, flags=1)], (
        "accepted 1 last 10\nduplicates 1\n"
    ), 0
    yield "all again, after the end", [PAID, HELD, END, PAID, HELD, END], "accepted 2 last 20\nduplicates 2\n", 0
    yield "a later event after the end", [PAID, END, PAID, HELD], (
        "accepted 1 last 10\nduplicates 1\nrefused: line 4: end: event 20 came after the end\n"
    ), 3
    yield "an event that is lost", [PAID, PAID, POST, PAID], (
        "accepted 1 last 10\nduplicates 1\nrefused: line 3: pending: no pending transfer 2 came before\n"
    ), 3
    yield "an event that is lost before a rewind", [PAID, POST, PAID, HELD, POST], (
        "accepted 1 last 10\nduplicates 0\nrefused: line 2: pending: no pending transfer 2 came before\n"
    ), 3
    # (what isn't found)
    yield "an event that is changed and comes late", [PAID, HELD, {**PAID, "ledger": 0}], "accepted 2 last 20\nduplicates 1\n", 0
    apart = event(20, 2, SINGLE, 5, (3, 0, 5, 0, 0), (4, 0, 0, 0, 5))
    yield "two events that are swapped", [apart, PAID], "accepted 1 last 20\nduplicates 1\n", 0
    later = event(40, 4, SINGLE, 1, (1, 0, 31, 0, 0), (2, 0, 0, 0, 31))
    yield "the next event after a swap", [apart, PAID, later], (
        "accepted 1 last 20\nduplicates 1\n"
        "refused: line 3: balances: account 1 has debits_posted 31, after 0 and this transfer's 1\n"
    ), 3
    yield "the timestamp 0", [at(0, PAID), PAID], "accepted 1 last 10\nduplicates 1\n", 0


def with_duplicates(folder):
    for name, stream, printed, status in rows_with_duplicates():
        found = run(["--duplicates"], text_of(stream))
        check(f"--duplicates, {name}", found[:2] == (status, printed) and bool(found[2]) == (status != 0), found)
    for name, stream, printed, status in rows():
        # (each of these streams has at most one event that isn't later, which is the one that is refused)
        found = run(["--duplicates"], text_of(stream))
        lines = printed.splitlines(True)
        if any(": timestamps: " in it and ", after " in it for it in lines):
            check(f"--duplicates, {name}", found[0] == 0 and lines[0] + "duplicates 1\n" == found[1], found)
        else:
            wanted = "".join([lines[0], "duplicates 0\n", *lines[1:]])
            check(f"--duplicates, {name}", found[:2] == (status, wanted), found)
    found = run(["--duplicates", "--json"], text_of([PAID, PAID]))
    lines = '{"kind":"accepted","events":1,"last":"10"}\n{"kind":"duplicates","events":1}\n'
    check("duplicates as JSON", found[:2] == (0, lines), found)
    found = run(["--duplicates", "--book"], text_of([PAID, PAID]))
    book = "subscriber 1 applied 1 last 10 ended no closed no\naccount 1 0 30 0 0\naccount 2 0 0 0 30\n"
    check("duplicates and the book", found[:2] == (0, "accepted 1 last 10\nduplicates 1\n" + book), found)
    found = run(["--duplicates"], text_of([PAID, PAID]) + b"\n{\n")
    check("a bad line after a duplicate", found[:2] == (2, "accepted 1 last 10\nduplicates 1\nfault: line 4: not_json\n"), found)
    other = with_transfer(PAID, flags=16)
    found = run(["--duplicates", "--foreign"], text_of([other, other]))
    check("another ledger's duplicate", found[:2] == (0, "accepted 1 last 10\nduplicates 1\n"), found)


def by_hand(folder):
    with_duplicates(folder)
    for name, stream, printed, status in rows_of_another_ledger():
        found = run(["--foreign"], text_of(stream))
        check(f"--foreign, {name}", found[:2] == (status, printed), found)
        plain = run([], text_of(stream))
        check(f"{name}, without --foreign", plain[0] == 3 and plain[1].endswith((": reserved_flag\n", "event at 10\n")), plain)
    for name, stream, printed, status in rows():
        found = run([], text_of(stream))
        check(name, found[:2] == (status, printed) and bool(found[2]) == (status != 0), found)
        file = os.path.join(folder, "stream")
        with open(file, "wb") as it:
            it.write(text_of(stream))
        check(f"{name}, in a file", run([file], b"")[:2] == (status, printed), found)
    book = "subscriber 1 applied 3 last 30 ended yes closed no\naccount 1 0 34 0 0\naccount 2 0 0 0 34\n"
    found = run(["--book"], text_of([PAID, HELD, POST, END]))
    check("the book", found[:2] == (0, "accepted 3 last 30\n" + book), found)
    found = run(["--json"], text_of([PAID, POST]))
    lines = '{"kind":"accepted","events":1,"last":"10"}\n{"kind":"refusal","line":2,"rule":"pending","transfer":"2"}\n'
    check("as JSON", found[:2] == (3, lines), found)
    for stream, members in json_rows():
        found = run(["--json"], text_of(stream))
        line = json.loads(found[1].splitlines()[-1])
        check(f"as JSON: {members['rule']}", line == {"kind": "refusal", "line": len(stream), **members}, found)
    found = run(["--json", "--book"], text_of([PAID]))
    kinds = [json.loads(it)["kind"] for it in found[1].splitlines()]
    check("the book as JSON", (found[0], kinds) == (0, ["accepted", "subscriber", "account", "account"]), found)
    for line, name in ((b"{\n", "not_json"), (b"{}\n", "missing"), (b" " * 65537 + b"\n", "too_long")):
        found = run([], text_of([PAID]) + line)
        check(f"a bad line: {name}", found[:2] == (2, f"accepted 1 last 10\nfault: line 2: {name}\n") and name in found[2], found)
    found = run(["--json"], b"{\n")
    line = '{"kind":"line_fault","line":1,"name":"not_json"}\n'
    check("a bad line as JSON", found[:2] == (2, '{"kind":"accepted","events":0,"last":"0"}\n' + line), found)
    found = run([os.path.join(folder, "nowhere")], b"")
    check("a stream that isn't there", found[:2] == (1, "fault: read_fault\n") and "read_fault" in found[2], found)
    for arguments in (["a", "b"], ["--chained"], ["--skip-gaps"]):
        found = run(arguments, b"")
        check(f"usage: {arguments}", found[0] == 2 and not found[1] and found[2].startswith("error: "), found)


def json_rows():
    """The members of a refusal, for each rule."""
    one = event(10, 1, SINGLE, 5, (1, 0, 5, 0, 5), (1, 0, 5, 0, 5))
    again = event(20, 1, SINGLE, 1, (1, 0, 31, 0, 0), (2, 0, 0, 0, 31))
    wrong = event(30, 3, POSTED, 4, (1, 6, 34, 0, 0), (2, 0, 0, 6, 34), 2)
    yield [PAID, END, HELD], {"rule": "end", "timestamp": "20"}
    yield [PAID, PAID], {"rule": "timestamps", "timestamp": "10", "last": "10"}
    yield [at(GREATEST + 1, PAID)], {"rule": "timestamps", "timestamp": str(GREATEST + 1)}
    pending, up = [PAID, TIMED, THREE], 30 + 2 * SECOND
    yield [*pending, expiry(up, THREE, 10)], {"rule": "expiries", "transfer": "3", "after": "2"}
    apart = [PAID, LONG, LATE, expiry(UP_BOTH, LONG, 5), expiry(UP_BOTH + 2, LATE, 0)]
    yield apart, {"rule": "expiries", "transfer": "3", "after": "2"}
    yield [one], {"rule": "accounts", "account": "1"}
    yield [PAID, again], {"rule": "id", "transfer": "1"}
    yield [PAID, TIMED, POST, EXPIRY], {"rule": "ended", "transfer": "2"}
    yield [PAID, HELD, {**EXPIRY, "transfer": HELD["transfer"]}], {"rule": "timeouts", "transfer": "2"}
    yield [with_transfer(PAID, flags=1), HELD], {"rule": "chains", "timestamp": "20", "last": "10"}
    times = {"timestamp": str(UP - 1), "end": str(UP)}
    yield [PAID, TIMED, {**EXPIRY, "timestamp": str(UP - 1)}], {"rule": "timeouts", "transfer": "2", **times}
    yield [{**PAID, "ledger": 0}], {"rule": "shape", "transfer": "1", "result": "ledger_must_not_be_zero"}
    yield [with_transfer(PAID, flags=2)], {"rule": "shape", "transfer": "1"}
    yield [with_transfer(PAID, timestamp="9")], {"rule": "shape", "transfer": "1", "shown": "9", "timestamp": "10"}
    nameless = {**PAID, "debit_account": account(1, 0, 30, 0, 0, code=0)}
    yield [nameless], {"rule": "shape", "account": "1", "result": "code_must_not_be_zero"}
    other = {**HELD, "credit_account": account(2, 0, 0, 10, 30, code=2)}
    yield [PAID, other], {"rule": "fields", "account": "2", "field": "code", "shown": "2", "before": "1"}
    later = {**PAID, "debit_account": account(1, 0, 30, 0, 0, timestamp="10")}
    yield [later], {"rule": "created", "account": "1", "created": "10", "timestamp": "10"}
    together = {**PAID, "credit_account": account(2, 0, 0, 0, 30, timestamp="1")}
    yield [together], {"rule": "created", "account": "2", "created": "1", "other": "1"}
    new = event(20, 2, SINGLE, 0, (1, 0, 30, 0, 0), (3, 0, 0, 0, 0))
    at_event = {**new, "credit_account": account(3, 0, 0, 0, 0, timestamp="10")}
    yield [PAID, at_event], {"rule": "created", "account": "3", "created": "10"}
    yield [PAID, HELD, with_transfer(VOID, code=2)], {"rule": "settles", "transfer": "2"}
    yield [PAID, HELD, with_transfer(VOID, amount="9")], {"rule": "amount", "transfer": "2", "amount": "9", "held": "10"}
    limited = {**PAID, "debit_account": account(1, 0, 30, 0, 0, flags=2)}
    yield [limited], {"rule": "limits", "account": "1", "side": "debits", "sum": "30", "limit": "0"}
    full = event(10, 1, PENDING, 1, (1, 1, 2**128 - 1, 0, 0), (2, 0, 0, 1, 0))
    yield [full], {"rule": "limits", "account": "1", "side": "debits"}
    yield [between_linked(10, 1, (3, 9, 1), (2, 2, 0))], {"rule": "links", "account": "3", "created": "9"}
    yield [with_transfer(at(GREATEST, PAID), flags=1)], {"rule": "links", "timestamp": str(GREATEST)}
    shown = {"shown": "6", "before": "10", "added": "0", "released": "10"}
    yield [PAID, HELD, wrong], {"rule": "balances", "account": "1", "field": "debits_pending", **shown}


# ---------------------------------------------------------------------------------------------------------------------
# Random streams.

PATHS = [("timestamp",), ("ledger",)]
PATHS += [("transfer", it) for it in ("id", "amount", "pending_id", "timeout", "code", "flags", "timestamp", *DATA)]
PATHS += [(side, it) for side in ("debit_account", "credit_account") for it in (*BALANCES, "id", "code", "flags", "timestamp")]


def bodies_of(seed):
    """The events of a random script that the model's ledger took, as bodies."""
    return bodies_in(soak.case_of("audit", seed).script)


def expiries_of(seed):
    """The same of a script of pending transfers, many of which expire at once."""
    rng = random.Random(f"expiries {seed}")
    lines = ["subscriber all", "accounts 10", *(f"account id={it} ledger=700 code=1" for it in (1, 2))]
    batches = [(1000 + it * SECOND, rng.randrange(1, 4)) for it in range(rng.randrange(2, 6))]
    pulses = [(rng.randrange(1, 9) * SECOND + rng.randrange(2000), 0) for _ in range(rng.randrange(1, 4))]
    id = 0
    for time, count in sorted(batches + pulses):
        lines += [f"transfers {time}"] if count else [f"pulse {time}"]
        for _ in range(count):
            id += 1
            between = f"debit_account_id=1 credit_account_id=2 amount={rng.randrange(1, 9)}"
            lines.append(f"transfer id={id} {between} ledger=700 code=1 flags=2 timeout={rng.randrange(1, 5)}")
        if count and id > 1 and rng.random() < 0.3:
            lines += [f"transfers {time + 10}", f"transfer id={100 + id} pending_id={rng.randrange(1, id)} flags={rng.choice((4, 8))}"]
    return bodies_in("\n".join([*lines, f"pulse {20 * SECOND}", ""]).encode())


def bodies_in(script):
    """The events of a script that the model's ledger took, as bodies; none if it is refused."""
    try:
        ledger, _ = model.run_batches(model.read_script(script))
    except model.Fault:
        return []
    return [json.loads(model.body(it)) for it in ledger.events]


def changed(rng, body):
    """A body with another value in one field, and the field's path."""
    path = rng.choice(PATHS)
    copy = json.loads(json.dumps(body))
    part = copy
    for name in path[:-1]:
        part = part[name]
    value = int(part[path[-1]])
    other = rng.choice([value + 1, max(value - 1, 0), 0, value * 2 + 1, rng.randrange(2**16)])
    most = 2**64 - 1 if path[-1] in ("timestamp", "user_data_64") else 2**128 - 1
    if other == value or other > most:
        other = value - 1 if value else 1
    part[path[-1]] = str(other) if isinstance(part[path[-1]], str) else other % 2**16
    return copy, path


def appears_later(bodies, place):
    """Whether an account of an event appears again after it."""
    ids = {bodies[place][side]["id"] for side in ("debit_account", "credit_account")}
    return any(it[side]["id"] in ids for it in bodies[place + 1 :] for side in ("debit_account", "credit_account"))


def must_be_found(kind, path, bodies, place):
    """Whether a change has to be refused, whatever the stream."""
    body = bodies[place]
    if kind in ("doubled", "swapped"):
        return True
    if kind == "dropped":
        amount = int(body["transfer"]["amount"])
        return amount > 0 and body["type"] in (*MOVES, *HOLDS) and appears_later(bodies, place)
    return path[-1] in BALANCES or path == ("transfer", "amount") and body["type"] in (*MOVES, *HOLDS)


def exchanged(bodies):
    """The streams in which two expiries, one right after the other, are exchanged, with the balances that follow."""
    for place in range(len(bodies) - 1):
        one, other = bodies[place : place + 2]
        if one["type"] != EXPIRED or other["type"] != EXPIRED:
            continue
        less = int(other["transfer"]["amount"]) - int(one["transfer"]["amount"])
        debit, credit = one["debit_account"], one["credit_account"]
        first = {
            **other,
            "timestamp": one["timestamp"],
            "debit_account": {**debit, "debits_pending": str(int(debit["debits_pending"]) - less)},
            "credit_account": {**credit, "credits_pending": str(int(credit["credits_pending"]) - less)},
        }
        sides = {side: other[side] for side in SIDES}
        second = {**one, "timestamp": other["timestamp"], **sides}
        yield "exchanged", [*bodies[:place], first, second, *bodies[place + 2 :]], True


def kept(bodies):
    """The streams in which a pending transfer never expires, while a later one does, with the balances that follow."""
    places = [place for place, it in enumerate(bodies) if it["type"] == EXPIRED]
    for place in places[:-1]:
        amount, rest = int(bodies[place]["transfer"]["amount"]), []
        for body in bodies[place + 1 :]:
            debit, credit = body["debit_account"], body["credit_account"]
            rest.append({
                **body,
                "debit_account": {**debit, "debits_pending": str(int(debit["debits_pending"]) + amount)},
                "credit_account": {**credit, "credits_pending": str(int(credit["credits_pending"]) + amount)},
            })
        yield "kept", [*bodies[:place], *rest], True


def mutants(rng, bodies):
    """Changed streams: the kind, the stream, and whether it has to be refused."""
    for kind in ("dropped", "doubled", "swapped", "changed", "changed", "changed"):
        place = rng.randrange(len(bodies))
        stream, path = list(bodies), None
        if kind == "dropped":
            del stream[place]
        elif kind == "doubled":
            stream.insert(rng.randrange(place + 1, len(stream) + 1), stream[place])
        elif kind == "swapped":
            if place + 1 == len(stream):
                continue
            stream[place : place + 2] = reversed(stream[place : place + 2])
        else:
            stream[place], path = changed(rng, stream[place])
        name = f"changed {path[-1]}" if path else kind
        yield name, stream, must_be_found(kind, path, bodies, place)


def redelivered(rng, bodies):
    """A stream that is rewound a few times, and how many of its events are redeliveries."""
    stream, again, place = [], 0, 0
    while place < len(bodies):
        stream.append(bodies[place])
        place += 1
        if rng.random() < 0.1:
            back = rng.randrange(1, min(place, 6) + 1)
            again, place = again + back, place - back
    return stream, again


def random_stream(seed):
    """What is wrong with what the program makes of a random stream and of its mutants, and what of these it didn't refuse."""
    rng = random.Random(f"audit {seed}")
    bodies, expiries, wrong, missed = bodies_of(seed), expiries_of(seed), [], []
    for stream in (bodies, expiries):
        text, status = audited(stream, True)
        found = run(["--book"], text_of(stream))
        if status or found[:2] != (0, text):
            wrong.append(f"seed {seed}: {found!r}, not {text!r}")
        again, count = redelivered(rng, stream)
        first, book = text.split("\n", 1)
        found = run(["--book", "--duplicates"], text_of(again))
        if found[:2] != (0, f"{first}\nduplicates {count}\n{book}"):
            wrong.append(f"seed {seed}, {count} duplicates: {found!r}, not {text!r}")
    changes = list(mutants(rng, bodies)) if bodies else []
    for others in (list(exchanged(expiries)), list(kept(expiries))):
        changes += rng.sample(others, min(1, len(others)))
    for kind, stream, must in changes:
        text, status = audited(stream)
        found = run([], text_of(stream))
        if found[:2] != (status, text) or must and status == 0:
            wrong.append(f"seed {seed}, {kind}: {found!r}, not {text!r}")
        left = audited(stream, skips=True)
        found = run(["--duplicates"], text_of(stream))
        if found[:2] != left[::-1]:
            wrong.append(f"seed {seed}, {kind}, --duplicates: {found!r}, not {left!r}")
        missed.append((kind, status))
    return wrong, missed


def random_streams(count):
    counts = collections.Counter()
    with concurrent.futures.ProcessPoolExecutor(JOBS, initializer=commands.begin, initargs=(commands.program, "audit")) as pool:
        for wrong, missed in pool.map(random_stream, range(count), chunksize=20):
            check("a random stream", not wrong, wrong)
            counts.update(missed)
    kinds = sorted({kind for kind, _ in counts})
    accepted = ", ".join(f"{it} {counts[it, 0]} of {counts[it, 0] + counts[it, 1]}" for it in kinds)
    print(f"audit: accepted all the same: {accepted}")


def main(arguments):
    import audit_states  # (which takes its events from here)

    return commands.main(arguments, __doc__, "audit", [by_hand, audit_states.states], random_streams, STREAMS)


if __name__ == "__main__":
    ending.run(main)
