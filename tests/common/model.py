#!/usr/bin/env python3
"""Relayplum from outside: ledger, messages, bindings, broker, sessions, subscribers and printed text in plain Python.

Written from docs/FORMATS.md and the public documents that it names, without a look into crates/, so that it can be
laid beside the program: `soak.py` compares the two on random scripts. Balances are sums over all entries, a queue is
what the broker accepted cut by a binding, and so on: it is meant to be read, and to be right on scripts of some
hundred lines.

    tests/common/model.py books FILE
    tests/common/model.py messages FILE
    tests/common/model.py simulate FILE STEPS [--window N] [--deliveries SUBSCRIBER [--expect]]
    tests/common/model.py run FILE [--lose-confirm N].. [--lose-publish N].. [--restart-after N].. [--repeat QUEUE:POSITION]..
                            [--close SUBSCRIBER:N].. [--window N] [--prefetch N] [--start-after N]

FILE may be `-`. Output and exit status are those of `relayplum` with the same words; under `run`, of a script with
batches of several clients, what it prints where they come to the ledger in the order of the file.
"""
import json
import sys
from dataclasses import dataclass, field, fields, replace

import ending

MOST_BYTES = 1_048_576
MOST_ITEMS = 1_000
MOST_PAIRS = 10
MOST_SUBSCRIBERS = 8
CLIENTS = (1, 2, 3, 4)
GREATEST_128 = 2**128 - 1
GREATEST_TIMESTAMP = 2**63 - 1
SECOND = 1_000_000_000


# ---------------------------------------------------------------- The ledger

# The place of a name is its number.
ACCOUNT_RESULTS = [
    'ok',
    'reserved_flag',
    'id_must_not_be_zero',
    'id_must_not_be_int_max',
    'flags_are_mutually_exclusive',
    'ledger_must_not_be_zero',
    'code_must_not_be_zero',
    'exists_with_different_fields',
    'exists',
    'linked_event_failed',
    'linked_event_chain_open',
]
TRANSFER_RESULTS = [
    'ok',
    'reserved_flag',
    'id_must_not_be_zero',
    'id_must_not_be_int_max',
    'flags_are_mutually_exclusive',
    'pending_id_must_be_zero',
    'pending_id_must_not_be_zero',
    'pending_id_must_be_different',
    'timeout_reserved_for_pending_transfer',
    'ledger_must_not_be_zero',
    'code_must_not_be_zero',
    'accounts_must_be_different',
    'exists_with_different_fields',
    'exists',
    'debit_account_not_found',
    'credit_account_not_found',
    'accounts_must_have_the_same_ledger',
    'transfer_must_have_the_same_ledger_as_accounts',
    'pending_transfer_not_found',
    'pending_transfer_not_pending',
    'pending_transfer_has_different_debit_account_id',
    'pending_transfer_has_different_credit_account_id',
    'pending_transfer_has_different_ledger',
    'pending_transfer_has_different_code',
    'exceeds_pending_transfer_amount',
    'pending_transfer_has_different_amount',
    'pending_transfer_already_posted',
    'pending_transfer_already_voided',
    'pending_transfer_expired',
    'overflows_debits_pending',
    'overflows_credits_pending',
    'overflows_debits_posted',
    'overflows_credits_posted',
    'overflows_debits',
    'overflows_credits',
    'overflows_timeout',
    'exceeds_credits',
    'exceeds_debits',
    'linked_event_failed',
    'linked_event_chain_open',
]
RESULTS = {'accounts': ACCOUNT_RESULTS, 'transfers': TRANSFER_RESULTS}
BATCH_REFUSALS = ['', 'ledger_closed', 'batch_too_large', 'timestamps_exhausted']

# The flag of accounts and of transfers that links an item to the next one.
LINKED = 1
# Flags of accounts.
DEBITS_LIMITED = 2
CREDITS_LIMITED = 4
HISTORY = 8
ACCOUNT_FLAGS = LINKED | DEBITS_LIMITED | CREDITS_LIMITED | HISTORY
# Flags of transfers.
PENDING = 2
POST = 4
VOID = 8
TRANSFER_FLAGS = LINKED | PENDING | POST | VOID

ACCOUNT_WIDTHS = {
    'id': 128,
    'user_data_128': 128,
    'user_data_64': 64,
    'user_data_32': 32,
    'ledger': 32,
    'code': 16,
    'flags': 16,
}
TRANSFER_WIDTHS = {
    'id': 128,
    'debit_account_id': 128,
    'credit_account_id': 128,
    'amount': 128,
    'pending_id': 128,
    'user_data_128': 128,
    'user_data_64': 64,
    'user_data_32': 32,
    'timeout': 32,
    'ledger': 32,
    'code': 16,
    'flags': 16,
}


@dataclass(frozen=True)
class NewAccount:
    """An account as a client asks for it."""

    id: int = 0
    user_data_128: int = 0
    user_data_64: int = 0
    user_data_32: int = 0
    ledger: int = 0
    code: int = 0
    flags: int = 0


@dataclass(frozen=True)
class NewTransfer:
    """A transfer as a client asks for it; what the ledger stores has the same fields, filled in."""

    id: int = 0
    debit_account_id: int = 0
    credit_account_id: int = 0
    amount: int = 0
    pending_id: int = 0
    user_data_128: int = 0
    user_data_64: int = 0
    user_data_32: int = 0
    timeout: int = 0
    ledger: int = 0
    code: int = 0
    flags: int = 0

    @property
    def is_plain(self):
        """Whether it is single-phase or pending."""
        return not self.flags & (POST | VOID)


@dataclass(frozen=True)
class Stored:
    """An account that was opened, or a transfer that was accepted, with its timestamp."""

    request: object
    timestamp: int

    @property
    def end(self):
        """The timestamp when a pending transfer expires; None without a timeout."""
        if self.request.timeout == 0:
            return None
        return self.timestamp + self.request.timeout * SECOND


@dataclass(frozen=True)
class Entry:
    """One movement: an accepted transfer, or an expiry, which shows the pending transfer."""

    timestamp: int
    kind: str
    transfer: Stored


@dataclass(frozen=True)
class Balances:
    debits_pending: int = 0
    debits_posted: int = 0
    credits_pending: int = 0
    credits_posted: int = 0


@dataclass(frozen=True)
class Event:
    """An entry with both accounts, and their balances right after it."""

    timestamp: int
    kind: str
    transfer: Stored
    debit_account: Stored
    debit_balances: Balances
    credit_account: Stored
    credit_balances: Balances


@dataclass
class Batch:
    """What goes to the ledger at once: `kind` is accounts, transfers or pulse."""

    kind: str
    now: int
    client: int
    items: list = field(default_factory=list)


class BatchRefused(Exception):
    """The ledger refuses a batch as a whole, under this name."""

    def __init__(self, name):
        super().__init__(name)
        self.name = name


class Ledger:
    def __init__(self):
        self.accounts = {}  # opened ones by their id
        self.transfers = {}  # accepted ones by their id
        self.entries = []
        self.events = []
        self.ends_of = {}  # what became of a pending transfer, by its id: the kind of the entry that settled it
        self.last = 0
        self.closed = False

    def submit(self, batch):
        """The results of the items as numbers; of a pulse, how many transfers expired."""
        if self.closed:
            raise BatchRefused('ledger_closed')
        if len(batch.items) > MOST_ITEMS:
            raise BatchRefused('batch_too_large')
        items = self.due(batch.now) if batch.kind == 'pulse' else batch.items
        base = max(batch.now, self.last + 1)
        if items and base + len(items) - 1 > GREATEST_TIMESTAMP:
            raise BatchRefused('timestamps_exhausted')
        if items:
            self.last = base + len(items) - 1
        if batch.kind == 'pulse':
            for place, transfer in enumerate(items):
                self.record(Entry(base + place, 'two_phase_expired', transfer))
            return len(items)
        results = []
        for chain in chains_of(items):
            results += self.take_chain(batch.kind, chain, base + len(results))
        return results

    def take_chain(self, kind, chain, base):
        """Takes all items of a chain, or none; the results of its items."""
        before, results = self.mark() if len(chain) > 1 else None, []
        for place, item in enumerate(chain):
            if place == len(chain) - 1 and is_linked(item):
                result = RESULTS[kind].index('linked_event_chain_open')
            elif any(results):
                result = RESULTS[kind].index('linked_event_failed')
            else:
                result = self.take_item(kind, item, base + place)
            results.append(result)
        if before and any(results):
            self.undo(before)
        return [result or RESULTS[kind].index('linked_event_failed') if any(results) else 0 for result in results]

    def mark(self):
        """What the ledger is undone to."""
        return dict(self.accounts), dict(self.transfers), dict(self.ends_of), len(self.entries)

    def undo(self, mark):
        """Makes the ledger what it was at a mark; the timestamps since stay used."""
        self.accounts, self.transfers, self.ends_of, count = mark
        del self.entries[count:], self.events[count:]

    def take_item(self, kind, item, timestamp):
        return self.take_account(item, timestamp) if kind == 'accounts' else self.take_transfer(item, timestamp)

    def take_account(self, asked, timestamp):
        result = account_result(self, asked)
        if result == 'ok':
            self.accounts[asked.id] = Stored(asked, timestamp)
        return ACCOUNT_RESULTS.index(result)

    def take_transfer(self, asked, timestamp):
        result = transfer_result(self, asked, timestamp)
        if result == 'ok':
            transfer = Stored(self.filled_in(asked), timestamp)
            self.transfers[asked.id] = transfer
            self.record(Entry(timestamp, kind_of(asked), transfer))
        return TRANSFER_RESULTS.index(result)

    def filled_in(self, asked):
        """A post or a void with what it leaves out taken from its pending transfer; a plain request as it is."""
        pending = self.transfers.get(asked.pending_id)
        if asked.is_plain or pending is None:
            return asked
        p = pending.request
        return replace(
            asked,
            debit_account_id=asked.debit_account_id or p.debit_account_id,
            credit_account_id=asked.credit_account_id or p.credit_account_id,
            ledger=asked.ledger or p.ledger,
            code=asked.code or p.code,
            user_data_128=asked.user_data_128 or p.user_data_128,
            user_data_64=asked.user_data_64 or p.user_data_64,
            user_data_32=asked.user_data_32 or p.user_data_32,
            amount=filled_in_amount(asked, p),
        )

    def record(self, entry):
        """Appends an entry and its event."""
        if entry.kind == 'two_phase_expired':
            self.ends_of[entry.transfer.request.id] = entry.kind
        elif not entry.transfer.request.is_plain:
            self.ends_of[entry.transfer.request.pending_id] = entry.kind
        self.entries.append(entry)
        debit = self.accounts[entry.transfer.request.debit_account_id]
        credit = self.accounts[entry.transfer.request.credit_account_id]
        self.events.append(
            Event(
                timestamp=entry.timestamp,
                kind=entry.kind,
                transfer=entry.transfer,
                debit_account=debit,
                debit_balances=self.balances(debit.request.id),
                credit_account=credit,
                credit_balances=self.balances(credit.request.id),
            )
        )

    def balances(self, account):
        """Four sums over the entries: what is pending and not settled, and what is posted."""
        sums = {'debits_pending': 0, 'debits_posted': 0, 'credits_pending': 0, 'credits_posted': 0}
        for entry in self.entries:
            transfer = entry.transfer.request
            if entry.kind == 'two_phase_pending' and transfer.id not in self.ends_of:
                column = 'pending'
            elif entry.kind in ('single_phase', 'two_phase_posted'):
                column = 'posted'
            else:
                continue
            if transfer.debit_account_id == account:
                sums['debits_' + column] += transfer.amount
            if transfer.credit_account_id == account:
                sums['credits_' + column] += transfer.amount
        return Balances(**sums)

    def due(self, now):
        """The pending transfers that expire by a pulse, in the order of when they expire, then of timestamps."""
        pending = [entry.transfer for entry in self.entries if entry.kind == 'two_phase_pending']
        unsettled = [transfer for transfer in pending if transfer.request.id not in self.ends_of]
        due = [transfer for transfer in unsettled if transfer.end is not None and transfer.end <= now]
        return sorted(due, key=lambda transfer: (transfer.end, transfer.timestamp))


def is_linked(item):
    """Whether an item and the next one of its batch are accepted together, or neither is."""
    return bool(item.flags & LINKED)


def chains_of(items):
    """A batch parted into its chains: each goes on through linked items up to the first that isn't. An item that isn't linked
    and follows none that is stands by itself. Only the batch's last chain may end with a linked item."""
    chains, goes_on = [], False
    for item in items:
        if goes_on:
            chains[-1].append(item)
        else:
            chains.append([item])
        goes_on = is_linked(item)
    return chains


def kind_of(request):
    """The kind of the event of a transfer."""
    if request.flags & PENDING:
        return 'two_phase_pending'
    if request.flags & POST:
        return 'two_phase_posted'
    if request.flags & VOID:
        return 'two_phase_voided'
    return 'single_phase'


def filled_in_amount(asked, p):
    """What a post or a void of the pending transfer p really moves."""
    is_of_all = asked.amount == GREATEST_128 if asked.flags & POST else asked.amount == 0
    return p.amount if is_of_all else asked.amount


def account_result(ledger, asked):
    """The first line of the table of accounts that applies."""
    if asked.flags & ~ACCOUNT_FLAGS:
        return 'reserved_flag'
    if asked.id == 0:
        return 'id_must_not_be_zero'
    if asked.id == GREATEST_128:
        return 'id_must_not_be_int_max'
    if asked.flags & DEBITS_LIMITED and asked.flags & CREDITS_LIMITED:
        return 'flags_are_mutually_exclusive'
    if asked.ledger == 0:
        return 'ledger_must_not_be_zero'
    if asked.code == 0:
        return 'code_must_not_be_zero'
    if asked.id in ledger.accounts:
        same = ledger.accounts[asked.id].request == asked
        return 'exists' if same else 'exists_with_different_fields'
    return 'ok'


def transfer_result(ledger, asked, timestamp):
    """The first line of the table of transfers that applies."""
    shape = shape_result(asked)
    if shape != 'ok':
        return shape
    if asked.id in ledger.transfers:
        same = ledger.transfers[asked.id].request == ledger.filled_in(asked)
        return 'exists' if same else 'exists_with_different_fields'
    if asked.is_plain:
        return plain_result(ledger, asked, timestamp)
    return settling_result(ledger, asked, timestamp)


def shape_result(asked):
    """The lines that the request alone decides."""
    if asked.flags & ~TRANSFER_FLAGS:
        return 'reserved_flag'
    if asked.id == 0:
        return 'id_must_not_be_zero'
    if asked.id == GREATEST_128:
        return 'id_must_not_be_int_max'
    if asked.flags & ~LINKED not in (0, PENDING, POST, VOID):
        return 'flags_are_mutually_exclusive'
    if asked.is_plain and asked.pending_id != 0:
        return 'pending_id_must_be_zero'
    if not asked.is_plain and asked.pending_id == 0:
        return 'pending_id_must_not_be_zero'
    if not asked.is_plain and asked.pending_id == asked.id:
        return 'pending_id_must_be_different'
    if not asked.flags & PENDING and asked.timeout != 0:
        return 'timeout_reserved_for_pending_transfer'
    if asked.is_plain and asked.ledger == 0:
        return 'ledger_must_not_be_zero'
    if asked.is_plain and asked.code == 0:
        return 'code_must_not_be_zero'
    if asked.is_plain and asked.debit_account_id == asked.credit_account_id:
        return 'accounts_must_be_different'
    return 'ok'


def plain_result(ledger, asked, timestamp):
    """The lines on accounts, sums, ends and limits of a single-phase or pending request."""
    if asked.debit_account_id not in ledger.accounts:
        return 'debit_account_not_found'
    if asked.credit_account_id not in ledger.accounts:
        return 'credit_account_not_found'
    debit_account = ledger.accounts[asked.debit_account_id].request
    credit_account = ledger.accounts[asked.credit_account_id].request
    if debit_account.ledger != credit_account.ledger:
        return 'accounts_must_have_the_same_ledger'
    if asked.ledger != debit_account.ledger:
        return 'transfer_must_have_the_same_ledger_as_accounts'
    debit = ledger.balances(debit_account.id)
    credit = ledger.balances(credit_account.id)
    is_pending = bool(asked.flags & PENDING)
    if is_pending and debit.debits_pending + asked.amount > GREATEST_128:
        return 'overflows_debits_pending'
    if is_pending and credit.credits_pending + asked.amount > GREATEST_128:
        return 'overflows_credits_pending'
    if debit.debits_posted + asked.amount > GREATEST_128:
        return 'overflows_debits_posted'
    if credit.credits_posted + asked.amount > GREATEST_128:
        return 'overflows_credits_posted'
    debits = debit.debits_pending + debit.debits_posted + asked.amount
    credits = credit.credits_pending + credit.credits_posted + asked.amount
    if debits > GREATEST_128:
        return 'overflows_debits'
    if credits > GREATEST_128:
        return 'overflows_credits'
    end = Stored(asked, timestamp).end
    if end is not None and end > GREATEST_TIMESTAMP:
        return 'overflows_timeout'
    if debit_account.flags & DEBITS_LIMITED and debits > debit.credits_posted:
        return 'exceeds_credits'
    if credit_account.flags & CREDITS_LIMITED and credits > credit.debits_posted:
        return 'exceeds_debits'
    return 'ok'


def settling_result(ledger, asked, timestamp):
    """The lines on the pending transfer of a post or a void."""
    if asked.pending_id not in ledger.transfers:
        return 'pending_transfer_not_found'
    pending = ledger.transfers[asked.pending_id]
    p = pending.request
    if not p.flags & PENDING:
        return 'pending_transfer_not_pending'
    if asked.debit_account_id not in (0, p.debit_account_id):
        return 'pending_transfer_has_different_debit_account_id'
    if asked.credit_account_id not in (0, p.credit_account_id):
        return 'pending_transfer_has_different_credit_account_id'
    if asked.ledger not in (0, p.ledger):
        return 'pending_transfer_has_different_ledger'
    if asked.code not in (0, p.code):
        return 'pending_transfer_has_different_code'
    amount = filled_in_amount(asked, p)
    if amount > p.amount:
        return 'exceeds_pending_transfer_amount'
    if asked.flags & VOID and amount < p.amount:
        return 'pending_transfer_has_different_amount'
    became = ledger.ends_of.get(p.id)
    if became == 'two_phase_posted':
        return 'pending_transfer_already_posted'
    if became == 'two_phase_voided':
        return 'pending_transfer_already_voided'
    if became == 'two_phase_expired' or (pending.end is not None and pending.end <= timestamp):
        return 'pending_transfer_expired'
    return 'ok'


# ---------------------------------------------------------------- Messages and bindings

EVENT_TYPES = ('single_phase', 'two_phase_pending', 'two_phase_posted', 'two_phase_voided', 'two_phase_expired')
# The headers in the order in which `messages` prints them; a number's greatest value, None for a text.
HEADERS = {
    'event_type': None,
    'ledger': 2**32 - 1,
    'transfer_code': 2**16 - 1,
    'debit_account_code': 2**16 - 1,
    'credit_account_code': 2**16 - 1,
}


def headers(event):
    """What an event's message is routed by."""
    return {
        'event_type': event.kind,
        'ledger': event.transfer.request.ledger,
        'transfer_code': event.transfer.request.code,
        'debit_account_code': event.debit_account.request.code,
        'credit_account_code': event.credit_account.request.code,
    }


def body(event):
    """The JSON text of an event."""
    transfer = event.transfer.request
    members = {
        'timestamp': str(event.timestamp),
        'type': event.kind,
        'ledger': transfer.ledger,
        'transfer': {
            'id': str(transfer.id),
            'amount': str(transfer.amount),
            'pending_id': str(transfer.pending_id),
            'user_data_128': str(transfer.user_data_128),
            'user_data_64': str(transfer.user_data_64),
            'user_data_32': transfer.user_data_32,
            'timeout': transfer.timeout,
            'code': transfer.code,
            'flags': transfer.flags,
            'timestamp': str(event.transfer.timestamp),
        },
        'debit_account': account_members(event.debit_account, event.debit_balances),
        'credit_account': account_members(event.credit_account, event.credit_balances),
    }
    return json.dumps(members, sort_keys=True, separators=(',', ':'))


def account_members(stored, balances):
    account = stored.request
    return {
        'id': str(account.id),
        'debits_pending': str(balances.debits_pending),
        'debits_posted': str(balances.debits_posted),
        'credits_pending': str(balances.credits_pending),
        'credits_posted': str(balances.credits_posted),
        'user_data_128': str(account.user_data_128),
        'user_data_64': str(account.user_data_64),
        'user_data_32': account.user_data_32,
        'code': account.code,
        'flags': account.flags,
        'timestamp': str(stored.timestamp),
    }


@dataclass(frozen=True)
class Binding:
    """The mode is `all` or `any`; each pair is a header's name and the value that it should have."""

    mode: str
    pairs: tuple

    def matches(self, event):
        found = headers(event)
        agree = [found[name] == value for name, value in self.pairs]
        return all(agree) if self.mode == 'all' else any(agree)


# ---------------------------------------------------------------- Broker, session, subscriber

# What stands behind the last event of a closed ledger.
END_MARK = 'the end mark'


@dataclass(frozen=True)
class Connect:
    session: int


@dataclass(frozen=True)
class Publish:
    session: int
    tag: int
    item: object  # an event, or the end mark


@dataclass(frozen=True)
class Confirm:
    session: int
    tag: int


class Broker:
    def __init__(self, bindings):
        self.bindings = bindings
        self.connection = 0
        self.expected = 1  # the tag that comes next under the current connection
        self.accepted = []  # items, in order
        self.cursors = [1] * len(bindings)
        self.acked = [0] * len(bindings)

    def arrive(self, packet):
        """What becomes of a packet: connected, accepted, or why it is ignored."""
        if isinstance(packet, Connect):
            if packet.session <= self.connection:
                return 'earlier connection'
            self.connection = packet.session
            self.expected = 1
            return 'connected'
        if self.connection == 0 or packet.session != self.connection:
            return 'wrong connection'
        if packet.tag != self.expected:
            return 'wrong tag'
        self.expected += 1
        self.accepted.append(packet.item)
        return 'accepted'

    def queue(self, place):
        """What the broker accepted, cut by a binding; position 1 stands first."""
        binding = self.bindings[place]
        return [item for item in self.accepted if item is END_MARK or binding.matches(item)]

    def rewind(self, place):
        self.cursors[place] = self.acked[place] + 1

    def acknowledge(self, place, position):
        self.acked[place] = max(self.acked[place], position)
        self.cursors[place] = max(self.cursors[place], self.acked[place] + 1)


def begun(progress, timestamp=None):
    """What is saved when a session starts: its number, its base and the start. `timestamp` is the start that was asked for."""
    if progress is None:
        return 1, timestamp or 0, timestamp or 0
    session, timestamp, start = progress
    return session + 1, timestamp, start


class Session:
    def __init__(self, number, base, start, window):
        self.number = number
        self.base = base
        self.start = start  # it is kept in what the session saves
        self.window = window
        self.offered = []  # events, the one with tag 1 first
        self.complete = False  # whether the end mark follows the last one offered
        self.connected = False  # whether the connect was sent
        self.sent = 0  # the last tag that was sent
        self.confirmed = set()  # tags

    def wanted(self):
        """For how many events it asks."""
        unsent = len(self.offered) - min(self.sent, len(self.offered))
        unconfirmed = len(self.offered) - len([tag for tag in self.confirmed if tag <= len(self.offered)])
        if unsent > 0 or self.complete:
            return 0
        return self.window - unconfirmed

    def after(self):
        """The timestamp after which it asks."""
        return self.offered[-1].timestamp if self.offered else self.base

    def next_packet(self):
        """The packet that it sends next, or None."""
        if not self.connected:
            self.connected = True
            return Connect(self.number)
        if self.sent < len(self.offered):
            self.sent += 1
            return Publish(self.number, self.sent, self.offered[self.sent - 1])
        all_confirmed = all(tag in self.confirmed for tag in range(1, self.sent + 1))
        if self.complete and self.sent == len(self.offered) and all_confirmed:
            self.sent += 1
            return Publish(self.number, self.sent, END_MARK)
        return None

    def confirm(self, confirm):
        """Whether a confirm counts."""
        is_new = confirm.tag <= self.sent and confirm.tag not in self.confirmed
        if confirm.session != self.number or not is_new:
            return False
        self.confirmed.add(confirm.tag)
        return True

    def timestamp(self):
        """The timestamp of the last event such that it and each earlier one were confirmed, or the base."""
        timestamp = self.base
        for tag, event in enumerate(self.offered, start=1):
            if tag not in self.confirmed:
                break
            timestamp = event.timestamp
        return timestamp


class Subscriber:
    def __init__(self):
        self.applied = []
        self.ended = False
        self.closed = False

    def last(self):
        return self.applied[-1].timestamp if self.applied else 0

    def take(self, item):
        """What it answers to an item that it is handed."""
        if self.closed:
            return 'after close'
        if self.ended:
            return 'repeat after the end'
        if item is END_MARK:
            self.ended = True
            return 'ended'
        if item.timestamp <= self.last():
            return 'repeat'
        self.applied.append(item)
        return 'applied'

    def book(self):
        """The last balances that the applied events show of each account, in the order of its first event."""
        book = {}
        for event in self.applied:
            book[event.debit_account.request.id] = event.debit_balances
            book[event.credit_account.request.id] = event.credit_balances
        return book


class Chain:
    """What `chain` keeps of a stream: the timestamps of the last event taken and of the last one of each queue, and whether the end came."""

    def __init__(self, places, last=0, ended=False):
        self.places, self.last, self.ended, self.duplicates = list(places), last, ended, 0

    def take(self, timestamp, queues):
        """Takes an event that these queues take, by their numbers from 1, or the end if `timestamp` is None. Returns a line for each
        queue that gets one: its number, and the timestamp of the event before. None: the event contradicts the end."""
        if self.last >= timestamp if timestamp is not None else self.ended:
            self.duplicates += 1
            return []
        if timestamp is None:
            self.ended = True
            return list(enumerate(self.places, 1))
        if self.ended:
            return None
        lines = [(queue, self.places[queue - 1]) for queue in queues]
        for queue in queues:
            self.places[queue - 1] = timestamp
        self.last = timestamp
        return lines


BALANCES = ('debits_pending', 'debits_posted', 'credits_pending', 'credits_posted')


class Checked:
    """What checked following applies of events that come in any order and number: an event is applied if it is later than
    the last applied one of each of its accounts, and if its balances, and what it settles, follow from what was applied
    of these. `baseline`: the first event of an account is taken as it is, and a pending transfer that no applied event
    stored is taken to hold what its settlement releases."""

    def __init__(self, baseline=False):
        self.baseline = baseline
        self.applied = []
        self.lasts = {}  # of each account the timestamp of its last applied event
        self.balances = {}  # and the balances that it shows
        self.open_ones = {}  # the event of each open pending transfer, by the transfer's id

    def take(self, event):
        """What becomes of an event: applied, late, or the reason why it is refused."""
        if event.timestamp <= max(self.lasts.get(id, 0) for id in accounts_of(event)):
            return 'late'
        why = self.refusal(event)
        if why:
            return why
        for id, shown in zip(accounts_of(event), (event.debit_balances, event.credit_balances)):
            self.lasts[id], self.balances[id] = event.timestamp, shown
        if event.kind == 'two_phase_pending':
            self.open_ones[event.transfer.request.id] = event
        self.open_ones.pop(settled_by(event), None)
        self.applied.append(event)
        return 'applied'

    def refusal(self, event):
        """Why an event doesn't follow, or None."""
        pending = self.open_ones.get(settled_by(event))
        if settled_by(event) is not None and pending is None and not self.baseline:
            return 'not pending'
        if pending and not settles_so(event, pending):
            return 'settles'
        return None if not list(self.mismatches(event)) else 'balances'

    def mismatches(self, event):
        """The balances of an event that don't follow: of each the account, the name, what is shown, what is known, what is added and
        what is released."""
        posted, held, released = self.moved(event)
        moved = {'pending': (held, released), 'posted': (posted, 0)}
        shown = (event.debit_balances, event.credit_balances)
        for account, side, balances in zip(accounts_of(event), ('debits', 'credits'), shown):
            known = self.known(account)
            for name in BALANCES if known else ():
                added, gone = moved[name.split('_')[1]] if name.startswith(side) else (0, 0)
                if getattr(balances, name) != getattr(known, name) + added - gone:
                    yield account, name, getattr(balances, name), getattr(known, name), added, gone

    def known(self, account):
        """The balances of an account; None if they aren't known."""
        return self.balances.get(account, None if self.baseline else Balances())

    def moved(self, event):
        """What an event adds to posted sums, what it adds to pending ones, and what it releases of these."""
        amount = event.transfer.request.amount
        posted = amount if event.kind in ('single_phase', 'two_phase_posted') else 0
        held = amount if event.kind == 'two_phase_pending' else 0
        if settled_by(event) is None:
            return posted, held, 0
        pending = self.open_ones.get(settled_by(event))
        return posted, held, pending.transfer.request.amount if pending else self.inferred(event)

    def inferred(self, event):
        """What an event releases of a pending transfer that no applied event stored."""
        amount = event.transfer.request.amount
        return max(amount, self.fall(event)) if event.kind == 'two_phase_posted' else amount

    def fall(self, event):
        """How far a pending sum falls with an event: the debited account's if it is known, otherwise the credited one's."""
        debit, credit = (self.known(account) for account in accounts_of(event))
        if debit:
            return max(debit.debits_pending - event.debit_balances.debits_pending, 0)
        return max(credit.credits_pending - event.credit_balances.credits_pending, 0) if credit else 0


def accounts_of(event):
    """The ids of an event's debited and credited account."""
    return event.debit_account.request.id, event.credit_account.request.id


def settled_by(event):
    """The id of the pending transfer that an event settles, or None."""
    request = event.transfer.request
    if event.kind == 'two_phase_expired':
        return request.id
    return request.pending_id if event.kind in ('two_phase_posted', 'two_phase_voided') else None


def settles_so(event, pending):
    """Whether an event has the accounts, the ledger and the code of the pending transfer, and an amount and a timestamp at
    which it can settle that one."""
    one, other = event.transfer.request, pending.transfer.request
    if (accounts_of(event), one.ledger, one.code) != (accounts_of(pending), other.ledger, other.code):
        return False
    end = pending.transfer.end
    if event.kind == 'two_phase_expired':
        return event.transfer == pending.transfer and end is not None and end <= event.timestamp
    if end is not None and end <= event.timestamp:
        return False
    if any(not getattr(one, name) and getattr(other, name) for name in ('user_data_128', 'user_data_64', 'user_data_32')):
        return False
    return one.amount <= other.amount if event.kind == 'two_phase_posted' else one.amount == other.amount


# ---------------------------------------------------------------- The world

# The steps and how many numbers follow each one's words.
STEPS = {
    'batch': 0,
    'close_ledger': 0,
    'start': 0,
    'start at': 1,
    'crash': 0,
    'poll': 0,
    'publish': 0,
    'arrive': 1,
    'answer': 1,
    'save': 0,
    'send': 1,
    'rewind': 1,
    'break': 1,
    'take': 1,
    'ack': 2,
    'close': 1,
}


@dataclass(frozen=True)
class Step:
    word: str
    numbers: tuple = ()


class StepRefused(Exception):
    """A step that can't be taken, under this name."""

    def __init__(self, name):
        super().__init__(name)
        self.name = name


def enabled_where(condition):
    if not condition:
        raise StepRefused('not_enabled')


@dataclass(frozen=True)
class Delivery:
    """An item that a subscriber took before its close, the position of its queue that it came from, and whether the queue had
    sent that position before; the subscriber's answer, and how many events it had applied then."""

    position: int
    redelivered: bool
    item: object
    answer: str
    applied: int


class Seat:
    """A subscriber, and what is on its way to it and from it. Acknowledgements are positions."""

    def __init__(self):
        self.subscriber = Subscriber()
        self.sent = set()  # the positions that were ever sent
        self.flight = []  # each a position, and whether it had been sent before
        self.acks = []  # all that were ever sent
        self.deliveries = []


class World:
    def __init__(self, bindings, batches, window):
        self.ledger = Ledger()
        self.batches = list(batches)  # those that were not submitted yet
        self.window = window
        self.progress = None  # what the store holds: session, timestamp and start
        self.session = None
        self.packets = []  # all that were ever sent
        self.confirms = []  # all that were ever sent
        self.broker = Broker(bindings)
        self.seats = [Seat() for _ in bindings]

    def take(self, step):
        """Takes a step, or refuses it and changes nothing. A batch answers its results, other steps a few words."""
        match step.word:
            case 'batch':
                return self.batch()
            case 'close_ledger':
                return self.close_ledger()
            case 'start' | 'start at':
                return self.start(*step.numbers)
            case 'crash':
                return self.crash()
            case 'poll':
                return self.poll()
            case 'publish':
                return self.publish()
            case 'arrive':
                return self.arrive(*step.numbers)
            case 'answer':
                return self.answer(*step.numbers)
            case 'save':
                return self.save()
            case 'send':
                return self.send(*step.numbers)
            case 'rewind':
                return self.rewind(*step.numbers)
            case 'break':
                return self.break_off(*step.numbers)
            case 'take':
                return self.take_delivery(*step.numbers)
            case 'ack':
                return self.ack(*step.numbers)
            case 'close':
                return self.close(*step.numbers)

    def batch(self):
        enabled_where(self.batches)
        try:
            results = self.ledger.submit(self.batches[0])
        except BatchRefused as refusal:
            raise StepRefused('refused') from refusal
        return self.batches.pop(0), results

    def close_ledger(self):
        was_closed = self.ledger.closed
        self.ledger.closed = True
        return 'closed already' if was_closed else 'closed'

    def start(self, timestamp=None):
        enabled_where(self.session is None)
        if timestamp is not None and self.progress is not None:
            raise StepRefused('start_not_allowed')
        self.progress = begun(self.progress, timestamp)
        self.session = Session(*self.progress, self.window)
        return 'first session' if self.session.number == 1 else 'later session'

    def crash(self):
        enabled_where(self.session is not None)
        self.session = None
        return 'crashed'

    def poll(self):
        enabled_where(self.session is not None)
        wanted = self.session.wanted()
        enabled_where(wanted > 0)
        later = [event for event in self.ledger.events if event.timestamp > self.session.after()]
        self.session.offered += later[:wanted]
        self.session.complete = self.ledger.closed and len(later) <= wanted
        return ('events' if later else 'no events') + (', the end' if self.session.complete else '')

    def publish(self):
        enabled_where(self.session is not None)
        packet = self.session.next_packet()
        enabled_where(packet is not None)
        self.packets.append(packet)
        if isinstance(packet, Connect):
            return 'connect'
        return 'end mark' if packet.item is END_MARK else 'event'

    def arrive(self, number):
        enabled_where(1 <= number <= len(self.packets))
        packet = self.packets[number - 1]
        answer = self.broker.arrive(packet)
        if answer == 'accepted':
            self.confirms.append(Confirm(packet.session, packet.tag))
        return answer

    def answer(self, number):
        enabled_where(self.session is not None and 1 <= number <= len(self.confirms))
        confirm = self.confirms[number - 1]
        if self.session.confirm(confirm):
            return 'counted'
        return 'confirmed already' if confirm.session == self.session.number else 'of another session'

    def save(self):
        enabled_where(self.session is not None)
        before = self.progress
        self.progress = (self.session.number, self.session.timestamp(), self.session.start)
        return 'the same' if self.progress == before else 'moved'

    def seat(self, number):
        enabled_where(1 <= number <= len(self.seats))
        return self.seats[number - 1]

    def send(self, number):
        seat = self.seat(number)
        place = number - 1
        position = self.broker.cursors[place]
        enabled_where(position <= len(self.broker.queue(place)))
        self.broker.cursors[place] += 1
        seat.flight.append((position, position in seat.sent))
        seat.sent.add(position)
        return 'delivered'

    def rewind(self, number):
        self.seat(number)
        return self.go_back(number - 1)

    def go_back(self, place):
        before = self.broker.cursors[place]
        self.broker.rewind(place)
        return 'the same' if self.broker.cursors[place] == before else 'moved'

    def break_off(self, number):
        seat = self.seat(number)
        lost = 'deliveries lost' if seat.flight else 'nothing lost'
        seat.flight = []
        return lost + ', cursor ' + self.go_back(number - 1)

    def take_delivery(self, number):
        seat = self.seat(number)
        enabled_where(seat.flight)
        position, redelivered = seat.flight.pop(0)
        seat.acks.append(position)
        item = self.broker.queue(number - 1)[position - 1]
        answer = seat.subscriber.take(item)
        if answer != 'after close':
            applied = len(seat.subscriber.applied)
            seat.deliveries.append(Delivery(position, redelivered, item, answer, applied))
        return answer

    def ack(self, number, which):
        seat = self.seat(number)
        enabled_where(1 <= which <= len(seat.acks))
        place = number - 1
        before = self.broker.acked[place], self.broker.cursors[place]
        self.broker.acknowledge(place, seat.acks[which - 1])
        if self.broker.cursors[place] != before[1]:
            return 'lifts the cursor'
        return 'moved' if self.broker.acked[place] != before[0] else 'covered already'

    def close(self, number):
        subscriber = self.seat(number).subscriber
        was_closed = subscriber.closed
        subscriber.closed = True
        return 'closed already' if was_closed else 'closed'


# ---------------------------------------------------------------- Runs


@dataclass(frozen=True)
class Plan:
    """The faults of a run. Each count begins with 1 and is over the whole run.

    How many deliveries may be on their way, and which queues rewind, shows nowhere, and how many events a session waits
    for in the numbers of sessions alone.
    """

    lose_confirm: tuple = ()
    lose_publish: tuple = ()
    restart_after: tuple = ()
    close: tuple = ()  # pairs of a subscriber and a number of applied events
    window: int = 1
    start: int = None  # the timestamp after which the first session is to start

    def breaks(self):
        """How many of its faults can end a session, at the most."""
        return sum(len(set(counts)) for counts in (self.lose_confirm, self.lose_publish, self.restart_after))

    def close_after(self, subscriber):
        """After how many applied events a subscriber closes; None where it stays open."""
        return min((count for number, count in self.close if number == subscriber), default=None)


def published(events, plan, progress):
    """What the broker takes of a connector with a window of one event, in order, and the progress saved in the end.

    An item is sent again, by the next session, where the publish or its confirm was lost and where the connector was
    to restart right after it; what was saved until then stays.
    """
    session, timestamp, start = (0, plan.start or 0, plan.start or 0) if progress is None else progress
    sent = 0
    taken = []
    is_done = False
    while not is_done:
        session += 1
        for item in [event for event in events if event.timestamp > timestamp] + [END_MARK]:
            sent += 1
            is_confirmed = sent not in plan.lose_publish
            if is_confirmed:
                taken.append(item)
                is_confirmed = len(taken) not in plan.lose_confirm
            if sent in plan.restart_after or not is_confirmed:
                break
            if item is END_MARK:
                is_done = True
            else:
                timestamp = item.timestamp
    return taken, (session, timestamp, start)


def received(items, binding, close_after):
    """A subscriber that was handed these items, as far as its binding lets them through."""
    subscriber = Subscriber()
    for item in items:
        if item is END_MARK or binding.matches(item):
            subscriber.take(item)
        if close_after is not None and len(subscriber.applied) >= close_after:
            subscriber.closed = True
    return subscriber


# ---------------------------------------------------------------- Scripts and step files

SCRIPT_FAULTS = [
    '',
    'bad_text',
    'unknown_word',
    'wrong_count',
    'bad_number',
    'number_out_of_range',
    'unknown_key',
    'key_twice',
    'no_open_batch',
    'bad_binding',
    'too_many_subscribers',
    'bad_client',
    'no_subscriber',
    'too_long',
]
STEP_FAULTS = ['bad_text', 'unknown_word', 'wrong_count', 'bad_number', 'number_out_of_range', 'too_long']


class Fault(Exception):
    """The first fault of a script or a step file; line 0 means all of it."""

    def __init__(self, line, name):
        super().__init__(line, name)
        self.line = line
        self.name = name


class Words:
    """The words of a line, taken from the left. Each fault is raised where its word is taken."""

    def __init__(self, line, words):
        self.line = line
        self.words = words

    def fault(self, name):
        return Fault(self.line, name)

    def have_more(self):
        return len(self.words) > 0

    def take(self):
        """The next word; there has to be one."""
        if not self.have_more():
            raise self.fault('wrong_count')
        word = self.words.pop(0)
        if not word.isascii() or not word.decode('ascii').isprintable():
            raise self.fault('bad_text')
        return word.decode('ascii')

    def number(self, word, bits):
        if not is_decimal(word):
            raise self.fault('bad_number')
        number = value_of(word)
        if number >= 2**bits:
            raise self.fault('number_out_of_range')
        return number

    def end(self):
        """There has to be no further word."""
        if self.have_more():
            self.take()
            raise self.fault('wrong_count')


def is_decimal(word):
    return word.isascii() and word.isdigit()


def value_of(digits):
    """The number that digits say; of one far above 2^128 nothing is asked but that it is too large."""
    digits = digits.lstrip('0')
    return int(digits[:50]) if digits else 0


def lines_of(data):
    """The words of each line that has any, with the line's number."""
    if len(data) > MOST_BYTES:
        raise Fault(0, 'too_long')
    pieces = data.split(b'\n')
    for number, piece in enumerate(pieces, start=1):
        has_line_feed = number < len(pieces)
        if has_line_feed and piece.endswith(b'\r'):
            piece = piece[:-1]
        words = [word for word in piece.split(b' ') if word]
        if words and not piece.startswith(b'#'):
            yield Words(number, words)


@dataclass
class Script:
    bindings: list
    batches: list


class ScriptReader:
    def __init__(self):
        self.script = Script([], [])
        self.client = 1
        self.open = None  # the kind of the open batch

    def read_line(self, words):
        first = words.take()
        if first in ('account', 'transfer'):
            return self.item(first, words)
        self.open = None
        if first == 'subscriber':
            self.subscriber(words)
        elif first == 'client':
            self.client = self.client_number(words)
        elif first in ('accounts', 'transfers'):
            self.batch(first, words)
            self.open = first
        elif first == 'pulse':
            self.batch(first, words)
        else:
            raise words.fault('unknown_word')

    def subscriber(self, words):
        if len(self.script.bindings) == MOST_SUBSCRIBERS:
            raise words.fault('too_many_subscribers')
        self.script.bindings.append(read_binding(words))

    def client_number(self, words):
        number = words.number(words.take(), 64)
        if number not in CLIENTS:
            raise words.fault('bad_client')
        words.end()
        return number

    def batch(self, kind, words):
        now = words.number(words.take(), 64)
        words.end()
        self.script.batches.append(Batch(kind, now, self.client))

    def item(self, kind, words):
        if self.open != kind + 's':
            raise words.fault('no_open_batch')
        if kind == 'account':
            request = NewAccount(**read_fields(words, ACCOUNT_WIDTHS))
        else:
            request = NewTransfer(**read_fields(words, TRANSFER_WIDTHS))
        self.script.batches[-1].items.append(request)


def read_binding(words):
    """A binding of the words that are left."""
    if not words.have_more():
        raise words.fault('bad_binding')
    mode = words.take()
    if mode not in ('all', 'any'):
        raise words.fault('bad_binding')
    pairs = []
    while words.have_more():
        key, equals, value = words.take().partition('=')
        if len(pairs) == MOST_PAIRS or equals == '' or key not in HEADERS:
            raise words.fault('bad_binding')
        pairs.append((key, header_value(words, key, value)))
    return Binding(mode, tuple(pairs))


def header_value(words, key, text):
    """The value of a pair, if the header can have it."""
    if key == 'event_type' and text in EVENT_TYPES:
        return text
    if key != 'event_type' and is_decimal(text) and value_of(text) <= HEADERS[key]:
        return value_of(text)
    raise words.fault('bad_binding')


def read_fields(words, widths):
    """The fields that the words `key=value` give; there has to be one."""
    given = {}
    if not words.have_more():
        raise words.fault('wrong_count')
    while words.have_more():
        key, equals, value = words.take().partition('=')
        if equals == '' or key not in widths:
            raise words.fault('unknown_key')
        number = words.number(value, widths[key])
        if key in given:
            raise words.fault('key_twice')
        given[key] = number
    return given


def read_script(data):
    reader = ScriptReader()
    for words in lines_of(data):
        reader.read_line(words)
    if not reader.script.bindings:
        raise Fault(0, 'no_subscriber')
    return reader.script


def read_steps(data):
    return [read_step(words) for words in lines_of(data)]


def read_step(words):
    word = words.take()
    if word not in STEPS:
        raise words.fault('unknown_word')
    if word == 'start' and words.have_more():
        return read_start(words)
    numbers = tuple(words.number(words.take(), 64) for _ in range(STEPS[word]))
    words.end()
    return Step(word, numbers)


def read_start(words):
    """What follows the word of a start that isn't alone: `at` and a timestamp up to the greatest timestamp."""
    if words.take() != 'at':
        raise words.fault('wrong_count')
    timestamp = words.number(words.take(), 63)
    words.end()
    return Step('start at', (timestamp,))


# ---------------------------------------------------------------- Commands and printed text


@dataclass
class Report:
    """What a command prints, its exit status, and how it came to that."""

    text: str
    status: int
    fault: tuple = None  # of which file, and its name
    batches: list = field(default_factory=list)  # each with its results, or the name of its refusal
    steps: list = field(default_factory=list)  # each with its answer
    refused: tuple = None  # the step that was refused, and the name of the refusal
    world: World = None  # what `simulate` came to
    progress: tuple = None  # what `run` saved last
    more_sessions: int = 0  # by how many the last session's number may be greater: that hangs on the threads


def report_of_fault(file, fault):
    return Report(f'fault: {file} line {fault.line}: {fault.name}\n', 2, fault=(file, fault.name))


def batch_line(number, batch, results):
    if isinstance(results, str):
        return f'batch {number} refused: {BATCH_REFUSALS.index(results)} {results}\n'
    if batch.kind == 'pulse':
        return f'batch {number}: pulse {results}\n'
    return f'batch {number}:' + ''.join(f' {result}' for result in results) + '\n'


def subscriber_lines(number, subscriber):
    count, last = len(subscriber.applied), subscriber.last()
    ended, closed = yes_or_no(subscriber.ended), yes_or_no(subscriber.closed)
    lines = [f'subscriber {number} applied {count} last {last} ended {ended} closed {closed}\n']
    for account, balances in subscriber.book().items():
        numbers = ' '.join(str(getattr(balances, column.name)) for column in fields(balances))
        lines.append(f'account {account} {numbers}\n')
    return ''.join(lines)


def yes_or_no(value):
    return 'yes' if value else 'no'


def run_batches(script, order=None):
    """A ledger that was handed all batches and then closed, and each batch with its results, in file order.

    The batches come to it in file order too, or in the order of these places.
    """
    ledger = Ledger()
    results = {}
    for place in range(len(script.batches)) if order is None else order:
        try:
            results[place] = ledger.submit(script.batches[place])
        except BatchRefused as refusal:
            results[place] = refusal.name
    ledger.closed = True
    return ledger, [(batch, results[place]) for place, batch in enumerate(script.batches)]


def batch_lines(batches):
    return ''.join(batch_line(number, batch, results) for number, (batch, results) in enumerate(batches, start=1))


def books(script_data):
    try:
        script = read_script(script_data)
    except Fault as fault:
        return report_of_fault('script', fault)
    ledger, batches = run_batches(script)
    text = batch_lines(batches)
    for number, binding in enumerate(script.bindings, start=1):
        subscriber = Subscriber()
        for event in ledger.events:
            if binding.matches(event):
                subscriber.take(event)
        subscriber.take(END_MARK)
        text += subscriber_lines(number, subscriber)
    return Report(text, 0, batches=batches)


def messages(script_data):
    try:
        script = read_script(script_data)
    except Fault as fault:
        return report_of_fault('script', fault)
    ledger, batches = run_batches(script)
    text = ''
    for event in ledger.events:
        text += ' '.join(f'{name}={value}' for name, value in headers(event).items())
        text += f' timestamp={event.timestamp // SECOND}\n{body(event)}\n'
    return Report(text, 0, batches=batches)


def simulate(script_data, steps_data, window=1, skips=False):
    """What `simulate` prints; with `--skip-refused`, it is a play of the steps that aren't refused."""
    try:
        script = read_script(script_data)
    except Fault as fault:
        return report_of_fault('script', fault)
    try:
        steps = read_steps(steps_data)
    except Fault as fault:
        return report_of_fault('steps', fault)
    world = World(script.bindings, script.batches, window)
    report = Report('', 0, world=world)
    play(world, steps, report, skips)
    if skips:
        steps = report.steps
    report.batches = [answer for step, answer in report.steps if step.word == 'batch']
    report.text = batch_lines(report.batches) + f'steps {len(report.steps)} of {len(steps)}\n'
    if report.refused is not None:
        report.text += f'refused {len(report.steps) + 1} {report.refused[1]}\n'
        report.status = 1
    report.text += 'progress ' + ('none' if world.progress is None else '%d %d' % world.progress[:2]) + '\n'
    for number, seat in enumerate(world.seats, start=1):
        report.text += subscriber_lines(number, seat.subscriber)
    return report


# What an answer to a delivery is in `simulate --expect`.
RESULTS_OF_ANSWERS = {'applied': 'applied', 'repeat': 'duplicate', 'repeat after the end': 'duplicate', 'ended': 'end'}


def short(members):
    return json.dumps(members, separators=(',', ':')) + '\n'


def delivery_lines(world, number):
    """What is delivered to a subscriber up to its close: a line for each delivery, in the order of its takes."""
    fed = [it for it in world.ledger.events if world.broker.bindings[number - 1].matches(it)]
    deliveries = enumerate(world.seats[number - 1].deliveries, start=1)
    return ''.join(delivery_line(fed, count, it.position, it.redelivered, it.item) for count, it in deliveries)


def delivery_line(fed, count, position, redelivered, item):
    """The line of the delivery of this number, to a subscriber whose queue takes these events of the ledger."""
    is_end = item is END_MARK
    earlier = [it.timestamp for it in fed if is_end or it.timestamp < item.timestamp]
    members = {
        'kind': 'delivery',
        'delivery': count,
        'position': position,
        'redelivered': redelivered,
        'previous': str(max(earlier, default=0)),
    }
    if is_end:
        members['end'] = True
    else:
        members['headers'] = headers(item)
        members['timestamp'] = item.timestamp // SECOND
        members['body'] = json.loads(body(item))
    return short(members)


def expected_lines(world, number):
    """What must come of each of these deliveries."""
    seat = world.seats[number - 1]
    deliveries = enumerate(seat.deliveries, start=1)
    return ''.join(expected_line(count, it.answer, seat.subscriber.applied[:it.applied]) for count, it in deliveries)


def expected_line(count, answer, applied):
    """The line of what must come of the delivery of this number: the answer to it, and all events applied after it."""
    accounts = []
    if answer == 'applied':
        event = applied[-1]
        accounts = [(event.debit_account, event.debit_balances), (event.credit_account, event.credit_balances)]
    return short({
        'kind': 'expect',
        'delivery': count,
        'result': RESULTS_OF_ANSWERS[answer],
        'applied': len(applied),
        'last': str(applied[-1].timestamp if applied else 0),
        'accounts': [{'id': str(it.request.id), **sums_of(balances)} for it, balances in accounts],
    })


def sums_of(balances):
    return {column.name: str(getattr(balances, column.name)) for column in fields(balances)}


def events_delivered(world, number):
    """How many deliveries of a subscriber brought an event."""
    return sum(it.item is not END_MARK for it in world.seats[number - 1].deliveries)


def only_deliveries(report, number, expects):
    """A report of a simulation with the deliveries of this subscriber in the place of the state, or what must come of them."""
    if report.world is None:
        return report
    if not 1 <= number <= len(report.world.seats):
        return replace(report, text='', status=2)
    text = expected_lines(report.world, number) if expects else delivery_lines(report.world, number)
    return replace(report, text=text)


def play(world, steps, report, skips=False):
    """Takes the steps in order up to the first that is refused, or without those that are refused."""
    for step in steps:
        try:
            report.steps.append((step, world.take(step)))
        except StepRefused as refusal:
            if not skips:
                report.refused = (step, refusal.name)
                return


def run(script_data, plan=Plan(), progress=None, order=None):
    """What a run prints and saves where the batches come to the ledger in the order of the file, or of these places."""
    try:
        script = read_script(script_data)
    except Fault as fault:
        return report_of_fault('script', fault)
    if plan.start is not None and progress is not None:
        return Report('fault: start_not_allowed\n', 1)
    ledger, batches = run_batches(script, order)
    more = 0
    if plan.window == 1:
        items, progress = published(ledger.events, plan, progress)
    else:
        # What is sent again, and by which session, hangs on how far the connector is when it receives a fault.
        items, progress = published(ledger.events, Plan(start=plan.start), progress)
        more = plan.breaks()
    text = batch_lines(batches)
    for number, binding in enumerate(script.bindings, start=1):
        text += subscriber_lines(number, received(items, binding, plan.close_after(number)))
    return Report(text, 0, batches=batches, progress=progress, more_sessions=more)


def plan_of(arguments):
    """The plan that these arguments ask for."""
    given = {'--lose-confirm': [], '--lose-publish': [], '--restart-after': [], '--close': []}
    window, start = 1, None
    for argument, value in zip(arguments[::2], arguments[1::2]):
        if argument == '--close':
            subscriber, _, count = value.partition(':')
            given[argument].append((int(subscriber), int(count)))
        elif argument in given:
            given[argument].append(int(value))
        elif argument == '--window':
            window = int(value)
        elif argument == '--start-after':
            start = int(value)
        elif argument not in ('--repeat', '--prefetch'):
            sys.exit(__doc__)
    return Plan(*(tuple(counts) for counts in given.values()), window=window, start=start)


def bytes_of(name):
    if name == '-':
        return sys.stdin.buffer.read()
    with open(name, 'rb') as file:
        return file.read()


def main(arguments):
    window, number, expects = 1, None, False
    if arguments[:1] == ['run'] and len(arguments) >= 2:
        report = run(bytes_of(arguments[1]), plan_of(arguments[2:]))
        sys.stdout.write(report.text)
        return report.status
    if arguments[-1:] == ['--expect'] and arguments[-3:-2] == ['--deliveries']:
        expects = True
        arguments = arguments[:-1]
    if arguments[:1] == ['simulate'] and arguments[-2:-1] == ['--deliveries']:
        number = int(arguments[-1])
        arguments = arguments[:-2]
    if len(arguments) >= 2 and arguments[-2] == '--window':
        window = int(arguments[-1])
        arguments = arguments[:-2]
    match arguments:
        case ['-h' | '--help']:
            print(__doc__)
            return 0
        case [] | ['books', '-']:
            report = books(bytes_of('-'))
        case ['books', name]:
            report = books(bytes_of(name))
        case ['messages', name]:
            report = messages(bytes_of(name))
        case ['simulate', name, steps]:
            report = simulate(bytes_of(name), bytes_of(steps), window)
            if number is not None:
                report = only_deliveries(report, number, expects)
        case _:
            sys.exit(__doc__)
    sys.stdout.write(report.text)
    return report.status


if __name__ == '__main__':
    ending.run(main)
