#!/usr/bin/env python3
"""Runs the program on random scripts and step files, and compares what it prints with the model in model.py.

    tests/checks/soak.py --seed S --count N [--seconds T] [--program PATH] [--jobs J]
    tests/checks/soak.py --seed S --case K

A case is a script, a step file and the arguments of a run, made of the seed and the case's number alone. The program runs
on it under `books`, `messages`, `simulate`, with `--skip-refused` too, and `run`; output and exit status have to be the
model's, and under `run`
the progress that is saved. Batches of several clients may come to the ledger in any order that keeps each client's:
which it was is taken from what `run` printed (orders.py), and that has to be what the model does in this order; its trace
has each rewind of the plan that had to happen (traces.py). Where they differ, lines are left out while the difference
stays, and what is left is printed with the arguments that bring it back; of a run it may take some tries. In the end, and
where the soak is stopped (SIGTERM, Ctrl-C), it prints how often each result, fault, step and answer came up, and which
never did.

Without --count it goes on for --seconds; with neither, 1,000 cases. Exit status 1 where there was a difference.
"""
import collections
import multiprocessing
import os
import pathlib
import random
import signal
import subprocess
import sys
import tempfile
import time
from dataclasses import asdict, dataclass, replace

sys.path.insert(0, os.path.join(os.path.dirname(os.path.realpath(__file__)), '..', 'common'))
import ending
import model
import orders
import rooms
import traces

CHUNK = 20  # cases that a worker takes at once
LONGEST = 300  # seconds that a run may take: a last guard against one that hangs
MOST_TRIES = 2000  # runs while a difference is shrunk
LONGEST_SHRINKING = 120  # seconds
MOST_SHOWN = 3  # differences that are shrunk and shown
MAX = model.GREATEST_128
END_OF_TIME = model.GREATEST_TIMESTAMP


# ---------------------------------------------------------------- Random scripts


def line_of(request, kind, rng):
    """The text of a request; fields that are 0 are mostly left out."""
    given = [(name, value) for name, value in asdict(request).items() if value or rng.random() < 0.03]
    if not given or rng.random() < 0.1:
        rng.shuffle(given)
    words = [f'{name}={zeros(rng)}{value}' for name, value in given]
    return ' '.join([kind] + (words or ['id=0']))


def zeros(rng):
    """Leading zeros, which a number may have."""
    return '0' * rng.randint(1, 3) if rng.random() < 0.01 else ''


class ScriptMaker:
    """Writes a script line by line. A ledger of the model goes along, so that a request can aim at what is there."""

    def __init__(self, rng):
        self.rng = rng
        self.ledger = model.Ledger()
        self.lines = []
        self.asked = []  # every transfer that was asked for
        self.timestamp = 0  # the timestamp of the item that is written
        self.has_huge_amounts = rng.random() < 0.35
        self.is_late = rng.random() < 0.2
        self.limited = rng.choice([0.1, 0.1, 0.7])  # the share of accounts with flags
        self.clients = rng.choice([1, 1, 1, 2, 3, 4])  # the greatest number that a client may have
        self.has_chains = rng.random() < 0.5

    def chance(self, share):
        return self.rng.random() < share

    def script(self):
        for _ in range(self.rng.choice([1, 1, 1, 1, 2, 2, 2, 3, 4, 5, 6, 7, 8])):
            self.lines.append(self.subscriber())
        self.batch('accounts', self.rng.randint(2, 6))
        alone = self.clients == 1
        for _ in range(self.rng.choice([0, 1, 2, 2, 3, 3, 4, 5, 7]) if alone else self.clients + self.rng.randint(-1, 4)):
            if not alone and self.chance(0.8):
                self.lines.append(f'client {self.rng.randint(1, self.clients)}')
            kind = self.rng.choices(['transfers', 'pulse', 'accounts'], [8, 3, 1])[0]
            self.batch(kind, self.rng.choice([0, 1, 1, 2, 2, 3, 3, 4, 5, 6, 8, 12]))
            if self.chance(0.03) and self.subscribers() < model.MOST_SUBSCRIBERS:
                self.lines.append(self.subscriber())
        return self.lines

    def subscribers(self):
        return len([line for line in self.lines if line.startswith('subscriber')])

    # Bindings

    def subscriber(self):
        if self.chance(0.5):
            return 'subscriber all'
        mode = self.rng.choice(['all', 'any', 'any'])
        count = self.rng.choice([0, 1, 1, 1, 2, 2, 3, 3, 10])
        return ' '.join(['subscriber', mode] + [self.pair() for _ in range(count)])

    def pair(self):
        key = self.rng.choice(list(model.HEADERS))
        if key == 'event_type':
            return f'{key}={self.rng.choice(model.EVENT_TYPES)}'
        values = [700, 700, 701, model.HEADERS[key]] if key == 'ledger' else [1, 1, 10, 10, model.HEADERS[key]]
        return f'{key}={zeros(self.rng)}{self.rng.choice(values)}'

    # Batches

    def batch(self, kind, count):
        if self.chance(0.0015):
            return self.large_batch()
        now = self.next_now(kind)
        self.lines.append(f'{kind} {zeros(self.rng)}{now}')
        if kind == 'pulse':
            self.submit(model.Batch(kind, now, 1))
            return
        links = self.links(count)
        base = max(now, self.ledger.last + 1)
        fits = base + len(links) - 1 <= END_OF_TIME
        before, is_well, is_careful = None, True, False
        for place, is_linked in enumerate(links):
            self.timestamp = base + place
            if before is None:
                before, is_well, is_careful = self.ledger.mark(), True, is_linked and self.chance(0.7)
            item = self.linked(self.item(kind, is_careful), is_linked)
            self.lines.append(line_of(item, kind[:-1], self.rng))
            is_well = is_well and fits and self.ledger.take_item(kind, item, self.timestamp) == 0
            if not is_well:
                self.ledger.undo(before)
            if not model.is_linked(item):
                before = None
        if before:
            # (the batch's last chain is open)
            self.ledger.undo(before)
        if fits and links:
            self.ledger.last = base + len(links) - 1

    def links(self, count):
        """Which items of a batch are linked to the next one; where it has chains it may get longer by them."""
        if not self.has_chains or not count or self.chance(0.5):
            return [False] * count
        found = []
        while len(found) < count:
            length = self.rng.choice([1, 1, 2, 2, 3, 4, 5, 9])
            found += [True] * (length - 1) + [False]
        return found[:-1] + [True] if self.chance(0.08) else found

    def linked(self, item, is_linked):
        """An item with or without the link; those whose flags are broken keep theirs now and then."""
        if self.chance(0.01):
            return item
        return replace(item, flags=item.flags & ~model.LINKED | is_linked)

    def item(self, kind, is_careful):
        """A request; a careful one is mostly accepted."""
        for _ in range(8):
            item = self.account() if kind == 'accounts' else self.transfer()
            if not is_careful or self.would_be_taken(kind, item):
                break
        return item

    def would_be_taken(self, kind, item):
        if kind == 'accounts':
            return model.account_result(self.ledger, item) == 'ok'
        return model.transfer_result(self.ledger, item, self.timestamp) == 'ok'

    def large_batch(self):
        """As many items as a batch may have, or one more."""
        count = model.MOST_ITEMS + self.rng.randint(0, 1)
        now = self.ledger.last + 1
        self.lines.append(f'accounts {now}')
        self.lines += ['account id=0'] * count
        self.submit(model.Batch('accounts', now, 1, [model.NewAccount()] * count))

    def submit(self, batch):
        try:
            self.ledger.submit(batch)
        except model.BatchRefused:
            pass

    def next_now(self, kind):
        last = self.ledger.last
        open_ones = [one for one in self.ledger.transfers.values() if one.request.id not in self.ledger.ends_of]
        ends = [one.end for one in open_ones if one.end is not None]
        if ends and kind == 'pulse' and self.chance(0.4):
            return max(ends) + self.rng.randint(-1, 1)
        if ends and self.chance(0.7 if kind == 'pulse' else 0.3):
            return max(0, self.rng.choice(ends) + self.rng.choice([-3, -2, -1, 0, 0, 1, 500]))
        if self.is_late and self.chance(0.5):
            seconds, few = self.rng.randint(0, 4), self.rng.randint(0, 4)
            return self.rng.choice([5 * 10**18, END_OF_TIME - seconds * model.SECOND - few, END_OF_TIME - 10 * few])
        if self.chance(0.01):
            return self.rng.choice([END_OF_TIME, END_OF_TIME + 1, 2**64 - 1])
        return self.rng.choice([0, 5, last + 1, last + self.rng.randint(1, 2000), last + model.SECOND])

    # Accounts

    def account(self):
        if self.ledger.accounts and self.chance(0.08):
            return self.known_account()
        account = model.NewAccount(
            id=self.new_id(self.ledger.accounts),
            ledger=700 if self.chance(0.85) else self.rng.choice([701, 2**32 - 1]),
            code=self.rng.choice([10, 10, 10, 1, 2**16 - 1]),
            flags=self.rng.choice([2, 2, 4, 4, 8, 10, 12]) if self.chance(self.limited) else 0,
        )
        if self.chance(0.1):
            account = replace(account, **self.user_data())
        while self.chance(0.05):
            account = self.broken_account(account)
        return account

    def known_account(self):
        """One that is there already, as it is or with another field."""
        account = self.rng.choice(list(self.ledger.accounts.values())).request
        if self.chance(0.4):
            return account
        name = self.rng.choice([name for name in model.ACCOUNT_WIDTHS if name != 'id'])
        return replace(account, **{name: self.other_value(name, getattr(account, name), model.ACCOUNT_WIDTHS)})

    def broken_account(self, account):
        change = self.rng.choice(
            [
                {'flags': self.rng.choice([1, 16, 2**15, 2**16 - 1])},
                {'id': 0},
                {'id': MAX},
                {'flags': self.rng.choice([6, 14])},
                {'ledger': 0},
                {'code': 0},
            ]
        )
        return replace(account, **change)

    def new_id(self, known):
        if self.chance(0.03):
            return self.rng.choice([MAX - 1, 2**64, 2**127, self.rng.randint(1, MAX)])
        following = len(known) + 1
        while following in known:
            following += 1
        return following

    def user_data(self):
        return {
            'user_data_128': self.rng.choice([0, 7, MAX]),
            'user_data_64': self.rng.choice([0, 7, 2**64 - 1]),
            'user_data_32': self.rng.choice([0, 7, 2**32 - 1]),
        }

    def other_value(self, name, value, widths):
        return self.rng.choice([0, 1, 2, value + 1, max(value, 1) - 1, 2 ** widths[name] - 1]) % 2 ** widths[name]

    # Transfers

    def transfer(self):
        makers = [self.plain, self.pending, self.settling, self.repeated, self.broken, self.misplaced]
        maker = self.rng.choices(makers, [9, 9, 12, 3, 2, 2])[0]
        transfer = maker()
        self.asked.append(transfer)
        return transfer

    def plain(self):
        debit, credit = self.two_accounts()
        transfer = model.NewTransfer(
            id=self.transfer_id(),
            debit_account_id=debit.id,
            credit_account_id=credit.id,
            amount=self.amount(debit, credit),
            ledger=debit.ledger,
            code=self.rng.choice([1, 1, 1, 2, 2**16 - 1]),
        )
        return replace(transfer, **self.user_data()) if self.chance(0.1) else transfer

    def pending(self):
        return replace(self.plain(), flags=model.PENDING, timeout=self.timeout())

    def transfer_id(self):
        if self.asked and self.chance(0.02):
            return self.rng.choice(self.asked).id
        return self.new_id(self.ledger.transfers)

    def two_accounts(self):
        accounts = [stored.request for stored in self.ledger.accounts.values()]
        if len(accounts) < 2:
            return model.NewAccount(id=1, ledger=700), model.NewAccount(id=2, ledger=700)
        debit, credit = self.any_two(accounts)
        without_credits = self.ledger.balances(debit.id).credits_posted == 0
        if debit.flags & model.DEBITS_LIMITED and without_credits and self.chance(0.7):
            return credit, debit
        return debit, credit

    def any_two(self, accounts):
        usual = [account for account in accounts if account.ledger == 700]
        debit = self.rng.choice(usual if len(usual) > 1 and self.chance(0.9) else accounts)
        others = [account for account in accounts if account.id != debit.id]
        alike = [account for account in others if account.ledger == debit.ledger]
        if others and (not alike or self.chance(0.03)):
            return debit, self.rng.choice(others)
        return debit, self.rng.choice(alike or accounts)

    def amount(self, debit, credit):
        """Small, near 2^128, or where a sum just fits or just doesn't."""
        if self.chance(0.3):
            return self.edge_amount(debit, credit)
        if self.has_huge_amounts and self.chance(0.6):
            return self.rng.choice([MAX, MAX - 1, 2**127, 2**127 - 1, 2**126, self.rng.randint(0, MAX)])
        return self.rng.choice([0, 1, 2, 5, 40, 100, self.rng.randint(0, 1000)])

    def edge_amount(self, debit, credit):
        debits, credits = self.ledger.balances(debit.id), self.ledger.balances(credit.id)
        bounds = [
            MAX - debits.debits_pending,
            MAX - credits.credits_pending,
            MAX - debits.debits_posted,
            MAX - credits.credits_posted,
            MAX - debits.debits_pending - debits.debits_posted,
            MAX - credits.credits_pending - credits.credits_posted,
        ]
        limits = [
            debits.credits_posted - debits.debits_pending - debits.debits_posted,
            credits.debits_posted - credits.credits_pending - credits.credits_posted,
        ]
        edge = self.rng.choice(bounds if self.has_huge_amounts else limits) + self.rng.randint(0, 1)
        return min(max(edge, 0), MAX)

    def timeout(self):
        if self.chance(0.5):
            return 0
        to_the_end = (END_OF_TIME - self.timestamp) // model.SECOND + self.rng.randint(0, 1)
        if self.is_late and self.chance(0.5) and to_the_end >= 0:
            return min(to_the_end, 2**32 - 1)
        return self.rng.choice([1, 1, 2, 2, 3, 2**32 - 1])

    def settling(self):
        """A post or a void."""
        stored = list(self.ledger.transfers.values())
        pending = [one.request for one in stored if one.request.flags & model.PENDING]
        open_ones = [request for request in pending if request.id not in self.ledger.ends_of]
        if not pending:
            return self.pending()
        p = self.rng.choice(open_ones if open_ones and self.chance(0.7) else pending)
        flags = self.rng.choice([model.POST, model.POST, model.VOID])
        transfer = model.NewTransfer(
            id=self.transfer_id(), amount=self.settling_amount(flags, p), pending_id=p.id, flags=flags
        )
        for name in ('debit_account_id', 'credit_account_id', 'ledger', 'code'):
            if self.chance(0.2):
                transfer = replace(transfer, **{name: getattr(p, name)})
            elif self.chance(0.02):
                transfer = replace(transfer, **{name: self.other_value(name, getattr(p, name), model.TRANSFER_WIDTHS)})
        return replace(transfer, **self.user_data()) if self.chance(0.1) else transfer

    def settling_amount(self, flags, p):
        more, less = min(p.amount + 1, MAX), max(p.amount, 1) - 1
        if flags == model.POST:
            return self.rng.choice([MAX, MAX, MAX, 0, p.amount, less, less, more, self.rng.randint(0, p.amount)])
        return self.rng.choice([0, 0, 0, 0, p.amount, p.amount, less, more])

    def repeated(self):
        """A request that came already, as it was, filled in, or with another field."""
        if not self.asked:
            return self.plain()
        stored = [one.request for one in self.ledger.transfers.values()]
        transfer = self.rng.choice(self.asked + stored * 2)
        if self.chance(0.5):
            return transfer
        name = self.rng.choice([name for name in model.TRANSFER_WIDTHS if name != 'id'])
        return replace(transfer, **{name: self.other_value(name, getattr(transfer, name), model.TRANSFER_WIDTHS)})

    def broken(self, transfer=None):
        """A request that its own fields make wrong, at times twice over."""
        transfer = transfer or self.rng.choice([self.plain, self.pending, self.settling])()
        change = self.rng.choice(
            [
                {'flags': self.rng.choice([1, 16, 2**15, 3])},
                {'id': 0},
                {'id': MAX},
                {'flags': self.rng.choice([6, 10, 12, 14])},
                {'pending_id': 9, 'flags': self.rng.choice([0, 2])},
                {'pending_id': 0, 'flags': self.rng.choice([4, 8])},
                {'pending_id': transfer.id, 'flags': self.rng.choice([4, 8])},
                {'timeout': 1, 'flags': self.rng.choice([0, 4, 8])},
                {'ledger': 0},
                {'code': 0},
                {'credit_account_id': transfer.debit_account_id},
            ]
        )
        transfer = replace(transfer, **change)
        return self.broken(transfer) if self.chance(0.2) else transfer

    def misplaced(self):
        """A request that names what isn't there, or isn't what it should be."""
        nowhere = self.rng.randint(90, 99)
        settled = {'flags': self.rng.choice([4, 8]), 'timeout': 0}
        plain_ids = [one.id for one in self.asked if one.flags == 0] or [nowhere]
        change = self.rng.choice(
            [
                {'debit_account_id': nowhere},
                {'credit_account_id': nowhere},
                {'ledger': 702},
                {'pending_id': nowhere} | settled,
                {'pending_id': self.rng.choice(plain_ids)} | settled,
            ]
        )
        return replace(self.plain(), **change)


# ---------------------------------------------------------------- Random steps


class StepMaker:
    """Writes a step file. A world of the model goes along, so that most steps are enabled."""

    WEIGHTS = {
        'batch': 5,
        'close_ledger': 0.05,
        'start': 8,
        'start at': 0.1,
        'crash': 0.4,
        'poll': 8,
        'publish': 10,
        'arrive': 12,
        'answer': 10,
        'save': 1.5,
        'send': 6,
        'rewind': 0.5,
        'break': 0.5,
        'take': 6,
        'ack': 1.5,
        'close': 0.06,
    }

    # How many of the steps that change little are written all the same; of the others a twentieth.
    IDLE = {'arrive': 0.1, 'answer': 0.2, 'ack': 0.4}

    def __init__(self, rng, script, window):
        self.rng = rng
        self.world = model.World(script.bindings, script.batches, window)
        self.arrived = 0  # the greatest number of a packet that came
        self.answered = 0  # the greatest number of a confirm that came
        self.begins_late = rng.random() < 1 / 3  # whether the first session is asked to start late
        moods = [0.2, 1, 1, 1, 3]
        self.weights = {word: weight * rng.choice(moods) for word, weight in self.WEIGHTS.items()}
        self.is_calm = rng.random() < 0.3
        for word in FAULTY:
            self.weights[word] *= 0.1 if self.is_calm else 1

    def steps(self):
        steps = []
        for _ in range(self.rng.choice([10, 40, 60, 80, 120, 160, 240])):
            if self.end_waits() and self.rng.random() < 0.05:
                steps.append(model.Step('publish'))
                break
            step = self.enabled_step()
            if step is None:
                break
            steps.append(step)
        ending = self.rng.random()
        if ending < 0.35:
            steps += self.drained()
        elif ending < 0.7:
            steps += self.refused_step()
            steps += [self.any_step() for _ in range(self.rng.randint(0, 3))]
        return [' '.join([step.word] + [f'{zeros(self.rng)}{number}' for number in step.numbers]) for step in steps]

    def end_waits(self):
        """Whether the session knows the end, and an event of it waits for its confirm."""
        session = self.world.session
        if session is None or not session.complete:
            return False
        return len(session.confirmed) < session.sent == len(session.offered)

    def enabled_step(self):
        """A step that the world takes, which it has taken then. Few are idle."""
        if not self.world.batches:
            self.weights['close_ledger'] = max(self.weights['close_ledger'], 0.7)
        for _ in range(60):
            word = self.rng.choices(list(self.weights), list(self.weights.values()))[0]
            if word == 'start' and self.begins_late and self.world.progress is None:
                word = 'start at'
            step = model.Step(word, self.numbers(word))
            if self.is_idle(step) and self.rng.random() > self.IDLE.get(word, 0.05):
                continue
            if self.is_taken(step):
                return step
        return None

    def is_idle(self, step):
        """Whether a step would change little, were it enabled."""
        world = self.world
        session = world.session
        match step.word:
            case 'close_ledger':
                return world.ledger.closed
            case 'poll':
                has_all = session is not None and session.after() >= last_of(world.ledger)
                return has_all and not world.ledger.closed
            case 'save':
                return session is not None and world.progress == (session.number, session.timestamp())
            case 'arrive':
                return step.numbers[0] <= self.arrived
            case 'answer':
                return step.numbers[0] <= self.answered
            case 'rewind' | 'break':
                place = step.numbers[0] - 1
                is_back = world.broker.cursors[place] == world.broker.acked[place] + 1
                return is_back and (step.word == 'rewind' or not world.seats[place].flight)
            case 'ack':
                place, which = step.numbers[0] - 1, step.numbers[1]
                acks = world.seats[place].acks
                return not 1 <= which <= len(acks) or acks[which - 1] <= world.broker.acked[place]
        return False

    def drained(self):
        """One step again and again until it is refused, which shows how much of it there was."""
        word = self.rng.choice(['send', 'send', 'take', 'take', 'batch', 'publish'])
        step = model.Step(word, self.numbers(word))
        steps = [step]
        while self.is_taken(step):
            steps.append(step)
        return steps

    def refused_step(self):
        """A step that the world refuses, if one is found."""
        if self.world.session is None and self.rng.random() < 0.5:
            confirm = self.rng.randint(1, max(1, len(self.world.confirms)))
            without_session = [model.Step('answer', (confirm,))]
            without_session += [model.Step(word) for word in ('poll', 'publish', 'save')]
            if self.world.progress is not None:
                without_session += [model.Step('start at', self.numbers('start at'))] * 2
            return [self.rng.choice(without_session)]
        for _ in range(40):
            word = self.rng.choice(list(model.STEPS))
            step = self.any_step() if self.rng.random() < 0.3 else model.Step(word, self.numbers(word))
            if not self.is_taken(step):
                return [step]
        return []

    def is_taken(self, step):
        try:
            self.world.take(step)
        except model.StepRefused:
            return False
        if step.word == 'arrive':
            self.arrived = max(self.arrived, step.numbers[0])
        if step.word == 'answer':
            self.answered = max(self.answered, step.numbers[0])
        return True

    def numbers(self, word):
        """Numbers that there mostly are something for."""
        if word == 'arrive':
            return (self.of_line(self.arrived, len(self.world.packets)),)
        if word == 'answer':
            return (self.look_alike() or self.of_line(self.answered, len(self.world.confirms)),)
        if word == 'start at':
            return (timestamp_near(self.rng, self.world.ledger),)
        if model.STEPS[word] == 0:
            return ()
        subscriber = self.rng.randint(1, len(self.world.seats))
        if word != 'ack':
            return (subscriber,)
        acks = len(self.world.seats[subscriber - 1].acks)
        return subscriber, self.rng.choice([acks, acks, self.rng.randint(1, max(acks, 1))])

    def look_alike(self):
        """At times, the number of another session's confirm under the tag that the session waits for; else 0."""
        session = self.world.session
        if self.is_calm or session is None or self.rng.random() < 0.8:
            return 0
        if session.sent in session.confirmed:
            return 0
        for number, confirm in enumerate(self.world.confirms, start=1):
            if confirm.tag == session.sent and confirm.session != session.number:
                return number
        return 0

    def of_line(self, greatest, count):
        """The number of what comes next on a line; or of what comes late, early or again."""
        if self.rng.random() < (0.95 if self.is_calm else 0.6):
            return greatest + 1
        if self.rng.random() < 0.7:
            return self.rng.randint(max(1, count - 5), max(1, count))
        return self.rng.randint(1, count + 1)

    def any_step(self):
        """A step with any numbers."""
        word = self.rng.choice(list(model.STEPS))
        values = [0, 1, 2, 3, 9, END_OF_TIME if word == 'start at' else 2**64 - 1]
        return model.Step(word, tuple(self.rng.choice(values) for _ in range(model.STEPS[word])))


def last_of(ledger):
    return ledger.events[-1].timestamp if ledger.events else 0


def timestamp_near(rng, ledger):
    """A timestamp to start after: that of an event or the one before it, the first or the last of all, or one to come."""
    timestamps = [event.timestamp + rng.choice([0, 0, 0, -1]) for event in ledger.events]
    later = [ledger.last + rng.choice([0, 1, 1000, model.SECOND])]
    return min(max(rng.choice(timestamps * 2 + later + [0, rng.choice([0, END_OF_TIME])]), 0), END_OF_TIME)


# The steps that a calm play has few of.
FAULTY = ('crash', 'rewind', 'break', 'ack', 'close')


# ---------------------------------------------------------------- Random runs


class PlanMaker:
    """Chooses the arguments of a run. Most counts name something that there is."""

    def __init__(self, rng, script):
        self.rng = rng
        self.ledger = model.run_batches(script)[0]
        self.events = self.ledger.events
        self.subscribers = len(script.bindings)

    def arguments(self):
        arguments = arguments_of_window(self.rng) + self.prefetch() + self.start()
        for option in ('--lose-confirm', '--lose-publish', '--restart-after'):
            for _ in range(self.rng.choice([0, 0, 1, 1, 2, 4])):
                arguments += (option, f'{zeros(self.rng)}{self.count()}')
        for _ in range(self.rng.choice([0, 0, 1, 2, 4])):
            arguments += ('--repeat', f'{self.subscriber()}:{self.count()}')
        for _ in range(self.rng.choice([0, 0, 0, 1, 2])):
            arguments += ('--close', f'{self.subscriber()}:{self.count()}')
        return arguments

    def prefetch(self):
        if self.rng.random() < 0.5:
            return ()
        return ('--prefetch', str(self.rng.choice([1, 1, 2, 3, 8, 64])))

    def start(self):
        """Where the first session starts, in one run of three."""
        if self.rng.random() < 2 / 3:
            return ()
        return ('--start-after', f'{zeros(self.rng)}{timestamp_near(self.rng, self.ledger)}')

    def count(self):
        """A count of events or packets, or a position."""
        if self.rng.random() < 0.03:
            return self.rng.choice([2**32, 2**64 - 1])
        return self.rng.randint(1, len(self.events) + 3)

    def subscriber(self):
        # (a number above 8 is a usage error)
        return min(self.rng.randint(1, self.subscribers + (self.rng.random() < 0.05)), 8)

    def progress(self, starts_late):
        """What was saved by an earlier run, if anything was; less often if this one is given a start."""
        if self.rng.random() < (0.9 if starts_late else 0.5):
            return None
        timestamps = [0] + [event.timestamp + self.rng.choice([0, 0, 0, -1]) for event in self.events]
        timestamps += [END_OF_TIME] * (self.rng.random() < 0.05)
        timestamp = min(max(self.rng.choice(timestamps), 0), END_OF_TIME)
        start = self.rng.choice([0, timestamp, min(self.rng.choice(timestamps), timestamp)])
        return self.rng.choice([0, 1, 7, 2**63]), timestamp, max(start, 0)


# ---------------------------------------------------------------- Broken lines and odd layouts

NO_NUMBERS = ['x', '-1', '+1', '1.0', '0x1', '1e3', '1_0', '12a', '"1"', '=']
FAR_TOO_LARGE = '1' + '0' * 5000
NO_TEXT = [b'\t', b'\r', b'\x00', b'\x7f', b'\x80', b'\xc3\xa9', b'\x1f', b'\xff']
ODD_LINES = [b'', b' ', b'   ', b'#', b'# a comment', b'#\xff\x00 any bytes', b'#transfer id=1']


class Spoiler:
    """Breaks the lines of a file, and lays them out in odd ways."""

    def __init__(self, rng):
        self.rng = rng

    def lay_out(self, lines):
        """The bytes of a file with these lines, with comments, blank lines, spaces and carriage returns."""
        lines = [line if isinstance(line, bytes) else line.encode('ascii') for line in lines]
        share = self.rng.choice([0, 0, 0.02, 0.2])
        text = b''
        line_feed = self.rng.choice([b'\n', b'\n', b'\n', b'\r\n'])
        for line in lines:
            if self.rng.random() < share:
                text += self.rng.choice(ODD_LINES) + line_feed
            if self.rng.random() < share:
                line = self.rng.choice([b'  ' + line, line + b' ', line.replace(b' ', b'   ')])
            text += line + line_feed
        if self.rng.random() < 0.05:
            text = text.removesuffix(b'\n') if self.rng.random() < 0.2 else text.removesuffix(line_feed)
        if self.rng.random() < 0.003:
            text = b'#'.ljust(model.MOST_BYTES + self.rng.randint(0, 1) - len(text) - 1, b'.') + b'\n' + text
        return text

    def spoilt_script(self, lines):
        lines = [line.encode('ascii') for line in lines]
        for _ in range(self.rng.choice([1, 1, 1, 2, 3])):
            change = self.rng.choice(
                [self.bad_byte, self.lost_word, self.further_word, self.other_word, self.doubled_word, self.lost_line]
                + [self.line_of_list] * 6
                + [self.no_subscriber, self.bad_value, self.bad_value]
            )
            lines = change(lines)
        return lines

    def line_of_list(self, lines):
        """A line that is wrong by itself, or where it stands."""
        too_large = self.rng.choice([2**16, 2**32, 2**64, 2**128, 10**60, FAR_TOO_LARGE])
        no_number = self.rng.choice(NO_NUMBERS)
        line = self.rng.choice(
            [
                ['client 0', 'client 5', f'client {2**64 - 1}', f'client {2**64}', 'client', 'client x', 'client 9 9'],
                ['subscriber', 'subscriber some', 'subscriber all ledger', 'subscriber any code=1', 'subscriber ALL'],
                ['subscriber all ' + 'ledger=1 ' * 11, 'subscriber all ledger=4294967296', 'subscriber all =1'],
                [f'subscriber all transfer_code={no_number}', 'subscriber all transfer_code=65536'],
                ['subscriber any event_type=x', 'subscriber all ledger=1=1', 'subscriber all ledger='],
                [f'subscriber any ledger={FAR_TOO_LARGE}'],
                ['subscriber all'] * 5,
                [f'accounts {no_number}', f'pulse {2**64}', 'transfers', 'pulse', 'pulse x 6', 'accounts 1 2'],
                ['account', 'transfer'],
                ['account id=1', 'transfer id=1', 'account x', 'transfer x=1', 'transfer id'],
                ['Accounts 1', 'pulses 1', ' #x', 'x', '=', 'transfers2000', 'account=1'],
                [f'transfer amount={too_large}', f'account flags={too_large}', f'transfer timeout={too_large}'],
                [f'transfer id={no_number}', f'account id={no_number} id=1', 'transfer id=1 id=x', 'account id=1 id=1'],
                [f'account id=1 id={2**128}', 'account amount=1', 'transfer amount', 'transfer =1', 'account id=1 x'],
            ]
        )
        place = self.rng.randint(0, len(lines))
        return lines[:place] + [self.rng.choice(line).encode('ascii')] + lines[place:]

    def spoilt_steps(self, lines):
        lines = [line.encode('ascii') for line in lines] or [b'batch']
        for _ in range(self.rng.choice([1, 1, 2])):
            change = self.rng.choice(
                [self.bad_byte, self.lost_word, self.further_word, self.other_word, self.doubled_word]
                + [self.step_of_list] * 2
            )
            lines = change(lines)
        return lines

    def step_of_list(self, lines):
        no_number = self.rng.choice(NO_NUMBERS)
        line = self.rng.choice(
            ['arrive', f'arrive {no_number}', f'arrive {2**64}', f'take {FAR_TOO_LARGE}', 'batch 1', 'Batch']
            + ['start at', 'start x', 'start at x', f'start at {2**63}', f'start at {2**63} x', 'start at 1 x', 'send 1 1', 'send', 'answer 1 x', ' #x', 'stop', 'save me', 'close_ledger 1']
            + ['poll x y', 'rewind', f'break {no_number}', f'close {2**64}', 'crash 1', 'ack 1', 'ack x', 'ack x 1']
            + ['ack 1 x', 'ack 1 2 3', f'ack {2**64} x']
        )
        place = self.rng.randint(0, len(lines))
        return lines[:place] + [line.encode('ascii')] + lines[place:]

    def with_words(self, lines, change):
        """A line of the file, its words changed."""
        place = self.rng.randrange(len(lines))
        words = lines[place].split(b' ')
        change(words)
        return lines[:place] + [b' '.join(words)] + lines[place + 1 :]

    def bad_byte(self, lines):
        place = self.rng.randrange(len(lines))
        at = self.rng.choice([self.rng.randint(0, len(lines[place])), len(lines[place])])
        line = lines[place][:at] + self.rng.choice(NO_TEXT) + lines[place][at:]
        return lines[:place] + [line] + lines[place + 1 :]

    def lost_word(self, lines):
        return self.with_words(lines, lambda words: words.pop(self.rng.randrange(len(words))))

    def further_word(self, lines):
        word = self.rng.choice([b'1', b'x', b'id=1', b'=', b'id=', b'\xff', b'code=1', b'ledger=1', b'1\t'])
        return self.with_words(lines, lambda words: words.insert(self.rng.randint(1, len(words)), word))

    def other_word(self, lines):
        def change(words):
            word = self.rng.choice([b'x', b'all', b'0', b'id=1', b'18446744073709551616'])
            words[self.rng.randrange(len(words))] = word

        return self.with_words(lines, change)

    def doubled_word(self, lines):
        return self.with_words(lines, lambda words: words.append(self.rng.choice(words)))

    def bad_value(self, lines):
        """Another value behind the `=` of a word."""
        values = [number.encode('ascii') for number in NO_NUMBERS] + [b'', b'%d' % 2**128, b'%d' % 2**64, b'65536']

        def change(words):
            pairs = [place for place, word in enumerate(words) if b'=' in word]
            if pairs:
                place = self.rng.choice(pairs)
                words[place] = words[place].split(b'=')[0] + b'=' + self.rng.choice(values)

        return self.with_words(lines, change)

    def lost_line(self, lines):
        place = self.rng.randrange(len(lines))
        return lines[:place] + lines[place + 1 :] or [b'']

    def no_subscriber(self, lines):
        return [line for line in lines if not line.startswith(b'subscriber')] or [b'']


# ---------------------------------------------------------------- Cases


@dataclass
class Case:
    script: bytes
    steps: bytes
    arguments_of_window: tuple
    plan: tuple  # the arguments of a run
    saves: bool  # whether it keeps its progress in a file
    progress: tuple  # what stands there before, if anything does
    version: int  # in the text of which version


def case_of(seed, number):
    rng = random.Random(f'{seed} {number}')
    lines = ScriptMaker(rng).script()
    spoiler = Spoiler(rng)
    window = arguments_of_window(rng)
    steps = StepMaker(rng, script_of(lines), number_of(window)).steps()
    runs = PlanMaker(rng, script_of(lines))
    plan = runs.arguments()
    saves = rng.random() < 0.5
    progress = runs.progress('--start-after' in plan) if saves else None
    version = 1 if progress is not None and progress[2] == 0 and rng.random() < 0.7 else 2
    spoilt = rng.random()
    if spoilt < 0.15:
        lines = spoiler.spoilt_script(lines)
    elif spoilt < 0.25:
        steps = spoiler.spoilt_steps(steps)
    script, step_file = spoiler.lay_out(lines), spoiler.lay_out(steps)
    return Case(script, step_file, window, plan, saves, progress, version)


def arguments_of_window(rng):
    """How many events a session waits for, as arguments: none, or a number, a small one as often as any."""
    return rng.choice([(), ('--window', '1'), ('--window', f'{rng.randint(2, 5)}'), ('--window', f'{rng.randint(1, 64)}')])


def number_of(arguments_of_window):
    """The number in these arguments."""
    return int(arguments_of_window[1]) if arguments_of_window else 1


def script_of(lines):
    return model.read_script('\n'.join(lines).encode('ascii'))


SKIPPING = 'simulate --skip-refused'
COMMANDS = ('books', 'messages', 'simulate', SKIPPING, 'run')


def report_of(command, case, found):
    """What the model has for a command; of a run in the order of batches that what it printed allows."""
    if command == 'books':
        return model.books(case.script)
    if command == 'messages':
        return model.messages(case.script)
    if command in ('simulate', SKIPPING):
        return model.simulate(case.script, case.steps, number_of(case.arguments_of_window), command == SKIPPING)
    printed = found.text.decode('ascii', 'replace')
    return orders.report_of_run(case.script, model.plan_of(case.plan), case.progress, printed, found.record if case.saves else None)


def arguments_of(command, case):
    """The arguments of the program for a command over the files in the folder where it runs."""
    if command in ('simulate', SKIPPING):
        return [*command.split(), 'soak.script', 'soak.steps', *case.arguments_of_window]
    if command == 'run':
        return ['run', 'soak.script', '--trace', *case.plan, *(['--progress', 'soak.progress'] if case.saves else [])]
    return [command, 'soak.script']


def record_of(progress, version=2):
    """The bytes of saved progress; those of version 1 have no start."""
    if progress is None:
        return None
    if version == 1:
        return b'tb-cdc 1 %d %d\n' % progress[:2]
    return b'tb-cdc 2 %d %d %d\n' % progress


@dataclass(frozen=True)
class Found:
    """What the program printed, its exit status, what it left in the file of progress, and which rewinds of a run's plan its trace
    lacks."""

    text: bytes
    status: object
    record: bytes
    missed: tuple = ()


class Runner:
    """Runs the program in a folder of its own."""

    def __init__(self, program, folder):
        self.program = program
        self.folder = pathlib.Path(folder)

    def write(self, case):
        (self.folder / 'soak.script').write_bytes(case.script)
        (self.folder / 'soak.steps').write_bytes(case.steps)
        self.progress = self.folder / 'soak.progress'
        self.progress.unlink(missing_ok=True)
        if case.progress is not None:
            self.progress.write_bytes(record_of(case.progress, case.version))

    def run(self, command, case):
        try:
            run = subprocess.run(
                [self.program, *arguments_of(command, case)],
                cwd=self.folder,
                stdin=subprocess.DEVNULL,
                stdout=subprocess.PIPE,
                stderr=subprocess.PIPE,
                timeout=LONGEST,
            )
        except subprocess.TimeoutExpired:
            return Found(b'', f'none within {LONGEST} seconds', None)
        record = self.progress.read_bytes() if self.progress.exists() else None
        missed = ()
        if command == 'run' and run.returncode == 0:
            missed = traces.missed_in(case.plan, *(it.decode('utf-8', 'replace') for it in (run.stdout, run.stderr)))
        return Found(run.stdout, run.returncode, record, tuple(missed))


def wanted(report, case):
    """What the program may come to, by a report of the model; more than one record where threads choose the session."""
    text = report.text.encode('ascii')
    if report.progress is None or not case.saves:
        return [Found(text, report.status, record_of(case.progress, case.version))]
    session, timestamp, start = report.progress
    return [
        Found(text, report.status, record_of((number, timestamp, start)))
        for number in range(session, session + report.more_sessions + 1)
    ]


# ---------------------------------------------------------------- A difference made small


def shrunk(runner, command, case):
    """The case with as many lines left out as the difference allows."""
    tries = [MOST_TRIES]
    until = time.monotonic() + LONGEST_SHRINKING

    def differs(candidate):
        tries[0] -= 1
        if tries[0] < 0 or time.monotonic() > until:
            return False
        runner.write(candidate)
        found = runner.run(command, candidate)
        return found not in wanted(report_of(command, candidate, found), candidate)

    plain = replace(case, script=without_layout(case.script), steps=without_layout(case.steps))
    if differs(plain):
        case = plain
    size = None
    while size != (size := len(case.script) + len(case.steps)):
        if command in ('simulate', SKIPPING):
            case = without_lines(case, 'steps', differs)
        if command == 'run':
            case = without_faults(case, differs)
        case = without_lines(case, 'script', differs)
    return case


def without_faults(case, differs):
    """The case with as few options of the run as the difference allows."""
    place = 0
    while place < len(case.plan):
        fewer = replace(case, plan=case.plan[:place] + case.plan[place + 2 :])
        if differs(fewer):
            case = fewer
        else:
            place += 2
    return case


def without_layout(data):
    """A file without carriage returns at the ends of lines, and with single spaces."""
    lines = data.replace(b'\r\n', b'\n').split(b'\n')
    return b'\n'.join(line if line.startswith(b'#') else b' '.join(filter(None, line.split(b' '))) for line in lines)


def without_lines(case, part, differs):
    """The case without runs of lines of one file, long ones first."""
    lines = getattr(case, part).splitlines(keepends=True)
    length = len(lines)
    while length >= 1:
        place = 0
        while place < len(lines):
            fewer = lines[:place] + lines[place + length :]
            if differs(replace(case, **{part: b''.join(fewer)})):
                lines = fewer
            else:
                place += length
        length //= 2
    return replace(case, **{part: b''.join(lines)})


def file_in_shell(name, data):
    """Shell code that writes a file."""
    is_plain = all(byte == 10 or 32 <= byte <= 126 for byte in data)
    if is_plain and (data == b'' or data.endswith(b'\n')):
        return f"cat >{name} <<'END'\n{data.decode('ascii')}END\n"
    escaped = ''.join(chr(byte) if 32 <= byte <= 126 and byte not in b"%\\'" else f'\\{byte:03o}' for byte in data)
    return f"printf '{escaped}' >{name}\n"


def report_on(seed, number, command, case, report, found):
    """A difference, and how to bring it back."""
    text = f'case {number} of seed {seed} differs under {command}; it comes back with\n'
    text += f'    tests/checks/soak.py --seed {seed} --case {number}\n'
    text += 'and, shrunk, with\n'
    text += file_in_shell('soak.script', case.script)
    if command in ('simulate', SKIPPING):
        text += file_in_shell('soak.steps', case.steps)
    if command == 'run' and case.progress is not None:
        text += file_in_shell('soak.progress', record_of(case.progress, case.version))
    text += ' '.join(['relayplum', *arguments_of(command, case)]) + '\n'
    if command == 'run':
        text += 'no order of the batches allows what was found; wanted in the order of the file\n'
    for name, outcome in [('wanted', one) for one in wanted(report, case)] + [('found', found)]:
        text += f'{name}, with exit status {outcome.status}'
        text += f' and progress {outcome.record}' if command == 'run' else ''
        text += f', without the rewinds {", ".join(outcome.missed)}' if outcome.missed else ''
        text += f':\n{outcome.text.decode("utf-8", "backslashreplace")}'
    return text


# ---------------------------------------------------------------- Counts

ANSWERS = {
    'batch': ['taken'],
    'close_ledger': ['closed', 'closed already'],
    'start': ['first session', 'later session'],
    'start at': ['first session'],
    'crash': ['crashed'],
    'poll': ['events', 'no events', 'events, the end', 'no events, the end'],
    'publish': ['connect', 'event', 'end mark'],
    'arrive': ['connected', 'earlier connection', 'accepted', 'wrong connection', 'wrong tag'],
    'answer': ['counted', 'confirmed already', 'of another session'],
    'save': ['moved', 'the same'],
    'send': ['delivered'],
    'rewind': ['moved', 'the same'],
    'break': [
        'deliveries lost, cursor moved',
        'deliveries lost, cursor the same',
        'nothing lost, cursor moved',
        'nothing lost, cursor the same',
    ],
    'take': ['applied', 'repeat', 'ended', 'repeat after the end', 'after close'],
    'ack': ['moved', 'lifts the cursor', 'covered already'],
    'close': ['closed', 'closed already'],
}
REFUSALS = {
    'batch': ['not_enabled', 'refused'],
    'start': ['not_enabled'],
    'start at': ['not_enabled', 'start_not_allowed'],
    'crash': ['not_enabled'],
    'poll': ['not_enabled without a session', 'not_enabled'],
    'publish': ['not_enabled without a session', 'not_enabled', 'not_enabled while the end waits for a confirm'],
    'arrive': ['not_enabled'],
    'answer': ['not_enabled without a session', 'not_enabled'],
    'save': ['not_enabled without a session'],
    'send': ['not_enabled', 'not_enabled without a subscriber'],
    'rewind': ['not_enabled without a subscriber'],
    'break': ['not_enabled without a subscriber'],
    'take': ['not_enabled', 'not_enabled without a subscriber'],
    'ack': ['not_enabled', 'not_enabled without a subscriber'],
    'close': ['not_enabled without a subscriber'],
}


def numbered(names):
    return [f'{number} {name}' for number, name in enumerate(names)]


# What should come up, by group.
EXPECTED = {
    'results of accounts': numbered(model.ACCOUNT_RESULTS),
    'results of transfers': numbered(model.TRANSFER_RESULTS),
    'batches refused': ['batch_too_large', 'timestamps_exhausted'],
    'pulses': ['that expire nothing', 'that expire transfers'],
    'events': list(model.EVENT_TYPES),
    'faults of scripts': model.SCRIPT_FAULTS[1:],
    'faults of step files': model.STEP_FAULTS,
    'plays': ['done to the end', 'refused'],
    'subscribers after a play': ['ended', 'closed', 'with all events', 'with some events', 'with none'],
    'runs': [
        'in the order of the file',
        'in another order',
        'of one session',
        'of several sessions',
        'from saved progress',
        'from saved progress with a start',
        'of a start that is not allowed',
    ],
    'clients of runs': [str(number) for number in model.CLIENTS],
    'subscribers of runs': [str(number) for number in range(1, model.MOST_SUBSCRIBERS + 1)],
    'options of runs': [
        '--window',
        '--prefetch',
        '--lose-confirm',
        '--lose-publish',
        '--restart-after',
        '--repeat',
        '--close',
        '--start-after',
        '--progress',
    ],
    'subscribers after a run': ['ended', 'closed'],
}
for word in model.STEPS:
    EXPECTED[f'step {word}'] = ANSWERS[word] + ['refused: ' + name for name in REFUSALS.get(word, [])]


def count(reports, counts):
    """Adds what came up in a case."""
    for batch, results in reports['books'].batches:
        count_batch(batch, results, counts)
    for kind in model.EVENT_TYPES:
        counts['events', kind] += reports['messages'].text.count(f'event_type={kind} ')
    report = reports['simulate']
    if report.fault is not None:
        file, name = report.fault
        counts['faults of scripts' if file == 'script' else 'faults of step files', name] += 1
        return
    for step, answer in report.steps:
        counts[f'step {step.word}', 'taken' if step.word == 'batch' else answer] += 1
    counts['plays', 'done to the end' if report.refused is None else 'refused'] += 1
    if report.refused is not None:
        step, name = report.refused
        counts[f'step {step.word}', 'refused: ' + name + reason(report.world, step)] += 1
    for binding, seat in zip(report.world.broker.bindings, report.world.seats):
        count_subscriber(binding, seat.subscriber, report.world.ledger, counts)


def count_batch(batch, results, counts):
    if isinstance(results, str):
        counts['batches refused', results] += 1
    elif batch.kind == 'pulse':
        counts['pulses', 'that expire transfers' if results else 'that expire nothing'] += 1
    else:
        names = model.ACCOUNT_RESULTS if batch.kind == 'accounts' else model.TRANSFER_RESULTS
        for result in results:
            counts[f'results of {batch.kind}', f'{result} {names[result]}'] += 1


def reason(world, step):
    """Why a step isn't enabled, where there is more than one reason."""
    session = world.session
    if step.word in ('poll', 'publish', 'answer', 'save') and session is None:
        return ' without a session'
    if step.word == 'publish' and session.complete and session.sent == len(session.offered):
        return ' while the end waits for a confirm'
    names_subscriber = step.word in ('send', 'rewind', 'break', 'take', 'ack', 'close')
    if names_subscriber and not 1 <= step.numbers[0] <= len(world.seats):
        return ' without a subscriber'
    return ''


def count_subscriber(binding, subscriber, ledger, counts):
    group = 'subscribers after a play'
    counts[group, 'ended'] += subscriber.ended
    counts[group, 'closed'] += subscriber.closed
    feed = [event for event in ledger.events if binding.matches(event)]
    if not subscriber.applied:
        counts[group, 'with none'] += 1
    else:
        counts[group, 'with all events' if subscriber.applied == feed else 'with some events'] += 1


def count_run(case, report, found, counts):
    """Adds what came up in a run."""
    counts['runs', 'of a start that is not allowed'] += 'start_not_allowed' in report.text
    if report.status != 0:
        return
    for option in case.plan[::2] + ('--progress',) * case.saves:
        counts['options of runs', option] += 1
    script = model.read_script(case.script)
    counts['clients of runs', str(len({batch.client for batch in script.batches}) or 1)] += 1
    counts['subscribers of runs', str(len(script.bindings))] += 1
    plan = model.plan_of(case.plan)
    is_of_file = report.text == model.run(case.script, plan, case.progress).text
    counts['runs', 'in the order of the file' if is_of_file else 'in another order'] += 1
    sessions = report.progress[0] - (case.progress[0] if case.progress else 0)
    counts['runs', 'of one session' if sessions == 1 else 'of several sessions'] += 1
    counts['runs', 'from saved progress'] += case.progress is not None
    counts['runs', 'from saved progress with a start'] += case.progress is not None and case.progress[2] > 0
    for state in ('ended', 'closed'):
        counts['subscribers after a run', state] += found.text.count(b' %s yes' % state.encode('ascii'))


def summary(counts):
    """A line for each group, and what never came up."""
    text = ''
    never = []
    for group, names in EXPECTED.items():
        others = sorted(name for known, name in counts if known == group and name not in names)
        text += f'{group}: ' + ', '.join(f'{name} {counts[group, name]}' for name in names + others) + '\n'
        never += [f'{group}: {name}' for name in names if counts[group, name] == 0]
    text += 'never came up: ' + ('; '.join(never) if never else 'nothing') + '\n'
    return text


# ---------------------------------------------------------------- The soak


def run_chunk(program, room, seed, numbers):
    """The counts of some cases, the number of runs, and the cases that differ with their commands."""
    counts = collections.Counter()
    runs = 0
    differing = []
    with tempfile.TemporaryDirectory(dir=room) as folder:
        runner = Runner(program, folder)
        for number in numbers:
            case = case_of(seed, number)
            reports = {}
            runner.write(case)
            for command in COMMANDS:
                runs += 1
                found = runner.run(command, case)
                report = reports[command] = report_of(command, case, found)
                if found not in wanted(report, case):
                    differing.append((number, command))
            count(reports, counts)
            count_run(case, report, found, counts)
    return counts, runs, differing


def show(program, room, seed, number, command):
    """Prints a difference, shrunk."""
    with tempfile.TemporaryDirectory(dir=room) as folder:
        runner = Runner(program, folder)
        case = shrunk(runner, command, case_of(seed, number))
        runner.write(case)
        found = runner.run(command, case)
        print(report_on(seed, number, command, case, report_of(command, case, found), found), flush=True)


class Stopped(Exception):
    """The soak was asked to stop."""


def stop(_signal, _frame):
    raise Stopped


class Soak:
    def __init__(self, options, room):
        self.options = options
        self.room = room  # a folder for the files of all cases
        self.counts = collections.Counter()
        self.cases = 0
        self.runs = 0
        self.differing = 0
        self.began = time.monotonic()
        self.reported_last = self.began

    def chunks(self):
        """The numbers of the cases, some at a time, until there are enough or the time is up."""
        number = 1
        while self.options.count is None or number <= self.options.count:
            if self.options.seconds is not None and time.monotonic() - self.began >= self.options.seconds:
                return
            end = number + CHUNK
            if self.options.count is not None:
                end = min(end, self.options.count + 1)
            yield range(number, end)
            number = end

    def take_in(self, numbers, chunk):
        counts, runs, differing = chunk
        self.counts += counts
        self.cases += len(numbers)
        self.runs += runs
        for number, command in differing:
            self.differing += 1
            if self.differing <= MOST_SHOWN:
                show(self.options.program, self.room, self.options.seed, number, command)
        if time.monotonic() - self.reported_last >= 60:
            self.reported_last = time.monotonic()
            print(f'soak: {self.cases} cases, {self.differing} differ', file=sys.stderr, flush=True)

    def run(self):
        waiting = collections.deque()
        with multiprocessing.Pool(self.options.jobs, ignore_signals) as pool:
            for numbers in self.chunks():
                arguments = (self.options.program, self.room, self.options.seed, numbers)
                waiting.append((numbers, pool.apply_async(run_chunk, arguments)))
                if len(waiting) > self.options.jobs + 1:
                    taken, result = waiting.popleft()
                    self.take_in(taken, result.get())
            for taken, result in waiting:
                self.take_in(taken, result.get())

    def report(self):
        took = time.monotonic() - self.began
        text = f'soak: seed {self.options.seed}, {self.cases} cases, {took:.0f} s\n'
        return text + summary(self.counts) + f'soak: {self.runs - self.differing} passed, {self.differing} failed'


def ignore_signals():
    """A worker ends when the soak does, and not by Ctrl-C."""
    signal.signal(signal.SIGINT, signal.SIG_IGN)
    signal.signal(signal.SIGTERM, signal.SIG_DFL)


def run_case(options):
    """One case alone: its files and what it prints, and the difference where there is one."""
    case = case_of(options.seed, options.case)
    record = record_of(case.progress, case.version)
    files = {'soak.script': case.script, 'soak.steps': case.steps, 'soak.progress': record}
    print(''.join(file_in_shell(name, data) for name, data in files.items() if data is not None))
    print('\n'.join(' '.join(['relayplum', *arguments_of(command, case)]) for command in COMMANDS) + '\n')
    _, runs, differing = run_chunk(options.program, None, options.seed, [options.case])
    for number, command in differing:
        show(options.program, None, options.seed, number, command)
    print(f'soak: {runs - len(differing)} passed, {len(differing)} failed')
    return 1 if differing else 0


def options_of(arguments):
    parser = rooms.parser_of(__doc__)
    parser.add_argument('--seed', type=int, default=1)
    parser.add_argument('--count', type=int)
    parser.add_argument('--seconds', type=float)
    parser.add_argument('--case', type=int, help='this case alone')
    parser.add_argument('--jobs', type=int, default=2)
    options = rooms.options_of(parser, arguments)
    if options.count is None and options.seconds is None:
        options.count = 1000
    return options


def main(arguments):
    options = options_of(arguments)
    if options.case is not None:
        return run_case(options)
    with rooms.room('soak-') as room:
        soak = Soak(options, room)
        signal.signal(signal.SIGTERM, stop)
        signal.signal(signal.SIGINT, stop)
        try:
            soak.run()
        except Stopped:
            print('soak: stopped', flush=True)
        finally:
            signal.signal(signal.SIGTERM, signal.SIG_IGN)
            print(soak.report(), flush=True)
    return 1 if soak.differing else 0


if __name__ == '__main__':
    ending.run(main)
