#!/usr/bin/env python3
"""The flag --checked of follow: streams by hand, and random lossy streams of random ledgers beside the model and the theorem.

  tests/checks/checked_following.py [PROGRAM] [--streams N] [--soak] [--model-alone]

PROGRAM: crates/cdc_app/out/cdc_app; N random streams, 2,000 by default. --soak tries 100,000.

By hand: each exception, each fault and status, what standard error reports, JSON, the results of --expect, the binding, and the saved
book.
Random streams: each has some events of a random ledger of `soak`, lost, reordered and repeated, in TigerBeetle's form and in ours, with
ignored lines. They are cut in two, and the second run goes on from the book of the first. What is printed has to be that of the model, and so have
the results of --expect over the whole stream.
What the model applies is checked against the ledger's whole list:

- before an applied event of an account, the missed events of the account moved nothing posted, and released as much as they held;
- the applied events of an account that moved posted money are a prefix of the ledger's;
- no new event is refused unless an earlier one of its accounts isn't applied;
- the ledger's events in order are all applied, and so are those of one ledger number alone.

A third of the streams is followed by baseline:

- between two applied events of an account, the missed events of the account moved nothing posted;
- the ledger's events in order from any place on are all applied.

Killed: a run with a book ends at each read, write, sync and rename, and is started again over the whole stream; it has to come to the
book of a run without a stop. --model-alone runs the theorem's checks without a program. Ends at calls of the C library need a C
compiler, `cc`. The last line is `checked_following: N passed, M failed`; the status is 1 where one failed.
"""
import concurrent.futures
import json
import os
import random
import subprocess
import sys
import tempfile

sys.dont_write_bytecode = True
HERE = os.path.dirname(os.path.realpath(__file__))
sys.path += [HERE, *(os.path.join(HERE, '..', it) for it in ('common', 'faults'))]
import commands
import ending
import follow
import interrupted
import model
import rooms
import soak
from commands import check

JOBS = 2  # runs at a time
STREAMS, MANY = 2000, 100_000  # random streams, and how many --soak tries
FIELDS = ('debits_pending', 'debits_posted', 'credits_pending', 'credits_posted')
BINDINGS = ('all', 'all ledger=700', 'any event_type=two_phase_posted transfer_code=1', 'all ledger=7')


# ---------------------------------------------------------------------------------------------------------------------
# What the program has to print.


def run(arguments, lines):
    """Runs `follow --checked` over these lines."""
    return commands.run(['--checked', *arguments], text_of(lines))


def text_of(lines):
    return ''.join(f'{it}\n' for it in lines).encode()


def counted(applied=0, duplicates=0, passed=0, gaps=0, skipped=0):
    """What standard error reports of the lines."""
    return (
        f'standard input: applied {applied}, duplicates {duplicates}, passed {passed}, gaps skipped {gaps}, '
        f'lines skipped {skipped}\n'
    )


def reason(checked, event, answer):
    """The text of a refusal, as far as the model has it."""
    if answer == 'not pending':
        return f'pending: no pending transfer {model.settled_by(event)} came before'
    if answer != 'balances':
        return ''
    account, name, shown, known, added, released = next(checked.mismatches(event))
    text = f'balances: account {account} has {name} {shown}, after {known}'
    text += f" and this transfer's {added}" if added else ''
    return text + (f" less the pending transfer's {released}" if released else '')


def event_account(id, balances):
    """The object of an account of an event."""
    return {'id': str(id), **{name: str(getattr(balances, name)) for name in FIELDS}}


class Followed:
    """What a follower of a binding makes of lines: the model's checker, the book, and the counts."""

    def __init__(self, binding='all', baseline=False):
        mode, *pairs = binding.split()
        split = [it.split('=') for it in pairs]
        self.binding = model.Binding(mode, tuple((key, int(it) if it.isdigit() else it) for key, it in split))
        self.checked, self.ended, self.book, self.taken = model.Checked(baseline), False, {}, 0
        self.begin()

    def begin(self):
        """A run begins: no line is counted."""
        self.counts = {'applied': 0, 'duplicates': 0, 'passed': 0, 'gaps': 0, 'skipped': 0}

    def take(self, content, skips):
        """Takes the event, the end or the nothing of a line. Returns the text of a refusal at which following stops, or None."""
        if content is None:
            self.counts['skipped'] += 1
        elif content == 'end':
            self.counts['duplicates'] += self.ended
            self.ended = True
        else:
            return self.take_event(content, skips)
        return None

    def take_event(self, event, skips):
        why = self.checked.refusal(event)
        text = reason(self.checked, event, why) if why else ''
        answer = self.checked.take(event)
        if answer == 'late':
            self.counts['duplicates'] += 1
        elif answer != 'applied':
            self.counts['gaps'] += skips
            return None if skips else text
        elif self.binding.matches(event):
            self.counts['applied'] += 1
            self.taken += 1
            for id, shown in zip(model.accounts_of(event), (event.debit_balances, event.credit_balances)):
                self.book[id] = shown
        else:
            self.counts['passed'] += 1
        return None

    @property
    def last(self):
        return max((it.timestamp for it in self.checked.applied), default=0)

    def text(self):
        """The lines at the end."""
        row = lambda id, it: f"account {id} {' '.join(str(getattr(it, name)) for name in FIELDS)}\n"
        head = f"subscriber 1 applied {self.taken} last {self.last} ended {'yes' if self.ended else 'no'} closed no\n"
        return head + ''.join(row(id, it) for id, it in self.book.items())

    def refused(self, event):
        """Of an event that is refused the members of its rule; of any other one None. (The model doesn't name the rules of how a pending
        transfer is settled.)"""
        why = self.checked.refusal(event)
        if why is None or event.timestamp <= max(self.checked.lasts.get(id, 0) for id in model.accounts_of(event)):
            return None
        if why == 'not pending':
            return {'rule': 'pending', 'transfer': str(model.settled_by(event))}
        if why != 'balances':
            return {'rule': None}
        members = ('account', 'field', 'shown', 'before', 'added', 'released')
        return {'rule': 'balances', **{name: str(it) for name, it in zip(members, next(self.checked.mismatches(event)))}}

    def expected(self, contents, skips):
        """The objects that --expect prints of these lines."""
        for number, content in enumerate(contents, 1):
            is_event = content not in (None, 'end')
            refused = self.refused(content) if is_event else None
            before, ended = dict(self.counts), self.ended
            stopped = self.take(content, skips)
            counted = [name for name in self.counts if self.counts[name] != before[name]]
            results = {'applied': 'applied', 'duplicates': 'duplicate', 'passed': 'passed', 'skipped': 'nothing'}
            result = 'gap' if refused else 'end' if content == 'end' and not ended else results[counted[0]]
            both = (event_account(*it) for it in zip(model.accounts_of(content), (content.debit_balances, content.credit_balances))) if result == 'applied' else ()
            kept = {'applied': self.taken, 'last': str(self.last), 'accounts': list(both)}
            yield {'kind': 'expect', 'line': number, 'result': result, **(refused or {}), **kept}
            if stopped is not None:
                return

    def run(self, contents, skips):
        """Takes what these lines have. Returns the status, and the text at the end with what comes before the reason of a stop."""
        self.begin()
        for number, content in enumerate(contents, 1):
            stopped = self.take(content, skips)
            if stopped is not None:
                return 3, f'{self.text()}gap: line {number}: {stopped}'
        return 0, self.text()


# ---------------------------------------------------------------------------------------------------------------------
# By hand.


class Hand:
    """A ledger with the accounts 1 to 4 on ledger 700 and 5 and 6 on 701, by hand: each call makes the next event, ten nanoseconds
    later."""

    def __init__(self):
        self.now, self.known, self.held = 100, {}, {}

    def event(self, kind, debit, credit, amount, id=None, pending_id=0, added=(0, 0)):
        """`added`: to the pending and to the posted sums."""
        self.now += 10
        balances = []
        for account, place in ((debit, 0), (credit, 2)):
            shown = list(self.known.get(account, (0, 0, 0, 0)))
            shown[place] += added[0]
            shown[place + 1] += added[1]
            self.known[account] = tuple(shown)
            balances.append(tuple(shown))
        body = follow.event(self.now, debit, credit, balances, kind, 701 if debit > 4 else 700)
        body['transfer'].update(id=str(id or self.now), amount=str(amount), pending_id=str(pending_id))
        return body

    def pay(self, debit, credit, amount):
        return self.event('single_phase', debit, credit, amount, added=(0, amount))

    def hold(self, id, debit, credit, amount):
        self.held[id] = debit, credit, amount
        return self.event('two_phase_pending', debit, credit, amount, id, added=(amount, 0))

    def settle(self, kind, id, posted):
        debit, credit, amount = self.held[id]
        return self.event(kind, debit, credit, posted or amount, None, id, (-amount, posted))

    def post(self, id, amount):
        return self.settle('two_phase_posted', id, amount)

    def void(self, id):
        return self.settle('two_phase_voided', id, 0)


def bodies(make):
    """The events that a function makes of a new ledger by hand, as lines."""
    return [follow.own(it) for it in make(Hand())]


# Three payments, then one between other accounts: at 110, 120, 130 and 140.
PAID = bodies(lambda it: [it.pay(1, 2, 5), it.pay(1, 2, 7), it.pay(2, 1, 4), it.pay(3, 4, 1)])
# A hold, its void, and a payment: at 110, 120 and 130.
VOIDED = bodies(lambda it: [it.hold(50, 1, 2, 5), it.void(50), it.pay(1, 2, 7)])
# The swap: a hold, its void and a new hold of the same amount, a payment, and the new hold's void.
SWAP = bodies(lambda it: [it.hold(50, 1, 2, 5), it.void(50), it.hold(51, 1, 2, 5), it.pay(1, 2, 7), it.void(51), it.pay(1, 2, 1)])
# A payment of 0 between two others.
SILENT = bodies(lambda it: [it.pay(1, 2, 5), it.pay(1, 2, 0), it.pay(1, 2, 7)])
# A hold of 5, a payment, a hold of 3, and a post of 2 of the first hold; or of 4.
LATE = bodies(lambda it: [it.hold(50, 1, 2, 5), it.pay(1, 2, 1), it.hold(51, 1, 2, 3), it.post(50, 2)])
LATE_MORE = bodies(lambda it: [it.hold(50, 1, 2, 5), it.pay(1, 2, 1), it.hold(51, 1, 2, 3), it.post(50, 4)])
# Payments on two ledgers.
LEDGERS = bodies(lambda it: [it.pay(1, 2, 5), it.pay(5, 6, 9), it.pay(1, 2, 7)])


def head(applied, last, ended='no'):
    return f'subscriber 1 applied {applied} last {last} ended {ended} closed no\n'


ONE_TWO = 'account 1 0 5 0 0\naccount 2 0 0 0 5\n'
ALL_PAID = 'account 1 0 12 0 4\naccount 2 0 4 0 12\naccount 3 0 1 0 0\naccount 4 0 0 0 1\n'


def rows():
    """Each row: what it is, the options, the lines, the status, what is printed, and what standard error reports."""
    skips = ['--skip-gaps']
    one, two, three, four = PAID
    yield 'nothing', [], [], 0, head(0, 0), counted()
    yield 'a whole stream', [], PAID, 0, head(4, 140) + ALL_PAID, counted(4)
    yield 'a duplicate', [], [one, one], 0, head(1, 110) + ONE_TWO, counted(1, 1)
    yield 'ignored lines', [], ['', one, 'event_type=x'], 0, head(1, 110) + ONE_TWO, counted(1, skipped=2)
    yield 'the end', [], [one, '{"end":true}'], 0, head(1, 110, 'yes') + ONE_TWO, counted(1)
    yield 'the end twice', [], [one, '{"end":true}', '{"end":true}'], 0, head(1, 110, 'yes') + ONE_TWO, counted(1, 1)
    after_end = 'account 1 0 12 0 0\naccount 2 0 0 0 12\n'
    yield 'an event after the end', [], [one, '{"end":true}', two], 0, head(2, 120, 'yes') + after_end, counted(2)
    # (by hand: account 2 shows debits of 4 and credits of 12; what is known is 0 and 5, so credits don't follow)
    gap = "gap: line 2: balances: account 2 has credits_posted 12, after 5\n"
    said = ':2: gap: balances: the event shows account 2 with credits_posted 12, and the balance known before it is 5'
    yield 'a lost payment', [], [one, three], 3, head(1, 110) + ONE_TWO + gap, counted(1) + said
    others = 'account 3 0 1 0 0\naccount 4 0 0 0 1\n'
    yield 'a lost payment stops its accounts alone', skips, [one, three, four], 0, head(2, 140) + ONE_TWO + others, counted(2, gaps=1)
    cured = [one, three, four, two, three]
    whole = 'account 1 0 12 0 4\naccount 2 0 4 0 12\naccount 3 0 1 0 0\naccount 4 0 0 0 1\n'
    yield 'a redelivery cures', skips, cured, 0, head(4, 140) + whole, counted(4, gaps=1)
    yield 'the first event is lost', [], [two], 3, head(0, 0) + "gap: line 1: balances: account 1 has debits_posted 12, after 0 and this transfer's 7\n", counted() + ':1: gap'
    yield 'the tail is lost', [], [one, two], 0, head(2, 120) + after_end, counted(2)
    # What moves nothing isn't missed, and is late when it comes.
    yield 'a silent event is lost', [], [SILENT[0], SILENT[2]], 0, head(2, 130) + after_end, counted(2)
    yield 'and is late', [], [SILENT[0], SILENT[2], SILENT[1]], 0, head(2, 130) + after_end, counted(2, 1)
    seven = 'account 1 0 7 0 0\naccount 2 0 0 0 7\n'
    yield 'a hold and its void are lost', [], VOIDED[2:], 0, head(1, 130) + seven, counted(1)
    said = 'pending transfer 50 isn\'t open'
    yield 'a hold is lost', [], VOIDED[1:], 3, head(0, 0) + 'gap: line 1: pending: no pending transfer 50 came before\n', counted() + said
    filtered = "gap: line 1: balances: account 1 has debits_pending 5, after 0\n"
    yield 'a stream without its holds', [], LATE[1:2], 3, head(0, 0) + filtered, counted() + 'again from there, with all kinds and codes'
    held = "gap: line 2: balances: account 1 has debits_pending 0, after 5\n"
    yield 'a void is lost', [], [VOIDED[0], VOIDED[2]], 3, head(1, 110) + 'account 1 5 0 0 0\naccount 2 0 0 5 0\n' + held, counted(1) + ':2: gap'
    # A void and a new hold of the same amount are lost: the payment passes, and the void of the new hold doesn't, for ever.
    swapped = 'account 1 5 7 0 0\naccount 2 0 0 5 7\n'
    stuck = 'gap: line {}: pending: no pending transfer 51 came before\n'
    lossy = [SWAP[0], SWAP[3], SWAP[4]]
    yield 'the swap', [], lossy[:2], 0, head(2, 140) + swapped, counted(2)
    yield 'the swap sticks', [], lossy, 3, head(2, 140) + swapped + stuck.format(3), counted(2) + 'only a new book helps'
    yield 'the swap sticks although all is redelivered', [], [*lossy[:2], *SWAP], 3, head(2, 140) + swapped + stuck.format(7), counted(2, 4) + ':7: gap'
    yield from late_rows()
    # Bindings take what is applied: the book has these alone, and the others are checked.
    options = ['--binding', 'all ledger=700']
    yield 'a binding', options, LEDGERS, 0, head(2, 130) + after_end, counted(2, passed=1)
    yield 'a gap that the binding does not take', ['--binding', 'all ledger=7'], [one, three], 3, head(0, 110) + gap, counted(passed=1) + ':2: gap'
    # Lines that are none.
    yield 'no JSON', [], [one, 'x'], 2, head(1, 110) + ONE_TWO + 'fault: line 2: not_json\n', counted(1) + ':2:1: not_json'
    high = follow.own(follow.event(2**63))
    yield 'a timestamp out of range', [], [one, high], 2, head(1, 110) + ONE_TWO + 'fault: line 2: out_of_range\n', counted(1) + ':2: out_of_range'


def late_rows():
    """Streams that begin late, by baseline."""
    late = ['--baseline']
    yield 'it begins late', late, PAID[1:], 0, head(3, 140) + ALL_PAID, counted(3)
    gap = 'gap: line 2: balances: account 2 has credits_posted 12, after 5\n'
    yield 'a lost payment by baseline', late, [PAID[0], PAID[2]], 3, head(1, 110) + ONE_TWO + gap, counted(1) + ':2: gap'
    seven = 'account 1 0 7 0 0\naccount 2 0 0 0 7\n'
    yield 'a void of a hold before the stream', late, VOIDED[1:], 0, head(2, 130) + seven, counted(2)
    held = 'account 1 3 3 0 0\naccount 2 0 0 3 3\n'
    yield 'a post of a hold before the stream', late, LATE[1:], 0, head(3, 140) + held, counted(3)
    # (the post releases 5; with the lost hold of 3 it seems to release 2)
    yield 'a lost hold that the post of another one hides', late, [LATE[1], LATE[3]], 0, head(2, 140) + held, counted(2)
    # (the pending debits fall from 5 to 3, and a post of 4 releases at least 4)
    gap = "gap: line 2: balances: account 1 has debits_pending 3, after 5 less the pending transfer's 4\n"
    known = 'account 1 5 1 0 0\naccount 2 0 0 5 1\n'
    yield 'a post of more than is released', late, [LATE_MORE[1], LATE_MORE[3]], 3, head(1, 120) + known + gap, counted(1) + ':2: gap'


USAGE = [
    ['--chained'], ['--after', '5'], ['--from-book'], ['--busy', '1'], ['--expect', '--json'], ['--expect', '--book', 'a.book'], ['--book', 'sqlite:a.db'], ['--binding', 'some'], ['--every', '0'], ['a', 'b'],
]


def by_hand(folder):
    for name, options, lines, status, printed, said in rows():
        found = run(options, lines)
        check(name, found[:2] == (status, printed) and said_so(found[2], said), found)
    for arguments in USAGE:
        found = run(arguments, [])
        check(f'usage: {arguments}', found[0] == 2 and not found[1] and found[2].startswith('error: '), found)
    found = commands.run(['--skip-gaps'], b'')
    check('--skip-gaps alone', found[0] == 2 and 'needs --chained or --checked' in found[2], found)
    check('nothing was made', os.listdir(folder) == [], os.listdir(folder))


def said_so(errors, said):
    """Whether standard error has the counts, and what is said besides."""
    counts, _, more = said.partition('\n')
    return errors.startswith(f'{counts}\n') and more in errors and (bool(more) or errors == said)


def as_json(folder):
    """The same facts as JSON objects."""
    gap = {'kind': 'gap', 'line': 2, 'rule': 'balances', 'account': '2', 'field': 'credits_posted', 'shown': '12', 'before': '5', 'added': '0', 'released': '0'}
    counts = {'applied': 1, 'duplicates': 0, 'passed': 0, 'gaps_skipped': 0, 'lines_skipped': 0}
    found = run(['--json'], [PAID[0], PAID[2]])
    lines = [json.loads(it) for it in found[1].splitlines()]
    subscriber = {'kind': 'subscriber', 'subscriber': 1, 'applied': 1, 'last': '110', 'ended': False, 'closed': False}
    check('a gap in JSON', found[0] == 3 and lines[0] == subscriber and lines[-2:] == [gap, {'kind': 'followed', **counts}], found)
    check('its accounts', [it['kind'] for it in lines[1:-2]] == ['account', 'account'], found)
    found = run(['--json'], VOIDED[1:])
    pending = {'kind': 'gap', 'line': 1, 'rule': 'pending', 'transfer': '50'}
    check('a hold is lost, in JSON', json.loads(found[1].splitlines()[-2]) == pending, found)
    found = run(['--json', '--book', os.path.join(folder, 'a.book'), '--every', '1'], PAID[:2])
    saved = [json.loads(it) for it in found[1].splitlines() if '"saved"' in it]
    wanted = [{'kind': 'saved', 'timestamp': time, **counts, 'applied': place} for place, time in ((1, '110'), (2, '120'))]
    check('saves in JSON', saved[:2] == wanted, saved)


SHOWN = '{"id":"%s","debits_pending":"%s","debits_posted":"%s","credits_pending":"%s","credits_posted":"%s"}'
FIRST_SHOWN = f"{SHOWN % (1, 0, 5, 0, 0)},{SHOWN % (2, 0, 0, 0, 5)}"
LOST = '"rule":"balances","account":"2","field":"credits_posted","shown":"12","before":"5","added":"0","released":"0",'


def result(number, name, applied, last, more='', accounts=''):
    """The line that --expect prints of a line."""
    return '{"kind":"expect","line":%s,"result":"%s",%s"applied":%s,"last":"%s","accounts":[%s]}\n' % (number, name, more, applied, last, accounts)


def result_rows():
    """Each row: what it is, the options, the lines, the status, what --expect prints, and what standard error reports."""
    one, two, three, four = PAID
    skips, first = ['--skip-gaps'], result(1, 'applied', 1, 110, accounts=FIRST_SHOWN)
    yield 'nothing', [], [], 0, '', ''
    lost = first + result(2, 'gap', 1, 110, LOST)
    yield 'a lost payment', [], [one, three, four], 3, lost, 'standard input:2: gap: balances: the event shows account 2'
    later = result(3, 'applied', 2, 140, accounts=f"{SHOWN % (3, 0, 1, 0, 0)},{SHOWN % (4, 0, 0, 0, 1)}")
    yield 'a lost payment is skipped', skips, [one, three, four], 0, lost + later, ''
    held = result(1, 'gap', 0, 0, '"rule":"pending","transfer":"50",')
    yield 'a hold is lost', [], VOIDED[1:], 3, held, "the pending transfer 50 isn't open"
    ends = result(2, 'end', 1, 110) + result(3, 'duplicate', 1, 110) + result(4, 'duplicate', 1, 110)
    yield 'the end, and what came before', [], [one, '{"end":true}', '{"end":true}', one], 0, first + ends, ''
    passed = result(1, 'passed', 0, 110) + result(2, 'nothing', 0, 110) + result(3, 'gap', 0, 110, LOST)
    yield 'a binding', ['--binding', 'all ledger=7'], [one, 'event_type=x', three], 3, passed, ':3: gap: balances'
    bad = first + result(2, 'bad_line', 1, 110, '"name":"not_json",')
    yield 'no JSON', skips, [one, 'x', two], 2, bad, ':2:1: not_json'
    high = first + result(2, 'bad_line', 1, 110, '"name":"out_of_range",')
    yield 'a timestamp out of range', skips, [one, follow.own(follow.event(2**63)), two], 2, high, ':2: out_of_range'
    known = result(1, 'applied', 1, 120, accounts=f"{SHOWN % (1, 5, 1, 0, 0)},{SHOWN % (2, 0, 0, 5, 1)}")
    less = '"rule":"balances","account":"1","field":"debits_pending","shown":"3","before":"5","added":"0","released":"4",'
    yield 'it begins late', ['--baseline'], [LATE_MORE[1], LATE_MORE[3]], 3, known + result(2, 'gap', 1, 120, less), ':2: gap'


def results(folder):
    """The results of --expect."""
    for name, options, lines, status, printed, said in result_rows():
        found = run(['--expect', *options], lines)
        is_said = said in found[2] if said else not found[2]
        check(f'--expect: {name}', found[:2] == (status, printed) and is_said, found)
    other = os.path.join(folder, 'other.book')
    run(['--book', other], VOIDED[:1])
    before = read(other)
    voided = result(1, 'applied', 2, 120, accounts=f"{SHOWN % (1, 0, 0, 0, 0)},{SHOWN % (2, 0, 0, 0, 0)}")
    found = run(['--expect', '--from-book', other], VOIDED[1:2])
    check('--expect goes on from another book', found[:2] == (0, voided) and read(other) == before, found)
    for options in (['--baseline'], ['--binding', 'all ledger=700']):
        found = run(['--expect', '--from-book', other, *options], VOIDED[1:])
        check(f'--expect of a book of another kind: {options}', found[:2] == (2, '{"kind":"fault","name":"store"}\n') and 'other.book' in found[2], found)
    check('no file was made', os.listdir(folder) == ['other.book'], os.listdir(folder))
    with open('/dev/full', 'wb') as full, tempfile.TemporaryFile() as lines:
        lines.write(text_of(PAID))
        lines.seek(0)
        done = subprocess.run([commands.program, 'follow', '--checked', '--expect'], stdin=lines, stdout=full, stderr=subprocess.PIPE, timeout=commands.SECONDS)
    check('--expect: a write fails', done.returncode == 1 and b'standard output: write_fault' in done.stderr, done)


def books(folder):
    """A book goes on where it was saved. One of another binding, or of another kind, is refused, and stays."""
    path = os.path.join(folder, 'a.book')
    kept = ['--book', path]
    found = run(kept, [PAID[0], PAID[3]])
    check('a new book', found[0] == 0 and found[1].startswith('saved 140\n'), found)
    found = run(kept, [PAID[2]])
    check('a gap after a stop', found[0] == 3 and 'gap: line 1: balances: account 2 has credits_posted 12, after 5\n' in found[1], found)
    found = run(kept, PAID)
    check('it goes on', found[0] == 0 and found[1].endswith(head(4, 140) + 'account 1 0 12 0 4\naccount 2 0 4 0 12\naccount 3 0 1 0 0\naccount 4 0 0 0 1\n'), found)
    check('events that it has are duplicates', found[2] == counted(2, 2), found)
    found = run([*kept, '--binding', 'any'], [])
    check('another text', found[0] == 2, found)
    before = read(path)
    check('its first line', before.split(b'\n')[1].startswith(b'checked-book 1 applied '), before[:80])
    for options in (['--checked', '--binding', 'all ledger=700'], [], ['--chained']):
        found = commands.run([*options, *kept], b'')
        check(f'a book of another kind: {options}', found[:2] == (2, 'fault: store\n') and 'is asked for: name ' in found[2], found)
        check(f'it stays: {options}', read(path) == before, read(path))
    other = os.path.join(folder, 'other.book')
    commands.run(['--book', other], text_of(PAID[:1]))
    before = read(other)
    found = run(['--book', other], PAID)
    check('a book that is not checked', found[:2] == (2, 'fault: store\n') and read(other) == before, found)
    hold = os.path.join(folder, 'hold.book')
    run(['--book', hold], VOIDED[:1])
    found = run(['--book', hold], VOIDED[1:])
    check('an open pending transfer is kept', found[0] == 0 and found[1].endswith(head(3, 130) + 'account 1 0 7 0 0\naccount 2 0 0 0 7\n'), found)


def copies(folder):
    """A book that begins as a copy of another one, or by baseline."""
    other, mine = (os.path.join(folder, it) for it in ('other.book', 'mine.book'))
    run(['--book', other], VOIDED[:1])
    before = read(other)
    copied = ['--book', mine, '--from-book', other]
    found = run(copied, [])
    check('a copy', found[0] == 0 and found[1].endswith(head(1, 110) + 'account 1 5 0 0 0\naccount 2 0 0 5 0\n'), found)
    found = run(copied, VOIDED[1:])
    voided = head(3, 130) + 'account 1 0 7 0 0\naccount 2 0 0 0 7\n'
    check('it goes on with the open pending transfer', found[0] == 0 and found[1].endswith(voided), found)
    check('the other stays', read(other) == before, read(other))
    kept = read(mine)
    found = run(copied, VOIDED)
    check('it is elsewhere', found[:2] == (2, 'fault: store\n') and 'leave out --from-book' in found[2] and read(mine) == kept, found)
    found = run(['--book', mine], VOIDED)
    check('it is resumed without', found[0] == 0 and found[1].endswith(voided), found)
    found = run(['--from-book', other], VOIDED[1:])
    check('a copy in memory', found[:2] == (0, voided), found)
    plain, new = (os.path.join(folder, it) for it in ('plain.book', 'new.book'))
    commands.run(['--book', plain], text_of(PAID[:1]))
    for name, options in (
        ('no checked book', ['--from-book', plain]),
        ('no file', ['--from-book', os.path.join(folder, 'none')]),
        ('another binding', ['--from-book', other, '--binding', 'all ledger=700']),
        ('not by baseline', ['--from-book', other, '--baseline']),
    ):
        found = run(['--book', new, *options], PAID)
        status = 1 if name == 'no file' else 2  # a file that can't be opened may be there later
        check(f'a copy of {name}', found[:2] == (status, 'fault: store\n') and not os.path.exists(new), found)
    late = os.path.join(folder, 'late.book')
    found = run(['--book', late, '--baseline'], PAID[1:])
    check('a book by baseline', found[0] == 0 and b' baseline yes\n' in read(late), found)
    kept = read(late)
    found = run(['--book', late], PAID)
    check('it is not resumed otherwise', found[:2] == (2, 'fault: store\n') and read(late) == kept, found)
    found = run(['--book', late, '--baseline'], PAID)
    check('it is resumed by baseline', found[0] == 0 and found[2] == counted(0, 4), found)
    found = run(['--book', other, '--baseline'], PAID)
    check('a whole book is not resumed by baseline', found[:2] == (2, 'fault: store\n') and read(other) == before, found)
    for arguments in (['--baseline'], ['--from-book', other]):
        found = commands.run(arguments, b'')
        check(f'{arguments} without --checked', found[0] == 2 and '--checked' in found[2], found)


def read(path):
    with open(path, 'rb') as it:
        return it.read()


# ---------------------------------------------------------------------------------------------------------------------
# The theorem.


def moved(event):
    """What an event adds to posted sums, and what it adds to pending ones."""
    amount = event.transfer.request.amount
    posted = amount if event.kind in ('single_phase', 'two_phase_posted') else 0
    return posted, amount if event.kind == 'two_phase_pending' else 0


def stream_of(rng, events):
    """Some of the events, in some order, some of them more than once."""
    kept = [event for event in events if rng.random() < rng.choice([0.3, 0.7, 0.95, 1])]
    for _ in range(rng.choice([0, 0, 1, 3, 10])):
        if len(kept) > 1:
            one, other = rng.randrange(len(kept)), rng.randrange(len(kept))
            kept[one], kept[other] = kept[other], kept[one]
    again = [event for event in events if rng.random() < rng.choice([0, 0, 0.5, 1])]
    return kept + again


def differences(events, stream):
    """What is wrong with what is applied of a stream, not by baseline."""
    amounts = {event.transfer.request.id: event.transfer.request.amount for event in events if moved(event)[1]}
    follower = model.Checked()
    for event in stream:
        times = {it.timestamp for it in follower.applied}
        answer = follower.take(event)
        missed_of = {account: missed(events, account, event.timestamp, times) for account in model.accounts_of(event)}
        if answer == 'applied':
            for account, those in missed_of.items():
                yield from wrong_with(event, account, those, amounts)
        elif answer != 'late' and not any(missed_of.values()):
            yield f'{event.timestamp}: refused ({answer}) though nothing is missing'
    for account in {id for event in events for id in model.accounts_of(event)}:
        ours, theirs = (
            [it.timestamp for it in some if account in model.accounts_of(it) and moved(it)[0]] for some in (follower.applied, events)
        )
        if ours != theirs[: len(ours)]:
            yield f'account {account}: what moved money is no prefix'


def late_differences(events, stream):
    """What is wrong with what is applied of a stream by baseline."""
    follower = model.Checked(baseline=True)
    firsts = {}  # of each account the timestamp of its first applied event
    for event in stream:
        if follower.take(event) != 'applied':
            continue
        times = {it.timestamp for it in follower.applied}
        for account in model.accounts_of(event):
            first = firsts.setdefault(account, event.timestamp)
            for it in missed(events, account, event.timestamp, times):
                if it.timestamp > first and moved(it)[0]:
                    yield f'{event.timestamp}: posted money of account {account} at {it.timestamp} is missed'


def missed(events, account, timestamp, times):
    """The events of an account before a timestamp that weren't applied."""
    return [it for it in events if account in model.accounts_of(it) and it.timestamp < timestamp and it.timestamp not in times]


def wrong_with(event, account, missed_ones, amounts):
    """What is wrong with an event that was applied although these of an account were missed."""
    for place in (0, 1):
        mine = [it for it in missed_ones if model.accounts_of(it)[place] == account]
        if any(moved(it)[0] for it in mine):
            yield f'{event.timestamp}: posted money of account {account} is missed'
        if sum(moved(it)[1] for it in mine) != sum(amounts.get(model.settled_by(it), 0) for it in mine):
            yield f"{event.timestamp}: account {account} is missed as much as it doesn't release"


def ledger_of(rng):
    """The events of a random ledger, and those of a part that has each account whole."""
    maker = soak.ScriptMaker(rng)
    maker.script()
    events = maker.ledger.events
    return rng.choice([events, *([it for it in events if it.transfer.request.ledger == number] for number in (700, 701))])


def numbers(value):
    """The same with each decimal string of at most 64 bits as a JSON number."""
    if isinstance(value, dict):
        return {name: numbers(it) for name, it in value.items()}
    return int(value) if isinstance(value, str) and value.isdigit() and int(value) < 2**64 else value


def written(rng, event):
    """A line of an event, in TigerBeetle's form or in ours."""
    text = model.body(event)
    body = json.loads(text)
    return rng.choice([
        lambda: text,
        lambda: json.dumps(body),
        lambda: json.dumps(numbers(body)),
        lambda: json.dumps(dict(reversed(body.items()))),
        lambda: json.dumps({'x': 1, 'body': body, 'previous': '3'}),
    ])()


def random_stream(seed, with_program=True):
    """A random stream, cut in two, and what is wrong with what is made of it, or None."""
    rng = random.Random(seed)
    events, baseline = ledger_of(rng), rng.random() < 0.3
    whole = model.Checked(baseline)
    rest = events[rng.randrange(len(events) + 1) :] if baseline else events
    if [whole.take(event) for event in rest] != ['applied'] * len(rest):
        return f'{seed}: a whole stream is not applied'
    stream = rng.choice([stream_of(rng, events), stream_of(rng, events), rest])
    for wrong in (late_differences if baseline else differences)(events, stream):
        return f'{seed}: {wrong}'
    return wrong_run(rng, seed, stream, baseline) if with_program else None


def wrong_run(rng, seed, stream, baseline):
    """What is wrong with what the program makes of a stream, or None."""
    contents = list(stream)
    for _ in range(rng.choice([0, 0, 2])):
        contents.insert(rng.randrange(len(contents) + 1), rng.choice([None, 'end']))
    text = {None: lambda: rng.choice(['', ' ', 'event_type=x']), 'end': lambda: '{"end":true}'}
    lines = [text[it]() if it in (None, 'end') else written(rng, it) for it in contents]
    binding, skips = rng.choice(BINDINGS), rng.random() < 0.7
    wanted, cut = Followed(binding, baseline), rng.randrange(len(lines) + 1)
    with rooms.room('checked-') as folder:
        path = os.path.join(folder, 'a.book')
        arguments = ['--binding', binding, '--book', path, '--every', str(rng.choice([1, 2, 7, 1000])), *['--skip-gaps'] * skips, *['--baseline'] * baseline]
        for part in (slice(0, cut), slice(cut, None)):
            status, printed = wanted.run(contents[part], skips)
            found = run(arguments, lines[part])
            at_end = ''.join(it for it in found[1].splitlines(True) if not it.startswith('saved '))
            is_right = at_end.startswith(printed) if status else at_end == printed
            if found[0] != status or not is_right or not found[2].startswith(counted(**wanted.counts)):
                return f'{seed}: {arguments}: {found!r}, not {(status, printed, wanted.counts)!r}'
    return wrong_results(seed, contents, lines, binding, baseline, skips)


def wrong_results(seed, contents, lines, binding, baseline, skips):
    """What is wrong with what --expect prints of a stream, or None."""
    wanted = list(Followed(binding, baseline).expected(contents, skips))
    arguments = ['--expect', '--binding', binding, *['--skip-gaps'] * skips, *['--baseline'] * baseline]
    found = run(arguments, lines)
    printed = found[1].splitlines()
    for one, line in zip(wanted, printed):
        if one.get('rule', '') is None:
            one['rule'] = json.loads(line).get('rule')
    text = [json.dumps(it, separators=(',', ':')) for it in wanted]
    status = 3 if wanted and wanted[-1]['result'] == 'gap' and not skips else 0
    return None if found[0] == status and printed == text else f'{seed}: {arguments}: {found!r}, not {text!r}'


def random_streams(count):
    with concurrent.futures.ThreadPoolExecutor(JOBS) as pool:
        for wrong in pool.map(random_stream, range(count)):
            check('a random stream', wrong is None, wrong)


# ---------------------------------------------------------------------------------------------------------------------
# Runs that are killed.


class KilledChecked(interrupted.Interrupted):
    """A stream that is interrupted, and started again as a whole: it comes to the book of a run without a stop."""

    lines = bodies(lambda it: [it.hold(50, 1, 2, 5), it.pay(3, 4, 2), it.post(50, 3), it.pay(1, 2, 7), it.pay(5, 6, 1), it.hold(51, 1, 2, 4), it.void(51)])
    stream = text_of(lines)
    final = head(7, 170) + 'account 1 0 10 0 0\naccount 2 0 0 0 10\naccount 3 0 2 0 0\naccount 4 0 0 0 2\naccount 5 0 1 0 0\naccount 6 0 0 0 1\n'
    rows = 40

    def arguments(self, name):
        return ['--checked', '--book', self.path(name), '--every', '3']

    def wrong_of(self, name, saved):
        """A run over what comes after what was reported as saved comes to the book of the whole."""
        last = saved[-1] if saved else 0
        return self.wrong_from(name, [it for it in self.lines if int(json.loads(it)['timestamp']) > last])

    def wrong_of_kill(self, name, saved):
        return self.wrong_from(name, self.lines)

    def wrong_from(self, name, lines):
        """What is wrong after a run that goes on from what is there."""
        again = run(['--book', self.path(name)], lines)
        is_right = again[0] == 0 and again[1].endswith(self.final) and not os.path.exists(f'{self.path(name)}.new')
        if os.path.exists(self.path(name)):
            os.remove(self.path(name))
        return None if is_right else again


def killed(folder):
    """Runs that end at each call, or for which it is refused."""
    interrupted.check_all(KilledChecked, folder)


def main(arguments):
    parser = commands.parser_of(__doc__)
    parser.add_argument('--streams', type=int, metavar='N', help=f'random streams; default: {STREAMS}')
    parser.add_argument('--model-alone', action='store_true', help='runs no program')
    if '--model-alone' in arguments:
        count = parser.parse_args(arguments).streams or STREAMS
        for seed in range(count):
            wrong = random_stream(seed, with_program=False)
            check('a random stream', wrong is None, wrong)
        return commands.ended('checked_following')
    options = rooms.options_of(parser, arguments)
    commands.begin(options.program, 'follow', options.soak)
    with rooms.room('checked-following-') as folder:
        for part in (by_hand, as_json, results, books, copies, killed):
            room = os.path.join(folder, part.__name__)
            os.mkdir(room)
            part(room)
        random_streams(options.streams or (MANY if options.soak else STREAMS))
    return commands.ended('checked_following')


if __name__ == '__main__':
    ending.run(main)
