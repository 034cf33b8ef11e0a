"""In which order the batches of a run came to its ledger, taken from what the run printed.

Each client's batches come in their order; which client is the next one hangs on the threads. What is printed narrows it
down: the results of each batch, and of each subscriber how many events it has applied, the timestamp of the last, and its
accounts in the order in which they first appeared. So batches are submitted to a ledger of the model (model.py) one after
another, each the next one of its client. A prefix that can't come to what was printed is dropped at once, and so is one that
has brought the ledger to where another one has. No list of all orders is made: four clients of four batches each have 63
million.
"""
from dataclasses import dataclass, field

import model


@dataclass
class Printed:
    """What a run printed of a subscriber."""

    applied: int
    last: int
    is_closed: bool
    accounts: list = field(default_factory=list)  # by their ids, in the order of the lines


def report_in(printed):
    """The line of each batch, and what was printed of each subscriber; None where it is no report of a run."""
    batches, subscribers = [], []
    for line in printed.splitlines(keepends=True):
        match line.split():
            case ['batch', *_]:
                batches.append(line)
            case ['subscriber', _, 'applied', applied, 'last', last, 'ended', _, 'closed', closed]:
                subscribers.append(Printed(int(applied), int(last), closed == 'yes'))
            case ['account', account, _, _, _, _] if subscribers:
                subscribers[-1].accounts.append(int(account))
            case _:
                return None
    return batches, subscribers


def accounts_of(events):
    """The accounts of events, in the order in which they first appear."""
    sides = ((event.debit_account.request.id, event.credit_account.request.id) for event in events)
    return list(dict.fromkeys(account for pair in sides for account in pair))


class Search:
    """The ledger of a run as far as its batches are submitted, and how many of each client's are."""

    def __init__(self, script, batches, subscribers, timestamp, saved):
        self.script = script
        self.printed = batches
        self.subscribers = list(zip(script.bindings, subscribers))
        self.timestamp = timestamp  # after which events are published
        self.saved = saved  # the timestamp of the progress that the run has left, where it left some
        self.left = {}  # of each client the places of its batches, in its order
        for place, batch in enumerate(script.batches):
            self.left.setdefault(batch.client, []).append(place)
        self.ledger = model.Ledger()
        self.order = []
        self.seen = set()  # the stages from which it was gone on

    def stage(self):
        """How far it has come, as far as what follows hangs on it. Which items were accepted is what was printed, so it is
        given by how many batches of each client are left; which pending transfers are over and when the others will be
        hangs on the order, and so does what is published."""
        left = tuple(len(places) for places in self.left.values())
        ends = self.ledger.ends_of
        timed = [one for one in self.ledger.transfers.values() if one.end is not None and one.request.id not in ends]
        published = [
            (event.timestamp, event.kind, event.transfer.request.id, event.debit_balances, event.credit_balances)
            for event in self.ledger.events
            if event.timestamp > self.timestamp
        ]
        waiting = frozenset((one.request.id, one.timestamp) for one in timed)
        return left, self.ledger.last, frozenset(ends.items()), waiting, tuple(published)

    def found(self):
        """The orders that what was printed of batches and subscribers allows, one after another; of those that come to the
        same, one."""
        stage = self.stage()
        if stage in self.seen:
            return
        self.seen.add(stage)
        if len(self.order) == len(self.script.batches):
            if self.saved in (None, self.last_timestamp()):
                yield list(self.order)
            return
        for places in self.left.values():
            if places:
                place = places.pop(0)
                before, last = self.ledger.mark(), self.ledger.last
                self.order.append(place)
                if self.submits(place) and self.may_go_on():
                    yield from self.found()
                self.order.pop()
                self.ledger.undo(before)
                self.ledger.last = last
                places.insert(0, place)

    def last_timestamp(self):
        """The timestamp of the last event that is published, which is saved once all are confirmed."""
        events = [event for event in self.ledger.events[-1:] if event.timestamp > self.timestamp]
        return events[-1].timestamp if events else self.timestamp

    def submits(self, place):
        """Submits a batch; whether the results are those that were printed."""
        batch = self.script.batches[place]
        try:
            results = self.ledger.submit(batch)
        except model.BatchRefused as refusal:
            results = refusal.name
        return model.batch_line(place + 1, batch, results) == self.printed[place]

    def may_go_on(self):
        return all(self.may_become(binding, printed) for binding, printed in self.subscribers)

    def may_become(self, binding, printed):
        """Whether a subscriber to whom the ledger's events come in turn may still come to what was printed of it."""
        events = [event for event in self.ledger.events if event.timestamp > self.timestamp and binding.matches(event)]
        if len(events) > printed.applied and not printed.is_closed:
            return False
        events = events[: printed.applied]
        accounts = accounts_of(events)
        if accounts != printed.accounts[: len(accounts)]:
            return False
        last = events[-1].timestamp if events else 0
        return last == printed.last if len(events) == printed.applied else last < printed.last


def saved_in(record):
    """The session and the timestamp of a progress record as a run leaves it; None twice where it is no such record."""
    fields = (record or b'').split()
    return (int(fields[2]), int(fields[3])) if len(fields) == 5 and fields[:2] == [b'tb-cdc', b'2'] else (None, None)


def orders_of(script, printed, timestamp, saved):
    """Orders of a script's batches, as places in it, that this text of a run and the timestamp that it saved allow: all but
    those that come to the same as another one."""
    report = report_in(printed)
    if report is None or [len(part) for part in report] != [len(script.batches), len(script.bindings)]:
        return iter(())
    return Search(script, *report, timestamp, saved).found()


def report_of_run(script_data, plan, progress, printed, record=None):
    """What the model has for a run that printed this, and left this progress record, if it left any: in an order that
    allows both, if there is one, else in the file's. Orders that come to the same text and timestamp may differ in how many
    events there are after the start, and so in the sessions that a plan comes to."""
    report, (session, saved) = model.run(script_data, plan, progress), saved_in(record)

    def fits(one):
        if one.text != printed or saved is None or one.progress is None:
            return one.text == printed
        first = one.progress[0]
        return one.progress[1] == saved and first <= session <= first + one.more_sessions

    if report.status != 0 or fits(report):
        return report
    timestamp = plan.start or 0 if progress is None else progress[1]
    for order in orders_of(model.read_script(script_data), printed, timestamp, saved):
        other = model.run(script_data, plan, progress, order)
        if fits(other):
            return other
    return report
