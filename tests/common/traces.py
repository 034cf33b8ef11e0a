"""The trace of a run, compared with its plan and with what it printed."""
import re

ITEM = re.compile(r'(?:event (?P<timestamp>\d+), transfer \d+.*?|end mark): sent by session (?P<sent>.*)')
SENT = re.compile(r'(\d+), (taken|taken, its confirm lost|lost|ignored)')
AGAIN = re.compile(r'again (\d+): position (\d+), (?:event (\d+), transfer \d+.*|end mark)')
SUBSCRIBER = re.compile(
    r'subscriber (\d+): (\d+) deliver(?:y|ies), (\d+) applied, each once; (\d+) redelivered, applied no second time'
    r'(?:; the other (?:(one) is an end mark, or|(\d+) are end marks, or) came after a close)?'
)
BEYOND = 2**64  # the end mark's place behind all events
DEFAULT_PREFETCH = 8


def given(plan, option):
    """The numbers that a plan has for an option, each once."""
    return {int(value) for argument, value in zip(plan, plan[1:]) if argument == option}


def pairs(plan, option):
    """The pairs of numbers that a plan has for an option, each once."""
    return {tuple(map(int, value.split(':'))) for argument, value in zip(plan, plan[1:]) if argument == option}


def missed(plan, applied, again):
    """The rewinds of a plan that had to happen and didn't. It is known how many events each subscriber has applied, and which
    positions were redelivered to it. A queue that rewinds at a position redelivers it, if two of its deliveries may be
    unacknowledged: that position is acknowledged only after those that were delivered before it. A queue has a position for each
    event that its subscriber has applied, and one for the end mark. A subscriber that closes may receive more than it applies."""
    if min(given(plan, '--prefetch'), default=DEFAULT_PREFETCH) < 2:
        return []
    closed = {subscriber for subscriber, _ in pairs(plan, '--close')}
    return [
        f'{queue}:{position}'
        for queue, position in sorted(pairs(plan, '--repeat'))
        if queue in applied
        and queue not in closed
        and position <= applied[queue] + 1
        and position not in again.get(queue, [])
    ]


def missed_in(plan, printed, trace):
    """The rewinds of a plan that a run's trace lacks, by what the run printed."""
    again = {}
    for queue, position in re.findall(r'(?m)^again (\d+): position (\d+), ', trace):
        again.setdefault(int(queue), []).append(int(position))
    return missed(plan, applied_in(printed), again)


def applied_in(printed):
    """How many events each subscriber has applied, by what a run printed."""
    return {int(a): int(b) for a, b in re.findall(r'(?m)^subscriber (\d+) applied (\d+) ', printed)}


def complaints(plan, printed, trace):
    """What is wrong with a trace, a text each."""
    wrong, places, sendings, again, lines = [], [], [], {}, {}
    for line in trace.splitlines():
        if line.startswith('relayplum: ') or ': note: ' in line:
            continue
        item, redelivery, subscriber = ITEM.fullmatch(line), AGAIN.fullmatch(line), SUBSCRIBER.fullmatch(line)
        if item:
            if again or lines:
                wrong.append(f'out of its place: {line}')
            places.append(int(item['timestamp'] or BEYOND))
            parts = [SENT.fullmatch(part) for part in item['sent'].split('; sent again by session ')]
            if None in parts:
                wrong.append(f'no sending: {line}')
                continue
            sessions, fates = [int(part[1]) for part in parts], [part[2] for part in parts]
            if sessions != sorted(set(sessions)):
                wrong.append(f'not by later sessions: {line}')
            if fates[-1] != 'taken' or (len(fates) == 1):
                wrong.append(f'not taken at last: {line}')
            sendings.append(fates)
        elif redelivery:
            again.setdefault(int(redelivery[1]), []).append(int(redelivery[2]))
        elif subscriber:
            lines[int(subscriber[1])] = [int(number) for number in subscriber.group(2, 3, 4)]
            others = 1 if subscriber[5] else int(subscriber[6] or 0)
            deliveries, applied, duplicates = lines[int(subscriber[1])]
            if deliveries != applied + duplicates + others:
                wrong.append(f'not all reported: {line}')
            if others != 1 and '--close' not in plan:
                wrong.append(f'not one end mark: {line}')
        else:
            wrong.append(f'not understood: {line}')
    if places != sorted(set(places)):
        wrong.append(f'not in the order of the ledger: {places}')
    applied = applied_in(printed)
    if {number: line[1] for number, line in lines.items()} != applied:
        wrong.append(f'applied {lines}, printed {applied}')
    for number, (deliveries, _, duplicates) in lines.items():
        if len(again.get(number, [])) != duplicates or any(it > deliveries for it in again.get(number, [])):
            wrong.append(f'duplicates of subscriber {number}: {again.get(number)}')
    for rewind in missed(plan, applied, again):
        wrong.append(f'--repeat {rewind}: the position was never redelivered')
    # The first subscriber applies every event, so its count and the end mark are the items that are published.
    fates = [fate for item in sendings for fate in item]
    publishes = applied.get(1, 0) + 1 + len(fates) - len(sendings)
    accepted = publishes - fates.count('lost') - fates.count('ignored')
    for option, fate, most in (
        ('--lose-publish', 'lost', publishes),
        ('--lose-confirm', 'taken, its confirm lost', accepted),
    ):
        wanted = len([number for number in given(plan, option) if 0 < number <= most])
        if fates.count(fate) != wanted:
            wrong.append(f'{fate}: {fates.count(fate)}, where {option} asks for {wanted} of {most}')
    return wrong
