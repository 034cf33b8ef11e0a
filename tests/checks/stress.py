#!/usr/bin/env python3
"""Runs scripts on threads again and again, under random faults, and compares what is printed and saved.

    tests/checks/stress.py [--program PATH] [--runs N] [--seed S] [--processors P]
    tests/checks/stress.py [--program PATH] --times N [--tests PATH] [--processors P]

Each run is of a script of 1 to 4 clients and 1 to 8 subscribers: a short one, drawn at random, or one of some 500 transfers. Its
plan loses confirms and publishes, restarts the connector, lets queues rewind and closes subscribers, at random counts,
on two processors or on four, or on P; its sessions wait for one event, or for up to 64. Of a short one the
output has to be what the outside model (model.py) has for the order of batches that the output allows (orders.py); two
of three start after a timestamp. A long one closes nothing, and its first book has the order of its batches: the
output has to be what `books` prints of a script in this order. Half of the runs save their progress to a file; by the
record that is left, the plan did what it names, if the window is 1. The trace of each has to agree with its plan and with what it printed (traces.py). A run that
takes longer than SECONDS hangs, and has failed. One run more is held for a while, in its first save (holding.py), and must
take no CPU time meanwhile.

Then four clients submit 1,000 transfers each, a batch a transfer, and it is printed how many batches of one client came
to the ledger in a row, at the most: nothing is claimed of that.

With --times there are no random plans: each of a few runs is done so often in a row, and has to come to what the
outside model allows; and where --tests names the tests of cdc_run_tests, as `rt test` builds them, those that show that
the actors work at the same time are run as often.

The last line is `stress: N passed, M failed`; exit status 1 where one failed.
"""
import itertools
import os
import pathlib
import random
import re
import subprocess
import sys
import time
from types import SimpleNamespace

sys.path.insert(0, os.path.join(os.path.dirname(os.path.realpath(__file__)), '..', 'common'))
import ending
import holding
import model
import orders
import rooms
import traces
from rooms import on_processors, shortened
from scripts import long_script

SECONDS = 300  # that a run may take: a last guard against one that hangs
HOLD = 1  # seconds for which a run that waits is looked at
MOST_HOLDS = 300
PROCESSORS = (2, 4)
MOST_SHOWN = 3  # failures that are shown
TRANSFERS = 500  # of a long script, about
# Lines of a report: how many events the first subscriber has applied, the last one's timestamp; a batch.
FIRST = re.compile(r'(?m)^subscriber 1 applied (\d+) last (\d+) ')
LAST = re.compile(r'(?m)(?<= )last \d+')
BATCH = re.compile(r'^batch \d+')

ACCOUNTS = """accounts 1000
account id=1 ledger=700 code=10
account id=2 ledger=700 code=10
"""
# A pending transfer, a post of a part of it, and one back.
SHORT = f"""subscriber all
subscriber all event_type=two_phase_posted
{ACCOUNTS}transfers 2000
transfer id=10 debit_account_id=1 credit_account_id=2 amount=100 ledger=700 code=1 flags=2
transfers 3000
transfer id=11 pending_id=10 amount=40 flags=4
transfer id=12 debit_account_id=2 credit_account_id=1 amount=5 ledger=700 code=1
"""
# Two clients, each with accounts and a transfer of its own.
TWO_CLIENTS = f"""subscriber all
subscriber all ledger=800
{ACCOUNTS}client 2
accounts 1000
account id=3 ledger=800 code=10
account id=4 ledger=800 code=10
client 1
transfers 2000
transfer id=1 debit_account_id=1 credit_account_id=2 amount=5 ledger=700 code=1
client 2
transfers 2000
transfer id=2 debit_account_id=3 credit_account_id=4 amount=7 ledger=800 code=1
"""
# One client, and two subscribers of all events.
TWO_OF_ALL = f"""subscriber all
subscriber all
{ACCOUNTS}transfers 2000
transfer id=1 debit_account_id=1 credit_account_id=2 amount=5 ledger=700 code=1
transfers 3000
transfer id=2 debit_account_id=1 credit_account_id=2 amount=7 ledger=700 code=1
"""


def four_clients():
    """Four clients, each with two accounts and a transfer on a ledger of its own; eight subscribers: one of each ledger,
    and four of all."""
    lines = [f'subscriber all ledger={700 + client}' for client in model.CLIENTS] + ['subscriber all'] * 4
    for client in model.CLIENTS:
        debit, credit, ledger = 2 * client - 1, 2 * client, 700 + client
        lines += [f'client {client}', 'accounts 1000']
        lines += [f'account id={account} ledger={ledger} code=10' for account in (debit, credit)]
        lines.append('transfers 2000')
        lines.append(
            f'transfer id={client} debit_account_id={debit} credit_account_id={credit} amount={client}'
            f' ledger={ledger} code=1'
        )
    return '\n'.join(lines) + '\n'


# The runs that --times does again and again, by name.
AGAIN = {
    'a lost confirm and a restart': (SHORT, ['--window', '2', '--lose-confirm', '1', '--restart-after', '2']),
    'one client and two subscribers of all events': (TWO_OF_ALL, []),
    'two clients': (TWO_CLIENTS, []),
    'four clients and eight subscribers': (four_clients(), ['--window', '64', '--restart-after', '2']),
    'a subscriber closes': (SHORT, ['--close', '1:2']),
}
TESTS = ('overlap::two_actors_at_once', 'overlap::twelve_actors_at_once')


class Runner:
    def __init__(self, program, folder):
        self.program = program
        self.folder = pathlib.Path(folder)
        self.passed = 0
        self.failed = 0
        self.errors = ''  # standard error of the last run that ended well

    def run(self, arguments, script, processors=max(PROCESSORS)):
        """Standard output, or why there is none."""
        try:
            ran = subprocess.run(
                [self.program, *arguments],
                cwd=self.folder,
                input=script.encode('ascii'),
                stdout=subprocess.PIPE,
                stderr=subprocess.PIPE,
                timeout=SECONDS,
                preexec_fn=on_processors(processors),
            )
        except subprocess.TimeoutExpired:
            return f'nothing: it hangs, or takes longer than {SECONDS} seconds'
        if ran.returncode != 0:
            return f'status {ran.returncode}, and {ran.stdout[-300:]!r}, {ran.stderr[-300:]!r}'
        self.errors = ran.stderr.decode('utf-8', 'backslashreplace')
        return ran.stdout.decode('utf-8', 'backslashreplace')

    def note(self, what, wanted, found):
        """Counts a run, which had to come to one of these outcomes."""
        if found in wanted:
            self.passed += 1
            return
        self.failed += 1
        if self.failed <= MOST_SHOWN:
            print(f'failed: {what}\nwanted: {shortened(wanted[0])}\nfound: {shortened(found)}', flush=True)

    def report(self):
        print(f'stress: {self.passed} passed, {self.failed} failed', flush=True)
        return 1 if self.failed else 0


# ---------------------------------------------------------------- Random scripts


class Script:
    """Bindings, and the batches of clients, by their lines. Each batch but the first of a client, which opens its accounts,
    moves something off an account that no other one touches; so the order in which accounts appear in a book of all events
    is the order of the batches. The first subscriber keeps such a book."""

    def __init__(self, bindings):
        self.bindings = ['all', *bindings]
        self.batches = []  # each with its client, the account that is its own or 0, and its lines

    def add(self, client, account, lines):
        self.batches.append((client, account, lines))

    def text(self):
        lines = [f'subscriber {binding}' for binding in self.bindings]
        whose = 1
        for client, _, of_batch in self.batches:
            lines += [f'client {client}'] * (client != whose) + of_batch
            whose = client
        return '\n'.join(lines) + '\n'

    def of_one_client(self, order):
        """The same with the batches in this order, all of them client 1's."""
        lines = [f'subscriber {binding}' for binding in self.bindings]
        return '\n'.join(sum((self.batches[place][2] for place in order), lines)) + '\n'

    def order_in(self, printed):
        """The places of the batches in the order that the first book of a run has; those that open accounts come first.
        None if it has no order."""
        report = orders.report_in(printed)
        places = {account: place for place, (_, account, _) in enumerate(self.batches) if account}
        if report is None or not report[1]:
            return None
        found = [places[account] for account in report[1][0].accounts if account in places]
        openers = [place for place, (_, account, _) in enumerate(self.batches) if not account]
        return openers + found if len(found) == len(places) else None


def opening(client, accounts):
    """The lines that open a client's accounts."""
    ledger = 700 + client
    return ['accounts 1000'] + [f'account id={account} ledger={ledger} code=10' for account in accounts]


def bindings_of(rng, clients, subscribers):
    """What so many subscribers less one may want."""
    some = ['all', 'all', 'any', 'any event_type=two_phase_posted transfer_code=2', 'all event_type=single_phase']
    some += [f'all ledger={700 + client}' for client in range(1, clients + 1)]
    return [rng.choice(some) for _ in range(subscribers - 1)]


def transfer_of(rng, number, client, debit, credit, pending):
    """A line: a transfer, a pending one, whose number is added to the list, or a post of a part of one of those."""
    if pending and rng.random() < 0.3:
        return f'transfer id={number} pending_id={pending.pop()} amount=1 flags=4'
    flags = ''
    if rng.random() < 0.2:
        pending.append(number)
        flags = ' flags=2'
    return (
        f'transfer id={number} debit_account_id={debit} credit_account_id={credit} amount={rng.randint(1, 90)}'
        f' ledger={700 + client} code={rng.randint(1, 3)}{flags}'
    )


def script_of(rng, clients, subscribers, batches, most_items, timestamps):
    """A script of so many clients and subscribers, each client with so many batches of transfers, at such timestamps."""
    script = Script(bindings_of(rng, clients, subscribers))
    turns = [client for client in range(1, clients + 1) for _ in range(batches + 1)]
    rng.shuffle(turns)
    submitted = dict.fromkeys(turns, 0)
    pending = {client: [] for client in turns}
    number = 0
    for client in turns:
        first = 10_000 * client
        if submitted[client] == 0:
            # A batch has 1,000 items at most.
            script.add(client, 0, opening(client, range(first, first + min(batches + 1, model.MOST_ITEMS))))
        else:
            own, others = first + submitted[client], first + 1 + rng.randrange(submitted[client])
            lines = [f'transfers {rng.choice(timestamps)}']
            for item in range(rng.randint(1, most_items)):
                number += 1
                # The first one is never a post, which moves nothing off the batch's own account.
                waiting = pending[client] if item else []
                debit, credit = (own, first) if item == 0 else rng.sample([first, own, others, first], 2)
                credit = credit if credit != debit else first + (debit == first)
                lines.append(transfer_of(rng, number, client, debit, credit, waiting))
            script.add(client, own, lines)
        submitted[client] += 1
    return script


# ---------------------------------------------------------------- Random plans


def count_of(rng, events):
    """Of a packet, or a position: anywhere, at the start, or about the end."""
    most = events + 2
    return rng.choice([rng.randint(1, most), rng.randint(1, min(most, 5)), rng.randint(max(1, most - 3), most)])


def plan_of(rng, events, subscribers, closes):
    """The arguments of a plan for so many events; it may close subscribers, but for the first."""
    arguments = ['--window', str(rng.choice([1, 1, 1, 2, 8, 64])), '--prefetch', str(rng.choice([1, 2, 3, 8, 8, 64]))]
    for option in ('--lose-confirm', '--lose-publish', '--restart-after'):
        for _ in range(rng.choice([0, 1, 2, 5, 20])):
            arguments += [option, str(count_of(rng, events))]
    for _ in range(rng.choice([0, 1, 2, 5, 20])):
        arguments += ['--repeat', f'{rng.randint(1, subscribers)}:{count_of(rng, events)}']
    for _ in range(rng.choice([0, 0, 1, 2, 4]) if closes and subscribers > 1 else 0):
        arguments += ['--close', f'{rng.randint(2, subscribers)}:{count_of(rng, events)}']
    return arguments


def records_of(report):
    """The bytes of the progress that a run may save last, by a report of the model."""
    session, timestamp, start = report.progress
    return [b'tb-cdc 2 %d %d %d\n' % (session + more, timestamp, start) for more in range(report.more_sessions + 1)]


class Stress:
    """A kind of script, and what a run of one may come to."""

    def __init__(self, runner, rng):
        self.runner = runner
        self.rng = rng

    def drawn(self):
        """A script, and the arguments of a plan for it."""
        clients, subscribers = self.rng.randint(1, 4), self.rng.randint(1, 8)
        script = self.script(clients, subscribers)
        self.size = f'{clients} clients, {subscribers} subscribers'
        events = len(re.findall('(?m)^transfer ', script.text()))
        return script, plan_of(self.rng, events, subscribers, self.closes) + self.start()

    def start(self):
        """The arguments for where the first session starts."""
        return []


class Short(Stress):
    """Few transfers, at timestamps of any order; the model has their report."""

    name, closes = 'short', True

    def script(self, clients, subscribers):
        return script_of(self.rng, clients, subscribers, self.rng.randint(1, 3), 3, [1000, 2000, 5000])

    def start(self):
        if self.rng.random() < 1 / 3:
            return []
        timestamp = self.rng.choice([0, 1000, 2000, 5000]) + self.rng.randint(-1, 8)
        return ['--start-after', str(max(timestamp, 0))]

    def wanted(self, script, plan, saves, printed, left=None):
        report = orders.report_of_run(script.text().encode('ascii'), model.plan_of(plan), None, printed, left)
        return [(report.text, record) for record in (records_of(report) if saves else [None])]

    def shown(self, printed):
        return printed


class Long(Stress):
    """TRANSFERS in all, a batch each ten; `books` has their report. Which timestamp the last event of a subscriber of some events
    has hangs on when the accounts of the other clients were opened, so that isn't looked at."""

    name, closes = 'long', False

    def script(self, clients, subscribers):
        return script_of(self.rng, clients, subscribers, TRANSFERS // 6 // clients, 11, [1000])

    def wanted(self, script, plan, saves, printed, left=None):
        order = script.order_in(printed)
        if order is None:
            return [('an order of the batches in the first book', None)]
        book = in_order_of_file(self.runner.run(['books', '-'], script.of_one_client(order)), order)
        records = [None]
        if saves:
            applied, last = (int(number) for number in FIRST.search(book).groups())
            events = [SimpleNamespace(timestamp=place) for place in range(1, applied)] + [SimpleNamespace(timestamp=last)]
            records = records_of(saved(events, model.plan_of(plan)))
        return [(self.shown(book), record) for record in records]

    def shown(self, printed):
        first, *others = printed.split('subscriber 2 ')
        return 'subscriber 2 '.join([first, *(LAST.sub('last', other) for other in others)])


def in_order_of_file(book, order):
    """What `books` printed of batches in this order, with their lines in the order of the places."""
    lines = book.splitlines(keepends=True)
    head, rest = lines[: len(order)], lines[len(order) :]
    placed = dict(zip(order, head))
    numbered = [f'batch {place + 1}' + BATCH.sub('', placed[place]) for place in range(len(order)) if place in placed]
    return ''.join(numbered + rest)


def saved(events, plan):
    """What a run of these events may save last: one record where its window is 1."""
    if plan.window > 1:
        _, progress = model.published(events, model.Plan(), None)
        return SimpleNamespace(progress=progress, more_sessions=plan.breaks())
    return SimpleNamespace(progress=model.published(events, plan, None)[1], more_sessions=0)


def run_stress(options, runner):
    rng = random.Random(options.seed)
    kinds = [Long(runner, rng)] + [Short(runner, rng)] * 19
    times = {}
    for number in range(1, options.runs + 1):
        stress = kinds[number % len(kinds)]
        processors = options.processors or rng.choice(PROCESSORS)
        script, plan = stress.drawn()
        saves = rng.random() < 0.5
        progress = runner.folder / 'stress.progress'
        progress.unlink(missing_ok=True)
        arguments = ['run', '-', '--trace', *plan, *(['--progress', progress.name] if saves else [])]
        begun = time.monotonic()
        printed = runner.run(arguments, script.text(), processors)
        times.setdefault((stress.name, processors), []).append(time.monotonic() - begun)
        errors = runner.errors
        left = progress.read_bytes() if progress.exists() else None
        what = f'run {number} of seed {options.seed}, a {stress.name} script on {processors} processors, {stress.size}: '
        wanted = stress.wanted(script, plan, saves, printed, left)
        runner.note(what + ' '.join(arguments), wanted, (stress.shown(printed), left))
        runner.note(what + ' '.join(arguments) + ': trace', [[]], traces.complaints(plan, printed, errors))
    run_waiting(runner)
    for (name, processors), seconds in sorted(times.items()):
        mean = sum(seconds) / len(seconds)
        print(f'a {name} script on {processors} processors: {len(seconds)} runs, {mean:.3f} s each,', end=' ')
        print(f'{max(seconds):.3f} s at most')
    run_fair(options, runner)


# ---------------------------------------------------------------- Which client comes


def run_fair(options, runner):
    """Four clients with a thousand transfers each, a batch a transfer: whose batches come to the ledger in a row."""
    stress = Long(runner, random.Random(options.seed))
    script = script_of(stress.rng, 4, 1, model.MOST_ITEMS - 1, 1, [1000])
    for processors in [options.processors] if options.processors else PROCESSORS:
        printed = runner.run(['run', '-'], script.text(), processors)
        wanted = stress.wanted(script, [], False, printed)
        runner.note(f'four clients on {processors} processors', wanted, (stress.shown(printed), None))
        clients = [script.batches[place][0] for place in script.order_in(printed) or []]
        rows = [(len(list(row)), client) for client, row in itertools.groupby(clients[4:])]
        most, client = max(rows, default=(0, 0))
        print(
            f'four clients of {model.MOST_ITEMS - 1} transfers each on {processors} processors: the longest run of batches of'
            f' one client is {most}, of client {client}; there are {len(rows)} such runs'
        )


# ---------------------------------------------------------------- A run that waits


def ticks(process):
    """The CPU time that a process has taken, in hundredths of a second."""
    fields = pathlib.Path(f'/proc/{process.pid}/stat').read_text().rpartition(')')[2].split()
    return int(fields[11]) + int(fields[12])


def is_asleep(process):
    """Whether all threads of a process sleep: one that only waits for a processor doesn't."""
    threads = pathlib.Path(f'/proc/{process.pid}/task').glob('*/stat')
    return all(it.read_text().rpartition(')')[2].split()[0] in 'SD' for it in threads)


def has_rested(process):
    """Whether all threads of a process sleep, and it takes no CPU time in some HOLD seconds. Those that aren't held may
    have something to do first, for at most MOST_HOLDS times as long: a last guard."""
    for _ in range(MOST_HOLDS):
        before, slept = ticks(process), is_asleep(process)
        time.sleep(HOLD)
        if slept and is_asleep(process) and ticks(process) - before <= 1:
            return True
    return False


def run_waiting(runner):
    """A run whose connector is held in its first save, and all others with it."""
    library = holding.library_in(runner.folder, 'stress', 'a run that waits')
    if library is None:
        return
    script = long_script(2000, 100)
    book = runner.run(['books', '-'], script)
    pipe = runner.folder / 'hold'
    os.mkfifo(pipe)
    (runner.folder / 'stress.script').write_text(script)
    arguments = [runner.program, 'run', 'stress.script', '--progress', 'held']
    env = holding.environment(library)
    with subprocess.Popen(arguments, cwd=runner.folder, stdout=subprocess.PIPE, env=env) as run:
        held = holding.wait_until_held(run, pipe)
        rested = held is not None and has_rested(run)
        if held is not None:
            os.close(held)
        try:
            found = run.communicate(timeout=SECONDS)[0].decode('utf-8', 'backslashreplace')
        except subprocess.TimeoutExpired as error:
            run.kill()
            found = repr(error)
    runner.note('a run that waits', [(True, book)], (rested, found))


# ---------------------------------------------------------------- The same again and again


def run_repeated(options, runner):
    processors = options.processors or max(PROCESSORS)
    for name, (script, arguments) in AGAIN.items():
        plan = model.plan_of(arguments)
        wanted = {}  # what the model has, by what was found
        seen = {}
        for time_ in range(1, options.times + 1):
            found = runner.run(['run', '-', *arguments], script, processors)
            seen[found] = seen.get(found, 0) + 1
            if found not in wanted:
                wanted[found] = orders.report_of_run(script.encode('ascii'), plan, None, found).text
            runner.note(f'{name}, time {time_}', [wanted[found]], found)
        counts = ', '.join(str(count) for count in sorted(seen.values(), reverse=True))
        print(f'{name}: {options.times} times on {processors} processors; {len(seen)} outcomes: {counts}', flush=True)
    if options.tests is not None:
        for test in TESTS:
            run_test(test, options, runner, processors)


def run_test(test, options, runner, processors):
    leave = on_processors(processors)
    for time_ in range(1, options.times + 1):
        arguments = [options.tests, test]
        ran = subprocess.run(arguments, cwd=runner.folder, capture_output=True, timeout=SECONDS, preexec_fn=leave)
        found = ran.returncode if ran.returncode == 0 else (ran.returncode, ran.stdout[-500:], ran.stderr[-500:])
        runner.note(f'{test}, time {time_}', [0], found)
    print(f'{test}: {options.times} times on {processors} processors', flush=True)


def options_of(arguments):
    parser = rooms.parser_of(__doc__)
    parser.add_argument('--runs', type=int, default=200)
    parser.add_argument('--seed', type=int, default=1)
    parser.add_argument('--times', type=int)
    parser.add_argument('--tests')
    parser.add_argument('--processors', type=int)
    options = rooms.options_of(parser, arguments)
    options.tests = options.tests and str(pathlib.Path(options.tests).resolve())
    return options


def main(arguments):
    options = options_of(arguments)
    with rooms.room('stress-') as folder:
        runner = Runner(options.program, folder)
        begun = time.monotonic()
        if options.times is None:
            run_stress(options, runner)
        else:
            run_repeated(options, runner)
        print(f'stress: {time.monotonic() - begun:.0f} s')
        return runner.report()


if __name__ == '__main__':
    ending.run(main)
