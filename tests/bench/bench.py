#!/usr/bin/env python3
"""Measures the program, and prints one table: commands by scripts, in instructions, memory and time. With no --program it is
the one that LLVM makes, which is built first, as `./relayplum --optimised` does it.

    tests/bench/bench.py [--program PATH] [--times N] [--jobs N] [--only SCRIPT_OR_STREAM].. [--write]

The scripts have 1,000 events, as many as a script has room for, as many between 5,000 accounts, and as many for eight
subscribers. Streams have a real ledger's numbers, ids of 37 digits and timestamps of 19. Those of 20,000 and of 200,000 events
between 12 accounts are followed and audited, as the connector writes their bodies, as TigerBeetle documents them, and in envelopes
(streams.py); those of 200,000 have no count. Streams of 20,000 events between 12, 1,000 and 100,000 accounts are followed with a text
book and with one in SQLite, and audited with a state, which are saved every 1,000 lines; those in SQLite have no count. Of
each command that works on one thread Valgrind counts the instructions, which other work on the machine doesn't
change; `run` looks for messages while it waits, so its instructions say nothing. The most memory is what the
system has of a run (spent.c, which wants `cc`). For the wall-clock times the commands of a script are run in turn, --times
times (15, and no fewer count as a measure): the least and the median, with the load before and after.

The table is compared with that of docs/MEASURED.md: what takes a fiftieth more instructions or memory is named. With --write it
replaces that one, with the commit. Limits that fail are those of tests/checks/cost.py, which the gate
runs.
"""
import concurrent.futures
import datetime
import os
import pathlib
import re
import statistics
import subprocess
import sys
import tempfile

HERE = os.path.dirname(os.path.realpath(__file__))
sys.path[:0] = [os.path.join(HERE, '..', 'common'), os.path.join(HERE, '..', '..', 'tools')]
import counting
import ending
import rooms
import scripts
import spent
import streams
from build.jobs import OPTIMISING
from build.program import Program

MEASURED = rooms.TOP / 'docs/MEASURED.md'
TITLE = '## Speed and memory'
HEAD = '| Script | Command | Instructions | of each event | Memory, MB | Least, s | Median, s | CPU time, s |'
# What may be more than in the last table before it is named.
MORE = 1.02


def further(subscribers):
    """The lines of all subscribers but the one that each script has."""
    return 'subscriber all\n' * (subscribers - 1)


# How many accounts, transfers and subscribers a script has; without transfers, as many as there is room for.
SCRIPTS = {
    '1,000 events': (2, 1_000, 1),
    'a full script': (2, None, 1),
    '5,000 accounts': (5_000, None, 1),
    'eight subscribers': (2, None, 8),
}


# How many events a stream has; whether its instructions are counted.
STREAMS, STREAM_ACCOUNTS = {'20,000 messages': (20_000, True), '200,000 messages': (200_000, False)}, 12
STREAM_FORMS = ('own', 'documented', 'chained', 'message')
# How many accounts a stream has that is followed with a book, and how many events.
REAL, REAL_EVENTS = {'12 real accounts': 12, '1,000 real accounts': 1_000, '100,000 real accounts': 100_000}, 20_000


def script_of(name):
    """A script, with its number of events and of subscribers."""
    accounts, count, subscribers = SCRIPTS[name]
    more = further(subscribers)
    count = count or scripts.most_transfers(accounts, more)
    return more + scripts.script(accounts, count), count, subscribers


def steps_of(text, events, subscribers, window=64):
    """Steps under which each subscriber takes every event: so many are sent and confirmed at a time."""
    batches = len(re.findall('(?m)^(?:accounts|transfers) ', text))
    lines = ['batch'] * batches + ['start', 'publish', 'arrive 1']
    for first in range(0, events, window):
        tags = range(first + 1, min(first + window, events) + 1)
        lines.append('poll')
        lines += [line for tag in tags for line in ('publish', f'arrive {tag + 1}')]
        lines += [f'answer {tag}' for tag in tags]
        for number in range(1, subscribers + 1):
            lines += [line for tag in tags for line in (f'send {number}', f'take {number}', f'ack {number} {tag}')]
    return '\n'.join(lines) + '\n'


def commands_of(subscribers, has_steps):
    """The commands by their names."""
    found = {'books': ['books', 'bench.script'], 'messages': ['messages', 'bench.script']}
    if has_steps:
        found['simulate'] = ['simulate', 'bench.script', 'bench.steps', '--window', '64']
    for window in (1, 64):
        found[f'run --window {window}'] = ['run', 'bench.script', '--window', str(window)]
    return found


def stream_commands():
    """The commands over a stream by their names."""
    return {
        'follow': ['follow', 'own.stream'],
        'follow, documented bodies': ['follow', 'documented.stream'],
        'follow --chained': ['follow', '--chained', 'chained.stream'],
        'follow --chained, queue lines': ['follow', '--chained', 'message.stream'],
        'audit': ['audit', 'own.stream'],
        'audit, documented bodies': ['audit', 'documented.stream'],
        'audit, queue lines': ['audit', 'message.stream'],
    }


def real_commands():
    """The commands over a stream between so many accounts by their names."""
    return {
        'follow': ['follow', 'own.stream'],
        'follow --book FILE': ['follow', 'own.stream', '--book', 'kept.book'],
        'follow --book sqlite:FILE': ['follow', 'own.stream', '--book', 'sqlite:kept.db'],
        'audit': ['audit', 'own.stream'],
        'audit --state FILE': ['audit', 'own.stream', '--state', 'kept.state'],
    }


def instructions(program, arguments, folder):
    """What Valgrind counts of a run."""
    with tempfile.NamedTemporaryFile(dir=folder) as out:
        counting.counted([*counting.tool_arguments('cachegrind', out.name), program, *arguments], out.name)
        return counting.total_of(out.name)


class Bench:
    """The rows of the table, as they are measured."""

    def __init__(self, program, folder, times, jobs):
        self.program, self.folder, self.times = program, folder, times
        self.meter = spent.Meter(folder)
        self.pool = concurrent.futures.ThreadPoolExecutor(jobs)
        self.rows = {}

    def measure(self, name, text, events, subscribers):
        """Measures each command on a script."""
        folder = pathlib.Path(self.folder) / name.replace(' ', '-')
        folder.mkdir()
        (folder / 'bench.script').write_text(text)
        steps = steps_of(text, events, subscribers)
        (folder / 'bench.steps').write_text(steps)
        commands = commands_of(subscribers, len(steps) <= scripts.SCRIPT_BYTES)
        self.measure_commands(name, folder, commands, events, [it for it in commands if not it.startswith('run')])

    def measure_stream(self, name, events, is_counted):
        """Measures each command on a stream."""
        folder = pathlib.Path(self.folder) / name.replace(' ', '-')
        folder.mkdir()
        for form in STREAM_FORMS:
            with open(folder / f'{form}.stream', 'w', encoding='ascii') as file:
                file.writelines(streams.real_lines(events, STREAM_ACCOUNTS, form))
        commands = stream_commands()
        self.measure_commands(name, folder, commands, events, commands if is_counted else [])

    def measure_real(self, name, accounts):
        """Measures each command on a stream between so many accounts."""
        folder = pathlib.Path(self.folder) / name.replace(' ', '-')
        folder.mkdir()
        with open(folder / 'own.stream', 'w', encoding='ascii') as file:
            file.writelines(streams.real_lines(REAL_EVENTS, accounts))
        commands = real_commands()
        self.measure_commands(name, folder, commands, REAL_EVENTS, [it for it in commands if 'sqlite' not in it])

    def measure_commands(self, name, folder, commands, events, counted_ones):
        """Measures commands in a folder, and counts the instructions of some of them."""
        counted = {
            it: self.pool.submit(instructions, self.program, [self.within(folder, argument) for argument in arguments], folder)
            for it, arguments in commands.items() if it in counted_ones
        }
        counts = {it: future.result() for it, future in counted.items()}
        runs = {it: [] for it in commands}
        for _ in range(self.times):
            for it, arguments in commands.items():
                for kept in folder.glob('kept.*'):
                    kept.unlink()
                runs[it].append(self.meter.run([self.program, *arguments], folder))
        for it, found in runs.items():
            walls, used, memory = zip(*found)
            self.rows[name, it] = (
                counts.get(it), events, max(memory) / 1e6, min(walls), statistics.median(walls), statistics.median(used)
            )

    @staticmethod
    def within(folder, argument):
        is_file = argument.startswith(('bench.', 'kept.')) or argument.endswith('.stream')
        return str(folder / argument) if is_file else argument

    def table(self):
        lines = [HEAD, re.sub('[^|]+', '---', HEAD)]
        for (name, command), (count, events, memory, least, median, used) in self.rows.items():
            total, each = (f'{count:,}', f'{count / events:,.0f}') if count else ('', '')
            lines.append(f'| {name} | `{command}` | {total} | {each} | {memory:.1f} | {least:.3f} | {median:.3f} | {used:.3f} |')
        return '\n'.join(lines) + '\n'


def last_table():
    """The instructions and the memory of each row of the last table that is kept, by script and command."""
    found = {}
    _, head, rest = MEASURED.read_text(encoding='utf-8').partition(HEAD)
    for line in rest.split('\n')[2:] if head else []:
        cells = [it.strip() for it in line.split('|')[1:-1]]
        if len(cells) != 8:
            break
        count = cells[2].replace(',', '')
        found[cells[0], cells[1].strip('`')] = int(count) if count else None, float(cells[4])
    return found


def changes(rows, before):
    """What takes more than in the last table, a line each."""
    for (name, command), (count, _, memory, *_) in rows.items():
        old_count, old_memory = before.get((name, command), (None, None))
        if count and old_count and count > MORE * old_count:
            yield f'{name}, {command}: {count:,} instructions, {100 * (count / old_count - 1):.1f} per cent more than {old_count:,}'
        if old_memory and memory > MORE * old_memory + 0.1:
            yield f'{name}, {command}: {memory:.1f} MB, {old_memory:.1f} before'


def commit():
    git = ['git', '-c', 'safe.directory=*', '-C', str(MEASURED.parent)]
    said = subprocess.run([*git, 'rev-parse', '--short', 'HEAD'], capture_output=True, text=True, check=False).stdout.strip()
    return said or 'no commit'


def write(block):
    """Replaces the last table in docs/MEASURED.md, with its title and the lines above it."""
    text = MEASURED.read_text(encoding='utf-8')
    before, _, rest = text.partition(f'{TITLE}\n')
    rest = rest.partition(HEAD)[2]
    after = rest[re.match(r'.*\n(?:\|.*\n)*', rest).end() :]
    MEASURED.write_text(f'{before}{block}{after}', encoding='utf-8')


def optimised():
    """Returns the program as LLVM makes it."""
    program = Program(str(rooms.TOP))
    if not program.is_current(compiler=OPTIMISING):
        program.build(compiler=OPTIMISING)
    return program.path


def main(arguments):
    parser = rooms.parser_of(__doc__, default=None)
    parser.add_argument('--times', type=int, default=15)
    parser.add_argument('--jobs', type=int, default=2)
    parser.add_argument('--only', action='append', choices=[*SCRIPTS, *STREAMS, *REAL])
    parser.add_argument('--write', action='store_true')
    given = parser.parse_args(arguments)
    options = rooms.options_of(parser, [*arguments, '--program', given.program or optimised()])
    before = os.getloadavg()[0]
    with rooms.room('bench-') as folder:
        bench = Bench(options.program, folder, options.times, options.jobs)
        for name in options.only or [*SCRIPTS, *STREAMS, *REAL]:
            if name in REAL:
                bench.measure_real(name, REAL[name])
            elif name in STREAMS:
                bench.measure_stream(name, *STREAMS[name])
            else:
                bench.measure(name, *script_of(name))
    processors = len(os.sched_getaffinity(0))
    load = f'a load of {before:.1f} before and {os.getloadavg()[0]:.1f} after'
    compiler = "Rattle's compiler" if counting.is_by_rattle(options.program) else 'LLVM'
    by = f'By `tests/bench/bench.py` over the program of `{commit()}` by {compiler}, {datetime.date.today()}'
    about = f'{by}: {options.times} wall-clock runs of each, {processors} processors, {load}. `--write` replaces this table.\n'
    print(bench.table(), end='')
    more = [*changes(bench.rows, last_table())]
    print('\n'.join(['bench: more than in the last table:', *more] if more else ['bench: nothing takes more than in the last table']))
    if options.write:
        write(f'{TITLE}\n\n{about}\n{bench.table()}')


if __name__ == '__main__':
    ending.run(main)
