#!/usr/bin/env python3
"""Measures `follow` and `audit` beside other programs that do the same work, in one interleaved series, and prints a table.

    tests/bench/peers.py --program PATH [--peer NAME=COMMAND].. [--upserts COMMAND] [--times N] [--events N] [--jobs N] [--without-times]
                         [--only lines|books] [--profile N]

A peer is a program and options of its own. It gets `follow` or `audit`, `--chained` if the lines name the event before, its options
and a file; with a book also `--book FILE --every 1000`. A peer whose NAME ends in '(follow)' does no other work, and keeps no book. One whose NAME
begins with 'relayplum' is another program of these sources, by the other compiler, and does all work.

The lines have a real ledger's numbers, ids of 37 digits and timestamps of 19. The first rows (lines) are between 100 accounts, in each
form that `follow` and `audit` read fast. Valgrind counts the instructions, those of 1,000 lines taken from those of 5,000, so no other work
on the machine changes them. The CPU time, in microseconds a line, is that of --events lines (200,000): the median of --times runs (7),
and in brackets the least. The programs take turns, and then the other way round.

The other rows (books) follow 20,000 lines between 12, 1,000 and 100,000 accounts, without a book, with a text one and with one in SQLite,
saved every 1,000 lines. Both figures are of the whole run, by line. Of programs by the peers' names none keeps a book in SQLite. With --upserts,
a program that only upserts the rows that each save changes has that column: it gets FILE EVENTS ACCOUNTS EVERY dirty FULL DELETE.

With --profile, the N functions that take most of a line by themselves follow each row of lines, in per cent, of each program of these sources.
The status is 2 if a program fails.
"""
import collections
import concurrent.futures
import os
import pathlib
import re
import shlex
import statistics
import subprocess
import sys

HERE = os.path.dirname(os.path.realpath(__file__))
sys.path[:0] = [os.path.join(HERE, '..', 'common')]
import counting
import ending
import rooms
import spent
import streams

ACCOUNTS = 100
SIZES = (1_000, 5_000)  # lines whose instructions are counted
BOOK_ACCOUNTS, BOOK_EVENTS, EVERY = (12, 1_000, 100_000), 20_000, 1_000
# The work that is measured: its arguments, the form of its lines, how many accounts they are between, and the book that it keeps.
Work = collections.namedtuple('Work', 'arguments form accounts book', defaults=(ACCOUNTS, None))
LINES = [
    Work(['follow'], 'own'), Work(['follow'], 'documented'), Work(['follow', '--chained'], 'chained'),
    Work(['follow', '--chained'], 'message'), Work(['follow', '--chained'], 'numbered'), Work(['audit'], 'own'), Work(['audit'], 'message'),
]
TEXT, SQLITE = 'text', 'SQLite'
BOOKS = [Work(['follow'], 'own', accounts, book) for accounts in BOOK_ACCOUNTS for book in (None, TEXT, SQLITE)]
ALONE = Work(['audit'], 'message')  # no peer does this work
FOLLOWS_ONLY = '(follow)'
OURS, UPSERTS = 'relayplum', 'upserts alone'
# A function of callgrind_annotate's list: its instructions and its name, without its file, its program and its parameters.
SELF = re.compile(r'^\s*([\d,]+) \([^)]*\)\s+[^\s:]*:([^\[]+?)(?:::)?(?:<.*?>|#\w+)?(?: \[[^\]]*\])?$')


class Series:
    """Programs by their names, and the folder of the streams that they read."""

    def __init__(self, programs, folder, options):
        self.programs, self.folder, self.options = programs, pathlib.Path(folder), options
        self.meter = spent.Meter(folder)
        self.pool = concurrent.futures.ThreadPoolExecutor(options.jobs)

    def stream_of(self, count, work):
        """The path of a stream, which is written if there is none."""
        path = self.folder / f'{work.form}-{count}-{work.accounts}.stream'
        if not path.exists():
            with open(path, 'w', encoding='ascii') as file:
                file.writelines(streams.real_lines(count, work.accounts, work.form))
        return path

    def doing(self, work):
        """The programs that do this work."""
        return [name for name in self.programs if does(name, work)]

    def called(self, name, work, count):
        """The command of a program for this work on so many lines. Its book, if it keeps one, isn't there yet."""
        program, *own = self.programs[name]
        kept = self.folder / f'{name.replace("/", "-")}-{work.accounts}-{work.book}.kept'
        for it in self.folder.glob(f'{kept.name}*'):
            it.unlink()
        if name == UPSERTS:
            return [program, *own, str(kept), str(count), str(work.accounts), str(EVERY), 'dirty', 'FULL', 'DELETE']
        book = ['--book', f'sqlite:{kept}' if work.book == SQLITE else str(kept), '--every', str(EVERY)] if work.book else []
        return [program, *work.arguments, *own, *book, str(self.stream_of(count, work))]

    def counted(self, name, work, count):
        """The file in which Callgrind counts a run on so many lines."""
        out = self.folder / f'{name.replace("/", "-")}-{"-".join(work.arguments)}-{work.form}-{work.accounts}-{work.book}-{count}.out'
        counting.counted([*counting.tool_arguments('callgrind', out), *self.called(name, work, count)], out)
        return out

    def counts(self, work):
        """What Callgrind counts, by program: a file for each size of a work on lines, one file with the books."""
        sizes = (BOOK_EVENTS,) if work in BOOKS else SIZES
        for size in sizes:
            self.stream_of(size, work)
        runs = {name: [self.pool.submit(self.counted, name, work, size) for size in sizes] for name in self.doing(work)}
        return {name: [it.result() for it in them] for name, them in runs.items()}

    def times(self, work):
        """The CPU microseconds of a line, by program, in order."""
        count = BOOK_EVENTS if work in BOOKS else self.options.events
        stream = self.stream_of(count, work)
        found = {name: [] for name in self.doing(work)}
        for turn in range(self.options.times):
            for name in [*found] if turn % 2 == 0 else [*found][::-1]:
                found[name].append(1e6 * self.meter.run(self.called(name, work, count), self.folder).used / count)
        if work not in BOOKS:
            stream.unlink()
        return {name: sorted(it) for name, it in found.items()}

    def table(self, works):
        """The lines of the table: of each cell the instructions, and the time if times are asked for."""
        yield f'| {" | ".join(["Command, lines", *self.programs])} |'
        yield '|---' * (1 + len(self.programs)) + '|'
        for work in works:
            outs = self.counts(work)
            times = {} if self.options.without_times else self.times(work)
            cells = [cell(outs[it], times.get(it)) if it in outs else '' for it in self.programs]
            yield f'| `{" ".join(work.arguments)}`, {shown(work)} | {" | ".join(cells)} |'
            if self.options.profile and work in LINES:
                for name in [it for it in outs if it.startswith(OURS)]:
                    yield f'{name}: {", ".join(profile(outs[name], self.options.profile))}'


def does(name, work):
    """Whether a program does this work."""
    if name == UPSERTS:
        return work.book == SQLITE
    if name.startswith(OURS):
        return True
    if work == ALONE or work.book == SQLITE:
        return False
    return not name.endswith(FOLLOWS_ONLY) or (work.arguments[0] == 'follow' and not work.book)


def shown(work):
    """The row's name of the lines, or of the accounts and the book."""
    return f'{work.accounts:,} accounts, {work.book or "no"} book' if work in BOOKS else work.form


def of_a_line(totals):
    """What a line has of a figure, of each of one or two runs."""
    return totals[0] / BOOK_EVENTS if len(totals) == 1 else (totals[1] - totals[0]) / (SIZES[1] - SIZES[0])


def cell(outs, times):
    count = of_a_line([counting.total_of(it) for it in outs])
    return f'{count:,.0f}' + (f'; {statistics.median(times):.2f} ({times[0]:.2f})' if times else '')


def alone(out):
    """The instructions that each function takes by itself, by its name."""
    ran = subprocess.run(['callgrind_annotate', '--threshold=100', out], capture_output=True, text=True, check=True)
    found = collections.Counter()
    for line in ran.stdout.splitlines():
        if function := SELF.match(line):
            found[function[2]] += int(function[1].replace(',', ''))
    return found


def profile(outs, most):
    """The functions that take most of a line by themselves, with their part of it."""
    few, many = [alone(it) for it in outs]
    each = {name: of_a_line((few[name], many[name])) for name in many}
    total = of_a_line([counting.total_of(it) for it in outs])
    for name in sorted(each, key=each.get, reverse=True)[:most]:
        yield f'`{name}` {100 * each[name] / total:.1f}'


def peer_of(text):
    """The name and the command of a peer."""
    name, equals, command = text.partition('=')
    if not (name and equals and shlex.split(command)):
        raise ValueError(text)
    return name, shlex.split(command)


def main(arguments):
    parser = rooms.parser_of(__doc__)
    parser.add_argument('--peer', action='append', type=peer_of, default=[], metavar='NAME=COMMAND')
    parser.add_argument('--upserts', type=shlex.split, metavar='COMMAND')
    parser.add_argument('--times', type=int, default=7)
    parser.add_argument('--events', type=int, default=200_000)
    parser.add_argument('--jobs', type=int, default=2)
    parser.add_argument('--without-times', action='store_true')
    parser.add_argument('--only', choices=['lines', 'books'])
    parser.add_argument('--profile', type=int, metavar='N')
    options = rooms.options_of(parser, arguments)
    programs = {OURS: [options.program], **dict(options.peer), **({UPSERTS: options.upserts} if options.upserts else {})}
    with rooms.room('peers-') as folder:
        series = Series(programs, folder, options)
        works = {'lines': LINES, 'books': BOOKS}.get(options.only, LINES + BOOKS)
        for line in series.table(works):
            print(line, flush=True)
    return 0


if __name__ == '__main__':
    ending.run(main)
