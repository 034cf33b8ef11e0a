#!/usr/bin/env python3
"""Times `run` beside `books`, on a script that is as long as one may be.

    tests/bench/speed.py [--program PATH] [--times N] [--processors N]
    tests/bench/speed.py --hand-offs

For 1, 2, 4 and 8 subscribers, and for 1 client and 4: the least and the median of the wall-clock times and of the CPU
times, commands in turn, the most memory, and how many events a second come from the first line of the script to the
printed book; then how many times as long a run took as the `books` just before it, by the median and over all. Other
work on the machine shows in all of them, in the least ones least; under `chrt -f 10`, which root may use, it hardly does.
Where other machines of the host take from the processors, a `books` on one of them finds it quiet sooner than a run on four: then the pairs say more than the least ones.

With --hand-offs, what a thread's hand-off to another takes on this machine by itself (handoff.c): where the one that
waits sleeps, where it looks first, and where it leaves its processor to others first, on one processor and between two.
"""
import os
import pathlib
import statistics
import subprocess
import sys

sys.path.insert(0, os.path.join(os.path.dirname(os.path.realpath(__file__)), '..', 'common'))
import ending
import model
import rooms
import spent

COMMANDS = {'books': ['books'], 'run': ['run', '--window', '1']}
# How many clients and subscribers.
SIZES = [(1, 1), (1, 2), (1, 4), (1, 8), (4, 1), (4, 8)]


def full_script(clients, subscribers):
    """As many transfers as a script has room for, a thousand a batch, and how many they are. The clients submit batches in
    turn, each between two accounts of its own."""
    lines = ['subscriber all'] * subscribers
    for client in range(1, clients + 1):
        lines += [f'client {client}', 'accounts 1000']
        lines += [f'account id={account} ledger=700 code=10' for account in (2 * client - 1, 2 * client)]
    size = sum(len(line) + 1 for line in lines)
    count = 0
    while True:
        client = 1 + count // 1000 % clients
        more = [f'client {client}', f'transfers {2000 + 1000 * count}'] if count % 1000 == 0 else []
        fields = f'id={count + 1} debit_account_id={2 * client - 1} credit_account_id={2 * client}'
        fields += f' amount={count % 97} ledger=700 code=1'
        more.append(f'transfer {fields}')
        size += sum(len(line) + 1 for line in more)
        if size > model.MOST_BYTES:
            return '\n'.join(lines) + '\n', count
        lines += more
        count += 1


def print_hand_offs(times=50_000, looks=256, yields=64):
    """Prints what a hand-off takes, in microseconds."""
    source = pathlib.Path(__file__).parent / 'handoff.c'
    with rooms.room('handoff-') as folder:
        program = pathlib.Path(folder) / 'handoff'
        subprocess.run(['cc', '-O2', '-pthread', '-o', program, source], check=True)
        ways = ('sleeps', 0, 0), (f'looks {looks} times', looks, 0), (f'yields {yields} times', 0, yields)
        for how, *counts in ways:
            for processors in (1, 2):
                arguments = [program, *map(str, (times, *counts))]
                leave = rooms.on_processors(processors)
                found = subprocess.run(arguments, capture_output=True, text=True, check=True, preexec_fn=leave)
                took = found.stdout.strip()
                print(f'processors {processors}, one that waits {how}: {took} microseconds a hand-off')


def main(arguments):
    parser = rooms.parser_of(__doc__)
    parser.add_argument('--times', type=int, default=9)
    parser.add_argument('--processors', type=int, default=4)
    parser.add_argument('--hand-offs', action='store_true')
    if parser.parse_args(arguments).hand_offs:
        print_hand_offs()
        return
    options = rooms.options_of(parser, arguments)
    with rooms.room('speed-') as folder:
        meter = spent.Meter(folder)
        for clients, subscribers in SIZES:
            script, events = full_script(clients, subscribers)
            what = f'{events} transfers, clients {clients}, subscribers {subscribers}'
            (pathlib.Path(folder) / 'full.script').write_text(script)
            times = {command: [] for command in COMMANDS}
            for _ in range(options.times):
                for command, (name, *flags) in COMMANDS.items():
                    said = [options.program, name, 'full.script', *flags]
                    times[command].append(meter.run(said, folder, options.processors))
            for command, found in times.items():
                wall, used, memory = ([one[part] for one in found] for part in (0, 1, 2))
                print(
                    f'{what}, {command}: wall-clock {min(wall):.2f} s, median {statistics.median(wall):.2f}; CPU'
                    f' {min(used):.2f} s, median {statistics.median(used):.2f}; memory {max(memory) / 1e6:.1f} MB;'
                    f' {events / min(wall):,.0f} events a second'
                )
            walls = [[one[0] for one in times[command]] for command in ('run', 'books')]
            median = statistics.median(run / books for run, books in zip(*walls))
            print(
                f'{what}, run beside books: {median:.2f} times as long by the median,'
                f' {sum(walls[0]) / sum(walls[1]):.2f} over all'
            )


if __name__ == '__main__':
    ending.run(main)
