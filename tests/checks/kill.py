#!/usr/bin/env python3
"""Kills runs that save their progress, begins them again, and looks for what was lost.

    tests/checks/kill.py [--program PATH] [--kills N] [--seed S]

A run of one client keeps its progress in a file, and is killed, now and then several times in a row: at a random time, or in
a random save, where it is held (holding.py), so that kills come there however fast the machine is.
What the file holds then has to be a whole record, not behind the one before it, and at an event's timestamp. Then the run
is begun again and comes to its end. It makes the ledger's events again, the same ones; of those after the saved timestamp
each has to come to its subscribers, once, and no other: their lines have to be what the outside model (model.py) has
for these events. In the end the file has to name the last event, in the next session. One run of three starts after a
timestamp, which each record has to keep; another one of three goes on from a record that an earlier version wrote.

The last line is `kill: N passed, M failed`; exit status 1 where one failed.
"""
import os
import pathlib
import random
import re
import subprocess
import sys
import time

sys.path.insert(0, os.path.join(os.path.dirname(os.path.realpath(__file__)), '..', 'common'))
import ending
import holding
import model
import rooms
import scripts

SECONDS = 300  # that a run may take: a last guard against one that hangs
NUMBER = rb'(0|[1-9][0-9]*)'
RECORD = re.compile(rb'tb-cdc 2 %b %b %b\n' % (NUMBER, NUMBER, NUMBER))
EARLIER = re.compile(rb'tb-cdc 1 %b %b\n' % (NUMBER, NUMBER))  # its start is 0
TRANSFERS = 600
MOST_SHOWN = 3  # failures that are shown


class Killing:
    def __init__(self, options, folder):
        self.program = options.program
        self.rng = random.Random(options.seed)
        self.folder = pathlib.Path(folder)
        self.progress = self.folder / 'kill.progress'
        script = scripts.long_script(TRANSFERS, 50)
        (self.folder / 'kill.script').write_text(script)
        self.script = model.read_script(script.encode('ascii'))
        self.ledger, self.batches = model.run_batches(self.script)
        self.timestamps = [0] + [event.timestamp for event in self.ledger.events]
        self.library = holding.library_in(folder, 'kill', 'kills in a save')
        os.mkfifo(self.folder / 'hold')
        self.start = None  # the timestamp after which the run starts, if it is given
        self.seconds = self.length()
        # Kills before anything was saved, before the first event was, between events, and after the last one.
        self.when = dict.fromkeys(['before the start', 'before an event', 'between events', 'after the last event'], 0)
        self.in_save = 0  # kills of runs that were held in a save
        self.ended = 0  # runs that came to their end before they were killed
        self.passed = 0
        self.failed = 0

    def arguments(self):
        arguments = [self.program, 'run', 'kill.script', '--progress', self.progress.name]
        if self.start is None or self.progress.exists():
            return arguments
        return [*arguments, '--start-after', str(self.start)]

    def length(self):
        """How long a run takes that nobody kills: the least of three."""
        times = []
        for _ in range(3):
            begun = time.monotonic()
            self.run_to_end()
            times.append(time.monotonic() - begun)
            self.progress.unlink(missing_ok=True)
        return min(times)

    def run_to_end(self):
        """What a run prints; of one that hangs or fails, why."""
        try:
            ran = subprocess.run(self.arguments(), cwd=self.folder, capture_output=True, timeout=SECONDS)
        except subprocess.TimeoutExpired:
            return f'nothing within {SECONDS} seconds'
        return ran.stdout.decode('ascii') if ran.returncode == 0 else f'status {ran.returncode}: {ran.stdout[-300:]}'

    def kill_one(self):
        """Starts a run and kills it, in one of its saves or after a while; whether it was still there."""
        if self.library is not None and self.rng.random() < 0.5:
            return self.kill_in_save(self.rng.randint(1, self.rng.choice([3, len(self.timestamps)])))
        delay = self.rng.choice([self.rng.uniform(0, 1), self.rng.uniform(0, 1), self.rng.uniform(0, 0.1)])
        with subprocess.Popen(
            self.arguments(), cwd=self.folder, stdout=subprocess.DEVNULL, stderr=subprocess.DEVNULL
        ) as run:
            try:
                run.wait(delay * self.seconds)
            except subprocess.TimeoutExpired:
                run.kill()
                return run.wait() == -9
        return False

    def kill_in_save(self, number):
        """Starts a run and kills it in the save of this number, where it is held; whether it came to that."""
        how = {'stdout': subprocess.DEVNULL, 'stderr': subprocess.DEVNULL, 'env': holding.environment(self.library, number)}
        with subprocess.Popen(self.arguments(), cwd=self.folder, **how) as run:
            held = holding.wait_until_held(run, self.folder / 'hold')
            if held is None:
                return False
            run.kill()
            os.close(held)
            self.in_save += 1
            return run.wait() == -9

    def saved(self):
        """The record in the file: session, timestamp and start, or None where there is no file."""
        if not self.progress.exists():
            return None
        text = self.progress.read_bytes()
        found = RECORD.fullmatch(text) or EARLIER.fullmatch(text)
        return tuple(int(number) for number in [*found.groups(), 0][:3]) if found else 'no record'

    def check(self, what, wanted, found):
        if wanted == found:
            self.passed += 1
            return
        self.failed += 1
        if self.failed <= MOST_SHOWN:
            print(f'failed: {what}\nwanted: {rooms.shortened(wanted)}\nfound: {rooms.shortened(found)}', flush=True)

    def check_record(self, before, after):
        """A record is whole, goes on from the one before, and is at an event, or where the run began."""
        is_good = after is None and before is None
        if isinstance(after, tuple):
            session, timestamp, start = before or self.nothing_saved()
            is_good = after[1] == timestamp or after[1] in self.timestamps and after[1] > timestamp
            is_good = is_good and session <= after[0] <= session + 1 and after[2] == start
        self.check(f'what is saved after {before}', True, is_good or after)

    def nothing_saved(self):
        """What a run goes on from where nothing is saved: session, timestamp and start."""
        return 0, self.start or 0, self.start or 0

    def note(self, saved):
        if saved is None:
            self.when['before the start'] += 1
        elif saved[1] == saved[2]:
            self.when['before an event'] += 1
        else:
            self.when['after the last event' if saved[1] >= self.timestamps[-1] else 'between events'] += 1

    def wanted(self, saved):
        """What a run that goes on from a record prints and leaves."""
        session, timestamp, start = saved or self.nothing_saved()
        text = model.batch_lines(self.batches)
        for number, binding in enumerate(self.script.bindings, start=1):
            later = [event for event in self.ledger.events if event.timestamp > timestamp]
            text += model.subscriber_lines(number, model.received([*later, model.END_MARK], binding, None))
        return text, (session + 1, max(timestamp, self.timestamps[-1]), start)

    def prepare(self):
        """Begins with nothing saved, and perhaps with a start, or with a record that an earlier version wrote; with what is saved."""
        self.progress.unlink(missing_ok=True)
        self.start = None
        match self.rng.choice(['nothing', 'a start', 'a record']):
            case 'a start':
                self.start = self.rng.choice(self.timestamps) + self.rng.choice([0, 0, 1])
            case 'a record':
                self.progress.write_bytes(b'tb-cdc 1 %d %d\n' % (self.rng.choice([0, 1, 7]), self.rng.choice(self.timestamps)))
        return self.saved()

    def kill_and_go_on(self):
        """Kills a run, one to four times in a row, and then lets it come to its end; how often it was killed."""
        kills = 0
        saved = self.prepare()
        for _ in range(self.rng.choice([1, 1, 2, 4])):
            was_killed = self.kill_one()
            before, saved = saved, self.saved()
            self.check_record(before, saved)
            if saved == 'no record':
                return kills + 1
            if was_killed:
                kills += 1
                self.note(saved)
            else:
                self.ended += 1
        found = self.run_to_end()
        self.check(f'a run that goes on from {saved}', self.wanted(saved), (found, self.saved()))
        return kills

    def report(self):
        text = f'a run takes {self.seconds:.3f} s; killed ' + ', '.join(f'{name} {n}' for name, n in self.when.items())
        text += f'; {self.in_save} in a save; {self.ended} ended before that\nkill: {self.passed} passed, {self.failed} failed'
        return text


def main(arguments):
    parser = rooms.parser_of(__doc__)
    parser.add_argument('--kills', type=int, default=100)
    parser.add_argument('--seed', type=int, default=1)
    options = rooms.options_of(parser, arguments)
    begun = time.monotonic()
    with rooms.room('kill-') as folder:
        killing = Killing(options, folder)
        kills = 0
        while kills < options.kills and killing.failed < MOST_SHOWN:
            kills += max(killing.kill_and_go_on(), 1)
        print(f'kill: {kills} kills, {time.monotonic() - begun:.0f} s')
        print(killing.report())
    return 1 if killing.failed else 0


if __name__ == '__main__':
    ending.run(main)
