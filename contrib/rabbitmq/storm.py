#!/usr/bin/env python3
"""Kills and stops brokers, bridges and consumers at random, and compares each book with that of `books`.

    contrib/rabbitmq/storm.py [--program PATH] [--rows] [--seed N] [--cases N] [--only CASE]

It starts a cluster of three nodes. Each case sends a script through it, with a window of 1, 64 or 1,024, and has some faults:
kill -9 or SIGSTOP of the node that leads a queue, of one that follows, of the bridge, or of a consumer: of `consume`, of its
socat or of its whole loop; and an operator closes a consumer's connection. Each comes after a random number of events. What was
killed is started again, and a loop goes on with the next node. In the end each consumer has to end with status 0, and its book
has to be, byte for byte, what `books` prints. The seed is printed; the same seed gives the same scripts, windows and faults.
"""
import argparse
import collections
import concurrent.futures
import pathlib
import random
import signal
import tempfile
import threading
import time
from dataclasses import dataclass

import console
from bridge import PROGRAM
from client import count_of, queue_of
from cluster import Cluster
from harness import Failed, Stream, same, script_of, wait_for
from rows import rows

WINDOWS = (1, 64, 1024)
# How many events a case has: what a window of this size sends in some seconds.
EVENTS = {1: (120, 240), 64: (600, 1800), 1024: (1500, 4000)}
# A fault for each case in turn; nodes take long to start, so they have it less often.
KILL, STOP, CLOSE = 'kill', 'stop', 'close'
NODES, CONSUMERS = ('leader', 'follower'), ('loop', 'socat', 'consume')
TURNS = [(KILL, 'leader'), (STOP, 'bridge'), (KILL, 'consume'), (STOP, 'leader'), (CLOSE, 'consume'), (KILL, 'bridge'), (STOP, 'loop'),
         (KILL, 'follower'), (KILL, 'socat'), (CLOSE, 'consume'), (STOP, 'follower'), (KILL, 'loop')]
LONGEST_STOP = 3.0
MOST_STARTS = 20


@dataclass(frozen=True)
class Fault:
    """What happens to whom, after how many events; for how long, if it is a stop."""
    how: str
    victim: str
    after: int
    seconds: float

    def __str__(self):
        return f'{self.how} {self.victim} after {self.after}'


def faults_of(random, case, events):
    """The fault whose turn it is, and one or two of the bridge or the first consumer, in order."""
    others = [it for it in TURNS if it[1] not in NODES]
    chosen = [TURNS[case % len(TURNS)], *random.choices(others, k=random.randint(1, 2))]
    made = [Fault(how, victim, random.randrange(events * 4 // 5), random.uniform(0.2, LONGEST_STOP)) for how, victim in chosen]
    return sorted(made, key=lambda it: it.after)


class Case:
    """One script on its way through the cluster, and what happens to it."""

    def __init__(self, cluster, program, room, seed, number, nodes):
        chance = random.Random(f'{seed} {number}')
        self.window = WINDOWS[(number + number // len(TURNS)) % len(WINDOWS)]
        self.events = chance.randint(*EVENTS[self.window])
        self.faults = faults_of(chance, number, self.events)
        self.stream = Stream(cluster, program, room, f'storm-{number}', script_of(self.events))
        self.cluster, self.nodes, self.number = cluster, nodes, number
        self.bridge, self.consumers = None, {}
        self.starts = collections.Counter()
        # The faults that hit something that ran.
        self.hits = collections.Counter()

    def run(self):
        """Sends everything, with all faults, and compares the books."""
        try:
            self.begin()
            for place in self.stream.places:
                self.start_consumer(place)
            for fault in self.faults:
                self.await_turn(fault)
                self.hits[f'{fault.how} {fault.victim}'] += self.is_hit(fault)
                who = 'node' if fault.victim in NODES else 'consumer' if fault.victim in CONSUMERS else fault.victim
                getattr(self, f'{fault.how}_{who}')(fault)
            self.await_state('the bridge has sent everything', self.bridge_is_done)
            for place in self.stream.places:
                self.compare(place)
        finally:
            self.stream.close()

    def begin(self):
        """Starts the bridge, and waits until its queues are declared. No node is down meanwhile: RabbitMQ may leave a queue half made
        whose node dies while it is declared, and such a queue never answers."""
        with self.nodes:
            self.start_bridge()
            for queue in [queue_of(self.stream.name, it) for it in self.stream.places] + [f'{self.stream.name}.progress']:
                self.cluster.leader_of(queue)

    def start_bridge(self):
        self.starts['bridge'] += 1
        self.bridge = self.stream.bridge('--window', self.window, '--every', 10, '--end', '--standby')

    def start_consumer(self, place):
        """Starts a consumer, which begins with another node each time."""
        first = (self.number + place + self.starts[place]) % len(self.cluster.nodes)
        self.starts[place] += 1
        self.consumers[place] = self.stream.consumer(place, nodes=self.cluster.nodes[first:] + self.cluster.nodes[:first])

    def bridge_is_done(self):
        """Whether the bridge has ended well; one that has ended otherwise is started again, as a supervisor would."""
        if not self.bridge.is_over():
            return False
        status, _ = self.bridge.wait()
        if status == 0:
            return True
        if self.starts['bridge'] >= MOST_STARTS:
            raise Failed(f'the bridge ends by {status}: {self.bridge.failures()}')
        self.start_bridge()
        return False

    def await_turn(self, fault):
        """Waits until the bridge, or the victim, is as far as the fault wants it."""
        def is_so():
            if fault.victim in CONSUMERS:
                return self.stream.applied(1) >= fault.after
            return self.bridge_is_done() or self.stream.confirmed() >= fault.after

        self.await_state(str(fault), is_so)

    def await_state(self, what, is_so):
        """Waits until it is so. If that takes too long, how far the bridge and each consumer are, and what they reported, is reported too."""
        try:
            wait_for(what, is_so)
        except Failed as why:
            bridge = f'bridge at {self.stream.confirmed()} of {self.events}: {self.bridge.failures()}'
            consumers = (f'consumer {place} at {self.stream.applied(place)}: {it.failures()}' for place, it in self.consumers.items())
            raise Failed('\n'.join([str(why), bridge, *consumers])) from None

    def is_hit(self, fault):
        """Whether a fault comes before its victim, or those that a node serves, have ended."""
        everyone = [self.bridge, *self.consumers.values()]
        victims = everyone if fault.victim in NODES else [self.bridge] if fault.victim == 'bridge' else [self.consumers[1]]
        return any(not it.is_over() for it in victims)

    def kill_node(self, fault):
        """Kills a node, and starts it again. Only one is killed or stopped at a time: two of three are a majority."""
        with self.nodes:
            node = self.node_of(fault)
            node.kill()
            self.cluster.heal()

    def stop_node(self, fault):
        with self.nodes:
            node = self.node_of(fault)
            self.pause(node, fault)

    def node_of(self, fault):
        """The node that leads the first queue, or one that follows."""
        leader = self.cluster.leader_of(queue_of(self.stream.name, 1))
        return leader if fault.victim == 'leader' else next(it for it in self.cluster.nodes if it is not leader)

    def kill_bridge(self, _):
        if not self.bridge.is_over():
            self.bridge.kill()
            self.start_bridge()

    def stop_bridge(self, fault):
        self.pause(self.bridge, fault)

    def kill_consumer(self, fault):
        """Kills all of a consumer, which is started again, or one of its processes, after which its loop goes on."""
        if fault.victim == 'loop':
            self.consumers[1].kill(whole=True)
            self.start_consumer(1)
        else:
            self.consumers[1].kill_part('socat' if fault.victim == 'socat' else self.stream.program_name)

    def close_consumer(self, _):
        """An operator closes the connection of the queue's consumer."""
        with self.nodes:
            self.stream.close_connections(1)

    def stop_consumer(self, fault):
        self.pause(self.consumers[1], fault)

    def pause(self, victim, fault):
        """Stops processes for the fault's time."""
        victim.send(signal.SIGSTOP)
        time.sleep(fault.seconds)
        victim.send(signal.SIGCONT)

    def compare(self, place):
        """The consumer has to end well, with the book that `books` prints."""
        self.stream.reports(self.consumers[place], 0, reason='end')
        self.stream.has_all(place, self.consumers[place].book)


def run_case(cluster, program, room, seed, number, nodes):
    """Runs a case; what to print of it, and whether it failed."""
    case = Case(cluster, program, room, seed, number, nodes)
    began = time.monotonic()
    what = f'case {number}: window {case.window}, {case.events} events, {", ".join(map(str, case.faults))}'
    try:
        case.run()
    except (Failed, console.Stop) as why:
        return f'failed: {what}: {why}', case
    return f'{what}: {time.monotonic() - began:.1f} s', case


def storm(cluster, program, seed, numbers, jobs=2):
    """Runs cases, some at a time; how many failed."""
    failed, did = 0, collections.Counter()
    nodes = threading.Lock()
    print(f'storm: seed {seed}', flush=True)
    with tempfile.TemporaryDirectory() as room, concurrent.futures.ThreadPoolExecutor(jobs) as pool:
        begun = [pool.submit(run_case, cluster, program, pathlib.Path(room), seed, number, nodes) for number in numbers]
        try:
            for future in concurrent.futures.as_completed(begun):
                text, case = future.result()
                failed += text.startswith('failed')
                did.update(case.hits)
                print(text, flush=True)
        finally:
            pool.shutdown(cancel_futures=True)
    print('storm:', ', '.join(f'{count} times {what}' for what, count in sorted(did.items())), 'while it ran')
    print(f'storm: seed {seed}: {len(begun)} cases, {failed} failed', flush=True)
    return failed


def read_arguments():
    parser = argparse.ArgumentParser(description=__doc__, formatter_class=argparse.RawDescriptionHelpFormatter)
    parser.add_argument('--program', default=str(PROGRAM))
    parser.add_argument('--seed', type=int, default=random.SystemRandom().randrange(10 ** 9), help='random without it')
    parser.add_argument('--cases', type=count_of, default=50, help='how many cases; %(default)s')
    parser.add_argument('--rows', action='store_true', help='first runs all rows of rows.py over the same cluster')
    parser.add_argument('--only', type=int, metavar='CASE', help='only this case of the seed')
    return parser.parse_args()


def main():
    arguments = read_arguments()
    numbers = range(arguments.cases) if arguments.only is None else [arguments.only]
    with Cluster() as cluster:
        failed = rows(cluster, arguments.program) if arguments.rows else 0
        cluster.heal()
        failed += storm(cluster, arguments.program, arguments.seed, numbers)
    return 1 if failed else 0


if __name__ == '__main__':
    console.run(main)
