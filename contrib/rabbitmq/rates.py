#!/usr/bin/env python3
"""Times the bridge and its consumer, with a RabbitMQ of their own: events a second. By hand.

    contrib/rabbitmq/rates.py [--program PATH] [--nodes N] [--classic] [--events N] [--times N]

A script of transfers between two accounts, with one subscriber, goes through one queue: the bridge at a window of 1 (a tenth of the
events), 64 and 1,024, and then a consumer up to the end mark. Each is timed as a whole process, with its start, the ledger or
the follower. Printed are the median, the least and the greatest.
"""
import argparse
import os
import pathlib
import statistics
import tempfile
import time

import console
from bridge import PROGRAM
from client import count_of
from cluster import Cluster
from harness import Stream

WINDOWS = (1, 64, 1024)


def script_of(events):
    """A script of transfers between two accounts, as many to a batch as there may be."""
    yield from ('subscriber all', 'accounts 1000', 'account id=1 ledger=700 code=10', 'account id=2 ledger=700 code=10')
    for at in range(events):
        if at % 1000 == 0:
            yield f'transfers {2000 + at}'
        yield f'transfer id={at + 1} debit_account_id=1 credit_account_id=2 amount={at % 97 + 1} ledger=700 code=1'


def timed(events, start):
    """Events a second of a process, which has to end well."""
    began = time.monotonic()
    actor = start()
    status, _ = actor.wait()
    if status != 0:
        raise console.Stop(f'{actor.log.name} ends by {status}: {actor.failures()}')
    return events / (time.monotonic() - began)


def rates_of(cluster, arguments, room):
    """The rates of the bridge at each window, and of the consumer behind it."""
    found = {}
    kind = ('--classic',) if arguments.classic else ()
    for at in range(arguments.times):
        for window in WINDOWS:
            events = arguments.events // 10 if window == 1 else arguments.events
            stream = Stream(cluster, arguments.program, room, f'rates-{at}-{window}', script_of(events))
            bridge = timed(events, lambda: stream.bridge('--window', window, '--end', *kind))
            found.setdefault(f'bridge, window {window}', []).append(bridge)
            consumer = timed(events, lambda: stream.consumer(1, '--every', 1000))
            if window > 1:
                found.setdefault('consumer', []).append(consumer)
            stream.close()
    return found


def main():
    parser = argparse.ArgumentParser(description=__doc__, formatter_class=argparse.RawDescriptionHelpFormatter)
    parser.add_argument('--program', default=str(PROGRAM))
    parser.add_argument('--nodes', type=count_of, default=3, help='of the cluster; %(default)s')
    parser.add_argument('--classic', action='store_true', help='classic queues')
    parser.add_argument('--events', type=count_of, default=10_000)
    parser.add_argument('--times', type=count_of, default=5)
    arguments = parser.parse_args()
    with Cluster(arguments.nodes) as cluster, tempfile.TemporaryDirectory() as room:
        print(f'{arguments.nodes} nodes, {"classic" if arguments.classic else "quorum"} queue, {arguments.events} events, {arguments.times} times', flush=True)
        for what, found in rates_of(cluster, arguments, pathlib.Path(room)).items():
            print(f'{what}: {statistics.median(found):,.0f} events a second ({min(found):,.0f} to {max(found):,.0f})')
    print(f'load {os.getloadavg()[0]:.1f} on {os.cpu_count()} processors')


if __name__ == '__main__':
    console.run(main)
