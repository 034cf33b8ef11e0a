#!/usr/bin/env python3
"""How many messages of a RabbitMQ queue a second `consume` takes, beside pika and a C client that take and acknowledge them alone.

  tests/bench/consume_rates.py [--program PATH] [--events N] [--times N] [--accounts N] [--classic] [--prefetch N]

It starts a node of its own (contrib/rabbitmq/cluster.py). Before each run the queue is filled with N events of a chained stream with a
real ledger's numbers, and an end mark; the run takes all of them, and is timed as a whole process, with its start. In turn:

  text      consume behind socat, with a book in a text
  sqlite    the same, with a book in SQLite
  pika      plain pika: it takes messages, and acknowledges them by the thousand
  c         the same in C, by librabbitmq (consumer.c)

Printed are the medians of messages a second, with the least and the greatest, and the CPU time of a message in microseconds: of all
processes of the run, with socat's, but not the server's. What a contender needs, and isn't installed, is named, and left out.
"""
import os
import pathlib
import shutil
import statistics
import subprocess
import sys
import tempfile
import time

sys.dont_write_bytecode = True
HERE = pathlib.Path(__file__).resolve().parent
TOP = HERE.parents[1]
sys.path[:0] = [str(it) for it in (HERE, TOP / 'tests/common', TOP / 'contrib/rabbitmq')]
import amqp
import ending
import needs
import rooms
import spent
import streams

PYTHON = '/usr/bin/python3'
QUEUE = 'rates'
EVERY = 1000
SECONDS = 600
LIBRARY = '/usr/include/amqp_tcp_socket.h'
# What pika has to do alone.
PIKA = """\
import sys, pika
port, count, prefetch, every = map(int, sys.argv[1:])
channel = pika.BlockingConnection(pika.ConnectionParameters('127.0.0.1', port)).channel()
channel.basic_qos(prefetch_count=prefetch)
left = count

def take(channel, delivery, properties, body):
    global left
    left -= 1
    if left == 0 or (count - left) % every == 0:
        channel.basic_ack(delivery.delivery_tag, multiple=True)
    if left == 0:
        channel.stop_consuming()

channel.basic_consume('rates', take)
channel.start_consuming()
channel.connection.close()
"""


def published(count, accounts):
    """The frames of each message of a chained stream, and of its end mark."""
    found, last = [], '0'
    to = amqp.method(1, amqp.PUBLISH, b'\0\0' + amqp.short('') + amqp.short(QUEUE) + b'\0')
    for body in streams.real_bodies(count, accounts):
        headers = {'event_type': body['type'], 'ledger': body['ledger'], 'previous': last}
        found.append(to + amqp.content(streams.line_of(body, 'own', last).rstrip('\n').encode(), headers))
        last = body['timestamp']
    return [*found, to + amqp.content(b'', {'previous': last}, 'end')]


class Series:
    """The node, its queue, and the contenders."""

    def __init__(self, port, room, options):
        self.port, self.room, self.options = port, pathlib.Path(room), options
        self.count = options.events + 1
        self.client = amqp.Client('127.0.0.1', port)
        self.client.declare(QUEUE, kind='classic' if options.classic else 'quorum')
        self.frames = published(options.events, options.accounts)
        self.meter = spent.Meter(room)
        self.runs = 0

    def fill(self):
        """Fills the queue, which has to be empty."""
        self.waits_for(0)
        for at in range(0, self.count, EVERY):
            self.client.socket.sendall(b''.join(self.frames[at:at + EVERY]))
            # (reads the confirms)
            self.client.declare(QUEUE, passive=True)
        self.waits_for(self.count)

    def waits_for(self, ready):
        deadline = time.monotonic() + SECONDS
        while self.client.declare(QUEUE, passive=True) != ready:
            if time.monotonic() > deadline:
                sys.exit(f'consume_rates: the queue does not come to {ready} messages')
            time.sleep(0.2)

    def consume(self, book):
        """The arguments of a run of the program behind socat."""
        command = [self.options.program, 'consume', '--queue', QUEUE, '--chained', '--book', book, '--report', str(self.room / 'report'),
                   '--prefetch', str(self.options.prefetch), '--every', str(EVERY)]
        return [shutil.which('socat'), '-t', '30', f'TCP:127.0.0.1:{self.port}', f'EXEC:{" ".join(command)}'.replace('sqlite:', 'sqlite\\:')]

    def arguments(self, name):
        self.runs += 1
        book = str(self.room / f'book-{self.runs}')
        more = [str(self.port), str(self.count), str(self.options.prefetch), str(EVERY)]
        if name == 'pika':
            return [PYTHON, '-c', PIKA, *more]
        if name == 'c':
            return [str(self.room / 'consumer'), '127.0.0.1', str(self.port), QUEUE, *more[1:]]
        return self.consume(book if name == 'text' else f'sqlite:{book}')

    def run(self, name):
        """Messages a second, and microseconds of CPU time a message."""
        self.fill()
        ran = self.meter.run(self.arguments(name), self.room)
        if name in ('text', 'sqlite') and not (self.room / 'report').read_text().startswith('status 0\nreason end\n'):
            sys.exit(f'consume_rates: {(self.room / "report").read_text()}')
        return self.count / ran.wall, 1e6 * ran.used / self.count


def contenders(room):
    """Those that can be run here; the others are named."""
    found = ['text', 'sqlite', 'pika', 'c']
    if not os.path.exists(PYTHON) or subprocess.run([PYTHON, '-c', 'import pika'], stderr=subprocess.DEVNULL).returncode:
        print('left out: pika: it needs Debian package python3-pika')
        found.remove('pika')
    if not shutil.which('cc') or not os.path.exists(LIBRARY):
        print(f'left out: c: it needs {"Debian package librabbitmq-dev" if shutil.which("cc") else needs.SOURCES["cc"]}')
        found.remove('c')
    else:
        subprocess.run(['cc', '-O2', '-Wall', '-Werror', '-o', f'{room}/consumer', HERE / 'consumer.c', '-lrabbitmq'], check=True)
    return found


def main(arguments):
    parser = rooms.parser_of(__doc__)
    parser.add_argument('--events', type=int, default=50_000, metavar='N', help='default: %(default)s')
    parser.add_argument('--times', type=int, default=7, metavar='N', help='runs of each; default: %(default)s')
    parser.add_argument('--accounts', type=int, default=12, metavar='N', help='default: %(default)s')
    parser.add_argument('--prefetch', type=int, default=1000, metavar='N', help='default: %(default)s')
    parser.add_argument('--classic', action='store_true', help='a classic queue [default: a quorum queue]')
    options = rooms.options_of(parser, arguments)
    missing = [it for it in ('socat', 'cc') if not shutil.which(it)]
    if missing or not os.path.exists('/usr/lib/rabbitmq/bin/rabbitmq-server'):
        print(f'consume_rates: not tried: it needs {", ".join(missing or ["Debian package rabbitmq-server"])}')
        return 2
    from cluster import Cluster

    os.environ['RELAYPLUM_PASSWORD'] = 'guest'
    load = os.getloadavg()[0]
    with Cluster(1) as cluster, tempfile.TemporaryDirectory(prefix='consume-rates-') as room:
        names = contenders(room)
        series = Series(cluster.nodes[0].port, room, options)
        found = {name: [] for name in names}
        for at in range(options.times):
            for name in names if at % 2 == 0 else names[::-1]:
                found[name].append(series.run(name))
    kind = 'classic' if options.classic else 'quorum'
    print(f'{options.events:,} events, {options.accounts:,} accounts, a {kind} queue, prefetch {options.prefetch}, {options.times} runs of each')
    for name, runs in found.items():
        rates, used = zip(*runs)
        print(f'{name:8} {statistics.median(rates):10,.0f} messages/s ({min(rates):,.0f} to {max(rates):,.0f})  {statistics.median(used):6.1f} us')
    print(f'load {load:.1f} before, {os.getloadavg()[0]:.1f} after, on {os.cpu_count()} processors')
    return 0


if __name__ == '__main__':
    ending.run(main)
