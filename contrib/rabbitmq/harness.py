"""What the checks with a broker share: scripts, bridges and consumers as processes, and what books they have to come to."""
import bisect
import contextlib
import json
import os
import pathlib
import re
import signal
import subprocess
import sys

import client
from cluster import wait_until
from console import Stop
from pika.exceptions import AMQPError

HERE = pathlib.Path(__file__).resolve().parent
# How long something may take that a check waits for: a guard against what hangs, for a machine that is busy with other work.
SECONDS = 300
EVENTS, HELD_AFTER = 300, 150
CONFIRMED = re.compile(r'^bridge: \d+ events confirmed, up to (\d+)', re.MULTILINE)
APPLIED = re.compile(r'^subscriber 1 applied (\d+) ', re.MULTILINE)
# How many connections in a row without a new event end a consumer, how long it waits between two, and after how long it makes a new one.
TRIES, WAIT_SECONDS, RENEW_SECONDS = 300, 0.2, 30
# Reads what a program prints, and waits after some lines until somebody opens the pipe.
HELD = """\
#!{python}
import os, subprocess, sys
try:
  with subprocess.Popen(['{program}', *sys.argv[1:]], stdout=subprocess.PIPE) as process:
    for number, line in enumerate(process.stdout):
        if sys.argv[1] == 'messages' and number == {lines}:
            sys.stdout.flush()
            open('{pipe}', 'rb').read()
        sys.stdout.buffer.write(line)
    sys.stdout.flush()
except BrokenPipeError:
    os._exit(1)
sys.exit(process.returncode)
"""

# Queues whose newest messages stay and whose oldest go, and mirrors of classic queues that take only what is new.
SET_POLICY = 'rabbit_policy:set(<<"/">>, <<"{name}">>, <<"^{queue}$">>, {definition}, 0, <<"queues">>, <<"guest">>)'
DROPS = '[{<<"max-length">>, 50}, {<<"overflow">>, <<"drop-head">>}]'
REFUSES = '[{<<"max-length">>, 200}, {<<"overflow">>, <<"reject-publish">>}]'
MIRRORS = '[{<<"ha-mode">>, <<"all">>}, {<<"ha-sync-mode">>, <<"manual">>}, {<<"ha-promote-on-failure">>, <<"always">>}]'

# How long a consumer may hold a message, and how often a channel looks at that, both in milliseconds.
HOLDS = '[application:set_env(rabbit, consumer_timeout, {timeout}), application:set_env(rabbit, channel_tick_interval, {interval})]'
LONG_TIMEOUT, LONG_INTERVAL = 1_800_000, 60_000
WATERMARK = 'vm_memory_monitor:set_vm_memory_high_watermark({{absolute, {bytes}}})'
CONSUMERS = '{{ok, Q}} = rabbit_amqqueue:lookup(rabbit_misc:r(<<"/">>, queue, <<"{queue}">>)), length(rabbit_amqqueue:consumers(Q))'
# The operator's `close_connection`, for each consumer of a queue.
CLOSES = (
    '{{ok, Q}} = rabbit_amqqueue:lookup(rabbit_misc:r(<<"/">>, queue, <<"{queue}">>)), '
    '[begin [{{connection, C}}] = rabbit_channel:info(element(1, It), [connection]), rabbit_networking:close_connection(C, "by hand") end '
    '|| It <- rabbit_amqqueue:consumers(Q)]')
READY = '{{ok, Q}} = rabbit_amqqueue:lookup(rabbit_misc:r(<<"/">>, queue, <<"{queue}">>)), proplists:get_value(messages_ready, rabbit_amqqueue:info(Q, [messages_ready]))'
MIRRORED = 'case rabbit_amqqueue:lookup(rabbit_misc:r(<<"/">>, queue, <<"{queue}">>)) of {{ok, Q}} -> length(amqqueue:get_slave_pids(Q)) end'


class Failed(Exception):
    """What a check found."""


def same(what, wanted, found):
    if wanted != found:
        raise Failed(f'{what}\n  wanted: {wanted!r:.600}\n  found:  {found!r:.600}')


def script_of(events, subscribers=('all', 'any transfer_code=2 event_type=two_phase_pending')):
    """A script of so many events between four accounts: most transfers are single, some pending, posted and voided."""
    yield from (f'subscriber {it}' for it in subscribers)
    yield 'accounts 1000'
    yield from (f'account id={it} ledger=700 code=10' for it in range(1, 5))
    for at in range(events):
        if at % 1000 == 0:
            yield f'transfers {2000 + at}'
        if at % 10 == 9:
            yield f'transfer id={at + 1} pending_id={at} amount={at % 50} flags=4'
        else:
            accounts = f'debit_account_id={at % 3 + 1} credit_account_id={at % 3 + 2}'
            yield f'transfer id={at + 1} {accounts} amount={50 + at % 47} ledger=700 code={at % 2 + 1} flags={2 if at % 10 == 8 else 0}'


class Actor:
    """A bridge or a consumer: a process whose standard error stands in a file."""

    def __init__(self, log, command, environment=None):
        self.log = log
        with open(log, 'ab') as errors:
            self.process = subprocess.Popen(
                [*map(str, command)], env={**os.environ, **(environment or {})}, stdin=subprocess.DEVNULL, stdout=subprocess.PIPE, stderr=errors,
                text=True, start_new_session=True)
        self.printed = None

    def said(self):
        return self.log.read_text(errors='replace')

    def failures(self):
        """The end of what was reported, without how far it was."""
        return '\n'.join(it for it in self.said().splitlines() if not CONFIRMED.match(it))[-1500:]

    def is_over(self):
        return self.process.poll() is not None

    def kill(self, whole=False):
        """Kills the process, or all that it has started too."""
        with contextlib.suppress(ProcessLookupError):
            os.killpg(self.process.pid, signal.SIGKILL) if whole else self.process.kill()
        self.process.wait()

    def send(self, number):
        with contextlib.suppress(ProcessLookupError):
            os.killpg(self.process.pid, number)

    def wait(self, seconds=SECONDS):
        """The status and what was printed, at its end."""
        try:
            if self.printed is None:
                self.printed, _ = self.process.communicate(timeout=seconds)
        except subprocess.TimeoutExpired:
            self.kill(whole=True)
            raise Failed(f'{self.log.name} did not end within {seconds} s: {self.failures()}') from None
        said = self.said()
        if 'Traceback' in said:
            raise Failed(f'{self.log.name} has a traceback: {self.failures()}')
        return self.process.returncode, self.printed


class Consumer(Actor):
    """`consume` behind socat, in the loop over the nodes."""

    def __init__(self, log, queue, nodes, program, book, *options, user='guest', tries=TRIES, renew=RENEW_SECONDS):
        self.report, self.book = log.with_suffix('.report'), book
        addresses = [f'TCP:127.0.0.1:{node.port}' for node in nodes]
        command = [HERE / 'consume.sh', self.report, *addresses, '--', '--queue', queue, '--chained', '--book', book, '--user', user, *options]
        environment = {'RELAYPLUM': program, 'RELAYPLUM_PASSWORD': 'guest', 'TRIES': tries, 'WAIT': WAIT_SECONDS, 'RENEW': renew}
        super().__init__(log, command, {name: str(it) for name, it in environment.items()})

    def reported(self):
        """The lines of the report, by their names."""
        try:
            return dict(it.split(' ', 1) for it in self.report.read_text().splitlines())
        except FileNotFoundError:
            return {}

    def part(self, name):
        """The process of this name in the loop, such as socat; None if there is none now."""
        found = [self.process.pid]
        for process in found:
            with contextlib.suppress(OSError):
                found += children_of(process)
                if pathlib.Path(f'/proc/{process}/comm').read_text().strip() == name:
                    return process
        return None

    def kill_part(self, name):
        """Kills one process of the loop, which goes on with the next node; whether there was one."""
        process = self.part(name)
        with contextlib.suppress(ProcessLookupError):
            if process is not None:
                os.kill(process, signal.SIGKILL)
        return process is not None


class Stream:
    """A script on its way through a cluster: its bridge, its consumers, and the books that they have to come to."""

    def __init__(self, cluster, program, room, name, script):
        self.cluster, self.program, self.name = cluster, program, name
        self.room = room / name
        self.room.mkdir()
        self.script = self.room / 'script'
        self.script.write_text(script if isinstance(script, str) else '\n'.join(script) + '\n')
        self.books = self.expected()
        self.timestamps = [int(json.loads(body)['timestamp']) for body in self.print('messages', self.script).splitlines()[1::2]]
        self.actors = []

    def print(self, *arguments):
        """What the program prints of the script."""
        return subprocess.run([self.program, *arguments], capture_output=True, text=True, check=True).stdout

    def event(self, place, number):
        """Event number 1, 2, 3 .. of a queue, as body and properties."""
        line = self.print('messages', self.script, '--queue', str(place)).splitlines()[number - 1]
        body = line[line.index('"body":') + len('"body":'):-1]
        return body.encode(), client.pika.BasicProperties(headers={'previous': json.loads(line)['previous']})

    def expected(self):
        """What `books` prints of each subscriber, as `follow` prints it: its subscriber is always number 1."""
        found = re.split(r'^subscriber \d+ ', self.print('books', self.script), flags=re.MULTILINE)[1:]
        return {place: f'subscriber 1 {text}' for place, text in enumerate(found, 1)}

    @property
    def places(self):
        return list(self.books)

    @property
    def urls(self):
        return [it for url in self.cluster.urls for it in ('--url', url)]

    def started(self, actor):
        self.actors.append(actor)
        return actor

    def bridge(self, *arguments, program=None, log='bridge'):
        defaults = [*([] if '--name' in arguments else ('--name', self.name)), *([] if '--url' in arguments else self.urls)]
        command = [sys.executable, HERE / 'bridge.py', self.script, '--program', program or self.program, '--confirm-timeout', 10, *arguments, *defaults]
        return self.started(Actor(self.room / log, command))

    def consumer(self, place, *options, log=None, book=None, nodes=None, **how):
        options = options if '--every' in options else ('--every', 20, *options)
        book = book or self.book(place)
        return self.started(Consumer(
            self.room / (log or f'consume-{place}'), client.queue_of(self.name, place), nodes or self.cluster.nodes, self.program, book, *options, **how))

    def book(self, place):
        return self.room / f'book-{place}'

    @property
    def program_name(self):
        """The name of the program's processes."""
        return pathlib.Path(self.program).name[:15]

    def close_connections(self, place):
        """Closes the connection of each consumer of a queue, as an operator does."""
        with contextlib.suppress(Stop):
            # (a channel that ends meanwhile has no connection)
            self.cluster.up().evaluate(CLOSES.format(queue=client.queue_of(self.name, place)))

    def hold(self, lines):
        """The program, but `messages` waits after so many lines; and what lets it go on."""
        held, pipe = self.room / f'held-{lines}', self.room / f'pipe-{lines}'
        os.mkfifo(pipe)
        held.write_text(HELD.format(python=sys.executable, program=self.program, lines=lines, pipe=pipe))
        held.chmod(0o755)
        return held, lambda: pipe.open('wb').close()

    def confirmed(self, log='bridge'):
        """How many events are confirmed, as far as a bridge has reported it."""
        found = CONFIRMED.findall((self.room / log).read_text(errors='replace'))
        return bisect.bisect(self.timestamps, int(found[-1])) if found else 0

    def applied(self, place):
        """How many events the book on the disk has: the last frame of its log counts."""
        try:
            found = APPLIED.findall(self.book(place).read_text())
        except FileNotFoundError:
            return 0
        return int(found[-1]) if found else 0

    def shown(self, book):
        """What `follow` prints of a saved book, without the saves."""
        done = subprocess.run([self.program, 'follow', '--chained', '--book', str(book)], stdin=subprocess.DEVNULL, capture_output=True, text=True)
        return ''.join(it for it in done.stdout.splitlines(True) if not it.startswith('saved '))

    def ends(self, actor, status, pattern):
        """An actor has to end with this status, and to report this."""
        found, printed = actor.wait()
        if found != status or not re.search(pattern, actor.said()):
            raise Failed(f'{actor.log.name}: status {found}, not {status}, with {pattern!r}: {printed[:300]} {actor.failures()}')
        return printed

    def reports(self, consumer, status, **lines):
        """A consumer has to end with this status, and to report these lines."""
        found, _ = consumer.wait()
        reported = {name: consumer.reported().get(name) for name in lines}
        if (found, reported) != (status, lines):
            raise Failed(f'{consumer.log.name}: status {found}, not {status}; {reported}, not {lines}: {consumer.failures()}')

    def takes_all(self, place, *options, **how):
        """A consumer of this queue has to come to its end, and to the book that `books` prints."""
        consumer = self.consumer(place, *options, **how)
        self.reports(consumer, 0, reason='end')
        self.has_all(place, consumer.book)

    def has_all(self, place, book):
        """A book has to be the one that `books` prints."""
        same(f'the book of subscriber {place}', self.books[place], self.shown(book))

    def held_lines(self, place):
        """What a queue holds up to its end mark, as lines of `messages --queue`; that is taken from it."""
        found = []
        with contextlib.closing(client.connect(client.parameters_of(self.cluster.urls[0], 10))) as connection:
            channel = connection.channel()
            for delivery, properties, body in channel.consume(client.queue_of(self.name, place), inactivity_timeout=SECONDS):
                if delivery is None:
                    raise Failed(f'queue {place} of {self.name} has no end mark after {found[-1:]}')
                found.append(line_of(properties, body.decode()))
                channel.basic_ack(delivery.delivery_tag)
                if properties.type == 'end':
                    return found

    def close(self):
        """Ends what runs, and deletes the queues, as far as the nodes are there."""
        for actor in self.actors:
            actor.kill(whole=True)
        for queue in [client.queue_of(self.name, it) for it in self.places] + [f'{self.name}.progress']:
            with contextlib.suppress(AMQPError, Stop), contextlib.closing(client.connect(client.parameters_of(self.cluster.up().url, 10))) as connection:
                connection.channel().queue_delete(queue)


def line_of(properties, body):
    """A delivery as the line of `messages --queue` that it was published from."""
    headers = dict(properties.headers)
    previous = headers.pop('previous')
    if properties.type == 'end':
        return json.dumps({'kind': 'end', 'previous': previous, 'end': True}, separators=(',', ':'))
    beside = json.dumps({'kind': 'message', 'previous': previous, 'headers': headers, 'timestamp': properties.timestamp}, separators=(',', ':'))
    return f'{beside[:-1]},"body":{body}}}'


def children_of(process):
    """The processes that a process has started."""
    return [int(it) for it in pathlib.Path(f'/proc/{process}/task/{process}/children').read_text().split()]


def wait_for(what, is_so, seconds=SECONDS):
    """Polls a state until it is so; a check fails if it never is."""
    try:
        wait_until(what, is_so, seconds)
    except Stop as why:
        raise Failed(str(why)) from None


class Bench:
    """What the rows have in common: a cluster, and streams through it."""

    def __init__(self, cluster, program, room):
        self.cluster, self.program, self.room = cluster, program, room

    def stream(self, name, script=None):
        return Stream(self.cluster, self.program, self.room, name, script or script_of(EVENTS))

    @contextlib.contextmanager
    def channel(self, node=None):
        """A channel to a node."""
        with contextlib.closing(client.connect(client.parameters_of((node or self.cluster.up()).url, 10))) as connection:
            yield connection.channel()

    @contextlib.contextmanager
    def held(self, name, *arguments, lines=HELD_AFTER, script=None):
        """A stream whose bridge, which sends one message at a time, waits after some events, all of them confirmed; the stream, the
        bridge and what lets it go on."""
        with contextlib.closing(self.stream(name, script)) as stream:
            program, go_on = stream.hold(lines)
            bridge = stream.bridge('--window', 1, '--every', 1, *arguments, program=program)
            wait_for(f'{lines} events are confirmed', lambda: stream.confirmed() == lines or bridge.is_over())
            yield stream, bridge, go_on

    @contextlib.contextmanager
    def policy(self, stream, definition, places='1'):
        """A policy for some queues, the first without more, as long as the block runs."""
        self.cluster.up().evaluate(SET_POLICY.format(name=stream.name, queue=f'{stream.name}[.]{places}', definition=definition))
        yield
        self.cluster.up().evaluate(f'rabbit_policy:delete(<<"/">>, <<"{stream.name}">>, <<"guest">>)')

    @contextlib.contextmanager
    def limits_of_consumers(self, milliseconds):
        """How long a consumer may hold a message, for as long as the block runs."""
        try:
            for node in self.cluster.nodes:
                node.evaluate(HOLDS.format(timeout=milliseconds, interval=milliseconds))
            yield
        finally:
            for node in self.cluster.nodes:
                node.evaluate(HOLDS.format(timeout=LONG_TIMEOUT, interval=LONG_INTERVAL))

    def urls(self, first):
        """All nodes, this one first."""
        nodes = sorted(self.cluster.nodes, key=lambda it: it is not first)
        return [it for node in nodes for it in ('--url', node.url)]

    def is_sent_again(self, stream, place):
        """The consumer of a queue has to stop at a gap, and to report the last event before it. The queue is emptied, since what waits in it
        comes too early; the bridge sends what is missing, and the book is whole. Returns that event."""
        consumer = stream.consumer(place, log=f'gap-{place}')
        stream.reports(consumer, 3, reason='gap')
        last = int(consumer.reported()['seen'])
        self.purge(client.queue_of(stream.name, place))
        stream.ends(stream.bridge('--queue', place, '--start-after', last, '--end'), 0, ' events confirmed')
        stream.takes_all(place)
        return last

    def consumers_of(self, queue):
        """How many consumers a queue has, the ones that aren't active too."""
        return int(self.cluster.up().evaluate(CONSUMERS.format(queue=queue)))

    def publish(self, queue, *messages):
        """Publishes messages, each a body and properties, straight to a queue."""
        with self.channel() as channel:
            channel.confirm_delivery()
            for body, properties in messages:
                channel.basic_publish('', queue, body, properties)

    def purge(self, queue):
        """Removes what a queue has, once a consumer is gone, and what it left is back; how many messages that was."""
        wait_for('the consumer is gone', lambda: self.consumers_of(queue) == 0)
        with self.channel() as channel:
            return channel.queue_purge(queue).method.message_count

    def ready_in(self, queue):
        """How many messages of a queue aren't delivered."""
        return int(self.cluster.up().evaluate(READY.format(queue=queue)))
