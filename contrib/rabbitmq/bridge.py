#!/usr/bin/env python3
"""Sends the messages of a Relayplum script to RabbitMQ, each at least once, whatever dies.

    contrib/rabbitmq/bridge.py FILE [--program PATH] [--url URL].. [--name NAME] [--window N] [--end] ..

Each subscriber I of the script has a quorum queue NAME.I, which gets the events that its binding takes, each with the
timestamp of the event before it in the queue as the header `previous`. Which queue takes what, and what comes before it,
is printed by `relayplum messages --json`. At most N messages have no confirm at a time. If a message is returned or refused,
if a confirm doesn't come or the connection is lost, the bridge connects to the next URL, and sends everything again from the
first message that isn't confirmed. So a queue has duplicates, and after a refusal or a return messages may stand in it too early. A
consumer of the chained stream (`relayplum consume --chained`) applies each once, in order, and stops at one that is too early.

How far it is stands in the queue NAME.progress, and the next bridge goes on from there. Only one bridge of a name runs.
"""
import argparse
import hashlib
import pathlib
import sys
import time

import client
import console
from client import count_of, pika, queue_of, seconds_of, short_of
from console import USAGE_ERROR, Stop, say
from progress import FileProgress, Record, record_of
from publisher import Outgoing, Publisher
from session import NOT_FOUND, RESOURCE_LOCKED, Lost, Refused, Session
from stream import GREATEST, Program

PROGRAM = pathlib.Path(__file__).resolve().parent.parent.parent / 'crates/cdc_app/out/cdc_app'
APP_ID = 'tigerbeetle'
CONTENT_TYPE = 'application/json'
PERSISTENT = 2
END = 'end'
MOST_WINDOW = 1024
LOCK_SECONDS = 0.2
# Of the answers that refuse a request, those that are about the connection's or the queue's state, and may change. RabbitMQ
# has one code for a queue that isn't there and for one whose node is down.
MISSING = 'no queue '


class QueueProgress:
    """The progress in a queue of the broker, of which the newest message counts."""

    def __init__(self, name):
        self.queue = f'{name}.progress'
        self.where = f'queue {self.queue}'

    def held(self, session):
        """The records that are held."""
        if not has_queue(session, self.queue):
            return []
        return [record_of(body.decode('utf-8', 'replace'), self.where) for body in session.messages_of(self.queue)]

    def save(self, record, send):
        """Sends the record, after the messages that it is about."""
        send(Outgoing('', self.queue, pika.BasicProperties(app_id=APP_ID, delivery_mode=PERSISTENT), record.text().encode()))


def has_queue(session, queue):
    """Whether the broker knows this queue."""
    try:
        session.request(f'queue {queue}', 'queue_declare', queue, passive=True)
        return True
    except Refused as why:
        if why.code == NOT_FOUND and MISSING in why.text:
            return False
        raise Lost(str(why)) from why


class Queues:
    """What a bridge needs at the broker before it publishes: its lock, its queues, its progress, an exchange for others."""

    def __init__(self, arguments, places, script):
        self.name, self.exchange, self.standby = arguments.name, arguments.exchange, arguments.standby
        self.is_classic, self.repaired, self.start = arguments.classic, arguments.queue, arguments.start_after
        self.places = places
        self.script = script
        self.progress = FileProgress(arguments.resume) if arguments.resume else QueueProgress(self.name)
        # The newest progress record, once it is known.
        self.record = None
        self.waits = False

    def prepare(self, session):
        """Locks the name; the first session also declares or checks the queues, and reads the progress."""
        self.lock(session)
        if self.exchange:
            self.check(session, f'exchange {self.exchange}', 'exchange_declare', self.exchange, passive=True)
        if self.record is None:
            self.record = self.begin(session)

    def lock(self, session):
        """Takes the lock, an exclusive queue: RabbitMQ deletes it once the connection has ended. A bridge that has had it waits for
        that a while, since its own last connection may linger; another one waits only on standby."""
        queue, deadline = f'{self.name}.lock', time.monotonic() + session.seconds
        while True:
            try:
                return session.request(f'queue {queue}', 'queue_declare', queue, exclusive=True)
            except Refused as why:
                if why.code != RESOURCE_LOCKED:
                    raise Stop(f'the broker refuses {why}') from why
                if self.record is None and not self.standby:
                    raise Stop(f'another bridge of the name {self.name} runs: {why.text}') from why
                if self.record is not None and time.monotonic() > deadline:
                    raise Lost(f'another bridge of the name {self.name} runs, or the broker keeps a lost connection') from why
            if self.record is None and not self.waits:
                self.waits = True
                say(f'waits for the end of another bridge of the name {self.name}')
            time.sleep(LOCK_SECONDS)

    def begin(self, session):
        """The record of what is confirmed already. Queues are declared before there is any progress, and never again."""
        new = Record(self.start or 0, self.name, session.cluster, self.script)
        if self.repaired is not None:
            if not has_queue(session, queue_of(self.name, self.repaired)):
                self.declare(session, queue_of(self.name, self.repaired))
            return new
        held = self.progress.held(session)
        if not held:
            for place in self.places:
                self.declare(session, queue_of(self.name, place))
            if isinstance(self.progress, QueueProgress):
                self.declare(session, self.progress.queue, {'x-max-length': 1})
            return new
        record = max(held, key=lambda it: it.timestamp)
        for what, mine, other in (('name', new.name, record.name), ('cluster', new.cluster, record.cluster), ('script', new.script, record.script)):
            if mine != other:
                raise Stop(f'{self.progress.where} has the progress of another {what}: {other}, not {mine}')
        if self.start is not None:
            raise Stop(f'{self.progress.where} has {record.timestamp} already: leave out --start-after, or send one queue again by --queue')
        for place in self.places:
            if not has_queue(session, queue_of(self.name, place)):
                raise Stop(f'queue {queue_of(self.name, place)} is gone, with what it held: `--queue {place}` sends all of it again')
        return record

    def declare(self, session, queue, more=()):
        """Declares a queue that outlives the broker's process, and has one active consumer at a time."""
        kind = {} if self.is_classic else {'x-queue-type': 'quorum'}
        consumers = {} if more else {'x-single-active-consumer': True}
        self.check(session, f'queue {queue}', 'queue_declare', queue, durable=True, arguments={**kind, **consumers, **dict(more)})

    def check(self, session, what, method, *arguments, **keywords):
        """Asks for something without which no bridge can go on."""
        try:
            session.request(what, method, *arguments, **keywords)
        except Refused as why:
            if why.code == NOT_FOUND and MISSING not in why.text and method == 'queue_declare':
                raise Lost(str(why)) from why
            raise Stop(f'the broker refuses {why}') from why


def properties_of(message, previous):
    """The properties that a message is published with."""
    headers = {**message.headers, 'previous': str(previous)}
    return pika.BasicProperties(app_id=APP_ID, content_type=CONTENT_TYPE, delivery_mode=PERSISTENT, timestamp=message.seconds, headers=headers)


def outgoing_of(message, arguments):
    """What is published of a message, the last of it completing its event."""
    places = [it for it in message.queues if arguments.queue in (None, it)]
    to = [('', queue_of(arguments.name, it), message.queues[it]) for it in places]
    if arguments.exchange and arguments.queue is None:
        to.append((arguments.exchange, arguments.routing_key, message.previous))
    for at, (exchange, routing_key, previous) in enumerate(to, 1):
        completes = message.timestamp if at == len(to) else None
        yield Outgoing(exchange, routing_key, properties_of(message, previous), message.body, completes)


def end_of(queue, last):
    """The mark that nothing follows in a queue, after its last event."""
    return Outgoing('', queue, pika.BasicProperties(app_id=APP_ID, type=END, delivery_mode=PERSISTENT, headers={'previous': str(last)}), b'')


class Bridge:
    """Sends the messages of a script, and saves how far that is."""

    def __init__(self, arguments, program, script):
        self.arguments, self.program = arguments, program
        self.ends = program.ends()
        if arguments.queue is not None and arguments.queue not in self.ends:
            raise Stop(f'{arguments.script} has no subscriber {arguments.queue}', USAGE_ERROR)
        self.places = [it for it in self.ends if arguments.queue in (None, it)]
        self.queues = Queues(arguments, self.places, script)
        self.nodes = client.nodes_of(arguments.url, arguments.confirm_timeout)
        self.publisher = Publisher(self.connect, arguments.window, arguments.tries)
        self.saved = None

    def connect(self):
        """A session that is ready to publish."""
        session = Session(next(self.nodes), self.arguments.confirm_timeout)
        try:
            self.queues.prepare(session)
        except BaseException:
            session.close()
            raise
        return session

    def run(self):
        """Sends everything that isn't confirmed yet."""
        publisher = self.publisher
        publisher.open()
        start = publisher.timestamp = self.saved = self.queues.record.timestamp
        skipped, saved_at = 0, 0
        self.save()
        for message in self.program.messages():
            if message.timestamp <= start:
                skipped += 1
                continue
            for outgoing in outgoing_of(message, self.arguments):
                publisher.send(outgoing)
            if publisher.events - saved_at >= self.arguments.every:
                saved_at = publisher.events
                self.save()
                say(f'{publisher.events} events confirmed, up to {publisher.timestamp}')
        if self.arguments.end:
            for place in self.places:
                publisher.send(end_of(queue_of(self.arguments.name, place), self.ends[place]))
        publisher.finish()
        self.save()
        publisher.finish()
        publisher.close()
        say(f'{publisher.events} events confirmed, {skipped} skipped up to {start}, {publisher.lost} connections lost')

    def save(self):
        """Saves what is confirmed. A bridge that sends one queue again has no progress."""
        if self.arguments.queue is None:
            self.queues.progress.save(self.queues.record.at(self.publisher.timestamp), self.publisher.send)


def timestamp_of(text):
    """A timestamp in nanoseconds that an event may have, or 0."""
    if not (text.isascii() and text.isdecimal() and int(text) <= GREATEST):
        raise argparse.ArgumentTypeError(f'{text} is no timestamp from 0 to {GREATEST}')
    return int(text)


def read_arguments():
    """The arguments of the command line."""
    parser = argparse.ArgumentParser(description='Sends the messages of a script to RabbitMQ, each at least once, whatever dies.')
    parser.add_argument('script', metavar='FILE', help='the script whose messages are sent')
    client.add_arguments(parser)
    parser.add_argument('--program', default=str(PROGRAM), help='the program; %(default)s')
    parser.add_argument('--window', type=lambda it: count_of(it, MOST_WINDOW), default=64, help=f'how many messages have no confirm at a time, 1 to {MOST_WINDOW}; %(default)s')
    parser.add_argument('--confirm-timeout', type=seconds_of, default=client.SECONDS, metavar='SECONDS', help='how long a confirm, or any other answer, may take; %(default)s')
    parser.add_argument('--classic', action='store_true', help='classic queues, for a broker of one node')
    parser.add_argument('--standby', action='store_true', help='waits while another bridge of this name runs, and takes over')
    parser.add_argument('--every', type=count_of, default=1000, metavar='N', help='after how many events the progress is saved; %(default)s')
    parser.add_argument('--resume', metavar='SAVED', help='keeps the progress in this file, in place of a queue')
    parser.add_argument('--start-after', type=timestamp_of, metavar='N', help='skips events up to this timestamp; only if there is no progress, or with --queue')
    parser.add_argument('--queue', type=count_of, metavar='I', help='sends only this queue, again, whatever the progress is')
    parser.add_argument('--end', action='store_true', help='sends each queue an end mark at the end')
    parser.add_argument('--exchange', type=short_of, metavar='NAME', help='also publishes each event to this exchange, which exists')
    parser.add_argument('--routing-key', type=short_of, default='', metavar='KEY', help='with which routing key')
    return parser.parse_args()


def main():
    arguments = read_arguments()
    try:
        script = hashlib.sha256(pathlib.Path(arguments.script).read_bytes()).hexdigest()
    except OSError as error:
        raise Stop(f'{arguments.script} can\'t be read: {error.strerror}', USAGE_ERROR) from None
    Bridge(arguments, Program(arguments.program, arguments.script), script).run()


if __name__ == '__main__':
    sys.exit(console.run(main))
