#!/usr/bin/env python3
"""Checks what once lost messages through RabbitMQ, row by row, and what a queue holds, message by message.

    contrib/rabbitmq/rows.py [--program PATH] [WORD]      WORD: only the rows with this in their names

It starts a cluster of three nodes. In each row nothing may be lost, or a bridge has to end with status 1, or a consumer with status
2 or 3, and name the place; then the bridge sends what is missing again. In the end each book has to be, byte for byte, what `books`
prints.
"""
import argparse
import contextlib
import datetime
import decimal
import json
import os
import pathlib
import signal
import tempfile
import time
from unittest import mock

import console
from bridge import PROGRAM
from client import pika
from cluster import Cluster
from harness import DROPS, EVENTS, HELD_AFTER, HERE, MIRRORED, MIRRORS, REFUSES, WATERMARK, Bench, Failed, same, script_of, wait_for

# How the bridge declares a queue.
QUORUM = {'x-queue-type': 'quorum', 'x-single-active-consumer': True}
# A header of the type timestamp, for which there is no year.
NO_TIME = b'T' + b'\xff' * 8


def end_mark(previous):
    """An end mark, as body and properties; its predecessor is of any type."""
    return b'', pika.BasicProperties(type='end', headers={'previous': previous})


def odd_messages(stream):
    """Messages that are no event: what is wrong with each, its body and its properties."""
    body, properties = stream.event(1, 20)
    after = {'previous': '2019'}
    stamp = b'"timestamp":"2019",'
    yield from ((name, it, pika.BasicProperties(headers=after)) for name, it in (
        ('not_json', b''), ('not_json', b'1e999'), ('not_json', b'[' * 30_000), ('not_json', b'\xff'), ('not_json', b'no\nevent\n'), ('not_json', body + b'\n' + body),
        ('not_json', body + b',"previous":"2018"'), ('not_json', b'0},"end":true,"x":{"y":0'), ('not_json', body.replace(b'"type":"', b'"type":"\n')),
        ('not_an_object', b'[]'), ('not_an_object', b'7'), ('missing', b'{}'), ('missing', b'{"timestamp":"2000"}'), ('too_long', b' ' * 70_000 + body),
        *(('wrong_type', body.replace(stamp, b'"timestamp":%b,' % it)) for it in (b'1.5', b'-1', b'true', b'[1]', b'"-1"', b'"1_0"')),
        *(('out_of_range', body.replace(stamp, b'"timestamp":"%b",' % it)) for it in (b'9' * 20, b'9' * 5000)),
        ('not_json', body.replace(stamp, b'"timestamp":1e999,')),
    ))
    for previous in ([], {}, True, b'\xff', decimal.Decimal('1.5'), datetime.datetime(2020, 1, 1), '', '-1'):
        yield 'wrong_type', body, pika.BasicProperties(headers={'previous': previous})
        yield 'wrong_type', *end_mark(previous)
    yield 'out_of_range', *end_mark('9' * 5000)
    yield 'wrong_type', *end_mark(None)
    yield 'missing', b'', pika.BasicProperties(type='end')
    yield 'missing', body, pika.BasicProperties()
    yield 'not_json', b'', pika.BasicProperties(type=b'\xff', headers=after)


class Rows(Bench):
    """The rows, each over a cluster whose nodes are all up."""

    def row_messages(self):
        """Each queue holds what `messages --queue` prints, line by line, and the next bridge has nothing to send."""
        for path in [*sorted((HERE.parent.parent / 'examples').glob('*.script')), HERE / 'bindings.script']:
            with contextlib.closing(self.stream(path.stem, path.read_text())) as stream:
                stream.ends(stream.bridge('--end'), 0, ' 0 connections lost$')
                for place in stream.places:
                    wanted = stream.print('messages', stream.script, '--queue', str(place)).splitlines()
                    same(f'{path.stem}: queue {place}', wanted, stream.held_lines(place))
                stream.ends(stream.bridge('--end'), 0, 'bridge: 0 events confirmed, ')

    def row_home_node_of_classic_queues_killed(self):
        """Messages for classic queues whose node is gone come back, and the bridge ends; with the node it goes on."""
        home = self.cluster.nodes[1]
        with self.held('home', '--classic', '--tries', 5, *self.urls(home)) as (stream, bridge, go_on):
            home.kill()
            go_on()
            stream.ends(bridge, 1, r'takes no message: 312 NO_ROUTE[\s\S]*failed after 5 tries: .*; confirmed up to 2149; .* is for queue home[.][12]')
            home.start()
            home.wait()
            stream.ends(stream.bridge('--classic', '--end'), 0, '150 events confirmed, 150 skipped up to 2149')
            for place in stream.places:
                stream.takes_all(place)

    def row_second_bridge(self):
        """A second bridge is refused; one on standby goes on where the first was killed."""
        with self.held('second') as (stream, bridge, _):
            stream.ends(stream.bridge(log='refused'), 1, '^bridge: another bridge of the name second runs')
            standby = stream.bridge('--standby', '--end', log='standby')
            wait_for('the standby bridge is refused', lambda: 'waits' in standby.said())
            bridge.kill(whole=True)
            stream.ends(standby, 0, '150 events confirmed, 150 skipped up to 2149')
            for place in stream.places:
                stream.takes_all(place)

    def row_two_consumers(self):
        """Of two consumers one is active. With a book of its own the other finds a gap, once the first is gone."""
        with self.held('two') as (stream, bridge, go_on):
            first = stream.consumer(1)
            wait_for('the first consumer has a book', lambda: stream.applied(1) == HELD_AFTER)
            other = stream.consumer(1, log='other', book=stream.book('other'))
            wait_for('the other consumer is there', lambda: self.consumers_of('two.1') == 2)
            go_on()
            stream.ends(bridge, 0, '300 events confirmed')
            wait_for('the first consumer has all', lambda: stream.applied(1) == EVENTS)
            first.kill(whole=True)
            stream.ends(stream.bridge('--end'), 0, '')
            stream.reports(other, 3, reason='gap', applied='0', seen='0')
            for place in stream.places:
                stream.takes_all(place)

    def row_consumer_that_lingers(self):
        """A consumer with the book of one that is stopped waits for the book, and goes on with it."""
        with contextlib.closing(self.stream('lingers')) as stream:
            stream.ends(stream.bridge(), 0, '300 events confirmed')
            first = stream.consumer(1, '--prefetch', 20, '--every', 1)
            wait_for('the first consumer has a book', lambda: stream.applied(1) > 0)
            first.send(signal.SIGSTOP)
            second = stream.consumer(1, log='second')
            wait_for('the book is locked', lambda: second.reported().get('status') == '1')
            first.kill(whole=True)
            stream.ends(stream.bridge('--end'), 0, '')
            stream.reports(second, 0, reason='end')
            stream.has_all(1, second.book)
            stream.takes_all(2)

    def stopped(self, stream, *arguments, prefetch):
        """A consumer of the first queue that is stopped before it has anything, while the bridge sends everything; and its process."""
        with self.channel() as channel:
            channel.queue_declare(f'{stream.name}.1', durable=True, arguments=QUORUM)
        consumer = stream.consumer(1, '--prefetch', prefetch, '--heartbeat', 0, renew=3600)
        wait_for('the consumer is there', lambda: self.consumers_of(f'{stream.name}.1') == 1)
        process = consumer.part(stream.program_name)
        os.kill(process, signal.SIGSTOP)
        stream.ends(stream.bridge(*arguments), 0, '300 events confirmed')
        return consumer, process

    def row_consumer_killed_before_its_save(self):
        """What wasn't saved isn't acknowledged: messages wait for a consumer that is stopped, and then all of it is killed."""
        with contextlib.closing(self.stream('unsaved')) as stream:
            consumer, _ = self.stopped(stream, '--end', prefetch=1000)
            wait_for('the consumer has the messages', lambda: self.ready_in('unsaved.1') == 0)
            consumer.kill(whole=True)
            same('events in the book', 0, stream.applied(1))
            for place in stream.places:
                stream.takes_all(place)
            # A consumer whose book has the end has nothing to wait for.
            stream.takes_all(1)

    def row_consumer_timeout(self):
        """A consumer that acknowledges too late has its channel closed, reports that, and goes on with the redelivery, which it has already."""
        with contextlib.closing(self.stream('late')) as stream:
            with self.limits_of_consumers(1000):
                consumer, process = self.stopped(stream, prefetch=10)
                wait_for('the server closes the channel', lambda: self.cluster.has_logged('timed out waiting for delivery acknowledgement'))
            os.kill(process, signal.SIGCONT)
            wait_for('the channel was closed', lambda: 'delivery acknowledgement on channel 1 timed out' in consumer.said())
            stream.ends(stream.bridge('--end'), 0, '')
            stream.reports(consumer, 0, reason='end', applied=str(EVENTS - 10), duplicates='10')
            stream.has_all(1, consumer.book)
            stream.takes_all(2)

    def row_connection_closed_by_the_operator(self):
        """A consumer whose connection an operator closes reports that, and its loop goes on with the next node."""
        with self.held('operator') as (stream, bridge, go_on):
            consumer = stream.consumer(1)
            wait_for('the consumer has a book', lambda: stream.applied(1) == HELD_AFTER)
            stream.close_connections(1)
            wait_for('the consumer is gone', lambda: '320' in consumer.said())
            go_on()
            stream.ends(bridge, 0, '300 events confirmed')
            stream.ends(stream.bridge('--end'), 0, '')
            stream.reports(consumer, 0, reason='end')
            stream.has_all(1, consumer.book)
            stream.takes_all(2)

    def row_events_too_early(self):
        """An event that comes too early is a gap, though what is missing comes later. Once the queue is emptied, and sent again, the book is
        whole."""
        with contextlib.closing(self.stream('early', script_of(20))) as stream:
            with self.channel() as channel:
                channel.queue_declare('early.1', durable=True, arguments=QUORUM)
            self.publish('early.1', *(stream.event(1, it) for it in (1, 2, 4, 5, 3, 4, 5)))
            for again in range(2):
                stream.reports(stream.consumer(1, log=f'early-{again}'), 3, reason='gap', tag='1' if again else '3', seen='2001')
            same('left', 5, self.purge('early.1'))
            stream.ends(stream.bridge('--queue', 1, '--start-after', 2001, '--end'), 0, '18 events confirmed')
            stream.takes_all(1)

    def row_queue_deleted_and_declared_again(self):
        """What a deleted queue held is a gap, and is sent again."""
        with self.held('deleted') as (stream, bridge, go_on):
            with self.channel() as channel:
                channel.queue_delete('deleted.1')
                channel.queue_declare('deleted.1', durable=True, arguments=QUORUM)
            go_on()
            stream.ends(bridge, 0, '300 events confirmed')
            same('the last event before the gap', 0, self.is_sent_again(stream, 1))
            stream.ends(stream.bridge('--end'), 0, '')
            stream.takes_all(2)

    def row_queue_deleted(self):
        """Messages for a queue that is gone come back; it is declared again only to send it whole."""
        with self.held('gone', '--tries', 2) as (stream, bridge, go_on):
            with self.channel() as channel:
                channel.queue_delete('gone.1')
            go_on()
            stream.ends(bridge, 1, 'failed after 2 tries: queue gone.1 takes no message: 312 NO_ROUTE; confirmed up to 2149')
            stream.ends(stream.bridge(log='next'), 1, 'queue gone.1 is gone, with what it held: `--queue 1` sends all of it again')
            stream.ends(stream.bridge('--queue', 1, '--end', log='whole'), 0, '300 events confirmed, 0 skipped')
            stream.ends(stream.bridge('--end', log='rest'), 0, '150 events confirmed, 150 skipped')
            for place in stream.places:
                stream.takes_all(place)

    def row_limit_that_drops_the_head(self):
        """What a limit dropped is a gap, and is sent again."""
        with self.held('limit') as (stream, bridge, go_on):
            with self.policy(stream, DROPS):
                go_on()
                stream.ends(bridge, 0, '300 events confirmed')
            same('the last event before the gap', 0, self.is_sent_again(stream, 1))
            stream.ends(stream.bridge('--end'), 0, '')
            stream.takes_all(2)

    def row_limit_that_refuses(self):
        """A refused message isn't confirmed, and the bridge ends; without the limit it goes on."""
        with self.held('refusing', '--tries', 2) as (stream, bridge, go_on):
            with self.policy(stream, REFUSES):
                go_on()
                stream.ends(bridge, 1, 'failed after 2 tries: the broker refuses a message')
            stream.ends(stream.bridge('--end'), 0, ' events confirmed')
            for place in stream.places:
                stream.takes_all(place)

    def row_mirror_promoted(self):
        """What a promoted mirror of a classic queue never had is a gap, and is sent again."""
        home = self.cluster.nodes[2]
        with self.held('mirror', '--classic', *self.urls(home)) as (stream, bridge, go_on):
            with self.policy(stream, MIRRORS, '.*'):
                wait_for('the queue has mirrors', lambda: home.evaluate(MIRRORED.format(queue='mirror.1')) == '2')
                home.kill()
                go_on()
                stream.ends(bridge, 0, '300 events confirmed')
                home.start()
                home.wait()
                for place in stream.places:
                    same('the last event before the gap', 0, self.is_sent_again(stream, place))

    def row_leader_killed_at_window_64(self):
        """What a lost session may have left too early in the queue is applied in order."""
        with contextlib.closing(self.stream('leader', script_of(2000))) as stream:
            bridge = stream.bridge('--window', 64, '--every', 10, '--end')
            wait_for('300 events are confirmed', lambda: stream.confirmed() >= 300)
            leader = self.cluster.leader_of('leader.1')
            leader.kill()
            stream.ends(bridge, 0, '2000 events confirmed')
            for place in stream.places:
                stream.takes_all(place)
            leader.start()
            leader.wait()

    def row_no_majority(self):
        """Without two of three nodes no confirm comes, and the bridge ends; with them it goes on."""
        first, *others = self.cluster.nodes
        with self.held('majority', '--tries', 2, '--confirm-timeout', 1, '--url', first.url) as (stream, bridge, go_on):
            for node in others:
                node.send(signal.SIGSTOP)
            go_on()
            stream.ends(bridge, 1, r'a confirm did not come within 1 s[\s\S]*failed after 2 tries: .*; confirmed up to 2149; .* is for queue majority.1')
            # A consumer that starts meanwhile waits for the majority.
            early = stream.consumer(1)
            for node in others:
                node.send(signal.SIGCONT)
            stream.ends(stream.bridge('--end'), 0, ' events confirmed, 150 skipped')
            stream.reports(early, 0, reason='end')
            for place in stream.places:
                stream.takes_all(place)

    def row_blocked(self):
        """A broker without memory blocks publishers, and the bridge ends; with memory it goes on."""
        node = self.cluster.nodes[0]
        with self.held('blocked', '--tries', 2) as (stream, bridge, go_on):
            node.evaluate(WATERMARK.format(bytes=1000))
            try:
                go_on()
                stream.ends(bridge, 1, r'the broker blocks publishers: low on memory[\s\S]*failed after 2 tries: .*; confirmed up to 2149')
            finally:
                node.evaluate(WATERMARK.format(bytes=2_000_000_000))
            # The broker reads again, and finds that the last connection has ended.
            stream.ends(stream.bridge('--end', '--standby'), 0, ' events confirmed, 150 skipped')
            for place in stream.places:
                stream.takes_all(place)

    def row_exchange(self):
        """Others get every event, after the one before it in the whole stream, whatever the queues take."""
        with contextlib.closing(self.stream('others', script_of(20, ('all event_type=two_phase_pending',)))) as stream, self.channel() as channel:
            stream.ends(stream.bridge('--exchange', 'others.all', log='none'), 1, "the broker refuses exchange others.all: 404 NOT_FOUND")
            channel.exchange_declare('others.all', exchange_type='topic')
            queue = channel.queue_declare('', exclusive=True).method.queue
            channel.queue_bind(queue, 'others.all', 'money.*')
            stream.ends(stream.bridge('--exchange', 'others.all', '--routing-key', 'money.moved'), 0, '20 events confirmed')
            found = []
            for _ in stream.timestamps:
                _, properties, body = channel.basic_get(queue, auto_ack=True)
                found.append((properties.headers['previous'], json.loads(body)['timestamp']))
            same('predecessor and timestamp', [(str(it - 1 if it > 2000 else 0), str(it)) for it in range(2000, 2020)], found)
            channel.exchange_delete('others.all')

    def row_progress(self):
        """The progress is of one script, one name and one cluster; a start is for a bridge without progress."""
        with self.held('progress') as (stream, bridge, _):
            bridge.kill(whole=True)
            stream.ends(stream.bridge('--start-after', 0), 1, 'queue progress.progress has 2149 already: leave out --start-after')
            whole = stream.script.read_text()
            stream.script.write_text(whole + 'accounts 5000\n')
            stream.ends(stream.bridge(log='other'), 1, 'queue progress.progress has the progress of another script: ')
            stream.script.write_text(whole)
            saved = stream.room / 'saved'
            stream.ends(stream.bridge('--resume', saved, '--start-after', 2199), 0, '100 events confirmed, 200 skipped up to 2199')
            stream.ends(stream.bridge('--resume', saved), 0, ' 0 events confirmed, 300 skipped up to 2299')
            saved.write_text(saved.read_text().replace('relayplum-cluster', 'another-cluster'))
            stream.ends(stream.bridge('--resume', saved), 1, 'saved has the progress of another cluster: another-cluster')
            stream.ends(stream.bridge('--end'), 0, '150 events confirmed, 150 skipped up to 2149')
            # What the bridge with a file sent comes too early.
            same('the last event before the gap', 2149, self.is_sent_again(stream, 1))
            same('the last event before the gap', 2148, self.is_sent_again(stream, 2))

    def row_refused(self):
        """A login, a virtual host and a name that the broker refuses."""
        with contextlib.closing(self.stream('refused')) as stream:
            url = self.cluster.nodes[0].url
            stream.ends(stream.bridge('--url', url.replace('guest@', 'wrong@'), log='login'), 1, 'the broker refuses guest to / at .*ACCESS_REFUSED')
            stream.ends(stream.bridge('--url', url.replace('%2F', 'elsewhere'), log='host'), 1, 'the broker refuses guest to elsewhere at .*NOT_ALLOWED')
            stream.ends(stream.bridge('--name', 'amq.match'), 1, '^bridge: the broker refuses queue amq.match.lock: 403 ')
            stream.reports(stream.consumer(1, log='user', user='nobody'), 2, reason='closed', code='403')
            stream.reports(stream.consumer(1, '--vhost', 'elsewhere', log='vhost'), 2, reason='closed', code='530')
            stream.reports(stream.consumer(1, log='queue'), 2, reason='channel_closed', code='404')

    def row_no_event(self):
        """Whatever a message has, the consumer names it and ends with status 2, and the message stays in the queue; what came before it is in
        the book, and once it is gone the consumer goes on."""
        with contextlib.closing(self.stream('odd', script_of(20))) as stream:
            stream.ends(stream.bridge(log='first'), 0, '20 events confirmed')
            for at, (name, body, properties) in enumerate(odd_messages(stream)):
                self.publish('odd.1', (body, properties), stream.event(1, 20))
                stream.reports(stream.consumer(1, log=f'odd-{at}'), 2, reason=name, tag='1' if at else '21', seen='2019')
                same('the book', stream.books[1].replace('ended yes', 'ended no'), stream.shown(stream.book(1)))
                same('left', 2, self.purge('odd.1'))
            stream.ends(stream.bridge('--end', log='end'), 0, '')
            stream.takes_all(1)

    def row_headers_of_strangers(self):
        """A header that other clients can't read doesn't matter, unless it is the one that names the predecessor."""
        with contextlib.closing(self.stream('headers', script_of(20))) as stream:
            stream.ends(stream.bridge(log='first'), 0, '20 events confirmed')
            stream.reports(stream.consumer(1, '--limit', '20'), 0, reason='limit', seen='2019')
            body, properties = stream.event(1, 20)
            with mock.patch('pika.data.encode_value', lambda pieces, _: (pieces.append(NO_TIME), len(NO_TIME))[1]):
                self.publish('headers.1', (body, properties))
            for again in range(2):
                stream.reports(stream.consumer(1, '--prefetch', 64, log=f'consume-{again}'), 2, reason='wrong_type', tag='1', seen='2019')
            same('left', 1, self.purge('headers.1'))
            encoded = pika.data.encode_value
            with mock.patch('pika.data.encode_value', lambda pieces, it: encoded(pieces, it) if it else (pieces.append(NO_TIME), len(NO_TIME))[1]):
                self.publish('headers.1', (body, pika.BasicProperties(headers={**properties.headers, 'x': ''})))
            stream.ends(stream.bridge('--end', log='end'), 0, '')
            consumer = stream.consumer(1, log='last')
            stream.reports(consumer, 0, reason='end', duplicates='1')
            stream.has_all(1, consumer.book)

    def row_messages_that_are_parked(self):
        """With --park what is no event goes to the queue's dead-letter exchange, and the book is whole."""
        with contextlib.closing(self.stream('parked', script_of(20))) as stream, self.channel() as channel:
            channel.queue_declare('parked.dead')
            channel.queue_declare('parked.1', durable=True, arguments={**QUORUM, 'x-dead-letter-exchange': '', 'x-dead-letter-routing-key': 'parked.dead'})
            odd = [(body, properties) for _, body, properties in odd_messages(stream)]
            events = [stream.event(1, it) for it in range(1, 21)]
            self.publish('parked.1', *odd[:20], *events[:10], *odd[20:], *events[10:], end_mark('2019'))
            consumer = stream.consumer(1, '--park')
            stream.reports(consumer, 0, reason='end', parked=str(len(odd)), applied='20')
            stream.has_all(1, consumer.book)
            wait_for('all are in the other queue', lambda: self.ready_in('parked.dead') == len(odd))
            same('left', 0, self.purge('parked.1'))
            channel.queue_delete('parked.dead')

    def row_events_after_the_end(self):
        """After the end nothing is taken: what comes after it stays in the queue."""
        with contextlib.closing(self.stream('after', script_of(20))) as stream:
            stream.ends(stream.bridge('--end'), 0, '20 events confirmed')
            before = dict(stream.books)
            stream.script.write_text('\n'.join(script_of(40)) + '\n')
            stream.ends(stream.bridge('--queue', 1, '--start-after', 2019, '--end'), 0, '20 events confirmed')
            for again in range(2):
                consumer = stream.consumer(1, log=f'consume-{again}')
                stream.reports(consumer, 0, reason='end', seen='2019')
                same('the book', before[1], stream.shown(consumer.book))
            same('left', 21, self.purge('after.1'))

    def row_other_end_marks(self):
        """An end mark that doesn't name the last event isn't the end, and stays in the queue, even if the end comes after it."""
        with contextlib.closing(self.stream('marks', script_of(40))) as stream:
            stream.ends(stream.bridge(log='first'), 0, '40 events confirmed')
            for last, tag in ((2009, 41), (2050, 1)):
                self.publish('marks.1', end_mark(str(last)))
                stream.reports(stream.consumer(1, log=f'consume-{last}'), 3, reason='gap', tag=str(tag), seen='2039')
                same('left', 1, self.purge('marks.1'))
            self.publish('marks.1', end_mark('2009'))
            stream.ends(stream.bridge('--end', log='end'), 0, '')
            stream.reports(stream.consumer(1), 3, reason='gap', tag='1', seen='2039')
            same('the book', stream.books[1].replace('ended yes', 'ended no'), stream.shown(stream.book(1)))
            same('left', 2, self.purge('marks.1'))

    def row_duplicates(self):
        """Duplicates, more than may be delivered at a time, are acknowledged; what comes after the end isn't taken."""
        with contextlib.closing(self.stream('duplicates', script_of(40))) as stream:
            stream.ends(stream.bridge(log='first'), 0, '40 events confirmed')
            for _ in range(2):
                stream.ends(stream.bridge('--queue', 1, log='bridge'), 0, '40 events confirmed')
            stream.ends(stream.bridge('--queue', 1, '--end', log='bridge'), 0, '40 events confirmed')
            consumer = stream.consumer(1, '--prefetch', 16)
            stream.reports(consumer, 0, reason='end', applied='40', duplicates='120')
            stream.has_all(1, consumer.book)
            same('left', 0, self.purge('duplicates.1'))

    def row_book_in_sqlite(self):
        """A consumer whose book is in SQLite goes on with it, and after the end has nothing to wait for."""
        with self.held('sqlite') as (stream, bridge, go_on):
            book = f'sqlite:{stream.book(1)}'
            stream.reports(stream.consumer(1, '--limit', HELD_AFTER, book=book), 0, reason='limit', applied=str(HELD_AFTER))
            go_on()
            stream.ends(bridge, 0, '300 events confirmed')
            stream.ends(stream.bridge('--end'), 0, '')
            for again in range(2):
                stream.takes_all(1, book=book, log=f'consume-{again}')

    def run(self, name):
        """Runs a row; whether it failed."""
        began = time.monotonic()
        try:
            self.cluster.heal()
            getattr(self, name)()
        except (Failed, console.Stop) as why:
            print(f'failed: {name}: {why}', flush=True)
            return True
        print(f'{name.removeprefix("row_").replace("_", " ")}: {time.monotonic() - began:.1f} s', flush=True)
        return False


def rows(cluster, program, word=''):
    """Runs the rows with this word in their names; how many failed."""
    names = [it for it in vars(Rows) if it.startswith('row_') and word in it]
    with tempfile.TemporaryDirectory() as room:
        failed = sum(Rows(cluster, program, pathlib.Path(room)).run(it) for it in names)
    print(f'rows: {len(names)} rows, {failed} failed', flush=True)
    return failed


def main():
    parser = argparse.ArgumentParser(description=__doc__, formatter_class=argparse.RawDescriptionHelpFormatter)
    parser.add_argument('word', metavar='WORD', nargs='?', default='')
    parser.add_argument('--program', default=str(PROGRAM))
    arguments = parser.parse_args()
    with Cluster() as cluster:
        return 1 if rows(cluster, arguments.program, arguments.word) else 0


if __name__ == '__main__':
    console.run(main)
