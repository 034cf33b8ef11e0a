"""One connection to the broker, in steps that wait for their answer, each with a deadline.

A session ends with its first failure: a message that is returned or refused, a confirm or an answer that doesn't come, a
channel or a connection that is closed or blocked. It is never used again after that.
"""
import collections
import contextlib
import itertools
import time

import client
from client import pika
from pika import spec
from pika.exceptions import AMQPError, ChannelClosedByBroker

NOT_FOUND, RESOURCE_LOCKED = 404, 405
CLOSE_SECONDS = 2


class Lost(Exception):
    """Why a session has ended. Another session may do better."""


class Refused(Exception):
    """What the broker answered to a request that it refuses: the code and the text."""

    def __init__(self, what, closed):
        super().__init__(f'{what}: {closed.reply_code} {closed.reply_text}')
        self.code, self.text = closed.reply_code, closed.reply_text


class Session:
    """A connection with one channel for publishing, which confirms each message."""

    def __init__(self, parameters, seconds):
        self.seconds = seconds
        self.failure, self.is_closing = None, False
        # The deadline of each confirm that hasn't come, in the order of the tags.
        self.unconfirmed = collections.OrderedDict()
        self.next_tag = 1
        try:
            self.connection = pika.SelectConnection(
                parameters,
                on_open_callback=self.on_open,
                on_open_error_callback=lambda _, error: self.fail(client.refusal(parameters, error) or Lost(client.shown(error))),
                on_close_callback=lambda _, error: self.fail(Lost(client.shown(error))),
            )
            self.loop = self.connection.ioloop
            self.wait('a connection', lambda: self.connection.is_open)
        except OSError as error:
            raise Lost(client.shown(error)) from error
        except client.UNUSABLE as error:
            raise client.unusable(error) from None
        self.channel = self.open_channel()
        self.channel.add_on_close_callback(lambda _, error: self.fail(Lost(client.shown(error))))
        self.channel.add_on_return_callback(self.on_return)
        self.ask('confirms', self.channel.confirm_delivery, self.on_confirm)

    @property
    def cluster(self):
        """The name of the broker's cluster."""
        return client.text_of(self.connection.server_properties.get('cluster_name', ''))

    @property
    def first_unconfirmed(self):
        """The tag up to which, without it, all messages are confirmed."""
        return next(iter(self.unconfirmed), self.next_tag)

    def fail(self, why):
        """Notes the first failure; what ends while the session is closed is none."""
        if not self.is_closing:
            self.failure = self.failure or why
        self.loop.stop()

    def on_open(self, connection):
        connection.add_on_connection_blocked_callback(
            lambda _, blocked: self.fail(Lost(f'the broker blocks publishers: {blocked.method.reason}')))
        self.loop.stop()

    def on_return(self, _channel, returned, _properties, _body):
        to = f'queue {returned.routing_key}' if returned.exchange == '' else f'exchange {returned.exchange}'
        self.fail(Lost(f'{to} takes no message: {returned.reply_code} {returned.reply_text}'))

    def on_confirm(self, frame):
        """Notes a confirm. After a failure it counts for nothing: a message that is returned is confirmed too."""
        confirm = frame.method
        if self.failure is not None:
            return
        if isinstance(confirm, spec.Basic.Nack):
            self.fail(Lost('the broker refuses a message (basic.nack)'))
        elif confirm.multiple:
            for tag in list(itertools.takewhile(lambda it: it <= confirm.delivery_tag, self.unconfirmed)):
                del self.unconfirmed[tag]
        else:
            self.unconfirmed.pop(confirm.delivery_tag, None)
        self.loop.stop()

    def wait(self, what, is_so, deadline=None):
        """Serves the connection until something is so."""
        deadline = time.monotonic() + self.seconds if deadline is None else deadline
        while self.failure is None and not is_so():
            left = deadline - time.monotonic()
            if left <= 0:
                raise Lost(f'{what} did not come within {self.seconds:g} s')
            timer = self.loop.call_later(left, self.loop.stop)
            self.loop.start()
            self.loop.remove_timeout(timer)
        if self.failure is not None:
            raise self.failure

    def ask(self, what, method, *arguments, **keywords):
        """Calls a method that is answered; the answer."""
        answers = []

        def take(*answer):
            answers.append(answer)
            self.loop.stop()

        method(*arguments, callback=take, **keywords)
        self.wait(what, lambda: answers)
        return answers[0]

    def open_channel(self):
        opened = []
        channel = self.connection.channel(on_open_callback=lambda it: (opened.append(it), self.loop.stop()))
        self.wait('a channel', lambda: opened)
        return channel

    def request(self, what, method, *arguments, **keywords):
        """Asks the broker for something that it may refuse, on a channel for this alone: a refusal closes the channel.
        The method is the name of one of the channel's."""
        channel, closed, answers = self.open_channel(), [], []
        channel.add_on_close_callback(lambda _, error: (closed.append(error), self.loop.stop()))
        getattr(channel, method)(*arguments, callback=lambda it: (answers.append(it), self.loop.stop()), **keywords)
        self.wait(f'an answer about {what}', lambda: answers or closed)
        if answers:
            channel.close()
            return
        if isinstance(closed[0], ChannelClosedByBroker):
            raise Refused(what, closed[0])
        raise Lost(client.shown(closed[0]))

    def messages_of(self, queue):
        """The bodies of what a queue holds, which stays there."""
        channel, found = self.open_channel(), []
        while True:
            answers = []
            # pika calls nothing of its own accord if the queue is empty.
            channel.add_callback(lambda it: (answers.append(None), self.loop.stop()), [spec.Basic.GetEmpty])
            channel.basic_get(queue, callback=lambda *it: (answers.append(it[3]), self.loop.stop()))
            self.wait(f'an answer about {queue}', lambda: answers)
            if answers[0] is None:
                channel.close()
                return found
            found.append(answers[0])

    def publish(self, message):
        """Sends a message, whose confirm is awaited later. One that comes to no queue is returned, unless it goes to an
        exchange: that others listen there isn't this bridge's concern."""
        if self.failure is not None:
            raise self.failure
        try:
            self.channel.basic_publish(message.exchange, message.routing_key, message.body, message.properties, mandatory=not message.exchange)
        except AMQPError as error:
            raise Lost(client.shown(error)) from error
        self.unconfirmed[self.next_tag] = time.monotonic() + self.seconds
        self.next_tag += 1

    def wait_for_confirm(self):
        """Waits until the first message without a confirm is confirmed."""
        first = self.first_unconfirmed
        self.wait('a confirm', lambda: self.first_unconfirmed > first, self.unconfirmed[first])

    def close(self):
        """Ends the connection, so that the broker frees the lock: in good order, if the broker answers soon."""
        self.failure, self.is_closing = None, True
        with contextlib.suppress(AMQPError, Lost):
            if self.connection.is_open:
                self.connection.close()
                self.wait('the end of the connection', lambda: self.connection.is_closed, time.monotonic() + CLOSE_SECONDS)
        # pika has no public way to drop a connection whose broker doesn't answer.
        transport = getattr(self.connection, '_transport', None)
        if transport is not None and not self.connection.is_closed:
            transport.abort()
        self.loop.close()
