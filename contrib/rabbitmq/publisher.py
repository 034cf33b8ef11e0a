"""Publishes messages until each is confirmed, with a window, over as many sessions as it takes."""
import collections
import time
from dataclasses import dataclass

import client
from console import Stop, say
from pika.exceptions import AMQPError
from session import Lost


@dataclass(frozen=True)
class Outgoing:
    """A message to publish. Once it and all before it are confirmed, all events up to `completes` are, unless it's None."""
    exchange: str
    routing_key: str
    properties: object
    body: bytes
    completes: int | None = None

    def __str__(self):
        return f'exchange {self.exchange}' if self.exchange else f'queue {self.routing_key}'


class Publisher:
    """Sends messages in order. After a failure everything from the first message without a confirm is sent again, on a
    new session: what the old one confirmed behind that message may stand before it in a queue, and then doesn't count."""

    def __init__(self, connect, window, tries, timestamp=0):
        self.connect, self.window, self.tries = connect, window, tries
        self.timestamp = timestamp
        self.session = None
        # What isn't confirmed, in order: first what is published on this session, the first of it with this tag.
        self.kept = collections.deque()
        self.published, self.first_tag = 0, 1
        self.events, self.failures, self.lost = 0, 0, 0

    def open(self):
        """Connects, if there is no session."""
        self.until_done(lambda: None)

    def send(self, outgoing):
        """Publishes a message, and waits until the window has room for another."""
        self.kept.append(outgoing)
        self.until_done(lambda: self.publish_kept(self.window - 1))

    def finish(self):
        """Waits until everything is confirmed."""
        self.until_done(lambda: self.publish_kept(0))

    def until_done(self, act):
        """Does something on a session, and does it again on a new one after each failure."""
        while True:
            try:
                if self.session is None:
                    self.session = self.connect()
                    self.published, self.first_tag = 0, self.session.next_tag
                return act()
            except Lost as why:
                self.fail(why)
            except AMQPError as error:
                self.fail(Lost(client.shown(error)))

    def publish_kept(self, most):
        """Publishes what is kept, and waits until at most so many messages have no confirm."""
        while True:
            while self.published < len(self.kept):
                self.session.publish(self.kept[self.published])
                self.published += 1
            self.drop_confirmed()
            if len(self.kept) <= most:
                return
            self.session.wait_for_confirm()

    def drop_confirmed(self):
        """Forgets what is confirmed, up to the first message that isn't."""
        while self.first_tag < self.session.first_unconfirmed:
            outgoing = self.kept.popleft()
            self.published, self.first_tag, self.failures = self.published - 1, self.first_tag + 1, 0
            if outgoing.completes is not None:
                self.timestamp, self.events = outgoing.completes, self.events + 1

    def fail(self, why):
        """Ends a session, and waits a little; after too many failures in a row it stops."""
        if self.session is not None:
            self.session.close()
            self.session = None
        self.failures, self.lost = self.failures + 1, self.lost + 1
        if self.failures >= self.tries:
            first = f'; the first message without a confirm is for {self.kept[0]}' if self.kept else ''
            raise Stop(f'failed after {self.tries} tries: {why}; confirmed up to {self.timestamp}{first}') from why
        wait = client.wait_after(self.failures)
        say(f'{why}; again in {wait:.1f} s, from the first message after {self.timestamp}')
        time.sleep(wait)

    def close(self):
        if self.session is not None:
            self.session.close()
            self.session = None
