"""What a consumer makes of the bytes of a server: a model, written from AMQP 0-9-1 and FORMATS, for the checks of `consume`. Python 3.8.

It takes a chained queue whose messages are known: `known` has an entry (timestamp, previous) for each body that is an event. A body that
is neither known nor surely no event makes the outcome unknown (`Unknown`).
"""
import json

import amqp

MOST = 65536
FINISHED, CLOSED, CHANNEL_CLOSED, CANCELED = "finished", "closed", "channel_closed", "canceled"
# What is awaited while the connection is set up, in order: the method and the channel on which it comes.
SETTING_UP = ((amqp.START, 0), (amqp.TUNE, 0), (amqp.OPEN_OK, 0), (amqp.CHANNEL_OPEN_OK, 1), (amqp.QOS_OK, 1), (amqp.DECLARE_OK, 1),
              (amqp.CONSUME_OK, 1))
# Each method that a server may send to a consumer, with its channel.
CHANNEL_OF = dict(SETTING_UP)
CHANNEL_OF.update({amqp.CLOSE: 0, amqp.CLOSE_OK: 0, amqp.BLOCKED: 0, amqp.UNBLOCKED: 0, amqp.CHANNEL_CLOSE: 1, amqp.CHANNEL_CLOSE_OK: 1,
                   amqp.CANCEL: 1, amqp.CANCEL_OK: 1, amqp.DELIVER: 1})
# The sizes of a value in a table of fields, by the letter of its type; those with a length of 32 bits have -1.
SIZES = {"V": 0, "t": 1, "b": 1, "B": 1, "s": 2, "u": 2, "I": 4, "i": 4, "f": 4, "D": 5, "l": 8, "d": 8, "T": 8, "S": -1, "x": -1, "F": -1,
         "A": -1}


class Unknown(Exception):
    """The model doesn't know what a body is."""


class Fault(Exception):
    """The server broke the protocol."""


class Over(Exception):
    """The connection is over: how, and the server's reply code."""

    def __init__(self, how, code=0):
        super().__init__(how)
        self.how, self.code = how, code


class Bytes:
    """Bytes that are read from the left. `Short`: they end before."""

    class Short(Exception):
        """The bytes end too early."""

    def __init__(self, text):
        self.text, self.at = text, 0

    def take(self, count):
        if self.at + count > len(self.text):
            raise Bytes.Short
        self.at += count
        return self.text[self.at - count:self.at]

    def number(self, size):
        return int.from_bytes(self.take(size), "big")

    def short(self):
        return self.take(self.number(1))

    def is_empty(self):
        return self.at == len(self.text)


def field(text, name):
    """The letter and the value of the first field of this name; None if there is none. A table that is broken before it is a fault."""
    left = Bytes(text)
    while not left.is_empty():
        found, letter = left.short(), chr(left.number(1))
        if letter not in SIZES:
            raise Bytes.Short
        value = left.take(left.number(4) if SIZES[letter] < 0 else SIZES[letter])
        if found == name:
            return letter, value
    return None


def number_of(letter, value):
    """The number of a field; None if it is none."""
    if letter == "S":
        good = value.isdigit() and (value == b"0" or value[:1] != b"0") and int(value) < 2**64
        return int(value) if good else None
    if letter in "Il":
        number = int.from_bytes(value, "big", signed=True)
        return number if number >= 0 else None
    return None


class Consumer:
    """The machine, and the follower behind it."""

    def __init__(self, known, seen=0, parks=False):
        self.known, self.seen, self.parks = known, seen, parks
        self.phase, self.limit = 0, amqp.FRAME_MAX - 8
        self.delivered, self.current, self.closing, self.stop = 0, None, 0, None
        self.ended, self.applied, self.duplicates, self.taken, self.rejected = False, 0, 0, 0, []

    def run(self, text):
        """Takes all frames. How it ended, and the reply code."""
        left = Bytes(text)
        try:
            while True:
                self.begin_to_close()
                self.take_frame(*self.frame(left))
        except Over as over:
            return over.how, over.code
        except Fault:
            return "protocol_fault", 0
        except Bytes.Short:
            return "connection_lost", 0

    def begin_to_close(self):
        """It closes between deliveries, once it has stopped or the stream has ended."""
        if not self.closing and (self.stop or self.ended) and self.phase == len(SETTING_UP) and self.current is None:
            self.closing = 1

    def frame(self, left):
        kind = left.number(1)
        if kind not in (amqp.METHOD, amqp.CONTENT_HEADER, amqp.BODY, amqp.HEARTBEAT):
            raise Fault
        channel, size = left.number(2), left.number(4)
        if size > self.limit:
            raise Fault
        payload = left.take(size)
        if left.number(1) != 0xce:
            raise Fault
        return kind, channel, payload

    def take_frame(self, kind, channel, payload):
        if kind == amqp.METHOD:
            return self.take_method(channel, payload)
        if channel != (0 if kind == amqp.HEARTBEAT else 1):
            raise Fault
        if kind == amqp.HEARTBEAT or self.closing:
            return None
        return self.take_header(payload) if kind == amqp.CONTENT_HEADER else self.take_body(payload)

    def take_method(self, channel, payload):
        try:
            left = Bytes(payload)
            method = (left.number(2), left.number(2))
            arguments = self.arguments(method, left)
        except Bytes.Short:
            raise Fault from None
        if CHANNEL_OF.get(method) != channel:
            raise Fault
        if method in (amqp.BLOCKED, amqp.UNBLOCKED):
            return
        if method == amqp.CLOSE:
            raise Over(CLOSED, arguments[0])
        if method == amqp.CHANNEL_CLOSE:
            raise Over(CHANNEL_CLOSED, arguments[0])
        if method == amqp.CANCEL:
            raise Over(CANCELED)
        if method == amqp.CANCEL_OK and self.closing == 1:
            self.closing = 2
        elif method == amqp.CLOSE_OK and self.closing == 2:
            raise Over(FINISHED)
        elif method == amqp.DELIVER:
            self.take_delivery(*arguments)
        elif not self.closing and self.phase < len(SETTING_UP) and SETTING_UP[self.phase][0] == method:
            self.phase += 1
            if method == amqp.TUNE:
                self.limit = max(0, min(arguments[1] or amqp.FRAME_MAX, amqp.FRAME_MAX) - 8)
        else:
            raise Fault

    @staticmethod
    def arguments(method, left):
        """The arguments that decide something."""
        if method == amqp.TUNE:
            return left.number(2), left.number(4), left.number(2)
        if method in (amqp.CLOSE, amqp.CHANNEL_CLOSE):
            return (left.number(2),)
        if method == amqp.DELIVER:
            left.short()
            return left.number(8), left.number(1)
        return ()

    def take_delivery(self, tag, _redelivered):
        if self.closing:
            return
        if self.phase < len(SETTING_UP) or self.current is not None or tag != self.delivered + 1:
            raise Fault
        self.current = {"tag": tag, "left": None}

    def take_header(self, payload):
        now = self.current
        if now is None or now["left"] is not None:
            raise Fault
        try:
            left = Bytes(payload)
            left.take(4)
            size, flags = left.number(8), left.number(2)
            now["headers"], now["type"] = b"", b""
            for bit in range(15, 4, -1):
                if flags >> bit & 1:
                    self.take_property(bit, left, now)
        except Bytes.Short:
            raise Fault from None
        now["left"], now["body"] = size, b""
        self.complete()

    @staticmethod
    def take_property(bit, left, now):
        if bit == 13:
            now["headers"] = left.take(left.number(4))
        elif bit in (12, 11):
            left.take(1)
        elif bit == 6:
            left.take(8)
        elif bit == 5:
            now["type"] = left.short()
        else:
            left.short()

    def take_body(self, payload):
        now = self.current
        if now is None or now["left"] is None or now["left"] < len(payload):
            raise Fault
        now["left"] -= len(payload)
        now["body"] += payload[:MOST + 1 - min(len(now["body"]), MOST + 1)]
        self.complete()

    def complete(self):
        if self.current["left"] == 0:
            now, self.current = self.current, None
            self.delivered = now["tag"]
            if self.stop is None:
                self.take(now)

    def take(self, now):
        """Takes a delivery into the follower, or parks it, or stops at it."""
        entry = self.entry(now)
        if entry is None:
            if self.parks:
                self.rejected.append(now["tag"])
            else:
                self.stop = (2, now["tag"])
            return
        timestamp, previous = entry
        if timestamp is None and previous == self.seen:
            if self.ended:
                self.duplicates += 1
            self.ended = True
        elif timestamp is not None and timestamp <= self.seen:
            self.duplicates += 1
        elif timestamp is not None and previous == self.seen and not self.ended:
            self.seen, self.applied = timestamp, self.applied + 1
        else:
            self.stop = (3, now["tag"])
            return
        self.taken = now["tag"]

    def entry(self, now):
        """The entry that a delivery carries: its timestamp, None at the end; and its predecessor. None: it carries none."""
        try:
            found = field(now["headers"], b"previous")
        except Bytes.Short:
            return None
        previous = None if found is None else number_of(*found)
        if found is not None and previous is None:
            return None
        if now["type"] == b"end":
            return None if found is None else (None, previous)
        if now["body"] in self.known:
            return None if found is None else (self.known[now["body"]], previous)
        if len(now["body"]) > MOST or not is_object(now["body"]) or found is None and b"previous" not in now["body"]:
            return None
        raise Unknown


def is_object(text):
    """Whether a text may be a JSON object; if not, it is surely no event."""
    try:
        return isinstance(json.loads(text.decode()), dict)
    except (ValueError, RecursionError):
        return False


def outcome(text, known, **how):
    """The status, the reply code, the tag at which it stopped, the events applied, the duplicates, the tags that were rejected, and the
    tag of the last delivery taken."""
    consumer = Consumer(known, **how)
    ended, code = consumer.run(text)
    status, tag = consumer.stop or (0, 0)
    if consumer.stop is None:
        refused = ended in (CLOSED, CHANNEL_CLOSED) and code in (403, 404, 530)
        status = 2 if refused else 0 if ended == FINISHED else 1
    return {"status": status, "code": code, "tag": tag, "applied": consumer.applied, "duplicates": consumer.duplicates,
            "rejected": consumer.rejected, "taken": consumer.taken}
