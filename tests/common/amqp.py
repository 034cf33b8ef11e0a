"""AMQP 0-9-1 for the checks of consuming: frames, the messages of a server by hand, and a client that publishes. Python 3.8."""
import contextlib
import socket
import struct

HEADER = b"AMQP\x00\x00\x09\x01"
METHOD, CONTENT_HEADER, BODY, HEARTBEAT = 1, 2, 3, 8
END_OCTET = b"\xce"
# The size of a frame that a server offers, and the greatest that a consumer takes.
FRAME_MAX = 131072
# Class and method of each method that is named here.
START, START_OK, TUNE, TUNE_OK, OPEN, OPEN_OK = (10, 10), (10, 11), (10, 30), (10, 31), (10, 40), (10, 41)
CLOSE, CLOSE_OK, BLOCKED, UNBLOCKED = (10, 50), (10, 51), (10, 60), (10, 61)
CHANNEL_OPEN, CHANNEL_OPEN_OK, CHANNEL_CLOSE, CHANNEL_CLOSE_OK = (20, 10), (20, 11), (20, 40), (20, 41)
DECLARE, DECLARE_OK, DELETE, DELETE_OK = (50, 10), (50, 11), (50, 40), (50, 41)
QOS, QOS_OK, CONSUME, CONSUME_OK, CANCEL, CANCEL_OK = (60, 10), (60, 11), (60, 20), (60, 21), (60, 30), (60, 31)
PUBLISH, DELIVER, ACK, REJECT = (60, 40), (60, 60), (60, 80), (60, 90)
CONFIRM_SELECT, CONFIRM_SELECT_OK = (85, 10), (85, 11)
# What a server sends to a consumer before it delivers.
SETUP = (START, TUNE, OPEN_OK, CHANNEL_OPEN_OK, QOS_OK, DECLARE_OK, CONSUME_OK)


def frame(kind, channel, payload):
    return struct.pack(">BHI", kind, channel, len(payload)) + payload + END_OCTET


def frames_of(text):
    """The frames of bytes: kind, channel and payload of each, and the bytes that are left."""
    found, at = [], 0
    while len(text) >= at + 8:
        kind, channel, size = struct.unpack(">BHI", text[at:at + 7])
        if len(text) < at + size + 8:
            break
        if text[at + 7 + size:at + 8 + size] != END_OCTET:
            raise ValueError(f"no end octet at {at + 7 + size}")
        found.append((kind, channel, text[at + 7:at + 7 + size]))
        at += size + 8
    return found, text[at:]


def method_of(it):
    """The class and the method of a frame; None if it is no method."""
    return struct.unpack(">HH", it[2][:4]) if it[0] == METHOD else None


def short(text):
    text = text.encode() if isinstance(text, str) else text
    return bytes([len(text)]) + text


def long(text):
    text = text.encode() if isinstance(text, str) else text
    return struct.pack(">I", len(text)) + text


def table(fields):
    """A table of texts, and of numbers of 64 bits."""
    def value(it):
        return b"S" + long(it) if isinstance(it, (str, bytes)) else b"l" + struct.pack(">q", it)
    return long(b"".join(short(name) + value(it) for name, it in fields.items()))


def method(channel, which, arguments=b""):
    return frame(METHOD, channel, struct.pack(">HH", *which) + arguments)


def content(body, headers=None, kind=None, most=FRAME_MAX - 8):
    """The frames of a content: its header with the properties `headers` and `type`, and its body in frames of at most this size."""
    flags = (0x2000 if headers is not None else 0) | (0x0020 if kind is not None else 0)
    properties = (table(headers) if headers is not None else b"") + (short(kind) if kind is not None else b"")
    out = frame(CONTENT_HEADER, 1, struct.pack(">HHQH", 60, 0, len(body), flags) + properties)
    for at in range(0, len(body), most):
        out += frame(BODY, 1, body[at:at + most])
    return out


def deliver(tag, body, headers=None, kind=None, redelivered=False, **how):
    """A delivery of this tag."""
    arguments = short("relayplum") + struct.pack(">Q?", tag, redelivered) + short("") + short("q")
    return method(1, DELIVER, arguments) + content(body, headers, kind, **how)


def closing(which, code, text):
    """The server closes the connection or the channel."""
    return method(0 if which == CLOSE else 1, which, struct.pack(">H", code) + short(text) + struct.pack(">HH", 0, 0))


class Client:
    """A client with one channel, which publishes and waits for each confirm."""

    def __init__(self, host, port):
        self.socket, self.rest = socket.create_connection((host, port), timeout=30), b""
        self.socket.sendall(HEADER)
        self.wait(START)
        self.socket.sendall(method(0, START_OK, table({}) + short("PLAIN") + long("\0guest\0guest") + short("en_US")))
        self.wait(TUNE)
        self.socket.sendall(method(0, TUNE_OK, struct.pack(">HIH", 1, 131072, 0)) + method(0, OPEN, short("/") + b"\0\0"))
        self.wait(OPEN_OK)
        self.ask(CHANNEL_OPEN, b"\0", CHANNEL_OPEN_OK)
        self.ask(CONFIRM_SELECT, b"\0", CONFIRM_SELECT_OK)

    def wait(self, which):
        """Waits for a method, and returns its arguments; others are ignored."""
        while True:
            found, self.rest = frames_of(self.rest)
            for place, it in enumerate(found):
                if method_of(it) == which:
                    self.rest = b"".join(frame(*other) for other in found[place + 1:]) + self.rest
                    return it[2][4:]
                if method_of(it) in (CLOSE, CHANNEL_CLOSE):
                    raise ConnectionError(it[2][4:])
            more = self.socket.recv(65536)
            if not more:
                raise ConnectionError("the server has closed the connection")
            self.rest += more

    def ask(self, which, arguments, answer):
        self.socket.sendall(method(1, which, arguments))
        return self.wait(answer)

    def declare(self, queue, passive=False, dead_letters=None, kind=None):
        """Declares a durable queue, and returns how many messages are ready in it. `dead_letters`: the queue of those that are rejected;
        `kind`: that of the queue, such as quorum."""
        bits = 1 if passive else 2
        found = {} if dead_letters is None else {"x-dead-letter-exchange": "", "x-dead-letter-routing-key": dead_letters}
        found.update({} if kind is None else {"x-queue-type": kind})
        answer = self.ask(DECLARE, b"\0\0" + short(queue) + bytes([bits]) + table(found), DECLARE_OK)
        return struct.unpack(">I", answer[1 + answer[0]:5 + answer[0]])[0]

    def delete(self, queue):
        self.ask(DELETE, b"\0\0" + short(queue) + b"\0", DELETE_OK)

    def publish(self, queue, body, headers=None, kind=None):
        """Publishes a message to a queue, and waits until the server has it."""
        self.socket.sendall(method(1, PUBLISH, b"\0\0" + short("") + short(queue) + b"\0") + content(body, headers, kind))
        self.wait(ACK)

    def close(self):
        with contextlib.suppress(OSError):
            self.socket.close()
