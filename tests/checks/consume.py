#!/usr/bin/env python3
"""The command consume: servers by hand, the transcripts of a real one, mutated streams of a server, and a real RabbitMQ.

  tests/checks/consume.py [PROGRAM] [--streams N] [--first K]
  PROGRAM: crates/cdc_app/out/cdc_app; N mutated streams, 200 by default; K: these alone, from number K on

By hand: each status and its reason, what is acknowledged in each case, options at their limits, passwords. Transcripts
(tests/data/amqp): what a real server sent, with the frames that this consumer asks for besides, in one piece, byte by byte, and cut
at places. Mutated: bytes of such a stream are changed, left out or doubled, or it is cut; or frames are left out, doubled, swapped or
inserted; or whole deliveries are left out, doubled or swapped. Whatever comes, no tag is acknowledged above the number of deliveries
that the saved book has, and the rest is what a model in Python makes of the stream. If the deliveries are the queue's, the book is a
prefix of it, and a run over the whole queue completes it. Killed: a run ends at each open, read, write, sync and rename, or that or an
allocation is refused, or signal 9 ends it there, also in the middle of a write; what is acknowledged is saved, and a run over the whole
queue completes the book. RabbitMQ: a node of its own, reached through socat; a whole queue, parked messages, a gap, kill -9 and
redelivery, heartbeats, a queue that is deleted, what a server refuses. contrib/rabbitmq/check.sh has a cluster of three nodes.

Killed needs a C compiler, `cc`, and a kernel that lets a process be traced. The part with RabbitMQ needs `socat` and
`rabbitmq-server`. What is missing is named. The last line is `consume: N passed, M failed`; the status is 1 if one failed.
"""
import json
import os
import random
import shlex
import shutil
import signal
import struct
import subprocess
import sys
import tempfile
import time

sys.dont_write_bytecode = True
sys.path += [os.path.join(os.path.dirname(os.path.realpath(__file__)), "..", it) for it in ("common", "checks", "faults")]
import amqp
import commands
import consuming
import ending
import interrupted
import rooms
import stepping
from commands import check
from follow import event, own

DATA = rooms.TOP / "tests/data/amqp"
CLUSTER = rooms.TOP / "contrib/rabbitmq/cluster.py"
SECONDS = 60
STREAMS = 200
PASSWORD = "s\u00e9cret"


# ---------------------------------------------------------------------------------------------------------------------
# The queue by hand: five events, and the end.


def queue_of(count, debit=1, credit=2, start=0):
    """The messages of a chained queue: the body, the headers and the type of each, and the end mark."""
    found, previous = [], 0
    for number in range(1, count + 1):
        body = event(start + 10 * number, debit, credit, balances=((0, 5 * number, 0, 0), (0, 0, 0, 5 * number)))
        found.append((own(body).encode(), {"event_type": "single_phase", "previous": str(previous)}, None))
        previous = start + 10 * number
    return [*found, (b"", {"previous": str(previous)}, "end")]


def book_after(count, debit=1, credit=2):
    """The book of the first events: debits posted of one account, credits posted of the other."""
    return f"account {debit} 0 {5 * count} 0 0\naccount {credit} 0 0 0 {5 * count}\n" if count else ""


QUEUE = queue_of(5)
BOOKS = [book_after(n) for n in range(6)]


def setup():
    """What the server sends until it delivers."""
    return b"".join((
        amqp.method(0, amqp.START, b"\0\x09" + amqp.table({}) + amqp.long("PLAIN") + amqp.long("en_US")),
        amqp.method(0, amqp.TUNE, struct.pack(">HIH", 2047, 131072, 60)),
        amqp.method(0, amqp.OPEN_OK, b"\0"),
        amqp.method(1, amqp.CHANNEL_OPEN_OK, b"\0\0\0\0"),
        amqp.method(1, amqp.QOS_OK),
        amqp.method(1, amqp.DECLARE_OK, amqp.short("q") + struct.pack(">II", 0, 0)),
        amqp.method(1, amqp.CONSUME_OK, amqp.short("relayplum")),
    ))


GOODBYE = amqp.method(1, amqp.CANCEL_OK, amqp.short("relayplum")) + amqp.method(0, amqp.CLOSE_OK)


def delivered(messages, first=1, **how):
    return b"".join(amqp.deliver(first + at, *it, **how) for at, it in enumerate(messages))


# ---------------------------------------------------------------------------------------------------------------------
# Runs.


class Done:
    """How a run ended: its status, what it sent and reported."""

    def __init__(self, status, sent, errors, report):
        self.status, self.sent, self.errors, self.report = status, sent, errors, report

    def frames(self):
        """The frames that it has sent after the protocol header."""
        found, rest = amqp.frames_of(self.sent[8:])
        return found if self.sent[:8] == amqp.HEADER and not rest else None

    def methods(self, without=(amqp.ACK,)):
        return [amqp.method_of(it) for it in self.frames() or () if amqp.method_of(it) not in without]

    def acknowledged(self):
        """The tags of the acknowledgements, each of which has to be of several deliveries."""
        acks = [it[2] for it in self.frames() or () if amqp.method_of(it) == amqp.ACK]
        return [struct.unpack(">Q", it[4:12])[0] if it[12:] == b"\1" else None for it in acks]

    def rejected(self):
        """The tags of the deliveries that are rejected, none of which may be queued again."""
        rejections = [it[2] for it in self.frames() or () if amqp.method_of(it) == amqp.REJECT]
        return [struct.unpack(">Q", it[4:12])[0] if it[12:] == b"\0" else None for it in rejections]

    def reported(self, name):
        return dict(it.split(" ", 1) for it in self.report.splitlines()).get(name)

    def number(self, name):
        """A number of the report; -1 if it has none of this name."""
        return int(self.reported(name) or -1)

    def __repr__(self):
        return repr((self.status, self.report, self.errors[-300:], self.methods(())))


def arguments_of(folder, *more):
    return [commands.program, "consume", "--queue", "q", "--book", f"{folder}/book", "--report", f"{folder}/report", *more]


def consume(folder, server, *more, pieces=None, env=None):
    """Consumes what a server sends, from a file, or in these pieces from a pipe."""
    env = dict(os.environ, RELAYPLUM_PASSWORD=PASSWORD) if env is None else env
    arguments = arguments_of(folder, *more)
    if pieces is None:
        with tempfile.TemporaryFile() as file:
            file.write(server)
            file.seek(0)
            done = subprocess.run(arguments, stdin=file, capture_output=True, env=env, timeout=SECONDS)
        status, sent, errors = done.returncode, done.stdout, done.stderr
    else:
        child = subprocess.Popen(arguments, stdin=subprocess.PIPE, stdout=subprocess.PIPE, stderr=subprocess.PIPE, env=env)
        try:
            for piece in pieces:
                child.stdin.write(piece)
                child.stdin.flush()
            sent, errors = child.communicate(timeout=SECONDS)
        except BrokenPipeError:
            sent, errors = child.communicate(timeout=SECONDS)
        status = child.returncode
    report = read(f"{folder}/report")
    return Done(status, sent, errors.decode(errors="replace"), report)


def read(path):
    try:
        with open(path, encoding="utf-8") as it:
            return it.read()
    except FileNotFoundError:
        return ""


def book_of(folder, *more):
    """The accounts of a book, as `follow` prints them."""
    done = subprocess.run([commands.program, "follow", "--book", f"{folder}/book", *more], stdin=subprocess.DEVNULL,
                          capture_output=True, timeout=SECONDS)
    lines = done.stdout.decode().splitlines()
    return "".join(f"{it}\n" for it in lines if it.startswith("account "))


def fresh(room, name):
    folder = os.path.join(room, name)
    os.mkdir(folder)
    return folder


# ---------------------------------------------------------------------------------------------------------------------
# By hand.


def whole(room):
    """A queue up to its end: what is sent, and saved, and reported."""
    folder = fresh(room, "whole")
    done = consume(folder, setup() + delivered(QUEUE) + GOODBYE, "--chained")
    wanted = [amqp.START_OK, amqp.TUNE_OK, amqp.OPEN, amqp.CHANNEL_OPEN, amqp.QOS, amqp.DECLARE, amqp.CONSUME, amqp.CANCEL, amqp.CLOSE]
    check("status of a whole queue", done.status == 0, done)
    check("methods of a whole queue", done.methods() == wanted, done)
    acks = done.acknowledged()
    check("acknowledgements rise to the last tag", acks and acks == sorted(set(acks)) and acks[-1] == 6, acks)
    check("the last acknowledgement precedes the close", done.methods(())[-3:] == [amqp.ACK, amqp.CANCEL, amqp.CLOSE], done)
    check("the report of a whole queue", done.report == "status 0\nreason end\ncode 0\ntext \ntag 0\nredelivered no\n"
          "delivery_count 0\nparked 0\napplied 5\nduplicates 0\npassed 0\ngaps_skipped 0\nseen 50\n", done.report)
    check("the book of a whole queue", book_of(folder, "--chained") == BOOKS[5], book_of(folder, "--chained"))
    frames = done.frames()
    check("the credentials", ("\0guest\0" + PASSWORD).encode() in frames[0][2], frames[0])
    check("the password stays in start-ok", PASSWORD not in done.errors + done.report, done)
    check("tune-ok", frames[1][2][4:] == struct.pack(">HIH", 1, 131072, 30), frames[1])
    check("open", frames[2][2][4:] == amqp.short("/") + b"\0\0", frames[2])
    check("qos", frames[4][2][4:] == struct.pack(">IHB", 0, 1000, 0), frames[4])
    check("the declaration is passive", frames[5][2][4:] == b"\0\0" + amqp.short("q") + b"\1" + amqp.table({}), frames[5])
    again = consume(folder, setup() + GOODBYE, "--chained")
    check("a book that has ended closes at once", again.status == 0 and not again.acknowledged(), again)


def frames(room):
    """Contents in several frames, heartbeats between them, messages without a chain."""
    folder = fresh(room, "small")
    done = consume(folder, setup() + delivered(QUEUE, most=100) + GOODBYE, "--chained")
    check("contents in small frames", done.status == 0 and done.reported("applied") == "5", done)
    folder = fresh(room, "beats")
    beat = amqp.frame(amqp.HEARTBEAT, 0, b"")
    server = setup() + beat + b"".join(amqp.deliver(at, *it) + beat for at, it in enumerate(QUEUE, 1)) + GOODBYE
    done = consume(folder, server, "--chained")
    answered = sum(it[0] == amqp.HEARTBEAT for it in done.frames())
    check("each heartbeat is answered", done.status == 0 and answered == 7, done)
    folder = fresh(room, "plain")
    done = consume(folder, setup() + delivered([(body, None, kind) for body, _, kind in QUEUE]) + GOODBYE)
    check("a queue that is not chained", done.status == 0 and done.reported("applied") == "5", done)
    folder = fresh(room, "member")
    texts = [(b'{"previous":"%d","body":%s}' % (10 * at, body), None, None) for at, (body, _, _) in enumerate(QUEUE[:5])]
    done = consume(folder, setup() + delivered([*texts, QUEUE[5]]) + GOODBYE, "--chained")
    check("predecessors in the contents", done.status == 0 and done.reported("applied") == "5", done)
    folder = fresh(room, "number")
    numbers = [(body, {"previous": int(headers["previous"])}, kind) for body, headers, kind in QUEUE]
    done = consume(folder, setup() + delivered(numbers) + GOODBYE, "--chained")
    check("predecessors as numbers", done.status == 0 and done.reported("applied") == "5", done)
    folder = fresh(room, "binding")
    done = consume(folder, setup() + delivered(QUEUE) + GOODBYE, "--chained", "--binding", "all ledger=7")
    check("a binding that takes none", done.status == 0 and done.reported("passed") == "5", done)


def stops(room):
    """What can't go on: nothing of it is acknowledged, and a later run goes on before it."""
    bad = (b'{"timestamp":', QUEUE[2][1], None)
    later = (QUEUE[4][0].replace(b'"50"', b'"60"'), {"previous": "50"}, None)
    cases = (
        ("gap", 3, "gap", [*QUEUE[:2], *QUEUE[3:]], 3, 2),
        ("bad", 2, "not_json", [*QUEUE[:2], bad, *QUEUE[3:]], 3, 2),
        ("long", 2, "too_long", [*QUEUE[:2], (b" " * 65537, QUEUE[2][1], None)], 3, 2),
        ("blank", 2, "not_json", [*QUEUE[:2], (b"  ", QUEUE[2][1], None)], 3, 2),
        ("previous", 2, "wrong_type", [*QUEUE[:2], (QUEUE[2][0], {"previous": "x"}, None)], 3, 2),
        ("great", 2, "out_of_range", [*QUEUE[:2], (QUEUE[2][0], {"previous": str(2**64)}, None)], 3, 2),
        ("missing", 2, "missing", [*QUEUE[:2], (QUEUE[2][0], {}, None)], 3, 2),
        ("end too early", 3, "gap", [*QUEUE[:2], QUEUE[5]], 3, 2),
    )
    for name, status, reason, messages, tag, applied in cases:
        folder = fresh(room, name)
        done = consume(folder, setup() + delivered(messages) + GOODBYE, "--chained")
        found = done.status, done.reported("reason"), done.reported("tag"), done.reported("applied")
        check(f"{name}: status, reason, tag, applied", found == (status, reason, str(tag), str(applied)), done)
        check(f"{name}: it is not acknowledged", (done.acknowledged() or [0])[-1] == applied, done.acknowledged())
        check(f"{name}: standard error names it", f"q:{tag}: {reason}" in done.errors, done.errors)
        check(f"{name}: the book", book_of(folder, "--chained") == BOOKS[applied], book_of(folder, "--chained"))
        done = consume(folder, setup() + delivered(QUEUE) + GOODBYE, "--chained")
        counts = done.status, done.reported("applied"), done.reported("duplicates"), (done.acknowledged() or [0])[-1]
        check(f"{name}: a redelivery goes on", counts == (0, str(5 - applied), str(applied), 6), done)
    folder = fresh(room, "after the end")
    done = consume(folder, setup() + delivered(QUEUE) + GOODBYE, "--chained")
    done = consume(folder, setup() + delivered([later]) + GOODBYE, "--chained")
    check("after the end nothing is taken", done.status == 0 and not done.acknowledged(), done)


# What is no event: a body, its headers and its type.
BAD = ((b'{"timestamp":', {"previous": "0"}, None), (b"", {"previous": "0"}, None), (b" " * 65537, {"previous": "0"}, None),
       (own(event(2**63)).encode(), {"previous": "0"}, None), (QUEUE[0][0], {"previous": "x"}, None),
       (QUEUE[0][0], {"previous": str(2**64)}, None), (b"[1]", {}, None))


def parks(room):
    """Messages that are no event: with --park each is rejected, and all others are taken; without it the first one is named."""
    random_of = random.Random(5)
    for case in range(40 if commands.is_long else 8):
        places = sorted(random_of.sample(range(7), random_of.randint(1, 6)))
        messages, bad_tags = [], []
        for at in range(7):
            if at in places:
                messages.append(random_of.choice(BAD))
                bad_tags.append(len(messages))
            messages += QUEUE[at:at + 1]
        folder = fresh(room, f"parked {case}")
        every = random_of.choice(("1", "2", "1000"))
        done = consume(folder, setup() + delivered(messages) + GOODBYE, "--chained", "--park", "--every", every)
        end = messages.index(QUEUE[5]) + 1
        wanted = [it for it in bad_tags if it < end]
        check(f"parked {case}: status, applied, parked", (done.status, done.reported("applied"), done.reported("parked"))
              == (0, "5", str(len(wanted))), done)
        check(f"parked {case}: just these are rejected", done.rejected() == wanted, (done.rejected(), wanted))
        acks = done.acknowledged()
        check(f"parked {case}: no acknowledgement names one", acks[-1:] == [end] and not set(acks) & set(bad_tags), acks)
        check(f"parked {case}: the book", book_of(folder, "--chained") == BOOKS[5], book_of(folder, "--chained"))
    folder = fresh(room, "all parked")
    done = consume(folder, setup() + delivered(BAD) + GOODBYE, "--chained", "--park", "--limit", str(len(BAD)))
    check("all are parked", (done.status, done.reported("reason"), done.rejected(), done.acknowledged())
          == (0, "limit", list(range(1, len(BAD) + 1)), []), done)
    folder = fresh(room, "parked of a chained queue")
    done = consume(folder, setup() + delivered([QUEUE[0], BAD[0], *QUEUE[2:]]) + GOODBYE, "--chained", "--park")
    found = done.status, done.reported("reason"), done.reported("tag"), done.rejected(), (done.acknowledged() or [0])[-1]
    check("an event that is parked shows as a gap", found == (3, "gap", "3", [2], 1), done)
    for name, again, headers, said in (
        ("first", False, {}, "delivered for the first time"),
        ("again", True, {}, "redelivered (x-delivery-count 0)"),
        ("third", True, {"x-delivery-count": 2}, "redelivered (x-delivery-count 2)"),
    ):
        folder = fresh(room, f"redelivery {name}")
        bad = amqp.deliver(3, BAD[0][0], {"previous": "20", **headers}, redelivered=again)
        done = consume(folder, setup() + delivered(QUEUE[:2]) + bad + GOODBYE, "--chained")
        found = done.status, done.reported("redelivered"), done.reported("delivery_count"), done.reported("tag")
        wanted = 2, "yes" if again else "no", str(headers.get("x-delivery-count", 0)), "3"
        check(f"redelivery {name}: the report", found == wanted, done)
        check(f"redelivery {name}: standard error", f"q: delivery 3: {said}" in done.errors, done.errors)


def servers(room):
    """How servers end connections, or break the protocol."""
    start = setup()
    lost = start + delivered(QUEUE[:2])
    tag_0, tag_7 = amqp.deliver(0, *QUEUE[2]), amqp.deliver(7, *QUEUE[2])
    other = amqp.frame(amqp.METHOD, 2, struct.pack(">HH", *amqp.DELIVER))
    cases = (
        ("lost", lost, 1, "connection_lost", "0"),
        ("within a frame", (lost + amqp.deliver(3, *QUEUE[2]))[:-30], 1, "connection_lost", "0"),
        ("closed", lost + amqp.closing(amqp.CLOSE, 320, "CONNECTION_FORCED - stop"), 1, "closed", "320"),
        ("channel", lost + amqp.closing(amqp.CHANNEL_CLOSE, 406, "PRECONDITION_FAILED") + amqp.method(0, amqp.CLOSE_OK), 1,
         "channel_closed", "406"),
        ("canceled", lost + amqp.method(1, amqp.CANCEL, amqp.short("relayplum") + b"\1"), 1, "canceled", "0"),
        ("tag 0", lost + tag_0, 1, "protocol_fault", "0"),
        ("tag 7", lost + tag_7, 1, "protocol_fault", "0"),
        ("another channel", lost + other, 1, "protocol_fault", "0"),
        ("no frame", lost + b"HTTP/1.1 400", 1, "protocol_fault", "0"),
    )
    for name, server, status, reason, code in cases:
        folder = fresh(room, name)
        done = consume(folder, server, "--chained")
        text = {"320": "CONNECTION_FORCED - stop", "406": "PRECONDITION_FAILED"}.get(code, "")
        check(f"{name}: the server's text", done.reported("text") == text and text in done.errors, done)
        found = done.status, done.reported("reason"), done.reported("code"), done.reported("applied")
        check(f"{name}: status, reason, code, applied", found == (status, reason, code, "2"), done)
        acks = done.acknowledged() if done.frames() else []
        check(f"{name}: acknowledged at most what is saved", not acks or acks[-1] <= 2, acks)
        done = consume(folder, start + delivered(QUEUE) + GOODBYE, "--chained")
        check(f"{name}: a redelivery goes on", done.status == 0 and book_of(folder, "--chained") == BOOKS[5], done)
    begins = amqp.frames_of(start)[0]
    refusals = (
        ("password", begins[:1], amqp.closing(amqp.CLOSE, 403, "ACCESS_REFUSED"), "closed", "403"),
        ("vhost", begins[:2], amqp.closing(amqp.CLOSE, 530, "NOT_ALLOWED"), "closed", "530"),
        ("queue", begins[:5], amqp.closing(amqp.CHANNEL_CLOSE, 404, "NOT_FOUND"), "channel_closed", "404"),
    )
    for name, first, last, reason, code in refusals:
        folder = fresh(room, f"refused {name}")
        done = consume(folder, b"".join(amqp.frame(*it) for it in first) + last)
        check(f"refused: {name}", (done.status, done.reported("reason"), done.reported("code")) == (2, reason, code), done)
    folder = fresh(room, "another version")
    done = consume(folder, amqp.HEADER)
    check("another version of the protocol", (done.status, done.reported("reason")) == (1, "protocol_fault"), done)


def options(room):
    """The options at their limits, the passwords, the book and the limit."""
    usage = (
        (["--book", "b"], "--queue"), (["--queue", "q"], "--book"), (["--queue", "q" * 256, "--book", "b"], "--queue"),
        (["--queue", "", "--book", "b"], "--queue"), (["--queue", "q", "--book", "b", "--vhost", "v" * 256], "--vhost"),
        (["--queue", "q", "--book", "b", "--prefetch", "0"], "--prefetch"),
        (["--queue", "q", "--book", "b", "--prefetch", "65536"], "--prefetch"),
        (["--queue", "q", "--book", "b", "--heartbeat", "65536"], "--heartbeat"),
        (["--queue", "q", "--book", "b", "--limit", "0"], "--limit"), (["--queue", "q", "--book", "b", "--every", "0"], "--every"),
    )
    for arguments, named in usage:
        done = subprocess.run([commands.program, "consume", *arguments], stdin=subprocess.DEVNULL, capture_output=True, cwd=room)
        right = done.returncode == 2 and named.encode() in done.stderr and not done.stdout
        check(f"usage error {arguments[-2:]}", right, done)
    folder = fresh(room, "limits")
    done = consume(folder, setup() + delivered(QUEUE) + GOODBYE, "--vhost", "v" * 255, "--prefetch", "65535", "--heartbeat", "0",
                   "--user", "u" * 300)
    frames = done.frames()
    check("the greatest values", done.status == 0 and frames[2][2][4:] == amqp.short("v" * 255) + b"\0\0"
          and frames[4][2][4:] == struct.pack(">IHB", 0, 65535, 0) and frames[1][2][-2:] == b"\0\0", done)
    folder = fresh(room, "limited")
    done = consume(folder, setup() + delivered(QUEUE) + GOODBYE, "--chained", "--limit", "3")
    found = done.status, done.reported("reason"), done.reported("applied"), (done.acknowledged() or [0])[-1]
    check("--limit", found == (0, "limit", "3", 3), done)
    secret = f"{folder}/secret"
    for text, wanted in (("file\n", "file"), ("file", "file"), ("a b\nsecond\n", "a b"), ("\n", "")):
        with open(secret, "w", encoding="utf-8") as it:
            it.write(text)
        done = consume(folder, setup() + GOODBYE, "--chained", "--limit", "1", "--password-file", secret, env=dict(os.environ))
        check(f"--password-file {text!r}", amqp.long(f"\0guest\0{wanted}") in (done.frames() or [(0, 0, b"")])[0][2], done)
    bare = {name: it for name, it in os.environ.items() if name != "RELAYPLUM_PASSWORD"}
    for name, more in (("none", []), ("missing", ["--password-file", f"{folder}/none"]), ("folder", ["--password-file", folder])):
        done = consume(folder, setup(), "--chained", *more, env=bare)
        check(f"password: {name}", (done.status, done.reported("reason"), done.sent) == (2, "credentials", b""), done)
    done = consume(folder, setup() + delivered(QUEUE) + GOODBYE)
    check("a book of a chained queue", (done.status, done.reported("reason"), done.sent) == (2, "bad_record", b""), done)
    folder = fresh(room, "json")
    done = consume(folder, setup() + delivered(QUEUE) + GOODBYE, "--chained", "--json")
    wanted = ('{"kind":"consumed","status":0,"reason":"end","code":0,"text":"","tag":0,"redelivered":false,"delivery_count":0,'
              '"parked":0,"applied":5,"duplicates":0,"passed":0,"gaps_skipped":0,"seen":"50"}\n')
    check("--json", done.report == wanted and done.errors.splitlines(True)[-1:] == [wanted], done)
    progress = [json.loads(it) for it in done.errors.splitlines()[:-1]]
    check("--json: each other line is of the progress", all(it["kind"] == "consuming" for it in progress), done.errors)
    folder = fresh(room, "rows")
    arguments = ["consume", "--queue", "q", "--chained", "--book", f"sqlite:{folder}/rows"]
    done = subprocess.run([commands.program, *arguments], input=setup() + delivered(QUEUE) + GOODBYE, capture_output=True,
                          env=dict(os.environ, RELAYPLUM_PASSWORD=PASSWORD), timeout=SECONDS)
    shown = subprocess.run([commands.program, "follow", "--chained", "--book", f"sqlite:{folder}/rows"], stdin=subprocess.DEVNULL,
                           capture_output=True, timeout=SECONDS).stdout.decode()
    check("a book in SQLite", done.returncode == 0 and BOOKS[5] in shown, (done, shown))


# ---------------------------------------------------------------------------------------------------------------------
# Transcripts of a real server.


def transcript(name):
    """The frames that the server sent."""
    with open(DATA / f"{name}.hex", encoding="utf-8") as it:
        text = bytes.fromhex("".join(line for line in it if not line.startswith("#")))
    return amqp.frames_of(text)[0] if text[:4] != b"AMQP" else text


def replayed(name, ending=()):
    """The frames of a transcript as this consumer has them: those that a server sends while a connection is set up, of this
    transcript where it has them; and those after that, without answers to what this consumer doesn't ask."""
    found = transcript(name)
    known = {amqp.method_of(it): it for it in [*transcript("redelivery"), *transcript("consume5"), *found]}
    place = next(at for at, it in enumerate(found) if amqp.method_of(it) == amqp.CONSUME_OK)
    skipped = (amqp.CHANNEL_CLOSE_OK, amqp.DECLARE_OK, amqp.DELETE_OK, amqp.CONFIRM_SELECT_OK, amqp.ACK)
    later = [it for it in found[place + 1:] if amqp.method_of(it) not in skipped]
    return [*[known[it] for it in amqp.SETUP], *later, *ending]


def bytes_of(found):
    return b"".join(amqp.frame(*it) for it in found)


def transcripts(room):
    """Each transcript: in one piece, byte by byte, and cut at each place."""
    server = bytes_of(replayed("consume5"))
    bodies = [it[2] for it in replayed("consume5") if it[0] == amqp.BODY]
    folder = fresh(room, "consume5")
    done = consume(folder, server, "--chained")
    check("consume5", (done.status, done.reported("applied"), (done.acknowledged() or [0])[-1]) == (0, "5", 6), done)
    check("consume5: the book", book_of(folder, "--chained") == balances_of(bodies), book_of(folder, "--chained"))
    folder = fresh(room, "bytes")
    done = consume(folder, server, "--chained", pieces=[server[at:at + 1] for at in range(len(server))])
    check("consume5 byte by byte", (done.status, done.reported("applied"), (done.acknowledged() or [0])[-1]) == (0, "5", 6), done)
    for cut in range(0, len(server), 1 if commands.is_long else 97):
        folder = fresh(room, f"cut {cut}")
        done = consume(folder, server[:cut], "--chained")
        acks = done.acknowledged() if done.frames() else []
        whole_deliveries = sum(1 for at in ends_of_deliveries(server) if at <= cut)
        right = done.status == 1 and done.reported("reason") == "connection_lost" and (acks or [0])[-1] <= whole_deliveries
        check(f"consume5 cut at {cut}", right and done.reported("applied") == str(min(whole_deliveries, 5)), done)
        shutil.rmtree(folder)
    folder = fresh(room, "cancel")
    done = consume(folder, bytes_of(replayed("cancel-by-server")))
    check("cancel-by-server", (done.status, done.reported("reason")) == (1, "canceled"), done)
    folder = fresh(room, "timeout")
    done = consume(folder, bytes_of(replayed("consumer-timeout")))
    check("consumer-timeout", (done.status, done.reported("reason"), done.reported("code")) == (1, "channel_closed", "406"), done)
    folder = fresh(room, "small")
    small = [it for it in replayed("frames-4096") if it[0] != amqp.METHOD or amqp.method_of(it) != amqp.CLOSE_OK]
    done = consume(folder, bytes_of(small))
    check("frames-4096", (done.status, done.reported("tag")) == (2, "1"), done)
    folder = fresh(room, "killed")
    done = consume(folder, bytes_of(replayed("node-killed")))
    check("node-killed", (done.status, done.reported("reason")) == (1, "connection_lost"), done)
    for name, code in (("wrong-password", "403"), ("wrong-vhost", "530")):
        folder = fresh(room, name)
        done = consume(folder, bytes_of(transcript(name)))
        check(name, (done.status, done.reported("reason"), done.reported("code")) == (2, "closed", code), done)
    folder = fresh(room, "protocol")
    done = consume(folder, transcript("wrong-protocol"))
    check("wrong-protocol", (done.status, done.reported("reason")) == (1, "protocol_fault"), done)


def balances_of(bodies):
    """The accounts that events show last, in the order in which they come first: the debited one before the credited one."""
    found = {}
    for body in map(json.loads, bodies):
        for side in ("debit_account", "credit_account"):
            found[body[side]["id"]] = body[side]
    names = ("debits_pending", "debits_posted", "credits_pending", "credits_posted")
    return "".join(f"account {id} " + " ".join(it[name] for name in names) + "\n" for id, it in found.items())


def ends_of_deliveries(server):
    """Where each delivery ends: after its header if it has no body, else after its last body frame."""
    at, left, found = 0, None, []
    for kind, _, payload in amqp.frames_of(server)[0]:
        at += len(payload) + 8
        if kind == amqp.CONTENT_HEADER:
            left = struct.unpack(">Q", payload[4:12])[0]
        if kind == amqp.BODY:
            left -= len(payload)
        if kind in (amqp.CONTENT_HEADER, amqp.BODY) and left == 0:
            found.append(at)
    return found


# ---------------------------------------------------------------------------------------------------------------------
# Mutated streams of a server.


def mutated(rng, server):
    """The stream with bytes changed, left out or doubled, or the rest cut."""
    text = bytearray(server)
    for _ in range(rng.randint(1, 3)):
        at = rng.randrange(len(text))
        upto = min(len(text), at + rng.choice((1, 2, 8, 100, 700)))
        how = rng.randrange(4)
        if how == 0:
            text[at] = rng.randrange(256)
        elif how == 1:
            del text[at:upto]
        elif how == 2:
            text[at:at] = text[at:upto]
        else:
            del text[at:]
        if not text:
            break
    return bytes(text)


def reordered(rng, messages):
    """The stream with whole deliveries left out, doubled or swapped, and numbered again as a server numbers them."""
    messages = list(messages)
    for _ in range(rng.randint(1, 3)):
        at = rng.randrange(len(messages))
        how = rng.randrange(3)
        if how == 0 and len(messages) > 1:
            del messages[at]
        elif how == 1:
            messages.insert(rng.randrange(len(messages) + 1), messages[at])
        else:
            other = rng.randrange(len(messages))
            messages[at], messages[other] = messages[other], messages[at]
    return setup() + delivered(messages) + GOODBYE


def framed(rng, server):
    """The stream with frames left out, doubled or swapped, and with frames that a server may send at any time, or to end the connection."""
    found = amqp.frames_of(server)[0]
    for _ in range(rng.randint(1, 3)):
        at, other = rng.randrange(len(found)), rng.randrange(len(found))
        how = rng.randrange(6)
        if how == 0:
            del found[at]
        elif how == 1:
            found.insert(at, found[other])
        elif how == 2:
            found[at], found[other] = found[other], found[at]
        else:
            found[at:at] = amqp.frames_of(rng.choice(AT_ANY_TIME))[0]
    return bytes_of(found)


# What a server may send at any time. A connection or channel that is closed for a cause that may pass, and for others.
AT_ANY_TIME = (
    amqp.frame(amqp.HEARTBEAT, 0, b""), amqp.method(0, amqp.BLOCKED, amqp.short("low on memory")), amqp.method(0, amqp.UNBLOCKED),
    amqp.method(1, amqp.CANCEL, amqp.short("relayplum") + b"\1"),
    *(amqp.closing(which, code, "") for which in (amqp.CLOSE, amqp.CHANNEL_CLOSE) for code in (0, 320, 403, 404, 406, 530, 65535)),
)


class Chain:
    """A chained queue of five events: its messages, the timestamp of the event that each body is, and the book of the first events."""

    def __init__(self, debit, credit, start):
        self.messages = queue_of(5, debit, credit, start)
        self.known = {body: start + 10 * at for at, (body, _, _) in enumerate(self.messages[:5], 1)}
        self.books = [book_after(n, debit, credit) for n in range(6)]

    def server(self, most=amqp.FRAME_MAX - 8):
        return setup() + delivered(self.messages, most=most) + GOODBYE


# With small numbers, and with those of a real ledger.
CHAINS = (Chain(1, 2, 0), Chain(10**36 + 1, 10**36 + 2, 17 * 10**17))


def mutations(count, first=1):
    """So many mutated streams from this number on, each of which follows from its number alone."""
    with rooms.room("consume-") as room:
        for number in range(first, first + count):
            folder = fresh(room, str(number))
            mutation(folder, number)
            shutil.rmtree(folder)


def mutation(folder, number):
    """Whatever a server sends, what is acknowledged is saved. If its deliveries are messages of the queue, the book is a prefix of it,
    and a later run over the whole queue completes it."""
    rng = random.Random(number)
    chain = rng.choice(CHAINS)
    is_whole, parks = number % 3 == 0, rng.random() < 0.3
    if is_whole:
        text = reordered(rng, chain.messages)
    else:
        text = (mutated if number % 3 == 1 else framed)(rng, chain.server(rng.choice((amqp.FRAME_MAX - 8, 300))))
    done = consume(folder, text, "--chained", "--every", str(rng.randint(1, 3)), *(["--park"] if parks else []))
    check(f"mutation {number}: a status", done.status in (0, 1, 2, 3) and done.reported("status") == str(done.status), done)
    last = (done.acknowledged() if done.frames() else None) or [0]
    rejected = (done.rejected() if done.frames() else None) or []
    before = sum(it < last[-1] for it in rejected)
    check(f"mutation {number}: acknowledged is saved", last[-1] - before <= taken_by_book(folder, done), (last, done))
    check(f"mutation {number}: what is rejected is not acknowledged", not set(last) & set(rejected), (last, rejected))
    compare(f"mutation {number}", chain, text, parks, done, last[-1])
    if is_whole:
        book = book_of(folder, "--chained")
        check(f"mutation {number}: a prefix", book in chain.books, (book, done))
        done = consume(folder, chain.server(), "--chained")
        check(f"mutation {number}: the whole", book_of(folder, "--chained") == chain.books[5], done)


def compare(name, chain, text, parks, done, last):
    """Compares a run with the model, unless that doesn't know a body."""
    try:
        wanted = consuming.outcome(text, chain.known, parks=parks)
    except consuming.Unknown:
        return
    found = {"status": done.status, "code": done.number("code"), "tag": done.number("tag"),
             "applied": done.number("applied"), "duplicates": done.number("duplicates"),
             "rejected": (done.rejected() if done.frames() else None) or []}
    check(f"{name}: the model", found == {it: wanted[it] for it in found}, (wanted, done))
    check(f"{name}: the model has taken what is acknowledged", last <= wanted["taken"], (last, wanted))
    if wanted["status"] == 0 and not wanted["tag"]:
        check(f"{name}: all that was taken is acknowledged", last == wanted["taken"], (last, wanted))


def taken_by_book(folder, done):
    """How many deliveries the saved book has: events, duplicates, and the end."""
    return taken_by(f"{folder}/book") + done.number("duplicates")


def taken_by(book):
    """How many events a saved book has, and its end."""
    shown = subprocess.run([commands.program, "follow", "--chained", "--book", book], stdin=subprocess.DEVNULL,
                           capture_output=True, timeout=SECONDS).stdout.decode().splitlines()
    found = [it.split() for it in shown if it.startswith("subscriber 1 ")]
    return int(found[0][3]) + (found[0][7] == "yes") if found else 0


# ---------------------------------------------------------------------------------------------------------------------
# Runs that end at a call, or for which it is refused.


class SteppedConsumer(stepping.Stepped):
    """A run whose thread that reads ahead runs on between the stops; the other one saves and acknowledges."""

    def printed(self):
        """What it has sent, a character for each byte, and standard error."""
        self.out.seek(0)
        sent = self.out.read().decode("latin-1")
        return [sent, super().printed()[1]]


class KilledConsumer(interrupted.Interrupted):
    """A consumer that is interrupted: what it has acknowledged is saved, and a run over the whole queue completes the book."""

    stream = setup() + delivered(QUEUE) + GOODBYE
    is_killed_everywhere = False
    rows = 20
    kept_in = ""

    def __init__(self, library, folder):
        super().__init__(library, folder)
        with open(self.path("secret"), "w", encoding="utf-8") as it:
            it.write(PASSWORD)

    def book(self, name):
        return self.kept_in + self.path(name)

    def arguments(self, name):
        return ["--queue", "q", "--chained", "--every", "2", "--password-file", self.path("secret"), "--book", self.book(name),
                "--report", self.path(f"{name}.report")]

    def run(self, name, **plan):
        env = dict(os.environ, **({"LD_PRELOAD": self.library} if plan else {}), **plan)
        with open(self.path("stream"), "rb") as server:
            done = subprocess.run([commands.program, "consume", *self.arguments(name)], stdin=server, capture_output=True, env=env,
                                  timeout=SECONDS)
        return Done(done.returncode, done.stdout, done.stderr.decode(errors="replace"), read(self.path(f"{name}.report")))

    def stepped(self, name):
        with open(self.path("stream"), "rb") as stream:
            return SteppedConsumer([commands.program, commands.command, *self.arguments(name)], stream)

    def unsaved(self, name, sent):
        """What is wrong with what an interrupted run has sent, the last of which may be a part of a frame: it may have acknowledged only
        what the book has. Each run gets the whole queue."""
        frames = amqp.frames_of(sent[8:])[0]
        acks = [struct.unpack(">Q", it[2][4:12])[0] for it in frames if amqp.method_of(it) == amqp.ACK]
        taken = taken_by(self.book(name)) if os.path.exists(self.path(name)) else 0
        return f"{acks} acknowledged, {taken} saved" if (acks or [0])[-1] > taken else None

    def incomplete(self, name):
        """What is wrong after it went on: the book has to be whole."""
        again = self.run(name)
        return repr(again) if again.status != 0 or taken_by(self.book(name)) != 6 else None

    def complaint(self, number, plan):
        name = f"{number}.saved"
        done = self.run(name, FAULT=plan)
        wrong = self.unsaved(name, done.sent) or self.incomplete(name)
        if wrong or not ("end" in plan or done.status in (0, 1, 2)):
            return f"{plan}: {done!r}, then {wrong}"
        return None

    def complaint_of_kill(self, number, point):
        name = f"{number}.killed"
        status, sent = self.kill_at(name, point)
        # (how often it saves isn't the same in each run, so one may end before)
        wrong = self.unsaved(name, sent.encode("latin-1")) or self.incomplete(name)
        return f"{point}: status {status}, then {wrong}" if wrong or status not in (0, -signal.SIGKILL) else None

    def complaint_of_row(self, seed):
        chosen, name, wrong = random.Random(seed), f"{seed}.row", None
        for _ in range(chosen.choice([2, 2, 3])):
            run = self.stepped(name)
            if all(run.step() for _ in range(chosen.randrange(self.stops))):
                run.kill()
            wrong = wrong or self.unsaved(name, run.printed()[0].encode("latin-1"))
        wrong = wrong or self.incomplete(name)
        return f"kills in a row, seed {seed}: {wrong}" if wrong else None


class KilledRows(KilledConsumer):
    """The same with a book in SQLite."""

    rows = 5
    kept_in = "sqlite:"


def killed(room):
    """Runs that end at each call, or for which it is refused; that are killed by signal 9 before each call that changes something, or once
    a write of a save or of an acknowledgement has written a part; and that are killed again after that."""
    interrupted.check_all(KilledConsumer, room)
    interrupted.check_kills(KilledRows, fresh(room, "rows"))


# ---------------------------------------------------------------------------------------------------------------------
# A real RabbitMQ.


def rabbitmq(room):
    """A node of its own, reached through socat."""
    missing = [it for it in ("socat", "rabbitmq-server") if not shutil.which(it) and not os.path.exists(f"/usr/sbin/{it}")]
    if missing:
        print(f"consume: not tried: a real RabbitMQ, which needs {' and '.join(missing)}")
        return
    this = [sys.executable, os.path.realpath(__file__), commands.program, "--in", room]
    done = subprocess.run([str(CLUSTER), "--nodes", "1", *this], capture_output=True, timeout=600)
    found = done.stdout.decode(errors="replace").splitlines()
    last = found[-1] if found else ""
    check("RabbitMQ", done.returncode == 0 and last.startswith("consume: "), (found[-5:], done.stderr[-500:]))
    if last.startswith("consume: "):
        commands.passed += int(last.split()[1]) - 1


def socat(port, folder, *more):
    """Starts the command behind socat."""
    command = " ".join(shlex.quote(it).replace(",", "\\,").replace(":", "\\:") for it in arguments_of(folder, *more))
    env = dict(os.environ, RELAYPLUM_PASSWORD="guest")
    return subprocess.Popen(["socat", f"TCP:127.0.0.1:{port}", f"EXEC:{command}"], env=env, stderr=subprocess.PIPE)


def ended_as(child, folder, name, status, reason, **counts):
    """Waits for the command's end, which its report has."""
    try:
        _, errors = child.communicate(timeout=SECONDS)
    except subprocess.TimeoutExpired:
        child.kill()
        _, errors = child.communicate()
    found = dict(it.split(" ", 1) for it in read(f"{folder}/report").splitlines())
    wanted = {"status": str(status), "reason": reason, **{it: str(value) for it, value in counts.items()}}
    check(f"RabbitMQ: {name}", {it: found.get(it) for it in wanted} == wanted, (found, errors))


def wait_for(condition):
    deadline = time.monotonic() + SECONDS
    while not condition() and time.monotonic() < deadline:
        time.sleep(0.05)


def within(room):
    """The checks against the node that BROKER_URLS names."""
    port = int(os.environ["BROKER_URLS"].split()[0].rsplit(":", 1)[1].split("/")[0])
    client = amqp.Client("127.0.0.1", port)
    client.declare("dead")
    client.declare("q", dead_letters="dead")
    for it in QUEUE:
        client.publish("q", *it)
    folder = fresh(room, "real")
    ended_as(socat(port, folder, "--chained"), folder, "a whole queue", 0, "end", applied=5)
    wait_for(lambda: client.declare("q", passive=True) == 0)
    check("RabbitMQ: the queue is empty", client.declare("q", passive=True) == 0, client.declare("q", passive=True))
    check("RabbitMQ: the book", book_of(folder, "--chained") == BOOKS[5], book_of(folder, "--chained"))
    for it in [BAD[0], QUEUE[0], BAD[1], *QUEUE[1:5], BAD[4], QUEUE[5]]:
        client.publish("q", *it)
    folder = fresh(room, "parked")
    ended_as(socat(port, folder, "--chained", "--park", "--every", "1"), folder, "messages that are parked", 0, "end", applied=5, parked=3)
    wait_for(lambda: client.declare("q", passive=True) == 0 and client.declare("dead", passive=True) == 3)
    left = client.declare("q", passive=True), client.declare("dead", passive=True)
    check("RabbitMQ: what is parked is dead-lettered, and nothing is left", left == (0, 3), left)
    for it in [*QUEUE[:2], *QUEUE[3:]]:
        client.publish("q", *it)
    folder = fresh(room, "gap")
    ended_as(socat(port, folder, "--chained"), folder, "a gap", 3, "gap", applied=2, tag=3)
    wait_for(lambda: client.declare("q", passive=True) == 3)
    check("RabbitMQ: what is after a gap stays", client.declare("q", passive=True) == 3, client.declare("q", passive=True))
    client.delete("q")
    client.declare("q")
    many = queue_of(400)
    for it in many[:200]:
        client.publish("q", *it)
    folder = fresh(room, "killed")
    for _ in range(4):
        child = socat(port, folder, "--chained", "--every", "10", "--prefetch", "20")
        time.sleep(0.3)
        with open(f"/proc/{child.pid}/task/{child.pid}/children", encoding="utf-8") as it:
            for pid in it.read().split():
                os.kill(int(pid), signal.SIGKILL)
        child.kill()
        child.wait()
    for it in many[200:]:
        client.publish("q", *it)
    ended_as(socat(port, folder, "--chained", "--prefetch", "20"), folder, "after kills", 0, "end")
    wanted = f"account 1 0 {5 * 400} 0 0\naccount 2 0 0 0 {5 * 400}\n"
    check("RabbitMQ: the book after kills", book_of(folder, "--chained") == wanted, book_of(folder, "--chained"))
    wait_for(lambda: client.declare("q", passive=True) == 0)
    check("RabbitMQ: nothing is left", client.declare("q", passive=True) == 0, client.declare("q", passive=True))
    folder = fresh(room, "deleted")
    child = socat(port, folder, "--chained", "--heartbeat", "1")
    for it in QUEUE[:2]:
        client.publish("q", *it)
    wait_for(lambda: "seen 20" in read(f"{folder}/report") or BOOKS[2] == book_of_copy(folder))
    time.sleep(4)
    client.delete("q")
    ended_as(child, folder, "a queue that is deleted, after heartbeats", 1, "canceled", applied=2)
    folder = fresh(room, "missing")
    ended_as(socat(port, folder), folder, "a queue that is missing", 2, "channel_closed", code=404)
    folder = fresh(room, "vhost")
    ended_as(socat(port, folder, "--vhost", "nowhere"), folder, "a virtual host that is missing", 2, "closed", code=530)
    folder = fresh(room, "user")
    ended_as(socat(port, folder, "--user", "nobody"), folder, "a user that is refused", 2, "closed", code=403)
    client.close()


def book_of_copy(folder):
    """The accounts of a book that another process has locked."""
    copy = f"{folder}/copy"
    try:
        shutil.copyfile(f"{folder}/book", f"{copy}.book")
    except FileNotFoundError:
        return ""
    done = subprocess.run([commands.program, "follow", "--chained", "--book", f"{copy}.book"], stdin=subprocess.DEVNULL,
                          capture_output=True, timeout=SECONDS)
    return "".join(f"{it}\n" for it in done.stdout.decode().splitlines() if it.startswith("account "))


# ---------------------------------------------------------------------------------------------------------------------


def main(arguments):
    if "--in" in arguments:
        commands.begin(arguments[0], "consume")
        within(arguments[arguments.index("--in") + 1])
        return commands.ended()
    parser = commands.parser_of(__doc__)
    parser.add_argument("--streams", type=int, default=STREAMS, metavar="N", help="mutated streams; default: %(default)s")
    parser.add_argument("--first", type=int, metavar="K", help="only mutated streams, from this number on")
    options = rooms.options_of(parser, arguments)
    if options.first is None:
        return commands.main(arguments, __doc__, "consume", PARTS, mutations, STREAMS)
    commands.begin(options.program, "consume", options.soak)
    mutations(options.streams, options.first)
    return commands.ended()


PARTS = (whole, frames, stops, parks, servers, options, transcripts, killed, rabbitmq)


if __name__ == "__main__":
    ending.run(main)
