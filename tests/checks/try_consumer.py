#!/usr/bin/env python3
"""tools/try-consumer, over the consumers of examples/consumers and over some of its own.

  tests/checks/try_consumer.py [PROGRAM] [--seeds N] [--few N] [--soak]    PROGRAM: crates/cdc_app/out/cdc_app

- Each wrong consumer of examples/consumers/wrong fails at the seed and the delivery that it states, among the first 30
  seeds, if the system permits to stop a process at a write; otherwise in one of 30 seeds. None has more than 40 lines.
- The right consumers pass: the one in Python N seeds (default: 30), the others FEW (default: 3).
- With --lossy the one that compares `previous` passes, and one that doesn't fails.
- Each seed has each fault that it was asked for. The stream is given, and what wasn't acknowledged is redelivered.
- What is compared, and what is reported; the files of a case and its replay; the smallest case; statuses; progress.
- Stopped at any time, the runner ends at once, with its consumers.

--soak tries 200 seeds of each right consumer, and each wrong one from the first seed on. It takes seven minutes of
CPU time.

Without node or a JDK, their consumers are left out, which the line before the last reports. The last line is
`try_consumer: N passed, M failed`; the status is 1 if one failed.
"""
import collections
import contextlib
import dataclasses
import json
import os
import pathlib
import pty
import re
import shlex
import shutil
import signal
import subprocess
import sys
import time
from xml.etree import ElementTree

sys.dont_write_bytecode = True
HERE = os.path.dirname(os.path.realpath(__file__))
sys.path[:0] = [os.path.join(HERE, "..", "common"), os.path.join(HERE, "..", "..", "tools")]
import checked
import ending
import needs
import rooms
from trying import Stop, cases, consumer, plays, shrinking, streams, tracing, trials, verdicts
from trying import reports as sentences

TOOLS = str(rooms.TOP / "tools")
RUNNER = f"{TOOLS}/try-consumer"
EXAMPLES = rooms.TOP / "examples/consumers"
SCRIPT = (rooms.TOP / "examples/boundaries.script").read_text(encoding="utf-8")
MARKETPLACE = (rooms.TOP / "examples/marketplace.script").read_text(encoding="utf-8")
SECONDS = 1200  # that a run may take: a last guard
AT_ONCE = 60  # seconds that a run which was stopped may take: the same
WAIT = 100  # seconds, far more than a run of two seeds takes
SEEDS, FEW, SOAK, FIND_IN = 30, 3, 200, 30
MOST_LINES, WRONG = 40, 14
PYTHON = (sys.executable, "-I", "-S")  # (it starts twice as fast without the modules of others)
JAVA = ("-XX:TieredStopAtLevel=1", "-XX:+UseSerialGC")  # (so does this)
# What a consumer needs besides Python.
NEEDS = {".py": (), ".js": ("node",), ".java": ("java", "javac")}
STOPS = (signal.SIGINT, signal.SIGTERM, signal.SIGHUP)
# A consumer of these checks. The parts in braces differ: what it does before an answer, and how it answers.
STUB = """import json, os, sys
names = ("id", "debits_pending", "debits_posted", "credits_pending", "credits_posted")
state = json.load(open("state")) if os.path.exists("state") else {{"applied": 0, "last": "0", "ended": False}}
for line in sys.stdin:
    it = json.loads(line)
    result, accounts = "duplicate", []
    if "end" in it and not state["ended"]:
        result, state["ended"] = "end", True
    elif "body" in it and int(it["body"]["timestamp"]) > int(state["last"]):
        result, state["last"], state["applied"] = "applied", it["body"]["timestamp"], state["applied"] + 1
        accounts = [{{n: it["body"][s][n] for n in names}} for s in ("debit_account", "credit_account")]
    json.dump(state, open("new", "w"))
    os.replace("new", "state")
    answer = {{"delivery": it["delivery"], "result": result, **state, "accounts": accounts}}
    {}
    sys.stdout.flush()
"""
PRINTS = "print(json.dumps(answer))"
# Calls that change files.
CHANGES = ("file = os.open('a', os.O_CREAT | os.O_RDWR)", "os.write(file, b'x')", "os.rename('a', 'b')",
           "os.link('b', 'c')", "os.symlink('b', 'd')", "os.truncate('b', 0)", "os.unlink('c')", "os.unlink('d')",
           "os.mkdir('e')", "os.rmdir('e')")
# A consumer that keeps a book of lines of text. It acknowledges once so many deliveries have come, or at the end.
BOOKKEEPER = """import json, os, sys
most, out = int(sys.argv[1]), sys.argv[2]
names = ("id", "debits_pending", "debits_posted", "credits_pending", "credits_posted")
book = json.load(open("state")) if os.path.exists("state") else {"last": 0, "accounts": {}}
waiting, last = 0, None
def acknowledge():
    json.dump(book, open("new", "w"))
    os.replace("new", "state")
    print(out.format(last["delivery"]), flush=True)
for line in sys.stdin:
    waiting, last = waiting + 1, json.loads(line)
    if "body" in last and int(last["body"]["timestamp"]) > book["last"]:
        book["last"] = int(last["body"]["timestamp"])
        for side in ("debit_account", "credit_account"):
            account = last["body"][side]
            book["accounts"][account["id"]] = {n: account[n] for n in names}
    if waiting == most:
        acknowledge()
        waiting = 0
if waiting:
    acknowledge()
"""
PRINTER = "import json; book = json.load(open('state'))['accounts']; {}"
COLUMNS = "('id', 'debits_pending', 'debits_posted', 'credits_pending', 'credits_posted')"
# Before a consumer that waits for ever. It first writes where it is. The first two starts are without faults.
WAITS = """import os, sys, time
def wait():
    open({pid!r} + ".new", "w").write(os.getcwd())
    os.rename({pid!r} + ".new", {pid!r})
    time.sleep(10000)
open({starts!r}, "a").write("x")
starts = os.path.getsize({starts!r})
is_traced = lambda: "TracerPid:\\t0\\n" not in open("/proc/self/status").read()
"""
# Before a text that is stopped as the runner is.
ENDS_AT_STOPS = f"""import os, signal, sys
sys.path.insert(0, {TOOLS!r})
from trying.workers import end_at_stops
stop = lambda number: os.kill(os.getpid(), number)
end_at_stops()
"""


class Runner(checked.Checks):
    """Runs of tools/try-consumer over the program, in a folder."""

    def __init__(self, program, room):
        super().__init__(program, room)
        self.room = pathlib.Path(room)
        self.source = streams.Source(program, 1, 1)
        self.left_out = collections.defaultdict(set)  # what is left out, by what is missing for it
        self.is_compiled = False

    def call(self, *arguments):
        """Runs it, and returns its status and what it prints on standard output and standard error."""
        command = [*PYTHON, RUNNER, *map(str, arguments)]
        done = subprocess.run(command, env=self.environment(), timeout=SECONDS, **self.pipes())
        return done.returncode, done.stdout.decode(), done.stderr.decode()

    def environment(self):
        return dict(os.environ, TMPDIR=str(self.room))

    def pipes(self):
        return {"cwd": self.room, "stdin": subprocess.DEVNULL, "stdout": subprocess.PIPE, "stderr": subprocess.PIPE}

    def over(self, *arguments, command, jobs=1):
        """Runs it over this program and a command."""
        return self.call("--program", self.program, "--jobs", jobs, *arguments, "--", *command)

    def stub(self, name, text):
        """Writes a consumer, and returns its command."""
        (self.room / name).write_text(text, encoding="utf-8")
        return [*PYTHON, str(self.room / name)]

    def command_of(self, name):
        """Returns the command of a consumer of the examples, or None if something is missing for it."""
        file = EXAMPLES / name
        lacking = [it for it in NEEDS[file.suffix] if shutil.which(it) is None]
        if lacking:
            self.left_out[needs.no_command(lacking[0])].add(file.name)
            return None
        if file.suffix == ".java":
            self.compile()
            return ["java", *JAVA, "-cp", str(self.room), file.stem]
        return [*{".py": PYTHON, ".js": ("node",)}[file.suffix], str(file)]

    def compile(self):
        """Compiles all consumers in Java, once."""
        if not self.is_compiled:
            files = sorted(map(str, EXAMPLES.rglob("*.java")))
            subprocess.run(["javac", *(f"-J{it}" for it in JAVA), "-d", str(self.room), *files], check=True)
            self.is_compiled = True


def is_traced():
    """Returns whether the system permits to stop a process at a write."""
    with subprocess.Popen(["cat"], stdin=subprocess.PIPE, stdout=subprocess.DEVNULL) as child:
        try:
            traced = tracing.Traced(child.pid)
        except tracing.Refused:
            return False
        # (Popen.kill would take a stop for the end)
        os.kill(child.pid, signal.SIGKILL)
        child.returncode = traced.reap()
    return True


def right_ones(checks, seeds, few):
    """The right consumers pass."""
    for name in ("remembering.py", "remembering.js", "Remembering.java"):
        lines = len((EXAMPLES / name).read_text(encoding="utf-8").splitlines())
        checks.same(f"{name}: at most {MOST_LINES} lines", True, lines <= MOST_LINES)
        command = checks.command_of(name)
        if command:
            count = seeds if name.endswith(".py") else few
            found = checks.over("--seeds", count, command=[*command, "book"], jobs=2)
            checks.same(f"{name}: it passes", (0, f"try-consumer: {count} passed, 0 failed\n", ""), found)


def lossy_ones(checks, seeds):
    """With --lossy a consumer that compares `previous` passes, and one that doesn't fails at the first seed. Each seed has
    an event that overtakes another one, one of another queue, and a loss, which the last delivery shows."""
    chained, remembering = (checks.command_of(it) for it in ("chained.py", "remembering.py"))
    lines = len((EXAMPLES / "chained.py").read_text(encoding="utf-8").splitlines())
    checks.same(f"chained.py: at most {MOST_LINES} lines", True, lines <= MOST_LINES)
    for kills in (3, 0):
        found = checks.over("--lossy", "--kills", kills, "--seeds", seeds, command=[*chained, "book"], jobs=2)
        checks.same(f"chained.py: it passes, {kills} kills", (0, f"try-consumer: {seeds} passed, 0 failed\n", ""), found)
    status, printed, _ = checks.over("--lossy", "--shrink", 0, command=[*remembering, "book"])
    checks.same("remembering.py: it fails", (1, True), (status, "expected gap, your consumer applied it" in printed))
    status, printed, _ = checks.over("--lossy", "--shrink", 10, "--files", "lossy", command=[*remembering, "book"])
    checks.same("remembering.py: its smallest case", (1, True), (status, "expected gap" in printed))
    found = checks.over("--replay", "lossy", command=[*remembering, "book"])
    checks.same("remembering.py: its smallest case again", (1, True), (found[0], "expected gap" in found[1]))
    for seed in range(1, seeds + 1):
        case = cases.drawn_case(checks.source, SCRIPT, seed, 200, 10, 3, lossy=True)
        results = [it["result"] for it in case.stream.expected]
        checks.same(f"seed {seed}: gaps, the last delivery's too", (True, "gap"), (results.count("gap") > 2, results[-1]))
        foreign = [it for it, line in enumerate(case.stream.lines) if b'"previous":"0"' in line and results[it] == "gap"]
        checks.same(f"seed {seed}: a delivery of another queue", True, bool(foreign))


def wrong_ones(checks, is_soak):
    """Each wrong consumer fails as it states, at one of the first seeds."""
    files = sorted((EXAMPLES / "wrong").iterdir())
    checks.same("wrong consumers", WRONG, len(files))
    can_trace = is_traced()
    if not can_trace:
        checks.left_out["this system doesn't permit ptrace"].add("at which seeds the wrong consumers fail")
    for file in files:
        text = file.read_text(encoding="utf-8")
        flags, stated = re.search(r"(?m)^[ */]*try-consumer (.*)-- .*\n[ */]*(.*)$", text).groups()
        seed = int(re.match(r"without faults|seed (\d+)", stated)[1] or 1)
        checks.same(f"{file.name}: at most {MOST_LINES} lines", True, len(text.splitlines()) <= MOST_LINES)
        checks.same(f"{file.name}: among the first {FIND_IN} seeds", True, seed <= FIND_IN)
        command = checks.command_of(f"wrong/{file.name}")
        if command:
            seeds = ["--seed", seed] if can_trace and not is_soak else ["--seeds", FIND_IN]
            status, printed, errors = checks.over(*seeds, "--shrink", 0, *shlex.split(flags), command=command)
            checks.same(f"{file.name}: it fails", (1, ""), (status, errors))
            if can_trace:
                checks.same(f"{file.name}: where it fails", stated, printed[: len(stated)])
    for name in ("adding.py", "overwriting.py"):
        flags = ["--seeds", FIND_IN, "--shrink", 0, "--kills", 0]
        status, printed, _ = checks.over(*flags, command=checks.command_of(name))
        checks.same(f"{name}: it fails", (1, True), (status, "expected duplicate, your consumer applied it" in printed))


def faults(checks):
    """Each seed has each fault that it was asked for."""
    both, none = {True, False}, set()
    for script, window, asked, seeds, wanted in [
        (SCRIPT, 1, 10, 20, [both]),
        (SCRIPT, 8, 10, 5, [both]),
        (MARKETPLACE, 1, 4, 10, [both]),
        (SCRIPT, 1, 0, 2, [none]),
        (SCRIPT, 1, 1, 5, [{True}, {False}, both]),
    ]:
        source = streams.Source(checks.program, 1, window)
        found = [cases.drawn_case(source, script, seed, 200, asked, 3) for seed in range(1, seeds + 1)]
        wrong = [it.seed for it in found if it.stream.kinds_of_duplicates() not in wanted]
        checks.same(f"faults {asked}, window {window}: the duplicates", [], wrong)
        wrong = [it.seed for it in found if {kill.kind for kill in it.kills} != set(cases.IN_TURN)]
        checks.same(f"faults {asked}, window {window}: kills of each kind", [], wrong)
        before = [(it, kill) for it in found for kill in it.kills if kill.kind == cases.BEFORE]
        results = {it.stream.expected[kill.place]["result"] for it, kill in before}
        checks.same("kills before an answer are at events that are applied", {"applied"}, results)
    drawn = [cases.drawn_case(checks.source, SCRIPT, 5, 200, 10, 7) for _ in range(2)]
    checks.same("a seed makes the same case", *drawn)
    checks.same("no kill", (), cases.drawn_case(checks.source, SCRIPT, 1, 200, 10, 0).kills)
    try:
        found = cases.drawn_case(checks.source, "subscriber any\naccounts 1\n", 1, 20, 4, 3)
    except Stop as why:
        found = str(why)
    wanted = "seed 1: none of 200 simulations has an event that is published twice and one that is redelivered"
    checks.same("no event, so no duplicate", f"{wanted}: set --faults higher, or to 0", found)


def played(checks, command, kills, seed=3, way=None):
    """Plays a case in this process. Returns it, the play and the verdict."""
    case = cases.drawn_case(checks.source, SCRIPT, seed, 200, 10, 0)
    case = dataclasses.replace(case, kills=kills)
    way = way or plays.Way(tuple(command))
    measure = plays.measured(case, way, str(checks.room / "measured"))
    play = plays.Play(case, way, measure, str(checks.room / "play"))
    return case, play, play.verdict()


def given_lines(checks):
    """The lines that a consumer is given: the numbered stream, and after a kill what wasn't acknowledged, marked so."""
    command = [*checks.command_of("remembering.py"), "book"]
    for kind, lost, again in [
        (cases.BEFORE, 1, [6]),
        (cases.AFTER, 1, []),
        (cases.LOST, 1, [6]),
        (cases.LOST, 3, [4, 5, 6]),
    ]:
        kills = (cases.Kill(6, kind, 0.4, lost), cases.Kill(6, cases.AFTER))[: 1 if kind == cases.AFTER else 2]
        case, play, verdict = played(checks, command, kills)
        places = [*range(7), *again, *range(7, len(case.stream.lines))]
        is_again = range(8, 8 + len(again))
        wanted = [streams.numbered(case.stream.lines[it], at, at in is_again) for at, it in enumerate(places, 1)]
        checks.same(f"{kind} {lost}: the verdict", None, verdict)
        checks.same(f"{kind} {lost}: what was given", wanted, play.log.given)
        if again:
            wanted = [["duplicate"]] * len(again)
            if kind == cases.BEFORE:
                wanted = [[case.stream.expected[6]["result"], "duplicate"]]
            found = [it.results() for it in play.log.wanted[7 : 7 + len(again)]]
            checks.same(f"{kind} {lost}: what is expected then", wanted, found)
    flags = {json.loads(it)["redelivered"] for it in play.log.given[7:10]}
    checks.same("they are marked as redelivered", {True}, flags)


def full_pipes(checks):
    """Lines that a pipe has no room for are written once the consumer reads. A consumer that doesn't read is silent."""
    lines = [b"%d " % it + b"x" * 50000 + b"\n" for it in range(32)]
    folder = checks.room / "pipes"
    folder.mkdir()
    reads = consumer.Consumer(("cat",), str(folder), SECONDS)
    waits = consumer.Consumer(("sleep", "10000"), str(folder), 0.5)
    for it in (reads, waits):
        it.start()
        for line in lines:
            it.give(line)
        it.close()
    for it, wanted, end in ((reads, lines, consumer.Ended), (waits, [], consumer.Silent)):
        found = []
        try:
            while True:
                found.append(it.answer() + b"\n")
        except (consumer.Ended, consumer.Silent) as why:
            checks.same("a full pipe: how it ends", end, type(why))
        checks.same("a full pipe: the lines that are read", wanted, found)
        it.kill()


def writes(checks):
    """A kill before an answer comes at the chosen write: a consumer with two writes has done none or one of them."""
    if not is_traced():
        return
    text = STUB.format(f"open('one', 'a').write('x'); open('two', 'a').write('x'); {PRINTS}")
    command = checks.stub("writes.py", text)
    sizes = set()
    for part in (0, 0.2, 0.4, 0.6, 0.8, 0.99):
        _, play, verdict = played(checks, command, (cases.Kill(1, cases.BEFORE, part),))
        checks.same(f"kill after {part} of the writes: the verdict", None, verdict)
        found = [len((checks.room / "play" / it).read_text()) - len(play.log.given) for it in ("one", "two")]
        sizes.add(tuple(found))
    checks.same("how many of both writes are missing", {(-1, -1), (0, -1), (0, 0)}, sizes)
    command = checks.stub("counts.py", STUB.format("; ".join([*CHANGES, PRINTS])))
    measure = played(checks, command, ())[1].measure
    # (the state is opened, written and renamed, and the answer is written)
    checks.same("the calls that count as writes", len(CHANGES) + 4, measure.writes)


def without_tracing(checks):
    """A system that doesn't permit it: kills come at times, and everything else is the same."""
    kept, tracing.Traced = tracing.Traced, refused
    try:
        command = [*checks.command_of("remembering.py"), "book"]
        kills = tuple(cases.Kill(place, kind, 0.5) for place, kind in enumerate(cases.IN_TURN, 3))
        _, play, verdict = played(checks, command, kills)
        checks.same("not traced: the verdict, and the kills", (None, 3), (verdict, len(play.log.kills)))
        _, play, verdict = played(checks, checks.command_of("wrong/forgetting.py"), kills)
        checks.same("not traced: a restart that forgets is found", True, verdict is not None)
        keeper = tuple(checks.stub("keeper.py", BOOKKEEPER))
        # (the last kill comes when fewer deliveries are left than the consumer waits for)
        last = len(played(checks, command, ())[0].stream.lines) - 1
        for size in (4, 32):
            way = plays.Way((*keeper, str(size), "{}"), plays.BATCHES, size, "echo 1 2 3 4 5")
            verdict = played(checks, (), (*kills, cases.Kill(last, cases.AFTER)), way=way)[2]
            checks.same(f"not traced, in batches of {size}: the book is compared", "book", verdict.kind)
    finally:
        tracing.Traced = kept


def refused(process):
    raise tracing.Refused(f"process {process}")


def answers(checks):
    """Answers are compared by their meaning."""
    account = {"id": "2", **dict.fromkeys(streams.SUMS, "0"), "credits_posted": "200"}
    wanted = verdicts.Wanted("applied", 3, "7000", (account,))
    right = {"accounts": [account], "last": "7000", "applied": 3, "result": "applied", "delivery": 11}
    numbers = {"kind": "expect", "delivery": "11", "result": "applied", "applied": "3", "last": 7000, "more": [1],
               "accounts": [{**account, "credits_posted": 200, "id": 2}]}
    fewer = {**{it: right[it] for it in right if it != "delivery"}, "accounts": [{"id": "2", "credits_posted": "200"}]}
    duplicate = {**right, "result": "duplicate", "accounts": []}

    def with_sum(value):
        return {**right, "accounts": [{**account, "credits_posted": value}]}

    book = {"2": {**dict.fromkeys(streams.SUMS, "0"), "credits_posted": "100"}}
    for what, answer, text in [
        ("as it is wanted", right, None),
        ("numbers, another order, more members", numbers, None),
        ("without a number, and with some balances", fewer, None),
        ("another result", {**right, "result": "end"}, "expected applied, your consumer answered end"),
        ("a duplicate", duplicate, "expected applied, your consumer took it for a duplicate"),
        ("another balance", with_sum("201"), "account 2 has credits_posted 201, expected 200"),
        ("a balance in exponents", with_sum(2e2), "account 2 has credits_posted 200.0, expected 200"),
        ("no account", {**right, "accounts": []}, "account 2 is missing"),
        ("another account", {**right, "accounts": [account, {**account, "id": "3"}]}, "account 3 isn't expected"),
        ("another count", {**right, "applied": 4}, "your consumer has applied 4 events, expected 3"),
        ("another timestamp", {**right, "last": "6000"}, "the last timestamp is 6000, expected 7000"),
        ("no result", {}, "the answer has no member result"),
        ("another delivery", {**right, "delivery": 10}, "the answer is for delivery 10"),
        ("no list", {**right, "accounts": {}}, "accounts isn't a list of objects that each have an id"),
        ("no object", [], "expected a JSON object, your consumer printed []"),
        ("no text", {**right, "result": "\ud800\n"}, r"expected applied, your consumer answered \ud800\n"),
    ]:
        verdict = verdicts.verdict_of_answer(json.dumps(answer).encode(), 11, wanted, book)
        checks.same(f"an answer: {what}", text, verdict and verdict.text)
    twice = verdicts.duplicate_after({"applied": 3, "last": "7000"})
    verdict = verdicts.verdict_of_answer(json.dumps(right).encode(), 11, twice, book)
    text = "expected duplicate, your consumer applied it: account 2 has credits_posted 200, expected 100"
    checks.same("an answer: an event that is applied twice", text, verdict.text)
    either = dataclasses.replace(wanted, may_be_duplicate=True)
    for what, answer, text in [
        ("applied", right, None),
        ("a duplicate", duplicate, None),
        ("a duplicate, never applied", {**duplicate, "applied": 2}, "your consumer has applied 2 events, expected 3"),
        ("applied twice", {**right, "applied": 4}, "your consumer has applied 4 events, expected 3"),
        ("an end", {**right, "result": "end"}, "expected applied or duplicate, your consumer answered end"),
    ]:
        verdict = verdicts.verdict_of_answer(json.dumps(answer).encode(), 11, either, book)
        checks.same(f"an answer after a kill: {what}", text, verdict and verdict.text)
    for line, shown in [(b"ok", "ok"), (b"", "an empty line"), (b"[" * 100000, f"{'[' * 60}.."), (b"\xff", "\ufffd")]:
        verdict = verdicts.verdict_of_answer(line, 11, wanted, book)
        checks.same(f"an answer: {line[:9]}", f"expected a JSON object, your consumer printed {shown}", verdict.text)


def books(checks):
    """A book may be printed in several forms."""
    wanted = {"1": dict(zip(streams.SUMS, "0123")), "2": dict(zip(streams.SUMS, "4567"))}
    rows = [{"id": it, **wanted[it]} for it in wanted]
    for what, text, verdict in [
        ("as `books` prints accounts", "account 1 0 1 2 3\naccount 2 4 5 6 7\n", None),
        ("as SQLite prints rows", "2|4|5|6|7\n1|0|1|2|3\n", None),
        ("with tabs and commas", "1\t0\t1\t2\t3\n2, 4, 5, 6, 7\n\n", None),
        ("as JSON lines", "\n".join(map(json.dumps, [{"kind": "subscriber"}, *rows])), None),
        ("as a list", json.dumps(rows), None),
        ("with some balances", json.dumps([{"id": 1, "debits_posted": 1}, {"id": 2}]), None),
        ("another balance", "1 0 1 2 3\n2 4 5 6 8\n", "the book is wrong: account 2 has credits_posted 8, expected 7"),
        ("no account", "1 0 1 2 3\n", "the book is wrong: account 2 is missing"),
        ("nothing", "", "the book is wrong: account 1 is missing"),
        ("another line", "id|sums\n", "--book printed a line that isn't an account: id|sums"),
        ("control characters", "\x1b[1m\n", r"--book printed a line that isn't an account: \x1b[1m"),
        ("a deep object", "{" + '"id":{' * 100000, "--book printed a line that isn't an account: "),
    ]:
        found = verdicts.verdict_of_book(text, wanted)
        checks.same(f"a book: {what}", verdict, found and found.text[: len(verdict or found.text)])


def what_is_asked(checks):
    """Answers, acknowledgements, and acknowledgements of several."""
    keeper = checks.stub("keeper.py", BOOKKEEPER)
    printer = {
        "text": PRINTER.format(f"[print(*(a[n] for n in {COLUMNS})) for a in book.values()]"),
        "JSON": PRINTER.format("print(json.dumps(list(book.values())))"),
    }
    book = {it: shlex.join([*PYTHON, "-c", text]) for it, text in printer.items()}
    for what, seeds, flags, command in [
        ("acknowledgements", 2, ["--acks", "--book", book["text"]], ["1", "ok {}"]),
        ("batches of one", 2, ["--batches", 1, "--book", book["JSON"]], ["1", "{}"]),
        ("batches of four", 2, ["--batches", 4, "--book", book["JSON"]], ["4", "{}"]),
        ("batches of less than may be", 2, ["--batches", 9, "--book", book["text"]], ["2", '{{"delivery":{}}}']),
        ("batches of all deliveries", 1, ["--batches", 32, "--book", book["text"]], ["32", "{}"]),
        ("more kills than deliveries", 1, ["--acks", "--kills", 30, "--book", book["text"]], ["1", "ok {}"]),
        ("kills in batches", 2, ["--batches", 5, "--kills", 9, "--window", 8, "--book", book["text"]], ["5", "{}"]),
    ]:
        # (a consumer in batches may wait for more deliveries; the runner knows when none comes, and doesn't wait)
        began = time.monotonic()
        found = checks.over("--seeds", seeds, "--seconds", WAIT, *flags, command=[*keeper, *command])
        checks.same(what, (0, f"try-consumer: {seeds} passed, 0 failed\n", ""), found)
        checks.same(f"{what}: no wait", True, time.monotonic() - began < WAIT)
    keeps, sleeper = [*keeper, "1", "{}"], checks.room / "sleeper"
    ends, is_ended = "before it answered", "your consumer was ended by SIGTERM before it answered"
    wrong = "the book is wrong: account 2147483647 is missing"
    sleeps = "import time; sys.stdout.flush(); time.sleep(10000)"
    more = "print(json.dumps(answer) + ('\\nmore' if result == 'end' else ''))"
    silent = "import time; time.sleep(10000)"
    for what, flags, command, text in [
        ("no acknowledgement of so many", ["--batches", 2, "--seconds", 1, "--book", "true"], [*keeper, "3", "{}"],
         "delivery 1: no answer in 1 s"),
        ("an acknowledgement that isn't one", ["--batches", 2, "--book", "true"], [*keeper, "1", "ok"],
         "delivery 1: expected the number of a delivery from 1 to 2, your consumer printed ok"),
        ("a book that fails", ["--acks", "--book", "echo no >&2; exit 3"], keeps,
         "after delivery 22: --book ended with status 3: no"),
        ("a book that takes too long", ["--acks", "--seconds", 1, "--book", f"sleep 9999 & echo $! >'{sleeper}'; wait"],
         keeps, "after delivery 22: --book takes more than 1 s"),
        ("a wrong book", ["--acks", "--book", "echo 1 2 3 4 5"], keeps, f"after delivery 22: {wrong}"),
        ("a consumer that ends", [], checks.stub("ends.py", "import sys; input(); sys.exit('Error: it ends')"),
         f"delivery 1: your consumer ended with status 1 {ends}: Error: it ends"),
        ("a consumer that is killed", [], checks.stub("killed.py", "import os; input(); os.kill(os.getpid(), 15)"),
         f"delivery 1: {is_ended}"),
        ("a silent consumer", ["--seconds", 1], checks.stub("silent.py", silent), "delivery 1: no answer in 1 s"),
        ("two lines for each delivery", [], checks.stub("twice.py", STUB.format(f"{PRINTS}; {PRINTS}")),
         "delivery 2: the answer is for delivery 1"),
        ("a line too many", [], checks.stub("more.py", STUB.format(more)),
         "delivery 22: your consumer printed a line too many: more"),
        ("a consumer that doesn't end", ["--seconds", 1], checks.stub("endless.py", STUB.format(PRINTS) + sleeps),
         "after delivery 22: your consumer didn't end in 1 s after the end of its input"),
    ]:
        status, printed, errors = checks.over("--seed", 1, "--shrink", 0, *flags, command=command)
        checks.same(what, (1, f"without faults, {text}", ""), (status, printed.split("\n")[0], errors))
    processes = [int(sleeper.read_text())]
    wait_until(lambda: not running(processes), AT_ONCE)
    checks.same("a book that takes too long: what it has started ends", [], running(processes))


def reports(checks):
    """The report of a failure, its files and its replay, and JUnit XML."""
    command = checks.command_of("wrong/by_redelivered.py")
    whole = checks.over("--seed", 1, "--shrink", 0, "--files", "whole", "--junit", "junit.xml", command=command)
    again = checks.over("--seed", 1, "--shrink", 0, "--files", "again", command=command)
    checks.same("a seed does the same each time", [it.replace("again", "whole") for it in again[1:]], list(whole[1:]))
    lines = whole[1].splitlines()
    folder = checks.room / "whole"
    checks.same("the lines of a report", (1, 4), (whole[0], len(lines)))
    text = f"  files: {folder}; to replay: {RUNNER} --replay {folder} -- COMMAND"
    checks.same("the line of the files", text, lines[2])
    checks.same("the last line", "try-consumer: 0 passed, 1 failed", lines[3])
    files, others = ({it.name: it.read_bytes() for it in (checks.room / name).iterdir()} for name in ("whole", "again"))
    checks.same("the files are the same each time", *(without_times(it) for it in (files, others)))
    names = ["answers", "case.json", "expected", "given", "script", "steps", "verdict"]
    checks.same("the files", names, sorted(files))
    counts = [files[it].count(b"\n") for it in ("given", "expected", "answers")]
    checks.same("a line for each delivery", [16, 16, 16], counts)
    text = "\n".join(lines[:2]).replace("\n  ", "\n") + "\n"
    checks.same("the verdict is among them", text, files["verdict"].decode())
    found = checks.call("--replay", "whole", "--", *command)
    checks.same("a replay", (1, "\n".join(lines[:2]) + "\n", ""), found)
    right = [*checks.command_of("remembering.py"), "book"]
    status, printed, _ = checks.call("--replay", "whole", "--", *right)
    checks.same("a replay that passes", (0, True), (status, printed.startswith("the case passes: ")))
    checks.same("a replay of nothing", 2, checks.call("--replay", "none", "--", *right)[0])
    for name, flags in (("acks", ["--acks"]), ("batches", ["--batches", 3])):
        keeper = [*checks.stub("keeper.py", BOOKKEEPER), "1", "{}"]
        flags = [*flags, "--book", "echo 1 2 3 4 5", "--seed", 1, "--shrink", 0, "--files", name]
        status, printed, _ = checks.over(*flags, command=keeper)
        found = checks.call("--replay", name, "--", *keeper)
        wanted = (1, "".join(printed.splitlines(keepends=True)[:2]), "")
        checks.same(f"a replay of {name}, with its --book", wanted, found)
    suite = ElementTree.parse(checks.room / "junit.xml").getroot()
    counts = tuple(suite.get(it) for it in ("tests", "failures", "skipped"))
    checks.same("JUnit: the counts", ("1", "1", "0"), counts)
    checks.same("JUnit: the failure", lines[0], suite.find("testcase/failure").get("message"))
    flags = ["--seeds", 4, "--shrink", 0, "--all", "--junit", "all.xml"]
    status, printed, _ = checks.over(*flags, command=command, jobs=2)
    checks.same("--all: the last line", (1, "try-consumer: 0 passed, 4 failed"), (status, printed.splitlines()[-1]))
    checks.same("--all: a line for each", ["seed 2", "seed 3", "seed 4"], re.findall(r"(?m)^seed [2-4]", printed))
    paged(checks, command)
    status, printed, _ = checks.over("--seeds", 9, "--shrink", 0, "--junit", "some.xml", command=command, jobs=2)
    checks.same("the first failure ends it", "try-consumer: 0 passed, 1 failed, 8 not tried", printed.splitlines()[-1])
    suite = ElementTree.parse(checks.room / "some.xml").getroot()
    counts = tuple(suite.get(it) for it in ("tests", "failures", "skipped"))
    checks.same("JUnit: the rest is skipped", ("9", "1", "8", 8), (*counts, len(suite.findall("testcase/skipped"))))


def paged(checks, command):
    """The page of a failure opens at the step that takes the delivery with the error."""
    flags = ["--seed", 1, "--shrink", 0, "--files", "paged", "--page", "page.html"]
    printed = checks.over(*flags, command=command)[1].splitlines()
    page = checks.room / "page.html"
    checks.same("the line of the page", f"  page: {page}", printed[3])
    number = int(re.search(r"delivery (\d+): ", printed[0])[1])
    delivery = json.loads((checks.room / "paged/given").read_bytes().splitlines()[number - 1])
    data = json.loads(page.read_text().partition('id="data">')[2].partition("</script>")[0])
    step = data["steps"][int(data["opens"])]
    checks.same("the step at which the page opens", (["take", "1"], str(delivery["position"])), (step["step"], step["moved"]["position"]))


def without_times(files):
    """Returns the files of a case without how long a delivery takes, which differs from run to run."""
    return {name: re.sub(rb'"seconds": [0-9.e-]+', b"", data) for name, data in files.items()}


def smallest(checks):
    """The smallest case fails in the same way. The consumer here is a function, which applies each duplicate."""
    fails, tried = failing_at_duplicates()
    case = cases.drawn_case(checks.source, SCRIPT, 2, 200, 10, 3)
    kind = fails(case).kind
    until = time.monotonic() + SECONDS
    best, verdict = shrinking.Shrinker(checks.source, fails, until).shrunk(case, fails(case))
    checks.same("the smallest case fails in the same way", (kind, verdict), (verdict.kind, fails(best)))
    found = (len(best.stream.lines), best.stream.duplicates(), best.kills)
    checks.same("the smallest case: two deliveries, a duplicate, no kill", (2, [1], ()), found)
    requests = [it.split()[0] for it in best.recipe.script.splitlines() if it.startswith(("account ", "transfer "))]
    checks.same("the smallest case: one transfer is left", 1, requests.count("transfer"))
    checks.same("the smallest case: its recipe makes it", best.stream.lines, checks.source.stream(best.recipe).lines)
    alone = shrinking.Shrinker(checks.source, fails, until)
    alone.best, alone.verdict = case, fails(case)
    alone.fewer_kills()
    found = (alone.best.kills, alone.best.stream.lines[:1])
    checks.same("fewer kills: none is needed", ((), case.stream.lines[:1]), found)
    del tried[:]
    over = shrinking.Shrinker(checks.source, fails, time.monotonic() - 1).shrunk(case, fails(case))
    checks.same("no time: the case is cut", (shrinking.cut(case, fails(case)), 2), (over[0], len(tried)))
    first, best = (trials.Outcome(it, fails(it), plays.Log()) for it in (case, best))
    lines = [*sentences.lines_of(first), *sentences.lines_of_smallest(first, best, "a folder", "PROGRAM")]
    wanted = ["seed 2", "  done", "  smallest case", "  done", "  files"]
    checks.same("the report of a smallest case", wanted, [re.split("[,:]", it)[0] for it in lines])
    lines = sentences.lines_of_smallest(first, first, "a folder", "PROGRAM")
    checks.same("and if no smaller one was found", ["  files: 'a folder'; to replay: PROGRAM --replay 'a folder' -- COMMAND"], lines)


def failing_at_duplicates():
    """Returns a function that fails at the first duplicate of a case, and the cases that it has been called with. A
    case without a duplicate fails in another way."""
    tried = []

    def fails(case):
        tried.append(case)
        for at in case.stream.duplicates():
            return verdicts.Verdict("applied it", at + 1, "applied it", at)
        return verdicts.Verdict("text", 1, "another failure", 0)

    return fails, tried


def usage(checks):
    """Usage errors and other faults: status 2, and one line that names the fault."""
    no_answer = "needs --book, since no answer is compared"
    for what, arguments, text in [
        ("no command", [], "the command of your consumer is missing: it comes after --"),
        ("no --", ["cat"], "unrecognized arguments: cat"),
        ("--seeds 0", ["--seeds", "0", "--", "cat"], "argument --seeds: '0' is not a number from 1 to 100000"),
        ("--kills", ["--kills", "x", "--", "cat"], "argument --kills: 'x' is not a number from 0 to 100"),
        ("--acks without a book", ["--acks", "--", "cat"], f"--acks {no_answer}"),
        ("--batches without a book", ["--batches", "2", "--", "cat"], f"--batches {no_answer}"),
        ("two ways", ["--acks", "--answers", "--", "cat"], "argument --answers: not allowed with argument --acks"),
        ("--junit", ["--junit", "none/x", "--", "cat"], "--junit none/x: no such folder"),
        ("--page", ["--page", "none/x", "--", "cat"], "--page none/x: no such folder"),
        ("a page of a replay", ["--page", "x", "--replay", "y", "--", "cat"],
         "--page can't stand beside --replay, which makes no simulation"),
        ("an unknown flag", ["--slow", "--", "cat"], "unrecognized arguments: --slow"),
        ("lossy batches", ["--lossy", "--batches", "2", "--book", "cat", "--", "cat"],
         "--lossy can't stand beside --batches: after a kill it would be open which of them came too early"),
    ]:
        status, printed, errors = checks.call(*arguments)
        found = (status, printed, errors.splitlines()[-1])
        checks.same(f"usage: {what}", (2, "", f"try-consumer: error: {text}"), found)
    (checks.room / "bad.script").write_text("nothing\n", encoding="utf-8")
    (checks.room / "here").write_bytes(b"")
    unknown = "the script: 1:1: unknown_word: `nothing` begins no line of a script"
    for what, arguments, text in [
        ("no such command", ["--", "no-such-command"], "no-such-command: no such command"),
        ("no such script", ["--script", "none", "--", "cat"], f"{checks.room}/none: No such file or directory"),
        ("a bad script", ["--script", "bad.script", "--", "cat"], unknown),
        ("no such subscriber", ["--subscriber", "2", "--", "cat"], "--deliveries 2: the script has no such subscriber"),
        ("a book in this folder", ["--", *checks.command_of("remembering.py"), "here"],
         f"your consumer has changed {checks.room}/here, which all seeds share: name a new file\n"),
        ("another program", ["--program", shutil.which("cat"), "--", "cat"], "cat: unrecognized option"),
    ]:
        status, printed, errors = checks.call("--program", checks.program, *arguments)
        found = (status, printed, errors.count("\n"), errors.startswith("try-consumer: "), text in errors)
        checks.same(f"a fault: {what}", (2, "", 1, True, True), found)
    found = checks.call("--program", "/none", "--", "cat")
    checks.same("a fault: no program", (2, "", "try-consumer: /none is not a program\n"), found)
    status, printed, errors = checks.call("--help")
    begin = "usage: try-consumer [OPTIONS] -- COMMAND"
    checks.same("--help", (0, True, ""), (status, printed.startswith(begin), errors))
    checks.same("--help: 120 columns at most", [], [it for it in printed.splitlines() if len(it) > 120])


def progress(checks):
    """A terminal shows how many seeds are done. Nothing else does, which the other checks show."""
    command = checks.stub("right.py", STUB.format(PRINTS))
    terminal, its_end = pty.openpty()
    arguments = ["--program", checks.program, "--seeds", "2", "--kills", "0", "--jobs", "1", "--", *command]
    pipes = {**checks.pipes(), "stderr": its_end}
    done = subprocess.run([*PYTHON, RUNNER, *arguments], env=checks.environment(), timeout=SECONDS, **pipes)
    os.write(its_end, b".")
    shown = ""
    while not shown.endswith("."):
        shown += os.read(terminal, 10000).decode()
    for it in (its_end, terminal):
        os.close(it)
    lines = [f"\rtry-consumer: {it} of 2 seeds " for it in range(3)]
    checks.same("progress on a terminal", (0, "".join(lines) + "\r\033[K."), (done.returncode, shown))
    checks.same("the last line after progress", b"try-consumer: 2 passed, 0 failed\n", done.stdout)


def stopped(checks):
    """A stop ends the runner at once, with its workers and all consumers, and leaves no file."""
    pid, starts = (str(checks.room / it) for it in ("pid", "starts"))
    waits = WAITS.format(pid=pid, starts=starts)
    seed = STUB.format(f"if starts >= 3: wait()\n    {PRINTS}")
    traced = STUB.format(f"if starts >= 3 and is_traced(): wait()\n    {PRINTS}")
    fails = STUB.format(f"if starts >= 4: wait()\n    {PRINTS} if starts < 3 else print('wrong')")
    report = b"seed 1, delivery 1: expected a JSON object, your consumer printed wrong\n" \
        b"  done: 1 delivery, no duplicates among them; no kill\n"
    hangs = shlex.join([*PYTHON, "-c", f"{waits}wait()"])
    kinds = [
        ("at the first delivery", signal.SIGINT, [], waits + STUB.format("wait()")),
        ("in a seed", signal.SIGTERM, [], waits + seed),
        ("in a seed, with the terminal", signal.SIGHUP, [], waits + seed),
        ("in a seed, as a group", signal.SIGINT, [], waits + seed),
        ("while it prints a book", signal.SIGTERM, ["--acks", "--book", hangs], STUB.format(PRINTS)),
        ("while it shrinks a case", signal.SIGTERM, ["--seed", "1", "--kills", "0"], waits + fails),
        ("in a seed, by SIGKILL", signal.SIGKILL, [], waits + seed),
    ]
    if is_traced():
        kinds.append(("in a seed, up to a write", signal.SIGTERM, [], waits + traced))
        kinds.append(("in a seed, up to a write, by SIGKILL", signal.SIGKILL, [], waits + traced))
    for what, number, flags, text in kinds:
        for it in (pid, starts):
            if os.path.exists(it):
                os.remove(it)
        kill = os.killpg if "group" in what else os.kill
        arguments = [*flags, "--", *checks.stub("waits.py", text)]
        is_killed = number == signal.SIGKILL
        printed = report if "shrinks" in what else b""
        wanted = (-number if is_killed else 128 + number, printed, b"", [], is_killed)
        checks.same(f"stopped {what}, by {number.name}", wanted, stopped_run(checks, arguments, number, kill))
    for what, text, wanted in [
        ("a second stop changes nothing", "try: stop(15)\nfinally: stop(15); print(1)", 143),
        ("nohup has SIGHUP ignored", "signal.signal(1, signal.SIG_IGN); end_at_stops(); stop(1); print(1)", 0),
    ]:
        text = f"{ENDS_AT_STOPS}{text}"
        done = subprocess.run([*PYTHON, "-B", "-c", text], timeout=SECONDS, **checks.pipes())
        checks.same(what, (wanted, b"1\n", b""), (done.returncode, done.stdout, done.stderr))


def stopped_run(checks, arguments, number, kill):
    """Stops a run once its consumer has written where it is. Returns its status, what it printed, its processes that
    still run, and whether it has left its folder."""
    place = checks.room / "pid"
    command = [*PYTHON, RUNNER, "--program", checks.program, "--jobs", "2", "--seconds", "3600", *arguments]
    # (a shell may have its commands ignore stops)
    default = {"preexec_fn": lambda: [signal.signal(it, signal.SIG_DFL) for it in STOPS]}
    default.update(checks.pipes(), env=checks.environment(), start_new_session=True)
    with subprocess.Popen(command, **default) as run:
        wait_until(lambda: place.exists() or run.poll() is not None)
        processes = set(tracing.threads_of(run.pid)) - {run.pid}
        kill(run.pid, number)
        try:
            printed, errors = run.communicate(timeout=AT_ONCE)
        except subprocess.TimeoutExpired:
            os.killpg(run.pid, signal.SIGKILL)
            printed, errors = run.communicate()
    wait_until(lambda: not running(processes), AT_ONCE)
    still = sorted(running(processes))
    for it in still:
        os.kill(it, signal.SIGKILL)
    folder = pathlib.Path(place.read_text()).parent
    is_left = folder.exists()
    if folder.name.startswith("try-consumer-"):
        shutil.rmtree(folder, ignore_errors=True)
    return run.returncode, printed, errors, still, is_left


def running(processes):
    """Returns those of these processes that haven't ended."""
    found = []
    for it in processes:
        with contextlib.suppress(OSError), open(f"/proc/{it}/stat", encoding="ascii", errors="replace") as file:
            if file.read().rpartition(")")[2].split()[0] not in "ZX":
                found.append(it)
    return found


def wait_until(is_so, seconds=SECONDS):
    """Waits until something is so; the seconds are a last guard."""
    until = time.monotonic() + seconds
    while not is_so() and time.monotonic() < until:
        time.sleep(0.02)


def main(arguments):
    parser = rooms.parser_of_first(__doc__)
    parser.add_argument("--seeds", type=int, default=SEEDS, metavar="N",
                        help="of the right consumer in Python; default: %(default)s")
    parser.add_argument("--few", type=int, default=FEW, metavar="N", help="of the others; default: %(default)s")
    parser.add_argument("--soak", action="store_true", help=f"{SOAK} seeds of each; wrong consumers from seed 1 on")
    options = rooms.options_of(parser, arguments)
    seeds, few = (SOAK, SOAK) if options.soak else (options.seeds, options.few)
    with rooms.room("try_consumer-") as room:
        checks = Runner(options.program, room)
        for part in (answers, books, faults, given_lines, full_pipes, writes, without_tracing, what_is_asked, reports,
                     smallest, usage, progress, stopped):
            part(checks)
        wrong_ones(checks, options.soak)
        right_ones(checks, seeds, few)
        lossy_ones(checks, few)
    if checks.left_out:
        left_out = [f"{', '.join(sorted(what))}: {why}" for why, what in checks.left_out.items()]
        print(f"try_consumer: not tried: {'; '.join(left_out)}")
    print(f"try_consumer: {checks.passed} passed, {checks.failed} failed")
    return 1 if checks.failed else 0


if __name__ == "__main__":
    ending.run(main)
