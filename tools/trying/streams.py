"""Deliveries with faults, and the expected result of each, as the program makes them from a script and a number."""
import contextlib
import json
import random
import re
import subprocess
import tempfile
from dataclasses import dataclass, replace

from . import Stop

SECONDS = 300  # that the program may take: a last guard
MOST_TRIES = 200  # numbers that are tried until the deliveries have each kind of duplicate
APART = 2**32  # the distance between these numbers
LEAST_NEW = 4  # events that are new, in deliveries which are made lossy
BOTH_KINDS = 4  # with so many faults or more, there are both kinds of duplicates
SUMS = ("debits_pending", "debits_posted", "credits_pending", "credits_posted")
PREVIOUS = re.compile(rb'"previous":"\d+"')
HEAD = re.compile(rb'\{"kind":"delivery","delivery":\d+,"position":(\d+),"redelivered":(true|false),')


@dataclass(frozen=True)
class Recipe:
    """What deliveries are made from: a script, a number, and how many random steps with how many faults, or the steps
    of a file. If they are lossy, some are lost, overtaken and foreign. Only the first `length` deliveries are kept,
    without those that are dropped."""

    script: str
    number: int
    steps: int
    faults: int
    length: int = None
    dropped: frozenset = frozenset()
    step_file: str = None
    lossy: bool = False


@dataclass(frozen=True)
class Stream:
    """Deliveries, each a line of JSON, the expected result of each, and the steps that make them."""

    lines: tuple
    expected: tuple
    steps: str = ""

    def duplicates(self):
        """Returns the places of events that are duplicates."""
        duplicates = [at for at, it in enumerate(self.expected) if it["result"] == "duplicate"]
        return [it for it in duplicates if b'"body":' in self.lines[it]]

    def has_gaps(self):
        """Returns whether some delivery comes too early."""
        return any(it["result"] == "gap" for it in self.expected)

    def kinds_of_duplicates(self):
        """Returns the kinds of duplicates that there are: true if redelivered, false if published twice."""
        return {HEAD.match(self.lines[at])[2] == b"true" for at in self.duplicates()}

    def cut(self, length, dropped):
        """Returns the first `length` deliveries, without those that are dropped."""
        kept = [at for at in range(len(self.lines))[:length] if at not in dropped]
        return Stream(tuple(self.lines[at] for at in kept), tuple(self.expected[at] for at in kept), self.steps)

    def book(self):
        """Returns the balances of each account by its id, after all deliveries."""
        book = {}
        for it in self.expected:
            for account in it["accounts"]:
                book[account["id"]] = {name: account[name] for name in SUMS}
        return book


@contextlib.contextmanager
def kept(text, suffix):
    """The name of a temporary file with this text."""
    with tempfile.NamedTemporaryFile("w", suffix=suffix) as file:
        file.write(text)
        file.flush()
        yield file.name


def numbered(line, number, is_redelivered):
    """Returns a delivery under another number, marked if it is redelivered."""
    head = HEAD.match(line)
    flag = b"true" if is_redelivered else head[2]
    fields = (number, head[1], flag)
    return b'{"kind":"delivery","delivery":%d,"position":%s,"redelivered":%s,' % fields + line[head.end() :]


def below(rng, count):
    """Returns a random number below a count. Each version of Python draws the same one."""
    return int(rng.random() * count)


def made_lossy(stream, name):
    """Returns the lines of a stream with three faults that a consumer of `previous` has to notice: an event that the
    next new one overtakes, with that one behind it once more; a copy of a later event that names no predecessor, as the
    first message of another queue does; and an event that is lost for good. A stream with fewer than four new events
    stays as it is."""
    rng = random.Random(f"losses of {name}")
    new = [at for at, it in enumerate(stream.expected) if it["result"] == "applied"]
    if len(new) < LEAST_NEW:
        return stream.lines
    # (the faults come one after another, so that none hides another one)
    thirds = [new[: len(new) // 3 or 1], new[len(new) // 3 or 1 : -2], new[-2:-1]]
    first, second, third = (among[below(rng, len(among))] for among in thirds)
    lines = []
    for at, line in enumerate(stream.lines):
        if at == first:
            overtaking = stream.lines[new[new.index(first) + 1]]
            lines += [overtaking, line]
        elif at == second:
            foreign = stream.lines[new[-1]]
            lines += [PREVIOUS.sub(b'"previous":"0"', foreign, count=1), line]
        elif not is_copy(stream.lines[third], line):
            lines.append(line)
    return tuple(lines)


def is_copy(line, other):
    """Returns whether two deliveries have the same event."""
    return line[HEAD.match(line).end() :] == other[HEAD.match(other).end() :]


class Source:
    """The program, the subscriber whose deliveries it prints, and a window."""

    def __init__(self, program, subscriber, window):
        self.program, self.subscriber, self.window = program, subscriber, window

    def stream(self, recipe):
        """Returns the deliveries of a recipe."""
        with kept(recipe.script, ".script") as script, kept(recipe.step_file or "", ".steps") as step_file:
            if recipe.step_file is None:
                asked = ["simulate", script, "--random", str(recipe.number), "--to-end"]
                asked += ["--steps", str(recipe.steps), "--faults", str(recipe.faults)]
            else:
                asked = ["simulate", script, step_file, "--skip-refused"]
            asked += ["--window", str(self.window), "--deliveries", str(self.subscriber)]
            lines, steps = self.run(asked)
            expected, _ = self.run([*asked, "--expect"])
        lines = tuple(it + b"\n" for it in lines.splitlines())
        stream = Stream(lines, self.results(expected, lines), recipe.step_file or steps)
        if not all(map(HEAD.match, lines)):
            raise self.other_version()
        if not recipe.lossy:
            return stream.cut(recipe.length, recipe.dropped)
        lines = made_lossy(stream, recipe.number)
        kept_lines = Stream(lines, lines, stream.steps).cut(recipe.length, recipe.dropped).lines
        return Stream(kept_lines, self.followed(kept_lines), stream.steps)

    def followed(self, lines):
        """Returns the expected results of deliveries to a consumer of `previous`."""
        printed, _ = self.run(["follow", "--chained", "--skip-gaps", "--expect"], b"".join(lines))
        return self.results(printed, lines)

    def results(self, printed, lines):
        """Returns the results that the program has printed for these deliveries."""
        try:
            results = tuple(map(json.loads, printed.splitlines()))
        except ValueError:
            results = ()
        if len(results) != len(lines):
            raise self.other_version()
        return results

    def other_version(self):
        return Stop(f"{self.program} is another version: it didn't print deliveries")

    def with_faults(self, recipe):
        """Returns a recipe whose deliveries have at least one duplicate of each kind, and these deliveries: this
        recipe or, if it lacks them, one with another number. Without faults, it is this one."""
        least = 2 if recipe.faults >= BOTH_KINDS else min(recipe.faults, 1)
        for attempt in range(MOST_TRIES):
            tried = replace(recipe, number=recipe.number + attempt * APART)
            stream = self.stream(tried)
            if len(stream.kinds_of_duplicates()) >= least and (stream.has_gaps() or not recipe.lossy):
                return tried, stream
        if recipe.lossy:
            raise Stop(f"seed {recipe.number}: none of {MOST_TRIES} simulations has the faults that are asked for")
        duplicates = "an event that is published twice and one that is redelivered" if least == 2 else "a duplicate"
        text = f"seed {recipe.number}: none of {MOST_TRIES} simulations has {duplicates}"
        raise Stop(f"{text}: set --faults higher, or to 0")

    def run(self, arguments, given=b""):
        """Runs the program over what it is given on standard input, and returns what it prints on standard output, and
        on standard error."""
        try:
            ran = subprocess.run([self.program, *arguments], input=given, stdout=subprocess.PIPE,
                                 stderr=subprocess.PIPE, timeout=SECONDS, check=False)
        except OSError as why:
            raise Stop(f"{self.program}: {why.strerror}") from None
        except subprocess.TimeoutExpired:
            raise Stop(f"{self.program}: no answer in {SECONDS} s") from None
        text = ran.stderr.decode(errors="replace")
        if ran.returncode:
            why = [it for it in text.splitlines() if not it.startswith("#")] or [f"status {ran.returncode}"]
            raise Stop(re.sub(r"^\S*\.script:", "the script: ", why[0]).replace("relayplum: ", ""))
        return ran.stdout, text
