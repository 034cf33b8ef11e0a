"""Plays a case: gives a consumer its deliveries, kills it, starts it again, redelivers, and compares its answers."""
import collections
import contextlib
import json
import os
import shutil
import signal
import subprocess
import time
from dataclasses import dataclass, field, replace

from . import verdicts
from .cases import AFTER, BEFORE, LOST
from .consumer import LOOK, Consumer, Ended, Silent, kill_group
from .streams import SUMS, numbered
from .verdicts import Verdict

ANSWERS, ACKS, BATCHES = "answers", "acks", "batches"
MAY_BE_DONE = ("applied", "end")  # what may have come of a delivery before a kill, so that it is a duplicate later
SLOWER = 1.2  # a kill before an answer comes after up to so many times the measured time, if writes can't be counted
MEASURED = 6  # deliveries whose writes are counted
DEFAULT = 0.001  # seconds that a delivery is assumed to take if none could be measured


@dataclass(frozen=True)
class Way:
    """The command of the consumer, what is asked of it, the command that prints its book, and how long it may take."""

    command: tuple
    asked: str = ANSWERS
    window: int = 1
    book: str = None
    seconds: float = 60


@dataclass(frozen=True)
class Measure:
    """The measure of a delivery: how many writes it takes, or None if they can't be counted, and how many seconds."""

    writes: int
    seconds: float


NOTHING = Measure(None, 0.0)  # for a case without kills


@dataclass(frozen=True)
class Due:
    """A delivery that is due: its place in the stream, what is expected of it, and whether it was given before."""

    place: int
    wanted: object
    is_redelivered: bool = False


@dataclass
class Given:
    """A delivery as it was given: its number, its place in the stream, and what is expected of it."""

    number: int
    place: int
    wanted: object


@dataclass
class Log:
    """What was done: each line that was given, what was expected of it, what was answered, and the kills as text."""

    given: list = field(default_factory=list)
    wanted: list = field(default_factory=list)
    answers: list = field(default_factory=list)
    kills: list = field(default_factory=list)
    error: str = ""


class Failed(Exception):
    """The consumer has failed; `verdict` has how."""

    def __init__(self, verdict):
        super().__init__(verdict.text)
        self.verdict = verdict


class Play:
    """A case as it is played in a folder of its own, which is the consumer's."""

    def __init__(self, case, way, measure, folder, source=None):
        self.case, self.way, self.measure, self.folder, self.source = case, way, measure, folder, source
        self.log, self.book = Log(), {}
        self.pending = collections.deque(Due(at, verdicts.wanted_of(it)) for at, it in enumerate(case.stream.expected))
        self.given = collections.deque()  # the deliveries that aren't acknowledged yet
        self.kills = collections.deque(case.kills)
        self.taken = []  # the places of the deliveries that were acknowledged, in their order
        self.reached = -1  # the last one of them

    def verdict(self):
        """Plays the case, and returns the verdict, or None if the consumer passes."""
        shutil.rmtree(self.folder, ignore_errors=True)
        os.makedirs(self.folder)
        self.consumer = Consumer(self.way.command, self.folder, self.way.seconds)
        verdict = None
        try:
            self.consumer.start()
            self.play()
        except Failed as why:
            verdict = why.verdict
        finally:
            self.consumer.kill()
            self.log.error = self.consumer.last_error()
        return verdict

    def play(self):
        while self.pending or self.given:
            kill = self.fill()
            if kill:
                self.kill(kill)
            elif self.given:
                self.take_answer(self.next_answer())
        self.consumer.close()
        self.no_more()
        if self.way.book:
            self.compare_book()

    def fill(self):
        """Gives deliveries until as many as are allowed wait for an answer. Returns the kill that is due at the next
        one, if any. After the last delivery, ends the input of a consumer that may wait for more of them."""
        while self.pending and len(self.given) < self.way.window:
            if self.kills and self.kills[0].place <= self.pending[0].place:
                return self.kills.popleft()
            self.give()
        if not self.pending and self.way.asked == BATCHES:
            self.consumer.close()
        return None

    def give(self):
        """Gives the next delivery."""
        due, number = self.pending.popleft(), len(self.log.given) + 1
        line = numbered(self.case.stream.lines[due.place], number, due.is_redelivered)
        self.given.append(Given(number, due.place, due.wanted))
        self.log.given.append(line)
        self.log.wanted.append(due.wanted)
        self.consumer.give(line)

    # --------------------------------------------------------------------------------------------------------------
    # Answers.

    def next_answer(self):
        """Waits for the next line of the consumer."""
        try:
            return self.consumer.answer()
        except Ended as why:
            raise self.ended(why.status) from None
        except Silent:
            raise self.silent() from None

    def ended(self, status):
        """Returns the failure of a consumer that has ended by itself, or has closed its standard output."""
        text = "closed its standard output" if status is None else ending_of(status)
        error = verdicts.printable(self.consumer.last_error())
        text = f"your consumer {text} before it answered" + (f": {error}" if error else "")
        return Failed(Verdict("ended", self.given[0].number, text, self.given[0].place))

    def silent(self):
        text = f"no answer in {self.way.seconds:g} s"
        return Failed(Verdict("silent", self.given[0].number, text, self.given[0].place))

    def take_answer(self, line):
        """Takes a line as the answer to the deliveries that it acknowledges."""
        if not self.given:
            text = verdicts.shown(line.decode(errors="replace"))
            raise Failed(Verdict("more", len(self.log.given), f"your consumer printed a line too many: {text}"))
        count = 1
        if self.way.asked == BATCHES:
            count = self.acknowledged(line)
        for _ in range(count):
            given = self.given.popleft()
            self.log.answers.append((given.number, line))
            if self.way.asked == ANSWERS:
                verdict = verdicts.verdict_of_answer(line, given.number, given.wanted, self.book)
                if verdict:
                    raise Failed(Verdict(verdict.kind, verdict.delivery, verdict.text, given.place))
            self.reach(given)

    def acknowledged(self, line):
        """Returns how many deliveries a line acknowledges: all up to a number, which is the line or its member
        `delivery`."""
        number, last = number_in(line), self.given[-1].number
        if number is None or not self.given[0].number <= number <= last:
            text = line.decode(errors="replace")
            wanted = f"expected the number of a delivery from {self.given[0].number} to {last}"
            text = f"{wanted}, your consumer printed {verdicts.shown(text)}"
            raise Failed(Verdict("text", self.given[0].number, text, self.given[0].place))
        return number - self.given[0].number + 1

    def reach(self, given):
        """Takes over the balances that are expected after a delivery, which is acknowledged."""
        self.taken.append(given.place)
        self.reached = max(self.reached, given.place)
        for it in given.wanted.accounts:
            self.book[it["id"]] = {name: it[name] for name in SUMS}

    def no_more(self):
        """Waits until the consumer ends. It may not print any more."""
        try:
            line = self.consumer.answer()
        except Ended:
            return
        except Silent:
            text = f"your consumer didn't end in {self.way.seconds:g} s after the end of its input"
            raise Failed(Verdict("endless", None, text)) from None
        self.take_answer(line)

    def compare_book(self):
        """Compares what --book prints with the book that is expected."""
        text = printed_by(self.way.book, self.folder, self.way.seconds)
        verdict = verdicts.verdict_of_book(text, self.book)
        if verdict:
            raise Failed(verdict)

    # --------------------------------------------------------------------------------------------------------------
    # Kills.

    def kill(self, kill):
        """Gives the delivery at which a kill is due, kills the consumer before or after its answer to it, and starts
        it again."""
        number = len(self.log.given) + 1
        is_traced = self.measure.writes is not None and self.consumer.trace()
        self.give()
        if kill.kind == BEFORE:
            how = self.stop_before(kill, is_traced)
        else:
            while self.pending and len(self.given) < self.way.window:
                self.give()
            how = self.stop_after(number, is_traced)
        self.consumer.kill()
        self.after_kill(kill, number, how)
        self.consumer.start()

    def stop_before(self, kill, is_traced):
        """Lets the consumer run up to a write, or for a time. Returns which write it is, as text."""
        if not is_traced:
            time.sleep(kill.part * SLOWER * self.measure.seconds)
            return ""
        most = 1 + int(kill.part * self.measure.writes)
        self.traced_run(most, lambda: self.has_answered(self.given[0].number))
        return f" at its write {most}"

    def stop_after(self, number, is_traced):
        """Lets the consumer run until it has answered a delivery, or waits for more of them, as it may in batches."""
        if is_traced:
            self.traced_run(0, lambda: self.has_answered(number))
        elif self.way.asked == BATCHES:
            until = time.monotonic() + self.way.seconds
            while not self.has_answered(number) and not self.consumer.is_idle():
                if time.monotonic() > until:
                    raise self.silent()
                time.sleep(LOOK)
        else:
            self.take_answer(self.next_answer())
        return ""

    def traced_run(self, most, is_answered):
        """Lets the traced consumer run up to a write or its answer. Returns how many writes it has made."""
        is_idle = self.consumer.is_idle if self.way.asked == BATCHES else lambda: False
        writes, is_in_time = self.consumer.traced.run(most, is_answered, is_idle, self.way.seconds)
        if self.consumer.traced.status is not None:
            raise self.ended(self.consumer.traced.status)
        if not is_in_time:
            raise self.silent()
        return writes

    def has_answered(self, number):
        """Returns whether the consumer has printed the answer to a delivery, and it isn't taken yet."""
        self.consumer.take()
        if self.way.asked != BATCHES:
            return bool(self.consumer.lines)
        return any((number_in(it) or 0) >= number for it in self.consumer.lines)

    def after_kill(self, kill, number, how):
        """Takes the answers that came before the kill, and puts the deliveries that are due again before those that
        are pending."""
        is_answered = self.has_answered(number) or not any(it.number == number for it in self.given)
        is_lost = is_answered and kill.kind != AFTER
        self.log.kills.append(text_of_kill(number, how, is_answered, is_lost))
        for line in self.consumer.lines:
            self.take_answer(line)
        open_ones = [it.place for it in self.given]
        self.given.clear()
        first = self.reached + 1
        if is_lost:
            first = max(0, self.reached + 1 - (kill.lost if kill.kind == LOST else 1))
        lost = list(range(first, self.reached + 1))
        if self.case.recipe.lossy:
            self.give_again_by_the_program(lost, open_ones)
        else:
            again = [Due(it, verdicts.wanted_of(self.case.stream.expected[it], True), True) for it in open_ones]
            if lost:
                wanted = verdicts.duplicate_after(self.case.stream.expected[self.reached])
                again[:0] = [Due(it, wanted, True) for it in lost]
            self.pending.extendleft(reversed(again))

    def give_again_by_the_program(self, lost, open_ones):
        """The same for lossy deliveries, where one that is redelivered may change what comes of the next ones: the
        program has what comes of each."""
        again = [*lost, *open_ones]
        places = [*self.taken, *again, *(it.place for it in self.pending)]
        expected = self.source.followed([self.case.stream.lines[it] for it in places])
        start, open_from = len(self.taken), len(self.taken) + len(lost)
        self.pending = collections.deque(
            Due(place, verdicts.wanted_of(it, open_from <= at < start + len(again) and it["result"] in MAY_BE_DONE),
                at < start + len(again))
            for at, (place, it) in enumerate(zip(places, expected)) if at >= start)


def text_of_kill(number, how, is_answered, is_lost):
    if not is_answered:
        return f"killed at delivery {number}{how}, before its answer"
    return f"killed after the answer to delivery {number}" + (", which was lost" if is_lost else "")


def number_in(line):
    """Returns the number of an acknowledgement in batches, which is the line or its member `delivery`. None if it has
    none."""
    with contextlib.suppress(ValueError, KeyError, TypeError, OverflowError, RecursionError):
        value = json.loads(line.decode(errors="replace"))
        return int(value["delivery"] if isinstance(value, dict) else value)
    return None


def ending_of(status):
    """Returns how a process ended."""
    if status < 0:
        return f"was ended by {signal.Signals(-status).name}"
    return f"ended with status {status}"


def printed_by(command, folder, seconds):
    """Returns what a command of the shell prints in a folder."""
    how = {"stdin": subprocess.DEVNULL, "stdout": subprocess.PIPE, "stderr": subprocess.PIPE, "start_new_session": True}
    with subprocess.Popen(["sh", "-c", command], cwd=folder, **how) as process:
        try:
            printed, errors = process.communicate(timeout=seconds)
        except subprocess.TimeoutExpired:
            kill_group(process.pid)
            raise Failed(Verdict("no book", None, f"--book takes more than {seconds:g} s")) from None
    if process.returncode:
        lines = errors.decode(errors="replace").strip().splitlines()
        text = f"--book {ending_of(process.returncode)}" + (f": {verdicts.printable(lines[-1])}" if lines else "")
        raise Failed(Verdict("no book", None, text))
    return printed.decode(errors="replace")


def measured(case, way, folder):
    """Returns the measure of a delivery, over the first ones of a case. Nothing is killed."""
    play = Play(replace(case, kills=()), way, NOTHING, folder)
    shutil.rmtree(folder, ignore_errors=True)
    os.makedirs(folder)
    play.consumer = Consumer(way.command, folder, way.seconds)
    counts, times = [], []
    try:
        play.consumer.start()
        play.fill()
        play.take_answer(play.next_answer())
        is_traced = play.consumer.trace()
        while play.pending and len(times) < MEASURED:
            began = time.monotonic()
            play.fill()
            if is_traced:
                counts.append(play.traced_run(0, lambda: play.has_answered(play.given[0].number)))
            play.take_answer(play.next_answer())
            times.append(time.monotonic() - began)
    except Failed:
        pass  # (a consumer that does the same each time passes here, too)
    finally:
        play.consumer.kill()
    seconds = sorted(times)[len(times) // 2] if times else DEFAULT
    # (the first count may have what the consumer did after its answer to the delivery before)
    return Measure(max(counts[1:] or counts, default=None), seconds)
