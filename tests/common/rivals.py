"""Two runs of `follow` over one book at once. Which of them goes on, and for how many system calls, is random by a seed and not by the
speed of the machine (stepping.py)."""
import os
import random

import commands
import interrupted
import stepping
from trying import tracing

STARTS, LONG_STARTS = 500, 10_000  # pairs of runs, of all books: in the gate and beyond it
STOPS = 250  # what one run is ahead of the other by at most
BURSTS = (1, 1, 2, 4, 10, 40, 150)  # for how many stops a run goes on


def interleaved(chosen, runs):
    """Lets runs go on by turns, to their ends."""
    left = list(runs)
    first, count = chosen.choice(left), chosen.randrange(STOPS)
    while left:
        if not all(first.step() for _ in range(count)):
            left.remove(first)
        if left:
            first, count = chosen.choice(left), chosen.choice(BURSTS)


class Rivals:
    """Pairs of runs over a book in a folder. `lines`: their stream; `books`: what the book may hold after each of these, as a
    timestamp and a text; `kept`: what the file at a path holds; `left`: what an interrupted run may leave at `PATH.new`."""

    scheme = ""  # before the path
    is_replaced = True  # whether saves replace the file, so that there may be both a book and a leftover

    def __init__(self, folder, lines, books, kept, left):
        self.folder, self.lines, self.books, self.kept, self.left = folder, lines, books, kept, left

    def arguments(self, path):
        return ["--chained", "--every", "2", "--book", f"{self.scheme}{path}"]

    def stream(self, count):
        return "".join(f"{it}\n" for it in self.lines[:count]).encode()

    def started(self, path, count):
        """A run over the first lines of the stream, stopped before its first instruction."""
        name = os.path.join(self.folder, f"{count}.stream")
        if not os.path.exists(name):
            with open(name, "wb") as it:
                it.write(self.stream(count))
        with open(name, "rb") as it:
            return stepping.Stepped([commands.program, "follow", *self.arguments(path)], it)

    def begin(self, chosen, path):
        """Makes a book, or what an interrupted save leaves, or both, or nothing. Returns how many lines the book has."""
        count = chosen.choice([0, 0, chosen.randrange(1, len(self.lines))])
        if count:
            commands.run(self.arguments(path), self.stream(count))
        if chosen.random() < 0.3 and (self.is_replaced or not count):
            with open(f"{path}.new", "wb") as it:
                it.write(chosen.choice(self.left))
        return count

    def complaint(self, seed):
        """What is wrong after a pair of runs, or None."""
        chosen, path = random.Random(seed), os.path.join(self.folder, f"{seed}.kept")
        begun = self.begin(chosen, path)
        counts = [chosen.choice([len(self.lines), chosen.randrange(1, len(self.lines) + 1)]) for _ in range(2)]
        runs = [self.started(path, it) for it in counts]
        interleaved(chosen, runs)
        ended = [(run.status, *run.printed()) for run in runs]
        wrong = self.wrong_of(path, begun, counts, ended) or self.wrong_after(path)
        for it in os.listdir(self.folder):
            if it.startswith(f"{seed}.kept"):
                os.remove(os.path.join(self.folder, it))
        return f"start {seed}, from {begun} lines, of {counts} lines: {ended!r}: {wrong!r}" if wrong else None

    def wrong_of(self, path, begun, counts, ended):
        """One run has followed its stream to the end; the other one has, too, or is refused. The book has all that was reported."""
        if all(status != 0 for status, _, _ in ended):
            return "both are refused"
        found, least = self.kept(path), 0
        for count, (status, printed, errors) in zip(counts, ended):
            saved = [int(it) for it in interrupted.SAVED.findall(printed)]
            rest = interrupted.SAVED.sub("", printed)
            is_whole = status == 0 and saved and rest in [it[1] for it in self.books[count:]]
            is_refused = status == 1 and rest == "fault: store\n" and ": store: " in errors
            if not is_whole and not is_refused:
                return "a wrong end"
            least = max([least, self.books[count][0] if status == 0 else 0, *saved])
        return None if found in self.books and found[0] >= least else (found, least)

    def wrong_after(self, path):
        """What is wrong after a run over the whole stream."""
        again = commands.run(self.arguments(path), self.stream(len(self.lines)))
        names = [it for it in os.listdir(self.folder) if it.startswith(f"{os.path.basename(path)}")]
        is_right = again[0] == 0 and again[1].endswith(self.books[-1][1]) and self.kept(path) == self.books[-1]
        return None if is_right and names == [os.path.basename(path)] else (again, names)


def check_all(rivals, share):
    """Counts a check for each pair. `share`: the part of all pairs that has this kind of book."""
    for seed in range(int((LONG_STARTS if commands.is_long else STARTS) * share)):
        try:
            wrong = rivals.complaint(seed)
        except tracing.Refused as why:
            print(f"{commands.command}: not tried: two runs over one book: {why}")
            return
        commands.check("two runs over one book", wrong is None, wrong)
