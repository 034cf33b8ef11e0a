#!/usr/bin/env python3
"""Counts the instructions that the program takes, and prints them beside their limits.

  tests/checks/cost.py [PROGRAM] [--jobs N] [--only PART].. [--soak]    PROGRAM: crates/cdc_app/out/cdc_app
  tests/checks/cost.py [PROGRAM] --top N                     the N functions that a full script spends most in

The parts are accounts-2 and accounts-5000 (`books` on more and more transfers), full (a script of the greatest size),
subscribers (what each further one takes), peak (the memory that such a script holds), phases (pending transfers, posts and
a pulse), chains (transfers that are linked), log (reads of the log under `simulate`), memory (the bytes that `books` asks
for), lines (`follow` and `audit` of lines with a real ledger's numbers, in each form that has a fast reader), saves (`follow` with a
book, of such streams; --soak takes one ten times as large), checked (`follow --checked`, with that of `follow`) and chosen (streams
whose ids collide if the key of a hash is fixed). Valgrind counts, so other work on the machine disturbs no figure. All of it takes
some minutes of CPU time. The last line is 'N passed, M failed', of the figures that have limits; exit status 1 where one is over, 2
where nothing could be counted.
"""
import concurrent.futures
import math
import os
import re
import shutil
import subprocess
import sys
import tempfile

sys.dont_write_bytecode = True
sys.path[:0] = [os.path.join(os.path.dirname(os.path.realpath(__file__)), "..", it) for it in ("common", "bench")]
import chosen as chosen_ids
import ending
import rooms
import spent
import streams
from counting import bytes_of, counted, is_by_rattle, tool_arguments, total_of
from scripts import BATCH_ITEMS, SCRIPT_BYTES, TRANSFERS, batches, most_transfers, opened, script, single_phase, transfer

# The limits.
MORE = 3.0  # per cent, of what a further transfer costs, for each doubling
EXPONENT = 1.03  # of the instructions: a hash table that doubles between two sizes adds up to 0.021; n log n would be 1.12
# Instructions of the program that LLVM makes, and of the one that Rattle's own compiler makes, as it does of records.
FULL = {"books": (20_500, 29_500), "messages": (17_000, 24_500)}  # for each transfer of a full script
FURTHER = (5_670, 7_500)  # for each transfer and each subscriber beyond the first
# Megabytes that `books` of a full script may hold at once: 14 and 15 were measured, of which the code of the program takes 2 and
# 3; with each event kept to the end it was 27. What a system gives in larger pages adds some.
PEAK = (16, 17)
# What a transfer of a chain may cost, in single-phase transfers: what a chain keeps so that it can be undone takes 840 and 1,180
# instructions for each transfer.
LINKED = (1.05, 1.07)
FAILED = 2.0  # what an item of a chain may cost that fails at its end, in single-phase transfers
TIMES = 2.0  # what an item of two phases may cost, in single-phase transfers
# Instructions that a poll may take more for each doubling of the log. What the heap takes (malloc and the moves of a realloc)
# differs by up to 900 from one size to the next; a search from the front would take 3,750 more at the first doubling.
SEARCH = 1_200
BYTES_EXPONENT = 1.05  # of the bytes that growing lists ask for in all
FIRST = 395_000  # bytes that the first transfer may ask for: a segment of the log has room for 1,024 events

# Instructions for each line with a real ledger's numbers, by command and form: 5 per cent above what was measured. A line that no
# fast reader reads takes 70,000 and more.
LINE = {
    ("follow", "own"): (9_110, 9_740),
    ("follow", "documented"): (19_680, 21_200),
    ("follow --chained", "chained"): (9_570, 10_260),
    ("follow --chained", "message"): (10_390, 11_300),
    ("follow --chained", "numbered"): (10_460, 11_410),
    ("audit", "own"): (15_390, 14_910),
    ("audit", "message"): (16_650, 16_470),
}
CHECKED = 1.32  # what `follow --checked` may take, in what `follow` takes (MEASURED: the aim of 1.3 is missed by LLVM)
WITH_BOOK = 2.0  # what `follow` may take with a book, in what it takes without one
CHOSEN = 1.3  # what a stream with chosen ids may take, in what one with random ids takes
MANY_ACCOUNTS = 20  # what a save of 1,000 lines may take with 100,000 accounts, in what it takes with ten
NOTED = 1.5  # what a transfer may cost if the timestamps of the script decrease, in those of a script whose timestamps don't

# The timestamp of the first batch of posts: after those of transfers, and before a timeout of a second ends.
POSTS = 20_000_000


# ---------------------------------------------------------------- Scripts


def pending(count, accounts, timeout):
    return [transfer(number, accounts, f" flags=2 timeout={timeout(number)}") for number in range(1, count + 1)]


def posts(count, of):
    """Posts of the pending transfers 1 to `of`, the first `count` in an order of their own."""
    return [f"transfer id={of + place + 1} pending_id={place * 2_999 % of + 1} flags=4\n" for place in range(count)]


def one_timeout(_number):
    return 5


def many_timeouts(number):
    return number * 7 % 9 + 1


def polls(count, rounds):
    """Steps that let the connector read this many events of `count`, one after another."""
    lines = ["batch"] * (1 + -(-count // BATCH_ITEMS)) + ["start", "publish", "arrive 1"]
    for number in range(1, rounds + 1):
        lines += ["poll", "publish", f"arrive {number + 1}", f"answer {number}"]
    return "\n".join(lines) + "\n"


# ---------------------------------------------------------------- Counting


class Counter:
    """Runs the program under Valgrind, each run once, and as many side by side as there are jobs."""

    def __init__(self, program, folder, jobs, is_long):
        self.program, self.is_long = program, is_long
        self.compiler = 1 if is_by_rattle(program) else 0
        self.folder = folder
        self.pool = concurrent.futures.ThreadPoolExecutor(jobs)
        self.made = 0

    def script_of(self, text):
        """Writes a script, and returns the name of its file without its ending."""
        self.made += 1
        base = f"{self.folder}/{self.made}"
        with open(f"{base}.script", "w") as file:
            file.write(text)
        if len(text) > SCRIPT_BYTES:
            sys.exit(f"cost: a script of {len(text)} bytes is too long")
        return base

    def run(self, tool, text, steps, command="books"):
        base = self.script_of(text)
        arguments = [command, f"{base}.script"]
        if steps is not None:
            arguments = ["simulate", f"{base}.script", f"{base}.steps"]
            with open(f"{base}.steps", "w") as file:
                file.write(steps)
        return self.pool.submit(counted, [*tool_arguments(tool, f"{base}.out"), self.program, *arguments], f"{base}.out")

    def total(self, text, steps=None, command="books"):
        """A future of the instructions that the run takes."""
        return self.run("cachegrind", text, steps, command)

    def follow(self, stream, book=None, every=1_000):
        """A future of the instructions of `follow` over a stream. `book`: what its book holds at first; None is no book, and nothing
        is none yet."""
        self.made += 1
        path = f"{self.folder}/{self.made}.book"
        if book:
            with open(path, "w", encoding="ascii") as file:
                file.write(book)
        arguments = [self.program, "follow", stream] + (["--book", path, "--every", str(every)] if book is not None else [])
        return self.pool.submit(counted, [*tool_arguments("cachegrind", f"{path}.out"), *arguments], f"{path}.out")

    def over(self, command, stream):
        """A future of the instructions of a command over a stream."""
        self.made += 1
        out = f"{self.folder}/{self.made}.out"
        return self.pool.submit(counted, [*tool_arguments("cachegrind", out), self.program, *command.split(), stream], out)

    def chosen(self, count, kind):
        """Writes a stream whose ids are chosen, and returns its path."""
        path = f"{self.folder}/{kind}.stream"
        with open(path, "w", encoding="ascii") as file:
            file.writelines(chosen_ids.lines(kind, count))
        return path

    def stream_of(self, count, accounts, form="own"):
        """Writes a stream with a real ledger's numbers, and returns its path."""
        path = f"{self.folder}/{count}-{accounts}-{form}.stream"
        with open(path, "w", encoding="ascii") as file:
            file.writelines(streams.real_lines(count, accounts, form))
        return path

    def peak(self, text):
        """Returns the greatest memory that `books` of the script holds at once, in bytes."""
        return spent.Meter(self.folder).run([self.program, "books", f"{self.script_of(text)}.script"], self.folder).memory


# ---------------------------------------------------------------- The table


class Table:
    """Prints the rows as they come, and counts the figures that are within their limits, and those that are over."""

    def __init__(self):
        self.within, self.over = 0, 0

    def head(self, title):
        print(f"\n{title}")

    def row(self, what, figure, value=None, limit=None, unit=""):
        line = f"  {what:<58}{figure:>16,}"
        if value is not None:
            line += f"  {value:>9.2f}{unit}"
        if limit is not None:
            over = value > limit
            self.over += over
            self.within += not over
            line += f"  at most {limit:g}{unit}{'   OVER' if over else ''}"
        print(line, flush=True)


def scaling(counter, table, accounts, sizes):
    """What a further transfer costs between one size and the next, and how this grows."""
    runs = [counter.total(script(accounts, size)) for size in [0, *sizes]]
    totals = [total_of(run.result()) for run in runs]
    none, totals = totals[0], totals[1:]
    table.head(f"books, {accounts:,} accounts: instructions; exponent of the cost")
    table.row("no transfer", none)
    spans = []
    for at, (size, total) in enumerate(zip(sizes, totals)):
        if at == 0:
            table.row(f"{size:,} transfers", total)
            continue
        exponent = math.log((total - none) / (totals[at - 1] - none)) / math.log(size / sizes[at - 1])
        table.row(f"{size:,} transfers", total, exponent, EXPONENT)
        spans.append((sizes[at - 1], size, (total - totals[at - 1]) / (size - sizes[at - 1])))
    table.head(f"books, {accounts:,} accounts: instructions of a further transfer; how much more for each doubling")
    before = None
    for low, high, each in spans:
        midpoint = (low + high) / 2
        what = f"from {low:,} to {high:,} transfers"
        if before is None:
            table.row(what, round(each))
        else:
            doublings = math.log2(midpoint / before[0])
            more = ((each / before[1]) ** (1 / doublings) - 1) * 100
            table.row(what, round(each), more, MORE, " %")
        before = (midpoint, each)


def accounts_2(counter, table):
    scaling(counter, table, 2, [1_000, 2_000, 4_000, 8_000, 12_000])


def accounts_5000(counter, table):
    # From 2,500 transfers on every account stands in the book.
    scaling(counter, table, 5_000, [2_500, 5_000, most_transfers(5_000)])


def full(counter, table):
    count = most_transfers(2)
    runs = {command: counter.total(script(2, count), command=command) for command in FULL}
    totals = {command: total_of(run.result()) for command, run in runs.items()}
    table.head(f"a full script of 2 accounts and {count:,} transfers: instructions; of each transfer")
    for command, limits in FULL.items():
        table.row(f"{command}, from its text to what is printed", totals[command], totals[command] / count,
                  limits[counter.compiler])
    total = totals["books"]
    back = total_of(counter.total(script(2, count, 1)).result())
    table.row("the same at decreasing timestamps, which is noted", back, back / total, NOTED)


def subscribers(counter, table):
    count, further = 4_000, (1, 3, 7)
    text = script(2, count)
    totals = {more: total_of(run.result()) for more, run in [(it, counter.total("subscriber all\n" * it + text)) for it in (0, *further)]}
    table.head(f"books, {count:,} transfers: instructions; of each transfer for each further subscriber")
    for more in further:
        table.row(f"{more + 1} subscribers", totals[more], (totals[more] - totals[0]) / count / more,
                  FURTHER[counter.compiler])


def peak(counter, table):
    table.head("books, a full script of 2 accounts: bytes held at once; in megabytes")
    for more in (0, 7):
        # Each line of a subscriber takes the room of a transfer.
        held = counter.peak("subscriber all\n" * more + script(2, most_transfers(2) - more))
        table.row("8 subscribers" if more else "1 subscriber", held, held / 1e6, PEAK[counter.compiler])


def chains(counter, table):
    accounts, count = 2, 7_000
    first = opened(accounts)

    def linked(length, is_failing=False):
        lines = []
        for number in range(1, count + 1):
            is_last = number % length == 0
            line = transfer(number, accounts, "" if is_last else " flags=1")
            lines.append(line.replace("ledger=1", "ledger=2") if is_failing and is_last else line)
        return first + batches("transfers", lines, TRANSFERS)

    texts = {
        "none": first,
        "single": script(accounts, count),
        "two": linked(2),
        "thousand": linked(BATCH_ITEMS),
        "failing": linked(BATCH_ITEMS, is_failing=True),
    }
    runs = {name: counter.total(text) for name, text in texts.items()}
    totals = {name: total_of(run.result()) for name, run in runs.items()}
    table.head("books: instructions of a transfer; in single-phase transfers by themselves")
    single = (totals["single"] - totals["none"]) / count
    table.row(f"{count:,} transfers by themselves", round(single))
    for what, name, limit in (
        ("in chains of 2", "two", LINKED[counter.compiler]),
        ("in chains of 1,000", "thousand", LINKED[counter.compiler]),
        ("in chains of 1,000 that fail at their last item", "failing", FAILED),
    ):
        each = (totals[name] - totals["none"]) / count
        table.row(what, round(each), each / single, limit)


def phases(counter, table):
    accounts, count = 1_000, 7_000
    first = opened(accounts)
    scattered = first + batches("transfers", pending(count, accounts, many_timeouts), TRANSFERS)
    half = scattered + batches("transfers", posts(count // 2, count), POSTS)
    pulse = "pulse 1000000000000\n"
    texts = {
        "none": first,
        "single": script(accounts, count),
        "ordered": first + batches("transfers", pending(count, accounts, one_timeout), TRANSFERS),
        "scattered": scattered,
        "posted": scattered + batches("transfers", posts(count, count), POSTS),
        "pulsed": scattered + pulse,
        "half": half,
        "rest": half + pulse,
    }
    runs = {name: counter.total(text) for name, text in texts.items()}
    totals = {name: total_of(run.result()) for name, run in runs.items()}
    table.head(f"books, {accounts:,} accounts: instructions of an item; in single-phase transfers")
    single = (totals["single"] - totals["none"]) / count
    table.row(f"{count:,} single-phase transfers", round(single))
    for what, name, without, items in (
        ("pending transfers, all with one timeout", "ordered", "none", count),
        ("pending transfers that expire out of order", "scattered", "none", count),
        ("posts of these, out of order", "posted", "scattered", count),
        ("a pulse over all of these", "pulsed", "scattered", count),
        ("a pulse over those that are left after as many posts", "rest", "half", count // 2),
    ):
        each = (totals[name] - totals[without]) / items
        table.row(f"{items:,} {what}" if items == count else f"{items:,}: {what}", round(each), each / single, TIMES)


def log(counter, table):
    # The rounds of a poll are the same whatever the size, but for the search in the log.
    sizes, rounds = [1_250, 2_500, 5_000, 10_000], 100
    runs = [[counter.total(script(2, size), polls(size, count)) for count in (rounds, 2 * rounds)] for size in sizes]
    table.head("simulate: instructions of a poll and the steps that follow it; those that the size of the log adds")
    first = None
    for size, (some, more) in zip(sizes, runs):
        each = (total_of(more.result()) - total_of(some.result())) / rounds
        if first is None:
            first = each
            table.row(f"in a log of {size:,} events", round(each))
        else:
            table.row(f"in a log of {size:,} events", round(each), each - first, SEARCH * math.log2(size / sizes[0]))


def memory(counter, table):
    # A batch for each transfer, so that each list is asked to grow as often as it can be: one that grew by no more than
    # it needs would be copied each time, and its bytes would grow as the square.
    def alone(count):
        lines = pending(count, 2, one_timeout)
        return opened(2) + "".join(f"transfers {TRANSFERS + at}\n{line}" for at, line in enumerate(lines))

    sizes = [1, 500, 1_000, 2_000, 4_000, 8_000]
    none, *asked = [bytes_of(run.result())
                    for run in [counter.run("memcheck", text, None) for text in [opened(2), *map(alone, sizes)]]]
    table.head("books, a batch for each pending transfer with a timeout: bytes asked for; more than none, exponent")
    table.row("no transfer", none)
    for at, (size, total) in enumerate(zip(sizes, asked)):
        if size == 1:
            table.row("1 transfer", total, total - none, FIRST)
        elif at == 1:
            table.row(f"{size:,} transfers", total)
        else:
            exponent = math.log((total - none) / (asked[at - 1] - none)) / math.log(size / sizes[at - 1])
            table.row(f"{size:,} transfers", total, exponent, BYTES_EXPONENT)


def lines(counter, table):
    sizes, accounts = (1_000, 5_000), 100
    runs = {}
    for arguments, form in LINE:
        runs[arguments, form] = [counter.over(arguments, counter.stream_of(it, accounts, form)) for it in sizes]
    table.head("lines with a real ledger's numbers: instructions for each")
    for (arguments, form), limits in LINE.items():
        few, many = [total_of(run.result()) for run in runs[arguments, form]]
        each = (many - few) / (sizes[1] - sizes[0])
        table.row(f"{arguments}, {form}", round(each), each, limits[counter.compiler])


def saves(counter, table):
    count, accounts = (200_000, 97_000) if counter.is_long else (20_000, 9_700)
    stream = counter.stream_of(count, accounts)
    runs = [counter.follow(stream), counter.follow(stream, "")]
    # Two runs over 3,000 lines that differ in two saves, each of 1,000 lines that follow a save.
    sizes, lines = (10, 100_000), 3_000
    apart = {it: [counter.follow(counter.stream_of(lines, it), streams.real_book(it), every) for every in (1_000, lines)] for it in sizes}
    without, with_book = [total_of(run.result()) for run in runs]
    table.head(f"follow, {count:,} messages over {accounts:,} accounts: instructions; in those without a book")
    table.row("without a book", without)
    table.row("with one, saved after every 1,000 lines", with_book, with_book / without, WITH_BOOK)
    table.head("follow: instructions of a save of 1,000 lines; in those with ten accounts")
    few, many = [(more - less) / 2 for more, less in [[total_of(run.result()) for run in apart[it]] for it in sizes]]
    table.row(f"{sizes[0]:,} accounts", round(few))
    table.row(f"{sizes[1]:,} accounts", round(many), many / few, MANY_ACCOUNTS)


def checked(counter, table):
    count, accounts = (200_000, 97_000) if counter.is_long else (20_000, 9_700)
    stream = counter.stream_of(count, accounts)
    runs = [counter.over(it, stream) for it in ("follow", "follow --checked")]
    plain, total = [total_of(run.result()) for run in runs]
    table.head(f"{count:,} messages over {accounts:,} accounts: instructions; in those of follow")
    table.row("follow", plain)
    table.row("follow --checked", total, total / plain, CHECKED)


def chosen(counter, table):
    count, commands = 200_000 if counter.is_long else 5_000, ("follow", "audit")
    streams_of = {kind: counter.chosen(count, kind) for kind in chosen_ids.KINDS}
    runs = {(command, kind): counter.over(command, path) for command in commands for kind, path in streams_of.items()}
    totals = {it: total_of(run.result()) for it, run in runs.items()}
    table.head(f"{count:,} messages with chosen ids: instructions; in those with random ids")
    for command in commands:
        for kind in ("MULTIPLIER", "STATE"):
            total = totals[command, kind]
            table.row(f"{command}, {kind.lower()}", total, total / totals[command, "RANDOM"], CHOSEN)


def top(counter, count):
    """Prints the functions in which most of a full script's instructions are."""
    out = counter.run("callgrind", script(2, most_transfers(2)), None).result()
    for inclusive in ("yes", "no"):
        print(f"\n{'with all that they call' if inclusive == 'yes' else 'by themselves'}")
        ran = subprocess.run(["callgrind_annotate", f"--inclusive={inclusive}", out], capture_output=True, text=True)
        lines = [line for line in ran.stdout.splitlines() if re.match(r"\s*[\d,]+ \(", line)]
        print("\n".join(line[:160] for line in lines[:count + 1]))


COUNTS = {"accounts-2": accounts_2, "accounts-5000": accounts_5000, "full": full, "subscribers": subscribers,
          "peak": peak, "phases": phases, "chains": chains, "log": log, "memory": memory,
          "lines": lines, "saves": saves, "checked": checked, "chosen": chosen}


def main(arguments):
    parser = rooms.parser_of_first(__doc__)
    parser.add_argument("--jobs", type=int, default=2)
    parser.add_argument("--only", action="append", choices=COUNTS)
    parser.add_argument("--top", type=int)
    parser.add_argument("--soak", action="store_true", help="takes a stream of 200,000 messages")
    options = rooms.options_of(parser, arguments)
    if shutil.which("valgrind") is None:
        print("cost: there is no valgrind (Debian package valgrind), and nothing else counts instructions whatever the load")
        return 2
    table = Table()
    with tempfile.TemporaryDirectory(prefix="cost-") as folder:
        counter = Counter(options.program, folder, options.jobs, options.soak)
        if options.top:
            top(counter, options.top)
            return 0
        for part in options.only or COUNTS:
            COUNTS[part](counter, table)
    print(f"\n{table.within} passed, {table.over} failed")
    return 1 if table.over else 0


if __name__ == "__main__":
    ending.run(main)
