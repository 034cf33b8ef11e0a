#!/usr/bin/env python3
"""The consumers of examples/consumers, against the deliveries of random simulations: two of them are wrong, and are found out.

  tests/checks/consumers.py [PROGRAM] [--seeds N]    PROGRAM: crates/cdc_app/out/cdc_app; N seeds, 200 by default

A consumer reads what `simulate --random SEED --to-end --deliveries 1` prints, and prints what `--expect` has. Those without a check
for duplicates go wrong in just those seeds that have one, at the first one. The one that saves the last timestamp with its book
never does, even if it is killed between two lines and started again with the lines since: at one place of every fourth seed, and
at each place of some. It is killed when it has printed a line and waits for the next one, which comes through a pipe.

The last line is `consumers: N passed, M failed`; the status is 1 if one failed.
"""
import concurrent.futures
import json
import os
import pathlib
import random
import subprocess
import sys

sys.dont_write_bytecode = True
sys.path.insert(0, os.path.join(os.path.dirname(os.path.realpath(__file__)), "..", "common"))
import ending
import rooms

FOLDER = rooms.TOP / "examples/consumers"
WRONG, RIGHT = ("adding", "overwriting"), "remembering"
MOST_LINES = 40
SCRIPT = rooms.TOP / "examples/marketplace.script"
SECONDS, JOBS = 300, 2  # that a run may take, a last guard; seeds at a time
SEEDS, KILLED_EVERYWHERE = 200, 2


def command(name, *arguments):
    return [sys.executable, str(FOLDER / f"{name}.py"), *map(str, arguments)]


def output_of(arguments, lines=()):
    """Runs a program over these lines, and returns the lines that it prints."""
    done = subprocess.run(arguments, input=b"".join(lines), stdout=subprocess.PIPE, stderr=subprocess.DEVNULL, timeout=SECONDS)
    if done.returncode != 0:
        raise subprocess.CalledProcessError(done.returncode, arguments)
    return done.stdout.splitlines(keepends=True)


def first_difference(wanted, found):
    """Returns the place of the first line that isn't the same, or None."""
    if wanted == found:
        return None
    return next((at for at, pair in enumerate(zip(wanted, found)) if pair[0] != pair[1]), min(len(wanted), len(found)))


def killed(book, lines, place):
    """Runs the right consumer, kills it after so many lines, and starts it again with the others. Returns what both print."""
    found = []
    with subprocess.Popen(command(RIGHT, book), stdin=subprocess.PIPE, stdout=subprocess.PIPE) as run:
        for line in lines[:place]:
            run.stdin.write(line)
            run.stdin.flush()
            found.append(run.stdout.readline())
        run.kill()
    return found + output_of(command(RIGHT, book), lines[place:])


def try_seed(program, seed, room):
    """Tries the consumers on a seed. Returns whether it has a duplicate, the checks, and what is wrong."""
    arguments = [program, "simulate", str(SCRIPT), "--random", str(seed), "--to-end", "--deliveries", "1"]
    lines, wanted = output_of(arguments), output_of([*arguments, "--expect"])
    results = [json.loads(line)["result"] for line in wanted]
    duplicate = results.index("duplicate") if "duplicate" in results else None
    checks, wrong = 0, []

    def check(what, is_right):
        nonlocal checks
        checks += 1
        if not is_right:
            wrong.append(f"seed {seed}: {what}")

    check("the last event is followed by an end", "end" in results and len(lines) == len(wanted))
    for name in WRONG:
        at = first_difference(wanted, output_of(command(name), lines))
        check(f"{name}: it goes wrong at the first duplicate", at == duplicate)
    check(f"{RIGHT}: what is expected", output_of(command(RIGHT, room / f"{seed}.book"), lines) == wanted)
    places = range(len(lines) + 1)
    if seed > KILLED_EVERYWHERE:
        places = [random.Random(seed).choice(places)] if seed % 4 == 0 else []
    for place in places:
        found = killed(room / f"{seed}-{place}.book", lines, place)
        check(f"{RIGHT}, killed after {place} lines: what is expected", found == wanted)
    return duplicate is not None, checks, wrong


def main(arguments):
    parser = rooms.parser_of_first(__doc__)
    parser.add_argument("--seeds", type=int, default=SEEDS, metavar="N", help="default: %(default)s")
    options = rooms.options_of(parser, arguments)
    checks, wrong, with_duplicate = 0, [], 0
    for name in (*WRONG, RIGHT):
        checks += 1
        if len((FOLDER / f"{name}.py").read_text(encoding="utf-8").splitlines()) > MOST_LINES:
            wrong.append(f"{name}.py has more than {MOST_LINES} lines")
    with rooms.room("consumers-") as folder, concurrent.futures.ThreadPoolExecutor(JOBS) as pool:
        seeds = range(1, options.seeds + 1)
        for has_duplicate, count, found in pool.map(lambda seed: try_seed(options.program, seed, pathlib.Path(folder)), seeds):
            with_duplicate, checks = with_duplicate + has_duplicate, checks + count
            wrong += found
    checks += 1
    if not with_duplicate:
        wrong.append("no seed has a duplicate")
    for it in wrong[:10]:
        print(f"failed: {it}")
    print(f"consumers: {with_duplicate} of {options.seeds} seeds have a duplicate")
    print(f"consumers: {checks - len(wrong)} passed, {len(wrong)} failed")
    return 1 if wrong else 0


if __name__ == "__main__":
    ending.run(main)
