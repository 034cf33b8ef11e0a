#!/usr/bin/env python3
"""Runs one script with each single thing that may go wrong, in small, middle and great windows: the output is always the same.

    tests/checks/losses.py [PROGRAM]    PROGRAM: crates/cdc_app/out/cdc_app

The script and what a run of it prints are those of a row of tests/rows. A lost confirm, a lost publish, a restart of the
connector and queues that rewind mustn't show in what is printed, wherever they come. The trace of each run has to agree with
its plan: what can be lost was lost, and each position at which a queue rewinds was redelivered (traces.py).

The last line is `losses: N passed, M failed`; the status is 1 where one failed.
"""
import concurrent.futures
import os
import subprocess
import sys

sys.dont_write_bytecode = True
sys.path.insert(0, os.path.join(os.path.dirname(os.path.realpath(__file__)), "..", "common"))
import ending
import rooms
import traces

ROW = f"{rooms.TOP}/tests/rows/run/a-confirm-is-lost-and-the-connector-restarts"
SECONDS, JOBS = 300, 2  # that a run may take, a last guard against one that hangs; runs at a time
WINDOWS = (1, 2, 64)
# Each thing that may go wrong, once, and several rewinds: flags with their values. The script has three events: the first queue
# gets all of them and the end mark, the second one event and the end mark. So some of these name what there never is.
FAULTS = [
    *[(flag, str(number)) for flag in ("--lose-confirm", "--lose-publish", "--restart-after") for number in range(1, 7)],
    *[("--repeat", f"1:{position}") for position in range(1, 5)],
    *[("--repeat", f"2:{position}") for position in (1, 2)],
    ("--repeat", "1:1", "--repeat", "1:2", "--repeat", "1:4"),
    ("--repeat", "2:2", "--repeat", "1:3", "--repeat", "2:1"),
]


def read(part):
    with open(f"{ROW}.{part}", "rb") as file:
        return file.read()


def complaint(program, arguments):
    """Returns what is wrong with a run of these arguments, or None."""
    try:
        ran = subprocess.run([program, *arguments], input=read("script"), capture_output=True, timeout=SECONDS)
    except subprocess.TimeoutExpired:
        return f"{' '.join(arguments)}: it hasn't ended after {SECONDS} seconds"
    if (ran.returncode, ran.stdout) == (0, read("stdout")):
        wrong = traces.complaints(arguments, ran.stdout.decode(), ran.stderr.decode(errors="replace"))
        return f"{' '.join(arguments)}: {'; '.join(wrong)}" if wrong else None
    return f"{' '.join(arguments)}: status {ran.returncode}, {ran.stdout[-300:]!r}, {ran.stderr[-200:]!r}"


def main(arguments):
    program = rooms.options_of(rooms.parser_of_first(__doc__), arguments).program
    runs = [["run", "-", "--trace", "--window", str(window), *fault] for window in WINDOWS for fault in FAULTS]
    with concurrent.futures.ThreadPoolExecutor(JOBS) as pool:
        wrong = [it for it in pool.map(lambda arguments: complaint(program, arguments), runs) if it]
    for it in wrong:
        print(f"failed: {it}")
    print(f"losses: {len(runs) - len(wrong)} passed, {len(wrong)} failed")
    return 1 if wrong else 0


if __name__ == "__main__":
    ending.run(main)
