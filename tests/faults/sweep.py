#!/usr/bin/env python3
"""Makes each allocation, each read and each write of the program fail in turn, and looks how it ends.

  tests/faults/sweep.py [--as-built] [PROGRAM [CALLS]]    PROGRAM: crates/cdc_app/out/cdc_app
                                                          CALLS: cdc_calls, from the same tree as PROGRAM

A small library, faults.c, is built and loaded before the C library; it refuses the call that a plan names. For every
run below, and for every call of it in turn:
- an allocation that is refused ends it with the one line of out_of_memory and status 1. Under `simulate` it refuses a step
  where it is the step's own: what is then printed is the state that the steps before it make when they are played
  alone. Each kind of step that always takes memory is refused so at some of its allocations. Random steps
  stand on standard error as they are without a refusal, or the command fails.
- an allocation that is refused once all is printed changes neither that nor the status; what standard error has with
  `--explain`, `--trace` and `--diagram`, and the notes, is printed whole or not at all. Of a step that ran out of memory
  none of it is printed.
- a read that is refused ends it with the one line of read_fault and status 1;
- a write that is refused ends it with status 1, a prefix of what it prints, and the write_fault on standard error;
  one of standard error's changes nothing that is printed, nor the status;
- reads and writes that fall short change nothing.
The same of bad files, whose commands end by status 2: of each line of standard error at least the front is there, or none of it.
Then the same of runs on threads, with each start of a thread and each call beneath a save or a load of progress: runs.py;
and each allocation of the calls that no command makes is refused, by the program cdc_calls: calls.py.
With --as-built the part of cdc_calls is left out where that isn't built, and a line reports that; `rt ci` builds it, and `rt run`
in its crate, and `relayplum` doesn't.
It needs a C compiler, `cc`. The last line is 'faults: N runs, M failed'; the status is 0 where none failed.
"""
import itertools
import os
import re
import shutil
import subprocess
import sys
import threading
from collections import Counter
from concurrent.futures import ThreadPoolExecutor

sys.dont_write_bytecode = True
sys.path += [os.path.join(os.path.dirname(os.path.realpath(__file__)), "..", it) for it in ("common", "checks")]
import calls
import ending
import needs
import rooms
import runs

HERE = os.path.dirname(os.path.realpath(__file__))
JOBS = 2
SECONDS = 300  # that a run may take: a last guard against one that hangs
NO_MEMORY = (1, b"fault: out_of_memory\n")
NO_MEMORY_JSON = (1, b'{"kind":"fault","name":"out_of_memory"}\n')
NOT_READ = {False: (1, b"fault: read_fault\n"), True: (1, b'{"kind":"fault","name":"read_fault"}\n')}
REFUSED = {
    False: re.compile(rb"^steps (\d+) of (\d+)\nrefused (\d+) out_of_memory\n", re.M),
    True: re.compile(
        rb'^{"kind":"steps","done":(\d+),"of":(\d+)}\n{"kind":"refused_step","step":(\d+),"name":"out_of_memory"}\n', re.M
    ),
}
STEPS = re.compile(rb'^(steps \d+ of \d+|{"kind":"steps","done":\d+,"of":\d+})\n', re.M)
# The last line of standard error where a command failed.
FAILED = b"relayplum: out_of_memory: no memory was left\n"
REPORTING = {"--explain", "--trace", "--diagram"}
# The kinds of steps that always take memory.
ALLOCATING = {b"batch", b"poll", b"publish", b"arrive", b"send", b"take"}
# The program, the library that refuses calls, and the folder for what runs read and write.
program = library = room = None
failures = []
counts = Counter()
counting = threading.Lock()


def example(name):
    return os.path.join(rooms.TOP, "examples", name)


EVERY = os.path.join(HERE, "every-request.script")
BAD = os.path.join(rooms.TOP, "tests", "rows", "books", "bad-script-an-unknown-key-whatever-its-value.script")
BAD_STEPS = os.path.join(rooms.TOP, "tests", "rows", "simulate", "bad-steps-a-word-of-no-step.steps")
# The arguments of each run, and the file that is its standard input, if there is one.
CASES = [
    (["books", example("two-phase.script")], None),
    (["books", EVERY], None),
    (["books", "-"], example("first-transfer.script")),
    (["books", example("refusals.script")], None),
    (["messages", example("two-phase.script")], None),
    (["messages", EVERY], None),
    (["messages", example("two-phase.script"), "--queue", "1"], None),
    (["simulate", example("two-phase.script"), example("two-phase.steps")], None),
    (["simulate", example("two-phase.script"), example("faults.steps")], None),
    (["simulate", EVERY, os.path.join(HERE, "every-step.steps")], None),
    (["simulate", example("two-phase.script"), "--random", "7", "--steps", "120"], None),
    (["books", "--json", EVERY], None),
    (["messages", example("two-phase.script"), "--json"], None),
    (["simulate", EVERY, os.path.join(HERE, "every-step.steps"), "--json"], None),
    (["books", EVERY, "--check"], None),
    (["simulate", EVERY, os.path.join(HERE, "every-step.steps"), "--check", "--json"], None),
    (["books", EVERY, "--explain"], None),
    (["books", os.path.join(HERE, "noted.script"), "--explain"], None),
    (["books", example("refusals.script"), "--explain", "--json"], None),
    (["simulate", EVERY, os.path.join(HERE, "every-step.steps"), "--explain", "--trace", "--diagram"], None),
]
# The same of bad files.
BAD_CASES = [
    (["books", BAD], None),
    (["books", BAD, "--json"], None),
    (["messages", "-", "--json"], BAD),
    (["books", BAD, "--check"], None),
    (["simulate", example("two-phase.script"), BAD_STEPS], None),
    (["simulate", example("two-phase.script"), BAD_STEPS, "--json"], None),
    (["simulate", example("two-phase.script"), BAD_STEPS, "--check"], None),
]


def built_library(folder):
    """Builds the library that refuses calls."""
    if not shutil.which("cc"):
        sys.exit(f"faults: {needs.no_command('cc')}, so nothing was tried")
    library = os.path.join(folder, "faults.so")
    subprocess.run(["cc", "-shared", "-fPIC", "-O1", "-Wall", "-Werror", "-o", library, f"{HERE}/faults.c"], check=True)
    return library


class Run:
    """How a run of the program ended: its status, what it printed, and what it said on standard error."""

    def __init__(self, arguments, stdin, **plan):
        with counting:
            counts["runs"] += 1
        env = dict(os.environ, LD_PRELOAD=library, **plan)
        with open(stdin or os.devnull, "rb") as given:
            done = subprocess.run([program, *arguments], stdin=given, capture_output=True, env=env, timeout=SECONDS)
        self.end = (done.returncode, done.stdout)
        self.errors = done.stderr


class Case:
    """A run of the program without a fault, and each with one."""

    def __init__(self, number, arguments, stdin, status=0):
        self.arguments, self.stdin, self.status = arguments, stdin, status
        self.name = " ".join(os.path.basename(it) for it in arguments)
        self.folder = os.path.join(room, str(number))
        os.mkdir(self.folder)
        calls = os.path.join(self.folder, "calls")
        self.is_json = "--json" in arguments
        self.good = Run(arguments, stdin, CALLS=calls)
        with open(calls, "rb") as file:
            self.calls = {kind.decode(): int(count) for kind, count in (line.split() for line in file)}
        self.played = {}
        self.made = b""
        if arguments[0] == "simulate":
            if "--random" in arguments:
                text = self.good.errors
                # (comments behind the last step report what came of the play)
                self.made = text[: re.match(rb"(?:.*\n)*(?!#).*\n", text).end()]
            else:
                with open(arguments[2], "rb") as file:
                    text = file.read()
            self.steps = [line for line in text.split(b"\n") if line.strip() and line[:1] != b"#"]
        self.whole_errors = self.errors_with_reports()

    def errors_with_reports(self):
        """What standard error may have once all is printed: the reports, how many deliveries were applied, and the notes, each
        whole or not at all. Where nothing is asked for, it may be anything."""
        if not REPORTING & set(self.arguments):
            return None
        plain = Run([it for it in self.arguments if it not in REPORTING], self.stdin).errors
        notes = b"".join(line for line in plain.splitlines(True) if b": note: " in line)
        applied = self.applied = b"".join(line for line in plain.splitlines(True) if line.endswith(b" deliveries\n"))
        reports = self.good.errors[: len(self.good.errors) - len(applied + notes)]
        if self.good.errors != reports + applied + notes or not reports:
            failures.append(f"failed: {self.name}: without a refusal standard error isn't reports, deliveries and notes")
        return {b"".join(it) for it in itertools.product((reports, b""), (applied, b""), (notes, b""))}

    def run(self, plan):
        return Run(self.arguments, self.stdin, FAULT=plan)

    def fail(self, plan, run):
        failures.append(
            f"failed: {self.name}, {plan}: status {run.end[0]}, {run.end[1][-200:]!r}, {run.errors[-200:]!r}"
        )

    def after(self, done):
        """What is printed after so many steps and no fault, without the line that counts them."""
        if done not in self.played:
            steps = os.path.join(self.folder, f"{done}.steps")
            with open(steps, "wb") as file:
                file.write(b"".join(step + b"\n" for step in self.steps[:done]))
            arguments = [*self.arguments[:2], steps] + (["--json"] if self.is_json else [])
            self.played[done] = STEPS.sub(b"", Run(arguments, self.stdin).end[1])
        return self.played[done]

    def refused_step(self, run):
        """The number of the step that was refused as out of memory, where the rest is as it has to be; else None."""
        found = REFUSED[self.is_json].search(run.end[1])
        if self.arguments[0] != "simulate" or run.end[0] != 1 or not found:
            return None
        done, count, refused = map(int, found.groups())
        rest = run.end[1][: found.start()] + run.end[1][found.end() :]
        return refused if count == len(self.steps) and refused == done + 1 and rest == self.after(done) else None

    def no_memory(self):
        """How a command ends that runs out of memory: as text, too, where it does before its arguments are read."""
        return [NO_MEMORY, NO_MEMORY_JSON] if self.is_json else [NO_MEMORY]

    def errors_are_right(self, step, run):
        """Whether standard error is as it has to be where an allocation was refused."""
        if run.end in self.no_memory():
            return run.errors.endswith(FAILED)
        if self.status:
            # (each line of a bad file's report, or the front of it that needs no memory)
            lines = self.good.errors.splitlines()
            return all(any(line.startswith(it) for line in lines) for it in run.errors.splitlines())
        if self.whole_errors is None:
            return run.errors.startswith(self.made)
        if step is None:
            return run.errors in self.whole_errors
        # (how many deliveries were applied may be the same without the step)
        return b"out_of_memory" in run.errors and not any(it in run.errors for it in self.whole_errors - {b"", self.applied})

    def allocations(self, pool):
        """Each allocation is refused in turn."""
        plans = [f"allocation:{n}" for n in range(1, self.calls["allocation"] + 1)]
        ended = list(zip(plans, pool.map(self.run, plans)))
        steps = [self.refused_step(run) for _, run in ended]
        for step, (plan, run) in zip(steps, ended):
            if step is None and run.end not in (self.good.end, *self.no_memory()) or not self.errors_are_right(step, run):
                self.fail(plan, run)
        found = [step for step in steps if step is not None]
        if found != sorted(found):
            failures.append(f"failed: {self.name}: allocations that come later are refused at earlier steps")
        if self.arguments[0] == "simulate" and "--check" not in self.arguments and not self.status:
            for kind in sorted(ALLOCATING - {self.steps[step - 1].split()[0] for step in found}):
                failures.append(f"failed: {self.name}: no step `{kind.decode()}` is refused as out of memory")
        counted = Counter("refused a step" if step else "ended the command" if run.end in self.no_memory() else "changed nothing"
                       for step, (_, run) in zip(steps, ended))
        return f"{len(plans)} allocations ({', '.join(f'{count} {what}' for what, count in sorted(counted.items()))})"

    def reads(self, pool):
        """Each read is refused in turn."""
        plans = [f"read:{n}" for n in range(1, self.calls["read"] + 1)]
        for plan, run in zip(plans, pool.map(self.run, plans)):
            if run.end != NOT_READ[self.is_json] or b": read_fault: " not in run.errors:
                self.fail(plan, run)
        return f"{len(plans)} reads"

    def writes(self, pool):
        """Each write is refused in turn, the first of which is standard output's."""
        plans = [f"write:{n}" for n in range(1, self.calls["write"] + 1)]
        for plan, run in zip(plans, pool.map(self.run, plans)):
            if plan != "write:1" and run.end == self.good.end:
                continue
            begins = self.good.end[1].startswith(run.end[1]) and run.end[1] != self.good.end[1]
            if run.end[0] != 1 or not begins or b"standard output: write_fault: " not in run.errors:
                self.fail(plan, run)
        return f"{len(plans)} writes"

    def short(self):
        """Reads and writes of one byte each change nothing."""
        run = self.run("short")
        if run.end != self.good.end:
            self.fail("short", run)

    def sweep(self, pool):
        if self.good.end[0] != self.status:
            self.fail("no fault", self.good)
        parts = [self.allocations(pool), self.reads(pool), self.writes(pool)]
        self.short()
        print(f"{self.name}: {', '.join(parts)}", flush=True)


def caller_of(options):
    """The program of the tests that makes the calls which no command makes; None if it is left out."""
    path = os.path.realpath(options.calls or f"{options.program}/../../../cdc_calls/out/cdc_calls")
    if os.access(path, os.X_OK):
        return path
    if not options.as_built:
        sys.exit(f"faults: there is no program {path}, which `rt run` makes in crates/cdc_calls")
    print("faults: not tried: cdc_calls, which isn't built")
    return None


def options_of(arguments):
    parser = rooms.parser_of_first(__doc__)
    parser.add_argument("calls", nargs="?", metavar="CALLS", help="default: cdc_calls, from the same tree as PROGRAM")
    parser.add_argument("--as-built", action="store_true", help="leaves the part of cdc_calls out if that isn't built")
    return rooms.options_of(parser, arguments)


def main(arguments):
    global program, library, room
    options = options_of(arguments)
    program = options.program
    caller = caller_of(options)
    with rooms.room("faults-") as room:
        library = built_library(room)
        with ThreadPoolExecutor(JOBS) as pool:
            cases = [(*it, 0) for it in CASES] + [(*it, 2) for it in BAD_CASES]
            for number, it in enumerate(cases):
                Case(number, *it).sweep(pool)
            parts = [runs.Sweep(program, library, room)]
            parts += [calls.Sweep(caller, library, room)] if caller else []
            for part in parts:
                part.sweep(pool)
                counts["runs"] += part.runs
                failures.extend(part.failures)
    for it in failures[:20]:
        print(it)
    print(f"faults: {counts['runs']} runs, {len(failures)} failed")
    return 1 if failures else 0


if __name__ == "__main__":
    ending.run(main)
