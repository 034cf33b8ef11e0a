"""Runs that save, each interrupted at one call, and started again: ended at a call of the C library, before or after it, or with that
call refused (faults.c); and killed by signal 9 before a system call, or once a write has written a part."""
import collections
import concurrent.futures
import os
import random
import re
import shutil
import signal

import commands
import needs
import stepping
import sweep
from trying import tracing

JOBS = 2  # runs at a time
LONG = 50  # how many times as many kills in a row there are beyond the gate
CALLS = ("open", "read", "write", "sync", "rename")
SAVED = re.compile(r"(?m)^saved (\d+)\n")
# Where a run is killed: after so many calls that change something, and so many others after the last of them; the name of the next
# call, and how many bytes that writes before.
Point = collections.namedtuple("Point", "changes others name part")


class Interrupted:
    """A run of the command over a stream, in a folder. What extends it has `arguments`, by the name of what is saved, the `stream` as
    bytes, and `wrong_of`, by that name and by what an interrupted run came to: whether going on comes to something wrong."""

    is_killed_everywhere = True  # whether it is killed at each call, and not only at those that change something
    rows = 0  # how many runs are killed, and killed again after they went on over the whole stream

    def __init__(self, library, folder):
        self.library, self.folder = library, folder
        with open(self.path("stream"), "wb") as file:
            file.write(self.stream)

    def path(self, name):
        return os.path.join(self.folder, name)

    # ---- at a call of the C library

    def run(self, name, **plan):
        return commands.run(self.arguments(name), self.stream, dict(os.environ, LD_PRELOAD=self.library, **plan))

    def counted(self):
        """How many calls of each kind a run makes."""
        calls = self.path("calls")
        self.run("counted", CALLS=calls)
        with open(calls, encoding="ascii") as file:
            return {kind: int(count) for kind, count in (line.split() for line in file)}

    def plans(self):
        """Each call of the library by its number: ended before it, after it, refused, refused once done; each allocation refused."""
        counted = self.counted()
        calls = [f"{kind}:{n}" for kind in CALLS for n in range(1, counted[kind] + 1)]
        allocations = [f"allocation:{n}" for n in range(1, counted["allocation"] + 1)]
        return [*(f"{it}{how}" for how in (" end", " after end", "", " after") for it in calls), "short", *allocations]

    def complaint(self, number, plan):
        """What is wrong after the run was ended or a call was refused, and after it went on."""
        name = f"{number}.saved"
        status, printed, errors = ended = self.run(name, FAULT=plan)
        wrong = self.wrong_after(printed, name, self.wrong_of)
        if wrong:
            return f"{plan}: {ended!r}, then {wrong!r}"
        # A refused call is a fault, but for a write to standard output, after which nothing can be printed.
        if "end" in plan or status == 0 or (status == 1 and ("write" in plan or "".join(printed.splitlines()[-1:]).startswith("fault: "))):
            return None
        return f"{plan}: {ended!r}"

    @staticmethod
    def wrong_after(printed, name, wrong_of):
        """What is wrong after a run that has printed this."""
        saved = [int(it) for it in SAVED.findall(printed)]
        return saved if saved != sorted(saved) else wrong_of(name, saved)

    # ---- at a system call

    def wrong_of_kill(self, name, saved):
        """The same as `wrong_of`, of a run that was killed."""
        return self.wrong_of(name, saved)

    def stepped(self, name):
        with open(self.path("stream"), "rb") as stream:
            return stepping.Stepped([commands.program, commands.command, *self.arguments(name)], stream)

    def points(self, is_everywhere):
        """Where a run is killed: at each call, or at those that change something."""
        points, changes, others, self.stops = [], 0, 0, 0
        run = self.stepped("points")
        while run.step():
            self.stops += 1
            if not run.is_before():
                continue
            is_change = run.is_change()
            if is_change or is_everywhere:
                points += [Point(changes, others, run.name(), it) for it in run.parts(is_everywhere)]
            changes, others = (changes + 1, 0) if is_change else (changes, others + 1)
        commands.check("a run that is stepped", run.status == 0 and changes, (run.status, run.printed()))
        return points

    def kill_at(self, name, point):
        """Kills a run at a point. (How often memory is asked for isn't the same in each run; so it is killed at the next change at the
        latest.) Returns its status and what it has printed."""
        changes = others = 0
        run = self.stepped(name)
        while run.step():
            if not run.is_before():
                continue
            is_change = run.is_change()
            if changes == point.changes and (is_change or (others, run.name()) == (point.others, point.name)):
                if point.part:
                    run.write_part(point.part)
                run.kill()
                break
            changes, others = (changes + 1, 0) if is_change else (changes, others + 1)
        return run.status, run.printed()[0]

    def complaint_of_kill(self, number, point):
        """What is wrong after a run was killed at a point, and after it went on."""
        name = f"{number}.killed"
        status, printed = self.kill_at(name, point)
        if status != -signal.SIGKILL:
            return f"{point}: status {status}"
        wrong = self.wrong_after(printed, name, self.wrong_of_kill)
        return f"{point}: {printed!r}, then {wrong!r}" if wrong else None


    def complaint_of_row(self, seed):
        """What is wrong after a run was killed at a random stop, and so were one or two that went on from there."""
        chosen, name, printed = random.Random(seed), f"{seed}.row", ""
        for _ in range(chosen.choice([2, 2, 3])):
            run = self.stepped(name)
            if all(run.step() for _ in range(chosen.randrange(self.stops))):
                run.kill()
            printed += run.printed()[0]
        wrong = self.wrong_after(printed, name, self.wrong_of_kill)
        return f"kills in a row, seed {seed}: {printed!r}, then {wrong!r}" if wrong else None


def check_kills(made, folder):
    """Counts a check for each point at which a run is killed. `made`: what extends `Interrupted`."""
    it = made(None, folder)
    try:
        points = it.points(it.is_killed_everywhere or commands.is_long)
    except tracing.Refused as why:
        print(f"{commands.command}: not tried: runs that are killed at system calls: {why}")
        return
    for number, point in enumerate(points):
        wrong = it.complaint_of_kill(number, point)
        commands.check("killed", wrong is None, wrong)
    for seed in range(it.rows * (LONG if commands.is_long else 1)):
        wrong = it.complaint_of_row(seed)
        commands.check("killed in a row", wrong is None, wrong)


def check_plans(made, folder):
    """Counts a check for each call of the C library that is refused, or at which a run is ended."""
    if not shutil.which("cc"):
        print(f"{commands.command}: not tried: runs that end at calls and are refused: {needs.no_command('cc')}")
        return
    it = made(sweep.built_library(folder), folder)
    plans = it.plans()
    with concurrent.futures.ThreadPoolExecutor(JOBS) as pool:
        for wrong in pool.map(it.complaint, range(len(plans)), plans):
            commands.check("killed or refused", wrong is None, wrong)


def check_all(made, folder):
    """Counts a check for each way in which a run is interrupted."""
    for check in (check_plans, check_kills):
        room = os.path.join(folder, check.__name__)
        os.mkdir(room)
        check(made, room)
