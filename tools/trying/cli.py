"""The arguments of tools/try-consumer, and what it does with them."""
import argparse
import contextlib
import os
import shlex
import shutil
import sys
import tempfile
import time

from . import USAGE, Stop, pages, reports
from .plays import ACKS, ANSWERS, BATCHES, Way
from .streams import Source
from .trials import Settings, Trials
from .workers import end_at_stops

PARTS = os.path.dirname(os.path.dirname(os.path.realpath(__file__)))
IN_MEMORY = "/dev/shm"
PROGRAM, SCRIPT = "relayplum", "boundaries.script"
COLUMNS = 120  # of the help
MOST_TRIES, PAUSE = 100, 0.01  # to delete a folder, and seconds between two of them


def is_clone():
    """Returns whether this is in tools/ of a clone, instead of installed."""
    return os.path.isdir(os.path.join(PARTS, "build"))


def default_script():
    return os.path.join(PARTS, "..", "examples", SCRIPT) if is_clone() else os.path.join(PARTS, SCRIPT)


def program_of(given):
    """Returns the program: the given one, the installed one, or the clone's, which is built first if it doesn't fit
    the sources."""
    if given or not is_clone():
        path = given or os.path.join(PARTS, "..", "..", "bin", PROGRAM)
        if not os.path.isfile(path) or not os.access(path, os.X_OK):
            raise Stop(f"{path} is not a program")
        return os.path.realpath(path)
    import build
    from build.program import Program

    program = Program(os.path.dirname(PARTS))
    try:
        if not program.is_current():
            program.build()
    except build.Stop as why:
        raise Stop(str(why)) from None
    return program.path


def number(least, most):
    """Returns a function that reads a number within limits."""

    def read(text):
        if not text.isdigit() or not text.isascii() or not least <= int(text) <= most:
            raise argparse.ArgumentTypeError(f"{text!r} is not a number from {least} to {most}")
        return int(text)

    return read


def parser_of(text):
    parser = argparse.ArgumentParser(
        prog="try-consumer", usage="try-consumer [OPTIONS] -- COMMAND [ARGUMENT..]", description=text,
        allow_abbrev=False, formatter_class=lambda prog: argparse.RawDescriptionHelpFormatter(prog, width=COLUMNS))

    def add(group, flag, limits=None, **how):
        group.add_argument(flag, **how, **({"type": number(*limits)} if limits else {}))

    group = parser.add_argument_group("seeds")
    which = group.add_mutually_exclusive_group()
    add(which, "--seeds", (1, 100000), default=200, metavar="N", help="tries the seeds 1 to N [1-100000; default: 200]")
    add(which, "--seed", (1, 2**32 - 1), metavar="K", help="tries only this seed [1-4294967295]")
    add(which, "--replay", metavar="DIR", help="replays the case whose files are in DIR")
    add(group, "--all", action="store_true", help="goes on after a seed that fails")
    add(group, "--jobs", (1, 1024), metavar="N", help="seeds at a time [1-1024; default: one for each processor]")

    group = parser.add_argument_group("what your consumer prints")
    asked = group.add_mutually_exclusive_group()
    add(asked, "--answers", action="store_true",
        help="for each delivery its result, as `simulate --expect` does; the default")
    add(asked, "--acks", action="store_true", help="any line for each delivery; the book is compared at the end")
    add(asked, "--batches", (1, 32), metavar="N",
        help="the number of a delivery, which acknowledges it and up to N-1 before it; the book is compared [1-32]")
    add(group, "--book", metavar="COMMAND",
        help="a shell command that prints the book in the consumer's folder, after the consumer has ended")
    add(group, "--seconds", (1, 3600), default=60, metavar="N", help="time limit of an answer [1-3600; default: 60]")

    group = parser.add_argument_group("deliveries and faults")
    add(group, "--script", metavar="FILE", help="the script [default: examples/boundaries.script]")
    add(group, "--subscriber", (1, 8), default=1, metavar="I",
        help="the subscriber whose deliveries are given [1-8; default: 1]")
    add(group, "--kills", (0, 100), default=3, metavar="N", help="number of kills [0-100; default: 3]")
    add(group, "--faults", (0, 20000), default=10, metavar="N",
        help="number of faults, as with `simulate` [0-20000; default: 10]")
    add(group, "--steps", (0, 20000), default=200, metavar="N",
        help="number of steps, as with `simulate` [0-20000; default: 200]")
    add(group, "--lossy", action="store_true",
        help="also lose an event, let one overtake another, and deliver one of another queue: your consumer has to "
             "answer gap, by the member previous")
    add(group, "--window", (1, 64), default=1, metavar="N",
        help="window of the connector, as with `simulate` [1-64; default: 1]")
    add(group, "--program", metavar="PROGRAM",
        help="the program relayplum [default: the one of this clone, or in the folder of try-consumer]")

    group = parser.add_argument_group("reports")
    add(group, "--shrink", (0, 60), default=60, metavar="SECONDS",
        help="looks for the smallest case that fails, for at most SECONDS [0-60; default: 60]")
    add(group, "--files", metavar="DIR", help="writes the files of that case to DIR [default: a new temporary folder]")
    add(group, "--page", metavar="FILE",
        help="writes the simulation of that case to FILE, as a page that opens at the delivery with the error")
    add(group, "--junit", metavar="FILE", help="writes the outcome of each seed as JUnit XML")
    return parser


def arguments_of(text, given):
    """Returns the options, and the command after `--`."""
    parser = parser_of(text)
    at = given.index("--") if "--" in given else len(given)
    options, command = parser.parse_args(given[:at]), given[at + 1 :]
    if not command:
        parser.error("the command of your consumer is missing: it comes after --")
    for name in ("junit", "page"):
        path = getattr(options, name)
        if path and not os.path.isdir(os.path.dirname(os.path.abspath(path))):
            parser.error(f"--{name} {path}: no such folder")
    if options.page and options.replay:
        parser.error("--page can't stand beside --replay, which makes no simulation")
    if (options.acks or options.batches) and not options.book and not options.replay:
        parser.error(f"{'--acks' if options.acks else '--batches'} needs --book, since no answer is compared")
    if options.lossy and options.batches:
        parser.error("--lossy can't stand beside --batches: after a kill it would be open which of them came too early")
    for name in ("script", "junit", "files", "page"):
        path = getattr(options, name)
        if path:
            setattr(options, name, os.path.abspath(path))
    return options, command_of(command)


def command_of(command):
    """Returns a command that runs in another folder: files and folders among its arguments are named by their whole
    paths."""
    first = command[0] if os.sep in command[0] else shutil.which(command[0])
    if not first or not os.path.isfile(first) or not os.access(first, os.X_OK):
        raise Stop(f"{command[0]}: no such command")
    return (os.path.abspath(first), *(os.path.abspath(it) if os.path.exists(it) else it for it in command[1:]))


def script_of(options):
    try:
        with open(options.script or default_script(), encoding="utf-8") as file:
            return file.read()
    except (OSError, UnicodeDecodeError) as why:
        raise Stop(f"{options.script or default_script()}: {getattr(why, 'strerror', None) or 'not UTF-8'}") from None


def way_of(options, command):
    asked = ACKS if options.acks else BATCHES if options.batches else ANSWERS
    return Way(command, asked, options.batches or 1, options.book, options.seconds)


class Progress:
    """A line that counts the seeds, if standard error is a terminal."""

    def __init__(self, count):
        self.count, self.is_shown = count, sys.stderr is not None and sys.stderr.isatty()

    def show(self, done):
        if self.is_shown:
            print(f"\rtry-consumer: {done} of {self.count} seeds ", end="", file=sys.stderr, flush=True)

    def clear(self):
        if self.is_shown:
            print("\r\033[K", end="", file=sys.stderr, flush=True)


def stamps_of(command):
    """Returns for each file that a command names when it was changed."""
    files = [os.path.realpath(it) for it in command if os.path.isfile(it)]
    return {it: os.stat(it).st_mtime_ns for it in files}


def try_seeds(trials, options, seeds, command):
    """Tries the plain case, and then the seeds. Returns the outcomes, and the measure of a delivery."""
    stamps = stamps_of(command)
    plain, measure = trials.plain()
    changed = [it for it, stamp in stamps_of(command).items() if stamps.get(it) != stamp]
    if changed:
        raise Stop(f"your consumer has changed {changed[0]}, which all seeds share: name a new file")
    if plain.verdict:
        return [plain], measure
    progress, outcomes = Progress(len(seeds)), []
    progress.show(0)
    try:
        for outcome in trials.seeds(seeds, measure, options.all):
            outcomes.append(outcome)
            progress.show(len(outcomes))
    finally:
        progress.clear()
    return outcomes, measure


def report(trials, options, settings, outcomes, measure):
    """Prints the first failure, its smallest case and where the files of that are, and a line for each other failure.
    Returns the failures."""
    failed = [it for it in outcomes if it.verdict]
    if failed:
        first = smallest = failed[0]
        print("\n".join(reports.lines_of(first)), flush=True)
        if options.shrink:
            smallest = trials.shrunk(first, measure, options.shrink)
        folder = options.files or tempfile.mkdtemp(prefix="try-consumer-")
        reports.write_case(folder, smallest, settings.way, measure)
        print("\n".join(reports.lines_of_smallest(first, smallest, folder, sys.argv[0])))
        if options.page:
            pages.write_page(settings.source, smallest, folder, options.page)
            print(f"  page: {shlex.quote(options.page)}")
        for it in failed[1:]:
            print(reports.sentence(it))
    return failed


def write_junit(options, command, outcomes, seeds):
    if options.junit:
        tried = {it.case.seed for it in outcomes}
        reports.junit(options.junit, " ".join(command), outcomes, [it for it in seeds if it not in tried])


def kept_case(options):
    """Returns the case to replay, the measure of a delivery, and the options, with what was asked of the consumer."""
    try:
        case, measure, asked = reports.read_case(options.replay)
        options.acks, options.batches = asked["asked"] == ACKS, asked["window"] if asked["asked"] == BATCHES else None
        options.book = options.book or asked["book"]
    except (OSError, ValueError, KeyError, TypeError) as why:
        raise Stop(f"--replay {options.replay}: {getattr(why, 'strerror', None) or 'not a case'}") from None
    return case, measure, options


def replay(options, command):
    """Replays a case that was kept, and prints the verdict."""
    case, measure, options = kept_case(options)
    with temporary_folder() as room:
        source = None
        if case.recipe.lossy:
            source = Source(program_of(options.program), options.subscriber, options.window)
        settings = Settings(source, way_of(options, command), "", 0, 0, 0, case.recipe.lossy, room)
        with Trials(settings, 1) as trials:
            outcome = trials.replayed(case, measure)
    if outcome.verdict:
        print("\n".join(reports.lines_of(outcome)))
    else:
        print(f"the case passes: {reports.done(outcome)}")
    return 1 if outcome.verdict else 0


@contextlib.contextmanager
def temporary_folder():
    """A folder for those of the consumers, in memory if possible. A consumer that was killed may write to it for a
    while, so it may have to be deleted again."""
    in_memory = IN_MEMORY if os.access(IN_MEMORY, os.W_OK | os.X_OK) else None
    folder = tempfile.mkdtemp(prefix="try-consumer-", dir=in_memory)
    try:
        yield folder
    finally:
        for _ in range(MOST_TRIES):
            shutil.rmtree(folder, ignore_errors=True)
            if not os.path.exists(folder):
                break
            time.sleep(PAUSE)


def run(text, given):
    options, command = arguments_of(text, given)
    if options.replay:
        return replay(options, command)
    source, script = Source(program_of(options.program), options.subscriber, options.window), script_of(options)
    with temporary_folder() as room:
        way = way_of(options, command)
        settings = Settings(source, way, script, options.steps, options.faults, options.kills, options.lossy, room)
        with Trials(settings, options.jobs or len(os.sched_getaffinity(0))) as trials:
            seeds = [options.seed] if options.seed else range(1, options.seeds + 1)
            outcomes, measure = try_seeds(trials, options, seeds, command)
            write_junit(options, command, outcomes, seeds)
            failed = report(trials, options, settings, outcomes, measure)
    passed = len(outcomes) - len(failed)
    left = len(seeds) - len([it for it in outcomes if it.case.seed])
    print(f"try-consumer: {passed} passed, {len(failed)} failed" + (f", {left} not tried" if left else ""))
    return 1 if failed else 0


def main(text, given):
    end_at_stops()
    try:
        return run(text, given)
    except Stop as why:
        print(f"try-consumer: {why}", file=sys.stderr)
        return USAGE
    except BrokenPipeError:
        raise  # (nobody reads what is printed)
    except OSError as why:
        text = f"{why.filename}: {why.strerror}" if why.filename else str(why)
        print(f"try-consumer: {text}", file=sys.stderr)
        return USAGE
