"""Trials of a consumer under many seeds, side by side."""
import contextlib
import os
import shutil
import time
from dataclasses import dataclass

from . import Stop
from .cases import drawn_case, plain_case
from .plays import NOTHING, Play, measured
from .shrinking import Shrinker
from .workers import Workers


@dataclass(frozen=True)
class Settings:
    """What all trials share."""

    source: object
    way: object
    script: str
    steps: int
    faults: int
    kills: int
    lossy: bool
    room: str


@dataclass
class Outcome:
    """The outcome of a case: the verdict, or None if the consumer passes, what was done, and how many seconds it
    took."""

    case: object
    verdict: object
    log: object
    seconds: float = 0.0


class Trials:
    """Makes trials with up to `jobs` consumers at a time."""

    def __init__(self, settings, jobs):
        self.workers = Workers(jobs, settings)

    def __enter__(self):
        return self

    def __exit__(self, *_):
        self.workers.end()

    def plain(self):
        """Tries the case without faults. Returns its outcome, and the measure of a delivery."""
        return self.workers.call(try_plain)

    def seeds(self, seeds, measure, is_all):
        """Yields the outcome of each seed, in their order, up to the first that fails unless all are asked for."""
        with contextlib.closing(self.workers.each(try_seed, [(it, measure) for it in seeds])) as outcomes:
            for it in outcomes:
                yield it
                if it.verdict and not is_all:
                    return

    def shrunk(self, outcome, measure, seconds):
        """Returns the outcome of the smallest case that fails like this one."""
        return self.workers.call(shrink, outcome, measure, seconds)

    def replayed(self, case, measure):
        """Returns the outcome of a case that was kept."""
        return self.workers.call(try_case, case, measure)


def try_case(settings, case, measure):
    """Plays a case and returns its outcome."""
    folder = os.path.join(settings.room, f"{os.getpid()}-{case.seed}")
    began = time.monotonic()
    play = Play(case, settings.way, measure, folder, settings.source)
    try:
        verdict = play.verdict()
    finally:
        shutil.rmtree(folder, ignore_errors=True)
        if os.path.exists(f"{folder}.errors"):
            os.remove(f"{folder}.errors")
    return Outcome(case, verdict, play.log, time.monotonic() - began)


def try_plain(settings):
    case = plain_case(settings.source, settings.script)
    if not case.stream.lines:
        raise Stop("this subscriber receives no delivery")
    outcome = try_case(settings, case, NOTHING)
    if outcome.verdict:
        return outcome, NOTHING
    return outcome, measured(case, settings.way, os.path.join(settings.room, f"{os.getpid()}-0"))


def try_seed(settings, seed, measure):
    it = settings
    return try_case(it, drawn_case(it.source, it.script, seed, it.steps, it.faults, it.kills, it.lossy), measure)


def shrink(settings, outcome, measure, seconds):
    until = time.monotonic() + seconds
    shrinker = Shrinker(settings.source, lambda case: try_case(settings, case, measure).verdict, until)
    case, verdict = shrinker.shrunk(outcome.case, outcome.verdict)
    found = try_case(settings, case, measure)
    # (a consumer whose threads race may pass the second time)
    return found if found.verdict and found.verdict.kind == verdict.kind else outcome
