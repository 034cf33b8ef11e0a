"""Looks for the smallest case that fails in the same way as another one."""
import time
from dataclasses import replace

from . import Stop
from .cases import Case, drawn_kills
from .streams import Stream

DRAWS = 4  # how many draws of kills, and of numbers, are tried for each change of a recipe
PARTS = ("accounts ", "account ", "transfers ", "transfer ", "pulse ")  # the lines of a script that may be left out


class Shrinker:
    """Changes a case, in one way after another, until no change leaves it failing or the time is over. `fails` plays
    a case and returns the verdict on it, or None."""

    def __init__(self, source, fails, until):
        self.source, self.fails, self.until = source, fails, until
        self.best = self.verdict = None

    def shrunk(self, case, verdict):
        """Returns the smallest case that was found, and the verdict on it."""
        self.verdict, self.best = verdict, cut(case, verdict)
        changes = (self.fewer_kills, self.without_faults, self.fewer_deliveries, self.shorter_script, self.fewer_faults,
                   self.fewer_duplicates, self.fewer_steps)
        size = None
        while size != self.best.size() and not self.is_over():
            size = self.best.size()
            for it in changes:
                it()
        return self.best, self.verdict

    def is_over(self):
        return time.monotonic() > self.until

    def take(self, case):
        """Takes a case if it is smaller and fails in the same way. Returns whether it does."""
        if self.is_over() or not case.stream.lines or case.size() >= self.best.size():
            return False
        verdict = self.fails(case)
        if not verdict or verdict.kind != self.verdict.kind:
            return False
        self.best, self.verdict = cut(case, verdict), verdict
        return True

    def take_recipe(self, recipe):
        """Takes a case of a recipe if one fails: with these kills or as many others, with this number or a later one.
        Returns whether one is taken. The program may refuse the recipe."""
        kills = self.best.kills
        draws = DRAWS if kills or recipe.faults else 0
        for draw in range(1 + draws):
            tried = replace(recipe, number=recipe.number + draw // 2) if recipe.faults else recipe
            case = self.case_of(tried, kills)
            if not case:
                return False
            if draw:
                case = replace(case, kills=drawn_kills(case.stream, len(kills), f"{draw} of {tried.number}"))
            if self.take(case):
                return True
        return False

    def case_of(self, recipe, kills):
        """Returns the case of a recipe, cut to be smaller than the best one. None if that isn't possible."""
        empty = Case(self.best.seed, recipe, Stream((), ()), kills)
        length = self.best.room_for_lines(empty)
        try:
            stream = self.source.stream(recipe) if length > 0 else empty.stream
        except Stop:
            return None
        length = min(length, len(stream.lines))
        return up_to(replace(empty, stream=stream), length) if length > 0 else None

    def fewer_kills(self):
        self.take(replace(self.best, kills=()))
        at = 0
        while at < len(self.best.kills):
            kills = self.best.kills
            at += not self.take(replace(self.best, kills=kills[:at] + kills[at + 1 :]))

    def without_faults(self):
        recipe = self.best.recipe
        if recipe.faults:
            self.take_recipe(replace(self.whole(), steps=0, faults=0))

    def fewer_faults(self):
        recipe = self.best.recipe
        for faults in (1, recipe.faults // 4, recipe.faults // 2, recipe.faults - 1):
            for steps in (recipe.steps // 2, recipe.steps):
                tried = replace(self.whole(), steps=steps, faults=faults)
                if 0 < faults < recipe.faults and self.take_recipe(tried):
                    return

    def fewer_deliveries(self):
        count = len(self.best.stream.lines)
        for length in (count // 4, count // 2, count * 3 // 4, count - 1):
            if 0 < length < len(self.best.stream.lines):
                self.take(up_to(self.best, length))

    def fewer_duplicates(self):
        for at in reversed(self.best.stream.duplicates()):
            if at >= len(self.best.stream.lines):
                continue
            recipe = replace(self.best.recipe, dropped=self.best.recipe.dropped | {kept_places(self.best)[at]})
            kills = tuple(replace(it, place=it.place - (it.place > at)) for it in self.best.kills)
            self.take(Case(self.best.seed, recipe, self.source.stream(recipe), kills))

    def shorter_script(self):
        """Leaves out lines of the script: many at a time, then fewer."""
        self.take_script([it for it in self.lines() if it.strip() and not it.startswith("#")])
        size = len(self.lines()) // 2
        while size and not self.is_over():
            first = 0
            while first < len(self.lines()):
                lines = self.lines()
                kept = [it for at, it in enumerate(lines) if not first <= at < first + size or not it.startswith(PARTS)]
                if len(kept) == len(lines) or not self.take_script(kept):
                    first += size
            size //= 2

    def fewer_steps(self):
        """Leaves out steps of the step file, which has those of the simulation at first: many at a time, then fewer."""
        size = len(self.steps()) // 2
        while size and not self.is_over():
            first = 0
            while first < len(self.steps()):
                steps = self.steps()
                if not self.take_steps(steps[:first] + steps[first + size :]):
                    first += size
            size //= 2

    def steps(self):
        text = self.best.recipe.step_file
        lines = (self.best.stream.steps if text is None else text).splitlines(keepends=True)
        return [it for it in lines if not it.startswith("#")]

    def take_steps(self, steps):
        """Takes the case of a step file with these steps, if it fails. A step that the simulation refuses is skipped."""
        recipe = self.best.recipe
        recipe = replace(recipe, steps=0, faults=0, length=None, dropped=frozenset(), step_file="".join(steps))
        case = self.case_of(recipe, self.best.kills)
        return case is not None and self.take(case)

    def lines(self):
        return self.best.recipe.script.splitlines(keepends=True)

    def take_script(self, lines):
        return self.take_recipe(replace(self.whole(), script="".join(lines)))

    def whole(self):
        """Returns the recipe of the best case, of whose deliveries all are kept."""
        return replace(self.best.recipe, length=None, dropped=frozenset())


def kept_places(case):
    """Returns the places that the deliveries of a case have in the whole stream."""
    dropped = case.recipe.dropped
    return [at for at in range(len(case.stream.lines) + len(dropped)) if at not in dropped]


def cut(case, verdict):
    """Returns the case without the deliveries after the one that failed."""
    return case if verdict.place is None else up_to(case, verdict.place + 1)


def up_to(case, length):
    """Returns a case with the first `length` deliveries, and the kills among them."""
    recipe = replace(case.recipe, length=kept_places(case)[length - 1] + 1)
    kills = tuple(it for it in case.kills if it.place < length)
    return Case(case.seed, recipe, case.stream.cut(length, frozenset()), kills)
