"""What is done to a consumer under one seed: which deliveries it is given, and when it is killed."""
import random
from dataclasses import dataclass

from .streams import Recipe, below

# When a consumer is killed: before its answer, after it, or after it so that the answer is lost.
BEFORE, AFTER, LOST = "before", "after", "lost"
IN_TURN = (BEFORE, LOST, AFTER)
MOST_LOST = 3  # answers that one kill loses


@dataclass(frozen=True)
class Kill:
    """A kill at a delivery. A kill BEFORE its answer comes after a `part` of the way to it, from 0 to 1. `lost` is how
    many answers are LOST."""

    place: int
    kind: str
    part: float = 0.0
    lost: int = 1


@dataclass(frozen=True)
class Case:
    """A seed, the recipe of its deliveries, the deliveries, and the kills in the order of their places."""

    seed: int
    recipe: Recipe
    stream: object
    kills: tuple

    def size(self):
        """Returns a number that is smaller for a case that is easier to understand."""
        script, step_file = self.recipe.script.splitlines(), (self.recipe.step_file or "").splitlines()
        return 3 * len(self.kills) + 2 * len(self.stream.lines) + len(script) + len(step_file) + self.recipe.faults

    def room_for_lines(self, other):
        """Returns how many more deliveries another case may have and still be smaller than this one."""
        return (self.size() - 1 - other.size()) // 2


def drawn_kills(stream, count, name):
    """Returns `count` random kills. Three or more have each kind among them. Those before an answer are at deliveries
    that change the book, if there are any."""
    rng = random.Random(name)
    places = range(len(stream.lines))
    changing = [at for at in places if stream.expected[at]["result"] == "applied"] or places
    kills = []
    for number in range(count if stream.lines else 0):
        kind = IN_TURN[number] if number < len(IN_TURN) else IN_TURN[below(rng, len(IN_TURN))]
        among = changing if kind == BEFORE else places
        kills.append(Kill(among[below(rng, len(among))], kind, rng.random(), 1 + below(rng, MOST_LOST)))
    return tuple(sorted(kills, key=lambda it: it.place))


def drawn_case(source, script, seed, steps, faults, kills, lossy=False):
    """Returns the case of a seed."""
    recipe, stream = source.with_faults(Recipe(script, seed, steps, faults, lossy=lossy))
    return Case(seed, recipe, stream, drawn_kills(stream, kills, f"kills of seed {seed}"))


def plain_case(source, script):
    """Returns the case without faults, under the seed 0."""
    recipe = Recipe(script, 0, 0, 0)
    return Case(0, recipe, source.stream(recipe), ())
