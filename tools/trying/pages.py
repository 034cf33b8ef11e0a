"""The page of a case that fails: its simulation, step by step, which opens at the delivery that went wrong."""
import json
import os

BEGIN, END = '<script type="application/json" id="data">', "</script>"
FORMAT = '{"format":1,'


def write_page(source, outcome, folder, file):
    """Writes the page of a case whose files are in a folder."""
    script, steps = (os.path.join(folder, it) for it in ("script", "steps"))
    source.run(["simulate", script, steps, "--skip-refused", "--window", str(source.window), "--page", file])
    with open(file, encoding="ascii") as page:
        before, begin, rest = page.read().partition(BEGIN + FORMAT)
    data = json.loads(FORMAT + rest.partition(END)[0])
    step = step_of(data["steps"], source.subscriber, delivery_of(outcome))
    with open(file, "w", encoding="ascii") as page:
        page.write(f'{before}{begin}"opens":"{step}",{rest}')


def delivery_of(outcome):
    """Returns the number that the delivery with the error has in the simulation; of an error at the end, the last one's."""
    lines, place = outcome.case.stream.lines, outcome.verdict.place
    return json.loads(lines[-1 if place is None else place])["delivery"] if lines else 0


def step_of(steps, subscriber, delivery):
    """Returns the number of the step that takes this delivery of a subscriber, or 0 if none does."""
    taken = [number for number, it in enumerate(steps) if it and it["step"] == ["take", str(subscriber)]]
    return taken[delivery - 1] if 0 < delivery <= len(taken) else 0
