"""Reports on trials: verdicts as text, the files of a case that fails, and JUnit XML."""
import dataclasses
import json
import os
import shlex
from xml.etree import ElementTree

from .cases import Case, Kill
from .plays import Measure
from .streams import Recipe, Stream
from .verdicts import printable

CASE = "case.json"


def counted(count, one, more):
    """Returns a count with its noun."""
    return f"{count or 'no'} {one if count == 1 else more}"


def sentence(outcome):
    """Returns a verdict with its seed and its delivery."""
    verdict = outcome.verdict
    where = f"delivery {verdict.delivery}" if verdict.delivery else f"after delivery {len(outcome.log.given)}"
    seed = f"seed {outcome.case.seed}" if outcome.case.seed else "without faults"
    return f"{seed}, {where}: {verdict.text}"


def done(outcome):
    """Returns what was done to the consumer, as text."""
    duplicates = counted(sum(it.result == "duplicate" for it in outcome.log.wanted), "duplicate", "duplicates")
    given = counted(len(outcome.log.given), "delivery", "deliveries")
    return f"{given}, {duplicates} among them; {'; '.join(outcome.log.kills) or 'no kill'}"


def lines_of(outcome):
    """Returns the lines of a report on a case that failed."""
    return [sentence(outcome), f"  done: {done(outcome)}"]


def lines_of_smallest(outcome, smallest, folder, program):
    """Returns the lines of a report on the smallest case that fails like another one. Its files are in a folder."""
    lines = []
    if lines_of(smallest) != lines_of(outcome):
        lines = [f"  smallest case: {sentence(smallest)}", f"  done: {done(smallest)}"]
    folder = shlex.quote(folder)
    return [*lines, f"  files: {folder}; to replay: {program} --replay {folder} -- COMMAND"]


def write_case(folder, outcome, way, measure):
    """Writes the files of a case into a folder."""
    os.makedirs(folder, exist_ok=True)
    case, log = outcome.case, outcome.log
    texts = {
        "given": b"".join(log.given),
        "expected": "".join(f"{it.line(number)}\n" for number, it in enumerate(log.wanted, 1)).encode(),
        "answers": b"".join(line + b"\n" for _, line in log.answers),
        "script": case.recipe.script.encode(),
        "steps": case.stream.steps.encode(),
        "verdict": f"{sentence(outcome)}\ndone: {done(outcome)}\n".encode(),
        CASE: json.dumps({
            "seed": case.seed,
            "recipe": {**dataclasses.asdict(case.recipe), "dropped": sorted(case.recipe.dropped)},
            "lines": [it.decode() for it in case.stream.lines],
            "expected": case.stream.expected,
            "kills": [dataclasses.asdict(it) for it in case.kills],
            "measure": dataclasses.asdict(measure),
            "asked": {"asked": way.asked, "window": way.window, "book": way.book},
        }, indent=1).encode(),
    }
    for name, data in texts.items():
        with open(os.path.join(folder, name), "wb") as file:
            file.write(data)


def read_case(folder):
    """Returns a case that was written, the measure of a delivery, and what is asked of the consumer."""
    with open(os.path.join(folder, CASE), encoding="utf-8") as file:
        kept = json.load(file)
    recipe = Recipe(**{**kept["recipe"], "dropped": frozenset(kept["recipe"]["dropped"])})
    stream = Stream(tuple(it.encode() for it in kept["lines"]), tuple(kept["expected"]))
    case = Case(kept["seed"], recipe, stream, tuple(Kill(**it) for it in kept["kills"]))
    return case, Measure(**kept["measure"]), kept["asked"]


def junit(file, command, outcomes, left_out):
    """Writes a file of JUnit XML, with a test for each seed."""
    failed = sum(bool(it.verdict) for it in outcomes)
    counts = {"tests": str(len(outcomes) + len(left_out)), "failures": str(failed), "skipped": str(len(left_out))}
    seconds, command = f"{sum(it.seconds for it in outcomes):.3f}", printable(command)
    suite = ElementTree.Element("testsuite", {"name": "try-consumer", "errors": "0", "time": seconds, **counts})
    for it in outcomes:
        name = f"seed {it.case.seed}" if it.case.seed else "without faults"
        about = {"classname": command, "name": name, "time": f"{it.seconds:.3f}"}
        test = ElementTree.SubElement(suite, "testcase", about)
        if it.verdict:
            failure = ElementTree.SubElement(test, "failure", {"message": sentence(it)})
            failure.text = f"{sentence(it)}\ndone: {done(it)}"
    for seed in left_out:
        test = ElementTree.SubElement(suite, "testcase", {"classname": command, "name": f"seed {seed}", "time": "0"})
        ElementTree.SubElement(test, "skipped")
    ElementTree.ElementTree(suite).write(file, encoding="utf-8", xml_declaration=True)
