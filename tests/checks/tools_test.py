#!/usr/bin/env python3
"""Tests of tools/loop, in a small repository with stand-ins for `rt`, tests/run and tests/mutants.py, and of how tools/costs reads a
check. Nothing is proved. The table of steps in tools/loop is compared with tests/run and crates.txt. The last line is
'N passed, M failed'; the status is 1 if one failed.

  tests/checks/tools_test.py
"""
import argparse
import importlib.machinery
import importlib.util
import os
import shutil
import subprocess
import sys
import tempfile

sys.dont_write_bytecode = True
TOP = os.path.realpath(f"{os.path.dirname(os.path.realpath(__file__))}/../..")
sys.path[:0] = [f"{TOP}/tests", f"{TOP}/tests/common"]
import checked
import ending
import mutants_baseline as baseline
import needs

LOW = "pub const ROWS: u8 = 4;\n\npub fn low(x: u8) -> u8\n    ensures { result ≡ x }\n{\n    x\n}\n"
CRATES = "# lowest first\nlow: std\ncdc_commands: low\ncdc_app: cdc_commands\nalone:\n# tests\nlow_tests: low\n"
FILES = {
    "crates.txt": CRATES,
    "crates/low/src/lib.rt": LOW,
    "crates/low/must-fail/a.edit": "file: src/lib.rt\nold: 4\nnew: 5\n",
    "crates/cdc_commands/src/lib.rt": "fn commands() {}\n",
    "crates/cdc_app/src/main.rt": "fn main() {}\n",
    "crates/alone/src/lib.rt": "fn alone() {}\n",
    "crates/low_tests/src/lib.rt": "fn tests() {}\n",
}
# In the place of a command: it notes how it was called, and fails if that has what FAILS has.
STAND_IN = r'''#!/usr/bin/env python3
import collections, os, sys

Step = collections.namedtuple("Step", "name")
OVER_PROGRAM = ["rows", "sqlite_books", "cost", "streams", "documents", "run"]
steps_over = lambda program, built, is_quick: [Step(it) for it in OVER_PROGRAM if not is_quick or it != "cost"]
steps_in_rattle = lambda: [Step("low_tests")]

if __name__ == "__main__":
    name = os.path.basename(sys.argv[0])
    if sys.argv[1:] == ["version"]:
        sys.exit(print("kit-1 logic", os.environ.get("LOGIC", "one")))
    call = " ".join([name, *sys.argv[1:], "in", os.path.relpath(os.getcwd(), os.environ["ROOM"])])
    with open(f"{os.environ['ROOM']}/calls", "a") as file:
        file.write(call + "\n")
    sys.exit(bool(os.environ.get("FAILS")) and os.environ["FAILS"] in call)
'''
checks = checked.Checks(program=None, room=None)
same = checks.same


def module_at(path):
    """Returns a script without an ending as a module."""
    loader = importlib.machinery.SourceFileLoader(os.path.basename(path), path)
    module = importlib.util.module_from_spec(importlib.util.spec_from_loader(loader.name, loader))
    sys.modules[loader.name] = module
    loader.exec_module(module)
    return module


class Place:
    """The small repository, with one commit if there is git."""

    def __init__(self, room, has_git=True):
        self.room = room
        for name, text in FILES.items():
            self.put(name, text)
        for name in ("tools/loop", "tests/mutants_baseline.py", "tests/mutants_digests.py", "tests/common/ending.py"):
            os.makedirs(os.path.dirname(f"{room}/{name}"), exist_ok=True)
            shutil.copy(f"{TOP}/{name}", f"{room}/{name}")
        for name in ("bin/rt", "tests/run", "tests/mutants.py"):
            self.put(name, STAND_IN)
            os.chmod(f"{room}/{name}", 0o755)
        if has_git:
            self.git("init", "-q")
            self.commit()

    def put(self, name, text):
        os.makedirs(os.path.dirname(f"{self.room}/{name}"), exist_ok=True)
        with open(f"{self.room}/{name}", "w", encoding="utf-8") as file:
            file.write(text)

    def git(self, *arguments):
        who = ["-c", "user.name=a", "-c", "user.email=a@b", "-c", "commit.gpgsign=false"]
        subprocess.run(["git", "-C", self.room, *who, *arguments], check=True, stdout=subprocess.DEVNULL)

    def commit(self):
        self.git("add", "crates", "crates.txt")
        self.git("commit", "-q", "-m", "a")

    def call(self, *arguments, **env):
        """Returns the status, the lines that were printed, and the calls of the stand-ins."""
        with open(f"{self.room}/calls", "w"):
            pass
        env = {**os.environ, "PATH": f"{self.room}/bin:{os.environ['PATH']}", "ROOM": self.room, "PYTHONDONTWRITEBYTECODE": "1", **env}
        how = {"stdout": subprocess.PIPE, "stderr": subprocess.STDOUT, "universal_newlines": True, "cwd": "/"}
        ran = subprocess.run([sys.executable, f"{self.room}/tools/loop", *arguments], env=env, **how)
        with open(f"{self.room}/calls") as file:
            return ran.returncode, ran.stdout.splitlines(), file.read().splitlines()

    def proved(self, *arguments, **env):
        """Returns the folders whose crates a dry run would prove, and the reasons that it gives."""
        status, lines, calls = self.call("--dry-run", *arguments, **env)
        same(f"{arguments}: a dry run runs nothing", (0, []), (status, calls))
        folders = [it.split(", in crates/")[1].partition(":")[0] for it in lines if it.startswith("rt check")]
        return folders, [it for it in lines if "crate above" in it or "since" in it]

    def write_baseline(self, logic="one"):
        """Writes the baseline of low, as it stands."""
        loop = module_at(f"{self.room}/tools/loop")
        crate = loop.crates_of(self.room)["low"]
        by = baseline.by_of(f"{self.room}/tests/mutants.py", f"kit-1 logic {logic}\n".encode())
        digests = baseline.digests_of(self.room, crate, by)
        baseline.write(self.room, [baseline.Entry("low", digests, 1, 1, {"a.edit": (baseline.REFUSED, 1)})])


def what_is_proved(place):
    """The crates above are proved only if what they see has changed since the commit."""
    unchanged = "loop: no crate above (3): what these see of low is the same as at HEAD"
    same("unchanged", (["low"], [unchanged]), place.proved("low"))
    place.put("crates/low/src/lib.rt", LOW.replace("    x\n", "    // a comment\n    x + 0\n"))
    same("another body", (["low"], [unchanged]), place.proved("low"))
    above = ["low", "cdc_commands", "cdc_app", "low_tests"]
    for what, old, new in (("clause", "result ≡ x", "result ≡ x + 0"), ("constant", "= 4", "= 5")):
        place.put("crates/low/src/lib.rt", LOW.replace(old, new))
        folders, why = place.proved("low")
        same(f"another {what}", (above, 3), (sorted(folders, key=above.index), sum("has changed since HEAD" in it for it in why)))
        same(f"another {what}: lowest first", True, folders.index("cdc_commands") < folders.index("cdc_app"))
    place.put("crates/low/src/lib.rt", LOW)
    for what, text, count in (("a lemma", "pub one : 1 ≡ 1\none = refl\n", 4), ("a proof file of a function", "pub returns : 1 ≡ 1\nreturns = refl\n", 1)):
        name = "Lemmas.antt" if count == 4 else "lib/low/Answers.antt"
        place.put(f"crates/low/proofs/{name}", text)
        same(what, count, len(place.proved("low")[0]))
        os.remove(f"{place.room}/crates/low/proofs/{name}")
    place.put("crates/low/src/lib.rt", LOW.replace("result ≡ x", "result ≡ x + 0"))
    lines = place.call("--dry-run", "low")[1]
    same("a crate of tests, with its tests", True, any(it.startswith("rt check --test, in crates/low_tests:") for it in lines))
    same("the mutants above", True, any("no mutants of the crates above" in it for it in lines))
    place.commit()
    same("committed", (["low"], [unchanged]), place.proved("low"))
    same("since an earlier commit", 4, len(place.proved("--since", "HEAD~1", "low")[0]))
    same("since no commit", 4, len(place.proved("--since", "nothing", "low")[0]))
    same("a crate with none above", (["alone"], ["loop: no crate above: alone has none"]), place.proved("alone"))
    for what, row in (("a setting", "low may_abort=1: std"), ("a library", "low: std itoa"), ("a crate below", "low: std alone")):
        place.put("crates.txt", CRATES.replace("low: std", row))
        same(f"another line of crates.txt: {what}", 4, len(place.proved("low")[0]))
    place.put("crates.txt", CRATES.replace("cdc_commands: low", "new:\ncdc_commands: low new"))
    place.put("crates/new/src/lib.rt", "fn new() {}\n")
    same("a crate that is new", ["new", "cdc_commands", "cdc_app"], place.proved("new")[0])


def mutants_of_it(place):
    """Its mutants are tried if the baseline lacks them or is stale."""
    task = "tests/mutants.py --write low: mutants (1): "
    found = lambda **env: [it for it in place.call("--dry-run", "low", **env)[1] if "mutants" in it and "above" not in it]
    same("no baseline", [task + "the baseline lacks them"], found())
    place.write_baseline()
    same("taken", ["loop: no mutants: the baseline has all answers of low (1)"], found())
    same("another logic", [task + "the baseline is stale (the script or the logic)"], found(LOGIC="two"))
    place.put("crates/low/src/lib.rt", LOW.replace("    x\n", "    x + 0\n"))
    same("another body", [task + "the baseline is stale (its own files)"], found())
    place.put("crates/low/must-fail/b.edit", "file: src/lib.rt\nold: 4\nnew: 6\n")
    same("none", ["loop: no mutants: alone has none"], [it for it in place.call("--dry-run", "alone")[1] if "mutants" in it])


def without_git(place):
    folders, why = place.proved("low")
    same("without a repository", (4, True), (len(folders), all("no commit HEAD to compare with" in it for it in why[:3])))


def what_it_runs(place):
    """The commands are run in order, up to the first that fails."""
    steps = "run --quick rows streams documents low_tests in ."
    wanted = ["rt check in crates/low", "mutants.py --write low in .", steps]
    status, lines, calls = place.call("low")
    same("a run", (0, "loop: passed", wanted), (status, lines[-1], calls))
    same("what it leaves out", True, "loop: not cost, which --quick leaves out: tests/run cost" in lines)
    for at, it in enumerate(("check", "--write", "--quick")):
        status, lines, calls = place.call("low", FAILS=it)
        same(f"{it} fails", (1, "loop: FAILED", wanted[: at + 1]), (status, lines[-1], calls))
    place.put("crates/low/src/lib.rt", LOW.replace("= 4", "= 5"))
    calls = place.call("low")[2]
    same("with the crates above", [*wanted[:2], 3, steps], [*calls[:2], sum("rt check" in it for it in calls[2:]), calls[-1]])
    os.remove(f"{place.room}/bin/rt")
    status, lines, _ = place.call("low", PATH=f"{place.room}/bin:/usr/bin:/bin") if not shutil.which("rt", path="/usr/bin:/bin") else (1, [""], 0)
    same("without rt", 1, status)


def usage(place):
    status, lines, calls = place.call("nothing")
    same("an unknown crate", (2, True, []), (status, "there is no crate nothing: crates.txt has low" in lines[-1], calls))
    same("no crate", 2, place.call()[0])
    status, lines, _ = place.call("--help")
    same("--help", (0, True), (status, any("--dry-run" in it for it in lines)))


def table(_):
    """Each step over the program is in the table, with crates of the program; a crate that only cdc_app names has a step."""
    loop, run = module_at(f"{TOP}/tools/loop"), module_at(f"{TOP}/tests/run")
    crates = loop.crates_of(TOP)
    steps = run.steps_over("", "", is_quick=False)
    same("the steps of the table", sorted(it.name for it in steps if it.has_program), sorted(loop.REACHED))
    same("the steps over sources", [], [it for it in loop.OF_SOURCES if it not in [it.name for it in steps if not it.has_program]])
    program = [it.name for it in [*crates[loop.APP].below(), crates[loop.APP]]]
    named = {it for row in loop.REACHED.values() for it in row}
    same("the crates of the table", [], sorted(named - {*program, *run.OF_TESTS}))
    below = {dep.name for it in crates[loop.APP].below() for dep in it.deps}
    tops = [it.name for it in crates[loop.APP].deps if it.name not in below]
    same("crates that only cdc_app names", (True, []), (bool(tops), [it for it in tops if it not in named]))
    reached = {it: loop.steps_reaching(crates[it], crates) for it in ("cdc_sqlite_book", "cdc_random_steps", "cdc_types", "cdc_data_tests")}
    same("a book in SQLite", (True, False), ("sqlite_books" in reached["cdc_sqlite_book"][0], "plans" in reached["cdc_sqlite_book"][0]))
    same("random steps", (True, False, ["faults"]),
         ("random_steps" in reached["cdc_random_steps"][0], "plans" in reached["cdc_random_steps"][0], reached["cdc_random_steps"][1]))
    same("the types", sorted({*loop.REACHED, *loop.OF_SOURCES}),
         sorted(it for part in reached["cdc_types"] for it in part if not it.endswith("_tests")))
    same("a crate of tests", (["cdc_data_tests", "cdc_feed_tests", "definitions", "documents"], []),
         (sorted(reached["cdc_data_tests"][0]), reached["cdc_data_tests"][1]))


def costs_of_a_check(_):
    """Each function is charged for the time since the one before it; the first one, with what precedes it, has a column."""
    costs = module_at(f"{TOP}/tools/costs")
    printed = ["note: a", "checked low::a, 1 of 3", "fn low::a: proved", "checked low::B::b, 2 of 3", "checked low::a, 3 of 3", "logic=proved"]
    times = iter((5.0, 7.5, 8.0))
    cost, last = costs.read("low", [f"{it}\n" for it in printed], lambda: next(times))
    same("a check", (costs.Cost("low", 8.0, 5.0, {"low::B::b": 2.5, "low::a": 0.5}), "logic=proved"), (cost, last))
    same("a check of nothing", (costs.Cost("low", 0, 0, {}), ""), costs.read("low", [], lambda: 1))
    other = costs.Cost("high", 20.4, 20.4, {})
    wanted = ["| `high` | 20 | 20 | 0 |  |", "| `low` | 8 | 5 | 2 | 1.5 |", "| all | 28 | 25 | 2 | |", "", "| Function | CPU time, s |",
              "|---|---|", "| `low::B::b` | 2.5 |"]
    same("the tables", wanted, costs.tables([cost, other], 1)[2:])
    same("a clock", True, 0 < costs.seconds_of(os.getpid()) < 1000)


def main(given):
    argparse.ArgumentParser(description=__doc__, formatter_class=argparse.RawDescriptionHelpFormatter).parse_args(given)
    has_git = bool(shutil.which("git"))
    if not has_git:
        print(f"loop: not tried: what has changed since a commit: {needs.no_command('git')}")
    for test in [usage, table, costs_of_a_check, without_git, *([what_is_proved, mutants_of_it, what_it_runs] if has_git else [])]:
        with tempfile.TemporaryDirectory(prefix="loop-test-") as room:
            test(Place(room, has_git and test != without_git))
    print(f"{checks.passed} passed, {checks.failed} failed")
    return 1 if checks.failed else 0


if __name__ == "__main__":
    ending.run(main)
