#!/usr/bin/env python3
"""Tests how tests/mutants.py takes, tries and writes the mutation baseline: tests/checks/mutants_test.py

It runs the script over a small tree of its own, with a stand-in for the toolchain and for the trial of a crate, so it takes
seconds and proves nothing. The last line is 'N passed, M failed'; the status is 0 where nothing failed, and 1 else.
"""
import argparse
import os
import re
import shutil
import subprocess
import sys
import tempfile

sys.dont_write_bytecode = True
TESTS = os.path.realpath(f"{os.path.dirname(os.path.realpath(__file__))}/..")
sys.path[:0] = [TESTS, f"{TESTS}/common"]
import ending
import mutants_baseline as baseline
import needs

# In the place of the toolchain: the crates of crates.txt, and no check at all.
RT = r'''#!/usr/bin/env python3
import os, re, sys, types

if __name__ == "__main__":
    sys.exit(print(os.environ.get("KIT", "kit-1 logic one")))


class Crate:
    def __init__(self, top, name, deps):
        self.name, self.deps, self.folder = name, deps, os.path.join(top, "crates", name)
        self.rlib = self.folder

    def below(self):
        found = []
        for dep in self.deps:
            found += [it for it in [*dep.below(), dep] if it not in found]
        return found

    def is_built(self):
        return True

    def count(self, pattern):
        return 10


def crates_below(top):
    made, top = {}, os.path.abspath(top)
    for line in open(os.path.join(top, "crates.txt")):
        head, _, uses = line.partition("#")[0].partition(":")
        if head.split():
            name = head.split()[0]
            made[name] = Crate(top, name, [made[it] for it in uses.split() if it in made])
    return [*made.values()]


def edits_of(crate):
    folder = f"{crate.folder}/must-fail"
    files = [f"{folder}/{it}" for it in sorted(os.listdir(folder))] if os.path.isdir(folder) else []
    return [it for it in files if it.endswith(".edit")], [it for it in files if not it.endswith(".edit")]


def in_lanes(tasks):
    order = sorted(tasks, key=lambda it: -tasks[it][1])
    print("order:", *[f"{key[0]}({tasks[key][2]})" for key in order])
    return {key: tasks[key][3]({}, 1) for key in order}


REFUSED = "refused"
need = lambda crate: 7
rtlib = types.SimpleNamespace(ALLOW_C="A", KEPT=["", "out"], guarded=lambda: [], crates_below=crates_below)
'''
# In the place of a crate's trial: two edits to a group, and each is refused but those that WRONG names.
TRIAL = r'''
import os, subprocess, sys
sys.path.insert(0, "tests")
import mutants as it

class Trial:
    def __init__(self, crate, kept):
        self.crate, self.results, self.groups = crate, {}, {}

    def run(self, names=None):
        if self.crate.name == os.environ.get("MEANWHILE"):
            open(f"{self.crate.folder}/src/lib.rt", "a").write("fn later() {}\n")
        it.run_measured(["true"], stdout=subprocess.PIPE, stderr=subprocess.STDOUT)
        for at, path in enumerate(it.rt.edits_of(self.crate)[0]):
            name = os.path.basename(path)
            if names is None or name in names:
                is_refused = name not in os.environ.get("WRONG", "").split()
                text = f"mutant {self.crate.name}/{name}: {'refused' if is_refused else 'NOT REFUSED'}"
                self.results[name], self.groups[name] = it.Result(is_refused, text), 1 + at // 2
        return [*self.results.values()]

it.Trial = Trial
sys.exit(it.main())
'''
CRATES = {"low": 5, "high": 3, "other": 1}
ALL = sum(CRATES.values())
# The crates of the tree: high stands on mid, which has no edits, and both on low.
ROWS = "# The crates.\nlow: std\nmid: low\nhigh: low mid\nother:\n"
# The files of low, with braces and quotes wherever they open and close nothing.
LOW = """//! What low has: { and ' and ".
ghost use Rattle.std.specs.Prelude.{◌≡◌, length};
ghost use Rattle.low.specs.Grid.{area as size};

/// How many rows a grid has: "{".
pub const ROWS: [u8; 2] = [4, 5];
const MAKE: fn(u8) -> Grid = { make };

#[derive(Clone, Copy)]
pub struct Grid {
    rows: u8,
    ghost past: { List q' },
}

impl Grid {
    /// The area of a grid.
    pub fn area(&self, by: [u8; 2]) -> [u8; 2]
        requires { self.now.rows ≡ 1 }
        ensures is { result.now ≡ size self.now (codes "a } b") }
    {
        let open = '{'; // a comment }
        let text = b"} \\" {"; /* a comment } /* inside } */ " one */
        let raw = r#"}" fn other() { '"#;
        let quote = '\\'';
        'all: loop
            ensures { open ≡ 1 }
        {
            break 'all;
        }
        by
    }

    fn half(&self) -> u8
        requires { self.now.rows ≡ 2 }
    {
        24
    }
}

#[derive(Clone)]
struct Cells {
    count: u8,
}

impl Cells {
    pub fn first(&self) -> u8 {
        25
    }
}

impl Drop for Cells {
    fn drop(self) {}
}

impl Model for Cells {
    ghost view = { count };
}

#[derive(Debug)]
pub(crate) struct Place(u16);

pub struct Shelf<T> {
    boxes: Vec<T>,
    pub(crate) width: u32,
}

impl<T> Model for Shelf<T> {
    ghost view = { boxes_of };
}

pub struct Shown {
    pub boxes: u64,
}

impl Model for Shown {
    ghost view = { boxes_of };
}

pub const fn twice(x: u8) -> u8 {
    x + x
}

pub trait Rows {
    fn rows(&self) -> u8 {
        3
    }
}

fn opaque() -> impl Rows {
    7u8
}

fn declares() {
    impl Rows for u8 {}
}

pub(crate) unsafe fn last() -> u8 {
    9
}
"""
GRID = """-- What grids are.
use Rattle.std.specs.Prelude.{◌≡◌}

-- the area
abbrev pub area : ℕ → ℕ
area x = x + x

pub hidden : ℕ
hidden = 11
"""
CELLS = """use crate::parts::{Grid, Row};

pub fn cells(of: Grid) -> u8 {
    26
}
"""
LEMMAS = """use Rattle.low.specs.Grid.{area}
use Rattle.low.proofs.Below.{Is, by_steps}
use Rattle.low.proofs.Aside.{Beside, aside}

-- an area is twice its side
pub doubled : (x : ℕ)
    → area x ≡ x + x
doubled x = by_symmetry
  where
    by_symmetry : ℕ
    by_symmetry = 12
unfolding_is_no_word : ℕ
unfolding_is_no_word = 13

pub begins : Beside 27
begins = aside

module _ (x : ℕ)
    (y : ℕ) where
  -- how many
  abbrev pub count : ℕ
  count = 14

  pub counted : count ≡ 15
  unfolding count
  counted = refl {16}

unfoldable pub open-one : ℕ
open-one = 17

pub record Pair : Type 0 where
  pub one : ℕ
  pub two : Is 18
"""
BELOW = "abbrev pub Is : ℕ → Type 0\nIs x = x ≡ 28\n"
ASIDE = "abbrev pub Beside : ℕ → Type 0\nBeside x = x ≡ 29\n"
ANSWERS = "use Rattle.low.proofs.lib.Grid.area.Goals as goal\n\npub returns : goal.returns\nreturns c = refl {19}\n"
HIGH = "ghost use Rattle.low.specs.Grid.{area};\n\npub fn top() -> u8\n    ensures { area 1 ≡ 2 }\n{\n    area(cells) + 20 // a remark\n}\n"
FILES = {
    "crates/low/src/lib.rt": LOW,
    "crates/low/specs/Lib.antt": "pub mod Grid\n",
    "crates/low/specs/Grid.antt": GRID,
    "crates/low/src/cells.rt": CELLS,
    "crates/low/src/named.rt": "pub fn named(_: Cells, _: Place, _: Shelf<u8>, _: Shown) {}\n",
    "crates/low/proofs/Lib.antt": "pub mod Lemmas\npub mod Below\npub mod Aside\n",
    "crates/low/proofs/Below.antt": BELOW,
    "crates/low/proofs/Aside.antt": ASIDE,
    "crates/low/proofs/Lemmas.antt": LEMMAS,
    "crates/low/proofs/lib/Grid/area/Answers.antt": ANSWERS,
    "crates/mid/src/lib.rt": "pub struct Mid;\n\nfn uses(it: Grid) {\n    area(cells(it))\n}\n",
    "crates/mid/specs/Lib.antt": "pub mod Own\n",
    "crates/mid/specs/Own.antt": "use Rattle.low.proofs.Lemmas.{Pair}\n\npub own : ℕ\nown = 21\n",
    "crates/high/src/lib.rt": HIGH,
    "crates/high/src/owns.rt": "ghost use Rattle.mid.specs.Own.{own};\n\nfn owns()\n    ensures { own ≡ 30 }\n{}\n",
    "crates/high/specs/Top.antt": "use Rattle.low.specs.Grid.{area}\n\npub top : ℕ\ntop = area 22\n",
}


# The stand-in as a module, for what is tried without the script.
STAND_IN = {"__name__": "rt"}
exec(RT, STAND_IN)


class Tree:
    """A tree of crates in a folder of its own."""

    def __init__(self, folder):
        self.folder = folder
        for name, count in CRATES.items():
            self.put(f"crates/{name}/src/lib.rt", f"fn {name}() {{}}\n")
            for at in range(count):
                self.put(f"crates/{name}/must-fail/edit-{at}.edit", f"{name} {at}\n")
        for name, text in FILES.items():
            self.put(name, text)
        self.put("crates.txt", ROWS)
        self.put("bin/rt", RT)
        os.chmod(f"{folder}/bin/rt", 0o755)
        os.mkdir(f"{folder}/tests")
        for it in ("mutants.py", "mutants_baseline.py", "mutants_digests.py"):
            shutil.copy(f"{TESTS}/{it}", f"{folder}/tests")

    def put(self, name, text, how="w"):
        os.makedirs(os.path.dirname(f"{self.folder}/{name}"), exist_ok=True)
        with open(f"{self.folder}/{name}", how) as file:
            file.write(text)

    def run(self, *arguments, **environment):
        """Runs the script and returns its status, what it printed, and the edits that it tried."""
        paths = {"PATH": f"{self.folder}/bin:{os.environ['PATH']}"}
        how = {"stdout": subprocess.PIPE, "stderr": subprocess.STDOUT, "cwd": self.folder, "universal_newlines": True}
        ran = subprocess.run([sys.executable, "-c", TRIAL, *arguments], env={**os.environ, **paths, **environment}, **how)
        return ran.returncode, ran.stdout, re.findall(r"(?m)^mutant (\S+):", ran.stdout)

    def recorded(self):
        return baseline.read(self.folder)

    def digests(self):
        """Returns the digests of each crate, as the files stand."""
        return {it.name: baseline.digests_of(self.folder, it, "") for it in STAND_IN["crates_below"](self.folder)}

    def changed_by(self, files):
        """Returns which digests another text of these files changes, and puts the old texts back."""
        was, before = {}, self.digests()
        for name, text in files.items():
            path = f"{self.folder}/{name}"
            was[name] = open(path).read() if os.path.exists(path) else None
            self.put(name, text)
        after = self.digests()
        for name, text in was.items():
            if text is None:
                os.remove(f"{self.folder}/{name}")
            else:
                self.put(name, text)
        assert self.digests() == before
        pairs = [(name, part) for name in before if name in after for part in ("own", "below")]
        return {f"{name} {part}" for name, part in pairs if getattr(before[name], part) != getattr(after[name], part)}


def python(tree, arguments):
    """Returns what a few lines of Python print, beside the scripts of the tree."""
    paths = {"PATH": f"{tree.folder}/bin:{os.environ['PATH']}"}
    how = {"stdout": subprocess.PIPE, "cwd": tree.folder, "env": {**os.environ, **paths}, "universal_newlines": True}
    return subprocess.run([sys.executable, "-c", arguments], **how).stdout


def commit_where(holds):
    """Returns a commit that chooses so."""
    found = next((it for it in map(str, range(2000)) if holds(it)), None)
    assert found is not None, "none of 2,000 commits chooses so"
    return found


def quiet(tree, name="low"):
    """Returns a commit that has nothing tried again, and one that has a crate tried and no other."""
    chosen = lambda commit: [it.name for it in tree.recorded().values() if baseline.is_chosen(commit, it, 1)]
    return commit_where(lambda it: not chosen(it)), commit_where(lambda it: chosen(it) == [name])


def wants(ran, status, last, tried, *texts):
    """Holds a run to its status, its last line, the number of edits that it tried, and texts that it printed."""
    got = ran[0], ran[1].rstrip().split("\n")[-1], len(ran[2])
    assert got == (status, last, tried), (got, (status, last, tried), ran[1])
    for it in texts:
        assert it in ran[1], (it, ran[1])


def test_no_record(tree):
    """A crate with no line is tried whole, and passes or fails by its answers."""
    wants(tree.run("--proved"), 0, "9 passed, 0 failed", 9, "low: 5 mutants: no baseline, so all are tried")
    wants(tree.run("--proved", WRONG="edit-4.edit"), 1, "8 passed, 1 failed", 9)
    assert not tree.recorded()


def test_taken(tree):
    """Where all digests agree, the answers are taken, and those of the crates that the commit chooses are tried; of a crate that
    takes long, those of a part."""
    wants(tree.run("--write"), 0, "9 passed, 0 failed", 9)
    none, one = quiet(tree)
    report = "low: 5 mutants: the answers of the baseline are taken, 0 tried again"
    wants(tree.run("--proved", "--commit", none), 0, "9 passed, 0 failed", 0, report, "9 answers are taken from the baseline, 0 more")
    wants(tree.run("--proved", "--commit", one), 0, "9 passed, 0 failed", 5, "are taken, 5 tried again", "4 answers are taken")
    wants(tree.run("--all"), 0, "9 passed, 0 failed", 9)
    wants(tree.run("--kept"), 0, "9 passed, 0 failed", 9)
    text = re.sub(r"(crate low .*)seconds=\d+", rf"\1seconds={2 * baseline.TOGETHER}", open(f"{tree.folder}/{baseline.FILE}").read())
    tree.put(baseline.FILE, text)
    chosen = lambda commit: [(it.name, at) for it in tree.recorded().values() for at in (1, 2, 3) if baseline.is_chosen(commit, it, at)]
    part = commit_where(lambda it: chosen(it) == [("low", 2)])
    wants(tree.run("--proved", "--commit", part), 0, "9 passed, 0 failed", 2, "are taken, 2 tried again", "7 answers are taken")
    wants(tree.run("--proved", "other"), 0, "1 passed, 0 failed", 0 if not chosen_today(tree, "other") else 1)


def chosen_today(tree, name):
    return baseline.is_chosen(baseline.commit_of(tree.folder), tree.recorded()[name], 1)


def test_other_answer(tree):
    """An answer that is another than that of the baseline fails."""
    tree.run("--write")
    _, one = quiet(tree)
    other = "NOT REFUSED; that is not the answer of the baseline"
    wants(tree.run("--proved", "--commit", one, WRONG="edit-1.edit"), 1, "8 passed, 1 failed", 5, other)


def stales(tree, change, tried, *texts, **environment):
    """Holds a change to making the baseline stale, which fails until it is written."""
    tree.run("--write")
    none, _ = quiet(tree)
    change()
    last = f"{ALL} passed, {len(texts)} failed"
    arguments = ["--proved", "--commit", none]
    wants(tree.run(*arguments, **environment), 1, last, tried, *texts, "the baseline is stale: tests/mutants.py --write")
    wants(tree.run("--write", **environment), 0, f"{ALL} passed, 0 failed", tried)
    wants(tree.run(*arguments, **environment), 0, f"{ALL} passed, 0 failed", 0)


def test_source(tree):
    texts = [f"{it} mutants: the baseline is stale" for it in ("low: 5", "high: 3")]
    stales(tree, lambda: tree.put("crates/low/src/lib.rt", LOW.replace("≡ 1 }", "≡ 2 }")), 8, *texts)


def test_body_below(tree):
    """Another body makes the crate's own answers stale, and those above it not."""
    change = lambda: tree.put("crates/low/src/lib.rt", LOW.replace("break 'all", "continue 'all"))
    stales(tree, change, 5, "low: 5 mutants: the baseline is stale (its own files)")


# Of low's files: a text, what comes in its place, and whether a crate above sees that.
SEEN = {
    "crates/low/src/lib.rt": [
        ("a character in a body", "'{'; // a", "'}'; // a", False),
        ("a text in a body", 'b"} ', 'b"{ ', False),
        ("a raw text in a body", '{ \'"#', '{ { "#', False),
        ("a quote in a body", "'\\'';", "'\"';", False),
        ("a label in a body", "break 'all", "continue 'all", False),
        ("a clause in a body", "open ≡ 1", "open ≡ 2", False),
        ("a body", "        by\n", "        if by { by } else { by }\n", False),
        ("a body, up to the next function", "    9\n", "    8\n", False),
        ("a requires", "rows ≡ 1", "rows ≡ 2", True),
        ("an ensures", "size self.now", "size self.old", True),
        ("a text in a clause", '"a } b"', '"a { b"', True),
        ("a clause's name", "ensures is", "ensures same", True),
        ("a parameter", "by: [u8; 2]", "by: [u8; 3]", True),
        ("a result", "-> [u8; 2]", "-> [u8; 3]", True),
        ("a field", "rows: u8,", "rows: u16,", True),
        ("a ghost field", "List q'", "List q''", True),
        ("a constant", "[4, 5]", "[4, 6]", True),
        ("a constant that isn't public", "{ make }", "{ made }", False),
        ("a constant with a block", "const MAKE: fn(u8) -> Grid = { make };", "pub const MAKE: fn(u8) -> Grid = { make };", True),
        ("an attribute", "(Clone, Copy)", "(Clone)", True),
        ("a mark for visibility", "pub(crate) unsafe", "pub unsafe", False),
        ("a mark for visibility of a function with a name that is used", "fn declares", "pub fn cells", True),
        ("an import", "{area as size}", "{hidden as size}", True),
        ("an import that nothing names", "{◌≡◌, length}", "{◌≡◌, find}", False),
        ("a module imported", "specs.Grid.{area as", "specs.Grids.{area as", True),
        ("the body of a const fn", "x + x", "x - x", True),
        ("the body of a trait's function", "        3\n", "        4\n", True),
        ("a body whose type is the function's", "7u8", "8u8", True),
        ("a body with an impl", "for u8 {}", "for u16 {}", True),
        ("a new function", "pub trait", "pub fn more() {}\npub trait", False),
        ("a new function with a name that is used", "pub trait", "pub fn cells() {}\npub trait", True),
        ("a new module", "pub trait", "pub mod more;\npub trait", False),
        ("a new module with a name that is used", "pub trait", "pub mod cells;\npub trait", True),
        ("what is passed on", "pub trait", "pub use parts::more;\npub trait", False),
        ("what is passed on and used", "pub trait", "pub use parts::{cells, more};\npub trait", True),
        ("a new function that isn't public", "pub trait", "fn more() {}\npub trait", False),
        ("a clause of a function that isn't public", "rows ≡ 2", "rows ≡ 3", False),
        ("a parameter of a function that isn't public", "half(&self)", "half(self)", False),
        ("an attribute of a type that isn't public", "(Clone)]\nstruct", "(Copy)]\nstruct", False),
        ("an attribute of a type without braces that isn't public", "(Debug)", "(Clone)", False),
        ("an impl of a type that isn't public", "pub fn first(", "pub fn last_one(", False),
        ("an impl of a trait for a type that isn't public", "impl Drop for Cells {\n    fn drop(self) {}\n}\n", "", False),
        ("a field of a type that isn't public", "count: u8", "count: u16", True),
        ("a field without a name", "Place(u16)", "Place(u32)", True),
        ("what contracts see of a type that isn't public", "{ count }", "{ counted }", True),
        ("a field of a type of which contracts see another value", "Vec<T>", "Vec<u8>", False),
        ("a field that is seen in the crate alone", "u32", "u64", False),
        ("what contracts see of such a type", "Model for Shelf<T> {\n    ghost view = { boxes_of", "Model for Shelf<T> {\n    ghost view = { none_of", True),
        ("a public field of such a type", "u64,", "u128,", True),
        ("a field more that is public", "    boxes: Vec<T>,", "    pub boxes: Vec<T>,", True),
        ("a quote that isn't closed", "pub trait", "\" pub trait", True),
        ("a brace that isn't closed", "    9\n", "    9 {\n", True),
        ("a clause with a comment of antt's", "rows ≡ 1", "rows ≡ 1 -- }", True),
    ],
    "crates/low/src/cells.rt": [
        ("an import of Rust's", "crate::parts", "crate::more", True),
        ("an import of Rust's that nothing names", "{Grid, Row}", "{Grid, Rows}", False),
        ("an import of Rust's beside a body that is seen", "pub fn", "pub const fn", True),
    ],
    "crates/low/specs/Grid.antt": [
        ("a definition", "x + x", "x - x", True),
        ("a definition that is opaque", "= 11", "= 12", True),
        ("a signature", "ℕ → ℕ", "ℕ → ℕ → ℕ", True),
        ("a comment over several lines", "-- the area\n", "{- the area\n-}\n", True),
    ],
    "crates/low/proofs/Lemmas.antt": [
        ("a statement", "≡ x + x", "≡ x * x", False),
        ("a statement that isn't public", "is_no_word : ℕ", "is_no_word : Bool", False),
        ("a statement of a name that a specification has", "pub doubled :", "pub own :", True),
        ("a term", "doubled x = by_symmetry", "doubled x = refl", False),
        ("a term's own definition", "= 12", "= 2", False),
        ("the term of a lemma without a mark", "= 13", "= 3", False),
        ("a definition that unfolds", "= 14", "= 4", True),
        ("a module's parameter", "(y : ℕ)", "(y : Bool)", True),
        ("a statement in a module", "≡ 15", "≡ 5", False),
        ("a term in a module", "{16}", "{6}", False),
        ("what a term unfolds", "unfolding count", "unfolding count open-one", False),
        ("a definition that can be unfolded", "= 17", "= 7", True),
        ("a record's field", "Is 18", "Is 8", True),
        ("an import of a definition", "Below.{Is, by_steps}", "Aside.{Is, by_steps}", True),
        ("an import of lemmas alone", "Aside.{Beside, aside}", "Below.{Beside, aside}", False),
        ("a line further left than the first", "use Rattle.low.specs", "  use Rattle.low.specs", True),
    ],
    "crates/low/proofs/Below.antt": [("a definition of a definition", "28", "8", True)],
    "crates/low/proofs/Aside.antt": [("a definition of lemmas alone", "29", "9", False)],
    "crates/low/proofs/lib/Grid/area/Answers.antt": [("an answer", "{19}", "{9}", False)],
}
# Of any file: comments.
COMMENTS = {
    "crates/low/src/lib.rt": [("{ and ' and", "} or '\n//! or"), ("a grid has: \"{", "\"grids\" have: \"{"), (" // a comment }", "")],
    "crates/low/specs/Grid.antt": [("-- the area\n", "-- the area:\n-- twice\n\n"), ("-- What grids are.\n", "")],
    "crates/low/proofs/Lemmas.antt": [("  -- how many\n", "\n")],
}


def replaced(name, old, new):
    assert FILES[name].count(old) == 1, (name, old)
    return {name: FILES[name].replace(old, new)}


def test_what_a_crate_above_sees(tree):
    """Another contract, type, constant or definition below makes answers stale; another body or proof does not, nor what only
    these name."""
    for name, rows in SEEN.items():
        for what, old, new, is_seen in rows:
            wanted = {"low own", *(["mid below", "high below"] if is_seen else [])}
            found = tree.changed_by(replaced(name, old, new))
            assert found == wanted, (what, found)


def test_constants(tree):
    """A constant that isn't public counts for a crate above if a type, a clause, a specification or another constant names it."""
    bound = lambda rest, value: {"crates/low/src/more.rt": f"const BOUND: usize = {value};\n{rest}\n"}
    rows = [
        ("", False),
        ("pub fn cells() -> usize {\n    BOUND\n}", False),
        ("pub const fn cells() -> usize {\n    BOUND\n}", True),
        ("pub struct Bounded([u8; BOUND]);", True),
        ("const OTHER: usize = BOUND + 1;", True),
        ("pub fn cells() -> usize\n    ensures { result ≡ BOUND }\n{\n    3\n}", True),
        ("ghost use Rattle.low.specs.declared.more.TheConstants.{BOUND};\n", True),
    ]
    for rest, is_seen in rows:
        tree.put("crates/low/src/more.rt", bound(rest, 4)["crates/low/src/more.rt"])
        found = tree.changed_by(bound(rest, 5))
        assert found == {"low own", *(["mid below", "high below"] if is_seen else [])}, (rest, found)
    tree.put("crates/low/src/more.rt", bound("", 4)["crates/low/src/more.rt"])
    tree.put("crates/low/specs/Bounds.antt", "pub bound : ℕ\nbound = BOUND\n")
    assert tree.changed_by(bound("", 5)) == {"low own"}
    for name in ("mid", "high"):
        tree.put(f"crates/{name}/specs/Bound.antt", "use Rattle.low.specs.Bounds.{bound}\n")
        assert f"{name} below" in tree.changed_by(bound("", 5)), name
    tree.put("crates/low/src/more.rt", "pub const BOUND: usize = 4;\n")
    os.remove(f"{tree.folder}/crates/low/specs/Bounds.antt")
    assert tree.changed_by({"crates/low/src/more.rt": "pub const BOUND: usize = 5;\n"}) == {"low own", "mid below", "high below"}


BOXED = """#[derive(Clone)]
pub struct Boxed {
    pub wide: u8,
}

impl Boxed {
    pub fn cells(&self, other: &Boxed) -> u8
        ensures { result ≡ 1 }
    {
        1
    }
}

impl Rows for Boxed {
    fn rows(&self) -> u8 {
        1
    }
}
"""


def test_types(tree):
    """A type and its impls count for a crate above if that, or what it may see besides them, names the type."""
    name, other = "crates/low/src/boxed.rt", "crates/low/src/other.rt"
    changes = [("u8,", "u16,"), ("Clone", "Copy"), ("≡ 1", "≡ 2"), ("&self, other", "self, other"), ("for Boxed {\n    fn rows", "for Boxed {\n    fn cells")]
    rows = [
        ({}, set()),
        ({other: "// Boxed\n"}, set()),
        ({other: "pub use crate::boxed::Boxed;\n"}, set()),
        ({other: "use crate::boxed::Boxed;\n\nimpl Boxed {\n    pub fn more(&self) {}\n}\n"}, set()),
        ({other: "pub fn less() {\n    Boxed { wide: 1 }\n}\n"}, set()),
        ({"crates/low/specs/More.antt": "use Rattle.low.specs.declared.boxed.Boxed.{Boxed}\n"}, set()),
        ({"crates/low/proofs/More.antt": "use Rattle.low.specs.declared.boxed.Boxed.{Boxed}\n"}, set()),
        ({"crates/mid/specs/More.antt": "use Rattle.mid.specs.Own.{Boxed}\n"}, set()),
        ({other: "pub fn made() -> Boxed {\n    Boxed { wide: 1 }\n}\n"}, {"mid", "high"}),
        ({other: "pub struct Full {\n    inside: Boxed,\n}\n"}, {"mid", "high"}),
        ({other: "pub type Full = Boxed;\n"}, {"mid", "high"}),
        ({other: "use crate::boxed::Boxed as Full;\n"}, {"mid", "high"}),
        ({other: "use crate::boxed::Boxed::One;\n"}, {"mid", "high"}),
        ({other: "ghost use Rattle.low.specs.declared.boxed.Boxed.{Boxed};\n"}, {"mid", "high"}),
        ({"crates/mid/src/more.rt": "fn more(it: &Boxed) {}\n"}, {"mid"}),
        ({"crates/mid/src/more.rt": "pub fn more(it: &Boxed) {}\n"}, {"mid", "high"}),
        ({"crates/mid/must-fail/edit-0.edit": "file: src/lib.rt\nold: Mid;\nnew: Boxed;\n"}, {"mid"}),
        ({"crates/mid/specs/More.antt": "use Rattle.low.specs.declared.boxed.Boxed.{Boxed}\n"}, {"mid"}),
        ({"crates/high/proofs/More.antt": "use Rattle.low.specs.declared.boxed.Boxed.TheVariants.{One}\n"}, {"high"}),
        ({
            "crates/low/specs/Boxes.antt": "use Rattle.low.specs.declared.boxed.Boxed\n",
            "crates/mid/specs/More.antt": "use Rattle.low.specs.Boxes.{boxes}\n",
        }, {"mid"}),
    ]
    for files, wanted in rows:
        for it, text in {name: BOXED, **files}.items():
            tree.put(it, text)
        for old, new in changes:
            assert BOXED.count(old) == 1, old
            found = tree.changed_by({name: BOXED.replace(old, new)})
            # (a function of an impl counts if it is named too, as `cells` is)
            assert found == {"low own", *(f"{it} below" for it in wanted)}, (files, new, found)
        for it in {name, *files}:
            os.remove(f"{tree.folder}/{it}")


def test_named_crates(tree):
    """A crate below counts if something names it, also by way of another one."""
    of_low = replaced("crates/low/src/lib.rt", "rows: u8,", "rows: u16,")
    for name, text in (("crates/mid/specs/Own.antt", "pub own : ℕ\nown = 21\n"), ("crates/high/specs/Top.antt", "pub top : ℕ\n")):
        tree.put(name, text)
    found = tree.changed_by(of_low)
    assert found == {"low own", "high below"}, found
    tree.put("crates/high/src/lib.rt", "pub fn top() {}\n")
    found = tree.changed_by(of_low)
    assert found == {"low own"}, found
    tree.put("crates/mid/src/more.rt", "pub struct Held(low::Grid);\n")
    found = tree.changed_by(of_low)
    assert found == {"low own", "mid below"}, found
    tree.put("crates/high/src/lib.rt", "pub fn top(it: Held) {}\n")
    found = tree.changed_by(of_low)
    assert found == {"low own", "mid below", "high below"}, found
    tree.put("crates/mid/src/more.rt", "pub struct Held {\n    grids: Vec<low::Grid>,\n}\n\nimpl Model for Held {\n    ghost view = { held };\n}\n")
    found = tree.changed_by(of_low)
    assert found == {"low own", "mid below"}, found
    tree.put("crates/mid/src/lib.rt", "pub fn finish()\n    requires { 1 ≡ 1 }\n{\n}\n")
    tree.put("crates/low/src/finish.rt", "pub trait Finish {\n    fn finish(&self);\n}\n")
    assert tree.changed_by({"crates/mid/src/lib.rt": "pub fn finish() {}\n"}) == {"mid own"}
    tree.put("crates/high/must-fail/edit-0.edit", "file: src/lib.rt\nold: {}\nnew: { low::last() }\n")
    found = tree.changed_by(of_low)
    assert found == {"low own", "mid below", "high below"}, found


def test_comments(tree):
    """A comment counts for no crate; but an edit that can't be applied any more does."""
    for name, rows in COMMENTS.items():
        for old, new in rows:
            found = tree.changed_by(replaced(name, old, new))
            assert not found, (old, found)
    edit = {"crates/low/must-fail/edit-0.edit": "file: src/lib.rt\nold: break 'all;\nnew: loop {}\n"}
    tree.put(*[*edit.items()][0])
    assert tree.changed_by(replaced("crates/low/src/lib.rt", "// a comment }", "// break 'all; }")) == {"low own"}


def test_spaces(tree):
    """Other spaces between tokens count for no crate; tokens that they part or join do."""
    for new, wanted in (("x  +\n\tx", set()), ("x && x", {"low own"}), ("x & &x", {"low own"})):
        found = tree.changed_by(replaced("crates/low/src/lib.rt", "x + x", new))
        assert found == wanted | {f"{it} below" for it in ("mid", "high") if wanted}, (new, found)
    texts = [FILES["crates/low/src/lib.rt"].replace("break 'all", it) for it in ("let x = 1 && y", "let x = 1 & &y")]
    tree.put("crates/low/src/lib.rt", texts[0])
    assert tree.changed_by({"crates/low/src/lib.rt": texts[1]}) == {"low own"}


def test_named_in_specifications(tree):
    """A statement of a proof file counts for the crates above if a specification imports from the file, and has the name."""
    name = "crates/low/proofs/lib/Grid/area/Answers.antt"
    answers = {name: ANSWERS.replace("goal.returns\n", "goal.leaves\n")}
    assert tree.changed_by(answers) == {"low own"}
    for file, text, wanted in (
        ("crates/low/proofs/More.antt", "use Rattle.low.proofs.lib.Grid.area.Answers.{returns}\n", set()),
        ("crates/mid/proofs/Lib.antt", "pub use Rattle.low.proofs.lib.Grid.area.Answers\n", set()),
        ("crates/mid/specs/More.antt", "use Rattle.low.proofs.lib.Grid.area.Answers.{returns}\n", {"mid below"}),
        ("crates/high/src/more.rt", "ghost use Rattle.low.proofs.lib.Grid.area.Answers.{returns};\n", {"high below"}),
    ):
        tree.put(file, text)
        found = tree.changed_by(answers)
        assert found == {"low own", *wanted}, (file, found)
        os.remove(f"{tree.folder}/{file}")


def test_passed_on(tree):
    """An import counts by the module that it leads to, whichever crate passes that on."""
    passes = {"crates/mid/specs/Lib.antt": "pub mod Own\npub use Rattle.low.specs.Grid\n"}
    assert not tree.changed_by(passes)
    for name, text in passes.items():
        tree.put(name, text)
    files = {name: text.replace("use Rattle.low.specs", "use Rattle.mid.specs") for name, text in FILES.items() if "high" in name}
    assert all("mid" in it for it in files.values())
    assert not tree.changed_by(files)
    further = {name: text.replace(".Grid.{", ".Grid.Below.{") for name, text in files.items()}
    assert tree.changed_by(further) == {"high own"}
    for name, text in further.items():
        tree.put(name, text)
    assert not tree.changed_by({name: text.replace("mid.specs.Grid", "low.specs.Grid") for name, text in further.items()})
    renamed = {"crates/mid/specs/Lib.antt": "pub mod Own\npub use Rattle.low.specs.Grid as Mesh\n"}
    assert tree.changed_by(renamed) == {"high own"}
    assert not tree.changed_by({**renamed, **{name: text.replace("mid.specs.Grid", "mid.specs.Mesh") for name, text in further.items()}})
    unfolds = {"crates/mid/specs/Lib.antt": "pub mod Own\nunfoldable pub use Rattle.low.specs.Grid\n"}
    assert not tree.changed_by(unfolds)
    elsewhere = {"crates/mid/specs/Lib.antt": "pub mod Own\npub use Rattle.low.specs.Other as Grid\n"}
    assert tree.changed_by(elsewhere) == {"high own"}
    for line in ("pub use Own.Grid", "pub use Rattle.low.specs.*", "pub use Rattle.low.specs.Grid.{area}"):
        own = {"crates/mid/specs/Lib.antt": f"pub mod Own\npub use Rattle.low.specs.Grid\n{line}\n"}
        assert tree.changed_by(own) == {"mid own", "high below"}, line
    ring = {"crates/mid/specs/Lib.antt": "pub use Rattle.mid.specs.B as A\npub use Rattle.mid.specs.A as B\n"}
    assert tree.changed_by({**ring, "crates/high/specs/Top.antt": "use Rattle.mid.specs.A\n"}) == {"high own"}


def test_crates_below(tree):
    """Which crates are below counts, and their settings; which of them names another does not, nor the order of the lines."""
    rows = {
        "high: low mid": ("high: mid", set()),
        "mid: low": ("mid:", {"mid below"}),
        "high: low mid # again": ("high: low", {"high below"}),
        "low: std": ("low may_abort=1: std", {"low below", "mid below", "high below"}),
        "high: low mid # of its own": ("high may_wait=2: low mid", {"high below"}),
        "other:": ("other: low", {"other below"}),
        "low: std # gone": ("low:", {"low below", "mid below", "high below"}),
        "mid: low # a library named twice": ("mid: low std", set()),
    }
    for old, (new, wanted) in rows.items():
        old = old.partition(" #")[0]
        assert ROWS.count(f"\n{old}\n") == 1, old
        found = tree.changed_by({"crates.txt": ROWS.replace(f"\n{old}\n", f"\n{new}\n")})
        assert found == wanted, (old, new, found)


def test_unread(tree):
    """A file counts whole if it is of another kind, is no text, or has a comment that may go over several lines."""
    for name in ("crates/low/src/table.bin", "crates/low/specs/notes.txt"):
        tree.put(name, "one\n")
        assert tree.changed_by({name: "two\n"}) == {"low own", "mid below", "high below"}
    name = "crates/low/src/lib.rt"
    text = LOW.replace("requires {", "requires /* {} */ {")
    tree.put(name, text)
    assert tree.changed_by({name: text.replace("rows ≡ 1", "rows ≡ 2")}) == {"low own", "mid below", "high below"}
    tree.put("crates/mid/specs/More.antt", "use Rattle.low.specs.Long.{long}\nuse Rattle.low.specs.More.{more}\n")
    name = "crates/low/specs/Long.antt"
    tree.put(name, "{- a comment\n-}\n-- one\n")
    assert tree.changed_by({name: "{- a comment\n-}\n-- two\n"}) == {"low own", "mid below"}
    with open(f"{tree.folder}/crates/low/specs/More.antt", "wb") as file:
        file.write(b"-- \xff\n")
    before = tree.digests()
    with open(f"{tree.folder}/crates/low/specs/More.antt", "wb") as file:
        file.write(b"-- \xfe\n")
    assert all(before[it] != tree.digests()[it] for it in ("low", "mid"))


def test_names(tree):
    """A contract counts for a crate above whose sources or edits name the function, and a specification for one that it leads to."""
    for name, text in (("crates/mid/src/lib.rt", "use low::Mark;\npub struct Mid;\n"), ("crates/mid/specs/Own.antt", "pub own : ℕ\nown = 21\n")):
        tree.put(name, text)
    contract = replaced("crates/low/src/lib.rt", "rows ≡ 1", "rows ≡ 2")
    assert tree.changed_by(contract) == {"low own", "high below"}
    assert tree.changed_by(replaced("crates/low/src/lib.rt", "rows: u8,", "rows: u16,")) == {"low own", "mid below", "high below"}
    definition = replaced("crates/low/specs/Grid.antt", "x + x", "x - x")
    assert tree.changed_by(definition) == {"low own", "high below"}
    tree.put("crates/mid/must-fail/edit-0.edit", "file: src/lib.rt\nold: Mid;\nnew: area();\n")
    for changed in (contract, definition):
        assert tree.changed_by(changed) == {"low own", "mid below", "high below"}
    tree.put("crates/mid/must-fail/edit-0.edit", "mid 0\n")
    for name, wanted in (("macro_rules! more { area }", {"mid below"}), ("pub const MORE: u8 = area(1);", {"mid below"}), ("const MORE: u8 = area(1);", set()), ("// area", set())):
        tree.put("crates/low/src/more.rt", name + "\n")
        assert tree.changed_by(contract) == {"low own", "high below", *wanted}, name
    tree.put("crates/low/src/more.rt", "pub fn more() {\n    area()\n}\n")
    assert tree.changed_by(contract) == {"low own", "high below"}
    tree.put("crates/low/src/more.rt", "pub use parts::{area, cells};\n")
    assert tree.changed_by(contract) == {"low own", "high below"}
    tree.put("crates/low/src/more.rt", "pub use parts::{area as size, cells};\n")
    assert tree.changed_by(contract) == {"low own", "mid below", "high below"}
    tree.put("crates/low/src/more.rt", "pub const fn more() {\n    area()\n}\n")
    assert tree.changed_by(contract) == {"low own", "mid below", "high below"}


def test_edit(tree):
    """Another edit of a crate changes nothing for the crates above it."""
    stales(tree, lambda: tree.put("crates/low/must-fail/edit-0.edit", "low 1\n"), 5, "(its own files)")
    wants(tree.run("--write"), 0, "9 passed, 0 failed", 0)
    tree.put("crates/low/must-fail/edit-0.edit", "low 2\n")
    wants(tree.run("--all"), 0, "9 passed, 0 failed", 9)


def test_proof(tree):
    stales(tree, lambda: tree.put("crates/high/proofs/a/b.antt", "b\n"), 3, "high: 3 mutants: the baseline is stale (its own")


def test_row(tree):
    """A library of the toolchain that a crate names in crates.txt counts for it and for those above it; another crate's line does
    not."""
    change = lambda: tree.put("crates.txt", ROWS.replace("low: std", "low: std itoa") + "more:\n")
    stales(tree, change, 8, *(f"{it} mutants: the baseline is stale (what it sees of the crates below it)" for it in ("low: 5", "high: 3")))


def test_script(tree):
    texts = [f"{name}: {count} mutant" for name, count in CRATES.items()]
    stales(tree, lambda: tree.put("tests/mutants.py", "# more\n", "a"), 9, *texts)


def test_toolchain(tree):
    """Another logic makes the baseline stale; a kit of another name with the same logic does not."""
    texts = "(the script or the logic)", "high: 3", "other: 1 mutant:"
    stales(tree, lambda: None, 9, *texts, KIT="kit-1 logic two")
    tree.run("--write")
    none, _ = quiet(tree)
    wants(tree.run("--proved", "--commit", none, KIT="kit-2 logic one"), 0, f"{ALL} passed, 0 failed", 0)


def test_answers_by_hand(tree):
    """A baseline of other edits than the crate has is stale too, and so is one that has an edit as anything but refused."""
    tree.run("--write")
    text = open(f"{tree.folder}/{baseline.FILE}").read()
    for old, new in (("  edit-4.edit refused 3\n", ""), ("  edit-4.edit refused 3\n", "  edit-4.edit proved 3\n")):
        stales(tree, lambda: tree.put(baseline.FILE, text.replace(old, new)), 5, "low: 5 mutants: the baseline is stale (the e")


def test_broken(tree):
    """A baseline that cannot be read fails."""
    tree.run("--write")
    tree.put(baseline.FILE, "<<<<<<< ours\n", "a")
    status, text, tried = tree.run("--proved")
    assert status and not tried and "cannot be read: <<<<<<<" in text, text


def test_hidden(tree):
    """What is hidden or lies in out/ is no part of a crate."""
    tree.run("--write")
    none, _ = quiet(tree)
    for it in ("src/.lib.rt.swp", "out/rlib/a", "src/out/a", ".cache/b"):
        tree.put(f"crates/low/{it}", "a\n")
    wants(tree.run("--proved", "--commit", none), 0, "9 passed, 0 failed", 0)


def test_write(tree):
    """The baseline is written crate by crate: not of one that has an edit let through, nor of one that changed meanwhile."""
    wants(tree.run("--write", "low"), 0, "5 passed, 0 failed", 5)
    assert [*tree.recorded()] == ["low"]
    wants(tree.run("--write", WRONG="edit-2.edit"), 1, "8 passed, 2 failed", 4, "not written, since not all are ref")
    assert [*tree.recorded()] == ["low", "other"]
    wants(tree.run("--write", MEANWHILE="high"), 1, "9 passed, 1 failed", 3, "not written, since files changed meanwhile")
    assert [*tree.recorded()] == ["low", "other"]
    wants(tree.run("--write"), 0, "9 passed, 0 failed", 3)
    wants(tree.run("--write", "other"), 0, "1 passed, 0 failed", 1, "all are tried, as was asked")
    assert [*tree.recorded()] == ["high", "low", "other"]
    wants(tree.run("--write", "other", WRONG="edit-0.edit"), 1, "0 passed, 2 failed", 1, "not written, since not all are ref")
    assert [*tree.recorded()] == ["high", "low"]
    assert tree.recorded()["low"].answers["edit-3.edit"] == ("refused", 2)
    assert [*os.listdir(f"{tree.folder}/tests")].count("mutants.txt") == 1
    assert not [it for it in os.listdir(f"{tree.folder}/tests") if it.startswith(".")]


def test_side_by_side(tree):
    """Two runs that write at once lose none of each other's lines."""
    paths = {"PATH": f"{tree.folder}/bin:{os.environ['PATH']}"}
    how = {"stdout": subprocess.DEVNULL, "cwd": tree.folder, "env": {**os.environ, **paths}}
    ran = [subprocess.Popen([sys.executable, "-c", TRIAL, "--write", it], **how) for it in CRATES]
    assert [it.wait() for it in ran] == [0, 0, 0]
    assert [*tree.recorded()] == ["high", "low", "other"]
    arguments = "import sys; sys.path.insert(0, 'tests'); import mutants_baseline as it; it.write('.', without=['low'])"
    with baseline.held(f"{tree.folder}/tests"):
        ran = subprocess.Popen([sys.executable, "-c", arguments], **how)
        try:
            ran.wait(timeout=1)
            raise AssertionError("a run writes while another does")
        except subprocess.TimeoutExpired:
            assert "low" in tree.recorded()
    assert ran.wait() == 0 and [*tree.recorded()] == ["high", "other"]


def test_no_edits_any_more(tree):
    """Lines of a crate that has no edits any more fail until they are taken out."""
    tree.run("--write")
    none, _ = quiet(tree)
    shutil.rmtree(f"{tree.folder}/crates/other/must-fail")
    wants(tree.run("--proved", "--commit", none), 1, "8 passed, 1 failed", 0, "has lines of other")
    wants(tree.run("--write"), 0, "8 passed, 0 failed", 0)
    wants(tree.run("--proved", "--commit", none), 0, "8 passed, 0 failed", 0)


def test_bad_file(tree):
    """A file in must-fail/ that is no edit has the crate tried, and its lines stale."""
    stray = lambda: tree.put("crates/low/must-fail/.edit-9.txt", "x\n")
    tree.run("--write")
    stray()
    status, text, _ = tree.run("--proved")
    assert status == 1 and "low: 6 mutants: the baseline is stale (the edits that it names)" in text, text


def test_order(tree):
    """Crates are tried by what they took, most first, and with a quarter more memory than they took; else by lines."""
    assert "order: low(7) high(7) other(7)" in tree.run("--proved")[1]
    tree.run("--write")
    text = open(f"{tree.folder}/{baseline.FILE}").read()
    for name, seconds in (("low", 20), ("high", 30), ("other", 40)):
        text = re.sub(rf"(crate {name} .*)seconds=\d+ megabytes=\d+", rf"\1seconds={seconds} megabytes=100", text)
    tree.put(baseline.FILE, text)
    orders = tree.run("--all")[1]
    assert "order: other(125000000) high(125000000) low(125000000)" in orders, orders


def test_measured(tree):
    """What a check took is in the baseline, and what it printed and its status come through."""
    tree.run("--write")
    assert all(0 < it.megabytes < 1000 for it in tree.recorded().values()), tree.recorded()
    arguments = "import subprocess as s, sys; sys.path.insert(0, 'tests'); import mutants as it\n"
    arguments += "how = dict(stdout=s.PIPE, stderr=s.STDOUT, errors='replace')\n"
    arguments += "ran = it.run_measured(['sh', '-c', 'echo a; echo b >&2; exit 3'], **how); print(ran.returncode, repr(ran.stdout))\n"
    arguments += "print(it.run_measured(['sh', '-c', 'kill -9 $$'], **how).returncode, it.TAKEN.memory > 0)"
    text = python(tree, arguments)
    assert text == "3 'a\\nb\\n'\n-9 True\n", text


def test_by_the_whole_crate(tree):
    """Of what the toolchain's own trial of an edit answers, one kind alone is a refusal: not a limit, and nothing unclear."""
    arguments = "import sys; sys.path.insert(0, 'tests'); import types, mutants as it\n"
    arguments += "edit = types.SimpleNamespace(name='a.edit', path='', texts={})\n"
    arguments += "for kind in ('refused', True, 'limit', 'bad', 'unsure', 'missed', False):\n"
    arguments += "    it.rt.must_fail = lambda *_: (kind, 'must-fail low/a.edit: refused, as it must be: why')\n"
    arguments += "    trial = it.Trial.__new__(it.Trial)\n"
    arguments += "    trial.crate, trial.kept = it.rtlib.crates_below('')[0], ''\n"
    arguments += "    trial.results, trial.groups, trial.number = {}, {}, 0\n"
    arguments += "    trial.sources = types.SimpleNamespace(touched=lambda texts: {})\n"
    arguments += "    trial.try_alone(edit)\n"
    arguments += "    print(kind, trial.results['a.edit'].passed, 'NO ANSWER' in trial.results['a.edit'].text)\n"
    text = python(tree, arguments)
    kinds = "refused True False\nTrue True False\nlimit False True\nbad False True\nunsure False True\nmissed False True\n"
    assert text == kinds + "False False True\n", text


def test_what_a_check_reports(tree):
    """Of a function's lines and notes in a check: proved, be it that it may wait; refused by a goal, by a proof file alone, or
    by a name that is gone; nothing but that what it calls isn't proved; and anything else is unclear."""
    note = "note: src/a.rt:5:9: it is not proved that `ensures` holds"
    file = "proofs/a/f/Answers.antt:3:1: error: "
    asked = {
        "proved": ["fn low::a::f: proved"],
        "proved, may wait": ["fn low::a::f: proved, may wait"],
        "proved, of two kinds": ["fn low::a::f: proved, may abort, may wait"],
        "a closure": ["fn low::a::f: proved, may wait", "fn low::a::fn::f::closure: proved, may wait"],
        "a goal": [note, "fn low::a::f: no proof: 1 goal is open"],
        "a goal beside a file": [file + "it has another type", note, "fn low::a::f: no proof: 1 goal is open"],
        "not proved": ["fn low::a::f: not proved: rattle did not prove 1 goal"],
        "a file": [file + "it has another type", "fn low::a::f: no proof: its file has an error"],
        "a name": [file + "`x` is not in scope", "fn low::a::f: no proof: its file has an error"],
        "a call": ["fn low::a::f: no proof: it calls low::a::g"],
        "another's call": ["fn low::a::f: proved, may wait", "fn low::a::fn::f::closure: no proof: it calls low::a::g"],
        "no such line": ["fn low::a::g: proved"],
        "proved, perhaps": ["fn low::a::f: proved, perhaps"],
    }
    arguments = "import sys; sys.path.insert(0, 'tests'); import types, mutants as it\n"
    arguments += "it.rtlib.STALE = it.re.compile('stale')\n"
    arguments += f"for name, said in {asked!r}.items():\n"
    arguments += "    ran = types.SimpleNamespace(stdout='\\n'.join(said), returncode=1)\n"
    arguments += "    print(f'{name}: {it.Answer(ran).of(\"low::a::f\", (\"src/a.rt\", 1, 9))[0]}')\n"
    kinds = ["proved", "proved", "proved", "proved", "refused", "refused", "refused", "form only", "names only", "calls", "calls"]
    wanted = "".join(f"{name}: {kind}\n" for name, kind in zip(asked, [*kinds, "unclear", "unclear"]))
    text = python(tree, arguments)
    assert text == wanted, text


# A crate whose mutants are tried on copies, and lines of Python that have its functions (`sources`) and its trial (`trial`): a word
# or a mark is a token.
LOG = """mod keys;

#[inline]
pub fn get(by: [u8; 4]) -> u8 {
    size(by) + 1
}

fn size(by: [u8; 4]) -> u8 {
    4
}

fn sum(n: u8) -> u8 {
    sum(n - 1)
}

#[cycle(parity)]
fn even(n: u8) -> bool {
    odd(n)
}

impl Log {
    fn room(&self) -> u8 {
        5
    }
}

impl Rows for Log {
    fn rows(&self) -> u8 {
        6
    }
}

trait Rows {
    fn most(&self) -> u8 {
        7
    }
}

fn first() {
    8
}

fn last() {
    9
}

fn main() {
    get([0; 4])
}
"""
GETS = """use Rattle.log.proofs.lib.Log.room.Goals as goal
use Rattle.log.proofs.get.Goals as goal
use Rattle.log.specs.contracts.get
use Rattle.log.proofs.get-all.{all}
use Rattle.log.proofs.gets.Met
use Rattle.logs.proofs.get.Met
"""
OF_LOG = """import os, re, sys, types
sys.path.insert(0, "tests")
import mutants as it
def tokens_in(text):
    found = re.finditer(rb"\\w+|[^\\w\\s]", text)
    return [it.Token(one.start(), one.end(), "Code", one[0].decode()) for one in found]
it.tokens_in, it.tokens_of = tokens_in, lambda files: [tokens_in(open(file, "rb").read()) for file in files]
it.rtlib.PARTS = ("src", "specs", "proofs")
it.rtlib.STALE = re.compile("stale")
it.rtlib.files_of = lambda folder: [f"{folder}/src/lib.rt"]
it.rt.unread = lambda line, changed: False
trial = it.Trial(types.SimpleNamespace(name="log", folder="crates/log"), "")
sources = trial.sources
by_name = {one.path.partition("::")[2]: one for one in sources.all}
def edit(name, old, new):
    text = sources.texts["src/lib.rt"].decode().replace(old, new)
    return it.Edit(name, "", {"src/lib.rt": text}, sources.change({"src/lib.rt": text}))
"""


def of_log(tree, arguments):
    """Returns what lines of Python print, with the crate and its trial."""
    tree.put("crates/log/src/lib.rt", LOG)
    tree.put("crates/log/proofs/get/Answers.antt", GETS)
    tree.put("crates/log/proofs/get/more/Lemmas.antt", "use Rattle.log.proofs.get\n")
    tree.put("crates/log/proofs/+sum/Answers.antt", "\n")
    return python(tree, OF_LOG + arguments)


def test_functions(tree):
    """A function's signature may have an array type, whose semicolon ends nothing."""
    text = of_log(tree, "print(*by_name, sep='\\n')")
    assert text.split() == "get size sum even Log::room LogRows::rows Rows::most first last main".split(), text


def test_what_can_be_copied(tree):
    """A copy can stand beside each function but those of traits and of their impls, those that call themselves, and main."""
    text = of_log(tree, "print(*(name for name, one in by_name.items() if sources.can_be_copied(one)))")
    assert text.split() == ["get", "size", "Log::room", "first", "last"], text


def test_copy(tree):
    """A copy follows its function, which stays, and has its attributes, a name of its own and the edited body; its proof files
    name its modules in place of the function's, and nothing else of them changes."""
    arguments = "one = sources.beside(edit('a.edit', '+ 1', '+ 2').change, 3)\n"
    arguments += "texts, lines = sources.with_changes([one])\n"
    arguments += "print(one.function.path, lines[one.function])\n"
    arguments += "print(texts['src/lib.rt'])\n"
    arguments += "for name, text in sorted(sources.proofs_of(by_name['get'], one.function).items()): print(name, text, sep='\\n')"
    head, source, answers = of_log(tree, arguments).partition("mod keys;")
    assert head == "log::get_tried_3 ('src/lib.rt', 6, 11)\n", head
    source, _, proofs = answers.partition("proofs/get_tried_3/Answers.antt\n")
    copied = "\n\n#[inline]\npub fn get_tried_3(by: [u8; 4]) -> u8 {\n    size(by) + 2\n}"
    assert "mod keys;" + source == LOG.replace("+ 1\n}", "+ 1\n}" + copied) + "\n", source
    wanted = GETS.replace("Rattle.log.proofs.get.G", "Rattle.log.proofs.get_tried_3.G").replace("contracts.get", "contracts.get_tried_3")
    lemmas = "proofs/get_tried_3/more/Lemmas.antt\nuse Rattle.log.proofs.get_tried_3\n\n"
    assert proofs == wanted + "\n" + lemmas, proofs


def test_mark(tree):
    """The name of a copy is in no file of the crate."""
    more = "open('crates/log/src/lib.rt', 'a').write('fn a_tried_1() {}')\n"
    marks = [of_log(tree, f"{it}print(it.Sources(trial.crate).mark)") for it in ("", more)]
    assert marks == ["_tried_\n", "_tried__\n"], marks


# What a check of copies prints: of the function `get` a copy that is not edited and two that are, and the script's two controls.
TRIED = {
    "get_tried_0": "proved",
    "get_tried_1": "not proved: rattle did not prove 1 goal",
    "get_tried_2": "proved",
    "first": "proved",
    "last": "not proved: rattle did not prove 1 goal",
}
TRY_BESIDE = """
edits = [edit("a.edit", "+ 1", "+ 2"), edit("b.edit", "+ 1", "+ 3")]
control = lambda name, text: sources.with_statement(by_name[name], text)
trial.controls = lambda taken: [control("first", it.HARMLESS), control("last", it.CONTROL)]
checked = []
def check(texts, flags, proofs):
    checked.append(([one for one in flags if one != "--only"], sorted(proofs)))
    lines = [f"fn log::{name}: {said}" for name, said in printed.items()]
    return it.Answer(types.SimpleNamespace(stdout="\\n".join([*lines, end]), returncode=status))
trial.check, end, status = check, "only=5 proved=3", 1
results = trial.try_beside(edits, {by_name["sum"]})
print(len(checked), len(results), *sorted(trial.results), *(one.path for one in trial.proved))
"""


def tried_beside(tree, change, more=""):
    """Returns what a trial on copies comes to if a check prints so: the number of checks, of failures, and what it notes."""
    start, call, end = TRY_BESIDE.partition("results = ")
    return of_log(tree, f"printed = {({**TRIED, **change})!r}\n{start}{more}{call}{end}").split()


def test_beside(tree):
    """An edit is refused on a copy if the copy is refused and the one that is not edited is proved; anything else is left to be
    tried in place. The controls have to come out as they should, and a function that is proved unedited is noted."""
    assert tried_beside(tree, {}) == ["1", "0", "a.edit"]
    assert tried_beside(tree, {"sum": "proved"}) == ["1", "0", "a.edit", "log::sum"]
    assert tried_beside(tree, {"sum": "no proof: it calls log::last"}) == ["1", "0", "a.edit"]
    assert tried_beside(tree, {"get_tried_2": "not proved: rattle did not prove 1 goal"}) == ["1", "0", "a.edit", "b.edit"]
    assert tried_beside(tree, {"get_tried_0": "not proved: rattle did not prove 1 goal"}) == ["1", "0"]
    assert tried_beside(tree, {"get_tried_1": "no proof: it calls log::size"}) == ["1", "0"]
    assert tried_beside(tree, {"get_tried_1": "proved, perhaps"}) == ["1", "0"]
    assert tried_beside(tree, {"first": "not proved: rattle did not prove 1 goal"}) == ["1", "1", "a.edit"]
    assert tried_beside(tree, {"last": "proved"}) == ["1", "1", "a.edit"]
    assert tried_beside(tree, {}, "status = 2\n") == ["1", "0"]
    assert tried_beside(tree, {}, "end = 'rattle: no verdict'\n") == ["1", "0"]
    assert tried_beside(tree, {}, "end = 'stale'\n") == ["1", "0"]


def test_what_is_checked_beside(tree):
    """One check has each edit's copy with its proof files, one copy of each function unedited, and the controls."""
    text = of_log(tree, f"printed = {TRIED!r}\n{TRY_BESIDE}print(checked)").partition("\n")[2]
    copies = [f"get_tried_{it}" for it in range(3)]
    proofs = [f"proofs/{it}/{name}" for it in copies for name in ("Answers.antt", "more/Lemmas.antt")]
    assert text == f"[({['first', *copies, 'last', 'sum']!r}, {proofs!r})]\n", text


def test_parts(tree):
    """The edits are checked in even parts, never more at once than the limit, and those of a function in a row."""
    arguments = "it.AT_ONCE = 4\n"
    arguments += "made = lambda name, count: [types.SimpleNamespace(change=types.SimpleNamespace(function=name))] * count\n"
    arguments += "for counts in ((3, 2, 2), (1, 3), (9,), ()):\n"
    arguments += "    edits = [one for at, count in enumerate(counts) for one in made(at, count)]\n"
    arguments += "    edits = edits[::2] + edits[1::2]\n"
    arguments += "    print([''.join(str(one.change.function) for one in part) for part in trial.parts(edits)])\n"
    text = of_log(tree, arguments)
    assert text.split("\n")[:4] == ["['0001', '122']", "['0111']", "['000', '000', '000']", "[]"], text


def test_run(tree):
    """What is refused on a copy is not tried again; what cannot be copied, or is not refused so, is tried in place, and unedited
    unless a check on copies has proved it."""
    arguments = "edits = {'a': edit('a', '+ 1', '+ 2'), 'b': edit('b', '+ 1', '+ 3'), 'c': edit('c', 'n - 1', 'n - 2')}\n"
    arguments += "it.rt.edits_of = lambda crate: ([*edits], [])\n"
    arguments += "trial.read = edits.get\n"
    arguments += "def try_beside(part, others):\n"
    arguments += "    print('beside', *(one.name for one in part), *(one.path for one in others))\n"
    arguments += "    trial.put(part[0], True, 'refused')\n"
    arguments += "    trial.proved |= others\n"
    arguments += "    return []\n"
    arguments += "def try_group(group):\n"
    arguments += "    print('in place', *(one.name for one in group))\n"
    arguments += "    for one in group: trial.put(one, True, 'refused')\n"
    arguments += "    return []\n"
    arguments += "def check(texts, flags):\n"
    arguments += "    print('unedited', *flags)\n"
    arguments += "    return types.SimpleNamespace(is_stale=False, is_proved=True)\n"
    arguments += "trial.try_beside, trial.try_group, trial.check = try_beside, try_group, check\n"
    arguments += "print(all(one.passed for one in trial.run()))\n"
    text = of_log(tree, arguments)
    assert text == "beside a b log::sum\nin place b c\nunedited --only get\nTrue\n", text


def test_closures(tree):
    """The closures of a function and of a method are read with it, and no others."""
    said = ["a::f", "a::fn::f::map", "a::fn::f::map+FnMut::call_mut", "a::fn::g::map", "a::f::g", "a::Log::get", "a::fn::Log::get::any"]
    lines = "\n".join(f"fn {it}: proved" for it in said)
    arguments = f"answer = it.Answer(types.SimpleNamespace(stdout={lines!r}, returncode=0))\n"
    arguments += "print(answer.own('a::f'))\nprint(answer.own('a::Log::get'))\n"
    text = of_log(tree, arguments)
    assert text == f"{said[:3]!r}\n{said[5:]!r}\n", text


def test_aliases(tree):
    """The functions of an impl of an alias bear its name, with each of its arguments behind a plus sign."""
    heads = {
        "impl End": "End",
        "impl < S : Store > End < S >": "End+S",
        "impl < S , T : Store < S > > End < S , Vec < T > > where T : Copy": "End+S+Vec",
    }
    arguments = "import sys; sys.path.insert(0, 'tests'); import types, mutants as it\n"
    arguments += f"for head in {[*heads]!r}: print(it.alias_with_arguments(head.split()))\n"
    parts = "pub type End < S > = Other < S > ; pub struct Own ;".split()
    arguments += f"tokens = [types.SimpleNamespace(kind='Code', text=word) for word in {parts!r}]\n"
    arguments += "print(it.aliases_of({'src/lib.rt': tokens}))\n"
    text = python(tree, arguments)
    assert text == "".join(f"{it}\n" for it in [*heads.values(), "{'End'}"]), text


def test_owners(tree):
    """The functions of a trait's impl bear the names of its type, of the trait and of the trait's arguments, without parameters."""
    heads = {
        "impl Display for Fault": "FaultDisplay",
        "impl From < AllocError > for Fault": "FaultFromAllocError",
        "impl < F : Form > Consumer < F > for Follower": "FollowerConsumer",
        "impl < F , O : Observer < F > > Content < F , Both < Recorder , O > > for Asked": "AskedContentBothRecorder",
    }
    arguments = "import sys; sys.path.insert(0, 'tests'); import mutants as it\n"
    arguments += f"for head in {[*heads]!r}: print(it.owner_of(head.split()))\n"
    text = python(tree, arguments)
    assert text == "".join(f"{it}\n" for it in heads.values()), text


def entry_of(name, seconds):
    return baseline.Entry(name, None, seconds, 0, {})


def test_choice(tree):
    """The choice of an eighth is the same each time, near an eighth, and each crate comes up over 64 commits, whole."""
    commits = [f"{at:040x}" for at in range(64)]
    crates = [entry_of(f"crate-{at}", 1000) for at in range(15)]
    chosen = [(it, crate.name) for it in commits for crate in crates if baseline.is_chosen(it, crate, 1)]
    assert {name for _, name in chosen} == {it.name for it in crates}
    assert 0.09 < len(chosen) / (len(commits) * len(crates)) < 0.16, len(chosen)
    for group in range(1, 9):
        assert chosen == [(it, crate.name) for it in commits for crate in crates if baseline.is_chosen(it, crate, group)]


def test_choice_of_parts(tree):
    """Of a crate that takes three times as long as a part may, every third group is chosen at once, each part near an eighth."""
    long, counts = entry_of("long", 3 * baseline.TOGETHER - 1), [0, 0, 0]
    for commit in map(str, range(512)):
        groups = [it for it in range(12) if baseline.is_chosen(commit, long, it)]
        parts = {it % 3 for it in groups}
        assert groups == [it for it in range(12) if it % 3 in parts], groups
        counts = [count + (part in parts) for part, count in enumerate(counts)]
    assert all(0.09 < it / 512 < 0.16 for it in counts), counts


def test_commit(tree):
    """The groups are chosen by what was given, else by the repository's commit, else by the day."""
    assert baseline.commit_of(tree.folder, "abc") == "abc"
    assert re.fullmatch(r"\d{4}-\d\d-\d\d", baseline.commit_of(tree.folder))
    if shutil.which("git") is None:
        print(f"mutants: not tried: the commit of a repository: {needs.no_command('git')}")
        return
    arguments = ["git", "-C", tree.folder, "-c", "user.name=a", "-c", "user.email=a@b"]
    for more in (["init", "-q"], ["commit", "-q", "--allow-empty", "-m", "a"]):
        subprocess.run([*arguments, *more], check=True, stdout=subprocess.DEVNULL)
    assert re.fullmatch("[0-9a-f]{40,64}", baseline.commit_of(tree.folder))


def main(arguments):
    argparse.ArgumentParser(description=__doc__, formatter_class=argparse.RawDescriptionHelpFormatter).parse_args(arguments)
    tests = [it for name, it in sorted(globals().items()) if name.startswith("test_")]
    failed = 0
    for it in tests:
        with tempfile.TemporaryDirectory(prefix="mutants-test-") as folder:
            try:
                it(Tree(folder))
            except AssertionError as error:
                failed += 1
                print(f"{it.__name__}: FAILED: {error}")
    print(f"{len(tests) - failed} passed, {failed} failed")
    return 1 if failed else 0


if __name__ == "__main__":
    ending.run(main)
