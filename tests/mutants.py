#!/usr/bin/env python3
"""Tries the mutants of each crate, crates/NAME/must-fail/*.edit: the prover must refuse each of them.

  tests/mutants.py [--jobs N] [--proved] [--commit HASH] [NAME..]    the gate: takes the answers of the baseline
  tests/mutants.py [--jobs N] [--proved] --write [NAME..]            tries what the baseline lacks, and writes it
  tests/mutants.py [--jobs N] [--proved] --all [NAME..]              tries everything, whatever the baseline has
  tests/mutants.py [--jobs N] [--proved] --kept [NAME..]             the same, over kept work: a quick look

It runs at the top of the repository; with no NAME it takes each crate that has edits.

How each edit was answered is kept in tests/mutants.txt, with digests of all that the answers rest on. Where these agree,
the answers are taken, and one group in eight is tried again, chosen by the commit's hash: that of the repository or of
--commit, and else the day. A crate without lines in the baseline is tried whole. So is one whose lines are stale, and that
fails, except under --write, which writes its lines again, crate by crate, if each edit is refused. With --write a crate that
is named is tried whatever the baseline has.

`rt must-fail` checks a crate once for each edit. Callers see only contracts, so edits of different functions do not affect
each other. Here each edit is made in a copy of its function. The copy follows the function under a name of its own, with a
copy of its proof files. One check has up to 30 such copies and, of each of these functions, one copy without an edit. An edit
is refused if its copy is refused and the copy without an edit is proved. All other edits are tried in place, in groups of
one edit per function; these functions are then proved unedited. CONTRIBUTING.md has the rules. The crates below are proved
first if they are not; --proved means that `rt ci` has just proved this tree, and takes the libraries that it left. A crate is
checked from scratch, and the checks of one run share what they prove. With --kept they start from a copy of what earlier
checks kept in out/, which is quicker.

The last line is 'N passed, M failed'; the status is 0 where nothing failed, and 1 else. Needs Python 3.8 or later.
"""
import argparse
import copy
import importlib.machinery
import importlib.util
import json
import os
import re
import shutil
import subprocess
import sys
import tempfile
import threading
import types
from collections import Counter, namedtuple

sys.dont_write_bytecode = True
sys.path.insert(0, os.path.dirname(os.path.realpath(__file__)))
import mutants_baseline as baseline

# What the checks of a thread have taken: CPU time in seconds, and the most memory of one, in bytes.
TAKEN = threading.local()


def run_measured(arguments, **how):
    """Runs a command as subprocess.run does, and notes what it took where it is one that checks a crate."""
    if how.get("stdout") != subprocess.PIPE or how.get("stderr") != subprocess.STDOUT:
        return subprocess.run(arguments, **how)
    with subprocess.Popen(arguments, **how) as ran:
        printed = ran.stdout.read()
        _, status, used = os.wait4(ran.pid, 0)
        ran.returncode = -os.WTERMSIG(status) if os.WIFSIGNALED(status) else os.WEXITSTATUS(status)
    TAKEN.seconds = getattr(TAKEN, "seconds", 0) + used.ru_utime + used.ru_stime
    TAKEN.memory = max(getattr(TAKEN, "memory", 0), 1024 * used.ru_maxrss)
    return subprocess.CompletedProcess(arguments, ran.returncode, printed)


def load_rt():
    """Returns the toolchain's own script as a module: it knows how a check is started, and how an edit is read."""
    path = shutil.which("rt")
    if not path:
        sys.exit("mutants: there is no rt on the path")
    loader = importlib.machinery.SourceFileLoader("rt", path)
    module = importlib.util.module_from_spec(importlib.util.spec_from_loader("rt", loader))
    sys.modules["rt"] = module
    loader.exec_module(module)
    # (its way to start a check stays its own; here it is only measured)
    module.subprocess = types.SimpleNamespace(**{**vars(subprocess), "run": run_measured})
    return module


rt = load_rt()
rtlib = rt.rtlib
ONE_JOB = ["--jobs", "1"]
# The most edits of a group. A check takes up to a minute of CPU time (cdc_run, 2026-11-30) before it proves anything, so few are
# better. Of a crate that takes long one group in some is tried again, so it needs several.
AT_ONCE = 30

# ---------------------------------------------------------------------------------------------------------------------
# The functions of a source file, and what an edit changes of it.

# A function: its full path as a check prints it, the bytes of its body with the braces, the places in the list of
# tokens where its text begins and where its body begins and ends (none for one that the script adds), the words that its
# body has, and whether it is of a trait or of an impl of one.
Function = namedtuple("Function", "path start end tokens names is_of_trait")
Token = namedtuple("Token", "start end kind text")
# An edit that changes one function's body and nothing else: the file, the function, and its other body.
Change = namedtuple("Change", "file function body")


class Unreadable(Exception):
    """A text that Rattle has no tokens for."""


def tokens_of(files):
    """Returns the tokens of each file, as a check reads them."""
    ran = subprocess.run([rtlib.RATTLE, "fmt", "--tokens", *files], capture_output=True)
    parts = re.split(r"(?m)^file \d+\n", ran.stdout.decode(errors="replace"))[1:]
    if ran.returncode or len(parts) != len(files):
        said = ran.stderr.decode(errors="replace").strip()
        raise Unreadable(said.split("\n")[0] if said else "the text has no tokens")
    row = re.compile(r"(?m)^\d+ (\d+) (\d+) (\w+) (.*)$")
    return [[Token(int(it[1]), int(it[2]), it[3], json.loads(it[4])) for it in row.finditer(part)] for part in parts]


def tokens_in(text):
    """Returns the tokens of a text."""
    with tempfile.NamedTemporaryFile(suffix=".rt") as copy:
        copy.write(text)
        copy.flush()
        return tokens_of([copy.name])[0]


def module_of(file):
    """Returns the path of the module that a file below src/ is, as a list of names."""
    parts = os.path.relpath(file, "src")[: -len(".rt")].split(os.sep)
    return parts[:-1] if parts[-1] in ("main", "lib", "mod") else parts


def name_in(words):
    """Returns the last name of a type or a trait, without what stands in angle brackets."""
    depth, names = 0, []
    for word in words:
        depth += {"<": 1, ">": -1}.get(word, 0)
        if depth == 0 and re.fullmatch(r"\w+", word) and word not in ("dyn", "mut", "const"):
            names.append(word)
    return names[-1] if names else "?"


def arguments_in(words, parameters=frozenset()):
    """Returns the names of a trait's arguments and of theirs, each as name_in has it, put together, without parameters."""
    depth, parts = 0, []
    for word in words:
        if depth == 0 and word == "<" or depth == 1 and word == ",":
            parts.append([])
        depth += {"<": 1, ">": -1}.get(word, 0)
        if depth and parts and (depth, word) not in ((1, "<"), (1, ",")):
            parts[-1].append(word)
    names = ((name_in(part), arguments_in(part, parameters)) for part in parts)
    return "".join(name + inner for name, inner in names if name not in parameters)


def owner_of(words):
    """Returns the name under which a check prints the functions of an impl or a trait, whose head these words are."""
    if words[0] == "trait":
        return name_in(words[1:2])
    words, parameters = words[1:], set()
    if words[:1] == ["<"]:
        depth = 0
        for at, word in enumerate(words):
            if depth == 1 and words[at - 1] in ("<", ","):
                parameters.add(word)
            depth += {"<": 1, ">": -1}.get(word, 0)
            if depth == 0:
                words = words[at + 1 :]
                break
    if "where" in words:
        words = words[: words.index("where")]
    if "for" in words:
        at = words.index("for")
        return name_in(words[at + 1 :]) + name_in(words[:at]) + arguments_in(words[:at], parameters)
    return name_in(words)


def aliases_of(tokens):
    """Returns the names that a crate declares as other names of types."""
    found = set()
    for all in tokens.values():
        words = [it.text for it in all if it.kind == "Code"]
        found.update(name for it, name in zip(words, words[1:]) if it == "type")
    return found


def alias_with_arguments(words):
    """Returns the name under which a check prints the functions of an impl of an alias, whose head these words are: with each
    of the alias's arguments behind a plus sign."""
    start = max(at for at, it in enumerate(words) if it == owner_of(words))
    depth, parts = 0, []
    for word in words[start:]:
        if depth == 0 and word == "where":
            break
        if depth == 0 and word == "<" or depth == 1 and word == ",":
            parts.append([])
        depth += {"<": 1, ">": -1}.get(word, 0)
        if depth and parts and (depth, word) not in ((1, "<"), (1, ",")):
            parts[-1].append(word)
    return "+".join([owner_of(words), *map(name_in, parts)])


def homes_of(tokens):
    """Returns the module of each type that is declared once in a crate, whose files these are."""
    found = {}
    for file, all in tokens.items():
        words = [it.text for it in all if it.kind == "Code"]
        for it, name in zip(words, words[1:]):
            if it in ("struct", "enum", "union"):
                found.setdefault(name, []).append(module_of(file))
    return {name: modules[0] for name, modules in found.items() if len(modules) == 1}


def test_modules(file, tokens):
    """Returns the modules that a file declares for tests alone, which no check of the crate without its tests reads."""
    words = [it.text for it in tokens if it.kind == "Code"]
    mark = [*"#[", "cfg", "(", "test", *")]", "mod"]
    places = [at + len(mark) for at in range(len(words)) if words[at : at + len(mark)] == mark]
    return [[*module_of(file), words[at]] for at in places]


def functions_of(crate_name, file, tokens, homes, aliases=frozenset()):
    """Returns the functions of a file, outermost only: what is inside a function belongs to it. Those of an impl that is no
    trait's are named by the module of their type."""
    # (clauses are antt's text; braces count in Rattle's own code alone)
    code = [(at, it) for at, it in enumerate(tokens) if it.kind == "Code"]
    scope, head, found, place = [(0, module_of(file), False)], [], [], 0
    depth = brackets = 0

    def closing(place):
        """Returns where the brace that opens at this place is closed."""
        inside = 0
        for at in range(place, len(code)):
            inside += {"{": 1, "}": -1}.get(code[at][1].text, 0)
            if inside == 0:
                return at
        raise Unreadable(f"{file}: a body has no end")

    while place < len(code):
        at, token = code[place]
        word = token.text
        # (the semicolon of an array type, as of `[u8; 4]`, ends no head)
        brackets += {"(": 1, "[": 1, ")": -1, "]": -1}.get(word, 0)
        if word in (";", "{", "}") and not brackets:
            words = [it.text for _, it in head]
            kind = next((it for it in words if it in ("fn", "impl", "trait", "mod")), "")
            kind = "fn" if "fn" in words and kind != "impl" else kind
            if word == "{" and kind == "fn":
                end = closing(place)
                name = words[words.index("fn") + 1]
                path = "::".join([crate_name, *scope[-1][1], name])
                names = frozenset(it.text for _, it in code[place : end + 1])
                span = (head[0][0], at, code[end][0])
                found.append(Function(path, token.start, code[end][1].end, span, names, scope[-1][2]))
                place = end
            elif word == "{":
                depth += 1
                inner, is_of_trait = [*scope[-1][1]], kind == "trait" or kind == "impl" and "for" in words
                if kind in ("impl", "trait"):
                    owner = owner_of(words[words.index(kind) :])
                    is_own = not is_of_trait
                    if is_own and owner in aliases:
                        owner = alias_with_arguments(words[words.index(kind) :])
                    inner = [*(homes.get(owner, inner) if is_own else inner), owner]
                elif kind == "mod":
                    inner.append(words[words.index("mod") + 1])
                scope.append((depth, inner, is_of_trait))
            elif word == "}":
                depth -= 1
                scope.pop()
            head = []
        else:
            head.append((at, token))
        place += 1
    return found


def outside(tokens, functions):
    """Returns what a caller may see of a file: its tokens, but no body and no `mut` of a parameter."""
    left, place = [], 0
    for it in functions:
        left += [token.text for token in tokens[place : it.tokens[1]]]
        place = it.tokens[2] + 1
    left += [token.text for token in tokens[place:]]
    is_pattern = lambda at: left[at - 1] in ("(", ",") and left[at + 2 : at + 3] == [":"]
    return [it for at, it in enumerate(left) if it != "mut" or not is_pattern(at)]


def body_of(tokens, function):
    return [it.text for it in tokens[function.tokens[1] : function.tokens[2] + 1]]


class Sources:
    """The source files of a crate and their functions."""

    def __init__(self, crate):
        self.crate = crate
        paths = [os.path.relpath(it, crate.folder) for it in rtlib.files_of(crate.folder)]
        self.files = [it for it in paths if it.endswith(".rt")]
        self.texts = {it: open(f"{crate.folder}/{it}", "rb").read() for it in self.files}
        self.tokens = dict(zip(self.files, tokens_of([f"{crate.folder}/{it}" for it in self.files])))
        self.homes, self.aliases = homes_of(self.tokens), aliases_of(self.tokens)
        self.of_tests = [it for file in self.files for it in test_modules(file, self.tokens[file])]
        self.functions = {it: self.functions_in(it, self.tokens[it]) for it in self.files}
        self.all = [it for file in self.files for it in self.functions[file]]
        self.file_of = {it: file for file in self.files for it in self.functions[file]}
        self.reached, self.count = {}, Counter(it.path for it in self.all)
        # (what stands in the names of copies and in no file)
        self.mark = "_tried_"
        while any(self.mark.encode() in it for it in self.texts.values()):
            self.mark += "_"

    def functions_in(self, file, tokens):
        """Returns the functions of a file with these tokens, without those of the tests."""
        is_test = lambda it: any(it.path.split("::")[1 : 1 + len(module)] == module for module in self.of_tests)
        return [it for it in functions_of(self.crate.name, file, tokens, self.homes, self.aliases) if not is_test(it)]

    def change(self, texts):
        """Returns the Change that these texts are, or None where they change more than one body."""
        changed = [(file, text.encode()) for file, text in texts.items() if text.encode() != self.texts.get(file)]
        if len(changed) != 1 or changed[0][0] not in self.tokens:
            return None
        file, text = changed[0]
        tokens = tokens_in(text)
        now, was = self.functions_in(file, tokens), self.functions[file]
        if [it.path for it in now] != [it.path for it in was]:
            return None
        if outside(tokens, now) != outside(self.tokens[file], was):
            return None
        pairs = [(a, b) for a, b in zip(was, now) if body_of(self.tokens[file], a) != body_of(tokens, b)]
        if len(pairs) != 1 or not self.stands_for_itself(pairs[0][0]):
            return None
        function, other = pairs[0]
        # (what stands before the body may have got a `mut`, so the whole function is taken)
        start = tokens[other.tokens[0]].start
        return Change(file, function, text[start : other.end])

    def touched(self, texts):
        """Returns the functions that have another text in these files, each with the lines in which it stands there."""
        words = lambda tokens, it: [token.text for token in tokens[it.tokens[0] : it.tokens[2] + 1]]
        found = {}
        for file, text in texts.items():
            if file not in self.texts:
                continue
            text = text.encode()
            tokens = tokens_in(text)
            was = {it.path: it for it in self.functions[file] if self.count[it.path] == 1}
            for it in self.functions_in(file, tokens):
                old = was.get(it.path)
                if old and words(tokens, it) != words(self.tokens[file], old):
                    places = tokens[it.tokens[0]].start, it.end
                    found[old] = (file, *(text[:place].count(b"\n") + 1 for place in places))
        return found

    def stands_for_itself(self, function):
        """Returns whether no other function has its path, and no check runs it, so that its body is seen by no other."""
        head = self.tokens[self.file_of[function]][function.tokens[0] : function.tokens[1]]
        is_const = ("const", "fn") in [(a.text, b.text) for a, b in zip(head, head[1:])]
        return self.count[function.path] == 1 and not is_const

    def with_changes(self, changes):
        """Returns the texts of the files with these changes, and in which lines each changed function is there."""
        texts, lines = {}, {}
        for file in {it.file for it in changes}:
            text, done, place = self.texts[file], b"", 0
            for it in sorted((it for it in changes if it.file == file), key=lambda it: it.function.start):
                function = it.function
                start = self.tokens[file][function.tokens[0]].start if function.tokens else function.start
                done += text[place:start]
                first = done.count(b"\n") + 1
                done += it.body
                lines[function] = file, first, done.count(b"\n") + 1
                place = function.end
            texts[file] = (done + text[place:]).decode()
        return texts, lines

    def can_be_copied(self, function):
        """Returns whether a copy can stand beside a function: it belongs to no trait, whose functions are fixed, and calls
        neither itself nor what calls it, since its proof is then that of a cycle."""
        head = [it.text for it in self.tokens[self.file_of[function]][function.tokens[0] : function.tokens[1]]]
        is_in_cycle = os.path.isdir(f"{self.crate.folder}/{proof_folders(function.path)[1]}") or "cycle" in head
        is_fixed = function.is_of_trait or "extern" in head or function.path == f"{self.crate.name}::main"
        return not is_in_cycle and not is_fixed

    def unchanged(self, function):
        """Returns the Change that leaves a function as it is."""
        file = self.file_of[function]
        start = self.tokens[file][function.tokens[0]].start
        return Change(file, function, self.texts[file][start : function.end])

    def beside(self, change, number):
        """Returns the Change that leaves a function as it is and puts the other text after it, under a name of its own."""
        function, more = change.function, f"{self.mark}{number}"
        name = function.path.rpartition("::")[2].encode()
        text = re.sub(rb"\bfn\s+%s\b" % name, b"fn %s%s" % (name, more.encode()), change.body, count=1)
        copied = function._replace(path=function.path + more, start=function.end, tokens=None)
        return Change(change.file, copied, b"\n\n" + text)

    def proofs_of(self, function, copied):
        """Returns the files of a function's proof as a copy of the function has them, with its name in place of the function's."""
        folder, other = (proof_folders(it.path)[0] for it in (function, copied))
        module = re.escape(".".join(function.path.split("::")[1:]))
        named = re.compile(rf"(\bRattle\.{self.crate.name}\.(?:proofs|specs\.contracts)\.{module})(?![\w'+-])")
        more, found = copied.path[len(function.path) :], {}
        for at, _, names in os.walk(f"{self.crate.folder}/{folder}"):
            for name in names:
                with open(f"{at}/{name}", encoding="utf-8") as file:
                    below = os.path.relpath(f"{at}/{name}", f"{self.crate.folder}/{folder}")
                    found[f"{other}/{below}"] = named.sub(lambda it: it[1] + more, file.read())
        return found

    def with_statement(self, function, statement):
        """Returns the Change that puts a statement first in a function's body."""
        file = self.file_of[function]
        start = self.tokens[file][function.tokens[0]].start
        head, rest = self.texts[file][start : function.start + 1], self.texts[file][function.start + 1 : function.end]
        return Change(file, function, head + f" {statement} ".encode() + rest)

    def with_function(self, name, statement):
        """Returns the Change that puts one function more at the end of the crate's root file, with this statement alone."""
        file = next(it for it in ("src/main.rt", "src/lib.rt") if it in self.texts)
        while any(name.encode() in it for it in self.texts.values()):
            name += "_"
        end = len(self.texts[file])
        function = Function(f"{self.crate.name}::{name}", end, end, None, frozenset(), False)
        return Change(file, function, f"\nfn {name}() {{\n    {statement}\n}}\n".encode())

    def reached_from(self, function):
        """Returns each function that the function may call, by any way: those whose names its body has, and so on."""
        if function in self.reached:
            return self.reached[function]
        reached, left = set(), [function]
        while left:
            names = left.pop().names
            more = [it for it in self.all if it not in reached and it.path.rpartition("::")[2] in names]
            reached.update(more)
            left += more
        self.reached[function] = reached
        return reached


# ---------------------------------------------------------------------------------------------------------------------
# What a check reports of a function.

# An error in a proof file that only reports that a name is gone, which an edit can bring about without being wrong.
NAME_IS_GONE = re.compile(r"has no field|is not in scope|has no `")
FOLLOWS = re.compile(r"was not admitted|which was rejected, (was|were) not checked")
PROVED, REFUSED, FORM_ONLY, NAMES_ONLY, CALLS, UNCLEAR = "proved", "refused", "form only", "names only", "calls", "unclear"
# A function's line where it is proved; one that may wait, say, is proved all the same.
IS_PROVED = re.compile(r"proved(, may [a-z ]+)*")


def proof_folders(path):
    """Returns the folders that a function's proof may stand in; the second is that of one that calls itself."""
    *above, name = path.split("::")[1:]
    return ["/".join(["proofs", *above, it]) for it in (name, f"+{name}")]


class Answer:
    """What a check printed, read function by function."""

    def __init__(self, ran):
        self.text, self.status = ran.stdout, ran.returncode
        self.lines = ran.stdout.rstrip("\n").split("\n")
        self.is_stale = bool(rtlib.STALE.search(ran.stdout))
        # (a check of some functions gives their number in place of a verdict; any other end is no answer of the prover's)
        end = re.match(r"logic=(proved |not-proved)|only=(\d+) proved=(\d+)$", self.lines[-1])
        is_all = bool(end) and (end[1] == "proved " or end[2] is not None and end[2] == end[3])
        self.is_proved = ran.returncode == 0 and is_all
        self.is_refused = ran.returncode == 1 and bool(end) and end[1] != "proved "
        self.said, self.notes, notes = {}, {}, []
        for line in self.lines:
            found = re.match(r"(?:fn|struct|enum|impl|trait|law|const) (\S+): (.*)", line)
            if not found:
                notes.append(line)
                continue
            if line.startswith("fn "):
                self.said.setdefault(found[1], []).append(found[2])
                self.notes[found[1]] = [it for it in notes if it.startswith("note: src/")]
            notes = []

    def own(self, path):
        """Returns the paths of a function and of the closures in it, which have `fn` after the module in theirs."""
        is_inside = lambda it: "::fn::" in it and it.replace("::fn::", "::", 1).startswith(f"{path}::")
        return [it for it in self.said if it == path or is_inside(it)]

    def errors_in_proofs(self, path):
        """Returns the errors in a function's own folder of proofs, which a function inside another has none of."""
        at = re.compile(rf"(?:\./)?(?:{'|'.join(map(re.escape, proof_folders(path)))})/\w+\.antt:\d+:\d+: error")
        return [it for it in self.lines if at.match(it)]

    def open_goals(self, path, lines):
        """Returns the notes on open goals that stand right above a function's line, and whose places are in its text."""
        file, first, last = lines
        found = []
        for it in self.notes.get(path, []):
            at = re.match(r"note: (\S+):(\d+):\d+: it is not proved that ", it)
            if at and at[1] == file and first <= int(at[2]) <= last:
                found.append(it[len("note: ") :])
        return found

    def of(self, path, lines=("", 0, 0)):
        """Returns how a function came out, and the first line of the reason; lines say where its text stands."""
        if [len(self.said.get(path, []))] != [1]:
            return UNCLEAR, "it has not one line in the check"
        lines_of_it = [(it, line) for it in self.own(path) for line in self.said[it]]
        others = [line for _, line in lines_of_it if not IS_PROVED.fullmatch(line)]
        if not others:
            return PROVED, ""
        goals = []
        for it, line in lines_of_it:
            goals += self.open_goals(it, lines) if line.startswith(("no proof", "not proved")) else []
        goals += [line for line in others if re.match(r"(no|not) proved?\b.*did not prove", line)]
        if goals:
            return REFUSED, goals[0]
        errors = [line for it, _ in lines_of_it for line in self.errors_in_proofs(it) if not FOLLOWS.search(line)]
        form = [line for line in errors if not NAME_IS_GONE.search(line)]
        if form:
            return FORM_ONLY, form[0]
        if errors:
            return NAMES_ONLY, errors[0]
        if all(re.fullmatch(r"no proof: it calls [^;]*", line) for line in others):
            return CALLS, ""
        return UNCLEAR, others[0]

    def unread(self, files):
        """Returns the lines that say that antt couldn't read a text, for an edit of these files."""
        return [it for it in self.lines if rt.unread(it, files)]

    def first_line(self):
        errors = [it for it in self.lines if re.search(r"\berror\b", it)] or self.lines
        return errors[0][:200]


# ---------------------------------------------------------------------------------------------------------------------
# The edits of a crate.

HARMLESS, CONTROL = "let a_new_local_name = 0u8;", "prove!(false);"
Edit = namedtuple("Edit", "name path texts change")
Result = namedtuple("Result", "passed text")


def crate_with(crate, files, room):
    """Returns the crate as it stands in a copy, made in an empty folder, that has these files more."""
    for part in rtlib.PARTS:
        if os.path.isdir(f"{crate.folder}/{part}"):
            shutil.copytree(f"{crate.folder}/{part}", f"{room}/{part}")
    for path, text in files.items():
        os.makedirs(os.path.dirname(f"{room}/{path}"), exist_ok=True)
        with open(f"{room}/{path}", "w", encoding="utf-8") as file:
            file.write(text)
    other = copy.copy(crate)
    other.folder = room
    return other


class Trial:
    """The edits of one crate, tried over work that is kept in a folder of this run."""

    def __init__(self, crate, kept):
        self.crate, self.kept = crate, kept
        self.sources = Sources(crate)
        self.results = {}
        # (functions that a check of this trial proved with the text that they have)
        self.proved = set()
        # (the group in which each edit was answered, by number)
        self.groups, self.number = {}, 0

    def check(self, texts, flags=(), proofs=None):
        """Checks the crate with these texts, and with these files of proofs more."""
        with tempfile.TemporaryDirectory(prefix="mutants-") as room:
            crate = crate_with(self.crate, proofs, room) if proofs else self.crate
            return Answer(rt.checked(crate, texts, [*ONE_JOB, *flags], self.kept))

    def put(self, edit, passed, text):
        self.results[edit.name] = Result(passed, f"mutant {self.crate.name}/{edit.name}: {text}")
        self.groups[edit.name] = self.number

    def failure(self, text):
        return [Result(False, f"mutants of {self.crate.name}: {text}")]

    def run(self, names=None):
        """Tries the edits, or those of these names alone."""
        good, bad = rt.edits_of(self.crate)
        good = [it for it in good if names is None or os.path.basename(it) in names]
        if not good and not bad:
            return []
        why = "BAD EDIT: an edit stands right in must-fail/, and ends in .edit"
        results = [Result(False, f"{os.path.relpath(it, self.crate.folder)}: {why}") for it in bad]
        edits = [it for it in map(self.read, good) if it]
        results += self.try_all_beside([it for it in edits if it.change])
        # (what cannot be copied is tried in place, and so is what was not refused as a copy)
        in_place = [it for it in edits if it.change and it.name not in self.results]
        results += self.try_all_in_place(in_place)
        refused = {it.change.function for it in in_place if self.results[it.name].passed}
        refused |= {self.try_alone(it) for it in edits if not it.change}
        why = self.unproved(refused - self.proved)
        if why:
            return self.failure(f"unedited it is not proved over the kept work, so no answer counts: {why}")
        for it in map(os.path.basename, good):
            self.results.setdefault(it, Result(False, f"mutant {self.crate.name}/{it}: it was not tried"))
        return results + [self.results[it] for it in sorted(self.results)]

    def unproved(self, refused):
        """Checks functions unedited, and returns why they are not proved, or nothing."""
        if not refused:
            return ""
        # (beside an edit of which no function can be named, the whole crate has to be proved)
        last = self.check({}, [] if None in refused else self.only(refused))
        return last.first_line() if last.is_stale or not last.is_proved else ""

    def try_all_beside(self, edits):
        """Tries the edits whose functions can be copied, on copies. The first check has the other functions, too, unedited."""
        can_be = {it.change.function: self.sources.can_be_copied(it.change.function) for it in edits}
        results, others = [], {function for function, is_so in can_be.items() if not is_so}
        for part in self.parts([it for it in edits if can_be[it.change.function]]):
            self.number += 1
            results += self.try_beside(part, others)
            others -= self.proved
        return results

    def try_all_in_place(self, edits):
        """Tries edits in groups, each in the place of its function."""
        # (the prover doesn't search where a callee isn't proved, so what calls an edit of its group is left for the next)
        results, left, was_answered = [], edits, True
        while left:
            group = self.one_of_each(left) if was_answered else left[:1]
            self.number += 1
            results += self.try_group(group)
            count, left = len(left), [it for it in left if it.name not in self.results]
            was_answered = len(left) < count
        return results

    def read(self, path):
        """Reads an edit file, and notes it if it can't be applied."""
        name = os.path.basename(path)
        texts, why = rt.read_edit(path, self.crate.folder)
        change = None
        try:
            change = self.sources.change(texts) if texts else None
        except Unreadable as error:
            why = f"its text cannot be read: {error}"
        edit = Edit(name, path, texts, change)
        if why:
            self.put(edit, False, f"BAD EDIT: {why}")
            return None
        return edit

    def only(self, functions):
        """Returns the arguments that make a check look at these functions and at what they call, and at nothing else."""
        paths = sorted({it.path.partition("::")[2] for it in functions})
        return [argument for it in paths for argument in ("--only", it)]

    def one_of_each(self, edits):
        """Returns a group: the first edit of each function, of as many as are checked at once."""
        first = {}
        for it in edits:
            first.setdefault(it.change.function, it)
        return [*first.values()][:AT_ONCE]

    def parts(self, edits):
        """Returns the edits in lists of even lengths, as many as are checked at once, with those of a function in a row."""
        order = [*dict.fromkeys(it.change.function for it in edits)]
        edits = sorted(edits, key=lambda it: order.index(it.change.function))
        count = -(-len(edits) // AT_ONCE)
        length = -(-len(edits) // max(count, 1))
        return [edits[at * length : (at + 1) * length] for at in range(count)]

    def try_beside(self, edits, others):
        """Checks the edits of a list once, each on a copy of its function beside the function, with a copy that is not edited
        and has to be proved, and records which were refused. Other functions are checked as they stand, and noted if proved."""
        sources = self.sources
        unedited = {it: sources.beside(sources.unchanged(it), 0) for it in dict.fromkeys(it.change.function for it in edits)}
        edited = {it.name: sources.beside(it.change, number) for number, it in enumerate(edits, 1)}
        own = self.controls({*unedited, *others})
        changes = [*unedited.values(), *edited.values(), *own]
        proofs = {}
        for function, copied in [*unedited.items(), *((it.change.function, edited[it.name]) for it in edits)]:
            proofs.update(sources.proofs_of(function, copied.function))
        texts, lines = sources.with_changes(changes)
        answer = self.check(texts, self.only([*others, *(it.function for it in changes)]), proofs)
        if not answer.is_refused or answer.unread(texts) or answer.is_stale:
            return []
        results = self.failed_controls(own, answer, lines)
        self.proved |= {it for it in others if answer.of(it.path)[0] == PROVED}
        for it in edits:
            copied = edited[it.name].function
            how = answer.of(copied.path, lines[copied])[0]
            if answer.of(unedited[it.change.function].function.path)[0] == PROVED and how in (REFUSED, FORM_ONLY, NAMES_ONLY):
                self.report(it, answer, copied.path, lines[copied], is_alone=False)
        return results

    def failed_controls(self, own, answer, lines):
        """Returns what a check shows to be wrong of the script's own two changes."""
        harmless, control = (it.function for it in own)
        results = []
        if answer.of(harmless.path)[0] != PROVED:
            results += self.failure(f"a harmless edit of {harmless.path} was refused, so its group counts for nothing")
        if answer.of(control.path, lines[control])[0] not in (REFUSED, FORM_ONLY):
            results += self.failure(f"a false edit of {control.path} was let through, so its group counts for nothing")
        return results

    def controls(self, taken):
        """Returns the harmless change and the false one, in two functions that call none of those taken; none of these calls
        the false one. If the crate has no such functions left, they are two functions more."""
        reached = set().union(*map(self.sources.reached_from, taken))
        free = [
            it
            for it in self.sources.all
            if it not in taken
            and self.sources.stands_for_itself(it)
            and not it.names & {"|", "||", "fn"}
            and not it.is_of_trait
            and not any(os.path.isdir(f"{self.crate.folder}/{folder}") for folder in proof_folders(it.path))
        ]
        # (what they call is checked too, so those that call little come first)
        free.sort(key=lambda it: (len(self.sources.reached_from(it)), it.end - it.start))
        # (a false one that calls one of those taken might be reported for that call alone, and not for its own statement)
        for control in (it for it in free if it not in reached and not self.sources.reached_from(it) & set(taken)):
            for harmless in free:
                if harmless != control and not self.sources.reached_from(harmless) & {control, *taken}:
                    pairs = (harmless, HARMLESS), (control, CONTROL)
                    return [self.sources.with_statement(*it) for it in pairs]
        pairs = ("a_harmless_addition", HARMLESS), ("a_false_addition", CONTROL)
        return [self.sources.with_function(*it) for it in pairs]

    def try_group(self, group):
        """Checks the functions of a group's edits once, with all these and two of the script's own, one that does no harm and
        one that has to be refused, and reads how each came out."""
        own = self.controls({it.change.function for it in group})
        while True:
            changes = [it.change for it in group] + own
            texts, lines = self.sources.with_changes(changes)
            answer = self.check(texts, self.only(it.function for it in changes))
            unread = answer.unread(texts)
            if answer.is_refused and not unread and not answer.is_stale:
                break
            bad = set() if answer.is_stale else self.unknown(group, answer) or self.unreadable(group, unread)
            if not bad:
                why = (unread or [answer.first_line()])[0][:200]
                why = "the kept work of a library could not be used" if answer.is_stale else why
                for it in group:
                    self.put(it, False, f"NO ANSWER: the check of its group gave no answer: {why}")
                return []
            group = [it for it in group if it.name not in bad]
        for it in group:
            function = it.change.function
            self.report(it, answer, function.path, lines[function], is_alone=len(group) == 1)
        return self.failed_controls(own, answer, lines)

    def unknown(self, group, answer):
        """Finds the edits of a function of whose name a check knows nothing, notes it, and returns their names."""
        found = re.search(r"has no function `([^`]*)`", answer.text)
        bad = {it.name for it in group if found and it.change.function.path == f"{self.crate.name}::{found[1]}"}
        for it in group:
            if it.name in bad:
                self.put(it, False, f"NO ANSWER: a check has no function {found[1]}, as the script names it")
        return bad

    def unreadable(self, group, unread):
        """Finds the edits of a group that don't compile or can't be read, notes it, and returns their names."""
        texts = {it.name: self.sources.with_changes([it.change])[0] for it in group}
        # (a look that proves nothing takes seconds, and sees all but what antt can't read, of which a check has lines)
        quick = {name: self.check(it, ["--only", ""]) for name, it in texts.items()}
        bad = {name: it.first_line() for name, it in quick.items() if it.status}
        if unread and not bad:
            only = {it.name: self.only([it.change.function]) for it in group}
            found = {name: self.check(it, only[name]).unread(it) for name, it in texts.items()}
            bad = {name: lines[0] for name, lines in found.items() if lines}
        for it in group:
            if it.name in bad:
                why = "the prover cannot read the edited text, so no contract was tried"
                self.put(it, False, f"BAD EDIT: {why}: {bad[it.name][:200]}")
        return {*bad}

    def report(self, edit, answer, path, lines, is_alone):
        """Records how an edit of a group came out, by the function of this path; not of one of several of which nothing is
        refused but what it calls."""
        how, why = answer.of(path, lines)
        if how == REFUSED:
            self.put(edit, True, f"refused: {why[:160]}")
        elif how == FORM_ONLY:
            self.put(edit, True, f"refused (by an error in its proof file alone, which may be one of form): {why[:160]}")
        elif how == NAMES_ONLY:
            little = "only because a proof file names what the edit took away, so this shows little of the contract"
            self.put(edit, True, f"refused ({little}: change a value and keep the names): {why[:160]}")
        elif how == PROVED:
            self.put(edit, False, f"NOT REFUSED: {path} is proved with this edit")
        elif how == CALLS and is_alone:
            self.put(edit, False, f"NOT REFUSED: of {path} nothing is refused but what it calls")
        elif how != CALLS:
            self.put(edit, False, f"NO ANSWER: {path}: {why[:160]}")

    def try_alone(self, edit):
        """Tries an edit of more than one body, and returns the function that was refused. Where it is none of those whose
        text the edit changes, the edit is tried as `rt must-fail` does it, and no function is returned."""
        self.number += 1
        touched = self.sources.touched(edit.texts)
        answer = self.check(edit.texts, self.only(touched)) if touched else None
        if answer and answer.is_refused and not answer.is_stale and not answer.unread(edit.texts):
            for function, lines in touched.items():
                how, why = answer.of(function.path, lines)
                if how in (REFUSED, FORM_ONLY):
                    self.put(edit, True, f"refused, alone: {why[:160]}")
                    return function
        kind, text = rt.must_fail(self.crate, edit.path, ONE_JOB, self.kept)
        said = text.partition(": ")[2].replace("refused, as it must be", "refused, alone, by the whole crate")
        # (a limit of the prover's is a kind of its own, and no verdict)
        is_refused = kind is True or kind == getattr(rt, "REFUSED", None)
        is_unclear = not is_refused and said.startswith("refused")
        self.put(edit, is_refused, f"NO ANSWER: {said}" if is_unclear else said)
        return None


# ---------------------------------------------------------------------------------------------------------------------
# The crates, side by side.


def crates_to_try(names):
    crates = rtlib.crates_below(os.getcwd())
    known = [it.name for it in crates]
    for it in names:
        if it not in known:
            sys.exit(f"mutants: there is no crate {it}")
    return [it for it in crates if (not names or it.name in names) and any(rt.edits_of(it))]


def libraries(crates, are_proved):
    """Returns what has to be built first, and stops if --proved was given and a library isn't there."""
    below = list(dict.fromkeys(dep for it in crates for dep in it.below()))
    if are_proved:
        for it in below:
            if not os.path.isdir(it.rlib):
                sys.exit(f"mutants: --proved: there is no library of {it.name}")
        return []
    return [it for it in below if not it.is_built()]


def names_of(crate):
    """Returns the names of a crate's edits; of files that are no edits too, which no baseline has."""
    return [os.path.basename(it) for part in rt.edits_of(crate) for it in part]


def plans_for(crates, given):
    """Returns what is done with each crate, by its lines in the baseline and the arguments."""
    toolchain = subprocess.run([shutil.which("rt"), "version"], stdout=subprocess.PIPE, check=True).stdout
    by, root = baseline.by_of(__file__, toolchain), os.getcwd()
    recorded, commit = baseline.read(root), baseline.commit_of(root, given.commit)
    plans = []
    for it in crates:
        is_named = given.all or given.write and it.name in given.names
        digests = baseline.digests_of(root, it, by)
        plans.append(baseline.plan(it, names_of(it), recorded.get(it.name), digests, commit, is_named))
    return plans, commit, sorted({*recorded} - {it.name for it in crates})


def validated(plan, results, trial, given):
    """Returns the results of a crate that was tried, with what they mean for the baseline, which is written where it is to be."""
    name, is_well = plan.crate.name, bool(results) and all(it.passed for it in results)
    if not plan.is_whole:
        other = "; that is not the answer of the baseline"
        return [it if it.passed else Result(False, it.text + other) for it in results]
    if not given.write:
        why = f"mutants of {name}: the baseline is stale: tests/mutants.py --write {name}"
        return results + [Result(False, why)] * (plan.is_stale and not given.all)
    if not is_well:
        # (lines that agree in all digests and not in their answers would be taken by the next run)
        baseline.write(os.getcwd(), without=[name] if plan.entry and not plan.is_stale else [])
        return results + [Result(False, f"mutants of {name}: the baseline is not written, since not all are refused")]
    if baseline.digests_of(os.getcwd(), plan.crate, plan.digests.by) != plan.digests:
        return results + [Result(False, f"mutants of {name}: the baseline is not written, since files changed meanwhile")]
    answers = {it: (baseline.REFUSED, trial.groups[it]) for it in trial.results}
    seconds, megabytes = round(TAKEN.seconds), -(-TAKEN.memory // 1_000_000)
    baseline.write(os.getcwd(), [baseline.Entry(name, plan.digests, seconds, megabytes, answers)])
    return results


def arguments():
    read = argparse.ArgumentParser(description=__doc__, formatter_class=argparse.RawDescriptionHelpFormatter)
    read.add_argument("--jobs", type=int, help="how many crates at a time, else RT_JOBS or as many as there is room for")
    read.add_argument("--proved", action="store_true", help="takes the libraries that `rt ci` has just left")
    read.add_argument("--kept", action="store_true", help="tries everything, over what earlier checks kept in out/")
    read.add_argument("--all", action="store_true", help="tries everything, whatever the baseline has")
    read.add_argument("--write", action="store_true", help="tries what the baseline lacks, and writes it")
    read.add_argument("--commit", default="", metavar="HASH", help="what the groups are chosen by that are tried again")
    read.add_argument("names", nargs="*", metavar="NAME")
    options = read.parse_args()
    if options.kept and options.write:
        read.error("--write tries from scratch, without --kept")
    options.all = options.all or options.kept
    return options


def main():
    options = arguments()
    if options.jobs:
        os.environ["RT_JOBS"] = str(options.jobs)
    os.environ.pop(rtlib.ALLOW_C, None)
    rtlib.guarded()
    crates = crates_to_try(options.names)
    plans, commit, others = plans_for(crates, options)
    if options.write:
        # (of a crate that is up to date nothing is tried here)
        plans = [it if it.is_whole else it._replace(names=[]) for it in plans]
    printing, out = threading.Lock(), sys.stdout

    def build(crate):
        with tempfile.TemporaryFile("w+", errors="replace") as crate.out:
            status = crate.build_rlib(ONE_JOB, anew=False)
            if status:
                crate.out.seek(0)
                with printing:
                    print(f"{crate.out.read()}mutants: {crate.name} is not proved", file=out, flush=True)
        return not status

    def attempt(plan, given):
        crate = plan.crate
        if not all(given.get((dep.name, "proof"), True) for dep in crate.below()):
            return [Result(False, f"mutants of {crate.name}: a crate below is not proved")]
        TAKEN.seconds, TAKEN.memory, trial = 0, 0, None
        with tempfile.TemporaryDirectory(prefix="mutants-") as kept:
            earlier = f"{crate.folder}/{rtlib.KEPT[1]}"
            if options.kept and os.path.isdir(earlier):
                shutil.copytree(earlier, kept, dirs_exist_ok=True)
            try:
                trial = Trial(crate, kept)
                results = trial.run(None if plan.is_whole else plan.names)
            except Unreadable as error:
                results = [Result(False, f"mutants of {crate.name}: {error}")]
        results = validated(plan, results, trial, options)
        with printing:
            for it in results:
                print(it.text, file=out, flush=True)
        return results

    if not options.all:
        for it in plans:
            print(it.report if it.is_whole or not options.write else it.report.rpartition(",")[0], file=out, flush=True)
    to_try = [it for it in plans if it.is_whole or it.names]
    tasks, cost = {}, baseline.cost_of(plans)
    missing = libraries([it.crate for it in to_try], options.proved)
    for crate in missing:
        waits = [(it.name, "proof") for it in crate.below() if it in missing]
        call = lambda given, jobs, it=crate: build(it)
        tasks[crate.name, "proof"] = (waits, crate.count(rb"\n"), rt.need(crate), call)
    for plan in to_try:
        crate = plan.crate
        waits = [(it.name, "proof") for it in crate.below() if it in missing]
        call = lambda given, jobs, it=plan: attempt(it, given)
        tasks[crate.name, "edits"] = (waits, cost(plan), baseline.memory_of(plan, rt.need(crate)), call)
    given = rt.in_lanes(tasks)
    results = [it for key, found in given.items() if key[1] == "edits" for it in found]
    if others and not options.names and not options.all:
        # (lines of a crate that has no edits any more)
        if options.write:
            baseline.write(os.getcwd(), without=others)
        else:
            results.append(Result(False, f"mutants: the baseline has lines of {', '.join(others)}, which has no edits"))
            print(results[-1].text)
    taken = sum(len(it.entry.answers) - len(it.names) for it in plans if not it.is_whole)
    passed, failed = taken + sum(it.passed for it in results), sum(not it.passed for it in results)
    again = sum(len(it.names) for it in plans)
    if not options.all:
        report = f"{taken} answers are taken from the baseline, {again} more of it were tried again"
        print(f"mutants: {report}, chosen by {commit[:12]}")
    if failed or not passed:
        print("mutants: FAILED" if failed else "mutants: there is no edit")
    print(f"{passed} passed, {failed} failed")
    return 0 if passed and not failed else 1


if __name__ == "__main__":
    sys.exit(main())
