#!/usr/bin/env python3
"""The documents: what they name and link exists, they stay short, and the terms are the field's.

- No document has more than its BUDGET of words outside of tables and examples. A word has a letter or a digit.
- Each link within the repository leads to a file, and to a heading in it. Each document is linked from README.md, or from one
  that is.
- In the documents each text in backquotes that looks like a file is one, and each name in backquotes that has an underscore, a
  capital inside or `::` is in some source; not in those OF_OTHER_DAYS, which describe earlier commits.
- A clause that docs/PROOFS.md names is one of some function; a cell of a table there has at most 300 characters. The files of
  definitions that it has a reader believe, and the definitions that it picks of them, are in what tools/definitions prints.
- A place in docs/PROOFS.md, as in `IsFaithful`, `cdc_laws/specs/Faithful.antt:56`, is the line that defines the name before
  it. What is shown there of the checker names such a place.
- No identifier, comment, diagnostic, help text, document or name of a file uses a term of tests/checks/terms.txt. Of must-fail/
  only the names are looked at.

  tests/checks/documents.py
  tests/checks/documents.py --terms [PATH..]    only the terms, in these files and folders, and each place

Prints each check that fails; the last line is 'documents: N checks, M failed'. Needs Python 3.8 or later.
"""
import argparse
import fnmatch
import itertools
import os
import re
import subprocess
import sys

sys.dont_write_bytecode = True
TOP = os.path.realpath(f"{os.path.dirname(os.path.realpath(__file__))}/../..")
sys.path.insert(0, f"{TOP}/tests/common")
import ending
import terms

MOST = 300
# How many words of running text a document may have: rows of tables and examples are what a page is looked up for, so they don't
# count. Documents of one line share their words.
BUDGETS = [
    (700, "README.md"),
    (1_150, "docs/GUIDE.md"),
    (900, "docs/TESTING-A-CONSUMER.md"),
    (870, "docs/EXACTLY-ONCE.md"),
    (920, "docs/AUDIT.md"),
    (250, "docs/STREAMS.md"),
    (2_450, "docs/REFERENCE.md"),
    (6_300, "docs/FORMATS.md"),
    (1_800, "docs/PROOFS.md"),
    (900, "docs/ARCHITECTURE.md"),
    (900, "crates/README.md"),
    (3_700, "CONTRIBUTING.md"),
    (5_200, "docs/DECISIONS.md"),
    (1_200, "docs/MEASURED.md"),
    (2_500, "CHANGELOG.md", "ROADMAP.md"),
    (770, "contrib/rabbitmq/README.md"),
    (300, "contrib/postgresql/README.md"),
    (260, "SECURITY.md"),
    (450, "drafts/README.md"),
    (120, ".github/ISSUE_TEMPLATE/problem.md"),
]
FIRST = "README.md"
# The documents whose names may be of another day.
OF_OTHER_DAYS = ["docs/MEASURED.md", "CHANGELOG.md"]
LINK = re.compile(r"(?<!!)\[[^\]]+\]\(([^)\s]+)\)")
ENDINGS = "antt|args|c|edit|errors|fish|bash|md|patch|progress|py|rt|script|sh|status|stdout|steps|txt|tar\\.xz|1"
QUOTED = re.compile(r"`([^`\n]+)`")
LOOKS_LIKE_A_FILE = re.compile(rf"\.?[\w./*-]+\.(?:{ENDINGS})|\.?[\w.-]+(?:/[\w.*-]+)+/?")
# A place in a source, and how a line begins that defines a name.
PLACE = re.compile(r"`([\w/]+\.(?:antt|rt)):(\d+)`")
DEFINES = r"\s*(?:(?:abbrev|pub|record|data|const|fn|struct|enum|trait|type) )+"
# Names for any name, and what the documents call a file that a command is given, or makes.
STAND_INS = re.compile(r"NAME|CRATE|FUNCTION|METHOD|FILE|STEPS|PATH|PROGRESS|\b(?:out|play)/|^/|^\d|\.\.\.?$")
# What is of the toolchain or of a format, and stands in no source here.
OF_OTHERS = {"CRATES.md", "application/json", "fast_float"}
# The files that are looked at for terms, besides the documents; and those of which only the name is: edits, which have code
# as it was and as it would be wrong, bytes that the program prints, the list itself, and one that has the names of edits.
WITH_TERMS = [f"{it}*" for it in (
    "crates/", "crates.txt", "tests/", "tools/", "contrib/", "completions/", "examples/", ".ci/", "relayplum", "docs/relayplum.1",
    "docs/help/")]
NAMES_ALONE = ["*.edit", "*.stdout", "*.status", "*.md", "crates/*/stdout", terms.FILE, "tests/mutants.txt"]
# How many places of a text are printed, unless only the terms are asked for.
MOST_PLACES = 5


def all_files():
    """Returns the files of the repository, without what is built."""
    found = []
    for at, folders, names in os.walk(TOP):
        folders[:] = sorted(it for it in folders if it not in (".git", "out", "__pycache__"))
        found += [os.path.relpath(f"{at}/{it}", TOP) for it in sorted(names)]
    return found


def read(path):
    with open(f"{TOP}/{path}", encoding="utf-8", errors="replace") as file:
        return file.read()


def quoted_in(text):
    """Returns what stands in backquotes on a page, each with its line, without what stands in blocks."""
    found, is_block = [], False
    for at, line in enumerate(text.split("\n"), 1):
        if line.lstrip().startswith("```"):
            is_block = not is_block
        elif not is_block:
            found += [(at, it) for it in QUOTED.findall(line)]
    return found


class Tree:
    """What stands in the repository: its files and folders, and the names in its sources."""

    def __init__(self):
        self.files = all_files()
        self.folders = {os.path.dirname(it) for it in self.files}
        self.folders |= {it[:at] for it in self.folders for at in range(len(it)) if it[at] == "/"}
        self.ends = {"/" + it for it in self.files} | {"/" + it for it in self.folders}
        sources = [it for it in self.files if not it.startswith("docs/") and not it.endswith((".md", ".xz", ".patch"))]
        self.names = {it for path in sources for it in re.findall(r"[A-Za-z_][A-Za-z0-9_]*", read(path))}
        self.clauses = {it for path in sources for it in re.findall(r"\bensures (\w+)", read(path))}
        self.names |= {os.path.splitext(os.path.basename(it))[0] for it in self.files}
        self.names |= {os.path.basename(it) for it in self.folders}

    def has_file(self, word):
        """Returns whether a word names a file or a folder: from the top, or from a folder further down."""
        word = (word[2:] if word.startswith("./") else word).rstrip("/")
        if "*" in word:
            return any(fnmatch.fnmatch(it, f"*{word}") for it in self.files)
        return any(it.endswith(f"/{word}") for it in self.ends)

    def has_names(self, word):
        """Returns whether each name in a word stands in some source; a word that is no name isn't looked at."""
        if not re.fullmatch(r"[A-Za-z_][\w:.'-]*(\(\))?", word):
            return True
        names = re.findall(r"[A-Za-z_][A-Za-z0-9_]*", word)
        is_name = "::" in word or any(re.search(r"[a-z]_[a-z]|[a-z][A-Z]", it) for it in names)
        return not is_name or all(it in self.names for it in names)


def documents(tree):
    return [it for it in tree.files if it.endswith(".md")]


def words_in(text):
    """Returns how many words a document has outside of its tables and examples."""
    outside = re.sub(r"(?ms)^```.*?^```$|^ *\|.*?$", "", text)
    return sum(bool(re.search(r"[^\W_]", it)) for it in outside.split())


def anchors_in(text):
    """Returns the names by which the headings of a document are linked."""
    headings = re.findall(r"(?m)^#+ (.*)$", re.sub(r"(?ms)^```.*?^```$", "", text))
    return {re.sub(r"[^\w\- ]", "", it.lower()).replace(" ", "-") for it in headings}


def links_in(page):
    """Gives the links of a document within the repository: the line, the file from the top, and the heading or ''."""
    for at, line in enumerate(re.sub(r"`[^`\n]*`", "", read(page)).split("\n"), 1):
        for link in LINK.findall(line):
            if not re.match(r"\w+:", link):
                path, _, anchor = link.partition("#")
                yield at, os.path.normpath(f"{os.path.dirname(page)}/{path}" if path else page).lstrip("/"), anchor


def checks_of_pages(tree):
    """Gives a check for the length of each document, for each link, and for each document that has to be linked."""
    every = documents(tree)
    for limit, *pages in BUDGETS:
        count = sum(words_in(read(it)) for it in pages if it in every)
        yield count <= limit, f"{' and '.join(pages)}: {count} words, {limit} at most"
    for it in every:
        yield any(it in pages for _, *pages in BUDGETS), f"{it} has no budget of words"
    linked, open_ones = set(), [FIRST]
    while open_ones:
        page = open_ones.pop()
        linked.add(page)
        open_ones += {path for _, path, _ in links_in(page) if path in every} - linked
    for page in every:
        yield page in linked, f"{page} isn't linked from {FIRST}, nor from a document that is"
        for at, path, anchor in links_in(page):
            is_right = path in tree.files or path in tree.folders
            yield is_right, f"{page}:{at}: there is no {path}"
            if anchor and is_right:
                yield anchor in anchors_in(read(path)), f"{page}:{at}: {path} has no heading #{anchor}"


def cells_of(line):
    return [it.strip() for it in re.split(r"(?<!\\)\|", line.strip().strip("|"))]


def checks_of_places(tree, proofs, definitions):
    """Gives a check for each place of a definition or a function: that the line named defines it, and tools/definitions prints it."""
    places = set()
    for at, line in enumerate(proofs.split("\n"), 1):
        for place in PLACE.finditer(line):
            path, number, before = f"crates/{place[1]}", int(place[2]), re.search(r"`(\w+)`, $", line[: place.start()])
            places.add(f"{place[1].partition('/')[2]}:{number}")
            yield bool(before), f"docs/PROOFS.md:{at}: no name stands before {place[0]}"
            if not before:
                continue
            name, lines = before[1], read(path).split("\n") if path in tree.files else []
            defined = [it for it, text in enumerate(lines, 1) if re.match(DEFINES + rf"{name}\b", text)]
            yield number in defined, f"docs/PROOFS.md:{at}: {name} is defined in {path} at {defined}, and not at {number}"
            if path.endswith(".antt"):
                is_printed = name in printed_of(definitions, place[1]) or is_listed(definitions, place[1])
                yield is_printed, f"docs/PROOFS.md:{at}: tools/definitions prints neither {name} nor its file"
    for place in re.findall(r"(?m)^    .*\b(src/\w+\.rt:\d+):", proofs):
        yield place in places, f"docs/PROOFS.md shows {place} of the checker, which is no place that it names"


def is_listed(definitions, path):
    """Returns whether tools/definitions lists a file, among those that the commands need or that single crates promise something by."""
    crate, _, file = path.partition("/specs/")
    listed = rf"(?m)^- `{crate}`(?:: (?:.*\W)?{re.escape(file)}\W| {re.escape(file)}: )"
    return bool(re.search(listed, definitions.replace("\n  ", " ")))


def printed_of(definitions, path):
    """Returns the names of the definitions that tools/definitions prints of a file."""
    crate, _, file = path.partition("/specs/")
    of_crate = definitions.partition(f"## `{crate}`\n")[2].partition("\n## ")[0]
    return re.findall(r"\*\*(.+?)\*\*", of_crate.partition(f"### {file}\n")[2].partition("\n###")[0])


def checks(tree):
    """Gives each check: whether it passed, and what is said where it failed."""
    yield from checks_of_pages(tree)
    for page in [it for it in documents(tree) if it not in OF_OTHER_DAYS]:
        for at, word in quoted_in(read(page)):
            if STAND_INS.search(word) or word in OF_OTHERS:
                continue
            if LOOKS_LIKE_A_FILE.fullmatch(word):
                yield tree.has_file(word), f"{page}:{at}: there is no {word}"
            else:
                yield tree.has_names(word), f"{page}:{at}: no source has {word}"
    proofs = read("docs/PROOFS.md")
    definitions = subprocess.run([f"{TOP}/tools/definitions"], stdout=subprocess.PIPE, check=True).stdout.decode()
    for at, line in enumerate(proofs.split("\n"), 1):
        for names in re.findall(r"clauses? ((?:`\w+`(?:, | and )?)+)", line):
            for it in re.findall(r"\w+", names.replace(" and ", " ")):
                yield it in tree.clauses, f"docs/PROOFS.md:{at}: no function has a clause {it}"
        for cell in cells_of(line) if line.startswith("|") else []:
            yield len(cell) <= MOST, f"docs/PROOFS.md:{at}: a cell of more than {MOST} characters: {cell[:60]}"
    yield from checks_of_places(tree, proofs, definitions)
    for crate, file, names in believed_in(proofs):
        known = printed_of(definitions, f"{crate}/specs/{file}")
        yield bool(known), f"docs/PROOFS.md has a reader believe {file} of {crate}, which tools/definitions doesn't print"
        for it in names:
            yield it in known, f"docs/PROOFS.md has a reader believe {it} of {crate}, which tools/definitions doesn't print"


def believed_in(proofs):
    """Gives the files of definitions in the tables of PROOFS.md: the crate, the file, and which of its definitions."""
    for line in proofs.split("\n"):
        if re.match(r"\| \d+ \|", line):
            crate = None
            for path, picked in re.findall(r"`([\w/]+\.antt)`(?: \(((?:`\w+`(?:, )?)+)\))?", cells_of(line)[2]):
                if "/" in path:
                    crate = path.partition("/")[0]
                yield crate, path.rpartition("specs/")[2], re.findall(r"\w+", picked)


def with_terms(tree, paths):
    """Returns the files whose text is looked at for terms, and the files and folders whose name is."""
    is_asked = lambda path: not paths or any(path == it or path.startswith(f"{it}/") for it in paths)
    is_prose = lambda path: path.endswith(".md")
    has_terms = lambda path: is_prose(path) or any(fnmatch.fnmatch(path, it) for it in WITH_TERMS)
    files = [it for it in tree.files if is_asked(it) and has_terms(it)]
    folders = {it[:at] for it in files for at in range(len(it)) if it[at] == "/"}
    texts = [it for it in files if is_prose(it) or not any(fnmatch.fnmatch(it, of) for of in NAMES_ALONE)]
    return texts, sorted({*files, *(it for it in folders if is_asked(it))})


def checks_of_terms(tree, paths, most):
    """Gives a check for each text and each name; what is printed of one has at most so many places."""
    try:
        known = terms.terms_in(read(terms.FILE))
    except terms.Unreadable as why:
        yield False, str(why)
        return
    texts, names = with_terms(tree, paths)
    for path in names:
        places = [f"{path}: the name has '{what}': {instead}" for what, instead in terms.found_in_name(path, known)]
        yield not places, "\nfailed: ".join(places)
    for path in texts:
        places = [f"{path}:{at}: '{what}': {instead}" for at, what, instead in sorted(terms.found_in(path, read(path), known))]
        shown = places if most is None or len(places) <= most else [*places[:most], f"{path}: {len(places) - most} places more"]
        yield not places, "\nfailed: ".join(shown)


def main(arguments):
    parser = argparse.ArgumentParser(description=__doc__, formatter_class=argparse.RawDescriptionHelpFormatter)
    parser.add_argument("--terms", action="store_true", help="looks only for the terms, and prints each place")
    parser.add_argument("paths", nargs="*", metavar="PATH", help="with --terms: only in these files and folders")
    asked = parser.parse_args(arguments)
    if asked.paths and not asked.terms:
        parser.error("PATH goes with --terms")
    tree, paths = Tree(), [os.path.relpath(it, TOP) for it in asked.paths]
    passed, failed = 0, 0
    found = [] if asked.terms else checks(tree)
    for is_right, said in itertools.chain(found, checks_of_terms(tree, paths, None if asked.terms else MOST_PLACES)):
        passed, failed = passed + is_right, failed + (not is_right)
        if not is_right:
            print(f"failed: {said}")
    print(f"documents: {passed + failed} checks, {failed} failed")
    return int(failed > 0)


if __name__ == "__main__":
    ending.run(main)
