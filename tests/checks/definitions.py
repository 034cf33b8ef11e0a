#!/usr/bin/env python3
"""Tests tools/definitions and tools/promises over this repository's sources.

  tests/checks/definitions.py

- Each prints something of every crate that has any, and of one CRATE nothing else.
- A known definition has its comment; a known function its documentation and its clauses, with --clauses their text.
- What isn't exported isn't printed. An unknown CRATE is a usage error.

The last line is 'definitions: N passed, M failed'; the status is 1 if one failed. Needs Python 3.8 or later.
"""
import argparse
import os
import re
import subprocess
import sys

sys.dont_write_bytecode = True
TOP = os.path.realpath(f"{os.path.dirname(os.path.realpath(__file__))}/../..")
sys.path.insert(0, f"{TOP}/tests/common")
import ending

passed, failed = 0, 0


def check(what, is_right):
    global passed, failed
    passed, failed = passed + bool(is_right), failed + (not is_right)
    if not is_right:
        print(f"failed: {what}")


def printed(*arguments):
    """Returns the status of a tool, and what it prints on both outputs."""
    ran = subprocess.run([f"{TOP}/tools/{arguments[0]}", *arguments[1:]], stdout=subprocess.PIPE, stderr=subprocess.PIPE, check=False)
    return ran.returncode, ran.stdout.decode(), ran.stderr.decode()


def definitions():
    status, text, errors = printed("definitions")
    check("definitions: status 0, nothing on standard error", (status, errors) == (0, ""))
    part = text.partition("## `cdc_laws`\n")[2].partition("\n## ")[0]
    check("definitions: IsFaithful of cdc_laws", re.search(r"### Faithful\.antt\n\n(.*\n)+?- \*\*IsFaithful\*\*: \S", part))
    check("definitions: what a type gives for a member of a public trait", "\n- `cdc_deliveries` Taken.antt: " in text)
    one = printed("definitions", "cdc_laws")[1]
    check("definitions cdc_laws: no other crate", set(re.findall(r"`(cdc_\w+)`", one)) == {"cdc_laws"})
    check("definitions: an unknown crate", printed("definitions", "cdc_none")[0] == 2)


def promises():
    status, text, errors = printed("promises")
    check("promises: status 0, nothing on standard error", (status, errors) == (0, ""))
    counts = dict(re.findall(r"(?m)^(cdc_\w+): (\d+) functions$", text))
    # (the program's crate has no clause of its own, the functions of the keys have those of the traits that they implement, and
    # the frame of a page is constants)
    none = {it for it, count in counts.items() if count == "0"}
    check("promises: each crate has some", len(counts) > 25 and none == {"cdc_app", "cdc_keys", "cdc_page_frame"})
    known = text.partition("\n  Broker::publish(&mut self, ")[2].partition("\n\n")[0]
    check("promises: Broker::publish has its documentation", "Takes an item if the publish has" in known)
    check("promises: Broker::publish has its clauses", known.endswith("\n      ensures publishes, accepted"))
    check("promises: a trait's method", "\n  ProgressStore::save(&mut self, " in text)
    check("promises: nothing private", "tag_after" not in text)
    one = printed("promises", "--clauses", "cdc_broker")[1]
    check("promises cdc_broker: no other crate", re.findall(r"(?m)^cdc_\w+", one) == ["cdc_broker"])
    check("promises --clauses: the text of a clause", re.search(r"ensures accepted\n {10}\S", one))
    check("promises: an unknown crate", printed("promises", "cdc_none")[0] == 2)


def main(arguments):
    argparse.ArgumentParser(description=__doc__, formatter_class=argparse.RawDescriptionHelpFormatter).parse_args(arguments)
    definitions()
    promises()
    print(f"definitions: {passed} passed, {failed} failed")
    return int(failed > 0)


if __name__ == "__main__":
    ending.run(main)
