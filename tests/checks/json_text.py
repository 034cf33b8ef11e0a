#!/usr/bin/env python3
"""Runs the program with --json on each row of tests/rows: what it prints means what the row's text means.

  tests/checks/json_text.py [PROGRAM] [WORD]    PROGRAM: crates/cdc_app/out/cdc_app; WORD: only rows with this in their names

Each line is a JSON object in the shortest form, of a kind and with the members that docs/FORMATS.md names and no others. The
objects, written as text after the same document, are the row's standard output byte for byte, and the exit status is the row's.
Rows that name no command are run as `run -`. Prints each row that fails, and what differs.
"""
import json
import os
import subprocess
import sys

sys.dont_write_bytecode = True
sys.path.insert(0, os.path.join(os.path.dirname(os.path.realpath(__file__)), "..", "common"))
import ending
import rows

# The members of each kind, in their order.
MEMBERS = {
    "batch": ("batch", "results"),
    "pulse": ("batch", "expired"),
    "refused_batch": ("batch", "number", "name"),
    "subscriber": ("subscriber", "applied", "last", "ended", "closed"),
    "account": ("subscriber", "id", "debits_pending", "debits_posted", "credits_pending", "credits_posted"),
    "message": ("headers", "timestamp", "queues", "body"),
    "steps": ("done", "of"),
    "refused_step": ("step", "name"),
    "progress": ("session", "timestamp"),
    "file_fault": ("file", "line", "column", "word", "name"),
    "fault": ("name",),
}
HEADERS = ("event_type", "ledger", "transfer_code", "debit_account_code", "credit_account_code")


def short(value):
    return json.dumps(value, separators=(",", ":"), ensure_ascii=False)


def yes(value):
    return {True: "yes", False: "no"}[value]


def text_of(line, current):
    """Returns the lines of text that an object stands for. `current` is the subscriber whose lines these are."""
    kind = line["kind"]
    if tuple(line) != ("kind", *MEMBERS[kind]):
        raise ValueError(f"the members of {line}")
    if kind == "batch":
        if any(tuple(it) != ("number", "name") or (it["number"] == 0) != (it["name"] == "ok") for it in line["results"]):
            raise ValueError(f"the results of {line}")
        return f"batch {line['batch']}:" + "".join(f" {it['number']}" for it in line["results"])
    if kind == "pulse":
        return f"batch {line['batch']}: pulse {line['expired']}"
    if kind == "refused_batch":
        return f"batch {line['batch']} refused: {line['number']} {line['name']}"
    if kind == "subscriber":
        how_far = f"applied {line['applied']} last {line['last']} ended {yes(line['ended'])} closed {yes(line['closed'])}"
        return f"subscriber {line['subscriber']} {how_far}"
    if kind == "account":
        if line["subscriber"] != current:
            raise ValueError(f"{line} behind subscriber {current}")
        return "account " + " ".join(line[it] for it in MEMBERS[kind][1:])
    if kind == "message":
        if tuple(line["headers"]) != HEADERS:
            raise ValueError(f"the headers of {line}")
        headers = " ".join(f"{name}={value}" for name, value in line["headers"].items())
        return f"{headers} timestamp={line['timestamp']}\n{short(line['body'])}"
    if kind == "steps":
        return f"steps {line['done']} of {line['of']}"
    if kind == "refused_step":
        return f"refused {line['step']} {line['name']}"
    if kind == "progress":
        return "progress none" if line["session"] is None else f"progress {line['session']} {line['timestamp']}"
    if kind == "file_fault":
        return f"fault: {line['file']} line {line['line']}: {line['name']}"
    return f"fault: {line['name']}"


def check_queues(message, last):
    """Checks the queues of a message, by the timestamp of the last event of each queue, and moves these."""
    for it in message["queues"]:
        if tuple(it) != ("queue", "previous") or it["previous"] != last.get(it["queue"], "0"):
            raise ValueError(f"the queues of {message}, after {last}")
        last[it["queue"]] = message["body"]["timestamp"]


def rendered(printed):
    """Returns the text that printed objects stand for."""
    text, current, last = "", None, {}
    for line in printed.decode().splitlines():
        said = json.loads(line)
        if short(said) != line:
            raise ValueError(f"{line} has another form than {short(said)}")
        if said["kind"] == "subscriber":
            current = said["subscriber"]
        if said["kind"] == "message":
            check_queues(said, last)
        # (deliveries are objects in text too)
        text += (line if said["kind"] in ("delivery", "expect") else text_of(said, current)) + "\n"
    return text.encode()


def complaint(program, name, parts, folder):
    """Returns what is wrong with a row, or None."""
    arguments = rows.read(name, "args").decode().splitlines() or ["run", "-"]
    given = rows.read(name, "script") if "script" in parts and "-" in arguments else b""
    paths = rows.paths_of(name, parts, folder)
    arguments = [paths.get(it, it) for it in [*(it for it in arguments if it != "--json"), "--json"]]
    try:
        ran = subprocess.run([program, *arguments], input=given, capture_output=True, timeout=rows.SECONDS, cwd=folder)
    except subprocess.TimeoutExpired:
        return f"it hasn't ended after {rows.SECONDS} seconds"
    status, wanted = int(rows.read(name, "status")), rows.read(name, "stdout")
    if ran.returncode != status:
        return f"status {ran.returncode}, wanted {status}; it printed {ran.stdout[:200]!r}"
    try:
        found = rendered(ran.stdout)
    except (ValueError, KeyError, TypeError) as error:
        return f"{type(error).__name__}: {error}"
    return None if found == wanted else rows.first_difference(wanted, found)


if __name__ == "__main__":
    ending.run(lambda arguments: rows.try_rows("json_text", __doc__, complaint, arguments))
