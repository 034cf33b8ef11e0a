#!/usr/bin/env python3
"""Runs the program on each row of tests/rows, and compares standard output and exit status byte for byte.

  tests/checks/rows.py [PROGRAM] [WORD]    PROGRAM: crates/cdc_app/out/cdc_app; WORD: only rows with this in their names

A row COMMAND/NAME is the files NAME.args, with one argument on each line, NAME.stdout and NAME.status in the folder of its
command, and as far as it needs them NAME.script, NAME.steps and NAME.progress. An argument FILE or STEPS stands for the path of
the script or of the step file, and PROGRESS for that of a file that holds what NAME.progress does, or that isn't there where
there is no such part. The argument `-`, and a row without arguments, have the script on standard input. Prints each row that
fails, and what differs.
"""
import os
import shutil
import subprocess
import sys
import tempfile

sys.dont_write_bytecode = True
sys.path.insert(0, os.path.join(os.path.dirname(os.path.realpath(__file__)), "..", "common"))
import ending
import rooms

ROWS = f"{rooms.TOP}/tests/rows"
PARTS = ("args", "script", "steps", "progress", "stdout", "status")
SECONDS = 300  # that a run may take: a last guard against one that hangs


def read(name, part):
    with open(f"{ROWS}/{name}.{part}", "rb") as file:
        return file.read()


def rows():
    """Returns the rows by name, each with its parts; stops where a file belongs to none."""
    found = {}
    for folder in sorted(os.listdir(ROWS)):
        for file in sorted(os.listdir(f"{ROWS}/{folder}")):
            name, _, part = file.rpartition(".")
            if part not in PARTS:
                sys.exit(f"rows: {folder}/{file} is no part of a row")
            found.setdefault(f"{folder}/{name}", set()).add(part)
    for name, parts in found.items():
        for part in {"args", "stdout", "status"} - parts:
            sys.exit(f"rows: {name} has no file .{part}")
    return found


def first_difference(wanted, found):
    """Returns the first line in which two texts differ, as each has it."""
    pairs = zip(wanted.split(b"\n") + [b""], found.split(b"\n") + [b""])
    for number, (a, b) in enumerate(pairs, 1):
        if a != b:
            return f"line {number}: wanted {a[:200]!r}, found {b[:200]!r}"
    return "one of them is longer"


def paths_of(name, parts, folder):
    """Returns the paths that arguments of a row stand for; what it holds of progress is copied to the folder."""
    saved = f"{folder}/{os.path.basename(name)}.progress"
    if "progress" in parts:
        shutil.copyfile(f"{ROWS}/{name}.progress", saved)
    return {"FILE": f"{ROWS}/{name}.script", "STEPS": f"{ROWS}/{name}.steps", "PROGRESS": saved}


def complaint(program, name, parts, folder):
    """Returns what is wrong with a row, or None."""
    arguments = read(name, "args").decode().splitlines()
    for argument, part in (("FILE", "script"), ("STEPS", "steps"), ("-", "script")):
        if argument in arguments and part not in parts:
            return f"it has no file .{part}"
    given = read(name, "script") if "script" in parts and ("-" in arguments or not arguments) else b""
    paths = paths_of(name, parts, folder)
    arguments = [paths.get(it, it) for it in arguments]
    try:
        ran = subprocess.run([program, *arguments], input=given, capture_output=True, timeout=SECONDS, cwd=folder)
    except subprocess.TimeoutExpired:
        return f"it hasn't ended after {SECONDS} seconds"
    status, wanted = int(read(name, "status")), read(name, "stdout")
    if ran.returncode != status:
        return f"status {ran.returncode}, wanted {status}; it printed {ran.stdout[:200]!r}"
    return None if ran.stdout == wanted else first_difference(wanted, ran.stdout)


def try_rows(step, text, complaint, arguments):
    """Tries the rows that the command line names, prints each that fails and a last line of this name, and returns the status.
    The text is the script's help."""
    parser = rooms.parser_of_first(text)
    parser.add_argument("word", nargs="?", default="", metavar="WORD", help="only rows with this in their names")
    options = rooms.options_of(parser, arguments)
    program, word = options.program, options.word
    found = {name: parts for name, parts in rows().items() if word in name}
    failed = 0
    with tempfile.TemporaryDirectory(prefix=f"{step}-") as folder:
        for name, parts in found.items():
            why = complaint(program, name, parts, folder)
            if why:
                failed += 1
                print(f"row {name}: {why}")
    print(f"{step}: {len(found) - failed} passed, {failed} failed")
    return 1 if failed or not found else 0


if __name__ == "__main__":
    ending.run(lambda arguments: try_rows("rows", __doc__, complaint, arguments))
