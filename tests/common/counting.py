"""What Valgrind counts of a run: the instructions, or the bytes that are asked for; and whose compiler made the program."""
import os
import re
import subprocess
import sys


def tool_arguments(tool, out):
    if tool == "memcheck":
        return ["valgrind", "--leak-check=no", "--undef-value-errors=no", f"--log-file={out}"]
    arguments = ["valgrind", "--quiet", f"--tool={tool}"]
    if tool == "cachegrind":
        return arguments + ["--cache-sim=no", f"--cachegrind-out-file={out}"]
    return arguments + [f"--callgrind-out-file={out}"]


def counted(arguments, out):
    """Runs it, and returns the file that Valgrind wrote; a run that doesn't end well stops all."""
    ran = subprocess.run(arguments, capture_output=True)
    if ran.returncode != 0 or b"refused" in ran.stdout:
        print(f"cost: {' '.join(arguments)}: status {ran.returncode}\n{ran.stdout[:300]!r}\n{ran.stderr[:300]!r}")
        os._exit(2)
    return out


def total_of(out):
    with open(out) as file:
        for line in file:
            if line.startswith("summary:"):
                return int(line.split()[1])
    sys.exit("cost: Valgrind has written no total")


def bytes_of(out):
    with open(out) as file:
        asked = re.search(r"total heap usage: .* ([\d,]+) bytes allocated", file.read())
    if asked is None:
        sys.exit("cost: Valgrind has written no bytes")
    return int(asked[1].replace(",", ""))


def is_by_rattle(program):
    """Whether Rattle's own compiler made the program, and not LLVM."""
    with open(program, "rb") as it:
        return b" backend=rattle " in it.read()
