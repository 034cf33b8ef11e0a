#!/usr/bin/env python3
"""Tests of the scripts in tests/ and contrib/, and of five in tools/, as commands, over no program.

  tests/checks/scripts_test.py

- `--help` prints help, nothing on standard error, and ends with status 0: also without pika, which the scripts of
  contrib/rabbitmq need for all else.
- Nobody reads the help, or there is no standard output: no traceback.
- A check that needs a command for one part prints what it leaves out if that is missing, and the Debian package that has it.

The last line is 'scripts: N passed, M failed'; the status is 1 if one failed.
"""
import argparse
import concurrent.futures
import os
import shutil
import subprocess
import sys
import tempfile

sys.dont_write_bytecode = True
TOP = os.path.realpath(f"{os.path.dirname(os.path.realpath(__file__))}/../..")
sys.path.insert(0, f"{TOP}/tests/common")
import checked
import ending
import needs

SECONDS, JOBS = 300, 2
# Scripts without help: they take no arguments. And one that has its help from argparse alone, and ends with a traceback if
# nobody reads it: its bytes are part of a record.
WITHOUT_HELP = {"tests/checks/launcher.sh", "tests/checks/proved.sh"}
WITH_TRACEBACK = {"tests/mutants.py"}
# Which scripts need the newer Python, since they read the model, and which need rt even for their help.
OF_MODEL = {f"tests/{it}.py" for it in (
    "checks/soak", "checks/audit", "checks/deliveries", "checks/messages", "checks/stress", "checks/kill", "bench/speed",
    "common/model")}
WITH_RT = {"tests/mutants.py"}
checks = checked.Checks(program=None, room=None)
same = checks.same


def scripts():
    """Returns the files below tests/ and contrib/ that begin with `#!` and may be executed, and others without an ending."""
    found = ["tests/run", "tools/costs", "tools/definitions", "tools/loop", "tools/promises", "tools/try-consumer"]
    for folder in ("tests", "contrib"):
        for at, _, names in os.walk(f"{TOP}/{folder}"):
            for path in (f"{at}/{it}" for it in names if it.endswith((".py", ".sh"))):
                with open(path, "rb") as file:
                    if file.read(2) == b"#!" and os.access(path, os.X_OK):
                        found.append(os.path.relpath(path, TOP))
    return sorted(set(found) - WITHOUT_HELP)


def call(arguments, env, stdout=subprocess.PIPE, **how):
    """Runs a command in an empty folder, and returns its status, what it printed and what it said on standard error."""
    with tempfile.TemporaryDirectory(prefix="scripts-") as folder:
        how = {"cwd": folder, "env": env, "stdin": subprocess.DEVNULL, "stderr": subprocess.PIPE, "timeout": SECONDS, **how}
        ran = subprocess.run(arguments, stdout=stdout, **how)
    return ran.returncode, (ran.stdout or b"").decode(), ran.stderr.decode()


def unread():
    """Returns the end for writing of a pipe that nobody reads."""
    reader, writer = os.pipe()
    os.close(reader)
    return writer


def helps(name, env):
    """Tries the help of a script. Returns what was wanted and found, each with what it shows."""
    arguments = [f"{TOP}/{name}", "--help"]
    status, printed, errors = call(arguments, env)
    found = [(f"{name} --help", (0, True, ""), (status, len(printed) > 50, errors))]
    if name in WITH_TRACEBACK:
        return found
    writer = unread()
    try:
        errors = call(arguments, env, stdout=writer)[2]
    finally:
        os.close(writer)
    found.append((f"{name} --help, which nobody reads", False, "Traceback" in errors or "Exception" in errors))
    errors = call(arguments, env, stdout=None, preexec_fn=lambda: os.close(1))[2]
    found.append((f"{name} --help, without a standard output", False, "Traceback" in errors or "Exception" in errors))
    return found


def without(folder, *commands):
    """Returns an environment whose path has the commands of this one but for some."""
    for place in os.environ["PATH"].split(":"):
        for name in os.listdir(place) if os.path.isdir(place) else []:
            if name not in commands and not os.path.lexists(f"{folder}/{name}"):
                os.symlink(f"{place}/{name}", f"{folder}/{name}")
    return dict(os.environ, PATH=folder)


def parts_left_out():
    """A check whose part needs a missing command names that part, the command and its package."""
    with tempfile.TemporaryDirectory(prefix="scripts-path-") as folder:
        env = without(folder, "jq", "cc", "setpriv")
        printed = call([f"{TOP}/tests/checks/guide.sh", "/bin/true"], env)[1]
        same("guide, without jq", True, " blocks: there is no jq (Debian package jq)\nguide: " in printed)
        same("jq is named as elsewhere", "there is no jq (Debian package jq)", needs.no_command("jq"))
        arguments = f"import sys; sys.path.insert(0, '{TOP}/tests/common'); import holding; holding.library_in('.', 'stress', 'a part')"
        ended = call([sys.executable, "-c", arguments], env)
        same("stress and hostile, without cc", (0, f"stress: not tried: a part: {needs.no_command('cc')}\n", ""), ended)
        as_root = f". {TOP}/tests/common/unprivileged.sh; id() {{ echo 0; }}; modes_count launcher 'a part' || echo left out"
        wanted = f"launcher: not tried: a part: {needs.no_command('setpriv')}\nleft out\n"
        same("launcher and arguments, as root, without setpriv", (0, wanted, ""), call(["bash", "-c", as_root], env))
        same("cc is named with its package", "there is no cc (Debian package gcc)", needs.no_command("cc"))


def main(arguments):
    argparse.ArgumentParser(description=__doc__, formatter_class=argparse.RawDescriptionHelpFormatter).parse_args(arguments)
    names = scripts()
    with tempfile.TemporaryDirectory(prefix="scripts-pika-") as folder:
        with open(f"{folder}/pika.py", "w", encoding="utf-8") as file:
            file.write("raise ImportError\n")
        env = dict(os.environ, PYTHONPATH=f"{folder}:{os.environ.get('PYTHONPATH', '')}", PYTHONDONTWRITEBYTECODE="1")
        # (what is written at once fails at once, where argparse prints nothing of it)
        env.pop("PYTHONUNBUFFERED", None)
        if needs.python_version() < (3, 10):
            print("scripts: not tried: the scripts that read the model, which need Python 3.10")
            names = [it for it in names if it not in OF_MODEL]
        if shutil.which("rt") is None:
            print(f"scripts: not tried: tests/mutants.py: {needs.no_command('rt')}")
            names = [it for it in names if it not in WITH_RT]
        with concurrent.futures.ThreadPoolExecutor(JOBS) as pool:
            for found in pool.map(lambda name: helps(name, env), names):
                for it in found:
                    same(*it)
    same("there are scripts in each folder", {"tests", "tools", "checks", "bench", "common", "faults", "postgresql", "rabbitmq"},
         {os.path.basename(os.path.dirname(it)) for it in names})
    parts_left_out()
    print(f"scripts: {checks.passed} passed, {checks.failed} failed")
    return 1 if checks.failed else 0


if __name__ == "__main__":
    ending.run(main)
