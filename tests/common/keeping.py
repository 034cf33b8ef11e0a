"""What a save leaves of a file: its mode and its owner, and the old content if the new one can't be written as a whole."""
import os
import resource
import stat
import subprocess

import commands
import stepping
from commands import check
from trying import tracing

NOBODY = 65534
MODES = (0o600, 0o640, 0o666)


def owner_of(path):
    """The mode, the owner and the group of a file."""
    it = os.stat(path)
    return stat.S_IMODE(it.st_mode), it.st_uid, it.st_gid


def modes_of_new(arguments, path, stream):
    """The modes that `PATH.new` has during a run over a file, and the run's status."""
    modes = set()
    with open(stream, "rb") as it:
        run = stepping.Stepped([commands.program, commands.command, *arguments(path)], it)
    while run.step():
        if os.path.exists(f"{path}.new"):
            modes.add(owner_of(f"{path}.new")[0])
    return modes, run.status


def owned(folder, arguments, stream):
    """Counts checks of the mode and, if root runs them, of the owner of a file that is saved. `arguments`: those of a run, by the path of
    the file; `stream`: its bytes."""
    path, name = os.path.join(folder, "owned"), os.path.join(folder, "stream")
    with open(name, "wb") as it:
        it.write(stream)
    for mode in MODES:
        commands.run(arguments(path), stream)
        os.chmod(path, mode)
        if os.geteuid() == 0:
            os.chown(path, NOBODY, NOBODY)
        before = owner_of(path)
        try:
            modes, status = modes_of_new(arguments, path, name)
        except tracing.Refused as why:
            print(f"{commands.command}: not tried: the modes of a new file: {why}")
            return
        check(f"a file of mode {mode:o} keeps it, and its owner", status == 0 and owner_of(path) == before, (status, owner_of(path), before))
        check(f"beside a file of mode {mode:o}", modes and not any(it & ~mode for it in modes), modes)
        os.remove(path)


def limited(folder, arguments, stream):
    """Counts checks of runs for which a file may have so many bytes at most: what can't be written is a fault, and no signal ends the
    run; a run without a limit goes on from what is found."""
    whole = os.path.join(folder, "whole")
    commands.run(arguments(whole), stream)
    with open(whole, "rb") as it:
        size = len(it.read())
    for limit in sorted({1, 20, size // 3, size // 2, size - 30, size - 1}):
        path = os.path.join(folder, str(limit))
        done = subprocess.run(
            [commands.program, commands.command, *arguments(path)], input=stream, capture_output=True, timeout=commands.SECONDS,
            preexec_fn=lambda: resource.setrlimit(resource.RLIMIT_FSIZE, (limit, limit)),
        )
        is_fault = done.returncode == 1 and done.stdout.endswith(b"fault: store\n")
        check(f"files of at most {limit} bytes", is_fault, done)
        check(f"what is left at {limit} bytes", not os.path.exists(f"{path}.new"), os.listdir(folder))
        status, printed, errors = commands.run(arguments(path), b"")
        check(f"after files of at most {limit} bytes", status == 0, (status, printed, errors))
        os.remove(path)
    os.remove(whole)
