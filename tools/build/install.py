"""Installs the program with its man page, its completions, its units and try-consumer."""
import os
import shutil

from . import say

# Where each file goes, below the folder that is given.
FILES = {
    "docs/relayplum.1": "share/man/man1/relayplum.1",
    "completions/relayplum.bash": "share/bash-completion/completions/relayplum",
    "completions/_relayplum": "share/zsh/site-functions/_relayplum",
    "completions/relayplum.fish": "share/fish/vendor_completions.d/relayplum.fish",
    "tools/try-consumer": "bin/try-consumer",
    "examples/boundaries.script": "share/relayplum/boundaries.script",
}
# The parts of try-consumer, and their place.
PARTS, PARTS_TO = "tools/trying", "share/relayplum/trying"
# The units of systemd, and their place.
UNITS, UNITS_TO = "contrib/systemd", "lib/systemd/system"


def files_of(program):
    """Returns where each file goes, the program first."""
    parts = sorted(it for it in os.listdir(f"{program.top}/{PARTS}") if it.endswith(".py"))
    units = sorted(it for it in os.listdir(f"{program.top}/{UNITS}") if it.endswith((".service", ".timer")))
    files = {**FILES, **{f"{PARTS}/{it}": f"{PARTS_TO}/{it}" for it in parts}}
    files.update({f"{UNITS}/{it}": f"{UNITS_TO}/{it}" for it in units})
    return {program.path: "bin/relayplum", **{f"{program.top}/{it}": place for it, place in files.items()}}


def install(program, to):
    """Puts each file in its place whole, the program first."""
    for source, place in files_of(program).items():
        file = os.path.join(to, place)
        os.makedirs(os.path.dirname(file), exist_ok=True)
        shutil.copyfile(source, f"{file}.new")
        os.chmod(f"{file}.new", 0o755 if place.startswith("bin/") else 0o644)
        os.replace(f"{file}.new", file)
        say(f"installed {file}")
