"""What a run of a program takes: wall-clock time, CPU time and the most memory."""
import collections
import pathlib
import subprocess
import sys

import rooms

Spent = collections.namedtuple('Spent', 'wall used memory')
SOURCE = pathlib.Path(__file__).parent / 'spent.c'


class Meter:
    """Runs programs by spent.c, which it builds in a folder."""

    def __init__(self, folder):
        self.command = [str(pathlib.Path(folder) / 'spent')]
        subprocess.run(['cc', '-O2', '-Wall', '-Werror', '-o', *self.command, SOURCE], check=True)

    def run(self, arguments, folder, processors=None):
        """The seconds of wall-clock time, those of CPU time and the most bytes of a run, which has to end well."""
        leave = rooms.on_processors(processors)
        ran = subprocess.run([*self.command, *arguments], cwd=folder, stdout=subprocess.PIPE, text=True, preexec_fn=leave)
        if ran.returncode:
            sys.exit(f'{" ".join(map(str, arguments))}: status {ran.returncode}')
        wall, used, memory = ran.stdout.split()
        return Spent(float(wall), float(used), 1024 * int(memory))
