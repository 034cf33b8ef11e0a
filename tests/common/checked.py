"""What the checks share that compare what the program prints with what is wanted: runs of it, and the count of what passed."""
import subprocess

import rooms

SECONDS = 300  # that a run may take: a last guard against one that hangs


class Checks:
    """The program, a folder for what its runs read and write, and how many checks passed and failed."""

    def __init__(self, program, room):
        self.program, self.room = program, room
        self.passed, self.failed = 0, 0

    def same(self, what, wanted, found):
        """Counts a check. If the two differ, prints both."""
        if wanted == found:
            self.passed += 1
            return
        self.failed += 1
        print(f"failed: {what}\n  wanted: {rooms.shortened(repr(wanted))}\n  found:  {rooms.shortened(repr(found))}", flush=True)

    def run(self, arguments):
        """Runs the program in the folder: its status, what it printed as bytes, and standard error as text."""
        done = subprocess.run([self.program, *arguments], cwd=self.room, input=b"", capture_output=True, timeout=SECONDS)
        return done.returncode, done.stdout, done.stderr.decode(errors="replace")


def main(arguments, text, kind, parts):
    """Makes checks of this kind over the program that the arguments name; `text` is the script's help. Calls each part with
    them, prints how many passed, and returns the status."""
    name = kind.__name__.lower()
    program = rooms.options_of(rooms.parser_of_first(text), arguments).program
    with rooms.room(f"{name}-") as room:
        checks = kind(program, room)
        for part in parts:
            part(checks)
    print(f"{name}: {checks.passed} passed, {checks.failed} failed")
    return 1 if checks.failed else 0
