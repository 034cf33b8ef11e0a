"""What the launcher `relayplum` leaves to Python: the flags before the command, and the build of a program that isn't current."""
import os
import sys

sys.dont_write_bytecode = True
from build import cli

sys.exit(cli.main(os.path.dirname(os.path.dirname(os.path.realpath(__file__))), sys.argv[1:]))
