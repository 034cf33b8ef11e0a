#!/usr/bin/env python3
"""Keeps a follower's book in PostgreSQL, and prints what may be acknowledged.

  supervise.py [--psql COMMAND] [--relayplum PROGRAM] SCHEMA [FOLLOW ARGUMENT].. <stream >saved

COMMAND: how psql reaches the database, as "psql -X -d ledger" (the default is "psql -X"). The arguments of follow have to be those with
which `follow --sql-schema SCHEMA` made the tables, as --chained.

The script reads the position from the table `book`, and starts `follow --sql SCHEMA --resume`, whose text psql executes. It prints each
line that psql prints: `saved T` once the events up to the timestamp T are committed, and `ended T` once the end is, too. Only these may
be acknowledged. When psql ends, by an error or because the follower has ended, the follower is ended. The status is psql's unless that
is 0, and else the follower's.
"""
import argparse
import os
import shlex
import subprocess
import sys
import tempfile


def position(psql, schema):
    """The position in the table `book`, a saved book without accounts."""
    asked = [*psql, "-At", "-v", "ON_ERROR_STOP=1", "-c", f'SELECT position FROM "{schema}".book WHERE id = 1']
    found = subprocess.run(asked, stdin=subprocess.DEVNULL, stdout=subprocess.PIPE, check=False)
    if found.returncode != 0 or not found.stdout.strip():
        sys.exit(f'supervise.py: "{schema}".book has no row; make it with follow --sql-schema {schema}')
    return found.stdout


def supervise(psql, follow):
    """Runs the follower into psql up to the end of both; returns the status."""
    follower = subprocess.Popen(follow, stdout=subprocess.PIPE)
    client = subprocess.Popen(psql, stdin=follower.stdout, stdout=subprocess.PIPE)
    # (the client alone reads it, so the follower notices when the client is gone)
    follower.stdout.close()
    try:
        for line in client.stdout:
            sys.stdout.buffer.write(line)
            sys.stdout.buffer.flush()
        status = client.wait()
    finally:
        client.kill()
        follower.terminate()
        ended = follower.wait()
    return status or (ended if ended >= 0 else 1)


def main(arguments):
    parser = argparse.ArgumentParser(description=__doc__, formatter_class=argparse.RawDescriptionHelpFormatter)
    parser.add_argument("--psql", type=shlex.split, default=["psql", "-X"], metavar="COMMAND")
    parser.add_argument("--relayplum", default="relayplum", metavar="PROGRAM")
    parser.add_argument("schema", metavar="SCHEMA")
    parser.add_argument("follow", nargs=argparse.REMAINDER, metavar="FOLLOW ARGUMENT")
    options = parser.parse_args(arguments)
    handle, path = tempfile.mkstemp(prefix="position-")
    try:
        with os.fdopen(handle, "wb") as file:
            file.write(position(options.psql, options.schema))
        words = ["follow", "--sql", options.schema, "--resume", path, *options.follow]
        return supervise(options.psql, [options.relayplum, *words])
    finally:
        os.unlink(path)


def run():
    """Exits with the status of main, or with 1 if nobody reads what is printed."""
    try:
        try:
            status = main(sys.argv[1:])
        finally:
            if sys.stdout is not None:
                sys.stdout.flush()
    except KeyboardInterrupt:
        status = 130
    except BrokenPipeError:
        # What is left unwritten is dropped, so that Python doesn't try again.
        os.dup2(os.open(os.devnull, os.O_WRONLY), sys.stdout.fileno())
        status = 1
    sys.exit(status)


if __name__ == "__main__":
    run()
