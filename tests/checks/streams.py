#!/usr/bin/env python3
"""Reads and writes that fail in mid-stream, and whether the program goes on after them.

  tests/checks/streams.py [PROGRAM]    PROGRAM: crates/cdc_app/out/cdc_app

A socket whose peer resets the connection gives what was sent, then one failure, then the end: a program that went on
reading after the failure would see a whole script. A stop interrupts a read. A pipe that nobody empties takes what fits,
and then refuses.
"""
import fcntl
import os
import signal
import socket
import struct
import subprocess
import sys
import tempfile
import time

sys.dont_write_bytecode = True
sys.path.insert(0, os.path.join(os.path.dirname(os.path.realpath(__file__)), "..", "common"))
import ending
import rooms

# A script whose book is good, and reports it.
SCRIPT = b"subscriber all\n"
PAGE = 4096
F_SETPIPE_SZ = 1031  # the module fcntl has it from Python 3.10 on
SECONDS = 300  # that a run may take: a last guard against one that hangs
program = None
failures = []
checks = 0


def same(what, wanted, found):
    global checks
    checks += 1
    if wanted != found:
        failures.append(f"failed: {what}\n  wanted: {repr(wanted)[:300]}\n  found:  {repr(found)[:300]}")


def broken_stream(text):
    """Returns a socket from which this text can be read, then fails once, and then is at its end."""
    sender, reader = socket.socketpair()
    sender.sendall(text)
    # a socket that is closed with something unread resets the connection
    reader.sendall(b"unread")
    sender.close()
    return reader


def behaviour_of_a_broken_stream():
    """The tests rest on it: text, one failure, the end."""
    with broken_stream(SCRIPT) as stream:
        read = [stream.recv(100)]
        try:
            stream.recv(100)
            read.append("no failure")
        except OSError:
            read.append("failure")
        read.append(stream.recv(100))
    same("a connection that is reset", str([SCRIPT, "failure", b""]), str(read))


def run(arguments, stdin, stdout=subprocess.PIPE):
    return subprocess.run([program, *arguments], stdin=stdin, stdout=stdout, stderr=subprocess.PIPE, timeout=SECONDS)


def reads_that_fail():
    with tempfile.NamedTemporaryFile(suffix=".steps") as steps:
        steps.write(b"start\n")
        steps.flush()
        for arguments in (["books", "-"], ["messages", "-"], ["simulate", "-", steps.name]):
            with broken_stream(SCRIPT) as stream:
                ran = run(arguments, stream)
            same(f"{arguments[0]}, a read that fails: status", 1, ran.returncode)
            same(f"{arguments[0]}, a read that fails: standard output", b"fault: read_fault\n", ran.stdout)
            same(f"{arguments[0]}, a read that fails: why", True, b"standard input" in ran.stderr and b"reset" in ran.stderr)


def stop_for_a_while(process):
    """Stops a process, waits until it stands still or has ended, and lets it go on."""
    process.send_signal(signal.SIGSTOP)
    os.waitid(os.P_PID, process.pid, os.WSTOPPED | os.WEXITED | os.WNOWAIT)
    process.send_signal(signal.SIGCONT)


def a_read_that_is_interrupted():
    """It is a failed read, and isn't tried again. A stop interrupts a read from a socket with a time limit."""
    sender, reader = socket.socketpair()
    reader.setsockopt(socket.SOL_SOCKET, socket.SO_RCVTIMEO, struct.pack("ll", 10 * SECONDS, 0))
    sender.sendall(SCRIPT)
    how = {"stdin": reader, "stdout": subprocess.PIPE, "stderr": subprocess.PIPE}
    with subprocess.Popen([program, "books", "-"], **how) as process:
        # once it waits for more of the script, a stop ends it; one that comes before that changes nothing
        until = time.monotonic() + SECONDS
        while process.poll() is None and time.monotonic() < until:
            stop_for_a_while(process)
            time.sleep(0.02)
        sender.close()
        out, err = process.communicate(timeout=SECONDS)
    reader.close()
    same("an interrupted read: status", 1, process.returncode)
    same("an interrupted read: standard output", b"fault: read_fault\n", out)
    same("an interrupted read: why", True, b"nterrupted" in err)


def crowded_script():
    """A script with a long report: its batches come to more than a page. No account is accepted twice."""
    accounts = b"".join(b"account id=%d ledger=1 code=1\n" % it for it in range(1, 601))
    transfers = b"".join(
        b"transfer id=%d debit_account_id=%d credit_account_id=%d amount=1 ledger=1 code=1\n" % (it, it, it + 1)
        for it in range(1, 600)
    )
    return SCRIPT + b"accounts 1\n" + accounts + b"transfers 2000\n" + transfers + 2 * (b"accounts 9000\n" + accounts)


def writes_that_fail():
    with tempfile.NamedTemporaryFile(suffix=".script") as script, tempfile.NamedTemporaryFile(suffix=".steps") as steps:
        script.write(crowded_script())
        script.flush()
        steps.write(b"batch\n" * 4)
        steps.flush()
        for command, *files in (["books", script.name], ["messages", script.name],
                                ["simulate", script.name, steps.name]):
            whole = run([command, *files], subprocess.DEVNULL).stdout
            same(f"{command}: the report is longer than the pipe", True, len(whole) > PAGE)
            reader, writer = os.pipe()
            fcntl.fcntl(writer, F_SETPIPE_SZ, PAGE)
            os.set_blocking(writer, False)
            ran = run([command, *files], subprocess.DEVNULL, writer)
            os.close(writer)
            with open(reader, "rb") as file:
                taken = file.read()
            same(f"{command}, a write that fails: status", 1, ran.returncode)
            same(f"{command}, a write that fails: what was written before", whole[:PAGE], taken)
            same(f"{command}, a write that fails: why", True, b"standard output: write_fault: " in ran.stderr)
            same(f"{command}, a write that fails: nothing else is said", 1, ran.stderr.count(b"\n"))


def main(arguments):
    global program
    program = rooms.options_of(rooms.parser_of_first(__doc__), arguments).program
    behaviour_of_a_broken_stream()
    reads_that_fail()
    a_read_that_is_interrupted()
    writes_that_fail()
    for it in failures:
        print(it)
    print(f"streams: {checks} checks, {len(failures)} failed")
    return 1 if failures else 0


if __name__ == "__main__":
    ending.run(main)
