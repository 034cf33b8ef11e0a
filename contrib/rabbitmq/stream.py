"""What the program prints for a bridge: the messages of a script, and the end of each queue."""
import json
import os
import subprocess
from dataclasses import dataclass

import client
from console import USAGE_ERROR, Stop

BODY = b',"body":'
GREATEST = 2 ** 63 - 1
# What reading a line raises that the program doesn't print.
UNLIKE = (AttributeError, KeyError, RecursionError, TypeError, ValueError)


@dataclass(frozen=True)
class Message:
    """One event: its headers, its time in whole seconds and in nanoseconds, the timestamp of the event before it, for each
    queue that takes it that of the event before it there, and its body."""
    headers: dict
    seconds: int
    timestamp: int
    previous: int
    queues: dict
    body: bytes


class Program:
    """The program `relayplum`, over one script."""

    def __init__(self, path, script):
        self.path, self.script = path, script
        if not os.access(path, os.X_OK) or os.path.isdir(path):
            raise Stop(f'there is no program {path}: name it with --program', USAGE_ERROR)

    def lines(self, command):
        """The lines that a command prints over the script. If it fails, its own standard error has the reason."""
        with started([self.path, command, '--json', self.script], stdin=subprocess.DEVNULL) as process:
            for line in process.stdout:
                if not line.startswith((b'{"kind":"fault"', b'{"kind":"file_fault"')):
                    yield line
        if process.returncode != 0:
            raise Stop(f'`{command}` fails with status {process.returncode}', USAGE_ERROR if process.returncode == USAGE_ERROR else 1)

    def messages(self):
        """The messages of the script, in order."""
        previous = 0
        for line in self.lines('messages'):
            message = message_of(line, previous)
            yield message
            previous = message.timestamp

    def ends(self):
        """The timestamp of the last event in each queue; 0 if there is none."""
        found = {}
        for line in self.lines('books'):
            try:
                read = json.loads(line)
                if read['kind'] == 'subscriber':
                    found[whole(read['subscriber'])] = whole(read['last'])
            except UNLIKE as error:
                raise Stop(f'`books --json` prints something else than batches and books: {line[:100]!r}') from error
        return found


def started(command, **how):
    """The program, started, and what it prints, or a usage error."""
    try:
        return subprocess.Popen(command, stdout=subprocess.PIPE, **how)
    except OSError as error:
        raise Stop(f'{command[0]} can\'t be run: {error.strerror}', USAGE_ERROR) from None


def whole(it):
    """A number as the program prints it."""
    number = client.number_of(it)
    if number is None or number > GREATEST:
        raise ValueError(it)
    return number


def message_of(line, previous):
    """The message of a line of `messages --json`. Its body stays the bytes that it is."""
    try:
        read = json.loads(line)
        body = line[line.index(BODY) + len(BODY):].rstrip()[:-1]
        headers = {str(key): it if isinstance(it, str) else whole(it) for key, it in read['headers'].items()}
        queues = {whole(it['queue']): whole(it['previous']) for it in read['queues']}
        return Message(headers, whole(read['timestamp']), whole(read['body']['timestamp']), previous, queues, body)
    except UNLIKE:
        raise Stop(f'`messages --json` prints something else than messages: {line[:100]!r}') from None
