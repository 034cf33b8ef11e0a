"""How far a bridge is: the timestamp up to which every event is confirmed, in a queue of the broker or in a file."""
import json
import os
from dataclasses import asdict, dataclass

from console import Stop
from stream import GREATEST, UNLIKE

VERSION = 2
LONGEST_RECORD = 4096


@dataclass(frozen=True)
class Record:
    """A timestamp, and what it is of: queues of this name in this cluster, filled from a script with this sum."""
    timestamp: int
    name: str
    cluster: str
    script: str

    def text(self):
        return json.dumps({'relayplum-bridge': VERSION, **asdict(self)}) + '\n'

    def at(self, timestamp):
        return Record(timestamp, self.name, self.cluster, self.script)


def record_of(text, where):
    """The record with this text."""
    try:
        found = json.loads(text)
        if found.pop('relayplum-bridge') == VERSION and type(found['timestamp']) is int and 0 <= found['timestamp'] <= GREATEST:
            record = Record(**found)
            if record.text() == text:
                return record
    except UNLIKE:
        pass
    raise Stop(f'{where} holds something else than a bridge\'s progress')


class FileProgress:
    """The progress in a file, which is never half written."""

    def __init__(self, path):
        self.path = path
        self.where = f'the file {path}'

    def held(self, _session):
        """The records that are held."""
        try:
            with open(self.path, encoding='utf-8', errors='replace', newline='') as file:
                return [record_of(file.read(LONGEST_RECORD), self.where)]
        except FileNotFoundError:
            return []
        except OSError as error:
            raise Stop(f'{self.path} can\'t be read: {error.strerror}') from None

    def save(self, record, _send):
        """Writes the record to a new file, and then puts it in the old one's place."""
        new = f'{self.path}.new'
        try:
            with open(new, 'w', encoding='utf-8', newline='') as file:
                file.write(record.text())
                file.flush()
                os.fsync(file.fileno())
            os.replace(new, self.path)
        except OSError as error:
            raise Stop(f'{self.path} can\'t be written: {error.strerror}') from None
