#!/usr/bin/env python3
"""Reads what `messages` prints with Python's own JSON reader, and compares headers, layout and members.

    relayplum messages FILE | tests/common/json_lines.py EVENTS
"""
import argparse
import json
import sys

import ending

TRANSFER = {'amount', 'code', 'flags', 'id', 'pending_id', 'timeout', 'timestamp', 'user_data_128', 'user_data_32', 'user_data_64'}
ACCOUNT = {'code', 'credits_pending', 'credits_posted', 'debits_pending', 'debits_posted', 'flags', 'id', 'timestamp', 'user_data_128', 'user_data_32', 'user_data_64'}
NUMBERS = {'code', 'flags', 'ledger', 'timeout', 'user_data_32'}
KINDS = {'single_phase', 'two_phase_pending', 'two_phase_posted', 'two_phase_voided', 'two_phase_expired'}


def check_members(part, names):
    """The members of a part: narrow numbers are JSON numbers, wide ones decimal strings without leading zeros."""
    assert set(part) == names, sorted(part)
    for name, value in part.items():
        if name in NUMBERS:
            assert type(value) is int, (name, value)
        else:
            assert type(value) is str and value == str(int(value)), (name, value)


def check(headers, body):
    event = json.loads(body)
    assert body == json.dumps(event, sort_keys=True, separators=(',', ':')), 'the text has another layout'
    assert set(event) == {'credit_account', 'debit_account', 'ledger', 'timestamp', 'transfer', 'type'}, sorted(event)
    assert event['type'] in KINDS, event['type']
    check_members({name: event[name] for name in ('ledger', 'timestamp')}, {'ledger', 'timestamp'})
    check_members(event['transfer'], TRANSFER)
    check_members(event['debit_account'], ACCOUNT)
    check_members(event['credit_account'], ACCOUNT)
    wanted = [
        ('event_type', event['type']),
        ('ledger', event['ledger']),
        ('transfer_code', event['transfer']['code']),
        ('debit_account_code', event['debit_account']['code']),
        ('credit_account_code', event['credit_account']['code']),
        ('timestamp', int(event['timestamp']) // 1_000_000_000),
    ]
    assert headers == ' '.join(f'{name}={value}' for name, value in wanted), headers
    return int(event['timestamp'])


def main(arguments):
    parser = argparse.ArgumentParser(description=__doc__, formatter_class=argparse.RawDescriptionHelpFormatter)
    parser.add_argument('events', type=int, metavar='EVENTS', help='how many messages there have to be')
    events = parser.parse_args(arguments).events
    lines = sys.stdin.read().split('\n')
    assert lines.pop() == '', 'the last line has no end'
    assert len(lines) == 2 * events, f'{len(lines)} lines'
    last = 0
    for place in range(0, len(lines), 2):
        timestamp = check(lines[place], lines[place + 1])
        assert timestamp > last, f'timestamp {timestamp} after {last}'
        last = timestamp


if __name__ == '__main__':
    ending.run(main)
