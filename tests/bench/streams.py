"""Streams to follow and to audit: the events of a ledger whose numbers have a real ledger's size."""
import json
import random

# Of a real ledger: its first account and transfer, with ids of 37 digits, and the timestamps, of 19, of its first account and event.
REAL_ID, REAL_TRANSFER = 10**36, 2 * 10**36
REAL_CREATED, REAL_TIMESTAMP = 1_745_000_000_000_000_000, 1_745_328_372_000_000_000


def line_of(body, form, last):
    """The line of an event; `last` is the timestamp of the event before. The forms are bodies as a connector writes them ('own') and as
    TigerBeetle documents them, in envelopes that name the event before ('chained'), and in lines as `messages --queue` and `chain` print
    them ('message', 'numbered')."""
    own = json.dumps(body, sort_keys=True, separators=(',', ':'))
    if form == 'own':
        return own + '\n'
    if form == 'documented':
        return json.dumps({name: body[name] for name in ('timestamp', 'type', 'ledger', 'transfer', 'debit_account', 'credit_account')}) + '\n'
    if form == 'chained':
        return f'{{"previous":"{last}","body":{own}}}\n'
    headers = {
        'event_type': body['type'], 'ledger': body['ledger'], 'transfer_code': body['transfer']['code'],
        'debit_account_code': body['debit_account']['code'], 'credit_account_code': body['credit_account']['code'],
    }
    queue = '"queue":1,' if form == 'numbered' else ''
    middle = f'"headers":{json.dumps(headers, separators=(",", ":"))},"timestamp":{int(body["timestamp"]) // 10**9}'
    return f'{{{queue}"kind":"message","previous":"{last}",{middle},"body":{own}}}\n'


def real_account(number, balances):
    debits, credits = balances
    return {
        'code': 1, 'credits_pending': '0', 'credits_posted': str(credits), 'debits_pending': '0', 'debits_posted': str(debits), 'flags': 0,
        'id': str(REAL_ID + number), 'timestamp': str(REAL_CREATED + number), 'user_data_128': '0', 'user_data_32': 0,
        'user_data_64': '0',
    }


def real_lines(count, accounts, form='own'):
    """The lines of so many single-phase transfers between random accounts, in one of the forms."""
    last = '0'
    for body in real_bodies(count, accounts):
        yield line_of(body, form, last)
        last = body['timestamp']


def real_bodies(count, accounts):
    """The bodies of so many single-phase transfers between random accounts."""
    chosen, balances = random.Random(accounts), [[0, 0] for _ in range(accounts)]
    for place in range(count):
        debit, credit = chosen.sample(range(accounts), 2)
        amount = chosen.randrange(1, 1_000_000)
        balances[debit][0] += amount
        balances[credit][1] += amount
        timestamp = str(REAL_TIMESTAMP + place)
        transfer = {
            'amount': str(amount), 'code': 1, 'flags': 0, 'id': str(REAL_TRANSFER + place), 'pending_id': '0', 'timeout': 0,
            'timestamp': timestamp, 'user_data_128': '0', 'user_data_32': 0, 'user_data_64': '0',
        }
        yield {
            'credit_account': real_account(credit, balances[credit]), 'debit_account': real_account(debit, balances[debit]),
            'ledger': 700, 'timestamp': timestamp, 'transfer': transfer, 'type': 'single_phase',
        }


def real_book(accounts):
    """A saved book with all accounts, after an event before these."""
    last = REAL_TIMESTAMP - 1
    rows = ''.join(f'account {REAL_ID + it} 0 1000 0 1000\n' for it in range(accounts))
    book = f'book 1 chained no seen {last}\nbinding all\nsubscriber 1 applied 1 last {last} ended no closed no\n{rows}'
    return f'book 0 bytes {len(book)}\n{book}end 0 bytes {len(book)}\n'
