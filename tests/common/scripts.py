"""Scripts that several checks and benchmarks run: long ones, and ones of the greatest size."""
SCRIPT_BYTES = 1_048_576
BATCH_ITEMS = 1_000
# The timestamps of the first batch of accounts and of the first batch of transfers.
ACCOUNTS, TRANSFERS = 10, 10_000_000


def long_script(transfers, a_batch):
    """So many transfers between five accounts, some of them pending ones and posts of these, in batches."""
    lines = ['subscriber all', 'subscriber any event_type=two_phase_posted transfer_code=2', 'accounts 1000']
    lines += [f'account id={number} ledger=700 code=10' for number in range(1, 6)]
    for number in range(1, transfers + 1):
        if number % a_batch == 1:
            lines.append(f'transfers {1000 * number + 1000}')
        debit, credit = 1 + number % 5, 1 + (number + 1 + number // 5 % 4) % 5
        if number % 10 == 7:
            lines.append(f'transfer id={number} pending_id={number - 1} amount={number % 5} flags=4')
            continue
        flags = ' flags=2' if number % 10 == 6 else ''
        lines.append(
            f'transfer id={number} debit_account_id={debit} credit_account_id={credit} amount={5 + number % 89}'
            f' ledger=700 code={1 + number % 3}{flags}'
        )
    return '\n'.join(lines) + '\n'


def batches(kind, lines, start):
    """The text of as many batches as these requests need, the first at this timestamp, and each behind the one before it: a script
    of decreasing timestamps is noted, which takes a second ledger."""
    return "".join(f"{kind} {start + at}\n" + "".join(lines[at:at + BATCH_ITEMS]) for at in range(0, len(lines), BATCH_ITEMS))


def opened(accounts):
    lines = [f"account id={number} ledger=1 code=1\n" for number in range(1, accounts + 1)]
    return "subscriber all\n" + batches("accounts", lines, ACCOUNTS)


def transfer(number, accounts, more=""):
    """A transfer between two neighbours among the accounts; each pair has its turn."""
    debit = 2 * (number - 1) % accounts + 1
    return (f"transfer id={number} debit_account_id={debit} credit_account_id={debit + 1}"
            f" amount=1 ledger=1 code=1{more}\n")


def single_phase(count, accounts):
    return [transfer(number, accounts) for number in range(1, count + 1)]


def script(accounts, count, start=TRANSFERS):
    return opened(accounts) + batches("transfers", single_phase(count, accounts), start)


def most_transfers(accounts, more=""):
    """How many transfers between these accounts a script has room for, behind so much more text."""
    low, high = 0, SCRIPT_BYTES
    while high - low > 1:
        midpoint = (low + high) // 2
        if len(more) + len(script(accounts, midpoint)) <= SCRIPT_BYTES:
            low = midpoint
        else:
            high = midpoint
    return low
