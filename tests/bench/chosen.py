#!/usr/bin/env python3
"""Streams of transfers whose ids, and those of their accounts, are chosen so that they collide in a map with a fixed key.

  tests/bench/chosen.py [COUNT] [--kind MULTIPLIER|STATE|RANDOM]    prints one of COUNT transfers, 200,000 by default

A map with a fixed key (`std::hash::FoldHasher`, core/src/hash/fold.rt of the toolchain) hashes an id of 128 bits by one
multiplication. With `low` and `high` for its halves, the hash is the product of `low ^ (STATE + 16)` and `high ^ MULTIPLIER`, its
halves joined by xor, and then folded to 32 bits. A factor of 0 makes it 0, whatever the other half is:

- MULTIPLIER: `high` is the multiplier, so 2^64 ids have the hash 0.
- STATE: `low` is the fixed state plus 16, so 2^64 ids have the hash 0.

Each lookup then compares with all entries before, so a stream takes time as the square of its accounts and transfers. With a random key
it doesn't: tests/checks/cost.py compares both kinds with RANDOM, whose ids have as many digits.
"""
import argparse
import json
import random
import sys

STATE, MULTIPLIER, BITS = 0x243F6A8885A308D3, 0x9E3779B97F4A7C15, 2**64 - 1
KINDS = ("MULTIPLIER", "STATE", "RANDOM")
CREATED, FIRST = 1_745_000_000_000_000_000, 1_745_328_372_000_000_000


def hash_of(id):
    """The hash of an id as the toolchain's map has it, of 32 bits."""
    low, high = id & BITS, id >> 64
    product = (low ^ (STATE + 16)) * (high ^ MULTIPLIER)
    whole = product & BITS ^ product >> 64
    return (whole ^ whole >> 32) & 0xFFFFFFFF


def ids(kind, count):
    """So many ids of a kind, each once, in a random order, so that none follows from the one before."""
    chosen = random.Random(kind)
    halves = chosen.sample(range(2**62, 2**63), count)
    if kind == "MULTIPLIER":
        return [MULTIPLIER << 64 | it for it in halves]
    if kind == "STATE":
        return [it << 64 | STATE + 16 for it in halves]
    return [it << 64 | chosen.getrandbits(64) for it in halves]


def account(id, created, debits, credits):
    return {
        "code": 1, "credits_pending": "0", "credits_posted": str(credits), "debits_pending": "0", "debits_posted": str(debits), "flags": 0,
        "id": str(id), "timestamp": str(created), "user_data_128": "0", "user_data_32": 0, "user_data_64": "0",
    }


def lines(kind, count):
    """A stream of single-phase transfers of 1: each transfer, and every other account, has an id of its own."""
    accounts, transfers = ids(kind, count + 1), ids(kind, 2 * count + 1)[count + 1 :]
    for place in range(count):
        timestamp = str(FIRST + place)
        yield json.dumps({
            "credit_account": account(accounts[place + 1], CREATED + place + 1, 0, 1),
            "debit_account": account(accounts[place], CREATED + place, 1, 1 if place else 0),
            "ledger": 700,
            "timestamp": timestamp,
            "transfer": {
                "amount": "1", "code": 1, "flags": 0, "id": str(transfers[place]), "pending_id": "0", "timeout": 0,
                "timestamp": timestamp, "user_data_128": "0", "user_data_32": 0, "user_data_64": "0",
            },
            "type": "single_phase",
        }, sort_keys=True, separators=(",", ":")) + "\n"


def main(arguments):
    parser = argparse.ArgumentParser(description=__doc__, formatter_class=argparse.RawDescriptionHelpFormatter)
    parser.add_argument("count", nargs="?", type=int, default=200_000)
    parser.add_argument("--kind", choices=KINDS, default="MULTIPLIER")
    options = parser.parse_args(arguments)
    if options.kind != "RANDOM":
        assert {hash_of(it) for it in ids(options.kind, options.count)} == {0}
    sys.stdout.writelines(lines(options.kind, options.count))


if __name__ == "__main__":
    main(sys.argv[1:])
