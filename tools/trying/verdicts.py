"""Compares the answers and the book of a consumer with the expected ones. A difference is a `Verdict`."""
import json
import re
from dataclasses import dataclass

from .streams import SUMS

MOST_SHOWN = 60
# Between the fields of a line of a book, which are an id and four balances, after `account` or not.
SEPARATED = re.compile(r"[\s,|;]+")


@dataclass(frozen=True)
class Verdict:
    """What is wrong: its kind, the number of the delivery, or None, a sentence, and the delivery's place in the
    stream."""

    kind: str
    delivery: int
    text: str
    place: int = None


@dataclass(frozen=True)
class Wanted:
    """The expected answer to a delivery. If it was given before a kill and not answered, it may also be a duplicate."""

    result: str
    applied: int
    last: str
    accounts: tuple
    may_be_duplicate: bool = False

    def line(self, number):
        answer = {"kind": "expect", "delivery": number, "result": self.result, "applied": self.applied}
        return json.dumps({**answer, "last": self.last, "accounts": list(self.accounts)}, separators=(",", ":"))

    def results(self):
        return [self.result, "duplicate"] if self.may_be_duplicate and self.result != "duplicate" else [self.result]


def wanted_of(expected, may_be_duplicate=False):
    """Returns the expected answer to a delivery."""
    accounts = tuple(expected["accounts"])
    return Wanted(expected["result"], expected["applied"], expected["last"], accounts, may_be_duplicate)


def duplicate_after(expected):
    """Returns the expected answer to a duplicate in the state after a delivery."""
    return Wanted("duplicate", expected["applied"], expected["last"], ())


def value_of(it):
    """Returns the number that a string or a JSON number has; anything else as JSON."""
    text = it if isinstance(it, str) else json.dumps(it)
    return int(text) if re.fullmatch(r"\d{1,100}", text) else text


def printable(text):
    """Returns a text with escapes instead of control characters and what isn't Unicode."""
    return "".join(it if it.isprintable() else it.encode("unicode_escape").decode() for it in text)


def shown(it):
    """Returns a value as a report shows it: on one line, and cut if it is long."""
    text = it if isinstance(it, str) else json.dumps(it)
    return printable(text) if len(text) <= MOST_SHOWN else f"{printable(text[:MOST_SHOWN])}.."


def difference(account, found, wanted):
    """Returns how an account's balances differ, or None. Balances that are missing aren't compared."""
    for name in SUMS:
        if name in found and value_of(found[name]) != value_of(wanted[name]):
            return f"account {account} has {name} {shown(found[name])}, expected {wanted[name]}"
    return None


def accounts_difference(found, wanted):
    """Returns how two books or lists of accounts differ, by their ids, or None."""
    for account in wanted:
        if account not in found:
            return f"account {account} is missing"
        text = difference(account, found[account], wanted[account])
        if text:
            return text
    more = [it for it in found if it not in wanted]
    return f"account {more[0]} isn't expected" if more else None


def by_id(accounts):
    """Returns a list of accounts by their ids, or None if it isn't one."""
    if not isinstance(accounts, list) or not all(isinstance(it, dict) and "id" in it for it in accounts):
        return None
    return {str(value_of(it["id"])): it for it in accounts}


def verdict_of_answer(line, number, wanted, book):
    """Compares an answer with the expected one; `book` has the balances before it. Returns a verdict or None."""
    text = line.decode(errors="replace")
    try:
        answer = json.loads(text, parse_float=str)
    except (ValueError, RecursionError):
        answer = None
    if not isinstance(answer, dict):
        printed = shown(text) or "an empty line"
        return Verdict("text", number, f"expected a JSON object, your consumer printed {printed}")
    if "delivery" in answer and value_of(answer["delivery"]) != number:
        return Verdict("number", number, f"the answer is for delivery {shown(answer['delivery'])}")
    for name in ("result", "applied", "last", "accounts"):
        if name not in answer:
            return Verdict("member", number, f"the answer has no member {name}")
    accounts = by_id(answer["accounts"])
    if accounts is None:
        return Verdict("member", number, "accounts isn't a list of objects that each have an id")
    result = answer["result"]
    if result not in wanted.results():
        return verdict_of_result(result, number, wanted, accounts, book)
    if value_of(answer["applied"]) != wanted.applied:
        applied = shown(answer["applied"])
        return Verdict("applied", number, f"your consumer has applied {applied} events, expected {wanted.applied}")
    if value_of(answer["last"]) != value_of(wanted.last):
        return Verdict("last", number, f"the last timestamp is {shown(answer['last'])}, expected {wanted.last}")
    changed = by_id(list(wanted.accounts)) if result == wanted.result else {}
    text = accounts_difference(accounts, changed)
    return Verdict("accounts", number, text) if text else None


def verdict_of_result(result, number, wanted, accounts, book):
    """Returns the verdict on an answer whose result isn't the expected one."""
    expected = " or ".join(wanted.results())
    if result == "applied":
        known = {it: book.get(it, dict.fromkeys(SUMS, "0")) for it in accounts}
        text = accounts_difference(accounts, known)
        text = f": {text}" if text else ""
        return Verdict("applied it", number, f"expected {expected}, your consumer applied it{text}")
    if result == "duplicate":
        return Verdict("missed it", number, f"expected {expected}, your consumer took it for a duplicate")
    return Verdict("result", number, f"expected {expected}, your consumer answered {shown(result)}")


def book_of(text):
    """Returns the accounts that a command has printed, by their ids: JSON objects, one in a line or all in a list, or
    lines with an id and four balances. Raises ValueError at any other line."""
    try:
        whole = json.loads(text, parse_float=str)
    except (ValueError, RecursionError):
        whole = None
    if isinstance(whole, list):
        rows = whole
    else:
        rows = [row_of(it) for it in text.splitlines() if it.strip()]
    book = by_id([it for it in rows if it is not None])
    if book is None:
        raise ValueError("an object without an id")
    return book


def row_of(line):
    """Returns the account of a line, or None if the line is a JSON object of another kind."""
    line = line.strip()
    if line.startswith("{"):
        row = json.loads(line, parse_float=str)
        return None if row.get("kind", "account") != "account" else row
    fields = SEPARATED.split(line)
    fields = fields[1:] if fields[0] == "account" else fields
    if len(fields) != 1 + len(SUMS):
        raise ValueError(shown(line))
    return dict(zip(("id", *SUMS), fields))


def verdict_of_book(text, wanted):
    """Compares a printed book with the expected balances. Returns a verdict or None."""
    try:
        found = book_of(text)
    except (ValueError, RecursionError) as why:
        return Verdict("no book", None, f"--book printed a line that isn't an account: {why}")
    difference_found = accounts_difference(found, wanted)
    return Verdict("book", None, f"the book is wrong: {difference_found}") if difference_found else None
