#!/usr/bin/env python3
"""Each event of a long script has its message, its place in each queue, and its effect, as text and as JSON.

  tests/checks/messages.py [PROGRAM]    PROGRAM: crates/cdc_app/out/cdc_app

The script has more than a hundred events of all five kinds, on three ledgers, over some seconds, and eight subscribers with
bindings of their own. `messages` and each queue are compared with the model (tests/common/model.py) line by line; so are
`books`, `run` and `simulate`, whose objects are first written as text (json_text.py). Then scripts with items that
aren't accepted and batches that are refused: standard error has how many, as text and as JSON.

The last line is `messages: N passed, M failed`; the status is 1 if one failed.
"""
import json
import os
import sys

sys.dont_write_bytecode = True
sys.path.insert(0, os.path.join(os.path.dirname(os.path.realpath(__file__)), "..", "common"))
import checked
import ending
import json_text
import model

LEDGERS, ROUNDS = (700, 701, 702), 30
BINDINGS = (
    "all",
    "any",
    "any event_type=two_phase_expired event_type=two_phase_voided",
    "all ledger=701",
    "any ledger=700 transfer_code=3",
    "all transfer_code=2 event_type=single_phase",
    "any debit_account_code=11 credit_account_code=12",
    "all ledger=702 event_type=two_phase_posted",
)
FORMS = ([], ["--json"])


def script_of():
    """The script. In each round there are five transfers: a single-phase one, and three pending ones, of which one is posted in
    the next round, one voided and one left to expire; all of a round on one ledger."""
    lines = [f"subscriber {it}" for it in BINDINGS] + ["accounts 1000"]
    for ledger in LEDGERS:
        lines += [f"account id={10 * ledger + it} ledger={ledger} code={10 + it}" for it in range(4)]
    for number in range(ROUNDS):
        ledger, first = LEDGERS[number % 3], 10 * number + 1
        pair = lambda it: f"debit_account_id={10 * ledger + it % 4} credit_account_id={10 * ledger + (it + 1 + number % 3) % 4}"
        fields = f"ledger={ledger} code={1 + number % 4}"
        lines.append(f"transfers {700_000_000 * (number + 1)}")
        lines.append(f"transfer id={first} {pair(number)} amount={number + 1} {fields}")
        lines += [f"transfer id={first + it} {pair(number + it)} amount={50 + number} {fields} flags=2" for it in (1, 2)]
        lines.append(f"transfer id={first + 3} {pair(number + 3)} amount=7 {fields} flags=2 timeout={1 + number % 2}")
        if number >= 3:
            lines.append(f"transfer id={first + 4} pending_id={first - 29} amount={number} flags=4")
            lines.append(f"transfer id={first + 5} pending_id={first - 28} flags=8")
        if number % 4 == 3:
            lines.append(f"pulse {700_000_000 * (number + 1) + 900}")
    return "\n".join(lines) + "\n"


def bytes_of(lines):
    return "".join(json.dumps(it, separators=(",", ":")) + "\n" for it in lines).encode()


def messages_of(script, events):
    """The objects of `messages`."""
    last, lines = {}, []
    for event in events:
        queues = []
        for queue, binding in enumerate(script.bindings, 1):
            if binding.matches(event):
                queues.append({"queue": queue, "previous": str(last.get(queue, 0))})
                last[queue] = event.timestamp
        lines.append({"kind": "message", "headers": model.headers(event), **seconds(event), "queues": queues, **body(event)})
    return lines


def queue_of(binding, events):
    """The objects of one queue, and its end."""
    last, lines = 0, []
    for event in events:
        if binding.matches(event):
            lines.append({"kind": "message", "previous": str(last), "headers": model.headers(event), **seconds(event), **body(event)})
            last = event.timestamp
    return [*lines, {"kind": "end", "previous": str(last), "end": True}]


def seconds(event):
    return {"timestamp": event.timestamp // model.SECOND}


def body(event):
    return {"body": json.loads(model.body(event))}


class Messages(checked.Checks):
    """The runs, and how they ended."""

    def run(self, arguments, script, steps=None):
        """A run over a script: its status, what it printed, and standard error."""
        for name, text in (("script", script), ("steps", steps)):
            with open(f"{self.room}/{name}", "w", encoding="ascii") as file:
                file.write(text or "")
        return super().run(arguments)

    def as_text(self, printed):
        """The text that printed objects stand for; if they are none, what is wrong with them."""
        try:
            return json_text.rendered(printed)
        except (ValueError, KeyError, TypeError) as error:
            return f"{type(error).__name__}: {error}"

    # -- a long script

    def long(self):
        text = script_of()
        script = model.read_script(text.encode())
        ledger, batches = model.run_batches(script)
        events = ledger.events
        counts = {kind: sum(it.kind == kind for it in events) for kind in model.EVENT_TYPES}
        self.same("it has many events of each kind", [], [it for it, count in counts.items() if count < 10])
        refused = [it for batch, results in batches if batch.kind != "pulse" for it in results if it]
        self.same("each item is accepted", [], refused)
        self.messages(text, script, events)
        for command, report in (("books", model.books(text.encode())), ("run", model.run(text.encode()))):
            self.report([command, "script"], text, report)
        steps = "batch\n" * len(batches) + "close_ledger\nstart\npublish\narrive 1\n" + "poll\npublish\narrive 2\nanswer 2\n"
        steps += "".join(f"send {it}\ntake {it}\n" for it in (1, 5))
        self.report(["simulate", "script", "steps"], text, model.simulate(text.encode(), steps.encode()), steps)

    def messages(self, text, script, events):
        found = self.run(["messages", "script"], text)
        self.same("messages", (0, model.messages(text.encode()).text.encode(), ""), found)
        wanted = messages_of(script, events)
        status, printed, errors = self.run(["messages", "--json", "script"], text)
        lines = printed.splitlines(True)
        self.same("messages --json: how many lines", len(events), len(lines))
        for number, (line, of_event) in enumerate(zip(lines, wanted), 1):
            if line != bytes_of([of_event]):
                self.same(f"messages --json: line {number}", bytes_of([of_event]), line)
        self.same("messages --json", (0, bytes_of(wanted), ""), (status, printed, errors))
        for queue, binding in enumerate(script.bindings, 1):
            for form in FORMS:
                found = self.run(["messages", *form, "--queue", str(queue), "script"], text)
                self.same(f"messages --queue {queue} {form}", (0, bytes_of(queue_of(binding, events)), ""), found)

    def report(self, arguments, text, report, steps=None):
        """A command's text is the model's, and so is what its objects stand for."""
        wanted = (report.status, report.text.encode())
        self.same(f"{arguments[0]}", wanted, self.run(arguments, text, steps)[:2])
        status, printed, _ = self.run([*arguments, "--json"], text, steps)
        self.same(f"{arguments[0]} --json", wanted, (status, self.as_text(printed)))

    # -- what isn't accepted

    def tally(self):
        """Batches that are refused have two items and the greatest timestamp; an item that isn't accepted has no account. A
        simulation ends at a batch that is refused."""
        opened = "accounts 1000\n" + "".join(f"account id={it} ledger=700 code=10\n" for it in (1, 2))
        transfer = "transfer id={} debit_account_id={} credit_account_id=2 amount=1 ledger=700 code=1\n".format
        accepted = f"transfers 2000\n{transfer(1, 1)}"
        refused = f"transfers {2**63 - 1}\n{transfer(11, 1)}{transfer(12, 1)}"
        unknown = f"transfers 3000\n{transfer(21, 3)}{transfer(22, 3)}{transfer(23, 3)}"
        for batches, items, whole in [
            ([accepted], 0, 0),
            ([unknown], 3, 0),
            ([accepted, unknown, unknown.replace("3000", "4000")], 6, 0),
            ([refused], 0, 1),
            ([refused, refused], 0, 2),
            ([accepted, unknown, refused], 3, 1),
        ]:
            text, steps = f"subscriber all\n{opened}" + "".join(batches), "batch\n" * (len(batches) + 1)
            counts = f"requests not accepted: {items}, batches refused: {whole}"
            wanted = f"relayplum: {counts}; --explain prints why\n" if items or whole else ""
            for form in FORMS:
                for arguments in (["books", "script"], ["run", "script"], *[["simulate", "script", "steps"]][whole:]):
                    status, _, errors = self.run([*arguments, *form], text, steps)
                    self.same(f"{arguments[0]} {form}: {counts}", (0, wanted), (status, errors))
                if not whole:
                    arguments = ["simulate", "script", "--random", "1", "--steps", "100", "--faults", "0"]
                    lines = self.run([*arguments, *form], text)[2].splitlines(True)
                    found = [it for it in lines if "not accepted" in it]
                    self.same(f"simulate --random {form}: {counts}", [f"# {wanted}"] if wanted else [], found)


def main(arguments):
    return checked.main(arguments, __doc__, Messages, [Messages.long, Messages.tally])


if __name__ == "__main__":
    ending.run(main)
