#!/usr/bin/env python3
"""The units of systemd and the Debian package: they are valid, and what they start works.

  tests/checks/packaging.py [PROGRAM]    PROGRAM: crates/cdc_app/out/cdc_app

- `systemd-analyze verify` has nothing to report on any unit of contrib/systemd, and `man --warnings` nothing on the man page.
- The commands of the units, run by a shell with the folders that systemd would make: `follow` over a FIFO, through two
  connectors, and `audit` of yesterday's file and of one that is wrong.
- `tools/deb` writes a package that has each file in its place and depends on the C library that the program needs. dpkg
  installs and removes it in a folder; the installed program and try-consumer run. lintian reports no error.

Without systemd-analyze, man, dpkg-deb or lintian, what needs them is left out, which the line before the last reports. The last line
is `packaging: N passed, M failed`; the status is 1 if one failed.
"""
import datetime
import json
import os
import pathlib
import re
import shutil
import subprocess
import sys

sys.dont_write_bytecode = True
HERE = os.path.dirname(os.path.realpath(__file__))
sys.path[:0] = [os.path.join(HERE, "..", "common"), os.path.join(HERE, "..", "..", "tools")]
import checked
import ending
import needs
import rooms
from build import install

UNITS = rooms.TOP / "contrib/systemd"
WANTED_UNITS = ["relayplum-audit@.service", "relayplum-audit@.timer", "relayplum-consume@.service", "relayplum-follow@.service"]
SPOOL = "/var/spool/relayplum"
OLD_BOOK = "account 1 0 5 0 0\naccount 2 0 0 0 5\n"
NEW_BOOK = "account 1 0 10 0 0\naccount 2 0 0 0 10\n"
# What an installed package has besides what `--install` installs.
DOCUMENTS = ["usr/share/doc/relayplum/changelog.gz", "usr/share/doc/relayplum/copyright"]


def account(number, **sums):
    balances = dict.fromkeys(("debits_pending", "debits_posted", "credits_pending", "credits_posted"), "0")
    data = {"user_data_128": "0", "user_data_64": "0", "user_data_32": 0}
    return {"id": str(number), **balances, **sums, **data, "code": 10, "flags": 0, "timestamp": str(999 + number)}


def event(number):
    """Returns the event of this number, from 1, by which account 2 has 5 more."""
    data = {"user_data_128": "0", "user_data_64": "0", "user_data_32": 0}
    at, total = str(1000 + 1000 * number), str(5 * number)
    transfer = {"id": str(number), "amount": "5", "pending_id": "0", **data, "timeout": 0, "code": 1, "flags": 0, "timestamp": at}
    return {"timestamp": at, "type": "single_phase", "ledger": 700, "transfer": transfer,
            "debit_account": account(1, debits_posted=total), "credit_account": account(2, credits_posted=total)}


def line_of(value):
    return json.dumps(value, separators=(",", ":")) + "\n"


def chained(number):
    return line_of({"previous": str(1000 * number) if number > 1 else "0", "body": event(number)})


class Packaging(checked.Checks):
    """Units and packages of the program, in a folder."""

    def __init__(self, program, room):
        super().__init__(program, room)
        self.room = pathlib.Path(room)
        self.left_out = {}  # what is left out, by what is missing for it
        (self.room / "bin").mkdir()
        (self.room / "bin/relayplum").symlink_to(program)

    def has(self, command, what):
        """Returns whether there is a command. Otherwise notes what is left out."""
        if shutil.which(command):
            return True
        self.left_out[needs.no_command(command)] = what
        return False

    def call(self, *command, **how):
        """Runs a command, and returns its status and what it prints."""
        done = subprocess.run([str(it) for it in command], cwd=self.room, stdin=subprocess.DEVNULL, stdout=subprocess.PIPE,
                              stderr=subprocess.STDOUT, timeout=checked.SECONDS, **how)
        return done.returncode, done.stdout.decode(errors="replace")

    def start(self, unit, name, key="ExecStart", **more):
        """Starts what a line of a unit does, for the instance of this name."""
        text = (UNITS / unit).read_text(encoding="utf-8")
        command = re.search(rf"(?m)^{key}=/bin/sh -c '(.*)'$", text)[1]
        options = dict(it.split("=", 1) for it in re.findall(r"[A-Z]+=[^\s=]*", re.search(r"(?m)^Environment=(.*)$", text)[1]))
        command = command.replace("$$", "$").replace("%i", name).replace("%%", "%").replace(SPOOL, str(self.room / "spool"))
        path = f"{self.room}/bin:{os.environ['PATH']}"
        environment = {**options, "PATH": path, "RUNTIME_DIRECTORY": str(self.room / "run"), **more}
        return subprocess.Popen(["/bin/sh", "-c", command], cwd=self.room / "state", env=environment, stdin=subprocess.DEVNULL,
                                stdout=subprocess.PIPE, stderr=subprocess.PIPE)

    def ended(self, *started, **how):
        """Starts what a line of a unit does, and returns its status and what it prints."""
        with self.start(*started, **how) as process:
            printed, errors = process.communicate(timeout=checked.SECONDS)
        return process.returncode, printed.decode() + errors.decode()


def units(checks):
    """systemd has nothing to report on any unit."""
    checks.same("the units", WANTED_UNITS, sorted(it.name for it in UNITS.iterdir()))
    if checks.has("systemd-analyze", "whether the units are valid"):
        for it in sorted(UNITS.iterdir()):
            checks.same(f"{it.name}: systemd-analyze verify", (0, ""), checks.call("systemd-analyze", "verify", "--man=no", it))


def man_page(checks):
    """man formats the page, and warns of nothing."""
    if checks.has("man", "what man warns of"):
        command = ["man", "--warnings", "--local-file", rooms.TOP / "docs/relayplum.1"]
        done = subprocess.run(command, stdin=subprocess.DEVNULL, capture_output=True, timeout=checked.SECONDS,
                              env={**os.environ, "LC_ALL": "C.UTF-8", "MANWIDTH": "100"})
        checks.same("man --warnings", (0, b""), (done.returncode, done.stderr))
        checks.same("man: the page", True, b"relayplum follow" in done.stdout)


def following(checks):
    """`follow` over a FIFO: a connector, another one that sends the event of the first one again, and a gap."""
    for it in ("run", "state"):
        (checks.room / it).mkdir()
    unit, fifo = "relayplum-follow@.service", checks.room / "run/orders.fifo"
    for _ in range(2):
        checks.same("the FIFO is made, and stays", (0, ""), checks.ended(unit, "orders", key="ExecStartPre"))
    checks.same("it is a FIFO", True, fifo.is_fifo())
    for what, sent, status, book in [
        ("a connector", [1], 0, OLD_BOOK),
        ("the next one", [1, 2], 0, NEW_BOOK),
        ("a gap", [4], 3, NEW_BOOK),
    ]:
        with checks.start(unit, "orders") as process:
            with open(fifo, "w", encoding="utf-8") as stream:
                stream.writelines(chained(it) for it in sent)
            printed = process.communicate(timeout=checked.SECONDS)[0].decode()
        found = "".join(it for it in printed.splitlines(keepends=True) if it.startswith("account"))
        checks.same(f"follow over a FIFO: {what}", (status, book), (process.returncode, found))
    checks.same("the book is kept", True, (checks.room / "state/orders.book").is_file())


def auditing(checks):
    """`audit` of yesterday's file, of another day's after it, of one that is wrong, and of one that is missing."""
    (checks.room / "spool").mkdir()
    unit, today = "relayplum-audit@.service", datetime.date.today()
    days = [(today - datetime.timedelta(days=it)).isoformat() for it in range(4)]
    names = [checks.room / f"spool/orders-{it}.jsonl" for it in days]
    names[1].write_text(line_of(event(1)) + line_of(event(1)), encoding="utf-8")
    names[0].write_text(line_of(event(2)), encoding="utf-8")
    names[2].write_text(line_of(event(5)), encoding="utf-8")
    for what, more, status in [
        ("yesterday's file", {}, 0),
        ("the next day's", {"DAY": "today"}, 0),
        ("a day with a loss before it", {"DAY": days[2]}, 3),
        ("a day without a file", {"DAY": days[3]}, 1),
    ]:
        checks.same(f"audit of {what}", status, checks.ended(unit, "orders", **more)[0])
    checks.same("the state is kept", True, (checks.room / "state/orders.audit").is_file())


def package(checks):
    """The package: its files, and that it is installed, runs and is removed."""
    if not checks.has("dpkg-deb", "the Debian package"):
        return
    status, path = checks.call(rooms.TOP / "tools/deb", "--program", checks.program, checks.room)
    path = path.strip()
    checks.same("tools/deb", (0, True), (status, path.startswith(f"{checks.room}/relayplum_") and path.endswith("_amd64.deb")))
    first = pathlib.Path(path).read_bytes()
    checks.call(rooms.TOP / "tools/deb", "--program", checks.program, checks.room)
    checks.same("tools/deb: the same package each time", True, first == pathlib.Path(path).read_bytes())
    fields = checks.call("dpkg-deb", "-f", path)[1]
    checks.same("the C library that it needs", True, bool(re.search(r"(?m)^Depends: libc6 \(>= 2\.\d+\)$", fields)))
    root = checks.room / "root"
    checks.call("dpkg-deb", "-x", path, root)
    found = sorted(str(it.relative_to(root)) for it in root.rglob("*") if it.is_file())
    checks.same("the files", wanted_files(), found)
    checks.same("the modes", [], [it for it in found if os.stat(root / it).st_mode & 0o777 != mode_of(it)])
    program = root / "usr/bin/relayplum"
    checks.same("it runs", checks.call(checks.program, "--version"), checks.call(program, "--version"))
    consumer = rooms.TOP / "examples/consumers/remembering.py"
    found = checks.call(sys.executable, root / "usr/bin/try-consumer", "--seeds", 1, "--", sys.executable, consumer, "book")
    checks.same("its try-consumer runs", (0, "try-consumer: 1 passed, 0 failed\n"), found)
    installed(checks, path)
    if checks.has("lintian", "what lintian reports"):
        printed = checks.call("lintian", "--fail-on", "error", path, env={**os.environ, "LC_ALL": "C"})
        checks.same("lintian: errors", (0, []), (printed[0], re.findall(r"(?m)^E: .*$", printed[1])))
    for what, given, status in [("another program", ["--program", "/bin/cat"], 1), ("no folder", [checks.room / "none"], 2)]:
        checks.same(f"tools/deb: {what}", status, checks.call(rooms.TOP / "tools/deb", *given)[0])


def wanted_files():
    """Returns the files of the package: those of `--install`, with the man page and zsh's completions as Debian has them."""

    class Program:
        top, path = str(rooms.TOP), "relayplum"

    places = [f"usr/{it}" for it in install.files_of(Program).values()]
    zsh, page = "usr/share/zsh/site-functions/_relayplum", "usr/share/man/man1/relayplum.1"
    other = {zsh: "usr/share/zsh/vendor-completions/_relayplum", page: f"{page}.gz"}
    return sorted([*(other.get(it, it) for it in places), *DOCUMENTS])


def mode_of(path):
    return 0o755 if path.startswith("usr/bin/") else 0o644


def installed(checks, path):
    """dpkg installs and removes it in a folder, as root."""
    if os.geteuid():
        checks.left_out["this isn't root"] = "whether dpkg installs and removes the package"
        return
    root = checks.room / "system"
    for it in ("var/lib/dpkg/info", "var/lib/dpkg/updates"):
        (root / it).mkdir(parents=True)
    for it in ("status", "available"):
        (root / "var/lib/dpkg" / it).touch()
    status, _ = checks.call("dpkg", f"--root={root}", "--force-depends", "--install", path)
    checks.same("dpkg installs it", (0, True), (status, (root / "usr/bin/relayplum").is_file()))
    status, _ = checks.call("dpkg", f"--root={root}", "--remove", "relayplum")
    left = [it for it in root.rglob("*") if it.is_file() and "var/lib/dpkg" not in str(it)]
    checks.same("dpkg removes it", (0, []), (status, left))


def main(arguments):
    program = rooms.options_of(rooms.parser_of_first(__doc__), arguments).program
    with rooms.room("packaging-") as room:
        checks = Packaging(program, room)
        for part in (units, man_page, following, auditing, package):
            part(checks)
    if checks.left_out:
        print(f"packaging: left out: {'; '.join(f'{what}: {why}' for why, what in checks.left_out.items())}")
    print(f"packaging: {checks.passed} passed, {checks.failed} failed")
    return 1 if checks.failed else 0


if __name__ == "__main__":
    ending.run(main)
