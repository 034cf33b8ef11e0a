#!/usr/bin/env python3
"""The pages and drawings that `simulate --page` and `--svg` write: their data beside the model, and what a browser shows of them.

  tests/checks/drawing.py [PROGRAM] [--keep FOLDER]    PROGRAM: crates/cdc_app/out/cdc_app; FOLDER gets the screenshots

The data of a page is JSON. For step files of the examples and random steps it has to be what the model's world gives: each step
with its answer, what it moved, and the events that the ledger logged, with their bodies and the queues that take them. The trace
in it is that of `--trace`, and the page changes nothing else that is printed. No name of a script leaves its string.

A drawing is XML with a row for each step, whose shape and place follow from the step and the model's answer. It has at most 30 kB
for the step files of the examples.

A Chromium without a window then opens pages: at chosen steps the lanes, the state and the sentence have to be the model's; keys, the
slider, the play button, a message and an account are tried, dark colours, 320 pixels, and 20,000 steps. The console stays empty,
and nothing is requested besides the page. If chromium or chromedriver is missing, this part is left out.

The last line is `drawing: N passed, M failed`; the status is 1 if one failed.
"""
import json
import os
import subprocess
import sys
import time
import xml.etree.ElementTree

sys.dont_write_bytecode = True
sys.path.insert(0, os.path.join(os.path.dirname(os.path.realpath(__file__)), "..", "common"))
import browser
import ending
import model
import needs
import rooms

SECONDS = 300  # that a run may take, a last guard
EXAMPLES = rooms.TOP / "examples"
BEGIN = '<script type="application/json" id="data">'
END = "</script>"
SEEDS = range(1, 13)
MANY = 20_000
MOST_OF_SVG = 30_000  # bytes of the drawing of an example
SVG = "{http://www.w3.org/2000/svg}"
# What a name of a file may do to a page.
WILD = 'a"<\\\'&</script><!--\u2028\u2029\u00e9 .script'
# The names that the data has for what the model answers.
ARRIVED = {"connected": "taken", "accepted": "taken"}
TOOK = {"applied": "applied", "repeat": "duplicate", "repeat after the end": "duplicate", "ended": "ended", "after close": "closed"}


class Checks:
    def __init__(self):
        self.passed = self.failed = 0

    def same(self, what, wanted, found):
        if wanted == found:
            self.passed += 1
            return
        self.failed += 1
        print(f"failed: {what}\n  wanted: {rooms.shortened(wanted)}\n  found:  {rooms.shortened(found)}")

    def true(self, what, holds):
        self.same(what, True, bool(holds))


def ran(program, *arguments, folder=None):
    command = [program, *map(str, arguments)]
    return subprocess.run(command, cwd=folder, stdin=subprocess.DEVNULL, capture_output=True, timeout=SECONDS, check=False)


def decoded(text):
    """A string of the data, whose characters are bytes."""
    return text.encode("latin-1").decode()


def text_of(path):
    return path.read_bytes().decode()


def data_of(page):
    """The data of a page, by how a browser finds it: up to the first end of a script."""
    return json.loads(page.partition(BEGIN)[2].partition(END)[0])


# ---------------------------------------------------------------- the model's data


def item_of(item):
    return "end" if item is model.END_MARK else str(item.timestamp)


def packet_of(packet):
    if isinstance(packet, model.Connect):
        return {"connect": str(packet.session)}
    return {"session": str(packet.session), "tag": str(packet.tag), "item": item_of(packet.item)}


def logged_of(world, before):
    """The events that a step logged: which queues take each, and its body."""
    events = world.ledger.events[before:]
    return [None, *({"queues": "".join("01"[it.matches(event)] for it in world.broker.bindings),
                     "body": json.loads(model.body(event))} for event in events)]


class Expected:
    """What the data has for each step that a world takes."""

    def __init__(self, world):
        self.world = world

    def before(self, step):
        """What a step takes away."""
        world = self.world
        flight = list(world.seats[step.numbers[0] - 1].flight) if step.word in ("break", "take") else []
        return {"session": world.session, "flight": flight, "connection": world.broker.connection, "tag": world.broker.expected}

    def nothing(self, *_):
        return "done", None

    def batch(self, *_):
        return "submitted", None

    def start(self, *_):
        session = self.world.session
        return "done", {"move": "session_started", "session": str(session.number), "after": str(session.base)}

    start_at = start

    def crash(self, _answer, old):
        return "done", {"move": "session_lost", "session": str(old["session"].number)}

    def poll(self, *_):
        session = self.world.session
        unsent = session.offered[session.sent:]
        return "done", {
            "move": "events_offered", "count": str(len(unsent)), "last": str(session.after()),
            "first": str(unsent[0].timestamp) if unsent else None, "complete": session.complete}

    def publish(self, *_):
        packets = self.world.packets
        return "done", {"move": "packet_sent", "number": str(len(packets)), "packet": packet_of(packets[-1])}

    def arrive(self, answer, old, number):
        packet = packet_of(self.world.packets[number - 1])
        if answer in ARRIVED:
            return "taken", {"move": "packet_taken", "packet": packet}
        return "ignored", {"move": "packet_ignored", "connection": str(old["connection"]), "packet": packet,
                           "next_tag": str(old["tag"]) if old["connection"] else None}

    def answer(self, answer, _old, number):
        confirm = self.world.confirms[number - 1]
        return "counted" if answer == "counted" else "not_counted", {
            "move": "confirm_received", "session": str(confirm.session), "tag": str(confirm.tag),
            "running": str(self.world.session.number)}

    def save(self, *_):
        session = self.world.session
        return "done", {"move": "progress_saved", "session": str(session.number), "timestamp": str(session.timestamp())}

    def send(self, _answer, _old, number):
        position = self.world.seats[number - 1].flight[-1][0]
        return "done", {"move": "delivery_sent", "position": str(position), "item": self.item_at(number, position)}

    def rewind(self, _answer, _old, number):
        return "done", {"move": "queue_rewound", "acked": str(self.world.broker.acked[number - 1])}

    def break_(self, _answer, old, number):
        return "done", {"move": "flight_lost", "count": str(len(old["flight"])), "acked": str(self.world.broker.acked[number - 1])}

    def take(self, answer, old, number):
        position = old["flight"][0][0]
        return TOOK[answer], {"move": "delivery_taken", "position": str(position), "item": self.item_at(number, position)}

    def ack(self, _answer, _old, number, _which):
        return "counted", {"move": "acknowledged", "acked": str(self.world.broker.acked[number - 1])}

    def item_at(self, number, position):
        return item_of(self.world.broker.queue(number - 1)[position - 1])


# (`break` is a word of Python)
OWN = {"break": "break_"}


def expected_by(world, steps):
    """What the data has for these steps, up to the first that is refused, and the world after each."""
    expected, out = Expected(world), [None]
    for step in steps:
        try:
            out.append(one_expected(expected, step))
        except model.StepRefused:
            break
    return out


def one_expected(expected, step):
    world, before, old = expected.world, len(expected.world.ledger.events), expected.before(step)
    answer = world.take(step)
    word = step.word.replace(" ", "_")
    did, moved = getattr(expected, OWN.get(word, word), expected.nothing)(answer, old, *step.numbers)
    return {"step": [word, *map(str, step.numbers)], "did": did, "moved": moved, "logged": logged_of(world, before)}


# ---------------------------------------------------------------- the page's text


def compare(checks, what, page, script, steps, window):
    """Compares the data of a page with the model's, and returns the page's text."""
    text = text_of(page)
    data = data_of(text)
    read = model.read_script(script)
    wanted = expected_by(model.World(read.bindings, read.batches, window), model.read_steps(steps))
    checks.same(f"{what}: how many steps", len(wanted), len(data["steps"]))
    for number, (one, other) in enumerate(zip(wanted, data["steps"])):
        if one != other:
            checks.same(f"{what}: step {number}", one, other)
            break
    else:
        checks.passed += 1
    checks.same(f"{what}: window", str(window), data["window"])
    checks.true(f"{what}: ASCII", text.isascii())
    return text


def check_files(checks, program, room):
    for script, steps, window in (("two-phase", "two-phase", 1), ("marketplace", "marketplace", 1), ("two-phase", "faults", 1),
                                  ("two-phase", "faults", 4)):
        what, page = f"{script} by {steps}, window {window}", room / "page.html"
        files = [EXAMPLES / f"{script}.script", EXAMPLES / f"{steps}.steps", "--window", window]
        plain, traced = ran(program, "simulate", *files), ran(program, "simulate", *files, "--trace")
        drawn = ran(program, "simulate", *files, "--page", page)
        checks.same(f"{what}: what is printed", (plain.returncode, plain.stdout, plain.stderr),
                    (drawn.returncode, drawn.stdout, drawn.stderr))
        text = compare(checks, what, page, files[0].read_bytes(), files[1].read_bytes(), window)
        data = data_of(text)
        checks.true(f"{what}: the trace", decoded(data["trace"]) and traced.stderr.decode().startswith(decoded(data["trace"])))
        checks.same(f"{what}: a line for each step", len(data["steps"]), len(data["trace"].split("\n")))


def shape_of(expected):
    """The shape of a step in a drawing: a mark at a place, or an arrow of a class between two."""
    word, *numbers = expected["step"]
    queue, middle, seat = (180 * int(numbers[0]) + it for it in (135, 180, 225)) if numbers else (0, 0, 0)
    came = "in" if expected["did"] in ("taken", "counted", "applied", "ended") else "no"
    return {
        "batch": ("batch", 45), "close_ledger": ("close", 45), "start": ("start", 135), "start_at": ("start", 135),
        "crash": ("crash", 135), "save": ("save", 135), "poll": ("whole", 45, 135), "publish": ("out", 135, 180),
        "arrive": (came, 180, 225), "answer": (came, 180, 135), "send": ("out", queue, middle), "take": (came, middle, seat),
        "ack": ("ack", seat, queue), "rewind": ("rewind", queue), "break": ("lost", middle), "close": ("close", seat),
    }[word]


def shown_shape(row):
    """The same of a row of a drawing."""
    use, path = row.find(f"{SVG}use"), row.find(f"{SVG}path")
    if use is not None:
        return use.get("href")[1:], int(use.get("x"))
    start, end = path.get("d")[1:].split(" 0H") if " 0H" in path.get("d") else path.get("d")[1:].split("0H")
    return path.get("class"), int(start), int(end)


def check_drawings(checks, program, room):
    for script, steps in (("two-phase", "two-phase"), ("marketplace", "marketplace"), ("two-phase", "faults")):
        what, out = f"the drawing of {script} by {steps}", room / "drawing.svg"
        files = [EXAMPLES / f"{script}.script", EXAMPLES / f"{steps}.steps"]
        plain, drawn = ran(program, "simulate", *files), ran(program, "simulate", *files, "--svg", out)
        checks.same(f"{what}: what is printed", (plain.returncode, plain.stdout, plain.stderr),
                    (drawn.returncode, drawn.stdout, drawn.stderr))
        checks.true(f"{what}: its size", out.stat().st_size <= MOST_OF_SVG)
        read = model.read_script(files[0].read_bytes())
        wanted = expected_by(model.World(read.bindings, read.batches, 1), model.read_steps(files[1].read_bytes()))[1:]
        root = xml.etree.ElementTree.parse(out).getroot()
        rows = [it for it in root.findall(f"{SVG}g") if it.get("transform")]
        checks.same(f"{what}: its shapes", [shape_of(it) for it in wanted], [shown_shape(it) for it in rows])
        checks.same(f"{what}: its places", [f"translate(0 {72 + 22 * it})" for it in range(len(wanted))],
                    [it.get("transform") for it in rows])
        checks.same(f"{what}: its sentence", [" ".join(it["step"]).replace("_at", " at") for it in wanted],
                    [it.find(f"{SVG}text").text.partition(":")[0] for it in rows])
        checks.same(f"{what}: its view", f"-235 0 {180 * len(read.bindings) + 510} {22 * len(wanted) + 80}", root.get("viewBox"))


def check_random(checks, program, room):
    script = EXAMPLES / "marketplace.script"
    for seed in SEEDS:
        page = room / "page.html"
        it = ran(program, "simulate", script, "--random", seed, "--steps", 300, "--faults", 30, "--window", 3, "--page", page)
        compare(checks, f"seed {seed}", page, script.read_bytes(), it.stderr, 3)


def check_names(checks, program, room):
    """No byte of a name leaves its string."""
    script, page = room / WILD, room / "named.html"
    try:
        script.write_bytes((EXAMPLES / "two-phase.script").read_bytes())
    except OSError:
        script = room / WILD.replace("/", "_")
        script.write_bytes((EXAMPLES / "two-phase.script").read_bytes())
    ran(program, "simulate", script.name, EXAMPLES / "two-phase.steps", "--page", page, folder=room)
    text = text_of(page)
    checks.same("a wild name", script.name, decoded(data_of(text)["script"]))
    checks.true("a wild name: ASCII", text.isascii())
    checks.same("a wild name: nothing follows the data but the end of the page", "\n</body>\n</html>\n",
                text.partition(BEGIN)[2].partition(END)[2])
    return page


def check_refusals(checks, program, room):
    files = [EXAMPLES / "two-phase.script", EXAMPLES / "two-phase.steps"]
    other, page = room / "other", room / "again.html"
    other.write_text("something else")
    it = ran(program, "simulate", *files, "--page", other)
    checks.same("a page over something else", (2, b"", "something else"), (it.returncode, it.stdout, other.read_text()))
    checks.true("a page over something else: why", b"error: --page=" in it.stderr and b"would be lost" in it.stderr)
    ran(program, "simulate", *files, "--page", page)
    first = page.read_bytes()
    checks.same("a page over a page", 0, ran(program, "simulate", *files, "--page", page).returncode)
    checks.same("a page over a page: what it has", first, page.read_bytes())
    it = ran(program, "simulate", *files, "--page", room / "none" / "page.html")
    checks.same("a page that can't be written", (0, True), (it.returncode, b": write_fault: " in it.stderr))
    it = ran(program, "simulate", *files, "--check", "--page", page)
    checks.same("--page with --check", 2, it.returncode)
    it = ran(program, "simulate", *files, f"--diagram={page}", "--page", page)
    checks.same("a page and a diagram in one file", 2, it.returncode)
    refused = room / "refused.steps"
    refused.write_text("batch\nstart\narrive 7\n")
    it = ran(program, "simulate", files[0], refused, "--page", page)
    checks.same("a refused step", (1, True, 3), (
        it.returncode, "not enabled" in decoded(data_of(text_of(page))["refusal"]), len(data_of(text_of(page))["steps"])))


def check_source(checks, program):
    it = subprocess.run([sys.executable, rooms.TOP / "tools/page/write.py", "--check"], capture_output=True, check=False)
    checks.same("the constants are those of tools/page", (0, b""), (it.returncode, it.stderr))
    it = subprocess.run([sys.executable, rooms.TOP / "tools/layers", "--check"], capture_output=True, check=False)
    checks.same("the drawing of the crates is that of crates.txt", (0, b""), (it.returncode, it.stderr))
    it = subprocess.run([sys.executable, rooms.TOP / "tools/pictures", program, "--check"], capture_output=True, check=False)
    checks.same("the drawings in the documents", (0, b""), (it.returncode, it.stderr))


# ---------------------------------------------------------------- a browser


def state_lines(tab):
    return tab.run("return [...document.querySelectorAll('#claim li')].map(it => it.textContent)")


def claims_of(world):
    """What the page claims of each subscriber in this state."""
    start = world.progress[2] if world.progress else 0
    lines = []
    for number, (seat, binding) in enumerate(zip(world.seats, world.broker.bindings), start=1):
        wanted = [it for it in world.ledger.events if it.timestamp > start and binding.matches(it)]
        one = seat.subscriber
        lines.append(f"subscriber {number}: applied {len(one.applied)} of {len(wanted)}, a prefix"
                     + (", complete" if one.ended else "") + (", closed" if one.closed else ""))
    return lines


def queue_line(world, number):
    broker, seat = world.broker, world.seats[number - 1]
    count = len(broker.queue(number - 1))
    flight = " ".join(str(it[0]) for it in seat.flight[:12]) or "none"
    return (f"queue: {count} item{'' if count == 1 else 's'}, next position {broker.cursors[number - 1]}, acknowledged up to "
            f"{broker.acked[number - 1]}, in flight {flight}")


def check_steps(checks, tab, page, script, steps, trace):
    """Goes through all steps, and compares the sentence, the claims and the queues."""
    read = model.read_script(script)
    world = model.World(read.bindings, read.batches, 1)
    tab.go(page)
    lines = ["before the first step", *trace.splitlines()]
    names = ["ledger", "connector", "broker"]
    for number in range(1, len(world.seats) + 1):
        names += [f"queue {number}", f"subscriber {number}"]
    checks.same("the lanes", names, tab.run("return [...document.querySelectorAll('#heads span')].map(it => it.textContent)"))
    for number, step in enumerate([None, *model.read_steps(steps)]):
        if step:
            world.take(step)
            tab.press("right")
        shown = tab.run("return [document.getElementById('sentence').textContent, document.getElementById('slider').value, "
                        "document.getElementById('at').textContent]")
        checks.same(f"step {number}: sentence", [lines[number], str(number), f"step {number} of {len(lines) - 1}"], shown)
        checks.same(f"step {number}: claims", claims_of(world), state_lines(tab))
        for one in range(1, len(world.seats) + 1):
            text = tab.run("return document.querySelector(arguments[0]).textContent", f"#subscriber{one} p")
            checks.same(f"step {number}: queue {one}", queue_line(world, one), text)
    return len(lines) - 1


def comes(holds):
    """Returns whether something holds before a last guard."""
    end = time.monotonic() + SECONDS
    while not holds():
        if time.monotonic() > end:
            return False
        time.sleep(0.05)
    return True


def check_keys(checks, tab, count):
    at = "return document.getElementById('slider').value"
    tab.press("home")
    checks.same("the key Home", "0", tab.run(at))
    tab.press("end")
    checks.same("the key End", str(count), tab.run(at))
    tab.press("left")
    checks.same("the key left", str(count - 1), tab.run(at))
    tab.run("const s = document.getElementById('slider'); s.value = 3; s.dispatchEvent(new Event('input'))")
    checks.same("the slider", "step 3 of " + str(count), tab.run("return document.getElementById('at').textContent"))
    tab.press("space")
    checks.same("the key space", "Pause", tab.run("return document.getElementById('play').textContent"))
    checks.true("time runs", comes(lambda: int(tab.run(at)) > 3))
    tab.press("space")
    checks.same("the key space again", "Play", tab.run("return document.getElementById('play').textContent"))
    checks.true("the row in view", tab.run("const b = document.getElementById('drawing'), r = document.getElementById('row')"
                                           ".getBoundingClientRect(), o = b.getBoundingClientRect(); "
                                           "return r.top >= o.top && r.bottom <= o.bottom"))


def check_details(checks, tab, count):
    tab.press("end")
    opened = tab.run("const it = document.querySelector('.chip.has'); it.click(); return it.textContent.slice(2)")
    checks.same("a message's body", opened, tab.run("return JSON.parse(document.querySelector('#detail pre').textContent).timestamp"))
    checks.true("a message's path", tab.run("return document.querySelectorAll('#detail .go').length") >= 4)
    tab.run("document.querySelector('#detail .go').click()")
    checks.true("a step of the path", int(tab.run("return document.getElementById('slider').value")) < count)
    tab.run("go(count)")
    tab.run("document.querySelector('#ledger [data-account]').click()")
    checks.same("an account's plot", 2, tab.run("return document.querySelectorAll('#detail svg path').length"))


def check_quiet(checks, what, tab):
    checks.same(f"{what}: the console", [], tab.console())
    checks.same(f"{what}: requests", [], [it for it in tab.requests() if not it.startswith("file://")])


def check_browser(checks, program, room, keep):
    script, steps, page = EXAMPLES / "two-phase.script", EXAMPLES / "faults.steps", room / "faults.html"
    ran(program, "simulate", script, steps, "--page", page)
    trace = decoded(data_of(text_of(page))["trace"])
    with browser.Browser() as tab:
        count = check_steps(checks, tab, page, script.read_bytes(), steps.read_bytes(), trace)
        check_keys(checks, tab, count)
        check_details(checks, tab, count)
        checks.true("each kind of arrow", tab.run("draw(true); return ['packet counts', 'packet ignored', 'delivery lost', "
                                                  "'delivery ignored', 'confirm counts', 'ack counts'].every(it => "
                                                  "document.querySelector('.arrow.' + it.replace(' ', '.')))"))
        drawing = room / "drawing.svg"
        checks.true("each mark", tab.run("return ['save', 'crash', 'rewind', 'start', 'batch'].every(it => "
                                         "document.querySelector('.mark.' + it))"))
        tab.run("opened = null; go(36)")
        light = tab.run("return getComputedStyle(document.body).backgroundColor")
        kept(tab, keep, "page.png")
        tab.go(drawing)
        kept(tab, keep, "drawing.png")
        tab.go(room / "named.html")
        checks.same("a wild name in a browser", f"{(room / WILD.replace('/', '_')).name}, step by step",
                    tab.run("return document.title"))
        check_quiet(checks, "a page", tab)
    with browser.Browser(is_dark=True) as tab:
        tab.go(page)
        checks.true("dark colours", tab.run("return getComputedStyle(document.body).backgroundColor") != light)
        tab.run("go(36)")
        kept(tab, keep, "dark.png")
    with browser.Browser(width=500, height=800) as tab:
        tab.ask("POST", "/goog/cdp/execute", {"cmd": "Emulation.setDeviceMetricsOverride", "params": {
            "width": 320, "height": 700, "deviceScaleFactor": 1, "mobile": False}})
        tab.go(page)
        checks.true("320 pixels: nothing is cut", tab.run("return document.documentElement.scrollWidth <= 320"))
        tab.run("go(36)")
        kept(tab, keep, "narrow.png")
    check_many(checks, program, room, keep)


def check_many(checks, program, room, keep):
    page, steps = room / "many.html", room / "many.steps"
    again = ["rewind 1", "send 1", "take 1"]
    lines = (EXAMPLES / "two-phase.steps").read_text().splitlines()
    steps.write_text("\n".join(lines + again * ((MANY - len(lines)) // len(again))) + "\n")
    ran(program, "simulate", EXAMPLES / "two-phase.script", steps, "--page", page)
    count = len(data_of(text_of(page))["steps"]) - 1
    checks.true("many steps", count > MANY - 100)
    with browser.Browser() as tab:
        started = time.monotonic()
        tab.go(page)
        took = time.monotonic() - started
        print(f"drawing: {count} steps, {page.stat().st_size >> 10} KiB, opened in {took:.2f} s")
        for at in (count // 2, count):
            tab.run("go(arguments[0])", at)
            drawn = tab.run("return document.querySelectorAll('#draw g').length")
            checks.true(f"many steps: what is seen is drawn, {drawn}", 0 < drawn < 400)
        kept(tab, keep, "many.png")
        check_quiet(checks, "many steps", tab)


def kept(tab, keep, name):
    if keep:
        tab.screenshot(os.path.join(keep, name))


def main(arguments):
    parser = rooms.parser_of_first(__doc__)
    parser.add_argument("--keep", metavar="FOLDER", help="where the screenshots go; none are made by default")
    options = rooms.options_of(parser, arguments)
    checks = Checks()
    with rooms.room("relayplum-drawing-") as name:
        room = rooms.pathlib.Path(name)
        check_source(checks, options.program)
        check_files(checks, options.program, room)
        check_random(checks, options.program, room)
        check_drawings(checks, options.program, room)
        check_names(checks, options.program, room)
        check_refusals(checks, options.program, room)
        lacks = needs.missing(browser.COMMANDS, (3, 10))
        if lacks:
            print(f"drawing: left out: a browser: {'; '.join(lacks)}")
        else:
            check_browser(checks, options.program, room, options.keep)
    print(f"drawing: {checks.passed} passed, {checks.failed} failed")
    return 1 if checks.failed else 0


if __name__ == "__main__":
    ending.run(main)
