"""A Chromium without a window, by the protocol of WebDriver (W3C). It needs the commands chromium and chromedriver."""
import base64
import json
import os
import re
import shutil
import subprocess
import tempfile
import urllib.error
import urllib.request

COMMANDS = ("chromium", "chromedriver")
STARTED = re.compile(r"started successfully on port (\d+)")
SECONDS = 120  # that an answer may take, a last guard
ELEMENT = "element-6066-11e4-a52e-4f735466cecf"
KEYS = {"left": "\ue012", "right": "\ue014", "home": "\ue011", "end": "\ue010", "space": " "}


class Failed(Exception):
    """What the browser answered in place of a value."""


class Browser:
    """A browser with one window of this size. `is_dark`: the colours that the user prefers are dark."""

    def __init__(self, width=1200, height=900, is_dark=False):
        # (a profile of its own, since root's may be missing)
        self.home = tempfile.mkdtemp(prefix="relayplum-browser-")
        self.driver = subprocess.Popen(
            ["chromedriver", "--port=0"], stdout=subprocess.PIPE, stderr=subprocess.DEVNULL, text=True,
            env={**os.environ, "HOME": self.home})
        for line in self.driver.stdout:
            started = STARTED.search(line)
            if started:
                break
        else:
            raise Failed("chromedriver ended")
        self.root = f"http://127.0.0.1:{started[1]}"
        arguments = ["--headless=new", "--no-sandbox", "--disable-gpu", "--disable-dev-shm-usage", "--hide-scrollbars",
                     f"--window-size={width},{height}", f"--user-data-dir={self.home}/profile"]
        if is_dark:
            arguments.append("--blink-settings=preferredColorScheme=0")
        options = {"args": arguments, "binary": shutil.which("chromium")}
        wanted = {"browserName": "chrome", "goog:chromeOptions": options, "goog:loggingPrefs": {"browser": "ALL", "performance": "ALL"}}
        answer = self.ask("POST", "/session", {"capabilities": {"alwaysMatch": wanted}})
        self.root += f"/session/{answer['sessionId']}"
        # (the page that a new window has makes requests of its own)
        self.ask("POST", "/url", {"url": "about:blank"})
        self.requests()

    def __enter__(self):
        return self

    def __exit__(self, *_):
        try:
            self.ask("DELETE", "", None)
        finally:
            self.driver.terminate()
            self.driver.wait()
            self.driver.stdout.close()
            shutil.rmtree(self.home, ignore_errors=True)

    def ask(self, method, path, body):
        request = urllib.request.Request(
            self.root + path, None if body is None else json.dumps(body).encode(), {"Content-Type": "application/json"}, method=method)
        try:
            with urllib.request.urlopen(request, timeout=SECONDS) as it:
                return json.load(it)["value"]
        except urllib.error.HTTPError as error:
            raise Failed(error.read().decode()) from None

    def go(self, path):
        """Opens a file, and waits until it is loaded."""
        self.ask("POST", "/url", {"url": f"file://{path}"})

    def run(self, script, *arguments):
        """Runs a script, and returns what it returns."""
        return self.ask("POST", "/execute/sync", {"script": script, "args": list(arguments)})

    def press(self, *names):
        """Presses keys by name, one after the other."""
        actions = [{"type": kind, "value": KEYS[name]} for name in names for kind in ("keyDown", "keyUp")]
        self.ask("POST", "/actions", {"actions": [{"type": "key", "id": "keys", "actions": actions}]})

    def click(self, selector):
        """Clicks the first element that the selector finds."""
        found = self.ask("POST", "/element", {"using": "css selector", "value": selector})
        self.ask("POST", f"/element/{found[ELEMENT]}/click", {})

    def screenshot(self, path):
        with open(path, "wb") as file:
            file.write(base64.b64decode(self.ask("GET", "/screenshot", None)))

    def console(self):
        """Returns what the console has got since the last call."""
        return [it["message"] for it in self.ask("POST", "/se/log", {"type": "browser"})]

    def requests(self):
        """Returns the addresses that were requested since the last call, those of files that were opened among them."""
        events = (json.loads(it["message"])["message"] for it in self.ask("POST", "/se/log", {"type": "performance"}))
        return [it["params"]["request"]["url"] for it in events if it["method"] == "Network.requestWillBeSent"]
