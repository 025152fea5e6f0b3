"""A headless browser for the black-box tests, driven by W3C WebDriver, as Debian's chromium-driver speaks it."""

import base64
import http.client
import json
import os
import re
import shutil
import signal
import subprocess

from support.nodes import PATIENCE

BROWSERS = "chromium", "chromium-browser", "google-chrome"
ELEMENT = "element-6066-11e4-a52e-4f735466cecf"
TAB, ENTER, ESCAPE = "\ue004", "\ue007", "\ue00c"


class Refused(AssertionError):
    """The browser refuses a command."""


class Driver:
    """The process that speaks the protocol, with a browser for each tab here. After its `with` none is left."""

    def __enter__(self):
        self.browser, self.tabs = next(filter(None, map(shutil.which, BROWSERS))), []
        how = {"stdout": subprocess.PIPE, "stderr": subprocess.DEVNULL, "text": True, "start_new_session": True}
        self.child = subprocess.Popen(["chromedriver", "--port=0"], **how)
        for line in self.child.stdout:
            started = re.search(r"started successfully on port (\d+)", line)
            if started:
                self.port = int(started[1])
                return self
        raise AssertionError("the browser's driver doesn't start")

    def __exit__(self, *_):
        for tab in self.tabs:
            tab.close()
        # (with whatever of a browser is left)
        os.killpg(self.child.pid, signal.SIGKILL)
        self.child.wait()
        self.child.stdout.close()

    def tab(self, address, width=1200, height=1000):
        """A page in a browser of its own."""
        words = ["--headless=new", "--no-sandbox", "--disable-gpu", "--disable-dev-shm-usage"]
        words.append(f"--window-size={width},{height}")
        options = {"args": words, "binary": self.browser}
        asked = {"capabilities": {"alwaysMatch": {"goog:chromeOptions": options}}}
        tab = Tab(self, self.call("POST", "/session", asked)["sessionId"])
        self.tabs.append(tab)
        tab.go(address)
        return tab

    def call(self, method, path, value=None):
        line = http.client.HTTPConnection("127.0.0.1", self.port, timeout=PATIENCE)
        try:
            line.request(method, path, None if value is None else json.dumps(value))
            answer = line.getresponse()
            said = json.loads(answer.read())["value"]
        finally:
            line.close()
        if answer.status != 200:
            raise Refused(f"{method} {path}: {said['error']}: {said['message'].splitlines()[0]}")
        return said


class Tab:
    """A page in a browser."""

    def __init__(self, driver, session):
        self.driver, self.session = driver, f"/session/{session}"

    def call(self, method, path, value=None):
        return self.driver.call(method, self.session + path, value)

    def go(self, address):
        self.call("POST", "/url", {"url": address})

    def reload(self):
        self.call("POST", "/refresh", {})

    def find(self, place):
        """The element that this selector names."""
        found = self.call("POST", "/element", {"using": "css selector", "value": place})
        return f"/element/{found[ELEMENT]}"

    def text(self, place):
        return self.call("GET", f"{self.find(place)}/text")

    def is_shown(self, place):
        return self.call("GET", f"{self.find(place)}/displayed")

    def click(self, place):
        self.call("POST", f"{self.find(place)}/click", {})

    def write(self, place, text):
        self.call("POST", f"{self.find(place)}/value", {"text": text})

    def press(self, *keys):
        """Presses keys wherever the focus is."""
        actions = [{"type": kind, "value": key} for key in keys for kind in ("keyDown", "keyUp")]
        self.call("POST", "/actions", {"actions": [{"type": "key", "id": "keys", "actions": actions}]})

    def run(self, script, *words):
        return self.call("POST", "/execute/sync", {"script": script, "args": list(words)})

    def rows(self, place):
        """The texts of a table's cells, row by row."""
        script = "return [...document.querySelectorAll(arguments[0] + ' tbody tr')]"
        return self.run(f"{script}.map((row) => [...row.cells].map((cell) => cell.innerText))", place)

    def focused(self):
        return self.run("return document.activeElement.id")

    def devtools(self, command, **values):
        """A command of the browser's own tools, and what it answers."""
        return self.call("POST", "/goog/cdp/execute", {"cmd": command, "params": values})

    def emulate(self, command, **values):
        """A command about the screen that the browser has, as a phone's."""
        self.devtools(f"Emulation.{command}", **values)

    def told(self):
        """What a reader of the screen is told of: the role and the name of each thing."""
        nodes = self.devtools("Accessibility.getFullAXTree")["nodes"]
        known = [it for it in nodes if not it["ignored"] and "role" in it]
        return [(it["role"]["value"], it.get("name", {}).get("value", "")) for it in known]

    def picture(self):
        return base64.b64decode(self.call("GET", "/screenshot"))

    def close(self):
        try:
            self.call("DELETE", "")
        except (OSError, Refused, http.client.HTTPException):
            pass  # it has ended
