"""A headless Chromium, driven through a pipe: clicks, keys, what the page says, and every message on its console. For tests/page."""

import json
import os
import shutil
import subprocess
import tempfile

NAMES = ["chromium", "chromium-browser", "google-chrome"]
KEYS = {"ArrowLeft": 37, "ArrowUp": 38, "ArrowRight": 39, "ArrowDown": 40, "Home": 36, "End": 35, "Tab": 9, "Enter": 13}


def program():
    return next((found for found in map(shutil.which, NAMES) if found), None)


class Browser:
    """One page of a browser of its own, which ends with it."""

    def __init__(self):
        self.home = tempfile.mkdtemp()
        child_read, self.write = os.pipe()
        self.read, child_write = os.pipe()

        def place():
            # the browser reads its commands from 3 and writes to 4; copies first, so that neither is lost
            low, high = os.dup(child_read), os.dup(child_write)
            os.dup2(low, 3)
            os.dup2(high, 4)

        words = [program(), "--headless=new", "--no-sandbox", "--disable-gpu", "--disable-dev-shm-usage", "--remote-debugging-pipe",
                 f"--user-data-dir={self.home}", "--window-size=1400,1000", "about:blank"]
        self.process = subprocess.Popen(words, stdin=subprocess.DEVNULL, stdout=subprocess.DEVNULL, stderr=subprocess.DEVNULL,
                                        close_fds=False, preexec_fn=place)
        os.close(child_read)
        os.close(child_write)
        self.left, self.number, self.session = b"", 0, None
        self.messages, self.requests, self.loaded = [], [], 0
        target = self.ask("Target.createTarget", url="about:blank")["targetId"]
        self.session = self.ask("Target.attachToTarget", targetId=target, flatten=True)["sessionId"]
        for domain in ("Page", "Runtime", "Log", "Network", "Accessibility"):
            self.ask(f"{domain}.enable")

    def close(self):
        try:
            self.session = None
            self.ask("Browser.close")
        except (OSError, EOFError):
            pass
        self.process.wait(timeout=20)
        shutil.rmtree(self.home, ignore_errors=True)

    def event(self):
        """The next message of the browser."""
        while b"\0" not in self.left:
            more = os.read(self.read, 1 << 16)
            if not more:
                raise EOFError("the browser has ended")
            self.left += more
        text, _, self.left = self.left.partition(b"\0")
        return json.loads(text)

    def take(self, message):
        method, told = message.get("method"), message.get("params", {})
        if method in ("Runtime.consoleAPICalled", "Runtime.exceptionThrown", "Log.entryAdded"):
            self.messages.append(json.dumps(told)[:400])
        elif method == "Network.requestWillBeSent":
            self.requests.append(told["request"]["url"])
        elif method == "Page.loadEventFired":
            self.loaded += 1

    def ask(self, method, **params):
        self.number += 1
        message = {"id": self.number, "method": method, "params": params}
        if self.session:
            message["sessionId"] = self.session
        os.write(self.write, json.dumps(message).encode() + b"\0")
        while True:
            answer = self.event()
            if answer.get("id") == self.number:
                if "error" in answer:
                    raise OSError(f"{method}: {answer['error']}")
                return answer["result"]
            self.take(answer)

    def open(self, url):
        """A page, until it is loaded; a link within the page that is open does not load it anew."""
        before = self.loaded
        self.ask("Page.navigate", url="about:blank")
        while self.loaded == before:
            self.take(self.event())
        self.messages, self.requests, before = [], [], self.loaded
        self.ask("Page.navigate", url=url)
        while self.loaded == before:
            self.take(self.event())

    def value(self, expression):
        """What an expression gives in the page."""
        result = self.ask("Runtime.evaluate", expression=expression, returnByValue=True, awaitPromise=True)
        if "exceptionDetails" in result:
            raise OSError(f"{expression}: {result['exceptionDetails']}")
        return result["result"].get("value")

    def click(self, query):
        """A click into the middle of an element."""
        self.value(f"document.querySelector({json.dumps(query)}).scrollIntoView({{block: 'center'}})")
        middle = "(r => [r.x + r.width / 2, r.y + r.height / 2])"
        box = self.value(f"{middle}(document.querySelector({json.dumps(query)}).getBoundingClientRect())")
        for kind in ("mousePressed", "mouseReleased"):
            self.ask("Input.dispatchMouseEvent", type=kind, x=box[0], y=box[1], button="left", clickCount=1)

    def key(self, name):
        for kind in ("rawKeyDown", "keyUp"):
            self.ask("Input.dispatchKeyEvent", type=kind, key=name, code=name, windowsVirtualKeyCode=KEYS[name])

    def roles(self):
        """The (role, name) of all that a screen reader is told of."""
        nodes = self.ask("Accessibility.getFullAXTree")["nodes"]
        return {(node["role"]["value"], node.get("name", {}).get("value", "")) for node in nodes if not node.get("ignored")}
