"""A headless Chromium, driven over a pipe by its own protocol: messages of JSON, each ended by a zero byte. Nothing but the
standard library and the browser."""
import json
import os
import select
import shutil
import subprocess
import tempfile
import time
from pathlib import Path

NAMES = ("chromium-headless-shell", "chromium")
SECONDS = 60


class Browser:
    """One page of one browser. What its console says, what fails and what it fetches is kept."""

    def __init__(self, wide=1500, tall=900):
        program = next(filter(None, map(shutil.which, NAMES)), None)
        if program is None:
            raise SystemExit(f"page: no browser: none of {', '.join(NAMES)} is installed")
        self.folder = tempfile.TemporaryDirectory(ignore_cleanup_errors=True)
        words = [
            program,
            "--headless",
            "--no-sandbox",
            "--disable-gpu",
            "--no-first-run",
            "--disable-dev-shm-usage",
            f"--user-data-dir={self.folder.name}",
        ]
        words += ["--remote-debugging-pipe", f"--window-size={wide},{tall}", "about:blank"]
        read, give = os.pipe()
        take, write = os.pipe()
        none = subprocess.DEVNULL
        pipes = dict(preexec_fn=lambda: hand_over(read, write), close_fds=False)
        self.process = subprocess.Popen(words, stdin=none, stdout=none, stderr=none, **pipes)
        os.close(read)
        os.close(write)
        self.give, self.take, self.rest, self.number, self.session = give, take, b"", 0, None
        self.said, self.fetched, self.seen = [], [], set()
        target = self.ask("Target.createTarget", url="about:blank")["targetId"]
        self.session = self.ask("Target.attachToTarget", targetId=target, flatten=True)["sessionId"]
        for part in ("Page", "Runtime", "Log", "Network"):
            self.ask(f"{part}.enable")
        size = dict(width=wide, height=tall, deviceScaleFactor=1, mobile=False)
        self.ask("Emulation.setDeviceMetricsOverride", **size)

    def close(self):
        self.session = None
        self.ask("Browser.close")
        try:
            self.process.wait(SECONDS)
        finally:
            self.process.kill()
            os.close(self.give)
            os.close(self.take)
            self.folder.cleanup()

    def ask(self, method, **given):
        """Sends a message and waits for its answer."""
        self.number += 1
        message = {"id": self.number, "method": method, "params": given}
        if self.session:
            message["sessionId"] = self.session
        os.write(self.give, json.dumps(message).encode() + b"\0")
        while True:
            answer = self.next(method)
            if answer.get("id") == self.number:
                break
            self.note(answer)
        if "error" in answer:
            raise AssertionError(f"{method}: {answer['error']['message']}")
        return answer["result"]

    def next(self, waiting):
        until = time.monotonic() + SECONDS
        while b"\0" not in self.rest:
            ready, _, _ = select.select([self.take], [], [], max(0, until - time.monotonic()))
            part = os.read(self.take, 1 << 20) if ready else b""
            if not part:
                raise AssertionError(f"the browser does not answer {waiting}")
            self.rest += part
        message, _, self.rest = self.rest.partition(b"\0")
        return json.loads(message)

    def note(self, event):
        method, told = event.get("method"), event.get("params", {})
        self.seen.add(method)
        if method == "Runtime.exceptionThrown":
            details = told["exceptionDetails"]
            self.said.append(details.get("exception", {}).get("description", details["text"]))
        elif method == "Runtime.consoleAPICalled":
            self.said.append(" ".join(str(argument.get("value")) for argument in told["args"]))
        elif method == "Log.entryAdded":
            self.said.append(told["entry"]["text"])
        elif method == "Network.requestWillBeSent":
            self.fetched.append(told["request"]["url"])

    def open(self, path, asked=""):
        """Opens a file, waits until it shows, and says how many seconds that took."""
        start = time.monotonic()
        self.go(Path(path).resolve().as_uri() + asked)
        self.run("new Promise((done) => requestAnimationFrame(() => setTimeout(done, 0)))")
        return time.monotonic() - start

    def go(self, name):
        """Another page, from an empty one, so that a name which differs behind # alone is loaded too."""
        for where in ("about:blank", name):
            self.said, self.fetched, self.seen = [], [], set()
            self.ask("Page.navigate", url=where)
            while "Page.loadEventFired" not in self.seen:
                self.note(self.next("a page"))

    def run(self, script):
        """The value of a JavaScript expression, waited for."""
        answer = self.ask("Runtime.evaluate", expression=script, awaitPromise=True, returnByValue=True)
        if "exceptionDetails" in answer:
            raise AssertionError(answer["exceptionDetails"]["exception"]["description"])
        return answer["result"].get("value")

    def middle(self, script):
        """The middle, on the screen, of the element that an expression gives."""
        box = self.run(
            f"(() => {{ const b = ({script}).getBoundingClientRect(); return [b.x + b.width / 2, b.y + b.height / 2]; }})()"
        )
        return dict(x=box[0], y=box[1])

    def point_at(self, script):
        self.ask("Input.dispatchMouseEvent", type="mouseMoved", **self.middle(script))

    def click(self, script):
        at = self.middle(script)
        self.ask("Input.dispatchMouseEvent", type="mouseMoved", **at)
        for kind in ("mousePressed", "mouseReleased"):
            self.ask("Input.dispatchMouseEvent", type=kind, button="left", clickCount=1, **at)

    def press(self, key, code=0, text=""):
        self.ask("Input.dispatchKeyEvent", type="keyDown", key=key, code=key, windowsVirtualKeyCode=code, text=text)
        self.ask("Input.dispatchKeyEvent", type="keyUp", key=key, code=key, windowsVirtualKeyCode=code)


def hand_over(read, write):
    """The browser reads from 3 and writes to 4."""
    read, write = os.dup(read), os.dup(write)
    high = [os.dup2(end, 100 + i, inheritable=False) for i, end in enumerate((read, write))]
    os.dup2(high[0], 3)
    os.dup2(high[1], 4)
