"""A headless Chromium, led by the DevTools protocol over a pipe: for checks of pages, by Python's standard library alone."""
import base64
import json
import os
import select
import shutil
import subprocess
import tempfile
import time

from texts import BadText

NAMES = ("chromium", "chromium-browser", "google-chrome", "google-chrome-stable")
KEYS = {"ArrowRight": 39, "ArrowLeft": 37, "PageDown": 34, "PageUp": 33, "Home": 36, "End": 35, "Escape": 27, " ": 32, "l": 76}
PATIENCE = 60  # seconds for one answer


def installed():
    """Where Chromium is: the variable CHROMIUM, or one of its usual names; None where it is missing."""
    return os.environ.get("CHROMIUM") or next(filter(None, map(shutil.which, NAMES)), None)


class Browser:
    """One tab of a browser of its own, with a folder of its own. What goes wrong in its pages is kept in `faults`."""

    def __init__(self, program, width=1280, height=800):
        self.folder = tempfile.TemporaryDirectory(ignore_cleanup_errors=True)
        read_by_browser, self.to_browser = os.pipe()
        self.from_browser, written_by_browser = os.pipe()
        words = [program, "--headless", "--no-sandbox", "--disable-gpu", "--disable-dev-shm-usage", "--no-first-run",
                 "--remote-debugging-pipe", "--host-resolver-rules=MAP * ~NOTFOUND", f"--user-data-dir={self.folder.name}",
                 f"--window-size={width},{height}", "about:blank"]

        def place_pipes():
            # Copies first: the numbers 3 and 4, which the protocol has, may be among those of the pipes themselves.
            ours = os.dup(read_by_browser), os.dup(written_by_browser)
            os.dup2(ours[0], 3)
            os.dup2(ours[1], 4)

        self.process = subprocess.Popen(words, stdin=subprocess.DEVNULL, stdout=subprocess.DEVNULL, stderr=subprocess.DEVNULL,
                                        preexec_fn=place_pipes, pass_fds=(3, 4), start_new_session=True)
        os.close(read_by_browser)
        os.close(written_by_browser)
        self.asked, self.rest, self.session = 0, b"", None
        self.faults, self.fetched, self.events = [], [], []
        tab = self.ask("Target.createTarget", url="about:blank")["targetId"]
        self.session = self.ask("Target.attachToTarget", targetId=tab, flatten=True)["sessionId"]
        for domain in ("Page", "Runtime", "Network", "Log"):
            self.ask(f"{domain}.enable")
        self.ask("Emulation.setDeviceMetricsOverride", width=width, height=height, deviceScaleFactor=1, mobile=False)

    def __enter__(self):
        return self

    def __exit__(self, *_):
        self.process.terminate()
        try:
            self.process.wait(10)
        except subprocess.TimeoutExpired:
            self.process.kill()
            self.process.wait()
        os.close(self.to_browser)
        os.close(self.from_browser)
        self.folder.cleanup()

    def ask(self, method, **parameters):
        """The answer to a command."""
        self.asked += 1
        message = {"id": self.asked, "method": method, "params": parameters}
        if self.session:
            message["sessionId"] = self.session
        os.write(self.to_browser, json.dumps(message).encode() + b"\0")
        while True:
            answer = self.hear()
            if answer.get("id") == self.asked:
                if "error" in answer:
                    raise BadText(f"Chromium: {method}: {answer['error']['message']}")
                return answer["result"]

    def hear(self):
        """The next message; events are kept on the way."""
        end = time.monotonic() + PATIENCE
        while b"\0" not in self.rest:
            ready, _, _ = select.select([self.from_browser], [], [], max(0, end - time.monotonic()))
            piece = os.read(self.from_browser, 1 << 20) if ready else b""
            if not piece:
                raise BadText("Chromium: no answer")
            self.rest += piece
        message, _, self.rest = self.rest.partition(b"\0")
        told = json.loads(message)
        self.keep(told.get("method"), told.get("params", {}))
        return told

    def keep(self, method, told):
        if method == "Runtime.exceptionThrown":
            details = told["exceptionDetails"]
            self.faults.append(details.get("exception", {}).get("description") or details["text"])
        elif method == "Log.entryAdded" and told["entry"]["level"] == "error":
            self.faults.append(told["entry"]["text"])
        elif method == "Network.requestWillBeSent":
            self.fetched.append(told["request"]["url"])
        elif method == "Page.loadEventFired":
            self.events.append(method)

    def open(self, url):
        """Goes to a page, and waits until it is loaded."""
        self.events.clear()
        self.ask("Page.navigate", url="about:blank")
        while not self.events:
            self.hear()
        self.events.clear()
        self.ask("Page.navigate", url=url)
        while not self.events:
            self.hear()

    def value(self, script):
        """What a script gives in the page."""
        answer = self.ask("Runtime.evaluate", expression=script, returnByValue=True, awaitPromise=True)
        if "exceptionDetails" in answer:
            raise BadText(f"Chromium: {answer['exceptionDetails'].get('exception', {}).get('description')}: {script[:80]}")
        return answer["result"].get("value")

    def press(self, key):
        """A key goes down and up."""
        text = {"text": key} if len(key) == 1 else {}
        for kind in ("keyDown", "keyUp"):
            more = text if kind == "keyDown" else {}
            self.ask("Input.dispatchKeyEvent", type=kind, key=key, windowsVirtualKeyCode=KEYS[key], **more)

    def point(self, x, y, click=False):
        self.ask("Input.dispatchMouseEvent", type="mouseMoved", x=x, y=y)
        for kind in ("mousePressed", "mouseReleased") if click else ():
            self.ask("Input.dispatchMouseEvent", type=kind, x=x, y=y, button="left", clickCount=1)

    def shows_as(self, scheme):
        """Light or dark, as one's system asks for it."""
        self.ask("Emulation.setEmulatedMedia", features=[{"name": "prefers-color-scheme", "value": scheme}])

    def picture(self, path):
        """What the tab looks like, as a PNG file."""
        with open(path, "wb") as file:
            file.write(base64.b64decode(self.ask("Page.captureScreenshot", format="png")["data"]))
