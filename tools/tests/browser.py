"""A page in Chromium without a screen, driven over the browser's own pipe: real keys and clicks, media, pictures, and what the console tells."""
import base64
import fcntl
import json
import os
import select
import subprocess
import tempfile
import time

WORDS = ["chromium", "--headless", "--no-sandbox", "--disable-gpu", "--no-first-run", "--remote-debugging-pipe"]
LONGEST = 60  # seconds for one answer of the browser on a busy machine
PATIENCE = 20  # seconds for a page to do what a key or a new address has it do


class Fault(Exception):
    """The browser ended, or did not answer."""


def _ends(read, write):
    """Gives the browser its two ends as numbers 3 and 4, where it looks for them."""
    kept = [fcntl.fcntl(end, fcntl.F_DUPFD, 20) for end in (read, write)]
    for number, end in zip((3, 4), kept):
        os.dup2(end, number)


class Page:
    """A file in the browser; `told` has what the console, the log and the scripts complain of."""

    def __init__(self, path, width=1200, height=900, dark=False):
        self.room = tempfile.TemporaryDirectory()
        self.number, self.left, self.told, self.events = 0, b"", [], []
        to_browser, own_write = os.pipe()
        self.read, from_browser = os.pipe()
        self.write = own_write
        words = [*WORDS, f"--user-data-dir={self.room.name}", f"--window-size={width},{height}", "about:blank"]
        self.browser = subprocess.Popen(words, stdin=subprocess.DEVNULL, stdout=subprocess.DEVNULL, stderr=subprocess.DEVNULL, close_fds=False,
                                        preexec_fn=lambda: _ends(to_browser, from_browser))
        os.close(to_browser)
        os.close(from_browser)
        self.session = None
        self._attach(width, height, dark)
        self.open(path)

    def __enter__(self):
        return self

    def __exit__(self, *_):
        try:
            self.session = None
            self.call("Browser.close")
        except (Fault, OSError):
            self.browser.kill()
        self.browser.wait()
        os.close(self.read)
        os.close(self.write)
        self.room.cleanup()

    def _attach(self, width, height, dark):
        target = next(one for one in self.call("Target.getTargets")["targetInfos"] if one["type"] == "page")
        self.session = self.call("Target.attachToTarget", targetId=target["targetId"], flatten=True)["sessionId"]
        for domain in ("Page", "Runtime", "Log", "Network", "Accessibility"):
            self.call(f"{domain}.enable")
        self.call("Page.setLifecycleEventsEnabled", enabled=True)
        self.call("Emulation.setDeviceMetricsOverride", width=width, height=height, deviceScaleFactor=1, mobile=width < 600)
        self.media(dark=dark)

    def open(self, address):
        """Opens a file, with what stands behind # in its address, and waits until it is loaded; another place in the same file is there at once."""
        self.events.clear()
        loader = self.call("Page.navigate", url="file://" + address).get("loaderId")
        loaded = ("load", loader)  # that of the page before may be told a little later
        while loader and not any(one["method"] == "Page.lifecycleEvent" and (one["params"]["name"], one["params"]["loaderId"]) == loaded for one in self.events):
            self._receive()

    def media(self, dark=False, kind="screen"):
        self.call("Emulation.setEmulatedMedia", media=kind, features=[{"name": "prefers-color-scheme", "value": "dark" if dark else "light"}])

    def value(self, text):
        """What a script gives, by value."""
        found = self.call("Runtime.evaluate", expression=text, returnByValue=True, awaitPromise=True)
        if "exceptionDetails" in found:
            raise Fault(found["exceptionDetails"])
        return found["result"].get("value")

    def until(self, text, wanted):
        """What a script gives when it gives what is wanted, or what it still gives after a while: a page is told of a new address a little later."""
        end = time.monotonic() + PATIENCE
        found = self.value(text)
        while found != wanted and time.monotonic() < end:
            time.sleep(0.05)
            found = self.value(text)
        return found

    def settled(self, text):
        """What a script gives when it gives the same twice, or what it still gives after a while: what is in sight is filled in a little later."""
        end = time.monotonic() + PATIENCE
        before, found = None, self.value(text)
        while found != before and time.monotonic() < end:
            time.sleep(0.2)
            before, found = found, self.value(text)
        return found

    def key(self, name):
        """Presses a key and lets it go, as a hand does."""
        for kind in ("rawKeyDown", "keyUp"):
            self.call("Input.dispatchKeyEvent", type=kind, key=name, code=name, windowsVirtualKeyCode={"ArrowLeft": 37, "ArrowRight": 39, "Home": 36, "End": 35, "Enter": 13, "Tab": 9}[name])

    def type(self, text):
        self.call("Input.insertText", text=text)

    def click(self, selector):
        """Clicks in the middle of an element, which has to be there, in sight and not covered."""
        place = self.value(f"(() => {{ const one = document.querySelector({json.dumps(selector)}); one.scrollIntoView({{ block: 'center' }}); const box = one.getBoundingClientRect();"
                           " const x = box.x + box.width / 2, y = box.y + box.height / 2, top = document.elementFromPoint(x, y); return one === top || one.contains(top) ? [x, y] : null; })()")
        if place is None:
            raise Fault(f"{selector} is covered")
        for kind in ("mousePressed", "mouseReleased"):
            self.call("Input.dispatchMouseEvent", type=kind, x=place[0], y=place[1], button="left", clickCount=1)

    def picture(self, path):
        with open(path, "wb") as file:
            file.write(base64.b64decode(self.call("Page.captureScreenshot", format="png")["data"]))

    def printed(self, path):
        """The page on paper, as a PDF file."""
        with open(path, "wb") as file:
            file.write(base64.b64decode(self.call("Page.printToPDF", printBackground=True)["data"]))

    def call(self, method, **words):
        self.number += 1
        asked = {"id": self.number, "method": method, "params": words}
        if self.session:
            asked["sessionId"] = self.session
        os.write(self.write, json.dumps(asked).encode() + b"\0")
        while True:
            answer = self._receive()
            if answer.get("id") == self.number:
                if "error" in answer:
                    raise Fault(f"{method}: {answer['error']}")
                return answer["result"]

    def _receive(self):
        while b"\0" not in self.left:
            if not select.select([self.read], [], [], LONGEST)[0]:
                raise Fault("the browser does not answer")
            more = os.read(self.read, 1 << 20)
            if not more:
                raise Fault("the browser has ended")
            self.left += more
        text, _, self.left = self.left.partition(b"\0")
        found = json.loads(text)
        if "method" in found:
            self._event(found)
        return found

    def _event(self, found):
        self.events.append(found)
        words = found["params"]
        if found["method"] == "Runtime.consoleAPICalled" and words["type"] in ("error", "warning", "assert"):
            self.told.append(" ".join(str(one.get("value", one.get("description"))) for one in words["args"]))
        elif found["method"] == "Runtime.exceptionThrown":
            self.told.append(words["exceptionDetails"].get("exception", {}).get("description", words["exceptionDetails"]["text"]))
        elif found["method"] == "Log.entryAdded" and words["entry"]["level"] in ("error", "warning"):
            self.told.append(words["entry"]["text"])
        elif found["method"] == "Network.requestWillBeSent":
            self.events.append({"method": "asked", "params": {"url": words["request"]["url"]}})
