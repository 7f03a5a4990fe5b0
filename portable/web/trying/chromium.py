"""Drives headless Chromium through its DevTools protocol, over two pipes."""
import base64
import json
import os
import shutil
import subprocess
import tempfile
import time

NAMES = ("chromium", "chromium-browser", "google-chrome")
FLAGS = (
    "--headless=new",
    "--no-sandbox",
    "--disable-gpu",
    "--remote-debugging-pipe",
    "--no-first-run",
    "--disable-extensions",
    "--disable-background-networking",
)


def program():
    """Returns the path of Chromium, or None."""
    return next((path for it in NAMES if (path := shutil.which(it))), None)


class Fault(Exception):
    """The browser refused something, or something did not come."""


class Chromium:
    """One browser with one page. `with Chromium() as browser:` ends it and removes what it kept."""

    def __init__(self):
        self.folder = tempfile.mkdtemp(prefix="pcapfile-web-")
        self.downloads = os.path.join(self.folder, "downloads")
        os.mkdir(self.downloads)
        (theirs_in, self.to), (self.come, theirs_out) = os.pipe(), os.pipe()

        def take_pipes():
            one, other = os.dup(theirs_in), os.dup(theirs_out)
            os.dup2(one, 3)
            os.dup2(other, 4)

        words = [program(), *FLAGS, f"--user-data-dir={self.folder}/profile", "about:blank"]
        self.process = subprocess.Popen(words, preexec_fn=take_pipes, close_fds=False, stdout=subprocess.DEVNULL, stderr=subprocess.DEVNULL)
        os.close(theirs_in)
        os.close(theirs_out)
        self.held, self.number, self.events = b"", 0, []
        self.session = None
        target = self.call("Target.createTarget", url="about:blank")["targetId"]
        self.session = self.call("Target.attachToTarget", targetId=target, flatten=True)["sessionId"]
        for it in ("Page", "Runtime", "Log", "Network"):
            self.call(f"{it}.enable")

    def __enter__(self):
        return self

    def __exit__(self, *_):
        self.session = None
        try:
            self.call("Browser.close")
            self.process.wait(20)
        except (Fault, OSError, subprocess.TimeoutExpired):
            self.process.kill()
            self.process.wait()
        shutil.rmtree(self.folder, ignore_errors=True)

    def message(self):
        while b"\0" not in self.held:
            came = os.read(self.come, 1 << 20)
            if not came:
                raise Fault("the browser ended")
            self.held += came
        one, self.held = self.held.split(b"\0", 1)
        return json.loads(one)

    def call(self, method, **parameters):
        """Returns the result of a method. Events that come meanwhile are kept in `events`."""
        self.number += 1
        order = {"id": self.number, "method": method, "params": parameters}
        if self.session:
            order["sessionId"] = self.session
        os.write(self.to, json.dumps(order).encode() + b"\0")
        while True:
            answer = self.message()
            if answer.get("id") != self.number:
                self.events.append(answer)
            elif "error" in answer:
                raise Fault(f"{method}: {answer['error']['message']}")
            else:
                return answer["result"]

    def value(self, expression):
        """Returns the value of an expression of the page, also the value of a promise."""
        result = self.call("Runtime.evaluate", expression=expression, awaitPromise=True, returnByValue=True)
        if "exceptionDetails" in result:
            raise Fault(result["exceptionDetails"].get("exception", {}).get("description", str(result["exceptionDetails"])))
        return result["result"].get("value")

    def until(self, expression, seconds=60):
        """Returns the value of an expression as soon as it is neither null nor false."""
        end = time.monotonic() + seconds
        while time.monotonic() < end:
            value = self.value(expression)
            if value not in (None, False):
                return value
            time.sleep(0.02)
        raise Fault(f"{expression} did not come in {seconds} seconds")

    def open(self, path):
        self.call("Page.navigate", url="file://" + os.path.abspath(path))
        self.until("document.readyState === 'complete' && location.protocol === 'file:'")

    def give(self, *paths):
        """Chooses files in the page's input."""
        root = self.call("DOM.getDocument")["root"]["nodeId"]
        node = self.call("DOM.querySelector", nodeId=root, selector="#files")["nodeId"]
        self.call("DOM.setFileInputFiles", files=[os.path.abspath(it) for it in paths], nodeId=node)

    def press(self, text, within="document"):
        """Presses the first button in sight with this text."""
        found = f"[...{within}.querySelectorAll('button, a.button')].find((it) => it.textContent === {json.dumps(text)} && it.offsetParent)"
        if not self.value(f"(() => {{ const it = {found}; it?.click(); return Boolean(it); }})()"):
            raise Fault(f"there is no button {text!r}")

    def look(self, width, height, dark=False, mobile=False):
        """Sets the size of the window, and whether it is dark."""
        self.call("Emulation.setDeviceMetricsOverride", width=width, height=height, deviceScaleFactor=1, mobile=mobile)
        self.call("Emulation.setEmulatedMedia", features=[{"name": "prefers-color-scheme", "value": "dark" if dark else "light"}])

    def picture(self, path, whole=False):
        data = self.call("Page.captureScreenshot", format="png", captureBeyondViewport=whole)["data"]
        with open(path, "wb") as file:
            file.write(base64.b64decode(data))

    def faults(self):
        """Returns what the page threw, and what the browser reports as wrong with it."""
        of_log = [it for it in self.events if it.get("params", {}).get("entry", {}).get("level") == "error"]
        return [str(it) for it in self.events if it.get("method") == "Runtime.exceptionThrown"] + [str(it) for it in of_log]

    def take_downloads(self):
        """Makes the browser save downloads in a folder of their own."""
        session, self.session = self.session, None
        self.call("Browser.setDownloadBehavior", behavior="allow", downloadPath=self.downloads, eventsEnabled=True)
        self.session = session
