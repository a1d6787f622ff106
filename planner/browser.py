"""A headless Chromium for the page's tests, driven by the DevTools protocol over a pipe."""
import base64
import json
import os
import select
import subprocess
import tempfile
import time
from pathlib import Path

# The first two keep the sandbox and the GPU out, which a container lacks; the others keep the browser from any call of its own.
FLAGS = ["--headless", "--no-sandbox", "--disable-gpu", "--disable-dev-shm-usage", "--no-first-run", "--disable-background-networking",
         "--disable-component-update", "--disable-sync", "--disable-extensions", "--remote-debugging-pipe"]
SECONDS = 60


class Browser:
    """A browser, in a folder of its own, which ends with the `with` statement."""

    def __enter__(self):
        self.folder = tempfile.TemporaryDirectory()
        theirs, self.to = os.pipe()
        self.of, ours = os.pipe()
        words = ["bash", "-c", f'exec "$@" 3<&{theirs} 4>&{ours}', "bash", "chromium", *FLAGS, f"--user-data-dir={self.folder.name}"]
        self.process = subprocess.Popen(words, pass_fds=(theirs, ours), stdout=subprocess.DEVNULL, stderr=subprocess.DEVNULL)
        os.close(theirs)
        os.close(ours)
        self.rest, self.last, self.events = b"", 0, []
        return self

    def __exit__(self, *_):
        try:
            self.call("Browser.close")
        finally:
            try:
                self.process.wait(20)
            except subprocess.TimeoutExpired:
                self.process.kill()
                self.process.wait()
            self.folder.cleanup()

    def call(self, method, session=None, **params):
        """Calls a method of the protocol, and returns its result."""
        self.last += 1
        number = self.last
        message = {"id": number, "method": method, "params": params, **({"sessionId": session} if session else {})}
        os.write(self.to, json.dumps(message).encode() + b"\0")
        while True:
            message = self.read(SECONDS)
            if message.get("id") != number:
                self.events.append(message)
            elif "error" in message:
                raise AssertionError(f"{method}: {message['error']['message']}")
            else:
                return message["result"]

    def read(self, seconds):
        """The next message, waited for so long."""
        while b"\0" not in self.rest:
            ready, _, _ = select.select([self.of], [], [], seconds)
            more = os.read(self.of, 1 << 20) if ready else b""
            if not more:
                raise AssertionError(f"Chromium says nothing in {seconds} s" if not ready else "Chromium has ended")
            self.rest += more
        message, _, self.rest = self.rest.partition(b"\0")
        return json.loads(message)


class Page:
    """A tab of its own that shows a file, at an address."""

    def __init__(self, browser, path, address="", width=1180, height=900, dark=False, before=""):
        self.browser = browser
        self.target = browser.call("Target.createTarget", url="about:blank")["targetId"]
        self.session = browser.call("Target.attachToTarget", targetId=self.target, flatten=True)["sessionId"]
        for domain in ("Page", "Runtime", "Network"):
            self.call(f"{domain}.enable")
        self.resize(width, height)
        self.call("Emulation.setEmulatedMedia", features=[{"name": "prefers-color-scheme", "value": "dark" if dark else "light"}])
        if before:
            self.call("Page.addScriptToEvaluateOnNewDocument", source=before)
        self.call("Page.navigate", url=Path(path).resolve().as_uri() + address)
        self.wait("document.readyState === 'complete'")

    def __enter__(self):
        return self

    def __exit__(self, *_):
        self.browser.call("Target.closeTarget", targetId=self.target)

    def call(self, method, **params):
        return self.browser.call(method, self.session, **params)

    def resize(self, width, height):
        self.call("Emulation.setDeviceMetricsOverride", width=width, height=height, deviceScaleFactor=1, mobile=False)

    def ask(self, expression):
        """The value of an expression in the page, or of what it promises."""
        said = self.call("Runtime.evaluate", expression=expression, awaitPromise=True, returnByValue=True)
        if "exceptionDetails" in said:
            details = said["exceptionDetails"]
            raise AssertionError(f"{expression}: {details.get('exception', {}).get('description', details['text'])}")
        return said["result"].get("value")

    def wait(self, expression, seconds=SECONDS):
        """Waits until an expression is true."""
        end = time.monotonic() + seconds
        while not self.ask(f"Boolean({expression})"):
            if time.monotonic() > end:
                raise AssertionError(f"this does not come true in {seconds} s: {expression}")
            time.sleep(0.03)

    def press(self, key, text="", code=0, modifiers=0):
        """Presses a key."""
        for kind in ("keyDown", "keyUp"):
            self.call("Input.dispatchKeyEvent", type=kind, key=key, windowsVirtualKeyCode=code, modifiers=modifiers,
                      **({"text": text} if text and kind == "keyDown" else {}))

    def type(self, text):
        self.call("Input.insertText", text=text)

    def events(self, method):
        """What the page has reported so far under a method's name."""
        return [it["params"] for it in self.browser.events if it.get("method") == method and it.get("sessionId") == self.session]

    def picture(self, path):
        """Writes a picture of what the window shows, as a PNG."""
        data = self.call("Page.captureScreenshot", format="png")["data"]
        Path(path).write_bytes(base64.b64decode(data))
