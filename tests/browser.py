# How pages are tried; no part of the product.
"""A page in a Chromium without a window, driven by the DevTools protocol over two pipes."""

import base64
import fcntl
import itertools
import json
import os
import shutil
import subprocess
import tempfile
import time

NAMES = ("chromium", "chromium-browser", "google-chrome")
PACKAGE = "chromium"
# As root it can't be shut in; what it opens here is our own page.
OPTIONS = ["--headless", "--no-sandbox", "--disable-gpu", "--remote-debugging-pipe", "--no-first-run", "--disable-dev-shm-usage",
           "--disable-background-networking", "--disable-component-update", "--window-size=1280,1000"]  # fmt: skip
PAUSE, PATIENCE = 0.02, 20


def installed():
    """The browser that is there, or None."""
    return next(filter(None, map(shutil.which, NAMES)), None)


class Failed(Exception):
    """The page or the browser has failed, or what was awaited hasn't come."""


def pipe():
    """A pipe whose ends have numbers above 9."""
    ends = os.pipe()
    high = [fcntl.fcntl(it, fcntl.F_DUPFD_CLOEXEC, 10) for it in ends]
    for it in ends:
        os.close(it)
    return high


class Browser:
    """A browser with one page, and what its scripts have thrown."""

    def __init__(self, program):
        self._room = tempfile.TemporaryDirectory(prefix="t1edit-browser-", ignore_cleanup_errors=True)
        commands, self._input = pipe()
        self._output, answers = pipe()
        # (it reads commands from the descriptor 3, and answers to 4)
        script = f'exec 3<&{commands} 4>&{answers}; exec "$@"'
        words = ["bash", "-c", script, "bash", program, *OPTIONS, f"--user-data-dir={self._room.name}", "about:blank"]
        nowhere = subprocess.DEVNULL
        self._child = subprocess.Popen(words, stdin=nowhere, stdout=nowhere, stderr=nowhere, pass_fds=(commands, answers))
        os.close(commands)
        os.close(answers)
        self._bytes, self._numbers, self.thrown = b"", itertools.count(1), []
        self._session = None
        pages = self._ask("Target.getTargets")["targetInfos"]
        page = next(it["targetId"] for it in pages if it["type"] == "page")
        self._session = self._ask("Target.attachToTarget", targetId=page, flatten=True)["sessionId"]
        for domain in ("Page", "Runtime"):
            self._ask(f"{domain}.enable")

    def __enter__(self):
        return self

    def __exit__(self, *_):
        os.close(self._input)
        try:
            self._child.wait(PATIENCE)
        except subprocess.TimeoutExpired:
            self._child.kill()
            self._child.wait()
        os.close(self._output)
        self._room.cleanup()

    def open(self, address):
        self._ask("Page.navigate", url=address)
        self.wait("document.readyState === 'complete'")

    def value(self, script):
        """The value of an expression of JavaScript in the page."""
        found = self._ask("Runtime.evaluate", expression=script, returnByValue=True, awaitPromise=True)
        if "exceptionDetails" in found:
            raise Failed(f"{script}: {found['exceptionDetails']}")
        return found["result"].get("value")

    def wait(self, script):
        """Waits until an expression is true, and gives its value."""
        end = time.monotonic() + PATIENCE
        while time.monotonic() < end:
            found = self.value(script)
            if found:
                return found
            time.sleep(PAUSE)
        raise Failed(f"it doesn't come about: {script}")

    def type(self, text):
        """Types a text, key by key, where the page has its cursor."""
        for character in text:
            self._ask("Input.dispatchKeyEvent", type="char", text=character)

    def press(self, key, code):
        """Presses a key that isn't a character, by its name and its number."""
        for kind in ("rawKeyDown", "keyUp"):
            self._ask("Input.dispatchKeyEvent", type=kind, key=key, code=key, windowsVirtualKeyCode=code)

    def click(self, selector):
        """Clicks into the middle of an element."""
        quoted = json.dumps(selector)
        x, y = self.value(
            f"(() => {{ const it = document.querySelector({quoted}); it.scrollIntoView({{block: 'center'}}); "
            "const r = it.getBoundingClientRect(); return [r.x + r.width / 2, r.y + r.height / 2] })()"
        )
        for kind in ("mousePressed", "mouseReleased"):
            self._ask("Input.dispatchMouseEvent", type=kind, x=x, y=y, button="left", clickCount=1)

    def picture(self, path):
        """Writes what the page shows to a file, as PNG."""
        with open(path, "wb") as file:
            file.write(base64.b64decode(self._ask("Page.captureScreenshot")["data"]))

    def _ask(self, method, **given):
        number = next(self._numbers)
        message = {"id": number, "method": method, "params": given}
        if self._session:
            message["sessionId"] = self._session
        os.write(self._input, json.dumps(message).encode() + b"\0")
        while True:
            answer = self._next()
            if answer.get("method") == "Runtime.exceptionThrown":
                self.thrown.append(answer["params"]["exceptionDetails"].get("exception", {}).get("description", "?"))
            if answer.get("id") == number:
                if "error" in answer:
                    raise Failed(f"{method}: {answer['error']}")
                return answer["result"]

    def _next(self):
        while b"\0" not in self._bytes:
            piece = os.read(self._output, 1 << 16)
            if not piece:
                raise Failed("the browser has ended")
            self._bytes += piece
        message, _, self._bytes = self._bytes.partition(b"\0")
        return json.loads(message)
