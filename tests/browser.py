"""A headless Chromium, asked over a pipe: nothing but the standard library is needed."""
from __future__ import annotations

import atexit
import base64
import functools
import json
import os
import select
import shutil
import subprocess
import tempfile
import time
from typing import Any

PROGRAMS = ["chromium", "chromium-browser", "google-chrome", "google-chrome-stable"]
PATIENCE = 60.0


def program() -> str:
    """The browser that is installed; empty if there is none."""
    return next((found for name in PROGRAMS if (found := shutil.which(name))), "")


def is_loaded(said: dict[str, Any], session: str) -> bool:
    """Whether the browser says that the page of a tab is there."""
    return said.get("method") == "Page.loadEventFired" and said.get("sessionId", "") == session


class Browser:
    """Chromium with one tab. What it is asked are commands of the DevTools protocol."""

    def __init__(self, *options: str) -> None:
        self.folder = tempfile.TemporaryDirectory(ignore_cleanup_errors=True)
        to_browser, from_browser = os.pipe(), os.pipe()

        def own() -> None:
            """It reads commands at 3 and writes answers at 4."""
            ends = os.dup(to_browser[0]), os.dup(from_browser[1])
            for place, end in zip((3, 4), [os.dup(os.dup(end)) for end in ends]):
                os.dup2(end, place)
                os.set_inheritable(place, True)

        self.process = subprocess.Popen(
            [program(), "--headless=new", "--no-sandbox", "--disable-gpu", "--disable-dev-shm-usage",
             "--remote-debugging-pipe", "--hide-scrollbars", "--no-first-run",
             "--disable-background-networking", f"--user-data-dir={self.folder.name}", *options,
             "about:blank"], preexec_fn=own, close_fds=False, stdin=subprocess.DEVNULL,
            stdout=subprocess.DEVNULL, stderr=subprocess.DEVNULL)
        os.close(to_browser[0])
        os.close(from_browser[1])
        self.out, self.into, self.rest, self.count = to_browser[1], from_browser[0], b"", 0
        self.session = ""
        target = self.ask("Target.createTarget", url="about:blank")["targetId"]
        self.session = self.ask("Target.attachToTarget", targetId=target, flatten=True)["sessionId"]
        self.ask("Page.enable")
        self.ask("Runtime.enable")

    def next(self, end: float) -> dict[str, Any]:
        """The next thing that it says."""
        while b"\0" not in self.rest:
            if not select.select([self.into], [], [], max(0.0, end - time.monotonic()))[0]:
                raise AssertionError(f"the browser hasn't answered for {PATIENCE:g} seconds")
            if not (data := os.read(self.into, 1 << 20)):
                raise AssertionError("the browser has gone")
            self.rest += data
        text, _, self.rest = self.rest.partition(b"\0")
        said: dict[str, Any] = json.loads(text)
        return said

    def ask(self, method: str, **values: object) -> dict[str, Any]:
        self.count += 1
        message = {"id": self.count, "method": method, "params": values}
        if self.session:
            message["sessionId"] = self.session
        os.write(self.out, json.dumps(message).encode() + b"\0")
        end = time.monotonic() + PATIENCE
        while (heard := self.next(end)).get("id") != self.count:
            pass
        if "error" in heard:
            raise AssertionError(f"{method}: {heard['error']}")
        result: dict[str, Any] = heard["result"]
        return result

    def size(self, width: int, height: int = 844, dark: bool = False, scale: float = 1,
             media: str = "") -> None:
        """Sets the window, its scheme of colours, and whether it is laid out as for paper (`print`)."""
        self.ask("Emulation.setDeviceMetricsOverride", width=width, height=height,
                 mobile=width < 500, deviceScaleFactor=scale)
        self.ask("Emulation.setEmulatedMedia", media=media, features=[
            {"name": "prefers-color-scheme", "value": "dark" if dark else "light"}])

    def open(self, address: str) -> None:
        """Opens a page, and waits until it is there."""
        self.ask("Page.navigate", url=address)
        end = time.monotonic() + PATIENCE
        # Another tab may load a page just now, too.
        while not is_loaded(self.next(end), self.session):
            pass
        self.run("document.fonts.ready.then(() => new Promise(requestAnimationFrame))")

    def run(self, script: str) -> Any:
        """What a script gives."""
        result = self.ask("Runtime.evaluate", expression=script, awaitPromise=True,
                          returnByValue=True)
        if "exceptionDetails" in result:
            raise AssertionError(f"{script[:80]}: {result['exceptionDetails']}")
        return result["result"].get("value")

    def shot(self, path: str, **values: object) -> None:
        """A picture of the window as PNG."""
        data = self.ask("Page.captureScreenshot", format="png", **values)["data"]
        with open(path, "wb") as file:
            file.write(base64.b64decode(data))

    def pdf(self, path: str) -> None:
        """The page as it is printed."""
        data = self.ask("Page.printToPDF", preferCSSPageSize=True, printBackground=False)["data"]
        with open(path, "wb") as file:
            file.write(base64.b64decode(data))

    def close(self) -> None:
        """Ends it, and waits for its children: they write to its folder until then."""
        try:
            self.session = ""
            self.ask("Browser.close")
        except (AssertionError, OSError):
            pass
        try:
            self.process.wait(10)
        except subprocess.TimeoutExpired:
            self.process.kill()
            self.process.wait()
        os.close(self.out)
        os.close(self.into)
        self.folder.cleanup()


@functools.cache
def own() -> Browser:
    """The browser of this process, with one tab for all that it tries."""
    found = Browser()
    atexit.register(found.close)
    return found
