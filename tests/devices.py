"""Phones and laptops to try the office's pages with: tabs of one headless Chromium, each with cookies and a memory
of its own, and a network that can be cut."""
from __future__ import annotations

import atexit
import base64
import json
import os
import socket
import threading
import time
import unittest
from collections.abc import Callable
from typing import Any

from browser import Browser

PATIENCE = 90.0
# Milliseconds that are more than a second, by whatever a page learns of the office's clock in between
LATER = 1500
# What a page says of a script that takes an element for there that isn't.
ABSENT = "Cannot read properties of null"


# No tab waits for another: each is a device that somebody holds.
ALIKE = ("--disable-renderer-backgrounding", "--disable-background-timer-throttling",
         "--disable-backgrounding-occluded-windows")


class Chromium(Browser):
    """The browser, asked for the tab of one device or another. What goes wrong in a page is kept."""

    def __init__(self, *options: str) -> None:
        self.faults: list[str] = []
        # The contexts of the devices that are there
        self.contexts: list[str] = []
        # Bytes that came of each address at its first time, with the head, packed as they were
        self.loaded: dict[str, int] = {}
        self.addresses: dict[str, str] = {}
        super().__init__(*ALIKE, *options)
        self.session = ""

    def next(self, end: float) -> dict[str, Any]:
        heard = super().next(end)
        if heard.get("method") == "Runtime.exceptionThrown":
            self.faults.append(json.dumps(heard["params"]["exceptionDetails"])[:600])
        if heard.get("method") == "Network.responseReceived":
            self.addresses[heard["params"]["requestId"]] = heard["params"]["response"]["url"]
        if heard.get("method") == "Network.loadingFinished":
            address = self.addresses.get(heard["params"]["requestId"], "?")
            self.loaded.setdefault(address, int(heard["params"]["encodedDataLength"]))
        if heard.get("method") == "Log.entryAdded":
            entry = heard["params"]["entry"]
            if entry["source"] in ("security", "javascript"):
                self.faults.append(entry["text"][:300])
        return heard

    def forget(self) -> None:
        """Throws away all devices, with what they remember, and what went wrong in their pages."""
        self.session = ""
        for context in self.contexts:
            self.ask("Target.disposeBrowserContext", browserContextId=context)
        self.contexts.clear()
        self.faults.clear()
        self.loaded.clear()
        self.addresses.clear()

    def is_there(self) -> bool:
        """Whether the browser runs, and answers."""
        try:
            self.session = ""
            return bool(self.ask("Browser.getVersion"))
        except (AssertionError, OSError):
            return False


# The browser of each process, by its number: one that is forked has none of its own.
OWN: dict[int, Chromium] = {}


@atexit.register
def close_own() -> None:
    """Ends the browser of this process."""
    if found := OWN.pop(os.getpid(), None):
        found.close()


def chromium_of(trial: unittest.TestCase) -> Chromium:
    """The browser of this process, without a device in it, and none once the trial has ended: each trial makes its own."""
    number = os.getpid()
    if number in OWN and not OWN[number].is_there():
        close_own()
    if number not in OWN:
        OWN[number] = Chromium()
    found = OWN[number]
    found.forget()
    trial.addCleanup(found.forget)
    return found


class Device:
    """One device: a context of its own in the browser."""

    def __init__(self, chromium: Chromium, width: int, height: int, scale: float = 1, touch: bool = False,
                 dark: bool = False, language: str = "en", context: str = "") -> None:
        self.chromium = chromium
        chromium.session = ""
        self.context: str = context or chromium.ask("Target.createBrowserContext")["browserContextId"]
        if not context:
            chromium.contexts.append(self.context)
        self.target = chromium.ask("Target.createTarget", url="about:blank",
                                   browserContextId=self.context)["targetId"]
        self.session = chromium.ask("Target.attachToTarget", targetId=self.target, flatten=True)["sessionId"]
        for domain in ("Page", "Runtime", "Network", "Log", "DOM", "Accessibility"):
            self.ask(f"{domain}.enable")
        agent = self.run("navigator.userAgent")
        self.ask("Emulation.setUserAgentOverride", userAgent=agent, acceptLanguage=language)
        self.ask("Emulation.setTouchEmulationEnabled", enabled=touch)
        # All devices are looked at, not only the one in front.
        self.ask("Emulation.setFocusEmulationEnabled", enabled=True)
        self.resize(width, height, scale, touch)
        self.colours(dark)

    def tab(self) -> Device:
        """Another tab of this device."""
        return Device(self.chromium, 390, 844, touch=True, context=self.context)

    def close(self) -> None:
        """Throws the device away, with all that it remembers."""
        self.chromium.session = ""
        self.chromium.ask("Target.disposeBrowserContext", browserContextId=self.context)
        self.chromium.contexts.remove(self.context)

    def resize(self, width: int, height: int, scale: float = 1, touch: bool = False) -> None:
        self.ask("Emulation.setDeviceMetricsOverride", width=width, height=height, mobile=touch,
                 deviceScaleFactor=scale)

    def colours(self, dark: bool) -> None:
        self.ask("Emulation.setEmulatedMedia", features=[
            {"name": "prefers-color-scheme", "value": "dark" if dark else "light"}])

    def ask(self, method: str, **values: object) -> dict[str, Any]:
        self.chromium.session = self.session
        return self.chromium.ask(method, **values)

    def run(self, script: str) -> Any:
        """What a script of the page gives. One that needs an element which isn't drawn yet is run again until it is."""
        end = time.monotonic() + PATIENCE
        while True:
            try:
                return self.run_once(script)
            except AssertionError as cause:
                if ABSENT not in str(cause) or time.monotonic() > end:
                    raise
            time.sleep(0.02)

    def run_once(self, script: str) -> Any:
        self.chromium.session = self.session
        return self.chromium.run(script)

    def open(self, address: str) -> None:
        self.chromium.session = self.session
        self.chromium.open(address)

    def reload(self) -> None:
        """Loads the page again, and waits until it is another one."""
        self.run("window.isOld = true")
        self.ask("Page.reload")
        self.until("!window.isOld && document.readyState === 'complete'")

    def until(self, script: str, patience: float = PATIENCE) -> Any:
        """What a script gives as soon as that isn't false or empty."""
        end = time.monotonic() + patience
        while True:
            try:
                if found := self.run_once(script):
                    return found
                why = repr(found)
            except AssertionError as cause:
                # The page is just being loaded.
                why = str(cause)[:200]
            if time.monotonic() > end:
                said = self.run("document.body.innerText")
                raise AssertionError(f"{script} didn't come about ({why}); the page says\n{said}\n"
                                     f"{self.chromium.faults}")
            time.sleep(0.02)

    def click(self, what: str) -> None:
        """Clicks what a selector names, as soon as it is there and can be clicked."""
        found = f"document.querySelector({json.dumps(what)})"
        self.until(f"!!{found} && !{found}.disabled")
        self.run(f"{found}.click()")

    def press(self, words: str) -> None:
        """Clicks the button with these words, in the window that is open if one is."""
        found = ("[...(document.querySelector('dialog[open]') ?? document).querySelectorAll('button')]"
                 f".find(one => one.textContent.trim() === {json.dumps(words)})")
        self.until(f"!!{found} && !{found}.disabled")
        self.run(f"{found}.click()")

    def choose(self, value: str) -> None:
        """Clicks the button of the open window that gives a value."""
        self.click(f"dialog[open] button[data-value={json.dumps(value)}]")

    def type(self, what: str, text: str) -> None:
        """Types into the field that a selector names."""
        self.until(f"!!document.querySelector({json.dumps(what)})")
        self.run(f"""(() => {{
            const field = document.querySelector({json.dumps(what)});
            field.value = {json.dumps(text)};
            field.dispatchEvent(new Event("input", {{bubbles: true}}));
            field.dispatchEvent(new Event("change", {{bubbles: true}}));
        }})()""")

    def text(self, what: str = "body") -> str:
        """The words that are seen of what a selector names."""
        return str(self.run(f"document.querySelector({json.dumps(what)})?.innerText ?? ''"))

    def texts(self, what: str) -> list[str]:
        """The words of each of what a selector names."""
        found: list[str] = self.run(f"[...document.querySelectorAll({json.dumps(what)})]"
                                    ".map(one => one.textContent.trim())")
        return found

    def count(self, what: str) -> int:
        return int(self.run(f"document.querySelectorAll({json.dumps(what)}).length"))

    def shot(self, path: str) -> None:
        """A picture of the window as PNG."""
        data = self.ask("Page.captureScreenshot", format="png")["data"]
        with open(path, "wb") as file:
            file.write(base64.b64decode(data))

    # The finish page

    def another_second(self) -> None:
        """Waits until what is tapped next has a later second than what was tapped before. Moments are by the office's clock,
        whose seconds begin elsewhere than this page's, and which the page may learn more exactly in between."""
        self.run("import('/office/static/office.js').then(async ({now}) => { const before = now();"
                 f" while (now() < before + {LATER}) await new Promise(done => setTimeout(done, 50)); }})")

    def is_ahead(self) -> float:
        """By how many seconds this page takes the office's clock to be ahead of the computer's."""
        return float(self.run("import('/office/static/office.js').then(({now}) =>"
                              " now() - performance.timeOrigin - performance.now())")) / 1000

    def tap(self, sail: str, name: str = "") -> None:
        """A finger on a boat of the finish page, once the boats have stopped moving."""
        of_class = f"[data-class={json.dumps(name)}]" if name else ""
        boat = f"#grid .boat[data-sail={json.dumps(sail)}]{of_class}"
        # In one step: boats that begin to move after a look would take no tap.
        self.until(f"""(() => {{
            const boat = document.querySelector({json.dumps(boat)});
            if (!boat || 'moving' in document.querySelector('#grid').dataset) return false;
            boat.click();
            return true;
        }})()""")

    def digit(self, digits: str) -> None:
        for digit in digits:
            self.run("[...document.querySelectorAll('#keys button')]"
                     f".find(one => one.textContent === {json.dumps(digit)}).click()")

    def link(self) -> str:
        """How the link to the office is: live, sending, away or out."""
        return str(self.run("document.querySelector('#link')?.dataset.state ?? ''"))

    # Coming in

    def come(self, link: str, name: str) -> None:
        """Comes by the link of a role."""
        self.open(link)
        self.type("#name", name)
        self.click("#go")
        self.until("document.readyState === 'complete' && /^.office.(finish|jury|scorer).$/.test(location.pathname)"
                   " && ['live', 'sending'].includes(document.querySelector('#link')?.dataset.state)")


class Line:
    """A network between a device and the office: it passes all on, is cut, or loses the next answer to a tap. Each request
    takes `slow` seconds more, and one for an address with `held` in it waits as long as there is something in that."""

    def __init__(self, port: int) -> None:
        self.port, self.is_cut, self.loses_answer = port, False, False
        self.slow, self.held = 0.0, b""
        self.lock = threading.Lock()
        self.ends: list[socket.socket] = []
        self.door = socket.create_server(("127.0.0.1", 0))
        self.own: int = self.door.getsockname()[1]
        self.start(self.accept)

    def start(self, work: Callable[..., None], *values: object) -> None:
        threading.Thread(target=work, args=values, daemon=True).start()

    def accept(self) -> None:
        while True:
            try:
                near, _ = self.door.accept()
            except OSError:
                return
            with self.lock:
                if self.is_cut:
                    near.close()
                    continue
                try:
                    far = socket.create_connection(("127.0.0.1", self.port))
                except OSError:
                    near.close()
                    continue
                self.ends += [near, far]
            self.start(self.pass_on, near, far, False)
            self.start(self.pass_on, far, near, True)

    def pass_on(self, one: socket.socket, other: socket.socket, is_answer: bool) -> None:
        try:
            while data := one.recv(65536):
                if is_answer and self.loses_answer and b'"outcome"' in data:
                    # The office has done it, and the device doesn't hear of that.
                    self.loses_answer = False
                    self.cut()
                    return
                if not is_answer:
                    self.wait(data)
                if self.is_cut:
                    return
                other.sendall(data)
        except OSError:
            pass
        finally:
            for end in (one, other):
                shut(end)

    def wait(self, request: bytes) -> None:
        time.sleep(self.slow)
        while self.held and self.held in request.split(b"\r")[0] and not self.is_cut:
            time.sleep(0.02)

    def cut(self) -> None:
        with self.lock:
            self.is_cut = True
            for end in self.ends:
                shut(end)
            self.ends.clear()

    def mend(self) -> None:
        self.is_cut = False

    def close(self) -> None:
        self.cut()
        shut(self.door)
        self.door.close()


def shut(end: socket.socket) -> None:
    try:
        end.shutdown(socket.SHUT_RDWR)
    except OSError:
        pass
