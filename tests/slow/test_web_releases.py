"""The finish page on a phone while the office gets other files, in Chromium: a page has all its files of one release, with
a connection or without."""
from __future__ import annotations

import os
import shutil
import tempfile
import unittest

import browser
from devices import Device, chromium_of
from raceoffice.web.routes import STATIC, static_files
from stub_office import StubOffice
from web_office import SAILS

READY = "navigator.serviceWorker.ready.then(() => !!navigator.serviceWorker.controller)"
LIVE = "document.querySelector('#link')?.dataset.state === 'live'"
SIGN = "document.querySelector('#link').textContent"
HELD = "Object.keys(localStorage).filter(key => key.startsWith('tap:')).length"
# The releases of all scripts that this page has run
RUN = "[...new Set(window.releases)].join(' ')"
# Parts of the page that come when they are needed
LATER = "Promise.all(['answers', 'start'].map(name => import(`/office/static/finish-${name}.js`))).then(() => true)"


def release(name: str) -> dict[str, tuple[str, bytes]]:
    """The files of an office of which each script of the finish page says whose it is."""
    with tempfile.TemporaryDirectory() as folder:
        top = os.path.join(folder, "static")
        shutil.copytree(STATIC, top)
        for file in os.listdir(top):
            if file.endswith(".js") and file != "worker.js":
                with open(os.path.join(top, file), "a", encoding="utf-8") as script:
                    script.write(f'\n(globalThis.releases ??= []).push("{name}");\n')
        return static_files(top)


class Names(unittest.TestCase):
    """What the worker keeps has another name with each release."""

    def test_each_file(self) -> None:
        """A change of any file changes the worker, and so the name of what it keeps."""
        before = static_files()
        with tempfile.TemporaryDirectory() as folder:
            top = os.path.join(folder, "static")
            shutil.copytree(STATIC, top)
            for name in sorted({*before} - {"worker.js"}):
                with open(os.path.join(top, name), "ab") as file:
                    size = file.tell()
                    file.write(b"\nanother\n")
                    file.flush()
                    self.assertNotEqual(static_files(top)["worker.js"], before["worker.js"], name)
                    file.truncate(size)
        self.assertEqual(static_files()["worker.js"], before["worker.js"])


@unittest.skipUnless(browser.program(), "Chromium isn't installed")
class Releases(unittest.TestCase):
    """A phone that keeps the page, and an office that gets other files."""

    def setUp(self) -> None:
        self.office = StubOffice()
        self.addCleanup(self.office.close)
        self.chromium = chromium_of(self)
        self.office.files = release("one")
        self.phone = Device(self.chromium, 390, 844, touch=True)
        self.phone.open(self.office.address("/office/finish/"))
        self.phone.until(f"{LIVE} && {READY}")

    def ran(self, name: str) -> None:
        """Checks that all scripts of the page are of one release, also those that come later."""
        self.phone.until(LIVE)
        self.assertTrue(self.phone.run(LATER))
        self.assertEqual(self.phone.run(RUN), name)

    def kept(self) -> list[str]:
        found: list[str] = self.phone.run("caches.keys()")
        return found

    def test_another_release(self) -> None:
        """A page that is open when the office gets other files goes on with its own. One that is loaded later has all of
        either, and once the others are kept it has those; then the first ones have gone."""
        first = self.kept()
        self.office.files = release("two")
        self.ran("one")
        self.phone.reload()
        self.ran("one")
        self.phone.until("navigator.serviceWorker.ready.then(one => !!one.waiting)")
        self.phone.reload()
        self.phone.until(f"{RUN} === 'two'")
        self.ran("two")
        self.phone.until("caches.keys().then(names => names.length === 1)")
        self.assertNotEqual(self.kept(), first)

    def test_half_of_a_release(self) -> None:
        """The office gets other files while a phone is fetching some: the phone keeps those that it has, whole."""
        first, third = self.kept(), release("three")
        self.office.files = {**release("two"), "finish-list.js": third["finish-list.js"]}
        self.phone.run("""(async () => {
            const found = await navigator.serviceWorker.ready;
            window.isOver = false;
            found.addEventListener("updatefound", () => {
                const coming = found.installing;
                coming.addEventListener("statechange", () => { window.isOver ||= coming.state === "redundant"; });
            });
            await found.update();
        })()""")
        self.phone.until("window.isOver")
        self.assertEqual(self.kept(), first)
        self.phone.reload()
        self.ran("one")

    def parted(self, script: str) -> Device:
        """A phone without one part of its page, which nothing keeps; and then the office gets other files, of which that part
        begins so and doesn't fit the others of the first ones. A tap is asked about."""
        self.office.files = {name: file for name, file in release("one").items() if name != "finish-answers.js"}
        self.office.line = 409, {"outcome": "asked", "question": {"kind": "another", "values": {}, "text": "Is she?"}}
        phone = Device(self.chromium, 390, 844, touch=True)
        phone.open(self.office.address("/office/finish/"))
        phone.until(LIVE)
        files = release("two")
        for name, more in (("texts.js", "export const other = true;"), ("finish-answers.js", script)):
            kind, data = files[name]
            files[name] = kind, data + f"{more}\n".encode()
        self.office.files = files
        # A page may ask whether it is to be left only after a finger was on it.
        phone.ask("Runtime.evaluate", expression="window.isFirst = true", userGesture=True)
        self.assertTrue(phone.run("navigator.userActivation.hasBeenActive"))
        phone.tap(SAILS[20])
        return phone

    def test_a_part_that_does_not_fit(self) -> None:
        """A page whose part comes from another release loads itself again, with its tap, and shows what is asked."""
        phone = self.parted('import {other} from "./texts.js";')
        phone.until("document.querySelector('dialog[open]')?.textContent.includes('Is she?')")
        self.assertFalse(phone.run("!!window.isFirst"))
        self.assertEqual(phone.run(HELD), 1)

    def test_no_part_ever_fits(self) -> None:
        """If the office's own files don't fit each other, the page loads itself once and no more."""
        phone = self.parted('import {none} from "./texts.js";')
        phone.until(f"!window.isFirst && {SIGN} === 'Answer needed'")
        self.assertFalse(phone.run("""import('/office/static/finish-state.js').then(async ({page, withPart}) => {
            await withPart('answers', () => {});
            return !!page.isLoading;
        })"""))
        phone.until("document.querySelector('#alarm').textContent === 'The office isn’t reached.'")
        self.assertEqual(phone.run(HELD), 1)


if __name__ == "__main__":
    unittest.main()
