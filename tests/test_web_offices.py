"""Offices that are kept, opened or closed elsewhere at the same moment: by a window that is killed, at the terminal, or at the
end of the web."""
from __future__ import annotations

import contextlib
import os
import pty
import re
import signal
import subprocess
import unittest
from typing import Any

import helpers
from raceoffice.program.link import Link
from web_devices import READY, Device, Web

FLEET = "Sail,Boat\nGBR 33,Fulmar\nNED 80,Sterna\n"
LINK = ("cup", "office", "race.sock")


def said(device: Device, method: str, path: str, body: object = None) -> Any:
    """What a device is answered over a connection of its own: it may have rested."""
    again = device.again()
    with contextlib.closing(again.link):
        status, values = again.ask(method, path, body)
        return {"status": status, **values}


class WindowGone(Web):
    """A terminal's window has the office, the web joins it, and the window is killed."""

    def prepare(self) -> None:
        self.window_there = self.open()

    def setUp(self) -> None:
        super().setUp()
        self.finish, self.scorer = self.device("finish"), self.device("scorer", "Bea")
        self.assertEqual(self.office(), (True, False, True))
        self.assertTrue(said(self.scorer, "GET", "/office/scorer/rules/cup")["is_open"])

    def office(self) -> tuple[bool, bool, bool]:
        """Whether the office is open, and whether this web or a window keeps it."""
        one, = said(self.scorer, "GET", "/office/scorer/devices")["offices"]
        return one["open"], one["is_kept_here"], one["has_window"]

    def kill_window(self) -> None:
        self.window_there.process.kill()
        self.window_there.process.wait()

    def need_taken_over(self) -> None:
        """It goes on, nobody keeps it, and the scorer takes it over."""
        self.assertEqual(said(self.finish, "POST", "/office/finish/line/cup", self.tap("FINISH 1 GBR101"))["status"], 200)
        self.assertEqual(self.office(), (True, False, False))
        self.assertFalse(said(self.scorer, "GET", "/office/scorer/rules/cup")["is_open"])
        refused = said(self.scorer, "POST", "/office/scorer/reopen/cup", {})
        self.assertEqual((refused["status"], refused["said"][0]["kind"]), (422, "window-gone"))
        self.assertTrue(said(self.scorer, "POST", "/office/scorer/open/cup", {})["open"])
        self.assertEqual(self.office(), (True, True, True))
        self.assertEqual(said(self.finish, "POST", "/office/finish/line/cup", self.tap("FINISH 1 GBR7"))["status"], 200)
        self.assertEqual(self.journal(), ["FINISH FINISH 1 GBR101", "FINISH FINISH 1 GBR7"])
        self.close()
        self.assertIn("Closed. journal.txt has 14 entries", self.said())

    @staticmethod
    def tap(line: str) -> dict[str, object]:
        return {"id": os.urandom(16).hex(), "line": line, "at": 1, "seen": 0}

    def test_killed(self) -> None:
        """The scorer's page knows that nobody copies the journal any more."""
        self.kill_window()
        self.need_taken_over()

    def test_killed_as_it_closes(self) -> None:
        """Nor is its note believed that the office is being closed: taps are done."""
        program = int(self.text("cup", "office", "pid").split()[0])
        helpers.freeze(program)
        try:
            self.window_there.process.terminate()
            helpers.until("the note", lambda: os.path.exists(os.path.join(self.here, "cup", "office", "closing")))
            self.kill_window()
        finally:
            os.kill(program, signal.SIGCONT)
        helpers.until("the office", lambda: not said(self.finish, "GET", "/office/finish/state/cup")["trouble"])
        self.need_taken_over()


class Together(Web):
    """Two series, of which something happens to the second one while the first one is opened, or closed."""

    def prepare(self) -> None:
        self.make("fleet", FLEET, **{"class": "Folkboats"})

    def serve_fleet(self, scorer: Device) -> Any:
        return said(scorer, "POST", "/office/scorer/serve", {"name": "fleet"})

    def test_served_while_another_asks(self) -> None:
        """While the first one asks at the terminal, the page has none that is still to come opened: each is served once."""
        scorer = self.device("scorer", "Bea")
        self.close()
        text = self.text("cup", "series.ini")
        self.write(re.sub("(?m)^exclude = .*$", "exclude = 4", text), "cup", "series.ini")
        master, slave = pty.openpty()
        self.addCleanup(os.close, master)
        with open(self.printed, "ab") as out:
            self.web = subprocess.Popen([*helpers.COMMAND, "serve", "cup", "fleet", "--http", str(self.port)], cwd=self.here,
                                        stdin=slave, stdout=out, stderr=out)
        os.close(slave)
        helpers.until("the question", lambda: "[y/N]" in self.said())
        self.assertEqual(said(scorer, "GET", "/office/scorer/devices")["beside"], [])
        self.assertEqual(self.serve_fleet(scorer)["status"], 422)
        os.write(master, b"y\n")
        helpers.until("the web", lambda: self.said().count(READY) == 2 or self.web.poll() is not None)
        self.assertNotIn("isn't served", self.said())
        offices = said(scorer, "GET", "/office/scorer/devices")["offices"]
        self.assertEqual([(one["class"], one["open"]) for one in offices], [("cup", True), ("fleet", True)])

    def test_served_while_the_web_ends(self) -> None:
        """Nothing is opened any more that nobody would close."""
        scorer = self.device("scorer", "Bea")
        with contextlib.closing(Link(os.path.join(self.here, *LINK))):
            self.web.send_signal(signal.SIGTERM)
            helpers.until("the closing", lambda: os.path.exists(os.path.join(self.here, "cup", "office", "closing")))
            for what, values in (("serve", {"name": "fleet"}), ("new", {"name": "new"})):
                refused = said(scorer, "POST", f"/office/scorer/{what}", values)
                self.assertEqual((refused["status"], refused["said"][0]["kind"]), (503, "office-closing"), what)
        self.assertEqual(self.web.wait(helpers.PATIENCE), 0)
        self.assertFalse(os.path.exists(os.path.join(self.here, "fleet", "office", "pid")))


if __name__ == "__main__":
    unittest.main()
