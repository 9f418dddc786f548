"""A folder of a class is on a drive that answers nobody any more: the other classes of the computer go on."""
from __future__ import annotations

import contextlib
import http.client
import os
import signal
import subprocess
import threading
import time
import unittest
from typing import Any
from unittest import mock

import helpers
from hanging_folder import Dead
from raceoffice import side_by_side, system
from raceoffice.series.folder import Folder
from raceoffice.series.kept_places import history_of
from raceoffice.side_by_side import PATIENCE
from raceoffice.web import series_beside
from web_devices import Device, Web, new_id

FLEET = "Sail,Boat\nGBR 33,Fulmar\nNED 80,Sterna\n"
# Seconds within which whoever waits for nothing that hangs is answered.
SOON = 30.0
# So many devices with so many requests each would have all threads of their role.
DEVICES, REQUESTS = 4, 3


class Beside(Web):
    """The folder of `dart` dies, the web serves `cup`."""

    def prepare(self) -> None:
        self.make("dart", FLEET, **{"class": "Darts"})
        self.dead = Dead(self, os.path.join(self.here, "dart"))

    def soon(self, device: Device, method: str, path: str, body: object = None) -> tuple[int, Any]:
        """What a device is answered, unless it has to wait."""
        again = device.again()
        again.link.timeout = SOON
        try:
            return again.ask(method, path, body)
        finally:
            again.link.close()

    def tap(self, device: Device, line: str, name: str = "cup") -> tuple[int, Any]:
        values = {"id": new_id(), "line": line, "at": 1, "seen": 0}
        return self.soon(device, "POST", f"/office/{device.role}/line/{name}", values)

    def offices(self, scorer: Device) -> dict[str, tuple[bool, bool]]:
        """Whether each office is open, and whether it is away."""
        status, said = self.soon(scorer, "GET", "/office/scorer/devices")
        self.assertEqual(status, 200, said)
        return {one["class"]: (one["open"], one["is_away"]) for one in said["offices"]}


class Window(Beside):
    """A terminal's window has the office of `dart`, and the two have nothing in common."""

    def prepare(self) -> None:
        super().prepare()
        self.open("dart")

    def test_others_go_on(self) -> None:
        """Each link to an office is made, and each command ends, without a look at that one's folder. It isn't among the
        series that the scorer may have served."""
        scorer = self.device("scorer", "Bea")
        self.assertEqual([one["name"] for one in self.soon(scorer, "GET", "/office/scorer/devices")[1]["beside"]], ["dart"])
        self.dead.begin()
        self.assertEqual(self.tap(self.device("finish"), "FINISH 1 GBR101")[0], 200)
        status, said = self.soon(scorer, "GET", "/office/scorer/devices")
        self.assertEqual((status, said["beside"]), (200, []), said)
        self.assertIn("13 entries", self.checked())
        self.web.send_signal(signal.SIGTERM)
        self.assertEqual(self.web.wait(SOON), 0)

    def checked(self) -> str:
        """What `raceoffice check cup` says of the office that is open."""
        done = subprocess.run([*helpers.COMMAND, "check", "cup"], cwd=self.here, encoding="utf-8", stdout=subprocess.PIPE,
                              stderr=subprocess.STDOUT, timeout=SOON)
        return done.stdout


class ManyFolders(helpers.Series):
    def test_threads(self) -> None:
        """A folder of a computer has thousands of others: they are asked for series in one thread. A link has a thread of its
        own, and so has a drive: it may hang."""
        for name, state in (("dart", "final"), ("ketch", "provisional")):
            self.make(name, FLEET, title=name.capitalize(), state=state)
        for number in range(40):
            os.mkdir(os.path.join(self.here, f"folder-{number}"))
        os.symlink(os.path.join(self.here, "dart"), os.path.join(self.here, "link"))
        reading, drive = series_beside.Reading(), system.Mount(0, ["rw"])
        with mock.patch.object(system, "mounts", return_value={os.path.join(os.path.realpath(self.here), "ketch"): drive}), \
                mock.patch.object(side_by_side, "answer_of", side_effect=side_by_side.answer_of) as asked:
            found = series_beside.series_beside(self.here, ["cup"], reading)
        self.assertEqual([(one["name"], one["title"], one["state"]) for one in found],
                         [("dart", "Dart", "final"), ("ketch", "Ketch", "provisional"), ("link", "Dart", "final")])
        self.assertEqual(asked.call_count, 3)


class Served(Beside):
    """The web serves both."""
    words = ("cup", "dart")

    def hang(self, device: Device) -> None:
        """Has a device ask for what hangs."""
        def ask() -> None:
            with contextlib.suppress(OSError, http.client.HTTPException):
                device.again().ask("GET", "/office/scorer/listed/dart")
        threading.Thread(target=ask, daemon=True).start()

    def test_others_go_on(self) -> None:
        """Taps, the board and what asks all classes are answered for the others; that one is away until it answers again."""
        finish, scorer = self.device("finish"), self.device("scorer", "Bea")
        self.assertEqual(self.offices(scorer), {"cup": (True, False), "dart": (True, False)})
        self.dead.begin()
        self.assertEqual(self.tap(finish, "FINISH 1 GBR101")[0], 200)
        self.assertEqual(self.tap(scorer, "FINISH 1 GBR7")[0], 200)
        self.assertEqual(self.offices(scorer), {"cup": (True, False), "dart": (False, True)})
        helpers.until("the board", lambda: "GBR 7" in str(self.soon(finish, "GET", "/cup/race-1.html")[1]), SOON)
        status, said = self.soon(scorer, "GET", "/office/scorer/export/csv")
        self.assertEqual((status, "GBR 101" in said, "NED 80" in said), (200, True, False), said)
        self.assertIn("dart doesn't answer", self.said())
        self.dead.end()
        helpers.until("the class", lambda: self.offices(scorer)["dart"] == (True, False), SOON)
        self.assertEqual(self.tap(finish, "FINISH 1 NED80", "dart")[0], 200)

    def test_a_finisher_of_both(self) -> None:
        """Nor do those who are kept in both classes hold up the other: once that one answers, their places end there, too."""
        window = self.client("cup", "dart", "--role", "finish")
        for line in ("cup at 1", "dart at 1", "?"):
            window.say(line, "> $")
        self.dead.begin()
        finish = self.device("finish")
        self.assertEqual(self.tap(finish, "FINISH 1 GBR101")[0], 200)
        self.assertEqual(self.tap(finish, "?1 1 GBR7")[0], 200)
        took: list[float] = []
        # The best of three, since others use the processors, too
        for sail in ("NED12", "GBR33", "IRL5"):
            begun = time.monotonic()
            self.assertEqual(self.tap(finish, f"FINISH 1 {sail}")[0], 200)
            took.append(time.monotonic() - begun)
        self.assertLess(min(took), PATIENCE)
        self.dead.end()
        self.assertEqual((self.kept("cup"), self.kept("dart")), ([], ["?1"]))
        self.assertEqual(self.tap(finish, "FINISH 1 FRA9")[0], 200)
        # Whoever looks before that folder's late answer has come leaves the class out once more.
        helpers.until("the end of her place there", lambda: self.tap(finish, "FINISH 1 FRA9") and not self.kept("dart"), SOON)
        self.assertEqual(self.kept("cup"), [])

    def kept(self, name: str) -> list[str]:
        """The places that a class keeps, as its files have them."""
        return [unread.mark for unread in history_of(Folder(os.path.join(self.here, name))).waiting.all]

    def test_many_wait(self) -> None:
        """However many requests of a role wait for that class, those for others are answered."""
        devices = [self.device("scorer", f"Bea {number}") for number in range(DEVICES)]
        self.dead.begin()
        for device in devices * REQUESTS:
            self.hang(device)
        time.sleep(1.0)
        for device in devices:
            self.assertEqual(self.soon(device, "GET", "/office/scorer/listed/cup")[0], 200)
            self.assertEqual(self.soon(device, "GET", "/office/scorer/devices")[0], 200)

    def test_closing(self) -> None:
        """The others are closed, and that one once it answers."""
        self.dead.begin()
        self.web.send_signal(signal.SIGTERM)
        helpers.until("the closing of the other", lambda: "cup: " in self.said() and "Closed." in self.said(), SOON)
        self.assertIsNone(self.web.poll())
        self.assertNotRegex(self.said(), "(?m)^dart: .*Closed")
        self.dead.end()
        self.assertEqual(self.web.wait(helpers.PATIENCE), 0)
        self.assertRegex(self.said(), "(?m)^dart: .*Closed")


if __name__ == "__main__":
    unittest.main()
