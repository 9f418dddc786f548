"""`raceoffice serve` without a folder, where there are series already."""
from __future__ import annotations

import json
import os
import re
import shutil
import stat
import unittest

import helpers
import test_web_qr
from raceoffice.web.requests import hashed

ASKED = r"\? The results aren't final yet\. \[Y/n\] $"


class Here(helpers.Series):
    """Three series: one is final, and another has the devices of the last time."""

    def setUp(self) -> None:
        super().setUp()
        self.make("fleet", title="Folkboats")
        self.make("old", state="final")
        self.write("No series.\n", "notes.txt")
        os.mkdir(os.path.join(self.here, "fleet", "office"))
        self.write("{}", "fleet", "office", "web.json")
        for name in ("cup", "fleet"):
            self.addCleanup(helpers.kill_office, os.path.join(self.here, name))

    def asked(self) -> helpers.Terminal:
        window = self.window("serve", "--http", str(helpers.free_port(self)))
        self.assertEqual(window.read(ASKED).splitlines()[-1], "Open fleet and cup? The results aren't final yet. [Y/n] ")
        return window

    def test_yes(self) -> None:
        """Enter alone opens both."""
        window = self.asked()
        window.type("")
        said = window.read(r"Ctrl-C closes the office\.")
        self.assertEqual(said.count("The office is open."), 2)
        window.press()
        window.rest()

    def test_devices_of_a_final_series(self) -> None:
        """Links and devices that a series had which is final by now are those of one that has none, if that is wanted."""
        ann = {"mark": "f" * 64, "role": "FINISH", "name": "Ann", "since": 1.0, "heard": 1.0}
        held = {"keys": {"FINISH": hashed("gybe")}, "devices": {"f" * 64: ann}}
        os.mkdir(os.path.join(self.here, "old", "office"))
        self.write(json.dumps(held), "old", "office", "web.json")
        # A series that has links of its own keeps them.
        window = self.asked()
        window.type("")
        self.assertNotIn("Use those of", window.read(r"Ctrl-C closes the office\."))
        window.press()
        window.rest()
        os.remove(os.path.join(self.here, "fleet", "office", "web.json"))
        for answer, was_used in [("n", False), ("", True)]:
            window = self.window("serve", "--http", str(helpers.free_port(self)))
            window.read(ASKED)
            window.type("")
            window.read(r"cup has no links yet\. Use those of old, which is final\? They let in Ann \(finish\)\. \[Y/n\] $")
            window.type(answer)
            self.assertEqual("Finish " not in window.read(r"Ctrl-C closes the office\."), was_used)
            window.press()
            window.rest()
            path = os.path.join(self.here, "cup", "office", "web.json")
            self.assertEqual("Ann" in self.text("cup", "office", "web.json"), was_used)
            self.assertEqual(stat.S_IMODE(os.stat(path).st_mode), 0o600)
            os.remove(path)
        # Links of weeks ago are asked about no more.
        os.utime(os.path.join(self.here, "old", "office", "web.json"), (1e9, 1e9))
        window = self.window("serve", "--http", str(helpers.free_port(self)))
        window.read(ASKED)
        window.type("")
        self.assertNotIn("Use those of", window.read(r"Ctrl-C closes the office\."))
        window.press()
        window.rest()

    def test_served_already(self) -> None:
        """Where a series is served already is said before anything is asked, also if the series that has the links is final by
        now, and before it is said that the port is taken."""
        port = str(helpers.free_port(self))
        first = self.window("serve", "fleet", "cup", "--http", port)
        first.read(r"Ctrl-C closes the office\.")
        self.write(self.text("fleet", "series.ini").replace("state = provisional", "state = final"), "fleet", "series.ini")
        for words in list[list[str]](([], ["cup"])):
            window = self.window("serve", *words, "--http", port)
            said = window.read(r"\n$|\] $")
            self.assertRegex(said, rf"^\S*cup is served to browsers already, at http://\S+:{port}/\.")
            self.assertEqual(window.rest()[1], 1)
        first.press()
        first.rest()

    def test_no(self) -> None:
        """Otherwise the scorer's page makes a series."""
        window = self.asked()
        window.type("n")
        self.assertNotIn("The office is open.", window.read(r"Ctrl-C closes the office\."))
        window.press()
        window.rest()

    def browser(self) -> str:
        """A program in place of a browser, which writes the address that it is given to opened.txt."""
        self.write(f'#!/bin/sh\necho "$1" > {self.here}/opened.txt\n', "browser")
        script = os.path.join(self.here, "browser")
        os.chmod(script, 0o700)
        return script

    def test_screen(self) -> None:
        """Without a series the page on which one is made opens by itself where there is a screen."""
        for name in ("cup", "fleet", "old"):
            shutil.rmtree(os.path.join(self.here, name))
        for screen in ("", ":0"):
            window = helpers.Terminal(*helpers.COMMAND, "serve", "--http", str(helpers.free_port(self)), cwd=self.here,
                                      BROWSER=self.browser(), DISPLAY=screen, WAYLAND_DISPLAY="")
            self.addCleanup(window.close)
            window.read(r"Ctrl-C closes the office\.")
            opened = os.path.exists(os.path.join(self.here, "opened.txt"))
            self.assertEqual(opened, bool(screen))
            window.press()
            window.rest()
        self.assertRegex(self.text("opened.txt"), r"^http://\S+/office/in#scorer\.\S+\n$")

    def test_code(self) -> None:
        """At a terminal each link has its code, which cameras read. --browser opens the scorer's page here, by a link that isn't
        shown."""
        window = helpers.Terminal(*helpers.COMMAND, "serve", "cup", "--browser", "--http", str(helpers.free_port(self)),
                                  cwd=self.here, BROWSER=self.browser())
        self.addCleanup(window.close)
        said = window.read(r"Ctrl-C closes the office\.")
        links = re.findall(r"^(?:Finish|Jury|Scorer) +(\S+)$", said, re.MULTILINE)
        shown = re.findall(r"(?:\x1b\[97;40m[^\x1b]+\x1b\[0m\s+)+", said)
        self.assertEqual([test_web_qr.read(rows_of(one)) for one in shown], links)
        self.assertEqual(len(links), 3)
        opened = self.text("opened.txt").strip()
        self.assertEqual((opened.rpartition(".")[0], opened in links), (links[2].rpartition(".")[0], False))
        window.press()
        window.rest()

    def test_slip(self) -> None:
        """A series whose settings can't be read isn't left out without a word: nothing is opened."""
        self.write("[series]\ntitel = Cup\n", "cup", "series.ini")
        said, status = helpers.run("serve", "--http", str(helpers.free_port(self)), cwd=self.here)
        self.assertEqual(status, 1, said)
        self.assertIn("cup: series.ini, line 2: [series] has no key 'titel'", said)
        self.assertIn("Put that right, or name the folders that are to be opened.", said)
        self.assertNotIn("http://", said)


def rows_of(shown: str) -> list[list[int]]:
    """The places of a code that a terminal shows, dark as 1: two rows in a line, in an edge of two."""
    signs = {"\u2588": (0, 0), "\u2580": (0, 1), "\u2584": (1, 0), " ": (1, 1)}
    rows: list[list[int]] = []
    for line in re.findall(r"\x1b\[97;40m([^\x1b]+)\x1b\[0m", shown):
        rows += [[signs[sign][at] for sign in line] for at in (0, 1)]
    size = len(rows[0])
    return [row[2:-2] for row in rows[2:size - 2]]


if __name__ == "__main__":
    unittest.main()
