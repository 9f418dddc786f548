"""Taps that a phone has held since last week, and this week's series of the same name, in Chromium."""
from __future__ import annotations

import os
import unittest

import helpers
import web_devices
from devices import Device
from web_office import WebTrial, finishes

WAITING = "Object.keys(localStorage).filter(key => key.startsWith('tap:')).map(key => JSON.parse(localStorage.getItem(key)))"


class WeekTrial(WebTrial):
    """A series, and next week another one of its name."""

    def next_week(self, phone: Device) -> None:
        """Serves the next series, to which a phone comes."""
        phone.ask("Page.navigate", url="about:blank")
        os.rename(os.path.join(self.here, "cup"), os.path.join(self.here, "last week"))
        self.make("cup", self.classes["cup"], title="Next Cup", **self.settings)
        self.prepare()
        self.links.clear()
        os.remove(self.output)
        self.start()
        phone.come(self.address(self.links["finish"]), "Ann’s phone")

    def prepare(self) -> None:
        """Makes what the series has besides."""


class NextWeek(WeekTrial):
    """A class by places."""

    def test_taps_of_last_week(self) -> None:
        """A phone without a connection holds taps of `cup`. A new series is served under that name: the phone asks about
        each, and the order has none that nobody has agreed to."""
        ann = self.phone()
        self.settle(ann)
        self.end()
        for sail in ("GBR7", "NED12"):
            ann.tap(sail)
        ann.until("document.querySelector('#link').dataset.state === 'away'")
        self.next_week(ann)
        ann.until(f"{WAITING}.some(one => one.state === 'asked' && one.question.kind === 'another-series')")
        ann.until("!!document.querySelector('dialog[open]')")
        self.assertIn("Record it in Next Cup all the same?", ann.text("dialog[open]"))
        self.assertEqual(self.journal(), [])
        ann.choose("yes")
        helpers.until("the first of them", lambda: self.journal() == finishes("GBR7"))
        ann.until(f"{WAITING}.some(one => one.state === 'asked' && one.line === 'FINISH 1 NED12')")
        self.assertEqual(self.journal(), finishes("GBR7"))

    def test_races(self) -> None:
        """A phone that recorded race 3 last week records the first race of this week's series, and has nothing to undo."""
        ann = self.phone()
        ann.click(".race")
        ann.click("dialog [data-race='3']")
        ann.tap("GBR7")
        self.settle(ann)
        self.end()
        self.next_week(ann)
        ann.until("document.querySelector('.race b').textContent === '1' && document.querySelector('#undo').disabled")
        ann.tap("NED12")
        self.settle(ann)
        self.assertEqual(self.journal(), finishes("NED12"))


@helpers.needs_times
class Timed(WeekTrial):
    """By corrected time: the moment of a sail that wasn't read stays on the phone."""
    classes = {"cup": "Sail,Boat,TCF\nGBR 101,Kestrel,1.000\nGBR 7,Sea Pink,0.900\nNED 12,Windhover,1.250\n"}
    settings = {"handicap": "yes", "zone": "UTC"}

    def start(self) -> None:
        self.prepare()
        super().start()

    def prepare(self) -> None:
        os.makedirs(os.path.join(self.here, "cup", "times"), exist_ok=True)
        self.write(f"[times]\nsystem = tcf\nprogram = {helpers.TIMES}\n", "cup", "times", "rules.ini")

    def test_moments_of_last_week(self) -> None:
        """What a phone kept of a sail that wasn't read isn't shown in the next series, nor counted among the taps that the phone
        holds. It keeps others of that."""
        ann, rows = self.phone(), "document.querySelectorAll('#list li.unread').length"
        ann.until("!!document.querySelector('#grid .boat')")
        ann.click("#unread")
        ann.until(f"{rows} === 1")
        self.end()
        self.next_week(ann)
        ann.until("document.querySelectorAll('#grid .boat').length === 3")
        ann.until(f"{rows} === 0")
        scorer = web_devices.Device(self.port, "scorer").come(self.links["scorer"], "Bea")

        def held() -> list[int]:
            shown = scorer.ask("GET", "/office/scorer/devices")[1]["devices"]
            return [device["unsent"] for device in shown if device["role"] == "FINISH"]
        helpers.until("a phone that holds nothing", lambda: held() == [0])
        ann.click("#unread")
        ann.until(f"{rows} === 1")
        helpers.until("a phone that holds one", lambda: held() == [1])
        self.assertEqual(ann.texts("#list li.unread .sail"), ["?1"])


if __name__ == "__main__":
    unittest.main()
