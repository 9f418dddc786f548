"""Undo on the scorer's page, in Chromium over the real program."""
from __future__ import annotations

import unittest

import helpers
import web_devices
from devices import Device
from web_office import WebTrial


class Undo(WebTrial):
    """A scorer who takes back what was done last."""

    def send(self, scorer: Device, words: str) -> None:
        scorer.type("#typed", words)
        scorer.press("Send")

    def is_last(self, scorer: Device, words: str) -> None:
        """Waits until the button says what is taken back; it does nothing if there is nothing."""
        scorer.until(f"document.querySelector('#undo')?.textContent === {words!r} && document.querySelector('#undo').disabled === {str(words == 'Undo').lower()}")

    def refused(self, scorer: Device, words: str) -> None:
        """Undo is typed, and it is said why nothing is sent."""
        self.send(scorer, "undo")
        scorer.until(f"document.querySelector('#alarm').textContent.startsWith({words!r})")

    def test_undo(self) -> None:
        """By the button or typed, also on a page that was loaded again, after a question; and an undo itself. Where no line
        does it, it is said why."""
        finish = web_devices.Device(self.port, "finish").come(self.links["finish"], "Ann")
        for sail in ("GBR101", "GBR7", "NED12"):
            self.assertEqual(finish.tap(f"FINISH 1 {sail}")[0], 200)
        scorer = self.device("scorer", "Bea’s laptop")
        self.is_last(scorer, "Undo")
        self.refused(scorer, "Nothing has been done here yet")
        self.send(scorer, "strike 1 7")
        self.is_last(scorer, "Undo STRIKE 1 GBR7")
        scorer.reload()
        self.is_last(scorer, "Undo STRIKE 1 GBR7")
        before = self.journal()
        scorer.click("#undo")
        scorer.until("document.querySelector('dialog[open] p')?.textContent === 'Undo STRIKE 1 GBR7'")
        scorer.choose("")
        self.send(scorer, "UNDO")
        scorer.choose("yes")
        self.is_last(scorer, "Undo BEFORE 1 GBR7 NED12")
        scorer.click("#undo")
        scorer.choose("yes")
        self.is_last(scorer, "Undo STRIKE 1 GBR7")
        self.assertEqual(self.journal()[len(before):], ["SCORER BEFORE 1 GBR7 NED12", "SCORER STRIKE 1 GBR7"])
        self.several(scorer)
        self.need_no_faults()

    def test_typed_meanwhile(self) -> None:
        """What the scorer has typed stays while the only finisher is struck, and the race has no order from then on."""
        finish = web_devices.Device(self.port, "finish").come(self.links["finish"], "Ann")
        self.assertEqual(finish.tap("FINISH 1 GBR101")[0], 200)
        scorer = self.device("scorer", "Bea’s laptop")
        scorer.until("!!document.querySelector('.order tr[data-sail=GBR101]')")
        scorer.type("#typed", "mark 1 33 dnf")
        self.assertEqual(finish.tap("STRIKE 1 GBR101")[0], 200)
        scorer.until("!document.querySelector('.order tr[data-sail=GBR101]')")
        self.assertEqual(scorer.run("document.querySelector('#typed').value"), "mark 1 33 dnf")
        self.need_no_faults()

    def several(self, scorer: Device) -> None:
        """What took several lines: a boat that is moved, and a race that is abandoned."""
        scorer.click(".order tr[data-sail=NED12] th button")
        scorer.choose("move")
        scorer.until("document.querySelectorAll('dialog[open] .stack button').length === 4")
        scorer.choose("ahead")
        scorer.click("dialog[open] [data-sail=GBR101]")
        self.is_last(scorer, "Undo")
        self.refused(scorer, "A correction of several lines")
        scorer.click("#abandon")
        scorer.choose("yes")
        scorer.until("!document.querySelector('.order')")
        self.is_last(scorer, "Undo")
        self.refused(scorer, "Race 1 was taken away by 2 lines")

    def test_entered(self) -> None:
        """A late entry isn't offered for undo, neither while she is in the journal nor once she was taken out."""
        scorer = self.device("scorer", "Bea’s laptop")
        self.send(scorer, "mark 1 7 dnf")
        self.is_last(scorer, "Undo MARK 1 GBR7 DNF")
        self.send(scorer, "enter aus 333")
        scorer.choose("yes")
        self.is_last(scorer, "Undo")
        self.refused(scorer, "AUS 333 stays while the office is open")
        scorer.click("#take-out")
        scorer.click("dialog button[data-sail=AUS333]")
        scorer.choose("yes")
        helpers.until("a journal without her", lambda: "AUS333" not in self.text("cup", "journal.txt"))
        self.is_last(scorer, "Undo")
        self.need_no_faults()


if __name__ == "__main__":
    unittest.main()
