"""Undo on the finish page in Chromium, of a tap that was sent and whose answer never came: whatever became of the tap, the
boat isn't in the order once the phone has a connection again."""
from __future__ import annotations

import json
import unittest

import helpers
from devices import Device, Line
from web_office import WebTrial, finishes

ROWS = "#list li .sail"
OFFLINE = "document.querySelector('#link').dataset.state === 'away'"
ITEMS = ("JSON.stringify(Object.keys(localStorage).filter(key => key.startsWith('tap:')).sort()"
         ".map(key => JSON.parse(localStorage.getItem(key))))")


class LostUndo(WebTrial):
    """One phone, and a network that loses a request, or the answer."""

    def lost(self, *sails: str, is_answer: bool) -> tuple[Device, Line]:
        """A phone with a finisher that was recorded, and others: the answer to the first of them is lost, or her request."""
        line = self.line()
        ann = self.phone(port=line.own)
        ann.until("navigator.serviceWorker.ready.then(() => !!navigator.serviceWorker.controller)")
        ann.tap("GBR101")
        self.settle(ann)
        if is_answer:
            line.loses_answer = True
        else:
            line.cut()
        for sail in sails:
            ann.tap(sail)
        ann.until(OFFLINE)
        ann.until(f"JSON.parse({ITEMS})[0].isSent && JSON.parse({ITEMS})[0].state === 'unsent'")
        self.assertEqual(self.journal(), finishes("GBR101", *sails[:is_answer]))
        return ann, line

    def undone(self, ann: Device, *left: str) -> None:
        """Presses Undo; the list has what is left."""
        ann.click("#undo")
        self.shows(ann, *left)

    def shows(self, ann: Device, *sails: str) -> None:
        ann.until(f"JSON.stringify([...document.querySelectorAll('{ROWS}')].map(row => row.textContent)) === "
                  f"{json.dumps(json.dumps(sails, separators=(',', ':')))}")

    def ended(self, ann: Device, line: Line, journal: list[str], *left: str) -> None:
        """The network is there again: nothing waits any more, and journal and list are so."""
        line.mend()
        self.settle(ann)
        self.assertEqual(self.journal(), journal)
        self.shows(ann, *left)
        self.need_no_faults()

    def test_answer_lost(self) -> None:
        """The office has taken her: a line strikes her. The page is left in between."""
        ann, line = self.lost("GBR7", is_answer=True)
        self.undone(ann, "GBR 101")
        ann.reload()
        self.shows(ann, "GBR 101")
        self.ended(ann, line, [*finishes("GBR101", "GBR7"), "FINISH STRIKE 1 GBR7"], "GBR 101")

    def test_reloaded_before(self) -> None:
        """The page is left before Undo: the phone still knows that it has sent her."""
        ann, line = self.lost("GBR7", is_answer=True)
        ann.reload()
        self.shows(ann, "GBR 101", "GBR 7")
        self.undone(ann, "GBR 101")
        self.ended(ann, line, [*finishes("GBR101", "GBR7"), "FINISH STRIKE 1 GBR7"], "GBR 101")

    def test_request_lost(self) -> None:
        """Nothing of her has come to the office: there is no line of her at all."""
        ann, line = self.lost("GBR7", is_answer=False)
        self.undone(ann, "GBR 101")
        self.assertEqual([item["line"] for item in json.loads(ann.run(ITEMS))], ["UNDO"])
        self.ended(ann, line, finishes("GBR101"), "GBR 101")

    def test_two_undos(self) -> None:
        """One boat was taken, and the next never sent: both are undone, the second without a line. She who is tapped
        again stays."""
        ann, line = self.lost("GBR7", "NED12", is_answer=True)
        self.undone(ann, "GBR 101", "GBR 7")
        self.undone(ann, "GBR 101")
        ann.tap("GBR7")
        self.shows(ann, "GBR 101", "GBR 7")
        self.ended(ann, line, [*finishes("GBR101", "GBR7"), "FINISH STRIKE 1 GBR7", *finishes("GBR7")], "GBR 101", "GBR 7")
        # The undo was done: the next one is that of the tap after it.
        self.undone(ann, "GBR 101")
        self.settle(ann)
        self.assertEqual(self.journal()[-1], "FINISH STRIKE 1 GBR7")

    def test_undo_that_is_lost(self) -> None:
        """The answer to the undo is lost as well: she is struck once."""
        ann, line = self.lost("GBR7", is_answer=True)
        self.undone(ann, "GBR 101")
        line.loses_answer = True
        line.mend()
        helpers.until("a lost answer", lambda: not line.loses_answer)
        self.assertEqual(self.journal()[2:], ["FINISH STRIKE 1 GBR7"])
        self.ended(ann, line, [*finishes("GBR101", "GBR7"), "FINISH STRIKE 1 GBR7"], "GBR 101")

    def test_changed_since(self) -> None:
        """Meanwhile the scorer has put her elsewhere: nothing is taken back, and the list says so."""
        ann, line = self.lost("GBR7", is_answer=True)
        self.undone(ann, "GBR 101")
        scorer = self.device("scorer", "Bea")
        for words in ("strike 1 7", "before 1 7 101"):
            scorer.until("!!document.querySelector('#typed')")
            scorer.type("#typed", words)
            scorer.run("document.querySelector('form.typed').requestSubmit()")
            scorer.until("document.querySelector('#typed').value === ''")
        line.mend()
        ann.until("!!document.querySelector('#list li.refused')")
        self.shows(ann, "GBR 7", "GBR 101", "GBR 7")
        self.assertEqual(self.journal()[2:], ["SCORER STRIKE 1 GBR7", "SCORER BEFORE 1 GBR7 GBR101"])


if __name__ == "__main__":
    unittest.main()
