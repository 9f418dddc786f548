#!/usr/bin/env python3
"""What a phone shows of a race by corrected time, in Chromium over the real program: who was at the line, in which order,
and whose moment it keeps."""
from __future__ import annotations

import unittest

from devices import Device
from test_web_two_timed import TimedTrial

OUT = "[...document.querySelectorAll('#grid .boat')].map(one => one.dataset.sail).sort().join()"


class Order(TimedTrial):
    classes = {"cup": "Sail,Boat,TCF\nGBR 101,Kestrel,1.000\nGBR 7,Sea Pink,0.900\nNED 12,Windhover,1.250\nFRA 9,Plover,0.950\n"}
    timed = ("cup",)

    def started(self) -> Device:
        """A phone, after a start at midnight."""
        ann = self.phone()
        ann.click("#start")
        ann.type("dialog input", "00:00:00")
        ann.choose("at")
        ann.until("document.querySelector('#start').textContent === '00:00:00'")
        return ann

    def shown(self, phone: Device) -> list[str]:
        return phone.texts("#list li .sail")

    def test_a_code_of_a_finisher(self) -> None:
        """A finisher who gets a code stays where she was, and so do the others, in whatever order the sheet has them: also one
        who came in the same second, and one who came later."""
        ann = self.started()
        for sail in ("NED12", "GBR7"):
            ann.tap(sail)
        ann.another_second()
        ann.tap("GBR101")
        self.settle(ann)
        ann.click("#code")
        ann.tap("GBR7")
        ann.choose("RET")
        self.settle(ann)
        ann.until("document.querySelector('#list li[data-sail=GBR7] .code')?.textContent === 'RET'")
        self.assertEqual(self.shown(ann), ["NED 12", "GBR 7", "GBR 101"])
        self.assertEqual(ann.texts("#list li .place"), ["1", "–", "2"])
        self.need_no_faults()

    def test_times_that_nobody_tapped(self) -> None:
        """A boat whose elapsed time the scorer gives isn't to come any more: she is in the order by that. One of whom the
        corrected time alone is known has finished, too, nobody knows when."""
        ann, sue = self.started(), self.device("scorer", "Sue")
        ann.tap("GBR101")
        self.settle(ann)
        ann.until(f"{OUT} === 'FRA9,GBR7,NED12'")
        held = "fetch('/office/scorer/sheet/cup/1').then(said => said.json()).then(said => said.tag)"
        sent = ("fetch('/office/scorer/me').then(said => said.json()).then(me => fetch('/office/scorer/sheet/cup', {method: 'POST', "
                "headers: {'Content-Type': 'application/json', 'X-Token': me.token}, body: JSON.stringify("
                "{race: 1, rows: {GBR7: {elapsed: '0:00:01'}}, tag: %r})})).then(said => said.status)")
        self.assertEqual(sue.run(sent % sue.run(held)), 200)
        ann.until(f"{OUT} === 'FRA9,NED12'")
        self.assertEqual(self.shown(ann), ["GBR 7", "GBR 101"])
        self.assertEqual(ann.texts("#list li .end b")[0], "0:00:01")
        sue.type("#typed", "time 1 12 3602")
        sue.press("Send")
        ann.until(f"{OUT} === 'FRA9'")
        self.assertEqual(self.shown(ann), ["GBR 7", "GBR 101"])
        self.assertIn("1 to come", ann.text("#races").replace("\xa0", " "))
        self.need_no_faults()

    def test_a_finish_without_a_moment(self) -> None:
        """A finish that the scorer types moves no place that a phone keeps: it stays ahead of who came later."""
        ann, sue = self.started(), self.device("scorer", "Sue")
        ann.click("#unread")
        ann.until("document.querySelectorAll('#list li.unread').length === 1")
        ann.another_second()
        ann.tap("GBR101")
        self.settle(ann)
        for time, shown in (("23:59:58", ["?1", "GBR 101", "GBR 7"]), ("00:00:01", ["NED 12", "?1", "GBR 101", "GBR 7"])):
            sue.type("#typed", f"finish 1 {'7' if len(shown) == 3 else '12'} {time}")
            sue.press("Send")
            ann.until(f"document.querySelectorAll('#list li').length === {len(shown)}")
            self.assertEqual(self.shown(ann)[-3:], shown[-3:])
        self.need_no_faults()

    def test_nobody_was_there(self) -> None:
        """Undo brings back the moment of which somebody has said that nobody was there, and touches no other tap."""
        ann, unread = self.started(), "document.querySelectorAll('#list li.unread').length"
        ann.click("#unread")
        ann.until(f"{unread} === 1")
        moment = ann.texts("#list li.unread .end b")
        ann.tap("GBR7")
        self.settle(ann)
        journal = self.journal()
        ann.click("#list li.unread button")
        ann.choose("drop")
        ann.until(f"{unread} === 0")
        self.assertIn("?1", ann.text("#undo"))
        ann.click("#undo")
        ann.until(f"{unread} === 1")
        self.assertEqual(ann.texts("#list li.unread .end b"), moment)
        self.assertIn("7", ann.text("#undo"))
        self.assertEqual(self.journal(), journal)
        self.need_no_faults()


if __name__ == "__main__":
    unittest.main()
