#!/usr/bin/env python3
"""The boats of the finish page stay where they are while somebody taps, in Chromium over the real program."""
from __future__ import annotations

import unittest

from devices import Device
from web_office import WebTrial

GRID = "[...document.querySelectorAll('#grid .boat')].map(one => one.dataset.sail)"
TOP = "document.querySelector('#grid').getBoundingClientRect().top"


class Still(WebTrial):
    def enter(self, scorer: Device, sail: str) -> None:
        scorer.type("#typed", f"enter {sail}")
        scorer.press("Send")
        scorer.choose("yes")
        scorer.until("!document.querySelector('dialog[open]')")

    def test_what_comes_above_them(self) -> None:
        """Neither the first finishers, of this phone or of another, nor what says whom the next tap is level with or ahead of
        moves them: a finger that is on its way meets the boat that was meant."""
        for width, height in ((320, 568), (390, 844), (820, 1180)):
            ann = self.phone(f"Ann{width}", width, height)
            if width > 320:
                ann.run("document.querySelector('.race').click()")
                ann.click(f"dialog[open] [data-race='{2 if width == 390 else 3}']")
            ann.until(f"{GRID}.length === 24")
            top = ann.run(TOP)
            for sail in ("GBR101", "GBR7", "NED12", "FRA9"):
                ann.tap(sail)
                self.assertEqual(ann.run(TOP), top, (width, sail))
            self.settle(ann)
            ann.click("#level")
            ann.until("!document.querySelector('#banner').hidden")
            self.assertEqual(ann.run(TOP), top, width)
            ann.tap("GBR33")
            self.settle(ann)
            ann.until("document.querySelector('#banner').hidden")
            self.assertEqual(ann.run(TOP), top, width)
        self.need_no_faults()

    def test_a_boat_that_came_later(self) -> None:
        """A boat that was entered while the page was open keeps her place like the others once she is tapped."""
        ann, sue = self.phone(), self.device("scorer", "Sue")
        ann.until(f"{GRID}.length === 24")
        ann.tap("GBR101")
        self.settle(ann)
        for sail in ("USA4", "USA5"):
            self.enter(sue, sail)
            ann.until(f"{GRID}.includes('{sail}')")
        ann.until(f"!{GRID}.includes('GBR101') && !('moving' in document.querySelector('#grid').dataset)")
        before = ann.run(GRID)
        ann.tap("USA4")
        # At once: she leaves when nobody has tapped for some seconds.
        self.assertEqual(ann.until(f"!!document.querySelector('#list li[data-sail=USA4]') && {GRID}"), before)
        self.need_no_faults()


if __name__ == "__main__":
    unittest.main()
