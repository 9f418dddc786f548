"""Two phones that both give a race by corrected time its start, in Chromium over the real program."""
from __future__ import annotations

import os
import unittest

import helpers
from devices import Device, Line
from web_office import WebTrial, zone_of_afternoon

OPEN = "!!document.querySelector('dialog[open]')"


@helpers.needs_times
class TwoStarts(WebTrial):
    """Ann's start has come, and GBR 101 has finished, when Bob's comes, which is three seconds later."""
    classes = {"cup": "Sail,Boat,TCF\nGBR 101,Kestrel,1.000\nGBR 7,Sea Pink,0.900\n"}
    # No check comes to the end of a day.
    settings = {"handicap": "yes", "zone": zone_of_afternoon()}

    def start(self) -> None:
        os.makedirs(os.path.join(self.here, "cup", "times"), exist_ok=True)
        self.write(f"[times]\nsystem = tcf\nprogram = {helpers.TIMES}\n", "cup", "times", "rules.ini")
        super().start()

    def shows(self, phone: Device, start: str) -> None:
        phone.until(f"document.querySelector('#start').textContent === '{start}'")

    def part(self, phone: Device, line: Line) -> None:
        """Cuts a phone off, once it has what it needs for a start."""
        phone.until("!!document.querySelector('#start')")
        phone.run("import('/office/static/finish-start.js').then(() => true)")
        line.cut()
        phone.until("document.querySelector('#link').dataset.state === 'away'")

    def begun(self, phone: Device, start: str) -> None:
        """Types a start on a phone."""
        phone.click("#start")
        phone.type("dialog input", start)
        phone.choose("at")
        self.shows(phone, start)

    def times(self) -> list[str]:
        """The lines of the journal, and the row of the boat that has finished."""
        row = self.text("cup", "times", "race-1.csv").splitlines()[1]
        return [*(line.rpartition(" ")[0] for line in self.journal()), row[:row.index(":00:0") + 6]]

    def two(self) -> tuple[Line, Device, Device]:
        """Both have given the start, and Bob is asked about his."""
        line = self.line()
        ann, bob = self.phone(), self.phone("Bob’s phone", port=line.own)
        self.part(bob, line)
        self.begun(ann, "00:00:00")
        ann.tap("GBR101")
        self.settle(ann)
        self.begun(bob, "00:00:03")
        line.mend()
        bob.until(OPEN)
        self.assertEqual(bob.text("dialog[open] p, dialog[open] div").split("\n")[0],
                         "The start is 00:00:00 by now. Put 00:00:03 in its place?")
        return line, ann, bob

    def test_no(self) -> None:
        """The start stays, on both phones and in the office, which was killed and opened again meanwhile."""
        _, ann, bob = self.two()
        before = self.times()
        self.kill_web()
        super().start()
        bob.choose("drop")
        for phone in (ann, bob):
            self.settle(phone)
            self.shows(phone, "00:00:00")
        self.assertEqual((self.times(), before), ([*before], ["FINISH TIME 1 GBR101", "GBR101,00:00:00"]))
        self.need_no_faults()

    def test_yes(self) -> None:
        """All boats are timed from Bob's start, on both phones, also if his page was loaded again before he says so."""
        _, ann, bob = self.two()
        bob.reload()
        bob.until(OPEN)
        self.kill_web()
        super().start()
        bob.choose("yes")
        for phone in (ann, bob):
            self.shows(phone, "00:00:03")
            self.settle(phone)
        self.assertEqual(self.times(), ["FINISH TIME 1 GBR101", "FINISH STRIKE 1", "FINISH TIME 1 GBR101", "GBR101,00:00:03"])
        self.need_no_faults()

    def test_shown(self) -> None:
        """Whoever gives another start than the phone shows is asked all the same, once that is older than a minute, also of two
        that are typed without a connection."""
        line = self.line()
        ann, bob = self.phone(), self.phone("Bob’s phone", port=line.own)
        self.begun(ann, "00:00:00")
        self.shows(bob, "00:00:00")
        self.part(bob, line)
        self.begun(bob, "00:00:03")
        self.begun(bob, "00:00:04")
        line.mend()
        for before, after in (("00:00:00", "00:00:03"), ("00:00:03", "00:00:04")):
            bob.until("document.querySelector('dialog[open]')?.textContent.includes("
                      f"'The start is {before} by now. Put {after} in its place?')")
            bob.choose("yes")
        self.settle(bob)
        self.shows(ann, "00:00:04")
        self.need_no_faults()


if __name__ == "__main__":
    unittest.main()
