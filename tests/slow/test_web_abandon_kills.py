"""A race that is abandoned on a page keeps what stays of it: the web, or the office's program, is killed before each step, and
the same request again takes the race away as it was agreed to."""
from __future__ import annotations

import contextlib
import os
import time
import unittest
from typing import Any

import helpers
from test_web_kills import Held, Prepared, Sent, Trial, lines_of, question, tap_of

LINES = ["STRIKE 1 GBR101", "CLEAR 1 GBR7", "PENALTY 1 GBR7 ZFP", "CLEAR 1 NED12", "MARK 1 NED12 BFD", "PENALTY 1 NED12 ZFP"]
ASKED = question("abandon", race=1, lines=LINES, marks=[])
ABANDON = Sent("SCORER", ("line", "cup"), tap_of(1, "ABANDON 1", agreed=[ASKED]))


class Abandoned(Trial):
    """Boats hold what goes and what stays (RRS 30.2, 30.4)."""

    def begin(self) -> None:
        self.serving()
        self.typed("FINISH FINISH 1 GBR101", "FINISH MARK 1 GBR7 OCS", "FINISH PENALTY 1 GBR7 ZFP", "FINISH MARK 1 NED12 BFD",
                   "FINISH PENALTY 1 NED12 ZFP", "FINISH PENALTY 1 NED12 SCP")

    def test_abandoned(self) -> None:
        self.begin()
        self.each_step(ABANDON, wanted=["journal.txt"])

    def stopped(self) -> tuple[Held, list[str]]:
        """What the series was, and the journal's lines, once the web was killed with GBR7 cleared and nothing given back."""
        self.begin()
        self.settle()
        before = self.files()
        _, steps = self.asked([ABANDON])
        for stop in range(1, len(steps) + 1):
            self.restore(before)
            self.asked([ABANDON], stop, "web")
            self.settle()
            if (lines := lines_of(self.files()))[-1] == "SCORER CLEAR 1 GBR7":
                return before, lines
        raise AssertionError(steps)

    def unfinished(self) -> Any:
        """What is left, as the scorer's page shows it."""
        room = self.routes().one("cup").room
        with contextlib.closing(room):
            return room.state(True)["unfinished"]

    def test_left(self) -> None:
        """If nobody presses again, the page shows what is left, and it is sent as what is left of any correction."""
        _, lines = self.stopped()
        left, = self.unfinished()
        self.assertEqual(left["lines"], LINES[2:])
        clear = question("clear-several", race=1, sail="NED12", counts=False, code=["BFD"], penalties=["ZFP", "SCP"], redress=[])
        rest = {**tap_of(1, at=int(time.time() * 1000), agreed=[clear]), **left}
        answers, _ = self.asked([Sent("SCORER", ("correct", "cup"), rest)])
        self.assertEqual([status for status, _ in answers], [200], answers)
        self.assertEqual((lines_of(self.files()), self.unfinished()), ([*lines, *(f"SCORER {line}" for line in LINES[2:])], []))

    def test_sailed_again(self) -> None:
        """What others have recorded since isn't taken away without a question, and nothing is given twice."""
        before, _ = self.stopped()
        self.typed("FINISH FINISH 1 FRA9")
        self.assertEqual([status for status, _ in self.asked([ABANDON])[0]], [409])
        now = [LINES[2], "STRIKE 1 FRA9", *LINES[3:]]
        again = {**(ABANDON.values or {}), "agreed": [ASKED, question("abandon", race=1, lines=now, marks=[])]}
        answers, _ = self.asked([Sent("SCORER", ("line", "cup"), again)])
        self.assertEqual([(status, values["outcome"]) for status, values in answers], [(200, "noted")])
        self.assertEqual(lines_of(self.files())[-len(now):], [f"SCORER {line}" for line in now])
        self.restore(before)

    def test_given_meanwhile(self) -> None:
        """Somebody has given her the penalty again: it isn't given twice."""
        before, lines = self.stopped()
        self.typed("FINISH PENALTY 1 GBR7 ZFP")
        answers, _ = self.asked([ABANDON])
        self.assertEqual([(status, values["outcome"]) for status, values in answers], [(200, "noted")])
        self.assertEqual(lines_of(self.files()), [*lines, "FINISH PENALTY 1 GBR7 ZFP", *(f"SCORER {line}" for line in LINES[3:])])
        self.restore(before)


@helpers.needs_times
class Timed(Prepared):
    """By corrected time the sheet is emptied first."""

    def restore(self, before: Held) -> None:
        """The copies of the sheet as it was go, too."""
        super().restore(before)
        for name in [name for name in os.listdir(self.folder.file("times")) if "abandoned" in name]:
            os.remove(self.folder.file("times", name))

    def test_abandoned(self) -> None:
        self.serving()
        self.typed("FINISH TIME 1 GBR101 3600", "FINISH TIME 1 GBR7 3510", "FINISH MARK 1 NED12 OCS", "FINISH PENALTY 1 NED12 ZFP")
        lines = ["STRIKE 1 GBR7", "STRIKE 1 GBR101", "CLEAR 1 NED12", "PENALTY 1 NED12 ZFP"]
        agreed = [question("abandon", race=1, lines=lines, marks=[])]
        self.each_step(Sent("SCORER", ("line", "cup"), tap_of(1, "ABANDON 1", agreed=agreed)),
                       wanted=["times/race-1.csv", "journal.txt"])


if __name__ == "__main__":
    unittest.main()
