"""The web is killed before each step of a tap for a sheet of times, another device taps the same, and the first tap comes
again: what the other has recorded stays, and what nobody has changed is done whole."""
from __future__ import annotations

import contextlib
import json
import unittest
from collections.abc import Sequence
from typing import Any

import helpers
from raceoffice.program.journal import Series
from test_web_kills import Prepared, Sent, tap_of

SHEET = "times/race-1.csv"
# 15:10:00, 15:20:00 and 15:30:00 of 2026-11-28, in milliseconds since 1970
TEN, TWENTY, THIRTY = 1_795_878_600_000, 1_795_879_200_000, 1_795_879_800_000


def tapped(number: int, by: str, line: str, **more: Any) -> Sent:
    return Sent("FINISH", ("line", "cup"), tap_of(number, line, **more), by)


def ann(line: str, **more: Any) -> Sent:
    return tapped(1, "Ann", line, at=TWENTY, **more)


def since(start: str, written: str) -> object:
    """What is asked before a start takes the place of one that boats have sailed by."""
    return {"kind": "start-since", "values": {"race": 1, "start": start, "written": written}}


def bob(*lines: str) -> list[Sent]:
    return [tapped(number, "Bob", line, at=THIRTY) for number, line in enumerate(lines, 2)]


@helpers.needs_times
class TwoTaps(Prepared):
    """Ann's tap, those of Bob, and hers again. The sheet has GBR101 at 15:00:00 and GBR7 at 15:05:00, from 14:00:00."""

    def setUp(self) -> None:
        super().setUp()
        self.serving()
        self.typed("FINISH TIME 1 GBR101 3600", "FINISH TIME 1 GBR7 3510")

    def test_strike(self) -> None:
        self.each_kill(ann("STRIKE 1 GBR7"), bob("FINISH 1 GBR7"))

    def test_strike_both(self) -> None:
        self.each_kill(ann("STRIKE 1 GBR7"), bob("STRIKE 1 GBR7", "FINISH 1 GBR7"))

    def test_finish(self) -> None:
        self.each_kill(ann("FINISH 1 NED12"), bob("STRIKE 1 NED12"))

    def test_finish_both(self) -> None:
        self.each_kill(ann("FINISH 1 NED12"), bob("FINISH 1 NED12"))

    def test_mark(self) -> None:
        self.each_kill(ann("MARK 1 NED12 RET"), bob("CLEAR 1 NED12", "FINISH 1 NED12"))

    def test_clear(self) -> None:
        self.asked([tapped(9, "Ann", "MARK 1 NED12 RET")])
        self.each_kill(ann("CLEAR 1 NED12"), bob("MARK 1 NED12 DNF"))

    def test_start(self) -> None:
        self.asked([tapped(9, "Ann", "START 1 14:00", at=TEN)])
        over_10, over_0, later = since("14:10:00", "14:20:00"), since("14:00:00", "14:20:00"), "START 1 14:20"
        self.each_kill(ann("START 1 14:10", agreed=[since("14:00:00", "14:10:00")]),
                       [tapped(2, "Bob", later, at=THIRTY, agreed=[over_10, over_0])])

    def test_undo(self) -> None:
        struck = tapped(9, "Ann", "STRIKE 1 GBR7")
        self.asked([struck])
        self.each_kill(ann("UNDO", undoes=(struck.values or {})["id"]), bob("FINISH 1 GBR7"))

    def each_kill(self, first: Sent, others: Sequence[Sent]) -> None:
        """Kills before each step of Ann's tap, and in half of each write."""
        self.settle()
        before = self.files()
        answers, steps = self.asked([first])
        self.assertEqual(answers[0][0], 200, answers)
        wanted, sheet, written = self.outcome(), self.files()[SHEET], []
        for stop, step in list(enumerate(steps, 1))[steps.index("write"):]:
            for victim in ("web", "torn") if step == "write" else ("web",):
                with self.subTest(stop=stop, step=step, victim=victim):
                    self.restore(before)
                    self.assertEqual(self.asked([first], stop, victim)[0], [])
                    self.settle()
                    written.append(self.files()[SHEET] == sheet)
                    self.trial_of_two(first, others, wanted)
        # The web was killed before the sheet was written, and after that.
        self.assertEqual({*written}, {False, True})

    def trial_of_two(self, first: Sent, others: Sequence[Sent], wanted: object) -> None:
        """Has Bob tap, and Ann's tap come again. One that nothing is known of is as a new one."""
        is_begun = self.is_begun(first)
        status, said = self.asked(others)[0][-1]
        left, is_taken = self.outcome(), status == 200 and said["outcome"] != "refused"
        (status, said), = self.asked([first])[0]
        if not is_taken:
            self.assertEqual((status, self.outcome()), (200, wanted), said)
        elif is_begun:
            self.assertEqual(self.outcome(), left, said)
        is_start = (first.values or {})["line"].startswith("START")
        # A start that comes after another is asked about.
        self.assertIn(status, (200, 422, *[409] * is_start), said)

    def outcome(self) -> tuple[bytes, object]:
        """The sheet, and what the journal has of the race."""
        files = self.files()
        race = Series.read(files["journal.txt"].decode().split("\n")[1:-1]).race(1)
        return files[SHEET], (race.times, race.codes)

    def is_begun(self, sent: Sent) -> bool:
        """Whether the register has a tap, whole."""
        for line in self.files().get("office/web.taps", b"").splitlines():
            with contextlib.suppress(ValueError):
                noted = json.loads(line)
                if noted["id"] == (sent.values or {})["id"] and "line" in noted:
                    return True
        return False


if __name__ == "__main__":
    unittest.main()
