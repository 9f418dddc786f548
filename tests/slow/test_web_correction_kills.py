"""A correction of several lines is never left half done without a word: the web, or the office's program, is killed before
each step of it. The same request again does the rest; until then the scorer's page has what is left."""
from __future__ import annotations

import contextlib
import unittest
from collections.abc import Sequence
from typing import Any

from raceoffice.errors import Trouble
from raceoffice.web.room import Room
from test_web_kills import Held, Sent, Trial, lines_of, tap_of

ORDER = ("GBR101", "GBR7", "NED12", "FRA9")
# Of the third boat with the first
SWAP = ["STRIKE 1 GBR101", "TIE 1 GBR101 NED12", "STRIKE 1 NED12", "BEFORE 1 NED12 GBR7"]


class Correction(Trial):
    """Two boats that change places."""

    def test_swap(self) -> None:
        self.serving()
        self.typed(*(f"FINISH FINISH 1 {sail}" for sail in ORDER))
        self.each_step(Sent("SCORER", ("correct", "cup"), {**tap_of(0x10), "lines": SWAP}), wanted=("journal.txt",))

    def trial(self, some: Sequence[Sent], stop: int, victim: str, before: Held, after: Held,
              wanted: Sequence[str] = ()) -> None:
        """What is left is shown, before it is sent: the lines that the journal lacks."""
        self.restore(before)
        program = self.serving()
        self.asked(some, stop, victim)
        if victim == "program":
            program.wait()
            self.serving()
        else:
            # What was on its way to the program is in its journal by then.
            self.settle()
        left = SWAP[len(lines_of(self.files())) - len(lines_of(before)):]
        shown = self.shown()
        if left not in ([], SWAP):
            self.assertEqual(shown, left)
        else:
            self.assertIn(shown, ([], left))
        super().trial(some, stop, victim, before, after, wanted)
        self.assertEqual(self.shown(), [])

    def shown(self) -> list[str]:
        """The lines that the scorer's page shows as left."""
        room = Room(self.folder, lambda: None)
        try:
            with contextlib.suppress(Trouble):
                room.look()
            unfinished: Any = room.state(True)["unfinished"]
            return [line for one in unfinished for line in one["lines"]]
        finally:
            room.close()
            self.settle()


if __name__ == "__main__":
    unittest.main()
