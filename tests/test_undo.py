"""What is done last is taken back by one line, or it is said why not."""
from __future__ import annotations

import random
import unittest

import helpers
from raceoffice.errors import NotSent
from raceoffice.program.codes import CODES
from raceoffice.program.journal import Series
from raceoffice.program.link import Sheet
from raceoffice.series.folder import Folder
from raceoffice.series.kept_places import History
from raceoffice.session.facts import Facts
from raceoffice.session.undo import reversal

BOATS = ["GBR7", "NED12", "FRA9", "GBR33"]


class Undoing(helpers.Series):
    def setUp(self) -> None:
        super().setUp()
        self.books: dict[str, Facts] = {}

    def facts(self, *lines: str, handicap: str = "no") -> Facts:
        """The facts of a journal that has these lines after the boats', each `role: line` or a scorer's."""
        if handicap not in self.books:
            self.books[handicap] = Facts(Folder(self.make(handicap, handicap=handicap)))
        facts = self.books[handicap]
        journal = [f"1 {at} {role or 'SCORER'} {line}" for at, (role, _, line) in enumerate(
            (text.rpartition(": ") for text in [*(f"ENTER {boat}" for boat in BOATS), *lines]), 1)]
        facts.read(Sheet(tuple(journal), ("TABLE 0 RACES",)))
        return facts

    def undone(self, *lines: str, last: int = 1, **more: str) -> str:
        """The line that takes back the last of these, or the last but some."""
        facts = self.facts(*lines, **more)
        return reversal(facts, len(BOATS) + len(lines) - last + 1, History.read(b"", facts.commands))

    def test_one_line(self) -> None:
        self.assertEqual(self.undone("FINISH 1 GBR7"), "STRIKE 1 GBR7")
        self.assertEqual(self.undone("FINISH 1 GBR7", "TIE 1 FRA9 GBR7"), "STRIKE 1 FRA9")
        self.assertEqual(self.undone("FINISH 1 GBR7", "BEFORE 1 FRA9 GBR7"), "STRIKE 1 FRA9")
        self.assertEqual(self.undone("FINISH 1 GBR7", "FINISH 1 FRA9", "STRIKE 1 GBR7"), "BEFORE 1 GBR7 FRA9")
        self.assertEqual(self.undone("FINISH 1 GBR7", "FINISH 1 FRA9", "STRIKE 1 FRA9"), "FINISH 1 FRA9")
        self.assertEqual(self.undone("FINISH 1 GBR7", "TIE 1 FRA9 GBR7", "STRIKE 1 GBR7"), "TIE 1 GBR7 FRA9")
        self.assertEqual(self.undone("TIME 1 GBR7 4005", "STRIKE 1 GBR7", handicap="yes"), "TIME 1 GBR7 4005")
        self.assertEqual(self.undone("TIME 1 GBR7 4005", handicap="yes"), "STRIKE 1 GBR7")
        self.assertEqual(self.undone("MARK 1 GBR7 OCS"), "CLEAR 1 GBR7")
        self.assertEqual(self.undone("MARK 1 GBR7 OCS", "MARK 1 GBR7 DNF"), "MARK 1 GBR7 OCS")
        self.assertEqual(self.undone("PENALTY 1 GBR7 ZFP"), "CLEAR 1 GBR7")
        self.assertEqual(self.undone("REDRESS 1 GBR7 ALL", "REDRESS 1 GBR7 2.5"), "REDRESS 1 GBR7 ALL")
        self.assertEqual(self.undone("PENALTY 1 GBR7 ZFP", "CLEAR 1 GBR7"), "PENALTY 1 GBR7 ZFP")
        self.assertEqual(self.undone("FINISH 1 GBR7", "SCORE 1"), "UNSCORE 1")
        self.assertEqual(self.undone("FINISH 1 GBR7", "SCORE 1", "UNSCORE 1"), "SCORE 1")

    def test_no_line(self) -> None:
        """Each line that can't be taken back says why, and what to type."""
        for lines, last, why in [
                (["ENTER DEN16"], 1, "DEN16 stays while the office is open"),
                (["PENALTY 1 GBR7 ZFP", "MARK 1 GBR7 OCS"], 1,
                 "no one line does it. Type CLEAR 1 GBR7 and PENALTY 1 GBR7 ZFP$"),
                (["MARK 1 GBR7 OCS", "PENALTY 1 GBR7 ZFP", "CLEAR 1 GBR7"], 1,
                 "no one line does it. Type MARK 1 GBR7 OCS and PENALTY 1 GBR7 ZFP$"),
                (["PENALTY 1 GBR7 ZFP", "REDRESS 1 GBR7 ALL"], 1,
                 "Type CLEAR 1 GBR7 and PENALTY 1 GBR7 ZFP$"),
                (["FINISH 1 GBR7", "JURY: STRIKE 1 GBR7"], 2, "since: entry 6, STRIKE 1 GBR7, by the jury$"),
                (["MARK 1 GBR7 OCS", "CLEAR 1 GBR7"], 2, "since: entry 6"),
                (["FINISH 1 GBR7", "SCORE 1", "UNSCORE 1"], 2, "since: entry 7, UNSCORE 1, by the scorer$")]:
            self.assertRaisesRegex(NotSent, why, self.undone, *lines, last=last)

    def test_is_as_before(self) -> None:
        """After any lines of a race, the line that takes back the last makes the race as it was before."""
        dice, tried = random.Random(9), 0
        for _ in range(1500):
            lines = self.some_lines(dice)
            try:
                line = self.undone(*lines)
            except NotSent:
                continue
            before, after = (self.race(*some) for some in (lines[:-1], [*lines, line]))
            self.assertEqual(after, before, (lines, line))
            tried += 1
        self.assertGreater(tried, 1000)

    def race(self, *lines: str) -> list[object]:
        """What is recorded of race 1. Level boats have no order among each other."""
        race = Series.read([f"1 1 SCORER {line}" for line in lines]).race(1)
        held = {boat: sorted(race.held(boat)) for boat in BOATS}
        return [[sorted(group) for group in race.order], held, race.counts]

    def some_lines(self, dice: random.Random) -> list[str]:
        """Lines that an office takes."""
        lines: list[str] = []
        for _ in range(dice.randint(1, 12)):
            race = Series.read([f"1 1 SCORER {line}" for line in lines]).race(1)
            finished = [boat for group in race.order for boat in group]
            ways = [f"MARK 1 {boat} {dice.choice(list(CODES))}" for boat in BOATS]
            ways += [f"PENALTY 1 {boat} {dice.choice(['ZFP', 'SCP'])}" for boat in BOATS]
            ways += [f"REDRESS 1 {boat} {dice.choice(['ALL', '2.5'])}" for boat in BOATS]
            ways += [f"CLEAR 1 {boat}" for boat in BOATS if race.held(boat)]
            ways += [f"STRIKE 1 {boat}" for boat in finished] * 2
            ways += ["UNSCORE 1" if race.counts else "SCORE 1"]
            for boat in set(BOATS) - set(finished):
                ways += [f"FINISH 1 {boat}"] * 2
                ways += [f"{dice.choice(['TIE', 'BEFORE'])} 1 {boat} {other}" for other in finished]
            lines.append(dice.choice(sorted(ways)))
        return lines


class Windows(helpers.Series):
    def test_undo(self) -> None:
        """Each thing that is done last is taken back after a question, the last undo too."""
        self.open()
        window = self.client("cup", "--role", "scorer")
        self.play(window, """
> undo
   Not sent: nothing has been typed here yet that changes anything.
> at 1
> 101
> 12
> undo
   FINISH 1 NED12 is taken back by STRIKE 1 NED12. Send it? [y/N]
> n
   Not sent.
> undo
> y
OK 10   out of the order of race 1; 1 finished, 0 coded, 6 to come of 7
> undo
   STRIKE 1 NED12 is taken back by FINISH 1 NED12. Send it? [y/N]
> y
OK 11   2nd in race 1
> ocs 33
> undo
   MARK 1 GBR33 OCS is taken back by CLEAR 1 GBR33. Send it? [y/N]
> y
> score 1
> y
> undo
   SCORE 1 is taken back by UNSCORE 1. Send it? [y/N]
> y
   Race 1 counts. Take it out of the results? [y/N]
> y
OK 15   race 1 counts no longer
> enter usa 4
> y
> undo
   Not sent: USA4 stays while the office is open. When it is closed, raceoffice remove takes her out.
> abandon 1
> y
> undo
   Not sent: race 1 was taken away by 2 lines: type again what stays of it.
""")

    def test_undo_of_another_form(self) -> None:
        """A line is known again in the one form that the journal has of it."""
        self.open()
        jury, scorer = self.client("cup", "--role", "jury"), self.client("cup", "--role", "scorer")
        self.play(jury, """
> redress 1 7 3
> y
OK 8   redress 3.0 in race 1
> undo
   REDRESS 1 GBR7 3.0 is taken back by CLEAR 1 GBR7. Send it? [y/N]
> y
OK 9
""")
        self.play(scorer, """
> finish 01 7
> undo
   FINISH 1 GBR7 is taken back by STRIKE 1 GBR7. Send it? [y/N]
> n
> score 01
> y
> undo
   SCORE 1 is taken back by UNSCORE 1. Send it? [y/N]
""")

    def test_undo_of_places(self) -> None:
        """A place that was kept is dropped, one that was dropped is kept again, and a boat that was put
        into one leaves it."""
        self.open()
        window, other = self.client("cup", "--role", "finish"), self.client("cup", "--role", "scorer")
        self.play(window, """
> at 1
> 101
> ?
> 12
> ?
> undo
   Drop ?2 in race 1? [y/N]
> y
   ?2 is dropped.
> undo
   Keep ?2 in race 1 again? [y/N]
> y
   ?2 keeps her place.
> ?1 33
   BEFORE 1 GBR33 NED12
> undo
   BEFORE 1 GBR33 NED12 is taken back by STRIKE 1 GBR33. Send it? [y/N]
> y
OK 11   out of the order of race 1
> undo
   Not sent: type ?1 and her sail.
> 33
OK 12   5th in race 1, with 2 unread finishers ahead
> ?1 9
   BEFORE 1 FRA9 NED12
> race 1
     1  GBR 101 Kestrel
     2  FRA 9 Plover
     3  NED 12 Windhover
     4  GBR 33 Turnstone
    ?2  4th on the water
> finish 1 7
""")
        other.say("strike 1 7", "OK 15 .*\n> $")
        window.say("undo", "Not sent: something has been typed about the same since: entry 15, STRIKE 1 "
                           "GBR7, by "
                   "the scorer.\n1> $")
        self.assertIn("Not sent: nothing has been typed here yet", self.client("cup", "--role", "finish").say(
            "undo", "> $"))


if __name__ == "__main__":
    unittest.main()
