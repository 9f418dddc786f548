"""What `raceoffice` reads of the program's previews, beside tables of replays with the same lines."""
from __future__ import annotations

import unittest
from unittest import mock

import helpers
from explained_by_rules import Rules
from raceoffice.errors import NoTable, Trouble
from raceoffice.program import previewing
from raceoffice.program.previewing import previewed
from raceoffice.program.replay import Line, scored
from raceoffice.program.standing import Standing, changes
from test_explain import journal_of, words_of
from test_preview import ONE_RACE, Wishes


def standing_after(rules: Rules, journal: list[str], lines: list[Line]) -> Standing:
    return Standing.read(list(scored(helpers.PROGRAM, words_of(rules), journal, lines).table))


class Previewing(unittest.TestCase):
    journal = ONE_RACE.splitlines()

    def test_replays(self) -> None:
        """Who moves, and the table after the lines, are what two replays say."""
        taken = 0
        for number in range(helpers.trials(60)):
            dice = Wishes(number)
            rules = dice.rules()
            journal = journal_of(rules, dice.lines(rules)).splitlines()[1:]
            sails = [line.split()[4] for line in journal if " ENTER " in line] or ["A"]
            lines = []
            for _ in range(dice.randint(0, 4)):
                role, line = dice.line(rules, dice.randint(1, 7), sails)
                lines.append(Line(role.split()[1], line))
            lines += [Line("SCORER", "ENTER NEW1")] * (dice.random() < 0.2)
            with self.subTest(number):
                try:
                    after = standing_after(rules, journal, lines)
                except Trouble as refused:
                    with self.assertRaises(Trouble) as caught:
                        previewed(helpers.PROGRAM, words_of(rules), journal, lines)
                    self.assertEqual(str(caught.exception), str(refused))
                    continue
                taken += 1
                before = standing_after(rules, journal, [])
                found = previewed(helpers.PROGRAM, words_of(rules), journal, lines)
                self.assertEqual(list(found.changes), changes(before, after) if before.races or after.races else [])
                self.assertEqual(tuple(found.rows_after(before)), after.rows)
        self.assertTrue(taken)

    def test_exclusion_alone(self) -> None:
        """With a second race in which each boat has the points of the first, she excludes the earlier (RRS A2.1): nobody
        moves, and the rows have it."""
        journal = [*self.journal, "1 8 SCORER FINISH 2 A", "1 9 SCORER FINISH 2 B", "1 10 SCORER FINISH 2 C"]
        found = previewed(helpers.PROGRAM, [], journal, [Line("SCORER", "SCORE 2")])
        self.assertEqual(found.changes, ())
        self.assertEqual([[score.excluded for score in row.scores] for row in found.rows], [[True, False]] * 3)

    def test_refused(self) -> None:
        """The first line that is refused is named, or why the program ends."""
        lines = [Line("JURY", "MARK 1 A DSQ"), Line("JURY", "ENTER D"), Line("JURY", "ENTER E")]
        for amount, said in {"9": "the program refuses ENTER D", "0": "regatta: rules fault 1"}.items():
            with self.assertRaises(Trouble) as caught:
                previewed(helpers.PROGRAM, ["--scp", amount], self.journal, lines)
            self.assertIn(said, str(caught.exception))

    def test_other_documents(self) -> None:
        """What isn't such a document is none."""
        for text in ["", "[]", "{}", '{"replies":[{"reply":"NO"}],"moves":[],"changes":[]}',
                     '{"replies":[],"moves":[],"changes":[{"sail":"A","before":null,"after":null,"scores":[]}]}']:
            with mock.patch.object(previewing, "printed", return_value=text), self.assertRaises(NoTable):
                previewed(helpers.PROGRAM, [], self.journal, [])
