"""What the package reads from journal and table agrees with what the program scored."""
from __future__ import annotations

import random
import subprocess
import time
import unittest

import helpers
from raceoffice.program import journal as journals
from raceoffice.program.codes import OF_COMMITTEE
from raceoffice.program.standing import Row, Standing, changes

COUNT = 300


def series_of(dice: random.Random) -> list[str]:
    """The lines of a random series."""
    boats = [f"B{at}" for at in range(dice.randint(2, 7))]
    races = dice.randint(1, 6)
    lines = [f"ENTER {boat}" for boat in boats]
    for race in range(1, races + 1):
        lines += race_of(dice, race, boats)
    for _ in range(dice.randint(0, 12)):
        lines += correction_of(dice, dice.randint(1, races), boats)
    return lines


def race_of(dice: random.Random, race: int, boats: list[str]) -> list[str]:
    """The lines of a race that counts; some are refused."""
    finishes = [dice.choice([f"FINISH {race} {boat}"] * 8 + [
        f"TIE {race} {boat} {dice.choice(boats)}", f"BEFORE {race} {boat} {dice.choice(boats)}"])
        for boat in dice.sample(boats, len(boats))]
    return [*finishes, f"SCORE {race}"]


def correction_of(dice: random.Random, race: int, boats: list[str]) -> list[str]:
    """The lines of a decision or a correction; some are refused."""
    boat, other = dice.choice(boats), dice.choice(boats)
    return dice.choice([
        [f"STRIKE {race} {boat}"], [f"MARK {race} {boat} {dice.choice(OF_COMMITTEE)}"],
        ["ROLE JURY", f"MARK {race} {boat} {dice.choice(['DSQ', 'DNE'])}", "ROLE SCORER"],
        [f"PENALTY {race} {boat} {dice.choice(['ZFP', 'SCP'])}"],
        ["ROLE JURY", f"REDRESS {race} {boat} {dice.choice(['ALL', 'PRIOR', '2.5'])}",
         "ROLE SCORER"], ["ROLE JURY", f"CLEAR {race} {boat}", "ROLE SCORER"],
        [f"UNSCORE {race}", f"FINISH {race} {boat}", f"SCORE {race}"],
        [f"BEFORE {race} {boat} {other}"]])


def played(lines: list[str], *options: str) -> tuple[list[str], Standing]:
    """The journal and the table after these lines."""
    text = "\n".join([*lines, "SHOW", "QUIT", ""])
    out = subprocess.run([helpers.PROGRAM, "replay", *options], input=text, text=True,
                         capture_output=True).stdout.splitlines()
    start = next(at for at, line in enumerate(out) if line.startswith("JOURNAL ")) + 1
    end = start + int(out[start - 1].split()[1])
    return out[start:end], Standing.read(out[end:out.index("END")])


class Records(unittest.TestCase):
    def test_random_series(self) -> None:
        dice, cells = random.Random(7), 0
        for _ in range(COUNT):
            journal, standing = played(series_of(dice), "--absent", dice.choice(["a52", "a53"]),
                                       "--exclude", dice.choice(["none", "2", "3", "2,4"]))
            series = journals.Series.read(journal)
            self.assertEqual([number for number, race in sorted(series.races.items()) if race.counts],
                             list(standing.races))
            cells += sum(self.agree(series, standing, row) for row in standing.rows)
        self.assertGreater(cells, COUNT)

    def agree(self, series: journals.Series, standing: Standing, row: Row) -> int:
        """Compares a boat's scores with her races; how many had a place alone."""
        plain = 0
        for number, score in zip(standing.races, row.scores):
            race = series.races[number]
            places = race.places()
            if row.sail in race.redress:
                self.assertEqual(score.code, "RDG")
            elif row.sail in race.codes:
                self.assertEqual(score.code, race.codes[row.sail])
            elif row.sail not in places:
                self.assertEqual(score.code, "DNC")
                self.assertIn(row.sail, race.missing(series.boats))
            elif not race.penalties.get(row.sail):
                place = places[row.sail][0]
                level = sum(other == place for other, _ in places.values())
                self.assertEqual(score.tenths * 2, (2 * place + level - 1) * 10)
                plain += 1
        return plain

    def test_abandoned(self) -> None:
        """An abandoned race keeps ZFP and BFD, and what is the jury's."""
        lines = ["ENTER A", "ENTER B", "ENTER C", "ENTER D", "ENTER E", "FINISH 1 A", "FINISH 1 B",
                 "TIE 1 C B", "PENALTY 1 A ZFP", "PENALTY 1 A ZFP", "MARK 1 D BFD", "MARK 1 C RET",
                 "PENALTY 1 C ZFP", "PENALTY 1 B SCP", "SCORE 1", "ROLE JURY", "MARK 1 E DSQ",
                 "ROLE SCORER"]
        journal, _ = played(lines)
        plan = journals.plan_of_abandoning(journals.Series.read(journal).races[1])
        self.assertEqual(plan.lines, ["UNSCORE 1", "STRIKE 1 A", "STRIKE 1 B", "STRIKE 1 C",
                                      "CLEAR 1 C", "PENALTY 1 C ZFP", "CLEAR 1 B"])
        self.assertEqual((plan.stays, plan.jury), (["D", "C", "A"], ["E"]))
        journal, standing = played(lines + plan.lines)
        race = journals.Series.read(journal).races[1]
        self.assertEqual(standing.races, ())
        self.assertEqual((race.order, race.codes, race.penalties),
                         ([], {"D": "BFD", "E": "DSQ"}, {"A": ["ZFP", "ZFP"], "C": ["ZFP"]}))
        self.assertEqual(journals.plan_of_abandoning(race).lines, [])

    def test_times(self) -> None:
        journal, _ = played(["ENTER A", "ENTER B", "ENTER C", "TIME 1 A 90", "TIME 1 B 80",
                             "TIME 1 C 90", "STRIKE 1 A", "TIME 1 A 70"], "--handicap")
        self.assertEqual(journals.Series.read(journal).races[1].order, [["A"], ["B"], ["C"]])

    def test_timed_again(self) -> None:
        """A journal in which one boat of 500 is timed again and again takes no minutes to read."""
        lines = [f"ENTER B{at}" for at in range(500)] + [f"TIME 1 B{at} {1000 + at}" for at in range(500)]
        for at in range(1000):
            lines += ["STRIKE 1 B0", f"TIME 1 B0 {2000 + at}"]
        start = time.process_time()
        race = journals.Series.read([f"1 1 SCORER {line}" for line in lines]).races[1]
        self.assertLess(time.process_time() - start, 3)
        self.assertEqual(race.order[-1], ["B0"])

    def test_changes(self) -> None:
        lines = ["ENTER A", "ENTER B", "FINISH 1 A", "FINISH 1 B", "SCORE 1"]
        _, before = played(lines)
        _, after = played(lines + ["MARK 1 A RET"])
        moved = changes(before, after)
        self.assertEqual([(change.after.sail, change.before.rank, change.after.rank,
                           [(number, a.points, b.points + b.code) for number, a, b in change.races])
                          for change in moved],
                         [("B", 2, 1, [(1, "2.0", "1.0")]), ("A", 1, 2, [(1, "1.0", "3.0RET")])])


if __name__ == "__main__":
    unittest.main()
