"""Decisions: their points beside a script written from the rules, what makes one stale, and sending.

`DECISIONS=1000` in the environment tries 1,000 random series.
"""
from __future__ import annotations

import collections
import csv
import os
import random
import re
import unittest
import unittest.mock
from fractions import Fraction

import by_rules
import helpers

from by_rules import Decision
from raceoffice.commands import decisions
from raceoffice.decisions import decision_lines, points as decision_points
from raceoffice.decisions.held import Holding, holdings
from raceoffice.errors import Trouble
from raceoffice.program import replay
from raceoffice.program.link import Link
from raceoffice.program.replay import Line
from raceoffice.program.standing import Standing

COUNT = int(os.environ.get("DECISIONS", "40"))
KINDS = ["DPI", "PRP", "T1", "SCP", "TLE", "NSC", "AVG", "DUTY", "REINSTATE"]
SOFT = ["DNC", "DNS", "OCS", "UFD", "BFD", "DNF", "RET"]


class Made:
    """A random series: as the rules see it, and as the lines of an office."""

    def __init__(self, dice: random.Random) -> None:
        self.dice = dice
        # A late decision of the jury is a race, a boat and a code.
        self.lines: list[Line | tuple[int, str, str]] = []
        boats = [f"B{at}" for at in range(dice.randint(3, 8))]
        races = range(1, dice.randint(2, 6) + 1)
        self.series = by_rules.Series(boats, {number: by_rules.Race() for number in races},
                                      dice.choice(["a52", "a53"]), dice.choice(["", "3"]))
        self.say("SCORER", *(f"ENTER {boat}" for boat in boats))
        for number in races:
            self.make_race(number)

    def say(self, role: str, *lines: str) -> None:
        self.lines += [Line(role, line) for line in lines]

    @property
    def options(self) -> list[str]:
        scp = ["--scp", self.series.scp] if self.series.scp else []
        return ["--absent", self.series.absent, "--exclude", "2,4", *scp]

    def make_race(self, number: int) -> None:
        dice, race = self.dice, self.series.races[number]
        for boat in dice.sample(self.series.boats, dice.randint(1, len(self.series.boats))):
            if race.order and dice.random() < 0.2:
                self.say("FINISH", f"TIE {number} {boat} {race.order[-1][0]}")
                race.order[-1].append(boat)
            else:
                self.say("FINISH", f"FINISH {number} {boat}")
                race.order.append([boat])
        coded = dice.choice([0, 0.25])
        for boat in self.series.boats:
            self.hold(number, boat, coded)
        race.counts = dice.random() < 0.9
        if race.counts:
            self.say("SCORER", f"SCORE {number}")

    def hold(self, number: int, boat: str, coded: float) -> None:
        """Codes, penalties and what the jury gave her, or nothing."""
        dice, held = self.dice, self.series.races[number].boat(boat)
        if dice.random() < coded:
            held.code = dice.choice(SOFT)
            self.say(dice.choice(["FINISH", "SCORER"]), f"MARK {number} {boat} {held.code}")
        for kind in dice.choices(["ZFP", "SCP"], k=dice.choice([0, 0, 0, 1, 2])):
            role = dice.choice(["FINISH", "JURY"])
            held.penalties.append((kind, role))
            held.decided |= role == "JURY"
            self.say(role, f"PENALTY {number} {boat} {kind}")
        chance = dice.random()
        if chance < 0.08:
            held.redress = dice.choice(["ALL", "PRIOR", "2.5"])
            held.decided = True
            self.say("JURY", f"REDRESS {number} {boat} {held.redress}")
        elif chance < 0.08 + coded / 2:
            held.before, held.code, held.decided = held.code, dice.choice(["DSQ", "DNE"]), True
            self.say("JURY", f"MARK {number} {boat} {held.code}")

    def decisions(self) -> list[Decision]:
        """One decision or none about each boat in each race."""
        places = [(number, boat) for number in self.series.races for boat in self.series.boats]
        chosen = self.dice.sample(places, min(len(places), self.dice.randint(2, 8)))
        return [self.decision(number, boat) for number, boat in chosen]

    def decision(self, number: int, boat: str) -> Decision:
        dice = self.dice
        held = self.series.races[number].boat(boat)
        kind = dice.choice(KINDS)
        if held.code in ("DSQ", "DNE") and dice.random() < 0.7:
            kind = "REINSTATE"
        points = f"{dice.randint(1, 9)}.{dice.choice('05')}"
        others = [str(race) for race in self.series.races if race != number]
        percent = f"{dice.choice([25, 30, 50, dice.randint(1, 100)])}%"
        how = {"TLE": dice.choice([f"last+{dice.randint(1, 3)}", points]), "NSC": "",
               "REINSTATE": ""}.get(kind, dice.choice([percent, points]))
        if kind in ("AVG", "DUTY"):
            how = dice.choice(["sailed", "all", "before", ",".join(
                dice.sample(others, dice.randint(1, len(others))))])
        return Decision(number, boat, kind, how)

    def late(self) -> None:
        """A late entry, or a disqualification, which takes all else that she holds there."""
        if self.dice.random() < 0.5:
            self.series.boats.append("LATE")
            self.say("SCORER", "ENTER LATE")
            return
        number, boat = self.dice.choice(list(self.series.races)), self.dice.choice(self.series.boats)
        code = self.dice.choice(["DSQ", "DNE"])
        self.series.races[number].held[boat] = by_rules.Boat(code, decided=True)
        self.lines.append((number, boat, code))


class Rules(unittest.TestCase):
    def setUp(self) -> None:
        self.dice, self.stale = random.Random(50), 0
        self.kinds: collections.Counter[str] = collections.Counter()

    def test_random_series(self) -> None:
        """Points, cells and stale lines are those of the rules, before and after late changes."""
        for _ in range(COUNT):
            made = Made(self.dice)
            lines = [line for line in made.lines if isinstance(line, Line)]
            journal = replay.scored(helpers.PROGRAM, made.options, [], lines).journal
            decisions = made.decisions()
            journal = self.kept(made, journal, decisions)
            made.lines = []
            made.late()
            journal = self.changed(made, journal, decisions)
            journal = self.kept(made, journal, decisions)
            made.series.absent = {"a52": "a53", "a53": "a52"}[made.series.absent]
            made.series.scp = self.dice.choice(["", "2"])
            self.named(made, journal, decisions)
            self.kept(made, journal, decisions)
        if COUNT >= 40:
            self.assertEqual(set(self.kinds), set(KINDS))
            self.assertGreater(self.stale, COUNT)

    def weighed(self, made: Made, journal: tuple[str, ...],
                decisions: list[Decision]) -> decision_points.Decided:
        text = "\n".join(map(str, decisions))
        found = decision_points.decided(helpers.PROGRAM, made.options, journal, text)
        self.assertEqual(found.wrong, ())
        return found

    def kept(self, made: Made, journal: tuple[str, ...],
             decisions: list[Decision]) -> tuple[str, ...]:
        """Sends what is to be sent; then every score is that of the rules."""
        found = self.weighed(made, journal, decisions)
        wanted = by_rules.outcome(made.series, decisions)
        for decision, verdict in zip(decisions, found.verdicts):
            right = wanted[decision]
            self.assertEqual(isinstance(right, str), bool(verdict.why), (decision, verdict.why))
            points = f"{float(right):.1f}" if isinstance(right, Fraction) else ""
            self.assertEqual(verdict.points, points, decision)
            self.kinds[decision.kind] += not isinstance(right, str)
        sheet = replay.scored(helpers.PROGRAM, made.options, journal, found.lines)
        self.compare(made, sheet.table, decisions)
        after = self.weighed(made, sheet.journal, decisions)
        self.assertEqual([verdict.is_kept for verdict in after.verdicts],
                         [not verdict.why for verdict in found.verdicts])
        self.record_kept(made, decisions)
        return sheet.journal

    def compare(self, made: Made, table: tuple[str, ...], decisions: list[Decision]) -> None:
        """Compares each score of the table with that of the rules."""
        right = by_rules.settled(made.series, decisions)
        found = decision_points.cells_of(Standing.read(list(table)))
        self.assertEqual({place: Fraction(score.points) for place, score in found.items()}, right)

    def record_kept(self, made: Made, decisions: list[Decision]) -> None:
        """Takes what was sent for decisions into the record: it is what the journal holds now."""
        wanted = by_rules.outcome(made.series, decisions)
        kept = [decision for decision in decisions if not isinstance(wanted[decision], str)]
        made.series = by_rules.without(made.series, kept)
        for decision in kept:
            held, points = made.series.races[decision.race].boat(decision.sail), wanted[decision]
            if isinstance(points, Fraction):
                held.redress, held.decided = f"{float(points):.1f}", True

    def changed(self, made: Made, journal: tuple[str, ...],
                decisions: list[Decision]) -> tuple[str, ...]:
        """Plays a late change, after which each stale line is named, and no other."""
        lines: list[Line] = []
        for line in made.lines:
            if isinstance(line, Line):
                lines.append(line)
                continue
            number, boat, code = line
            if holdings(journal).get((number, boat), Holding()).is_any:
                lines.append(Line("JURY", f"CLEAR {number} {boat}"))
            lines.append(Line("JURY", f"MARK {number} {boat} {code}"))
        journal = replay.scored(helpers.PROGRAM, made.options, journal, lines).journal
        self.named(made, journal, decisions)
        return journal

    def named(self, made: Made, journal: tuple[str, ...], decisions: list[Decision]) -> None:
        wanted = by_rules.outcome(made.series, decisions)
        stale = {at for at, decision in enumerate(decisions, 1)
                 if self.is_stale(made, decision, wanted[decision])}
        texts = self.weighed(made, journal, decisions).stale
        named = {int(number) for text in texts
                 for number in re.findall(r"^decisions.txt, line (\d+): ", text)}
        self.assertEqual(named, stale)
        self.stale += len(stale)

    @staticmethod
    def is_stale(made: Made, decision: Decision, right: Fraction | str | None) -> bool:
        held = made.series.races[decision.race].boat(decision.sail)
        if decision.kind == "REINSTATE":
            return isinstance(right, str) or held.code in ("DSQ", "DNE") or bool(held.redress)
        if decision.kind in ("TLE", "NSC") and held.code != "DNF" or isinstance(right, str):
            return True
        return held.redress != (f"{float(right):.1f}" if right is not None else "")


class Worked(unittest.TestCase):
    """Points worked out by hand."""

    def points(self, text: str, lines: str, boats: int = 10, *options: str) -> list[str]:
        """What each decision comes to after these lines of a series of boats A, B, C and so on."""
        typed = [Line("SCORER", f"ENTER {chr(65 + at)}") for at in range(boats)]
        typed += [Line("JURY" if line.startswith("!") else "SCORER", line.strip("! "))
                  for line in lines.split("; ")]
        journal = replay.scored(helpers.PROGRAM, list(options), [], typed).journal
        found = decision_points.decided(helpers.PROGRAM, list(options), journal, text)
        self.assertEqual(found.wrong, ())
        return [verdict.points or str(verdict.why) for verdict in found.verdicts]

    def test_penalties(self) -> None:
        """Of ten boats the score for DNF is 11: 30% is 3.3, 50% is 5.5, and no score is above 11."""
        race = "; ".join(f"FINISH 1 {sail}" for sail in "ABCDEFGHIJ") + "; SCORE 1"
        text = "race 1 D PRP 30%\nrace 1 A DPI 50%\nrace 1 J T1\nrace 1 B SCP 10%\nrace 1 C DPI 1.5"
        self.assertEqual(self.points(text, race), ["7.0", "7.0", "11.0", "3.0", "4.5"])

    def test_beside_zfp(self) -> None:
        """A ZFP of 20% of 11, 2 points, counts before the penalty, and the cap is for both."""
        race = "; ".join(f"FINISH 1 {sail}" for sail in "ABCDEFGHIJ")
        race += "; PENALTY 1 C ZFP; PENALTY 1 H ZFP; SCORE 1"
        self.assertEqual(self.points("race 1 C PRP 30%\nrace 1 H PRP 30%", race), ["8.0", "11.0"])

    def test_absent(self) -> None:
        """Under RRS A5.3 three of ten came, the score for DNF is 4, and DNC stays 11."""
        race = "FINISH 1 A; FINISH 1 B; MARK 1 C RET; SCORE 1"
        text = "race 1 A DPI 50%\nrace 1 C DPI 50%\nrace 1 D DPI 50%"
        self.assertEqual(self.points(text, race, 10, "--absent", "a53"), ["3.0", "4.0", "11.0"])

    def test_limits(self) -> None:
        """TLE counts from the points of the last place, tied or penalised, and stops at DNF."""
        race = "FINISH 1 A; FINISH 1 B; TIE 1 C B; PENALTY 1 B SCP; PENALTY 1 C SCP; FINISH 1 D; SCORE 1"
        text = "race 1 D TLE last+2\nrace 1 E TLE last+1\nrace 1 F TLE last+20"
        self.assertEqual(self.points(text, race), ["4.5", "3.5", "11.0"])

    def test_averages(self) -> None:
        """1.0, 1.5 and 4.0: 1.25 goes up to 1.3; what she is given elsewhere counts as given."""
        races = ("FINISH 1 A; FINISH 1 B; SCORE 1; FINISH 2 A; TIE 2 B A; SCORE 2; FINISH 3 B; "
                 "FINISH 3 C; FINISH 3 D; FINISH 3 A; SCORE 3; FINISH 4 B; SCORE 4")
        self.assertEqual(self.points("race 3 A AVG 1,2", races), ["1.3"])
        self.assertEqual(self.points("race 3 A AVG 1,2\nrace 2 A DPI 2", races), ["2.3", "3.5"])
        # 1.0 and 1.5 without the race that she didn't sail, 11.0, and with it.
        self.assertEqual(self.points("race 3 A DUTY sailed", races), ["1.3"])
        self.assertEqual(self.points("race 3 A DUTY all", races), ["4.5"])
        self.assertEqual(self.points("race 3 A DUTY before\nrace 2 A AVG 3", races),
                         ["1.0", "race 3 is an average itself"])

    def test_not_given(self) -> None:
        race = "FINISH 1 A; FINISH 1 B; MARK 1 C OCS; ! MARK 1 D DSQ; ! REDRESS 1 E ALL; SCORE 1"
        text = ("race 1 C TLE last+2\nrace 1 D DPI 10%\nrace 1 E DPI 10%\nrace 2 A DPI 10%\n"
                "race 1 A REINSTATE\nrace 1 X NSC")
        self.assertEqual(self.points(text, race), [
            "she holds OCS there", "she holds DSQ there, which no points replace",
            "she holds redress ALL there, which isn't of decisions.txt", "race 2 doesn't count",
            "the jury has decided nothing about her there", "X isn't entered"])

    def test_redress_of_another(self) -> None:
        """NSC and REINSTATE give no points: what a boat holds as redress isn't theirs, and her cell says RDG."""
        typed = [Line("JURY" if line.startswith("REDRESS") else "SCORER", line) for line in (
            "ENTER A", "ENTER B", "FINISH 1 A", "FINISH 1 B", "REDRESS 1 A 2.0", "REDRESS 1 B ALL", "SCORE 1")]
        journal = replay.scored(helpers.PROGRAM, [], [], typed).journal
        found = decision_points.decided(helpers.PROGRAM, [], journal, "race 1 A NSC\nrace 1 B REINSTATE")
        self.assertEqual(found.labels, {})
        self.assertEqual([decision_points.words_of(verdict) for verdict in found.verdicts],
                         ["did not sail the course. Not in the scores yet", "reinstated. Not in the scores yet"])
        self.assertEqual({verdict.state for verdict in found.verdicts}, {"to be sent, and the journal doesn't have it"})

    def test_faults(self) -> None:
        """A line that can't be read is named, with what it has to be."""
        for line, why in {
                "race 3 GBR7": "written as", "boat GBR7 PRP 30%": "written as",
                "race 41 GBR7 NSC": "41 is no race", "race 3 GBR7 DP 30%": "Is DPI meant",
                "race 3 G_R7 NSC": "an underscore", "race 3 GBR7 DPI": "a percentage from 1% to 100%",
                "race 3 GBR7 DPI 0%": "isn't from 1%", "race 3 GBR7 DPI 101%": "isn't from 1%",
                "race 3 GBR7 DPI 0.0": "too few", "race 3 GBR7 TLE last": "last+2",
                "race 3 GBR7 NSC 7": "nothing", "race 3 GBR7 AVG 1,3": "race 3 itself",
                "race 3 GBR7 AVG 1,1": "twice", "race 3 GBR7 AVG 1,50": "from 1 to 40",
                "race 3 GBR7 AVG some": "sailed, all or before", "race 3 GBR7 TLE 0.5": "too few"}.items():
            found, wrong = decision_lines.rulings_of(f"# a note\n{line}")
            self.assertEqual(found, [], line)
            self.assertRegex(wrong[0], f"decisions.txt, line 2: .*{re.escape(why)}")
        for sign in ("\x0b", "\x0c", "\x85", "\u2028"):
            self.assertEqual(decision_lines.rulings_of(f"# a note{sign}race 3 GBR7 NSC\r\n"), ([], []))
        self.assertIn("is no race", decision_lines.rulings_of(f"race {'3' * 5000} GBR7 NSC")[1][0])
        self.assertIn("\u017f", decision_lines.rulings_of("race 3 GBR\u017f NSC")[1][0])
        found, wrong = decision_lines.rulings_of("race 03 gbr 7 prp  # hearing 4\nrace 3 GBR7 NSC")
        self.assertEqual([str(ruling) for ruling in found], ["race 3 GBR7 PRP 30%"])
        self.assertRegex(wrong[0], "line 2: line 1 decides about GBR7 in race 3 already")


class Sent(helpers.Series):
    """Decisions of a series whose office is open."""

    def decisions(self, *words: str, lines: str = "") -> tuple[str, int]:
        return helpers.run("decisions", *words, "cup", lines=lines, cwd=self.here)

    def typed(self, *lines: str) -> list[str]:
        link = Link(os.path.join(self.here, "cup", "office", "race.sock"))
        answers = [link.ask(line) for line in lines]
        link.close()
        self.assertEqual([answer for answer in answers if answer[:2] not in ("OK", "RO")], [])
        return answers

    def cells(self, sail: str) -> list[str]:
        """A boat's points and codes by the CSV of the results."""
        said, status = helpers.run("export", "cup", "--csv", "out.csv", "--html", "out.html",
                                   cwd=self.here)
        self.assertEqual(status, 0, said)
        rows = list(csv.DictReader(self.text("out.csv").lstrip("\ufeff").splitlines()))
        row = next(row for row in rows if row["sail"] == sail)
        return [row["R1"], row["R1 code"], row["R2"], row["R2 code"]]

    def test_sent(self) -> None:
        """Seven boats: DNF is 8, and 30% of it 2. A ZFP costs 2, and is given back."""
        self.open()
        self.typed(*(f"FINISH 1 {sail}" for sail in ("GBR101", "GBR7", "NED12", "FRA9")),
                   "PENALTY 1 GBR7 ZFP", "SCORE 1", "FINISH 2 GBR7", "FINISH 2 NED12", "SCORE 2",
                   "MARK 2 FRA9 OCS", "ROLE JURY", "MARK 2 FRA9 DSQ")
        self.write("race 1 GBR7 PRP 30%\nrace 1 IRL5 TLE last+2\nrace 2 FRA9 REINSTATE\n"
                   "race 2 IRL55 NSC\nrace 2 GBR33 DUTY sailed\n", "cup", "decisions.txt")
        said, status = self.decisions("check")
        self.assertEqual(status, 1)
        self.assertIn("no decisions in the scores, 5 others", said)
        said, status = self.decisions()
        self.assertIn("\n6 lines to send: raceoffice decisions send cup\n", said)
        self.assertEqual(status, 1)
        said, status = self.decisions("send", lines="n\n")
        self.assertIn("Not sent.", said)
        said, status = self.decisions("send", lines="y\n")
        for line in ("REDRESS 1 GBR7 6.0   (jury)", "MARK 1 IRL5 DNF   (scorer)",
                     "REDRESS 1 IRL5 6.0   (jury)", "CLEAR 2 FRA9   (jury)",
                     "MARK 2 FRA9 OCS   (scorer)", "MARK 2 IRL55 DNF   (scorer)",
                     "she has no other race yet", "6 of 6 lines taken"):
            self.assertIn(line, said)
        self.assertEqual(status, 1)
        self.write(self.text("cup", "decisions.txt").replace("DUTY sailed", "DUTY all"), "cup",
                   "decisions.txt")
        self.assertEqual(self.decisions("send", lines="y\n")[1], 0)
        said, status = self.decisions("send")
        self.assertEqual((said.splitlines()[-1], status), ("Nothing is to be sent.", 0))
        self.late()

    def test_log_that_cannot_be_written(self) -> None:
        """A line that the office has taken isn't said to be typed again, whatever becomes of the log."""
        self.open()
        self.typed(*(f"FINISH 1 {sail}" for sail in ("GBR101", "GBR7", "NED12")), "SCORE 1")
        self.write("race 1 GBR7 PRP 30%\n", "cup", "decisions.txt")
        os.rename(os.path.join(self.here, "cup", "office.log"), os.path.join(self.here, "office.log"))
        os.mkdir(os.path.join(self.here, "cup", "office.log"))
        said, status = self.decisions("send", lines="y\n")
        self.assertIn("Beware: office.log can't be written: Is a directory.\n1 of 1 line taken.\n", said)
        self.assertEqual((status, "REDRESS 1 GBR7 4.0" in self.text("cup", "journal.txt")), (0, True))

    def test_typed_meanwhile(self) -> None:
        """Nothing is sent if somebody types what changes a decision's points before the answer."""
        self.open()
        self.typed(*(f"FINISH 1 {sail}" for sail in ("GBR101", "GBR7", "NED12")), "SCORE 1")
        self.write("race 1 GBR7 PRP 30%\n", "cup", "decisions.txt")
        window = self.window("decisions", "send", "cup")
        # DNF has 8 points with seven boats and 11 with ten: 30% of it are 2.4, rounded to 2, and 3.3, to 3.
        self.assertIn("REDRESS 1 GBR7 4.0 ", window.read(r"\[y/N\] $"))
        self.typed("ENTER ITA1", "ENTER ITA2", "ENTER ITA3")
        window.type("y")
        said, status = window.rest()
        self.assertIn("Somebody else has typed meanwhile", said)
        self.assertEqual((status, "REDRESS" in self.text("cup", "journal.txt")), (1, False))
        window = self.window("decisions", "send", "cup")
        self.assertIn("REDRESS 1 GBR7 5.0 ", window.read(r"\[y/N\] $"))
        window.type("y")
        self.assertEqual(window.rest()[1], 0)
        self.assertIn("REDRESS 1 GBR7 5.0\n", self.text("cup", "journal.txt"))

    def late(self) -> None:
        """A late entry makes three of the five stale, and nobody shows that without saying so."""
        self.assertIn("REDRESS 2 GBR33", self.text("cup", "journal.txt"))
        self.assertEqual(self.cells("GBR 7"), ["6.0", "PRP", "1.0", ""])
        self.assertEqual(self.cells("IRL 5")[:2], ["6.0", "TLE"])
        self.assertEqual(self.cells("IRL 55")[2:], ["8.0", "NSC"])
        self.assertEqual(self.cells("GBR 33"), ["8.0", "DNC", "8.0", "DUTY"])
        self.assertEqual(self.cells("FRA 9")[2:], ["8.0", "OCS"])
        self.assertNotIn("Out of date", self.text("out.html").partition("<main")[2].partition("</main>")[0])
        self.typed("ENTER ITA1", "ENTER ITA2", "ENTER ITA3")
        said, status = self.decisions("check")
        # DNF is 11 now: 30% of it is 3, and the ZFP costs 2.
        self.assertIn("race 1 GBR7 PRP 30%: 7.0 points by the scores as they are, and the journal has "
                      "6.0 points", said)
        self.assertIn("race 2 GBR33 DUTY all: 11.0 points", said)
        self.assertIn("3 decisions in the scores, 2 others", said)
        self.assertEqual(status, 1)
        self.assertIn("ITA3", self.text("cup", "journal.txt"))
        self.assertEqual(self.cells("GBR 7")[:2], ["6.0", "PRP"])
        helpers.run("board", "cup", "--page", "out", "--once", cwd=self.here)
        for page in ("out.html", "out/index.html", "out/cup/race-1.html"):
            text = self.text(page)
            self.assertIn("Decisions that these scores don’t have as they should:", text)
            self.assertIn("line 1: race 1 GBR7 PRP 30%: 7.0 points", text)
        self.make("other")
        helpers.run("board", "cup", "other", "--page", "two", "--once", cwd=self.here)
        self.assertIn("2 decisions that these scores don’t have as they should.",
                      self.text("two/index.html"))
        said, _ = self.decisions("send", lines="y\n")
        self.assertIn("PENALTY 1 GBR7 ZFP   (scorer)", said)
        self.assertEqual(self.decisions("check")[1], 0)
        self.stopped()
        log = self.text("cup", "office.log")
        self.assertRegex(log, r"\tdecisions\t\tJURY\tREDRESS 1 GBR7 7.0\tOK \d+ ")

    def test_no_office(self) -> None:
        """Without an office decisions are listed and not sent; redress of no line is listed too."""
        journal = replay.scored(helpers.PROGRAM, [], [], [
            *(Line("SCORER", line) for line in ("ENTER GBR7", "ENTER GBR101", "FINISH 1 GBR7",
                                                "SCORE 1")),
            Line("JURY", "REDRESS 1 GBR101 2.5"), Line("JURY", "REDRESS 1 GBR7 1.5")]).journal
        self.write("".join(f"{line}\n" for line in ("REGATTA 2", *journal)), "cup", "journal.txt")
        self.assertEqual(self.decisions("check"),
                         ("no decisions in the scores, no others out of date or in doubt.\n", 0))
        self.write("race 1 gbr7 DPI 0.5\n", "cup", "decisions.txt")
        said, status = self.decisions()
        self.assertEqual(said, "   race 1 GBR7 DPI 0.5: 1.5 points.\n   Race 1, GBR101: the journal has "
                         "redress of 2.5 points, and decisions.txt has no line for it.\n")
        self.assertEqual(status, 0)
        said, status = self.decisions("send", lines="y\n")
        self.assertEqual((said, status), ("no office is open: open it, and send again.\n", 1))

    def stopped(self) -> None:
        """If the office goes while lines are sent, those that it didn't take are listed."""
        # Twelve boats: DNF is 13, a ZFP costs 3, 30% is 4, and she was second.
        self.typed("ENTER ITA4", "ENTER ITA5")
        desk = decisions.Decisions(os.path.join(self.here, "cup"), "decisions")
        lines = desk.state().decided.lines
        self.assertEqual([line.text for line in lines][:3],
                         ["CLEAR 1 GBR7", "PENALTY 1 GBR7 ZFP", "REDRESS 1 GBR7 9.0"])
        real, said = desk.link, list[str]()

        class Gone:
            """A link on which the office goes after the first line."""

            def ask(self, line: str) -> str:
                if line.startswith("PENALTY"):
                    raise Trouble("the office has gone")
                assert real
                return real.ask(line)

        with unittest.mock.patch.object(desk, "link", Gone()), \
                unittest.mock.patch("raceoffice.commands.decisions.say", said.append), \
                unittest.mock.patch("raceoffice.series.sender.say", said.append):
            self.assertEqual(decisions.taken(desk, lines), 1)
        assert real
        real.close()
        self.assertEqual(said[:4], [
            "Stopped at PENALTY 1 GBR7 ZFP: the office has gone. It may be in the journal, or not: look before you type it.",
            "Not sent, and to be typed in this order:", "      PENALTY 1 GBR7 ZFP   (scorer)",
            "      REDRESS 1 GBR7 9.0   (jury)"])


if __name__ == "__main__":
    unittest.main()
