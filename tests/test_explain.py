"""`regatta explain`: its form, worked rows, and each field beside a script written from the rules."""
from __future__ import annotations

import json
import os
import random
import tempfile
import unittest
from fractions import Fraction
from typing import Any

import helpers
from explained_by_rules import Rules, Series
from helpers import ran, replayed
from test_program import fits

CODES = "DNC DNS OCS UFD BFD DNF RET".split()
HEARD = ["DSQ", "DNE"]
# A wins race 1 and B race 2. C doesn't finish race 1, and is third in race 2. The last race breaks the tie of A
# and B (A8.2).
WORKED = """\
1 1 SCORER ENTER A
1 2 SCORER ENTER B
1 3 SCORER ENTER C
1 4 SCORER FINISH 1 A
1 5 SCORER FINISH 1 B
1 6 SCORER MARK 1 C DNF
1 7 SCORER SCORE 1
1 8 SCORER FINISH 2 B
1 9 SCORER FINISH 2 A
1 10 SCORER FINISH 2 C
1 11 SCORER SCORE 2
"""


class Dice(random.Random):
    """A series at random."""

    def sails(self) -> list[str]:
        return [f"{self.choice(['GBR', 'NED', 'A', ''])}{number}" for number in
                self.sample(range(1, 99), self.randint(1, 12))]

    def rules(self) -> Rules:
        races = sorted(self.sample(range(2, 8), self.randint(0, 3)))
        return Rules(self.choice(["a52", "a53"]), self.choice([None, None, self.randint(1, 9)]), races,
                     self.random() < 0.3)

    def decision(self, race: int, sail: str) -> list[str]:
        """The lines of a decision, with the role that may send it."""
        kind = self.randrange(6)
        if kind < 2:
            return ["ROLE SCORER", f"MARK {race} {sail} {self.choice(CODES)}"]
        if kind == 2:
            return ["ROLE JURY", f"MARK {race} {sail} {self.choice(HEARD)}"]
        if kind == 3:
            return ["ROLE SCORER", f"PENALTY {race} {sail} {self.choice(['ZFP', 'SCP'])}"]
        if kind == 4:
            how = self.choice(["ALL", "PRIOR", f"{self.randint(10, 90) / 10}"])
            return ["ROLE JURY", f"REDRESS {race} {sail} {how}"]
        return ["ROLE JURY", f"CLEAR {race} {sail}"]

    def line(self, rules: Rules, race: int, sails: list[str]) -> list[str]:
        sail, other = self.choice(sails), self.choice(sails)
        kind = self.random()
        if kind < 0.3:
            return self.decision(race, sail)
        if kind < 0.38:
            return ["ROLE SCORER", f"STRIKE {race} {sail}"]
        if kind < 0.5:
            return ["ROLE SCORER", f"{self.choice(['SCORE', 'SCORE', 'UNSCORE'])} {race}"]
        if rules.handicap:
            return ["ROLE SCORER", f"TIME {race} {sail} {self.randint(1, 6)}"]
        verb = self.choice(["FINISH", "FINISH", "FINISH", "TIE", "BEFORE"])
        return ["ROLE SCORER", f"{verb} {race} {sail}" + (f" {other}" if verb != "FINISH" else "")]

    def lines(self, rules: Rules) -> str:
        """Lines of which some are refused: a replay leaves those out of its journal."""
        sails, races = self.sails(), self.randint(0, 7)
        lines = [f"ENTER {sail}" for sail in sails]
        for _ in range(self.randint(0, 16) * races):
            lines += self.line(rules, self.choice([*range(1, races + 1), 40]), sails)
        lines += ["ROLE SCORER", *(f"SCORE {race}" for race in range(1, races + 1) if self.random() < 0.8)]
        late = [f"ENTER LATE{number}" for number in range(self.randint(0, 2))]
        return "\n".join([*lines, *late, "QUIT\n"])


def words_of(rules: Rules) -> list[str]:
    words = ["--absent", rules.absent, "--exclude", ",".join(map(str, rules.exclude)) or "none"]
    words += ["--scp", str(rules.scp)] if rules.scp is not None else []
    return words + ["--handicap"] * rules.handicap


def journal_of(rules: Rules, lines: str) -> str:
    printed, said, status = replayed(*words_of(rules), "--print", "journal", lines=lines)
    assert (said, status) == ("", 0), (said, status)
    return printed.partition("BYE\n")[2]


class Explained(unittest.TestCase):
    def setUp(self) -> None:
        holder = tempfile.TemporaryDirectory()
        self.addCleanup(holder.cleanup)
        self.path = os.path.join(holder.name, "journal.txt")

    def write(self, text: str) -> None:
        with open(self.path, "w", encoding="ascii") as file:
            file.write(text)

    def explained(self, rules: Rules, journal: str) -> tuple[str, dict[str, Any]]:
        self.write(journal)
        text, said, status = ran("explain", *words_of(rules), "--journal", self.path, lines="ENTER Z\n")
        self.assertEqual((said, status), ("", 0))
        return text, json.loads(text, parse_float=Fraction)

    def test_worked(self) -> None:
        """The document that the crate's specs/Worked.antt has, each row a line."""
        text, whole = self.explained(Rules(), WORKED)
        self.assertEqual(whole["last_entry"], 11)
        self.assertIn('{"first":"B","second":"A","rule":"A8.2","race":2,"scores":[1.0,2.0]}\n', text)
        self.assertIn('{"race":1,"ranks":[["A",1,false],["B",2,false],["C",3,false]]},\n', text)
        self.assertIn('{"sail":"C","rank":3,"tied":false,"net":3.0,"total":7.0,"scores":[\n', text)
        self.assertIn('{"race":1,"status":"DNF","base":4.0,"penalty":0,"plain":4.0,"redress":null,"averaged":[],'
                      '"sum":0.0,"points":4.0,"mark":"DNF","excluded":true},\n', text)
        self.assertEqual(whole, Series(Rules(), WORKED).document())

    def test_form(self) -> None:
        """A document fits its schema."""
        with open(os.path.join(helpers.TOP, "docs", "explain.schema.json"), encoding="ascii") as file:
            schema = json.load(file)
        whole = json.loads(self.explained(Rules(), WORKED)[0])
        for name in ("rules", "races", "boats"):
            self.assertEqual(list(whole), schema["required"])
            form = schema["properties"][name]
            one, many = (whole[name], form) if name == "rules" else (whole[name][0], form["items"])
            self.assertEqual(list(one), many["required"])
        self.assertTrue(fits(whole["last_entry"], schema["$defs"]["count"], schema))

    def test_by_rules(self) -> None:
        """Each field of random series is that of a script written from the rules."""
        for number in range(helpers.trials(200)):
            dice = Dice(number)
            rules = dice.rules()
            journal = journal_of(rules, dice.lines(rules))
            with self.subTest(number):
                self.assertEqual(self.explained(rules, journal)[1], Series(rules, journal).document())

    def test_refused(self) -> None:
        """What a replay says of its start, `explain` says too, and prints nothing."""
        for journal, said in [
                ("1 1 SCORER ENTER A\n1 2 SCORER ENTER A\n", "regatta: start refused 6 at 2\n"),
                ("1 1 SCORER ENTER A\nX\n", "regatta: journal fault 1 line 2\n"),
                ("1 1 SCORER ENTER A\n1 1 SCORER ENTER B\n", "regatta: start refused 3 at 2\n")]:
            self.write(journal)
            for command in ("replay", "explain"):
                self.assertEqual(ran(command, "--journal", self.path), ("", said, 1))

    def test_nothing(self) -> None:
        """Nothing to explain is explained too."""
        whole = json.loads(ran("explain")[0])
        self.assertEqual((whole["races"], whole["boats"], whole["after_each"], whole["last_entry"]), ([], [], [], 0))
