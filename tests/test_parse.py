"""What somebody types, as a line: the race that may be left out, codes alone, what may be two things."""
from __future__ import annotations

import itertools
import unittest
from typing import Any

from raceoffice.errors import NotSent
from raceoffice.session.dialogue import Question
from raceoffice.session.parse import Reader, race_number

BOATS = ["GBR101", "GER101", "GBR7", "NED12", "FRA9", "GBR33", "IRL5", "IRL55", "DEN820", "GBR77", "GBR1042"]


def reader(at: int | None = 3, boats: list[str] | None = None, **more: Any) -> Reader:
    return Reader(boats or BOATS, str, at, **more)


class Spoken(unittest.TestCase):
    def line(self, typed: str, asked: list[str] | None = None, yes: bool = True, **more: Any) -> str:
        """The line of what was typed; what was asked is added."""
        def ask(question: Question) -> bool:
            assert asked is not None, question.text
            asked.append(question.text)
            return yes
        return reader(**more).line(typed, ask)

    def test_race_of_at(self) -> None:
        """After `at 3` the race may be left out, and a code alone is as good as its line."""
        for typed, line in [
                ("mark 33 ocs", "MARK 3 GBR33 OCS"), ("ocs 33", "MARK 3 GBR33 OCS"),
                ("33 ocs", "MARK 3 GBR33 OCS"),
                ("gbr 33 ocs", "MARK 3 GBR33 OCS"), ("OCS gbr33", "MARK 3 GBR33 OCS"),
                ("dnf 12", "MARK 3 NED12 DNF"),
                ("12 ret", "MARK 3 NED12 RET"), ("zfp 77", "PENALTY 3 GBR77 ZFP"),
                ("77 scp", "PENALTY 3 GBR77 SCP"),
                ("penalty 77 zfp", "PENALTY 3 GBR77 ZFP"), ("strike 33", "STRIKE 3 GBR33"),
                ("clear 33", "CLEAR 3 GBR33"),
                ("tie 77 820", "TIE 3 GBR77 DEN820"), ("before 33 9", "BEFORE 3 GBR33 FRA9"),
                ("before gbr 33 fra 9", "BEFORE 3 GBR33 FRA9"), ("finish 12", "FINISH 3 NED12"),
                ("finish gbr 7", "FINISH 3 GBR7"), ("redress 33 all", "REDRESS 3 GBR33 ALL"),
                ("redress gbr 33 2.5", "REDRESS 3 GBR33 2.5"), ("33", "FINISH 3 GBR33"),
                ("irl 5", "FINISH 3 IRL5")]:
            self.assertEqual(self.line(typed), line, typed)

    def test_race_that_is_typed(self) -> None:
        """With its race a line is what it was, at a race or not."""
        for typed, line in [
                ("mark 2 33 ocs", "MARK 2 GBR33 OCS"), ("ocs 2 33", "MARK 2 GBR33 OCS"),
                ("2 33 ocs", "MARK 2 GBR33 OCS"),
                ("strike 2 33", "STRIKE 2 GBR33"), ("tie 2 77 820", "TIE 2 GBR77 DEN820"),
                ("clear 2 gbr 33", "CLEAR 2 GBR33"),
                ("before 2 gbr 33 fra 9", "BEFORE 2 GBR33 FRA9"), ("finish 2 12", "FINISH 2 NED12"),
                ("redress 2 7 3.5", "REDRESS 2 GBR7 3.5"), ("redress 2 7 prior", "REDRESS 2 GBR7 PRIOR")]:
            for at in (None, 2, 3):
                self.assertEqual(self.line(typed, at=at), line, (typed, at))

    def test_two_things(self) -> None:
        """A number that may be a race or a boat is asked, and sent as it was typed only after a yes."""
        cases: list[tuple[str, dict[str, Any], str, str]] = [
            ("mark 3 ocs", {}, "3 may be a race or a boat.", "MARK 3 GBR33 OCS"),
            ("strike 3", {}, "3 may be a race or a boat.", "STRIKE 3 GBR33"),
            ("finish 3", {}, "3 may be a race or a boat.", "FINISH 3 GBR33"),
            ("3 ocs", {}, "3 may be a race or a boat.", "MARK 3 GBR33 OCS"),
            ("dnf 7", {"races": {1, 7}}, "7 may be a race or a boat.", "MARK 3 GBR7 DNF"),
            ("strike 7", {"races": {7}}, "7 may be a race or a boat.", "STRIKE 3 GBR7"),
            ("tie 3 12", {"boats": ["GBR3", "NED12"]}, "3 may be a race or a boat.", "TIE 3 GBR3 NED12"),
            ("redress 7 12", {}, "7 may be a race or a boat.", "REDRESS 3 GBR7 12"),
            ("ocs 33 12", {}, "33 may be a race or a boat.", "MARK 33 NED12 OCS"),
            ("mark 33 12 ocs", {}, "33 may be a race or a boat.", "MARK 33 NED12 OCS"),
            ("ret 5", {"boats": ["RET5", "IRL55"]}, "This may be MARK 3 RET5 RET or FINISH 3 RET5.",
             "MARK 3 RET5 RET"),
            ("ret 5", {"boats": ["RET5", "IRL5"]}, "5 may be RET5 or IRL5.", "FINISH 3 RET5"),
            ("time 3 33", {"is_timed": True}, "3 may be a race or a boat.", "TIME 3 GBR33 33"),
            ("mark 2 a dsq", {"boats": ["2A", "A"]}, "This may be MARK 2 A DSQ or MARK 3 2A DSQ.",
             "MARK 2 A DSQ")]
        for typed, more, question, line in cases:
            asked: list[str] = []
            self.assertEqual(self.line(typed, asked, **more), line, typed)
            self.assertEqual(asked, [f"{question} Is {line} meant?"])
            self.assertRaisesRegex(NotSent, "type the race and all of her sail", self.line, typed, [], False,
                                   **more)

    def test_never_guessed(self) -> None:
        """All ways to type all lines of a few boats: what is sent unasked has only one meaning."""
        boats, races = ["GBR3", "NED12", "FRA9", "3A", "A"], ("3", "9", "12")
        sails = {"GBR3": ["3", "gbr 3", "gbr3"], "NED12": ["12", "ned 12"], "FRA9": ["9"],
                 "3A": ["3a", "3 a"],
                 "A": ["a"]}
        meant: dict[str, set[str]] = {}
        for command, last in (("MARK", "OCS"), ("PENALTY", "ZFP"), ("STRIKE", ""), ("TIE", ""),
                              ("FINISH", "")):
            for race, boat, other in itertools.product(races, boats, boats if command == "TIE" else [""]):
                line = " ".join(filter(None, [command, race, boat, other, last]))
                for text in itertools.product(sails[boat], sails.get(other, [""])):
                    for typed in self.typed(command, race, " ".join(text).strip(), last.lower()):
                        meant.setdefault(typed, set()).add(line)
        # Somebody may also forget the sail, in a race of which something is recorded.
        forgotten = {f"{command} {race}{last}" for race in ("3", "9") for command, last in (
            ("mark", " ocs"), ("penalty", " zfp"), ("strike", ""), ("tie", ""), ("finish", ""))}
        sent = 0
        for typed, lines in meant.items():
            asked: list[str] = []
            try:
                line = self.line(typed, asked, boats=boats, races={3, 9})
            except NotSent:
                continue
            if not asked:
                self.assertEqual(lines, {line}, typed)
                self.assertNotIn(typed, forgotten)
                sent += 1
        self.assertGreater(sent, 100)

    def typed(self, command: str, race: str, sail: str, last: str) -> list[str]:
        """The ways to type a line after `at 3`."""
        rests = [f"{race} {sail}"] + ([sail] if race == "3" else [])
        bare = [sail] if command == "FINISH" and race == "3" else []
        alone = [text for rest in rests for text in (f"{last} {rest}", f"{rest} {last}")] if last else []
        return bare + alone + [f"{command.lower()} {rest} {last}".strip() for rest in rests]

    def test_said_clearly(self) -> None:
        """What is no line says what is missing, or odd."""
        for typed, at, text in [
                ("820,1200", 3, "820,1200 has a comma, which no sail has: type one boat in a line"),
                ("820, 1200", 3, "820,1200 has a comma"), ("k/12", 3, "K/12 has a slash"),
                ("820 77", 3, "820 77 are several numbers: type one boat in a line"),
                ("ocs 820 77", 3, "820 77 are several numbers"),
                ("mark 33 ocs", None, "MARK needs more words: MARK race sail code, after at 3 without the "
                                      "race"),
                ("ocs 33", None, "MARK needs more words"),
                ("strike 33", None, "STRIKE race sail, after at 3"),
                ("tie 7", 3, "two sails are needed"), ("mark", 3, "MARK needs more words"),
                ("33", None, "first say which race: at 3"),
                ("hello", None, "HELLO is no line. help lists the lines"),
                ("race", None, "RACE is typed as race 3"), ("abandon", 3, "ABANDON is typed as abandon 3"),
                ("undo 3", 3, "UNDO is typed as undo"), ("mark 3 7 tle", 3, "TLE goes into decisions.txt"),
                ("7 dpi", None, "DPI goes into decisions.txt"), ("7 dpi", 3, "DPI goes into decisions.txt"),
                ("mark 412 ocs", 3, "412 isn't entered"),
                ("mark 3 412 ocs", 3, "412 isn't entered"), ("finish gbr 7", None, "GBR is no race"),
                ("mark 101 ocs", 3, "101 may be GBR101 or GER101: type more of her sail"),
                ("finish 41 7", None, "41 is no race"), ("finish 0 7", None, "0 is no race")]:
            with self.assertRaises(NotSent) as caught:
                self.line(typed, at=at)
            self.assertIn(text, str(caught.exception), typed)

    def test_corrected_times(self) -> None:
        """After `at 3` a line is a sail and her seconds; a code in their place is her code."""
        for typed, line in [("33 4005", "TIME 3 GBR33 4005"), ("gbr 33 4005", "TIME 3 GBR33 4005"),
                            ("time 33 4005", "TIME 3 GBR33 4005"), ("time 2 33 4005", "TIME 2 GBR33 4005"),
                            ("33 dnf", "MARK 3 GBR33 DNF"), ("dnf 33", "MARK 3 GBR33 DNF")]:
            self.assertEqual(self.line(typed, is_timed=True), line, typed)
        for typed in ("33", "gbr 33", "time 33", "time 2 gbr 33"):
            self.assertRaisesRegex(NotSent, "her corrected time is missing", self.line, typed, is_timed=True)

    def test_crossed(self) -> None:
        """Who crossed the line is a sail with a number, and no line without its spaces."""
        for typed, sail in [("101", "101"), ("gbr 412", "GBR412"), ("k-9", "K-9"), ("9x", "9X"),
                            ("j70 12", "J7012"),
                            ("hello", ""), ("at3", ""), ("race 3 4", ""), ("ocs33", ""), ("undo7", ""),
                            ("820 77", ""),
                            ("820,77", ""), ("33 ocs", ""), ("mark 33", ""), ("1" * 13, ""), ("score 3", "")]:
            self.assertEqual(reader().crossed(typed), sail, typed)
        self.assertEqual((reader(at=None).crossed("101"), reader(is_timed=True).crossed("101")), ("", ""))

    def test_numbers(self) -> None:
        """The number of a race is that of the program: any zeros, and nothing that only looks like one."""
        self.assertEqual([race_number(text) for text in ("1", "40", "007", "0" * 70 + "3")], [1, 40, 7, 3])
        for text in ("0", "41", "-1", "+1", "1.0", "", " 1", "\u0663", "1" * 4301, "1_0"):
            self.assertEqual(race_number(text), 0, text[:9])


if __name__ == "__main__":
    unittest.main()
