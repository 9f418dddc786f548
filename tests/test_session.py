"""A session of one class without a window: what it says, asks and has done, as values."""
from __future__ import annotations

import dataclasses
import os
import unittest
from unittest import mock

import helpers
from raceoffice.errors import NotSent, Trouble
from raceoffice.series.folder import Folder
from raceoffice.series.lost_lines import UNANSWERED
from raceoffice.session.dialogue import ANSWER, REFUSAL, SHOWN, Outcome, Question, Said
from raceoffice.session.question_words import question
from raceoffice.session.session import Session


class Unanswered(Exception):
    """A question to which nobody has answered yet."""


class Sessions(helpers.Series):
    def setUp(self) -> None:
        super().setUp()
        self.open()
        self.said: list[Said] = []
        self.agreed: set[str] = set()

    def session(self, role: str, name: str = "cup") -> Session:
        found = Session(Folder(os.path.join(self.here, name)), role, "Ann", self.said.append, self.ask)
        found.connect()
        self.addCleanup(found.disconnect)
        return found

    def ask(self, asked: Question) -> bool:
        """A page answers a question by sending the line again, and what somebody agrees to."""
        if asked.text not in self.agreed:
            raise Unanswered(asked.text)
        return True

    def kinds(self) -> list[str]:
        found = [said.kind for said in self.said]
        self.said.clear()
        return found

    def test_interrupted(self) -> None:
        """After Ctrl-C while the office was slow its late answer isn't taken for that to the next line: else
        a boat would stand in the order, and her place be kept beside her."""
        finish = self.session("FINISH")
        for line in ("at 1", "101", "?"):
            finish.do(line)
        assert finish.link
        with mock.patch.object(finish.link, "line", side_effect=KeyboardInterrupt):
            self.assertRaises(KeyboardInterrupt, finish.do, "?1 gbr 33")
        self.assertRaisesRegex(Trouble, "the office still owes an answer", finish.do, "?1 gbr 33")
        finish.disconnect()
        finish.connect()
        self.assertEqual(finish.do("?1 gbr 33"), Outcome(True, "FINISH 1 GBR33", 9, "?1"))
        self.assertEqual(finish.unread.all, ())

    def test_line_that_was_never_sent(self) -> None:
        """A window was killed when it had noted a line for a place, and before it sent it. Whoever types that
        boat then is asked whether she is the one: no place ends by the entry of another finisher."""
        for answer, order, left in ((False, [["GBR101"], ["GBR7"], ["GBR33"]], ["?1"]),
                                    (True, [["GBR101"], ["GBR33"], ["GBR7"]], [])):
            finish, race = self.session("FINISH"), 1 + answer
            for line in (f"at {race}", "101", "?"):
                finish.do(line)
            finish.places.note_sent(finish.unread.one(race, "?1"), f"FINISH {race} GBR33",
                                    len(finish.facts.sheet.journal), None)
            finish.do("7")
            with mock.patch.object(finish, "ask", return_value=answer) as asked:
                self.assertTrue(finish.do("33").is_taken)
            self.assertEqual(asked.call_args.args[0].kind, "place-is")
            self.assertEqual((finish.race.order, finish.unread.marks(race)), (order, left))

    def test_interrupted_line(self) -> None:
        """A line without an answer is in the log, also after Ctrl-C."""
        finish = self.session("FINISH")
        assert finish.link
        with mock.patch.object(finish.link, "line", side_effect=KeyboardInterrupt):
            self.assertRaises(KeyboardInterrupt, finish.exchange, "FINISH 1 GBR7")
        last = finish.folder.logged()[-1]
        self.assertEqual((last.line, last.answer), ("FINISH 1 GBR7", UNANSWERED))

    def test_outcomes(self) -> None:
        """The entry of a line, the mark of a place, and a refusal, without reading a text."""
        finish = self.session("FINISH")
        self.assertEqual(finish.do("at 1"), Outcome(True))
        self.assertEqual(finish.do("101"), Outcome(True, "FINISH 1 GBR101", 8))
        self.kinds()
        self.assertEqual(finish.do("finish 2 7"), Outcome(True, "FINISH 2 GBR7", 9))
        self.assertIn(ANSWER, self.kinds())
        self.assertEqual(finish.do("finish 2 7"), Outcome(False))
        self.assertIn(REFUSAL, self.kinds())
        self.assertEqual(finish.do("?"), Outcome(True, mark="?1"))
        self.assertEqual(finish.do("?1 irl 5"), Outcome(True, "FINISH 1 IRL5", 10, "?1"))
        self.kinds()
        self.assertEqual(finish.do("race 1"), Outcome(True))
        self.assertEqual(set(self.kinds()), {SHOWN})
        self.assertRaises(NotSent, finish.do, "nothing at all")

    def test_a_sail_and_what_was_typed(self) -> None:
        """What was typed of a sail may be left out, and is added to nothing that is a sail by itself."""
        self.make("ones", entries="Sail,Boat\nGBR 1,One\nIRL 1,Uno\nIRL 11,Eleven\nGBR 5,Five\nGBR 51,Late\n")
        self.open("ones")
        finish = self.session("FINISH", "ones")
        for race, (words, sail) in enumerate([("irl 1", "IRL1"), ("irl", "IRL1"), ("irl 11", "IRL11"), ("gbr 5", "GBR5")], 1):
            finish.do(f"at {race}")
            self.assertEqual(finish.do("1").mark, "1?")
            self.assertEqual(finish.do(f"1? {words}").line, f"FINISH {race} {sail}")

    def test_questions(self) -> None:
        """A question that nobody answers yet leaves everything as it is."""
        scorer = self.session("SCORER")
        scorer.do("finish 1 101")
        before = self.text("cup", "journal.txt")
        for typed in ("score 1", "abandon 1", "enter usa 4", "undo"):
            with self.assertRaises(Unanswered) as raised:
                scorer.do(typed)
            self.assertRegex(str(raised.exception), r"\A\S.*\?", typed)
            self.assertEqual(self.text("cup", "journal.txt"), before)
            self.agreed.add(str(raised.exception))
        self.assertEqual(scorer.do("enter usa 4"), Outcome(True, "ENTER USA4", 9))

    def asked(self, session: Session, typed: str) -> Question:
        """What is asked before a line."""
        found: list[Question] = []
        with mock.patch.object(session, "ask", lambda question: found.append(question)):
            session.do(typed)
        return found[0]

    def test_kinds_of_questions(self) -> None:
        """A question is a kind with its values. It is the same if these are, however it is worded."""
        finish, scorer = self.session("FINISH"), self.session("SCORER")
        for typed in ("at 1", "101", "?", "penalty 7 zfp", "mark 33 ocs", "penalty 33 scp"):
            finish.do(typed)
        left = ("GBR7", "NED12", "FRA9", "IRL5", "IRL55")
        scorer.look()
        since = scorer.unread.of(1)[0].since
        for typed, kind, values in [
                ("score 1", "score-unknown", {"race": 1, "marks": ("?1",), "since": (since,)}),
                ("enter gbr 7", "enter-listed", {"sail": "GBR7"}),
                ("enter gbr 8", "enter-near", {"sail": "GBR8", "near": ("GBR7",)}),
                ("enter usa 4", "enter-unlisted", {"sail": "USA4"}),
                ("clear 1 33", "clear-several", {"race": 1, "sail": "GBR33", "counts": False,
                                                 "code": ("OCS",), "penalties": ("SCP",), "redress": ()})]:
            found = self.asked(scorer, typed)
            self.assertEqual((found.kind, found.values), (kind, values), typed)
        finish.do("strike 101")
        self.assertEqual(self.asked(finish, "undo").values, {"line": "STRIKE 1 GBR101",
                                                             "by": "FINISH 1 GBR101"})
        found = self.asked(finish, "101")
        self.assertEqual((found.kind, found.values), ("finished-after", {"mark": "?1", "sail": "GBR101"}))
        finish.do("?1 none")
        self.assertEqual(self.asked(finish, "undo").kind, "keep-place-again")
        found = self.asked(scorer, "score 1")
        self.assertEqual((found.kind, found.values),
                         ("score-penalised", {"race": 1, "sails": ("GBR7",), "a53": False}))
        self.assertEqual(found, dataclasses.replace(found, text="Other words?", prefix="cup: "))
        self.assertNotEqual(found, dataclasses.replace(found, values={**found.values, "sails": ("NED12",)}))
        self.agreed |= {found.text, f"Score race 1 with {len(left)} boats as DNC?"}
        scorer.do("score 1")
        self.assertEqual(self.asked(scorer, "mark 1 7 dnf"), question("correction", str, race=1))
        self.assertEqual(self.asked(scorer, "unscore 1").kind, "unscore")
        self.assertEqual(self.asked(scorer, "clear 1 33").values["counts"], True)


if __name__ == "__main__":
    unittest.main()
