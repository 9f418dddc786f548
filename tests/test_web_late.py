"""What was tapped some time before it comes: meanwhile the race was abandoned, the boat was struck and recorded again, or
others were moved past her."""
from __future__ import annotations

import os
import time
import unittest
from typing import Any
from unittest import mock

from on_water import OnWater, lines_of_swap
from raceoffice.errors import NotSent, Trouble
from raceoffice.remarks import remark
from raceoffice.series.abandoned import note_abandoned
from raceoffice.series.folder import Folder
from raceoffice.session.dialogue import Question
from raceoffice.session.seat import Seat
from raceoffice.session.session import Session
from raceoffice.web.corrections import correct, leave_rest
from raceoffice.web.finish_order import Elsewhere
from raceoffice.web.race_start import zone_of
from raceoffice.web.requests import Wrong
from raceoffice.web.room import Room
from raceoffice.web.tap_session import Asked
from raceoffice.web.taps import Tap
from web_devices import new_id

# More entries than there are: the device has seen all.
SEEN = 1000


def sent_back(asked: Question) -> Any:
    """A question as a page sends it back."""
    values = {key: list(value) if isinstance(value, tuple) else value for key, value in asked.values.items()}
    return {"kind": asked.kind, "values": values}


class Late(OnWater):
    def do(self, role: str, name: str, line: str, **more: Any) -> Any:
        """What came of a tap: its outcome, or the kind of what is asked."""
        tap = Tap.read({"id": new_id(), "line": line, **more})
        try:
            return self.room.do(role, name, tap)["outcome"]
        except Asked as asked:
            self.agreed = [sent_back(asked.question)]
            self.values = self.agreed[0]["values"]
            return asked.question.kind
        except Elsewhere as asked:
            return asked.question.kind

    def abandon(self, race: int) -> None:
        """The scorer abandons a race."""
        if self.do("SCORER", "Cy", f"ABANDON {race}") == "abandon":
            self.assertIn(self.do("SCORER", "Cy", f"ABANDON {race}", agreed=self.agreed), ("taken", "noted"))

    def again(self) -> None:
        """Another web comes, with what is on the disk."""
        self.room.close()
        self.room = Room(Folder(os.path.join(self.here, "cup")), lambda: None)

    # A race that was abandoned

    def test_before_the_race_was_abandoned(self) -> None:
        """A finish, a place, a code and the undo of a strike that were tapped before the race was abandoned, and come after,
        are asked about, also after a restart. Those who were tapped later aren't, nor those of another race."""
        late = int(time.time() * 1000) - 60_000
        self.assertEqual(self.do("FINISH", "Ann", "FINISH 1 NED12", at=late, behind=""), "taken")
        struck = new_id()
        self.room.do("FINISH", "Ann", Tap.read({"id": struck, "line": "STRIKE 1 NED12", "at": late}))
        self.assertEqual(self.do("FINISH", "Ann", "FINISH 1 IRL5", at=late, behind=""), "taken")
        self.abandon(1)
        self.again()
        cases: list[tuple[str, dict[str, Any]]] = [("FINISH 1 FRA9", {"behind": ""}), ("? 1", {"behind": ""}), ("MARK 1 FRA9 RET", {})]
        for line, more in cases:
            self.assertEqual(self.do("FINISH", "Bob", line, at=late, **more), "abandoned-since", line)
            self.assertEqual(self.values["race"], 1)
        now = int(time.time() * 1000)
        self.assertEqual(self.do("FINISH", "Ann", "UNDO", at=now, undoes=struck), "abandoned-since")
        self.assertEqual(self.seen(1), [])
        self.assertEqual(self.do("FINISH", "Bob", "FINISH 2 FRA9", at=late, behind=""), "taken")
        self.assertEqual(self.do("FINISH", "Bob", "FINISH 1 GBR7", at=now, behind=""), "taken")
        self.assertEqual(self.do("FINISH", "Bob", "FINISH 1 FRA9", at=late, behind=""), "abandoned-since")
        self.assertEqual(self.do("FINISH", "Bob", "FINISH 1 FRA9", at=late, behind=None, agreed=self.agreed), "taken")
        self.assertEqual(self.seen(1), [["GBR7"], ["FRA9"]])

    def test_abandoned_with_nothing(self) -> None:
        """So it is if all taps of that race were still waiting when it was abandoned, and if it was in a window."""
        late = int(time.time() * 1000) - 60_000
        self.abandon(1)
        self.window_bob.session.role = "SCORER"
        self.window_bob.session.office().ask("ROLE SCORER")
        self.window_bob.session.do("abandon 2")
        for race in (1, 2):
            self.assertEqual(self.do("FINISH", "Ann", f"FINISH {race} FRA9", at=late, behind=""), "abandoned-since")

    def test_abandoned_in_a_window(self) -> None:
        """The office goes once a boat is cleared, and before she has her ZFP again: who abandons the race again in that window
        gives it back. What is of another race isn't sent, and nothing is given twice."""
        session = self.window_bob.session
        session.role = "SCORER"
        session.office().ask("ROLE SCORER")
        for line in ("MARK 1 GBR7 OCS", "PENALTY 1 GBR7 ZFP", "MARK 2 FRA9 OCS"):
            session.do(line)
        exchange = session.exchange

        def exchanged(line: str, unread: object = None) -> str:
            if line.startswith("PENALTY "):
                raise Trouble("the office has gone")
            return exchange(line)
        with mock.patch.object(session, "exchange", exchanged), self.assertRaises(Trouble):
            session.do("abandon 1")
        session.look()
        self.assertEqual(session.facts.commands[-1], "CLEAR 1 GBR7")
        session.do("abandon 2")
        self.assertEqual(session.facts.commands[-1], "CLEAR 2 FRA9")
        for _ in range(2):
            session.do("abandon 1")
            self.assertEqual(session.facts.commands[-2:], ["CLEAR 2 FRA9", "PENALTY 1 GBR7 ZFP"])

    def test_abandoned_in_a_window_twice_the_same(self) -> None:
        """A boat has ZFP twice, and the office goes between the two lines that give them back: the second one comes, too."""
        session = self.window_bob.session
        session.role = "SCORER"
        session.office().ask("ROLE SCORER")
        for line in ("MARK 1 GBR7 OCS", "PENALTY 1 GBR7 ZFP", "PENALTY 1 GBR7 ZFP"):
            session.do(line)
        exchange, given = session.exchange, list[str]()

        def exchanged(line: str, unread: object = None) -> str:
            given.extend([line] if line.startswith("PENALTY ") else [])
            if len(given) == 2:
                raise Trouble("the office has gone")
            return exchange(line)
        with mock.patch.object(session, "exchange", exchanged), self.assertRaises(Trouble):
            session.do("abandon 1")
        for _ in range(2):
            session.look()
            session.do("abandon 1")
            self.assertEqual(session.facts.race("1").penalties, {"GBR7": ["ZFP", "ZFP"]})

    def stopped(self, session: Session, id: str) -> None:
        """The race is abandoned, in a window or by a tap, and its process is killed once GBR7 is cleared."""
        for line in ("MARK 1 GBR7 OCS", "PENALTY 1 GBR7 ZFP"):
            self.assertEqual(self.do("FINISH", "Ann", line, seen=SEEN), "taken")
        exchange = Seat.exchange

        def exchanged(seat: Seat, line: str, unread: Any = None) -> str:
            if line.startswith("PENALTY "):
                raise KeyboardInterrupt
            return exchange(seat, line, unread)
        with mock.patch.object(Seat, "exchange", exchanged), self.assertRaises(KeyboardInterrupt):
            if id:
                self.assertEqual(self.do("SCORER", "Cy", "ABANDON 1", id=id), "abandon")
                self.do("SCORER", "Cy", "ABANDON 1", id=id, agreed=self.agreed)
            else:
                session.do("abandon 1")
        session.disconnect()
        self.again()
        self.room.look()
        self.assertEqual(self.room.facts.commands[-1], "CLEAR 1 GBR7")

    def scorers_window(self) -> Session:
        """A window of the scorer that says yes."""
        session = Session(Folder(os.path.join(self.here, "cup")), "SCORER", "Di", lambda said: None, lambda asked: True)
        session.connect()
        self.addCleanup(session.disconnect)
        return session

    def test_abandoned_in_another_window(self) -> None:
        """A window, or the web, is killed once a boat is cleared, and before she has her ZFP again: another window, and a tap,
        give it back, after a question that has that. Nothing is given twice."""
        for id, is_window in (("", True), ("", False), (new_id(), True), (new_id(), False)):
            with self.subTest(id=id, is_window=is_window):
                self.stopped(self.scorers_window(), id)
                for _ in range(2):
                    self.scorers_window().do("abandon 1") if is_window else self.abandon(1)
                self.assertEqual(self.scorers_window().facts.commands[-2:], ["CLEAR 1 GBR7", "PENALTY 1 GBR7 ZFP"])
                self.assertEqual([one for one in os.listdir(self.room.folder.file("office")) if one.startswith("abandoning")], [])
                self.assertEqual(self.do("SCORER", "Cy", "CLEAR 1 GBR7", seen=SEEN), "taken")

    def unfinished(self) -> Any:
        """What is left, as the scorer's page shows it."""
        left: Any = self.room.state(True)["unfinished"]
        return left[0]

    def test_left(self) -> None:
        """What the scorer has left isn't sent when the race is abandoned again."""
        self.stopped(self.scorers_window(), new_id())
        leave_rest(self.room, {"id": self.unfinished()["id"]})
        self.assertEqual(self.do("SCORER", "Cy", "ABANDON 1"), "noted")
        self.assertEqual(self.room.facts.commands[-1], "CLEAR 1 GBR7")

    def test_penalty_given_meanwhile(self) -> None:
        """Somebody has given her the penalty again, and nothing else is left: then the scorer's page shows nothing that is left,
        which would give it twice."""
        id = new_id()
        self.stopped(self.scorers_window(), id)
        self.assertEqual(self.unfinished()["lines"], ["PENALTY 1 GBR7 ZFP"])
        self.assertEqual(self.do("FINISH", "Ann", "PENALTY 1 GBR7 ZFP", seen=SEEN), "taken")
        self.assertEqual(self.do("SCORER", "Cy", "ABANDON 1", id=id), "noted")
        self.assertEqual(self.room.state(True)["unfinished"], [])

    def test_abandoned_once_more(self) -> None:
        """A yes is about the race that was abandoned by then: if it is abandoned once more before that comes, it is asked again."""
        late = int(time.time() * 1000) - 60_000
        self.abandon(1)
        self.assertEqual(self.do("FINISH", "Ann", "FINISH 1 FRA9", at=late, behind=""), "abandoned-since")
        agreed = self.agreed
        self.abandon(1)
        self.assertEqual(self.do("FINISH", "Ann", "FINISH 1 FRA9", at=late, behind="", agreed=agreed), "abandoned-since")
        self.assertEqual(self.do("FINISH", "Ann", "FINISH 1 FRA9", at=late, behind="", agreed=self.agreed), "taken")

    def test_abandoned_by_a_clock_that_was_ahead(self) -> None:
        """The computer's clock was an hour ahead when a race was abandoned, and was set right: taps of now aren't from before
        that. The abandoning before it still counts."""
        now = int(time.time() * 1000)
        self.abandon(1)
        with mock.patch.object(time, "time", return_value=now / 1000 + 3600):
            note_abandoned(self.room.folder, 1)
        self.assertEqual(self.do("FINISH", "Ann", "FINISH 1 GBR7", at=int(time.time() * 1000), behind=None), "taken")
        self.assertEqual(self.do("FINISH", "Ann", "FINISH 1 FRA9", at=now - 60_000, behind=None), "abandoned-since")

    def test_abandoned_by_the_jury(self) -> None:
        """The jury abandons no race, nor one of which nothing is recorded: no tap is asked about after that."""
        late = int(time.time() * 1000) - 60_000
        with self.assertRaises(NotSent) as why:
            self.do("JURY", "Dee", "ABANDON 1")
        self.assertEqual(why.exception.said, (remark("abandon-role", race=1, lines=["STRIKE"], role="jury"),))
        self.assertEqual(self.do("FINISH", "Ann", "FINISH 1 FRA9", at=late, behind=None), "taken")

    # What is asked of a correction

    def test_no_correction(self) -> None:
        """A line that names no race or no boat is no line of a correction."""
        for line in ("STRIKE", "FINISH", "TIMES", "FINISH 1", "STRIKE 1", "BEFORE 1 FRA9", "TIE 1 FRA9", "MARK 1", "CLEAR 1"):
            with self.assertRaises(Wrong, msg=line) as why:
                self.correct([line], [])
            self.assertEqual(why.exception.status, 400, line)

    def correct(self, lines: list[str], agreed: list[Any], at: int = 0, behind: str | None = None) -> str:
        """What came of a correction: its outcome, or the kind of what is asked, before which nothing is noted."""
        before = len(self.room.facts.sheet.journal), dict(self.room.register.decisions)
        try:
            return str(correct(self.room, {"id": new_id(), "at": at, "agreed": agreed, "lines": lines, "behind": behind}, "Cy")["outcome"])
        except Asked as asked:
            self.assertEqual((len(self.room.facts.sheet.journal), self.room.register.decisions), before)
            agreed.append(sent_back(asked.question))
            return asked.question.kind

    def test_correction_beside_a_new_place(self) -> None:
        """A boat is moved just ahead of another, while a place is kept there: that is asked before she is struck."""
        now = int(time.time() * 1000)
        for line, at in (("FINISH 1 NED12", 90), ("FINISH 1 FRA9", 60), ("FINISH 1 GBR33", 60)):
            self.do("FINISH", "Ann", line, at=now - 1000 * at, behind=None)
        self.do("FINISH", "Bob", "? 1", at=now - 70_000, behind="NED12", by_clock=True)
        self.assertEqual(self.seen(1), [["NED12"], ["?1"], ["FRA9"], ["GBR33"]])
        lines, agreed = ["STRIKE 1 GBR33", "BEFORE 1 GBR33 FRA9"], list[Any]()
        self.assertEqual([self.correct(lines, agreed, now - 50_000) for _ in range(2)], ["place-ahead", "taken"])
        self.assertEqual(self.seen(1), [["NED12"], ["?1"], ["GBR33"], ["FRA9"]])

    def test_correction_of_an_abandoned_race(self) -> None:
        """The race was abandoned, and its boats recorded again, after the scorer began to move one."""
        late = int(time.time() * 1000) - 60_000
        self.abandon(1)
        for line in ("FINISH 1 FRA9", "FINISH 1 GBR33"):
            self.do("FINISH", "Ann", line, behind=None)
        lines, agreed = ["STRIKE 1 GBR33", "BEFORE 1 GBR33 FRA9"], list[Any]()
        self.assertEqual([self.correct(lines, agreed, late) for _ in range(2)], ["abandoned-since", "taken"])

    def test_time_of_an_abandoned_sailing(self) -> None:
        """A boat that the scorer puts into the resail isn't shown with the time of the sailing that was abandoned."""
        late = int(time.time() * 1000) - 60_000
        self.do("FINISH", "Ann", "FINISH 1 FRA9", at=late, behind="")
        self.assertEqual(self.shown(1)["at"], {"FRA9": late})
        self.abandon(1)
        self.assertEqual(self.correct(["FINISH 1 FRA9", "FINISH 1 GBR33"], []), "taken")
        self.assertEqual((self.shown(1)["order"], self.shown(1)["at"]), ([["FRA9"], ["GBR33"]], {}))

    def test_many_questions(self) -> None:
        """Of each of 15 boats who hold two things it is asked whether all goes, and all can be agreed to."""
        held = [f"{race} {sail}" for race in (1, 2, 3) for sail in ("NED12", "IRL5", "FRA9", "GBR7", "GBR33")]
        for one in held:
            self.do("SCORER", "Cy", f"PENALTY {one} ZFP")
            self.do("SCORER", "Cy", f"MARK {one} RET")
        lines, agreed = [f"CLEAR {one}" for one in held], list[Any]()
        self.assertEqual([self.correct(lines, agreed) for _ in range(16)], ["clear-several"] * 15 + ["taken"])

    # The zone

    def test_zone_of_a_computer(self) -> None:
        """A series went by the clock of a computer without a zone's name, until the settings had one: what was tapped before
        that is by the first."""
        self.write(self.text("cup", "series.ini").replace("zone = UTC", "zone = Pacific/Honolulu"), "cup", "series.ini")
        folder = Folder(os.path.join(self.here, "cup"))
        folder.set_note("zone", b"0 -\n1000 Pacific/Honolulu\n")
        self.assertEqual([zone_of(folder, at) and str(zone_of(folder, at)) for at in (999, 1000)], [None, "Pacific/Honolulu"])

    # A boat that was struck and recorded again

    def test_code_that_waited(self) -> None:
        """A code that waited on a phone, while another device struck the boat and finished her again, is asked about; one
        whose boat only finished meanwhile isn't, nor one of the device that has struck her itself."""
        for sail in ("GBR7", "FRA9"):
            self.do("FINISH", "Ann", f"FINISH 1 {sail}", behind=None)
        seen = len(self.room.facts.sheet.journal)
        for line in ("STRIKE 1 GBR7", "FINISH 1 GBR7", "FINISH 1 NED12"):
            self.assertEqual(self.do("FINISH", "Bob", line, behind=None), "taken")
        self.assertEqual(self.do("FINISH", "Bob", "MARK 1 GBR7 RET", seen=seen), "taken")
        self.assertEqual(self.do("FINISH", "Bob", "CLEAR 1 GBR7", seen=seen), "taken")
        self.assertEqual(self.do("FINISH", "Ann", "MARK 1 NED12 OCS", seen=seen), "taken")
        self.assertEqual(self.do("FINISH", "Ann", "MARK 1 GBR7 DNF", seen=seen), "other-since")
        self.assertEqual(self.values, {"line": "MARK 1 GBR7 DNF", "other": "FINISH 1 GBR7"})
        self.assertEqual(self.do("FINISH", "Ann", "MARK 1 GBR7 DNF", seen=seen, agreed=self.agreed), "taken")

    def test_finished_meanwhile(self) -> None:
        """A code of boats that don't finish is asked about if another device has seen its boat finish since; not if that was
        struck, nor if it is the device's own finish, nor a code that a finisher may have."""
        self.do("FINISH", "Ann", "FINISH 1 FRA9", behind=None)
        seen = len(self.room.facts.sheet.journal)
        for line in ("FINISH 1 GBR7", "TIE 1 NED12 GBR7", "BEFORE 1 GBR33 FRA9", "FINISH 1 IRL5", "STRIKE 1 IRL5"):
            self.assertEqual(self.do("FINISH", "Bob", line, behind=None), "taken")
        held = len(self.room.facts.sheet.journal)
        for sail, other, codes in (("GBR7", "FINISH 1 GBR7", ("DNF", "DNS", "RET", "DNC")), ("NED12", "TIE 1 NED12 GBR7", ("DNF",)),
                                   ("GBR33", "BEFORE 1 GBR33 FRA9", ("DNF",))):
            for code in codes:
                for role, name in (("FINISH", "Ann"), ("SCORER", "Cy")):
                    if (role, code) != ("FINISH", "DNC"):
                        self.assertEqual(self.do(role, name, f"MARK 1 {sail} {code}", seen=seen), "other-since", (sail, code))
                        self.assertEqual(self.values, {"line": f"MARK 1 {sail} {code}", "other": other})
        self.assertEqual(len(self.room.facts.sheet.journal), held)
        self.assertEqual(self.do("FINISH", "Ann", "MARK 1 GBR33 DNF", seen=seen, agreed=self.agreed), "taken")
        for name, line in (("Ann", "MARK 1 IRL5 DNS"), ("Ann", "MARK 1 FRA9 RET"), ("Ann", "MARK 1 GBR7 OCS"), ("Bob", "MARK 1 NED12 DNF")):
            self.assertEqual(self.do("FINISH", name, line, seen=seen), "taken", line)
        self.assertEqual(self.do("FINISH", "Ann", "MARK 1 GBR33 RET", seen=held), "taken")

    # A boat that the scorer puts after all others

    def after(self, line: str, behind: str, at: int) -> Any:
        """The others that are asked about before a boat goes to the end in a window; None if she goes there."""
        came = self.do("SCORER", "Cy", line, at=at, behind=behind, seen=SEEN)
        if came == "taken":
            return None
        self.assertEqual(came, "after-since")
        return self.values["others"]

    def test_others_finished_meanwhile(self) -> None:
        """While a window asks who finished after all others, these finish, or places are kept: that is asked. A place that was
        there before isn't, nor whoever is ahead of the boat that was the last one."""
        before = int(time.time() * 1000) - 60_000
        for sail in ("GBR7", "FRA9", "IRL5", "NED12"):
            self.do("FINISH", "Ann", f"FINISH 1 {sail}", at=before, behind=None)
        self.do("FINISH", "Ann", "? 1", at=before, behind=None)
        later, held = int(time.time() * 1000) + 60_000, len(self.room.facts.sheet.journal)
        self.assertEqual(self.seen(1), [["GBR7"], ["FRA9"], ["IRL5"], ["NED12"], ["?1"]])
        for behind, opened, others in (("FRA9", before, ["IRL5", "NED12", "?1"]), ("NED12", before, ["?1"]), ("FRA9", later, ["IRL5", "NED12"]),
                                       ("", later, ["GBR7", "FRA9", "IRL5", "NED12"]), ("DEN61", later, [])):
            with self.subTest(behind=behind):
                self.assertEqual(self.after("FINISH 1 GBR33", behind, opened), others)
        self.assertEqual(len(self.room.facts.sheet.journal), held)
        self.assertIsNone(self.after("FINISH 1 GBR33", "NED12", later))
        self.assertEqual(self.seen(1), [["GBR7"], ["FRA9"], ["IRL5"], ["NED12"], ["?1"], ["GBR33"]])

    def test_moved_after_a_place(self) -> None:
        """Of a place that a boat was ahead of it is asked once whether she is after it."""
        now, agreed = int(time.time() * 1000), list[Any]()
        for line in ("FINISH 1 GBR7", "FINISH 1 FRA9", "FINISH 1 NED12", "? 1"):
            self.do("FINISH", "Ann", line, at=now, behind=None)
        lines = ["STRIKE 1 GBR7", "FINISH 1 GBR7"]
        self.assertEqual([self.correct(lines, agreed, now - 60_000, "FRA9") for _ in range(3)], ["finished-after", "after-since", "taken"])
        self.assertEqual(agreed[1]["values"], {"race": 1, "sail": "GBR7", "others": ["NED12"], "last": "?1"})

    def test_after_those_too(self) -> None:
        """A yes puts the boat after them, and is about just these."""
        now, agreed = int(time.time() * 1000), list[Any]()
        for sail in ("GBR7", "FRA9", "NED12"):
            self.do("FINISH", "Ann", f"FINISH 1 {sail}", at=now - 90_000, behind=None)
        lines = ["STRIKE 1 GBR7", "FINISH 1 GBR7"]
        self.assertEqual(self.correct(lines, agreed, now, "FRA9"), "after-since")
        self.do("FINISH", "Ann", "FINISH 1 IRL5", at=now, behind=None)
        self.assertEqual([self.correct(lines, agreed, now, "FRA9") for _ in range(2)], ["after-since", "taken"])
        self.assertEqual(self.seen(1), [["FRA9"], ["NED12"], ["IRL5"], ["GBR7"]])

    def test_after_an_order_that_goes_on(self) -> None:
        """The boat that was the last one has left the order: a yes to whether a boat is after all others is about those that there
        are then. One who finishes before it comes is asked about."""
        now, agreed = int(time.time() * 1000), list[Any]()
        for sail in ("GBR7", "FRA9"):
            self.do("FINISH", "Ann", f"FINISH 1 {sail}", at=now - 90_000, behind=None)
        lines = ["STRIKE 1 GBR7", "FINISH 1 GBR7"]
        self.assertEqual(self.correct(lines, agreed, now, "NED12"), "after-since")
        self.assertEqual(agreed[0]["values"], {"race": 1, "sail": "GBR7", "others": [], "last": "FRA9"})
        self.do("FINISH", "Ann", "FINISH 1 IRL5", at=now, behind=None)
        self.assertEqual([self.correct(lines, agreed, now, "NED12") for _ in range(2)], ["after-since", "taken"])
        self.assertEqual(agreed[1]["values"], {"race": 1, "sail": "GBR7", "others": [], "last": "IRL5"})
        self.assertEqual(self.seen(1), [["FRA9"], ["IRL5"], ["GBR7"]])

    def test_given_meanwhile(self) -> None:
        """A code that takes the place of one that another device has given meanwhile is asked about, and so is what clears
        that, or a penalty. The device's own codes aren't, nor those that it knew of, or that are gone again."""
        for sail, code in (("GBR7", "MARK {} OCS"), ("FRA9", "PENALTY {} ZFP"), ("NED12", "MARK {} BFD"), ("IRL5", "MARK {} DNS")):
            command, of, what = code.split()
            self.do("FINISH", "Ann", "MARK 1 GBR33 DNC")
            seen = len(self.room.facts.sheet.journal)
            given = f"{command} 1 {sail} {what}"
            self.assertEqual(self.do("FINISH", "Bob", given), "taken")
            is_lost = (("CLEAR", True), ("MARK", command == "MARK"))
            for last, is_asked in is_lost:
                line = f"{last} 1 {sail} {'' if last == 'CLEAR' else 'RET'}".strip()
                with self.subTest(given, line=line):
                    now = len(self.room.facts.sheet.journal)
                    if is_asked:
                        self.assertEqual(self.do("SCORER", "Bea", line, seen=seen), "other-since")
                        self.assertEqual(self.values, {"line": line, "other": given})
                        self.assertEqual(len(self.room.facts.sheet.journal), now)
            self.assertEqual(self.do("FINISH", "Bob", f"CLEAR 1 {sail}", seen=seen), "taken")
            self.assertEqual(self.do("SCORER", "Bea", f"MARK 1 {sail} RET", seen=seen), "taken")
            self.assertEqual(self.do("FINISH", "Bob", f"MARK 1 {sail} DNF", seen=len(self.room.facts.sheet.journal)), "taken")

    # Boats that were moved past one that isn't there

    def test_undone_after_a_swap(self) -> None:
        """NED12 was struck, or a place between two boats dropped, and these are swapped. The undo asks where she comes back.
        Without a swap, and after that of two others, nothing is asked."""
        for race, (first, gone) in enumerate((("FINISH {} NED12", "STRIKE {} NED12"), ("? {}", "?1 {} NONE")) * 3, 1):
            for line in ("FINISH {} GBR7", first, "FINISH {} FRA9", "FINISH {} IRL5", "FINISH {} GBR33"):
                self.assertIn(self.do("FINISH", "Ann", line.format(race), behind=None), ("taken", "noted"))
            id = new_id()
            self.room.do("FINISH", "Ann", Tap.read({"id": id, "line": gone.format(race)}))
            swapped = [("GBR7", "FRA9"), ("IRL5", "GBR33"), None][(race - 1) // 2]
            if swapped:
                self.scorer.correct(lines_of_swap(self.seen(race), race, *swapped))
            name = "NED12" if "NED12" in first else "?1"
            wanted = [["FRA9"], ["GBR7"]] if race < 3 else [["GBR7"], [name], ["FRA9"]]
            if race < 3:
                self.assertEqual(self.do("FINISH", "Ann", "UNDO", undoes=id), "undo")
                self.assertEqual(self.values["line"], gone.format(race))
                self.assertEqual(self.seen(race)[:2], wanted)
                place = str(self.values["by"]).split()
                self.assertEqual((place[0], place[2]), ("BEFORE", name))
                self.assertIn(self.do("FINISH", "Ann", "UNDO", undoes=id, agreed=self.agreed), ("taken", "noted"))
                self.assertEqual(self.seen(race)[self.seen(race).index([place[3]]) - 1], [name])
            else:
                self.assertIn(self.do("FINISH", "Ann", "UNDO", undoes=id), ("taken", "noted"))
                self.assertEqual(self.seen(race)[:3], wanted)

    def test_pointed_at_beside_a_new_place(self) -> None:
        """A boat that is put ahead of another, or level with her, comes after a place was kept just ahead of that one: it is
        asked whether she finished after that. Of an own place, or one that was shown, nothing is asked."""
        now = int(time.time() * 1000)
        for race, line in enumerate(("BEFORE {} GBR33 FRA9", "TIE {} GBR33 FRA9"), 1):
            self.do("FINISH", "Ann", f"FINISH {race} NED12", at=now - 90_000, behind=None)
            self.do("FINISH", "Bob", f"FINISH {race} FRA9", at=now - 60_000, behind=None)
            self.assertEqual(self.do("FINISH", "Bob", f"? {race}", at=now - 70_000, behind="NED12", by_clock=True), "noted")
            self.assertEqual(self.seen(race), [["NED12"], ["?1"], ["FRA9"]])
            late: dict[str, Any] = {"name": "Ann", "line": line.format(race), "at": now - 50_000}
            self.assertEqual(self.do("FINISH", **late), "place-ahead")
            self.assertEqual(self.values, {"mark": "?1", "sail": "GBR33", "ahead": "FRA9"})
            shown = int(time.time() * 1000) + 2_000
            ways: list[dict[str, Any]] = [{"name": "Bob"}, {"at": shown}, {"agreed": self.agreed}]
            for more in ways:
                self.assertEqual(self.do("FINISH", **{**late, **more}), "taken")
                self.assertEqual(self.seen(race)[:2], [["NED12"], ["?1"]])
                self.do("FINISH", "Cy", f"STRIKE {race} GBR33")
            # She didn't: she is ahead of the place.
            self.assertEqual(self.do("FINISH", **late), "place-ahead")
            self.assertEqual(self.do("FINISH", **late, denied=self.agreed), "taken")
            self.assertEqual(self.seen(race), [["NED12"], ["GBR33"], ["?1"], ["FRA9"]])

    def test_struck_and_ahead_of_a_place(self) -> None:
        """A boat that was ahead of a place was struck, and finishes again, as her tap comes late or somebody inserts her:
        after a No to whether she finished after it she is ahead of it, and of all behind it. A No to another question is no
        answer."""
        cases: list[tuple[int, str, list[str]]] = [(1, "FINISH {} GBR7", []), (2, "BEFORE {} GBR7 FRA9", ["FRA9"])]
        for race, line, last in cases:
            for one in ("FINISH {} NED12", "FINISH {} GBR7", "? {}", *(f"FINISH {{}} {sail}" for sail in last), "STRIKE {} GBR7"):
                self.assertIn(self.do("FINISH", "Ann", one.format(race)), ("taken", "noted"))
            id = new_id()
            self.assertEqual(self.do("FINISH", "Ann", line.format(race), id=id), "finished-after")
            self.assertEqual(self.values, {"mark": "?1", "sail": "GBR7"})
            denied = self.agreed
            for _ in range(2):
                self.assertEqual(self.do("FINISH", "Ann", line.format(race), id=id, denied=denied), "taken")
                self.assertEqual(self.seen(race), [["NED12"], ["GBR7"], ["?1"], *([sail] for sail in last)], line)
        self.assertEqual(self.do("SCORER", "Cy", "SCORE 1"), "score-unknown")
        self.assertEqual(self.do("SCORER", "Cy", "SCORE 1", denied=self.agreed), "score-unknown")

    def test_dropped_at_the_second_question(self) -> None:
        """A boat that was ahead of two places was struck and is tapped again: it is asked about the first, then about the
        second, and the tap is dropped there. Nothing came of it, so the next tap for her is asked about the first, too."""
        for line in ("FINISH 1 NED12", "FINISH 1 GBR7", "? 1", "? 1", "STRIKE 1 GBR7"):
            self.assertIn(self.do("FINISH", "Ann", line), ("taken", "noted"))
        agreed: list[Any] = []
        for mark in ("?1", "?2"):
            self.assertEqual(self.do("FINISH", "Ann", "FINISH 1 GBR7", agreed=agreed), "finished-after")
            self.assertEqual(self.values["mark"], mark)
            agreed += self.agreed
        self.assertEqual(self.do("FINISH", "Ann", "FINISH 1 GBR7"), "finished-after")
        self.assertEqual(self.values["mark"], "?1")
        self.assertEqual(self.do("FINISH", "Ann", "FINISH 1 GBR7", agreed=agreed[:1], denied=agreed[1:]), "taken")
        self.assertEqual(self.seen(1), [["NED12"], ["?1"], ["GBR7"], ["?2"]])

    # Against the clock

    def test_against_the_clock(self) -> None:
        """FRA9 was tapped at 1 s, comes after IRL5 of 60 s, and somebody puts her after all: she is no earlier than IRL5. A
        boat of 30 s that comes then is asked about; one of 90 s isn't."""
        def at(second: float, name: str, line: str, **more: Any) -> Any:
            return self.do("FINISH", name, line, at=int(1_000_000 + 1000 * second), **more)
        at(0, "Ann", "FINISH 1 NED12", behind="")
        at(60, "Bob", "FINISH 1 IRL5", behind="NED12")
        self.assertEqual(at(1, "Ann", "FINISH 1 FRA9", behind=None), "taken")
        self.assertEqual(at(30, "Cy", "FINISH 1 GBR7", behind="NED12"), "others-recorded")
        self.assertEqual(at(30, "Cy", "FINISH 1 GBR7", behind="NED12", by_clock=True), "taken")
        self.assertEqual(at(90, "Cy", "FINISH 1 GBR33", behind="NED12"), "taken")
        self.assertEqual(self.seen(1), [["NED12"], ["GBR7"], ["IRL5"], ["FRA9"], ["GBR33"]])

    def test_own_places(self) -> None:
        """A phone without a connection tapped IRL5 at 4 s, `?` at 7 s and GBR7 at 10 s; another one tapped IRL5 at 13 s. However
        late ?1 is for the other, she is ahead of GBR7, and of the next `?` of her own phone, also once somebody knows her."""
        for race, first in ((1, "?1"), (2, "GBR33")):
            def at(second: float, name: str, line: str, **more: Any) -> Any:
                return self.do("FINISH", name, line.format(race=race), at=int(1_000_000 + 1000 * second), **more)
            at(0, "Ann", "FINISH {race} NED12", behind="")
            at(13, "Bob", "FINISH {race} IRL5", behind="NED12")
            at(16, "Bob", "FINISH {race} FRA9", behind="IRL5")
            at(7, "Ann", "? {race}", behind="IRL5", by_clock=True)
            if first != "?1":
                at(17, "Bob", f"?1 {race} {first}")
            at(10, "Ann", "FINISH {race} GBR7", behind="IRL5", by_clock=True)
            at(11, "Ann", "? {race}", behind="GBR7", by_clock=True)
            self.assertEqual(self.seen(race), [["NED12"], ["IRL5"], [first], ["GBR7"], ["?2"], ["FRA9"]])

    # Another race

    def test_place_among_those_of_another_race(self) -> None:
        """A place was kept while somebody chose which boats belong to another race: nothing is sent if it is between two of
        them. One that is ahead of them all, or behind, stays."""
        lines = ["FINISH 2 FRA9", "FINISH 2 IRL5", "STRIKE 1 FRA9", "STRIKE 1 IRL5"]
        for line in ("FINISH 1 NED12", "FINISH 1 FRA9", "? 1", "FINISH 1 IRL5", "FINISH 1 GBR33"):
            self.do("FINISH", "Ann", line, behind=None)
        before = self.seen(1)
        with self.assertRaises(NotSent) as why:
            correct(self.room, {"id": new_id(), "agreed": [], "lines": lines}, "Cy")
        self.assertEqual(why.exception.said, (remark("places-among", marks=["?1"], race=1),))
        self.assertEqual((self.seen(1), self.seen(2)), (before, []))
        for part in ([lines[0], lines[2]], [lines[1], lines[3]], ["FINISH 2 GBR33", "STRIKE 1 GBR33"]):
            self.assertEqual(correct(self.room, {"id": new_id(), "agreed": [], "lines": part}, "Cy")["outcome"], "taken", part)
        self.assertEqual((self.seen(1), self.seen(2)), ([["NED12"], ["?1"]], [["FRA9"], ["IRL5"], ["GBR33"]]))

    def test_undo_of_a_place_by_the_jury(self) -> None:
        """Places are the finish's and the scorer's: the jury takes none back."""
        id = new_id()
        self.room.do("FINISH", "Ann", Tap.read({"id": id, "line": "? 1"}))
        with self.assertRaises(NotSent):
            self.room.do("JURY", "Dee", Tap.read({"id": new_id(), "line": "UNDO", "undoes": id}))
        self.assertEqual(self.seen(1), [["?1"]])


if __name__ == "__main__":
    unittest.main()
