"""A place at the line, its boat, and the places of other classes agree, whatever was killed between two steps."""
from __future__ import annotations

import json
import os
import unittest
from typing import Any
from unittest import mock

import helpers
from raceoffice.errors import NotSent
from raceoffice.series.folder import Folder
from raceoffice.series.kept_places import History, Note, Places, Twin, history_of, kept_in_words
from raceoffice.series.twins import Twins
from raceoffice.series.unknown_finishers import Unread
from raceoffice.session.dialogue import Question, Said
from raceoffice.session.session import Session
from test_unknown_finishers import kept


class Agreeing(helpers.Series):
    def setUp(self) -> None:
        super().setUp()
        self.said: list[str] = []
        # What was asked, and what is answered.
        self.asked: list[str] = []
        self.answer = True

    def session(self, role: str = "FINISH", name: str = "cup") -> Session:
        """A session at race 1."""
        found = Session(Folder(os.path.join(self.here, name)), role, "Ann", self.tell, self.ask)
        found.connect()
        self.addCleanup(found.disconnect)
        found.at = 1
        return found

    def tell(self, said: Said) -> None:
        self.said.append(said.text)

    def ask(self, asked: Question) -> bool:
        self.asked.append(asked.kind)
        return self.answer

    def notes(self, name: str = "cup") -> list[str]:
        """What each line of a file says."""
        return [json.loads(line)["what"] for line in self.text(name, "office", "places").splitlines()]

    # A boat that leaves a place

    def known(self) -> Session:
        """A session in which a boat was put into a place last."""
        finish = self.session()
        for line in ("101", "?", "12", "?1 33"):
            finish.do(line)
        return finish

    def test_undo_before_its_line(self) -> None:
        """A window is killed before the line of its undo: the boat has the place, and nobody else does."""
        self.open()
        finish = self.known()
        with mock.patch("raceoffice.session.undo.transmit", side_effect=KeyboardInterrupt):
            self.assertRaises(KeyboardInterrupt, finish.do, "undo")
        other = self.session("SCORER")
        self.assertEqual((other.race.order, other.unread.marks(1)), ([["GBR101"], ["GBR33"], ["NED12"]], []))
        # The same is undone later.
        finish.do("undo")
        other.look()
        self.assertEqual((other.race.order, other.unread.marks(1)), ([["GBR101"], ["NED12"]], ["?1"]))

    def test_undo_after_its_line(self) -> None:
        """A window is killed as soon as the office has the line of its undo: whoever looks next keeps the place,
        and notes it."""
        self.open()
        finish = self.known()
        with mock.patch("raceoffice.session.sending.look_after", side_effect=KeyboardInterrupt):
            self.assertRaises(KeyboardInterrupt, finish.do, "undo")
        self.assertEqual(self.notes()[-1], "leaving")
        self.assertEqual(kept_in_words(finish.folder), "Kept without a sail: ?1 in race 1.")
        other = self.session("SCORER")
        self.assertEqual((other.race.order, other.unread.marks(1)), ([["GBR101"], ["NED12"]], ["?1"]))
        self.assertEqual(self.notes()[-2:], ["leaving", "kept"])
        self.assertTrue(other.do("?1 7").is_taken)
        self.assertEqual((other.race.order, other.unread.marks(1)), ([["GBR101"], ["GBR7"], ["NED12"]], []))

    def test_undo_that_is_refused(self) -> None:
        """A boat that leaves the order otherwise is no undo."""
        self.open()
        finish = self.known()
        with mock.patch.object(finish, "exchange", return_value="NO 9"):
            self.assertFalse(finish.do("undo").is_taken)
        self.assertEqual(self.notes()[-2:], ["leaving", "refused"])
        self.session("SCORER").do("strike 1 33")
        self.assertEqual(self.session().unread.marks(1), [])

    def test_undo_beside_a_strike(self) -> None:
        """Somebody else strikes the boat just before the line of an undo: her place is kept all the same."""
        self.open()
        finish, scorer = self.known(), self.session("SCORER")
        exchange = finish.exchange

        def late(line: str, unread: Unread | None = None) -> str:
            """The office's answer, after the scorer's line."""
            scorer.exchange("STRIKE 1 GBR33")
            return exchange(line, unread)

        with mock.patch.object(finish, "exchange", late):
            self.assertFalse(finish.do("undo").is_taken)
        self.assertEqual((finish.race.order, finish.unread.marks(1)), ([["GBR101"], ["NED12"]], ["?1"]))
        self.assertEqual(self.notes()[-2:], ["leaving", "kept"])

    # A line that was noted and never sent

    def test_whole_line(self) -> None:
        """Whoever types a boat as a whole line is asked, too, whether she is the one of whom a window that was killed
        has noted a line."""
        self.open()
        for race, (line, self.answer, left) in enumerate([
                ("finish {} gbr33", True, []), ("finish {} gbr33", False, ["?1"]), ("33", False, ["?1"]),
                ("before {} gbr33 gbr101", False, ["?1"])], 1):
            finish, other = self.session(), self.session("SCORER")
            finish.at = race
            for typed in ("101", "?"):
                finish.do(typed)
            sent = f"FINISH {race} GBR33" if "before" not in line else f"BEFORE {race} GBR33 GBR101"
            finish.places.note_sent(finish.unread.one(race, "?1"), sent, len(finish.facts.sheet.journal), None)
            other.at = race if line == "33" else None
            self.asked.clear()
            self.assertTrue(other.do(line.format(race)).is_taken)
            self.assertEqual((self.asked, self.session().unread.marks(race)), (["place-is"], left), line)

    # A boat that was struck, and finishes again

    def test_finished_after(self) -> None:
        """Somebody says whether a boat that was struck and finishes again is behind the place now."""
        self.open()
        for race, self.answer in enumerate((True, False), 1):
            finish = self.session()
            finish.at = race
            for typed in ("101", "12", "?", f"strike {race} 101"):
                finish.do(typed)
            self.asked.clear()
            finish.do("101")
            self.assertEqual(self.asked, ["finished-after"])
            self.assertEqual(finish.race.order, [["NED12"], ["GBR101"]])
            wanted = {"?1": "2nd" if self.answer else "3rd"}
            self.assertEqual(self.session("SCORER").unread.places(finish.race), wanted)
        self.answer = True
        self.asked.clear()
        finish.do("undo")
        finish.do("7")
        finish.do("101")
        self.assertEqual((self.asked, self.session().unread.places(finish.race)), (["undo"], {"?1": "2nd"}))

    # A strike that is undone

    def test_undo_of_a_strike_before_its_line(self) -> None:
        """A window is killed before the line that takes a strike back, or the line is refused: a boat that finishes by
        the same line later is behind the place that was kept meanwhile."""
        self.open()
        ways: list[dict[str, Any]] = [{"side_effect": KeyboardInterrupt}, {"return_value": False}]
        for race, killed in enumerate(ways, 1):
            finish, other = self.session(), self.session("SCORER")
            finish.at = other.at = race
            for typed in ("101", "33", f"strike {race} 33"):
                finish.do(typed)
            other.do("?")
            with mock.patch("raceoffice.session.undo.transmit", **killed):
                if race == 1:
                    self.assertRaises(KeyboardInterrupt, finish.do, "undo")
                else:
                    self.assertFalse(finish.do("undo").is_taken)
            other.do("33")
            self.assertEqual(other.unread.places(other.race), {"?1": "2nd"})
            other.do("?1 7")
            self.assertEqual(other.race.order, [["GBR101"], ["GBR7"], ["GBR33"]])

    def test_undo_of_a_strike_after_its_line(self) -> None:
        """A window is killed as soon as the office has the line that takes a strike back."""
        self.open()
        finish, other = self.session(), self.session("SCORER")
        for typed in ("101", "33", "strike 1 33"):
            finish.do(typed)
        other.do("?")
        with mock.patch("raceoffice.session.sending.look_after", side_effect=KeyboardInterrupt):
            self.assertRaises(KeyboardInterrupt, finish.do, "undo")
        self.assertEqual(self.session("SCORER").unread.places(self.session().race), {"?1": "3rd"})

    # One who is kept in two classes

    def both(self) -> tuple[Session, Session]:
        """Sessions of two classes in which one finisher is kept."""
        self.make("fleet", entries="Sail\nNED 80\nGBR 33\n")
        self.open()
        self.open("fleet")
        cup, fleet = self.session(), self.session(name="fleet")
        cup.do("101")
        cup.keep_crossed("33", Twin("0123456789abcdef", ("../fleet",)))
        fleet.keep_crossed("33", Twin("0123456789abcdef", ("../cup",)))
        return cup, fleet

    def marks(self) -> tuple[list[str], list[str]]:
        """Who is kept in either class, by the files alone."""
        cup, fleet = (history_of(Folder(os.path.join(self.here, name))).waiting.marks(1)
                      for name in ("cup", "fleet"))
        return cup, fleet

    def test_known_in_one(self) -> None:
        """Any window of one class resolves her in both, and what is undone keeps her in both again."""
        cup, fleet = self.both()
        alone = self.session("SCORER")
        alone.do("33? gbr 33")
        self.assertEqual(self.marks(), ([], []))
        self.assertIn("   fleet: 33? is dropped.", self.said)
        fleet.look()
        self.assertRegex(self.said[-1], r"33\? of race 1 is dropped by Ann at \d\d:\d\d: she is known in cup\.")
        alone.do("undo")
        self.assertEqual(self.marks(), (["33?"], ["33?"]))
        self.assertIn("   fleet: 33? keeps her place again.", self.said)
        fleet.do("33? gbr 33")
        self.assertEqual(self.marks(), ([], []))

    def test_undo_in_both(self) -> None:
        """Undo drops a slip in each class, and its undo keeps her in each again, also after a kill between two classes."""
        cup, fleet = self.both()
        for _ in range(2):
            cup.do("undo")
            self.assertEqual(self.marks(), ([], []))
            self.assertIn("   fleet: 33? is dropped.", self.said)
            fleet.look()
            self.assertRegex(self.said[-1], r"33\? of race 1 is dropped by Ann at \d\d:\d\d: undone\.")
            cup.do("undo")
            self.assertEqual(self.marks(), (["33?"], ["33?"]))
            self.said.clear()
            fleet.look()
        fleet.do("33? gbr 33")
        self.assertEqual(self.marks(), ([], []))

    def test_undo_that_is_not_written(self) -> None:
        """If she can't be dropped in the other class, that is said, and she stays there."""
        cup, _ = self.both()
        with mock.patch.object(Places, "drop_known", side_effect=NotSent("the disk is full")):
            cup.do("undo")
        self.assertEqual(self.marks(), ([], ["33?"]))
        self.assertIn("   Beware: the disk is full. Still kept: 33?.", self.said)

    def test_none_in_one(self) -> None:
        """Who isn't of one class keeps her place in the other."""
        cup, fleet = self.both()
        cup.do("33? none")
        fleet.look()
        self.session("SCORER")
        self.assertEqual(self.marks(), ([], ["33?"]))

    def test_killed_between_two_classes(self) -> None:
        """A window is killed once she is known in one class, or isn't any more: whoever looks next at either puts
        the other place right."""
        cup, fleet = self.both()
        trials = [(cup, "33? gbr 33", ([], ["33?"]), "fleet", []), (cup, "undo", (["33?"], []), "fleet", ["33?"]),
                  (fleet, "33? gbr 33", (["33?"], []), "cup", []), (fleet, "undo", ([], ["33?"]), "fleet", ["33?"])]
        for session, typed, between, name, after in trials:
            with mock.patch.object(Twins, "follow", return_value=[]):
                self.assertTrue(session.do(typed).is_taken)
            self.assertEqual(self.marks(), between)
            self.session("SCORER", name)
            self.assertEqual(self.marks(), (after, after))

    def test_killed_before_the_second_class(self) -> None:
        """A window is killed before it has kept her in the second class: whoever looks next at the first is told."""
        cup, fleet = self.both()
        fleet.do("33? none")
        os.remove(os.path.join(self.here, "fleet", "office", "places"))
        told = "   Beware: 33? of race 1 isn't kept in fleet, since a window was killed. If she may be of fleet, " \
               "type ? there."
        # This process has noted it, and may be about to keep her there.
        self.session()
        self.assertNotIn(told, self.said)
        with mock.patch("raceoffice.system.processes", return_value=[]):
            other = self.session()
            other.do("race")
        self.assertEqual(self.said.count(told), 1)
        cup.do("33? none")
        with mock.patch("raceoffice.system.processes", return_value=[]):
            self.session()
        self.assertEqual(self.said.count(told), 1)

    def test_other_class_is_away(self) -> None:
        """A class that can't be read keeps nobody from typing; its place ends when it is there again."""
        cup, _ = self.both()
        os.rename(os.path.join(self.here, "fleet"), os.path.join(self.here, "moved"))
        self.assertTrue(cup.do("33? gbr 33").is_taken)
        os.rename(os.path.join(self.here, "moved"), os.path.join(self.here, "fleet"))
        self.session("SCORER", "fleet")
        self.assertEqual(self.marks(), ([], []))

    def test_killed_window(self) -> None:
        """After a kill of the window that kept her in both, the window of one class ends both places."""
        self.make("fleet", entries="Sail\nNED 80\nGBR 33\n")
        self.open()
        self.open("fleet")
        window = self.client("cup", "fleet", "--role", "finish")
        self.play(window, """
> c at 1
> f at 1
> 33
   cup: 33? keeps her place.
   fleet: 33? keeps her place.
""")
        window.process.kill()
        window.process.wait()
        self.assertEqual(self.marks(), (["33?"], ["33?"]))
        self.play(self.client("fleet", "--role", "finish"), """
> at 1
> 33? gbr 33
OK 3   1st in race 1
""")
        self.assertEqual(self.marks(), ([], []))

    def test_form(self) -> None:
        """A note names the other classes; one whose names are no names is no note."""
        note = kept("?1")
        self.assertNotIn("also", json.loads(note.text()))
        named = Note("kept", 1, "?1", finisher="0123456789abcdef", also=("../fleet",))
        self.assertEqual(json.loads(named.text())["also"], ["../fleet"])
        self.assertEqual(History.read(named.text()).kept[1, "?1"], named)
        for bad in ('["../fleet"]', '[1]', '[""]', '"../fleet"', '["\\u0000"]', "null"):
            text = named.text().replace(b'["../fleet"]', bad.encode())
            self.assertEqual(History.read(text).faults, [] if bad == '["../fleet"]' else [1], bad)
        for line, what, is_good in [("STRIKE 1 A", "leaving", True), ("FINISH 1 A", "leaving", False),
                                    ("STRIKE 1 A", "sent", False)]:
            text = Note(what, 1, "?1", line=line).text()
            self.assertEqual(History.read(text).faults, [] if is_good else [1])


if __name__ == "__main__":
    unittest.main()
