"""What two devices record in some orders that matter: each order is compared with when everybody crossed the line."""
from __future__ import annotations

import json
import os
import time
import unittest
from collections.abc import Mapping
from typing import Any
from unittest import mock

import helpers
from on_water import OnWater, lines_of_swap
from raceoffice.errors import NotSent
from raceoffice.remarks import Remark, remark
from raceoffice.series.folder import Folder
from raceoffice.series.kept_places import Twin
from raceoffice.session.finishers import LEAST, MORE, keep
from raceoffice.web.corrections import correct
from raceoffice.web.finish_order import Elsewhere
from raceoffice.web.room import Room
from raceoffice.web.tap_session import Asked
from raceoffice.web.taps import Tap
from web_devices import new_id


class AsRecorded(OnWater):
    """What a phone records, and the order on the water."""

    def tap(self, race: int, line: str, undoes: str = "") -> Mapping[str, Any]:
        first, *rest = line.split()
        found = self.phone.send(race, " ".join([first, str(race), *rest]) if first != "UNDO" else first, undoes)
        self.assertIsNotNone(found, line)
        return found or {}

    def check(self, race: int, lines: str, order: str) -> None:
        """Taps these, and has this order: a group for each word, and level boats joined by a sign."""
        for line in lines.split(", "):
            self.tap(race, line)
        self.assertEqual(self.seen(race), [sorted(group.split("=")) for group in order.split()], lines)

    def test_struck_and_finished_after(self) -> None:
        """A boat that was said to be one place is struck, and finishes after the other places: she is behind them, as
        somebody says if both were there together."""
        told = "FINISH NED12, ?, ?, ?1 FRA9, STRIKE FRA9"
        self.check(1, f"{told}, FINISH FRA9", "NED12 ?2 FRA9")
        self.assertEqual(self.phone.asked, ["?2"])
        self.check(1, "?2 GBR33", "NED12 GBR33 FRA9")
        self.check(2, "?, ?, ?, ?1 FRA9, STRIKE FRA9, FINISH FRA9", "?2 ?3 FRA9")
        self.assertEqual(self.phone.asked, ["?2", "?2", "?3"])
        self.check(2, "?2 GBR33, ?3 GBR7", "GBR33 GBR7 FRA9")
        self.phone.asked.clear()
        # ?2 was kept only after she was struck: nothing has to be asked.
        for race, line in enumerate(("FINISH FRA9", "FINISH IRL5, BEFORE FRA9 IRL5"), 3):
            self.check(race, f"?, ?1 FRA9, STRIKE FRA9, ?, {line}", "?2 FRA9" + " IRL5" * (race == 4))
        self.assertEqual(self.phone.asked, [])
        # Between the place and the other boat: she was ahead of it, and somebody says that she isn't now.
        self.check(5, "FINISH FRA9, ?, FINISH IRL5, STRIKE FRA9, BEFORE FRA9 IRL5", "?1 FRA9 IRL5")
        self.assertEqual(self.phone.asked, ["?1"])

    def test_ahead_of_one_place_alone(self) -> None:
        """A boat finishes after one place and ahead of the next, as somebody says. One that was behind a place last isn't
        asked about."""
        self.check(1, "FINISH FRA9, ?, ?, STRIKE FRA9", "?1 ?2")
        self.window_bob.answers = [True, False]
        self.window_bob.send(1, "FINISH 1 FRA9")
        self.assertEqual((self.window_bob.asked, self.seen(1)), (["?1", "?2"], [["?1"], ["FRA9"], ["?2"]]))
        self.check(2, "FINISH FRA9, ?, FINISH IRL5, STRIKE FRA9, FINISH FRA9, STRIKE IRL5, STRIKE FRA9, FINISH FRA9", "?1 FRA9")
        self.assertEqual(self.phone.asked, [])

    def test_struck_and_another_place(self) -> None:
        """A boat that was struck is said to be one who finished later."""
        self.check(1, "FINISH NED12, ?, ?, STRIKE NED12, ?2 NED12", "?1 NED12")
        self.check(1, "?1 FRA9", "FRA9 NED12")
        self.check(2, "?, ?, ?, ?1 NED12, STRIKE NED12, ?3 NED12", "?2 NED12")
        self.check(2, "?2 FRA9", "FRA9 NED12")

    def test_undo_of_a_strike(self) -> None:
        """A boat that was struck by a slip is ahead again of places that were kept meanwhile, and of boats."""
        for race, line in enumerate(("UNDO", "FINISH FRA9", "UNDO", "FINISH FRA9"), 1):
            self.check(race, "FINISH NED12, FINISH FRA9", "NED12 FRA9")
            id = self.tap(race, "STRIKE FRA9")["id"]
            more = ", FINISH IRL5" if race > 2 else ""
            self.check(race, f"?{more}, ?", "NED12 ?1" + " IRL5" * (race > 2) + " ?2")
            self.tap(race, "?1 NONE")
            self.tap(race, line, id)
            self.check(race, "?2 GBR33", "NED12 FRA9" + " IRL5" * (race > 2) + " GBR33")
        self.assertEqual(self.phone.asked, [])

    def test_undo_of_who_she_was(self) -> None:
        """A place is kept again behind a boat that was put ahead of the one who was said to be there."""
        self.check(1, "FINISH NED12, ?, FINISH FRA9", "NED12 ?1 FRA9")
        id = self.tap(1, "?1 GBR101")["id"]
        self.window_bob.send(1, "BEFORE 1 GBR7 GBR101")
        self.tap(1, "UNDO", id)
        self.check(1, "?1 IRL5", "NED12 GBR7 IRL5 FRA9")
        # She who was said to be level with her is level with nobody then.
        id = self.tap(2, "?")["id"]
        id = self.tap(2, "?1 GBR101")["id"]
        self.window_bob.send(2, "TIE 2 GBR7 GBR101")
        self.assertIsNone(self.phone.send(2, "UNDO", id))
        self.assertEqual(self.seen(2), [["GBR101", "GBR7"]])

    def test_struck_at_a_place_and_finished_after(self) -> None:
        """A boat finishes again after one who was at a place, and who was struck by a slip."""
        self.check(1, "?, ?, ?1 IRL5, ?2 GBR101", "IRL5 GBR101")
        id = self.tap(1, "STRIKE GBR101")["id"]
        self.check(1, "STRIKE IRL5, FINISH IRL5", "IRL5")
        self.check_undone(1, id, "GBR101 IRL5")

    def test_undo_of_a_strike_level_with_a_place(self) -> None:
        """A boat was level with one who isn't known any more: she comes back level with her, once she is known again, or
        once nobody was there."""
        for race, (who, order) in enumerate((("IRL5", "GBR7=IRL5 FRA9"), ("NONE", "GBR7 FRA9")), 1):
            self.check(race, "?, FINISH FRA9", "?1 FRA9")
            known = self.tap(race, "?1 GBR101")["id"]
            self.tap(race, "TIE GBR7 GBR101")
            struck = self.tap(race, "STRIKE GBR7")["id"]
            self.tap(race, "UNDO", known)
            tap = Tap.read({"id": new_id(), "line": "UNDO", "undoes": struck})
            with self.assertRaises(NotSent) as why:
                self.room.do("FINISH", "Ann", tap)
            self.assertEqual(why.exception.said, (remark("undo-level", sail="GBR7", mark="?1"),))
            self.assertEqual(self.seen(race), [["?1"], ["FRA9"]])
            self.tap(race, f"?1 {who}")
            self.check_undone(race, struck, order)

    def check_undone(self, race: int, id: str, order: str) -> None:
        """Takes a tap back, and has this order."""
        self.tap(race, "UNDO", id)
        self.assertEqual(self.seen(race), [sorted(group.split("=")) for group in order.split()])

    def at(self, second: float, name: str, line: str, **more: object) -> object:
        """What came of a tap of some device at some second; the line by the clock if it is asked."""
        tap = Tap.read({"id": new_id(), "line": line, "at": 1_000_000 + 1000 * second, **more})
        try:
            return self.room.do("FINISH", name, tap)["outcome"]
        except Elsewhere as asked:
            return asked.question.values["others"], asked.clock

    def test_place_of_a_phone_without_a_connection(self) -> None:
        """A tap for a place arrives after finishers who crossed the line later, and were recorded by another: it is
        asked where she was, as of a boat."""
        for race, is_by_clock, order in ((1, True, "NED12 ?1 FRA9 IRL5"), (2, False, "NED12 FRA9 IRL5 ?1")):
            self.at(0, "Ann", f"FINISH {race} NED12", behind="")
            self.at(60, "Bob", f"FINISH {race} FRA9", behind="NED12")
            self.at(70, "Bob", f"FINISH {race} IRL5", behind="FRA9")
            self.assertEqual(self.at(1, "Ann", f"? {race}", behind="NED12"), (("FRA9", "IRL5"), f"BEFORE {race} ? FRA9"))
            behind = "NED12" if is_by_clock else None
            self.assertEqual(self.at(1, "Ann", f"? {race}", behind=behind, by_clock=is_by_clock), "noted")
            self.at(75, "Bob", f"? {race}", behind="IRL5")
            self.assertEqual(self.seen(race), [[name] for name in f"{order} ?2".split()])
        self.check(1, "?1 GBR7", "NED12 GBR7 FRA9 IRL5 ?2")
        # The clock says itself that she was after all.
        self.assertEqual(self.at(80, "Ann", "? 1", behind="NED12"), "noted")
        self.assertEqual(self.seen(1)[-2:], [["?2"], ["?3"]])

    def test_places_of_two_phones(self) -> None:
        """A tap for a place arrives after that of another phone, for one who crossed the line later."""
        self.at(0, "Ann", "FINISH 1 NED12", behind="")
        self.at(1, "Ann", "? 1", behind="NED12")
        self.assertEqual(self.at(1.2, "Ann", "? 1", behind="NED12"), "noted")
        self.at(60, "Bob", "? 1", behind="NED12")
        self.at(70, "Bob", "FINISH 1 IRL5", behind="NED12")
        self.assertEqual(self.at(2, "Ann", "? 1", behind="NED12"), (("IRL5",), "BEFORE 1 ? ?3"))
        self.assertEqual(self.at(2, "Ann", "? 1", behind="NED12", by_clock=True), "noted")
        self.assertEqual(self.seen(1), [["NED12"], ["?1"], ["?2"], ["?4"], ["?3"], ["IRL5"]])
        # Whoever drops it, and keeps it again, has it there.
        self.check(1, "?4 NONE", "NED12 ?1 ?2 ?3 IRL5")
        self.window_bob.send(1, "UNDO")
        self.check(1, "?3 FRA9, ?2 GBR7", "NED12 ?1 GBR7 FRA9 IRL5")

    # Boats of a phone without a connection, and places that another has kept meanwhile

    def late(self, race: int, second: float, asked: tuple[tuple[str, ...], str], order: str, **more: Any) -> None:
        """FRA9 was tapped at a second and arrives only now: what is asked, and the order by this answer."""
        line = f"FINISH {race} FRA9"
        self.assertEqual(self.at(second, "Ann", line, behind="NED12"), asked)
        self.assertEqual(self.at(second, "Ann", line, **({"behind": "NED12"} | more)), "taken")
        self.assertEqual(self.seen(race), [[name] for name in order.split()])

    def places_meanwhile(self, race: int, *seconds: float) -> None:
        """NED12 finishes, and a phone keeps places while another has no connection."""
        self.at(0, "Ann", f"FINISH {race} NED12", behind="")
        for second in seconds:
            self.assertEqual(self.at(second, "Bob", f"? {race}", behind="NED12"), "noted")

    def test_boat_ahead_of_a_place(self) -> None:
        """A boat arrives after the place of one who crossed the line later: it is asked where she was, as of a boat."""
        ways: list[tuple[dict[str, Any], str]] = [({"by_clock": True}, "NED12 FRA9 ?1"), ({"behind": None}, "NED12 ?1 FRA9")]
        for race, (more, order) in enumerate(ways, 1):
            self.places_meanwhile(race, 60)
            self.late(race, 1, (("?1",), f"BEFORE {race} FRA9 ?1"), order, **more)
        self.check(1, "?1 GBR7, FINISH IRL5", "NED12 FRA9 GBR7 IRL5")
        self.places_meanwhile(3, 60, 90)
        self.late(3, 75, (("?2",), "BEFORE 3 FRA9 ?2"), "NED12 ?1 FRA9 ?2", by_clock=True)
        self.places_meanwhile(4, 60, 65)
        self.at(70, "Bob", "FINISH 4 IRL5", behind="NED12")
        self.late(4, 1, (("?1", "?2", "IRL5"), "BEFORE 4 FRA9 ?1"), "NED12 FRA9 ?1 ?2 IRL5", by_clock=True)
        self.check(4, "STRIKE IRL5, ?2 GBR7, ?1 GBR33", "NED12 FRA9 GBR33 GBR7")
        # Nobody has finished before.
        self.at(60, "Bob", "? 5", behind="")
        self.assertEqual(self.at(1, "Ann", "FINISH 5 FRA9", behind=""), (("?1",), "BEFORE 5 FRA9 ?1"))
        self.assertEqual(self.at(1, "Ann", "FINISH 5 FRA9", behind="", by_clock=True), "taken")
        self.check(5, "?1 GBR7", "FRA9 GBR7")

    def test_boat_close_to_a_place(self) -> None:
        """Two phones within a second: it is asked. A phone's own places come in their order."""
        self.places_meanwhile(1, 60)
        self.late(1, 60.5, (("?1",), "FINISH 1 FRA9"), "NED12 ?1 FRA9", by_clock=True)
        self.places_meanwhile(2, 60)
        self.assertEqual(self.at(61, "Ann", "FINISH 2 FRA9", behind="NED12"), "taken")
        self.places_meanwhile(3, 60)
        self.assertEqual(self.at(60.2, "Bob", "FINISH 3 FRA9", behind="NED12"), "taken")
        self.assertEqual([self.seen(race) for race in (2, 3)], [[["NED12"], ["?1"], ["FRA9"]]] * 2)

    def test_boat_behind_one_whom_another_tapped_later(self) -> None:
        """A phone without a connection has NED12 and then FRA9. Another taps NED12 after both, and who finished next: FRA9 is
        between them by the clock, not ahead of NED12."""
        for race in range(1, 7):
            self.at(13, "Bob", f"FINISH {race} NED12", behind="")
            self.assertEqual(self.at(9, "Ann", f"FINISH {race} NED12", behind=""), "refused")
        self.at(14, "Bob", "FINISH 1 IRL5", behind="NED12")
        self.late(1, 11, (("IRL5",), "BEFORE 1 FRA9 IRL5"), "NED12 FRA9 IRL5", by_clock=True)
        self.at(14, "Bob", "? 2", behind="NED12")
        self.late(2, 11, (("?1",), "BEFORE 2 FRA9 ?1"), "NED12 FRA9 ?1", by_clock=True)
        # Somebody was level with her.
        self.at(14, "Bob", "TIE 3 GBR7 NED12")
        self.at(15, "Bob", "FINISH 3 IRL5", behind="GBR7")
        self.assertEqual(self.at(11, "Ann", "FINISH 3 FRA9", behind="NED12"), (("IRL5",), "BEFORE 3 FRA9 IRL5"))
        self.assertEqual(self.at(11, "Ann", "FINISH 3 FRA9", behind="NED12", by_clock=True), "taken")
        self.assertEqual(self.seen(3), [["GBR7", "NED12"], ["FRA9"], ["IRL5"]])
        # Of GBR7, who is behind NED12, no moment is known.
        self.at(14, "Bob", "FINISH 4 IRL5", behind="NED12")
        self.at(15, "Bob", "BEFORE 4 GBR7 IRL5")
        self.assertEqual(self.untimed(11, "FINISH 4 FRA9", behind="NED12"), ("GBR7",))
        # One that is struck says nothing.
        self.at(14, "Bob", "FINISH 5 IRL5", behind="NED12")
        self.at(15, "Bob", "STRIKE 5 NED12")
        self.late(5, 11, (("IRL5",), "BEFORE 5 FRA9 IRL5"), "FRA9 IRL5", by_clock=True)
        # Nobody was recorded since.
        self.assertEqual(self.at(11, "Ann", "FINISH 6 FRA9", behind="NED12"), "taken")
        self.assertEqual(self.seen(6), [["NED12"], ["FRA9"]])

    def test_place_of_a_window(self) -> None:
        """A place that was typed in a window has a moment, too."""
        self.at(0, "Ann", "FINISH 1 NED12", behind="")
        self.window_bob.send(1, "? 1")
        self.late(1, 1, (("?1",), "BEFORE 1 FRA9 ?1"), "NED12 FRA9 ?1", by_clock=True)

    def test_moment_of_a_boat_in_a_place(self) -> None:
        """A boat that is known later crossed the line when her place was kept."""
        self.places_meanwhile(1, 60)
        self.at(300, "Bob", "?1 1 IRL5")
        self.late(1, 1, (("IRL5",), "BEFORE 1 FRA9 IRL5"), "NED12 FRA9 IRL5", by_clock=True)
        self.places_meanwhile(2, 60)
        self.at(300, "Bob", "?1 2 IRL5")
        self.assertEqual(self.at(90, "Ann", "FINISH 2 FRA9", behind="NED12"), "taken")
        self.assertEqual(self.seen(2), [["NED12"], ["IRL5"], ["FRA9"]])

    def test_moments_that_are_shown(self) -> None:
        """A boat that is known later is shown with the moment of her place, wherever that was kept and she is named."""
        self.at(0, "Ann", "FINISH 1 NED12", behind="")
        for second in (10, 20):
            self.at(second, "Ann", "? 1", behind="NED12")
        self.at(30, "Ann", "FINISH 1 FRA9", behind="NED12")
        self.at(1800, "Bob", "?1 1 GBR7")
        self.window_bob.send(1, "?2 1 IRL5")
        moments = {"NED12": 1_000_000, "GBR7": 1_010_000, "IRL5": 1_020_000, "FRA9": 1_030_000}
        self.assertEqual(self.shown(1)["at"], moments)
        self.assertEqual([*self.shown(1)["by"].values()], ["Ann", "Bob", "Bob", "Ann"])
        before = int(time.time()) * 1000
        self.window_bob.send(2, "? 2")
        after = int(time.time() * 1000)
        helpers.next_second()
        self.at(1800, "Ann", "?1 2 GBR7")
        self.assertTrue(before <= self.shown(2)["at"]["GBR7"] <= after, self.shown(2))
        # Once she has finished again, that doesn't count any more.
        self.at(1810, "Ann", "STRIKE 2 GBR7")
        self.at(1820, "Ann", "FINISH 2 GBR7", behind=None)
        self.assertEqual(self.shown(2)["at"], {"GBR7": 2_820_000})

    # Lines that come some time after their boat was seen

    def correct(self, race: int, second: float, lines: str) -> None:
        """The scorer corrects an order at some second."""
        sent = [" ".join([first, str(race), *rest]) for first, *rest in map(str.split, lines.split(", "))]
        done = correct(self.room, {"id": new_id(), "at": 1_000_000 + 1000 * second, "agreed": [], "lines": sent}, "Cy")
        self.assertEqual(done["outcome"], "taken")

    def finished(self, race: int, order: str) -> None:
        """These finish, one every ten seconds."""
        for at, sail in enumerate(order.split()):
            self.assertEqual(self.at(10 * at, "Bob", f"FINISH {race} {sail}", behind=None), "taken")

    def told(self, second: float, line: str, **more: object) -> Any:
        """What is asked of a late tap, as a page sends it back."""
        with self.assertRaises(Elsewhere) as found:
            self.room.do("FINISH", "Ann", Tap.read({"id": new_id(), "line": line, "at": 1_000_000 + 1000 * second, **more}))
        return json.loads(json.dumps({"kind": found.exception.question.kind, "values": found.exception.question.values}))

    def untimed(self, second: float, line: str, **more: object) -> object:
        """Of whom it is said that no tap shows when they finished."""
        return tuple(self.told(second, line, **more)["values"]["untimed"])

    def swap(self, race: int, one: str, other: str) -> bool:
        return self.scorer.correct(lines_of_swap(self.seen(race), race, one, other))

    def test_swap_and_places(self) -> None:
        """Each of two boats stands where the other stood, and the places between stay there."""
        kept = "FINISH NED12, ?, ?, FINISH GBR7, ?, FINISH FRA9"
        self.check(1, kept, "NED12 ?1 ?2 GBR7 ?3 FRA9")
        for one, other, order in (("NED12", "GBR7", "GBR7 ?1 ?2 NED12 ?3 FRA9"), ("FRA9", "GBR7", "FRA9 ?1 ?2 NED12 ?3 GBR7"),
                                  ("NED12", "GBR7", "FRA9 ?1 ?2 GBR7 ?3 NED12")):
            self.assertTrue(self.swap(1, one, other))
            self.assertEqual(self.seen(1), [[name] for name in order.split()])
        self.check(1, "?2 IRL5, ?3 GBR33, ?1 GBR101", "FRA9 GBR101 IRL5 GBR7 GBR33 NED12")
        self.check(2, "FINISH NED12, ?, FINISH FRA9, TIE GBR33 NED12", "NED12=GBR33 ?1 FRA9")
        self.assertTrue(self.swap(2, "NED12", "FRA9"))
        self.assertEqual(self.seen(2), [["FRA9", "GBR33"], ["?1"], ["NED12"]])

    def test_swap_and_a_place_that_is_known(self) -> None:
        """Nothing is sent if somebody has said meanwhile who was at the place between."""
        self.check(1, "FINISH NED12, ?, FINISH FRA9", "NED12 ?1 FRA9")
        lines = lines_of_swap(self.seen(1), 1, "NED12", "FRA9")
        self.check(1, "?1 GBR7", "NED12 GBR7 FRA9")
        self.assertRaises(NotSent, self.scorer.correct, lines)
        self.assertEqual(self.seen(1), [["NED12"], ["GBR7"], ["FRA9"]])

    def test_changed_since_it_was_shown(self) -> None:
        """Nothing is sent of a swap, or of boats that go to another race, if these lines were made of another order. A boat
        that has finished elsewhere meanwhile is no reason."""
        moved = ["FINISH 9 NED12", "FINISH 9 FRA9", "TIE 9 GBR33 FRA9", *(f"STRIKE {{}} {sail}" for sail in ("NED12", "FRA9", "GBR33"))]
        changes = (("BEFORE GBR7 FRA9", True, False), ("TIE GBR7 NED12", True, False), ("STRIKE NED12, FINISH NED12", True, True),
                   ("STRIKE GBR33, FINISH GBR33", False, True), ("BEFORE GBR7 NED12, FINISH IRL5", False, False))
        for race, (change, *are_others) in enumerate(changes, 1):
            with self.subTest(change):
                self.check(race, "FINISH NED12, FINISH FRA9, TIE GBR33 FRA9", "NED12 FRA9=GBR33")
                corrections = [lines_of_swap(self.seen(race), race, "NED12", "FRA9"), [line.format(race) for line in moved]]
                for line in change.split(", "):
                    self.tap(race, line)
                for lines, is_other in zip(corrections, are_others):
                    before = self.seen(race), self.seen(9)
                    if is_other:
                        self.assertRaises(NotSent, self.scorer.correct, lines)
                        self.assertEqual((self.seen(race), self.seen(9)), before)
                if not any(are_others):
                    self.assertTrue(self.swap(race, "NED12", "FRA9"))
                    self.assertEqual(self.seen(race), [["GBR7"], ["FRA9"], ["GBR33", "NED12"], ["IRL5"]])

    def test_move_behind_a_place(self) -> None:
        """It is asked before anything is sent whether a boat is behind a place now, and after a No nothing is."""
        self.check(1, "FINISH NED12, ?, FINISH FRA9", "NED12 ?1 FRA9")
        self.check(2, "FINISH FRA9, FINISH NED12, ?", "FRA9 NED12 ?1")
        for race, line, order in ((1, "BEFORE 1 NED12 FRA9", "?1 NED12 FRA9"), (2, "FINISH 2 NED12", "FRA9 ?1 NED12")):
            before, self.scorer.answers, self.scorer.asked = self.seen(race), [False], []
            self.assertIsNone(self.scorer.send(race, line))
            self.assertEqual((self.scorer.asked, self.seen(race)), (["?1"], before))
            self.assertIsNotNone(self.scorer.send(race, line))
            self.assertEqual(self.seen(race), [[name] for name in order.split()])

    def test_moment_of_a_swap(self) -> None:
        """The moment of a correction isn't that at which its boats finished."""
        self.finished(1, "NED12 GBR7 FRA9")
        self.correct(1, 300, "STRIKE NED12, TIE NED12 GBR7, STRIKE GBR7, BEFORE GBR7 NED12")
        late = {"line": "FINISH 1 IRL5", "behind": "GBR7"}
        self.assertEqual(self.at(15, "Ann", **late), (("NED12", "FRA9"), "BEFORE 1 IRL5 FRA9"))
        self.assertEqual(self.untimed(15, **late), ("NED12",))
        agreed = [self.told(15, **late)]
        self.room.close()
        self.room = self.phone.room = Room(Folder(os.path.join(self.here, "cup")), lambda: None)
        self.assertEqual(self.at(15, "Ann", **late, by_clock=True, agreed=agreed), "taken")
        self.assertEqual(self.seen(1), [["GBR7"], ["NED12"], ["IRL5"], ["FRA9"]])
        # Whoever is behind her by the scorer's hand is no earlier.
        self.finished(2, "NED12 GBR7 FRA9")
        self.correct(2, 300, "STRIKE NED12, FINISH NED12")
        self.assertEqual(self.at(15, "Ann", "FINISH 2 IRL5", behind="GBR7"), (("FRA9", "NED12"), "BEFORE 2 IRL5 FRA9"))
        self.assertEqual(self.untimed(15, "FINISH 2 IRL5", behind="GBR7"), ())
        self.assertEqual(self.untimed(25, "FINISH 2 IRL5", behind="FRA9"), ("NED12",))

    def test_moment_of_a_boat_that_the_scorer_adds(self) -> None:
        """No clock says where a late boat, or a place, belongs beside a boat that the scorer has added."""
        ways: list[tuple[str, str]] = [("FINISH {} IRL5", "NED12 FRA9 IRL5"), ("? {}", "NED12 FRA9 ?1")]
        for race, (form, order) in enumerate(ways, 1):
            self.finished(race, "NED12")
            tap, line = {"id": new_id(), "line": f"FINISH {race} FRA9", "at": 1_300_000}, form.format(race)
            self.assertEqual(self.room.do("SCORER", "Cy", Tap.read(tap))["outcome"], "taken")
            self.assertEqual(self.at(100, "Ann", line, behind="NED12"), (("FRA9",), line))
            self.assertEqual(self.untimed(100, line, behind="NED12", by_clock=True), ("FRA9",))
            self.assertIn(self.at(100, "Ann", line, behind=None), ("taken", "noted"))
            self.assertEqual(self.seen(race), [[name] for name in order.split()])

    def test_typed_beside_a_late_tap(self) -> None:
        """Of boats that were typed in a window the clock says nothing. Whoever goes by it for all late taps is asked about
        those beside such a boat all the same."""
        self.window_bob.send(1, "FINISH 1 GBR7")
        self.assertEqual(self.at(-60, "Ann", "FINISH 1 IRL5", behind=""), (("GBR7",), "FINISH 1 IRL5"))
        self.assertEqual(self.untimed(-60, "FINISH 1 IRL5", behind="", by_clock=True), ("GBR7",))
        ways: list[tuple[str, str]] = [("FINISH {} IRL5", "NED12 GBR7 IRL5 FRA9 GBR33"), ("? {}", "NED12 GBR7 ?1 FRA9 GBR33")]
        for race, (form, order) in enumerate(ways, 2):
            self.finished(race, "NED12")
            self.window_bob.send(race, f"FINISH {race} GBR7")
            self.at(20, "Bob", f"FINISH {race} FRA9", behind=None)
            self.window_bob.send(race, f"FINISH {race} GBR33")
            late: dict[str, Any] = {"line": form.format(race), "behind": "NED12"}
            asked = self.told(15, **late, by_clock=True)
            self.assertEqual((asked["values"]["ahead"], asked["values"]["untimed"]), ("FRA9", ["GBR7"]))
            of_none = {"kind": asked["kind"], "values": {**asked["values"], "untimed": ["GBR101"]}}
            self.assertEqual(self.told(15, **late, by_clock=True, agreed=[of_none]), asked)
            self.assertIn(self.at(15, "Ann", **late, by_clock=True, agreed=[asked]), ("taken", "noted"))
            self.assertEqual(self.seen(race), [[name] for name in order.split()])

    def test_moment_of_an_undo(self) -> None:
        """A boat whose strike is undone finished when she was tapped, or when her place was kept."""
        self.finished(1, "NED12 FRA9")
        self.at(0, "Bob", "FINISH 2 NED12", behind="")
        self.at(10, "Bob", "? 2", behind="NED12")
        self.at(300, "Bob", "?1 2 FRA9")
        for race in (1, 2):
            struck = Tap.read({"id": new_id(), "line": f"STRIKE {race} FRA9", "at": 1_310_000})
            self.room.do("FINISH", "Bob", struck)
            self.at(320, "Bob", "UNDO", undoes=struck.id)
            self.assertEqual(self.at(90, "Ann", f"FINISH {race} IRL5", behind="NED12"), "taken")
            self.assertEqual(self.seen(race), [["NED12"], ["FRA9"], ["IRL5"]])

    def test_moment_of_a_boat_by_another(self) -> None:
        """A boat that is put level with another finished when that did; of one that is put ahead of another it isn't
        known."""
        for race, command in enumerate(("TIE", "BEFORE"), 1):
            self.finished(race, "NED12 FRA9")
            self.at(300, "Bob", f"{command} {race} GBR7 FRA9")
            self.at(310, "Bob", f"STRIKE {race} FRA9")
        self.assertEqual(self.at(90, "Ann", "FINISH 1 IRL5", behind="NED12"), "taken")
        self.assertEqual(self.untimed(90, "FINISH 2 IRL5", behind="NED12"), ("GBR7",))

    def test_late_boat_that_was_struck(self) -> None:
        """A boat that was struck arrives late: by the clock she is ahead of a place that she was behind, or between two
        that she was ahead of."""
        self.places_meanwhile(1, 60)
        self.at(70, "Bob", "FINISH 1 FRA9", behind="NED12")
        self.at(80, "Bob", "STRIKE 1 FRA9")
        self.late(1, 1, (("?1",), "BEFORE 1 FRA9 ?1"), "NED12 FRA9 ?1", by_clock=True)
        self.at(0, "Bob", "FINISH 2 NED12", behind="")
        self.at(10, "Bob", "FINISH 2 FRA9", behind="NED12")
        for second in (60, 90):
            self.at(second, "Bob", "? 2", behind="FRA9")
        self.at(95, "Bob", "STRIKE 2 FRA9")
        asked = Tap.read({"id": new_id(), "line": "FINISH 2 FRA9", "at": 1_075_000, "behind": "NED12", "by_clock": True})
        with self.assertRaises(Asked) as found:
            self.room.do("FINISH", "Ann", asked)
        self.assertEqual(dict(found.exception.question.values), {"mark": "?1", "sail": "FRA9"})
        agreed = [{"kind": "finished-after", "values": {"mark": "?1", "sail": "FRA9"}}]
        self.late(2, 75, (("?2",), "BEFORE 2 FRA9 ?2"), "NED12 ?1 FRA9 ?2", by_clock=True, agreed=agreed)

    def test_killed_before_a_late_boat(self) -> None:
        """The web is killed before the line of a boat ahead of a place: the same tap is done, and whoever else taps her
        has her behind the place."""
        for race, steps in enumerate((("transmit", "Ann"), ("transmit", "Bob"), ("Places.note_back", "Ann")), 1):
            self.places_meanwhile(race, 60)
            tap = Tap.read({"id": new_id(), "line": f"FINISH {race} FRA9", "at": 1_001_000, "behind": "NED12", "by_clock": True})
            self.kill(steps[0], tap)
            self.assertEqual(self.seen(race), [["NED12"], ["?1"]])
            if steps[1] == "Bob":
                self.at(100, "Bob", f"FINISH {race} FRA9", behind="NED12")
                self.assertEqual(self.room.do("FINISH", "Ann", tap)["outcome"], "refused")
            else:
                self.assertEqual(self.room.do("FINISH", "Ann", tap)["outcome"], "taken")
            order = [["NED12"], ["?1"], ["FRA9"]] if steps[1] == "Bob" else [["NED12"], ["FRA9"], ["?1"]]
            self.assertEqual(self.seen(race), order)

    def test_killed_after_a_late_boat(self) -> None:
        """The web is killed once the office has the line of a boat ahead of a place, or before its answer is noted."""
        for race, step in enumerate(("look_after", "log"), 1):
            self.places_meanwhile(race, 60)
            tap = Tap.read({"id": new_id(), "line": f"FINISH {race} FRA9", "at": 1_001_000, "behind": "NED12", "by_clock": True})
            self.kill(step, tap)
            self.assertEqual(self.seen(race), [["NED12"], ["FRA9"], ["?1"]])
            self.assertTrue(self.room.do("FINISH", "Ann", tap)["again"])
            self.check(race, "?1 GBR7", "NED12 FRA9 GBR7")

    def kill(self, step: str, tap: Tap) -> None:
        """Kills the web at a step of a tap, and opens it again."""
        names = {"Places.note_back": "raceoffice.series.kept_places.Places.note_back",
                 "log": "raceoffice.session.seat.Seat.log"}
        with mock.patch(names.get(step, f"raceoffice.session.sending.{step}"), side_effect=KeyboardInterrupt):
            self.assertRaises(KeyboardInterrupt, self.room.do, "FINISH", "Ann", tap)
        self.room.close()
        self.room = self.phone.room = Room(Folder(os.path.join(self.here, "cup")), lambda: None)


class Most(OnWater):
    """A race keeps a place for each boat at once, and for some more."""

    def setUp(self) -> None:
        super().setUp()
        self.room.look()
        self.window_bob.session.look()
        least = mock.patch("raceoffice.session.finishers.LEAST", 0)
        least.start()
        self.addCleanup(least.stop)
        self.most = len({*self.room.facts.boats, *self.room.facts.names}) + MORE
        for at in range(self.most):
            device = self.window_bob if at % 5 == 1 else self.phone
            self.assertIsNotNone(device.send(1, f"{200 + at}? 1" if at % 5 == 2 else "? 1"), at)

    def refused(self, line: str, undoes: str = "") -> str:
        """The kind of what keeps a tap from being done; empty if nothing does."""
        try:
            self.room.do("FINISH", "Ann", Tap.read({"id": new_id(), "line": line, "undoes": undoes}))
        except NotSent as why:
            return why.said[0].kind if isinstance(why.said[0], Remark) else "?"
        return ""

    def test_refused(self) -> None:
        """One more is refused, on a page and in a window, whatever was typed of her, and nothing is noted of her. Another race
        has room."""
        noted, taps = self.text("cup", "office", "places"), self.text("cup", "office", "web.taps")
        self.assertEqual([self.refused(line) for line in ("? 1", "102? 1", "GBR10? 1")], ["places-most"] * 3)
        session = self.window_bob.session
        session.at = 1
        for typed in ("?", "102?", "999"):
            self.assertRaisesRegex(NotSent, f"race 1 keeps {self.most} places, more than boats are entered", session.do, typed)
        self.assertEqual((self.text("cup", "office", "places"), self.text("cup", "office", "web.taps")), (noted, taps))
        self.assertEqual(self.refused("? 2"), "")

    def test_short_list(self) -> None:
        """However short the list is, nobody is refused whom a race may have. Who is, is to be written down."""
        with mock.patch("raceoffice.session.finishers.LEAST", LEAST):
            self.assertEqual([self.refused("? 1") for _ in range(self.most, 100)], [""] * (100 - self.most))
            self.assertEqual(self.refused("? 1"), "places-most")
            self.window_bob.session.at = 1
            self.assertRaisesRegex(NotSent, ": write her down on paper, and say first", self.window_bob.session.do, "?")

    def test_all_races(self) -> None:
        """All races together keep places for all boats twice: a device doesn't fill race after race."""
        for race in range(2, 5):
            for _ in range(self.most // 3):
                self.assertIsNotNone(self.phone.send(race, f"? {race}"))
        while not (why := self.refused("? 5")):
            pass
        self.assertEqual((why, len(self.room.history.waiting.all)), ("places-many", 2 * self.most))

    def test_of_no_class(self) -> None:
        """Of whom nobody knows the class is kept in each, or she might be in none."""
        session = self.window_bob.session
        self.assertTrue(keep(session, session.facts.race("1"), twin=Twin("0" * 16, ("../fleet",))))
        self.assertEqual(len(self.shown(1)["unread"]), self.most + 1)

    def test_room_again(self) -> None:
        """Once somebody is known, or it is said that nobody was there, there is room for one more; then that isn't taken back."""
        self.assertIsNotNone(self.phone.send(1, "?1 1 GBR7"))
        self.assertEqual([self.refused("? 1"), self.refused("? 1")], ["", "places-most"])
        dropped = self.phone.send(1, "?2 1 NONE")
        assert dropped is not None
        self.assertEqual(self.refused("? 1"), "")
        self.assertEqual(self.refused("UNDO", dropped["id"]), "places-most")
        self.assertIsNotNone(self.phone.send(1, "?4 1 NONE"))
        self.assertEqual(self.refused("UNDO", dropped["id"]), "")
        self.assertEqual(len(self.shown(1)["unread"]), self.most)


if __name__ == "__main__":
    unittest.main()
