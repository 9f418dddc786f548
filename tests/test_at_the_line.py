"""Two recorders at one line: what a window was asked about, and what comes between a look at the order and the line that
was worked out by it, puts no boat elsewhere."""
from __future__ import annotations

import fcntl
import os
import signal
import threading
import unittest
from collections.abc import Callable
from typing import Any
from unittest import mock

from helpers import PATIENCE
from raceoffice.errors import NotNow
from raceoffice.series.kept_places import Places
from raceoffice.session.abandon import is_sent
from raceoffice.session.dialogue import Question
from raceoffice.session.session import Session
from raceoffice.web.tap_session import TapSession
from raceoffice.web.taps import Tap
from on_water import OnWater, Phone, Window
from web_devices import new_id


class AtTheLine(OnWater):
    def setUp(self) -> None:
        super().setUp()
        self.asked: list[str] = []
        # What happens while a question waits for its answer.
        self.meanwhile: list[Callable[[], object]] = []
        self.window_bob.session.ask = self.answered
        self.ann: Phone = self.phone
        self.bob: Window = self.window_bob

    def answered(self, question: Question) -> bool:
        """Says yes, after what others do meanwhile."""
        self.asked.append(question.kind)
        while self.meanwhile:
            self.meanwhile.pop(0)()
        return True

    def sends(self, race: int, *lines: str) -> None:
        for line in lines:
            self.assertIsNotNone(self.ann.send(race, line), line)

    def types(self, race: int, *lines: str) -> None:
        self.bob.session.at = race
        for line in lines:
            self.assertTrue(self.bob.session.do(line).is_taken, line)

    def others(self, race: int, *sails: str) -> None:
        """While the window asks, a phone records these."""
        self.meanwhile.append(lambda: self.sends(race, *(f"FINISH {race} {sail}" for sail in sails)))

    def has(self, race: int, order: str) -> None:
        self.assertEqual(self.seen(race), [[name] for name in order.split()], self.bob.session.facts.commands)

    # While a question waits

    def test_place_while_it_is_asked_who_she_is(self) -> None:
        """A sail is typed that may be that of a place: after the answer she is where that was kept."""
        self.types(1, "gbr 101", "7?")
        self.others(1, "NED12", "FRA9")
        self.types(1, "gbr 7")
        self.assertEqual(self.asked, ["place-is"])
        self.has(1, "GBR101 GBR7 NED12 FRA9")

    def test_place_of_a_race_that_counts(self) -> None:
        """The line is another once others have finished: it is asked about, and she is where her place was kept."""
        self.types(1, "gbr 101", "?")
        self.room.do("SCORER", "Cy", Tap.read({"id": new_id(), "line": "SCORE 1", "agreed": self.agreed("SCORE 1")}))
        self.meanwhile.append(lambda: self.tap_all_the_same("FINISH 1 NED12"))
        self.types(1, "?1 gbr 7")
        self.assertEqual(self.asked, ["correction", "correction"])
        self.has(1, "GBR101 GBR7 NED12")

    def test_undo_of_a_strike(self) -> None:
        """A boat that was struck by a slip comes back where she was, also if others finish while that is asked."""
        self.types(1, "gbr 101", "gbr 7", "strike 1 gbr7")
        self.others(1, "NED12", "FRA9")
        self.types(1, "undo")
        self.assertEqual(self.asked, ["undo", "undo"])
        self.has(1, "GBR101 GBR7 NED12 FRA9")

    def test_abandon(self) -> None:
        """What others have recorded while it is asked whether a race is taken away is asked about, too. A place that comes
        later stays."""
        scorer = Session(self.room.folder, "SCORER", "Cy", lambda said: None, self.answered)
        scorer.connect()
        self.addCleanup(scorer.disconnect)
        self.sends(1, "FINISH 1 GBR101", "? 1")
        self.meanwhile.append(lambda: self.sends(1, "? 1", "FINISH 1 NED12"))

        def is_sent_later(*words: Any) -> bool:
            self.sends(1, "? 1")
            return is_sent(*words)
        with mock.patch("raceoffice.session.abandon.is_sent", is_sent_later):
            self.assertTrue(scorer.do("abandon 1").is_taken)
        self.assertEqual(self.asked, ["abandon", "abandon"])
        self.has(1, "?3")

    def test_abandon_and_ctrl_c(self) -> None:
        """No place stays of a race that is taken away, also if Ctrl-C comes meanwhile."""
        self.addCleanup(signal.signal, signal.SIGINT, signal.getsignal(signal.SIGINT))
        signal.signal(signal.SIGINT, signal.default_int_handler)
        scorer = Session(self.room.folder, "SCORER", "Cy", lambda said: None, self.answered)
        scorer.connect()
        self.addCleanup(scorer.disconnect)
        self.sends(1, "FINISH 1 GBR101", "? 1")

        def is_sent_and_pressed(*words: Any) -> bool:
            signal.raise_signal(signal.SIGINT)
            return is_sent(*words)
        with mock.patch("raceoffice.session.abandon.is_sent", is_sent_and_pressed), self.assertRaises(KeyboardInterrupt):
            scorer.do("abandon 1")
        self.bob.session.look()
        self.has(1, "")

    def agreed(self, line: str) -> list[dict[str, Any]]:
        """What is asked of a scorer's line."""
        found: list[dict[str, Any]] = []
        for kind in ("score-unknown", "score-missing"):
            values: dict[str, Any] = {"race": 1}
            if kind == "score-unknown":
                unread = self.bob.session.unread.of(1)
                values |= {"marks": [one.mark for one in unread], "since": [one.since for one in unread]}
            else:
                race = self.bob.session.facts.race("1")
                values["sails"] = race.missing(self.bob.session.facts.boats)
            found.append({"kind": kind, "values": values})
        return found

    def tap_all_the_same(self, line: str) -> None:
        agreed = [{"kind": "correction", "values": {"race": 1}}]
        self.assertEqual(self.room.do("FINISH", "Ann", Tap.read({"id": new_id(), "line": line, "agreed": agreed}))["outcome"], "taken")

    # Between a look and a line

    def between(self, does: Callable[[], object], other: Callable[[], object], is_waiting: bool = True) -> None:
        """Does something, and beside it something else between the note of its line and the line. `is_waiting` says that
        this waits for the line."""
        noted, beside = Places.note_sent, list[threading.Thread]()

        def note_sent(*words: Any) -> None:
            noted(*words)
            if not beside:
                beside.append(threading.Thread(target=other))
                beside[0].start()
                beside[0].join(0.3 if is_waiting else None)
        with mock.patch.object(Places, "note_sent", note_sent), self.patience(is_waiting):
            does()
            beside[0].join()

    def patience(self, is_long: bool) -> Any:
        """However busy the computer is, whoever is to wait does."""
        return mock.patch("raceoffice.series.at_the_line.PATIENCE", PATIENCE if is_long else 0.5)

    def test_window_names_and_phone_finishes(self) -> None:
        self.types(1, "gbr 101", "?")
        self.between(lambda: self.types(1, "?1 gbr 7"), lambda: self.sends(1, "FINISH 1 NED12"))
        self.has(1, "GBR101 GBR7 NED12")

    def test_phone_names_and_window_finishes(self) -> None:
        self.sends(1, "FINISH 1 GBR101", "? 1")
        self.between(lambda: self.sends(1, "?1 1 GBR7"), lambda: self.types(1, "ned 12"))
        self.has(1, "GBR101 GBR7 NED12")

    def test_late_tap_and_window(self) -> None:
        """A finisher of a window who comes between a late tap and its line finishes after her."""
        begun, beside = TapSession.note_begin, list[threading.Thread]()

        def note_begin(*words: Any) -> None:
            begun(*words)
            if not beside:
                beside.append(threading.Thread(target=lambda: self.types(1, "ned 12")))
                beside[0].start()
                beside[0].join(0.3)
        self.types(1, "gbr 101")
        with mock.patch.object(TapSession, "note_begin", note_begin), self.patience(True):
            self.sends(1, "FINISH 1 GBR7")
            beside[0].join()
        self.has(1, "GBR101 GBR7 NED12")

    def test_stopped_window(self) -> None:
        """Nobody waits for long for a window that holds the lock and was stopped. A boat whose line was overtaken is struck,
        and put into her place."""
        self.types(1, "gbr 101", "?")
        self.sends(2, "FINISH 2 GBR101", "? 2")
        lock = os.open(self.room.folder.file("office", "line.lock"), os.O_RDWR | os.O_CREAT)
        self.addCleanup(os.close, lock)
        fcntl.flock(lock, fcntl.LOCK_EX)
        with mock.patch("raceoffice.system.take_lock", return_value=False) as took:
            self.sends(3, *(f"FINISH 3 {sail}" for sail in ("GBR101", "GBR7", "NED12", "FRA9")))
        # Others are those of office.log.
        waited = [call.args[1] for call in took.call_args_list if call.args[1] in (0.0, 0.5)]
        self.assertEqual(waited, [0.5, 0.0, 0.0, 0.0])
        self.between(lambda: self.types(1, "?1 gbr 7"), lambda: self.sends(1, "FINISH 1 NED12"), False)
        self.has(1, "GBR101 GBR7 NED12")
        self.assertEqual([line for line in self.commands() if line.split()[1] == "1"][1:], [
            "FINISH 1 NED12", "FINISH 1 GBR7", "STRIKE 1 GBR7", "BEFORE 1 GBR7 NED12"])
        self.assertEqual(self.shown(1)["unread"], [])

    def test_tap_beside_a_stopped_window(self) -> None:
        """A tap by which a boat comes to a place in the order waits for a window that was stopped: that may send a line in
        between, and the web be killed before it has put the boat right. A finish doesn't wait."""
        self.sends(2, "FINISH 2 GBR101", "? 2", "FINISH 2 FRA9")
        struck = self.ann.send(2, "STRIKE 2 FRA9")
        assert struck is not None
        lock = os.open(self.room.folder.file("office", "line.lock"), os.O_RDWR | os.O_CREAT)
        fcntl.flock(lock, fcntl.LOCK_EX)
        taps = [Tap.read({"id": new_id(), **values}) for values in
                ({"line": "?1 2 GBR7"}, {"line": "UNDO", "undoes": struck["id"]}, {"line": "FINISH 2 FRA9", "undoes": struck["id"]})]
        before = self.commands()
        for tap in taps:
            with self.subTest(tap.line), self.assertRaises(NotNow):
                self.room.do("FINISH", "Ann", tap)
        self.assertEqual(self.commands(), before)
        self.sends(2, "FINISH 2 NED12")
        os.close(lock)
        self.assertEqual([self.room.do("FINISH", "Ann", tap)["outcome"] for tap in taps[:2]], ["taken", "taken"])
        self.has(2, "GBR101 GBR7 FRA9 NED12")
        self.assertEqual(self.shown(2)["unread"], [])

    def test_undo_is_overtaken(self) -> None:
        """Others go on without a window that was stopped between its look and its undo: the boat whose line back is
        overtaken is struck, and put where she was."""
        self.types(1, "gbr 101", "gbr 7", "strike 1 gbr7")
        lock = os.open(self.room.folder.file("office", "line.lock"), os.O_RDWR | os.O_CREAT)
        self.addCleanup(os.close, lock)
        fcntl.flock(lock, fcntl.LOCK_EX)
        noted = Places.note_back

        def note_back(*words: Any) -> Any:
            while self.meanwhile:
                self.meanwhile.pop()()
            return noted(*words)
        self.bob.session.ask = lambda question: True
        self.others(1, "NED12")
        with mock.patch.object(Places, "note_back", note_back):
            self.types(1, "undo")
        self.has(1, "GBR101 GBR7 NED12")
        self.assertEqual(self.commands()[-4:], ["FINISH 1 NED12", "FINISH 1 GBR7", "STRIKE 1 GBR7", "BEFORE 1 GBR7 NED12"])
        self.types(1, "undo")
        self.has(1, "GBR101 NED12")

    def commands(self) -> list[str]:
        self.room.look()
        return self.room.facts.commands


if __name__ == "__main__":
    unittest.main()
