"""However many places of finishers without a sail a race has had, and however long its journal is, a tap costs little: what
was followed before isn't followed again, and comes to the same."""
from __future__ import annotations

import os
import random
import unittest
from unittest import mock

import helpers
from on_water import OnWater
from raceoffice.series import kept_places
from raceoffice.series.folder import Folder
from raceoffice.series.kept_places import History, Note, Places
from raceoffice.series.line_order import LineOrder
from web_devices import SAILS

# How many places are kept and dropped before the taps that are counted; and what those may follow in all.
PLACES, MOST = 40, 30


class Taps(OnWater):
    def test_followed_once(self) -> None:
        """A device keeps places and drops them, and strikes and records a boat. From then on a tap follows what has come since
        alone, in that race and in another: else all would wait for it."""
        for at in range(1, PLACES + 1):
            self.assertIsNotNone(self.phone.send(1, "? 1"))
            if at < PLACES:
                self.assertIsNotNone(self.phone.send(1, f"?{at} 1 NONE"))
            self.assertIsNotNone(self.phone.send(1, f"{'STRIKE' if at % 2 == 0 else 'FINISH'} 1 GBR7"))
        last = ""
        for line in ("FINISH 1 GBR7", "FINISH 2 GBR7", "STRIKE 1 GBR7", "UNDO", "STRIKE 1 GBR7", "? 1"):
            with mock.patch.object(LineOrder, "keep", autospec=True, side_effect=LineOrder.keep) as kept, \
                    mock.patch.object(LineOrder, "follow_line", autospec=True, side_effect=LineOrder.follow_line) as followed:
                done = self.phone.send(1, line, last if line == "UNDO" else "")
            assert done is not None, line
            last = str(done["id"])
            self.assertLess(kept.call_count + followed.call_count, MOST, line)
        self.assertEqual(self.seen(1)[-2:], [[f"?{PLACES}"], [f"?{PLACES + 1}"]])


class Meanwhile:
    """A number that is read while orders are taken over: then somebody asks for the order of race 2."""

    def __init__(self, shared: History) -> None:
        self.shared = shared

    def __index__(self) -> int:
        self.shared.order(2)
        return 4


class AsFromTheBeginning(helpers.Series):
    """What is followed bit by bit is what is followed at once, whatever comes: lines, notes, older journals, boats of the
    same numbers."""

    def setUp(self) -> None:
        super().setUp()
        self.folder = Folder(os.path.join(self.here, "cup"))
        self.folder.make_private()
        self.places = Places(self.folder, "Ann")

    def compare(self, text: bytes, journal: list[str]) -> None:
        with open(self.places.path, "wb") as file:
            file.write(text)
        for commands in (journal, journal[:len(journal) // 2], journal):
            found, whole = self.places.read(commands), History.read(text, commands)
            self.assertEqual((found, found.waiting), (whole, whole.waiting))
            for race in (1, 2):
                self.assertEqual(found.order(race), whole.order(race))
                self.assertEqual(found.moments(race), whole.moments(race))

    def test_asked_meanwhile(self) -> None:
        """A thread that reads what is new takes over orders while another, as of a class in which a finisher is kept, too, asks
        for the order of one more race."""
        journal = [f"ENTER {SAILS[0]}", f"FINISH 1 {SAILS[0]}"]
        shared = self.places.read(journal)
        shared.order(1)
        with mock.patch.object(kept_places, "EARLIER", Meanwhile(shared)):
            self.assertEqual(self.places.read([*journal, f"STRIKE 1 {SAILS[0]}"]).order(1).struck, {SAILS[0]})
        self.assertIn(2, shared.followed)

    def test_at_random(self) -> None:
        for seed in range(60):
            self.grow(random.Random(seed))

    def grow(self, dice: random.Random) -> None:
        """Grows a journal and notes, and looks at each step."""
        journal, notes, marks = [f"ENTER {sail}" for sail in SAILS], list[Note](), list[tuple[int, str]]()
        for _ in range(25):
            way = dice.choice(["line", "line", "line", "kept", "kept", "end", "sent", "back", "older"])
            race, sail, other = dice.choice((1, 1, 2)), *dice.sample(SAILS[:6], 2)
            line = dice.choice([f"FINISH {race} {sail}", f"STRIKE {race} {sail}", f"BEFORE {race} {sail} {other}"])
            if way == "line":
                journal.append(dice.choice([line, line, f"TIE {race} {sail} {other}", f"MARK {race} {sail} OCS"]))
            elif way == "kept":
                mark = f"?{len(marks) + 1}"
                marks.append((race, mark))
                # The journal that was shown may have been older, or one that is gone by now.
                entries = max(0, len(journal) + dice.choice([0, 0, 0, -1, -3, 4]))
                notes.append(Note("kept", race, mark, time="2026-12-01T03:00:00+0000", behind=tuple(dice.sample(SAILS[:6], 2)),
                                  entries=entries, later=dice.choice(["", "", sail])))
            elif way == "older" and dice.random() < 0.3:
                del journal[len(SAILS) + dice.randrange(6):]
            elif marks:
                self.note(dice, way, notes, dice.choice(marks), line, journal)
            self.compare(b"".join(note.text() for note in notes), journal)

    def note(self, dice: random.Random, way: str, notes: list[Note], key: tuple[int, str], line: str, journal: list[str]) -> None:
        """Adds a note about a place that was kept."""
        race, mark = key
        line = " ".join([line.split()[0], str(race), *line.split()[2:]])
        if way == "end":
            notes.append(Note("dropped", race, mark, why="none"))
        elif way == "sent" and not line.startswith("STRIKE"):
            notes.append(Note("sent", race, mark, line=line, entries=len(journal)))
            journal += [line] * dice.choice([0, 1])
            notes += [Note("resolved", race, mark, line=line, entry=len(journal))] * dice.choice([0, 1])
        elif way == "back":
            notes.append(Note("leaving" if line.startswith("STRIKE") else "back", race, mark, line=line, entries=len(journal)))
            journal += [line] * dice.choice([0, 1])


if __name__ == "__main__":
    unittest.main()
