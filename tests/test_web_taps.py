"""Each tap is done once: sent again and again, after crashes of the web and of the program, by two devices."""
from __future__ import annotations

import concurrent.futures
import contextlib
import errno
import fcntl
import http.client
import json
import os
import random
import shutil
import tempfile
import threading
import time
import unittest
from collections.abc import Callable
from typing import Any
from unittest import mock

import helpers
from raceoffice.errors import NotNow
from raceoffice.program.journal import Race
from raceoffice.program.replay import Line
from raceoffice.series.folder import Folder
from raceoffice.series.windows import OFFICE, Presence
from raceoffice.web.room import identity_of
from raceoffice.web.tap_session import TapSession
from raceoffice.web.taps import Register, Sent, Tap
from web_devices import BOATS, SAILS, Device, Web, list_of, new_id

# The register of taps.
TAPS = ("cup", "office", "web.taps")


class Once(Web):
    def test_at_once(self) -> None:
        """One PENALTY eight times at once, over eight connections: one entry, eight equal answers."""
        finish, id = self.device("finish"), new_id()
        with concurrent.futures.ThreadPoolExecutor(8) as pool:
            answers = [answer for _, answer in pool.map(tapped, [(finish, id)] * 8)]
        self.assertEqual({answer["answer"] for answer in answers}, {answers[0]["answer"]})
        self.assertEqual([answer["outcome"] for answer in answers], ["taken"] * 8)
        self.assertEqual(sum(not answer["again"] for answer in answers), 1)
        self.assertEqual(self.journal(), ["FINISH PENALTY 1 GBR7 ZFP"])

    def test_struck(self) -> None:
        """A finish that was struck isn't put back by the tap that made it. Another tap of a boat in the order
        is refused (8)."""
        finish, scorer, first = self.device("finish"), self.device("scorer"), new_id()
        finish.tap("FINISH 1 GBR101", first)
        self.assertEqual(scorer.tap("finish 1 101")[1]["answer"], "NO 8")
        self.assertEqual(scorer.tap("strike 1 101")[1]["outcome"], "taken")
        again = finish.tap("FINISH 1 GBR101", first)[1]
        self.assertEqual((again["outcome"], again["again"], again["entry"]), ("taken", True, len(SAILS) + 1))
        self.assertEqual(self.journal(), ["FINISH FINISH 1 GBR101", "SCORER STRIKE 1 GBR101"])

    def test_sent_by_others(self) -> None:
        """The same line by another tap is asked about if it came after what that one's device showed."""
        finish, scorer = self.device("finish"), self.device("scorer")
        helpers.until("the journal is shown", lambda: finish.state()["entries"])
        seen = finish.state()["entries"]
        finish.tap("PENALTY 1 GBR7 ZFP", seen=seen)
        status, said = scorer.tap("penalty 1 gbr7 zfp", seen=seen)
        self.assertEqual((status, said["outcome"], said["question"]["kind"]), (409, "asked", "sent-already"))
        self.assertEqual(said["question"]["values"], {"line": "PENALTY 1 GBR7 ZFP", "entry": seen + 1})
        self.assertEqual(len(self.journal()), 1)
        agreed = [{"kind": said["question"]["kind"], "values": said["question"]["values"]}]
        self.assertEqual(scorer.tap("penalty 1 gbr7 zfp", seen=seen, agreed=agreed)[1]["outcome"], "taken")
        self.assertEqual(scorer.tap("penalty 1 gbr7 zfp", seen=seen + 2)[1]["outcome"], "taken")

    def test_another_series(self) -> None:
        """A tap that a device has held since another series had this name is asked about. A series keeps what it is known
        by: when it is served again, under another name, and as a copy."""
        finish = self.device("finish")
        first = finish.state()["series"]
        self.assertEqual(finish.tap("FINISH 1 GBR101", series=first)[1]["outcome"], "taken")
        self.close()
        shutil.copytree(os.path.join(self.here, "cup"), os.path.join(self.here, "copy"), symlinks=True)
        os.rename(os.path.join(self.here, "cup"), os.path.join(self.here, "last week"))
        self.make("cup", list_of(BOATS), title="Next Cup")
        self.serve()
        finish = self.device("finish")
        self.assertNotEqual(finish.state()["series"], first)
        status, said = finish.tap("FINISH 1 GBR7", series=first)
        self.assertEqual((status, said["question"]["kind"], said["question"]["values"]),
                         (409, "another-series", {"line": "FINISH 1 GBR7", "title": "Next Cup"}))
        self.assertEqual(self.journal(), [])
        self.assertEqual(finish.tap("FINISH 1 GBR7", series=first, agreed=[said["question"]])[0], 200)
        self.assertEqual(finish.tap("FINISH 1 FRA9", series=finish.state()["series"])[0], 200)
        self.assertEqual(finish.tap("FINISH 1 NED12")[0], 200)
        for odd in ("x", 7, ["x"]):
            self.assertEqual(finish.tap("FINISH 1 IRL5", series=odd)[0], 400, odd)
        for name in ("last week", "copy"):
            self.assertEqual(identity_of(Folder(os.path.join(self.here, name))), first)

    def test_questions(self) -> None:
        """What the typing window asks comes back as a kind with values, and a yes to just that is a yes. Words
        don't matter; another value is another question."""
        finish, scorer = self.device("finish"), self.device("scorer")
        for sail in SAILS[:10]:
            finish.tap(f"FINISH 1 {sail}")
        id = new_id()
        status, said = scorer.tap("SCORE 1", id)
        asked = said["question"]
        self.assertEqual((status, asked["kind"]), (409, "score-missing"))
        self.assertEqual(asked["values"], {"race": 1, "sails": SAILS[10:]})
        self.assertEqual(asked["text"], "Score race 1 with 2 boats as DNC?")
        finish.tap(f"FINISH 1 {SAILS[10]}")
        self.assertEqual(scorer.tap("SCORE 1", id, agreed=[asked])[1]["question"]["values"]["sails"], SAILS[11:])
        yes = {"kind": "score-missing", "values": {"race": 1, "sails": SAILS[11:]}, "text": "Ja?"}
        done = scorer.tap("SCORE 1", id, agreed=[asked, yes])[1]
        self.assertEqual((done["outcome"], self.journal()[-1]), ("taken", "SCORER SCORE 1"))
        self.assertEqual(finish.tap("STRIKE 1 GBR7")[1]["question"], {
            "kind": "correction", "values": {"race": 1}, "text": "RACE 1 COUNTS ALREADY. Is this a correction?"})

    def test_taken_away(self) -> None:
        """A race that is taken away: agreed to are the lines that were shown. Others are asked about again."""
        finish, scorer = self.device("finish"), self.device("scorer")
        for line in ("FINISH 1 GBR7", "FINISH 1 GBR33", "PENALTY 1 GBR101 ZFP"):
            finish.tap(line)
        first = scorer.tap("ABANDON 1")[1]["question"]
        self.assertEqual(first["values"], {"race": 1, "lines": ["STRIKE 1 GBR7", "STRIKE 1 GBR33"], "marks": []})
        finish.tap("FINISH 1 NED12")
        status, said = scorer.tap("ABANDON 1", agreed=[first])
        self.assertEqual(status, 409)
        id = new_id()
        for again in (False, True):
            status, done = scorer.tap("ABANDON 1", id, agreed=[said["question"]])
            self.assertEqual((status, done["outcome"], done["again"]), (200, "noted", again))
        # No line takes that back, and none that isn't named.
        for undoes, kind, values in ((id, "undo-abandon", {"race": "1", "lines": "3 lines"}), ("", "undo-none", {})):
            status, said = scorer.tap("UNDO", undoes=undoes)
            self.assertEqual((status, said["said"][0]["kind"], said["said"][0]["values"]), (422, kind, values))
        self.assertEqual(self.journal()[4:], [f"SCORER STRIKE 1 {sail}" for sail in ("GBR7", "GBR33", "NED12")])

    def test_undo(self) -> None:
        """Undo takes back what another tap did, by the line of the typing window, and not what others have
        changed since."""
        finish, scorer = self.device("finish"), self.device("scorer")
        taps = {line: new_id() for line in ("FINISH 1 GBR101", "FINISH 1 GBR7", "FINISH 1 NED12", "STRIKE 1 GBR7",
                                            "MARK 1 GBR33 OCS")}
        for line, id in taps.items():
            finish.tap(line, id)
        undo = new_id()
        for again in (False, True):
            done = finish.tap("UNDO", undo, undoes=taps["STRIKE 1 GBR7"])[1]
            self.assertEqual((done["line"], done["again"]), ("BEFORE 1 GBR7 NED12", again))
        self.assertEqual(finish.tap("UNDO", undoes=taps["MARK 1 GBR33 OCS"])[1]["line"], "CLEAR 1 GBR33")
        self.assertEqual(self.journal()[5:], ["FINISH BEFORE 1 GBR7 NED12", "FINISH CLEAR 1 GBR33"])
        scorer.tap("STRIKE 1 NED12")
        self.assertEqual(finish.tap("UNDO", undoes=taps["FINISH 1 NED12"])[0], 422)
        self.assertEqual(len(self.journal()), 8)

    def test_undo_beside_others(self) -> None:
        """An undo takes away no tap of another device: neither the same boat's, which is asked about, nor the place that
        somebody else has given her since."""
        ann, bea = self.device("finish"), self.device("finish", "Bea")
        taps = [new_id() for _ in range(4)]
        ann.tap("FINISH 1 GBR7", taps[0])
        self.assertEqual(bea.tap("FINISH 1 GBR7", taps[1])[1]["answer"], "NO 8")
        for line in ("STRIKE 1 GBR7", "UNDO"):
            status, said = ann.tap(line, undoes=taps[0])
            self.assertEqual((status, said["question"]["kind"], said["question"]["values"]),
                             (409, "tapped-too", {"sail": "GBR7", "by": "Bea"}))
        self.assertEqual(bea.tap("STRIKE 1 GBR7", undoes=taps[1])[0], 422)
        agreed = [{"kind": "tapped-too", "values": {"sail": "GBR7", "by": "Bea"}}]
        self.assertEqual(ann.tap("STRIKE 1 GBR7", undoes=taps[0], agreed=agreed)[0], 200)
        # A device takes back its own taps one after another, and none that others have come after.
        ann.tap("FINISH 1 NED12", taps[2])
        ann.tap("STRIKE 1 NED12", taps[3])
        self.assertEqual(ann.tap("FINISH 1 NED12", undoes=taps[3])[0], 200)
        bea.tap("STRIKE 1 NED12")
        bea.tap("FINISH 1 NED12")
        status, said = ann.tap("STRIKE 1 NED12", undoes=taps[2])
        self.assertEqual((status, said["said"][0]["kind"]), (422, "undo-later"), said)
        self.assertEqual(self.journal()[-1], "FINISH FINISH 1 NED12")

    def test_places(self) -> None:
        """A place is kept once, in the file of all windows. It is resolved by a sail, or dropped."""
        finish, scorer, id = self.device("finish"), self.device("scorer"), new_id()
        finish.tap("FINISH 2 GBR101")
        for again in (False, True):
            done = finish.tap("? 2", id)[1]
            self.assertEqual((done["outcome"], done["mark"], done["again"]), ("noted", "?1", again))
        finish.tap("FINISH 2 GBR7")
        self.assertEqual(finish.tap("? 2")[1]["mark"], "?2")
        self.assertEqual(scorer.state()["races"]["2"]["unread"],
                         [{"mark": "?1", "place": "2nd", "after": 1}, {"mark": "?2", "place": "4th", "after": 2}])
        self.assertEqual(self.text("cup", "office", "places").count('"what": "kept"'), 2)
        known = new_id()
        for _ in range(2):
            self.assertEqual(scorer.tap("?1 2 IRL5", known)[1]["line"], "BEFORE 2 IRL5 GBR7")
        dropped = new_id()
        for _ in range(2):
            self.assertEqual(finish.tap("?2 2 NONE", dropped)[1]["outcome"], "noted")
        self.assertEqual(scorer.state()["races"]["2"]["unread"], [])
        self.assertEqual(finish.tap("UNDO", undoes=dropped)[1]["outcome"], "noted")
        self.assertEqual(scorer.tap("UNDO", undoes=known)[1]["line"], "STRIKE 2 IRL5")
        self.assertEqual([one["mark"] for one in scorer.state()["races"]["2"]["unread"]], ["?1", "?2"])

    def test_undo_of_an_undo(self) -> None:
        """A boat that has left her place comes into it again. If that is dropped meanwhile, the answer says so."""
        finish, known, undone, again = self.device("finish"), new_id(), new_id(), new_id()
        for line, id, undoes in (("? 1", new_id(), ""), ("?1 1 GBR7", known, ""), ("UNDO", undone, known), ("UNDO", again, undone)):
            self.assertEqual(finish.tap(line, id, undoes=undoes)[0], 200, line)
        self.assertEqual(finish.state()["races"]["1"]["order"], [["GBR7"]])
        last = new_id()
        self.assertEqual(finish.tap("UNDO", last, undoes=again)[1]["line"], "STRIKE 1 GBR7")
        finish.tap("?1 1 NONE")
        status, said = finish.tap("UNDO", undoes=last)
        self.assertEqual((status, said["said"][0]["kind"]), (422, "no-place"))

    def test_place_that_waits(self) -> None:
        """A finisher without a sail isn't refused because a window that was stopped holds the file: her tap waits,
        and those behind her with it."""
        finish, id = self.device("finish"), new_id()
        self.assertEqual(finish.tap("? 2")[1]["mark"], "?1")
        with open(os.path.join(self.here, "cup", "office", "places"), "rb") as file:
            fcntl.flock(file, fcntl.LOCK_EX)
            self.assertEqual(finish.tap("? 2", id)[0], 503)
        self.assertEqual(finish.tap("? 2", id)[1]["mark"], "?2")

    def test_window_beside(self) -> None:
        """What is typed in a window beside is shown on pages, and places are kept for both."""
        finish, window = self.device("finish"), self.typist("finish")
        self.play(window, """
> finish 1 101
OK 13
> at 1
> ?
?1 keeps her place
""")
        helpers.until("the finisher", lambda: "1" in finish.state()["races"]
                      and finish.state()["races"]["1"]["unread"])
        self.assertEqual(finish.state()["races"]["1"]["order"], [["GBR101"]])
        self.assertEqual(finish.tap("?1 1 GBR7")[1]["line"], "FINISH 1 GBR7")


class PutBack(Web):
    def test_lost(self) -> None:
        """An older journal.txt was put back: a device that sends again what that lacks isn't told that it was taken, until
        somebody has typed the line again. A boat who was taken out stays as she was answered, until she is entered again."""
        finish, scorer, lost, out, entered = self.device("finish"), self.device("scorer"), new_id(), new_id(), new_id()
        asked = scorer.tap("ENTER USA 4")[1]["question"]
        self.assertEqual(scorer.tap("ENTER USA 4", agreed=[asked])[1]["outcome"], "taken")
        for line, id in ((f"FINISH 1 {SAILS[0]}", new_id()), ("FINISH 1 USA4", out)):
            self.assertEqual(finish.tap(line, id)[1]["outcome"], "taken", line)
        self.agree(scorer, "remove", sail="USA 4")
        self.assertEqual(finish.tap("FINISH 1 USA4", out)[1]["outcome"], "taken")
        self.assertEqual(scorer.tap("ENTER USA 4", agreed=[asked])[1]["outcome"], "taken")
        # She was recorded before, and struck: that line is another one.
        for line in (f"FINISH 1 {SAILS[1]}", f"STRIKE 1 {SAILS[1]}"):
            self.assertEqual(finish.tap(line)[1]["outcome"], "taken", line)
        older = self.text("cup", "journal.txt")
        self.assertEqual(finish.tap(f"FINISH 1 {SAILS[1]}", lost)[1]["outcome"], "taken")
        self.assertEqual(finish.tap("FINISH 2 USA4", entered)[1]["outcome"], "taken")
        self.agree(scorer, "close")
        self.write(older, "cup", "journal.txt")
        # While the office is away nobody knows what its journal will have, also if the web has only just come.
        self.assertEqual(finish.tap(f"FINISH 1 {SAILS[1]}", lost)[0], 503)
        self.close()
        self.serve()
        finish, scorer = finish.again(), scorer.again()
        self.assertEqual(finish.tap(f"FINISH 1 {SAILS[1]}", lost)[0], 503)
        self.agree(scorer, "open")
        helpers.until("the office", lambda: not scorer.state()["trouble"])
        self.assertEqual(finish.tap("FINISH 1 USA4", out)[1]["outcome"], "taken")
        for line, id in ((f"FINISH 1 {SAILS[1]}", lost), ("FINISH 2 USA4", entered)):
            status, said = finish.tap(line, id)
            self.assertEqual((status, said["said"][0]["kind"], said["said"][0]["values"]), (422, "undo-gone", {"line": line}))
        self.assertEqual(self.journal(), [f"FINISH FINISH 1 {SAILS[0]}", f"FINISH FINISH 1 {SAILS[1]}", f"FINISH STRIKE 1 {SAILS[1]}"])
        self.assertEqual(scorer.tap(f"FINISH 1 {SAILS[1]}")[1]["outcome"], "taken")
        self.assertEqual(finish.tap(f"FINISH 1 {SAILS[1]}", lost)[1]["outcome"], "taken")

    def test_place(self) -> None:
        """An older journal.txt lacks the line by which a finisher without a sail came to be a boat: her place is kept
        again. That of a boat who was struck isn't."""
        finish, scorer = self.device("finish"), self.device("scorer")

        def taken(*lines: str) -> None:
            for line in lines:
                self.assertIn(finish.tap(line)[1]["outcome"], ("taken", "noted"), line)

        def opened_again(journal: str, order: list[list[str]], *kept: tuple[str, int]) -> None:
            self.agree(scorer, "close")
            self.write(journal, "cup", "journal.txt")
            self.agree(scorer, "open")
            helpers.until("the office", lambda: not scorer.state()["trouble"])
            helpers.until("the order", lambda: shown(scorer.state()["races"]["1"]) == (order, [*kept]))

        taken(f"FINISH 1 {SAILS[0]}", "? 1")
        older = self.text("cup", "journal.txt")
        taken(f"?1 1 {SAILS[1]}", f"FINISH 1 {SAILS[2]}")
        opened_again(older, [[SAILS[0]]], ("?1", 1))
        taken(f"FINISH 1 {SAILS[2]}", f"?1 1 {SAILS[1]}")
        self.assertEqual(self.journal()[-1], f"FINISH BEFORE 1 {SAILS[1]} {SAILS[2]}")
        taken(f"STRIKE 1 {SAILS[1]}")
        opened_again(self.text("cup", "journal.txt"), [[SAILS[0]], [SAILS[2]]])
        self.assertEqual(self.said().count("Kept without a sail: ?1 in race 1."), 1)

    def test_older_places(self) -> None:
        """An older office/places was put back: a device that sends again what that lacks isn't told that the place is kept,
        also once another finisher has it."""
        finish, scorer, kept, lost = self.device("finish"), self.device("scorer"), new_id(), new_id()
        self.assertEqual(finish.tap("? 1", kept)[1]["mark"], "?1")
        older = self.text("cup", "office", "places")
        self.assertEqual(finish.tap("? 1", lost)[1]["mark"], "?2")
        self.assertEqual(finish.tap("? 1", lost)[1]["mark"], "?2")
        self.agree(scorer, "close")
        self.write(older, "cup", "office", "places")
        self.agree(scorer, "open")
        helpers.until("the office", lambda: not scorer.state()["trouble"])
        for _ in range(2):
            status, said = finish.tap("? 1", lost)
            self.assertEqual((status, said["said"][0]["kind"]), (422, "undo-gone"))
            self.assertEqual(finish.tap("? 1", kept)[1]["mark"], "?1")
            finish.tap("? 1")
        status, said = finish.tap("UNDO", undoes=lost)
        self.assertEqual((status, said["said"][0]["kind"]), (422, "undo-gone"))
        self.assertEqual(shown(scorer.state()["races"]["1"]), ([], [("?1", 0), ("?2", 0), ("?3", 0)]))

    def agree(self, scorer: Device, what: str, **values: str) -> None:
        """Has something done with the office, and answers by yes what is asked before."""
        agreed: list[Any] = []
        given: dict[str, Any] = {**values, "agreed": agreed}
        while (found := scorer.ask("POST", f"/office/scorer/{what}/cup", given))[0] == 409:
            agreed.append(found[1]["question"])
        self.assertEqual(found[0], 200, found)


class Closing(unittest.TestCase):
    def test_no_note(self) -> None:
        """A folder or a pipe in place of the note of closing closes no office."""
        with tempfile.TemporaryDirectory() as path:
            with open(os.path.join(path, "series.ini"), "w", encoding="utf-8") as file:
                file.write("[series]\ntitle = Cup\n")
            folder = Folder(path)
            folder.make_private()
            note = folder.file("office", "closing")
            for make, remove in ((os.mkdir, os.rmdir), (os.mkfifo, os.remove)):
                make(note)
                self.assertFalse(folder.is_closing())
                remove(note)
            folder.set_closing(True)
            # A window that was killed has left it.
            self.assertFalse(folder.is_closing() or folder.is_closing_for_good())
            with contextlib.closing(Presence(folder, OFFICE)):
                self.assertTrue(folder.is_closing() and folder.is_closing_for_good())
                folder.set_closing(True, comes_back=True)
                self.assertTrue(folder.is_coming_back())
            self.assertFalse(folder.is_coming_back())


class Stopped(helpers.Series):
    def test_full_disk(self) -> None:
        """A tap that can't be noted waits until there is room, and leaves the office alone: one that is found anew for
        each try would soon have no sessions left. The file is as it was."""
        path, id = os.path.join(self.here, "web.taps"), new_id()
        register = Register(path)
        self.addCleanup(register.close)
        sent, write = Sent(id, "FINISH", "? 1", 5, "Ann", 0), os.write

        def write_half(number: int, data: bytes) -> int:
            if len(data) < 20:
                raise OSError(errno.ENOSPC, "No space left on device")
            return write(number, data[:len(data) // 2])
        with mock.patch("os.write", write_half):
            for note in (lambda: register.begin(sent), lambda: register.decide(id, [Line("FINISH", "STRIKE 1 GBR7")])):
                self.assertRaises(NotNow, note)
        self.assertEqual((os.path.getsize(path), register.sent, register.decisions), (0, {}, {}))

    def test_failing_disk(self) -> None:
        """A disk fails to sync a line, and to take it away again: the tap waits until the disk is right, and the register
        is as it was. One that somebody else has written into is another, also if that is longer."""
        path, id = os.path.join(self.here, "web.taps"), new_id()
        register, fails = Register(path), mock.Mock(side_effect=OSError(errno.EIO, "Input/output error"))
        self.addCleanup(register.close)
        sent = Sent(id, "FINISH", "? 1", 5, "Ann", 0)
        with mock.patch("os.fsync", fails), mock.patch("os.ftruncate", fails):
            for _ in range(2):
                self.assertRaises(NotNow, register.begin, sent)
                self.assertFalse(register.is_another())
        self.assertGreater(os.path.getsize(path), 0)
        register.begin(sent)
        with open(path, encoding="utf-8") as file:
            self.assertEqual([json.loads(line)["id"] for line in file], [id])
        with open(path, "a", encoding="utf-8") as file:
            file.write(json.dumps({"id": id, "own": ""}) + "\n")
        self.assertTrue(register.is_another())
        self.assertRaises(NotNow, register.begin, sent)

    def test_half_an_answer(self) -> None:
        """A disk takes half of an answer, and doesn't take it away again: the next one is a line of its own."""
        path, id, write = os.path.join(self.here, "web.taps"), new_id(), os.write
        register, fails = Register(path), mock.Mock(side_effect=OSError(errno.EIO, "Input/output error"))
        self.addCleanup(register.close)
        register.begin(Sent(id, "FINISH", "? 1", 5, "Ann", 0))
        with mock.patch("os.write", lambda number, data: write(number, data[:9])), mock.patch("os.ftruncate", fails):
            register.end(id, "NOTED", "?1")
        self.assertFalse(register.is_another())
        register.end(id, "NOTED", "?2")
        self.assertEqual(Register(path).sent[id].mark, "?2")

    def test_places(self) -> None:
        """While a window that was stopped holds the file of places, a tap waits two seconds in all, and not for each of
        its steps: its page waits for eight, and the taps of others for it."""
        folder, waited = Folder(os.path.join(self.here, "cup")), [0.0]
        folder.make_private()

        def take_lock(number: int, patience: float) -> bool:
            waited[0] += patience
            return False
        session = TapSession(folder, "FINISH", mock.Mock(), mock.Mock())
        with mock.patch("raceoffice.system.take_lock", take_lock), mock.patch("time.monotonic", lambda: waited[0]):
            session.begin(Tap(new_id(), "?1 1 GBR7"), "Ann")
            for step in (lambda: session.places.note_found([]), lambda: session.places.keep_again(1, "?1"),
                         lambda: session.places.drop([], "none"), lambda: session.places.keep(Race(1), "", 0)):
                self.assertRaises(NotNow, step)
        self.assertLessEqual(waited[0], 2.0)


class Elsewhere(Web):
    """Two devices record one race."""

    def test_by_the_clock(self) -> None:
        """Others were recorded since a boat was tapped: she goes last if the clock says so, too, and else it
        is asked."""
        ann, ben, now = self.device("finish"), self.device("finish", "Ben"), int(time.time() * 1000)
        ann.tap("FINISH 1 GBR101", at=now, behind="")
        ben.tap("FINISH 1 GBR33", at=now + 10_000, behind="GBR101")
        self.assertEqual(ann.tap("FINISH 1 GBR7", at=now + 20_000, behind="GBR101")[1]["outcome"], "taken")
        status, said = ann.tap("FINISH 1 NED12", at=now + 15_000, behind="GBR33")
        self.assertEqual((status, said["outcome"], said["clock"]), (409, "elsewhere", "BEFORE 1 NED12 GBR7"))
        self.assertEqual(said["question"]["values"],
                         {"race": 1, "sail": "NED12", "others": ["GBR7"], "ahead": "GBR7", "untimed": []})
        self.assertEqual(said["question"]["text"], "Meanwhile GBR 7 Sea Pink was recorded. By the clock "
                         "NED 12 Windhover is just ahead of GBR 7 Sea Pink.")
        ann.tap("FINISH 1 NED12", at=now + 15_000, behind="GBR33", by_clock=True)
        # Within a second the clocks of two devices don't say who was first.
        self.assertEqual(ann.tap("FINISH 1 FRA9", at=now + 20_500, behind="NED12")[0], 409)
        self.assertEqual(ann.tap("FINISH 1 FRA9", at=now + 20_500, behind=None)[1]["line"], "FINISH 1 FRA9")
        self.assertEqual(self.journal(), ["FINISH FINISH 1 GBR101", "FINISH FINISH 1 GBR33", "FINISH FINISH 1 GBR7",
                                          "FINISH BEFORE 1 NED12 GBR7", "FINISH FINISH 1 FRA9"])


class Hyphens(Web):
    """Boats whose sails have a hyphen."""

    def prepare(self) -> None:
        boats = [(sail.replace(" ", "-"), *names) for sail, *names in BOATS]
        self.write(list_of(boats), "cup", "entries.csv")

    def test_moments(self) -> None:
        """Each has a moment: it is shown, says who finished first, and names who has tapped her, too."""
        ann, ben, now = self.device("finish"), self.device("finish", "Ben"), int(time.time() * 1000)
        ben.tap("FINISH 1 GBR-7", at=now + 20_000, behind="")
        line = "FINISH 1 GBR-101"
        more: dict[str, Any] = {"at": now, "behind": ""}
        said = ann.tap(line, **more)[1]
        self.assertEqual((said["clock"], said["question"]["values"]["untimed"]), ("BEFORE 1 GBR-101 GBR-7", []))
        id = new_id()
        self.assertEqual(ann.tap(line, id, **more, by_clock=True)[1]["outcome"], "taken")
        race = ann.state()["races"]["1"]
        self.assertEqual(race["at"], {"GBR-101": now, "GBR-7": now + 20_000})
        self.assertEqual(race["by"], {"GBR-101": "Ann", "GBR-7": "Ben"})
        ben.tap(line, at=now)
        asked = ann.tap("STRIKE 1 GBR-101", undoes=id)[1]["question"]
        self.assertEqual((asked["kind"], asked["values"]), ("tapped-too", {"sail": "GBR-101", "by": "Ben"}))


class Crashes(Web):
    def lines(self) -> list[Any]:
        """The lines of the register that aren't torn."""
        return [json.loads(line) for line in self.text(*TAPS).splitlines() if line.endswith("}")]

    def test_between_line_and_answer(self) -> None:
        """The web dies when the office has taken a line, and the register doesn't know; and just before a line
        is sent. Numbers may be written otherwise in the journal."""
        finish, scorer = self.device("finish"), self.device("jury")
        done, points, lost, torn = (new_id() for _ in range(4))
        finish.tap("PENALTY 01 GBR7 ZFP", done)
        scorer.tap("REDRESS 1 GBR7 3", points, agreed=[{"kind": "redress-unplaced", "values": {
            "race": 1, "sail": "GBR7", "counts": False, "a53": False}}])
        self.assertEqual(len(self.journal()), 2)
        self.kill()
        kept = [line for line in self.lines() if "line" in line]
        kept.append({**kept[0], "id": lost, "line": "PENALTY 1 GBR33 ZFP", "entries": kept[0]["entries"] + 2})
        self.write("".join(json.dumps(line) + "\n" for line in kept) + f'{{"id": "{torn}', *TAPS)
        self.serve()
        for id, device, line, answer in [
                (done, finish, "PENALTY 01 GBR7 ZFP", "OK 13"), (points, scorer, "REDRESS 1 GBR7 3", "OK 14"),
                (lost, finish, "PENALTY 1 GBR33 ZFP", "OK 15"), (torn, finish, "PENALTY 1 GBR101 ZFP", "OK 16"),
                (done, finish, "PENALTY 01 GBR7 ZFP", "OK 13"), (lost, finish, "PENALTY 1 GBR33 ZFP", "OK 15")]:
            said = device.again().tap(line, id)[1]
            self.assertEqual(" ".join(said["answer"].split()[:2]), answer, line)
        self.assertEqual(self.journal(), ["FINISH PENALTY 1 GBR7 ZFP", "JURY REDRESS 1 GBR7 3.0",
                                          "FINISH PENALTY 1 GBR33 ZFP", "FINISH PENALTY 1 GBR101 ZFP"])
        # Nothing was swallowed by the torn line. What was never sent is noted once more.
        self.assertEqual([line["id"] for line in self.lines() if "line" in line],
                         [done, points, lost, lost, torn])

    def test_taken_out(self) -> None:
        """The web dies between lines and their answers, and a boat is taken out at a terminal before it comes back: each
        tap is known by its entry, whatever number that has now."""
        finish, scorer, penalty, finished = self.device("finish"), self.device("scorer"), new_id(), new_id()
        scorer.tap("ENTER USA4", agreed=[{"kind": "enter-unlisted", "values": {"sail": "USA4"}}])
        finish.tap("FINISH 1 USA4")
        taps = {"PENALTY 1 GBR7 ZFP": penalty, "FINISH 1 GBR101": finished}
        for line, id in taps.items():
            finish.tap(line, id)
        self.kill()
        self.kill_program()
        kept = [line for line in self.lines() if "line" in line or line["id"] not in taps.values()]
        self.write("".join(json.dumps(line) + "\n" for line in kept), *TAPS)
        said, status = helpers.run("remove", "cup", "USA4", lines="y\n", cwd=self.here)
        self.assertEqual(status, 0, said)
        self.serve()
        for number, (line, id) in enumerate(taps.items(), len(SAILS) + 1):
            done = finish.again().tap(line, id)[1]
            self.assertEqual((done["outcome"], done["again"], done["entry"]), ("taken", True, number), done)
        self.assertEqual(self.journal(), [f"FINISH {line}" for line in taps])

    def test_between_place_and_answer(self) -> None:
        """The web dies when a place was kept or dropped, and the register doesn't know."""
        finish, first, second, dropped = self.device("finish"), new_id(), new_id(), new_id()
        finish.tap("? 1", first)
        finish.tap("? 1", second)
        finish.tap("?1 1 NONE", dropped)
        self.kill()
        kept = [line for line in self.lines() if "line" in line or line["id"] == first]
        self.write("".join(json.dumps(line) + "\n" for line in kept), *TAPS)
        self.serve()
        finish = finish.again()
        self.assertEqual(finish.tap("? 1", second)[1]["mark"], "?2")
        self.assertEqual(finish.tap("? 1", first)[1]["mark"], "?1")
        self.assertEqual(finish.tap("?1 1 NONE", dropped)[1]["outcome"], "noted")
        self.assertEqual([one["mark"] for one in finish.state()["races"]["1"]["unread"]], ["?2"])
        self.assertEqual(finish.tap("? 1")[1]["mark"], "?3")

    def test_known_in_an_older_register(self) -> None:
        """A boat was put into her place, and an older package's register doesn't say which, and perhaps not that she was:
        when that is undone, her place is kept again."""
        finish = self.device("finish")
        finish.tap("FINISH 1 GBR101")
        for at, is_answered in enumerate((False, True), 1):
            known, mark = new_id(), finish.tap("? 1")[1]["mark"]
            finish.tap("FINISH 1 NED12")
            self.assertEqual(finish.tap(f"{mark} 1 GBR7", known)[1]["mark"], mark)
            self.kill()
            kept = [{**line, "mark": ""} if line["id"] == known and "mark" in line else line for line in self.lines()]
            kept = [line for line in kept if is_answered or "line" in line or line["id"] != known]
            self.write("".join(json.dumps(line) + "\n" for line in kept), *TAPS)
            self.serve()
            finish = finish.again()
            self.assertEqual(finish.tap("UNDO", undoes=known)[1]["line"], "STRIKE 1 GBR7")
            self.assertIn(mark, [one["mark"] for one in finish.state()["races"]["1"]["unread"]])
            self.assertEqual(at, len(finish.state()["races"]["1"]["unread"]))
            finish.tap("STRIKE 1 NED12")

    def test_program(self) -> None:
        """The program is killed: the web opens the office again, and the tap that waited is sent."""
        finish = self.device("finish")
        finish.tap("FINISH 1 GBR101")
        self.kill_program()
        id = new_id()
        helpers.until("the next finisher", lambda: finish.tap("FINISH 1 GBR7", id)[0] == 200)
        self.assertEqual(self.journal(), ["FINISH FINISH 1 GBR101", "FINISH FINISH 1 GBR7"])

    def test_bad_afternoon(self) -> None:
        """Two devices send finishes and penalties, each up to three times, while web and program are killed at
        random moments: the journal has each once, and those of a device in its order."""
        seed = int(os.environ.get("SEED", "") or random.randrange(1 << 32))
        chance = random.Random(seed)
        owners, done = [self.device("finish", name) for name in ("Ann", "Ben")], [0, 0]
        plans = [[(line, new_id(), chance.randint(1, 3)) for sail in SAILS[at::2]
                  for line in (f"FINISH 1 {sail}", f"PENALTY 1 {sail} ZFP")] for at in (0, 1)]
        wrong: list[object] = []

        def send(at: int) -> None:
            for line, id, times in plans[at]:
                while times and not wrong:
                    status, said = tried(owners[at], line, id)
                    times -= status == 200
                    if status == 200 and said["outcome"] != "taken":
                        wrong.append((line, said))
                    if status != 200:
                        time.sleep(0.1)
                done[at] += 1

        threads = [threading.Thread(target=send, args=(at,)) for at in (0, 1)]
        for thread in threads:
            thread.start()
        self.kill_at_random(chance, sum(map(len, plans)), lambda: sum(done), wrong)
        for thread in threads:
            thread.join(helpers.PATIENCE)
        self.assertEqual(wrong, [], f"SEED={seed}")
        journal = self.journal()
        self.assertEqual(sorted(journal), sorted(f"FINISH {line}" for plan in plans for line, _, _ in plan),
                         f"SEED={seed}")
        for plan in plans:
            mine = [f"FINISH {line}" for line, _, _ in plan]
            self.assertEqual([line for line in journal if line in mine], mine, f"SEED={seed}")


    def kill_at_random(self, chance: random.Random, whole: int, done: Callable[[], int],
                       wrong: list[object]) -> None:
        """Kills the web and the program twice each, after some of all taps."""
        for goal, what in sorted((chance.randrange(2, whole - 2), what) for what in ("web", "program") * 2):
            helpers.until(f"{goal} taps", lambda: done() >= goal or wrong)
            time.sleep(chance.random() / 20)
            if what == "web":
                self.kill()
                self.serve()
            else:
                self.kill_program()


def shown(race: Any) -> tuple[list[list[str]], list[tuple[str, int]]]:
    """The order of a race, and the places that are kept there, each with how many groups are ahead of it."""
    return race["order"], [(one["mark"], one["after"]) for one in race["unread"]]


def tapped(tap: tuple[Device, str]) -> tuple[int, Any]:
    """The answer to a penalty, over a connection of its own."""
    device, id = tap
    return device.again().tap("PENALTY 1 GBR7 ZFP", id)


def tried(device: Device, line: str, id: str) -> tuple[int, Any]:
    """The answer to a tap; status 0 if none came."""
    try:
        return device.again().tap(line, id)
    except (OSError, http.client.HTTPException):
        return 0, {}


if __name__ == "__main__":
    unittest.main()
