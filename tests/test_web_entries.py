"""What the scorer's page changes beside the journal: the names of late boats in the entry list, the stick that has
the second folder, and which series are served."""
from __future__ import annotations

import codecs
import contextlib
import os
import pwd
import re
import sys
import threading
import time
import unittest
from typing import Any
from unittest import mock

import helpers
from raceoffice.errors import NotSent
from raceoffice.program.journal import Race
from raceoffice.series import remove_boat, settings
from raceoffice.series.folder import Folder, Lock
from raceoffice.series.kept_places import Places, history_of
from raceoffice.series.read_list import table_of
from raceoffice.series.unknown_finishers import Unread
from raceoffice.series.write_list import with_boat
from raceoffice.web.kept_office import KeptOffice
from web_devices import BOATS, Device, Web, list_of, new_id

LISTED = "/office/scorer/listed/cup"
LIST = list_of(BOATS)
UTF16 = codecs.BOM_UTF16_LE
# Lists, what a boat has by the numbers of their columns, and what they are then: no other byte is another.
FORMS: list[tuple[bytes, str, dict[int, str], bytes]] = [
    (b"\xef\xbb\xbfClub;Segelnummer;Steuermann\r\nYC;GER 1;J\xc3\xb6rg\r\n", "GER 2", {2: "Möller"},
     b"\xef\xbb\xbfClub;Segelnummer;Steuermann\r\nYC;GER 1;J\xc3\xb6rg\r\n;GER 2;M\xc3\xb6ller\r\n"),
    (b"Sail,Boat\nGER 1,M\xf6we", "USA 4", {1: "Café"}, b"Sail,Boat\nGER 1,M\xf6we\nUSA 4,Caf\xe9\n"),
    (UTF16 + "Sail\tBoat\r\nGER 1\tŁódź\r\n".encode("utf-16-le"), "POL 2", {1: "Żagiel"},
     UTF16 + "Sail\tBoat\r\nGER 1\tŁódź\r\nPOL 2\tŻagiel\r\n".encode("utf-16-le")),
    (b"Sail,Boat\rGBR 1,A\r", "GBR 2", {}, b"Sail,Boat\rGBR 1,A\rGBR 2,\r"),
    (b'\nSail,Boat,Helm\n"GBR 1",A,B\n\n', "GBR 2", {2: "B, C"}, b'\nSail,Boat,Helm\n"GBR 1",A,B\n\nGBR 2,,"B, C"\n'),
    # A row that is there is completed, whichever form its sail has there.
    (b'Sail,Boat,Note,Helm\ngbr 7,,"two\nlines"\n\n"GBR 8","H",x,y\n', "GBR 7", {1: "Sea Pink", 3: "J. Hale"},
     b'Sail,Boat,Note,Helm\ngbr 7,Sea Pink,"two\nlines",J. Hale\n\n"GBR 8","H",x,y\n'),
    (b"Sail;Boat;Helm\nGBR 1;A;B\nGBR 7;Sea Pink", "GBR7", {1: "Sea Pink", 2: "J; H"},
     b'Sail;Boat;Helm\nGBR 1;A;B\nGBR 7;Sea Pink;"J; H"\n'),
    (b"Sail,Boat\nGBR 1,A\n", "GBR1", {1: "A"}, b"Sail,Boat\nGBR 1,A\n")]
# Lists that can't be changed so, and what is said of them.
REFUSED: list[tuple[bytes, dict[int, str], str]] = [
    (b"Sail,Boat\nGBR 1,A\n", {1: "B"}, "has A as her Boat already"),
    (b"Sail,Boat\nGER 2,M\xf6we\n", {1: "Łódź"}, "CP1252, which hasn't the sign 'Ł'"),
    (b"Sail,Boat\nGER 2,M\x81\xf6we\n", {1: "A"}, "bytes that are no letters"),
    (b'Sail,Boat\nGER 2,"open\n', {1: "A"}, "add her there with an editor"),
    (b"Boat\nA\n", {0: "A"}, "No column of entries.csv has the heading Sail")]
# What is typed as the name of a boat, and the cell that it becomes
TYPED = [("USA4", '=1+1,"B"\r\nGBR 999,Ghost', "'=1+1,\"B\" GBR 999,Ghost"), ("ESP55", "A;-B", "A;'-B"),
         ("POR666", "\x1b[2J@A\u202e\u2028B\x00", "[2J@A B"), ("SWE7777", "+A", "'+A"), ("NOR88888", " - ", "'-")]

# What is no name, or no boat
ODD: list[dict[str, object]] = [
    {"name": 7}, {"name": ["A"]}, {"helm": None}, {"name": "A" * 81}, {"club": "YC"}, {"rating": "1"}, {"sail": ""},
    {"sail": "USA4\nUSA5"}, {"sail": {"a": "USA4"}}, {"sail": "=USA4"}, {"sail": "U" * 300}]


class Lists(unittest.TestCase):
    def test_forms(self) -> None:
        """A row is added, or completed, in the list's own form, and all else stays byte for byte."""
        for data, sail, cells, wanted in FORMS:
            changed = with_boat(data, "entries.csv", sail, cells)
            self.assertEqual(changed, wanted)
            self.assertEqual(with_boat(changed, "entries.csv", sail, cells), wanted)

    def test_refused(self) -> None:
        """What can't be changed in its own form isn't, nor what somebody has written there."""
        for data, cells, words in REFUSED:
            with self.assertRaises(NotSent) as caught:
                with_boat(data, "entries.csv", "GBR 1", cells)
            self.assertIn(words, str(caught.exception))


class Late(Web):
    def setUp(self) -> None:
        super().setUp()
        self.scorer = self.device("scorer", "Bea")

    def enter(self, sail: str = "USA4") -> None:
        kind = {"kind": "enter-unlisted", "values": {"sail": sail}}
        self.assertEqual(self.scorer.tap(f"ENTER {sail}", agreed=[kind])[1]["outcome"], "taken")

    def name(self, **values: object) -> tuple[int, Any]:
        given: dict[str, object] = {"sail": "usa 4", **values}
        return self.scorer.again().ask("POST", LISTED, given)

    def list(self) -> str:
        return self.text("cup", "entries.csv")

    def boat(self, sail: str = "USA4") -> Any:
        return next(boat for boat in self.scorer.state()["boats"] if boat[0] == sail)

    def board(self) -> str:
        return str(Device(self.port, "finish").ask("GET", "/cup/")[1])

    def test_late(self) -> None:
        """A boat that came late gets her row once she is entered, and only once; all pages show it."""
        self.assertEqual(self.scorer.ask("GET", LISTED)[1]["columns"], ["name", "helm"])
        self.assertEqual(self.name(name="Petrel")[0], 422)
        self.assertEqual(self.list(), LIST)
        self.enter()
        self.scorer.tap("FINISH 1 USA4")
        self.scorer.tap("SCORE 1", agreed=[{"kind": "score-missing", "values": {
            "race": 1, "sails": [boat[0].replace(" ", "") for boat in BOATS]}}])
        self.assertEqual((self.scorer.state()["unlisted"], self.boat()), (["USA4"], ["USA4", "", ""]))
        status, done = self.name(name="Petrel")
        self.assertEqual((status, done["changed"], self.list()), (200, True, f"{LIST}USA 4,Petrel,\n"))
        state = self.scorer.state()
        self.assertEqual((state["unlisted"], state["version"] >= done["version"], self.boat()), ([], True, ["USA4", "Petrel", ""]))
        helpers.until("her name on the board", lambda: "Petrel" in self.board())
        status, done = self.name(name="Petrel", helm="K. Dow")
        self.assertEqual((done["changed"], self.list()), (True, f"{LIST}USA 4,Petrel,K. Dow\n"))
        self.assertEqual((self.name(name="Petrel", helm="K. Dow")[1]["changed"], self.name(helm="L. Dow")[0]), (False, 422))
        self.assertEqual(self.list(), f"{LIST}USA 4,Petrel,K. Dow\n")
        logged = [line.split("\t")[2:] for line in self.text("cup", "office.log").splitlines() if "\tnamed\t" in line]
        self.assertEqual(logged, [["Bea", "", "", "named", "USA4; name = Petrel"],
                                  ["Bea", "", "", "named", "USA4; name = Petrel; helm = K. Dow"]])
        # Somebody's change with an editor is seen as well.
        self.write(self.list().replace("Petrel", "Storm Petrel"), "cup", "entries.csv")
        helpers.until("the other name", lambda: self.boat()[1] == "Storm Petrel")

    def test_corrected(self) -> None:
        """A name that is wrong is replaced if it is still the one that was shown, and no other cell is another."""
        self.assertEqual(self.scorer.ask("GET", LISTED)[1]["rows"]["GBR7"], {"name": BOATS[1][1], "helm": BOATS[1][2]})
        was = {"name": BOATS[1][1], "helm": BOATS[1][2]}
        status, said = self.name(sail="GBR 7", name="Sea Pinks")
        self.assertEqual((status, [one["kind"] for one in said["said"]], self.list()), (422, ["list-has"], LIST))
        self.assertEqual(self.name(sail="GBR 7", name="Sea Pinks", was={"name": "Kestrel"})[0], 422)
        self.assertEqual(self.name(sail="GBR 7", name="=1+1", helm="", was=was)[1]["changed"], True)
        wanted = LIST.replace(f"GBR 7,{BOATS[1][1]},{BOATS[1][2]}\n", "GBR 7,'=1+1,\n")
        self.assertEqual(self.list(), wanted)
        self.assertEqual(self.boat("GBR7")[1:], ["'=1+1", ""])
        for odd in ({"name": 7}, {"name": ["A"]}, "all", 7):
            self.assertIn(self.name(sail="GBR 7", name="A", was=odd)[0], (422,), odd)
        self.assertEqual(self.list(), wanted)

    def test_one_name_corrected(self) -> None:
        """A page sends what was changed alone, with all that it showed: her other names stay."""
        was = {"name": BOATS[1][1], "helm": BOATS[1][2]}
        self.assertEqual(self.name(sail="GBR 7", helm="J. Hales", was=was)[1]["changed"], True)
        wanted = LIST.replace(f"GBR 7,{BOATS[1][1]},{BOATS[1][2]}\n", f"GBR 7,{BOATS[1][1]},J. Hales\n")
        self.assertEqual(self.list(), wanted)

    def test_attacks(self) -> None:
        """What is typed is one cell, and no formula; what is no text, or too long, changes nothing."""
        self.enter()
        for odd in ODD:
            self.assertEqual(self.name(**odd)[0], 422, odd)
        for size, wanted in ((15 << 10, 422), (20 << 10, 413)):
            self.assertEqual(self.name(name="A" * size)[0], wanted)
        self.assertEqual(self.list(), LIST)
        for sail, typed, held in TYPED:
            if sail != "USA4":
                self.enter(sail)
            self.assertEqual(self.name(sail=sail, name=typed, helm="@H")[0], 200, typed)
            self.assertEqual(table_of(self.list().encode()).rows[-1][1], [sail, held, "'@H"])
        self.assertEqual(len(table_of(self.list().encode()).rows), len(BOATS) + len(TYPED))
        self.assertTrue(self.list().startswith(LIST))

    def test_closed(self) -> None:
        """A list that can't be read or written is said to be so, and stays; without an office nobody is named."""
        self.enter()
        self.write("Boat\nA\n", "cup", "entries.csv")
        self.assertEqual((self.scorer.ask("GET", LISTED)[0], self.name(name="A")[0]), (422, 422))
        self.assertEqual((self.list(), self.scorer.state()["unlisted"]), ("Boat\nA\n", []))
        os.remove(os.path.join(self.here, "cup", "entries.csv"))
        self.assertEqual(self.name(name="A")[0], 422)
        self.write(LIST, "cup", "entries.csv")
        self.scorer.ask("POST", "/office/scorer/close/cup", {})
        self.assertEqual((self.name(name="A")[0], self.list()), (503, LIST))


class Out(Web):
    """A boat that was entered by mistake."""

    def setUp(self) -> None:
        super().setUp()
        self.scorer = self.device("scorer", "Bea")

    def remove(self, sail: object = "USA4", *agreed: object) -> tuple[int, Any]:
        return self.scorer.again().ask("POST", "/office/scorer/remove/cup", {"sail": sail, "agreed": [*agreed]})

    def test_out(self) -> None:
        """All her entries go once somebody has agreed to them and to whom that moves: she was 1st, and GBR 7 is now."""
        self.scorer.tap("ENTER USA4", agreed=[{"kind": "enter-unlisted", "values": {"sail": "USA4"}}])
        for sail in ("USA4", "GBR7"):
            self.scorer.tap(f"FINISH 1 {sail}")
        others = [sail for boat in BOATS if (sail := boat[0].replace(" ", "")) != "GBR7"]
        self.scorer.tap("SCORE 1", agreed=[{"kind": "score-missing", "values": {"race": 1, "sails": others}}])
        before = self.text("cup", "journal.txt")
        status, said = self.remove()
        self.assertEqual((status, said["question"]["kind"]), (409, "remove-boat"))
        values = said["question"]["values"]
        self.assertEqual((values["sail"], values["lines"]), ("USA4", ["SCORER ENTER USA4", "SCORER FINISH 1 USA4"]))
        # GBR 7 was 2nd; of the others each had 14 points with the 13 entries, and has 13 without her (RRS A5.2).
        self.assertIn("GBR7 2 1 2.0 1.0", values["moves"])
        self.assertEqual({move.split(" ", 3)[3] for move in values["moves"]}, {"2.0 1.0", "14.0 13.0"})
        self.assertEqual(self.text("cup", "journal.txt"), before)
        # Another answer than to this question takes nothing out.
        self.assertEqual(self.remove("USA4", {"kind": "remove-boat", "values": {**values, "lines": []}})[0], 409)
        status, done = self.remove("usa 4", {"kind": "remove-boat", "values": values})
        self.assertEqual((status, done["open"]), (200, True), done)
        self.assertEqual(self.text("cup", done["copy"]), before)
        self.assertEqual(self.journal(), ["SCORER FINISH 1 GBR7", "SCORER SCORE 1"])
        helpers.until("the state", lambda: not self.scorer.again().state()["trouble"])
        state = self.scorer.state()
        self.assertNotIn("USA4", [boat[0] for boat in state["boats"]])
        self.assertEqual((state["standing"]["rows"][0]["sail"], state["standing"]["rows"][0]["net"]), ("GBR7", "1.0"))
        self.assertEqual(self.scorer.tap("FINISH 1 GBR101", agreed=[{"kind": "correction", "values": {"race": 1}}])[0], 200)
        self.assertIn("\tBea\t\t\tremoved USA4\t", self.text("cup", "office.log"))

    def test_tapped_before(self) -> None:
        """Entries have lower numbers since she went: what others have sent since a tap of before is asked about all the same."""
        ann, bob = self.device("finish", "Ann"), self.device("finish", "Bob")
        self.scorer.tap("ENTER USA4", agreed=[{"kind": "enter-unlisted", "values": {"sail": "USA4"}}])
        ann.tap("FINISH 1 USA4")
        seen, at, line = ann.state()["entries"], int(time.time() * 1000), "PENALTY 1 GBR7 ZFP"
        self.assertEqual(self.remove("USA4", self.remove()[1]["question"])[0], 200)
        helpers.until("the state", lambda: not self.scorer.again().state()["trouble"])
        self.assertEqual(bob.again().tap(line, seen=seen - 2)[0], 200)
        status, said = ann.again().tap(line, at=at, seen=seen)
        self.assertEqual((status, said["question"]["kind"]), (409, "sent-already"), said)
        self.assertEqual(self.journal(), [f"FINISH {line}"])

    def test_tapped_again(self) -> None:
        """A boat was placed by her and struck again, and these lines went with her: the same tap again gets the same answer, as its
        line was meant to go."""
        ann, id = self.device("finish", "Ann"), new_id()
        self.scorer.tap("ENTER USA4", agreed=[{"kind": "enter-unlisted", "values": {"sail": "USA4"}}])
        for line, own in (("FINISH 1 USA4", ""), ("TIE 1 GBR7 USA4", id), ("STRIKE 1 GBR7", "")):
            self.assertEqual(ann.tap(line, own)[0], 200)
        self.assertEqual(self.remove("USA4", self.remove()[1]["question"])[0], 200)
        helpers.until("the state", lambda: not self.scorer.again().state()["trouble"])
        self.assertEqual(self.journal(), [])
        status, said = ann.again().tap("TIE 1 GBR7 USA4", id=id)
        self.assertEqual((status, said.get("outcome")), (200, "taken"), said)
        self.assertEqual(self.journal(), [])

    def test_stays(self) -> None:
        """She stays if another boat was placed beside her, or if she isn't there; and only a scorer takes her out."""
        self.scorer.tap("FINISH 1 GBR7")
        self.scorer.tap("TIE 1 GBR101 GBR7")
        before = self.text("cup", "journal.txt")
        for sail, kind in [("GBR7", "removal-beside"), ("GBR999", "removal-absent"), ("", "removal-absent"), (7, "name-no-text")]:
            status, said = self.remove(sail)
            self.assertEqual((status, [one["kind"] for one in said["said"]]), (422, [kind]), said)
        self.assertEqual((self.device("jury").ask("POST", "/office/scorer/remove/cup", {"sail": "GBR33"})[0],
                          self.text("cup", "journal.txt")), (401, before))

    def test_journal_that_cannot_be_kept(self) -> None:
        """Where the office couldn't be opened again it isn't closed, and the page says why."""
        self.scorer.tap("ENTER USA4", agreed=[{"kind": "enter-unlisted", "values": {"sail": "USA4"}}])
        before, other = self.text("cup", "journal.txt"), os.path.join(self.here, "other")
        os.link(os.path.join(self.here, "cup", "journal.txt"), other)
        status, said = self.remove()
        if status == 409:
            status, said = self.remove("USA4", said["question"])
        os.remove(other)
        self.assertEqual((status, [one["kind"] for one in said["said"]]), (422, ["journal-linked"]), said)
        self.assertEqual(self.text("cup", "journal.txt"), before)
        self.assertEqual(self.scorer.again().tap("FINISH 1 GBR7")[0], 200)
        self.assertNotIn(" Closed.", self.said())

    def test_typing_window(self) -> None:
        """Somebody types meanwhile: that window waits for an office that is opened again at once, and says so. It ends when
        the office is closed for good."""
        self.scorer.tap("ENTER USA4", agreed=[{"kind": "enter-unlisted", "values": {"sail": "USA4"}}])
        window = self.client("cup", "--role", "finish")
        window.say("finish 1 101", "OK 14 .*\n> $")
        away = ("Beware: the office is being closed, and opened again at once. Waiting for the office; Ctrl-C ends this window.\n")
        self.assertEqual(self.remove("USA4", self.remove()[1]["question"])[0], 200)
        said = window.read("> $")
        self.assertIn(f"{away}The office is back with 13 entries.\nUSA4 was taken out meanwhile", said)
        window.say("finish 1 7", "OK 14 .*\n> $")
        self.assertEqual(self.scorer.again().ask("POST", "/office/scorer/reopen/cup", {})[0], 200)
        self.assertIn(f"{away}The office is back with 14 entries.\n", window.read("> $"))
        window.say("finish 1 12", "OK 15 .*\n> $")
        self.scorer.again().ask("POST", "/office/scorer/close/cup", {})
        said, status = window.rest()
        self.assertIn("The office is being closed: this window ends.", said)
        self.assertEqual(status, 0)


class OutAlone(helpers.Series):
    def test_nobody_opens(self) -> None:
        """While a boat is taken out neither a page nor a window can open the office: what it answered would be lost."""
        folder, taken = Folder(os.path.join(self.here, "cup")), []
        folder.make_private()
        office = KeptOffice(folder, lambda _: None)
        self.assertTrue(office.open(lambda _: True))
        self.addCleanup(self.stop, "cup")
        self.addCleanup(office.close)
        self.assertEqual(self.answer(folder, "SCORER", "ENTER XXX1")[:3], "OK ")
        opener = threading.Thread(target=office.open, args=(lambda _: True,))
        replace = remove_boat.replace

        def replaced(journal: Folder, data: bytes, by: str) -> str:
            window = Lock(journal)
            taken.append(window.is_taken())
            window.leave()
            opener.start()
            opener.join(0.3)
            taken.append(opener.is_alive())
            return replace(journal, data, by)
        with mock.patch.object(remove_boat, "replace", replaced):
            office.take_out("XXX1", "Bea", lambda _: True)
        opener.join(helpers.PATIENCE)
        self.assertEqual(taken, [True, True])
        self.assertEqual(self.answer(folder, "FINISH", "FINISH 1 GBR7")[:3], "OK ")
        self.assertIn("FINISH FINISH 1 GBR7", self.text("cup", "journal.txt"))
        self.assertNotIn("XXX1", self.text("cup", "journal.txt"))

    def test_place(self) -> None:
        """A boat was put into a kept place, and the crash came before that was noted: it is known also once another boat is
        taken out, whose entries were before hers."""
        folder, by = Folder(os.path.join(self.here, "cup")), Unread("?1", 1, frozenset())
        folder.make_private()
        lines = ["1 1 SCORER ENTER USA4", "1 2 SCORER ENTER GBR7", "2 1 FINISH FINISH 1 USA4", "2 2 FINISH FINISH 1 GBR7"]
        self.write("\n".join(["REGATTA 2", *lines, ""]), "cup", "journal.txt")
        places = Places(folder, "Ann")
        self.assertEqual(places.keep(Race(1, [["USA4"]]), "", 3), "?1")
        places.note_sent(by, "FINISH 1 GBR7", 3, None)
        with open(folder.journal, "rb") as file:
            held = file.read()
        about = {1: lines[0], 3: lines[2]}
        remove_boat.take_out(folder, remove_boat.Removal("USA4", held, about, remove_boat.without(held, {1, 3}), 4))
        self.assertEqual(folder.kept(), [lines[1], lines[3]])
        self.assertEqual(history_of(folder).waiting.all, ())

    def answer(self, folder: Folder, role: str, line: str) -> str:
        with contextlib.closing(folder.link()) as link:
            link.ask(f"ROLE {role}")
            return link.ask(line)


class Rated(Web):
    def prepare(self) -> None:
        self.write("Sail;TCF;TCF from 5;Club\nGBR 101;1,000;;YC\n", "cup", "entries.csv")
        self.write(settings.filled_in({"title": "Autumn Cup", "program": helpers.PROGRAM, "handicap": "yes"}), "cup", "series.ini")
        os.mkdir(os.path.join(self.here, "cup", "times"))
        self.write("[times]\nsystem = tcf\n", "cup", "times", "rules.ini")

    def test_rating(self) -> None:
        """A boat of a class by corrected time gets her rating, for the later races, too."""
        scorer = self.device("scorer")
        scorer.tap("ENTER USA4", agreed=[{"kind": "enter-unlisted", "values": {"sail": "USA4"}}])
        # A rating of several columns isn't one text.
        self.assertEqual(scorer.ask("GET", LISTED)[1], {"columns": ["club", "rating"], "rows": {"GBR101": {"club": "YC"}}})
        for rating, wanted in (("fast", 422), ("1.", 422), ("-1", 422), ("1050", 422), ("0,953", 200)):
            self.assertEqual(scorer.ask("POST", LISTED, {"sail": "USA 4", "rating": rating, "club": "SC"})[0], wanted, rating)
        self.assertEqual(self.text("cup", "entries.csv").splitlines()[-1], "USA 4;0.953;0.953;SC")


class Sticks(Web):
    """A web to which a file says what is mounted, with the folders of two accounts."""

    def prepare(self) -> None:
        self.account = os.path.join(self.here, "media", pwd.getpwuid(os.geteuid()).pw_name)
        self.stick, self.other = os.path.join(self.account, "STICK"), os.path.join(self.account, "A B")
        for path in (self.stick, self.other):
            os.makedirs(path)
        device = os.stat(self.here).st_dev
        disk = f"{os.major(device)}:{os.minor(device)}"
        rows = [("8:17", self.stick, "rw,nosuid"), (disk, f"{self.account}/A\\040B", "rw"), ("8:18", f"{self.account}/READ", "ro"),
                ("8:19", f"{self.here}/media/eve/STICK", "rw"), ("8:20", f"{self.account}/A\\012B", "rw"),
                ("8:1", "/", "rw"), ("8:21", f"{self.account}/STICK/deeper", "rw")]
        self.write("".join(f"36 25 {device} / {path} {how} shared:1 - vfat /dev/sdb rw\n" for device, path, how in rows), "mounts")
        begin = ("import sys, raceoffice.system as system\n"
                 f"system.MOUNTS, system.STICKS = {self.here + '/mounts'!r}, ({self.here + '/media'!r},)\n"
                 "from raceoffice.cli import main\nsys.exit(main(sys.argv[1:]))")
        patch = mock.patch.object(helpers, "COMMAND", [sys.executable, "-c", begin])
        patch.start()
        self.addCleanup(patch.stop)

    def setUp(self) -> None:
        super().setUp()
        self.scorer = self.device("scorer", "Bea")

    def choose(self, path: object) -> tuple[int, Any]:
        return self.scorer.again().ask("POST", "/office/scorer/second/cup", {"path": path})

    def copies(self) -> Any:
        return self.scorer.again().ask("GET", "/office/scorer/results/cup")[1]["copies"]

    def copied(self, stick: str) -> str:
        """The copy of the journal on a stick."""
        path = os.path.join(stick, "cup-journal.txt")
        return self.text(path) if os.path.exists(path) else ""

    def test_choose(self) -> None:
        """A stick that is chosen has the journal without the office being opened again; the next one takes its place;
        and no other folder can be chosen."""
        ini = self.text("cup", "series.ini")
        found = self.copies()
        self.assertEqual((found["second"], found["chosen"], found["sticks"]), (None, "", [
            {"path": self.other, "is_same_disk": True}, {"path": self.stick, "is_same_disk": False}]))
        for odd in (self.here, "/etc", "/", f"{self.stick}/", f"{self.stick}/..", f"{self.account}/READ", f"{self.account}/A\nB",
                    f"{self.here}/media/eve/STICK", f"{self.stick}/deeper", None, 7, [self.stick], {"a": 1}):
            self.assertEqual(self.choose(odd)[0], 422, odd)
        self.assertEqual(self.text("cup", "series.ini"), ini)
        status, found = self.choose(self.stick)
        self.assertEqual((status, found["copies"]["chosen"], found["copies"]["is_waiting"]), (200, self.stick, False))
        self.assertEqual(self.text("cup", "series.ini"), ini.replace("\ncopy = \n", f"\ncopy = {self.stick}\n"))
        self.scorer.tap("FINISH 1 GBR7")
        self.scorer.tap("? 1")
        helpers.until("the copy", lambda: self.copied(self.stick) == self.text("cup", "journal.txt"))
        helpers.until("the places", lambda: os.path.exists(os.path.join(self.stick, "cup-places")))
        helpers.until("what is shown", lambda: self.copies()["second"]["entries"] == len(BOATS) + 1)
        self.assertEqual((self.copies()["second"]["path"], self.copies()["second"]["is_same_disk"]), (self.stick, True))
        held = self.copied(self.stick)
        self.assertEqual(self.choose(self.other)[0], 200)
        self.scorer.tap("FINISH 1 GBR33")
        helpers.until("the other copy", lambda: self.copied(self.other) == self.text("cup", "journal.txt"))
        self.assertEqual(self.copied(self.stick), held)
        self.assertEqual((self.choose("")[0], self.copies()["second"], self.copies()["chosen"]), (200, None, ""))
        self.assertEqual((self.text("cup", "series.ini"), self.said().count("No second copy")), (ini, 0))
        self.check_other_window()

    def check_other_window(self) -> None:
        """An office that a window keeps takes it up when that opens it again."""
        self.close()
        window = self.open()
        self.serve()
        self.scorer = self.scorer.again()
        status, found = self.choose(self.stick)
        self.assertEqual((status, found["copies"]["is_waiting"], found["copies"]["second"]), (200, True, None))
        self.assertIn(f"copy = {self.stick}\n", self.text("cup", "series.ini"))
        self.close()
        window.press()
        # The place that was kept is asked about.
        window.read(r"\[y/N\] $")
        window.type("y")
        self.assertEqual(window.rest()[1], 0)


class Beside(Web):
    def prepare(self) -> None:
        for name, state in (("spring", "final"), ("summer", "amended"), ("winter", "lost")):
            self.make(name)
            self.write(list_of(BOATS[:3]), name, "entries.csv")
            self.write(settings.filled_in({"title": f"The {name} cup", "program": helpers.PROGRAM, "state": state}),
                       name, "series.ini")
        self.write("no series", "notes.txt")
        os.mkdir(os.path.join(self.here, "empty"))

    def test_final(self) -> None:
        """A series that is final is opened from the page, as it is; no other folder is."""
        scorer = self.device("scorer", "Bea")

        def serve(name: object) -> tuple[int, Any]:
            return scorer.again().ask("POST", "/office/scorer/serve", {"name": name})

        def beside() -> list[str]:
            return [one["name"] for one in scorer.again().ask("GET", "/office/scorer/devices")[1]["beside"]]

        for odd in ("cup", "winter", "empty", "notes.txt", "", ".", "..", "../spring", "spring/", f"{self.here}/spring", None, 7,
                    ["spring"]):
            self.assertEqual(serve(odd)[0], 422, odd)
        self.assertEqual((beside(), [one["class"] for one in scorer.ask("GET", "/office/scorer/me")[1]["classes"]]),
                         (["spring", "summer"], ["cup"]))
        status, done = serve("spring")
        self.assertEqual((status, done["class"], done["open"], beside()), (200, "spring", True, ["summer"]), done)
        self.assertEqual((serve("spring")[0], scorer.tap("FINISH 1 GBR7", name="spring")[0]), (422, 200))
        self.assertIn("state = final\n", self.text("spring", "series.ini"))

    def test_rules_that_wait(self) -> None:
        """A series whose rules are others than at its last opening stays closed until somebody has answered."""
        window = self.open("spring")
        self.client("spring", "--role", "finish").say("finish 1 7", "1st in race 1")
        window.process.terminate()
        window.rest()
        self.write(re.sub(r"(?m)^exclude = .*$", "exclude = none", self.text("spring", "series.ini")), "spring", "series.ini")
        scorer = self.device("scorer", "Bea")
        status, done = scorer.ask("POST", "/office/scorer/serve", {"name": "spring"})
        self.assertEqual((status, done["class"], done["open"]), (200, "spring", False), done)
        self.assertEqual(done["said"][-1]["kind"], "office-waits")
        self.assertFalse(helpers.is_listening(os.path.join(self.here, "spring", "office", "race.sock")))
        status, asked = scorer.again().ask("POST", "/office/scorer/open/spring", {})
        self.assertEqual((status, asked["question"]["kind"]), (409, "new-rules"), asked)
        status, done = scorer.again().ask("POST", "/office/scorer/open/spring", {"agreed": [asked["question"]]})
        self.assertEqual((status, done["open"]), (200, True), done)


if __name__ == "__main__":
    unittest.main()
