"""A journal that isn't what the office had is asked about when it is opened: an old file, an edited line, a
flipped bit, a line that was deleted."""
from __future__ import annotations

import json
import os
import random
import re
import shutil
import time
import unittest
from collections.abc import Iterator
from unittest import mock

import helpers
from raceoffice.errors import Trouble
from raceoffice.office.backups import Backups
from raceoffice.program.journal import Race
from raceoffice.program.link import Link, Sheet
from raceoffice.series.continuity import difference, difference_of_places
from raceoffice.series.copies import newest
from raceoffice.series.folder import Folder
from raceoffice.series.kept_places import Places, command_of
from raceoffice.series.second_folder import Second

SEED, FLIPS = 63, 200
LINES = ["FINISH 1 GBR101", "FINISH 1 GBR7", "TIE 1 NED12 GBR7", "MARK 1 FRA9 DNF", "SCORE 1",
         "PENALTY 1 IRL5 ZFP",
         "FINISH 2 IRL55", "BEFORE 2 GBR7 IRL55", "ROLE JURY", "REDRESS 1 GBR33 2.5", "MARK 2 NED12 DSQ"]
ASKED = "Open the office all the same? [y/N] "


def flipped(data: bytes, bit: int) -> bytes:
    """A file with one bit turned over."""
    at = bit // 8
    return data[:at] + bytes([data[at] ^ 1 << bit % 8]) + data[at + 1:]


def changed_lines(data: bytes) -> Iterator[tuple[str, bytes]]:
    """A journal with one line, or its end, changed by hand."""
    lines = data.splitlines(keepends=True)
    for at, line in enumerate(lines):
        yield f"without line {at}", b"".join(lines[:at] + lines[at + 1:])
        yield f"line {at} with CR", b"".join(lines[:at] + [line[:-1] + b"\r\n"] + lines[at + 1:])
    for at in range(1, len(lines) - 1):
        yield f"line {at} twice", b"".join(lines[:at + 1] + lines[at:])
        yield f"line {at} moved", b"".join(lines[:at] + [lines[at + 1], lines[at]] + lines[at + 2:])
        yield f"up to line {at}", b"".join(lines[:at + 1])
    yield "edited", data.replace(b"FINISH 1 GBR7\n", b"FINISH 2 GBR7\n")
    yield "in small letters", data.lower()
    yield "without the version", b"".join(lines[1:])


class Continuity(helpers.Series):
    def setUp(self) -> None:
        super().setUp()
        window = self.open()
        with Link(self.file("office", "race.sock")).socket as sock:
            sock.sendall("".join(f"{line}\n" for line in LINES).encode())
            while sock.recv(4096).count(b"\n") and self.held() < 17:
                pass
        window.press()
        self.assertEqual(window.rest()[1], 0)
        with open(self.file("journal.txt"), "rb") as file:
            self.data = file.read()
        self.folder = Folder(os.path.join(self.here, "cup"))

    def file(self, *names: str) -> str:
        return os.path.join(self.here, "cup", *names)

    def put(self, data: bytes) -> None:
        with open(self.file("journal.txt"), "wb") as file:
            file.write(data)

    def is_seen(self, data: bytes) -> bool:
        """Whether an opening asks about this journal, or refuses it as damaged."""
        self.put(data)
        try:
            return difference(self.folder) != ""
        except Trouble:
            return True

    def forget_copies(self) -> None:
        shutil.rmtree(self.file("kept"))

    def test_each_change(self) -> None:
        """With the copies, and by the note in the log alone."""
        flips = random.Random(SEED).sample(range(8 * len(self.data)), FLIPS)
        for forget in (lambda: None, self.forget_copies):
            forget()
            self.assertFalse(self.is_seen(self.data))
            self.assertFalse(self.is_seen(self.data + b"2 12 SCORER UNSCORE 1\n"))
            self.assertFalse(self.is_seen(self.data + b"2 12 SCO"))
            for bit in flips:
                self.assertTrue(self.is_seen(flipped(self.data, bit)), bit)
            for name, data in changed_lines(self.data):
                self.assertTrue(self.is_seen(data), name)

    def test_second_copy(self) -> None:
        """A folder that is restored whole is older than the copy on the stick."""
        os.mkdir(os.path.join(self.here, "stick"))
        self.write(self.text("cup", "series.ini").replace("copy = ", "copy = ../stick"), "cup", "series.ini")
        folder, copy = Folder(os.path.join(self.here, "cup")), os.path.join(self.here, "stick", "cup-journal.txt")
        more = b"2 12 SCORER UNSCORE 1\n2 13 SCORER SCORE 1\n"
        for data, is_asked in [(self.data, False), (self.data[:self.data.rindex(b"\n", 0, -1) + 1], False),
                               (self.data + more, True), (self.data.replace(b"REGATTA 2\n", b"") + more, True)]:
            with open(copy, "wb") as file:
                file.write(data)
            self.assertEqual(difference(folder) != "", is_asked)
        self.assertRegex(difference(folder), r"It has 17 entries, and .*/stick/cup-journal\.txt has 19\. 2 of these aren't "
                         r"in journal\.txt at their place, first entry 18:\n   2 12 SCORER UNSCORE 1   in the copy\n"
                         r"   nothing   in journal\.txt\n")
        with mock.patch.object(Second, "answer", return_value=None):
            self.assertEqual(difference(folder), "")
        said, status = helpers.run("check", "cup", cwd=self.here)
        self.assertIn("can be opened if somebody agrees", said)
        self.assertEqual(status, 1)

    def test_boat_taken_out_without_the_stick(self) -> None:
        """A stick that was out meanwhile has that boat's lines still: nobody is asked, and it gets the shorter journal.
        One that has more, or was written later, stays as it is."""
        os.mkdir(os.path.join(self.here, "stick"))
        self.write(self.text("cup", "series.ini").replace("copy = ", "copy = ../stick"), "cup", "series.ini")
        folder, copy = Folder(os.path.join(self.here, "cup")), os.path.join(self.here, "stick", "cup-journal.txt")
        hers, more, now = b"2 12 SCORER ENTER USA4\n", b"2 13 SCORER FINISH 3 GBR7\n", time.time()
        early = self.data.replace(b"2 1 SCORER", hers + b"2 1 SCORER")
        folder.log("", "", "", "removed USA4", "17 entries")
        sheet = Sheet(tuple(self.data.decode().splitlines()[1:]), ())
        for data, written, is_older in [(self.data + hers, now - 60, True), (early, now - 60, True),
                                        (self.data + hers, now + 60, False), (self.data + hers + more, now - 60, False),
                                        (self.data + more, now - 60, False)]:
            with open(copy, "wb") as file:
                file.write(data)
            os.utime(copy, (written, written))
            self.assertEqual(difference(folder) == "", is_older)
            backups = Backups(folder)
            backups.copy(sheet)
            backups.second.close()
            with open(copy, "rb") as file:
                self.assertEqual((file.read(), backups.trouble == ""), (self.data if is_older else data, is_older))

    def test_words(self) -> None:
        """What differs: how many entries, and the first."""
        self.put(self.data.replace(b"SCORER FINISH 1 GBR7\n", b"SCORER FINISH 2 GBR7\n"))
        size = (r"journal\.txt isn't what the office had\. It has 17 entries, and "
                r"kept/.*Z(-[0-9]+)?\.txt has 17\. ")
        self.assertRegex(difference(self.folder), size + r"One of these isn't in journal\.txt at its place, "
                         r"entry 9:\n   2 2 SCORER FINISH 1 GBR7   in the copy\n   2 2 SCORER FINISH 2 GBR7  "
                         r" in journal\.txt\nIf nobody meant that, ")
        self.put(b"".join(self.data.splitlines(keepends=True)[:10]))
        self.assertRegex(difference(self.folder), r"It has 9 entries, and kept/.*Z(-[0-9]+)?\.txt has 17\. "
                         r"8 of these aren't in journal\.txt at their place, first entry 10:\n(.|\n)*nothing "
                         r"  in "
                         "journal")
        self.put(self.data.replace(b"REGATTA", b"regatta"))
        self.assertRegex(difference(self.folder), size + "Its first line is regatta 2, and that of the copy "
                         "REGATTA 2")
        self.put(self.data.replace(b"2 2 SCORER", b"2 2 \x1b[2KRER"))
        self.assertIn("2 2 ?[2KRER FINISH 1 GBR7   in journal.txt\n", difference(self.folder))
        self.forget_copies()
        self.put(self.data[:-len(self.data.splitlines()[-1]) - 1])
        self.assertEqual(difference(self.folder),
                         "journal.txt isn't what the office had. It has 16 entries. When "
                         "the office was closed, it had 17, and no copy in kept/ has the others.")
        self.put(self.data.lower())
        self.assertEqual(difference(self.folder),
                         "journal.txt isn't what the office had. It has 17 entries. When "
                         "the office was closed, it had 17, and these aren't the same. No copy in kept/ "
                         "shows which differs.")

    def test_opening_asks(self) -> None:
        """Without a yes nothing is opened; after it the journal is what the office has."""
        dice = random.Random(SEED)
        for name, data in dice.sample([*changed_lines(self.data)], 3):
            self.put(data)
            said, status = helpers.run("open", "cup", cwd=self.here)
            self.assertTrue("Nothing was opened." in said and status == 1, (name, said))
            self.assertFalse(os.path.exists(self.file("office", "race.sock")))
        changed = self.data.replace(b"SCORER FINISH 1 GBR7\n",
                                    b"SCORER FINISH 3 GBR7\n").replace(b"TIE 1", b"TIE 3")
        self.put(changed)
        window = self.window("open", "cup")
        said = window.read(r"\[y/N\] $")
        self.assertTrue(said.startswith("journal.txt isn't") and said.endswith(ASKED), said)
        window.say("y", "The office is open")
        window.press()
        self.assertEqual(window.rest()[1], 0)
        self.assertEqual(difference(self.folder), "")
        self.open().press()

    def test_copy_that_rots(self) -> None:
        """A copy that was changed, or can't be read, is asked about, too."""
        found = newest(self.folder)
        assert found
        name = os.path.basename(found.name)
        with open(self.file("kept", name), "wb") as file:
            file.write(self.data.replace(b"SCORE 1", b"SCORE 2"))
        self.assertIn("One of these isn't in journal.txt at its place", difference(self.folder))
        os.remove(self.file("kept", name))
        os.mkfifo(self.file("kept", name))
        self.assertEqual(difference(self.folder), "Nobody knows whether journal.txt is what the office had: "
                         f"kept/{name} is no plain file.")
        os.remove(self.file("kept", name))
        os.mkdir(self.file("kept", name))
        self.assertEqual(difference(self.folder), "Nobody knows whether journal.txt is what the office had: "
                         f"kept/{name} can't be read: Is a directory.")

    def test_odd_copies(self) -> None:
        """What isn't named by a moment is no copy; if kept/ can't be read, nobody knows."""
        before = newest(self.folder)
        for name in ("2099-13-01-101010Z.txt", "2099-01-01-106010Z.txt", "0000-01-01-101010.txt", "2099.txt",
                     "2099-01-01-101010Z.txt.new"):
            with open(self.file("kept", name), "wb") as file:
                file.write(b"x")
        self.assertEqual(newest(self.folder), before)
        with mock.patch("os.listdir", side_effect=PermissionError(13, "Permission denied")):
            self.assertEqual(difference(self.folder), "Nobody knows whether journal.txt is what the office "
                             "had: kept/ can't be read: Permission denied.")

    def test_older_tools(self) -> None:
        """Notes without a sum, and copies named by the time of this computer, are read as well."""
        shutil.rmtree(self.file("kept"))
        log = self.text("cup", "office.log")
        older = re.sub(r" [0-9a-f]{16}, \w+ lines? of places [0-9a-f]{16}$", "", log, flags=re.MULTILINE)
        self.assertNotEqual(older, log)
        self.write(older, "cup", "office.log")
        self.assertFalse(self.is_seen(self.data.lower()))
        self.assertTrue(self.is_seen(self.data[:-20]))
        os.mkdir(self.file("kept"))
        with open(self.file("kept", "2026-11-28-101010.txt"), "wb") as file:
            file.write(self.data)
        self.assertTrue(self.is_seen(self.data.lower()))

    def test_removed(self) -> None:
        """After a boat was taken out, her journal is the older one."""
        said, status = helpers.run("remove", "cup", "IRL55", lines="y\n", cwd=self.here)
        self.assertEqual(status, 1, said)
        said, status = helpers.run("remove", "cup", "IRL5", lines="y\n", cwd=self.here)
        self.assertEqual(status, 0, said)
        self.assertEqual(difference(self.folder), "")
        self.assertTrue(self.is_seen(self.data))

    def test_restored(self) -> None:
        """A copy that became the journal again is what the office has."""
        found = newest(self.folder)
        assert found
        os.remove(self.file(found.name))
        os.remove(self.file("journal.txt"))
        window = self.window("open", "cup")
        window.read(r"the series had 17 entries\. kept/.* has 7\. Use it\? \[y/N\] $")
        window.say("y", "The office is open")
        self.addCleanup(self.stop, "cup")
        window.press()
        window.rest()
        self.assertEqual((difference(self.folder), self.held()), ("", 7))
        self.assertIn("\trestored\t7 entries ", self.text("cup", "office.log"))

    def test_added(self) -> None:
        """What was added after the office was closed is said, and keeps nobody from opening."""
        self.assertNotIn("more than", helpers.run("check", "cup", cwd=self.here)[0])
        self.put(self.data + b"2 12 SCORER FINISH 3 GBR7\n")
        said, status = helpers.run("check", "cup", cwd=self.here)
        self.assertIn("journal.txt has 18 entries, 1 more than when the office was closed: it was kept "
                      "without raceoffice, or somebody has added to it.\n", said)
        self.assertEqual(status, 0)


class PlacesOfAClosedOffice(helpers.Series):
    """office/places that isn't what the office had is asked about like the journal."""

    def setUp(self) -> None:
        super().setUp()
        self.folder = Folder(os.path.join(self.here, "cup"))
        self.path = self.folder.file("office", "places")
        window = self.open()
        for _ in range(3):
            Places(self.folder, "Ann").keep(Race(1), "", 7)
        window.press()
        window.read(r"Close the office\? \[y/N\] $")
        window.type("y")
        self.assertEqual(window.rest()[1], 0)
        with open(self.path, "rb") as file:
            self.lines = file.readlines()

    def put(self, *lines: bytes) -> str:
        """How a file with these lines differs from what the office had."""
        with open(self.path, "wb") as file:
            file.write(b"".join(lines))
        return difference_of_places(self.folder)

    def test_each_change(self) -> None:
        self.assertRegex(self.folder.logged()[-1].answer,
                         "^7 entries [0-9a-f]{16}, 3 lines of places [0-9a-f]{16}$")
        first, second, third = self.lines
        had = "office/places isn't what the office had. It has {}. When the office was closed, it had 3{}. A " \
              "finisher without a sail may be missing."
        same = ", and these aren't the same"
        for lines, held, more in [
                ((), "no lines", ""), ((first, second), "2 lines", ""), ((second, third), "2 lines", ""),
                ((first, second, third[:-1]), "2 lines", ""), ((first, third, second), "3 lines", same),
                ((first, second.replace(b"?2", b"?4"), third), "3 lines", same),
                ((first, first, second, third), "4 lines", same), ((b"\n", first, second, third), "4 lines", same)]:
            self.assertEqual(self.put(*lines), had.format(held, more), lines)
        # A window that was killed may have noted something when the office was gone.
        self.assertEqual((self.put(*self.lines), self.put(*self.lines, third), self.put(*self.lines, b"{")),
                         ("", "", ""))
        os.remove(self.path)
        self.assertEqual(difference_of_places(self.folder), had.format("no lines", ""))
        os.mkdir(self.path)
        self.assertRegex(difference_of_places(self.folder), "^Nobody knows whether office/places is what the")

    def test_older_notes(self) -> None:
        """Notes of a version that noted no places, and a log that was lost, say nothing of them."""
        log = self.text("cup", "office.log")
        self.write(re.sub(r", \w+ lines? of places \w+", "", log), "cup", "office.log")
        self.assertEqual(self.put(), "")
        os.remove(self.folder.file("office.log"))
        self.assertEqual(self.put(), "")

    def test_opening_asks(self) -> None:
        """Without a yes nothing is opened. After it the file is what the office has."""
        self.put(*self.lines[1:])
        said, status = helpers.run("check", "cup", cwd=self.here)
        self.assertIn("office/places isn't what the office had. It has 2 lines.", said)
        self.assertEqual(status, 1)
        said, status = helpers.run("open", "cup", lines="\n", cwd=self.here)
        self.assertIn(f"may be missing.\n{ASKED}", said)
        self.assertTrue("Nothing was opened." in said and status == 1, said)
        window = self.window("open", "cup")
        self.addCleanup(self.stop, "cup")
        window.read(r"\[y/N\] $")
        window.say("y", "The office is open")
        self.assertEqual(difference_of_places(self.folder), "")

    def test_changed_while_open(self) -> None:
        """Whoever closes the office is asked about the places that it had, whatever became of the file just then;
        and they are noted at its end."""
        window = self.open()
        os.remove(self.path)
        window.press()
        said = window.read(r"Close the office\? \[y/N\] $")
        window.type("y")
        said += window.rest()[0]
        self.assertIn("3 lines that it had are there again.", said)
        with open(self.path, "rb") as file:
            self.assertEqual(file.readlines(), self.lines)

    def test_unreadable(self) -> None:
        """Whatever lies where the places should be, a boat is taken out, a copy becomes the journal again, and
        both are noted."""
        os.remove(self.path)
        os.mkdir(self.path)
        said, status = helpers.run("remove", "cup", "IRL5", lines="y\n", cwd=self.here)
        self.assertEqual(status, 0, said)
        self.assertRegex(self.folder.logged()[-1].answer, "^6 entries [0-9a-f]{16}$")
        os.remove(self.folder.journal)
        window = self.window("open", "cup")
        window.read(r"Use it\? \[y/N\] $")
        window.type("y")
        # Nobody opens an office that couldn't keep a place.
        self.assertIn("office/places can't be read: it isn't a plain file.", window.rest()[0])
        self.assertEqual([entry.answer[:9] for entry in self.folder.logged() if entry.line == "restored"],
                         ["6 entries"])

    def test_boat_that_stayed(self) -> None:
        """A kill came after the note that a boat is taken out: the opening notes that she is there still."""
        journal = [command_of(line) for line in self.folder.kept()]
        places = Places(self.folder, "Ann")
        places.note_taken_out("IRL5", [journal.index("ENTER IRL5") + 1], journal, len(journal))
        self.assertNotEqual(places.read().kept, places.read(journal).kept)
        self.open()
        self.assertEqual(json.loads(places.lines()[-1])["what"], "back")
        self.assertEqual(places.read().kept, places.read(journal).kept)

    def test_removed_boat(self) -> None:
        """After a boat was taken out, the places are what they were."""
        said, status = helpers.run("remove", "cup", "IRL5", lines="y\n", cwd=self.here)
        self.assertEqual((status, difference_of_places(self.folder)), (0, ""), said)
        self.assertNotEqual(self.put(), "")


if __name__ == "__main__":
    unittest.main()
