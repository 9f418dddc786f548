"""The second folder has the places of finishers without a sail, so that they outlive a disk."""
from __future__ import annotations

import os
import shutil
import unittest

import helpers
from raceoffice.program.journal import Race
from raceoffice.series.folder import Folder
from raceoffice.series.kept_places import Places
from raceoffice.series.second_folder import answered

# Bytes of a copy that are read at most.
LARGEST = 4 << 20
PLACES = ("cup", "office", "places")
COPY = ("stick", "cup-places")


class Copies(helpers.Series):
    def setUp(self) -> None:
        super().setUp()
        os.mkdir(os.path.join(self.here, "stick"))
        self.write(self.text("cup", "series.ini").replace("copy = ", "copy = ../stick"), "cup", "series.ini")

    def copied(self) -> bool:
        """Whether the second folder has the places."""
        return os.path.exists(os.path.join(self.here, *COPY)) and self.text(*COPY) == self.text(*PLACES)

    def lose(self, window: helpers.Terminal) -> None:
        """Kills an office, and loses all that it wrote on the disk of its series."""
        window.process.kill()
        window.process.wait()
        self.stop("cup")
        for name in ("office", "kept"):
            shutil.rmtree(os.path.join(self.here, "cup", name))
        os.remove(os.path.join(self.here, "cup", "journal.txt"))

    def lose_with_a_place(self) -> None:
        """An office of nine entries, and the first of two places, are copied and then lost."""
        window, finish = self.open(), self.client("cup", "--role", "finish")
        self.play(finish, """
> at 1
> 101
> ?
   ?1 keeps her place.
> ?
   ?2 keeps her place.
> ?2 none
> 12
""")
        helpers.until("the copies", lambda: self.copied() and self.held("stick", "cup-journal.txt") == 9)
        finish.type("quit")
        finish.rest()
        self.lose(window)

    def test_restored(self) -> None:
        """A series that is restored from the second folder knows who is without a sail, and where."""
        self.lose_with_a_place()
        window = self.window("open", "cup")
        self.addCleanup(self.stop, "cup")
        window.read(r"\.\./stick/cup-journal\.txt has 9\. Use it\? \[y/N\] $")
        window.say("y", r"\nKept without a sail: \?1 in race 1\.\n(.|\n)*The office is open")
        finish = self.client("cup", "--role", "finish")
        self.play(finish, """
> at 1
> ?1 33
   BEFORE 1 GBR33 NED12
""")
        helpers.until("the copies", self.copied)
        window.press()
        window.read(r"Close the office\? \[y/N\] $")
        window.type("y")
        self.assertEqual(window.rest()[1], 0)

    def test_put_back_by_hand(self) -> None:
        """If somebody has put the copy of the journal back, its places come with it."""
        self.lose_with_a_place()
        shutil.copy(os.path.join(self.here, "stick", "cup-journal.txt"),
                    os.path.join(self.here, "cup", "journal.txt"))
        window = self.window("open", "cup")
        self.addCleanup(self.stop, "cup")
        said = window.read("The office is open")
        self.assertRegex(said, r"are taken up from the second folder\.\n(.|\n)*Kept without a sail: \?1 in race 1")
        self.assertNotIn("No second copy", said)
        self.assertEqual(self.text(*PLACES), self.text(*COPY))

    def test_no_copy(self) -> None:
        """A file that is too long to be a copy is read no further, and one that is no plain file not at all."""
        path = os.path.join(self.here, *COPY)
        for size, fault in [(LARGEST, ""), (LARGEST + 1, f"{path} is longer than 4,194,304 bytes")]:
            with open(path, "wb") as file:
                file.truncate(size)
            answer = answered("read", path, "")
            self.assertEqual((answer.fault, len(answer.text)), (fault, 0 if fault else size))
        self.assertEqual(answered("save", path, "x").fault, f"{path} is longer than 4,194,304 bytes")
        os.remove(path)
        os.mkfifo(path)
        self.assertEqual(answered("read", path, "").fault, f"{path} is no plain file")

    def test_prepared_stick(self) -> None:
        """A link that somebody has put on the stick leads nowhere: what it names stays, and the copy takes its place."""
        path, other = os.path.join(self.here, *COPY), os.path.join(self.here, "own.txt")
        for what, before in (("save", ""), ("replace", "my own words\n")):
            self.write(before, "own.txt")
            os.symlink(other, path)
            self.assertEqual(answered(what, path, "x\n").fault, "")
            self.assertEqual((self.text("own.txt"), os.path.islink(path), self.text(*COPY)), (before, False, "x\n"))
            os.remove(path)

    def test_of_another(self) -> None:
        """Places that go on otherwise than these are left on the second disk, and it is said; those of
        another series are no part of what is restored."""
        self.write("{}\n", *COPY)
        window = self.open()
        window.process.kill()
        window.process.wait()
        self.stop("cup")
        self.assertEqual(self.text(*COPY), "{}\n")
        Places(Folder(os.path.join(self.here, "cup"))).keep(Race(1), "", 7)
        window = self.window("open", "cup")
        self.addCleanup(self.stop, "cup")
        window.read(r"No second copy: .*/stick/cup-places holds lines that the office doesn't have\. It is "
                    r"left as")
        self.lose(window)
        self.write("REGATTA 2\n1 1 SCORER ENTER OTHER\n", "stick", "cup-journal.txt")
        with self.subTest("another journal"):
            os.mkdir(os.path.join(self.here, "cup", "kept"))
            self.write("REGATTA 2\n1 1 SCORER ENTER A\n1 2 SCORER ENTER B\n", "cup", "kept",
                       "2026-05-01-100000Z.txt")
            window = self.window("open", "cup")
            window.read(r"Use it\? \[y/N\] $")
            window.say("y", "The office is open")
            self.assertFalse(os.path.exists(os.path.join(self.here, *PLACES)))


if __name__ == "__main__":
    unittest.main()
