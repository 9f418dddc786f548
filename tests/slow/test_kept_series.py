"""A series whose journal the program keeps: what the package says and does with journal.txt as a crash, an
editor or another office may have left it."""
from __future__ import annotations

import os
import shutil
import unittest

import helpers
import test_keep
from raceoffice.program.link import Link

VERSION = "REGATTA 2\n"
GOOD = "1 1 SCORER ENTER GBR7\n1 2 SCORER ENTER GBR101\n"


class Kept(helpers.Series):
    def journal(self, *more: str) -> str:
        return os.path.join(self.here, "cup", "journal.txt" + "".join(more))

    def put(self, text: str) -> None:
        with open(self.journal(), "w", encoding="ascii", newline="") as file:
            file.write(text)

    def forget(self) -> None:
        """Removes what the package knows of the journal."""
        shutil.rmtree(os.path.join(self.here, "cup", "kept"), ignore_errors=True)
        with open(os.path.join(self.here, "cup", "office.log"), "w"):
            pass

    def send(self, line: str) -> str:
        link = Link(os.path.join(self.here, "cup", "office", "race.sock"))
        self.addCleanup(link.close)
        return link.ask(line)

    def run_series(self, *words: str) -> tuple[str, int]:
        return helpers.run(*words, cwd=self.here)

    def test_nobody_else_writes(self) -> None:
        """While the office is open, journal.txt stays the file that it opened, and has each answer."""
        window = self.open()
        file = os.stat(self.journal()).st_ino
        for number, line in enumerate(["FINISH 1 GBR101", "FINISH 1 GBR7", "SCORE 1"], 8):
            self.assertTrue(self.send(line).startswith(f"OK {number}"))
            self.assertTrue(self.text("cup", "journal.txt").endswith(f" SCORER {line}\n"))
        window.press()
        self.assertEqual(window.rest()[1], 0)
        self.assertEqual(os.stat(self.journal()).st_ino, file)

    def test_older_journals(self) -> None:
        """A journal without a version, or written by hand, goes on as it is."""
        for text in (GOOD, "regatta 2\r\n01 1 scorer  enter gbr7\r\n1 2 SCORER ENTER GBR101\r\n"):
            self.forget()
            self.put(text)
            window = self.open()
            self.assertEqual(self.send("FINISH 1 GBR7"), "OK 3 1= 0.0")
            window.press()
            said, status = window.rest()
            self.assertIn("Closed. journal.txt has 3 entries, and so has kept/", said)
            self.assertEqual((said.count("Beware"), status), (0, 0))
            with open(self.journal(), encoding="ascii", newline="") as file:
                # The office's window has the first seat.
                self.assertEqual(file.read(), text + "2 1 SCORER FINISH 1 GBR7\n")
            said, status = self.run_series("check", "cup")
            self.assertIn("On the entry list, but not entered: NED 12 Windhover, FRA 9 Plover, GBR 33", said)
            self.assertEqual(status, 0)
            said, status = helpers.run("remove", "cup", "GBR", "101", lines="y\n", cwd=self.here)
            self.assertIn("GBR101 is taken out. journal.txt has 2 entries", said)
            with open(self.journal(), encoding="ascii", newline="") as file:
                left = [line for line in text.splitlines(keepends=True) if "GBR101" not in line]
                self.assertEqual(file.read(), "".join(left) + "2 1 SCORER FINISH 1 GBR7\n")
            self.assertIn("can be opened: ", self.run_series("check", "cup")[0])

    def test_torn_end(self) -> None:
        """A torn line isn't counted. The office cuts it off, and its window shows it."""
        for torn, shown in [("1 3 SCORER ENTER NED12", "1 3 SCORER ENTER NED12"), ("1 3 SC\0\n", "1 3 SC??")]:
            self.put(VERSION + GOOD + torn)
            said, status = self.run_series("check", "cup")
            self.assertIn(f"journal.txt ends in a torn line, as after a crash, which isn't counted: "
                          f"{shown!r}", said)
            self.assertIn("2 boats, no races scored, 2 entries\n", said)
            self.assertEqual(status, 0)
            self.assertIn("first open the office, and close it", self.run_series("remove", "cup", "GBR7")[0])
            said, status = helpers.run("export", "cup", "--text", cwd=self.here)
            self.assertIn("which isn't counted", said)
            self.assertNotIn("NED", said.partition("counted")[2].partition("\n")[2])
            window = self.window("open", "cup")
            said = window.read("The office is open")
            self.addCleanup(self.stop, "cup")
            self.assertIn("What came after line 3 was cut off, and is in journal.txt.cut now "
                          f"({len(torn)} bytes):\n   {shown}\n", said)
            self.assertNotIn("isn't counted", said)
            self.assertEqual(self.text("cup", "journal.txt"), VERSION + GOOD)
            window.press()
            self.assertEqual(window.rest()[1], 0)
        self.assertTrue(self.text("cup", "journal.txt.cut").endswith("1 3 SCORER ENTER NED121 3 SC\0\n"))
        self.assertNotIn("Beside journal.txt", self.run_series("check", "cup")[0])

    def test_made_whole(self) -> None:
        """The journal of a new series is there, whole, before its office is started. What was torn in it
        is saved."""
        program = os.path.join(self.here, "replays-only")
        self.write(f'#!/bin/sh\n[ "$1" = replay ] && exec {helpers.PROGRAM} "$@"\nexit 3\n', program)
        os.chmod(program, 0o755)
        self.make("fresh", program=program)
        torn = "1 1 SCORER ENTER NED12"
        self.write(VERSION + torn, os.path.join(self.here, "fresh", "journal.txt"))
        said, status = self.run_series("open", "fresh")
        self.assertEqual((said, status), ("the program ended, and didn't say why.\n", 1))
        self.assertEqual(self.held("fresh"), 7)
        self.assertEqual(self.text("fresh", "journal.txt.cut"), torn)

    def test_part_of_a_list(self) -> None:
        """A journal with some boats of the list has those: the others are named, and not entered."""
        text = VERSION + "1 1 SCORER ENTER GBR101\n1 2 SCORER ENTER GBR7\n"
        self.put(text)
        window = self.window("open", "cup")
        self.addCleanup(self.stop, "cup")
        self.assertIn("On the entry list, but not entered: NED 12 Windhover",
                      window.read("The office is open"))
        self.assertEqual(self.text("cup", "journal.txt"), text)
        window.press()
        self.assertEqual(window.rest()[1], 0)

    def test_damaged(self) -> None:
        """What is no crash's work stays as it is, and the package says so as the program does."""
        for kept, _, said in test_keep.FAULTS:
            if "damaged" not in said:
                continue
            self.put(kept)
            why = "no journal" if said.endswith(" 0") else f"{said.removeprefix('keep ')}."
            with self.subTest(kept=kept[:40]):
                for tool, *words in (["check", "cup"], ["open", "cup"],
                                     ["export", "cup", "--text"]):
                    told, status = helpers.run(tool, *words, cwd=self.here)
                    self.assertIn(f"journal.txt is {why}", told)
                    self.assertEqual(status, 1)
                self.assertEqual(self.text("cup", "journal.txt"), kept)

    def test_names(self) -> None:
        """A journal with a second name is refused. A link stays one, also when a boat is removed."""
        self.put(VERSION + GOOD)
        other = os.path.join(self.here, "elsewhere.txt")
        os.link(self.journal(), other)
        said, status = self.run_series("open", "cup")
        self.assertRegex(said, r"^journal\.txt has a second name \(a hard link\)(.|\n)*\nNothing was "
                               r"opened\.\n$")
        self.assertEqual(status, 1)
        os.remove(self.journal())
        os.symlink(other, self.journal())
        window = self.open()
        self.assertEqual(self.send("ENTER DEN16"), "OK 3 1= 0.0")
        self.assertEqual(self.text("elsewhere.txt"), VERSION + GOOD + "2 1 SCORER ENTER DEN16\n")
        window.press()
        self.assertEqual(window.rest()[1], 0)
        said, status = helpers.run("remove", "cup", "DEN16", lines="y\n", cwd=self.here)
        self.assertIn("DEN16 is taken out. journal.txt has 2 entries;", said)
        self.assertTrue(os.path.islink(self.journal()))
        self.assertEqual(self.text("elsewhere.txt"), VERSION + GOOD)

    def test_other_office(self) -> None:
        """An office that was opened without a window keeps others off journal.txt."""
        self.put(VERSION + GOOD)
        with helpers.served("--keep", self.journal(), folder=self.here):
            said, status = self.run_series("open", "cup")
            self.assertIn("Another office has journal.txt, which wasn't opened here.", said)
            self.assertEqual(status, 1)
            said, status = self.run_series("remove", "cup", "GBR7")
            self.assertIn("the office is open: close it first", said)
            self.assertEqual(status, 1)
        window = self.open()
        window.press()
        self.assertEqual(window.rest()[1], 0)


if __name__ == "__main__":
    unittest.main()
