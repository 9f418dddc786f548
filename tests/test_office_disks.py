"""The office's window while a disk, or its second folder, is slow, full or gone."""
from __future__ import annotations

import os
import signal
import subprocess
import time
import unittest
from unittest import mock

import helpers
from hanging_folder import Hanging
from raceoffice.series import second_folder
from raceoffice.series.folder import Folder
from raceoffice.series.second_folder import Second
from test_office_window import Windows

# How long a second folder may take, for a trial in which it hangs.
HANGS = {"series.second_folder.PATIENCE": 1.0}


class Disks(Windows):
    def test_second_folder_hangs(self) -> None:
        """A second folder that hangs costs the second copy, and nothing else."""
        hanging = Hanging(self)
        window, typist = self.copied(waits=HANGS), self.client("cup", "--role", "finish")
        hanging.begin(os.path.join(self.here, "stick"))
        typist.say("finish 1 101", r"OK 8 .*\n> $")
        window.read(r"No second copy: .*stick doesn't answer\.\n")
        self.replace_journal()
        window.read(r"Beware: journal\.txt isn't what the office keeps")
        typist.read(r"Beware: the office's window says: journal\.txt isn't what the office keeps(.|\n)*> $")
        window.press()
        window.read(r"Close the office\? \[y/N\] $")
        window.type("n")
        window.read("stays open")
        window.process.terminate()
        said, status = window.rest()
        self.assertRegex(said, r"The journal of the office is in kept/.*Z(-\d)?-office\.txt\.")
        self.assertEqual(status, 0)

    def test_hanging_opening(self) -> None:
        """A series whose second folder hangs can be checked, opened, closed and opened again."""
        os.mkdir(os.path.join(self.here, "stick"))
        self.make("copied", copy="../stick")
        Hanging(self).begin(os.path.join(self.here, "stick"))
        window = self.window("open", "copied", waits=HANGS)
        window.read(r"No second copy: .*stick doesn't answer\.\n(.|\n)*The office is open")
        self.addCleanup(self.stop, "copied")
        window.press()
        said, status = window.rest()
        self.assertRegex(said, r"Closed\. journal\.txt has 7 entries, and so has kept/")
        self.assertEqual(status, 0)
        # Now there is a journal which a copy could go on beyond.
        self.window("open", "copied", waits=HANGS).read("The office is open")

    def test_same_disk(self) -> None:
        """The folder of a stick that isn't in is on the disk of the series."""
        window = self.window("open", "cup")
        window.process.terminate()
        window.rest()
        os.mkdir(os.path.join(self.here, "stick"))
        self.make("copied", copy="../stick")
        wanted = (r"The second copy, .*/stick/copied-journal\.txt, is on the same disk as journal\.txt\. "
                  "Is the stick")
        self.assertRegex(helpers.run("check", "copied", cwd=self.here)[0], wanted)
        window = self.window("open", "copied")
        window.read(wanted + r" in\?\n(.|\n)*The office is open")
        self.addCleanup(self.stop, "copied")
        disk = os.path.join(self.here, "disk")
        os.mkdir(disk)
        if subprocess.run(["mount", "-t", "tmpfs", "-o", "size=1m", "none", disk],
                          capture_output=True).returncode:
            self.skipTest("this account can't mount a second disk")
        self.addCleanup(subprocess.check_call, ["umount", "-l", disk])
        self.make("other", copy=disk)
        self.assertNotIn("same disk", helpers.run("check", "other", cwd=self.here)[0])

    def test_kept_is_full(self) -> None:
        """Without room for dated copies an office is opened and closed, and says so."""
        disk = self.path("kept")
        os.mkdir(disk)
        if subprocess.run(["mount", "-t", "tmpfs", "-o", "size=16k", "none", disk],
                          capture_output=True).returncode:
            self.skipTest("this account can't mount a small disk")
        self.addCleanup(subprocess.check_call, ["umount", "-l", disk])
        with open(os.path.join(disk, "filler"), "wb") as file:
            subprocess.run(["dd", "if=/dev/zero", "bs=1024"], stdout=file, stderr=subprocess.DEVNULL)
        for _ in range(2):
            window = self.window("open", "cup")
            window.read(r"No dated copy: .*No space left on device\.\n(.|\n)*The office is open")
            self.addCleanup(self.stop, "cup")
            window.press()
            said, status = window.rest()
            self.assertRegex(said, r"Closed\. journal\.txt has 7 entries\. .*No space left on device\.\n")
            self.assertEqual(status, 0)

    def test_waits_for_room(self) -> None:
        """An office that has the only whole journal stays until that is in kept/."""
        window, other = self.open(), self.replace_journal()
        window.read("Beware: journal.txt isn't what the office keeps")
        os.rename(self.path("kept"), self.path("kept-before"))
        self.write("", "cup", "kept")
        window.press()
        window.read(r"The office stays until its journal is in kept/: kept/ can't be made: File exists\. "
                    r"Once more")
        os.remove(self.path("kept"))
        said, status = window.rest()
        self.assertIn("Closed. journal.txt has 7 entries, and isn't what the office kept.\n", said)
        self.assertEqual((self.text("cup", "journal.txt"), status), (other, 0))
        name = self.newest_copy()
        self.assertIn(f"The journal of the office is in {name}", said)
        self.assertIn("\tclosed\t7 entries", self.text("cup", "office.log"))
        said, status = helpers.run("check", "cup", cwd=self.here)
        self.assertIn(f"It has 7 entries, and {name} has 7. One of these isn't in journal.txt at its place",
                      said)
        self.assertEqual(status, 1)

    def test_disk_gone(self) -> None:
        """The folder of the series has gone: the journal is kept where it was, and the program ends."""
        window, link = self.open(), self.link()
        link.ask("FINISH 1 GBR101")
        link.ask("QUIT")
        number = self.number()
        os.rename(self.path(), os.path.join(self.here, "gone"))
        window.read("Beware: journal.txt isn't what the office keeps")
        window.press()
        said, status = window.rest()
        found = said.split("The journal of the office is in ")[1].split(".txt")[0] + ".txt"
        self.assertTrue(self.text("cup", found).endswith("1 7 SCORER ENTER IRL55\n2 1 SCORER FINISH 1 "
                                                         "GBR101\n"))
        self.assertEqual(status, 0)
        self.assertFalse(os.path.exists(f"/proc/{number}"))

    def test_no_room_at_all(self) -> None:
        """Without room in kept/ the journal is shown once somebody asks for it, and the office closes."""
        window, link = self.open(), self.link()
        link.ask("FINISH 1 GBR101")
        link.ask("QUIT")
        self.replace_journal()
        window.read("Beware: journal.txt isn't what the office keeps")
        os.rename(self.path("kept"), self.path("kept-before"))
        self.write("", "cup", "kept")
        window.press()
        window.read(r"Once more Ctrl-C shows it here")
        window.press()
        said, status = window.rest()
        self.assertIn("1 7 SCORER ENTER IRL55\n2 1 SCORER FINISH 1 GBR101\n", said)
        self.assertIn("Closed. journal.txt has 8 entries. kept/ can't be made: File exists.\n", said)
        self.assertEqual(status, 0)

    def test_journal_lost_in_a_crash(self) -> None:
        """The program is killed when journal.txt was replaced: what the office had is kept."""
        window, link = self.copied(), self.link()
        link.ask("FINISH 1 GBR101")
        helpers.until("a look of the window", lambda: self.held("stick", "cup-journal.txt") == 8)
        self.write("1 1 SCORER ENTER A\n", "cup", "other")
        os.replace(self.path("other"), self.path("journal.txt"))
        window.read("Beware")
        os.kill(self.number(), signal.SIGKILL)
        said, status = window.rest()
        name = self.newest_copy()
        self.assertIn(f"The office has gone. journal.txt isn't what it kept: that is in {name}. Open", said)
        self.assertEqual((self.held("cup", name), status), (8, 1))

    def test_journal_damaged_in_a_crash(self) -> None:
        """A journal that can't be read after a crash is said to be so."""
        window = self.open()
        with open(self.path("journal.txt"), "ab") as file:
            file.write(b"1 8 SCO\0\n1 9 SCORER ENTER A\n")
        os.kill(self.number(), signal.SIGKILL)
        said, status = window.rest()
        self.assertIn("The office has gone. journal.txt is damaged after line 8.", said)
        self.assertEqual(status, 1)


class Seconds(Windows):
    """The process that has the second folder to do with."""

    def second(self) -> Second:
        found = Second(Folder(self.make("copied", copy="../stick")))
        self.addCleanup(found.close)
        return found

    def test_slow_and_late(self) -> None:
        """One that is slow is waited for once; what it does at last counts, and no other is started."""
        stick, hanging = os.path.join(self.here, "stick"), Hanging(self)
        os.mkdir(stick)
        hanging.begin(stick)
        found = self.second()
        silent = second_folder.Answer(f"{os.path.dirname(found.path)} doesn't answer")
        with mock.patch("raceoffice.series.second_folder.PATIENCE", 1.0):
            self.assertEqual(found.ask("save", "x\n"), silent)
            began, process = time.monotonic(), found.process
            for _ in range(20):
                self.assertEqual(found.ask("save", "x\n"), silent)
            # Twenty would take twenty seconds.
            self.assertLess(time.monotonic() - began, 15, "each of them was waited for")
        hanging.end(stick)
        helpers.until("a late answer", lambda: not found.ask("look").fault)
        self.assertIs(found.process, process)

    def test_given_up(self) -> None:
        """One that hangs for good is ended, and another one tries again."""
        stick, hanging = os.path.join(self.here, "stick"), Hanging(self)
        os.mkdir(stick)
        hanging.begin(stick, is_for_good=True)
        found = self.second()
        # The other one has to answer before it is given up, too.
        with mock.patch("raceoffice.series.second_folder.PATIENCE", 0.2), \
                mock.patch("raceoffice.series.second_folder.GIVE_UP", 3.0):
            self.assertNotEqual(found.ask("save", "x\n").fault, "")
            process = found.process
            assert process
            hanging.end(stick)
            helpers.until("a copy", lambda: not found.ask("save", "x\n").fault)
        self.assertIsNotNone(process.poll())
        with open(found.path, encoding="ascii") as file:
            self.assertEqual(file.read(), "x\n")

    def test_process_that_ends(self) -> None:
        """If the process is killed, another one takes its place."""
        found = self.second()
        self.assertEqual(found.ask("look").fault, f"{os.path.dirname(found.path)} isn't there")
        os.mkdir(os.path.join(self.here, "stick"))
        assert found.process
        found.process.kill()
        found.process.wait()
        with mock.patch("raceoffice.series.second_folder.GIVE_UP", 0.0):
            helpers.until("a copy", lambda: not found.ask("save", "x\n").fault)
        for what, text, fault in [("save", "y\n", "holds lines that the office doesn't have"),
                                  ("replace", "y\n", ""), ("read", "", "")]:
            answer = found.ask(what, text)
            self.assertTrue(fault in answer.fault and bool(fault) == bool(answer.fault), answer)
        self.assertEqual(answer.text, "y\n")
        os.remove(found.path)
        os.mkdir(found.path)
        self.assertIn("can't be read: Is a directory", found.ask("read").fault)

    def test_no_python(self) -> None:
        """If no process can be started, that is no second copy, and isn't tried each second."""
        found = self.second()
        with mock.patch("subprocess.Popen", side_effect=OSError(11, "no process")) as started:
            for _ in range(3):
                self.assertIn("doesn't answer", found.ask("look").fault)
        self.assertEqual(started.call_count, 1)


if __name__ == "__main__":
    unittest.main()
