"""What keeps a series shut: a disk that is full or takes no sockets, and copies of a lost journal."""
from __future__ import annotations

import os
import subprocess
import time
import unittest
from unittest import mock
from collections.abc import Callable

import helpers
from raceoffice.errors import Trouble
from raceoffice.series import health
from raceoffice.series.copies import best_copy
from raceoffice.series.folder import Folder
from raceoffice.series.second_folder import second_of


class Survey(helpers.Series):
    def folder(self, name: str = "cup") -> Folder:
        folder = Folder(os.path.join(self.here, name))
        folder.make_private()
        return folder

    def test_good_disk(self) -> None:
        folder = self.folder()
        before = sorted(os.listdir(folder.file("office")))
        self.assertEqual(health.disk_fault(folder), "")
        self.assertEqual(sorted(os.listdir(folder.file("office"))), before)

    def test_endless_journal(self) -> None:
        """A journal with a terabyte of zeros is said to be long, and takes no room."""
        folder = self.folder()
        with open(folder.journal, "wb") as file:
            file.truncate(1 << 40)
        self.assertEqual((health.disk_fault(folder), health.journal_fault(folder)),
                         ("", "journal.txt is longer than 4,194,304 bytes."))

    def test_left_by_a_kill(self) -> None:
        """A file that was about to replace another goes an hour after its process was killed; nothing else does."""
        folder = self.folder()
        old, name = time.time() - 3700, ".0123456789abcdef.new"
        names = [name, os.path.join("office", name), ".fedcba9876543210.new", ".notes.new", "race.new"]
        for at in names:
            self.write("x", "cup", at)
            if at != names[2]:
                os.utime(folder.file(at), (old, old))
        os.symlink("entries.csv", folder.file("office", ".0000000000000000.new"))
        health.remove_fresh(folder)
        self.assertEqual([at for at in names if os.path.exists(folder.file(at))], names[2:])
        self.assertTrue(os.path.lexists(folder.file("office", ".0000000000000000.new")))

    def test_names_in_the_way(self) -> None:
        """The file with which the disk is tried is a new one: it spoils no other, and waits for nobody."""
        folder = self.folder()
        probe = folder.file("office", f"probe-{os.getpid()}")
        self.write("precious", "other")
        makes: list[Callable[[], object]] = [lambda: os.symlink(os.path.join(self.here, "other"), probe),
                                             lambda: os.link(os.path.join(self.here, "other"), probe),
                                             lambda: os.mkfifo(probe)]
        for make in makes:
            make()
            self.assertIsNone(health.room_fault(folder))
            self.assertEqual(self.text("other"), "precious")
            self.assertFalse(os.path.lexists(probe))

    def test_no_sockets(self) -> None:
        with mock.patch("socket.socket.bind", side_effect=PermissionError(1, "not permitted")):
            self.assertEqual(health.disk_fault(self.folder()), "This disk takes no sockets (often a "
                             "stick). Copy the folder to the computer's own disk.")

    def test_full_disk(self) -> None:
        disk = os.path.join(self.here, "disk")
        os.mkdir(disk)
        if subprocess.run(["mount", "-t", "tmpfs", "-o", "size=96k", "none", disk],
                          capture_output=True).returncode:
            self.skipTest("this account can't mount a small disk")
        self.addCleanup(subprocess.check_call, ["umount", "-l", disk])
        folder = self.make("disk/full")
        with open(os.path.join(folder, "filler"), "wb") as file:
            file.write(b"\0" * (60 << 10))
        before = sorted(os.listdir(folder))
        said = helpers.run("open", "disk/full", cwd=self.here)
        self.assertEqual(said, ("The disk is full. Nothing was opened or changed.\n", 1))
        self.assertEqual(sorted({*os.listdir(folder)} - {"office"}), before)
        os.remove(os.path.join(folder, "filler"))
        window = self.open("disk/full")
        window.press()
        self.assertEqual(window.rest()[1], 0)

    def test_disk_fills_up(self) -> None:
        """A full disk ends the office, and says so. All that was answered is there when it opens again."""
        disk = os.path.join(self.here, "disk")
        os.mkdir(disk)
        if subprocess.run(["mount", "-t", "tmpfs", "-o", "size=160k", "none", disk],
                          capture_output=True).returncode:
            self.skipTest("this account can't mount a small disk")
        self.addCleanup(subprocess.check_call, ["umount", "-l", disk])
        self.make("disk/full")
        window = self.open("disk/full")
        typist = self.client("disk/full", "--role", "finish")
        filler = os.path.join(disk, "filler")
        with open(filler, "wb") as file:
            subprocess.run(["dd", "if=/dev/zero", "bs=1024"], stdout=file, stderr=subprocess.DEVNULL)
        # The last pages of log and journal have room for some lines more.
        said, lines = "", 0
        while "the office has gone" not in said:
            code = ("dnf", "ret")[lines % 2]
            said += typist.say(f"mark 1 101 {code}", r"(OK .*\n> |Ctrl-C ends this window\.\n)$")
            lines += 1
        self.assertIn("Beware: office.log can't be written: No space left on device.", said)
        self.assertIn(f"No answer came to: MARK 1 GBR101 {code.upper()}\n", said)
        answered = said.count("\nOK ") + said.startswith("OK ")
        self.assertEqual(answered, lines - 1)
        told, status = window.rest()
        self.assertRegex(told, r"The office has gone\. The disk is full: make space\. journal\.txt has "
                         f"{7 + answered} entries\\. Open it again: ")
        self.assertEqual(status, 1)
        os.remove(filler)
        again = self.open("disk/full")
        self.assertEqual(self.held("disk/full"), 7 + answered)
        typist.read(f"The office is back with {7 + answered} entries\\.(.|\n)*not in the journal\\.\n> $")
        typist.type("quit")
        typist.rest()
        again.press()
        self.assertEqual(again.rest()[1], 0)

    def test_journal_of_another(self) -> None:
        """If somebody has changed journal.txt meanwhile, both journals are there in the end."""
        window = self.open()
        typist = self.client("cup", "--role", "finish")
        other = self.text("cup", "journal.txt").replace("GBR101", "GBR102")
        self.write(other, "other")
        typist.say("finish 1 7", r"OK 8 .*\n> $")
        os.replace(os.path.join(self.here, "other"), os.path.join(self.here, "cup", "journal.txt"))
        typist.type("quit")
        typist.rest()
        window.read("Beware: journal.txt isn't what the office keeps: somebody has changed or replaced it")
        window.press()
        said, status = window.rest()
        self.assertEqual((self.text("cup", "journal.txt"), status), (other, 0))
        kept = said.split("The journal of the office is in ")[1].split(".txt")[0] + ".txt"
        self.assertEqual(self.held("cup", kept), 8)
        self.assertIn("FINISH 1 GBR7\n", self.text("cup", kept))

    def test_what_cannot_be_used(self) -> None:
        """Files of a series that are something else, or another account's, are said to be so."""
        folder = self.folder()
        os.mkdir(folder.journal)
        self.assertEqual(health.journal_fault(folder), "journal.txt is no plain file.")
        with self.assertRaises(Trouble) as raised:
            folder.parts()
        self.assertEqual(str(raised.exception), "journal.txt can't be read: Is a directory")
        os.rmdir(folder.journal)
        self.write("REGATTA 2\n1 1 SCORER ENT", folder.journal)
        with mock.patch("os.access", return_value=False):
            self.assertIn("This account may not write ", health.journal_fault(folder))
        with mock.patch("os.stat", side_effect=PermissionError(13, "Permission denied")):
            self.assertEqual(health.journal_fault(folder), "journal.txt can't be read: Permission denied.")
        os.mkdir(folder.journal + ".cut")
        with self.assertRaises(Trouble) as raised:
            folder.save_torn()
        self.assertEqual(str(raised.exception), "journal.txt.cut can't be written: Is a directory")

    def test_private_folder(self) -> None:
        """The socket's folder has to be this account's. An opening says so, and so does a check before it."""
        folder = self.folder()
        os.rmdir(folder.file("office"))
        cases: list[Callable[[str], object]] = [lambda path: self.write("", path), lambda path: os.symlink(self.here, path),
                                                lambda path: os.symlink("nowhere", path)]
        for made in cases:
            made(folder.file("office"))
            with self.assertRaises(Trouble) as raised:
                folder.make_private()
            self.assertIn("isn't a folder of this account", str(raised.exception))
            self.assertEqual(health.faults(folder), [f"{raised.exception}."])
            os.remove(folder.file("office"))
        with mock.patch("os.geteuid", return_value=os.geteuid() + 1), self.assertRaises(Trouble) as raised:
            folder.make_private()
        self.assertIn("isn't a folder of this account", str(raised.exception))

    def best(self, folder: Folder) -> tuple[str, bytes]:
        with second_of(folder) as second:
            return best_copy(folder, second)

    def test_best_copy(self) -> None:
        """The newest dated copy, or that in the second folder if it goes on from the newest."""
        stick = os.path.join(self.here, "stick")
        os.mkdir(stick)
        self.make("copied", copy=stick)
        folder = self.folder("copied")
        self.assertEqual(self.best(folder), ("", b""))
        os.mkdir(folder.file("kept"))
        entry = "1 1 SCORER ENTER A\n"
        for name, entries in [("2026-11-27-120000.txt", 4), ("2026-11-28-120000Z.txt", 2), ("mine.txt", 9),
                              ("2026-11-28-120000Z-2-office.txt", 3), ("2026-13-28-120000Z.txt", 9)]:
            self.write(entry * entries, "copied", "kept", name)
        newest = folder.file("kept", "2026-11-28-120000Z-2-office.txt")
        self.assertEqual(self.best(folder), (newest, 3 * entry.encode()))
        path = os.path.join(stick, "copied-journal.txt")
        for text in (entry * 2, entry * 3, "REGATTA 2\n" + entry * 2 + entry.replace("A", "B") * 2):
            self.write(text, path)
            self.assertEqual(self.best(folder)[0], newest)
        self.write("REGATTA 2\n" + entry * 4, path)
        self.assertEqual(self.best(folder), (path, b"REGATTA 2\n" + 4 * entry.encode()))


if __name__ == "__main__":
    unittest.main()
