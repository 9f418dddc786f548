"""`regatta serve --keep` while somebody else changes its file, or a limit holds it up: nothing more is
answered, and the office says so at its end."""
from __future__ import annotations

import os
import resource
import shutil
import signal
import subprocess
import unittest
from collections.abc import Callable

import helpers
import kept
from kept import FAULT, VERSION, Kept, needs_compiler, reply_to

A, B = "1 1 SCORER ENTER A\n", "1 2 SCORER ENTER B\n"


def appended(path: str, text: str) -> None:
    with open(path, "a", encoding="ascii") as file:
        file.write(text)


def replaced(path: str, old: str) -> None:
    """Puts a file with the same bytes in the place of another, which goes to `old` or, if that is empty,
    away."""
    shutil.copy(path, path + ".copy")
    if old:
        os.rename(path, old)
    os.rename(path + ".copy", path)


def moved_folder(path: str) -> None:
    """Renames the folder of a file."""
    os.rename(os.path.dirname(path), os.path.dirname(path) + ".moved")


# What somebody does to the file of an open office.
CHANGES: dict[str, Callable[[str], object]] = {
    "removed": os.remove,
    "renamed away": lambda path: os.rename(path, path + ".old"),
    "replaced": lambda path: replaced(path, ""),
    "renamed away and replaced": lambda path: replaced(path, path + ".old"),
    "emptied": lambda path: os.truncate(path, 0),
    "cut after a line": lambda path: os.truncate(path, len(VERSION)),
    "cut in a line": lambda path: os.truncate(path, len(VERSION + A) - 3),
    "appended to, a line": lambda path: appended(path, B),
    "appended to, a part of a line": lambda path: appended(path, "1 2 SC"),
    "appended to, a line feed": lambda path: appended(path, "\n"),
    "a second name": lambda path: os.link(path, path + ".second"),
    "another folder": moved_folder,
}


class Changed(Kept):
    def folder(self, name: str) -> str:
        """A folder of its own for the kept file, which can be renamed, and for the socket beside it."""
        folder = os.path.join(self.here, name)
        os.mkdir(folder)
        self.kept, self.path = os.path.join(folder, "kept"), os.path.join(self.here, f"{name}.sock")
        return folder

    def test_changes(self) -> None:
        """Once the file isn't as the office wrote it, nobody is answered from it any more."""
        ends = []
        for change in CHANGES:
            self.folder(change)
            office, link = self.opened()
            with self.subTest(change):
                self.assertEqual(link.ask("ENTER A"), "OK 1 1 0.0")
                CHANGES[change](self.kept)
                self.assertEqual(reply_to(link, "ENTER B"), "")
                ends.append((change, office))
        for change, office in ends:
            with self.subTest(change):
                self.assertEqual(self.ended(office), ("", FAULT, 3))

    def test_read_by_others(self) -> None:
        """Who reads the file, or gives it another time or other permissions, is in nobody's way."""
        folder = self.folder("read")
        office, link = self.opened()
        self.assertEqual(link.ask("ENTER A"), "OK 1 1 0.0")
        shutil.copy(self.kept, os.path.join(folder, "copy"))
        os.utime(self.kept, (0, 0))
        os.chmod(self.kept, 0o400)
        self.assertEqual(link.ask("ENTER B"), "OK 2 1= 0.0")
        self.assertEqual(self.text(), VERSION + A + B)
        self.killed(office)

    @needs_compiler
    def test_changes_at_an_opening(self) -> None:
        """What somebody adds while an office is opened is left, or the office says that it isn't."""
        library = kept.library(kept.NOTING, self.here)
        # The call before which the office waits, what is changed then, and what the file has in the end.
        for stop, end, text in [(1, "", VERSION + A + B), (2, "", VERSION + A + B),
                                (1, ".opening", VERSION + A), (3, ".opening", VERSION + A + B)]:
            with self.subTest(stop=stop, end=end):
                self.folder(f"opened{stop}{end}")
                self.write(self.kept, VERSION + A)
                office = self.start(LD_PRELOAD=library, NOTED=self.kept + ".notes", NOTED_STOP=str(stop))
                helpers.until("a stopped office", lambda: helpers.states(office.pid) == {"T"})
                appended(self.kept + end, B)
                office.send_signal(signal.SIGCONT)
                self.assertEqual(self.ended(office), ("", FAULT, 3))
                self.assertEqual(self.text(), text)


class Limits(Kept):
    def test_limit_of_size(self) -> None:
        """A file that may not grow is a full disk: no signal ends the office without a word."""
        office, link = self.opened()
        self.assertEqual(link.ask("ENTER A"), "OK 1 1 0.0")
        size = os.path.getsize(self.kept)
        resource.prlimit(office.pid, resource.RLIMIT_FSIZE, (size + 5, size + 5))
        self.assertEqual(reply_to(link, "ENTER B"), "")
        self.assertEqual(self.ended(office), ("", FAULT, 3))
        self.assertEqual(self.text(), VERSION + A + B[:5])

    def test_limit_of_size_in_a_shell(self) -> None:
        """The same in a shell that ignores the signal, as docs/KEEPING.md says."""
        words = " ".join([helpers.PROGRAM, "serve", "--keep", self.kept, "--socket", self.path])
        self.write(self.kept, VERSION + "".join(f"1 {at} SCORER ENTER S{at}\n" for at in range(1, 31)))
        done = subprocess.run(["sh", "-c", f"trap '' XFSZ; ulimit -f 1; exec {words}"], text=True,
                              stdout=subprocess.PIPE, stderr=subprocess.PIPE, timeout=helpers.PATIENCE)
        self.assertEqual((done.stdout, done.stderr, done.returncode), ("", FAULT, 3))


class Windows(helpers.Series):
    """The same at an office that a window has opened."""

    def gone(self, change: Callable[[str, int], object]) -> None:
        """A line that is typed after a change of journal.txt, or of the program's process, has no answer,
        and the office's window says why the office has gone."""
        window = self.open()
        typist = self.client("cup", "--role", "finish")
        typist.say("finish 1 101", r"OK 8 .*\n> $")
        with open(os.path.join(self.here, "cup", "office", "pid"), encoding="ascii") as file:
            number = int(file.read().split()[0])
        change(os.path.join(self.here, "cup", "journal.txt"), number)
        said = typist.say("finish 1 7", r"Ctrl-C ends this window\.\n$")
        self.assertIn("No answer came to: FINISH 1 GBR7\nIt may be in the journal, or not.\n", said)
        told, status = window.rest()
        self.assertEqual(status, 1)
        self.assertIn("The office has gone. journal.txt can't be opened, or can't be put on the disk. ", told)

    def test_limit_of_size(self) -> None:
        """A limit of the journal's size is said, and not taken for a program that vanished."""
        self.gone(lambda path, number: resource.prlimit(
            number, resource.RLIMIT_FSIZE, 2 * (os.path.getsize(path) + 5,)))

    def test_replaced(self) -> None:
        """Nobody is answered from a journal that was replaced."""
        self.gone(lambda path, number: replaced(path, path + ".old"))
        self.assertEqual(self.held(), 8)


if __name__ == "__main__":
    unittest.main()
