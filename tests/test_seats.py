"""A window that waits for a seat looks for one before it comes, since each visit uses up a session."""
from __future__ import annotations

import contextlib
import itertools
import os
import subprocess
import sys
import time
import unittest
from collections.abc import Callable
from unittest import mock

import helpers
from raceoffice.errors import NoSeat
from raceoffice.program.link import Link
from raceoffice.results.announce import sheet_now
from raceoffice.results.source import ResultsSource
from raceoffice.series.folder import Folder
from raceoffice.series.sender import Sender
from raceoffice.typing_window.watcher import is_open
from raceoffice.typing_window.window import Window
from raceoffice.web.room import Room
from raceoffice.web.taps import Tap


class Seats(helpers.Series):
    def folder(self) -> Folder:
        self.make("full", seats="2")
        folder = Folder(os.path.join(self.here, "full"))
        folder.make_private()
        return folder

    def test_waiting(self) -> None:
        """It comes once a seat is free, and until then never."""
        folder, end = self.folder(), time.monotonic() + helpers.PATIENCE
        said: list[str] = []
        waits = itertools.count(1)

        def wait(_: float) -> None:
            self.assertLess(time.monotonic(), end, "no seat came")
            self.assertTrue(helpers.is_listening(path))
            if next(waits) == 20:
                second.close()
            time.sleep(0.01)

        with helpers.served("--clients", "2", "--sessions", "4", folder=folder.file("office")) as (path, _), \
                contextlib.closing(Link(path)) as first, contextlib.closing(Link(path)) as second, \
                mock.patch("raceoffice.typing_window.window.wait",
                           wait), mock.patch("raceoffice.typing_window.window.say", said.append):
            for link in (first, second):
                link.ask("RANK A")
            window = Window([folder], "FINISH", "")
            window.wait_for(window.sessions[0])
            self.assertTrue(helpers.is_listening(path))
            assert window.sessions[0].link
            self.assertEqual(window.sessions[0].link.ask("RANK A"), "NO 7")
            window.sessions[0].disconnect()
        self.assertEqual(said, ["Waiting: all seats of the office are taken. Ctrl-C ends this window."])

    def test_note_that_never_ends(self) -> None:
        """What is there instead of the note of an office's processes is no note, however long it is."""
        folder = self.folder()
        asked = ("import resource, sys; resource.setrlimit(resource.RLIMIT_AS, (1 << 30, 1 << 30)); "
                 "from raceoffice.office.process import OfficeProcess; from raceoffice.series.folder import Folder; "
                 "folder = Folder(sys.argv[1]); print(folder.noted_program(), OfficeProcess(folder).noted())")
        os.symlink("/dev/zero", folder.file("office", "pid"))
        done = subprocess.run([sys.executable, "-c", asked, folder.path], capture_output=True, text=True, timeout=helpers.PATIENCE)
        self.assertEqual((done.stdout, done.stderr[-200:]), ("0 (0, '', '')\n", ""))

    def test_several_classes(self) -> None:
        """A full office of several isn't back before it has a seat."""
        folder = self.folder()
        with helpers.served("--clients", "2", folder=folder.file("office")) as (path, _), \
                contextlib.closing(Link(path)) as first, contextlib.closing(Link(path)) as second:
            for link in (first, second):
                link.ask("RANK A")
            session = Window([folder], "FINISH", "").sessions[0]
            self.assertEqual((is_open(session), folder.has_no_seat()), (False, True))
            second.close()
            helpers.until("a free seat", lambda: is_open(session))
            self.assertFalse(folder.has_no_seat())

    def test_tries_use_up_nothing(self) -> None:
        """An office lends two of its four sessions, and has two seats. Whoever else looks in, as often as they like, uses
        up none: a tap of each role, the web's own look, the board, a declaration, a command that sends lines. When a seat is
        free they come in, and after them one more."""
        folder = self.folder()
        with helpers.served("--clients", "2", "--sessions", "4", folder=folder.file("office")) as (path, _), \
                contextlib.closing(Link(path)) as first, contextlib.closing(Link(path)) as second:
            for link in (first, second):
                link.ask("RANK A")
            room = Room(folder, lambda: None)
            self.addCleanup(room.close)
            board = ResultsSource(folder.path)
            tries: list[Callable[[], object]] = [
                lambda: room.do("FINISH", "Ann", Tap.read({"id": "1" * 32, "line": "FINISH 1 A"})),
                lambda: room.session("SCORER"), room.look, board.look, lambda: Sender(folder.path, "times"), folder.link]
            for come in tries * 5:
                with self.assertRaises(NoSeat) as found:
                    come()
                self.assertEqual(str(found.exception), "all seats of the office are taken")
            sheet_now(folder)
            self.assertTrue(helpers.is_listening(path), "the office has lent its last session")
            second.close()
            helpers.until("a free seat", lambda: not folder.has_no_seat())
            self.assertEqual(room.session("FINISH").office().ask("RANK A"), "NO 7")
            room.leave()
            helpers.until("a free seat", lambda: not folder.has_no_seat())
            self.assertTrue(helpers.is_listening(path), "the office has lent its last session")

    def test_seats_of_the_office(self) -> None:
        """The seats are those that the office was opened with."""
        window = self.open()
        self.write(self.text("cup", "series.ini").replace("seats = 16", "seats = 2"), "cup", "series.ini")
        folder = Folder(os.path.join(self.here, "cup"))
        self.assertEqual((folder.settings.seats, folder.seats()), (2, 16))
        window.press()
        window.rest()
        self.assertEqual(folder.seats(), 2)


if __name__ == "__main__":
    unittest.main()
