"""Which windows of a series are open: those whose processes hold their files, whatever started them."""
from __future__ import annotations

import errno
import os
import signal
import subprocess
import sys
import threading
import unittest
from unittest import mock

import helpers
from raceoffice import system
from raceoffice.files import PRIVATE
from raceoffice.office.process import OfficeProcess
from raceoffice.series.folder import Folder
from raceoffice.series.windows import BOARD, FOLDER, OFFICE, TYPING, Presence, open_windows

# A process that is a window until it is killed, and is called as an editor is that edits one.
OTHER = """
import sys
sys.argv[0] = "vim"
from raceoffice.series.folder import Folder
from raceoffice.series.windows import Presence
window = Presence(Folder(sys.argv[1]), "typing", "Ann")
print(flush=True)
sys.stdin.read()
"""


class Windows(helpers.Series):
    def setUp(self) -> None:
        super().setUp()
        self.path = os.path.join(self.here, "cup")
        self.folder = Folder(self.path)
        self.folder.make_private()
        self.place = self.folder.file(PRIVATE, FOLDER)

    def other(self) -> subprocess.Popen[str]:
        """A window in a process of its own."""
        window = subprocess.Popen([sys.executable, "-c", OTHER, self.path], text=True, stdin=subprocess.PIPE,
                                  stdout=subprocess.PIPE)
        self.addCleanup(window.communicate)
        self.addCleanup(window.kill)
        assert window.stdout
        window.stdout.readline()
        return window

    def test_kinds(self) -> None:
        """A window is known as long as it is open, by its kind."""
        for kind in (OFFICE, TYPING, BOARD):
            window = Presence(self.folder, kind)
            found = open_windows(self.folder, kind)
            self.assertEqual(list(found), [str(os.getpid())])
            self.assertRegex(found[str(os.getpid())], rf"\A{kind} since \d\d:\d\d\Z")
            self.assertEqual(open_windows(self.folder), found)
            self.assertEqual(open_windows(self.folder, "another"), {})
            window.close()
            self.assertEqual(open_windows(self.folder), {})
            window.close()

    def test_killed(self) -> None:
        """A window that was killed isn't open, and its file goes."""
        window = self.other()
        self.assertRegex(open_windows(self.folder, TYPING)[str(window.pid)], r"\AAnn since \d\d:\d\d\Z")
        window.send_signal(signal.SIGKILL)
        window.wait()
        self.assertTrue(os.listdir(self.place))
        self.assertEqual(open_windows(self.folder), {})
        self.assertEqual(os.listdir(self.place), [])

    def test_same_number(self) -> None:
        """A file that a window of this number has left is no window, and is used again."""
        os.makedirs(self.place)
        path = os.path.join(self.place, str(os.getpid()))
        self.write("typing\tBob since 09:00, and much more\n", path)
        self.assertEqual(open_windows(self.folder), {})
        self.write("typing\tBob since 09:00, and much more\n", path)
        window = Presence(self.folder, TYPING, "Ann")
        self.assertRegex(open_windows(self.folder)[str(os.getpid())], r"\AAnn since \d\d:\d\d\Z")
        window.close()

    def test_looked_at(self) -> None:
        """A window whose file somebody just takes for one that was left is known all the same."""
        os.makedirs(self.place)
        path = os.path.join(self.place, str(os.getpid()))
        self.write("", path)
        file = os.open(path, os.O_RDONLY)
        self.assertTrue(system.take_lock(file, is_shared=True))

        def removed() -> None:
            os.remove(path)
            os.close(file)

        looks = threading.Timer(0.3, removed)
        looks.start()
        window = Presence(self.folder, TYPING, "Ann")
        looks.join()
        self.assertEqual(list(open_windows(self.folder)), [str(os.getpid())])
        window.close()

    def test_opened_again(self) -> None:
        """Whoever has opened the file of a window that goes doesn't remove that of the next."""
        windows, take_lock = [Presence(self.folder, BOARD)], system.take_lock

        def late(file: int, is_shared: bool) -> bool:
            """Takes the lock once the board has come again."""
            with mock.patch.object(system, "take_lock", take_lock):
                windows.pop().close()
                windows.append(Presence(self.folder, BOARD))
            return take_lock(file, is_shared=is_shared)

        with mock.patch.object(system, "take_lock", late):
            open_windows(self.folder)
        self.assertEqual(list(open_windows(self.folder)), [str(os.getpid())])
        windows.pop().close()

    def test_odd_files(self) -> None:
        """What else is in that folder is no window."""
        os.makedirs(os.path.join(self.place, "folder"))
        os.symlink("/etc/passwd", os.path.join(self.place, "7"))
        os.mkfifo(os.path.join(self.place, "8"))
        self.assertEqual(open_windows(self.folder), {})

    def test_closed_folder(self) -> None:
        """A folder that lets nobody in is opened for this account."""
        os.makedirs(self.place)
        os.chmod(self.place, 0)
        window = Presence(self.folder, TYPING, "Ann")
        self.assertEqual(os.stat(self.place).st_mode & 0o777, 0o700)
        window.close()

    def test_no_room(self) -> None:
        """A window that can't be shown is open all the same."""
        self.write("", self.place)
        window = Presence(self.folder, TYPING, "Ann")
        self.assertEqual(open_windows(self.folder), {})
        window.close()

    def test_room_again(self) -> None:
        """That of an office is shown once there is room: whoever looks would think that nobody keeps the office."""
        office = OfficeProcess(self.folder)
        self.addCleanup(office.lock.leave)
        with mock.patch.object(os, "write", side_effect=OSError(errno.ENOSPC, "No space left on device")):
            office.show()
        self.assertEqual((os.listdir(self.place), self.folder.has_window()), ([], False))
        office.show()
        self.assertTrue(self.folder.has_window())
        assert office.presence
        shown = office.presence
        office.show()
        self.assertIs(office.presence, shown)
        shown.close()
        self.assertFalse(self.folder.has_window())


if __name__ == "__main__":
    unittest.main()
