"""Two windows that open one series, and what an earlier opening has left in office/."""
from __future__ import annotations

import contextlib
import os
import signal
import subprocess
import sys
import unittest

import helpers
from raceoffice.office.process import OfficeProcess
from raceoffice.series.folder import Folder

# Opens an office, and does something else when it should note which process the program is.
STOPPED = """\
import os, signal, sys
from raceoffice import cli
from raceoffice.office.process import OfficeProcess
OfficeProcess.note_pid = lambda service: {}
sys.exit(cli.main(["open", "cup"]))
"""


class Taken(helpers.Series):
    def test_opened_in_two_windows(self) -> None:
        """While a window asks before it opens an office, another can't take over what an earlier one has
        noted: its number may be another process's by now."""
        window = self.open()
        window.press()
        window.rest()
        other = subprocess.Popen(["sleep", "1000"])
        self.addCleanup(other.wait)
        self.addCleanup(other.kill)
        self.write(f"{other.pid} 1 09:00\n", "cup", "office", "pid")
        text = self.text("cup", "series.ini").replace("absent = a52", "absent = a53")
        self.write(text, "cup", "series.ini")
        first = self.window("open", "cup")
        first.read(r"Go on with the new rules\? \[y/N\] $")
        second = self.window("open", "cup")
        self.assertEqual(second.rest(), ("the office is being opened in another window.\n", 1))
        first.say("y", "The office is open")
        self.assertIsNone(other.poll())

    def starter(self, instead: str) -> subprocess.Popen[bytes]:
        """A window that does this instead of noting its program."""
        found = subprocess.Popen([sys.executable, "-c", STOPPED.format(instead)], cwd=self.here,
                                 stdin=subprocess.DEVNULL)
        self.addCleanup(found.wait)
        self.addCleanup(found.kill)
        return found

    def service(self) -> OfficeProcess:
        """What knows of the program of `cup`, which is ended with the trial although nobody may have noted
        its process."""
        folder = Folder(os.path.join(self.here, "cup"))
        folder.make_private()
        found = OfficeProcess(folder)
        self.addCleanup(os.close, found.lock.file)
        self.addCleanup(self.kill_all, found)
        return found

    def kill_all(self, service: OfficeProcess) -> None:
        for number in service.programs():
            os.kill(number, signal.SIGKILL)

    def test_killed_before_it_noted(self) -> None:
        """A program whose window was killed just after its start is taken over by the next one, whether or
        not an earlier opening has noted anything."""
        self.service()
        for noted in ("", "1 1 09:00\n"):
            self.write(noted, "cup", "office", "pid")
            self.assertEqual(self.starter("os.kill(os.getpid(), 9)").wait(helpers.PATIENCE), -9)
            window = self.window("open", "cup")
            window.read(r"The office is open, but its window has gone\. Take it over\? \[Y/n\] $")
            window.say("y", "The office is open")
            window.press()
            self.assertIn("Closed.", window.rest()[0])

    def test_not_noted_yet(self) -> None:
        """A window that has started its program and not noted it yet keeps it."""
        service = self.service()
        self.starter("signal.pause()")
        helpers.until("the program", service.programs)
        self.assertEqual(self.window("open", "cup").rest(),
                         ("the office is being opened in another window.\n", 1))

    def test_pipes(self) -> None:
        """Pipes in office/ hold nobody up."""
        window = self.open()
        for name in ("beware", "pid", "fault", "table"):
            path = os.path.join(self.here, "cup", "office", name)
            with contextlib.suppress(FileNotFoundError):
                os.remove(path)
            os.mkfifo(path)
        # The end of a trial reads the program's number.
        self.addCleanup(os.remove, os.path.join(self.here, "cup", "office", "pid"))
        typing = self.client("cup", "--role", "finish")
        window.press()
        window.read(r"Close the office\? \[y/N\] $")
        window.say("y", "Closed")
        self.assertEqual(window.rest()[1], 0)
        self.assertIn("The office is being closed", typing.rest()[0])
        again = self.window("open", "cup")
        self.assertIn("the office can't be opened: ", again.rest()[0])


if __name__ == "__main__":
    unittest.main()
