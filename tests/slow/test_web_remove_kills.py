"""A boat is in a journal or out of it, whenever the web is killed while it takes her out: the office opens again without a
question, and its log says that she is out."""
from __future__ import annotations

import contextlib
import os
import signal
import sys
import traceback
import unittest
from unittest import mock

from raceoffice.office.before_opening import is_continued
from raceoffice.series import copies
from raceoffice.series.continuity import differences, note_now
from raceoffice.series.folder import Folder
from raceoffice.series.lost_lines import Unsaved
from raceoffice.session.dialogue import Question
from raceoffice.web.kept_office import KeptOffice
from test_kills import Steps
from test_web_kills import BY, Held, Prepared, Sent, Trial, lines_of, tap_of

CALLS = ["write", "fsync", "replace", "rename", "ftruncate"]
SHEET = "times/race-1.csv"


class Removals(Trial):
    """The office is closed."""
    sail = "IRL5"
    names = ("journal.txt", SHEET, "office/places", "office.log")

    def removed(self, stop: int = 0, is_torn: bool = False) -> list[str]:
        """Takes a boat out in a process of its own, which is killed before a step; the steps."""
        out, into = os.pipe()
        child = os.fork()
        if not child:
            os.close(out)
            self.take_out(stop, is_torn, into)
        os.close(into)
        with open(out, encoding="ascii") as pipe:
            steps = pipe.read().split()
        _, status = os.waitpid(child, 0)
        self.assertEqual(os.WIFSIGNALED(status), bool(stop))
        return steps

    def take_out(self, stop: int, is_torn: bool, into: int) -> None:
        write, status = os.write, 1
        steps = Steps(stop, lambda: os.kill(os.getpid(), signal.SIGKILL), is_torn)
        try:
            with contextlib.ExitStack() as stack:
                for name in CALLS:
                    stack.enter_context(mock.patch.object(os, name, steps.wrapped(name, getattr(os, name))))
                steps.is_on = True
                KeptOffice(Folder(self.folder.path), lambda text: None).take_out(self.sail, BY, lambda asked: True)
                steps.is_on = False
            write(into, " ".join(steps.taken).encode())
            status = 0
        except BaseException:
            traceback.print_exc(file=sys.__stderr__)
        finally:
            os._exit(status)

    def begin_again(self, before: Held) -> None:
        """Makes the series what it was, with no dated copy that is newer."""
        for name, data in before.items():
            with open(self.folder.file(name), "wb") as file:
                file.write(data)
        for name in os.listdir(self.folder.file("kept")):
            if name not in self.dated:
                os.remove(self.folder.file("kept", name))

    def log_of(self, what: str) -> list[str]:
        return [entry.line for entry in self.folder.logged() if entry.line.startswith(what)]

    def kill_at_each_step(self) -> None:
        """Closes the office, and kills the web before each step of the removal."""
        self.close()
        self.close_in_order()
        before, self.dated = self.files(), set(os.listdir(self.folder.file("kept")))
        steps = self.removed()
        self.after = self.files()
        after = lines_of(self.after)
        self.assertEqual([line for line in lines_of(before) if self.sail not in line.split()], after)
        self.assertGreater(len(steps), 15)
        for stop, step in enumerate(steps, 1):
            for is_torn in (False, True)[:1 + (step == "write")]:
                with self.subTest(stop=stop, step=step, is_torn=is_torn):
                    self.begin_again(before)
                    self.removed(stop, is_torn)
                    self.opened_again(before, after)

    def close_in_order(self) -> None:
        """Has the log and the dated copies as an office leaves them that was closed."""
        data = self.folder.parts()[0]
        copies.keep(self.folder, data)
        self.folder.log("", "", "", "closed", note_now(self.folder, data))

    def opened_again(self, before: Held, after: list[str]) -> None:
        """What the next opening makes of what a kill has left."""
        asked: list[str] = []

        def ask(question: Question) -> bool:
            asked.append(question.kind)
            return False
        self.assertTrue(is_continued(self.folder, lambda text: None, ask), asked)
        self.assertEqual((asked, differences(self.folder)), ([], ""))
        self.assertEqual(Unsaved.read(self.folder.kept(), self.folder.logged()).in_words(), [])
        lines = lines_of(self.files())
        self.assertIn(lines, (lines_of(before), after))
        self.assertEqual(self.log_of("removed "), [f"removed {self.sail}"] * (lines == after))
        if lines == after:
            self.assertEqual(self.files().get(SHEET), self.after.get(SHEET))
        else:
            self.removed()
            self.assertEqual(lines_of(self.files()), after)
            self.assertEqual(differences(self.folder), "")


class Removed(Removals):
    """A class by the order of finishing."""

    def test_removed(self) -> None:
        """She has finished, and was said to be at a place."""
        self.serving()
        place = [Sent("FINISH", ("line", "cup"), one) for one in (tap_of(1, "? 1", behind=None), tap_of(2, f"?1 1 {self.sail}"))]
        answers, _ = self.asked(place)
        self.assertEqual([status for status, _ in answers], [200, 200], answers)
        self.typed("FINISH FINISH 2 IRL5", "FINISH FINISH 1 GBR7")
        self.kill_at_each_step()


class RemovedTimed(Removals, Prepared):
    """A class by corrected time: her row in a sheet doesn't outlast her, as she may be entered again."""
    sail = "NED12"

    def test_removed(self) -> None:
        with open(self.folder.file(SHEET), "a", encoding="utf-8") as file:
            file.write(f"{self.sail},14:00:00,15:30:00,\n")
        self.serving()
        self.typed("FINISH TIME 1 NED12 5400", "FINISH TIME 1 GBR7 3510")
        self.kill_at_each_step()
        self.assertNotIn(self.sail.encode(), self.files()[SHEET])


if __name__ == "__main__":
    unittest.main()
