"""The windows of those who type when an office goes, comes back, or has no seat."""
from __future__ import annotations

import ctypes
import functools
import os
import signal
import socket
import sys
import threading
import unittest
from unittest import mock

import helpers
from raceoffice.errors import Trouble
from raceoffice.series.folder import Folder
from raceoffice.session.dialogue import Question
from raceoffice.session.session import Session
from raceoffice.typing_window.lines_back import LinesBack as LinesBackFound, lines_back
from raceoffice.typing_window.watcher import News, Watcher
from raceoffice.typing_window.window import Window


# How long an answer may take, for a trial that waits for none.
SHORT = {"program.link.PATIENCE": 3.0}


class LinesBack(unittest.TestCase):
    """Lines of a window by their numbers: A is taken out of entries 1 and 4."""

    BEFORE = ["- 1 SCORER ENTER A", "- 2 SCORER ENTER B", "- 3 FINISH FINISH 1 B", "- 4 FINISH FINISH 1 A",
              "- 5 JURY PENALTY 1 B ZFP", "- 6 JURY PENALTY 1 B ZFP"]
    AFTER = ["ENTER B", "FINISH 1 B", "PENALTY 1 B ZFP", "PENALTY 1 B ZFP"]

    def test_lower_numbers(self) -> None:
        back = lines_back({1: "ENTER A", 3: "FINISH 1 B", 4: "FINISH 1 A", 6: "PENALTY 1 B ZFP"}, self.BEFORE,
                          self.AFTER, ["A"])
        self.assertEqual(back, LinesBackFound(["A"], {2: "FINISH 1 B", 4: "PENALTY 1 B ZFP"}, {}, {3: 2, 6: 4}))

    def test_lost_beside(self) -> None:
        """A line that is lost is named, also if somebody else has sent the same line."""
        back = lines_back({3: "FINISH 1 B", 6: "PENALTY 1 B ZFP"}, self.BEFORE, self.AFTER[:3], ["A"])
        self.assertEqual((back.sent, back.lost), ({2: "FINISH 1 B"}, {6: "PENALTY 1 B ZFP"}))

    def test_lost_without(self) -> None:
        """Without a boat taken out a line counts at its number alone."""
        back = lines_back({6: "PENALTY 1 B ZFP"}, self.BEFORE, self.AFTER, [])
        self.assertEqual((back.sent, back.lost), ({}, {6: "PENALTY 1 B ZFP"}))

    def test_put_back(self) -> None:
        """Somebody has put the journal with her back."""
        journal = [line.split(maxsplit=3)[3] for line in self.BEFORE]
        sent = {1: "ENTER A", 6: "PENALTY 1 B ZFP"}
        self.assertEqual(lines_back(sent, self.BEFORE, journal, ["A"]),
                         LinesBackFound([], sent, {}, {1: 1, 6: 6}))

    def test_unseen(self) -> None:
        """Entry 7 is somebody else's, perhaps about her. Entry 8 was answered just before the office went."""
        some: tuple[list[str], ...] = ([], ["FINISH 2 C"])
        for more in some:
            back = lines_back({8: "FINISH 2 B"}, self.BEFORE, [*self.AFTER, *more, "FINISH 2 B"], ["A"])
            self.assertEqual((back.numbers, back.lost), ({8: 5 + len(more)}, {}))
        self.assertEqual(lines_back({8: "FINISH 2 B"}, self.BEFORE, self.AFTER, ["A"]).lost, {8: "FINISH 2 B"})


class Offices(helpers.Series):
    def test_no_answer(self) -> None:
        """A line without an answer is looked for after the crash, and listed by the office."""
        office = self.open()
        window = self.typist("scorer", waits=SHORT)
        window.say("enter den 16", r"\[y/N\] $")
        number = int(self.text("cup", "office", "pid").split()[0])
        helpers.freeze(number)
        window.type("y")
        window.read("No answer came to: ENTER DEN16\nIt may be in the journal, or not.\nBeware: the "
                    "office hasn't answered for 3 seconds. Waiting")
        os.kill(number, signal.SIGKILL)
        office.rest()
        again = self.window("open", "cup")
        said = again.read("The office is open")
        self.addCleanup(self.stop, "cup")
        self.assertIn("These lines had no answer. Look whether they are in the journal before you type "
                      "them again:\n          SCORER  ENTER DEN16\n", said)
        window.read("ENTER DEN16 is not in the journal.\n> $")

    def test_not_sent(self) -> None:
        """A line that the office didn't get, since it had stopped, comes back."""
        self.open()
        window = self.typist(waits=SHORT)
        number = int(self.text("cup", "office", "pid").split()[0])
        helpers.freeze(number)
        window.type("finish 1 7")
        window.read("Not sent: finish 1 7\nBeware: the office hasn't answered for 3 seconds. Waiting")
        os.kill(number, signal.SIGCONT)
        window.read("The office is back with 7 entries.\n> $")
        window.say("finish 1 7", "OK 8 ")

    def test_half_a_line(self) -> None:
        """What has been typed of a line when the office goes is there again afterwards."""
        office = self.open()
        window = self.typist()
        os.write(window.master, b"finish 1 10")
        os.kill(int(self.text("cup", "office", "pid").split()[0]), signal.SIGKILL)
        window.read("Beware: ")
        office.rest()
        self.open()
        window.read("is back with 7 entries.\n> ")
        window.say("1", "101 is GBR 101 Kestrel\nOK 8 ")

    def test_full(self) -> None:
        """If all seats are taken, the window says by whom."""
        self.make("small", seats="2")
        self.open("small")
        first = self.client("small", "--role", "finish", "--name", "Ann")
        second = self.window("type", "small", "--role", "jury")
        second.read(r"Waiting: all seats of the office are taken: Ann since \d\d:\d\d\. Ctrl-C ends")
        first.type("quit")
        second.read("you type as the jury")

    def test_not_open(self) -> None:
        """A window that comes before the office says what opens it, and waits for it."""
        self.make("later")
        window = self.window("type", "later", "--role", "jury")
        window.read(r"Waiting: no office is open there: .* open \S*later opens it\. Ctrl-C ends")
        self.open("later")
        window.read("you type as the jury")

    def test_crash(self) -> None:
        """A kill of the office is said at the prompt; afterwards what is lost is listed."""
        office = self.open()
        window = self.typist()
        # The journal has her line in its one form.
        window.say("finish 01 101", "OK 8 .*\n> $")
        self.assertEqual(self.held(), 8)
        os.kill(int(self.text("cup", "office", "pid").split()[0]), signal.SIGKILL)
        window.read(r"Beware: the office has gone\. Waiting for the office; Ctrl-C ends this window\.")
        window.type("finish 1 7")
        office.rest()
        again = self.open()
        said = window.read("> $")
        self.assertIn("Not sent, since the office was away: finish 1 7", said)
        self.assertIn("The office is back with 8 entries.\nYour last line, OK 8 FINISH 1 GBR101, is "
                      "among them.", said)
        window.say("finish 1 12", "OK 9 .*\n> $")
        self.assertEqual(self.held(), 9)
        again.process.kill()
        again.process.wait()
        os.kill(int(self.text("cup", "office", "pid").split()[0]), signal.SIGKILL)
        window.read("Beware: the office has gone")
        # Somebody puts an older journal in its place, with eight entries.
        kept = self.text("cup", "journal.txt").splitlines(keepends=True)
        self.write("".join(kept[:9]), "cup", "journal.txt")
        third = self.open()
        said = window.read("> $")
        self.assertIn("The office is back with 8 entries.\nThese lines of yours are lost.", said)
        self.assertIn("       9  FINISH 1 NED12\n", said)
        window.say("finish 1 12", "OK 9 .*\n> $")
        third.press()
        third.read("1 window is still open: finish since .*. Close the office\\? \\[y/N\\] $")
        third.type("y")
        self.assertIn("Closed. journal.txt has 9 entries", third.rest()[0])
        said, status = window.rest()
        self.assertIn("The office is being closed: this window ends.", said)
        self.assertEqual(status, 0)

    def test_no_seat(self) -> None:
        """A window waits for a seat, and gets the one that somebody leaves."""
        self.make("two", seats="2")
        self.open("two")
        first = self.client("two", "--role", "finish")
        second = self.window("type", "two", "--role", "jury")
        second.read("Waiting: all seats of the office are taken: finish since .*Ctrl-C ends this window.")
        first.type("quit")
        self.assertEqual(first.rest()[1], 0)
        second.read("you type as the jury(.|\\n)*> $")

    def test_office_that_is_going(self) -> None:
        """An office that lets somebody in and never answers is no office."""
        place = os.path.join(self.here, "cup", "office")
        os.mkdir(place)
        with socket.socket(socket.AF_UNIX, socket.SOCK_STREAM) as door:
            door.bind(os.path.join(place, "race.sock"))
            door.listen()
            threading.Thread(target=lambda: door.accept()[0].close(), daemon=True).start()
            session = Session(Folder(os.path.join(self.here, "cup")), "FINISH", "", print, bool)
            self.assertRaises(Trouble, session.connect)
            self.assertIsNone(session.link)

    def test_block_and_crash(self) -> None:
        """When the office goes in the middle of a block, the rest isn't sent."""
        office = self.open()
        window = self.typist("scorer")
        window.say("finish 1 101\x16\nenter den 16\x16\nfinish 1 7", r"OK 8 (.|\n)*\[y/N\] $")
        os.kill(int(self.text("cup", "office", "pid").split()[0]), signal.SIGKILL)
        window.type("y")
        window.read("No answer came to: ENTER DEN16\n(.|\n)*Waiting for the office")
        office.rest()
        self.open()
        said = window.read("> $")
        self.assertIn("Not sent, since the office was away: finish 1 7\n", said)
        self.assertNotIn("FINISH 1 GBR7", self.text("cup", "office.log"))

    def test_waiting_ended(self) -> None:
        """Ctrl-C ends a window that waits for its office."""
        office = self.open()
        window = self.typist()
        os.kill(int(self.text("cup", "office", "pid").split()[0]), signal.SIGKILL)
        window.read("Waiting for the office; Ctrl-C ends this window.")
        office.rest()
        window.press()
        self.assertEqual(window.rest()[1], 0)
        self.assertIn("\tleft\t", self.text("cup", "office.log"))


class Watching(helpers.Series):
    """What is looked at while somebody is at the prompt."""

    def setUp(self) -> None:
        super().setUp()
        self.addCleanup(signal.signal, signal.SIGUSR1, signal.getsignal(signal.SIGUSR1))

    def test_closed_meanwhile(self) -> None:
        """A link that the window closes just then isn't heard."""
        session = Session(Folder(os.path.join(self.here, "cup")), "FINISH", "", print, bool)
        with socket.socket() as link:
            session.link = mock.Mock(fileno=link.fileno)
            link.close()
            self.assertFalse(Watcher([session]).is_heard(0))

    def test_seats(self) -> None:
        """Whether an office is full is known as far as the system tells, and by its settings if its program
        doesn't."""
        folder = Folder(self.make("two", seats="2"))
        self.assertEqual(folder.seats(), 2)
        for sockets, full in (([True, False], False), ([True, False, False], True)):
            with mock.patch("raceoffice.system.sockets_at", return_value=sockets):
                self.assertEqual(folder.has_no_seat(), full)
        with mock.patch("raceoffice.system.sockets_at", side_effect=Trouble("nobody can say")):
            self.assertFalse(folder.has_no_seat())

    def test_without_readline(self) -> None:
        """Where Python can't edit lines, they are typed all the same."""
        with mock.patch("raceoffice.typing_window.watcher.readline", None), \
                mock.patch("builtins.input", return_value="101"):
            self.assertEqual(Watcher([]).ask("> "), "101")

    def test_ctrl_c(self) -> None:
        """Ctrl-C ends no window, also as the one before is answered. The line that it may have cost is named once."""
        said: list[str] = []
        window = Window([Folder(os.path.join(self.here, "cup"))], "FINISH", "")
        window.under_way = "101"
        with mock.patch.object(window, "is_going_on", side_effect=[KeyboardInterrupt, KeyboardInterrupt, False]), \
                mock.patch.object(window, "say_kept", side_effect=[KeyboardInterrupt, None, None]), \
                mock.patch("raceoffice.typing_window.window.say", said.append):
            window.stay()
        quits = "   Type quit to leave."
        self.assertEqual(said, ["   Interrupted. Look whether this line is in the journal, or a place kept: 101", *[quits] * 3])

    def test_ctrl_c_twice(self) -> None:
        """A second one before the first is answered is none, nor is one that readline would swallow as the line begins: the
        next is heard. After a question, which it answers by no, it is heard again."""
        window, here = Window([Folder(os.path.join(self.here, "cup"))], "FINISH", ""), sys._getframe()
        window.is_doing = True
        with mock.patch("raceoffice.typing_window.watcher.readline") as readline:
            readline.insert_text.side_effect = lambda _: window.hear(signal.SIGINT, sys._getframe())
            window.watcher.begin()
        self.assertRaises(KeyboardInterrupt, window.hear, signal.SIGINT, here)
        window.hear(signal.SIGINT, here)
        with mock.patch("raceoffice.typing_window.window.question", return_value=False):
            self.assertFalse(window.ask(Question("kind", {}, "Send it?")))
        self.assertRaises(KeyboardInterrupt, window.hear, signal.SIGINT, here)

    def test_two_signals(self) -> None:
        """Python makes a fault of Ctrl-C, or of news, that comes with another signal while it asks for the line."""
        for came in (KeyboardInterrupt, News):
            both = SystemError("a result with an exception set")
            both.__cause__ = came()
            with mock.patch("builtins.input", side_effect=both):
                self.assertRaises(came, Watcher([]).ask, "> ")

    def test_ctrl_c_as_an_office_is_back(self) -> None:
        """Which lines are lost is said again if Ctrl-C comes before all is said."""
        said: list[str] = []
        window = Window([Folder(os.path.join(self.here, "cup"))], "JURY", "")
        session, (link, other) = window.sessions[0], socket.socketpair()
        self.addCleanup(link.close)
        self.addCleanup(other.close)
        session.link, session.sent = mock.Mock(fileno=link.fileno), {1: "FINISH 1 GBR101", 2: "FINISH 1 GBR7"}
        session.facts = mock.Mock(commands=["FINISH 1 GBR101"])
        window.taken_out[session], window.known[session] = [], []
        presses = [KeyboardInterrupt]

        def say(text: str) -> None:
            if "are lost" in text and presses:
                raise presses.pop()
            said.append(text)
        with mock.patch.object(window, "is_going_on", side_effect=[KeyboardInterrupt, False]), \
                mock.patch.object(window, "say_kept"), mock.patch("raceoffice.typing_window.window.say", say):
            window.stay()
        self.assertEqual((said[-1], session.sent, window.known), ("       2  FINISH 1 GBR7", {1: "FINISH 1 GBR101"}, {}))

    def test_late_signal(self) -> None:
        """A signal that was meant for one prompt doesn't interrupt the next, nor what comes between."""
        watcher = Watcher([])
        watcher.prompts, watcher.interrupted = 2, 1
        for watcher.at_prompt in (True, False):
            watcher.interrupt()
        watcher.interrupted = 2
        watcher.interrupt()
        watcher.at_prompt = True
        self.assertRaises(News, watcher.interrupt)
        self.assertFalse(watcher.at_prompt)

    def test_signal_at_the_enter(self) -> None:
        """A line whose Enter was taken as the signal came isn't lost."""
        watcher = Watcher([])
        watcher.interrupted = 1
        # C alone, as readline: Python learns of the signal when there is a line. It is the 0 of raise(3).
        line = functools.partial(ctypes.CDLL(None)["raise"], signal.SIGUSR1.value)
        with mock.patch("builtins.input", line):
            self.assertEqual(watcher.ask("> "), 0)
        self.assertEqual((watcher.half, watcher.at_prompt), ("", False))

    def test_signal_as_the_line_begins(self) -> None:
        """What is left of the line before is at one prompt, also if it is interrupted as it begins."""
        watcher = Watcher([])
        watcher.prompts = watcher.interrupted = 1
        watcher.half, watcher.at_prompt = "10", True
        with mock.patch("raceoffice.typing_window.watcher.readline") as readline:
            readline.insert_text.side_effect = lambda _: watcher.interrupt()
            watcher.begin()
            readline.insert_text.assert_called_once_with("10")
            readline.get_line_buffer.return_value = "101"
            self.assertRaises(News, watcher.interrupt)
        self.assertEqual(watcher.half, "101")

    def test_fault(self) -> None:
        """A fault of the package in a look leaves its trace and is said once, and the looks go on."""
        class Last(BaseException):
            """Ends what would look for ever."""

        said: list[str] = []
        session = Session(Folder(os.path.join(self.here, "cup")), "FINISH", "", print, bool)
        looks = mock.Mock(side_effect=[ValueError("odd"), ValueError("odd"), Trouble("nobody can say"), Last])
        with mock.patch.object(Watcher, "is_heard", looks), \
                mock.patch("raceoffice.typing_window.watcher.LOOK", 0), \
                mock.patch("raceoffice.typing_window.watcher.say", said.append):
            self.assertRaises(Last, Watcher([session]).run)
        self.assertEqual(len(said), 2, said)
        self.assertIn("ValueError", said[0])
        self.assertEqual(said[1], "nobody can say.")


class EnteredAgain(helpers.Series):
    """A boat was entered by mistake, and taken out while a place is kept behind her. Then she comes after all, and
    finishes after it."""

    def taken_out(self, *lines: str) -> helpers.Terminal:
        """A scorer's window after these lines, the removal of USA 4, and a new opening."""
        self.type_lines(self.open(), *lines)
        said, status = helpers.run("remove", "cup", "USA4", lines="y\n", cwd=self.here)
        self.assertEqual(status, 0, said)
        self.office = self.open()
        window = self.typist("scorer")
        window.say("at 1", "1> $")
        return window

    def type_lines(self, office: helpers.Terminal, *lines: str) -> None:
        """Types these lines for race 1 in a window of its own, and closes the office."""
        window = self.typist("scorer")
        for line in ("at 1", *lines):
            if window.say(line, r"(> |\] )$").endswith("] "):
                window.say("y", "> $")
        window.type("quit")
        window.rest()
        office.process.send_signal(signal.SIGTERM)
        office.rest()

    def test_same_lines(self) -> None:
        """The same lines typed again make the journal what it was: the place is ahead of her all the same, also after
        the next opening."""
        window = self.taken_out("101", "enter usa 4", "usa 4", "?")
        self.play(window, """
> enter usa 4
[y/N]
> y
OK 9
> usa 4
USA4 was ahead of ?1 until she was struck. Has she finished after ?1 now? [y/N]
> y
OK 10   3rd in race 1
> race 1
     1  GBR 101 Kestrel
    ?1  2nd on the water
""")
        window.type("quit")
        window.rest()
        self.office.process.send_signal(signal.SIGTERM)
        self.office.rest()
        self.open()
        self.play(self.typist("scorer"), """
> at 1
> ?1 fra 9
BEFORE 1 FRA9 USA4
""")

    def test_only_boat(self) -> None:
        """Nothing is left of a race whose only boat was taken out: the question comes all the same."""
        window = self.taken_out("enter usa 4", "usa 4", "?")
        self.play(window, """
> enter swe 9
[y/N]
> y
OK 8
> enter usa 4
[y/N]
> y
OK 9
> usa 4
USA4 was ahead of ?1 until she was struck. Has she finished after ?1 now? [y/N]
> y
OK 10   2nd in race 1
> ?1 fra 9
BEFORE 1 FRA9 USA4
""")


if __name__ == "__main__":
    unittest.main()
