"""A place at the line is never lost: every process is killed before each step that a window takes."""
from __future__ import annotations

import contextlib
import fcntl
import json
import os
import signal
import socket
import subprocess
import sys
import traceback
import unittest
from collections.abc import Callable
from unittest import mock
from typing import Any

import helpers
from raceoffice.errors import NotSent, Trouble
from raceoffice.series.folder import Folder
from raceoffice.session.dialogue import Said
from raceoffice.session.session import Session

# What is typed, and at which lines the steps are counted.
TYPED = ["101", "?", "12", "?1 33"]
COUNTED = ("?", "?1 33")
UNDONE = [*TYPED, "undo"]
# Every call by which a window changes anything, or learns of it.
CALLS = [(os, "open"), (os, "write"), (os, "fsync"), (os, "ftruncate"), (os, "close"), (fcntl, "flock"),
         (socket.socket, "sendall"), (socket.socket, "recv")]
KEPT, OK = "?1 keeps her place", "OK "


class Steps:
    """The steps of a window: before one of them something is done, perhaps with half of the step."""

    def __init__(self, stop: int, do: Callable[[], None], half: bool = False) -> None:
        self.stop, self.do, self.half = stop, do, half
        self.is_on = False
        self.taken: list[str] = []

    def take(self, name: str, half: Callable[[], object] | None = None) -> None:
        if self.is_on:
            self.taken.append(name)
            if len(self.taken) == self.stop:
                if self.half and half:
                    half()
                self.do()

    def wrapped(self, name: str, call: Callable[..., object]) -> Callable[..., object]:
        def step(*words: Any, **more: Any) -> object:
            def half() -> None:
                call(words[0], words[1][:len(words[1]) // 2])
            self.take(name, half if name == "write" else None)
            return call(*words, **more)
        return step


class Served(helpers.Series):
    """A series whose program is started whenever it has gone."""

    def setUp(self) -> None:
        super().setUp()
        self.folder = Folder(os.path.join(self.here, "cup"))
        self.folder.make_private()
        # More of what the program is started with
        self.words: tuple[str, ...] = ()
        self.program: subprocess.Popen[bytes] | None = None
        self.addCleanup(self.close)

    def close(self) -> None:
        if self.program:
            self.program.kill()
            self.program.wait()
        self.program = None

    def serving(self) -> subprocess.Popen[bytes]:
        """The program, which is started if it has gone."""
        if self.program and self.program.poll() is None:
            return self.program
        self.close()
        with contextlib.suppress(FileNotFoundError):
            os.remove(self.folder.socket)
        words = [] if os.path.exists(self.folder.journal) else ["--entries", "../entries.csv"]
        self.program = subprocess.Popen(
            [helpers.PROGRAM, "serve", "--socket", "race.sock", "--keep", "../journal.txt", *self.words, *words],
            cwd=self.folder.file("office"), stdin=subprocess.DEVNULL, stdout=subprocess.DEVNULL,
            stderr=subprocess.DEVNULL)
        helpers.until("the office", self.is_open)
        return self.program

    def is_open(self) -> bool:
        with contextlib.suppress(Trouble), contextlib.closing(self.folder.link()):
            return True
        return False


class Kills(Served):
    """One race after another is sailed at one office, which is opened again after each kill."""

    def setUp(self) -> None:
        super().setUp()
        self.race, self.places = 0, self.folder.file("office", "places")
        self.lines: list[str] = TYPED
        self.counted: tuple[str, ...] = COUNTED

    def next_race(self) -> int:
        """A race of which nothing is recorded; after the last of a series that of a new one."""
        self.race = self.race % 40 + 1
        if self.race == 1:
            self.close()
            with contextlib.suppress(FileNotFoundError):
                os.remove(self.folder.journal)
            # The first line of the file takes steps of its own.
            self.write("\n", self.places)
        return self.race

    def test_window(self) -> None:
        """The window is killed before each step, and in the middle of each write. If it had said that the
        place is kept, it is; and she is put into it once."""
        steps = self.each_step("window")
        self.assertEqual([steps.count(name) for name in ("say", "sendall", "write")], [3, 5, 4], steps)
        for stop, step in enumerate(steps, 1):
            if step == "write":
                with self.subTest(stop=stop):
                    self.trial(stop, "torn")

    def test_program(self) -> None:
        """The same of the program."""
        self.each_step("program")

    def test_both(self) -> None:
        """The same of both at once."""
        self.each_step("both")

    def each_step(self, victim: str) -> list[str]:
        """Kills before each step; the steps."""
        steps = self.trial(0, victim)
        for stop, step in enumerate(steps, 1):
            with self.subTest(stop=stop, step=step):
                self.trial(stop, victim)
        return steps

    def test_undo(self) -> None:
        """The window, or both, are killed before each step of an undo: either the boat is in the order or her place
        is kept, never both, and never neither."""
        self.lines, self.counted = UNDONE, ("undo",)
        for victim in ("window", "both"):
            steps = self.each_step(victim)
            self.assertEqual([steps.count(name) for name in ("sendall", "write")], [4, 3], steps)

    def test_on_the_disk(self) -> None:
        """A line is on the disk before it is answered, and before what it speaks of is sent."""
        self.next_race()
        os.remove(self.places)
        steps = self.trial(0, "window")
        told = steps.index("say")
        self.assertEqual([name for name in steps[:told] if name in ("write", "fsync")],
                         # The first line makes the file, whose name goes to the disk, too.
                         ["fsync", "write", "fsync"])
        line = len(steps) - 1 - steps[::-1].index("write")
        sent = max(at for at, name in enumerate(steps[:line]) if name == "sendall")
        self.assertIn(["write", "fsync"], [steps[at:at + 2] for at in range(told, sent)])

    def trial(self, stop: int, victim: str) -> list[str]:
        """Kills before this step, and looks at what is left; the steps that were taken."""
        race = self.next_race()
        program = self.serving()
        files = f"/proc/{program.pid}/fd"
        held = len(os.listdir(files))
        said, steps = self.typed(stop, victim, program.pid)
        if stop and victim in ("program", "both"):
            program.wait()
        else:
            # What a window sent before it was killed is taken before its link ends.
            helpers.until("the end of its link", lambda: len(os.listdir(files)) <= held)
        files = f"/proc/{self.serving().pid}/fd"
        held = len(os.listdir(files))
        self.look(said, race)
        # Else the next trial wouldn't see the end of the link that it waits for.
        helpers.until("the end of the last link", lambda: len(os.listdir(files)) <= held)
        return steps

    def typed(self, stop: int, victim: str, program: int) -> tuple[str, list[str]]:
        """What a window says in which somebody types, until it is killed; and its steps."""
        out, into = os.pipe()
        child = os.fork()
        if not child:
            os.close(out)
            self.type(stop, victim, program, into)
        os.close(into)
        with open(out, encoding="utf-8") as pipe:
            said = pipe.read()
        os.waitpid(child, 0)
        said, _, steps = said.partition("STEPS ")
        return said, json.loads(steps or "[]")

    def type(self, stop: int, victim: str, program: int, into: int) -> None:
        """Types all lines, in a process of its own."""
        write, status = os.write, 1

        def kill() -> None:
            if victim in ("program", "both"):
                os.kill(program, signal.SIGKILL)
            if victim != "program":
                os.kill(os.getpid(), signal.SIGKILL)

        def say(said: Said) -> None:
            steps.take("say")
            write(into, said.text.encode() + b"\n")
        steps = Steps(stop, kill, victim == "torn")
        try:
            with contextlib.ExitStack() as stack:
                for where, name in CALLS:
                    call = steps.wrapped(name, getattr(where, name))
                    stack.enter_context(mock.patch.object(where, name, call))
                session = Session(self.folder, "FINISH", "Ann", say, lambda _: True)
                session.connect()
                with contextlib.suppress(Trouble):
                    session.do(f"at {self.race}")
                    for line in self.lines:
                        steps.is_on = line in self.counted
                        session.do(line)
                steps.is_on = False
            write(into, b"STEPS " + json.dumps(steps.taken).encode())
            status = 0
        except BaseException:
            traceback.print_exc(file=sys.__stderr__)
        finally:
            os._exit(status)

    def look(self, said: str, race: int) -> None:
        """What the next window finds, and what it makes of it."""
        told: list[Said] = []
        session = Session(self.folder, "SCORER", "Eve", told.append, lambda _: True)
        session.connect()
        self.assertEqual(session.history.faults, [])
        is_in = ["GBR33"] in session.facts.race(str(race)).order
        if KEPT in said or is_in:
            self.assertNotEqual(is_in, "?1" in session.unread.marks(race), said)
        if self.lines == TYPED and "NED12" in said.partition(KEPT)[2] and OK in said.partition("33")[2]:
            self.assertTrue(is_in, said)
        for mark in session.unread.marks(race):
            session.do(f"at {race}")
            # A line of a window that was killed may still be on its way to the office.
            with contextlib.suppress(NotSent):
                session.do(f"{mark} 33")
            session.look()
        self.assertEqual(session.unread.all, (), told)
        if (race, "?1") in session.history.kept:
            lines = [line for line in session.facts.commands if line.split()[1:3] == [str(race), "GBR33"]]
            self.assertIn(len(lines), [1] if self.lines == TYPED else [1, 3])
            order = [sail for group in session.facts.race(str(race)).order for sail in group]
            self.assertEqual(order, [sail for sail in ("GBR101", "GBR33", "NED12") if sail in order])
            with open(self.places, encoding="ascii") as file:
                notes = [json.loads(line) for line in file if line.strip()]
            ends = [note for note in notes if (note["what"], note["race"]) == ("resolved", race)]
            put = [line for line in lines if not line.startswith("STRIKE ")]
            self.assertEqual([session.facts.commands[end["entry"] - 1] for end in ends], put)
        session.disconnect()

    def test_all_windows(self) -> None:
        """After everything was killed, each window knows who is without a sail, and says so before the
        race is scored or the office is closed."""
        self.make("two", entries="Sail\nGBR 101\nGER 101\nNED 12\nGBR 33\n")
        office = self.open("two")
        finish = self.client("two", "--role", "finish", "--name", "Ann")
        self.play(finish, """
> at 1
> gbr 33
> ?
   ?1 keeps her place. Once she is known, type: ?1 and her sail (or none)
> 101
   101 may be GBR 101 or GER 101. 101? keeps her place. Once she is known, type: 101? and her sail (or none)
> 12
OK 6   4th in race 1, with 2 unread finishers ahead; 2 finished, 0 coded, 2 to come of 4
""")
        for victim in (finish.process, office.process):
            victim.kill()
            victim.wait()
        helpers.kill_office(os.path.join(self.here, "two"))
        office = self.window("open", "two")
        self.addCleanup(self.stop, "two")
        self.assertIn("\nKept without a sail: ?1 and 101? in race 1.\n",
                      office.read("The office is open.*\n"))
        finish = self.window("type", "two", "--role", "finish")
        finish.read("help lists your lines.\nKept without a sail: \\?1 and 101\\? in race 1.\n> $")
        scorer = self.client("two", "--role", "scorer")
        self.assertRegex(scorer.say("score 1", r"\[y/N\] $"),
                         r"\n    \?1  2nd on the water, but her sail isn't "
                         r"known\n  101\?  3rd on the water(.|\n)*\n   \?1 \(kept by Ann at \d\d:\d\d\) and "
                         r"101\? \(kept by Ann at \d\d:\d\d\): finishers without a sail would be left out\. "
                         r"Score it all the same\? \[y/N\] $")
        scorer.say("n", "Not sent.\n> $")
        self.play(finish, """
> at 1
> ?1 gbr 101
   BEFORE 1 GBR101 NED12
> 101? ger
   BEFORE 1 GER101 NED12
> race 1
     1  GBR 33
     2  GBR 101
     3  GER 101
     4  NED 12
> at 2
> 101?
   101? keeps her place.
""")
        for window in (finish, scorer):
            window.type("quit")
            self.assertEqual(window.rest(), ("Kept without a sail: 101? in race 2.\n", 0))
        final = self.window("final", "two")
        final.read(r"Kept without a sail: 101\? in race 2\.\nAre the results final all the same\? \[y/N\] $")
        final.type("n")
        self.assertEqual(final.rest(), ("Nothing was announced.\n", 1))
        office.press()
        office.read(r"^Kept without a sail: 101\? in race 2\. Close the office\? \[y/N\] $")
        office.say("n", "The office stays open\\.\n$")
        scorer = self.client("two", "--role", "scorer")
        office.press()
        office.read(r"1 window is still open: scorer since \d\d:\d\d\. Kept without a sail: 101\? in race "
                    r"2\. Close ")
        office.say("n", "The office stays open\\.\n$")
        scorer.say("abandon 2", r"Drop the places\? \[y/N\] $")
        scorer.say("y", "Race 2 is taken away: no lines, all taken.\n> $")
        scorer.type("quit")
        self.assertEqual(scorer.rest(), ("", 0))
        office.press()
        self.assertIn("Closed.", office.rest()[0])


if __name__ == "__main__":
    unittest.main()
