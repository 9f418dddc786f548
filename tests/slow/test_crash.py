"""Crashes while three windows write: what was answered is in the journal, and nothing is listed as lost."""
from __future__ import annotations

import contextlib
import os
import random
import signal
import subprocess
import unittest

import helpers

TURNS = 6
BOATS = ["GBR101", "GBR7", "NED12", "FRA9", "GBR33", "IRL5", "IRL55"]


def lines_of(dice: random.Random) -> str:
    """Lines enough for a turn, some of which are refused."""
    lines = []
    for _ in range(3000):
        race, boat = dice.randint(1, 9), dice.choice(BOATS)
        lines.append(dice.choice([f"FINISH {race} {boat}", f"STRIKE {race} {boat}",
                                  f"MARK {race} {boat} DNF", f"PENALTY {race} {boat} ZFP"]))
    return "\n".join(lines) + "\n"


def answered_in(said: str) -> dict[int, str]:
    """What a window says was answered: lines by the numbers of their answers."""
    found, line = {}, ""
    for text in said.splitlines():
        if text.startswith("> "):
            line = text[2:]
        elif text.startswith("OK "):
            found[int(text.split()[1])] = line
    return found


class Crashes(helpers.Series):
    def writer(self, seed: int) -> subprocess.Popen[str]:
        """A window that sends lines until the office goes."""
        path = os.path.join(self.here, f"lines-{seed}")
        self.write(lines_of(random.Random(seed)), path)
        with open(path, encoding="utf-8") as lines:
            return subprocess.Popen(
                [*helpers.COMMAND, "type", "cup", "--role", "finish",
                 "--go-on"], cwd=self.here, stdin=lines, stdout=subprocess.PIPE,
                stderr=subprocess.STDOUT, text=True)

    def opened(self) -> tuple[helpers.Terminal, str]:
        """The office's window, and what it says at its opening; a running office is taken over."""
        window = self.window("open", "cup")
        said = window.read(r"is open\.|\[Y/n\] $")
        if said.endswith("] "):
            window.type("y")
            said += window.read("is open")
        return window, said

    def is_running(self, number: int) -> bool:
        with contextlib.suppress(OSError):
            return os.path.samefile(f"/proc/{number}/cwd", os.path.join(self.here, "cup", "office"))
        return False

    def test_random_moments(self) -> None:
        dice = random.Random(5)
        answered: dict[int, str] = {}
        window, _ = self.opened()
        self.addCleanup(self.stop, "cup")
        for turn in range(TURNS):
            kind = ("office", "window", "both")[turn % 3]
            said = self.crash(window, kind, dice.randint(15, 60), turn * 3)
            answered |= answered_in(said)
            window, opened = self.opened()
            self.assertNotIn("lost", opened)
            self.agree(answered)
        self.assertGreater(len(answered), 50)
        window.press()
        self.assertEqual(window.rest()[1], 0)

    def agree(self, answered: dict[int, str]) -> None:
        """What was answered is in the journal, in its place: after the line of the version."""
        journal = self.text("cup", "journal.txt").splitlines()
        for number, line in answered.items():
            self.assertTrue(journal[number].endswith(f" FINISH {line}"), (number, line))

    def wait_for_lines(self, lines: int) -> None:
        """Waits until the writers have had this many more answers."""
        held = self.text("cup", "office.log").count("\n")
        helpers.until("the answers", lambda: self.text("cup", "office.log").count("\n") >= held + lines)

    def crash(self, window: helpers.Terminal, kind: str, lines: int, seed: int) -> str:
        """Kills office, window or both while three write; all that the writers have said."""
        writers = [self.writer(seed + at) for at in range(3)]
        number = int(self.text("cup", "office", "pid").split()[0])
        self.wait_for_lines(lines)
        if kind != "office":
            window.process.kill()
        if kind != "window":
            os.kill(number, signal.SIGKILL)
        else:
            # The office outlives its window, and so do the writers.
            self.assertTrue(self.is_running(number))
            self.wait_for_lines(lines)
            for writer in writers:
                writer.terminate()
        window.process.wait()
        return "".join(writer.communicate()[0] for writer in writers)


if __name__ == "__main__":
    unittest.main()
