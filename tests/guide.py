#!/usr/bin/env python3
"""Plays docs/TYPING.md against a built program, and compares what is printed with what it shows.

    tests/guide.py PROGRAM [--fill]

Every box of the guide, between ``` and ```, is played, one after another, in an empty folder that
has both programs:

- ```file NAME: the text of a file, which is made.
- ```window NAME: what somebody types in a window, and what is printed there. A line that begins
  with `$ ` is a command, and `^C` is Ctrl-C. Where the window asks for something, the rest of that
  line is typed. All else is printed; `...` at the top is whatever was printed since the last box.
- ```window NAME stays: the same, but what runs there is still running at the end of the box, and a
  later box of that window goes on with it.

A command is one of `raceoffice`, and nothing else. Between the boxes `<!-- kill cup -->` ends the office
as a crash would. Times, dates and addresses are compared by their form alone. With --fill what was printed is
written into the guide.
"""
from __future__ import annotations

import contextlib
import os
import re
import shlex
import signal
import sys
import tempfile
import time

import helpers
GUIDE = os.path.join(helpers.TOP, "docs", "TYPING.md")
STEP = re.compile(r"^```([^\n]*)\n(.*?)^```$|^<!-- kill (\S+) -->$", re.MULTILINE | re.DOTALL)
COMMAND = re.compile(r"\$ raceoffice ")
# What varies from one play to the next, and what it is compared as.
VARIES = [(re.compile(r"\b\d{4}-\d\d-\d\d-\d{6}Z?\b"), "DATE"),
          (re.compile(r"\b\d\d:\d\d(:\d\d)?\b"), "TIME"),
          (re.compile(r"http://[^/\s]+/(   \(or [^)]*\))?"), "ADDRESS")]
# A question, or the prompt of those who type, and for how long nothing else comes then.
ASKS, QUIET = re.compile(r"(> |[\]):?] )$"), 0.1
SHOWN_PORT = "8080"
# What a window in which somebody types prints once the office is back after a crash, up to its prompt.
BACK = re.compile(r"The office is back with (?:.|\n)*> $")
# What a board prints once its office is closed.
GONE = re.compile(r"no office is open\.\n")
NOTHING = re.compile("")


class Wrong(Exception):
    """Why a box can't be played."""


class Window:
    """A window of the guide, and the tool that runs in it."""

    def __init__(self, folder: str, port: str, command: list[str]) -> None:
        self.folder, self.port, self.command = folder, port, command
        self.terminal: helpers.Terminal | None = None
        # What runs here, and what it prints before its next box if the office has ended since the last one.
        self.tool = ""
        self.awaits = NOTHING

    def start(self, command: str) -> None:
        if self.terminal:
            raise Wrong("something is still running in this window")
        if not COMMAND.match(command):
            raise Wrong(f"the guide needs no other command than raceoffice: {command}")
        words = shlex.split(command[2:].replace(SHOWN_PORT, self.port))
        self.tool = words[1]
        # No other program is found, so that what is printed is the same on each computer.
        self.terminal = helpers.Terminal(*self.command, *words[1:], cwd=self.folder, PATH="/nowhere",
                                         PYTHONPATH=self.folder)

    @property
    def running(self) -> helpers.Terminal:
        """The terminal in which something runs."""
        if not self.terminal:
            raise Wrong("nothing is running in this window")
        return self.terminal

    def lines(self) -> list[str]:
        """The whole lines that have come."""
        *lines, self.running.text = self.running.text.split("\n")
        return [line.rstrip().replace(self.port, SHOWN_PORT) for line in lines]

    def asked(self) -> str:
        """The question or prompt at which the tool waits, if it does."""
        part = self.running.text
        is_asking = ASKS.search(part) and "\n" not in part and not self.running.more(QUIET)
        return part if is_asking else ""

    def end(self) -> None:
        self.running.process.wait(helpers.PATIENCE)
        self.running.close()
        self.terminal = None


class Box:
    """One command of a box, or a box that goes on with one: what it shows, and how it went."""

    def __init__(self, window: Window, shown: list[str], stays: bool, fill: bool) -> None:
        self.window, self.shown, self.stays, self.fill = window, shown, stays, fill
        self.went: list[str] = []
        self.at = 0

    def play(self) -> list[str]:
        """What was typed and printed, up to the end of the tool or of what is shown."""
        if self.shown[:1] == ["..."]:
            self.skip()
        self.window.awaits = NOTHING
        if self.shown[:1] and self.shown[0].startswith("$ "):
            self.window.start(self.shown[0])
            self.note(self.shown[0])
        if not self.window.terminal:
            raise Wrong("nothing is running in this window")
        end = time.monotonic() + helpers.PATIENCE
        while time.monotonic() < end and not self.is_over():
            pass
        return self.went

    def skip(self) -> None:
        """Leaves out what was printed since the last box. After a crash that has the office's return, and of a board
        that its office has closed."""
        self.note("...")
        while not self.window.awaits.search(self.window.running.text):
            if not self.window.running.more(helpers.PATIENCE):
                raise Wrong("this window doesn't say what became of the office")
        while self.window.running.more(QUIET):
            pass
        self.window.lines()

    def note(self, line: str) -> None:
        self.went.append(line)
        self.at = len(self.went)

    def is_over(self) -> bool:
        """Takes one step; whether nothing is left to do."""
        window, terminal = self.window, self.window.running
        self.take(window.lines())
        text = terminal.text
        if asked := window.asked():
            return self.answered(asked)
        if terminal.text != text:
            return False
        if self.is_shown() and self.stays and not self.fill:
            return True
        if self.shown[len(self.went):len(self.went) + 1] == ["^C"]:
            terminal.press()
            self.note("^C")
            return False
        if terminal.more(1.5 if self.fill else helpers.PATIENCE):
            return False
        if self.stays and not terminal.is_at_end:
            return True
        self.went += window.lines() + [part for part in [terminal.text.rstrip()] if part]
        window.end()
        if self.stays:
            raise Wrong("what ran here has ended:\n" + "\n".join(self.went))
        return True

    def take(self, lines: list[str]) -> None:
        """Notes lines that were printed, and how far of what is shown they are."""
        for line in lines:
            self.went.append(line)
            places = [at for at in range(self.at, len(self.shown)) if self.shown[at] == line]
            self.at = places[0] + 1 if places else self.at

    def is_shown(self) -> bool:
        return len(self.went) >= len(self.shown)

    def answered(self, asked: str) -> bool:
        """Types the rest of the line that shows this question; whether the box ends here instead."""
        place = next((at for at in range(self.at, len(self.shown))
                      if plain(self.shown[at]).startswith(plain(asked.rstrip()))), None)
        if place is None:
            if self.stays:
                return True
            raise Wrong(f"nothing is typed at {asked!r}; what came is\n" + "\n".join(self.went))
        self.at = place + 1
        typed = self.shown[place][len(asked):]
        if not typed and asked.endswith("> "):
            # The window waits, and something else happens.
            return not self.window.running.more(helpers.PATIENCE)
        self.window.running.text = ""
        self.went.append((asked + typed).rstrip())
        self.window.running.type(typed.replace(SHOWN_PORT, self.window.port))
        return False


def played(window: Window, body: str, stays: bool, fill: bool) -> str:
    """The box of a window as it went."""
    lines = body.splitlines()
    starts = [at for at, line in enumerate(lines) if line.startswith("$ ") or at == 0]
    went: list[str] = []
    for start, end in zip(starts, [*starts[1:], len(lines)]):
        went += Box(window, lines[start:end], stays and end == len(lines), fill).play()
    if (window.terminal is not None) != stays:
        raise Wrong("what runs here goes on; what came is\n" + "\n".join(went))
    return "".join(f"{line}\n" for line in went)


def plain(text: str) -> str:
    """A box without what varies."""
    for pattern, name in VARIES:
        text = pattern.sub(name, text)
    return text


class Play:
    """The whole guide, played in a folder. `command` is what runs as `raceoffice`."""

    def __init__(self, folder: str, fill: bool = False, command: list[str] = helpers.COMMAND) -> None:
        self.folder, self.fill, self.command = folder, fill, command
        self.windows: dict[str, Window] = {}
        self.holder = helpers.held_port()
        self.port = str(self.holder.getsockname()[1])

    def run(self, guide: str) -> str:
        """The guide with what was printed; a Wrong at the first box that shows something else."""
        try:
            text = STEP.sub(lambda step: self.step(guide, step), guide)
            self.look_at_rest()
            return text
        finally:
            self.close()

    def look_at_rest(self) -> None:
        """A Wrong if a window that is still open has printed more than its last box shows."""
        for name, window in self.windows.items():
            if window.terminal:
                window.asked()
                if more := window.lines():
                    raise Wrong(f"docs/TYPING.md: after its last box the window {name} printed\n"
                                + "\n".join(more))

    def step(self, guide: str, step: re.Match[str]) -> str:
        place = f"docs/TYPING.md, line {guide[:step.start()].count(chr(10)) + 1}"
        try:
            if step[3]:
                self.kill(step[3])
                return str(step[0])
            went = self.box(step[1].split(), step[2])
        except (Wrong, OSError, AssertionError) as cause:
            raise Wrong(f"{place}: {cause}") from None
        if plain(went) == plain(step[2]):
            return str(step[0])
        if not self.fill:
            raise Wrong(f"{place}, shows\n{step[2]}but what came is\n{went}")
        return f"```{step[1]}\n{went}```"

    def box(self, words: list[str], body: str) -> str:
        match words:
            case ["file", name]:
                os.makedirs(os.path.dirname(os.path.join(self.folder, name)), exist_ok=True)
                with open(os.path.join(self.folder, name), "w", encoding="utf-8") as file:
                    file.write(body)
                return body
            case ["window", name] | ["window", name, "stays"]:
                window = self.windows.setdefault(name, Window(self.folder, self.port, self.command))
                went = played(window, body, len(words) == 3, self.fill)
                if window.tool == "open" and not window.terminal:
                    self.expect("board", GONE)
                return went
        raise Wrong("a box has to be a file or a window")

    def kill(self, series: str) -> None:
        """Kills the office of a series."""
        with open(os.path.join(self.folder, series, "office", "pid"), encoding="ascii") as file:
            os.kill(int(file.read().split()[0]), signal.SIGKILL)
        self.expect("type", BACK)

    def expect(self, tool: str, text: re.Pattern[str]) -> None:
        """What the windows of a tool print before their next boxes."""
        for window in self.windows.values():
            if window.tool == tool and window.terminal:
                window.awaits = text

    def close(self) -> None:
        """Ends what is left, offices too."""
        self.holder.close()
        for window in self.windows.values():
            if window.terminal:
                window.terminal.close()
        for name in os.listdir(self.folder):
            helpers.kill_office(os.path.join(self.folder, name))


def read() -> str:
    with open(GUIDE, encoding="utf-8") as file:
        return file.read()


def play(guide: str, fill: bool = False) -> str:
    """A guide as it went."""
    with tempfile.TemporaryDirectory() as folder:
        os.symlink(helpers.PROGRAM, os.path.join(folder, "regatta"))
        os.symlink(helpers.TIMES, os.path.join(folder, "times"))
        os.symlink(os.path.join(helpers.TOP, "raceoffice"), os.path.join(folder, "raceoffice"))
        return Play(folder, fill).run(guide)


def main() -> int:
    helpers.PROGRAM = os.path.realpath(sys.argv[1])
    try:
        text = play(read(), sys.argv[2:] == ["--fill"])
    except Wrong as cause:
        print(cause)
        return 1
    if sys.argv[2:] == ["--fill"]:
        with open(GUIDE, "w", encoding="utf-8") as file:
            file.write(text)
    return 0


if __name__ == "__main__":
    with contextlib.suppress(KeyboardInterrupt):
        sys.exit(main())
