"""A series beside its office: what whichever of them is there has, and lines that the office is sent."""
from __future__ import annotations

import os
from collections.abc import Callable, Sequence
from typing import TypeVar

from raceoffice.errors import Trouble
from raceoffice.program.link import Link, Sheet
from raceoffice.program.messages import refusal
from raceoffice.program.replay import Line
from raceoffice.series.folder import Folder
from raceoffice.series.lost_lines import UNANSWERED
from raceoffice.series.run_program import options_in_force, replayed, settings_in_force
from raceoffice.terminal import say, sentence

Sent = TypeVar("Sent", str, Line)


class Sender:
    """A series; `link` leads to its office if one is open. `who` stands in office.log."""

    def __init__(self, path: str, who: str) -> None:
        self.folder, self.who = Folder(path), who
        # series.ini may have rules that wait.
        self.folder.settings = settings_in_force(self.folder)
        self.link: Link | None = None
        if os.path.lexists(self.folder.socket) and not self.folder.is_closing():
            self.link = self.folder.link()

    def close(self) -> None:
        if self.link:
            self.link.close()

    def office(self) -> Link:
        """The link to the office; a Trouble if none is open."""
        if not self.link:
            raise Trouble("no office is open: open it, and send again")
        return self.link

    def sheet(self) -> Sheet:
        """The journal and the table: the office's, or those of the folder."""
        if self.link:
            return self.link.sheet()
        return replayed(self.folder, options_in_force(self.folder))

    def reply(self, line: Line) -> str:
        """Sends a line in its role, and logs its answer. A Trouble says why there is none."""
        link = self.office()
        link.ask(f"ROLE {line.role}")
        try:
            answer = link.ask(line.text)
        except Trouble as trouble:
            self.log(line, UNANSWERED)
            raise Trouble(f"{trouble}. It may be in the journal, or not: look before you type it") from None
        self.log(line, answer)
        return answer

    def log(self, line: Line, answer: str) -> None:
        """Logs a line with its answer. What the office has taken is taken, also if the log can't be written."""
        try:
            self.folder.log(self.who, "", line.role, line.text, answer)
        except Trouble as trouble:
            say(f"Beware: {sentence(trouble)}")

    def answer(self, line: Line) -> str:
        """The answer to a line, once it is taken. A Trouble says why it wasn't."""
        answer = self.reply(line)
        if not answer.startswith("OK "):
            raise Trouble(refusal(answer))
        return answer

    def send(self, lines: Sequence[Line], tell: Callable[[Line, str], None] = lambda *_: None) -> list[Line]:
        """Sends lines up to the first that isn't taken, and says why that wasn't; those that weren't.
        `tell` hears each answer."""
        for at, line in enumerate(lines):
            try:
                tell(line, self.answer(line))
            except Trouble as why:
                say(f"Stopped at {line}: {why}.")
                return list(lines[at:])
        return []

    def send_each(self, lines: Sequence[Line], tell: Callable[[Line, str], None]) -> list[Line]:
        """Sends lines of boats, each of which goes on without the others; those that weren't taken. An office that has
        gone ends that. `tell` hears what came of each."""
        gone: list[Trouble] = []

        def is_taken(line: Line) -> bool:
            if gone:
                return False
            try:
                answer = self.reply(line)
            except Trouble as why:
                gone.append(why)
                say(f"Stopped at {line}: {why}.")
                return False
            is_good = answer.startswith("OK ")
            tell(line, answer if is_good else refusal(answer))
            return is_good
        return not_taken(lines, is_taken)


def not_taken(lines: Sequence[Sent], is_taken: Callable[[Sent], bool]) -> list[Sent]:
    """Sends lines of boats one after another; those that weren't taken. One that isn't keeps back those about its boat in
    its race, and no others."""
    left: list[Sent] = []
    stopped: set[tuple[str, ...]] = set()
    for line in lines:
        about = tuple(str(line).split()[1:3])
        if about in stopped or not is_taken(line):
            stopped.add(about)
            left.append(line)
    return left
