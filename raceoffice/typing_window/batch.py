"""Lines of a file, which are sent as they are, up to the first that is refused."""
from __future__ import annotations

import re
from dataclasses import dataclass

from raceoffice.errors import Trouble
from raceoffice.series.settings import rows_of
from raceoffice.session.sending import send
from raceoffice.session.session import Session
from raceoffice.terminal import say
from raceoffice.wording import count

LARGEST = 4 << 20
ODD = re.compile(r"[^\x20-\x7e]")


def lines_of(data: bytes) -> list[str]:
    """The lines of a file; a Trouble at a sign that no line has, before any is sent."""
    text = data.decode("utf-8", "replace").removeprefix("\ufeff")
    lines = [re.sub("[\t\u00a0]", " ", line).strip() for line in rows_of(text)]
    for at, line in enumerate(lines, 1):
        if found := ODD.search(line):
            raise Trouble(f"line {at} has the sign {found[0]!r}: {line[:60]!r}. Nothing was sent")
    return lines


@dataclass
class Batch:
    """The lines of a file for one session; `again` is the command that sends the rest."""
    session: Session
    lines: list[str]
    again: str

    def send(self, start: int, goes_on: bool) -> int:
        """Sends the lines from that number on; the status. With `goes_on` a refusal stops nothing."""
        refused = 0
        for at, line in self.numbered(start):
            say(f"> {line}")
            if not self.is_taken(at, line):
                refused += 1
                if not goes_on:
                    self.say_stopped(at)
                    return 1
        say(f"{count(len(self.numbered(start)), 'line')} sent, {refused} refused")
        return 1 if refused else 0

    def numbered(self, start: int) -> list[tuple[int, str]]:
        """The lines that aren't empty, with their numbers, from one on."""
        return [(at, line) for at, line in enumerate(self.lines, 1) if line and at >= start]

    def is_taken(self, at: int, line: str) -> bool:
        """Whether a line was taken; a Trouble if it had no answer."""
        try:
            plain = " ".join(line.upper().split())
            self.session.look()
            if plain == "SHOW":
                return self.session.do(line).is_taken
            return send(self.session, plain)
        except Trouble as trouble:
            raise Trouble(f"{trouble}. Line {at} had no answer: look whether it is in the journal "
                          "before you send it again. The lines after it weren't sent") from None

    def say_stopped(self, at: int) -> None:
        left = len(self.numbered(at + 1))
        say(f"Stopped at line {at}. The lines above it were taken; the {left} below weren't sent.\n"
            f"Correct line {at} and send the rest: {self.again} --from {at} < lines.txt")
