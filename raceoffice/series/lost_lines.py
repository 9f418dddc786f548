"""What office.log has and a journal lacks, if an older one was put in its place, or a disk has lost what
it said it had."""
from __future__ import annotations

import re
from dataclasses import dataclass, field
from decimal import Decimal

from raceoffice.remarks import remark
from raceoffice.series.log import Logged
from raceoffice.wording import spans

# What the log has in place of an answer that never came.
UNANSWERED = "no answer"
# The most entries that a journal holds: a greater number in a log is no answer.
MOST_ENTRIES = 8192


def as_kept(line: str) -> str:
    """A line that was sent, as the journal has it: capital letters, and numbers in their one form."""
    command, *rest = line.upper().split() or [""]
    if command == "ENTER" or not rest:
        return " ".join([command, *rest])
    if re.fullmatch("[0-9]{1,9}", rest[0]):
        rest[0] = str(int(rest[0]))
    if command == "TIME" and re.fullmatch("[0-9]{1,9}", rest[-1]):
        rest[-1] = str(int(rest[-1]))
    if command == "REDRESS" and re.fullmatch(r"[0-9]{1,9}(\.[0-9])?", rest[-1]):
        rest[-1] = f"{Decimal(rest[-1]):.1f}"
    return " ".join([command, *rest])


def is_entry(line: str, entry: str) -> bool:
    """Whether an entry of a journal is this line."""
    return as_kept(line) == as_kept(" ".join(entry.split()[3:]))


@dataclass
class Unsaved:
    """Lines by the numbers of their answers, and lines that had no answer. `journal` has the entries that
    are there."""
    journal: list[str]
    answered: dict[int, Logged] = field(default_factory=dict)
    unanswered: list[Logged] = field(default_factory=list)

    @classmethod
    def read(cls, journal: list[str], logged: list[Logged]) -> Unsaved:
        """What the log has beyond a journal."""
        found = cls(journal)
        for entry in logged:
            found.follow(entry)
        return found

    def follow(self, entry: Logged) -> None:
        """Reads one line of the log. What was there at a closing isn't lost, nor is what came before."""
        found = re.match(r"OK ([0-9]{1,9})\b", entry.answer)
        if entry.line == "closed" or entry.line.startswith("removed ") and not entry.role:
            self.answered.clear()
            self.unanswered.clear()
        elif entry.line == "opened":
            self.unanswered.clear()
        elif entry.answer == UNANSWERED:
            self.unanswered.append(entry)
        elif found and int(found[1]) <= MOST_ENTRIES:
            self.answered[int(found[1])] = entry

    def lost(self) -> dict[int, Logged]:
        """The lines that were answered, and aren't in the journal at their place."""
        return {number: entry for number, entry in sorted(self.answered.items())
                if number > len(self.journal) or not is_entry(entry.line, self.journal[number - 1])}

    def missing(self) -> list[int]:
        """The numbers after the journal's end, below the last one, whose lines aren't in the log."""
        return [number for number in range(len(self.journal) + 1, max(self.answered, default=0))
                if number not in self.answered]

    def in_words(self) -> list[str]:
        """The lines that have to be typed again, in their order; empty if nothing is lost."""
        said: list[str] = []
        if lost := self.lost():
            said = [remark("lost-lines", entries=remark("some-entries", n=len(self.journal)))]
            said += [f"   {number:>5}  {shown(entry)}" for number, entry in lost.items()]
        if missing := self.missing():
            said.append(remark("lost-missing", numbers=spans(missing)))
        if self.unanswered:
            said.append(remark("lost-unanswered"))
            said += [f"          {shown(entry)}" for entry in self.unanswered]
        return said


def shown(entry: Logged) -> str:
    return f"{entry.role:<8}{entry.line}" + (f"   ({entry.name})" if entry.name else "")
