"""Which of a window's lines an office has that is back. A crash may have lost some, and a boat that was taken out while
it was closed gives later entries lower numbers."""
from __future__ import annotations

import bisect
import contextlib
from collections.abc import Mapping, Sequence
from dataclasses import dataclass, field

from raceoffice.errors import Trouble
from raceoffice.series.folder import Folder
from raceoffice.series.kept_places import command_of
from raceoffice.series.entry_list import sails_of


@dataclass
class LinesBack:
    """Lines by the numbers that they have now, those that are lost by the numbers that they had, and the boats that
    were taken out. `numbers` has what became of each old number; a line about such a boat has none."""
    sails: list[str] = field(default_factory=list)
    sent: dict[int, str] = field(default_factory=dict)
    lost: dict[int, str] = field(default_factory=dict)
    numbers: dict[int, int] = field(default_factory=dict)

    def is_taken_out(self, line: str) -> bool:
        """Whether a line is about a boat that was taken out."""
        return not set(self.sails).isdisjoint(sails_in(line))


def sails_in(line: str) -> list[str]:
    """The sails that a line names."""
    return sails_of(f"- - - {line}")


def taken_out(folder: Folder) -> list[str]:
    """The boats that were taken out of a series, by its log; none if that can't be read."""
    with contextlib.suppress(Trouble):
        return [entry.line.split()[1] for entry in folder.logged() if entry.line.startswith("removed ")]
    return []


def lines_back(sent: Mapping[int, str], before: Sequence[str], journal: Sequence[str],
               sails: Sequence[str]) -> LinesBack:
    """Looks for lines in a journal, each at its place. `before` is the journal when the office went, as far as this
    window has seen it, and `sails` are the boats that were taken out since."""
    known = {**{at: command_of(line) for at, line in enumerate(before, 1)}, **sent}
    back = LinesBack(list(sails))
    hers = sorted(at for at, line in known.items() if back.is_taken_out(line))
    if hers and all(journal[at - 1:at] == [known[at]] for at in hers):
        # Somebody has put the journal with her back.
        return lines_back(sent, before, journal, ())
    for at in sorted(set(sent) - set(hers)):
        now = at - bisect.bisect(hers, at)
        # Others may have typed lines about her that this window has never seen.
        unseen = sum(number not in known for number in range(len(before) + 1, at)) if sails else 0
        places = [number for number in range(now, now - unseen - 1, -1) if journal[number - 1:number] == [sent[at]]]
        if places:
            back.sent[places[0]], back.numbers[at] = sent[at], places[0]
        else:
            back.lost[at] = sent[at]
    return back
