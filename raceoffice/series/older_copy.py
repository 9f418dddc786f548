"""Whether a copy of a journal is from before a boat was taken out: then it has her lines still, and nothing else that the
journal lacks."""
from __future__ import annotations

import contextlib
from collections.abc import Sequence
from datetime import datetime

from raceoffice.series.entry_list import sails_of
from raceoffice.series.log import Logged

REMOVED = "removed "
TIME = "%Y-%m-%dT%H:%M:%S%z"


def is_from_before(logged: Sequence[Logged], theirs: Sequence[bytes], written: float, ours: Sequence[bytes]) -> bool:
    """Whether the entries of a copy that was written at a moment are the first of a journal, except for those of boats
    that were taken out later by the log."""
    sails = set(taken_out_since(logged, written))
    left = [line for line in theirs if not sails.intersection(sails_of(line.decode("ascii", "replace"))[:1])]
    return len(left) < len(theirs) and [*ours[:len(left)]] == left


def taken_out_since(logged: Sequence[Logged], moment: float) -> list[str]:
    """The boats that were taken out since a moment. A note of the office has no seat, and whole seconds."""
    found = []
    for entry in logged:
        with contextlib.suppress(ValueError):
            if entry.line.startswith(REMOVED) and not entry.seat and not entry.role:
                if datetime.strptime(entry.time, TIME).timestamp() >= int(moment):
                    found.append(entry.line.removeprefix(REMOVED))
    return found
