"""Boats that were taken out of a journal, as office/places notes them: later entries have lower numbers since then, so
that the notes before have other numbers than the journal."""
from __future__ import annotations

import bisect
import dataclasses
import hashlib
import json
import re
from collections.abc import Sequence
from dataclasses import dataclass

from raceoffice.series.lost_lines import as_kept

GONE = re.compile(r"[1-9][0-9]{0,8} [!-~]+(?: [!-~]+)*")
# The keys of a note, and what it says of a boat.
NAMES = ("what", "sail", "gone", "left", "digest", "by", "window", "time")
WHATS = ("removed", "out", "back")
Removals = list[tuple[int, "TakenOut"]]


@dataclass(frozen=True)
class TakenOut:
    """A note that a boat is about to be taken out (`removed`), that she is out (`out`), or that the journal has her
    still, or again since somebody has put it back (`back`). `gone` has her entries, each with its number; `left` is how
    many others there are, and `digest` a short sum of them."""
    what: str
    sail: str
    gone: tuple[str, ...]
    left: int
    digest: str
    by: str
    window: int
    time: str

    def text(self) -> bytes:
        """The line as the file has it."""
        return json.dumps({name: getattr(self, name) for name in NAMES}).encode() + b"\n"

    @property
    def numbers(self) -> list[int]:
        return [int(entry.split()[0]) for entry in self.gone]

    def lowered(self, number: int) -> int:
        """How many of this number of entries are left."""
        return number - bisect.bisect(self.numbers, number)

    def is_in(self, journal: Sequence[str]) -> bool:
        """Whether a journal has her entries at their numbers: she is in it still, it was put back, or the same lines
        were typed again."""
        lines = [entry.partition(" ")[2] for entry in self.gone]
        return all(list(map(as_kept, journal[at - 1:at])) == [as_kept(line)] for at, line in zip(self.numbers, lines))

    def is_begun(self, journal: Sequence[str]) -> bool:
        """Whether a journal begins with what was left without her."""
        return len(journal) >= self.left and digest_of(journal[:self.left]) == self.digest

    def is_done(self, journal: Sequence[str]) -> bool:
        """Whether a journal is known to come after the removal, also if the same lines were typed again."""
        return self.is_begun(journal) and (self.what == "out" or not self.is_in(journal))

    def is_of(self, other: TakenOut) -> bool:
        """Whether two notes are about one removal."""
        return (self.gone, self.left, self.digest) == (other.gone, other.left, other.digest)

    def noted(self, what: str) -> TakenOut:
        """What another note says of the same removal."""
        return dataclasses.replace(self, what=what)


def digest_of(journal: Sequence[str]) -> str:
    """A short sum of commands, in whichever form they are written."""
    text = "".join(f"{as_kept(line)}\n" for line in journal)
    return hashlib.sha256(text.encode("utf-8", "replace")).hexdigest()[:16]


def taken_out_of(line: bytes) -> TakenOut | None:
    """A line of office/places that is such a note; None if it isn't."""
    if b'"gone"' not in line:
        return None
    try:
        found = json.loads(line)
        values = [found[name] for name in NAMES]
    except (ValueError, LookupError, TypeError, RecursionError):
        return None
    what, sail, gone, left, digest, by, window, time = values
    if (what not in WHATS or type(window) is not int or type(left) is not int or type(gone) is not list
            or not all(type(text) is str for text in (sail, digest, by, time, *gone))
            or not all(map(GONE.fullmatch, gone)) or left < 0):
        return None
    note = TakenOut(what, sail, tuple(gone), left, digest, by, window, time)
    return note if note.numbers == sorted(set(note.numbers)) else None


def those_that_count(notes: Sequence[tuple[int, TakenOut]], journal: Sequence[str]) -> Removals:
    """The boats that are out of a journal, with the places of their notes. Without a journal all are out that are noted
    so last."""
    out: Removals = []
    for at, note in notes:
        if note.what == "removed":
            out = [*before(out, note), (at, note)]
        elif note.what == "out":
            out = [(of, other.noted("out") if other.is_of(note) else other) for of, other in out]
        elif out and out[-1][1].is_of(note):
            out.pop()
    return out[:how_many_count([note for _, note in out], journal)]


def before(out: Removals, note: TakenOut) -> Removals:
    """The removals before one. If its note is there already, all lines of the file were put in again, from the
    first."""
    known = [other.noted("removed") for _, other in out]
    return out[:known.index(note)] if note in known else out


def how_many_count(removals: Sequence[TakenOut], journal: Sequence[str]) -> int:
    """How many of these removals count by a journal. One that has a boat still, or again, is older than all that were
    taken out later, unless it is known to come after one of these removals."""
    still = first_in(removals, 0, journal)
    last = next((at for at in reversed(range(still, len(removals))) if removals[at].is_done(journal)), None)
    return still if last is None else first_in(removals, last + 1, journal)


def first_in(removals: Sequence[TakenOut], start: int, journal: Sequence[str]) -> int:
    """Which is the first removal, from one on, whose boat is in a journal; how many there are if none is."""
    return next((at for at in range(start, len(removals)) if removals[at].is_in(journal)), len(removals))


def put_back(counting: Sequence[TakenOut], journal: Sequence[str], own: int) -> int:
    """How many of the removals that count still do, if the office has written only the first `own` entries of a
    journal: whoever put in the others has put her back."""
    back = (at for at, note in enumerate(counting) if note.numbers[-1:] > [own] and note.is_in(journal))
    return next(back, len(counting))
