"""A finisher whose class isn't clear is kept in each to which she may belong. Once she is known in one, her
places in the others end; if that is taken back, they are kept again.

The notes of her places name the other classes. So whoever looks at one of them puts right what a window that
was killed has left.
"""
from __future__ import annotations

import contextlib
import functools
import os
from collections.abc import Sequence
from dataclasses import dataclass
from typing import Union

from raceoffice import system
from raceoffice.errors import NotSent, Trouble, said_of
from raceoffice.series.folder import Folder
from raceoffice.series.kept_places import History, Key, Note, Places, history_of
from raceoffice.side_by_side import SideBySide

# What is said: a fixed word, and its values.
Said = tuple[str, dict[str, Union[str, int, list[str]]]]


@dataclass(frozen=True)
class Place:
    """One of her places: its class, and what is noted there."""
    folder: Folder
    history: History
    kept: Note

    @property
    def is_open(self) -> bool:
        return self.kept.key not in self.history.ended

    @property
    def is_known(self) -> bool:
        """Whether a boat was put into it."""
        return self.history.boat(*self.kept.key) != ""

    @property
    def is_left(self) -> bool:
        """Whether it ended for what became of her in another class: she is known there, or never was."""
        end = self.history.ended.get(self.kept.key)
        return end is not None and end.what == "dropped" and end.finisher != ""


class Twins:
    """The finishers of a class who are kept in other classes, too."""

    def __init__(self, folder: Folder) -> None:
        self.folder = folder
        # Until when it waits for others who write, as `Places` has it.
        self.end: float | None = None
        # Those whose places have ended and agree, and the folders in which something was done.
        self.settled: set[str] = set()
        self.changed: set[str] = set()
        # Those of whom it was said that they aren't kept in all their classes.
        self.told: set[str] = set()
        # A class whose folder hangs holds up no other. Until it answers it is left out.
        self.beside = SideBySide[list[Place]]()

    def follow(self, history: History, by: str) -> list[Said]:
        """Ends places of those who are known in another class, and keeps them again if they aren't any more;
        what is said of that."""
        said = list[Said]()
        for kept in list(history.kept.values()):
            place = Place(self.folder, history, kept)
            if kept.finisher and (place.is_open or kept.finisher not in self.settled):
                others = self.others_of(place)
                said += self.agree([place, *others], by) + self.lacking(place, others)
                if any(map(self.beside.is_late, kept.also)):
                    self.settled.discard(kept.finisher)
        return said

    def others_of(self, place: Place) -> list[Place]:
        """Her places in the other classes, as far as those can be read."""
        asked = {name: functools.partial(places_of, os.path.join(place.folder.path, name), place.kept.finisher)
                 for name in place.kept.also}
        return [other for found in self.beside.answers(asked).values() for other in found]

    def lacking(self, place: Place, others: Sequence[Place]) -> list[Said]:
        """In which other classes she isn't kept, as the window was killed that was about to do it; said once."""
        names = {os.path.basename(os.path.join(self.folder.path, name)) for name in place.kept.also if not self.beside.is_late(name)}
        names -= {other.folder.name for other in others}
        is_new = place.is_open and place.kept.finisher not in self.told
        if not names or not is_new or place.kept.window in system.processes():
            return []
        self.told.add(place.kept.finisher)
        return [("twin-lacking", {"mark": place.kept.place, "race": place.kept.race, "classes": sorted(names)})]

    def agree(self, places: Sequence[Place], by: str) -> list[Said]:
        """Makes the places of one finisher agree; what is said of that."""
        if places[0].is_open:
            self.settled.discard(places[0].kept.finisher)
        else:
            self.settled.add(places[0].kept.finisher)
        known = next((place for place in places if place.is_known), None)
        said = list[Said]()
        for place in places:
            what = ""
            if known and place.is_open:
                what = "twin-dropped"
            elif not known and place.is_left and any(other.is_open for other in places):
                what = "twin-kept"
            if what and self.is_noted(place, known, by):
                said.append((what, {"class_name": place.folder.name, "mark": place.kept.place}))
        return said

    def drop_others(self, history: History, key: Key, by: str) -> list[tuple[Place, str]]:
        """Drops the other places of a finisher whose own was a slip; each with why it can't be, or nothing. They are kept
        again as soon as her own is."""
        kept, found = history.kept.get(key), list[tuple[Place, str]]()
        others = self.others_of(Place(self.folder, history, kept)) if kept and kept.finisher else []
        for place in others:
            if place.is_open:
                try:
                    Places(place.folder, by, self.end).drop_known(place.kept, "undone")
                    found.append((place, ""))
                except NotSent as why:
                    found.append((place, said_of(why)))
                self.changed.add(place.folder.path)
        return found

    def is_noted(self, place: Place, known: Place | None, by: str) -> bool:
        """Ends a place, or keeps it again; whether that is noted now. Whoever looks next tries again."""
        notes = Places(place.folder, by, self.end)
        try:
            if known:
                notes.drop_known(place.kept, f"she is known in {known.folder.name}")
            else:
                notes.keep_again(*place.kept.key)
        except NotSent:
            self.settled.discard(place.kept.finisher)
            return False
        self.changed.add(place.folder.path)
        return True


def places_of(path: str, finisher: str) -> list[Place]:
    """The places of a finisher in the class of a folder; none if that can't be read."""
    with contextlib.suppress(Trouble):
        folder = Folder(path)
        history = history_of(folder)
        return [Place(folder, history, note) for note in history.kept.values() if note.finisher == finisher]
    return []
