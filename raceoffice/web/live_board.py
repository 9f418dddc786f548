"""The board of the classes that the web serves: made of what the rooms know already, when that changes."""
from __future__ import annotations

import copy
import functools
import time
from collections.abc import Callable, Sequence

from raceoffice.errors import Trouble
from raceoffice.program.link import Sheet
from raceoffice.remarks import remark
from raceoffice.results.http_answers import Board
from raceoffice.results.publish import Site, served
from raceoffice.results.source import ResultsSource
from raceoffice.series.run_program import rules_in_force
from raceoffice.terminal import Once, sentence
from raceoffice.traces import guarded
from raceoffice.web.room import Room
from raceoffice.side_by_side import SideBySide

# Seconds between two looks at whether something has changed, and after which a class whose look doesn't end is away.
TICK, AWAY = 0.1, 10.0


class RoomSource(ResultsSource):
    """The results of a class whose office the web is linked to. No office is asked for them."""

    def __init__(self, room: Room) -> None:
        # Its settings are known, also while somebody who edits them has made a mistake, or has moved the folder away.
        super().__init__(room.folder.path, copy.copy(room.folder))
        self.room, self.seen, self.opening = room, 0, -1

    def from_office(self) -> Sheet:
        if self.room.trouble:
            raise Trouble(self.room.trouble)
        if self.opening != self.room.openings:
            self.opening, self.rules = self.room.openings, rules_in_force(self.folder)
        return self.room.facts.sheet

    def from_journal(self) -> Sheet:
        self.opening = -1
        return super().from_journal()

    @property
    def is_due(self) -> bool:
        """Whether something is new, or its time has come."""
        return self.seen != self.room.version or time.monotonic() >= self.due


class LiveBoard:
    """The pages of all classes. `changed` is called when a page is another, `note` hears what is wrong."""

    def __init__(self, rooms: Sequence[Room], board: Board, changed: Callable[[], None],
                 note: Callable[[str], None]) -> None:
        self.sources = [RoomSource(room) for room in rooms]
        self.site, self.board = Site(list(self.sources)), board
        self.changed, self.note, self.once = changed, note, Once()
        self.looks = SideBySide[str]()

    def round(self) -> None:
        """Looks at the classes of which something is new, and shows what was found. One whose folder hangs is away, and the
        others are shown."""
        due, looked = self.due_now(), self.looks.late_answers()
        looked |= self.looks.answers({source.folder.name: functools.partial(self.look, source) for source in due})
        for source in self.sources:
            if source.folder.name in looked:
                self.say_found(source, looked[source.folder.name])
            elif self.looks.is_late(source.folder.name, AWAY):
                source.office = "away"
                self.say(source.folder.name, f"{source.name}: {sentence(remark('folder-silent', path=source.folder.path))}")
        if due or looked:
            self.say("pages", self.put())

    def due_now(self) -> list[RoomSource]:
        """The classes that are to be looked at now. What comes while that is done is seen in the next round."""
        due = [source for source in self.sources if source.is_due]
        for source in due:
            source.seen, source.due = source.room.version, time.monotonic() + source.settings.every
        return due

    def say_found(self, source: RoomSource, wrong: str) -> None:
        """Says what a look at a class has found wrong."""
        self.say(source.folder.name, wrong)
        for about, text in source.notes.items():
            self.say(f"{source.folder.name} {about}", text and f"{source.name}: {sentence(text)}")

    def look(self, source: RoomSource) -> str:
        """Looks at one class; why its page stays as it was, or nothing."""
        try:
            with guarded(source.folder.path):
                source.look()
        except Trouble as trouble:
            # Those who came before the office was open see it soon.
            return "" if source.view is None else f"{source.name}: {sentence(trouble)}"
        return ""

    def put(self) -> str:
        """Gives the pages to those who look; what is wrong, or nothing."""
        before = self.board.texts
        try:
            with guarded(self.sources[0].folder.path):
                self.board.put(served(self.site.texts()))
        except Trouble as trouble:
            return sentence(trouble)
        if {address: text.tag for address, text in before.items() if not address.endswith("now.json")} != \
                {address: text.tag for address, text in self.board.texts.items()
                 if not address.endswith("now.json")}:
            self.changed()
        return ""

    def say(self, about: str, text: str) -> None:
        if self.once.is_new(about, text):
            self.note(f"The board: {text}")

    def leave(self) -> None:
        for source in self.sources:
            source.leave()
