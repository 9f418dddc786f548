"""What a session knows of its class: the journal and the table as the office last showed them, with
names."""
from __future__ import annotations

import copy
import dataclasses
from collections.abc import Iterable

from raceoffice.errors import NotSent
from raceoffice.files import stamp_of
from raceoffice.program.journal import Race, Series
from raceoffice.program.link import Sheet
from raceoffice.program.standing import Standing
from raceoffice.remarks import remark
from raceoffice.series import entry_list
from raceoffice.series.folder import Folder
from raceoffice.session.parse import race_number, short


class Facts:
    """The races and the standing of a class, and how its boats are called."""

    def __init__(self, folder: Folder) -> None:
        self.folder, self.settings = folder, folder.settings
        self.names: dict[str, entry_list.Boat] = {}
        self.listed: object = None
        self.read_names()
        self.read(Sheet((), ("TABLE 0 RACES",)))

    def read_names(self) -> None:
        """Reads how boats are called, if their list is another. One that can't be read leaves them as they were."""
        if (listed := stamp_of(self.folder.entries)) != self.listed:
            self.names, self.listed = entry_list.read_if_there(self.folder.entries) or self.names, listed

    def read(self, sheet: Sheet) -> None:
        """Takes over what the office shows."""
        self.sheet = sheet
        self.series = Series.read(list(sheet.journal))
        self.standing = Standing.read(list(sheet.table))

    def followed(self, entry: str) -> Facts:
        """What is known of the races once the journal has one more entry, which is about a race. The table stays as it was
        shown."""
        fresh, words = copy.copy(self), entry.split()[3:]
        race = copy.deepcopy(self.race(words[1]))
        fresh.sheet = Sheet((*self.sheet.journal, entry), self.sheet.table)
        fresh.series = dataclasses.replace(self.series, races=self.series.races | {race.number: race})
        fresh.series.follow(words)
        return fresh

    @property
    def boats(self) -> list[str]:
        """The sails of the boats that are entered."""
        return self.series.boats

    @property
    def commands(self) -> list[str]:
        """The journal's entries without seat, number and role."""
        return [line.split(maxsplit=3)[3] for line in self.sheet.journal]

    @property
    def is_a53(self) -> bool:
        """Whether RRS A5.3 applies."""
        return self.settings.absent == "a53"

    def race(self, text: str) -> Race:
        """A race by its number, also one of which nothing is recorded."""
        if not (number := race_number(text)):
            raise NotSent(remark("no-race", written=short(text)))
        return self.series.races.get(number) or Race(number)

    def race_of(self, line: str) -> Race | None:
        """The race that a line is about, if anything is recorded of it."""
        number = line.split()[1:2]
        return self.series.races.get(race_number(number[0])) if number else None

    def called(self, sail: str) -> str:
        """A boat by her sail and name."""
        return str(self.names.get(sail, sail))

    def all_called(self, sails: Iterable[str]) -> str:
        return ", ".join(map(self.called, sails))
