"""What the sheet of times of a race has, and the journal hasn't."""
from __future__ import annotations

from collections.abc import Sequence
from dataclasses import dataclass

from raceoffice.corrected.sheets import entries_of
from raceoffice.corrected.times import Sheets
from raceoffice.errors import Trouble
from raceoffice.series.folder import Folder
from raceoffice.series.race_sheets import races_with_sheet, sheet_name
from raceoffice.series.read_list import bytes_of
from raceoffice.terminal import sentence


@dataclass(frozen=True)
class Unsent:
    """The boats that have another time or code in a sheet than in the journal, and why the times can't be worked out;
    empty if they can."""
    sails: tuple[str, ...] = ()
    fault: str = ""


def unsent(folder: Folder, race: int, journal: Sequence[str]) -> Unsent:
    """What a race's sheet would send now. A boat without a rating waits for it."""
    if not has_sheet(folder, race):
        return Unsent()
    try:
        sheets = Sheets(folder)
        unrated = [entry.sail for entry in sheets.unrated(race, journal)]
        lines = sheets.beside(race, journal, unrated).lines
    except Trouble as trouble:
        return Unsent(fault=sentence(trouble))
    return Unsent(tuple(dict.fromkeys([*(line.split()[2] for line in lines), *unrated])))


def in_sheet(folder: Folder, race: int) -> list[str]:
    """The boats of which a race's sheet has a time or a code, as far as it can be read."""
    if not has_sheet(folder, race):
        return []
    try:
        rows, _ = entries_of(bytes_of(folder.file(sheet_name(race))), sheet_name(race))
    except Trouble:
        return []
    return [row.sail for row in rows if row.is_timed or row.code]


def has_sheet(folder: Folder, race: int) -> bool:
    """Whether a race is scored by a sheet of times."""
    return folder.settings.handicap and race in races_with_sheet(folder)
