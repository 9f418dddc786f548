"""Why the times of boats are in the sheet of a race, and not in the journal yet."""
from __future__ import annotations

from collections.abc import Collection, Mapping
from typing import Any

from raceoffice.corrected.ratings import faults_in_race
from raceoffice.corrected.times import RULES, Rules
from raceoffice.errors import Trouble
from raceoffice.files import stamp_of
from raceoffice.remarks import Remark, remark
from raceoffice.series.entry_list import plain, problems
from raceoffice.series.folder import Folder
from raceoffice.series.race_sheets import SHEETS
from raceoffice.series.read_list import bytes_of, name_of
from raceoffice.web.states import Values, remarks_of


def with_reasons(folder: Folder, sheets: Mapping[int, Values], boats: Collection[str]) -> dict[int, Values]:
    """The sheets of a class with what keeps all its `boats` of each from being sent, `why`, and what keeps one, in her row."""
    return {race: with_reason(sheet, boats, *of_ratings(folder, race)) for race, sheet in sheets.items()}


# What times of a system go by besides the ratings.
COURSES = {"py": "laps", "tod": "distance"}


def with_reason(sheet: Values, boats: Collection[str], faults: list[Remark], alone: Mapping[str, Remark], system: str) -> Values:
    rows: Mapping[str, Any] = sheet["rows"] if isinstance(sheet["rows"], dict) else {}
    lacks: Mapping[str, list[str]] = sheet["lacks"] if isinstance(sheet["lacks"], dict) else {}
    shown = {sail: row | {"why": remarks_of(why_waiting(sail, row, alone))} for sail, row in rows.items()}
    kept = {key: value for key, value in sheet.items() if key != "lacks"}
    # The row of a boat that isn't entered is left out.
    course = of_course([sail for sail in lacks.get(COURSES.get(system, ""), []) if sail in boats and sail not in alone], system)
    return kept | {"why": sheet["wrong"] or remarks_of([*faults, *course][:1]), "rows": shown}


def of_course(sails: list[str], system: str) -> list[Remark]:
    """What is said of boats without the laps or the distance by which the times of a race are worked out: all wait for the first."""
    return [remark("laps-missing" if system == "py" else "distance-missing", sail=sail) for sail in sails[:1]]


def why_waiting(sail: str, row: Mapping[str, Any], alone: Mapping[str, Remark]) -> list[Remark]:
    """What keeps a boat that has a time from being sent, whatever the others have."""
    if row["code"]:
        return []
    if row["elapsed"] is None:
        return [remark("start-missing")]
    return [alone[sail]] if sail in alone else []


# What is wrong with the ratings of a race, for all boats and for those that have none; and the system of the ratings.
Wrong = tuple[list[Remark], dict[str, Remark], str]
# What was found of each race of a folder, and of which files: pages ask for all races after each tap.
FOUND: dict[tuple[str, int], tuple[object, Wrong]] = {}


def of_ratings(folder: Folder, race: int) -> Wrong:
    """What is wrong with the ratings of a race, and their system."""
    files, key = (stamp_of(folder.entries), stamp_of(folder.file(SHEETS, RULES))), (folder.path, race)
    known = FOUND.get(key)
    if known and known[0] == files:
        return known[1]
    try:
        found = ratings_now(folder, race)
    except Trouble as trouble:
        return [remark("sheet-fault", why=trouble.said[0])], {}, ""
    FOUND[key] = (files, found)
    return found


def ratings_now(folder: Folder, race: int) -> Wrong:
    """The same by the files as they are now; a Trouble if one can't be read."""
    data, system = bytes_of(folder.entries), Rules.read(folder).system
    if wrong := problems(data, folder.entries):
        return wrong[:1], {}, system
    faults, alone = faults_in_race(data, name_of(folder.entries), race, system)
    return faults, {plain(sail): why for sail, why in alone.items()}, system
