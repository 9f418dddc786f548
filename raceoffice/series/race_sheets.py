"""The files of the sheets of times, by their races, and how a boat's row, or all of an abandoned race, is taken out of
them."""
from __future__ import annotations

import contextlib
import glob
import itertools
import os
import re
import time
from collections.abc import Collection, Mapping, Sequence

from raceoffice.errors import NotNow, Trouble
from raceoffice.files import replace_whole
from raceoffice.remarks import remark
from raceoffice.series.copies import STAMP
from raceoffice.series.entry_list import plain
from raceoffice.series.folder import Folder
from raceoffice.series.headings import SHEET, columns
from raceoffice.series.read_list import Table, as_csv, bytes_of, name_of, table_of, wrong_form

SHEETS = "times"
# An empty one is that of the boat above.
CARRIED = ("start", "laps", "distance")
# The columns of times, in which a code may stand; what each column takes, and how that is called.
TIMES = ("start", "finish", "elapsed")
CLOCK = "([01]?[0-9]|2[0-3]):[0-5][0-9]"
FORMS = {
    "start": (f"{CLOCK}(:[0-5][0-9])?", remark("wanted-start")),
    "finish": (f"{CLOCK}:[0-5][0-9]", remark("wanted-finish")),
    "elapsed": ("[0-9]{1,6}(:[0-5][0-9]){0,2}", remark("wanted-elapsed")),
    "laps": ("[1-9][0-9]?", remark("wanted-laps")),
    "distance": (r"[0-9]{1,3}(\.[0-9]{1,2})?", remark("wanted-distance")),
}
# What is recorded of a boat while she races.
RECORDED = ("start", "finish", "elapsed", "laps", "code")


def sheet_name(race: int) -> str:
    """The file of a race's sheet, as seen from the series' folder."""
    return f"{SHEETS}/race-{race}.csv"


def races_with_sheet(folder: Folder) -> list[int]:
    """The races that have a sheet of times."""
    if not os.path.isdir(folder.file(SHEETS)):
        return []
    return [race for race in range(1, 41) if os.path.exists(folder.file(sheet_name(race)))]


def is_form(key: str, text: str) -> bool:
    """Whether a text is one of a column."""
    return re.fullmatch(FORMS[key][0], text) is not None


def sheets_with(folder: Folder, sail: str) -> list[str]:
    """The sheets that have a row of a boat, as far as they can be read."""
    found = []
    for race in races_with_sheet(folder) if folder.settings.handicap else []:
        with contextlib.suppress(Trouble, OSError):
            held = sheet_at(folder.file(sheet_name(race)))
            place = columns(held.heads, SHEET).get("sail", len(held.heads))
            if sail in [plain(cell) for _, row in held.rows for cell in row[place:place + 1]]:
                found.append(sheet_name(race))
    return found


def sheet_at(path: str) -> Table:
    """A sheet with its rows; a Trouble if it is none, or if a cell of it holds rows below."""
    data = bytes_of(path)
    if wrong := wrong_form(data, name_of(path)):
        raise Trouble(wrong)
    return table_of(data)


def take_out_of_sheets(folder: Folder, sail: str) -> None:
    """Takes a boat's row out of all sheets. One that can't be read or written keeps it: a row of a boat that isn't
    entered is left out wherever a sheet is read."""
    for race in races_with_sheet(folder) if folder.settings.handicap else []:
        with contextlib.suppress(Trouble, OSError):
            take_row(folder.file(sheet_name(race)), sail)


def take_row(path: str, sail: str) -> None:
    """Takes a boat's row out of a sheet. A sheet without a row is none: the file goes then."""
    held = sheet_at(path)
    rows = rows_without([held.heads, *(row for _, row in held.rows)], sail, held.separator != ",")
    if len(rows) == len(held.rows) + 1:
        return
    if rows[1:]:
        replace_whole(path, as_csv([*held.above, *rows]))
    else:
        os.remove(path)


def rows_without(rows: Sequence[Sequence[str]], sail: str, has_commas: bool) -> list[list[str]]:
    """The rows of a sheet, the headings first, without a boat's. What the boat below hers has from her stays the same.
    `has_commas` says whether a number may have a comma for a dot: in the new text only commas part the columns."""
    places = columns(rows[0], SHEET)
    left, owed = [list(rows[0])], dict[int, str]()
    for row in rows[1:]:
        cells = [cell.replace(",", ".") if has_commas and at == places.get("distance") else cell for at, cell in enumerate(row)]
        cells += [""] * (len(rows[0]) - len(cells))
        if "sail" in places and plain(cells[places["sail"]]) == sail:
            owed |= carried(cells, places)
        else:
            left.append(filled(cells, owed))
            # Below a cell that none takes anything from, as a code that stands for a start, the next boat has it.
            given = carried(cells, places)
            owed = {at: text for at, text in owed.items() if cells[at].strip() and at not in given}
    return left


def carried(cells: Sequence[str], places: Mapping[str, int]) -> dict[int, str]:
    """What a row has that one below may take from it. A code in place of a time isn't taken, nor what isn't of its form in the row
    of a boat with a code."""
    held = {key: cells[at].strip() for key, at in places.items()}
    is_coded = bool(held.get("code")) or any(held.get(key, "").isalpha() for key in TIMES)
    return {places[key]: held[key] for key in CARRIED if held.get(key) and not held[key].isalpha()
            and (is_form(key, held[key]) or not is_coded)}


def filled(cells: Sequence[str], owed: Mapping[int, str]) -> list[str]:
    """A row with these cells where it has none. A code that stands for a start stays."""
    return [cell if cell.strip() else owed.get(at, cell) for at, cell in enumerate(cells)]


def sheet_without_race(folder: Folder, race: int, jury: Collection[str]) -> bytes:
    """The sheet of a race without what is recorded there; nothing if there is nothing, or if it can't be read. BFD stays
    (RRS 30.4), and so do the codes of boats that hold decisions of the jury."""
    if not folder.settings.handicap or race not in races_with_sheet(folder):
        return b""
    try:
        held = sheet_at(folder.file(sheet_name(race)))
    except (Trouble, OSError):
        return b""
    before = rows_without([held.heads, *(row for _, row in held.rows)], "", held.separator != ",")
    places = columns(before[0], SHEET)
    if "sail" not in places:
        return b""
    recorded = [places[key] for key in RECORDED if key in places]
    after = [before[0], *(row_without_race(row, recorded, plain(row[places["sail"]]) in jury) for row in before[1:])]
    return as_csv([*held.above, *after]) if after != before else b""


def row_without_race(row: Sequence[str], recorded: Collection[int], is_jury: bool) -> list[str]:
    """A boat's row without what is recorded of her in a race. A code may stand in place of a time."""
    def stays(text: str) -> bool:
        return text.isalpha() and (is_jury or text.upper() == "BFD")
    return ["" if at in recorded and not stays(cell.strip()) else cell for at, cell in enumerate(row)]


def clear_sheet(folder: Folder, race: int, cleared: bytes) -> None:
    """Takes an abandoned race out of its sheet. The sheet as it was is kept beside it."""
    path = folder.file(sheet_name(race))
    try:
        keep_abandoned(path.removesuffix(".csv"), bytes_of(path))
        replace_whole(path, cleared)
    except Trouble as trouble:
        raise NotNow(*trouble.said) from None


def keep_abandoned(start: str, data: bytes) -> None:
    """Keeps the sheet of an abandoned race under a name of its own, by the time in UTC: a race may be abandoned more than
    once. What is kept already, as before a crash, isn't kept again."""
    kept = glob.glob(f"{glob.escape(start)}-abandoned*.csv")
    if any(has(path, data) for path in kept):
        return
    name = f"{start}-abandoned-{time.strftime(f'{STAMP}Z', time.gmtime())}"
    names = itertools.chain([f"{name}.csv"], (f"{name}-{number}.csv" for number in itertools.count(2)))
    replace_whole(next(path for path in names if path not in kept), data)


def has(path: str, data: bytes) -> bool:
    """Whether a file has just this."""
    with contextlib.suppress(Trouble):
        return bytes_of(path) == data
    return False
