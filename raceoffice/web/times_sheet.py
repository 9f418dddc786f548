"""A race's sheet of times as the scorer's page shows and changes it: each boat's start, her laps or distance if the
rating system takes them, an elapsed time instead of a finish, and whether the race goes on past midnight. Her finish
and her code come from taps."""
from __future__ import annotations

import hashlib
from collections.abc import Mapping, Sequence
from typing import Any

from raceoffice.characters import utf8
from raceoffice.corrected.sheets import entries_of
from raceoffice.corrected.times import RULES, Rules
from raceoffice.corrected.write_sheet import SheetOfRace, with_rule
from raceoffice.errors import NotSent, NotThere, Trouble
from raceoffice.files import edited_text, replace_whole
from raceoffice.remarks import remark
from raceoffice.series.folder import Folder
from raceoffice.series.race_sheets import FORMS, SHEETS, TIMES, is_form, sheet_name
from raceoffice.series.read_list import bytes_of
from raceoffice.session.facts import Facts
from raceoffice.web.states import Values, remarks_of

# What a page may change, by the rating system, and all that it shows.
CHANGED = {"tcf": ["start", "elapsed"], "py": ["start", "laps", "elapsed"], "tod": ["start", "distance", "elapsed"]}
SHOWN = ("start", "laps", "distance", "finish", "elapsed")


def data_of(folder: Folder, race: int) -> bytes:
    """The sheet of a race; empty if there is none."""
    try:
        return bytes_of(folder.file(sheet_name(race)))
    except NotThere:
        return b""


def tag_of(data: bytes) -> str:
    """What is another whenever the sheet is."""
    return hashlib.sha256(data).hexdigest()[:20]


def rules_of(folder: Folder) -> Rules:
    """The rules of the sheets of a class."""
    try:
        return Rules.read(folder)
    except Trouble as trouble:
        raise NotSent(*trouble.said) from None


def sheet_shown(folder: Folder, facts: Facts, number: str) -> Values:
    """The sheet of a race with a row for each boat that is entered; or what is wrong with it."""
    if not folder.settings.handicap:
        raise NotSent(remark("sheet-untimed"))
    race = facts.race(number).number
    data, rules = data_of(folder, race), rules_of(folder)
    found, wrong = entries_of(data, sheet_name(race)) if data else ([], [])
    rows = {entry.sail: {**{key: entry.cells[key] for key in SHOWN}, "code": entry.code} for entry in found}
    empty = {**{key: "" for key in SHOWN}, "code": ""}
    sails = [*facts.boats, *(sail for sail in rows if sail not in facts.boats)]
    return {"race": race, "tag": tag_of(data), "wrong": remarks_of(wrong), "columns": CHANGED[rules.system],
            "overnight": race in rules.overnight, "rounding": rules.rounding,
            "rows": [{"sail": sail, **rows.get(sail, empty)} for sail in sails]}


def save_sheet(folder: Folder, facts: Facts, values: Mapping[str, Any]) -> Values:
    """Puts what a page gives into the sheet of a race, whole, if it is still as it was shown; the sheet then."""
    number = str(values.get("race", ""))
    shown = sheet_shown(folder, facts, number)
    if shown["wrong"]:
        raise NotSent(remark("sheet-unread"))
    sheet = SheetOfRace(folder, facts.race(number).number)
    before = sheet.data
    if values.get("rows"):
        # An empty cell is as that of the boat above on the page.
        sheet.put_in_order(list(facts.boats))
    in_order = sheet.data
    put_rows(sheet, facts, values.get("rows"), CHANGED[rules_of(folder).system])
    # The web may have died after it had written just this.
    if sheet.data != in_order and values.get("tag") != shown["tag"]:
        raise NotSent(remark("sheet-changed"))
    put_night(folder, facts.race(number).number, values.get("overnight", shown["overnight"]))
    if sheet.data != before:
        sheet.write()
    return sheet_shown(folder, facts, number)


def put_night(folder: Folder, race: int, is_overnight: object) -> None:
    """Has times/rules.ini say whether a race goes on past midnight."""
    nights, path = rules_of(folder).overnight, folder.file(SHEETS, RULES)
    if not isinstance(is_overnight, bool):
        raise NotSent(remark("sheet-odd"))
    if is_overnight == (race in nights):
        return
    wanted = sorted({*nights, race} if is_overnight else {*nights} - {race})
    try:
        replace_whole(path, utf8(with_rule(edited_text(path), "overnight", ",".join(map(str, wanted)))))
    except Trouble as trouble:
        raise NotSent(*trouble.said) from None


def put_rows(sheet: SheetOfRace, facts: Facts, rows: object, columns: Sequence[str]) -> None:
    """Changes what a page gives of each boat."""
    if not isinstance(rows, dict):
        raise NotSent(remark("sheet-odd"))
    for sail, cells in rows.items():
        if sail not in facts.boats or not isinstance(cells, dict):
            raise NotSent(remark("not-entered", sail=str(sail)[:20]))
        put_cells(sheet, sail, cells, columns)
        row = sheet.row(sail)
        if cells.get("elapsed") and (held := sheet.cell(row, "finish") or sheet.cell(row, "code")):
            raise NotSent(remark("sheet-has", sail=sail, before=held, name=sheet.name))


def put_cells(sheet: SheetOfRace, sail: str, cells: Mapping[str, Any], columns: Sequence[str]) -> None:
    """Changes what a page gives of one boat; NotSent if that isn't of its form, or if the system doesn't take it."""
    if any(key not in columns for key in cells):
        raise NotSent(remark("sheet-odd"))
    for key in columns:
        text = str(cells.get(key, "")).strip().replace(",", ".")
        if key in TIMES:
            # As it may be typed: 13.51.58
            text = text.replace(".", ":")
        if text and not is_form(key, text):
            raise NotSent(remark("sheet-boat", sail=sail, written=text[:20], wanted=FORMS[key][1]))
        if key in cells:
            sheet.give(sail, key, text)
