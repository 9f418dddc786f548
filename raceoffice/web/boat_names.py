"""The names of a boat that was entered late, put into the entry list."""
from __future__ import annotations

import os
import re
from collections.abc import Mapping
from typing import Any

from raceoffice.corrected.ratings import is_rating
from raceoffice.corrected.times import RULES, Rules
from raceoffice.errors import NotSent, Trouble
from raceoffice.files import replace_whole
from raceoffice.remarks import remark
from raceoffice.results.spreadsheet import harmless
from raceoffice.series.entry_list import RAISED, plain, problems
from raceoffice.series.folder import Folder
from raceoffice.series.headings import ENTRIES, columns, rating_columns
from raceoffice.series.race_sheets import SHEETS
from raceoffice.series.read_list import bytes_of, name_of, table_of
from raceoffice.series.write_list import with_boat
from raceoffice.session.facts import Facts
from raceoffice.web.series_settings import log_once
from raceoffice.web.states import Values
from raceoffice.wording import on_one_line

# What a page asks of a boat beside her sail, and how many letters each may have.
KEYS, LONGEST = ("name", "helm", "club", "rating"), 80
RATING = re.compile(r"[0-9]{1,5}(\.[0-9]{1,4})?")


def list_shown(folder: Folder) -> Values:
    """Which of the names of a boat the entry list has columns for, and what it has of each boat there: of her ratings
    only if there is one column of them."""
    data = list_of(folder)
    found, table = places_of(folder, data), table_of(data)
    single = {key: found[key][0] for key in KEYS if len(found.get(key, [])) == 1}
    at = columns(table.heads, ENTRIES)["sail"]
    rows = {plain(row[at]): {key: table.cell(row, place) for key, place in single.items()} for _, row in table.rows}
    return {"columns": [key for key in KEYS if key in found], "rows": rows}


def list_of(folder: Folder) -> bytes:
    """The entry list; NotSent if it can't be read."""
    try:
        data = bytes_of(folder.entries)
    except Trouble as trouble:
        raise NotSent(*trouble.said) from None
    if wrong := problems(data, folder.entries):
        raise NotSent(*wrong)
    return data


def places_of(folder: Folder, data: bytes) -> dict[str, list[int]]:
    """The columns of the list for each name. A rating goes into all columns of the class's system: each holds
    from another race on."""
    heads = table_of(data).heads
    found = {key: [at] for key, at in columns(heads, ENTRIES).items() if key in KEYS}
    if ratings := list(rating_columns(heads, system_of(folder)).values()) if folder.settings.handicap else []:
        found["rating"] = ratings
    return found


def system_of(folder: Folder) -> str:
    """The rating system of a class by corrected time; empty if its rules aren't there."""
    return Rules.read(folder).system if os.path.exists(folder.file(SHEETS, RULES)) else ""


def name_boat(folder: Folder, facts: Facts, values: Mapping[str, Any], by: str) -> bool:
    """Adds, completes or corrects the row of a boat that is entered; whether the list is another then. What it has is
    replaced only if that is what was shown (`was`), and what isn't given stays. `by` is who does."""
    sail = text_given(values, "sail").translate(RAISED)
    if plain(sail) not in facts.boats:
        raise NotSent(remark("not-entered", sail=sail[:20]) if sail else remark("no-sail-entered"))
    shown = values.get("was", {})
    was = {key: text_given(shown, key) for key in KEYS if isinstance(shown, dict) and key in shown}
    given = {key: text for key in KEYS if (text := text_given(values, key)) or key in values and was.get(key)}
    try:
        data = list_of(folder)
        places = places_of(folder, data)
        before = {at: text for key, text in was.items() for at in places.get(key, [])}
        need_rating(folder, given.get("rating", ""))
        changed = with_boat(data, name_of(folder.entries), sail, cells_of(places, given), before)
        if changed == data:
            return False
        log_once(folder, by, "named", "; ".join([plain(sail), *(f"{key} = {text}" for key, text in given.items())]))
        replace_whole(folder.entries, changed)
    except Trouble as trouble:
        raise NotSent(*trouble.said) from None
    return True


def text_given(values: Mapping[str, Any], key: str) -> str:
    """A text of a page on one line, without signs that aren't seen."""
    text = values.get(key, "")
    if not isinstance(text, str):
        raise NotSent(remark("name-no-text", key=remark(f"key-{key}")))
    text = on_one_line(text)
    if len(text) > LONGEST:
        raise NotSent(remark("name-long", key=remark(f"key-{key}"), most=LONGEST))
    return text


def need_rating(folder: Folder, text: str) -> None:
    """NotSent if a rating is none of the class's system: the program would take no times of its races."""
    system, written = system_of(folder), text.replace(",", ".")
    if written and not (is_rating(system, written) if system else RATING.fullmatch(written)):
        raise NotSent(remark("rating-form", written=text))


def cells_of(places: Mapping[str, list[int]], given: Mapping[str, str]) -> dict[int, str]:
    """The cells of a row, by the numbers of their columns. None is a formula."""
    for key, text in given.items():
        if key not in places:
            raise NotSent(remark("name-no-column", key=remark(f"key-{key}")))
    return {at: text.replace(",", ".") if key == "rating" else harmless(text)
            for key, text in given.items() for at in places[key]}
