"""A new series from a page: what it says of an uploaded list and of settings, and its folder."""
from __future__ import annotations

import base64
import binascii
import contextlib
import os
import re
import secrets
import shutil
import time
from collections.abc import Mapping, Sequence
from typing import Any

from raceoffice import system
from raceoffice.corrected.ratings import rating_faults
from raceoffice.corrected.times import RULES, SYSTEMS
from raceoffice.corrected.write_sheet import rules_text, write_rules
from raceoffice.errors import NotSent, NotThere, Trouble, as_trouble
from raceoffice.files import read_whole
from raceoffice.remarks import Remark, remark
from raceoffice.series import settings
from raceoffice.series.create import make
from raceoffice.series.entry_list import problems, rating_note
from raceoffice.series.headings import rating_columns
from raceoffice.series.mend_list import NAME, mended
from raceoffice.series.race_sheets import SHEETS
from raceoffice.series.read_list import LARGEST, table_of
from raceoffice.web.states import Values, remarks_of, rules_of

FOLDER = re.compile(r"[a-z0-9][a-z0-9-]{0,23}")
# A series that isn't whole yet, and after how many seconds nobody makes it any more.
UNFINISHED, LONG = re.compile(r"\.[0-9a-f]{16}\.new"), 3600.0
# What of the settings a page gives. All else is as series.ini has it if nothing is said.
GIVEN = ("title", "class", "club", "zone", "exclude", "absent", "scp", "handicap")
# The most letters of each.
LONGEST = 200


def list_shown(values: Mapping[str, Any]) -> Values:
    """An uploaded list: its boats, what was done to it, and what is wrong with it."""
    try:
        data = base64.b64decode(str(values.get("data", "")), validate=True)
    except (ValueError, binascii.Error):
        raise NotSent(remark("list-not-whole")) from None
    if len(data) > LARGEST:
        raise NotSent(remark("list-too-long", most=f"{LARGEST:,}"))
    column = values.get("column")
    found = mended(data, column if isinstance(column, int) and not isinstance(column, bool) else None)
    table = table_of(found.data) if found.boats else None
    ratings = list(rating_columns(table.heads).values()) if table else []
    boats = [[boat.sail, boat.name, boat.helm, boat.club, *(table.cell(row, at) for at in ratings)]
             for boat, (_, row) in zip(found.boats, table.rows)] if table else []
    return {"wrong": remarks_of(found.wrong), "done": remarks_of(found.done), "heads": found.heads, "boats": boats,
            "ratings": [table.heads[at] for at in ratings] if table else [],
            "is_sail_known": found.is_sail_known, "text": found.data.decode("utf-8", "replace"),
            "numbered": found.numbered.decode("utf-8", "replace")}


def settings_given(values: object) -> dict[str, str]:
    """The settings that a page gives; those that it leaves empty are as if nothing was said."""
    if not isinstance(values, dict):
        raise NotSent(remark("settings-missing"))
    given = {key: setting_given(values, key) for key in GIVEN}
    return {key: text for key, text in given.items() if text}


def setting_given(values: Mapping[str, Any], key: str) -> str:
    """A setting on one line; NotSent if it is too long."""
    text = " ".join(str(values.get(key, "")).split())
    if len(text) > LONGEST:
        raise NotSent(remark("setting-long", key=key, most=LONGEST))
    return text


def wrong_in(given: Mapping[str, str]) -> list[Remark]:
    """What is wrong with settings."""
    return [without_place(wrong) for wrong in settings.problems(settings.filled_in(dict(given)))]


def wrong_settings(given: Mapping[str, str]) -> Values:
    """What is wrong with settings, in words, and with which; nothing if all are right."""
    wrong = wrong_in(given)
    if not wrong:
        return {}
    held = settings.DEFAULTS | given
    return {"wrong": remarks_of(wrong),
            "keys": [key for key in GIVEN if key in settings.CHECKS and not settings.CHECKS[key][0](held[key])]}


def without_place(wrong: Remark) -> Remark:
    """What is wrong with a setting, without where that is in series.ini, which a page doesn't show."""
    values = wrong.values
    if wrong.kind == "ini-value":
        return remark("setting-value", key=values["key"], value=values["value"], wanted=values["wanted"])
    fault = values.get("fault")
    return fault if isinstance(fault, Remark) else wrong


def settings_shown(values: Mapping[str, Any]) -> Values:
    """What settings mean, in words, or what is wrong with them; and what there is to know of the ratings in the list:
    by corrected time each boat without one that the system takes."""
    given = settings_given(values.get("settings"))
    if wrong := wrong_settings({"title": "A title", **given}):
        return {**wrong, "rules": "", "note": []}
    shown = settings.settings_of({"title": "A title", **given})
    return {"wrong": [], "keys": [], "rules": shown.in_words(), "settings": rules_of(shown),
            "note": remarks_of(rating_notes(list_given(values), shown.handicap, str(values.get("system", ""))))}


def rating_notes(data: bytes, is_rated: bool, system: str) -> list[Remark]:
    """What there is to know of the ratings in a list; nothing of one that isn't whole."""
    if not data or problems(data, NAME):
        return []
    if note := rating_note(data, NAME, is_rated):
        return [note]
    if is_rated and system in SYSTEMS and not rating_columns(table_of(data).heads, system):
        return [remark(f"ratings-missing-{system}", name=NAME, row=table_of(data).first)]
    return rating_faults(data, NAME, system) if is_rated and system in SYSTEMS else []


def folder_made(parent: str, values: Mapping[str, Any]) -> str:
    """Makes the folder of a new series; its path. It comes to be whole, in one step, and nothing is written over.
    The same again, as after a crash, gives the same folder."""
    name = str(values.get("name", "")).lower()
    if not FOLDER.fullmatch(name):
        raise NotSent(remark("short-name"))
    path, fresh = os.path.join(parent, name), os.path.join(parent, f".{secrets.token_hex(8)}.new")
    try:
        with contextlib.suppress(OSError):
            remove_all(left_behind(parent))
        make_whole(fresh, values)
        if os.path.lexists(path):
            if not is_same(fresh, path):
                raise NotSent(remark("folder-there", name=name))
        else:
            with as_trouble("file-unmade", name=path):
                os.rename(fresh, path)
                system.sync_folder(parent)
    except Trouble as trouble:
        raise NotSent(*trouble.said) from None
    finally:
        remove_all([fresh])
    return path


def make_whole(folder: str, values: Mapping[str, Any]) -> None:
    """Makes a folder with all that a new series has."""
    given = settings_given(values.get("settings"))
    is_timed = given.get("handicap") == "yes" and bool(values.get("system"))
    rules = rules_text(str(values["system"]), str(values.get("rounding") or "half-up")) if is_timed else b""
    make(folder, given, list_given(values))
    if rules:
        write_rules(folder, rules)


def list_given(values: Mapping[str, Any]) -> bytes:
    """The entry list of a new series; NotSent if it is too long to be read again."""
    data = str(values.get("text", "")).encode()
    if len(data) > LARGEST:
        raise NotSent(remark("list-too-long", most=f"{LARGEST:,}"))
    return data


def left_behind(parent: str) -> list[str]:
    """The folders that a crash has left before they were whole series."""
    found = [os.path.join(parent, name) for name in os.listdir(parent) if UNFINISHED.fullmatch(name)]
    return [path for path in found if os.stat(path).st_mtime < time.time() - LONG]


def remove_all(folders: Sequence[str]) -> None:
    for folder in folders:
        shutil.rmtree(folder, ignore_errors=True)


def is_same(fresh: str, path: str) -> bool:
    """Whether a series is just as it would be made, and nothing has been sailed yet."""
    return is_unsailed(path) and files_of(path) == files_of(fresh)


def files_of(folder: str) -> list[bytes]:
    """What a series is made with: settings, boats, rules of corrected times."""
    return [bytes_if_any(os.path.join(folder, name)) for name in (settings.NAME, "entries.csv", os.path.join(SHEETS, RULES))]


def is_unsailed(folder: str) -> bool:
    """Whether a journal has nothing but boats."""
    lines = bytes_if_any(os.path.join(folder, "journal.txt")).splitlines()[1:]
    return all(b" ENTER " in line for line in lines)


def bytes_if_any(path: str) -> bytes:
    try:
        return read_whole(path, LARGEST)
    except NotThere:
        return b""
