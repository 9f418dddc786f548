"""The second folder of a class, which the scorer chooses among the sticks that are in."""
from __future__ import annotations

import contextlib
import os
from collections.abc import Mapping
from typing import Any

from raceoffice import system
from raceoffice.characters import utf8
from raceoffice.errors import NotSent, Trouble
from raceoffice.files import replace_whole
from raceoffice.remarks import remark
from raceoffice.series import settings
from raceoffice.series.folder import Folder
from raceoffice.web.kept_office import KeptOffice
from raceoffice.web.series_settings import log_once, text_now
from raceoffice.web.states import Values
from raceoffice.wording import on_one_line


def sticks_in() -> dict[str, int]:
    """The folders of the sticks that are in, with their devices: those whose names a setting can have."""
    return {folder: device for folder, device in system.sticks().items() if folder == on_one_line(folder)}


def sticks_shown(folder: Folder) -> Values:
    """The sticks that are in; which second folder series.ini names, and whether the office has another."""
    kept = folder.settings.copy
    with contextlib.suppress(NotSent, Trouble):
        kept = settings.values_of(text_now(folder)).get("copy", "")
    return {"sticks": [{"path": path, "is_same_disk": device == disk_of(folder)} for path, device in sticks_in().items()],
            "chosen": kept, "is_waiting": kept != folder.settings.copy}


def disk_of(folder: Folder) -> int:
    """The device that has the journal."""
    with contextlib.suppress(OSError):
        return os.stat(os.path.dirname(os.path.realpath(folder.journal))).st_dev
    return -1


def choose(folder: Folder, office: KeptOffice, values: Mapping[str, Any], by: str) -> None:
    """Makes the folder of a stick that is in the second folder, or none: in series.ini, and at once for an office that
    this process keeps or that is closed. `by` is who does."""
    path = values.get("path")
    if not isinstance(path, str) or path and path not in sticks_in():
        raise NotSent(remark("stick-gone"))
    text = text_now(folder)
    if wrong := settings.problems(text):
        raise NotSent(*wrong)
    try:
        changed = settings.with_value(text, "office", "copy", path)
        if changed != text:
            log_once(folder, by, "settings", f"copy = {path}")
            replace_whole(folder.file(settings.NAME), utf8(changed))
    except Trouble as trouble:
        raise NotSent(*trouble.said) from None
    office.copy_to(path)
