"""When the races of a series were abandoned, by the office's clock: what was tapped before and comes later was seen in a
sailing that doesn't count."""
from __future__ import annotations

import contextlib
import json
import os
import time

from raceoffice.errors import NotNow, Trouble, as_trouble
from raceoffice.files import PRIVATE, append_whole, replace_whole, text_if_any
from raceoffice.series.folder import Folder

# The file in office/: a race and a moment in milliseconds since 1970 in each line; and how much of it is read.
ABANDONED, LARGEST = "abandoned", 1 << 20
# The file in office/ that a race has while its lines are sent: how many entries there were before, and the lines.
BEGUN = "abandoning"


def note_abandoned(folder: Folder, race: int) -> None:
    """Notes, on the disk, that a race is abandoned now."""
    try:
        append_whole(folder.file(PRIVATE, ABANDONED), f"{race} {int(time.time() * 1000)}\n".encode(), b"\n")
    except Trouble as trouble:
        raise NotNow(*trouble.said) from None


def last_abandoned(folder: Folder, race: int) -> int:
    """When a race was abandoned last; 0 if it never was."""
    return abandonments(folder).get(race, 0)


def abandonments(folder: Folder) -> dict[int, int]:
    """When each race that was ever abandoned was so last. A moment later than now is that of a clock that was ahead."""
    last: dict[int, int] = {}
    now = int(time.time() * 1000)
    for line in text_if_any(folder.file(PRIVATE, ABANDONED), LARGEST).splitlines():
        # A line may be torn, or have a rotten bit.
        with contextlib.suppress(ValueError):
            race, moment = map(int, line.split())
            if moment <= now:
                last[race] = max(last.get(race, 0), moment)
    return last


def note_lines(folder: Folder, race: int, entries: int, lines: list[str]) -> None:
    """Notes, on the disk, by which lines a race is being taken away from a journal of `entries` entries; that it is done,
    if there are none."""
    path = begun_file(folder, race)
    try:
        if lines:
            replace_whole(path, json.dumps([entries, lines]).encode() + b"\n")
        elif os.path.lexists(path):
            with as_trouble("file-unwritten", name=path):
                os.remove(path)
    except Trouble as trouble:
        raise NotNow(*trouble.said) from None


def lines_noted(folder: Folder, race: int) -> tuple[int, list[str]]:
    """What is noted of a race that was begun to be taken away, and of which nobody knows that it is done; no lines if nothing
    is, or if that can't be read."""
    with contextlib.suppress(ValueError, TypeError, RecursionError):
        entries, lines = json.loads(text_if_any(begun_file(folder, race), LARGEST))
        if type(entries) is int and entries >= 0 and all(type(line) is str and len(line.split()) > 1 for line in lines):
            return entries, list(lines)
    return 0, []


def leave_lines(folder: Folder, lines: list[str]) -> None:
    """Notes of lines that nobody will send what is left of them, if they end in those by which a race was begun to be taken
    away."""
    race = lines[-1].split()[1]
    noted = lines_noted(folder, int(race))[1] if race.isdecimal() else []
    if noted and lines[-len(noted):] == noted:
        note_lines(folder, int(race), 0, [])


def begun_file(folder: Folder, race: int) -> str:
    return folder.file(PRIVATE, f"{BEGUN}-{race}")
