"""When the results of a series changed last, and whether they did since they were announced: by its
log."""
from __future__ import annotations

import datetime
import hashlib
from collections.abc import Sequence

from raceoffice.series.log import Logged
from raceoffice.series.lost_lines import is_entry
from raceoffice.series.settings import STATES


def time_of(entry: Logged) -> datetime.datetime | None:
    try:
        return datetime.datetime.strptime(entry.time, "%Y-%m-%dT%H:%M:%S%z")
    except ValueError:
        return None


def time_of_entry(logged: list[Logged], journal: Sequence[str], number: int) -> datetime.datetime | None:
    """When an entry of the journal was answered; None if no window has logged it. Another journal may
    once have had this number: so the line is compared, too. An entry that was there when a boat was taken
    out got its number then, and the results changed."""
    if not 0 < number <= len(journal):
        return None
    found = None
    for entry in logged:
        if entry.answer.split()[:2] == ["OK", str(number)] and is_entry(entry.line, journal[number - 1]):
            found = time_of(entry)
        elif entry.line.startswith("removed "):
            found = time_of(entry) if number <= entry.entries else None
    return found


def last_notice(logged: list[Logged]) -> Logged | None:
    """The last announcement; None if there is none."""
    return next((entry for entry in reversed(logged) if entry.line in STATES), None)


def time_of_notice(logged: list[Logged], state: str) -> datetime.datetime | None:
    """When this state was announced; None if the last announcement was another."""
    last = last_notice(logged)
    return time_of(last) if last and last.line == state else None


def time_of_rules(logged: list[Logged]) -> datetime.datetime | None:
    """When an office was opened with other rules than before, for the last time; None if never."""
    opened = [entry for entry in logged if entry.line == "opened"]
    changed = [now for before, now in zip(opened, opened[1:]) if before.role != now.role]
    return time_of(changed[-1]) if changed else None


def mark_of(table: tuple[str, ...]) -> str:
    """A short text that is another for another table."""
    return hashlib.sha256("\n".join(table).encode()).hexdigest()[:12]


def is_changed_since(logged: list[Logged], state: str, table: tuple[str, ...]) -> bool:
    """Whether the table isn't that of the announcement; False if none of this state is in the log."""
    last = last_notice(logged)
    return bool(last and last.line == state != "provisional" and last.answer != mark_of(table))
