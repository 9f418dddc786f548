"""The start of a race by corrected time: which taps gave it, and the clock by which its finishers are timed."""
from __future__ import annotations

import datetime
import re
import time
import zoneinfo
from collections.abc import Iterator

from raceoffice import time_zones
from raceoffice.corrected.sheets import with_seconds
from raceoffice.corrected.write_sheet import SheetOfRace
from raceoffice.files import PRIVATE, text_if_any
from raceoffice.series.abandoned import last_abandoned
from raceoffice.series.folder import Folder
from raceoffice.web.taps import Register, Sent, Tap

Zone = datetime.tzinfo | None
# How long after a start another one is given in its place without a question, as one that is tapped again
AGAIN = datetime.timedelta(minutes=1)
# The file in office/ with the zones of the series, how many bytes of it are read, and how many zones it has at most
ZONE, LONGEST, MOST = "zone", 1 << 16, 100
# A moment in it, in milliseconds since 1970
MOMENT = re.compile("[0-9]{1,15}")
# How it has the zone of a computer that isn't set by a name
UNNAMED = "-"


def starts_given(register: Register, race: int) -> list[Sent]:
    """The taps that gave a race a start, in the order in which they were done."""
    return [one for one in register.all() if "/" not in one.id and one.line.split()[:-1] == ["START", str(race)]
            and one.answer.startswith(("OK ", "NOTED"))]


def start_of(sent: Sent) -> str:
    """The start that a tap gave, as a sheet has it."""
    return with_seconds("start", sent.line.split()[-1])


def is_start_seen(register: Register, race: int, start: str, tap: Tap, by: str) -> bool:
    """Whether a tap of a device, `by`, that gives a race another start, was made by somebody who knew that it had this
    one: the device had given it, or showed it. An older page doesn't say what it showed: then the moments decide."""
    last = starts_given(register, race)[-1:]
    if tap.was is None:
        return was_given_before(register, race, start, tap.at)
    return with_seconds("start", tap.was) == start or any(start_of(one) == start and one.by == by for one in last)


def is_just_given(zone: Zone, start: str, at: int) -> bool:
    """Whether a start is within a minute of a moment: boats may have sailed by an older one for long."""
    moment = begun(zone, start, at, at)
    return moment is not None and abs(utc(at) - moment) <= AGAIN


def was_given_before(register: Register, race: int, start: str, at: int) -> bool:
    """Whether the start of a race is that of a tap before a moment."""
    return any(start_of(one) == start and one.at <= at for one in starts_given(register, race)[-1:])


# The clock of a race

def zone_of_race(folder: Folder, register: Register, race: int, at: int) -> Zone:
    """The zone by whose clock a race goes from its start to its end: the one that was in force when a tap gave it its first
    start since it was abandoned, or at a moment if none has."""
    since = last_abandoned(folder, race)
    return zone_of(folder, next((one.at for one in starts_given(register, race) if one.at > since), at))


def clock_of_race(folder: Folder, register: Register, race: int, start: str, at: int) -> str:
    """A moment by the clock of a race: that of its zone at the start, or if there is none yet, at the moment itself."""
    taps = [one.at for one in starts_given(register, race) if start_of(one) == start]
    given_at = taps[-1] if taps else at
    return clock_since(zone_of_race(folder, register, race, given_at), start, at, given_at)


def clock_since(zone: Zone, start: str, at: int, given_at: int) -> str:
    """A moment by the clock that goes on as it was at a start, which a tap gave at `given_at`. A start that was given only
    after the moment is the last one before that."""
    return clock_text(zone, at, begun(zone, start, at, given_at if given_at < at else None))


def clock_text(zone: Zone, at: int, since: datetime.datetime | None = None) -> str:
    """A moment by the clock that a zone had at another, or has then."""
    moment = utc(at)
    offset = (since or moment).astimezone(zone).utcoffset() or datetime.timedelta()
    return (moment + offset).strftime("%H:%M:%S")


def begun(zone: Zone, start: str, at: int, given_at: int | None) -> datetime.datetime | None:
    """The moment of a start: the one nearest to the tap that gave it, or else the last before a finish at `at`; None if
    there is no start."""
    if not start:
        return None
    near = utc(at if given_at is None else given_at)
    moments = list(moments_of(zone, start, near))
    if given_at is not None:
        return min(moments, key=lambda moment: abs(moment - near))
    return max((moment for moment in moments if moment <= near), default=None)


def moments_of(zone: Zone, clock: str, near: datetime.datetime) -> Iterator[datetime.datetime]:
    """The moments about another at which the clock of a zone shows this. One that is put back shows an hour twice."""
    hours, minutes, seconds = map(int, clock.split(":"))
    day = near.astimezone(zone).date()
    for days, fold in ((days, fold) for days in (-1, 0, 1) for fold in (0, 1)):
        shown = datetime.datetime.combine(day + datetime.timedelta(days), datetime.time(hours, minutes, seconds, fold=fold))
        yield (shown.replace(tzinfo=zone) if zone else shown.astimezone()).astimezone(datetime.timezone.utc)


def by_clock_of_start(folder: Folder, register: Register, race: int, sheet: SheetOfRace, at: int) -> None:
    """Puts the finishes that were tapped before a start was given, at `at`, by the clock that the race has then."""
    start, zone = sheet.starts[0] if sheet.starts else "", zone_of_race(folder, register, race, at)
    for sent in register.all():
        words = sent.line.split()
        if words[:2] != ["FINISH", str(race)] or len(words) != 3 or not sent.made or not sent.at:
            continue
        held = sheet.cells(words[2])["finish"]
        if held and held == sent.made.get("finish"):
            sheet.put(sheet.row(words[2]), "finish", clock_since(zone, start, sent.at, at))


def clock_shown(folder: Folder) -> list[list[int]]:
    """The clock of the series' zone, for pages: a device may be in another."""
    return time_zones.changes_of(zone_of(folder), datetime.datetime.now(datetime.timezone.utc))


def utc(at: int) -> datetime.datetime:
    return datetime.datetime.fromtimestamp(at / 1000, datetime.timezone.utc)


# The zone of the series

def zone_of(folder: Folder, at: int | None = None) -> Zone:
    """The zone by which the series goes, or went at a moment; None for that of this computer."""
    zones = zones_kept(folder)
    held = [name for since, name in zones if at is None or since <= at] or [name for _, name in zones[:1]]
    name = held[-1] if held else folder.settings.zone
    return zoneinfo.ZoneInfo(name) if name else None


def zone_kept(folder: Folder) -> str:
    """The zone by whose clock the races go that are on, as the last opening has noted it; empty if it has none."""
    return next((name for _, name in reversed(zones_kept(folder))), "")


def zones_kept(folder: Folder) -> list[tuple[int, str]]:
    """The zones by which the series went, each with the moment since when, and empty for that of this computer. An older
    package has noted one alone."""
    lines = [line.rpartition(" ") for line in text_if_any(folder.file(PRIVATE, ZONE), LONGEST).splitlines()]
    found = [(int(since) if MOMENT.fullmatch(since) else 0, "" if name == UNNAMED else name) for since, _, name in lines]
    return [(since, name) for since, name in found if not name or time_zones.is_name(name)]


def note_zone(folder: Folder, name: str) -> None:
    """Notes that the series goes by a zone from now on."""
    zones = zones_kept(folder)
    if [held for _, held in zones[-1:]] != [name]:
        zones.append((int(time.time() * 1000) if zones else 0, name))
        folder.set_note(ZONE, "".join(f"{since} {held or UNNAMED}\n" for since, held in zones[-MOST:]).encode())
