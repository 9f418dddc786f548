"""Moments in words, as pages have them, and the names of time zones."""
from __future__ import annotations

import bisect
import contextlib
import datetime
import functools
import os
import re
import zoneinfo

# Not those of the computer's language: the pages are in English.
DAYS = ["Mon", "Tue", "Wed", "Thu", "Fri", "Sat", "Sun"]
MONTHS = ["Jan", "Feb", "Mar", "Apr", "May", "Jun", "Jul", "Aug", "Sep", "Oct", "Nov", "Dec"]
# The form of a time zone's name, as Europe/Lisbon: others aren't looked up, since each part takes Python a step further down
ZONE = re.compile(r"[A-Za-z][\w+-]{0,40}(?:/[\w+-]{1,40}){0,2}", re.ASCII)
# Seconds of a week, in which no clock is changed twice.
WEEK = 7 * 86400
# The most minutes that a computer's clock is from UTC: Python knows none that is a day from it. A zone in use has 14 hours.
MOST = 24 * 60 - 1
# The end of a moment in words: `CET (UTC+1)`, `UTC+5:30` or `UTC`.
END = re.compile(r"[0-9] (?:([A-Za-z]{3,6}) \()?UTC(?:([+-])([0-9]{1,2})(?::([0-9]{2}))?)?\)?")
# The file with this computer's zone, a link to one of its name; one with that name; and the most that is read of that
LOCAL_TIME, ZONE_NAME, LONGEST = "/etc/localtime", "/etc/timezone", 200
# Files that hold a zone, but whose names are no zone's: another computer may have another zone there.
UNNAMED = re.compile("localtime|posixrules|Factory|(?:posix|right)/.*")


def is_name(text: str) -> bool:
    """Whether this is the name of a time zone, which is the same zone on each computer."""
    try:
        return bool(ZONE.fullmatch(text)) and not UNNAMED.fullmatch(text) and bool(zoneinfo.ZoneInfo(text))
    except (OSError, ValueError, zoneinfo.ZoneInfoNotFoundError):
        return False


def are_known() -> bool:
    """Whether this computer has data of time zones: without any, no zone has a name."""
    return is_name("UTC")


@functools.cache
def all_zones() -> tuple[zoneinfo.ZoneInfo, ...]:
    return tuple(zoneinfo.ZoneInfo(name) for name in sorted(zoneinfo.available_timezones()) if is_name(name))


def in_zone(moment: datetime.datetime, zone: datetime.tzinfo | None = None) -> datetime.datetime:
    """A moment by the clock of a zone; None is this computer's. If that is a day or more from UTC, it is by UTC."""
    try:
        return moment.astimezone(zone)
    except ValueError:
        return moment.astimezone(datetime.timezone.utc)


def changes_of(zone: datetime.tzinfo | None, now: datetime.datetime) -> list[list[int]]:
    """Since when the clock of a zone is ahead of UTC, and by how much, both in milliseconds, from the beginning of the year
    before `now` to the end of the year after; None is this computer's zone."""
    def ahead(at: int) -> datetime.timedelta:
        return in_zone(datetime.datetime.fromtimestamp(at, datetime.timezone.utc), zone).utcoffset() or datetime.timedelta()
    first, last = (int(datetime.datetime(year, 1, 1, tzinfo=datetime.timezone.utc).timestamp()) for year in (now.year - 1, now.year + 2))
    found = [(first, ahead(first))]
    for at in range(first + WEEK, last, WEEK):
        if (held := ahead(at)) != found[-1][1]:
            seconds = range(at - WEEK, at + 1)
            found.append((seconds[bisect.bisect_left(seconds, True, key=lambda second: ahead(second) == held)], held))
    return [[since * 1000, int(held.total_seconds() * 1000)] for since, held in found]


def of_this_computer() -> str:
    """The name of this computer's zone, as it is set; empty if it isn't set by a name."""
    return next((name for name in names_set() if is_like_computer(name)), "")


def like_computer() -> str:
    """The name of a zone that has this computer's clock; empty if there is none."""
    return of_this_computer() or next((zone.key for zone in all_zones() if is_like_computer(zone.key)), "")


def names_set() -> list[str]:
    """The names by which a computer may say in which zone it is."""
    if "TZ" in os.environ:
        found = [os.environ["TZ"]]
    else:
        found = [os.path.realpath(LOCAL_TIME)]
        with contextlib.suppress(OSError, ValueError), open(ZONE_NAME, encoding="ascii") as file:
            found.append(file.read(LONGEST).strip())
    return [*(name.removeprefix(":").rpartition("zoneinfo/")[2] for name in found), "UTC"]


def is_like_computer(name: str) -> bool:
    """Whether a text is the name of a zone with this computer's clock."""
    now = datetime.datetime.now(datetime.timezone.utc)
    return is_name(name) and changes_of(zoneinfo.ZoneInfo(name), now) == changes_of(None, now)


def has_name(local: datetime.datetime) -> bool:
    """Whether some time zone has the name and the offset of this local time at its moment."""
    wanted = (local.tzname(), local.utcoffset())
    return wanted == ("UTC", datetime.timedelta()) or any(
        (other.tzname(), other.utcoffset()) == wanted for other in map(local.astimezone, all_zones()))


def moment_text(local: datetime.datetime) -> str:
    """A local time with its zone and the hours from UTC, as `Thu 26 Nov 2026, 08:52 WET (UTC+0)`. A zone that is named by
    a number has only the hours, and is UTC if they are none."""
    offset, name = local.strftime("%z"), local.tzname() or ""
    minutes = f":{offset[3:5]}" if offset[3:5] != "00" else ""
    hours = f"UTC{offset[0]}{int(offset[1:3])}{minutes}"
    is_number = not name or name[0] in "+-" or name.startswith("UTC")
    zone = f"{name} ({hours})" if not is_number else "UTC" if offset[1:5] == "0000" else hours
    day = f"{DAYS[local.weekday()]} {local.day} {MONTHS[local.month - 1]} {local.year}"
    return f"{day}, {local:%H:%M} {zone}"


def of_computer(moment: datetime.datetime) -> str:
    """A moment in this computer's zone. A name that no time zone has is left out, and so are the seconds that a clock is from
    UTC: who reads the words can't know them."""
    local = in_zone(moment)
    minutes = int((local.utcoffset() or datetime.timedelta()).total_seconds() / 60)
    whole = datetime.timezone(datetime.timedelta(minutes=minutes))
    return moment_text(local if local.utcoffset() == whole.utcoffset(None) and has_name(local) else local.astimezone(whole))


def is_of_some_computer(text: str, moment: datetime.datetime) -> bool:
    """Whether these are the words of a moment in the zone of a computer somewhere."""
    found = END.search(text)
    if not found:
        return False
    minutes = int(found[3] or 0) * 60 + int(found[4] or 0)
    if minutes > MOST:
        return False
    offset = datetime.timedelta(minutes=-minutes if found[2] == "-" else minutes)
    named = datetime.timezone(offset, found[1]) if found[1] else datetime.timezone(offset)
    local = moment.astimezone(named)
    return moment_text(local) == text and (not found[1] or has_name(local))
