"""The zone by whose clock the times of a series are taken: it stays the same while a race is on, whatever the settings say
meanwhile, and whatever computer goes on with it."""
from __future__ import annotations

import contextlib
import datetime
import zoneinfo
from collections.abc import Callable

from raceoffice import time_zones
from raceoffice.errors import Trouble
from raceoffice.program.journal import Series
from raceoffice.remarks import remark
from raceoffice.series.folder import Folder
from raceoffice.series.run_program import options_in_force, replayed
from raceoffice.web.race_start import clock_shown, note_zone, zone_kept
from raceoffice.web.timed_taps import races_begun


def keep_zone(folder: Folder, say: Callable[[str], None]) -> None:
    """Notes the zone of a series whose office is opened. While a race is on, that is the one by whose clock it began; if
    the settings or this computer have another, that is said."""
    wanted = folder.settings.zone or time_zones.like_computer()
    if zone_kept(folder) and is_other_clock(folder, wanted) and (race := race_on(folder)):
        say(remark("zone-kept", race=race, zone=zone_kept(folder), other=wanted))
    else:
        note_zone(folder, wanted)


def is_other_clock(folder: Folder, wanted: str) -> bool:
    """Whether the clock of a zone, or if none is named of this computer, isn't the one that the series goes by."""
    zone = zoneinfo.ZoneInfo(wanted) if wanted else None
    return time_zones.changes_of(zone, datetime.datetime.now(datetime.timezone.utc)) != clock_shown(folder)


def race_on(folder: Folder) -> int:
    """The first race that has a start or a finish, and doesn't count by the journal; 0 if there is none."""
    series = Series()
    with contextlib.suppress(Trouble):
        series = Series.read(list(replayed(folder, options_in_force(folder)).journal))
    return next((race for race in races_begun(folder) if not series.race(race).counts), 0)
