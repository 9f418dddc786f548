"""What the pages of one series show, and the same as CSV and JSON. No score is computed here."""
from __future__ import annotations

import collections
import dataclasses
import datetime
import functools
import json
import re
import urllib.parse
import zoneinfo
from collections.abc import Sequence
from dataclasses import dataclass, field

from raceoffice import time_zones
from raceoffice.characters import in_no_order, in_one_form, is_composed, is_right_to_left
from raceoffice.decisions.points import Decided
from raceoffice.program.explanation import Explanation
from raceoffice.program.journal import Race, Series
from raceoffice.program.standing import Row, Score, Standing
from raceoffice.results.spreadsheet import Cell, as_number, csv_of
from raceoffice.series.entry_list import Boat
from raceoffice.series.settings import Settings

# The name of a folder that is shown as it is: in brackets it can't be taken for the end of what is before them.
FOLDER = re.compile(r"[^\s(%]+(?: [^\s(%]+)*")
CHANGED = "The results have changed since they were declared {}."


@dataclass(frozen=True)
class Snapshot:
    """One series at one moment; `key` is all that it was made from.

    `journal` and `program`, the SHA-256 of the program's file, are what a page carries for those who
    verify it. A page that is made again to be verified has the words of its time from the computer that
    made it, if the series names no zone.
    """
    name: str
    settings: Settings
    standing: Standing
    series: Series
    boats: dict[str, Boat]
    explanation: Explanation
    changed: datetime.datetime
    key: object = None
    journal: tuple[str, ...] = ()
    decided: Decided = Decided()
    program: str = ""
    said: str = ""
    # What the names of places in a page begin with, if it has several series.
    ids: str = ""
    # What it is called among the series of a page; if empty, as it is alone.
    called: str = ""
    # Texts that were made of it already.
    memo: dict[str, str] = field(init=False, default_factory=dict, compare=False, repr=False)

    @property
    def label(self) -> str:
        """What the series is called among others."""
        return self.called or self.settings.group or self.settings.title

    @property
    def title(self) -> str:
        """The series, with its class if it has one."""
        return self.heading(self.label)

    def heading(self, label: str) -> str:
        """Its title if it is called so among others."""
        return f"{self.settings.title}: {label}" if self.settings.group else label

    @property
    def address(self) -> str:
        """The folder of its pages, as an address has it."""
        return urllib.parse.quote(self.name, safe="")

    @property
    def reasons(self) -> tuple[str, str]:
        """What is said below the title, and then that the results aren't those that were declared; each
        may be empty."""
        said, changed = self.settings.reason, CHANGED.format(self.settings.state)
        if said.endswith(changed):
            return said.removesuffix(changed).rstrip(), changed
        return said, ""

    def boat(self, sail: str) -> Boat:
        return self.boats.get(sail, Boat(sail))

    def results(self) -> tuple[object, ...]:
        """All whose change is a change of the results."""
        shown = self.settings
        return (self.standing, self.boats, shown.title, shown.group, shown.club, shown.state,
                shown.reason, shown.options(), self.decided)

    @property
    def totals(self) -> dict[str, str]:
        """Each boat's points before exclusion; none if no score is excluded."""
        return self.explanation.totals

    @property
    def has_helms(self) -> bool:
        return any(boat.helm for boat in self.boats.values())

    @property
    def excluded(self) -> int:
        """How many scores of each boat the rules exclude after the races that count."""
        return sum(len(self.standing.races) >= races for races in self.settings.thresholds)

    @functools.cached_property
    def open_races(self) -> list[int]:
        """The races that don't count, or don't count yet, and of which something is recorded."""
        return [number for number, race in sorted(self.series.races.items())
                if number not in self.standing.races and race.is_recorded]

    @property
    def race_pages(self) -> list[int]:
        """The races that have a page."""
        return sorted([*self.standing.races, *self.open_races])

    def race(self, number: int) -> Race:
        return self.series.races.get(number, Race(number))

    def scores(self, number: int) -> dict[str, Score]:
        """Each boat's score in a race; none if the race doesn't count."""
        if number not in self.standing.races:
            return {}
        column = self.standing.races.index(number)
        return {row.sail: row.scores[column] for row in self.standing.rows}

    def ties(self) -> list[list[Row]]:
        """The boats with the same net, in the order of the table."""
        groups: list[list[Row]] = []
        for row in self.standing.rows if self.standing.races else ():
            if groups and groups[-1][0].net == row.net:
                groups[-1].append(row)
            else:
                groups.append([row])
        return [group for group in groups if len(group) > 1]

    def local(self, when: datetime.datetime) -> datetime.datetime:
        """A moment in the series' zone, or else in this computer's."""
        zone = self.settings.zone
        return time_zones.in_zone(when, zoneinfo.ZoneInfo(zone) if zone else None)

    def when(self, moment: datetime.datetime) -> str:
        """A moment with its zone and the hours from UTC, as `Thu 26 Nov 2026, 08:52 WET (UTC+0)`."""
        if self.settings.zone:
            return time_zones.moment_text(self.local(moment))
        if self.said and moment == self.changed:
            return self.said
        return time_zones.of_computer(moment)


def labels_of(views: Sequence[Snapshot]) -> list[str]:
    """What each series is called: no two look alike, and no two headings with them. A series has its folder's name with it
    if another is called or headed the same, or would be with its own."""
    labels, named, forms = [view.label for view in views], set[int](), dict[str, str]()
    while True:
        headings = [view.heading(label) for view, label in zip(views, labels)]
        alike = (looking_alike(labels, forms) | looking_alike(headings, forms)) - named
        if not alike:
            return labels
        for at in alike:
            labels[at] += in_brackets(folder_shown(views[at].name), is_right_to_left(headings[at]))
        named |= alike


def looking_alike(texts: Sequence[str], forms: dict[str, str]) -> set[int]:
    """The places of texts that look as another does, or may. `forms` has what was found of texts before."""
    for text in texts:
        if text not in forms:
            forms[text] = form_shown(text)
    often = collections.Counter(forms[text] for text in texts)
    return {at for at, text in enumerate(texts) if often[forms[text]] > 1}


def form_shown(text: str) -> str:
    """What texts have in common that look alike: spaces in a row are one, as a browser shows them, and signs that Unicode
    holds for the same are the same, as a letter with its mark and both in one sign. What is written from right to left is
    shown in another order."""
    form = " ".join(in_one_form(text).split())
    return in_no_order(form) if is_right_to_left(form) else form


def folder_shown(name: str) -> str:
    """The name of a folder, or what stands for it in an address: no two look alike."""
    is_plain = FOLDER.fullmatch(name) and is_composed(name) and not is_right_to_left(name)
    return name if is_plain else urllib.parse.quote(name, safe="")


def in_brackets(folder: str, is_after_right_to_left: bool) -> str:
    """What a folder adds to a name. Digits alone would be shown before a name that is written from right to left, and those
    after a word aren't."""
    return f" (folder {folder})" if is_after_right_to_left else f" ({folder})"


def told_apart(views: Sequence[Snapshot]) -> list[Snapshot]:
    """The series of a page, each with what it is called among them."""
    return [view if view.label == label else dataclasses.replace(view, called=label)
            for view, label in zip(views, labels_of(views))]


def labelled(standing: Standing, labels: dict[tuple[int, str], str]) -> Standing:
    """The table with each decision's own abbreviation in its cell."""
    def shown(row: Row) -> Row:
        scores = [dataclasses.replace(score, code=labels.get((race, row.sail), score.code))
                  for race, score in zip(standing.races, row.scores)]
        return dataclasses.replace(row, scores=tuple(scores))

    return dataclasses.replace(standing, rows=tuple(map(shown, standing.rows))) if labels else standing


HEADS = ["rank", "tied", "sail", "helm", "boat", "club", "net", "total"]


def csv_row(view: Snapshot, row: Row, races: Sequence[int]) -> list[Cell]:
    """A boat's row: names, then points, code and whether it is excluded of each of these races."""
    boat = view.boat(row.sail)
    found = dict(zip(view.standing.races, row.scores))
    cells: list[Cell] = [row.rank, "yes" if row.shared else "no", boat.sail, boat.helm, boat.name, boat.club,
                         as_number(row.net), as_number(view.totals.get(row.sail, row.net))]
    for race in races:
        cells += score_cells(found.get(race))
    return cells


def score_cells(score: Score | None) -> list[Cell]:
    """The cells of a score; empty ones if the race isn't the series'."""
    if score is None:
        return ["", "", ""]
    return [as_number(score.points), score.code, "yes" if score.excluded else "no"]


def csv_heads(races: Sequence[int]) -> list[Cell]:
    return [*HEADS, *(f"R{number}{what}" for number in races for what in ("", " code", " excluded"))]


def csv_rows(views: Sequence[Snapshot]) -> list[list[Cell]]:
    """The headings, and a row for each boat; of several series the first column says which."""
    races = sorted({race for view in views for race in view.standing.races})
    rows = [(label, csv_row(view, row, races)) for label, view in zip(labels_of(views), views)
            for row in view.standing.rows]
    if len(views) == 1:
        return [csv_heads(races), *(row for _, row in rows)]
    return [["class", *csv_heads(races)], *([label, *row] for label, row in rows)]


def results_csv(views: Sequence[Snapshot], semicolons: bool = False) -> bytes:
    return csv_of(csv_rows(views), semicolons)


def results_value(view: Snapshot, version: str) -> dict[str, object]:
    """The same for programs; points are texts, since they are exact to a tenth."""
    shown = view.settings

    def boat_of(row: Row) -> dict[str, object]:
        boat = view.boat(row.sail)
        scores = [{"race": number, "points": score.points, "code": score.code,
                   "excluded": score.excluded}
                  for number, score in zip(view.standing.races, row.scores)]
        return {"rank": row.rank, "tied": row.shared, "sail": row.sail, "shown": boat.sail,
                "helm": boat.helm, "boat": boat.name, "club": boat.club, "net": row.net,
                "total": view.totals.get(row.sail, row.net), "scores": scores}

    return {"title": shown.title, "class": shown.group, "club": shown.club, "state": shown.state,
            "reason": shown.reason, "changed": view.local(view.changed).isoformat(),
            "version": version, "rules": shown.options(), "races": view.standing.races,
            "stale": view.decided.stale,
            "boats": [boat_of(row) for row in view.standing.rows]}


def as_json(value: object) -> bytes:
    return json.dumps(value, ensure_ascii=False, indent=1).encode() + b"\n"


def now_json(version: str, checked: datetime.datetime, office: str, **more: object) -> bytes:
    """Which version is shown, when it was confirmed last, and whether the office is open."""
    return json.dumps({"version": version, "checked": checked.isoformat(), "office": office,
                       **more}).encode() + b"\n"
