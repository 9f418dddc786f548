"""What a page carries, read from it. Whoever wrote the page may be an enemy: each part has to have the
type and the narrow form that the package gives it."""
from __future__ import annotations

import datetime
import html
import json
import re
from collections.abc import Mapping
from dataclasses import dataclass

from raceoffice import time_zones
from raceoffice.characters import quoted
from raceoffice.decisions import decision_lines
from raceoffice.errors import ForeignPage, Unsure
from raceoffice.results.html.sealing import (ID, KIND, NUMBER, SETTINGS, Carried, Stamp, digest, form, marks,
                                             without_note)
from raceoffice.series.entry_list import ROOM, SAIL, plain
from raceoffice.series.settings import CHECKS, LINE_END

START = f'<script type="{KIND}" id="{ID}">\n'
END = "</script>"
# What the program reads of a journal at most, and how many series are worked out.
JOURNAL, ENTRIES, SERIES = 1 << 20, 8192, 100
# The most characters of a block: thirty times as many as that of 500 boats, 40 races and a full journal has. To read one
# takes thirty times its size of memory.
BLOCK = 12 << 20
# The most characters that its names, settings and decisions have as a page has them. Those of 500 boats have a hundredth.
WRITTEN = 4 << 20
# The most characters that the titles, classes and clubs of its series have together.
CALLED = 200_000
# A sail as pages show it. A small letter may look as another's capital.
SHOWN = re.compile("[A-Z0-9-]+(?: [A-Z0-9-]+)*")
PROGRAM = re.compile("(?:[0-9a-f]{64})?")
# The most bytes of the name of a file, and the most characters of a moment in words.
FILE_NAME, WORDS = 255, 60
MOMENT = re.compile(r"[0-9]{4}-[0-9]{2}-[0-9]{2}T[0-9]{2}:[0-9]{2}:[0-9]{2}\+00:00")
FORM = re.compile("([0-9]{1,4})-[0-9a-f]{8}")
# The moments that a page may have: of any of these every time zone has words.
FIRST, LAST = (datetime.datetime(year, 1, 1, tzinfo=datetime.timezone.utc) for year in (1970, 9999))
# How far the clocks of two computers may be apart.
APART = datetime.timedelta(minutes=10)
# What else each kind of page says of itself, and how many series it has at most.
PAGES: dict[str, tuple[dict[str, type], int]] = {
    "top": ({}, 1), "overall": ({"among": bool}, 1), "race": ({"race": int, "among": bool}, 1),
    "list": ({}, SERIES), "results": ({}, SERIES)}
TEXTS = ("name", "program")
LISTS = ("decisions", "journal")
PARTS = {"regatta", "page", "stamps", "series", "marks", "seal"}


@dataclass(frozen=True)
class Kept:
    """What a page carries: its kind, its race if it is that of one, whether it is among those of
    several series, and each of its series."""
    kind: str
    race: int
    is_among: bool
    series: tuple[Carried, ...]


# The block

def found_in(page: str) -> Kept:
    """What a page carries. ForeignPage says what of it raceoffice never writes, or what in it was changed."""
    text = block_of(page)
    whole = value_of(text)
    if not isinstance(whole, dict):
        raise ForeignPage("the block hasn't the parts of one")
    compare_form(whole.get("regatta"))
    need_few(whole.get("series"))
    if not has_parts(whole):
        raise ForeignPage("the block hasn't the parts of one: a part was renamed, added or taken out, is of "
                  "another type, or is too long")
    kept = kept_of(whole)
    for carried, written in zip(kept.series, whole["marks"]):
        compare_marks(carried, written)
    compare_seal(text, whole["seal"])
    need_zones()
    if wrong := wrong_form(kept):
        raise ForeignPage(wrong)
    need_size(kept)
    return kept


def block_of(page: str) -> str:
    """The text of the block. Unsure if there is none, or if it is longer than what is read."""
    found = page.count(START)
    if found == 0 and START.replace("\n", "\r\n") in page:
        raise Unsure("its line ends were changed to CR LF on the way: save the page as the file that it is")
    if found == 0:
        raise Unsure("it has no block that can be verified, so it is no page of results")
    if found > 1:
        raise ForeignPage(f"it has {found} blocks to verify, and each page has one")
    begin = page.index(START) + len(START)
    end = page.find(END, begin)
    if end < 0:
        raise ForeignPage("the block has no end")
    if end - begin > BLOCK:
        raise Unsure(f"its block is longer than {BLOCK:,} characters, and no more are read")
    return page[begin:end]


def whole_number(text: str) -> int:
    """A number of a block: none has more digits than these."""
    if len(text) > 4:
        raise ValueError("a number is too long")
    return int(text)


def no_number(text: str) -> float:
    raise ValueError(f"{quoted(text)} is no whole number")


def value_of(text: str) -> object:
    """The value of a block."""
    try:
        return json.loads(text, parse_int=whole_number, parse_float=no_number, parse_constant=no_number)
    except json.JSONDecodeError as cause:
        line = text.split("\n")[cause.lineno - 1]
        raise ForeignPage(f"the block isn't JSON at its line {cause.lineno}: {quoted(line)}") from None
    except ValueError as cause:
        raise ForeignPage(f"the block has a number that raceoffice never writes: {cause}") from None
    except RecursionError:
        raise ForeignPage("the block has too many parts inside one another") from None


def compare_form(written: object) -> None:
    """The form of a block has to be that of this package."""
    if written == form():
        return
    named = FORM.fullmatch(written) if isinstance(written, str) else None
    if not named and not (type(written) is int and written == 1):
        raise ForeignPage("the block doesn't name its form")
    age = "a newer" if named and int(named[1]) > NUMBER else "an older"
    if named and int(named[1]) == NUMBER:
        age = "another"
    raise Unsure(f"it was made by {age} version of raceoffice: make it again, or take the one that "
                 "made it")


# Types

def is_text(value: object) -> bool:
    """Whether a value is a text that can be written."""
    return isinstance(value, str) and not re.search("[\ud800-\udfff]", value)


def is_texts(value: object, most: int) -> bool:
    return isinstance(value, list) and len(value) <= most and all(map(is_text, value))


def has_types(value: object, types: Mapping[str, type]) -> bool:
    """Whether a value has these parts and no others, each of its own type."""
    return (isinstance(value, dict) and list(value) == list(types)
            and all(type(value[name]) is wanted for name, wanted in types.items()))


def is_page(value: object, series: int) -> bool:
    """Whether a block says which page this is, and its kind may have so many series."""
    kind = value.get("kind") if isinstance(value, dict) else None
    if not isinstance(kind, str) or kind not in PAGES:
        return False
    more, most = PAGES[kind]
    least = 0 if kind == "list" else 1
    return has_types(value, {"kind": str, **more}) and least <= series <= most


def is_stamp(value: object) -> bool:
    return has_types(value, {"changed": str, "when": str, "every": int}) and all(
        is_text(text) or type(text) is int for text in value.values())  # type: ignore[attr-defined]


def is_boats(value: object) -> bool:
    return (isinstance(value, list) and len(value) <= ROOM
            and all(is_texts(boat, 5) and len(boat) == 5 for boat in value))


def is_series(value: object) -> bool:
    if not isinstance(value, dict) or list(value) != [*TEXTS, "settings", "boats", *LISTS]:
        return False
    settings, journal = value["settings"], value["journal"]
    return (all(is_text(value[name]) for name in TEXTS) and is_boats(value["boats"])
            and has_types(settings, {**dict.fromkeys(SETTINGS, str), "class": str, "handicap": str})
            and all(map(is_text, settings.values()))
            and is_texts(value["decisions"], decision_lines.MOST) and is_texts(journal, ENTRIES)
            and sum(map(len, journal)) + len(journal) <= JOURNAL)


def has_parts(whole: dict[str, object]) -> bool:
    """Whether a block has the parts of one, each of its type."""
    series, stamps, written = (whole.get(name) for name in ("series", "stamps", "marks"))
    return (set(whole) == PARTS and isinstance(series, list) and isinstance(stamps, list)
            and is_texts(written, SERIES)
            and len(series) == len(stamps) == len(whole["marks"])  # type: ignore
            and is_page(whole["page"], len(series)) and is_text(whole["seal"])
            and all(map(is_series, series)) and all(map(is_stamp, stamps)))


def kept_of(whole: dict[str, object]) -> Kept:
    """The parts of a block, which has them all."""
    page, series, stamps = whole["page"], whole["series"], whole["stamps"]
    assert isinstance(page, dict) and isinstance(series, list) and isinstance(stamps, list)
    carried = tuple(carried_of(*both) for both in zip(series, stamps))
    return Kept(page["kind"], page.get("race", 0), page.get("among", False), carried)


def carried_of(series: Mapping[str, object], stamp: Mapping[str, object]) -> Carried:
    parts = {name: tuple(value) if isinstance(value, list) else value for name, value in series.items()}
    parts["boats"] = tuple(map(tuple, parts["boats"]))  # type: ignore
    return Carried(**parts, stamp=Stamp(**stamp))  # type: ignore


def need_zones() -> None:
    """Unsure if this computer knows no time zone: then it can't tell whether a page's times in words are right."""
    if not time_zones.are_known():
        raise Unsure("this computer has no data of time zones (package tzdata), and the times of a page are in words")


def need_few(series: object) -> None:
    """Unsure if a page has more series than are worked out."""
    if isinstance(series, list) and len(series) > SERIES:
        raise Unsure(f"it has {len(series)} series, and more than {SERIES} take too long to score")


def need_size(kept: Kept) -> None:
    """Unsure if it would take too long to write again what a page carries."""
    texts = [text for carried in kept.series for part in (carried.settings.values(), carried.decisions, *carried.boats)
             for text in part]
    if sum(len(carried.settings[key]) for carried in kept.series for key in ("title", "class", "club")) > CALLED:
        raise Unsure(f"what its series are called has more than {CALLED:,} characters, which would take too long to tell apart")
    if sum(len(html.escape(text)) for text in texts) > WRITTEN:
        raise Unsure(f"its names, settings and decisions have more than {WRITTEN:,} characters as HTML, which would "
                     "take too long to write again")


# What was changed without making marks and seal again

def compare_marks(carried: Carried, written: str) -> None:
    """Names the first item whose mark is another."""
    fresh, items = marks(carried), carried.items()
    odd = next((at for at in range(0, max(len(fresh), len(written)), 4)
                if fresh[at:at + 4] != written[at:at + 4]), None)
    if odd is not None:
        name, text = (items + [("the last item", "")])[min(odd // 4, len(items))]
        raise ForeignPage(f"{name} isn't as it was written: {quoted(text)}")


def compare_seal(text: str, seal: object) -> None:
    sealed, _, last = text.rpartition(',\n"seal": ')
    if digest(sealed) != seal or last != f'"{seal}"\n}}\n':
        raise ForeignPage("the block's seal isn't that of what it holds")


# Forms

def wrong_form(kept: Kept) -> str:
    """What of a page raceoffice never writes; empty if there is nothing."""
    names = [carried.name for carried in kept.series]
    for name in names:
        if names.count(name) > 1:
            return f"the page has the series {quoted(name)} twice"
    for carried in kept.series:
        wrong = (wrong_name(carried) or wrong_settings(carried) or wrong_boat(carried)
                 or wrong_decision(carried) or wrong_stamp(carried))
        if wrong:
            return wrong
    return ""


def wrong_name(carried: Carried) -> str:
    name = carried.name
    if name in ("", ".", "..") or "/" in name or "\0" in name or len(name.encode()) > FILE_NAME:
        return f"{quoted(name)} is no name of a folder"
    if not PROGRAM.fullmatch(carried.program):
        return f"the program is {quoted(carried.program)}, which is no SHA-256"
    return ""


def wrong_settings(carried: Carried) -> str:
    """The setting that no series could have. Unsure if it is a time zone that this computer may not know."""
    for name, value in carried.settings.items():
        is_right, wanted = CHECKS.get(name, (is_text, "a text"))
        if name == "zone" and time_zones.ZONE.fullmatch(value) and not time_zones.is_name(value):
            raise Unsure(f"this computer doesn't know the time zone {quoted(value)} (packages tzdata, tzdata-legacy)")
        if not is_right(value):
            return f"the setting {name} is {quoted(value)}, and has to be {wanted}"
    return ""


def wrong_boat(carried: Carried) -> str:
    """The boat whose sail isn't shown as the journal has it, or that is there twice."""
    known: set[str] = set()
    for sail, shown, *_ in carried.boats:
        if not SAIL.fullmatch(sail):
            return f"{quoted(sail)} is no sail"
        if not SHOWN.fullmatch(shown) or plain(shown) != sail:
            return f"the sail {sail} is shown as {quoted(shown)}, which is another"
        if sail in known:
            return f"{sail} has names twice"
        known.add(sail)
    return ""


def wrong_decision(carried: Carried) -> str:
    """The line of the decisions that is several, or that has what a page leaves out."""
    for line in carried.decisions:
        if LINE_END.search(line) or without_note(line) != line:
            return f"{quoted(line)} is no line of the decisions"
    return ""


def moment_of(text: str) -> datetime.datetime | None:
    """A moment as pages have it; None if it isn't one."""
    try:
        return datetime.datetime.fromisoformat(text) if MOMENT.fullmatch(text) else None
    except ValueError:
        return None


def wrong_moment(text: str) -> str:
    """Why a page can't have this moment; empty if it can."""
    moment = moment_of(text)
    return "" if moment and FIRST <= moment < LAST else f"is {quoted(text)}, which is no moment"


def wrong_stamp(carried: Carried) -> str:
    """What a page can't say of the last change, or of the looks at the office."""
    stamp = carried.stamp
    if wrong := wrong_moment(stamp.changed):
        return f"the time of change {wrong}"
    if not 1 <= stamp.every <= 3600:
        return f"the office is asked every {stamp.every} seconds, and not every 1 to 3600"
    moment = moment_of(stamp.changed)
    if len(stamp.when) > WORDS:
        return f"the time of change in words is {quoted(stamp.when)}, which is longer than that of any moment"
    # The words of a series' own zone are worked out again, and those on the page compared with them.
    if moment and not carried.settings["zone"] and not time_zones.is_of_some_computer(stamp.when, moment):
        return f"the time of change in words is {quoted(stamp.when)}, which isn't that of {stamp.changed}"
    return ""


# When a page was confirmed

def wrong_confirmation(kept: Kept, checked: str, office: str) -> str:
    """Why a page of this kind can't say that it was confirmed then, from there; empty if it can."""
    if kept.kind == "results":
        return "" if checked == office == "" else "a page of `export` isn't confirmed by an office"
    if wrong := wrong_moment(checked):
        return f"the time at which the page was confirmed {wrong}"
    if kept.kind != "list":
        return "" if office in ("open", "journal", "away", "once") else f"{quoted(office)} is no state of an office"
    return "" if is_state_of_offices(office, len(kept.series)) else f"{quoted(office)} is no state of offices"


def is_state_of_offices(text: str, series: int) -> bool:
    """Whether a list of series may have this state; it names those that don't answer by number."""
    state, _, numbers = text.partition(":")
    if not numbers:
        return text in ("open", "once", "away")
    away = [int(part) for part in numbers.split(",") if re.fullmatch("[0-9]{1,3}", part)]
    return (state == "away" and numbers == ",".join(map(str, away)) and away == sorted(set(away))
            and away[-1] < series)


def still_to_come(kept: Kept, checked: str, now: datetime.datetime) -> str:
    """What a page says that is to come by this computer's clock; empty if nothing is."""
    said = [("changed", carried.stamp.changed) for carried in kept.series]
    for what, text in [*said, *([("confirmed", checked)] if checked else [])]:
        moment = moment_of(text)
        if moment and moment > now + APART:
            return (f"it was {what} at {text} by its own word, and this computer's clock shows "
                    f"{now.isoformat(timespec='seconds')}")
    return ""
