"""The settings of a series, which are written once, in series.ini.

A key that isn't known is a fault, since a misspelt rule that is skipped gives a wrong table.
"""
from __future__ import annotations

import difflib
import ipaddress
import os
import re
import shlex
from collections.abc import Callable, Mapping
from dataclasses import dataclass
from typing import Any

from raceoffice import time_zones
from raceoffice.errors import NotThere, Trouble
from raceoffice.files import edited_text
from raceoffice.remarks import Remark, remark, sign_remark
from raceoffice.terminal import command_name
from raceoffice.wording import TIMES, joined, on_one_line

NAME = "series.ini"
KEYS = {
    "series": {"title": "", "class": "", "club": "", "zone": ""},
    "rules": {"exclude": "2", "absent": "a52", "scp": "", "handicap": "no"},
    "office": {"program": "", "entries": "entries.csv", "seats": "16", "copy": ""},
    "notice": {"state": "provisional", "reason": ""},
    "board": {"every": "5", "address": "", "port": "8080", "page": ""},
}
DEFAULTS = {key: value for keys in KEYS.values() for key, value in keys.items()}
TEMPLATE = """\
[series]
title = {title}
class = {class}
club = {club}
# for the times on the pages, as Europe/Lisbon; empty: this computer's
zone = {zone}

[rules]
# none, or up to four numbers of races from which one more score is excluded (RRS A2.1)
exclude = {exclude}
# a52 or a53 (RRS A5.2, A5.3)
absent = {absent}
# points of a Scoring Penalty (RRS 44.3(c)); empty: 20% of the score for Did Not Finish
scp = {scp}
# yes: places by corrected time (RRS A3)
handicap = {handicap}

[office]
# the program's file, as seen from this folder; empty: the one above this folder, or the installed one
program = {program}
entries = {entries}
seats = {seats}
# a second folder for the journal, on a stick; empty: none
copy = {copy}

[notice]
# provisional, final or amended
state = {state}
# shown below the title
reason = {reason}

[board]
# seconds between two looks at the office
every = {every}
# the address of this computer where phones are answered; empty: all that it has
address = {address}
port = {port}
# a folder for the pages as files, to be uploaded; empty: none
page = {page}
"""
# What ends a line in every editor, and what is no part of a value: control signs, and ends of lines
# that editors don't show.
LINE_END = re.compile("\r\n|\r|\n")
ODD = re.compile("[\x00-\x08\x0a-\x1f\x7f-\x9f\u2028\u2029]")
STATES = ["provisional", "final", "amended"]


@dataclass(frozen=True)
class Settings:
    """The values of series.ini, by the names of its keys; `class` is `group`."""
    title: str
    group: str
    club: str
    zone: str
    exclude: str
    absent: str
    scp: str
    handicap: bool
    program: str
    entries: str
    seats: int
    copy: str
    state: str
    reason: str
    every: int
    port: int
    page: str
    address: str = ""

    @property
    def thresholds(self) -> list[int]:
        """From how many races on one more score is excluded."""
        return [] if self.exclude == "none" else [int(text) for text in self.exclude.split(",")]

    def options(self) -> list[str]:
        """The rules as options of the program."""
        return ["--exclude", self.exclude, "--absent", self.absent,
                *(["--scp", self.scp] if self.scp else []),
                *(["--handicap"] if self.handicap else [])]

    def in_words(self) -> str:
        """The rules in one line."""
        counts = [f"{TIMES[at]} from {races} races" for at, races in enumerate(self.thresholds, 1)]
        excluded = f"Scores excluded: {joined(counts)}." if counts else "No score excluded."
        scp = f"{self.scp} points" if self.scp else "20%"
        order = "By corrected time." if self.handicap else "By order of finishing."
        return f"{excluded} RRS A5.{self.absent[-1]}. Scoring Penalty {scp}. {order}"


def rows_of(text: str) -> list[str]:
    """The lines of a file as an editor shows them, by whose numbers its values are found again."""
    rows = LINE_END.split(text.removeprefix("\ufeff"))
    return rows if rows[-1] else rows[:-1]


def lines_of(text: str, name: str = NAME,
             known: Mapping[str, Mapping[str, str]] = KEYS) -> tuple[dict[str, tuple[int, str]], list[Remark]]:
    """Each value by its key, with the number of its line, and what is wrong. `known` are the keys of
    each section."""
    values: dict[str, tuple[int, str]] = {}
    wrong: list[Remark] = []
    section = ""
    for at, line in enumerate(rows_of(text), 1):
        line = line.strip()
        if not line or line[0] in "#;":
            continue
        if line[0] == "[" and line[-1] == "]":
            section = line[1:-1].strip()
            wrong += [] if section in known else [remark("ini-section", name=name, line=at, section=section)]
            continue
        key, equals, value = (part.strip() for part in line.partition("="))
        if fault := fault_of_line(section, key, equals, value, known):
            wrong.append(remark("ini-line", name=name, line=at, fault=fault))
        elif key in values:
            wrong.append(remark("ini-twice", name=name, line=at, key=key, other=values[key][0]))
        else:
            values[key] = (at, value)
    return values, wrong


def fault_of_line(section: str, key: str, equals: str, value: str,
                  known: Mapping[str, Mapping[str, str]]) -> Remark | None:
    """What is wrong with a line that should give a value; None if nothing is."""
    if not equals:
        return remark("ini-no-equals", key=key)
    if key not in known.get(section, {}):
        near = difflib.get_close_matches(key, known.get(section, {}), 1)
        return (remark("ini-like-key", section=section, key=key, near=near[0]) if near else
                remark("ini-no-key", section=section, key=key))
    if odd := ODD.search(value):
        return remark("ini-sign", key=key, sign=sign_remark(odd[0]))
    return None


def values_of(text: str) -> dict[str, str]:
    """The values that a series.ini has, by their keys."""
    return {key: value for key, (_, value) in lines_of(text)[0].items()}


def is_exclude(text: str) -> bool:
    """Whether --exclude takes it: `none`, or up to four rising numbers from 2 to 40."""
    if not re.fullmatch("none|[0-9]{1,2}(,[0-9]{1,2}){0,3}", text):
        return False
    numbers = [] if text == "none" else [int(part) for part in text.split(",")]
    return numbers == sorted(set(numbers)) and all(2 <= number <= 40 for number in numbers)


def is_address(text: str) -> bool:
    """Whether a computer may have this address."""
    try:
        return bool(ipaddress.IPv4Address(text))
    except ValueError:
        return False


def is_between(low: int, high: int) -> Callable[[str], bool]:
    """A check of a whole number."""
    return lambda text: re.fullmatch("[0-9]{1,9}", text) is not None and low <= int(text) <= high


CHECKS: dict[str, tuple[Callable[[str], object], Remark]] = {
    "title": (bool, remark("wanted-title")),
    "zone": (lambda text: text == "" or time_zones.is_name(text), remark("wanted-zone")),
    "exclude": (is_exclude, remark("wanted-exclude")),
    "absent": (["a52", "a53"].__contains__, remark("wanted-absent")),
    "scp": (lambda text: text == "" or is_between(1, 99)(text), remark("wanted-scp")),
    "handicap": (["yes", "no"].__contains__, remark("wanted-handicap")),
    "entries": (bool, remark("wanted-entries")),
    "seats": (is_between(2, 16), remark("wanted-seats")),
    "state": (STATES.__contains__, remark("wanted-state")),
    "every": (is_between(1, 3600), remark("wanted-every")),
    "address": (lambda text: text == "" or is_address(text), remark("wanted-address")),
    "port": (is_between(1, 65535), remark("wanted-port")),
}


def problems(text: str) -> list[Remark]:
    """What is wrong with a series.ini, line by line."""
    values, wrong = lines_of(text)
    for key, (is_right, wanted) in CHECKS.items():
        at, value = values.get(key, (0, DEFAULTS[key]))
        if not is_right(value):
            wrong.append(remark("ini-value", place=remark("ini-place", name=NAME, line=at) if at else NAME, key=key,
                                value=repr(value[:60]) if value else remark("ini-empty"), wanted=wanted))
    return wrong


def read(folder: str) -> Settings:
    """The settings of a folder; a Trouble says all that is wrong with them."""
    try:
        text = edited_text(os.path.join(folder, NAME))
    except NotThere:
        command = f"{command_name()} new {shlex.quote(folder)}"
        raise Trouble(remark("no-series", name=folder, command=command)) from None
    if wrong := problems(text):
        raise Trouble(*wrong)
    return settings_of(values_of(text))


def settings_of(values: dict[str, str]) -> Settings:
    """The settings with these values, and the defaults for all others."""
    found: dict[str, Any] = DEFAULTS | values
    found["group"] = found.pop("class")
    handicap = found.pop("handicap") == "yes"
    seats, every, port = (int(found.pop(key)) for key in ("seats", "every", "port"))
    return Settings(**found, handicap=handicap, seats=seats, every=every, port=port)


def filled_in(values: dict[str, str]) -> str:
    """A series.ini with these values, and the defaults for all others."""
    known = DEFAULTS | values
    shown = {key: on_one_line(known[key]) for key in ("title", "class", "club", "reason")}
    return TEMPLATE.format(**{**known, **shown})


def head_of(section: str, rows: list[str]) -> int:
    """After how many lines a section begins; 0 if there is none."""
    heads = [line.strip() for line in rows]
    return next((at for at, line in enumerate(heads, 1)
                 if line[:1] == "[" and line[-1:] == "]" and line[1:-1].strip() == section), 0)


def with_value(text: str, section: str, key: str, value: str) -> str:
    """The text with one value changed. All other lines and comments stay as they are. A Trouble if the
    text couldn't be read then."""
    rows, before = rows_of(text), lines_of(text)[0]
    if key in before:
        rows[before[key][0] - 1] = f"{key} = {value}"
    elif at := head_of(section, rows):
        rows.insert(at, f"{key} = {value}")
    else:
        rows += ["", f"[{section}]", f"{key} = {value}"]
    changed = "\n".join(rows) + "\n"
    if problems(changed) or values_of(changed) != {**values_of(text), key: value}:
        raise Trouble(remark("ini-by-editor", line=f"{key} = {value}", section=section))
    return changed


def rules_remark(held: Settings) -> Remark:
    """The rules of a series in one line."""
    return remark("office-rules", words=held.in_words(), exclude=held.exclude, absent=held.absent, scp=held.scp,
                  handicap="yes" if held.handicap else "no")
