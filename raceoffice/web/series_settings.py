"""The settings of a class that there is already: what they are, what others would do, and how they are saved.

Its names are shown at once. Its rules and its time zone are those with which its office was opened until it is
opened again.
"""
from __future__ import annotations

import contextlib
import dataclasses
import hashlib
import os
from collections.abc import Mapping
from typing import Any

from raceoffice import time_zones
from raceoffice.characters import utf8
from raceoffice.corrected.times import ROUNDINGS, RULES, Rules, Sheets
from raceoffice.corrected.write_sheet import rules_text, with_rule, write_rules
from raceoffice.errors import NotSent, NotThere, Trouble
from raceoffice.files import edited_text, replace_whole
from raceoffice.program.replay import Line
from raceoffice.remarks import remark
from raceoffice.series import settings
from raceoffice.series.folder import Folder
from raceoffice.series.race_sheets import SHEETS, races_with_sheet
from raceoffice.series.run_program import settings_in_force
from raceoffice.session.facts import Facts
from raceoffice.web import preview
from raceoffice.web.kept_office import KeptOffice
from raceoffice.web.new_series import GIVEN, setting_given, wrong_in, wrong_settings
from raceoffice.web.series_zone import is_other_clock
from raceoffice.web.states import Values, remarks_of, rules_of
from raceoffice.web.timed_taps import races_begun

# What pages show as soon as it is saved.
AT_ONCE = ("title", "class", "club")
SECTIONS = {key: section for section, keys in settings.KEYS.items() for key in keys}


def text_now(folder: Folder) -> str:
    """The text of series.ini as it is now."""
    try:
        return edited_text(folder.file(settings.NAME))
    except NotThere:
        raise NotSent(remark("ini-gone")) from None


def tag_of(text: str) -> str:
    """What is another whenever the text is."""
    return hashlib.sha256(utf8(text)).hexdigest()[:20]


def settings_kept(folder: Folder, office: KeptOffice) -> Values:
    """The settings that series.ini has, and whether the office goes by them."""
    text = text_now(folder)
    if wrong := settings.problems(text):
        return {"wrong": remarks_of(wrong), "tag": tag_of(text)}
    # One that is being closed is opened again once it is closed.
    is_kept_here, values = office.takes_lines(), settings.values_of(text)
    # One whose window has gone is opened here, too.
    is_open = is_kept_here or not office.keeping and office.is_there() and office.has_window()
    kept, opened = settings.settings_of(values), settings_in_force(folder)
    return {"wrong": [], "tag": tag_of(text), "is_open": is_open, "is_kept_here": is_kept_here,
            "settings": {key: (settings.DEFAULTS | values)[key] for key in GIVEN}, **times_rules(folder),
            "opened": rules_of(opened),
            "waiting": waiting(folder, kept, opened)}


def waiting(folder: Folder, kept: settings.Settings, opened: settings.Settings) -> list[str]:
    """The settings that wait for an opening, since others are in force. While a race is on, the series may go on by the clock of another
    zone than the one with which the office was opened."""
    found = [key for key, value in rules_of(kept).items() if value != rules_of(opened)[key]]
    is_zone = kept.zone != folder.settings.zone or is_other_clock(folder, kept.zone or time_zones.like_computer())
    return found + (["zone"] if is_zone else [])


def times_rules(folder: Folder) -> Values:
    """The rating system and the rounding of a class by corrected time; empty if it has none yet, or if its rules
    can't be read."""
    if os.path.exists(folder.file(SHEETS, RULES)):
        with contextlib.suppress(Trouble):
            found = Rules.read(folder)
            return {"system": found.system, "rounding": found.rounding}
    return {"system": "", "rounding": ""}


def rounding_given(folder: Folder, values: Mapping[str, Any]) -> str:
    """The rounding that a page gives to a class that has one; empty if that is the one it has. NotSent if it is none,
    or if the class has come to have another than the page showed."""
    wanted, held = str(values.get("rounding") or ""), str(times_rules(folder)["rounding"])
    if not wanted or not held or not folder.settings.handicap or wanted == held:
        return ""
    if wanted not in ROUNDINGS:
        raise NotSent(remark("rounding-wrong", written=wanted[:20], roundings=list(ROUNDINGS)))
    if values.get("rounding_was", held) != held:
        raise NotSent(remark("rounding-changed"))
    return wanted


# What others would do

def given_of(values: Mapping[str, Any]) -> dict[str, str]:
    """The settings that a page gives. What isn't among them stays as it is."""
    given = values.get("settings")
    if not isinstance(given, dict):
        raise NotSent(remark("settings-missing"))
    found = {key: setting_given(given, key) for key in GIVEN if key in given}
    # A rule that is left empty is as if the sailing instructions said nothing of it.
    return {key: text or settings.DEFAULTS[key] for key, text in found.items()}


def effect(folder: Folder, facts: Facts, values: Mapping[str, Any]) -> Values:
    """What settings mean, and whom they would move; or what is wrong with them."""
    text, given = text_now(folder), given_of(values)
    before = settings.DEFAULTS | settings.values_of(text)
    if wrong := wrong_settings(before | given):
        return wrong
    zone = given.get("zone", before["zone"])
    need_no_race(folder, facts, zone != before["zone"] and is_other_clock(folder, zone))
    wanted, opened = settings.settings_of(before | given), settings_in_force(folder)
    found: Values = {"wrong": [], "keys": [], "rules": wanted.in_words(), "settings": rules_of(wanted),
                     "at_once": [key for key in AT_ONCE if given.get(key, before[key]) != before[key]],
                     "at_opening": waiting(folder, wanted, opened)}
    return found | preview.effect_of_rules(folder, facts, wanted.options()) | effect_of_rounding(folder, facts, values)


def need_no_race(folder: Folder, facts: Facts, is_zone: bool) -> None:
    """NotSent if the time zone would change while a race is on: the times of one race are by one clock."""
    for race in races_begun(folder) if is_zone and facts.sheet.journal else []:
        if not facts.race(str(race)).counts:
            raise NotSent(remark("zone-in-race", race=race))


def effect_of_rounding(folder: Folder, facts: Facts, values: Mapping[str, Any]) -> Values:
    """The races of which the sheets give other times with another rounding, with how many boats have another, and whom
    that moves by the rules of the office; or why it can't be said."""
    rounding = rounding_given(folder, values)
    if not rounding:
        return {"retimed": [], "moved": []}
    sheets = Sheets(folder)
    sheets.rules = dataclasses.replace(sheets.rules, rounding=rounding)
    lines: list[Line] = []
    retimed: list[Values] = []
    try:
        for race in races_with_sheet(folder):
            found = [Line("SCORER", line) for line in sheets.beside(race, facts.sheet.journal).lines]
            retimed += [{"race": race, "n": len({line.text.split()[2] for line in found})}] if found else []
            lines += found
    except Trouble as trouble:
        raise NotSent(*trouble.said) from None
    after = preview.preview(folder, facts, lines) if lines else {"moves": []}
    return {"retimed": retimed, "moved": after.get("moves", [])}


# How they are saved

def save(folder: Folder, facts: Facts, values: Mapping[str, Any], name: str) -> None:
    """Puts settings into series.ini, whole, if it is still as it was shown, and if the program takes them.
    `name` is who does. What has these settings already, as after a crash, needs nothing."""
    if is_as_given(folder, values):
        show_names(folder, text_now(folder))
        return
    text = text_shown(folder, values)
    given = given_of(values)
    if wrong := wrong_in(settings.DEFAULTS | settings.values_of(text) | given):
        raise NotSent(*wrong)
    if effect(folder, facts, values).get("refused"):
        raise NotSent(remark("rules-refused"))
    rules = rules_to_write(folder, text, values)
    changed, said = text_with(text, given), what_changes(text, given, values)
    # The program has taken its time.
    text_shown(folder, values)
    if said:
        log_once(folder, name, "settings", "; ".join(said))
    if rules:
        # These hold for a class by corrected time alone, so they come first: it never is one without them.
        write_rules(folder.path, rules)
    if changed != text:
        replace_whole(folder.file(settings.NAME), utf8(changed))
    show_names(folder, changed)


def what_changes(text: str, given: Mapping[str, str], values: Mapping[str, Any]) -> list[str]:
    """The settings that are others than before, as office.log has them. If the web died between the two files, the
    rounding is in its file already."""
    before = settings.DEFAULTS | settings.values_of(text)
    wanted, was = str(values.get("rounding") or ""), str(values.get("rounding_was") or "")
    rounding = [f"rounding = {wanted}"] if wanted and was and wanted != was else []
    return rounding + [f"{key} = {value}" for key, value in given.items() if value != before[key]]


def is_as_given(folder: Folder, values: Mapping[str, Any]) -> bool:
    """Whether the files have these settings already."""
    text, given = text_now(folder), given_of(values)
    before = settings.DEFAULTS | settings.values_of(text)
    return all(before[key] == value for key, value in given.items()) and not rules_to_write(folder, text, values)


def show_names(folder: Folder, text: str) -> None:
    """Has pages show the names that a text of series.ini has."""
    kept = settings.settings_of(settings.values_of(text))
    folder.settings = dataclasses.replace(folder.settings, title=kept.title, group=kept.group, club=kept.club)


def log_once(folder: Folder, name: str, what: str, said: str) -> None:
    """Notes in office.log what is about to be written, unless the last such line says just this: then the web died
    between that line and the file, and somebody tries again."""
    last = [(entry.name, entry.answer) for entry in folder.logged() if entry.line == what][-1:]
    if last != [(name, said)]:
        folder.log(name, "", "", what, said)


def text_shown(folder: Folder, values: Mapping[str, Any]) -> str:
    """The text of series.ini, if it is still the one that was shown; else NotSent."""
    text = text_now(folder)
    if values.get("tag") != tag_of(text):
        raise NotSent(remark("ini-changed"))
    return text


def text_with(text: str, given: Mapping[str, str]) -> str:
    """series.ini with these values; all else in it stays as it is."""
    before = settings.DEFAULTS | settings.values_of(text)
    try:
        for key in GIVEN:
            if given.get(key, before[key]) != before[key]:
                text = settings.with_value(text, SECTIONS[key], key, given[key])
    except Trouble as trouble:
        raise NotSent(*trouble.said) from None
    return text


def rules_to_write(folder: Folder, text: str, values: Mapping[str, Any]) -> bytes:
    """times/rules.ini of a class that comes to be one by corrected time, or that gets another rounding; nothing if it
    has these rules already. A class that is one keeps its system."""
    if rounding := rounding_given(folder, values):
        return with_rounding(folder, rounding)
    is_needed = given_of(values).get("handicap") == "yes" and values.get("system")
    is_there, path = os.path.exists(folder.file(SHEETS, RULES)), folder.file(SHEETS, RULES)
    if not is_needed or is_there and settings.values_of(text).get("handicap") == "yes":
        return b""
    try:
        fresh = rules_text(str(values["system"]), str(values.get("rounding") or "half-up"))
        if not is_there:
            return fresh
        before = edited_text(path)
        changed = with_rule(before, "system", str(values["system"]))
        if (wanted := str(values.get("rounding") or "")) and wanted != times_rules(folder)["rounding"]:
            changed = with_rule(changed, "rounding", wanted)
        return b"" if changed == before else utf8(changed)
    except Trouble as trouble:
        raise NotSent(*trouble.said) from None


def with_rounding(folder: Folder, rounding: str) -> bytes:
    """times/rules.ini with another rounding."""
    try:
        return utf8(with_rule(edited_text(folder.file(SHEETS, RULES)), "rounding", rounding))
    except Trouble as trouble:
        raise NotSent(*trouble.said) from None
