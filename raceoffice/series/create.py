"""A new series: what it needs, asked in the words of the sailing instructions."""
from __future__ import annotations

import contextlib
import os
import shlex
import tempfile
from collections.abc import Callable

from raceoffice import time_zones
from raceoffice.characters import utf8
from raceoffice.errors import Trouble, as_trouble
from raceoffice.remarks import remark
from raceoffice.files import replace_whole
from raceoffice.program.find import found_program
from raceoffice.series import entry_list, settings
from raceoffice.series.mend_list import NAME
from raceoffice.series.read_list import bytes_of
from raceoffice.terminal import YES_OR_NO, command_name, is_yes, say, typed
from raceoffice.wording import count, joined

# More points of a Scoring Penalty than these are hardly meant.
MOST_USUAL = 10


def program_for(folder: str) -> str:
    """The program's file as seen from a new folder; empty if that one is found from there anyway."""
    found = found_program("regatta", os.curdir)
    is_found = found_program("regatta", os.path.join(os.path.abspath(folder), os.pardir))
    same = not found or bool(is_found) and os.path.samefile(found, is_found)
    return "" if same else os.path.relpath(found, folder)


def asked(text: str) -> str:
    """An answer; nothing is Enter alone. The end of the input and Ctrl-C are a Trouble."""
    given = typed(text)
    if given is None:
        raise Trouble("no answer came. Nothing was written")
    return given


def asked_until(text: str, is_right: Callable[[str], bool], wanted: str, default: str = "") -> str:
    """An answer that is right; Enter takes the default."""
    while not is_right(given := asked(text) or default):
        say(f"   That has to be {wanted}.")
    return given


def is_so(text: str) -> bool:
    """Whether the answer is yes; Enter is no."""
    while (meant := is_yes(asked(f"{text} [y/N] "))) is None:
        say(YES_OR_NO)
    return meant


def asked_exclude() -> str:
    """From how many races on scores are excluded."""
    say("Excluded scores:\n  1 nothing in the instructions: one score from 2 races on (RRS A2.1)\n"
        "  2 none\n  3 other")
    which = asked_until("Which? [1] ", ["1", "2", "3"].__contains__, "1, 2 or 3", "1")
    if which != "3":
        return {"1": "2", "2": "none"}[which]
    races = asked_until("One is excluded from how many races on? ", settings.is_between(2, 40),
                        "a number from 2 to 40")
    for more in ["Two", "Three", "Four"]:
        later = asked_until(f"{more}? (Enter: never) ", lambda text: text == "" or
                            settings.is_exclude(f"{races},{text}"), "more races, up to 40")
        if not later:
            break
        races += f",{later}"
    return races


def asked_scp() -> str:
    """The points of a Scoring Penalty; empty for 20%."""
    usual, is_number = ("", "20%", "20 %"), settings.is_between(1, 99)
    while True:
        given = asked_until("Points of a Scoring Penalty? (Enter: 20%) ",
                            lambda text: text in usual or is_number(text),
                            "20%, or whole points from 1 to 99")
        if given in usual:
            return ""
        if int(given) <= MOST_USUAL or is_so(f"   {given} points, not {given}%?"):
            return given


def right_list(default: str) -> tuple[str, bytes]:
    """An entry list that the program takes: its path and what it holds. A list with a fault is the
    default of the next question."""
    named = ""
    while True:
        given = named or asked(f"Entry list [{default}]: ") or default
        named = ""
        try:
            data = bytes_of(given)
        except Trouble as trouble:
            say(f"   {trouble}. Type the name of the list, or make it now. Ctrl-C ends this.")
            continue
        if not (wrong := entry_list.problems(data, given)):
            return given, data
        say("\n".join(wrong))
        named, default = other_list(), given


def other_list() -> str:
    """The list that somebody names instead of one with a fault; empty if that one is put right."""
    given = asked("Is it put right? Look again? [Y/n, or the name of another list] ")
    meant = is_yes(given, True)
    if meant is False:
        raise Trouble("the entry list isn't right. Nothing was written")
    return "" if meant else given


def boats_in_words(boats: list[entry_list.Boat]) -> str:
    """How many boats a list has, and which of their names."""
    columns = {"helm": [boat.helm for boat in boats], "boat": [boat.name for boat in boats],
               "club": [boat.club for boat in boats]}
    named = [column for column, texts in columns.items() if any(texts)]
    names = f", with {joined(named)}" if named else ", without names"
    return f"{count(len(boats), 'boat')}, from {boats[0].sail} to {boats[-1].sail}{names}"


def make_folder(folder: str) -> None:
    with as_trouble("file-unmade", name=folder):
        os.makedirs(folder, mode=0o755, exist_ok=True)


def try_folder(folder: str) -> None:
    """Makes what is missing of a folder, and takes it away again; a Trouble if nothing can be written
    there."""
    missing, path = [], os.path.abspath(folder)
    while not os.path.lexists(path):
        missing.append(path)
        path = os.path.dirname(path)
    make_folder(folder)
    try:
        with as_trouble("folder-unwritten", name=folder):
            tempfile.TemporaryFile(dir=folder).close()
    finally:
        for made in missing:
            with contextlib.suppress(OSError):
                os.rmdir(made)


def say_if_any(text: str | None) -> None:
    """Says what should be known of a list, if anything should."""
    if text:
        say(f"   {text}")


def new(folder: str) -> int:
    """Makes a folder with its series.ini and its entry list, once all is asked; the status."""
    path, list_path = os.path.join(folder, settings.NAME), os.path.join(folder, "entries.csv")
    if os.path.exists(path):
        raise Trouble(remark("ini-there", name=folder))
    try_folder(folder)
    values = {"title": asked_until("Title: ", bool, "a title, as Autumn Cup"),
              "class": asked("Class (Enter: none): "), "club": asked("Club (Enter: none): ")}
    given, data = right_list(list_path)
    say(f"   {boats_in_words(list(entry_list.read(given).values()))}")
    say_if_any(entry_list.left_in_words(data))
    values |= asked_rules() | {"program": program_for(folder), "zone": time_zones.of_this_computer()}
    say_if_any(entry_list.rating_note(data, "entries.csv", values["handicap"] == "yes"))
    is_elsewhere = os.path.abspath(given) != os.path.abspath(list_path)
    write_new(folder, values, data if is_elsewhere else None)
    if is_elsewhere:
        say(f"Copied {given} to {list_path}: from now on change that one.")
    say(f"Wrote {path}. Next: {command_name()} open {shlex.quote(folder)}")
    return 0


def write_new(folder: str, values: dict[str, str], entries: bytes | None) -> None:
    """Makes a folder with these settings, and with this entry list unless it has its own."""
    written = settings_with(values)
    make_folder(folder)
    if entries is not None:
        replace_whole(os.path.join(folder, "entries.csv"), entries)
    replace_whole(os.path.join(folder, settings.NAME), written)


def make(folder: str, values: dict[str, str], entries: bytes) -> None:
    """Makes a new series of which nothing has to be asked. A Trouble says what is wrong; nothing is written
    then."""
    if os.path.lexists(os.path.join(folder, settings.NAME)):
        raise Trouble(remark("ini-there", name=folder))
    values = {"copy": "", "program": program_for(folder), "zone": time_zones.of_this_computer(), **values}
    if wrong := settings.problems(settings.filled_in(values)) + entry_list.problems(entries, NAME):
        raise Trouble(*wrong)
    write_new(folder, values, entries)


def settings_with(values: dict[str, str]) -> bytes:
    """A series.ini with these values; a Trouble if it can't hold the name of a file."""
    data = utf8(settings.filled_in(values))
    read = settings.values_of(data.decode())
    for key in ("program", "copy"):
        if read.get(key) != values[key]:
            raise Trouble(remark("ini-unheld", key=key, value=repr(values[key])))
    return data


def asked_rules() -> dict[str, str]:
    """The rules of the series, and where its journal is copied to."""
    values = {"exclude": asked_exclude()}
    come = is_so("Does RRS A5.3 apply (boats that came to the starting area, plus one)?")
    values["absent"] = "a53" if come else "a52"
    values["scp"] = asked_scp()
    values["handicap"] = "yes" if is_so("Places by corrected time (RRS A3)?") else "no"
    values["copy"] = asked_copy()
    return values


def asked_copy() -> str:
    """The second folder for the journal; empty for none. One that isn't there may be on a stick that
    isn't in yet, or misspelt."""
    while copy := asked("A second folder for the journal, on a stick? (Enter: none) "):
        path = os.path.abspath(copy)
        if os.path.isdir(path) or is_so(f"   {path} isn't there. Take it all the same?"):
            return path
    return ""
