"""How a boat that should never have been entered is taken out of a journal: no line does that."""
from __future__ import annotations

import contextlib
import os
import re
from dataclasses import dataclass

from raceoffice import system
from raceoffice.errors import NotSent, Trouble
from raceoffice.files import replace_whole
from raceoffice.program.messages import moved, refusal
from raceoffice.program.replay import ran
from raceoffice.program.standing import Change, Standing, changes
from raceoffice.remarks import Remark, in_a_row, remark
from raceoffice.series import copies, entry_list
from raceoffice.series.continuity import (REMOVING, differences, note_now, own_entries, parts_of, removal_begun,
                                          with_entries)
from raceoffice.series.folder import Folder, Lock
from raceoffice.series.kept_places import Places, command_of, history_of, kept_in_words
from raceoffice.series.older_copy import REMOVED
from raceoffice.series.race_sheets import sheets_with, take_out_of_sheets
from raceoffice.series.run_program import Program, options_in_force, replayed
from raceoffice.series.second_folder import places_copy_of, second_of
from raceoffice.series.twins import Twins
from raceoffice.series.unknown_finishers import marks_of_races
from raceoffice.terminal import question, say
from raceoffice.wording import count


def lines_about(journal: list[str], sail: str) -> dict[int, str]:
    """The lines about a boat by their numbers, and those that placed another boat by her until that one was struck. A
    Trouble if another boat's place still hangs on hers."""
    about: set[int] = set()
    for at, line in enumerate(journal, 1):
        named = entry_list.sails_of(line)
        if named[:1] == [sail]:
            about.add(at)
        elif sail in named:
            about |= {at, struck_again(journal, at, sail)}
    if not about:
        raise Trouble(remark("removal-absent", sail=sail))
    return {at: journal[at - 1] for at in sorted(about)}


def struck_again(journal: list[str], placed: int, sail: str) -> int:
    """The number of the line that struck a boat who was placed by another, by that of the line that placed her. A Trouble
    if she has that place still."""
    words = words_of(journal[placed - 1])
    _, race, boat, _ = words
    for at in range(placed + 1, len(journal) + 1):
        if words_of(journal[at - 1]) == ["STRIKE", race, boat]:
            return at
    raise Trouble(remark("removal-beside", sail=sail, number=placed, line=" ".join(words), boat=boat, race=int(race)))


def words_of(entry: str) -> list[str]:
    """The words of an entry's command."""
    return entry_list.plain_words(entry)[3:]


@dataclass(frozen=True)
class Removal:
    """What goes of a journal with a boat, by the numbers of its entries, and what is left of so many entries."""
    sail: str
    held: bytes
    about: dict[int, str]
    data: bytes
    entries: int


def removal_of(folder: Folder, sail: str) -> Removal:
    """What goes if a boat is taken out; a Trouble says why she can't be."""
    held, torn = folder.parts()
    if torn:
        raise Trouble(remark("removal-torn"))
    if not folder.kept():
        raise Trouble(remark("removal-empty"))
    # The program takes lines in several forms, and shows each entry in one.
    journal = list(replayed(folder, options_in_force(folder)).journal)
    about = lines_about(journal, sail)
    data = without(held, set(about))
    return Removal(sail, held, about, data, len(journal))


def remove(path: str, words: list[str]) -> int:
    """Takes a boat out of a journal whose office is closed, after a question; the status."""
    folder, sail = Folder(path), entry_list.plain("".join(words))
    folder.make_private()
    if Lock(folder).is_taken() or folder.is_held():
        raise Trouble(remark("removal-open"))
    found = removal_of(folder, sail)
    if text := differences(folder):
        say(text)
    say(f"{count(len(found.about), 'entry goes', 'entries go')}:")
    for at, line in found.about.items():
        say(f"   {at:>5}  {' '.join(line.split()[2:])}")
    names = entry_list.read_if_there(folder.entries)
    for change in moves_without(folder, found):
        say(f"   {moved(change, str(names.get(change.after.sail, change.after.sail)))}")
    if text := also_changed(folder, found):
        say(text)
    if not question(f"Take {sail} out? The journal with her stays in kept/."):
        say("Nothing was changed.")
        return 1
    with system.stops_deferred():
        copy, fault = take_out(folder, found)
        if fault:
            say(f"No second copy: {fault}.")
        left = count(found.entries - len(found.about), "entry", "entries")
        say(f"{sail} is taken out. journal.txt has {left}; {copy} has all {found.entries}.")
    if text := kept_in_words(folder):
        say(text)
    return 0


def also_changed(folder: Folder, found: Removal) -> str:
    """What else a removal changes, in words: sheets of times, and places that are kept again. Empty if it changes nothing
    else."""
    sheets, again = sheets_with(folder, found.sail), places_kept_again(folder, found)
    said = [remark("removal-sheets", names=sheets)] if sheets else []
    said += [remark("removal-places", places=marks_of_races(again))] if again else []
    return in_a_row(*said) if said else ""


def places_kept_again(folder: Folder, found: Removal) -> list[tuple[int, str]]:
    """The places that were said to be her, and are kept again. If nobody can read the file of places, none are known."""
    with contextlib.suppress(Trouble):
        ended = history_of(folder).ended.values()
        return [note.key for note in ended if note.sail == found.sail and note.entry in found.about]
    return []


def take_out(folder: Folder, found: Removal, by: str = "") -> tuple[str, str]:
    """Takes a boat out of the journal of a closed office: the dated copy that has her still, and why there is no
    second copy, if there is none. `by` is who does."""
    finish_removal(folder, by)
    copy = copies.keep(folder, found.held)
    note_places(folder, by)
    note_taken_out(folder, found, by)
    # If a kill comes once the journal is replaced, the next opening knows by whom it is shorter.
    folder.log(by, "", "", f"{REMOVING}{found.sail}", note_now(folder, found.data))
    fault = replace(folder, found.data, by)
    # If she is entered again, no finish of before comes back.
    take_out_of_sheets(folder, found.sail)
    try:
        log_taken_out(folder, found.sail, found.data, by)
    except Trouble:
        # Of a disk that fails for a moment nobody is asked at the next opening.
        log_taken_out(folder, found.sail, found.data, by)
    with contextlib.suppress(Trouble):
        # A finisher who was said to be that boat is kept again, in all her classes.
        Twins(folder).follow(history_of(folder), by)
    return copy, fault


def finish_removal(folder: Folder, by: str = "") -> None:
    """Finishes what a kill has left undone once a boat was out of a journal whose office is closed."""
    data = folder.parts()[0]
    if sail := removal_begun(folder, data):
        note_out(folder, by)
        take_out_of_sheets(folder, sail)
        log_taken_out(folder, sail, data, by)


def log_taken_out(folder: Folder, sail: str, data: bytes, by: str) -> None:
    """Makes a dated copy of the shorter journal, and logs that the office goes on from there."""
    copies.keep(folder, data)
    note = note_now(folder, data)
    folder.log(by, "", "", f"{REMOVED}{sail}", note)
    folder.log("", "", "", "closed", note)


def note_places(folder: Folder, by: str) -> None:
    """Notes which lines for kept places the journal has and nobody has noted yet, as after a crash: nobody would look for
    them at other numbers."""
    places, journal = Places(folder, by), [command_of(line) for line in folder.kept()]
    with contextlib.suppress(NotSent, Trouble):
        if places.read(journal).found:
            places.note_found(journal)


def note_taken_out(folder: Folder, found: Removal, by: str) -> None:
    """Notes beside the places which entries go. While journal.txt has them, as after a kill, that doesn't count."""
    journal = [command_of(line) for line in folder.kept()]
    try:
        Places(folder, by).note_taken_out(found.sail, [*found.about], journal, own_entries(folder))
    except NotSent as why:
        raise Trouble(*why.said) from None


def note_out(folder: Folder, by: str) -> None:
    """Notes beside the places that the entries are gone, before anybody can type the same again. If that fails, the
    next opening does it."""
    journal = [command_of(line) for line in folder.kept()]
    with contextlib.suppress(NotSent, Trouble):
        Places(folder, by).note_removals(journal, len(journal))


def without(data: bytes, numbers: set[int]) -> bytes:
    """A journal without the entries of these numbers. The others stay as they are written."""
    version, lines = parts_of(data)
    left = [line for at, line in enumerate(lines, 1) if at not in numbers]
    return with_entries(version, left)


def moves_without(folder: Folder, found: Removal) -> list[Change]:
    """Whom a shorter journal moves, by the rules in force; a Trouble if the program doesn't take it."""
    options = options_in_force(folder)
    before = Program(folder).standing(options)
    done = ran(folder.program, options, journal=found.data)
    if done.returncode:
        raise Trouble(remark("removal-refused", sail=found.sail, why=why_refused(done.stderr, found.data)))
    after = Standing.read(done.stdout.splitlines())
    if not after.rows:
        raise Trouble(remark("removal-last", sail=found.sail))
    return changes(before, after)


def why_refused(said: str, data: bytes) -> Remark:
    """Why the program doesn't take a shorter journal."""
    found = re.search(r"^regatta: start refused ([0-9]+) at ([0-9]+)$", said, re.MULTILINE)
    lines = parts_of(data)[1]
    if not found or int(found[2]) > len(lines):
        return remark("program-says", said=said.strip() or "nothing")
    line = " ".join(lines[int(found[2]) - 1].decode("ascii", "replace").split()[3:])
    answer = f"NO {found[1]}"
    return remark("removal-line", line=line, answer=answer, why=refusal(answer))


def replace(folder: Folder, data: bytes, by: str) -> str:
    """Writes the shorter journal, and its copy on a second disk: why there is none, if there is none."""
    # A link stays, and what it leads to is replaced.
    path = os.path.realpath(folder.journal)
    try:
        replace_whole(path, data)
    except Trouble:
        # The disk may have failed after the file was replaced: then what is there now counts.
        if folder.parts()[0] != data:
            raise
    note_out(folder, by)
    with second_of(folder) as second, contextlib.suppress(Trouble):
        # A copy of the journal without her has to have the places by its numbers.
        second.ask("save", Places(folder).text(), places_copy_of(second))
    with second_of(folder) as second:
        return second.ask("replace", data.decode("ascii", "replace")).fault
