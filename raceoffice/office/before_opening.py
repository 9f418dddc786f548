"""What is looked at and asked before an office is opened; `say` and `ask` are those of a terminal or a page."""
from __future__ import annotations

import dataclasses
import os
from collections.abc import Callable

from raceoffice.files import replace_whole
from raceoffice.program.messages import move_text, moved
from raceoffice.program.standing import Change
from raceoffice.remarks import remark
from raceoffice.series import copies, entry_list
from raceoffice.series.continuity import differences, note_now
from raceoffice.series.copies import best_copy, places_with
from raceoffice.series.folder import Folder
from raceoffice.series.health import (changes_of_rules, faults, journal_fault, lost_journal, rules_before)
from raceoffice.series.kept_places import Places
from raceoffice.series.remove_boat import finish_removal
from raceoffice.series.run_program import rules_of
from raceoffice.series.second_folder import second_of
from raceoffice.series.settings import Settings, rules_remark
from raceoffice.session.dialogue import Question
from raceoffice.session.question_words import question

Say = Callable[[str], object]
Ask = Callable[[Question], bool]


def is_right(folder: Folder, say: Say) -> bool:
    """Whether a series can be opened. If the journal doesn't fit rules of series.ini that wait, it goes on with those in
    force."""
    wrong = faults(folder)
    for text in wrong:
        say(text)
    return not wrong or is_right_as_before(folder, say)


def is_right_as_before(folder: Folder, say: Say) -> bool:
    """Whether a series can be opened with the rules in force, and not with those of series.ini."""
    wanted = folder.settings
    if before := rules_before(folder):
        folder.settings = with_rules(folder, before)
        if not faults(folder):
            say(remark("office-rules-kept"))
            return True
    folder.settings = wanted
    return False


def mend(folder: Folder, ask: Ask) -> None:
    """Offers what puts a series without a journal right: its best copy."""
    # Nothing may replace a file that an office has.
    if journal_fault(folder) or folder.is_held() or folder.kept():
        return
    lost = lost_journal(folder)
    if not lost:
        return
    with second_of(folder) as second:
        copy, data = best_copy(folder, second)
        places = places_with(folder, second, data)
    if copy and ask(question("use-copy", str, lost=lost)):
        Places(folder).put_back(places)
        replace_whole(os.path.realpath(folder.journal), data)
        copies.keep(folder, data)
        folder.log("", "", "", "restored", note_now(folder, data))


def is_meant(folder: Folder, say: Say, ask: Ask) -> bool:
    """Whether the journal goes on from the last opening, or somebody says yes. If the rules are others, somebody chooses."""
    if not is_continued(folder, say, ask):
        return False
    choose_rules(folder, say, ask)
    return True


def is_continued(folder: Folder, say: Say, ask: Ask) -> bool:
    """Whether journal.txt and office/places go on from what the office had, or somebody opens it all the
    same. A boat who was taken out just before a kill is out."""
    if not folder.is_held():
        finish_removal(folder)
    text = differences(folder)
    if not text:
        return True
    say(text)
    return ask(question("not-continued", str, difference=text))


def choose_rules(folder: Folder, say: Say, ask: Ask) -> None:
    """Goes on with the rules of series.ini if they are those of the last opening, or if somebody agrees to whom they move;
    else with the rules in force."""
    before = rules_before(folder)
    if not before:
        return
    say(remark("office-rules-were", rules=rules_remark(with_rules(folder, before))))
    say(remark("office-rules-now", rules=rules_remark(folder.settings)))
    names, found = entry_list.read_if_there(folder.entries), changes_of_rules(folder, before)
    for change in found:
        words = moved(change, str(names.get(change.after.sail, change.after.sail)))
        say(remark("office-move", words=words, move=move_text(change)))
    if not ask(asked_of_rules(folder, before, found)):
        keep_rules(folder, say)


def keep_rules(folder: Folder, say: Say) -> None:
    """Goes on with the rules in force. Others that series.ini has go on waiting."""
    if before := rules_before(folder):
        folder.settings = with_rules(folder, before)
        say(remark("office-rules-kept"))


def question_of_rules(folder: Folder) -> Question | None:
    """What is asked if the settings have other rules than the last opening; None if they have the same."""
    before = rules_before(folder)
    return asked_of_rules(folder, before, changes_of_rules(folder, before)) if before else None


def with_rules(folder: Folder, options: list[str]) -> Settings:
    """The settings with the rules of these options of the program."""
    return dataclasses.replace(folder.settings, **rules_of(options))


def asked_of_rules(folder: Folder, before: list[str], found: list[Change]) -> Question:
    """The question about these changes of rules: the rules as series.ini has them, and whom they move."""
    was, now = ([held.exclude, held.absent, held.scp, "yes" if held.handicap else "no"]
                for held in (with_rules(folder, before), folder.settings))
    return question("new-rules", str, before=was, now=now, moves=map(move_text, found))
