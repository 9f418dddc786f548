"""What is asked before a line is sent, since it can't be taken back, or is hardly meant."""
from __future__ import annotations

import contextlib
from collections.abc import Sequence

from raceoffice.corrected.unsent import unsent
from raceoffice.errors import Trouble
from raceoffice.program.journal import Race
from raceoffice.series import entry_list, settings
from raceoffice.series.folder import Folder
from raceoffice.series.unknown_finishers import Unread
from raceoffice.session.dialogue import Question
from raceoffice.session.facts import Facts
from raceoffice.session.parse import MAY, SAILS, race_number
from raceoffice.session.question_words import question


def questions(facts: Facts, role: str, line: str, unread: Sequence[Unread]) -> list[Question]:
    """What is asked before a line. `unread` are the finishers without a sail of a race that is to
    count."""
    command, *rest = line.split()
    if command not in MAY[role] or not rest:
        # The office refuses it, or it is a question itself.
        return []
    if command == "ENTER":
        return [*before_declared(facts), before_entry(facts, rest[0])]
    race = facts.series.races.get(race_number(rest[0]))
    if command == "SCORE" and len(rest) == 1 and race and not race.counts:
        return before_declared(facts) + before_score(facts, race, unread)
    if command == "UNSCORE" and len(rest) == 1 and race and race.counts:
        return [*before_declared(facts), question("unscore", facts.called, race=race.number)]
    asked = []
    if command == "CLEAR" and race and len(rest) == 2:
        asked = before_clear(facts, race, rest[1])
    if command == "REDRESS" and len(rest) == 3 and rest[1] in facts.boats:
        asked = before_redress(facts, race or Race(race_number(rest[0])), rest[1])
    if not asked and command in SAILS and race and race.counts:
        asked = [question("correction", facts.called, race=race.number, **declared(facts.folder))]
    return asked


def declared(folder: Folder) -> dict[str, str]:
    """As what the results are declared, if they aren't provisional any more."""
    with contextlib.suppress(Trouble):
        # The notice may have been written since this session came.
        state = settings.read(folder.path).state
        return {} if state == "provisional" else {"declared": state}
    return {}


def before_declared(facts: Facts) -> list[Question]:
    """What is asked before a line that changes the results, and that is no correction of a race that counts, once they are
    declared."""
    found = declared(facts.folder)
    return [question("declared", facts.called, **found)] if found else []


def before_entry(facts: Facts, sail: str) -> Question:
    """What is asked before a boat is entered."""
    if sail in facts.names:
        return question("enter-listed", facts.called, sail=sail)
    close = entry_list.near(sail, list(dict.fromkeys([*facts.names, *facts.boats])))
    if close:
        return question("enter-near", facts.called, sail=sail, near=close)
    return question("enter-unlisted", facts.called, sail=sail)


def before_score(facts: Facts, race: Race, unread: Sequence[Unread]) -> list[Question]:
    """What is odd in a race that is to count."""
    missing = race.missing(facts.boats)
    penalised = [sail for sail in missing if race.penalties.get(sail)]
    asked = before_sheet(facts, race)
    if unread:
        asked.append(question("score-unknown", facts.called, race=race.number,
                              marks=[one.mark for one in unread], since=[one.since for one in unread]))
    if race.order and not race.places():
        asked.append(question("score-only-codes", facts.called, race=race.number))
    if penalised:
        asked.append(question("score-penalised", facts.called, race=race.number, sails=penalised,
                              a53=facts.is_a53))
    if missing and race.order:
        asked.append(question("score-missing", facts.called, race=race.number, sails=missing))
    return asked


def before_sheet(facts: Facts, race: Race) -> list[Question]:
    """What is asked if the sheet of times of a race that is to count has something else than the journal."""
    found = unsent(facts.folder, race.number, facts.sheet.journal)
    if found.fault:
        return [question("score-sheet-fault", facts.called, race=race.number, fault=found.fault)]
    return [question("score-sheet", facts.called, race=race.number, sails=found.sails)] if found.sails else []


def before_clear(facts: Facts, race: Race, sail: str) -> list[Question]:
    """What is asked before several things of a boat are cleared at once."""
    if len(race.held(sail)) < 2:
        return []
    return [question("clear-several", facts.called, race=race.number, sail=sail, counts=race.counts,
                     code=one_or_none(race.codes.get(sail)), penalties=race.penalties.get(sail, []),
                     redress=one_or_none(race.redress.get(sail)))]


def one_or_none(text: str | None) -> list[str]:
    return [text] if text else []


def before_redress(facts: Facts, race: Race, sail: str) -> list[Question]:
    """What is asked before a boat without a place and a code is given redress."""
    if sail not in race.missing(facts.boats):
        return []
    return [question("redress-unplaced", facts.called, race=race.number, sail=sail, counts=race.counts,
                     a53=facts.is_a53)]
