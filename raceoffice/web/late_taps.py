"""What is asked of a tap that comes some time after it was made: meanwhile its race was abandoned, a place was kept where it
puts a boat, or others finished after whom it puts her."""
from __future__ import annotations

from collections.abc import Collection, Iterator

from raceoffice.program.journal import Race
from raceoffice.series.abandoned import last_abandoned
from raceoffice.series.line_order import is_mark
from raceoffice.session.dialogue import Question
from raceoffice.session.parse import race_number
from raceoffice.session.question_words import question
from raceoffice.web.finish_order import CLOSE, groups_after, places_just_ahead
from raceoffice.web.tap_session import TapSession


def asked_if_abandoned(session: TapSession, line: str) -> Iterator[Question]:
    """What is asked of a tap for a boat or a place that was made before its race was abandoned, or that takes such a tap back:
    it may not belong to the race that is sailed again. A start is asked about with what it is."""
    tap, undone = session.tap, session.register.sent.get(session.tap.undoes)
    first, *rest = (undone.line if undone and line == "UNDO" else line).split() or [""]
    race, at = race_number(rest[0]) if rest else 0, min(tap.at, undone.at) if undone and undone.at else tap.at
    is_of_boat = first != "START" and ("?" in first or len(rest) > 1)
    if race and at and is_of_boat and (moment := last_abandoned(session.folder, race)) > at:
        # A yes is about this time: the race may be abandoned once more before that comes.
        yield question("abandoned-since", session.facts.called, race=race, moment=moment)


def asked_of_new_places(session: TapSession, line: str, order: Race) -> Iterator[Question]:
    """What is asked of a boat that is put ahead of another, or level with her: whether she is behind the places that others have
    kept just ahead of that one, and that the device didn't show. `order` has the places that are kept."""
    words = line.split()
    if words[0] not in ("BEFORE", "TIE") or len(words) != 4 or session.tap.undoes or not session.tap.at:
        return
    _, _, sail, other = words
    if not (marks := places_just_ahead(order, other)):
        return
    for mark in marks:
        if is_new_place(session, order.number, mark):
            yield question("place-ahead", session.facts.called, mark=mark, sail=sail, ahead=other)


def asked_of_last(session: TapSession, line: str, order: Race, passed: Collection[str] = ()) -> Iterator[Question]:
    """What is asked of a boat that somebody puts after all others in a window: whether she is after those, too, whom others have
    recorded since that was opened. The tap has the boat that was the last one then. `order` has the places that are kept. It is
    asked elsewhere about those that she has `passed`."""
    command, *_, sail = line.split()
    behind = session.tap.behind
    if command != "FINISH" or behind is None or order.is_in_order(sail):
        return
    after = [name for group in groups_after(order, behind) for name in group]
    is_gone = bool(behind) and not order.is_in_order(behind)
    new = (name for name in after if name not in passed and (not is_mark(name) or is_new_place(session, order.number, name)))
    others = [] if is_gone else list(new)
    if others or is_gone:
        # A yes is about this end of the order: others may come before it is sent.
        yield question("after-since", session.facts.called, race=order.number, sail=sail, others=others, last="".join(after[-1:]))


def is_new_place(session: TapSession, race: int, mark: str) -> bool:
    """Whether another device has kept a place since a tap. It is known to the second when that was."""
    is_own = mark in session.register.places_by(session.name, race)
    return not is_own and session.history.moments(race).get(mark, 0) + CLOSE > session.tap.at
