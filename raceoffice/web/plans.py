"""Lines that go together, as those of a decision or of a correction: what the office asks of any of them is asked before the
first is sent."""
from __future__ import annotations

import contextlib
import copy
from collections.abc import Iterator, Sequence

from raceoffice.program.journal import Race
from raceoffice.program.replay import Line
from raceoffice.series.line_order import ORDERING, LineOrder, Meant
from raceoffice.session.confirm import questions
from raceoffice.session.dialogue import NOTE, Question
from raceoffice.session.question_words import question
from raceoffice.session.said_words import said
from raceoffice.web.finish_order import without_place
from raceoffice.web.late_taps import asked_if_abandoned, asked_of_last, asked_of_new_places
from raceoffice.web.states import Values
from raceoffice.web.tap_session import Asked, TapSession

# The most questions that are agreed to: of each boat that holds several things, there may be one.
MOST = 400


def asked_of(session: TapSession, lines: Sequence[Line]) -> list[Question]:
    """What is asked of lines, each once those before it were taken. The session has begun with their tap."""
    plain = [Line(line.role, without_place(line.text)[0]) for line in lines]
    late = [asked for line in plain for asked in asked_if_abandoned(session, line.text)]
    return list({repr(one): one for one in [*late, *asked_in_turn(session, plain), *asked_of_places(session, lines)]}.values())


def asked_in_turn(session: TapSession, lines: Sequence[Line]) -> Iterator[Question]:
    """What is asked of each line for a boat or a race. One that the office would refuse changes nothing."""
    facts = copy.copy(session.facts)
    facts.series = copy.deepcopy(facts.series)
    for line in lines:
        yield from questions(facts, line.role, any_of(facts.boats, line.text), ())
        with contextlib.suppress(ValueError, StopIteration):
            facts.series.follow(line.text.split())


def any_of(boats: Sequence[str], line: str) -> str:
    """A line as it may be sent: all that a sheet's times take are about one race, and what is asked of one is asked of all."""
    command, *rest = line.split()
    return f"STRIKE {rest[0]} {next(iter(boats), '')}" if command == "TIMES" and rest else line


def asked_of_places(session: TapSession, lines: Sequence[Line]) -> Iterator[Question]:
    """What is asked of boats that are put elsewhere: whether they are behind places now that they were ahead of, or that others
    have kept since."""
    history, orders = session.history, dict[int, LineOrder]()
    for line in lines:
        text, later = without_place(line.text)
        command, number, sail, *other = [*text.split(), ""][:4]
        if command not in ORDERING:
            continue
        race = session.facts.race(number).number
        if race not in orders:
            orders[race] = history.order(race).copy()
        order, marks = orders[race], history.waiting.marks(race)
        if later:
            history.waiting.one(race, later)
        passed = [mark for mark in order.ahead_before(text, later) if mark in marks] if command in ("FINISH", "BEFORE") else []
        for mark in passed:
            yield question("finished-after", session.facts.called, mark=mark, sail=sail)
            order.ahead[mark].discard(sail)
        if not later:
            as_it_is = Race(race, order.standing(marks))
            yield from asked_of_new_places(session, text, as_it_is)
            yield from asked_of_last(session, text, as_it_is, passed)
        with contextlib.suppress(ValueError):
            order.follow([command, sail, *filter(None, other)], Meant("back", later) if later else Meant())


@contextlib.contextmanager
def told_what_was_sent(done: Sequence[Values]) -> Iterator[None]:
    """Says with a question which lines were sent before it: somebody may have typed in a window since all was asked."""
    try:
        yield
    except Asked as asked:
        lines = [str(one["line"]) for one in done if one["outcome"] == "taken"]
        more = [said("lines-sent", NOTE, str, "", lines=lines)] if lines else []
        raise Asked(asked.question, [*more, *asked.said]) from None
