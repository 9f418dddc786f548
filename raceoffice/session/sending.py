"""A line on its way to the office: what is asked before, and what is said of its answer."""
from __future__ import annotations

import contextlib
import itertools

from raceoffice.errors import NotSent, Trouble
from raceoffice.program.journal import Race
from raceoffice.program.standing import Standing
from raceoffice.series import settings
from raceoffice.series.unknown_finishers import Unread
from raceoffice.session.answers import answer_said, changes_said, outcome, race_said
from raceoffice.session.confirm import questions
from raceoffice.session.dialogue import ANSWER, WARNING, Said
from raceoffice.session.parse import MAY, race_number
from raceoffice.session.seat import Done, Seat


def send(seat: Seat, line: str, later: str = "") -> bool:
    """Sends a line after what has to be asked; whether it was taken. `later` is a place of which its boat is just
    ahead."""
    if not is_meant(seat, line):
        return seat.not_sent()
    keep_ahead(seat, line, later)
    return transmit(seat, line)


def keep_ahead(seat: Seat, line: str, later: str = "") -> None:
    """Asks of a boat that was struck or taken out, and that finishes again, whether she is behind now those who were
    behind her. If so, their places are ahead of her. She is known to be just ahead of the place `later`."""
    command, *rest = line.split()
    if [command, len(rest)] not in (["FINISH", 2], ["BEFORE", 3]) or command not in MAY[seat.role]:
        return
    # Nothing may be left of a race whose only boat was taken out.
    race = seat.facts.race_of(line) or Race(race_number(rest[0]))
    if race.is_in_order(rest[1]):
        return
    if stale := seat.history.line_of_return(race.number, rest[1]):
        # Else the entry of this line would be taken for that one's.
        seat.places.take_back(stale, "never sent")
    ahead = seat.history.order(race.number).ahead_before(line, later)
    places = [unread for unread in seat.unread.of(race.number) if unread.mark in ahead]
    # Nothing is noted before all is answered: nobody may answer the last question.
    after = list(itertools.takewhile(
        lambda unread: seat.is_yes(seat.question("finished-after", mark=unread.mark, sail=rest[1])), places))
    for unread in after:
        seat.places.keep_ahead(unread, rest[1], len(seat.facts.sheet.journal))
    if len(after) < len(places):
        # She is ahead of all who came since, too.
        seat.places.note_back(race.number, line, len(seat.facts.sheet.journal), places[len(after)].mark)
    elif later:
        seat.places.note_back(race.number, line, len(seat.facts.sheet.journal), later)


def transmit(seat: Seat, line: str, unread: Unread | None = None) -> bool:
    """Sends a line that nothing has to be asked of any more; whether it was taken. `unread` is the
    finisher whose place it is for."""
    before, length = seat.facts.standing, len(seat.facts.sheet.journal)
    with seat.at_the_line.alone():
        answer = seat.exchange(line, unread)
    if unread:
        note_answer(seat, unread, line, answer)
    if not answer.startswith("OK "):
        seat.tell(answer_said(seat.facts, line, answer, seat.prefix))
        return not answer.startswith("NO ")
    number = int(answer.split()[1])
    seat.done = Done(line, number, unread)
    look_after(seat, number, line)
    seat.tell(outcome(seat.facts, line, seat.unread, number, seat.prefix))
    race = None if line.startswith("UNSCORE ") else seat.facts.race_of(line)
    if not line.startswith("SCORE ") and (race is None or race.counts):
        seat.tell_all(changes_said(seat.facts, before, race, number != length + 1))
    say_declared(seat, before)
    return True


def note_answer(seat: Seat, unread: Unread, line: str, answer: str) -> None:
    """Notes the answer to a line for a place. If that fails, the journal has the line all the same."""
    with contextlib.suppress(NotSent):
        seat.places.note_answer(unread, line, answer)
    seat.look_at_places()
    history = seat.history
    # This window may have been stopped before it sent the line, and somebody else have typed.
    boat = history.boat(unread.race, unread.mark)
    if answer.startswith("OK ") and boat not in ("", line.split()[2]):
        seat.say_of("two-boats", WARNING, **history.end(unread.race, unread.mark))


def look_after(seat: Seat, number: int, line: str) -> None:
    """Looks at what a line has done; if the office goes just then, its answer is said at least."""
    try:
        seat.look()
    except Trouble:
        seat.say(f"OK {number}   {seat.prefix}{line}", ANSWER)
        raise
    seat.number = seat.facts.sheet.journal[number - 1].split()[0]


def say_declared(seat: Seat, before: Standing) -> None:
    """Says that results which have changed were declared final or amended, if they were."""
    if before == seat.facts.standing:
        return
    # The notice may have been written since this window came.
    with contextlib.suppress(Trouble):
        state = settings.read(seat.folder.path).state
        if state != "provisional":
            seat.say_of("declared", state=state, command=seat.folder.command("amended"))


def is_meant(seat: Seat, line: str) -> bool:
    """Whether a line may be sent: what has to be asked is answered by yes."""
    command, *rest = line.split()
    race = seat.facts.race_of(line)
    unread: list[Unread] = []
    if command == "SCORE" and command in MAY[seat.role] and race and not race.counts:
        seat.tell_all(shown_race(seat, race, True))
        unread = seat.unread.of(race.number)
    asked = questions(seat.facts, seat.role, line, unread)
    return all(seat.is_yes(one) for one in asked)


def shown_race(seat: Seat, race: Race, is_to_count: bool = False) -> list[Said]:
    """A race as it is recorded."""
    return race_said(seat.facts, race, seat.unread.place_numbers(race), is_to_count, seat.prefix)
