"""A race that is abandoned: the lines that take it away, sent after one question."""
from __future__ import annotations

import itertools

from raceoffice import system
from raceoffice.errors import NotSent
from raceoffice.program.journal import Plan, Race, plan_of_abandoning
from raceoffice.remarks import remark
from raceoffice.series.abandoned import note_abandoned
from raceoffice.series.race_sheets import clear_sheet, sheet_without_race
from raceoffice.session.answers import changes_said, plan_said
from raceoffice.session.confirm import before_declared
from raceoffice.session.parse import MAY
from raceoffice.session.seat import Done, Seat
from raceoffice.session.sending import say_declared
from raceoffice.wording import count


def abandon(seat: Seat, race: Race) -> bool:
    """Takes a race away, after a question; whether all its lines were taken."""
    plan, kept, sheet = what_goes(seat, race)
    # Whoever abandons a race may strike, also if there is nobody.
    if barred := sorted({"STRIKE", *(line.split()[0] for line in plan.lines)} - MAY[seat.role]):
        raise NotSent(remark("abandon-role", race=race.number, lines=barred, role=seat.role.lower()))
    if not (plan.lines or kept or sheet):
        note_abandoned(seat.folder, race.number)
        # What a crash has left was sent by others.
        seat.note_lines_of_race(race.number, [])
        seat.say_of("nothing-there", race=race.number)
        return True
    seat.tell_all(plan_said(seat.facts, race, plan, kept, seat.prefix))
    # What was agreed to before a crash is asked as it was then.
    asked = seat.question("abandon", race=race.number, lines=seat.lines_agreed(plan.lines), marks=kept) if plan.lines or kept else \
        seat.question("clear-sheet", race=race.number)
    first = before_declared(seat.facts) if race.counts else []
    if not all(map(seat.ask, [*first, asked])):
        return seat.not_sent()
    seat.look()
    now = seat.facts.race(str(race.number))
    if what_goes(seat, now) != (plan, kept, sheet):
        # What others have recorded meanwhile was never shown.
        return abandon(seat, now)
    note_abandoned(seat.folder, race.number)
    if sheet:
        # What it had would be sent again by the next tap.
        clear_sheet(seat.folder, race.number, sheet)
    seat.note_lines_of_race(race.number, plan.lines)
    return is_taken_away(seat, race, plan, kept)


def is_taken_away(seat: Seat, race: Race, plan: Plan, kept: list[str]) -> bool:
    """Sends the lines of a race, and keeps these places no longer; whether all lines were taken."""
    before, length = seat.facts.standing, len(seat.facts.sheet.journal)
    # What a CLEAR takes, and what stays of that, is in the lines after it alone; and no place stays of a race that is gone.
    with system.stops_deferred():
        if not is_sent(seat, race, plan):
            return False
        named = [unread for unread in seat.unread.of(race.number) if unread.mark in kept]
        seat.drop_safely(named, f"race {race.number} was taken away")
    seat.note_lines_of_race(race.number, [])
    lines = count(len(plan.lines), "line")
    seat.done = Done(why=remark("undo-abandon", race=race.number, lines=lines))
    seat.say_of("taken-away", race=race.number, lines=len(plan.lines))
    if before.races:
        mixed = len(seat.facts.sheet.journal) != length + len(plan.lines)
        seat.tell_all(changes_said(seat.facts, before, None, mixed))
    say_declared(seat, before)
    return True


def what_goes(seat: Seat, race: Race) -> tuple[Plan, list[str], bytes]:
    """How a race is taken away, the places that are dropped, and its sheet of times without it. What a crash has kept from
    being given back to a boat who was cleared comes first."""
    plan = plan_of_abandoning(race)
    plan.lines = owed(race, *seat.lines_begun(race.number)) + plan.lines
    return plan, seat.unread.marks(race.number), sheet_without_race(seat.folder, race.number, plan.jury)


def owed(race: Race, sent: list[str], left: list[str]) -> list[str]:
    """What the last boat that was cleared gets back, of the lines that weren't sent before a crash. If somebody has given her
    something since, that is right."""
    found = list(itertools.takewhile(is_given_back, left))
    if not found:
        return []
    sail = found[0].split()[2]
    given = list(itertools.takewhile(lambda line: is_given_back(line) and line.split()[2] == sail, reversed(sent)))
    return found if len(race.held(sail)) == len(given) else []


def is_given_back(line: str) -> bool:
    """Whether a line gives back what the CLEAR before it has taken."""
    return line.startswith(("MARK ", "PENALTY "))


def is_sent(seat: Seat, race: Race, plan: Plan) -> bool:
    """Sends the lines of a plan up to the first that is refused; whether all were taken."""
    for line in plan.lines:
        answer = seat.exchange(line)
        if answer.startswith("NO"):
            seat.look()
            seat.say_of("stopped", line=line, answer=answer, race=race.number)
            return False
    seat.look()
    return True
