"""What is typed of finishers whose sails aren't known: their places are kept, until each is known."""
from __future__ import annotations

import dataclasses

from raceoffice.errors import NotSent
from raceoffice.program.journal import Race, Series
from raceoffice.remarks import remark
from raceoffice.series.entry_list import near
from raceoffice.series.kept_places import Note, Twin
from raceoffice.series.unknown_finishers import MARK, Unread
from raceoffice.session.parse import FIRST, MAY, boat_meant, boats_meant, short
from raceoffice.session.seat import Done, Seat
from raceoffice.session.sending import is_meant, send, transmit

# How many places are kept in a race at once, beside one for each boat that is entered or in the list: somebody may be tapped
# twice, or be in neither. No list is so short that fewer are kept than these.
MORE, LEAST = 10, 100


def keep_or_send(seat: Seat, mark: str, sail: list[str]) -> bool:
    """Keeps her place (`?`, `101?`), or sends her sail (`?1 GBR 33`); whether it was taken."""
    if "FINISH" not in MAY[seat.role]:
        raise NotSent(remark("place-role"))
    if seat.folder.settings.handicap:
        raise NotSent(remark("place-timed"))
    race, typed = race_of(seat, mark, sail), mark.removesuffix("?")
    if mark == "?" and not sail:
        return keep(seat, race)
    if not sail and seat.reader.crossed(typed) and mark not in seat.unread.marks(race.number):
        return keep(seat, race, typed)
    if not sail:
        raise NotSent(remark("place-whose", mark=mark))
    return send_known(seat, race, seat.unread.one(race.number, mark), sail)


def race_of(seat: Seat, mark: str, sail: list[str]) -> Race:
    """The race of a place: that of `at`, or the only one in which somebody is called so."""
    races = {unread.race for unread in seat.unread.all if sail and mark in ("?", unread.mark)}
    if not seat.at and len(races) != 1:
        raise NotSent(remark("which-race"))
    return seat.facts.race(str(seat.at or min(races)))


def keep(seat: Seat, race: Race, typed: str = "", why: str = "", twin: Twin = Twin()) -> bool:
    """Keeps the place of a finisher at the end of the order as it is now. `twin` says in which other classes she
    is kept."""
    if not twin.finisher:
        # One of whom nobody knows the class is kept in each, or she might be in none.
        need_room(seat, race.number)
    mark = seat.keep(race, typed, twin)
    seat.say_of("place-kept", mark=mark, why=why)
    return True


def need_room(seat: Seat, race: int) -> None:
    """NotSent if a race keeps as many places as it may, or all races together twice as many. Nobody needs more, and each tap
    of all goes through all of them."""
    kept, most = len(seat.unread.of(race)), most_of(seat)
    if kept >= most:
        raise NotSent(remark("places-most", race=race, kept=kept))
    if len(seat.unread.all) >= 2 * most:
        raise NotSent(remark("places-many", kept=len(seat.unread.all)))


def most_of(seat: Seat) -> int:
    """How many places a race of a class keeps at once."""
    return max(len({*seat.facts.boats, *seat.facts.names}) + MORE, LEAST)


def send_or_place(seat: Seat, line: str, is_bare: bool, later: str = "") -> bool:
    """Sends a line, or puts its boat into a place that was kept for her; whether it was taken. `is_bare` says
    that her sail was typed alone, and `later` is a place of which she is just ahead."""
    if unread := kept_as(seat, line, is_bare):
        _, number, sail = line.split()[:3]
        return send_known(seat, seat.facts.race(number), unread, [sail.lower()])
    return send(seat, line, later)


def kept_as(seat: Seat, line: str, is_bare: bool) -> Unread | None:
    """The finisher whose place was kept by a sail that may be that of a line, if it was typed alone, or for whom
    a line of this boat was noted and perhaps never sent; if somebody says that it is."""
    command, *rest = line.split()
    if command not in ("FINISH", "BEFORE") or command not in MAY[seat.role] or len(rest) < 2:
        return None
    race, sail = seat.facts.race(rest[0]), rest[1]
    if race.is_in_order(sail):
        return None
    for unread in seat.unread.of(race.number):
        last = seat.history.open_line(unread)
        is_meant_before = last is not None and last.sail == sail
        is_like = is_bare and unread.typed and (boats_meant([unread.typed], [sail])
                                                or near(unread.typed, [sail]))
        if not (is_like or is_meant_before):
            continue
        if seat.is_yes(seat.question("place-is", race=unread.race, mark=unread.mark, sail=sail)):
            return unread
        if last and is_meant_before:
            # Else the entry of this boat would be taken for that of the line.
            seat.places.take_back(last, "another boat")
    return None


def send_known(seat: Seat, race: Race, meant: Unread, words: list[str]) -> bool:
    """Sends the sail of a finisher who is known now, in the place that was kept."""
    if words == ["none"]:
        seat.drop([meant], "none")
        seat.done = Done(unread=meant, what="dropped")
        seat.say_of("place-dropped", mark=meant.mark)
        return True
    sail = sail_for(seat, meant, words)
    while True:
        line, last = meant.line(sail, race), seat.history.open_line(meant)
        seat.say(f"   {line}")
        if not (may_send(seat, line, last.line if last else line, meant) and is_meant(seat, line)):
            return seat.not_sent()
        with seat.as_it_is():
            # Others may have finished while somebody was asked: then her line is another, and is asked about.
            meant, counted = seat.unread.one(race.number, meant.mark), race.counts
            race = seat.facts.race(str(race.number))
            if (meant.line(sail, race), race.counts) == (line, counted):
                return is_put_there(seat, meant, line, last)


def is_put_there(seat: Seat, meant: Unread, line: str, last: Note | None) -> bool:
    """Sends the line of a finisher who is known now; whether it was taken. `last` is the one that was sent before and has no
    answer."""
    seat.need_alone()
    length, sail = len(seat.facts.sheet.journal), line.split()[2]
    seat.places.note_sent(meant, line, length, last)
    if not transmit(seat, line, meant):
        return False
    number = seat.done.number if seat.done else 0
    if number > length + 1 and line_wanted(seat, meant, sail, number) != line:
        # Somebody who didn't wait, as nobody does for long, has sent a line in between.
        put_right(seat, meant, sail)
    return True


def line_wanted(seat: Seat, meant: Unread, sail: str, number: int) -> str:
    """The line that puts a boat into a place by the journal before the entry of this number."""
    before = seat.facts.sheet.journal[:number - 1]
    order = seat.places.read(seat.facts.commands[:number - 1]).order(meant.race)
    there = dataclasses.replace(meant, ahead=order.ahead_of(meant.mark))
    return there.line(sail, Series.read(list(before)).race(meant.race))


def put_right(seat: Seat, meant: Unread, sail: str) -> None:
    """Strikes a boat that was put into her place by a line that came too late, and puts her there."""
    strike = f"STRIKE {meant.race} {sail}"
    seat.say(f"   {strike}")
    leaving = seat.places.note_leaving(meant, strike, len(seat.facts.sheet.journal))
    if not transmit(seat, strike):
        seat.places.take_back(leaving, "refused")
        return
    again = seat.unread.one(meant.race, meant.mark)
    line = again.line(sail, seat.facts.race(str(meant.race)))
    seat.say(f"   {line}")
    is_put_there(seat, again, line, None)


def sail_for(seat: Seat, meant: Unread, words: list[str]) -> str:
    """The boat that is meant for a place. What was typed of her sail may be left out, which leaves letters alone:
    `101? ger`. `1? irl 1` is IRL1, whoever is IRL11."""
    text, boats = "".join(words).upper(), seat.facts.boats
    whole = text + meant.typed
    if text not in boats and whole in boats and not any(map(str.isdigit, text)):
        return whole
    return boat_meant(words, boats, seat.facts.called)


def may_send(seat: Seat, line: str, last: str, meant: Unread) -> bool:
    """Whether a line may be sent for a place although another was, to which no answer came."""
    return last.split()[2] == line.split()[2] or seat.ask(seat.question(
        "place-unanswered", race=meant.race, mark=meant.mark, last=last, line=line))


def marked(words: list[str]) -> tuple[str, list[str]] | None:
    """The mark of a finisher whose sail isn't known, and the words after it; None if there is none:
    `?`, `?1 irl 5`, `101?`, `gbr 101? none`."""
    at = next((at for at, word in enumerate(words) if "?" in word), None)
    if at is None or words[0].upper() in FIRST:
        return None
    mark = "".join(words[:at + 1]).upper()
    if not MARK.fullmatch(mark):
        raise NotSent(remark("no-mark", written=short(mark)))
    return mark, words[at + 1:]
