"""How what was done last is taken back: by the one line that reverses it, or at the place that was kept."""
from __future__ import annotations

import contextlib
from collections.abc import Collection

from raceoffice.errors import NotSent
from raceoffice.program.journal import Race, Series
from raceoffice.program.messages import ROLES
from raceoffice.remarks import Remark, remark
from raceoffice.series.kept_places import History
from raceoffice.series.line_order import LineOrder
from raceoffice.series.lost_lines import as_kept
from raceoffice.series.unknown_finishers import Unread
from raceoffice.session.dialogue import NOTE, WARNING
from raceoffice.session.facts import Facts
from raceoffice.session.finishers import need_room, send_known
from raceoffice.session.parse import FINISHING, MAY
from raceoffice.session.said_words import said
from raceoffice.session.seat import Done, Seat
from raceoffice.session.sending import is_meant, transmit


def undo(seat: Seat) -> bool:
    """Takes back what was done last at a seat, after a question; whether that was done."""
    done = seat.done
    if not done:
        raise NotSent(remark("undo-none"))
    if done.why:
        raise NotSent(done.why)
    if done.unread and done.what:
        return undo_place(seat, done.unread, done.what)
    if done.line.startswith("STRIKE ") and (mark := seat.history.place_left(done.number)):
        return put_in_again(seat, done, mark)
    while True:
        line = line_that_undoes(seat, done)
        if not seat.is_yes(seat.question("undo", line=as_kept(done.line), by=line)) or not is_meant(seat, line):
            return seat.not_sent()
        with seat.as_it_is():
            # Others may have finished while somebody was asked: then it is asked again.
            if line_that_undoes(seat, done) == line:
                return send_leaving(seat, line, done.unread) if done.unread else send_back(seat, line)


def need_there(seat: Seat, done: Done) -> None:
    """NotSent if the journal hasn't the line that was sent."""
    if seat.facts.commands[done.number - 1:done.number] != [as_kept(done.line)]:
        raise NotSent(remark("undo-gone", line=done.line))


def put_in_again(seat: Seat, done: Done, mark: str) -> bool:
    """Puts a boat that has left a place into it again; whether that was taken. NotSent if it isn't kept any more."""
    need_there(seat, done)
    if later := later_entry(seat.facts, done.number):
        raise NotSent(later)
    _, number, sail = done.line.split()
    race = seat.facts.race(number)
    return send_known(seat, race, seat.unread.one(race.number, mark), [sail.lower()])


def line_that_undoes(seat: Seat, done: Done) -> str:
    """The line that takes back what was done, as it is now; NotSent says why none does."""
    need_there(seat, done)
    line = reversal(seat.facts, done.number, seat.history)
    if done.unread and (level := level_entry(seat.facts, done.number)):
        raise NotSent(level)
    return line


def send_leaving(seat: Seat, line: str, unread: Unread) -> bool:
    """Sends the line by which a boat leaves a place; whether it was taken."""
    # The place is kept again as soon as the boat has left it, whoever looks next.
    leaving = seat.places.note_leaving(unread, line, len(seat.facts.sheet.journal))
    is_taken = transmit(seat, line)
    if not is_taken:
        # Somebody else may have struck her just before.
        seat.look()
        if leaving.key in seat.history.ended:
            seat.places.take_back(leaving, "refused")
    seat.done = Done(why=remark("undo-place", mark=unread.mark))
    return is_taken


def send_back(seat: Seat, line: str) -> bool:
    """Sends the line that takes another back; whether it was taken. A boat that was struck comes back where she was."""
    command, *rest = line.split()
    if command not in ("FINISH", "BEFORE"):
        return transmit(seat, line)
    seat.need_alone()
    race, sail, length = int(rest[0]), rest[1], len(seat.facts.sheet.journal)
    if not is_back(seat, race, line):
        return False
    number = seat.done.number if seat.done else 0
    if number > length + 1:
        # Somebody who didn't wait, as nobody does for long, has sent a line in between.
        wanted = line_back(seat.places.read(seat.facts.commands[:number - 1]), race, sail)
        if wanted != line and transmit(seat, f"STRIKE {race} {sail}"):
            is_back(seat, race, wanted)
    return True


def is_back(seat: Seat, race: int, line: str) -> bool:
    """Sends the line that puts a boat back where she was, also among the places that were kept since; whether it was
    taken."""
    note = seat.places.note_back(race, line, len(seat.facts.sheet.journal))
    is_taken = transmit(seat, line)
    if not is_taken:
        seat.places.take_back(note, "refused")
    return is_taken


def line_if_moved(seat: Seat, done: Done, entries: int) -> str:
    """The line that puts a boat that was struck, or a place that was dropped, where she was, if somebody who was ahead of her
    when the journal had this many entries is behind her now, or the other way round; empty if nobody is, or of anything
    else that was done. So it may be after a swap: she was between the two. Empty, too, if something was written about the
    same since: then nothing takes the strike back."""
    is_struck = done.line.startswith("STRIKE ") and not later_entry(seat.facts, done.number)
    if not (is_struck or done.unread and done.what == "dropped"):
        return ""
    number, name = (done.unread.race, done.unread.mark) if done.unread else (int(done.line.split()[1]), done.line.split()[2])
    before, now = seat.places.read(seat.facts.commands[:entries]).order(number), seat.history.order(number)
    if not is_on_another_side(name, before, now):
        return ""
    return now.line_back(number, name)


def is_on_another_side(name: str, before: LineOrder, now: LineOrder) -> bool:
    """Whether a boat that is in both orders isn't on the same side of somebody."""
    def side(order: LineOrder, sail: str) -> int:
        return (order.at(sail) > order.at(name)) - (order.at(sail) < order.at(name))
    standing = {sail for group in now.groups for sail in now.boats(group)} - {name}
    for sail in sorted(standing):
        # Somebody may not be in one of them.
        with contextlib.suppress(ValueError):
            if side(before, sail) != side(now, sail):
                return True
    return False


def undo_place(seat: Seat, unread: Unread, what: str) -> bool:
    """Drops a place that was kept last, or keeps one again that was dropped last."""
    if "FINISH" not in MAY[seat.role]:
        raise NotSent(remark("place-role"))
    if (what == "kept") != (unread.mark in seat.unread.marks(unread.race)):
        raise NotSent(remark("undo-typed", mark=unread.mark, race=unread.race))
    if what == "dropped":
        need_room(seat, unread.race)
    kind = "drop-place" if what == "kept" else "keep-place-again"
    if not seat.is_yes(seat.question(kind, race=unread.race, mark=unread.mark)):
        return seat.not_sent()
    is_dropped = what == "kept"
    if is_dropped:
        seat.drop([unread], "undone")
    else:
        seat.keep_again(unread)
    seat.done = Done(unread=unread, what="dropped" if is_dropped else "kept")
    seat.tell(said("place-dropped" if is_dropped else "place-kept-again", NOTE, str, "", mark=unread.mark))
    if is_dropped:
        drop_twins(seat, unread)
    else:
        seat.follow_twins()
    return True


def drop_twins(seat: Seat, unread: Unread) -> None:
    """Drops the other places of a finisher who never was. If hers is kept again, so are those."""
    for place, why in seat.twins.drop_others(seat.history, (unread.race, unread.mark), seat.places.by):
        if why:
            seat.say_of("still-kept", WARNING, fault=why, marks=[place.kept.place])
        else:
            seat.say_of("twin-dropped", class_name=place.folder.name, mark=place.kept.place)


def reversal(facts: Facts, number: int, history: History) -> str:
    """The line that takes back an entry of the journal; NotSent says why none does. `history` are the places that are
    kept in the class."""
    line = facts.commands[number - 1]
    command, *rest = line.split()
    if command == "ENTER":
        raise NotSent(remark("undo-enter", sail=rest[0]))
    if later := later_entry(facts, number):
        raise NotSent(later)
    if command in ("SCORE", "UNSCORE"):
        return f"{'UNSCORE' if command == 'SCORE' else 'SCORE'} {rest[0]}"
    race, sail = int(rest[0]), rest[1]
    before = Series.read(list(facts.sheet.journal[:number - 1])).race(race)
    if command == "STRIKE":
        return f"TIME {race} {sail} {before.times[sail]}" if sail in before.times else line_back(history, race, sail)
    if command in FINISHING:
        return f"STRIKE {race} {sail}"
    return as_before(command, before, facts.race(rest[0]), sail)


def line_back(history: History, race: int, sail: str) -> str:
    """The line that puts a boat that was struck where she was; NotSent if that is level with somebody who isn't known."""
    order, marks = history.order(race), history.waiting.marks(race)
    for mark in order.places_level_with(sail):
        if mark in marks:
            raise NotSent(remark("undo-level", sail=sail, mark=mark))
    return order.line_back(race, sail)


def later_entry(facts: Facts, number: int, but: Collection[str] = ()) -> Remark | None:
    """The first entry after another that is about the same boat and race, and isn't one of some, in words; None if there
    is none. SCORE and UNSCORE are about their race alone."""
    about = what_about(facts.commands[number - 1])
    for at, entry in enumerate(facts.sheet.journal[number:], number + 1):
        _, _, role, line = entry.split(maxsplit=3)
        if what_about(line) == about and entry not in but:
            return remark("undo-later", number=at, line=line, by=ROLES[role])
    return None


def what_about(line: str) -> list[str]:
    """The race and the boat of a line, and whether it is about her place."""
    command, *rest = line.split()
    return [*rest[:2], str(command in FINISHING)] if command not in ("SCORE", "UNSCORE") else rest


def level_entry(facts: Facts, number: int) -> Remark | None:
    """The entry that has put another boat level with that of an entry, in words: she is level with whoever was there.
    None if there is none."""
    _, race, sail, *_ = facts.commands[number - 1].split()
    level = next((group for group in facts.race(race).order if sail in group), list[str]())
    for at, line in enumerate(facts.commands[number:], number + 1):
        if line.split()[:2] == ["TIE", race] and line.split()[2] in level:
            _, _, role, _ = facts.sheet.journal[at - 1].split(maxsplit=3)
            return remark("undo-later", number=at, line=line, by=ROLES[role])
    return None


def as_before(command: str, before: Race, now: Race, sail: str) -> str:
    """The line after which a boat holds what she held before a MARK, PENALTY, REDRESS or CLEAR."""
    if command == "MARK" and sail in before.codes:
        return f"MARK {now.number} {sail} {before.codes[sail]}"
    if command == "REDRESS" and sail in before.redress:
        return f"REDRESS {now.number} {sail} {before.redress[sail]}"
    held = lines_held(before, sail)
    if not held:
        return f"CLEAR {now.number} {sail}"
    if command == "CLEAR" and len(held) == 1:
        return held[0]
    lines = held if command == "CLEAR" else [f"CLEAR {now.number} {sail}", *held]
    raise NotSent(remark("undo-lines", lines=lines))


def lines_held(race: Race, sail: str) -> list[str]:
    """The lines by which a boat gets all that she holds in a race."""
    code = [f"MARK {race.number} {sail} {race.codes[sail]}"] if sail in race.codes else []
    redress = [f"REDRESS {race.number} {sail} {race.redress[sail]}"] if sail in race.redress else []
    return code + [f"PENALTY {race.number} {sail} {kind}" for kind in race.penalties.get(sail, [])] + redress
