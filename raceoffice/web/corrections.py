"""The scorer's corrections that take several lines, as a boat that is moved: one request, whose lines are sent once.

A process may be killed between any two steps. All lines are in the register before the first is sent: the same request again
sends what is left of them. Until somebody does that, or leaves the rest, the scorer's page shows what is left.
"""
from __future__ import annotations

from collections.abc import Collection, Mapping, Sequence
from typing import Any

from raceoffice.corrected.write_sheet import SheetOfRace
from raceoffice.errors import NotSent
from raceoffice.program.journal import Race
from raceoffice.program.replay import Line
from raceoffice.remarks import remark
from raceoffice.series.abandoned import leave_lines
from raceoffice.web import preview
from raceoffice.web.finish_order import without_place
from raceoffice.web.plans import asked_of, told_what_was_sent
from raceoffice.web.requests import Wrong
from raceoffice.web.room import Room
from raceoffice.web.rulings import tap_of
from raceoffice.web.states import Values
from raceoffice.web.tap_session import TapSession
from raceoffice.web.taps import LINE, PLACED, Tap, correction_of, part_id

# The lines that a correction may have, each with its fewest words, and how many lines at most. Those of a race that is
# abandoned are one, too.
KINDS = {"UNSCORE": 2, "STRIKE": 3, "FINISH": 3, "TIE": 4, "BEFORE": 4, "TIME": 4, "TIMES": 2, "MARK": 4, "PENALTY": 4, "CLEAR": 3}
MOST = 4000


def correct(room: Room, values: Mapping[str, Any], name: str) -> Values:
    """Sends the lines of a correction, or what is left of them; what came of each, and whether all were taken. The same
    again gets the same answer. `name` is the device's."""
    tap, lines = tap_of(values), lines_in(values)
    with room.lock:
        room.session("SCORER").look()
        try:
            room.register.under_way = tap.id
            with room.one_change():
                return sent_whole(room, tap, lines, name)
        finally:
            room.register.under_way = ""
            room.news()


def ask_whole(room: Room, values: Mapping[str, Any], name: str) -> None:
    """Asks what is asked of the lines of a correction, of which none is sent. `name` is the device's."""
    tap, lines = tap_of(values), lines_in(values)
    with room.lock:
        room.session("SCORER").look()
        check(room, tap, lines, name)


def leave_rest(room: Room, values: Mapping[str, Any]) -> None:
    """Leaves a correction as it is: what is left of it isn't shown any more."""
    tap = tap_of(values)
    with room.lock:
        if lines := room.register.decisions.get(correction_of(tap.id)):
            room.register.decide(correction_of(tap.id), [])
            leave_lines(room.folder, [line.text for line in lines])
        room.news()


def lines_in(values: Mapping[str, Any]) -> list[Line]:
    """The lines of a request."""
    found = values.get("lines")
    if not isinstance(found, list) or len(found) > MOST:
        raise Wrong(400, "this is no correction")
    for line in found:
        words = line.split() if isinstance(line, str) and LINE.fullmatch(line) else []
        if not words or words[0] not in KINDS or len(words) < KINDS[words[0]]:
            raise Wrong(400, "this is no line of a correction")
    return [Line("SCORER", " ".join(line.split())) for line in found]


def sent_whole(room: Room, tap: Tap, given: Sequence[Line], name: str) -> Values:
    """Sends each line of a correction that wasn't sent yet; what came of them, and which are left. After a refusal no more
    is sent."""
    key, register = correction_of(tap.id), room.register
    if key not in register.decisions:
        check(room, tap, given, name)
        register.decide(key, given)
    is_held, whole, done = bool(register.decisions[key]), register.corrections.get(key, []), list[Values]()
    for at, line in enumerate(whole):
        part = Tap(part_id(tap.id, at), line.text, tap.at, agreed=tap.agreed)
        # Of one that somebody has left nothing more is sent.
        with told_what_was_sent(done):
            came = room.do("SCORER", name, part) if is_held else room.done(part)
        if came is None:
            break
        done.append(came)
        if came["outcome"] == "refused":
            break
    is_refused = bool(done) and done[-1]["outcome"] == "refused"
    if is_held and (len(done) == 1 or not is_refused):
        # Nothing is left of it, or nothing was done.
        register.decide(key, [])
    left = [line.text for line in whole[len(done) - is_refused:]]
    return {"outcome": "refused" if is_refused else "left" if left else "taken", "done": done, "left": left}


def check(room: Room, tap: Tap, lines: Sequence[Line], name: str) -> None:
    """Asks what the office asks of the lines before the first is sent; NotSent if the program would refuse one."""
    session = room.session("SCORER")
    session.begin(tap, name)
    need_no_places(session, lines)
    need_as_shown(session, lines)
    session.need_agreed(asked_of(session, lines))
    plain = [Line(line.role, without_place(line.text)[0]) for line in lines]
    if not room.folder.settings.handicap and (refused := preview.why_refused(room.folder, room.facts, plain)):
        raise NotSent(*refused)


def need_no_places(session: TapSession, lines: Sequence[Line]) -> None:
    """NotSent if a place is kept between two boats that go to another race: nobody knows of which race she is."""
    words = [line.text.split() for line in lines]
    placed = {(number, sail) for command, number, sail, *_ in (one for one in words if len(one) > 2) if command in PLACED}
    for number in sorted({of for of, _ in placed} | {one[1] for one in words if one[0] == "STRIKE"}):
        struck = {one[2] for one in words if one[:2] == ["STRIKE", number] and len(one) == 3}
        gone = {sail for sail in struck if (number, sail) not in placed and any(boat == sail for _, boat in placed)}
        race = session.facts.race(number)
        going = [at for at, group in enumerate(race.order) if gone & set(group)]
        marks = [one.mark for one in session.unread.of(race.number) if going and going[0] < one.place(race) <= going[-1]]
        if marks:
            raise NotSent(remark("places-among", marks=marks, race=race.number))


def need_as_shown(session: TapSession, lines: Sequence[Line]) -> None:
    """NotSent if the lines of a swap, or of boats that go to another race, were made of another order than there is now, or of
    other finishes and codes: they would put boats where nobody has seen them. A sheet of times makes its own order."""
    words = [line.text.split() for line in lines]
    if session.folder.settings.handicap:
        is_same = is_in_sheet(session, words)
    else:
        is_same = is_in_order(session, words) and not (is_swap(words) and words[3] not in backs_of(session, *words[1][1:]))
    if not is_same or not are_codes_whole(session, words):
        raise NotSent(remark("decision-changed"))


def is_swap(words: Sequence[Sequence[str]]) -> bool:
    """Whether two boats change places: one goes level with the other, who then goes to where the first one was."""
    if [one[0] for one in words[:3]] != ["STRIKE", "TIE", "STRIKE"] or len(words) != 4 or len(words[1]) != 4:
        return False
    number, first, second = words[1][1:]
    return words[0][1:] == [number, first] and words[2][1:] == [number, second] and words[3][1:3] == [number, second] \
        and words[3][0] in PLACED


def backs_of(session: TapSession, number: str, first: str, second: str) -> list[list[str]]:
    """The lines that may put the second boat of a swap to where the first one is: level with another who is there, or just ahead
    of whoever is next, and of the first place that is kept in between. None if the second one isn't behind her."""
    race = session.facts.race(number)
    ahead, behind = (next((at for at, group in enumerate(race.order) if sail in group), -1) for sail in (first, second))
    if not 0 <= ahead < behind:
        return []
    if level := [sail for sail in race.order[ahead] if sail != first]:
        return [["TIE", number, second, sail] for sail in level]
    following = [first if sail == second else sail for sail in race.order[ahead + 1]]
    marks = [one.mark for one in session.unread.of(race.number) if one.place(race) == ahead + 1][:1]
    return [["BEFORE", number, second, sail, *marks] for sail in following]


def is_in_order(session: TapSession, words: Sequence[Sequence[str]]) -> bool:
    """Whether the boats that go to another race are put there in the order in which they are in their own now."""
    struck = {one[2]: one[1] for one in words if one[0] == "STRIKE" and len(one) == 3}
    groups = dict[tuple[str, str], list[set[str]]]()
    for command, number, sail, *_ in (one for one in words if one[0] in ("FINISH", "TIE")):
        if struck.get(sail, number) != number:
            found = groups.setdefault((struck[sail], number), [])
            found.append({sail}) if command == "FINISH" or not found else found[-1].add(sail)
    return all(groups_among(session.facts.race(number), set().union(*found)) == found for (number, _), found in groups.items())


def is_in_sheet(session: TapSession, words: Sequence[Sequence[str]]) -> bool:
    """Whether the finishes that go to another race are those that the sheet of their own has now."""
    struck = {one[2]: session.facts.race(one[1]).number for one in words if one[0] == "STRIKE" and len(one) == 3}
    moved = [(struck[sail], sail, finish) for sail, finish in (one[2:4] for one in words if one[0] == "FINISH" and len(one) == 4)
             if sail in struck]
    sheets = {number: SheetOfRace(session.folder, number) for number, *_ in moved}
    return all(sheets[number].cells(sail)["finish"] == finish for number, sail, finish in moved)


def are_codes_whole(session: TapSession, words: Sequence[Sequence[str]]) -> bool:
    """Whether all that is cleared of a boat whose codes go to another race goes there: somebody may have given her another. Of
    a correction that has stopped half way, the first of them may be there already."""
    cleared = {one[2]: session.facts.race(one[1]) for one in words if one[0] == "CLEAR" and len(one) == 3}
    for sail, race in cleared.items():
        given = [one[3] for one in words if one[0] in ("MARK", "PENALTY") and len(one) == 4 and one[2] == sail]
        held = [*([race.codes[sail]] if sail in race.codes else []), *race.penalties.get(sail, [])]
        if given and held[-len(given):] != given:
            return False
    return True


def groups_among(race: Race, sails: Collection[str]) -> list[set[str]]:
    """The order of some boats of a race."""
    return [chosen for group in race.order if (chosen := {*group} & {*sails})]
