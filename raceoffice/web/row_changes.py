"""What taps have changed of a row in a sheet of times, or of a start, as the register has it: so a tap that comes again
is done once, and an undo takes away nothing that somebody else has recorded since."""
from __future__ import annotations

import itertools
from collections.abc import Mapping, Sequence
from typing import Any

from raceoffice.corrected.write_sheet import SheetOfRace
from raceoffice.errors import NotSent
from raceoffice.remarks import Remark, remark
from raceoffice.program.messages import ROLES
from raceoffice.series.line_order import ORDERING
from raceoffice.series.race_sheets import sheet_name
from raceoffice.session.undo import what_about
from raceoffice.web.tap_session import TapSession
from raceoffice.web.taps import Register, Sent, finisher_of, number_of

# Taps that change a boat's row.
OF_ROW = ("FINISH", "ELAPSED", "STRIKE", "MARK", "CLEAR")
# Lines that take something away of a boat as a device shows her.
TAKING = ("STRIKE", "MARK", "PENALTY", "CLEAR")
# Codes of boats that don't finish, or not any more.
NOT_FINISHED = ("DNC", "DNS", "DNF", "RET")
Cells = dict[str, str]


def row_of(line: str) -> tuple[str, str] | None:
    """The race and the boat whose row a line changes; without a boat if it changes the start of all. None if it changes
    neither."""
    command, *rest = line.split()
    if command == "START" and rest:
        return rest[0], ""
    return (rest[0], rest[1]) if command in OF_ROW and len(rest) > 1 else None


def cells_of(sheet: SheetOfRace, sail: str) -> Cells:
    """What a tap may change of a boat, or of the start if there is no boat."""
    return sheet.cells(sail) if sail else {"start": " ".join(sheet.starts)}


def taps_since(register: Register, sent: Sent) -> list[Sent]:
    """The taps for the same row that were begun after another, in their order."""
    later = itertools.takewhile(lambda one: one is not sent, register.all_reversed())
    return [one for one in later if "/" not in one.id and row_of(one.line) == row_of(sent.line)][::-1]


def is_made(register: Register, sent: Sent, now: Cells) -> bool:
    """Whether the sheet has, or had, what a tap was to make of it: `now` is what it has, and the next tap has noted what it
    had then."""
    if row_of(sent.line) is None:
        return True
    # Only taps for the sheet have noted what it had.
    since = [one.was for one in taps_since(register, sent) if one.made]
    return bool(sent.made) and (since[0] if since else now) == sent.made


def is_answered(session: TapSession, sent: Sent) -> bool:
    """Whether the journal has another line about the same of the boat since a tap was begun."""
    own = {part.own for part in session.register.parts(sent.id)}
    return any(sent.is_before(entry, number) and entry not in own and is_about_same(sent.line, entry.split(maxsplit=3)[3])
               for number, entry in enumerate(session.facts.sheet.journal, 1))


def moments_noted(register: Register, sheets: Mapping[int, Any]) -> dict[tuple[int, str], tuple[int, str]]:
    """When each finisher was tapped, and on which device, whose finish by that tap the sheets have still: also of one who is
    in no order, as before the start is known, or with a code."""
    found = dict[tuple[int, str], tuple[int, str]]()
    for sent in register.all():
        finisher = finisher_of(sent.line) if sent.made and sent.at and not sent.changed_nothing else None
        if finisher and finish_in(sheets, *finisher) == sent.made.get("finish"):
            found[finisher] = (sent.at, sent.by)
    return found


def finish_in(sheets: Mapping[int, Any], race: int, sail: str) -> str:
    """The finish of a boat in the sheets as they are shown; empty if she has none."""
    return str(sheets[race]["rows"].get(sail, {}).get("finish", "")) if race in sheets else ""


# What was recorded since a tap

def entries_of_starts(register: Register) -> set[str]:
    """The entries by which races were timed again that got another start: nobody has struck those boats."""
    starts = {one.id for one in register.all() if one.line.startswith("START ")}
    return {one.own for one in register.all() if main_of(one) in starts}


def is_timed_again(lines: Sequence[str]) -> bool:
    """Whether the first of some lines strikes a boat who has a time again after it, as when her race is timed again."""
    command, race, sail, *_ = [*lines[0].split(), "", ""]
    return command == "STRIKE" and any(line.startswith(f"TIME {race} {sail} ") for line in lines)


def recorded_again(session: TapSession, line: str, journal: Sequence[str]) -> str:
    """The line by which somebody else has recorded the boat of a line again since its tap, having struck her; empty if
    nobody has. `journal` are the others' commands since: those of a sheet that was changed by hand are there alone."""
    taps, lines = recorded_since(session, line, journal)
    return last_after_strike(taps) or last_after_strike(lines)


def finished_since(session: TapSession, line: str, journal: Sequence[str]) -> str:
    """The line by which somebody else has recorded a boat as a finisher since a tap that gives her a code of boats that don't
    finish; empty if nobody has. `journal` are the others' commands since."""
    if not line.startswith("MARK ") or line.split()[-1] not in NOT_FINISHED:
        return ""
    lasts = [found[-1] for found in recorded_since(session, line, journal) if found]
    return next((other for other in lasts if not other.startswith("STRIKE ")), "")


def recorded_since(session: TapSession, line: str, journal: Sequence[str]) -> tuple[list[str], list[str]]:
    """What others have recorded of the place of a boat since a tap for her: the taps for a sheet of times, and what the journal
    has. `journal` are the others' commands since."""
    _, race, sail, *_ = line.split()
    taps = [one.line for one in others_of_row(session, line)] if session.folder.settings.handicap else []
    return taps, [other for other in journal if other.split()[0] in (*ORDERING, "TIME") and other.split()[1:3] == [race, sail]]


def given_since(session: TapSession, line: str, journal: Sequence[str]) -> str:
    """The line by which somebody else has given a boat, since its tap, what a code takes the place of, or what is cleared; empty
    if nobody has. `journal` are the others' commands since."""
    command, number, sail, *_ = line.split()
    if command not in ("MARK", "CLEAR"):
        return ""
    race = session.facts.race(number)
    held = [f"MARK {race.number} {sail} {race.codes[sail]}"] if sail in race.codes else []
    if command == "CLEAR":
        held += [f"PENALTY {race.number} {sail} {code}" for code in race.penalties.get(sail, [])]
        held += [f"REDRESS {race.number} {sail} {race.redress[sail]}"] if sail in race.redress else []
    return next((other for other in reversed(journal) if other in held and other != line), "")


def last_after_strike(lines: Sequence[str]) -> str:
    """The last of some lines for a boat that records her after she was struck; empty if there is none."""
    # A finish with a second time takes the place of that one.
    struck = next((at for at, other in enumerate(lines) if other.startswith("STRIKE ") or len(other.split()) == 5), len(lines))
    return next((other for other in reversed(lines[struck:]) if not other.startswith("STRIKE ")), "")


def others_of_row(session: TapSession, line: str) -> list[Sent]:
    """What other devices have changed of a boat's finish in the sheet since the tap of this session."""
    tap, journal = session.tap, session.facts.sheet.journal
    return [one for one in session.register.all()
            if "/" not in one.id and one.line.startswith(("STRIKE ", "FINISH ", "ELAPSED ")) and row_of(one.line) == row_of(line)
            and one.by != session.name and has_changed(one) and (one.at > tap.at or number_of(one, journal) > tap.seen)]


# What an undo may not take away

def need_none_since(session: TapSession, sent: Sent) -> None:
    """NotSent if somebody else has recorded something about the same of the boat since a tap."""
    if later := other_since(session, sent):
        raise NotSent(later)


def other_since(session: TapSession, sent: Sent) -> Remark | None:
    """What another device, or somebody in a window, has recorded since about the same of the boat; None if nothing."""
    register = session.register
    others = [one for one in taps_since(register, sent) if one.by != sent.by and has_changed(one)
              and is_in_way(sent.line, one.line)]
    mains = {one.id for one in others}
    # Whoever changes a start or another row sends what follows from it for all boats.
    known = {one.own for one in register.all() if is_part(register, one) and main_of(one) not in mains}
    known |= register.entries_by(sent.by, session.facts.sheet.journal)
    for number, entry in enumerate(session.facts.sheet.journal, 1):
        _, _, role, line = entry.split(maxsplit=3)
        if sent.is_before(entry, number) and entry not in known and is_in_way(sent.line, line):
            return remark("undo-later", number=number, line=line, by=ROLES[role])
    return remark("sheet-changed") if others else None


def has_changed(one: Sent) -> bool:
    """Whether a tap was done and has changed something: another finish at the same moment hasn't."""
    is_done = one.answer.startswith(("OK ", "NOTED"))
    return is_done and (not one.changed_nothing or bool(one.entry) and not finisher_of(one.line))


def is_about_same(line: str, other: str) -> bool:
    """Whether two lines are about the same boat's place, or her code."""
    return what_about(line) == what_about(other)


def is_in_way(line: str, other: str) -> bool:
    """Whether the undo of a line would take away something of another: a code that comes back takes a place, too."""
    return is_about_same(line, other) or line.startswith("CLEAR ") and what_about(line)[:2] == what_about(other)[:2]


def is_part(register: Register, one: Sent) -> bool:
    """Whether it is a line of a tap for a sheet of times."""
    main = register.sent.get(main_of(one))
    return "/" in one.id and main is not None and main.line.split()[0] in (*OF_ROW, "START", "TIMES")


def main_of(one: Sent) -> str:
    """The tap of which this is a line."""
    return one.id.partition("/")[0]


def need_finish(session: TapSession, sent: Sent) -> None:
    """NotSent if a boat has another finish in the sheet than a tap has given her."""
    race, sail = session.facts.race(sent.line.split()[1]), sent.line.split()[2]
    held = cells_of(SheetOfRace(session.folder, race.number), sail)
    if sent.made and any(held[key] not in ("", sent.made[key]) for key in ("finish", "elapsed")):
        raise NotSent(remark("finish-changed", sail=sail, was=sent.made["finish"] or sent.made["elapsed"],
                             name=sheet_name(race.number)))


def note_tapped_too(session: TapSession, line: str) -> None:
    """Notes that a device has tapped a boat who has another finish in the sheet: her undo is asked about. Once is
    enough."""
    last = next((one for one in session.register.with_refused_reversed()
                 if "/" not in one.id.removesuffix("/too") and finisher_of(one.line) == finisher_of(line)), None)
    if last and (last.by != session.name or not last.answer.startswith("NO ")):
        session.register.refuse(session.sent_now(f"{session.tap.id}/too", line))
