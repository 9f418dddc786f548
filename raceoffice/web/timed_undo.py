"""How a tap for a sheet of times is undone: the sheet gets back just what the tap took out of it, as the register has
noted it."""
from __future__ import annotations

from collections.abc import Mapping

from raceoffice.errors import NotSent
from raceoffice.program.journal import Race, Series
from raceoffice.remarks import remark
from raceoffice.session.question_words import question
from raceoffice.session.undo import later_entry, lines_held
from raceoffice.web.row_changes import need_finish, need_none_since
from raceoffice.web.tap_session import TapSession
from raceoffice.web.taps import Sent, number_of

# What undoes a tap that took nothing out of a sheet.
OPPOSITES = {"FINISH": "STRIKE", "ELAPSED": "STRIKE", "MARK": "CLEAR"}
# Taps that may take something away of a boat.
TAKING = ("STRIKE", "MARK", "CLEAR")
# Taps that give a boat a finish or an elapsed time.
PLACING = ("FINISH", "ELAPSED")


def lines_back(command: str, race: Race, sail: str, cells: Mapping[str, str]) -> list[str]:
    """The lines that put back what a tap takes away: `cells` are what the sheet has of the boat before it."""
    code = [f"MARK {race.number} {sail} {cells['code']}"] if cells["code"] else []
    if command == "CLEAR":
        held = lines_held(race, sail)
        return code + [line for line in held if not (code and line.startswith("MARK "))]
    if command == "MARK":
        return code
    if command == "STRIKE" and cells["elapsed"]:
        return [f"ELAPSED {race.number} {sail} {cells['elapsed']} {cells['finish']}".rstrip()]
    return [f"FINISH {race.number} {sail} {cells['finish']}"] if command == "STRIKE" and cells["finish"] else []


def timed_undo(session: TapSession, sent: Sent | None) -> str:
    """The line that takes back what a tap did to a sheet; empty if it did nothing to one. NotSent if none does, or if
    somebody else has recorded something about the same since."""
    words = sent.line.split() if sent and sent.answer.startswith(("OK ", "NOTED")) else [""]
    if words[0] == "START":
        raise NotSent(remark("start-again", race=words[1]))
    if words[0] == "TIMES":
        raise NotSent(remark("times-again", race=words[1]))
    begun = session.register.sent.get(session.tap.id)
    if begun:
        # It is the same line as then, whatever was done since.
        return begun.line
    if not sent or words[0] not in OPPOSITES and words[0] not in TAKING:
        return ""
    need_none_since(session, sent)
    if words[0] in TAKING and (line := line_back(session, sent)):
        return line
    if words[0] in PLACING:
        need_own_finish(session, sent)
    if words[0] == "FINISH" and len(words) == 5:
        # It put one finish in place of another.
        return " ".join([*words[:3], words[4], words[3]])
    opposite = OPPOSITES.get(words[0], "")
    return f"{opposite} {words[1]} {words[2]}" if opposite else ""


def time_before(session: TapSession, race: int, sail: str) -> int | None:
    """The time that a boat had before the tap that is undone; None if she had none, or nothing of that tap is known."""
    journal, sent = session.facts.sheet.journal, session.register.sent.get(session.tap.undoes)
    lines = [sent, *session.register.parts(sent.id)] if sent else []
    numbers = [number for part in lines if (number := number_of(part, journal))]
    return Series.read(list(journal[:min(numbers) - 1])).race(race).times.get(sail) if numbers else None


def need_own_finish(session: TapSession, sent: Sent) -> None:
    """NotSent if a boat's finish isn't the one that a tap has given her. If another device has tapped her, too, it is
    asked."""
    if sent.changed_nothing:
        raise NotSent(remark("undo-nothing"))
    need_finish(session, sent)
    if by := session.register.who_tapped_too(sent):
        session.is_agreed(question("tapped-too", session.facts.called, sail=sent.line.split()[2], by=by))


def line_back(session: TapSession, sent: Sent) -> str:
    """The line that puts back what a tap took away; empty if it took nothing. NotSent if no one line does, or if
    something was done about the same since."""
    lines = [line.text for line in session.lines_back(sent.id)]
    command, number, sail, *_ = sent.line.split()
    need_last(session, sent)
    if command == "MARK":
        others = [line for line in lines_held(session.facts.race(number), sail) if not line.startswith("MARK ")]
        lines = lines or ([f"CLEAR {number} {sail}", *others] if others else [])
    if len(lines) > 1:
        raise NotSent(remark("undo-lines", lines=lines))
    if not lines and command != "MARK" and not sent.entry:
        raise NotSent(remark("undo-nothing"))
    return next(iter(lines), "")


def need_last(session: TapSession, sent: Sent) -> None:
    """NotSent if something was recorded about the same boat and race since a tap."""
    part = next((part for part in session.register.parts(sent.id) if part.line == sent.line), None)
    number = number_of(part, session.facts.sheet.journal) if part else 0
    if number and (later := later_entry(session.facts, number)):
        raise NotSent(later)
