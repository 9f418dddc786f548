"""What the jury decides from a page: each decision is kept in decisions.txt or taken out, and its lines are sent, once.

A process may be killed between any two steps. All lines of a decision are in the register before the first is sent: the
same request again sends what is left of them. A decision that is kept is in the file before that, and one that is taken
out is in it until its last line was taken: so it is in the jury's list until all is done.
"""
from __future__ import annotations

from collections.abc import Mapping, Sequence
from dataclasses import replace
from typing import Any

from raceoffice.errors import NotSent
from raceoffice.program.replay import Line
from raceoffice.remarks import remark
from raceoffice.session.dialogue import Question
from raceoffice.web import preview
from raceoffice.web.plans import MOST, asked_of, told_what_was_sent
from raceoffice.web.requests import Wrong
from raceoffice.web.room import Room
from raceoffice.web.series_settings import tag_of
from raceoffice.web.states import Values, remarks_of
from raceoffice.web.taps import NoTap, Tap, need_clock, part_id

# Lines that give a boat something which CLEAR takes
GIVING = ("MARK", "PENALTY", "REDRESS")


def ruled(room: Room, values: Mapping[str, Any], is_begun: bool = False) -> preview.Ruled:
    """The decision that a request gives, with its note, or the row of one that it takes out, or what it takes back of a boat
    (`reopen`). A boat that is cleared has the time again that is in the sheet alone."""
    found = ruled_alone(room, values, is_begun)
    return replace(found, lines=(*found.lines, *preview.times_left(room.folder, room.facts, found.lines)))


def ruled_alone(room: Room, values: Mapping[str, Any], is_begun: bool) -> preview.Ruled:
    """The same without the times that boats have in a sheet alone."""
    known = room.register.known_in(room.facts.sheet.journal)
    if values.get("reopen") is True:
        return preview.reopened(room.folder, room.facts, one_line(values, "line"), known)
    if values.get("out") is True:
        return preview.take_out(room.folder, room.facts, str(values.get("line", "")).strip(), known, is_begun)
    note = preview.note_of(str(values.get("note", "")))
    return preview.decide(room.folder, room.facts, one_line(values, "line"), known, note)


def one_line(values: Mapping[str, Any], name: str) -> str:
    """A text of a request, as one line without notes."""
    return " ".join(str(values.get(name, "")).partition("#")[0].split())[:120]


def ruling_shown(room: Room, values: Mapping[str, Any]) -> Values:
    """What a decision comes to, or taking one out, and whom it moves. `tag` is another whenever decisions.txt is."""
    found = ruled(room, values)
    shown: Values = {"text": found.text, "line": found.name, "verdict": found.verdict, "why": remarks_of(found.why),
                     "asked": [], "tag": tag_of(found.before)}
    moved = preview.preview(room.folder, room.facts, found.lines)
    # What takes no lines changes no score, in whichever race.
    return shown | moved | ({} if found.lines else {"counts": True})


def decide(room: Room, values: Mapping[str, Any], name: str) -> list[Values]:
    """Does what was decided, if all is as it was shown; what came of each line. The same again goes on at the first that
    wasn't sent, and gets the same answer. `name` is the device's."""
    with room.lock:
        room.session("JURY").look()
        with room.one_change():
            return Decision(room, values, name).done()


class Decision:
    """A decision on its way."""

    def __init__(self, room: Room, values: Mapping[str, Any], name: str) -> None:
        self.room, self.values, self.name = room, values, name
        self.tap, self.is_out = tap_of(values), values.get("out") is True

    def done(self) -> list[Values]:
        """Does what is left of it; what came of each of its lines."""
        lines: Sequence[Line] | None = self.room.register.decisions.get(self.tap.id)
        if lines is None:
            lines = self.begun()
        elif not self.is_out and not self.is_written and self.room.done(part_of(self.tap, 0)) is None:
            # A crash may have come before it was kept.
            self.keep(ruled(self.room, self.values))
        found: list[Values] = []
        for at, line in enumerate(lines):
            with told_what_was_sent(found):
                found.append(self.room.do(line.role, self.name, self.part(at, line)))
            if found[-1]["outcome"] != "taken":
                return found
        if self.is_out and not self.is_written:
            # Somebody may have changed other rows meanwhile.
            row = ruled(self.room, self.values, True)
            self.write(replace(row, text=row.before) if self.is_decided_anew(row) else row)
        return found

    def is_decided_anew(self, row: preview.Ruled) -> bool:
        """Whether a row that is to be taken out is of a decision that was begun later; NotSent if that can't be told."""
        begun = list(self.room.register.decisions.items())
        at = [id for id, _ in begun].index(self.tap.id)
        later = [lines for id, lines in begun[at + 1:] if "/" not in id]
        about = {" ".join(line.text.split()[2:0:-1]) for lines in later for line in lines}
        if row.text == row.before or about & preview.about(row.name):
            return True
        if not all(later):
            raise NotSent(preview.CHANGED)
        return False

    @property
    def is_written(self) -> bool:
        """Whether decisions.txt has come to be as this decision makes it: what it is since then is others'."""
        return written_of(self.tap) in self.room.register.decisions

    def write(self, found: preview.Ruled) -> None:
        preview.keep_decisions(self.room.folder, found)
        self.room.register.decide(written_of(self.tap), ())

    def begun(self) -> Sequence[Line]:
        """The lines of a decision, which are noted, and which is kept from now on. What the office asks of them is
        asked before."""
        found = ruled(self.room, self.values)
        if found.why:
            raise NotSent(found.why[0])
        if [f"{line.role} {line}" for line in found.lines] != self.values.get("lines"):
            raise NotSent(remark("decision-changed"))
        self.check(found)
        session = self.room.session("JURY")
        session.begin(self.tap, self.name)
        session.need_agreed(one for one in asked_of(session, found.lines) if not is_known(one, found.lines))
        self.room.register.decide(self.tap.id, found.lines, found.stays)
        if not self.is_out:
            self.keep(found)
        return found.lines

    def part(self, at: int, line: Line) -> Tap:
        """The tap of one of its lines."""
        part, lines = part_of(self.tap, at, line.text), self.room.register.decisions[self.tap.id]
        known = [one for one in asked_of(self.room.session("JURY"), [line]) if is_known(one, lines)]
        return replace(part, agreed=(*part.agreed, *known))

    def check(self, found: preview.Ruled) -> None:
        """NotSent if decisions.txt is another than the one that was shown, unless it has the decision already."""
        if found.text != found.before and self.values.get("tag") != tag_of(found.before):
            raise NotSent(preview.CHANGED)

    def keep(self, found: preview.Ruled) -> None:
        self.check(found)
        self.write(found)


def is_known(asked: Question, lines: Sequence[Line]) -> bool:
    """Whether a question isn't asked of some lines: not all of what CLEAR takes goes, as others of them give it back."""
    about = [str(asked.values.get(name)) for name in ("race", "sail")]
    return asked.kind == "clear-several" and any(
        line.text.split()[0] in GIVING and line.text.split()[1:3] == about for line in lines)


def written_of(tap: Tap) -> str:
    """What the register has once decisions.txt is as a decision makes it."""
    return f"{tap.id}/written"


def tap_of(values: Mapping[str, Any]) -> Tap:
    try:
        return need_clock(Tap.read({**values, "line": ""}, MOST))
    except NoTap:
        raise Wrong(400, "this isn't a tap") from None


def part_of(tap: Tap, at: int, line: str = "") -> Tap:
    """The tap of one line of a decision."""
    return Tap(part_id(tap.id, at), line, tap.at, agreed=tap.agreed)
