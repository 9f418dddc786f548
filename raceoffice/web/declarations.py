"""What the scorer declares of the results from a page: how they stand, what is open, and each declaration once."""
from __future__ import annotations

import contextlib
import os
from collections.abc import Callable, Mapping
from typing import Any

from raceoffice.errors import NotSent, Trouble
from raceoffice.program.link import Sheet
from raceoffice.remarks import remark
from raceoffice.results import announce
from raceoffice.results.source import ResultsSource
from raceoffice.series import settings
from raceoffice.series.folder import Folder
from raceoffice.series.last_change import is_changed_since, mark_of, time_of_notice
from raceoffice.series.log import Logged
from raceoffice.session.dialogue import Said
from raceoffice.web.copies_shown import CopiesShown, journal_shown
from raceoffice.web.kept_office import KeptOffice
from raceoffice.web.requests import Wrong
from raceoffice.web.room import Room
from raceoffice.web.states import Values, question_of, remarks_in, said_of
from raceoffice.web.sticks import sticks_shown
from raceoffice.web.taps import NoTap, Sent, Tap, need_clock

# The answer of the register to a declaration.
DECLARED = "DECLARED"


class Unasked(Exception):
    """A declaration that nobody has agreed to yet: what the page asks, with what is open."""

    def __init__(self, values: Values) -> None:
        super().__init__()
        self.values = values


class Declarations:
    """The results of one class, as they are declared. `holding` names the devices that hold taps."""

    def __init__(self, room: Room, office: KeptOffice, holding: Callable[[], list[str]] = list) -> None:
        self.room, self.office, self.folder, self.holding = room, office, room.folder, holding
        self.copies, self.source = CopiesShown(self.folder), ResultsSource(self.folder.path)

    def close(self) -> None:
        self.copies.close()

    # What is shown

    def shown(self) -> Values:
        """How the results stand, what is open before they are final, and the journal with its copies."""
        notice, sheet = settings.read(self.folder.path), self.sheet()
        logged = self.folder.logged()
        since = time_of_notice(logged, notice.state)
        is_open = not self.room.trouble
        return {"state": notice.state, "reason": notice.reason,
                "since": int(since.timestamp() * 1000) if since else 0,
                "is_changed": is_changed_since(logged, notice.state, sheet.table),
                "open": points_of(self.open_points(sheet)),
                "is_open": is_open, "journal": journal_shown(self.folder, is_open, self.office.warned()),
                "copies": self.copies.look(self.office.second_trouble()) | sticks_shown(self.folder)}

    def open_points(self, sheet: Sheet) -> list[announce.Open]:
        """What is open, also on devices that hold taps."""
        held = self.holding()
        return [*announce.open_points(self.folder, sheet, self.room.decisions), *([announce.of_unsent(held)] if held else [])]

    def sheet(self) -> Sheet:
        """Journal and table: those of the open office as they are shown, or else those of journal.txt."""
        if not self.room.trouble:
            return self.room.facts.sheet
        self.source.read_settings()
        return self.source.from_journal()

    # A declaration

    def declare(self, name: str, values: Mapping[str, Any]) -> Values:
        """Declares the results provisional, final or amended, once: the same request again gets the same
        answer. `name` is the device's."""
        tap, state = tap_of(values), values.get("state")
        if state not in settings.STATES:
            raise Wrong(400, "this is no state of results")
        with self.room.lock:
            sent = self.room.register.sent.get(tap.id)
            if sent and self.is_done(sent):
                return {"outcome": "taken", "state": sent.line.lower(), "again": True}
            try:
                self.declare_now(name, tap, str(state), str(values.get("reason", "")))
            except Trouble as trouble:
                raise NotSent(*trouble.said) from None
        self.room.news()
        return {"outcome": "taken", "state": state, "again": False}

    def declare_now(self, name: str, tap: Tap, state: str, given: str) -> None:
        """Declares it, if somebody has agreed to what is open and to the table as it is now."""
        reason = announce.need_reason(state, given)
        if len(reason) > announce.LONGEST:
            raise NotSent(remark("reason-long", most=announce.LONGEST))
        self.look()
        sheet = self.sheet()
        points = self.open_points(sheet) if state != "provisional" else []
        declared = len(notices(self.folder))
        # A yes is one to this table, and to what was declared when it was given.
        asked = announce.asked_of(state, points, mark_of((*sheet.table, str(declared))))
        if asked not in tap.agreed:
            said = [Said(point.text) for point in points]
            raise Unasked({"outcome": "asked", "question": question_of(asked), "said": said_of(said),
                           "open": points_of(points)})
        self.room.register.begin(Sent(tap.id, "SCORER", state.upper(), tap.at, name, declared, os.getpid()))
        announce.announce(self.folder, state, reason, sheet.table, name)
        self.room.register.end(tap.id, DECLARED)

    def look(self) -> None:
        """Sees what the office has now, if it is open."""
        if not self.room.trouble:
            with contextlib.suppress(Trouble):
                self.room.session("SCORER").look()

    def is_done(self, sent: Sent) -> bool:
        """Whether a declaration that was begun was made: the log has it once it was."""
        if sent.line.lower() not in settings.STATES:
            raise Wrong(400, "this was another tap")
        if sent.answer:
            return True
        later = notices(self.folder)[sent.entries:]
        if not any((notice.line, notice.name) == (sent.line.lower(), sent.by) for notice in later):
            return False
        self.room.register.end(sent.id, DECLARED)
        return True


def tap_of(values: Mapping[str, Any]) -> Tap:
    try:
        return need_clock(Tap.read({**values, "line": ""}))
    except NoTap:
        raise Wrong(400, "this isn't a declaration") from None


def notices(folder: Folder) -> list[Logged]:
    """All that was announced so far."""
    return [entry for entry in folder.logged() if entry.line in settings.STATES]


def points_of(points: list[announce.Open]) -> list[Values]:
    """What is open, as a page gets it."""
    return [{"kind": point.kind, "values": point.values, "text": point.text, **remarks_in(point.values)} for point in points]
