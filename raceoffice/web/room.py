"""One class as the web has it: its sessions, what is shown of it, and each tap done once."""
from __future__ import annotations

import contextlib
import copy
import itertools
import os
import re
import secrets
import threading
import time
from collections.abc import Callable, Iterator, Sequence

from raceoffice import system
from raceoffice.errors import Lost, NoSeat, NotNow, NotSent, Served, Trouble, as_trouble
from raceoffice.files import PRIVATE, PRIVATE_MODE, replace_whole, stamp_of, text_if_any
from raceoffice.program.journal import Race
from raceoffice.program.link import Link, Sheet
from raceoffice.program.standing import Standing
from raceoffice.remarks import packed, remark
from raceoffice.results.decisions_now import FILE, DecisionsNow
from raceoffice.results.snapshot import labelled
from raceoffice.series.abandoned import abandonments
from raceoffice.series.folder import Folder
from raceoffice.series.kept_places import History, Places
from raceoffice.series.lost_lines import as_kept
from raceoffice.series.older_copy import taken_out_since
from raceoffice.series.run_program import settings_in_force
from raceoffice.session.facts import Facts
from raceoffice.session.question_words import question
from raceoffice.session.undo import later_entry
from raceoffice.traces import guarded
from raceoffice.web.finish_order import Moments, as_placed, later_in_order, line_in_order, without_place
from raceoffice.web.late_taps import asked_if_abandoned, asked_of_last, asked_of_new_places
from raceoffice.web.preview import NO_ENTRIES, decided_shown
from raceoffice.web.race_start import clock_shown
from raceoffice.web.row_changes import (TAKING, entries_of_starts, finished_since, given_since, is_timed_again, moments_noted,
                                       recorded_again)
from raceoffice.web.sheet_waits import with_reasons
from raceoffice.web.states import (Values, boats_of, moves_of, races_of, rules_of, said_of, standing_of, unlisted)
from raceoffice.web.tap_session import TapSession
from raceoffice.web.taps import DROPPED, PLACED, Register, Sent, Tap, number_of, said_again
from raceoffice.web.timed_taps import TimedTap, is_timed_tap, sheets_shown, with_typed_times
from raceoffice.web.timed_undo import timed_undo

# Seconds between two looks at whether the journal has grown, and between two tries at an office that isn't
# open, or has no seat.
LOOK, AGAIN, LATER = 0.1, 1.0, 5.0
# Seconds that a tap waits for another of its class: a page waits for its answer a little longer.
PATIENCE = 5.0
# Entries of the journal that are shown.
SHOWN = 60
# Hexadecimal digits of what tells a series from another of its name.
IDENTITY = 32
ADDRESS = re.compile("https?://[A-Za-z0-9.:_-]+/")


class Room:
    """A class with its office. `changed` is called when something that is shown is another; `address` is where it
    is served."""

    def __init__(self, folder: Folder, changed: Callable[[], None], address: str = "") -> None:
        self.folder, self.changed = folder, changed
        # One tap at a time, and one look at a time; who needs both takes them in this order.
        self.lock, self.looking = threading.RLock(), threading.RLock()
        folder.make_private()
        folder.settings = settings_in_force(folder)
        self.held = held_alone(folder, address)
        try:
            self.register = Register(folder.file(PRIVATE, "web.taps"))
        except BaseException:
            os.close(self.held)
            raise
        self.sessions: dict[str, TapSession] = {}
        self.reader: Link | None = None
        # Links with a line that the office may still take.
        self.late: list[Link] = []
        self.identity = identity_of(folder)
        self.facts, self.decisions, self.files = Facts(folder), DecisionsNow(folder), self.files_now()
        self.places, self.history = Places(folder), History()
        self.places_seen: object = None
        self.trouble, self.version = "the office isn't open yet", int(time.time() * 1000)
        self.last: Values = {}
        # How often an office was found open: it may have other rules each time.
        self.openings, self.size = 0, -1
        self.is_ending = threading.Event()

    def close(self) -> None:
        """Leaves the class to another web."""
        self.is_ending.set()
        self.leave()
        with self.lock:
            self.register.close()
            os.close(self.held)

    # What is shown

    def see(self, link: Link) -> Facts:
        """What the office shows now. It is asked only if the journal's file, the entry list or decisions.txt is
        another: the journal's file has each entry before that is answered."""
        with self.looking:
            size = self.size_now()
            if size != self.size or self.trouble or self.files != self.files_now():
                sheet = link.sheet()
                self.take(sheet)
                self.size = size
            return self.facts

    def take(self, sheet: Sheet) -> None:
        """Takes over what an office shows; those who wait learn of it if it is new."""
        before, was_open = self.facts, not self.trouble
        self.openings += not was_open
        if self.files != (files := self.files_now()) or not was_open:
            # An office that has come may have other settings, too.
            self.folder.settings = settings_in_force(self.folder)
            self.files, fresh = files, Facts(self.folder)
        elif before.sheet == sheet and was_open:
            return
        else:
            fresh = copy.copy(before)
        fresh.read(sheet)
        self.facts, self.trouble = fresh, ""
        self.register.learn(sheet.journal)
        moves = moves_of(before.standing, fresh.standing, fresh)
        if moves and was_open:
            _, _, role, line = sheet.journal[-1].split(maxsplit=3)
            self.last = {"at": int(time.time() * 1000), "moves": moves, "line": line, "role": role}
        elif moves:
            # No line did that: other rules have, or a boat that was taken out.
            self.last = {}
        self.look_at_places()
        self.news()

    def files_now(self) -> list[object]:
        """What is another whenever the entry list or decisions.txt is."""
        return [stamp_of(self.folder.entries), stamp_of(self.folder.file(FILE))]

    def look_at_places(self) -> bool:
        """Reads the places that are kept; whether they are others. If that can't be, those stay that were
        known."""
        self.places_seen, before = self.places.state(), self.history.waiting
        with contextlib.suppress(Trouble):
            self.history = self.places.read(self.facts.commands)
        return self.history.waiting != before

    def news(self) -> None:
        with self.looking:
            self.version += 1
        self.changed()

    def state(self, is_whole: bool) -> Values:
        """All that a page shows of the class; the finish doesn't need the whole."""
        facts, settings = self.facts, self.folder.settings
        found: Values = {
            "class": self.folder.name, "series": self.identity, "title": settings.title, "group": settings.group,
            "version": self.version, "entries": len(facts.sheet.journal), "trouble": self.trouble,
            "handicap": settings.handicap, "zone": clock_shown(self.folder), "rules": settings.in_words(), "settings": rules_of(settings),
            "boats": boats_of(facts), "races": self.races(facts)}
        # What devices keep of these races from before then is of another sailing.
        found["abandoned"] = {str(race): moment for race, moment in abandonments(self.folder).items()}
        if is_whole:
            labels = self.decisions.look(facts.sheet).labels
            found |= {"standing": standing_of(labelled(facts.standing, labels)), "last": self.last,
                      "unlisted": unlisted(facts), "journal": facts.sheet.journal[-SHOWN:],
                      "unfinished": self.register.unfinished(facts.sheet.journal),
                      "decisions": self.decisions_now(facts)}
        return found

    def decisions_now(self, facts: Facts) -> list[Values]:
        """The decisions of the class, and what each comes to."""
        found, journal = self.decisions.look(facts.sheet), facts.sheet.journal
        return decided_shown(found, journal, self.register.known_in(journal) if found.verdicts else NO_ENTRIES)

    def races(self, facts: Facts) -> Values:
        """The races of which anything is recorded, with their sheets of times if the class has some."""
        sheets = with_reasons(self.folder, sheets_shown(self.folder), facts.boats)
        noted = self.of_this_sailing(moments_noted(self.register, sheets))
        races = races_of(facts, self.history.waiting, self.moments(facts), noted, sheets)
        return {number: values | ({"sheet": sheets[int(number)]} if int(number) in sheets else {})
                for number, values in races.items()}

    def moments(self, facts: Facts) -> Moments:
        """When each finisher crossed the line, and who recorded her, as far as that is known. A boat that was put into a
        place did when that was kept."""
        found = self.of_this_sailing(self.register.moments(facts.sheet.journal))
        for race in {note.race for note in self.history.placed}:
            marks = self.times_of_places(self.history, race)
            for sail, mark in self.history.boats_in_places(race).items():
                end = self.history.ended.get((race, mark))
                if mark in marks and end:
                    found[race, sail] = marks[mark], found.get((race, sail), (0, end.by))[1]
        return found

    def of_this_sailing(self, moments: Moments) -> dict[tuple[int, str], tuple[int, str]]:
        """Those of some moments that are of races as they are sailed now: what was tapped before a race was abandoned is of
        another sailing."""
        abandoned = abandonments(self.folder)
        return {finisher: moment for finisher, moment in moments.items() if moment[0] > abandoned.get(finisher[0], 0)}

    # The office

    def session(self, role: str) -> TapSession:
        """The session of a role, linked to the office; a Trouble if the office isn't open."""
        if self.folder.is_closing():
            raise Trouble(remark("office-closing"))
        if role not in self.sessions:
            self.sessions[role] = TapSession(self.folder, role, self.register, self.see)
        session = self.sessions[role]
        if session.link is None:
            session.connect()
        return session

    def leave(self, why: str = "the office is closed") -> None:
        """Leaves the office, which is closing or has gone."""
        with self.lock, self.looking:
            for session in self.sessions.values():
                if session.link:
                    with contextlib.suppress(Trouble):
                        session.link.ask("QUIT")
                session.disconnect()
            if self.reader:
                self.reader.close()
                self.log("left")
            self.reader = None
            self.set_trouble(why)

    def set_trouble(self, trouble: str) -> None:
        """Tells pages why nothing new is seen of the office."""
        with self.looking:
            if self.trouble != trouble:
                self.trouble = trouble
                self.news()

    def log(self, what: str) -> None:
        """Notes in office.log that the web comes or leaves, as a window does."""
        with contextlib.suppress(Trouble):
            self.folder.log("web", "", "", what, "")

    def watch(self) -> None:
        """Looks again and again whether something was typed elsewhere: one SHOW, however many wait."""
        pause = LOOK
        while not self.is_ending.wait(pause):
            try:
                with guarded(self.folder.path):
                    self.look()
                pause = LOOK
            except Lost as lost:
                self.leave(str(lost))
                pause = LATER if isinstance(lost, NoSeat) else AGAIN
            except Trouble as trouble:
                self.set_trouble(str(trouble))
                pause = AGAIN

    def look(self) -> None:
        """Reads the journal if its file has grown, and the places that windows keep."""
        if self.folder.is_closing():
            raise Lost(remark("office-closing"))
        if self.reader is None:
            self.reader = self.folder.link()
            self.log("came")
        elif heard(self.reader) is not None:
            raise Lost(remark("office-lost"))
        self.see(self.reader)
        if self.places.state() != self.places_seen:
            with self.looking:
                if self.look_at_places():
                    self.news()

    def size_now(self) -> int:
        """How long the journal's file is; it grows before a line is answered."""
        with contextlib.suppress(OSError):
            return os.path.getsize(self.folder.journal)
        return -1

    # A tap

    def do(self, role: str, name: str, tap: Tap, need: Callable[[], None] = lambda: None) -> Values:
        """Does a tap once; what came of it. The same tap again gets the same answer. `need` raises what keeps it from being
        done once it has its turn."""
        if not self.lock.acquire(timeout=PATIENCE):
            raise Trouble(remark("line-before"))
        try:
            need()
            self.register.need_own()
            # While the office is away, the journal that it will have may lack what was answered.
            if not self.trouble and (done := self.done(tap)):
                return done
            self.wait_for_late_answers()
            session = self.session(role)
            session.begin(tap, name)
            try:
                with session.as_it_is():
                    # What the journal has is known by now.
                    return self.done(tap) or self.done_now(session, tap)
            except Lost as lost:
                self.give_up(session, lost)
                raise
            except Trouble as trouble:
                # Nothing is wrong with the office, as with a sheet that can't be read: the tap waits.
                raise NotNow(*trouble.said) from None
        finally:
            self.lock.release()

    def wait_for_late_answers(self) -> None:
        """A Trouble while the office may still take a line whose answer nobody waits for any more. A link
        with its answer or its end is done with: then the journal says what came of the line."""
        for link in list(self.late):
            if heard(link) is not None:
                link.close()
                self.late.remove(link)
        if self.late:
            raise Trouble(remark("line-unanswered"))

    def give_up(self, session: TapSession, lost: Lost) -> None:
        """Leaves an office that doesn't answer, or has gone. Each link uses up one of its sessions."""
        if session.unanswered and session.link and heard(session.link) is None:
            self.late.append(session.link)
            session.link = None
        session.unanswered = ""
        session.disconnect()
        self.leave(str(lost))

    def done(self, tap: Tap) -> Values | None:
        """What came of a tap that was done before; None if it has yet to be. NotSent if the journal has lost it since."""
        sent = self.answered(tap.id)
        if sent and self.is_lost(sent):
            raise NotSent(remark("undo-gone", line=sent.line))
        return outcome_of(sent, True, self.facts.sheet.journal) if sent else None

    def answered(self, id: str) -> Sent | None:
        """A tap that has an answer, or of which the journal or the places say what came of it."""
        sent = self.register.sent.get(id)
        if sent and not sent.answer:
            answer, mark = self.answer_found(sent)
            if not answer:
                return None
            self.register.end(sent.id, answer, mark)
        return sent

    def is_lost(self, sent: Sent) -> bool:
        """Whether the journal of the open office lacks the line of a tap, as after an older journal was put back, and nobody
        has typed it again. That of a boat who was taken out since is meant to be gone."""
        if sent.place and not self.trouble:
            return not self.register.has_place(sent, self.places.read(self.facts.commands))
        if sent.ended_or_again and not self.trouble:
            return is_gone(sent, self.places.read(self.facts.commands))
        line, journal = sent.own.split(maxsplit=3)[3] if sent.own else "", self.facts.sheet.journal
        if self.trouble or not line or sent.own in journal:
            return False
        if any(sent.is_before(entry, at) and entry.split(maxsplit=3)[3] == line for at, entry in enumerate(journal, 1)):
            return False
        command, *rest = line.split()
        # A line that placed a boat by another went with either.
        sails = rest[:1] if command == "ENTER" else rest[1:3] if command in ("TIE", "BEFORE") else rest[1:2]
        since = itertools.takewhile(lambda entry: as_kept(entry.line) != line, reversed(self.folder.logged()))
        return not {f"removed {sail}" for sail in sails}.intersection(entry.line for entry in since)

    def settle(self) -> None:
        """Notes what came of each tap that was begun and never ended, as the journal has it now."""
        with self.lock:
            self.register.learn(self.facts.sheet.journal)
            for sent in [one for one in self.register.all() if not one.answer and one.line.split()]:
                self.answered(sent.id)

    def answer_found(self, sent: Sent) -> tuple[str, str]:
        """The answer to something that was begun and never ended, by the journal or by the places that are
        kept; and the place that it is about. Empty if nothing came of it."""
        first, *rest = sent.line.split()
        if "/" not in sent.id and self.is_for_sheet(sent.id, sent.line, sent.role):
            # It may take several lines, each of which has a note of its own: what is left of them is still to be done.
            return "", ""
        if "?" not in first:
            entry = self.register.found(sent, self.facts.sheet.journal)
            return (f"OK {entry}" if entry else "", "")
        race = self.facts.race(rest[0]).number
        history = self.places.read(self.facts.commands)
        if sent.id in history.taps:
            return "NOTED", history.taps[sent.id].place
        if rest[1:]:
            ended = history.ended.get((race, first))
            is_dropped = ended is not None and ended.what == "dropped"
            return ("NOTED", first) if is_dropped == (rest[1:] == [DROPPED]) else ("", "")
        claimed = self.register.marks_of(race, sent.window)
        kept = [note.place for note in history.kept.values()
                if (note.race, note.window) == (race, sent.window) and note.place not in claimed and not note.tap]
        return ("NOTED", kept[-1]) if kept else ("", "")

    def done_now(self, session: TapSession, tap: Tap) -> Values:
        """Does a tap; what came of it."""
        if tap.undoes:
            # What came of that one is known before it is undone.
            self.answered(tap.undoes)
        line, before, last = self.line_of(session, tap), self.facts.standing, self.last
        is_timed = self.is_for_sheet(tap.id, line, session.role)
        is_taken = TimedTap(session, line).is_taken() if is_timed else session.is_tap_taken(line)
        sent = self.register.sent.get(tap.id)
        if sent is None:
            # No line was needed, as for a race of which nothing is recorded.
            session.note_begin(tap.id, tap.line)
            sent = self.register.sent[tap.id]
        said = [[one.text, one.kind, one.what, {name: packed(value) for name, value in one.values.items()}]
                for one in session.said]
        answer = sent.answer or (session.answer if is_timed else "") or ("NOTED" if is_taken else "NO")
        # Whoever looked at the journal before the answer was noted hasn't learnt whose its last entries are.
        self.register.learn(self.facts.sheet.journal)
        if is_timed:
            # It has the entry of the line that was answered so.
            sent.own = next((part.own for part in self.register.parts(sent.id) if part.answer == answer), "")
        self.register.end(sent.id, answer, session.mark, said)
        with self.looking:
            self.look_at_places()
            if session.is_of_several:
                self.last = self.change_of(before, sent.line, session.role) or last
        self.news()
        return outcome_of(sent, False, self.facts.sheet.journal)

    @contextlib.contextmanager
    def one_change(self) -> Iterator[None]:
        """What is sent inside, as the lines of a correction or a decision, is shown as one change."""
        before, last, count = self.facts.standing, self.last, len(self.facts.sheet.journal)
        try:
            yield
        finally:
            with self.looking:
                journal = self.facts.sheet.journal
                if len(journal) > count + 1:
                    _, _, role, line = journal[-1].split(maxsplit=3)
                    self.last = self.change_of(before, line, role) or last

    def change_of(self, before: Standing, line: str, role: str) -> Values:
        """Whom a tap of several lines has moved in all, as each of them alone has moved others; empty if nobody."""
        moves = moves_of(before, self.facts.standing, self.facts)
        return {"at": int(time.time() * 1000), "moves": moves, "line": line, "role": role} if moves else {}

    def line_of(self, session: TapSession, tap: Tap) -> str:
        """The line of a tap, of which it is clear that it is meant, and where a finisher belongs."""
        first, *rest = tap.line.split() or [""]
        session.need_agreed(asked_if_abandoned(session, tap.line))
        if tap.undoes and self.folder.settings.handicap and (line := self.line_of_undo(session, tap)):
            # Only the register has what goes back into the sheet, whatever line the page has for it.
            return line
        if first == "START":
            if not self.folder.settings.handicap or not 1 <= len(rest) <= 2:
                raise NotSent(remark("start-form"))
            return tap.line
        if first == "TIMES":
            if not self.folder.settings.handicap or len(rest) != 1:
                raise NotSent(remark("times-form"))
            return tap.line
        self.check_undo(session, tap)
        if first.endswith("?") and len(rest) == 1 and tap.behind is not None:
            session.later = self.later_of_place(session, tap, rest[0])
        if "?" in first or first in ("UNDO", "ABANDON"):
            return tap.line
        if tap.undoes and not self.is_undoable(tap):
            raise NotSent(remark("undo-nothing"))
        if tap.undoes and self.register.sent[tap.undoes].line.startswith("STRIKE "):
            # Only the office knows where she was among the places that are kept.
            return "UNDO"
        plain, session.later = without_place(tap.line)
        if session.later:
            session.unread.one(session.facts.race(plain.split()[1]).number, session.later)
        typed, times = with_typed_times(self.folder, plain)
        line = session.line(typed)
        if self.is_for_sheet(tap.id, line, session.role):
            if line.split()[0] in TAKING and not session.is_begun:
                self.ask_again(session, tap, line)
            return f"{line} {times}".rstrip()
        if line.startswith("FINISH "):
            line, session.later = self.where_finished(session, tap, line)
        self.ask_again(session, tap, line)
        if line.startswith(("BEFORE ", "TIE ")) and not session.later:
            line, session.later = self.beside_new_places(session, line)
        return line

    def where_finished(self, session: TapSession, tap: Tap, line: str) -> tuple[str, str]:
        """The line that puts a finisher where she belongs, and the place that she is just ahead of, if she is of one."""
        order = self.order_with_places(session, session.facts.race(line.split()[1]))
        if session.role != "FINISH":
            # The clock says when somebody wrote it, and not when she finished.
            session.need_agreed(asked_of_last(session, line, order))
            return line, ""
        own = self.register.places_by(session.name, order.number)
        return line_in_order(session.facts, self.times_in(session, order), own, tap, line, order)

    def beside_new_places(self, session: TapSession, line: str) -> tuple[str, str]:
        """The line of a boat that is put ahead of another, or level with her, and the place that she is just ahead of: she is
        of one if somebody has said that she didn't finish after it."""
        _, number, sail, other, *_ = [*line.split(), ""]
        for asked in asked_of_new_places(session, line, self.order_with_places(session, session.facts.race(number))):
            if not session.is_agreed(asked):
                return f"BEFORE {number} {sail} {other}", str(asked.values["mark"])
        return line, ""

    def later_of_place(self, session: TapSession, tap: Tap, number: str) -> str:
        """Who finished after the one whose place a tap keeps; empty if nobody who is recorded did."""
        order = self.order_with_places(session, session.facts.race(number))
        return later_in_order(session.facts, self.times_in(session, order), tap, order)

    def order_with_places(self, session: TapSession, race: Race) -> Race:
        """The order of a race with the places that are kept."""
        return Race(race.number, session.history.order(race.number).standing(session.unread.marks(race.number)))

    def times_in(self, session: TapSession, order: Race) -> dict[str, int]:
        """When each boat and each place of an order crossed the line, as far as that is known. A boat that was put into a
        place did when that was kept. The device's own places are ahead of what it taps later, wherever they were put."""
        moments, history, race = self.register.moments_now(self.facts.sheet.journal), session.history, order.number
        marks = self.times_of_places(history, race)
        boats = {sail: at for (of, sail), at in moments.items() if of == race}
        placed = {sail: mark for sail, mark in history.boats_in_places(race).items() if mark in marks}
        in_places = marks | {sail: marks[mark] for sail, mark in placed.items()}
        own = self.register.places_by(session.name, race)
        return as_placed(order.order, boats | in_places) | {
            name: at for name, at in in_places.items() if placed.get(name, name) in own}

    def times_of_places(self, history: History, race: int) -> dict[str, int]:
        """When each place of a race was kept, by a tap or in a window."""
        tapped = {mark: at for (of, mark), at in self.register.moments_of_places().items() if of == race}
        return history.moments(race) | tapped

    def line_of_undo(self, session: TapSession, tap: Tap) -> str:
        """The line that undoes a tap for a sheet of times; empty if it was none for one."""
        sent = self.register.sent.get(tap.undoes)
        return timed_undo(session, sent) if sent and self.is_for_sheet(sent.id, sent.line, sent.role) else ""

    def is_for_sheet(self, id: str, line: str, role: str) -> bool:
        """Whether a tap is one for a sheet of times. A decision's lines are the office's alone: so it takes nothing out of a
        sheet, and all that it took away can be given back."""
        return is_timed_tap(self.folder, line, role) and not self.register.is_of_decision(id)

    def check_undo(self, session: TapSession, tap: Tap) -> None:
        """Keeps an undo from taking back what somebody else has done: NotSent if they have changed the boat's place, or
        code, since. If another device has tapped the same finisher, it is asked."""
        sent, journal = self.register.sent.get(tap.undoes), session.facts.sheet.journal
        number = number_of(sent, journal) if sent and sent.entry else 0
        if not sent or not number:
            return
        if later := later_entry(session.facts, number, self.register.entries_by(sent.by, journal)):
            raise NotSent(later)
        if by := self.register.who_tapped_too(sent):
            sail = sent.line.split()[2]
            session.is_agreed(question("tapped-too", session.facts.called, sail=sail, by=by))

    def is_undoable(self, tap: Tap) -> bool:
        """Whether a tap that is to be undone has put an entry into the journal, or kept a place."""
        sent = self.register.sent.get(tap.undoes)
        return sent is not None and sent.answer.startswith(("OK ", "NOTED"))

    def ask_again(self, session: TapSession, tap: Tap, line: str) -> None:
        """Asks if the journal has this very line since the tap: somebody else may have sent it. So it is if somebody else has
        struck its boat since, and recorded her again, or has given her what the line takes away, or has seen her finish, and
        the line says that she didn't: she isn't as the device showed her."""
        race, words = session.facts.race_of(line), line.split()
        if tap.undoes or not tap.seen:
            return
        if words[0] in PLACED and race and race.is_in_order(words[2]):
            # The office refuses it (8).
            return
        commands, wanted, journal = session.facts.commands, as_kept(line), session.facts.sheet.journal
        own = self.register.entries_by(session.name, journal) | entries_of_starts(self.register)
        # Once a boat was taken out, nobody knows which entries the device showed.
        seen = 0 if tap.at and taken_out_since(self.folder.logged(), tap.at / 1000) else tap.seen
        others = [at for at in range(seen + 1, len(journal) + 1) if journal[at - 1] not in own]
        # A finisher whose tap was undone may be tapped again on the same device, and a sheet's finish struck again.
        is_own_meant = words[0] in PLACED or self.folder.settings.handicap
        later = [at for at in (others if is_own_meant else range(seen + 1, len(journal) + 1))
                 if commands[at - 1] == wanted and not is_timed_again(commands[at - 1:])]
        if later:
            session.is_agreed(question("sent-already", session.facts.called, line=line, entry=later[-1]))
        since = [commands[at - 1] for at in others]
        changed = (find(session, line, since) for find in (recorded_again, given_since, finished_since))
        if words[0] in TAKING and (other := next(filter(None, changed), "")):
            session.is_agreed(question("other-since", session.facts.called, line=line, other=other))


def held_alone(folder: Folder, address: str = "") -> int:
    """The file that says that a web serves this class, and where. Two would not know of each other's taps."""
    path = folder.file(PRIVATE, "web.lock")
    with as_trouble("file-unused", name=path):
        file = os.open(path, os.O_RDWR | os.O_CREAT | system.NO_LINK, PRIVATE_MODE)
    if not system.take_lock(file):
        os.close(file)
        other = text_if_any(path, 200)
        raise Served(remark("served-at", name=folder.path, address=other) if ADDRESS.fullmatch(other) else
                     remark("served-already", name=folder.path))
    # On a full disk nobody learns where it is served.
    with contextlib.suppress(OSError):
        os.ftruncate(file, 0)
        os.pwrite(file, address.encode(), 0)
    return file


def is_gone(sent: Sent, history: History) -> bool:
    """Whether the notes lack that a tap ended a place, or kept it again, and it isn't so by another: an older office/places
    may have been put back."""
    key = sent.ended_or_again
    ended = history.ended.get(key) if key else None
    is_dropped = ended is not None and ended.what == "dropped"
    is_as_said = is_dropped if sent.line.endswith(DROPPED) else key in history.kept and not is_dropped
    return sent.id not in history.taps and not is_as_said


def heard(link: Link) -> bytes | None:
    """What comes from an office just now; nothing at the end of the link, None if the office says nothing."""
    try:
        link.socket.setblocking(False)
        return link.socket.recv(65536)
    except BlockingIOError:
        return None
    except OSError:
        return b""
    finally:
        with contextlib.suppress(OSError):
            link.socket.settimeout(link.patience)


def outcome_of(sent: Sent, is_again: bool, journal: Sequence[str] = ()) -> Values:
    """What came of a tap, for its device. Its entry has another number once a boat was taken out before it."""
    first = sent.answer.split()[0]
    outcome = {"NO": "refused", "NOTED": "noted"}.get(first, "taken")
    said = [said_again(one) for one in sent.said]
    entry = number_of(sent, journal) if sent.own and journal else sent.entry
    return {"outcome": outcome, "answer": sent.answer, "line": sent.line, "entry": entry,
            "mark": sent.mark, "said": said_of(said), "again": is_again}


def identity_of(folder: Folder) -> str:
    """What tells a series from another that has its name, as next week's cup: made once, and kept with the folder, also
    with a copy of it. Empty if there is no room for it."""
    path = folder.file(PRIVATE, "series")
    found = text_if_any(path, IDENTITY).strip()
    if not re.fullmatch(f"[0-9a-f]{{{IDENTITY}}}", found):
        found = secrets.token_hex(IDENTITY // 2)
        try:
            replace_whole(path, found.encode())
        except Trouble:
            return ""
    return found
