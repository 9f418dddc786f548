"""The session of one role whose answers come with each tap, and whose lines go through the register."""
from __future__ import annotations

import contextlib
import itertools
import os
import time
from collections.abc import Callable, Iterable, Iterator, Sequence

from raceoffice.errors import NotSent, Trouble
from raceoffice.program.journal import Race
from raceoffice.program.link import Link
from raceoffice.program.replay import Line
from raceoffice.remarks import remark
from raceoffice.series.folder import Folder
from raceoffice.series.kept_places import Places, Twin
from raceoffice.series.lost_lines import as_kept
from raceoffice.series.unknown_finishers import Unread
from raceoffice.session.abandon import abandon, is_given_back
from raceoffice.session.dialogue import Question, Said
from raceoffice.session.facts import Facts
from raceoffice.session.finishers import keep_or_send, send_or_place
from raceoffice.session.seat import Done
from raceoffice.session.session import Session
from raceoffice.session.undo import line_if_moved, undo
from raceoffice.terminal import Once
from raceoffice.web.taps import (DROPPED, KEPT_AGAIN, Register, Sent, Tap, correction_of, finisher_of, last_numbers, lines_id,
                                 number_of, part_id)
from raceoffice.wording import count

# How the register has a tap that was undone before it came, and an undo that had nothing to take back.
UNDONE = "UNDO"
# Seconds for which a tap waits, in all, for windows that write places: one may have been stopped. Others wait for the tap.
PLACES = 2.0
# Questions that a tap may answer by no: its boat is just ahead of the place then.
MAY_DENY = ("finished-after", "place-ahead")
# What isn't asked of somebody who taps Undo.
MEANT_BY_UNDO = ("undo", "drop-place", "keep-place-again")


class Asked(Exception):
    """A question that nobody has answered yet, and what was said before it."""

    def __init__(self, question: Question, said: Sequence[Said]) -> None:
        super().__init__(question.text)
        self.question, self.said = question, list(said)


class TapSession(Session):
    """A session whose window is a page: what is asked is answered beforehand, or comes back. `see` gives what
    the office at a link shows now."""

    def __init__(self, folder: Folder, role: str, register: Register, see: Callable[[Link], Facts]) -> None:
        self.register, self.see = register, see
        self.said: list[Said] = []
        self.tap, self.lines, self.mark, self.answer = Tap("", ""), 0, "", ""
        # Who finished just after the one whose place the tap keeps, if somebody is recorded who did; or the place that the
        # boat of the tap is just ahead of.
        self.later = ""
        # Whether a tap may take several lines, each of which has a note of its own.
        self.is_of_several = False
        # Whether the lines of a tap are followed, and whether the journal hasn't been read since one was.
        self.is_following = self.is_behind = False
        # The boats that aren't entered, whose rows in sheets of times were said to be left out.
        self.left_out = Once()
        super().__init__(folder, role, "", self.said.append, self.is_agreed)

    def connect(self, link: Link | None = None) -> None:
        """Links to the office, in the role of this session, perhaps by a link that is there."""
        self.link, self.number = link or self.folder.link(), ""
        try:
            self.link.ask(f"ROLE {self.role}")
        except Trouble:
            self.disconnect()
            raise

    @contextlib.contextmanager
    def in_role(self, role: str) -> Iterator[None]:
        """Sends what follows from a line of this role in the role that sends it. After a fault the next line has a link of
        its own."""
        own = self.role
        if role == own:
            yield
            return
        self.office().ask(f"ROLE {role}")
        self.role = role
        try:
            yield
        except BaseException:
            if not self.unanswered:
                self.disconnect()
            raise
        finally:
            self.role = own
        self.office().ask(f"ROLE {own}")

    def need_alone(self) -> None:
        # If the web dies, its phone may take the line for done.
        self.at_the_line.need_alone()

    def look(self) -> None:
        if not (self.is_following and self.is_own_followed()):
            super().look()

    def look_at_journal(self) -> None:
        self.facts = self.see(self.office())
        self.is_behind = False

    @contextlib.contextmanager
    def following(self) -> Iterator[None]:
        """Each line that is taken inside is about a race, and the office isn't asked what the journal has after it, unless
        somebody else has sent one before it: the journal is read once, after the last line."""
        self.is_following = True
        try:
            yield
        finally:
            self.is_following = False
        if self.is_behind:
            self.look()

    def is_own_followed(self) -> bool:
        """Whether the last line that was sent is known to be the next entry of the journal; it is followed then."""
        sent, journal = self.register.sent[f"{self.tap.id}/{self.lines}"], self.facts.sheet.journal
        # Its number says whether somebody else was first. The first line of a link shows which seat that has.
        if not self.number or sent.entry != len(journal) + 1:
            return False
        own = last_numbers(journal).get(self.number, 0) + 1
        self.facts = self.facts.followed(f"{self.number} {own} {sent.role} {as_kept(sent.line)}")
        self.is_behind = True
        return True

    def is_agreed(self, asked: Question) -> bool:
        """Whether just this was agreed to."""
        if asked.kind == "place-is" or asked.kind in MAY_DENY and asked in self.tap.denied:
            # Who taps a boat doesn't mean a place: that has taps of its own.
            return False
        if asked in self.tap.agreed or self.tap.undoes and asked.kind in MEANT_BY_UNDO:
            return True
        raise Asked(asked, self.said)

    def need_agreed(self, found: Iterable[Question]) -> None:
        """Asks what wasn't agreed to."""
        for asked in found:
            self.is_agreed(asked)

    # A tap

    def begin(self, tap: Tap, name: str) -> None:
        """Begins with a tap of a device."""
        self.tap, self.name, self.lines, self.mark, self.answer, self.at = tap, name, 0, "", "", None
        self.is_of_several, self.later = self.is_abandoning, ""
        self.twins.end = time.monotonic() + PLACES
        self.places = Places(self.folder, name, self.twins.end, tap.id)
        self.said.clear()

    def is_tap_taken(self, line: str) -> bool:
        """Does what a tap asks for, in a line as it may be typed; whether it was taken."""
        first, *rest = line.split() or [""]
        if first == "UNDO":
            return self.undo_tap()
        if self.is_abandoning and len(rest) == 1:
            try:
                return abandon(self, self.facts.race(rest[0]))
            finally:
                self.register.under_way = ""
        if "?" in first:
            return self.is_place_taken(first, rest)
        return send_or_place(self, line, False, self.later)

    def is_place_taken(self, mark: str, rest: Sequence[str]) -> bool:
        """`? 3` keeps a place in race 3; `?1 3 GBR7` or `?1 3 NONE` resolves it."""
        if not rest:
            raise NotSent(remark("race-missing"))
        self.at = self.facts.race(rest[0]).number
        return keep_or_send(self, mark, [word.lower() for word in rest[1:]])

    def undo_tap(self) -> bool:
        """Takes back what another tap has done. One of which nothing came isn't done any more, should it still come."""
        sent = self.register.sent.get(self.tap.undoes)
        if self.tap.undoes and self.is_without_effect(sent):
            if sent is None or not sent.answer:
                self.note_begin(self.tap.undoes, UNDONE)
                self.register.end(self.tap.undoes, "NOTED")
            return True
        self.done = self.done_by(sent)
        self.ask_of_moved(self.done, sent)
        return undo(self)

    def ask_of_moved(self, done: Done, sent: Sent | None) -> None:
        """Asks where a boat or a place comes back if others have been moved past her since."""
        entries = max(0, done.number - 1) or (sent.entries if sent else 0)
        if sent and (line := line_if_moved(self, done, entries)):
            asked = self.question("undo", line=sent.line, by=line)
            if asked not in self.tap.agreed:
                raise Asked(asked, self.said)

    def is_without_effect(self, sent: Sent | None) -> bool:
        """Whether a tap is known to have done nothing. By corrected time a line may be refused, or be without an answer,
        and its sheet be written."""
        if sent is None or sent.line == UNDONE:
            return True
        return not self.folder.settings.handicap and not sent.answer.startswith(("OK ", "NOTED"))

    def done_by(self, sent: Sent | None) -> Done:
        """What a tap has done; NotSent if nothing stands of it."""
        if sent is None:
            raise NotSent(remark("undo-none"))
        first, *rest = sent.line.split()
        if not sent.answer.startswith(("OK ", "NOTED")):
            raise NotSent(remark("undo-nothing"))
        if first == "ABANDON":
            lines = sum(one.answer.startswith("OK ") for one in self.register.parts(sent.id))
            raise NotSent(remark("undo-abandon", race=rest[0], lines=count(lines, "line")))
        number = number_of(sent, self.facts.sheet.journal)
        is_place_gone = sent.place and not self.register.has_place(sent, self.places.read(self.facts.commands))
        if is_place_gone or sent.entry and not number:
            raise NotSent(remark("undo-gone", line=sent.line))
        # An older package's register may not say into which place its boat was put.
        mark = sent.mark or self.history.place_taken(number)
        unread = Unread(mark, self.facts.race(rest[0]).number, frozenset()) if mark else None
        if not sent.entry:
            return Done(unread=unread, what="dropped" if rest[1:] == [DROPPED] else "kept")
        return Done(self.facts.commands[number - 1], number, unread)

    # A race that is abandoned: the register has its lines as those of a correction, so that what a crash has left of them
    # is shown until somebody sends it, or leaves it.

    @property
    def is_abandoning(self) -> bool:
        """Whether this tap takes a race away."""
        return self.tap.line.startswith("ABANDON ")

    def lines_begun(self, race: int) -> tuple[list[str], list[str]]:
        return self.own_lines_begun() if self.is_tap_begun else super().lines_begun(race)

    @property
    def is_tap_begun(self) -> bool:
        """Whether some lines of this tap may have been sent."""
        return bool(self.register.decisions.get(correction_of(lines_id(self.tap.id))))

    def own_lines_begun(self) -> tuple[list[str], list[str]]:
        """The lines of this tap: those that the journal has, and those that are left."""
        key = correction_of(lines_id(self.tap.id))
        self.lines = self.register.count_taken(lines_id(self.tap.id), self.facts.sheet.journal)
        whole = [line.text for line in self.register.corrections[key]]
        return whole[:self.lines], whole[self.lines:]

    def lines_agreed(self, lines: list[str]) -> list[str]:
        sent, left = self.own_lines_begun() if self.is_tap_begun else ([], [])
        # What somebody else has given back isn't given twice.
        is_what_is_left = lines in (left, list(itertools.dropwhile(is_given_back, left)))
        return sent + left if (sent or left) and is_what_is_left else lines

    def note_lines_of_race(self, race: int, lines: list[str]) -> None:
        key = correction_of(lines_id(self.tap.id))
        self.register.under_way = lines_id(self.tap.id)
        taken = self.register.corrections.get(key, [])[:self.lines]
        if lines:
            self.register.decide(key, [*taken, *(Line(self.role, line) for line in lines)])
        elif self.is_tap_begun:
            self.register.decide(key, [])
        super().note_lines_of_race(race, lines)

    # What is noted in the register before it is done

    def sent_now(self, id: str, line: str, mark: str = "") -> Sent:
        """What the register is to have of a line, as the journal is now. `mark` is the place that its boat was kept in."""
        journal = self.facts.sheet.journal
        return Sent(id, self.role, line, self.moment_of(line, mark), self.name, len(journal), os.getpid(), mark=mark,
                    numbers=last_numbers(journal))

    def moment_of(self, line: str, mark: str) -> int:
        """When the boat of a line crossed the line of its race, as far as taps show that, or 0; of another line, when it
        was tapped. A correction, or a boat that is put ahead of another, comes some time after she was seen."""
        finisher = finisher_of(line)
        if finisher is None:
            return self.tap.at
        race, sail = finisher
        if mark:
            return self.register.moments_of_places().get((race, mark), 0)
        command, *words = self.tap.line.split()
        if self.folder.settings.handicap:
            return self.tap.at if command == "FINISH" and sail.endswith(words[-1]) else 0
        journal = self.facts.sheet.journal
        if self.tap.undoes:
            # She is where she was before she was struck.
            return self.register.moments_now(journal).get(finisher, 0)
        if self.role != "FINISH":
            return 0
        if command == "TIE":
            return self.register.moments_now(journal).get((race, line.split()[3]), 0)
        return self.tap.at if command == "FINISH" else 0

    def note_begin(self, id: str, line: str, mark: str = "") -> None:
        """Notes, on the disk, that a line is about to be sent, or something else to be done."""
        self.register.begin(self.sent_now(id, line, mark))

    @property
    def is_begun(self) -> bool:
        """Whether this tap came before, and was begun then."""
        return self.tap.id in self.register.sent

    @property
    def are_lines_noted(self) -> bool:
        """Whether the lines of this tap are noted: what comes before them was done then."""
        return f"{self.tap.id}/0" in self.register.decisions

    def note_lines(self, lines: Sequence[Line]) -> None:
        """Notes the lines of a tap of several, before the first is sent."""
        self.register.decide(f"{self.tap.id}/0", lines)

    def note_back(self, lines: Sequence[str]) -> None:
        """Notes by which lines this tap is undone, before anything is taken away."""
        if lines:
            self.register.decide(f"{self.tap.id}/back", [Line(self.role, line) for line in lines])

    def lines_back(self, id: str) -> list[Line]:
        """The lines that put back what a tap took away."""
        return self.register.decisions.get(f"{id}/back", [])

    def lines_taken(self, sail: str) -> list[str]:
        """The lines of a tap of several that the journal has from an earlier try. The next line is numbered after
        them. The answer is that to the last line of its own boat, if it is about one."""
        taken = []
        while part := self.register.sent.get(f"{self.tap.id}/{self.lines + 1}"):
            if not part.answer and (number := self.register.found(part, self.facts.sheet.journal)):
                self.register.end(part.id, f"OK {number}")
            if not part.answer:
                break
            self.lines += 1
            self.answer = part.answer if sail in ("", part.line.split()[2]) else self.answer
            taken += [as_kept(part.line)] if part.entry else []
        return taken

    @property
    def id_of_line(self) -> str:
        """By what the register has the line that is sent now."""
        if self.is_abandoning:
            return part_id(lines_id(self.tap.id), self.lines - 1)
        # A boat that was overtaken on the way to her place is put there by lines of their own.
        return f"{self.tap.id}/{self.lines}" if self.is_of_several or self.lines > 1 else self.tap.id

    def exchange(self, line: str, unread: Unread | None = None) -> str:
        """The office's answer to a line, which is noted before it is sent."""
        self.lines += 1
        self.mark = unread.mark if unread else self.mark
        id = self.id_of_line
        self.note_begin(id, line, unread.mark if unread else "")
        self.answer = super().exchange(line, unread)
        self.register.end(id, self.answer, self.mark)
        return self.answer

    def keep(self, race: Race, typed: str, twin: Twin = Twin(), later: str = "") -> str:
        self.note_begin(self.tap.id, f"{typed}? {race.number}")
        self.mark = super().keep(race, typed, twin, later or self.later)
        return self.mark

    def drop(self, waiting: list[Unread], why: str) -> None:
        if len(waiting) == 1 and not self.is_abandoning:
            self.mark = waiting[0].mark
            self.note_begin(self.tap.id, f"{self.mark} {waiting[0].race} {DROPPED}", self.mark)
        super().drop(waiting, why)

    def keep_again(self, unread: Unread) -> None:
        if self.done and self.done.what == "dropped":
            # Otherwise a line follows, which has a note of its own.
            self.mark = unread.mark
            self.note_begin(self.tap.id, f"{unread.mark} {unread.race} {KEPT_AGAIN}", unread.mark)
        super().keep_again(unread)
