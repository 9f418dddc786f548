"""A seat at the office of one class: its link, what it knows of the class, and whom it tells and asks."""
from __future__ import annotations

import contextlib
import dataclasses
import itertools
from collections.abc import Callable, Iterable, Iterator
from dataclasses import dataclass, field
from time import monotonic

from raceoffice.errors import Gone, NotSent, Trouble, said_of
from raceoffice.program.journal import Race
from raceoffice.program.link import Link
from raceoffice.remarks import remark
from raceoffice.series.abandoned import lines_noted, note_lines
from raceoffice.series.at_the_line import AtTheLine
from raceoffice.series.folder import Folder
from raceoffice.series.kept_places import History, Places, Twin
from raceoffice.series.lost_lines import UNANSWERED, as_kept
from raceoffice.series.run_program import settings_in_force
from raceoffice.series.twins import Twins
from raceoffice.series.unknown_finishers import Unread, Waiting
from raceoffice.session.dialogue import NOTE, WARNING, Question, Said
from raceoffice.session.facts import Facts
from raceoffice.session.parse import Reader
from raceoffice.session.question_words import question
from raceoffice.session.said_words import said
from raceoffice.terminal import Once


@dataclass(frozen=True)
class Done:
    """What somebody has done last, and when: a line with its entry, or what became of the place of a
    finisher without a sail (`kept`, `dropped`, `known`). `why` says why it can't be undone."""
    line: str = ""
    number: int = 0
    unread: Unread | None = None
    what: str = ""
    why: str = ""
    time: float = field(default_factory=monotonic)


class Seat:
    """One class, one role. `tell` is told what there is to show; `ask` is asked questions, and answers lines
    of a file by yes."""

    def __init__(self, folder: Folder, role: str, name: str, tell: Callable[[Said], object],
                 ask: Callable[[Question], bool]) -> None:
        self.folder, self.role, self.name, self.tell, self.ask = folder, role, name, tell, ask
        self.facts, self.places = Facts(folder), Places(folder, name or role.lower())
        self.history, self.twins, self.once = History(), Twins(folder), Once()
        self.at_the_line = AtTheLine(folder)
        self.done: Done | None = None
        self.sent: dict[int, str] = {}
        self.at: int | None = None
        self.link: Link | None = None
        # Whether the office was closed for good when it went.
        self.is_closed = False
        # The seat's number is that of its entries in the journal.
        self.prefix = self.number = self.unanswered = ""
        self.answered = False

    # The office

    def connect(self, link: Link | None = None) -> None:
        """Links to the office, in the role of this seat, perhaps by a link that is there."""
        self.link, self.number = link or self.folder.link(), ""
        try:
            self.link.ask(f"ROLE {self.role}")
            # series.ini may have rules that wait.
            self.folder.settings = self.facts.settings = settings_in_force(self.folder)
            self.look()
            self.is_closed = False
        except (Trouble, KeyboardInterrupt):
            self.disconnect()
            raise

    def office(self) -> Link:
        """The link to the office; a Trouble if there is none."""
        if not self.link:
            raise Gone(remark("no-office"))
        return self.link

    def disconnect(self) -> None:
        # Ctrl-C may come at any moment: no link is there that is closed.
        link, self.link = self.link, None
        if link:
            link.close()

    def exchange(self, line: str, unread: Unread | None = None) -> str:
        """The office's answer to a line, which is logged before anything else is done. `unread` is the
        finisher whose place it is for."""
        office = self.office()
        self.unanswered = line
        try:
            answer = office.ask(line)
        except (Trouble, KeyboardInterrupt):
            self.log(line, UNANSWERED)
            raise
        self.unanswered, self.answered = "", True
        words = answer.split()
        if words[0] == "ROLE":
            self.role = words[1]
        if words[0] == "OK":
            self.sent[int(words[1])] = as_kept(line)
        self.log(line, answer)
        return answer

    def log(self, line: str, answer: str) -> None:
        try:
            self.folder.log(self.name, self.number, self.role, line, answer)
        except Trouble as trouble:
            self.say_of("log-fault", WARNING, fault=said_of(trouble))

    # What it knows

    def look(self) -> None:
        """Reads journal, table and places as they are now."""
        self.look_at_journal()
        before = self.unread.all
        self.look_at_places()
        if self.history.found:
            with contextlib.suppress(NotSent):
                self.places.note_found(self.facts.commands)
        for unread in before:
            if (unread.race, unread.mark) in self.history.ended:
                how = self.history.end(unread.race, unread.mark)
                self.say_of("place-ended" if "why" in how else "place-known", **how)
        self.follow_twins()

    @contextlib.contextmanager
    def as_it_is(self) -> Iterator[None]:
        """What is known is as it is now, and no other window or page sends a line meanwhile that places a boat."""
        with self.at_the_line.alone() as is_new:
            if is_new:
                self.look()
            yield

    def need_alone(self) -> None:
        """NotNow if what is sent now may be overtaken, and nobody be there to put it right. A window is there."""

    def look_at_journal(self) -> None:
        """Reads journal and table as they are now."""
        self.facts.read(self.office().sheet())

    def follow_twins(self) -> None:
        """Makes the places of those agree who are kept in other classes, too."""
        if followed := self.twins.follow(self.history, self.places.by):
            for what, values in followed:
                self.say_of(what, **values)
            self.look_at_places()

    def look_at_places(self) -> None:
        """Reads the places that are kept. If that can't be, those stay that were known."""
        try:
            self.history = self.places.read(self.facts.commands)
            wrong, what = "", "places-line"
            values: dict[str, str | int] = {"number": next(iter(self.history.faults), 0)}
        except Trouble as trouble:
            wrong, what, values = str(trouble), "places-unread", {"fault": said_of(trouble)}
        if self.once.is_new("places", wrong or self.history.fault):
            self.say_of(what, WARNING, **values)

    @property
    def unread(self) -> Waiting:
        """The finishers whose sails aren't known."""
        return self.history.waiting

    @property
    def race(self) -> Race:
        """The race of `at`."""
        return self.facts.race(str(self.at))

    @property
    def reader(self) -> Reader:
        """Reads what is typed here."""
        races = {number for number, race in self.facts.series.races.items() if race.is_recorded}
        return Reader(self.facts.boats, self.facts.called, self.at, self.folder.settings.handicap, races)

    # Whom it tells and asks

    def say(self, text: str, kind: str = NOTE) -> None:
        self.tell(Said(text, kind))

    def say_of(self, what: str, kind: str = NOTE, /, **values: str | int | Iterable[str]) -> None:
        """Says what these values come to."""
        self.tell(said(what, kind, self.facts.called, self.prefix, **values))

    def say_all(self, lines: list[str], kind: str = NOTE) -> None:
        for line in lines:
            self.say(line, kind)

    def tell_all(self, said_now: Iterable[Said]) -> None:
        for one in said_now:
            self.tell(one)

    def not_sent(self) -> bool:
        """Says that nothing was sent: then nothing was taken."""
        self.say_of("not-sent")
        return False

    def is_yes(self, asked: Question) -> bool:
        """Whether somebody says yes to a question about this class."""
        return self.ask(dataclasses.replace(asked, prefix=self.prefix))

    def question(self, kind: str, **values: str | int | Iterable[str]) -> Question:
        """A question of a kind about these values."""
        return question(kind, self.facts.called, **values)

    # The places that it keeps

    def keep(self, race: Race, typed: str, twin: Twin = Twin(), later: str = "") -> str:
        """Keeps the place of a finisher at the end of the order as it is now, or just ahead of `later`, who finished after
        her; how she is called. `twin` says in which other classes she is kept."""
        if later:
            ahead = self.history.order(race.number).boats_before(later)
            race = Race(race.number, [[sail] for sail in ahead])
        mark = self.places.keep(race, typed, len(self.facts.sheet.journal), twin, later)
        self.look_at_places()
        self.note_kept(race.number, mark)
        return mark

    def note_kept(self, race: int, mark: str) -> None:
        """Notes what was done last: a place was kept."""
        # What is on the disk may not be readable just then: she is kept all the same.
        kept = next((unread for unread in self.unread.of(race) if unread.mark == mark), None)
        self.done = Done(unread=kept, what="kept", why="" if kept else remark("places-unread"))

    def drop(self, waiting: list[Unread], why: str) -> None:
        """Keeps places no longer."""
        if waiting:
            self.places.drop(waiting, why)
            self.look_at_places()

    def drop_safely(self, waiting: list[Unread], why: str) -> None:
        """Keeps places no longer, after what can't be taken back. If that fails, they stay."""
        try:
            self.drop(waiting, why)
        except NotSent as fault:
            kept = [unread.mark for unread in waiting]
            self.say_of("still-kept", WARNING, fault=said_of(fault), marks=kept)

    def keep_again(self, unread: Unread) -> None:
        """Keeps a place again as it was kept before."""
        self.places.keep_again(unread.race, unread.mark)
        self.look_at_places()

    # A race that is abandoned, of which a crash may leave a part

    def lines_begun(self, race: int) -> tuple[list[str], list[str]]:
        """The lines of a race that was begun to be taken away, here or by somebody else: those that the journal has, and those
        that are left."""
        entries, lines = lines_noted(self.folder, race)
        # Of two lines that are the same, as of a boat that has ZFP twice, one may have been sent: each is looked for behind the last.
        since = map(as_kept, self.facts.commands[entries:])
        sent = list(itertools.takewhile(lambda line: as_kept(line) in since, lines))
        return sent, lines[len(sent):]

    def lines_agreed(self, lines: list[str]) -> list[str]:
        """All lines of an earlier try if somebody has agreed to them, and these are what is left; else these."""
        return lines

    def note_lines_of_race(self, race: int, lines: list[str]) -> None:
        """Notes which lines take a race away before the first is sent; none once all were."""
        note_lines(self.folder, race, len(self.facts.commands), lines)
