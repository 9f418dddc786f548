"""The window of somebody who types, for one class or several."""
from __future__ import annotations

import contextlib
import dataclasses
import functools
import os
import secrets
import select
import signal
import sys
import time
import traceback
from collections.abc import Sequence
from types import FrameType

from raceoffice import system
from raceoffice.errors import Fault, Gone, NoSeat, NotSent, Trouble
from raceoffice.program.journal import Series
from raceoffice.series.folder import Folder
from raceoffice.series.kept_places import Twin, command_of
from raceoffice.series.lost_lines import as_kept
from raceoffice.series.unknown_finishers import marks_by_race
from raceoffice.series.windows import BOARD, TYPING, Presence, open_windows
from raceoffice.session.dialogue import Question, Said
from raceoffice.session.parse import COMMANDS, FIRST
from raceoffice.session.session import Session
from raceoffice.side_by_side import SideBySide
from raceoffice.terminal import question, say, sentence, visible
from raceoffice.traces import guarded
from raceoffice.typing_window.classes import ClassUnclear, choosing, session_meant, greeting
from raceoffice.typing_window.lines_back import lines_back, taken_out
from raceoffice.typing_window.watcher import AGAIN, LOOK, News, Watcher
from raceoffice.wording import count, joined


class End(Exception):
    """Why this window ends, in words."""


class Window:
    """A prompt, and a session for each class."""

    def __init__(self, folders: list[Folder], role: str, name: str) -> None:
        self.sessions = [Session(folder, role, name, show, self.ask) for folder in folders]
        self.watcher = Watcher(self.sessions)
        # The line that is being done, and whether anything is, so that Ctrl-C is heard.
        self.under_way, self.is_doing = "", False
        self.present: list[Presence] = []
        # The boats that had been taken out when an office was linked to, and the journal when it went, until it is said what
        # became of it.
        self.taken_out: dict[Session, list[str]] = {}
        self.known: dict[Session, Sequence[str]] = {}
        self.beside = SideBySide[str]()

    @property
    def several(self) -> bool:
        return len(self.sessions) > 1

    def run(self) -> int:
        """Is the window until somebody leaves it; the status."""
        try:
            self.come()
            self.watcher.start()
            self.stay()
        except End as why:
            say(str(why))
        self.leave()
        return 0

    def stay(self) -> None:
        """Does lines until somebody leaves. Ctrl-C ends no window, whatever it comes upon: news, too, and what is said of the
        Ctrl-C before."""
        before = signal.getsignal(signal.SIGINT)
        if before is signal.default_int_handler:
            signal.signal(signal.SIGINT, self.hear)
        try:
            self.go_on()
        finally:
            signal.signal(signal.SIGINT, before)

    def hear(self, _: int, frame: FrameType | None) -> None:
        """Interrupts what is being done. Between two lines there is nothing, and what was interrupted isn't again while that is
        answered: nothing would catch that. Nobody would hear it as a line begins."""
        is_beginning = any(one.f_code is Watcher.begin.__code__ for one, _ in traceback.walk_stack(frame))
        if self.is_doing and not is_beginning:
            self.is_doing = False
            raise KeyboardInterrupt

    def go_on(self) -> None:
        """Does line after line until somebody leaves."""
        is_going_on, is_interrupted = True, False
        while is_going_on:
            try:
                self.is_doing = True
                if is_interrupted:
                    is_interrupted = False
                    self.say_interrupted()
                is_going_on = self.is_going_on()
                self.is_doing = False
            except KeyboardInterrupt:
                is_interrupted = True

    def say_interrupted(self) -> None:
        """Says what Ctrl-C may have cost, once."""
        if self.under_way:
            say(f"   Interrupted. Look whether this line is in the journal, or a place kept: {self.under_way}")
            self.under_way = ""
        say("   Type quit to leave.")
        if any(session.link and session in self.known for session in self.sessions):
            self.take_news_safely()
        self.say_kept()

    def come(self) -> None:
        """Links to the offices. Of several classes those that aren't open don't hold up the others."""
        for session in self.sessions:
            self.come_to(session)
        session = self.sessions[0]
        say(greeting(self.sessions) if self.several else
            f"{session.folder.settings.title}: you type as the {session.role.lower()}. "
            "help lists your lines.")
        self.say_warnings()
        self.say_kept()

    def come_to(self, session: Session) -> None:
        """Links to an office, and notes it in the log."""
        if not self.several:
            self.wait_for(session)
        else:
            try:
                session.connect()
            except Trouble as trouble:
                say(f"Beware: {trouble}, that of {session.folder.name}. The others go on.")
        self.taken_out[session] = taken_out(session.folder)
        self.log(session, "came")
        self.present.append(Presence(session.folder, TYPING, session.name or session.role.lower()))

    def say_kept(self, sessions: list[Session] | None = None) -> None:
        """Says who is without a sail."""
        for session in sessions or self.sessions:
            session.look_at_places()
            if session.unread.all and session.role != "JURY":
                say(f"Kept without a sail{self.of(session)}: {marks_by_race(session.unread.all)}.")

    def leave(self) -> None:
        """Leaves all offices."""
        for presence in self.present:
            presence.close()
        for session in self.sessions:
            self.log(session, "left")
            if session.link:
                with contextlib.suppress(Trouble):
                    session.link.ask("QUIT")
                session.disconnect()

    def log(self, session: Session, what: str) -> None:
        with contextlib.suppress(Trouble):
            session.folder.log(session.name, "", session.role, what, "")

    # A line

    def prompt(self) -> str:
        races = [str(session.at or "") for session in self.sessions]
        if self.several:
            races = [f"{session.folder.name} {race}".strip() for session, race in zip(self.sessions, races)]
        return ", ".join(races) + "> "

    def is_going_on(self) -> bool:
        """Asks for a line and does it; whether there may be more."""
        try:
            typed = self.watcher.ask(self.prompt())
            if typed.strip().lower() in ("quit", "exit"):
                self.say_kept()
                return False
            self.do_all(typed.splitlines())
        except EOFError:
            say("")
            self.say_kept()
            return False
        except News:
            say("")
            self.take_news_safely()
        return True

    def take_news_safely(self) -> None:
        """Takes the news, and goes on after a fault of the window itself."""
        try:
            with guarded(self.sessions[0].folder.path, End):
                self.take_news()
        except Fault as fault:
            say(f"   Beware: {sentence(fault)}")

    def do_all(self, lines: list[str]) -> None:
        """Does what was typed. Pasted lines stop at the first that is refused or isn't sent."""
        if len(lines) > 1 and not self.is_agreed(lines):
            say("   Not sent.")
            return
        for at, line in enumerate(lines, 1):
            if why := self.refused(line):
                not_sent(lines[at:], why)
                self.drop_typed(why)
                return

    def refused(self, line: str) -> str:
        """Does a line; why the lines after it can't be sent, or nothing."""
        try:
            self.under_way = line.strip()
            with guarded(self.sessions[0].folder.path, End, NotSent):
                is_for_all = self.several and line.lower().split()[:1] == ["role"]
                why = self.do_everywhere(line) if is_for_all else self.do_where_meant(line)
            self.under_way = ""
            return why
        except Fault as fault:
            say(f"   Beware: {sentence(fault)} Look whether this line is in the journal: {line}")
            self.under_way = ""
            return "since this window has a fault"
        except NotSent as not_done:
            say(f"   Not sent: {sentence(not_done)}")
            self.under_way = ""
            return "since the line before it wasn't"

    def do_everywhere(self, line: str) -> str:
        """Gives a line to all classes that are there: a role is that of the whole window, also in a class that comes back."""
        if not (there := [session for session in self.sessions if session.link]):
            raise NotSent("all offices have gone")
        why = "".join([self.do(session, line) for session in there])
        role = next((session.role for session in there if session.link), there[0].role)
        for session in self.sessions:
            if session.link is None:
                session.role = role
        return why

    def do_where_meant(self, line: str) -> str:
        """Gives a line to the class that it is for. Who may be in several keeps her place in each."""
        if self.several:
            self.look_at_journals()
        try:
            return self.do(*session_meant(self.sessions, line))
        except ClassUnclear as why:
            if not why.sessions:
                raise
            return self.keep_in_each(why)

    def look_at_journals(self) -> None:
        """Reads the journal of each class that is there: a boat that was entered since may have the number that is typed."""
        for session in self.sessions:
            if session.link:
                try:
                    session.look_at_journal()
                except Trouble as trouble:
                    self.lost(session, trouble)

    def keep_in_each(self, unclear: ClassUnclear) -> str:
        """Keeps a place in each class to which she may belong, also in one whose office is away. Once she is known in one,
        it is dropped in the others."""
        say(f"   {sentence(unclear.what[:1].upper() + unclear.what[1:])}")
        why, finisher = "", secrets.token_hex(8)
        # If the last office goes meanwhile, the window ends: she is kept by then in those that are away.
        with system.stops_deferred():
            for session in sorted(unclear.sessions, key=lambda one: one.link is not None):
                others = [os.path.relpath(other.folder.path, session.folder.path) for other in unclear.sessions
                          if other is not session]
                why = self.keep_in(session, unclear.sail, Twin(finisher, tuple(others)) if others else Twin()) or why
        for session in self.sessions:
            if session.at is not None and session not in unclear.sessions:
                say(f"   {session.folder.name}: {not_kept(session)}")
        return why

    def keep_in(self, session: Session, sail: str, twin: Twin) -> str:
        """Keeps a place in one class, and says if that can't be; why the lines after it can't be sent, or nothing."""
        session.prefix, gone, why = f"{session.folder.name}: ", None, ""
        try:
            try:
                session.keep_crossed(sail, twin)
            except Trouble as trouble:
                gone = trouble
                self.keep_while_away(session, sail, twin)
            self.follow(session)
        except NotSent as fault:
            say(f"   {session.prefix}she isn't kept there: {sentence(fault)}")
            why = f"since she isn't kept in {session.folder.name}"
        if gone and session.link:
            self.lost(session, gone)
        return why

    def keep_while_away(self, session: Session, sail: str, twin: Twin) -> None:
        """Keeps a place in a class whose office is away. If the folder hangs, the others go on."""
        name = session.folder.path
        try:
            found = self.beside.answers({name: functools.partial(kept_by_files, session, sail, twin)})
        except Trouble as trouble:
            raise NotSent(f"{trouble}. Write her down") from None
        if name not in found:
            raise NotSent("its folder doesn't answer. Write her down, and look whether she is kept once it does")
        session.take_over_kept(found[name])

    def follow(self, session: Session) -> None:
        """Has the other classes look at their places if this one has changed any of them."""
        for other in self.sessions:
            if other.folder.path in session.twins.changed:
                other.look_at_places()
        session.twins.changed.clear()

    def do(self, session: Session, line: str) -> str:
        """Gives a line to the session that it is for; why the lines after it can't be sent, or nothing."""
        session.prefix = f"{session.folder.name}: " if self.several else ""
        if session.link is None:
            raise NotSent(f"the office of {session.folder.name} has gone. Write {line.upper()} down")
        try:
            session.facts.read_names()
            outcome = session.do(line)
            self.follow(session)
            if self.several and line.strip().lower() == "help":
                say(choosing(self.sessions))
            return "" if outcome.is_taken else "since the line before it wasn't taken"
        except Trouble as trouble:
            if not session.unanswered and not session.answered:
                say(f"Not sent: {line}")
            self.lost(session, trouble)
            return "since the office was away"

    def ask(self, asked: Question) -> bool:
        """Whether somebody says yes. What was typed before the question is no answer to it."""
        return self.is_yes(f"   {asked.prefix}{asked.text}")

    def is_yes(self, text: str) -> bool:
        """The same of a text. Ctrl-C is a no, and the next one interrupts what follows."""
        self.drop_typed("since a question came before it")
        is_meant = is_yes(text)
        self.is_doing = True
        return is_meant

    def is_agreed(self, lines: list[str]) -> bool:
        """Whether somebody agrees to a pasted list of bare sails, which are shown by their names."""
        session = self.sessions[0]
        words = [line.upper().split()[:1] for line in lines]
        of_lines = FIRST - COMMANDS.keys()
        if self.several or not session.at or any(word and word[0] in of_lines for word in words):
            return True
        try:
            # In a list nothing is asked line by line.
            meant = [session.reader.line(line, lambda _: False) for line in lines if line.strip()]
        except NotSent as why:
            say(f"   {sentence(why)}")
            return False
        for at, line in enumerate(meant, 1):
            _, _, sail, *last = line.split()
            say(f"{at:>6}  {session.facts.called(sail)}{''.join(f'   {word}' for word in last)}")
        are_finishes = all(line.startswith("FINISH ") for line in meant)
        what = count(len(meant), "finish", "finishes") if are_finishes else count(len(meant), "line")
        return self.is_yes(f"   Send these {what} in race {session.at}?")

    # When an office goes

    def take_news(self) -> None:
        """Says what came of the offices while nobody had sent a line."""
        self.say_warnings()
        if self.watcher.is_closing():
            self.close_one()
        for session in self.sessions:
            if session.link is None:
                self.try_again(session)
            elif select.select([session.link], [], [], 0)[0]:
                self.lost(session, session.link.heard())
            elif session in self.known:
                # Ctrl-C came before all was said.
                self.say_back(session)

    def say_warnings(self) -> None:
        """Says what the offices' windows say is wrong, once."""
        for session, text in self.watcher.warnings().items():
            if text and self.watcher.told.get(session) != text:
                say(f"Beware: the office's window{self.of(session)} says: {text}\n"
                    "Write on paper, and ask there before you go on.")
                self.watcher.told[session] = text

    def of(self, session: Session) -> str:
        """Which office is meant, if there are several."""
        return f" of {session.folder.name}" if self.several else ""

    def close_one(self) -> None:
        """Leaves the offices that are being closed; the window ends with the last."""
        for session in self.sessions:
            if session.link and session.folder.is_closing():
                again = ", and opened again at once" if session.folder.is_coming_back() else ""
                self.lost(session, Trouble(f"the office is being closed{again}"))

    def try_again(self, session: Session) -> None:
        """Uses an office that has come back, once it has answered the watcher: the window waits for none that hangs."""
        link = self.watcher.reached.pop(session, None)
        if link is None:
            return
        try:
            session.connect(link)
        except Trouble:
            self.watcher.wait()
        else:
            self.say_back(session)

    def lost(self, session: Session, trouble: Trouble) -> None:
        """An office has gone. With one class this waits for it; the others go on without."""
        if session.unanswered:
            say(f"No answer came to: {session.unanswered}\nIt may be in the journal, or not.")
        session.disconnect()
        self.known[session] = session.facts.sheet.journal
        session.is_closed = session.folder.is_closing_for_good()
        if all(other.is_closed for other in self.sessions):
            raise End("The office is being closed: this window ends.")
        if self.several:
            say(f"Beware: {trouble}, that of {session.folder.name}. The others go on.")
            return
        say(f"Beware: {trouble}. Waiting for the office; Ctrl-C ends this window.")
        self.wait_for(session, told=True)
        self.drop_typed("since the office was away")
        self.say_back(session)

    def wait_for(self, session: Session, told: bool = False) -> None:
        """Links to an office, for which it waits until Ctrl-C."""
        self.is_doing = True
        try:
            while trouble := self.trouble_of(session):
                if not told:
                    say(f"Waiting: {trouble}{remedy(session, trouble)}. Ctrl-C ends this window.")
                told = True
                wait(AGAIN if isinstance(trouble, NoSeat) else LOOK)
        except KeyboardInterrupt:
            raise End("") from None

    def trouble_of(self, session: Session) -> Trouble | None:
        """Links to an office; why that can't be, or None."""
        if session.folder.is_coming_back():
            return Trouble("the office is being closed, and opened again at once")
        try:
            session.connect()
        except Trouble as trouble:
            return trouble
        return None

    def say_back(self, session: Session) -> None:
        """Says which of this window's lines the office has after a crash, or after a boat was taken out."""
        journal, line = session.facts.commands, session.unanswered
        before, now = self.taken_out[session], taken_out(session.folder)
        back = lines_back(session.sent, self.known.get(session, ()), journal, now[len(before):])
        say(f"The office{self.of(session)} is back with {count(len(journal), 'entry', 'entries')}.")
        if back.sails:
            say(f"{joined(back.sails)} was taken out meanwhile, with all lines about her: don't type these again. "
                "Later entries have lower numbers.")
        if back.lost:
            say("These lines of yours are lost. The office's window lists those of all windows: type "
                "them again in that order.")
            say("\n".join(f"   {at:>5}  {sent}" for at, sent in sorted(back.lost.items())))
        elif back.sent:
            at = max(back.sent)
            say(f"Your last line, {back.sent[at]}, is entry {at} now." if back.sails else
                f"Your last line, OK {at} {back.sent[at]}, is among them.")
        if line and not back.is_taken_out(line):
            later = journal[max(back.numbers.values(), default=0):]
            say(f"{line} is {'in the journal' if as_kept(line) in later else 'not in the journal'}.")
        # If Ctrl-C comes before all is said, it is said again.
        with system.stops_deferred():
            session.sent, session.unanswered, self.taken_out[session] = back.sent, "", now
            if session.done:
                number = session.done.number
                session.done = dataclasses.replace(session.done, number=back.numbers.get(number, number))
            self.known.pop(session, None)
        self.say_kept([session])

    def drop_typed(self, why: str) -> None:
        """Shows the lines that wait at the prompt already, also one without its end, and sends none of them."""
        if sys.stdin.isatty():
            not_sent(system.take_typed().decode("utf-8", "replace").splitlines(), why)


def kept_by_files(session: Session, sail: str, twin: Twin) -> str:
    """Keeps the place of a finisher by journal.txt, as no office is there to ask; how she is called. Nothing of the session
    changes: the folder may hang, and this is called in a thread of its own."""
    journal, known = session.folder.kept(), session.facts.commands
    if [command_of(line) for line in journal[:len(known)]] != known:
        # Nobody knows who was ahead of her.
        raise NotSent("journal.txt has changed. Write her down")
    race = Series.read(journal).race(session.at or 0)
    return session.places.keep(race, sail, len(journal), twin)


def show(said: Said) -> None:
    """Shows what a session says."""
    say(said.text)


def wait(seconds: float) -> None:
    """Waits until an office may be there."""
    time.sleep(seconds)


def not_kept(session: Session) -> str:
    """What is said of a class at a race in which nobody can be kept without a sail."""
    why = "by corrected time no window keeps places" if session.folder.settings.handicap else "its office was closed"
    return f"she isn't kept there, since {why}. If she is of that class, write her down"


def remedy(session: Session, trouble: Trouble) -> str:
    """What opens an office that isn't open, or who has the seats, if that is the trouble."""
    if isinstance(trouble, Gone):
        return f": {session.folder.command('open')} opens it"
    windows = ", ".join(open_windows(session.folder, TYPING, BOARD).values())
    return f": {windows}" if isinstance(trouble, NoSeat) and windows else ""


def not_sent(lines: list[str], why: str) -> None:
    for line in lines:
        if line.strip():
            say(f"Not sent, {why}: {line[:80]}")


def is_yes(text: str) -> bool:
    """Whether somebody says yes. What is typed for the office meanwhile is named: it isn't sent."""
    return question(visible(text), tell=lambda given: not_sent([given], "since it answers no question"))
