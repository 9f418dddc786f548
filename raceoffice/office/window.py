"""The window of an office, from its opening to its end: what it asks, and what it says.

It outlives its terminal: what it says then is heard by nobody, and the office is closed in order.
"""
from __future__ import annotations

import contextlib
import signal
import sys
import time
from collections.abc import Callable

from raceoffice import system
from raceoffice.errors import Trouble
from raceoffice.office.before_opening import is_meant
from raceoffice.office.keeping import Keeping
from raceoffice.series.folder import Folder, clock
from raceoffice.series.health import notes, summary
from raceoffice.series.kept_places import kept_in_words
from raceoffice.session.dialogue import Question
from raceoffice.terminal import TYPED, YES_OR_NO, is_yes, question, say, say_if_heard, say_what_waits, sentence
from raceoffice.traces import guarded
from raceoffice.wording import count

# Seconds between two looks for a signal.
TICK = 0.2
# Seconds that a terminal has to take what is said last.
LAST = 2.0


class OfficeWindow(Keeping):
    """The window in which an office is opened, kept and closed."""

    def __init__(self, folder: Folder, now: Callable[[], float] = time.monotonic) -> None:
        super().__init__(folder, lambda text: say_if_heard(text), lambda: system.stop_that_waits() != 0, now)

    # Opening

    def open(self) -> int:
        """Opens the office, and is its window until it is closed; the status."""
        with contextlib.closing(self.backups.second):
            is_there = self.service.lock.is_taken()
            if not (is_there and self.is_taken_over(lambda asked: question(asked.text, True))):
                if not is_meant(self.folder, say, ask):
                    say("Nothing was opened.")
                    return 1
                self.start()
            try:
                self.begin()
            except BaseException:
                self.service.undo_start()
                raise
            status = self.stay()
            say_what_waits(LAST)
            return status

    def start(self) -> None:
        """Opens the office. A signal that comes meanwhile ends both."""
        for number in system.STOPS - {signal.SIGINT}:
            signal.signal(number, lambda *_: sys.exit(1))
        super().start()

    def begin(self) -> None:
        """Copies the journal for the first time, and says that the office is open."""
        super().begin()
        for text in notes(self.folder):
            say(text)
        said = f"{summary(self.folder)}\n{self.folder.settings.in_words()}"
        self.note_opened()
        # From here on a signal waits until it is asked for.
        system.hold_stops()
        say_if_heard(f"{said}\n{clock()} The office is open. Ctrl-C closes it.")

    # While it is open

    def stay(self) -> int:
        """Copies the journal until the office is closed or has gone; the status."""
        while True:
            time.sleep(TICK)
            say_what_waits()
            number = system.stop_that_waits()
            if number and self.is_to_close(number):
                return self.close()
            if self.looks.has_come() and not self.goes_on():
                return self.crashed()

    def is_to_close(self, number: int) -> bool:
        """Whether a signal closes the office. Ctrl-C asks first if somebody may still type."""
        still = self.still_there() if number == signal.SIGINT else ""
        if not still:
            return True
        is_meant = self.is_yes(f"{still} Close the office? [y/N] ")
        if not is_meant and not self.service.is_over():
            say_if_heard("The office stays open.")
        return is_meant

    def still_there(self) -> str:
        """Who may still type, and which places are kept, or why nobody knows; empty if there is nothing."""
        try:
            with guarded(self.folder.path):
                windows = self.folder.windows_to_type()
                self.say_once("places", self.backups.guard_places())
                kept = kept_in_words(self.folder)
        except Trouble as trouble:
            return f"Beware: {sentence(trouble)}"
        if not windows:
            return kept
        still = f"{count(len(windows), 'window is', 'windows are')} still open: {', '.join(windows)}."
        return f"{still} {kept}".rstrip()

    def is_yes(self, text: str) -> bool:
        """Whether somebody says yes. Ctrl-C and the end of the input are no; any other signal closes the
        office without an answer. The journal is copied while the question waits. What was typed before the
        question is no answer to it."""
        forget_typed()
        say_if_heard(text, end="")
        while True:
            say_what_waits()
            given = typed_now()
            meant = None if given is None else is_yes(given)
            if meant is not None:
                return meant
            if given is not None:
                say_if_heard(f"{YES_OR_NO}\n{text}", end="")
            if number := system.stop_that_waits():
                say_if_heard("")
                return number != signal.SIGINT
            if self.looks.has_come() and not self.goes_on():
                say_if_heard("")
                return False


def ask(asked: Question) -> bool:
    """Whether somebody says yes; Enter alone is no. What was typed before the question is no answer to it, and Ctrl-C
    is none either: an office may be opened after a no, too."""
    forget_typed()
    return question(asked.text, is_stopped=True)


def forget_typed() -> None:
    """Says what was typed when nothing was asked, and forgets it."""
    if sys.stdin.isatty():
        for line in (TYPED.taken() + system.take_typed()).decode("utf-8", "replace").splitlines():
            if line.strip():
                say_if_heard(f"No answer, since it came before the question: {line[:80]}")


def typed_now() -> str | None:
    """What somebody types just now; no at the end of the input, and None if nothing comes."""
    try:
        return TYPED.line(TICK)
    except EOFError:
        return "n"
