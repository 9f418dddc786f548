"""The session of one class: what is typed there, and what becomes of it. Whoever types hears and is asked by
values."""
from __future__ import annotations

from raceoffice.errors import NotSent
from raceoffice.series.kept_places import Twin
from raceoffice.session.abandon import abandon
from raceoffice.session.answers import standing_lines
from raceoffice.session.dialogue import SHOWN, Outcome, texts_of
from raceoffice.session.finishers import keep, keep_or_send, marked, send_or_place
from raceoffice.session.help import help_lines, help_of
from raceoffice.session.parse import MAY, Unclear, digits_of
from raceoffice.session.seat import Done, Seat
from raceoffice.session.sending import shown_race
from raceoffice.session.undo import undo
from raceoffice.terminal import sentence


class Session(Seat):
    """A seat at which somebody types."""

    def do(self, typed: str) -> Outcome:
        """Does what was typed; what became of it."""
        before = self.done
        return self.outcome_since(before, self.is_done(typed))

    def outcome_since(self, before: Done | None, is_taken: bool) -> Outcome:
        """What has been done since `before`."""
        if self.done is None or self.done is before:
            return Outcome(is_taken)
        done = self.done
        return Outcome(is_taken, done.line, done.number, done.unread.mark if done.unread else "")

    def is_done(self, typed: str) -> bool:
        """Does what was typed; whether it was taken."""
        words, self.answered = typed.lower().split(), False
        if not words:
            return True
        if (shown := self.shown(words)) is not None:
            self.say_all(shown, SHOWN)
            return True
        match words:
            case ["at", *number] if len(number) < 2:
                self.at = self.facts.race(number[0]).number if number else None
                return True
            case ["abandon", number]:
                self.look()
                return abandon(self, self.facts.race(number))
            case ["clear"]:
                raise NotSent("CLEAR takes away what a boat holds in a race: CLEAR race sail. Ctrl-L "
                              "clears the screen")
            case ["undo"]:
                self.look()
                return undo(self)
        # Other windows type as well, and what is asked depends on what they have typed.
        self.look()
        if meant := marked(words):
            return keep_or_send(self, *meant)
        return self.finish_or_line(typed)

    def shown(self, words: list[str]) -> list[str] | None:
        """What the window itself answers to a question; None to anything else."""
        match words:
            case ["help"]:
                return help_lines(self.role, self.folder.settings.handicap)
            case ["?"] if not self.at:
                return help_lines(self.role, self.folder.settings.handicap)
            case ["help", word, *_]:
                return help_of(word)
            case ["race", number]:
                self.look()
                return texts_of(shown_race(self, self.facts.race(number)))
            case ["race"] if self.at:
                self.look()
                return texts_of(shown_race(self, self.race))
            case ["standing"]:
                self.look()
                heading = [f"{self.prefix}rank and net points"] if self.prefix else []
                return heading + standing_lines(self.facts)
            case ["show"]:
                self.look()
                return [*self.facts.sheet.journal, *self.facts.sheet.table]
        return None

    def line(self, typed: str) -> str:
        """The program's line. Who typed digits sees which boat was meant."""
        line = self.reader.line(typed, self.is_yes)
        for sail in line.split()[1:]:
            if digits := digits_of(sail, typed, self.facts.boats):
                others = [boat for boat in self.facts.boats if boat.endswith(digits) and boat != sail]
                self.say_of("digits", digits=digits, sail=sail, others=others)
        return line

    def finish_or_line(self, typed: str) -> bool:
        """Sends what was typed; whether it was taken. A sail alone crossed the line: if nobody knows whose
        it is, her place is kept."""
        crossed = self.crossed(typed)
        try:
            line = self.line(typed)
        except Unclear as why:
            if not crossed:
                raise
            return keep(self, self.race, crossed, f"{sentence(why.what)} ")
        is_there = crossed and self.race.is_in_order(line.split()[2])
        is_taken = send_or_place(self, line, bool(crossed))
        if is_there and not is_taken:
            self.say("   If another boat crossed the line, type ? for her now.")
        return is_taken

    # Who crosses the line without a sail

    @property
    def may_keep(self) -> bool:
        """Whether somebody who crosses the line now can be kept without a sail: also while the office is away, unless it
        was closed for good."""
        return (self.at is not None and not self.is_closed and "FINISH" in MAY[self.role]
                and not self.folder.settings.handicap)

    def crossed(self, typed: str) -> str:
        """The sail of somebody who crossed the line, if that is what was typed."""
        return self.reader.crossed(typed) if self.may_keep else ""

    def keep_crossed(self, sail: str, twin: Twin = Twin()) -> Outcome:
        """Keeps the place of somebody whose class isn't clear. `twin` says in which other classes she is
        kept."""
        before = self.done
        self.look()
        return self.outcome_since(before, keep(self, self.race, sail, twin=twin))

    def take_over_kept(self, mark: str) -> None:
        """Takes over a place that was kept while the office is away."""
        self.look_at_places()
        self.note_kept(self.at or 0, mark)
        self.say_of("place-kept", mark=mark, why="")
