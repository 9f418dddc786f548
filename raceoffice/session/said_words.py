"""The kinds of what a session says, and the English words of each, which are made of its values alone. Pages make
words of their own of both."""
from __future__ import annotations

from collections.abc import Callable, Iterable

from raceoffice.program.messages import move_words, refusal
from raceoffice.session.dialogue import Said, Value
from raceoffice.session.question_words import Words, by_whom
from raceoffice.wording import count, joined, ordinal


class SaidWords(Words):
    """The words of one thing that is said. `prefix` is the class, if there are several."""

    def __init__(self, called: Callable[[str], str], prefix: str, values: dict[str, Value]) -> None:
        super().__init__(called, values)
        self.prefix = prefix

    def holders(self, name: str) -> list[str]:
        """Boats, each with what she holds."""
        return [" ".join([self.called(sail), *held]) for sail, *held in map(str.split, self.all(name))]

    def number(self, name: str) -> int:
        value = self.values[name]
        return value if isinstance(value, int) else 0

    def answered(self, text: str) -> str:
        """What a line has done, after the program's answer."""
        return f"OK {self.text('entry')}   {self.prefix}{text}"

    def tallied(self, text: str) -> str:
        """What a line about a race has done, and how many boats of the race are recorded."""
        return self.answered(f"{text}; {self.text('finished')} finished, {self.text('coded')} coded, "
                             f"{self.text('missing')} to come of {self.text('boats')}")


# The answer to a line

def of_refused(words: SaidWords) -> str:
    answer = words.text("answer")
    return f"{answer}   {words.prefix}Refused: {refusal(answer)}. Nothing has changed."


def of_entered(words: SaidWords) -> str:
    text = f"{words.boat()} is entered: {count(words.number('boats'), 'boat')} now"
    return words.answered(text if words.values["listed"] else
                          f"{text}. Her name comes from {words.text('file')}: add her there")


def of_counts(words: SaidWords) -> str:
    return words.answered(f"race {words.text('race')} counts")


def of_counting_no_longer(words: SaidWords) -> str:
    return words.answered(f"race {words.text('race')} counts no longer")


def of_struck(words: SaidWords) -> str:
    return words.tallied(f"out of the order of race {words.text('race')}")


def of_finished(words: SaidWords) -> str:
    """A finisher's place; unread finishers ahead of her aren't in the order yet."""
    unread = words.number("unread")
    ahead = f", with {count(unread, 'unread finisher')} ahead" if unread else ""
    tied = " (tied)" if words.values["tied"] else ""
    return words.tallied(f"{ordinal(words.number('place') + unread)}{tied} in race {words.text('race')}{ahead}")


def of_coded(words: SaidWords) -> str:
    return words.tallied(f"she holds {words.text('holds')} in race {words.text('race')}, and is scored so")


def of_out_again(words: SaidWords) -> str:
    """Another window has struck her just now."""
    return words.tallied(f"she is out of the order of race {words.text('race')} again")


def of_held(words: SaidWords) -> str:
    held = [one.replace("RDG ", "redress ") for one in words.all("held")]
    return words.tallied(f"{' and '.join(held) or 'nothing'} in race {words.text('race')}")


# What a line has changed

def of_no_race(_: SaidWords) -> str:
    return "   >>> NO RACE COUNTS ANY MORE."


def of_no_move(words: SaidWords) -> str:
    return f"   Race {words.text('race')} counts; no score moved."


def of_change(words: SaidWords) -> str:
    race = words.text("race")
    return f"   >>> {f'RACE {race} COUNTS: ' if race else ''}THE RESULTS HAVE CHANGED."


def of_mixture(_: SaidWords) -> str:
    return "       Others typed meanwhile: some of this may be theirs."


def of_move(words: SaidWords) -> str:
    return f"       {move_words(words.boat(), words.values)}"


def of_declared(words: SaidWords) -> str:
    return f'       The results were declared {words.text("state")}. Next: {words.text("command")} "the reason"'


# Finishers without a sail

def of_known(words: SaidWords) -> str:
    return (f"{words.text('mark')} of race {words.text('race')} is {words.text('sail')}, by {by_whom(words.text('since'))}: "
            f"entry {words.text('entry')}, {words.text('line')}.")


def of_place_known(words: SaidWords) -> str:
    return f"   {of_known(words)}"


def of_two_boats(words: SaidWords) -> str:
    return f"   Beware: {of_known(words)} Two boats have her place now: one of them has to leave it"


def of_ended(words: SaidWords) -> str:
    return (f"   {words.text('mark')} of race {words.text('race')} is dropped by "
            f"{by_whom(words.text('since'))}: {words.text('why')}.")


def of_kept(words: SaidWords) -> str:
    mark = words.text("mark")
    return (f"   {words.prefix}{words.text('why')}{mark} keeps her place. Once she is known, type: {mark} and her "
            "sail (or none)")


def of_kept_again(words: SaidWords) -> str:
    return f"   {words.prefix}{words.text('mark')} keeps her place."


def of_dropped(words: SaidWords) -> str:
    return f"   {words.prefix}{words.text('mark')} is dropped."


def of_still_kept(words: SaidWords) -> str:
    return f"   Beware: {words.text('fault')}. Still kept: {joined(words.all('marks'))}."


def of_bad_line(words: SaidWords) -> str:
    return (f"   Beware: line {words.text('number')} of office/places can't be read, and is left out. A finisher "
            "without a sail may be missing.")


def of_unread_places(words: SaidWords) -> str:
    return f"   Beware: {words.text('fault')}. A finisher without a sail may be missing."


# A finisher who is kept in several classes

def of_twin_dropped(words: SaidWords) -> str:
    return f"   {words.text('class_name')}: {words.text('mark')} is dropped."


def of_twin_kept(words: SaidWords) -> str:
    return f"   {words.text('class_name')}: {words.text('mark')} keeps her place again."


def of_twin_lacking(words: SaidWords) -> str:
    classes = joined(words.all("classes"), "or")
    return (f"   Beware: {words.text('mark')} of race {words.text('race')} isn't kept in {classes}, since a window was "
            f"killed. If she may be of {classes}, type ? there.")


# A race that is to be taken away, or is shown

def of_nothing_there(words: SaidWords) -> str:
    return f"{words.prefix}Nothing of race {words.text('race')} has to be taken away."


def of_plan(words: SaidWords) -> str:
    lines = count(len(words.all("lines")), "line is", "lines are")
    return f"{words.prefix}To take race {words.text('race')} away {lines} sent:"


def of_plan_places(words: SaidWords) -> str:
    return f"  Places that are dropped: {joined(words.all('marks'))}"


def of_plan_stays(words: SaidWords) -> str:
    return f"  ZFP and BFD stay (RRS 30.2, 30.4): {', '.join(words.holders('sails'))}"


def of_resailing(_: SaidWords) -> str:
    return "  If the race is resailed under a new number: type them there, and clear them here"


def of_plan_jury(words: SaidWords) -> str:
    return f"  What the jury decided stays (RRS 36): {', '.join(words.holders('sails'))}"


def of_taken_away(words: SaidWords) -> str:
    lines = count(words.number("lines"), "line")
    return f"{words.prefix}Race {words.text('race')} is taken away: {lines}, all taken."


def of_stop(words: SaidWords) -> str:
    race = words.text("race")
    return (f"{words.prefix}Stopped at {words.text('line')}: {refusal(words.text('answer'))}. Somebody else types "
            f"for race {race}: type race {race}.")


def of_race(words: SaidWords) -> str:
    state = "counts" if words.values["counts"] else "is to count" if words.values["next"] else "doesn't count yet"
    return (f"{words.prefix}Race {words.text('race')} {state}: {words.text('finished')} finished, "
            f"{words.text('coded')} coded, {words.text('missing')} not recorded, "
            f"{count(words.number('boats'), 'boat')}")


def of_race_unread(words: SaidWords) -> str:
    return (f"  {words.text('mark'):>4}  {ordinal(words.number('place'))} on the water, but her sail isn't known")


def of_race_missing(words: SaidWords) -> str:
    return f"  {'DNC' if words.values['counts'] else 'not recorded'}: {', '.join(words.all('boats'))}"


# All else

def of_digits(words: SaidWords) -> str:
    others = words.boats("others")
    more = f"; {joined(others)} {'ends' if len(others) == 1 else 'end'} so too" if others else ""
    return f"   {words.text('digits')} is {words.boat()}{more}"


def of_lines_sent(words: SaidWords) -> str:
    return f"   Sent already: {', '.join(words.all('lines'))}"


def of_nothing_sent(_: SaidWords) -> str:
    return "   Not sent."


def of_log(words: SaidWords) -> str:
    return f"   Beware: {words.text('fault')}."


def of_sheet(words: SaidWords) -> str:
    return f"   In the sheet, and not in the journal yet: {words.text('fault')}"


def of_row(words: SaidWords) -> str:
    return f"   {words.text('sail')} isn't entered: her row in {words.text('name')} is left out"


WORDS: dict[str, Callable[[SaidWords], str]] = {
    "refused": of_refused, "entered": of_entered, "counts": of_counts, "counts-no-longer": of_counting_no_longer,
    "struck": of_struck, "finished": of_finished, "coded": of_coded, "out-again": of_out_again, "held": of_held,
    "no-race": of_no_race, "no-move": of_no_move, "changed": of_change, "mixed": of_mixture, "moved": of_move,
    "declared": of_declared,
    "place-known": of_place_known, "two-boats": of_two_boats, "place-ended": of_ended, "place-kept": of_kept,
    "place-kept-again": of_kept_again, "place-dropped": of_dropped, "still-kept": of_still_kept,
    "places-line": of_bad_line, "places-unread": of_unread_places,
    "twin-dropped": of_twin_dropped, "twin-kept": of_twin_kept, "twin-lacking": of_twin_lacking,
    "nothing-there": of_nothing_there, "plan": of_plan, "plan-places": of_plan_places, "plan-stays": of_plan_stays,
    "plan-resailed": of_resailing, "plan-jury": of_plan_jury, "taken-away": of_taken_away, "stopped": of_stop,
    "race-state": of_race, "race-unread": of_race_unread, "race-missing": of_race_missing,
    "digits": of_digits, "lines-sent": of_lines_sent, "not-sent": of_nothing_sent, "log-fault": of_log, "sheet-waits": of_sheet, "row-left-out": of_row,
}


def said(what: str, kind: str, called: Callable[[str], str], prefix: str, /,
         **values: str | int | Iterable[str]) -> Said:
    """What is said of these values, with its words. `kind` is whether it is an answer, a warning or another."""
    held: dict[str, Value] = {name: value if isinstance(value, (str, int)) else tuple(value)
                              for name, value in values.items()}
    return Said(WORDS[what](SaidWords(called, prefix, held)), kind, what, held)
