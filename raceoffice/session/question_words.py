"""The kinds of questions, and the English words of each, which are made of its values alone."""
from __future__ import annotations

from collections.abc import Callable, Iterable

from raceoffice.session.dialogue import Question, Value
from raceoffice.wording import count, joined


class Words:
    """The words of one question. `called` says how a boat is called."""

    def __init__(self, called: Callable[[str], str], values: dict[str, Value]) -> None:
        self.called, self.values = called, values

    def text(self, name: str) -> str:
        return str(self.values[name])

    def boat(self, name: str = "sail") -> str:
        """A boat by her sail and name."""
        return self.called(self.text(name))

    def all(self, name: str) -> list[str]:
        value = self.values[name]
        return list(value) if isinstance(value, tuple) else [str(value)]

    def boats(self, name: str) -> list[str]:
        return [self.called(sail) for sail in self.all(name)]

    @property
    def corrected(self) -> str:
        """What comes first if the race counts."""
        return f"RACE {self.text('race')} COUNTS ALREADY. " if self.values["counts"] else ""


def by_whom(since: str) -> str:
    """When and by whom something was done, in words: `11:20 Ann` as `Ann at 11:20`."""
    time, _, name = since.partition(" ")
    return f"{name} at {time}"


def of_line(words: Words) -> str:
    """A line that was typed in words that may mean several."""
    return f"This may be {joined(words.all('lines'), 'or')}. Is {words.text('line')} meant?"


def of_number(words: Words) -> str:
    return f"{words.text('number')} may be a race or a boat. Is {words.text('line')} meant?"


def of_digits(words: Words) -> str:
    meant = f"{words.text('typed')} may be {joined(words.boats('sails'), 'or')}"
    return f"{meant}. Is {words.text('line')} meant?"


def entered(words: Words, known: str) -> str:
    return f"{known} Enter {words.text('sail')}? Only raceoffice remove takes her out again."


def of_listed(words: Words) -> str:
    return entered(words, f"{words.boat()} is on the entry list.")


def of_near(words: Words) -> str:
    return entered(words, f"{words.text('sail')} isn't on the entry list, but looks like "
                   f"{joined(words.boats('near'))}.")


def of_unlisted(words: Words) -> str:
    return entered(words, f"{words.text('sail')} isn't on the entry list.")


def of_unknown(words: Words) -> str:
    """Finishers without a sail, each with who has kept her place."""
    kept = [f"{mark} (kept by {by_whom(since)})" for mark, since in zip(words.all("marks"), words.all("since"))]
    who = "a finisher" if len(kept) == 1 else "finishers"
    return f"{joined(kept)}: {who} without a sail would be left out. Score it all the same?"


def of_another_series(words: Words) -> str:
    """A tap that a device has held since another series had this name."""
    return f"{words.text('line')} was tapped for another series. Record it in {words.text('title')} all the same?"


def of_unsent(words: Words) -> str:
    """Devices that hold taps, each with how many."""
    return f"Taps that the office hasn't got wait on {joined(words.all('devices'))}. Score race {words.text('race')} all the same?"


def of_kept_by_devices(words: Words) -> str:
    """Devices that hold taps, each with how many, before a race by corrected time is abandoned."""
    return (f"Taps that the office hasn't got wait on {joined(words.all('devices'))}. Places that they keep of race "
            f"{words.text('race')} are dropped. Abandon it all the same?")


def of_codes(words: Words) -> str:
    return "Only boats with a code are in the finishing order. Score it all the same?"


def of_penalties(words: Words) -> str:
    come = ", and under RRS A5.3 as not having come" if words.values["a53"] else ""
    return (f"{', '.join(words.boats('sails'))}: a penalty, but no place and no code. Scored DNC{come}. "
            "Is that right?")


def of_missing(words: Words) -> str:
    return f"Score race {words.text('race')} with {count(len(words.all('sails')), 'boat')} as DNC?"


def of_sheet(words: Words) -> str:
    """A race that is to count has another time, or another code, in its sheet than in the journal."""
    return (f"What the sheet of times of race {words.text('race')} has of {joined(words.boats('sails'))} isn't in the "
            "journal. Score the race without it?")


def of_sheet_fault(words: Words) -> str:
    return (f"Whether the journal has the times of the sheet of race {words.text('race')} isn't known: "
            f"{words.text('fault')} Score it all the same?")


def of_unscore(words: Words) -> str:
    return f"Race {words.text('race')} counts. Take it out of the results?"


# What was declared of results
DECLARED = {"final": "THE RESULTS ARE FINAL.", "amended": "THE RESULTS HAVE BEEN AMENDED."}


def of_declared(words: Words) -> str:
    return f"{DECLARED[words.text('declared')]} Is this a correction?"


def of_correction(words: Words) -> str:
    declared = f"{DECLARED[words.text('declared')]} " if "declared" in words.values else ""
    return f"{declared}RACE {words.text('race')} COUNTS ALREADY. Is this a correction?"


def of_clear(words: Words) -> str:
    """All that a boat holds: her code, her penalties and her redress."""
    redress = [f"redress {how}" for how in words.all("redress")]
    held = [*words.all("code"), *words.all("penalties"), *redress]
    every = "both" if len(held) == 2 else "all"
    return f"{words.corrected}{joined(held)} {every} go; type again what stays. Clear her?"


def of_redress(words: Words) -> str:
    come = (" Under RRS A5.3 she doesn't count as having come: the scorer marks her first, as DNF or "
            "DNS." if words.values["a53"] else "")
    return (f"{words.corrected}{words.boat()} has no place and no code in race {words.text('race')}.{come} "
            "Give her redress as she is?")


def of_abandoning(words: Words) -> str:
    return "Send them?" if words.all("lines") else "Drop the places?"


def of_clearing(words: Words) -> str:
    return f"Clear the sheet of times of race {words.text('race')}?"


def of_place(words: Words) -> str:
    return f"{words.text('mark')} keeps a place. Is she {words.boat()}?"


def of_unanswered(words: Words) -> str:
    return (f"{words.text('last')} was sent for {words.text('mark')}, and no answer came. It isn't in the "
            "journal. Send this?")


def of_finished_after(words: Words) -> str:
    mark = words.text("mark")
    return f"{words.boat()} was ahead of {mark} until she was struck. Has she finished after {mark} now?"


def of_undo(words: Words) -> str:
    return f"{words.text('line')} is taken back by {words.text('by')}. Send it?"


def of_dropping(words: Words) -> str:
    return f"Drop {words.text('mark')} in race {words.text('race')}?"


def of_keeping(words: Words) -> str:
    return f"Keep {words.text('mark')} in race {words.text('race')} again?"


def of_same_line(words: Words) -> str:
    return (f"Somebody else has sent {words.text('line')} since, as entry {words.text('entry')}. Send it once "
            "more?")


def of_tapped_too(words: Words) -> str:
    """Another device's tap was refused, as she was in the order by the one that is undone."""
    return f"{words.text('by')} has tapped {words.boat()}, too. Strike her all the same?"


def of_start(words: Words) -> str:
    """A start that was tapped before the race got another one, and that comes later."""
    return (f"Race {words.text('race')} has another start by now: {words.text('start')}. Put {words.text('written')} in its "
            "place?")


def of_old_start(words: Words) -> str:
    """A start that was tapped before the race was abandoned, and that comes later."""
    return f"Race {words.text('race')} has been abandoned since. Is {words.text('written')} its start all the same?"


def of_abandoned(words: Words) -> str:
    """A tap that was made before its race was abandoned, and that comes later."""
    return f"Race {words.text('race')} has been abandoned since. Does this belong to the race that is sailed again?"


def of_other_line(words: Words) -> str:
    """Another line about the same boat that was sent after a tap was made, and before it comes."""
    return f"Somebody else has sent {words.text('other')} since. Send {words.text('line')} all the same?"


def of_place_ahead(words: Words) -> str:
    """A place that was kept since, just ahead of the boat that somebody has pointed at."""
    mark = words.text("mark")
    return f"{mark} has been kept just ahead of {words.boat('ahead')} since. Did {words.boat()} finish after {mark}?"


def of_later(words: Words) -> str:
    """Others were recorded after all while a window asked who finished after all."""
    others, sail = words.boats("others"), words.boat()
    if not others:
        return f"The order has been changed meanwhile. Did {sail} finish after all others?"
    were, them = ("was", "her") if len(others) == 1 else ("were", "them")
    return f"Meanwhile {joined(others)} {were} recorded. Did {sail} finish after {them}, too?"


def of_others(words: Words) -> str:
    """Others were recorded after a finisher was seen, and before she was."""
    others, sail = words.boats("others"), words.boat()
    were = f"Meanwhile {joined(others)} {'was' if len(others) == 1 else 'were'} recorded." if others \
        else "The order has been changed meanwhile."
    untimed, ahead = words.boats("untimed"), words.text("ahead")
    by_clock = f"just ahead of {words.called(ahead)}" if ahead else "after them, too"
    if not untimed:
        return f"{were} By the clock {sail} is {by_clock}."
    told = f" By the clock {sail} is ahead of {words.called(ahead)}." if ahead else ""
    return f"{were}{told} No tap shows when {joined(untimed)} finished."


def of_copy(words: Words) -> str:
    return f"{words.text('lost')} Use it?"


def of_difference(words: Words) -> str:
    return "Open the office all the same?"


def of_rules(words: Words) -> str:
    return ("Yes opens the office with the new rules. No opens it with the old ones, and the new ones go on waiting. "
            "Go on with the new rules?")


def of_removal(words: Words) -> str:
    """Before a boat is taken out of the journal; the entries that go are said before."""
    return f"Take {words.text('sail')} out? The journal with her stays in kept/."


def of_taking_over(words: Words) -> str:
    since = f" since {words.text('since')}" if words.text("since") else ""
    return f"The office is open{since}, but its window has gone. Take it over?"


def of_announcing(words: Words) -> str:
    """Before results are provisional, final or amended; what is open is said before."""
    state, races = words.text("state"), words.all("races")
    if words.all("marks") or words.all("faults") or words.all("decisions") or {"devices", "sheets", "rules"} & words.values.keys():
        return f"Are the results {state} all the same?"
    without = f" without {'that race' if len(races) == 1 else 'those races'}" if races else ""
    return f"Are the results {state}{without}?"


WORDS: dict[str, Callable[[Words], str]] = {
    "line-of-several": of_line, "race-or-boat": of_number, "boat-of-several": of_digits,
    "enter-listed": of_listed, "enter-near": of_near, "enter-unlisted": of_unlisted,
    "score-unknown": of_unknown, "score-only-codes": of_codes, "score-penalised": of_penalties,
    "score-missing": of_missing, "score-sheet": of_sheet, "score-sheet-fault": of_sheet_fault, "unscore": of_unscore, "correction": of_correction,
    "declared": of_declared,
    "clear-several": of_clear, "redress-unplaced": of_redress, "abandon": of_abandoning,
    "clear-sheet": of_clearing,
    "place-is": of_place, "place-unanswered": of_unanswered, "finished-after": of_finished_after,
    "undo": of_undo,
    "drop-place": of_dropping, "keep-place-again": of_keeping,
    # Only pages ask these.
    "sent-already": of_same_line, "others-recorded": of_others, "tapped-too": of_tapped_too,
    "start-since": of_start, "start-abandoned": of_old_start, "abandoned-since": of_abandoned,
    "other-since": of_other_line, "place-ahead": of_place_ahead, "after-since": of_later, "score-unsent": of_unsent,
    "abandon-unsent": of_kept_by_devices,
    "another-series": of_another_series,
    # Before an office is opened.
    "use-copy": of_copy, "not-continued": of_difference, "new-rules": of_rules,
    "take-over": of_taking_over, "remove-boat": of_removal,
    # Before results are declared.
    "announce": of_announcing,
}


def question(kind: str, called: Callable[[str], str],
             **values: str | int | Iterable[str]) -> Question:
    """A question of a kind about these values, with its words."""
    held: dict[str, Value] = {name: value if isinstance(value, (str, int)) else tuple(value)
                              for name, value in values.items()}
    return Question(kind, held, WORDS[kind](Words(called, held)))
