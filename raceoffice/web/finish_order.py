"""Where a finisher belongs if others were recorded between her tap and its arrival."""
from __future__ import annotations

import itertools
from collections.abc import Collection, Mapping, Sequence

from raceoffice.program.journal import Race
from raceoffice.series.line_order import is_mark
from raceoffice.session.dialogue import Question
from raceoffice.session.facts import Facts
from raceoffice.session.question_words import question
from raceoffice.web.taps import Tap

# Milliseconds by which the clocks of two devices may differ.
CLOSE = 1000
# When each finisher was tapped, and on which device, by race and sail.
Moments = Mapping[tuple[int, str], tuple[int, str]]
# When each boat and each place of a race was tapped, as far as that is known.
Times = Mapping[str, int]


class Elsewhere(Exception):
    """Others have recorded finishers since this one was tapped: where is she? `clock` is the line that puts
    her where the clock says."""

    def __init__(self, asked: Question, clock: str) -> None:
        super().__init__(asked.text)
        self.question, self.clock = asked, clock


def without_place(line: str) -> tuple[str, str]:
    """A line that puts a boat ahead of another, and also just ahead of a place that is kept before that one, as
    `BEFORE 3 GBR7 FRA9 ?1`: the program's line, and the place. Any other line has none."""
    words = line.split()
    is_ahead = len(words) == 5 and words[0] == "BEFORE" and is_mark(words[4])
    return (" ".join(words[:4]), words[4]) if is_ahead else (line, "")


def line_in_order(facts: Facts, times: Times, own: Collection[str], tap: Tap, line: str, order: Race) -> tuple[str, str]:
    """The line that puts a finisher where she was seen, after all or by the clock, and the place that she is just ahead
    of, if she is of one; Elsewhere asks. `order` has the places that are kept, and `own` are those of her device."""
    _, number, sail = line.split()
    race = facts.race(number)
    last = race.order[-1] if race.order else []
    if tap.behind is None or race.is_in_order(sail):
        return line, ""
    after = groups_after(order, tap.behind)
    since = [name for group in after for name in group]
    close = [name for name in since if is_mark(name) and name not in own and times.get(name, tap.at) + CLOSE > tap.at]
    # The boat that the device showed last had finished by then, whenever another device tapped her.
    later = later_groups(after, times, tap.at)
    is_last = tap.behind in last or not (last or tap.behind) or bool(last) and not later and are_before(last, times, tap.at)
    if is_last and not close:
        return line, ""
    clock, ahead = line_ahead(order, line, later[0]) if later else (line, "")
    untimed = untimed_before(after, later, times)
    if is_by_clock(tap, later, untimed):
        return clock, ahead
    others = [name for name in since if not is_mark(name) or name in close]
    next_one = ahead or (clock.split()[3] if later else "")
    raise Elsewhere(question("others-recorded", facts.called, race=race.number, sail=sail, others=others,
                             ahead=next_one, untimed=untimed), f"BEFORE {number} {sail} {next_one}" if later else line)


def line_ahead(order: Race, line: str, group: Sequence[str]) -> tuple[str, str]:
    """The line that puts a finisher just ahead of a group, and the place there; empty if a boat is there."""
    _, number, sail = line.split()
    ahead = "" if any(not is_mark(name) for name in group) else group[0]
    boats = [name for after in order.order[order.order.index(list(group)):] for name in after if not is_mark(name)]
    return f"BEFORE {number} {sail} {boats[0]}" if boats else line, ahead


def later_in_order(facts: Facts, times: Times, tap: Tap, race: Race) -> str:
    """Who finished next after the one whose place a tap keeps, by the clock; empty if she is after all. Elsewhere asks
    if others were recorded since the tap. `race` has the places that are kept in its order."""
    after = groups_after(race, tap.behind or "")
    others = [name for group in after for name in group if not is_mark(name)]
    later = later_groups(after, times, tap.at)
    if not later and are_before(others[-1:], times, tap.at):
        return ""
    ahead, untimed = later[0][0] if later else "", untimed_before(after, later, times)
    if is_by_clock(tap, later, untimed):
        return ahead
    clock = f"BEFORE {race.number} ? {ahead}" if later else tap.line
    raise Elsewhere(question("others-recorded", facts.called, race=race.number, sail="?", others=others, ahead=ahead,
                             untimed=untimed), clock)


def is_by_clock(tap: Tap, later: Sequence[object], untimed: Collection[str]) -> bool:
    """Whether somebody goes by the clock, and was told of those of whom it says nothing."""
    told = [one.values.get("untimed") for one in tap.agreed if one.kind == "others-recorded"]
    is_told = any(isinstance(names, tuple) and {*untimed} <= {*names} for names in told)
    return tap.by_clock and (not untimed or bool(later) and is_told)


def are_before(names: Sequence[str], times: Times, at: int) -> bool:
    """Whether all of these finished before a moment by so much that nobody has to be asked."""
    return all(times.get(name, at) + CLOSE <= at for name in names)


def later_groups(groups: Sequence[Sequence[str]], times: Times, at: int) -> list[Sequence[str]]:
    """Those at the end of an order that finished later than a moment by the clock. Whoever has no moment is no earlier
    than those ahead of her."""
    latest, found = 0, list[Sequence[str]]()
    for group in groups:
        moments = moments_in(group, times)
        found = [*found, group] if min(moments, default=latest) > at else []
        latest = max([latest, *moments])
    return found


def places_just_ahead(order: Race, name: str) -> list[str]:
    """The places between a boat and the one ahead of her."""
    at = next((at for at, group in enumerate(order.order) if name in group), 0)
    found = itertools.takewhile(lambda group: all(map(is_mark, group)), reversed(order.order[:at]))
    return [mark for group in list(found)[::-1] for mark in group]


def as_placed(groups: Sequence[Sequence[str]], times: Times) -> dict[str, int]:
    """The moments of an order as they agree with it: a boat that somebody has put behind others, whatever the clock says, is no
    earlier than those."""
    latest, found = 0, dict(times)
    for group in groups:
        found |= {name: max(times[name], latest) for name in group if name in times}
        latest = max([latest, *moments_in(group, found)])
    return found


def untimed_before(groups: Sequence[Sequence[str]], later: Sequence[Sequence[str]], times: Times) -> list[str]:
    """The boats just ahead of those at the end of an order of whom no moment is known."""
    before = list(groups)[:len(groups) - len(later)]
    found = itertools.takewhile(lambda group: not moments_in(group, times), reversed(before))
    return [name for group in list(found)[::-1] for name in group]


def moments_in(group: Sequence[str], times: Times) -> list[int]:
    """The moments of a group that are known."""
    return [times[name] for name in group if name in times]


def groups_after(race: Race, behind: str) -> list[list[str]]:
    """The groups of a race that stand after a boat; all if she isn't there."""
    at = next((at for at, group in enumerate(race.order, 1) if behind in group), 0)
    return race.order[at:]
