"""Finishers whose sails aren't known: each keeps her place until she is."""
from __future__ import annotations

import re
from collections.abc import Sequence, Set
from dataclasses import dataclass

from raceoffice.errors import NotSent
from raceoffice.program.journal import Race
from raceoffice.remarks import remark
from raceoffice.series.entry_list import SAIL
from raceoffice.wording import ordinal

# How one is called until she is known: ?1, or what was typed of her sail as 101?, and 101?2 for another.
MARK = re.compile(rf"((?:{SAIL.pattern})?)\?([1-9][0-9]{{0,3}})?")


@dataclass(frozen=True)
class Unread:
    """One of them: how she is called in her race, and the boats that are ahead of her.
    `typed` is what was typed of her sail, `since` by whom and when her place was kept."""
    mark: str
    race: int
    ahead: Set[str]
    typed: str = ""
    since: str = ""

    def place(self, race: Race) -> int:
        """How many groups of the order are ahead of her."""
        return max((at for at, group in enumerate(race.order, 1) if self.ahead & set(group)),
                   default=0)

    def line(self, sail: str, race: Race) -> str:
        """The line that puts her in her place: ahead of those who finished next."""
        behind = race.order[self.place(race):]
        return (f"BEFORE {race.number} {sail} {behind[0][0]}" if behind
                else f"FINISH {race.number} {sail}")


@dataclass(frozen=True)
class Waiting:
    """Those of a class, in the order in which they finished. `given` has the race and the mark of each
    that was ever kept: what somebody wrote down is never another's."""
    all: tuple[Unread, ...] = ()
    given: tuple[tuple[int, str], ...] = ()

    def of(self, race: int) -> list[Unread]:
        return [unread for unread in self.all if unread.race == race]

    def marks(self, race: int) -> list[str]:
        """How those of a race are called."""
        return [unread.mark for unread in self.of(race)]

    def next_mark(self, race: int, typed: str = "") -> str:
        """How the next one of a race is called: by the number after the highest, since the line of one may be lost."""
        ends = [mark.rpartition("?")[2] for of, mark in self.given if of == race and mark.partition("?")[0] == typed]
        return f"{typed}?" if typed and not ends else f"{typed}?{max([int(end or 1) for end in ends], default=0) + 1}"

    def one(self, race: int, mark: str) -> Unread:
        """One of them as she is called, or the only one by ? alone; NotSent if it isn't clear who."""
        kept, marks = self.of(race), self.marks(race)
        if mark == "?" and len(kept) > 1:
            raise NotSent(remark("places-several", marks=marks))
        found = [unread for unread in kept if mark in ("?", unread.mark)]
        if not found:
            why = (remark("no-place-only", mark=mark, race=race, marks=marks) if marks else
                   remark("no-place", mark=mark, race=race))
            others = [unread.race for unread in self.all if unread.mark == mark and unread.race != race]
            raise NotSent(remark("no-place-here", why=why, races=[*map(str, others)], race=others[0]) if others else why)
        return found[0]

    def ahead_of(self, race: Race, sail: str) -> int:
        """How many of them finished ahead of a boat that is in the order."""
        at = next((at for at, group in enumerate(race.order) if sail in group), 0)
        return sum(unread.place(race) <= at for unread in self.of(race.number))

    def places(self, race: Race) -> dict[str, str]:
        """The place of each in words, as she is called."""
        return {mark: ordinal(place) for mark, place in self.place_numbers(race).items()}

    def place_numbers(self, race: Race) -> dict[str, int]:
        """The place of each, as she is called: all finishers ahead of her count, read or not."""
        found: dict[str, int] = {}
        for unread in self.of(race.number):
            read = sum(sail not in race.codes for group in race.order[:unread.place(race)]
                       for sail in group)
            found[unread.mark] = read + len(found) + 1
        return found


def marks_by_race(waiting: Sequence[Unread]) -> str:
    """`?1 and 101? in race 3, ?1 in race 4`."""
    return ", ".join(places_by_race(waiting))


def places_by_race(waiting: Sequence[Unread]) -> list[str]:
    """The places of each race."""
    return marks_of_races([(unread.race, unread.mark) for unread in waiting])


def marks_of_races(places: Sequence[tuple[int, str]]) -> list[str]:
    """Places, each a race and a mark, of each race."""
    races = sorted({race for race, _ in places})
    return [remark("places-of-race", marks=[mark for other, mark in places if other == race], race=race) for race in races]
