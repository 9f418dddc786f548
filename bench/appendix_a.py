"""The sentences of Appendix A in Python: crates/regatta_scores/specs/AppendixA.antt, one function a field,
with the comment of the field, and the facts of a journal that they rest on. Points are in tenths, if not
called whole points. `sentences.py` tries them, and checks that they are still those of the module."""
from __future__ import annotations

from collections.abc import Callable
from functools import cached_property
from itertools import combinations
from typing import Any, NamedTuple

Order = list[list[str]]
Command = tuple[Any, ...]


class Rules(NamedTuple):
    absent: str
    scp: int | None
    thresholds: list[int]
    handicap: bool


class Held(NamedTuple):
    code: str | None
    zfp: int
    scp: int
    redress: Any


class Cell(NamedTuple):
    points: int
    mark: str | None
    dropped: bool


class Row(NamedTuple):
    sail: str
    rank: int
    tied: bool
    net: int
    cells: list[Cell]


class Table(NamedTuple):
    races: list[int]
    rows: list[Row]


class Work(NamedTuple):
    """A scorer's working of a race, with the scores of one boat."""

    race: int
    order: Order
    dnf: int = 0
    twenty_percent: int = 0
    base: int = 0
    plain: int = 0


class Series:
    """The rules of a series, and the facts of its journal."""

    def __init__(self, rules: Rules, journal: list[Command]) -> None:
        self.rules = rules
        self.journal = journal
        self.entered = [words[1] for words in journal if words[0] == "Enter"]
        self.kept: dict[tuple[int, str], Held] = {}

    def acts(self, race: int) -> list[Command]:
        return [words for words in self.journal if words[0] != "Enter" and words[1] == race]

    @cached_property
    def scored(self) -> list[int]:
        """The races whose last Score or Unscore is a Score."""
        last = {words[1]: words[0] for words in self.journal if words[0] in ("Score", "Unscore")}
        return sorted(race for race in last if last[race] == "Score")

    def held(self, race: int, boat: str) -> Held:
        """Her last code, number of penalties and last redress, of those after the last Clear."""
        if (race, boat) not in self.kept:
            hers = [(words[0], *words[3:]) for words in self.acts(race) if words[2:3] == (boat,)]
            clears = [at for at, words in enumerate(hers) if words[0] == "Clear"]
            hers = hers[clears[-1] + 1:] if clears else hers
            last = {words[0]: words[1] for words in hers if words[0] in ("Mark", "Redress")}
            self.kept[race, boat] = Held(last.get("Mark"), hers.count(("Penalise", "Zfp")),
                                         hers.count(("Penalise", "Scp")), last.get("Redress"))
        return self.kept[race, boat]

    def by_finish(self, race: int) -> Order:
        order: Order = []
        for what, _, *boats in self.acts(race):
            if what == "Finish":
                order = order + [boats]
            elif what == "Tie":
                order = [group + boats[:1] if boats[1] in group else group for group in order]
            elif what == "Before":
                at = [boats[1] in group for group in order].index(True)
                order = order[:at] + [boats[:1]] + order[at:]
            elif what == "Strike":
                order = [rest for group in order if (rest := [b for b in group if b not in boats])]
        return order

    def times(self, race: int) -> list[tuple[str, int]]:
        """The times in force, as they were given."""
        times: dict[str, int] = {}
        for what, _, *words in self.acts(race):
            if what in ("Time", "Strike"):
                times.pop(words[0], None)
            if what == "Time":
                times[words[0]] = words[1]
        return list(times.items())


# ---- what the sentences rest on

def is_by_times(times: list[tuple[str, int]], order: Order) -> bool:
    """One group for each time, the lowest first, of all boats that have it."""
    seconds = [dict(times).get(group[0], -1) for group in order]
    rising = all(s < t for s, t in combinations(seconds, 2))
    each = set(seconds) == {s for _, s in times}
    return rising and each and order == [[boat for boat, t in times if t == s] for s in seconds]


def is_nearest(total: int, parts: int, nearest: int) -> bool:
    """A total divided into equal parts, to the nearest whole number, one half upward."""
    not_above = 2 * parts * nearest <= 2 * total + parts
    not_below = 2 * total < 2 * parts * nearest + parts
    return not_above and not_below


def is_average(scores: list[int], otherwise: int, average: int) -> bool:
    """The average of these scores to the nearest tenth; without any, another score (own)."""
    of_none = 0 < len(scores) or average == otherwise
    of_some = 0 == len(scores) or is_nearest(sum(scores), len(scores), average)
    return of_none and of_some


def points_of_places(first: int, number: int) -> int:
    return sum(10 * place for place in range(first, first + number))


def exclusions_of(thresholds: list[int], scored: int) -> int:
    return sum(threshold <= scored for threshold in thresholds)


def came(status: str) -> bool:
    return status != "Dnc"


def is_dne(code: str | None) -> bool:
    return code == "Dne"


def mark_by(redress: Any, status: str, zfp: int, scp: int) -> str | None:
    if redress is not None:
        return "Rdg"
    if status != "Finished":
        return status
    return "Zfp" if zfp > 0 else "Scp" if scp > 0 else None


def cell_points(cells: list[Cell]) -> list[int]:
    return [cell.points for cell in cells]


def counting_points(cells: list[Cell]) -> list[int]:
    return cell_points([cell for cell in cells if not cell.dropped])


def is_lower_at_first(hers: list[int], other: list[int]) -> bool:
    """The lists are equal up to a position at which both continue, and hers is lower there."""
    return any(hers[:at] == other[:at] and hers[at] < other[at]
               for at in range(min(len(hers), len(other))))


def wins(a: Row, b: Row) -> bool:
    """The lowest series score wins (A2.1), then A8.1, then A8.2."""
    hers, other = counting_points(a.cells), counting_points(b.cells)
    if a.net == b.net and is_lower_at_first(sorted(hers), sorted(other)):
        return True
    if a.net == b.net and sorted(hers) == sorted(other) and is_lower_at_first(
            cell_points(a.cells)[::-1], cell_points(b.cells)[::-1]):
        return True
    return a.net < b.net


def comes_first(a: Row, b: Row) -> bool:
    return (a.rank, a.sail) <= (b.rank, b.sail)


def scored_as(s: Series, w: Work, boat: str) -> str:
    """Her code; else as finished if she is in the order; else DNC (own)."""
    return s.held(w.race, boat).code or ("Finished" if any(boat in g for g in w.order) else "Dnc")


def placed(s: Series, race: int, group: list[str]) -> list[str]:
    """The boats of a group that finished: those with a code take no place."""
    return [boat for boat in group if s.held(race, boat).code is None]


def own_points(s: Series, row: Row, test: Callable[[int], bool]) -> list[int]:
    """Her points in races that pass a test, without those in which she has an average (own)."""
    return [cell.points for race, cell in zip(s.scored, row.cells)
            if test(race) and s.held(race, row.sail).redress not in ("AllRaces", "RacesBefore")]


# ---- the sentences, in the order of their fields

def a3_finish(s: Series, w: Work) -> bool:
    """A3: boats are placed in the order in which they finish"""
    return s.rules.handicap is True or w.order == s.by_finish(w.race)


def a3_time(s: Series, w: Work) -> bool:
    """A3: or by corrected time if a handicap or rating system is used, the lowest first"""
    return s.rules.handicap is False or is_by_times(s.times(w.race), w.order)


def a5_2(s: Series, w: Work) -> bool:
    """A5.2: the DNF score is the points for the place one more than the number of boats entered"""
    return s.rules.absent != "A52" or w.dnf == len(s.entered) + 1


def a5_3(s: Series, w: Work) -> bool:
    """A5.3: or one more than the number of boats that came to the starting area"""
    return s.rules.absent != "A53" or (
        w.dnf == sum(came(scored_as(s, w, boat)) for boat in s.entered) + 1)


def a4_a7(s: Series, w: Work, boat: str) -> bool:
    """A4: 1 point for first place, 2 for second, and so on. A6.1: her place is one more than the
    number of boats ahead that finished. A7: boats tied for a place share equally the points for
    it and for the places immediately below"""
    for at, group in enumerate(w.order):
        ahead = w.order[:at]
        place = 1 + sum(len(placed(s, w.race, g)) for g in ahead)
        tied = placed(s, w.race, group)
        if boat in tied and len(tied) * w.base != points_of_places(place, len(tied)):
            return False
    return True


def dnc(s: Series, w: Work, boat: str) -> bool:
    """A5.2, A5.3: a boat that did not come scores one more than the number of boats entered"""
    return scored_as(s, w, boat) != "Dnc" or w.base == 10 * (len(s.entered) + 1)


def coded(s: Series, w: Work, boat: str) -> bool:
    """A5.2, A5.3: a boat that came and has a code scores the DNF score"""
    return scored_as(s, w, boat) in ("Finished", "Dnc") or w.base == 10 * w.dnf


def nearest(s: Series, w: Work) -> bool:
    """44.3(c): 20% of the DNF score, to the nearest whole number, 0.5 upward"""
    return is_nearest(20 * w.dnf, 100, w.twenty_percent)


def penalties(s: Series, w: Work, boat: str) -> bool:
    """44.3(c), 30.2: each SCP adds the stated amount or else 20%, each ZFP 20%, up to the DNF score"""
    hers = s.held(w.race, boat)
    stated = w.twenty_percent if s.rules.scp is None else s.rules.scp
    points = hers.zfp * w.twenty_percent + hers.scp * stated
    return not w.base < 10 * w.dnf or w.plain == min(w.base + 10 * points, 10 * w.dnf)


def no_better(s: Series, w: Work, boat: str) -> bool:
    """(own) a score that is no better than the DNF score is not changed"""
    return not 10 * w.dnf <= w.base or w.plain == w.base


def unredressed(s: Series, w: Work, row: Row, cell: Cell) -> bool:
    """without redress her points are those for her place or code, with penalties"""
    return s.held(w.race, row.sail).redress is not None or cell.points == w.plain


def a9_a(s: Series, w: Work, row: Row, cell: Cell) -> bool:
    """A9(a): redress as the average of her points in all other races"""
    return s.held(w.race, row.sail).redress != "AllRaces" or is_average(
        own_points(s, row, lambda other: other != w.race), w.plain, cell.points)


def a9_b(s: Series, w: Work, row: Row, cell: Cell) -> bool:
    """A9(b): or in all races before it"""
    return s.held(w.race, row.sail).redress != "RacesBefore" or is_average(
        own_points(s, row, lambda other: other < w.race), w.plain, cell.points)


def a9_c(s: Series, w: Work, row: Row, cell: Cell) -> bool:
    """A9(c): or points for her position at the time of the incident"""
    redress = s.held(w.race, row.sail).redress
    return not isinstance(redress, tuple) or cell.points == redress[1]


def a10(s: Series, w: Work, row: Row, cell: Cell) -> bool:
    """A10: the abbreviation"""
    hers = s.held(w.race, row.sail)
    return cell.mark == mark_by(hers.redress, scored_as(s, w, row.sail), hers.zfp, hers.scp)


def dne_counts(s: Series, w: Work, row: Row, cell: Cell) -> bool:
    """90.3(b): a DNE is always included"""
    return not is_dne(s.held(w.race, row.sail).code) or cell.dropped is False


def a2_2(s: Series, row: Row) -> bool:
    """A2.2: she is scored in each race that counts"""
    return len(row.cells) == len(s.scored)


def as_many(s: Series, row: Row) -> bool:
    """A2.1: as many scores are excluded as the rules of the series say, or all that may be"""
    excludable = sum(not is_dne(s.held(race, row.sail).code) for race in s.scored)
    return sum(cell.dropped for cell in row.cells) == min(
        exclusions_of(s.rules.thresholds, len(s.scored)), excludable)


def worst(s: Series, row: Row) -> bool:
    """A2.1: an excluded score is worse than each excludable one that counts, or equal and earlier"""
    cells = list(zip(s.scored, row.cells))
    return all(kept.points < cell.points or kept.points == cell.points and race < other
               for race, cell in cells for other, kept in cells
               if cell.dropped and not kept.dropped
               and not is_dne(s.held(other, row.sail).code))


def total(s: Series, row: Row) -> bool:
    """A2.1: the series score is the total of the scores that are not excluded"""
    return row.net == sum(counting_points(row.cells))


def races(s: Series, table: Table) -> bool:
    """the table has the races that count, in order (own)"""
    return table.races == s.scored


def entries(s: Series, table: Table) -> bool:
    """A2.2: each boat entered has one row"""
    return sorted(s.entered) == sorted(row.sail for row in table.rows)


def a8(s: Series, table: Table) -> bool:
    """A2.1, A8: a boat ranks ahead of another if and only if she wins"""
    return all((a.rank < b.rank) == wins(a, b) for a in table.rows for b in table.rows)


def rank(s: Series, table: Table) -> bool:
    """her rank is one more than the number of boats that rank ahead of her (own)"""
    return all(a.rank == 1 + sum(b.rank < a.rank for b in table.rows) for a in table.rows)


def tied(s: Series, table: Table) -> bool:
    """she is tied if and only if another boat has her rank (own)"""
    return all(a.tied == (1 < sum(b.rank == a.rank for b in table.rows)) for a in table.rows)


def in_order(s: Series, table: Table) -> bool:
    """the rows are in order of rank, then of sail (own)"""
    return all(comes_first(a, b) for a, b in combinations(table.rows, 2))
