"""A series scored by the rules as docs/SCORING.md and the RRS state them, in exact fractions, with the
decisions for which the program has no line. It shares no code with the package or the program."""
from __future__ import annotations

import copy
import math
from collections.abc import Mapping
from dataclasses import dataclass, field
from fractions import Fraction

COMMITTEE = ("", "DNF")


@dataclass
class Boat:
    """What one boat holds in one race as it was recorded, without decisions."""
    code: str = ""
    before: str = ""
    penalties: list[tuple[str, str]] = field(default_factory=list)
    redress: str = ""
    decided: bool = False


@dataclass
class Race:
    order: list[list[str]] = field(default_factory=list)
    held: dict[str, Boat] = field(default_factory=dict)
    counts: bool = True

    def boat(self, sail: str) -> Boat:
        return self.held.setdefault(sail, Boat())


@dataclass(frozen=True)
class Decision:
    race: int
    sail: str
    kind: str
    how: str = ""

    def __str__(self) -> str:
        return f"race {self.race} {self.sail} {self.kind} {self.how}".rstrip()


@dataclass
class Series:
    boats: list[str]
    races: dict[int, Race]
    absent: str
    scp: str

    # One race without redress

    def status(self, number: int, sail: str) -> str:
        race = self.races[number]
        has_place = any(sail in group for group in race.order)
        return race.boat(sail).code or ("" if has_place else "DNC")

    def dnf(self, number: int) -> int:
        """RRS A5.2: one more than the boats entered; A5.3: than those that came."""
        came = [sail for sail in self.boats if self.status(number, sail) != "DNC"]
        return 1 + len(self.boats if self.absent == "a52" else came)

    def place_points(self, number: int) -> dict[str, Fraction]:
        """RRS A4, A6.1, A7: boats with a code are out, and tied boats share their places' points."""
        points: dict[str, Fraction] = {}
        place = 1
        for group in self.races[number].order:
            there = [sail for sail in group if not self.races[number].boat(sail).code]
            shared = sum(range(place, place + len(there)))
            points |= {sail: Fraction(shared, len(there)) for sail in there}
            place += len(there)
        return points

    def cost(self, number: int, kind: str) -> int:
        if kind == "SCP" and self.scp:
            return int(self.scp)
        return whole(Fraction(20 * self.dnf(number), 100))

    def plain(self, number: int, sail: str) -> Fraction:
        """A boat's score before redress."""
        status, dnf = self.status(number, sail), self.dnf(number)
        if status == "DNC":
            score = Fraction(len(self.boats) + 1)
        else:
            score = Fraction(dnf) if status else self.place_points(number)[sail]
        cost = sum(self.cost(number, kind) for kind, _ in self.races[number].boat(sail).penalties)
        return max(score, min(Fraction(dnf), score + cost))

    # With redress

    def scores(self, sail: str) -> dict[int, Fraction]:
        """A boat's scores in the races that count, redress and all (RRS A9)."""
        counted = [number for number, race in self.races.items() if race.counts]
        how = {number: self.races[number].boat(sail).redress for number in counted}
        found = {number: Fraction(how[number]) if how[number][:1].isdigit()
                 else self.plain(number, sail) for number in counted}
        average = {number for number in counted if how[number] in ("ALL", "PRIOR")}
        points = {number: score for number, score in found.items() if number not in average}
        for number in average:
            others = [score for other, score in points.items()
                      if how[number] == "ALL" or other < number]
            if others:
                found[number] = mean(others)
        return found


def whole(number: Fraction) -> int:
    """The nearest whole number, 0.5 upward (RRS 44.3(c))."""
    return math.floor(number + Fraction(1, 2))


def mean(points: list[Fraction]) -> Fraction:
    """The average to the nearest tenth, 0.05 upward (RRS A9)."""
    return Fraction(math.floor(sum(points) / len(points) * 10 + Fraction(1, 2)), 10)


def why_not(series: Series, decision: Decision) -> str:
    """Why a decision can't be given; empty if it can."""
    held = series.races[decision.race].boat(decision.sail)
    if decision.kind == "REINSTATE":
        return "" if held.decided else "nothing was decided"
    if held.code in ("DSQ", "DNE"):
        return "disqualified"
    if held.redress in ("ALL", "PRIOR"):
        return "other redress"
    if decision.kind in ("TLE", "NSC") and held.code not in COMMITTEE:
        return "another code"
    if decision.kind != "NSC" and not series.races[decision.race].counts:
        return "not scored"
    return ""


def without(series: Series, decisions: list[Decision]) -> Series:
    """The series as it is before the points of its decisions are set."""
    base = copy.deepcopy(series)
    for decision in decisions:
        held = base.races[decision.race].boat(decision.sail)
        held.redress = ""
        if decision.kind == "REINSTATE":
            held.code = held.before if held.code in ("DSQ", "DNE") else held.code
            held.penalties = [given for given in held.penalties if given[1] != "JURY"]
        elif decision.kind in ("TLE", "NSC"):
            held.code = "DNF"
    return base


def outcome(series: Series, decisions: list[Decision]) -> dict[Decision, Fraction | str | None]:
    """What each decision comes to: points, nothing to set (None), or a text that says why not."""
    found: dict[Decision, Fraction | str | None] = {
        decision: why_not(series, decision) or None for decision in decisions}
    for decision in [decision for decision in decisions if found[decision] is None]:
        if decision.how.startswith("last") and not finishers(series, decision.race, found):
            found[decision] = "nobody finished"
    given = [decision for decision in decisions if found[decision] is None]
    base = without(series, given)
    for decision in given:
        if decision.kind in ("DPI", "PRP", "T1", "SCP", "TLE"):
            found[decision] = penalised(base, decision)
    points = {(decision.race, decision.sail): score for decision, score in found.items()
              if isinstance(score, Fraction)}
    for decision in given:
        if decision.kind in ("AVG", "DUTY"):
            found[decision] = averaged(base, decision, given, points)
    return found


def finishers(series: Series, number: int, found: Mapping[Decision, object]) -> dict[str, Fraction]:
    """The boats with a place, when those that are TLE or NSC are out."""
    given = [decision for decision in found if not why_not(series, decision)]
    return without(series, given).place_points(number)


def penalised(base: Series, decision: Decision) -> Fraction:
    """RRS 44.3(c), T1(b): worse by a share of the DNF score or by points, and not beyond it."""
    number, dnf = decision.race, Fraction(base.dnf(decision.race))
    if decision.kind != "TLE":
        score = base.plain(number, decision.sail)
        amount = (Fraction(whole(Fraction(int(decision.how[:-1]) * base.dnf(number), 100)))
                  if decision.how[-1] == "%" else Fraction(decision.how))
        return max(score, min(dnf, score + amount))
    places = base.place_points(number)
    score = (max(places.values()) + int(decision.how[5:]) if decision.how.startswith("last")
             else Fraction(decision.how))
    held = base.races[number].boat(decision.sail)
    return min(dnf, score + sum(base.cost(number, kind) for kind, _ in held.penalties))


def averaged(base: Series, decision: Decision, given: list[Decision],
             points: dict[tuple[int, str], Fraction]) -> Fraction | str:
    """RRS A9(a), A9(b): her points in some races, none of them an average."""
    sail = decision.sail
    averages = {other.race for other in given
                if other.sail == sail and other.kind in ("AVG", "DUTY")}
    averages |= {number for number, race in base.races.items()
                 if race.boat(sail).redress in ("ALL", "PRIOR")}
    scores = {number: points.get((number, sail), score)
              for number, score in base.scores(sail).items()}
    if decision.how[0].isdigit():
        chosen = [int(text) for text in decision.how.split(",")]
        if averages & set(chosen) or set(chosen) - set(scores):
            return "an average of averages, or of races that don't count"
    else:
        chosen = [number for number in scores if number not in averages and {
            "all": True, "before": number < decision.race,
            "sailed": base.status(number, sail) != "DNC"}[decision.how]]
    return mean([scores[number] for number in chosen]) if chosen else "no other race"


def settled(series: Series, decisions: list[Decision]) -> dict[tuple[int, str], Fraction]:
    """Every score of the series once its decisions are in the journal."""
    found = outcome(series, decisions)
    kept = [decision for decision in decisions if not isinstance(found[decision], str)]
    base = without(series, kept)
    for decision in kept:
        score = found[decision]
        if isinstance(score, Fraction):
            base.races[decision.race].boat(decision.sail).redress = f"{float(score):.1f}"
    return {(number, sail): score for sail in base.boats
            for number, score in base.scores(sail).items()}
