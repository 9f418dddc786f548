"""The document of `regatta explain`, worked out from a journal's text by the rules as docs/SCORING.md and the RRS
state them, in exact fractions. It shares no code with the package or the program."""
from __future__ import annotations

import math
from dataclasses import dataclass, field
from fractions import Fraction
from typing import Any, NamedTuple

Order = list[list[str]]
RACES = range(1, 41)


@dataclass
class Rules:
    absent: str = "a52"
    scp: int | None = None
    exclude: list[int] = field(default_factory=lambda: [2])
    handicap: bool = False


@dataclass
class Held:
    """What a boat has in a race: decisions since the last CLEAR, and her time."""
    code: str | None = None
    zfp: int = 0
    scp: int = 0
    redress: Any = None
    seconds: int | None = None

    def is_nothing(self) -> bool:
        return self == Held()


class Score(NamedTuple):
    """A boat's score in a race before averages."""
    status: str
    base: Fraction
    penalty: int
    plain: Fraction
    given: Fraction


class Row(NamedTuple):
    """A boat's row of the table."""
    sail: str
    points: list[Fraction]
    dropped: list[bool]

    def counting(self) -> list[Fraction]:
        return sorted(points for points, out in zip(self.points, self.dropped) if not out)

    def net(self) -> Fraction:
        return sum(self.counting(), Fraction(0))

    def key(self) -> tuple[Any, ...]:
        """By what boats are ranked: the series score (A2.1), A8.1 and A8.2."""
        return self.net(), self.counting(), self.points[::-1]


class Race:
    """One race as the journal's lines leave it."""

    def __init__(self) -> None:
        self.finished: Order = []
        self.held: dict[str, Held] = {}
        self.counts = False

    def boat(self, sail: str) -> Held:
        return self.held.setdefault(sail, Held())

    def finish(self, verb: str, sail: str, other: str) -> None:
        """RRS A3: last; level with another boat (A7); directly ahead of her and of those level with her."""
        if verb == "FINISH":
            self.finished.append([sail])
            return
        at = next(i for i, group in enumerate(self.finished) if other in group)
        if verb == "TIE":
            self.finished[at].append(sail)
        else:
            self.finished.insert(at, [sail])

    def take(self, verb: str, words: list[str]) -> None:
        if verb in ("SCORE", "UNSCORE"):
            self.counts = verb == "SCORE"
            return
        sail, last = words[0], words[-1]
        boat = self.boat(sail)
        if verb in ("FINISH", "TIE", "BEFORE"):
            self.finish(verb, sail, last)
        elif verb == "TIME":
            boat.seconds = int(last)
            self.timed = [other for other in getattr(self, "timed", []) if other != sail] + [sail]
        elif verb == "STRIKE":
            boat.seconds = None
            self.finished = [rest for group in self.finished if (rest := [b for b in group if b != sail])]
        elif verb == "MARK":
            boat.code = last
        elif verb == "PENALTY":
            boat.zfp += last == "ZFP"
            boat.scp += last == "SCP"
        elif verb == "REDRESS":
            boat.redress = last if last in ("ALL", "PRIOR") else Fraction(last)
        else:
            self.held[sail] = Held(seconds=boat.seconds)


def whole(points: Fraction) -> int:
    """To the nearest whole number, 0.5 upward (RRS 44.3(c))."""
    return math.floor(points + Fraction(1, 2))


def tenth(points: Fraction) -> Fraction:
    """To the nearest tenth, 0.05 upward (RRS A9)."""
    return Fraction(math.floor(10 * points + Fraction(1, 2)), 10)


class Series:
    def __init__(self, rules: Rules, journal: str) -> None:
        self.rules = rules
        self.boats: list[str] = []
        self.races = {race: Race() for race in RACES}
        self.lines = [line.split()[3:] for line in journal.splitlines() if not line.startswith("REGATTA")]
        for verb, *words in self.lines:
            if verb == "ENTER":
                self.boats.append(words[0])
            else:
                self.races[int(words[0])].take(verb, words[1:])
        self.scored = [race for race in RACES if self.races[race].counts]

    # ---- one race

    def order(self, race: int) -> Order:
        """RRS A3: in the order of finishing, or by corrected times, and boats of one time level."""
        there = self.races[race]
        if not self.rules.handicap:
            return there.finished
        timed = [boat for boat in getattr(there, "timed", []) if there.boat(boat).seconds is not None]
        seconds = {boat: there.boat(boat).seconds or 0 for boat in timed}
        return [[b for b in timed if seconds[b] == s] for s in sorted(set(seconds.values()))]

    def held(self, race: int, sail: str) -> Held:
        return self.races[race].held.get(sail, Held())

    def status(self, race: int, sail: str) -> str:
        is_placed = any(sail in group for group in self.order(race))
        return self.held(race, sail).code or ("FIN" if is_placed else "DNC")

    def came(self, race: int) -> int:
        return sum(self.status(race, sail) != "DNC" for sail in self.boats)

    def dnf(self, race: int) -> int:
        """RRS A5.2: one more than the boats entered; A5.3: than those that came."""
        return 1 + (len(self.boats) if self.rules.absent == "a52" else self.came(race))

    def twenty_percent(self, race: int) -> int:
        return whole(Fraction(20 * self.dnf(race), 100))

    def groups(self, race: int) -> list[dict[str, Any]]:
        """RRS A4, A6.1: a group's place is one more than the boats that finished ahead of it."""
        groups, place = [], 1
        for group in self.order(race):
            sharing = sum(self.held(race, sail).code is None for sail in group)
            groups.append({"place": place, "sharing": sharing, "boats": group})
            place += sharing
        return groups

    def base(self, race: int, sail: str) -> Fraction:
        status = self.status(race, sail)
        if status == "DNC":
            return Fraction(len(self.boats) + 1)
        if status != "FIN":
            return Fraction(self.dnf(race))
        group = next(group for group in self.groups(race) if sail in group["boats"])
        places = range(group["place"], group["place"] + group["sharing"])
        return Fraction(sum(places), len(places))

    def score(self, race: int, sail: str) -> Score:
        hers, base, most = self.held(race, sail), self.base(race, sail), self.dnf(race)
        each = self.twenty_percent(race)
        penalty = hers.zfp * each + hers.scp * (each if self.rules.scp is None else self.rules.scp)
        plain = base if base >= most else min(base + penalty, Fraction(most))
        given = hers.redress if isinstance(hers.redress, Fraction) else plain
        return Score(self.status(race, sail), base, penalty, plain, given)

    def mark(self, race: int, sail: str) -> str | None:
        hers, status = self.held(race, sail), self.status(race, sail)
        if hers.redress is not None:
            return "RDG"
        if status != "FIN":
            return status
        return "ZFP" if hers.zfp else "SCP" if hers.scp else None

    def race(self, race: int) -> dict[str, Any]:
        return {
            "race": race, "counts": self.races[race].counts, "entered": len(self.boats), "came": self.came(race),
            "dnf": self.dnf(race), "twenty_percent": self.twenty_percent(race), "groups": self.groups(race),
            "boats": [self.boat_in(race, sail) for sail in self.boats],
        }

    def boat_in(self, race: int, sail: str) -> dict[str, Any]:
        hers, status = self.held(race, sail), self.status(race, sail)
        return {"sail": sail, "status": status, "came": status != "DNC", "code": hers.code, "zfp": hers.zfp,
                "scp": hers.scp, "redress": hers.redress, "seconds": hers.seconds}

    def is_recorded(self, race: int) -> bool:
        there = self.races[race]
        return there.counts or bool(self.order(race)) or any(not held.is_nothing() for held in there.held.values())

    # ---- the series

    def averaged(self, sail: str, race: int, scored: list[int]) -> list[int]:
        """RRS A9: the races that an average counts, without those that are an average themselves."""
        how = self.held(race, sail).redress
        if how not in ("ALL", "PRIOR"):
            return []
        return [other for other in scored if (other < race or how == "ALL" and other > race)
                and self.held(other, sail).redress not in ("ALL", "PRIOR")]

    def points(self, sail: str, race: int, scored: list[int]) -> Fraction:
        given = self.score(race, sail).given
        others = self.averaged(sail, race, scored)
        if not others:
            return given
        return tenth(sum((self.score(other, sail).given for other in others), Fraction(0)) / len(others))

    def row(self, sail: str, scored: list[int]) -> Row:
        """RRS A2.1, 90.3(b): the worst scores are excluded, the earlier of equal ones, and no DNE."""
        points = [self.points(sail, race, scored) for race in scored]
        may = [at for at, race in enumerate(scored) if self.held(race, sail).code != "DNE"]
        many = sum(races <= len(scored) for races in self.rules.exclude)
        out = sorted(may, key=lambda at: (-points[at], at))[:many]
        return Row(sail, points, [at in out for at in range(len(scored))])

    def table(self, scored: list[int]) -> list[tuple[int, bool, Row]]:
        rows = [self.row(sail, scored) for sail in self.boats]
        keys = [row.key() for row in rows]
        ranked = [(1 + sum(key < row.key() for key in keys), keys.count(row.key()) > 1, row) for row in rows]
        return sorted(ranked, key=lambda ranks: (ranks[0], ranks[2].sail))

    def boat(self, rank: int, tied: bool, row: Row) -> dict[str, Any]:
        return {"sail": row.sail, "rank": rank, "tied": tied, "net": row.net(), "total": sum(row.points),
                "scores": [self.boat_score(row, at, race) for at, race in enumerate(self.scored)]}

    def boat_score(self, row: Row, at: int, race: int) -> dict[str, Any]:
        score, others = self.score(race, row.sail), self.averaged(row.sail, race, self.scored)
        return {
            "race": race, "status": score.status, "base": score.base, "penalty": score.penalty, "plain": score.plain,
            "redress": self.held(race, row.sail).redress, "averaged": others,
            "sum": sum(self.score(other, row.sail).given for other in others), "points": row.points[at],
            "mark": self.mark(race, row.sail), "excluded": row.dropped[at],
        }

    def between(self, first: Row, second: Row) -> dict[str, Any]:
        """RRS A8.1: the first difference from best to worst; A8.2: that from the last race back."""
        found: dict[str, Any] = {"first": first.sail, "second": second.sail, "rule": None}
        for position, scores in enumerate(zip(first.counting(), second.counting()), 1):
            if scores[0] != scores[1]:
                return {**found, "rule": "A8.1", "position": position, "scores": list(scores)}
        for race, one, other in list(zip(self.scored, first.points, second.points))[::-1]:
            if one != other:
                return {**found, "rule": "A8.2", "race": race, "scores": [one, other]}
        return found

    def last_entry(self) -> int:
        """The last line on which the table depends."""
        depends = [verb in ("ENTER", "SCORE", "UNSCORE") or int(words[0]) in self.scored
                   for verb, *words in self.lines]
        return max((at for at, does in enumerate(depends, 1) if does), default=0)

    def document(self) -> dict[str, Any]:
        table = self.table(self.scored)
        rows = [row for _, _, row in table]
        return {
            "rules": {"absent": {"a52": "A5.2", "a53": "A5.3"}[self.rules.absent], "scp": self.rules.scp,
                      "exclude": self.rules.exclude, "handicap": self.rules.handicap},
            "last_entry": self.last_entry(),
            "races": [self.race(race) for race in RACES if self.is_recorded(race)],
            "boats": [self.boat(*ranks) for ranks in table],
            "neighbours": [self.between(a, b) for a, b in zip(rows, rows[1:]) if a.net() == b.net()],
            "after_each": [{"race": race, "ranks": [[row.sail, rank, tied] for rank, tied, row in
                                                    self.table([other for other in self.scored if other <= race])]}
                           for race in self.scored],
        }
