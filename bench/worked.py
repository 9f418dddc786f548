"""The worked cases of crates/regatta_scores/specs, and a few more in the same notation: a journal, and the
table that was worked out for it by hand, with tables that differ from it in little."""
from __future__ import annotations

import re
from collections.abc import Iterator
from itertools import combinations
from pathlib import Path
from typing import Any, NamedTuple

from appendix_a import Cell, Row, Rules, Series, Table, exclusions_of, wins

SPECS = Path(__file__).resolve().parent.parent / "crates" / "regatta_scores" / "specs"
MODULES = "WorkedStandings WorkedTimes WorkedCases".split()

MORE = """
-- A5.3. Twelve boats come to race 1 and eleven to race 2: the DNF scores are 13 and 12, and 20% of them
-- 2.6 and 2.4, to the nearest whole number 3 and 2. In race 1 A's ZFP costs 3 points, and B's two cost 6.
-- In race 2 A's ZFP costs 2 points, and C's ZFP and SCP cost 4. L did not come, and scores 13. B, C and E
-- have 10.0 each: the best score of B is 2.0, of C 3.0 and of E 5.0 (A8.1), though in the last race E is
-- ahead of C.
abbrev pub twelve_boats : WorkedCase
twelve_boats =
    worked (record { absent = A53; scp = None; thresholds = []; handicap = false })
    (scorer (Enter a) ∷ scorer (Enter b) ∷ scorer (Enter c) ∷ scorer (Enter d) ∷ scorer (Enter e)
    ∷ scorer (Enter f) ∷ scorer (Enter g) ∷ scorer (Enter h) ∷ scorer (Enter i) ∷ scorer (Enter j)
    ∷ scorer (Enter k) ∷ scorer (Enter l) ∷ scorer (Finish 1 a) ∷ scorer (Finish 1 b)
    ∷ scorer (Finish 1 c) ∷ scorer (Finish 1 d) ∷ scorer (Finish 1 e) ∷ scorer (Finish 1 f)
    ∷ scorer (Finish 1 g) ∷ scorer (Finish 1 h) ∷ scorer (Finish 1 i) ∷ scorer (Finish 1 j)
    ∷ scorer (Finish 1 k) ∷ scorer (Finish 1 l) ∷ scorer (Penalise 1 a Zfp)
    ∷ scorer (Penalise 1 b Zfp) ∷ scorer (Penalise 1 b Zfp) ∷ scorer (Score 1)
    ∷ scorer (Finish 2 a) ∷ scorer (Finish 2 b) ∷ scorer (Finish 2 c) ∷ scorer (Finish 2 d)
    ∷ scorer (Finish 2 e) ∷ scorer (Finish 2 f) ∷ scorer (Finish 2 g) ∷ scorer (Finish 2 h)
    ∷ scorer (Finish 2 i) ∷ scorer (Finish 2 j) ∷ scorer (Finish 2 k) ∷ scorer (Penalise 2 a Zfp)
    ∷ scorer (Penalise 2 c Scp) ∷ scorer (Penalise 2 c Zfp) ∷ scorer (Score 2) ∷ [])
    (table (1 ∷ 2 ∷ []) (
    row a 1 false 70 (marked 40 Zfp ∷ marked 30 Zfp ∷ [])
    ∷ row d 2 false 80 (plain 40 ∷ plain 40 ∷ [])
    ∷ row b 3 false 100 (marked 80 Zfp ∷ plain 20 ∷ [])
    ∷ row c 4 false 100 (plain 30 ∷ marked 70 Zfp ∷ [])
    ∷ row e 5 false 100 (plain 50 ∷ plain 50 ∷ [])
    ∷ row f 6 false 120 (plain 60 ∷ plain 60 ∷ []) ∷ row g 7 false 140 (plain 70 ∷ plain 70 ∷ [])
    ∷ row h 8 false 160 (plain 80 ∷ plain 80 ∷ []) ∷ row i 9 false 180 (plain 90 ∷ plain 90 ∷ [])
    ∷ row j 10 false 200 (plain 100 ∷ plain 100 ∷ [])
    ∷ row k 11 false 220 (plain 110 ∷ plain 110 ∷ [])
    ∷ row l 12 false 250 (plain 120 ∷ coded 130 Dnc ∷ []) ∷ []))

-- One race counts, so A's average of all other races and B's of the races before are of no race: they
-- score what they would have without redress. The DNF score is 4, and a ZFP costs 1 point: A's 1.0
-- becomes 2.0, and B's 2.0 becomes 3.0. C is given 2.5 points.
abbrev pub redress_in_the_only_race : WorkedCase
redress_in_the_only_race =
    worked no_exclusions (scorer (Enter a) ∷ scorer (Enter b) ∷ scorer (Enter c)
    ∷ scorer (Finish 1 a) ∷ scorer (Finish 1 b) ∷ scorer (Finish 1 c) ∷ scorer (Score 1)
    ∷ scorer (Penalise 1 a Zfp) ∷ jury (Redress 1 a AllRaces) ∷ scorer (Penalise 1 b Zfp)
    ∷ jury (Redress 1 b RacesBefore) ∷ jury (Redress 1 c (Points 25)) ∷ [])
    (table (1 ∷ []) (
    row a 1 false 20 (marked 20 Rdg ∷ []) ∷ row c 2 false 25 (marked 25 Rdg ∷ [])
    ∷ row b 3 false 30 (marked 30 Rdg ∷ []) ∷ []))

-- A's DSQ is excluded, unlike a DNE. She and B have 1.0 each, and she is ahead in the last race (A8.2).
abbrev pub excluded_dsq : WorkedCase
excluded_dsq =
    worked default_rules (scorer (Enter a) ∷ scorer (Enter b)
    ∷ scorer (Finish 1 a) ∷ scorer (Finish 1 b) ∷ scorer (Score 1) ∷ jury (Mark 1 a Dsq)
    ∷ scorer (Finish 2 a) ∷ scorer (Finish 2 b) ∷ scorer (Score 2) ∷ [])
    (table (1 ∷ 2 ∷ []) (
    row a 1 false 10 (out 30 Dsq ∷ plain 10 ∷ [])
    ∷ row b 2 false 10 (plain 10 ∷ excluded 20 ∷ []) ∷ []))

"""

DEFINITION = re.compile(r"^abbrev pub (\w+) : (WorkedCase|RulesParts|List \(Role × Command\))\n"
                        r"\1 =(.*?)\n\n", re.MULTILINE | re.DOTALL)
TOKEN = re.compile(r"[(){};=]|[^\s(){};=]+")
ENDS = ") ; } ∷ ++".split()


class Example(NamedTuple):
    name: str
    series: Series
    by_hand: Table


# ---- reading

# The words of the notation. Any other word with a capital is what it says.
WORDS: dict[str, Any] = {
    "true": True, "false": False, "None": None, "[]": [], "Some": lambda value: value,
    "scorer": lambda command: command, "jury": lambda command: command,
    "plain": lambda points: Cell(points, None, False),
    "marked": lambda points, mark: Cell(points, mark, False),
    "coded": lambda points, code: Cell(points, code, False),
    "excluded": lambda points: Cell(points, None, True),
    "out": lambda points, code: Cell(points, code, True),
    "row": Row, "table": Table,
    "worked": lambda rules, journal, by_hand: (Series(rules, journal), by_hand),
    **{letter: letter.upper() for letter in "abcdefghijkl"},
}


class Reader:
    """Reads values of the notation, by the definitions of some modules."""

    def __init__(self, text: str) -> None:
        self.kinds = {name: kind for name, kind, _ in DEFINITION.findall(text)}
        self.bodies = {name: body for name, _, body in DEFINITION.findall(text)}

    def named(self, name: str) -> Any:
        return self.expression(TOKEN.findall(self.bodies[name]))

    def expression(self, tokens: list[str]) -> Any:
        first = self.application(tokens)
        if tokens and tokens[0] in ("∷", "++"):
            joined = [first] if tokens.pop(0) == "∷" else first
            return joined + self.expression(tokens)
        return first

    def application(self, tokens: list[str]) -> Any:
        parts = []
        while tokens and tokens[0] not in ENDS:
            parts.append(self.atom(tokens))
        if callable(parts[0]):
            return parts[0](*parts[1:])
        return tuple(parts) if parts[1:] else parts[0]

    def atom(self, tokens: list[str]) -> Any:
        token = tokens.pop(0)
        if token == "(":
            value = self.expression(tokens)
            assert tokens.pop(0) == ")"
            return value
        if token == "record":
            return Rules(**self.fields(tokens))
        if token in WORDS:
            return WORDS[token]
        if token in self.bodies:
            return self.named(token)
        name = token.split(".")[-1]
        assert name.isdigit() or name[0].isupper(), f"unknown: {token}"
        return int(name) if name.isdigit() else name

    def fields(self, tokens: list[str]) -> dict[str, Any]:
        fields = {}
        while tokens.pop(0) != "}":
            if tokens[0] != "}":
                name = tokens.pop(0)
                assert tokens.pop(0) == "="
                fields[name] = self.expression(tokens)
        return fields


def worked_cases() -> list[Example]:
    texts = [(SPECS / f"{module}.antt").read_text(encoding="utf-8") for module in MODULES]
    reader = Reader("\n".join(texts) + MORE)
    return [Example(name, *reader.named(name)) for name, kind in reader.kinds.items()
            if kind == "WorkedCase"]


# ---- neighbours of a table

Named = list[tuple[str, Table]]


def replaced(items: list[Any], at: int, *new: Any) -> list[Any]:
    return items[:at] + list(new) + items[at + 1:]


def totalled(row: Row, cells: list[Cell]) -> Row:
    return row._replace(cells=cells, net=sum(cell.points for cell in cells if not cell.dropped))


def rescored(s: Series, row: Row, race: int, cell: Cell) -> Row:
    """The row with another cell, and the worst cells excluded again."""
    cells = replaced(row.cells, race, cell)
    free = [at for at, number in enumerate(s.scored) if s.held(number, row.sail).code != "Dne"]
    worst = sorted(free, key=lambda at: (-cells[at].points, at))
    worst = worst[:exclusions_of(s.rules.thresholds, len(s.scored))]
    return totalled(row, [cell._replace(dropped=at in worst) for at, cell in enumerate(cells)])


def ranked(table: Table, rows: list[Row]) -> Table:
    """A table of these rows, ranked again."""
    rows = [row._replace(rank=1 + sum(wins(other, row) for other in rows)) for row in rows]
    ranks = [row.rank for row in rows]
    rows = [row._replace(tied=ranks.count(row.rank) > 1) for row in rows]
    return table._replace(rows=sorted(rows, key=lambda row: (row.rank, row.sail)))


def with_row(table: Table, at: int, row: Row) -> Table:
    return ranked(table, replaced(table.rows, at, row))


def other_cells(s: Series, cell: Cell) -> list[tuple[str, Cell]]:
    """The cell with other points or another abbreviation."""
    points = [(f"{change:+} tenths", cell._replace(points=cell.points + change))
              for change in (-10, -5, -1, 1, 5, 10)]
    marks = [(f"abbreviation {mark}", cell._replace(mark=mark))
             for mark in (None, "Rdg", "Zfp", "Scp", "Dnf", "Dnc")]
    not_come = cell._replace(points=10 * (len(s.entered) + 1), mark="Dnc")
    return points + marks + [("a score for DNC", not_come)]


def other_exclusions(cells: list[Cell]) -> list[list[Cell]]:
    """The cells with one more or one fewer of them excluded, or another one."""
    turned = [cell._replace(dropped=not cell.dropped) for cell in cells]
    one = [replaced(cells, at, turned[at]) for at in range(len(cells))]
    two = [replaced(one[i], j, turned[j]) for i, j in combinations(range(len(cells)), 2)
           if cells[i].dropped != cells[j].dropped]
    return one + two


def by_cells(s: Series, table: Table) -> Named:
    """Another cell of one boat, and what follows from it."""
    return [(f"{text} for {row.sail}", with_row(table, at, rescored(s, row, race, cell)))
            for at, row in enumerate(table.rows) for race in range(len(row.cells))
            for text, cell in other_cells(s, row.cells[race])]


def by_exclusions(table: Table) -> Named:
    """Other exclusions of one boat, and what follows from them."""
    return [(f"other exclusions of {row.sail}", with_row(table, at, totalled(row, cells)))
            for at, row in enumerate(table.rows) for cells in other_exclusions(row.cells)]


def by_lengths(table: Table) -> Named:
    """One cell more or fewer of one boat, and what follows from it."""
    return [(f"{len(cells)} cells of {row.sail}", with_row(table, at, totalled(row, cells)))
            for at, row in enumerate(table.rows)
            for cells in (row.cells[:-1], row.cells + [Cell(10, None, False)])]


def by_totals(table: Table) -> Named:
    """Another series score of one boat, and what follows from it."""
    return [(f"{change:+} in all for {row.sail}",
             with_row(table, at, row._replace(net=row.net + change)))
            for at, row in enumerate(table.rows) for change in (-1, 1)]


def by_exchange(s: Series, table: Table) -> Iterator[tuple[str, Table]]:
    """Two boats with each other's points in a race, and what follows from it."""
    for i, j, race in [(i, j, race) for i, j in combinations(range(len(table.rows)), 2)
                       for race in range(len(table.races))]:
        a, b = table.rows[i], table.rows[j]
        hers, other = a.cells[race], b.cells[race]
        a = rescored(s, a, race, hers._replace(points=other.points))
        b = rescored(s, b, race, other._replace(points=hers.points))
        rows = replaced(replaced(table.rows, i, a), j, b)
        yield f"the points of {a.sail} and {b.sail} exchanged", ranked(table, rows)


def by_rows(table: Table) -> Iterator[tuple[str, Table]]:
    """One rank or row changed, left out or doubled."""
    for at, row in enumerate(table.rows):
        turned = row._replace(tied=not row.tied)
        yield f"{row.sail} tied or not", table._replace(rows=replaced(table.rows, at, turned))
        later = [row._replace(rank=row.rank + 1) for row in table.rows[at:]]
        yield f"a gap ahead of {row.sail}", table._replace(rows=table.rows[:at] + later)
        yield f"no {row.sail}", ranked(table, replaced(table.rows, at))
        yield f"{row.sail} twice", ranked(table, replaced(table.rows, at, row, row))
        yield f"Z for {row.sail}", with_row(table, at, row._replace(sail="Z"))
        yield f"Z beside {row.sail}", ranked(table, table.rows + [row._replace(sail="Z")])


def by_ranks(table: Table) -> Iterator[tuple[str, Table]]:
    """Two rows or ranks exchanged, a tie made or broken."""
    for at, (a, b) in enumerate(zip(table.rows, table.rows[1:])):
        changes = {"rows exchanged": (b, a),
                   "ranks exchanged": (b._replace(rank=a.rank, tied=a.tied),
                                       a._replace(rank=b.rank, tied=b.tied)),
                   "tied": (a._replace(tied=True), b._replace(rank=a.rank, tied=True)),
                   "not tied": (a._replace(rank=at + 1, tied=False),
                                b._replace(rank=at + 2, tied=False))}
        yield from ((f"{a.sail} and {b.sail} {text}",
                     table._replace(rows=table.rows[:at] + list(pair) + table.rows[at + 2:]))
                    for text, pair in changes.items())


def by_races(table: Table) -> Named:
    """The races in another order, one fewer or one more."""
    return [(f"races {races}", table._replace(races=races))
            for races in (table.races[::-1], table.races[:-1], table.races + [40])]


def neighbours(example: Example) -> Named:
    """Tables that differ in little from the one that was worked out by hand."""
    s, table = example.series, example.by_hand
    found = [*by_cells(s, table), *by_exclusions(table), *by_lengths(table), *by_totals(table),
             *by_exchange(s, table), *by_rows(table), *by_ranks(table), *by_races(table)]
    return [(text, other) for text, other in found if other != table]
