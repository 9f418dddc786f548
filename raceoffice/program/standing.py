"""The table that the program prints, as values: its rows and scores, ties, and how boats moved.

No score is computed here. Points, ranks and exclusions come from the table.
"""
from __future__ import annotations

import re
from dataclasses import dataclass

from raceoffice.errors import NoTable
from raceoffice.remarks import remark


# Each boat's rank, and whether she shares it.
Ranks = dict[str, tuple[int, bool]]


@dataclass(frozen=True)
class Score:
    """One cell of the table: `(44.0/DNF)`."""
    points: str
    code: str
    excluded: bool

    @classmethod
    def read(cls, cell: str) -> Score:
        found = re.fullmatch(r"(\()?([0-9]{1,9}\.[0-9])(?:/([A-Z]{3}))?(\))?", cell)
        if not found or bool(found[1]) != bool(found[4]):
            raise NoTable(remark("table-cell", said=repr(cell[:60])))
        return cls(found[2], found[3] or "", bool(found[1]))

    @property
    def tenths(self) -> int:
        return int(self.points.replace(".", ""))


@dataclass(frozen=True)
class Row:
    rank: int
    shared: bool
    sail: str
    net: str
    scores: tuple[Score, ...]


@dataclass(frozen=True)
class Standing:
    races: tuple[int, ...]
    rows: tuple[Row, ...]

    def score(self, row: Row, race: int) -> Score:
        """A boat's score in a race that counts."""
        return row.scores[self.races.index(race)]

    def ranks(self) -> Ranks:
        return {row.sail: (row.rank, row.shared) for row in self.rows}

    @classmethod
    def read(cls, table: list[str]) -> Standing:
        """The standing of a table; NoTable if it isn't one as the program prints it."""
        first = table[0] if table else ""
        head = re.fullmatch(r"TABLE ([0-9]{1,3}) RACES((?: [0-9]{1,2})*)", first)
        if not head or int(head[1]) != len(table) - 1:
            raise NoTable(remark("table-begin", said=repr(first[:60])))
        races = tuple(map(int, head[2].split()))
        return cls(races, tuple(row_of(line, len(races)) for line in table[1:]))


def row_of(line: str, races: int) -> Row:
    """A row of the table, with its scores in so many races."""
    found = re.fullmatch(r"([0-9]{1,3})(=?) (\S+) ([0-9]{1,9}\.[0-9])((?: \S+)*)", line)
    cells = found[5].split() if found else []
    if not found or len(cells) != races:
        raise NoTable(remark("table-row", said=repr(line[:60])))
    return Row(int(found[1]), bool(found[2]), found[3], found[4], tuple(map(Score.read, cells)))


@dataclass(frozen=True)
class Change:
    """How a correction moved one boat: rank, net and scores, before and after."""
    before: Row
    after: Row
    races: tuple[tuple[int, Score, Score], ...]


def changes(before: Standing, after: Standing) -> list[Change]:
    """The boats whose rank, net or scores in races of both tables differ."""
    common = [number for number in after.races if number in before.races]
    old, found = {row.sail: row for row in before.rows}, []
    for row in after.rows:
        was = old.get(row.sail)
        if was is None:
            continue
        pairs = [(number, before.score(was, number), after.score(row, number)) for number in common]
        moved = tuple((number, a, b) for number, a, b in pairs
                      if (a.points, a.code) != (b.points, b.code))
        if moved or (was.rank, was.shared, was.net) != (row.rank, row.shared, row.net):
            found.append(Change(was, row, moved))
    return found
