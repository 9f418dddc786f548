#!/usr/bin/env python3
"""Tells mutated sentences of Appendix A from the right ones, by examples that are worked by hand.

    bench/sentences.py

A mutant is the sentences of `appendix_a.py` without one of them, or with an edit in one. An example
tells it apart if it refuses the table that is worked by hand, or accepts a neighbour of it: a score
changed, two scores exchanged, another exclusion, a tie made or broken, and so on. The examples are the
worked cases of `specs/`, which are proved, and three of `worked.py`.

Each mutant is printed with the example that tells it, and `N mutants, N told, M not told` at the end.
The status is 1 if one isn't told. It is 1, too, if the names, comments or text of the fields in
`AppendixA.antt` aren't those that the functions were written from, if the right sentences refuse a
table that is worked by hand or accept a neighbour of it, or if an edit that is said to change no
meaning is told.
"""
from __future__ import annotations

import hashlib
import inspect
import re
import sys
from collections.abc import Iterator
from typing import Any, NamedTuple

import appendix_a
from appendix_a import Order, Series, Table, Work
from worked import SPECS, Example, neighbours, worked_cases

# What the functions were written from: AppendixA.antt without imports, comments and spaces.
WRITTEN_FROM = "24c52f61d182b9e9"

# The fields, in order: of a race, of a boat's scores in it, of a cell, of a row, of a table.
ORDERS = "a3_finish a3_time".split()
DNF_SCORES = "a5_2 a5_3".split()
BASES = "a4_a7 dnc coded".split()
TWENTIES = "nearest".split()
PLAINS = "penalties no_better".split()
CELLS = "unredressed a9_a a9_b a9_c a10 dne_counts".split()
ROWS = "a2_2 as_many worst total".split()
TABLES = "races entries a8 rank tied in_order".split()
FIELDS = ORDERS + DNF_SCORES + BASES + TWENTIES + PLAINS + CELLS + ROWS + TABLES

Sentences = dict[str, Any]


class Edit(NamedTuple):
    """A piece of a function and what takes its place; a field is dropped if there is no piece."""

    function: str
    old: str = ""
    new: str = ""

    def __str__(self) -> str:
        if not self.old:
            return f"{self.function} dropped"
        return f"{self.function}: {self.old} -> {self.new or 'nothing'}"


# ---- mutants

MUTANTS = [Edit(field) for field in FIELDS] + [Edit(*line) for line in (
    # A3
    ("a3_finish", "is True", "is False"),
    ("a3_time", "is False", "is True"),
    ("is_by_times", "s < t", "s > t"),
    ("is_by_times", "set(seconds) ==", "set(seconds) <="),
    # A5
    ("a5_2", "+ 1", "+ 0"),
    ("a5_2", "+ 1", "+ 2"),
    ("a5_2", "!=", "=="),
    ("a5_2", "len(s.entered)", "sum(came(scored_as(s, w, boat)) for boat in s.entered)"),
    ("a5_3", "+ 1", "+ 0"),
    ("a5_3", "+ 1", "+ 2"),
    ("a5_3", "!=", "=="),
    ("a5_3", "came(", "not came("),
    ("came", '!= "Dnc"', 'not in ("Dnc", "Dnf")'),
    ("came", '!= "Dnc"', '!= ""'),
    ("scored_as", "s.held(w.race, boat).code or ", ""),
    ("dnc", "+ 1", "+ 0"),
    ("dnc", "+ 1", "+ 2"),
    ("dnc", "!=", "=="),
    ("dnc", "(len(s.entered) + 1)", "w.dnf"),
    ("coded", '("Finished", "Dnc")', '("Finished",)'),
    ("coded", '("Finished", "Dnc")', '("Finished", "Dnc", "Dsq")'),
    ("coded", "w.dnf", "(len(s.entered) + 1)"),
    # A4, A6.1, A7
    ("a4_a7", "1 + sum", "0 + sum"),
    ("a4_a7", "1 + sum", "2 + sum"),
    ("a4_a7", "[:at]", "[at + 1:]"),
    ("a4_a7", "[:at]", "[:at + 1]"),
    ("a4_a7", "len(placed(s, w.race, g))", "len(g)"),
    ("a4_a7", "len(placed(s, w.race, g))", "1"),
    ("a4_a7", "= placed(s, w.race, group)", "= group"),
    ("a4_a7", "points_of_places(place, len(tied))", "len(tied) * points_of_places(place, 1)"),
    ("a4_a7", "len(tied) * w.base", "w.base"),
    ("points_of_places", "first + number", "first + number + 1"),
    ("points_of_places", "10 * place", "20 * place"),
    # 44.3(c), 30.2
    ("nearest", "20 *", "21 *"),
    ("nearest", "20 *", "19 *"),
    ("nearest", "20 *", "25 *"),
    ("nearest", "w.dnf", "len(s.entered)"),
    ("penalties", "not w.base <", "not w.base >"),
    ("penalties", "min(", "max("),
    ("penalties", "min(w.base + 10 * points, 10 * w.dnf)", "w.base + 10 * points"),
    ("penalties", "10 * points", "points"),
    ("penalties", "hers.zfp * w.twenty_percent", "hers.zfp * stated"),
    ("penalties", "hers.scp * stated", "hers.scp * w.twenty_percent"),
    ("penalties", "hers.zfp *", "min(hers.zfp, 1) *"),
    ("penalties", "hers.scp *", "min(hers.scp, 1) *"),
    ("penalties", " + hers.scp * stated", ""),
    ("no_better", "<=", "<"),
    ("no_better", "<=", ">="),
    ("no_better", "== w.base", "== 10 * w.dnf"),
    # A9
    ("unredressed", "is not None", "is None"),
    ("unredressed", "w.plain", "w.base"),
    ("a9_a", "other != w.race", "other == w.race"),
    ("a9_a", "other != w.race", "other < w.race"),
    ("a9_a", "other != w.race", "other > w.race"),
    ("a9_a", "w.plain", "w.base"),
    ("a9_b", "other < w.race", "other > w.race"),
    ("a9_b", "other < w.race", "other != w.race"),
    ("a9_b", "w.plain", "w.base"),
    ("a9_c", "redress[1]", "w.plain"),
    ("a9_c", "== redress[1]", "<= redress[1]"),
    ("own_points", 'not in ("AllRaces", "RacesBefore")', "not in ()"),
    ("own_points", '("AllRaces", "RacesBefore")', '("AllRaces",)'),
    ("own_points", '("AllRaces", "RacesBefore")', '("RacesBefore",)'),
    ("own_points", 'not in ("AllRaces", "RacesBefore")', "is None"),
    ("own_points", "if test(race)", "if not cell.dropped and test(race)"),
    ("is_average", "of_none and of_some", "of_some"),
    ("is_average", "of_none and of_some", "of_none"),
    ("is_average", "0 < len(scores)", "1 < len(scores)"),
    ("is_average", "0 == len(scores)", "1 >= len(scores)"),
    ("is_average", "0 == len(scores)", "0 > len(scores)"),
    ("is_nearest", "not_above and not_below", "not_below"),
    ("is_nearest", "not_above and not_below", "not_above"),
    ("is_nearest", "<=", "<"),
    ("is_nearest", "<=", ">="),
    ("is_nearest", "2 * total <", "2 * total >"),
    ("is_nearest", "2 * total <", "2 * total <="),
    ("is_nearest", "2 * total + parts", "2 * total"),
    ("is_nearest", "nearest + parts", "nearest"),
    # A10
    ("mark_by", "is not None", 'is not None and status == "Finished"'),
    ("mark_by", '"Zfp" if zfp > 0 else "Scp" if scp > 0', '"Scp" if scp > 0 else "Zfp" if zfp > 0'),
    ("mark_by", "zfp > 0", "zfp > 1"),
    # A2.1, 90.3(b)
    ("dne_counts", "is False", "is True"),
    ("dne_counts", "not is_dne", "is_dne"),
    ("is_dne", '== "Dne"', 'in ("Dne", "Dsq")'),
    ("is_dne", '== "Dne"', '== ""'),
    ("exclusions_of", "<=", "<"),
    ("exclusions_of", "<=", ">"),
    ("as_many", "== min", "<= min"),
    ("as_many", "== min", ">= min"),
    ("as_many", "min(", "max("),
    ("as_many", ", excludable)", ", len(s.scored))"),
    ("worst", "kept.points < cell.points", "kept.points > cell.points"),
    ("worst", "kept.points < cell.points", "kept.points <= cell.points"),
    ("worst", "race < other", "race > other"),
    ("worst", " or kept.points == cell.points and race < other", ""),
    ("worst", "and not is_dne(s.held(other, row.sail).code)", ""),
    ("total", "counting_points", "cell_points"),
    ("total", "==", "<="),
    ("total", "==", ">="),
    # A8
    ("wins", "return a.net < b.net", "return a.net > b.net"),
    ("wins", "return a.net < b.net", "return a.net <= b.net"),
    ("wins", "return a.net < b.net", "return False"),
    ("wins", "sorted(hers), sorted(other)", "sorted(other), sorted(hers)"),
    ("wins", "sorted(hers), sorted(other)", "sorted(hers)[::-1], sorted(other)[::-1]"),
    ("wins", "sorted(hers), sorted(other)", "hers, other"),
    ("wins", "counting_points(a.cells), counting_points(b.cells)",
     "cell_points(a.cells), cell_points(b.cells)"),
    ("wins", "a.net == b.net and is_lower_at_first(", "is_lower_at_first("),
    ("wins", "a.net == b.net and is_lower_at_first(", "False and is_lower_at_first("),
    ("wins", "and sorted(hers) == sorted(other) and is_lower", "and is_lower"),
    ("wins", "sorted(hers) == sorted(other) and is_lower", "False and is_lower"),
    ("wins", "cell_points(a.cells)[::-1], cell_points(b.cells)[::-1]",
     "cell_points(b.cells)[::-1], cell_points(a.cells)[::-1]"),
    ("wins", "cell_points(a.cells)[::-1], cell_points(b.cells)[::-1]",
     "cell_points(a.cells), cell_points(b.cells)"),
    ("wins", "cell_points(a.cells)[::-1], cell_points(b.cells)[::-1]",
     "counting_points(a.cells)[::-1], counting_points(b.cells)[::-1]"),
    ("is_lower_at_first", "hers[at] < other[at]", "hers[at] > other[at]"),
    ("is_lower_at_first", "hers[at] < other[at]", "hers[at] <= other[at]"),
    ("is_lower_at_first", "hers[:at] == other[:at] and ", ""),
    ("a8", "==", "<="),
    ("a8", "==", ">="),
    ("a8", "a.rank < b.rank", "a.rank > b.rank"),
    ("a8", "a.rank < b.rank", "a.rank <= b.rank"),
    # the table
    ("races", "table.races ==", "table.races[::-1] =="),
    ("races", "table.races == s.scored", "set(table.races) <= set(s.scored)"),
    ("races", "table.races == s.scored", "set(table.races) >= set(s.scored)"),
    ("entries", "sorted(s.entered) == sorted(", "set(s.entered) == set("),
    ("entries", "sorted(s.entered) == sorted(", "set(s.entered) >= set("),
    ("entries", "sorted(s.entered) == sorted(", "set(s.entered) <= set("),
    ("rank", "1 + sum", "0 + sum"),
    ("rank", "b.rank < a.rank", "b.rank <= a.rank"),
    ("rank", "b.rank < a.rank", "b.rank > a.rank"),
    ("rank", "sum(b.rank < a.rank for b in table.rows)",
     "len({b.rank for b in table.rows if b.rank < a.rank})"),
    ("tied", "1 < sum", "0 < sum"),
    ("tied", "1 < sum", "2 < sum"),
    ("tied", "1 < sum", "1 > sum"),
    ("tied", "a.tied ==", "a.tied <="),
    ("tied", "a.tied ==", "a.tied >="),
    ("comes_first", "<=", ">="),
    ("comes_first", "(a.rank, a.sail) <= (b.rank, b.sail)", "(a.sail, a.rank) <= (b.sail, b.rank)"),
    ("comes_first", "(a.rank, a.sail) <= (b.rank, b.sail)", "(a.rank, b.sail) <= (b.rank, a.sail)"),
    ("comes_first", "(a.rank, a.sail) <= (b.rank, b.sail)", "a.rank <= b.rank"),
)]

# Edits that change no meaning, each with the reason.
SAME_MEANING = [
    (Edit("a9_a", "other != w.race", "True"),
     "she has an average in this race, and own_points leaves out races in which she has one"),
    (Edit("a9_b", "other < w.race", "other <= w.race"),
     "she has an average in this race, and own_points leaves out races in which she has one"),
    (Edit("is_by_times", "s < t", "s <= t"),
     "a time that comes twice gives its boats two places, and no score is that of both; boats with "
     "a code take none"),
    (Edit("penalties", "not w.base <", "not w.base <="),
     "at the DNF score the cap leaves a score as it is"),
    (Edit("worst", "race < other", "race <= other"),
     "a score that is excluded and one that counts are of two races"),
    (Edit("wins", "a.net == b.net and sorted(hers) == sorted(other)", "sorted(hers) == sorted(other)"),
     "the same scores have the same total"),
    (Edit("comes_first", "<=", "<"), "no boat has two rows"),
]


def code_of(function: str) -> tuple[str, str]:
    """The text of a function up to the end of its docstring, and its code."""
    text = inspect.getsource(getattr(appendix_a, function))
    documented = inspect.getdoc(getattr(appendix_a, function)) is not None
    end = text.index('"""', text.index('"""') + 3) + 3 if documented else text.index(":\n") + 1
    return text[:end], text[end:]


def edited(edit: Edit | None = None) -> Sentences:
    """The sentences with the edit, if there is one."""
    text = inspect.getsource(appendix_a)
    if edit and edit.old:
        head, code = code_of(edit.function)
        assert code.count(edit.old) == 1, f"not one place: {edit}"
        text = text.replace(head + code, head + code.replace(edit.old, edit.new))
    sentences: Sentences = {"__name__": "mutant"}
    exec(compile(text, "mutant", "exec"), sentences)
    if edit and not edit.old:
        sentences[edit.function] = lambda *_: True
    return sentences


# ---- which tables fit

def orders_of(s: Series, race: int) -> list[Order]:
    """The orders that a sentence, right or mutated, may ask for."""
    times = s.times(race)
    by_time = [[b for b, t in times if t == second] for second in sorted({t for _, t in times})]
    found: list[Order] = [[]]
    for order in (s.by_finish(race), by_time):
        found += [order, order[::-1], order[:-1]]
        found += [order[:at] + [order[at + 1], order[at]] + order[at + 2:]
                  for at in range(len(order) - 1)]
    return [order for at, order in enumerate(found) if order not in found[:at]]


class Fitting:
    """Which tables fit the sentences, right or mutated, for a series. A working is looked for among
    all numbers up to a few places more than there are boats."""

    def __init__(self, sentences: Sentences, s: Series) -> None:
        self.sentences = sentences
        self.s = s
        self.races = sorted({0, *(words[1] for words in s.journal if words[0] != "Enter")})
        self.works: dict[int, list[Work]] = {}
        self.scores: dict[tuple[int, int, str], list[Work]] = {}

    def hold(self, fields: list[str], *facts: Any) -> bool:
        return all(self.sentences[field](self.s, *facts) for field in fields)

    def works_of(self, race: int) -> list[Work]:
        """The workings of a race that fit, without the scores of boats."""
        if race not in self.works:
            most = range(len(self.s.entered) + 4)
            ordered = [w for order in orders_of(self.s, race)
                       if self.hold(ORDERS, w := Work(race, order))]
            with_dnf = [v for w in ordered for dnf in most
                        if self.hold(DNF_SCORES, v := w._replace(dnf=dnf))]
            self.works[race] = [v for w in with_dnf for twenty in most
                                if self.hold(TWENTIES, v := w._replace(twenty_percent=twenty))]
        return self.works[race]

    def scores_of(self, race: int, at: int, boat: str) -> list[Work]:
        """The working of the race at this place with each scores of the boat that fit."""
        key = race, at, boat
        if key not in self.scores:
            points = range(10 * (len(self.s.entered) + 4))
            with_base = [v for base in points
                         if self.hold(BASES, v := self.works_of(race)[at]._replace(base=base), boat)]
            self.scores[key] = [v for w in with_base for plain in points
                                if self.hold(PLAINS, v := w._replace(plain=plain), boat)]
        return self.scores[key]

    def boat_fits(self, race: int, at: int, boat: str, table: Table) -> bool:
        """Whether by this working her cells fit, if she has any."""
        cells = [(row, cell) for row in table.rows if row.sail == boat
                 for number, cell in zip(self.s.scored, row.cells) if number == race]
        return any(all(self.hold(CELLS, w, row, cell) for row, cell in cells)
                   for w in self.scores_of(race, at, boat))

    def race_fits(self, race: int, table: Table) -> bool:
        """Whether there is a working by which the cells of all boats fit."""
        boats = {*self.s.entered, *(row.sail for row in table.rows)}
        return any(all(self.boat_fits(race, at, boat, table) for boat in boats)
                   for at in range(len(self.works_of(race))))

    def fits(self, table: Table) -> bool:
        return (self.hold(TABLES, table) and all(self.hold(ROWS, row) for row in table.rows)
                and all(self.race_fits(race, table) for race in self.races))


# ---- the run

Tables = dict[str, list[tuple[str, Table]]]


def telling(sentences: Sentences, examples: list[Example], others: Tables) -> Iterator[str]:
    """What the sentences say otherwise than the examples."""
    for example in examples:
        fitting = Fitting(sentences, example.series)
        if not fitting.fits(example.by_hand):
            yield f"refuses {example.name}"
        yield from (f"accepts {example.name} with {text}"
                    for text, other in others[example.name] if fitting.fits(other))


def sentences_in_specs() -> tuple[dict[str, str], str]:
    """The fields of AppendixA.antt that have a comment, with it, and a digest of its text."""
    text = (SPECS / "AppendixA.antt").read_text(encoding="utf-8")
    found = re.findall(r"((?:^    -- .*\n)+)    pub (\w+) :", text, re.MULTILINE)
    comments = {name: " ".join(comment.replace("    -- ", "").split()) for comment, name in found}
    code = "".join(re.sub(r"^(use | *--).*", "", text, flags=re.MULTILINE).split())
    return comments, hashlib.sha256(code.encode()).hexdigest()[:16]


def drift() -> Iterator[str]:
    """What differs between the functions and the fields that they were written from."""
    comments, digest = sentences_in_specs()
    if list(comments) != FIELDS:
        yield f"the fields of AppendixA.antt are {' '.join(comments)}"
    functions = [name for name in vars(appendix_a) if name in FIELDS]
    if functions != FIELDS:
        yield f"the functions of appendix_a.py are {' '.join(functions)}"
    for name in functions:
        documented = " ".join((inspect.getdoc(getattr(appendix_a, name)) or "").split())
        if documented != comments.get(name):
            yield f"the comment of {name} is {comments.get(name)}"
    if digest != WRITTEN_FROM:
        yield f"AppendixA.antt has changed: compare the functions with it, then WRITTEN_FROM = {digest}"


def main() -> int:
    examples = worked_cases()
    others = {example.name: neighbours(example) for example in examples}
    faults = list(drift())
    faults += [f"the right sentences: {what}" for what in telling(edited(), examples, others)]
    for edit, reason in SAME_MEANING:
        what = next(telling(edited(edit), examples, others), "")
        faults += [f"{edit}: {what}"] if what else []
        print(f"{edit}: no other meaning, since {reason}")
    untold = 0
    for mutant in MUTANTS:
        what = next(telling(edited(mutant), examples, others), "NOT TOLD")
        untold += what == "NOT TOLD"
        print(f"{mutant}: {what}", flush=True)
    print("".join(f"{fault}\n" for fault in faults), end="")
    print(f"{len(MUTANTS)} mutants, {len(MUTANTS) - untold} told, {untold} not told")
    return 1 if faults or untold else 0


if __name__ == "__main__":
    sys.exit(main())
