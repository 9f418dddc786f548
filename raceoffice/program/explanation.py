"""How a standing came about, by `regatta explain`: what ranks boats of one net, their totals, and the ranks after each
race. Nothing of it is computed here."""
from __future__ import annotations

import json
import subprocess
from collections.abc import Sequence
from dataclasses import dataclass, field
from typing import Any

from raceoffice import system
from raceoffice.errors import NoTable, Trouble
from raceoffice.program.replay import bytes_of, not_run, patience, program_said
from raceoffice.program.standing import Ranks, Standing
from raceoffice.remarks import remark


@dataclass(frozen=True)
class Separation:
    """What ranks one boat ahead of another with the same net: the rule, at which score from the best (A8.1) or in which
    race (A8.2), and the points of both there."""
    rule: str
    at: int
    better: str
    worse: str


@dataclass(frozen=True)
class Explanation:
    """What leads to a standing. `totals` are before exclusion, and empty if no score is excluded. Neighbours whom no rule
    separates aren't in `separations`. `last_entry` is the number of the last entry on which the table depends, or 0."""
    last_entry: int = 0
    totals: dict[str, str] = field(default_factory=dict)
    separations: dict[tuple[str, str], Separation] = field(default_factory=dict)
    course: tuple[Ranks, ...] = ()


def explanation_of(program: str, options: Sequence[str], journal: Sequence[str], standing: Standing) -> Explanation:
    """The standing of a journal explained by the program. NoTable if it explains another one."""
    text = explained(program, options, journal)
    try:
        document = json.loads(text, parse_float=str)
        boats = [(boat["rank"], boat["tied"], boat["sail"], boat["net"]) for boat in document["boats"]]
        found = Explanation(document["last_entry"], totals_of(document), separations_of(document), course_of(document))
    except (KeyError, TypeError, ValueError) as cause:
        raise NoTable(remark("table-explained")) from cause
    if boats != [(row.rank, row.shared, row.sail, row.net) for row in standing.rows]:
        raise NoTable(remark("table-explained"))
    return found


def explained(program: str, options: Sequence[str], journal: Sequence[str]) -> str:
    """What the program prints of a journal. Points have one decimal."""
    data = bytes_of(journal)
    try:
        with system.lent_files({"--journal": data}) as (files, numbers):
            done = subprocess.run([program, "explain", *options, *files], stdin=subprocess.DEVNULL, capture_output=True,
                                  encoding="utf-8", errors="replace", timeout=patience(data), pass_fds=numbers)
    except (OSError, subprocess.TimeoutExpired) as cause:
        raise not_run(program, cause) from cause
    if done.returncode:
        raise Trouble(program_said(done.stderr.strip()))
    return done.stdout


def totals_of(document: Any) -> dict[str, str]:
    """Each boat's total before exclusion; none if no score is excluded."""
    if not any(score["excluded"] for boat in document["boats"] for score in boat["scores"]):
        return {}
    return {boat["sail"]: boat["total"] for boat in document["boats"]}


def separations_of(document: Any) -> dict[tuple[str, str], Separation]:
    """What separates neighbours in the table with the same net."""
    return {(pair["first"], pair["second"]): Separation(pair["rule"], pair[AT[pair["rule"]]], *pair["scores"])
            for pair in document["neighbours"] if pair["rule"]}


# What says where two boats differ, by the rule that ranks them.
AT = {"A8.1": "position", "A8.2": "race"}


def course_of(document: Any) -> tuple[Ranks, ...]:
    """Each boat's rank after each race that counts, and whether she shares it."""
    sails = {boat["sail"]: boat["sail"] for boat in document["boats"]}
    # One text of each sail for all races: a page may have many series.
    return tuple({sails[sail]: (rank, tied) for sail, rank, tied in after["ranks"]} for after in document["after_each"])
