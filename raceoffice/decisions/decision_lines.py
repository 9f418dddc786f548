"""The decisions for which the program has no line, as a series' `decisions.txt` has them.

    race 3 GBR7 PRP 30%
    race 1 FRA9 TLE last+2
    race 5 GBR7 AVG 1,2,4
"""
from __future__ import annotations

import difflib
import os
import re
from collections.abc import Sequence
from dataclasses import dataclass

from raceoffice.characters import Written, is_word
from raceoffice.errors import NotThere, Trouble
from raceoffice.files import LARGEST_EDITED, read_whole
from raceoffice.remarks import Remark, remark
from raceoffice.series.entry_list import RAISED, fault_of, plain
from raceoffice.series.read_list import decoded
from raceoffice.series.settings import rows_of
from raceoffice.wording import joined

NAME = "decisions.txt"
# The most lines: as many are verified. The most races that one names, and the letters of a word that may be like a kind.
MOST, RACES_NAMED, LETTERS = 1000, 40, 40
# The capitals of other alphabets stay as they are: not every Python knows them all.
LOWERED = {large: small for small, large in RAISED.items()}
PENALTIES = ("DPI", "PRP", "T1", "SCP")
AVERAGES = ("AVG", "DUTY")
KINDS = (*PENALTIES, "TLE", "NSC", *AVERAGES, "REINSTATE")
# What a cell shows; a boat that is reinstated has her place there.
LABELS = {"AVG": "RDG", "REINSTATE": ""}
MEANING = {
    "DPI": "discretionary penalty",
    "PRP": "Post-Race Penalty",
    "T1": "Post-Race Penalty (RRS T1)",
    "SCP": "Scoring Penalty",
    "TLE": "time limit expired",
    "NSC": "did not sail the course",
    "AVG": "redress",
    "DUTY": "on duty",
    "REINSTATE": "reinstated",
}
POINTS = r"\d{1,3}(\.\d)?"
# What a kind takes after it, what that is called, and what it is if nothing is given.
PERCENT = (rf"\d{{1,3}}%|{POINTS}", remark("takes-penalty"))
RACES = (rf"sailed|all|before|\d{{1,2}}(,\d{{1,2}}){{0,{RACES_NAMED - 1}}}", remark("takes-races"))
NOTHING = ("", remark("takes-nothing"))
TAKES = {
    "DPI": PERCENT, "SCP": PERCENT, "PRP": PERCENT, "T1": PERCENT,
    "TLE": (rf"last\+\d{{1,2}}|{POINTS}", remark("takes-limit")),
    "NSC": NOTHING, "REINSTATE": NOTHING,
    "AVG": RACES, "DUTY": RACES,
}
# RRS T1(b): a boat that takes a Post-Race Penalty gets 30% of the score for Did Not Finish.
USUAL = {"PRP": "30%", "T1": "30%"}


@dataclass(frozen=True)
class Ruling:
    """One line: the race, the boat, the kind of decision and what it takes."""
    line: int
    race: int
    sail: str
    kind: str
    how: str = ""

    def __str__(self) -> str:
        return f"race {self.race} {self.sail} {self.kind} {self.how}".rstrip()

    @property
    def key(self) -> tuple[int, str]:
        """What it is about: the race and the boat."""
        return self.race, self.sail

    @property
    def label(self) -> str:
        return LABELS.get(self.kind, self.kind)

    @property
    def percent(self) -> int:
        """The percentage of a penalty; 0 if it is given in points."""
        return int(self.how[:-1]) if self.how.endswith("%") else 0

    @property
    def tenths(self) -> int:
        """The points of a penalty or a score, in tenths."""
        whole, _, tenth = self.how.partition(".")
        return int(whole) * 10 + int(tenth or "0")

    @property
    def after_last(self) -> int | None:
        """How many points a boat scores more than the last that finished."""
        return int(self.how[5:]) if self.how.startswith("last+") else None

    @property
    def chosen(self) -> list[int]:
        """The races of an average that names them."""
        return [int(text) for text in self.how.split(",")] if self.how[:1].isdigit() else []


class NoRuling(ValueError):
    """Why a line is no decision."""

    def __init__(self, why: Remark) -> None:
        super().__init__(why)
        self.why = why


def ruling_of(text: str, line: int) -> Ruling:
    """A line as a decision; NoRuling says why it isn't one."""
    words = text.split()
    at = next((at for at in range(3, len(words)) if words[at].upper() in KINDS), None)
    if len(words) < 4 or words[0].lower() != "race":
        raise NoRuling(remark("decision-form"))
    if not re.fullmatch("[0-9]{1,2}", words[1]) or not 1 <= int(words[1]) <= 40:
        raise NoRuling(remark("no-race", written=words[1]))
    if at is None:
        odd = next((word for word in words[3:] if is_word(word)), words[3])
        near = difflib.get_close_matches(odd[:LETTERS].translate(RAISED), KINDS, 1)
        raise NoRuling(remark("decision-like", written=odd, kinds=KINDS, near=near[0]) if near else
                       remark("decision-kind", written=odd, kinds=KINDS))
    sail, kind = plain("".join(words[2:at])), words[at].upper()
    if fault := fault_of(sail):
        raise NoRuling(fault)
    how = "".join(words[at + 1:]).translate(LOWERED) or USUAL.get(kind, "")
    ruling = Ruling(line, int(words[1]), sail, kind, how)
    if wrong := wrong_how(ruling):
        raise NoRuling(wrong)
    return ruling


def wrong_how(ruling: Ruling) -> Remark | None:
    """Why a kind can't take what is after it; None if it can."""
    (pattern, wanted), how = TAKES[ruling.kind], ruling.how
    if not re.fullmatch(pattern, how, re.ASCII):
        return (remark("decision-takes-not", kind=ruling.kind, wanted=wanted, how=Written(how)) if how else
                remark("decision-takes", kind=ruling.kind, wanted=wanted))
    if how.endswith("%"):
        return None if 1 <= ruling.percent <= 100 else remark("decision-percent", how=how)
    if ruling.kind in (*PENALTIES, "TLE") and ruling.after_last is None:
        least = 10 if ruling.kind == "TLE" else 1
        return None if ruling.tenths >= least else remark("decision-few", how=how)
    chosen = ruling.chosen
    if ruling.race in chosen:
        return remark("decision-itself", race=ruling.race)
    odd = [race for race in chosen if not 1 <= race <= 40 or chosen.count(race) > 1]
    return remark("decision-races", how=how) if odd else None


def rulings_of(text: str) -> tuple[list[Ruling], list[Remark]]:
    """The decisions of a file, and what is wrong with its other lines."""
    found: dict[tuple[int, str], Ruling] = {}
    wrong: list[Remark] = []
    for at, line in enumerate(rows_of(text), 1):
        line = line.partition("#")[0].strip()
        if not line:
            continue
        try:
            ruling = ruling_of(line, at)
        except NoRuling as cause:
            wrong.append(remark("decision-line", line=at, why=cause.why))
            continue
        same = found.setdefault(ruling.key, ruling)
        if same is not ruling:
            wrong.append(remark("decision-twice", line=at, other=same.line, sail=ruling.sail, race=ruling.race))
    return list(found.values()), wrong


def read(folder: str) -> str:
    """The text of a series' decisions, in the letters of an old editor, too; empty if there are none. A Trouble if it has
    more lines than a page takes."""
    try:
        text = decoded(read_whole(os.path.join(folder, NAME), LARGEST_EDITED))
    except NotThere:
        return ""
    if (lines := len(rows_of(text))) > MOST:
        raise Trouble(remark("decisions-long", number=f"{lines:,}", most=f"{MOST:,}"))
    return text


def ruling_text(ruling: Ruling, points: str) -> str:
    """A decision as a note says it: `Post-Race Penalty of 30%: 7.0 points`."""
    meaning = MEANING[ruling.kind]
    if ruling.kind in PENALTIES:
        meaning += f" of {ruling.how}" + ("" if ruling.percent else " points")
    elif ruling.after_last is not None:
        meaning += f", {ruling.after_last} points more than the last boat that finished"
    elif ruling.kind in AVERAGES:
        meaning += f", the average of her points in {average_words(ruling)}"
    return meaning + (f": {points} points" if points else "")


def average_words(ruling: Ruling) -> str:
    if ruling.chosen:
        races: Sequence[str] = [str(race) for race in ruling.chosen]
        return f"race {races[0]}" if len(races) == 1 else f"races {joined(list(races))}"
    return {"sailed": "the races that she sailed", "all": "all other races",
            "before": "the races before it"}[ruling.how]
