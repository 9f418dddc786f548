"""What lines would do, by `regatta preview`: why the program refuses one, and whose rank, net or scores change. Nothing of
it is computed here."""
from __future__ import annotations

import json
import subprocess
from collections.abc import Sequence
from dataclasses import dataclass
from typing import Any

from raceoffice import system
from raceoffice.errors import NoTable, Trouble
from raceoffice.program.messages import refusal
from raceoffice.program.replay import Line, bytes_of, not_run, patience, program_said, typed_lines
from raceoffice.program.standing import Change, Row, Score, Standing
from raceoffice.remarks import remark


@dataclass(frozen=True)
class Preview:
    """What lines would do. `changes` are of boats that stand in the table already, and `rows` those of each boat that
    changes, as they would be."""
    changes: tuple[Change, ...]
    rows: tuple[Row, ...]

    def rows_after(self, standing: Standing) -> list[Row]:
        """The rows of the table after the lines, by the table before them."""
        rows = {row.sail: row for row in (*standing.rows, *self.rows)}
        return sorted(rows.values(), key=lambda row: (row.rank, row.sail))


def previewed(program: str, options: Sequence[str], journal: Sequence[str], lines: Sequence[Line]) -> Preview:
    """What lines would do to a journal. A Trouble names a line that is refused."""
    typed = typed_lines(lines)
    text = printed(program, options, journal, typed)
    try:
        document = json.loads(text, parse_float=str)
        answers = [reply["number"] if reply["reply"] == "NO" else 0 for reply in document["replies"]]
        moved = {move["sail"] for move in document["moves"]}
        found = [(change_of(one), row_of(one, "after")) for one in document["changes"]]
    except (KeyError, TypeError, ValueError) as cause:
        raise NoTable(remark("table-previewed")) from cause
    for line, number in zip(typed, answers):
        if number:
            answer = f"NO {number}"
            raise Trouble(remark("program-refuses", line=line, answer=answer, why=refusal(answer)))
    # Without a race nobody moves, nor does a boat by another exclusion alone.
    changes = (change for change, row in found if change and (change.before.scores or row.scores)
               and (change.races or row.sail in moved))
    return Preview(tuple(changes), tuple(row for _, row in found))


def printed(program: str, options: Sequence[str], journal: Sequence[str], typed: Sequence[str]) -> str:
    """What the program prints of these lines. Points have one decimal."""
    data = bytes_of(journal)
    try:
        with system.lent_files({"--journal": data}) as (files, numbers):
            done = subprocess.run([program, "preview", *options, *files], input="".join(f"{line}\n" for line in typed),
                                  capture_output=True, encoding="utf-8", errors="replace", timeout=patience(data),
                                  pass_fds=numbers)
    except (OSError, subprocess.TimeoutExpired) as cause:
        raise not_run(program, cause) from cause
    if done.returncode:
        raise Trouble(program_said(done.stderr.strip()))
    return done.stdout


def change_of(one: Any) -> Change | None:
    """How a boat changes, with her scores in races that count before and after; None if she is new."""
    if one["before"] is None:
        return None
    pairs = [(score["race"], score_of(score["before"]), score_of(score["after"])) for score in one["scores"]
             if score["before"] and score["after"]]
    races = tuple((race, was, now) for race, was, now in pairs if (was.points, was.code) != (now.points, now.code))
    return Change(row_of(one, "before"), row_of(one, "after"), races)


def row_of(one: Any, side: str) -> Row:
    """A boat's row before the lines or after them."""
    place = one[side]
    scores = tuple(score_of(score[side]) for score in one["scores"] if score[side])
    return Row(place["rank"], place["tied"], one["sail"], place["net"], scores)


def score_of(score: Any) -> Score:
    return Score(score["points"], score["mark"] or "", score["excluded"])
