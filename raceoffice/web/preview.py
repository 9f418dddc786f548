"""What lines or a decision would do, with nothing sent: whom they move, and which lines a decision takes.

No other module of the web asks how points of decisions are computed.
"""
from __future__ import annotations

import contextlib
import re
from collections.abc import Sequence
from dataclasses import dataclass

from raceoffice.characters import utf8
from raceoffice.corrected.times import Sheets
from raceoffice.corrected.unsent import has_sheet, in_sheet
from raceoffice.decisions import decision_lines
from raceoffice.decisions.held import Known, holdings, without_one
from raceoffice.decisions.points import OUT, Decided, Verdict, decided, held_by, taken_out
from raceoffice.errors import NotSent, Trouble
from raceoffice.files import replace_whole
from raceoffice.program.previewing import previewed
from raceoffice.program.replay import Line, scored
from raceoffice.program.standing import Standing
from raceoffice.remarks import Remark, remark
from raceoffice.series.folder import Folder
from raceoffice.series.run_program import options_in_force, replayed
from raceoffice.series.settings import rows_of as lines_of
from raceoffice.session.facts import Facts
from raceoffice.web.states import Values, moves_of, moves_shown, remarks_of, rows_shown

# The line of decisions.txt that something is wrong with, and the most letters of a note.
LINE = re.compile(r"^decisions\.txt, line (\d+): ")
NOTE = 200
# What is taken back of a boat
HELD = re.compile(r"race ([0-9]{1,3}) (\S+) ([A-Z]{3})")
CHANGED = remark("decisions-changed")
# The entries that are of decisions, and those of other taps, as the register knows them.
Entries = tuple[frozenset[str], frozenset[str]]
NO_ENTRIES: Entries = (frozenset(), frozenset())


@dataclass(frozen=True)
class Ruled:
    """What a decision comes to: the text of decisions.txt before it and with it, what it is called, its points and
    what the journal holds, the lines that it takes, and why it can't be given. `stays` is the race and boat of a decision
    that takes away for good."""
    before: str
    text: str
    name: str
    verdict: Values
    lines: tuple[Line, ...]
    why: tuple[Remark, ...]
    stays: str = ""


def preview(folder: Folder, facts: Facts, lines: Sequence[Line]) -> Values:
    """Whom these lines would move; or why the program refuses them."""
    entries = len(facts.sheet.journal)
    try:
        found = previewed(folder.program, options_in_force(folder), facts.sheet.journal, lines)
    except Trouble as trouble:
        return {"refused": remarks_of(trouble.said), "entries": entries}
    return {"entries": entries, "lines": [f"{line.role} {line}" for line in lines],
            "moves": moves_shown(found.changes, facts), "rows": rows_shown(found.rows_after(facts.standing)),
            "counts": any(race in facts.standing.races for race in map(race_of, lines))}


def why_refused(folder: Folder, facts: Facts, lines: Sequence[Line]) -> Sequence[str]:
    """Why the program would refuse one of these lines; empty if it takes them all."""
    try:
        previewed(folder.program, options_in_force(folder), facts.sheet.journal, lines)
    except Trouble as trouble:
        return trouble.said
    return ()


def effect_of_rules(folder: Folder, facts: Facts, options: list[str]) -> Values:
    """Whom other rules would move, by a replay of the journal that is on the disk, and which decisions would be
    out of date; or why the program refuses them."""
    try:
        before, after = replayed(folder, options_in_force(folder)), replayed(folder, options)
    except Trouble as trouble:
        return {"refused": remarks_of(trouble.said), "moves": [], "stale": []}
    text = decision_lines.read(folder.path)
    found = decided(folder.program, options, after.journal, text) if text.strip() else Decided()
    moves = moves_of(Standing.read(list(before.table)), Standing.read(list(after.table)), facts)
    stale = [verdict_shown(verdict, "") for verdict in found.verdicts if not verdict.is_kept]
    return {"moves": moves, "stale": [*map(wrong_shown, found.wrong), *stale]}


def race_of(line: Line) -> int:
    """The race that a line is about; 0 if there is none."""
    number = line.text.split()[1:2]
    return int(number[0]) if number and number[0].isdecimal() else 0


def decide(folder: Folder, facts: Facts, ruling: str, known: Entries = NO_ENTRIES, note: str = "") -> Ruled:
    """What a decision comes to, and which lines it takes; NotSent if it isn't one. `note` is written after it, and
    `known` are the entries of earlier decisions."""
    before = decision_lines.read(folder.path)
    text, name = with_ruling(before, facts, ruling, note)
    first, options = lines_before(before, ruling, facts, known), options_in_force(folder)
    journal = scored(folder.program, options, facts.sheet.journal, first).journal if first else facts.sheet.journal
    found = decided(folder.program, options, journal, text)
    mine = [verdict for verdict in found.verdicts if str(verdict.ruling) == name]
    why = [*found.wrong, *(verdict.why for verdict in mine if verdict.why)]
    values = verdict_shown(mine[0], note) if mine else {}
    new = decision_lines.rulings_of(ruling)[0][0]
    stays = f"{new.race} {new.sail}" if new.kind == "REINSTATE" else ""
    return Ruled(before, text, name, values, (*first, *found.lines), tuple(why), stays)


def lines_before(text: str, ruling: str, facts: Facts, known: Entries) -> list[Line]:
    """What comes before an amended decision: the DNF that TLE or NSC gave her goes, unless it is one of these again."""
    new = decision_lines.rulings_of(ruling)[0][0]
    old = next((one for one in decision_lines.rulings_of(text)[0] if one.key == new.key), new)
    return taken_out(old, facts.sheet.journal, Known(*known)) if old.kind in OUT and new.kind not in OUT else []


def about(row: str) -> set[str]:
    """The boat that a row of decisions.txt is about, with her race, as `GBR7 3`; nothing if it can't be read."""
    return {f"{one.sail} {one.race}" for one in decision_lines.rulings_of(row)[0]}


def take_out(folder: Folder, facts: Facts, row: str, known: Entries = NO_ENTRIES, is_begun: bool = False) -> Ruled:
    """What it takes to take a row out of decisions.txt. One that can't be read has no lines in the journal. If it
    `is_begun`, the row may have gone already."""
    before = decision_lines.read(folder.path)
    if not row or not (has_row(before, row) or is_begun):
        raise NotSent(remark("decision-gone"))
    ruling = next(iter(decision_lines.rulings_of(row)[0]), None)
    lines = taken_out(ruling, facts.sheet.journal, Known(*known)) if ruling else []
    return Ruled(before, without_row(before, row), row, {}, tuple(lines), ())


def reopened(folder: Folder, facts: Facts, given: str, known: Entries = NO_ENTRIES) -> Ruled:
    """What it takes to take back one thing that a boat holds, as `race 1 GBR7 DSQ`: all else that she holds stays, and so does
    decisions.txt. What her decision there comes to then is among the lines. NotSent if she doesn't hold it."""
    before, journal, words = decision_lines.read(folder.path), facts.sheet.journal, HELD.fullmatch(given)
    race, sail, code = (int(words[1]), words[2], words[3]) if words else (0, "", "")
    lines = without_one(race, sail, code, holdings(journal)[race, sail])
    if not lines:
        raise NotSent(remark("decision-gone"))
    options = options_in_force(folder)
    after = scored(folder.program, options, journal, lines).journal
    found = decided(folder.program, options, after, before).verdict(race, sail) if before.strip() else None
    due = found.lines if found else ()
    own = held_by(found.ruling, journal, Known(*known)) if found else []
    commands = sorted({*own, *(line.text.split()[0] for line in due)} - {"CLEAR"})
    return Ruled(before, before, given, {}, (*lines, *due), (), " ".join([str(race), sail, *commands]))


def times_left(folder: Folder, facts: Facts, lines: Sequence[Line]) -> list[Line]:
    """The lines for what the sheet of times has of boats that are cleared, and the journal hasn't after these: the
    committee's, as after any CLEAR of the jury."""
    cleared = {(race_of(line), line.text.split()[2]) for line in lines if line.text.startswith("CLEAR ")}
    found = list[Line]()
    for race, sail in sorted(cleared):
        # What keeps the times from being worked out is shown beside the sheet, and a line that is refused by the preview.
        with contextlib.suppress(Trouble):
            if has_sheet(folder, race):
                journal = scored(folder.program, options_in_force(folder), facts.sheet.journal, lines).journal
                own = Sheets(folder).beside(race, journal, others_in(folder, race, sail)).lines
                found += [Line("SCORER", text) for text in own]
    return found


def others_in(folder: Folder, race: int, sail: str) -> list[str]:
    """The boats of a race's sheet but one."""
    return [other for other in in_sheet(folder, race) if other != sail]


def has_row(text: str, row: str) -> bool:
    return row in [line.strip() for line in lines_of(text)]


def without_row(text: str, row: str) -> str:
    """The text of decisions.txt without a row."""
    if not has_row(text, row):
        return text
    rows = lines_of(text)
    at = [line.strip() for line in rows].index(row)
    return "\n".join([*rows[:at], *rows[at + 1:], ""])


def note_of(text: str) -> str:
    """A note as it is kept: one line of signs that are seen."""
    return " ".join("".join(filter(str.isprintable, text)).split())[:NOTE]


def with_ruling(text: str, facts: Facts, added: str, note: str) -> tuple[str, str]:
    """The text of decisions.txt with one more decision and its note, in place of an earlier one for the same
    boat, and what it is called."""
    found, wrong = decision_lines.rulings_of(added)
    if wrong or len(found) != 1:
        why = wrong[0].values.get("why") if wrong else None
        raise NotSent(why if isinstance(why, Remark) else remark("decision-needed"))
    new = found[0]
    if new.sail not in facts.boats:
        raise NotSent(remark("not-entered", sail=new.sail))
    old = [ruling.line for ruling in decision_lines.rulings_of(text)[0] if ruling.key == new.key]
    row = f"{added}  # {note}" if note else added
    lines = [row if at in old else line for at, line in enumerate(lines_of(text), 1)]
    return "\n".join([*lines, *([] if old else [row]), ""]), str(new)


def keep_decisions(folder: Folder, found: Ruled) -> None:
    """Writes what was decided, if decisions.txt is still as it was read for that. The program has taken its time
    meanwhile."""
    if decision_lines.read(folder.path) != found.before:
        raise NotSent(CHANGED)
    if found.text != found.before:
        replace_whole(folder.file(decision_lines.NAME), utf8(found.text))


def decisions_shown(folder: Folder, facts: Facts, known: Entries) -> list[Values]:
    """The decisions of the class, and what each comes to now."""
    text, journal = decision_lines.read(folder.path), facts.sheet.journal
    return decided_shown(decided(folder.program, options_in_force(folder), journal, text), journal, known) if text.strip() else []


def decided_shown(found: Decided, journal: Sequence[str], known: Entries = NO_ENTRIES) -> list[Values]:
    """Decisions with what each comes to, whether a boat's redress is of her decision (`redress`), and what of their file
    can't be read."""
    shown, rows = [], lines_of(found.text)
    for verdict in found.verdicts:
        row = rows[verdict.ruling.line - 1].strip()
        shown.append(verdict_shown(verdict, row.partition("#")[2].strip())
                     | {"row": row, "redress": "REDRESS" in held_by(verdict.ruling, journal, Known(*known))})
    return shown + [wrong_shown(wrong) | {"row": row_of(wrong, rows)} for wrong in found.wrong]


def verdict_shown(verdict: Verdict, note: str) -> Values:
    """A decision with what it comes to."""
    ruling = verdict.ruling
    return {"words": str(verdict), "kept": verdict.is_kept, "race": ruling.race, "sail": ruling.sail,
            "kind": ruling.kind, "how": ruling.how, "points": verdict.points, "held": verdict.held,
            "why": remarks_of([verdict.why] if verdict.why else []), "note": note}


def wrong_shown(wrong: Remark) -> Values:
    """A line of decisions.txt that is none, or what keeps all from being worked out."""
    return {"words": wrong, "wrong": remarks_of([wrong]), "kept": False}


def row_of(wrong: str, rows: Sequence[str]) -> str:
    """The row that something is wrong with; empty if it is about none."""
    found = LINE.match(wrong)
    return rows[int(found[1]) - 1].strip() if found else ""
