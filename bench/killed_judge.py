"""The judge of `killed.py`: whether each tap that was answered is where it has to be, once.

What is gone of a journal has to be lines about a boat of whom the office's log says at that place that she was taken out,
and nothing else. With these lines put back, the journal has each line as often as devices were answered that theirs was
taken; one that wasn't answered may be there once. A race that was abandoned has all lines that were agreed to. By corrected time the sheets have of each boat what the taps make of her.
"""
from __future__ import annotations

import collections
import csv
import json
import os
import re
import time
from dataclasses import dataclass, field
from typing import Any

from killed_device import LATE as LATE_SAILS
from killed_device import Memory, Tap

# Milliseconds between a change of a file and the look that sees it
LATE = 0.5
PLACES = "office/places"
# The lines that may come of a finish
PLACING = ("FINISH", "BEFORE", "TIE")
# A boat's finish and code in a sheet
Cells = tuple[str, str]
EMPTY: Cells = ("", "")


@dataclass
class Generation:
    """A journal between two removals: its file, which stays open when another takes its place, and when it came."""
    file: int
    inode: int
    began: float

    def entries(self) -> list[str]:
        data = os.pread(self.file, os.fstat(self.file).st_size, 0).decode()
        return [line for line in data.split("\n")[:-1] if line and not line.startswith("REGATTA")]


@dataclass
class Removal:
    """A boat that was taken out: when the shorter journal came, and the lines that went."""
    sail: str
    at: float
    gone: list[str]


@dataclass
class Verdict:
    """What was found of one class."""
    name: str
    wrong: list[str] = field(default_factory=list)
    figures: dict[str, int] = field(default_factory=dict)


def plain(entry: str) -> str:
    """The role and the line of an entry."""
    return entry.split(maxsplit=2)[2]


def logged(folder: str) -> list[list[str]]:
    with open(os.path.join(folder, "office.log"), encoding="utf-8") as file:
        return [line.rstrip("\n").split("\t") for line in file]


def removals_of(verdict: Verdict, folder: str, generations: list[Generation]) -> list[Removal]:
    """Each boat that was taken out, by the journals and by the log, which have to say the same."""
    noted = [row[5].split()[1] for row in logged(folder) if len(row) == 7 and row[5].startswith("removed ")]
    found: list[Removal] = []
    for before, after in zip(generations, generations[1:]):
        old, new = before.entries(), after.entries()
        gone = collections.Counter(old) - collections.Counter(new)
        kept = [entry for entry in old if entry not in gone]
        if new[:len(kept)] != kept:
            verdict.wrong.append(f"{verdict.name}: a journal of {len(old)} entries doesn't go on in the next")
        lines = [entry for entry in old if entry in gone]
        if not lines:
            # An office that is opened writes its journal to a new file.
            continue
        # What goes with her is what names her first, and who was placed by her until that one was struck.
        entered = [plain(entry).split()[2] for entry in lines if plain(entry).split()[1] == "ENTER"]
        sail = entered[0] if len(entered) == 1 else ""
        beside = {plain(entry).split()[3] for entry in lines if sail in plain(entry).split()[4:]}
        others = [entry for entry in lines if sail not in plain(entry).split()
                  and not (plain(entry).split()[1] == "STRIKE" and plain(entry).split()[3] in beside)]
        if others or not sail:
            verdict.wrong.append(f"{verdict.name}: {lines[:6]} of {len(lines)} entries went at {time.ctime(after.began)}, and are "
                                 f"of no boat that was taken out")
        found.append(Removal(sail, after.began, lines))
    if noted != [one.sail for one in found]:
        verdict.wrong.append(f"{verdict.name}: by the log {noted} were taken out, and by the journals "
                             f"{[(one.sail, time.strftime('%H:%M:%S', time.gmtime(one.at))) for one in found]}")
    verdict.figures["boats taken out"] = len(found)
    verdict.figures["lines taken out with them"] = sum(len(one.gone) for one in found)
    return found


def taps_of(folder: str, name: str) -> dict[str, list[Tap]]:
    """The taps of each device in a class."""
    found = {}
    for file in sorted(os.listdir(folder)):
        if file.startswith("device-"):
            memory = Memory(os.path.join(folder, file))
            found[file[7:-6]] = [tap for tap in memory.taps.values() if tap.name == name]
    return found


def role_of(who: str) -> str:
    return {"f": "FINISH", "s": "SCORER", "j": "JURY"}[who[0]]


@dataclass
class Expected:
    """How often a line has to be in a journal: as often as it was answered, and at most as often more as it was sent and
    nobody knows what came of it."""
    taken: collections.Counter[str] = field(default_factory=collections.Counter)
    perhaps: collections.Counter[str] = field(default_factory=collections.Counter)
    # Of boats that may have been placed by the clock: what comes of a finish may be FINISH or BEFORE.
    placed: collections.Counter[tuple[str, str]] = field(default_factory=collections.Counter)
    # The ids of the taps by their lines
    ids: dict[str, list[str]] = field(default_factory=lambda: collections.defaultdict(list))


def count(expected: Expected, who: str, tap: Tap) -> None:
    """Counts what a tap has put into the journal."""
    role = role_of(who)
    if tap.line.startswith("ABANDON "):
        count_abandoned(expected, role, tap)
        return
    if tap.kind == "correct":
        for one in tap.said.get("done", []):
            if one["outcome"] == "taken" and one["entry"]:
                expected.taken[f"{role} {one['line']}"] += 1
        if not tap.said.get("done") and tap.sent:
            for line in tap.body["lines"]:
                expected.perhaps[f"{role} {line}"] += 1
        return
    if tap.outcome == "taken" and tap.said["answer"].startswith("OK "):
        line = f"{role} {tap.said['line']}"
        expected.taken[line] += 1
        expected.ids[line].append(tap.id)
    elif not tap.status and tap.sent:
        if tap.line == "UNDO":
            expected.perhaps[f"{role} UNDO"] += 1
        expected.perhaps[f"{role} {tap.line}"] += 1
        words = tap.line.split()
        if len(words) > 2:
            expected.placed[words[1], words[2]] += 1


def count_abandoned(expected: Expected, role: str, tap: Tap) -> None:
    """Counts the lines by which a race was taken away. If several questions were answered by yes, what others have recorded
    and taken back meanwhile decides by which: what all have was surely sent. A tap that was stopped may have sent some."""
    agreed = [collections.Counter(lines) for lines in lines_agreed(tap)]
    perhaps, taken = collections.Counter[str](), collections.Counter(agreed[-1] if is_taken_away(tap) else [])
    for lines in agreed:
        perhaps, taken = perhaps | lines, taken & lines
    for line, times in taken.items():
        expected.taken[f"{role} {line}"] += times
    for line, times in (perhaps - taken).items():
        expected.perhaps[f"{role} {line}"] += times


def lines_agreed(tap: Tap) -> list[list[str]]:
    """The lines of each question about a race that is abandoned that was answered by yes."""
    return [asked["values"]["lines"] for asked in tap.body.get("agreed", []) if asked["kind"] == "abandon"]


def is_taken_away(tap: Tap) -> bool:
    """Whether it was answered that a race was taken away by lines."""
    return tap.outcome == "noted" and bool(lines_agreed(tap)) and any(one["what"] == "taken-away" for one in tap.said["said"])


def figures_of_abandoned(verdict: Verdict, everything: list[Tap]) -> None:
    """How many races were abandoned, by how many lines, and how many of these gave something back."""
    lines = [line for tap in everything if is_taken_away(tap) for line in lines_agreed(tap)[-1]]
    verdict.figures |= {"races abandoned": sum(map(is_taken_away, everything)), "lines of these": len(lines),
                        "of which give back": sum(line.startswith(("MARK ", "PENALTY ")) for line in lines)}


def may_have_gone(tap: Tap, removals: list[Removal]) -> bool:
    """Whether a tap of a boat who isn't entered any more may have been taken by a sending that had no answer, and its line have
    gone with her."""
    return tap.status == 422 and any(tap.line.split()[2:3] == [one.sail] and tap.sent - LATE <= one.at <= tap.ended + LATE
                                     for one in removals)


def judge_lines(verdict: Verdict, devices: dict[str, list[Tap]], entries: list[str], removals: list[Removal],
                kinds: tuple[str, ...] = ()) -> None:
    """Whether a journal has each line as often as it has to: only lines of these kinds, if there are some."""
    expected = Expected()
    for who, taps in devices.items():
        for tap in taps:
            count(expected, who, tap)
        expected.perhaps.update(f"{role_of(who)} {tap.line}" for tap in taps if may_have_gone(tap, removals))
    has = collections.Counter(plain(entry) for entry in entries)
    lost = doubled = 0
    undone = {role: expected.perhaps[f"{role} UNDO"] for role in ("FINISH", "SCORER", "JURY")}
    for line in sorted({*has, *expected.taken}):
        role, command, *about = line.split()
        if kinds and f"{role} {command}" not in kinds:
            continue
        wanted, spare = expected.taken[line], expected.perhaps[line]
        if command in PLACING:
            spare += expected.placed[tuple(about[:2])]  # type: ignore[index]
        if has[line] < wanted:
            lost += wanted - has[line]
            verdict.wrong.append(f"{verdict.name}: LOST {line}: answered {wanted} times, there {has[line]} times; taps "
                                 f"{expected.ids[line]}")
        elif has[line] > wanted + spare:
            if has[line] <= wanted + spare + undone[role]:
                undone[role] -= has[line] - wanted - spare
                continue
            doubled += has[line] - wanted - spare
            verdict.wrong.append(f"{verdict.name}: MORE of {line}: answered {wanted} times, perhaps {spare} more, there "
                                 f"{has[line]} times; taps {expected.ids[line]}")
    verdict.figures |= {"lines lost": lost, "lines too many": doubled,
                        "lines answered": sum(expected.taken.values())}


def judge_entries(verdict: Verdict, devices: dict[str, list[Tap]], generations: list[Generation]) -> None:
    """Whether each line that was answered was the entry that the answer names, in one of the journals."""
    held = [[plain(entry) for entry in one.entries()] for one in generations]
    for who, taps in devices.items():
        for tap in taps:
            if tap.kind == "line" and tap.outcome == "taken" and tap.said["answer"].startswith("OK "):
                number, line = int(tap.said["answer"].split()[1]), f"{role_of(who)} {tap.said['line']}"
                if not any(0 < number <= len(one) and one[number - 1] == line for one in held) and verdict.name == "cup":
                    verdict.wrong.append(f"{verdict.name}: {tap.id} of {who} was answered {tap.said['answer']!r} for "
                                         f"{line}, which no journal has there")


def judge_places(verdict: Verdict, devices: dict[str, list[Tap]], folder: str) -> None:
    """Whether each `?` that was answered has kept one place, and each other one at most one."""
    kept: dict[str, set[tuple[int, str]]] = collections.defaultdict(set)
    path = os.path.join(folder, PLACES)
    if os.path.exists(path):
        with open(path, encoding="utf-8") as file:
            for line in file:
                note = json.loads(line)
                if note.get("what") == "kept" and note.get("tap"):
                    kept[note["tap"]].add((note["race"], note["place"]))
    answered = 0
    for who, taps in devices.items():
        for tap in [one for one in taps if re.fullmatch(r"\? [0-9]+", one.line)]:
            places = kept.get(tap.id, set())
            is_answered = tap.outcome == "noted"
            answered += is_answered
            race = int(tap.line.split()[1])
            if is_answered and places != {(race, tap.said["mark"])} or len(places) > 1:
                verdict.wrong.append(f"{verdict.name}: {tap.id} of {who} ({tap.line}) was answered {tap.said}, and has {places}")
            if tap.status and tap.status != 200 and places:
                verdict.wrong.append(f"{verdict.name}: {tap.id} of {who} was answered {tap.status}, and has {places}")
    verdict.figures["places kept"] = answered


# By corrected time

@dataclass
class Row:
    """What a boat's row may be, as the taps say; `last` is the moment at which the last of them was sent, and that of its
    answer."""
    may_be: set[Cells] = field(default_factory=lambda: {EMPTY})
    last: tuple[float, float] = (0.0, 0.0)
    # What it may have been before each tap
    before: dict[str, set[Cells]] = field(default_factory=dict)
    taps: list[str] = field(default_factory=list)


def clock_of(tap: Tap, east: int) -> str:
    return time.strftime("%H:%M:%S", time.gmtime(tap.body["at"] // 1000 + 3600 * east))


def after(tap: Tap, held: Cells, command: str, words: list[str], east: int) -> Cells:
    """What a tap makes of a boat's row."""
    finish, code = held
    match command:
        case "FINISH":
            return clock_of(tap, east), code
        case "STRIKE":
            return "", code
        case "MARK":
            return finish, words[3]
        case "CLEAR":
            return finish, ""
    return held


def rows_of(devices: dict[str, list[Tap]], removals: list[Removal], east: int) -> dict[tuple[str, str], Row]:
    """What the rows of all boats may be: each race is of one device, whose taps are in order."""
    rows: dict[tuple[str, str], Row] = collections.defaultdict(Row)
    about: dict[str, tuple[str, str]] = {}
    # The jury's CLEAR takes codes out of a sheet.
    cleared = {(tap.line.split()[1], tap.line.split()[2]) for who, taps in devices.items() for tap in taps
               if who[0] == "j" and tap.line.startswith("CLEAR ")}
    for who, taps in devices.items():
        for tap in [one for one in taps if who[0] == "f" and one.kind == "line"]:
            words = tap.line.split()
            if words[0] == "ABANDON":
                take_race_away(rows, words[1], tap, removals)
                continue
            undone = str(tap.body.get("undoes", ""))
            key = about.get(undone) if words[0] == "UNDO" else (words[1], words[2]) if len(words) > 2 else None
            if key is None or words[0] not in ("UNDO", "FINISH", "STRIKE", "MARK", "CLEAR"):
                continue
            about[tap.id] = key
            row = rows[key]
            follow_removals(row, key[1], removals, tap)
            row.before[tap.id] = set(row.may_be)
            if words[0] == "UNDO":
                made = set(row.before.get(undone, {EMPTY}))
            else:
                made = {after(tap, held, words[0], words, east) for held in row.may_be}
            is_done = tap.outcome in ("taken", "noted")
            is_nothing = tap.status in (400, 422) or not tap.sent
            row.may_be = made if is_done else row.may_be if is_nothing else row.may_be | made
            row.last = tap.sent, tap.ended
            row.taps.append(f"{tap.line} [{tap.id[:6]} {tap.status} {tap.outcome} {tap.said.get('answer', '')}]")
    for (race, sail), row in rows.items():
        follow_removals(row, sail, removals, None)
        if (race, sail) in cleared:
            row.may_be |= {(finish, "") for finish, _ in row.may_be}
    return rows


def take_race_away(rows: dict[tuple[str, str], Row], race: str, tap: Tap, removals: list[Removal]) -> None:
    """What a race that is abandoned leaves in its sheet: BFD alone. One that was stopped may have emptied the sheet."""
    for (number, sail), row in rows.items():
        if number != race or tap.status in (400, 422) or not tap.sent:
            continue
        follow_removals(row, sail, removals, tap)
        made: set[Cells] = {("", code if code == "BFD" else "") for _, code in row.may_be}
        row.may_be = made if tap.outcome == "noted" else row.may_be | made
        row.last = tap.sent, tap.ended
        row.taps.append(f"{tap.line} [{tap.id[:6]} {tap.status} {tap.outcome}]")


def follow_removals(row: Row, sail: str, removals: list[Removal], tap: Tap | None) -> None:
    """A boat that is taken out has an empty row: surely, if the last tap was answered before, and the next one sent after."""
    for one in [one for one in removals if one.sail == sail]:
        if tap is not None and tap.ended and one.at > tap.ended + LATE:
            continue
        if row.last[0] and one.at + LATE < row.last[0]:
            continue
        is_sure = row.last[1] and row.last[1] + LATE < one.at and (tap is None or one.at + LATE < tap.sent)
        if tap is not None and one.at > tap.sent:
            row.may_be = row.may_be | {EMPTY}
        else:
            row.may_be = {EMPTY} if is_sure else row.may_be | {EMPTY}


def sheet_rows(folder: str, race: str) -> dict[str, Cells]:
    path = os.path.join(folder, "times", f"race-{race}.csv")
    if not os.path.exists(path):
        return {}
    with open(path, encoding="utf-8", newline="") as file:
        return {row["Sail"]: (row["Finish"], row["Code"]) for row in csv.DictReader(file)}


def start_of(folder: str, race: str) -> str:
    path = os.path.join(folder, "times", f"race-{race}.csv")
    if not os.path.exists(path):
        return ""
    with open(path, encoding="utf-8", newline="") as file:
        return next((row["Start"] for row in csv.DictReader(file) if row["Start"]), "")


def times_in(entries: list[str]) -> set[tuple[str, str]]:
    """The boats that have a time in a journal, each with her race."""
    found: set[tuple[str, str]] = set()
    for entry in entries:
        _, command, *about = plain(entry).split()
        if command == "TIME":
            found.add((about[0], about[1]))
        elif command == "STRIKE":
            found.discard((about[0], about[1]))
    return found


def judge_sheets(verdict: Verdict, devices: dict[str, list[Tap]], removals: list[Removal], folder: str, east: int,
                 entries: list[str]) -> None:
    """Whether the sheets have of each boat what the taps make of her, and the journal her time."""
    rows, timed = rows_of(devices, removals, east), times_in(entries)
    entered = {plain(entry).split()[2] for entry in entries if " ENTER " in entry}
    wrong = compared = 0
    sheets = {race: sheet_rows(folder, race) for race in {race for race, _ in rows}}
    for (race, sail), row in sorted(rows.items()):
        has = sheets[race].get(sail, EMPTY)
        compared += len(row.may_be) == 1
        if has not in row.may_be:
            wrong += 1
            verdict.wrong.append(f"{verdict.name}: race {race}, {sail} has {has} in the sheet, and should have {row.may_be}: "
                                 f"{row.taps}; taken out {[one.at for one in removals if one.sail == sail]}, last {row.last}")
        # A late entry has no rating, so that her time waits for one.
        is_timed = bool(has[0]) and not has[1] and bool(start_of(folder, race)) and sail in entered and not is_late(sail)
        if ((race, sail) in timed) != is_timed:
            wrong += 1
            verdict.wrong.append(f"{verdict.name}: race {race}, {sail} has {has} in the sheet, and "
                                 f"{'a' if (race, sail) in timed else 'no'} time in the journal: {row.taps}")
    verdict.figures |= {"rows of sheets compared": len(rows), "of which one is possible": compared, "rows wrong": wrong}


def judge_class(name: str, top: str, generations: list[Generation], east: int) -> Verdict:
    """What is wrong with a class, and the figures."""
    verdict, folder = Verdict(name), os.path.join(top, name)
    devices = taps_of(top, name)
    removals = removals_of(verdict, folder, generations)
    entries = generations[-1].entries()
    whole = [*entries, *(entry for one in removals for entry in one.gone)]
    everything = [tap for taps in devices.values() for tap in taps]
    by_end = collections.Counter(tap.outcome or f"status {tap.status}" if tap.ended and not tap.is_dropped else
                                 "dropped" if tap.is_dropped else "unanswered" for tap in everything)
    verdict.figures |= {"taps": len(everything), **{f"taps {end}": n for end, n in sorted(by_end.items())},
                        "entries": len(entries)}
    figures_of_abandoned(verdict, everything)
    judge_entries(verdict, devices, generations)
    if name == "cup":
        judge_lines(verdict, devices, [entry for entry in whole if not is_listed(entry)], removals)
        judge_places(verdict, devices, folder)
    else:
        judge_lines(verdict, devices, [entry for entry in whole if not is_listed(entry)], removals,
                    ("FINISH PENALTY", "JURY PENALTY", "SCORER ENTER", "SCORER SCORE", "SCORER UNSCORE"))
        judge_sheets(verdict, devices, removals, folder, east, entries)
    return verdict


def is_listed(entry: str) -> bool:
    """Whether a boat of the entry list is entered by it."""
    words: list[Any] = plain(entry).split()
    return words[1] == "ENTER" and not is_late(words[2])


def is_late(sail: str) -> bool:
    """Whether a boat is entered by a scorer."""
    return sail in LATE_SAILS
