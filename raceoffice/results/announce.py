"""What is declared of the results: provisional, final or amended, and what is still open then."""
from __future__ import annotations

import contextlib
from collections.abc import Mapping, Sequence
from dataclasses import dataclass

from raceoffice.characters import utf8
from raceoffice.corrected.unsent import unsent
from raceoffice.decisions.points import Verdict
from raceoffice.errors import Trouble
from raceoffice.files import edited_text, replace_whole
from raceoffice.program.journal import Race, Series
from raceoffice.program.link import Sheet
from raceoffice.remarks import remark
from raceoffice.results.decisions_now import FILE, DecisionsNow
from raceoffice.series import entry_list, settings
from raceoffice.series.folder import Folder
from raceoffice.series.kept_places import kept_now
from raceoffice.series.last_change import mark_of
from raceoffice.series.run_program import options_in_force, replayed, rules_waiting
from raceoffice.series.unknown_finishers import marks_by_race
from raceoffice.session.dialogue import Question, Value
from raceoffice.session.question_words import question
from raceoffice.wording import count, joined, on_one_line

# The longest reason that a page takes.
LONGEST = 200
Names = Mapping[str, entry_list.Boat]


@dataclass(frozen=True)
class Open:
    """What is still open before results are final: its kind, which is a fixed word, what it is about, and its
    English."""
    kind: str
    values: Mapping[str, Value]
    text: str


def sheet_now(folder: Folder) -> Sheet:
    """Journal and table, from the open office or else from journal.txt."""
    with contextlib.suppress(Trouble):
        link = folder.link()
        with contextlib.closing(link):
            return link.sheet()
    return replayed(folder, options_in_force(folder))


# What is open

def open_points(folder: Folder, sheet: Sheet, decisions: DecisionsNow | None = None) -> list[Open]:
    """Rules that were saved and aren't in force, boats without a name, races that aren't scored or that have other times in
    their sheets, finishers without a sail, decisions that aren't in the scores as they have to be."""
    series, names = Series.read(list(sheet.journal)), entry_list.read_if_there(folder.entries)
    unnamed = without_name(series.boats, names)
    left = [race for _, race in sorted(series.races.items()) if race.is_recorded and not race.counts]
    return [*of_rules(folder), *([of_unnamed(folder, unnamed)] if unnamed else []), *(of_race(race, names) for race in left),
            *of_sheets(folder, series, sheet.journal), *of_places(folder), *of_decisions(folder, sheet, decisions or DecisionsNow(folder))]


def without_name(boats: Sequence[str], names: Names) -> list[str]:
    """The boats whose helm and name the list lacks, if it has those of others."""
    if not any(boat.helm or boat.name for boat in names.values()):
        return []
    known = {sail for sail, boat in names.items() if boat.helm or boat.name}
    return [sail for sail in boats if sail not in known]


def of_unnamed(folder: Folder, sails: Sequence[str]) -> Open:
    return Open("boats-unnamed", {"sails": tuple(sails)}, f"Shown without a name: {joined(sails)}. Add the "
                f"{'boat' if len(sails) == 1 else 'boats'} to {folder.settings.entries}.")


def of_rules(folder: Folder) -> list[Open]:
    """The rules of series.ini that wait for an opening: the results go by others."""
    found = rules_waiting(folder)
    saved = tuple(f"{key} = {value}" for key, value in found.items())
    return [Open("rules-waiting", {"keys": tuple(found), "saved": saved},
                 f"Not in force until the office is opened with the new rules: {joined(saved)}.")] if found else []


def of_race(race: Race, names: Names) -> Open:
    """A race of which something is recorded, and that doesn't count."""
    # Pages have words for codes alone.
    held = tuple(" ".join([sail, *race.held(sail)]).replace("redress", "RDG") for sail in race.holders())
    return Open("race-unscored", {"race": race.number, "finished": sum(map(len, race.order)), "held": held},
                f"Race {race.number} isn't scored. Recorded of it: {recorded_of(race, names)}.")


def of_sheets(folder: Folder, series: Series, journal: Sequence[str]) -> list[Open]:
    """The races that count, and whose sheets of times have something else than the journal: somebody may have said No to
    that."""
    counting = [number for number, race in sorted(series.races.items()) if race.counts]
    found = [(race, unsent(folder, race, journal)) for race in counting]
    return [of_sheet_fault(race, one.fault) if one.fault else of_sheet(race, one.sails) for race, one in found
            if one.fault or one.sails]


def of_sheet(race: int, sails: tuple[str, ...]) -> Open:
    return Open("sheet-unsent", {"race": race, "sails": sails},
                f"What the sheet of times of race {race} has of {joined(sails)} isn't in the journal.")


def of_sheet_fault(race: int, fault: str) -> Open:
    return Open("sheet-unread", {"race": race, "fault": fault},
                f"Whether the journal has the times of the sheet of race {race} isn't known: {fault}")


def recorded_of(race: Race, names: Names) -> str:
    """What is recorded of a race, in words."""
    finished = sum(map(len, race.order))
    held = [f"{names.get(sail, sail)} {joined(race.held(sail))}" for sail in race.holders()]
    return joined(([count(finished, "finisher")] if finished else []) + held)


def of_places(folder: Folder) -> list[Open]:
    """The finishers without a sail; and what is wrong with their file, if something is."""
    waiting, fault = kept_now(folder)
    races = tuple(str(unread.race) for unread in waiting)
    marks = tuple(unread.mark for unread in waiting)
    kept = [Open("finishers-unknown", {"races": races, "marks": marks},
                 f"Kept without a sail: {marks_by_race(waiting)}.")]
    wrong = [Open("places-unread", {"fault": fault}, f"Beware: {fault}")]
    return [*(kept if waiting else []), *(wrong if fault else [])]


def of_decisions(folder: Folder, sheet: Sheet, decisions: DecisionsNow) -> list[Open]:
    """The decisions whose points aren't those that they come to now, and what of their file can't be read."""
    found = decisions.look(sheet)
    wrong = [Open("decisions-unread", {"fault": why}, f"Beware: {why}.") for why in found.wrong]
    return [*(of_decision(folder, verdict) for verdict in found.verdicts if not verdict.is_kept), *wrong]


def of_unsent(devices: Sequence[str]) -> Open:
    """Devices that hold taps which the office hasn't got."""
    return Open("taps-unsent", {"devices": tuple(devices)}, f"Taps that the office hasn't got wait on {joined(devices)}.")


def of_decision(folder: Folder, verdict: Verdict) -> Open:
    ruling = verdict.ruling
    values: dict[str, Value] = {"race": ruling.race, "sail": ruling.sail, "kind": ruling.kind, "how": ruling.how, "points": verdict.points,
              "held": verdict.held, "why": verdict.why or ""}
    sending = "" if verdict.why else f" `{folder.command('decisions send')}` sends what is lacking."
    return Open("decision-stale", values, f"{FILE}, line {ruling.line}: {verdict}.{sending}")


# Before and after

def asked_of(state: str, points: Sequence[Open], mark: str = "") -> Question:
    """What is asked before a state is announced. `mark` is that of the table which is announced: an answer
    holds for it alone."""
    def all_of(kind: str, name: str) -> tuple[str, ...]:
        values = [point.values[name] for point in points if point.kind == kind]
        return tuple(text for value in values for text in (value if isinstance(value, tuple) else [str(value)]))

    decisions = [" ".join(str(point.values[name]) for name in ("race", "sail", "kind", "points", "held"))
                 for point in points if point.kind == "decision-stale"]
    # An older page hasn't these.
    more = {"rules": all_of("rules-waiting", "saved"), "devices": all_of("taps-unsent", "devices"), "sheets": (*all_of("sheet-unsent", "race"), *all_of("sheet-unread", "race"))}
    return question("announce", str, state=state, table=mark, races=all_of("race-unscored", "race"),
                    sails=all_of("boats-unnamed", "sails"), marks=all_of("finishers-unknown", "marks"),
                    faults=(*all_of("places-unread", "fault"), *all_of("decisions-unread", "fault")), decisions=decisions, **{name: held for name, held in more.items() if held})


def need_reason(state: str, reason: str) -> str:
    """The reason on one line; a Trouble if amended results have none."""
    reason = on_one_line(reason)
    if state == "amended" and not reason:
        raise Trouble(remark("reason-needed"))
    return reason


def announce(folder: Folder, state: str, reason: str, table: tuple[str, ...], by: str = "") -> None:
    """Writes whether the results are final, and why; the board shows it within seconds. The log has what it was
    said of."""
    write(folder, {"state": state, "reason": reason})
    folder.log(by, "", "", state, mark_of(table) if state != "provisional" else "")


def write(folder: Folder, values: Mapping[str, str]) -> None:
    """Writes what the notice says into series.ini."""
    path = folder.file(settings.NAME)
    text = edited_text(path)
    for key, value in values.items():
        text = settings.with_value(text, "notice", key, value)
    replace_whole(path, utf8(text))
