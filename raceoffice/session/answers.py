"""What an answer of the office means, in words: a boat's place, whose scores moved, how a race is."""
from __future__ import annotations

from typing import Union

from raceoffice.corrected.unsent import in_sheet
from raceoffice.program.journal import STAYING, Plan, Race
from raceoffice.program.messages import ROLES, move_values, rank_of
from raceoffice.program.standing import Standing, changes
from raceoffice.series.race_sheets import sheet_name
from raceoffice.series.unknown_finishers import Waiting
from raceoffice.session.dialogue import ANSWER, NOTE, REFUSAL, SHOWN, Said
from raceoffice.session.facts import Facts
from raceoffice.session.parse import FINISHING
from raceoffice.session.said_words import said
from raceoffice.wording import duration, ordinal

Values = dict[str, Union[str, int, list[str]]]


def answer_said(facts: Facts, line: str, answer: str, prefix: str = "") -> Said:
    """What any answer but OK says of a line; `prefix` is the class, if there are several."""
    first, *rest = answer.split()
    if first == "NO":
        return said("refused", REFUSAL, facts.called, prefix, answer=answer)
    if first == "RANK":
        tied = ", tied," if rest[0].endswith("=") else ""
        return Said(f"   {prefix}{facts.called(line.split()[1])} is {ordinal(int(rest[0].rstrip('=')))}{tied} "
                    f"with {rest[1]} points", ANSWER)
    if first == "ROLE":
        return Said(f"{answer}   {prefix}your lines are now those of {ROLES[rest[0]]}", ANSWER)
    return Said(answer, ANSWER)


def outcome(facts: Facts, line: str, waiting: Waiting, entry: int, prefix: str) -> Said:
    """What a line that was taken, as this entry, has done; `waiting` are the finishers whose sails weren't read."""
    command, *rest = line.split()

    def answered(what: str, **values: str | int | list[str]) -> Said:
        return said(what, ANSWER, facts.called, prefix, entry=entry, **values)
    if command == "ENTER":
        return answered("entered", sail=rest[0], boats=len(facts.boats), listed=rest[0] in facts.names,
                        file=facts.settings.entries)
    if command in ("SCORE", "UNSCORE"):
        return answered("counts" if command == "SCORE" else "counts-no-longer", race=rest[0])
    race, sail = facts.race(rest[0]), rest[1]
    values: Values = {}
    if command == "STRIKE":
        what = "struck"
    elif command in FINISHING:
        what, values = place_in(race, sail, waiting.ahead_of(race, sail))
    else:
        what, values = "held", {"held": codes_of(race, sail)}
    return answered(what, race=race.number, **values, finished=len(race.places()), coded=len(race.codes),
                    missing=len(race.missing(facts.boats)), boats=len(facts.boats))


def place_in(race: Race, sail: str, unread: int) -> tuple[str, Values]:
    """A finisher's place; `unread` finishers ahead of her aren't in the order yet."""
    place, tied = race.places().get(sail, (0, False))
    if not place and sail in race.codes:
        # Redress is her score, whatever code she holds.
        is_given = sail in race.redress
        return ("held", {"held": codes_of(race, sail)}) if is_given else ("coded", {"holds": race.codes[sail]})
    return ("finished", {"place": place, "tied": tied, "unread": unread}) if place else ("out-again", {})


def changes_said(facts: Facts, before: Standing, race: Race | None, mixed: bool) -> list[Said]:
    """Whose scores moved; `mixed` says that lines of other windows came in between."""
    def noted(what: str, **values: str | int | tuple[str, ...]) -> Said:
        return said(what, NOTE, facts.called, "", **values)
    if before.races and not facts.standing.races:
        return [noted("no-race")]
    found = changes(before, facts.standing)
    if not found:
        return [noted("no-move", race=race.number)] if race else []
    others = [noted("mixed")] if mixed else []
    return [noted("changed", race=race.number if race else ""), *others,
            *(noted("moved", **move_values(change)) for change in found)]


def race_said(facts: Facts, race: Race, unread: dict[str, int], is_to_count: bool, prefix: str) -> list[Said]:
    """A race as it is recorded: the order, who holds what, whose time is in the sheet alone, and who is missing. `unread`
    are the places of finishers whose sails weren't read."""
    def shown(what: str, **values: str | int | list[str]) -> Said:
        return said(what, SHOWN, facts.called, prefix, **values)
    away, sheet = race.missing(facts.boats), in_sheet(facts.folder, race.number)
    missing = away if race.counts else [sail for sail in away if sail not in sheet]
    found = [shown("race-state", race=race.number, counts=race.counts, next=is_to_count, finished=len(race.places()),
                   coded=len(race.codes), missing=len(missing), boats=len(facts.boats))]
    found += [Said(f"  {str(place) + '=' * tied:>4}  {facts.called(sail)}{time_in(race, sail)}"
                   f"{beside_code(race, sail)}", SHOWN) for sail, (place, tied) in race.places().items()]
    found += [Said(f"   {code}  {facts.called(sail)}{time_in(race, sail)}{beside_code(race, sail)}", SHOWN)
              for sail, code in race.codes.items()]
    found += [shown("race-unread", mark=mark, place=place) for mark, place in unread.items()]
    if missing:
        found.append(shown("race-missing", counts=race.counts,
                           boats=[facts.called(sail) + beside_code(race, sail, " ") for sail in missing]))
    if waiting := [sail for sail in away if sail in sheet]:
        found.append(shown("sheet-waits", fault=facts.all_called(waiting)))
    return found + [shown("row-left-out", sail=sail, name=sheet_name(race.number)) for sail in sheet if sail not in facts.boats]


def time_in(race: Race, sail: str) -> str:
    """A boat's corrected time, in a series that has times."""
    seconds = race.times.get(sail)
    return "" if seconds is None else f"   {seconds} s ({duration(seconds)})"


def beside_code(race: Race, sail: str, space: str = "   ") -> str:
    """What a boat holds beside her code."""
    redress = [f"RDG {race.redress[sail]}"] if sail in race.redress else []
    held = race.penalties.get(sail, []) + redress
    return space + " ".join(held) if held else ""


def standing_lines(facts: Facts) -> list[str]:
    return [f"  {rank_of(row):>12}  {row.net:>6}  {facts.called(row.sail)}"
            for row in facts.standing.rows]


def codes_of(race: Race, sail: str) -> list[str]:
    """What a boat holds in a race, in codes."""
    return [held.replace("redress", "RDG") for held in race.held(sail)]


def with_codes(race: Race, line: str) -> str:
    """A line of a plan, and what it takes from a boat beside her place."""
    return f"{line} ({', '.join(codes_of(race, line.split()[2]))})" if line.startswith("CLEAR ") else line


def plan_said(facts: Facts, race: Race, plan: Plan, kept: list[str], prefix: str) -> list[Said]:
    """How a race is taken away; `kept` are the finishers without a sail whose places go with it."""
    def shown(what: str, **values: str | int | list[str]) -> Said:
        return said(what, SHOWN, facts.called, prefix, **values)
    found = [shown("plan", race=race.number, lines=plan.lines),
             *(Said(f"    {with_codes(race, line)}", SHOWN) for line in plan.lines)]
    if kept:
        found.append(shown("plan-places", marks=kept))
    if plan.stays:
        stays = [[sail, *(code for code in codes_of(race, sail) if code in STAYING)] for sail in plan.stays]
        found += [shown("plan-stays", sails=list(map(" ".join, stays))), shown("plan-resailed")]
    if plan.jury:
        found.append(shown("plan-jury", sails=[" ".join([sail, *codes_of(race, sail)]) for sail in plan.jury]))
    return found
