"""What a page shows of a class, as values."""
from __future__ import annotations

from collections.abc import Iterable, Mapping, Sequence

from raceoffice.program.journal import Race
from raceoffice.program.messages import moved
from raceoffice.program.standing import Change, Row, Standing, changes
from raceoffice.remarks import Remark, Value
from raceoffice.series.settings import Settings
from raceoffice.series.unknown_finishers import Waiting
from raceoffice.session.dialogue import Question, Said
from raceoffice.session.facts import Facts
from raceoffice.web.finish_order import Moments

Values = dict[str, object]


def races_of(facts: Facts, waiting: Waiting, moments: Moments, noted: Moments, others: Iterable[int] = ()) -> dict[str, Values]:
    """The races of which anything is recorded, or a place is kept, and others, by their numbers."""
    numbers = {number for number, race in facts.series.races.items() if race.is_recorded or race.counts}
    numbers |= set(others)
    numbers |= {unread.race for unread in waiting.all}
    return {str(number): race_of(facts.race(str(number)), waiting, moments, noted) for number in sorted(numbers)}


def race_of(race: Race, waiting: Waiting, moments: Moments, noted: Moments) -> Values:
    """A race as a page gets it. `noted` are the moments of finishers in its sheet of times, who may be in no order yet."""
    places = waiting.places(race)
    here = {sail: moments[race.number, sail] for group in race.order for sail in group
            if (race.number, sail) in moments}
    here |= {sail: moment for (number, sail), moment in noted.items() if number == race.number}
    return {"counts": race.counts, "order": race.order, "codes": race.codes, "penalties": race.penalties,
            "redress": race.redress, "times": race.times,
            "at": {sail: at for sail, (at, _) in here.items()},
            "by": {sail: by for sail, (_, by) in here.items()},
            "unread": [{"mark": unread.mark, "place": places[unread.mark], "after": unread.place(race)}
                       for unread in waiting.of(race.number)]}


def boats_of(facts: Facts) -> list[list[str]]:
    """Each boat's sail, name and helm."""
    found = []
    for sail in facts.boats:
        boat = facts.names.get(sail)
        found.append([sail, boat.name if boat else "", boat.helm if boat else ""])
    return found


def unlisted(facts: Facts) -> list[str]:
    """The sails of boats that are entered, and aren't in the entry list; none if that can't be read."""
    return [sail for sail in facts.boats if sail not in facts.names] if facts.names else []


def rules_of(settings: Settings) -> Values:
    """The rules as series.ini has them."""
    return {"exclude": settings.exclude, "absent": settings.absent, "scp": settings.scp,
            "handicap": settings.handicap}


def rows_shown(rows: Iterable[Row]) -> list[Values]:
    return [{"rank": row.rank, "shared": row.shared, "sail": row.sail, "net": row.net,
             "scores": [[score.points, score.code, score.excluded] for score in row.scores]} for row in rows]


def standing_of(standing: Standing) -> Values:
    return {"races": standing.races, "rows": rows_shown(standing.rows)}


def moves_of(before: Standing, after: Standing, facts: Facts) -> list[Values]:
    """Whose scores moved from one table to another, in the words of the typing window."""
    return moves_shown(changes(before, after), facts) if before.races or after.races else []


def moves_shown(found: Iterable[Change], facts: Facts) -> list[Values]:
    """How boats move, in the words of the typing window."""
    return [{"sail": change.after.sail, "was": change.before.rank, "rank": change.after.rank,
             "net_before": change.before.net, "net": change.after.net,
             "words": moved(change, facts.called(change.after.sail))} for change in found]


def remarks_of(said: Iterable[str]) -> list[Values]:
    """What is said, as a page gets it: with an empty kind if it has only English words."""
    return [{"kind": one.kind, "values": {name: value_shown(value) for name, value in one.values.items()}, "text": str(one)}
            if isinstance(one, Remark) else {"kind": "", "values": {}, "text": one} for one in said]


def value_shown(value: Value) -> object:
    """A value of a remark: another remark as such, several one by one."""
    if isinstance(value, Remark):
        return remarks_of([value])[0]
    return value if isinstance(value, (str, int)) else [value_shown(one) for one in value]


def question_of(asked: Question) -> Values:
    """A question as a page gets it."""
    return {"kind": asked.kind, "values": asked.values, "text": asked.text, **remarks_in(asked.values)}


def said_of(said: Sequence[Said]) -> list[Values]:
    return [{"text": one.text.strip(), "kind": one.kind, "what": one.what, "values": one.values, **remarks_in(one.values)}
            for one in said if one.text.strip()]


def remarks_in(values: Mapping[str, object]) -> Values:
    """The values that are remarks, by their names; nothing if none is."""
    remarks = {name: remarks_of([value])[0] for name, value in values.items() if isinstance(value, Remark)}
    return {"remarks": remarks} if remarks else {}
