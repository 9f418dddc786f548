"""The page of one race."""
from __future__ import annotations

from collections.abc import Mapping

from raceoffice.program.codes import CODES
from raceoffice.program.journal import Race
from raceoffice.results.html.markup import NOTHING, Markup, separated, tag, together
from raceoffice.results.html.overall import decisions
from raceoffice.results.html.page import TOP, bar, code, finding, foot, head, key, name_heads, points, sail_head, who, whole
from raceoffice.results.html.sealing import block
from raceoffice.results.snapshot import Snapshot
from raceoffice.wording import duration


def beside(view: Snapshot, race: Race, sail: str, first: str = "") -> Markup:
    """What a boat holds beside her place, or beside the code that comes first. It is before her sail, where no name can be
    taken for it: names come after the comma of the sail."""
    kinds = race.penalties.get(sail, [])
    parts = [together(code(kind), f" × {kinds.count(kind)}" if kinds.count(kind) > 1 else "")
             for kind in dict.fromkeys(kinds)]
    label = view.decided.labels.get((race.number, sail), "RDG" if sail in race.redress else "")
    parts += [code(label)] if label not in ("", first) else []
    return together(*(together(" ", tag("em", part)) for part in parts))


def row(view: Snapshot, race: Race, sail: str, first: Markup, with_time: bool) -> Markup:
    scores, boat = view.scores(race.number), view.boat(sail)
    cells = [tag("td", first, class_="place"), sail_head(boat), tag("td", who(boat), class_="who")]
    below = NOTHING
    if with_time:
        time = duration(race.times[sail])
        cells.append(tag("td", time, class_="time"))
        below = together(" ", tag("span", time, class_="below"))
    if scores:
        cells.append(tag("td", points(scores[sail].points), below, class_="pts"))
    return tag("tr", *cells, data_find=finding(view, sail), **TOP)


def heads(view: Snapshot, race: Race, first: str, with_time: bool) -> Markup:
    """The headings of a table of a race."""
    cells = [tag("th", text, scope="col", class_=name) for text, name in
             ((first, "place"), ("Sail", "sail"), (name_heads(view), "who"))]
    if with_time:
        cells.append(tag("th", "Corrected", scope="col", class_="time"))
    if view.scores(race.number):
        below = together(" ", tag("span", "Corrected", class_="below")) if with_time else NOTHING
        cells.append(tag("th", "Points", below, scope="col", class_="pts"))
    return tag("thead", tag("tr", *cells))


def table(view: Snapshot, race: Race, label: str, caption: str, first: str, boats: Mapping[str, Markup],
          with_time: bool = False) -> Markup:
    """The boats of one kind, each with what is in the first column."""
    if not boats:
        return NOTHING
    rows = [row(view, race, sail, part, with_time) for sail, part in boats.items()]
    is_timed = with_time and bool(view.scores(race.number))
    made = tag("table", "\n", heads(view, race, first, with_time), "\n",
               tag("tbody", "\n", separated(rows, "\n"), "\n"), "\n",
               class_="timed" if is_timed else None, aria_labelledby=label)
    return together(tag("h2", caption, " ", tag("span", len(boats)), id=label), "\n",
                    tag("div", made, class_="scroll", role="region", aria_labelledby=label, tabindex=0))


def unrecorded(view: Snapshot, race: Race) -> list[str]:
    """The boats without a place, a code and redress."""
    return [sail for sail in race.missing(view.series.boats) if sail not in race.redress]


def tables(view: Snapshot, race: Race) -> Markup:
    """The boats of a race: those with a place, with a code, and without either."""
    counts, labels = race.number in view.standing.races, view.decided.labels
    places = {sail: together(place, "=" if shared else "", beside(view, race, sail))
              for sail, (place, shared) in race.places().items()}
    words = {sail: labels.get((race.number, sail), race.codes[sail])
             for sail in sorted(race.codes, key=lambda sail: (list(CODES).index(race.codes[sail]), sail))}
    words |= {sail: labels.get((race.number, sail), "RDG")
              for sail in race.missing(view.series.boats) if sail in race.redress}
    coded = {sail: together(code(word), beside(view, race, sail, word)) for sail, word in words.items()}
    missing = {sail: together(code("DNC") if counts else "–", beside(view, race, sail)) for sail in unrecorded(view, race)}
    return together(
        table(view, race, "table", "Finished", "Place", places, view.settings.handicap),
        table(view, race, "coded", "With a code", "Code", coded),
        table(view, race, "missing", "Not recorded: scored DNC" if counts else "Not recorded yet",
              "Code", missing))


def facts(view: Snapshot, race: Race) -> list[Markup]:
    """Whether it is scored, and how many boats finished or hold a code."""
    counts, boats = race.number in view.standing.races, len(view.series.boats)
    finished, missing = len(race.places()), len(unrecorded(view, race))
    found = [together("Scored." if counts else together(tag("b", "Not scored yet"), ", so no points.")),
             together(tag("b", finished), " finished"),
             together(tag("b", boats - finished - missing), " with a code")]
    if missing:
        found.append(together(tag("b", missing), " not recorded", ": DNC" if counts else " yet"))
    return [*found, together("of ", tag("b", boats), " boats")]


def words_used(view: Snapshot, race: Race) -> list[str]:
    """The abbreviations that the page has."""
    used = [*race.codes.values(), *(kind for kinds in race.penalties.values() for kind in kinds)]
    if race.redress:
        used.append("RDG")
    used += [label for (number, _), label in view.decided.labels.items() if number == race.number]
    if view.scores(race.number) and unrecorded(view, race):
        used.append("DNC")
    return used


def one_race(view: Snapshot, number: int, is_among: bool = False) -> str:
    """The page of one race, which may be among those of several series."""
    shown, race = view.settings, view.race(number)
    title = f"{shown.group} · Race {number}" if shown.group else f"Race {number}"
    above = " · ".join(text for text in (shown.club, shown.title) if text)
    body = tag("main", separated([
        "", head(view, is_among, above, title, facts(view, race)), bar(view, number, ""),
        tables(view, race), tag("div", key(words_used(view, race)), decisions(view, [number]), class_="notes"), foot(view, ""),
        block("race", [view], race=number, among=is_among), ""], "\n"), class_="race")
    style = "@media print { @page { size: A4 portrait; } }\n"
    return whole(view, f"Race {number} · {view.label} · {shown.state}", body, style, "")
