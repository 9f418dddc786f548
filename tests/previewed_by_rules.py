"""What a document of `regatta preview` has to say, worked out beside the program: who moves between two journals and
whose scores change, by the rules as `explained_by_rules` states them, and the text of each reply as a session writes it.
It shares no code with the package or the program."""
from __future__ import annotations

from typing import Any

from explained_by_rules import Rules, Series

Document = dict[str, Any]


def places(rules: Rules, journal: str) -> dict[str, Document]:
    """Where each boat stands after this journal, in the order of the table."""
    series = Series(rules, journal)
    return {row.sail: {"rank": rank, "tied": tied, "net": row.net()} for rank, tied, row in series.table(series.scored)}


def moves(rules: Rules, before: str, after: str) -> list[Document]:
    """The boats that stand otherwise after the second journal than after the first, or are new."""
    first = places(rules, before)
    return [{"sail": sail, "before": first.get(sail), "after": place} for sail, place in places(rules, after).items()
            if first.get(sail) != place]


def scores(rules: Rules, journal: str) -> dict[str, dict[int, Document]]:
    """Each boat's score in each race that counts after this journal."""
    series = Series(rules, journal)
    return {row.sail: {race: {"points": row.points[at], "mark": series.mark(race, row.sail), "excluded": row.dropped[at]}
                       for at, race in enumerate(series.scored)} for _, _, row in series.table(series.scored)}


def changes(rules: Rules, before: str, after: str) -> list[Document]:
    """The boats whose rank, net or scores are others after the second journal than after the first, or who are new."""
    first, was, now = places(rules, before), scores(rules, before), scores(rules, after)
    found: list[Document] = []
    for sail, place in places(rules, after).items():
        if (first.get(sail), was.get(sail)) != (place, now[sail]):
            old = was.get(sail, {})
            found.append({"sail": sail, "before": first.get(sail), "after": place,
                          "scores": [{"race": race, "before": old.get(race), "after": now[sail].get(race)}
                                     for race in sorted({*old, *now[sail]})]})
    return found


def placed(boat: Document) -> str:
    return f"{boat['rank']}{'=' * boat['tied']} {float(boat['net']):.1f}"


def reply(row: Document) -> str:
    """The line, or the first line of the sheet, that a session writes for a reply of the document."""
    match row["reply"]:
        case "OK":
            return f"OK {row['entry']}" + (f" {placed(row['boat'])}" if row["boat"] else "")
        case "NO":
            return f"NO {row['number']}"
        case "ROLE":
            return f"ROLE {row['role']}"
        case "RANK":
            return f"RANK {placed(row['boat'])}"
        case "JOURNAL":
            return f"JOURNAL {row['entries']}"
    return str(row["reply"])


def without_sheets(printed: str) -> list[str]:
    """The lines of a session's replies, and of each sheet the first alone."""
    lines: list[str] = []
    inside = False
    for line in printed.splitlines():
        if not inside:
            lines.append(line)
        inside = line != "END" and (inside or line.startswith("JOURNAL "))
    return lines
