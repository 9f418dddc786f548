"""How the standing developed: the rank after each race, as a small picture and as a table.

The ranks are the program's own (`regatta explain`). The picture has the first boats alone; each line
has a colour, a dash, a mark and a label of its own. The table has all boats.
"""
from __future__ import annotations

from raceoffice.program.standing import Row
from raceoffice.results.html.markup import NOTHING, Markup, separated, tag, together
from raceoffice.results.html.page import rem, sail_head
from raceoffice.results.snapshot import Snapshot

# How many boats have a line, and the last rank that has a height of its own.
LINES, DEEPEST = 8, 16
# Pixels with letters of the usual size: between ranks, above the first rank, left of the lines, at least right of them,
# and between a line's end and its label.
HIGH, ABOVE, LEFT, RIGHT, GAP = 20, 34, 40, 118, 20
# The most that a sign of a label takes: a digit, a space, and any other.
DIGIT, SPACE, SIGN = 9, 5, 14
# The width that a phone has for the lines, the least and the most between two races, and the width of
# a race's number.
PHONE, NEAREST, FARTHEST, NUMBER = 206, 15, 40, 30
DASHES = ["", "7 3", "2 3", "11 3 2 3", "", "7 3", "2 3", "11 3 2 3"]


def ranks(view: Snapshot) -> dict[str, list[tuple[int, bool]]]:
    """Each boat's rank after each race, and whether she shares it."""
    found: dict[str, list[tuple[int, bool]]] = {row.sail: [] for row in view.standing.rows}
    for after in view.explanation.course:
        for sail, place in after.items():
            found[sail].append(place)
    return found


def height(rank: int, deepest: int) -> int:
    """How far down a rank is. All ranks below the deepest are one step below it."""
    return ABOVE + (min(rank, deepest + 1) - 1) * HIGH


def step(races: int) -> int:
    """How far two races are apart: as far as a phone has room, within limits."""
    return max(NEAREST, min(FARTHEST, PHONE // max(1, races - 1)))


def mark(kind: int, x: int, y: int) -> Markup:
    """The mark of a line at one race: a disc, a square, a triangle or a diamond, full or hollow."""
    look = None if kind < 4 else "hollow"
    if kind % 4 == 0:
        return tag("circle", cx=x, cy=y, r=4, class_=look)
    if kind % 4 == 1:
        return tag("rect", x=x - 4, y=y - 4, width=8, height=8, class_=look)
    if kind % 4 == 2:
        return tag("path", d=f"M{x} {y - 5}l5 9h-10z", class_=look)
    return tag("path", d=f"M{x} {y - 6}l5 6l-5 6l-5 -6z", class_=look)


def line(at: int, places: list[tuple[int, bool]], deepest: int, name: str) -> Markup:
    """A boat's line with its marks, and her label at its end."""
    points = [(LEFT + step(len(places)) * number, height(rank, deepest))
              for number, (rank, _) in enumerate(places)]
    path = " ".join(f"{x},{y}" for x, y in points)
    (x, y), end = points[-1], height(at + 1, deepest)
    return tag("g", tag("polyline", points=path, stroke_dasharray=DASHES[at] or None),
               *(mark(at, *point) for point in points),
               tag("path", class_="to", d=f"M{x + 7} {y}L{x + 16} {end}"),
               tag("text", name, x=x + GAP, y=end + 5), class_=f"c{at}")


def label(view: Snapshot, row: Row) -> str:
    """What a boat's line is called: her rank and her sail."""
    return f"{row.rank}{'=' if row.shared else ''} {view.boat(row.sail).sail}"


def width(text: str) -> int:
    """The most pixels that a label takes, in any of the letters that a page may have."""
    return sum(DIGIT if sign.isdigit() else SPACE if sign == " " else SIGN for sign in text)


def axes(view: Snapshot, deepest: int, has_later: bool) -> Markup:
    """The numbers of the races above, as many as fit, and of the ranks on the left."""
    count, apart = len(view.standing.races), step(len(view.standing.races))
    every = -(-NUMBER // apart)
    races = [tag("text", f"R{number}", x=LEFT + apart * at, y=16, text_anchor="middle")
             for at, number in enumerate(view.standing.races) if (count - 1 - at) % every == 0]
    right = LEFT + apart * (count - 1)
    steps = [(rank, str(rank)) for rank in range(1, deepest + 1)]
    if has_later:
        steps.append((deepest + 1, f"{deepest + 1}+"))
    lines = [together(tag("line", x1=LEFT, y1=height(rank, deepest), x2=right, y2=height(rank, deepest)),
                      tag("text", text, x=LEFT - 10, y=height(rank, deepest) + 5, text_anchor="end"))
             for rank, text in steps]
    return tag("g", separated([*races, *lines], ", "), class_="axes")


def picture(view: Snapshot) -> Markup:
    rows, found = view.standing.rows[:LINES], ranks(view)
    worst = max(rank for row in rows for rank, _ in found[row.sail])
    deepest = min(max(worst, len(rows)), DEEPEST)
    races = len(view.standing.races)
    labels = [label(view, row) for row in rows]
    wide = LEFT + step(races) * (races - 1) + max(RIGHT, *(GAP + width(text) for text in labels))
    high = height(deepest + (worst > deepest), deepest) + 16
    lines = [line(at, found[row.sail], deepest, text) for at, (row, text) in enumerate(zip(rows, labels))]
    which = f"the first {len(rows)} boats" if len(view.standing.rows) > len(rows) else "all boats"
    # A picture shows no text but that of its labels; a browser that draws none shows all, one after the other.
    parts = separated([axes(view, deepest, worst > deepest), *lines], ", ")
    drawn = tag("svg", parts, width=rem(wide), height=rem(high),
                viewBox=f"0 0 {wide} {high}", role="img", aria_label=f"Chart: the rank of {which} after "
                "each race. The table below has the same for all boats.")
    return tag("div", drawn, class_="scroll", role="region", aria_label="Chart of ranks", tabindex=0)


def table(view: Snapshot) -> Markup:
    """The same as a table, for all boats."""
    found = ranks(view)
    heads = [tag("th", f"R{number}", scope="col") for number in view.standing.races]
    rows = [tag("tr", sail_head(view.boat(row.sail)),
                *(tag("td", rank, "=" if shared else "") for rank, shared in found[row.sail]))
            for row in view.standing.rows]
    made = tag("table", "\n", tag("caption", f"Rank after each race, {view.label}", class_="hidden"), "\n",
               tag("thead", tag("tr", tag("th", "Sail", scope="col", class_="sail"), *heads)), "\n",
               tag("tbody", "\n", separated(rows, "\n"), "\n"), "\n")
    return tag("details", tag("summary", "The ranks as a table, for all boats"), "\n",
               tag("div", made, class_="scroll", role="region", aria_label="Ranks after each race",
                   tabindex=0))


def chart(view: Snapshot) -> Markup:
    """The chart and its table; nothing before the second race."""
    if len(view.explanation.course) < 2 or not view.standing.rows:
        return NOTHING
    return tag("section", tag("h2", "How the standing developed"), "\n",
               tag("p", "Rank after each race, by the scores as they are now: later protests and late "
                   "entries count in all races."), "\n", picture(view), "\n", table(view), "\n",
               class_="course")
