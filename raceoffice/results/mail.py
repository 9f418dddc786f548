"""The results as plain text for a mail: no line is longer than 72 columns."""
from __future__ import annotations

import textwrap
import unicodedata
from collections.abc import Sequence

from raceoffice.characters import is_right_to_left
from raceoffice.decisions.points import words_of
from raceoffice.program.standing import Row, Score
from raceoffice.results.html.overall import tie_words
from raceoffice.results.html.page import LEFT_TO_RIGHT, MEANING
from raceoffice.results.html.sealing import seal_words
from raceoffice.results.snapshot import Snapshot, told_apart
from raceoffice.wording import count

COLUMNS = 72
# It stands for the second column of a sign that takes two, as those of Chinese, until a line is made. No text has it.
SECOND = "\0"


def spread(text: str) -> str:
    """A text with as many signs as it takes columns, or more."""
    return "".join(f"{sign}{SECOND}" if unicodedata.east_asian_width(sign) in "WF" else sign for sign in text)


def wrapped(text: str, first: str = "", more: str = "") -> list[str]:
    wide = spread(text)
    # A line may be broken between the two columns of a sign, which then belong to the line before.
    lines = textwrap.wrap(wide, COLUMNS - (wide != text), initial_indent=first, subsequent_indent=more,
                          break_on_hyphens=False)
    return [line.replace(SECOND, "") for line in lines]


def cut(wide: str, room: int) -> str:
    """A text that was spread, and takes no more columns than there is room for."""
    if len(wide) <= room:
        return wide
    end = room - 1
    return f"{wide[:end - 1 if wide[end] == SECOND else end]}…"


def cell(number: int, score: Score) -> str:
    """A score with its race, as one word for who wraps it: `R3 (4.0 DNF)`."""
    code = f"\u00a0{score.code}" if score.code else ""
    text = f"({score.points}{code})" if score.excluded else f"{score.points}{code}"
    return f"R{number}\u00a0{text}"


def row_lines(view: Snapshot, row: Row) -> list[str]:
    """A boat: rank, sail, names and net, and below them her scores."""
    boat = view.boat(row.sail)
    rank = f"{row.rank}{'=' if row.shared else ''}" if view.standing.races else "-"
    first = f"{rank:>4} {boat.sail:<12} "
    net = row.net if view.standing.races else "-"
    room = COLUMNS - len(first) - len(net) - 1
    names = cut(spread(", ".join(text for text in (boat.helm, boat.name, boat.club) if text)), room)
    # After a name from right to left the net would be shown before it, and a line with digits alone before it be turned.
    mark = LEFT_TO_RIGHT if is_right_to_left(names) else ""
    scores = "  ".join(cell(*both) for both in zip(view.standing.races, row.scores))
    total = f"  total\u00a0{view.totals[row.sail]}" if view.totals else ""
    return [f"{mark}{first}{names:<{room}}{mark} {net}".replace(SECOND, ""),
            *(line.replace("\u00a0", " ") for line in wrapped(scores + total, " " * 5, " " * 5))]


def heading(view: Snapshot) -> list[str]:
    shown = view.settings
    lines = wrapped(view.title) + [("=" * min(COLUMNS, len(spread(view.title))))]
    lines += wrapped(shown.club) if shown.club else []
    lines += wrapped(f"{shown.state.capitalize()}. Last changed {view.when(view.changed)}.")
    lines += wrapped(shown.reason) if shown.reason else []
    lines += wrapped(f"{count(len(view.standing.rows), 'boat')}, "
                     f"{count(len(view.standing.races), 'race')} scored. {shown.in_words()}")
    return lines


def notes(view: Snapshot) -> list[str]:
    """Ties, decisions and abbreviations."""
    found = [(tie_words(view, group), "Tie: ") for group in view.ties()]
    found += [(f"{words_of(each)}.", f"Race {each.ruling.race}, {view.boat(each.ruling.sail).sail}: ")
              for each in view.decided.verdicts]
    used = sorted({score.code for row in view.standing.rows for score in row.scores if score.code})
    found += [(f"{MEANING[code][0]}", f"{code}: ") for code in used]
    if view.totals:
        found.append(("excluded. The total is before exclusions.", "(4.0): "))
    return [line for text, name in found for line in wrapped(name + text, "", "  ")]


def one_class(view: Snapshot) -> str:
    """One class."""
    stale = [line for text in view.decided.stale for line in wrapped(f"! {text}.", "", "  ")]
    stale = ["DECISIONS THAT THESE SCORES DON'T HAVE AS THEY SHOULD:", *stale, ""] if stale else []
    rows = [line for row in view.standing.rows for line in row_lines(view, row)]
    head = f"{'':>4} {'Sail':<12} Helm, boat, club"
    below = wrapped(f"Entry {view.series.entries} of the journal. Seal {seal_words(view)}.")
    return "\n".join([*heading(view), "", *stale, f"{head:<{COLUMNS - 3}}Net", "-" * COLUMNS, *rows,
                      "-" * COLUMNS, *notes(view), "", *below, ""])


def mail(views: Sequence[Snapshot]) -> str:
    """All classes."""
    return "\n\n".join(map(one_class, told_apart(views)))
