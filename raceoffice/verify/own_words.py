"""What is said of a page, so that nothing which the page has can be taken for words of this package.

Whatever comes from a page is in quotation marks, cut and without signs that aren't seen. Each line of what is printed
begins with our own words, even if a long one is broken.
"""
from __future__ import annotations

from collections.abc import Sequence

from raceoffice import characters
from raceoffice.characters import quoted
from raceoffice.decisions.decision_lines import KINDS, NAME
from raceoffice.decisions.points import Decided
from raceoffice.errors import Trouble
from raceoffice.remarks import Remark, Value, words_of

# What each line begins with that goes on from the one above, the fewest columns of a terminal, and those of one that doesn't
# tell them, as a serial line.
GOES_ON, NARROW, USUAL = "     | ", 20, 80


class Bare(str):
    """A value that is in its words as it is."""

    def __repr__(self) -> str:
        return str(self)


def worded(said: str) -> str:
    """A remark whose values are quoted, since a page may have them. A text of no kind may be the page's whole."""
    if not isinstance(said, Remark):
        return quoted(said)
    if "said" in said.values and said.kind in ("sentences", "lines"):
        return " ".join(map(worded, said.values["said"]))  # type: ignore[arg-type]
    return words_of(said.kind, {name: value_shown(value) for name, value in said.values.items()})


def value_shown(value: Value) -> Value:
    """A value of a remark: numbers and kinds of decisions as they are, and another remark with its own quoted."""
    if isinstance(value, Remark):
        return Bare(worded(value))
    if isinstance(value, str):
        return Bare(value if value in KINDS else quoted(value))
    return value if isinstance(value, int) else [Bare(value_shown(one)) for one in value]


def explained(trouble: Trouble) -> str:
    """Why something can't be done."""
    return " ".join(map(worded, trouble.said))


def stale(found: Decided) -> list[str]:
    """What of decisions isn't in the scores as it has to be."""
    return [*map(worded, found.wrong),
            *(f"{NAME}, line {verdict.ruling.line}: {quoted(str(verdict.ruling))}: "
              f"{worded(verdict.why) if verdict.why else verdict.state}"
              for verdict in found.verdicts if not verdict.is_kept)]


def laid_out(lines: Sequence[str], columns: int) -> str:
    """What is said, folded for a terminal with this many columns, or each on one line if that is 0. None begins with
    words of a page: a line that goes on says so first."""
    plain = [characters.plainly(line) for line in lines]
    return "\n".join(part for line in plain for part in (folded(line, max(columns, NARROW)) if columns else [line]))


def folded(line: str, columns: int) -> list[str]:
    """A line in parts that fit, broken at a space if there is one."""
    parts: list[str] = []
    part = ""
    for sign in line:
        if columns_of(part + sign) > columns:
            begin = len(GOES_ON) if parts else len(line) - len(line.lstrip())
            at = part.rfind(" ", begin + 1) + 1 or len(part)
            parts.append(part[:at].rstrip())
            part = GOES_ON + part[at:]
        part += sign
    return [*parts, part]


def columns_of(text: str) -> int:
    """The most columns that a text takes: one for a sign of ASCII, and two for any other, since with each Unicode terminals
    give two to more of these. So a line is folded early, and never late."""
    return sum(1 + (not sign.isascii()) for sign in text)
