"""What a reader sees of a page: its tables cell by cell, and its other texts, with where each is."""
from __future__ import annotations

import html
import math
import os
import re
from collections.abc import Callable, Iterator
from dataclasses import dataclass, field

from raceoffice.characters import QUOTED, quoted
from raceoffice.program.standing import Row, Score, Standing

# Parts that end a text; all others are inside one.
BLOCKS = {"h1", "h2", "p", "li", "dt", "dd", "caption", "summary", "title", "text", "label", "header",
          "div", "small", "ul", "section", "time", "span", "button"}
VOID = {"meta", "link", "input", "br", "img", "hr", "rect", "circle", "path", "line", "polyline"}
# Parts whose text no reader sees; what is in the first two is no markup.
RAW, SILENT = ("script", "style"), {"script", "style", "noscript"}
TAG = re.compile("<([^<>]*)>")
CLASS = re.compile('class="([^"]*)"')
# The references that the package writes, beside that of `&` itself.
AND = "&amp;"
OWN = [("&#x27;", "'"), ("&quot;", '"'), ("&lt;", "<"), ("&gt;", ">")]
# The most others that are read: to read one takes microseconds.
MANY = 100_000
# A number of a sign that is too long for one.
LONG = re.compile("&#[xX]?[0-9a-fA-F]{8}")
HEAD = re.compile("[A-Z][A-Za-z0-9]{0,9}")
# Signs before those in which two texts differ.
BEFORE = 20
# After as many texts and tags of a page it is asked whether to go on.
OFTEN = 10_000
# Parts inside one another, and signs of a cell to which more are added. The package's pages have fewer.
DEEPEST, LONGEST = 40, 10_000
# Signs that are compared at once, to find where two texts differ, and of a long text those whose words are parted at once.
STEP, PIECE = 1 << 16, 1 << 12


def tokens(page: str) -> Iterator[tuple[str, str]]:
    """The texts and the tags of a page as `text` and `tag`, in a time that its length bounds. A page that
    the package writes has no `<` or `>` besides those of its tags, but in scripts and styles."""
    at = 0
    while found := TAG.search(page, at):
        yield "text", page[at:found.start()]
        yield "tag", found[1]
        at = found.end()
        name = found[1].partition(" ")[0].lower()
        if name in RAW:
            end = page.find(f"</{name}>", at)
            at = len(page) if end < 0 else end
    yield "text", page[at:]


@dataclass
class Cell:
    text: str = ""
    is_sail: bool = False


@dataclass
class Table:
    """A table: the text of each cell, its headings first."""
    caption: str = ""
    rows: list[list[Cell]] = field(default_factory=list)

    @property
    def heads(self) -> list[str]:
        return [cell.text for cell in self.rows[0]] if self.rows else []

    def sail(self, at: int) -> str:
        """The sail of a row, as it is shown first in its cell."""
        return next((cell.text.removesuffix(",") for cell in self.rows[at] if cell.is_sail), "")


class Seen:
    """A page, taken apart into its tables and its other texts. Meanwhile `ask` is called again and again, which may end it by
    what it raises. Of a page with more tables, rows, cells and texts than `most` the rest is left: it `is_cut`."""

    def __init__(self, page: str, ask: Callable[[], None] = lambda: None, most: float = math.inf) -> None:
        self.parts, self.is_cut = 0, False
        self.tables: list[Table] = []
        self.texts: list[tuple[str, str]] = []
        self.open: list[str] = []
        self.cell: Cell | None = None
        self.pieces: list[str] = []
        own = sum(page.count(reference) for reference, _ in OWN) + page.count(AND)
        self.has_many = page.count("&") - own > MANY
        for at, (kind, text) in enumerate(tokens(page)):
            if at % OFTEN == 0:
                ask()
            self.take(kind, text)
            if self.parts > most:
                self.is_cut = True
                break
        self.end_text()

    def take(self, kind: str, text: str) -> None:
        """A text or a tag."""
        if kind == "text":
            self.text(text)
        elif text.startswith("/"):
            self.close(text[1:].strip().lower())
        else:
            self.begin(text)

    def begin(self, text: str) -> None:
        """The beginning of a part."""
        name = text.partition(" ")[0].rstrip("/").lower()
        if name in BLOCKS or name in ("table", "td", "th"):
            self.end_text()
        self.parts += name in ("table", "tr", "td", "th")
        if name == "table":
            self.tables.append(Table())
        elif name == "tr" and self.tables:
            self.tables[-1].rows.append([])
        elif name in ("td", "th") and self.tables and self.tables[-1].rows:
            named = CLASS.search(text)
            self.cell = Cell(is_sail=named is not None and "sail" in named[1].split())
            self.tables[-1].rows[-1].append(self.cell)
        if name not in VOID and len(self.open) < DEEPEST:
            self.open.append(name)

    def close(self, name: str) -> None:
        """The end of a part."""
        if name in BLOCKS or name in ("td", "th"):
            self.end_text()
        if name in ("td", "th"):
            self.cell = None
        if name in self.open:
            del self.open[len(self.open) - 1 - self.open[::-1].index(name):]

    def text(self, text: str) -> None:
        if not SILENT.intersection(self.open):
            self.pieces.append(unescaped(text, self.has_many or LONG.search(text) is not None))

    def end_text(self) -> None:
        """Puts the text that was read where it belongs."""
        text, self.pieces = single_spaced("".join(self.pieces)), []
        if not text:
            return
        if self.cell is not None:
            self.cell.text = longer(self.cell.text, f" {text}").strip()
        elif "table" in self.open and "caption" in self.open and self.tables:
            self.tables[-1].caption = longer(self.tables[-1].caption, text)
        else:
            self.parts += 1
            where = [tag for tag in self.open if tag in BLOCKS]
            self.texts.append((where[-1] if where else "body", text))


def unescaped(text: str, is_own: bool) -> str:
    """A text with the signs that its references mean, or that those mean which the package writes: `is_own`. These are
    read at once, as a name may have millions."""
    for reference, sign in OWN:
        text = text.replace(reference, sign)
    is_own = is_own or text.count("&") == text.count(AND)
    return text.replace(AND, "&") if is_own else html.unescape(text)


def single_spaced(text: str) -> str:
    """A text with one space wherever it has some, and none at its ends. Of a long one no list of words is made, which takes many
    times as much memory."""
    if len(text) < LONGEST:
        return " ".join(text.split())
    made = "".join(re.sub(r"\s+", " ", text[at:at + PIECE]) for at in range(0, len(text), PIECE))
    while "  " in made:
        made = made.replace("  ", " ")
    return made.strip()


def longer(text: str, more: str) -> str:
    return text + more if len(text) < LONGEST else text


# Two pages beside each other

def place(table: Table, row: int, column: int) -> str:
    """Where a cell is, in words."""
    heads = table.heads
    head = head_of(heads[column]) if column < len(heads) else f"column {column + 1}"
    if row == 0:
        return f"{name_of(table)}, the heading {head}"
    sail = f" ({quoted(table.sail(row))})" if table.sail(row) else ""
    return f"{name_of(table)}, row {row}{sail}, {head}"


def head_of(text: str) -> str:
    """A heading: one of this package's own as it is."""
    return text if HEAD.fullmatch(text) else quoted(text)


def name_of(table: Table) -> str:
    name = table.caption.partition(":")[0]
    return quoted(name) if name else "a table"


def first_of(found: list[str], wanted: list[str]) -> int | None:
    """The first place at which two lists differ."""
    at = next((at for at, (one, other) in enumerate(zip(found, wanted)) if one != other), None)
    return min(len(found), len(wanted)) if at is None and len(found) != len(wanted) else at


def same_until(one: str, other: str) -> int:
    """How many signs two texts begin alike."""
    at, end = 0, min(len(one), len(other))
    while at < end and one[at:at + STEP] == other[at:at + STEP]:
        at += STEP
    return min(end, at + len(os.path.commonprefix([one[at:at + STEP], other[at:at + STEP]])))


def line_of(found: str, wanted: str) -> tuple[int, str]:
    """The number of the first line in which two texts differ, and how the first has it. No list of lines is made of them: one
    takes many times as much memory as a text of short lines."""
    at = same_until(found, wanted)
    longer = found if len(found) > len(wanted) else wanted
    # One ends with the line that is the same in both.
    at += at == min(len(found), len(wanted)) and longer[at:at + 1] == "\n"
    number = longer.count("\n", 0, at) + 1
    if at > len(found):
        return number, "nothing"
    begin, end = found.rfind("\n", 0, at) + 1, found.find("\n", at)
    return number, found[begin:end if end >= 0 else len(found)].strip()


def both(found: str, wanted: str) -> tuple[str, str]:
    """Two texts, each quoted from a little before where they differ."""
    same = len(os.path.commonprefix([found, wanted]))
    start = max(0, same - BEFORE) if max(len(found), len(wanted)) > QUOTED else 0
    shown = [quoted(f"…{text[start:]}" if start else text) for text in (found, wanted)]
    return shown[0], shown[1]


def table_difference(found: Table, wanted: Table) -> str:
    """The first cell in which two tables differ; empty if they agree."""
    if found.caption != wanted.caption:
        shown, right = both(found.caption, wanted.caption)
        return f"{name_of(wanted)} is called {shown}, and not {right}"
    for row, (one, other) in enumerate(zip(found.rows, wanted.rows)):
        texts, others = [cell.text for cell in one], [cell.text for cell in other]
        column = first_of(texts, others)
        if column is not None:
            shown, right = both((texts + ["no cell"])[min(column, len(texts))],
                                (others + ["no cell"])[min(column, len(others))])
            return f"{place(wanted, row, column)}: the page has {shown}, and not {right}"
    if len(found.rows) != len(wanted.rows):
        return (f"{name_of(wanted)}: the page has {len(found.rows) - 1} rows, "
                f"and not {len(wanted.rows) - 1}")
    return ""


def difference(found: Seen, wanted: Seen) -> str:
    """The first place in which what is seen of two pages differs; empty if it is the same."""
    for one, other in zip(found.tables, wanted.tables):
        if text := table_difference(one, other):
            return text
    if len(found.tables) != len(wanted.tables):
        return f"the page has {len(found.tables)} tables, and not {len(wanted.tables)}"
    ours, others = ([f"{tag}\t{text}" for tag, text in texts] for texts in (found.texts, wanted.texts))
    at = first_of(ours, others)
    if at is None:
        return ""
    shown, right = both(*((texts + ["\tnothing more"])[min(at, len(texts))].partition("\t")[2]
                          for texts in (ours, others)))
    return f"the text {shown} of the page has to be {right}"


# A page's table as the program's

SCORE = re.compile(r"(?:(\d+\.\d)|\((\d+\.\d) ?\)(?: excluded))(?: ([A-Z0-9]+))?")


def row_of(table: Table, at: int, boats: dict[str, str], races: int) -> Row:
    """A row of a page's overall table; a ValueError says what of it can't be read."""
    cells = [cell.text for cell in table.rows[at]]
    if len(cells) not in (4 + races, 5 + races):
        raise ValueError(f"row {at} has {len(cells)} cells")
    rank = re.fullmatch(r"(\d+)(=?)", cells[0])
    net = re.fullmatch(r"(\d+\.\d) ?[a-z]*", cells[3])
    sail = boats.get(cells[1])
    if not rank or not net or sail is None:
        raise ValueError(f"row {at} begins with {quoted(' '.join(cells[:4]))}")
    scores = []
    for number, cell in enumerate(cells[4:4 + races], 1):
        score = SCORE.fullmatch(cell)
        if not score:
            raise ValueError(f"{quoted(table.sail(at))} has {quoted(cell)} in column {number} of the races")
        scores.append(Score(score[1] or score[2], score[3] or "", bool(score[2])))
    return Row(int(rank[1]), bool(rank[2]), sail, net[1], tuple(scores))


def standing_of(table: Table, boats: dict[str, str], races: tuple[int, ...]) -> Standing:
    """A page's overall table as the program's table. `boats` has the sail of each boat by the text of her cell."""
    heads = table.heads[4:4 + len(races)]
    if heads != [f"R{number}" for number in races]:
        raise ValueError(f"the races are {quoted(' '.join(heads))}")
    return Standing(races, tuple(row_of(table, at, boats, len(races))
                                 for at in range(1, len(table.rows))))
