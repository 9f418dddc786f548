"""An entry list that somebody gives from a spreadsheet, put right as far as that is safe, with all that was
done to it."""
from __future__ import annotations

import re
from dataclasses import dataclass, field

from raceoffice.remarks import Remark, remark
from raceoffice.series.entry_list import SAIL, Boat, boats_of, column_like, left_in_words, plain, problems
from raceoffice.series.headings import ENTRIES, column, columns, rating_columns
from raceoffice.series.read_list import (FIRST_ROWS, MARKS, SEPARATORS, Rows, Table, as_csv, decoded, heading_at,
                                         rank_of, rows_of, wrong_form)
from raceoffice.wording import on_one_line

# What the list is called in what is wrong with it, and what parts its columns.
NAME = remark("the-list")
PARTED_BY = {";": "list-semicolons", "\t": "list-tabs"}


@dataclass(frozen=True)
class Mended:
    """A list as the program takes it, what was done to it, and what is still wrong. `numbered` is the list with a blank
    row for each that was left out, so that its rows have the numbers that the spreadsheet shows. `heads` are its headings
    as they were; `is_sail_known` says that one of them is a sail's, or was chosen."""
    data: bytes = b""
    numbered: bytes = b""
    heads: list[str] = field(default_factory=list)
    done: list[Remark] = field(default_factory=list)
    wrong: list[Remark] = field(default_factory=list)
    is_sail_known: bool = False

    @property
    def boats(self) -> list[Boat]:
        """Its boats; none if anything is wrong."""
        return [] if self.wrong or not self.data else list(boats_of(self.data).values())


def mended(data: bytes, sails: int | None = None) -> Mended:
    """A list put right. `sails` is the column of the sails, if no heading says so and somebody does."""
    if wrong := wrong_form(data, NAME):
        return Mended(wrong=[wrong])
    table, above = whole_table(data)
    done = [*encoding_done(data), *separator_done(table)]
    if above:
        done.append(remark("list-above", n=above))
    heads = [on_one_line(head) for head in table.heads]
    named, headless = list(heads), headless_at(table, heads, sails)
    if sails is None and column(heads, ENTRIES["sail"]) is None:
        sails = column_like(heads)
    if sails is not None and 0 <= sails < len(heads):
        done.append(remark("list-sails", column=heads[sails] or sails + 1))
        named[sails] = "Sail"
    rows = rows_as_read(table)
    clean, numbered = as_csv([named, *rows]), as_csv(at_their_rows(table, named, rows))
    if left := left_in_words(clean):
        done.append(left)
    return Mended(clean, numbered, heads, done, headless + problems(numbered, NAME), column(named, ENTRIES["sail"]) is not None)


def headless_at(table: Table, heads: list[str], sails: int | None) -> list[Remark]:
    """Says that a list has no headings, if a boat stands in place of that of the sails, as somebody chose it: she would be left
    out."""
    chosen = heads[sails] if sails is not None and 0 <= sails < len(heads) else ""
    # Her sail may have a sign that is none of a sail's.
    is_boat = bool(SAIL.fullmatch(re.sub("[^A-Z0-9-]", "", plain(chosen)))) and any(letter.isdigit() for letter in chosen)
    return [remark("list-headless", name=NAME, row=table.first, written=chosen)] if is_boat and not are_headings(heads) else []


def are_headings(heads: list[str]) -> bool:
    """Whether a row surely has headings: two are known, or it has the columns' numbers, as spreadsheets name them."""
    named = heads[0].rstrip("0123456789")
    is_numbered = len(heads) > 1 and heads == [f"{named}{number}" for number in range(1, len(heads) + 1)]
    return is_numbered or len(columns(heads, ENTRIES)) + len(rating_columns(heads)) > 1


def at_their_rows(table: Table, heads: list[str], rows: list[list[str]]) -> list[list[str]]:
    """Headings and rows where they are in the spreadsheet, with blank rows above and between them."""
    places = {table.first: heads, **{number: row for (number, _), row in zip(table.rows, rows)}}
    return [places.get(number, []) for number in range(1, max(places) + 1)]


def whole_table(data: bytes) -> tuple[Table, int]:
    """A list from its headings on, and how many rows are above them. Without a heading of a sail's, the
    fullest of the first rows has them."""
    text = decoded(data)
    parted = {separator: rows_of(text, separator) for separator in SEPARATORS}
    separator = max(SEPARATORS, key=lambda mark: rank_of(parted[mark]))
    if heading_at(parted[separator]) is None:
        separator = max(SEPARATORS, key=lambda mark: fullness(parted[mark]))
    rows = parted[separator]
    at = heading_at(rows)
    if at is None:
        at = max(range(len(rows[:FIRST_ROWS])), key=lambda place: (filled(rows[place][1]), -place))
    return Table(separator, 0, rows[at][0], rows[at][1], rows[at + 1:]), at


def filled(row: list[str]) -> int:
    """How many cells of a row have something in them."""
    return sum(bool(cell.strip()) for cell in row)


def fullness(rows: Rows) -> int:
    """How many cells the fullest of the first rows has."""
    return max((filled(row) for _, row in rows[:FIRST_ROWS]), default=0)


def rows_as_read(table: Table) -> list[list[str]]:
    """The rows below the headings, with a dot in each rating: a comma would part a number in two now."""
    ratings = set(rating_columns(table.heads).values())
    return [[table.number(row, at) if at in ratings else cell for at, cell in enumerate(row)]
            for _, row in table.rows]


def encoding_done(data: bytes) -> list[Remark]:
    """What was done to the letters of a list, if anything was."""
    mark = next((mark for mark in MARKS if data.startswith(mark)), b"")
    if mark and MARKS[mark] != "utf-8":
        return [remark("list-encoding", encoding=MARKS[mark].upper())]
    try:
        data.decode("utf-8")
    except UnicodeDecodeError:
        return [remark("list-letters")]
    return []


def separator_done(table: Table) -> list[Remark]:
    """What was between its columns, if it wasn't a comma."""
    return [remark(PARTED_BY[table.separator])] if table.separator in PARTED_BY else []
