"""A list that a spreadsheet has saved: an entry list, or a sheet of times. Commas, semicolons and tabs
part its columns, and it may have any usual encoding."""
from __future__ import annotations

import codecs
import csv
import functools
import io
import os
import re
from collections.abc import Sequence
from dataclasses import dataclass

from raceoffice.files import read_whole
from raceoffice.remarks import Remark, remark
from raceoffice.series.headings import ENTRIES, column

# Bytes of a list that are read at most, as of any file that the program starts with. A single field may
# have all of them.
LARGEST = 1 << 20
csv.field_size_limit(LARGEST)
SEPARATORS = (",", ";", "\t")
# The longer marks first: that of UTF-32 begins with that of UTF-16.
MARKS = {codecs.BOM_UTF8: "utf-8", codecs.BOM_UTF32_LE: "utf-32", codecs.BOM_UTF32_BE: "utf-32",
         codecs.BOM_UTF16_LE: "utf-16", codecs.BOM_UTF16_BE: "utf-16"}
# How files of other programs begin.
SPREADSHEETS = (b"PK\x03\x04", b"\xd0\xcf\x11\xe0")
# A cell with nothing in it, also in a row of other separators.
BLANK = re.compile(r"[\s;,]*")
# The rows among which that of the headings is looked for.
FIRST_ROWS = 5
Rows = list[tuple[int, list[str]]]


@dataclass(frozen=True)
class Table:
    """The headings, and the rows below them. Numbers of rows are from 1 on, and count blank ones as well.
    `title` is the number of a row above the headings, and 0 if there is none; `above` are all of these rows."""
    separator: str
    title: int
    first: int
    heads: list[str]
    rows: Rows
    above: Sequence[list[str]] = ()

    @property
    def width(self) -> int:
        """How many columns have anything in them, or are before one that has."""
        rows = [self.heads, *(row for _, row in self.rows)]
        return max((at for row in rows for at, cell in enumerate(row, 1) if cell.strip()), default=0)

    def cell(self, row: Sequence[str], at: int | None) -> str:
        """A cell without the spaces around it; empty if the row ends before it."""
        return row[at].strip() if at is not None and at < len(row) else ""

    def number(self, row: Sequence[str], at: int | None) -> str:
        """A cell that has a number: where commas don't part the columns, one may be in it for a dot."""
        text = self.cell(row, at)
        return text if self.separator == "," else text.replace(",", ".")


def bytes_of(path: str) -> bytes:
    return read_whole(path, LARGEST)


def decoded(data: bytes) -> str:
    """The text of a list: in UTF-8, in what its mark says, or else as old spreadsheets write it. A NUL,
    which some versions of csv refuse, is an odd sign like any other."""
    mark = next((mark for mark in MARKS if data.startswith(mark)), b"")
    try:
        text = data.decode("utf-8")
    except UnicodeDecodeError:
        text = data.decode(MARKS.get(mark, "cp1252"), "replace")
    return text.removeprefix("\ufeff").replace("\0", "\ufffd")


def rows_of(text: str, separator: str) -> Rows:
    """The rows that aren't blank, with their numbers; a row may hold line breaks."""
    rows = csv.reader(io.StringIO(text, newline=""), delimiter=separator)
    return [(at, row) for at, row in enumerate(rows, 1) if not all(map(BLANK.fullmatch, row))]


def row_torn(text: str, separator: str) -> int:
    """The number of the first row that has lines below it in a cell whose quotation mark isn't closed, or is closed in the midst
    of one; 0 if there is none."""
    lines, begin = list(io.StringIO(text, newline="")) if '"' in text else [], 0
    rows = csv.reader(lines, delimiter=separator)
    for number, _ in enumerate(rows, 1):
        if rows.line_num > begin + 1 and not is_closed(lines[begin:rows.line_num], separator):
            return number
        begin = rows.line_num
    return 0


def is_closed(lines: Sequence[str], separator: str) -> bool:
    """Whether each quotation mark of a row on these lines has another that ends its cell."""
    try:
        return len(list(csv.reader(lines, delimiter=separator, strict=True))) == 1
    except csv.Error:
        return False


def heading_at(rows: Rows) -> int | None:
    """At which of the first rows the headings are: the first with one of a sail's; None if there is none."""
    return next((at for at, (_, row) in enumerate(rows[:FIRST_ROWS])
                 if column(row, ENTRIES["sail"]) is not None), None)


def is_parted(rows: Rows) -> bool:
    """Whether each of the first rows has several columns."""
    return len(rows) > 1 and all(len(row) > 1 for _, row in rows[:3])


def rank_of(rows: Rows) -> int:
    """How likely it is that rows were parted where their columns are: by the number of headings, if one
    is a sail's; by whether there are columns at all, if none is."""
    at = heading_at(rows)
    if at is None:
        return 1 if is_parted(rows) else 0
    return 1 + len(rows[at][1])


@functools.lru_cache(maxsize=4)
def table_of(data: bytes) -> Table:
    """A list parted where it most likely has to be. One without a heading of sails begins with its first
    row, and an empty one has no headings."""
    text = decoded(data)
    parted = {separator: rows_of(text, separator) for separator in SEPARATORS}
    separator = max(SEPARATORS, key=lambda mark: rank_of(parted[mark]))
    rows = parted[separator]
    if not rows:
        return Table(separator, 0, 1, [], [])
    at = heading_at(rows) or 0
    number, heads = rows[at]
    title = rows[0][0] if at else 0
    return Table(separator, title, number, heads, rows[at + 1:], [row for _, row in rows[:at]])


def wrong_form(data: bytes, name: str) -> Remark | None:
    """Why a file isn't a list with rows in it; None if it is."""
    if data.startswith(SPREADSHEETS):
        return remark("list-spreadsheet", name=name)
    if b"\0" in data[:1000] and not data.startswith(tuple(MARKS)):
        return remark("list-unmarked", name=name)
    table = table_of(data)
    if torn := row_torn(decoded(data), table.separator):
        return remark("list-row", name=name, row=torn, fault=remark("row-unclosed"))
    return None if table.heads else remark("list-empty", name=name)


def csv_line(row: Sequence[str], separator: str = ",") -> str:
    """A row as a list has it, without the end of its line. A cell with either sign of a line's end is quoted, whatever ends the
    lines: when it is read again, each of them ends a row."""
    made = io.StringIO(newline="")
    csv.writer(made, delimiter=separator, lineterminator="\r\n").writerow(row)
    return made.getvalue().removesuffix("\r\n")


def as_csv(rows: Sequence[Sequence[str]]) -> bytes:
    """Rows as the program reads them."""
    return "".join(f"{csv_line(row)}\n" for row in rows).encode()


def name_of(path: str) -> str:
    """What a list is called."""
    return os.path.basename(path)
