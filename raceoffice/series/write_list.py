"""An entry list in which a boat's row is added or completed, in the list's own form: its encoding, what parts its
columns, their order, and the ends of its lines. All other rows stay as they are, byte for byte."""
from __future__ import annotations

import codecs
import csv
import io
from collections.abc import Mapping, Sequence

from raceoffice.errors import NotSent
from raceoffice.remarks import remark, sign_remark
from raceoffice.series.entry_list import plain, problems
from raceoffice.series.headings import ENTRIES, columns
from raceoffice.series.read_list import LARGEST, Table, csv_line, table_of

# The encoding of a list by its mark. The longer marks first: that of UTF-32 begins with that of UTF-16.
ENCODINGS = {codecs.BOM_UTF8: "utf-8", codecs.BOM_UTF32_LE: "utf-32-le", codecs.BOM_UTF32_BE: "utf-32-be",
             codecs.BOM_UTF16_LE: "utf-16-le", codecs.BOM_UTF16_BE: "utf-16-be"}
LINE_ENDS = ("\r\n", "\n", "\r")
NONE: Mapping[int, str] = {}


def with_boat(data: bytes, name: str, sail: str, cells: Mapping[int, str], was: Mapping[int, str] = NONE) -> bytes:
    """A list in which a boat has these cells, by the numbers of their columns. `sail` is hers as it is written.
    NotSent if one of them has something else already than what it `was`, or if the list can't be changed so."""
    if wrong := problems(data, name):
        raise NotSent(*wrong)
    table, (mark, encoding) = table_of(data), form_of(data)
    number, held = row_of(table, sail)
    row = completed(table, name, held, cells, was)
    if number and row == held:
        return data
    changed = mark + encoded(text_with(text_of(data[len(mark):], encoding, name), table, number, row), encoding, name)
    if len(changed) > LARGEST or problems(changed, name) or not is_the_same_but_for(table, table_of(changed), sail, row):
        raise NotSent(remark("list-by-editor", name=name))
    return changed


def sails_at(table: Table) -> int:
    """The column of the sails."""
    return columns(table.heads, ENTRIES)["sail"]


def row_of(table: Table, sail: str) -> tuple[int, list[str]]:
    """The number of a boat's row, and its cells; 0 and a new row if she has none."""
    at = sails_at(table)
    found = next(((number, row) for number, row in table.rows if plain(row[at]) == plain(sail)), None)
    return found or (0, [sail if place == at else "" for place in range(len(table.heads))])


def completed(table: Table, name: str, held: Sequence[str], cells: Mapping[int, str],
              was: Mapping[int, str]) -> list[str]:
    """A row with these cells."""
    row = list(held)
    for at, text in cells.items():
        if (before := table.cell(row, at)) not in ("", text, was.get(at, "")):
            raise NotSent(remark("list-has", name=name, before=before, heading=table.heads[at].strip()))
        row += [""] * (at + 1 - len(row))
        row[at] = row[at] if before == text else text
    return row


def text_with(text: str, table: Table, number: int, row: Sequence[str]) -> str:
    """The text of a list with a row in place of that of a number, or at its end if that is 0."""
    lines = list(io.StringIO(text, newline=""))
    end = next((mark for mark in LINE_ENDS if lines[0].endswith(mark)), "\n")
    if number:
        first, last = lines_of_row(lines, table.separator, number)
    else:
        first = last = len(lines)
        lines[-1] += "" if lines[-1].endswith(LINE_ENDS) else end
    return "".join([*lines[:first], csv_line(row, table.separator) + end, *lines[last:]])


def lines_of_row(lines: Sequence[str], separator: str, number: int) -> tuple[int, int]:
    """After how many lines a row begins, and after how many it ends: it may hold line breaks."""
    rows = csv.reader((line.replace("\0", "\ufffd") for line in lines), delimiter=separator)
    ends = [0, *(rows.line_num for _ in rows)]
    return ends[number - 1], ends[number]


def is_the_same_but_for(before: Table, after: Table, sail: str, row: Sequence[str]) -> bool:
    """Whether a list has become another in just one boat's row."""
    def others(table: Table) -> object:
        at = sails_at(table)
        return (table.separator, table.title, table.first, table.heads,
                [(number, cells) for number, cells in table.rows if plain(cells[at]) != plain(sail)])
    return others(before) == others(after) and row_of(after, sail)[1] == row


# Its encoding

def form_of(data: bytes) -> tuple[bytes, str]:
    """The mark of a list, and its encoding: as lists are read, that of its mark, UTF-8, or what old spreadsheets
    write."""
    mark = next((mark for mark in ENCODINGS if data.startswith(mark)), b"")
    if mark:
        return mark, ENCODINGS[mark]
    try:
        data.decode("utf-8")
    except UnicodeDecodeError:
        return b"", "cp1252"
    return b"", "utf-8"


def text_of(data: bytes, encoding: str, name: str) -> str:
    try:
        return data.decode(encoding)
    except UnicodeDecodeError:
        raise NotSent(remark("list-bytes", name=name)) from None


def encoded(text: str, encoding: str, name: str) -> bytes:
    try:
        return text.encode(encoding)
    except UnicodeEncodeError as cause:
        raise NotSent(remark("list-encoded", name=name, encoding=encoding.upper(),
                             sign=sign_remark(text[cause.start]))) from None
