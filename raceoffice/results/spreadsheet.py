"""CSV for spreadsheets. A text in it is never a formula, whichever sign its reader takes to part columns."""
from __future__ import annotations

import decimal
import re
from collections.abc import Sequence

# A number is written without quotes, and keeps its last zero.
Number = int | decimal.Decimal
Cell = str | Number
# What a spreadsheet takes for the beginning of a formula, also in its wide form, where a cell begins: at
# the text's start, or after a sign that may part columns. Spaces and quotes may come first.
FORMULA = re.compile("(^|[;,\t\r\n])([ '\"]*)([=+\\-@\uff1d\uff0b\uff0d\uff20])")


def harmless(text: str) -> str:
    """A text that no spreadsheet takes for a formula, nor any part of it."""
    return ("'" if text[:1] in ("\t", "\r", "\n") else "") + FORMULA.sub(r"\1\2'\3", text)


def as_number(points: str) -> Cell:
    """Points as a number; empty if there are none."""
    return decimal.Decimal(points) if points else ""


def written(cell: Cell, has_comma: bool) -> str:
    """A cell as CSV has it: a text in quotes, a number with a dot or a comma."""
    if isinstance(cell, str):
        text = harmless(cell).replace('"', '""')
        return f'"{text}"' if text else ""
    return str(cell).replace(".", ",") if has_comma else str(cell)


def csv_of(rows: Sequence[Sequence[Cell]], semicolons: bool = False) -> bytes:
    """Rows in UTF-8, with the mark by which a spreadsheet knows it. With semicolons decimals have a comma,
    as some countries' spreadsheets want."""
    separator = ";" if semicolons else ","
    lines = [separator.join([written(cell, semicolons) for cell in row]) for row in rows]
    return b"\xef\xbb\xbf" + "".join(f"{line}\r\n" for line in lines).encode()
