"""The sheet of times of one race: what is in each row, and what is wrong with it, in words.

A time's column may hold a code instead, as DNF. A start without seconds, as 14:05, is on the minute. A
finish without seconds is a fault: a spreadsheet may have cut them off.
"""
from __future__ import annotations

from dataclasses import dataclass

from raceoffice.program.codes import CODES
from raceoffice.remarks import Remark, remark
from raceoffice.series.entry_list import columns_but, fault_of, plain
from raceoffice.series.headings import ENTRIES, SHEET, columns, rating_columns
from raceoffice.series.race_sheets import CARRIED, FORMS, TIMES, is_form
from raceoffice.series.read_list import Table, as_csv, table_of, wrong_form

# What the program reads of a sheet, in this order.
HEADS = {"sail": "Sail", "start": "Start", "finish": "Finish", "elapsed": "Elapsed", "laps": "Laps",
         "distance": "Distance"}
# Columns that a sheet may have: all that are added to it are read, too.
WIDEST = 900
# Codes for which the program has no line.
DECIDED = ("DPI", "NSC", "PRP", "RDG", "SCP", "T1", "TLE", "ZFP")


@dataclass(frozen=True)
class Entry:
    """A boat's row: her code if she has one, and otherwise what the program works her time out from. `other` is a second code in
    it, if there is one."""
    number: int
    sail: str
    code: str
    cells: dict[str, str]
    other: str = ""

    @property
    def is_timed(self) -> bool:
        """Whether she has a finish or an elapsed time."""
        return not self.code and bool(self.cells["finish"] or self.cells["elapsed"])


def entry_of(table: Table, places: dict[str, int], number: int, row: list[str],
             above: dict[str, str]) -> Entry:
    """A row as an entry. What may be empty is taken from the row above."""
    cells = {key: table.number(row, places.get(key)) for key in HEADS if key != "sail"}
    codes = [text.upper() for text in (cells[key] for key in TIMES) if text.isalpha()]
    codes += [text.upper() for text in [table.cell(row, places.get("code"))] if text]
    cells = {key: "" if key in TIMES and text.isalpha() else text for key, text in cells.items()}
    for key in CARRIED:
        if codes and not is_form(key, cells[key]):
            # Of a boat with a code nobody looks at it: so nobody below has it.
            cells[key] = ""
        above[key] = cells[key] = cells[key] or above.get(key, "")
    first, other = [*dict.fromkeys(codes), "", ""][:2]
    return Entry(number, plain(table.cell(row, places.get("sail"))), first, cells, other)


def entries_of(data: bytes, name: str) -> tuple[list[Entry], list[Remark]]:
    """The rows of a sheet, and what is wrong with it."""
    if wrong := wrong_form(data, name):
        return [], [wrong]
    table = table_of(data)
    places = columns(table.heads, SHEET)
    if fault := fault_of_heads(places, name) or fault_of_width(table, name):
        return [], [fault]
    above: dict[str, str] = {}
    found = [entry_of(table, places, number, row, above) for number, row in table.rows]
    shown = {key: table.heads[at].strip() for key, at in places.items()}
    faults = [fault for entry in found if (fault := fault_of_entry(entry, shown, name))]
    return found, faults + twice(found, name)


def twice(found: list[Entry], name: str) -> list[Remark]:
    """The rows whose boats are in a row above."""
    first: dict[str, int] = {}
    faults = []
    for entry in found:
        above = first.setdefault(entry.sail, entry.number)
        if entry.sail and above != entry.number:
            faults.append(fault_in_row(name, entry, remark("sheet-sail", sail=entry.sail, above=above)))
    return faults


def fault_in_row(name: str, entry: Entry, fault: Remark) -> Remark:
    return remark("list-row", name=name, row=entry.number, fault=fault)


def fault_of_heads(places: dict[str, int], name: str) -> Remark | None:
    """Which column a sheet lacks; None if it has all."""
    if "sail" not in places:
        return remark("sheet-no-sails", name=name)
    if "elapsed" not in places and "finish" not in places:
        return remark("sheet-no-times", name=name)
    return None


def fault_of_width(table: Table, name: str) -> Remark | None:
    """That a sheet is too wide: a column that is added to it wouldn't be read again. None if it isn't."""
    return remark("sheet-wide", name=name, most=WIDEST) if table.width > WIDEST else None


def fault_of_entry(entry: Entry, shown: dict[str, str], name: str) -> Remark | None:
    """What is wrong with a row, and in which column; None if nothing is."""
    if fault := fault_of(entry.sail) or fault_of_code(entry.code) or fault_of_codes(entry):
        return fault_in_row(name, entry, fault)
    for key, (_, wanted) in FORMS.items():
        text = entry.cells[key]
        if not entry.code and text and not is_form(key, text):
            return remark("sheet-cell", name=name, row=entry.number, column=shown[key], written=text, wanted=wanted)
    return None


def fault_of_code(code: str) -> Remark | None:
    """Why a code can't be in a sheet; None if it can, or if there is none."""
    if not code or code in CODES:
        return None
    return remark("sheet-decided" if code in DECIDED else "sheet-no-code", code=code)


def fault_of_codes(entry: Entry) -> Remark | None:
    """Which two codes a row has; None if it hasn't two."""
    return remark("sheet-codes", code=entry.code, other=entry.other) if entry.other else None


def columns_left(data: bytes) -> list[str]:
    """The columns of a sheet that nothing reads, except the names and ratings of an entry list."""
    heads = table_of(data).heads
    known = [*columns(heads, SHEET).values(), *columns(heads, ENTRIES).values(), *rating_columns(heads).values()]
    return columns_but(data, known)


def for_program(found: list[Entry]) -> bytes:
    """The boats that have times, as the program reads them. Its row 2 is that of the first."""
    rows = [[entry.sail, *(with_seconds(key, entry.cells[key]) for key in HEADS if key != "sail")]
            for entry in found]
    return as_csv([list(HEADS.values()), *rows])


def with_seconds(key: str, text: str) -> str:
    """A start that has no seconds is on the minute."""
    return f"{text}:00" if key == "start" and text.count(":") == 1 else text
