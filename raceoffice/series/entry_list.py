"""The entry list: the boats with their names, and what is wrong with a list, in words."""
from __future__ import annotations

import functools
import re
import string
from collections.abc import Collection, Mapping, Sequence
from dataclasses import dataclass

from raceoffice.errors import Trouble
from raceoffice.remarks import Remark, remark, sign_remark
from raceoffice.series.headings import ENTRIES, columns, plain_heading, rating_columns
from raceoffice.series.read_list import Table, as_csv, bytes_of, name_of, table_of, wrong_form
from raceoffice.wording import on_one_line

SAIL = re.compile(r"[A-Z0-9-]{1,12}")
ROOM = 500
# The most faults that are named: a list with as many rows has no room in a class.
FAULTS = 1000
# The lists that are remembered, for all classes of a computer.
LISTS = 8
# Other alphabets have small letters of their own, which the program doesn't raise.
RAISED = str.maketrans(string.ascii_lowercase, string.ascii_uppercase)


@dataclass(frozen=True)
class Boat:
    """A boat as the entry list writes her."""
    sail: str
    helm: str = ""
    name: str = ""
    club: str = ""

    def __str__(self) -> str:
        """How she is called at a prompt."""
        return f"{self.sail} {self.name or self.helm}".rstrip()


def plain(sail: str) -> str:
    """A sail as the program writes it."""
    return sail.replace(" ", "").translate(RAISED)


def plain_words(line: str) -> list[str]:
    """The words of a line of a journal, as the program writes them: it takes small letters, too."""
    return line.translate(RAISED).split()


def read(path: str) -> dict[str, Boat]:
    """The boats of an entry list, by the sail as the program writes it; none if it has faults."""
    data = bytes_of(path)
    return {} if problems(data, path) else dict(boats_of(data))


@functools.lru_cache(maxsize=LISTS)
def boats_of(data: bytes) -> Mapping[str, Boat]:
    """The boats of a list without faults. What isn't printable is taken out of their names, since they
    may come from anybody, and go to terminals and pages. Sails are shown in capitals."""
    table = table_of(data)
    places, boats = columns(table.heads, ENTRIES), dict[str, Boat]()
    for _, row in table.rows:
        texts = {key: on_one_line(table.cell(row, at)) for key, at in places.items()}
        boat = Boat(**texts | {"sail": texts["sail"].translate(RAISED)})
        boats[plain(boat.sail)] = boat
    return boats


def read_if_there(path: str) -> dict[str, Boat]:
    """The boats of an entry list, which only gives names to a series that has been opened: none if it
    can't be read."""
    try:
        return read(path)
    except Trouble:
        return {}


def given(path: str) -> bytes:
    """An entry list as the program takes it: the sails alone. A Trouble says what is wrong with it."""
    data = bytes_of(path)
    if wrong := problems(data, path):
        raise Trouble(*wrong)
    return as_csv([["Sail"], *([sail] for sail in boats_of(data))])


def columns_left(data: bytes) -> list[str]:
    """The columns that nothing reads, in a series by ratings either: their headings, or their numbers."""
    heads = table_of(data).heads
    return columns_but(data, {*columns(heads, ENTRIES).values(), *rating_columns(heads).values()})


def columns_but(data: bytes, read_ones: Collection[int]) -> list[str]:
    """The columns of a list that have something in them, except those that are read."""
    table = table_of(data)
    filled = {at for _, row in [(0, table.heads), *table.rows] for at, cell in enumerate(row) if cell.strip()}
    return [on_one_line(table.cell(table.heads, at)) or remark("list-column", number=at + 1)
            for at in sorted(filled - set(read_ones))]


def left_in_words(data: bytes) -> Remark | None:
    """Which columns aren't read; None if all are."""
    left = columns_left(data)
    return remark("list-unread", columns=left) if left else None


def rating_note(data: bytes, name: str, is_rated: bool) -> Remark | None:
    """What should be known of the ratings in a list, in a series by corrected time or in another; None if nothing
    should."""
    heads = table_of(data).heads
    found = [on_one_line(heads[at]) for at in rating_columns(heads).values()]
    if is_rated and not found:
        return remark("list-unrated", name=name)
    if found and not is_rated:
        return remark("list-rated", columns=found)
    return None


def column_like(heads: Sequence[str]) -> int | None:
    """The column whose heading looks like a sail's, and isn't one."""
    return next((at for at, head in enumerate(heads)
                 if plain_heading(head).startswith(("sail", "segel", "zeil", "voile", "vela"))), None)


def heading_faults(table: Table, name: str) -> list[Remark]:
    """What is wrong with the form of the first rows: a title, the headings."""
    faults = []
    if table.title:
        faults.append(remark("list-title", name=name, title=table.title, first=table.first))
    if "sail" not in columns(table.heads, ENTRIES):
        like = column_like(table.heads)
        faults.append(remark("list-no-sails", name=name) if like is None else
                      remark("list-like-sails", name=name, heading=table.heads[like].strip()))
    return faults


def fault_of(sail: str) -> Remark | None:
    """Why a sail isn't one; None if it is."""
    text = plain(sail)
    if SAIL.fullmatch(text):
        return None
    odd = next((letter for letter in text if not re.fullmatch("[A-Z0-9-]", letter)), "")
    if not text:
        return remark("sail-none")
    if odd:
        return remark("sail-sign", written=sail.strip(), sign=sign_remark(odd))
    return remark("sail-long", written=sail.strip(), n=len(text))


def problems(data: bytes, path: str) -> list[Remark]:
    """All that keeps a list from being used, in words: as much as shows at once; empty if nothing does."""
    return [*faults_of(data, path if isinstance(path, Remark) else name_of(path))]


@functools.lru_cache(maxsize=LISTS, typed=True)
def faults_of(data: bytes, name: str) -> list[Remark]:
    """What is wrong with a list of this name, which is looked through once: a tap doesn't wait for that again."""
    if wrong := wrong_form(data, name):
        return [wrong]
    table = table_of(data)
    faults, places = heading_faults(table, name), columns(table.heads, ENTRIES)
    at, who = places.get("sail", column_like(table.heads)), places.get("helm")
    if at is None:
        return faults
    found: dict[str, int] = {}
    for number, row in table.rows:
        if len(faults) >= FAULTS:
            return faults
        if fault := fault_of_row(row, at, found) or fault_of_cells(table, row, at):
            helm = on_one_line(table.cell(row, who))
            faults.append(remark("list-row-of", name=name, row=number, helm=helm, fault=fault) if helm and len(row) > at
                          else remark("list-row", name=name, row=number, fault=fault))
        else:
            found[plain(row[at])] = number
    if not table.rows:
        faults.append(remark("list-no-boats", name=name))
    if len(found) > ROOM:
        faults.append(remark("list-too-many", name=name, n=len(found), room=ROOM))
    return faults


def fault_of_row(row: list[str], at: int, found: dict[str, int]) -> Remark | None:
    """What is wrong with a row; `found` has the rows of the sails above it."""
    if len(row) <= at:
        return remark("row-quoted" if "\n" in row[-1] else "row-short")
    if fault := fault_of(row[at]):
        return remark("row-sail", fault=fault)
    above = found.get(plain(row[at]))
    return remark("row-twice", written=row[at].strip(), above=above) if above else None


def fault_of_cells(table: Table, row: Sequence[str], at: int) -> Remark | None:
    """What is wrong with the cells of a boat; None if nothing is. A quotation mark that isn't closed may be ended by that of
    another row: then one cell holds rows. `at` is the column of the sails."""
    lines = [place for place, cell in enumerate(row) if table.separator in cell and re.search("[\r\n]", cell)]
    return remark("row-unclosed") if any(rows_in(table, row, place, at) > 1 for place in lines) else None


def rows_in(table: Table, row: Sequence[str], place: int, at: int) -> int:
    """How many rows of boats there are if a cell with lines is the end of one row, whole rows, and the beginning of another."""
    first, *more = re.split("\r\n|\r|\n", row[place])
    parts: list[list[str]] = [[*row[:place], *first.split(table.separator)], *(line.split(table.separator) for line in more)]
    parts[-1].extend(row[place + 1:])
    # A column that isn't read may have anything, as an address.
    is_name = place in columns(table.heads, ENTRIES).values()
    return sum(is_of_boat(part, at, len(table.heads), is_name) for part in parts)


def is_of_boat(part: Sequence[str], at: int, width: int, is_name: bool) -> bool:
    """Whether a part of a cell is a row of a boat, and not the second of two names as `Smith, Jo`, each on a line of its own."""
    sail, is_whole = plain("".join(part[at:at + 1])), len(part) == width
    if re.search("[0-9]", sail):
        return bool(SAIL.fullmatch(sail)) and (is_name or is_whole)
    return bool(SAIL.fullmatch(sail)) and is_whole and not any(cell.startswith(" ") for cell in part)


def near(sail: str, boats: list[str]) -> list[str]:
    """Boats that one slip makes of a sail: a letter more, less or another, or two exchanged."""
    def is_slip(a: str, b: str) -> bool:
        a, b = (a, b) if len(a) <= len(b) else (b, a)
        at = next((i for i, (x, y) in enumerate(zip(a, b)) if x != y), len(a))
        if len(a) < len(b):
            return len(b) - len(a) == 1 and a[at:] == b[at + 1:]
        swapped = a[:at] + a[at + 1:at + 2] + a[at:at + 1] + a[at + 2:]
        return a != b and (a[at + 1:] == b[at + 1:] or swapped == b)
    return [boat for boat in boats if is_slip(sail, boat)]


def sails_of(line: str) -> list[str]:
    """The sails that an entry of a journal names, the boat that it is about first."""
    match plain_words(line)[3:]:
        case ["ENTER", sail]:
            return [sail]
        case ["TIE" | "BEFORE", _, sail, other]:
            return [sail, other]
        case [_, _, sail, *_]:
            return [sail]
    return []
