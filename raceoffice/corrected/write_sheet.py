"""A race's sheet of times as it is written while boats finish: one start for all, each finish as it comes, and
codes. Columns that somebody has added stay as they are."""
from __future__ import annotations

import os
from collections.abc import Sequence

from raceoffice.corrected.sheets import entries_of, fault_of_code, with_seconds
from raceoffice.corrected.sheets import HEADS as COLUMNS
from raceoffice.corrected.times import KEYS, ROUNDINGS, RULES, SYSTEMS
from raceoffice.errors import NotSent, NotThere, Trouble, as_trouble
from raceoffice.files import replace_whole
from raceoffice.remarks import Remark, remark
from raceoffice.series.entry_list import plain
from raceoffice.series.folder import Folder
from raceoffice.series.headings import SHEET, columns
from raceoffice.series.race_sheets import CARRIED, FORMS, SHEETS, TIMES, is_form, sheet_name
from raceoffice.series.read_list import as_csv, bytes_of, table_of
from raceoffice.series.settings import head_of, lines_of, rows_of

# The headings of a new sheet, and that of each column that is added to another.
HEADS = {"sail": "Sail", "start": "Start", "finish": "Finish", "code": "Code"}


class SheetOfRace:
    """The sheet of one race, in a series' folder; an empty one if there is none yet. One whose rows can't all be read is
    for `is_to_mend` alone: `faults` are what is wrong with them."""

    def __init__(self, folder: Folder, race: int, is_to_mend: bool = False) -> None:
        self.path, self.name, self.is_to_mend = folder.file(sheet_name(race)), sheet_name(race), is_to_mend
        self.above, self.heads, self.rows = list[list[str]](), list(HEADS.values()), list[list[str]]()
        self.places, self.faults = columns(self.heads, SHEET), list[Remark]()
        try:
            self.read(bytes_of(self.path))
        except NotThere:
            pass

    def read(self, data: bytes) -> None:
        """Reads what there is; a Trouble if it isn't a sheet."""
        found, self.faults = entries_of(data, self.name)
        if self.faults and not (found and self.is_to_mend):
            raise Trouble(*self.faults)
        table = table_of(data)
        self.places = columns(table.heads, SHEET)
        # In the new text only commas part the columns.
        numbers = [self.places.get("distance")]
        rows = [[table.number(row, at) if at in numbers else cell for at, cell in enumerate(row)] for _, row in table.rows]
        # A remark to the right of the headings stays there: in a column that is added it would be a time or a code.
        wide = table.width
        self.above = [*table.above]
        self.heads, *self.rows = ([*row[:wide], *[""] * (wide - len(row))] for row in (table.heads, *rows))
        for key, head in HEADS.items():
            if key not in self.places:
                self.places[key] = len(self.heads)
                self.heads.append(head)

    @property
    def data(self) -> bytes:
        """The sheet as it is written."""
        return as_csv([*self.above, self.heads, *self.rows])

    def need_mended(self) -> None:
        """A Trouble if as many rows can't be read as before, or if any can't where all could: a code that is taken away may leave
        what is no time."""
        left = entries_of(self.data, self.name)[1]
        if left and len(left) >= len(self.faults):
            raise Trouble(*left)

    def write(self) -> None:
        """Puts the sheet on the disk, whole."""
        make_sheets(os.path.dirname(self.path))
        replace_whole(self.path, self.data)

    # Cells

    def row(self, sail: str) -> list[str]:
        """The row of a boat, which is added if she has none."""
        found = next((row for row in self.rows if plain(row[self.places["sail"]]) == sail), None)
        if found is None:
            found = [""] * len(self.heads)
            found[self.places["sail"]] = sail
            self.rows.append(found)
        return found

    def cell(self, row: list[str], key: str) -> str:
        at = self.places[key]
        return row[at].strip() if at < len(row) else ""

    def cells(self, sail: str) -> dict[str, str]:
        """A boat's finish, elapsed time and code, wherever in her row the code stands."""
        row = next((row for row in self.rows if plain(row[self.places["sail"]]) == sail), list[str]())
        held = {key: self.cell(row, key) if key in self.places else "" for key in (*TIMES, "code")}
        codes = [held[key] for key in (*TIMES, "code") if held[key].isalpha()] + [held["code"]]
        return {**self.times_in(row), "code": codes[0].upper()}

    def times_in(self, row: list[str]) -> dict[str, str]:
        """The finish and the elapsed time in a row. A code may stand where one would."""
        held = {key: self.cell(row, key) if key in self.places else "" for key in ("finish", "elapsed")}
        return {key: "" if text.isalpha() else text for key, text in held.items()}

    def put(self, row: list[str], key: str, text: str) -> None:
        row += [""] * (len(self.heads) - len(row))
        row[self.places[key]] = text

    def give(self, sail: str, key: str, text: str) -> None:
        """Gives a boat her start, laps or distance. A column that the sheet lacks is added if it is needed."""
        if key not in self.places:
            if not text:
                return
            self.places[key] = len(self.heads)
            self.heads.append(COLUMNS[key])
        self.put(self.row(sail), key, with_seconds(key, text))

    def put_in_order(self, sails: Sequence[str]) -> None:
        """Gives each of these boats a row, in this order, with all that hers has from the one above it: what is changed of one
        boat is no other's then. Rows of others come last."""
        found = entries_of(self.data, self.name)[0]
        timed = [entry.cells for entry in found if entry.is_timed and entry.sail in sails]
        unused = [key for key in CARRIED if key != "start" and timed and not any(cells[key] for cells in timed)]
        for entry in found:
            row = self.row(entry.sail)
            carried = [(key, text) for key, text in entry.cells.items() if text and key in CARRIED]
            # A code may stand where a start would.
            for key, text in [(key, text) for key, text in carried if not self.cell(row, key).isalpha() or key != "start"]:
                if entry.code and (key in unused or not is_form(key, text)):
                    # The boat below her now would have it, too. She has no time that needs it.
                    self.put(row, key, "")
                elif not self.cell(row, key):
                    self.put(row, key, with_seconds(key, text))
        rows = [self.row(sail) for sail in sails]
        self.rows = rows + [row for row in self.rows if not any(row is one for one in rows)]

    @property
    def starts(self) -> list[str]:
        """The starts that it has, each once."""
        return list(dict.fromkeys(filter(None, map(self.start_in, self.rows))))

    def start_in(self, row: list[str]) -> str:
        """The start in a row; empty if there is none. A code may stand where a start would, and of a boat with a code anything."""
        text = self.cell(row, "start")
        return with_seconds("start", text) if is_form("start", text) else ""

    @property
    def has_finishes(self) -> bool:
        """Whether a boat has a finish."""
        held = [self.cell(row, "finish") for row in self.rows]
        return any(text and not text.isalpha() for text in held)

    # What the finish writes

    def start(self, text: str, sails: Sequence[str]) -> None:
        """Gives all boats one start. NotSent if they have several, or if it isn't one."""
        if not is_form("start", text):
            raise NotSent(remark("start-wrong", written=text, wanted=FORMS["start"][1]))
        if len(self.starts) > 1:
            raise NotSent(remark("starts-several", name=self.name))
        for sail in sails:
            self.row(sail)
        for row in self.rows:
            if not self.cell(row, "start").isalpha():
                self.put(row, "start", with_seconds("start", text))

    def finish(self, sail: str, text: str, was: str = "") -> None:
        """Gives a boat her finish, or another one than she `was` given. NotSent if she has another one or a code."""
        if not is_form("finish", text):
            raise NotSent(remark("finish-wrong", written=text[:20], wanted=FORMS["finish"][1]))
        row = self.row(sail)
        held = [self.cell(row, key) for key in ("finish", "elapsed", "code") if key in self.places]
        held += [self.cell(row, "start")] if self.cell(row, "start").isalpha() else []
        if was and self.cell(row, "finish") not in (was, text):
            raise NotSent(remark("finish-changed", sail=sail, was=was, name=self.name))
        before = [one for one in held if one not in ("", text, was)]
        if before:
            raise NotSent(remark("sheet-has", sail=sail, before=before[0], name=self.name))
        if len(self.starts) == 1:
            self.put(row, "start", self.starts[0])
        self.put(row, "finish", text)

    def give_back(self, sail: str, finish: str, elapsed: str = "") -> None:
        """Gives a boat back the finish and the elapsed time that she had. NotSent if she has another one by now."""
        held, wanted = self.cells(sail), {"finish": finish, "elapsed": elapsed}
        other = [held[key] for key, text in wanted.items() if held[key] not in ("", text)]
        if other:
            raise NotSent(remark("sheet-has", sail=sail, before=other[0], name=self.name))
        row = self.row(sail)
        for key in [key for key, text in wanted.items() if text]:
            self.put(row, key, wanted[key])

    def take_finish(self, sail: str) -> bool:
        """Takes a boat's finish away, or her elapsed time; whether she had one. A code in place of one stays."""
        row = self.row(sail)
        had = [key for key, text in self.times_in(row).items() if text]
        for key in had:
            self.put(row, key, "")
        return bool(had)

    def code(self, sail: str, code: str) -> bool:
        """Gives a boat a code, or takes hers away if it is empty; whether that is another. NotSent if it isn't one for a
        sheet."""
        if fault := fault_of_code(code):
            raise NotSent(fault)
        row = self.row(sail)
        before = self.cell(row, "code")
        for key in TIMES:
            # A code may stand where a time would.
            if key in self.places and self.cell(row, key).isalpha():
                before = before or self.cell(row, key)
                self.put(row, key, "")
        self.put(row, "code", code)
        return before != code


def rules_text(system: str, rounding: str) -> bytes:
    """The rules of a new series; a Trouble if there are none such."""
    if system not in SYSTEMS:
        raise Trouble(remark("times-rule", name=f"{SHEETS}/{RULES}", key="system", wanted=remark("wanted-system")))
    if rounding not in ROUNDINGS:
        raise Trouble(remark("times-rule", name=f"{SHEETS}/{RULES}", key="rounding", wanted=remark("wanted-rounding")))
    return f"[times]\nsystem = {system}\nrounding = {rounding}\n".encode()


def write_rules(folder: str, text: bytes) -> None:
    """Makes times/rules.ini of a new series."""
    path = os.path.join(folder, SHEETS, RULES)
    make_sheets(os.path.dirname(path))
    replace_whole(path, text)


def make_sheets(folder: str) -> None:
    """Makes the folder of the sheets, if it isn't there. A Trouble if a link in its place leads nowhere."""
    with as_trouble("file-unmade", name=folder):
        os.makedirs(folder, exist_ok=True)


def with_rule(text: str, key: str, value: str) -> str:
    """times/rules.ini with one value changed; all else in it stays as it is. A Trouble if it can't be read."""
    found, wrong = lines_of(text, f"{SHEETS}/{RULES}", KEYS)
    if wrong:
        raise Trouble(*wrong)
    rows = rows_of(text)
    if key in found:
        at, held = found[key]
        if held == value:
            return text
        rows[at - 1] = f"{key} = {value}"
    else:
        rows.insert(head_of("times", rows), f"{key} = {value}")
    return "\n".join(rows) + "\n"
