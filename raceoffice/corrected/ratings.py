"""The ratings of an entry list: which of them a system takes, and what is said of the others."""
from __future__ import annotations

import re

from raceoffice.remarks import Remark, remark
from raceoffice.series.headings import ENTRIES, columns, rating_columns
from raceoffice.series.read_list import Table, table_of
from raceoffice.wording import on_one_line

# What the program reads as a rating of each system.
FORMS = {"tcf": r"0{0,2}[0-9](\.[0-9]{1,4})?", "py": "[0-9]{1,4}", "tod": r"-?[0-9]{1,3}(\.[0-9]{1,2})?"}


def is_rating(system: str, text: str) -> bool:
    """Whether the program takes a text as a rating of a system. Only an allowance may be nought."""
    return bool(re.fullmatch(FORMS[system], text, re.ASCII)) and (system == "tod" or bool(re.search("[1-9]", text)))


def rating_faults(data: bytes, name: str, system: str) -> list[Remark]:
    """The boats of a list that have no rating of a system, by their rows, in each of its columns."""
    table = table_of(data)
    found = [fault_at(table, name, system, number, row, at)
             for number, row in table.rows for at in rating_columns(table.heads, system).values()]
    return [fault for fault in found if fault]


def fault_at(table: Table, name: str, system: str, number: int, row: list[str], at: int) -> Remark | None:
    """What is wrong with the rating in one column of a row; None if nothing is."""
    text, sail = table.number(row, at).strip(), on_one_line(table.cell(row, columns(table.heads, ENTRIES).get("sail")))
    if is_rating(system, text):
        return None
    fault = remark("rating-odd", sail=sail, written=on_one_line(text)) if text else remark("timing-9", sail=sail)
    return remark("list-row", name=name, row=number, fault=fault)


def faults_in_race(data: bytes, name: str, race: int, system: str) -> tuple[list[Remark], dict[str, Remark]]:
    """What keeps all boats of a race from having their times: ratings that aren't any, or no column of them; and the
    boats that have none, each with what is said of her."""
    table = table_of(data)
    begins = {first: at for first, at in rating_columns(table.heads, system).items() if first <= race}
    if not begins:
        return [remark(f"ratings-missing-{system}", name=name, row=table.first)], {}
    at, sails = begins[max(begins)], columns(table.heads, ENTRIES)["sail"]
    wrong = [(table.cell(row, sails), table.number(row, at), fault)
             for number, row in table.rows if (fault := fault_at(table, name, system, number, row, at))]
    return [fault for _, text, fault in wrong if text.strip()], {sail: fault for sail, text, fault in wrong if not text.strip()}
