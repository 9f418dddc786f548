"""docs/RULES.md names sentences, laws and worked cases that exist, and shows the tables of the cases."""
from __future__ import annotations

import os
import re
import unittest

import helpers

CRATES = os.path.join(helpers.TOP, "crates")
SCORES = os.path.join(CRATES, "regatta_scores")
CRATES_NAMED = {"regatta_scores", "regatta_board", "regatta_terms"}

FIELD = re.compile(r"^ *pub (\w+) :", re.MULTILINE)
# A sentence stands under a comment that begins with its rule, or with (own).
SENTENCE = re.compile(
    r"^ *-- (?:A\d|44\.3|90\.3|\(own\)|.*\(own\)$|without redress)[^\n]*\n(?: *--[^\n]*\n)*"
    r" *pub (\w+) :", re.MULTILINE)
LAW = re.compile(r"^pub fn (\w+)", re.MULTILINE)
CASE = re.compile(r"^abbrev pub (\w+) : WorkedCase\n(.*?)^pub ", re.MULTILINE | re.DOTALL)
ROW = re.compile(r"row (\w) (\d+) (true|false) (\d+)\s*\(((?:[^()])*)\)")
CELL = re.compile(r"(plain|marked|coded|excluded|out) (\d+)(?: (?:abbreviation|code)\.(\w+))?")
NAME = re.compile(r"`(\w+)`")
EXAMPLE = re.compile(r"^\*Example\* `(\w+)`.*?\n\n(\|.*?)\n\n", re.MULTILINE | re.DOTALL)

Row = tuple[str, str, list[str], str]


def read(*parts: str) -> str:
    with open(os.path.join(*parts), encoding="utf-8") as file:
        return file.read()


def page() -> str:
    return read(helpers.TOP, "docs", "RULES.md")


def points(tenths: str) -> str:
    return f"{int(tenths) // 10}.{int(tenths) % 10}"


def cell_text(kind: str, tenths: str, mark: str) -> str:
    text = points(tenths) + (f" {mark.upper()}" if mark else "")
    return f"({text})" if kind in ("excluded", "out") else text


def rows_of_case(text: str) -> list[Row]:
    """The rows of a case: rank, boat, cells and net."""
    rows = []
    for boat, rank, tied, net, cells in ROW.findall(text):
        shown = [cell_text(*found) for found in CELL.findall(cells)]
        rows.append((f"{rank} =" if tied == "true" else rank, boat.upper(), shown, points(net)))
    return rows


def rows_of_page(table: str) -> list[Row]:
    """The rows of a table on the page; with one race, its points are the net too."""
    heads = [head.strip() for head in table.split("\n")[0].strip("|").split("|")]
    rows = []
    for line in table.split("\n")[2:]:
        rank, boat, *rest = [part.strip() for part in line.strip("|").split("|")]
        cells = rest[:-1] if heads[-1] == "net" else rest
        rows.append((rank, boat, cells, rest[-1].split(" ")[0]))
    return rows


class Rules(unittest.TestCase):
    def test_sentences(self) -> None:
        """Each sentence is on the page, and each that the page names exists."""
        source = read(SCORES, "specs", "AppendixA.antt")
        named: set[str] = set()
        for line in re.findall(r"\*Sentences?\* ([^.;:]*)", page()):
            named |= set(NAME.findall(line))
        self.assertLessEqual(named, set(FIELD.findall(source)))
        self.assertGreaterEqual(named, set(SENTENCE.findall(source)))

    def test_names(self) -> None:
        """Each other name on the page is a law or a worked case."""
        known = set(FIELD.findall(read(SCORES, "specs", "AppendixA.antt"))) | CRATES_NAMED
        for crate in CRATES_NAMED:
            folder = os.path.join(CRATES, crate, "src")
            files = [os.path.join(folder, "laws.rt")]
            if os.path.isdir(os.path.join(folder, "laws")):
                files += [os.path.join(folder, "laws", name)
                          for name in os.listdir(os.path.join(folder, "laws"))]
            for file in files:
                known |= set(LAW.findall(read(file)))
        cases = {name for name, _ in CASE.findall(read(SCORES, "specs", "WorkedCases.antt"))}
        self.assertLessEqual(set(NAME.findall(page())), known | cases)

    def test_tables(self) -> None:
        """Each worked case is on the page, with its table."""
        cases = dict(CASE.findall(read(SCORES, "specs", "WorkedCases.antt")))
        examples = dict(EXAMPLE.findall(page()))
        self.assertEqual(set(examples), set(cases))
        for name, table in examples.items():
            with self.subTest(case=name):
                self.assertEqual(rows_of_page(table), rows_of_case(cases[name]))


if __name__ == "__main__":
    unittest.main()
