"""CSV for spreadsheets: what is read of it, by readers that part columns at another sign and heed no
quotes too."""
from __future__ import annotations

import csv
import decimal
import io
import random
import unittest

import helpers
from raceoffice.results.spreadsheet import Cell, as_number, csv_of, harmless

FORMULAS = "=+-@\uff1d\uff0b\uff0d\uff20"
SEPARATORS = ",;\t"


def read(data: bytes, separator: str, quoting: int = csv.QUOTE_MINIMAL) -> list[list[str]]:
    """The cells that a reader finds."""
    text = data.decode("utf-8-sig")
    return list(csv.reader(io.StringIO(text, newline=""), delimiter=separator, quoting=quoting))


class Spreadsheets(unittest.TestCase):
    def formulas(self, data: bytes) -> list[str]:
        """The cells that any reader takes for formulas: at any separator, with quotes and without."""
        cells = [cell for separator in SEPARATORS for quoting in (csv.QUOTE_MINIMAL, csv.QUOTE_NONE)
                 for row in read(data, separator, quoting) for cell in row]
        return [cell for cell in cells if cell.lstrip(" '\"\t\r\n")[:1] in tuple(FORMULAS)
                and "'" not in cell[:len(cell) - len(cell.lstrip(" '\"\t\r\n"))]]

    def test_cells(self) -> None:
        """Texts are in quotes, numbers aren't; with semicolons decimals have a comma."""
        row: list[Cell] = [1, "no", 'A "B"', "x, y", "", as_number("12.0"), as_number("")]
        self.assertEqual(csv_of([row]).decode("utf-8-sig"), '1,"no","A ""B""","x, y",,12.0,\r\n')
        self.assertEqual(csv_of([row], True).decode("utf-8-sig"), '1;"no";"A ""B""";"x, y";;12,0;\r\n')
        self.assertEqual(as_number("7.50"), decimal.Decimal("7.50"))

    def test_harmless(self) -> None:
        for text, wanted in [("A;=cmd|'/c calc'!A1;", "A;'=cmd|'/c calc'!A1;"), ("=1+1", "'=1+1"),
                             ("+A", "'+A"),
                             ("-1", "'-1"), ("@x", "'@x"), ("\t=1", "'\t'=1"), ("\rx", "'\rx"),
                             ("a\t@b", "a\t'@b"),
                             ("a\n-b", "a\n'-b"), ("a, =b", "a, '=b"), ('a;"=b"', "a;\"'=b\""),
                             ("\uff1dx", "'\uff1dx"),
                             ("K-12", "K-12"), ("A+B; C=D", "A+B; C=D"), ("J. Hale", "J. Hale")]:
            self.assertEqual(harmless(text), wanted)

    def test_random(self) -> None:
        """No text is a formula for any reader, and one without any is read as it was."""
        chosen, signs = random.Random(63), FORMULAS + SEPARATORS + "\"' \r\nAb1"
        for _ in range(helpers.trials(1000)):
            texts = ["".join(chosen.choices(signs, k=chosen.randint(1, 9))) for _ in range(3)]
            for semicolons in (False, True):
                data = csv_of([[1, *texts, as_number("2.5")]], semicolons)
                self.assertEqual(self.formulas(data), [], texts)
                cells = read(data, ";" if semicolons else ",")
                self.assertEqual(cells, [["1", *map(harmless, texts), "2,5" if semicolons else "2.5"]])

    def test_reader_finds(self) -> None:
        """The reader of this check finds formulas that are there."""
        for text in ('x,"=1"', "x;=1", "x\t@a", '"=1"', "x\n+1"):
            self.assertNotEqual(self.formulas(text.encode()), [], text)


if __name__ == "__main__":
    unittest.main()
