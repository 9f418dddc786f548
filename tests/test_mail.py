"""The results as a text for a mail: how wide its lines are, and in which order they are shown."""
from __future__ import annotations

import os
import unicodedata
import unittest

import helpers

from forger import LINES, journal_of
from raceoffice.results.exports import view_of
from raceoffice.results.mail import COLUMNS, mail

# Names of wide signs, as long as a line and with what looks like a row where it would be broken; and names from right to left
# with digits, also of a boat whose sail is a number.
WIDE = "\u540d" * 27 + " 1 GBR 7 J. Hale 1.0"
HEBREW = "\u05e9\u05dd 1.0"
NAMED = f"Sail,Helm,Boat,Club\nGBR 101,{WIDE},{WIDE},\nGBR 7,{HEBREW},,{HEBREW}\n12,{HEBREW},,\nIRL 5,M. Byrne,,{'x' * 90}\n"


def columns(text: str) -> int:
    """The columns that a text takes in a terminal or a mail."""
    return sum(0 if unicodedata.combining(sign) or unicodedata.category(sign) == "Cf" else
               2 if unicodedata.east_asian_width(sign) in "WF" else 1 for sign in text)


class Mails(helpers.Series):
    def setUp(self) -> None:
        super().setUp()
        here = self.make("tide", NAMED, exclude="2", title="\u6e2f" * 50, reason="x" + "\u6e2f" * 50)
        self.write(journal_of(here, *(line.replace("NED12", "12") for line in LINES)), "tide", "journal.txt")
        self.mail = mail([view_of(os.path.join(self.here, "tide"), lambda _: None)])
        self.rows = [line for line in self.mail.split("\n") if "GBR 101  " in line or HEBREW in line or "IRL 5  " in line]

    def test_wide(self) -> None:
        """No line takes more than 72 columns, and the net ends where it does in each row."""
        for line in self.mail.split("\n"):
            self.assertLessEqual(columns(line), COLUMNS, line)
        self.assertEqual([columns(line) for line in self.rows], [COLUMNS] * 4)

    def test_right_to_left(self) -> None:
        """The net behind names from right to left is shown behind them, and the rank before them: what is strong at the ends of
        the line, and what the net comes after, is from left to right."""
        turned = [line for line in self.rows if HEBREW in line]
        self.assertEqual(len(turned), 2)
        for line in turned:
            strong = [unicodedata.bidirectional(sign) for sign in line]
            strong = [kind for kind in strong if kind in ("L", "R", "AL")]
            self.assertEqual((strong[0], strong[-1]), ("L", "L"), line)
            self.assertRegex(line, "[0-9]+[.][0-9]$")
        self.assertEqual(self.mail.count("\u200e"), 4)


if __name__ == "__main__":
    unittest.main()
