"""Which lines a role's devices may send at all: others never reach the program."""
from __future__ import annotations

import unittest

from raceoffice.errors import NotSent
from raceoffice.web.routes import check_command

# What no role may send, and what each may, with a code alone, too.
NEVER = ("ROLE JURY", "ROLE JURY RET", "SHOW DNF", "QUIT OCS", "RANK GBR7 DSQ", "HELP RET", "STANDING DNF", "AT 1 RET", "RACE 1 RET",
         "", "SHOW", "GBR7")
MAY = {"FINISH": ("FINISH 1 GBR7", "33 OCS", "OCS 33", "1 GBR7 DNF", "? 1", "?1 1 GBR7", "UNDO", "START 1", "STRIKE 1 GBR7"),
       "JURY": ("MARK 1 GBR7 DSQ", "33 DSQ", "DSQ 33", "GBR7 SCP", "REDRESS 1 GBR7 ALL"),
       "SCORER": ("ENTER USA5", "SCORE 1", "UNSCORE 1", "33 RET", "TIMES 1", "ABANDON 1")}
# What the others of them may send.
NOT = {"FINISH": ("ENTER USA5 DNF", "SCORE 1 DNF", "REDRESS 1 GBR7 DSQ"), "JURY": ("FINISH 1 GBR7 RET", "ENTER USA5 DNF", "TIME 1 GBR7 DNF"),
       "SCORER": ("REDRESS 1 GBR7 DSQ", "REDRESS 1 GBR7 ALL")}


class Commands(unittest.TestCase):
    def test_may(self) -> None:
        """Each role sends its own lines, and a boat with a code."""
        for role, lines in MAY.items():
            for line in lines:
                with self.subTest(role=role, line=line):
                    check_command(line, role)

    def test_may_not(self) -> None:
        """A code at the end of another command makes it no line of the role."""
        for role, lines in NOT.items():
            for line in (*lines, *NEVER):
                with self.subTest(role=role, line=line), self.assertRaises(NotSent):
                    check_command(line, role)


if __name__ == "__main__":
    unittest.main()
