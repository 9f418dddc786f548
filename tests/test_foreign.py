"""A program of a series that isn't regatta, or is another one: it doesn't end, or prints another table."""
from __future__ import annotations

import os
import unittest
from collections.abc import Callable
from unittest import mock

import helpers
from raceoffice.errors import Trouble
from raceoffice.program.standing import Standing
from raceoffice.series.folder import Folder
from raceoffice.series.run_program import Program

# Tables that the program never prints.
OTHER_TABLES = ["", "TABLE", "TABLE x RACES", "TABLE 1 RACES", "TABLE 1 RACES\n1 A", "TABLE 1 RACES\n1 A x",
                "TABLE 1 RACES 1\n1 A 1.0", "TABLE 1 RACES 1\n1 A 1.0 1", "TABLE 1 RACES 1\n1 A 1.0 (1.0",
                "TABLE 1 RACES 1\nfirst A 1.0 1.0", "TABLE 1 RACES 1 2\n1 A 1.0 1.0", "A\n1 A 1.0"]


class Foreign(helpers.Series):
    def folder(self, script: str) -> Folder:
        """A series with this script as its program: without options it prints an empty table."""
        path = os.path.join(self.here, "program")
        self.write(f'#!/bin/sh\n[ $# = 1 ] && echo "TABLE 0 RACES" && exit\n{script}\n', path)
        os.chmod(path, 0o755)
        return Folder(self.make("foreign", program=path))

    def test_no_end(self) -> None:
        """A program that doesn't end is said to, wherever it is asked."""
        folder = self.folder("exec sleep 1000")
        self.write("1 1 SCORER ENTER A\n", "foreign", "journal.txt")
        program, options = Program(folder), folder.settings.options()
        with mock.patch("raceoffice.program.replay.PATIENCE", 0.1), mock.patch("raceoffice.program.checking.PATIENCE", 0.1):
            calls: list[Callable[[], object]] = [program.start_faults, program.begin,
                                                 lambda: program.standing(options),
                                                 lambda: program.table(options)]
            for asked in calls:
                with self.assertRaises(Trouble) as raised:
                    asked()
                self.assertEqual(str(raised.exception),
                                 f"the program at {program.path} can't be run: it does not end")
            self.write("#!/bin/sh\nexec sleep 1000\n", "program")
            self.assertEqual(program.fault(), f"{program.path} isn't regatta: it doesn't end.")

    def test_other_table(self) -> None:
        """Another table is a sentence, and no page of Python."""
        self.folder("cat > /dev/null; echo 'TABLE 1 RACES 1'; echo '1 A 1.0 one'")
        said, status = helpers.run("check", "foreign", cwd=self.here)
        self.assertEqual((said, status), ("the table has a cell 'one', which isn't a score.\n", 1))
        for table in OTHER_TABLES:
            self.assertRaises(Trouble, Standing.read, table.splitlines())


if __name__ == "__main__":
    unittest.main()
