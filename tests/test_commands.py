"""The command line: the tree of commands, what each says of itself, and what it prints for programs."""
from __future__ import annotations

import json
import os
import re
import subprocess
import sys
import unittest
from typing import Any

import helpers
from forger import journal_of
from raceoffice import cli, version

LINES = ["FINISH 1 GBR101", "FINISH 1 GBR7", "SCORE 1", "MARK 2 GBR101 OCS"]
BOATS = "Sail,Helm,Boat,Club\nGBR 101,A. Moss,Kestrel,Sandhaven\nGBR 7,J. Hale,Sea Pink,\n"


class Tree(unittest.TestCase):
    def test_help(self) -> None:
        """Each command says its forms, its statuses and an example."""
        said, status = helpers.run("--help")
        self.assertEqual(status, 0)
        for name in cli.COMMANDS:
            self.assertRegex(said, rf"(?m)^    {name}\b")
            text, status = helpers.run(name, "--help")
            self.assertEqual(status, 0)
            self.assertGreaterEqual(len(re.findall(rf"(?m)^    raceoffice {name}\b", text)), 2, text)
            self.assertRegex(text, "(?s)The status is|with status")
            self.assertRegex(text, rf"usage: raceoffice {name}")

    def test_no_command(self) -> None:
        """Without a command it names all of them."""
        said, status = helpers.run()
        self.assertEqual((said, status), (helpers.run("--help")[0], 2))

    def test_wrong(self) -> None:
        for words in (["nothing"], ["check"], ["final", "--json"],
                      ["board", "x", "--once", "--http"],
                      ["decisions", "send", "x", "--json"], ["export", "x"]):
            said, status = helpers.run(*words)
            self.assertEqual((status, "usage: raceoffice" in said, "Traceback" in said), (2, True, False),
                             said)

    def test_version(self) -> None:
        said, status = helpers.run("--version")
        self.assertRegex(said, rf"\Araceoffice {re.escape(version.VERSION)}(, commit "
                               rf"[0-9a-f]{{7,}}(-dirty)?)?\n\Z")
        self.assertEqual(status, 0)

    def test_as_a_module(self) -> None:
        """It is called as it was started."""
        done = subprocess.run([sys.executable, "-m", "raceoffice", "check", "no where"], text=True,
                              stdout=subprocess.PIPE)
        self.assertEqual((done.stdout, done.returncode), (
            "no where has no series.ini: it isn't a series. python3 -m raceoffice new 'no where' makes "
             "one.\n", 1))


class ForPrograms(helpers.Series):
    def setUp(self) -> None:
        super().setUp()
        folder = self.make("tide", BOATS)
        self.write(journal_of(folder, *LINES), "tide", "journal.txt")

    def printed(self, *words: str, status: int = 0) -> Any:
        said, found = helpers.run(*words, "--json", cwd=self.here)
        self.assertEqual(found, status, said)
        return json.loads(said)

    def test_check(self) -> None:
        found, = self.printed("check", "tide")
        self.assertEqual((found["folder"], found["faults"], found["asks"]), ("tide", [], ""))
        self.assertEqual(found["summary"], "Autumn Cup: 2 boats, 1 race scored, 6 entries")
        self.write("Sail\n", "cup", "entries.csv")
        both = self.printed("check", "tide", "cup", status=1)
        self.assertEqual([bool(one["faults"]) for one in both], [False, True])
        none, good = self.printed("check", "nowhere", "tide", status=1)
        self.assertEqual((none["folder"], none["faults"]), ("nowhere", [
            "nowhere has no series.ini: it isn't a series. raceoffice new nowhere makes one."]))
        self.assertEqual((good["folder"], good["faults"]), ("tide", []))

    def test_decisions(self) -> None:
        self.write("race 1 GBR7 DPI 2\n", "tide", "decisions.txt")
        found = self.printed("decisions", "check", "tide", status=1)
        one, = found["decisions"]
        # Second of two boats: two points and two more, but not more than for DNF, which is three.
        self.assertEqual((one["line"], one["points"], one["is_kept"]), (1, "3.0", False))
        self.assertEqual(one["lines"], [{"role": "JURY", "text": "REDRESS 1 GBR7 3.0"}])
        self.assertEqual((len(found["stale"]), found["unexplained"]), (1, []))

    def test_export_and_verify(self) -> None:
        said, status = helpers.run("export", "tide", "--json", "out.json", "--html", "out.html",
                                   cwd=self.here)
        self.assertEqual(status, 0, said)
        found, = json.loads(self.text("out.json"))
        self.assertEqual([(boat["rank"], boat["sail"], boat["net"]) for boat in found["boats"]],
                         [(1, "GBR101", "1.0"), (2, "GBR7", "2.0")])
        page, = self.printed("verify", "out.html", "--program", helpers.PROGRAM)
        self.assertEqual((page["page"], page["result"]), ("out.html", "verified"))
        self.assertEqual([(one["boats"], one["races"], one["entries"]) for one in page["series"]],
                         [(2, 1, 6)])
        self.write(self.text("out.html").replace("Kestrel", "Kestral"), "forged.html")
        self.write("x", "text.html")
        both = self.printed("verify", "text.html", "forged.html", "--program", helpers.PROGRAM, status=1)
        self.assertEqual([one["result"] for one in both], ["unsure", "differs"])
        none = self.printed("verify", "out.html", "--program", os.path.join(self.here, "none"), status=2)
        self.assertIn("There is no program at ", none["trouble"])


if __name__ == "__main__":
    unittest.main()
