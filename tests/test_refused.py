"""What the system refuses, or hasn't: folders and files, networks, git, a program that gives another table."""
from __future__ import annotations

import asyncio
import json
import os
import socket
import subprocess
import unittest
from unittest import mock

import helpers
from forger import journal_of
from raceoffice import version
from raceoffice.commands.type import asked_role
from raceoffice.errors import NoTable, Trouble
from raceoffice.program import explanation
from raceoffice.program.standing import Standing
from raceoffice.results import http_answers, server
from raceoffice.results.html.page import is_ours
from raceoffice.results.publish import Files, Site
from raceoffice.results.source import ResultsSource
from raceoffice.series.folder import Folder
from raceoffice.series.health import changes_of_rules
from raceoffice.series.run_program import Program


class Series(helpers.Series):
    def path(self, *names: str) -> str:
        return os.path.join(self.here, *names)

    def test_names_and_log(self) -> None:
        """A board goes on without a list that can't be read, and without a line in the log."""
        source = ResultsSource(self.path("cup"))
        os.remove(self.path("cup", "entries.csv"))
        os.mkdir(self.path("cup", "entries.csv"))
        self.assertEqual(source.boats(), {})
        self.assertEqual(source.notes["names"], f"No names are shown: {self.path('cup', 'entries.csv')} can't "
                         "be read: Is a directory")
        os.mkdir(self.path("cup", "office.log"))
        source.log("came")
        self.assertEqual(source.notes["log"], "office.log can't be written: Is a directory")

    def test_pages(self) -> None:
        """A folder that can't be made and a page that can't be removed are said."""
        files = Files(self.path("pages"), Site([]))
        self.write("", "pages")
        with self.assertRaisesRegex(Trouble, "pages/cup can't be made: Not a directory$"):
            files.put("/cup/index.html", b"")
        os.remove(self.path("pages"))
        files.put("/cup/results.json", b"{}")
        files.put("/cup/race-1.html", b"")
        with mock.patch("raceoffice.results.html.page.is_ours", return_value=True), \
                mock.patch.object(files.site, "texts", return_value={"/cup/results.json": ("", b"{}")}), \
                mock.patch("os.remove", side_effect=PermissionError(13, "Permission denied")), \
                self.assertRaisesRegex(Trouble, "race-1.html can't be removed: Permission denied$"):
            files.write()

    def test_folder_that_is_no_page(self) -> None:
        os.mkdir(self.path("race-1.html"))
        self.assertFalse(is_ours(self.path("race-1.html")))

    def test_lists(self) -> None:
        """A list with which the program makes no journal is said, as it is for the table."""
        program = Program(Folder(self.path("cup")))
        self.write("Sail\nGBR 7\nGBR7\n", "cup", "entries.csv")
        with self.assertRaisesRegex(Trouble, "^entries.csv, row 3: "):
            program.begin()
        with self.assertRaisesRegex(Trouble, "^entries.csv, row 3: "):
            program.table([])

    def test_rules_of_another_kind(self) -> None:
        """With corrected times the journal gives no table for rules without them, and nobody is moved."""
        self.write(journal_of(self.path("cup"), "FINISH 1 GBR7", "SCORE 1"), "cup", "journal.txt")
        folder = Folder(self.path("cup"))
        self.assertNotEqual(changes_of_rules(folder, ["--absent", "a53", "--exclude", "none"]), None)
        self.assertEqual(changes_of_rules(folder, ["--handicap"]), [])


class Systems(unittest.TestCase):
    def test_no_network(self) -> None:
        """Without a network a board has the address of its own computer."""
        with mock.patch("socket.socket.connect", side_effect=OSError(101, "Network is unreachable")), \
                mock.patch("raceoffice.system.addresses_in_networks", return_value=["127.0.0.1", "127.0.1.1"]):
            self.assertEqual(http_answers.addresses(), ["127.0.0.1"])
        with mock.patch("builtins.open", side_effect=FileNotFoundError), \
                mock.patch("socket.socket.connect", side_effect=OSError(101, "Network is unreachable")):
            self.assertEqual(http_answers.addresses(), ["127.0.0.1"])

    def test_door(self) -> None:
        """Who leaves before they are let in is forgotten, and another fault of the door is noted."""
        notes: list[str] = []
        listener = server.Listener("127.0.0.1", 0, http_answers.Board(), notes.append)
        self.addCleanup(listener.door.close)

        async def let_in(end: OSError) -> None:
            loop = asyncio.get_running_loop()
            with mock.patch.object(loop, "sock_accept", side_effect=[end, asyncio.CancelledError]), \
                    mock.patch.object(server, "MOMENT", 0.0):
                await listener.serve()

        for end, count in ((ConnectionAbortedError(), 0), (OSError(24, "Too many open files"), 1)):
            with self.assertRaises(asyncio.CancelledError):
                asyncio.run(let_in(end))
            self.assertEqual(len(notes), count)
        self.assertIn("Too many open files", notes[0])

    def test_ports(self) -> None:
        with mock.patch("socket.create_server", side_effect=PermissionError(13, "Permission denied")), \
                self.assertRaisesRegex(Trouble, "^this account may not use port 80: take one from 1024 on"):
            server.door_at("", 80)
        with socket.create_server(("127.0.0.1", 0)) as taken:
            port = taken.getsockname()[1]
            with self.assertRaisesRegex(Trouble, f"port {port}"):
                server.door_at("127.0.0.1", port)

    def test_commit(self) -> None:
        """Nobody knows the commit without git, or if git doesn't end; a release has it in a file."""
        with mock.patch("os.path.exists", return_value=True):
            for cause in (FileNotFoundError(), subprocess.TimeoutExpired("git", 10.0)):
                with mock.patch("subprocess.run", side_effect=cause):
                    self.assertEqual(version.version_text(), f"raceoffice {version.VERSION}")
        with mock.patch("os.path.exists", return_value=False):
            self.assertEqual(version.commit(), "")
        with mock.patch("pathlib.Path.is_file", return_value=True), \
                mock.patch("pathlib.Path.read_text", return_value="30cd1c540b52\n"):
            self.assertEqual(version.version_text(), f"raceoffice {version.VERSION}, commit 30cd1c540b52")

    def test_no_role(self) -> None:
        """Who never says whose lines these are doesn't come to be the scorer."""
        with mock.patch("raceoffice.commands.type.typed", side_effect=["", "x", "boat", "", ""]) as asked, \
                self.assertRaisesRegex(Trouble, "^no role was given$"):
            asked_role()
        self.assertEqual(asked.call_count, 5)

    def test_another_table(self) -> None:
        """What explains another table than the one that is shown explains nothing, nor does what is no document."""
        journal = [f"1 {number} SCORER {line}" for number, line in
                   enumerate(("ENTER A", "ENTER B", "FINISH 1 A", "FINISH 1 B", "SCORE 1"), 1)]
        table = ["TABLE 2 RACES 1", "1 A 1.0 1.0", "2 B 2.0 2.0"]
        found = explanation.explanation_of(helpers.PROGRAM, [], journal, Standing.read(table))
        self.assertEqual((found.last_entry, found.course), (5, ({"A": (1, False), "B": (2, False)},)))
        right = json.loads(explanation.explained(helpers.PROGRAM, [], journal), parse_float=str)
        for other in ([*table[:2], "2 B 2.1 2.1"], [*table[:2], "1= B 2.0 2.0"], ["TABLE 1 RACES 1", table[1]],
                      ["TABLE 2 RACES 1", "1 B 2.0 2.0", "2 A 1.0 1.0"]):
            with self.assertRaisesRegex(NoTable, "^the program explains another table$"):
                explanation.explanation_of(helpers.PROGRAM, [], journal, Standing.read(other))
        odd = [{**right, key: [value]} for key, value in (("boats", 1), ("neighbours", {"rule": "A9"}), ("after_each", {}))]
        for text in ("", "{", "7", "[]", "{}", *map(json.dumps, odd)):
            with mock.patch.object(explanation, "explained", return_value=text), \
                    self.assertRaisesRegex(NoTable, "^the program explains another table$"):
                explanation.explanation_of(helpers.PROGRAM, [], journal, Standing.read(table))


if __name__ == "__main__":
    unittest.main()
