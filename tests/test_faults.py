"""A fault of a tool itself is one sentence, its trace is in a file, and boards and windows go on."""
from __future__ import annotations

import glob
import os
import subprocess
import tempfile
import unittest
from unittest import mock

import helpers
from raceoffice import exit_status, traces
from raceoffice.commands import board
from raceoffice.errors import Fault, Trouble
from raceoffice.office.window import OfficeWindow
from raceoffice.results.publish import Files, Site
from raceoffice.results.source import ResultsSource
from raceoffice.series.folder import Folder
from raceoffice.typing_window import batch
from raceoffice.typing_window.window import Window


class Odd(Exception):
    """An exception that a loop knows."""


def broken(*_words: object) -> None:
    raise IndexError("list index out of range")


class Guarded(helpers.Series):
    def setUp(self) -> None:
        super().setUp()
        self.folder = os.path.join(self.here, "cup")
        self.faults = os.path.join(self.folder, "office", "faults.txt")
        traces.WRITTEN.clear()

    def fault(self, folder: str) -> str:
        with self.assertRaises(Fault) as raised, traces.guarded(folder):
            broken()
        return str(raised.exception)

    def test_trace(self) -> None:
        """The trace is in the series' folder, once, and lets in this account alone."""
        Folder(self.folder).make_private()
        for _ in range(3):
            self.assertEqual(self.fault(self.folder),
                             f"raceoffice has a fault, IndexError; its trace is in {self.faults}. "
                             "Send that to whoever gave you raceoffice")
        text = self.text("cup", "office", "faults.txt")
        self.assertEqual(text.count("IndexError: list index out of range"), 1)
        self.assertIn("in broken", text)
        self.assertEqual(os.stat(self.faults).st_mode & 0o777, 0o600)

    def test_no_folder(self) -> None:
        """Without a folder that takes it the trace is in a temporary file; without one it is said."""
        for folder in ("", self.folder, "/nowhere"):
            traces.WRITTEN.clear()
            with mock.patch("tempfile.tempdir", self.here):
                said = self.fault(folder)
            path = said.partition("its trace is in ")[2].partition(". Send")[0]
            self.assertTrue(path.startswith(self.here), said)
            self.assertIn("IndexError", self.text(path))
            os.remove(path)
        traces.WRITTEN.clear()
        with mock.patch("tempfile.mkstemp", side_effect=OSError):
            self.assertIn("its trace couldn't be written", self.fault(""))

    def test_passed(self) -> None:
        """A Trouble stays as it is, and so does an exception that is named; Ctrl-C is no fault."""
        for kind in (Trouble, Odd, KeyboardInterrupt):
            with self.assertRaises(kind) as raised, traces.guarded(self.folder, Odd):
                raise kind("why")
            self.assertNotIsInstance(raised.exception, Fault)

    def test_statuses(self) -> None:
        """What a tool's work comes to."""
        told: list[str] = []

        def raises(kind: type[BaseException]) -> int:
            raise kind("why")

        with mock.patch("tempfile.tempdir", self.here), mock.patch("raceoffice.exit_status.say", told.append), \
                mock.patch("os.dup2"):
            for work, status in [(lambda: 0, 0), (lambda: 3, 3), (lambda: raises(Trouble), 5),
                                 (lambda: raises(ValueError), 5), (lambda: raises(KeyboardInterrupt), 130),
                                 (lambda: raises(BrokenPipeError), 5)]:
                self.assertEqual(exit_status.status_of(work, "", told.append, 5), status)
        self.assertEqual((told[0], told[2]), ("why.", ""))
        self.assertIn("raceoffice has a fault, ValueError; its trace is in", told[1])

    def test_full(self) -> None:
        """What is said and can't be written is no fault: one sentence says why."""
        for words in (["check", "cup"], ["verify", "no.html", "--json", "--program", helpers.PROGRAM]):
            with open("/dev/full", "wb") as full:
                done = subprocess.run([*helpers.COMMAND, *words], cwd=self.here, stdout=full,
                                      stderr=subprocess.PIPE, text=True)
            self.assertEqual(done.stderr, "what is said can't be written: No space left on device.\n")
            self.assertNotEqual(done.returncode, 0)
        self.assertFalse(os.path.exists(self.faults))

    def test_removed_folder(self) -> None:
        """A command that is typed in a folder that was removed says so."""
        here = os.path.join(self.here, "gone")
        os.mkdir(here)
        done = subprocess.run(["sh", "-c", 'rmdir "$0" && exec "$@"', here, *helpers.COMMAND, "check", "cup"], cwd=here,
                              capture_output=True, text=True)
        self.assertEqual((done.stdout, done.returncode), ("the folder in which this was typed isn't there any more.\n", 1))

    def test_board(self) -> None:
        """A board goes on after a fault in what it reads and in what it makes, and shows the others."""
        self.make("other")
        with mock.patch("raceoffice.commands.board.say") as said:
            sources = [ResultsSource(os.path.join(self.here, name)) for name in ("cup", "other")]
            shown = board.Shown(sources, [Files(os.path.join(self.here, "out"), Site(sources))], None)
            self.assertTrue(shown.look())
            for place in ("raceoffice.results.source.entry_list.read", "raceoffice.results.publish.one_race",
                          "raceoffice.results.publish.results_csv", "raceoffice.results.snapshot.Snapshot.ties"):
                with mock.patch(place, side_effect=IndexError):
                    for source in sources:
                        source.due, source.view = 0.0, None
                    shown.look("10:00:00 ")
            for source in sources:
                source.due = 0.0
            with mock.patch.object(sources[0], "look", side_effect=KeyError):
                self.assertFalse(shown.look())
            self.assertEqual([source.view is not None for source in sources], [True, True])
            for source in sources:
                source.due = 0.0
            self.assertTrue(shown.look())
        self.assertIn("raceoffice has a fault, KeyError", "\n".join(str(call) for call in said.mock_calls))

    def test_office(self) -> None:
        """The office's window goes on."""
        Folder(self.folder).make_private()
        office_window = OfficeWindow(Folder(self.folder))
        with mock.patch.object(office_window, "beware") as said, \
                mock.patch.object(office_window, "look", broken), \
                mock.patch.object(office_window, "service") as service:
            service.is_over.return_value = False
            self.assertTrue(office_window.goes_on())
        self.assertIn("raceoffice has a fault, IndexError", str(said.mock_calls))

    def test_window(self) -> None:
        """The window of somebody who types goes on, and names the line."""
        self.open()
        window = self.client("cup", "--role", "finish")
        window.say("race 1", "> $")
        typist = Window([Folder(self.folder)], "FINISH", "")
        with mock.patch("raceoffice.typing_window.window.say") as said, mock.patch.object(typist, "do",
                                                                                          broken):
            self.assertEqual(typist.refused("finish 1 gbr 7"), "since this window has a fault")
        self.assertRegex(str(said.mock_calls),
                         "Beware: raceoffice has a fault, IndexError; .*is in the journal: finish 1 "
                         "gbr 7")
        with mock.patch("raceoffice.typing_window.window.say") as said, mock.patch.object(typist, "take_news",
                                                                                          broken):
            typist.take_news_safely()
        self.assertIn("Beware: raceoffice has a fault, IndexError", str(said.mock_calls))


class Ends(helpers.Series):
    """How tools end."""

    def test_no_reader(self) -> None:
        """Whoever reads only the first line sees no page of Python."""
        self.write(helpers.ENTRIES, "cup", "entries.csv")
        for words in (["check", "cup", *["cup"] * 20], ["export", "cup", "--text"],
                      ["decisions", "show", "cup"], ["new", "x"], ["verify", *["series.ini"] * 50]):
            with tempfile.TemporaryFile() as fault:
                tool = subprocess.Popen([*helpers.COMMAND, *words],
                                        cwd=self.here, stdin=subprocess.DEVNULL, stdout=subprocess.PIPE,
                                        stderr=fault)
                assert tool.stdout
                tool.stdout.close()
                tool.wait(helpers.PATIENCE)
                fault.seek(0)
                self.assertEqual((fault.read(), tool.returncode != 0), (b"", True), words)

    def test_ctrl_c(self) -> None:
        """Ctrl-C ends each tool without a page of Python, and with the usual status."""
        self.write('#!/bin/sh\necho x > started\nexec sleep 1000\n', "slow")
        os.chmod(os.path.join(self.here, "slow"), 0o755)
        self.make("held", program=os.path.join(self.here, "slow"))
        self.write("1 1 SCORER ENTER A\n", "held", "journal.txt")
        page = os.path.join(self.here, "page.html")
        helpers.run("export", "cup", "--html", page, cwd=self.here)
        for words in (["export", "held", "--text"], ["check", "held"], ["decisions", "held"],
                      ["verify", page, "--program", os.path.join(self.here, "slow")]):
            started = glob.glob(os.path.join(self.here, "**", "started"), recursive=True)
            for path in started:
                os.remove(path)
            window = self.window(*words)
            helpers.until("the program", lambda: glob.glob(os.path.join(self.here, "**", "started"),
                                                           recursive=True))
            window.press()
            said, status = window.rest()
            self.assertNotIn("Traceback", said)
            self.assertEqual(status, 130, words)

    def test_words(self) -> None:
        """A word that isn't UTF-8 is refused, or written without what isn't."""
        said, status = helpers.run("type", "cup", "--role", "finish", "--name", "E\udcffva", cwd=self.here)
        self.assertEqual((status, "--name: it isn't UTF-8 text" in said), (2, True), said)
        said, status = helpers.run("final", "cup", "An appeal \udcff\x1b[2Kwas upheld", cwd=self.here)
        self.assertEqual((said, status), ("The results of cup are final: An appeal [2Kwas upheld.\n", 0))

    def test_separators_alone(self) -> None:
        """A list of separators alone names nobody, and ends no window and no board."""
        self.open()
        self.write(";;;\n;;\n", "cup", "entries.csv")
        window = self.client("cup", "--role", "finish")
        self.assertIn("GBR101", window.say("finish 1 gbr 101", r"OK 8 (.|\n)*> $") + window.say("race 1",
                                                                                                "> $"))
        for words in (["check", "cup"], ["export", "cup", "--text"],
                      ["board", "cup", "--page", "out", "--once"], ["decisions", "cup"]):
            said, _ = helpers.run(*words, cwd=self.here)
            self.assertNotIn("Traceback", said)
            self.assertNotIn("has a fault,", said)
        self.assertIn("GBR101", self.text("out", "index.html"))
        os.remove(os.path.join(self.here, "cup", "entries.csv"))
        os.mkdir(os.path.join(self.here, "cup", "entries.csv"))
        other = self.client("cup", "--role", "finish")
        self.assertIn("GBR101", other.say("race 1", "> $"))
        self.make("new")
        for data in (b"", b"\t\n", b"PK\3\4", b"\xff\xfe", b"Sail;Helm\n;\n"):
            with open(os.path.join(self.here, "new", "entries.csv"), "wb") as file:
                file.write(data)
            said, status = helpers.run("check", "new", cwd=self.here)
            self.assertEqual((status, "Traceback" in said), (1, False), said)

    def test_lines_of_a_file(self) -> None:
        """A sign that ends a line nowhere else doesn't make two lines of one, and nothing is sent."""
        for sign in ("\x0b", "\x0c", "\x85", "\u2028"):
            with self.assertRaisesRegex(Trouble, "line 2 has the sign .*Nothing was sent"):
                batch.lines_of(f"FINISH 1 GBR7\r\nFINISH 1 NED12{sign}SCORE 1\n".encode())
        self.assertEqual(batch.lines_of(b"\xef\xbb\xbfA\rB\r\nC"), ["A", "B", "C"])

    def test_pipes_in_the_way(self) -> None:
        """Pipes that somebody has put where files should be hold up no board."""
        for names in (("cup", "decisions.txt"), ("cup", "office.log"), ("out", "cup", "race-3.html")):
            path = os.path.join(self.here, *names)
            os.makedirs(os.path.dirname(path), exist_ok=True)
            os.mkfifo(path)
            said, _ = helpers.run("board", "cup", "--page", "out", "--once", cwd=self.here)
            self.assertNotIn("Traceback", said)
            os.remove(path)

    def test_named_like_a_page(self) -> None:
        """A series whose folder has a page's name is told to change it, before anything is shown."""
        for name in ("index.html", "now.json"):
            self.make(name)
            said, status = helpers.run("board", name, "--page", "out", "--once", cwd=self.here)
            self.assertEqual((said, status), (f"a page is called {name}, too: give that folder another "
                                              "name.\n", 1))
        self.assertFalse(os.path.exists(os.path.join(self.here, "out")))


if __name__ == "__main__":
    unittest.main()
