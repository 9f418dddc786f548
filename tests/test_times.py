"""Corrected times: the tool over the program, beside the journal and its office."""
from __future__ import annotations

import contextlib
import io
import os
import re
import unittest
from collections.abc import Iterator, Sequence
from unittest import mock

import helpers

from raceoffice.corrected import times
from raceoffice.errors import Trouble
from raceoffice.program.find import found_program
from raceoffice.program.link import Link
from raceoffice.program.replay import Line
from raceoffice.series.folder import Folder

RATED = """\
Boat,Sail,Rating,Rating from 3
Kestrel,GBR 101,1103,1100
Sea Pink,GBR 7,985,985
Windhover,NED 12,1150,1150
Plover,FRA 9,,
"""
SHEET = "Sail,Start,Finish\nGBR 101,14:05:00,15:07:31\nGBR 7,,15:03:12\nNED 12,,15:09:40\n"
RULES = "[times]\nsystem = py\n"


@contextlib.contextmanager
def only_file(there: str) -> Iterator[None]:
    """As if this were the only file, and could be run."""
    with mock.patch("os.path.isfile", lambda path: os.path.normpath(path) == there), \
            mock.patch("os.access", return_value=True), mock.patch("shutil.which", return_value=None):
        yield


@helpers.needs_times
class Times(helpers.Series):
    """A series `club` by corrected time, with a sheet of race 1."""

    def setUp(self) -> None:
        super().setUp()
        self.make("club", RATED, handicap="yes")
        os.mkdir(os.path.join(self.here, "club", "times"))
        self.rules(RULES)
        self.sheet(1, SHEET)

    def rules(self, text: str) -> None:
        self.write(f"{text}program = {helpers.TIMES}\n", "club", "times", "rules.ini")

    def sheet(self, race: int, text: str) -> None:
        self.write(text, "club", "times", f"race-{race}.csv")

    def said(self, *words: str, lines: str = "", status: int = 0) -> str:
        text, found = helpers.run("times", "club", *words, lines=lines, cwd=self.here)
        self.assertEqual(found, status, text)
        return text

    def journal(self, *lines: str) -> None:
        boats = [f"1 {at} SCORER ENTER {sail}" for at, sail in
                 enumerate(["GBR101", "GBR7", "NED12", "FRA9"], 1)]
        rest = [f"1 {at} SCORER {line}" for at, line in enumerate(lines, 5)]
        self.write("\n".join(["REGATTA 2", *boats, *rest, ""]), "club", "journal.txt")

    def test_shown(self) -> None:
        """The sums, the exact times and the lines, without an office."""
        said = self.said("1")
        for line in ["Race 1, Portsmouth Yardstick, to the nearest second, halves up",
                     r" GBR101 +3751 \* 1000 / 1103 +3400\.7252 +3401 +0:56:41 +new",
                     "3 boats, 3 lines.", "TIME 1 GBR101 3401\nTIME 1 GBR7 3545\nTIME 1 NED12 3374\n"]:
            self.assertRegex(said, line)

    def test_compared(self) -> None:
        """Times that stand need no line, others are struck, and a boat without a row is named."""
        self.journal("TIME 1 GBR101 3401", "TIME 1 GBR7 3600", "TIME 1 FRA9 4000", "SCORE 1")
        said = self.said("1")
        for line in ["GBR101 .*stands", "GBR7 .*stood as 3600: struck and timed again", "NED12 .*new",
                     "FRA9 +isn't in the sheet, and stands as 4000",
                     "4 boats, 3 lines. Race 1 counts: its results will change.",
                     "STRIKE 1 GBR7\nTIME 1 GBR7 3545\nTIME 1 NED12 3374\n$"]:
            self.assertRegex(said, line)

    def test_sent(self) -> None:
        """Lines are sent after a question, and a second run has none."""
        self.open("club")
        self.assertIn("Not sent.", self.said("1", "--send", lines="n\n", status=1))
        said = self.said("1", "--send", lines="y\n")
        self.assertRegex(said, r"TIME 1 GBR101 3401 +OK 5 ")
        self.assertIn("3 boats, no lines.", self.said("1", "--send"))
        self.assertIn("\ttimes\t\tSCORER\tTIME 1 GBR7 3545\tOK 6 ", self.text("club", "office.log"))

    def test_typed_meanwhile(self) -> None:
        """Nothing is sent if somebody types before the answer: one of the lines may be theirs."""
        self.open("club")
        window = self.window("times", "club", "1", "--send")
        window.read(r"Send them\? \[y/N\] $")
        with contextlib.closing(Link(os.path.join(self.here, "club", "office", "race.sock"))) as link:
            link.ask("TIME 1 GBR7 3545")
        window.type("y")
        self.assertEqual(window.rest(), ("Somebody else has typed meanwhile. Nothing was sent: send again.\n", 1))
        self.assertEqual(self.held("club"), 5)

    def test_left_out(self) -> None:
        """A row of a boat that isn't entered is left out, whether or not she is in the list, and the rest is sent."""
        self.write(RATED + "Curlew,IRL 5,1000,1000\n", "club", "entries.csv")
        self.journal()
        self.open("club")
        self.sheet(1, "Sail,Elapsed\nIRL 6,DNF\nGBR 7,3600\nIRL 5,3700\nNED 12,3800\nIRL 7,3900\n")
        said = self.said("1", "--send", lines="y\n")
        for line in [*(f"{sail} +- +not entered: her row is left out" for sail in ("IRL5", "IRL6", "IRL7")), "5 boats, 2 lines",
                     "TIME 1 GBR7 3655 +OK 5 ", "TIME 1 NED12 3304 +OK 6 "]:
            self.assertRegex(said, line)

    def test_refused(self) -> None:
        """A line that the office refuses keeps back those of her boat in that race alone; all that weren't taken are named at
        the end. If the office goes, the rest isn't sent."""
        self.open("club")
        with contextlib.closing(times.Times(os.path.join(self.here, "club"))) as series:
            lines = [Line("SCORER", line) for line in ("STRIKE 1 GBR7", "TIME 1 GBR7 3600", "TIME 2 GBR7 3600", "TIME 1 NED12 3500")]
            told: list[tuple[str, str]] = []
            left = series.send_each(lines, lambda line, answer: told.append((line.text, answer)))
            self.assertEqual(left, lines[:2])
            self.assertEqual([line for line, _ in told], ["STRIKE 1 GBR7", "TIME 2 GBR7 3600", "TIME 1 NED12 3500"])
            self.assertEqual([answer[:5] for _, answer in told[1:]], ["OK 5 ", "OK 6 "])
            self.stop("club")
            with mock.patch("raceoffice.series.sender.say") as say:
                self.assertEqual(series.send_each(lines, lambda *_: None), lines)
            self.assertEqual(say.call_count, 1)

    def test_some_refused(self) -> None:
        """Somebody else's strike comes between: the tool says which line wasn't taken, and ends with a failure."""
        self.journal("TIME 1 GBR7 3600")
        self.open("club")
        reply = times.Times.reply

        def replied(series: times.Times, line: Line) -> str:
            if line.text == "STRIKE 1 GBR7":
                reply(series, line)
            return reply(series, line)
        with mock.patch.object(times.Times, "reply", replied), mock.patch("raceoffice.corrected.times.question", return_value=True), \
                contextlib.redirect_stdout(io.StringIO()) as said:
            self.assertEqual(times.correct(os.path.join(self.here, "club"), "1", True), 1)
        self.assertRegex(said.getvalue(), "STRIKE 1 GBR7 +she, or the other boat, isn't in (.|\n)*TIME 1 NED12 3374 +OK (.|\n)*2 lines not taken:\n"
                                          "   STRIKE 1 GBR7\n   TIME 1 GBR7 3545\n$")

    def test_all_races(self) -> None:
        """All sheets are taken, each with the ratings that hold in its race."""
        self.sheet(3, SHEET)
        said = self.said("all")
        self.assertRegex(said, r"3751 \* 1000 / 1103(.|\n)*3751 \* 1000 / 1100")
        self.assertRegex(said, "TIME 1 GBR101 3401\n(.|\n)*TIME 3 GBR101 3410\n")

    def test_codes(self) -> None:
        """A code in the column of a time is a line of its own, or the jury's; an empty row is named."""
        self.write(RATED + "Curlew,IRL 5,1000,1000\nDunlin,IRL 55,1000,1000\n", "club", "entries.csv")
        self.journal("ENTER IRL5", "ENTER IRL55", "TIME 1 FRA9 4000", "MARK 1 NED12 RET", "MARK 1 IRL55 DSQ")
        self.write(self.text("club", "journal.txt").replace("SCORER MARK 1 IRL55", "JURY MARK 1 IRL55"),
                   "club", "journal.txt")
        self.sheet(1, "Sail;Start;Finish;Elapsed\nIRL 5;14:05;dnf;\nGBR 101;;15:07:31;\nFRA 9;;;OCS\n"
                      "NED 12;;RET;\nGBR 7;;;\nIRL 55;;DNF;\n")
        said = self.said("1")
        for line in [r"GBR101 +3751 \* 1000 / 1103 +3400\.7252 +3401 .* new", "IRL5 +DNF +new",
                     "FRA9 +OCS +new",
                     "NED12 +RET +stands", "GBR7 +- +no time and no code in the sheet",
                     "IRL55 +DNF +the jury gave DSQ", "6 boats, 4 lines.",
                     "TIME 1 GBR101 3401\nMARK 1 IRL5 DNF\nMARK 1 FRA9 OCS\nSTRIKE 1 FRA9\n$"]:
            self.assertRegex(said, line)
        self.sheet(1, "Sail,Elapsed,Code\nGBR 7,3600,ret\nNED 12,3700,\nFRA 9,,DSQ\n")
        said = self.said("1")
        for line in ["NED12 .*new; she holds RET", "GBR7 +RET +new", "FRA9 +DSQ +the jury types this code",
                     "TIME 1 NED12 3217\nMARK 1 GBR7 RET\n$"]:
            self.assertRegex(said, line)

    def test_no_boat_finished(self) -> None:
        """A sheet in which each boat has a code needs no rating, and has no time."""
        self.write("Sail\nGBR 7\nNED 12\n", "club", "entries.csv")
        self.sheet(1, "Sail,Elapsed\nGBR 7,DNF\nNED 12,RET\n")
        said = self.said("1")
        self.assertIn("2 boats, 2 lines.", said)
        self.assertTrue(said.endswith("MARK 1 GBR7 DNF\nMARK 1 NED12 RET\n"), said)

    def test_codes_sent(self) -> None:
        """A boat that has no time any more has a code, and never neither of both."""
        self.open("club")
        self.said("1", "--send", lines="y\n")
        self.sheet(1, SHEET.replace("15:03:12", "DNF"))
        said = self.said("1", "--send", lines="y\n")
        self.assertRegex(said, r"MARK 1 GBR7 DNF +OK 8 (.|\n)*STRIKE 1 GBR7 +OK 9 ")
        self.assertIn("3 boats, no lines.", self.said("1", "--send"))

    def test_forms(self) -> None:
        """Semicolons, tabs, decimal commas, headings of other languages, and starts without seconds."""
        wanted = self.said("1").partition("sail")[2]
        for sheet in (SHEET.replace(",", ";"), SHEET.replace(",", "\t"), SHEET.replace("14:05:00", "14:05"),
                      SHEET.replace("Sail,Start,Finish", "Segelnummer,Startzeit,Zielzeit"),
                      SHEET.replace("Sail,Start,Finish", "N° de voile,Heure de départ,Heure d'arrivée")):
            self.sheet(1, sheet)
            self.assertEqual(self.said("1").partition("sail")[2], wanted, sheet)
        self.write(RATED.replace("Rating,", "PY,").replace("Rating from 3", "PY from 3").replace(",", ";"),
                   "club", "entries.csv")
        self.assertEqual(self.said("1").partition("sail")[2], wanted)
        self.rules("[times]\nsystem = tcf\n")
        self.write("Sail;TCF\nGBR 101;1,103\nGBR 7;0,985\nNED 12;1,150\n", "club", "entries.csv")
        self.assertIn("3751 * 11030 / 10000", self.said("1"))
        self.rules("[times]\nsystem = tod\n")
        self.write("Sail;Rating\nGBR 101;12,5\n", "club", "entries.csv")
        self.sheet(1, "Sail;Elapsed;Distance\nGBR 101;1:02:31;6,25\n")
        self.assertIn("3751 - 1250 * 625 / 10000", self.said("1"))

    def test_carried(self) -> None:
        """What is empty is that of the row above, also of a boat without a time."""
        self.sheet(1, "Sail,Start,Finish,Laps\nGBR 101,14:05:00,DNF,2\nGBR 7,,15:03:12,\n")
        self.assertRegex(self.said("1"), r"GBR7 +3492 \* 2 \* 1000 / 2 / 985 ")

    def test_columns_left(self) -> None:
        """A column that nothing reads is named: its heading may be one that isn't known. Those of entry lists aren't."""
        self.sheet(1, "Sail,Helm,Boat,Club,Rating,Elapsed,Laps,Notes\nGBR 7,x,y,z,985,3600,3,\n")
        self.assertIn("\nNot read: Notes.\n1 boat", self.said("1"))
        self.sheet(1, "Sail;Helm;Elapsed;Rounds;;Elapsed\nGBR 7;x;3600;3;late;\n")
        self.assertIn("\nNot read: Rounds, column 5 and Elapsed.\n", self.said("1"))
        self.sheet(1, SHEET)
        self.assertNotIn("Not read", self.said("1"))

    def test_faults(self) -> None:
        """A fault of a list, a sheet or the rules is said with its row, and with its column."""
        for sheet, wanted in [
                ("Sail,Elapsed\nGBR 7,RET\n\nFRA 9,3600\n", "times/race-1.csv, row 4: FRA9 has no rating"),
                ("Sail,Start,Finish\nGBR 7,14:00:00,13:00:00\n", "row 2: GBR7 finishes before she starts"),
                ("Sail,Elapsed\nGBR 7,3600\nGBR7,DNF\n", "row 3: GBR7 is in row 2, too"),
                ("Boat,Elapsed\nX,3600\n", "row 1: no column of sails"),
                ("Sail,Time\nX,3600\n", "row 1: no column of times, as Elapsed, or Start and Finish"),
                (";;\n", "race-1.csv is empty"),
                ("Sail,Elapsed\nGBR 7,999999\nNED 12,1:99\n",
                 "row 3, column Elapsed: '1:99' isn't an elapsed"),
                ("Sail;Start;Ziel\nGBR 7;14:05;15:07\n",
                 "row 2, column Ziel: '15:07' isn't a time of the clock with its seconds, as 15:07:31"),
                ("Sail,Start,Finish\nGBR 7,24:00:00,15:07:00\n", "row 2, column Start: '24:00:00' isn't"),
                ("Sail,Elapsed,Laps\nGBR 7,3600,0\n", "row 2, column Laps: '0' isn't laps from 1 to 99"),
                ("Sail,Elapsed,Distance\nGBR 7,3600,1.234\n", "row 2, column Distance: '1.234' isn't"),
                ("Sail,Elapsed\nGBR/7,3600\n", 'row 2: the sail "GBR/7" has a slash'),
                ("Sail,Start,Finish,Code\nGBR 7,14:00:00,DNF,DNF\nNED 12,,DNF,ocs\n",
                 "row 3: DNF and OCS are two codes, and a sheet has one of a boat"),
                ("Sail,Elapsed,Notes\nGBR 7,3600,\"late\nNED 12,3700,\nGBR 101,3800,\n",
                 "times/race-1.csv, row 2: a quotation mark isn't closed where its cell ends"),
                ("Sail,Elapsed\nGBR 7,RAF\n", "row 2: RAF is neither a time nor a code"),
                ("Sail,Elapsed\nGBR 7,TLE\n", "row 2: TLE isn't for a sheet of times")]:
            self.sheet(1, sheet)
            self.assertIn(wanted, self.said("1", status=1))
        self.sheet(1, "Sail,Elapsed\nGBR 101,3600\n")
        for listed, wanted in [(RATED.replace("985,", "9.85,"),
                                "entries.csv, row 3: the rating isn't one of"),
                               ("Sail,TCF\nGBR 101,1\n",
                                "entries.csv, row 1: no column of ratings. It is headed "
                                                         "Rating or PY"),
                               (";\n", "entries.csv is empty")]:
            self.write(listed, "club", "entries.csv")
            self.assertIn(wanted, self.said("1", status=1))

    def test_rules(self) -> None:
        """Every rule is checked, by the parser of series.ini, and reaches the program."""
        for text, wanted in [("[times]\nsystem = yardstick\n", "system has to be tcf, py or tod"),
                             ("[times]\nsystem = py\nrounding = near\n", "rounding has to be"),
                             ("[times]\nsystem = py\novernight = yes\n", "overnight has to be"),
                             (f"[times]\nsystem = py\novernight = {'1' * 5000}\n", "overnight has to be"),
                             ("[times]\nsystem = py\nlaps = 3\n",
                              "times/rules.ini, line 3: [times] has no key 'laps'"),
                             ("[times]\nsystem : py\n", "times/rules.ini, line 2: 'system : py' has no =."),
                             ("[times]\nsystem = py\nsystem = tcf\n", "line 3: system is in line 2 already."),
                             ("[DEFAULT]\nsystem = py\n", "line 1: no section is called [DEFAULT]."),
                             ("[rules]\nsystem = py\n", "no section is called [rules]")]:
            self.rules(text)
            self.assertIn(wanted, self.said("1", status=1))
        self.rules("# ours\n[ times ]\n; system = tcf\nsystem = py\nrounding = down\novernight = 1\n")
        self.sheet(1, "Sail,Start,Finish\nGBR 101,23:30:00,0:32:31\n")
        said = self.said("1")
        self.assertIn("Race 1, Portsmouth Yardstick, rounded down, past midnight", said)
        self.assertIn("TIME 1 GBR101 3400", said)

    def test_places(self) -> None:
        """The program is found beside that of the series, above the series, or where it is built."""
        self.write(RULES, "club", "times", "rules.ini")
        folder = Folder(os.path.join(self.here, "club"))
        beside = os.path.join(os.path.dirname(helpers.PROGRAM), "times")
        built = os.path.join(helpers.TOP, "crates", "times", "out", "times")
        for place in (beside, os.path.join(self.here, "times"), os.path.join(helpers.TOP, "times"),
                      os.path.join(helpers.TOP, "raceoffice", "times"), built):
            with only_file(place):
                self.assertEqual(os.path.normpath(times.Rules.read(folder).program), place)
        for place in (os.path.join(helpers.TOP, "times"), built):
            with only_file(place):
                self.assertEqual(found_program("times"), place)
        with only_file(""):
            self.assertEqual(found_program("times"), "")
            self.assertEqual(times.Rules.read(folder).program, beside)
        self.rules(RULES)
        self.assertEqual(times.Rules.read(folder).program, helpers.TIMES)

    def test_path(self) -> None:
        """The PATH is looked through, except for folders that aren't named whole: a page may have come into those with a
        program of its own."""
        program = os.path.join(self.here, "bin", "regatta-times")
        os.mkdir(os.path.dirname(program))
        self.write("#!/bin/sh\n", program)
        os.chmod(program, 0o755)
        here = os.getcwd()
        self.addCleanup(os.chdir, here)
        os.chdir(os.path.dirname(program))
        for folders, found in ((f"/nowhere:{self.here}/bin", program), (".:/nowhere", ""), (f"../bin::{self.here}", "")):
            with mock.patch.dict("os.environ", PATH=folders), mock.patch("os.path.isfile", return_value=False):
                self.assertEqual(found_program("times"), found, folders)

    def test_no_times(self) -> None:
        """A program that can't be run, or is another, is said in a sentence."""
        for script, wanted in [("exit 0", "doesn't show sums: is it times?"), ("echo x", "is it times?"),
                               (f"echo RACE 1 half-up; echo 'A 1 -> {'9' * 5000}'", "is it times?")]:
            self.write(f"#!/bin/sh\n{script}\n", "other")
            os.chmod(os.path.join(self.here, "other"), 0o755)
            self.write(f"{RULES}program = ../other\n", "club", "times", "rules.ini")
            self.assertIn(wanted, self.said("1", status=1))
        self.write(f"{RULES}program = ../none\n", "club", "times", "rules.ini")
        self.assertIn("none can't be run: No such file or directory.", self.said("1", status=1))

    def test_other_series(self) -> None:
        """A series by finishing order has no corrected times, and a race is a number."""
        text, status = helpers.run("times", "cup", "1", cwd=self.here)
        self.assertEqual((status, "handicap = yes" in text), (1, True), text)
        self.assertIn("is no race", self.said("0", status=1))


class Sums(unittest.TestCase):
    """What a sum comes to, and which ratings hold."""

    def test_exact(self) -> None:
        for text, wanted in [("3751 * 1000 / 1103", "3400.7253"), ("3751 * 4 * 1000 / 3 / 1103", "4534.3004"),
                             ("3600 - 12050 * 625 / 10000", "2846.8750"),
                             ("3000 + 1200 * 625 / 10000", "3075.0000")]:
            self.assertEqual(f"{float(times.Time('A', text, 0).exact):.4f}", wanted)

    def test_headings(self) -> None:
        data = b"Sail,Rating,Rating from 5,RATING FROM 8\nA,1,5,8\n"
        found = [times.rated(data, "list.csv", race, "py").data for race in (1, 4, 5, 7, 8, 40)]
        self.assertEqual(found, [b"Sail,Rating\nA,%d\n" % rating for rating in (1, 1, 5, 5, 8, 8)])
        both = b"Sail,TCF,PY\nA,1,1100\n"
        self.assertEqual(times.rated(both, "list.csv", 1, "py").data, b"Sail,Rating\nA,1100\n")
        self.assertEqual(times.rated(both, "list.csv", 1, "tcf").data, b"Sail,Rating\nA,1\n")
        self.assertRaisesRegex(Trouble, "no column of ratings", times.rated, both, "list.csv", 1, "tod")

    def test_program(self) -> None:
        """Another program is no program of sums."""
        self.assertIn("nothing", times.program_fault("", "a", "b", {}))
        rows: dict[str, Sequence[int]] = {"ratings": [2, 4], "sheet": [7]}
        for row, wanted in [(2, 2), (3, 4), (1, 1), (9, 9)]:
            self.assertEqual(times.program_fault(f"times: ratings fault 8 row {row}: bad", "a", "b", rows),
                             f"b, row {wanted}: bad")
        self.assertTrue(re.fullmatch(times.SUM, "A 1 * 2 / 3 -> 4"))
        with self.assertRaises(Trouble):
            times.Rules.read(mock.Mock(file=lambda *names: "/nowhere"))


if __name__ == "__main__":
    unittest.main()
