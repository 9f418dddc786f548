"""What a file of a series may hold ends no web, and keeps nobody from recording a race: cells of a sheet of times, lines
of the register, the clock of the devices, the zone, the seats."""
from __future__ import annotations

import contextlib
import io
import itertools
import json
import os
import time
import unittest
from typing import Any
from unittest import mock

import helpers
from raceoffice.corrected.sheets import WIDEST, entries_of
from raceoffice.series.folder import Folder
from raceoffice.series.race_sheets import sheet_without_race, take_out_of_sheets
from raceoffice.series.read_list import Table, as_csv, bytes_of, table_of
from raceoffice.web.gate import Gate
from raceoffice.web.room import Room
from raceoffice.web.serving import Asked, Web as Served
from raceoffice.web.taps import LATEST, Register
from test_web_timed import Prepared, moment
from web_devices import Web, new_id

SHEET = ("cup", "times", "race-1.csv")
TAPS = ("cup", "office", "web.taps")
DEVICES = ("cup", "office", "web.json")
# What no part of a tap is.
ODD: list[Any] = [None, 7, -1, 1.5, [], {}, [7], [[]], [["a", "b", "c", 7]], [[7, 7]], [["SCORER", " "]], {"a": 7}, 10 ** 400,
                  LATEST + 1]


@helpers.needs_times
class Sheets(Prepared):
    def write_sheet(self, text: str) -> None:
        """Somebody has written the sheet of race 1, with these line ends."""
        with open(os.path.join(self.here, *SHEET), "w", encoding="utf-8", newline="") as file:
            file.write(text)

    def cells(self, sail: str) -> list[str]:
        """The cells of a boat's row, as they are read."""
        found, = [row for _, row in self.table().rows if row[0] == sail]
        return found

    def table(self) -> Table:
        """The sheet as it is read."""
        return table_of(bytes_of(os.path.join(self.here, *SHEET)))

    def need_sailed(self) -> None:
        """Race 1 begins and is sailed, and only what was tapped is recorded: 3,600 s x 0.900 and a code."""
        ann = self.device("finish")
        taps = [ann.tap("START 1 14:00"), ann.tap("FINISH 1 GBR7", at=moment("15:00:00")), ann.tap("MARK 1 NED12 DNF")]
        self.assertEqual([status for status, _ in taps], [200, 200, 200], taps)
        self.assertEqual(self.journal(), ["FINISH TIME 1 GBR7 3240", "FINISH MARK 1 NED12 DNF"])
        self.assertEqual(ann.state()["races"]["1"]["sheet"]["wrong"], [])

    def test_without_a_heading(self) -> None:
        """A remark to the right of the headings is no time and no code, even if it reads like one, and isn't lost."""
        for text in ("Sail,Finish\nGBR101,,protest\n", "Sail,Start,Finish\nGBR101,,,ret\n", "Sail;Start;Finish\nGBR101;;;;14:00\n",
                     "Sail,Start,Finish,Code\nGBR101,,,,5\n"):
            with self.subTest(text=text):
                self.write_sheet(text)
                self.need_sailed()
                note = text.rstrip().replace(";", ",").rpartition(",")[2]
                self.assertIn(note, self.cells("GBR101"))
                rows, wrong = entries_of(bytes_of(os.path.join(self.here, *SHEET)), "")
                self.assertEqual(([row.code for row in rows if row.sail == "GBR101"], wrong), ([""], []))
                self.undone()

    def undone(self) -> None:
        """The race is abandoned, so that it may be sailed again."""
        self.close()
        for name in ("journal.txt", "office.log", "times/race-1.csv", "office/web.taps", "office/places"):
            if os.path.exists(path := os.path.join(self.here, "cup", *name.split("/"))):
                os.remove(path)
        for name in os.listdir(kept := os.path.join(self.here, "cup", "kept")):
            os.remove(os.path.join(kept, name))
        self.serve()

    def test_ends_of_lines(self) -> None:
        """A cell with a line's end of either kind is one cell still, once the sheet was written."""
        notes = {"GBR101": "a\rb", "GBR7": "a\nb", "NED12": "a\r\nb", "FRA9": "\r"}
        self.write_sheet("Sail,Start,Finish,Code,Notes\n" + "".join(f'{sail},,,,"{note}"\n' for sail, note in notes.items()))
        self.need_sailed()
        self.assertEqual({sail: self.cells(sail)[4] for sail in notes}, notes)

    def test_title(self) -> None:
        """The rows above the headings stay, also once a race is abandoned, or a boat is taken out."""
        self.write_sheet('Race 1;"a\rb"\n\nRace committee: Bea\nSail;Start;Finish\nGBR101;;\n')
        self.need_sailed()
        folder, path = Folder(os.path.join(self.here, "cup")), os.path.join(self.here, *SHEET)
        begins = b'Race 1,"a\rb"\nRace committee: Bea\nSail,Start,Finish,Code\nGBR101,'
        self.assertEqual(bytes_of(path)[:len(begins)], begins)
        self.assertEqual(sheet_without_race(folder, 1, ())[:len(begins)], begins)
        take_out_of_sheets(folder, "NED12")
        self.assertEqual(bytes_of(path)[:len(begins)], begins)
        self.assertEqual([row[0] for _, row in self.table().rows], ["GBR101", "GBR7", "FRA9"])

    def test_wide(self) -> None:
        """However many separators a spreadsheet has put after the headings, a column that a tap adds is read again. A sheet
        with more columns than that is shown as one that can't be read."""
        self.write_sheet(f"Sail,Start,Finish{',' * 1100}\nGBR101,,{',' * 1100}\n")
        self.need_sailed()
        self.write_sheet(f"Sail,Start,Finish{',a' * WIDEST}\nGBR101,,\n")
        ann = self.device("finish")
        self.assertEqual(ann.tap("FINISH 1 FRA9", at=moment("15:00:00"))[0], 503)
        # Pages learn of a file that somebody has changed by the next news.
        ann.tap("START 2 14:00")
        self.assertEqual([one["kind"] for one in ann.state()["races"]["1"]["sheet"]["wrong"]], ["sheet-wide"])

    def test_short_rows(self) -> None:
        """A row that ends before the column of the sails is said to have none: no fault of the package."""
        self.write_sheet("Start,Finish,Sail\n14:00,,GBR7\n14:00\n")
        status, said = self.device("finish").tap("MARK 1 GBR101 DNF")
        self.assertEqual((status, said["said"][0]["kind"]), (503, "list-row"))
        self.assertFalse(os.path.exists(os.path.join(self.here, "cup", "office", "faults.txt")))

    def test_no_folder(self) -> None:
        """A link in place of times/ that leads nowhere, as to a stick that was pulled, is said."""
        times = os.path.join(self.here, "cup", "times")
        os.rename(times, f"{times}-away")
        os.symlink("nowhere", times)
        status, said = self.device("finish").tap("START 1 14:00")
        self.assertEqual((status, said["said"][0]["kind"]), (503, "file-unmade"), said)
        os.remove(times)
        os.rename(f"{times}-away", times)
        self.need_sailed()

    def test_lines_without_their_tap(self) -> None:
        """A rotten bit in what the register has of a tap, and not in its lines: the same tap again is answered."""
        ann, id = self.device("finish"), new_id()
        ann.tap("START 1 14:00")
        ann.tap("FINISH 1 GBR7", id, at=moment("15:00:00"))
        self.close()
        path = os.path.join(self.here, *TAPS)
        with open(path, encoding="utf-8") as file:
            lines = [line for line in file if json.loads(line)["id"] != id]
        with open(path, "w", encoding="utf-8") as file:
            file.writelines(lines)
        self.serve()
        self.assertEqual(ann.again().tap("FINISH 1 GBR7", id, at=moment("15:00:00"))[0], 200)
        self.assertEqual(self.journal(), ["FINISH TIME 1 GBR7 3240"])


class Lines(unittest.TestCase):
    def test_quoted(self) -> None:
        """What was written is read again, whatever signs a cell has."""
        rows = [["Sail", "Notes"], *([f"GBR{at}", note] for at, note in enumerate(
            ["\r", "a\rb", "\n", "\r\n", "a\n\rb", '"', ",", ";", "\t", "a\r", "'", "\x0b\x85\u2028"]))]
        table = table_of(as_csv(rows))
        self.assertEqual([table.heads, *(row for _, row in table.rows)], rows)
        self.assertEqual(as_csv([["a", "b c"], [""], ["d"]]), b'a,b c\n""\nd\n')


class Registers(Web):
    words = ("fleet", "cup")

    def prepare(self) -> None:
        self.make("fleet", "Sail\nNED 1\nNED 2\n")

    def test_parts_of_another_type(self) -> None:
        """Whatever a line of the register is, those before and after it count, and both classes are served."""
        ann, (first, last) = self.device("finish"), (new_id(), new_id())
        ann.tap("FINISH 1 GBR101", first)
        self.close()
        whole: dict[str, Any] = {"id": new_id(), "role": "FINISH", "line": "FINISH 2 GBR7", "at": 1, "by": "Ann", "entries": 13,
                                 "window": 5, "numbers": {"1": 1}, "own": "", "was": {}, "made": {}}
        answer: dict[str, Any] = {"id": first, "answer": "OK 13 1= 0.0", "mark": "", "said": []}
        lines: dict[str, Any] = {"id": f"{new_id()}/lines", "lines": [["SCORER", "STRIKE 1 GBR101"]]}
        odd_ones: list[Any] = [None, 7, "a", [], {}, {"id": None}]
        odd_ones += [held | {key: odd} for held in (whole, answer, lines) for key in held for odd in ODD]
        with open(os.path.join(self.here, *TAPS), "a", encoding="utf-8") as file:
            file.writelines(f"{json.dumps(odd)}\n" for odd in odd_ones)
        self.serve()
        self.assertNotIn("Beware", self.said())
        bea = ann.again()
        again = bea.tap("FINISH 1 GBR101", first)[1]
        self.assertEqual((again["outcome"], again["again"], again["entry"]), ("taken", True, 13))
        self.assertEqual(bea.tap("FINISH 1 GBR7", last)[0], 200)
        self.assertEqual(bea.tap("FINISH 1 NED1", name="fleet")[0], 200)
        self.assertEqual(bea.ask("GET", "/office/finish/state/cup")[0], 200)
        self.assertEqual(self.journal(), ["FINISH FINISH 1 GBR101", "FINISH FINISH 1 GBR7"])

    @unittest.skipUnless(os.geteuid() == 0, "only root gives a folder away")
    def test_folder_of_another(self) -> None:
        """A class whose office/ is another account's is left out, and keeps out no other."""
        self.close()
        office = os.path.join(self.here, "cup", "office")
        os.chown(office, 12345, 12345)
        self.addCleanup(os.chown, office, os.geteuid(), os.getegid())
        self.serve()
        self.assertIn("Beware: cup isn't served.", self.said())
        self.assertEqual(self.device("finish").tap("FINISH 1 NED1", name="fleet")[0], 200)


class Faulty(helpers.Series):
    def setUp(self) -> None:
        super().setUp()
        before = os.getcwd()
        os.chdir(self.here)
        self.addCleanup(os.chdir, before)

    def test_lock(self) -> None:
        """A room that can't be made, by whatever fault, leaves the class to the next try."""
        folder = Folder(os.path.join(self.here, "cup"))
        with mock.patch.object(Register, "read", side_effect=IndexError("odd")), self.assertRaises(IndexError):
            Room(folder, lambda: None)
        Room(folder, lambda: None).close()

    def test_a_fault_of_one_class(self) -> None:
        """A fault in serving one class leaves that out, and the others are served."""
        self.make("fleet", "Sail\nNED 1\nNED 2\n")
        web = Served(Asked(("fleet", "cup"), 0, "", "", "", ()))
        add = web.office.add

        def added(folder: Folder) -> Any:
            if folder.name == "fleet":
                raise IndexError("odd")
            return add(folder)
        self.addCleanup(helpers.kill_office, os.path.join(self.here, "cup"))
        with contextlib.redirect_stdout(io.StringIO()), mock.patch.object(web.office, "add", added):
            web.open_all()
            web.office.close()
        self.assertEqual(([*web.office.classes], [*web.office.left_out]), (["cup"], ["fleet"]))


class Clocks(Web):
    def test_clock(self) -> None:
        """Numbers of the devices' file that no clock shows let nobody in, and the web is served."""
        self.device("finish")
        self.close()
        held = json.loads(self.text(*DEVICES))
        for key, odd in (("now", float("inf")), ("now", float("nan")), ("uptime", -1e308), ("clock", 10 ** 400), ("now", 1e308)):
            self.need_nobody(held | {"clock": held["clock"] | {key: odd}})
        self.serve()
        self.assertEqual(self.device("finish").tap("FINISH 1 GBR101")[0], 200, self.said())
        self.close()
        for key, odd in itertools.product(("since", "heard", "unsent"), (float("nan"), float("inf"), -1, 10 ** 400)):
            self.need_nobody(held | {"devices": {mark: one | {key: odd} for mark, one in held["devices"].items()}})

    def need_nobody(self, held: dict[str, Any]) -> None:
        """A file of devices that has this lets nobody in, and gives the time all the same."""
        self.write(json.dumps(held), *DEVICES)
        gate = Gate(os.path.join(self.here, *DEVICES))
        self.assertEqual((gate.keys, gate.devices), ({}, {}))
        self.assertLess(abs(gate.clock.now() - time.time()), 3600)


class Zones(Web):
    def test_zone(self) -> None:
        """A moment of any number of digits in office/zone keeps nobody from opening the office."""
        self.close()
        self.write(f"{'1' * 5000} UTC\n\u0661\u0662 UTC\n", "cup", "office", "zone")
        self.serve()
        self.assertEqual(self.device("finish").tap("FINISH 1 GBR101")[0], 200, self.said())


class Seats(Web):
    def prepare(self) -> None:
        self.write(self.text("cup", "series.ini").replace("seats = 16", "seats = 2"), "cup", "series.ini")

    def test_seats(self) -> None:
        """However few seats the settings name, each role has one."""
        taps = [("finish", "FINISH 1 GBR101"), ("scorer", "MARK 1 GBR7 DNF"), ("jury", "MARK 1 NED12 DSQ")]
        for role, line in taps:
            self.assertEqual(self.device(role).tap(line)[0], 200, role)
        self.assertEqual(len(self.journal()), 3)


if __name__ == "__main__":
    unittest.main()
