"""Corrected times from taps: a start, finishes by the office's clock, codes; the lines are those that the
program of times computes."""
from __future__ import annotations

import contextlib
import datetime
import os
import unittest
from typing import Any
from unittest import mock

import helpers
from raceoffice.corrected.sheets import entries_of
from raceoffice.corrected.write_sheet import SheetOfRace
from raceoffice.errors import NotSent, Trouble
from raceoffice.program.journal import Series
from raceoffice.program.link import Link
from raceoffice.series import settings
from raceoffice.series.folder import Folder
from raceoffice.series.race_sheets import take_out_of_sheets
from raceoffice.web.room import Room
from raceoffice.web.tap_session import TapSession
from raceoffice.web.taps import Tap, last_numbers
from raceoffice.web.timed_taps import TimedTap
from web_devices import Device, Web, new_id

ENTRIES = "Sail,Boat,TCF\nGBR 101,Kestrel,1.000\nGBR 7,Sea Pink,0.900\nNED 12,Windhover,1.250\nFRA 9,Plover,0.8\n"


def moment(clock: str) -> int:
    """Milliseconds since 1970 of a time of the clock, in UTC, with a part of a second."""
    found = datetime.datetime.fromisoformat(f"2026-11-28T{clock}+00:00")
    return int(found.timestamp() * 1000) + 700


def prepare(series: helpers.Series) -> None:
    """Makes the class one by corrected time."""
    series.write(ENTRIES, "cup", "entries.csv")
    series.write(settings.filled_in({"title": "Autumn Cup", "program": helpers.PROGRAM, "zone": "UTC",
                                     "handicap": "yes"}), "cup", "series.ini")
    os.mkdir(os.path.join(series.here, "cup", "times"))
    series.write(f"[times]\nsystem = tcf\nprogram = {helpers.TIMES}\n", "cup", "times", "rules.ini")


class Prepared(Web):
    """The web over a class by corrected time."""

    def prepare(self) -> None:
        prepare(self)


@helpers.needs_times
class Timed(Prepared):
    def finish(self, device: Device, sail: str, clock: str, id: str = "") -> Any:
        return device.tap(f"FINISH 1 {sail}", id, at=moment(clock))[1]

    def sheet(self) -> list[str]:
        return self.text("cup", "times", "race-1.csv").splitlines()

    def test_code_before_the_start(self) -> None:
        """Somebody has written DNS as a boat's start, and no other start is there: taps go on, and she stays DNS."""
        os.makedirs(os.path.join(self.here, "cup", "times"), exist_ok=True)
        self.write("Sail,Start,Finish,Code\nNED12,DNS,,\n", "cup", "times", "race-1.csv")
        ann = self.device("finish")
        self.assertEqual([ann.tap(f"FINISH 1 {sail}")[0] for sail in ("GBR101", "NED12")], [200, 422])
        ann.tap("START 1 00:00")
        rows = {row.split(",")[0]: row.split(",")[1] for row in self.sheet()}
        self.assertEqual((rows["NED12"], rows["GBR101"]), ("DNS", "00:00:00"))

    def test_race(self) -> None:
        """A race from its start to a code: elapsed time by the rating, 3,600 s x 1.000, 3,900 s x 0.900 and
        2,881 s x 1.250 = 3,601.25 s. A tap that comes again is done once."""
        ann, scorer, id = self.device("finish"), self.device("scorer"), new_id()
        self.assertEqual(ann.tap("START 1 14:00")[1]["outcome"], "noted")
        self.assertEqual(self.finish(ann, "GBR101", "15:00:00")["line"], "FINISH 1 GBR101")
        for again in (False, True):
            done = self.finish(ann, "gbr7", "15:05:00", id)
            self.assertEqual((done["outcome"], done["entry"], done["again"]), ("taken", 6, again))
        self.finish(ann, "NED12", "14:48:01")
        self.assertEqual(self.journal(), ["FINISH TIME 1 GBR101 3600", "FINISH TIME 1 GBR7 3510",
                                          "FINISH TIME 1 NED12 3601"])
        self.assertEqual(self.sheet(), ["Sail,Start,Finish,Code", "GBR101,14:00:00,15:00:00,",
                                        "GBR7,14:00:00,15:05:00,", "NED12,14:00:00,14:48:01,", "FRA9,14:00:00,,"])
        self.assertEqual(scorer.tap("mark 1 9 dnf")[1]["outcome"], "taken")
        race = scorer.state()["races"]["1"]
        self.assertEqual(race["order"], [["GBR7"], ["GBR101"], ["NED12"]])
        self.assertEqual(race["sheet"], {"start": "14:00:00", "wrong": [], "why": [], "rows": {
            "GBR101": {"finish": "15:00:00", "code": "", "elapsed": 3600, "crossed": 54000, "why": []},
            "GBR7": {"finish": "15:05:00", "code": "", "elapsed": 3900, "crossed": 54300, "why": []},
            "NED12": {"finish": "14:48:01", "code": "", "elapsed": 2881, "crossed": 53281, "why": []},
            "FRA9": {"finish": "", "code": "DNF", "elapsed": None, "crossed": None, "why": []}}})
        self.assertEqual(race["at"]["GBR7"], moment("15:05:00"))
        # She has finished already, and isn't moved by another tap.
        self.assertEqual(ann.tap("FINISH 1 GBR7", at=moment("15:06:00"))[0], 422)
        self.assertEqual(len(self.journal()), 4)
        # raceoffice times has nothing to correct.
        said, status = helpers.run("times", "cup", "1", cwd=self.here)
        self.assertIn("4 boats, no lines", said)

    def test_corrections(self) -> None:
        """Undo and strike take a finish back; a code takes the time away; a start that was wrong moves all."""
        ann, id = self.device("finish"), new_id()
        # A finish before the start is known is kept, and its line follows.
        self.assertEqual(self.finish(ann, "GBR101", "15:00:00", id)["outcome"], "noted")
        self.finish(ann, "GBR7", "15:05:00")
        self.assertEqual(self.journal(), [])
        ann.tap("START 1 14:01:00")
        self.assertEqual(self.journal(), ["FINISH TIME 1 GBR101 3540", "FINISH TIME 1 GBR7 3456"])
        since = {"kind": "start-since", "values": {"race": 1, "start": "14:01:00", "written": "14:00:00"}}
        ann.tap("START 1 14:00:00", agreed=[since])
        self.assertEqual(self.journal()[2:], ["FINISH STRIKE 1 GBR101", "FINISH TIME 1 GBR101 3600",
                                              "FINISH STRIKE 1 GBR7", "FINISH TIME 1 GBR7 3510"])
        self.assertEqual(ann.tap("UNDO", undoes=id)[1]["outcome"], "taken")
        self.assertEqual((self.journal()[-1], self.sheet()[1]), ("FINISH STRIKE 1 GBR101", "GBR101,14:00:00,,"))
        ann.tap("MARK 1 GBR7 RET")
        self.assertEqual(self.journal()[-2:], ["FINISH MARK 1 GBR7 RET", "FINISH STRIKE 1 GBR7"])
        said = ann.tap("CLEAR 1 GBR7")[1]["said"]
        self.assertEqual(self.journal()[-2:], ["FINISH CLEAR 1 GBR7", "FINISH TIME 1 GBR7 3510"])
        # It is said how she is after both lines: she alone has finished, of four.
        self.assertEqual([(one["what"], one["values"].get("finished"), one["values"].get("missing")) for one in said],
                         [("finished", 1, 3)])
        self.assertEqual(ann.tap("STRIKE 1 NED12")[0], 422)
        self.assertEqual(ann.tap("START 1 25:00")[0], 422)
        self.assertEqual(ann.tap("? 1")[0], 422)
        status, said = ann.tap("FINISH 1 FRA9", at=1 << 52)
        self.assertEqual((status, "the clock of this device" in said["words"]), (422, True), said)

    def test_changed_since_it_was_shown(self) -> None:
        """Nothing is sent of boats that go to another race with a finish, or with codes, that they don't have any more."""
        ann, scorer = self.device("finish"), self.device("scorer")
        ann.tap("START 1 14:00:00")
        for sail, clock in (("GBR101", "15:00:00"), ("GBR7", "15:05:00")):
            self.finish(ann, sail, clock)
        for line in ("MARK 1 NED12 OCS", "PENALTY 1 NED12 ZFP"):
            ann.tap(line)
        move = ["FINISH 2 GBR7 15:05:00", "STRIKE 1 GBR7"]
        codes = ["MARK 2 NED12 OCS", "PENALTY 2 NED12 ZFP", "CLEAR 1 NED12"]
        changes = ((move, ["STRIKE 1 GBR7", "FINISH 1 GBR7"], "15:06:00"), (codes, ["MARK 1 NED12 BFD"], ""),
                   (["MARK 2 NED12 BFD", codes[2]], ["PENALTY 1 NED12 SCP"], ""))
        for lines, taps, clock in changes:
            with self.subTest(lines):
                for line in taps:
                    self.assertEqual(ann.tap(line, at=moment(clock or "15:10:00"))[0], 200)
                before = self.journal()
                status, said = scorer.ask("POST", "/office/scorer/correct/cup", {"id": new_id(), "at": 1, "agreed": [], "lines": lines})
                self.assertEqual((status, said["said"][0]["kind"], self.journal()), (422, "decision-changed", before), said)

    def test_moments_before_the_start(self) -> None:
        """A finisher has the moment of her tap before the start is known, too, until the sheet has another finish of hers or
        none."""
        ann, scorer = self.device("finish"), self.device("scorer")
        for sail, clock in [("GBR7", "15:05:00"), ("GBR101", "15:05:00"), ("NED12", "15:06:00")]:
            self.assertEqual(self.finish(ann, sail, clock)["outcome"], "noted")
        tapped = {"GBR7": moment("15:05:00"), "GBR101": moment("15:05:00"), "NED12": moment("15:06:00")}
        for line in ("", "START 1 14:00:00"):
            if line:
                ann.tap(line)
            race = scorer.state()["races"]["1"]
            self.assertEqual((race["at"], race["by"]), (tapped, {sail: "Ann" for sail in tapped}), line)
        ann.tap("STRIKE 1 NED12")
        scorer.tap("FINISH 1 GBR7 15:07:00 15:05:00")
        self.assertEqual(scorer.state()["races"]["1"]["at"], {"GBR101": moment("15:05:00")})

    def test_moment_with_a_code(self) -> None:
        """A finisher who gets a code keeps the moment of her tap, as her row keeps her finish: phones show boats of one second in
        the order of their taps."""
        ann, scorer, tapped = self.device("finish"), self.device("scorer"), dict[str, int]()
        ann.tap("START 1 14:00")
        for sail in ("NED12", "GBR7", "GBR101"):
            tapped[sail] = moment("15:05:00") + 10 * len(tapped)
            self.assertEqual(ann.tap(f"FINISH 1 {sail}", at=tapped[sail])[0], 200)
        for line in ("", "MARK 1 GBR7 RET", "CLEAR 1 GBR7", "MARK 1 GBR7 RET"):
            if line:
                self.assertEqual(ann.tap(line)[0], 200)
            race = scorer.state()["races"]["1"]
            self.assertEqual((race["at"], race["by"]), (tapped, {sail: "Ann" for sail in tapped}), line)
        ann.tap("STRIKE 1 NED12")
        self.assertNotIn("NED12", scorer.state()["races"]["1"]["at"])

    def test_typed_with_dots(self) -> None:
        """A start and an elapsed time may be typed with dots, as a finish may: 15:00:00 after 13:51:58 is 4,082 s x 1.000,
        and 3,900 s x 0.900."""
        scorer = self.device("scorer")
        scorer.tap("FINISH 1 GBR101 15:00:00")
        tag = scorer.ask("GET", "/office/scorer/sheet/cup/1")[1]["tag"]
        rows = {"GBR101": {"start": "13.51.58"}, "GBR7": {"elapsed": "1.05.00"}}
        self.assertEqual(scorer.ask("POST", "/office/scorer/sheet/cup", {"race": 1, "rows": rows, "tag": tag})[0], 200)
        scorer.tap("TIMES 1")
        self.assertEqual(self.journal(), ["SCORER TIME 1 GBR101 4082", "SCORER TIME 1 GBR7 3510"])

    def test_by_hand(self) -> None:
        """A finish is typed, put in place of just the one that was shown, undone and taken out; elapsed 3,600 s x 0.900,
        and 3,900 s. No moment of a tap is shown of it."""
        scorer, first, second = self.device("scorer"), new_id(), new_id()
        scorer.tap("START 1 14:00")
        for again in (False, True):
            done = scorer.tap("FINISH 1 gbr7 15:00:00", first)[1]
            self.assertEqual((done["outcome"], done["line"], done["again"]), ("taken", "FINISH 1 GBR7 15:00:00", again))
        self.assertEqual(self.journal(), ["SCORER TIME 1 GBR7 3240"])
        for line, kind in [("FINISH 1 GBR7 15:05:00", "sheet-has"), ("FINISH 1 GBR7 15:05:00 15:01:00", "finish-changed"),
                           ("FINISH 1 FRA9 15:05:00 15:01:00", "finish-changed"), ("FINISH 1 FRA9 15:05", "finish-wrong"),
                           ("FINISH 1 FRA9 25:05:00", "finish-wrong")]:
            status, said = scorer.tap(line)
            self.assertEqual((status, said["said"][0]["kind"]), (422, kind), line)
        self.assertEqual(scorer.tap("FINISH 1 GBR7 15:05:00 15:00:00", second)[1]["outcome"], "taken")
        self.assertEqual((self.journal()[1:], self.sheet()[2]), (
            ["SCORER STRIKE 1 GBR7", "SCORER TIME 1 GBR7 3510"], "GBR7,14:00:00,15:05:00,"))
        self.assertNotIn("GBR7", scorer.state()["races"]["1"]["at"])
        self.assertEqual(scorer.tap("UNDO", undoes=second)[1]["outcome"], "taken")
        self.assertEqual(self.sheet()[2], "GBR7,14:00:00,15:00:00,")
        scorer.tap("STRIKE 1 GBR7")
        self.assertEqual((self.journal()[-1], self.sheet()[2]), ("SCORER STRIKE 1 GBR7", "GBR7,14:00:00,,"))

    def test_without_a_rating(self) -> None:
        """A boat without a rating waits alone: the others' times are sent, hers is noted and answered so, and sent as soon
        as the rating is saved: 2,881 s x 1.250."""
        self.write(ENTRIES.replace("1.250", ""), "cup", "entries.csv")
        ann, scorer = self.device("finish"), self.device("scorer")
        ann.tap("START 1 14:00")
        done, again = [self.finish(ann, "NED12", "14:48:01", "1" * 32) for _ in range(2)]
        self.assertEqual((done["outcome"], done["said"][0]["what"]), ("noted", "sheet-waits"), done)
        fault = done["said"][0]["remarks"]["fault"]
        self.assertEqual((fault["kind"], fault["values"]["fault"]["kind"]), ("list-row", "timing-9"))
        # The register has it as it was said.
        self.assertEqual(again["said"], done["said"])
        done = self.finish(ann, "GBR101", "15:00:00")
        self.assertEqual((done["outcome"], self.journal()), ("taken", ["FINISH TIME 1 GBR101 3600"]), done)
        rated = {"sail": "NED 12", "name": "", "helm": "", "club": "", "rating": "1.250"}
        for _ in range(2):
            self.assertEqual(scorer.ask("POST", "/office/scorer/listed/cup", rated)[0], 200)
            self.assertEqual(self.journal(), ["FINISH TIME 1 GBR101 3600", "SCORER TIME 1 NED12 3601"])

    def test_undone(self) -> None:
        """What a tap took out of the sheet goes back into it, and not the moment of the undo: the finish of a boat who
        was struck, also one with a code, an elapsed time, and a code that another replaced. Page and line agree."""
        ann, scorer = self.device("finish"), self.device("scorer")
        ann.tap("START 1 14:00")
        for sail in ("GBR101", "GBR7"):
            self.finish(ann, sail, "15:00:00")
        for number, line in enumerate(("UNDO", "FINISH 1 GBR101")):
            id = new_id()
            ann.tap("STRIKE 1 GBR101", id)
            for _ in range(2):
                done = ann.tap(line, f"{number:032x}", undoes=id)[1]
                self.assertEqual((done.get("outcome"), done.get("line")), ("taken", "FINISH 1 GBR101 15:00:00"), done)
            self.assertEqual((self.journal()[-1], self.sheet()[1]), ("FINISH TIME 1 GBR101 3600", "GBR101,14:00:00,15:00:00,"))
        # The undo of an undo strikes her; what somebody has done since stays.
        self.assertEqual(ann.tap("UNDO", undoes=f"{1:032x}")[1]["line"], "STRIKE 1 GBR101")
        scorer.tap("FINISH 1 GBR101 15:01:00")
        self.assertEqual((ann.tap("UNDO", undoes=id)[0], self.sheet()[1]), (422, "GBR101,14:00:00,15:01:00,"))
        self.check_codes_undone(ann)
        tag = self.times_sheet(scorer)["tag"]
        scorer.ask("POST", "/office/scorer/sheet/cup", {"race": 1, "rows": {"NED12": {"elapsed": "1:05:00"}}, "tag": tag})
        ann.tap("STRIKE 1 NED12", id := new_id())
        self.assertEqual(self.sheet()[3], "NED12,14:00:00,,,")
        done = ann.tap("UNDO", undoes=id)[1]
        self.assertEqual((done.get("outcome"), self.sheet()[3]), ("taken", "NED12,14:00:00,,,1:05:00"), done)
        self.assertEqual(self.journal()[-1], "FINISH TIME 1 NED12 4875")

    def check_codes_undone(self, ann: Device) -> None:
        """A code in place of another, one that was cleared, one beside a penalty; a finish beside a code."""
        row = "GBR7,14:00:00,15:00:00,"
        for first, line, wanted, held in (
                ("MARK 1 GBR7 OCS", "MARK 1 GBR7 DNF", "MARK 1 GBR7 OCS", row + "OCS"),
                ("MARK 1 GBR7 RET", "CLEAR 1 GBR7", "MARK 1 GBR7 RET", row + "RET"),
                ("MARK 1 GBR7 RET", "STRIKE 1 GBR7", "FINISH 1 GBR7 15:00:00", row + "RET"),
                ("CLEAR 1 GBR7", "MARK 1 GBR7 RET", "CLEAR 1 GBR7", row),
                ("PENALTY 1 GBR7 ZFP", "CLEAR 1 GBR7", "PENALTY 1 GBR7 ZFP", row)):
            ann.tap(first)
            ann.tap(line, id := new_id())
            done = ann.tap("UNDO", undoes=id)[1]
            self.assertEqual((done.get("line"), self.sheet()[2]), (wanted, held), done)
        ann.tap("MARK 1 GBR7 DNF", id := new_id())
        status, said = ann.tap("UNDO", undoes=id)
        self.assertEqual((status, said["said"][0]["values"]["lines"], self.sheet()[2]),
                         (422, ["CLEAR 1 GBR7", "PENALTY 1 GBR7 ZFP"], row + "DNF"), said)

    def test_rounding(self) -> None:
        """2,881 s x 1.250 = 3,601.25 s: rounded up it is 3,602 s. That is shown before it is saved, and not saved over
        another change."""
        scorer, ann = self.device("scorer"), self.device("finish")
        scorer.tap("START 1 14:00")
        self.finish(ann, "NED12", "14:48:01")
        self.finish(ann, "GBR101", "15:00:00")
        kept = scorer.ask("GET", "/office/scorer/rules/cup", None)[1]
        self.assertEqual((kept["system"], kept["rounding"]), ("tcf", "half-up"))
        given = {"settings": {}, "rounding": "up", "rounding_was": "half-up", "tag": kept["tag"]}
        text = self.text("cup", "times", "rules.ini")
        found = scorer.ask("POST", "/office/scorer/rules/cup", given)[1]
        self.assertEqual((found["retimed"], self.text("cup", "times", "rules.ini")), ([{"race": 1, "n": 1}], text))
        for odd, kind in (({"rounding": "off"}, "rounding-wrong"), ({"rounding_was": "down"}, "rounding-changed")):
            status, said = scorer.ask("POST", "/office/scorer/save/cup", given | odd)
            self.assertEqual((status, said["said"][0]["kind"]), (422, kind))
        for _ in range(2):
            status, saved = scorer.ask("POST", "/office/scorer/save/cup", given)
            self.assertEqual((status, saved.get("rounding")), (200, "up"), saved)
        self.assertEqual(self.text("cup", "times", "rules.ini"), text.replace("system", "rounding = up\nsystem"))
        self.assertEqual(self.journal()[-1], "FINISH TIME 1 GBR101 3600")
        scorer.tap("TIMES 1")
        self.assertEqual(self.journal()[-2:], ["SCORER STRIKE 1 NED12", "SCORER TIME 1 NED12 3602"])

    def test_starts(self) -> None:
        """Two starts at one line, from the scorer's page: 3,600 s x 1.000 from 14:00, and from 14:10 3,300 s x 0.900. Nothing is sent until TIMES sends it; what isn't of its form isn't written."""
        ann, scorer = self.device("finish"), self.device("scorer")
        ann.tap("START 1 14:00")
        self.finish(ann, "GBR101", "15:00:00")
        self.finish(ann, "GBR7", "15:05:00")
        before = self.journal()
        tag = self.times_sheet(scorer)["tag"]
        odd: list[tuple[int, Any, str]] = [
            (1, {"GBR7": {"start": "25:00"}}, tag),
            (1, {"GBR7": {"laps": "3"}}, tag),
            (1, None, tag),
            (1, {"USA1": {"start": "14:10"}}, tag),
            (1, {"GBR7": {"start": "14:10"}}, "old"),
            (41, {}, tag),
            (1, {"GBR7": {"start": "14:1\n0"}}, tag),
            (1, {"GBR7": "14:10"}, tag),
            (1, {"GBR7": {"finish": "16:00:00"}}, tag)]
        for race, rows, wanted in odd:
            given = {"race": race, "rows": rows, "tag": wanted}
            status, refused = scorer.ask("POST", "/office/scorer/sheet/cup", given)
            self.assertEqual(status, 422, given)
            self.assertEqual([one for one in refused["said"] if not one["kind"]], [])
        late: dict[str, dict[str, str]] = {"GBR7": {"start": "14:10"}, "NED12": {"start": "14:10"}}
        status, found = scorer.ask("POST", "/office/scorer/sheet/cup", {"race": 1, "rows": late, "tag": tag})
        self.assertEqual((status, self.journal()), (200, before), found)
        self.assertEqual(self.sheet()[:4], ["Sail,Start,Finish,Code", "GBR101,14:00:00,15:00:00,", "GBR7,14:10:00,15:05:00,",
                                            "NED12,14:10:00,,"])
        self.assertEqual(scorer.tap("TIMES 1")[1]["outcome"], "taken")
        self.assertEqual(self.journal()[len(before):], ["SCORER STRIKE 1 GBR7", "SCORER TIME 1 GBR7 2970"])
        self.assertEqual([row["start"] for row in self.times_sheet(scorer)["rows"][:3]], ["14:00:00", "14:10:00", "14:10:00"])
        # Who finishes then has the start of her own.
        self.finish(ann, "NED12", "15:10:00")
        self.assertEqual(self.journal()[-1], "FINISH TIME 1 NED12 4500")
        for line in ("TIMES 2", "TIMES", "TIMES 1 2"):
            self.assertEqual(scorer.tap(line)[0], 422, line)

        self.check_columns(scorer)

    def test_laps_in_another_order(self) -> None:
        """Boats that finished before there was a start are in the sheet as they came. On the page an empty start or number of laps
        is as that of the boat above there: 3,600 s x 3/2, 4,200, 3,000 and 3,900 s. What is changed of one boat is changed of no
        other: 4,200 s x 3/2."""
        self.write(ENTRIES.replace("TCF", "PY").replace("1.000", "1000").replace("0.900", "1000").replace("1.250", "1000").replace("0.8", "1000"),
                   "cup", "entries.csv")
        self.write(f"[times]\nsystem = py\nprogram = {helpers.TIMES}\n", "cup", "times", "rules.ini")
        ann, scorer, path = self.device("finish"), self.device("scorer"), "/office/scorer/sheet/cup"
        for sail, clock in (("NED12", "14:50:00"), ("GBR101", "15:00:00"), ("FRA9", "15:05:00"), ("GBR7", "15:10:00")):
            self.finish(ann, sail, clock)
        rows: list[dict[str, dict[str, str]]] = [{"GBR101": {"start": "14:00:00", "laps": "2"}, "GBR7": {"laps": "3"}}, {"GBR7": {"laps": "2"}}]
        wanted = [["SCORER TIME 1 FRA9 3900", "SCORER TIME 1 GBR101 5400", "SCORER TIME 1 GBR7 4200", "SCORER TIME 1 NED12 3000"],
                  ["SCORER STRIKE 1 GBR7", "SCORER TIME 1 GBR7 6300"]]
        for given, lines in zip(rows, wanted):
            before = self.journal()
            shown = self.times_sheet(scorer)
            self.assertEqual([row["sail"] for row in shown["rows"]], ["GBR101", "GBR7", "NED12", "FRA9"])
            # An answer may be lost: then the same comes again.
            self.assertEqual([scorer.ask("POST", path, {"race": 1, "rows": given, "tag": shown["tag"]})[0] for _ in range(2)], [200, 200])
            self.assertEqual(scorer.tap("TIMES 1")[1]["outcome"], "taken")
            self.assertEqual(sorted(self.journal()[len(before):]), lines)

    def test_laps_of_a_boat_with_a_code(self) -> None:
        """What a boat with a code has as laps, nobody below her on the page comes to have by it, and the sheet can be read:
        3,900 s x 1000/800 and 4,200 s x 1000/900."""
        self.write(ENTRIES.replace("TCF", "PY").replace("1.000", "1000").replace("0.900", "900").replace("1.250", "1250").replace("0.8", "800"),
                   "cup", "entries.csv")
        self.write(f"[times]\nsystem = py\nprogram = {helpers.TIMES}\n", "cup", "times", "rules.ini")
        scorer = self.device("scorer")
        helpers.until("the boats", lambda: len(scorer.state()["boats"]) == 4)
        for race, laps in ((1, "0"), (2, "1")):
            self.write(f"Sail,Start,Finish,Code,Laps\nFRA9,14:00:00,15:05:00,,\nGBR7,,15:10:00,,\nGBR101,,,DNF,{laps}\n",
                       "cup", "times", f"race-{race}.csv")
            before, tag = self.journal(), scorer.ask("GET", f"/office/scorer/sheet/cup/{race}")[1]["tag"]
            status, saved = scorer.ask("POST", "/office/scorer/sheet/cup", {"race": race, "rows": {"NED12": {"start": "14:10"}}, "tag": tag})
            self.assertEqual((status, saved["wrong"]), (200, []))
            self.assertEqual(scorer.tap(f"TIMES {race}")[1]["outcome"], "taken")
            self.assertEqual(sorted(self.journal()[len(before):]), [
                f"SCORER MARK {race} GBR101 DNF", f"SCORER TIME {race} FRA9 4875", f"SCORER TIME {race} GBR7 4667"])

    def check_columns(self, scorer: Device) -> None:
        """Portsmouth Yardstick takes laps, and time on distance miles; a column that is missing is added."""
        path = "/office/scorer/sheet/cup"
        for system, key, text, other, line in [("py", "laps", "3", "distance", "GBR7,14:10:00,15:05:00,,3"),
                                               ("tod", "distance", "6,5", "laps", "GBR7,14:10:00,15:05:00,,3,6.5")]:
            self.write(f"[times]\nsystem = {system}\n", "cup", "times", "rules.ini")
            shown = self.times_sheet(scorer)
            self.assertEqual(shown["columns"], ["start", key, "elapsed"])
            for cells, status in [({other: text}, 422), ({key: "x"}, 422), ({key: text}, 200)]:
                given = {"race": 1, "rows": {"GBR7": cells}, "tag": shown["tag"]}
                self.assertEqual(scorer.ask("POST", path, given)[0], status, given)
            self.assertEqual(self.sheet()[2], line)
        self.write("Sail,Finish\nGBR7,15:07\n", "cup", "times", "race-1.csv")
        shown = self.times_sheet(scorer)
        self.assertEqual([one["kind"] for one in shown["wrong"]], ["sheet-cell"])
        self.assertEqual(scorer.state()["races"]["1"]["sheet"]["wrong"], shown["wrong"])

    def times_sheet(self, scorer: Device) -> Any:
        return scorer.ask("GET", "/office/scorer/sheet/cup/1")[1]

    def test_cells_that_cannot_be_read(self) -> None:
        """What stands beside a code is read by nobody, and a time that can't be read is a fault of the sheet: the state comes all
        the same, without a time of theirs."""
        scorer, odd = self.device("scorer"), [("-,RET", False), ("15.06,RET", False), ("?,", True)]
        for race, (cells, _) in enumerate(odd, 1):
            self.write(f"Sail,Start,Finish,Code\nGBR 101,14:00:00,15:00:00,\nGBR 7,14:00:00,{cells}\n", "cup", "times", f"race-{race}.csv")
        races = scorer.state()["races"]
        for race, (cells, is_wrong) in enumerate(odd, 1):
            sheet = races[str(race)]["sheet"]
            self.assertEqual((sheet["rows"]["GBR101"]["crossed"], bool(sheet["wrong"])), (54000, is_wrong), cells)
            self.assertEqual([sheet["rows"]["GBR7"][key] for key in ("crossed", "elapsed")], [None, None], cells)

    def test_night(self) -> None:
        """A race past midnight, and an elapsed time instead of a finish: from 23:00 to 0:10 are 4,200 s x 1.000, and 1:05:00
        are 3,900 s x 0.900. The other settings of the sheets stay, and the rounding is shown."""
        ann, scorer, path = self.device("finish"), self.device("scorer"), "/office/scorer/sheet/cup"
        ann.tap("START 1 23:00")
        self.assertEqual(self.finish(ann, "GBR101", "00:10:00")["outcome"], "noted")
        self.assertEqual(scorer.state()["races"]["1"]["sheet"]["rows"]["GBR101"]["elapsed"], None)
        found = self.times_sheet(scorer)
        self.assertEqual((found["overnight"], found["rounding"], self.journal()), (False, "half-up", []))
        held = self.text("cup", "times", "rules.ini")
        odd_ones: list[dict[str, object]] = [{"overnight": "yes"}, {"rows": {"GBR101": {"elapsed": "1:05:00"}}},
                                             {"rows": {"GBR7": {"elapsed": "1:5"}}}]
        for odd in odd_ones:
            self.assertEqual(scorer.ask("POST", path, {"race": 1, "rows": {}, "tag": found["tag"], **odd})[0], 422, odd)
        self.assertEqual(self.text("cup", "times", "rules.ini"), held)
        status, found = scorer.ask("POST", path, {"race": 1, "rows": {"GBR7": {"elapsed": "1:05:00"}}, "tag": found["tag"],
                                                  "overnight": True})
        self.assertEqual((status, found["overnight"]), (200, True), found)
        self.assertEqual(self.text("cup", "times", "rules.ini"), held.replace("[times]\n", "[times]\novernight = 1\n"))
        self.assertEqual(scorer.tap("TIMES 1")[1]["outcome"], "taken")
        self.assertEqual(self.journal(), ["SCORER TIME 1 GBR101 4200", "SCORER TIME 1 GBR7 3510"])
        rows = scorer.state()["races"]["1"]["sheet"]["rows"]
        self.assertEqual([rows[sail]["elapsed"] for sail in ("GBR101", "GBR7")], [4200, 3900])
        # 0:10 of the next day, and 1:05:00 after 23:00
        self.assertEqual([rows[sail]["crossed"] for sail in ("GBR101", "GBR7")], [87000, 86700])
        self.assertEqual(ann.tap("FINISH 1 GBR7", at=moment("00:20:00"))[0], 422)
        ann.tap("STRIKE 1 GBR7")
        self.assertEqual((self.journal()[-1], self.sheet()[2]), ("FINISH STRIKE 1 GBR7", "GBR7,23:00:00,,,"))
        found = self.times_sheet(scorer)
        scorer.ask("POST", path, {"race": 1, "rows": {}, "tag": found["tag"], "overnight": False})
        self.assertEqual(self.text("cup", "times", "rules.ini"), held.replace("[times]\n", "[times]\novernight = \n"))

    def test_counting(self) -> None:
        """A race that counts is asked about before the sheet is written."""
        ann, scorer = self.device("finish"), self.device("scorer")
        ann.tap("START 1 14:00:00")
        for sail in ("GBR101", "GBR7", "NED12"):
            self.finish(ann, sail, "15:00:00")
        missing = [{"kind": "score-missing", "values": {"race": 1, "sails": ["FRA9"]}}]
        self.assertEqual(scorer.tap("SCORE 1", agreed=missing)[1]["outcome"], "taken")
        before, at = self.sheet(), moment("15:30:00")
        status, said = ann.tap("FINISH 1 FRA9", at=at)
        self.assertEqual((status, said["question"]["kind"], self.sheet()), (409, "correction", before))
        self.assertEqual(ann.tap("FINISH 1 FRA9", agreed=[said["question"]], at=at)[1]["outcome"], "taken")
        self.assertEqual(self.journal()[-1], "FINISH TIME 1 FRA9 4320")

    def test_who_moved(self) -> None:
        """A start that is corrected after scoring shows whom all its lines have moved: from 14:00 GBR 101 has 3,600 s and
        GBR 7 3,900 s x 0.900 = 3,510 s; from 13:20 they have 6,000 s and 6,300 s x 0.900 = 5,670 s, and from 14:50 600 s and
        810 s. Codes stay, and one start for another moves nobody."""
        ann, scorer = self.device("finish"), self.device("scorer")
        ann.tap("START 1 14:00:00")
        for sail, clock in (("GBR101", "15:00:00"), ("GBR7", "15:05:00")):
            self.finish(ann, sail, clock)
        for sail in ("NED12", "FRA9"):
            ann.tap(f"MARK 1 {sail} DNF")
        self.assertEqual(scorer.tap("SCORE 1")[1]["outcome"], "taken")
        for start, moved in (("13:20:00", []), ("14:50:00", [("GBR101", 2, 1), ("GBR7", 1, 2)]),
                             ("14:49:00", [("GBR101", 2, 1), ("GBR7", 1, 2)])):
            tap, agreed = f"START 1 {start}", list[Any]()
            while (found := ann.tap(tap, agreed=agreed))[0] == 409:
                agreed.append(found[1]["question"])
            self.assertEqual(([one["kind"] for one in agreed], found[1]["outcome"]), (["start-since", "correction"], "taken"))
            last = scorer.state()["last"]
            if moved:
                self.assertEqual(sorted((one["sail"], one["was"], one["rank"]) for one in last["moves"]), moved)
                self.assertEqual((last["line"], last["role"]), ("START 1 14:50:00", "FINISH"))

    def test_a_time_that_waits(self) -> None:
        """Before a race is scored it is said whose time is in the sheet alone."""
        self.write(ENTRIES.replace("1.250", ""), "cup", "entries.csv")
        ann, scorer = self.device("finish"), self.device("scorer")
        ann.tap("START 1 14:00")
        for sail in ("NED12", "GBR101"):
            self.finish(ann, sail, "15:00:00")
        asked = scorer.tap("SCORE 1")[1]
        self.assertEqual([one["values"] for one in asked["said"] if one["what"] == "sheet-waits"], [{"fault": "NED 12 Windhover"}])

    def test_crash(self) -> None:
        """The web dies between the sheet and its line: the tap that comes again sends it, once."""
        ann, id = self.device("finish"), new_id()
        ann.tap("START 1 14:00:00")
        self.finish(ann, "GBR101", "15:00:00", id)
        self.kill()
        path = ("cup", "office", "web.taps")
        kept = [line for line in self.text(*path).splitlines() if id not in line or '"line"' in line]
        self.write("\n".join(kept) + "\n", *path)
        self.serve()
        done = self.finish(ann.again(), "GBR101", "15:00:00", id)
        self.assertEqual((done["outcome"], done["entry"]), ("taken", 5))
        self.assertEqual(self.journal(), ["FINISH TIME 1 GBR101 3600"])

    def take_out(self, scorer: Device, sail: str) -> int:
        """Takes a boat out by the scorer's page, with yes to its question."""
        agreed: list[Any] = []
        for _ in range(3):
            status, said = scorer.again().ask("POST", "/office/scorer/remove/cup", {"sail": sail, "agreed": agreed})
            agreed.append(said.get("question"))
            if status != 409:
                return status
        return 409

    def test_taken_out(self) -> None:
        """A late boat without a rating finishes, and is taken out as entered by mistake: the sheet has her row no more, and
        whoever finished meanwhile or finishes later has a line. 3,900 s x 0.900 and 2,881 s x 1.250."""
        ann, scorer = self.device("finish"), self.device("scorer")
        ann.tap("START 1 14:00")
        self.finish(ann, "GBR101", "15:00:00")
        scorer.tap("ENTER USA4", agreed=[{"kind": "enter-unlisted", "values": {"sail": "USA4"}}])
        self.finish(ann, "USA4", "15:01:00")
        done = self.finish(ann, "GBR7", "15:05:00", id := new_id())
        self.assertEqual((done["outcome"], done["entry"]), ("taken", 7))
        asked = scorer.again().ask("POST", "/office/scorer/remove/cup", {"sail": "USA4", "agreed": []})[1]["question"]
        said = asked["remarks"]["also"]["values"]["said"]
        self.assertEqual([(one["kind"], one["values"]) for one in said], [("removal-sheets", {"names": ["times/race-1.csv"]})])
        self.assertEqual(self.take_out(scorer, "USA4"), 200)
        self.assertEqual(self.sheet(), ["Sail,Start,Finish,Code", "GBR101,14:00:00,15:00:00,", "GBR7,14:00:00,15:05:00,",
                                        "NED12,14:00:00,,", "FRA9,14:00:00,,"])
        done = self.finish(ann.again(), "NED12", "14:48:01")
        self.assertEqual((done["outcome"], done["answer"]), ("taken", "OK 7 1= 0.0"), done)
        # Her entry was the seventh.
        self.assertEqual(self.finish(ann.again(), "GBR7", "15:05:00", id)["entry"], 6)
        self.assertEqual(self.journal(), ["FINISH TIME 1 GBR101 3600", "FINISH TIME 1 GBR7 3510", "FINISH TIME 1 NED12 3601"])

    def test_odd_code(self) -> None:
        """A word that is no code of a sheet is refused before anything is written, and others finish. A row that was made odd
        by hand is put right by a code or by taking it away, also one of two."""
        ann, scorer = self.device("finish"), self.device("scorer")
        ann.tap("START 1 14:00")
        before = self.sheet()
        for code in ("2", "XXX", "TIE", "-", "12:00", "DNG", "=HYPERLINK(1)", "ZFP", "T1"):
            status, said = ann.tap(f"MARK 1 GBR7 {code}")
            self.assertEqual((status, said["said"][0]["kind"] in ("sheet-no-code", "sheet-decided")), (422, True), (code, said))
        self.assertEqual((self.sheet(), self.finish(ann, "GBR101", "15:00:00")["outcome"]), (before, "taken"))
        held = self.text("cup", "times", "race-1.csv").replace("GBR7,14:00:00,,", "GBR7,14:00:00,XXX,").replace(
            "FRA9,14:00:00,,", "FRA9,14:00:00,,2")
        self.write(held, "cup", "times", "race-1.csv")
        for line, status, outcome in (("CLEAR 1 NED12", 503, None), ("FINISH 1 NED12", 503, None), ("CLEAR 1 FRA9", 200, "noted"),
                                      ("FINISH 1 NED12", 503, None), ("MARK 1 GBR7 DNF", 200, "taken")):
            found, said = scorer.tap(line, at=moment("14:48:01"))
            self.assertEqual((found, said.get("outcome")), (status, outcome), (line, said))
        self.assertEqual(self.finish(ann, "NED12", "14:48:01")["outcome"], "taken")
        self.assertEqual(self.sheet()[1:], ["GBR101,14:00:00,15:00:00,", "GBR7,14:00:00,,DNF", "NED12,14:00:00,14:48:01,",
                                            "FRA9,14:00:00,,"])

    def test_left_out(self) -> None:
        """A row of a boat that isn't entered holds up nobody, wherever it stands, and the scorer hears of it once."""
        ann, scorer = self.device("finish"), self.device("scorer")
        ann.tap("START 1 14:00")
        self.write("Sail,Start,Finish,Code\nUSA4,14:00:00,15:01:00,\nGBR101,,,\nUSA5,14:00:00,,DNF\n", "cup", "times", "race-1.csv")
        done = self.finish(ann, "GBR101", "15:00:00")
        self.assertEqual((done["outcome"], [one["what"] for one in done["said"]].count("row-left-out")), ("taken", 0), done)
        self.assertEqual(self.journal(), ["FINISH TIME 1 GBR101 3600"])
        for wanted in (["USA4", "USA5"], []):
            said = scorer.tap("TIMES 1")[1]
            self.assertEqual(said["outcome"], "noted", said)
            self.assertEqual([one["values"]["sail"] for one in said["said"] if one["what"] == "row-left-out"], wanted)
        self.assertEqual(len(self.journal()), 1)


@helpers.needs_times
class Followed(helpers.Series):
    """Taps of several lines, each of which is followed."""

    def setUp(self) -> None:
        super().setUp()
        prepare(self)
        self.open()
        self.folder = Folder(os.path.join(self.here, "cup"))
        self.room = Room(self.folder, lambda: None)
        self.addCleanup(self.room.close)
        for at, sail in enumerate(("GBR101", "GBR7", "NED12", "FRA9")):
            self.do(f"FINISH 1 {sail}", at=moment(f"15:0{at}:00"))
        self.do("START 1 14:00:00")

    def do(self, line: str, name: str = "Ann", **more: Any) -> Any:
        return self.room.do("FINISH", name, Tap.read({"id": new_id(), "line": line, **more}))

    def start(self, clock: str) -> Any:
        """What came of another start of race 1."""
        row = SheetOfRace(self.folder, 1).starts[0]
        since = {"kind": "start-since", "values": {"race": 1, "start": row, "written": clock}}
        return self.do(f"START 1 {clock}", agreed=[since])

    def test_read_once(self) -> None:
        """The journal is read once for all lines of a start; of each boat is said how she is after her last one."""
        with mock.patch.object(Link, "sheet", autospec=True, side_effect=Link.sheet) as read:
            said = self.start("14:01:00")["said"]
        self.assertEqual((read.call_count, len(self.room.facts.sheet.journal)), (1, 16))
        self.assertEqual([(one["what"], one["values"]["place"], one["values"]["finished"]) for one in said],
                         [("finished", place, 4) for place in (3, 2, 4, 1)])

    def test_followed(self) -> None:
        """After each line the journal is known as the office has it, and so is what the next one is noted with; also if
        somebody else sends a line in between."""
        own, ask, followed = TapSession.is_own_followed, Link.ask, list[bool]()

        def compared(session: TapSession) -> bool:
            if is_own := own(session):
                journal = session.office().sheet().journal
                self.assertEqual((session.facts.sheet.journal, session.facts.series), (journal, Series.read(list(journal))))
            followed.append(is_own)
            return is_own

        def beside(link: Link, line: str) -> str:
            if line == "STRIKE 1 NED12":
                with contextlib.closing(self.folder.link()) as other:
                    self.assertEqual([ask(other, typed)[:2] for typed in ("ROLE SCORER", "PENALTY 1 GBR7 ZFP")], ["RO", "OK"])
            return ask(link, line)
        with mock.patch.object(TapSession, "is_own_followed", compared), mock.patch.object(Link, "ask", beside):
            id = self.start("14:01:00") and list(self.room.register.sent)[-1].partition("/")[0]
        self.assertEqual(followed, [True] * 4 + [False] + [True] * 3)
        journal = self.room.facts.sheet.journal
        parts = self.room.register.parts(id)
        self.assertEqual([part.own for part in parts], [line for line in journal[8:] if "PENALTY" not in line])
        for part in parts:
            self.assertEqual(part.numbers, last_numbers(journal[:part.entries]))
            self.assertEqual(part.entry - part.entries, 2 if part.line == "STRIKE 1 NED12" else 1)

    def test_tapped_too_is_noted_once(self) -> None:
        """However often a device taps a boat who has another finish, the register notes once that it did."""
        for _ in range(3):
            with self.assertRaises(NotSent):
                self.do("FINISH 1 GBR7", "Bob", at=moment("15:09:00"))
        self.assertEqual(sum(id.endswith("/too") for id in self.room.register.sent), 1)


class Lines(unittest.TestCase):
    """The lines of a tap, of which one is refused."""

    def test_refused(self) -> None:
        """A refusal stops the lines about that boat alone, and the answer is that to the boat of the tap."""
        answers = {"STRIKE 1 A": "NO 7", "TIME 1 B 20": "OK 8", "TIME 1 C 30": "OK 9"}
        for sail, answer in (("B", "OK 8"), ("A", "NO 7"), ("", "NO 7"), ("C", "OK 9"), ("D", "before")):
            session, sent = mock.MagicMock(answer="before"), []

            def transmit(seat: Any, line: str) -> bool:
                sent.append(line)
                seat.answer = answers[line]
                return answers[line].startswith("OK ")
            tap = TimedTap.__new__(TimedTap)
            tap.session, tap.sail, tap.race = session, sail, mock.MagicMock(number=1)
            session.facts.race.return_value.counts = False
            with mock.patch("raceoffice.web.timed_taps.transmit", transmit):
                is_taken = tap.are_taken(["STRIKE 1 A", "TIME 1 A 10", "TIME 1 B 20", "TIME 1 C 30"])
            self.assertEqual((sent, session.answer, is_taken), ([*answers], answer, answer != "NO 7"))


class Sheets(unittest.TestCase):
    """The sheet alone."""

    def sheet(self, text: str = "") -> SheetOfRace:
        folder = self.folder_made()
        if text:
            os.mkdir(os.path.join(folder, "times"))
            with open(os.path.join(folder, "times", "race-3.csv"), "w", encoding="utf-8") as file:
                file.write(text)
        return SheetOfRace(self.series(folder), 3)

    def folder_made(self) -> str:
        holder = helpers.folder()
        found = holder.__enter__()
        self.addCleanup(holder.__exit__, None, None, None)
        with open(os.path.join(found, "series.ini"), "w", encoding="utf-8") as file:
            file.write(settings.filled_in({"title": "Autumn Cup"}))
        return found

    @staticmethod
    def series(folder: str) -> Folder:
        return Folder(folder)

    def written(self, sheet: SheetOfRace) -> list[str]:
        sheet.write()
        with open(sheet.path, encoding="utf-8") as file:
            return file.read().splitlines()

    def test_other_columns(self) -> None:
        """A sheet that somebody has begun keeps its columns and rows; decimal commas stay numbers."""
        sheet = self.sheet("Segelnummer;Runden;Distanz;Notiz\nGBR 7;2;12,5;slow\nNED 12;;;\n".replace(
            "Notiz", "Finish").replace("slow", ""))
        sheet.start("14:05", ["GBR7", "NED12", "FRA9"])
        sheet.finish("GBR7", "15:00:01")
        sheet.code("FRA9", "DNS")
        self.assertEqual(self.written(sheet), ["Segelnummer,Runden,Distanz,Finish,Start,Code",
                                               "GBR 7,2,12.5,15:00:01,14:05:00,", "NED 12,,,,14:05:00,",
                                               "FRA9,,,,14:05:00,DNS"])

    def test_refused(self) -> None:
        """Nothing that stands in a sheet is written over."""
        sheet = self.sheet("Sail,Start,Finish\nGBR7,14:00,15:00:00\nNED12,14:05,RET\n")
        for attempt in (lambda: sheet.finish("GBR7", "15:00:01"), lambda: sheet.finish("NED12", "15:00:01"),
                        lambda: sheet.start("14:10", [])):
            self.assertRaises(NotSent, attempt)
        sheet.finish("GBR7", "15:00:00")
        self.assertTrue(sheet.code("NED12", ""))
        sheet.finish("NED12", "15:20:00")
        self.assertEqual(self.written(sheet)[2], "NED12,14:05,15:20:00,")
        with self.assertRaises(Trouble) as caught:
            self.sheet("Sail,Finish\nGBR7,15:07\nNED12,XXX\nNED12,RDG\nA_1,DNF\n")
        kinds = [getattr(one, "kind", "") for one in caught.exception.said]
        self.assertEqual(kinds, ["sheet-cell", "list-row", "list-row", "list-row", "list-row"])
        self.assertRaises(Trouble, self.sheet, "Boat,Time\nx,1\n")

    def test_code_in_place_of_a_start(self) -> None:
        """A code in the column of starts is no start: no other boat gets it, the start doesn't take its place, and its boat has no
        finish beside it. Nor does a finish that is struck take a code with it."""
        text = "Sail,Start,Finish,Code\nUSA4,DNS,,\nFRA9,,DNF,\n"
        sheet = self.sheet(text)
        self.assertEqual(sheet.starts, [])
        sheet.finish("GBR7", "15:00:00")
        self.assertRaises(NotSent, sheet.finish, "USA4", "15:00:00")
        self.assertFalse(sheet.take_finish("FRA9"))
        self.assertEqual(sheet.data.decode(), text + "GBR7,,15:00:00,\n")
        sheet.start("14:00:00", ["GBR7", "USA4"])
        self.assertEqual((sheet.starts, sheet.start_in(sheet.row("USA4"))), (["14:00:00"], ""))
        self.assertEqual(sheet.data.decode(), "Sail,Start,Finish,Code\nUSA4,DNS,,\nFRA9,14:00:00,DNF,\nGBR7,14:00:00,15:00:00,\n")

    def test_no_start(self) -> None:
        """What is no start, beside a code, isn't looked at: nobody gets it, neither the next boat nor one that is added below."""
        text = "Sail,Start,Finish,Code,Laps\nUSA4,-,,DNS,x\n"
        sheet = self.sheet(text)
        self.assertEqual(sheet.starts, [])
        sheet.finish("GBR7", "15:00:00")
        self.assertEqual(sheet.data.decode(), text + "GBR7,,15:00:00,,\n")
        sheet.need_mended()
        rows, faults = entries_of(sheet.data, "race-3.csv")
        self.assertEqual(([(row.sail, row.code, row.cells["start"], row.cells["laps"]) for row in rows], faults),
                         ([("USA4", "DNS", "", ""), ("GBR7", "", "", "")], []))
        sheet.code("USA4", "")
        self.assertRaises(Trouble, sheet.need_mended)

    def test_row_taken(self) -> None:
        """A boat's row goes, and those below keep what they have from it; a sheet without rows goes, too."""
        for text, wanted in [
                ("Segel;Start;Ziel;Distanz;Notiz\nGBR 7;14:00;15:00:00;12,5;a\nUSA 4;14:10;15:00:00;9,5\nNED 12;;15:20:00;;b;c\n",
                 "Segel,Start,Ziel,Distanz,Notiz\nGBR 7,14:00,15:00:00,12.5,a\nNED 12,14:10,15:20:00,9.5,b,c\n"),
                ("Sail,Start,Elapsed\nGBR7,14:00,3600\nUSA4,DNS,\nNED12,,3700\n", "Sail,Start,Elapsed\nGBR7,14:00,3600\nNED12,,3700\n"),
                ("Sail,Start,Finish\nGBR7,14:00,15:00:00\nUSA4,14:10,15:00:00\nFRA9,DNF,\nIRL5,dns,\nNED12,,15:20:00\n",
                 "Sail,Start,Finish\nGBR7,14:00,15:00:00\nFRA9,DNF,\nIRL5,dns,\nNED12,14:10,15:20:00\n"),
                ("Sail,Start,Finish,Code\nGBR7,14:00,15:00:00,\nUSA4,14:10,15:00:00,\nFRA9,-,,DNF\nNED12,,15:20:00,\n",
                 "Sail,Start,Finish,Code\nGBR7,14:00,15:00:00,\nFRA9,-,,DNF\nNED12,14:10,15:20:00,\n"),
                ("Sail,Start,Finish,Code\nGBR7,14:00,15:00:00,\nUSA4,-,,DNF\nNED12,,15:20:00,\n",
                 "Sail,Start,Finish,Code\nGBR7,14:00,15:00:00,\nNED12,,15:20:00,\n"),
                ("Sail,Elapsed\r\nGBR7,3600\r\n", "Sail,Elapsed\r\nGBR7,3600\r\n"),
                ("Boat,Elapsed\nUSA4,3600\n", "Boat,Elapsed\nUSA4,3600\n"),
                ("Sail,Elapsed\nUSA4,3600\n", "")]:
            folder = self.folder_made()
            path = os.path.join(folder, "times", "race-3.csv")
            os.mkdir(os.path.dirname(path))
            with open(path, "w", encoding="utf-8", newline="") as file:
                file.write(text)
            with open(os.path.join(folder, "series.ini"), "w", encoding="utf-8") as ini:
                ini.write(settings.filled_in({"title": "Autumn Cup", "handicap": "yes"}))
            take_out_of_sheets(self.series(folder), "USA4")
            self.assertEqual(os.path.exists(path), bool(wanted), text)
            if wanted:
                with open(path, encoding="utf-8", newline="") as found:
                    self.assertEqual(found.read(), wanted)


if __name__ == "__main__":
    unittest.main()
