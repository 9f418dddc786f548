"""Races of a class by corrected time as they begin and end: another start, an abandoned race, and a clock that is changed."""
from __future__ import annotations

import datetime
import os
import time
import unittest
from typing import Any

import helpers
from raceoffice.series import settings
from test_web_timed import ENTRIES, Prepared, moment
from web_devices import Device, Web, new_id


@helpers.needs_times
class Races(Prepared):
    def sheet(self, name: str = "race-1") -> list[str]:
        return self.text("cup", "times", f"{name}.csv").splitlines()

    @staticmethod
    def yes(device: Device, line: str, id: str = "", **more: Any) -> Any:
        """The answer to a tap of which all questions are answered by yes."""
        agreed: list[Any] = []
        while (found := device.tap(line, id, agreed=agreed, **more))[0] == 409:
            agreed.append(found[1]["question"])
        return found[1]

    def test_abandoned(self) -> None:
        """An abandoned race doesn't come back by a late tap, and is sailed again under its number: 3,600 s x 1.000. BFD and
        what the jury has decided stay, also in the sheet; the sheet as it was is kept."""
        ann, jury, scorer = self.device("finish"), self.device("jury"), self.device("scorer")
        ann.tap("START 1 14:00")
        for sail in ("GBR101", "GBR7", "NED12"):
            ann.tap(f"FINISH 1 {sail}", at=moment("15:00:00"))
        for device, line in ((ann, "MARK 1 GBR7 BFD"), (ann, "MARK 1 NED12 RET"), (jury, "REDRESS 1 NED12 2.0"),
                             (ann, "MARK 1 FRA9 DNF")):
            self.assertEqual(self.yes(device, line)["outcome"], "taken", line)
        before = self.sheet()
        self.assertEqual(scorer.tap("ABANDON 1")[0], 409)
        self.assertEqual(self.sheet(), before)
        self.yes(scorer, "ABANDON 1")
        race = scorer.state()["races"]["1"]
        self.assertEqual((race["order"], race["codes"]), ([], {"GBR7": "BFD", "NED12": "RET"}))
        self.assertEqual((self.sheet(), self.abandoned()),
                         (["Sail,Start,Finish,Code", "GBR101,,,", "GBR7,,,BFD", "NED12,,,RET", "FRA9,,,"], [before]))
        journal = self.journal()
        self.assertEqual(self.yes(ann, "FINISH 1 FRA9", at=moment("15:02:00"))["outcome"], "noted")
        self.assertEqual(self.journal(), journal)
        ann.tap("STRIKE 1 FRA9")
        ann.tap("START 1 16:00")
        self.assertEqual(self.yes(ann, "FINISH 1 GBR101", at=moment("17:00:00"))["outcome"], "taken")
        self.assertEqual(self.journal()[len(journal):], ["FINISH TIME 1 GBR101 3600"])

    def abandoned(self) -> list[list[str]]:
        """The sheets that are kept of a race that was abandoned, the oldest first."""
        names = sorted(name for name in os.listdir(os.path.join(self.here, "cup", "times")) if "abandoned" in name)
        for name in names:
            self.assertRegex(name, r"race-1-abandoned-\d{4}-\d\d-\d\d-\d{6}Z(-\d+)?\.csv")
        return [self.sheet(name.removesuffix(".csv")) for name in sorted(names, key=lambda name: os.stat(
            os.path.join(self.here, "cup", "times", name)).st_mtime_ns)]

    def test_abandoned_twice(self) -> None:
        """A race that is abandoned, sailed again and abandoned again: the sheets of both are kept, each once. A sheet that
        was kept, but not cleared, as before a crash, isn't kept again."""
        ann, scorer, kept = self.device("finish"), self.device("scorer"), []
        for start, finish in (("14:00", "15:00:00"), ("16:00", "17:00:00")):
            ann.tap(f"START 1 {start}")
            self.yes(ann, "FINISH 1 GBR101", at=moment(finish))
            kept.append(self.sheet())
            self.yes(scorer, "ABANDON 1")
        self.assertEqual(self.abandoned(), kept)
        self.write("\n".join(kept[0]) + "\n", "cup", "times", "race-1.csv")
        self.yes(scorer, "ABANDON 1")
        self.assertEqual((self.abandoned(), self.sheet()[1:2]), (kept, ["GBR101,,,"]))

    def test_abandoned_early(self) -> None:
        """A race of which the sheet alone has something: the start and a finish go after a question."""
        ann, scorer = self.device("finish"), self.device("scorer")
        ann.tap("FINISH 1 GBR101", at=moment("15:00:00"))
        asked = ann.tap("ABANDON 1")[1]["question"]
        self.assertEqual((asked["kind"], asked["values"]), ("clear-sheet", {"race": 1}))
        self.assertEqual(ann.tap("ABANDON 1", agreed=[asked])[0], 200)
        ann.tap("START 1 16:00")
        self.assertEqual((self.journal(), self.sheet()[1]), ([], "GBR101,16:00:00,,"))
        self.assertNotIn("GBR101", scorer.state()["races"]["1"]["sheet"]["rows"])

    def test_places_on_devices(self) -> None:
        """The places of a race by corrected time are kept on devices: these are named before it is abandoned, and learn when it
        was."""
        ann, scorer = self.device("finish"), self.device("scorer")
        ann.ask("GET", "/office/finish/me", X_Unsent="1")
        ann.tap("START 1 14:00", X_Unsent="1")
        self.assertEqual(ann.state()["abandoned"], {})
        before, said = int(time.time() * 1000), scorer.tap("ABANDON 1")
        self.assertEqual((said[0], said[1]["question"]["kind"], said[1]["question"]["values"]),
                         (409, "abandon-unsent", {"race": 1, "devices": ["Ann (1)"]}))
        self.yes(scorer, "ABANDON 1")
        self.assertTrue(before <= ann.state()["abandoned"]["1"] <= time.time() * 1000)

    def test_late_start(self) -> None:
        """A start that was tapped before a recall, and comes after the scorer has typed the right one, is asked about; and so
        is one beside a start that somebody wrote into the sheet: 3,600 s x 1.000."""
        ann, scorer, late = self.device("finish"), self.device("scorer"), moment("13:55:00")
        scorer.tap("START 1 14:00", at=moment("14:01:00"))
        ann.tap("FINISH 1 GBR101", at=moment("15:00:00"))
        before = self.sheet(), self.journal()
        status, said = ann.tap("START 1", at=late)
        self.assertEqual((status, said["question"]["kind"], said["question"]["values"]),
                         (409, "start-since", {"race": 1, "start": "14:00:00", "written": "13:55:00"}))
        self.assertEqual((self.sheet(), self.journal()), before)
        self.assertEqual(ann.tap("START 1 14:00:00", at=late)[0], 200)
        self.assertEqual(ann.tap("START 1", at=late, agreed=[said["question"]])[0], 200)
        self.assertEqual(self.journal()[-1], "FINISH TIME 1 GBR101 3900")
        self.write("Sail,Start,Finish,Code\nGBR101,14:00,15:00:00,\n", "cup", "times", "race-1.csv")
        status, said = ann.tap("START 1 14:05", at=moment("14:06:00"))
        self.assertEqual((status, said["question"]["values"]["start"]), (409, "14:00:00"))

    def test_start_of_an_abandoned_race(self) -> None:
        """A start that was tapped before the race was abandoned, and that comes later, is asked about: it may not be that of
        the race that is sailed again. Who taps later isn't asked."""
        ann, bob, scorer, id = self.device("finish"), self.device("finish", "Bob"), self.device("scorer"), new_id()
        late = int(time.time() * 1000) - 60_000
        ann.tap("START 1 14:00", at=late)
        self.yes(scorer, "ABANDON 1")
        before = self.sheet()
        status, said = bob.tap("START 1 14:00:03", id, at=late, was="")
        values = said["question"]["values"]
        self.assertEqual((status, said["question"]["kind"], values["race"], values["written"]), (409, "start-abandoned", 1, "14:00:03"))
        self.assertEqual(self.sheet(), before)
        # A yes is about this time: the race is abandoned once more before it comes.
        self.yes(scorer, "ABANDON 1")
        status, again = bob.tap("START 1 14:00:03", id, at=late, was="", agreed=[said["question"]])
        self.assertEqual((status, again.get("question", {}).get("kind"), self.sheet()), (409, "start-abandoned", before))
        said = again
        self.assertEqual(bob.tap("START 1 14:00:03", id, at=late, was="", agreed=[said["question"]])[1]["outcome"], "noted")
        self.assertEqual(self.sheet()[1], "GBR101,14:00:03,,")
        self.yes(scorer, "ABANDON 1")
        self.assertEqual(ann.tap("START 1 16:00", at=int(time.time() * 1000), was="")[1]["outcome"], "noted")

    def test_finish_of_an_abandoned_race(self) -> None:
        """A finish that was tapped before the race was abandoned, and comes later, is asked about before anything is written,
        also after a restart. One of the race that is sailed again isn't: 60 s x 1.000, so that midnight is seldom in between."""
        ann, bob, scorer, id = self.device("finish"), self.device("finish", "Bob"), self.device("scorer"), new_id()
        late = int(time.time() * 1000) - 60_000
        ann.tap("START 1 14:00", at=late)
        ann.tap("FINISH 1 GBR101", at=late + 1000)
        self.yes(scorer, "ABANDON 1")
        before = self.sheet(), self.journal()
        for _ in range(2):
            status, said = bob.tap("FINISH 1 GBR7", id, at=late + 2000)
            self.assertEqual((status, said["question"]["kind"], said["question"]["values"]["race"]), (409, "abandoned-since", 1))
            self.assertEqual((self.sheet(), self.journal()), before)
            self.close()
            self.serve()
            ann, bob = ann.again(), bob.again()
        # At noon of tomorrow: no day ends in between, whatever the time is now.
        start = ((int(time.time()) // 86_400 + 1) * 86_400 + 43_200) * 1000
        ann.tap("START 1", at=start, was="")
        self.assertEqual(bob.tap("FINISH 1 GBR101", at=start + 3_600_000)[1]["outcome"], "taken")
        self.assertEqual(self.journal()[-1], "FINISH TIME 1 GBR101 3600")

    def test_times_of_a_race_that_counts(self) -> None:
        """The times of a sheet that go to another race, which counts: it is asked before anything is sent."""
        ann, scorer = self.device("finish"), self.device("scorer")
        ann.tap("START 1 14:00")
        self.yes(ann, "FINISH 1 GBR101", at=moment("15:00:00"))
        self.yes(scorer, "SCORE 1")
        given = {"id": new_id(), "at": 1, "agreed": [], "lines": ["TIMES 1"], "ask": True}
        status, said = scorer.ask("POST", "/office/scorer/correct/cup", given)
        self.assertEqual((status, said.get("question", {}).get("kind")), (409, "correction"), said)

    def test_second_start(self) -> None:
        """A start that another device has tapped three seconds after the first, and that comes when boats have finished, is
        asked about: 3,600 s x 1.000, or 3,597 s. A No leaves all as it is, and a Yes is one, also after a restart."""
        ann, bob = self.device("finish"), self.device("finish", "Bob")
        self.assertEqual(ann.tap("START 1", at=moment("14:00:00"), was="")[1]["outcome"], "noted")
        ann.tap("FINISH 1 GBR101", at=moment("15:00:00"))
        before, id = (self.sheet(), self.journal()), "2" * 32
        for _ in range(2):
            status, said = bob.tap("START 1", id, at=moment("14:00:03"), was="")
            self.assertEqual((status, said["question"]["kind"], said["question"]["values"]),
                             (409, "start-since", {"race": 1, "start": "14:00:00", "written": "14:00:03"}))
            self.assertEqual((self.sheet(), self.journal()), before)
            self.close()
            self.serve()
            ann, bob = ann.again(), bob.again()
        for _ in range(2):
            self.assertEqual(bob.tap("START 1", id, at=moment("14:00:03"), was="", agreed=[said["question"]])[0], 200)
            self.assertEqual((self.sheet()[1], self.journal()[1:]),
                             ("GBR101,14:00:03,15:00:00,", ["FINISH STRIKE 1 GBR101", "FINISH TIME 1 GBR101 3597"]))
            self.assertEqual(ann.state()["races"]["1"]["sheet"]["start"], "14:00:03")

    def test_start_shown(self) -> None:
        """Within a minute, whoever gives another start than the device showed isn't asked, whoever gave that; nor is a device
        that has given the last one itself and hasn't seen it yet; nor whoever gives the same. One that showed an older start is
        asked."""
        ann, bob, scorer = self.device("finish"), self.device("finish", "Bob"), self.device("scorer", "Bea")
        self.write("Sail,Start,Finish,Code\nGBR101,13:59:30,,\n", "cup", "times", "race-1.csv")
        for device, start, was, status in (
                (ann, "14:00:00", "13:59:30", 200), (ann, "14:00:01", "…", 200), (bob, "14:00:02", "13:59:30", 409),
                (bob, "14:00:01", "", 200), (bob, "14:00:02", "14:00:01", 200), (ann, "14:00:03", "14:00:01", 409),
                (scorer, "14:00:03", "14:00:02", 200), (bob, "14:00:05", "14:00:03", 200)):
            self.assertEqual(device.tap(f"START 1 {start}", at=moment("14:00:00"), was=was)[0], status, (start, was))
        self.assertEqual(self.sheet()[1], "GBR101,14:00:05,,")

    def test_start_sailed_by(self) -> None:
        """A start that the device showed, and that boats have sailed by, isn't replaced without a question: it is older than a
        minute, as at the start of another class, or a boat has finished. A No leaves all as it is."""
        ann = self.device("finish")
        ann.tap("START 1", at=moment("14:00:00"), was="")
        self.assertEqual(ann.tap("START 1", at=moment("14:00:59"), was="14:00:00")[0], 200)
        before = self.sheet()
        status, said = ann.tap("START 1", at=moment("14:05:00"), was="14:00:59")
        self.assertEqual((status, said["question"]["kind"], said["question"]["values"]),
                         (409, "start-since", {"race": 1, "start": "14:00:59", "written": "14:05:00"}))
        self.assertEqual(self.sheet(), before)
        ann.tap("START 2", at=moment("14:00:00"), was="")
        ann.tap("FINISH 2 GBR101", at=moment("14:00:30"))
        before = self.sheet("race-2")
        self.assertEqual(ann.tap("START 2", at=moment("14:00:40"), was="14:00:00")[1]["question"]["kind"], "start-since")
        self.assertEqual((self.sheet("race-2"), self.journal()), (before, ["FINISH TIME 2 GBR101 30"]))


@helpers.needs_times
class Clocks(Prepared):
    """The clock of Lisbon is put back on 25 October 2026 at 1:00 UTC, and put on on 29 March at 1:00 UTC."""

    def prepare(self) -> None:
        super().prepare()
        text = self.text("cup", "series.ini")
        self.write(text.replace("zone = UTC", "zone = Europe/Lisbon"), "cup", "series.ini")
        self.write(self.text("cup", "times", "rules.ini") + "overnight = 1\n", "cup", "times", "rules.ini")

    def test_changed_clock(self) -> None:
        """Elapsed times over the change: 6:50 x 0.900 and 7:10 x 1.000 from 18:00 UTC, also of a finish that is tapped before
        the start is known; 1:30 x 1.000 from the hour that comes twice; 3:00 x 1.000 in spring."""
        ann = self.device("finish")
        ann.tap("START 1", at=utc("2026-10-24T18:00:00"))
        ann.tap("FINISH 1 GBR7", at=utc("2026-10-25T00:50:00"))
        ann.tap("FINISH 1 GBR101", at=utc("2026-10-25T01:10:00"))
        ann.tap("FINISH 2 GBR101", at=utc("2026-10-25T01:10:00"))
        ann.tap("START 2", at=utc("2026-10-24T23:30:00"))
        ann.tap("START 3", at=utc("2026-10-25T00:30:00"))
        ann.tap("FINISH 3 GBR101", at=utc("2026-10-25T02:00:00"))
        ann.tap("START 4", at=utc("2026-10-25T01:30:00"))
        ann.tap("FINISH 4 GBR101", at=utc("2026-10-25T02:00:00"))
        ann.tap("START 5", at=utc("2026-03-29T00:30:00"))
        ann.tap("FINISH 5 GBR101", at=utc("2026-03-29T03:30:00"))
        self.assertEqual(self.journal(), [
            "FINISH TIME 1 GBR7 22140", "FINISH TIME 1 GBR101 25800", "FINISH TIME 2 GBR101 6000", "FINISH TIME 3 GBR101 5400",
            "FINISH TIME 4 GBR101 1800", "FINISH TIME 5 GBR101 10800"])

    def test_start_in_sheet(self) -> None:
        """A start that was written into the sheet is the last before the finish: 7:10 x 1.000."""
        self.write("Sail,Start,Finish,Code\nGBR101,19:00,,\n", "cup", "times", "race-1.csv")
        self.device("finish").tap("FINISH 1 GBR101", at=utc("2026-10-25T01:10:00"))
        self.assertEqual(self.journal(), ["FINISH TIME 1 GBR101 25800"])

    def test_zone(self) -> None:
        """The zone can't be changed while a race is on. Once it counts, it can."""
        ann, scorer = self.device("finish"), self.device("scorer")
        ann.tap("START 1", at=utc("2026-10-24T18:00:00"))
        tag = scorer.ask("GET", "/office/scorer/rules/cup", None)[1]["tag"]
        given = {"settings": {"zone": "Pacific/Honolulu"}, "tag": tag}
        for what in ("rules", "save"):
            status, said = scorer.ask("POST", f"/office/scorer/{what}/cup", given)
            self.assertEqual((status, [one["kind"] for one in said.get("said", [])]), (422, ["zone-in-race"]), what)
        self.assertIn("Europe/Lisbon", self.text("cup", "series.ini"))
        ann.tap("FINISH 1 GBR101", at=utc("2026-10-24T20:00:00"))
        Races.yes(scorer, "SCORE 1")
        # Nor while boats with several starts are racing, of which none has finished.
        self.write("Sail,Start,Finish,Code\nGBR101,19:00,,\nGBR7,19:05,,\n", "cup", "times", "race-2.csv")
        self.assertEqual(scorer.ask("POST", "/office/scorer/save/cup", given)[0], 422)
        self.write("Sail,Start,Finish,Code\nGBR101,,,\n", "cup", "times", "race-2.csv")
        self.assertEqual(scorer.ask("POST", "/office/scorer/save/cup", given)[0], 200)

    def test_zone_of_an_abandoned_race(self) -> None:
        """A race that is abandoned with a BFD, which stays, is no race that is on."""
        ann, scorer = self.device("finish"), self.device("scorer")
        ann.tap("START 1", at=utc("2026-10-24T18:00:00"))
        ann.tap("MARK 1 GBR7 BFD")
        Races.yes(scorer, "ABANDON 1")
        self.assertEqual(scorer.state()["races"]["1"]["codes"], {"GBR7": "BFD"})
        tag = scorer.ask("GET", "/office/scorer/rules/cup", None)[1]["tag"]
        given = {"settings": {"zone": "Pacific/Honolulu"}, "tag": tag}
        self.assertEqual(scorer.ask("POST", "/office/scorer/save/cup", given)[0], 200)


@helpers.needs_times
class OtherComputer(Web):
    """The office of a series is opened in the middle of a race on a computer in another zone. Lisbon is an hour behind
    Berlin."""

    def prepare(self) -> None:
        self.write(ENTRIES, "cup", "entries.csv")
        self.settle("")
        os.mkdir(os.path.join(self.here, "cup", "times"))
        self.write(f"[times]\nsystem = tcf\nprogram = {helpers.TIMES}\n", "cup", "times", "rules.ini")

    def settle(self, zone: str) -> None:
        self.write(settings.filled_in({"title": "Autumn Cup", "program": helpers.PROGRAM, "zone": zone, "handicap": "yes"}),
                   "cup", "series.ini")

    def serve(self, *more: str) -> None:
        with helpers.time_zone("Europe/Berlin" if self.said() else "Europe/Lisbon"):
            super().serve(*more)

    def finish(self, sail: str, at: str) -> None:
        """Somebody sees her finish in race 1."""
        device = self.device("finish", sail)
        self.assertEqual(device.tap(f"FINISH 1 {sail}", at=utc(f"2026-11-25T{at}"))[1]["outcome"], "taken")

    def begun(self) -> Device:
        """The scorer's device, after a start and a finish: GBR 101 has sailed for 30 minutes."""
        self.device("finish").tap("START 1", at=utc("2026-11-25T12:00:00"))
        self.finish("GBR101", "12:30:00")
        return self.device("scorer")

    def clock(self, device: Device) -> float:
        """By how many hours the clock of the pages is ahead of UTC in November."""
        at = utc("2026-11-25T12:00:00")
        return float([ahead / 3_600_000 for since, ahead in device.state()["zone"] if since <= at][-1])

    def test_goes_on(self) -> None:
        """The race goes on by the clock by which it began, 1,801 s x 0.900 = 1,620.9 s, which is said. Its zone can be
        written into the settings, and no other one. Once it counts, this computer's zone holds."""
        scorer = self.begun()
        self.assertEqual(self.clock(scorer), 0)
        self.close()
        self.serve()
        scorer = scorer.again()
        said = "Race 1 goes on by the clock of Europe/Lisbon, by which it began. That of Europe/Berlin holds once"
        self.assertIn(said, self.said())
        self.finish("GBR7", "12:30:01")
        self.assertEqual((self.journal(), self.clock(scorer)), (["FINISH TIME 1 GBR101 1800", "FINISH TIME 1 GBR7 1621"], 0))
        rules = scorer.ask("GET", "/office/scorer/rules/cup", None)[1]
        tag, waiting = rules["tag"], rules["waiting"]
        # That of this computer isn't in force yet.
        self.assertEqual(waiting, ["zone"])
        for zone, status in (("Europe/Berlin", 422), ("Europe/Lisbon", 200)):
            given = {"settings": {"zone": zone}, "tag": tag}
            self.assertEqual(scorer.ask("POST", "/office/scorer/save/cup", given)[0], status, zone)
        self.settle("")
        Races.yes(scorer, "SCORE 1")
        before = self.said().count(said)
        self.close()
        self.serve()
        self.assertEqual((self.clock(scorer.again()), self.said().count(said)), (1, before))

    def test_late_tap(self) -> None:
        """A finish of a race that counts comes after this computer's zone has come to hold: it is by the clock by which the race
        began. So it is if an older package has noted that zone alone."""
        scorer = self.begun()
        Races.yes(scorer, "SCORE 1")
        self.close()
        self.write("Europe/Lisbon", "cup", "office", "zone")
        self.serve()
        self.assertEqual(self.clock(scorer.again()), 1)
        ann = self.device("finish", "Ann")
        self.assertEqual(Races.yes(ann, "FINISH 1 GBR7", at=utc("2026-11-25T12:30:01"))["outcome"], "taken")
        self.assertEqual((self.journal()[-1], self.text("cup", "times", "race-1.csv").splitlines()[2]),
                         ("FINISH TIME 1 GBR7 1621", "GBR7,12:00:00,12:30:01,"))

    def test_start_typed_since(self) -> None:
        """The start is typed by the clock that the pages show now, and the finishes were tapped when another zone was in force:
        one comes before the start is known, and one after. 1,800 s x 1.000, and 1,801 s x 0.900 = 1,620.9 s."""
        self.device("scorer")
        self.close()
        self.serve()
        self.device("finish").tap("FINISH 1 GBR101", at=utc("2026-11-25T12:30:00"))
        scorer = self.device("scorer", "Bea")
        self.assertEqual(scorer.tap("START 1 13:00:00", at=int(time.time() * 1000))[0], 200)
        self.finish("GBR7", "12:30:01")
        self.assertEqual(self.text("cup", "times", "race-1.csv").splitlines()[1:3],
                         ["GBR101,13:00:00,13:30:00,", "GBR7,13:00:00,13:30:01,"])
        self.assertEqual(self.journal(), ["SCORER TIME 1 GBR101 1800", "FINISH TIME 1 GBR7 1621"])

    def test_start_corrected_since(self) -> None:
        """The start of a race that counts is corrected once another zone is in force: the race stays on the clock by which it
        began, 1,770 s x 1.000, and 1,771 s x 0.900 = 1,593.9 s of a finish that comes then."""
        scorer = self.begun()
        Races.yes(scorer, "SCORE 1")
        self.close()
        self.serve()
        Races.yes(scorer.again(), "START 1 12:00:30", at=int(time.time() * 1000))
        self.assertEqual(self.journal()[-1], "SCORER TIME 1 GBR101 1770")
        Races.yes(self.device("finish", "Ann"), "FINISH 1 GBR7", at=utc("2026-11-25T12:30:01"))
        self.assertEqual(self.journal()[-1], "FINISH TIME 1 GBR7 1594")

    def test_other_setting(self) -> None:
        """So it is if somebody has written another zone into series.ini by hand."""
        self.begun()
        self.close()
        self.settle("Pacific/Honolulu")
        self.serve()
        self.assertIn("by the clock of Europe/Lisbon, by which it began. That of Pacific/Honolulu holds once", self.said())
        self.finish("GBR7", "12:30:01")
        self.assertEqual(self.journal()[-1], "FINISH TIME 1 GBR7 1621")

    def test_no_race(self) -> None:
        """A race that was abandoned has no start any more: the next one goes by this computer's clock."""
        scorer = self.begun()
        Races.yes(scorer, "ABANDON 1")
        self.close()
        self.serve()
        self.assertNotIn("goes on by the clock", self.said())
        self.assertEqual(self.clock(scorer.again()), 1)


def utc(text: str) -> int:
    """Milliseconds since 1970."""
    return int(datetime.datetime.fromisoformat(f"{text}+00:00").timestamp() * 1000)


if __name__ == "__main__":
    unittest.main()
