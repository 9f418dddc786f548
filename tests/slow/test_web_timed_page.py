"""The scorer's corrections in a class by corrected time, in Chromium over the real program."""
from __future__ import annotations

import json
import os
import unittest

import helpers
import web_devices
from devices import Device
from test_web_timed import moment
from web_office import WebTrial

SHEET = "Sail,Start,Finish\nGBR 101,14:00:00,15:00:00\nGBR 7,14:00:00,15:05:00\nNED 12,14:00:00,14:48:01\n"


@helpers.needs_times
class TimedCorrections(WebTrial):
    """Elapsed times by the ratings: 3,600 s x 1.000, 3,900 s x 0.900, and 2,881 s x 1.250 = 3,601.25 s."""
    classes = {"cup": "Sail,Boat,TCF\nGBR 101,Kestrel,1.000\nGBR 7,Sea Pink,0.900\nNED 12,Windhover,1.250\nFRA 9,Plover,0.8\n"}
    settings = {"handicap": "yes", "zone": "UTC"}

    def start(self) -> None:
        os.makedirs(os.path.join(self.here, "cup", "times"), exist_ok=True)
        self.write(f"[times]\nsystem = tcf\nprogram = {helpers.TIMES}\n", "cup", "times", "rules.ini")
        super().start()

    def scorer_of(self, race: int, rows: int) -> Device:
        """The scorer's page with a race whose sheet is sent."""
        scorer = self.device("scorer", "Bea’s laptop")
        scorer.click(f".races [data-key='{race}']")
        scorer.type("#typed", f"times {race}")
        scorer.press("Send")
        scorer.until(f"document.querySelectorAll('.order tbody tr').length === {rows}")
        return scorer

    def point(self, scorer: Device, sail: str) -> list[str]:
        """Points at a boat; what can be done about her."""
        scorer.click(f".order tr[data-sail={sail}] th button")
        scorer.until("!!document.querySelector('dialog[open]')")
        return [str(one) for one in scorer.run("[...document.querySelectorAll('dialog[open] button')].map(one => one.dataset.value)")]

    def test_times(self) -> None:
        """The page shows the finishes of the sheet. Only what has no place is offered, a finish is typed, and what isn't
        one is asked for again: 3,960 s x 0.900, 4,200 s x 0.8."""
        self.write(SHEET, "cup", "times", "race-1.csv")
        scorer = self.scorer_of(1, 3)
        self.assertEqual(scorer.text("#undo"), "Undo")
        self.assertEqual(scorer.texts(".order td.time"), ["15:05:00", "15:00:00", "14:48:01"])
        self.assertEqual(self.point(scorer, "GBR7"), ["time", "strike", "code", ""])
        scorer.choose("time")
        scorer.until("document.querySelector('#hand-finish')?.value === '15:05:00'")
        scorer.type("#hand-finish", "1506")
        scorer.choose("save")
        scorer.until("document.querySelector('dialog[open] .wrong')?.textContent.startsWith('1506 is no finish')")
        scorer.type("#hand-finish", "150600")
        scorer.choose("save")
        scorer.until("document.querySelector('.order tr[data-sail=GBR7] td.time').textContent === '15:06:00'")
        scorer.click("#add")
        scorer.until("!!document.querySelector('dialog[open] .missing button')")
        self.assertEqual(scorer.texts("dialog[open] .missing button"), ["FRA 9 Plover"])
        scorer.click("dialog[open] [data-sail=FRA9]")
        scorer.type("#hand-finish", "15.10.00")
        scorer.choose("save")
        scorer.until("document.querySelectorAll('.order tbody tr').length === 4")
        self.assertEqual(self.journal()[3:], ["SCORER STRIKE 1 GBR7", "SCORER TIME 1 GBR7 3564", "SCORER TIME 1 FRA9 3360"])
        self.need_no_faults()

    def test_elapsed(self) -> None:
        """A boat whose elapsed time was put in has that shown, as on the paper."""
        self.write("Sail,Start,Finish,Elapsed\nGBR 101,14:00:00,15:00:00,\nNED 12,,,0:40:00\n", "cup", "times", "race-1.csv")
        scorer = self.scorer_of(1, 2)
        self.assertEqual(scorer.texts(".order td.time"), ["0:40:00", "15:00:00"])
        self.need_no_faults()

    def test_fault(self) -> None:
        """What keeps a sheet from being read is shown beside its race, and goes once it is put right."""
        self.write(SHEET.replace("15:05:00", "15:5:7"), "cup", "times", "race-1.csv")
        scorer = self.device("scorer", "Bea’s laptop")
        scorer.click(".races [data-key='1']")
        scorer.until("document.querySelector('#sheet-fault')?.textContent.startsWith('times/race-1.csv, row 3, column Finish: ')")
        self.write(SHEET, "cup", "times", "race-1.csv")
        scorer.type("#typed", "times 1")
        scorer.press("Send")
        scorer.until("document.querySelectorAll('.order tbody tr').length === 3 && !document.querySelector('#sheet-fault')")
        self.need_no_faults()

    def test_another_rating(self) -> None:
        """A rating that is corrected after scoring: whoever says so has the race scored with it, 3,900 s x 0.800."""
        self.write(SHEET, "cup", "times", "race-1.csv")
        scorer = self.scorer_of(1, 3)
        scorer.click("#score")
        scorer.choose("yes")
        scorer.until("!!document.querySelector('#unscore')")
        scorer.click("#correct-names")
        scorer.click("dialog[open] [data-sail=GBR7]")
        scorer.type("dialog[open] input[name=rating]", "0.800")
        for _ in range(2):
            scorer.choose("yes")
        scorer.until("document.querySelector('dialog[open]')?.textContent.includes('Race 1 counts with her old rating.')")
        scorer.choose("yes")
        scorer.until("document.querySelector('dialog[open]')?.textContent.includes('Is this a correction?')")
        scorer.choose("yes")
        helpers.until("her new time", lambda: self.journal()[4:] == ["SCORER STRIKE 1 GBR7", "SCORER TIME 1 GBR7 3120"])
        self.need_no_faults()

    def test_another_rounding(self) -> None:
        """Another rounding, of a race that counts and of one that doesn't: 3,601.25 s are 3,602 s then. After a No the page
        names the race whose times weren't sent, and has a button for them; only then all is saved."""
        for race in (1, 2):
            self.write(SHEET, "cup", "times", f"race-{race}.csv")
        self.scorer_of(2, 3)
        scorer = self.scorer_of(1, 3)
        scorer.click("#score")
        scorer.choose("yes")
        scorer.until("!!document.querySelector('#unscore')")
        before = len(self.journal())
        scorer.click("#tab-settings")
        scorer.until("!!document.querySelector('[name=rounding]')")
        scorer.type("[name=rounding]", "up")
        scorer.until("document.querySelectorAll('#retimed li').length === 2")
        scorer.click("#save")
        scorer.until("document.querySelector('dialog[open]')?.textContent.includes('Is this a correction?')")
        self.assertNotIn("saved", scorer.text("#said"))
        scorer.choose("")
        scorer.until("document.querySelector('#times-left')?.textContent.includes('Race 1 still has')")
        self.assertNotIn("saved", scorer.text("#said"))
        self.assertEqual(self.journal()[before:], ["SCORER STRIKE 2 NED12", "SCORER TIME 2 NED12 3602"])
        scorer.click("#send-left")
        scorer.until("document.querySelector('dialog[open]')?.textContent.includes('Is this a correction?')")
        scorer.choose("yes")
        scorer.until("!document.querySelector('#times-left') && document.querySelector('#said').textContent === 'The settings are saved.'")
        self.assertEqual(self.journal()[before + 2:], ["SCORER STRIKE 1 NED12", "SCORER TIME 1 NED12 3602"])
        self.assertIn("rounding = up\n", self.text("cup", "times", "rules.ini"))
        self.need_no_faults()

    def move(self, scorer: Device, sail: str, race: int) -> None:
        """Says that finishers from a boat on belong to another race."""
        scorer.click("#other-race")
        scorer.until("document.querySelectorAll('dialog[open] select').length === 2")
        for at, value in enumerate((sail, race)):
            scorer.type(f"dialog[open] .field:{'last' if at else 'first'}-of-type select", str(value))
        scorer.choose("yes")

    def sheet(self, race: int) -> list[str]:
        return self.text("cup", "times", f"race-{race}.csv").splitlines()

    def test_another_race_and_a_no(self) -> None:
        """After a No, neither sheet has changed: nothing of it is sent by the next tap there."""
        self.write(SHEET, "cup", "times", "race-2.csv")
        self.write("Sail,Start,Finish\n", "cup", "times", "race-1.csv")
        scorer = self.scorer_of(2, 3)
        scorer.click("#score")
        scorer.choose("yes")
        scorer.until("!!document.querySelector('#unscore')")
        before = [self.sheet(race) for race in (1, 2)]
        self.move(scorer, "NED12", 1)
        scorer.until("document.querySelector('dialog[open]')?.textContent.includes('Is this a correction?')")
        scorer.choose("")
        scorer.until("!document.querySelector('dialog[open]')")
        self.assertEqual([self.sheet(race) for race in (1, 2)], before)
        self.assertEqual([line for line in self.journal() if " 1 " in line], [])
        self.move(scorer, "NED12", 1)
        scorer.choose("yes")
        helpers.until("the other race", lambda: len([line for line in self.journal() if " TIME 1 " in line]) == 3)
        self.need_no_faults()

    def test_another_race(self) -> None:
        """All that was recorded in race 2 goes to race 1 with its times, its start and its codes, and nothing of it stays."""
        self.write(SHEET.replace("Finish\n", "Finish,Code\n") + "FRA 9,14:00:00,,DNF\n", "cup", "times", "race-2.csv")
        scorer = self.scorer_of(2, 4)
        # The first at the line, not by corrected time
        self.move(scorer, "NED12", 1)
        scorer.until("document.querySelector('.races [data-key=\"1\"] small').textContent === 'open'"
                     " && document.querySelectorAll('.order tbody tr').length === 0")
        self.assertEqual(self.journal()[4:8], ["SCORER TIME 1 NED12 3601", "SCORER TIME 1 GBR101 3600",
                                               "SCORER TIME 1 GBR7 3510", "SCORER MARK 1 FRA9 DNF"])
        self.assertEqual(self.sheet(1), ["Sail,Start,Finish,Code", "GBR101,14:00:00,15:00:00,", "GBR7,14:00:00,15:05:00,",
                                         "NED12,14:00:00,14:48:01,", "FRA9,14:00:00,,DNF"])
        helpers.until("no start", lambda: "14:00" not in "".join(self.sheet(2)))
        self.assertEqual(sorted(self.journal()[8:]), ["SCORER CLEAR 2 FRA9", "SCORER STRIKE 2 GBR101", "SCORER STRIKE 2 GBR7",
                                                      "SCORER STRIKE 2 NED12"])
        self.need_no_faults()

    def test_another_race_with_laps(self) -> None:
        """Nothing of a race that was another one stays behind: no laps of a boat, which would count when it is sailed. Rows of boats
        that aren't entered keep nothing from it."""
        self.write("Sail,Boat,PY\nGBR 101,Kestrel,1000\nGBR 7,Sea Pink,900\nNED 12,Windhover,1250\nFRA 9,Plover,800\n", "cup", "entries.csv")
        self.write(f"[times]\nsystem = py\nprogram = {helpers.TIMES}\n", "cup", "times", "rules.ini")
        self.write("Sail,Start,Finish,Laps\nUSA 2,,,\nGBR 101,14:00:00,15:00:00,2\nGBR 7,14:00:00,15:05:00,3\n", "cup", "times", "race-2.csv")
        self.write("Sail,Start,Finish,Laps\nUSA 1,,,\n", "cup", "times", "race-1.csv")
        scorer = self.scorer_of(2, 2)
        self.move(scorer, "GBR101", 1)
        helpers.until("no start", lambda: "14:00" not in "".join(self.sheet(2)))
        self.assertEqual([row.replace(" ", "").rstrip(",") for row in self.sheet(2)[1:3]], ["GBR101", "GBR7"])
        self.assertIn("GBR101,14:00:00,15:00:00,2,", self.sheet(1))
        self.need_no_faults()

    def test_start_of_the_boat_above(self) -> None:
        """A start that is left empty is as that of the boat above on the page, however the sheet is ordered, and is shown there
        once it is saved: 3,600 s x 1.000, 2,881 s x 1.250."""
        self.write("Sail,Start,Finish\nNED 12,,14:48:01\nGBR 101,,15:00:00\n", "cup", "times", "race-1.csv")
        scorer = self.device("scorer", "Bea’s laptop")
        scorer.click("#tab-times")
        scorer.type("[name=start][aria-label^='GBR 101']", "14:00:00")
        scorer.click("#send-times")
        scorer.until("[...document.querySelectorAll('#times-table .corrected')].map(one => one.textContent).join() === '1:00:00,,1:00:01,'")
        self.assertEqual(scorer.run("[...document.querySelectorAll('#times-table [name=start]')].map(one => one.value)"), ["14:00:00"] * 4)
        self.assertEqual(sorted(self.journal()), ["SCORER TIME 1 GBR101 3600", "SCORER TIME 1 NED12 3601"])
        self.need_no_faults()

    def test_another_race_with_a_code(self) -> None:
        """The elapsed time of a boat with a code goes with it, and isn't her time in the race that she leaves. A row of a boat
        that isn't entered is named before, and stays."""
        self.write("Sail,Start,Finish,Elapsed,Code\nGBR 101,14:00:00,15:00:00,,\nGBR 7,,,1:05:00,RET\nUSA 1,14:00:00,15:01:00,,\n",
                   "cup", "times", "race-2.csv")
        scorer = self.device("scorer", "Bea’s laptop")
        scorer.click(".races [data-key='2']")
        scorer.type("#typed", "times 2")
        scorer.press("Send")
        scorer.until("import('/office/static/desk.js').then(desk => desk.state().races[2]?.codes.GBR7 === 'RET')")
        scorer.click("#other-race")
        scorer.until("document.querySelector('dialog[open] .wrong')?.textContent === 'USA 1 isn’t entered: her row stays in times/race-2.csv.'")
        self.assertEqual(scorer.texts("dialog[open] .field:first-of-type option"), ["GBR 101 Kestrel"])
        scorer.choose("yes")
        helpers.until("the other race", lambda: "SCORER STRIKE 2 GBR101" in self.journal())
        self.settle_lines(scorer)
        self.assertEqual([line for line in self.journal()[2:] if " 2 " in line], ["SCORER CLEAR 2 GBR7", "SCORER STRIKE 2 GBR101"])
        self.assertEqual([line for line in self.journal()[2:] if " 1 " in line], [
            "SCORER TIME 1 GBR101 3600", "SCORER TIME 1 GBR7 3510", "SCORER MARK 1 GBR7 RET", "SCORER STRIKE 1 GBR7"])
        self.assertIn("GBR7,14:00:00,,RET,1:05:00", self.sheet(1))
        self.assertEqual([row for row in self.sheet(2) if "GBR 7" in row or "USA" in row], ["GBR 7,,,,", "USA 1,14:00:00,15:01:00,,"])
        self.need_no_faults()

    def settle_lines(self, scorer: Device) -> None:
        """Waits until a correction is done, and the page says so."""
        scorer.until("!document.querySelector('dialog[open]') && document.querySelector('#said').textContent !== ''")

    def test_another_start(self) -> None:
        """A race with another start is asked about: from 14:10, GBR 7's 3,300 s x 0.900. The codes of a part stay."""
        self.write("Sail,Start,Finish\nFRA 9,14:10:00,14:40:00\n", "cup", "times", "race-1.csv")
        self.write(SHEET.replace("15:00:00", "DNF"), "cup", "times", "race-2.csv")
        scorer = self.scorer_of(2, 3)
        for choice, start, time in (("there", "14:10:00", 2970), ("own", "14:00:00", 3510)):
            self.move(scorer, "GBR7", 1)
            scorer.choose(choice)
            scorer.until("document.querySelectorAll('.order tbody tr').length === 2")
            self.assertIn(f"GBR7,{start},15:05:00,", self.sheet(1))
            self.assertIn(f"SCORER TIME 1 GBR7 {time}", self.journal())
            self.assertIn("FRA 9,14:10:00,14:40:00,", self.sheet(1))
            for line in ("strike 1 gbr7", "finish 2 gbr7 15:05:00"):
                scorer.type("#typed", line)
                scorer.press("Send")
                scorer.until("document.querySelector('#typed').value === ''")
            scorer.until("document.querySelectorAll('.order tbody tr').length === 3")
        self.need_no_faults()

    def test_other_times_while_it_is_asked(self) -> None:
        """While a window asks for the start, or for what is to be done about a boat, a phone strikes her, and taps her again: of
        her time before nothing is sent to another race, and it is asked before the new one is taken out."""
        self.write("Sail,Start,Finish\nFRA 9,14:10:00,14:40:00\n", "cup", "times", "race-1.csv")
        self.write(SHEET, "cup", "times", "race-2.csv")
        scorer, ann = self.scorer_of(2, 3), web_devices.Device(self.port, "finish").come(self.links["finish"], "Ann")
        shown = "document.querySelector('.order tr[data-sail=GBR7] .time')?.textContent"
        ways = (("own", "STRIKE 2 GBR7", "look again"), ("there", "MARK 2 FRA9 DNF", "just moved"), ("strike", "STRIKE 2 GBR7", "since"),
                ("out", "STRIKE 2 GBR7", "since"))
        for second, (way, line, words) in enumerate(ways, 1):
            with self.subTest(way):
                if way in ("own", "there"):
                    self.move(scorer, "GBR7", 1)
                else:
                    scorer.click(".order tr[data-sail=GBR7] th button")
                if way == "out":
                    scorer.choose("time")
                scorer.until(f"!!document.querySelector('dialog[open] [data-value={way}]')")
                before = scorer.run(shown)
                ann.tap(line)
                if line.startswith("STRIKE"):
                    ann.tap("FINISH 2 GBR7", at=moment(f"15:06:0{second}"))
                    scorer.until(f"(found => found && found !== {json.dumps(before)})({shown})")
                journal, sheets = self.journal(), [self.sheet(race) for race in (1, 2)]
                scorer.choose(way)
                if way in ("strike", "out"):
                    scorer.until(f"document.querySelector('dialog[open]')?.textContent.includes({json.dumps(words)})")
                    scorer.choose("")
                else:
                    scorer.until(f"document.querySelector('#alarm').textContent.includes({json.dumps(words)})")
                scorer.until("!document.querySelector('dialog[open]')")
                self.assertEqual((self.journal(), [self.sheet(race) for race in (1, 2)]), (journal, sheets))
        self.need_no_faults()

    def test_an_hour_of_one_digit(self) -> None:
        """31640 is 3:16:40, on the page of times, too: 1,000 s x 0.900."""
        self.write("Sail,Start,Finish\nGBR 101,03:00:00,\nGBR 7,03:00:00,\n", "cup", "times", "race-1.csv")
        scorer = self.device("scorer", "Bea’s laptop")
        scorer.click("#tab-times")
        scorer.click("[data-hand=GBR7]")
        scorer.type("#hand-finish", "31640")
        scorer.choose("save")
        scorer.until("document.querySelector('[data-hand=GBR7]')?.textContent === '03:16:40'")
        self.assertEqual(self.journal(), ["SCORER TIME 1 GBR7 900"])
        self.need_no_faults()


if __name__ == "__main__":
    unittest.main()
