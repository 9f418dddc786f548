"""The scorer changes a series' settings on the page, over the real program."""
from __future__ import annotations

import os
import unittest

import helpers
from web_office import SAILS, WebTrial


class SettingsPage(WebTrial):
    def test_settings(self) -> None:
        """What would change is shown before it can be saved; what is saved holds once the office is opened again."""
        ann, scorer = self.phone(), self.device("scorer", "Bea’s laptop")
        for sail in SAILS[:2]:
            ann.tap(sail)
        ann.click("#code")
        ann.tap(SAILS[2])
        ann.choose("RET")
        self.settle(ann)
        scorer.until("document.querySelectorAll('.order tbody tr').length === 3")
        scorer.click("#score")
        scorer.choose("yes")
        scorer.until("!!document.querySelector('#unscore')")
        scorer.click("#tab-settings")
        scorer.until("!!document.querySelector('#save') && !document.querySelector('#save').disabled")
        self.assertIn("No score would change", scorer.text("#effect"))
        self.assertTrue(scorer.run("document.querySelector('#absent-a52').checked"))
        # Until its effect is there, which may be soon, it can't be saved.
        self.assertTrue(scorer.run("document.querySelector('#absent-a53').click(), document.querySelector('#save').disabled"))
        scorer.until("!document.querySelector('#save').disabled")
        self.assertIn("A5.2 or A5.3", scorer.text("#effect .waits"))
        # She retired: 25 points for 24 boats (RRS A5.2), or 4 for the three that came (RRS A5.3).
        self.assertIn("NED 12 Windhover: 3rd, net 25.0 to 4.0", scorer.text("#effect"))
        self.assertIn("absent = a52\n", self.text("cup", "series.ini"))
        scorer.type("#set-title", "Spring Cup")
        scorer.until("!document.querySelector('#save').disabled")
        scorer.click("#save")
        scorer.until("!!document.querySelector('#waiting') && document.querySelector('#title').textContent === 'Spring Cup'")
        self.assertIn("absent = a53\n", self.text("cup", "series.ini"))
        self.assertTrue(scorer.run("document.querySelector('#absent-a53').checked"))
        scorer.click("#reopen")
        scorer.choose("yes")
        scorer.until("document.querySelector('dialog[open] h2')?.textContent === 'Is that right?'")
        self.assertIn("No leaves it open with the old ones", scorer.text("dialog[open]"))
        scorer.choose("yes")
        scorer.until("!document.querySelector('#waiting') && !!document.querySelector('#save')")
        scorer.click("#tab-races")
        scorer.until("[...document.querySelectorAll('.standing td.net')].some(one => one.textContent === '4.0')")
        self.need_no_faults()

    def test_rules_that_wait(self) -> None:
        """Rules that are saved wait until somebody says Yes to them: a No opens the office with those in force. What is open
        before the results are final names them."""
        scorer = self.device("scorer", "Bea’s laptop")
        scorer.click("#tab-settings")
        scorer.until("!!document.querySelector('#save') && !document.querySelector('#save').disabled")
        scorer.click("#absent-a53")
        scorer.until("!document.querySelector('#save').disabled")
        scorer.click("#save")
        scorer.until("!!document.querySelector('#waiting')")
        scorer.click("#tab-results")
        scorer.until("document.querySelector('.open-points')?.textContent.includes('not in force')")
        self.assertIn("A5.2 or A5.3", scorer.text(".open-points"))
        scorer.click("#tab-office")
        scorer.click("section[data-key=cup] button.bad")
        scorer.choose("yes")
        for answer in ("", "no"):
            scorer.until("!!document.querySelector('section[data-key=cup] button.main')")
            scorer.click("section[data-key=cup] button.main")
            scorer.until("!!document.querySelector('dialog[open] button[data-value=no]')")
            self.assertIn("No opens it with the old ones", scorer.text("dialog[open]"))
            if answer:
                scorer.choose(answer)
            else:
                scorer.run("document.querySelector('dialog[open]').dispatchEvent(new Event('cancel', {cancelable: true})); 0")
                scorer.until("!document.querySelector('dialog[open]')")
        scorer.until("!!document.querySelector('section[data-key=cup] .chip.good')")
        scorer.click("#tab-settings")
        scorer.until("!!document.querySelector('#waiting')")
        self.assertIn("RRS A5.2", scorer.text("#waiting"))
        self.need_no_faults()

    def test_rules_of_a_closed_office(self) -> None:
        """Rules that wait for the opening of a closed class: nobody keeps it, and the page opens it with them."""
        scorer = self.device("scorer", "Bea’s laptop")
        scorer.click("#tab-settings")
        scorer.until("!!document.querySelector('#save') && !document.querySelector('#save').disabled")
        scorer.click("#absent-a53")
        scorer.until("!document.querySelector('#save').disabled")
        scorer.click("#save")
        scorer.until("!!document.querySelector('#waiting')")
        scorer.click("#tab-office")
        scorer.click("section[data-key=cup] button.bad")
        scorer.choose("yes")
        scorer.until("!!document.querySelector('section[data-key=cup] button.main')")
        scorer.click("#tab-settings")
        scorer.until("!!document.querySelector('#waiting')")
        self.assertNotIn("keeps this office", scorer.text("#waiting"))
        self.assertEqual(scorer.text("#waiting button"), "Open the office")
        scorer.click("#open-closed")
        scorer.until("document.querySelector('dialog[open] h2')?.textContent === 'Is that right?'")
        scorer.choose("yes")
        scorer.until("!document.querySelector('#waiting') && !!document.querySelector('#save')")
        self.assertIn("absent = a53\n", self.text("cup", "series.ini"))
        self.need_no_faults()


class EntriesPage(WebTrial):
    """A boat's names are put right, and a boat that was entered by mistake is taken out."""

    def test_entries(self) -> None:
        ann, scorer = self.phone(), self.device("scorer", "Bea’s laptop")
        for sail in SAILS[:2]:
            ann.tap(sail)
        self.settle(ann)
        scorer.until("document.querySelectorAll('.order tbody tr').length === 2")
        scorer.click("#correct-names")
        scorer.click(f"dialog button[data-sail={SAILS[0]}]")
        scorer.until("!!document.querySelector('dialog input[name=name]')")
        self.assertEqual(scorer.text("dialog[open] h2"), "Correct the entry list · GBR 101")
        was = scorer.run("document.querySelector('dialog input[name=name]').value")
        scorer.type("dialog input[name=name]", "Kestrels")
        scorer.choose("yes")
        scorer.until(f"document.querySelector('dialog[open]')?.textContent.includes('{was} → Kestrels')")
        self.assertNotIn("Kestrels", self.text("cup", "entries.csv"))
        scorer.choose("yes")
        scorer.until("document.querySelector('.order tbody tr').textContent.includes('Kestrels')")
        self.assertIn("Kestrels", self.text("cup", "entries.csv"))
        scorer.click("#take-out")
        scorer.click(f"dialog button[data-sail={SAILS[1]}]")
        scorer.until(f"document.querySelector('dialog[open] .mono')?.textContent.includes('FINISH 1 {SAILS[1]}')")
        self.assertEqual(len(self.journal()), 2)
        scorer.choose("yes")
        scorer.until("document.querySelectorAll('.order tbody tr').length === 1")
        self.assertEqual(self.journal(), [f"FINISH FINISH 1 {SAILS[0]}"])
        # The devices go on. One that taps before she has the news is asked.
        ann.until("document.querySelectorAll('li[data-sail]').length === 1")
        ann.tap(SAILS[2])
        self.settle(ann)
        self.assertEqual(self.journal(), [f"FINISH FINISH 1 {SAILS[0]}", f"FINISH FINISH 1 {SAILS[2]}"])
        self.need_no_faults()


@helpers.needs_times
class TimesPage(WebTrial):
    classes = {"cup": "Sail,Boat,TCF\nGBR 101,Kestrel,1.000\nGBR 7,Sea Pink,0.900\n"}
    settings = {"handicap": "yes", "zone": "UTC"}

    def test_starts(self) -> None:
        """A second start is put in for a boat that is ticked; the times follow: 3,600 s x 1.000, 3,300 s x 0.900.

        They come to every page on which the sheet is shown, and there too what is typed stays."""
        os.makedirs(os.path.join(self.here, "cup", "times"), exist_ok=True)
        self.write(f"[times]\nsystem = tcf\nprogram = {helpers.TIMES}\n", "cup", "times", "rules.ini")
        self.write("Sail,Start,Finish\nGBR 101,14:00:00,15:00:00\nGBR 7,14:00:00,15:05:00\n", "cup", "times", "race-1.csv")
        scorer, other = self.device("scorer", "Bea’s laptop"), self.device("scorer", "Cy’s tablet")
        for device in (other, scorer):
            device.until("!!document.querySelector('#tab-times')")
            device.click("#tab-times")
            device.until("document.querySelectorAll('#times-table tbody tr').length === 2")
        other.type(".options input[name=start]", "14:20")
        scorer.click("tr[data-sail=GBR7] input[type=checkbox]")
        scorer.type(".options input[name=start]", "14:10")
        scorer.click("#put-in")
        scorer.click("#send-times")
        for device in (scorer, other):
            device.until("document.querySelector('tr[data-sail=GBR7] td:last-child').textContent === '0:49:30'")
        self.assertEqual(other.run("document.querySelector('.options input[name=start]').value"), "14:20")
        self.assertEqual(self.journal(), ["SCORER TIME 1 GBR101 3600", "SCORER TIME 1 GBR7 2970"])
        self.assertIn(",14:10:00,15:05:00", self.text("cup", "times", "race-1.csv"))
        self.need_no_faults()

    def test_night(self) -> None:
        """A race past midnight, and a boat of which only the elapsed time is known: 23:00 to 0:10 are 4,200 s x 1.000, and
        3,900 s x 0.900. The rounding is shown."""
        os.makedirs(os.path.join(self.here, "cup", "times"), exist_ok=True)
        self.write(f"[times]\nsystem = tcf\nprogram = {helpers.TIMES}\n", "cup", "times", "rules.ini")
        self.write("Sail,Start,Finish\nGBR 101,23:00:00,00:10:00\nGBR 7,23:00:00,\n", "cup", "times", "race-1.csv")
        scorer = self.device("scorer", "Bea’s laptop")
        scorer.until("!!document.querySelector('#tab-times')")
        scorer.click("#tab-times")
        scorer.until("document.querySelectorAll('#times-table tbody tr').length === 2")
        self.assertIn("Rounding: to the nearest second", scorer.run("document.querySelector('#page').textContent"))
        scorer.click("#overnight")
        scorer.type("tr[data-sail=GBR7] input[name=elapsed]", "1:05:00")
        scorer.click("#send-times")
        for sail, corrected in (("GBR101", "1:10:00"), ("GBR7", "0:58:30")):
            scorer.until(f"document.querySelector('tr[data-sail={sail}] td:last-child')?.textContent === '{corrected}'")
        scorer.until("document.querySelector('#overnight')?.checked && "
                     "document.querySelector('tr[data-sail=GBR7] input[name=elapsed]').value === '1:05:00'")
        self.assertEqual(self.journal(), ["SCORER TIME 1 GBR101 4200", "SCORER TIME 1 GBR7 3510"])
        self.assertIn("overnight = 1\n", self.text("cup", "times", "rules.ini"))
        self.need_no_faults()


if __name__ == "__main__":
    unittest.main()
