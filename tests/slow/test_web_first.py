"""A first run without a series, in Chromium over the real program: an entry list, settings, and the first finish."""
from __future__ import annotations

import os
import unittest

import helpers
from devices import Device
from web_office import NewOffice, finishes

LIST = "Herbstpokal 2026;;\nBoot;Segelnummer;Steuermann\nMöwe;GER 412;H. Jansen\nKiebitz;GER 23;U. Brandt\nTärna;SWE 86;K. Lind\n"


class First(NewOffice):
    """A scorer makes a series, and lets a phone in."""

    def setUp(self) -> None:
        super().setUp()
        self.addCleanup(helpers.kill_office, os.path.join(self.here, "herbstpokal"))

    def test_a_series_is_made(self) -> None:
        """A Latin-1 list with semicolons, a title row and German headings; settings and what they mean; then a
        finish on a phone."""
        scorer = self.device("scorer", "Bea’s laptop")
        self.upload(scorer, "Meldeliste.csv", LIST.encode("latin-1"))
        scorer.until("document.querySelectorAll('.boats tbody tr').length === 3")
        self.assertEqual(scorer.texts(".boats tbody tr:first-child > *")[:3], ["GER 412", "Möwe", "H. Jansen"])
        scorer.type("#series-title", "Herbstpokal")
        self.assertEqual(scorer.run("document.querySelector('#short').value"), "herbstpokal")
        scorer.click("#exclude-other")
        # One score is excluded from four races on.
        scorer.until("document.querySelector('#meaning').textContent.includes('one from 4 races')")
        scorer.click("#make")
        scorer.until("[...document.querySelectorAll('h2')].some(one => one.textContent === 'Who may write')")
        self.assertIn("exclude = 4\n", self.text("herbstpokal", "series.ini"))
        scorer.click("[data-role=FINISH]")
        scorer.until("!!document.querySelector('.qr path')")
        link = scorer.text(".linktext")
        ann = Device(self.chromium, 390, 844, 2, touch=True)
        ann.come(self.address(link[link.index("/office/in"):]), "Ann’s phone")
        ann.tap("GER412")
        self.settle(ann)
        self.assertEqual(self.journal("herbstpokal"), finishes("GER412"))
        self.need_no_faults()

    def test_ratings(self) -> None:
        """The page shows each boat's rating, and by corrected time says who has none that the system takes."""
        scorer = self.device("scorer", "Bea’s laptop")
        self.upload(scorer, "Meldeliste.csv", b"Sail,Boat,PY\nGBR 101,Kestrel,1050\nGBR 7,Sea Pink,\nNED 12,Windhover,1.05\n")
        scorer.until("document.querySelectorAll('.boats tbody tr').length === 3")
        self.assertEqual(scorer.texts(".boats thead th")[4:], ["PY"])
        self.assertEqual(scorer.texts(".boats tbody td:nth-child(5)"), ["1050", "", "1.05"])
        scorer.click("#handicap-yes")
        scorer.type("[name=system]", "py")
        scorer.until("document.querySelector('#meaning .waits')?.textContent.includes('isn\u2019t a rating')")
        self.assertRegex(scorer.text("#meaning .waits"), r"row 3: GBR\s7 has no rating[^$]*row 4: NED\s12: 1\.05 isn’t a rating of the system")
        self.need_no_faults()


if __name__ == "__main__":
    unittest.main()
