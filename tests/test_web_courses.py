"""Times that wait for the laps, or the distance, of a boat: the page says whose."""
from __future__ import annotations

import functools
import unittest
from typing import Any

import helpers
from test_web_timed import ENTRIES, Prepared


@helpers.needs_times
class Courses(Prepared):
    def test_laps_that_are_missing(self) -> None:
        """If a boat has no laps or no distance, and none above her in the sheet has, no time of the race is sent: the page says who,
        and nothing once she has them: 3,600 s x 1000/500 and 3,900 s x 1000/400, 3,600 s - 500 x 0.5 and 3,900 s - 400 x 0.5. A
        boat without a rating waits alone."""
        self.write(ENTRIES.replace("TCF", "Rating").replace("1.000", "500").replace("0.900", "900").replace("1.250", "").replace("0.8", "400"),
                   "cup", "entries.csv")
        ann, scorer = self.device("finish"), self.device("scorer")

        def why() -> list[Any]:
            return [(one["kind"], one["values"]) for one in scorer.state()["races"]["1"]["sheet"]["why"]]
        for system, key, given, lines in (("py", "Laps", "3", ["GBR101 7200", "FRA9 9750"]), ("tod", "Distance", "0.5", ["GBR101 3350", "FRA9 3700"])):
            with self.subTest(system=system):
                self.write(f"[times]\nsystem = {system}\nprogram = {helpers.TIMES}\n", "cup", "times", "rules.ini")
                sheet = f"Sail,Start,Finish,Code,{key}\n{{}}GBR101,14:00:00,15:00:00,,{{}}\nFRA9,14:00:00,15:05:00,,{given}\n"
                self.write(sheet.format("GBR7,14:00:00,,DNF,\nNED12,14:00:00,15:01:00,,\n", ""), "cup", "times", "race-1.csv")
                held = self.journal()
                said = scorer.tap("TIMES 1")[1]["said"]
                self.assertEqual([one["what"] for one in said], ["sheet-waits"], said)
                self.assertEqual(why(), [(f"{key.lower()}-missing", {"sail": "GBR101"})])
                self.assertEqual(self.journal(), held)
                self.write(sheet.format("", given), "cup", "times", "race-1.csv")
                self.assertEqual(scorer.tap("TIMES 1")[1]["outcome"], "taken")
                self.assertEqual(why(), [])
                self.assertEqual(sorted(self.journal()[len(held):]), sorted(f"SCORER TIME 1 {line}" for line in lines))
                for line in lines:
                    ann.tap(f"STRIKE 1 {line.split()[0]}")
        # No boat has laps: none needs any.
        self.write(f"[times]\nsystem = py\nprogram = {helpers.TIMES}\n", "cup", "times", "rules.ini")
        self.write("Sail,Start,Finish,Laps\nGBR101,14:00:00,15:00:00,\n", "cup", "times", "race-1.csv")
        self.assertEqual(scorer.tap("TIMES 1")[1]["outcome"], "taken")
        self.assertEqual(why(), [])

    def test_laps_of_who_is_not_entered(self) -> None:
        """The row of a boat that isn't entered is left out: no time waits for her laps, nor for her distance."""
        ratings = {"TCF": "Rating", "1.000": "500", "0.900": "900", "1.250": "600", "0.8": "400"}
        self.write(functools.reduce(lambda text, one: text.replace(*one), ratings.items(), ENTRIES), "cup", "entries.csv")
        scorer = self.device("scorer")
        for system, key, given in (("py", "Laps", "3"), ("tod", "Distance", "0.5")):
            self.write(f"[times]\nsystem = {system}\nprogram = {helpers.TIMES}\n", "cup", "times", "rules.ini")
            self.write(f"Sail,Start,Finish,{key}\nDEN61,14:00:00,15:00:00,\nFRA9,14:00:00,15:05:00,{given}\n", "cup", "times", "race-1.csv")
            scorer.tap("TIMES 1")
            self.assertEqual(scorer.state()["races"]["1"]["sheet"]["why"], [], system)
        # 3,900 s x 1000/400, and 3,900 s - 400 x 0.5
        self.assertEqual(self.journal(), ["SCORER TIME 1 FRA9 9750", "SCORER STRIKE 1 FRA9", "SCORER TIME 1 FRA9 3700"])


if __name__ == "__main__":
    unittest.main()
