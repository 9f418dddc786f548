"""The ratings of an entry list: what is said of them before anybody has finished, and on the pages."""
from __future__ import annotations

import base64
import itertools
import os
import subprocess
import unittest
from typing import Any

import helpers
from raceoffice.corrected.ratings import is_rating
from raceoffice.web.new_series import list_shown, settings_shown
from web_devices import Web

LIST = "Sail,Boat,PY,Note\nGBR 101,Kestrel,1050,x\nGBR 7,Sea Pink,,y\nNED 12,Windhover,\"1,05\",z\nFRA 9,Plover,1103,\n"
PIECES = ["", "0", "1", "9", "00", "007", "1050", "12345", "0.9", "1.05", "9.9999", "10.5", "1.23456", "999.99", "1000.5", "-", "+", ".",
          "1,05", "-12.5", "-0", "x", "1e3", "\uff11"]


class Ratings(unittest.TestCase):
    def test_as_the_program(self) -> None:
        """A text is a rating just if the program reads it as one, in each system."""
        texts = sorted({one + other for one, other in itertools.product(PIECES, ["", "0", ".5", "7", ".00"])} - {""})
        for system in ("tcf", "py", "tod"):
            for text in texts:
                self.assertEqual(is_rating(system, text), self.is_read(system, text), (system, text))

    def is_read(self, system: str, text: str) -> bool:
        """Whether the program reads a text as a rating."""
        ratings = os.memfd_create("ratings")
        os.write(ratings, f'Sail,Rating\nGBR1,"{text}"\n'.encode())
        os.lseek(ratings, 0, os.SEEK_SET)
        done = subprocess.run([helpers.TIMES, "sums", "--race", "1", "--system", system, "--entries", f"/dev/fd/{ratings}"],
                              input=b"Sail,Elapsed\n", capture_output=True, pass_fds=[ratings], check=False)
        os.close(ratings)
        self.assertIn(done.stderr, (b"", b"times: ratings fault 8 row 2: the rating isn't one of the system\n"))
        return done.returncode == 0

    def test_new_series(self) -> None:
        """The preview has each boat's rating, and names those that the system can't take, by their rows."""
        shown = list_shown({"data": base64.b64encode(LIST.encode()).decode()})
        self.assertEqual((shown["ratings"], [boat[4] for boat in self.boats(shown)]), (["PY"], ["1050", "", "1,05", "1103"]))
        self.assertEqual(self.noted(shown["text"], "yes", "py"), [
            ("list-row", 3, "GBR 7 has no rating"), ("list-row", 4, "NED 12: 1,05 isn't a rating of the system")])
        self.assertEqual([kind for kind, *_ in self.noted(shown["text"], "no", "py")], ["list-rated"])
        self.assertEqual([kind for kind, *_ in self.noted(shown["text"], "yes", "tod")], ["ratings-missing-tod"])
        self.assertEqual(self.noted(LIST.replace("1,05", "950").replace("Pink,,", "Pink,1,"), "yes", "py"), [])
        self.assertEqual(self.noted("Sail,PY,PY from 5\nGBR1,1050,\n", "yes", "py"), [("list-row", 2, "GBR1 has no rating")])

    def boats(self, shown: Any) -> list[list[str]]:
        boats: list[list[str]] = shown["boats"]
        return boats

    def noted(self, text: object, handicap: str, system: str) -> list[tuple[str, object, str]]:
        """What is noted of a list: kinds, rows, and what is wrong there."""
        values: Any = settings_shown({"settings": {"handicap": handicap}, "text": text, "system": system})["note"]
        return [(one["kind"], one["values"].get("row"), one["values"].get("fault", {}).get("text", "")) for one in values]


class AtTheFinish(Web):
    """A class by corrected time in which two boats lack a rating that the system takes."""

    def prepare(self) -> None:
        self.write("Sail,Boat,PY\nGBR 101,Kestrel,1050\nGBR 7,Sea Pink,\nNED 12,Windhover,1.05\n", "cup", "entries.csv")
        self.write(self.text("cup", "series.ini").replace("handicap = no", "handicap = yes"), "cup", "series.ini")
        os.mkdir(os.path.join(self.here, "cup", "times"))
        self.write("[times]\nsystem = py\nprogram = " + helpers.TIMES + "\n", "cup", "times", "rules.ini")

    def why(self, sail: str) -> list[str]:
        """What the finish page has of a boat whose time is in the sheet alone."""
        sheet = self.finish.state()["races"]["1"]["sheet"]
        return [one["text"] for one in [*sheet["why"], *sheet["rows"][sail]["why"]]]

    def test_why(self) -> None:
        """The page of the finish says of each boat why her time isn't in the journal."""
        self.finish = self.device("finish")
        for sail in ("GBR101", "GBR7"):
            self.finish.tap(f"FINISH 1 {sail} 15:07:31")
        odd = "entries.csv, row 4: NED 12: 1.05 isn't a rating of the system"
        start, none = "her start isn't recorded, or is after her finish", "entries.csv, row 3: GBR 7 has no rating"
        self.assertEqual([self.why("GBR101"), self.why("GBR7")], [[odd, start]] * 2)
        self.finish.tap("START 1 14:00:00")
        self.assertEqual([self.why("GBR101"), self.why("GBR7"), self.journal()], [[odd], [odd, none], []])
        self.write(self.text("cup", "entries.csv").replace("1.05", "1105"), "cup", "entries.csv")
        since = {"kind": "start-since", "values": {"race": 1, "start": "14:00:00", "written": "14:00:01"}}
        self.finish.tap("START 1 14:00:01", agreed=[since])
        self.assertEqual([self.why("GBR101"), self.why("GBR7")], [[], [none]])
        # 4,050 seconds, a thousandfold, by 1050
        self.assertEqual(self.journal(), ["FINISH TIME 1 GBR101 3857"])


if __name__ == "__main__":
    unittest.main()
