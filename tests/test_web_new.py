"""A series made from a page: any spreadsheet's list, settings in the words of sailing instructions."""
from __future__ import annotations

import base64
import os
import unittest
from typing import Any

import helpers
from raceoffice.errors import NotSent
from raceoffice.series.entry_list import Boat
from raceoffice.series.mend_list import mended
from raceoffice.web.new_series import folder_made, list_shown, settings_shown
from web_devices import Device, Web

GERMAN = ("Herbstpokal 2026;;;;\nStand: 1. Oktober;;;;\nBoot;Segelnummer;Steuermann;Crew;Yardstick\n"
          "Möwe;GER 412;H. Jansen;2;101,5\nKiebitz;GER 23;U. Brandt;1;99\nTärna;SWE 86;K. Lind;2;104,25\n")
ENGLISH = b"Sail,Boat,Helm\nGBR 7,Sea Pink,J. Hale\nGBR 33,Turnstone,R. Shaw\n"


class Lists(unittest.TestCase):
    def test_german(self) -> None:
        """Semicolons, Latin-1, two rows above the headings, decimal commas: the boats and their ratings are
        those of the list, and each column that nothing reads is named."""
        found = mended(GERMAN.encode("latin-1"))
        self.assertEqual(found.wrong, [])
        self.assertEqual(found.boats, [Boat("GER 412", "H. Jansen", "Möwe"), Boat("GER 23", "U. Brandt", "Kiebitz"),
                                       Boat("SWE 86", "K. Lind", "Tärna")])
        self.assertEqual(found.done, ["Its letters were not UTF-8: look at names with accents.",
                                      "Its columns were separated by semicolons.",
                                      "2 rows above the headings left out.", "Not read: Crew and Yardstick."])
        self.assertEqual(found.data.decode().splitlines()[:2],
                         ["Boot,Segelnummer,Steuermann,Crew,Yardstick", 'Möwe,GER 412,H. Jansen,2,"101,5"'])

    def test_forms(self) -> None:
        """The same list in other encodings, separators and ends of lines gives the same boats."""
        plain = mended(ENGLISH)
        self.assertEqual((plain.done, plain.wrong, plain.is_sail_known), ([], [], True))
        text = ENGLISH.decode()
        for data, said in [(b"\xef\xbb\xbf" + ENGLISH, []), (text.encode("utf-16"), ["It was UTF-16."]),
                           (text.encode("utf-32"), ["It was UTF-32."]), (ENGLISH.replace(b"\n", b"\r\n"), []),
                           (text.replace(",", "\t").encode(), ["Its columns were separated by tabs."]),
                           (text.replace(",", "\t").encode("utf-16"), [
                               "It was UTF-16.", "Its columns were separated by tabs."]),
                           (ENGLISH.replace(b"Sail", b"Zeilnummer"), []), (ENGLISH.replace(b"Sail", b"VELA"), [])]:
            found = mended(data)
            self.assertEqual((found.boats, found.done, found.wrong), (plain.boats, said, []), data[:20])

    def test_column(self) -> None:
        """A list whose headings name no sail: the one that looks like it is taken, or one that somebody
        chooses. Nothing is guessed silently."""
        found = mended(ENGLISH.replace(b"Sail,", b"Sail no. (big),"))
        self.assertEqual((found.done, len(found.boats)), (["The column Sail no. (big) is taken for the sails."], 2))
        other = ENGLISH.replace(b"Sail,", b"Number,")
        found = mended(other)
        self.assertEqual((found.is_sail_known, found.boats, found.heads), (False, [], ["Number", "Boat", "Helm"]))
        self.assertEqual(found.wrong, ["No column of The list has the heading Sail, SailNo or SailNumber."])
        chosen = mended(other, 0)
        self.assertEqual((chosen.is_sail_known, len(chosen.boats), chosen.done),
                         (True, 2, ["The column Number is taken for the sails."]))
        titled = mended(b"Autumn Cup 2026\n" + other.replace(b",", b";"), 0)
        self.assertEqual((len(titled.boats), titled.heads), (2, ["Number", "Boat", "Helm"]))
        # Names with a dot are no sails.
        self.assertIn('"J. Hale" has a dot', mended(other, 2).wrong[0])
        for none in (-1, 3, 99):
            self.assertFalse(mended(other, none).is_sail_known)

    def test_no_headings(self) -> None:
        """Where a list has no headings, no boat is taken for one: she would be left out."""
        for data, row in ((b"GBR 7;Sea Pink\nGBR 33;Turnstone\n", 1), (b"Autumn Cup\nGBR 7;Sea Pink\nGBR 33;Turnstone\n", 2)):
            found = mended(data, 0)
            self.assertEqual((found.wrong, found.boats), ([f"The list, row {row}: GBR 7 stands where the headings have to be. Put a row above "
                                                           "it with what is in each column, as Sail, Boat and Helm."], []))

    def test_headings_with_digits(self) -> None:
        """Headings that might be sails are headings all the same beside two others that are known, and where a spreadsheet has
        numbered the columns: somebody who was told to put a row above would have one as a boat."""
        for data in (b"Nr 2026,Boat,Helm\nGBR 7,Sea Pink,Ann\nGBR 33,Turnstone,Bob\n", b"Spalte1;Spalte2\nGBR 7;Sea Pink\nGBR 33;Turnstone\n",
                     b"1,2,3\nGBR 7,Sea Pink,Ann\nGBR 33,Turnstone,Bob\n"):
            found = mended(data, 0)
            self.assertEqual(([boat.sail for boat in found.boats], found.wrong), (["GBR 7", "GBR 33"], []))
        for data in (b"1,Sea Pink\n2,Turnstone\n", b"GBR/7,Sea Pink\nGBR 33,Turnstone\n"):
            self.assertEqual(len(mended(data, 0).wrong), 1)

    def test_wrong(self) -> None:
        """What keeps a list from being used is said with its row."""
        for data, wanted in [(b"", "The list is empty."), (b"PK\x03\x04", "is a spreadsheet, not CSV"),
                             ("Sail\nA\n".encode("utf-16-le"), "UTF-16 without its mark"),
                             (b"Sail,Boat\nGBR 7,A\ngbr7,B\n", "The list, row 3: gbr7 is in row 2, too."),
                             (b"Sail,Boat\nGBR_7,A\n", 'the sail "GBR_7" has an underscore'),
                             (b"Sail,Boat\n", "The list has headings, but no boats.")]:
            found = mended(data)
            self.assertIn(wanted, "\n".join(found.wrong), data)
            self.assertEqual(found.boats, [])

    def test_rows(self) -> None:
        """Rows are counted as the spreadsheet counts them, with its title and its blank rows: what is wrong with one is
        found there."""
        above = "Autumn Cup;;\n;;\nSail;Boat;TCF\n"
        found = mended(f"{above}GBR 7;A;1\n;;\nGBR 33;B;1\ngbr7;C;1\nGBR_9;D;1\n".encode())
        self.assertEqual([" ".join(str(one).split()[:4]) for one in found.wrong],
                         ["The list, row 7:", "The list, row 8:"])
        self.assertIn("gbr7 is in row 4, too", found.wrong[0])
        rated = list_shown({"data": base64.b64encode(f"{above}GBR 7;A;1,05\n;;\nGBR 33;B;\n".encode()).decode()})
        given = {"settings": {"handicap": "yes"}, "text": rated["numbered"], "system": "tcf"}
        noted = settings_shown(given)["note"]
        assert isinstance(noted, list)
        self.assertEqual([one["values"]["row"] for one in noted], [6])
        self.assertEqual(rated["text"], "Sail,Boat,TCF\nGBR 7,A,1.05\nGBR 33,B,\n")


class Rules(unittest.TestCase):
    def test_words(self) -> None:
        """What settings mean is said before a series is made of them."""
        for given, words in [
                ({}, "Scores excluded: one from 2 races. RRS A5.2. Scoring Penalty 20%. By order of finishing."),
                ({"exclude": "4,8", "absent": "a53", "scp": "3", "handicap": "yes"},
                 "Scores excluded: one from 4 races and two from 8 races. RRS A5.3. Scoring Penalty 3 "
                 "points. By corrected time."),
                ({"exclude": "none"}, "No score excluded. RRS A5.2. Scoring Penalty 20%. By order of finishing.")]:
            shown = settings_shown({"settings": given})
            self.assertEqual((shown["rules"], shown["wrong"]), (words, []))
        shown = settings_shown({"settings": {"exclude": "8,4", "scp": "0"}})
        wrong = shown["wrong"]
        assert isinstance(wrong, list)
        self.assertEqual((shown["rules"], len(wrong)), ("", 2))
        self.assertEqual((wrong[0]["kind"], wrong[0]["values"]["key"], wrong[0]["values"]["value"]),
                         ("setting-value", "exclude", "'8,4'"))
        self.assertRaises(NotSent, settings_shown, {"settings": "all"})
        rated = settings_shown({"settings": {"handicap": "yes"}, "text": ENGLISH.decode()})
        self.assertIn("'kind': 'list-unrated'", str(rated["note"]))


class First(Web):
    """A first run without a series."""
    words: tuple[str, ...] = ()

    def prepare(self) -> None:
        os.rename(os.path.join(self.here, "cup"), os.path.join(self.here, "old"))
        os.symlink(helpers.PROGRAM, os.path.join(self.here, "regatta"))

    def test_made(self) -> None:
        """The scorer makes a series from a list and settings. Its office opens, its board is there, and the
        devices stay known; so do the links, when the web comes again with the series."""
        scorer = self.device("scorer")
        self.assertEqual(scorer.ask("GET", "/office/scorer/me")[1]["classes"], [])
        self.assertEqual(scorer.ask("GET", "/")[0], 301)
        data = base64.b64encode(GERMAN.encode("latin-1")).decode()
        found = scorer.ask("POST", "/office/scorer/list", {"data": data})[1]
        self.assertEqual(found["boats"][0], ["GER 412", "Möwe", "H. Jansen", ""])
        given = {"title": "Herbstpokal", "exclude": "4", "absent": "a53", "zone": "UTC"}
        # A short name has small letters, whatever is typed.
        made = scorer.ask("POST", "/office/scorer/new", {"name": "Herbst", "text": found["text"],
                                                          "settings": given})[1]
        self.assertEqual((made["class"], made["open"]), ("herbst", True), made)
        self.assertIn("exclude = 4\n", self.text("herbst", "series.ini"))
        finish = self.device("finish")
        self.assertEqual(finish.tap("FINISH 1 GER412", name="herbst")[1]["outcome"], "taken")
        helpers.until("the board", lambda: "Herbstpokal" in str(scorer.ask("GET", "/")[1]))
        with helpers.time_zone("Europe/Berlin"), helpers.folder() as here:
            folder_made(here, {"name": "berlin", "text": found["text"], "settings": {"title": "Herbstpokal"}})
            with open(os.path.join(here, "berlin", "series.ini"), encoding="utf-8") as file:
                self.assertIn("\nzone = Europe/Berlin\n", file.read())
        for name, text, settings in [("herbst", found["text"], given), ("../x", found["text"], given),
                                     ("next", "Sail\n?\n", given),
                                     ("next", found["text"], {**given, "exclude": "1"}),
                                     ("next", found["text"], {}), ("next", found["text"], "none"),
                                     ("next", found["text"], {**given, "title": "T" * 2_000_000}),
                                     ("next", found["text"], {**given, "club": "C" * 201}),
                                     ("next", found["text"] + ",,,,\n" * 220_000, given),
                                     ("old", found["text"], given), ("A b", found["text"], given)]:
            status, said = scorer.ask("POST", "/office/scorer/new", {"name": name, "text": text,
                                                                      "settings": settings})
            self.assertEqual(status, 422, (name, said))
        self.assertEqual(sorted(os.listdir(self.here)), ["herbst", "old", "printed.txt", "regatta"])
        # The same again, as if its answer had been lost, is the same series, until something else is typed.
        for again in range(2):
            second = scorer.ask("POST", "/office/scorer/new", {
                "name": "next", "text": ENGLISH.decode(), "settings": {"title": "Next", "zone": "UTC"}})[1]
            self.assertEqual((second["class"], second["open"]), ("next", True), second)
        self.assertEqual([one["class"] for one in scorer.ask("GET", "/office/scorer/me")[1]["classes"]],
                         ["herbst", "next"])
        self.kill()
        self.words = ("herbst", "next")
        self.serve()
        self.assertEqual(self.known(scorer, finish), [200, 200])

    def test_names(self) -> None:
        """No two classes are called the same on the pages, as when one fleet sails two series. The board has a series of any
        name, also of that with which the office's own addresses begin."""
        scorer, given = self.device("scorer"), {"class": "Dragon", "zone": "UTC"}
        for name, title, group in (("cup", "Cup", "Dragon"), ("fleet", "Folkboats", "Folkboat"), ("wednesday", "Wednesdays", "Dragon"),
                                   ("office", "Office Cup", "")):
            made = scorer.ask("POST", "/office/scorer/new", {
                "name": name, "text": ENGLISH.decode(), "settings": given | {"title": title, "class": group}})[1]
            self.assertEqual((made["class"], made["open"]), (name, True), made)
        classes = scorer.ask("GET", "/office/scorer/me")[1]["classes"]
        self.assertEqual([one["group"] for one in classes], ["Dragon (cup)", "Folkboat", "Dragon (wednesday)", "office"])
        helpers.until("the board", lambda: "Office Cup" in str(scorer.ask("GET", "/")[1]))
        for page in ("index.html", "now.json", "results.csv"):
            self.assertEqual([(name, scorer.ask("GET", f"/{name}/{page}")[0]) for name in ("cup", "office")], [("cup", 200), ("office", 200)])
        self.assertEqual([scorer.ask("GET", f"/office/{path}")[0] for path in ("in", "nothing.html", "static/nothing.js")], [200, 404, 404])

    @staticmethod
    def known(*devices: Device) -> list[Any]:
        return [device.again().ask("GET", f"/office/{device.role}/me")[0] for device in devices]


if __name__ == "__main__":
    unittest.main()
