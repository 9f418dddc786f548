"""A browser that knows no styles shows each page as those that do: no text runs into the next."""
from __future__ import annotations

import dataclasses
import re
import unittest

from forger import ForgedPages, journal_of
from raceoffice.results.html.listing import listing
from raceoffice.results.html.notice_board import results as notice
from raceoffice.results.html.overall import overall
from raceoffice.results.html.race import one_race, tables
from raceoffice.series.entry_list import Boat
from unstyled import Unstyled

# GBR 10 wins, and GBR 101 is last; their helms begin with digits, and boats without helms and a club alone do.
ENTRIES = "Sail,Helm,Boat,Club\nGBR 10,1 A. Moss,9 Kestrels,7 Seas\nGBR 101,0 J. Hale,Sea Pink,\nNED 1,,2 Plovers,\nNED 12,,,3 Oceans\n"
LINES = ["FINISH 1 GBR10", "FINISH 1 NED1", "MARK 1 NED12 DNF", "FINISH 1 GBR101", "PENALTY 1 GBR101 ZFP", "SCORE 1",
         "FINISH 2 GBR10", "FINISH 2 NED12", "FINISH 2 NED1", "FINISH 2 GBR101", "SCORE 2", "FINISH 3 NED1"]
TIMED = ["TIME 1 GBR10 3723", "TIME 1 NED1 3800", "TIME 1 GBR101 4000", "MARK 1 NED12 DNF", "SCORE 1",
         "TIME 2 GBR10 3723", "TIME 2 NED12 3723", "SCORE 2"]


class WithoutStyles(ForgedPages):
    def setUp(self) -> None:
        super().setUp()
        for name, lines, options in ("club", LINES, list[str]()), ("rated", TIMED, ["--handicap"]):
            folder = self.make(name, ENTRIES, title="Cup", club="Sandhaven 1", exclude="2", handicap="yes" if options else "no",
                               **{"class": "A 1"})
            self.write(journal_of(folder, *lines, options=options), name, "journal.txt")
        self.club, self.rated = self.view("club"), self.view("rated")

    def all_pages(self) -> dict[str, str]:
        """A page of each kind of several series."""
        found = {**self.pages(), "classes": notice([self.club, self.rated, self.tide]), "classes listed": listing([self.club, self.rated])}
        for name, view in ("club", self.club), ("rated", self.rated):
            races = {f"{name} race {number}": one_race(view, number, True) for number in view.race_pages}
            found |= {f"{name} top": overall(view, is_top=True), f"{name} among others": overall(view, True),
                      f"{name} alone": notice([view]), f"{name} listed": listing([view]), **races}
        return found

    def test_parted(self) -> None:
        """Between two texts of a page is a line, a border of a cell, a comma or a blank."""
        for name, page in self.all_pages().items():
            with self.subTest(name):
                self.assertEqual(Unstyled(page).glued(), [])

    def test_sails(self) -> None:
        """Each row of a table shows a boat's sail alone, or with a comma behind it, which no sail has."""
        pages = self.all_pages()
        for view, name in (self.club, "club"), (self.rated, "rated"):
            standing = [view.boat(row.sail).sail for row in view.standing.rows]
            first = [view.boat(sail).sail for sail in view.race(1).places()] + ["NED 12"]
            for kind, wanted in ("top", standing), ("among others", standing), ("alone", standing * 2), ("race 1", first):
                with self.subTest(name, kind=kind):
                    self.assertEqual(sails(pages[f"{name} {kind}"]), wanted)
            labels = ", ".join(f"{rank} {sail}" for rank, sail in enumerate(standing, 1))
            self.assertIn([f"R1, R2, 1, 2, 3, 4, {labels}"], Unstyled(pages[f"{name} alone"]).texts())
            listed = Unstyled(pages[f"{name} listed"]).texts()
            self.assertEqual([["Leads: GBR 10"], ["Helm: 1 A. Moss"]], [line for line in listed if re.match("Leads|Helm", line[0])][:2])

    def test_shared_lead(self) -> None:
        """No helm can be taken for a boat that shares the lead: of those that do there are sails alone."""
        view = dataclasses.replace(self.club, boats={row.sail: Boat(row.sail, helm="Jo and GBR 7, Al") for row in self.club.standing.rows})
        first, *others = view.standing.rows
        shared = [first] + [dataclasses.replace(row, rank=1, shared=True) for row in others[:4]]
        for rows, wanted in ([first, *others], [f"Leads: {first.sail}", "Helm: Jo and GBR 7, Al"]), \
                (shared[:2], [f"Leads: {first.sail} and {others[0].sail}"]), \
                (shared, [f"Leads: {first.sail} and {others[0].sail} and {others[1].sail} and {len(shared) - 3} more"]):
            page = listing([dataclasses.replace(view, standing=dataclasses.replace(view.standing, rows=tuple(rows)))])
            self.assertEqual([line[0] for line in Unstyled(page).texts() if re.match("Leads|Helm", line[0])], wanted)

    def test_rows(self) -> None:
        """The cells of a row with names begin at one line, also where no style says so: a rank is beside the sail."""
        for name, page in self.all_pages().items():
            with self.subTest(name):
                rows = [row for row in re.findall("<tr[^>]*>.*?</tr>", page, re.DOTALL) if 'class="who"' in row and "<td" in row]
                self.assertEqual([row[:60] for row in rows if ' valign="top">' not in row.partition("<t")[2][:row.index(">")]], [])
                self.assertEqual(len(rows) > 0, "listed" not in name and name != "list")

    def test_commas(self) -> None:
        """Also where a cell of a table is parted from the next by a blank alone, a comma ends each sail that something follows."""
        for name, page in self.all_pages().items():
            cells = [text for texts in Unstyled(page).texts() if len(texts) > 1 for text in texts]
            with self.subTest(name):
                self.assertEqual({*cells} & {"GBR 10", "GBR 101", "NED 1", "NED 12"}, set())

    def test_held(self) -> None:
        """What a boat holds in a race is shown before her sail, where no name is, and in words below the tables."""
        rows = [texts for number in (1, 2) for texts in Unstyled(one_race(self.tide, number)).texts()]
        for wanted in (["2= ZFP", "GBR 7,", "<b>Jo</b> Sea & \"Pink", "3.5"], ["OCS", "IRL 5,", "M. Byrne Howth", "5.0"],
                       ["RDG", "IRL 5,", "M. Byrne Howth", "5.0"], ["Redress and penalties"],
                       ["Race 2, IRL 5: redress, the average of her points in all other races (RRS A9(a))."]):
            self.assertIn(wanted, rows)
        two = dataclasses.replace(self.tide.race(1), penalties={"GBR7": ["ZFP", "ZFP", "SCP"]}, redress={"IRL5": "2.0"})
        shown = {texts[1]: texts[0] for texts in Unstyled(str(tables(self.tide, two))).texts() if len(texts) > 2}
        self.assertEqual((shown["GBR 7,"], shown["IRL 5,"]), ("2= ZFP × 2 SCP", "OCS RDG"))

    def test_right_to_left(self) -> None:
        """Behind names from right to left a mark turns the row back: its digits would be turned with them."""
        boats = {row.sail: Boat(row.sail, helm="\u05d3\u05d5\u05d3", club=club)
                 for row, club in zip(self.club.standing.rows, ("\u05d7\u05d9\u05e4\u05d4", "", "Haifa", ""))}
        view = dataclasses.replace(self.club, boats=boats)
        for page in (notice([view]), one_race(view, 1), overall(view)):
            turned = [text for texts in Unstyled(page).texts() if len(texts) > 1 for text in texts if re.search("[\u05d0-\u05ea]", text)]
            self.assertGreaterEqual(len(turned), 4)
            self.assertEqual([text for text in turned if not text.endswith("\u200e")], [])

    def test_no_alarm(self) -> None:
        """The words of the alarm aren't in the file, since such a browser shows what is hidden, too."""
        for name, page in self.all_pages().items():
            with self.subTest(name):
                self.assertNotRegex(" ".join(text for texts in Unstyled(page).texts() for text in texts), "Out of date[.] *Reload")


def sails(page: str) -> list[str]:
    """The sail that each row of a table shows."""
    return [text.partition(",")[0] for texts in Unstyled(page).texts() if len(texts) > 1
            for text in texts if text.startswith(("GBR", "NED"))]


if __name__ == "__main__":
    unittest.main()
