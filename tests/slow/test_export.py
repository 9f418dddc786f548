"""The results as a page, as CSV and as a text, beside what the program says."""
from __future__ import annotations

import csv
import os
import re
import shutil
import subprocess
import unittest
from html.parser import HTMLParser

import browser
from browser import Browser
import helpers

from forger import journal_of
from raceoffice.program import replay
from raceoffice.program.explanation import explanation_of
from raceoffice.program.standing import Standing
from raceoffice.results.html import chart
from test_page import APART, PALE, SIZES, SMALL, WEEK, season
from test_verify import LINES

OPTIONS = ["--exclude", "3"]


class Marks(HTMLParser):
    """The names of places in a page, where links lead, and the parts that were opened and closed."""

    def __init__(self, text: str) -> None:
        super().__init__()
        self.ids: list[str] = []
        self.links: list[str] = []
        self.open: list[str] = []
        self.feed(text)

    def handle_starttag(self, tag: str, attrs: list[tuple[str, str | None]]) -> None:
        values = dict(attrs)
        self.ids += filter(None, [values.get("id")])
        self.links += filter(None, [values.get("href")])
        self.links += [f"#{name}" for name in (values.get("aria-labelledby") or "").split()]
        if tag not in ("meta", "input", "link", "br"):
            self.open.append(tag)

    def handle_startendtag(self, tag: str, attrs: list[tuple[str, str | None]]) -> None:
        pass

    def handle_endtag(self, tag: str) -> None:
        assert self.open[-1] == tag, f"{self.open[-1]} is closed by {tag}"
        self.open.pop()


class Made(helpers.Series):
    def setUp(self) -> None:
        super().setUp()
        folder = os.path.join(self.here, "cup")
        self.write(self.text("cup", "series.ini").replace("exclude = 2", "exclude = 3"), "cup",
                   "series.ini")
        self.write(journal_of(folder, *LINES), "cup", "journal.txt")

    def results(self, *words: str) -> str:
        said, status = helpers.run("export", *words, cwd=self.here)
        self.assertEqual(status, 0, said)
        return said

    def week(self) -> None:
        """The week's series in `dragon`, 45 boats in 12 races."""
        shutil.copytree(WEEK, os.path.join(self.here, "dragon"))
        os.symlink(helpers.PROGRAM, os.path.join(self.here, "regatta"))


class Results(Made):
    def rows(self, name: str, separator: str = ",") -> list[dict[str, str]]:
        with open(os.path.join(self.here, name), encoding="utf-8", newline="") as file:
            self.assertEqual(file.read(1), "\ufeff")
            return list(csv.DictReader(file, delimiter=separator))

    def table(self, *options: str) -> list[list[str]]:
        """The program's own table, cell by cell."""
        done = subprocess.run(
            [helpers.PROGRAM, "replay", *options, "--journal",
             os.path.join(self.here, "cup", "journal.txt")], input="", capture_output=True, text=True)
        return [line.split() for line in done.stdout.splitlines()]

    # CSV

    def test_csv(self) -> None:
        """Read back, it is the program's table; the total is its net without exclusions."""
        self.results("cup", "--csv", "cup.csv")
        head, *right = self.table(*OPTIONS)
        totals = {row[1]: row[2] for row in self.table("--exclude", "none")[1:]}
        rows = self.rows("cup.csv")
        self.assertEqual(len(rows), 7)
        for row, wanted in zip(rows, right):
            cells = [row[f"R{race}"] + (f"/{row[f'R{race} code']}" if row[f"R{race} code"] else "")
                     for race in head[3:]]
            cells = [f"({cell})" if row[f"R{race} excluded"] == "yes" else cell
                     for race, cell in zip(head[3:], cells)]
            rank = row["rank"] + ("=" if row["tied"] == "yes" else "")
            self.assertEqual([rank, row["sail"].replace(" ", ""), row["net"], *cells], wanted)
            self.assertEqual(row["total"], totals[wanted[1]])
        self.assertEqual((rows[0]["helm"], rows[0]["boat"], rows[0]["club"]),
                         ("A. Moss", "Kestrel", "Sandhaven"))
        self.assertIn(("yes", "no"), {(row["R3 excluded"], row["R1 excluded"]) for row in rows})

    def test_semicolons(self) -> None:
        """With semicolons only numbers have a comma for their dot."""
        self.results("cup", "--csv", "a.csv")
        self.results("cup", "--csv", "b.csv", "--semicolons")
        plain, other = self.rows("a.csv"), self.rows("b.csv", ";")
        self.assertEqual([row["helm"] for row in other][0], "A. Moss")
        for one, two in zip(plain, other):
            self.assertEqual({name: re.sub(r"^(\d+)\.(\d)$", r"\1,\2", text)
                              for name, text in one.items()}, two)

    def test_formulas(self) -> None:
        """No name is a formula, and of several series each row says which it is of."""
        entries = helpers.ENTRIES.replace("A. Moss", "=1+1").replace("Kestrel", "@x").replace(
            "Howth", "-1+1")
        self.make("other", entries, **{"class": "+A"})
        self.make("third")
        self.results("cup", "other", "third", "--csv", "all.csv")
        rows = self.rows("all.csv")
        self.assertEqual([row["class"] for row in rows],
                         ["Autumn Cup (cup)"] * 7 + ["'+A"] * 7 + ["Autumn Cup (third)"] * 7)
        first = next(row for row in rows[7:] if row["sail"] == "GBR 101")
        self.assertEqual((first["helm"], first["boat"], first["R1"]), ("'=1+1", "'@x", ""))
        for row in rows:
            for text in row.values():
                self.assertNotRegex(text, r"^[=+@-]")

    # Text

    def test_text(self) -> None:
        """No line is longer than 72 columns, and every score is there, in order."""
        self.week()
        said = self.results("cup", "dragon", "--text")
        self.assertLessEqual(max(map(len, said.splitlines())), 72)
        cup, dragon = said.split("\n\n\n", 1)
        flat = " ".join(cup.split())
        for row in self.table(*OPTIONS)[1:]:
            cells = [re.sub(r"^(\()?([\d.]+)/([A-Z]+)", r"\1\2 \3", cell) for cell in row[3:]]
            self.assertIn("  ".join(f"R{race} {cell}" for race, cell in enumerate(cells, 1)).replace(
                "  ", " "), flat)
        self.assertIn("Provisional. Last changed", cup)
        self.assertIn("on A8.", cup)
        self.assertRegex(cup, r"Entry 28 of the journal\. Seal ([0-9a-f]{4} ){7}[0-9a-f]{4}\.")
        self.assertIn("1 GER 1207     Jürgen Albrecht, Seebär, Alsterring SV            27.0", dragon)
        self.assertIn("R8 8.2 RDG", dragon)

    # The page

    def test_page(self) -> None:
        """All classes are in one file that leads nowhere else, is whole, and is never red."""
        self.week()
        self.results("dragon", "cup", "--html", "all.html")
        text = self.text("all.html")
        marks = Marks(text)
        self.assertEqual(marks.open, [])
        self.assertEqual(len(marks.ids), len(set(marks.ids)))
        self.assertEqual({link for link in marks.links if link != "?"}
                         - {f"#{name}" for name in marks.ids}, set())
        self.assertIn('data-live="no"', text)
        self.assertIn('data-now=""', text)
        self.assertNotIn('http-equiv="refresh"', text)
        for sail in ("GER 1207", "GBR 101"):
            self.assertIn(f'<th scope="row" class="sail">{sail}<i', text)
        self.results("cup", "--html", "one.html")
        self.assertIn('id="table"', self.text("one.html"))

    def test_open_office(self) -> None:
        """The results are those of journal.txt, also while an office is open, and take no seat."""
        self.open()
        self.results("cup", "--html", "out.html")
        self.assertIn("28 of the journal", self.text("out.html"))
        self.assertNotIn("came", [line.split("\t")[5] for line in
                                  self.text("cup", "office.log").splitlines()])

    def test_faults(self) -> None:
        for words, why in ((["cup"], "nothing is asked for"), (["cup", "--semicolons", "--text"],
                           "--semicolons goes with --csv"), (["no", "--text"], "isn't a series"),
                           (["cup", "--html", "no/x.html"], "can't be written")):
            said, status = helpers.run("export", *words, cwd=self.here)
            self.assertIn(why, said)
            self.assertNotEqual(status, 0)
        self.write("REGATTA 2\nX\n", "cup", "journal.txt")
        said, status = helpers.run("export", "cup", "--html", "out.html", cwd=self.here)
        self.assertEqual((said, status), ("the program says regatta: journal fault 1 line 2.\n", 1))
        self.assertFalse(os.path.exists(os.path.join(self.here, "out.html")))

    # How the standing developed

    def test_course(self) -> None:
        """The rank after a race is that of a series in which no later race was ever scored."""
        with open(os.path.join(WEEK, "entries.csv"), encoding="utf-8") as file:
            entries = file.read()
        folder = self.make("long", entries, exclude="2,4")
        lines = season(5, 3)
        journal = journal_of(folder, *lines).splitlines()[1:]
        standing = Standing.read(list(replay.scored(helpers.PROGRAM, ["--exclude", "2,4"], journal).table))
        found = explanation_of(helpers.PROGRAM, ["--exclude", "2,4"], journal, standing).course
        self.assertEqual(len(found), 5)
        for race in range(1, 6):
            later = [f"SCORE {number}" for number in range(race + 1, 6)]
            right = journal_of(folder, *(line for line in lines if line not in later))
            path = os.path.join(self.here, "right.txt")
            with open(path, "w", encoding="utf-8") as file:
                file.write(right)
            done = subprocess.run([helpers.PROGRAM, "replay", "--exclude", "2,4", "--journal", path],
                                  input="", capture_output=True, text=True)
            self.assertEqual(found[race - 1], Standing.read(done.stdout.splitlines()).ranks())

    def test_full_journal(self) -> None:
        """A journal without room for more lines has results, and a chart."""
        folder = self.make("full")
        more = [line for _ in range(4096) for line in ("UNSCORE 1", "SCORE 1")]
        lines = ["FINISH 1 GBR7", "SCORE 1", "FINISH 2 GBR7", "SCORE 2", *more]
        self.write(journal_of(folder, *lines[:8192 - 8]), "full", "journal.txt")
        said = self.results("full", "--html", "out.html")
        self.assertIn("2 races", said)
        self.assertIn("How the standing developed", self.text("out.html"))

    def test_lines(self) -> None:
        """No two lines of the chart differ in colour alone, and its table has every boat's ranks."""
        kinds = {(chart.DASHES[at], chart.mark(at, 0, 0)) for at in range(chart.LINES)}
        self.assertEqual(len(kinds), chart.LINES)
        self.week()
        self.results("dragon", "--html", "out.html")
        text = self.text("out.html").partition("<details>")[2].partition("</details>")[0]
        rows = [re.findall(r"<t[hd][^>]*>([^<]*)(?:<i [^>]*>, </i>)?</t", row) for row in text.split("<tr>")[2:]]
        self.assertEqual((len(rows), {len(row) for row in rows}), (45, {13}))
        self.assertEqual([rows[0][0], rows[0][-1], rows[-1][-1]], ["GER 1207", "1", "44="])


@unittest.skipUnless(browser.program(), "Chromium isn't installed")
class Shown(Made):
    browser: Browser

    @classmethod
    def setUpClass(cls) -> None:
        cls.browser = Browser()

    @classmethod
    def tearDownClass(cls) -> None:
        cls.browser.close()

    def test_screens(self) -> None:
        """No page is wider than the window, no letter too small or pale; the chart fits a phone."""
        self.week()
        self.results("dragon", "cup", "--html", "all.html")
        for width in SIZES:
            for dark in (False, True):
                self.browser.size(width, dark=dark)
                self.browser.open(f"file://{self.here}/all.html")
                self.browser.run("document.querySelectorAll('details').forEach(one => one.open = true)")
                wide = self.browser.run("document.documentElement.scrollWidth")
                self.assertLessEqual(wide, width)
                self.assertLess(self.browser.run(APART), 1)
                self.assertEqual(self.browser.run(PALE), [])
                if width == SIZES[0]:
                    self.assertEqual(self.browser.run(SMALL), [])
                    self.assertLessEqual(self.browser.run(
                        "document.querySelector('svg').getBoundingClientRect().right"), width)
        self.browser.open(f"file://{self.here}/all.html")
        self.browser.run("document.querySelector('#find').value = 'kestrel'; "
                         "document.querySelector('#find').dispatchEvent(new Event('input'))")
        self.assertEqual(self.browser.run("[...document.querySelectorAll('tr.hit')].map(r => r.id)"),
                         ["c2-GBR101"])
        self.assertTrue(self.browser.run("document.getElementById('alarm').hidden"))

    @unittest.skipUnless(shutil.which("pdftotext"), "pdftotext isn't installed")
    def test_print(self) -> None:
        """On paper each class begins a page, and the chart is there without its table."""
        self.week()
        self.results("dragon", "cup", "--html", "all.html")
        self.browser.size(1280)
        self.browser.open(f"file://{self.here}/all.html")
        path = os.path.join(self.here, "all.pdf")
        self.browser.pdf(path)
        pages = subprocess.run(["pdftotext", "-layout", path, "-"], capture_output=True, text=True,
                               check=True).stdout.split("\f")
        heads = [at for at, page in enumerate(pages) if "places by" in page]
        self.assertEqual(len(heads), 2)
        self.assertRegex(pages[heads[1]].strip(), r"^Provisional\nAutumn Cup\s")
        self.assertEqual(sum("How the standing developed" in page for page in pages), 2)
        self.assertNotIn("The ranks as a table", "".join(pages))


if __name__ == "__main__":
    unittest.main()
