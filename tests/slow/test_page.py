"""The board's pages in Chromium: on a phone, on a desk, on paper, and when they are out of date."""
from __future__ import annotations

import functools
import http.server
import json
import os
import random
import re
import shutil
import signal
import subprocess
import threading
import unittest

import browser
import helpers
from raceoffice.program.link import Link
from raceoffice.results import exports
from raceoffice.results.html.notice_board import results as notice
from test_board import RACE, SECOND

WEEK = os.path.join(helpers.TOP, "tests", "week")
SIZES = [390, 768, 1280]
# A4 across without the margins of the page, in pixels of a style sheet: 279 mm.
PAPER = 1054

# In the page: the elements with a text of their own that can be seen, and their colours.
TEXTS = """
const texts = [...document.querySelectorAll("body *")].filter(part =>
  [...part.childNodes].some(node => node.nodeType === 3 && node.data.trim() !== "")
  && !["SCRIPT", "NOSCRIPT", "STYLE"].includes(part.tagName) && part.getClientRects().length
  && !part.closest(".hidden, .skip"));
const numbers = text => text.match(/[\\d.]+/g).map(Number);
const named = part => part.tagName + "." + part.className + ": " + part.textContent.slice(0, 30);
"""
SMALL = "(() => {" + TEXTS + """
return texts.filter(part => parseFloat(getComputedStyle(part).fontSize) < 14).map(named);
})()"""
PALE = """(() => {
document.getElementById("alarm").hidden = false;
document.querySelector("tbody tr:nth-child(5)")?.classList.add("hit");
""" + TEXTS + """
const light = ([r, g, b]) => [r, g, b].map(value => value / 255).map(value => value <= .04045
  ? value / 12.92 : ((value + .055) / 1.055) ** 2.4).reduce((sum, value, at) =>
  sum + value * [.2126, .7152, .0722][at], 0);
function behind(part) {
  for (; part; part = part.parentElement) {
    const colour = numbers(getComputedStyle(part).backgroundColor);
    if (colour.length < 4 || colour[3] === 1) return colour;
  }
  return numbers(getComputedStyle(document.body).backgroundColor);
}
function contrast(one, other) {
  const [a, b] = [light(one), light(other)].sort((a, b) => b - a);
  return (a + .05) / (b + .05);
}
return [...texts.map(part => [part, getComputedStyle(part).color]),
 ...[...document.querySelectorAll("input[type=search]")].map(part =>
   [part, getComputedStyle(part, "::placeholder").color])]
  .filter(([part, colour]) => contrast(numbers(colour), behind(part)) < 4.5)
  .map(([part, colour]) => named(part) + " " + colour);
})()"""
# In each column of points: how far the decimal points are apart.
APART = """
Math.max(0, ...[...document.querySelectorAll(".scroll table, .paper table")].filter(table =>
  table.getClientRects().length).flatMap(table => {
    const columns = new Map();
    for (const point of table.querySelectorAll("tbody td i")) {
      const at = point.closest("td").cellIndex, left = point.getBoundingClientRect().left;
      if (point.getClientRects().length) columns.set(at, [...columns.get(at) ?? [], left]);
    }
    return [...columns.values()].map(lefts => Math.max(...lefts) - Math.min(...lefts));
  }))
"""
PLACES = """
["thead .rank", "thead .sail", "tbody tr:nth-child(20) .rank", "tbody tr:nth-child(20) .sail",
 "tbody tr:nth-child(20) .net"].map(name => {
  const box = document.querySelector(name).getBoundingClientRect();
  return [Math.round(box.left), Math.round(box.top)];
})
"""
# The rows whose height isn't a whole number of pixels.
PARTLY = """
[...document.querySelectorAll("tr")].filter(row => row.getClientRects().length
  && row.getBoundingClientRect().height % 1 > .01).map(row => row.textContent.slice(0, 30))
"""
# The headings of the table that are whole in the window.
IN_VIEW = """
(() => {
  const edge = document.querySelector("thead .net").getBoundingClientRect().right;
  return [...document.querySelectorAll("thead th")].filter(part => {
    const box = part.getBoundingClientRect();
    const isPinned = getComputedStyle(part).left !== "auto";
    return box.width && box.right <= innerWidth + 1 && (isPinned || box.left >= edge - 1);
  }).map(part => part.textContent);
})()
"""
# The races that are partly below the columns that stay, and the newest race.
HALF_HIDDEN = """
(() => {
  const edge = document.querySelector("thead .net").getBoundingClientRect().right;
  return [...document.querySelectorAll(".scroll thead .r")].filter(part => {
    const box = part.getBoundingClientRect();
    return box.left < edge - 1 && box.right > edge + 1;
  }).map(part => part.textContent);
})()
"""
NEWEST = "[...document.querySelectorAll('.scroll thead .r')].at(-1).textContent"
# The clock of the phone is an hour fast, and can be turned on. The page's questions are counted shortly
# after their answers.
PHONE = """
const real = Date.now, send = fetch;
window.turned = 3600e3;
Date.now = () => real.call(Date) + turned;
window.answered = 0;
window.fetch = (...words) => {
  const answer = send(...words);
  answer.catch(() => {}).finally(() => setTimeout(() => window.answered++, 50));
  return answer;
};
"""
IS_RED = "!document.getElementById('alarm').hidden"


def season(races: int, seed: int, sails: list[str] | None = None) -> list[str]:
    """The lines of a number of races of these boats, or the week's, with ties, codes, penalties and
    redress."""
    if sails is None:
        with open(os.path.join(WEEK, "entries.csv"), encoding="utf-8") as file:
            sails = [line.split(",")[0].replace(" ", "") for line in file.readlines()[1:]]
    dice, last = random.Random(seed), len(sails) - 5
    codes = ["DNS", "OCS", "UFD", "BFD", "DNF", "RET"]
    lines = []
    for race in range(1, races + 1):
        order = dice.sample(sails, len(sails))
        lines += [f"FINISH {race} {boat}" for boat in order[:last]]
        lines += [f"TIE {race} {order[last]} {order[12]}", f"PENALTY {race} {order[2]} ZFP",
                  f"PENALTY {race} {order[2]} ZFP", f"PENALTY {race} {order[4]} SCP",
                  *(f"MARK {race} {boat} {dice.choice(codes)}" for boat in order[last + 1:last + 4]),
                  f"SCORE {race}", "ROLE JURY", f"REDRESS {race} {order[9]} ALL", "ROLE SCORER"]
    return lines


@unittest.skipUnless(browser.program(), "Chromium isn't installed")
class Pages(helpers.Series):
    def setUp(self) -> None:
        super().setUp()
        self.browser = browser.own()
        self.browser.size(1280)

    def week(self, state: str = "provisional") -> None:
        """The week's series in `dragon`."""
        shutil.copytree(WEEK, os.path.join(self.here, "dragon"))
        os.symlink(helpers.PROGRAM, os.path.join(self.here, "regatta"))
        text = self.text("dragon", "series.ini").replace("provisional", state)
        self.write(text, "dragon", "series.ini")

    def raced(self, races: int, boats: int = 45, exclude: str = "4,8") -> str:
        """A series of this size, with names of the week's, and the address of its page."""
        name = f"{boats}-boats-{races}-races"
        with open(os.path.join(WEEK, "entries.csv"), encoding="utf-8") as file:
            head, *rows = file.read().splitlines()
        rows += [f"NOR {at},{row.partition(',')[2]}" for at, row in enumerate(rows * 2, 1000)]
        rows = rows[:boats]
        self.make(name, "\n".join([head, *rows, ""]), exclude=exclude, title="Winter Series")
        sails = [row.partition(",")[0].replace(" ", "") for row in rows]
        done = subprocess.run(
            [helpers.PROGRAM, "replay", "--print", "journal", "--entries",
             os.path.join(self.here, name, "entries.csv")],
            input="\n".join([*season(races, races, sails), "QUIT", ""]), capture_output=True, text=True)
        self.assertNotIn("NO ", done.stdout)
        self.write(done.stdout.partition("BYE\n")[2], name, "journal.txt")
        return self.made(name)

    def made(self, *names: str) -> str:
        """Pages as files; the address of the first series'."""
        said, status = helpers.run("board", *names, "--page", "out", "--once", cwd=self.here)
        self.assertEqual(status, 0, said)
        return f"file://{self.here}/out/{names[0]}/index.html"

    def red(self, wanted: bool) -> None:
        helpers.until(f"red {wanted}", lambda: self.browser.run(IS_RED) == wanted)

    # On screens

    def test_screens(self) -> None:
        """No page is wider than the window, no letter too small or pale, and points are in line."""
        self.week()
        self.make("cup-two")
        overall = self.made("dragon", "cup", "cup-two")
        race = overall.replace("index.html", "race-8.html")
        pages = [overall, race, race.replace("-8", "-13"), overall.replace("dragon", "cup"),
                 overall.replace("dragon/", "")]
        for page in pages:
            for width in SIZES:
                for dark in (False, True):
                    self.browser.size(width, dark=dark)
                    self.browser.open(page)
                    self.seen(width, f"{page[-20:]}, {width} px, {'dark' if dark else 'light'}")

    def seen(self, width: int, where: str) -> None:
        wide = self.browser.run("document.documentElement.scrollWidth")
        self.assertLessEqual(wide, width, where)
        if width == 390:
            self.assertEqual(self.browser.run(SMALL), [], where)
        self.assertLess(self.browser.run(APART), 1, where)
        self.assertEqual(self.browser.run(PALE), [], where)

    def test_whole_pixels(self) -> None:
        """No row is part of a pixel high: its line would be in two places where cells stay."""
        self.week()
        overall = self.made("dragon")
        for page in (overall, overall.replace("index", "race-8")):
            for width in SIZES:
                self.browser.size(width)
                self.browser.open(page)
                self.assertEqual(self.browser.run(PARTLY), [], f"{page[-20:]}, {width} px")

    def test_newest(self) -> None:
        """A phone shows the newest race first, beside rank, sail and net; Total is a swipe away. A window
        with more room shows Total, too."""
        self.week()
        page = self.made("dragon")
        self.browser.size(390)
        self.browser.open(page)
        self.need_newest(self.browser.run(IN_VIEW), 3)
        self.browser.run("document.querySelector('.scroll').scrollTo(9999, 0)")
        self.assertEqual(self.browser.run(IN_VIEW)[-2:], ["R12", "Total"])
        self.browser.size(768)
        self.browser.open(page)
        *shown, last = self.browser.run(IN_VIEW)
        self.assertEqual(last, "Total")
        self.need_newest(shown, 7)
        names = "[...document.querySelectorAll('tbody tr:first-child :is(.helm, .who)')].map(" \
                "part => [part.getClientRects().length > 0, part.innerText])"
        self.assertEqual(self.browser.run(names)[0], [True, "Jürgen Albrecht"])
        self.assertEqual(self.browser.run(names)[1][0], False)
        self.browser.run("document.getElementById('more').click()")
        self.assertEqual(self.browser.run(names)[1], [True, "Jürgen Albrecht\nSeebär · Alsterring SV"])

    def need_newest(self, shown: list[str], races: int) -> None:
        """Rank, sail and net are in view, and the newest races of twelve: so many, or one more by the letters of this
        computer."""
        more = len(shown) - 3
        self.assertIn(more, (races, races + 1), shown)
        self.assertEqual(shown, ["Rank", "Sail", "Net", *[f"R{race}" for race in range(13 - more, 13)]])

    def test_none_half_hidden(self) -> None:
        """In no window is a race half below the columns that stay, and the newest is always whole."""
        self.week()
        pages = [self.made("dragon"), self.raced(10, 120, "none"), self.raced(7, 22, "3,6")]
        for page in pages:
            for width in (320, 360, 390, 412, 600, 768, 1024):
                self.browser.size(width)
                self.browser.open(page)
                where = f"{page[-24:]}, {width} px"
                self.assertEqual(self.browser.run(HALF_HIDDEN), [], where)
                newest = [head for head in self.browser.run(IN_VIEW) if head.startswith("R")
                          and head != "Rank"]
                self.assertEqual(newest[-1], self.browser.run(NEWEST), where)
                if width >= 768:
                    self.assertEqual(self.browser.run("document.querySelector('.total')") is None,
                                     "Total" not in self.browser.run(IN_VIEW), where)

    def test_changed_since(self) -> None:
        """That results aren't those that were declared has the colour of alarm, and they aren't green."""
        self.week("final\nreason = Time is up. The results have changed since they were declared final.")
        self.make("cup-two")
        page = self.made("dragon", "cup-two")
        for address, word in ((page, ".state .word"), (page.replace("dragon/", ""), ".list li .word")):
            for dark in (False, True):
                self.browser.size(390, dark=dark)
                self.browser.open(address)
                ground = "getComputedStyle({}).backgroundColor"
                alarm, changed, state = [self.browser.run(ground.format(part)) for part in (
                    "document.getElementById('alarm')", "document.querySelector('.reason.changed')",
                    f"document.querySelector('{word}')")]
                self.assertEqual(changed, alarm)
                self.assertEqual(state, self.browser.run(ground.format("document.body")))
        self.browser.open(page)
        self.assertEqual(self.browser.run("document.querySelector('.reason.final').innerText"), "Time is up.")

    def test_changed_beside_unchanged(self) -> None:
        """In the page of several classes the state of those that haven't changed keeps its colour."""
        self.make("cup-one", **{"class": "One"}, state="final", reason="The results have changed since they were declared final.")
        self.make("cup-two", **{"class": "Two"}, state="final")
        self.write(notice([exports.view_of(os.path.join(self.here, name), lambda _: None) for name in ("cup-one", "cup-two")]), "both.html")
        self.browser.open(f"file://{self.here}/both.html")
        state = "[...document.querySelectorAll('.state .word')].map(word => getComputedStyle(word).backgroundColor)"
        changed, unchanged = self.browser.run(state)
        self.assertEqual(changed, self.browser.run("getComputedStyle(document.body).backgroundColor"))
        self.assertNotEqual(unchanged, changed)

    def test_corrected(self) -> None:
        """On a phone the helm's column is the widest, also with corrected times, which are below the
        points."""
        self.make("club", handicap="yes")
        self.write("".join(f"1 {at} SCORER {line}\n" for at, line in enumerate(
            ["ENTER GBR101", "ENTER GBR7", "TIME 1 GBR101 4005", "TIME 1 GBR7 3600", "SCORE 1"], 1)),
            "club", "journal.txt")
        page = self.made("club").replace("index", "race-1")
        self.browser.size(390)
        self.browser.open(page)
        widths = self.browser.run("[...document.querySelectorAll('tbody tr:first-child > *')].map("
                                  "cell => cell.getBoundingClientRect().width)")
        self.assertEqual(max(widths), widths[2])
        self.assertGreater(widths[2], 150)
        self.assertEqual(self.browser.run("[...document.querySelectorAll('td.pts')].map("
                                          "cell => cell.innerText)"), ["1.0\n1:00:00", "2.0\n1:06:45"])

    def test_scrolled(self) -> None:
        """Rank, sail, net and headings stay where they are while the table moves."""
        self.week()
        page = self.made("dragon")
        for width in SIZES[:2]:
            self.browser.size(width)
            self.browser.open(page)
            self.browser.run("document.querySelector('.scroll').scrollIntoView()")
            self.browser.run("document.querySelector('.scroll').scrollTo(0, 0)")
            before = self.browser.run(PLACES)
            moved = self.browser.run("(part => { part.scrollTo(9999, 200); "
                                     "return part.scrollLeft; })(document.querySelector('.scroll'))")
            after = self.browser.run(PLACES)
            self.assertGreater(moved, 100)
            self.assertEqual(after[:2], before[:2])
            for at in (2, 3):
                self.assertEqual(after[at], [before[at][0], before[at][1] - 200])
            self.assertEqual(after[4], [before[4][0], before[4][1] - 200])

    def test_classes(self) -> None:
        """The ways to the other classes are on the page of each; as a file it has that to their list."""
        self.make("b & c", title="<b>Folk</b> & co")
        self.made("cup", "b & c")
        ways = """[...document.querySelectorAll(".classes a")].map(way =>
            [way.textContent, way.getAttribute("href"), way.getAttribute("aria-current")])"""
        self.browser.open(f"file://{self.here}/out/cup/index.html")
        self.assertEqual(self.browser.run(ways), [["All classes", "../index.html", None],
                                                  ["Autumn Cup", "../cup/index.html", "true"]])
        port = helpers.free_port(self)
        window = self.window("board", "cup", "b & c", "--http", str(port))
        window.read("try one phone")
        named = [["Autumn Cup", "../cup/index.html"], ["<b>Folk</b> & co", "../b%20%26%20c/index.html"]]
        for at, address in enumerate(("cup", "b%20%26%20c")):
            self.browser.open(f"http://127.0.0.1:{port}/{address}/")
            wanted = [[*way, "true" if at == here else None] for here, way in enumerate(named)]
            helpers.until("the ways", lambda: self.browser.run(ways) == wanted)

    def test_find(self) -> None:
        self.week()
        page = self.made("dragon")
        self.browser.size(390)
        self.browser.open(page)
        found = self.browser.run("""
            document.getElementById("find").value = "jurgen ALB";
            document.getElementById("find").dispatchEvent(new Event("input"));
            [...document.querySelectorAll("tr.hit")].map(row => row.id)""")
        self.assertEqual(found, ["GER1207"])
        self.assertEqual(self.browser.run("""
            document.getElementById("find").value = "nobody";
            document.getElementById("find").dispatchEvent(new Event("input"));
            document.querySelectorAll("tr.hit").length + document.getElementById("found").textContent
            """), "0No such boat")

    # On paper

    def printed(self) -> list[list[tuple[float, float, str]]]:
        """The pages of the print: each word with its left and right edge in points."""
        path = os.path.join(self.here, "raceoffice.results.html.page.pdf")
        self.browser.pdf(path)
        text = subprocess.run(["pdftotext", "-bbox", path, "-"], capture_output=True, text=True,
                              check=True).stdout
        pages = re.split(r"<page ", text)[1:]
        self.sizes = [tuple(map(float, re.findall(r'"([\d.]+)"', page)[:2])) for page in pages]
        return [[(float(left), float(right), word) for left, right, word in re.findall(
            r'<word xMin="([\d.]+)" yMin="[\d.]+" xMax="([\d.]+)" yMax="[\d.]+">(.*?)</word>',
            page)] for page in pages]

    @unittest.skipUnless(shutil.which("pdftotext"), "pdftotext isn't installed")
    def test_print(self) -> None:
        """12, 18, 24 and 30 races are no wider than the paper, and each page has the headings."""
        for races in (12, 18, 24, 30):
            page = self.raced(races)
            self.browser.size(PAPER, media="print")
            self.browser.open(page)
            wide = self.browser.run("document.documentElement.scrollWidth")
            self.assertLessEqual(wide, PAPER, races)
            self.assertLess(self.browser.run(APART), 1, races)
            self.browser.size(1280)
            self.on_paper(self.printed(), races)

    def on_paper(self, pages: list[list[tuple[float, float, str]]], races: int) -> None:
        heads = [f"R{number}" for number in range(1, races + 1)]
        margin = 9 / 25.4 * 72
        for page, (width, height) in zip(pages, self.sizes):
            self.assertEqual((round(width), round(height)), (842, 595))
            self.assertGreaterEqual(min(left for left, _, _ in page), margin - 1)
            self.assertLessEqual(max(right for _, right, _ in page), width - margin + 1)
            words = [word for _, _, word in page]
            # From left to right: the text of the file may have them in another order.
            shown = [word for _, _, word in sorted(page) if word in heads]
            # A page without a head has notes alone.
            self.assertIn(shown, ([], heads[24:]) if "Net" not in words else (heads[:24],))
            self.assertTrue(not shown or {"Rank", "Sail", "Helm,"} <= set(words))
            boats = sum(bool(re.fullmatch("[A-Z]{3}", word)) for word in words)
            self.assertTrue(shown or "ties" in words or boats < 30, words)
        seen = [word for page in pages for _, _, word in page]
        self.assertEqual(set(heads) - set(seen), set())

    @unittest.skipUnless(shutil.which("pdftotext"), "pdftotext isn't installed")
    def test_print_of_club(self) -> None:
        """22 boats are on one sheet, with all notes: upright if there are few races."""
        for races, size in ((3, (595, 842)), (7, (595, 842)), (8, (595, 842)), (9, (842, 595)),
                            (12, (842, 595))):
            page = self.raced(races, 22, "3,6")
            self.browser.size(1280)
            self.browser.open(page)
            printed = self.printed()
            self.assertEqual([(round(width), round(height)) for width, height in self.sizes], [size], races)
            margin, words = 9 / 25.4 * 72, [word for _, _, word in printed[0]]
            self.assertGreaterEqual(min(left for left, _, _ in printed[0]), margin - 1)
            self.assertLessEqual(max(right for _, right, _ in printed[0]), size[0] - margin + 1)
            self.assertEqual(words.count("redress,"), races)
            self.assertEqual({"Total", "Key", "Redress", f"R{races}"} - set(words), set())

    @unittest.skipUnless(shutil.which("pdftotext"), "pdftotext isn't installed")
    def test_print_of_week(self) -> None:
        """45 boats in 12 races are two pages, with all notes; one race is one page, upright."""
        self.week()
        self.browser.size(1280)
        page = self.made("dragon")
        for address, sizes, texts in [
                (page, [(842, 595)] * 2, [
                    "Rank Sail Helm, boat · club Net R1 R2", "1 GER 1207 Jürgen Albrecht 27.0 3.0 4.0",
                    "44= FIN 88 Aleksi Vuorela 460.0 e (46.0)", "How ties were broken",
                    "Race 8, GBR 820: redress", "Page 2 of 2"]),
                (page.replace("index", "race-8"), [(595, 842)], [
                    "Place Sail Helm, boat · club Points 1 DEN 412 Søren Kjeldgaard",
                    "OCS GER 1188", "Redress and penalties Race 8, GBR 820: redress", "Page 1 of 1"])]:
            self.browser.open(address)
            self.printed()
            self.assertEqual([(round(width), round(height)) for width, height in self.sizes], sizes)
            path = os.path.join(self.here, "raceoffice.results.html.page.pdf")
            printed = subprocess.run(["pdftotext", "-layout", path, "-"], capture_output=True,
                                     text=True, check=True).stdout
            for text in texts:
                self.assertIn(text, " ".join(printed.split()))

    # Out of date

    def served(self, name: str) -> helpers.Terminal:
        """A board, and its page open in the browser of a phone with a wrong clock."""
        port = helpers.free_port(self)
        window = self.window("board", name, "--http", str(port))
        window.read("try one phone")
        script = self.browser.ask("Page.addScriptToEvaluateOnNewDocument", source=PHONE)
        self.addCleanup(self.browser.ask, "Page.removeScriptToEvaluateOnNewDocument", **script)
        self.browser.size(390)
        self.browser.open(f"http://127.0.0.1:{port}/{name}/")
        return window

    def look_again(self) -> None:
        """As when somebody takes the phone out of a pocket: the page asks how old it is."""
        before = self.browser.run("answered")
        self.browser.run("document.dispatchEvent(new Event('visibilitychange'))")
        helpers.until("an answer", lambda: self.browser.run("answered") > before)

    def send(self, *lines: str) -> None:
        link = Link(os.path.join(self.here, "fast", "office", "race.sock"))
        self.assertEqual([link.ask(line)[:2] for line in lines], ["OK"] * len(lines))
        link.close()

    def test_red(self) -> None:
        """The page turns red when the office has gone, and when the board has."""
        self.make("fast", every="1")
        office = self.open("fast")
        self.send(*RACE)
        window = self.served("fast")
        self.look_again()
        self.assertFalse(self.browser.run(IS_RED))
        with open(os.path.join(self.here, "fast", "office", "pid")) as file:
            os.kill(int(file.read().split()[0]), signal.SIGKILL)
        window.read("The page says so in red")
        self.look_again()
        self.red(True)
        self.assertIn("isn't answering", self.browser.run("alarm.textContent"))
        office.rest()
        self.open("fast")
        window.read("from the office")
        self.look_again()
        self.red(False)
        window.process.send_signal(signal.SIGKILL)
        window.process.wait()
        self.look_again()
        self.assertFalse(self.browser.run(IS_RED))
        self.browser.run("turned += 61e3")
        self.red(True)
        self.assertIn("last confirmed this page 1 minute ago", self.browser.run("alarm.textContent"))
        self.assertRegex(self.browser.run("document.title"), "^OUT OF DATE: ")

    def test_renewed(self) -> None:
        """A new race comes by itself, and what was typed and scrolled to stays."""
        self.make("fast", every="1")
        self.open("fast")
        self.send(*RACE)
        self.served("fast")
        self.browser.run("""
            document.getElementById("find").value = "moss";
            document.getElementById("find").dispatchEvent(new Event("input"));
            document.getElementById("more").checked = true;
            document.querySelector(".scroll").scrollTo(40, 0);""")
        self.send(*SECOND)

        def is_new() -> bool:
            self.look_again()
            return bool(self.browser.run("[...document.querySelectorAll('thead th')].at(-2).textContent "
                                         "=== 'R2'"))

        helpers.until("the second race", is_new)
        self.assertEqual(self.browser.run("""
            [document.getElementById("find").value, document.querySelector("tr.hit").id,
             document.getElementById("more").checked, document.querySelector(".scroll").scrollLeft]
            """), ["moss", "GBR101", True, 40])

    def test_final(self) -> None:
        """A page that is final is never red, and one that a board keeps until then is, as a file too."""
        self.week("final")
        path = os.path.join(self.here, "out", "dragon", "index.html")
        board = self.window("board", "dragon", "cup", "--page", "out")
        board.read("Pages are in")
        board.press()
        board.rest()
        for file, wanted in ((path, False), (path.replace("dragon", "cup"), True)):
            with open(file, encoding="utf-8") as opened:
                text = re.sub('data-checked="[^"]*"', 'data-checked="2026-01-01T00:00:00+00:00"',
                              opened.read())
            with open(file, "w", encoding="utf-8") as opened:
                opened.write(text)
            self.browser.open(f"file://{file}")
            self.red(wanted)

    def test_stale_class(self) -> None:
        """The list of several classes names the one whose office doesn't answer."""
        self.make("fleet", title="Folkboats")
        board = self.window("board", "cup", "fleet", "--page", "out")
        board.read("Pages are in")
        board.press()
        board.rest()
        text = self.text("out", "index.html")
        self.assertIn('<a href="fleet/results.csv">', text)
        self.assertIn('<a href="results.csv">', self.text("out", "fleet", "index.html"))
        self.write(text.replace('data-office="open"', 'data-office="away:1"'), "out", "index.html")
        self.browser.open(f"file://{self.here}/out/index.html")
        self.red(True)
        self.assertIn("The race office of Folkboats isn't answering just now.",
                      self.browser.run("alarm.textContent"))

    def test_once(self) -> None:
        """Pages that are made once say when, and are never red: nobody keeps them up to date."""
        path = self.made("cup").removeprefix("file://")
        for name in (path, path.replace("cup/index", "index")):
            with open(name, encoding="utf-8") as opened:
                text = re.sub('data-checked="[^"]*"', 'data-checked="2026-01-01T00:00:00+00:00"',
                              opened.read())
            with open(name, "w", encoding="utf-8") as opened:
                opened.write(text)
            self.browser.open(f"file://{name}")
            self.assertFalse(self.browser.run(IS_RED))
            self.assertIn("Thu 1 Jan", self.browser.run("once.innerText").replace(",", ""))
            self.assertIn("not kept up to date", self.browser.run("once.innerText"))

    def test_once_on_a_server(self) -> None:
        """A page that was made once shows what its file says, whatever else lies on its server."""
        self.made("cup")
        shown = self.text("out", "cup", "index.html")
        self.write(json.dumps({"version": "0", "checked": "2026-01-01T00:00:00+00:00", "office": "once",
                               "page": shown.replace("GBR", "GER")}), "out", "cup", "now.json")
        asked: list[str] = []

        class Files(http.server.SimpleHTTPRequestHandler):
            def log_message(self, *words: object) -> None:
                asked.append(self.path)

        with http.server.ThreadingHTTPServer(("127.0.0.1", 0), functools.partial(
                Files, directory=os.path.join(self.here, "out"))) as server:
            threading.Thread(target=server.serve_forever).start()
            self.addCleanup(server.shutdown)
            self.browser.open(f"http://127.0.0.1:{server.server_port}/cup/index.html")
            helpers.until("the time of making", lambda: self.browser.run("once.innerText"))
            self.browser.run("document.dispatchEvent(new Event('visibilitychange'))")
            self.assertNotIn("/cup/now.json", asked)
            self.assertNotIn("GER", self.browser.run("document.querySelector('main').innerText"))


if __name__ == "__main__":
    unittest.main()
