"""The board's pages for everybody: with letters of twice the size, in dark and light, and for those who listen."""
from __future__ import annotations

import os
import unittest
from typing import Any

import browser
from browser import Browser
import helpers
from forger import journal_of
from test_export import Made
from test_page import PALE, PARTLY, TEXTS
from test_web_looks import NEEDS_NAME

USUAL, LARGE = 16, 32

# In the page: texts that can't be read whole, or are smaller than they are to be, or touch the line below. A text is
# within the window, or within a part that can be scrolled; names may end in dots.
CUT = "(least => {" + TEXTS + """
const range = document.createRange(), found = [];
for (const part of texts) for (const node of part.childNodes) {
  // A picture shows the text of its labels alone.
  if (node.nodeType !== 3 || !node.data.trim() || part.matches("svg, g")) continue;
  range.selectNodeContents(node);
  const box = range.getBoundingClientRect(), style = getComputedStyle(part);
  const size = parseFloat(style.fontSize) * (part.getScreenCTM?.().a ?? 1), high = parseFloat(style.lineHeight);
  if (size < least - .1) found.push(`small: ${named(part)} ${size}`);
  if (part.tagName !== "text" && high < size) found.push(`low: ${named(part)} ${size} in ${high}`);
  let one = part;
  while (one && !["auto", "scroll"].includes(getComputedStyle(one).overflowX) && !one.matches(".helm")) one = one.parentElement;
  if (!one && (box.right > innerWidth + 1 || box.left < -1)) found.push(`cut: ${named(part)}`);
}
const wide = document.documentElement.scrollWidth;
return wide > innerWidth ? [...found, `the page is ${wide} wide`] : found;
})"""
# Controls and cells of the first row that can't be brought into view, or are covered there.
COVERED = """(() => {
  const found = [];
  for (const part of document.querySelectorAll("main :is(a[href], input, summary), main table tr:nth-child(1) > *")) {
    if (!part.checkVisibility() || !part.getClientRects().length) continue;
    part.scrollIntoView({block: "center", inline: "end"});
    const box = part.getClientRects()[0];
    const hit = document.elementFromPoint(Math.min(innerWidth - 2, box.left + box.width / 2), box.top + box.height / 2);
    if (!part.contains(hit)) found.push(`${part.tagName}.${part.className} ${part.textContent.slice(0, 20)}`);
  }
  return found;
})()"""
# Of each table: columns without a heading in words, and rows whose boat heads them not at all or twice.
UNHEADED = """[...document.querySelectorAll("table")].filter(part => part.checkVisibility()).flatMap(part => {
  const heads = [...part.tHead.rows[0].cells], rows = [...part.tBodies].flatMap(body => [...body.rows]);
  return [...heads.filter(head => head.matches("td") || head.scope !== "col" || !head.textContent.trim())
            .map(head => `column ${head.cellIndex + 1} of ${part.textContent.slice(0, 40)}`),
          ...rows.filter(row => row.cells.length !== heads.length || row.querySelectorAll("th[scope=row]").length !== 1)
            .map(row => `row ${row.textContent.slice(0, 40)}`)];
})"""
# Sails that reach out of their cells, where the next column hides them or is hidden, and out of the chart.
OUT_OF_CELL = """[...document.querySelectorAll("th.sail, svg text")].filter(part => {
  const range = document.createRange(), around = (part.closest("svg") ?? part).getBoundingClientRect();
  return [...part.childNodes].some(node => {
    range.selectNodeContents(node);
    const box = range.getBoundingClientRect();
    return node.nodeType === 3 && box.width && (box.right > around.right + .5 || box.left < around.left - .5);
  });
}).map(part => part.textContent)"""
# Texts that reach out of the card, the list or the note in which they are.
OUT_OF_CARD = """[...document.querySelectorAll(":is(.list li, .classes, .reason, header) *, .reason")].flatMap(part => {
  const range = document.createRange(), around = part.closest(".list li, .classes, .reason, header").getBoundingClientRect();
  return [...part.childNodes].filter(node => {
    range.selectNodeContents(node);
    return node.nodeType === 3 && [...range.getClientRects()].some(box => box.width && box.right > around.right + .5);
  }).map(node => node.data.slice(0, 20));
})"""
# Net points on which the mark of their tie lies.
MARKED = """[...document.querySelectorAll("td.net")].filter(cell => {
  const mark = cell.querySelector("a"), range = document.createRange();
  if (!mark) return false;
  range.setStart(cell, 0);
  range.setEndBefore(mark);
  const right = range.getBoundingClientRect().right;
  range.selectNodeContents(mark);
  return range.getBoundingClientRect().left < right - 2.5;
}).map(cell => cell.textContent)"""
# Headings that are two levels or more below the one before them
OUT_OF_ORDER = """[...document.querySelectorAll("h1, h2, h3, h4, h5, h6")].filter(part => part.checkVisibility())
  .filter((part, at, all) => part.tagName[1] > (at ? +all[at - 1].tagName[1] + 1 : 1)).map(part => part.textContent)"""


def unheard(tab: Browser) -> list[str]:
    """What a screen reader can't name or find, by Chromium's accessibility tree."""
    nodes: list[dict[str, Any]] = tab.ask("Accessibility.getFullAXTree")["nodes"]
    kept = [node for node in nodes if not node.get("ignored")]
    roles = {node["role"]["value"] for node in kept}
    return [f"a {node['role']['value']} without a name" for node in kept if node["role"]["value"] in
            NEEDS_NAME | {"columnheader", "rowheader"} and not node.get("name", {}).get("value", "").strip()] + [
            f"no {role}" for role in ("heading", "main", "link") if role not in roles]


@unittest.skipUnless(browser.program(), "Chromium isn't installed")
class BoardLooks(Made):
    """Two classes of which one has twelve races and one that isn't scored yet; the other has been declared final, and its
    results have changed since."""

    def pages(self) -> list[str]:
        """The addresses of a page of each kind."""
        self.week()
        declared = "state = final\nreason = Time is up. The results have changed since they were declared final.\n"
        kept, _, _ = self.text("cup", "series.ini").partition("state = ")
        self.write(kept + declared, "cup", "series.ini")
        said, status = helpers.run("board", "dragon", "cup", "--page", "out", "--once", cwd=self.here)
        self.assertEqual(status, 0, said)
        self.results("dragon", "cup", "--html", os.path.join("out", "all.html"))
        names = ["index", "all", "dragon/index", "dragon/race-8", "dragon/race-13", "cup/index", "cup/race-1"]
        return [f"file://{self.here}/out/{name}.html" for name in names]

    def browser(self, letters: int) -> Browser:
        tab = Browser(f"--blink-settings=defaultFontSize={letters}")
        self.addCleanup(tab.close)
        return tab

    def test_large_text(self) -> None:
        """With text of twice the size, on phones and a laptop, each letter is twice as large, and all can be read and
        reached: the page is no wider than the window, and what is wider in it is scrolled by itself."""
        tab = self.browser(LARGE)
        for page in self.pages():
            for width in (320, 390, 768, 1280):
                tab.size(width)
                tab.open(page)
                tab.run("document.querySelectorAll('details').forEach(one => one.open = true)")
                with self.subTest(page=page[-20:], width=width):
                    # 14 pixels are the smallest letters at the usual size.
                    self.assertEqual(tab.run(f"{CUT}({14 * LARGE / USUAL})"), [])
                    self.assertEqual(tab.run(PARTLY), [])
                    self.assertEqual(tab.run(COVERED), [])

    def test_narrow(self) -> None:
        """So it is with letters of the usual size at 320 pixels, and with some that are a quarter larger."""
        pages = self.pages()
        for letters in (USUAL, 20):
            tab = self.browser(letters)
            for page in pages:
                tab.size(320)
                tab.open(page)
                with self.subTest(page=page[-20:], letters=letters):
                    self.assertEqual(tab.run(f"{CUT}({14 * letters / USUAL})"), [])
                    self.assertEqual(tab.run(PARTLY), [])
                    self.assertEqual(tab.run(COVERED), [])

    def test_long_sails(self) -> None:
        """A sail of as many signs as there may be is whole in the tables and in the chart: cut, it reads as another's."""
        sails = ["AUS-12345678", "GBR 21543299", "W W W W W W W W W W W W", "ITA 20 15 88 7", "MMMMMMMMMMMM", "G B R 1"]
        folder = self.make("long", "\n".join(["Sail,Helm", *(f"{sail},Bartholomew Featherstonehaugh" for sail in sails), ""]))
        plain = [sail.replace(" ", "") for sail in sails]
        lines = [line for race in range(1, 9) for line in (f"FINISH {race} {plain[0]}", f"TIE {race} {plain[1]} {plain[0]}",
                                                      *(f"FINISH {race} {sail}" for sail in plain[2:]), f"SCORE {race}")]
        self.write(journal_of(folder, *lines), "long", "journal.txt")
        said, status = helpers.run("board", "long", "--page", "out", "--once", cwd=self.here)
        self.assertEqual(status, 0, said)
        self.results("long", "--html", os.path.join("out", "all.html"))
        tab = self.browser(USUAL)
        for name in ("index", "all", "long/race-1"):
            for width in (320, 390, 768, 1280):
                tab.size(width)
                tab.open(f"file://{self.here}/out/{name}.html")
                tab.run("document.querySelectorAll('details').forEach(one => one.open = true)")
                with self.subTest(page=name, width=width):
                    self.assertEqual(tab.run(OUT_OF_CELL), [])
                    self.assertEqual(tab.run(PARTLY), [])

    def test_long_words(self) -> None:
        """Words that no space parts are broken: no name reaches out of its card, of the way to other classes, of a note or of
        the line that says whose office doesn't answer."""
        for name, state in ("one", "provisional"), ("two", "final"):
            word = name + "W" * 70
            folder = self.make(name, f"Sail,Helm,Boat,Club\nGBR 112,{word},{word},{word}\nGBR 7,{word},,\n", title=word, club=word,
                               reason=word, state=state, **{"class": word})
            self.write(journal_of(folder, "FINISH 1 GBR112", "TIE 1 GBR7 GBR112", "SCORE 1"), name, "journal.txt")
        said, status = helpers.run("board", "one", "two", "--page", "out", "--once", cwd=self.here)
        self.assertEqual(status, 0, said)
        self.results("one", "two", "--html", os.path.join("out", "all.html"))
        with open(os.path.join(self.here, "out", "index.html"), encoding="utf-8") as file:
            self.write(file.read().replace('data-office="once"', 'data-office="away:0,1"', 1), "out", "away.html")
        tab = self.browser(USUAL)
        for page in ("index", "all", "one/index", "one/race-1", "away"):
            for width in (320, 768, 1280):
                tab.size(width)
                tab.open(f"file://{self.here}/out/{page}.html")
                with self.subTest(page=page, width=width):
                    self.assertEqual(tab.run("document.getElementById('alarm').textContent.includes('W'.repeat(70))"), page == "away")
                    self.assertEqual(tab.run(OUT_OF_CARD), [])
                    self.assertLessEqual(tab.run("document.documentElement.scrollWidth"), width)

    def test_many_ties(self) -> None:
        """No mark of a tie lies on the net points, also if there are more ties than letters."""
        sails = [f"GBR{number}" for number in range(1, 57)]
        folder = self.make("ties", "\n".join(["Sail", *sails, ""]), exclude="none")
        turned = [sail for one, other in zip(sails[::2], sails[1::2]) for sail in (other, one)]
        lines = [line for race, order in ((1, sails), (2, turned))
                 for line in (*(f"FINISH {race} {sail}" for sail in order), f"SCORE {race}")]
        self.write(journal_of(folder, *lines), "ties", "journal.txt")
        self.results("ties", "--html", "ties.html")
        tab = self.browser(USUAL)
        tab.open(f"file://{self.here}/ties.html")
        self.assertEqual(tab.run("document.querySelectorAll('td.net a').length"), 56)
        for width in (390, 768, 1280):
            tab.size(width)
            self.assertEqual(tab.run(MARKED), [], width)
        tab.ask("Emulation.setEmulatedMedia", media="print")
        self.assertEqual(tab.run(MARKED), [])

    def test_heard(self) -> None:
        """A screen reader has a name for all that can be used, each table has headings, and headings are in order; each
        text has a contrast of 4.5 to 1, in dark and in light."""
        tab = self.browser(USUAL)
        tab.ask("Accessibility.enable")
        for page in self.pages():
            for width in (390, 1280):
                for dark in (False, True):
                    tab.size(width, dark=dark)
                    tab.open(page)
                    tab.run("document.querySelectorAll('details').forEach(one => one.open = true)")
                    with self.subTest(page=page[-20:], width=width, dark=dark):
                        self.assertEqual(unheard(tab), [])
                        self.assertEqual(tab.run(UNHEADED), [])
                        self.assertEqual(tab.run(OUT_OF_ORDER), [])
                        self.assertEqual(tab.run(PALE), [])


if __name__ == "__main__":
    unittest.main()
