"""The office's pages for everybody: in each language at 320 pixels, in dark and light, with large text, by keyboard,
and for those who listen. They are looked at over canned answers."""
from __future__ import annotations

import re
import unittest
from collections.abc import Callable, Iterator
from typing import Any

import browser
from devices import Chromium, Device, chromium_of
from raceoffice.remarks import ENGLISH, Remark, Value as RemarkValue, in_a_row, remark
from raceoffice.session.dialogue import NOTE, Said, Value
from raceoffice.session.question_words import question
from raceoffice.session.said_words import WORDS as SAID, said
from raceoffice.web.states import question_of, remarks_of, said_of
from stub_office import OPEN as OPEN_POINTS, StubOffice
from test_web_texts import REMARKED_OTHERWISE, SAID_OTHERWISE, fields_of, remarks_made, values_said
from web_office import SAILS

LANGUAGES = ["en", "de", "fr", "es", "it", "nl"]
LIVE = "document.querySelector('#link')?.dataset.state === 'live'"
OPEN = "document.querySelector('dialog[open]') !== null"

# Values of what the office says, and what they are of some kinds
OF_SAID: dict[str, Value] = {
    "answer": "NO 8", "boats": 300, "coded": 12, "command": "raceoffice amended cup", "counts": 0, "digits": "101",
    "entry": 8192, "fault": remark("file-unwritten", name="office/places", why=remark("system-ENOSPC")), "file": "entries.csv", "finished": 288,
    "held": ("OCS", "ZFP"), "holds": "OCS", "class_name": "fleet", "classes": ("fleet", "cruisers"), "line": "BEFORE 40 GBR101 NED12", "lines": ("STRIKE 40 GBR101",),
    "listed": 0, "mark": "?77", "marks": ("?77", "?78"), "missing": 300, "name": "times/race-40.csv", "next": 1,
    "number": 1000, "others": ("NED101", "FRA101"), "place": 288, "race": 40, "sail": "GBR101", "sails": ("GBR101", "NED12"),
    "since": "11:20 Ann", "state": "final", "tied": 1, "unread": 2, "why": ""}
OTHER_VALUES: dict[str, Value] = {"race-missing boats": ("GBR101 Ann", "NED12 Bea ZFP"), "taken-away lines": 12}

# In the page: what of its words can't be read whole. A text has to be within the window, within its button, and
# within all that cut off what is too wide, but for parts that can be scrolled and names, which may end in dots.
CUT = """(() => {
  const sheet = new CSSStyleSheet();
  sheet.replaceSync("* { overflow-wrap: normal !important; word-break: normal !important; hyphens: manual !important; }");
  document.adoptedStyleSheets = [sheet];
  const names = ".list li:not(.unread, .refused) .name, .boat i, .boat small, .order .name, .standing .name, .unseen";
  const range = document.createRange(), found = [];
  const walker = document.createTreeWalker(document.querySelector("dialog[open]") ?? document.body, NodeFilter.SHOW_TEXT);
  while (walker.nextNode()) {
    const node = walker.currentNode, part = node.parentElement;
    if (!node.data.trim() || part.closest(names) || ["SCRIPT", "OPTION"].includes(part.tagName)) continue;
    range.selectNodeContents(node);
    const box = range.getBoundingClientRect();
    if (!box.width) continue;
    let isScrolled = false;
    for (let one = part; one && one !== document.documentElement; one = one.parentElement) {
      const edge = one.getBoundingClientRect(), style = getComputedStyle(one);
      const isTooWide = box.right > edge.right + 1.5 || box.left < edge.left - 1.5;
      if (["auto", "scroll"].includes(style.overflowX) && one.scrollWidth > one.clientWidth) isScrolled = true;
      if (isScrolled) break;
      if (isTooWide && (style.overflowX === "hidden" || one.tagName === "BUTTON" || one.matches(".link, .chip, td, th, li")))
        found.push(`${node.data.trim()} in ${one.tagName}.${one.className}`);
    }
    if (!isScrolled && (box.right > innerWidth + 1 || box.left < -1)) found.push(`${node.data.trim()} in the window`);
  }
  const wide = document.documentElement.scrollWidth;
  if (wide > innerWidth + 1) found.push(`the page is ${wide} wide`);
  document.adoptedStyleSheets = [];
  return [...new Set(found)];
})()"""

# What can be done by a finger alone: it has something to do, and the keyboard doesn't reach it.
UNREACHED = """[...document.querySelectorAll("body *")].filter(part => part.onclick
  && !part.matches("button, a[href], input, select, summary, dialog, label")).map(part => part.outerHTML.slice(0, 80))"""

# Controls that can't be brought into view, or are covered there.
COVERED = """(async () => {
  const found = [], root = document.querySelector("dialog[open]") ?? document.body;
  for (const part of root.querySelectorAll("button, a[href], input:not([type=file]), select, summary")) {
    if (!part.checkVisibility() || part.closest("details:not([open]) .cards")) continue;
    part.scrollIntoView({block: "center", inline: "center"});
    const box = part.getClientRects()[0];
    const hit = document.elementFromPoint(Math.min(innerWidth - 2, box.left + box.width / 2), box.top + box.height / 2);
    if (!hit || !(part.contains(hit) || hit.closest("label")?.contains(part))) found.push(part.id || part.textContent);
  }
  return found;
})()"""

# Words with too little contrast to what is behind them, placeholders too
PALE = """(() => {
  const numbers = colour => colour.match(/[\\d.]+/g).map(Number);
  const light = colour => numbers(colour).slice(0, 3).map(value => value / 255)
    .map(value => value <= .04045 ? value / 12.92 : ((value + .055) / 1.055) ** 2.4)
    .reduce((sum, value, at) => sum + value * [.2126, .7152, .0722][at], 0);
  const behind = part => {
    for (let one = part; one; one = one.parentElement) {
      const colour = getComputedStyle(one).backgroundColor, alpha = numbers(colour)[3] ?? 1;
      if (alpha === 1) return colour;
      if (alpha > 0) throw new Error(`${one.className} is half transparent`);
    }
    return getComputedStyle(document.body).backgroundColor;
  };
  const contrast = (one, other) => {
    const [dark, bright] = [light(one), light(other)].sort((a, b) => a - b);
    return (bright + .05) / (dark + .05);
  };
  const root = document.querySelector("dialog[open]") ?? document.body;
  const texts = [...root.querySelectorAll("*")].filter(part => part.getClientRects().length
    && [...part.childNodes].some(node => node.nodeType === 3 && node.data.trim()));
  const pairs = texts.map(part => [part, getComputedStyle(part).color]);
  for (const field of root.querySelectorAll("input[placeholder]")) pairs.push([field, getComputedStyle(field, "::placeholder").color]);
  return pairs.filter(([part, colour]) => contrast(colour, behind(part)) < 4.5).map(([part, colour]) =>
    `${part.tagName}.${part.className} "${part.textContent.slice(0, 30)}" ${colour} on ${behind(part)}`);
})()"""

# What the keyboard has to reach, from above to below: by its key, its identity, or its words
TABBED = """[...document.querySelectorAll("a[href], button, input, select, summary, [tabindex='0']")]
  .filter(part => !part.disabled && part.checkVisibility()).map(part => (part.dataset.key ?? part.id) || part.textContent)"""

# How high a page's controls are that a wet finger has to hit
LOW = """[...document.querySelectorAll("#grid button, #acts button, #keys button, #list button, #races button, #banner button")]
  .filter(part => part.getClientRects().length && part.getBoundingClientRect().height < 51.9).map(part => part.textContent)"""

NEEDS_NAME = {"button", "link", "textbox", "searchbox", "combobox", "checkbox", "radio", "spinbutton", "dialog", "region",
              "navigation", "img", "image", "progressbar", "ProgressIndicator", "table", "DisclosureTriangle"}


@unittest.skipUnless(browser.program(), "Chromium isn't installed")
class Looking(unittest.TestCase):
    """A browser, an office that only shows, and its pages in all their states."""
    chromium: Chromium
    office: StubOffice

    def setUp(self) -> None:
        self.office = StubOffice()
        self.addCleanup(self.office.close)
        self.chromium = chromium_of(self)
        self.begin()

    def begin(self) -> None:
        """Has the office be as it is at first."""
        self.office.classes, self.office.line = ["cup"], (503, {"words": "the office is away"})
        self.chromium.faults.clear()

    def device(self, role: str, width: int, height: int, language: str = "en", dark: bool = False) -> Device:
        device = Device(self.chromium, width, height, touch=width < 1000, dark=dark, language=language)
        device.open(self.office.address(f"/office/{role}/"))
        device.until(LIVE)
        return device

    def finish(self, device: Device) -> Iterator[str]:
        """The finish page: boats and finishers, what a tap may mean, an unsent and a refused finish, questions."""
        device.until("document.querySelectorAll('#list li').length === 8")
        yield "finish"
        device.digit("12")
        yield "digits"
        device.digit("9")
        device.digit("9")
        yield "no boat"
        for _ in range(4):
            device.click("#back")
        for mode in ("level", "code", "round"):
            device.click(f"#{mode}")
            yield mode
            device.click(f"#{mode}")
        device.click("#code")
        device.tap(SAILS[1])
        device.until(OPEN)
        yield "codes"
        device.choose("")
        device.click(f"#list li[data-sail={SAILS[0]}] button")
        device.until(OPEN)
        yield "a finisher"
        device.choose("before")
        yield "ahead"
        device.click("#banner button")
        device.click("#list li.unread button")
        device.until(OPEN)
        yield "a place that is kept"
        device.choose("known")
        yield "who it was"
        device.click("#banner button")
        device.click(".race")
        device.until(OPEN)
        yield "races"
        device.choose("")
        yield from self.answers(device)

    def answers(self, device: Device) -> Iterator[str]:
        """What becomes of a tap: it waits, is refused, or is asked about."""
        device.tap(SAILS[10])
        device.until("document.querySelectorAll('#list li.unsent').length === 1")
        yield "unsent"
        where = {"kind": "others-recorded", "text": "",
                 "values": {"race": 2, "sail": SAILS[10], "others": [SAILS[5], SAILS[6]], "ahead": SAILS[5]}}
        self.office.line = 409, {"outcome": "elsewhere", "question": where, "clock": f"BEFORE 2 {SAILS[10]} {SAILS[5]}"}
        device.until("!!document.querySelector('#list li.unsent i')"
                     " && Object.values(localStorage).some(kept => kept.includes('\"asked\"'))")
        yield "asked"
        device.click("#link")
        device.until(OPEN)
        yield "where"
        self.office.line = 200, {"outcome": "refused", "answer": "NO 8", "entry": 0, "said": [], "version": 1, "mark": ""}
        device.choose("after")
        device.until("document.querySelectorAll('#list li.refused').length === 1")
        yield "refused"
        device.click("#list li.refused button")
        device.until(OPEN)
        yield "why"
        device.choose("ok")
        device.run(f"localStorage.setItem('tap:{'0' * 30}', JSON.stringify({{class: 'cup', line: 'FINISH 2 {SAILS[9]}', agreed: [],"
                   " state: 'asked', id: '0', at: Date.now(), clock: {span: '', ahead: 7e6}}))")
        device.reload()
        device.until(LIVE)
        device.click("#link")
        device.until(OPEN)
        yield "when"

    def scorer(self, device: Device) -> Iterator[str]:
        """The scorer's page: a race, corrections, questions, links, the office, a new series."""
        device.run("sessionStorage.setItem('last:cup', JSON.stringify({id: '0', line: 'BEFORE 40 GBR101 NED12'}))")
        device.reload()
        device.until("document.querySelectorAll('.order tbody tr').length > 7")
        yield "races"
        device.click(f".order tr[data-sail={SAILS[0]}] th button")
        device.until(OPEN)
        yield "corrections"
        device.choose("move")
        device.until("document.querySelectorAll('dialog[open] .stack button').length === 4")
        yield "where to"
        device.choose("ahead")
        device.until("!!document.querySelector('dialog[open] input')")
        yield "a boat"
        device.click("dialog .row button")
        device.click(f".missing button[data-sail={SAILS[12]}]")
        device.choose("code")
        device.until("!!document.querySelector('dialog[open] [data-value=OCS]')")
        yield "codes"
        device.choose("")
        device.click("#other-race")
        device.until(OPEN)
        yield "another race"
        device.choose("")
        device.click("#unlisted button")
        device.until("document.querySelectorAll('dialog[open] input').length === 4")
        yield "her names"
        device.choose("")
        self.office.line = 409, {"outcome": "asked", "said": [], "question": {
            "kind": "score-missing", "text": "", "values": {"race": 2, "sails": SAILS[9:]}}}
        device.click("#score")
        device.until(OPEN)
        yield "a question"
        device.choose("")
        yield from self.results(device)
        yield from self.scorer_tabs(device)

    def results(self, device: Device) -> Iterator[str]:
        """What is declared of the results, with all that is open, files, and copies."""
        device.click("#tab-results")
        device.until("document.querySelectorAll('.files a').length >= 5 && !!document.querySelector('#is-changed')")
        yield "results"
        self.office.line = 409, {"outcome": "asked", "said": [], "open": OPEN_POINTS, "question": {
            "kind": "announce", "text": "", "values": {"state": "amended", "table": "", "races": ["2"], "sails": [],
                                                       "marks": ["?1"], "faults": [], "decisions": ["1 GBR101 DPI 7.0 6.0"]}}}
        device.type("#reason", "A boat is reinstated")
        device.click("#declare-amended")
        device.until(OPEN)
        yield "a declaration"
        device.choose("")

    def scorer_tabs(self, device: Device) -> Iterator[str]:
        device.click("#tab-links")
        device.until("document.querySelectorAll('.devices tbody tr').length === 3")
        device.click("[data-role=FINISH]")
        device.until("!!document.querySelector('.qr')")
        yield "links"
        device.click("#tab-office")
        device.until("document.querySelectorAll('pre').length === 2")
        yield "office"
        device.click("#tab-settings")
        device.until("document.querySelectorAll('#effect .moves li').length > 7 && !!document.querySelector('#reopen')")
        yield "settings"
        self.office.classes = ["cruisers"]
        device.open(self.office.address("/office/scorer/"))
        device.until("!!document.querySelector('#tab-times')")
        device.click("#tab-times")
        device.until("document.querySelectorAll('#times-table tbody tr').length > 7")
        yield "times"
        device.click("button[data-hand]")
        device.until(OPEN)
        yield "a finish by hand"
        device.click("dialog[open] button")
        self.office.classes = ["cup"]
        device.open(self.office.address("/office/scorer/"))
        device.until("!!document.querySelector('#tab-new')")
        device.click("#tab-new")
        device.until("!!document.querySelector('#list')")
        device.run("""(() => {
            const list = new DataTransfer();
            list.items.add(new File(["Sail\\nGBR 7\\n"], "list.csv"));
            const field = document.querySelector("#list");
            field.files = list.files;
            field.dispatchEvent(new Event("change"));
        })()""")
        device.until("!!document.querySelector('.boats')")
        yield "new series"

    def jury(self, device: Device) -> Iterator[str]:
        """The jury's page: what it shows, a preview, other decisions, one that isn't taken."""
        device.until("document.querySelectorAll('.standing tbody tr').length > 7")
        yield "jury"
        device.click("#boat")
        device.click(f"dialog button[data-sail={SAILS[3]}]")
        device.click("#what-DSQ")
        device.until("!!document.querySelector('#send')")
        yield "preview"
        device.click("#what-PRP")
        device.until("!!document.querySelector('#takes') && !!document.querySelector('#send')")
        yield "another decision"
        device.click(".kept li:last-child .bad")
        device.until("!!document.querySelector('#send') && !document.querySelector('#takes')")
        yield "taken out"
        self.office.preview, held = {"refused": remarks_of([remark("barred-code", code="DSQ")])}, self.office.preview
        device.click("#what-CLEAR")
        device.until("!!document.querySelector('.preview.bad')")
        self.office.preview = held
        yield "not taken"

    def enter(self, device: Device) -> Iterator[str]:
        for fragment in ("#finish.secret", ""):
            device.open("about:blank")
            device.open(self.office.address(f"/office/in{fragment}"))
            device.until("!!document.querySelector('#main h2')")
            yield f"in{fragment}"

    def each_state(self, width: int, height: int, look: Callable[[Device], object], language: str = "en",
                   dark: bool = False) -> None:
        """Looks at each page in all its states, and needs that nothing is found."""
        for role in ("finish", "scorer", "jury", "enter"):
            device = self.device("finish" if role == "enter" else role, width, height, language, dark)
            states: Iterator[str] = getattr(self, role)(device)
            for name in states:
                with self.subTest(language=language, page=role, state=name, dark=dark):
                    found = look(device)
                    self.assertFalse(found, found)
            device.close()
            self.begin()


def all_said() -> list[Said]:
    """One of each kind of what the office says."""
    return [said(kind, NOTE, str, "", **{name: OTHER_VALUES.get(f"{kind} {name}", OF_SAID[name])
                                         for name in values_said(kind)})
            for kind in sorted(SAID.keys() - SAID_OTHERWISE)]


# Values of remarks; a name or a list that is longer is broken as a text of its own is.
OF_REMARKS: dict[str, RemarkValue] = {
    "name": "entries.csv", "row": 100, "title": 1, "first": 3, "above": 99, "n": 501, "room": 500, "line": 12, "other": 11,
    "number": 12, "encoding": "UTF-16", "column": "Nummer", "columns": ["Crew", "Yardstick"], "heading": "Sail no.",
    "helm": "Ann", "written": "GBR_7", "sail": "GBR7", "race": 40, "races": ["4", "5"], "key": "exclude", "near": "PRP",
    "section": "rules", "value": "'8,4'", "said": "regatta: start refused 8 at 12", "answer": "NO 8", "how": "30%",
    "kind": "PRP", "kinds": ["DPI", "PRP"], "code": "DSQ", "most": 200, "before": "Kestrel", "sign": "U+2013",
    "mark": "?77", "marks": ["?77", "?78"], "command": "BEFORE", "form": "BEFORE race sail other", "typed": "101",
    "names": ["GBR 101 Ann", "NED 101 Bea"], "lines": ["STRIKE 40 GBR101", "CLEAR 40 GBR101"], "role": "jury", "by": "the jury",
    "boat": "GBR 101 Ann", "time": "13:00", "times": 4,
    "minutes": "10", "seconds": "60", "copy": "kept/2026-11-28-120000Z.txt",
    "boats": "300 boats", "entries": "8192 entries", "rules": "RRS A5.2", "since": "13:00", "process": "12345", "path": "/media/ann",
    "held": 12, "kept": 110, "others": "101?", "numbers": "12\u201314", "had": 12, "more": 2, "entry": 12,
    "places": ["?1 in race 3", "?1 in race 4"], "was": "15:07:31", "address": "http://10.0.0.5:8080/",
    "rule": "A8.1", "zone": "Europe/Lisbon", "roundings": ["half-up", "down"]}
PLACED: dict[str, RemarkValue] = {"name": "series.ini", "line": 12}
# Remarks that are alike in some languages
ALIKE = {"office-summary", "journal-in-file", "takes-limit", "wanted-handicap", "wanted-absent", "wanted-state", "key-club", "key-rating"}
# Remarks within others
WITHIN = {"fault": "sail-none", "when": "when-closed", "place": "ini-place", "wanted": "wanted-scp", "why": "barred-alone"}


def all_remarks() -> list[Remark]:
    """One of each kind of remark."""
    made = remarks_made()
    found = []
    for kind in ENGLISH.keys() - REMARKED_OTHERWISE:
        names = fields_of(kind) | (set.intersection(*made[kind]) if kind in made else {"sign"})
        values = {name: OF_REMARKS[name] for name in names & OF_REMARKS.keys()}
        within = {name: remark(WITHIN[name], **(PLACED if name == "place" else {})) for name in names & WITHIN.keys()}
        found.append(remark(kind, **values, **within))
    return found


class Looks(Looking):
    """What has to hold of each page in all its states."""

    def test_languages(self) -> None:
        """In each language all words can be read whole at 320 pixels."""
        for language in LANGUAGES:
            self.each_state(320, 640, lambda device: device.run(CUT), language)
        self.assertEqual(self.chromium.faults, [])

    def test_what_is_said(self) -> None:
        """Each language has words of its own for whatever the office says of a tap, which can be read whole at 320
        pixels."""
        everything = all_said()
        for language in LANGUAGES:
            device = self.device("scorer", 320, 640, language)
            self.office.line = 409, {"outcome": "asked", "said": said_of(everything), "question": {
                "kind": "score-only-codes", "text": "", "values": {"race": 2}}}
            device.click("#score")
            device.until(OPEN)
            shown = device.text("dialog[open]")
            with self.subTest(language=language):
                self.assertIn("?77", shown)
                in_english = [one.what for one in everything if " ".join(one.text.split()) in " ".join(shown.split())]
                self.assertEqual(in_english if language != "en" else [], [])
                self.assertEqual(device.run(CUT), [])
            device.close()

    def test_taken_out(self) -> None:
        """Before a boat is taken out each language says which sheets and which places that changes."""
        also = in_a_row(remark("removal-sheets", names=["times/race-3.csv"]),
                        remark("removal-places", places=[remark("places-of-race", marks=["?77"], race=3)]))
        asked = question("remove-boat", str, sail="GBR7", lines=["SCORER ENTER GBR7"], moves=[], also=also)
        for language in LANGUAGES:
            device = self.device("scorer", 320, 640, language)
            self.office.line = 409, {"outcome": "asked", "said": [], "question": question_of(asked)}
            device.click("#score")
            device.until(OPEN)
            shown = device.text("dialog[open]")
            with self.subTest(language=language):
                self.assertEqual([text for text in ("times/race-3.csv", "?77", "ENTER GBR7") if text not in shown], [])
                self.assertEqual("She is taken out" in shown, language == "en")
                self.assertEqual(device.run(CUT), [])
            device.close()

    def test_remarks(self) -> None:
        """Each language has words of its own for whatever isn't taken, which can be read whole at 320 pixels."""
        everything = all_remarks()
        for language in LANGUAGES:
            device = self.device("scorer", 320, 640, language)
            self.office.line = 422, {"words": "", "kind": "not-sent", "said": remarks_of(everything)}
            device.click("#score")
            device.until("document.querySelector('#alarm').textContent !== ''")
            shown = device.text("#alarm")
            with self.subTest(language=language):
                self.assertEqual(len(shown.split("\n")), len(everything))
                self.assertEqual([one.kind for one in everything if language != "en" and f"\n{one}.\n" in shown
                                  and one.kind not in ALIKE], [])
                self.assertNotIn("[object", shown)
                self.assertNotIn("undefined", shown)
                self.assertEqual(re.findall(r"\{\w+\}", shown), [])
                self.assertEqual(device.run(CUT), [])
            device.close()

    def test_refused_at_the_finish(self) -> None:
        """The finish page fetches the words for why a tap isn't taken when it needs them."""
        device = self.device("finish", 390, 844, "de")
        device.until("document.querySelectorAll('#list li').length === 8")
        self.office.line = 422, {"words": "NED12 isn't entered.", "said": remarks_of([remark("not-entered", sail="NED12")])}
        device.tap(SAILS[10])
        device.until("Object.values(localStorage).some(kept => kept.includes('NED 12 ist nicht gemeldet.'))")
        device.click("#list li.refused button")
        device.until("document.querySelector('dialog[open]')?.textContent.includes('NED 12 ist nicht gemeldet.')")
        device.close()

    def test_sheet_in_german(self) -> None:
        """A sheet of times that can't be read, in words of the page; so is who keeps a place, and since when."""
        self.office.classes = ["cruisers"]
        self.office.sheet_wrong = remarks_of([remark("sheet-cell", name="times/race-2.csv", row=3, column="Ziel", written="15:07",
                                                     wanted=remark("wanted-finish"))])
        self.addCleanup(self.office.sheet_wrong.clear)
        device = self.device("scorer", 390, 844, "de")
        device.until("!!document.querySelector('#tab-times')")
        device.click("#tab-times")
        device.until("!!document.querySelector('.step.wrong')")
        self.assertEqual(device.text(".step.wrong"),
                         "times/race-2.csv, Zeile 3, Spalte Ziel: „15:07“. Nötig: eine Uhrzeit mit Sekunden, wie 15:07:31.")
        self.office.line = 409, {"outcome": "asked", "said": [], "question": {
            "kind": "score-unknown", "text": "", "values": {"race": 2, "marks": ["?1"], "since": ["11:20 Ann"]}}}
        device.click("#tab-races")
        device.click("#score")
        device.until(OPEN)
        self.assertIn("Ann um 11:20", device.text("dialog[open]"))
        device.close()

    def test_numbers_in_german(self) -> None:
        """Points have a comma, and a date is one of the language; codes and sails are as they were."""
        device = self.device("scorer", 1280, 900, "de")
        device.until("document.querySelectorAll('.standing tbody tr').length > 7")
        # Third and fourth, level (A7)
        self.assertIn("3,5", device.text(".standing"))
        self.assertIn("OCS", device.text(".standing"))
        self.assertNotRegex(device.text(".standing"), r"[0-9]\.[0-9]")
        device.click("#tab-results")
        device.until("!!document.querySelector('#is-changed')")
        self.assertIn("28. November 2026", device.text("main"))
        device.close()

    def test_two_classes(self) -> None:
        """Two classes at one line at 320 pixels, in each language."""
        for language in LANGUAGES:
            self.see_two(320, language)

    def see_two(self, width: int, language: str) -> None:
        """Two classes on a phone: all can be read."""
        self.office.classes = ["cup", "fleet"]
        device = self.device("finish", width, 640, language)
        for at in (0, 1):
            device.run(f"document.querySelectorAll('.race')[{at}].click()")
            device.click("dialog [data-race='2']")
            device.until("!document.querySelector('dialog')")
        with self.subTest(language=language, width=width):
            device.until("document.querySelectorAll('#list li').length === 16")
            self.assertEqual(device.run(CUT), [])
        device.close()

    def test_head(self) -> None:
        """On a laptop of 1366 pixels the scorer's tabs are in one line with two classes."""
        self.office.classes = ["cup", "cruisers"]
        for language in ("en", "de", "fr"):
            device = self.device("scorer", 1366, 768, language)
            device.click("[data-key=cruisers]")
            device.until("!!document.querySelector('#tab-times')")
            with self.subTest(language=language):
                self.assertEqual(device.run("[...document.querySelectorAll('.top > *')].filter(part => part.getClientRects().length && "
                                            "part.getBoundingClientRect().top > document.querySelector('#tabs').getBoundingClientRect().bottom).length"), 0)
            device.close()

    def test_contrast(self) -> None:
        """Each text has a contrast of 4.5 to 1 at least, in dark and light, in all states."""
        for dark in (False, True):
            for width, height in ((390, 844), (1280, 900)):
                self.each_state(width, height, lambda device: device.run(PALE), dark=dark)

    def test_large_text(self) -> None:
        """With text of twice the size, on a phone and a laptop, all can be read and reached."""
        large = Chromium("--blink-settings=defaultFontSize=32")
        self.addCleanup(large.close)
        usual, self.chromium = self.chromium, large
        try:
            for width, height in ((390, 844), (1280, 900)):
                self.each_state(width, height, lambda device: device.run(CUT) + device.run(COVERED))
            for width in (390, 320):
                self.see_two(width, "en")
        finally:
            self.chromium = usual

    def test_narrow(self) -> None:
        """At 320 pixels everything can be reached; what a wet finger has to hit is 52 pixels high."""
        self.each_state(320, 640, lambda device: device.run(COVERED) + device.run(LOW))

    def test_names(self) -> None:
        """A screen reader has a name for all that can be used, and everything is reached by the keyboard."""
        self.each_state(390, 844, self.unnamed)
        self.each_state(1280, 900, self.unnamed)

    def unnamed(self, device: Device) -> list[str]:
        """What has no name in Chromium's accessibility tree, or is for fingers alone."""
        roles, found = heard_of(device)
        found += [f"no live {role}" for role in ("status", "alert") if role not in roles and "dialog" not in roles]
        return [*found, *device.run(UNREACHED)]


def heard_of(device: Device) -> tuple[list[str], list[str]]:
    """The roles of what Chromium's accessibility tree has of a page, and what a screen reader can't name or find there."""
    nodes: list[dict[str, Any]] = device.ask("Accessibility.getFullAXTree")["nodes"]
    kept = [node for node in nodes if not node.get("ignored")]
    roles = [node["role"]["value"] for node in kept]
    found = [f"a {node['role']['value']} without a name" for node in kept
             if node["role"]["value"] in NEEDS_NAME and not node.get("name", {}).get("value", "").strip()]
    return roles, found + [f"no {role}" for role in ("heading", "main") if role not in roles and "dialog" not in roles]


class ByKeyboard:
    """Presses keys."""

    def press(self, device: Device, key: str, shift: bool = False) -> None:
        code = {"Tab": 9, "Enter": 13, "Escape": 27, "Backspace": 8}.get(key, ord(key[0].upper()))
        text = {"Enter": "\r"}.get(key, key if len(key) == 1 else "")
        more = {"text": text} if text else {}
        for kind in ("keyDown", "keyUp"):
            device.ask("Input.dispatchKeyEvent", type=kind, key=key, windowsVirtualKeyCode=code,
                       modifiers=8 if shift else 0, **(more if kind == "keyDown" else {}))

    def reached(self, device: Device) -> list[str]:
        """What Tab reaches, in its order, once round the page."""
        device.run("document.activeElement?.blur()")
        found: list[str] = []
        for _ in range(400):
            self.press(device, "Tab")
            here = device.run("document.activeElement === document.body ? '' : (document.activeElement.dataset.key"
                              " ?? document.activeElement.id) || document.activeElement.textContent")
            if not here or here in found[:1]:
                return found
            if not device.run("getComputedStyle(document.activeElement).outlineStyle !== 'none'"):
                found.append(f"{here} without a sign of the focus")
            found.append(here)
        return found


class Keyboard(ByKeyboard, Looking):
    """Without a mouse or a finger."""

    def test_order(self) -> None:
        """Tab goes through the finish page from above to below, and shows where it is."""
        device = self.device("finish", 390, 844)
        device.until("document.querySelectorAll('#grid .boat').length > 10")
        reached = self.reached(device)
        self.assertEqual([one for one in reached if "without" in one], [])
        buttons = device.run("[...document.querySelectorAll('body button:not(:disabled)')].map(one =>"
                             " (one.dataset.key ?? one.id) || one.textContent)")
        self.assertEqual(reached, buttons)
        device.close()

    def test_order_at_desks(self) -> None:
        """So it does through the scorer's and the jury's page: no control is left out, and none comes before one above it."""
        for role in ("scorer", "jury"):
            device = self.device(role, 1280, 900)
            device.until("document.querySelectorAll('.standing tbody tr').length > 7")
            reached = self.reached(device)
            self.assertEqual([one for one in reached if "without" in one], [], role)
            self.assertEqual(reached, device.run(TABBED), role)
            device.close()

    def test_finish(self) -> None:
        """Digits, Enter and ? record finishes; Escape gives up; Backspace drops a digit."""
        device = self.device("finish", 1280, 800)
        device.until("document.querySelectorAll('#grid .boat').length > 10")
        for key in ("3", "1", "Backspace"):
            self.press(device, key)
        self.assertEqual(device.text("#digits span"), "3")
        self.press(device, "Escape")
        self.assertEqual(device.count("#digits:not([hidden])"), 0)
        for key in ("3", "1", "2"):
            self.press(device, key)
        device.until("!('moving' in document.querySelector('#grid').dataset)")
        self.press(device, "Enter")
        self.press(device, "?")
        device.until("document.querySelectorAll('#list li.unsent').length === 2")
        self.assertEqual(device.texts("#list li.unsent .sail"), ["GBR 312", "?"])
        device.close()

    def test_windows(self) -> None:
        """A window takes the focus, keeps Tab within it, and gives it back when Escape closes it."""
        device = self.device("scorer", 1280, 800)
        boat = f".order tr[data-sail={SAILS[0]}] th button"
        device.until(f"!!document.querySelector(\"{boat}\")")
        device.run(f"document.querySelector(\"{boat}\").focus()")
        self.press(device, "Enter")
        device.until(OPEN)
        for _ in range(12):
            self.press(device, "Tab")
            self.assertTrue(device.run("document.activeElement === document.body"
                                       " || !!document.activeElement.closest('dialog')"))
        self.press(device, "Escape")
        device.until("!document.querySelector('dialog')")
        self.assertTrue(device.run(f"document.activeElement === document.querySelector(\"{boat}\")"))
        # News draws the page again, and the focus stays where it was.
        self.office.version += 1
        device.until("document.querySelector('#link').dataset.state === 'live'")
        self.assertTrue(device.run(f"document.activeElement === document.querySelector(\"{boat}\")"))
        device.close()

    def test_news_is_heard(self) -> None:
        """What the office says comes into a part that a screen reader reads out."""
        self.office.line = 422, {"words": "GBR 999 isn’t entered"}
        device = self.device("scorer", 1280, 800)
        device.type("#typed", "finish 2 999")
        device.run("document.querySelector('form.typed').requestSubmit()")
        device.until("document.querySelector('#alarm').textContent !== ''")
        self.assertEqual(device.text("#alarm"), "GBR 999 isn’t entered")
        self.assertEqual(device.run("document.querySelector('#alarm').getAttribute('role')"), "alert")
        device.close()


if __name__ == "__main__":
    unittest.main()
