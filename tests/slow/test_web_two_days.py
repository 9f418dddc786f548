"""The guide's two days and two classes in Chromium: a scorer at a desk, a phone at the finish, a jury's tablet and
the board on a phone, over `raceoffice serve` alone. The tables are worked out by the rules.

With PICTURES=FOLDER the pictures of the guide are written there.
"""
from __future__ import annotations

import os
import re
import signal
import struct
import tempfile
import unittest

import helpers
from devices import Device
from screens import shrink
from web_office import NewOffice, zone_of_afternoon

CUP = """Boat;Sail;Helm
Kestrel;GBR 101;A. Moss
Sea Pink;GBR 7;J. Hale
Windhover;NED 12;P. de Wit
Plover;FRA 9;C. Blanc
Turnstone;GBR 33;R. Shaw
"""
FLEET = """Sail;Boat;Helm;TCF
GBR 33;Fulmar;I. Voss;1.050
NED 80;Sterna;K. Prins;0.850
SWE 2;Vind;A. Berg;0.950
GER 19;Luv;T. Ott;0.900
"""
# How the guide's tables come about. Six boats: DNC, DNF, OCS, RET and DSQ are 7 points. One score is excluded, the
# worst, and the earliest of those (RRS A2.1). GBR 7 finished 3rd in race 2 with a ZFP, and has redress there: the
# average of her other races, on Sunday that of 2.5 and 5.0, which is 3.75, so 3.8 (RRS A9(a)). The Folkboats sail
# for more than three hours, times 0.85, 0.95 and 1.05, and DNF is 5 points of four boats.
TABLE = re.compile(r"^\| rank \| boat \| net \|.*\n\|[-|]*\n((?:\|.*\n)+)", re.MULTILINE)
# With FRA 9 reinstated in race 2 she has 8.0 as USA 4 has, whose best score is the better one (RRS A8.1).
AMENDED = """1 GBR 101 3.0 1.0 2.0 (3.0)
2 NED 12 3.5 2.5 1.0 (4.0)
3 GBR 7 6.3 2.5 3.8/RDG (5.0)
4 USA 4 8.0 (7.0/DNC) 7.0/DNC 1.0
5 FRA 9 8.0 4.0 4.0 (7.0/RET)
6 GBR 33 9.0 (7.0/OCS) 7.0/DNC 2.0"""
# What is another each time in what `serve` prints
ADDRESS, SECRET = re.compile(r"http://[\d.]+:\d+/"), re.compile(r"(#\w+\.)[\w-]+")
PICTURES = ["guide-new", "guide-links", "guide-finish", "guide-scorer", "guide-jury", "guide-two"]
LARGEST = 120_000
# The standing of a page, a line for each boat as above
STANDING = """[...document.querySelectorAll(".standing tbody tr")].map(row => [
  row.querySelector(".rank").firstChild.data.trim(), row.querySelector(".sail").textContent, row.querySelector(".net").textContent,
  ...[...row.querySelectorAll(".r")].map(score => {
    const code = score.querySelector("small")?.textContent, words = score.firstChild.textContent + (code ? "/" + code : "");
    return score.querySelector("del") ? `(${words})` : words;
  })].join(" ")).join("\\n")"""

# Words of buttons that are cut off, as the start by the clock might be
CUT_OFF = """[...document.querySelectorAll("#acts button, .boat small")]
  .filter(part => part.scrollWidth > part.clientWidth || part.scrollHeight > part.clientHeight).map(part => part.textContent)"""


def guide() -> str:
    with open(os.path.join(helpers.TOP, "docs", "GUIDE.md"), encoding="utf-8") as file:
        return file.read()


def tables() -> list[str]:
    """The standings of the guide: of Saturday, of Sunday, and of the Folkboats; a line for each boat."""
    found = [[" ".join(row.strip("| ").split(" | ")) for row in rows.splitlines()] for rows in TABLE.findall(guide())]
    return ["\n".join(rows) for rows in found]


class TwoDays(NewOffice):
    """A Saturday and a Sunday of the Autumn Cup, and a Folkboat's race by corrected time."""
    # To whether the series of this folder are to be opened
    typed = "y\n"
    saturday: str
    sunday_evening: str
    folkboats: str

    @classmethod
    def setUpClass(cls) -> None:
        before = os.environ.get("TZ")
        cls.saturday, cls.sunday_evening, cls.folkboats = tables()
        os.environ["TZ"] = zone_of_afternoon()
        cls.addClassCleanup(lambda: os.environ.pop("TZ") if before is None else os.environ.update(TZ=before))

    def setUp(self) -> None:
        super().setUp()
        pictures = tempfile.TemporaryDirectory()
        self.addCleanup(pictures.cleanup)
        self.pictures = os.environ.get("PICTURES", pictures.name)
        for name in ("cup", "fleet"):
            self.addCleanup(helpers.kill_office, os.path.join(self.here, name))

    def command(self) -> list[str]:
        return [*helpers.COMMAND, "serve", "--http", str(self.port)]

    # What is done again and again

    def picture(self, device: Device, name: str) -> None:
        """A picture of the guide, without what was said a moment ago. What devices open is called as a club would
        see it."""
        device.run(f"""(() => {{
            for (const said of document.querySelectorAll(".toast")) said.textContent = "";
            const texts = document.createTreeWalker(document.body, NodeFilter.SHOW_TEXT);
            while (texts.nextNode())
                texts.currentNode.data = texts.currentNode.data.replace(/http:\\/\\/[\\d.]+:{self.port}/, "http://192.168.1.20:8080");
        }})()""")
        device.ask("Page.bringToFront")
        device.run("new Promise(done => requestAnimationFrame(() => requestAnimationFrame(done)))")
        path = os.path.join(self.pictures, f"{name}.png")
        device.shot(path)
        if "PICTURES" in os.environ:
            shrink(path)

    def let_in(self, scorer: Device, role: str, device: Device, name: str) -> None:
        """Hands the link of a role to a device, from the scorer's page."""
        scorer.click("#tab-links")
        scorer.click(f"[data-role={role}]")
        scorer.until(f"document.querySelector('.linktext')?.textContent.includes('#{role.lower()}.')")
        link = scorer.text(".linktext")
        device.come(self.address(link[link.index("/office/in"):]), name)

    def choose_race(self, ann: Device, race: int, place: int = 0) -> None:
        """Chooses the race of a class on the finish page."""
        ann.until(f"document.querySelectorAll('.race').length > {place}")
        ann.run(f"document.querySelectorAll('.race')[{place}].click()")
        ann.click(f"dialog[open] [data-race='{race}']")
        ann.until(f"document.querySelectorAll('.race b')[{place}].textContent === '{race}'")

    def code(self, ann: Device, sail: str, code: str, name: str = "") -> None:
        ann.click("#code")
        ann.tap(sail, name)
        ann.choose(code)

    def show(self, scorer: Device, race: int, rows: int) -> None:
        """Shows a race on the scorer's page, and waits for its rows."""
        scorer.click("#tab-races")
        scorer.click(f".races [data-key='{race}']")
        scorer.until(f"document.querySelector('#race-title').textContent.trim() === 'Race {race}'"
                     f" && document.querySelectorAll('.order tbody tr').length === {rows}")

    def score(self, scorer: Device, question: str = "") -> None:
        """Lets the race that is shown count."""
        scorer.click("#score")
        if question:
            scorer.until("!!document.querySelector('dialog[open]')")
            self.assertIn(question, scorer.text("dialog"))
            scorer.choose("yes")
        scorer.until("!!document.querySelector('#unscore')")

    def stands(self, desk: Device, table: str) -> None:
        """Waits for a standing."""
        try:
            desk.until(f"{STANDING} === {table!r}")
        except AssertionError:
            self.assertEqual(desk.run(STANDING), table)
            raise

    def new_series(self, scorer: Device, data: bytes, boats: int, **fields: str) -> None:
        """Fills in the page of a new series: its list, and what is typed into its fields."""
        self.upload(scorer, "entries.csv", data)
        scorer.until(f"document.querySelectorAll('.boats tbody tr').length === {boats}")
        for name, words in fields.items():
            scorer.type(f"form [name='{name}']", words)

    # Saturday

    def test_two_days(self) -> None:
        self.need_printed()
        scorer, ann, jury, board = self.come_in()
        self.race_1(ann, scorer)
        self.race_2(ann, scorer)
        self.look_at_settings(scorer)
        self.late_entry(scorer)
        self.race_3_is_abandoned(ann, scorer)
        self.protests(jury)
        self.evening(scorer, ann)
        self.sunday(scorer, ann)
        self.boards(board)
        self.final(scorer, board)
        self.amended(scorer, jury, board)
        self.need_no_faults()
        # Each line of the window has the time once.
        self.assertNotRegex(self.text("serve.txt"), r"\d\d:\d\d:\d\d \d\d:\d\d:\d\d")
        self.need_pictures()

    def need_printed(self) -> None:
        """The one command prints what the guide shows."""
        block = guide().partition("with a code for cameras:\n\n")[2].partition("\n\n")[0]
        shown, printed = ([SECRET.sub(r"\1SECRET", ADDRESS.sub("ADDRESS/", line.strip())) for line in text.splitlines()]
                          for text in (block, self.text("serve.txt")))
        self.assertGreater(len(shown), 4)
        self.assertEqual([line for line in shown if line not in printed], [])

    def come_in(self) -> tuple[Device, Device, Device, Device]:
        """A series is made at the desk, and the others come by what the scorer shows them."""
        scorer = self.device("scorer", "Bea’s laptop")
        self.new_series(scorer, CUP.encode("utf-16"), 5, title="Autumn Cup", short="cup", **{"class": "Dragon"})
        scorer.until("document.querySelector('#meaning').textContent.includes('one from 2 races')")
        self.picture(scorer, "guide-new")
        scorer.click("#make")
        scorer.until("document.querySelector('#page').dataset.tab === 'links'")
        ann = Device(self.chromium, 390, 844, 1, touch=True)
        jury = Device(self.chromium, 820, 1180, 1, touch=True)
        board = Device(self.chromium, 390, 844, 1, touch=True)
        self.let_in(scorer, "JURY", jury, "Protest room")
        self.let_in(scorer, "FINISH", ann, "Ann’s phone")
        scorer.until("document.querySelectorAll('.devices tbody tr').length === 3")
        self.picture(scorer, "guide-links")
        board.open(self.address("/"))
        return scorer, ann, jury, board

    def race_1(self, ann: Device, scorer: Device) -> None:
        """An early starter, two boats level, and a sail that can't be read at first."""
        ann.until("document.querySelector('.race b')?.textContent === '1'")
        self.code(ann, "GBR33", "OCS")
        ann.tap("GBR101")
        ann.tap("NED12")
        ann.click("#level")
        ann.tap("GBR7")
        ann.click("#unread")
        self.settle(ann)
        ann.until("document.querySelectorAll('#list li').length === 4")
        self.picture(ann, "guide-finish")
        ann.click("#list li.unread button")
        ann.choose("known")
        ann.tap("FRA9")
        self.settle(ann)
        self.assertEqual(self.journal(), [
            "FINISH MARK 1 GBR33 OCS", "FINISH FINISH 1 GBR101", "FINISH FINISH 1 NED12", "FINISH TIE 1 GBR7 NED12",
            "FINISH FINISH 1 FRA9"])
        self.show(scorer, 1, 5)
        for at in range(4):
            scorer.run(f"document.querySelectorAll('.tick button')[{at}].click()")
        scorer.until("document.querySelector('.paper').textContent === '4 of 4 compared with the paper'")
        self.score(scorer)

    def race_2(self, ann: Device, scorer: Device) -> None:
        """A penalty under flag Z, a tap that is taken back, and two boats that the paper has the other way round.
        One boat stayed ashore."""
        self.choose_race(ann, 2)
        self.code(ann, "GBR7", "ZFP")
        for sail in ("NED12", "GBR33"):
            ann.tap(sail)
        self.settle(ann)
        ann.click("#undo")
        ann.until("document.querySelectorAll('#list li').length === 1")
        for sail in ("GBR101", "FRA9", "GBR7"):
            ann.tap(sail)
        self.settle(ann)
        self.show(scorer, 2, 4)
        scorer.click(".order tr[data-sail=FRA9] th button")
        scorer.choose("swap")
        scorer.click("dialog[open] [data-sail=GBR7]")
        # In between they are level.
        scorer.until("[...document.querySelectorAll('.order tbody tr')].map(row => row.querySelector('.place').textContent"
                     " + row.querySelector('th').textContent).join() === '1NED 12,2GBR 101,3GBR 7,4FRA 9'")
        self.score(scorer, "Score race 2 with 1 boat as DNC?")
        # Five boats: GBR 33 has 6 points for OCS and 6 for DNC, GBR 7 one more than 3.
        self.stands(scorer, "1 NED 12 1.0 (2.5) 1.0\n2 GBR 101 1.0 1.0 (2.0)\n3 GBR 7 2.5 2.5 (4.0/ZFP)\n"
                            "4 FRA 9 4.0 (4.0) 4.0\n5 GBR 33 6.0 (6.0/OCS) 6.0/DNC")
        # The sign of a code has as much room on its left as on its right.
        room = scorer.run("(style => [style.paddingLeft, style.paddingRight])(getComputedStyle(document.querySelector('.order .code')))")
        self.assertEqual(room[0], room[1])
        self.picture(scorer, "guide-scorer")

    def look_at_settings(self, scorer: Device) -> None:
        """Without excluded scores GBR 101 would have 3.0, and NED 12 3.5: that is shown, and not saved."""
        scorer.click("#tab-settings")
        scorer.click("#exclude-none")
        scorer.until("document.querySelector('#effect').textContent"
                     ".includes('GBR 101 Kestrel: 2nd to 1st, net 1.0 to 3.0')")
        scorer.click("#tab-races")
        self.assertIn("exclude = 2\n", self.text("cup", "series.ini"))

    def late_entry(self, scorer: Device) -> None:
        scorer.press("Late entry")
        scorer.type("dialog[open] input", "usa 4")
        scorer.choose("yes")
        scorer.until("document.querySelector('dialog[open]')?.textContent.includes('isn’t on the entry list')")
        scorer.choose("yes")
        scorer.until("document.querySelector('.missing').textContent.includes('USA 4')")

    def race_3_is_abandoned(self, ann: Device, scorer: Device) -> None:
        """The program dies, and then all of the computer. What was tapped is there, and meanwhile the phone keeps
        its taps; then a mark drifts, and the race is taken away."""
        self.choose_race(ann, 3)
        ann.tap("GBR101")
        self.settle(ann)
        self.kill_program()
        ann.tap("NED12")
        self.settle(ann)
        self.kill_web()
        self.kill_program()
        ann.tap("FRA9")
        ann.until("document.querySelector('#link').textContent === '1 unsent · offline'")
        self.start()
        self.settle(ann)
        self.assertEqual([line for line in self.journal() if " 3 " in line],
                         ["FINISH FINISH 3 GBR101", "FINISH FINISH 3 NED12", "FINISH FINISH 3 FRA9"])
        self.show(scorer, 3, 3)
        scorer.click("#abandon")
        scorer.choose("yes")
        scorer.until("document.querySelectorAll('.order tbody tr').length === 0")

    def protests(self, jury: Device) -> None:
        """A disqualification and redress in race 2: the tablet shows who would move, with nothing sent."""
        jury.until("!!document.querySelector('#race option')")
        jury.type("#race", "2")
        held = len(self.journal())
        self.prepare(jury, "FRA9", "DSQ")
        self.assertIn("FRA 9 Plover: 4th, net 4.0", jury.text("#preview"))
        self.assertEqual(len(self.journal()), held)
        self.picture(jury, "guide-jury")
        self.send(jury)
        self.prepare(jury, "GBR7", "ALL")
        self.send(jury)
        self.assertEqual(self.journal()[held:], ["JURY MARK 2 FRA9 DSQ", "JURY REDRESS 2 GBR7 ALL"])

    def prepare(self, jury: Device, sail: str, what: str) -> None:
        """Chooses a boat and a decision."""
        jury.click("#boat")
        jury.click(f"dialog[open] [data-sail={sail}]")
        jury.click(f"#what-{what}")
        jury.until("!!document.querySelector('#preview #send')")

    def send(self, jury: Device) -> None:
        """Sends the decision that is shown: its race counts already."""
        jury.click("#send")
        jury.until("!!document.querySelector('dialog[open]')")
        jury.choose("yes")
        jury.until("!document.querySelector('#preview')")

    def evening(self, scorer: Device, ann: Device) -> None:
        """The standing of Saturday; the office is closed on its page, and then the one command ended."""
        self.stands(scorer, self.saturday)
        scorer.click("#tab-office")
        scorer.press("Close the office for today")
        scorer.choose("yes")
        scorer.until("document.querySelector('.chip')?.textContent === 'closed'")
        helpers.until("a dated copy of the journal", lambda: self.text("cup", "journal.txt") in [
            self.text("cup", "kept", name) for name in os.listdir(os.path.join(self.here, "cup", "kept"))])
        assert self.web
        self.web.send_signal(signal.SIGINT)
        self.web.wait(helpers.PATIENCE)
        ann.until("document.querySelector('#link').dataset.state === 'away'")

    # Sunday

    def sunday(self, scorer: Device, ann: Device) -> None:
        """The office is there again, and so are its devices; a second class is made, and both finish at one line."""
        self.start()
        scorer.until("document.querySelector('#link').dataset.state === 'live'")
        self.settle(ann)
        scorer.click("#tab-new")
        self.new_series(scorer, FLEET.encode("latin-1"), 4, title="Folkboats", short="fleet",
                        **{"class": "Folkboat"})
        scorer.click("#handicap-yes")
        scorer.click("#make")
        scorer.until("document.querySelector('#page').dataset.tab === 'links'")
        self.two_classes(ann)
        self.score_both(scorer)

    def two_classes(self, ann: Device) -> None:
        """The finishers of both classes as they come."""
        self.choose_race(ann, 1, place=1)
        ann.click("#start")
        ann.type("dialog[open] input", "11:00:00")
        ann.choose("at")
        ann.until("document.querySelector('#start').textContent === '11:00:00'")
        for sail, name in (("USA4", "cup"), ("GBR33", "fleet"), ("GBR33", "cup"), ("GBR101", "cup"),
                           ("NED80", "fleet"), ("NED12", "cup")):
            ann.tap(sail, name)
        self.settle(ann)
        ann.until("document.querySelectorAll('#list li').length === 6")
        self.assertEqual(ann.run(CUT_OFF), [])
        self.picture(ann, "guide-two")
        ann.tap("SWE2", "fleet")
        ann.tap("GBR7", "cup")
        self.code(ann, "FRA9", "RET")
        self.code(ann, "GER19", "DNF")
        self.settle(ann)
        self.assertEqual([line for line in self.journal() if " 3 " in line][6:], [
            "FINISH FINISH 3 USA4", "FINISH FINISH 3 GBR33", "FINISH FINISH 3 GBR101", "FINISH FINISH 3 NED12",
            "FINISH FINISH 3 GBR7", "FINISH MARK 3 FRA9 RET"])
        self.assertEqual([re.sub(r" \d+$", "", line) for line in self.journal("fleet")], [
            "FINISH TIME 1 GBR33", "FINISH TIME 1 NED80", "FINISH TIME 1 SWE2", "FINISH MARK 1 GER19 DNF"])

    def score_both(self, scorer: Device) -> None:
        """Both races count, each by the rules of its class."""
        scorer.click("#classes [data-key=cup]")
        self.show(scorer, 3, 6)
        self.score(scorer)
        self.stands(scorer, self.sunday_evening)
        scorer.click("#classes [data-key=fleet]")
        self.show(scorer, 1, 4)
        self.assertEqual(scorer.texts(".order tbody th"), ["NED 80", "SWE 2", "GBR 33", "GER 19"])
        self.score(scorer)
        self.stands(scorer, self.folkboats)

    def boards(self, board: Device) -> None:
        """The phone that had the board all the time has both classes now."""
        board.open(self.address("/"))
        board.until("document.body.innerText.includes('Autumn Cup') && document.body.innerText.includes('Folkboats')")
        for name, first in (("cup", "GBR 101"), ("fleet", "NED 80")):
            board.open(self.address(f"/{name}/"))
            board.until(f"document.querySelector('tbody tr')?.innerText.includes('{first}')")

    # The results

    def choose_class(self, scorer: Device, name: str) -> None:
        """Shows the results of a class."""
        scorer.click(f"#classes [data-key={name}]")
        scorer.click("#tab-results")
        scorer.until(f"document.querySelector('#classes [data-key={name}]').getAttribute('aria-current') === 'true'"
                     f" && !!document.querySelector('[data-print=\"/{name}\"]')")

    def declare(self, scorer: Device, state: str) -> None:
        scorer.click(f"#declare-{state}")
        scorer.choose("yes")
        scorer.until(f"document.querySelector('#stands')?.textContent === '{state}'")

    def need_page(self, scorer: Device, name: str, *words: str) -> None:
        """The results page of a class can be verified, and says this."""
        page = scorer.run(f"fetch('/office/scorer/export/html/{name}').then(answer => answer.text())")
        self.write(page, f"{name}-results.html")
        said, status = helpers.run("verify", f"{name}-results.html", "--program", helpers.PROGRAM, cwd=self.here)
        self.assertEqual((status, ": verified." in said), (0, True), said)
        self.assertEqual([one for one in words if one not in page], [])

    def final(self, scorer: Device, board: Device) -> None:
        """Both classes are final, on the board and on pages that anybody can verify. That USA 4 has no name is said
        before."""
        self.choose_class(scorer, "cup")
        scorer.until("document.querySelectorAll('.open-points li').length === 1")
        self.assertIn("USA 4: without a name on the board.", scorer.text(".open-points"))
        self.declare(scorer, "final")
        self.choose_class(scorer, "fleet")
        scorer.until("document.querySelectorAll('.open-points li').length === 0")
        self.declare(scorer, "final")
        for name in ("cup", "fleet"):
            self.need_page(scorer, name, "Final")
            board.open(self.address(f"/{name}/"))
            board.until("document.body.innerText.includes('Final')")

    def amended(self, scorer: Device, jury: Device, board: Device) -> None:
        """An appeal is upheld: the jury takes back its decision, and the results are amended, with the reason."""
        jury.click("#classes [data-key=cup]")
        row = "[...document.querySelectorAll('.held tr')].find(row => row.textContent.includes('FRA 9'))"
        jury.until(f"!!{row}")
        jury.run(f"{row}.querySelector('button').click()")
        jury.until("!!document.querySelector('#preview #send')")
        self.send(jury)
        scorer.click("#classes [data-key=cup]")
        scorer.click("#tab-races")
        self.stands(scorer, AMENDED)
        self.choose_class(scorer, "cup")
        scorer.until("!!document.querySelector('#is-changed')")
        scorer.type("#reason", "FRA 9 is reinstated in race 2")
        self.declare(scorer, "amended")
        self.need_page(scorer, "cup", "Amended", "FRA 9 is reinstated in race 2")
        board.open(self.address("/cup/"))
        board.until("document.body.innerText.includes('FRA 9 is reinstated in race 2')")

    def need_pictures(self) -> None:
        """The guide has just these pictures, they can be made again, of the same sizes, and none is large."""
        shown = re.findall(r"!\[[^\]]*\]\(([^)]*)\.png\)", guide())
        self.assertEqual(sorted(shown), sorted(PICTURES))
        docs = os.path.join(helpers.TOP, "docs")
        for name in PICTURES:
            self.assertEqual(size_of(self.pictures, name), size_of(docs, name), f"{name}.png has another size in docs/")
            self.assertLess(os.path.getsize(os.path.join(docs, f"{name}.png")), LARGEST, name)


def size_of(folder: str, name: str) -> tuple[int, ...]:
    """The width and height of a picture."""
    with open(os.path.join(folder, f"{name}.png"), "rb") as file:
        return struct.unpack(">II", file.read(24)[16:])


if __name__ == "__main__":
    unittest.main()
