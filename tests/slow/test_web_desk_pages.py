"""The scorer's and the jury's page in Chromium over the real program, and the links of a new device."""
from __future__ import annotations

import json
import os
import unittest

import helpers
import web_devices
from devices import Device
from web_office import BOATS, FOLKBOATS, SAILS, WebTrial, entries_of, finishes

# Two races: the boats in the order in which they finish.
FIRST = list(range(22))
SECOND = [2, 0, 5, 1, 7, 3, 12, 4, 6, 9, 8, 15, 10, 11, 14, 13, 18, 17, 16, 22, 19, 20]
ROW = ".order tr[data-sail='{}']"


class Desks(WebTrial):
    """A scorer with a laptop, a jury, and a phone at the finish."""

    def sail(self, ann: Device, race: int, order: list[int], code: str) -> None:
        """Records a race on a phone: its finishers, and a code for the last boat."""
        ann.until("!!document.querySelector('.race b')")
        if ann.text(".race b") != str(race):
            ann.click(".race")
            ann.click(f"dialog [data-race='{race}']")
            ann.until(f"document.querySelector('.race b').textContent === '{race}'")
        for at in order:
            ann.tap(SAILS[at])
        ann.click("#code")
        ann.tap(SAILS[23])
        ann.choose(code)
        self.settle(ann)

    def show(self, desk: Device, race: int, rows: int) -> None:
        """Shows a race on the scorer's page, and waits until it has so many rows."""
        desk.click(f".races [data-key='{race}']")
        desk.until(f"document.querySelector('#race-title').textContent.trim() === 'Race {race}'"
                   f" && document.querySelectorAll('.order tbody tr').length === {rows}")

    def scored(self, ann: Device, scorer: Device) -> None:
        """Two races that count: the second with another order."""
        for race, order, code in ((1, FIRST, "OCS"), (2, SECOND, "RET")):
            self.sail(ann, race, order, code)
            self.show(scorer, race, 23)
            scorer.click("#score")
            scorer.until("!!document.querySelector('dialog[open]')")
            # The one who was never seen
            self.assertIn(f"Score race {race} with 1 boat as DNC?", scorer.text("dialog"))
            scorer.choose("yes")
            scorer.until("!!document.querySelector('#unscore')")

    def test_an_afternoon(self) -> None:
        """Races are compared and scored; a correction shows who moved; a late entry is asked about; the jury sees
        who would move, and nothing is sent until it sends it."""
        ann, scorer = self.phone(width=820, height=1180), self.device("scorer", "Bea’s laptop")
        self.scored(ann, scorer)
        self.assertEqual(self.journal(), [
            *finishes(*(SAILS[at] for at in FIRST)), "FINISH MARK 1 GBR41 OCS", "SCORER SCORE 1",
            *finishes(*(SAILS[at] for at in SECOND), race=2), "FINISH MARK 2 GBR41 RET", "SCORER SCORE 2"])
        scorer.click(".tick button")
        scorer.until("document.querySelector('.paper').textContent.startsWith('1 of 22')")
        # FRA 9 was 4th and 6th: 10 points and with 20% of 25, rounded, 15.
        scorer.click(f"{ROW.format('FRA9')} th button")
        scorer.choose("code")
        scorer.choose("ZFP")
        scorer.until("document.querySelector('dialog[open] h2')?.textContent === 'Is that right?'")
        self.assertIn("Race 2 counts already. Is this a correction?", scorer.text("dialog"))
        scorer.choose("yes")
        scorer.until("document.querySelector('#changed')?.textContent.includes('PENALTY 2 FRA9 ZFP')")
        self.assertIn("FRA 9 Plover: 5th to 7th, net 10.0 to 15.0", scorer.text("#changed"))
        scorer.type("#typed", "enter usa 4")
        scorer.run("document.querySelector('form.typed').requestSubmit()")
        scorer.until("!!document.querySelector('dialog[open]')")
        self.assertIn("USA4 isn’t on the entry list.", scorer.text("dialog").replace("USA 4", "USA4"))
        scorer.choose("yes")
        scorer.until("document.querySelector('.missing').textContent.includes('USA 4')")
        self.assertEqual(self.journal()[-1], "SCORER PENALTY 2 FRA9 ZFP")
        self.judge()
        self.need_no_faults()

    def judge(self) -> None:
        """The jury disqualifies one boat, gives another redress and a third a penalty without a line of its own."""
        jury = self.device("jury", "Protest room")
        jury.until("!!document.querySelector('#race option')")
        jury.type("#race", "2")
        held = len(self.journal())
        self.decide(jury, "NED12", "DSQ", held)
        self.assertEqual(self.journal()[-1], "JURY MARK 2 NED12 DSQ")
        self.decide(jury, "GBR7", "ALL", held + 1)
        self.assertEqual(self.journal()[-1], "JURY REDRESS 2 GBR7 ALL")
        jury.until("[...document.querySelectorAll('.held tr')].some(row => row.textContent.includes('GBR 7'))")
        self.decide(jury, "GBR101", "PRP", held + 2)
        self.assertRegex(self.journal()[-1], r"^JURY REDRESS 2 GBR101 \d+\.\d$")
        self.assertEqual(self.text("cup", "decisions.txt").strip(), "race 2 GBR101 PRP 30%")
        jury.until("document.querySelector('.pane').textContent.includes('PRP 30%')")
        # Reopened: what she holds goes. Of the DSQ the page has a preview again.
        jury.run("[...document.querySelectorAll('.held tr')].find(row => row.textContent.includes('NED 12'))"
                 ".querySelector('button').click()")
        jury.click("#send")
        jury.until("document.querySelector('dialog[open]') !== null")
        jury.choose("yes")
        jury.until("!document.querySelector('#preview')")
        self.assertEqual(self.journal()[-1], "JURY CLEAR 2 NED12")

    def decide(self, jury: Device, sail: str, what: str, held: int) -> None:
        """Chooses a boat and a decision, sees who would move with nothing sent, and sends it."""
        jury.click("#boat")
        jury.click(f"dialog [data-sail={sail}]")
        jury.click(f"#what-{what}")
        jury.until("!!document.querySelector('#preview .lead')")
        self.assertEqual(len(self.journal()), held)
        jury.click("#send")
        jury.until("document.querySelector('dialog[open]') !== null || !document.querySelector('#preview')")
        if jury.count("dialog[open]"):
            jury.choose("yes")
        jury.until("!document.querySelector('#preview')")

    def test_corrections(self) -> None:
        """By pointing a boat is moved, swapped, put level and struck, and finishers go to another race."""
        ann, scorer = self.phone(), self.device("scorer", "Bea’s laptop")
        for at in range(6):
            ann.tap(SAILS[at])
        self.settle(ann)
        self.show(scorer, 1, 6)
        order = ".order tbody th"
        # GBR 101, GBR 7, NED 12, FRA 9, GBR 33, IRL 5
        self.point(scorer, "IRL5", "move", "ahead", "GBR7")
        self.becomes(scorer, order, "GBR 101", "IRL 5", "GBR 7", "NED 12", "FRA 9", "GBR 33")
        self.point(scorer, "GBR101", "swap", "", "FRA9")
        self.becomes(scorer, order, "FRA 9", "IRL 5", "GBR 7", "NED 12", "GBR 101", "GBR 33")
        self.point(scorer, "NED12", "move", "level", "GBR33")
        self.becomes(scorer, order, "FRA 9", "IRL 5", "GBR 7", "GBR 101", "GBR 33", "NED 12")
        self.assertEqual(scorer.texts(".order td.place"), ["1", "2", "3", "4", "5=", "5="])
        scorer.click(f"{ROW.format('GBR7')} th button")
        scorer.choose("strike")
        self.becomes(scorer, order, "FRA 9", "IRL 5", "GBR 101", "GBR 33", "NED 12")
        # From GBR 101 on they belong to race 3.
        scorer.click("#other-race")
        scorer.until("document.querySelectorAll('dialog[open] select').length === 2")
        for at, value in enumerate(("GBR101", "3")):
            scorer.run(f"document.querySelectorAll('dialog[open] select')[{at}].value = '{value}'")
        scorer.choose("yes")
        self.becomes(scorer, order, "FRA 9", "IRL 5")
        self.show(scorer, 3, 3)
        self.becomes(scorer, order, "GBR 101", "GBR 33", "NED 12")
        self.assertEqual(scorer.texts(".order td.place"), ["1", "2=", "2="])
        self.assertEqual(self.journal()[-6:], [
            "SCORER FINISH 3 GBR101", "SCORER FINISH 3 GBR33", "SCORER TIE 3 NED12 GBR33",
            "SCORER STRIKE 1 GBR101", "SCORER STRIKE 1 GBR33", "SCORER STRIKE 1 NED12"])
        # All of race 3 belongs to race 4, codes and penalties, too, also of who hasn't finished; not what the jury decided.
        helpers.run("type", "cup", "--role", "jury", lines="MARK 3 IRL5 DSQ\n", cwd=self.here)
        scorer.until("document.querySelector('.order').textContent.includes('DSQ')")
        held = "import('/office/static/desk.js').then(({raceNumbered}) => JSON.stringify(raceNumbered('cup', 3))"
        for line in ("penalty 3 ger412 SCP", "mark 3 den61 RET", "penalty 3 ned12 ZFP"):
            scorer.type("#typed", line)
            scorer.press("Send")
            scorer.until(f"document.querySelector('#typed').value === '' && {held}.includes('{line[-3:]}'))")
        scorer.click("#other-race")
        scorer.until("document.querySelector('dialog[open] #codes-too')?.checked")
        self.assertIn("These codes, too: DEN 61 Terne RET and GER 412 Möwe SCP", scorer.text("dialog[open]"))
        self.assertIn("What the jury decided stays in race 3: IRL 5 Curlew", scorer.text("dialog[open]"))
        scorer.run("document.querySelectorAll('dialog[open] select')[1].value = '4'")
        scorer.choose("yes")
        self.becomes(scorer, order, "IRL 5")
        self.assertEqual(self.journal()[-12:], [
            "SCORER FINISH 4 GBR101", "SCORER FINISH 4 GBR33", "SCORER TIE 4 NED12 GBR33", "SCORER PENALTY 4 NED12 ZFP",
            "SCORER CLEAR 3 NED12", "SCORER MARK 4 DEN61 RET", "SCORER CLEAR 3 DEN61", "SCORER PENALTY 4 GER412 SCP",
            "SCORER CLEAR 3 GER412",
            "SCORER STRIKE 3 GBR101", "SCORER STRIKE 3 GBR33", "SCORER STRIKE 3 NED12"])
        self.need_no_faults()

    def point(self, scorer: Device, sail: str, what: str, how: str, other: str) -> None:
        """Points at a boat, says what is to be done with her, and where."""
        scorer.click(f"{ROW.format(sail)} th button")
        scorer.choose(what)
        if how:
            scorer.until("document.querySelectorAll('dialog[open] .stack button').length === 4")
            scorer.choose(how)
        scorer.click(f"dialog[open] [data-sail={other}]")

    def becomes(self, scorer: Device, what: str, *wanted: str) -> None:
        """Waits until just these are shown, in this order."""
        scorer.until(f"[...document.querySelectorAll({what!r})].map(one => one.textContent.trim()).join()"
                     f" === {','.join(wanted)!r}")

    def test_a_race_is_abandoned(self) -> None:
        """The lines that take a race away are shown first; a No sends none of them."""
        ann, scorer = self.phone(), self.device("scorer", "Bea’s laptop")
        for at in range(2):
            ann.tap(SAILS[at])
        self.settle(ann)
        self.show(scorer, 1, 2)
        scorer.click("#abandon")
        scorer.until("!!document.querySelector('dialog[open]')")
        self.assertEqual(scorer.text("dialog .mono").split("\n"), ["STRIKE 1 GBR101", "STRIKE 1 GBR7"])
        scorer.choose("")
        self.assertEqual(self.journal(), finishes("GBR101", "GBR7"))
        scorer.click("#abandon")
        scorer.choose("yes")
        scorer.until("document.querySelectorAll('.order tbody tr').length === 0")
        self.assertEqual(self.journal()[2:], ["SCORER STRIKE 1 GBR101", "SCORER STRIKE 1 GBR7"])

    def test_reopened(self) -> None:
        """Reopen beside redress takes that back alone: what is kept in decisions.txt of the same boat and race stays."""
        finish, scorer, raw = (web_devices.Device(self.port, role).come(self.links[role], role) for role in ("finish", "scorer", "jury"))
        for sail in SAILS:
            finish.tap(f"FINISH 1 {sail}")
        scorer.tap("SCORE 1")
        given, agreed = {"line": "race 1 GBR7 NSC", "note": ""}, [{"kind": "correction", "values": {"race": 1}}]
        shown = raw.ask("POST", "/office/jury/ruling/cup", given)[1]
        values = {**given, "lines": shown["lines"], "tag": shown["tag"], "id": web_devices.new_id(), "agreed": agreed}
        self.assertEqual(raw.ask("POST", "/office/jury/decide/cup", values)[0], 200)
        self.assertEqual(raw.tap("REDRESS 1 GBR7 2.0", agreed=agreed)[1]["outcome"], "taken")
        jury, before = self.device("jury", "Protest room"), self.journal()
        jury.until("document.querySelectorAll('.held tr').length === 1 && document.querySelectorAll('.kept li').length === 1")
        jury.run("""window.heard = [];
            new MutationObserver(() => heard.push(document.querySelector('#said').textContent))
              .observe(document.querySelector('#said'), {childList: true}); 0""")
        jury.click(".held tr button")
        jury.until("!!document.querySelector('#send')")
        self.assertIn("CLEAR 1 GBR7; SCORER MARK 1 GBR7 DNF", jury.text("#preview"))
        jury.click("#send")
        jury.until("!!document.querySelector('dialog[open]')")
        self.assertIn("Race 1 counts already. Is this a correction?", jury.text("dialog"))
        jury.choose("yes")
        jury.until("document.querySelector('.held').textContent === 'Nothing yet.' && document.querySelectorAll('.kept li').length === 1")
        self.assertEqual(self.journal()[len(before):], ["JURY CLEAR 1 GBR7", "SCORER MARK 1 GBR7 DNF"])
        # It is said what she holds after the last line, and not after the first.
        jury.until("window.heard.length > 0")
        said = str(jury.run("window.heard[0]")).split("\n")
        self.assertIn("She holds DNF in race 1.", said[0])
        self.assertRegex(said[1], r"^[A-Z]{3} \d+: ")
        self.assertEqual(self.text("cup", "decisions.txt"), "race 1 GBR7 NSC\n")
        self.need_no_faults()

    def test_what_is_abandoned(self) -> None:
        """Before a race is abandoned, each place, code and penalty that goes or stays is said with its boat."""
        finish, jury = (web_devices.Device(self.port, role).come(self.links[role], role) for role in ("finish", "jury"))
        for line in ("FINISH 1 GBR101", "? 1", "FINISH 1 GBR7", "FINISH 1 NED12", "MARK 1 FRA9 BFD", "PENALTY 1 FRA9 SCP",
                     "MARK 1 IRL5 RET", "PENALTY 1 NED12 ZFP"):
            self.assertEqual(finish.tap(line)[0], 200, line)
        for line in ("MARK 1 GBR7 DSQ", "REDRESS 1 GBR101 2.5"):
            self.assertEqual(jury.tap(line)[0], 200, line)
        scorer, before = self.device("scorer", "Bea’s laptop"), self.journal()
        self.show(scorer, 1, 6)
        scorer.click("#abandon")
        scorer.until("!!document.querySelector('dialog[open]')")
        self.assertEqual(scorer.text("dialog .mono").split("\n"), [
            "STRIKE 1 GBR101", "STRIKE 1 GBR7", "STRIKE 1 NED12", "CLEAR 1 FRA9 (BFD, SCP)", "MARK 1 FRA9 BFD", "CLEAR 1 IRL5 (RET)"])
        for words in ("Place that is dropped: ?1", "ZFP and BFD stay (RRS 30.2, 30.4): FRA 9 BFD and NED 12 ZFP",
                      "What the jury decided stays (RRS 36): GBR 7 DSQ and GBR 101 RDG 2.5"):
            self.assertIn(words, scorer.text("dialog"))
        self.assertNotIn("To take race", scorer.text("dialog"))
        self.assertEqual(self.journal(), before)
        scorer.choose("yes")
        self.show(scorer, 1, 2)
        race = self.device("scorer", "Cy").run("fetch('/office/scorer/state/cup').then(said => said.json()).then(said => said.races['1'])")
        self.assertEqual((race["codes"], race["penalties"], race["redress"], race["unread"]),
                         ({"FRA9": "BFD", "GBR7": "DSQ"}, {"NED12": ["ZFP"]}, {"GBR101": "2.5"}, []))
        self.need_no_faults()

    def test_links(self) -> None:
        """A new link lets a device in by the language of its own, and one that is put out keeps its taps. The page says that HTTP hides nothing."""
        ann, scorer = self.phone(), self.device("scorer", "Bea’s laptop")
        scorer.click("#tab-links")
        scorer.until("[...document.querySelectorAll('.devices th')].some(one => one.textContent === 'Ann’s phone')")
        # The page says that it isn't encrypted, and what to do.
        scorer.until("document.body.textContent.includes('Use a Wi-Fi of the club’s own, with a password.')")
        scorer.click("[data-role=JURY]")
        scorer.until("!!document.querySelector('.qr path')")
        link = scorer.text(".linktext")
        jury = Device(self.chromium, 820, 1180, language="de")
        # The link is put into the address of a tab that shows the way in: no page is loaded by that.
        jury.open(self.address("/office/in"))
        jury.until("!!document.querySelector('.ways')")
        jury.run(f"location.href = {json.dumps(self.address(link[link.index('/office/in'):]))}")
        jury.type("#name", "Schiedsgericht")
        jury.click("#go")
        jury.until("document.querySelector('#link')?.dataset.state === 'live'")
        self.assertEqual(jury.run("document.documentElement.lang"), "de")
        jury.until("document.title === 'Jury'")
        # The language of this device is another from now on.
        jury.type("#language", "fr")
        jury.until("document.documentElement.lang === 'fr' && document.querySelector('#link')?.dataset.state === 'live'")
        scorer.until("document.querySelectorAll('.devices tbody tr').length === 3")
        scorer.run("[...document.querySelectorAll('.devices tr')].find(row => row.textContent.includes('Ann’s phone'))"
                   ".querySelector('button').click()")
        scorer.choose("yes")
        scorer.until("document.querySelectorAll('.devices tbody tr').length === 2")
        ann.tap(SAILS[0])
        ann.until("document.querySelector('#link').dataset.state === 'out'"
                  " && document.querySelectorAll('#list li.unsent').length === 1")
        self.assertEqual(self.journal(), [])

    def test_the_board(self) -> None:
        """The board is open to all, and shows a race within moments of its score."""
        ann, scorer = self.phone(), self.device("scorer", "Bea’s laptop")
        board = Device(self.chromium, 390, 844, 2, touch=True)
        board.open(self.address("/"))
        for sail in SAILS:
            ann.tap(sail)
        self.settle(ann)
        self.show(scorer, 1, len(BOATS))
        scorer.click("#score")
        scorer.until("!!document.querySelector('#unscore')")
        board.until("document.body.innerText.includes('GBR 101')")

    def test_an_office_is_closed(self) -> None:
        """Closed for the day, which keeps a copy of the journal, and opened again from the page. Places that are kept are
        named before."""
        finish, scorer = web_devices.Device(self.port, "finish").come(self.links["finish"], "Ann"), self.device("scorer", "Bea’s laptop")
        for line in ("FINISH 1 GBR101", "? 1", "FINISH 2 GBR7", "? 2", "? 2"):
            self.assertEqual(finish.tap(line)[0], 200, line)
        scorer.until("!!document.querySelector('.races [data-key=\"3\"]')")
        scorer.click("#tab-office")
        scorer.press("Close the office for today")
        scorer.until("!!document.querySelector('dialog[open]')")
        self.assertEqual(scorer.texts("dialog[open] .wrong"), ["Race 1: ?1: a finisher without a sail", "Race 2: ?1 and ?2: finishers without a sail"])
        scorer.choose("yes")
        scorer.press("Open the office")
        scorer.until("[...document.querySelectorAll('.chip')].some(one => one.textContent === 'open')")
        kept = [self.text("cup", "kept", name) for name in os.listdir(os.path.join(self.here, "cup", "kept"))]
        self.assertIn(self.text("cup", "journal.txt"), kept)

    def test_an_office_whose_window_is_killed(self) -> None:
        """The page offers no end of it, which would do nothing, but to open it: that takes it over."""
        scorer = self.device("scorer", "Bea’s laptop")
        scorer.click("#tab-office")
        scorer.press("Close the office for today")
        scorer.choose("yes")
        scorer.until("!!document.querySelector('.chip.bad')")
        window = self.open()
        self.shown(scorer, "A window at the office’s computer keeps this office.", "Close the office for today")
        window.process.kill()
        window.process.wait()
        self.shown(scorer, "The window that kept this office has gone", "Open the office")
        scorer.press("Open the office")
        scorer.until("!!document.querySelector('.chip.good') && !document.querySelector('.waits')")
        self.assertEqual(scorer.texts(".acts button"), ["Close the office for today"])

    def shown(self, scorer: Device, words: str, button: str) -> None:
        """Waits until the page of offices says so, with this button alone."""
        def is_shown() -> bool:
            scorer.click("#tab-office")
            return words in "".join(scorer.texts(".waits"))
        helpers.until(words, is_shown)
        self.assertEqual(scorer.texts(".acts button"), [button])


class TwoClasses(WebTrial):
    """A scorer's and a jury's desk with two classes."""
    classes = {"cup": entries_of(BOATS), "fleet": entries_of(FOLKBOATS)}

    def sail(self, desk: web_devices.Device, name: str, *sails: str, race: int = 1) -> None:
        for line in (*(f"FINISH {race} {sail}" for sail in sails), f"SCORE {race}"):
            others = [boat[0].replace(" ", "") for boat in (BOATS if name == "cup" else FOLKBOATS)]
            missing = [sail for sail in others if sail not in sails]
            desk.tap(line, name=name, agreed=[{"kind": "score-missing", "values": {"race": race, "sails": missing}}])

    def test_decisions(self) -> None:
        """A DPI that is out of date shows at once on the pages that are open. What the jury kept, and what it is just
        choosing, is of one class: the other has neither."""
        desk = web_devices.Device(self.port, "scorer").come(self.links["scorer"], "Ada")
        self.sail(desk, "cup", *SAILS[:4])
        self.sail(desk, "fleet", "GBR33", "NED80")
        jury, scorer = self.device("jury", "Protest room"), self.device("scorer", "Bea’s laptop")
        jury.until("!!document.querySelector('#race option')")
        jury.click("#boat")
        jury.click("dialog [data-sail=GBR7]")
        jury.click("#what-DPI")
        # As the page writes it in other languages
        jury.type("#takes", "1,5")
        jury.click("#send")
        jury.choose("yes")
        jury.until("document.querySelectorAll('.kept li').length === 1")
        for device in (jury, scorer):
            device.until("!document.querySelector('#stale')")
        # GBR 7 was 2nd, and is 3rd.
        for line in ("STRIKE 1 NED12", "BEFORE 1 NED12 GBR7"):
            desk.tap(line, agreed=[{"kind": "correction", "values": {"race": 1}}])
        for device in (jury, scorer):
            device.until("!!document.querySelector('#stale')")
        self.assertIn("Race 1, GBR 7: DPI 1.5. 4.5 points by the scores as they are. The journal has 3.5.", scorer.text("#stale"))
        jury.click("#boat")
        jury.click("dialog [data-sail=GBR33]")
        jury.click("#what-DSQ")
        # Boats whose sails differ by a dash are told apart.
        self.assertEqual(jury.run("import('/office/static/sails.js').then(({spaced}) => ['GER77', 'GER-77', 'K-9', '0123', '?1'].map(spaced))"),
                         ["GER 77", "GER-77", "K-9", "0123", "?1"])
        # Points that are none, and more than points: the page says what they have to be.
        jury.click("#what-POINTS")
        for typed in ("2.35", "-1", "2 3", "ALL 1"):
            jury.type("#takes", typed)
            jury.until("document.querySelector('#preview.bad')?.textContent.includes('this is no redress')"
                       f" && document.querySelector('#preview').textContent.includes({json.dumps(typed.replace(' ', '_'))})")
        jury.type("#takes", "")
        jury.click("#what-DSQ")
        jury.click("[data-key=fleet]")
        jury.until("document.querySelector('#title').textContent.includes('Folkboats')")
        self.assertEqual((jury.count(".kept li"), jury.count("#preview"), jury.count("#stale"), jury.text("#boat")), (0, 0, 0, "Choose …"))
        jury.click("[data-key=cup]")
        jury.click("#send-lacking")
        jury.click("#send")
        jury.choose("yes")
        for device in (jury, scorer):
            device.until("!document.querySelector('#stale')")
        self.assertEqual(self.journal()[-2:], ["JURY CLEAR 1 GBR7", "JURY REDRESS 1 GBR7 4.5"])
        self.need_no_faults()

    def test_average_of_no_race(self) -> None:
        """An average as redress that has no race to count, as of those before the first one: the page says that she keeps her own
        score."""
        desk = web_devices.Device(self.port, "scorer").come(self.links["scorer"], "Ada")
        self.sail(desk, "cup", *SAILS[:4])
        jury = self.device("jury", "Protest room")
        jury.click("#boat")
        jury.click(f"dialog [data-sail={SAILS[1]}]")

        def is_said(words: str) -> None:
            jury.until(f"!!document.querySelector('#send') && document.querySelector('#preview .mono').textContent.includes('{words}')")
        for number, what, is_alone in ((1, "PRIOR", True), (1, "ALL", True), (1, "DSQ", False), (2, "ALL", False), (2, "PRIOR", True)):
            if number == 2 and what == "ALL":
                self.sail(desk, "cup", *SAILS[:4], race=2)
                jury.until("document.querySelectorAll('#race option').length === 2")
            jury.click(f"#what-{what}")
            is_said(what)
            self.assertEqual("There is no race for the average: she keeps" in jury.text("#preview"), is_alone, (number, what))
        jury.type("#race", "2")
        is_said(" 2 ")
        self.assertNotIn("There is no race", jury.text("#preview"))
        self.need_no_faults()

    def test_ticks(self) -> None:
        """A boat of one class that was compared with the paper isn't compared in the other."""
        desk = web_devices.Device(self.port, "scorer").come(self.links["scorer"], "Ada")
        for name in self.classes:
            desk.tap("FINISH 1 GBR33", name=name)
        scorer = self.device("scorer", "Bea’s laptop")
        for name, title, paper in (("cup", "Autumn Cup", "1 of 1"), ("fleet", "Folkboats", "0 of 1")):
            scorer.click(f"#classes [data-key={name}]")
            scorer.until(f"document.querySelector('#title').textContent === '{title}' && !!document.querySelector('.tick button')")
            if name == "cup":
                scorer.click(".tick button")
            scorer.until(f"document.querySelector('.paper').textContent.startsWith('{paper}')")
        self.need_no_faults()

    def test_ticks_of_what_is_shown(self) -> None:
        """A boat isn't as on the paper any more once she has another place, another boat beside her or a code, nor in a race that was
        abandoned and is sailed again; the others still are."""
        desk = web_devices.Device(self.port, "scorer").come(self.links["scorer"], "Ada")
        for sail in ("GBR33", "GBR7", "GBR101", "NED12"):
            desk.tap(f"FINISH 1 {sail}")
        scorer = self.device("scorer", "Bea’s laptop")
        scorer.click("#classes [data-key=cup]")
        ticked = "[...document.querySelectorAll('.order tr.ticked')].map(row => row.dataset.sail).join(' ')"

        steps = ((["STRIKE 1 GBR7", "FINISH 1 GBR7"], "GBR33", "4"), (["STRIKE 1 GBR7", "TIE 1 GBR7 GBR33"], "", "1="),
                 (["MARK 1 NED12 RET"], "GBR33 GBR7 GBR101", "RET"), (["PENALTY 1 GBR7 ZFP"], "GBR33 GBR101 NED12", "ZFP"))
        for lines, left, sign in steps:
            with self.subTest(lines=lines):
                scorer.until("document.querySelectorAll('.tick button').length === 4")
                scorer.run("document.querySelectorAll('.tick button[aria-pressed=false]').forEach(one => one.click())")
                scorer.until("document.querySelectorAll('.order tr.ticked').length === 4")
                for line in lines:
                    self.assertEqual(desk.tap(line)[0], 200)
                scorer.until(f"document.querySelector('.order tr[data-sail={lines[-1].split()[2]}]')?.textContent.includes('{sign}')")
                self.assertEqual(scorer.run(ticked), left)
        asked = desk.tap("ABANDON 1")[1]["question"]
        self.assertEqual(desk.tap("ABANDON 1", agreed=[asked])[0], 200)
        for sail in ("GBR33", "GBR101"):
            desk.tap(f"FINISH 1 {sail}")
        scorer.until("document.querySelectorAll('.order tbody tr').length === 2")
        self.assertEqual(scorer.run(ticked), "")
        self.need_no_faults()

    def test_ticks_of_another_sailing(self) -> None:
        """While the scorer looks at another race, one is abandoned and sailed again: no boat of it is as on the paper, also if she has
        the same code."""
        desk = web_devices.Device(self.port, "scorer").come(self.links["scorer"], "Ada")
        lines = ("FINISH 1 GBR33", "MARK 1 GBR7 DNF")
        for line in (*lines, "FINISH 2 GBR101"):
            desk.tap(line)
        scorer = self.device("scorer", "Bea’s laptop")
        scorer.click("#classes [data-key=cup]")
        scorer.click(".races [data-key='1']")
        scorer.until("document.querySelectorAll('.tick button').length === 2")
        scorer.run("document.querySelectorAll('.tick button').forEach(one => one.click())")
        scorer.until("document.querySelectorAll('.order tr.ticked').length === 2")
        scorer.click(".races [data-key='2']")
        scorer.until("!!document.querySelector('.order [data-sail=GBR101]')")
        asked = desk.tap("ABANDON 1")[1]["question"]
        self.assertEqual(desk.tap("ABANDON 1", agreed=[asked])[0], 200)
        for line in lines:
            self.assertEqual(desk.tap(line)[0], 200)
        scorer.click(".races [data-key='1']")
        scorer.until("document.querySelectorAll('.tick button').length === 2 && document.querySelector('.order').textContent.includes('DNF')")
        self.assertEqual(scorer.run("document.querySelectorAll('.order tr.ticked').length"), 0)
        self.need_no_faults()

    def test_sent_again(self) -> None:
        """The jury looks at another class while a decision waits for the network: it is sent about its own."""
        desk = web_devices.Device(self.port, "scorer").come(self.links["scorer"], "Ada")
        self.sail(desk, "cup", "GBR33", "GBR7")
        self.sail(desk, "fleet", "GBR33", "NED80")
        fleet, line = self.journal("fleet"), self.line()
        jury = self.device("jury", "Protest room", port=line.own)
        jury.click("#classes [data-key=cup]")
        jury.until("!!document.querySelector('#race option')")
        jury.click("#boat")
        jury.click("dialog [data-sail=GBR33]")
        jury.click("#what-NSC")
        jury.until("!!document.querySelector('#send')")
        line.cut()
        jury.click("#send")
        jury.until("document.querySelector('#link').dataset.state === 'away'")
        jury.click("#classes [data-key=fleet]")
        jury.click("#boat")
        jury.click("dialog [data-sail=NED80]")
        line.mend()
        jury.until("document.querySelector('dialog[open]')?.textContent.includes('Autumn Cup: Race 1 counts already')")
        jury.choose("yes")
        helpers.until("its line", lambda: self.journal()[-1] == "SCORER MARK 1 GBR33 DNF")
        self.assertEqual(self.text("cup", "decisions.txt"), "race 1 GBR33 NSC\n")
        self.assertEqual((self.journal("fleet"), os.path.exists(os.path.join(self.here, "fleet", "decisions.txt"))), (fleet, False))
        jury.until("document.querySelector('#said').textContent !== ''")
        self.assertEqual((jury.text("#title"), jury.text("#boat")), ("Jury · Folkboats", "NED 80 Sterna"))
        self.need_no_faults()

    def test_asked_meanwhile(self) -> None:
        """The scorer looks at another class before an answer has come: each question names its class, and what was begun goes
        on in its own. A boat is taken out, and one comes late."""
        scorer = self.device("scorer", "Bea’s laptop")
        fleet = self.text("fleet", "journal.txt")
        for button, choose, wanted in (("#take-out", "GBR33", "Autumn Cup: "), ("#late", "", "Autumn Cup: Late entry")):
            scorer.click("#classes [data-key=cup]")
            scorer.until("document.querySelector('#title').textContent === 'Autumn Cup' && !!document.querySelector('#late')")
            scorer.run(HELD)
            scorer.click(button)
            if choose:
                scorer.click(f"dialog [data-sail={choose}]")
            scorer.until("window.held.length > 0")
            scorer.click("#classes [data-key=fleet]")
            scorer.until("document.querySelector('#title').textContent === 'Folkboats'")
            scorer.run("window.release()")
            scorer.until(f"document.querySelector('dialog[open]')?.textContent.includes('{wanted}')")
            if not choose:
                scorer.type("dialog input[placeholder]", "USA 4")
            scorer.choose("yes")
            if not choose:
                scorer.until("document.querySelector('dialog[open]')?.textContent.includes('Autumn Cup: ')")
                scorer.choose("yes")
            helpers.until("the cup’s journal", lambda: ("GBR33" in self.text("cup", "journal.txt"), "USA4" in self.text("cup", "journal.txt"))
                          == (False, not choose))
        self.assertEqual(self.text("fleet", "journal.txt"), fleet)
        self.need_no_faults()


# Answers wait until they are released.
HELD = """(() => {
    const real = window.fetch;
    window.held = [];
    window.release = () => { window.fetch = real; window.held.splice(0).forEach(go => go()); };
    window.fetch = async (...asked) => { await new Promise(go => window.held.push(go)); return real(...asked); };
})()"""


if __name__ == "__main__":
    unittest.main()
