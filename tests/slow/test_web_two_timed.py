"""Two classes by corrected time and one that isn't, at one line, in Chromium over the real program."""
from __future__ import annotations

import os
import time
import unittest

import helpers
import web_devices
from devices import Device
from web_office import WebTrial, zone_of_afternoon

ASKED, SHUT = "!!document.querySelector('dialog[open]')", "!document.querySelector('dialog[open]')"
TITLE, ALARM = "document.querySelector('dialog[open] h2')?.textContent", "document.querySelector('#alarm').textContent"


@helpers.needs_times
class TimedTrial(WebTrial):
    """Folkboats and dinghies by corrected time, and dragons as they finish."""
    classes = {"cup": "Sail,Boat,TCF\nGBR 33,Fulmar,1.050\nNED 80,Sterna,0.850\n", "fleet": "Sail,Boat,TCF\nGBR 33,Cox,1.000\nGBR 7,Bay,0.900\n",
               "lev": "Sail,Boat\nGBR 33,Turnstone\nGBR 101,Kestrel\nNED 12,Windhover\n"}
    titles = {"cup": "Folkboats", "fleet": "Dinghies", "lev": "Dragons"}
    # No check comes to the end of a day.
    settings = {"zone": zone_of_afternoon()}
    timed: tuple[str, ...] = ("cup", "fleet")

    def make(self, name: str, entries: str = helpers.ENTRIES, **values: str) -> str:
        return super().make(name, entries, **values, **({"handicap": "yes"} if name in self.timed else {}))

    def start(self) -> None:
        for name in {*self.timed} & {*self.classes}:
            os.makedirs(os.path.join(self.here, name, "times"), exist_ok=True)
            self.write(f"[times]\nsystem = tcf\nprogram = {helpers.TIMES}\n", name, "times", "rules.ini")
        super().start()

    def race(self, phone: Device, name: str, value: str = "1") -> None:
        """Chooses the race of a class on a phone."""
        phone.click(f"#races [data-key={name}]")
        phone.click(f"dialog[open] [data-race='{value}'], dialog[open] [data-value='{value}']")
        phone.until(SHUT)
        shown = "–" if value == "none" else value
        phone.until(f"document.querySelector('#races [data-key={name}] b').textContent === '{shown}'")

    def begun(self, phone: Device, start: str, title: str, name: str = "") -> None:
        """Types the start of a class."""
        # The button asks about the classes that the page knows when it is drawn.
        phone.until("import('/office/static/finish-state.js').then(({page}) => "
                    "page.classes.every(one => page.states[one.class]) && (page.redraw(), true))")
        phone.click("#start")
        if name:
            phone.choose(name)
        phone.until(f"{TITLE} === {title!r}")
        phone.type("dialog[open] input", start)
        phone.choose("at")
        self.settle(phone)

    def rows(self, name: str) -> list[str]:
        """Each boat's sail, start and finish in the sheet of the first race"""
        return [",".join(row.split(",")[:3]) for row in self.text(name, "times", "race-1.csv").splitlines()[1:]]


class TwoTimed(TimedTrial):
    def test_each_has_its_start(self) -> None:
        """The start of each class is asked for by name, and changes no other's. The button shows both."""
        phone = self.phone()
        for name in ("cup", "fleet"):
            self.race(phone, name)
        self.begun(phone, "00:00:00", "Folkboats: Start of race 1", "cup")
        phone.until("document.querySelector('#start').textContent === 'Start'")
        phone.click("#start")
        phone.until(ASKED)
        self.assertEqual(phone.texts("dialog[open] button"), ["Folkboats · Race 1 · 00:00:00", "Dinghies · Race 1", "Cancel"])
        phone.choose("")
        self.begun(phone, "00:00:01", "Dinghies: Start of race 1", "fleet")
        phone.until("document.querySelector('#start').textContent === '00:00:00 00:00:01'")
        self.assertEqual(self.rows("cup"), ["GBR33,00:00:00,", "NED80,00:00:00,"])
        self.assertEqual(self.rows("fleet"), ["GBR33,00:00:01,", "GBR7,00:00:01,"])
        self.race(phone, "fleet", "none")
        phone.click("#start")
        phone.until(f"{TITLE} === 'Folkboats: Start of race 1'")
        self.need_no_faults()

    def test_race_of_each_class(self) -> None:
        """The race whose sheet the scorer looks at is one of its class: another class has its own, and so it is beside the paper. A
        sheet that is saved is that one's."""
        ann = web_devices.Device(self.port, "finish").come(self.links["finish"], "Ann")
        for name, race in (("cup", 3), ("fleet", 1)):
            self.assertEqual(ann.tap(f"START {race} 00:00:00", name=name, was="")[0], 200)
        scorer = self.device("scorer", "Bea’s laptop")
        steps = (("cup", "Folkboats", 3), ("fleet", "Dinghies", 1), ("cup", "Folkboats", 2), ("fleet", "Dinghies", 1), ("cup", "Folkboats", 2))
        is_shown = "document.querySelector('#title').textContent === '{}' && document.querySelector('main h2')?.textContent.trim() === '{}'"
        for at, (name, title, race) in enumerate(steps):
            scorer.click(f"#classes [data-key={name}]")
            scorer.until("!!document.querySelector('#tab-times')")
            scorer.click("#tab-times")
            if at == 2:
                scorer.until(is_shown.format(title, "Times sheet of race 3"))
                scorer.type("#times-race", "2")
            scorer.until(is_shown.format(title, f"Times sheet of race {race}"))
        scorer.click("#tab-races")
        scorer.until(is_shown.format("Folkboats", "Race 2"))
        scorer.click(".races [data-key='3']")
        scorer.click("#tab-times")
        scorer.until(is_shown.format("Folkboats", "Times sheet of race 3"))
        self.need_no_faults()

    def test_code_of_a_boat_that_finishes(self) -> None:
        """While a window asks which code a boat has, another device taps her finish, which waits in the sheet for its start: a DNF is
        asked about, on a phone, on the scorer's page and by hand, and nothing is sent after a No."""
        ben = web_devices.Device(self.port, "finish").come(self.links["finish"], "Ben")
        ann, bea = self.phone(), self.device("scorer", "Bea")
        self.race(ann, "cup")
        bea.click("#classes [data-key=cup]")
        ann.click("#code")
        ann.tap("GBR33", "cup")
        bea.click(".missing [data-sail=GBR33]")
        bea.choose("code")

        def finished(sail: str) -> None:
            # The moments of devices differ, and time passes until somebody chooses.
            bea.another_second()
            ben.tap(f"FINISH 1 {sail}", name="cup", at=int(time.time() * 1000))
            bea.another_second()

        def refuse(device: Device, sail: str, no: str) -> None:
            device.until("document.querySelector('dialog[open]')?.textContent.includes("
                         f"'Somebody else has sent FINISH 1 {sail} since. Send MARK 1 {sail} DNF all the same?')")
            device.choose(no)
            device.until(SHUT)
        for device in (ann, bea):
            device.until("!!document.querySelector('dialog[open] [data-value=DNF]')")
        finished("GBR33")
        for device, no in ((ann, "drop"), (bea, "")):
            device.choose("DNF")
            refuse(device, "GBR33", no)
        bea.click("#tab-times")
        bea.click("[data-hand=NED80]")
        bea.until(ASKED)
        finished("NED80")
        bea.type("#hand-code", "DNF")
        bea.choose("save")
        refuse(bea, "NED80", "")
        self.settle(ann)
        self.assertEqual([row.split(",")[3] for row in self.text("cup", "times", "race-1.csv").splitlines()[1:]], ["", ""])
        self.assertEqual(self.journal(), [])
        self.need_no_faults()

    def test_in_the_order_of_taps(self) -> None:
        """Finishers of two classes are in the order in which they came, before the start of one is given and after it."""
        phone = self.phone()
        for name in ("cup", "lev"):
            self.race(phone, name)
        taps = [("lev", "GBR101"), ("cup", "NED80"), ("lev", "NED12"), ("cup", "GBR33"), ("lev", "GBR33")]
        for name, sail in taps:
            phone.tap(sail, name)
        came, rows = [f"{name} {sail}" for name, sail in taps], "[...document.querySelectorAll('#list li')].map(row => row.dataset.key)"
        self.settle(phone)
        phone.until(f"document.querySelectorAll('#list li').length === {len(taps)}")
        self.assertEqual(phone.run(rows), came)
        self.assertEqual(phone.count("#list li b:empty"), 0)
        self.begun(phone, "00:00:00", "Folkboats: Start of race 1")
        phone.until("!document.querySelector('#list').textContent.includes('in the sheet only')")
        self.assertEqual(phone.run(rows), came)
        self.need_no_faults()

    def test_of_one_second(self) -> None:
        """Boats of one second are in the order of their taps, with a start and without one."""
        phone = self.phone()
        for elapsed in ("null", "3600"):
            rows = ", ".join(f"{sail}: {{finish: '15:00:00', code: '', elapsed: {elapsed}, crossed: 54000}}" for sail in ("GBR33", "NED80", "SWE2"))
            race = f"{{at: {{GBR33: 1700, NED80: 1100, SWE2: 1400}}, sheet: {{start: '', rows: {{{rows}}}}}}}"
            order = f"import('/office/static/race-view.js').then(({{atTheLine}}) => atTheLine({race}).order.join())"
            self.assertEqual(phone.run(order), "NED80,SWE2,GBR33", elapsed)
        self.need_no_faults()

    def test_which_class(self) -> None:
        """A sail that isn't read needs one class alone: the page names the button that does it."""
        phone = self.phone()
        for name in ("cup", "lev"):
            self.race(phone, name)
        phone.until("!document.querySelector('#unread').disabled")
        phone.click("#unread")
        phone.until("document.querySelector('#said').textContent === 'Which class? First press the race number of the other one, and “not sailing”.'")
        phone.click("#races [data-key=cup]")
        phone.until(ASKED)
        self.assertEqual(phone.text("dialog[open] [data-value=none]"), "not sailing")
        phone.choose("none")
        phone.click("#unread")
        phone.until("document.querySelector('#list li.unread')?.innerText.includes('?1')")
        self.need_no_faults()

    def test_one_window(self) -> None:
        """A finger that presses again while a part of the page is still fetched opens one window."""
        phone = self.phone()
        self.race(phone, "cup")
        phone.until("!!document.querySelector('#start')")
        phone.run("[1, 2, 3].forEach(() => document.querySelector('#start').click())")
        phone.until(f"{TITLE} === 'Folkboats: Start of race 1'")
        self.assertEqual(phone.run("document.querySelectorAll('dialog').length"), 1)
        self.need_no_faults()

    def test_a_mode_of_one_class(self) -> None:
        """A row of a sail that wasn't read and its questions name the class. Until she is known that class alone is shown:
        a boat of another isn't taken for a finisher, and what was begun stays."""
        phone = self.phone()
        self.race(phone, "cup")
        phone.click("#unread")
        phone.until("document.querySelector('#list li.unread')?.innerText.includes('?1')")
        self.race(phone, "cup", "none")
        self.race(phone, "lev")
        phone.tap("GBR101", "lev")
        phone.until("!document.querySelector('#level').disabled")
        phone.click("#unread")
        self.settle(phone)
        self.race(phone, "cup")
        self.race(phone, "cup", "none")
        phone.until("document.querySelector('#level').disabled")
        self.race(phone, "cup")
        phone.until("document.querySelectorAll('#list li.unread').length === 2")
        self.assertEqual(sorted(phone.texts("#list li.unread .name")),
                         ["Dragons · sail not read: tap once known", "Folkboats · sail not read: tap once known"])
        phone.click("#list li.unread[data-key^='lev'] button")
        phone.until(f"{TITLE} === 'Who was ?1 Dragons?'")
        phone.choose("known")
        phone.until("document.querySelector('#banner span').textContent === 'Tap the boat that was ?1 Dragons'")
        self.assertEqual({str(one) for one in phone.run("[...document.querySelectorAll('#grid .boat')].map(one => one.dataset.class)")}, {"lev"})
        phone.run("import('/office/static/finish-taps.js').then(taps => taps.tapBoat('cup', 'NED80'))")
        self.assertEqual(phone.text("#banner span"), "Tap the boat that was ?1 Dragons")
        phone.tap("NED12")
        self.settle(phone)
        self.assertEqual((self.journal("lev"), self.journal("cup")), (["FINISH FINISH 1 GBR101", "FINISH FINISH 1 NED12"], []))
        phone.click("#list li[data-key='lev GBR101'] button")
        phone.choose("before")
        phone.until("document.querySelector('#banner span').textContent === 'Tap the boat just ahead of GBR 101 Dragons'")
        self.assertEqual(phone.count("#grid .boat:not([data-class=lev])"), 0)
        self.need_no_faults()

    def test_at_sea(self) -> None:
        """A phone that never sailed by corrected time before has what a start and an answer need, once it was live. One that
        doesn't have it says so."""
        line, phone = self.line(), Device(self.chromium, 390, 844, touch=True)
        phone.ask("Page.addScriptToEvaluateOnNewDocument", source="Object.defineProperty(navigator, 'serviceWorker', {value: undefined})")
        phone.come(self.address(self.links["finish"], line.own), "Ann’s phone")
        for name in ("finish-start", "finish-answers", "sheet-why", "remark-words"):
            phone.until(f"performance.getEntriesByType('resource').some(one => one.name.endsWith('/{name}.js') && one.responseEnd)")
        line.cut()
        phone.until("document.querySelector('#link').dataset.state === 'away'")
        self.race(phone, "cup")
        phone.click("#start")
        phone.until(f"{TITLE} === 'Folkboats: Start of race 1'")
        phone.choose("now")
        phone.until("document.querySelector('#link').textContent === '1 unsent · offline'")
        self.need_no_faults()
        phone.ask("Network.setBlockedURLs", urls=["*finish-start.js"])
        line.mend()
        self.settle(phone)
        phone.reload()
        phone.click("#start")
        phone.until(f"{ALARM} === 'The office isn’t reached.'")
        phone.ask("Network.setBlockedURLs", urls=[])
        phone.click("#start")
        phone.until(f"{TITLE} === 'Folkboats: Start of race 1'")
        self.need_no_faults()

    def test_why_a_tap_waits(self) -> None:
        """What the office says of a tap that it doesn't take yet stands in the list. She can be read of and dropped; and once the
        sheet is right, the tap goes by itself."""
        self.write("Sail,Start,Finish\nGBR 33,00:00:00,\nNED 80,00:00:00,10:5:7\n", "cup", "times", "race-1.csv")
        phone, left = self.phone(), "#list li.refused"
        self.race(phone, "cup")
        phone.tap("GBR33")
        phone.until(f"document.querySelector('{left} .name')?.textContent.includes('10:5:7')")
        self.assertEqual(phone.text(f"{left} .sail"), "GBR 33 Folkboats")
        phone.click(f"{left} button")
        phone.until(f"{TITLE} === 'Not sent.' && document.querySelector('dialog[open]').textContent.includes('10:5:7')")
        phone.choose("")
        self.assertEqual(phone.count(left), 1)
        self.write("Sail,Start,Finish\nGBR 33,00:00:00,\nNED 80,00:00:00,\n", "cup", "times", "race-1.csv")
        self.settle(phone)
        phone.until(f"!document.querySelector('{left}')")
        self.assertRegex(self.rows("cup")[0], r"^GBR 33,00:00:00,\d\d:\d\d:\d\d$")


class Desk(TimedTrial):
    def test_without_a_start(self) -> None:
        """Why a finisher is in the sheet alone is a sentence of its own."""
        phone, scorer = self.phone(), self.device("scorer", "Bea’s laptop")
        self.race(phone, "cup")
        phone.tap("GBR33")
        scorer.until("!!document.querySelector('#in-sheet')")
        self.assertRegex(scorer.text("#in-sheet"), "^In the sheet, and not in the journal yet:\n\nHer start isn’t recorded, or is after her finish.\n")
        self.need_no_faults()

    def test_a_start_alone(self) -> None:
        """The head of a race has its start. A race that has a start alone can be abandoned, and not be scored."""
        phone, scorer = self.phone(), self.device("scorer", "Bea’s laptop")
        self.race(phone, "cup")
        self.begun(phone, "00:00:00", "Folkboats: Start of race 1")
        scorer.until("document.querySelector('.pane header')?.textContent.endsWith(' · Start 00:00:00')")
        self.assertTrue(scorer.run("document.querySelector('#score').disabled"))
        scorer.click("#abandon")
        scorer.choose("yes")
        phone.until("document.querySelector('#start').textContent === 'Start'")
        self.assertNotIn("00:00:00", "".join(self.rows("cup")))
        self.need_no_faults()

    def test_places_of_an_abandoned_race(self) -> None:
        """A place that a phone keeps is named when its race is abandoned, and goes: it is none of the resail, and nobody is asked
        about it any more."""
        phone, scorer = self.phone(), self.device("scorer", "Bea’s laptop")
        self.race(phone, "cup")
        self.begun(phone, "00:00:00", "Folkboats: Start of race 1")
        phone.click("#unread")
        phone.until("document.querySelector('#list li.unread')?.innerText.includes('?1')")
        phone.tap("GBR33")
        self.settle(phone)
        scorer.until("document.querySelectorAll('.order tbody tr').length === 1")
        scorer.click("#abandon")
        scorer.until("document.querySelector('dialog[open]')?.textContent.includes('Ann’s phone (1): taps that the office hasn’t got yet. Places')")
        scorer.choose("yes")
        scorer.until("document.querySelector('dialog[open]')?.textContent.includes('Abandon race 1?')")
        scorer.choose("yes")
        phone.until("!document.querySelector('#list li') && document.querySelector('#start').textContent === 'Start'")
        self.begun(phone, "00:00:01", "Folkboats: Start of race 1")
        phone.tap("GBR33")
        self.settle(phone)
        self.assertEqual(phone.run("[...document.querySelectorAll('#list li')].map(row => row.dataset.key)"), ["cup GBR33"])
        scorer.until("document.querySelectorAll('.order tbody tr').length === 1 && !document.querySelector('#score').disabled")
        scorer.click("#score")
        scorer.until(ASKED)
        self.assertNotIn("Ann’s phone", scorer.text("dialog[open]"))
        self.need_no_faults()

    def test_a_sheet_meanwhile(self) -> None:
        """Boats finish while starts are typed: the sheet is saved. Somebody else's start meanwhile is shown, and what was typed stays
        until it is saved again."""
        self.write("Sail,Start,Finish\nGBR 33,00:00:00,\nNED 80,00:00:00,\n", "cup", "times", "race-1.csv")
        phone, scorer = self.phone(), self.device("scorer", "Bea’s laptop")
        self.race(phone, "cup")
        scorer.click("#classes [data-key=cup]")
        scorer.click("#tab-times")
        field = "#times-table tr[data-sail={}] input[name=start]"
        scorer.type(field.format("NED80"), "00:00:02")
        phone.tap("GBR33", "cup")
        self.settle(phone)
        scorer.run("(() => { window.said = ''; const here = document.querySelector('#said');"
                   " new MutationObserver(() => { window.said += here.textContent; }).observe(here, {childList: true}); })()")
        scorer.click("#send-times")
        scorer.until("window.said !== ''")
        self.assertIn("NED 80,00:00:02,", self.rows("cup"))
        self.assertRegex(self.rows("cup")[0], r"^GBR 33,00:00:00,\d\d:\d\d:\d\d$")
        scorer.until("document.querySelector('[data-hand=GBR33]')?.textContent.includes(':')")
        scorer.type(field.format("NED80"), "00:00:03")
        before = self.text("cup", "times", "race-1.csv")
        self.write(before.replace("GBR 33,00:00:00", "GBR 33,00:00:01"), "cup", "times", "race-1.csv")
        scorer.click("#send-times")
        scorer.until("[...document.querySelectorAll('.waits')].some(one => one.textContent === 'Changed meanwhile: GBR 33 Start 00:00:01')")
        self.assertEqual([scorer.run(f"document.querySelector('{field.format(sail)}').value") for sail in ("GBR33", "NED80")],
                         ["00:00:01", "00:00:03"])
        self.assertIn("NED 80,00:00:02,", self.rows("cup"))
        scorer.click("#send-times")
        helpers.until("the typed start", lambda: "NED 80,00:00:03," in self.rows("cup"))
        self.need_no_faults()

    def test_other_classes(self) -> None:
        """As many classes are served as before, and one is another: the scorer's page has these."""
        scorer = self.device("scorer", "Bea’s laptop")
        scorer.click("#classes [data-key=lev]")
        self.make("new", title="Yngling", **{"class": "Ynglings"})
        self.end()
        self.classes = {**{name: self.classes[name] for name in self.timed}, "new": ""}
        super().start()
        scorer.until("[...document.querySelectorAll('#classes button')].map(one => one.textContent).join() === 'Folkboats,Dinghies,Ynglings'")
        scorer.until("document.querySelector('#classes [aria-current]')?.textContent === 'Folkboats'"
                     " && document.querySelector('#title').textContent === 'Folkboats'")
        self.need_no_faults()


if __name__ == "__main__":
    unittest.main()
