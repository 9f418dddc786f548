"""Corrections of several lines on the scorer's page in Chromium: the network, the page or the web is lost in between, and the
boat is where she was, or where she was put, or the page says what is left."""
from __future__ import annotations

import json
import re
import unittest

import web_devices
from devices import Device
from raceoffice.web.taps import part_id
from web_office import SAILS, WebTrial, finishes

ROW = ".order tr[data-sail={}]"
ORDER = "[...document.querySelectorAll('.order tbody tr')].map(row => row.dataset.sail ?? '?').join(' ')"
MOVE = ["STRIKE 1 NED12", "BEFORE 1 NED12 GBR101"]
TAPS = ("cup", "office", "web.taps")


def spaced(sail: str) -> str:
    """A sail as pages show it."""
    return re.sub(r"(?<=[A-Z])(?=\d)", " ", sail)


class Correction(WebTrial):
    """A boat is moved in a race of three."""

    def setUp(self) -> None:
        super().setUp()
        finish = web_devices.Device(self.port, "finish").come(self.links["finish"], "Ann")
        for sail in SAILS[:3]:
            finish.tap(f"FINISH 1 {sail}")

    def shown(self, device: Device, *sails: str) -> None:
        device.until(f"{ORDER} === {json.dumps(' '.join(sails))}")

    def move(self, device: Device) -> None:
        """Puts the third boat ahead of the first."""
        self.shown(device, *SAILS[:3])
        device.click(f"{ROW.format('NED12')} th button")
        device.choose("move")
        device.choose("ahead")
        device.click("dialog [data-sail=GBR101]")

    def test_answer_lost(self) -> None:
        """The answer is lost, and the page is left: the move is whole."""
        line = self.line()
        bea = self.device("scorer", "Bea", port=line.own)
        line.loses_answer = True
        self.move(bea)
        bea.until("document.querySelector('#link').dataset.state === 'away'")
        bea.ask("Page.navigate", url="about:blank")
        line.mend()
        bea.open(self.address("/office/scorer/", line.own))
        self.shown(bea, "NED12", "GBR101", "GBR7")
        self.assertEqual(self.journal()[3:], [f"SCORER {line}" for line in MOVE])

    def test_sent_again(self) -> None:
        """The answer is lost, and the network comes back: the page sends the same again, and says what was sent."""
        line = self.line()
        bea = self.device("scorer", "Bea", port=line.own)
        line.loses_answer = True
        self.move(bea)
        bea.until("document.querySelector('#link').dataset.state === 'away'")
        line.mend()
        bea.until("document.body.textContent.includes('2 lines sent')")
        self.shown(bea, "NED12", "GBR101", "GBR7")
        self.assertEqual(self.journal()[3:], [f"SCORER {line}" for line in MOVE])

    def test_swap_and_a_place(self) -> None:
        """Two boats are swapped, and the places that are kept between them stay there."""
        finish = web_devices.Device(self.port, "finish").come(self.links["finish"], "Ben")
        for line in ("? 1", "? 1", f"FINISH 1 {SAILS[3]}"):
            finish.tap(line)
        bea = self.device("scorer", "Bea")
        self.shown(bea, *SAILS[:3], "?", "?", SAILS[3])
        bea.click(f"{ROW.format(SAILS[3])} th button")
        bea.choose("swap")
        bea.click("dialog [data-sail=NED12]")
        self.shown(bea, *SAILS[:2], SAILS[3], "?", "?", "NED12")

    def test_order_that_has_changed(self) -> None:
        """While the page asks with whom a boat changes places, or which finishers are of another race, a phone puts a boat
        between them: what is sent is of the order as it is then."""
        finish = web_devices.Device(self.port, "finish").come(self.links["finish"], "Ben")
        bea = self.device("scorer", "Bea")
        self.shown(bea, *SAILS[:3])
        bea.click(f"{ROW.format(SAILS[0])} th button")
        bea.choose("swap")
        finish.tap(f"BEFORE 1 {SAILS[3]} {SAILS[1]}")
        self.shown(bea, SAILS[0], SAILS[3], SAILS[1], SAILS[2])
        bea.click(f"dialog [data-sail={SAILS[2]}]")
        order = [SAILS[2], SAILS[3], SAILS[1], SAILS[0]]
        self.shown(bea, *order)
        bea.click("#other-race")
        for line in (f"STRIKE 1 {SAILS[0]}", f"BEFORE 1 {SAILS[0]} {SAILS[2]}"):
            finish.tap(line)
        self.shown(bea, SAILS[0], *order[:3])
        bea.choose("yes")
        bea.until("document.body.textContent.includes('6 lines sent')")
        self.assertEqual(self.journal()[-6:], [f"SCORER FINISH 2 {sail}" for sail in order[:3]] + [f"SCORER STRIKE 1 {sail}" for sail in order[:3]])

    def two_windows(self, device: Device, phone: Device, choices: tuple[str, ...]) -> None:
        """Asks what is to be done about NED12 in a window of the scorer, and in one of a phone: choices but the last."""
        phone.click("#list li[data-sail=NED12] button")
        for choice in choices[:-1]:
            phone.choose(choice)
        device.click(f"{ROW.format('NED12')} th button")
        for one in (device, phone):
            one.until(f"[...document.querySelectorAll('dialog[open] button')].some(one => one.dataset.value?.toLowerCase() === '{choices[-1]}')")

    def test_boat_that_has_changed(self) -> None:
        """While a window asks what is to be done about a boat, another device puts her elsewhere, or gives her another code: what
        takes that away is asked about, on the scorer's page and on a phone, and nothing is sent after a No."""
        ben = web_devices.Device(self.port, "finish").come(self.links["finish"], "Ben")
        bea, ann = self.device("scorer", "Bea"), self.phone()
        ann.click("#races .race")
        ann.click("dialog [data-race='1']")
        steps = (("", ("strike",), ["STRIKE 1 NED12", "BEFORE 1 NED12 GBR101"], "Send it once more?"),
                 ("MARK 1 NED12 OCS", ("code", "clear"), ["MARK 1 NED12 BFD"], "sent MARK 1 NED12 BFD since. Send CLEAR 1 NED12 all the same?"))
        for before, choices, lines, asked in steps:
            if before:
                ben.tap(before)
            for one in (bea, ann):
                one.until(f"document.querySelector('[data-sail=NED12]:is(li, tr)')?.textContent.includes({json.dumps(before[-3:])})")
            self.two_windows(bea, ann, choices)
            for line in lines:
                ben.tap(line)
            changed, now = self.journal(), ben.state()["entries"]
            for one, sign in ((bea, ".order tbody tr"), (ann, "#list li")):
                one.until(f"document.querySelector('{sign}[data-sail=NED12]').textContent.includes({json.dumps(lines[-1][-3:])})"
                          if before else f"document.querySelector('{sign}').dataset.sail === 'NED12'")
            for one, name, no in ((bea, choices[-1], ""), (ann, "CLEAR" if before else "strike", "drop")):
                with self.subTest(lines=lines, no=no):
                    one.choose(name)
                    one.until(f"document.querySelector('dialog[open]')?.textContent.includes({json.dumps(asked)})")
                    one.choose(no)
            self.settle(ann)
            self.assertEqual((self.journal(), ben.state()["entries"]), (changed, now))
        self.need_no_faults()

    def test_others_finish_meanwhile(self) -> None:
        """While a window asks who finished after all others, or where a boat did, another boat finishes: it is asked whether she is
        after that one, too. Nothing is sent after a No."""
        finish = web_devices.Device(self.port, "finish").come(self.links["finish"], "Ben")
        bea, order, coming = self.device("scorer", "Bea"), SAILS[:3], iter(SAILS[3:])
        for what, choices in (("move", ("move", "last")), ("add", ()), ("last", ("last",))):
            for answer in ("", "yes"):
                self.shown(bea, *order)
                # Who is moved, and who is added
                sail, other = order[0] if what == "move" else SAILS[-1 if what == "add" else -2], next(coming)
                bea.click("#add" if what == "add" else f"{ROW.format(sail)} th button" if what == "move" else f".missing [data-sail={sail}]")
                for choice in choices[:-1]:
                    bea.choose(choice)
                bea.until("!!document.querySelector('dialog[open]')")
                finish.tap(f"FINISH 1 {other}")
                order = [*order, other]
                self.shown(bea, *order)
                held = self.journal()
                if what == "add":
                    bea.click(f"dialog [data-sail={sail}]")
                else:
                    bea.choose(choices[-1])
                bea.until("document.querySelector('dialog[open]')?.textContent.includes("
                          f"'Meanwhile {spaced(other)} was recorded. Did {spaced(sail)} finish after her, too?')")
                bea.choose(answer)
                if answer:
                    order = [*(one for one in order if one != sail), sail]
                    self.shown(bea, *order)
                    self.assertEqual(self.journal()[-1], f"SCORER FINISH 1 {sail}")
                else:
                    bea.until("!document.querySelector('dialog[open]')")
                    self.assertEqual(self.journal(), held)
        self.need_no_faults()

    def test_nobody_finishes_meanwhile(self) -> None:
        """Nothing is asked of a boat that goes after all that the window showed."""
        bea, (first, second, third) = self.device("scorer", "Bea"), SAILS[:3]
        self.shown(bea, first, second, third)
        for sail, order in ((first, (second, third, first)), (first, (second, third, first))):
            bea.click(f"{ROW.format(sail)} th button")
            bea.choose("move")
            bea.choose("last")
            bea.until("document.body.textContent.includes('2 lines sent')")
            self.shown(bea, *order)
            bea.run("document.querySelector('#said').textContent = ''")
        bea.click("#add")
        bea.click(f"dialog [data-sail={SAILS[4]}]")
        self.shown(bea, second, third, first, SAILS[4])
        self.need_no_faults()

    def test_place_kept_meanwhile(self) -> None:
        """While a window asks who was just ahead of a boat, or who she was just ahead of, a place is kept there, and the window stays
        open for some seconds: it is asked on which side of the place the boat was."""
        ben, bea = web_devices.Device(self.port, "finish").come(self.links["finish"], "Ben"), self.device("scorer", "Bea")
        first, second, third, fourth = SAILS[:4]
        for race, sail, pointed, choices, order in (
                (1, fourth, fourth, ("into",), (first, "?", fourth, second, third)),
                (2, fourth, second, ("ahead",), (first, "?", fourth, second, third)),
                (3, third, third, ("move", "ahead"), (first, "?", third, second))):
            for one in (first, second, third) if race > 1 else ():
                ben.tap(f"FINISH {race} {one}")
            bea.click(f".races [data-key='{race}']")
            self.shown(bea, first, second, third)
            bea.click(f"{ROW.format(pointed)} th button, .missing [data-sail={pointed}]")
            for choice in choices:
                bea.choose(choice)
            bea.until("!!document.querySelector('dialog[open] [data-sail]')")
            ben.tap(f"? {race}", at=ben.state()["races"][str(race)]["at"][first], behind=first, by_clock=True)
            self.shown(bea, first, "?", second, third)
            # A place that was kept within a second is asked about, however long a window is open.
            bea.another_second()
            bea.click(f"dialog [data-sail={sail if choices == ('ahead',) else second}]")
            bea.until("document.querySelector('dialog[open]')?.textContent.includes("
                      f"'?1 has been kept just ahead of {spaced(second)} since. Did {spaced(sail)} finish after ?1?')")
            bea.choose("yes")
            self.shown(bea, *order)
        self.need_no_faults()

    def test_what_came_of_it(self) -> None:
        """Once a question is answered, it is said what came of the line, and not again what was shown before it."""
        bea = self.device("scorer", "Bea")
        self.shown(bea, *SAILS[:3])
        for button, words in (("#score", "race 1 counts"), ("#unscore", "count any more"), ("#abandon", "Race 1 is taken away: 3 lines")):
            bea.click(button)
            bea.choose("yes")
            bea.until(f"document.querySelector('#said').textContent.toLowerCase().includes({words.lower()!r})")
            for shown in ("3 finished", "To take race 1 away", "STRIKE 1"):
                self.assertNotIn(shown, bea.text("#said"))
        self.need_no_faults()

    def test_finish_of_a_boat_meanwhile(self) -> None:
        """While a window asks which code a boat has, another device taps her finish: a DNF is asked about, on a phone and on the
        scorer's page, and nothing is sent after a No; OCS isn't."""
        ben = web_devices.Device(self.port, "finish").come(self.links["finish"], "Ben")
        bea, ann, (one, two, three) = self.device("scorer", "Bea"), self.phone(), SAILS[3:6]
        ann.click("#races .race")
        ann.click("dialog [data-race='1']")
        self.shown(bea, *SAILS[:3])

        def open_both(sail: str) -> None:
            ann.click("#code")
            ann.tap(sail)
            bea.click(f".missing [data-sail={sail}]")
            bea.choose("code")
            for device in (ann, bea):
                device.until("!!document.querySelector('dialog[open] [data-value=DNF]')")
        for sail, lines in ((one, [f"FINISH 1 {one}"]), (two, [f"TIE 1 {two} {one}"])):
            open_both(sail)
            for line in lines:
                ben.tap(line)
            held = self.journal()
            for device, no in ((ann, "drop"), (bea, "")):
                device.choose("DNF")
                device.until("document.querySelector('dialog[open]')?.textContent.includes("
                             f"'Somebody else has sent {lines[-1]} since. Send MARK 1 {sail} DNF all the same?')")
                device.choose(no)
                device.until("!document.querySelector('dialog[open]')")
            self.settle(ann)
            self.assertEqual(self.journal(), held)
        open_both(three)
        ben.tap(f"FINISH 1 {three}")
        ann.choose("OCS")
        self.settle(ann)
        self.assertEqual(self.journal()[-1], f"FINISH MARK 1 {three} OCS")
        self.need_no_faults()

    def test_another_race_and_a_place(self) -> None:
        """Boats among whom a place is kept don't go to another race until it is known who she was."""
        finish = web_devices.Device(self.port, "finish").come(self.links["finish"], "Ben")
        finish.tap("? 1")
        bea, before = self.device("scorer", "Bea"), len(self.journal())
        self.shown(bea, *SAILS[:3], "?")
        for line in ("", "?1 1 NONE"):
            if line:
                finish.tap(line)
                self.shown(bea, *SAILS[:3])
            bea.click("#other-race")
            bea.choose("yes")
            if not line:
                bea.until("document.querySelector('#alarm').textContent === '?1: a finisher without a sail'"
                          " && document.querySelector('dialog[open]') === null")
                self.assertEqual(len(self.journal()), before)
        self.shown(bea)
        self.assertEqual(len(self.journal()), before + 6)

    def half_done(self) -> str:
        """The web dies after the first of two lines; the identity of the move."""
        raw, id = web_devices.Device(self.port, "scorer").come(self.links["scorer"], "Cy"), web_devices.new_id()
        raw.tap(MOVE[0], part_id(id, 0))
        self.kill_web()
        note = json.dumps({"id": f"{id}/lines", "lines": [["SCORER", line] for line in MOVE]})
        noted = self.text(*TAPS).splitlines()
        self.write("\n".join([*noted[:-2], note, *noted[-2:], ""]), *TAPS)
        self.start()
        return id

    def test_completed(self) -> None:
        """What is left of a move is said, and a button sends it."""
        bea = self.device("scorer", "Bea")
        self.shown(bea, *SAILS[:3])
        self.half_done()
        bea.until("document.querySelector('.unfinished .mono')?.textContent === 'BEFORE 1 NED12 GBR101'")
        bea.click(".finish-it")
        self.shown(bea, "NED12", "GBR101", "GBR7")
        bea.until("!document.querySelector('.unfinished')")
        self.assertEqual(self.journal(), [*finishes(*SAILS[:3]), *(f"SCORER {line}" for line in MOVE)])

    def test_left(self) -> None:
        """Or it is left, by another button."""
        bea = self.device("scorer", "Bea")
        self.half_done()
        bea.click(".leave-it")
        bea.until("!document.querySelector('.unfinished')")
        self.shown(bea, "GBR101", "GBR7")
        self.assertEqual(self.journal()[3:], [f"SCORER {MOVE[0]}"])

    def test_left_elsewhere(self) -> None:
        """Another window has left it while this one had no connection: who sends the rest here hears that it isn't sent,
        and isn't told that it was."""
        line = self.line()
        bea = self.device("scorer", "Bea", port=line.own)
        self.shown(bea, *SAILS[:3])
        id = self.half_done()
        bea.until("document.querySelector('.finish-it') !== null")
        line.cut()
        bea.until("document.querySelector('#link').dataset.state === 'away'")
        bea.click(".finish-it")
        other = web_devices.Device(self.port, "scorer").come(self.links["scorer"], "Di")
        left = other.ask("POST", "/office/scorer/correct/cup", {"id": id, "at": 1, "lines": [], "leave": True})
        self.assertEqual(left[1]["outcome"], "left")
        line.mend()
        bea.until("document.querySelector('dialog .mono')?.textContent === 'BEFORE 1 NED12 GBR101'")
        self.assertIn("These lines weren’t sent:", bea.text("dialog"))
        self.assertNotIn("lines sent", bea.text())
        bea.choose("ok")
        self.assertEqual(self.journal()[3:], [f"SCORER {MOVE[0]}"])


if __name__ == "__main__":
    unittest.main()
