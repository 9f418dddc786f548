"""The clock of a phone at the finish, in Chromium over the real program: it may be wrong, and be set at any time. What was
tapped has its moment by the office's clock all the same, or somebody is asked."""
from __future__ import annotations

import datetime
import json
import os
import signal
import time
import unittest
import zoneinfo

import helpers
from devices import Device, Line
from web_office import WebTrial, finishes, zone_of_afternoon

HOUR = 3_600_000
# A clock that is ahead by window.jump milliseconds, also in a page that is loaded again
WRONG = """(() => {
    const real = Date.now;
    window.jump = Number(localStorage.getItem("jump") ?? "%d");
    Date.now = () => real() + window.jump;
})()"""
SET = "window.jump = {0}; localStorage.setItem('jump', '{0}')"
# The time that passes in a page stops while its phone sleeps.
ASLEEP = """(() => {
    const passed = performance.now.bind(performance);
    window.slept = 0;
    performance.now = () => passed() - window.slept;
})()"""
SLEEP = "window.slept += 10000"
NO_WORKER = "Object.defineProperty(navigator, 'serviceWorker', {value: undefined})"
OFFICE = "import('/office/static/office.js')"
# By how many milliseconds the page is wrong about the office's clock: both are on one computer.
ERROR = f"{OFFICE}.then(office => Math.abs(office.now() - (Date.now() - window.jump)))"
# Milliseconds: an answer that takes up to eight seconds teaches the clock so well at the least.
NEAR = 5000
AWAY = "document.querySelector('#link').dataset.state === 'away'"
LIVE = "document.querySelector('#link').dataset.state === 'live'"
ASKED = "!!document.querySelector('dialog[open]')"


class ClockTrial(WebTrial):
    """Phones whose clocks are wrong."""

    def wrong(self, ahead: int, port: int = 0, more: str = "") -> Device:
        """A phone whose clock is ahead by milliseconds."""
        phone = Device(self.chromium, 390, 844, touch=True)
        phone.ask("Page.addScriptToEvaluateOnNewDocument", source=f"{WRONG % ahead};{more}")
        phone.come(self.address(self.links["finish"], port), "Ann")
        return phone

    def asked(self, phone: Device) -> None:
        """Has a page ask the office who it is, which teaches it the office's clock."""
        self.assertEqual(phone.run(f"{OFFICE}.then(office => office.ask('me')).then(said => said.status)"), 200)

    def is_kept(self, phone: Device) -> None:
        """Waits until a phone has the page for when there is no connection."""
        phone.until("navigator.serviceWorker.ready.then(() => !!navigator.serviceWorker.controller)")


class Clock(ClockTrial):
    """Two phones record one class: the clock says who was first."""
    net: Line

    def test_loaded_without_a_connection(self) -> None:
        """The page is loaded again without a connection: its taps are compared by the office's clock."""
        line = self.line()
        ann, ben = self.wrong(2 * HOUR, line.own), self.phone("Ben")
        ann.tap("GBR101")
        self.settle(ann)
        ben.until("document.querySelectorAll('#list li').length === 1")
        self.is_kept(ann)
        line.cut()
        ann.reload()
        ann.tap("GBR7")
        self.later(ann, ben)
        ben.tap("NED12")
        self.settle(ben)
        line.mend()
        ann.until(ASKED)
        self.assertIn("By the clock GBR 7 is just ahead of NED 12.", ann.text("dialog"))
        ann.choose("clock")
        self.settle(ann)
        self.assertEqual(self.journal(), [*finishes("GBR101", "NED12"), "FINISH BEFORE 1 GBR7 NED12"])

    def test_set_without_a_connection(self) -> None:
        """The clock is set and the page loaded again, both without a connection: somebody says which of two moments holds,
        for all taps of that time."""
        line = self.line()
        ann = self.wrong(2 * HOUR, line.own)
        ann.tap("GBR101")
        self.settle(ann)
        self.is_kept(ann)
        line.cut()
        ann.reload()
        for sail in ("GBR7", "NED12"):
            ann.tap(sail)
        ann.run(SET.format(0))
        ann.reload()
        ann.tap("FRA9")
        line.mend()
        ann.until(ASKED)
        self.assertEqual(ann.text("dialog h2"), "When was GBR 7 tapped?")
        self.assertEqual(len({*ann.texts("dialog [data-value=then], dialog [data-value=now]")}), 2)
        self.assertEqual(self.journal(), finishes("GBR101"))
        ann.choose("then")
        self.settle(ann)
        self.assertEqual(self.journal(), finishes("GBR101", "GBR7", "NED12", "FRA9"))
        self.assertLess(ann.run(ERROR), NEAR)

    def test_set_during_a_request(self) -> None:
        """The clock is put back while a request is under way: what is learnt then is right, and what comes after it."""
        line = self.line()
        ann = self.wrong(2 * HOUR, line.own)
        self.assertLess(ann.run(ERROR), NEAR)
        line.held = b"/me "
        ann.run(f"{OFFICE}.then(office => {{ window.isAnswered = false; office.ask('me').then(() => {{ window.isAnswered = true; }}); }})")
        time.sleep(1)
        ann.run(SET.format(0))
        line.held = b""
        ann.until("window.isAnswered")
        for _ in range(3):
            self.asked(ann)
            self.assertLess(ann.run(ERROR), NEAR)

    def test_set_on_a_slower_line(self) -> None:
        """The clock is set by ten minutes, and the line is slower than it was: the next answer teaches it all the same."""
        line = self.line()
        ann = self.wrong(0, line.own)
        self.asked(ann)
        line.slow = 0.2
        for ahead in (600_000, -600_000):
            ann.run(SET.format(ahead))
            self.asked(ann)
            self.assertLess(ann.run(ERROR), NEAR)

    def test_put_back_while_taps_wait(self) -> None:
        """The clock is put back while taps wait, and the page is loaded again: they are sent in the order of the taps."""
        line = self.line()
        ann = self.wrong(0, line.own)
        ann.tap("NED12")
        self.settle(ann)
        self.is_kept(ann)
        line.cut()
        ann.until(AWAY)
        ann.tap("GBR7")
        ann.run(SET.format(-HOUR))
        ann.click("#list li[data-sail=GBR7] button.finisher")
        ann.choose("strike")
        ann.tap("FRA9")
        ann.reload()
        ann.until("document.querySelectorAll('#list li').length === 2")
        line.mend()
        ann.until(f"{ASKED} || {LIVE}")
        if ann.run(ASKED):
            ann.choose("then")
        self.settle(ann)
        self.assertEqual(self.journal(), [*finishes("NED12", "GBR7"), "FINISH STRIKE 1 GBR7", *finishes("FRA9")])

    def away(self) -> Device:
        """A phone that has sent one tap, and has no connection any more."""
        self.net = self.line()
        ann = self.wrong(0, self.net.own, ASLEEP)
        ann.tap("GBR101")
        self.settle(ann)
        self.is_kept(ann)
        self.net.cut()
        ann.until(AWAY)
        return ann

    def moment_of(self, phone: Device, sail: str) -> float:
        """When a boat was tapped, as the office has it, in seconds."""
        return float(phone.run(f"{OFFICE}.then(office => office.ask('state/cup')).then(state => state.races[1].at.{sail})")) / 1000

    def need_between(self, before: float, at: float, after: float) -> None:
        """A tap has to have its moment, as well as the page knows the office's clock."""
        self.assertTrue(before - NEAR / 1000 < at < after + NEAR / 1000, (at - before, at - after))

    def test_set_and_put_right(self) -> None:
        """The clock is set without a connection and put right before there is one: a tap between has its moment by the time
        that passed."""
        ann = self.away()
        ann.run(SET.format(HOUR))
        before = time.time()
        ann.tap("GBR7")
        after = time.time()
        ann.run(SET.format(0))
        self.net.mend()
        self.settle(ann)
        self.need_between(before, self.moment_of(ann, "GBR7"), after)

    def test_put_right_and_loaded(self) -> None:
        """So it is, and the page is loaded again before there is a connection: somebody says which of two moments holds, and
        one of them is right."""
        ann = self.away()
        ann.run(SET.format(HOUR))
        before = time.time()
        ann.tap("GBR7")
        after = time.time()
        ann.run(SET.format(0))
        ann.run(f"{OFFICE}.then(office => office.now())")
        ann.reload()
        self.net.mend()
        ann.until(ASKED)
        self.assertEqual(ann.text("dialog h2"), "When was GBR 7 tapped?")
        ann.choose("before")
        self.settle(ann)
        self.need_between(before, self.moment_of(ann, "GBR7"), after)

    def test_asleep(self) -> None:
        """A phone sleeps without a connection, before taps and after them: nobody is asked, and each has its moment."""
        ann, tapped = self.away(), {}
        for sail in ("GBR7", "NED12"):
            ann.run(SLEEP)
            tapped[sail] = time.time()
            ann.tap(sail)
        self.net.mend()
        self.settle(ann)
        for sail, at in tapped.items():
            self.assertLess(abs(self.moment_of(ann, sail) - at), NEAR / 1000)

    def test_set_and_asleep(self) -> None:
        """The clock is set, a boat is tapped, and the phone sleeps: both clocks say the same of the tap, so nobody is asked."""
        ann = self.away()
        ann.run(SET.format(HOUR))
        tapped = time.time()
        ann.tap("GBR7")
        ann.run(SLEEP)
        self.net.mend()
        self.settle(ann)
        self.assertLess(abs(self.moment_of(ann, "GBR7") - tapped), NEAR / 1000)

    def test_put_right_and_asleep(self) -> None:
        """The clock is set and put right around a tap, and the phone sleeps before all that or after it: of the moments that
        somebody chooses from, one is right."""
        for right in ("before", "after"):
            with self.subTest(right=right):
                self.end()
                self.setUp()
                ann = self.away()
                if right == "after":
                    ann.run(SLEEP)
                ann.run(SET.format(HOUR))
                tapped = time.time()
                ann.tap("GBR7")
                ann.run(SET.format(0))
                ann.run(f"{OFFICE}.then(office => office.now())")
                if right == "before":
                    ann.run(SLEEP)
                self.net.mend()
                ann.until(ASKED)
                ann.choose(right)
                self.settle(ann)
                self.assertLess(abs(self.moment_of(ann, "GBR7") - tapped), NEAR / 1000)

    def test_set_while_it_is_asked(self) -> None:
        """The clock is set again, or put back, while somebody is asked when a boat was tapped: what the button says is sent."""
        for ahead in (7000, 2 * HOUR):
            with self.subTest(ahead=ahead):
                self.end()
                self.setUp()
                line = self.line()
                ann = self.wrong(2 * HOUR, line.own)
                self.is_kept(ann)
                line.cut()
                ann.reload()
                ann.tap("GBR7")
                ann.run(SET.format(0))
                ann.reload()
                line.mend()
                ann.until(ASKED)
                shown = ann.text("dialog [data-value=now]")
                ann.run(SET.format(ahead))
                self.asked(ann)
                ann.choose("now")
                self.settle(ann)
                sent = ann.run(f"import('/office/static/finish-state.js').then(page => page.clock('cup', {self.moment_of(ann, 'GBR7') * 1000}))")
                self.assertEqual(shown.rpartition(" ")[2], sent)

    def test_code(self) -> None:
        """The moment of a code is put right, too, before it is sent: the office compares it with what others have sent since."""
        ann = self.away()
        ann.reload()
        ann.run(SET.format(HOUR))
        before = time.time()
        ann.click("#code")
        ann.tap("GBR7")
        ann.choose("RET")
        after = time.time()
        self.net.mend()
        self.settle(ann)
        notes = [json.loads(line) for line in self.text("cup", "office", "web.taps").splitlines()]
        at = next(note["at"] for note in notes if note.get("line") == "MARK 1 GBR7 RET") / 1000
        self.need_between(before, at, after)

    def test_dead_line(self) -> None:
        """The clock is put back by hours, and the line is dead without having said so: the page notices."""
        ann = self.wrong(0)
        ann.run(SET.format(-9 * HOUR))
        self.hold()
        ann.until(AWAY)

    def hold(self) -> None:
        """Stops the web, as a network that passes nothing on."""
        assert self.web
        self.web.send_signal(signal.SIGSTOP)
        self.addCleanup(self.web.send_signal, signal.SIGCONT)


@helpers.needs_times
class Timed(ClockTrial):
    """A class by corrected time."""
    classes = {"cup": "Sail,Boat,TCF\nGBR 101,Kestrel,1.000\nGBR 7,Sea Pink,0.900\nNED 12,Windhover,1.250\n"}
    # No check comes to the end of a day.
    settings = {"handicap": "yes", "zone": zone_of_afternoon()}

    def start(self) -> None:
        os.makedirs(os.path.join(self.here, "cup", "times"), exist_ok=True)
        self.write(f"[times]\nsystem = tcf\nprogram = {helpers.TIMES}\n", "cup", "times", "rules.ini")
        super().start()

    def finish_in_sheet(self, sail: str) -> str:
        """Her finish in the sheet."""
        rows = [row.split(",") for row in self.text("cup", "times", "race-1.csv").splitlines()[1:]]
        return next(row[2] for row in rows if row[0] == sail)

    def test_slow_at_first(self) -> None:
        """A tap before the first answer of a slow office has the office's time in the sheet, as well as the phone knew it."""
        line = self.line()
        ann = self.wrong(2 * HOUR, line.own, NO_WORKER)
        ann.click("#start")
        ann.choose("now")
        self.settle(ann)
        line.held = b"/me "
        ann.run("window.isOld = true")
        ann.ask("Page.reload")
        ann.until("!window.isOld && !!document.querySelector('#grid .boat')")
        before = time.time()
        ann.tap("GBR7")
        after = time.time()
        self.assertEqual(ann.run(f"{OFFICE}.then(office => office.me)"), None)
        line.held = b""
        self.settle(ann)
        near = NEAR // 1000
        moments = [datetime.datetime.fromtimestamp(second, zoneinfo.ZoneInfo(self.settings["zone"])).strftime("%H:%M:%S")
                   for second in range(int(before) - near, int(after) + near + 1)]
        self.assertIn(self.finish_in_sheet("GBR7"), moments)

    def test_days_ahead(self) -> None:
        """What a phone keeps of a sail that wasn't read is there after the page is loaded again, also if its clock is days
        ahead, and was set by one more since, and whatever is kept next."""
        ann = self.wrong(25 * HOUR)
        ann.until("!!document.querySelector('#grid .boat')")
        rows = "document.querySelectorAll('#list li.unread').length"
        for count in (1, 2):
            ann.click("#unread")
            ann.until(f"{rows} === {count}")
            ann.run(SET.format((25 + 26 * count) * HOUR))
            ann.reload()
            ann.until(f"{LIVE} && {rows} === {count}")
            # A finger that bounces is none.
            time.sleep(0.5)
        self.assertEqual(ann.texts("#list li.unread .sail"), ["?1", "?2"])


if __name__ == "__main__":
    unittest.main()
