"""A phone whose finish page is open in two tabs, or that comes again by a link, in Chromium over the real program: nothing of
what it keeps is lost or sent against somebody's will, and it isn't said to be out while it is let in."""
from __future__ import annotations

import os
import unittest

import helpers
from devices import Device
from web_office import WebTrial, finishes

GRID = "!!document.querySelector('#grid .boat')"
STATE = "document.querySelector('#link').dataset.state"
ROWS = "document.querySelectorAll('#list li').length"
WORKER = "navigator.serviceWorker.ready.then(() => !!navigator.serviceWorker.controller)"


class Let(WebTrial):
    """A device that is let in, or isn't any more."""

    def comes(self, phone: Device, address: str) -> None:
        """Comes by a link to the finish page."""
        phone.open(address)
        phone.type("#name", "Ann")
        phone.click("#go")
        phone.until(f"location.pathname === '/office/finish/' && {GRID}")

    def test_a_new_link(self) -> None:
        """A new link puts a phone out while it holds a tap. Once it has come by that link, its tap is asked about, and
        nothing says any more that its link has ended."""
        line = self.line()
        ann, scorer = self.phone(port=line.own), self.device("scorer", "Bea")
        ann.tap("GBR101")
        self.settle(ann)
        line.cut()
        ann.tap("GBR7")
        made = scorer.run("import('/office/static/office.js').then(office => office.ask('key', {role: 'FINISH'})).then(said => said.link)")
        scorer.type("#typed", "finish 1 12")
        scorer.press("Send")
        helpers.until("another finisher", lambda: len(self.journal()) == 2)
        line.mend()
        ann.until(f"{STATE} === 'out'")
        ann.run("window.onbeforeunload = null")
        self.comes(ann, self.address("/office/in#" + made.split("#")[1], line.own))
        ann.until("!!document.querySelector('dialog[open]')")
        self.assertNotEqual(ann.run(STATE), "out")
        ann.choose("after")
        self.settle(ann)
        self.assertEqual(self.journal()[-1:], finishes("GBR7"))

    def test_loaded_without_a_connection(self) -> None:
        """A page that began without a connection has no token: with the first tap it gets one, and sends that at once."""
        line = self.line()
        ann = self.phone(port=line.own)
        ann.tap("GBR101")
        self.settle(ann)
        ann.until(WORKER)
        line.cut()
        ann.reload()
        ann.tap("GBR7")
        ann.run(f"""(() => {{
            window.states = [];
            new MutationObserver(() => window.states.push({STATE})).observe(document.querySelector("#link"), {{attributes: true}});
        }})()""")
        line.mend()
        self.settle(ann)
        self.assertNotIn("out", ann.run("window.states"))
        self.assertEqual(self.journal(), finishes("GBR101", "GBR7"))

    def test_a_portal(self) -> None:
        """A page of somebody else's answers in place of the office, that nobody is let in: the page asks once, and counts that
        as no answer."""
        ann = self.phone()
        asked = ann.run("""import("/office/static/office.js").then(async office => {
            const real = window.fetch;
            let count = 0, stop = null;
            const enough = new Promise(done => { stop = done; });
            window.fetch = () => new Promise(done => setTimeout(() => {
                if ((count += 1) > 20) stop({status: "without an end"});
                done(new Response("<h1>Log in</h1>", {status: 403}));
            }));
            const first = await Promise.race([office.ask("me"), enough]), second = await Promise.race([office.ask("line/cup", {}), enough]);
            const asked = count;
            window.fetch = real;
            return [asked, first.status, second.status, office.isOut];
        })""")
        self.assertEqual(asked, [2, 0, 0, False])

    def test_another_tab_comes(self) -> None:
        """The link is opened again in another tab: the first one still sends."""
        one = self.phone()
        one.tap("GBR101")
        self.settle(one)
        two = one.tab()
        self.comes(two, self.address(self.links["finish"]))
        one.tap("GBR7")
        self.settle(one)
        # A tab that hasn't seen the other's finish would be asked.
        two.until(f"{ROWS} === 2")
        two.tap("NED12")
        self.settle(two)
        self.assertEqual(self.journal(), finishes("GBR101", "GBR7", "NED12"))

    def test_undone_in_the_other_tab(self) -> None:
        """Both tabs hold a tap that was never sent. It is undone in one: the other doesn't send it."""
        line = self.line()
        one = self.phone(port=line.own)
        one.until(WORKER)
        line.cut()
        one.tap("GBR7")
        two = one.tab()
        two.open(self.address("/office/finish/", line.own))
        two.until(f"{ROWS} === 1")
        one.click("#undo")
        for tab in (one, two):
            tab.until(f"{ROWS} === 0")
        line.mend()
        for tab, sail in ((two, "NED12"), (one, "FRA9")):
            tab.tap(sail)
            self.settle(tab)
        self.assertEqual(self.journal(), finishes("NED12", "FRA9"))


@helpers.needs_times
class Moments(WebTrial):
    """A class by corrected time: a phone keeps the moments of sails that weren't read."""
    classes = {"cup": "Sail,Boat,TCF\nGBR 101,Kestrel,1.000\nGBR 7,Sea Pink,0.900\nNED 12,Windhover,1.250\n"}
    settings = {"handicap": "yes", "zone": "UTC"}

    def start(self) -> None:
        os.makedirs(os.path.join(self.here, "cup", "times"), exist_ok=True)
        self.write(f"[times]\nsystem = tcf\nprogram = {helpers.TIMES}\n", "cup", "times", "rules.ini")
        super().start()

    def test_two_tabs(self) -> None:
        """Each tab keeps moments, and shows those of the other. Undo in one takes back its own alone."""
        one = self.phone()
        two = one.tab()
        two.open(self.address("/office/finish/"))
        two.until(GRID)
        one.click("#unread")
        two.until(f"{ROWS} === 1")
        two.click("#unread")
        for tab in (one, two):
            tab.until(f"{ROWS} === 2")
            self.assertEqual(tab.texts("#list li .sail"), ["?1", "?2"])
        two.click("#undo")
        for tab in (one, two):
            tab.until(f"{ROWS} === 1")
        one.reload()
        one.until(f"{ROWS} === 1")
        self.assertEqual(one.texts("#list li .sail"), ["?1"])


if __name__ == "__main__":
    unittest.main()
