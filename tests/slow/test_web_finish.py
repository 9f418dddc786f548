"""The finish page in Chromium over the real program: a tap is a finish, and it is never lost or doubled."""
from __future__ import annotations

import json
import os
import time
import unittest

import helpers
import web_devices
from devices import PATIENCE, Device, Line
from stub_office import StubOffice
from web_office import BOATS, FOLKBOATS, WebTrial, entries_of, finishes, zone_of_afternoon

ROWS = "#list li .sail"
# What is by sail, and may be empty
ANY = {"at", "by", "codes", "penalties", "redress", "times", "last", "asked", "decisions", "unfinished"}
# What the finish page fetches once the boats are there
LATER = {"finish-start.js", "finish-rows.js", "finish-answers.js", "sheet-why.js", "questions.js", "remark-words.js", "rules-words.js", "moves.js"}
UNSENT = "document.querySelectorAll('#list li.unsent').length === {}"


class Finish(WebTrial):
    """The finish page of one class."""

    def test_taps_are_the_journal(self) -> None:
        """Finishes, undo, level, a place kept and known, a code, a boat put ahead: the journal line by line."""
        ann = self.phone()
        for sail in ("GBR101", "GBR7", "NED12"):
            ann.tap(sail)
        self.settle(ann)
        ann.click("#undo")
        ann.until("document.querySelectorAll('#list li').length === 2")
        self.settle(ann)
        self.assertEqual(self.journal(), [*finishes("GBR101", "GBR7", "NED12"), "FINISH STRIKE 1 NED12"])
        ann.tap("FRA9")
        ann.click("#level")
        ann.tap("NED12")
        ann.click("#unread")
        ann.tap("IRL5")
        self.settle(ann)
        ann.click("#code")
        ann.tap("GBR33")
        ann.choose("OCS")
        self.settle(ann)
        self.assertEqual(ann.texts(ROWS), ["GBR 101", "GBR 7", "FRA 9", "NED 12", "?1", "IRL 5"])
        ann.click("#list li.unread button")
        ann.choose("known")
        ann.tap("DEN61")
        self.settle(ann)
        ann.click("#list li[data-sail=GBR7] button")
        ann.choose("before")
        ann.tap("GER412")
        self.settle(ann)
        self.assertEqual(self.journal()[4:], [
            "FINISH FINISH 1 FRA9", "FINISH TIE 1 NED12 FRA9", "FINISH FINISH 1 IRL5", "FINISH MARK 1 GBR33 OCS",
            "FINISH BEFORE 1 DEN61 IRL5", "FINISH BEFORE 1 GER412 GBR7"])
        self.assertEqual(ann.texts("#list li .place"), ["1", "2", "3", "4=", "4=", "6", "7"])
        self.need_no_faults()

    def test_moments_that_are_not_known(self) -> None:
        """A boat that the scorer adds, and one ahead of another, have no time on the page: nobody saw when they finished."""
        ann, scorer = self.phone(), web_devices.Device(self.port, "scorer").come(self.links["scorer"], "Bea")
        ann.tap("GBR101")
        self.settle(ann)
        for line in ("FINISH 1 GBR7", "BEFORE 1 NED12 GBR101"):
            self.assertEqual(scorer.tap(line)[1]["outcome"], "taken")
        ann.until("document.querySelectorAll('#list li').length === 3")
        self.assertEqual([bool(time) for time in ann.texts("#list li .end b")], [False, True, False])

    def test_back_in_their_places(self) -> None:
        """Boats that come back, as after a race was abandoned, are found by their numbers once nobody taps any more."""
        ann, boats = self.phone(), "document.querySelectorAll('#grid .boat').length"
        ann.until(f"{boats} === 24")
        before = ann.texts("#grid .boat b")
        for sail in ("GBR7", "POR8"):
            ann.tap(sail)
        self.settle(ann)
        ann.until(f"{boats} === 22")
        helpers.run("type", "cup", "--role", "scorer", lines="STRIKE 1 GBR7\nSTRIKE 1 POR8\n", cwd=self.here)
        ann.until(f"{boats} === 24")
        ann.until(f"[...document.querySelectorAll('#grid .boat b')].map(one => one.textContent).join() === '{','.join(before)}'")

    def test_digits_and_places(self) -> None:
        """Digits show the whole number first; boats keep their places until nobody taps any more."""
        ann = self.phone()
        ann.until("document.querySelectorAll('#grid .boat').length === 24")
        before = ann.texts("#grid .boat b")
        self.assertEqual(before[:6], ["5", "7", "8", "9", "12", "14"])
        ann.tap("GBR7")
        ann.tap("POR8")
        # Both at once: they leave when nobody has tapped for some seconds.
        shown = "['#grid .boat b', '#grid .boat.done i'].map(what => [...document.querySelectorAll(what)].map(one => one.textContent))"
        self.assertEqual(ann.run(shown), [before, ["1st", "2nd"]])
        ann.until("document.querySelectorAll('#grid .boat').length === 22")
        ann.digit("12")
        self.assertEqual(ann.texts("#grid .boat b"), ["12", "312", "412"])
        ann.click("#back")
        ann.click("#back")
        self.assertEqual(len(ann.texts("#grid .boat")), 22)
        self.settle(ann)
        self.assertEqual(self.journal(), finishes("GBR7", "POR8"))
        self.need_no_faults()

    def test_a_bouncing_finger(self) -> None:
        """The second click of one touch is none, neither for her nor for whoever comes to her place."""
        ann = self.phone()
        ann.digit("7")
        ann.until("document.querySelector('#grid .boat').dataset.sail === 'GBR7'"
                  " && !('moving' in document.querySelector('#grid').dataset)")
        # The digits go with the tap, so that another boat is under the finger at once.
        ann.run("(() => { const box = document.querySelector('#grid .boat').getBoundingClientRect();"
                " for (let time = 0; time < 2; time += 1)"
                " document.elementFromPoint(box.left + box.width / 2, box.top + box.height / 2)"
                ".closest('button')?.click(); })()")
        self.settle(ann)
        self.assertEqual(self.journal(), finishes("GBR7"))

    def test_a_connection_that_drops(self) -> None:
        """Cut off in mid-finish: taps are kept, survive a reload without a connection, and are sent once and in
        order; meanwhile nothing of them is in the journal."""
        line = self.line()
        ann = self.phone(port=line.own)
        for sail in ("GBR101", "GBR7"):
            ann.tap(sail)
        self.settle(ann)
        ann.until("navigator.serviceWorker.ready.then(() => !!navigator.serviceWorker.controller)")
        line.cut()
        for sail in ("NED12", "FRA9", "GBR33", "IRL5"):
            ann.tap(sail)
        ann.until("document.querySelector('#link').textContent === '4 unsent · offline'")
        self.assertEqual(ann.text("#heard"), "4 unsent · offline")
        self.assertEqual(self.journal(), finishes("GBR101", "GBR7"))
        # The page comes from its worker's memory: the computer itself counts as secure.
        ann.reload()
        ann.until("document.querySelectorAll('#list li').length === 6")
        ann.until(UNSENT.format(4))
        ann.tap("DEN61")
        # What is undone before it was sent never is.
        ann.tap("GBR118")
        ann.click("#undo")
        line.mend()
        self.settle(ann)
        ann.until("document.querySelector('#heard').textContent === ''")
        self.assertEqual(self.journal(), finishes("GBR101", "GBR7", "NED12", "FRA9", "GBR33", "IRL5", "DEN61"))
        self.assertEqual(ann.texts("#list li .place"), [str(place) for place in range(1, 8)])

    def test_nothing_waits_any_more(self) -> None:
        """Answers come after the news of their taps: one on its way doesn't count as waiting, and one behind it does until
        it is sent."""
        ann, scorer = self.phone(), web_devices.Device(self.port, "scorer").come(self.links["scorer"], "Bea")
        ann.run("""(() => {
            const quick = window.fetch;
            window.fetch = async (path, more) => {
                const answer = await quick(path, more);
                if (path.includes("/line/")) await new Promise(done => setTimeout(done, 3000));
                return answer;
            };
        })()""")

        def unsent() -> list[int]:
            found = scorer.again().ask("GET", "/office/scorer/devices")[1]["devices"]
            return [one["unsent"] for one in found if one["role"] == "FINISH"]
        ann.tap("GBR101")
        ann.tap("GBR7")
        helpers.until("a tap that waits", lambda: unsent() == [1])
        self.settle(ann)
        self.assertEqual(unsent(), [0])

    def test_an_answer_that_is_lost(self) -> None:
        """The office has taken a finish, and the answer never arrives: the tap is sent again, and done once. If
        the scorer has struck her meanwhile, she isn't put back."""
        line = self.line()
        ann, scorer = self.phone(port=line.own), self.device("scorer", "Bea’s laptop")
        ann.tap("GBR101")
        self.settle(ann)
        line.loses_answer = True
        ann.tap("GBR7")
        ann.until("document.querySelector('#link').dataset.state === 'away'")
        self.assertEqual(self.journal(), finishes("GBR101", "GBR7"))
        scorer.until("!!document.querySelector(\".order tr[data-sail='GBR7']\")")
        scorer.type("#typed", "strike 1 7")
        scorer.run("document.querySelector('form.typed').requestSubmit()")
        scorer.until("!document.querySelector(\".order tr[data-sail='GBR7']\")")
        line.mend()
        self.settle(ann)
        self.assertEqual(self.journal(), [*finishes("GBR101", "GBR7"), "SCORER STRIKE 1 GBR7"])

    def test_a_web_that_dies(self) -> None:
        """The web is killed while a device has unsent taps, and another comes: the office, the devices and their
        taps are still there, and so is the place that was kept."""
        ann = self.phone()
        ann.tap("GBR101")
        ann.click("#unread")
        self.settle(ann)
        self.kill_web()
        ann.tap("GBR7")
        ann.tap("NED12")
        ann.until("document.querySelector('#link').textContent === '2 unsent · offline'")
        self.start()
        self.settle(ann)
        self.assertEqual(self.journal(), finishes("GBR101", "GBR7", "NED12"))
        self.assertEqual(ann.texts(ROWS), ["GBR 101", "?1", "GBR 7", "NED 12"])

    def test_an_office_that_dies(self) -> None:
        """The program is killed: the web opens it again, and what was tapped meanwhile is sent."""
        ann = self.phone()
        ann.tap("GBR101")
        self.settle(ann)
        self.kill_program()
        ann.tap("GBR7")
        ann.tap("NED12")
        self.settle(ann)
        self.assertEqual(self.journal(), finishes("GBR101", "GBR7", "NED12"))

    def parted(self) -> tuple[Line, Device, Device]:
        """A phone that lost its connection after GBR 101 had finished, its line, and a tablet that has one."""
        line = self.line()
        ann, ben = self.phone(port=line.own), self.phone("Ben’s tablet", 820, 1180)
        ann.tap("GBR101")
        self.settle(ann)
        ben.until("document.querySelectorAll('#list li').length === 1")
        line.cut()
        ann.until("document.querySelector('#link').dataset.state === 'away'")
        return line, ann, ben

    def test_two_devices(self) -> None:
        """Two at one line, one cut off: each boat is in the order once; where the clock says that she was ahead of
        others, somebody is asked."""
        line, ann, ben = self.parted()
        ben.tap("GBR33")
        self.settle(ben)
        self.later(ann, ben)
        ann.click("#unread")
        ann.tap("GBR7")
        ann.tap("NED12")
        self.later(ann, ben)
        ben.tap("FRA9")
        # Both saw her.
        ben.tap("NED12")
        self.settle(ben)
        line.mend()
        ann.until("!!document.querySelector('dialog[open]')")
        self.assertIn("Where did ? finish?", ann.text("dialog"))
        self.assertIn("By the clock ? is just ahead of FRA 9.", ann.text("dialog"))
        ann.choose("clock")
        ann.until("document.querySelectorAll('#list li.refused').length === 1")
        self.assertIn("She is in the finishing order of this race already.", ann.text("#list li.refused"))
        self.assertEqual(self.journal(), ["FINISH FINISH 1 GBR101", "FINISH FINISH 1 GBR33", "FINISH FINISH 1 FRA9",
                                          "FINISH FINISH 1 NED12", "FINISH BEFORE 1 GBR7 FRA9"])
        ben.until("document.querySelectorAll('#list li').length === 6")
        self.assertEqual(ben.texts(ROWS), ["GBR 101", "GBR 33", "?1", "GBR 7", "FRA 9", "NED 12"])

    def test_undo_after_a_refused_tap(self) -> None:
        """What was refused is what Undo takes back, until somebody presses it away; then it is the tap before."""
        ann, left = self.phone(), "document.querySelectorAll('#list li.refused').length"
        for sail in ("GBR7", "NED12"):
            ann.tap(sail)
        self.settle(ann)
        for is_understood in (False, True):
            ann.click("#level")
            helpers.run("type", "cup", "--role", "scorer", lines="STRIKE 1 NED12\n", cwd=self.here)
            ann.until("document.querySelectorAll('#list li').length === 1")
            ann.tap("FRA9")
            ann.until(f"{left} === 1")
            self.assertEqual(ann.text("#undo"), "Undo 9")
            if is_understood:
                ann.click("#list li.refused button")
                ann.choose("ok")
            else:
                ann.click("#undo")
            ann.until(f"{left} === 0 && document.querySelector('#undo').textContent === 'Undo 12'")
            self.assertEqual(ann.run("JSON.parse(localStorage.undoable).length"), 2)
            helpers.run("type", "cup", "--role", "scorer", lines="FINISH 1 NED12\n", cwd=self.here)
            ann.until("document.querySelectorAll('#list li').length === 2")
        self.need_no_faults()

    def test_typed_meanwhile(self) -> None:
        """It is said that the clock knows nothing of a boat that was typed in a window; whoever goes by it all the same is
        asked once."""
        line, ann, ben = self.parted()
        helpers.run("type", "cup", "--role", "finish", lines="FINISH 1 NED12\n", cwd=self.here)
        ann.tap("GBR7")
        ann.tap("IRL5")
        self.later(ann, ben)
        ben.tap("FRA9")
        self.settle(ben)
        line.mend()
        ann.until("!!document.querySelector('dialog[open]')")
        self.assertIn("By the clock GBR 7 is ahead of FRA 9. No tap shows when NED 12 finished.", ann.text("dialog"))
        ann.choose("clock")
        self.settle(ann)
        self.assertEqual(self.journal()[2:], ["FINISH FINISH 1 FRA9", "FINISH BEFORE 1 GBR7 FRA9", "FINISH BEFORE 1 IRL5 FRA9"])

    def test_a_place_meanwhile(self) -> None:
        """A boat that was tapped without a connection is ahead of a place that the other device has kept since."""
        line, ann, ben = self.parted()
        ann.tap("GBR7")
        self.later(ann, ben)
        ben.click("#unread")
        self.settle(ben)
        line.mend()
        ann.until("!!document.querySelector('dialog[open]')")
        self.assertIn("Where did GBR 7 finish?", ann.text("dialog"))
        self.assertIn("Meanwhile ?1 was recorded. By the clock GBR 7 is just ahead of ?1.", ann.text("dialog"))
        self.assertIn("By the clock: ahead of ?1", ann.text("dialog"))
        ann.choose("clock")
        self.settle(ann)
        for phone in (ann, ben):
            phone.until("document.querySelectorAll('#list li').length === 3")
            self.assertEqual(phone.texts(ROWS), ["GBR 101", "GBR 7", "?1"])

    def test_answered_as_it_is_asked(self) -> None:
        """A question that is answered while the page is about to ask it isn't asked again: her tap is gone."""
        line, ann, ben = self.parted()
        ann.tap("GBR7")
        ben.click("#unread")
        self.settle(ben)
        line.mend()
        ann.until("!!document.querySelector('dialog[open]')")
        ann.run("import('/office/static/finish-state.js').then(({answer, askedItem}) => { const asking = answer(askedItem());"
                " document.querySelector('dialog[open] [data-value=drop]').click(); return asking; })")
        self.assertFalse(ann.run("!!document.querySelector('dialog[open]')"))
        self.settle(ann)
        self.need_no_faults()

    def test_a_finger_on_its_way(self) -> None:
        """A window that has just come takes no finger, in it or beside it: that was meant for what is below, however late the
        page gets round to it. A key it takes, and a finger half a second later."""
        ann = self.phone()
        ann.run("""import("/office/static/dialogs.js").then(({choose}) => {
            window.ask = () => choose("Drop?", "", [{value: "drop", label: "Drop"}]).then(value => { window.given = value; });
            window.finger = (what, detail = 1) => [document.querySelector(what), new MouseEvent("click", {bubbles: true, detail})];
            window.press = ([part, event]) => part.dispatchEvent(event);
            ask();
            press(finger("dialog [data-value=drop]"));
            window.late = [finger("dialog [data-value=drop]"), finger("dialog")];
            window.at = performance.now();
        })""")
        ann.until("performance.now() > window.at + 1000")
        self.assertTrue(ann.run("late.forEach(press); document.querySelector('dialog[open]') !== null"))
        ann.until("document.querySelector('dialog') && press(finger('dialog [data-value=drop]')), window.given === 'drop'")
        ann.run("window.given = null; ask(); press(finger('dialog [data-value=drop]', 0))")
        ann.until("window.given === 'drop'")

    def test_ahead_of_a_place(self) -> None:
        """A boat that was ahead of a place is struck and tapped again, and didn't finish after it: a button puts her ahead of
        it, and the list shows her there."""
        ann = self.phone()
        for sail in ("NED12", "GBR7"):
            ann.tap(sail)
        ann.click("#unread")
        self.settle(ann)
        ann.run("[...document.querySelectorAll('#list li')].find(row => row.textContent.includes('GBR 7')).querySelector('button').click()")
        ann.choose("strike")
        self.settle(ann)
        ann.tap("GBR7")
        ann.until("!!document.querySelector('dialog[open]')")
        self.assertIn("was ahead of ?1 until she was struck", ann.text("dialog"))
        ann.press("No: ahead of ?1")
        self.settle(ann)
        self.assertEqual(self.journal(), [*finishes("NED12", "GBR7"), "FINISH STRIKE 1 GBR7", *finishes("GBR7")])
        ann.until("document.querySelectorAll('#list li').length === 3")
        self.assertEqual(ann.texts(ROWS), ["NED 12", "GBR 7", "?1"])
        self.need_no_faults()

    def test_a_first_visit(self) -> None:
        """A phone with an empty cache loads the finish page, in the language with the longest words, in 40 KB."""
        ann = self.phone(language="de")
        ann.ask("Network.setBypassServiceWorker", bypass=True)
        ann.ask("Network.setCacheDisabled", cacheDisabled=True)
        # The page before may still fetch what comes later.
        ann.open("about:blank")
        self.chromium.loaded.clear()
        ann.open(self.address("/office/finish/"))
        ann.until("document.querySelectorAll('#grid .boat').length === 24"
                  " && document.querySelector('#link').dataset.state === 'live'")
        end = time.monotonic() + PATIENCE
        while not any("/state/" in address for address in self.chromium.loaded):
            self.assertLess(time.monotonic(), end, self.chromium.loaded)
            ann.run("1")
        names = [address.rpartition("/")[2] for address in self.chromium.loaded]
        shown = next(at for at, address in enumerate(self.chromium.loaded) if "/state/" in address)
        self.assertEqual([name for name in names[:shown] if name in LATER], [], "before the boats are there")
        loaded = sum(size for name, size in zip(names, self.chromium.loaded.values()) if name not in LATER)
        self.assertLess(loaded, 40_000, self.chromium.loaded)
        self.assertGreater(loaded, 20_000)
        print(f"the finish page: {loaded} bytes")

    def test_what_is_shown(self) -> None:
        """The office shows just what the pages are looked at over (stub_office.py)."""
        self.make("old", title="Spring Cup", state="final")
        scorer, stub = self.device("scorer", "Bea’s laptop"), StubOffice()
        self.addCleanup(stub.close)
        ann = self.phone()
        ann.tap("GBR101")
        ann.click("#unread")
        self.settle(ann)
        for what in ("me", "state/cup", "devices"):
            said = scorer.run(f"fetch('/office/scorer/{what}').then(answer => answer.json())")
            canned = stub.answer("scorer", what, {})[1]
            self.assertEqual(keys_of(said), keys_of(canned), what)
        line = json.dumps({"line": "SCORE 1"})
        token = scorer.run("fetch('/office/scorer/me').then(answer => answer.json())")["token"]
        preview = scorer.run(f"fetch('/office/scorer/preview/cup', {{method: 'POST', body: {json.dumps(line)}, headers:"
                             f" {{'Content-Type': 'application/json', 'X-Token': '{token}'}}}}).then(answer => answer.json())")
        self.assertEqual(keys_of(preview), keys_of(stub.preview))


def keys_of(values: object) -> object:
    """The names of all values, whatever they are; of a list and of what is by number or sail, the fullest."""
    if isinstance(values, list):
        return [keys_of(values[0])] if values and isinstance(values[0], dict) else []
    if not isinstance(values, dict):
        return ""
    if all(name.isupper() or name.isdecimal() for name in values):
        return {"each": max(map(keys_of, values.values()), key=lambda one: len(str(one)))} if values else {}
    return {name: keys_of(value) for name, value in sorted(values.items()) if name not in ANY}


class Two(WebTrial):
    """Two classes at one line."""
    classes = {"cup": entries_of(BOATS[:14]), "fleet": entries_of([*FOLKBOATS, ["DEN-7", "Havlit", "B. Juhl"]])}

    def phone_of_both(self, port: int = 0) -> Device:
        """A phone that records the first race of each."""
        ann = self.phone(port=port)
        for at in (0, 1):
            ann.until("document.querySelectorAll('.race').length === 2")
            ann.run(f"document.querySelectorAll('.race')[{at}].click()")
            ann.click("dialog [data-race='1']")
            ann.until("!document.querySelector('dialog')")
        return ann

    def test_level_with_the_last(self) -> None:
        """Level is with the boat that finished last, of whichever class, also if her sail has a hyphen, or if no tap shows
        when she finished."""
        ann = self.phone_of_both()
        ann.tap("GBR101", "cup")
        ann.tap("DEN-7", "fleet")
        self.settle(ann)
        ann.click("#level")
        ann.tap("NED80", "fleet")
        self.settle(ann)
        helpers.run("type", "fleet", "--role", "finish", lines="FINISH 1 SWE2\n", cwd=self.here)
        ann.until("document.querySelectorAll('#list li').length === 4")
        ann.click("#level")
        ann.tap("GER19", "fleet")
        self.settle(ann)
        self.assertEqual(self.journal("fleet"), [*finishes("DEN-7"), "FINISH TIE 1 NED80 DEN-7", *finishes("SWE2"),
                                                 "FINISH TIE 1 GER19 SWE2"])
        self.need_no_faults()

    def test_asked_of_each(self) -> None:
        """A boat of each class has this sail: a question names the class, and her row in the other class doesn't open it.
        A question that is put off comes again after six seconds."""
        line = self.line()
        ann, ben = self.phone_of_both(port=line.own), self.phone_of_both()
        ann.tap("GBR33", "cup")
        self.settle(ann)
        # The page has fetched what opens its rows: that comes after the boats.
        ann.run("import('/office/static/finish-rows.js').then(() => 0)")
        line.cut()
        ann.tap("GBR33", "fleet")
        ben.tap("NED80", "fleet")
        self.settle(ben)
        line.mend()
        ann.until("document.querySelector('#link').dataset.state === 'sending' || !!document.querySelector('dialog[open]')")
        title = "document.querySelector('dialog[open] h2')?.textContent"
        ann.until(f"{title} === 'Where did GBR 33 Folkboats finish?'")
        # On a slow machine the question may be there again before the row opens.
        ann.until(f"""(() => {{
            if ({title} === 'GBR 33 Autumn Cup') return true;
            if (document.querySelector("dialog[open]")) window.putOffAt = performance.now();
            document.querySelector("dialog[open]")?.end("");
            document.querySelector("#list li[data-key='cup GBR33'] button.finisher").click();
            return false;
        }})()""")
        # A click on her row may also open it late, once more.
        self.assertGreater(ann.until(f"""(() => {{
            if ({title} === 'GBR 33 Autumn Cup') document.querySelector("dialog[open]").end("");
            return {title} === 'Where did GBR 33 Folkboats finish?' && performance.now() - window.putOffAt;
        }})()"""), 5900)
        self.assertEqual(self.journal("cup"), finishes("GBR33"))

    def test_taps_of_a_class_that_has_gone(self) -> None:
        """A phone has kept taps of a class that isn't served here, and something that is no tap: those are listed with their
        words until somebody has read of them, and the phone records both classes."""
        ann = self.phone_of_both()
        kept: list[dict[str, object]] = [{"line": "FINISH 1 GBR7", "state": "refused", "words": "She has finished."},
                                         {"line": "FINISH 1 GBR8", "state": "unsent"}, {"line": 7, "state": "unsent"}]
        for number, more in enumerate(kept, 1):
            more |= {"id": f"{number:032x}", "at": 1_795_870_800_000, "class": "gone", "agreed": []}
            ann.run(f"localStorage.setItem('tap:{number:015}.{number:032x}', {json.dumps(json.dumps(more))})")
        ann.run("localStorage.setItem('tap:000000000000009.x', 'no tap')")
        ann.run("window.onbeforeunload = null")
        ann.reload()
        left = "#list li.refused"
        ann.until(f"document.querySelectorAll('#grid .boat').length === 19 && document.querySelectorAll('{left}').length === 2")
        self.assertEqual(ann.texts(f"{left} .sail"), ["GBR 7 gone", "GBR 8 gone"])
        self.assertEqual(ann.texts(f"{left} .name"), ["She has finished.", ""])
        ann.tap("NED80")
        helpers.until("a finish", lambda: self.journal("fleet") == finishes("NED80"))
        for count in (1, 0):
            ann.click(f"{left} button")
            ann.choose("ok")
            ann.until(f"document.querySelectorAll('{left}').length === {count}")
        self.need_no_faults()

    def test_the_office_of_a_class_that_is_not_sailed(self) -> None:
        """The office of a class is closed: a phone that doesn't record it, and holds none of its taps, says nothing of that.
        Any other says so, without the sign of a link that is in order."""
        ann = self.phone_of_both()
        bea = self.device("scorer", "Bea’s laptop")
        bea.click("#tab-office")
        bea.click("section[data-key=fleet] button.bad")
        bea.choose("yes")
        bea.until("!!document.querySelector('section[data-key=fleet] button.main')")

        def need(words: str, look: str) -> None:
            sign = "document.querySelector('#link')"
            ann.until(f"{sign}.textContent === '{words}' && {sign}.className.trim() === '{look}'")

        need("Office away", "link away")
        ann.run("document.querySelectorAll('.race')[1].click()")
        ann.choose("none")
        need("Live", "link")
        ann.tap("GBR101", "cup")
        self.settle(ann)
        kept = {"id": "1" * 32, "line": "FINISH 1 NED80", "state": "unsent", "at": 1_795_870_800_000, "class": "fleet", "agreed": []}
        ann.run(f"localStorage.setItem('tap:000000000000001.{'1' * 32}', {json.dumps(json.dumps(kept))})")
        ann.run("window.onbeforeunload = null")
        ann.reload()
        ann.until("document.querySelector('#link').className.trim() === 'link away'")
        self.need_no_faults()

    def test_one_page_for_both(self) -> None:
        ann = self.phone_of_both()
        ann.tap("GBR101")
        ann.tap("NED80")
        ann.tap("GBR33", "fleet")
        ann.tap("GBR33", "cup")
        self.settle(ann)
        self.assertEqual(self.journal("cup"), finishes("GBR101", "GBR33"))
        self.assertEqual(self.journal("fleet"), finishes("NED80", "GBR33"))
        # They are listed as they came.
        self.assertEqual(ann.texts(ROWS), ["GBR 101", "NED 80", "GBR 33", "GBR 33"])
        self.need_no_faults()


class Alike(WebTrial):
    """Two classes at one line whose names begin alike."""
    classes = {"cup": entries_of(BOATS[:3]), "fleet": entries_of(BOATS[:3])}
    titles = {"cup": "ILCA 6 Youth", "fleet": "ILCA 7 Youth"}

    def test_told_apart(self) -> None:
        """Each boat's class can be read, also of two with one sail."""
        ann = self.phone()
        for at in (0, 1):
            ann.until("document.querySelectorAll('.race').length === 2")
            ann.run(f"document.querySelectorAll('.race')[{at}].click()")
            ann.click("dialog [data-race='1']")
            ann.until("!document.querySelector('dialog')")
        self.assertEqual(sorted(ann.texts("#grid .boat[data-sail=GBR7] small")), ["GBR·6 Yo", "GBR·7 Yo"])
        self.need_no_faults()


@helpers.needs_times
class Timed(WebTrial):
    """A class by corrected time."""
    classes = {"cup": "Sail,Boat,TCF\nGBR 101,Kestrel,1.000\nGBR 7,Sea Pink,0.900\nNED 12,Windhover,1.250\n"}
    # No check comes to the end of a day.
    settings = {"handicap": "yes", "zone": zone_of_afternoon()}

    def start(self) -> None:
        os.makedirs(os.path.join(self.here, "cup", "times"), exist_ok=True)
        self.write(f"[times]\nsystem = tcf\nprogram = {helpers.TIMES}\n", "cup", "times", "rules.ini")
        super().start()

    def started(self, port: int = 0) -> Device:
        """A phone, after a start at midnight."""
        ann = self.phone(port=port)
        ann.click("#start")
        ann.type("dialog input", "00:00:00")
        ann.choose("at")
        ann.until("document.querySelector('#start').textContent === '00:00:00'")
        return ann

    def test_times_are_taken(self) -> None:
        """A start and three taps: the page shows elapsed times, the journal has them by the ratings, and a code
        takes a time away."""
        ann = self.started()
        for sail in ("GBR101", "GBR7", "NED12"):
            ann.tap(sail)
        self.settle(ann)
        sheet = [row.split(",") for row in self.text("cup", "times", "race-1.csv").splitlines()[1:]]
        elapsed = {row[0]: seconds_of(row[2]) for row in sheet}
        self.assertEqual({row[1] for row in sheet}, {"00:00:00"})
        # In thousandths, rounded half up
        ratings = {"GBR101": 1000, "GBR7": 900, "NED12": 1250}
        times = {sail: (elapsed[sail] * rating * 2 + 1000) // 2000 for sail, rating in ratings.items()}
        self.assertEqual(sorted(self.journal()), sorted(f"FINISH TIME 1 {sail} {times[sail]}" for sail in ratings))
        ann.until("document.querySelectorAll('#list li').length === 3")
        seconds = elapsed["GBR101"]
        self.assertEqual(ann.texts("#list li .end b")[0],
                         f"{seconds // 3600}:{seconds // 60 % 60:02}:{seconds % 60:02}")
        ann.click("#code")
        ann.tap("GBR7")
        ann.choose("RET")
        self.settle(ann)
        self.assertEqual(sorted(self.journal()[3:]), ["FINISH MARK 1 GBR7 RET", "FINISH STRIKE 1 GBR7"])
        self.assertEqual(ann.count("#level"), 0)
        self.need_no_faults()

    def test_a_boat_without_a_rating(self) -> None:
        """A tick is for what is in the journal. A boat without a rating is in the sheet only: the scorer's page says so, and
        why."""
        self.write(self.classes["cup"].replace("1.250", ""), "cup", "entries.csv")
        ann, sue = self.started(), self.device("scorer", "Sue")
        for sail in ("NED12", "GBR101"):
            ann.tap(sail)
            self.settle(ann)
        for sail, sign in (("NED12", "in the sheet only"), ("GBR101", "✓")):
            ann.until(f"document.querySelector('#list li[data-sail={sail}] .end i')?.textContent === '{sign}'")
        self.assertEqual([line.split()[3] for line in self.journal()], ["GBR101"])
        ann.run("document.querySelector('#list li[data-sail=NED12] button').click()")
        ann.until("!!document.querySelector('dialog[open] p')?.textContent")
        self.assertRegex(ann.text("dialog[open] p"), r"^in the sheet only: entries\.csv, row 4: NED\s12 has no rating")
        ann.choose("")
        sue.click("#late")
        for sure in ("", "yes"):
            sue.type("dialog input", "DEN 5")
            sue.choose("yes")
            sue.until("document.querySelector('dialog[open] h2')?.textContent === 'Enter her without a rating?'")
            sue.choose(sure)
        sue.until("document.querySelector('dialog[open]')?.textContent.includes('DEN 5')")
        sue.choose("yes")
        sue.until("document.querySelector('h3 + .missing').textContent.includes('DEN 5')")
        self.assertRegex(sue.text("#in-sheet"), r"^In the sheet, and not in the journal yet:\n\n"
                                                r"entries\.csv, row 4: NED\s12 has no rating\.\n\nNED 12 Windhover$")
        self.assertEqual(sue.texts("h3 + .missing button"), ["GBR 7 Sea Pink", "DEN 5"])
        self.need_no_faults()

    def test_a_start_that_is_odd(self) -> None:
        """A start that isn't typed whole is asked for again, and one that is still to come is asked about."""
        ann = self.phone()
        ann.click("#start")
        ann.until("!!document.querySelector('dialog[open] input')")
        ann.choose("at")
        ann.until("document.querySelector('dialog[open] .wrong')?.textContent.includes('11:05:00')")
        for answer, start in (("", "Start"), ("yes", "23:59:59")):
            ann.type("dialog[open] input", "23:59:59")
            ann.choose("at")
            ann.until("document.querySelector('dialog[open] h2')?.textContent.endsWith('Is the start at 23:59:59?')")
            ann.choose(answer)
            ann.until(f"!document.querySelector('dialog[open]') && document.querySelector('#start').textContent === '{start}'")
            if not answer:
                ann.click("#start")
        self.settle(ann)
        self.assertIn("GBR101,23:59:59,,", self.text("cup", "times", "race-1.csv"))
        self.need_no_faults()

    def known(self, phone: Device, sail: str) -> None:
        """Says on a phone who ?1 was."""
        phone.click("#list li.unread button")
        phone.choose("known")
        phone.tap(sail)

    def test_a_moment_comes_back(self) -> None:
        """The moment of ? is there again once the finish that says who she was is refused, as the scorer has given her one
        meanwhile, or dropped; and the page may be loaded again. Whoever she was then has it. Until then the phone holds it,
        and who scores is asked."""
        line, unread = self.line(), "document.querySelectorAll('#list li.unread').length"
        ann, sue = self.started(line.own), self.device("scorer", "Sue")
        ann.click("#unread")
        ann.until(f"{unread} === 1")
        moment = ann.texts("#list li.unread .end b")[0]
        self.settle(ann)
        line.cut()
        ann.until("document.querySelector('#link').dataset.state === 'away'")
        sue.type("#typed", "finish 1 7 00:00:01")
        sue.press("Send")
        sue.until("document.querySelectorAll('.order tbody tr').length === 1")
        self.known(ann, "GBR7")
        ann.until(f"{unread} === 0")
        line.mend()
        ann.until(f"document.querySelectorAll('#list li.refused').length === 1 && {unread} === 1")
        ann.reload()
        ann.until(f"{unread} === 1")
        self.assertEqual(ann.texts("#list li.unread .end b"), [moment])
        held = "fetch('/office/scorer/devices').then(said => said.json()).then(said => said.devices.map(one => one.unsent).sort().join())"
        helpers.until("what the phone holds", lambda: sue.run(held) == "0,1")
        sue.click("#score")
        sue.until("!!document.querySelector('dialog[open]')")
        self.assertIn("Ann’s phone (1): taps that the office hasn’t got yet.", sue.text("dialog"))
        sue.choose("yes")
        sue.until("document.querySelector('dialog[open]')?.textContent.includes('DNC')")
        sue.choose("yes")
        sue.until("!!document.querySelector('#unscore')")
        for answer, left in (("drop", 1), ("yes", 0)):
            self.known(ann, "NED12")
            ann.choose(answer)
            ann.until(f"!document.querySelector('dialog[open]') && {unread} === {left}")
        helpers.until("her finish", lambda: f"NED12,00:00:00,{moment}," in self.text("cup", "times", "race-1.csv"))
        helpers.until("nothing on the phone", lambda: sue.run(held) == "0,0")
        self.need_no_faults()

    def test_a_sail_that_was_not_read(self) -> None:
        """The moment of ? stays on the phone, also while the page is away, and is her finish once she is known. Undo of that
        asks again who she was; a ? that was nobody's, or is undone, leaves nothing."""
        ann = self.started()
        ann.tap("GBR101")
        ann.click("#unread")
        ann.until("document.querySelector('#list li.unread')?.innerText.includes('?1')")
        moment = ann.texts("#list li.unread .end b")[0]
        ann.another_second()
        ann.tap("NED12")
        self.settle(ann)
        ann.reload()
        ann.until("document.querySelectorAll('#list li').length === 3")
        self.assertEqual(ann.texts("#list li .sail"), ["GBR 101", "?1", "NED 12"])
        for after in ("undo", "rest"):
            ann.click("#list li.unread button")
            ann.choose("known")
            ann.tap("GBR7")
            self.settle(ann)
            ann.until("!document.querySelector('#list li.unread')")
            self.assertIn(f"GBR7,00:00:00,{moment},", self.text("cup", "times", "race-1.csv"))
            self.assertEqual(ann.texts("#list li .sail"), ["GBR 101", "GBR 7", "NED 12"])
            if after == "undo":
                ann.click("#undo")
                self.settle(ann)
                ann.until("document.querySelectorAll('#list li.unread').length === 1")
                self.assertIn("GBR7,00:00:00,,", self.text("cup", "times", "race-1.csv"))
                # A finger that bounces is none.
                ann.run("new Promise(done => setTimeout(done, 500))")
        ann.click("#unread")
        ann.until("document.querySelector('#list li.unread')?.innerText.includes('?2')")
        ann.click("#undo")
        ann.until("!document.querySelector('#list li.unread')")
        ann.run("new Promise(done => setTimeout(done, 500))")
        ann.click("#unread")
        ann.click("#list li.unread button")
        ann.choose("drop")
        ann.until("!document.querySelector('#list li.unread')")
        self.assertEqual(self.journal().count("FINISH STRIKE 1 GBR7"), 1)
        self.need_no_faults()

    def test_strike_is_undone(self) -> None:
        """Strike and Undo on the page leave the finish that she had, whatever the time is by then."""
        ann = self.started()
        for sail in ("GBR101", "NED12"):
            ann.tap(sail)
            self.settle(ann)
        held = self.text("cup", "times", "race-1.csv")
        for at, sail in enumerate(("GBR101", "NED12")):
            ann.run(f"document.querySelectorAll('#list li button')[{at}].click()")
            ann.choose("strike")
            self.settle(ann)
            self.assertNotEqual(self.text("cup", "times", "race-1.csv"), held)
            ann.another_second()
            ann.click("#undo")
            self.settle(ann)
            self.assertEqual(self.text("cup", "times", "race-1.csv"), held, sail)
            ann.until("document.querySelectorAll('#list li').length === 2")
        self.need_no_faults()


def seconds_of(clock: str) -> int:
    hours, minutes, seconds = map(int, clock.split(":"))
    return hours * 3600 + minutes * 60 + seconds


if __name__ == "__main__":
    unittest.main()
