"""From a raced series to a final page by the scorer's page alone, in Chromium over the real program."""
from __future__ import annotations

import os
import unittest

import helpers
from devices import Device
from web_office import SAILS, WebTrial

STANDS = "document.querySelector('#stands')?.textContent === '{}'"


class Evening(WebTrial):
    """A scorer with a laptop, after the last race."""

    def declare(self, scorer: Device, state: str) -> str:
        """Declares a state, and says yes; what was asked."""
        scorer.click(f"#declare-{state}")
        scorer.until("!!document.querySelector('dialog[open]')")
        said = scorer.text("dialog")
        scorer.choose("yes")
        scorer.until(STANDS.format(state))
        return said

    def sail(self, ann: Device, scorer: Device) -> None:
        """A race that counts, and one of which a boat has finished."""
        for sail in SAILS:
            ann.tap(sail)
        self.settle(ann)
        scorer.until(f"document.querySelectorAll('.order tbody tr').length === {len(SAILS)}")
        scorer.click("#score")
        scorer.until("!!document.querySelector('#unscore')")
        ann.click(".race")
        ann.click("dialog [data-race='2']")
        ann.until("document.querySelector('.race b').textContent === '2'")
        ann.tap(SAILS[0])
        self.settle(ann)

    def test_to_a_final_page(self) -> None:
        """What is open is named and asked about; final results are shown to all, printed and saved; after a
        correction they are amended, with a reason."""
        ann, scorer = self.phone(), self.device("scorer", "Bea’s laptop")
        self.sail(ann, scorer)
        scorer.click("#tab-results")
        scorer.until(STANDS.format("provisional"))
        scorer.until("document.querySelectorAll('.open-points li').length === 1")
        self.assertEqual(scorer.text(".open-points"), "Race 2 doesn’t count. Recorded: 1 finished.")
        scorer.click("#declare-final")
        scorer.until("!!document.querySelector('dialog[open]')")
        self.assertIn("Race 2 doesn’t count. Recorded: 1 finished.", scorer.text("dialog"))
        scorer.choose("")
        scorer.until("!document.querySelector('dialog')")
        self.assertIn("state = provisional\n", self.text("cup", "series.ini"))
        ann.click("#undo")
        self.settle(ann)
        scorer.until("!document.querySelector('.open-points')")
        self.assertEqual(self.declare(scorer, "final").split("\n")[0], "Is that right?")
        self.assertIn("state = final\n", self.text("cup", "series.ini"))
        board = Device(self.chromium, 390, 844, 2, touch=True)
        board.open(self.address("/cup/"))
        board.until("document.body.innerText.includes('Final')")
        self.save(scorer)
        self.show_paper(scorer)
        self.amend(scorer)
        board.until("document.body.innerText.includes('GBR 7 was early')")
        self.need_no_faults()

    def save(self, scorer: Device) -> None:
        """The page is saved under the name of the class, and can be verified."""
        kept = os.path.join(self.here, "kept here")
        os.mkdir(kept)
        scorer.ask("Browser.setDownloadBehavior", behavior="allow", downloadPath=kept,
                   browserContextId=scorer.context)
        scorer.click("a[href='/office/scorer/export/html/cup']")
        path = os.path.join(kept, "cup-results.html")
        helpers.until("a file", lambda: os.path.exists(path))
        said, status = helpers.run("verify", path, "--program", helpers.PROGRAM, cwd=self.here)
        self.assertEqual((status, ": verified." in said), (0, True), said)

    def show_paper(self, scorer: Device) -> None:
        """Print opens the results in a window of their own, and has them printed there."""
        scorer.run("""(() => {
            const open = window.open.bind(window);
            window.open = address => {
                const shown = window.shown = open(address);
                return {get closed() { return shown.closed; }, get location() { return shown.location; },
                        get document() { return shown.document; }, print: () => { window.printed = shown.document.body.innerText; }};
            };
        })()""")
        # A browser opens a window for somebody who clicks, not for a script.
        scorer.ask("Runtime.evaluate", expression="document.querySelector(\"[data-print='/cup']\").click()", userGesture=True)
        scorer.until("!!window.printed")
        words = scorer.run("window.printed")
        self.assertIn("Autumn Cup", words)
        self.assertIn("GBR 101", words)
        scorer.run("window.shown.close()")

    def amend(self, scorer: Device) -> None:
        """A correction changes final results: they are amended, which needs a reason."""
        scorer.click("#tab-races")
        scorer.type("#typed", "penalty 1 gbr7 zfp")
        scorer.run("document.querySelector('form.typed').requestSubmit()")
        scorer.choose("yes")
        scorer.until("document.querySelector('#changed')?.textContent.includes('ZFP')")
        scorer.click("#tab-results")
        scorer.until("!!document.querySelector('#is-changed')")
        scorer.click("#declare-amended")
        scorer.until("document.querySelector('#alarm').textContent.includes('need a reason')")
        self.assertEqual(scorer.count("dialog"), 0)
        scorer.type("#reason", "GBR 7 was early")
        self.assertIn("Are the results amended?", self.declare(scorer, "amended"))
        scorer.until("!document.querySelector('#is-changed')")
        self.assertIn("reason = GBR 7 was early\n", self.text("cup", "series.ini"))

    def test_copies(self) -> None:
        """The journal and its copies are shown as they are."""
        scorer = self.device("scorer", "Bea’s laptop")
        scorer.click("#tab-results")
        scorer.until("document.querySelectorAll('.facts dd').length === 3")
        journal, dated, second = scorer.texts(".facts dd")
        self.assertEqual(journal, f"{len(SAILS)} entries, as the office keeps it")
        self.assertRegex(dated, rf"^1 copy, the newest of .*, with {len(SAILS)} entries$")
        self.assertRegex(second, "^None: ")


if __name__ == "__main__":
    unittest.main()
