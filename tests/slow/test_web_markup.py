"""Markup in the names of boats, helms, series and devices, and in a note of the jury, is text on each page of the office and
on the board."""
from __future__ import annotations

import unittest

import web_devices
from devices import Device
from web_office import WebTrial

BOAT, HELM, TITLE, NAME, NOTE = (f"<img src={letter} onerror=alert(1)>" for letter in "bhtdn")
LIST = f"Sail,Boat,Helm\nGBR 101,{BOAT},{HELM}\nGBR 7,Sea Pink,J. Hale\nNED 12,Windhover,P. de Wit\n"


class Markup(WebTrial):
    """An office of which all names are attacks."""
    classes = {"cup": LIST}
    titles = {"cup": TITLE}

    def begin(self) -> Device:
        """A race that counts, a decision with a note, and the phone that tapped."""
        ann = self.phone(NAME)
        ann.tap("GBR7")
        self.settle(ann)
        scorer, jury = (web_devices.Device(self.port, role).come(self.links[role], role) for role in ("scorer", "jury"))
        for line in ("FINISH 1 GBR101", "FINISH 1 NED12", "SCORE 1"):
            self.assertEqual(scorer.tap(line)[1]["outcome"], "taken", line)
        given = {"line": "race 1 GBR101 DPI 1", "note": NOTE}
        shown = jury.ask("POST", "/office/jury/ruling/cup", given)[1]
        values = {**given, "lines": shown["lines"], "tag": shown["tag"], "id": web_devices.new_id(),
                  "agreed": [{"kind": "correction", "values": {"race": 1}}]}
        self.assertEqual(jury.ask("POST", "/office/jury/decide/cup", values)[0], 200)
        return ann

    def shows(self, device: Device, *texts: str) -> None:
        """Waits until a page shows all of these as text, and needs that none of them has become a part of it."""
        for text in texts:
            device.until(f"document.body.textContent.includes({text!r})")
        self.assertEqual(device.count("img, [onerror]"), 0)

    def test_names(self) -> None:
        ann = self.begin()
        ann.reload()
        ann.click("#list li[data-sail=GBR101] button")
        self.shows(ann, BOAT)
        scorer = self.device("scorer", "Bea’s laptop")
        self.shows(scorer, TITLE, BOAT, HELM)
        scorer.click(".order tr[data-sail=GBR101] th button")
        scorer.until("!!document.querySelector('dialog[open]')")
        self.shows(scorer, BOAT)
        scorer.choose("")
        for tab, text in (("links", NAME), ("office", TITLE), ("results", TITLE), ("settings", TITLE)):
            scorer.click(f"#tab-{tab}")
            scorer.until(f"document.querySelector('#tab-{tab}').getAttribute('aria-current') === 'page'")
            self.shows(scorer, text)
        jury = self.device("jury", "Protest room")
        self.shows(jury, TITLE, BOAT, NOTE)
        board = Device(self.chromium, 390, 844)
        for path in ("/", "/cup/"):
            board.open(self.address(path))
            self.shows(board, TITLE, *((BOAT, HELM) if path == "/cup/" else ()))
        self.need_no_faults()


if __name__ == "__main__":
    unittest.main()
