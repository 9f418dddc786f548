"""An undo of a tap of which its device doesn't know what came: it is taken back if it was taken, and never done if it wasn't."""
from __future__ import annotations

import json
import unittest

from web_devices import Web, new_id

TAPS = ("cup", "office", "web.taps")


class Undone(Web):
    """Undo by the tap's identity alone."""

    def crash(self, id: str, never_sent: str = "") -> None:
        """Makes the office what a crash of the web leaves before it has noted the answer to a tap. Another tap may have
        been begun, and its line never sent."""
        self.kill()
        noted = [json.loads(line) for line in self.text(*TAPS).splitlines()]
        begun = next(one for one in noted if one["id"] == id and "line" in one)
        kept = [one for one in noted if one["id"] != id or one is begun]
        if never_sent:
            kept.append({**begun, "id": never_sent, "line": "FINISH 1 NED12", "entries": begun["entries"] + 1})
        self.write("".join(json.dumps(one) + "\n" for one in kept), *TAPS)
        self.serve()

    def test_never_came(self) -> None:
        """A tap that the office has never had is never done, should it come after its undo; neither is an undo of that
        undo. The same undo again has the same answer."""
        ann, late, undo = self.device("finish"), new_id(), new_id()
        ann.tap("FINISH 1 GBR101")
        for again in (False, True):
            status, done = ann.tap("UNDO", undo, undoes=late)
            self.assertEqual((status, done["outcome"], done["again"], done["said"]), (200, "noted", again, []))
        for id in (late, new_id()):
            status, done = ann.tap("FINISH 1 GBR7", id)
            self.assertEqual((status, done["outcome"]), (200, "noted" if id == late else "taken"))
        for id in (late, undo, undo):
            self.assertEqual(ann.tap("UNDO", undoes=id)[1]["outcome"], "noted")
        self.assertEqual(self.journal(), ["FINISH FINISH 1 GBR101", "FINISH FINISH 1 GBR7"])

    def test_refused(self) -> None:
        """Nothing is taken back of a tap that was refused: she is in the order by another device."""
        ann, bea, second = self.device("finish"), self.device("finish", "Bea"), new_id()
        ann.tap("FINISH 1 GBR7")
        self.assertEqual(bea.tap("FINISH 1 GBR7", second)[1]["answer"], "NO 8")
        self.assertEqual(bea.tap("UNDO", undoes=second)[1]["outcome"], "noted")
        self.assertEqual(self.journal(), ["FINISH FINISH 1 GBR7"])

    def test_twice(self) -> None:
        """An undo takes back one tap, and the undo of that undo gives the boat her place again."""
        ann, taps, undo = self.device("finish"), [new_id(), new_id()], new_id()
        for id, sail in zip(taps, ("GBR7", "NED12")):
            ann.tap(f"FINISH 1 {sail}", id)
        self.assertEqual(ann.tap("UNDO", undo, undoes=taps[0])[1]["line"], "STRIKE 1 GBR7")
        self.assertEqual(ann.tap("UNDO", undoes=undo)[1]["line"], "BEFORE 1 GBR7 NED12")

    def test_struck_and_tapped_again(self) -> None:
        """A boat is struck and tapped again, and that is undone: the undo of the strike is refused, and nobody is asked first."""
        ann, struck, again = self.device("finish"), new_id(), new_id()
        for sail in ("GBR101", "GBR7", "NED12", "FRA9"):
            ann.tap(f"FINISH 1 {sail}")
        ann.tap("STRIKE 1 NED12", struck)
        ann.tap("FINISH 1 NED12", again)
        self.assertEqual(ann.tap("STRIKE 1 NED12", undoes=again)[1]["outcome"], "taken")
        before, (status, said) = self.journal(), ann.tap("BEFORE 1 NED12 FRA9", undoes=struck)
        self.assertEqual((status, [one["kind"] for one in said.get("said", [])]), (422, ["undo-later"]), said)
        self.assertEqual(self.journal(), before)

    def test_after_a_crash(self) -> None:
        """The web died before it had noted the answer, or before it sent the line: the journal says whether the line was
        taken, and the undo goes by that. What was never taken isn't taken afterwards."""
        ann, taken, never, place = self.device("finish"), new_id(), new_id(), new_id()
        ann.tap("FINISH 1 GBR7", taken)
        self.crash(taken, never)
        self.assertEqual(ann.again().tap("UNDO", undoes=taken)[1]["line"], "STRIKE 1 GBR7")
        for line, id, undoes in (("UNDO", new_id(), never), ("FINISH 1 NED12", never, "")):
            self.assertEqual(ann.again().tap(line, id, undoes=undoes)[1]["outcome"], "noted")
        self.assertEqual(self.journal(), ["FINISH FINISH 1 GBR7", "FINISH STRIKE 1 GBR7"])
        ann.again().tap("? 1", place)
        self.crash(place)
        self.assertEqual(ann.again().tap("UNDO", undoes=place)[1]["line"], "?1 1 NONE")
        self.assertEqual(ann.again().state()["races"].get("1", {}).get("unread", []), [])


if __name__ == "__main__":
    unittest.main()
