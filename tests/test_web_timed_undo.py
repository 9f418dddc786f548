"""Undo in a class by corrected time takes away nothing that another device has recorded since."""
from __future__ import annotations

import unittest
from typing import Any

import helpers
from test_web_timed import Prepared, moment
from web_devices import Device, new_id


@helpers.needs_times
class Undone(Prepared):
    """Ann's tap is undone after somebody else has recorded something."""

    def finish(self, device: Device, clock: str, id: str = "", race: int = 1) -> Any:
        return device.tap(f"FINISH {race} GBR7", id, at=moment(clock))

    def undo(self, device: Device, id: str, **more: Any) -> tuple[int, Any]:
        status, said = device.tap("UNDO", undoes=id, **more)
        return status, said.get("question") or said.get("outcome") or said["said"][0]["kind"]

    def rows(self, race: int = 1) -> list[str]:
        return [row for row in self.text("cup", "times", f"race-{race}.csv").splitlines() if row.startswith("GBR7,")]

    def test_recorded_since(self) -> None:
        """The finish that another device, or the scorer, has put in place of hers stays in the sheet and in the journal:
        3,960 s and 4,200 s x 0.900."""
        ann, bob, scorer = self.device("finish"), self.device("finish", "Bob"), self.device("scorer", "Bea")
        ann.tap("START 1 14:00")
        for clock, others, time in (
                ("15:00:00", [(bob, "STRIKE 1 GBR7"), (bob, "FINISH 1 GBR7")], "FINISH TIME 1 GBR7 3564"),
                ("15:01:00", [(scorer, "FINISH 1 GBR7 15:10:00 15:01:00")], "SCORER TIME 1 GBR7 3780")):
            self.finish(ann, clock, id := new_id())
            for device, line in others:
                self.assertEqual(device.tap(line, at=moment("15:06:00"))[1].get("outcome"), "taken", line)
            before = self.rows()
            self.assertEqual(self.undo(ann, id), (422, "undo-later"), clock)
            self.assertEqual((self.rows(), self.journal()[-1]), (before, time))
            scorer.tap("STRIKE 1 GBR7")

    def test_strike_that_waited(self) -> None:
        """A strike that waited on a phone, while another device struck the boat and gave her another finish, is asked about:
        3,720 s x 0.900. One of a boat that the phone itself struck before isn't."""
        ann, bea, id = self.device("finish"), self.device("scorer", "Bea"), new_id()
        ann.tap("START 1 14:00")
        ann.tap("FINISH 1 GBR7", at=moment("15:01:00"))
        seen = ann.state()["entries"]
        bea.tap("STRIKE 1 GBR7")
        bea.tap("FINISH 1 GBR7", at=moment("15:02:00"))
        status, said = ann.tap("STRIKE 1 GBR7", id, at=moment("15:01:10"), seen=seen)
        self.assertEqual((status, said["question"]["kind"], self.journal()[-1]), (409, "other-since", "SCORER TIME 1 GBR7 3348"))
        self.assertEqual(said["question"]["values"], {"line": "STRIKE 1 GBR7", "other": "FINISH 1 GBR7"})
        for again in (False, True):
            done = ann.tap("STRIKE 1 GBR7", id, at=moment("15:01:10"), seen=seen, agreed=[said["question"]])[1]
            self.assertEqual((done["outcome"], done["again"]), ("taken", again))
        seen = ann.state()["entries"]
        for line in ("FINISH 1 GBR7", "STRIKE 1 GBR7") * 2:
            self.assertEqual(ann.tap(line, at=moment("15:03:00"), seen=seen)[0], 200, line)

    def test_strike_of_a_race_timed_again(self) -> None:
        """A strike that waited on a phone while the race got another start isn't asked about: nobody else has struck her."""
        ann, bea = self.device("finish"), self.device("scorer", "Bea")
        ann.tap("START 1 14:00")
        ann.tap("FINISH 1 GBR7", at=moment("15:01:00"))
        seen = ann.state()["entries"]
        since = {"kind": "start-since", "values": {"race": 1, "start": "14:00:00", "written": "14:01:00"}}
        self.assertEqual(bea.tap("START 1 14:01", was="14:00:00", agreed=[since])[1]["outcome"], "taken")
        self.assertEqual(self.journal()[-2:], ["SCORER STRIKE 1 GBR7", "SCORER TIME 1 GBR7 3240"])
        self.assertEqual(ann.tap("STRIKE 1 GBR7", at=moment("15:01:10"), seen=seen)[1].get("outcome"), "taken")

    def test_strike_of_a_row_put_right(self) -> None:
        """A strike that waited on a phone, while the scorer put the boat's time right in the sheet, is asked about, and takes
        nothing away: 5,400 s x 0.900."""
        ann, bea = self.device("finish"), self.device("scorer", "Bea")
        ann.tap("START 1 14:00")
        ann.tap("FINISH 1 GBR7", at=moment("15:01:00"))
        seen = ann.state()["entries"]
        self.write(self.text("cup", "times", "race-1.csv").replace("15:01:00", "15:30:00"), "cup", "times", "race-1.csv")
        self.assertEqual(bea.tap("TIMES 1")[1]["outcome"], "taken")
        before = self.rows(), self.journal()
        self.assertEqual(before[1][-2:], ["SCORER STRIKE 1 GBR7", "SCORER TIME 1 GBR7 4860"])
        status, said = ann.tap("STRIKE 1 GBR7", at=moment("15:01:10"), seen=seen)
        self.assertEqual((status, said.get("question", {}).get("values")),
                         (409, {"line": "STRIKE 1 GBR7", "other": "TIME 1 GBR7 4860"}))
        self.assertEqual((self.rows(), self.journal()), before)

    def test_waited_without_a_start(self) -> None:
        """In a race without a start, too, a strike or a code is asked about that waited on a phone while another device struck
        the boat and gave her another finish. One of a device that saw that one isn't."""
        ann, bob = self.device("finish"), self.device("finish", "Bob")
        ann.tap("FINISH 1 GBR7", at=moment("15:01:00"))
        seen = ann.state()["entries"]
        bob.tap("STRIKE 1 GBR7", at=moment("15:02:00"))
        bob.tap("FINISH 1 GBR7", at=moment("15:02:10"))
        for line in ("STRIKE 1 GBR7", "MARK 1 GBR7 RET"):
            status, said = ann.tap(line, at=moment("15:01:10"), seen=seen)
            self.assertEqual((status, said.get("question", {}).get("values")), (409, {"line": line, "other": "FINISH 1 GBR7"}))
        self.assertEqual(self.rows(), ["GBR7,,15:02:10,"])
        self.assertEqual(ann.tap("STRIKE 1 GBR7", at=moment("15:03:00"), seen=seen)[0], 200)

    def test_noted(self) -> None:
        """The same before there is a start, when no line is sent; and a finish that somebody has put into the sheet by
        hand."""
        ann, bob = self.device("finish"), self.device("finish", "Bob")
        self.finish(ann, "15:00:00", id := new_id(), 2)
        bob.tap("STRIKE 2 GBR7")
        self.finish(bob, "15:01:00", "", 2)
        self.assertEqual((self.undo(ann, id), self.rows(2)), ((422, "sheet-changed"), ["GBR7,,15:01:00,"]))
        self.finish(ann, "15:00:00", id := new_id(), 3)
        self.write("Sail,Start,Finish,Code\nGBR7,,15:02:00,\n", "cup", "times", "race-3.csv")
        self.assertEqual((self.undo(ann, id), self.rows(3)), ((422, "finish-changed"), ["GBR7,,15:02:00,"]))
        self.assertEqual(self.journal(), [])

    def test_tapped_too(self) -> None:
        """A finish that another device has tapped a second later, or within the second, is struck only after a question.
        That device took nothing away, so that its undo does nothing."""
        ann, bob = self.device("finish"), self.device("finish", "Bob")
        ann.tap("START 1 14:00")
        for clock, status in (("15:00:01", 422), ("15:00:00", 200)):
            self.finish(ann, "15:00:00", id := new_id())
            found, said = self.finish(bob, clock, second := new_id())
            self.assertEqual(found, status, said)
            # Nothing came of one that was refused.
            self.assertEqual(self.undo(bob, second), (422, "undo-nothing") if found == 200 else (200, "noted"))
            status, asked = self.undo(ann, id)
            self.assertEqual(status, 409, (clock, asked))
            self.assertEqual((asked["kind"], asked["values"]), ("tapped-too", {"sail": "GBR7", "by": "Bob"}))
            self.assertEqual((self.rows(), self.journal()[-1]), (["GBR7,14:00:00,15:00:00,"], "FINISH TIME 1 GBR7 3240"))
            self.assertEqual(self.undo(ann, id, agreed=[asked]), (200, "taken"))
            self.assertEqual((self.rows(), self.journal()[-1]), (["GBR7,14:00:00,,"], "FINISH STRIKE 1 GBR7"))

    def test_own(self) -> None:
        """What her own device has done since is in nobody's way, nor is another start, or another boat's finish."""
        ann, bob = self.device("finish"), self.device("finish", "Bob")
        ann.tap("START 1 14:00")
        self.finish(ann, "15:00:00", id := new_id())
        ann.tap("STRIKE 1 GBR7", struck := new_id())
        self.assertEqual(self.undo(ann, struck), (200, "taken"))
        since = {"kind": "start-since", "values": {"race": 1, "start": "14:00:00", "written": "14:05:00"}}
        bob.tap("START 1 14:05", agreed=[since])
        bob.tap("FINISH 1 NED12", at=moment("15:01:00"))
        bob.tap("MARK 1 FRA9 DNF")
        self.assertEqual((self.journal()[2:5], self.undo(ann, id)), (
            ["FINISH TIME 1 GBR7 3240", "FINISH STRIKE 1 GBR7", "FINISH TIME 1 GBR7 2970"], (200, "taken")))
        self.assertEqual((self.rows(), self.journal()[-1]), (["GBR7,14:05:00,,"], "FINISH STRIKE 1 GBR7"))

    def test_code_back(self) -> None:
        """A code that somebody has cleared doesn't come back over a finish that another device has recorded since."""
        ann, bob = self.device("finish"), self.device("finish", "Bob")
        ann.tap("START 1 14:00")
        ann.tap("MARK 1 GBR7 RET")
        ann.tap("CLEAR 1 GBR7", id := new_id())
        self.finish(bob, "15:00:00")
        self.assertEqual(self.undo(ann, id), (422, "undo-later"))
        self.assertEqual((self.rows(), self.journal()[-1]), (["GBR7,14:00:00,15:00:00,"], "FINISH TIME 1 GBR7 3240"))

    def test_clear_in_sheet(self) -> None:
        """A code that is in the sheet alone is cleared without a line; where there is none, the office says so."""
        ann = self.device("finish")
        self.write("Sail,Start,Finish,Code\nGBR7,14:00:00,15:00:00,RET\n", "cup", "times", "race-1.csv")
        self.assertEqual(ann.tap("CLEAR 1 GBR7")[1]["outcome"], "taken")
        self.assertEqual((self.rows(), self.journal()), (["GBR7,14:00:00,15:00:00,"], ["FINISH TIME 1 GBR7 3240"]))
        self.assertEqual(ann.tap("CLEAR 1 NED12")[1]["answer"], "NO 12")


if __name__ == "__main__":
    unittest.main()
