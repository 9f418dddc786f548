"""A race of which the sheet of times has something else than the journal isn't scored without a question."""
from __future__ import annotations

import os
import unittest
from typing import Any

import helpers
from raceoffice.series.folder import Folder
from raceoffice.session.dialogue import Question, Said
from raceoffice.session.session import Session
from test_web_timed import Prepared, moment
from web_devices import Device, new_id

SHEET = "Sail,Start,Finish,Code\nGBR101,14:00:00,15:00:00,\nGBR7,14:00:00,15:05:00,\n"
MISSING = {"kind": "score-missing", "values": {"race": 1, "sails": ["NED12", "FRA9"]}}


class Sent(Prepared):
    """GBR 101 has 3,600 s x 1.000, and GBR 7 3,900 s x 0.900 = 3,510 s."""

    def setUp(self) -> None:
        super().setUp()
        self.ann, self.scorer = self.device("finish"), self.device("scorer", "Bea")
        self.ann.tap("START 1 14:00")
        for sail, clock in (("GBR101", "15:00:00"), ("GBR7", "15:05:00")):
            self.ann.tap(f"FINISH 1 {sail}", at=moment(clock))
        self.assertEqual(self.journal(), ["FINISH TIME 1 GBR101 3600", "FINISH TIME 1 GBR7 3510"])

    def asked(self, *agreed: object) -> tuple[str, Any]:
        """What is asked before race 1 is scored."""
        status, said = self.scorer.tap("SCORE 1", agreed=list(agreed))
        self.assertEqual(status, 409, said)
        return said["question"]["kind"], said["question"]["values"]

    @staticmethod
    def yes(device: Device, line: str, **more: Any) -> None:
        """A tap of which all questions are answered by yes."""
        agreed: list[object] = []
        while (found := device.tap(line, agreed=agreed, **more))[0] == 409:
            agreed.append(found[1]["question"])

    def rate(self, before: str, after: str) -> None:
        """Puts another rating into the entry list by hand."""
        self.write(self.text("cup", "entries.csv").replace(before, after), "cup", "entries.csv")


@helpers.needs_times
class Scored(Sent):
    def test_another_rating(self) -> None:
        """A rating that is corrected in the entry list: 3,900 s x 0.800. A No changes nothing, also after a restart; once
        the sheet is sent nothing is asked about it."""
        self.rate("0.900", "0.800")
        journal = self.journal()
        for _ in range(2):
            self.assertEqual(self.asked(), ("score-sheet", {"race": 1, "sails": ["GBR7"]}))
            self.assertEqual(self.journal(), journal)
            self.close()
            self.serve()
            self.scorer = self.scorer.again()
        self.assertEqual(self.scorer.tap("TIMES 1")[1]["outcome"], "taken")
        self.assertEqual(self.journal()[2:], ["SCORER STRIKE 1 GBR7", "SCORER TIME 1 GBR7 3120"])
        self.assertEqual(self.asked()[0], "score-missing")

    def test_another_boat(self) -> None:
        """Race 1 counts, and somebody has said No to a boat's other rating and to another start. Neither goes with what is
        tapped of another boat, nor with its undo; what is open names both. Times sends them: 3,900 s x 0.800, and with the
        start at 14:10:00 2,281 s x 1.250 = 2,851.25 s."""
        self.ann.tap("FINISH 1 NED12", at=moment("14:48:01"))
        agreed = [self.asked()]
        self.assertEqual(self.scorer.tap("SCORE 1", agreed=[{"kind": kind, "values": values} for kind, values in agreed])[0], 200)
        self.rate("0.900", "0.800")
        sheet = self.scorer.ask("GET", "/office/scorer/sheet/cup/1")[1]
        given = {"race": 1, "tag": sheet["tag"], "rows": {"NED12": {"start": "14:10:00"}}}
        self.assertEqual(self.scorer.ask("POST", "/office/scorer/sheet/cup", given)[0], 200)
        self.assertEqual(self.scorer.tap("TIMES 1")[1]["question"]["kind"], "correction")
        journal, id, correction = self.journal(), "1" * 32, [{"kind": "correction", "values": {"race": 1}}]
        self.assertEqual(self.ann.tap("MARK 1 GBR101 RET", id, agreed=correction)[1]["outcome"], "taken")
        self.assertEqual(self.journal()[len(journal):], ["FINISH MARK 1 GBR101 RET", "FINISH STRIKE 1 GBR101"])
        self.assertEqual(self.ann.tap("UNDO", undoes=id, agreed=correction)[1]["outcome"], "taken")
        self.assertEqual(self.journal()[len(journal) + 2:], ["FINISH CLEAR 1 GBR101", "FINISH TIME 1 GBR101 3600"])
        self.assertIn(("sheet-unsent", {"race": 1, "sails": ["GBR7", "NED12"]}), self.open_points())
        before = len(self.journal())
        self.assertEqual(self.scorer.tap("TIMES 1", agreed=correction)[1]["outcome"], "taken")
        self.assertEqual(self.journal()[before:], ["SCORER STRIKE 1 GBR7", "SCORER TIME 1 GBR7 3120",
                                                  "SCORER STRIKE 1 NED12", "SCORER TIME 1 NED12 2851"])
        self.assertNotIn("sheet-unsent", [kind for kind, _ in self.open_points()])
        self.rate("0.800", "-1")
        self.assertIn("sheet-unread", [kind for kind, _ in self.open_points()])

    def test_undone_after_a_no(self) -> None:
        """Race 1 counts, and somebody has said No to a boat's other rating. An Undo of her code, or of her strike, gives her
        the time back that she had, 3,900 s x 0.900, and what is open names her; so it is if the web is killed and the Undo is
        sent again. What was sent since stays then. In a race that doesn't count she has the time of the sheet, 3,900 s x
        0.800."""
        kind, values = self.asked()
        self.assertEqual(self.scorer.tap("SCORE 1", agreed=[{"kind": kind, "values": values}])[0], 200)
        self.rate("0.900", "0.800")
        correction = [{"kind": "correction", "values": {"race": 1}}]
        taps: list[tuple[str, list[str]]] = [("MARK 1 GBR7 RET", ["FINISH CLEAR 1 GBR7"]), ("STRIKE 1 GBR7", [])]
        for line, back in taps:
            id, undo = new_id(), new_id()
            self.assertEqual(self.ann.tap(line, id, agreed=correction)[1]["outcome"], "taken")
            before = len(self.journal())
            for _ in range(2):
                self.assertEqual(self.ann.tap("UNDO", undo, undoes=id, agreed=correction)[1]["outcome"], "taken")
                self.assertEqual(self.journal()[before:], [*back, "FINISH TIME 1 GBR7 3510"], line)
                self.forget(undo)
            self.assertEqual([one for one in self.open_points() if one[0] == "sheet-unsent"],
                             [("sheet-unsent", {"race": 1, "sails": ["GBR7"]})])
        self.assertEqual(self.scorer.tap("TIMES 1", agreed=correction)[1]["outcome"], "taken")
        since = self.journal()
        self.assertEqual(since[-2:], ["SCORER STRIKE 1 GBR7", "SCORER TIME 1 GBR7 3120"])
        self.assertEqual(self.ann.tap("UNDO", undo, undoes=id, agreed=correction)[1]["outcome"], "taken")
        self.assertEqual(self.journal(), since, "what was sent since the undo stays")
        self.assertEqual(self.scorer.tap("UNSCORE 1", agreed=[{"kind": "unscore", "values": {"race": 1}}])[1]["outcome"], "taken")
        self.assertEqual(self.ann.tap("MARK 1 GBR7 RET", id := new_id())[1]["outcome"], "taken")
        self.assertEqual(self.ann.tap("UNDO", undoes=id)[1]["outcome"], "taken")
        self.assertEqual(self.journal()[-2:], ["FINISH CLEAR 1 GBR7", "FINISH TIME 1 GBR7 3120"])

    def forget(self, id: str) -> None:
        """The web is killed before it has noted the answer to a tap."""
        self.kill()
        path = ("cup", "office", "web.taps")
        lines = self.text(*path).splitlines(keepends=True)
        self.write("".join(line for line in lines if not (f'"{id}"' in line and '"answer"' in line)), *path)
        self.serve()
        self.ann, self.scorer = self.ann.again(), self.scorer.again()
        helpers.until("the office", lambda: not self.ann.state()["trouble"])

    def open_points(self) -> list[tuple[str, Any]]:
        """What is open before the results are final."""
        return [(one["kind"], one["values"]) for one in self.scorer.ask("GET", "/office/scorer/results/cup")[1]["open"]]

    def test_yes(self) -> None:
        """Whoever says yes scores what the journal has."""
        self.rate("0.900", "0.800")
        question = {"kind": "score-sheet", "values": {"race": 1, "sails": ["GBR7"]}}
        self.assertEqual(self.scorer.tap("SCORE 1", agreed=[question, MISSING])[1]["outcome"], "taken")
        self.assertEqual(self.journal()[2:], ["SCORER SCORE 1"])

    def test_start(self) -> None:
        """A start of one boat that was saved, and whose times weren't sent."""
        found = self.scorer.ask("GET", "/office/scorer/sheet/cup/1")[1]
        rows = {"GBR101": {"start": "14:10"}}
        self.assertEqual(self.scorer.ask("POST", "/office/scorer/sheet/cup", {"race": 1, "rows": rows, "tag": found["tag"]})[0], 200)
        self.assertEqual(self.asked(), ("score-sheet", {"race": 1, "sails": ["GBR101"]}))

    def test_code(self) -> None:
        """Codes that somebody has put into the sheet, of a boat with a time and of one without."""
        self.write(SHEET.replace("15:05:00,", ",RET") + "FRA9,14:00:00,,DNF\n", "cup", "times", "race-1.csv")
        self.assertEqual(self.asked(), ("score-sheet", {"race": 1, "sails": ["GBR7", "FRA9"]}))

    def test_fault(self) -> None:
        """Times that can't be worked out: why is asked, and a boat in a sheet that can't be read isn't left out silently."""
        self.rate("0.900", "half")
        fault = "entries.csv, row 3: the rating isn't one of the system."
        self.assertEqual(self.asked(), ("score-sheet-fault", {"race": 1, "fault": fault}))
        self.rate("half", "0.900")
        self.write(SHEET.replace("15:05:00", "15:05"), "cup", "times", "race-1.csv")
        self.assertEqual(self.asked()[0], "score-sheet-fault")

    def test_left_out(self) -> None:
        """A row of a boat that isn't entered is none that could be sent, and is said to be left out."""
        self.write(SHEET + "USA4,14:00:00,15:00:00,\n", "cup", "times", "race-1.csv")
        status, said = self.scorer.tap("SCORE 1")
        self.assertEqual((status, said["question"]["kind"]), (409, "score-missing"))
        self.assertEqual([one["values"] for one in said["said"] if one["what"] == "row-left-out"],
                         [{"sail": "USA4", "name": "times/race-1.csv"}])

    def test_abandoned(self) -> None:
        """A race that was abandoned and is sailed again is asked about by its new sheet alone."""
        self.yes(self.scorer, "ABANDON 1")
        self.ann.tap("START 1 16:00")
        # The day of these moments may be over when the race is abandoned.
        self.yes(self.ann, "FINISH 1 FRA9", at=moment("17:00:00"))
        self.assertEqual(self.asked()[0], "score-missing")
        self.rate("Plover,0.8", "Plover,0.9")
        self.assertEqual(self.asked(), ("score-sheet", {"race": 1, "sails": ["FRA9"]}))

    def test_in_sheet_alone(self) -> None:
        """A boat whose time is in the sheet alone isn't said to be unrecorded, but to be there."""
        self.write(SHEET + "NED12,14:00:00,14:48:01,\n", "cup", "times", "race-1.csv")
        status, said = self.scorer.tap("SCORE 1")
        self.assertEqual((status, said["question"]["values"]), (409, {"race": 1, "sails": ["NED12"]}))
        found = {one["what"]: one["values"] for one in said["said"]}
        self.assertEqual((found["race-missing"]["boats"], found["sheet-waits"]), (["FRA 9 Plover"], {"fault": "NED 12 Windhover"}))

    def test_saved_rating(self) -> None:
        """A rating that is saved on the scorer's page is sent for a race that doesn't count, and not for one that does:
        3,900 s x 0.800."""
        self.ann.tap("START 2 14:00")
        self.ann.tap("FINISH 2 GBR7", at=moment("15:05:00"))
        self.assertEqual(self.scorer.tap("SCORE 1", agreed=[MISSING])[1]["outcome"], "taken")
        rated = {"sail": "GBR 7", "rating": "0.800", "was": {"rating": "0.900"}}
        self.assertEqual(self.scorer.ask("POST", "/office/scorer/listed/cup", rated)[0], 200)
        self.assertEqual(self.journal()[4:], ["SCORER STRIKE 2 GBR7", "SCORER TIME 2 GBR7 3120"])


@helpers.needs_times
class Typed(Sent):
    def test_typed(self) -> None:
        """Somebody who types SCORE in a window is asked the same, and sees whose time is in the sheet alone."""
        self.write(SHEET + "NED12,14:00:00,14:48:01,\n", "cup", "times", "race-1.csv")
        self.rate("0.900", "0.800")
        said: list[Said] = []
        asked: list[Question] = []

        def no(question: Question) -> bool:
            asked.append(question)
            return False
        session = Session(Folder(os.path.join(self.here, "cup")), "SCORER", "Cleo", said.append, no)
        session.connect()
        self.addCleanup(session.disconnect)
        session.do("score 1")
        self.assertEqual([(one.kind, one.values) for one in asked], [("score-sheet", {"race": 1, "sails": ("GBR7", "NED12")})])
        self.assertEqual(asked[0].text, "What the sheet of times of race 1 has of GBR 7 Sea Pink and NED 12 Windhover isn't in "
                         "the journal. Score the race without it?")
        self.assertIn("   In the sheet, and not in the journal yet: NED 12 Windhover", [one.text for one in said])
        self.assertEqual(len(self.journal()), 2)


if __name__ == "__main__":
    unittest.main()
