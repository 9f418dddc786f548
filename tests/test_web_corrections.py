"""Corrections of several lines: one request, of which all lines are sent, or none, or the scorer hears what is left."""
from __future__ import annotations

import json
import unittest
from typing import Any

from raceoffice.web.taps import part_id
from web_devices import Device, Web, new_id

MOVE = ["STRIKE 1 NED12", "BEFORE 1 NED12 GBR101"]
TAPS = ("cup", "office", "web.taps")


class Corrections(Web):
    def setUp(self) -> None:
        super().setUp()
        self.scorer = self.device("scorer", "Bea")
        for sail in ("GBR101", "GBR7", "NED12"):
            self.scorer.tap(f"FINISH 1 {sail}")

    def correct(self, lines: object, id: str = "", device: Device | None = None, **more: object) -> tuple[int, Any]:
        device = device or self.scorer
        values = {"id": id or new_id(), "at": 1, "agreed": [], "lines": lines, **more}
        return device.ask("POST", f"/office/{device.role}/correct/cup", values)

    def left(self) -> Any:
        return self.scorer.state()["unfinished"]

    def test_whole(self) -> None:
        """A boat is moved once, however often the request comes, and nothing is left of it."""
        id = new_id()
        for again in (False, True):
            status, found = self.correct(MOVE, id)
            self.assertEqual((status, [(one["outcome"], one["again"]) for one in found["done"]]), (200, [("taken", again)] * 2))
        self.assertEqual(self.journal()[3:], [f"SCORER {line}" for line in MOVE])
        self.assertEqual((self.left(), self.scorer.state()["races"]["1"]["order"]), ([], [["NED12"], ["GBR101"], ["GBR7"]]))

    def test_asked_first(self) -> None:
        """In a race that counts it is asked once, and before the first line."""
        status, said = self.scorer.tap("SCORE 1")
        self.assertEqual((status, self.scorer.tap("SCORE 1", agreed=[said["question"]])[0]), (409, 200))
        id = new_id()
        status, asked = self.correct(MOVE, id)
        self.assertEqual((status, asked["question"]["kind"], self.journal()[4:], self.left()), (409, "correction", [], []))
        self.assertEqual(self.correct(MOVE, id, agreed=[asked["question"]])[0], 200)
        self.assertEqual(self.journal()[4:], [f"SCORER {line}" for line in MOVE])

    def test_who_moved(self) -> None:
        """Whom a correction has moved is said of all its lines: a boat that is moved was never out of the order. If it moves
        nobody, that is as it was."""
        _, said = self.scorer.tap("SCORE 1")
        self.scorer.tap("SCORE 1", agreed=[said["question"]])
        for lines in (MOVE, ["STRIKE 1 GBR7", "FINISH 1 GBR7"]):
            id = new_id()
            asked = self.correct(lines, id)[1]["question"]
            self.assertEqual(self.correct(lines, id, agreed=[asked])[1]["outcome"], "taken")
            moves = self.scorer.state()["last"]["moves"]
            self.assertEqual(sorted((one["sail"], one["was"], one["rank"], one["net_before"], one["net"]) for one in moves), [
                ("GBR101", 1, 2, "1.0", "2.0"), ("GBR7", 2, 3, "2.0", "3.0"), ("NED12", 3, 1, "3.0", "1.0")], lines)

    def test_refused(self) -> None:
        """A line that the program would refuse keeps all from being sent: she is still where she was."""
        for lines in ([MOVE[0], "BEFORE 1 NED12 FRA9"], [MOVE[0], "TIE 1 NED12 USA4"]):
            status, said = self.correct(lines)
            self.assertEqual((status, said["said"][0]["kind"], self.left()), (422, "program-refuses", []), said)
        self.assertEqual(len(self.journal()), 3)

    def test_none(self) -> None:
        """What is no correction does nothing, nor does one of another role."""
        for lines in (None, "STRIKE 1 GBR7", [7], ["SCORE 1"], ["UNDO"], ["ROLE JURY"], [""], ["STRIKE 1 GBR7"] * 5000,
                      ["STRIKE 1 GBR7\nSCORE 1"]):
            self.assertEqual(self.correct(lines)[0], 400, lines)
        for role in ("finish", "jury"):
            self.assertEqual(self.correct(MOVE, device=self.device(role))[0], 404)
        self.assertEqual((len(self.journal()), self.left()), (3, []))

    def half_done(self, *more: dict[str, object]) -> str:
        """A move, after whose first line the web has died, and what else it has noted of it."""
        id = "0" * 32 if more else new_id()
        self.scorer.tap(MOVE[0], part_id(id, 0))
        self.kill()
        note = {"id": f"{id}/lines", "lines": [["SCORER", line] for line in MOVE]}
        noted = self.text(*TAPS).splitlines()
        self.write("\n".join([*noted[:-2], json.dumps(note), *noted[-2:], *map(json.dumps, more), ""]), *TAPS)
        self.serve()
        self.scorer = self.scorer.again()
        self.assertEqual(self.left(), [{"id": id, "lines": MOVE[1:]}])
        return id

    def test_completed(self) -> None:
        """What is left is sent by a button, and isn't left any more."""
        id = self.half_done()
        status, found = self.correct(MOVE[1:], id)
        self.assertEqual((status, [one["outcome"] for one in found["done"]], self.left()), (200, ["taken", "taken"], []))
        self.assertEqual(self.journal()[3:], [f"SCORER {line}" for line in MOVE])

    def test_left(self) -> None:
        """What is left isn't sent, nor shown, once somebody has said so: not even if the first request comes again."""
        id = self.half_done()
        self.assertEqual(self.correct([], id, leave=True)[1]["outcome"], "left")
        for lines in (MOVE, MOVE[1:]):
            found = self.correct(lines, id)[1]
            self.assertEqual((found["outcome"], len(found["done"]), found["left"]), ("left", 1, MOVE[1:]))
            self.assertEqual((self.left(), self.journal()[3:]), ([], [f"SCORER {MOVE[0]}"]))

    def test_left_unsent(self) -> None:
        """Nor is a line that was noted when the web died, and that never came to the office."""
        id = self.half_done({"id": part_id("0" * 32, 1), "role": "SCORER", "line": MOVE[1], "at": 1, "by": "Bea", "entries": 4})
        self.correct([], id, leave=True)
        self.assertEqual(self.correct(MOVE, id)[1]["outcome"], "left")
        self.assertEqual(self.journal()[3:], [f"SCORER {MOVE[0]}"])

    def test_completed_elsewhere(self) -> None:
        """What another window has sent meanwhile is done: who sends the rest, too, hears so."""
        id = self.half_done()
        for _ in range(2):
            found = self.correct(MOVE[1:], id)[1]
            self.assertEqual((found["outcome"], len(found["done"]), found["left"]), ("taken", 2, []))
        self.assertEqual(self.journal()[3:], [f"SCORER {line}" for line in MOVE])

    def test_refused_later(self) -> None:
        """The boat that she was to come ahead of was struck meanwhile: the office refuses what is left, which is shown until
        somebody leaves it."""
        id = self.half_done()
        self.scorer.tap("STRIKE 1 GBR101")
        for _ in range(2):
            found = self.correct(MOVE[1:], id)[1]
            self.assertEqual((found["outcome"], found["done"][-1]["outcome"], found["left"]), ("refused", "refused", MOVE[1:]))
            self.assertEqual(self.left(), [{"id": id, "lines": MOVE[1:]}])
        self.correct([], id, leave=True)
        self.assertEqual(self.left(), [])


if __name__ == "__main__":
    unittest.main()
