"""What the jury and the scorer do from their pages: previews, decisions, opening and closing an office."""
from __future__ import annotations

import json
import os
import re
import signal
import threading
import unittest
from typing import Any
from unittest import mock

import helpers
from raceoffice.decisions.points import Decided
from raceoffice.errors import NotSent
from raceoffice.series import settings
from raceoffice.series.folder import Folder
from raceoffice.session.facts import Facts
from raceoffice.web import preview
from raceoffice.web.taps import part_id
from web_devices import SAILS, Device, Web, new_id

TAPS = ("cup", "office", "web.taps")
ORDERS = {1: SAILS, 2: SAILS[6:] + SAILS[:6]}


class Jury(Web):
    def setUp(self) -> None:
        super().setUp()
        scorer, self.jury = self.device("scorer"), self.device("jury", "Eve")
        for race, order in ORDERS.items():
            for sail in order:
                scorer.tap(f"FINISH {race} {sail}")
            scorer.tap(f"SCORE {race}")
        self.before = self.journal()

    def ask(self, what: str, **values: object) -> tuple[int, Any]:
        return self.jury.ask("POST", f"/office/jury/{what}/cup", values)

    def test_preview(self) -> None:
        """A preview says what would be asked and who would move, and nothing is sent. GBR101 was 1st and 7th:
        disqualified in race 1 she scores 13 points there (12 boats and one), and each boat behind moves up."""
        status, shown = self.ask("preview", line="mark 1 101 dsq")
        self.assertEqual((status, shown["line"]), (200, "MARK 1 GBR101 DSQ"))
        self.assertEqual(shown["asked"], [{"kind": "correction", "values": {"race": 1},
                                           "text": "RACE 1 COUNTS ALREADY. Is this a correction?"}])
        self.assertEqual(shown["counts"], True)
        row = next(row for row in shown["rows"] if row["sail"] == "GBR101")
        self.assertEqual(row["scores"], [["13.0", "DSQ", True], ["7.0", "", False]])
        second = next(move for move in shown["moves"] if move["sail"] == SAILS[1])
        self.assertEqual((second["net_before"], second["net"]), ("2.0", "1.0"))
        self.assertIn("refused", self.ask("preview", line="clear 1 101")[1])
        self.assertEqual(self.ask("preview", line="finish 3 101")[0], 422)
        self.assertEqual(self.journal(), self.before)

    def test_decision(self) -> None:
        """A decision that no line has: 30% of the score for Did Not Finish (13) is 3.9, so 4 points more than
        the 2 of her place. It is kept and sent once, if it is still what was shown."""
        status, shown = self.ask("ruling", line=f"race 1 {SAILS[1]} PRP 30%")
        self.assertEqual((status, shown["lines"]), (200, [f"JURY REDRESS 1 {SAILS[1]} 6.0"]))
        self.assertFalse(os.path.exists(os.path.join(self.here, "cup", "decisions.txt")))
        asked = {"kind": "correction", "values": {"race": 1}}
        given = {"line": f"race 1 {SAILS[1]} PRP 30%", "lines": shown["lines"], "tag": shown["tag"], "id": new_id(),
                 "agreed": [asked]}
        self.assertEqual(self.ask("decide", **{**given, "lines": [f"JURY REDRESS 1 {SAILS[1]} 7.0"]})[0], 422)
        for again in (False, True):
            status, done = self.ask("decide", **given)
            self.assertEqual((status, [one["again"] for one in done["done"]]), (200, [again]))
        self.assertEqual(self.journal()[len(self.before):], [f"JURY REDRESS 1 {SAILS[1]} 6.0"])
        self.assertEqual(self.text("cup", "decisions.txt").strip(), f"race 1 {SAILS[1]} PRP 30%")
        shown = self.jury.ask("GET", "/office/jury/rulings/cup")[1]
        self.assertEqual([one["kept"] for one in shown], [True])
        for wrong in ("race 1 GBR101", "race 99 GBR101 NSC", "race 1 USA1 NSC", "", "race 1 GBR101 NSC\nrace 2"):
            self.assertEqual(self.ask("ruling", line=wrong)[0], 422, wrong)
        self.check_amended(asked)
        self.check_taken_out(asked)

    def decided(self, asked: object, **given: object) -> list[str]:
        """Sends a decision as it was shown; the lines that the journal has got by it."""
        before, shown = self.journal(), self.ask("ruling", **given)[1]
        status, done = self.ask("decide", lines=shown["lines"], tag=shown["tag"], id=new_id(), agreed=[asked], **given)
        self.assertEqual(status, 200, (shown, done))
        return self.journal()[len(before):]

    def check_amended(self, asked: object) -> None:
        """An amended decision takes the place of the first one: 2 points more than her 2, with a note that is one
        line whatever it has in it. A note alone takes no line."""
        sail, note = SAILS[1], "hearing 4\nrace 2 GBR7 NSC\u2028# x"
        self.assertEqual(self.decided(asked, line=f"race 1 {sail} DPI 2", note=note),
                         [f"JURY CLEAR 1 {sail}", f"JURY REDRESS 1 {sail} 4.0"])
        self.assertEqual(self.text("cup", "decisions.txt"), f"race 1 {sail} DPI 2  # hearing 4race 2 GBR7 NSC# x\n")
        self.assertEqual(self.decided(asked, line=f"race 1 {sail} DPI 2", note="hearing 5"), [])
        shown = self.jury.ask("GET", "/office/jury/rulings/cup")[1]
        self.assertEqual([(one["kind"], one["how"], one["note"], one["points"], one["kept"]) for one in shown],
                         [("DPI", "2", "hearing 5", "4.0", True)])

    def check_taken_out(self, asked: object) -> None:
        """A decision that is taken out goes from the scores, too; so does a DNF of NSC. A note of the jury's own
        stays. A row that can't be read goes from the file alone."""
        sail, rows = SAILS[1], f"# Friday\nrace 1 {SAILS[1]} DPI 2  # hearing 5\nrace 2 K12\n"
        self.write(rows, "cup", "decisions.txt")
        self.assertEqual(self.decided(asked, line="race 2 K12", out=True), [])
        # The boat behind moves up to 1st: 2 points more make 3.
        self.assertEqual(self.decided(asked, line=f"race 1 {SAILS[0]} NSC"), [
            f"JURY CLEAR 1 {sail}", f"JURY REDRESS 1 {sail} 3.0", f"SCORER MARK 1 {SAILS[0]} DNF"])
        taken = {"line": f"race 1 {sail} DPI 2  # hearing 5", "out": True}
        self.assertEqual(self.decided(asked, **taken), [f"JURY CLEAR 1 {sail}"])
        self.assertEqual(self.ask("ruling", **taken)[0], 422)
        self.assertEqual(self.decided(asked, line=f"race 1 {SAILS[0]} NSC", out=True), [f"JURY CLEAR 1 {SAILS[0]}"])
        self.assertEqual(self.text("cup", "decisions.txt"), "# Friday\n")
        race = self.jury.state()["races"]["1"]
        self.assertEqual((race["order"][0], race["codes"], race["redress"]), ([SAILS[0]], {}, {}))
        for row in ("", "race 1", "# friday"):
            self.assertEqual(self.ask("ruling", line=row, out=True)[0], 422, row)

    def sent(self, taps: list[str], **given: object) -> tuple[int, Any]:
        """Sends a decision as the page does: what is asked is answered by yes, and the same is sent again. `taps`
        gets the kinds of the questions."""
        shown, id, agreed = self.ask("ruling", **given)[1], new_id(), list[object]()
        while True:
            status, done = self.ask("decide", lines=shown["lines"], tag=shown["tag"], id=id, agreed=agreed, **given)
            if status != 409:
                return status, done
            taps.append(done["question"]["kind"])
            agreed.append(done["question"])

    def test_edited_meanwhile(self) -> None:
        """What somebody writes into decisions.txt with an editor stays: between what was shown and what is sent, and
        while the program works it out."""
        row = f"race 1 {SAILS[1]} DPI 2"
        shown = self.ask("ruling", line=row, note="hearing 4")[1]
        agreed = [{"kind": "correction", "values": {"race": 1}}]
        self.write("# Friday\n", "cup", "decisions.txt")
        status, said = self.ask("decide", line=row, note="hearing 4", id=new_id(), lines=shown["lines"], tag=shown["tag"],
                                agreed=agreed)
        self.assertEqual((status, "changed meanwhile" in said["words"], self.text("cup", "decisions.txt")),
                         (422, True, "# Friday\n"), said)
        folder = Folder(os.path.join(self.here, "cup"))
        facts = Facts(folder)
        facts.series.boats.extend(SAILS)

        def decided(*_: object) -> Decided:
            self.write("# Sunday\n", "cup", "decisions.txt")
            return Decided()

        with mock.patch("raceoffice.web.preview.decided", decided):
            found = preview.decide(folder, facts, row)
        self.assertRaises(NotSent, preview.keep_decisions, folder, found)
        self.assertEqual((self.text("cup", "decisions.txt"), self.journal()), ("# Sunday\n", self.before))

    def test_asked_between(self) -> None:
        """An amended decision gives back the penalty that its CLEAR takes: nobody is asked whether that goes. 20% of the score for Did Not Finish (13) is 3, so she has 5 points before it: 7
        with 2 more (DPI), 9 with 4 more."""
        sail = SAILS[1]
        correction = {"kind": "correction", "values": {"race": 1}}
        self.device("scorer").tap(f"PENALTY 1 {sail} ZFP", agreed=[correction])
        asked: list[str] = []
        self.sent(asked, line=f"race 1 {sail} DPI 2")
        self.assertEqual((asked, self.journal()[-1]), (["correction"], f"JURY REDRESS 1 {sail} 7.0"))
        self.sent(asked, line=f"race 1 {sail} DPI 4")
        self.assertEqual(asked[1:], ["correction"])
        self.assertEqual(self.journal()[-3:], [f"JURY CLEAR 1 {sail}", f"SCORER PENALTY 1 {sail} ZFP",
                                               f"JURY REDRESS 1 {sail} 9.0"])

    def test_asked_before(self) -> None:
        """A decision that isn't agreed to changes nothing. One that is taken out after a question goes from the
        scores, and not from decisions.txt alone."""
        sail, asked = SAILS[1], list[str]()
        given = {"line": f"race 1 {sail} DPI 2", "lines": [f"JURY REDRESS 1 {sail} 4.0"], "id": new_id()}
        tag = self.ask("ruling", line=given["line"])[1]["tag"]
        self.assertEqual(self.ask("decide", tag=tag, **given)[0], 409)
        self.assertFalse(os.path.exists(os.path.join(self.here, "cup", "decisions.txt")))
        self.sent(asked, line=f"race 1 {sail} DPI 2")
        self.assertEqual(self.sent(asked, line=f"race 1 {sail} DPI 2", out=True)[0], 200)
        self.assertEqual(asked, ["correction", "correction"])
        self.assertEqual(self.journal()[-1], f"JURY CLEAR 1 {sail}")
        self.assertEqual(self.text("cup", "decisions.txt"), "")

    def test_crash_between(self) -> None:
        """The lines of a decision are sent to the end after a crash between them: what its CLEAR took isn't
        lost."""
        sail, correction = SAILS[1], {"kind": "correction", "values": {"race": 1}}
        self.device("scorer").tap(f"PENALTY 1 {sail} ZFP", agreed=[correction])
        self.sent([], line=f"race 1 {sail} DPI 2")
        given = {"line": f"race 1 {sail} DPI 4"}
        shown, id = self.ask("ruling", **given)[1], new_id()
        lines, given = shown["lines"], {**given, "tag": shown["tag"]}
        before = self.journal()
        first = self.ask("decide", lines=lines, id=id, agreed=[], **given)[1]["question"]
        self.assertEqual((first["kind"], self.journal()), ("correction", before))
        several = self.jury.tap(f"CLEAR 1 {sail}", part_id(id, 0))[1]["question"]
        self.assertEqual(self.jury.tap(f"CLEAR 1 {sail}", part_id(id, 0), agreed=[several])[1]["outcome"], "taken")
        self.kill()
        self.kill_program()
        # It was noted, and kept, before that line.
        noted = self.text(*TAPS).splitlines()
        note = json.dumps({"id": id, "lines": [line.split(maxsplit=1) for line in lines]})
        self.write("\n".join([*noted[:-2], note, *noted[-2:], ""]), *TAPS)
        self.write(f"race 1 {sail} DPI 4\n", "cup", "decisions.txt")
        self.serve()
        helpers.until("the office", lambda: not self.jury.again().state()["trouble"])
        self.jury.link.close()
        for again in ([True, False, False], [True, True, True]):
            status, done = self.ask("decide", lines=lines, id=id, agreed=[correction], **given)
            self.assertEqual((status, [one["again"] for one in done["done"]]), (200, again), done)
        self.assertEqual(self.journal()[-3:], [f"JURY CLEAR 1 {sail}", f"SCORER PENALTY 1 {sail} ZFP",
                                               f"JURY REDRESS 1 {sail} 9.0"])


class Offices(Web):
    """The scorer closes and opens an office from a page."""

    def ask(self, device: Device, what: str, **values: object) -> tuple[int, Any]:
        return device.ask("POST", f"/office/scorer/{what}/cup", values)

    def test_closed_and_opened(self) -> None:
        """A closed office keeps taps waiting. It opens again; other rules are asked about, as values."""
        finish, scorer, id = self.device("finish"), self.device("scorer"), new_id()
        finish.tap("FINISH 1 GBR101")
        status, done = self.ask(scorer, "close")
        self.assertEqual((status, done["open"]), (200, False))
        self.assertIn("Closed.", "\n".join(one["text"] for one in done["said"]))
        self.assertEqual(finish.tap("FINISH 1 GBR7", id)[0], 503)
        self.assertEqual(scorer.state()["races"]["1"]["order"], [["GBR101"]])
        self.write(settings.filled_in({"title": "Autumn Cup", "program": helpers.PROGRAM, "zone": "UTC",
                                       "absent": "a53"}), "cup", "series.ini")
        status, said = self.ask(scorer, "open")
        self.assertEqual((status, said["question"]["kind"]), (409, "new-rules"))
        self.assertEqual(said["question"]["values"]["now"][1], "a53")
        self.assertEqual(self.ask(scorer, "open", agreed=[{**said["question"], "values": {}}])[0], 409)
        status, done = self.ask(scorer, "open", agreed=[said["question"]])
        self.assertEqual((status, done["open"]), (200, True), done)
        helpers.until("the office", lambda: finish.tap("FINISH 1 GBR7", id)[0] == 200)
        self.assertEqual(self.journal(), ["FINISH FINISH 1 GBR101", "FINISH FINISH 1 GBR7"])
        self.assertIn("RRS A5.3", scorer.state()["rules"])

    def test_quit_key(self) -> None:
        """Ctrl-\\ in its window doesn't leave the devices alone."""
        self.web.send_signal(signal.SIGQUIT)
        self.assertEqual(self.device("finish").tap("FINISH 1 GBR101")[1]["outcome"], "taken")
        self.close()
        self.assertEqual(self.web.returncode, 0)

    def test_window_keeps_it(self) -> None:
        """An office that a window keeps is joined, and stays open when the web ends."""
        self.close()
        window = self.open()
        self.serve()
        self.assertIn("It is joined.", self.said())
        finish = self.device("finish")
        self.assertEqual(finish.tap("FINISH 1 GBR101")[1]["outcome"], "taken")
        self.close()
        self.assertIn("The office stays open, as it was before.", self.said())
        self.assertEqual(self.web.returncode, 0)
        window.press()
        said, status = window.rest()
        self.assertEqual(status, 0, said)

    def test_window_asks(self) -> None:
        """A window that keeps the office asks before it closes that, as long as devices may write by a web that has joined it."""
        self.close()
        window = self.open()
        self.serve()
        finish = self.device("finish")
        self.assertEqual(finish.tap("FINISH 1 GBR101")[1]["outcome"], "taken")
        shown = os.path.join(self.here, "cup", "office", "windows", f"{self.web.pid}web")
        helpers.until("what is shown of devices", lambda: os.path.exists(shown))
        window.press()
        self.assertRegex(window.read(r"\[y/N\] $"), "1 window is still open: devices in browsers since [0-9:]+\\.")
        window.type("n")
        window.read("The office stays open")
        self.assertEqual(finish.tap("FINISH 1 GBR7")[1]["outcome"], "taken")
        self.assertEqual(finish.ask("POST", "/office/finish/leave", {})[0], 200)
        helpers.until("that no device is there", lambda: not os.path.exists(shown))
        window.press()
        said, status = window.rest()
        self.assertEqual(status, 0, said)

    def test_interrupted_while_a_window_types(self) -> None:
        """Ctrl-C in its window closes no office while somebody types in another; a second one does."""
        window = self.window("type", "cup", "--role", "finish", "--name", "Ben")
        window.read("> $")
        self.web.send_signal(signal.SIGINT)
        helpers.until("who may still write", lambda: re.search("These may still write: Ben since [0-9:]+\\.", self.said()))
        self.assertIsNone(self.web.poll())
        self.web.send_signal(signal.SIGINT)
        self.assertEqual(self.web.wait(helpers.PATIENCE), 0)

    def test_interrupted(self) -> None:
        """Ctrl-C that was meant to copy a link closes nothing while a device may write; a second one does."""
        finish = self.device("finish")
        self.web.send_signal(signal.SIGINT)
        helpers.until("who may still write", lambda: "These may still write: Ann (finish)." in self.said())
        self.assertEqual(finish.tap("FINISH 1 GBR101")[1]["outcome"], "taken")
        self.assertIsNone(self.web.poll())
        self.web.send_signal(signal.SIGINT)
        self.assertEqual(self.web.wait(helpers.PATIENCE), 0)
        self.assertFalse(os.path.exists(os.path.join(self.here, "cup", "office", "race.sock")))

    def test_interrupted_alone(self) -> None:
        """Once is enough if nobody may write."""
        self.web.send_signal(signal.SIGINT)
        self.assertEqual(self.web.wait(helpers.PATIENCE), 0)
        self.assertNotIn("These may still write", self.said())

    def test_interrupted_with_places(self) -> None:
        """Nor does it close an office with places that are kept, whoever may write: they are named first."""
        finish = self.device("finish")
        for line in ("FINISH 1 GBR101", "? 1", "FINISH 1 GBR7", "? 1", "FINISH 1 NED12", "? 2"):
            self.assertEqual(finish.tap(line)[0], 200, line)
        self.assertEqual(finish.ask("POST", "/office/finish/leave", {})[0], 200)
        self.web.send_signal(signal.SIGINT)
        helpers.until("the places", lambda: "Ctrl-C again within" in self.said() or self.web.poll() is not None)
        self.assertIn("cup: Kept without a sail: ?1 and ?2 in race 1, ?1 in race 2.", self.said())
        self.assertNotIn("These may still write", self.said())
        self.web.send_signal(signal.SIGINT)
        self.assertEqual(self.web.wait(helpers.PATIENCE), 0)

    def test_interrupted_while_it_closes(self) -> None:
        """Once is enough, too, while an office is being closed on its page: nobody may write any more."""
        self.device("finish").tap("FINISH 1 GBR101")
        scorer, program = self.device("scorer"), int(self.text("cup", "office", "pid").split()[0])
        helpers.freeze(program)
        closing = threading.Thread(target=scorer.ask, args=("POST", "/office/scorer/close/cup", {}), daemon=True)
        closing.start()
        try:
            helpers.until("the closing", lambda: os.path.exists(os.path.join(self.here, "cup", "office", "closing")))
            self.web.send_signal(signal.SIGINT)
            helpers.until("what Ctrl-C does", lambda: re.search("These may still write|Closing the office", self.said()))
        finally:
            os.kill(program, signal.SIGCONT)
        self.assertNotIn("These may still write", self.said())
        self.assertEqual(self.web.wait(helpers.PATIENCE), 0)
        closing.join(helpers.PATIENCE)

    def test_taken_over(self) -> None:
        """A program whose web was killed is taken over by the next, and closed in order at its end."""
        self.device("finish").tap("FINISH 1 GBR101")
        self.kill()
        self.serve()
        self.assertNotIn("It is joined.", self.said())
        self.close()
        self.assertIn("Closed. journal.txt has 13 entries", self.said())
        self.assertEqual(os.listdir(os.path.join(self.here, "cup", "office", "windows")), [])


if __name__ == "__main__":
    unittest.main()
