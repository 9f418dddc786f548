"""The settings of a class that there is: what others would do, how they are saved, and when they hold."""
from __future__ import annotations

import os
import unittest
from typing import Any
from unittest import mock

import helpers
from raceoffice.errors import NotSent
from raceoffice.series.folder import Folder
from raceoffice.session.facts import Facts
from raceoffice.web import series_settings
from web_devices import SAILS, Web, new_id

# Two races of four boats out of twelve; the fourth retires in the first.
ORDERS = {1: SAILS[:3], 2: [SAILS[1], SAILS[0], *SAILS[2:4]]}


class Settings(Web):
    def setUp(self) -> None:
        super().setUp()
        self.scorer = self.device("scorer", "Bea")
        for race, order in ORDERS.items():
            for sail in order:
                self.scorer.tap(f"FINISH {race} {sail}")
            if race == 1:
                self.scorer.tap(f"MARK 1 {SAILS[3]} RET")
            missing = {"kind": "score-missing", "values": {"race": race, "sails": SAILS[4:]}}
            self.assertEqual(self.scorer.tap(f"SCORE {race}", agreed=[missing])[0], 200)
        self.before = self.journal()

    def ask(self, what: str, method: str = "POST", **values: object) -> tuple[int, Any]:
        return self.scorer.ask(method, f"/office/scorer/{what}/cup", values if method == "POST" else None)

    def kept(self) -> Any:
        status, found = self.ask("rules", "GET")
        self.assertEqual(status, 200)
        return found

    def save(self, **settings: str) -> tuple[int, Any]:
        return self.ask("save", settings=settings, tag=self.kept()["tag"])

    def ini(self) -> str:
        return self.text("cup", "series.ini")

    def test_rules(self) -> None:
        """One score of two races is excluded. Without that the third boat has 3 and 3 points, so 6 for 3; nothing
        is written, and the office goes on as it was."""
        text = self.ini()
        status, found = self.ask("rules", settings={"exclude": "none"})
        self.assertEqual((status, found["at_once"], found["at_opening"]), (200, [], ["exclude"]))
        third = next(move for move in found["moves"] if move["sail"] == SAILS[2])
        self.assertEqual((third["was"], third["rank"], third["net_before"], third["net"]), (3, 3, "3.0", "6.0"))
        self.assertEqual(found["settings"], {"exclude": "none", "absent": "a52", "scp": "", "handicap": False})
        # A boat that retires has 13 points of 12 boats (RRS A5.2), or 5 of the four that came (RRS A5.3); she was 4th.
        for absent, net in (("a52", "17.0"), ("a53", "9.0")):
            moves = self.ask("rules", settings={"exclude": "none", "absent": absent})[1]["moves"]
            self.assertEqual([move["net"] for move in moves if move["sail"] == SAILS[3]], [net])
        self.assertEqual(self.ask("rules", settings={"title": "Cup"})[1]["at_once"], ["title"])
        wrong = self.ask("rules", settings={"exclude": "8,4", "zone": "Nowhere/Else"})[1]
        self.assertEqual(wrong["keys"], ["zone", "exclude"])
        self.assertEqual([one["kind"] for one in wrong["wrong"]], ["setting-value", "setting-value"])
        # The journal has finishers in their order.
        self.assertIn("refused", self.ask("rules", settings={"handicap": "yes"})[1])
        self.assertEqual((self.ini(), self.journal()), (text, self.before))
        self.check_saved(text)
        self.check_opened_again()

    def check_saved(self, text: str) -> None:
        """What is saved changes its own lines alone; names hold at once, rules when the office is next opened."""
        status, found = self.save(exclude="none", title="Spring Cup", scp="3")
        self.assertEqual((status, found["waiting"]), (200, ["exclude", "scp"]), found)
        changed = [line for line in self.ini().splitlines() if line not in text.splitlines()]
        self.assertEqual(changed, ["title = Spring Cup", "exclude = none", "scp = 3"])
        self.assertEqual(len(self.ini().splitlines()), len(text.splitlines()))
        state = self.scorer.state()
        self.assertEqual((state["title"], state["settings"]["exclude"]), ("Spring Cup", "2"))
        self.assertIn("\tBea\t\t\tsettings\t", self.text("cup", "office.log"))
        self.assertEqual(found["opened"], {"exclude": "2", "absent": "a52", "scp": "", "handicap": False})

    def check_opened_again(self) -> None:
        """The office is opened again with what was saved. Whom that moves is asked while it is still open."""
        status, said = self.ask("reopen")
        self.assertEqual((status, said["question"]["kind"]), (409, "new-rules"))
        self.assertTrue(self.kept()["is_open"])
        finish = self.device("finish")
        self.assertEqual(finish.tap("FINISH 3 GBR7")[0], 200)
        status, done = self.ask("reopen", agreed=[said["question"]])
        self.assertEqual((status, done["open"]), (200, True), done)
        id = new_id()
        helpers.until("the office", lambda: finish.tap("FINISH 3 GBR101", id)[0] == 200)
        state = self.scorer.state()
        self.assertEqual((state["settings"]["exclude"], self.kept()["waiting"]), ("none", []))
        # Whom the last line moved is of the scores as they were.
        self.assertEqual(state["last"], {})
        row = next(row for row in state["standing"]["rows"] if row["sail"] == SAILS[2])
        self.assertEqual(row["net"], "6.0")
        self.assertEqual(self.journal(), [*self.before, "FINISH FINISH 3 GBR7", "FINISH FINISH 3 GBR101"])

    def test_not_saved(self) -> None:
        """Nothing is saved that is wrong, that the program refuses, or that isn't what was shown any more."""
        tag = self.kept()["tag"]
        text = self.ini()
        for given in ({"exclude": "8,4"}, {"title": ""}, {"title": "  "}, {"handicap": "yes"}, {"scp": "0"}, {"absent": "a54"},
                      {"title": "A\x00B"}, {"title": "T" * 201}, {"class": "C" * 200_000}):
            self.assertEqual(self.ask("save", settings=given, tag=tag)[0], 422, given)
        for odd in (None, "all", 7):
            self.assertEqual(self.ask("save", settings=odd, tag=tag)[0], 422, odd)
        # A value is one line: none can bring another with it.
        self.assertEqual(self.ask("save", settings={"club": "SC\n[office]\nprogram = /bin/sh"}, tag="")[0], 422)
        self.assertEqual(self.ini(), text)
        self.assertEqual(self.ask("save", settings={"club": "SC\n[office]\nprogram = /bin/sh"}, tag=tag)[0], 200)
        self.assertIn("club = SC [office] program = /bin/sh\n", self.ini())
        self.assertEqual(self.ini().count("program = "), 2)
        # Keys that aren't a series' settings don't get in, and the file has changed since the tag.
        self.assertEqual(self.ask("save", settings={"club": "X"}, tag=tag)[0], 422)
        self.assertEqual(self.save(program="/bin/sh", state="final")[0], 200)
        self.assertNotIn("state = final", self.ini())
        self.write(self.ini().replace("absent = a52", "absent = a5"), "cup", "series.ini")
        self.assertIn("line 12: absent is 'a5'", self.kept()["wrong"][0]["text"])

    def test_other_window(self) -> None:
        """An office that a window keeps stays open: it is closed there."""
        self.close()
        window = self.open()
        self.serve()
        self.scorer = self.scorer.again()
        self.assertEqual(self.save(exclude="none")[1]["is_kept_here"], False)
        self.assertEqual(self.ask("reopen")[0], 422)
        self.assertEqual(self.device("finish").tap("FINISH 3 GBR7")[0], 200)
        self.close()
        window.press()
        self.assertEqual(window.rest()[1], 0)


class Meanwhile(helpers.Series):
    def test_newer_file(self) -> None:
        """What somebody writes into series.ini while the program looks at other rules stays."""
        folder, text = Folder(os.path.join(self.here, "cup")), self.text("cup", "series.ini")
        newer = text.replace("Autumn Cup", "Winter Cup")

        def looked(*_: object) -> dict[str, object]:
            self.write(newer, "cup", "series.ini")
            return {"moves": [], "stale": []}

        given = {"settings": {"exclude": "none"}, "tag": series_settings.tag_of(text)}
        with mock.patch("raceoffice.web.preview.effect_of_rules", looked):
            self.assertRaises(NotSent, series_settings.save, folder, Facts(folder), given, "Bea")
        self.assertEqual(self.text("cup", "series.ini"), newer)


class Timed(Web):
    def test_corrected_times(self) -> None:
        """A class that comes to be one by corrected time gets the rules of its sheets, and keeps those it has."""
        scorer = self.device("scorer")

        def save(system: str) -> tuple[int, Any]:
            tag = scorer.ask("GET", "/office/scorer/rules/cup")[1]["tag"]
            return scorer.ask("POST", "/office/scorer/save/cup", {"settings": {"handicap": "yes"}, "system": system, "tag": tag})

        self.assertEqual(save("knots")[0], 422)
        status, found = save("py")
        self.assertEqual((status, found["system"], found["waiting"]), (200, "py", ["handicap"]), found)
        self.assertEqual(self.text("cup", "times", "rules.ini"), "[times]\nsystem = py\nrounding = half-up\n")
        self.assertEqual(save("tcf")[1]["system"], "py")

    def test_rules_left(self) -> None:
        """Rules of a class that isn't one by corrected time yet, as a crash or an editor has left them, get the system
        that is chosen then; all else in them stays."""
        scorer, rules = self.device("scorer"), os.path.join(self.here, "cup", "times")
        os.mkdir(rules)
        self.write("[times]\n# ours\nsystem = tcf\novernight = 2\n", rules, "rules.ini")

        def save(system: str) -> tuple[int, Any]:
            tag = scorer.ask("GET", "/office/scorer/rules/cup")[1]["tag"]
            return scorer.ask("POST", "/office/scorer/save/cup", {"settings": {"handicap": "yes"}, "system": system, "tag": tag})

        self.assertEqual(save("py")[0], 200)
        self.assertEqual(self.text(rules, "rules.ini"), "[times]\n# ours\nsystem = py\novernight = 2\n")
        self.assertEqual(save("tod")[0], 200)
        self.assertIn("system = py\n", self.text(rules, "rules.ini"))


if __name__ == "__main__":
    unittest.main()
