"""What the scorer declares from a page: what is open before, each declaration once, and the results as files."""
from __future__ import annotations

import json
import os
import signal
import threading
import unittest
import urllib.request
from typing import Any

import helpers
from raceoffice.series import settings
from raceoffice.web.downloads import attached
from web_devices import SAILS, Device, Web, new_id

DECLARE, RESULTS = "/office/scorer/declare/cup", "/office/scorer/results/cup"
FORMS = {"html": ("--html",), "csv": ("--csv",), "semicolons": ("--semicolons", "--csv"), "json": ("--json",)}


class Results(Web):
    """A class, its scorer and its finish boat."""

    def setUp(self) -> None:
        super().setUp()
        self.scorer, self.finish = self.device("scorer", "Bea"), self.device("finish")

    def sail(self, race: int = 1) -> None:
        """A race in which all finish, which counts."""
        for sail in SAILS:
            self.finish.tap(f"FINISH {race} {sail}")
        self.scorer.tap(f"SCORE {race}")

    def shown(self) -> Any:
        status, found = self.scorer.again().ask("GET", RESULTS)
        self.assertEqual(status, 200, found)
        return found

    def declare(self, state: str, **values: object) -> tuple[int, Any]:
        given: dict[str, object] = {"id": new_id(), "state": state, "reason": "", "agreed": [], **values}
        return self.scorer.again().ask("POST", DECLARE, given)

    def declared(self, state: str, **values: object) -> tuple[int, Any]:
        """Declares a state, and says yes to what is asked."""
        status, asked = self.declare(state, **values)
        self.assertEqual((status, asked["question"]["kind"]), (409, "announce"), asked)
        return self.declare(state, agreed=[asked["question"]], **values)

    def notices(self) -> list[list[str]]:
        """What was announced by the log: name, state, and the mark of the table."""
        rows = [line.split("\t") for line in self.text("cup", "office.log").splitlines()]
        return [[row[2], row[5], row[6]] for row in rows if row[5] in settings.STATES]


class Declared(Results):
    def test_what_is_open(self) -> None:
        """What is open comes as kinds with values, and the command asks the same of the same."""
        self.sail()
        self.scorer.tap("ENTER USA4", agreed=[{"kind": "enter-unlisted", "values": {"sail": "USA4"}}])
        self.finish.tap("FINISH 2 GBR101")
        self.finish.tap("MARK 2 IRL5 OCS")
        self.finish.tap("PENALTY 2 GBR7 ZFP")
        # What she holds comes in codes, for which pages have words in each language.
        said = self.device("jury").tap("REDRESS 2 GBR101 ALL")[1]["said"]
        self.assertEqual([one["values"]["held"] for one in said if one["what"] == "held"], [["RDG ALL"]])
        self.finish.tap("? 2")
        found = self.shown()
        self.assertEqual((found["state"], found["since"], found["is_changed"]), ("provisional", 0, False))
        self.assertEqual([[point["kind"], point["values"]] for point in found["open"]], [
            ["boats-unnamed", {"sails": ["USA4"]}],
            ["race-unscored", {"race": 2, "finished": 1, "held": ["IRL5 OCS", "GBR7 ZFP", "GBR101 RDG ALL"]}],
            ["finishers-unknown", {"races": ["2"], "marks": ["?1"]}]])
        status, asked = self.declare("final")
        self.assertEqual((status, asked["open"]), (409, found["open"]))
        question = asked["question"]
        table = question["values"].pop("table")
        self.assertRegex(table, "^[0-9a-f]{12}$")
        self.assertEqual(question["values"], {"state": "final", "races": ["2"], "sails": ["USA4"], "marks": ["?1"],
                                              "faults": [], "decisions": []})
        window = self.window("final", "cup")
        self.assertEqual(window.read(r"\[y/N\] $"),
                         "".join(f"{point['text']}\n" for point in found["open"]) + f"{question['text']} [y/N] ")
        window.type("n")
        window.rest()
        self.assertEqual(self.notices(), [])

    def test_decision_out_of_date(self) -> None:
        """GBR 7 was 2nd, with 1.5 points more by a DPI: 3.5. NED 12 was ahead of her: 3rd, she scores 4.5. All pages that
        show the standing say that the journal still has 3.5, and so does what is open, until that is sent."""
        self.sail()
        jury, again = self.device("jury", "Eve"), [{"kind": "correction", "values": {"race": 1}}]

        def send() -> None:
            shown = jury.ask("POST", "/office/jury/ruling/cup", {"line": "race 1 GBR7 DPI 1.5"})[1]
            given = {"line": "race 1 GBR7 DPI 1.5", "lines": shown["lines"], "tag": shown["tag"], "id": new_id(), "agreed": again}
            self.assertEqual(jury.ask("POST", "/office/jury/decide/cup", given)[0], 200)

        def held(device: Device) -> list[tuple[str, str, bool]]:
            return [(one["points"], one["held"], one["kept"]) for one in device.state()["decisions"]]

        send()
        self.assertEqual((held(jury), self.shown()["open"]), ([("3.5", "3.5", True)], []))
        # Her cell says so, as on the board.
        for device in (jury, self.scorer):
            row = next(row for row in device.state()["standing"]["rows"] if row["sail"] == "GBR7")
            self.assertEqual(row["scores"][0][:2], ["3.5", "DPI"])
        for line in ("STRIKE 1 NED12", "BEFORE 1 NED12 GBR7"):
            self.scorer.tap(line, agreed=again)
        self.assertEqual([held(jury), held(self.scorer)], [[("4.5", "3.5", False)]] * 2)
        self.assertNotIn("decisions", self.finish.state())
        point, = self.shown()["open"]
        self.assertEqual((point["kind"], point["values"]), ("decision-stale", {
            "race": 1, "sail": "GBR7", "kind": "DPI", "how": "1.5", "points": "4.5", "held": "3.5", "why": ""}))
        self.assertEqual(self.declare("final")[1]["question"]["values"]["decisions"], ["1 GBR7 DPI 4.5 3.5"])
        window = self.window("final", "cup")
        self.assertEqual(window.read(r"\[y/N\] $"), (
            "decisions.txt, line 1: race 1 GBR7 DPI 1.5: 4.5 points by the scores as they are, and the journal has 3.5 points. "
            "`raceoffice decisions send cup` sends what is lacking.\nAre the results final all the same? [y/N] "))
        window.type("n")
        window.rest()
        send()
        self.assertEqual((held(self.scorer), self.shown()["open"]), ([("4.5", "4.5", True)], []))
        # What somebody changes with an editor is seen as well.
        self.write("race 1 GBR7 DPI 2\nrace 1 K12\n", "cup", "decisions.txt")
        helpers.until("the other decision", lambda: [one.get("points") for one in jury.state()["decisions"]] == ["5.0", None])
        self.assertEqual([point["kind"] for point in self.shown()["open"]], ["decision-stale", "decisions-unread"])

    def test_taps_unsent(self) -> None:
        """Taps that a device has said to hold are named before a race is scored, before results are final, and before the
        office closes; once they have come they aren't."""
        held: dict[str, object] = {"id": new_id(), "line": "FINISH 1 GBR7", "at": 1, "seen": 12}
        self.finish.ask("GET", "/office/finish/me", X_Unsent="2")
        self.finish.tap("FINISH 1 GBR101")
        status, said = self.scorer.tap("SCORE 1")
        self.assertEqual((status, said["question"]["kind"], said["question"]["values"]),
                         (409, "score-unsent", {"race": 1, "devices": ["Ann (2)"]}))
        self.assertIn("Ann (2)", said["question"]["text"])
        self.assertIn(["taps-unsent", {"devices": ["Ann (2)"]}], [[one["kind"], one["values"]] for one in self.shown()["open"]])
        status, said = self.declare("final")
        self.assertEqual((status, said["question"]["values"]["devices"], "all the same" in said["question"]["text"]),
                         (409, ["Ann (2)"], True))
        # A device counts the taps beside the one on its way, which waits if somebody is asked about it. What is
        # asked of the state while a tap is on its way says the same number.
        for values, beside, status, left in (({"line": "FINISH 1 GBR7"}, "1", 200, "Ann (1)"),
                                             ({"line": "FINISH 1 FRA9", "series": "0" * 32}, "0", 409, "Ann (1)"),
                                             ({"line": "SCORE 1"}, "0", 422, "")):
            tap = held | {"id": new_id()} | values
            self.assertEqual(self.finish.ask("POST", "/office/finish/line/cup", tap, X_Unsent=beside)[0], status)
            self.assertEqual([one["values"]["devices"] for one in self.shown()["open"] if one["kind"] == "taps-unsent"],
                             [[left]] if left else [])
        self.assertEqual(self.scorer.tap("SCORE 1")[1]["question"]["kind"], "score-missing")
        # Who scores knows her own taps. A page that keeps none holds nothing when somebody is asked there.
        tap = held | {"id": new_id(), "line": "SCORE 1"}
        self.assertEqual(self.scorer.ask("POST", "/office/scorer/line/cup", tap, X_Unsent="0")[0], 409)
        self.assertEqual([one for one in self.shown()["open"] if one["kind"] == "taps-unsent"], [])
        self.scorer.ask("GET", "/office/scorer/me", X_Unsent="1")
        self.assertEqual(self.scorer.tap("SCORE 1")[1]["question"]["kind"], "score-missing")
        self.web.send_signal(signal.SIGINT)
        helpers.until("who may still write", lambda: "Bea (scorer, 1 tap not sent yet)" in self.said())

    def test_asked_first(self) -> None:
        """Nothing is declared before somebody has agreed, to just what is open and to just this table."""
        self.sail()
        for state in settings.STATES:
            status, asked = self.declare(state, reason="A reason")
            self.assertEqual((status, asked["question"]["values"]["state"]), (409, state))
        status, asked = self.declare("final")
        agreed = [asked["question"]]
        self.finish.tap("FINISH 2 GBR7")
        self.assertEqual(self.declare("final", agreed=agreed)[0], 409)
        agreed = [self.declare("final")[1]["question"]]
        self.device("jury").tap("MARK 1 GBR101 DSQ", agreed=[{"kind": "correction", "values": {"race": 1}}])
        self.assertEqual(self.declare("final", agreed=agreed)[0], 409)
        self.assertEqual(self.declare("amended", agreed=[self.declare("final")[1]["question"]], reason="Why")[0], 409)
        self.assertEqual((self.notices(), self.shown()["state"]), ([], "provisional"))
        self.assertIn("state = provisional\n", self.text("cup", "series.ini"))

    def test_once(self) -> None:
        """A request that comes eight times at once, and again after a crash, is one declaration."""
        self.sail()
        given = {"id": new_id(), "agreed": [self.declare("final")[1]["question"]]}
        answers: list[Any] = []
        some = [threading.Thread(target=lambda: answers.append(self.declare("final", **given))) for _ in range(8)]
        for one in some:
            one.start()
        for one in some:
            one.join()
        self.assertEqual([status for status, _ in answers], [200] * 8, answers)
        self.assertEqual(sorted(said["again"] for _, said in answers), [False] + [True] * 7)
        self.assertEqual([row[:2] for row in self.notices()], [["Bea", "final"]])
        self.kill()
        self.serve()
        status, said = self.declare("final", **given)
        self.assertEqual((status, said), (200, {"outcome": "taken", "state": "final", "again": True}))
        self.assertEqual(len(self.notices()), 1)
        # The same identity doesn't make a line of it, and a line's no declaration.
        self.assertEqual(self.declare("final", id=self.tapped("FINISH 2 GBR7"), agreed=[])[0], 400)

    def tapped(self, line: str) -> str:
        """The identity of a tap that was taken."""
        id = new_id()
        self.assertEqual(self.finish.again().tap(line, id)[0], 200)
        return id

    def test_a_web_that_dies(self) -> None:
        """A declaration that was begun is made by the same request again, unless the log has it already."""
        self.sail()
        asked = self.declare("final")[1]["question"]
        lost, made = new_id(), new_id()
        self.kill()
        for id in (lost, made):
            self.note({"id": id, "role": "SCORER", "line": "FINAL", "at": 1, "by": "Bea", "entries": 0, "window": 1})
        self.serve()
        status, said = self.declare("final", id=lost, agreed=[asked])
        self.assertEqual((status, said["again"]), (200, False))
        # Now the log has a declaration since the other was begun, as if that had been the one.
        status, said = self.declare("final", id=made, agreed=[asked])
        self.assertEqual((status, said["again"], len(self.notices())), (200, True, 1))
        self.kill()
        other = new_id()
        self.note({"id": other, "role": "SCORER", "line": "FINAL", "at": 1, "by": "Ben", "entries": 0, "window": 1})
        self.serve()
        asked = self.declare("final")[1]["question"]
        self.assertEqual(self.declare("final", id=other, agreed=[asked])[1]["again"], False)
        self.assertEqual(len(self.notices()), 2)

    def test_stale_page(self) -> None:
        """What somebody agreed to before another declared something is asked again: no state, and no reason, is
        lost by that."""
        self.sail()
        stale = [self.declare("final")[1]["question"]]
        self.assertEqual(self.declared("amended", reason="Redress for NED 12")[0], 200)
        status, asked = self.declare("final", agreed=stale)
        found = self.shown()
        self.assertEqual((status, found["state"], found["reason"]), (409, "amended", "Redress for NED 12"))
        self.assertEqual([row[1] for row in self.notices()], ["amended"])
        self.assertEqual(self.declare("final", agreed=[asked["question"]])[0], 200)

    def note(self, values: dict[str, object]) -> None:
        """Adds a line to the register, as a web that died just then has left it."""
        with open(os.path.join(self.here, "cup", "office", "web.taps"), "a", encoding="ascii") as file:
            file.write(f"{json.dumps(values)}\n")

    def test_final_and_amended(self) -> None:
        """Final results that have changed are said to be; amended ones say why, and provisional takes it back."""
        self.sail()
        self.assertEqual(self.declared("final")[0], 200)
        found = self.shown()
        self.assertEqual((found["state"], found["is_changed"]), ("final", False))
        self.assertGreater(found["since"], 1_600_000_000_000)
        helpers.until("the board", lambda: '<span class="word final">Final</span>' in self.board())
        # Who corrects a race is asked with what the results are by now, also after an older yes.
        jury, older = self.device("jury"), [{"kind": "correction", "values": {"race": 1}}]
        status, said = jury.tap("MARK 1 GBR101 DSQ", agreed=older)
        self.assertEqual((status, said["question"]["values"]), (409, {"race": 1, "declared": "final"}))
        self.assertEqual(said["question"]["text"], "THE RESULTS ARE FINAL. RACE 1 COUNTS ALREADY. Is this a correction?")
        self.assertEqual(jury.tap("MARK 1 GBR101 DSQ", agreed=[said["question"]])[1]["outcome"], "taken")
        helpers.until("a change", lambda: self.shown()["is_changed"])
        for reason, words in [("", "amended results need a reason"), (" \n ", "amended results need a reason"),
                              ("x" * 201, "more than 200 letters")]:
            status, said = self.declare("amended", reason=reason)
            self.assertEqual((status, words in said["words"]), (422, True), said)
        self.assertEqual(self.declared("amended", reason="GBR 101 is\n disqualified")[0], 200)
        found = self.shown()
        self.assertEqual((found["state"], found["reason"], found["is_changed"]),
                         ("amended", "GBR 101 is disqualified", False))
        status, said = jury.tap("CLEAR 1 GBR101")
        self.assertEqual((status, said["question"]["text"]),
                         (409, "THE RESULTS HAVE BEEN AMENDED. RACE 1 COUNTS ALREADY. Is this a correction?"))
        self.assertEqual(self.declared("provisional")[0], 200)
        found = self.shown()
        self.assertEqual((found["state"], found["reason"], found["since"] > 0), ("provisional", "", True))
        self.assertEqual([row[:2] for row in self.notices()],
                         [["Bea", "final"], ["Bea", "amended"], ["Bea", "provisional"]])
        # Those that the command announces are marked by the same table.
        self.assertEqual(helpers.run("final", "cup", cwd=self.here)[1], 0)
        self.assertFalse(self.shown()["is_changed"])

    def test_declared_is_asked(self) -> None:
        """Once results are declared, a further race that counts, one that doesn't any more, and a boat that is entered are asked
        about first, as each correction is."""
        self.sail()
        for sail in SAILS:
            self.finish.tap(f"FINISH 2 {sail}")
        self.assertEqual(self.declared("final")[0], 200)
        for line, more in (("SCORE 2", ""), ("UNSCORE 1", "unscore"), ("ENTER USA 4", "enter-unlisted")):
            agreed = list[Any]()
            for kind in filter(None, ("declared", more)):
                status, said = self.scorer.tap(line, agreed=agreed)
                self.assertEqual((status, said["question"]["kind"]), (409, kind), line)
                agreed.append(said["question"])
            self.assertEqual(agreed[0]["values"], {"declared": "final"})
            self.assertEqual(agreed[0]["text"], "THE RESULTS ARE FINAL. Is this a correction?")
            self.assertEqual(self.scorer.tap(line, agreed=agreed)[1]["outcome"], "taken")
        status, said = self.scorer.tap("ABANDON 2")
        self.assertEqual((status, said["question"]["kind"]), (409, "declared"))
        status, said = self.scorer.tap("ABANDON 2", agreed=[said["question"]])
        self.assertEqual((status, said["question"]["kind"]), (409, "abandon"))
        self.assertEqual(self.scorer.tap("ABANDON 3")[0], 200)
        self.assertEqual(self.declared("amended", reason="Race 1 was a practice race")[0], 200)
        status, said = self.scorer.tap("SCORE 1")
        self.assertEqual((status, said["question"]["text"]), (409, "THE RESULTS HAVE BEEN AMENDED. Is this a correction?"))

    def board(self) -> str:
        return str(self.scorer.again().ask("GET", "/cup/")[1])

    def test_closed(self) -> None:
        """With the office closed, as in the evening, results are declared by journal.txt."""
        self.sail()
        self.scorer.ask("POST", "/office/scorer/close/cup", {})
        found = self.shown()
        self.assertEqual((found["is_open"], found["open"], found["journal"]),
                         (False, [], {"entries": 25, "differs": []}))
        self.assertEqual(self.declared("final")[0], 200)
        self.assertEqual((self.shown()["state"], self.shown()["is_changed"]), ("final", False))


class Attacked(Results):
    """Each address by those who mayn't use it, and with what isn't taken there."""

    def test_attacks(self) -> None:
        self.sail()
        agreed = [self.declare("final")[1]["question"]]
        tap = {"id": new_id(), "state": "final", "reason": "", "agreed": agreed}
        for wanted, fields in [(403, {"Origin": "http://evil.example"}), (403, {"Origin": ""}),
                               (403, {"Sec_Fetch_Site": "cross-site"}), (403, {"X_Token": "0" * 32}),
                               (403, {"X_Token": self.finish.token}), (401, {"Cookie": ""}),
                               (401, {"Cookie": self.finish.cookie}), (421, {"Host": "evil.example"}),
                               (400, {"Content_Type": "text/plain"})]:
            self.assertEqual(self.scorer.again().ask("POST", DECLARE, tap, **fields)[0], wanted, fields)
        for role, device in (("finish", self.finish), ("jury", self.device("jury"))):
            for method, path in (("POST", "declare/cup"), ("GET", "results/cup"), ("GET", "export/html/cup"),
                                 ("GET", "export/page"), ("GET", "export/csv/cup")):
                body = tap if method == "POST" else None
                self.assertEqual(device.again().ask(method, f"/office/{role}/{path}", body)[0], 404, path)
                self.assertEqual(device.again().ask(method, f"/office/scorer/{path}", body)[0], 401, path)
        for method, path, status in (
                ("GET", DECLARE, 404), ("POST", RESULTS, 404), ("POST", "/office/scorer/export/html/cup", 404),
                ("GET", "/office/scorer/results/none", 404), ("GET", "/office/scorer/results/..%2fcup", 404),
                ("GET", "/office/scorer/export/html/none", 404), ("GET", "/office/scorer/export/html/cup/cup", 404),
                ("GET", "/office/scorer/export/html/..%2fcup", 404), ("GET", "/office/scorer/export/ini/cup", 404),
                ("GET", "/office/scorer/export/..%2fhtml/cup", 404), ("GET", "/office/scorer/export", 404)):
            self.assertEqual(self.scorer.again().ask(method, path, tap if method == "POST" else None)[0], status, path)
        odd: list[dict[str, object]] = [
            {"state": "scored"}, {"state": ["final"]}, {"state": "FINAL"}, {"state": "final\nreason = x"},
            {"state": None}, {"id": "x"}, {"id": 7}, {"agreed": "yes"}, {"agreed": ["yes"]}]
        for values in odd:
            self.assertEqual(self.scorer.again().ask("POST", DECLARE, tap | values)[0], 400, values)
        self.assertEqual((self.notices(), self.shown()["state"]), ([], "provisional"))

    def test_reason(self) -> None:
        """A reason is one value of series.ini, whatever is in it, and never HTML of the board."""
        self.sail()
        reason = "<script>alert(1)</script>\n[notice]\nstate = provisional\r\x00\u202e = \u2028 x"
        status, said = self.declared("amended", reason=reason)
        self.assertEqual(status, 200, said)
        held = settings.read(os.path.join(self.here, "cup"))
        self.assertEqual(held.state, "amended")
        self.assertEqual(self.text("cup", "series.ini").count("[notice]\n"), 1)
        status, page = self.scorer.again().ask("GET", "/office/scorer/export/page/cup")
        self.assertEqual((status, "<script>alert" in page, "&lt;script&gt;alert" in page), (200, False, True))


class Files(Results):
    """The results as files."""
    words = ("cup", "fleet")

    def prepare(self) -> None:
        self.make("fleet", "Sail,Boat\nGBR 33,Fulmar\nNED 80,Sterna\n", title="Autumn Cup", **{"class": "Folkboats"})

    def download(self, path: str) -> tuple[bytes, dict[str, str]]:
        """What comes of an address, byte by byte, and its fields."""
        link = self.scorer.again().link
        link.request("GET", f"/office/scorer/export/{path}", headers={
            "Host": self.scorer.host, "Cookie": self.scorer.cookie, "Accept-Encoding": "identity"})
        answer = link.getresponse()
        self.assertEqual(answer.status, 200, path)
        return answer.read(), {name.lower(): value for name, value in answer.getheaders()}

    def test_as_the_command(self) -> None:
        """Each file is what raceoffice export writes, of one class or of all, and has a right name."""
        self.sail()
        self.device("jury").tap("REDRESS 1 GBR7 3.5", agreed=[{"kind": "correction", "values": {"race": 1}}])
        self.declared("final", reason="Wind: 4")
        for folders, ending, name, forms in ((["cup"], "/cup", "cup-results", [*FORMS]),
                                             (["cup", "fleet"], "", "results", ["html", "csv"])):
            for form in forms:
                options = FORMS[form]
                said, status = helpers.run("export", *folders, *options, "there", cwd=self.here)
                self.assertEqual(status, 0, said)
                data, fields = self.download(f"{form}{ending}")
                with open(os.path.join(self.here, "there"), "rb") as file:
                    self.assertEqual(data, file.read(), form)
                end = {"semicolons": "csv"}.get(form, form)
                self.assertIn(f'attachment; filename="{name}.{end}"', fields["content-disposition"])
        data, fields = self.download("text/cup")
        self.assertEqual(data.decode(), helpers.run("export", "cup", "--text", cwd=self.here)[0])
        self.assertIn('filename="cup-results.txt"', fields["content-disposition"])

    def test_verified(self) -> None:
        """The page that was saved can be verified."""
        self.sail()
        with open(os.path.join(self.here, "saved.html"), "wb") as file:
            file.write(self.download("html/cup")[0])
        said, status = helpers.run("verify", "saved.html", "--program", helpers.PROGRAM, cwd=self.here)
        self.assertEqual((status, ": verified." in said), (0, True), said)

    def test_rules_that_wait(self) -> None:
        """Results go by the rules in force, in every form: those that are saved come with the next opening of the office."""
        for race in (1, 2):
            self.sail(race)
        nets = {row["sail"]: row["net"] for row in self.scorer.state()["standing"]["rows"]}
        rules = self.scorer.ask("GET", "/office/scorer/rules/cup")[1]
        saved = {"settings": {**rules["settings"], "exclude": "none", "absent": "a53"}, "tag": rules["tag"]}
        self.assertEqual(self.scorer.ask("POST", "/office/scorer/save/cup", saved)[1]["waiting"], ["exclude", "absent"])
        # Whoever declares them sees that others wait.
        waiting = {"keys": ["exclude", "absent"], "saved": ["exclude = none", "absent = a53"]}
        self.assertIn(["rules-waiting", waiting], [[point["kind"], point["values"]] for point in self.shown()["open"]])
        question = self.declare("final")[1]["question"]
        self.assertEqual((question["values"]["rules"], question["text"]),
                         (waiting["saved"], "Are the results final all the same?"))
        self.assertEqual(self.declared("final")[0], 200)
        self.check_in_force(nets)
        # A program that dies is started again with them, and nobody is asked.
        self.kill_program()
        helpers.until("the end of the office", lambda: not self.shown()["is_open"])
        helpers.until("the office", lambda: self.shown()["is_open"])
        self.check_in_force(nets)
        # They stay when the office is closed, for the board and for all others.
        self.assertEqual(self.scorer.again().ask("POST", "/office/scorer/close/cup", {})[0], 200)
        helpers.until("the end of the office", lambda: not self.shown()["is_open"])
        self.check_in_force(nets)
        self.close()
        self.check_in_force(nets, is_served=False)
        # The terminal's Enter is No: in the morning the office is open, and the new rules wait.
        self.serve()
        self.scorer = self.scorer.again()
        self.assertIn("cup: The office goes on with the old rules.", self.said())
        helpers.until("the office", lambda: self.shown()["is_open"])
        self.check_in_force(nets)

    def check_in_force(self, nets: dict[str, str], is_served: bool = True) -> None:
        """Results, board and page go by the rules of the last opening. The page of the board can be verified."""
        said, status = helpers.run("export", "cup", "--text", cwd=self.here)
        self.assertEqual((status, "RRS A5.2" in said, "have changed since" in said), (0, True, False), said)
        self.assertIn("series.ini has other rules than the last opening", said)
        if not is_served:
            return
        scorer = self.scorer.again()
        self.assertEqual(scorer.ask("GET", "/office/scorer/rules/cup")[1]["waiting"], ["exclude", "absent"])
        self.assertEqual((scorer.state()["settings"]["absent"], self.shown()["is_changed"]), ("a52", False))
        for form in ("page/cup", "text/cup", "csv/cup", "json"):
            data = self.download(form)[0].decode()
            self.assertEqual(("have changed since" in data, "RRS A5.3" in data), (False, False), form)
        self.assertEqual({row["sail"]: row["net"] for row in json.loads(self.download("json")[0])[0]["boats"]}, nets)
        with urllib.request.urlopen(f"http://127.0.0.1:{self.port}/cup/") as answer:
            page = answer.read().decode()
        self.assertEqual(("have changed since" in page, "RRS A5.3" in page, "RRS A5.2" in page), (False, False, True))
        self.write(page, "board.html")
        said, status = helpers.run("verify", "board.html", "--program", helpers.PROGRAM, cwd=self.here)
        self.assertEqual((status, ": verified." in said), (0, True), said)

    def test_opened_with_the_rules_before(self) -> None:
        """A No to other rules opens the office with those in force. If nobody has answered, it is asked again."""
        self.sail()
        rules = self.scorer.ask("GET", "/office/scorer/rules/cup")[1]
        saved = {"settings": {**rules["settings"], "exclude": "none"}, "tag": rules["tag"]}
        self.assertEqual(self.scorer.ask("POST", "/office/scorer/save/cup", saved)[0], 200)
        self.assertEqual(self.scorer.ask("POST", "/office/scorer/close/cup", {})[0], 200)
        for _ in range(2):
            status, asked = self.scorer.again().ask("POST", "/office/scorer/open/cup", {"agreed": []})
            self.assertEqual((status, asked["question"]["kind"]), (409, "new-rules"))
            self.assertEqual(self.scorer.again().state()["settings"]["exclude"], "2")
        status, done = self.scorer.ask("POST", "/office/scorer/open/cup", {"agreed": [], "denied": [asked["question"]]})
        self.assertEqual((status, done["open"]), (200, True), done)
        self.assertIn("office-rules-kept", [one.get("kind") for one in done["said"]])
        helpers.until("the office", lambda: self.shown()["is_open"])
        self.assertEqual(self.scorer.again().state()["settings"]["exclude"], "2")
        self.assertEqual(self.scorer.ask("GET", "/office/scorer/rules/cup")[1]["waiting"], ["exclude"])
        # A boat who is taken out is asked about by the rules in force, and the office comes back with them.
        shown = self.scorer.ask("POST", "/office/scorer/remove/cup", {"sail": SAILS[-1], "agreed": []})[1]
        self.assertEqual(shown["question"]["kind"], "remove-boat")
        taken = self.scorer.ask("POST", "/office/scorer/remove/cup", {"sail": SAILS[-1], "agreed": [shown["question"]]})[1]
        self.assertTrue(taken["open"], taken)
        helpers.until("the office", lambda: self.shown()["is_open"])
        self.assertEqual(self.scorer.again().state()["settings"]["exclude"], "2")

    def test_page(self) -> None:
        """The page to print is shown, not saved; it runs the results' own script alone, and is in no frame."""
        self.sail()
        data, fields = self.download("page/cup")
        self.assertEqual(data, self.download("html/cup")[0])
        self.assertNotIn("content-disposition", fields)
        self.assertEqual(fields["content-type"], "text/html; charset=utf-8")
        policy = fields["content-security-policy"]
        self.assertRegex(policy, r"script-src 'sha256-[^']+';")
        self.assertIn("default-src 'none'", policy)
        self.assertIn("frame-ancestors 'none'", policy)
        self.assertEqual(fields["x-frame-options"], "DENY")
        self.assertEqual(fields["cache-control"], "no-store")

    def test_names(self) -> None:
        """A folder's name may have any signs; none of them parts a field."""
        self.assertEqual(attached('a"; b\u00e4\r\n-results.csv'),
                         "attachment; filename=\"a__ b___-results.csv\"; "
                         "filename*=UTF-8''a%22%3B%20b%C3%A4%0D%0A-results.csv")


class Copies(Results):
    """The journal and its copies."""

    def prepare(self) -> None:
        self.stick = os.path.join(self.here, "stick")
        os.mkdir(self.stick)
        self.write(settings.filled_in({"title": "Autumn Cup", "program": helpers.PROGRAM, "copy": self.stick}),
                   "cup", "series.ini")

    def test_copies(self) -> None:
        """The dated copies, the second folder and its disk, and a journal that somebody has changed."""
        self.sail()
        helpers.until("the second copy", lambda: self.shown()["copies"]["second"]["entries"] == 25)
        copies = self.shown()["copies"]
        # The one of the opening, before the first race: twelve boats.
        self.assertEqual((copies["dated"]["count"], copies["dated"]["entries"], copies["dated"]["fault"]), (1, 12, []))
        self.assertRegex(copies["dated"]["name"], r"^kept/[0-9-]+Z\.txt$")
        second = copies["second"]
        written = int(os.stat(os.path.join(self.stick, "cup-journal.txt")).st_mtime * 1000)
        self.assertEqual((second["path"], second["fault"], second["is_same_disk"], second["at"]),
                         (self.stick, [], True, written))
        self.assertEqual(self.shown()["journal"], {"entries": 25, "differs": []})
        os.rename(self.stick, f"{self.stick}-out")
        helpers.until("a stick that is out", lambda: "isn't there" in texts_of(self.shown()["copies"]["second"]["fault"]))
        journal = self.text("cup", "journal.txt")
        self.write(journal.replace("FINISH 1 GBR7\n", "FINISH 1 GBR8\n"), "cup", "journal.txt")
        helpers.until("a changed journal", lambda: self.shown()["journal"]["differs"])
        # A kind with its values, of which each page makes words of its own.
        differs, = self.shown()["journal"]["differs"]
        self.assertEqual(differs["values"]["said"][0]["kind"], "journal-changed")

    def test_no_second_folder(self) -> None:
        """A copy that holds other lines is no copy, and a class may have none."""
        self.close()
        self.write("1 1 SCORER ENTER USA1\n", "stick", "cup-journal.txt")
        self.serve()
        helpers.until("a fault", lambda: "left as it is" in texts_of(self.shown()["copies"]["second"]["fault"]))
        self.close()
        self.write(settings.filled_in({"title": "Autumn Cup", "program": helpers.PROGRAM}), "cup", "series.ini")
        self.serve()
        self.assertIsNone(self.shown()["copies"]["second"])


def texts_of(remarks: list[dict[str, str]]) -> str:
    return " ".join(one["text"] for one in remarks)


if __name__ == "__main__":
    unittest.main()
