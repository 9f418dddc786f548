"""The jury's page in a class by order of finishing and in one by corrected time: a decision that is taken out leaves all as
it was, and nothing that the jury does takes anything out of a sheet of times but a code that it clears."""
from __future__ import annotations

import itertools
import os
import time
import unittest
from typing import Any

import helpers
from raceoffice.series import settings
from test_web_timed import moment
from web_devices import Device, Web, new_id

# In the order in which they finish; GBR8 and GBR9 don't.
SAILS = [f"GBR{number}" for number in range(1, 10)]
# What each boat holds in race 1 beside her place.
HELD = [("FINISH", "PENALTY 1 GBR2 ZFP"), ("FINISH", "MARK 1 GBR3 OCS"), ("SCORER", "MARK 1 GBR4 DNF"),
        ("JURY", "REDRESS 1 GBR5 1.5"), ("JURY", "MARK 1 GBR6 DSQ"), ("FINISH", "MARK 1 GBR7 RET"),
        ("FINISH", "MARK 1 GBR8 DNF")]
# A decision, and what it is amended to. With RULINGS in the environment there are more.
AMENDED = [("TLE last+2", "DPI 2"), ("NSC", "AVG 2")]
if "RULINGS" in os.environ:
    AMENDED += [("DPI 2", "TLE last+2"), ("TLE 5", "NSC"), ("AVG 2", "TLE 5"), ("DUTY all", "PRP"), ("SCP 10%", "T1")]


@helpers.needs_times
class Rulings(Web):
    words = ("cup", "hcap")

    def prepare(self) -> None:
        self.write("Sail,TCF\n" + "".join(f"{sail},1.000\n" for sail in SAILS), "cup", "entries.csv")
        for name, handicap in (("cup", "no"), ("hcap", "yes")):
            os.makedirs(os.path.join(self.here, name, "times"), exist_ok=True)
            self.write(self.text("cup", "entries.csv"), name, "entries.csv")
            self.write(settings.filled_in({"title": "Autumn Cup", "program": helpers.PROGRAM, "zone": "UTC", "absent": "a53",
                                           "handicap": handicap}), name, "series.ini")
        self.write(f"[times]\nsystem = tcf\nprogram = {helpers.TIMES}\n", "hcap", "times", "rules.ini")

    def sail_races(self) -> None:
        """Two races of either class, which count."""
        self.devices = {role: self.device(role.lower(), role) for role in ("FINISH", "JURY", "SCORER")}
        for race in (1, 2):
            self.yes("FINISH", f"START {race} 14:00", "hcap")
            for at, sail in enumerate(SAILS[:7]):
                for name in self.words:
                    self.yes("FINISH", f"FINISH {race} {sail}", name, at=moment(f"15:0{at}:00"))
        for role, line in HELD:
            for name in self.words:
                self.yes(role, line, name)
        for name in self.words:
            self.yes("SCORER", "SCORE 1", name)
            self.yes("SCORER", "SCORE 2", name)

    def yes(self, role: str, line: str, name: str, **more: Any) -> Any:
        """The answer to a tap of which all questions are answered by yes."""
        agreed: list[Any] = []
        while (found := self.devices[role].tap(line, name=name, agreed=agreed, **more))[0] in (409, 429):
            if found[0] == 409:
                agreed.append(found[1]["question"])
            else:
                time.sleep(0.1)
        return found[1]

    def ruled(self, name: str, line: str, out: bool = False, reopen: bool = False) -> list[str]:
        """Decides as the page does; the lines that were taken. `refused` if it can't be given."""
        jury, given, agreed = self.devices["JURY"], {"line": line, "out": out, "reopen": reopen}, list[Any]()
        shown = self.in_time(jury, f"/office/jury/ruling/{name}", given)[1]
        if shown.get("why") or "refused" in shown or "said" in shown:
            return ["refused"]
        before, id = self.journal(name), new_id()
        while True:
            status, done = self.in_time(jury, f"/office/jury/decide/{name}", {
                **given, "lines": shown["lines"], "tag": shown["tag"], "id": id, "agreed": agreed})
            if status != 409:
                break
            agreed.append(done["question"])
        self.assertEqual((status, [one for one in done.get("done", []) if one["outcome"] != "taken"]), (200, []), (line, done))
        return self.journal(name)[len(before):]

    def in_time(self, jury: Device, path: str, values: dict[str, Any]) -> tuple[int, Any]:
        """The answer, once the device hasn't asked too often."""
        while (found := jury.ask("POST", path, values))[0] == 429:
            time.sleep(0.2)
        return found

    def shown(self, name: str) -> Any:
        """The standing, and what is recorded of race 1."""
        state = self.devices["SCORER"].state(name)
        return {"standing": state["standing"], **{key: state["races"]["1"][key] for key in ("order", "codes", "penalties",
                                                                                         "redress")}}

    def sheet(self) -> list[str]:
        return self.text("hcap", "times", "race-1.csv").splitlines()

    def test_taken_out(self) -> None:
        """Each decision is kept, amended and taken out of a boat that has a place, one with a penalty, a code, a code and
        redress in points, or nothing. The scores are those of the other class all the time, and at the end as before."""
        self.sail_races()
        before, sheet = {name: self.shown(name) for name in self.words}, self.sheet()
        for sail, (first, second) in itertools.product(("GBR1", "GBR2", "GBR3", "GBR4", "GBR5", "GBR6", "GBR9"), AMENDED):
            for kind in (first, second):
                lines = [self.ruled(name, f"race 1 {sail} {kind}") for name in self.words]
                scores = [self.shown(name)["standing"]["rows"] for name in self.words]
                self.assertEqual((lines[0], scores[0]), (lines[1], scores[1]), (sail, kind))
                # DSQ is cleared first, and OCS isn't a boat that is too late.
                is_barred = sail == "GBR6" or sail == "GBR3" and kind[:3] in ("TLE", "NSC")
                self.assertEqual(lines[0] == ["refused"], is_barred, (sail, kind))
            for name in self.words:
                if sail != "GBR6":
                    self.ruled(name, self.text(name, "decisions.txt").strip(), True)
                self.assertEqual(self.shown(name), before[name], (name, sail, first, second))
            self.assertEqual(self.sheet(), sheet)
        self.assertEqual(self.yes("SCORER", "TIMES 1", "hcap")["outcome"], "noted")

    def test_who_moved(self) -> None:
        """Whom a decision has moved is said of all its lines: the redress that it replaces was never gone."""
        self.sail_races()
        for points in (2, 3):
            before = self.ranks()
            lines = self.ruled("cup", f"race 2 GBR4 DPI {points}")
            after, last = self.ranks(), self.devices["SCORER"].state("cup")["last"]
            self.assertEqual(sorted((one["sail"], [one["was"], one["net_before"]], [one["rank"], one["net"]]) for one in last["moves"]),
                             sorted((sail, before[sail][:2], after[sail][:2]) for sail in before if before[sail] != after[sail]), lines)
        self.assertEqual(len(lines), 2)

    def ranks(self) -> dict[str, list[Any]]:
        """The rank and net of each boat of the class by order of finishing, and whether she shares the rank."""
        rows = self.devices["SCORER"].state("cup")["standing"]["rows"]
        return {row["sail"]: [row["rank"], row["net"], row["shared"]] for row in rows}

    def test_taken_back(self) -> None:
        """One thing that a boat holds is taken back, and all else stays, whoever gave it and in decisions.txt or not: that
        is taken out later as if nothing had been between."""
        self.sail_races()
        cases: list[tuple[str, str, list[str], str, list[str], str]] = [
            ("GBR1", "NSC", ["REDRESS 1 GBR1 2.0"], "RDG", ["JURY CLEAR 1 GBR1", "SCORER MARK 1 GBR1 DNF"], "DNF"),
            ("GBR2", "DPI 2", [], "ZFP", ["JURY CLEAR 1 GBR2", "JURY REDRESS 1 GBR2"], "RDG"),
            ("GBR4", "", ["MARK 1 GBR4 DSQ"], "DSQ", ["JURY CLEAR 1 GBR4", "SCORER MARK 1 GBR4 DNF"], "DNF"),
            ("GBR7", "", ["PENALTY 1 GBR7 ZFP", "MARK 1 GBR7 DSQ"], "ZFP",
             ["JURY CLEAR 1 GBR7", "FINISH MARK 1 GBR7 RET", "JURY MARK 1 GBR7 DSQ"], "DSQ")]
        for name in self.words:
            for sail, first, given, code, lines, left in cases:
                if first:
                    self.assertNotEqual(self.ruled(name, f"race 1 {sail} {first}"), ["refused"])
                for line in given:
                    self.assertEqual(self.yes("JURY", line, name)["outcome"], "taken", line)
                kept = self.text(name, "decisions.txt")
                found = self.ruled(name, f"race 1 {sail} {code}", reopen=True)
                self.assertEqual([line[:len(one)] for line, one in zip(found, lines)], lines, (name, sail, found))
                race = self.shown(name)
                held = [race["codes"].get(sail, ""), *race["penalties"].get(sail, []), "RDG" if sail in race["redress"] else ""]
                self.assertEqual((" ".join(filter(None, held)), self.text(name, "decisions.txt")), (left, kept), (name, sail))
                self.assertEqual(self.ruled(name, f"race 1 {sail} {code}", reopen=True), ["refused"])
            self.assertEqual(self.ruled(name, "race 1 GBR7 DSQ", reopen=True)[1:], ["FINISH MARK 1 GBR7 RET"])
            for sail, row in (("GBR1", "NSC"), ("GBR2", "DPI 2")):
                self.assertEqual(self.ruled(name, f"race 1 {sail} {row}", True), [f"JURY CLEAR 1 {sail}"], (name, row))
            self.assertEqual(self.text(name, "decisions.txt").strip(), "")

    def test_taken_out_alone(self) -> None:
        """A decision is taken out of a boat that holds a penalty, too, which her CLEAR takes and another line gives back:
        nobody is asked whether that goes. A CLEAR that the jury types takes both, which is asked."""
        self.sail_races()
        correction = {"kind": "correction", "values": {"race": 1}}
        for name in self.words:
            self.ruled(name, "race 1 GBR2 DPI 2")
            given = {"line": "race 1 GBR2 DPI 2", "out": True}
            shown = self.in_time(self.devices["JURY"], f"/office/jury/ruling/{name}", given)[1]
            self.assertEqual(shown["lines"], ["JURY CLEAR 1 GBR2", "FINISH PENALTY 1 GBR2 ZFP"])
            request = {**given, "lines": shown["lines"], "tag": shown["tag"], "id": new_id(), "agreed": [correction]}
            status, said = self.in_time(self.devices["JURY"], f"/office/jury/decide/{name}", request)
            self.assertEqual((status, self.journal(name)[-2:]), (200, shown["lines"]), said)
            self.assertEqual(self.yes("JURY", "REDRESS 1 GBR2 1.5", name)["outcome"], "taken")
            status, said = self.devices["JURY"].tap("CLEAR 1 GBR2", name=name, agreed=[correction])
            self.assertEqual((status, said["question"]["kind"]), (409, "clear-several"))

    def test_taken_back_unplaced(self) -> None:
        """A boat without a place holds redress and a penalty, which is taken back: whether she has redress as she is, is asked
        before the first line, and after a No she holds all as before."""
        self.sail_races()
        for name in self.words:
            self.yes("FINISH", "PENALTY 1 GBR9 ZFP", name)
            self.yes("JURY", "REDRESS 1 GBR9 1.5", name)
            given = {"line": "race 1 GBR9 ZFP", "reopen": True}
            shown = self.in_time(self.devices["JURY"], f"/office/jury/ruling/{name}", given)[1]
            self.assertEqual(shown["lines"], ["JURY CLEAR 1 GBR9", "JURY REDRESS 1 GBR9 1.5"])
            before, agreed = self.journal(name), [{"kind": "correction", "values": {"race": 1}}]
            request = {**given, "lines": shown["lines"], "tag": shown["tag"], "id": new_id(), "agreed": agreed}
            status, said = self.in_time(self.devices["JURY"], f"/office/jury/decide/{name}", request)
            self.assertEqual((status, said["question"]["kind"], self.journal(name)), (409, "redress-unplaced", before))
            agreed.append(said["question"])
            status, said = self.in_time(self.devices["JURY"], f"/office/jury/decide/{name}", request)
            self.assertEqual((status, self.journal(name)[len(before):]), (200, shown["lines"]), said)

    def test_taken_back_with_a_time(self) -> None:
        """By corrected time a boat whose time is in the sheet alone has it again with what is taken back: 15:09:00 after
        14:00:00 is 4,140 s x 1.000."""
        self.sail_races()
        self.write(self.text("hcap", "times", "race-1.csv").replace("GBR9,14:00:00,,", "GBR9,14:00:00,15:09:00,"),
                   "hcap", "times", "race-1.csv")
        self.assertIn("GBR9,14:00:00,15:09:00,", self.sheet())
        self.assertEqual(self.yes("JURY", "MARK 1 GBR9 DSQ", "hcap")["outcome"], "taken")
        self.assertEqual(self.ruled("hcap", "race 1 GBR9 DSQ", reopen=True), ["JURY CLEAR 1 GBR9", "SCORER TIME 1 GBR9 4140"])
        self.assertEqual((self.shown("hcap")["order"][-1], "GBR9" in self.shown("hcap")["codes"]), (["GBR9"], False))

    def test_old_letters(self) -> None:
        """A decisions.txt that an old editor has written, in Windows-1252 or UTF-16, bars nobody: it is read as a list is. A
        decision that the page adds leaves the others and their notes."""
        self.sail_races()
        row = "race 2 GBR5 DPI 2  # Müller gegen Łoś"
        for held, text, encoding in (("GBR6 DSQ", row.replace("Łoś", "Øst"), "cp1252"), ("GBR2 ZFP", row, "utf-16")):
            with open(os.path.join(self.here, "cup", "decisions.txt"), "wb") as file:
                file.write(f"{text}\r\n".encode(encoding))
            self.assertEqual(self.ruled("cup", f"race 1 {held}", reopen=True), [f"JURY CLEAR 1 {held[:4]}"])
            self.assertNotEqual(self.ruled("cup", "race 1 GBR1 DPI 1"), ["refused"])
            self.assertEqual(self.text("cup", "decisions.txt").splitlines(), [text, "race 1 GBR1 DPI 1"])

    def test_whose_points(self) -> None:
        """The state says of each decision whether the redress that she holds is its own."""
        self.sail_races()
        for sail, ruling in (("GBR1", "NSC"), ("GBR2", "DPI 2"), ("GBR5", "TLE 5")):
            self.ruled("cup", f"race 1 {sail} {ruling}")
        state = self.devices["SCORER"].state
        self.assertEqual([one["redress"] for one in state("cup")["decisions"]], [False, True, True])
        for line in ("REDRESS 1 GBR1 2.0", "CLEAR 1 GBR2", "REDRESS 1 GBR2 2.0"):
            self.assertEqual(self.yes("JURY", line, "cup")["outcome"], "taken", line)
        self.assertEqual([one["redress"] for one in state("cup")["decisions"]], [False, False, True])

    def test_taken_out_again(self) -> None:
        """The answer to a take-out is lost, and another device decides the same anew: the first one's, sent again, gets its
        answer, and the row and the points of the other stay. So it is if the web has died before it noted that the row was
        taken out, and with a decision that takes no lines."""
        self.sail_races()
        for row, is_cut in (("race 1 GBR1 DPI 1", False), ("race 1 GBR1 DPI 1", True), ("race 1 GBR4 NSC", False)):
            self.ruled("cup", row)
            jury, given, id = self.devices["JURY"], {"line": row, "out": True}, new_id()
            shown = self.in_time(jury, "/office/jury/ruling/cup", given)[1]
            request = {**given, "lines": shown["lines"], "tag": shown["tag"], "id": id,
                       "agreed": [{"kind": "correction", "values": {"race": 1}}]}
            status, before = self.in_time(jury, "/office/jury/decide/cup", request)
            self.assertEqual((status, self.text("cup", "decisions.txt").strip()), (200, ""), before)
            self.ruled("cup", row)
            if is_cut:
                self.kill()
                kept = [line for line in self.text("cup", "office", "web.taps").splitlines() if f"{id}/written" not in line]
                self.write("\n".join(kept) + "\n", "cup", "office", "web.taps")
                self.serve()
                self.devices = {role: device.again() for role, device in self.devices.items()}
            journal = self.journal("cup")
            status, after = self.in_time(self.devices["JURY"], "/office/jury/decide/cup", request)
            lines = [[{**one, "again": True} for one in found["done"]] for found in (after, before)]
            self.assertEqual((status, lines[0]), (200, lines[1]), after)
            self.assertEqual((self.text("cup", "decisions.txt").strip(), self.journal("cup")), (row, journal))
            self.assertEqual(self.devices["SCORER"].state("cup")["decisions"][0]["kept"], True)
            self.ruled("cup", row, True)

    def test_points(self) -> None:
        """Of 9 boats one that doesn't finish has 10 points, and in race 1 under RRS A5.3 8 came: 9."""
        self.sail_races()
        for name in self.words:
            for kind, points in (("NSC", "9.0"), ("TLE 5", "5.0"), ("DPI 2", "3.0")):
                self.ruled(name, f"race 1 GBR1 {kind}")
                row = next(row for row in self.shown(name)["standing"]["rows"] if row["sail"] == "GBR1")
                self.assertEqual((row["scores"][0][0], row["scores"][1][0]), (points, "1.0"), (name, kind))

    def test_reinstated(self) -> None:
        """REINSTATE of a boat that had retired after she had finished: she is RET again, in the sheet, too."""
        self.sail_races()
        row = "GBR7,14:00:00,15:06:00,RET"
        for name in self.words:
            self.yes("JURY", "MARK 1 GBR7 DSQ", name)
            self.assertEqual(self.ruled(name, "race 1 GBR7 REINSTATE"), ["JURY CLEAR 1 GBR7", "FINISH MARK 1 GBR7 RET"])
            self.assertEqual(self.shown(name)["codes"]["GBR7"], "RET")
            # An average over it is amended, and taken out: what REINSTATE took away doesn't come back.
            for kind in ("AVG 2", "AVG all"):
                self.assertNotEqual(self.ruled(name, f"race 1 GBR7 {kind}"), ["refused"])
            self.ruled(name, "race 1 GBR7 AVG all", True)
            self.assertEqual((self.shown(name)["codes"]["GBR7"], "GBR7" in self.shown(name)["redress"]), ("RET", False))
            self.assertIn(row, self.sheet())

    def test_reinstated_after_a_decision(self) -> None:
        """REINSTATE in place of a decision: what that gave her goes, also in a race that doesn't count yet. Then it is as it
        has to be, and her place is hers again."""
        self.sail_races()
        for name in self.words:
            self.yes("FINISH", "FINISH 3 GBR1", name)
            self.yes("FINISH", "FINISH 3 GBR2", name)
            before = self.shown(name)
            for race, sail, kind in (("1", "GBR1", "NSC"), ("1", "GBR1", "TLE 5"), ("1", "GBR9", "NSC"), ("1", "GBR2", "TLE 5"),
                                     ("3", "GBR1", "NSC"), ("3", "GBR9", "NSC")):
                self.assertNotEqual(self.ruled(name, f"race {race} {sail} {kind}"), ["refused"], kind)
                self.assertEqual(self.ruled(name, f"race {race} {sail} REINSTATE")[0], f"JURY CLEAR {race} {sail}", (name, race, kind))
                self.assertEqual([one["kept"] for one in self.devices["JURY"].state(name)["decisions"]], [True], (name, race, kind))
                self.assertEqual(self.shown(name), before)
                self.ruled(name, f"race {race} {sail} REINSTATE", True)

    def test_cleared(self) -> None:
        """The jury clears a code that a boat was given after she had finished: her time follows, as the committee's line."""
        self.sail_races()
        before = self.journal("hcap")
        done = self.yes("JURY", "CLEAR 1 GBR3", "hcap")
        self.assertEqual((done["outcome"], self.journal("hcap")[len(before):]),
                         ("taken", ["JURY CLEAR 1 GBR3", "SCORER TIME 1 GBR3 3720"]), done)
        self.assertEqual((self.sheet()[3], self.shown("hcap")["order"][2]), ("GBR3,14:00:00,15:02:00,", ["GBR3"]))
        # Its own lines are the jury's again, and hers are nobody else's.
        self.assertEqual(self.yes("JURY", "PENALTY 1 GBR1 SCP", "hcap")["outcome"], "taken")
        self.assertEqual(self.journal("hcap")[-1], "JURY PENALTY 1 GBR1 SCP")

    def test_not_the_jurys(self) -> None:
        """A code that isn't the jury's to give, and what the committee may not change, are refused (4, 10) with nothing
        written: the next tap sends nothing of it."""
        self.sail_races()
        before, sheet = self.journal("hcap"), self.sheet()
        for role, line, answer in [("JURY", f"MARK 1 GBR1 {code}", "NO 4") for code in ("RET", "DNF", "OCS", "DNS", "DNC")] + [
                ("FINISH", "MARK 1 GBR6 RET", "NO 10"), ("SCORER", "CLEAR 1 GBR6", "NO 10"), ("FINISH", "CLEAR 1 GBR5", "NO 10")]:
            done = self.yes(role, line, "hcap")
            self.assertEqual((done["outcome"], done["answer"], self.sheet()), ("refused", answer, sheet), line)
        self.yes("SCORER", "TIMES 1", "hcap")
        self.assertEqual(self.journal("hcap"), before)

    def test_resent(self) -> None:
        """The web dies between the jury's line and the committee's: the tap that comes again sends what is left, once."""
        self.sail_races()
        before, id = self.journal("hcap"), new_id()
        self.yes("JURY", "CLEAR 1 GBR3", "hcap", id=id)
        self.kill()
        self.cut_register(id)
        self.serve()
        self.devices = {role: device.again() for role, device in self.devices.items()}
        for _ in range(2):
            done = self.yes("JURY", "CLEAR 1 GBR3", "hcap", id=id)
            self.assertEqual((done["outcome"], self.journal("hcap")[len(before):]),
                             ("taken", ["JURY CLEAR 1 GBR3", "SCORER TIME 1 GBR3 3720"]), done)

    def cut_register(self, id: str) -> None:
        """Takes the answers to a tap out of the register, as if the web had died before it noted them."""
        path = ("hcap", "office", "web.taps")
        kept = [line for line in self.text(*path).splitlines() if id not in line or '"answer"' not in line]
        self.write("\n".join(kept) + "\n", *path)


if __name__ == "__main__":
    unittest.main()
