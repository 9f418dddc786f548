"""What is declared of the results, what isn't scored then, and when the results changed last."""
from __future__ import annotations

import datetime
import json
import os
import unittest

import helpers
from raceoffice.program.link import Link
from raceoffice.series.folder import Folder
from raceoffice.series.log import Logged
from raceoffice.series.last_change import (is_changed_since, mark_of, time_of_entry, time_of_notice,
                                           time_of_rules)

RACES = ["FINISH 1 GBR101", "FINISH 1 NED12", "SCORE 1"]
SINCE = "The results have changed since they were declared final."


class Declared(helpers.Series):
    def send(self, *lines: str) -> None:
        link = Link(os.path.join(self.here, "cup", "office", "race.sock"))
        for line in lines:
            self.assertEqual(link.ask(line)[:2], "OK", line)
        link.close()

    def shown(self) -> tuple[str, datetime.datetime]:
        """The page of the results as `--once` writes it, and when they changed last."""
        said, status = helpers.run("board", "cup", "--page", "out", "--once", cwd=self.here)
        self.assertEqual(status, 0, said)
        changed = json.loads(self.text("out", "cup", "results.json"))["changed"]
        return self.text("out", "cup", "index.html"), datetime.datetime.fromisoformat(changed)

    def announce(self, *words: str) -> None:
        self.assertEqual(helpers.run(*words, cwd=self.here)[1], 0)

    def test_races_left_out(self) -> None:
        """Races that aren't scored are named before the results are final."""
        self.open()
        self.send(*RACES, "PENALTY 2 GBR7 ZFP", "MARK 2 IRL5 BFD", "FINISH 3 FRA9", "MARK 4 FRA9 DNF",
                  "CLEAR 4 FRA9")
        window = self.window("final", "cup")
        self.assertEqual(window.read(r"\[y/N\] $"), (
            "Race 2 isn't scored. Recorded of it: IRL 5 Curlew BFD and GBR 7 Sea Pink ZFP.\n"
            "Race 3 isn't scored. Recorded of it: 1 finisher.\n"
            "Are the results final without those races? [y/N] "))
        window.type("n")
        self.assertEqual(window.rest(), ("Nothing was announced.\n", 1))
        self.assertIn("state = provisional\n", self.text("cup", "series.ini"))
        self.send("SCORE 3", "CLEAR 2 IRL5", "CLEAR 2 GBR7")
        self.assertEqual(helpers.run("final", "cup", cwd=self.here),
                         ("The results of cup are final.\n", 0))

    def test_rules_that_wait(self) -> None:
        """Rules that were saved and aren't in force are named before results by others are final."""
        self.open()
        self.send(*RACES)
        self.write(self.text("cup", "series.ini").replace("exclude = 2", "exclude = none"), "cup", "series.ini")
        window = self.window("final", "cup")
        self.assertEqual(window.read(r"\[y/N\] $"), (
            "Not in force until the office is opened with the new rules: exclude = none.\n"
            "Are the results final all the same? [y/N] "))
        window.type("y")
        self.assertEqual(window.rest(), ("The results of cup are final.\n", 0))

    def test_without_a_name(self) -> None:
        """A late boat that the list lacks is named before the results are final; in a list of sails alone
        nobody has a name."""
        self.open()
        self.send("ENTER USA4", "ENTER FRA77", *RACES)
        named = "Shown without a name: {}. Add the {} to entries.csv.\nThe results of cup are final.\n"
        for listed, wanted in [(helpers.ENTRIES, named.format("USA4 and FRA77", "boats")),
                               (helpers.ENTRIES + ",USA 4,,Club\nTern,FRA 77,,\n",
                                named.format("USA4", "boat")),
                               (helpers.ENTRIES + ",USA 4,J. Doe,\nTern,FRA 77,,\n",
                                named[named.index("The results"):]),
                               ("Sail\nGBR7\n", named[named.index("The results"):])]:
            self.write(listed, "cup", "entries.csv")
            self.assertEqual(helpers.run("final", "cup", cwd=self.here), (wanted, 0))

    def test_reason(self) -> None:
        """Amended results say why."""
        window = self.window("amended", "cup")
        window.read("Why\\? The board shows it: $")
        window.type("Appeal upheld")
        self.assertEqual(window.rest(), ("The results of cup are amended: Appeal upheld.\n", 0))
        self.assertIn("reason = Appeal upheld\n", self.text("cup", "series.ini"))
        self.announce("provisional", "cup")
        said, status = helpers.run("amended", "cup", cwd=self.here)
        self.assertIn("amended results need a reason. Nothing was announced.", said)
        self.assertEqual((status, "state = provisional\n" in self.text("cup", "series.ini")), (1, True))

    def correction(self, window: helpers.Terminal, line: str) -> str:
        """What is said of a line in a race that counts, after the question."""
        window.say(line, r"COUNTS ALREADY\. .*\[y/N\] $")
        return window.say("y", "> $")

    def test_changed_since(self) -> None:
        """A window says that the results were final, and the board that they have changed since."""
        self.open()
        window = self.client("cup", "--role", "scorer")
        for line in RACES[:2]:
            window.say(line, "OK .*\n> $")
        window.say("score 1", r"\[y/N\] $")
        self.assertNotIn("declared", window.say("y", "OK .*\n> $"))
        self.announce("final", "cup")
        self.assertNotIn(SINCE, self.shown()[0])
        self.assertNotIn("declared", window.say("finish 2 7", "OK .*\n> $"))
        self.assertNotIn(SINCE, self.shown()[0])
        window.say("strike 2 7", "OK .*\n> $")
        said = self.correction(window, "clear 1 7") + self.correction(window, "penalty 1 12 zfp")
        self.assertEqual(said.count('       The results were declared final. Next: raceoffice amended cup '
                                    '"the reason"\n'), 1)
        page = self.shown()[0]
        self.assertIn(f'<p class="reason changed">{SINCE}</p>', page)
        self.assertIn('<span class="word final">Final</span>', page)
        said, status = helpers.run("verify", "out/cup/index.html", "--program", helpers.PROGRAM,
                                   cwd=self.here)
        self.assertEqual(status, 0, said)
        self.assertNotIn("declared", self.correction(window, "clear 1 12").partition("Next")[2])
        self.assertNotIn(SINCE, self.shown()[0])
        self.assertIn("declared final", self.correction(window, "penalty 1 12 zfp"))
        self.announce("amended", "cup", "NED 12 was in the triangle")
        self.assertNotIn("have changed since", self.shown()[0])

    def test_removed(self) -> None:
        """A running board and one that comes later say the same of a boat that was taken out."""
        office = self.open()
        self.send("ENTER DEN16", "FINISH 1 DEN16", *RACES)
        office.press()
        office.rest()
        board = self.window("board", "cup", "--page", "running")
        board.read("Pages are in")
        helpers.next_second()
        asking = self.window("remove", "cup", "den", "16")
        asking.read(r"\[y/N\] $")
        asking.type("y")
        asking.rest()
        logged = Folder(os.path.join(self.here, "cup")).logged()
        at = [entry.time for entry in logged if entry.line == "removed DEN16"][0]
        self.assertEqual(self.shown()[1], datetime.datetime.strptime(at, "%Y-%m-%dT%H:%M:%S%z"))
        helpers.until("the page without her",
                      lambda: "DEN16" not in self.text("running", "cup", "results.json"))
        running = json.loads(self.text("running", "cup", "results.json"))["changed"]
        self.assertEqual(datetime.datetime.fromisoformat(running), self.shown()[1])

    def test_pages_that_go(self) -> None:
        """The page of a race that is no more goes; files that no board has written stay."""
        self.open()
        self.send(*RACES, "FINISH 2 GBR7", "MARK 3 GBR7 BFD")
        self.shown()
        self.assertTrue({"race-1.html", "race-2.html", "race-3.html"} <= self.pages())
        self.write("<!DOCTYPE html>\n<html lang=\"en\"><p>Mine", "out", "cup", "race-9.html")
        self.write(self.text("out", "cup", "race-2.html"), "out", "cup", "race-2-old.html")
        os.mkdir(os.path.join(self.here, "out", "fleet"))
        self.write(self.text("out", "cup", "race-2.html"), "out", "fleet", "race-2.html")
        self.send("STRIKE 2 GBR7")
        self.shown()
        self.assertEqual(self.pages(), {"index.html", "now.json", "results.csv", "results.json",
                                        "race-1.html", "race-3.html", "race-9.html", "race-2-old.html"})
        self.assertEqual(os.listdir(os.path.join(self.here, "out", "fleet")), ["race-2.html"])
        self.assertIn("Not scored yet: 3.", self.text("out", "cup", "index.html"))

    def pages(self) -> set[str]:
        return set(os.listdir(os.path.join(self.here, "out", "cup")))

    def test_running_board_removes_pages(self) -> None:
        self.make("fast", every="1", page="../out")
        self.open("fast")
        link = Link(os.path.join(self.here, "fast", "office", "race.sock"))
        self.addCleanup(link.close)
        link.ask("FINISH 1 GBR7")
        self.window("board", "fast").read("Pages are in")
        path = os.path.join(self.here, "out", "fast", "race-1.html")
        self.assertTrue(os.path.exists(path))
        link.ask("STRIKE 1 GBR7")
        helpers.until("the end of the page", lambda: not os.path.exists(path))
        link.ask("FINISH 1 GBR7")
        helpers.until("the page again", lambda: os.path.exists(path))

    def test_once(self) -> None:
        self.open()
        said = helpers.run("board", "cup", "--page", "out", "--once", cwd=self.here)
        self.assertEqual(said, ("cup  7 boats, no races, provisional: from the office, once\n"
                                "Pages are in  out\n", 0))


class Moments(unittest.TestCase):
    """What the log says of a change."""

    def log(self, *lines: tuple[str, str]) -> list[Logged]:
        """A log, a minute for each line: what was typed or done, and the answer."""
        return [Logged(f"2026-11-28T10:{at:02}:00+0000", "", "", "", "", line, answer)
                for at, (line, answer) in enumerate(lines)]

    def minute(self, when: datetime.datetime | None) -> int | None:
        return when.minute if when else None

    def test_entry(self) -> None:
        logged = self.log(("FINISH 1 A", "OK 3"), ("SCORE 1", "OK 4"), ("SCORE 1", "OK 4"),
                          ("removed B", "3 entries 0123456789abcdef"), ("FINISH 2 A", "OK 4"))
        first = self.journal("ENTER B", "ENTER A", "FINISH 1 A", "SCORE 1", "FINISH 3 A")
        left = self.journal("ENTER A", "FINISH 1 A", "SCORE 1", "FINISH 2 A")
        for upto, journal, number, wanted in [
                (2, first, 3, 0), (2, first, 4, 1), (3, first, 4, 2), (3, first, 5, None),
                (3, first, 6, None),
                (3, first, 0, None), (4, left, 3, 3), (4, left, 4, None), (5, left, 4, 4), (5, left, 3, 3),
                (5, left, 2, 3)]:
            self.assertEqual(self.minute(time_of_entry(logged[:upto], journal, number)), wanted,
                             (upto, number))

    def journal(self, *lines: str) -> list[str]:
        return [f"1 {at} SCORER {line}" for at, line in enumerate(lines, 1)]

    def test_entry_of_another_journal(self) -> None:
        """A number that another journal had, too, is known by its line."""
        logged = self.log(("redress 01 a 2", "OK 1 1 1.0"), ("SCORE 1", "OK 2"), ("restored", "1 entry"),
                          ("FINISH 2 A", "OK 2 1 1.0"), ("TIME 1 A 0042", "OK 3 1= 1.0"),
                          ("SCORE 1", "NO 13"))
        for line, number, wanted in [("REDRESS 1 A 2.0", 1, 0), ("REDRESS 1 A 2.5", 1, None),
                                     ("SCORE 1", 2, 1), ("FINISH 2 A", 2, 3), ("FINISH 2 B", 2, None),
                                     ("TIME 1 A 42", 3, 4), ("SCORE 1", 13, None)]:
            journal = self.journal(*["ENTER A"] * (number - 1), line)
            self.assertEqual(self.minute(time_of_entry(logged, journal, number)), wanted, line)

    def test_rules(self) -> None:
        logged = [Logged(f"2026-11-28T10:{at:02}:00+0000", "", "", "", rules, "opened", "")
                  for at, rules in enumerate(["--exclude 2", "--exclude 2", "--exclude 3", "--exclude 3"])]
        self.assertEqual([self.minute(time_of_rules(logged[:upto])) for upto in (0, 1, 2, 3, 4)],
                         [None, None, None, 2, 2])

    def test_notice(self) -> None:
        table, other = ("TABLE 1 RACES 1", "1 A 1.0 1.0"), ("TABLE 1 RACES 1", "1 A 2.0 2.0")
        logged = self.log(("final", mark_of(table)), ("FINISH 2 A", "OK 9"))
        self.assertEqual(self.minute(time_of_notice(logged, "final")), 0)
        self.assertIsNone(time_of_notice(logged, "amended"))
        self.assertEqual([is_changed_since(logged, "final", now) for now in (table, other)], [False, True])
        for state in ("provisional", "amended"):
            self.assertFalse(is_changed_since(logged, state, other))
        later = logged + self.log(("provisional", ""))
        self.assertFalse(is_changed_since(later, "final", other))
        self.assertFalse(is_changed_since([], "final", other))


if __name__ == "__main__":
    unittest.main()
