"""A series from its making to its end, in terminals: opened, closed, crashed, taken over."""
from __future__ import annotations

import os
import signal
import stat
import tempfile
import unittest

import helpers
from raceoffice.errors import Trouble
from raceoffice.program.link import Link
from raceoffice.series import second_folder

TIME = r"\d\d:\d\d:\d\d "
LINES = ["FINISH 1 GBR101", "FINISH 1 NED12", "SCORE 1"]


class Opening(helpers.Series):
    def number(self, name: str = "cup") -> int:
        """The number of the program's process."""
        return int(self.text(name, "office", "pid").split()[0])

    def send(self, *lines: str, name: str = "cup") -> list[str]:
        link = Link(os.path.join(self.here, name, "office", "race.sock"))
        try:
            return [link.ask(line) for line in lines]
        finally:
            link.close()

    def until_held(self, entries: int) -> None:
        """Waits until the second folder's copy has so many entries."""
        helpers.until("the copy", lambda: self.held("stick", "cup-journal.txt") == entries)

    def answer(self, window: helpers.Terminal, talk: list[tuple[str, str | None]]) -> None:
        """Waits for each question, and answers it; None is no answer yet."""
        for asked, typed in talk:
            window.read(asked)
            if typed is not None:
                window.type(typed)

    def test_new(self) -> None:
        os.mkdir(os.path.join(self.here, "dragon"))
        self.write(helpers.ENTRIES.replace("NED 12", "NED/12"), "dragon", "entries.csv")
        os.symlink(helpers.PROGRAM, os.path.join(self.here, "regatta"))
        window = self.window("new", "dragon")
        self.answer(window, [("Title: ", ""), ("a title, as Autumn Cup.\nTitle: ", "Winter"),
                             ("Class .*: ", "Dragon"), ("Club .*: ", ""),
                             (r"Entry list \[dragon/entries.csv\]: ", ""),
                             (r"slash(.|\n)*Look again\? \[Y/n, or .*\] ", None)])
        self.write(helpers.ENTRIES.replace(",", ";"), "dragon", "entries.csv")
        window.type("")
        self.answer(window, [(r"Entry list .*: ", ""),
                             (r"   7 boats, from GBR 101 to IRL 55, with helm, boat and club\n"
                              r"(.|\n)*Which\? \[1\] ", "3"), ("One is .*\\? ", "4"),
                             ("Two.*\\) ", "3"), ("Two.*\\) ", "8"), ("Three.*\\) ", ""),
                             ("A5.3 apply .*] ", "y"), ("Scoring Penalty.*\\) ", "30%"),
                             (r"That has to be 20%, or whole points from 1 to 99\.\n.*\) ", "20"),
                             (r"20 points, not 20%\? \[y/N\] ", ""),
                             ("Scoring Penalty.*\\) ", "3"),
                             ("corrected time.*] ", ""), ("stick.*\\) ", "")])
        self.assertEqual(window.rest(), (
            "Wrote dragon/series.ini. Next: raceoffice open dragon\n", 0))
        said, status = helpers.run("check", "dragon", cwd=self.here)
        self.assertEqual((said, status), (
            "dragon can be opened: Winter: 7 boats, no races scored, 7 entries\n"
            "Scores excluded: one from 4 races and two from 8 races. RRS A5.3. Scoring Penalty 3 "
            "points. By order of finishing.\n", 0))
        self.assertEqual(helpers.run("new", "dragon", cwd=self.here)[1], 1)

    def test_new_second_chance(self) -> None:
        """A name that isn't there, a list with a fault and a missing stick cost no earlier answer."""
        self.write(helpers.ENTRIES.replace("NED 12", "NED/12"), "list.csv")
        window = self.window("new", "dragon")
        self.answer(window, [("Title: ", "Winter"), ("Class .*: ", ""), ("Club .*: ", ""),
                             (r"Entry list \[dragon/entries.csv\]: ", "lst.csv"),
                             (r"lst\.csv isn't there\. Type the name of the list, or make it now\. "
                              r"Ctrl-C ends this\.\nEntry list \[dragon/entries.csv\]: ", "list.csv"),
                             (r"slash(.|\n)*Look again\? \[Y/n, or .*\] ", "right.csv"),
                             (r"right\.csv isn't there(.|\n)*Entry list \[list\.csv\]: ", None)])
        self.write(helpers.ENTRIES, "right.csv")
        window.type("")
        self.answer(window, [(r"slash(.|\n)*Look again\? \[Y/n, or .*\] ", "right.csv"),
                             ("7 boats(.|\n)*Which\\? .*", "1"), ("A5.3 apply .*] ", "ja"),
                             (r"Type y for yes, or n for no\.\n.*A5.3 apply .*] ", ""),
                             ("Scoring Penalty.*\\) ", "20%"),
                             ("corrected time.*] ", ""), ("stick.*\\) ", "stik"),
                             (r"/stik isn't there\. Take it all the same\? \[y/N\] ", ""),
                             ("stick.*\\) ", "stick"), (r"\[y/N\] ", "y")])
        self.assertEqual(window.rest(), (
            "Copied right.csv to dragon/entries.csv: from now on change that one.\n"
            "Wrote dragon/series.ini. Next: raceoffice open dragon\n", 0))
        self.assertIn(f"copy = {self.here}/stick\n", self.text("dragon", "series.ini"))
        self.assertIn("scp = \n", self.text("dragon", "series.ini"))
        self.assertEqual(self.text("dragon", "entries.csv"), helpers.ENTRIES)

    def test_new_stopped(self) -> None:
        """Ctrl-C at a question writes nothing."""
        self.write(helpers.ENTRIES, "list.csv")
        window = self.window("new", "dragon")
        self.answer(window, [("Title: ", "Winter"), ("Class .*: ", ""), ("Club .*: ", ""),
                             ("Entry list .*: ", "list.csv"), ("Which\\? .*", "1"),
                             ("A5.3 apply .*] ", None)])
        window.press()
        self.assertEqual(window.rest(), ("\nno answer came. Nothing was written.\n", 1))
        self.assertFalse(os.path.exists(os.path.join(self.here, "dragon")))

    def test_new_nowhere(self) -> None:
        """What keeps a folder from being made is said before the first question."""
        self.write("", "file")
        for folder, why in [("file", "file can't be made: File exists.\n"),
                            ("file/cup", "file/cup can't be made: Not a directory.\n"),
                            ("/proc/cup", "/proc/cup can't be made: No such file or directory.\n"),
                            ("/proc/self", "nothing can be written in /proc/self: No such file or "
                             "directory.\n")]:
            self.assertEqual(helpers.run("new", folder, cwd=self.here), (why, 1))
        self.window("new", "deep/er/cup").read("Title: ")
        self.assertFalse(os.path.exists(os.path.join(self.here, "deep")))

    def test_open_and_close(self) -> None:
        window = self.open()
        place = os.path.join(self.here, "cup", "office")
        self.assertEqual(stat.S_IMODE(os.stat(place).st_mode), 0o700)
        self.assertEqual(self.send(*LINES)[-1], "OK 10")
        self.assertEqual(self.held(), 10)
        window.press()
        said, status = window.rest()
        self.assertRegex(said, TIME + r"Closed\. journal\.txt has 10 entries, and so has kept/")
        self.assertIn("TABLE 7 RACES 1\n1 GBR101 1.0 1.0\n2 NED12 2.0 2.0\n", said)
        self.assertEqual(status, 0)
        self.assertFalse(os.path.exists(os.path.join(place, "race.sock")))
        again = self.open()
        self.assertEqual(self.send("FINISH 2 GBR7"), ["OK 11 3= 8.0"])
        again.process.send_signal(signal.SIGHUP)
        self.assertEqual(again.rest()[1], 0)
        self.assertEqual(self.held(), 11)

    def test_folder_in_place_of_the_lock(self) -> None:
        """What isn't a file in the place of the lock is named, and is no fault of the package."""
        os.makedirs(os.path.join(self.here, "cup", "office", "lock"), mode=0o700)
        said, status = helpers.run("open", "cup", cwd=self.here)
        self.assertIn("office/lock can't be used: Is a directory.\n", said)
        self.assertEqual(status, 1)

    def test_crash(self) -> None:
        """The office is killed: what was answered stays, and what an older journal lacks is listed."""
        window = self.open()
        self.send(*LINES)
        os.kill(self.number(), signal.SIGKILL)
        said, status = window.rest()
        self.assertRegex(said, TIME + r"The office has gone\. journal\.txt has 10 entries\. Open it "
                         r"again: raceoffice open cup")
        self.assertEqual(status, 1)
        with open(os.path.join(self.here, "cup", "office.log"), "a") as file:
            file.write("2026-11-26T09:00:00+0000\t1\tAnn\t2\tFINISH\tFINISH 2 GBR7\tOK 11 3= 8.0\n"
                       "2026-11-26T09:00:01+0000\t1\tAnn\t2\tFINISH\tFINISH 2 GBR7\tNO 8\n")
        again = self.window("open", "cup")
        self.assertIn("Its old socket has been removed.\njournal.txt has 10 entries. These lines "
                      "were answered, and are lost. Type them again in this order, before any "
                      "other:\n      11  FINISH  FINISH 2 GBR7   (Ann)\n", again.read("is open"))
        self.addCleanup(self.stop, "cup")
        self.assertEqual(self.send("RANK GBR7"), ["RANK 3= 8.0"])
        again.press()
        self.assertEqual(again.rest()[1], 0)

    def test_window_killed(self) -> None:
        """The office outlives its window; a second window takes it over, a third is refused."""
        window = self.open()
        self.send(*LINES)
        said, status = helpers.run("open", "cup", cwd=self.here)
        self.assertRegex(said, r"the office is open in another window, since \d\d:\d\d \(process")
        self.assertEqual(status, 1)
        window.process.kill()
        window.process.wait()
        self.send("FINISH 2 GBR7")
        second = self.window("open", "cup")
        second.read(r"its window has gone\. Take it over\? \[Y/n\] ")
        second.press()
        self.assertEqual(second.rest(), ("\nthe office goes on without a window.\n", 1))
        self.write("what the first window said", "cup", "office", "beware")
        second = self.window("open", "cup")
        second.read(r"its window has gone\. Take it over\? \[Y/n\] ")
        second.say("", "The office is open")
        self.assertFalse(os.path.exists(os.path.join(self.here, "cup", "office", "beware")))
        self.assertEqual(self.held(), 11)
        second.press()
        said, status = second.rest()
        self.assertIn("Closed. journal.txt has 11 entries", said)
        self.assertEqual(status, 0)

    def test_question_waits(self) -> None:
        """The journal is copied while the office asks whether to close; Ctrl-C is no."""
        os.mkdir(os.path.join(self.here, "stick"))
        self.write(self.text("cup", "series.ini").replace("copy = ", "copy = ../stick"), "cup", "series.ini")
        window = self.open()
        typist = self.client("cup", "--role", "finish")
        asked = r"1 window is still open: finish since \d\d:\d\d\. Close the office\? \[y/N\] $"
        for sail, entries in [("101", 8), ("7", 9)]:
            window.press()
            window.read(asked)
            typist.say(f"finish 1 {sail}", r"OK \d .*\n> $")
            self.until_held(entries)
            window.press()
            window.read("\nThe office stays open.\n")
        window.press()
        window.read(asked)
        os.kill(self.number(), signal.SIGKILL)
        window.read("The office has gone. journal.txt has 9 entries.")

    def test_rules_changed(self) -> None:
        window = self.open()
        self.send(*LINES, "FINISH 2 NED12", "FINISH 2 GBR101", "SCORE 2", "FINISH 3 NED12",
                  "FINISH 3 GBR101", "SCORE 3")
        window.press()
        window.rest()
        text = self.text("cup", "series.ini").replace("exclude = 2", "exclude = none")
        self.write(text, "cup", "series.ini")
        again = self.window("open", "cup")
        said = again.read(r"Go on with the new rules\? \[y/N\] ")
        self.assertIn("The rules were: Scores excluded: one from 2 races. RRS A5.2. Scoring Penalty "
                      "20%. By order of finishing.\nThey are now: No score excluded. RRS A5.2. Scoring "
                      "Penalty 20%. By order of finishing.\n", said)
        self.assertIn("NED 12 Windhover: 1st, net 2.0 to 4.0\n", said)
        self.assertIn("Not in force until the office is opened with the new rules: exclude = none.",
                      helpers.run("check", "cup", cwd=self.here)[0])
        # After a No the office goes on with the rules as they were, and is asked about the new ones again.
        self.assertIn("The office goes on with the old rules.", again.say("n", "The office is open"))
        self.assertIn("series.ini has other rules than the last opening of the office", self.exported())
        again.press()
        again.rest()
        third = self.window("open", "cup")
        third.read(r"Go on with the new rules\? \[y/N\] ")
        third.say("y", "The office is open")

    def test_rules_that_fit_no_more(self) -> None:
        """Corrected times were saved before the first finish, and nobody was asked, as the office was open: boats that finish
        since don't fit them. The next opening goes on with the rules in force and says so; windows that type go by these."""
        window = self.open()
        self.write(self.text("cup", "series.ini").replace("handicap = no", "handicap = yes"), "cup", "series.ini")
        self.send(*LINES)
        typed = self.client("cup", "--role", "finish")
        typed.say("at 3", "3> ")
        typed.say("gbr7", "1st in race 3")
        typed.say("?", r"\?1")
        window.press()
        window.read(r"Close the office\? \[y/N\] ")
        window.say("y", r"Closed\.")
        again = self.window("open", "cup")
        said = again.read("The office is open")
        self.assertIn("disagree on handicap", said)
        self.assertIn("The office goes on with the old rules.", said)
        self.assertNotIn("Go on with the new rules?", said)

    def test_rotten_rules(self) -> None:
        """The log's last opening has rules that are none: nothing is known of the rules before then."""
        self.open().press()
        helpers.until("its end", lambda: "\tclosed\t" in self.text("cup", "office.log"))
        log = self.text("cup", "office.log")
        self.write(log.replace("--exclude 2", "--exclude r"), "cup", "office.log")
        self.assertNotIn("fault", self.exported())
        self.window("open", "cup").read("The office is open")

    def test_rules_after_a_crash(self) -> None:
        """Results go by the rules of a program that serves, also if its window or its socket has gone. If none does, they
        go by those of the last opening until somebody agrees to others."""
        window = self.open()
        self.send(*LINES)
        self.write(self.text("cup", "series.ini").replace("absent = a52", "absent = a53"), "cup", "series.ini")
        window.process.kill()
        window.process.wait()
        program, socket = self.number(), os.path.join(self.here, "cup", "office", "race.sock")
        os.rename(socket, f"{socket}.old")
        self.assertIn("RRS A5.2", self.exported())
        os.rename(f"{socket}.old", socket)
        self.assertIn("RRS A5.2", self.exported())
        # Whoever takes it over goes on with its rules, and that is what the log has then.
        taken = self.window("open", "cup")
        taken.read(r"Take it over\? \[Y/n\] ")
        taken.say("", "The office is open")
        opened = [line.split("\t")[4] for line in self.text("cup", "office.log").splitlines() if "\topened\t" in line]
        self.assertEqual([("a53" in rules) for rules in opened], [False, False])
        taken.process.kill()
        taken.process.wait()
        os.kill(program, signal.SIGKILL)
        helpers.until("its end", lambda: not os.path.exists(f"/proc/{program}"))
        self.assertTrue(os.path.exists(socket))
        said = self.exported()
        self.assertIn("RRS A5.2", said)
        self.assertIn("series.ini has other rules than the last opening of the office", said)
        again = self.window("open", "cup")
        again.read(r"Go on with the new rules\? \[y/N\] ")
        again.say("y", "The office is open")
        self.assertIn("RRS A5.3", self.exported())

    def exported(self) -> str:
        """The results of `cup` as a text."""
        said, status = helpers.run("export", "cup", "--text", cwd=self.here)
        self.assertEqual(status, 0, said)
        return said

    def test_closed_properly(self) -> None:
        """After an orderly end nothing is lost. If somebody has made the journal shorter, it is asked; what
        was typed before is no answer."""
        window = self.open()
        self.send(*LINES)
        with open(os.path.join(self.here, "cup", "office.log"), "a") as file:
            file.write("2026-11-26T09:00:00+0000\t1\tAnn\t2\tSCORER\tSCORE 1\tOK 10\n")
        window.press()
        window.rest()
        kept = self.text("cup", "journal.txt").splitlines(keepends=True)
        self.write("".join(kept[:10]), "cup", "journal.txt")
        self.write("", "cup", "journal (conflicted copy).txt")
        said, status = helpers.run("check", "cup", cwd=self.here)
        self.assertIn("Beside journal.txt there is journal (conflicted copy).txt.", said)
        self.assertRegex(said, r"journal\.txt isn't what the office had\. It has 9 entries, and "
                         r"kept/.*Z(-[0-9]+)?\.txt has 10\. One of these isn't in journal\.txt at its place, "
                         r"entry 10:\n   2 3 SCORER SCORE 1   in the copy\n   nothing   in journal\.txt\n")
        self.assertEqual(status, 1)
        again = self.window("open", "cup")
        again.type("y")
        again.read(r"at its place, entry 10:(.|\n)*No answer, since it came before the question: y\n"
                   r"Open the office all the same\? \[y/N\] $")
        said = again.say("y", "The office is open")
        self.addCleanup(self.stop, "cup")
        self.assertNotIn("lost", said)

    def test_number_used_again(self) -> None:
        """The number of a window that has gone may be another process's by now."""
        window = self.open()
        window.process.kill()
        window.process.wait()
        path = ("cup", "office", "pid")
        self.write(f"{self.number()} {os.getpid()} 09:00\n", *path)
        again = self.window("open", "cup")
        again.read(r"open since 09:00, but its window has gone\. Take it over\? \[Y/n\] ")

    def test_new_with_all_exclusions(self) -> None:
        """Up to four scores are excluded; what of a list isn't read is said. The time zone is this computer's."""
        self.write("Sail,Helm,Phone\nGBR 7,J. Hale,07700\n", "boats.csv")
        with helpers.time_zone("Europe/Berlin"):
            said, status = helpers.run("new", "spring", lines="Spring\n\n\nboats.csv\n3\n4\n8\n12\n16\nn\n\nn\n\n",
                                       cwd=self.here)
        self.assertEqual(status, 0, said)
        self.assertIn("Phone", said)
        self.assertIn("exclude = 4,8,12,16\n", self.text("spring", "series.ini"))
        self.assertIn("\nzone = Europe/Berlin\n", self.text("spring", "series.ini"))

    def test_new_without_a_list(self) -> None:
        """Of a list that isn't put right no series is made."""
        self.write("Boat\nKestrel\n", "boats.csv")
        said, status = helpers.run("new", "spring", lines="Spring\n\n\nboats.csv\nn\n", cwd=self.here)
        self.assertTrue(said.endswith("the entry list isn't right. Nothing was written.\n"), said)
        self.assertEqual((status, os.path.exists(os.path.join(self.here, "spring"))), (1, False))

    def test_remove(self) -> None:
        window = self.open()
        self.send("ENTER DEN16", "FINISH 1 DEN16", *LINES)
        self.make("fresh")
        found = helpers.run("remove", "fresh", "GBR7", cwd=self.here)
        self.assertEqual(found, ("journal.txt has no entry.\n", 1))
        said = helpers.run("remove", "cup", "DEN16", cwd=self.here)[0]
        self.assertEqual(said, "the office is open: close it first, by Ctrl-C in its window.\n")
        window.press()
        window.rest()
        for words, why in [(["GBR", "102"], "GBR102 isn't in journal.txt.\n")]:
            self.assertEqual(helpers.run("remove", "cup", *words, cwd=self.here), (why, 1))
        asking = self.window("remove", "cup", "den", "16")
        said = asking.read(r"\[y/N\] $")
        self.assertIn("2 entries go:\n       8  SCORER ENTER DEN16\n       9  SCORER FINISH 1 DEN16\n",
                      said)
        self.assertIn("   GBR 101 Kestrel: 2nd to 1st, net 2.0 to 1.0 (race 1: 2.0 to 1.0)\n", said)
        before = self.text("cup", "journal.txt")
        asking.type("y")
        said, status = asking.rest()
        self.assertRegex(said, r"^DEN16 is taken out\. journal\.txt has 10 entries; kept/(.*) has all 12\.\n")
        self.assertEqual(status, 0)
        copy = said.split("kept/")[1].split()[0]
        self.assertEqual(self.text("cup", "kept", copy), before)
        self.assertNotIn("DEN16", self.text("cup", "journal.txt"))
        self.assertIn("10 entries\n", helpers.run("check", "cup", cwd=self.here)[0])

    def test_remove_refused(self) -> None:
        """A boat stays while another who was placed beside her has that place."""
        window = self.open()
        self.send("ENTER DEN16", "FINISH 1 DEN16", "TIE 1 GBR7 DEN16")
        window.press()
        window.rest()
        before = self.text("cup", "journal.txt")
        found = helpers.run("remove", "cup", "DEN16", cwd=self.here)
        self.assertEqual(found, ("DEN16 can't be taken out: entry 10, TIE 1 GBR7 DEN16, places another "
                                "boat beside her: strike GBR7 in race 1 first.\n", 1))
        self.write("\n".join(before.splitlines()[:10] + ["1 10 SCORER SCORE 1", ""]), "cup", "journal.txt")
        said, status = helpers.run("remove", "cup", "DEN16", cwd=self.here)
        self.assertIn("DEN16 can't be taken out: SCORE 1 would be refused without her: nobody has finished "
                      "in this race.\n", said)
        self.assertEqual((self.held(), status), (10, 1))

    def test_remove_one_beside_others(self) -> None:
        """A boat goes if all who were placed beside her have been struck since, with those lines, and nobody moves."""
        window = self.open()
        self.send("ENTER DEN16", "FINISH 2 GBR7", "FINISH 2 DEN16", "TIE 2 GBR101 DEN16", "MARK 2 GBR101 OCS",
                  "STRIKE 2 GBR101", "BEFORE 2 GBR101 DEN16", "STRIKE 2 GBR101", "FINISH 2 GBR101")
        window.press()
        window.rest()
        asking = self.window("remove", "cup", "DEN16")
        gone = [line.strip() for line in asking.read(r"\[y/N\] $").split("entries go:\n")[1].splitlines()][:-1]
        self.assertEqual([line.split("SCORER ")[1] for line in gone if "SCORER" in line],
                         ["ENTER DEN16", "FINISH 2 DEN16", "TIE 2 GBR101 DEN16", "STRIKE 2 GBR101", "BEFORE 2 GBR101 DEN16",
                          "STRIKE 2 GBR101"])
        asking.type("y")
        self.assertEqual(asking.rest()[1], 0)
        left = [line.split(" ", 3)[3] for line in self.text("cup", "journal.txt").splitlines()[1:]]
        self.assertEqual(left[-3:], ["FINISH 2 GBR7", "MARK 2 GBR101 OCS", "FINISH 2 GBR101"])

    def test_remove_declined(self) -> None:
        """A boat who isn't taken out after all, who is the only one, or in whose journal somebody has typed,
        stays."""
        journal = "REGATTA 2\n1 1 SCORER ENTER DEN16\n"
        for text, why in [(journal + "1 2 SCORER ENTER GBR7\n", "Nothing was changed.\n"),
                          (journal, "DEN16 can't be taken out: no boat would be left.\n"),
                          (journal + "1 2 SCORER ENTER 7\n1 3 SCORER\n", "fault 1 line 4.\n")]:
            self.write(text, "cup", "journal.txt")
            said, status = helpers.run("remove", "cup", "DEN16", lines="n\n", cwd=self.here)
            self.assertEqual((said[-len(why):], status), (why, 1))
            self.assertEqual(self.text("cup", "journal.txt"), text)

    def test_remove_without_the_stick(self) -> None:
        """If the second folder isn't there, it is said that it has the old journal."""
        self.write(self.text("cup", "series.ini").replace("copy = ", "copy = ../stick"), "cup", "series.ini")
        self.write("REGATTA 2\n1 1 SCORER ENTER DEN16\n1 2 SCORER ENTER GBR7\n", "cup", "journal.txt")
        said, status = helpers.run("remove", "cup", "DEN16", lines="y\n", cwd=self.here)
        self.assertRegex(said, r"No second copy: .*/stick isn't there\.\n")
        self.assertEqual((self.held(), status), (1, 0))

    def test_long_path(self) -> None:
        deep = os.path.join("d" * 100, "e" * 100)
        os.makedirs(os.path.join(self.here, deep))
        self.make(f"{deep}/cup")
        window = self.open(f"{deep}/cup")
        self.assertEqual(self.send("RANK GBR7", name=f"{deep}/cup"), ["RANK 1= 0.0"])
        window.press()
        self.assertEqual(window.rest()[1], 0)

    def test_copy_on_a_stick(self) -> None:
        os.mkdir(os.path.join(self.here, "stick"))
        self.make("copied", copy=os.path.join(self.here, "stick"))
        window = self.open("copied")
        self.assertEqual(self.text("stick", "copied-journal.txt"), self.text("copied", "journal.txt"))
        said = helpers.run("check", "copied", cwd=self.here)[0]
        self.assertNotIn("No second copy", said)
        os.rename(os.path.join(self.here, "stick"), os.path.join(self.here, "gone"))
        said, status = helpers.run("check", "copied", cwd=self.here)
        self.assertIn(f"No second copy: {self.here}/stick isn't there.\n", said)
        self.assertEqual(status, 0)
        self.send(*LINES, name="copied")
        window.read(TIME + "No second copy: .*/stick isn't there\\.")
        os.rename(os.path.join(self.here, "gone"), os.path.join(self.here, "stick"))
        self.send("FINISH 2 GBR7", name="copied")
        helpers.until("the copy", lambda: self.held("stick", "copied-journal.txt") == 11)
        self.assertEqual(self.text("stick", "copied-journal.txt"), self.text("copied", "journal.txt"))
        window.press()
        self.assertEqual(window.rest()[1], 0)

    def test_somebody_stays(self) -> None:
        """A client that isn't a window of ours doesn't keep the office open for ever."""
        window = self.open(waits={"office.keeping.LEAVE": 2})
        link = Link(os.path.join(self.here, "cup", "office", "race.sock"))
        link.ask("ROLE FINISH")
        window.press()
        said, status = window.rest()
        self.assertIn("still there after 2 seconds: somebody who isn't in office.log. The office is "
                      "stopped", said)
        self.assertIn("TABLE 7 RACES\n1= FRA9 0.0\n", said)
        self.assertEqual(status, 0)
        link.close()
        self.assertEqual(self.held(), 7)


class Keeping(unittest.TestCase):
    """How the copy on a second disk is written."""
    HELD = "1 1 SCORER ENTER A\n1 2 SCORER ENTER B\n"

    def setUp(self) -> None:
        holder = tempfile.TemporaryDirectory()
        self.addCleanup(holder.cleanup)
        self.path = os.path.join(holder.name, "journal.txt")

    def text(self) -> str:
        with open(self.path, encoding="ascii") as file:
            return file.read()

    def test_goes_on(self) -> None:
        more = self.HELD + "2 1 SCORER ENTER C\n"
        for held, text in [("", self.HELD), (self.HELD, more), ("REGATTA 2\n" + self.HELD, more)]:
            with open(self.path, "w", encoding="ascii") as file:
                file.write(held)
            second_folder.save_to(self.path, text)
            self.assertEqual(self.text(), text)

    def test_another_journal(self) -> None:
        """A file is never replaced by a journal that lacks one of its entries."""
        second_folder.save_to(self.path, self.HELD)
        for text in ["", self.HELD[:19], self.HELD.replace("B", "C") + "2 1 SCORER ENTER D\n"]:
            with self.assertRaises(Trouble) as raised:
                second_folder.save_to(self.path, text)
            self.assertIn("holds lines that the office doesn't have", str(raised.exception))
            self.assertEqual(self.text(), self.HELD)

    def test_no_folder(self) -> None:
        with self.assertRaises(Trouble) as raised:
            second_folder.save_to(os.path.join(self.path, "none"), self.HELD)
        self.assertIn("can't be written", str(raised.exception))

    def test_full_disk(self) -> None:
        """A file that can't be written whole stays as it was, and nothing else is left."""
        second_folder.save_to(self.path, self.HELD)
        with helpers.file_size(len(self.HELD) + 5):
            self.assertRaises(Trouble, second_folder.save_to, self.path, self.HELD * 2)
        self.assertEqual(self.text(), self.HELD)
        self.assertEqual(os.listdir(os.path.dirname(self.path)), ["journal.txt"])


class Faults(helpers.Series):
    def fault(self, *words: str) -> str:
        said, status = helpers.run(*(words or ("open", "cup")), cwd=self.here)
        self.assertEqual(status, 1, said)
        return said

    def test_settings(self) -> None:
        self.write("[series]\ntitle = Cup\n[rules]\nexlude = 4\n", "cup", "series.ini")
        self.assertEqual(self.fault(), "series.ini, line 4: [rules] has no key 'exlude'. Did you mean "
                         "'exclude'?\n")
        self.assertIn("isn't a series. raceoffice new none makes one", self.fault("open", "none"))

    def test_program(self) -> None:
        for program, words in [("none", "The program isn't at"), ("entries.csv", "may not be run"),
                               ("text", "made for another system"), ("/bin/true", "isn't regatta")]:
            self.write("x", "cup", "text")
            os.chmod(os.path.join(self.here, "cup", "text"), 0o755)
            self.make(f"with-{words[-4:].strip()}", program=program)
            self.write("x", f"with-{words[-4:].strip()}", "text")
            os.chmod(os.path.join(self.here, f"with-{words[-4:].strip()}", "text"), 0o755)
            self.assertIn(words, self.fault("open", f"with-{words[-4:].strip()}"))

    def test_entries(self) -> None:
        self.write(helpers.ENTRIES.replace("NED 12", "NED/12"), "cup", "entries.csv")
        self.assertEqual(self.fault(), 'entries.csv, row 4 (P. de Wit): the sail "NED/12" has a slash. '
                         "A sail has 1 to 12 letters, digits and dashes.\nNothing was opened.\n")
        self.write(helpers.ENTRIES.replace("A. Moss", "A" * (1 << 20)), "cup", "entries.csv")
        self.assertIn("entries.csv is longer than 1,048,576 bytes.\nNothing was opened.\n", self.fault())
        os.remove(os.path.join(self.here, "cup", "entries.csv"))
        self.assertIn("entries.csv isn't there", self.fault())

    def test_forms(self) -> None:
        """A list in another form is opened as it is, and what it has beside is named."""
        heads = "Bootsname;Segelnummer;Steuermann;Verein;Klasse;PY"
        listed = helpers.ENTRIES.replace("Boat,Sail,Helm,Club\n", f"{heads}\n").replace(",", ";")
        listed = f"\ufeff{listed}".replace("\n", ";J24;1100\n").replace(f"{heads};J24;1100", heads)
        with open(os.path.join(self.here, "cup", "entries.csv"), "wb") as file:
            file.write(listed.encode("utf-16-le"))
        said, status = helpers.run("check", "cup", cwd=self.here)
        self.assertIn("Not read: Klasse.\nRead in a series by corrected time alone: PY.\ncup can be opened: "
                      "Autumn Cup: 7 boats", said)
        self.assertEqual(status, 0)
        window = self.open()
        self.assertIn("1 2 SCORER ENTER GBR7\n", self.text("cup", "journal.txt"))
        self.assertIn("GBR 7 Sea Pink", self.client("cup", "--role", "finish").say("race 1", "> $"))
        window.press()

    def test_journal(self) -> None:
        good = "1 1 SCORER ENTER GBR101\n1 2 FINISH FINISH 1 GBR101\n"
        for text, words in [
                ("Sail,Helm\nA,B\n", "Line 1 of journal.txt isn't a line of a journal: 'Sail,Helm'."),
                (good + "1 3 FINISH FINISH 1 GBR78\n", "Line 3 of journal.txt is refused: a boat that "
                 "is named isn't entered. It is '1 3 FINISH FINISH 1 GBR78'."),
                ("REGATTA 2\n" + good + "x\n", "Line 4 of journal.txt isn't a line"),
                (good + "1 3 FINISH TIME 1 GBR101 9\n", "disagree on handicap")]:
            self.write(text, "cup", "journal.txt")
            self.assertIn(words, self.fault())
            self.assertEqual(self.text("cup", "journal.txt"), text)

    def test_journal_lost(self) -> None:
        window = self.open()
        window.press()
        window.rest()
        self.write("", "cup", "journal.txt")
        words = r"journal\.txt is empty or gone, but the series had 7 entries\. kept/.*\.txt has 7\."
        self.assertRegex(self.fault("check", "cup"), f"^{words}\n$")
        again = self.window("open", "cup")
        again.read(words + r" Use it\? \[y/N\] $")
        # A second window doesn't put a journal in its place while the first one may.
        self.assertNotIn("Use it?", self.fault())
        again.type("y")
        again.read("7 boats, no races scored, 7 entries(.|\n)*The office is open")
        self.addCleanup(self.stop, "cup")
        self.assertEqual(self.held(), 7)
        again.press()
        self.assertEqual(again.rest()[1], 0)

    def test_several(self) -> None:
        """Several series are checked and announced at once; no folder of a series is a reason."""
        self.make("fleet")
        said, status = helpers.run("check", "cup", "fleet", cwd=self.here)
        self.assertEqual((said.count(" can be opened: "), status), (2, 0))
        said, status = helpers.run("final", "cup", "fleet", cwd=self.here)
        self.assertEqual((said, status), ("The results of cup are final.\n"
                                          "The results of fleet are final.\n", 0))
        said, status = helpers.run("amended", "cup", "fleet", "Appeal upheld",
                                   cwd=self.here)
        self.assertEqual((said, status), ("The results of cup are amended: Appeal upheld.\n"
                                          "The results of fleet are amended: Appeal upheld.\n", 0))
        os.mkdir(os.path.join(self.here, "other"))
        for words, why in [(["cup", "other"], "other has no series.ini"),
                           (["cup", "flet"], "flet is no folder of a series"),
                           (["cup", "Appeal", "upheld"], 'quotation marks: "Appeal upheld"')]:
            said, status = helpers.run("final", *words, cwd=self.here)
            self.assertIn(why, said)
            self.assertEqual(status, 1)
            self.assertIn("state = amended\n", self.text("cup", "series.ini"))

    def test_states(self) -> None:
        said = helpers.run("amended", "cup", "Appeal upheld: FRA 9", cwd=self.here)
        self.assertEqual(said, ("The results of cup are amended: Appeal upheld: FRA 9.\n", 0))
        self.assertIn("state = amended\n# shown below the title\nreason = Appeal upheld: FRA 9\n",
                      self.text("cup", "series.ini"))
        helpers.run("final", "cup", cwd=self.here)
        self.assertIn("state = final\n# shown below the title\nreason = \n",
                      self.text("cup", "series.ini"))
        self.write(self.text("cup", "series.ini").replace("[notice]", "[ notice ]"), "cup", "series.ini")
        helpers.run("provisional", "cup", cwd=self.here)
        self.assertIn("can be opened", helpers.run("check", "cup", cwd=self.here)[0])


if __name__ == "__main__":
    unittest.main()
