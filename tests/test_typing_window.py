"""The windows of those who type, in terminals: what they ask and say."""
from __future__ import annotations

import contextlib
import os
import unittest
from unittest import mock

import helpers
from raceoffice.errors import NotSent
from raceoffice.program.journal import Race
from raceoffice.series.folder import Folder
from raceoffice.series.kept_places import Note
from raceoffice.series.unknown_finishers import Waiting
from raceoffice.session.answers import outcome, place_in
from raceoffice.session.dialogue import ANSWER, Outcome, Said
from raceoffice.session.facts import Facts
from raceoffice.session.session import Session


class Client(helpers.Series):
    def setUp(self) -> None:
        super().setUp()
        self.said: list[Said] = []

    def test_a_race(self) -> None:
        self.open()
        window = self.window("type", "cup")
        window.read("finish, jury or scorer: $")
        window.say("fin", "you type as the finish. help lists your lines.\n> $")
        self.play(window, """
> mark 1 gbr 33 ocs
OK 8   OCS in race 1; 0 finished, 1 coded, 6 to come of 7
> at 1
1> 
> gbr 101
OK 9   1st in race 1; 1 finished, 1 coded, 5 to come of 7
> 12
   12 is NED 12 Windhover
OK 10   2nd in race 1; 2 finished, 1 coded, 4 to come of 7
> tie 1 gbr 7 ned 12
OK 11   2nd (tied) in race 1; 3 finished, 1 coded, 3 to come of 7
> strike 1 gbr 110
   Not sent: GBR110 isn't entered. Do you mean GBR 101 Kestrel?
> mark 1 fra 9 dsq
NO 4   Refused: your role doesn't send this line. Nothing has changed.
> score 1
NO 4
""")
        self.assertNotIn("ENTER", window.say("help", "quit .*\n1> $"))
        window.type("quit")
        self.assertEqual(window.rest()[1], 0)
        log = self.text("cup", "office.log")
        self.assertRegex(log, r"\t\d+\t\t\tFINISH\tcame\t\n")
        self.assertRegex(log, r"\t2\tFINISH\tFINISH 1 GBR101\tOK 9 1= 0.0\n")

    def test_sail_that_was_not_read(self) -> None:
        """A finisher whose sail wasn't read keeps her place until she is known."""
        self.open()
        window = self.typist()
        self.play(window, """
> mark 1 gbr 33 ocs
> at 1
> gbr 101
> 12
> tie 1 gbr 7 ned 12
> ?
   ?1 keeps her place.
> 55
OK 12   5th in race 1, with 1 unread finisher ahead; 4 finished, 1 coded, 2 to come of 7
> ? 5
   BEFORE 1 IRL5 IRL55
OK 13   4th in race 1; 5 finished, 1 coded, 1 to come of 7
> race 1
Race 1 doesn't count yet: 5 finished, 1 coded, 1 not recorded, 7 boats
    2=  GBR 7 Sea Pink
     4  IRL 5 Curlew
   OCS  GBR 33 Turnstone
  not recorded: FRA 9 Plover
> at
> ? 9
   Not sent: first say which race: at 3.
> at 2
> ?
   ?1 keeps her place.
""")
        window.type("quit")
        self.assertEqual(window.rest(), ("Kept without a sail: ?1 in race 2.\n", 0))

    def test_numbers_that_stay(self) -> None:
        """A number that was written on paper is that of one finisher for the whole race."""
        self.open()
        window = self.typist()
        self.play(window, """
> at 1
> ?
   ?1 keeps her place.
> 101
> ?
   ?2 keeps her place.
> ?
   ?3 keeps her place.
> 12
OK 9   5th in race 1, with 3 unread finishers ahead
> score 1
NO 4
> race 1
    ?1  1st on the water, but her sail isn't known
    ?2  3rd on the water, but her sail isn't known
    ?3  4th on the water, but her sail isn't known
> ? 9
   Not sent: more than one place is kept: type ?1, ?2 or ?3 and her sail.
> ?1 7
   BEFORE 1 GBR7 GBR101
> ?1 9
   Not sent: no finisher ?1 is kept in race 1, only ?2 and ?3.
> ?2 none
   ?2 is dropped.
> ?
   ?4 keeps her place.
> ?3 fra 9
   BEFORE 1 FRA9 NED12
> ? 33
   FINISH 1 GBR33
OK 12   5th in race 1
""")

    def test_places_of_another_window(self) -> None:
        """A place belongs to the class: each window knows it, and may say who she is or drop her."""
        self.open()
        finish, scorer = self.typist("finish", "--name", "Ann"), self.typist("scorer")
        self.play(finish, "> at 1\n> 101\n> ?\n> ?\n> 12\n> ?1 none\n> at 2\n> ?")
        self.assertRegex(scorer.say("score 1", r"\[y/N\] $"), r"   \?2 \(kept by Ann at \d\d:\d\d\): a "
                         r"finisher without a sail would be left out\. Score it all the same\? \[y/N\] $")
        self.play(scorer, """
> n
> abandon 1
To take race 1 away 2 lines are sent:
  Places that are dropped: ?2
> y
Race 1 is taken away: 2 lines, all taken.
> abandon 2
To take race 2 away no lines are sent:
  Places that are dropped: ?1
   Drop the places? [y/N]
> n
   Not sent.
""")
        said = finish.say("race 1", "2> $")
        self.assertRegex(said, r"^   \?2 of race 1 is dropped by scorer at \d\d:\d\d: race 1 was taken "
                               r"away\.\n"
                         "Race 1 doesn't count yet: 0 finished")
        finish.say("?", r"   \?2 keeps her place.*\n2> $")
        self.assertIn("OK 12   1st in race 2", scorer.say("?1 33", "> $"))
        self.assertRegex(finish.say("race 2", "2> $"), r"   \?1 of race 2 is GBR33, by scorer at \d\d:\d\d: "
                         r"entry 12, FINISH 2 GBR33\.\n")
        self.play(scorer, "> finish 1 7\n> finish 1 9\n> score 1\nRace 1 is to count: 2 finished")
        self.assertNotIn("without a sail", scorer.say("n", "> $"))
        jury = self.typist("jury")
        self.assertIn("Not sent: the places of finishers are for the finish", jury.say("?2 7", "> $"))
        self.assertIn("Not sent: abandon 2 needs STRIKE", jury.say("abandon 2", "> $"))

    def test_numbers_of_boats(self) -> None:
        """A whole number is hers if one boat has it; other sails that end so are named."""
        self.make("many", entries="Sail,Boat\nSWE 12,Iris\nNED 112,Windhover\nGBR 1042,Osprey\n"
                  "GBR 42,Kestrel\nFRA 42,Plover\nIRL 342,Dunlin\n")
        self.open("many")
        window = self.client("many", "--role", "finish")
        self.play(window, """
> at 1
> 12
   12 is SWE 12 Iris; NED 112 Windhover ends so too
OK 7   1st in race 1
> strike 1 42
   Not sent: 42 may be GBR 42 Kestrel or FRA 42 Plover: type more of her sail.
> 1042
   1042 is GBR 1042 Osprey
> strike 1 2
   Not sent: 2 may be SWE 12 Iris, NED 112 Windhover, GBR 1042 Osprey, GBR 42 Kestrel, FRA 42 Plover or
> before 1 342 gbr 1042
   342 is IRL 342 Dunlin
OK 9   2nd in race 1
""")
        self.assertNotIn(" is ", window.say("gbr 42", "OK 10 "))

    def test_questions(self) -> None:
        self.make("five", absent="a53")
        self.open("five")
        window = self.client("five", "--role", "scorer")
        self.play(window, """
> at 1
> 101
> 12
> penalty 1 7 zfp
> score 1
   GBR 7 Sea Pink: a penalty, but no place and no code. Scored DNC, and under RRS A5.3 as not having come.
> y
   Score race 1 with 5 boats as DNC? [y/N]
> y
OK 11   race 1 counts
> finish 1 33
   RACE 1 COUNTS ALREADY. Is this a correction? [y/N]
> n
   Not sent.
> finish 1 33
   RACE 1 COUNTS ALREADY. Is this a correction? [y/N]
> y
OK 12   3rd in race 1
   >>> RACE 1 COUNTS: THE RESULTS HAVE CHANGED.
       GBR 33 Turnstone: 3rd (tied) to 3rd, net 8.0 to 3.0 (race 1: 8.0/DNC to 3.0)
> enter den 16
   DEN16 isn't on the entry list. Enter DEN16? Only raceoffice remove takes her out again. [y/N]
> n
   Not sent.
> mark 1 7 dnf
   RACE 1 COUNTS ALREADY. Is this a correction? [y/N]
> y
> clear 1 7
   RACE 1 COUNTS ALREADY. DNF and ZFP both go; type again what stays. Clear her? [y/N]
> n
   Not sent.
> before 1 5 33
   5 is IRL 5 Curlew
> n
> enter den 16
> 9
Not sent, since it answers no question: 9
   Type y for yes, or n for no.
   DEN16 isn't on the entry list. Enter DEN16? Only raceoffice remove takes her out again. [y/N]
> y
OK 14   DEN16 is entered: 8 boats now. Her name comes from entries.csv: add her there
""")
        self.assertEqual(self.text("five", "office.log").count("\tOK 12"), 1)

    def test_entered(self) -> None:
        """Of a boat that the entry list has it isn't said that she should be added."""
        facts = Facts(Folder(os.path.join(self.here, "cup")))
        self.assertEqual(outcome(facts, "ENTER GBR7", Waiting(), 9, "").text,
                         "OK 9   GBR 7 Sea Pink is entered: no boats now")

    def test_given(self) -> None:
        """Who is scored by redress isn't said to be scored by her code."""
        trials: list[tuple[dict[str, str], str]] = [({"GBR7": "6.0"}, "held"), ({}, "coded")]
        for given, what in trials:
            race = Race(1, codes={"GBR7": "DNF"}, redress=given)
            self.assertEqual(place_in(race, "GBR7", 0)[0], what)

    def test_listed_meanwhile(self) -> None:
        """A window calls boats as the entry list has them by now; one that can't be read leaves the names as they were."""
        self.open()
        window = self.client("cup", "--role", "finish")
        window.say("at 1", "> $")
        entries = self.text("cup", "entries.csv")
        self.write(entries.replace("Sea Pink", "Thrift"), "cup", "entries.csv")
        self.assertIn("7 is GBR 7 Thrift", window.say("7", "OK(?s:.*)> $"))
        self.write("no list", "cup", "entries.csv")
        self.assertIn("GBR 7 Thrift", window.say("race 1", "(?s:.*)> $"))

    def test_odd_races(self) -> None:
        """Lines that the program takes, and that the rules hardly mean."""
        self.make("five", absent="a53")
        self.open("five")
        window = self.client("five", "--role", "scorer")
        self.play(window, """
> mark 2 5 ocs
> finish 2 5
OK 9   she holds OCS in race 2, and is scored so
> score 2
Only boats with a code are in the finishing order. Score it all the same? [y/N]
> n
> role jury
ROLE JURY   your lines are now those of the jury
> redress 2 7 all
   GBR 7 Sea Pink has no place and no code in race 2. Under RRS A5.3 she doesn't count as having come
> n
   Not sent.
> role scorer
> mark 2 7 dnf
OK 10   DNF in race 2
> role jury
> redress 2 7 all
OK 11   DNF and redress ALL in race 2
""")

    def test_two_windows(self) -> None:
        """What is asked depends on what another window has typed meanwhile."""
        self.open()
        scorer = self.typist("scorer")
        finish = self.typist()
        finish.say("finish 1 101", "OK 8 .*\n> $")
        self.assertIn("Race 1 is to count: 1 finished, 0 coded, 6 not recorded, 7 boats\n     1  "
                      "GBR 101 Kestrel\n", scorer.say("score 1", r"with 6 boats as DNC\? \[y/N\] $"))
        scorer.say("y", "OK 9   race 1 counts\n> $")
        finish.say("finish 1 7", r"RACE 1 COUNTS ALREADY\. Is this a correction\? \[y/N\] $")
        finish.say("n", "Not sent.\n> $")
        scorer.say("enter usa 7", r"\[y/N\] $")
        scorer.say("y", "OK 10 .*(\n .*)*\n> $")
        finish.say("finish 2 7", "7 may be GBR 7 Sea Pink or USA7: type more of her sail.\n> $")
        finish.say("finish gbr 7", "GBR is no race: the number of the race comes after FINISH.\n> $")

    def test_short_lines(self) -> None:
        """After `at 3` the race may be left out, and a code is a line. What may be two things is asked."""
        self.open()
        window = self.typist()
        self.play(window, """
> at 3
> mark 33 ocs
   33 is GBR 33 Turnstone
OK 8   OCS in race 3
> 12
> 101
> before 9 12
OK 11   1st in race 3
> tie 7 101
OK 12   3rd (tied) in race 3
> 55 dnf
OK 13   DNF in race 3
> strike 9
OK 14   out of the order of race 3
> zfp 7
OK 15   ZFP in race 3
> mark 3 ocs
   3 may be a race or a boat. Is MARK 3 GBR33 OCS meant? [y/N]
> n
   Not sent: type the race and all of her sail: MARK race sail code.
> 101,12
   Not sent: 101,12 has a comma, which no sail has: type one boat in a line.
> race
Race 3 doesn't count yet
""")

    def test_help_of_a_word(self) -> None:
        self.open()
        window = self.typist()
        self.play(window, """
> help mark
   MARK race sail code       DNC DNS OCS UFD BFD DNF RET; the jury: DSQ DNE
   After at 3: mark 33 ocs, or ocs 33, or 33 ocs.
> help ocs
   MARK race sail code
> help undo
   It shows the line that reverses yours, and asks.
> help 101?
   ?1 sail                   she is known now; or ?1 none
> help xyz
   xyz is no line: help lists them
""")

    def test_number_that_is_not_clear(self) -> None:
        """Who crossed the line keeps her place also if her number is that of two boats, or of none. A sail
        that is like it is asked."""
        self.make("two", entries="Sail,Boat\nGBR 101,Kestrel\nGER 101,Adler\nNED 12,Windhover\nGBR "
                                 "33,Plover\n")
        self.open("two")
        window = self.client("two", "--role", "finish")
        self.play(window, """
> at 1
> 101
   101 may be GBR 101 Kestrel or GER 101 Adler. 101? keeps her place.
> 12
OK 5   2nd in race 1, with 1 unread finisher ahead
> ger 101
   101? keeps a place. Is she GER 101 Adler? [y/N]
> n
OK 6   3rd in race 1, with 1 unread finisher ahead
> 412
   412 isn't entered. 412? keeps her place.
> 412
   412 isn't entered. 412?2 keeps her place.
> ned 13
   NED13 isn't entered. Do you mean NED 12 Windhover? NED13? keeps her place.
> gbr 101
   101? keeps a place. Is she GBR 101 Kestrel? [y/N]
> y
   BEFORE 1 GBR101 NED12
OK 7   1st in race 1
> 412? none
   412? is dropped.
> 412?2 gbr 33
   FINISH 1 GBR33
> ned 13? none
> 33
NO 8   Refused: she is in the finishing order of this race already
   If another boat crossed the line, type ? for her now.
> ?
   ?1 keeps her place.
> ?1 33
NO 8   Refused: she is in the finishing order of this race already
> race 1
    ?1  5th on the water, but her sail isn't known
> ?1 none
> mark 1 101 ocs
   Not sent: 101 may be GBR 101 Kestrel or GER 101 Adler: type more of her sail.
> hello
   Not sent: HELLO isn't entered.
> at3
   Not sent: AT3 isn't entered.
> 33?
   33? keeps her place.
> 33?
   Not sent: type 33? and her sail, or 33? none.
> what?
   Not sent
""")

    def test_signs_of_a_terminal(self) -> None:
        """Of a name and of who types the terminal obeys no sign, whoever wrote it into a file."""
        self.make("odd", entries="Sail,Boat\nGBR 7,Wind\x1b[2K\x1b[1Ahover\nGBR 12,\u202eevil\u200b\nGBR "
                                 "112,\x9bA\n")
        self.open("odd")
        with open(os.path.join(self.here, "odd", "office", "places"), "wb") as file:
            file.write(Note("kept", 1, "?1", "Eve\x1b[2K", time="\u202e" * 20).text())
        window = self.window("type", "odd", "--role", "scorer", "--name", "Eve\x1b[2K")
        said = window.read("> $")
        for line, end in [("at 1", "> $"), ("gbr 7", "OK 4 .*\n1> $"), ("12", "OK 5 .*\n1> $"),
                          ("race 1", "1> $"),
                          ("score 1", r"\] $"), ("y", r"\] $"), ("y", "1> $"), ("standing", "1> $"),
                          ("rank 7", "1> $"),
                          ("2", "1> $"), ("strike 1 7", r"\] $"), ("y", "1> $")]:
            said += window.say(line, end)
        for text in ("Wind[2K[1Ahover", "GBR 12 evil", "kept by Eve\\x1b[2K at \\u202e"):
            self.assertIn(text, said)
        self.assertEqual({letter for letter in said if not letter.isprintable()}, {"\n"})
        other = self.client("odd", "--role", "finish")
        window.say("?1 none", "is dropped.\n1> $")
        said = other.say("race 1", "> $")
        self.assertIn("   ?1 of race 1 is dropped by Eve[2K at ", said)
        self.assertEqual({letter for letter in said if not letter.isprintable()}, {"\n"})

    def test_long_numbers(self) -> None:
        """A number of more digits than Python reads is no number of a race, at the prompt and in a file."""
        long = "1" * 4301
        self.open()
        session = Session(Folder(os.path.join(self.here, "cup")), "SCORER", "", self.said.append,
                          lambda _: True)
        session.connect()
        self.addCleanup(session.disconnect)
        for line in (f"at {long}", f"race {long}", f"abandon {long}", f"finish {long} 7",
                     f"mark 1 {long} ocs", long,
                     f"ocs {long} 7", f"time {long} 7 9", f"?{long} 7", f"{long}?", f"tie {long} 7 12"):
            for session.at in (None, 1):
                with self.assertRaises(NotSent) as caught:
                    session.do(line)
                self.assertLess(len(str(caught.exception)), 200)
        for line in (f"score {long}", f"unscore {long}"):
            self.assertFalse(session.do(line).is_taken)
        session.do(f"help {long}")
        for line in (f"FINISH {long} GBR7", f"SCORE {long}", f"ABANDON {long}"):
            said, status = helpers.run("type", "cup", "--role", "scorer", lines=line, cwd=self.here)
            self.assertIn("NO 20   Refused: the line is longer than 80 letters.", said)
            self.assertEqual(status, 1)

    def test_places_that_cannot_be_written(self) -> None:
        """If the file of places can't be written, that is said, nothing ends, and what was kept stays."""
        self.open()
        window = self.typist("scorer")
        self.play(window, "> at 1\n> 101\n> ?\n> 12")
        path = os.path.join(self.here, "cup", "office", "places")
        os.rename(path, f"{path}.good")
        os.mkdir(path)
        self.play(window, """
> ?
   Beware: """ + path + """ can't be read: it isn't a plain file. A finisher without a sail may be missing.
   Not sent: """ + path + """ can't be written: Is a directory. Write her down on paper.
> ?1 none
   Not sent: """ + path + """ can't be written: Is a directory.
> 7
OK 10   4th in race 1, with 1 unread finisher ahead
> score 1
   ?1 (kept by scorer at
> n
> abandon 1
> y
   Beware: """ + path + """ can't be written: Is a directory. Still kept: ?1.
Race 1 is taken away: 3 lines, all taken.
""")
        os.rmdir(path)
        os.rename(f"{path}.good", path)
        window.say("?1 33", "OK 14 .*\n1> $")

    def test_struck_at_once(self) -> None:
        """A boat that another window strikes before this one has looked is out of the order again."""
        self.open()
        session = Session(Folder(os.path.join(self.here, "cup")), "FINISH", "", self.said.append,
                          lambda _: True)
        session.connect()
        self.addCleanup(session.disconnect)
        assert session.link
        ask = session.link.ask

        def asked(line: str) -> str:
            """The office's answer, after which a scorer strikes her."""
            answer = ask(line)
            if line.startswith("FINISH"):
                with contextlib.closing(session.folder.link()) as scorer:
                    scorer.ask("ROLE SCORER")
                    scorer.ask("STRIKE 1 GBR7")
            return answer
        with mock.patch.object(session.link, "ask", asked):
            self.assertEqual(session.do("finish 1 7"), Outcome(True, "FINISH 1 GBR7", 8))
        self.assertEqual(self.said[-1], Said(
            "OK 8   she is out of the order of race 1 again; 0 finished, 0 coded, 7 to come of 7", ANSWER))

    def test_abandon(self) -> None:
        self.open()
        window = self.typist("scorer")
        self.play(window, """
> at 1
> 101
> 12
> penalty 1 12 zfp
> mark 1 5 ret
> abandon 1
To take race 1 away 3 lines are sent:
    STRIKE 1 GBR101
    STRIKE 1 NED12
    CLEAR 1 IRL5 (RET)
  ZFP and BFD stay (RRS 30.2, 30.4): NED 12 Windhover ZFP
  If the race is resailed under a new number: type them there, and clear them here
   Send them? [y/N]
> y
Race 1 is taken away: 3 lines, all taken.
> abandon 1
Nothing of race 1 has to be taken away.
""")

    def test_abandon_by_the_finish(self) -> None:
        """The finish may take a race away until it counts, and the jury may not."""
        self.open()
        window, jury = self.typist(), self.typist("jury")
        self.assertIn("   abandon 3 ", window.say("help", "quit .*\n> $"))
        self.assertNotIn("abandon", jury.say("help", "quit .*\n> $"))
        window.say("finish 1 101", "OK 8 .*\n> $")
        self.assertIn("needs STRIKE, which the jury doesn't send", jury.say("abandon 1", "> $"))
        window.say("abandon 1", r"Send them\? \[y/N\] $")
        window.say("y", "Race 1 is taken away: 1 line, all taken.\n> $")
        scorer = self.typist("scorer")
        scorer.say("finish 1 101", "OK 10 .*\n> $")
        scorer.say("score 1", r"\[y/N\] $")
        scorer.say("y", "OK 11 .*\n> $")
        self.assertIn("needs UNSCORE, which the finish doesn't send", window.say("abandon 1", "> $"))

    def test_file(self) -> None:
        self.open()
        lines = "\ufeffFINISH\t1 GBR101\r\n\nfinish 1 ned12\nFINISH 1 GBR78\nFINISH 1 GBR7\nFINISH 1 FRA9\n"
        said, status = helpers.run("type", "cup", "--role", "finish", lines=lines, cwd=self.here)
        self.assertEqual(status, 1)
        self.assertIn("> FINISH 1 GBR78\nNO 7   Refused: a boat that is named isn't entered. Nothing "
                      "has changed.\nStopped at line 4. The lines above it were taken; the 2 below "
                      "weren't sent.\nCorrect line 4 and send the rest: raceoffice type cup "
                      "--role finish --from 4 < lines.txt\n", said)
        said, status = helpers.run("type", "cup", "--role", "finish", "--from", "5", lines=lines,
                                   cwd=self.here)
        self.assertIn("OK 11   4th in race 1", said)
        self.assertEqual(status, 0)
        said, status = helpers.run("type", "cup", "--role", "finish", cwd=self.here,
                                   lines="FINISH 1 GBR33\nFINISH 1 IRL\u20135\n")
        self.assertIn("Stopped: line 2 has the sign", said)
        self.assertNotIn("> FINISH", said)
        self.assertIn("need --role", helpers.run("type", "cup", lines="x", cwd=self.here)[0])
        for number in ("0", "-5", "two"):
            said, status = helpers.run("type", "cup", "--role", "finish", f"--from={number}", lines="x",
                                       cwd=self.here)
            self.assertIn(f"'{number}' is no number of a line, from 1 on", said)
            self.assertEqual(status, 2)

    def test_file_again(self) -> None:
        """What sends the rest of a file can be copied, also if the folder's name has a space."""
        self.make("my cup")
        self.open("my cup")
        said, status = helpers.run("type", "my cup", "--role", "finish", lines="FINISH 1 GBR78\n", cwd=self.here)
        self.assertEqual(status, 1)
        self.assertIn("raceoffice type 'my cup' --role finish --from 1 < lines.txt", said)

    def test_unscore(self) -> None:
        """To take a race out of the results is asked, and what that moves is said."""
        self.open()
        window = self.typist("scorer")
        self.play(window, """
> finish 1 101
> finish 1 7
> score 1
> y
> finish 2 7
> finish 2 101
> finish 2 12
> score 2
> y
OK 14   race 2 counts
> unscore 1
   Race 1 counts. Take it out of the results? [y/N]
> n
   Not sent.
> unscore 1
> y
OK 15   race 1 counts no longer
   >>> THE RESULTS HAVE CHANGED.
       GBR 101 Kestrel: 2nd, net 1.0 to 2.0
> unscore 1
NO 14
> unscore 2
> y
   >>> NO RACE COUNTS ANY MORE.
""")

    def test_each_correction_is_asked(self) -> None:
        """In a race that counts each line is questioned, also after another was."""
        self.open()
        window = self.typist("scorer")
        self.play(window, """
> finish 1 101
> finish 1 7
> score 1
> y
> strike 1 7
   RACE 1 COUNTS ALREADY. Is this a correction? [y/N]
> y
> before 1 7 101
   RACE 1 COUNTS ALREADY. Is this a correction? [y/N]
> n
   Not sent.
> mark 1 7 dnf
   RACE 1 COUNTS ALREADY. Is this a correction? [y/N]
> n
   Not sent.
> penalty 1 101 zfp
   RACE 1 COUNTS ALREADY. Is this a correction? [y/N]
> n
   Not sent.
> mark 2 7 dnf
OK 12   DNF in race 2
> role jury
> redress 1 101 all
   RACE 1 COUNTS ALREADY. Is this a correction? [y/N]
> n
   Not sent.
""")

    def test_corrected_times(self) -> None:
        """After `at 1` a line is a sail and her seconds, and the race shows the times."""
        self.make("club", handicap="yes")
        self.open("club")
        window = self.client("club", "--role", "scorer")
        self.play(window, """
> at 1
1> 
> gbr 101 4005
OK 8   1st in race 1
> 7 3600
   7 is GBR 7 Sea Pink
OK 9   1st in race 1
> gbr 33
   Not sent: her corrected time is missing: gbr 33 and its seconds.
> 33
   Not sent: her corrected time is missing: 33 and its seconds.
> race 1
     1  GBR 7 Sea Pink   3600 s (1:00:00)
     2  GBR 101 Kestrel   4005 s (1:06:45)
> score 1
     2  GBR 101 Kestrel   4005 s (1:06:45)
> n
> help
   at 3                      from here on a line is a sail and her seconds, in race 3
   TIME race sail seconds
""")
        self.assertNotIn("FINISH", window.say("help", "quit .*\n1> $"))

    def test_help_of_the_jury(self) -> None:
        self.open()
        said = self.typist("jury").say("help", "quit .*\n> $")
        self.assertIn("   race 3 ", said)
        for line in ("   at 3", "   ?", "   abandon", "   TIME"):
            self.assertNotIn(line, said)

    def test_roles(self) -> None:
        """A role that there isn't is said in a sentence, before anything is opened."""
        for words in (["cup", "--role", "king"], ["cup", "--role", ""]):
            said, status = helpers.run("type", *words, lines="FINISH 1 GBR7\n", cwd=self.here)
            self.assertIn("role", said)
            self.assertNotIn("usage", said)
            self.assertEqual(status, 1)

    def test_no_role(self) -> None:
        """Ctrl-C at the question for the role leaves at once."""
        self.open()
        window = self.window("type", "cup")
        window.read("scorer: $")
        window.press()
        said, status = window.rest()
        self.assertEqual((said.strip(), status), ("Stopped: no role was given.", 1))

    def test_history(self) -> None:
        """Arrow up brings the last line, and no answer to a question."""
        self.open()
        window = self.typist("scorer")
        window.say("enter den 16", r"\[y/N\] $")
        window.say("n", "Not sent.\n> $")
        window.say("\x1b[A", r"Enter DEN16\? .*\[y/N\] $")

    def test_block(self) -> None:
        """Several lines that are pasted at once; a list of sails is shown and agreed to first."""
        self.open()
        window = self.typist()
        self.assertIn("Not sent, since the line before it wasn't taken: finish 1 7\n", window.say(
            "finish 1 101\x16\nfinish 1 101\x16\nfinish 1 7", r"\n> $"))
        window.say("at 1", "1> $")
        self.assertEqual(window.say("12\x16\n7\x16\ngbr 33", r"\] $"),
                         "     1  NED 12 Windhover\n     2  GBR 7 Sea Pink\n     3  GBR 33 Turnstone\n"
                         "   Send these 3 finishes in race 1? [y/N] ")
        window.say("n", "Not sent.\n1> $")
        window.say("12\x16\n7\x16\ngbr 33", r"\] $")
        window.say("y", "OK 11   4th in race 1; .*\n1> $")
        window.say("9\x16\n9x", "   9X isn't entered.*\n   Not sent.\n1> $")

    def test_typed_ahead(self) -> None:
        """A line that was typed before a question came is no answer to it."""
        self.open()
        window = self.typist("scorer")
        os.write(window.master, b"enter den 16\nyes\n")
        window.read(r"Not sent, since a question came before it: yes\n(.|\n)*\[y/N\] $")
        window.say("n", "Not sent.\n> $")

    def test_half_typed_ahead(self) -> None:
        """Half a line that was typed before a question came is no part of its answer, and it is said."""
        self.open()
        window = self.typist("scorer")
        os.write(window.master, b"enter den 16\nyes\ny")
        window.read(r"Not sent, since a question came before it: yes\n"
                    r"Not sent, since a question came before it: y\n(.|\n)*\[y/N\] $")
        window.say("", "Not sent.\n> $")
        self.play(window, "> at 1")
        os.write(window.master, b"12\x16\n7\ny\ny")
        window.read(r"before it: y\nNot sent, since a question came before it: y\n"
                    r"   Send these 2 finishes in race 1\? \[y/N\] $")
        window.say("", "Not sent.\n1> $")

    def test_pasted(self) -> None:
        """Pasted lines stop at the first that is refused."""
        self.open()
        window = self.typist()
        os.write(window.master, b"finish 1 101\nfinish 1 101\nfinish 1 7\n")
        window.read("OK 8 ")
        window.read("NO 8 ")
        window.read("Not sent, since the line before it wasn't taken: finish 1 7\n> $")


if __name__ == "__main__":
    unittest.main()
