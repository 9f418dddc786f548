"""One window for two classes: which one a line is for, and what is said of each."""
from __future__ import annotations

import os
import signal
import socket
import threading
import unittest
import unittest.mock

import helpers
from hanging_folder import Dead
from raceoffice.program.link import Link
from raceoffice.series.folder import Folder
from raceoffice.session.session import Session
from raceoffice.typing_window import watcher
from raceoffice.typing_window.classes import class_named, short
from raceoffice.typing_window.window import Window

FLEET = "Boat,Sail\nFulmar,GBR 33\nSterna,NED 80\nPetrel,NED 84\n"


class Classes(helpers.Series):
    def setUp(self) -> None:
        super().setUp()
        self.make("fleet", entries=FLEET)

    def test_two_classes(self) -> None:
        """A sail chooses its class; if it doesn't, the class is typed first."""
        self.open()
        self.open("fleet")
        window = self.window("type", "cup", "fleet", "--role", "finish")
        window.read("You type as the finish, for cup \\(Autumn Cup\\) and fleet \\(Autumn Cup\\)\\.\nA sail "
                    "chooses its class\\. Otherwise the class comes first: c for cup and f for "
                    "fleet\\.\nhelp lists your lines\\.\ncup, fleet> $")
        self.play(window, """
> c at 3
cup 3, fleet> 
> 33
   33 is GBR 33 Turnstone
OK 8   cup: 1st in race 3
> strike 3 gbr 33
33 may be GBR 33 Turnstone (cup) or GBR 33 Fulmar (fleet): type her class first.
> strike 3 gbr 33
> c strike 3 33
> f at 2
cup 3, fleet 2> 
> 33
   33 may be GBR 33 Turnstone (cup) or GBR 33 Fulmar (fleet).
   cup: 33? keeps her place.
   fleet: 33? keeps her place.
> c 33
   33 is GBR 33 Turnstone
   cup: 33? keeps a place. Is she GBR 33 Turnstone? [y/N]
> y
   cup: 1st in race 3
   fleet: 33? is dropped.
> 80
   fleet: 1st in race 2
> tie 3 gbr 7 gbr 33
   cup: 1st (tied) in race 3
> race 3
Not sent: race 3 is for one class: type c race 3 (cup) or f race 3 (fleet).
> f race 2
fleet: Race 2 doesn't count yet
     1  NED 80 Sterna
> help
A sail chooses its class. Otherwise the class comes first: c for cup and f for fleet.
""")

    def test_one_office_goes(self) -> None:
        """The other class goes on."""
        self.open()
        self.open("fleet")
        window = self.client("cup", "fleet", "--role", "finish")
        self.play(window, "> c at 3\n> f at 2")
        os.kill(int(self.text("cup", "office", "pid").split()[0]), signal.SIGKILL)
        window.read("Beware: the office has gone, that of cup. The others go on.")
        window.read("> $")
        self.play(window, """
> c 12
Not sent: the office of cup has gone. Write 12 down.
> f 33
   fleet: 1st in race 2
""")

    def test_lines_for_one_class(self) -> None:
        """The number of a race is no sail: such a line needs its class."""
        self.open()
        self.open("fleet")
        window = self.client("cup", "fleet", "--role", "scorer")
        self.play(window, """
> finish 4 ned 84
> finish 1 gbr 101
> score 4
Not sent: score 4 is for one class: type c score 4 (cup) or f score 4 (fleet).
> unscore 1
Not sent: unscore 1 is for one class: type c unscore 1 (cup) or f unscore 1 (fleet).
> abandon 1
Not sent: abandon 1 is for one class
> standing
Not sent: standing is for one class
> enter 4
Not sent: enter 4 is for one class
> at 1
Not sent: at 1 is for one class
""")

    def test_questions(self) -> None:
        """Each question and refusal names the class, and so does what is shown before it."""
        self.open()
        self.open("fleet")
        window = self.client("cup", "fleet", "--role", "scorer")
        self.play(window, """
> finish 4 ned 84
> f score 4
fleet: Race 4 is to count: 1 finished
   fleet: Score race 4 with 2 boats as DNC? [y/N]
> y
OK 5   fleet: race 4 counts
> f score 4
NO 13   fleet: Refused: this race counts already. Nothing has changed.
> rank 84
   fleet: NED 84 Petrel is 1st with 1.0 points
> f strike 4 84
   fleet: RACE 4 COUNTS ALREADY. Is this a correction? [y/N]
> n
> f unscore 4
   fleet: Race 4 counts. Take it out of the results? [y/N]
> n
   Not sent.
> f abandon 4
fleet: To take race 4 away 2 lines are sent:
> y
fleet: Race 4 is taken away: 2 lines, all taken.
> f standing
fleet: rank and net points
> role jury
ROLE JURY   cup: your lines are now those of the jury
ROLE JURY   fleet: your lines are now those of the jury
""")

    def test_unread_in_two_classes(self) -> None:
        """A place kept by ? needs no class if one class is at a race, or by her sail or number."""
        self.open()
        self.open("fleet")
        window = self.client("cup", "fleet", "--role", "finish")
        self.play(window, """
> c at 1
> ?
   cup: ?1 keeps her place.
> ?
   cup: ?2 keeps her place.
> 412
   cup: 412 isn't entered. 412? keeps her place.
> f at 1
> f ?
   fleet: ?1 keeps her place.
> ?1 none
Not sent: ?1 is for one class: type c ?1 none (cup) or f ?1 none (fleet).
> ?2 none
   cup: ?2 is dropped.
> ?1 80
OK 4   fleet: 1st in race 1
> ?1 7
OK 8   cup: 1st in race 1
> 412? none
   cup: 412? is dropped.
""")

    def test_class_that_is_not_clear(self) -> None:
        """Who may be in either class keeps her place in both, until she is known in one."""
        self.open()
        self.open("fleet")
        window = self.client("cup", "fleet", "--role", "finish")
        self.play(window, """
> c at 1
> f at 1
> ?
   ? is for one class.
   cup: ?1 keeps her place. Once she is known, type: ?1 and her sail (or none)
   fleet: ?1 keeps her place. Once she is known, type: ?1 and her sail (or none)
> 80
OK 4   fleet: 2nd in race 1, with 1 unread finisher ahead
> 412
   It isn't clear for which class this is.
   cup: 412? keeps her place.
   fleet: 412? keeps her place.
> 412
   cup: 412?2 keeps her place.
   fleet: 412?2 keeps her place.
> ?1 7
OK 8   cup: 1st in race 1
   fleet: ?1 is dropped.
> c 412? none
   cup: 412? is dropped.
> f 412? 84
OK 5   fleet: 2nd in race 1
> strike 84
OK 6   fleet: out of the order of race 1
> undo
   fleet: STRIKE 1 NED84 is taken back by FINISH 1 NED84. Send it? [y/N]
> y
OK 7   fleet: 2nd in race 1
> 9 dnf
OK 9   cup: DNF in race 1
> c race 1
 412?2  2nd on the water
""")
        window.type("quit")
        self.assertEqual(window.rest(), ("Kept without a sail of cup: 412?2 in race 1.\nKept without a sail "
                                         "of fleet: 412?2 in race 1.\n", 0))

    def both_at_race(self) -> tuple[helpers.Terminal, helpers.Terminal]:
        """A window at a race of both classes, in each of which somebody has finished, and that of the office of fleet."""
        self.open()
        office = self.open("fleet")
        window = self.client("cup", "fleet", "--role", "finish")
        self.play(window, "> c at 1\n> f at 1\n> c 101\n> 84")
        return window, office

    def kill_fleet(self) -> None:
        os.kill(int(self.text("fleet", "office", "pid").split()[0]), signal.SIGKILL)

    def keep(self, window: helpers.Terminal) -> None:
        """Somebody of whom nobody knows the class is kept in both."""
        window.type("?")
        said = window.read(r"(?s)\?1 keeps her place.*\?1 keeps her place.*> $")
        self.assertIn("fleet: ?1 keeps her place.", said)
        self.assertIn("cup: ?1 keeps her place.", said)
        self.assertNotIn("Not sent", said)

    def check_place(self, window: helpers.Terminal) -> None:
        """She is where she crossed the line, once fleet is back and she is known."""
        window.read(r"The office of fleet is back with 4 entries\.\n(?s:.*)"
                    r"Kept without a sail of fleet: \?1 in race 1\.\n(?s:.*)> $")
        self.play(window, """
> f 33
OK 5   fleet: 3rd in race 1, with 1 unread finisher ahead
> ?1 80
OK 6   fleet: 2nd in race 1
   cup: ?1 is dropped.
> f race 1
     1  NED 84 Petrel
     2  NED 80 Sterna
     3  GBR 33 Fulmar
""")

    def test_kept_while_away(self) -> None:
        """Who may be of a class whose office has gone is kept there, too, and a number in both classes as well."""
        window, office = self.both_at_race()
        self.kill_fleet()
        window.read("Beware: the office has gone, that of fleet. The others go on.")
        window.read("> $")
        self.keep(window)
        self.play(window, """
> 33
   33 may be GBR 33 Turnstone (cup) or GBR 33 Fulmar (fleet).
   fleet: 33? keeps her place.
   cup: 33? keeps her place.
> undo
   fleet: 33? is dropped.
""".replace("> undo", "> undo\n> y"))
        office.rest()
        self.open("fleet")
        self.check_place(window)

    def test_kept_as_it_goes(self) -> None:
        """So is she if the window learns only then that the office has gone: nothing is said not to be sent."""
        self.open()
        office = self.open("fleet")
        self.addCleanup(signal.signal, signal.SIGUSR1, signal.getsignal(signal.SIGUSR1))
        said: list[str] = []
        with unittest.mock.patch("raceoffice.typing_window.window.say", said.append):
            window = Window([Folder(os.path.join(self.here, name)) for name in ("cup", "fleet")], "FINISH", "")
            for session in window.sessions:
                session.connect()
                self.addCleanup(session.disconnect)
                session.at = 1
            self.kill_fleet()
            office.rest()
            self.assertEqual(window.refused("?"), "")
            self.assertEqual(said, ["Beware: the office has gone, that of fleet. The others go on.", "   ? is for one class.", *[
                f"   {name}: ?1 keeps her place. Once she is known, type: ?1 and her sail (or none)"
                for name in ("fleet", "cup")]])
            said.clear()
            self.check_hanging(window)
        self.assertEqual(said[1], "   fleet: she isn't kept there: its folder doesn't answer. Write her down, and look whether she is kept "
                         "once it does.")
        self.assertEqual(said[2].partition(" Once")[0], "   cup: ?2 keeps her place.")

    def check_hanging(self, window: Window) -> None:
        """If the folder of the class that is away hangs, its class is named, and the lines after it wait."""
        kept, end = Folder.kept, threading.Event()

        def hanging(folder: Folder) -> list[str]:
            if folder.path.endswith("fleet"):
                end.wait()
            return kept(folder)

        with unittest.mock.patch.object(Folder, "kept", hanging), unittest.mock.patch("raceoffice.side_by_side.PATIENCE", 0.2):
            self.assertEqual(window.refused("?"), "since she isn't kept in fleet")
            end.set()

    def test_kept_while_it_comes_back(self) -> None:
        """So is she while an office is opened again at once; in one that was closed for good she isn't."""
        window, _ = self.both_at_race()
        self.write("again", "fleet", "office", "closing")
        window.read("closed, and opened again at once, that of fleet. The others go on.")
        window.read("> $")
        self.keep(window)
        os.remove(os.path.join(self.here, "fleet", "office", "closing"))
        self.check_place(window)
        self.write("", "fleet", "office", "closing")
        window.read("Beware: the office is being closed, that of fleet. The others go on.")
        window.read("> $")
        said = window.say("?", r"cup: \?2 keeps her place(?s:.*)\n.*> $")
        self.assertNotIn("fleet: ?2", said)
        self.assertIn("fleet: she isn't kept there, since its office was closed. If she is of that class, write her down", said)

    def test_sail_like_a_class(self) -> None:
        """Three letters and a number are a sail, also of a boat that isn't entered, and no class that begins so."""
        sessions = [Session(Folder(os.path.join(self.here, name)), "FINISH", "", lambda _: None, lambda _: True)
                    for name in ("cup", "fleet")]
        for typed, wanted in ("fle 12", ""), ("f 12", "fleet"), ("flee 12", "fleet"), ("cup 12", "cup"), ("fle score 1", "fleet"):
            named = class_named(sessions, typed.split())
            self.assertEqual(named.folder.name if named else "", wanted, typed)
        self.assertEqual([short(session, sessions) for session in sessions], ["c", "f"])

    def test_same_names(self) -> None:
        """Two folders of one name aren't told apart by any line."""
        window = self.window("type", "cup", "cup", "--role", "finish")
        self.assertIn("two of the folders are called cup", window.rest()[0])

    def test_role_while_away(self) -> None:
        """A role that is changed while the office of one class is away is that of the class once it is back."""
        window, office = self.both_at_race()
        self.kill_fleet()
        window.read("that of fleet. The others go on.")
        window.read("> $")
        window.say("role scorer", "cup: your lines are now those of the scorer\n(?s:.*)> $")
        office.rest()
        self.open("fleet")
        window.read("The office of fleet is back(?s:.*)> $")
        window.say("f mark 1 80 dns", "OK 5   fleet: DNS in race 1(?s:.*)> $")
        for name in ("cup", "fleet"):
            os.kill(int(self.text(name, "office", "pid").split()[0]), signal.SIGKILL)
            window.read(f"that of {name}. The others go on.")
            window.read("> $")
        window.say("role jury", "Not sent: all offices have gone.\n(?s:.*)> $")

    def test_entered_meanwhile(self) -> None:
        """A number that a boat has, too, who was entered in the other class since isn't taken for that of the one alone."""
        window, _ = self.both_at_race()
        link = Link(os.path.join(self.here, "fleet", "office", "race.sock"))
        self.assertEqual(link.ask("ENTER USA7")[:2], "OK")
        link.close()
        said = window.say("7", r"7\? keeps her place(?s:.*)7\? keeps her place(?s:.*)> $")
        self.assertRegex(said, r"7 may be GBR 7 .*\(cup\) or USA7 \(fleet\)")

    def test_not_kept_while_away(self) -> None:
        """The class in which she can't be kept is named at once; the other keeps her."""
        window, _ = self.both_at_race()
        self.kill_fleet()
        window.read("that of fleet. The others go on.")
        window.read("> $")
        journal = self.text("fleet", "journal.txt")
        self.write(journal[:journal.rindex("1 FINISH")], "fleet", "journal.txt")
        self.play(window, """
> ?
   fleet: she isn't kept there: journal.txt has changed. Write her down.
   cup: ?1 keeps her place.
""")
        self.write(journal, "fleet", "journal.txt")
        os.mkdir(os.path.join(self.here, "fleet", "office", "places"))
        self.play(window, """
> ?
   fleet: she isn't kept there: 
. Write her down on paper.
   cup: ?2 keeps her place.
""")

    def test_office_that_hangs(self) -> None:
        """An office that is there and doesn't answer holds up no line for the other class, and Ctrl-C ends no window meanwhile.
        Once it answers it is back."""
        waits = {"program.link.PATIENCE": 600, "typing_window.watcher.SOON": 600}
        self.open()
        office = self.open("fleet")
        window = self.client("cup", "fleet", "--role", "finish", waits=waits)
        self.play(window, "> c at 1\n> f at 1")
        self.kill_fleet()
        window.read("that of fleet. The others go on.")
        office.rest()
        path = os.path.join(self.here, "fleet", "office", "race.sock")
        os.remove(path)
        with socket.socket(socket.AF_UNIX) as deaf:
            deaf.bind(path)
            deaf.listen()
            held, _ = deaf.accept()
            window.type("c 101")
            window.read("OK 8   cup: 1st in race 1")
            window.read("> $")
            window.press()
            window.read("Type quit to leave")
            window.say("c 7", "OK 9   cup: 2nd in race 1")
            os.remove(path)
        held.close()
        self.open("fleet")
        window.read("The office of fleet is back with 3 entries")

    def test_terminal_closed_while_a_folder_hangs(self) -> None:
        """A window that keeps somebody in a folder that hangs goes with its terminal: it has a seat of the other class."""
        dead = Dead(self, os.path.join(self.here, "fleet"))
        self.open()
        self.open("fleet")
        window = self.client("cup", "fleet", "--role", "finish", waits={"system.DEFERRED": 0.1})
        self.play(window, "> c at 1\n> f at 1")
        dead.begin()
        window.say("?", r"cup: \?1 keeps her place")
        window.process.send_signal(signal.SIGHUP)
        self.assertEqual(window.process.wait(helpers.PATIENCE), -signal.SIGHUP)

    def test_orderly_closing(self) -> None:
        """A class whose office is closed is gone once, and isn't back while it is being closed."""
        office = self.open()
        self.open("fleet")
        window = self.client("cup", "fleet", "--role", "finish")
        os.write(window.master, b"finish 1 ned ")
        office.press()
        office.read(r"1 window is still open: finish since \d\d:\d\d\. Close the office\? \[y/N\] $")
        office.say("n", "The office stays open\\.\n$")
        office.press()
        office.read(r"\[y/N\] $")
        office.say("y", "Closed\\. journal\\.txt")
        said = window.read("> ")
        said += window.say("80", "OK 4   fleet: 1st in race 1; .*\n.*> $")
        self.assertEqual(said.count("Beware: "), 1, said)
        self.assertNotIn("is back", said)

    def test_closing_takes_its_time(self) -> None:
        """An office that still lets in while it is being closed isn't back."""
        self.open()
        self.open("fleet")
        window = self.client("cup", "fleet", "--role", "finish")
        self.write("", "cup", "office", "closing")
        window.read("Beware: the office is being closed, that of cup. The others go on.\n")
        cup = unittest.mock.Mock(folder=Folder(os.path.join(self.here, "cup")))
        self.assertFalse(watcher.is_open(cup))
        os.remove(os.path.join(self.here, "cup", "office", "closing"))
        self.assertTrue(watcher.is_open(cup))
        window.read("The office of cup is back with 7 entries.\n")

    def test_a_boat_taken_out(self) -> None:
        """A window that stays for another class knows its lines by their new numbers, and names none of hers."""
        office = self.open()
        self.open("fleet")
        window = self.client("cup", "fleet", "--role", "scorer")
        window.say("cup enter usa 4", r"\[y/N\] $")
        window.say("y", "OK 8 ")
        window.say("cup finish 1 gbr 101", "OK 9 ")
        window.say("cup finish 1 usa 4", "OK 10 ")
        window.say("cup finish 1 gbr 7", "OK 11 ")
        window.say("cup penalty 1 gbr 7 zfp", "OK 12 ")
        office.process.send_signal(signal.SIGTERM)
        office.rest()
        said, status = helpers.run("remove", "cup", "USA4", lines="y\n", cwd=self.here)
        self.assertEqual(status, 0, said)
        self.open()
        said = window.read("The office of cup is back(.|\n)*> $")
        self.assertIn("is back with 10 entries.\nUSA4 was taken out meanwhile, with all lines about her: don't type "
                      "these again. Later entries have lower numbers.\nYour last line, PENALTY 1 GBR7 ZFP, is entry 10 "
                      "now.\n", said)
        self.assertNotIn("lost", said)
        window.say("cup undo", r"PENALTY 1 GBR7 ZFP(.|\n)*\[y/N\] $")
        window.say("y", "OK 11 ")
        self.assertTrue(self.text("cup", "journal.txt").endswith(" CLEAR 1 GBR7\n"))

    def test_a_class_that_opens_later(self) -> None:
        self.open()
        window = self.window("type", "cup", "fleet", "--role", "finish")
        window.read("Beware: no office is open there, that of fleet. The others go on.\n(.|\n)*> $")
        os.write(window.master, b"finish 1 ned ")
        self.open("fleet")
        window.read("The office of fleet is back with 3 entries.\ncup, fleet> ")
        window.say("80", "OK 4   fleet: 1st in race 1; .*\n.*> $")


if __name__ == "__main__":
    unittest.main()
