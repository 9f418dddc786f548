"""What goes wrong in the office in browsers ends none of its loops, and leaves files to the rest of it."""
from __future__ import annotations

import asyncio
import errno
import os
import re
import shutil
import socket
import subprocess
import threading
import unittest
from collections.abc import Callable
from typing import Any
from unittest import mock

import helpers
from raceoffice import system
from raceoffice.errors import NotSent, Trouble
from raceoffice.office.keeping import Keeping
from raceoffice.program.link import Link
from raceoffice.series import copies, settings
from raceoffice.series.continuity import differences
from raceoffice.series.folder import Folder
from raceoffice.series.health import disk_fault
from raceoffice.session.dialogue import Question
from raceoffice.system import sync_folder
from raceoffice.web import kept_office, serving, web_office
from raceoffice.web.gate import Gate
from raceoffice.web.hosting import Host
from raceoffice.web.kept_office import KeptOffice
from raceoffice.web.requests import Reply, Request
from raceoffice.web.room import Room
from raceoffice.web.tap_session import Asked
from raceoffice.web.web_office import LeftOut as LeftOutClass, WebOffice
from web_devices import READY, Web

CROWD, ROOM = 200, 8


def once_wrong(call: Callable[..., Any], wrong: BaseException) -> tuple[Callable[..., Any], threading.Event]:
    """A call that fails the first time, and an event that is set when it is made again."""
    made: list[object] = []
    again = threading.Event()

    def asked(*words: object) -> Any:
        made.append(words)
        if len(made) == 1:
            raise wrong
        again.set()
        return call(*words)
    return asked, again


class Faults(helpers.Series):
    """A fault that nobody has thought of, once, in each loop."""

    def setUp(self) -> None:
        super().setUp()
        self.folder = Folder(os.path.join(self.here, "cup"))

    def opened(self) -> KeptOffice:
        office = KeptOffice(self.folder, lambda text: None)
        self.addCleanup(helpers.kill_office, self.folder.path)
        self.assertTrue(office.open(lambda _: True), list(office.said))
        return office

    def closed(self, office: KeptOffice) -> None:
        """Closes an office, which has an end."""
        closing = threading.Thread(target=office.close, daemon=True)
        closing.start()
        closing.join(helpers.PATIENCE)
        self.assertFalse(closing.is_alive(), "the office never closes")

    def test_keeping(self) -> None:
        """An office is kept on, and closed in order, after a fault in saying what is wrong."""
        asked, again = once_wrong(Keeping.goes_on, IndexError("nothing to say"))
        with mock.patch.object(Keeping, "goes_on", lambda keeping: asked(keeping)):
            office = self.opened()
            self.assertTrue(again.wait(helpers.PATIENCE), "nobody keeps the office")
            self.closed(office)
        self.assertIn("IndexError", self.text("cup", "office", "faults.txt"))
        self.assertIn("Closed.", "\n".join(text for text, _ in office.said))

    def test_closing(self) -> None:
        """Who closes an office isn't held up for ever if nothing can be said at its end."""
        office = self.opened()
        with mock.patch.object(Keeping, "close", side_effect=IndexError("no")), \
                mock.patch.object(KeptOffice, "say", side_effect=IndexError("nothing to say")), \
                mock.patch("threading.excepthook"):
            self.closed(office)

    def test_opened_while_it_closes(self) -> None:
        """An office that is to be opened while it is being closed is opened after that."""
        office, is_closed, may_end = self.opened(), threading.Event(), threading.Event()
        close = Keeping.close

        def closed_slowly(keeping: Keeping, comes_back: bool = False) -> None:
            close(keeping, comes_back)
            is_closed.set()
            may_end.wait(helpers.PATIENCE)

        with mock.patch.object(Keeping, "close", closed_slowly):
            closing = threading.Thread(target=office.close, daemon=True)
            closing.start()
            self.assertTrue(is_closed.wait(helpers.PATIENCE))
            opening = threading.Thread(target=office.open, args=(lambda _: True,), daemon=True)
            opening.start()
            opening.join(0.2)
            may_end.set()
            for thread in (closing, opening):
                thread.join(helpers.PATIENCE)
        self.assertTrue(office.is_there())
        self.closed(office)

    def test_opened_while_somebody_leaves(self) -> None:
        """Nor does it matter that somebody has a seat still when that is wanted."""
        office, link = self.opened(), Link(self.folder.socket)
        threads = [threading.Thread(target=office.close, daemon=True),
                   threading.Thread(target=office.open, args=(lambda _: True,), daemon=True)]
        threads[0].start()
        helpers.until("the closing", lambda: not office.is_there())
        threads[1].start()
        link.close()
        for thread in threads:
            thread.join(helpers.PATIENCE)
        self.assertTrue(office.is_there())
        self.closed(office)

    def test_named_while_it_opens(self) -> None:
        """Names and a second folder that are given while an office is being opened stay."""
        office = self.opened()
        self.closed(office)

        def looked(folder: Folder) -> str:
            text = self.text("cup", "series.ini").replace("title = Autumn Cup", "title = Winter Cup")
            self.write(text.replace("copy = ", "copy = ../stick"), "cup", "series.ini")
            return disk_fault(folder)
        with mock.patch.object(kept_office, "disk_fault", looked):
            self.assertTrue(office.open(lambda _: True))
        self.assertEqual((self.folder.settings.title, self.folder.settings.copy), ("Winter Cup", "../stick"))
        assert office.keeping
        self.assertEqual(office.keeping.folder.settings.copy, "../stick")
        self.closed(office)

    def test_opened_again(self) -> None:
        """An office that has gone and can't be opened is tried again and again, and that is said, until it can be."""
        program, away = self.program_of_its_own(), os.path.join(self.here, "away")
        office = self.opened()
        os.rename(program, away)
        with mock.patch.object(kept_office, "SOON", 0.05), mock.patch.object(kept_office, "LATE", 0.2):
            helpers.kill_office(self.folder.path)
            helpers.until("three tries", lambda: "\n".join(text for text, _ in office.said).count("It is tried again in ") >= 3)
            self.assertFalse(office.is_there())
            os.rename(away, program)
            helpers.until("the office", office.is_there)
            self.closed(office)

    def test_rules_while_it_opens(self) -> None:
        """While an office is being opened taps go by the rules in force, whatever waits in series.ini."""
        office = self.opened()
        held: list[tuple[bool, bool]] = []
        self.closed(office)
        self.write(self.text("cup", "series.ini").replace("handicap = no", "handicap = yes"), "cup", "series.ini")

        def looked(folder: Folder) -> str:
            held.append((folder.settings.handicap, self.folder.settings.handicap))
            return disk_fault(folder)
        with mock.patch.object(kept_office, "disk_fault", looked):
            self.assertTrue(office.open(lambda _: False))
        self.assertEqual(held, [(True, False)])
        self.closed(office)

    def test_no_room_to_open(self) -> None:
        """An office that couldn't be opened again isn't closed for that."""
        office = self.opened()
        with mock.patch.object(kept_office, "disk_fault", return_value="The disk is full."):
            with self.assertRaises(NotSent):
                office.open_again_with_settings(lambda _: True)
        self.assertTrue(office.is_there())
        self.closed(office)

    def test_comes_back_late(self) -> None:
        """An office that was closed for a moment and can't be opened is tried again."""
        office = self.opened()
        asked, again = once_wrong(Keeping.start, Trouble("there is no room"))
        with mock.patch.object(kept_office, "SOON", 0.05), mock.patch.object(Keeping, "start", lambda keeping: asked(keeping)):
            self.assertFalse(office.open_again_with_settings(lambda _: True))
            self.assertTrue(again.wait(helpers.PATIENCE), "nobody opens the office")
            helpers.until("the office", office.is_there)
        self.closed(office)

    def other_rules(self) -> None:
        self.write(re.sub("(?m)^exclude = .*$", "exclude = 4", self.text("cup", "series.ini")), "cup", "series.ini")

    def test_agreed_rules_come_late(self) -> None:
        """So is one that was to come back with other rules: with those that somebody agreed to."""
        office = self.opened()
        self.other_rules()
        asked, again = once_wrong(Keeping.start, Trouble("there is no room"))
        with mock.patch.object(kept_office, "SOON", 0.05), mock.patch.object(Keeping, "start", lambda keeping: asked(keeping)):
            self.assertFalse(office.open_again_with_settings(lambda _: True))
            self.assertTrue(again.wait(helpers.PATIENCE), "nobody opens the office")
            helpers.until("the office", lambda: office.keeping)
        with office.lock:
            self.assertEqual(office.folder.settings.exclude, "4")
        self.closed(office)

    def test_asked_anew(self) -> None:
        """If new rules come to something else once the office is closed for them, it is open by those in force before that
        is asked."""
        office, answers = self.opened(), iter([True])
        self.other_rules()

        def ask(question: Question) -> bool:
            if not next(answers, False):
                raise Asked(question, [])
            return True
        with self.assertRaises(Asked):
            office.open_again_with_settings(ask)
        self.assertTrue(office.is_there() and office.keeping)
        self.assertNotEqual(office.folder.settings.exclude, "4")
        self.closed(office)

    def test_boat_that_stays(self) -> None:
        """A boat isn't taken out if somebody says no, and the office isn't closed."""
        office = self.opened()
        with self.assertRaisesRegex(NotSent, "GBR101 stays in the journal"), mock.patch.object(office, "close"):
            office.take_out("GBR101", "Bea", lambda _: False)
        self.assertIn("GBR101", self.text("cup", "journal.txt"))
        self.closed(office)

    def test_added_at_the_end(self) -> None:
        """A web that ends takes no class in, also if it comes to end meanwhile; the class may be served by another then."""
        office = WebOffice(Gate(""), self.here, "", lambda text: None)

        def ends(folder: Folder, tell: Callable[[str], None]) -> KeptOffice:
            office.is_ending.set()
            return KeptOffice(folder, tell)
        with mock.patch.object(web_office, "KeptOffice", ends):
            for _ in range(2):
                self.assertRaisesRegex(Trouble, "is being closed", office.add, self.folder)
        self.assertEqual(office.classes, {})
        Room(self.folder, lambda: None).close()

    def test_served_before_its_turn(self) -> None:
        """A class that is served already isn't taken in a second time, nor left out for that."""
        web = serving.Web(serving.Asked((self.folder.path,), 0, "", "", "", ()))
        self.addCleanup(web.office.close)
        web.office.add(self.folder)
        web.open_all()
        web.office.leave_out(self.folder, Trouble("it is there twice"))
        self.assertEqual((list(web.office.classes), web.office.left_out), (["cup"], {}))
        web.office.left_out["cup"] = LeftOutClass(self.folder.path, ())
        web.office.add_again("cup")

    def test_closed_for_a_moment(self) -> None:
        """An office that is closed while it is only closed for a moment stays so, and is opened again when that is wanted;
        but not by a web that ends."""
        office = self.opened()

        def closed_meanwhile(*_: object) -> tuple[str, str]:
            office.close()
            return "a copy", ""
        with mock.patch.object(KeptOffice, "taken_out", closed_meanwhile):
            office.take_out("GBR101", "Bea", lambda _: True)
        self.assertFalse(office.is_there())
        self.assertTrue(office.open_again_with_settings(lambda _: True))
        office.end()
        self.assertFalse(office.open(lambda _: True))
        self.assertFalse(office.is_there())

    def test_taken_out_by_a_failing_disk(self) -> None:
        """A disk that fails just after journal.txt was replaced keeps nothing from going on: the boat is out, nothing is
        asked at the next opening, and the office comes back."""
        office, failed = self.opened(), threading.Event()

        def synced(folder: str) -> None:
            if not failed.is_set() and "GBR101" not in self.text("cup", "journal.txt"):
                failed.set()
                raise OSError(errno.EIO, os.strerror(errno.EIO))
            sync_folder(folder)
        with mock.patch.object(system, "sync_folder", synced):
            office.take_out("GBR101", "Bea", lambda _: True)
        self.assertTrue(failed.is_set())
        self.assertEqual(differences(self.folder), "")
        self.assertTrue(office.is_there())
        self.closed(office)

    def test_noted_by_a_failing_disk(self) -> None:
        """Nor does one that fails when the shorter journal is copied."""
        office = self.opened()
        keep, failed = copies.keep, threading.Event()

        def kept(folder: Folder, data: bytes) -> str:
            if b"GBR101" not in data and not failed.is_set():
                failed.set()
                raise Trouble("the disk is odd")
            return keep(folder, data)
        with mock.patch.object(copies, "keep", kept):
            office.take_out("GBR101", "Bea", lambda _: True)
        self.assertTrue(failed.is_set())
        self.assertEqual(differences(self.folder), "")
        self.assertIn("\tremoved GBR101\t", self.text("cup", "office.log"))
        self.assertTrue(office.is_there())
        self.closed(office)

    def test_left(self) -> None:
        """An office that can't be opened isn't tried any more once somebody closes it."""
        program = self.program_of_its_own()
        office = self.opened()
        os.remove(program)
        with mock.patch.object(kept_office, "SOON", helpers.PATIENCE):
            helpers.kill_office(self.folder.path)
            helpers.until("a try", lambda: "It is tried again in " in "\n".join(text for text, _ in office.said))
            before = threading.active_count()
            self.assertFalse(office.close())
            helpers.until("the end of the tries", lambda: threading.active_count() < before)

    def program_of_its_own(self) -> str:
        """A program of this series alone, which can go away."""
        path = os.path.join(self.here, "program")
        shutil.copy(helpers.PROGRAM, path)
        self.write(settings.filled_in({"title": "Autumn Cup", "program": path, "zone": "UTC"}), "cup", "series.ini")
        self.folder = Folder(self.folder.path)
        return path

    def test_watching(self) -> None:
        """A class is watched on."""
        asked, again = once_wrong(Room.look, OSError(24, "Too many open files"))
        room = Room(self.folder, lambda: None)
        self.addCleanup(room.close)
        with mock.patch.object(Room, "look", lambda own: asked(own)), mock.patch("threading.excepthook"):
            threading.Thread(target=room.watch, daemon=True).start()
            self.assertTrue(again.wait(helpers.PATIENCE), "nobody watches the class")
            room.is_ending.set()

    def test_board(self) -> None:
        """The board is kept up to date on."""
        office = WebOffice(Gate(""), self.here, "", lambda text: None)
        self.addCleanup(office.is_ending.set)
        asked, again = once_wrong(WebOffice.follow_address, OSError(2, "No such file"))
        with mock.patch.object(WebOffice, "follow_address", lambda office: asked(office)), \
                mock.patch("threading.excepthook"):
            threading.Thread(target=office.keep_board, daemon=True).start()
            self.assertTrue(again.wait(helpers.PATIENCE), "nobody keeps the board")
            office.is_ending.set()

    def test_no_socket(self) -> None:
        """If this process may have no more files, an office can't be reached, in words."""
        with mock.patch("raceoffice.system.socket_of_office", side_effect=OSError(24, "Too many open files")), \
                self.assertRaisesRegex(Trouble, "can't be reached: Too many open files"):
            Link(self.folder.socket)


class LeftOut(Web):
    """A class whose register can't be used."""
    words = ("cup", "fleet")

    def prepare(self) -> None:
        self.make("fleet", "Sail,Boat\nGBR 33,Fulmar\nNED 80,Sterna\n", **{"class": "Folkboats"})
        self.taps = os.path.join(self.here, "fleet", "office", "web.taps")
        os.makedirs(self.taps, mode=0o700)

    def test_left_out(self) -> None:
        """The others are served; the terminal and the scorer's page say why it isn't, and it is opened there once that is
        put right."""
        why = f"{self.taps} can't be used: Is a directory"
        self.assertIn(f"Beware: fleet isn't served. {why}. Put that right, and open it on the scorer's page.\n", self.said())
        scorer = self.device("scorer")
        self.assertEqual(scorer.tap("FINISH 1 GBR7")[0], 200)
        offices = scorer.ask("GET", "/office/scorer/devices")[1]["offices"]
        self.assertEqual([(one["class"], one["open"]) for one in offices], [("cup", True), ("fleet", False)])
        self.assertEqual(offices[1]["said"][0]["text"], why)
        status, said = scorer.again().ask("POST", "/office/scorer/open/fleet", {})
        self.assertEqual((status, said["said"][0]["text"]), (503, why))
        os.rmdir(self.taps)
        status, said = scorer.again().ask("POST", "/office/scorer/open/fleet", {})
        self.assertEqual((status, said.get("open")), (200, True), said)
        self.assertEqual([one["open"] for one in scorer.ask("GET", "/office/scorer/devices")[1]["offices"]], [True, True])


class Elsewhere(Web):
    """Two classes, of which another web serves one already."""

    def serve(self, *more: str) -> None:
        if not os.path.exists(os.path.join(self.here, "fleet")):
            self.make("fleet", "Sail,Boat\nGBR 33,Fulmar\nNED 80,Sterna\n", **{"class": "Folkboats"})
            self.other = helpers.free_port(self)
            words = [*helpers.COMMAND, "serve", "fleet", "--http", str(self.other)]
            with open(os.path.join(self.here, "other.txt"), "wb") as out:
                fleet = subprocess.Popen(words, cwd=self.here, stdin=subprocess.DEVNULL, stdout=out, stderr=out)
            self.addCleanup(helpers.end, fleet)
            helpers.until("the other web", lambda: READY in self.text("other.txt") or fleet.poll() is not None)
        super().serve(*more)

    words = ("cup", "fleet")

    def test_left_out(self) -> None:
        """The other class is served, and it is said where this one is."""
        self.assertRegex(self.said(), rf"Beware: fleet isn't served\. \S*fleet is served to browsers already, "
                                      rf"at http://[^ ]+:{self.other}/\. Put that right")
        self.assertEqual(self.device("finish").tap("FINISH 1 GBR7")[1].get("outcome"), "taken")

    def test_first(self) -> None:
        """The first class's file of devices belongs to the web that serves it: nothing is opened."""
        self.close()
        said, status = helpers.run("serve", "fleet", "cup", "--http", str(helpers.free_port(self)), cwd=self.here)
        self.assertEqual(status, 1, said)
        self.assertIn(f":{self.other}/", said)
        self.assertFalse(os.path.exists(os.path.join(self.here, "cup", "office", "socket")), said)


class Crowds(unittest.IsolatedAsyncioTestCase):
    """More connections at once than there is room for."""

    async def answer(self, _: Request) -> Reply:
        return Reply(200, "text/plain", b"here")

    async def test_files(self) -> None:
        """Never more of them have a file than there is room for, and one that may be turned away."""
        host, port, taken, most = Host(self.answer, lambda _: 0, print), helpers.free_port(self), [], 0
        asyncio.get_running_loop().slow_callback_duration = helpers.PATIENCE
        accept = socket.socket.accept

        def counted(door: socket.socket) -> tuple[socket.socket, Any]:
            nonlocal most
            link, peer = accept(door)
            taken.append(link)
            most = max(most, sum(link.fileno() >= 0 for link in taken))
            return link, peer

        with mock.patch.object(socket.socket, "accept", counted):
            await host.start("127.0.0.1", port, None)
            host.most, host.most_of_one, host.most_ending = ROOM, ROOM, 0
            crowd = [socket.create_connection(("127.0.0.1", port)) for _ in range(CROWD)]
            while len(taken) < CROWD:
                await asyncio.sleep(0.01)
            self.assertLessEqual(most, ROOM + 1)
            for link in crowd:
                link.close()
            # Who comes when they have gone is let in.
            said = b""
            while b"here" not in said:
                reader, writer = await asyncio.open_connection("127.0.0.1", port)
                writer.write(b"GET / HTTP/1.1\r\nHost: 127.0.0.1\r\nConnection: close\r\n\r\n")
                said = await reader.read()
                writer.close()
        host.close()


if __name__ == "__main__":
    unittest.main()
