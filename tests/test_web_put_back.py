"""A file of the web that lost its end on a full disk, or that somebody has put back: no place is lost, none is kept twice,
and nobody is told that one is kept or ended that isn't."""
from __future__ import annotations

import contextlib
import errno
import json
import os
import shutil
import signal
import threading
import unittest
from typing import Any
from unittest import mock

import helpers
from raceoffice import system
from raceoffice.errors import NotNow
from raceoffice.remarks import remark, system_remark
from raceoffice.series.folder import Folder
from raceoffice.web.taps import Register
from raceoffice.web.web_office import WebOffice, gate_of
from test_web_taps import TAPS
from web_devices import SAILS, Web, new_id

PLACES = ("cup", "office", "places")


def kill(number: int) -> None:
    """Kills a process, if it is still there."""
    with contextlib.suppress(ProcessLookupError):
        os.kill(number, signal.SIGKILL)


class PutBack(Web):
    def setUp(self) -> None:
        super().setUp()
        self.finish, self.scorer = self.device("finish"), self.device("scorer")
        helpers.until("the board", lambda: self.board() == [200] * 4)

    def noted(self, line: str, id: str = "", **more: str) -> str:
        """Taps a line; the place that it was about."""
        status, said = self.finish.tap(line, id or new_id(), **more)
        self.assertEqual((status, said.get("outcome")), (200, "noted"), said)
        return str(said["mark"])

    def gone(self, line: str, id: str, **more: str) -> None:
        """A tap that is sent again, of which nothing is there any more."""
        status, said = self.finish.tap(line, id, **more)
        self.assertEqual((status, [one["kind"] for one in said["said"]]), (422, ["undo-gone"]), said)

    def kept(self) -> list[str]:
        """The places of race 1."""
        race = self.finish.state()["races"].get("1", {"unread": []})
        return [unread["mark"] for unread in race["unread"]]

    def agree(self, what: str) -> None:
        """Opens or closes the office, and answers by yes what is asked before."""
        agreed: list[Any] = []
        while (found := self.scorer.ask("POST", f"/office/scorer/{what}/cup", {"agreed": agreed}))[0] == 409:
            agreed.append(found[1]["question"])
        self.assertEqual(found[0], 200, found)

    def closed_by_itself(self, id: str) -> None:
        """The class is closed, and says why; until then and from then on a tap waits. Opened again, it takes the tap
        once, also after a crash."""
        old = os.stat(os.path.join(self.here, *TAPS)).st_size
        for is_out in (False, True):
            if is_out:
                helpers.until("a class that is left out", lambda: self.offices() == [("cup", False, ["taps-replaced"])])
            self.assertIn(self.finish.tap("? 1", id)[0], (404,) if is_out else (503, 404))
            self.assertEqual(self.board(), [200] * 4, "the last pages stay")
        self.assertEqual(os.stat(os.path.join(self.here, *TAPS)).st_size, old)
        self.assertIn("office/web.taps was replaced, or somebody has written into it, while the class was served", self.said())
        self.agree("open")
        helpers.until("the office", lambda: not self.finish.state()["trouble"])
        self.assertEqual([self.noted("? 1", id) for _ in range(2)], ["?2", "?2"])
        self.assertEqual(self.kept(), ["?1", "?2"])
        self.kill()
        self.serve()
        self.finish = self.finish.again()
        helpers.until("the office", lambda: not self.finish.state()["trouble"])
        self.assertEqual([self.noted("? 1", id), *self.kept()], ["?2", "?1", "?2"])

    def board(self) -> list[int]:
        """How the board's pages, and what their script asks for, are answered."""
        return [self.finish.ask("GET", page)[0] for page in ("/", "/index.html", "/cup/", "/cup/now.json")]

    def offices(self) -> list[tuple[str, bool, list[str]]]:
        """What the scorer's page has of each office: its class, whether it is open, what it says."""
        found = self.scorer.ask("GET", "/office/scorer/devices")[1]["offices"]
        return [(one["class"], one["open"], [said["kind"] for said in one["said"]]) for one in found]

    def put_back(self, places: str) -> None:
        """Puts an older office/places back while the office is closed."""
        self.agree("close")
        self.write(places, *PLACES)
        self.agree("open")
        helpers.until("the office", lambda: not self.finish.state()["trouble"])

    def crash(self, *name: str, without: str) -> None:
        """The web is killed, and comes again; a file has lost the lines that have a key, or the key itself."""
        self.kill()
        lines = [json.loads(line) for line in self.text(*name).splitlines()]
        lines = [line for line in lines if name != TAPS or without not in line]
        left = [{key: value for key, value in line.items() if key != without} for line in lines]
        self.write("".join(json.dumps(line) + "\n" for line in left), *name)
        self.serve()
        self.finish, self.scorer = self.finish.again(), self.scorer.again()
        helpers.until("the office", lambda: not self.finish.state()["trouble"])

    def test_no_room_for_the_ends(self) -> None:
        """The register has the beginnings of two places of one race, and the disk had no room for their ends: once the web
        is there again each tap has its own place, and Undo of the first drops that one."""
        first, second = new_id(), new_id()
        self.assertEqual([self.noted("? 1", id) for id in (first, second)], ["?1", "?2"])
        self.crash(*TAPS, without="answer")
        self.noted("UNDO", undoes=first)
        self.assertEqual(self.kept(), ["?2"])
        self.assertEqual(self.noted("? 1", second), "?2")
        self.assertEqual(self.kept(), ["?2"])

    def test_register_is_lost(self) -> None:
        """Nothing but office/places knows of a tap any more: it is sent again, and keeps the place that it has."""
        id = new_id()
        self.assertEqual(self.noted("? 1", id), "?1")
        self.kill()
        os.remove(os.path.join(self.here, *TAPS))
        self.serve()
        self.finish = self.finish.again()
        helpers.until("the office", lambda: not self.finish.state()["trouble"])
        self.assertEqual([self.noted("? 1", id) for _ in range(2)], ["?1", "?1"])
        self.assertEqual(self.kept(), ["?1"])

    def test_kept_again(self) -> None:
        """An Undo of "nobody finished there", and what it takes back, are sent again after an older office/places was put
        back: each is told that it is as it said only while it is."""
        ended, again = new_id(), new_id()
        self.noted("? 1")
        kept = self.text(*PLACES)
        self.noted("?1 1 NONE", ended)
        dropped = self.text(*PLACES)
        self.noted("UNDO", again, undoes=ended)
        self.assertEqual([self.noted("UNDO", again, undoes=ended), self.noted("?1 1 NONE", ended)], ["?1", "?1"])
        self.assertEqual(self.kept(), ["?1"])
        self.put_back(dropped)
        self.assertEqual(self.kept(), [])
        self.gone("UNDO", again, undoes=ended)
        self.noted("?1 1 NONE", ended)
        self.put_back(kept)
        self.gone("?1 1 NONE", ended)
        self.noted("UNDO", again, undoes=ended)
        self.assertEqual(self.kept(), ["?1"])
        # She is known by now: nobody can be said to be kept there, nor to be nobody.
        self.assertEqual(self.finish.tap(f"?1 1 {SAILS[0]}")[1]["outcome"], "taken")
        self.gone("?1 1 NONE", ended)

    def test_another_register(self) -> None:
        """The register is replaced while the class is served, if only by the same bytes: nothing is written any more that
        would be gone after the next start."""
        self.noted("? 1")
        self.write(self.text(*TAPS), "copy")
        os.replace(os.path.join(self.here, "copy"), os.path.join(self.here, *TAPS))
        self.closed_by_itself(new_id())

    def test_written_into(self) -> None:
        """Somebody adds to the register while the class is served."""
        self.noted("? 1")
        with open(os.path.join(self.here, *TAPS), "a", encoding="utf-8") as file:
            file.write("\n")
        self.closed_by_itself(new_id())

    def test_folder_put_back(self) -> None:
        """The folder of the series is put back whole while the class is served."""
        self.noted("? 1")
        cup, copy = os.path.join(self.here, "cup"), os.path.join(self.here, "copy")
        shutil.copytree(cup, copy, ignore=lambda _, names: {"race.sock"} & set(names))
        os.rename(cup, os.path.join(self.here, "older"))
        os.rename(copy, cup)
        self.closed_by_itself(new_id())

    def test_of_an_older_package(self) -> None:
        """Notes that an older package has written don't say by which tap: what was answered is answered so again, and a
        place whose end the register lacks is found by its process."""
        ended, again = new_id(), new_id()
        self.noted("? 1")
        self.noted("?1 1 NONE", ended)
        self.noted("UNDO", again, undoes=ended)
        self.crash(*PLACES, without="tap")
        self.noted("UNDO", again, undoes=ended)
        one = new_id()
        self.assertEqual(self.noted("? 1", one), "?2")
        self.kill()
        self.write("".join(f"{json.dumps({key: value for key, value in json.loads(line).items() if key != 'tap'})}\n"
                           for line in self.text(*PLACES).splitlines()), *PLACES)
        self.serve()
        self.finish = self.finish.again()
        helpers.until("the office", lambda: not self.finish.state()["trouble"])
        self.crash(*TAPS, without="answer")
        self.assertEqual([self.noted("? 1", one), *self.kept()], ["?2", "?1", "?2"])


class Gone(Web):
    def prepare(self) -> None:
        """The folder of the series is on a stick: its name leads there."""
        os.rename(os.path.join(self.here, "cup"), os.path.join(self.here, "stick"))
        os.symlink("stick", os.path.join(self.here, "cup"))

    def test_stick_pulled(self) -> None:
        """The stick of a series is pulled while that is served, and nothing can be written where it was: the office stays,
        as it has the only journal. Ctrl-C shows that, as is said, and ends the program."""
        self.assertEqual(self.device("finish").tap(f"FINISH 1 {SAILS[0]}")[1]["outcome"], "taken")
        program = int(self.text("cup", "office", "pid").split()[0])
        self.addCleanup(kill, program)
        os.symlink("printed.txt", os.path.join(self.here, "nothing"))
        os.rename(os.path.join(self.here, "nothing"), os.path.join(self.here, "cup"))
        helpers.until("an office that stays", lambda: "Once more Ctrl-C shows it here" in self.said())
        for said in ("Closing the office.", f" FINISH FINISH 1 {SAILS[0]}\n"):
            self.web.send_signal(signal.SIGINT)
            helpers.until(said, lambda: said in self.said() or self.web.poll() is not None)
            self.assertIn(said, self.said())
        self.web.wait(helpers.PATIENCE)
        self.assertNotIn(program, system.processes())


class SeveralClasses(helpers.Series):
    """The web of two classes whose offices aren't open."""

    def setUp(self) -> None:
        super().setUp()
        self.parent = os.path.join(self.here, "both")
        os.mkdir(self.parent)
        folders = [Folder(self.make(os.path.join("both", name))) for name in ("cup", "fleet")]
        self.office = WebOffice(gate_of(folders, [], False), self.parent, "http://127.0.0.1:1/", lambda said: None)
        for folder in folders:
            self.office.add(folder)
        self.board = threading.Thread(target=self.office.keep_board, daemon=True)
        self.board.start()
        self.addCleanup(self.board.join)
        self.addCleanup(self.office.close)

    def served_again(self, *names: str) -> None:
        """These classes are left out, can be served again, and the board goes on."""
        helpers.until("classes that are left out", lambda: not self.board.is_alive() or sorted(self.office.left_out) == sorted(names))
        self.assertEqual(sorted(self.office.left_out), sorted(names))
        self.restore()
        for name in names:
            self.office.add_again(name)
        self.assertEqual((sorted(self.office.classes), self.office.to_come, self.board.is_alive()), (["cup", "fleet"], set(), True))

    def restore(self) -> None:
        """Puts back what was moved away."""
        if os.path.exists(self.parent + ".older"):
            os.rename(self.parent + ".older", self.parent)

    def test_all_moved_away(self) -> None:
        """The folder of all classes is moved away while they are served, and put back."""
        os.rename(self.parent, self.parent + ".older")
        self.served_again("cup", "fleet")

    def test_settings_of_another(self) -> None:
        """The register of a class is replaced while somebody has made a mistake in series.ini of another."""
        path = os.path.join("both", "cup", "series.ini")
        right = self.text(path)
        self.write(right + "nothing\n", path)
        os.rename(os.path.join(self.parent, "fleet", "office", "web.taps"), os.path.join(self.parent, "fleet", "older"))
        self.served_again("fleet")
        self.write(right, path)

    def test_disk_does_not_say(self) -> None:
        """A disk that doesn't answer for a moment, as in a network, closes no class: its taps wait until it does."""
        register, real, looks = self.office.classes["cup"].room.register, os.lstat, list[str]()

        def lstat(path: str) -> os.stat_result:
            if path == register.path:
                looks.append(path)
                raise OSError(errno.EIO, "Input/output error")
            return real(path)
        with mock.patch("os.lstat", lstat):
            helpers.until("two looks", lambda: len(looks) > 1 or "cup" not in self.office.classes)
            with self.assertRaises(NotNow) as why:
                register.decide("1", [])
        cause = system_remark(OSError(errno.EIO, "Input/output error"))
        self.assertEqual(why.exception.said, (remark("file-unwritten", name=register.path, why=cause),))
        self.assertEqual((sorted(self.office.classes), self.office.to_come), (["cup", "fleet"], set()))
        register.decide("1", [])
        self.assertEqual(list(Register(register.path).decisions), ["1"])


if __name__ == "__main__":
    unittest.main()
