"""Who is known: what outlives the web, and how long a device is let in."""
from __future__ import annotations

import asyncio
import http.client
import json
import os
import shutil
import signal
import socket
import tempfile
import threading
import unittest
from collections.abc import Callable
from contextlib import closing
from typing import Any
from unittest import mock

import helpers
from on_water import OnWater
from raceoffice.errors import NotSent, Trouble
from raceoffice.web import gate as gates, serving
from raceoffice.web.gate import Gate
from raceoffice.web.kept_office import KeptOffice
from raceoffice.web.requests import Reply, Request, Wrong
from raceoffice.web.routes import Routes
from raceoffice.web.web_office import Class, WebOffice
from web_devices import Device, Web, is_known, new_id

# Seconds
DAY = 86400.0


class CtrlC(unittest.IsolatedAsyncioTestCase):
    async def test_nobody_can_tell_who_writes(self) -> None:
        """Ctrl-C closes the office also if it can't be told who may still write."""
        web, end = serving.Web(serving.Asked((), 0, "", "", "", ())), asyncio.Event()
        web.is_ready = True
        with mock.patch.object(WebOffice, "writers", side_effect=OSError):
            web.stop(end, signal.SIGINT)
            await asyncio.wait_for(end.wait(), 5.0)


class Shown(Web):
    words = ("cup", "--browser")

    def prepare(self) -> None:
        """Has a browser that stays until `done` is there, and writes the address that it is started with."""
        self.write(f'#!/bin/sh\necho "$1" > {self.here}/opened.txt\nuntil [ -e {self.here}/done ]; do sleep 0.1; done\n', "browser")
        os.chmod(script := os.path.join(self.here, "browser"), 0o700)
        patch = mock.patch.dict(os.environ, {"BROWSER": script})
        patch.start()
        self.addCleanup(patch.stop)
        self.addCleanup(self.write, "", "done")

    def test_link_for_one(self) -> None:
        """The link that a browser of this computer is started with, which its other accounts may see, lets in one device, and
        that of the terminal all. While that browser is there, others are answered."""
        link = self.text("opened.txt").strip()
        self.assertIn("/office/in#scorer.", link)
        self.assertNotIn(link, self.said())
        scorer = Device(self.port, "scorer").come(link, "Sue")
        key = link.partition("#scorer.")[2]
        self.assertEqual(Device(self.port, "scorer").ask("POST", "/office/in", {"role": "scorer", "key": key, "name": "Eve"})[0], 403)
        self.assertEqual([is_known(scorer), is_known(self.device("scorer"))], [True, True])


class Again(Web):
    """What outlives the web."""

    def test_names(self) -> None:
        """The names by which this office may be reached; --name adds one."""
        device = self.device("finish")
        for host, wanted in [("localhost", 200), (f"127.0.0.1:{self.port}", 200), ("[::1]:80", 200),
                             (socket.gethostname(), 200), ("club.example", 421), ("127.0.0.1.evil.example", 421),
                             ("127.0.0.1@evil.example", 421), ("x.localhost", 421)]:
            self.assertEqual(device.again().ask("GET", "/office/finish/me", Host=host)[0], wanted, host)
        self.kill()
        self.serve("--name", "Club.Example")
        self.assertEqual(device.again().ask("GET", "/office/finish/me", Host="club.example:8080")[0], 200)

    def test_address(self) -> None:
        """The office may be at one address of the computer alone, by an option or by series.ini, and has its name."""
        for address, options in (("127.0.0.5", ("--address", "127.0.0.5")), ("127.0.0.6", ())):
            self.kill()
            if not options:
                self.write(self.text("cup", "series.ini").replace("\naddress =", f"\naddress = {address}"), "cup", "series.ini")
            self.serve(*options)
            self.assertIn(f"http://{address}:{self.port}/\n", self.said())
            with closing(http.client.HTTPConnection(address, self.port, timeout=60)) as link:
                link.request("GET", "/office/in")
                self.assertEqual(link.getresponse().status, 200)
            self.assertRaises(ConnectionRefusedError, socket.create_connection, ("127.0.0.1", self.port))

    def test_known_again(self) -> None:
        """Devices and links outlive the web; --new ends those of a role."""
        finish, jury, before = self.device("finish"), self.device("jury"), dict(self.links)
        self.kill()
        self.serve()
        self.assertEqual((finish.again().ask("GET", "/office/finish/me")[0], self.links), (200, before))
        self.kill()
        self.serve("--new", "finish")
        self.assertEqual(finish.again().ask("GET", "/office/finish/me")[0], 401)
        key = before["finish"].partition(".")[2]
        status, _ = Device(self.port, "finish").ask("POST", "/office/in", {"role": "finish", "key": key, "name": ""})
        self.assertEqual(status, 403)
        self.assertNotEqual(self.links["finish"], before["finish"])
        self.assertEqual((self.links["jury"], jury.again().ask("GET", "/office/jury/me")[0]), (before["jury"], 200))

    def test_new_link(self) -> None:
        """A new link ends the old one. Its devices are put out, or stay; each can be put out alone."""
        finish, scorer, old = self.device("finish"), self.device("scorer"), self.links["finish"]
        said = scorer.ask("POST", "/office/scorer/key", {"role": "finish", "stay": True})[1]
        self.assertTrue(is_known(finish))
        status, _ = Device(self.port, "finish").ask("POST", "/office/in", {
            "role": "finish", "key": old.partition(".")[2], "name": ""})
        self.assertEqual(status, 403)
        # The code is a square with corners of 7 dark places.
        self.assertEqual({len(row) for row in said["code"]}, {len(said["code"])})
        self.assertEqual(said["code"][0][:8], [1] * 7 + [0])
        ben = Device(self.port, "finish").come(said["link"], "Ben")
        shown = scorer.ask("GET", "/office/scorer/devices")[1]["devices"]
        mark = next(device["mark"] for device in shown if device["name"] == "Ben")
        for wrong in (mark[:4], ""):
            scorer.ask("POST", "/office/scorer/revoke", {"mark": wrong})
        self.assertTrue(is_known(ben))
        scorer.ask("POST", "/office/scorer/revoke", {"mark": mark})
        self.assertEqual((is_known(ben), is_known(finish)), (False, True))
        scorer.ask("POST", "/office/scorer/key", {"role": "finish"})
        self.assertEqual((is_known(finish), is_known(scorer)), (False, True))
        scorer.ask("POST", "/office/scorer/leave", {})
        self.assertFalse(is_known(scorer))

    def test_news_ends(self) -> None:
        """Who is put out gets no more news: the stream ends at once. That of others goes on."""
        finish, jury, scorer = self.device("finish"), self.device("jury"), self.device("scorer")
        finish.wait("/office/finish/live")
        jury.wait("/office/jury/live")
        for device in (finish, jury):
            helpers.until("news", lambda: device.news.readline().startswith(b"data: "))
        shown = scorer.ask("GET", "/office/scorer/devices")[1]["devices"]
        mark = next(device["mark"] for device in shown if device["role"] == "FINISH")
        scorer.ask("POST", "/office/scorer/revoke", {"mark": mark})
        helpers.until("the end of the news", lambda: finish.news.readline() == b"")
        self.assertEqual(finish.ask("GET", "/office/finish/live")[0], 401)
        scorer.tap("FINISH 1 GBR7")
        helpers.until("news of the jury", lambda: jury.news.readline().startswith(b'data: {'))

    def test_one_web(self) -> None:
        """A second web doesn't serve the class."""
        said, status = helpers.run("serve", "cup", "--http", str(helpers.free_port(self)), cwd=self.here)
        self.assertIn("is served to browsers already", said)
        self.assertEqual(status, 1)


class Cookies(unittest.TestCase):
    """A browser has one cookie of a name for all that a computer serves, whatever its port."""

    def setUp(self) -> None:
        holder = tempfile.TemporaryDirectory()
        self.addCleanup(holder.cleanup)
        self.holder = holder.name
        self.gates = [Gate(os.path.join(holder.name, name)) for name in ("cup.json", "fleet.json")]

    def come(self, gate: Gate, held: str = "") -> str:
        """The cookie of a device that comes by a new link."""
        request = Request("POST", "/", {"cookie": held}, "127.0.0.1")
        return gate.enter(request, "FINISH", gate.new_key("FINISH", are_devices_out=not held), "Ann")[0].partition(";")[0]

    def knows(self, cookie: str) -> list[bool]:
        request = Request("GET", "/", {"cookie": cookie}, "127.0.0.1")
        return [gate.known(request, "FINISH") is not None for gate in (*self.gates, Gate(self.gates[0].path))]

    def test_two_offices(self) -> None:
        """One phone is at two offices of a computer, also if one has the other's links, or was started again."""
        for name in ("fleet.json", "cup.json"):
            path = os.path.join(self.holder, name)
            if name == "cup.json":
                shutil.copy(self.gates[0].path, path + ".copy")
                path += ".copy"
            self.gates[1] = Gate(path)
            cookies = [self.come(gate) for gate in self.gates]
            self.assertEqual(len({cookie.partition("=")[0] for cookie in cookies}), 2)
            self.assertEqual(self.knows("; ".join(cookies)), [True, True, True], name)

    def test_comes_again(self) -> None:
        """A device that comes again has one cookie, as before."""
        first = self.come(self.gates[0])
        again = self.come(self.gates[0], first)
        self.assertEqual(again.partition("=")[0], first.partition("=")[0])
        self.assertEqual((self.knows(first)[0], self.knows(again)[0]), (False, True))

    def test_many_links(self) -> None:
        """A phone that is put out and comes by a new link, again and again, has one cookie of that office, beside 200 of an
        older package and those of another office of its computer and of a copy, where it stays, too."""
        self.come(self.gates[0])
        shutil.copy(self.gates[0].path, path := os.path.join(self.holder, "copy.json"))
        others = [self.gates[1], Gate(path)]
        # A browser has them earliest first.
        jar = {f"office-finish-{number:08x}": "A" * 43 for number in range(200)}
        jar |= dict(self.come(gate).split("=") for gate in others)
        for number in range(20):
            # The web is started again each time.
            gate = Gate(self.gates[0].path)
            request = Request("POST", "/", {"cookie": "; ".join(map("=".join, jar.items()))}, "127.0.0.1")
            cookie, called = gate.enter(request, "FINISH", gate.new_key("FINISH"), "Ann")
            jar |= dict([cookie.partition(";")[0].split("=")])
            held = Request("GET", "/", {"cookie": "; ".join(map("=".join, jar.items()))}, "127.0.0.1")
            self.assertEqual((len(jar), [one.known(held, "FINISH") is not None for one in (gate, *others)]), (203, [True] * 3), number)
            self.assertEqual(called, "Ann (2)")

    def test_put_out(self) -> None:
        """Two phones of one usual name are put out, and come in again by a new link in the other order: each has the name
        that it had, by which its taps are known. Another phone has neither, nor has one of theirs that is called otherwise."""
        def come(name: str, *held: str, role: str = "FINISH") -> tuple[str, str]:
            cookie, called = gate.enter(Request("POST", "/", {"cookie": "; ".join(held)}, "127.0.0.1"), role, keys[role], name)
            return cookie.partition(";")[0], called

        usual = ["iPhone", "iPhone", "W" * 30, "W" * 30]
        for is_all in (True, False):
            gate = self.gates[is_all]
            keys = {role: gate.new_key(role) for role in ("FINISH", "JURY")}
            phones = [come(name) for name in usual]
            self.assertEqual([called for _, called in phones], ["iPhone", "iPhone (2)", "W" * 30, "W" * 26 + " (2)"])
            for mark in [] if is_all else list(gate.devices):
                gate.revoke(mark)
            gate = Gate(gate.path)
            keys["FINISH"] = gate.new_key("FINISH", is_all)
            self.assertEqual(come("iPhone")[1], "iPhone (3)")
            self.assertEqual(come("IPHONE", role="JURY")[1], "IPHONE (4)")
            again = [come(name, cookie) for name, (cookie, _) in reversed([*zip(usual, phones)])]
            self.assertEqual([called for _, called in again], [called for _, called in reversed(phones)])
            # Once more, with the cookies of both times.
            gate.new_key("FINISH")
            keys["FINISH"] = gate.new_key("FINISH")
            self.assertEqual([come("iPhone", old[0], new[0])[1] for old, new in zip(phones[1::-1], again[2:])], ["iPhone (2)", "iPhone"])
            gate.revoke(next(mark for mark, device in gate.devices.items() if device.name == "iPhone (2)"))
            keys["FINISH"] = gate.new_key("FINISH", False)
            self.assertEqual([come("Bob", phones[1][0])[1], come("iPhone")[1]], ["Bob", "iPhone (5)"])

    def test_of_an_older_package(self) -> None:
        """Its cookie has the role alone in its name, and is that of one office."""
        value = self.come(self.gates[0]).partition("=")[2]
        self.assertEqual(self.knows(f"office-finish={value}"), [True, False, True])


class Noted:
    """A lock that notes when somebody waits for it."""

    def __init__(self, lock: Any) -> None:
        self.lock, self.waiting = lock, threading.Semaphore(0)

    def acquire(self, timeout: float = -1) -> bool:
        self.waiting.release()
        return bool(self.lock.acquire(timeout=timeout))

    def release(self) -> None:
        self.lock.release()

    def __enter__(self) -> None:
        self.acquire()

    def __exit__(self, *_: object) -> None:
        self.release()


class PutOut(OnWater):
    """A device is put out while what it has asked for waits."""

    def setUp(self) -> None:
        super().setUp()
        self.gate = Gate("")
        self.office = WebOffice(self.gate, self.here, "http://127.0.0.1/", print)
        self.office.classes["cup"] = Class(self.room, mock.MagicMock(), mock.MagicMock())
        self.routes, self.eve = Routes(self.office), self.come("FINISH")

    def come(self, role: str) -> gates.Device:
        """A device that has come."""
        self.gate.enter(Request("POST", "/", {}, "127.0.0.1"), role, self.gate.new_key(role, False), "Eve")
        return [*self.gate.devices.values()][-1]

    def status(self, device: gates.Device, path: str, **values: object) -> int:
        """The status of the answer once a thread does what a device has asked for."""
        body = json.dumps({"id": new_id(), "agreed": [], **values}).encode()
        request = Request("POST", "/", {"content-type": "application/json"}, "127.0.0.1", body)
        try:
            return self.routes.write(request, device.role, device, path.split("/")).status
        except Wrong as wrong:
            return wrong.status
        except NotSent:
            return 422

    def test_before_a_thread(self) -> None:
        """What waits for a thread isn't done any more, whatever it is."""
        asked = [(self.come("SCORER"), "key"), (self.come("SCORER"), "close/cup"), (self.come("JURY"), "decide/cup"),
                 (self.eve, "line/cup"), (self.eve, "leave")]
        for device, path in asked:
            self.gate.revoke(device.mark, False)
            self.assertEqual(self.status(device, path, role="FINISH", line="FINISH 1 GBR7"), 401, path)

    def test_before_its_turn(self) -> None:
        """What waits for others of its class isn't done any more: a boat that is taken out, a tap, a correction, a decision."""
        scorer, jury, statuses = self.come("SCORER"), self.come("JURY"), dict[str, int]()
        self.assertEqual(self.status(scorer, "line/cup", line="FINISH 1 GBR7"), 200)
        before, noted = self.text("cup", "journal.txt"), Noted(self.room.lock)

        def ask(device: gates.Device, path: str, **values: object) -> None:
            statuses[path] = self.status(device, path, **values)

        other = self.come("SCORER")
        threads = [threading.Thread(target=ask, args=(other, "remove/cup"), kwargs={"sail": "GBR33"}),
                   threading.Thread(target=ask, args=(self.eve, "line/cup"), kwargs={"line": "FINISH 1 GBR33"}),
                   threading.Thread(target=ask, args=(scorer, "correct/cup"), kwargs={"lines": ["STRIKE 1 GBR7"]}),
                   threading.Thread(target=ask, args=(jury, "decide/cup"), kwargs={"line": "MARK 1 GBR7 DSQ", "lines": ["JURY MARK 1 GBR7 DSQ"]})]
        with mock.patch.object(self.room, "lock", noted), mock.patch("raceoffice.web.room.PATIENCE", helpers.PATIENCE):
            with noted.lock:
                for thread in threads:
                    thread.start()
                    self.assertTrue(noted.waiting.acquire(timeout=helpers.PATIENCE))
                for device in (self.eve, scorer, jury, other):
                    self.gate.revoke(device.mark)
            for thread in threads:
                thread.join()
        self.assertEqual(statuses, dict.fromkeys(("remove/cup", "line/cup", "correct/cup", "decide/cup"), 401))
        self.assertEqual(self.text("cup", "journal.txt"), before)

    def test_while_the_gate_is_changed(self) -> None:
        """A scorer's device is put out while it waits to make a link, or to put another out: it does neither."""
        ann, jury = self.come("SCORER"), self.come("JURY")
        asked: list[tuple[str, dict[str, object]]] = [("key", {"role": "SCORER", "stay": True}), ("revoke", {"mark": jury.mark})]
        for path, values in asked:
            eve, noted = self.come("SCORER"), Noted(self.gate.lock)
            keys = dict(self.gate.keys)
            with mock.patch.object(self.gate, "lock", noted):
                self.assertEqual(self.status_once_put_out(noted, eve, path, **values), 401, path)
            self.assertEqual(self.gate.keys, {role: key for role, key in keys.items() if role != "SCORER"})
            self.assertTrue({ann.mark, jury.mark} <= set(self.gate.devices))

    def status_once_put_out(self, noted: Noted, device: gates.Device, path: str, **values: object) -> int:
        """The status of the answer to what waited for a lock while its device was put out."""
        statuses: list[int] = []
        thread = threading.Thread(target=lambda: statuses.append(self.status(device, path, **values)))
        with noted.lock:
            thread.start()
            self.assertTrue(noted.waiting.acquire(timeout=helpers.PATIENCE), path)
            self.gate.revoke(device.mark)
        thread.join()
        return statuses[0]

    def test_before_the_office(self) -> None:
        """What waits until others are done with an office isn't done any more: it is neither opened, closed nor opened
        again, nor does it come to be wanted otherwise."""
        office = self.office.classes["cup"].office = KeptOffice(self.room.folder, lambda text: None)
        begun = mock.Mock(return_value=True)
        for path, is_left in (("open/cup", False), ("close/cup", False), ("reopen/cup", True)):
            noted = Noted(office.lock)
            (office.is_left.set if is_left else office.is_left.clear)()
            with mock.patch.object(office, "lock", noted), mock.patch.object(office, "is_there", return_value=False), \
                    mock.patch.object(office, "is_opened", begun):
                self.assertEqual(self.status_once_put_out(noted, self.come("SCORER"), path), 401, path)
            self.assertEqual((begun.called, office.is_left.is_set()), (False, is_left), path)

    def test_what_is_read(self) -> None:
        """What waits to be read isn't shown any more."""
        async def status(device: gates.Device, path: str, cookie: str) -> object:
            fields, workers = {"cookie": cookie, "host": "127.0.0.1"}, self.routes.workers

            async def outcome(role: str, name: str, work: Callable[[], Reply]) -> Reply:
                self.gate.revoke(device.mark)
                return work()
            with mock.patch.object(workers, "outcome", outcome):
                try:
                    await self.routes.answer(Request("GET", f"/office/{path}", fields, "127.0.0.1"))
                except Wrong as wrong:
                    return wrong.status
            return 200

        for path in ("finish/state/cup", "jury/rulings/cup", "scorer/devices", "scorer/listed/cup", "scorer/results/cup"):
            role = path.partition("/")[0].upper()
            cookie = self.gate.enter(Request("POST", "/", {}, "127.0.0.1"), role, self.gate.new_key(role, False), "Eve")[0]
            device = [*self.gate.devices.values()][-1]
            self.assertEqual(asyncio.run(status(device, path, cookie.partition(";")[0])), 401, path)


class FullDisk(unittest.TestCase):
    def test_nothing_changes(self) -> None:
        """Where the file of devices can't be written, links and devices are as they were."""
        holder = tempfile.TemporaryDirectory()
        self.addCleanup(holder.cleanup)
        gate = Gate(os.path.join(holder.name, "web.json"))
        key = gate.new_key("FINISH")
        request = Request("POST", "/", {}, "127.0.0.1")
        cookie = gate.enter(request, "FINISH", key, "Ann")[0].partition(";")[0]
        again, mark = Request("POST", "/", {"cookie": cookie}, "127.0.0.1"), next(iter(gate.devices))
        changes: list[Callable[[], object]] = [lambda: gate.enter(again, "FINISH", key, "Ann"), lambda: gate.new_key("FINISH"),
                                               lambda: gate.new_key("FINISH", False), lambda: gate.revoke(mark)]
        with mock.patch("raceoffice.web.gate.replace_whole", side_effect=Trouble("No room")):
            for change in changes:
                self.assertRaises(Trouble, change)
                self.assertIsNotNone(gate.known(again, "FINISH"))
        self.assertTrue(gate.enter(again, "FINISH", key, "Ann"))


class Addresses(unittest.TestCase):
    """A network gives the computer another address while the office is served."""

    def follow(self, follows: bool, *addresses: list[str]) -> tuple[WebOffice, list[str]]:
        """An office of http://192.168.1.20:8080/ once the computer had these addresses, and what it said."""
        told: list[str] = []
        office = WebOffice(Gate(""), "/none", "http://192.168.1.20:8080/", told.append, follows=follows)
        for found in addresses:
            with mock.patch("raceoffice.web.web_office.addresses", return_value=found):
                office.follow_address()
        return office, told

    def test_another(self) -> None:
        """It answers there, links are of there, and it is said once; none is the old one's for a while."""
        for addresses in ([["192.168.43.7"]] * 2, [["127.0.0.1"], ["192.168.43.7", "10.0.0.9"], ["192.168.43.7"]]):
            office, told = self.follow(True, *addresses)
            office.gate.check_host(Request("GET", "/", {"host": "192.168.43.7:8080"}, "127.0.0.1"))
            self.assertEqual(office.address, "http://192.168.43.7:8080/")
            self.assertEqual([said.count(f"is at {office.address}. ") for said in told], [1])

    def test_without_a_network(self) -> None:
        office, told = self.follow(True, ["127.0.0.1"], ["192.168.1.20"])
        self.assertEqual((office.address, told), ("http://192.168.1.20:8080/", []))

    def test_one_that_was_chosen(self) -> None:
        """A name, or one address, that somebody has chosen stays that of links."""
        office, told = self.follow(False, ["192.168.43.7"])
        self.assertEqual((office.address, told), ("http://192.168.1.20:8080/", []))


class Ages(unittest.TestCase):
    """How long a device is known: 14 days, whatever the computer's clock is set to."""

    def setUp(self) -> None:
        holder = tempfile.TemporaryDirectory()
        self.addCleanup(holder.cleanup)
        self.uptime, self.clock, self.boot = 5000.0, 1.8e9, "one"
        for name, call in (("raceoffice.system.uptime", lambda: self.uptime), ("raceoffice.system.boot", lambda: self.boot),
                           ("time.time", lambda: self.clock)):
            patch = mock.patch(name, call)
            patch.start()
            self.addCleanup(patch.stop)
        self.path = os.path.join(holder.name, "web.json")
        self.gate = Gate(self.path)
        key = self.gate.new_key("FINISH")
        cookie, _ = self.gate.enter(Request("POST", "/", {}, "127.0.0.1"), "FINISH", key, "Ann")
        self.request = Request("GET", "/", {"cookie": cookie.partition(";")[0]}, "127.0.0.1")

    def known(self) -> list[bool]:
        """Whether the device is known to the web, and to one that is started now."""
        return [gate.known(self.request, "FINISH") is not None for gate in (self.gate, Gate(self.path))]

    def test_clock_set(self) -> None:
        """A clock that is set puts nobody out, and makes nobody younger."""
        for days in (15, -15, -4000, 8000):
            self.clock += days * DAY
            self.assertEqual(self.known(), [True, True], days)
        self.uptime += 14 * DAY - 1
        self.assertEqual(self.known(), [True, True])
        self.clock -= 30 * DAY
        self.uptime += 2
        self.assertEqual(self.known(), [False, False])

    def test_started_again(self) -> None:
        """Since the computer was started again only its clock says how long it was off; a clock that was set back then
        says nothing."""
        self.uptime += 3 * DAY
        self.gate.device(self.request, "FINISH")
        self.gate.write()
        self.uptime, self.boot = 20.0, "two"
        for days, is_let_in in ((-30, True), (30, True), (10, True), (2, False)):
            self.clock += days * DAY
            self.assertEqual(self.known()[1], is_let_in, days)

    def test_older_file(self) -> None:
        """A file of an older package has the ages by the computer's clock."""
        with open(self.path, encoding="utf-8") as file:
            held = json.load(file)
        del held["clock"]
        with open(self.path, "w", encoding="utf-8") as file:
            json.dump(held, file)
        self.assertEqual(self.known()[1], True)
        self.clock += 15 * DAY
        self.assertEqual(self.known()[1], False)


if __name__ == "__main__":
    unittest.main()
