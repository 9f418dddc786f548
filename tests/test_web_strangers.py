"""What strangers in the network, and whoever has a link that has got about, can't do to the office."""
from __future__ import annotations

import asyncio
import collections
import contextlib
import io
import json
import logging
import socket
import ssl
import threading
import tracemalloc
import unittest
from collections.abc import Callable
from typing import Any
from unittest import mock

import helpers
from raceoffice.results.http_answers import Board
from raceoffice.web import hosting, workers
from raceoffice.web.gate import DEVICES, QUIET, ROLES, Device, Gate, plain_name
from raceoffice.web.hosting import PIECE, TOGETHER, Host
from raceoffice.web.page_news import PageNews
from raceoffice.web.rates import Rate
from raceoffice.web.requests import HEAD, Reply, Request, Wrong, packed
from raceoffice.web.routes import Routes
from raceoffice.web.web_office import WebOffice
from web_devices import Web

GET = b"GET / HTTP/1.1\r\n\r\n"


class Packed(unittest.TestCase):
    def test_long_states(self) -> None:
        """Of long states, each of which many ask for, a few stay in memory, however many taps there were."""
        request = Request("GET", "/", {"accept-encoding": "gzip"}, "127.0.0.1")
        tracemalloc.start()
        self.addCleanup(tracemalloc.stop)
        for number in range(40):
            state = Reply(data=str(number).encode().ljust(1 << 20))
            self.assertIs(packed(request, state).data, packed(request, state).data)
        self.assertLess(tracemalloc.get_traced_memory()[0], 16 << 20)


class Connections(unittest.IsolatedAsyncioTestCase):
    async def asyncSetUp(self) -> None:
        loop = asyncio.get_running_loop()
        loop.set_exception_handler(lambda *_: None)
        loop.slow_callback_duration = helpers.PATIENCE
        self.data, self.answered, self.door = b"x" * (1 << 20), 0, ("127.0.0.1", helpers.free_port(self))

        async def answer(request: Request) -> Reply:
            self.answered += 1
            return Reply(kind="text/plain", data=self.data)

        self.host = Host(answer, lambda _: 0, self.fail, lambda request: request.fields.get("cookie", ""))
        # However slow this computer is, those who say nothing stay.
        patch = mock.patch("raceoffice.web.requests.IDLE", 10 * helpers.PATIENCE)
        patch.start()
        self.addCleanup(patch.stop)

    async def until(self, holds: object) -> None:
        """Waits until a condition holds."""
        assert callable(holds)
        for _ in range(int(helpers.PATIENCE * 100)):
            if holds():
                return
            await asyncio.sleep(0.01)
        self.fail("it didn't come about")

    def deaf(self) -> socket.socket:
        """A connection that takes next to nothing of what is sent."""
        link = socket.socket()
        self.addCleanup(link.close)
        link.setsockopt(socket.SOL_SOCKET, socket.SO_RCVBUF, 1)
        link.connect(self.door)
        return link

    async def test_asked_in_advance(self) -> None:
        """Somebody asks very often in one go and takes no answer: once the connection is cut off, the rest isn't answered."""
        await self.host.start(*self.door, None)
        with mock.patch("raceoffice.web.hosting.SLOW", 0.2):
            self.deaf().sendall(GET * 500)
            await self.until(lambda: self.answered and not self.host.open)
        self.assertLess(self.answered, 20)

    def test_nothing_printed(self) -> None:
        """What clients do to connections isn't printed: a terminal that was stopped would hold up everybody."""
        with contextlib.redirect_stderr(io.StringIO()) as printed:
            logging.getLogger("asyncio").warning("socket.send() raised exception.")
        self.assertEqual(printed.getvalue(), "")

    async def test_in_pieces(self) -> None:
        """Of an answer that nobody takes this process holds a piece or two, and no copy."""
        writers: list[asyncio.StreamWriter] = []
        drain = asyncio.StreamWriter.drain

        async def noted(writer: asyncio.StreamWriter) -> None:
            writers.append(writer)
            await drain(writer)

        self.data = b"x" * (16 << 20)
        await self.host.start(*self.door, None)
        with mock.patch.object(asyncio.StreamWriter, "drain", noted):
            self.deaf().sendall(GET)
            await self.until(lambda: writers)
            await asyncio.sleep(0.1)
        self.assertLessEqual(writers[-1].transport.get_write_buffer_size(), 3 * PIECE)

    async def test_much_sent_in_advance(self) -> None:
        """Of a client that has sent much before its first request is answered a few heads are held, however much came at once."""
        readers, asked, streams_of = list[asyncio.StreamReader](), asyncio.Event(), hosting.streams_of

        async def noted(*values: Any) -> tuple[asyncio.StreamReader, asyncio.StreamWriter]:
            found = await streams_of(*values)
            readers.append(found[0])
            return found

        async def never(_: Request) -> Reply:
            asked.set()
            await asyncio.sleep(helpers.PATIENCE)
            return Reply()

        self.host.answer = never
        await self.host.start(*self.door, None)
        with mock.patch.object(hosting, "streams_of", noted), socket.create_connection(self.door) as link:
            link.setblocking(False)
            self.assertGreater(link.send(GET * (16 * HEAD // len(GET))), 4 * HEAD)
            await asyncio.wait_for(asked.wait(), helpers.PATIENCE)
            await asyncio.sleep(0.1)
            self.assertLessEqual(len(readers[0]._buffer), 3 * HEAD)  # type: ignore[attr-defined]

    async def come(self, text: bytes) -> asyncio.StreamReader:
        """What comes over one more connection of an address that may have four."""
        reader, writer = await asyncio.open_connection(*self.door, local_addr=("127.0.0.2", 0))
        self.addCleanup(writer.transport.abort)
        self.links.append(writer)
        if text:
            await self.ask(reader, writer, text)
        await self.until(lambda: len(self.host.visits["127.0.0.2"]) == min(4, len(self.links)))
        return reader

    async def ask(self, reader: asyncio.StreamReader, writer: asyncio.StreamWriter, text: bytes) -> None:
        writer.write(text)
        self.assertTrue((await reader.readuntil(b"ok")).startswith(b"HTTP/1.1 200"))

    async def room_for_four(self) -> None:
        self.data, self.links = b"ok", list[asyncio.StreamWriter]()
        await self.host.start(*self.door, None)
        self.host.most_of_one = 4

    @mock.patch.object(hosting, "YOUNG", 0.0)
    async def test_same_address(self) -> None:
        """An address has all the connections that it may have: one more comes in for the one that came first and has asked for
        nothing, else for a stranger's, and for that of a device last. A device stays one, whatever it asks for next."""
        await self.room_for_four()

        def known() -> list[int]:
            crowd = self.host.visits["127.0.0.2"]
            return [len(crowd.silent), len(crowd.strangers), sum(map(len, crowd.devices.values()))]

        device = b"GET / HTTP/1.1\r\nCookie: Ann\r\n\r\n"
        readers = [await self.come(text) for text in (device, b"", GET, b"")]
        self.assertEqual(known(), [2, 1, 1])
        await self.ask(readers[0], self.links[0], GET)
        for text, wanted in ((GET, [1, 2, 1]), (device, [0, 2, 2]), (device, [0, 1, 3]), (GET, [0, 1, 3])):
            readers.append(await self.come(text))
            self.assertEqual(known(), wanted)
        # Those that were given up have ended, in this order.
        self.assertEqual([await readers[at].read() for at in (1, 3, 2, 4)], [b""] * 4)
        await self.until(lambda: (self.host.open, self.host.ending) == (4, 0))

    @mock.patch.object(hosting, "YOUNG", helpers.PATIENCE)
    async def test_young(self) -> None:
        """A connection that has only just come, and so has asked for nothing, stays as long as strangers have some that rest:
        these go, the first one first, and after them the young ones."""
        await self.room_for_four()
        readers = [await self.come(text) for text in (GET, b"", GET, b"", b"", b"")]
        await self.until(lambda: [at for at, reader in enumerate(readers) if reader.at_eof()] == [0, 2])
        readers += [await self.come(b""), await self.come(b"")]
        await self.until(lambda: [reader.at_eof() for reader in readers] == [True] * 4 + [False] * 4)
        await self.ask(readers[4], self.links[4], GET)

    async def test_most_of_a_device(self) -> None:
        """Where devices have all connections of an address, the one that has most gives its first one up: another keeps its
        own, however long ago they came."""
        await self.room_for_four()
        ann, eve = (f"GET / HTTP/1.1\r\nCookie: {name}\r\n\r\n".encode() for name in ("Ann", "Eve"))
        readers = [await self.come(text) for text in (ann, eve, eve, eve, eve, eve)]
        await self.until(lambda: [at for at, reader in enumerate(readers) if reader.at_eof()] == [1, 2])
        await self.ask(readers[0], self.links[0], ann)

    @mock.patch.object(hosting, "YOUNG", helpers.PATIENCE)
    @mock.patch.object(hosting, "FEW", 2)
    async def test_many_of_a_device(self) -> None:
        """A device that has many gives one up before a connection that has only just come."""
        await self.room_for_four()
        ann, eve = (f"GET / HTTP/1.1\r\nCookie: {name}\r\n\r\n".encode() for name in ("Ann", "Eve"))
        readers = [await self.come(text) for text in (b"", eve, eve, eve, b"", b"")]
        await self.until(lambda: [at for at, reader in enumerate(readers) if reader.at_eof()] == [0, 1])
        await self.ask(readers[4], self.links[4], ann)

    @mock.patch.object(hosting, "YOUNG", helpers.PATIENCE)
    @mock.patch.object(hosting, "FEW", 1)
    async def test_more_than_strangers(self) -> None:
        """A device that has many, and more than all strangers, gives one up before a stranger does."""
        await self.room_for_four()
        eve = b"GET / HTTP/1.1\r\nCookie: Eve\r\n\r\n"
        readers = [await self.come(text) for text in (GET, eve, eve, eve, GET, GET)]
        await self.until(lambda: [at for at, reader in enumerate(readers) if reader.at_eof()] == [0, 1])

    async def test_given_up_at_its_end(self) -> None:
        """A connection that is given up while it ends has left its socket: the next one that has its number is heard."""
        self.data, begun = b"ok", asyncio.Event()
        closed = asyncio.StreamWriter.wait_closed

        async def slow(writer: asyncio.StreamWriter) -> None:
            begun.set()
            await asyncio.sleep(helpers.PATIENCE)
            await closed(writer)

        await self.host.start(*self.door, None)
        with mock.patch.object(asyncio.StreamWriter, "wait_closed", slow), mock.patch("raceoffice.web.hosting.MOMENT", helpers.PATIENCE):
            link = self.deaf()
            link.sendall(b"GET / HTTP/1.1\r\nConnection: close\r\n\r\n")
            await asyncio.wait_for(begun.wait(), helpers.PATIENCE)
            aborted = mock.Mock(side_effect=asyncio.selector_events._SelectorSocketTransport.abort)  # type: ignore[attr-defined]
            with mock.patch.object(asyncio.selector_events._SelectorSocketTransport, "abort", lambda own: aborted(own)):  # type: ignore[attr-defined]
                self.host.give_up(self.host.visits["127.0.0.1"])
                await self.until(lambda: not self.host.open)
        self.assertTrue(aborted.called)

    async def sent_but_its_end(self) -> socket.socket:
        """A connection with a request whose body lacks its last byte."""
        before = self.host.open
        link = socket.create_connection(self.door)
        self.addCleanup(link.close)
        link.sendall(b"POST / HTTP/1.1\r\nContent-Length: 2\r\n\r\n{")
        await self.until(lambda: self.host.open == before + 1)
        await asyncio.sleep(0.05)
        return link

    async def test_given_up_with_its_last_byte(self) -> None:
        """A connection that is given up in whatever turn of the loop its request comes to be whole ends: none stays that is
        counted as about to end."""
        self.data, self.host.room = b"ok", lambda _: 10
        await self.host.start(*self.door, None)
        for turns in range(8):
            link = await self.sent_but_its_end()
            link.send(b"}")
            for _ in range(turns):
                await asyncio.sleep(0)
            self.host.give_up(self.host.visits["127.0.0.1"])
            await self.until(lambda: (self.host.open, self.host.ending) == (0, 0))

    async def test_given_up_before_its_answer(self) -> None:
        """A connection that was given up, whatever has become of that, isn't answered."""
        self.data, self.host.room = b"ok", lambda _: 10
        await self.host.start(*self.door, None)
        link = await self.sent_but_its_end()
        self.host.visits["127.0.0.1"].take_first()
        self.host.ending += 1
        link.send(b"}")
        await self.until(lambda: (self.host.open, self.host.ending) == (0, 0))
        self.assertEqual((self.answered, link.recv(100)), (0, b""))

    async def test_some_that_never_end(self) -> None:
        """However many that were given up don't end, others are let in as long as there are files for them."""
        self.data = b"ok"
        await self.host.start(*self.door, None)
        self.host.ending = self.host.most_ending + 1
        for _ in range(3):
            reader, writer = await asyncio.open_connection(*self.door)
            self.addCleanup(writer.transport.abort)
            await asyncio.wait_for(self.ask(reader, writer, GET), helpers.PATIENCE)
        self.host.open = self.host.most + self.host.most_ending
        reader, _ = await asyncio.open_connection(*self.door)
        self.assertEqual(await asyncio.wait_for(reader.read(), helpers.PATIENCE), b"")

    async def test_many_heads_at_once(self) -> None:
        """Of an address whose heads come at once, some are read in each turn of the loop; another one doesn't wait for them."""
        turns, seen = [0], list[tuple[str, int]]()

        async def answer(request: Request) -> Reply:
            seen.append((request.address, turns[0]))
            return Reply()

        async def count() -> None:
            while True:
                turns[0] += 1
                await asyncio.sleep(0)

        self.host.answer = answer
        await self.host.start(*self.door, None)
        links = [socket.create_connection(self.door, source_address=(f"127.0.0.{3 if at == 60 else 2}", 0)) for at in range(61)]
        for link in links:
            self.addCleanup(link.close)
        await self.until(lambda: self.host.open == len(links))
        counting = asyncio.create_task(count())
        for link in links:
            link.sendall(GET)
        await self.until(lambda: len(seen) == len(links))
        counting.cancel()
        self.assertIn(max(collections.Counter(seen).values()), range(2, TOGETHER + 2))
        self.assertLess([address for address, _ in seen].index("127.0.0.3"), 2 * TOGETHER + 2)

    async def test_files_left(self) -> None:
        """Files are left to the rest of the process, for many classes; by HTTPS there are fewer connections."""
        secure = ssl.SSLContext(ssl.PROTOCOL_TLS_SERVER)
        for files, context, most in ((1 << 20, None, 8192), (8704, None, 8192), (4096, None, 3584), (1024, None, 768),
                                     (256, None, 192), (8704, secure, 2048), (1024, secure, 768)):
            with self.subTest(files=files), mock.patch("raceoffice.system.room_for_files", lambda most: min(most, files)):
                host = Host(self.host.answer, self.host.room, self.fail)
                await host.start("127.0.0.1", helpers.free_port(self), context)
                self.assertEqual(host.most, most)
                self.assertGreaterEqual(host.most_of_one, min(2000, most // 2))
                self.assertLessEqual(most + host.most_ending, files)
                host.close()

    async def test_gone_before_the_news(self) -> None:
        """A client that has gone before its news begins is no fault: by HTTPS its connection has no socket any more."""
        board = Board()
        board.put({"/cup/": ("text/html; charset=utf-8", b""), "/cup/now.json": ("application/json", b"{}\n")})
        writer = mock.Mock()
        writer.get_extra_info.return_value = None
        news = PageNews(board, 0.01)
        await news.serve(asyncio.StreamReader(), writer, "/cup/", True)
        self.assertEqual((news.lookers, writer.write.called), ({}, False))


class Links(unittest.TestCase):
    """A link that has got about."""

    def setUp(self) -> None:
        self.gate = Gate("")
        self.gate.coming = Rate(1000, 0)
        self.keys = {role: self.gate.new_key(role) for role in ("FINISH", "JURY")}
        self.now = self.gate.clock.now()
        clock = mock.patch.object(self.gate.clock, "now", lambda: self.now)
        clock.start()
        self.addCleanup(clock.stop)

    def come(self, name: str = "iPhone", role: str = "FINISH", address: str = "127.0.0.1") -> str:
        """The mark of a device that comes by the link of a role."""
        before = set(self.gate.devices)
        self.gate.enter(Request("POST", "/", {}, address), role, self.keys[role], name)
        return next(iter(set(self.gate.devices) - before))

    def names(self) -> set[str]:
        return {device.name for device in self.gate.devices.values()}

    def test_put_out(self) -> None:
        """Whoever finds a phone that was put out can't come in again by the link that it has: that has ended. Other devices
        and links stay, and so they do if a device leaves by itself."""
        lost, boat, jury = self.come("lost"), self.come("boat"), self.come("jury", "JURY")
        self.gate.revoke(boat, False)
        self.come("boat")
        self.gate.revoke(lost)
        self.assertRaisesRegex(Wrong, "isn't valid any more", self.come)
        self.assertEqual(self.names(), {"boat (2)", "jury"})
        self.come("second", "JURY")
        self.keys["FINISH"] = self.gate.new_key("FINISH", False)
        self.come("next")
        self.assertIn(jury, self.gate.devices)

    def test_one_too_many(self) -> None:
        """However many come by a link, no device is put out that was heard within the hour, or waits for news."""
        boat, *others = [self.come(f"boat {number}") for number in range(DEVICES)]
        self.come("jury", "JURY")
        self.assertRaisesRegex(Wrong, "as many devices as it may have", self.come, "one more")
        self.now += QUIET
        for mark in others[1:]:
            self.gate.devices[mark].heard = self.now
        self.gate.watching = lambda: [boat]
        self.come("one more")
        self.assertIn(boat, self.gate.devices)
        self.assertNotIn(others[0], self.gate.devices)
        self.assertRaisesRegex(Wrong, "as many devices as it may have", self.come, "another")
        self.gate.watching = lambda: []
        self.come("another")
        self.assertNotIn(boat, self.gate.devices)

    def test_taps_that_wait(self) -> None:
        """A device that holds taps is put out for no other, however long it wasn't heard."""
        boat, *_ = [self.come(f"boat {number}") for number in range(DEVICES)]
        self.gate.devices[boat].unsent = 1
        self.now += 2 * QUIET
        for number in range(DEVICES - 1):
            self.come(f"stranger {number}")
        self.assertRaisesRegex(Wrong, "as many devices as it may have", self.come, "one more")
        self.assertIn(boat, self.gate.devices)

    def test_used_up(self) -> None:
        """However many have come by a link, whoever has the new one comes in at once."""
        self.gate.coming = Rate(3, 0.1)
        for are_devices_out in (True, False):
            with self.assertRaisesRegex(Wrong, "too many"):
                for _ in range(4):
                    self.come()
            self.keys["FINISH"] = self.gate.new_key("FINISH", are_devices_out)
            self.come("Ann")

    def test_link_that_ends_meanwhile(self) -> None:
        """Somebody comes by a link that ends while the gate is changed: it isn't valid any more."""
        ends: list[int] = []

        def enter() -> None:
            with self.assertRaises(Wrong) as wrong:
                self.come()
            ends.append(wrong.exception.status)

        with self.gate.changing():
            coming = threading.Thread(target=enter)
            coming.start()
            coming.join(0.2)
            self.gate.keys["FINISH"] = "another"
        coming.join()
        self.assertEqual(ends, [403])

    def test_names_used_up(self) -> None:
        """Devices come by the links of a role only so often: the names of those that were put out are theirs for hours."""
        gate = Gate("")
        self.gate, self.keys = gate, {"FINISH": gate.new_key("FINISH")}
        gate.revoke(self.come("Committee boat"), False)
        for _ in range(1000):
            with contextlib.suppress(Wrong):
                gate.revoke(self.come(), False)
        gate.coming = Rate(1, 0)
        self.come("Committee boat")
        self.assertEqual(self.names(), {"Committee boat (2)"})

    def test_composed(self) -> None:
        """Names that look the same are the same, however their letters are composed."""
        self.assertEqual(plain_name("Zoe\u0308"), plain_name("Zo\u00eb"))
        self.assertEqual(plain_name("W" * 29 + " x"), "W" * 29)

    def test_wrong_tries(self) -> None:
        """Whoever has the link comes in, however many try others from the same address."""
        key = self.keys["FINISH"]
        self.keys["FINISH"] = "A" * 22
        tried: list[int] = []
        for _ in range(30):
            with self.assertRaises(Wrong) as wrong:
                self.come()
            tried.append(wrong.exception.status)
        self.assertEqual((tried[0], tried[-1]), (403, 429))
        self.keys["FINISH"] = key
        self.come()


class Roles(unittest.IsolatedAsyncioTestCase):
    """What the devices of a role ask for, as many as came by one link, and nothing of it is done for a while."""

    async def asyncSetUp(self) -> None:
        self.gate, self.begun, self.go_on = Gate(""), list[str](), threading.Event()
        self.gate.coming = Rate(1000, 0)
        self.routes = Routes(WebOffice(self.gate, "/none", "http://127.0.0.1/", lambda text: None))
        self.keys = {role: self.gate.new_key(role) for role in ROLES}
        self.asked = list[asyncio.Task[object]]()
        writing = mock.patch.object(self.routes, "write", self.write)
        writing.start()
        self.addCleanup(writing.stop)
        self.addCleanup(self.go_on.set)

    def write(self, request: Request, role: str, device: Device, rest: list[str]) -> Reply:
        """Writes what a device of the finish asks for, once all may go on."""
        self.begun.append(device.name)
        if role == "FINISH":
            self.go_on.wait(helpers.PATIENCE)
        return Reply()

    def come(self, role: str, name: str) -> str:
        """The cookie of a device that comes."""
        return self.gate.enter(Request("POST", "/", {}, "127.0.0.1"), role, self.keys[role], name)[0].partition(";")[0]

    def ask(self, role: str, cookie: str, name: str = "cup") -> asyncio.Task[object]:
        """A request that writes."""
        fields = {"cookie": cookie, "host": "127.0.0.1", "origin": "http://127.0.0.1"}
        fields["x-token"] = self.gate.token(Request("POST", "/", fields, ""), role)
        answer = self.routes.answer(Request("POST", f"/office/{role.lower()}/line/{name}", fields, "127.0.0.1"))
        self.asked.append(asyncio.get_running_loop().create_task(answer))
        return self.asked[-1]

    async def until(self, what: str, holds: Callable[[], object]) -> None:
        """Waits until something holds."""
        for _ in range(int(helpers.PATIENCE * 100)):
            if holds():
                return
            await asyncio.sleep(0.01)
        self.fail(f"{what} didn't come about")

    async def test_other_roles(self) -> None:
        """Other roles don't wait, nor does whoever comes by a link."""
        for number in range(30):
            cookie = self.come("FINISH", f"Eve {number}")
            for _ in range(4):
                self.ask("FINISH", cookie)
        await self.until("the first", lambda: self.begun)
        for role in ("SCORER", "JURY"):
            answer = self.ask(role, self.come(role, role))
            await self.until(role, answer.done)
        body = json.dumps({"role": "FINISH", "key": self.keys["FINISH"], "name": "Ann"}).encode()
        fields = {"host": "127.0.0.1", "origin": "http://127.0.0.1", "content-type": "application/json"}
        reply = asyncio.create_task(self.routes.answer(Request("POST", "/office/in", fields, "127.0.0.1", body)))
        self.asked.append(reply)
        await self.until("whoever comes", reply.done)
        self.go_on.set()
        await asyncio.gather(*self.asked)
        self.assertEqual(len(self.begun), 122)

    async def test_two_classes(self) -> None:
        """What a device asks of a class that hangs holds up nothing that it asks of another."""
        cookie = self.come("FINISH", "Ann")
        self.routes.office.classes = {"cup": mock.Mock(), "fleet": mock.Mock()}
        for name, count in (("cup", 9), ("fleet", 1)):
            for _ in range(count):
                self.ask("FINISH", cookie, name)
        await self.until("what is asked of each", lambda: len(self.begun) == 4)
        self.go_on.set()
        await asyncio.gather(*self.asked)

    async def test_no_thread(self) -> None:
        """A turn that finds no thread, as the system has none, is given back."""
        cookie = self.come("JURY", "Eve")
        with mock.patch("raceoffice.web.workers.ThreadPoolExecutor.submit", side_effect=RuntimeError("can't start new thread")):
            for _ in range(5):
                with self.assertRaises(RuntimeError):
                    await self.ask("JURY", cookie)
        self.asked.clear()
        await asyncio.wait_for(self.ask("JURY", cookie), helpers.PATIENCE)

    async def test_one_device(self) -> None:
        """Of one device a few requests are begun, and the rest after them, also if some were given up meanwhile; another
        device doesn't wait for them. Nothing is known any more of a device once all is done."""
        eve, ann = self.come("FINISH", "Eve"), self.come("FINISH", "Ann")
        asked = [self.ask("FINISH", eve) for _ in range(50)]
        await self.until("some of Eve's", lambda: len(self.begun) == workers.AT_ONCE)
        self.ask("FINISH", ann)
        await self.until("Ann's", lambda: "Ann" in self.begun)
        for answer in (*asked[:2], *asked[20:30]):
            answer.cancel()
        await asyncio.gather(*asked[:2], *asked[20:30], return_exceptions=True)
        # Those whose connections were given up have their threads still.
        self.assertEqual(self.begun, ["Eve"] * workers.AT_ONCE + ["Ann"])
        self.go_on.set()
        await asyncio.gather(*self.asked, return_exceptions=True)
        self.assertEqual(self.begun.count("Eve"), 40)
        await self.until("the end", lambda: not self.routes.workers.turns)


class Waiting(Web):
    def test_heard_while_it_waits_for_news(self) -> None:
        """A phone that waits for news counts as heard, though it sends nothing for hours."""
        phone = self.device("finish", "boat")
        with socket.create_connection(("127.0.0.1", self.port), timeout=helpers.PATIENCE) as link:
            link.sendall(f"GET /office/finish/live HTTP/1.1\r\nHost: 127.0.0.1\r\nCookie: {phone.cookie}\r\n\r\n".encode())
            self.assertIn(b"200 OK", link.recv(4096))
            for number in range(DEVICES + 5):
                try:
                    self.device("finish", f"stranger {number}")
                except AssertionError as refused:
                    self.assertIn("devices-full", str(refused))
        self.assertEqual(phone.ask("GET", "/office/finish/me")[0], 200)


if __name__ == "__main__":
    unittest.main()
