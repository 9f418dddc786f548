"""The board of the office in browsers: pushed within a second, and no office is asked for those who look."""
from __future__ import annotations

import asyncio
import json
import os
import secrets
import socket
import threading
import time
import unittest
import zlib
from typing import Any
from unittest import mock

import helpers
from raceoffice.program.link import Link
from raceoffice.results.html import assets
from raceoffice.results.http_answers import Board
from raceoffice.series.folder import Folder
from raceoffice.web.gate import Gate
from raceoffice.web.hosting import BEHIND, Host, Hub
from raceoffice.web.page_news import PageNews
from raceoffice.web.routes import Routes
from raceoffice.web.taps import Tap
from raceoffice.web.web_office import WebOffice
from web_devices import BOATS, SAILS, Device, Web, list_of, new_id

WATCHERS = 300
# How zlib is told that what it unpacks is gzip
GZIP = 31


class Watchers:
    """Phones that look at the board, in a thread of their own, with the newest version and page that each was sent."""

    def __init__(self, port: int, number: int) -> None:
        self.port, self.versions, self.pages = port, [""] * number, [""] * number
        self.loop = asyncio.new_event_loop()
        threading.Thread(target=self.loop.run_forever, daemon=True).start()
        # Python forgets a task that nobody holds, also one that waits: its phone would leave.
        self.tasks = [asyncio.run_coroutine_threadsafe(self.watch(at), self.loop) for at in range(number)]

    async def watch(self, at: int) -> None:
        reader, writer = await asyncio.open_connection("127.0.0.1", self.port)
        writer.write(b"GET /live?page=/cup/ HTTP/1.1\r\nHost: 127.0.0.1\r\nAccept-Encoding: gzip\r\n\r\n")
        await reader.readuntil(b"\r\n\r\n")
        unpacked, text = zlib.decompressobj(GZIP), b""
        while data := await reader.read(1 << 16):
            *events, text = (text + unpacked.decompress(data)).split(b"\n\n")
            for event in filter(lambda event: event.startswith(b"data: "), events):
                said = json.loads(event[6:])
                self.versions[at] = said["version"]
                self.pages[at] = said.get("page", self.pages[at])
        writer.close()

    def close(self) -> None:
        end(self.loop)


def end(loop: asyncio.AbstractEventLoop) -> None:
    """Ends all that a loop of another thread does, and the loop."""
    async def leave() -> None:
        others = asyncio.all_tasks() - {asyncio.current_task()}
        for task in others:
            task.cancel()
        await asyncio.gather(*others, return_exceptions=True)
    asyncio.run_coroutine_threadsafe(leave(), loop).result(60)
    loop.call_soon_threadsafe(loop.stop)


class Pushed(Web):
    def news(self, device: Device) -> str:
        """The version in the next news of the board, which a device waits for."""
        while line := device.news.readline():
            if line.startswith(b"data: {"):
                return str(json.loads(line[6:])["version"])
        raise AssertionError("the news has ended")

    def other(self, device: Device, before: str) -> str:
        """The next version that is another than that of before."""
        while (found := self.news(device)) == before:
            pass
        return found

    def test_page(self) -> None:
        """A finisher is on the board's page when its news comes, without another look at the office; a race
        that counts changes the table. What doesn't change a page is no news of it."""
        finish, scorer, phone = self.device("finish"), self.device("scorer"), Device(self.port, "")
        status, said = phone.ask("GET", "/cup/now.json")
        self.assertEqual((status, phone.fields["x-news"]), (200, "/live?page="))
        phone.wait("/live?page=/cup/")
        before = self.news(phone)
        self.assertEqual(before, said["version"])
        finish.tap("FINISH 1 GBR33")
        after = self.other(phone, before)
        self.assertIn("GBR 33", phone.ask("GET", "/cup/race-1.html")[1])
        missing = [sail for sail in SAILS if sail != "GBR33"]
        agreed = [{"kind": "score-missing", "values": {"race": 1, "sails": missing}}]
        self.assertEqual(scorer.tap("SCORE 1", agreed=agreed)[1]["outcome"], "taken")
        last = self.other(phone, after)
        page = phone.ask("GET", "/cup/")[1]
        self.assertIn(f'data-version="{last}"', page)
        self.assertLess(page.index("Turnstone"), page.index("Kestrel"))
        status, _ = phone.ask("GET", "/cup/", If_None_Match=phone.fields["etag"])
        self.assertEqual(status, 304)

    def test_typed_beside(self) -> None:
        """What is typed in a window beside the pages is pushed, too."""
        phone = Device(self.port, "")
        phone.wait("/live?page=/cup/")
        before = self.news(phone)
        window = self.typist("finish")
        window.say("finish 1 101", "OK 13")
        self.other(phone, before)
        self.assertIn("GBR 101", phone.ask("GET", "/cup/race-1.html")[1])

    def test_whole_page(self) -> None:
        """Whoever can unpack it gets the page itself, as it is served, without its script: at each of its addresses."""
        finish, phone = self.device("finish"), Device(self.port, "")
        finish.tap("FINISH 1 GBR33")
        helpers.until("the race's page", lambda: phone.ask("GET", "/cup/race-1.html")[0] == 200)
        streams = {address: Stream(self.port, address) for address in ("/", "/cup/", "/cup/race-1.html")}
        for stream in streams.values():
            self.addCleanup(stream.link.close)
            self.assertNotIn("page", stream.next())
        finish.tap("FINISH 1 GBR101", behind="GBR33")
        for address, stream in streams.items():
            while "page" not in (said := stream.next()):
                pass
            served = phone.ask("GET", address)[1]
            self.assertEqual(said["page"], served.replace(f"<script>{assets.script()}</script>", ""), address)
            self.assertIn(f'data-version="{said["version"]}"', said["page"])
            self.assertIn("<main", said["page"])

    def test_within_a_second(self) -> None:
        """What is tapped is on the phones that look at a race within a second: the best of many, since others use this computer,
        too."""
        finish, phone, address, took = self.device("finish"), Device(self.port, ""), "/cup/race-1.html", [60.0]
        finish.tap("FINISH 1 GBR204")
        helpers.until("the race's page", lambda: phone.ask("GET", address)[0] == 200)
        stream = Stream(self.port, address)
        self.addCleanup(stream.link.close)
        for line in (f"{command} 1 {sail}" for command in ("FINISH", "STRIKE") for sail in SAILS[:11]):
            began = time.monotonic()
            self.assertEqual(finish.tap(line)[1]["outcome"], "taken")
            # The journal is a part of the page.
            while f'{line}"' not in stream.next().get("page", ""):
                pass
            took.append(time.monotonic() - began)
            if took[-1] < 1:
                break
        self.assertLess(min(took), 1)

    def test_no_page(self) -> None:
        """There is news of pages, and of nothing else."""
        phone = Device(self.port, "")
        for path in ("/live", "/live?page=", "/live?page=/none/", "/live?page=/cup/results.csv", "/live?/cup/"):
            self.assertEqual(phone.ask("GET", path)[0], 404, path)

    def test_page_that_left(self) -> None:
        """A spectator at an address that was posted, and isn't there any more, gets a page with the way to the board."""
        phone = Device(self.port, "")
        for path in ("/spring/", "/spring/race-1.html", "/spring"):
            status, page = phone.ask("GET", path, accept="text/html,application/xhtml+xml,*/*;q=0.8")
            self.assertEqual((status, phone.fields["content-type"]), (404, "text/html; charset=utf-8"), path)
            self.assertIn('<a href="/">', page)
            self.assertEqual(phone.ask("GET", path, accept="application/json")[1]["words"], "there is no such page here")


class Stream:
    """Packed news of a page, one event after another."""

    def __init__(self, port: int, address: str) -> None:
        self.link = socket.create_connection(("127.0.0.1", port), timeout=90)
        self.link.sendall(f"GET /live?page={address} HTTP/1.1\r\nHost: 127.0.0.1\r\nAccept-Encoding: br, gzip\r\n\r\n".encode())
        self.file, self.unpacked, self.text = self.link.makefile("rb"), zlib.decompressobj(GZIP), b""
        while self.file.readline().strip():
            pass

    def next(self) -> dict[str, str]:
        while True:
            event, end, rest = self.text.partition(b"\n\n")
            if end:
                self.text = rest
                if event.startswith(b"data: "):
                    found: dict[str, str] = json.loads(event[6:])
                    return found
            elif data := self.file.read1(1 << 16):
                self.text += self.unpacked.decompress(data)
            else:
                raise AssertionError("the news has ended")


class Crowd(helpers.Series):
    """Three hundred phones, and the office beside them, in this process: so each SHOW is counted."""

    def setUp(self) -> None:
        super().setUp()
        self.write(list_of(BOATS), "cup", "entries.csv")
        self.open()
        self.shown: list[float] = []
        whole = Link.sheet

        def counted(link: Link) -> Any:
            self.shown.append(time.monotonic())
            return whole(link)

        patch = mock.patch.object(Link, "sheet", counted)
        patch.start()
        self.addCleanup(patch.stop)
        self.port = helpers.free_port(self)
        self.office = WebOffice(Gate(""), self.here, "", lambda text: None)
        self.loop = asyncio.new_event_loop()
        threading.Thread(target=self.loop.run_forever, daemon=True).start()
        asyncio.run_coroutine_threadsafe(self.host(), self.loop).result(60)
        self.room = self.office.add(Folder(os.path.join(self.here, "cup"))).room
        threading.Thread(target=self.office.keep_board, daemon=True).start()
        self.addCleanup(self.end)

    async def host(self) -> None:
        host = Host(Routes(self.office).answer, lambda request: 4096, print)
        await host.start("127.0.0.1", self.port, None)
        self.office.news.start()
        self.office.board_news.start()

    def end(self) -> None:
        self.office.close()
        end(self.loop)

    def test_crowd(self) -> None:
        """Those who look add no SHOW to those of taps, and each has each change."""
        helpers.until("the board", lambda: "/cup/" in self.office.board.texts)
        watchers = Watchers(self.port, WATCHERS)
        self.addCleanup(watchers.close)
        helpers.until("the watchers", lambda: set(watchers.versions) == {self.version()})
        before = len(self.shown)
        for sail in SAILS[:6]:
            done = self.room.do("FINISH", "Ann", Tap(new_id(), f"FINISH 1 {sail}", 1))
            self.assertEqual(done["outcome"], "taken")
            helpers.until("the finisher", lambda: sail in self.board_order())
            helpers.until("the watchers", lambda: set(watchers.pages) == {self.page()})
        # One for each tap, and one for the session's beginning.
        self.assertLessEqual(len(self.shown) - before, 7)

    def version(self) -> str:
        return str(json.loads(self.office.board.texts["/cup/now.json"].plain)["version"])

    def page(self) -> str:
        """The page as it is now, without its script."""
        return self.office.board.texts["/cup/"].plain.decode().replace(f"<script>{assets.script()}</script>", "")

    def board_order(self) -> list[str]:
        """The finishers of race 1 as the board has them."""
        live_board = self.office.live_board
        view = live_board.sources[0].view if live_board else None
        return [sail for group in view.race(1).order for sail in group] if view else []


class Early(unittest.IsolatedAsyncioTestCase):
    """Whoever waits for news before the office is open."""

    async def test_news_before_the_start(self) -> None:
        """What changes between their first news and the start of the hub comes to them with its start."""
        versions = ["old"]
        hub = Hub(lambda: versions[0], 0.01)
        server = await asyncio.start_server(lambda reader, writer: hub.serve(reader, writer, ""), "127.0.0.1", 0)
        reader, writer = await asyncio.open_connection(*server.sockets[0].getsockname()[:2])
        self.assertIn(b"data: old", await reader.readuntil(b"old\n\n"))
        versions[0] = "new"
        hub.wake()
        hub.start()
        # A sign of life alone, which comes later, isn't news.
        said = await asyncio.wait_for(reader.readuntil(b"\n\n"), helpers.PATIENCE)
        self.assertEqual(said, b"data: new\n\n")
        writer.close()
        server.close()


class Slow(unittest.IsolatedAsyncioTestCase):
    """Phones that don't take what they are sent."""

    async def asyncSetUp(self) -> None:
        loop = asyncio.get_running_loop()
        loop.set_exception_handler(lambda *_: None)
        loop.slow_callback_duration = helpers.PATIENCE
        self.board = Board()
        self.put("1", b"")
        self.news = PageNews(self.board, 0.01)
        self.server = await asyncio.start_server(
            lambda reader, writer: self.news.serve(reader, writer, "/cup/", True), "127.0.0.1", 0)
        self.addCleanup(self.server.close)

    def put(self, version: str, page: bytes) -> None:
        known = json.dumps({"version": version}).encode() + b"\n"
        self.board.put({"/cup/": ("text/html; charset=utf-8", page), "/cup/now.json": ("application/json", known)})

    async def phone(self) -> tuple[asyncio.StreamReader, asyncio.StreamWriter]:
        number = len(self.news.lookers)
        reader, writer = await asyncio.open_connection(*self.server.sockets[0].getsockname()[:2])
        self.addCleanup(writer.close)
        await reader.readuntil(b"\r\n\r\n")
        while len(self.news.lookers) == number:
            await asyncio.sleep(0.01)
        return reader, writer

    async def test_slow(self) -> None:
        """Who doesn't read holds nobody up, isn't sent page after page, and is put off in the end."""
        _, slow = await self.phone()
        assert isinstance(slow.transport, asyncio.Transport)
        slow.transport.pause_reading()
        held = next(iter(self.news.lookers))
        quick, _ = await self.phone()
        unpacked, text, most = zlib.decompressobj(GZIP), b"", 0
        # A page has 12,000 bytes, packed.
        patch = mock.patch("raceoffice.web.hosting.BEHIND", 13_000)
        patch.start()
        self.addCleanup(patch.stop)
        for at in range(2, 1000):
            page = f"{at}: {secrets.token_hex(12_000)}"
            self.put(str(at), page.encode())
            self.news.send_news()
            while not text.endswith(f'{page}"}}\n\n'.encode()):
                text += unpacked.decompress(await asyncio.wait_for(quick.read(1 << 16), helpers.PATIENCE))
            text = b""
            most = max(most, held.transport.get_write_buffer_size())
            if held not in self.news.lookers:
                break
        self.assertNotIn(held, self.news.lookers)
        self.assertEqual(len(self.news.lookers), 1)
        self.assertLess(most, 14_000)

    async def test_long(self) -> None:
        """A page that a weak line would never be done with is only told of."""
        reader, _ = await self.phone()
        unpacked = zlib.decompressobj(GZIP)
        self.put("2", secrets.token_hex(BEHIND).encode())
        self.news.send_news()
        text = b""
        while b'"2"' not in text:
            text += unpacked.decompress(await asyncio.wait_for(reader.read(1 << 16), helpers.PATIENCE))
        self.assertEqual(text.rpartition(b"data: ")[2], b'{"version": "2"}\n\n')


if __name__ == "__main__":
    unittest.main()
