"""The board's door: crowds of phones, connections that never finish, and odd addresses."""
from __future__ import annotations

import asyncio
import contextlib
import http.client
import io
import os
import select
import signal
import socket
import tempfile
import threading
import time
import unittest
import unittest.mock
import urllib.parse
from collections.abc import Iterator
from concurrent.futures import ThreadPoolExecutor

import helpers
from raceoffice import traces
from raceoffice.commands import board
from raceoffice.results import http_answers, server

# Loopback addresses: the flood's, and that of an honest phone.
FLOOD, HONEST = "127.0.0.2", "127.0.0.3"
# Seconds within which an honest phone is answered, whatever others do.
PROMPT = 2.0


class Phones(helpers.Series):
    def setUp(self) -> None:
        super().setUp()
        self.port = helpers.free_port(self)

    def board(self, *folders: str, options: tuple[str, ...] = ()) -> helpers.Terminal:
        """A board for phones that has said all that it says before it waits."""
        window = self.window("board", *(folders or ("cup",)), "--http", str(self.port), *options)
        window.read("try one phone.*\n")
        return window

    def link(self, source: str, to: str = "127.0.0.1", space: int = 0) -> socket.socket:
        """A connection from this loopback address, perhaps with space for few bytes that come."""
        link = socket.socket()
        self.addCleanup(link.close)
        if space:
            link.setsockopt(socket.SOL_SOCKET, socket.SO_RCVBUF, space)
        link.settimeout(30)
        link.bind((source, 0))
        link.connect((to, self.port))
        return link

    def asked(self, path: str, source: str = HONEST, pause: float = 0) -> int:
        """The status of an answer; there may be a pause between connection and request."""
        with contextlib.closing(self.link(source)) as link:
            time.sleep(pause)
            link.sendall(f"GET {path} HTTP/1.1\r\nHost: x\r\n\r\n".encode())
            answer = http.client.HTTPResponse(link)
            answer.begin()
            answer.read()
            return answer.status

    @contextlib.contextmanager
    def flood(self, count: int, data: bytes, space: int = 0) -> Iterator[list[socket.socket]]:
        """Connections that send this and no more."""
        links = [self.link(FLOOD, space=space) for _ in range(count)]
        for link in links:
            with contextlib.suppress(OSError):
                link.sendall(data)
        yield links
        for link in links:
            link.close()

    def assert_prompt(self, source: str = HONEST) -> None:
        """One of three phones is answered in time: others may use the processors meanwhile."""
        took: list[float] = []
        while len(took) < 3 and min(took, default=PROMPT) >= PROMPT:
            begun = time.monotonic()
            self.assertEqual(self.asked("/cup/", source), 200)
            took.append(time.monotonic() - begun)
        self.assertLess(min(took), PROMPT)

    # Crowds

    def test_unfinished(self) -> None:
        """1,000 connections that never finish hold up neither another phone nor one that shares
        their address, and soon all but 16 of them are cut off."""
        self.board()
        with self.flood(1000, b"GET /cup/ HTT") as links:
            self.assert_prompt()
            helpers.until("16 connections", lambda: self.still_open(links) <= 16)
            self.assert_prompt()
            self.assert_prompt(FLOOD)
            helpers.until("no connections", lambda: self.still_open(links) == 0)

    @staticmethod
    def still_open(links: list[socket.socket]) -> int:
        """How many of these the board hasn't ended."""
        gate = select.poll()
        for link in links:
            gate.register(link, select.POLLIN)
        return len(links) - len(gate.poll(0))

    def test_one_address(self) -> None:
        """300 phones behind one address, each on a slow link and all at once, are all served. A phone
        may take seconds for its request."""
        self.board()
        self.assertEqual(self.asked("/cup/", HONEST, 1.5), 200)
        together, served = threading.Barrier(300), list[int]()

        def phone(_: int) -> int:
            together.wait(helpers.PATIENCE)
            try:
                return self.asked("/cup/", FLOOD, 0.3)
            except (OSError, http.client.HTTPException):
                return 0

        with ThreadPoolExecutor(300) as phones:
            # One crowd of three: a request has to come within a second, and others may use the processors meanwhile.
            for _ in range(3):
                if set(served) != {200}:
                    served = list(phones.map(phone, range(300)))
        self.assertEqual(served, [200] * 300)

    # Addresses

    def test_decoded(self) -> None:
        """An address is what it stands for, however a browser writes it."""
        name = "Cup (Ä) 1%"
        self.make(name)
        self.board(name)
        quoted = urllib.parse.quote(name)
        for path in (urllib.parse.quote(name, safe=""), quoted, quoted.lower(), name.replace("%", "%25"),
                     "%43" + quoted[1:], quoted.replace("(", "%28").lower().replace("cup", "Cup")):
            path = path.replace(" ", "%20")
            with self.subTest(path=path):
                wanted = 404 if path.startswith("cup") else 200
                self.assertEqual(self.asked(f"/{path}/"), wanted)
                self.assertEqual(self.asked(f"/{path}/now.json"), wanted)
                self.assertEqual(self.asked(f"/{path}"), 404 if wanted == 404 else 301)
        for path in ("%2e%2e", f"{quoted}%2f", f"{quoted}/%2e", f"%2f{quoted}", "%", "%zz", "%00", "%ff"):
            self.assertEqual(self.asked(f"/{path}/"), 404, path)

    def test_chosen(self) -> None:
        """A board can be at one address of the computer alone, by an option or by series.ini."""
        self.make("lone", address="127.0.0.6")
        for folder, options, address in (("cup", ("--address", "127.0.0.5"), "127.0.0.5"),
                                         ("lone", (), "127.0.0.6")):
            window = self.window("board", folder, "--http", str(self.port), *options)
            said = window.read("try one phone")
            self.assertIn(f"Phones open   http://{address}:{self.port}/\n", said)
            self.link(HONEST, address).close()
            self.assertRaises(ConnectionRefusedError, self.link, HONEST)
            window.press()
            self.assertEqual(window.rest()[1], 0)

    def test_wrong_address(self) -> None:
        for address, wanted in (("localhost", "is no address"), ("127.0.0.256", "is no address"),
                                ("192.0.2.1", "this computer doesn't have the address 192.0.2.1")):
            said, status = helpers.run("board", "cup", "--http", str(self.port), "--address", address,
                                       cwd=self.here)
            self.assertIn(wanted, said)
            self.assertIn(status, (1, 2))

    # Ends

    def test_statuses(self) -> None:
        """To stop a board is its usual end; stopped before it shows anything, it ends as others do."""
        for number in (signal.SIGTERM, signal.SIGINT, signal.SIGHUP):
            window = self.board()
            window.process.send_signal(number)
            said, status = window.rest()
            self.assertEqual((status, "Stopped." in said), (0, True), number)
        self.make("slow", program=self.slow_program())
        self.write("REGATTA 2\n", "slow", "journal.txt")
        for number in (signal.SIGTERM, signal.SIGINT, signal.SIGHUP):
            window = self.window("board", "slow", "--http", str(self.port))
            helpers.until("a program", lambda: os.path.exists(os.path.join(self.here, "asked")))
            window.process.send_signal(number)
            self.assertEqual(window.rest()[1], 128 + number)
            os.remove(os.path.join(self.here, "asked"))

    def slow_program(self) -> str:
        """A program that never answers."""
        path = os.path.join(self.here, "slow-program")
        self.write(f"#!/bin/sh\ntouch '{self.here}/asked'\nexec sleep 30\n", path)
        os.chmod(path, 0o755)
        return path


    # Faults

    def test_few_descriptors(self) -> None:
        """A flood leaves the board the descriptors that it needs for its own work."""
        self.make("quick", every="1")
        command = 'ulimit -n 60; exec "$0" "$@"'
        window = helpers.Terminal("bash", "-c", command, *helpers.COMMAND, "board", "quick", "--http",
                                  str(self.port), cwd=self.here)
        self.addCleanup(window.close)
        window.read("try one phone.*\n")
        helpers.until("an answer", lambda: self.asked("/quick/") == 200)
        with self.flood(100, b"GET /"):
            self.write("1 1 SCORER ENTER A\n1 2 SCORER FINISH 1 A\n1 3 SCORER SCORE 1\n", "quick",
                       "journal.txt")
            helpers.until("16 connections", lambda: self.answers("/quick/race-1.html"))
        window.press()
        self.assertNotIn("can't", window.rest()[0])

    def answers(self, path: str) -> bool:
        """Whether a page is there; nobody is let in as long as the flood fills the board."""
        try:
            return self.asked(path) == 200
        except (ConnectionError, http.client.HTTPException):
            return False


class Failing(dict[str, http_answers.Text]):
    """Texts that can't be looked up as long as they are broken."""
    is_broken = True

    def get(self, *words: object) -> None:  # type: ignore[override]
        if self.is_broken:
            raise RuntimeError("no text today")


class Faults(unittest.TestCase):
    def test_fault_of_an_answer(self) -> None:
        """What goes wrong in an answer is noted, and the next phone is answered."""
        texts, port = Failing(), helpers.free_port(self)
        notes: list[str] = []
        shown = http_answers.Board()
        shown.texts = texts
        server.Listener("127.0.0.1", port, shown, notes.append).start()
        for texts.is_broken, wanted in ((True, b""), (False, b"HTTP/1.1 404")):
            with socket.create_connection(("127.0.0.1", port), 30) as link:
                link.sendall(b"GET / HTTP/1.1\r\n\r\n")
                self.assertEqual(link.recv(12), wanted)
        self.assertEqual(len(notes), 1)
        self.assertIn("RuntimeError: no text today", notes[0])

    def test_unread(self) -> None:
        """Phones that ask for much and never read it hold nobody up, however long they may take."""
        patient = unittest.mock.patch.object(server, "PATIENCE", 300.0)
        patient.start()
        self.addCleanup(patient.stop)
        shown, port = http_answers.Board(), helpers.free_port(self)
        shown.put({"/": ("text/plain", b"short"), "/long": ("text/plain", b"long" * 1_000_000)})
        server.Listener("127.0.0.1", port, shown, self.fail).start()
        with contextlib.ExitStack() as stack:
            for _ in range(80):
                link = stack.enter_context(socket.socket())
                link.setsockopt(socket.SOL_SOCKET, socket.SO_RCVBUF, 1024)
                link.connect(("127.0.0.1", port))
                link.sendall(b"GET /long HTTP/1.1\r\n\r\n")
            link = stack.enter_context(socket.create_connection(("127.0.0.1", port), helpers.PATIENCE))
            link.sendall(b"GET / HTTP/1.1\r\n\r\n")
            self.assertIn(b"\r\n\r\nshort", b"".join(iter(lambda: link.recv(1000), b"")))

    def test_upload(self) -> None:
        """Of one who sends without end after a request, a part is read and no more."""
        async def read() -> None:
            reader = asyncio.StreamReader()
            reader.feed_data(bytes(2 * server.REST))
            await asyncio.wait_for(server.rest_of(reader), 5)
        asyncio.run(read())

    def test_noted_once(self) -> None:
        """A fault is said and written once, into the series' folder or else into another file."""
        with tempfile.TemporaryDirectory() as here, contextlib.redirect_stdout(io.StringIO()) as said:
            os.mkdir(os.path.join(here, "office"))
            for trace in (f"one {here}", f"one {here}", f"two {here} \udcff"):
                board.note(here, trace)
            with open(os.path.join(here, "office", traces.NAME), encoding="utf-8") as file:
                self.assertEqual(file.read().count("one "), 1)
        self.assertEqual(said.getvalue().count("Beware: a phone wasn't answered"), 2)


if __name__ == "__main__":
    unittest.main()
