"""Who may write: each danger that docs/BROWSER.md names, tried by an attack."""
from __future__ import annotations

import asyncio
import http.client
import json
import os
import resource
import socket
import ssl
import subprocess
import tempfile
import time
import unittest
from contextlib import closing, suppress
from unittest import mock

import helpers
from raceoffice.web import hosting
from raceoffice.web.gate import Gate
from raceoffice.web.hosting import Host, Hub, Waiting
from raceoffice.web.rates import Rate
from raceoffice.web.requests import COOKIES, HEAD, Reply, Request, Wrong, hashed, packed, request_of
from raceoffice.web.routes import Routes
from raceoffice.web.web_office import WebOffice
from web_devices import BOATS, READY, Device, Web, is_known, list_of, new_id

LINE = "/office/finish/line/cup"
# Seconds
DAY = 86400.0
RACES, SOURCES = iter(range(1, 41)), iter(range(2, 200))


class Attacks(unittest.TestCase):
    """One office for all attacks. Each has a race and an address of its own."""
    web: Web

    @classmethod
    def setUpClass(cls) -> None:
        cls.web = Web()
        cls.web.setUp()

    @classmethod
    def tearDownClass(cls) -> None:
        cls.web.doCleanups()

    def setUp(self) -> None:
        self.port, self.race, self.source = self.web.port, next(RACES), f"127.0.1.{next(SOURCES)}"
        self.finish, self.scorer = self.device("finish"), self.device("scorer")
        self.line = f"FINISH {self.race} GBR7"
        self.tap: dict[str, object] = {"id": new_id(), "line": self.line, "at": 1, "seen": 0}

    def device(self, role: str, name: str = "Ann") -> Device:
        return self.web.device(role, name, self.source)

    def stranger(self, role: str) -> Device:
        """A device that hasn't come yet."""
        return Device(self.port, role, source=self.source)

    def journal(self) -> list[str]:
        """What the journal has of this attack's race."""
        return [line for line in self.web.journal() if line.split()[2] == str(self.race)]

    def status(self, device: Device, path: str = LINE, body: object = None, method: str = "POST",
               **more: str) -> int:
        """The status of the answer to a tap, or to something else."""
        given = self.tap if body is None and method == "POST" else body
        return device.again().ask(method, path, given, **more)[0]

    def entered(self, role: str, key: str) -> int:
        return self.status(self.stranger(role), "/office/in", {"role": role, "key": key, "name": "Eve"})

    # Requests

    def test_request(self) -> None:
        """A tap needs the cookie of its role, the page's token and origin, JSON, and the name of this
        computer."""
        for wanted, fields in [(403, {"Origin": "http://evil.example"}), (403, {"Origin": ""}),
                               (403, {"Origin": f"https://127.0.0.1:{self.port}"}), (403, {"Origin": "null"}),
                               (403, {"Sec_Fetch_Site": "cross-site"}), (403, {"X_Token": "0" * 32}),
                               (403, {"X_Token": ""}), (403, {"X_Token": self.scorer.token}),
                               (401, {"Cookie": ""}), (401, {"Cookie": "office-finish=" + "A" * 43}),
                               (401, {"Cookie": self.scorer.cookie}),
                               (401, {"Cookie": self.scorer.cookie.replace("scorer", "finish")}),
                               (421, {"Host": "evil.example"}), (421, {"Host": f"evil.example:{self.port}"}),
                               (400, {"Content_Type": "text/plain"}), (400, {"Content_Type": ""}),
                               (400, {"Content_Type": "application/x-www-form-urlencoded"})]:
            self.assertEqual(self.status(self.finish, **fields), wanted, fields)
        self.assertEqual(self.journal(), [])
        self.assertEqual(self.status(self.finish), 200)

    def test_roles(self) -> None:
        """A role sends its own lines alone, at its own addresses."""
        for path in ("/office/scorer/line/cup", "/office/jury/line/cup", "/office/scorer/key"):
            self.assertEqual(self.status(self.finish, path), 401, path)
        for path in ("/office/finish/key", "/office/finish/revoke", "/office/finish/close/cup",
                     "/office/finish/open/cup", "/office/finish/decide/cup", "/office/finish/new"):
            self.assertEqual(self.status(self.finish, path, {"role": "SCORER"}), 404, path)
        self.assertEqual(self.status(self.finish, "/office/finish/devices", method="GET"), 404)
        for line in ("SCORE 1", "ROLE JURY", "SHOW", "QUIT", "REDRESS 1 GBR7 ALL", "", "ENTER USA4", "UNSCORE 1"):
            self.assertEqual(self.finish.tap(line)[0], 422, line)
        for line in ("FINISH 1 GBR7\nSCORE 1", "FINISH 1 GBR7\r\nROLE SCORER", "FINISH 1 \u00e4", "F" * 81):
            self.assertEqual(self.finish.tap(line)[0], 400, line)
        # DSQ is a kind of MARK: the program itself refuses it (4).
        self.assertEqual(self.finish.tap(f"MARK {self.race} GBR7 DSQ")[1]["answer"], "NO 4")
        self.assertEqual(self.journal(), [])
        self.assertEqual(self.status(self.finish, method="GET"), 404)
        self.assertEqual(self.status(self.finish, method="PUT", body=self.tap), 405)
        self.assertEqual(self.status(self.finish, "/", self.tap), 405)
        for path in ("/live?page=/cup/", "/office/finish/live"):
            self.assertEqual(self.status(self.finish, path, method="HEAD"), 405, path)

    def test_odd_taps(self) -> None:
        """What is no tap is answered so, and nothing of it is sent."""
        odd_ones: list[dict[str, object]] = [
            {"id": "x"}, {"id": 7}, {"line": None}, {"line": ["FINISH 1 GBR7"]}, {"at": "now"}, {"at": -1},
            {"at": 1e400}, {"seen": {}}, {"behind": 7}, {"behind": "a b"}, {"agreed": "yes"},
            {"agreed": ["yes"]}, {"agreed": [{"kind": "x"}]}, {"agreed": [{"kind": "x", "values": {"a": {}}}]},
            {"agreed": [{"kind": "x", "values": {}}] * 99}, {"undoes": "x"}]
        for odd in odd_ones:
            self.assertEqual(self.status(self.finish, body=self.tap | odd), 400, odd)
        for body in ([], 7, None, "[" * 5000):
            self.assertEqual(self.raw(json.dumps(body).encode() if body != "[" * 5000 else b"[" * 5000), 400)
        # What no clock shows would stop each page that shows it.
        for at in (1 << 52, 253_370_000_000_001):
            self.assertEqual(self.status(self.finish, body=self.tap | {"at": at}), 422, at)
        half = {"settings": {"title": "Cup"}, "text": "Sail\nGBR1\n\ud800"}
        self.assertEqual(self.status(self.scorer, "/office/scorer/settings", half), 400)
        self.assertEqual(self.journal(), [])

    def raw(self, body: bytes) -> int:
        """The status of the answer to a body that may be no JSON."""
        link = http.client.HTTPConnection("127.0.0.1", self.port, timeout=60)
        host = f"127.0.0.1:{self.port}"
        link.request("POST", LINE, body, {"Origin": f"http://{host}", "Content-Type": "application/json",
                                          "Cookie": self.finish.cookie, "X-Token": self.finish.token})
        with closing(link):
            return link.getresponse().status

    def test_paths(self) -> None:
        """No address leads to a file that isn't served, or to another folder."""
        for path in ("/office/static/../routes.py", "/office/static/..%2froutes.py", "/office/static/",
                     "/office/static/%2e%2e/routes.py", "/office/finish/state/..%2fcup", "/office/finish/state/",
                     "/office/static//etc/passwd", "/cup/office/web.json", "/cup/../cup/entries.csv",
                     "/cup/journal.txt", "/office/FINISH/", "/office/web.json", "/office/finish/state/none"):
            self.assertEqual(self.status(self.finish, path, method="GET"), 404, path)

    # Secrets

    def test_files(self) -> None:
        """Neither a link nor a cookie can be read from a file, and only this account may read the files."""
        self.finish.tap(self.line)
        self.finish.ask("GET", "/office/finish/none")
        secrets = [link.partition(".")[2] for link in self.web.links.values()]
        secrets += [text for device in (self.finish, self.scorer) for text in (device.cookie.partition("=")[2], device.token)]
        held = {"terminal": self.web.said().partition(READY)[2]}
        for name in ("office/web.json", "office/web.taps", "office/faults.txt", "office.log"):
            held[name] = self.web.text("cup", *name.split("/")) if os.path.exists(os.path.join(self.web.here, "cup", name)) else ""
        self.assertIn(self.line, held["office.log"])
        self.assertIn("came from", held["terminal"])
        for name, text in held.items():
            self.assertEqual([secret for secret in secrets if secret in text], [], name)
        for name, mode in (("web.json", 0o600), ("web.taps", 0o600), ("web.lock", 0o600), ("", 0o700)):
            self.assertEqual(os.stat(os.path.join(self.web.here, "cup", "office", name)).st_mode & 0o777, mode, name)

    def test_cookie(self) -> None:
        """A cookie is for its role's addresses alone, scripts don't see it, and other sites don't send it."""
        device = self.device("jury")
        self.assertRegex(device.cookie, "^office-jury-[0-9a-f]{8}=")
        self.assertGreaterEqual(len(device.cookie.partition("=")[2]), 43)
        device = self.stranger("jury")
        key = self.web.links["jury"].partition(".")[2]
        device.ask("POST", "/office/in", {"role": "jury", "key": key, "name": "Eve"})
        words = [word.strip() for word in device.fields["set-cookie"].split(";")[1:]]
        self.assertEqual(words, ["Path=/office/jury", f"Max-Age={14 * 86400}", "HttpOnly", "SameSite=Strict"])

    def test_guessed(self) -> None:
        """Ten wrong tries at a link, then one each five seconds. Whoever has the link comes in all the same."""
        role, key = self.web.links["finish"].partition("#")[2].split(".")
        self.assertGreaterEqual(len(key), 22)
        # Three devices have come by now.
        began = time.monotonic()
        tried: list[int] = []
        while 429 not in tried and len(tried) < 40:
            tried.append(self.entered("finish", "A" * 22))
        self.assertEqual((tried[0], tried[-1]), (403, 429))
        self.assertLessEqual(len(tried), 11 + (time.monotonic() - began) / 5)
        self.assertEqual(self.entered(role, key), 200)
        for wrong in ("", "SCORER", "x"):
            self.assertIn(self.entered(wrong, key), (403, 429), wrong)

    def test_who_typed(self) -> None:
        """The log has the device's name beside each line, on one line whatever the name."""
        eve = self.device("finish", "Eve\n2026\tForged\u202e   line")
        eve.tap(self.line)
        logged = [line.split("\t") for line in self.web.text("cup", "office.log").splitlines()]
        mine = [line for line in logged if line[5:6] == [self.line]]
        self.assertEqual([line[2] for line in mine], ["Eve2026Forged line"])
        self.assertEqual({len(line) for line in logged}, {7})

    def test_time(self) -> None:
        """The terminal says with the time who came, whatever that one is called."""
        name = "12:44:24 Closed."
        self.device("finish", name)
        helpers.until("who came", lambda: f"{name} came from" in self.web.said())
        line = next(line for line in self.web.said().splitlines() if f"{name} came from" in line)
        self.assertRegex(line, f"^[0-9:]{{8}} finish: {name} came from {self.source}$")

    def test_names(self) -> None:
        """A name is that of one device, whatever its role; one that comes again by its link keeps its own."""
        def come(name: str, role: str = "finish", **more: str) -> Device:
            device, key = self.stranger(role), self.web.links[role].partition(".")[2]
            status, said = device.ask("POST", f"/office/{role}/in", {"role": role, "key": key, "name": name}, **more)
            self.assertEqual(status, 200)
            device.cookie, self.name = device.fields["set-cookie"].partition(";")[0], said["name"]
            return device

        shown, long = [], "W" * 30
        first = come("iPhone")
        unseen = ("iPhone\u3164", "\u2800i\u034fPhone")
        for name, role in (("iPhone", "finish"), ("IPHONE ", "scorer"), (long, "jury"), (long, "jury"),
                           *((name, "finish") for name in unseen)):
            come(name, role)
            shown.append(self.name)
        self.assertEqual(shown, ["iPhone (2)", "IPHONE (3)", long, "W" * 26 + " (2)", *(f"iPhone ({at})" for at in (4, 5))])
        again = come("iPhone", Cookie=first.cookie)
        self.assertEqual((self.name, is_known(first), is_known(again)), ("iPhone", False, True))

    # What a page may do

    def test_policy(self) -> None:
        """A page runs the scripts of this server alone, is in no frame, and tells nobody where it was."""
        for path in ("/office/scorer/", "/office/finish/", "/office/", "/office/scorer/me", "/office/none"):
            self.scorer.again()
            self.scorer.ask("GET", path)
            policy = {part.split()[0]: " ".join(part.split()[1:])
                      for part in self.scorer.fields["content-security-policy"].split(";")}
            self.assertEqual((policy["default-src"], policy["script-src"], policy["frame-ancestors"],
                              policy["base-uri"], policy["form-action"]),
                             ("'none'", "'self'", "'none'", "'none'", "'none'"), path)
            self.assertNotIn("unsafe", self.scorer.fields["content-security-policy"])
            for name, value in (("x-frame-options", "DENY"), ("referrer-policy", "no-referrer"),
                                ("x-content-type-options", "nosniff")):
                self.assertEqual(self.scorer.fields[name], value, path)
        self.scorer.ask("GET", "/cup/")
        self.assertIn("script-src 'sha256-", self.scorer.fields["content-security-policy"])
        self.assertEqual(self.scorer.fields["x-frame-options"], "DENY")

    # Floods

    def test_sizes(self) -> None:
        """A long head or body is refused before it is read; a large body only a device may send."""
        for wanted, text in [(431, f"GET / HTTP/1.1\r\nHost: 127.0.0.1\r\nX: {'x' * 20_000}\r\n\r\n"),
                             (413, self.head("/office/in", 5000)), (413, self.head("/office/in", 10 ** 30)),
                             (413, self.head(LINE, 17_000, self.finish.cookie)), (413, self.head(LINE, 5000)),
                             (413, self.head("/office/finish/list", 300_000, self.finish.cookie)),
                             (400, self.head("/office/in", -5)), (400, "GET  / HTTP/1.1\r\n\r\n"),
                             (400, "GET / HTTP/1.1\r\nHost: a\r\nHost: b\r\n\r\n"),
                             (400, "GET / HTTP/1.1\r\nHost : a\r\n\r\n"),
                             (431, f"GET /{'x' * 2100} HTTP/1.1\r\n\r\n"), (404, f"GET {'/x' * 17} HTTP/1.1\r\n\r\n"),
                             (431, "GET / HTTP/1.1\r\n" + "a:\r\n" * 101 + "\r\n"),
                             (421, "GET / HTTP/1.1\r\n" + "a:\r\n" * 100 + "\r\n"),
                             (421, "GET / HTTP/1.1\r\n\r\n"), (400, "GET / SPDY/3\r\n\r\n"),
                             (400, "GET / HTTP/1.2\r\n\r\n"), (400, "GET / HTTP/1.999\r\n\r\n"),
                             (400, "POST / HTTP/1.1\r\nHost: 127.0.0.1\r\nTransfer-Encoding: chunked\r\n\r\n"),
                             (400, "GET http://127.0.0.1/ HTTP/1.1\r\nHost: 127.0.0.1\r\n\r\n")]:
            self.assertEqual(self.sent(text), wanted, text[:60])

    def test_bodies(self) -> None:
        """Each address takes as much as it needs, and says so of more before that has come: a tap 16 KB, what may be about
        all boats 256 KB, a list 5 MB. Nobody who comes has more than a stranger."""
        jury = self.device("jury")
        sizes = {(self.finish, "line/cup"): 16, (self.finish, "leave"): 16, (self.finish, "none"): 16, (self.finish, "in"): 4,
                 (self.finish, "list"): 16, (jury, "line/cup"): 16, (jury, "preview/cup"): 16, (jury, "decide/cup"): 256,
                 (jury, "correct/cup"): 16, (self.scorer, "line/cup"): 256, (self.scorer, "key"): 16, (self.scorer, "in"): 4,
                 (self.scorer, "correct/cup"): 256, (self.scorer, "save/cup"): 256, (self.scorer, "list"): 5120}
        for (device, name), most in sizes.items():
            path = f"/office/{device.role}/{name}"
            self.assertEqual(self.sent(self.head(path, (most << 10) + 1, device.cookie)), 413, path)
            self.assertEqual(self.sent(self.head(path, most << 10, device.cookie) + "x" * (most << 10)), 403, path)
        # Nobody reads what comes with a question.
        self.assertEqual(self.sent(self.head("/office/finish/me", 5000, self.finish.cookie).replace("POST", "GET")), 413)

    def head(self, path: str, size: int, cookie: str = "") -> str:
        return (f"POST {path} HTTP/1.1\r\nHost: 127.0.0.1:{self.port}\r\nCookie: {cookie}\r\n"
                f"Content-Length: {size}\r\n\r\n")

    def sent(self, text: str) -> int:
        """The status of the answer to the head of a request."""
        with closing(socket.create_connection(("127.0.0.1", self.port), timeout=60)) as link:
            with suppress(OSError):
                link.sendall(text.encode("latin-1"))
            return int(link.recv(4096).split()[1])

    def test_one_address(self) -> None:
        """A thousand connections of one address that never finish keep nobody out: a tap over a new one is answered within
        two seconds."""
        self.room_for_files(1200)
        for _ in range(1000):
            link = socket.socket()
            self.addCleanup(link.close)
            link.bind(("127.0.0.2", 0))
            link.connect(("127.0.0.1", self.port))
            link.sendall(b"GET /office/ HTT")
        took = []
        for sail in ("GBR7", "GBR33", "NED12"):
            began = time.monotonic()
            self.assertEqual(self.finish.again().tap(f"FINISH {self.race} {sail}")[0], 200)
            took.append(time.monotonic() - began)
        self.assertLess(min(took), 2)

    def room_for_files(self, wanted: int) -> None:
        """Lets this process have so many files until the end of the check."""
        room, most = resource.getrlimit(resource.RLIMIT_NOFILE)
        self.addCleanup(resource.setrlimit, resource.RLIMIT_NOFILE, (room, most))
        resource.setrlimit(resource.RLIMIT_NOFILE, (max(room, wanted), most))

    def test_long_heads(self) -> None:
        """300 strangers whose heads are as long as can be take little processor time, and a tap beside them hardly waits."""
        end = f" HTTP/1.1\r\nHost: 127.0.0.1:{self.port}\r\n"
        for head in (f"GET {'/%41' * 4000}{end}\r\n", f"GET /office/finish/me{end}Cookie: {';' * 15_000}\r\n\r\n"):
            before, links = self.spent(), list[socket.socket]()
            for _ in range(300):
                link = socket.socket()
                self.addCleanup(link.close)
                link.bind(("127.0.0.2", 0))
                link.connect(("127.0.0.1", self.port))
                links.append(link)
            for link in links:
                link.sendall(head.encode())
            began = time.monotonic()
            self.assertEqual(self.finish.again().tap(self.line)[0], 200)
            self.assertLess(time.monotonic() - began, 10, head[:30])
            for link in links:
                link.recv(100)
            self.assertLess(self.spent() - before, 1.5, head[:30])

    def spent(self) -> float:
        """The processor seconds that the web has taken."""
        with open(f"/proc/{self.web.web.pid}/stat", encoding="ascii", errors="replace") as file:
            words = file.read().rpartition(")")[2].split()
        return (int(words[11]) + int(words[12])) / os.sysconf("SC_CLK_TCK")

    def test_deaf(self) -> None:
        """Somebody who asks for news and doesn't take it holds up nobody, and costs little."""
        with closing(socket.socket()) as link:
            link.setsockopt(socket.SOL_SOCKET, socket.SO_RCVBUF, 1)
            link.connect(("127.0.0.1", self.port))
            link.sendall(b"GET /live HTTP/1.1\r\nHost: 127.0.0.1\r\n\r\n")
            for sail in ("GBR7", "GBR33", "NED12"):
                self.assertEqual(self.finish.tap(f"FINISH {self.race} {sail}")[0], 200)


class Turns(unittest.IsolatedAsyncioTestCase):
    async def asyncSetUp(self) -> None:
        # Connections that are open at the end are cut off, which is no fault.
        asyncio.get_running_loop().set_exception_handler(lambda *_: None)

    async def test_turns(self) -> None:
        """Somebody who sends very many requests at once isn't answered in one go: others come in between."""
        seen: list[str] = []
        late = socket.socket()
        self.addCleanup(late.close)

        async def answer(request: Request) -> Reply:
            if not seen:
                # She comes while the first of the many is answered.
                late.connect(door)
                late.sendall(b"GET /late HTTP/1.1\r\n\r\n")
            seen.append(request.path)
            return Reply()

        door = ("127.0.0.1", helpers.free_port(self))
        await Host(answer, lambda _: 0, self.fail).start(*door, None)
        reader, writer = await asyncio.open_connection(*door)
        self.addCleanup(writer.close)
        writer.write(b"GET /many HTTP/1.1\r\n\r\n" * 500)
        await writer.drain()
        while not {"/many", "/late"} <= set(seen):
            self.assertTrue(await reader.read(4096))
        self.assertLess(seen.index("/late"), 100)

    async def test_greedy(self) -> None:
        """An address that asks very often waits for its turn; others don't wait."""
        seen: list[str] = []

        async def answer(request: Request) -> Reply:
            seen.append(request.path)
            return Reply()

        door = ("127.0.0.1", helpers.free_port(self))
        host = Host(answer, lambda _: 0, self.fail)
        host.turns = Rate(5, 1e-6)
        await host.start(*door, None)
        _, greedy = await asyncio.open_connection(*door)
        self.addCleanup(greedy.close)
        greedy.write(b"GET /greedy HTTP/1.1\r\n\r\n" * 9)
        while len(seen) < 5:
            await asyncio.sleep(0.01)
        for _ in range(4):
            reader, writer = await asyncio.open_connection(*door, local_addr=("127.0.0.2", 0))
            writer.write(b"GET /other HTTP/1.1\r\nConnection: close\r\n\r\n")
            self.assertTrue((await reader.read()).startswith(b"HTTP/1.1 200"))
            writer.close()
        self.assertEqual(seen, ["/greedy"] * 5 + ["/other"] * 4)

    async def test_gone(self) -> None:
        """A connection that is given up while it waits for its turn takes none: those after it don't wait for it."""
        host = Host(mock.AsyncMock(return_value=Reply()), lambda _: 0, self.fail)
        host.turns = Rate(1, 1, lambda: 0.0)
        await host.turn("Eve")
        waiting = [asyncio.ensure_future(host.turn("Eve")) for _ in range(3)]
        await asyncio.sleep(0)
        self.assertEqual(host.turns.pause("Eve"), 4)
        for one in waiting:
            one.cancel()
        await asyncio.gather(*waiting, return_exceptions=True)
        self.assertEqual(host.turns.pause("Eve"), 2)

    async def test_device(self) -> None:
        """Strangers take no turns of a device that has their address, neither by what is answered nor by what isn't."""
        door = ("127.0.0.1", helpers.free_port(self))

        async def answer(request: Request) -> Reply:
            return Reply()

        host = Host(answer, lambda _: 0, self.fail, lambda request: request.fields.get("cookie", ""))
        host.turns = Rate(3, 1e-6)
        await host.start(*door, None)

        async def asked(line: str, patience: float = helpers.PATIENCE) -> bytes:
            """The status of the answer, if one comes."""
            reader, writer = await asyncio.open_connection(*door)
            self.addCleanup(writer.close)
            writer.write(line.encode() + b"\r\nConnection: close\r\n\r\n")
            with suppress(asyncio.TimeoutError):
                return (await asyncio.wait_for(reader.read(), patience))[9:12]
            return b""

        self.assertEqual([await asked(line) for line in ("GET /", "GET /", "GET / HTTP/1.1")], [b"400", b"400", b"200"])
        self.assertEqual([await asked("GET / HTTP/1.1", 0.3), await asked("GET /", 0.3)], [b"", b""])
        self.assertEqual(await asked("GET / HTTP/1.1\r\nCookie: Ann"), b"200")


class Heads(unittest.TestCase):
    """What reading a head costs the thread of all connections: of each a small part of a millisecond, and less than three where
    other programs have the processors, too."""

    def test_time(self) -> None:
        gate = Gate("")
        office = WebOffice(gate, "/none", "http://127.0.0.1/", print)
        routes = Routes(office)
        for line, field in (("/office" + "/%41" * 15, ""), ("/" + "%41" * 650, ""), ("/" + " " * 2000, ""), ("/live?page=" + "/%41" * 500, ""),
                            ("/office/finish/me", "Cookie: " + ";" * 15_000),
                            ("/office/finish/me", "Cookie: " + f"office-finish={'A' * 43};" * 270), ("/office/finish/me", "Cookie: " + "office-finish" * 1200),
                            ("/", "Accept-Encoding: " + "," * 15_000),
                            ("/", "\r\n".join(f"f{at}: {'x' * 100}" for at in range(97)))):
            head = f"GET {line} HTTP/1.1\r\nHost: 127.0.0.1\r\n{field}\r\n\r\n".encode()
            self.assertLess(len(head), HEAD)
            self.assertLess(min(self.spent(routes, head) for _ in range(30)), 0.003, (line[:20], field[:20]))

    def test_cookies(self) -> None:
        """Of a head full of cookies the last few of the role that is asked for are read, once."""
        gate, summed = Gate(""), list[str]()
        key = gate.new_key("FINISH")
        own = gate.enter(Request("POST", "/", {}, "127.0.0.1"), "FINISH", key, "Ann")[0].partition(";")[0]
        routes = Routes(WebOffice(gate, "/none", "http://127.0.0.1/", print))
        others = "; ".join(f"office-{role}-{at:08x}={'A' * 43}" for at in range(80) for role in ("finish", "jury", "scorer"))
        head = f"GET /office/finish/me HTTP/1.1\r\nHost: 127.0.0.1\r\nCookie: {others}; {own}; theme=dark\r\n\r\n"

        def sum_of(text: str) -> str:
            summed.append(text)
            return hashed(text)

        with mock.patch("raceoffice.web.requests.hashed", sum_of):
            request = request_of(head.encode(), "127.0.0.1")
            for _ in range(3):
                self.assertEqual(routes.name_of(request), next(iter(gate.devices)))
            self.assertGreater(routes.room_for(request), 0)
        self.assertLessEqual(len(summed), COOKIES)

    @staticmethod
    def spent(routes: Routes, head: bytes) -> float:
        """The processor seconds that one reading of a head takes, with all that is looked up by it."""
        before = time.thread_time()
        with suppress(Wrong):
            request = request_of(head, "127.0.0.1")
            routes.name_of(request)
            routes.room_for(request)
            with suppress(StopIteration):
                routes.answer(request).send(None)
            packed(request, Reply(data=b"x" * 2000))
        return time.thread_time() - before


class Shares(unittest.IsolatedAsyncioTestCase):
    """Room for connections, and for those who wait for news, at some addresses."""

    async def asyncSetUp(self) -> None:
        loop = asyncio.get_running_loop()
        loop.set_exception_handler(lambda *_: None)
        loop.slow_callback_duration = helpers.PATIENCE
        self.hub, self.port, self.links = Hub(lambda: "new", 0.01), helpers.free_port(self), list[asyncio.StreamWriter]()
        self.hub.start()
        # However slow this computer is, those who never finish a request stay.
        patch = mock.patch("raceoffice.web.requests.HEAD_TIME", 10 * helpers.PATIENCE)
        patch.start()
        self.addCleanup(patch.stop)

        async def answer(request: Request) -> Waiting:
            return Waiting(self.hub.serve)

        self.host = Host(answer, lambda _: 0, self.fail)
        await self.host.start("127.0.0.1", self.port, None)
        self.addCleanup(self.cut_off)

    def cut_off(self) -> None:
        for link in self.links:
            link.transport.abort()

    async def asked(self, address: str, text: bytes) -> bytes:
        """What comes first over one more connection of an address, which stays open; nothing if it is closed."""
        try:
            reader, writer = await asyncio.open_connection("127.0.0.1", self.port, local_addr=(address, 0))
            self.links.append(writer)
            writer.write(text)
            return await reader.read(15)
        except ConnectionError:
            return b""

    async def news(self, address: str) -> bytes:
        return await self.asked(address, b"GET /live HTTP/1.1\r\n\r\n")

    async def silent(self, address: str) -> None:
        """A connection that never finishes its request."""
        with suppress(ConnectionError):
            _, writer = await asyncio.open_connection("127.0.0.1", self.port, local_addr=(address, 0))
            self.links.append(writer)
            writer.write(b"GET /live HTT")

    async def test_heads(self) -> None:
        """A request that isn't whole in time is cut off; a connection that waits for news stays."""
        # A second, so that a whole one is there in time on a slow machine, too
        with mock.patch("raceoffice.web.requests.HEAD_TIME", 1.0):
            self.assertEqual(await self.news("127.0.0.2"), b"HTTP/1.1 200 OK")
            self.assertEqual(await asyncio.wait_for(self.asked("127.0.0.2", b"GET /live HTT"), helpers.PATIENCE / 2), b"")
        self.assertEqual(len(self.hub.waiting), 1)

    async def test_unread(self) -> None:
        """Who waits for news of the office and doesn't take it is cut off, and keeps no others from it."""
        links = [await asyncio.open_connection("127.0.0.1", self.port) for _ in range(2)]
        for reader, writer in links:
            self.links.append(writer)
            writer.write(b"GET /live HTTP/1.1\r\n\r\n")
            await reader.readuntil(b"data: new\n\n")
        assert isinstance(self.links[0].transport, asyncio.Transport)
        self.links[0].transport.pause_reading()
        reading = asyncio.create_task(links[1][0].read())
        deaf, quick = list(self.hub.waiting)
        text = [""]
        self.hub.text = lambda: text[0]
        for at in range(1000):
            text[0] = f"{at}{'x' * 100_000}"
            self.hub.send_news()
            await quick.drain()
            await asyncio.sleep(0)
            if deaf not in self.hub.waiting:
                break
        self.assertEqual(list(self.hub.waiting), [quick])
        reading.cancel()

    async def test_five_addresses(self) -> None:
        """Five addresses that take all connections, half of them for news, don't keep out the phones of a sixth, however
        many these are up to its share: 60 for six are ten for each."""
        self.host.most, self.host.most_of_one = 60, 40
        for at in range(40):
            for address in range(2, 7):
                await self.silent(f"127.0.0.{address}")
        while self.host.open < 60:
            await asyncio.sleep(0.01)
        self.assertEqual([await self.news("127.0.0.9") for _ in range(10)], [b"HTTP/1.1 200 OK"] * 10)
        # Those who were let in stay, also if the five come again.
        for address in range(2, 7):
            for _ in range(10):
                await self.silent(f"127.0.0.{address}")
        self.assertEqual(len(self.hub.waiting), 10)
        self.assertLessEqual(self.host.open, 60)

    async def test_news(self) -> None:
        """One address has a share of those who wait for news, in which three hundred phones have room. Others have their
        own, and who leaves makes room."""
        self.assertGreaterEqual(hosting.WATCHING, 300)
        with mock.patch.object(hosting, "WATCHING", 5):
            said = [await self.news("127.0.0.2") for _ in range(7)]
            self.assertEqual(said, [b"HTTP/1.1 200 OK"] * 5 + [b"HTTP/1.1 429 To"] * 2)
            self.assertEqual(await self.news("127.0.0.3"), b"HTTP/1.1 200 OK")
            self.links[0].transport.abort()
            while len(self.hub.waiting) > 5:
                await asyncio.sleep(0.01)
            self.assertEqual(await self.news("127.0.0.2"), b"HTTP/1.1 200 OK")

    async def test_upload(self) -> None:
        """Who asks for news, and then sends without end, is cut off: reading that would take a processor."""
        self.assertEqual(await self.news("127.0.0.2"), b"HTTP/1.1 200 OK")
        with self.assertRaises(ConnectionError):
            for _ in range(1000):
                self.links[0].write(bytes(1 << 16))
                await self.links[0].drain()


class Begin(unittest.TestCase):
    def test_to_come(self) -> None:
        """A class that is still being opened is asked for again; one that nobody serves isn't there."""
        with tempfile.TemporaryDirectory() as parent:
            office = WebOffice(Gate(""), parent, "http://127.0.0.1/", print, to_come={"cup", "fleet"})
            routes = Routes(office)
            for name, status in (("fleet", 503), ("spring", 404)):
                with self.assertRaises(Wrong) as found:
                    routes.one(name)
                self.assertEqual(found.exception.status, status)
            with self.assertRaises(Wrong) as found:
                routes.need_a_class()
            self.assertEqual(found.exception.status, 503)
            office.to_come.clear()
            routes.need_a_class()


class Rates(unittest.TestCase):
    def test_lines(self) -> None:
        """A device that sends 60 lines at once has to wait, and then has twelve a second; others don't wait."""
        gate, clock = Gate(""), [100.0]
        gate.writing.now = gate.entering.now = lambda: clock[0]
        key = gate.new_key("FINISH")
        cookies = [gate.enter(Request("POST", "/", {}, "127.0.0.1"), "FINISH", key, name)[0].partition(";")[0]
                   for name in ("Ann", "Ben")]

        def is_let_in(cookie: str) -> bool:
            """Whether a line of a device is let in."""
            fields = {"cookie": cookie, "host": "a", "origin": "http://a"}
            fields["x-token"] = gate.token(Request("POST", "/", fields, ""), "FINISH")
            try:
                gate.check_write(Request("POST", "/", fields, "127.0.0.1"), "FINISH")
            except Wrong as wrong:
                self.assertEqual(wrong.status, 429)
                return False
            return True

        self.assertEqual([is_let_in(cookies[0]) for _ in range(70)], [True] * 60 + [False] * 10)
        self.assertTrue(is_let_in(cookies[1]))
        clock[0] += 1
        self.assertEqual([is_let_in(cookies[0]) for _ in range(14)], [True] * 12 + [False] * 2)

    def test_names(self) -> None:
        """Somebody who tries under many names doesn't make the one that is at its limit forgotten."""
        clock = [0.0]
        rate = Rate(2, 0.01, lambda: clock[0])
        rate.take("Eve")
        rate.take("Eve")
        for number in range(20_000):
            with suppress(Wrong):
                rate.take(str(number))
        self.assertRaises(Wrong, rate.take, "Eve")
        self.assertLess(len(rate.left), 6000)


    def test_turns(self) -> None:
        """Who comes too often waits for as long as it takes all that came before."""
        clock = [0.0]
        rate = Rate(2, 4, lambda: clock[0])
        self.assertEqual([rate.pause("Eve") for _ in range(4)], [0, 0, 0.25, 0.5])
        self.assertEqual(rate.pause("Ann"), 0)
        clock[0] = 0.5
        self.assertEqual([rate.pause("Eve") for _ in range(2)], [0.25, 0.5])
        clock[0] = 100
        self.assertEqual([rate.pause("Eve") for _ in range(3)], [0, 0, 0.25])


class Secure(helpers.Series):
    """HTTPS with a certificate of one's own."""

    def test_certificate(self) -> None:
        """Cookies are for HTTPS alone then, and plain HTTP isn't answered."""
        made = subprocess.run(["openssl", "req", "-x509", "-newkey", "rsa:2048", "-nodes", "-days", "2", "-subj",
                               "/CN=localhost", "-keyout", "club.key", "-out", "club.pem"], cwd=self.here,
                              capture_output=True)
        self.assertEqual(made.returncode, 0, made.stderr)
        self.write(list_of(BOATS), "cup", "entries.csv")
        port = helpers.free_port(self)
        window = self.window("serve", "cup", "--http", str(port), "--certificate", "club.pem", "--key", "club.key")
        self.addCleanup(self.stop, "cup")
        said = window.read("Ctrl-C closes the office")
        self.assertNotIn("Plain HTTP", said)
        key = said.partition("#jury.")[2].split()[0]
        trust = ssl.create_default_context(cafile=os.path.join(self.here, "club.pem"))
        link = http.client.HTTPSConnection("localhost", port, timeout=60, context=trust)
        link.request("POST", "/office/in", json.dumps({"role": "jury", "key": key, "name": "Eve"}),
                     {"Origin": f"https://localhost:{port}", "Content-Type": "application/json"})
        answer = link.getresponse()
        self.assertEqual(answer.status, 200)
        self.assertTrue((answer.getheader("Set-Cookie") or "").endswith("; Secure"))
        answer.read()
        self.assertIn((link.sock.version() if isinstance(link.sock, ssl.SSLSocket) else ""), ("TLSv1.2", "TLSv1.3"))
        plain = http.client.HTTPConnection("localhost", port, timeout=60)
        plain.request("GET", "/office/")
        self.assertRaises((OSError, http.client.HTTPException), plain.getresponse)

    def test_wrong_certificate(self) -> None:
        said, status = helpers.run("serve", "cup", "--certificate", "none.pem", cwd=self.here)
        self.assertEqual((said, status), ("the certificate or its key can't be used: No such file or directory.\n", 1))


if __name__ == "__main__":
    unittest.main()
