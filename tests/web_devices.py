"""What the checks of the office in browsers share: the web over the real program, and devices without a
browser."""
from __future__ import annotations

import http.client
import json
import os
import re
import secrets
import signal
import socket
import subprocess
import time
from typing import Any

import helpers

BOATS: list[tuple[str, ...]] = [
    ("GBR 101", "Kestrel", "A. Moss"), ("GBR 7", "Sea Pink", "J. Hale"), ("NED 12", "Windhover", "P. de Wit"),
    ("FRA 9", "Plover", "C. Blanc"), ("GBR 33", "Turnstone", "R. Shaw"), ("IRL 5", "Curlew", "M. Byrne"),
    ("DEN 61", "Terne", "L. Holm"), ("GER 412", "Möwe", "H. Jansen"), ("GBR 118", "Dunlin", "E. Frost"),
    ("NED 45", "Scholekster", "W. Bakker"), ("IRL 55", "Redshank", "O. Roche"), ("GBR 204", "Fulmar", "T. Lyle")]
SAILS = [boat[0].replace(" ", "") for boat in BOATS]
READY = "Ctrl-C closes the office."
# Seconds
RESTED = 30.0
LINK = re.compile(r"^(Finish|Jury|Scorer) +https?://[^/]+(/office/in#\S+)$", re.MULTILINE)


def list_of(boats: list[tuple[str, ...]]) -> str:
    return "Sail,Boat,Helm\n" + "".join(",".join(boat) + "\n" for boat in boats)


class Web(helpers.Series):
    """A trial in a folder of its own, in which the web serves `cup`."""
    words: tuple[str, ...] = ("cup",)

    def setUp(self) -> None:
        super().setUp()
        self.write(list_of(BOATS), "cup", "entries.csv")
        self.port = helpers.free_port(self)
        self.links: dict[str, str] = {}
        self.printed = os.path.join(self.here, "printed.txt")
        self.prepare()
        self.serve()
        self.addCleanup(self.end)

    def prepare(self) -> None:
        """What a trial does before the web is there."""

    # The web

    def serve(self, *more: str) -> None:
        """Starts the web, and waits until it is ready."""
        with open(self.printed, "ab") as out:
            before = self.said().count(READY)
            self.web = subprocess.Popen([*helpers.COMMAND, "serve", *self.words, "--http", str(self.port), *more],
                                        cwd=self.here, stdin=subprocess.DEVNULL, stdout=out,
                                        stderr=subprocess.STDOUT)
        helpers.until("the web", lambda: self.said().count(READY) > before or self.web.poll() is not None)
        self.assertIsNone(self.web.poll(), self.said())
        self.links |= {role.lower(): link for role, link in LINK.findall(self.said())}

    def said(self) -> str:
        """What the web has printed."""
        if not os.path.exists(self.printed):
            return ""
        with open(self.printed, encoding="utf-8", errors="replace") as file:
            return file.read()

    def kill(self) -> None:
        """Kills the web, as a crash would."""
        self.web.kill()
        self.web.wait()

    def kill_program(self, name: str = "cup") -> None:
        """Kills the program of a class, as a crash would."""
        helpers.kill_office(os.path.join(self.here, name))

    def close(self) -> None:
        """Closes the web in order."""
        self.web.send_signal(signal.SIGTERM)
        self.web.wait(helpers.PATIENCE)

    def end(self) -> None:
        helpers.end(self.web)
        for name in os.listdir(self.here):
            helpers.kill_office(os.path.join(self.here, name))

    def journal(self, name: str = "cup") -> list[str]:
        """The role and line of each entry of the journal, without the boats that were entered first."""
        lines = self.text(name, "journal.txt").splitlines()[1:]
        return [text for text in (line.split(maxsplit=2)[2] for line in lines)
                if not text.startswith("SCORER ENTER")]

    def device(self, role: str, name: str = "Ann", source: str = "127.0.0.1") -> Device:
        """A device that has come by the link of its role."""
        return Device(self.port, role, source=source).come(self.links[role], name)


class Device:
    """A device without a browser, as a program would be one, perhaps with an address of its own."""

    def __init__(self, port: int, role: str, cookie: str = "", token: str = "", source: str = "127.0.0.1") -> None:
        self.port, self.role, self.cookie, self.token, self.source = port, role, cookie, token, source
        self.host = f"127.0.0.1:{port}"
        self.link = http.client.HTTPConnection("127.0.0.1", port, timeout=90, source_address=(source, 0))
        self.fields: dict[str, str] = {}
        self.asked = time.monotonic()

    def come(self, link: str, name: str) -> Device:
        """Comes by a link."""
        key = link.partition("#")[2].partition(".")[2]
        status, said = self.ask("POST", "/office/in", {"role": self.role, "key": key, "name": name})
        assert status == 200, (status, said)
        self.cookie = self.fields["set-cookie"].partition(";")[0]
        self.token = self.ask("GET", f"/office/{self.role}/me")[1]["token"]
        return self

    def again(self) -> Device:
        """The same device over a connection of its own."""
        return Device(self.port, self.role, self.cookie, self.token, self.source)

    def ask(self, method: str, path: str, body: object = None, **more: str) -> tuple[int, Any]:
        """The status and the values of an answer, whose fields are kept. A field that is empty isn't sent."""
        own = {"Host": self.host, "Origin": f"http://{self.host}", "Content-Type": "application/json",
               "Cookie": self.cookie, "X-Token": self.token}
        fields = own | {name.replace("_", "-"): value for name, value in more.items()}
        sent = {name: value for name, value in fields.items() if value}
        # The web ends a connection that has rested, as on a machine that has much to do.
        if time.monotonic() - self.asked > RESTED:
            self.link.close()
        self.link.request(method, path, json.dumps(body) if body is not None else None, sent)
        answer = self.link.getresponse()
        data, kind = answer.read(), answer.getheader("Content-Type", "")
        self.asked = time.monotonic()
        self.fields = {name.lower(): value for name, value in answer.getheaders()}
        return answer.status, json.loads(data) if "json" in kind and data else data.decode("utf-8", "replace")

    def tap(self, line: str, id: str = "", name: str = "cup", **more: object) -> tuple[int, Any]:
        """The status and the values of the answer to a tap."""
        tap = {"id": id or new_id(), "line": line, "at": int(time.time() * 1000), "seen": 0, **more}
        return self.ask("POST", f"/office/{self.role}/line/{name}", tap)

    def wait(self, path: str) -> None:
        """Waits for news at an address, over a connection of its own."""
        link = socket.create_connection(("127.0.0.1", self.port), timeout=90)
        link.sendall(f"GET {path} HTTP/1.1\r\nHost: {self.host}\r\nCookie: {self.cookie}\r\n\r\n".encode())
        self.news = link.makefile("rb")
        link.close()

    def state(self, name: str = "cup") -> Any:
        return self.ask("GET", f"/office/{self.role}/state/{name}")[1]


def new_id() -> str:
    return secrets.token_hex(16)


def is_known(device: Device) -> bool:
    """Whether a device is let in."""
    status, _ = device.again().ask("GET", f"/office/{device.role}/me")
    assert status in (200, 401), status
    return status == 200
