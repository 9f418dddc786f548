"""Each address of the office that needs a link, as the server's own source has them: who may ask for it, and what odd
requests get."""
from __future__ import annotations

import ast
import http.client
import inspect
import os
import re
import unittest
from contextlib import closing

import helpers
from raceoffice.web import routes
from web_devices import Device, Web

EACH = frozenset({"finish", "jury", "scorer"})
# What stands in an address where the server reads a name, a race or a form
GIVEN = {"name": "cup", "race": "1", "form": "html"}
# The functions that know addresses, the method, and the roles if none is named there
FUNCTIONS = (("read", "GET", EACH), ("write", "POST", EACH), ("write_as_scorer", "POST", frozenset({"scorer"})))
# Bodies that are no JSON object, or no text
BODIES = (b"", b"[]", b"7", b"null", b'"x"', b"{", b"[" * 5000, b"\xff", b'{"line": "\\ud800"}')
# Keys that some address reads, and values that none takes
KEYS = ("id", "line", "lines", "at", "seen", "agreed", "note", "out", "reopen", "tag", "state", "reason", "path", "name", "role",
        "stay", "mark", "ask", "leave", "settings", "system", "sail", "was", "race", "rows", "overnight", "data", "column", "text")
ODD_VALUES: tuple[object, ...] = (7, None, [7], {}, [[]], {"x": 7}, "\n", "x" * 5000)
# What an address does for whatever object it is given
FOR_ANY = {"close", "leave"}


def path_of(pattern: ast.MatchSequence) -> str:
    """An address that a pattern matches."""
    parts = []
    for part in pattern.patterns:
        if isinstance(part, ast.MatchValue):
            parts.append(str(ast.literal_eval(part.value)))
        elif isinstance(part, ast.MatchAs) and part.name:
            parts.append(GIVEN[part.name])
    return "/".join(parts)


def roles_of(guard: ast.expr | None, usual: frozenset[str]) -> frozenset[str]:
    """The roles that a condition names: all that may ask without one."""
    if guard is None:
        return usual
    named = re.findall(r"role (?:== '[A-Z]+'|in \('[A-Z]+', '[A-Z]+'\))", ast.unparse(guard))
    assert len(named) == 1, ast.unparse(guard)
    return frozenset(name.lower() for name in re.findall("'([A-Z]+)'", named[0]))


def addresses() -> dict[tuple[str, str], frozenset[str]]:
    """The addresses, by method and path, with the roles that may ask for them."""
    found: dict[tuple[str, str], frozenset[str]] = {}
    tree = ast.parse(inspect.getsource(routes))
    for name, method, usual in FUNCTIONS:
        function = next(one for one in ast.walk(tree) if getattr(one, "name", "") == name)
        for case in (one for one in ast.walk(function) if isinstance(one, ast.match_case)):
            assert isinstance(case.pattern, ast.MatchSequence), ast.unparse(case.pattern)
            found[method, path_of(case.pattern)] = roles_of(case.guard, usual)
    return found


def named_in_page() -> dict[tuple[str, str], frozenset[str]]:
    """Those that docs/BROWSER.md names, with the first word of their paths."""
    with open(os.path.join(helpers.TOP, "docs", "BROWSER.md"), encoding="utf-8") as file:
        table = file.read().partition("| address | what it gives |\n")[2].partition("\n\n")[0]
    found: dict[tuple[str, str], frozenset[str]] = {}
    for row in table.splitlines()[1:]:
        cell, method = row.split("|")[1].strip(), ""
        roles = re.match("((?:jury|scorer)(?: and scorer)?): ", cell)
        for text in re.findall("`([^`]+)`", cell):
            one = re.match("(?:(GET|POST) )?([a-z]+)", text)
            if one and one[2] != "in":
                method = one[1] or method
                found[method, one[2]] = frozenset(roles[1].split(" and ")) if roles else EACH
    return found


class Addresses(Web):
    def setUp(self) -> None:
        super().setUp()
        self.sources = iter(range(2, 200))
        self.devices = {role: self.fresh(role) for role in EACH}
        self.known = addresses()

    def fresh(self, role: str) -> Device:
        """A device at an address of its own: none waits for its turn."""
        return self.device(role, "Ann", f"127.0.2.{next(self.sources)}")

    def status(self, device: Device, method: str, path: str, body: object = None, **more: str) -> int:
        given = {} if body is None and method == "POST" else body
        return device.again().ask(method, path, given, **more)[0]

    def files(self) -> dict[str, bytes]:
        """What the folder of the series has that isn't of the web itself. office.log says who came, and how the office is."""
        found = {}
        for name in sorted(os.listdir(os.path.join(self.here, "cup"))):
            path = os.path.join(self.here, "cup", name)
            if os.path.isfile(path) and name != "office.log":
                with open(path, "rb") as file:
                    found[name] = file.read()
        return found

    def test_named(self) -> None:
        """Each is in docs/BROWSER.md, with the roles that may ask for it, and no other is there."""
        self.assertEqual({(method, path.partition("/")[0]): roles for (method, path), roles in self.known.items()}, named_in_page())

    def test_who(self) -> None:
        """Each is its roles' alone. It needs the cookie and this computer's name, and to write the token and origin, too."""
        before = self.files()
        for (method, path), roles in self.known.items():
            asked = [(401, {"Cookie": ""}), (421, {"Host": "evil.example"})]
            if method == "POST":
                asked += [(403, {"Origin": "http://evil.example"}), (403, {"X_Token": ""})]
            for role, device in self.devices.items():
                own = f"/office/{role}/{path}"
                for wanted, fields in asked:
                    self.assertEqual(self.status(device, method, own, **fields), wanted, (method, own, fields))
                for other in EACH - {role}:
                    self.assertEqual(self.status(device, method, f"/office/{other}/{path}"), 401, (method, path, role, other))
                for another in ("GET", "POST"):
                    if role not in self.known.get((another, path), ()):
                        self.assertEqual(self.status(device, another, own), 404, (another, own))
                for wrong in ("PUT", "DELETE", "PATCH"):
                    self.assertEqual(self.status(device, wrong, own, {}), 405, (wrong, own))
            self.devices = {role: self.fresh(role) for role in EACH}
        self.assertEqual(self.files(), before)

    def test_odd_bodies(self) -> None:
        """To write, each needs an object in JSON, and says so of all else."""
        before = self.files()
        for path, role in self.writing():
            device = self.fresh(role)
            for body in BODIES:
                self.assertEqual(self.raw(device, path, body), 400, (path, body[:20]))
            self.assertEqual(self.raw(device, path, b"{}", "text/plain"), 400, path)
        self.assertEqual(self.files(), before)

    def test_odd_values(self) -> None:
        """Whatever its values are, none is a fault of the server, and nothing is written."""
        before = self.files()
        for path, role in self.writing():
            device = self.fresh(role)
            for value in ODD_VALUES if path.partition("/")[0] not in FOR_ANY else ():
                status = self.status(device, "POST", f"/office/{role}/{path}", dict.fromkeys(KEYS, value))
                self.assertIn(status, (200, 400, 404, 413, 422), (path, value))
        self.assertEqual(self.files(), before)
        self.assertEqual(os.listdir(self.here).count("cup"), 1)
        self.assertFalse(os.path.exists(os.path.join(self.here, "cup", "office", "faults.txt")))

    def writing(self) -> list[tuple[str, str]]:
        """Each address that writes, and each role that may."""
        return [(path, role) for (method, path), roles in self.known.items() if method == "POST" for role in sorted(roles)]

    def raw(self, device: Device, path: str, body: bytes, kind: str = "application/json") -> int:
        """The status of the answer to a body of any kind."""
        link = http.client.HTTPConnection("127.0.0.1", self.port, timeout=60)
        link.request("POST", f"/office/{device.role}/{path}", body, {
            "Origin": f"http://{device.host}", "Host": device.host, "Content-Type": kind, "Cookie": device.cookie,
            "X-Token": device.token})
        with closing(link):
            return link.getresponse().status


if __name__ == "__main__":
    unittest.main()
