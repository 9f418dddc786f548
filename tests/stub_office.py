"""An office in browsers that only shows: canned answers in the shape of docs/BROWSER.md, to look at the pages in all
their states without a program."""
from __future__ import annotations

import http.server
import json
import threading
import time
from typing import Any

from raceoffice.remarks import Remark, remark
from raceoffice.web.routes import static_files
from raceoffice.web.preview import wrong_shown
from raceoffice.web.states import remarks_of
from web_office import BOATS, SAILS

POLICY = ("default-src 'none'; script-src 'self'; style-src 'self'; connect-src 'self'; img-src 'self'; "
          "manifest-src 'self'; worker-src 'self'; base-uri 'none'; form-action 'none'; frame-ancestors 'none'")
# What the window of an open office says: its series, and when it was opened.
OFFICE_SAYS = [remark("office-summary", title="Autumn Cup", boats=remark("some-boats", n=24), races=remark("some-scored", n=1),
                      entries=remark("some-entries", n=30)), remark("office-open", time="13:00")]
NO_DECISION = remark("decision-line", line=2, why=remark("decision-kind", written="K12", kinds=["PRP", "TLE"]))
# 28 November 2026, 13:00 in Greenwich
NOON = 1_795_870_800_000


def race(count: int, counts: bool = False, **more: Any) -> dict[str, Any]:
    """A race in which the first boats have finished, the third and fourth level."""
    order = [[sail] for sail in SAILS[:count]]
    if count > 3:
        order[2:4] = [[SAILS[2], SAILS[3]]]
    return {"counts": counts, "order": order, "codes": {}, "penalties": {}, "redress": {}, "times": {},
            "at": {sail: NOON + 7000 * at for at, sail in enumerate(SAILS[:count])},
            "by": {sail: "Ann’s phone" for sail in SAILS[:count]}, "unread": [], **more}


def rows(disqualified: str = "") -> list[dict[str, Any]]:
    """The standing after race 1: two boats level, one with OCS, one that wasn't there, and perhaps one disqualified."""
    order = [sail for sail in SAILS[:22] if sail != disqualified]
    points = {sail: float(at) for at, sail in enumerate(order, 1)}
    level = [sail for sail in SAILS[2:4] if sail in points]
    points |= {sail: sum(points[one] for one in level) / len(level) for sail in level}
    codes = {SAILS[22]: "OCS", SAILS[23]: "DNC", **({disqualified: "DSQ"} if disqualified else {})}
    points |= {sail: len(SAILS) + 1.0 for sail in codes}
    places = sorted(points.values())
    return [{"rank": places.index(points[sail]) + 1, "shared": places.count(points[sail]) > 1, "sail": sail,
             "net": f"{points[sail]:.1f}", "scores": [[f"{points[sail]:.1f}", codes.get(sail, ""), False]]}
            for sail in sorted(points, key=lambda sail: points[sail])]


def moves(before: list[dict[str, Any]], after: list[dict[str, Any]]) -> list[dict[str, Any]]:
    """Whose rank or net is another."""
    was = {row["sail"]: row for row in before}
    return [{"sail": row["sail"], "was": was[row["sail"]]["rank"], "rank": row["rank"], "words": "",
             "net_before": was[row["sail"]]["net"], "net": row["net"]}
            for row in after if row["net"] != was[row["sail"]]["net"]]


def state(name: str, version: int) -> dict[str, Any]:
    """All that there is to show of a class: a race that counts, and one that is being sailed."""
    open_race = race(7, codes={SAILS[7]: "OCS", SAILS[8]: "RET"}, penalties={SAILS[1]: ["ZFP"], SAILS[9]: ["SCP"]},
                     unread=[{"mark": "?1", "place": "5th", "after": 3}])
    return {"class": name, "title": "Autumn Cup", "group": "Dragon" if name == "cup" else "Folkboat", "version": version,
            "entries": 60, "trouble": "", "abandoned": {}, "handicap": name == "cruisers", "zone": [[0, 0]], "series": "", "rules": "Scores excluded: one from 4 races. RRS A5.2.",
            "boats": [[sail, boat[1], boat[2]] for sail, boat in zip(SAILS, BOATS)],
            "settings": {"exclude": "4", "absent": "a52", "scp": "", "handicap": False},
            "races": {"1": race(22, True, codes={SAILS[22]: "OCS"}), "2": open_race},
            "standing": {"races": [1], "rows": rows()},
            "last": {"at": NOON, "moves": moves(rows(SAILS[9]), rows()), "line": f"CLEAR 1 {SAILS[9]}", "role": "JURY"},
            "unlisted": ["USA4", "NED12345"], "journal": [f"1 1 SCORER ENTER {SAILS[0]}"], "decisions": decisions(),
            "unfinished": [{"id": "0" * 32, "lines": [f"BEFORE 2 {SAILS[5]} {SAILS[0]}"]}]}


def verdict() -> dict[str, Any]:
    """A decision without a line of its own, which the scores have."""
    return {"words": "race 1 GBR7 PRP 30%: 7.0 points", "kept": True, "race": 1, "sail": "GBR7", "kind": "PRP", "how": "30%",
            "points": "7.0", "held": "7.0", "why": [], "note": "hearing 4"}


def decisions() -> list[dict[str, Any]]:
    """The decisions of a class: one that is in the scores, one that isn't as it has to be, and a row that is none."""
    return [verdict() | {"row": "race 1 GBR7 PRP 30% # hearing 4"},
            verdict() | {"row": "race 1 GBR101 DPI 2", "sail": "GBR101", "kind": "DPI", "how": "2", "kept": False, "held": "6.0", "note": ""},
            wrong_shown(NO_DECISION) | {"row": "race 2 K12"}]


def at_noon(said: list[Remark]) -> list[dict[str, Any]]:
    """What an office said at noon."""
    return [{**one, "at": NOON} for one in remarks_of(said)]


def devices() -> dict[str, Any]:
    return {"board": "http://192.168.1.20:8080/", "keys": ["FINISH", "JURY", "SCORER"],
            "devices": [{"mark": f"{at}" * 16, "role": role, "name": name, "heard": heard, "unsent": unsent, "mine": at == 0}
                        for at, (role, name, heard, unsent) in enumerate([
                            ("SCORER", "Bea’s laptop", 0, 0), ("FINISH", "Ann’s phone", 4, 3),
                            ("JURY", "Protest room", 700, 0)])],
            "beside": [{"name": "spring-cup-2025", "title": "Spring Cup", "state": "final"}],
            "offices": [{"class": "cup", "said": at_noon(OFFICE_SAYS), "open": True, "is_kept_here": False,
                         "has_window": True, "is_away": False},
                        {"class": "fleet", "said": at_noon([remark("office-nothing")]), "open": False, "is_kept_here": False,
                         "has_window": False, "is_away": False}]}


def results() -> dict[str, Any]:
    """Final results that have changed since, with all that may be open, and copies of which one is wrong."""
    return {"state": "final", "reason": "The protest time has ended", "since": NOON, "is_changed": True,
            "is_open": True, "open": OPEN,
            "journal": {"entries": 59, "differs": remarks_of([remark("journal-changed")])},
            "copies": {"dated": {"count": 14, "fault": [], "name": "kept/2026-11-28-120000Z.txt", "at": NOON, "entries": 58},
                       "second": {"path": "/media/ann/STICK", "fault": [], "is_same_disk": True, "at": NOON, "entries": 60},
                       "chosen": "/media/ann/OTHER STICK", "is_waiting": True,
                       "sticks": [{"path": "/media/ann/STICK", "is_same_disk": True}, {"path": "/media/ann/32 GB", "is_same_disk": False}]}}


OPEN: list[dict[str, Any]] = [
    {"kind": "boats-unnamed", "values": {"sails": ["USA4", "USA5"]}, "text": ""},
    {"kind": "race-unscored", "values": {"race": 2, "finished": 7, "held": [f"{SAILS[7]} OCS", f"{SAILS[8]} RET"]}, "text": ""},
    {"kind": "finishers-unknown", "values": {"races": ["2"], "marks": ["?1"]}, "text": ""},
    {"kind": "taps-unsent", "values": {"devices": ["Ann’s phone (2)", "Ben (1)"]}, "text": ""},
    {"kind": "decision-stale", "values": {"race": 1, "sail": "GBR101", "kind": "DPI", "how": "2", "points": "7.0", "held": "6.0", "why": ""},
     "text": ""},
    {"kind": "decisions-unread", "values": {"fault": str(NO_DECISION)}, "text": "", "remarks": {"fault": remarks_of([NO_DECISION])[0]}}]


class QuietServer(http.server.ThreadingHTTPServer):
    """Says nothing of devices that go away."""
    daemon_threads = True

    def handle_error(self, *_: object) -> None:
        pass


class StubOffice:
    """Serves the pages, with `files` as the office has them. `line` is what a tap or a declaration is answered: a status and
    values; `classes` are the classes."""

    def __init__(self) -> None:
        self.files = static_files()
        self.classes = ["cup"]
        self.version, self.is_ended = 1, False
        self.line: tuple[int, dict[str, Any]] = 503, {"words": "the office is away"}
        self.sheet_wrong: list[dict[str, object]] = []
        after = rows(SAILS[3])
        self.preview: dict[str, Any] = {"line": "", "asked": [], "moves": moves(rows(), after), "rows": after,
                                        "counts": True, "entries": 60, "lines": [f"JURY MARK 1 {SAILS[3]} DSQ"]}
        self.server = QuietServer(("127.0.0.1", 0), self.handler())
        self.port = self.server.server_address[1]
        threading.Thread(target=self.server.serve_forever, daemon=True).start()

    def close(self) -> None:
        self.is_ended = True
        self.server.shutdown()
        self.server.server_close()

    def address(self, path: str) -> str:
        return f"http://127.0.0.1:{self.port}{path}"

    def answer(self, role: str, what: str, values: dict[str, Any]) -> tuple[int, Any]:
        """What is answered to a page of a role."""
        if what == "me":
            classes = [{"class": name, "title": "Autumn Cup", "group": state(name, 1)["group"], "handicap": False}
                       for name in self.classes]
            return 200, {"role": role.upper(), "name": "This one", "token": "t", "now": int(time.time() * 1000), "may": [],
                         "classes": classes}
        known: dict[str, Any] = {
            "state": lambda name: state(name, self.version), "devices": lambda _: devices(),
            "results": lambda _: results(), "listed": lambda _: {"columns": ["name", "helm", "club", "rating"]},
            "preview": lambda _: self.preview, "ruling": lambda _: {**self.preview, "line": values["line"], "verdict": verdict(), "why": []},
            "key": lambda _: {"link": self.address("/office/in#finish.secret"), "code": [[1, 0, 1], [0, 1, 0], [1, 0, 1]]},
            "settings": lambda _: {"wrong": [], "keys": [], "rules": "", "settings": state("cup", 1)["settings"], "note": []},
            "sheet": lambda _: {"race": 2, "tag": "t", "wrong": self.sheet_wrong, "columns": ["start", "laps", "elapsed"], "overnight": True,
                                "rounding": "half-up", "rows": [
                {"sail": sail, "start": "14:00:00", "laps": "3", "distance": "", "finish": "15:07:31", "elapsed": "", "code": ""}
                for sail in SAILS]},
            "rules": lambda _: self.effect() if values else self.kept(),
            "list": lambda _: {"wrong": [], "done": remarks_of([remark("list-semicolons"), remark("list-above", n=2)]), "text": "Sail\nGBR 7\n",
                               "heads": ["Boat", "Number"], "is_sail_known": False, "boats": [["GBR 7", "Sea Pink", "J. Hale", "", "1050"]],
                               "ratings": ["PY"]}}
        first, _, rest = what.partition("/")
        if first in ("line", "declare"):
            return self.line
        return (200, known[first](rest)) if first in known else (404, {"words": "no such address"})

    @staticmethod
    def kept() -> dict[str, Any]:
        """The settings of a class, of which the office goes by others."""
        rules = {"exclude": "4", "absent": "a52", "scp": "", "handicap": "no"}
        return {"wrong": [], "tag": "t", "is_open": True, "is_kept_here": True, "system": "", "rounding": "", "waiting": ["exclude", "zone"],
                "settings": {**rules, "title": "Autumn Cup", "class": "Dragon", "club": "", "zone": "Europe/Lisbon"},
                "opened": {**rules, "exclude": "none", "handicap": False}}

    def effect(self) -> dict[str, Any]:
        """Whom other settings would move."""
        return {"wrong": [], "keys": [], "rules": "", "settings": {"exclude": "4,8", "absent": "a53", "scp": "3", "handicap": True},
                "at_once": ["title"], "at_opening": ["exclude", "absent", "scp", "handicap"], "moves": self.preview["moves"],
                "retimed": [{"race": 2, "n": 7}, {"race": 3, "n": 1}], "moved": self.preview["moves"],
                "stale": [verdict() | {"kept": False, "held": "6.0"}, wrong_shown(NO_DECISION)]}

    def handler(self) -> type[http.server.BaseHTTPRequestHandler]:
        office = self

        class Handler(http.server.BaseHTTPRequestHandler):
            """Answers one request."""

            def log_message(self, *_: object) -> None:
                pass

            def reply(self, status: int, kind: str, data: bytes) -> None:
                self.send_response(status)
                for name, value in (("Content-Type", kind), ("Content-Length", str(len(data))),
                                    ("Cache-Control", "no-cache"), ("Content-Security-Policy", POLICY)):
                    self.send_header(name, value)
                self.end_headers()
                self.wfile.write(data)

            def file(self, name: str) -> None:
                if name not in office.files:
                    self.reply(404, "text/plain", b"")
                    return
                kind, data = office.files[name]
                self.reply(200, kind + ("; charset=utf-8" if kind.startswith("text/") else ""), data)

            def news(self) -> None:
                self.send_response(200)
                self.send_header("Content-Type", "text/event-stream")
                self.end_headers()
                seen = 0
                while not office.is_ended:
                    if seen != office.version:
                        seen = office.version
                        self.wfile.write(b"data: %s\n\n" % json.dumps({name: seen for name in office.classes}).encode())
                        self.wfile.flush()
                    time.sleep(0.05)

            def do_GET(self) -> None:
                parts = self.path.strip("/").split("/")
                if parts[:2] == ["office", "static"]:
                    self.file("/".join(parts[2:]))
                elif parts == ["office", "in"]:
                    self.file("enter.html")
                elif parts[0] != "office":
                    self.reply(404, "text/plain", b"")
                elif len(parts) == 2:
                    self.file(f"{parts[1]}.html")
                elif parts[2] == "worker.js":
                    self.file("worker.js")
                elif parts[2] == "live":
                    self.news()
                else:
                    self.json(parts)

            def do_POST(self) -> None:
                self.json(self.path.strip("/").split("/"))

            def json(self, parts: list[str]) -> None:
                data = self.rfile.read(int(self.headers.get("Content-Length", 0)))
                status, values = office.answer(parts[1], "/".join(parts[2:]), json.loads(data or b"{}"))
                self.reply(status, "application/json", json.dumps(values).encode())

        return Handler
