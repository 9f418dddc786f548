"""What each address of the office does, for which role."""
from __future__ import annotations

import collections
import contextlib
import functools
import json
import os
import re
import secrets
import threading
import time
from collections.abc import Callable, Iterator
from typing import Any

from raceoffice.errors import NotNow, NotSent, Trouble
from raceoffice.program.replay import Line
from raceoffice.remarks import remark
from raceoffice.results.http_answers import Text, address_of
from raceoffice.series.entry_list import plain
from raceoffice.series.folder import Folder
from raceoffice.session.confirm import questions
from raceoffice.session.dialogue import Question
from raceoffice.session.parse import COMMANDS, FIRST, MAY, race_number
from raceoffice.session.question_words import question
from raceoffice.terminal import sentence
from raceoffice.traces import guarded
from raceoffice.web import (boat_names, corrections, new_series, preview, qr, rulings, series_beside, series_settings,
                            sticks, times_sheet)
from raceoffice.web.declarations import Unasked
from raceoffice.web.downloads import download
from raceoffice.web.finish_order import Elsewhere
from raceoffice.web.gate import MARK, ROLES, Device, plain_name
from raceoffice.web.hosting import Waiting
from raceoffice.web.kept_office import KeptOffice
from raceoffice.web.requests import JSON, Reply, Request, Wrong, reply_of, tag_of, tagged
from raceoffice.web.room import Room
from raceoffice.web.rulings import one_line
from raceoffice.side_by_side import SideBySide
from raceoffice.web.states import Values, question_of, remarks_of, said_of
from raceoffice.web.tap_session import Asked
from raceoffice.web.taps import NoTap, Tap, agreed_in, need_clock
from raceoffice.web.timed_taps import races_waiting
from raceoffice.web.web_office import Class, WebOffice
from raceoffice.web.workers import Workers

STATIC = os.path.join(os.path.dirname(os.path.abspath(__file__)), "static")
KINDS = {".html": "text/html", ".js": "text/javascript", ".css": "text/css", ".svg": "image/svg+xml",
         ".json": JSON, ".webmanifest": "application/manifest+json", ".png": "image/png"}
PAGES = {role.lower(): f"{role.lower()}.html" for role in ROLES}
# The most bytes of a body: of somebody whom nobody knows, of a tap and of most else that a device sends, of what may be about
# all boats, and of a list. While JSON is read all threads stand still: at the finish nobody needs more than a tap has.
FOR_ALL, FOR_TAPS, FOR_MUCH, FOR_LISTS = 4 << 10, 16 << 10, 256 << 10, 5 << 20
# What each role sends to an address that takes more than a tap has.
ROOMS = {("JURY", "decide"): FOR_MUCH, ("SCORER", "list"): FOR_LISTS, ("SCORER", "new"): FOR_LISTS} | {
    ("SCORER", name): FOR_MUCH
    for name in ("correct", "declare", "line", "open", "remove", "reopen", "rules", "save", "settings", "sheet")}
# What a line of each role may begin with beside the lines that it sends.
OWN = {"UNDO", "ABANDON"}


def being_opened() -> Wrong:
    """What a class answers before its office is there: whoever asks comes again."""
    said = remark("class-opening")
    return Wrong(503, said, said=remarks_of([said]))


def office_shown(name: str, office: KeptOffice) -> Values:
    """An office as the scorer's page shows it."""
    return {"class": name, "said": office.words(), "open": office.is_there(), "is_kept_here": office.keeping is not None,
            "has_window": office.has_window(), "is_away": False}


def closed_office(name: str, said: list[Values], is_away: bool = False) -> Values:
    """The same of one that isn't served, or of one that `is_away`: its folder doesn't answer."""
    return {"class": name, "said": said, "open": False, "is_kept_here": False, "has_window": False, "is_away": is_away}


def no_such_class() -> Wrong:
    said = remark("no-class")
    return Wrong(404, said, said=remarks_of([said]))


class Routes:
    """Answers requests. What is under /office/ROLE/ needs a device of that role."""

    def __init__(self, office: WebOffice) -> None:
        self.office, self.gate = office, office.gate
        self.workers = Workers()
        self.files = static_files()
        self.states: dict[tuple[str, bool], tuple[int, bytes]] = {}
        # Who makes one: others who ask for it meanwhile get the same.
        self.making: dict[tuple[str, bool], threading.Lock] = collections.defaultdict(threading.Lock)
        # What all classes are asked, of which one may hang
        self.offices, self.settings = SideBySide[Values](), SideBySide[series_beside.Read]()

    def sender(self, request: Request) -> Device | None:
        """The device that a request comes from, if it is known and asks for an address of its role."""
        parts = request.parts
        role = parts[1].upper() if parts[:1] == ["office"] and len(parts) > 1 else ""
        return self.gate.known(request, role) if role in ROLES else None

    def name_of(self, request: Request) -> str:
        """What the device that a request comes from is known by; nothing of a stranger."""
        device = self.sender(request)
        return device.mark if device else ""

    def room_for(self, request: Request) -> int:
        """How many bytes a request's body may have."""
        device = self.sender(request) if request.method == "POST" else None
        name = "".join(request.parts[2:3])
        return FOR_ALL if device is None or name == "in" else ROOMS.get((device.role, name), FOR_TAPS)

    async def answer(self, request: Request) -> Reply | Waiting:
        self.gate.check_host(request)
        parts = request.parts
        if parts[:1] != ["office"]:
            return self.shown(request)
        if request.method not in ("GET", "HEAD", "POST"):
            raise Wrong(405)
        is_reading = request.method != "POST"
        match parts[1:]:
            case [] | ["in"] if is_reading:
                return tagged(request, *self.file("enter.html"))
            case ["in"]:
                return await self.in_thread("", request.address, self.enter, request)
            case [role, "in"] if role in PAGES and not is_reading:
                # A browser that comes again sends its cookie here.
                return await self.in_thread("", request.address, self.enter, request)
            case ["static", *names] if is_reading:
                return self.part("/".join(names), request)
            case [role, *rest] if role in PAGES and is_reading:
                return await self.read(request, role.upper(), rest)
            case [role, *rest] if role in PAGES:
                device = self.gate.check_write(request, role.upper())
                return await self.in_thread(self.about(device.role, rest), self.about(device.mark, rest), self.write, request,
                                            device.role, device, rest)
            case _ if is_reading:
                # A series may be called as these addresses begin: its pages are the board's.
                return self.shown(request)
        raise Wrong(404)

    def about(self, name: str, rest: list[str]) -> str:
        """What requests of a role, or of a device, take turns for: those about a class that hangs hold up none about another."""
        known = {*self.office.classes, *self.office.left_out}
        return " ".join([name, *(part for part in rest[1:3] if part in known)])

    def file(self, name: str) -> tuple[str, bytes]:
        if name not in self.files:
            raise Wrong(404)
        return self.files[name]

    def part(self, name: str, request: Request) -> Reply:
        """A file of the pages. A document and a worker have the policy of a page, parts of a page that of the page."""
        return tagged(request, *self.file(name), is_part=not name.endswith((".html", "worker.js")))

    def shown(self, request: Request) -> Reply | Waiting:
        """What is open to all: the board, which is looked up in one dictionary, and news of it."""
        if request.method not in ("GET", "HEAD"):
            raise Wrong(405)
        if request.path == "/live":
            return self.news_of_page(request)
        address, texts = address_of(request.path), self.office.board.texts
        if address in texts:
            # Also if no class is served any more: the last pages say when they were made.
            return of_text(request, texts[address])
        if address == "/" and not self.office.classes:
            self.need_a_class()
            return Reply(301, "text/plain", b"", {"Location": "/office/"})
        if f"{address}/" in texts:
            return Reply(301, "text/plain", b"", {"Location": f"{address}/"})
        if "text/html" in request.fields.get("accept", ""):
            return Reply(404, *self.file("missing.html"))
        raise Wrong(404, "there is no such page here")

    def news_of_page(self, request: Request) -> Waiting:
        """News of a page of the board, whose address follows `page=` as it is in the browser."""
        name, _, path = request.query.partition("=")
        address, texts = address_of(path), self.office.board.texts
        if name != "page" or address not in texts or not texts[address].kind.startswith("text/html"):
            raise Wrong(404, "there is no such page here")
        return Waiting(functools.partial(self.office.board_news.serve, address=address, takes_gzip=request.takes_gzip))

    def enter(self, request: Request) -> Reply:
        """A device shows the secret of its link, and gets a cookie."""
        self.gate.check_origin(request)
        values = request.values()
        role, name = str(values.get("role", "")).upper(), plain_name(str(values.get("name", "")))
        cookie, name = self.gate.enter(request, role, str(values.get("key", "")), name)
        self.office.tell(f"{role.lower()}: {name} came from {request.address}")
        return reply_of({"next": f"/office/{role.lower()}/", "name": name}, 200, {"Set-Cookie": cookie})

    async def in_thread(self, pool: str, name: str, work: Callable[..., Reply], *values: object) -> Reply:
        """Does what may take time, in a thread of a role, and says in words what keeps it from being done."""
        try:
            return await self.workers.outcome(pool, name, functools.partial(self.guarded, work, *values))
        except NotNow as why:
            # The device keeps the tap, and its place among those that wait.
            raise Wrong(503, sentence(why), "waits", said=remarks_of(why.said)) from None
        except NotSent as why:
            raise Wrong(422, sentence(why), said=remarks_of(why.said)) from None
        except Asked as asked:
            return reply_of({"outcome": "asked", "question": question_of(asked.question),
                             "said": said_of(asked.said)}, 409)
        except Elsewhere as where:
            return reply_of({"outcome": "elsewhere", "question": question_of(where.question),
                             "clock": where.clock}, 409)
        except Trouble as trouble:
            raise Wrong(503, sentence(trouble), said=remarks_of(trouble.said)) from None

    def guarded(self, work: Callable[..., Reply], *values: object) -> Reply:
        folder = next((one.room.folder.path for one in self.office.classes.values()), "")
        with guarded(folder, NotSent, Asked, Elsewhere, Wrong):
            return work(*values)

    # What is read

    async def read(self, request: Request, role: str, rest: list[str]) -> Reply | Waiting:
        if not rest:
            # A page has no secret: what it shows comes later, to devices of the role.
            return tagged(request, *self.file(PAGES[role.lower()]))
        if rest == ["worker.js"]:
            return tagged(request, *self.file("worker.js"))
        device = self.gate.device(request, role)
        self.gate.asking.take(device.mark)
        in_thread = functools.partial(self.in_thread, self.about(role, rest), self.about(device.mark, rest), self.shown_to, device)
        match rest:
            case ["me"]:
                self.need_a_class()
                return reply_of(self.me(request, role, device))
            case ["live"]:
                return Waiting(functools.partial(self.office.news.serve, name=device.mark), device.mark)
            case ["state", name]:
                return await in_thread(self.state, request, role, self.room(name))
            case ["rulings", name] if role == "JURY":
                return await in_thread(self.rulings, self.room(name))
            case ["devices"] if role == "SCORER":
                return await in_thread(self.devices, device)
            case ["listed", name] if role == "SCORER":
                return await in_thread(self.list_shown, self.room(name))
            case ["rules", name] if role == "SCORER":
                return await in_thread(self.rules, self.room(name))
            case ["results", name] if role == "SCORER":
                return await in_thread(self.results, self.one(name))
            case ["export", form, *names] if role == "SCORER" and len(names) < 2:
                return await in_thread(self.export, form, [*map(self.one, names)])
            case ["sheet", name, race] if role == "SCORER":
                return await in_thread(self.sheet, self.room(name), race)
        raise Wrong(404)

    def shown_to(self, device: Device, work: Callable[..., Reply], *values: object) -> Reply:
        """What is shown to a device; 401 if it was put out before it had its turn."""
        self.gate.need(device)
        return work(*values)

    def me(self, request: Request, role: str, device: Device) -> Values:
        groups = self.office.groups()
        classes = [{"class": name, "title": one.room.folder.settings.title, "group": groups[name],
                    "handicap": one.room.folder.settings.handicap}
                   for name, one in self.office.classes.items() if name in groups]
        return {"role": role, "name": device.name, "token": self.gate.token(request, role), "now": now(),
                "may": sorted(MAY[role]), "classes": classes}

    def need_a_class(self) -> None:
        """While the first class is being opened, whoever asks for all comes again."""
        if self.office.to_come and not self.office.classes:
            raise being_opened()

    def one(self, name: str) -> Class:
        if name not in self.office.classes:
            raise being_opened() if name in self.office.to_come else no_such_class()
        return self.office.classes[name]

    def room(self, name: str) -> Room:
        return self.one(name).room

    def state(self, request: Request, role: str, room: Room) -> Reply:
        """The state of a class, made once for all who ask."""
        key, version = (room.folder.name, role != "FINISH"), room.version
        with self.making[key]:
            held = self.states.get(key)
            if held is None or held[0] != version:
                data = json.dumps(room.state(key[1]), ensure_ascii=False, separators=(",", ":"))
                held = (version, data.encode("utf-8", "replace"))
                self.states[key] = held
        return tagged(request, JSON, held[1])

    def rulings(self, room: Room) -> Reply:
        return reply_of(preview.decisions_shown(room.folder, room.facts, room.register.known_in(room.facts.sheet.journal)))

    def devices(self, mine: Device) -> Reply:
        """The devices that came, and what the offices said."""
        at = self.gate.clock.now()
        shown = [{"mark": device.mark[:MARK], "role": device.role, "name": device.name,
                  "heard": int(at - device.heard), "unsent": device.unsent, "mine": device is mine}
                 for device in sorted(self.gate.devices.values(), key=lambda device: -device.heard)]
        offices = [*self.offices_shown(), *(closed_office(name, remarks_of(one.said))
                                            for name, one in list(self.office.left_out.items()))]
        served = [*self.office.served(), *self.office.left_out]
        return reply_of({"devices": shown, "keys": sorted(self.gate.keys), "board": self.office.address, "offices": offices,
                         "beside": series_beside.series_beside(self.office.parent, served, self.settings)})

    def offices_shown(self) -> list[Values]:
        """The offices of all classes. One whose folder hangs is away."""
        classes = self.office.classes
        found = self.offices.answers({name: functools.partial(office_shown, name, one.office) for name, one in classes.items()})
        return [found.get(name) or closed_office(name, one.office.words(), is_away=True) for name, one in classes.items()]

    def results(self, one: Class) -> Reply:
        """How the results stand, what is open, and the journal with its copies."""
        return reply_of(one.results.shown())

    def export(self, form: str, some: list[Class]) -> Reply:
        """The results of a class as a file, or of all but one whose folder hangs; what keeps a part from being shown is said."""
        if not (found := some or self.answering()):
            raise no_such_class()
        return download(form, [one.room.folder for one in found], self.office.tell)

    def answering(self) -> list[Class]:
        """The classes whose folders answer; of any other its office says that its folder doesn't."""
        classes = {one.room.folder.path: one for one in self.office.classes.values()}
        found = self.settings.answers({path: functools.partial(series_beside.settings_in, [path]) for path in classes})
        for path, one in classes.items():
            if path not in found:
                one.office.say(remark("folder-silent", path=path))
        return [one for path, one in classes.items() if path in found]

    # What is written

    @contextlib.contextmanager
    def turn(self, room: Room, device: Device) -> Iterator[None]:
        """While a device changes a class; 401 if it was put out before it had its turn."""
        with room.lock:
            self.gate.need(device)
            yield

    def write(self, request: Request, role: str, device: Device, rest: list[str]) -> Reply:
        self.gate.need(device)
        match rest:
            case ["line", name]:
                return self.line(request, role, device, self.room(name))
            case ["preview", name] if role in ("JURY", "SCORER"):
                return self.preview(request, role, self.room(name))
            case ["ruling", name] if role == "JURY":
                return self.ruling(request, self.room(name))
            case ["decide", name] if role == "JURY":
                return self.decide(request, device, self.room(name))
            case ["leave"]:
                request.values()
                self.gate.revoke(device.mark, False)
                return reply_of({})
        if role == "SCORER":
            return self.write_as_scorer(request, device, rest)
        raise Wrong(404)

    def write_as_scorer(self, request: Request, device: Device, rest: list[str]) -> Reply:
        """What the scorer's page alone writes."""
        need = functools.partial(self.gate.need, device)
        match rest:
            case ["key"]:
                return self.new_key(request, need)
            case ["revoke"]:
                self.gate.revoke(str(request.values().get("mark", "")), need=need)
                return reply_of({})
            case ["open", name]:
                self.office.add_again(name)
                return self.open(request, need, self.room(name))
            case ["close", name]:
                return self.close(request, need, self.room(name))
            case ["correct", name]:
                return self.correct(request, device, self.room(name))
            case ["declare", name]:
                return self.declare(request, device, self.one(name))
            case ["list"]:
                return reply_of(new_series.list_shown(request.values()))
            case ["reopen", name]:
                return self.reopen(request, need, self.room(name))
            case ["listed", name]:
                return self.name_boat(request, device, self.room(name))
            case ["remove", name]:
                return self.remove_boat(request, device, self.one(name))
            case ["rules", name]:
                return self.rules_effect(request, self.room(name))
            case ["sheet", name]:
                return self.save_sheet(request, device, self.room(name))
            case ["second", name]:
                return self.choose_second(request, device, self.one(name))
            case ["save", name]:
                return self.save(request, device, self.room(name))
            case ["settings"]:
                return reply_of(new_series.settings_shown(request.values()))
            case ["new"]:
                return self.make(request, need)
            case ["serve"]:
                served = self.office.served()
                return self.serve(series_beside.path_of(self.office.parent, served, request.values(), self.settings), need)
        raise Wrong(404)

    def line(self, request: Request, role: str, device: Device, room: Room) -> Reply:
        """A tap. One that a finish boat is asked about waits on its device from then on; other pages keep no taps."""
        try:
            return self.tapped(request, role, device, room)
        except (Asked, Elsewhere):
            if role == "FINISH":
                self.gate.note_waiting(request, device)
            raise

    def tapped(self, request: Request, role: str, device: Device, room: Room) -> Reply:
        tap = tap_of(request.values())
        check_command(tap.line, role)
        if tap.id not in room.register.sent:
            self.gate.refused.check(device.mark)
            ask_of_series(room, tap)
            ask_of_unsent(room, tap, self.gate.holding(device.mark))
        done = room.do(role, device.name, tap, lambda: self.gate.need(device))
        if is_idle(done):
            self.gate.refused.pause(device.mark)
        return reply_of(done | {"version": room.version, "now": now()})

    def preview(self, request: Request, role: str, room: Room) -> Reply:
        """What a line would do, and what would be asked."""
        typed = one_line(request.values(), "line").upper()
        check_command(typed, role)
        with room.lock:
            session = room.session(role)
            session.begin(Tap("", "", agreed=agreed_of(request)), "")
            session.look()
            line = session.line(typed)
            unread = session.unread.of(race.number) if (race := session.facts.race_of(line)) else []
            asked = questions(session.facts, role, line, unread)
        found = preview.preview(room.folder, session.facts, [Line(role, line)])
        values: Values = {"line": line, "asked": list(map(question_of, asked))}
        return reply_of(values | found)

    @staticmethod
    def ruling(request: Request, room: Room) -> Reply:
        """What a decision comes to, or taking one out, and whom it moves."""
        return reply_of(rulings.ruling_shown(room, request.values()))

    def decide(self, request: Request, device: Device, room: Room) -> Reply:
        """Keeps a decision in decisions.txt, or takes it out, and sends the lines that it takes. The same again gets
        the same answer."""
        with self.turn(room, device):
            done = rulings.decide(room, request.values(), device.name)
        return reply_of({"outcome": "taken", "done": done, "version": room.version})

    def correct(self, request: Request, device: Device, room: Room) -> Reply:
        """Sends the lines of a correction, asks of them alone, or leaves what is left of one."""
        values = request.values()
        with self.turn(room, device):
            if values.get("ask") is True:
                corrections.ask_whole(room, values, device.name)
                return reply_of({"outcome": "asked", "version": room.version})
            if values.get("leave") is True:
                corrections.leave_rest(room, values)
                return reply_of({"outcome": "left", "version": room.version})
            found = corrections.correct(room, values, device.name)
        found["version"] = room.version
        return reply_of(found)

    # What the scorer may do beside lines

    def new_key(self, request: Request, need: Callable[[], None]) -> Reply:
        """A new link of a role. The scorer who asks stays; a link that was lost is replaced with all its
        devices. `need` is 401 if the device was put out meanwhile."""
        values = request.values()
        role = str(values.get("role", "")).upper()
        if role not in ROLES:
            raise Wrong(400)
        link = self.link(role, values.get("stay") is not True, need)
        return reply_of({"link": link, "code": qr.code(link)})

    def link(self, role: str, are_devices_out: bool = True, need: Callable[[], None] = lambda: None) -> str:
        """A new link of a role, which is shown once."""
        return self.address_with(role, self.gate.new_key(role, are_devices_out, need))

    def link_for_one(self, role: str) -> str:
        """A link by which one device of a role comes in; the link of all others goes on."""
        return self.address_with(role, self.gate.key_for_one(role))

    def address_with(self, role: str, secret: str) -> str:
        return f"{self.office.address}office/in#{role.lower()}.{secret}"

    def open(self, request: Request, need: Callable[[], None], room: Room) -> Reply:
        """Opens an office. What is asked before is answered beforehand, or comes back."""
        office = self.office.classes[room.folder.name].office
        is_open = office.open(asked_of(request), need=need)
        return reply_of({"open": is_open, "said": office.words()})

    def close(self, request: Request, need: Callable[[], None], room: Room) -> Reply:
        request.values()
        office = self.office.classes[room.folder.name].office
        is_ours = office.close(need=need)
        return reply_of({"said": office.words(), "open": not is_ours and office.is_there()})

    def reopen(self, request: Request, need: Callable[[], None], room: Room) -> Reply:
        """Closes an office and opens it with the settings as they are now. What is asked before is answered by
        yes beforehand, or comes back."""
        office = self.office.classes[room.folder.name].office
        is_open = office.open_again_with_settings(asked_of(request), need)
        return reply_of({"open": is_open, "said": office.words()})

    def rules(self, room: Room) -> Reply:
        """The settings of a class, and whether its office goes by them."""
        return reply_of(series_settings.settings_kept(room.folder, self.office.classes[room.folder.name].office))

    @staticmethod
    def list_shown(room: Room) -> Reply:
        """Which of the names of a boat the entry list has columns for."""
        return reply_of(boat_names.list_shown(room.folder))

    def name_boat(self, request: Request, device: Device, room: Room) -> Reply:
        """Puts the names of a boat that is entered into the entry list."""
        with self.turn(room, device):
            session = room.session("SCORER")
            session.look()
            is_another = boat_names.name_boat(room.folder, room.facts, request.values(), device.name)
            session.look()
        if request.values().get("rating"):
            send_waiting(room, device.name, plain(boat_names.text_given(request.values(), "sail")))
        return reply_of({"changed": is_another, "version": room.version})

    def remove_boat(self, request: Request, device: Device, one: Class) -> Reply:
        """Takes a boat that was entered by mistake out of the journal. What goes is asked before. Entries get other
        numbers then, so that what came of each tap is noted while they have their own."""
        sail = plain(boat_names.text_given(request.values(), "sail"))
        one.room.settle()
        self.gate.need(device)
        copy = one.office.take_out(sail, device.name, asked_of(request), functools.partial(self.gate.need, device))
        one.room.news()
        return reply_of({"copy": copy, "open": one.office.is_there(), "said": one.office.words()})

    @staticmethod
    def sheet(room: Room, race: str) -> Reply:
        """The sheet of times of a race."""
        return reply_of(times_sheet.sheet_shown(room.folder, room.facts, race))

    def save_sheet(self, request: Request, device: Device, room: Room) -> Reply:
        """Changes the sheet of times of a race. The tap TIMES sends the lines that follow from it."""
        with self.turn(room, device):
            found = times_sheet.save_sheet(room.folder, room.facts, request.values())
        room.news()
        return reply_of(found)

    @staticmethod
    def rules_effect(request: Request, room: Room) -> Reply:
        """What other settings would do."""
        return reply_of(series_settings.effect(room.folder, room.facts, request.values()))

    def save(self, request: Request, device: Device, room: Room) -> Reply:
        """Saves settings, if they are still as they were shown."""
        with self.turn(room, device):
            series_settings.save(room.folder, room.facts, request.values(), device.name)
        room.news()
        return self.rules(room)

    def choose_second(self, request: Request, device: Device, one: Class) -> Reply:
        """Makes a stick the second folder of a class, or none."""
        with self.turn(one.room, device):
            sticks.choose(one.room.folder, one.office, request.values(), device.name)
        one.results.copies.look_again()
        return reply_of(one.results.shown())

    def declare(self, request: Request, device: Device, one: Class) -> Reply:
        """Declares the results provisional, final or amended, or says what is asked before."""
        try:
            with self.turn(one.room, device):
                return reply_of(one.results.declare(device.name, request.values()))
        except Unasked as asked:
            return reply_of(asked.values, 409)

    def make(self, request: Request, need: Callable[[], None]) -> Reply:
        """Makes a series from a list and settings, and opens its office; not while the web ends."""
        self.office.need_open()
        return self.serve(new_series.folder_made(self.office.parent, request.values()), need)

    def serve(self, path: str, need: Callable[[], None]) -> Reply:
        """Serves one more class, if it isn't served already, and opens its office. If something is asked before, it stays
        closed until the scorer opens it."""
        found = self.office.classes.get(os.path.basename(path))
        is_here = found and os.path.samefile(found.room.folder.path, path)
        office = (found if found and is_here else self.office.add(Folder(path))).office
        is_open = False
        try:
            is_open = office.open(ask_later, need=need)
        except Asked:
            office.say(remark("office-waits"))
        return reply_of({"class": os.path.basename(path), "open": is_open, "said": office.words()})


def static_files(top: str = STATIC) -> dict[str, tuple[str, bytes]]:
    """The pages, styles, scripts and texts, with their kinds. No part of a request reaches the file system."""
    found = {}
    for folder, _, names in os.walk(top):
        for name in names:
            path = os.path.join(folder, name)
            if kind := KINDS.get(os.path.splitext(name)[1]):
                with open(path, "rb") as file:
                    data = file.read()
                found[os.path.relpath(path, top).replace(os.sep, "/")] = kind, shorter(kind, data)
    return found | {"worker.js": (KINDS[".js"], worker_of(found))}


def worker_of(files: dict[str, tuple[str, bytes]]) -> bytes:
    """The worker of these files: it is another one if any of them is, and keeps these and no others."""
    tags, worker = {name: tag_of(data) for name, (_, data) in sorted(files.items())}, files["worker.js"][1]
    kept = {f"/office/static/{name}": tag for name, tag in tags.items() if f'"{name}"'.encode() in worker}
    release = json.dumps({"name": tag_of(json.dumps(tags).encode()), "tags": {"/office/finish/": tags["finish.html"], **kept}})
    return worker.replace(b'{name: "", tags: {}}', release.encode())


def shorter(kind: str, data: bytes) -> bytes:
    """A script or a style without its comments, and scripts, styles and texts without the space before their lines, and styles
    without some of the others: phones load them over weak lines."""
    if kind not in (KINDS[".js"], KINDS[".css"], JSON):
        return data
    if kind == KINDS[".css"]:
        data = re.sub(rb"/\*.*?\*/", b"", data, flags=re.DOTALL)
        # Spaces after a colon and before a brace, and the last semicolon of a rule
        data = re.sub(rb"(?<=:) | (?={)|; (?=})", b"", data)
    lines = [line.strip() for line in data.splitlines()]
    return b"\n".join(line for line in lines if line and not line.startswith(b"//")) + b"\n"


def send_waiting(room: Room, by: str, sail: str) -> None:
    """Sends the times that have waited for a boat's rating. What can't be sent, or has to be asked, goes on waiting: the
    scorer's page shows it."""
    for race in races_waiting(room.folder, room.facts, sail):
        with contextlib.suppress(Trouble, NotSent, Asked):
            room.do("SCORER", by, Tap(secrets.token_hex(16), f"TIMES {race}", now()))


def of_text(request: Request, text: Text) -> Reply:
    """A text of the board, packed already, with its own policy."""
    is_packed = request.takes_gzip
    tag = f'"{text.tag}{"-z" if is_packed else ""}"'
    fields = {"ETag": tag, "Cache-Control": "no-cache", "Vary": "Accept-Encoding",
              "Content-Security-Policy": text.policy, "X-News": "/live?page="}
    if tag in request.fields.get("if-none-match", ""):
        return Reply(304, text.kind, b"", fields, True)
    if is_packed:
        fields["Content-Encoding"] = "gzip"
    return Reply(200, text.kind, text.packed if is_packed else text.plain, fields, True)


def tap_of(values: dict[str, Any]) -> Tap:
    try:
        return need_clock(Tap.read(values))
    except NoTap:
        raise Wrong(400, "this isn't a tap") from None


def ask_of_series(room: Room, tap: Tap) -> None:
    """Asks about a tap for another series of this name, which a device has held since."""
    asked = question("another-series", str, line=tap.line, title=room.folder.settings.title)
    if tap.series and room.identity and tap.series != room.identity and asked not in tap.agreed:
        raise Asked(asked, [])


def ask_of_unsent(room: Room, tap: Tap, holding: list[str]) -> None:
    """Asks before a race is to count while devices hold taps, which may be of that race: she who was tapped would be DNC. So it
    does before a race by corrected time is abandoned, whose places are kept on devices."""
    first, *rest = tap.line.split()
    number = race_number(rest[0]) if len(rest) == 1 else 0
    race, command = room.facts.series.races.get(number), COMMANDS.get(first, first)
    is_scored = command == "SCORE" and race is not None and not race.counts
    if not holding or not (is_scored or number and command == "ABANDON" and room.folder.settings.handicap):
        return
    asked = question("score-unsent", str, race=number, devices=holding) if is_scored else \
        question("abandon-unsent", str, race=number, devices=holding)
    if asked not in tap.agreed:
        raise Asked(asked, [])


def is_idle(done: Values) -> bool:
    """Whether a tap was refused, or there was nothing to do for it: the register grows, and no journal does."""
    return done["outcome"] == "refused" or done["outcome"] == "noted" and str(done["line"]).startswith(("ABANDON ", "UNDO"))


def agreed_of(request: Request, name: str = "agreed") -> tuple[Question, ...]:
    """The questions that were answered by yes; those that were `denied`, by no."""
    try:
        return agreed_in(request.values(), name=name)
    except NoTap:
        raise Wrong(400, f"{name} isn't a list of questions") from None


def asked_of(request: Request) -> Callable[[Question], bool]:
    """What asks: a question that was answered by yes or by no has its answer, and any other comes back."""
    agreed, denied = agreed_of(request), agreed_of(request, "denied")

    def ask(question: Question) -> bool:
        if question in denied:
            return False
        if question not in agreed:
            raise Asked(question, [])
        return True

    return ask


def ask_later(question: Question) -> bool:
    """Answers nothing: an office may be opened after a no, too."""
    raise Asked(question, [])


def check_command(line: str, role: str) -> None:
    """Only lines of the role's own kinds reach a session: no ROLE, SHOW or QUIT."""
    first, *rest = line.split() or [""]
    command = COMMANDS.get(first, first)
    if rest and rest[-1] in COMMANDS and first not in FIRST:
        # A boat, and then her code
        command = COMMANDS[rest[-1]]
    own = OWN | ({"START", "TIMES"} if "FINISH" in MAY[role] else set())
    if command not in MAY[role] | own and "?" not in command:
        raise NotSent(remark("role-line", written=first) if first else remark("no-words"))


def now() -> int:
    """Milliseconds since 1970."""
    return int(time.time() * 1000)
