"""Who may write: a secret for each role, the devices that came with it, and what a request has to have.

The secrets are 128 bits long. Only their hashes are kept, in a file of this account alone: whoever reads it
can't come in by it. The program doesn't know of any of this: the web layer sends lines, or doesn't.
"""
from __future__ import annotations

import contextlib
import hmac
import itertools
import json
import os
import re
import secrets
import socket
import threading
import time
import unicodedata
from collections.abc import Callable, Collection, Iterable, Iterator, Sequence
from dataclasses import asdict, dataclass
from typing import Any

from raceoffice.characters import replaced
from raceoffice.errors import NotThere, Trouble
from raceoffice.files import read_whole, replace_whole
from raceoffice.results.http_answers import addresses
from raceoffice.web.own_clock import OwnClock, need_numbers
from raceoffice.web.rates import Rate
from raceoffice.web.requests import Request, Wrong, hashed

ROLES = ("FINISH", "JURY", "SCORER")
# The file of them, in office/ of the first series that is served.
DEVICES_FILE = "web.json"
# Seconds that a device stays known, and between two writings of when it was heard.
LONG, OFTEN = 14 * 86400, 60.0
# The most devices of a role, the longest name of one, and how many letters name one to the scorer.
DEVICES, NAME, MARK = 40, 30, 16
# Seconds after which a device that wasn't heard gives way to another if there are so many.
QUIET = 3600.0
# How many devices that were put out have their names still, and the number at the end of one.
OUT, NUMBER = 1000, re.compile(r" \([0-9]+\)$")
# The most bytes of the file.
LARGEST = 1 << 20


def same(one: str, other: str) -> bool:
    """Whether two texts are the same, in a time that doesn't tell where they differ."""
    return hmac.compare_digest(one.encode("utf-8", "replace"), other.encode("utf-8", "replace"))


@dataclass
class Device:
    """A browser that came by a link; `mark` is the hash of its cookie."""
    mark: str
    role: str
    name: str
    since: float
    heard: float
    unsent: int = 0
    address: str = ""


def device_of(values: dict[str, Any]) -> Device:
    """A device as the file has it; a TypeError if a part of it is of another type."""
    device = Device(**values)
    texts, numbers = (device.mark, device.role, device.name, device.address), (device.since, device.heard, device.unsent)
    if not all(isinstance(text, str) for text in texts):
        raise TypeError("a part of a device is of another type")
    need_numbers(numbers)
    return device


def plain_name(name: str) -> str:
    """The name of a device, on one line, without signs that would turn a line of the log, and without those that aren't
    seen: it would look like another's."""
    seen = replaced("".join(filter(str.isprintable, name)), lambda sign: "")
    return " ".join(unicodedata.normalize("NFC", seen).split())[:NAME].rstrip()


def numbered(name: str, end: str) -> str:
    """A name with a number at its end, as ` (2)`."""
    return name[:NAME - len(end)].rstrip() + end


def number_of(name: str) -> str:
    """The number at the end of a name; empty if it has none."""
    found = NUMBER.search(name)
    return found[0] if found else ""


class Gate:
    """The secrets and devices of an office, kept in a file; none if there is no series yet."""

    def __init__(self, path: str, hosts: Iterable[str] = (), is_secure: bool = False) -> None:
        self.path, self.is_secure, self.lock = path, is_secure, threading.RLock()
        own = socket.gethostname().lower()
        self.hosts = {*(host.lower() for host in hosts), *addresses(), "localhost", "127.0.0.1", "::1", own,
                      f"{own}.local"}
        self.keys: dict[str, str] = {}
        # Other secrets of roles, by each of which one device comes in. No file has them.
        self.once: dict[str, str] = {}
        self.devices: dict[str, Device] = {}
        # The names of the last devices that were put out, by their marks: each stays that of its device.
        self.out: dict[str, str] = {}
        # What its cookies are called by, beside its path: a copy of its folder is another office.
        self.naming = secrets.token_hex(8)
        self.clock = OwnClock()
        self.written, self.is_heard = time.monotonic(), False
        # Tries at a secret by address; lines and questions by device.
        self.entering, self.writing, self.asking = Rate(10, 0.2), Rate(60, 12), Rate(400, 60)
        # Devices that come by the link of a role: in hours it can't give them all the names of those that were put out.
        self.coming = Rate(60, 0.1)
        # Taps that are refused stay in the register: they are few.
        self.refused = Rate(100, 0.5)
        # Called when devices have been put out, and the devices that wait for news just now.
        self.told_out: Callable[[], None] = lambda: None
        self.watching: Callable[[], Collection[str]] = lambda: ()
        if path:
            self.read()

    # The file

    def read(self) -> None:
        """Reads the file. One that can't be read lets nobody in: there are new links then."""
        try:
            held: dict[str, Any] = json.loads(read_whole(self.path, LARGEST))
            self.keys = {role: str(held["keys"][role]) for role in ROLES if role in held["keys"]}
            self.devices = {mark: device_of(values) for mark, values in held["devices"].items()}
            # An older package hasn't written them.
            self.out = {mark: str(name) for mark, name in held.get("out", {}).items()}
            self.naming = str(held.get("naming", self.naming))
            if "clock" in held:
                self.clock.go_on(held["clock"])
        except NotThere:
            return
        except (ValueError, LookupError, TypeError, AttributeError, RecursionError):
            self.keys, self.devices, self.out = {}, {}, {}

    def write(self) -> None:
        """Replaces the file, which only this account may read."""
        self.written = time.monotonic()
        if not self.path:
            return
        held = {"keys": self.keys, "devices": {mark: asdict(device) for mark, device in self.devices.items()},
                "out": self.out, "naming": self.naming, "clock": self.clock.values()}
        replace_whole(self.path, json.dumps(held).encode())
        os.chmod(self.path, 0o600)

    @contextlib.contextmanager
    def changing(self) -> Iterator[None]:
        """While secrets or devices are changed. If the file can't be written, all is as it was."""
        with self.lock:
            held = dict(self.keys), dict(self.once), dict(self.devices), dict(self.out)
            try:
                yield
                self.write()
            except Trouble:
                self.keys, self.once, self.devices, self.out = held
                raise
            self.told_out()

    def move(self, path: str) -> None:
        """Keeps everything in another file from now on: that of the series that was just made."""
        with self.lock:
            self.path = path
            self.write()

    # Secrets and devices

    def new_key(self, role: str, are_devices_out: bool = True, need: Callable[[], None] = lambda: None) -> str:
        """A new secret for a role, which is shown once. The old one isn't valid any more, and its devices are
        put out, or stay. However many have come by the old one, those who have the new one come in at once. `need` raises what
        keeps it from being made once the gate is changed."""
        secret = secrets.token_urlsafe(16)
        with self.changing():
            need()
            self.keys[role] = hashed(secret)
            self.once.pop(role, None)
            if are_devices_out:
                self.put_out([mark for mark, device in self.devices.items() if device.role == role])
        self.coming.forget(role)
        return secret

    def key_for_one(self, role: str) -> str:
        """A secret beside that of a role's link, which goes on: one device comes in by it, and then nobody."""
        secret = secrets.token_urlsafe(16)
        with self.lock:
            self.once[role] = hashed(secret)
        return secret

    def put_out(self, marks: Iterable[str]) -> None:
        """Puts devices out. Taps are known to be of one device by its name, so nobody else is called so soon."""
        self.out |= {mark: self.devices.pop(mark).name for mark in marks}
        self.out = dict([*self.out.items()][-OUT:])

    def revoke(self, mark: str, ends_link: bool = True, need: Callable[[], None] = lambda: None) -> None:
        """Puts one device out; `mark` is the beginning of its own. A phone that was lost may have the link of its role still:
        that ends, too. `need` raises what keeps it from being done once the gate is changed."""
        if len(mark) < MARK:
            return
        with self.changing():
            need()
            found = [device for key, device in self.devices.items() if key.startswith(mark)]
            self.put_out([device.mark for device in found])
            for device in found if ends_link else ():
                self.keys.pop(device.role, None)
                self.once.pop(device.role, None)

    def enter(self, request: Request, role: str, secret: str, name: str) -> tuple[str, str]:
        """The cookie of a device that shows the secret of a role, and its name. If another has that already it gets a
        number, so that a name is that of one device."""
        cookie, cookie_name, now = secrets.token_urlsafe(32), self.cookie_name(role), self.clock.now()
        with self.changing():
            is_link, is_for_one = (same(keys.get(role, ""), hashed(secret)) for keys in (self.keys, self.once))
            if not (is_link or is_for_one):
                # Whoever has the link comes in, however many try others from the same address.
                self.entering.take(request.address)
                raise Wrong(403, "this link isn't valid any more: ask for a new one", "link-ended")
            self.coming.take(role)
            if before := self.known(request, role):
                # It comes again.
                self.devices.pop(before.mark, None)
            self.make_room(role)
            own = [mark for _, mark in request.cookies(role)]
            device = Device(hashed(cookie), role, self.free_name(plain_name(name) or role.lower(), own), now, now, 0,
                            request.address)
            self.devices[device.mark] = device
            self.out = {mark: name for mark, name in self.out.items() if mark not in own}
            if is_for_one:
                del self.once[role]
        secure = "; Secure" if self.is_secure else ""
        return (f"{cookie_name}={cookie}; Path=/office/{role.lower()}; Max-Age={LONG}; HttpOnly; "
                f"SameSite=Strict{secure}"), device.name

    def cookie_name(self, role: str) -> str:
        """What the cookies of a role are called. A browser has one of a name for all ports of a computer: so each office's are
        called otherwise, and a device that comes again, also by a new link, has no more of them than before."""
        return f"office-{role.lower()}-{hashed(f'{self.naming} {os.path.realpath(self.path)}')[:8]}"

    def make_room(self, role: str) -> None:
        """Puts a device of a role out if there are as many as there may be: the one that was heard last, an hour ago or
        more. A link that has got about puts out no device that is used."""
        of_role = [device for device in self.devices.values() if device.role == role]
        if len(of_role) < DEVICES:
            return
        now, watching = self.clock.now(), set(self.watching())
        quiet = [device for device in of_role
                 if now - device.heard >= QUIET and device.mark not in watching and not device.unsent]
        if not quiet:
            raise Wrong(403, "this role has as many devices as it may have: the scorer can put some out", "devices-full")
        self.put_out([min(quiet, key=lambda device: device.heard).mark])

    def free_name(self, name: str, own: Sequence[str] = ()) -> str:
        """A name that no other device has, as `iPhone (2)`. One that comes again after it was put out, by a mark of its `own`,
        has the number that it had."""
        taken = {device.name.casefold() for device in self.devices.values()}
        taken |= {held.casefold() for mark, held in self.out.items() if mark not in own}
        before = [held for mark in own if numbered(name, number_of(held := self.out.get(mark, ""))).casefold() == held.casefold()]
        free = itertools.chain(before, [name], (numbered(name, f" ({number})") for number in itertools.count(2)))
        return next(one for one in free if one.casefold() not in taken)

    def known(self, request: Request, role: str) -> Device | None:
        """The device of a role that a request comes from, if it is one."""
        return self.devices.get(hashed(self.cookie(request, role)))

    def cookie(self, request: Request, role: str) -> str:
        """The cookie by which a device of a role is known; empty if it isn't. Its browser may have others, of other
        offices on this computer."""
        return next((value for value, mark in request.cookies(role) if self.is_of_role(mark, role)), "")

    def is_of_role(self, mark: str, role: str) -> bool:
        device = self.devices.get(mark)
        return device is not None and device.role == role and self.lets_in(mark)

    def lets_in(self, mark: str) -> bool:
        """Whether a device is known, and hasn't been for too long, whatever the computer's clock was set to since."""
        device = self.devices.get(mark)
        return device is not None and self.clock.now() - device.since <= LONG

    def device(self, request: Request, role: str) -> Device:
        """The device that a request comes from; 401 if it isn't one of this role."""
        device = self.known(request, role)
        if device is None:
            raise unknown()
        device.heard, device.address = self.clock.now(), request.address
        unsent = request.fields.get("x-unsent", "")
        if unsent.isascii() and unsent.isdecimal():
            device.unsent = min(int(unsent[:6]), 9999)
        self.is_heard = True
        return device

    def need(self, device: Device) -> None:
        """401 if a device has been put out, as while its request waited."""
        if not self.lets_in(device.mark):
            raise unknown()

    def holding(self, but: str = "") -> list[str]:
        """The devices that said they hold taps which the office hasn't got, each with how many, as `Ann (2)`; without
        the one of that mark."""
        return [f"{device.name} ({device.unsent})" for device in list(self.devices.values())
                if device.unsent and device.mark != but and self.lets_in(device.mark)]

    @staticmethod
    def note_waiting(request: Request, device: Device) -> None:
        """A tap that its device didn't count, as it was on its way, waits there."""
        if "x-unsent" in request.fields:
            device.unsent += 1

    def is_to_be_noted(self) -> bool:
        """Whether it is time to write down when devices were heard."""
        return self.is_heard and time.monotonic() - self.written > OFTEN

    def note_heard(self) -> None:
        """Writes down when devices were heard. On a full disk that isn't known, and nothing else."""
        self.is_heard = False
        with self.lock, contextlib.suppress(Trouble):
            self.write()

    def token(self, request: Request, role: str) -> str:
        """What each writing request of a device has to carry: only its own pages can read it."""
        cookie = self.cookie(request, role)
        return hmac.new(cookie.encode("utf-8", "replace"), b"token", "sha256").hexdigest()[:32]

    # What a request has to have

    def check_host(self, request: Request) -> None:
        """A name that isn't this office's was made to lead here by somebody else (DNS rebinding)."""
        host = request.fields.get("host", "").lower()
        name, colon, port = host.rpartition(":")
        if not colon or not port.isdecimal():
            name = host
        if name.strip("[]") not in self.hosts:
            raise Wrong(421, "this office isn't called so: --name adds a name")

    def check_origin(self, request: Request) -> None:
        """Only this server's own pages may write."""
        scheme = "https" if self.is_secure else "http"
        own = f"{scheme}://{request.fields.get('host', '')}"
        is_own = request.fields.get("origin", "") == own
        if not is_own or request.fields.get("sec-fetch-site", "same-origin") != "same-origin":
            raise Wrong(403, "this request doesn't come from a page of the office")

    def check_write(self, request: Request, role: str) -> Device:
        """The device of a writing request that has all that it needs."""
        device = self.device(request, role)
        self.check_origin(request)
        if not same(request.fields.get("x-token", ""), self.token(request, role)):
            raise Wrong(403, "the page is out of date: load it again", "page-out-of-date")
        self.writing.take(device.mark)
        return device


def unknown() -> Wrong:
    return Wrong(401, "this device isn't known here: open the link of your role again")
