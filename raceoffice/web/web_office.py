"""All that the web has: the classes with their offices, who may write, the board, and those who wait for news."""
from __future__ import annotations

import contextlib
import json
import re
import threading
from collections.abc import Callable
from dataclasses import dataclass, field

from raceoffice.characters import is_right_to_left
from raceoffice.errors import Fault, Trouble
from raceoffice.files import PRIVATE
from raceoffice.remarks import remark, system_remark
from raceoffice.results.http_answers import LOOPBACK, Board, addresses
from raceoffice.results.snapshot import folder_shown, in_brackets, looking_alike
from raceoffice.results.source import need_own_names
from raceoffice.series.folder import Folder
from raceoffice.series.unknown_finishers import places_by_race
from raceoffice.terminal import say_if_heard, sentence
from raceoffice.traces import guarded
from raceoffice.web.declarations import Declarations
from raceoffice.web.gate import DEVICES_FILE, Device, Gate
from raceoffice.web.hosting import Hub
from raceoffice.web.kept_office import KeptOffice
from raceoffice.web.live_board import TICK, LiveBoard
from raceoffice.web.page_news import PageNews
from raceoffice.web.room import Room
from raceoffice.side_by_side import SideBySide
from raceoffice.wording import count

# Seconds within which pages learn of several pieces of news together, and phones that look at the board.
AT_ONCE, SOON = 0.02, 0.4
# Seconds after which a device that hasn't been heard isn't expected to write.
RECENT = 3600
# What an office says with the time: `12:44:24 Closed.`
HAS_TIME = re.compile("[0-9]{2}:[0-9]{2}:[0-9]{2} ")


@dataclass
class Class:
    """One class: its room, its office, and what is declared of its results."""
    room: Room
    office: KeptOffice
    results: Declarations


@dataclass(frozen=True)
class LeftOut:
    """A class that can't be served: its folder, and why."""
    path: str
    said: tuple[str, ...]


@dataclass
class WebOffice:
    """The classes by the names of their folders. `address` is what devices open, and if it `follows` is that of this
    computer; `parent` is the folder in which a new series is made, `tell` hears what happens. The classes `to_come` are
    being opened, one after another."""
    gate: Gate
    parent: str
    address: str
    tell: Callable[[str], None]
    classes: dict[str, Class] = field(default_factory=dict)
    board: Board = field(default_factory=Board)
    live_board: LiveBoard | None = None
    is_ending: threading.Event = field(default_factory=threading.Event)
    to_come: set[str] = field(default_factory=set)
    follows: bool = False
    # The classes that can't be served, each with why.
    left_out: dict[str, LeftOut] = field(default_factory=dict)
    # The classes that were taken away, each with the thread that closes it: an office may stay until its journal is safe.
    taken_away: list[tuple[Class, threading.Thread]] = field(default_factory=list)

    def __post_init__(self) -> None:
        self.news, self.board_news = Hub(self.versions, AT_ONCE, self.gate.lets_in), PageNews(self.board, SOON)
        self.gate.told_out, self.gate.watching = self.news.put_out, self.news.names
        self.lock = threading.Lock()

    def versions(self) -> str:
        """The version of each class, for the pages of the office."""
        return json.dumps({name: one.room.version for name, one in self.classes.items()})

    def served(self) -> list[str]:
        """The classes that are served or are being opened, by their names."""
        return [*self.classes, *self.to_come]

    def add(self, folder: Folder) -> Class:
        """One more class. The first one's folder keeps who may write. A folder that hangs holds up nothing else."""
        self.need_place(folder.name)
        room = Room(folder, self.news.wake, self.address)
        try:
            # A version is never lower than before the web was started again, also if the clock was set back.
            room.version = max(room.version, int(self.gate.clock.now() * 1000))
            office = KeptOffice(folder, lambda text: self.tell_of(folder.name, text))
            found = Class(room, office, Declarations(room, office, self.gate.holding))
            with self.lock:
                self.need_place(folder.name)
                self.take_in(found)
        except BaseException:
            room.close()
            raise
        threading.Thread(target=room.watch, daemon=True).start()
        threading.Thread(target=self.watch_folder, args=(found,), daemon=True).start()
        self.news.wake()
        return found

    def need_place(self, name: str) -> None:
        """A Trouble if a class of this name is served, or if the web ends."""
        self.need_open()
        need_own_names([*self.classes, name])

    def need_open(self) -> None:
        """A Trouble if the web ends: nobody would close an office that is opened then."""
        if self.is_ending.is_set():
            raise Trouble(remark("office-closing"))

    def take_in(self, one: Class) -> None:
        """Serves one more class from now on."""
        folder = one.room.folder
        if not self.classes and not self.gate.path:
            self.gate.move(folder.file(PRIVATE, DEVICES_FILE))
        self.to_come.discard(folder.name)
        self.left_out.pop(folder.name, None)
        self.show({**self.classes, folder.name: one})

    def watch_folder(self, one: Class) -> None:
        """Takes a class away once its register isn't its own any more, and shows to the window of an office that devices may
        write. It has a thread for that: its folder may hang."""
        folder = one.room.folder
        while not one.room.is_ending.wait(TICK):
            with contextlib.suppress(Fault), guarded(folder.path):
                one.office.show_devices(bool(self.devices_now()))
                if one.room.register.is_another():
                    self.take_away(folder.name)
                    return

    def take_away(self, name: str) -> None:
        """Closes a class whose register isn't its own any more, as when its folder was put back while it is served: from
        then on it is left out. Until it is closed its taps wait."""
        one = self.classes[name]

        def close() -> None:
            self.close_one(one)
            self.leave_out(one.room.folder, Trouble(remark("taps-replaced", name=one.room.register.path)))
            self.news.wake()
        with self.lock:
            if self.is_ending.is_set():
                # It is being closed with all others.
                return
            thread = threading.Thread(target=close, daemon=True)
            self.taken_away.append((one, thread))
            self.to_come.add(name)
            self.show({other: held for other, held in self.classes.items() if other != name})
            thread.start()

    def show(self, classes: dict[str, Class]) -> None:
        """Serves these classes from now on, with their board."""
        self.classes = classes
        rooms = [one.room for one in classes.values()]
        old, self.live_board = self.live_board, LiveBoard(rooms, self.board, self.board_news.wake, self.tell)
        if old:
            old.leave()

    def leave_out(self, folder: Folder, why: Trouble) -> None:
        """Goes on without a class, unless it is served by now. The scorer's page says why, and opens it once that is put
        right."""
        if folder.name in self.classes:
            return
        self.left_out[folder.name] = LeftOut(folder.path, why.said)
        self.to_come.discard(folder.name)
        self.tell(f"Beware: {folder.name} isn't served. {sentence(why)} Put that right, and open it on the scorer's page.")

    def add_again(self, name: str) -> None:
        """Serves a class that was left out, unless it is served by now; a Trouble says why it still can't be."""
        held = self.left_out.get(name)
        if held and name not in self.classes:
            self.add(Folder(held.path))

    def tell_of(self, name: str, text: str) -> None:
        """What an office says, with the class before each line. Some of its lines have the time already."""
        for line in text.splitlines():
            if HAS_TIME.match(line):
                say_if_heard(f"{name}: {line}")
            else:
                self.tell(f"{name}: {line}")

    def keep_board(self) -> None:
        """Keeps the board up to date until the end, and notes when devices were heard: in the first class's folder, which may
        hang, too."""
        devices = SideBySide[None]()
        while not self.is_ending.wait(TICK):
            folder = next((one.room.folder.path for one in self.classes.values()), "")
            # A fault leaves a trace, and the next round comes all the same.
            with contextlib.suppress(Fault), guarded(folder):
                if self.live_board:
                    self.live_board.round()
                if self.gate.is_to_be_noted():
                    devices.answers({DEVICES_FILE: self.gate.note_heard})
                self.follow_address()

    def follow_address(self) -> None:
        """Answers at another address that a network has given to this computer meanwhile, and says so: what devices have by
        the old one stays there. Without a network the old one may come back."""
        found = [text for text in addresses() if text != LOOPBACK]
        self.gate.hosts.update(found)
        scheme, host, port = self.address.split(":")
        if self.follows and found and host[2:] not in found:
            self.address = f"{scheme}://{found[0]}:{port}"
            self.tell(f"Beware: this computer has another address now, and the office is at {self.address}. Devices need new "
                      "links. See first which taps wait on their old pages: those stay there.")

    def keeps_any(self) -> bool:
        """Whether this process keeps an office."""
        return any(one.office.keeping for one in self.classes.values())

    def groups(self) -> dict[str, str]:
        """What each class is called on pages. One that looks as another does has its folder's name with it, as on the board."""
        found, named = {name: one.room.folder.settings.group or name for name, one in self.classes.items()}, set[str]()
        while alike := {[*found][at] for at in looking_alike([*found.values()], {})} - named:
            found |= {name: found[name] + in_brackets(folder_shown(name), is_right_to_left(found[name])) for name in alike}
            named |= alike
        return found

    def writers(self) -> list[str]:
        """The devices that may still write to an office that this process keeps or has joined, with their roles. Nobody writes
        to one that is being closed."""
        if not any(one.office.takes_lines() or one.office.keeping is None and not one.room.trouble for one in self.classes.values()):
            return []
        return [f"{device.name} ({device.role.lower()}{taps_held(device.unsent)})" for device in self.devices_now()]

    def devices_now(self) -> list[Device]:
        """The devices that may write: those that were heard in the last hour, or hold taps."""
        return [device for device in list(self.gate.devices.values())
                if device.heard > self.gate.clock.now() - RECENT or device.unsent and self.gate.lets_in(device.mark)]

    def windows(self) -> list[str]:
        """The windows in which somebody may still type for an office that this process keeps."""
        asked = {name: one.room.folder.windows_to_type for name, one in self.classes.items() if one.office.takes_lines()}
        return [window for found in SideBySide[list[str]]().answers(asked).values() for window in found]

    def places_kept(self) -> list[str]:
        """The places of finishers without a sail in each office that this process keeps and isn't closing, as sentences."""
        kept = [(name, one.room.history.waiting.all) for name, one in self.classes.items() if one.office.takes_lines()]
        return [f"{name}: {remark('places-kept', places=places_by_race(waiting))}" for name, waiting in kept if waiting]

    def close(self) -> None:
        """Closes the offices that this process keeps, side by side, and leaves the others."""
        with self.lock:
            self.is_ending.set()
            closing = [threading.Thread(target=self.close_one, args=(one,)) for one in self.classes.values()]
        for thread in closing:
            thread.start()
        for thread in [*closing, *(thread for _, thread in self.taken_away)]:
            thread.join()
        if self.live_board:
            self.live_board.leave()

    def close_one(self, one: Class) -> None:
        if not one.office.end() and one.office.is_there():
            self.tell(f"{one.room.folder.name}: The office stays open, as it was before.")
        one.results.close()
        one.room.close()
        one.office.show_devices(False)

    def hurry(self) -> None:
        """From now on nobody waits for room on a full disk."""
        for one in [*self.classes.values(), *(one for one, _ in self.taken_away)]:
            one.office.is_hurried = True


def gate_of(folders: list[Folder], names: list[str], is_secure: bool) -> Gate:
    """Who may write, as the first folder's file has it. `names` are names of this computer, beside those that it has itself.
    What is wrong with another folder is said when its class is opened."""
    for folder in folders[:1]:
        folder.make_private()
    try:
        path = folders[0].file(PRIVATE, DEVICES_FILE) if folders else ""
        return Gate(path, names, is_secure)
    except OSError as cause:
        raise Trouble(remark("file-unused", name="office/web.json", why=system_remark(cause))) from None


def taps_held(number: int) -> str:
    """How many taps a device holds, after its role; nothing if it holds none."""
    return f", {count(number, 'tap')} not sent yet" if number else ""
