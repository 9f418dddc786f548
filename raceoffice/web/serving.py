"""The office in browsers, from its beginning to its end."""
from __future__ import annotations

import asyncio
import contextlib
import functools
import os
import signal
import ssl
import sys
import threading
import time
import webbrowser
from dataclasses import dataclass

from raceoffice import system
from raceoffice.errors import Served, Stopped, Trouble
from raceoffice.results.http_answers import addresses
from raceoffice.results.source import need_own_names
from raceoffice.series.folder import Folder, clock
from raceoffice.session.dialogue import Question
from raceoffice.side_by_side import answer_of
from raceoffice.terminal import question, say, say_if_heard
from raceoffice.traces import WRITTEN, guarded, written
from raceoffice.web import qr
from raceoffice.web.gate import ROLES
from raceoffice.web.hosting import Host, secure_with
from raceoffice.web.routes import Routes
from raceoffice.web.web_office import WebOffice, gate_of

# Seconds until the board's first pages are there, and between two looks for them; and for a browser to be started.
FIRST, TICK, STARTED = 10.0, 0.05, 5.0
# Seconds within which a second Ctrl-C closes an office to which devices may still write.
SURE = 10.0
READY = "Ctrl-C closes the office."
# What is added to the number of a signal that ends a command: so a shell has it.
ENDED = 128


@dataclass(frozen=True)
class Asked:
    """What a command line asks for. `new` are the roles that get a new link; `is_shown_here` opens the
    scorer's page in a browser of this computer. `own` is the one address of this computer where devices are answered; empty:
    that of the first folder's series.ini, or all."""
    folders: tuple[str, ...]
    port: int
    name: str
    certificate: str
    key: str
    new: tuple[str, ...]
    is_shown_here: bool = False
    own: str = ""


class Web:
    """The web of some series. What happens is said with the time, once it is open."""

    def __init__(self, asked: Asked) -> None:
        self.asked, self.is_ready, self.sure_until = asked, False, 0.0
        # The first signal that stops the web; 0 as long as none has come.
        self.stopped = 0
        folders = list(map(Folder, asked.folders))
        parent = os.path.dirname(os.path.abspath(folders[0].path)) if folders else os.getcwd()
        scheme = "https" if asked.certificate else "http"
        self.own = asked.own or (folders[0].settings.address if folders else "")
        gate = gate_of(folders, [name for name in (asked.name, self.own) if name], bool(asked.certificate))
        chosen = asked.name or self.own
        address = f"{scheme}://{chosen or addresses()[0]}:{asked.port}/"
        self.office = WebOffice(gate, parent, address, self.tell, to_come={folder.name for folder in folders},
                                follows=not chosen)
        self.folders = folders
        self.routes = Routes(self.office)

    def tell(self, text: str) -> None:
        """Says what happens: also at a terminal that has gone."""
        for line in text.splitlines():
            say_if_heard(f"{clock()} {line}" if self.is_ready else line)

    def note(self, trace: str) -> None:
        """Notes what went wrong in answering somebody, and says so, once for each trace."""
        if trace not in WRITTEN:
            path = written(self.folders[0].path if self.folders else "", trace)
            self.tell(f"Beware: a page wasn't answered, by a fault of raceoffice. Its trace is in {path}.")

    # Its beginning

    def open_all(self) -> None:
        """Opens the office of each class, one after another: what is asked is asked here. A class that can't be served
        keeps out no other. Once the web is stopped no more is opened."""
        need_own_names([folder.name for folder in self.folders])
        for folder in self.folders:
            if self.stopped:
                return
            if folder.name in self.office.classes:
                # A page has it served already.
                continue
            try:
                with guarded(folder.path, Stopped):
                    self.office.add(folder).office.open(self.is_yes)
            except Stopped:
                return
            except Trouble as why:
                # The first folder's file of devices is that of whoever serves it. Nothing is open yet.
                if len(self.folders) == 1 or isinstance(why, Served) and folder is self.folders[0]:
                    raise
                self.office.leave_out(folder, why)
        if self.folders and not self.office.classes:
            raise Trouble("no class can be served")

    def is_yes(self, asked: Question) -> bool:
        """Whether somebody at the terminal says yes. Enter alone is no, and so is a terminal that has gone. Whoever stops the
        web hasn't answered: an office may be opened after a no, too."""
        is_meant = False
        with contextlib.suppress(OSError):
            is_meant = not self.stopped and question(asked.text, is_over=lambda: self.stopped > 0)
        if self.stopped:
            raise Stopped
        return is_meant

    def links(self) -> dict[str, str]:
        """New links: of the roles that have none yet, and of those that were asked for."""
        wanted = [role for role in ROLES if role not in self.office.gate.keys
                  or role.lower() in self.asked.new]
        return {role: self.routes.link(role) for role in wanted}

    def say_links(self) -> None:
        """Says where the office is, and the links that were made."""
        say(f"Board, for all:   {self.office.address}")
        made = self.links()
        for role, link in made.items():
            say(f"{role.capitalize():<7}   {link}")
            if sys.stdout.isatty():
                print(qr.for_terminal(link))
        if made:
            say("Who has such a link can write. It is shown this once. --new ROLE makes another; the old one "
                "and its devices are out then.")
        if not self.asked.certificate:
            say("Plain HTTP: whoever is in this network and listens can read what devices send, also what lets "
                "them write. Use a Wi-Fi of your own with a password, or --certificate.")

    def secure(self) -> ssl.SSLContext | None:
        """What HTTPS needs, if it was asked for."""
        if not self.asked.certificate:
            return None
        try:
            return secure_with(self.asked.certificate, self.asked.key)
        except (OSError, ssl.SSLError) as cause:
            why = getattr(cause, "strerror", "") or cause
            raise Trouble(f"the certificate or its key can't be used: {why}") from None

    # Its life

    async def serve(self) -> int:
        """Serves until somebody stops it; the status."""
        secure = self.secure()
        loop, end = asyncio.get_running_loop(), asyncio.Event()
        loop.set_exception_handler(lambda _, context: None)
        # A program that is started from now on isn't left alone.
        for number in system.STOPS:
            loop.add_signal_handler(number, functools.partial(self.stop, end, number))
        host = Host(self.routes.answer, self.routes.room_for, self.note, self.routes.name_of)
        await host.start(self.own or "0.0.0.0", self.asked.port, secure)
        try:
            await loop.run_in_executor(None, self.open_all)
            if not self.stopped:
                await self.begin()
            if not self.stopped:
                await self.say_open()
                await end.wait()
            if self.is_ready or self.office.keeps_any():
                say_if_heard("\nClosing the office. Once more Ctrl-C doesn't wait for room on a full disk.")
        finally:
            await loop.run_in_executor(None, self.office.close)
            host.close()
        return 0 if self.is_ready else ENDED + self.stopped

    async def begin(self) -> None:
        """Begins with the board, and with the news of all pages."""
        self.office.news.start()
        self.office.board_news.start()
        threading.Thread(target=self.office.keep_board, daemon=True).start()
        await self.wait_for_board()

    async def say_open(self) -> None:
        """Says where the office is, and shows it if that was asked for."""
        self.say_links()
        if self.asked.is_shown_here:
            await self.show_here()
        say(READY)
        self.is_ready = True

    async def show_here(self) -> None:
        """Shows the scorer's page in a browser of this computer. All its accounts may see by which link that was started: one
        device comes in by it. Some browsers are shown in the terminal, and no connection waits until somebody has left one."""
        link = self.routes.link_for_one("SCORER")
        opening = asyncio.wrap_future(answer_of(functools.partial(webbrowser.open, link)))
        await asyncio.wait([opening], timeout=STARTED)

    def stop(self, end: asyncio.Event, number: int) -> None:
        """Ends the web, in order; a second signal hurries that. Ctrl-C is wanted twice while devices may write."""
        if end.is_set():
            self.office.hurry()
        elif self.is_ready and number == signal.SIGINT:
            # Who may write is asked of folders, one of which may hang: no connection waits for that.
            asking = asyncio.get_running_loop().run_in_executor(None, self.is_sure)
            # If that can't be told, it is closed all the same.
            asking.add_done_callback(lambda sure: self.end(end, number) if sure.exception() or sure.result() else None)
        else:
            self.end(end, number)

    def end(self, end: asyncio.Event, number: int) -> None:
        """Ends the web by a signal."""
        self.stopped = self.stopped or number
        end.set()

    def is_sure(self) -> bool:
        """Whether Ctrl-C closes the office; if not, who may still write and which places are kept is said, and a second one
        closes it."""
        if time.monotonic() < self.sure_until:
            return True
        writers, places = [*self.office.writers(), *self.office.windows()], self.office.places_kept()
        if not (writers or places):
            return True
        self.sure_until = time.monotonic() + SURE
        still = [f"These may still write: {', '.join(writers)}."] if writers else []
        self.tell("\n".join([*still, *places, f"Ctrl-C again within {SURE:.0f} seconds closes the office."]))
        return False

    async def wait_for_board(self) -> None:
        """Waits until the board has its first pages, for a while."""
        last = time.monotonic() + FIRST
        while self.folders and not (self.office.board.texts or self.stopped) and time.monotonic() < last:
            await asyncio.sleep(TICK)

    def run(self) -> int:
        system.pass_over_quit()
        return asyncio.run(self.serve())


def serve(asked: Asked) -> int:
    """Serves the office in browsers until somebody stops it; the status."""
    system.only_linux("an office")
    return Web(asked).run()
