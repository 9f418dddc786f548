"""Shows the results of one or more series, to phones in the same network and as files.

    raceoffice board FOLDER [FOLDER ...] [--http [PORT] [--address ADDRESS]] [--page OUT] [--once]

The results are those of the open office, or else of journal.txt. An office is asked as often as
series.ini says, however many phones look. The board only reads: nothing that a phone
sends reaches an office or a file. If office or board dies, its pages turn red within a minute.

A computer in two networks answers in both; with --address, or `address` in series.ini, in that one alone.
For a club's site upload the folder of --page. Pages of --once say when they were made, and never turn red. A
race that was taken away goes from the folder: take it from the site, too.

To stop the board by Ctrl-C is its usual end, with status 0. With --once the status is 1 if a page couldn't be
brought up to date, and otherwise 0.

    raceoffice board cup --http 8080
    raceoffice board cup fleet --page out --once
"""
from __future__ import annotations

import argparse
import functools
import os
import shutil
import signal
import subprocess
import sys
import time
from collections.abc import Callable
from typing import Optional

from raceoffice import system
from raceoffice.errors import Trouble
from raceoffice.exit_status import status_of
from raceoffice.remarks import remark
from raceoffice.results.http_answers import Board, addresses
from raceoffice.results.publish import Files, Site, served
from raceoffice.results.server import Listener
from raceoffice.results.source import ResultsSource, need_own_names
from raceoffice.series.folder import clock
from raceoffice.series.settings import is_address, is_between
from raceoffice.side_by_side import SideBySide
from raceoffice.terminal import Once, say, say_if_heard, say_what_waits, sentence
from raceoffice.traces import WRITTEN, guarded, written
from raceoffice.wording import count

# Seconds between two looks at whether an office is being closed: then the board leaves it.
TICK = 0.5
# Seconds that a series has for a look, or its files to be written, before the others go on without it, and after which it
# doesn't answer; and those that each has if all is written once.
PATIENCE, AWAY, LONG = 3.0, 10.0, 60.0
# Seconds that a terminal has to take what is said last.
LAST = 2.0


class Shown:
    """The series that are shown, where they are shown, and what was said of them last."""

    def __init__(self, sources: list[ResultsSource], files: list[Files], board: Board | None,
                 is_once: bool = False) -> None:
        self.sources, self.files, self.board, self.is_once = sources, files, board, is_once
        self.site = Site(sources)
        # A series whose folder hangs, as on a drive that died, holds up no other, nor do its files.
        patience, self.away = (LONG, 0.0) if is_once else (PATIENCE, AWAY)
        self.looks, self.writes = SideBySide[Optional[str]](patience), SideBySide[str](patience)
        self.width = max(len(source.name) for source in sources)
        self.once = Once()

    def tell(self, about: str, text: str, stamp: str) -> None:
        """Says a thing when it is new, and not again until it has changed. Once it is shown, the board goes
        on if nobody hears it."""
        if self.once.is_new(about, text):
            if stamp:
                say_if_heard(f"{stamp}{text}")
            else:
                say(text)

    def look(self, stamp: str = "") -> bool:
        """Looks at the series whose time has come, shows what was found and then says what has changed; whether all
        went well."""
        asked = {source.folder.name: functools.partial(looked_at, source) for source in self.sources}
        fresh = self.looks.answers(asked)
        # What comes late is of a look whose time had come.
        found = fresh | self.looks.late_answers()
        troubles = {source: self.trouble_now(source, found.get(source.folder.name)) for source in self.sources}
        looked = {source: trouble for source, trouble in troubles.items() if trouble is not None}
        if not looked:
            return True
        well = self.publish() and not any(looked.values())
        for source, trouble in looked.items():
            said = said_of(source, trouble, self.width, bool(stamp), self.is_once)
            self.tell(source.folder.name, said, stamp)
            for about, text in source.notes.items():
                self.tell(f"{source.folder.name} {about}", text and
                          f"{source.name}: {sentence(text)}", stamp)
        return well

    def trouble_now(self, source: ResultsSource, found: str | None) -> str | None:
        """Why the page of a series stays as it was, or nothing; None if its time hasn't come. The office of a folder that
        doesn't answer is away."""
        if not self.looks.is_late(source.folder.name, self.away):
            return found
        source.office = "away"
        return sentence(remark("folder-silent", path=source.folder.path))

    def publish(self) -> bool:
        """Shows what was found, to phones and in files; whether all files were written."""
        shows = [self.put, *(files.write for files in self.files)]
        asked = {str(at): functools.partial(shown, self.sources[0].folder.path, show) for at, show in enumerate(shows)}
        late = self.writes.late_answers()
        wrong = [text for text in [*late.values(), *self.writes.answers(asked).values()] if text]
        wrong += [sentence(remark("folder-silent", path=files.folder)) for at, files in enumerate(self.files, 1)
                  if self.writes.is_late(str(at), self.away)]
        self.tell("files", f"Not all pages were written: {' '.join(wrong)}" if wrong else "", f"{clock()} ")
        return not wrong

    def put(self) -> None:
        """Gives the pages to the server of the phones, if there is one."""
        if self.board is not None:
            self.board.put(served(self.site.texts()))

    def leave(self) -> None:
        """Leaves the offices. None is waited for whose folder hangs."""
        SideBySide[None]().answers({source.folder.name: source.leave for source in self.sources
                                    if not self.looks.is_late(source.folder.name)})


def note(folder: str, trace: str) -> None:
    """Notes what went wrong in answering a phone, and says so, once for each trace."""
    if trace not in WRITTEN:
        path = written(folder, trace)
        where = f"Its trace is in {path}." if path else "Its trace couldn't be written."
        say_if_heard(f"{clock()} Beware: a phone wasn't answered, by a fault of raceoffice. {where}")


def shown(folder: str, show: Callable[[], None]) -> str:
    """Shows what was found; what is wrong, or nothing. A fault leaves its trace in the folder."""
    try:
        with guarded(folder):
            show()
    except Trouble as trouble:
        return sentence(trouble)
    return ""


def looked_at(source: ResultsSource) -> str | None:
    """Leaves an office that is being closed, and looks at a series if its time has come; as of `trouble_of`, or None."""
    if source.folder.is_closing():
        source.leave()
    return trouble_of(source) if time.monotonic() >= source.due else None


def trouble_of(source: ResultsSource) -> str:
    """Looks at one series; why its page stays as it was, or nothing."""
    source.due = time.monotonic() + source.settings.every
    try:
        with guarded(source.folder.path):
            source.look()
    except Trouble as trouble:
        return sentence(trouble)
    return ""


def said_of(source: ResultsSource, trouble: str, width: int, is_later: bool, is_once: bool) -> str:
    """What is shown of a series, from where and how often."""
    view = source.view
    name = f"{source.name}: " if is_later else f"{source.name:<{width}}  "
    if trouble:
        red = view is not None and view.settings.state == "provisional" and not is_once
        after = " The page says so in red." if red else "" if view else " There is no page yet."
        return f"{name}{trouble}{after}"
    often = "once" if is_once else f"every {count(source.settings.every, 'second')}"
    # A look that has come late may have ended just as its folder was given up.
    where = {"open": f"from the office, {often}", "journal": "from journal.txt, no office is open",
             "away": "the office is away"}[source.office]
    if is_later:
        return f"{name}{where}."
    assert view is not None
    return (f"{name}{count(len(view.standing.rows), 'boat')}, "
            f"{count(len(view.standing.races), 'race')}, {view.settings.state}: {where}")


def port(text: str) -> int:
    if not is_between(1, 65535)(text):
        raise argparse.ArgumentTypeError(
            f"{text!r} is no port from 1 to 65535. Put the folders before --http")
    return int(text)


def address(text: str) -> str:
    if not is_address(text):
        raise argparse.ArgumentTypeError(f"{text!r} is no address of a computer, as 192.168.1.20")
    return text


def arguments(parser: argparse.ArgumentParser) -> None:
    parser.add_argument("folder", nargs="+", help="the folder of a series")
    parser.add_argument("--http", nargs="?", type=port, const=0, metavar="PORT",
                        help="show them to phones, at this port or at that of series.ini")
    parser.add_argument("--address", type=address,
                        help="show them at this address of this computer alone")
    parser.add_argument("--page", metavar="OUT", help="write the pages into this folder")
    parser.add_argument("--once", action="store_true", help="write the pages once, and end")
    parser.set_defaults(complain=parser.error)


def refuse_options(asked: argparse.Namespace) -> None:
    """Ends the command if options don't go together."""
    if asked.once and asked.http is not None:
        asked.complain("--once writes files: it goes with --page, and not with --http")
    if asked.address and asked.http is None:
        asked.complain("--address is for phones: it goes with --http")


def sources_of(folders: list[str]) -> list[ResultsSource]:
    """The series, whose folders have to have different names: they are addresses."""
    found = list(map(ResultsSource, folders))
    names = [source.folder.name for source in found]
    for name in names:
        if name in ("index.html", "now.json"):
            raise Trouble(f"a page is called {name}, too: give that folder another name")
    need_own_names(names)
    return found


def files_of(asked: argparse.Namespace, sources: list[ResultsSource]) -> list[Files]:
    """Where pages are written: one folder for all, or that which each series.ini names. Several may name one: its first page
    is their list."""
    if asked.page:
        return [Files(asked.page, Site(sources, asked.once))]
    found: dict[str, list[ResultsSource]] = {}
    for source in sources:
        if source.settings.page:
            found.setdefault(os.path.realpath(source.folder.file(source.settings.page)), []).append(source)
    return [Files(folder, Site(several, asked.once)) for folder, several in found.items()]


def say_address(own: str, number: int) -> None:
    """Says what phones open, with a code for their cameras if qrencode is installed."""
    first, *others = [f"http://{text}:{number}/" for text in ([own] if own else addresses())]
    say(f"Phones open   {first}" + (f"   (or {', '.join(others)})" if others else ""))
    if sys.stdout.isatty() and shutil.which("qrencode"):
        subprocess.run(["qrencode", "-t", "UTF8", "-m", "2", first], check=False)
    say("They must be on the same Wi-Fi as this computer. Guest networks often keep devices apart:\n"
        "try one phone before you post the address.")


def show(asked: argparse.Namespace) -> int:
    """Shows the series until somebody stops it, or once; the status."""
    sources = sources_of(asked.folder)
    files = files_of(asked, sources)
    if asked.http is None and not files:
        raise Trouble("nothing is shown: add --http for phones, or --page OUT for files")
    board = None if asked.http is None else Board()
    first = sources[0].settings
    own, number = asked.address or first.address, asked.http or first.port
    server = None
    if board is not None:
        noted = functools.partial(note, sources[0].folder.path)
        server = Listener(own or "0.0.0.0", number, board, noted)
    all_shown, is_shown = Shown(sources, files, board, asked.once), False
    try:
        well = all_shown.look()
        is_shown = True
        if server:
            server.start()
            say_address(own, number)
        for place in files if well or not asked.once else []:
            say(f"Pages are in  {place.folder}")
        if asked.once:
            return 0 if well else 1
        while True:
            time.sleep(TICK)
            say_what_waits()
            all_shown.look(f"{clock()} ")
    except Stopped:
        if not is_shown or asked.once:
            raise
        say_if_heard("\nStopped. Pages that are provisional turn red in a minute.")
        say_what_waits(LAST)
        return 0
    finally:
        all_shown.leave()


class Stopped(BaseException):
    """A signal came that ends the board; its argument is the signal's number."""


def stop(number: int, _frame: object) -> None:
    raise Stopped(number)


def run(asked: argparse.Namespace) -> int:
    refuse_options(asked)
    for number in system.STOPS:
        signal.signal(number, stop)
    system.pass_over_quit()
    try:
        return status_of(lambda: show(asked), asked.folder[0])
    except Stopped as stopped:
        # What a shell says of a command that a signal has ended.
        return 128 + int(stopped.args[0])
