"""Opens the office of a series, and is its window until Ctrl-C closes it.

    raceoffice open FOLDER

It says in words whatever is wrong before it opens anything. The program then serves the series and keeps
its journal (journal.txt): each entry is on the disk before it is answered. This window copies the journal,
to a second folder if series.ini names one, and each hour to kept/. If its window has gone, an office that
is still open is taken over.

The journal has to go on from the newest copy in kept/ and from the end that was noted at the last closing, and the
copy in the second folder mustn't go on beyond it. Otherwise this says how many entries differ and which is the first,
and asks. So an older file or folder, an edited line and a damaged disk are seen. docs/KEEPING.md says what to do then.

The status is 0 after the office was closed, 1 if something was refused or the program ended by itself, and
130 after Ctrl-C before it was open.

    raceoffice open cup
"""
from __future__ import annotations

import argparse

from raceoffice.errors import Stopped
from raceoffice.exit_status import status_of
from raceoffice.interruption import INTERRUPTED
from raceoffice.office.before_opening import is_right, mend
from raceoffice.office.window import OfficeWindow, ask
from raceoffice.series.folder import Folder
from raceoffice.series.health import disk_fault
from raceoffice.terminal import say


def open_(path: str) -> int:
    """Opens an office, and is its window until it is closed; the status."""
    folder = Folder(path)
    folder.make_private()
    if fault := disk_fault(folder):
        say(fault)
        return 1
    office_window = OfficeWindow(folder)
    try:
        if not office_window.service.lock.is_taken():
            mend(folder, ask)
        if is_right(folder, say):
            return office_window.open()
    except Stopped:
        say("Nothing was opened.")
        return INTERRUPTED
    say("Nothing was opened.")
    return 1


def arguments(parser: argparse.ArgumentParser) -> None:
    parser.add_argument("folder", help="the folder of the series")


def run(asked: argparse.Namespace) -> int:
    return status_of(lambda: open_(asked.folder), asked.folder)
