"""The whole office in browsers: finish, jury and scorer open a link, and the board is open to all.

    raceoffice serve [FOLDER ...] [--http PORT] [--address ADDRESS] [--name HOST]
                     [--certificate FILE [--key FILE]] [--new ROLE]

Without a folder the scorer's page makes a series in this one, from an entry list and what the sailing
instructions say. It opens here by itself if this computer has a screen; --browser opens it with a series,
too. If this folder has series whose results aren't final, it asks whether to open them.

It opens the office of each series, keeps it as `raceoffice open` does, and serves the board at / and the
office's pages to those with a link. A link of each role is printed, with a code for cameras. It is shown this
once: --new makes another, and the old one and its devices are out. An office that is open in another window
is joined, and stays open at the end; a program whose window has gone is taken over.

A tap is done once, however often a phone sends it: a reload, a dead line and a crash cost no finisher and
double none. Who types in other windows (raceoffice type) does so beside the pages.

On plain HTTP whoever is in the network and listens can read what devices send, also what lets them write: use
a Wi-Fi of your own with a password, or --certificate with one that phones trust, for the name of --name.

To stop it by Ctrl-C closes the offices, and is its usual end, with status 0. The status is 1 if it couldn't be
started, and 130 after Ctrl-C before it was open: then what was opened is closed.

    raceoffice serve cup
    raceoffice serve cup fleet --http 8090
    raceoffice serve cup --name office.club.org --certificate club.pem --key club.key
"""
from __future__ import annotations

import argparse
import os
import time

from raceoffice.commands.board import address, port
from raceoffice.errors import Served, Trouble
from raceoffice.exit_status import status_of
from raceoffice.files import PRIVATE
from raceoffice.series import settings
from raceoffice.series.folder import Folder
from raceoffice.terminal import question, sentence
from raceoffice.web.gate import DEVICES_FILE, Gate
from raceoffice.web.room import held_alone
from raceoffice.web.serving import Asked, serve
from raceoffice.wording import joined

PORT = 8080
# Seconds for which the links of a series that is final by now may be those of another.
THESE_DAYS = 3 * 86400


def arguments(parser: argparse.ArgumentParser) -> None:
    parser.add_argument("folder", nargs="*", help="the folder of a series; without one, the scorer's page makes a series")
    parser.add_argument("--http", type=port, default=PORT, metavar="PORT", help=f"the port ({PORT})")
    parser.add_argument("--address", type=address,
                        help="the address of this computer where devices are answered (that of series.ini, else all)")
    parser.add_argument("--name", default="", metavar="HOST",
                        help="the name by which devices reach this computer")
    parser.add_argument("--certificate", default="", metavar="FILE", help="a certificate: then it is HTTPS")
    parser.add_argument("--key", default="", metavar="FILE", help="the certificate's private key")
    parser.add_argument("--browser", action="store_true",
                        help="open the scorer's page on this computer, by a link for this browser alone")
    parser.add_argument("--new", action="append", default=[], choices=["finish", "jury", "scorer"],
                        help="a new link for a role; the old one and its devices are out")


def series_here() -> list[str]:
    """The series of this folder whose results aren't final; the one that knew the devices last comes first. One of which
    the settings can't be read isn't left out without a word: a Trouble."""
    found, faults = [], []
    for name in all_here():
        try:
            found += [name] if settings.read(name).state == "provisional" else []
        except Trouble as trouble:
            faults.append(f"{name}: {sentence(trouble)}")
    if faults:
        raise Trouble("\n".join([*faults, "Put that right, or name the folders that are to be opened"]))
    return sorted(found, key=devices_written, reverse=True)


def all_here() -> list[str]:
    """The series of this folder."""
    return [name for name in sorted(os.listdir()) if os.path.isfile(os.path.join(name, settings.NAME))]


def devices_of(name: str) -> str:
    """The file of a series that has who may write."""
    return os.path.join(name, PRIVATE, DEVICES_FILE)


def devices_written(name: str) -> float:
    """When the devices of a series were written last; 0 if it has none."""
    try:
        return os.stat(devices_of(name)).st_mtime
    except OSError:
        return 0.0


def take_over_devices(name: str) -> None:
    """Gives a series that has no links of its own those of the series of this folder that had links last, of these days, if
    that is wanted: as long as that one went on, its links were for both."""
    last = max(all_here(), key=devices_written)
    if devices_written(name) or devices_written(last) < time.time() - THESE_DAYS:
        return
    links = Gate(devices_of(last))
    who = joined(sorted(f"{device.name} ({device.role.lower()})" for device in links.devices.values())) or "no device"
    if question(f"{name} has no links yet. Use those of {last}, which is final? They let in {who}.", yes=True):
        Folder(name).make_private()
        links.move(devices_of(name))


def need_unserved(name: str) -> None:
    """Says where a series is served already, if it is. What else is wrong with it is said when it is opened."""
    try:
        os.close(held_alone(Folder(name)))
    except Served:
        raise
    except Trouble:
        pass


def folders_of(asked: argparse.Namespace) -> list[str]:
    """The folders that are named or, if none is, those of this one that somebody wants opened. Nothing is asked if the first
    is served already."""
    found = list(asked.folder) or series_here()
    if found:
        need_unserved(found[0])
    if asked.folder or not found:
        return found
    if not question(f"Open {joined(found)}? The results aren't final yet.", yes=True):
        return []
    take_over_devices(found[0])
    return found


def has_screen() -> bool:
    """Whether a browser can be shown where this runs."""
    return bool(os.environ.get("DISPLAY") or os.environ.get("WAYLAND_DISPLAY"))


def run(asked: argparse.Namespace) -> int:
    def served() -> int:
        folders = tuple(folders_of(asked))
        is_shown_here = asked.browser or not folders and has_screen()
        return serve(Asked(folders, asked.http, asked.name, asked.certificate, asked.key, tuple(asked.new),
                           is_shown_here, asked.address or ""))
    return status_of(served, next(iter(asked.folder), ""))
