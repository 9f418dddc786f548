"""A window for those who type: the finish, the jury, the scorer.

    raceoffice type FOLDER [FOLDER ...] [--role finish|jury|scorer] [--name ANN]
    raceoffice type FOLDER --role ROLE [--from N] [--go-on] < lines.txt

`help` lists the lines of a role, and `help tie` says more of one. A boat's number alone will do: 12 is the
one boat whose whole number is 12, or else the one whose sail ends so. A number that two boats have, or none,
keeps a place as `?` does: she is called 12?, until somebody types `12? ned 12`. Places are kept on the disk,
for all windows.

With several folders each line goes to the class in which its boat is entered; the first letters of a folder
in front of a line choose it. A finisher who may be in several keeps her place in each, until she is known in
one. `role` is for all. If one office goes, the others carry on.

Lines of a file are sent as they are, and stop at the first that is refused, since the next boat
would take the refused boat's place. The status is 1 if a line was refused or had no answer, and 130 after
Ctrl-C.

If the office goes before a line is answered, nobody knows whether the line is in the journal, however
the office was kept: look there before you send it again.

    raceoffice type cup --role finish --name Ann
    raceoffice type cup fleet --role finish
"""
from __future__ import annotations

import argparse
import sys

from raceoffice import system
from raceoffice.characters import is_utf8
from raceoffice.errors import Trouble
from raceoffice.exit_status import status_of
from raceoffice.program.messages import ROLES
from raceoffice.results.source import need_own_names
from raceoffice.series.folder import Folder
from raceoffice.series.settings import is_between
from raceoffice.session.session import Session
from raceoffice.terminal import say, typed
from raceoffice.typing_window.batch import LARGEST, Batch, lines_of
from raceoffice.typing_window.window import Window, show
from raceoffice.wording import on_one_line


def asked_role() -> str:
    """The role, which is asked for: forgetting it must not make anybody the scorer. Ctrl-C leaves."""
    for _ in range(5):
        given = typed("Whose lines are these? finish, jury or scorer: ")
        if given is None:
            break
        if role := role_meant(given):
            return role
    raise Trouble("no role was given")


def role_meant(text: str) -> str:
    """The role that begins with these letters; empty if there is none."""
    return next((role for role in ROLES if text and role.startswith(text.upper())), "")


def role_of(asked: argparse.Namespace) -> str:
    """The role of the command line, or the one that somebody types."""
    if asked.role is None:
        return asked_role()
    if not (role := role_meant(asked.role)):
        raise Trouble(f"there is no role {asked.role!r}. --role takes finish, jury or scorer")
    return role


def send_file(asked: argparse.Namespace) -> int:
    """Sends the lines of standard input; the status."""
    if not asked.role or len(asked.folders) > 1:
        raise Trouble("lines of a file need --role, and one folder")
    folder, role = Folder(asked.folders[0]), role_of(asked)
    lines = lines_of(sys.stdin.buffer.read(LARGEST))
    session = Session(folder, role, asked.name, show, lambda _: True)
    session.connect()
    again = f"{folder.command('type')} --role {role.lower()}"
    return Batch(session, lines, again).send(asked.start, asked.go_on)


def line_number(text: str) -> int:
    if not is_between(1, 999_999_999)(text):
        raise argparse.ArgumentTypeError(f"{text!r} is no number of a line, from 1 on")
    return int(text)


def in_utf8(text: str) -> str:
    """A word of the command line that goes into a file."""
    if not is_utf8(text):
        raise argparse.ArgumentTypeError("it isn't UTF-8 text")
    return on_one_line(text)


def arguments(parser: argparse.ArgumentParser) -> None:
    parser.add_argument("folders", nargs="+", metavar="FOLDER", help="the folder of a series")
    parser.add_argument("--role", help="whose lines these are: finish, jury or scorer; it is asked for "
                       "if it isn't given")
    parser.add_argument("--name", type=in_utf8, default="", help="who types, for office.log")
    parser.add_argument("--from", dest="start", type=line_number, default=1, metavar="N",
                       help="the first line of a file that is sent")
    parser.add_argument("--go-on", action="store_true", help="go on after a refused line of a file")


def type_lines(asked: argparse.Namespace) -> int:
    """Sends a file's lines, or is a window; the status."""
    if not sys.stdin.isatty():
        return send_file(asked)
    folders = [Folder(path) for path in asked.folders]
    need_own_names([folder.name for folder in folders])
    system.pass_over_quit()
    return Window(folders, role_of(asked), asked.name).run()


def run(asked: argparse.Namespace) -> int:
    return status_of(lambda: type_lines(asked), asked.folders[0], lambda text: say(f"Stopped: {text}"))
