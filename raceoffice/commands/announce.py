"""Says of series whether their results are provisional, final or amended.

    raceoffice provisional FOLDER [FOLDER ...] [REASON]
    raceoffice final FOLDER [FOLDER ...] [REASON]
    raceoffice amended FOLDER [FOLDER ...] [REASON]

Boards and pages show it, and the reason below the title. It is written into series.ini, and office.log has
what it was said of: pages say so if the results change afterwards. `final` and `amended` first name what is
open: races that aren't scored, and finishers without a sail.

The status is 0 if it was said, 1 if not, and 130 after Ctrl-C.

    raceoffice provisional cup
    raceoffice final cup
    raceoffice amended cup fleet "Appeal upheld: FRA 9 is reinstated in race 2"
"""
from __future__ import annotations

import argparse
import os
from collections.abc import Sequence

from raceoffice.errors import Trouble
from raceoffice.exit_status import status_of
from raceoffice.results.announce import Open, announce, asked_of, need_reason, open_points, sheet_now
from raceoffice.series.folder import Folder
from raceoffice.terminal import answer, question, say


def folders_and_reason(words: list[str]) -> tuple[list[str], str]:
    """The series that words name, and a reason if the last one names none. A reason has two words or
    more, so that a misspelt folder isn't mistaken for a reason. All are read before anything is done."""
    is_reason = len(words) > 1 and not os.path.isdir(words[-1]) and len(words[-1].split()) > 1
    folders, reason = (words[:-1], words[-1]) if is_reason else (words, "")
    for path in folders:
        if not os.path.isdir(path) and path != words[0]:
            raise Trouble(f"{path} is no folder of a series. A reason has two words or more, in "
                          f'quotation marks: "{" ".join(words[words.index(path):])}"')
        Folder(path)
    return folders, reason


def announce_all(state: str, words: list[str]) -> int:
    """Says of some series that their results are final, or not; the status."""
    folders, reason = folders_and_reason(words)
    return max([announce_one(path, state, reason) for path in folders])


def announce_one(path: str, state: str, reason: str) -> int:
    """Says of a series whether its results are final, once somebody agrees to what is open; the status."""
    folder = Folder(path)
    table: tuple[str, ...] = ()
    if state == "amended" and not reason:
        reason = answer("Why? The board shows it: ")
    reason = need_reason(state, reason)
    if state != "provisional":
        sheet = sheet_now(folder)
        table = sheet.table
        if not is_agreed(state, open_points(folder, sheet)):
            say("Nothing was announced.")
            return 1
    announce(folder, state, reason, table)
    say(f"The results of {path} are {state}" + (f": {reason}" if reason else "") + ".")
    return 0


def is_agreed(state: str, points: Sequence[Open]) -> bool:
    """Whether all races are scored and all finishers are known, or somebody agrees to leave some out. A boat
    without a name is only named."""
    for point in points:
        say(point.text)
    return all(point.kind == "boats-unnamed" for point in points) or question(asked_of(state, points).text)


def arguments(parser: argparse.ArgumentParser) -> None:
    parser.add_argument("folder", help="the folder of a series")
    parser.add_argument("more", nargs="*", metavar="folder or reason",
                        help="more series, and a reason that is shown below the title")


def run(asked: argparse.Namespace) -> int:
    return status_of(lambda: announce_all(asked.command, [asked.folder, *asked.more]), asked.folder)
