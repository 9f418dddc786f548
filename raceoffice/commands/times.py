"""Corrected times of a race, from a sheet of times to the lines of the office.

    raceoffice times FOLDER RACE|all [--send]

The series' folder has a folder `times` with a sheet of each race and the rules for all of them:

    times/race-1.csv     Sail, Elapsed or Start and Finish, Laps, Distance; an empty start, number of
                         laps or distance is that of the boat above. A time may be a code, as DNF
    times/rules.ini      [times], with system = tcf (time on time), py (Portsmouth Yardstick) or tod (time on
                         distance), and perhaps rounding = down, overnight = 2 and program

    Sail,Start,Finish
    GBR 101,14:05:00,15:07:31
    GBR 7,,15:03:12
    NED 12,,RET

The ratings are in the entry list, headed Rating, PY or TCF; `Rating from 5` holds from race 5 on. The
program `times` computes each time; this command shows the sums, compares times and codes with the journal,
and prints the lines that differ. With --send it asks, and sends them to the open office. Run it again after
each correction of a sheet or a rating: boats whose time has changed are struck and timed again.

A code, such as DNF, RET or OCS, may also be in a column Code; DSQ and DNE are the jury's to type. A boat with
neither time nor code is named, and has no line. A start without seconds, 14:05, is on the minute; a finish
needs its seconds. A column that isn't read is named. `overnight = 2` names a race that goes on past midnight. Semicolons or tabs may be between
the columns, and then a comma in a number is a decimal comma. If a row is wrong, it is named with its column,
and nothing is sent. If a line is refused, those of the other boats are sent all the same, and those that weren't
taken are named at the end.

The status is 0 if all is well, 1 if something is wrong or a line wasn't taken, and 130 after Ctrl-C.

    raceoffice times cup 3
    raceoffice times cup 3 --send
"""
from __future__ import annotations

import argparse

from raceoffice.corrected.times import correct
from raceoffice.exit_status import status_of


def arguments(parser: argparse.ArgumentParser) -> None:
    parser.add_argument("folder", help="the folder of a series")
    parser.add_argument("race", help="the number of a race, or all that have a sheet")
    parser.add_argument("--send", action="store_true", help="send the lines to the open office")


def run(asked: argparse.Namespace) -> int:
    return status_of(lambda: correct(asked.folder, asked.race, asked.send), asked.folder)
