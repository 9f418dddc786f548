"""Asks for the settings of a new series, and writes them.

    raceoffice new FOLDER

The questions are those of the sailing instructions. FOLDER is made, with the settings (series.ini) and the
entry list (entries.csv), which any editor can change. A change of the settings holds from the next opening
on; names may be corrected at any time.

The entry list is one of a spreadsheet: commas, semicolons or tabs, in UTF-8 or as Excel saves it. Its first
row has the headings: Sail; Boat, Helm and Club, which boards show; Rating, PY or TCF. Those of other programs
are known, such as SailNo, HelmName, Segelnummer, Barreur or Zeilnummer. Other columns are named, and aren't
read. A fault is named with its row: put it right, save, and press Enter, or type the name of another list.

One score excluded from four races on and two from eight: answer 3, then 4 and 8. No score excluded up to five
races and two from six on: answer 2, and when the sixth race counts write `exclude = 2,3` into series.ini. A
second folder has to be on another disk, as a stick: it gets a copy of the journal each second.

The status is 0 if the series was made, 1 if it wasn't, and 130 after Ctrl-C.

    raceoffice new cup
"""
from __future__ import annotations

import argparse

from raceoffice.exit_status import status_of
from raceoffice.series.create import new


def arguments(parser: argparse.ArgumentParser) -> None:
    parser.add_argument("folder", help="the folder of the new series")


def run(asked: argparse.Namespace) -> int:
    return status_of(lambda: new(asked.folder), asked.folder)
