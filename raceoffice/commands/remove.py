"""Takes a boat that was entered by mistake out of the journal.

    raceoffice remove FOLDER SAIL

The office has to be closed. The entries that go and whom that moves are shown, and then it asks. Before
journal.txt is replaced, a dated copy goes to kept/. Her rows in times/ go, too.

The status is 0 if she was taken out, 1 if not, and 130 after Ctrl-C.

    raceoffice remove cup den 16
"""
from __future__ import annotations

import argparse

from raceoffice.exit_status import status_of
from raceoffice.series.remove_boat import remove


def arguments(parser: argparse.ArgumentParser) -> None:
    parser.add_argument("folder", help="the folder of the series")
    parser.add_argument("sail", nargs="+", help="her sail")


def run(asked: argparse.Namespace) -> int:
    return status_of(lambda: remove(asked.folder, asked.sail), asked.folder)
