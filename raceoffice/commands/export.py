"""The results of one or more series as files: a page, CSV, or a text for a mail.

    raceoffice export FOLDER [FOLDER ...] [--html F] [--csv F] [--semicolons] [--json F] [--text]

They are those of journal.txt, whether an office is open or not. The page has all series and can be
printed for the notice board; `raceoffice verify` checks it. The JSON is a list with the results of each
series; points are texts, since they are exact to a tenth. Nothing is sent to an office.

The status is 0 if all was written, 1 if not, and 130 after Ctrl-C.

    raceoffice export cup --html results.html
    raceoffice export cup fleet --csv results.csv --text
"""
from __future__ import annotations

import argparse
import sys

from raceoffice.exit_status import status_of
from raceoffice.files import replace_whole
from raceoffice.results.exports import FORMS, views_of
from raceoffice.results.mail import mail
from raceoffice.results.snapshot import Snapshot, told_apart
from raceoffice.terminal import say, visible
from raceoffice.wording import count, joined


def warn(text: str) -> None:
    sys.stderr.write(f"{visible(text)}\n")


def arguments(parser: argparse.ArgumentParser) -> None:
    parser.add_argument("folder", nargs="+", help="the folder of a series")
    parser.add_argument("--html", metavar="F", help="write the notice board's page into this file")
    parser.add_argument("--csv", metavar="F", help="write CSV into this file")
    parser.add_argument("--semicolons", action="store_true",
                        help="CSV with semicolons, and commas in decimals")
    parser.add_argument("--json", metavar="F", help="write JSON into this file")
    parser.add_argument("--text", action="store_true", help="print a text for a mail")
    parser.set_defaults(complain=parser.error)


def refuse_options(asked: argparse.Namespace) -> None:
    """Ends the command if options don't go together, or if nothing is asked for."""
    if asked.semicolons and not asked.csv:
        asked.complain("--semicolons goes with --csv")
    if not (asked.html or asked.csv or asked.json or asked.text):
        asked.complain("nothing is asked for: add --html F, --csv F, --json F or --text")


def write(asked: argparse.Namespace, views: list[Snapshot]) -> int:
    """Writes and prints what was asked for; the status."""
    csv = "semicolons" if asked.semicolons else "csv"
    for path, form in ((asked.html, "html"), (asked.csv, csv), (asked.json, "json")):
        if path:
            replace_whole(path, FORMS[form].data(views), True)
    if asked.text:
        say(mail(views))
    else:
        said = ", ".join(f"{view.label} ({count(len(view.standing.rows), 'boat')}, "
                         f"{count(len(view.standing.races), 'race')})" for view in told_apart(views))
        say(f"{joined([path for path in (asked.html, asked.csv, asked.json) if path])}: {said}")
    return 0


def run(asked: argparse.Namespace) -> int:
    refuse_options(asked)
    return status_of(lambda: write(asked, views_of(asked.folder, warn)), asked.folder[0], warn)
