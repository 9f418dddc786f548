"""Verifies a page of results: has the program score the journal that the page carries, and compares
each cell.

    raceoffice verify PAGE [PAGE ...] [--program P] [--json]

The status is 0 if each page is the one that the program's results give, 1 if anything differs (then the
first cell, line or setting that does is named), and 2 if nothing can be said: there is no program, it
takes too long, a file is no page, or an older version of this package made it. docs/VERIFY.md says what
that proves.

With --json it prints a list with an object for each page: `page`, `result` (verified, differs or unsure), and
either `why`, or `series` with what was found right and `program` with the SHA-256 of the program here.

    raceoffice verify results.html
    raceoffice verify results.html --program crates/regatta/out/regatta
"""
from __future__ import annotations

import argparse

from raceoffice import characters
from raceoffice.exit_status import status_of, tell_json
from raceoffice.program.find import program_at
from raceoffice.terminal import say
from raceoffice.verify.verifier import UNSURE, verify


def arguments(parser: argparse.ArgumentParser) -> None:
    parser.add_argument("page", nargs="+", help="a page that `export` or `board` wrote")
    parser.add_argument("--program", default="regatta", help="the program that scores the journal again: its "
                        "file, or its name if it is beside the command or the package, where it is built, or "
                        "on the PATH")
    parser.add_argument("--json", action="store_true", help="print what was found for programs")


def run(asked: argparse.Namespace) -> int:
    return status_of(lambda: verify(asked.page, program_at(asked.program), asked.json),
                     tell=tell_json if asked.json else complain, failed=UNSURE)


def complain(text: str) -> None:
    """Says why nothing can be said of the pages."""
    say(characters.plainly(text))
