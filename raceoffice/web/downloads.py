"""The results as files for the scorer's browser: as `raceoffice export` writes them, and a page to print."""
from __future__ import annotations

import urllib.parse
from collections.abc import Callable, Sequence

from raceoffice.results.exports import FORMS, views_of
from raceoffice.results.http_answers import policy
from raceoffice.series.folder import Folder
from raceoffice.web.requests import Reply, Wrong

# The results page to be shown and printed; all else is saved.
PAGE = "page"


def download(form: str, folders: Sequence[Folder], tell: Callable[[str], None]) -> Reply:
    """The results of one or more classes by their journals, in one file."""
    if form not in FORMS and form != PAGE:
        raise Wrong(404, "results have no such form")
    made = FORMS["html" if form == PAGE else form]
    data = made.data(views_of([folder.path for folder in folders], tell))
    fields = {"Content-Security-Policy": f"{policy(made.media)}; frame-ancestors 'none'"}
    if form != PAGE:
        fields["Content-Disposition"] = attached(file_name(folders, made.ending))
    return Reply(200, made.media, data, fields)


def file_name(folders: Sequence[Folder], ending: str) -> str:
    """What a file is called: after its class, if it has one alone."""
    return f"{folders[0].name}-results{ending}" if len(folders) == 1 else f"results{ending}"


def attached(name: str) -> str:
    """How a browser is told to save an answer under a name, with one of plain letters for old ones."""
    plain = "".join(letter if letter.isascii() and (letter.isalnum() or letter in "-_. ") else "_" for letter in name)
    quoted = f'"{plain}"'
    return f"attachment; filename={quoted}; filename*=UTF-8''{urllib.parse.quote(name, safe='')}"
