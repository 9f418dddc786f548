"""The results of series as files: a page, CSV, JSON, or a text for a mail."""
from __future__ import annotations

from collections.abc import Callable, Sequence
from dataclasses import dataclass

from raceoffice.results.html.notice_board import results
from raceoffice.results.html.sealing import version_of
from raceoffice.results.mail import mail
from raceoffice.results.snapshot import Snapshot, as_json, results_csv, results_value
from raceoffice.results.source import ResultsSource, need_own_names
from raceoffice.terminal import sentence

Tell = Callable[[str], None]


def view_of(folder: str, tell: Tell) -> Snapshot:
    """The results of a series by its journal. `tell` is called with each trouble that doesn't keep them from being shown."""
    source = ResultsSource(folder)
    source.show(source.from_journal())
    for text in source.notes.values():
        if text:
            tell(f"{source.name}: {sentence(text)}")
    assert source.view is not None
    return source.view


def views_of(folders: Sequence[str], tell: Tell) -> list[Snapshot]:
    """The results of the series, whose folders have to have different names: a page knows them by these."""
    views = [view_of(folder, tell) for folder in folders]
    need_own_names([view.name for view in views])
    return views


def json_of(views: Sequence[Snapshot]) -> bytes:
    return as_json([results_value(view, version_of(view)) for view in views])


@dataclass(frozen=True)
class Form:
    """A form of the results as a file: the end of its name, its media type, and how it is made."""
    ending: str
    media: str
    data: Callable[[Sequence[Snapshot]], bytes]


FORMS = {
    "html": Form(".html", "text/html", lambda views: results(views).encode()),
    "csv": Form(".csv", "text/csv", results_csv),
    "semicolons": Form(".csv", "text/csv", lambda views: results_csv(views, True)),
    "json": Form(".json", "application/json", json_of),
    "text": Form(".txt", "text/plain", lambda views: f"{mail(views)}\n".encode()),
}
