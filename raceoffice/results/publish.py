"""The pages of some series by address, and how they are kept as files."""
from __future__ import annotations

import datetime
import functools
import glob
import os
import re
import time
import urllib.parse
from collections.abc import Callable, Mapping
from dataclasses import dataclass

from raceoffice.errors import as_trouble
from raceoffice.files import replace_whole
from raceoffice.results.html import listing, page
from raceoffice.results.html.overall import overall
from raceoffice.results.html.race import one_race
from raceoffice.results.html.sealing import version_of
from raceoffice.results.snapshot import Snapshot, labels_of, as_json, now_json, results_csv, results_value
from raceoffice.results.source import ResultsSource

HTML, CSV, JSON = "text/html; charset=utf-8", "text/csv; charset=utf-8", "application/json"
# The least seconds between two writings of a file that has only been confirmed.
FRESH = 20.0
RACE_PAGE = re.compile(r"/race-\d+\.html$")


@dataclass(frozen=True)
class Made:
    """Pages, what they were made from, and the same with the moment of their confirmation."""
    key: object
    plain: dict[str, str]
    stamped: dict[str, tuple[str, bytes]]


class Site:
    """The pages of some series. One is made when what it shows changes, and only then."""

    def __init__(self, sources: list[ResultsSource], is_once: bool = False) -> None:
        self.sources, self.is_once = sources, is_once
        self.made: dict[str, Made] = {}

    def office(self, source: ResultsSource) -> str:
        """Where the results of a series come from; pages that are made once aren't kept up to date."""
        return "once" if self.is_once else source.office

    def kept(self, name: str, key: object, make: Callable[[], dict[str, str]], fresh: bool,
             checked: datetime.datetime, office: str) -> dict[str, tuple[str, bytes]]:
        """The pages of this name, made if the key is another; stamped again if they are to be
        fresh."""
        old = self.made.get(name)
        if old and old.key == key and not fresh:
            return old.stamped
        plain = old.plain if old and old.key == key else make()
        stamped = {address: (HTML, page.confirmed(text, checked.isoformat(), office).encode())
                   for address, text in plain.items()}
        self.made[name] = Made(key, plain, stamped)
        return stamped

    def of_series(self, view: Snapshot) -> dict[str, str]:
        """The pages of one series; alone, it is at the top as well."""
        here, is_among = f"/{view.address}/", len(self.sources) > 1
        found = {f"{here}race-{number}.html": one_race(view, number, is_among)
                 for number in view.race_pages}
        found[f"{here}index.html"] = overall(view, is_among)
        if not is_among:
            found["/index.html"] = overall(view, is_top=True)
        return found

    def front(self, views: list[Snapshot], fresh: bool) -> dict[str, tuple[str, bytes]]:
        """The list of several series, with what its script asks for."""
        if len(self.sources) == 1:
            return {}
        version = listing.version(views)
        checked = min(source.checked for source in self.sources)
        shown = [source for source in self.sources if source.view]
        away = [str(at) for at, source in enumerate(shown) if source.office == "away"]
        is_away = len(away) > 0 or len(shown) < len(self.sources)
        gone = "away:" + ",".join(away) if away else "away"
        office = "once" if self.is_once else gone if is_away else "open"
        pages = self.kept("", version, lambda: {"/index.html": listing.listing(views)},
                          fresh, checked, office)
        classes = [{"name": label, "address": view.address}
                   for label, view in zip(labels_of(views), views)]
        return {**pages, "/now.json": (JSON, now_json(version, checked, office, classes=classes))}

    def texts(self, fresh: bool = False) -> dict[str, tuple[str, bytes]]:
        """All texts, by address, as files have it."""
        views = [source.view for source in self.sources if source.view]
        found = self.front(views, fresh)
        for source in self.sources:
            if (view := source.view) is None:
                continue
            here = f"/{view.address}/"
            version = version_of(view)
            found |= self.kept(view.name, version, functools.partial(self.of_series, view), fresh,
                               source.checked, self.office(source))
            found |= {f"{here}results.csv": (CSV, results_csv([view])),
                      f"{here}results.json": (JSON, as_json(results_value(view, version))),
                      f"{here}now.json": (JSON, now_json(version, source.checked,
                                                         self.office(source)))}
        return found


def served(texts: dict[str, tuple[str, bytes]]) -> dict[str, tuple[str, bytes]]:
    """The same for phones: a folder's address leads to its page."""
    return texts | {address.removesuffix("index.html"): text for address, text in texts.items()
                    if address.endswith("/index.html")}


class Files:
    """The pages as files in a folder, to be opened there or to be uploaded."""

    def __init__(self, folder: str, site: Site) -> None:
        self.folder, self.site = folder, site
        self.written: dict[str, bytes] = {}
        self.fresh_until = 0.0

    def write(self) -> None:
        """Writes what is new, and `now.json` after all others: it leads to them."""
        fresh = time.monotonic() >= self.fresh_until
        if fresh:
            self.fresh_until = time.monotonic() + FRESH
        texts = self.site.texts(fresh)
        for address in sorted(texts, key=lambda address: address.endswith("/now.json")):
            self.put(address, texts[address][1])
        for address in self.old_pages(texts):
            with as_trouble("file-stays", name=self.path(address)):
                os.remove(self.path(address))
            self.written.pop(address, None)

    def old_pages(self, texts: Mapping[str, object]) -> list[str]:
        """The pages, also of an earlier run, of races that are no more. Files that no board has written
        aren't among them."""
        homes = [address.removesuffix("results.json") for address in texts
                 if address.endswith("/results.json")]
        found = [f"{home}{os.path.basename(path)}" for home in homes
                 for path in glob.glob(glob.escape(self.path(home)) + "race-*.html")]
        return [address for address in found if address not in texts
                and RACE_PAGE.search(address) and page.is_ours(self.path(address))]

    def path(self, address: str) -> str:
        """The file of an address."""
        return os.path.join(self.folder, *map(urllib.parse.unquote, address.split("/")[1:]))

    def put(self, address: str, data: bytes) -> None:
        if self.written.get(address) == data:
            return
        path = self.path(address)
        with as_trouble("file-unmade", name=os.path.dirname(path)):
            os.makedirs(os.path.dirname(path), exist_ok=True)
        replace_whole(path, data, True)
        self.written[address] = data
