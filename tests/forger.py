"""What a forger does: takes the block of a page, changes it, makes marks and seal again, and has the
tools' own code write the page of it."""
from __future__ import annotations

import contextlib
import copy
import functools
import json
import os
import re
import subprocess
import unittest.mock
from collections.abc import Callable, Iterator, Sequence
from typing import Any

import helpers

from raceoffice.errors import ForeignPage, Trouble, Unsure
from raceoffice.program import explanation, replay
from raceoffice.results import exports
from raceoffice.results.html import page as pages, sealing
from raceoffice.results.html.listing import listing
from raceoffice.results.html.notice_board import results as notice
from raceoffice.results.html.overall import overall
from raceoffice.results.html.race import one_race
from raceoffice.results.snapshot import Snapshot
from raceoffice.verify import page_data, verifier

MARKUP = '"><script>alert(1)</script>'
# Two boats tie; codes, a penalty, redress and an excluded score; race 3 doesn't count.
LINES = ["FINISH 1 GBR101", "FINISH 1 GBR7", "TIE 1 NED12 GBR7", "MARK 1 IRL5 OCS", "PENALTY 1 GBR7 ZFP",
         "SCORE 1", "FINISH 2 GBR7", "FINISH 2 NED12", "ROLE JURY", "REDRESS 2 IRL5 ALL", "ROLE SCORER",
         "SCORE 2", "FINISH 3 GBR7"]
ENTRIES = ("Sail,Helm,Boat,Club\nGBR 101,A. Moss,Kestrel,Sandhaven\nGBR 7,<b>Jo</b>,\"Sea & \"\"Pink\",\n"
           "NED 12,,Windhover,Zierik\nIRL 5,M. Byrne,,Howth\n")
# When the results changed last: 1 March 2026, 10:00 UTC.
MARCH = 1_772_359_200
Path = tuple[object, ...]


def block_in(page: str) -> str:
    """The text of a page's block."""
    begin = page.index(page_data.START) + len(page_data.START)
    return page[begin:page.index(page_data.END, begin)]


def whole_of(page: str) -> dict[str, Any]:
    whole: dict[str, Any] = json.loads(block_in(page))
    return whole


def sealed(whole: dict[str, Any]) -> str:
    """The text of a block with marks and seal that are right for it, as far as they can be made."""
    whole = {name: value for name, value in whole.items() if name != "seal"}
    with contextlib.suppress(Exception):
        whole["marks"] = [sealing.marks(page_data.carried_of(*both))
                          for both in zip(whole["series"], whole["stamps"])]
    text = text_of(whole)[:-2]
    if list(whole) == ["regatta", "page", "stamps", "series", "marks"] and isinstance(whole["series"], list):
        # The tools put the series one after another as they are sealed.
        series = ",\n".join(map(text_of, whole["series"]))
        head = text_of({name: whole[name] for name in ("regatta", "page", "stamps")})[:-2]
        text = f'{head},\n"series": [\n{series}\n],\n"marks": {text_of(whole["marks"])}'
    return f'{text},\n"seal": "{sealing.digest(text)}"\n}}\n'


def text_of(value: object) -> str:
    """A value as a block has it. Half a sign can only be written by its number."""
    return re.sub("[\ud800-\udfff]", lambda half: f"\\u{ord(half[0]):04x}", sealing.as_text(value))


def with_block(page: str, block: str) -> str:
    return page.replace(block_in(page), block, 1)


def resealed(page: str, change: Callable[[dict[str, Any]], object]) -> str:
    """The page with its block changed, and with the seals of its series in its text made again."""
    whole = whole_of(page)
    old = [seal_words(series) for series in whole["series"]]
    change(whole)
    fresh, now = with_block(page, sealed(whole)), whole.get("series")
    for was, series in zip(old, now if isinstance(now, list) else []):
        fresh = fresh.replace(was, seal_words(series))
    return fresh


def seal_words(series: object) -> str:
    seal = sealing.digest(text_of(series))
    return " ".join(seal[at:at + 4] for at in range(0, 32, 4))


def seals(page: str) -> list[str]:
    """The seals of the series that a page carries."""
    return [seal_words(series) for series in whole_of(page)["series"]]


# The leaves of a block

def leaves(value: object, path: Path = ()) -> Iterator[tuple[Path, object]]:
    """Each text, number and truth value in a value, with the way to it."""
    if isinstance(value, (dict, list)):
        for name, part in value.items() if isinstance(value, dict) else enumerate(value):
            yield from leaves(part, (*path, name))
    else:
        yield path, value


def put(whole: dict[str, Any], path: Path, value: object) -> dict[str, Any]:
    """The block with another value there."""
    fresh = copy.deepcopy(whole)
    place: Any = fresh
    for name in path[:-1]:
        place = place[name]
    place[path[-1]] = value
    return fresh


def others(value: object) -> list[object]:
    """Values of other types than one has."""
    found = [str(value), 7, True, None, 1.5, [], {}, [value]]
    return [other for other in found if type(other) is not type(value)]


# A page of a forged block

@contextlib.contextmanager
def unchecked() -> Iterator[None]:
    """The tools' code without what it checks: who forges a page takes that out."""
    with contextlib.ExitStack() as stack:
        for name in ("wrong_form", "wrong_confirmation"):
            stack.enter_context(unittest.mock.patch.object(page_data, name, lambda *_: ""))
        for name in ("compare_form", "compare_marks", "compare_seal"):
            stack.enter_context(unittest.mock.patch.object(page_data, name, lambda *_: None))
        stack.enter_context(unittest.mock.patch.object(verifier, "compare_tables", lambda *_: None))
        yield


class Forger:
    """Writes the page of a block, whatever is in it. The page that it is like is the fallback."""

    def __init__(self, program: str, page: str) -> None:
        self.verifier, self.page = verifier.Verifier(program), page

    def forged(self, whole: dict[str, Any]) -> str:
        text = sealed(whole)
        found = verifier.CONFIRMED.match(self.page)
        assert found
        try:
            with unchecked():
                kept = page_data.kept_of(whole)
                made = self.verifier.rebuilt(kept)
            made_page = pages.confirmed(made.text, *found.groups())
            return with_block(made_page, text)
        except Exception:  # noqa: BLE001
            def replace(old: dict[str, Any]) -> None:
                old.clear()
                old.update(whole)
            return resealed(self.page, replace)


@contextlib.contextmanager
def remembered() -> Iterator[None]:
    """Replays of the same journal are run once: the program answers them always alike."""
    plain: list[tuple[Any, str]] = [(replay, "printed"), (explanation, "explained")]
    known: dict[object, object] = {}

    def kept(ask: Callable[..., object], *asked: object) -> object:
        key = repr((ask, asked))
        if key not in known:
            known[key] = ask(*asked)
        return copy.copy(known[key])

    with contextlib.ExitStack() as stack:
        for module, name in plain:
            asked = functools.partial(kept, getattr(module, name))
            stack.enter_context(unittest.mock.patch.object(module, name, asked))
        yield


def journal_of(folder: str, *lines: str, options: Sequence[str] = ()) -> str:
    """The journal of these lines, as the program writes it."""
    done = subprocess.run(
        [helpers.PROGRAM, "replay", *options, "--print", "journal", "--entries",
         os.path.join(folder, "entries.csv")], input="\n".join([*lines, "QUIT", ""]),
        capture_output=True, text=True, check=True)
    assert "NO " not in done.stdout, done.stdout
    return done.stdout.partition("BYE\n")[2]


class ForgedPages(helpers.Series):
    """The pages of two series, and what becomes of them if their blocks are changed."""

    def setUp(self) -> None:
        super().setUp()
        here = self.make("tide", ENTRIES, exclude="2", club="Sand & Haven", reason="Corrected.")
        self.write(journal_of(here, *LINES), "tide", "journal.txt")
        self.write("race 1 GBR7 PRP 30%\nrace 9 <x>\n", "tide", "decisions.txt")
        os.utime(os.path.join(here, "journal.txt"), (MARCH, MARCH))
        here = self.make("fleet", ENTRIES, zone="", absent="a53", state="final", **{"class": "A <b>"})
        self.write(journal_of(here, *LINES[:6]), "fleet", "journal.txt")
        for name in ("journal.txt", "series.ini"):
            os.utime(os.path.join(here, name), (MARCH, MARCH))
        memory = remembered()
        memory.__enter__()
        self.addCleanup(memory.__exit__, None, None, None)
        self.tide, self.fleet = self.view("tide"), self.view("fleet")
        self.verifier = verifier.Verifier(helpers.PROGRAM)

    def view(self, name: str) -> Snapshot:
        return exports.view_of(os.path.join(self.here, name), lambda _: None)

    def pages(self) -> dict[str, str]:
        """A page of each kind."""
        def shown(page: str, office: str) -> str:
            return pages.confirmed(page, "2026-03-01T10:00:00+00:00", office)

        return {"top": shown(overall(self.tide, is_top=True), "open"),
                "overall": shown(overall(self.tide, True), "journal"),
                "alone": shown(overall(self.fleet), "once"),
                "race": shown(one_race(self.tide, 1, True), "away"),
                "open race": shown(one_race(self.tide, 3), "open"),
                "list": shown(listing([self.tide, self.fleet]), "away:1"),
                "results": notice([self.tide]), "both": notice([self.fleet, self.tide])}

    def is_verified(self, page: str) -> bool:
        """Whether a page is verified; any other end than those of `verify` is a fault."""
        try:
            self.verifier.verified(page)
        except (ForeignPage, Unsure, Trouble):
            return False
        return True
