"""Verifies pages of results: the program scores the journal of a page, and each cell is compared."""
from __future__ import annotations

import datetime
import os
import re
import time
from collections.abc import Callable, Iterable, Sequence
from dataclasses import dataclass

from raceoffice import characters, system
from raceoffice.characters import in_one_form, quoted
from raceoffice.decisions.points import Decided, decided
from raceoffice.errors import ForeignPage, NoTable, Trouble, Unsure
from raceoffice.files import opened_at_once
from raceoffice.program.explanation import explanation_of
from raceoffice.program.journal import Series
from raceoffice.program.link import Sheet
from raceoffice.program.messages import refusal
from raceoffice.program.replay import digest_of, scored
from raceoffice.program.standing import Standing
from raceoffice.results.html import page
from raceoffice.results.html.listing import listing
from raceoffice.results.html.notice_board import results
from raceoffice.results.html.overall import overall
from raceoffice.results.html.race import one_race
from raceoffice.results.html.sealing import Carried, made, seal_words
from raceoffice.results.snapshot import Snapshot, labelled, labels_of, looking_alike, told_apart
from raceoffice.series.entry_list import Boat
from raceoffice.series.settings import Settings, rows_of, settings_of
from raceoffice.terminal import as_put_out, put_out, say_json, sentence, width
from raceoffice.traces import guarded
from raceoffice.verify import page_data
from raceoffice.verify.own_words import USUAL, explained, laid_out, stale
from raceoffice.verify.like_a_row import is_like_a_row, names_leader
from raceoffice.verify.page_data import Kept, found_in, moment_of, still_to_come, wrong_confirmation
from raceoffice.verify.visible import Seen, difference, first_of, line_of, place, standing_of
from raceoffice.wording import count

CONFIRMED = re.compile('<!DOCTYPE html>\n<html lang="en" data-live="(?:yes|no)" data-every="[0-9]{1,4}" '
                       'data-checked="([0-9T:+-]{0,40})" data-office="([a-z0-9:,]{0,500})" ')
LARGEST = 64 << 20
PLAIN_NAME = re.compile(r"[\w./~+-]+")
# Signs of a message about what differs. A page that is longer than the right one by this many isn't taken
# apart to find the first cell that differs.
MESSAGE, LONGER = 400, 1 << 16
# Cells and texts that it may have more than the right one, and is still taken apart whole: each takes a hundred bytes.
MORE = 1000
# The most texts with odd signs that are named, and series whose scores are kept.
BEWARES, SCORED = 5, 20
# Seconds after which nothing more of a page is worked out. The program has its own for each run.
PATIENCE = 300.0
# The kinds of pages that have the overall tables of their series, and the fewest characters that each score has there.
WITH_TABLES, CELL = ("top", "overall", "results"), 50
VERIFIED, DIFFERS, UNSURE = 0, 1, 2


@dataclass(frozen=True)
class Rebuilt:
    """A page made again from what it carries: what that is, its series and its text."""
    kept: Kept
    views: tuple[Snapshot, ...]
    text: str


class Verifier:
    """Has one program score what pages carry. What it scored before is kept for the other pages of the
    same series."""

    def __init__(self, program: str, now: Callable[[], float] = time.monotonic) -> None:
        self.program, self.now = os.path.abspath(program), now
        self.views: dict[str, Snapshot] = {}
        self.last: Rebuilt | None = None
        self.end = 0.0

    def forget(self) -> None:
        """Forgets what was scored before."""
        self.views.clear()
        self.last = None

    def rebuilt(self, kept: Kept, length: int = LARGEST) -> Rebuilt:
        """The page that raceoffice writes of what a page carries that has so many characters."""
        self.end = self.now() + PATIENCE
        if self.last is None or self.last.kept != kept:
            views = self.all_views(kept, length)
            made = Rebuilt(kept, views, page_of(kept, views, self.need_time))
            self.need_time()
            compare_tables(made, self.need_time)
            self.last = made
        return self.last

    def need_time(self) -> None:
        """Unsure if a page takes too long."""
        if self.now() > self.end:
            raise Unsure(f"it takes longer than {PATIENCE:g} seconds to score and to compare")

    def all_views(self, kept: Kept, length: int) -> tuple[Snapshot, ...]:
        """The series of a page. ForeignPage if their tables are longer than the page."""
        views, cells = list[Snapshot](), 0
        for carried in kept.series:
            views.append(self.view(carried))
            cells += len(views[-1].standing.rows) * len(views[-1].standing.races)
            if kept.kind in WITH_TABLES and cells * CELL > length:
                raise ForeignPage("it is shorter than the tables of its series are")
        return tuple(views)

    def view(self, carried: Carried) -> Snapshot:
        """A series as the program scores it."""
        key = repr(carried)
        if key not in self.views:
            self.need_time()
            if len(self.views) >= SCORED:
                self.views.clear()
            self.views[key] = self.fresh_view(carried)
        return self.views[key]

    def fresh_view(self, carried: Carried) -> Snapshot:
        shown = settings_of({**carried.settings, "every": str(carried.stamp.every)})
        journal = list(carried.journal)
        sheet = self.sheet(shown, journal)
        standing, options = Standing.read(list(sheet.table)), shown.options()
        text = "".join(f"{line}\n" for line in carried.decisions)
        self.need_time()
        found = self.decided(options, journal, text)
        self.need_time()
        why = explanation_of(self.program, options, journal, standing)
        changed = moment_of(carried.stamp.changed)
        assert changed is not None
        return Snapshot(carried.name, shown, labelled(standing, found.labels),
                    Series.read(list(sheet.journal)), carried.names(), why, changed, None,
                    carried.journal, found, carried.program, carried.stamp.when)

    def decided(self, options: list[str], journal: list[str], text: str) -> Decided:
        """What the decisions come to. If the program can't be run, nothing can be said of them."""
        found = decided(self.program, options, journal, text)
        for wrong in found.wrong:
            if f"the program at {self.program} can't be run" in wrong:
                raise Trouble(wrong)
        return found

    def sheet(self, shown: Settings, journal: list[str]) -> Sheet:
        try:
            sheet = scored(self.program, shown.options(), journal)
        except Trouble as trouble:
            if why := refused(str(trouble), journal):
                raise ForeignPage(why) from None
            raise
        at = first_of(journal, list(sheet.journal))
        if at is not None:
            raise ForeignPage(f"entry {at + 1} of the journal isn't written as the program writes it: "
                      f"{quoted((journal + ['nothing'])[at])}")
        return sheet

    def verified(self, text: str) -> Rebuilt:
        """A page that is the one which its results give. ForeignPage says what differs first, and Unsure or
        Trouble why nothing can be said."""
        rebuilt = self.rebuilt(found_in(text), len(text))
        confirmed = CONFIRMED.match(text)
        checked, office = confirmed.groups() if confirmed else ("", "")
        wanted = page.confirmed(rebuilt.text, checked, office)
        if text != wanted:
            raise ForeignPage(first_difference(text, wanted, self.need_time))
        if wrong := wrong_confirmation(rebuilt.kept, checked, office):
            raise ForeignPage(wrong)
        # An honest page, too, may have been made while a clock was wrong.
        if odd := still_to_come(rebuilt.kept, checked, datetime.datetime.now(datetime.timezone.utc)):
            raise Unsure(f"{odd}. All else is right. Set the clock right, and verify the page again; if it "
                         "is right, make the page again")
        return rebuilt


def refused(trouble: str, journal: list[str]) -> str:
    """The entry for which the program doesn't score a journal, and why; empty if it is none."""
    fault = re.search(r"journal fault \d line (\d+)", trouble)
    start = re.search(r"start refused (\d+) at (\d+)", trouble)
    if fault:
        at, why = int(fault[1]), "can't be read"
    elif start:
        at, why = int(start[2]), f"is refused: {refusal('NO ' + start[1])}"
    else:
        return ""
    return f"entry {at} of the journal {why}: {quoted((journal + [''] * at)[at - 1])}"


def page_of(kept: Kept, views: Sequence[Snapshot], ask: Callable[[], None]) -> str:
    """The page that raceoffice writes of these series. Meanwhile `ask` is called again and again."""
    if kept.kind == "list":
        return listing(views)
    if kept.kind == "results":
        return results(views, ask)
    if kept.kind != "race":
        return overall(views[0], kept.is_among, kept.kind == "top")
    if kept.race not in views[0].race_pages:
        raise ForeignPage(f"the page is that of race {kept.race}, which has none")
    return one_race(views[0], kept.race, kept.is_among)


def compare_tables(rebuilt: Rebuilt, ask: Callable[[], None]) -> None:
    """Compares the overall tables that raceoffice writes with the program's, cell by cell."""
    tables = [table for table in Seen(rebuilt.text, ask).tables
              if table.caption.startswith("Overall results, ")]
    wanted = told_apart(rebuilt.views) if rebuilt.kept.kind in WITH_TABLES else []
    if len(tables) != len(wanted):
        raise ForeignPage(f"the page has {count(len(tables), 'overall table')}, and not {len(wanted)}")
    for table, view in zip(tables, wanted):
        ask()
        boats = {sail_cell(view.boat(row.sail)): row.sail for row in view.standing.rows}
        try:
            standing = standing_of(table, boats, view.standing.races) if view.standing.races else None
        except NoTable as cause:
            raise ForeignPage(f"{quoted(view.label)}: {explained(cause)}") from None
        except ValueError as cause:
            raise ForeignPage(f"{quoted(view.label)}: {cause}") from None
        if standing not in (None, view.standing):
            assert standing is not None
            at = first_of([repr(row) for row in standing.rows],
                          [repr(row) for row in view.standing.rows]) or 0
            raise ForeignPage(f"{place(table, at + 1, 0)}: the row isn't the program's")


def sail_cell(boat: Boat) -> str:
    """The text of a boat's cell with her sail in an overall table, which no other boat has: her sail ends at the comma."""
    return " ".join((boat.sail + ", " + page.named(boat.helm or boat.name)).split())


def first_difference(text: str, wanted: str, ask: Callable[[], None]) -> str:
    """Where a page first differs from what it has to be: a cell, a text, or else a line of its file."""
    number, found = line_of(text, wanted)
    line = f"line {number} of the file isn't as raceoffice writes it: {quoted(found)}"
    if len(text) > len(wanted) + LONGER:
        return f"the page is longer than the right one, and {line}"
    right = Seen(wanted, ask)
    seen = Seen(text, ask, right.parts + MORE)
    if seen.is_cut:
        return f"the page has more cells and texts than the right one, and {line}"
    return difference(seen, right) or (
        f"no cell or text that differs was found, but {line}. A browser may show something else")


# What is said

def value_of(rebuilt: Rebuilt, program: str) -> dict[str, object]:
    """What was found right with a page, for programs."""
    series = [{"name": label, "boats": len(view.standing.rows), "races": len(view.standing.races),
               "entries": view.series.entries, "state": view.settings.state, "seal": seal_words(view),
               "changed": view.changed.isoformat(), "program": view.program,
               "beware": bewares(view)}
              for label, view in zip(labels_of(rebuilt.views), rebuilt.views)]
    return {"series": series, "program": digest_of(program)}


def classes_named(rebuilt: Rebuilt) -> list[str]:
    """How each class is named: by its place on the page, too, if what is shown of its name looks as that of another does."""
    shown = [as_put_out(quoted(label)) for label in labels_of(rebuilt.views)]
    alike = looking_alike(shown, {})
    return [f"Class {at + 1} of the page, {name}" if at in alike else f"Class {name}" for at, name in enumerate(shown)]


def report(rebuilt: Rebuilt, program: str) -> list[str]:
    """What was found right with a page, and whether the program is the one that it names."""
    lines = []
    for named, view in zip(classes_named(rebuilt), rebuilt.views):
        rows, races = len(view.standing.rows), len(view.standing.races)
        lines += [f"   {named}: {count(rows, 'boat')}, {count(races, 'race')}, "
                  f"{count(view.series.entries, 'entry', 'entries')}, {view.settings.state}. "
                  "Scored again: every cell is the same.",
                  f"   Seal {seal_words(view)}",
                  f"   Last changed {view.when(view.changed)}, by the page's own word."]
    ours, theirs = digest_of(program), {view.program for view in rebuilt.views}
    same = theirs == {ours}
    lines.append(f"   Program: the one that the page names, SHA-256 {ours}" if same else
                 f"   Program: another than the page names, which wasn't asked. SHA-256 here {ours}, there "
                 f"{' '.join(sorted(theirs)) or 'none'}")
    return lines


def warnings(rebuilt: Rebuilt, page: str) -> list[str]:
    """What of a verified page isn't as it seems. It comes before the verdict: no number of these takes that and the seal
    off the screen."""
    return [f"{page}: Beware: {characters.shortly(text, MESSAGE)}" for view in rebuilt.views for text in bewares(view)]


def bewares(view: Snapshot) -> list[str]:
    """What of a verified page isn't what it seems, or what the scores don't have as they should."""
    found = made(view, "bewares", lambda of: "\n".join(bewares_now(of)))
    return found.split("\n") if found else []


def bewares_now(view: Snapshot) -> list[str]:
    """The same, looked for."""
    shown = view.settings
    texts = [view.name, shown.title, shown.group, shown.club, shown.reason]
    texts += [text for boat in view.boats.values() for text in (boat.helm, boat.name, boat.club)]
    texts += rows_of(view.decided.text)
    odd = [f"{quoted(text)} has a sign that isn't seen, or that turns, strikes or pushes others"
           for text in texts if characters.has_odd(text)]
    sails = set(view.boats)
    rows = [f"{quoted(' '.join(filter(None, (boat.helm, boat.name, boat.club))))} is long, or has a sail, points or a leader as a page "
            "shows them, and may be taken for a row of it where lines are broken"
            for boat in view.boats.values() if is_like_a_row(boat, sails)]
    rows += [f"{quoted(text)} names a leader as a page does" for text in dict.fromkeys((shown.title, shown.group, shown.club))
             if names_leader(in_one_form(text))]
    return [*first_ones(stale(view.decided), "decisions"), *first_ones(odd, "texts"), *first_ones(rows, "names")]


def first_ones(texts: list[str], called: str) -> list[str]:
    """The first of some texts, and how many others there are."""
    more = len(texts) - BEWARES
    return [*texts[:BEWARES], f"and so have {more} other {called}"] if more > 0 else texts


def opened_for_reading(path: str, flags: int) -> int:
    """Opens a file. Nobody who may never come is waited for at a pipe, but whoever writes there is."""
    number = opened_at_once(path, flags)
    if system.LINUX:
        os.set_blocking(number, True)
    return number


def text_of_page(path: str) -> str:
    try:
        with open(path, "rb", opener=opened_for_reading) as file:
            data = file.read(LARGEST + 1)
    except OSError as cause:
        raise Unsure(f"it can't be read: {cause.strerror}") from None
    if len(data) > LARGEST:
        need_block(data)
        raise Unsure(f"it is longer than {LARGEST:,} bytes, and no more are read")
    try:
        return data.decode("utf-8")
    except UnicodeDecodeError as cause:
        need_block(data)
        raise ForeignPage(f"byte {cause.start + 1} of the file isn't UTF-8") from None


def need_block(data: bytes) -> None:
    """Unsure if a file has no block of a page."""
    if page_data.START.encode() not in data:
        raise Unsure("it is no page of results")


@dataclass(frozen=True)
class Outcome:
    """What became of a page, and what is said of it, to people and to programs."""
    status: int
    lines: tuple[str, ...]
    value: dict[str, object]


def name_shown(path: str) -> str:
    """The name of a file. It may be words that somebody chose: so it is on one line, and in quotation marks that it can't
    close if it has more than letters, digits and what most names have."""
    escaped = path.replace("\\", "\\\\").replace('"', '\\"').replace(characters.LIKE_A_SPACE, "\\u2423")
    return path if PLAIN_NAME.fullmatch(path) else f'"{escaped}"'


def outcome(verifier: Verifier, path: str) -> Outcome:
    """Verifies a page. Where the memory runs out nothing is said of it until what took that is gone."""
    try:
        return found_of(verifier, path)
    except MemoryError:
        pass
    verifier.forget()
    why = "this computer gives no more memory, and the page takes more"
    return Outcome(UNSURE, (f"{name_shown(path)}: not verified: {sentence(why)}",), {"page": path, "result": "unsure", "why": why})


def found_of(verifier: Verifier, path: str) -> Outcome:
    """The same. A MemoryError if there isn't enough of it."""
    try:
        with guarded("", ForeignPage, Unsure, ValueError, MemoryError):
            rebuilt = verifier.verified(text_of_page(path))
            said = (*warnings(rebuilt, name_shown(path)), f"{name_shown(path)}: verified.", *report(rebuilt, verifier.program))
            return Outcome(VERIFIED, said,
                           {"page": path, "result": "verified", **value_of(rebuilt, verifier.program)})
    except ForeignPage as odd:
        status, what, why = DIFFERS, "NOT VERIFIED", characters.shortly(str(odd), MESSAGE)
    except Unsure as unsure:
        status, what, why = UNSURE, "not verified", characters.shortly(str(unsure), MESSAGE)
    except Trouble as trouble:
        status, what, why = UNSURE, "not verified", characters.shortly(explained(trouble), MESSAGE)
    except ValueError as fault:
        status, what, why = UNSURE, "not verified", quoted(str(fault))
    return Outcome(status, (f"{name_shown(path)}: {what}: {sentence(why)}",),
                   {"page": path, "result": "differs" if status == DIFFERS else "unsure",
                    "why": why})


def verify(pages: Sequence[str], program: str, is_json: bool = False) -> int:
    """Verifies pages and says what was found; the status."""
    if not (os.path.dirname(program) and os.access(program, os.X_OK)):
        raise Trouble(f"There is no program at {program}: build it, or name one with --program.")
    verifier, found = Verifier(program), []
    for path in pages:
        found.append(outcome(verifier, path))
        if not is_json:
            put_out(laid_out(found[-1].lines, width(USUAL)))
    if is_json:
        say_json([one.value for one in found])
    return worst(one.status for one in found)


def worst(statuses: Iterable[int]) -> int:
    """The status of pages together: one that differs comes before one of which nothing can be said."""
    return max(statuses, key=[VERIFIED, UNSURE, DIFFERS].index)
