"""Says what is wrong with a series, and opens nothing.

    raceoffice check FOLDER [FOLDER ...] [--json]

It looks at the settings (series.ini), the entry list, the journal (journal.txt) and its copies, the disk
and the program. What only should be known is said, too.

With --json it prints a list with an object for each series: `folder`, `faults` (what keeps it shut), `asks`
(what `open` would ask), `notes`, and, if it has no faults, `summary` and `rules`.

The status is 0 if each series can be opened, 1 if something keeps an office shut or `open` would ask, and
130 after Ctrl-C.

    raceoffice check cup fleet
"""
from __future__ import annotations

import argparse
from dataclasses import asdict, dataclass

from raceoffice.errors import Trouble
from raceoffice.exit_status import status_of, tell_json
from raceoffice.office.backups import same_disk
from raceoffice.series.continuity import differences
from raceoffice.series.folder import Folder
from raceoffice.series.health import faults, list_notes, notes, summary
from raceoffice.series.run_program import rules_waiting, settings_in_force
from raceoffice.series.second_folder import second_of
from raceoffice.terminal import say, say_json, sentence
from raceoffice.wording import joined


@dataclass(frozen=True)
class Checked:
    """What was found of a series: what keeps it shut, what `open` would ask, and what should be known."""
    folder: str
    faults: list[str]
    asks: str
    notes: list[str]
    summary: str = ""
    rules: str = ""

    def in_words(self) -> list[str]:
        said = [*self.faults, *self.notes, *([self.asks] if self.asks else [])]
        if not self.faults:
            said.append(f"{self.folder} can be opened{' if somebody agrees' if self.asks else ''}: "
                        f"{self.summary}\n{self.rules}")
        return said


def checked(path: str) -> Checked:
    """Looks at a series. One whose settings can't be read has that as its fault."""
    try:
        folder = Folder(path)
    except Trouble as trouble:
        return Checked(path, [sentence(trouble)], "", [])
    wrong = faults(folder)
    changed = "" if wrong else differences(folder)
    known = [text for text in [*notes(folder), *list_notes(folder), second_note(folder), rules_note(folder)] if text]
    if wrong:
        return Checked(path, wrong, changed, known)
    return Checked(path, wrong, changed, known, summary(folder), settings_in_force(folder).in_words())


def check(paths: list[str], is_json: bool) -> int:
    """Says all that would keep series from being opened; the status."""
    found = []
    for path in paths:
        found.append(checked(path))
        for text in [] if is_json else found[-1].in_words():
            say(text)
    if is_json:
        say_json([asdict(one) for one in found])
    return 1 if any(one.faults or one.asks for one in found) else 0


def rules_note(folder: Folder) -> str:
    """The rules that wait for an opening; empty if none do."""
    waiting = [f"{key} = {value}" for key, value in rules_waiting(folder).items()]
    return f"Not in force until the office is opened with the new rules: {joined(waiting)}." if waiting else ""


def second_note(folder: Folder) -> str:
    """What should be known of the second folder; empty if a copy can be made in it, on another disk."""
    with second_of(folder) as second:
        answer = second.ask("look")
        if answer.fault:
            return f"No second copy: {answer.fault}."
        return same_disk(second.path) if second.is_on_our_disk(answer) else ""


def arguments(parser: argparse.ArgumentParser) -> None:
    parser.add_argument("folder", nargs="+", help="the folder of a series")
    parser.add_argument("--json", action="store_true", help="print what was found for programs")


def run(asked: argparse.Namespace) -> int:
    tell = tell_json if asked.json else say
    return status_of(lambda: check(asked.folder, asked.json), asked.folder[0], tell)
