"""What a page carries so that anybody can verify it: the settings, the journal, the names, the
decisions and the SHA-256 of the program, as JSON in a block that no browser runs."""
from __future__ import annotations

import functools
import hashlib
import json
from collections.abc import Callable, Sequence
from dataclasses import dataclass

from raceoffice.results.html import assets
from raceoffice.results.html.markup import Markup, raw
from raceoffice.results.snapshot import Snapshot
from raceoffice.series.entry_list import Boat
from raceoffice.series.settings import rows_of

# The number of the block's form. A change of what a page carries, or of how it is written, has another.
NUMBER = 8
SETTINGS = ("title", "club", "zone", "exclude", "absent", "scp", "state", "reason")
# Signs by which a text could end the block, or begin another; U+2028 and U+2029 end lines.
SIGNS = {sign: f"\\u{ord(sign):04x}" for sign in "<>&\u2028\u2029"}
KIND, ID = "application/json", "proof"


@dataclass(frozen=True)
class Stamp:
    """What a page says of a series and no score depends on: when its results changed last, the same in
    words, and how many seconds pass between two looks at the office."""
    changed: str
    when: str
    every: int


@dataclass(frozen=True)
class Carried:
    """What the scores of a series follow, with its names and its stamp."""
    name: str
    program: str
    settings: dict[str, str]
    boats: tuple[tuple[str, ...], ...]
    decisions: tuple[str, ...]
    journal: tuple[str, ...]
    stamp: Stamp

    def value(self) -> dict[str, object]:
        """What the seal is that of."""
        return {"name": self.name, "program": self.program, "settings": self.settings,
                "boats": self.boats, "decisions": self.decisions, "journal": self.journal}

    def items(self) -> list[tuple[str, str]]:
        """Each setting, boat, decision and entry, with what it is called."""
        found = [("the time of change of the page", self.stamp.changed),
                 ("the time in words of the page", self.stamp.when),
                 ("the number of seconds of the page", str(self.stamp.every)),
                 ("the folder's name", self.name), ("the program", self.program)]
        found += [(f"the setting {name}", value) for name, value in self.settings.items()]
        found += [(f"boat {at}", "\t".join(boat)) for at, boat in enumerate(self.boats, 1)]
        found += [(f"line {at} of the decisions", line) for at, line in enumerate(self.decisions, 1)]
        return found + [(f"entry {at}", line) for at, line in enumerate(self.journal, 1)]

    def names(self) -> dict[str, Boat]:
        return {boat[0]: Boat(*boat[1:]) for boat in self.boats}


def settings_of(view: Snapshot) -> dict[str, str]:
    """The settings that a page shows or that its scores follow."""
    shown = view.settings
    return {**{name: getattr(shown, name) for name in SETTINGS}, "class": shown.group,
            "handicap": "yes" if shown.handicap else "no"}


def without_note(line: str) -> str:
    """A line of decisions.txt without what is for its writer alone."""
    return line.partition("#")[0].strip()


def carried_of(view: Snapshot) -> Carried:
    boats = [(sail, boat.sail, boat.helm, boat.name, boat.club) for sail, boat in view.boats.items()]
    return Carried(view.name, view.program, settings_of(view), tuple(boats),
                   tuple(map(without_note, rows_of(view.decided.text))), tuple(view.journal),
                   Stamp(view.changed.isoformat(), view.when(view.changed), view.settings.every))


def as_text(value: object) -> str:
    """A value as JSON, always in the same way: a line for each line of a journal."""
    text = json.dumps(value, ensure_ascii=False, indent=0)
    for sign, number in SIGNS.items():
        text = text.replace(sign, number)
    return text


def digest(text: str) -> str:
    return hashlib.sha256(text.encode()).hexdigest()


@functools.cache
def form() -> str:
    """The form of a block and of its page: a page of another style or script has another, too."""
    return f"{NUMBER}-{digest(assets.style() + assets.script())[:8]}"


def made(view: Snapshot, name: str, make: Callable[[Snapshot], str]) -> str:
    """A text of a series, made once: a board has many pages of one series."""
    if name not in view.memo:
        view.memo[name] = make(view)
    return view.memo[name]


def series_text(view: Snapshot) -> str:
    return made(view, "series", lambda view: as_text(carried_of(view).value()))


def seal(view: Snapshot) -> str:
    """The SHA-256 of what a series' pages carry: it is the same on all pages, and as long as nothing
    has changed."""
    return made(view, "seal", lambda view: digest(series_text(view)))


def seal_words(view: Snapshot) -> str:
    """The first half of the seal, in groups that can be read out."""
    return " ".join(seal(view)[at:at + 4] for at in range(0, 32, 4))


def version_of(view: Snapshot) -> str:
    """Another text whenever anything that a series' pages show is another."""
    return made(view, "version", lambda view: f"{view.series.entries}-" + digest(
        f"{seal(view)} {view.changed.isoformat()} {view.settings.every}")[:8])


def marks(carried: Carried) -> str:
    """Four digits for each item, by which one that was changed is found."""
    return "".join(digest(f"{name}\t{text}")[:4] for name, text in carried.items())


def block(kind: str, views: Sequence[Snapshot], **more: object) -> Markup:
    """The block of a page: its form and kind, what else says which page it is, and its series."""
    series = ",\n".join(map(series_text, views))
    written = [made(view, "marks", lambda view: marks(carried_of(view))) for view in views]
    stamps = [vars(carried_of(view).stamp) for view in views]
    page: dict[str, object] = {"kind": kind, **more}
    head = as_text({"regatta": form(), "page": page, "stamps": stamps})
    whole = f'{head[:-2]},\n"series": [\n{series}\n],\n"marks": {as_text(written)}'
    return raw("script", f'\n{whole},\n"seal": "{digest(whole)}"\n}}\n', type=KIND, id=ID)
