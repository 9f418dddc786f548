"""What all pages have: the frame, the head and the foot, and small parts. Each page is one file, whole
in itself, for phones, desks and paper."""
from __future__ import annotations

import re
from collections.abc import Sequence

from raceoffice.characters import is_right_to_left
from raceoffice.files import text_if_any
from raceoffice.program.codes import CODES
from raceoffice.results.html import assets
from raceoffice.results.html.markup import (NOTHING, Markup, attributes, document, raw, separated, tag,
                                            together)
from raceoffice.results.html.sealing import seal_words, version_of
from raceoffice.results.snapshot import Snapshot
from raceoffice.series.entry_list import Boat

MEANING = {
    **{word: (code.meaning, "hard" if code.is_breach else "") for word, code in CODES.items()},
    "ZFP": ("20% penalty at the start (RRS 30.2)", "kind"),
    "SCP": ("Scoring Penalty (RRS 44.3)", "kind"),
    "RDG": ("redress given (RRS A9)", "given"),
    "DPI": ("discretionary penalty", "kind"),
    "PRP": ("Post-Race Penalty", "kind"),
    "T1": ("Post-Race Penalty (RRS T1)", "kind"),
    "TLE": ("time limit expired", ""),
    "NSC": ("did not sail the course", ""),
    "DUTY": ("on duty: the average of other races", "given"),
}
SCORING = "Appendix A (Low Point System), Racing Rules of Sailing 2025–2028."
UNCONFIRMED = {"data_checked": "", "data_office": ""}
OURS = re.compile(r'<!DOCTYPE html>\n<html lang="en" data-live="(yes|no)" data-every="\d+" '
                  'data-checked="[^"]*" data-office="[^"]*" data-version="[^"]*" data-now="')


def styles(text: str) -> str:
    """A text in quotation marks for a style sheet inside a page: the same whatever letters this Python knows."""
    return '"' + re.sub(r'[^ \w.,:;()+–·-]', lambda odd: f"\\{ord(odd[0]):x} ", text, flags=re.ASCII) + '"'


# Small parts. Where style alone would part two texts, a blank or a comma does, too: browsers without styles show
# them one after the other.

# No sail has a comma in it, so that a boat isn't taken for one whose sail goes on as her helm's name begins. It is heard,
# and not seen.
COMMA = tag("i", ", ", class_="hidden")
# A browser without styles centres the cells of a row, too: then a rank would be beside a later line of a name that is broken, and
# not beside the sail.
TOP = {"valign": "top"}
# It isn't seen: what comes next goes on from left to right.
LEFT_TO_RIGHT = "\u200e"


def rem(pixels: int) -> str:
    """A length that grows with the size of text that somebody has chosen: so many pixels at the usual one."""
    return f"{pixels / 16:g}rem"


def points(text: str) -> Markup:
    whole, _, tenth = text.partition(".")
    return together(whole, tag("i", f".{tenth}"))


def code(word: str) -> Markup:
    meaning, kind = MEANING[word]
    return tag("abbr", word, class_=kind or None, title=meaning)


def sail_head(boat: Boat) -> Markup:
    """A boat's sail at the head of a row, in which something else comes next."""
    return tag("th", boat.sail, COMMA, scope="row", class_="sail")


def named(text: str) -> str:
    """A name in a row. One from right to left ends with a mark of this package: a browser of texts has a row on one line, and
    digits have no direction of their own, so points behind such a name would be shown in another order."""
    return f"{text}{LEFT_TO_RIGHT}" if is_right_to_left(text) else text


def who(boat: Boat) -> Markup:
    first, *rest = [text for text in (boat.helm, boat.name, boat.club) if text] or [""]
    mark = LEFT_TO_RIGHT if is_right_to_left(first + "".join(rest)) else ""
    return together(tag("b", first), " ", tag("span", " · ".join(rest), mark)) if rest else tag("b", first, mark)


def finding(view: Snapshot, sail: str) -> str:
    """What "Find" looks at in a row."""
    boat = view.boat(sail)
    return " ".join([boat.sail, boat.helm, boat.name, boat.club])


def name_heads(view: Snapshot) -> str:
    return "Helm, boat · club" if view.has_helms else "Boat, club"


def key(words: Sequence[str], more: Markup = NOTHING) -> Markup:
    """What the abbreviations of a page mean."""
    items = [together(tag("dt", code(word)), tag("dd", MEANING[word][0]))
             for word in MEANING if word in words]
    if not items and not more:
        return NOTHING
    return tag("section", tag("h2", "Key"), tag("dl", *items, more, class_="key"))


# The frame of each page

def nav(view: Snapshot, is_among: bool) -> Markup:
    """The way to the list of all series. Their names are there: on this page nothing could show that
    they are right. Its script asks for them."""
    if not is_among:
        return NOTHING
    items = [tag("li", tag("a", "All classes", href="../index.html")),
             tag("li", tag("a", view.label, href=f"../{view.address}/index.html", aria_current="true"))]
    return together(classes(items), "\n")


def classes(items: Sequence[Markup]) -> Markup:
    return tag("nav", tag("ul", *items, class_="classes"), aria_label="Classes")


def state(view: Snapshot) -> Markup:
    """Provisional, final or amended, and since when."""
    word, when = view.settings.state, view.when(view.changed)
    time = tag("time", when, datetime=view.changed.isoformat())
    return tag("div", tag("span", word.capitalize(), class_=f"word {word}"), "\n",
               tag("p", tag("span", "Last changed"), " ", time, class_="when"), class_="state")


def stale(view: Snapshot) -> Markup:
    """What the jury decided and the scores don't have as it has to be."""
    items = [tag("li", f"{text}.") for text in view.decided.stale]
    if not items:
        return NOTHING
    head = tag("b", "Decisions that these scores don’t have as they should:")
    return together(tag("div", head, tag("ul", *items), class_="reason stale"), "\n")


def head(view: Snapshot, is_among: bool, above: str, title: str, facts: Sequence[Markup],
         asides: Sequence[Markup] = ()) -> Markup:
    """What a page begins with. The asides are facts for which a phone has no room."""
    shown = view.settings
    said, changed = view.reasons
    noted = tag("p", said, class_=f"reason {shown.state}") if said else NOTHING
    alarm = tag("p", changed, class_="reason changed") if changed else NOTHING
    small = together(tag("small", above), " ") if above else NOTHING
    items = [*(tag("li", fact) for fact in facts), *(tag("li", fact, class_="aside") for fact in asides)]
    return together(nav(view, is_among),
                    tag("header", "\n", tag("h1", small, title), "\n", state(view), "\n"), "\n", noted, alarm,
                    stale(view), "\n", tag("ul", *items, class_="facts"))


def way(text: str, to: str, is_here: bool, is_open: bool = False) -> Markup:
    """The way to a race, or to the overall results."""
    hidden = tag("span", " not scored yet", class_="hidden") if is_open else NOTHING
    return tag("li", tag("a", text, hidden, href=to, aria_current="page" if is_here else None,
                         class_="open" if is_open else None))


def ways(view: Snapshot, here: int, prefix: str) -> Markup:
    """The way to the races, and back to the overall results."""
    items = [way("Overall", f"{prefix}index.html", here == 0)]
    items += [way(f"R{number}", f"{prefix}race-{number}.html", number == here,
                  number in view.open_races) for number in view.race_pages]
    return tag("nav", tag("ul", *items, class_="ways"), aria_label="Races")


def finder(more: Markup = NOTHING) -> Markup:
    """The field that finds a boat."""
    return tag("div", tag("label", "Find a boat by sail or name", for_="find", class_="hidden"),
               tag("input", type="search", id="find", placeholder="Find a sail or a name",
                   autocomplete="off", spellcheck="false"),
               tag("span", id="found", role="status"), more, class_="find")


def bar(view: Snapshot, here: int, prefix: str, more: Markup = NOTHING) -> Markup:
    """Above the table: the races, and the field that finds a boat."""
    return tag("div", ways(view, here, prefix), "\n", finder(more), class_="bar")


def foot(view: Snapshot, prefix: str | None = None) -> Markup:
    """What a page ends with. `prefix` leads to the series' own folder, if the page is of one."""
    sheet = NOTHING
    if prefix is not None:
        link = tag("a", "The results as a spreadsheet", href=f"{prefix}results.csv")
        sheet = together(" ", link, " (CSV).")
    scored = (f"Scored by regatta under {SCORING} Entry {view.series.entries} of the journal. "
              f"Seal {seal_words(view)}: raceoffice verify checks it.")
    return tag("footer", "\n", tag("p", scored, sheet), "\n", tag(
        "p", "Spotted a mistake? Ask the race office, within the time limit for requests for redress."),
        "\n")


def whole(view: Snapshot, title: str, body: Markup, style: str, prefix: str) -> str:
    """A page from its parts. `stamped` adds when it was confirmed."""
    live = "yes" if view.settings.state == "provisional" else "no"
    below = " · ".join([title, f"last changed {view.when(view.changed)}",
                        f"entry {view.series.entries}", "scored by regatta under Appendix A, "
                        "RRS 2025–2028"])
    style += (f"@page {{ @bottom-left {{ content: {styles(below)}; font: 7pt sans-serif; }} "
              '@bottom-right { content: "Page " counter(page) " of " counter(pages); white-space: nowrap; '
              "font: 7pt sans-serif; } }\n")
    return framed(title, live, view.settings.every, version_of(view), f"{prefix}now.json", body, style)


def without_scripts(now: str) -> tuple[Markup, Markup]:
    """What a page has for browsers that run no script, in its head and above its text."""
    if not now:
        return NOTHING, NOTHING
    refresh = tag("noscript", tag("meta", http_equiv="refresh", content="60"))
    beware = tag("noscript", tag("p", "Without scripts this page can't say whether it is out of date: "
                                 "reload it to be sure.", class_="reason provisional"))
    return together(refresh, "\n"), together(beware, "\n")


def script() -> Markup:
    """The script of a page, which is the same on all."""
    return raw("script", assets.script())


def framed(title: str, live: str, every: int, version: str, now: str, body: Markup, style: str = "",
           table: str = "table") -> str:
    """A page. `now` is where its script asks whether it is out of date; none, if it never is. `table` is
    the name of its first table."""
    refresh, beware = without_scripts(now)
    # Its words are the script's: a browser of texts shows what is hidden, too.
    alarm = tag("p", class_="alarm", id="alarm", role="alert", hidden=True)
    head = separated([
        "", tag("meta", charset="utf-8"),
        tag("meta", name="viewport", content="width=device-width, initial-scale=1"),
        tag("meta", name="color-scheme", content="light dark"), tag("title", title),
        raw("style", assets.style() + style), refresh], "\n")
    skip = tag("a", "To the table", class_="skip", href=f"#{table}")
    once = tag("p", class_="once", id="once", hidden=True)
    # A page may be long: what is put together here has no name, so that it isn't held longer than it takes.
    return document(tag(
        "html", "\n", tag("head", head), "\n",
        tag("body", separated(["", skip, alarm, once, together(beware, body), script(), ""], "\n")), "\n", lang="en",
        data_live=live, data_every=every, **UNCONFIRMED, data_version=version, data_now=now))


def is_ours(path: str) -> bool:
    """Whether a file is a page that a board has made."""
    return OURS.match(text_if_any(path, 1000)) is not None


def confirmed(page: str, checked: str, office: str) -> str:
    """The page with the moment at which it was confirmed last, and where from."""
    return page.replace(attributes(**UNCONFIRMED),
                        attributes(data_checked=checked, data_office=office), 1)
