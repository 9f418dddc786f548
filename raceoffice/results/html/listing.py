"""The list of several series, which is the page before theirs."""
from __future__ import annotations

from collections.abc import Sequence

from raceoffice.results.html.markup import NOTHING, Markup, separated, tag, together
from raceoffice.results.html.page import SCORING, framed
from raceoffice.results.html.sealing import block, digest, version_of
from raceoffice.results.snapshot import Snapshot, told_apart
from raceoffice.wording import count


def version(views: Sequence[Snapshot]) -> str:
    """Another text whenever one of the series is another."""
    return digest("".join(view.name + version_of(view) for view in views))[:8]


def leaders(view: Snapshot) -> Markup:
    """Who is first. Of boats that share the rank there are sails alone, up to three, and how many others do. A helm has a
    line of its own: no name can be taken for another boat."""
    first = [row for row in view.standing.rows if row.rank == 1] if view.standing.races else []
    boats = [view.boat(row.sail) for row in first[:3]]
    which = "Leads" if view.settings.state == "provisional" else "First"
    sails = [tag("b", boat.sail) for boat in boats] + ([together(len(first) - 3, " more")] if len(first) > 3 else [])
    if not sails:
        return NOTHING
    helm = tag("p", "Helm: ", boats[0].helm, class_="sub") if len(first) == 1 and boats[0].helm else NOTHING
    return together(tag("p", which, ": ", separated(sails, " and ")), helm)


def entry(view: Snapshot, above: Sequence[str]) -> Markup:
    """A series in the list: what isn't above it already, how far it is, and who leads."""
    shown, stale = view.settings, len(view.decided.stale)
    sub = " · ".join(text for text in (shown.title, shown.club)
                     if text and text not in (shown.group or shown.title, *above))
    boats = count(len(view.standing.rows), "boat")
    beware = tag("p", count(stale, "decision"), " that these scores don’t have as they should.",
                 class_="reason stale") if stale else NOTHING
    changed = view.reasons[1]
    alarm = tag("p", changed, class_="reason changed") if changed else NOTHING
    return tag(
        "li", tag("h2", tag("a", view.label, href=f"{view.address}/index.html"), " ",
                  tag("span", shown.state.capitalize(), class_=f"word {shown.state}")),
        tag("p", sub, class_="sub"),
        tag("p", f"{boats}, {count(len(view.standing.races), 'race')} scored"), leaders(view), alarm, beware,
        tag("p", tag("span", "Last changed"), f" {view.when(view.changed)}", class_="when"),
        tag("p", tag("a", "Spreadsheet", href=f"{view.address}/results.csv"), " (CSV)", class_="sub"))


def listing(views: Sequence[Snapshot]) -> str:
    """The page before the pages of several series."""
    titles = list(dict.fromkeys(view.settings.title for view in views))
    clubs = list(dict.fromkeys(view.settings.club for view in views if view.settings.club))
    title = titles[0] if len(titles) == 1 else "Results"
    small = together(tag("small", clubs[0]), " ") if len(clubs) == 1 else NOTHING
    above = [texts[0] for texts in (titles, clubs) if len(texts) == 1]
    is_live = any(view.settings.state == "provisional" for view in views)
    body = tag("main", separated([
        "", tag("header", tag("h1", small, title)),
        tag("ul", "\n", *(entry(view, above) for view in told_apart(views)), "\n", class_="list", id="table"),
        tag("footer", tag("p", f"Scored by regatta under {SCORING}")), block("list", views), ""], "\n"),
        class_="series")
    every = max((view.settings.every for view in views), default=5)
    return framed(title, "yes" if is_live else "no", every, version(views), "now.json", body)
