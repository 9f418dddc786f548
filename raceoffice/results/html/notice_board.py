"""The notice board's page: the results of all classes in one file, for screens and for paper. It is
never out of date, since it says up to which entry of the journal it is."""
from __future__ import annotations

import dataclasses
from collections.abc import Callable, Iterator, Sequence

from raceoffice.results.html import overall
from raceoffice.results.html.chart import chart
from raceoffice.results.html.markup import NOTHING, Markup, separated, tag, together
from raceoffice.results.html.page import classes, finder, foot, framed, head, rem
from raceoffice.results.html.sealing import block, version_of
from raceoffice.results.snapshot import Snapshot, told_apart


def placed(views: Sequence[Snapshot]) -> list[Snapshot]:
    """The classes, each with what it is called, and with the beginning of the names of its places in the page."""
    return [dataclasses.replace(view, ids=f"c{at}-" if len(views) > 1 else "")
            for at, view in enumerate(told_apart(views), 1)]


def ways(views: Sequence[Snapshot]) -> Markup:
    """The way to each class."""
    if len(views) < 2:
        return NOTHING
    return together(classes([tag("li", tag("a", view.label, href=f"#{view.ids}class")) for view in views]), "\n")


def section(view: Snapshot, at: int) -> Markup:
    """One class."""
    begun = head(view, False, view.settings.club, view.title, overall.facts(view),
                 overall.asides(view))
    return tag("section", separated([
        "", begun, overall.table(view, None), overall.second_table(view, None), chart(view),
        overall.notes(view), foot(view), ""], "\n"), class_=f"standing class-{at}",
        id=f"{view.ids}class")


def style(views: Sequence[Snapshot]) -> str:
    """The style of all classes: on paper that of the class with the most races, or else boats."""
    most = max(views, key=lambda view: (len(view.standing.races), len(view.standing.rows)))
    paper = overall.paper_style(max(len(view.standing.rows) for view in views),
                                len(most.standing.races))
    each = "".join(overall.style(view, f".standing.class-{at}") for at, view in enumerate(views))
    wide = max(map(overall.fits, views)) + 60
    return (f"main.results {{ --wide: {rem(wide)}; }}\n{each}@media print {{ {paper} "
            ".standing ~ .standing { break-before: page; } }\n")


def title_of(views: Sequence[Snapshot]) -> str:
    titles = list(dict.fromkeys(view.settings.title for view in views))
    states = list(dict.fromkeys(view.settings.state for view in views))
    name = titles[0] if len(titles) == 1 else "Results"
    return f"{name} · {' and '.join(states)}"


def sections(views: Sequence[Snapshot], ask: Callable[[], None]) -> Iterator[Markup]:
    """The classes, before each of which `ask` is called."""
    for at, view in enumerate(views):
        ask()
        yield section(view, at)


def results(views: Sequence[Snapshot], ask: Callable[[], None] = lambda: None) -> str:
    """The page of all classes. Before each `ask` is called, which may end it by what it raises."""
    found = placed(views)
    body = tag("main", separated([
        "", together(ways(found), tag("div", finder(overall.more_names(found[0])), class_="bar")),
        *sections(found, ask), block("results", views), ""], "\n"),
        class_="results")
    return framed(title_of(found), "no", found[0].settings.every, "-".join(map(version_of, views)), "",
                  body, style(found), f"{found[0].ids}table")
