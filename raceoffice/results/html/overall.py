"""The page of the overall results."""
from __future__ import annotations

from collections.abc import Sequence

from raceoffice.decisions.points import words_of
from raceoffice.program.codes import AS_DNF
from raceoffice.program.standing import Row, Score
from raceoffice.results.html.markup import NOTHING, Markup, separated, tag, together
from raceoffice.results.html.page import (COMMA, TOP, bar, code, finding, foot, head, key, name_heads, named, points, rem,
                                          sail_head, who, whole)
from raceoffice.results.html.sealing import block
from raceoffice.results.snapshot import Snapshot
from raceoffice.wording import TIMES, joined, ordinal, spans

# On paper the races after these are in a second table.
MOST_COLUMNS = 24
# The letters that mark ties.
LETTERS = 26
# On paper this many boats leave room for the notes below them, in large letters.
MOST_ROOMY = 12
MOST_ACROSS, MOST_IN_ONE_LINE, MOST_UPRIGHT = 16, 24, 26
# On paper: letters of a small series, and those of one with many races.
ROOMY = """body { font-size: 10.5pt; } th, td { padding: 1mm .8mm .8mm; }
.r abbr { font-size: 7.5pt; } .who span { font-size: 8.5pt; } .notes { font-size: 9pt; }
.notes section { break-inside: avoid; } th.sail { width: 23mm; }
.r { width: 17mm; } .net { width: 17mm; } .total { width: 17mm; }"""
DENSE = """body {{ font-size: {0}pt; }} .r abbr {{ font-size: {1}pt; }} .who span {{ font-size: {2}pt; }}
th, td {{ padding: .65mm .3mm .35mm; }} thead th {{ font-size: {3}pt; }} thead th.r {{ padding-right: .8mm; }}
.net {{ width: 11mm; }}"""
# A sheet upright has room for more boats and fewer races, and one across for few boats with the names in one
# line each.
UPRIGHT = "@page { size: A4 portrait; } .notes { columns: 3; }"
IN_ONE_LINE = """.who b, .who span { display: inline; } .who b::after { content: " "; white-space: pre; }
body { font-size: 7.4pt; } th, td { padding: .4mm .6mm 0; } .r abbr { font-size: 5.6pt; line-height: 1; }
.notes { font-size: 6.4pt; columns: 5; }"""


# The table

def tie_words(view: Snapshot, group: Sequence[Row]) -> str:
    """How the boats of a tie were ranked."""
    said = [broken(view, better, worse) for better, worse in zip(group, group[1:])]
    return f"{group[0].net} points each. " + " ".join(said)


def broken(view: Snapshot, better: Row, worse: Row) -> str:
    """By which rule one boat is ranked ahead of another, and with which scores."""
    one, other = view.boat(better.sail).sail, view.boat(worse.sail).sail
    found = view.explanation.separations.get((better.sail, worse.sail))
    if found is None:
        return f"{one} and {other} have identical scores and share the rank."
    scores = f"{found.better} to {found.worse}"
    if found.rule == "A8.1":
        which = "best score" if found.at == 1 else f"{ordinal(found.at)}-best score"
        return f"{one} beats {other} on A8.1: {which} {scores}."
    race = ("the last race" if found.at == view.standing.races[-1]
            else "the last race in which they differ")
    return (f"{one} beats {other} on A8.2: their counting scores are identical, so {race} decides, "
            f"{scores} in race {found.at}.")


def letter(number: int) -> str:
    return chr(97 + number) if number < LETTERS else letter(number // LETTERS - 1) + letter(number % LETTERS)


def cell(score: Score) -> Markup:
    """A score, with its abbreviation below it."""
    below = together(" ", code(score.code)) if score.code else NOTHING
    if score.excluded:
        shown = tag("del", "(", points(score.points), tag("s", ")"), class_="p")
        return tag("td", shown, tag("span", " excluded", class_="hidden"), below, class_="r")
    is_win = score.points == "1.0" and not score.code
    return tag("td", tag("span", points(score.points), class_="p"), below,
               class_="r win" if is_win else "r")


def rank(view: Snapshot, row: Row) -> Markup:
    if not view.standing.races:
        return tag("td", tag("span", "–"), class_="rank")
    medal = f"m{row.rank}" if row.rank <= 3 else None
    return tag("td", tag("span", row.rank, "=" if row.shared else "", class_=medal), class_="rank")


def line(view: Snapshot, row: Row, mark: str) -> Markup:
    """A boat's row in the overall results."""
    boat = view.boat(row.sail)
    tie = NOTHING
    if mark:
        tie = together(" ", tag("a", mark, href=f"#{view.ids}tie-{mark}", aria_label=f"tie, note {mark}"))
    total = tag("td", points(view.totals[row.sail]), class_="total") if view.totals else NOTHING
    net = points(row.net) if view.standing.races else together("–")
    name = named(boat.helm or boat.name)
    helm = tag("span", name, class_="helm") if name else NOTHING
    return tag("tr", rank(view, row), tag("th", boat.sail, COMMA, helm, scope="row", class_="sail"),
               tag("td", who(boat), class_="who"), tag("td", net, tie, class_="net"),
               *map(cell, row.scores), total, id=f"{view.ids}{row.sail}",
               data_find=finding(view, row.sail), **TOP)


def race_heads(races: Sequence[int], prefix: str | None) -> Markup:
    """The headings of the races, which lead to their pages unless there are none."""
    if prefix is None:
        return together(*(tag("th", f"R{number}", scope="col", class_="r", aria_label=f"Race {number}")
                          for number in races))
    return together(*(tag("th", tag("a", f"R{number}", href=f"{prefix}race-{number}.html",
                                    aria_label=f"Race {number}"), scope="col", class_="r")
                      for number in races))


def table(view: Snapshot, prefix: str | None) -> Markup:
    marks = {row.sail: letter(at) for at, group in enumerate(view.ties()) for row in group}
    rows = [line(view, row, marks.get(row.sail, "")) for row in view.standing.rows]
    excluded = " Scores in brackets and struck through are excluded." if view.totals else ""
    caption = (f"Overall results, {view.label}: rank, sail, names, net points and the score of each "
               f"race.{excluded}")
    heads = [tag("th", text, scope="col", class_=name) for text, name in
             (("Rank", "rank"), ("Sail", "sail"), (name_heads(view), "who"), ("Net", "net"))]
    total = tag("th", "Total", scope="col", class_="total") if view.totals else NOTHING
    made = tag("table", "\n", tag("caption", caption, id=f"{view.ids}caption", class_="hidden"), "\n",
               tag("thead", "\n", tag("tr", *heads, race_heads(view.standing.races, prefix), total),
                   "\n"), "\n", tag("tbody", "\n", separated(rows, "\n"), "\n"), "\n")
    return tag("div", "\n", made, "\n", class_="scroll", id=f"{view.ids}table", role="region",
               aria_labelledby=f"{view.ids}caption", tabindex=0)


def second_table(view: Snapshot, prefix: str | None) -> Markup:
    """On paper: the races for which the first table has no room."""
    races = view.standing.races[MOST_COLUMNS:]
    if not races:
        return NOTHING
    rows = [tag("tr", rank(view, row),
                sail_head(view.boat(row.sail)), tag("td", who(view.boat(row.sail)), class_="who"),
                *map(cell, row.scores[MOST_COLUMNS:]), **TOP) for row in view.standing.rows]
    heads = [tag("th", text, class_=name) for text, name in
             (("Rank", "rank"), ("Sail", "sail"), (name_heads(view), "who"))]
    made = tag("table", "\n", tag("thead", tag("tr", *heads, race_heads(races, prefix))), "\n",
               tag("tbody", "\n", separated(rows, "\n"), "\n"), "\n")
    return tag("div", made, class_="paper")


# The notes below it

def ties(view: Snapshot) -> Markup:
    items = [tag("li", tag("b", letter(at), " "), tie_words(view, group), id=f"{view.ids}tie-{letter(at)}")
             for at, group in enumerate(view.ties())]
    if not items:
        return NOTHING
    return tag("section", tag("h2", "How ties were broken"), tag("ul", *items, class_="ties"))


def overall_key(view: Snapshot) -> Markup:
    used = {score.code for row in view.standing.rows for score in row.scores}
    more = NOTHING
    if view.totals:
        more = together(tag("dt", tag("del", "(4.0)")),
                        tag("dd", "excluded: doesn’t count towards the net score"),
                        tag("dt", "Total"), tag("dd", "all scores, before exclusions"))
    return key(sorted(used), more)


def absent_words(view: Snapshot) -> str:
    """What a boat scores that has no place, by the rule that applies."""
    boats = len(view.standing.rows)
    if view.settings.absent == "a53":
        return (f"RRS A5.3: {joined(AS_DNF)} score the number of boats that "
                "came to the starting area, plus one. DNC scores the number of boats entered, "
                f"{boats}, plus one.")
    return ("RRS A5.2: boats that did not start or finish, retired or were disqualified score the "
            f"number of boats entered, {boats}, plus one.")


def rules(view: Snapshot) -> Markup:
    """The rules that the scores follow, and the races that count."""
    shown, labels = view.settings, view.decided.labels
    codes = {score.code for row in view.standing.rows
             for race, score in zip(view.standing.races, row.scores) if (race, row.sail) not in labels}
    counts = [f"{TIMES[at]} from {races} races" for at, races in enumerate(shown.thresholds, 1)]
    says = [f"Worst scores excluded (RRS A2.1): {joined(counts)}." if counts else
            "No score is excluded.", absent_words(view)]
    amount = f"{shown.scp} points" if shown.scp else "20% of the score for DNF"
    if "SCP" in codes:
        says.append(f"SCP costs {amount}; it makes no score worse than DNF.")
    if "ZFP" in codes:
        says.append("ZFP costs 20% of the score for DNF; it makes no score worse than DNF.")
    says.append("Places by corrected time (RRS A3)." if shown.handicap
                else "Places by order of finishing.")
    yet = f" Not scored yet: {spans(view.open_races)}." if view.open_races else ""
    if view.standing.races:
        says.append(f"Races scored: {spans(list(view.standing.races))}.{yet}")
    return tag("section", tag("h2", "Scoring"), tag("ul", *(tag("li", text) for text in says)))


def redress_words(how: str) -> str:
    return {"ALL": "the average of her points in all other races (RRS A9(a))",
            "PRIOR": "the average of her points in the races before it (RRS A9(b))"}.get(
                how, f"{how} points, given by the jury")


def repeated(kinds: list[str]) -> str:
    """Several penalties of a boat in one race: `ZFP twice and SCP once`."""
    times = ["", "once", "twice"]
    each = [f"{kind} " + (times[kinds.count(kind)] if kinds.count(kind) < 3
                          else f"{kinds.count(kind)} times") for kind in dict.fromkeys(kinds)]
    return joined(each)


def decisions(view: Snapshot, numbers: Sequence[int]) -> Markup:
    """What a table of these races can't show: what was decided, how redress was given, and penalties that were
    repeated."""
    races = [view.race(number) for number in numbers]
    ruled = {verdict.ruling.key: words_of(verdict) for verdict in view.decided.verdicts if verdict.ruling.race in numbers}
    says = [(number, sail, text) for (number, sail), text in ruled.items()]
    says += [(race.number, sail, f"redress, {redress_words(how)}")
             for race in races for sail, how in race.redress.items()
             if (race.number, sail) not in ruled]
    says += [(race.number, sail, repeated(kinds)) for race in races
             for sail, kinds in race.penalties.items() if len(kinds) > 1]
    items = [tag("li", f"Race {number}, {view.boat(sail).sail}: {text}.")
             for number, sail, text in sorted(says)]
    if not items:
        return NOTHING
    return tag("section", tag("h2", "Redress and penalties"), tag("ul", *items))


def notes(view: Snapshot) -> Markup:
    """What is below the table."""
    return tag("div", ties(view), overall_key(view), rules(view), decisions(view, view.standing.races), class_="notes")


# The head, the style, and the page

def facts(view: Snapshot) -> list[Markup]:
    """The boats and races, and how many scores are excluded."""
    boats, races, worst = len(view.standing.rows), len(view.standing.races), view.excluded
    yet = "" if races else " scored yet"
    scores = f" worst {'score' if worst == 1 else 'scores'} excluded" if worst else " score excluded"
    return [together(tag("b", boats), " boat" if boats == 1 else " boats"),
            together(tag("b", races or "no"), " race" if races == 1 else " races", yet),
            together(tag("b", TIMES[worst]), scores)]


def asides(view: Snapshot) -> list[Markup]:
    """What places follow, and which rule gives the scores of boats without one."""
    order = "corrected time" if view.settings.handicap else "order of finishing"
    return [together("places by ", tag("b", order)),
            together("DNF etc. under ", tag("b", f"RRS A5.{view.settings.absent[-1]}"))]


def fits(view: Snapshot) -> int:
    """The width, in pixels with letters of the usual size, from which on the table needs no scrolling of its own."""
    return max(450 + 55 * len(view.standing.races) + (64 if view.totals else 0), 736)


def paper_style(boats: int, races: int) -> str:
    """The letters on paper, by the number of boats and races."""
    if boats <= MOST_ROOMY and races <= 8:
        return ROOMY
    if MOST_ACROSS < boats <= MOST_UPRIGHT and races <= 8:
        return UPRIGHT
    if MOST_ACROSS < boats <= MOST_IN_ONE_LINE and races <= 14:
        return IN_ONE_LINE
    letters = (6.2, 5.2, 5.6, 6.2) if races > 19 else (7.2, 5.8, 6.4, 7.2)
    return DENSE.format(*letters) if races > 14 else ""


def style(view: Snapshot, scope: str = "main.standing") -> str:
    """What depends on the number of columns. From the width `fits` on the page scrolls, and below it
    the table does: helms are below the sails then, and the other names are shown if they are asked for."""
    races, rows = len(view.standing.races), f"{scope} > .scroll"
    hidden = (f"{rows} .r:nth-child(n + {MOST_COLUMNS + 5}) {{ display: none; }}"
              if races > MOST_COLUMNS else "")
    # With more ties than letters a mark has two of these, which need more room beside the net.
    marks = (f"{rows} .net {{ padding-right: 2rem; }}\n@media print {{ {rows} .net {{ padding-right: 4.6mm; }} }}\n"
             if len(view.ties()) > LETTERS else "")
    return f"""{scope} {{ --wide: {rem(fits(view) + 160)}; }}
{marks}@media print {{ {hidden} }}
@media screen and (max-width: {rem(fits(view))}) {{
  {rows} {{ overflow: auto; max-height: calc(100dvh - 1rem); }}
  .alarm:not([hidden]) ~ main thead th {{ top: 0; }}
}}
@media screen and (min-width: 46.01rem) and (max-width: {rem(fits(view))}) {{
  {rows} .rank, {rows} th.sail, {rows} .net {{ position: sticky; z-index: 2; }}
  {rows} thead .rank, {rows} thead th.sail, {rows} thead .net {{ z-index: 4; }}
  {rows} .rank {{ left: 0; min-width: 3.2rem; }}
  {rows} th.sail {{ left: 3.2rem; width: 9.4rem; min-width: 9.4rem; max-width: 9.4rem; white-space: normal; overflow-wrap: anywhere; }}
  {rows} th.sail .helm {{ display: block; overflow: hidden; text-overflow: ellipsis; white-space: nowrap; }}
  {rows} .net {{ left: 12.6rem; box-shadow: inset -1px 0 var(--line); }}
  {rows} .who {{ display: none; }}
  :root:has(#more:checked) {rows} .who {{ display: table-cell; min-width: 13rem; }}
  .find label.more {{ display: flex; gap: .4rem; align-items: center; }}
}}
"""


def more_names(view: Snapshot) -> Markup:
    """The switch that shows more names on a phone."""
    return tag("label", tag("input", type="checkbox", id="more"), " ",
               "Boat, club" if view.has_helms else "Club", class_="more")


def overall(view: Snapshot, is_among: bool = False, is_top: bool = False) -> str:
    """The page of the overall results. It is among those of several series, or at the top of the pages
    of one, or in their folder."""
    prefix = f"{view.address}/" if is_top else ""
    carried = block("top", [view]) if is_top else block("overall", [view], among=is_among)
    body = tag("main", separated([
        "", head(view, is_among, view.settings.club, view.title, facts(view), asides(view)),
        bar(view, 0, prefix, more_names(view)), table(view, prefix), second_table(view, prefix),
        notes(view), foot(view, prefix), carried, ""], "\n"), class_="standing")
    boats, races = len(view.standing.rows), len(view.standing.races)
    printed = f"{style(view)}@media print {{ {paper_style(boats, races)} }}\n"
    return whole(view, f"{view.title} · {view.settings.state}", body, printed, prefix)
