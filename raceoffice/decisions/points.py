"""What each decision comes to by the program's figures, and the lines that bring the journal there.

The program is asked for the series without the decisions: with their redress cleared, with the codes
and penalties below it given back, and with boats that are TLE or NSC out of the finishing order. What
a decision adds is worked out here, by the rules that each function names.
"""
from __future__ import annotations

from collections.abc import Sequence
from dataclasses import dataclass, replace

from raceoffice.decisions.decision_lines import AVERAGES, NAME, PENALTIES, Ruling, ruling_text, rulings_of
from raceoffice.decisions.held import Holding, Known, about, cleared, holdings, marked, reinstated, restored
from raceoffice.errors import Trouble
from raceoffice.program.codes import AS_DNF, OF_JURY
from raceoffice.program.journal import Race, Series
from raceoffice.program.replay import Line, scored
from raceoffice.program.standing import Score, Standing
from raceoffice.remarks import Remark, remark
from raceoffice.wording import one_decimal

OUT = ("TLE", "NSC")
# What gives no points: redress that a boat holds is of another line.
POINTLESS = ("NSC", "REINSTATE")


@dataclass(frozen=True)
class Verdict:
    """A decision: the points it comes to, what the journal holds, and the lines that differ."""
    ruling: Ruling
    points: str = ""
    held: str = ""
    lines: tuple[Line, ...] = ()
    why: Remark | None = None

    @property
    def is_kept(self) -> bool:
        """Whether the journal has it as it is to be."""
        return not self.lines and not self.why

    def __str__(self) -> str:
        """What is wrong with it, after its text."""
        return f"{self.ruling}: {self.why or self.state}"

    @property
    def state(self) -> str:
        """What it comes to beside what the journal holds, if nothing bars it."""
        if self.is_kept:
            return f"{self.points} points" if self.points else "done"
        now = f"the journal has {self.held} points" if self.held else "the journal doesn't have it"
        wanted = f"{self.points} points by the scores as they are" if self.points else "to be sent"
        return f"{wanted}, and {now}"


@dataclass(frozen=True)
class Decided:
    """All decisions of a series, and the lines of the file that can't be read."""
    text: str = ""
    verdicts: tuple[Verdict, ...] = ()
    wrong: tuple[Remark, ...] = ()

    @property
    def labels(self) -> dict[tuple[int, str], str]:
        """What the cells of decisions show, by race and sail."""
        return {verdict.ruling.key: verdict.ruling.label for verdict in self.verdicts
                if verdict.ruling.label and (verdict.held or verdict.is_kept)}

    @property
    def stale(self) -> list[str]:
        """What isn't in the scores as it has to be, in words."""
        return [*self.wrong, *(f"{NAME}, line {verdict.ruling.line}: {verdict}"
                               for verdict in self.verdicts if not verdict.is_kept)]

    @property
    def lines(self) -> list[Line]:
        return [line for verdict in self.verdicts for line in verdict.lines]

    def verdict(self, race: int, sail: str) -> Verdict | None:
        return next((verdict for verdict in self.verdicts if verdict.ruling.key == (race, sail)), None)


def words_of(verdict: Verdict) -> str:
    """A decision as a note on a page says it."""
    said = ruling_text(verdict.ruling, verdict.held or verdict.points)
    if verdict.is_kept:
        return said
    if verdict.why:
        return f"{ruling_text(verdict.ruling, '')}. Not in the scores: {verdict.why}"
    wanted = f", and {verdict.points} by the scores as they are" if verdict.points else ""
    return f"{said}{wanted}. Out of date" if verdict.held else f"{said}. Not in the scores yet"


def decided(program: str, options: list[str], journal: Sequence[str], text: str) -> Decided:
    """What the decisions of a file come to, after this journal and under these rules."""
    rulings, wrong = rulings_of(text)
    try:
        found = weighed(program, options, journal, rulings) if rulings else []
    except Trouble as trouble:
        return Decided(text, (), (*wrong, remark("decisions-fault", why=trouble.said[0])))
    return Decided(text, tuple(found), tuple(wrong))


def weighed(program: str, options: list[str], journal: Sequence[str],
            rulings: list[Ruling]) -> list[Verdict]:
    """Each decision with its points and the lines that differ from what the journal holds."""
    held, series = holdings(journal), Series.read(list(journal))
    barred = {ruling: why_barred(ruling, series, held[ruling.key]) for ruling in rulings}
    figures = figured(program, options, journal, rulings, barred)
    lost = {ruling: why for ruling, why in figures.why.items() if ruling.kind == "TLE"}
    if lost:
        # Their boats stay as they are recorded, and so do the figures of the others.
        barred |= lost
        figures = figured(program, options, journal, rulings, barred)
    return [Verdict(ruling, why=barred[ruling]) if barred[ruling]
            else verdict(ruling, held[ruling.key], figures) for ruling in rulings]


def figured(program: str, options: list[str], journal: Sequence[str], rulings: list[Ruling],
            barred: dict[Ruling, Remark | None]) -> Figures:
    """The figures of the decisions that aren't barred, with their points."""
    held = holdings(journal)
    open_ones = [ruling for ruling in rulings if not barred[ruling]]
    base = [line for ruling in open_ones for line in without(ruling, held[ruling.key])]
    figures = Figures(program, options, journal, base, open_ones)
    for ruling in sorted(open_ones, key=lambda ruling: ruling.kind in AVERAGES):
        figures.work_out(ruling)
    return figures


def why_barred(ruling: Ruling, series: Series, held: Holding) -> Remark | None:
    """Why a decision can't be worked out, or can't be given; None if it can."""
    if ruling.sail not in series.boats:
        return remark("not-entered", sail=ruling.sail)
    if ruling.kind == "REINSTATE":
        return None if held.was_decided else remark("barred-undecided")
    if held.code in OF_JURY:
        return remark("barred-code", code=held.code)
    if held.redress and not held.is_points:
        return remark("barred-redress", how=held.redress)
    if ruling.kind in OUT and held.code not in ("", "DNF"):
        return remark("barred-holds", code=held.code)
    if ruling.kind != "NSC" and not series.race(ruling.race).counts:
        return remark("barred-open", races=[str(ruling.race)])
    return None


def without(ruling: Ruling, held: Holding) -> list[Line]:
    """The lines after which the journal is as it would be without a decision's points."""
    race, sail = ruling.race, ruling.sail
    if ruling.kind == "REINSTATE":
        return reinstated(race, sail, held)
    lines = [cleared(race, sail), *restored(race, sail, held)] if held.redress else []
    # A boat that is TLE or NSC isn't in the order: each boat behind her moves up (RRS A6.1).
    return lines + ([marked(race, sail, "DNF")] if ruling.kind in OUT and not held.code else [])


def taken_out(ruling: Ruling, journal: Sequence[str], known: Known = Known()) -> list[Line]:
    """The lines after which a boat holds what she would without a decision that is taken out. What REINSTATE took away
    doesn't come back."""
    race, sail = ruling.key
    held, kept = holdings(journal)[ruling.key], beneath(ruling, journal, known)
    if ruling.kind == "REINSTATE" or held.kinds == kept.kinds:
        return []
    redress = [Line("JURY", f"REDRESS {race} {sail} {kept.redress}")] if kept.redress else []
    return [*([cleared(race, sail)] if held.is_any else []), *restored(race, sail, kept), *redress]


def beneath(ruling: Ruling, journal: Sequence[str], known: Known) -> Holding:
    """What a boat would hold without a decision. If its lines aren't known, her points are the decision's, and so is the
    DNF of a boat with a place, if that is TLE or NSC."""
    entries = about(journal, *ruling.key)
    others = [entry for entry in entries if entry not in known.of_decisions]
    last, is_known = {entry.split()[3]: entry for entry in others}, len(others) < len(entries)
    kept = holdings(others)[ruling.key]
    if kept.is_points and (last["REDRESS"] not in known.of_others or not is_known):
        kept = replace(kept, redress="")
    is_placed = Series.read(list(journal)).race(ruling.race).is_in_order(ruling.sail)
    if not is_known and ruling.kind in OUT and kept.code == "DNF" and is_placed and last["MARK"] not in known.of_others:
        kept = replace(kept, code="")
    return kept


def held_by(ruling: Ruling, journal: Sequence[str], known: Known) -> list[str]:
    """What a boat holds by a decision: `REDRESS`, its points, and `MARK`, the DNF of TLE or NSC. What another line is known to
    have given her since isn't the decision's."""
    held, last = holdings(journal)[ruling.key], {entry.split()[3]: entry for entry in about(journal, *ruling.key)}
    has = {"REDRESS": held.is_points and ruling.kind not in POINTLESS, "MARK": held.code == "DNF" and ruling.kind in OUT}
    return [command for command, is_held in has.items() if is_held and last[command] not in known.of_others]


def verdict(ruling: Ruling, held: Holding, figures: Figures) -> Verdict:
    """What a decision comes to, beside what the journal holds."""
    wanted, why = figures.points.get(ruling, ""), figures.why.get(ruling)
    has_code, points = held.code == "DNF" or ruling.kind not in OUT, "" if ruling.kind in POINTLESS else held.redress
    if why or wanted and wanted == points and has_code:
        return Verdict(ruling, wanted, points, (), why)
    lines = without(ruling, held)
    if wanted:
        lines.append(Line("JURY", f"REDRESS {ruling.race} {ruling.sail} {wanted}"))
    return Verdict(ruling, wanted, points, tuple(lines))


class Figures:
    """The program's figures for a series without its decisions, and what these come to."""

    def __init__(self, program: str, options: list[str], journal: Sequence[str], base: list[Line],
                 rulings: list[Ruling]) -> None:
        self.program, self.options = program, options
        self.sheet = scored(program, options, journal, base)
        self.series = Series.read(list(self.sheet.journal))
        self.cells = cells_of(Standing.read(list(self.sheet.table)))
        self.held = holdings(self.sheet.journal)
        self.rulings = rulings
        self.of_boats, self.counting = self.rulings_of_boats(), sorted({race for race, _ in self.cells})
        self.points: dict[Ruling, str] = {}
        self.why: dict[Ruling, Remark] = {}
        # Each race is looked at once, however many its decisions are.
        penalised = {ruling.race for ruling in rulings if ruling.kind in (*PENALTIES, "TLE")}
        limited = {ruling.race for ruling in rulings if ruling.after_last is not None}
        self.dnf = self.asked({race: self.dnf_lines(self.series.race(race)) for race in sorted(penalised)})
        self.last = self.asked({race: self.last_lines(self.series.race(race)) for race in sorted(limited)})

    def rulings_of_boats(self) -> dict[str, dict[int, Ruling]]:
        """The decisions about each boat, by their races."""
        found: dict[str, dict[int, Ruling]] = {}
        for ruling in self.rulings:
            found.setdefault(ruling.sail, {})[ruling.race] = ruling
        return found

    def asked(self, wanted: dict[int, tuple[str, list[Line]]]) -> dict[int, int]:
        """The tenths of a boat in each race after some lines; the program is asked if there are any."""
        lines = [line for _, more in wanted.values() for line in more]
        cells = self.cells
        if lines:
            sheet = scored(self.program, self.options, self.sheet.journal, lines)
            cells = cells_of(Standing.read(list(sheet.table)))
        return {race: cells[race, sail].tenths for race, (sail, _) in wanted.items() if sail}

    def dnf_lines(self, race: Race) -> tuple[str, list[Line]]:
        """A boat whose score is that for Did Not Finish, and the lines after which it is.

        She came to the starting area already, so under RRS A5.3 the score stays what it is.
        """
        number = race.number
        coded = [sail for sail in self.series.boats if self.cells[number, sail].code in AS_DNF]
        if coded:
            return coded[0], []
        came = [sail for sail in self.series.boats if self.came(number, sail)] or self.series.boats
        marking = [marked(number, came[0], "DNF")]
        if self.held[number, came[0]].is_any:
            return came[0], [cleared(number, came[0]), *marking]
        return came[0], marking

    def last_lines(self, race: Race) -> tuple[str, list[Line]]:
        """A boat with the points of the last place, and the lines that take penalties and redress
        from her."""
        group = race.finished()[-1:]
        if not group:
            return "", []
        plain = [sail for sail in group[0] if not self.cells[race.number, sail].code]
        return (plain[0], []) if plain else (group[0][0], [cleared(race.number, group[0][0])])

    def came(self, number: int, sail: str) -> bool:
        """Whether a boat came to the starting area: her status isn't DNC."""
        race = self.series.race(number)
        return race.codes.get(sail, "" if race.is_in_order(sail) else "DNC") != "DNC"

    def work_out(self, ruling: Ruling) -> None:
        """Finds a decision's points, or why it has none."""
        if ruling.kind in PENALTIES:
            self.points[ruling] = one_decimal(self.penalised(ruling))
        elif ruling.kind == "TLE":
            self.work_out_limit(ruling)
        elif ruling.kind in AVERAGES:
            self.work_out_average(ruling)

    def penalised(self, ruling: Ruling) -> int:
        """The tenths of a boat with a penalty (RRS 44.3(c)): the score without it, made worse by the
        percentage of the score for Did Not Finish, but no worse than that score."""
        before, dnf = self.cells[ruling.race, ruling.sail].tenths, self.dnf[ruling.race]
        amount = self.share(ruling.race, ruling.percent) if ruling.percent else ruling.tenths
        return max(before, min(dnf, before + amount))

    def share(self, race: int, percent: int) -> int:
        """The tenths of a percentage of the score for Did Not Finish, rounded to the nearest whole
        point, 0.5 upward (RRS 44.3(c))."""
        return (percent * (self.dnf[race] // 10) + 50) // 100 * 10

    def work_out_limit(self, ruling: Ruling) -> None:
        """TLE: points after those of the last boat that finished, or points as they are given.

        Her penalties make that worse, and nothing makes it worse than the score for Did Not Finish
        (RRS 44.3(c)).
        """
        race, after = ruling.race, ruling.after_last
        if after is not None and race not in self.last:
            self.why[ruling] = remark("barred-nobody", race=race)
            return
        tenths = ruling.tenths if after is None else self.last[race] + 10 * after
        tenths += sum(self.cost(race, kind) for kind, _ in self.held[ruling.key].penalties)
        self.points[ruling] = one_decimal(min(tenths, self.dnf[race]))

    def cost(self, race: int, kind: str) -> int:
        """The tenths that one of the program's penalties costs (RRS 30.2, 44.3(c))."""
        stated = dict(zip(self.options, self.options[1:])).get("--scp", "")
        return 10 * int(stated) if kind == "SCP" and stated else self.share(race, 20)

    def work_out_average(self, ruling: Ruling) -> None:
        """The average of a boat's points in some races, to the nearest tenth of a point, 0.05 upward
        (RRS A9(a), A9(b)). It counts no race in which she has an average herself."""
        averaged = self.averaged(ruling.sail)
        counted = [race for race in self.counting if (race, ruling.sail) in self.cells]
        races = ruling.chosen or [race for race in counted if race not in averaged
                                  and self.is_counted(ruling, race)]
        missing = [str(race) for race in races if race not in counted]
        itself = [str(race) for race in races if race in averaged]
        if missing or itself or not races:
            self.why[ruling] = (remark("barred-open", races=missing) if missing else
                                remark("barred-average", races=itself) if itself else remark("barred-alone"))
            return
        total, count = sum(self.tenths(race, ruling.sail) for race in races), len(races)
        self.points[ruling] = one_decimal((2 * total + count) // (2 * count))

    def averaged(self, sail: str) -> set[int]:
        """The races in which a boat has an average as redress."""
        found = {race for race, ruling in self.of_boats.get(sail, {}).items() if ruling.kind in AVERAGES}
        return found | {number for number, race in self.series.races.items()
                        if race.redress.get(sail) in ("ALL", "PRIOR")}

    def is_counted(self, ruling: Ruling, race: int) -> bool:
        """Whether an average without a list of races counts a race."""
        if ruling.how == "before":
            return race < ruling.race
        return ruling.how == "all" or self.came(race, ruling.sail)

    def tenths(self, race: int, sail: str) -> int:
        """A boat's points in a race, by another decision if there is one."""
        ruling = self.of_boats.get(sail, {}).get(race)
        other = self.points.get(ruling, "") if ruling else ""
        return Score(other, "", False).tenths if other else self.cells[race, sail].tenths


def cells_of(standing: Standing) -> dict[tuple[int, str], Score]:
    """Each score of a table, by race and sail."""
    return {(race, row.sail): score for row in standing.rows
            for race, score in zip(standing.races, row.scores)}
