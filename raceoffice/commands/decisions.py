"""Decisions for which the program has no line: penalties in percent, time limits, averages.

    raceoffice decisions [show|check|send] FOLDER [--json]

They are the lines of decisions.txt in the series' folder:

    race 3 GBR7 PRP 30%          a penalty of 30% of the score for Did Not Finish; DPI, T1, SCP too
    race 3 GBR7 DPI 2            a penalty of two points
    race 1 FRA9 TLE last+2       two points more than the last boat that finished
    race 4 IRL5 NSC              out of the finishing order, and scored as DNF
    race 5 GBR7 AVG 1,2,4        the average of these races; also sailed, all or before
    race 3 NED1 DUTY sailed      the average of the races that she sailed
    race 2 K12 REINSTATE         what the jury gave her there goes, what the committee gave stays

`show` lists what each comes to, and the lines that the journal lacks. `check` names each decision
that isn't in the scores as it has to be. `send` asks, and sends the lines to the open office. Text after # is
a note.

The status is 0 if all are in the scores, 1 if one isn't or a line wasn't taken, and 130 after Ctrl-C.

With --json `show` and `check` print an object: `decisions`, each with its `text`, `line`, `points`, `held`,
`why`, `is_kept` and `lines`; `stale`, what isn't in the scores as it has to be; and `unexplained`.

    raceoffice decisions cup
    raceoffice decisions send cup
"""
from __future__ import annotations

import argparse
import contextlib
from dataclasses import dataclass

from raceoffice import system
from raceoffice.decisions import decision_lines
from raceoffice.decisions.held import holdings
from raceoffice.decisions.points import Decided, decided
from raceoffice.exit_status import status_of, tell_json
from raceoffice.program.replay import Line
from raceoffice.series.run_program import options_in_force
from raceoffice.series.sender import Sender
from raceoffice.terminal import question, say, say_json, sentence
from raceoffice.wording import count

@dataclass(frozen=True)
class State:
    """The decisions at one moment, and the journal with which they were compared."""
    decided: Decided
    journal: tuple[str, ...]


class Decisions(Sender):
    """A series with its decisions."""

    def state(self) -> State:
        """The decisions by the rules in force."""
        journal, options = self.sheet().journal, options_in_force(self.folder)
        text = decision_lines.read(self.folder.path)
        return State(decided(self.folder.program, options, journal, text), journal)


def with_role(line: Line) -> str:
    """A line that somebody may have to type."""
    return f"      {line}   ({line.role.lower()})"


def shown(found: Decided) -> list[str]:
    """What each decision comes to, and the lines that differ from the journal."""
    said = [f"   {sentence(text)}" for text in found.wrong]
    for verdict in found.verdicts:
        said.append(f"   {sentence(verdict)}")
        said += map(with_role, verdict.lines)
    return said


def unexplained(state: State) -> list[str]:
    """Redress in points that no decision explains: it may be the jury's own, or that of a line that
    was taken out."""
    ruled = {verdict.ruling.key for verdict in state.decided.verdicts}
    return [f"   Race {race}, {sail}: the journal has redress of {held.redress} points, and "
            f"{decision_lines.NAME} has no line for it."
            for (race, sail), held in sorted(holdings(state.journal).items())
            if held.is_points and (race, sail) not in ruled]


def show(series: Decisions) -> int:
    """Lists all decisions; the status is 1 if one isn't in the scores as it has to be."""
    state = series.state()
    found = state.decided
    say("\n".join(shown(found) or [f"{decision_lines.NAME} has no decisions."]))
    for text in unexplained(state):
        say(text)
    if found.lines:
        lines = count(len(found.lines), "line")
        say(f"{lines} to send: {series.folder.command('decisions send')}")
    return 1 if found.stale else 0


def value_of(state: State) -> dict[str, object]:
    """The decisions for programs."""
    found = [{"text": str(verdict.ruling), "line": verdict.ruling.line, "points": verdict.points,
              "held": verdict.held, "why": verdict.why or "", "is_kept": verdict.is_kept,
              "lines": [vars(line) for line in verdict.lines]} for verdict in state.decided.verdicts]
    return {"decisions": found, "stale": state.decided.stale,
            "unexplained": [text.strip() for text in unexplained(state)]}


def show_json(series: Decisions) -> int:
    """Prints all decisions for programs; the status is 1 if one isn't in the scores as it has to be."""
    state = series.state()
    say_json(value_of(state))
    return 1 if state.decided.stale else 0


def say_stale(found: Decided) -> int:
    """Names the decisions that aren't in the scores as they have to be; the status."""
    for text in found.stale:
        say(sentence(text))
    return 1 if found.stale else 0


def check(series: Decisions) -> int:
    """Names the decisions that aren't in the scores, and says how many are; the status."""
    found = series.state().decided
    status = say_stale(found)
    kept = sum(verdict.is_kept for verdict in found.verdicts)
    say(f"{count(kept, 'decision')} in the scores, {count(len(found.stale), 'other')} out of date or in "
        "doubt.")
    return status


def taken(series: Decisions, lines: list[Line]) -> int:
    """Sends lines up to the first that isn't taken, says how many were and lists the others; how many were. Ctrl-C comes once
    that is said."""
    with system.stops_deferred():
        left = series.send(lines)
        if left:
            # What a CLEAR before them took is in these lines alone.
            say("Not sent, and to be typed in this order:")
        for line in left:
            say(with_role(line))
        number = len(lines) - len(left)
        say(f"{number} of {count(len(lines), 'line')} taken.")
    return number


def send(series: Decisions) -> int:
    """Sends the lines that the journal lacks, after a question; the status."""
    series.office()
    first = series.state()
    lines = first.decided.lines
    say("\n".join(shown(first.decided)))
    if not lines:
        say("Nothing is to be sent.")
        return 1 if first.decided.stale else 0
    if not question(f"Send {count(len(lines), 'line')}?"):
        say("Not sent.")
        return 1
    # Others type meanwhile, and a line of theirs may change what a decision comes to.
    if series.state().decided != first.decided:
        say("Somebody else has typed meanwhile, and the decisions come to something else now. Nothing "
            "was sent: send again.")
        return 1
    number = taken(series, lines)
    return 1 if number < len(lines) else say_stale(series.state().decided)


def work_out(folder: str, what: str) -> int:
    """Does a command; the status."""
    with contextlib.closing(Decisions(folder, "decisions")) as series:
        return {"show": show, "check": check, "send": send, "json": show_json}[what](series)


def arguments(parser: argparse.ArgumentParser) -> None:
    parser.add_argument("what", nargs="?", default="show", choices=["show", "check", "send"])
    parser.add_argument("folder", help="the folder of a series")
    parser.add_argument("--json", action="store_true", help="print what was found for programs")
    parser.set_defaults(complain=parser.error)


def run(asked: argparse.Namespace) -> int:
    if asked.json and asked.what == "send":
        asked.complain("--json goes with show and check")
    what = "json" if asked.json else asked.what
    return status_of(lambda: work_out(asked.folder, what), asked.folder, tell_json if asked.json else say)
