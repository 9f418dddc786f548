"""Taps of a class by corrected time: they write the race's sheet of times, and what the program of times makes
of that goes to the office as lines."""
from __future__ import annotations

import contextlib
import dataclasses
import functools
import itertools
from collections.abc import Sequence

from raceoffice.corrected.sheets import Entry, entries_of, with_seconds
from raceoffice.corrected.times import Rules, Sheets
from raceoffice.corrected.unsent import unsent
from raceoffice.corrected.write_sheet import SheetOfRace
from raceoffice.errors import NotNow, NotSent, NotThere, Trouble
from raceoffice.files import stamp_of
from raceoffice.program.codes import OF_JURY
from raceoffice.program.replay import Line
from raceoffice.remarks import remark
from raceoffice.series.folder import Folder
from raceoffice.series.abandoned import last_abandoned
from raceoffice.series.race_sheets import races_with_sheet, sheet_name
from raceoffice.series.read_list import bytes_of
from raceoffice.series.sender import not_taken
from raceoffice.session.answers import changes_said
from raceoffice.session.dialogue import Said
from raceoffice.session.sending import is_meant, say_declared, transmit
from raceoffice.session.facts import Facts
from raceoffice.terminal import sentence
from raceoffice.web.race_start import by_clock_of_start, clock_of_race, clock_text, is_just_given, is_start_seen, zone_of_race
from raceoffice.web.row_changes import cells_of, is_answered, is_made, note_tapped_too
from raceoffice.web.states import Values, remarks_of
from raceoffice.web.tap_session import TapSession
from raceoffice.web.timed_undo import lines_back, time_before

# Seconds of a day.
DAY = 86400
# What a tap of such a class may begin with that is done here. Any other line is sent as it is.
TIMED = ("START", "TIMES", "FINISH", "ELAPSED", "STRIKE", "MARK", "CLEAR")

# What is said of whom one line has moved
OF_ONE_LINE = ("no-race", "no-move", "changed", "mixed", "moved", "declared")


def is_timed_tap(folder: Folder, line: str, role: str) -> bool:
    """Whether a tap is one for the sheet. What the jury gives is none, and of what is in a sheet it clears codes alone."""
    words = line.split() or [""]
    taps = ("CLEAR",) if role == "JURY" else TIMED
    return folder.settings.handicap and words[0] in taps and not (words[0] == "MARK" and words[-1] in OF_JURY)


class TimedTap:
    """One tap for the sheet of its race.

    The web may die between any two steps. The register has the tap before the sheet is written, with what it changes
    there, its lines once it was, and each line before it is sent. So the same tap again doesn't write a sheet that has, or
    had, what it makes of it, and sends what is left.
    """

    def __init__(self, session: TapSession, line: str) -> None:
        self.session, (self.command, number, *self.rest) = session, line.split()
        self.folder, self.race = session.folder, session.facts.race(number)
        self.sail = self.rest[0] if self.rest and self.command != "START" else ""
        if self.command == "FINISH" and self.rest[1:]:
            # It was typed, so that nobody saw her at the moment of the tap.
            session.tap = dataclasses.replace(session.tap, at=0)
        self.is_given_back = bool(session.lines_back(session.tap.undoes)) and len(self.rest) == 2
        # A rotten bit may have left its lines in the register, and not what the sheet had: then that is written again.
        self.is_begun, self.is_written = session.is_begun, session.is_begun and session.are_lines_noted
        # The lines that the journal has from an earlier try.
        self.taken = session.lines_taken(self.sail) if self.is_begun else []

    def is_taken(self) -> bool:
        """Writes what was tapped into the sheet, and sends the lines that differ; whether all were taken."""
        sent = self.session.register.sent.get(self.session.tap.id)
        if self.is_decided and not (sent and sent.made):
            # The office refuses it, and says why.
            return transmit(self.session, " ".join([self.command, str(self.race.number), *self.rest]))
        if not self.is_written and not self.is_sheet_written():
            return self.session.not_sent()
        lines = self.lines()
        if not self.is_written:
            self.session.note_lines([Line(self.role_of(line), line) for line in lines])
        self.session.is_of_several = True
        return self.are_taken(lines)

    def is_sheet_written(self) -> bool:
        """Writes what was tapped into the sheet, if that hasn't had it from an earlier try; whether that is meant."""
        # A code, or taking one away, may put a row right that somebody has written by hand.
        is_to_mend = self.command in ("MARK", "CLEAR")
        sheet, register = SheetOfRace(self.folder, self.race.number, is_to_mend), self.session.register
        before, sent = cells_of(sheet, self.sail), register.sent.get(self.session.tap.id)
        if sent and is_made(register, sent, before):
            # Somebody may have changed it since.
            return True
        if sent and sent.made and before != sent.was and not self.is_first_finish:
            raise NotSent(remark("sheet-changed"))
        self.change(sheet)
        sheet.need_mended()
        # All lines of a tap are about one race: what is asked of one is asked of all.
        if not is_meant(self.session, self.likely_line()):
            return False
        after = cells_of(sheet, self.sail)
        if self.sail and (not self.is_begun or before != after):
            # An older package may have written the sheet at an earlier try.
            self.session.note_back(lines_back(self.command, self.race, self.sail, before))
        line = " ".join([self.command, str(self.race.number), *self.rest])
        register.begin(dataclasses.replace(self.session.sent_now(self.session.tap.id, line), was=before, made=after))
        write(sheet)
        return True

    @property
    def is_decided(self) -> bool:
        """Whether only the jury may change what she holds."""
        is_of_jury = self.race.codes.get(self.sail) in OF_JURY or self.sail in self.race.redress
        return self.session.role != "JURY" and self.command in ("MARK", "CLEAR") and is_of_jury

    def role_of(self, line: str) -> str:
        """The role that sends a line: what the sheet gives back of a boat that the jury clears is the committee's."""
        return "SCORER" if self.session.role == "JURY" and not line.startswith("CLEAR ") else self.session.role

    @property
    def is_first_finish(self) -> bool:
        """Whether it takes nothing away, whatever the sheet has by now."""
        return self.command == "FINISH" and len(self.rest) == 1

    def are_taken(self, lines: Sequence[str]) -> bool:
        """Sends lines; whether all that the tap is about were taken. After a refusal no more is sent of that boat, and
        the others go on. The answer of a tap is that to its own boat. It is said how each boat is after her last line, and
        whom all lines have moved."""
        before, answers, said = self.session.answer, list[tuple[str, str]](), dict[str, list[Said]]()
        standing, length = self.session.facts.standing, len(self.session.facts.sheet.journal)

        def is_line_taken(line: str) -> bool:
            start, sail = len(self.session.said), line.split()[2]
            with self.session.in_role(self.role_of(line)):
                is_good = transmit(self.session, line)
            answers.append((sail, self.session.answer))
            said[sail] = [one for one in self.session.said[start:] if one.what not in OF_ONE_LINE]
            del self.session.said[start:]
            return is_good
        with self.session.following():
            not_taken(lines, is_line_taken)
        self.session.tell_all(itertools.chain(*said.values()))
        taken = [answer for _, answer in answers if answer.startswith("OK ")]
        if taken and self.session.facts.race(str(self.race.number)).counts:
            facts = self.session.facts
            is_mixed = len(facts.sheet.journal) != length + len(taken)
            self.session.tell_all(changes_said(facts, standing, facts.race(str(self.race.number)), is_mixed))
        say_declared(self.session, standing)
        own = [answer for sail, answer in answers if self.sail in ("", sail)]
        refused = [answer for answer in own if answer.startswith("NO ")]
        self.session.answer = next(iter(refused or own[-1:]), before)
        return not refused

    def likely_line(self) -> str:
        """A line as the tap may send it."""
        sail = self.sail or next(iter(self.session.facts.boats), "")
        if self.command in ("MARK", "CLEAR"):
            return " ".join([self.command, str(self.race.number), sail, *self.rest[1:]])
        return f"STRIKE {self.race.number} {sail}"

    def change(self, sheet: SheetOfRace) -> None:
        """Changes the sheet as it was tapped; NotSent if that can't be."""
        if self.command == "START":
            self.start(sheet)
        elif self.command == "TIMES" and not sheet.rows:
            raise NotSent(remark("no-sheet", race=self.race.number))
        elif self.command == "ELAPSED":
            sheet.give_back(self.sail, " ".join(self.rest[2:]), self.rest[1])
        elif self.command == "FINISH" and self.is_given_back:
            sheet.give_back(self.sail, self.rest[1])
        elif self.command == "FINISH":
            self.finish(sheet)
        elif self.command == "STRIKE":
            if not (sheet.take_finish(self.sail) or self.sail in self.race.times or self.is_begun):
                raise NotSent(remark("no-finish", boat=self.session.facts.called(self.sail), race=self.race.number))
        elif self.command == "MARK":
            sheet.code(self.sail, self.rest[-1])
        elif self.command == "CLEAR":
            sheet.code(self.sail, "")

    def start(self, sheet: SheetOfRace) -> None:
        """Gives the race its start. If it was abandoned after the tap, that is asked; and so is another start in place of one
        that boats have sailed by, or that the device didn't show."""
        register, at, before, race = self.session.register, self.session.tap.at, sheet.starts, self.race.number
        zone = zone_of_race(self.folder, register, race, at)
        is_sailed_by = bool(before) and (sheet.has_finishes or not is_just_given(zone, before[0], at))
        text = self.rest[0] if self.rest else clock_text(zone, at)
        self.rest = [text]
        sheet.start(text, self.session.facts.boats)
        if not before and (moment := last_abandoned(self.folder, race)) > at:
            self.session.is_yes(self.session.question("start-abandoned", race=race, written=sheet.starts[0], moment=moment))
        is_other = before not in ([], sheet.starts)
        if is_other and (is_sailed_by or not is_start_seen(register, race, before[0], self.session.tap, self.session.name)):
            self.session.is_yes(self.session.question("start-since", race=race, start=before[0], written=sheet.starts[0]))
        by_clock_of_start(self.folder, register, race, sheet, at)

    def finish(self, sheet: SheetOfRace) -> None:
        """Gives the boat her finish. A tap at a boat that has another one is noted."""
        try:
            sheet.finish(self.sail, *(self.rest[1:] or [self.clock(sheet)]))
        except NotSent:
            if self.is_first_finish and sheet.cell(sheet.row(self.sail), "finish"):
                note_tapped_too(self.session, f"FINISH {self.race.number} {self.sail}")
            raise

    def clock(self, sheet: SheetOfRace) -> str:
        """The moment of the tap by the clock of the race."""
        own = sheet.start_in(sheet.row(self.sail))
        start = own or (sheet.starts[0] if len(sheet.starts) == 1 else "")
        return clock_of_race(self.folder, self.session.register, self.race.number, start, self.session.tap.at)

    def lines(self) -> list[str]:
        """The lines after which the journal is as the sheet says. Without a start there are none yet."""
        own = [line for line in self.own_lines() if line not in self.taken]
        try:
            sheets, journal = Sheets(self.folder), self.session.facts.sheet.journal
            unrated = sheets.unrated(self.race.number, journal)
            found = sheets.beside(self.race.number, journal, [entry.sail for entry in unrated])
        except Trouble as trouble:
            self.session.say_of("sheet-waits", fault=sentence(trouble))
            return own
        for entry in [entry for entry in unrated if self.sail in ("", entry.sail)]:
            # She alone waits for her rating.
            fault = remark("timing-9", sail=entry.sail)
            self.session.say_of("sheet-waits", fault=remark("list-row", name=sheet_name(self.race.number), row=entry.number,
                                                            fault=fault))
        if self.session.role == "SCORER":
            self.say_left_out(found.strangers)
        others = [line for line in found.lines if line not in own]
        # In a race that counts somebody may have said No to what the sheet has of others.
        is_alone = self.sail and (self.race.counts or self.session.role == "JURY")
        left = own + [line for line in others if not is_alone or line.split()[2] == self.sail]
        return self.as_before(left) if is_alone and self.session.tap.undoes else left

    def as_before(self, lines: list[str]) -> list[str]:
        """The lines of an undo in a race that counts: its boat gets the time that she had. To what her sheet makes now,
        as after a new rating, somebody may have said No."""
        timed = [line for line in lines if line.split()[0] in ("STRIKE", "TIME")]
        had, has = time_before(self.session, self.race.number, self.sail), self.race.times.get(self.sail)
        if had is None or self.is_begun and not timed:
            # What somebody else has sent of her since an earlier try stays.
            return lines
        left = [f"STRIKE {self.race.number} {self.sail}"] if has not in (None, had) else []
        again = [] if has == had else [f"TIME {self.race.number} {self.sail} {had}"]
        return [line for line in lines if line not in timed] + left + again

    def say_left_out(self, sails: Sequence[str]) -> None:
        """Says whose rows are left out, until they are others once."""
        if self.session.left_out.is_new(str(self.race.number), " ".join(sails)):
            for sail in sails:
                self.session.say_of("row-left-out", sail=sail, name=sheet_name(self.race.number))

    def own_lines(self) -> list[str]:
        """The lines that aren't those of a finish or a code in the sheet. What somebody else has taken away or given since
        an earlier try isn't taken away again."""
        line, sent = f"{self.command} {self.race.number} {self.sail}", self.session.register.sent[self.session.tap.id]
        # If there is nothing to clear, the office says so.
        is_held = bool(self.race.held(self.sail)) or not self.is_begun and not sent.was.get("code")
        if self.command == "STRIKE" and self.sail in self.race.times or self.command == "CLEAR" and is_held:
            return [] if is_answered(self.session, sent) else [line]
        return []


def write(sheet: SheetOfRace) -> None:
    """Puts a sheet on the disk. If that has no room, nothing is wrong with the office: the tap waits."""
    try:
        sheet.write()
    except Trouble as trouble:
        raise NotNow(*trouble.said) from None


def with_typed_times(folder: Folder, typed: str) -> tuple[str, str]:
    """A finish that is typed by hand, without its time and with it alone: `FINISH 3 GBR7 15:07:31`, and after that the
    time that she had, if this is another. Any other line stays as it is."""
    words = typed.split()
    times = [word for word in words[3:5] if ":" in word]
    if not folder.settings.handicap or words[:1] != ["FINISH"] or not times or len(words) != 3 + len(times):
        return typed, ""
    return " ".join(words[:3]), " ".join(times)


def sheets_shown(folder: Folder) -> dict[int, Values]:
    """The sheets of a class by corrected time, by their races: the start, and each boat's finish, elapsed time
    and code; or what is wrong with one."""
    found: dict[int, Values] = {}
    races = races_with_sheet(folder) if folder.settings.handicap else []
    nights = nights_of(folder) if races else ()
    for race in races:
        path = folder.file(sheet_name(race))
        key, known = (stamp_of(path), race in nights), SHOWN.get(path)
        try:
            if known is None or known[0] != key:
                known = SHOWN[path] = (key, sheet_shown(path, race, race in nights))
            found[race] = known[1]
        except (NotThere, Trouble) as trouble:
            found[race] = {"start": "", "wrong": remarks_of(trouble.said), "rows": {}, "lacks": {}}
    return found


# The sheets that were shown last, by their files: pages ask for all of them after each tap.
SHOWN: dict[str, tuple[object, Values]] = {}


def sheet_shown(path: str, race: int, is_overnight: bool) -> Values:
    """The sheet of a race as it is now. NotThere or a Trouble if it can't be read."""
    rows, faults = entries_of(bytes_of(path), sheet_name(race))
    starts = sorted({row.cells["start"] for row in rows if row.cells["start"]})
    return {"start": starts[0] if len(starts) == 1 else "", "wrong": remarks_of(faults), "lacks": lacks(rows),
            "rows": {row.sail: row_shown(row, is_overnight, *starts[:1]) for row in rows if row.is_timed or row.code}}


def lacks(rows: Sequence[Entry]) -> dict[str, list[str]]:
    """The boats with a time that have no laps, if others have some, and those that have no distance. What a boat above has counts
    as her own."""
    timed = [row for row in rows if row.is_timed]
    without = {key: [row.sail for row in timed if not row.cells[key]] for key in ("laps", "distance")}
    return without if len(without["laps"]) < len(timed) else without | {"laps": []}


def races_begun(folder: Folder) -> list[int]:
    """The races whose sheets have a start or a time, as far as they can be read."""
    found = []
    for race in races_with_sheet(folder) if folder.settings.handicap else []:
        with contextlib.suppress(Trouble):
            rows, _ = entries_of(bytes_of(folder.file(sheet_name(race))), sheet_name(race))
            found += [race] if any(row.cells["start"] or row.is_timed for row in rows) else []
    return found


def races_waiting(folder: Folder, facts: Facts, sail: str) -> list[int]:
    """The races that don't count yet, and whose sheets have another time of a boat than the journal."""
    races = [facts.race(str(number)) for number in races_with_sheet(folder)]
    return [race.number for race in races if not race.counts and sail in unsent(folder, race.number, facts.sheet.journal).sails]


def nights_of(folder: Folder) -> tuple[int, ...]:
    """The races past midnight; none if the rules can't be read."""
    try:
        return Rules.read(folder).overnight
    except Trouble:
        return ()


def row_shown(row: Entry, is_overnight: bool, start: str = "") -> Values:
    """A row of a race whose first start is this. What can't be read in it is no time; that of a row without a code is a fault
    of the sheet."""
    took = at = None
    with contextlib.suppress(ValueError):
        at = crossed(row, is_overnight, start)
    with contextlib.suppress(ValueError):
        took = None if row.code else elapsed(row, is_overnight)
    return {"finish": row.cells["finish"], "code": row.code, "elapsed": took, "crossed": at}


def crossed(row: Entry, is_overnight: bool, start: str) -> int | None:
    """When a boat was at the line, in seconds of the day of her start; None if she has no time, or a code and no finish.
    Without a start of her own she has that of the race."""
    begun = row.cells["start"] or start
    began = seconds_of(with_seconds("start", begun)) if begun else 0
    if not row.cells["finish"]:
        return began + seconds_of(row.cells["elapsed"]) if row.cells["elapsed"] and not row.code else None
    at = seconds_of(with_seconds("start", row.cells["finish"]))
    return at + DAY if is_overnight and at < began else at


def elapsed(row: Entry, is_overnight: bool) -> int | None:
    """The seconds that a boat took, as they are given or from her start to her finish; None if they aren't known."""
    if row.cells["elapsed"]:
        return seconds_of(row.cells["elapsed"])
    if not row.cells["start"] or not row.cells["finish"]:
        return None
    seconds = seconds_of(with_seconds("start", row.cells["finish"])) - seconds_of(with_seconds("start", row.cells["start"]))
    return seconds + (DAY if seconds < 0 and is_overnight else 0) if seconds >= 0 or is_overnight else None


def seconds_of(time: str) -> int:
    """The seconds of a text as 1:02:31, 62:31 or 3751; a ValueError for any other."""
    return functools.reduce(lambda total, part: total * 60 + int(part), time.split(":"), 0)
