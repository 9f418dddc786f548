"""The corrected times of races beside the journal: the program computes each, and what differs is shown, or
sent as lines to the office."""
from __future__ import annotations

import contextlib
import os
import re
import subprocess
from collections.abc import Sequence
from dataclasses import dataclass
from fractions import Fraction

from raceoffice import system
from raceoffice.corrected.sheets import Entry, columns_left, entries_of, for_program
from raceoffice.errors import Trouble
from raceoffice.files import edited_text
from raceoffice.program.codes import OF_JURY
from raceoffice.program.find import found_program
from raceoffice.program.journal import Race, Series
from raceoffice.program.replay import Line, not_run, program_said
from raceoffice.remarks import ENGLISH, Remark, remark
from raceoffice.series import entry_list
from raceoffice.series.entry_list import SAIL, plain
from raceoffice.series.folder import Folder
from raceoffice.series.headings import rating_columns
from raceoffice.series.race_sheets import SHEETS, sheet_name
from raceoffice.series.read_list import as_csv, bytes_of, name_of, table_of
from raceoffice.series.sender import Sender
from raceoffice.series.settings import lines_of
from raceoffice.terminal import question, say
from raceoffice.wording import count, duration

RULES = "rules.ini"
KEYS = {"times": {"system": "", "rounding": "half-up", "overnight": "", "program": ""}}
SYSTEMS = {"tcf": "time on time", "py": "Portsmouth Yardstick", "tod": "time on distance"}
ROUNDINGS = {"half-up": "to the nearest second, halves up", "half-down": "to the nearest second, halves down",
             "down": "rounded down", "up": "rounded up"}
# Seconds that the program may take for a race.
PATIENCE = 60.0
FAULT = re.compile(r"times: (ratings|sheet) fault (\d+) row (\d+): (.*)")
NUMBER = "[0-9]{1,12}"
SUM = re.compile(f"({SAIL.pattern}) ({NUMBER}(?: [-+*/] {NUMBER})*) -> ([0-9]{{1,6}})")
# The note of a boat that the office doesn't know.
STRANGER = "not entered: her row is left out"


@dataclass(frozen=True)
class Rules:
    """The rules of times/rules.ini."""
    system: str
    rounding: str
    overnight: tuple[int, ...]
    program: str

    @classmethod
    def read(cls, folder: Folder) -> Rules:
        """The rules of a series; a Trouble says what is wrong with them."""
        path = folder.file(SHEETS, RULES)
        found, wrong = lines_of(edited_text(path), f"{SHEETS}/{RULES}", KEYS)
        if wrong:
            raise Trouble(*wrong)
        values = KEYS["times"] | {key: value for key, (_, value) in found.items()}
        if values["system"] not in SYSTEMS:
            raise Trouble(remark("times-rule", name=path, key="system", wanted=remark("wanted-system")))
        if values["rounding"] not in ROUNDINGS:
            raise Trouble(remark("times-rule", name=path, key="rounding", wanted=remark("wanted-rounding")))
        nights = [text.strip() for text in values["overnight"].split(",") if text.strip()]
        if not all(re.fullmatch("[0-9]{1,2}", night) for night in nights):
            raise Trouble(remark("times-rule", name=path, key="overnight", wanted=remark("wanted-races")))
        return cls(values["system"], values["rounding"], tuple(map(int, nights)),
                   program_of(folder, values["program"]))


def program_of(folder: Folder, named: str) -> str:
    """The program of corrected times: that of the rules, or one beside the program of the series or near."""
    if named:
        return folder.file(named)
    beside = os.path.dirname(folder.program)
    return found_program("times", beside, folder.file(os.pardir)) or os.path.join(beside, "times")


@dataclass(frozen=True)
class Time:
    """A boat's corrected time, and the sum that gave it."""
    sail: str
    sum: str
    seconds: int

    @property
    def exact(self) -> Fraction:
        """The time before it was rounded, from the sum."""
        total, sign = Fraction(0), 1
        for part in re.split(r" ([+-]) ", self.sum):
            if part in "+-":
                sign = 1 if part == "+" else -1
            else:
                total += sign * product(part.split())
        return total


def product(words: Sequence[str]) -> Fraction:
    """What a row of factors and divisors comes to: `3751 * 1000 / 1103`."""
    value = Fraction(words[0])
    for mark, number in zip(words[1::2], words[2::2]):
        value = value * int(number) if mark == "*" else value / int(number)
    return value


@dataclass(frozen=True)
class Rated:
    """The ratings of a race, as the program reads them, and the rows of the list that they are from."""
    data: bytes
    rows: tuple[int, ...]
    # The boats that have one.
    sails: frozenset[str]


def rated(data: bytes, path: str, race: int, system: str) -> Rated:
    """The ratings of a race, of the last column that holds: `Rating`, or `Rating from N`. A boat without
    one has none."""
    if wrong := entry_list.problems(data, path):
        raise Trouble(*wrong)
    table = table_of(data)
    begins = {first: at for first, at in rating_columns(table.heads, system).items() if first <= race}
    if not begins:
        raise Trouble(remark(f"ratings-missing-{system}", name=name_of(path), row=table.first))
    at = begins[max(begins)]
    sails = list(entry_list.boats_of(data))
    rows = [[sail, table.number(row, at)] for sail, (_, row) in zip(sails, table.rows)]
    return Rated(as_csv([["Sail", "Rating"], *rows]), tuple(number for number, _ in table.rows),
                 frozenset(plain(sail) for sail, rating in rows if rating.strip()))


def program_fault(fault: str, sheet: str, ratings: str, rows: dict[str, Sequence[int]]) -> Remark:
    """What the program says of a list, with the file and its row. `rows` are the numbers of those that it
    was given."""
    found = FAULT.fullmatch(fault)
    if not found:
        return program_said(fault.removeprefix("times: "))
    name = sheet if found[1] == "sheet" else ratings
    said = re.sub(r"^entries fault \d+: |,? (?:in|from) row \d+", "", found[4])
    number, given = int(found[3]), rows.get(found[1], ())
    # The first row that the program was given is that of the headings.
    row = given[number - 2] if 2 <= number < len(given) + 2 else number
    return remark("list-row", name=name, row=row, fault=fault_numbered(found[2], said))


def fault_numbered(number: str, said: str) -> str:
    """What the program says of a row, as a remark if it is one of its faults: the first word in capitals is a sail."""
    sail = next((word for word in said.split() if SAIL.fullmatch(word)), "")
    known = remark(f"timing-{number}", sail=sail) if f"timing-{number}" in ENGLISH else None
    return known if known == said else said


class Sheets:
    """The sheets of times of a series, and what the program makes of them."""

    def __init__(self, folder: Folder) -> None:
        self.folder, self.rules = folder, Rules.read(folder)

    def races(self) -> list[int]:
        """The races that have a sheet of times."""
        names = os.listdir(self.folder.file(SHEETS))
        found = [re.fullmatch(r"race-([0-9]{1,2})\.csv", name) for name in names]
        return sorted(int(match[1]) for match in found if match)

    def rows(self, race: int) -> list[Entry]:
        """The rows of a race's sheet; a Trouble names all that is wrong with it."""
        name = sheet_name(race)
        found, wrong = entries_of(bytes_of(self.folder.file(name)), name)
        if wrong:
            raise Trouble(*wrong)
        return found

    def left_in_words(self, race: int) -> str:
        """Which columns of a race's sheet aren't read; empty if all are. One may be headed otherwise than it has to be, as that of
        laps: then each boat has one."""
        left = columns_left(bytes_of(self.folder.file(sheet_name(race))))
        return remark("list-unread", columns=left) if left else ""

    def times(self, race: int, timed: list[Entry]) -> list[Time]:
        """The corrected times of boats, by the program. A Trouble names the row that has a fault."""
        if not timed:
            return []
        ratings = rated(bytes_of(self.folder.entries), self.folder.entries, race, self.rules.system)
        done = self.ran(race, for_program(timed), ratings.data)
        if done.returncode:
            rows = {"ratings": ratings.rows, "sheet": [entry.number for entry in timed]}
            said = done.stderr.decode("utf-8", "replace").strip()
            raise Trouble(program_fault(said, sheet_name(race), name_of(self.folder.entries), rows))
        head, *lines = done.stdout.decode("ascii", "replace").splitlines() or [""]
        found = [SUM.fullmatch(line) for line in lines]
        if head != f"RACE {race} {self.rules.rounding}" or not all(found):
            raise Trouble(remark("times-no-sums", path=self.rules.program))
        return [Time(match[1], match[2], int(match[3])) for match in found if match]

    def ran(self, race: int, sheet: bytes, ratings: bytes) -> subprocess.CompletedProcess[bytes]:
        """The program, run to its end over a sheet and ratings."""
        words = ["--race", str(race), "--system", self.rules.system, "--rounding", self.rules.rounding,
                 *(["--overnight"] if race in self.rules.overnight else [])]
        try:
            with system.lent_files({"--entries": ratings}) as (files, numbers):
                return subprocess.run([self.rules.program, "sums", *words, *files], input=sheet,
                                      capture_output=True, timeout=PATIENCE, pass_fds=numbers)
        except (OSError, subprocess.TimeoutExpired) as cause:
            raise not_run(self.rules.program, cause) from cause

    def unrated(self, race: int, journal: Sequence[str]) -> list[Entry]:
        """The rows of boats that are entered and have a time, and no rating."""
        boats = Series.read(list(journal)).boats
        timed = [entry for entry in self.rows(race) if entry.is_timed and entry.sail in boats]
        if not timed:
            return []
        has = rated(bytes_of(self.folder.entries), self.folder.entries, race, self.rules.system).sails
        return [entry for entry in timed if entry.sail not in has]

    def beside(self, race: int, journal: Sequence[str], but: Sequence[str] = ()) -> Compared:
        """A race beside the journal, except for some boats. A row of a boat that isn't entered holds up no other."""
        boats = Series.read(list(journal)).boats
        rows = [entry for entry in self.rows(race) if entry.sail not in but]
        timed = [entry for entry in rows if entry.is_timed and entry.sail in boats]
        others = [entry for entry in rows if not entry.is_timed and entry.sail in boats]
        strangers = [entry.sail for entry in rows if entry.sail not in boats]
        return compared(race, self.times(race, timed), journal, others, strangers)


class Times(Sender, Sheets):
    """A series with its sheets of times, and the lines that its office is sent."""

    def __init__(self, path: str) -> None:
        Sender.__init__(self, path, "times")
        if not self.folder.settings.handicap:
            self.close()
            raise Trouble(f"{path} isn't a series by corrected time: its series.ini needs handicap = yes")
        Sheets.__init__(self, self.folder)


@dataclass(frozen=True)
class Compared:
    """A race beside the journal: what is shown of each boat, the lines that differ, and the boats of the sheet that
    aren't entered."""
    shown: tuple[str, ...]
    lines: tuple[str, ...]
    counts: bool
    strangers: tuple[str, ...]


@dataclass(frozen=True)
class Beside:
    """A boat beside the journal: a note, and the lines that differ."""
    note: str
    lines: tuple[str, ...] = ()


def time_beside(record: Race, time: Time) -> Beside:
    """A corrected time beside that of the journal."""
    was, code = record.times.get(time.sail), record.codes.get(time.sail, "")
    held = f"; she holds {code}" if code else ""
    if was == time.seconds:
        return Beside(f"stands{held}")
    line = f"TIME {record.number} {time.sail} {time.seconds}"
    if was is None:
        return Beside(f"new{held}", (line,))
    strike = f"STRIKE {record.number} {time.sail}"
    return Beside(f"stood as {was}: struck and timed again{held}", (strike, line))


def code_beside(record: Race, entry: Entry) -> Beside:
    """A code beside what the journal has of the boat, or no code. A time that she had goes after it is
    there."""
    was = record.codes.get(entry.sail, "")
    lines: list[str] = []
    if not entry.code:
        return Beside("no time and no code in the sheet")
    if entry.code in OF_JURY and was != entry.code:
        return Beside("the jury types this code")
    if was in OF_JURY and was != entry.code:
        return Beside(f"the jury gave {was}")
    if was != entry.code:
        lines.append(f"MARK {record.number} {entry.sail} {entry.code}")
    if entry.sail in record.times:
        lines.append(f"STRIKE {record.number} {entry.sail}")
    note = "stands" if not lines else f"stood as {was}" if was and was != entry.code else "new"
    return Beside(note, tuple(lines))


def compared(race: int, times: list[Time], journal: Sequence[str],
             others: Sequence[Entry] = (), strangers: Sequence[str] = ()) -> Compared:
    """The corrected times and codes beside those of the journal. `others` are rows without a time, and `strangers`
    the boats that aren't entered."""
    record = Series.read(list(journal)).race(race)
    rows = [(time.sail, time_text(time), time_beside(record, time)) for time in times]
    rows += [(entry.sail, f"{entry.code or '-':<36}", code_beside(record, entry)) for entry in others]
    shown = [f"   {sail:<12} {text} {found.note}" for sail, text, found in rows]
    shown += [f"   {sail:<12} {'-':<36} {STRANGER}" for sail in strangers]
    named = {time.sail for time in times} | {entry.sail for entry in others}
    left = [f"   {sail:<12} isn't in the sheet, and stands as {record.times[sail]}"
            for sail in sorted(set(record.times) - named)]
    return Compared((*shown, *left), tuple(line for _, _, found in rows for line in found.lines),
                    record.counts, tuple(strangers))


def time_text(time: Time) -> str:
    """A boat's time with its sum."""
    # Cut and not rounded: a time just below a half has to look so.
    exact = f"{int(time.exact * 10000) / 10000:.4f}"
    return f"{time.sum:<36} {exact:>12} {time.seconds:>7}   {duration(time.seconds)}  "


def show(series: Times, race: int, found: Compared) -> None:
    """Shows a race with its sums, and how many lines differ."""
    rules = series.rules
    say(f"Race {race}, {SYSTEMS[rules.system]}, {ROUNDINGS[rules.rounding]}"
        + (", past midnight" if race in rules.overnight else ""))
    print("\n".join([f"   {'sail':<12} {'sum':<36} {'exact':>12} {'seconds':>7}", *found.shown]), flush=True)
    if left := series.left_in_words(race):
        say(left)
    changes = f" Race {race} counts: its results will change." if found.counts and found.lines else ""
    say(f"{count(len(found.shown), 'boat')}, {count(len(found.lines), 'line')}.{changes}")


def run(series: Times, races: list[int], is_sent: bool) -> int:
    """Shows the races, and prints or sends the lines; the status."""
    journal = series.sheet().journal
    lines: list[str] = []
    for race in races:
        found = series.beside(race, journal)
        show(series, race, found)
        lines += found.lines
    if not lines:
        return 0
    if not is_sent:
        print("\n".join(lines), flush=True)
        return 0
    series.office()
    if not question("Send them?"):
        say("Not sent.")
        return 1
    # Others type meanwhile, and a line of theirs may be one of these.
    if series.sheet().journal != journal:
        say("Somebody else has typed meanwhile. Nothing was sent: send again.")
        return 1
    left = series.send_each([Line("SCORER", line) for line in lines],
                            lambda line, answer: say(f"   {line.text:<24} {answer}"))
    if left:
        say(f"{count(len(left), 'line')} not taken:")
    for line in left:
        say(f"   {line}")
    return 1 if left else 0


def races_of(series: Times, text: str) -> list[int]:
    """The races that were asked for."""
    if text == "all":
        return series.races()
    if not re.fullmatch("[1-9][0-9]?", text):
        raise Trouble(f"{text!r} is no race: a number from 1 to 40, or all")
    return [int(text)]


def correct(folder: str, race: str, is_sent: bool) -> int:
    """Shows races beside the journal, or sends what differs; the status."""
    with contextlib.closing(Times(folder)) as series:
        return run(series, races_of(series, race), is_sent)
