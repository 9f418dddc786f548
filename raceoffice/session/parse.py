"""What somebody types, as a line of the program: sails as they are spoken, by their last digits."""
from __future__ import annotations

import re
from collections.abc import Callable, Sequence
from dataclasses import dataclass, field

from raceoffice.errors import NotSent
from raceoffice.program.codes import CODES
from raceoffice.remarks import Remark, remark, sign_remark
from raceoffice.series.entry_list import near
from raceoffice.session.dialogue import Question
from raceoffice.session.question_words import question
from raceoffice.wording import joined

# How many sails a line has after its race, and which lines end with one more word.
SAILS = {"FINISH": 1, "TIE": 2, "BEFORE": 2, "STRIKE": 1, "MARK": 1, "PENALTY": 1, "CLEAR": 1,
         "REDRESS": 1, "TIME": 1}
LAST = {"MARK": "code", "PENALTY": "kind", "REDRESS": "how", "TIME": "seconds"}
# A code alone is as good as its line: `ocs 33`, `33 ocs`.
COMMANDS = {**dict.fromkeys(CODES, "MARK"), "ZFP": "PENALTY", "SCP": "PENALTY"}
FINISHING = {"FINISH", "TIE", "BEFORE", "TIME", "STRIKE"}
OTHERS = {"ENTER", "SCORE", "UNSCORE", "RANK", "ROLE", "SHOW", "QUIT"}
MAY = {"FINISH": FINISHING | {"MARK", "PENALTY", "CLEAR"},
       "JURY": {"MARK", "PENALTY", "REDRESS", "CLEAR"},
       "SCORER": FINISHING | {"ENTER", "MARK", "PENALTY", "CLEAR", "SCORE", "UNSCORE"}}
# What the window does by itself, as it is typed.
OWN = {"AT": "at 3", "RACE": "race 3", "ABANDON": "abandon 3", "STANDING": "standing", "HELP": "help",
       "UNDO": "undo"}
# What the jury may decide, and no line has.
DECISIONS = {"DPI", "NSC", "PRP", "TLE"}
# All first words of lines, and of what the window does by itself.
FIRST = SAILS.keys() | OTHERS | OWN.keys() | COMMANDS.keys()


class Unclear(NotSent):
    """A sail that is no boat's, or may be that of several; and what to type then. `what` says the same without that.
    `typed` and `boats` are what was typed of her sail, and the boats that it may mean, if there are several."""

    def __init__(self, said: Remark, what: str = "", typed: str = "", boats: Sequence[str] = ()) -> None:
        super().__init__(said)
        self.what, self.typed, self.boats = what or str(said), typed, boats


def race_number(text: str) -> int:
    """The number of a race; 0 if the text isn't one."""
    found = re.fullmatch("0*([1-9][0-9]?)", text)
    number = int(found[1]) if found else 0
    return number if number <= 40 else 0


def short(text: str) -> str:
    """What somebody typed, as short as it can be said again."""
    return text if len(text) <= 30 else f"{text[:30]}..."


def with_digits(text: str, boats: list[str]) -> list[str]:
    """The boats that are meant by digits: those with this whole number, or else this end. So 12 is
    SWE 12 although NED 112 ends so too."""
    if not text.isdecimal():
        return []
    exact = [boat for boat in boats if is_whole(text, boat)]
    return exact or [boat for boat in boats if boat.endswith(text)]


def is_whole(digits: str, boat: str) -> bool:
    """Whether these digits are the whole number of a boat."""
    return boat.endswith(digits) and not boat.removesuffix(digits)[-1:].isdecimal()


def digits_of(sail: str, typed: str, boats: list[str]) -> str:
    """The digits by which a boat was typed; empty if her whole sail was, or none is a boat's."""
    words = typed.upper().split()
    parts = {"".join(words[start:end]) for start in range(len(words)) for end in range(len(words) + 1)}
    if sail not in boats or sail in parts and not sail.isdecimal():
        return ""
    return max((word for word in words if word.isdecimal() and sail.endswith(word)), key=len,
               default="")


def boats_meant(words: list[str], boats: list[str]) -> list[str]:
    """The boats that these words may mean. Two numbers are never one boat's."""
    text = "".join(words).upper()
    if sum(word.isdecimal() for word in words) > 1:
        return []
    return [text] if text in boats else with_digits(text, boats)


def boat_meant(words: list[str], boats: list[str],
               called: Callable[[str], str]) -> str:
    """The one boat that these words mean; `called` says how a boat is called."""
    text, found = "".join(words).upper(), boats_meant(words, boats)
    if len(found) == 1:
        return found[0]
    if found:
        names = [called(boat) for boat in found]
        raise Unclear(remark("sail-several", typed=text, names=names), f"{text} may be {joined(names, 'or')}", text, found)
    if sum(word.isdecimal() for word in words) > 1:
        raise NotSent(remark("numbers-several", written=short(" ".join(words))))
    if odd := re.search("[^A-Z0-9-]", text):
        raise NotSent(remark("sail-odd", written=short(text), sign=sign_remark(odd[0])))
    if close := near(text, boats):
        raise Unclear(remark("not-entered-near", sail=short(text), names=[called(boat) for boat in close]))
    raise Unclear(remark("not-entered", sail=short(text)))


def split_in_two(words: list[str], boats: list[str]) -> tuple[list[str], list[str]]:
    """The words of two sails, parted where both parts are boats."""
    ways = [(words[:at], words[at:]) for at in range(1, len(words))]
    both = [way for way in ways if all(boats_meant(part, boats) for part in way)]
    exact = [way for way in both if all("".join(part).upper() in boats for part in way)]
    found = exact or both or ways[:1]
    if not found:
        raise NotSent(remark("two-sails"))
    if len(found) > 1:
        raise NotSent(remark("second-sail"))
    return found[0]


@dataclass(frozen=True)
class Reading:
    """One way to read what was typed: a command, the race, and the words after it. The race is `typed`,
    or that of `at`; a sail alone is `bare`."""
    command: str
    race: str
    words: list[str]
    kind: str


@dataclass
class Reader:
    """Reads what is typed at one session. It knows the boats, how each is called, the race of `at`, and the
    races of which anything is recorded. `is_timed` says that boats have corrected times."""
    boats: list[str]
    called: Callable[[str], str]
    at: int | None = None
    is_timed: bool = False
    races: set[int] = field(default_factory=set)

    def line(self, typed: str, ask: Callable[[Question], bool]) -> str:
        """The program's line. What may be two things is asked."""
        words = typed.upper().split()
        if words[0] in OTHERS:
            return self.other_line(words)
        found, why = self.lines(words)
        if not found:
            raise known_fault(words) or why
        line, doubt = next(iter(found.items()))
        if len(found) > 1:
            doubt = question("line-of-several", self.called, line=line, lines=list(found))
        if doubt and not ask(doubt):
            raise NotSent(remark("line-unmeant", form=shape(line.split()[0])))
        return line

    def other_line(self, words: list[str]) -> str:
        command, *rest = words
        if command == "RANK" and rest:
            return f"RANK {boat_meant(rest, self.boats, self.called)}"
        return f"ENTER {''.join(rest)}" if command == "ENTER" else " ".join(words)

    def crossed(self, typed: str) -> str:
        """The sail of somebody who crossed the line, of what was typed alone after `at`, whoever's it
        is; empty if it is no sail, as `at3`."""
        words = typed.upper().split()
        text, numbers = "".join(words), sum(word.isdecimal() for word in words)
        found = re.fullmatch(r"([A-Z]*)-?[A-Z0-9-]*[0-9][A-Z0-9-]*", text)
        if not self.at or self.is_timed or forms(words) or not found or len(text) > 12 or numbers > 1:
            return ""
        return text if words[0] not in FIRST and found[1] not in FIRST else ""

    def lines(self, words: list[str]) -> tuple[dict[str, Question | None], NotSent]:
        """All lines that may be meant, the likeliest first, each with what makes it doubtful; and why
        the likeliest reading is none."""
        found: dict[str, Question | None] = {}
        faults: list[NotSent] = []
        for reading in self.readings(words):
            try:
                line = self.line_of(reading)
                found.setdefault(line, self.doubt(reading, line))
            except NotSent as fault:
                faults.append(fault)
        for unclear in (fault for fault in faults if isinstance(fault, Unclear) and fault.boats):
            # It may be another line, of which only the boat isn't clear.
            found = {line: doubt or question("boat-of-several", self.called, line=line,
                                             typed=unclear.typed, sails=unclear.boats)
                     for line, doubt in found.items()}
        return found, (faults or [self.no_line(words)])[0]

    def no_line(self, words: list[str]) -> NotSent:
        """Why words that begin with no command are no line before a race is said."""
        if boats_meant(words, self.boats):
            return NotSent(remark("which-race"))
        return NotSent(remark("no-line", written=short(" ".join(words))))

    def readings(self, words: list[str]) -> list[Reading]:
        """The ways to read what was typed, the likeliest first."""
        found = []
        for command, *rest in forms(words):
            written = Reading(command, rest[0] if rest else "", rest[1:], "typed")
            has_race = race_number(written.race) > 0 and len(rest) >= len(shape(command).split()) - 1
            found += [written] if has_race or not self.at else []
            found += [Reading(command, str(self.at), rest, "at")] if self.at else []
            found += [] if has_race or not self.at else [written]
        if self.at and words[0] not in SAILS:
            found.append(Reading("TIME" if self.is_timed else "FINISH", str(self.at), words, "bare"))
        return found

    def line_of(self, reading: Reading) -> str:
        """The line of a reading; NotSent if it isn't one."""
        command, race, words = reading.command, reading.race, reading.words
        if not words:
            raise NotSent(remark("line-short", command=command, form=shape(command)))
        if not race_number(race):
            raise NotSent(remark("race-after", written=short(race), command=command))
        last = words[-1:] if command in LAST else []
        if last and (decision := known_fault(last)):
            raise decision
        sail = words[:-1] if last else words
        if command == "TIME" and ("".join(words) in self.boats or not sail or not last[0].isdecimal()):
            raise NotSent(remark("time-missing", written=short(" ".join(words).lower())))
        if not sail:
            raise NotSent(remark("line-short", command=command, form=shape(command)))
        sails = split_in_two(sail, self.boats) if SAILS[command] == 2 else (sail,)
        # If one part is no boat's, this is no line, whatever the other may be.
        for part in sorted(sails, key=lambda part: len(boats_meant(part, self.boats))):
            boat_meant(part, self.boats, self.called)
        meant = [boat_meant(part, self.boats, self.called) for part in sails]
        return " ".join([command, race, *meant, *last])

    def doubt(self, reading: Reading, line: str) -> Question | None:
        """Whether a line may be meant otherwise: its first number may be a race or a boat."""
        number, sail = reading.race, line.split()[2]
        if reading.kind == "typed":
            is_either = (self.at is not None and race_number(number) != self.at
                         and any(is_whole(number, boat) for boat in self.boats))
        else:
            number = reading.words[0]
            is_known = race_number(number) in self.races | {self.at}
            is_points = reading.command == "REDRESS" and reading.words[-1].isdecimal()
            is_either = race_number(number) > 0 and (is_known or is_points or not is_whole(number, sail))
        if not is_either or reading.kind == "bare":
            return None
        return question("race-or-boat", self.called, line=line, number=number)


def known_fault(words: list[str]) -> NotSent | None:
    """What to type instead, if it is the window's own word that was typed, or a decision of the jury that no
    line has."""
    if words[0] in OWN:
        return NotSent(remark("own-word", written=words[0], form=OWN[words[0]]))
    if words[-1] in DECISIONS:
        return NotSent(remark("decision-file", code=words[-1]))
    return None


def forms(words: list[str]) -> list[list[str]]:
    """What was typed with a command in front: its own, or that of a code that comes first or last."""
    if words[0] in SAILS:
        return [words]
    if len(words) > 1 and words[0] in COMMANDS:
        return [[COMMANDS[words[0]], *words[1:], words[0]]]
    if len(words) > 1 and words[-1] in COMMANDS:
        return [[COMMANDS[words[-1]], *words]]
    return []


def shape(command: str) -> str:
    """What a line has to have: `MARK race sail code`."""
    sails = "sail other" if SAILS[command] == 2 else "sail"
    return f"{command} race {sails} {LAST.get(command, '')}".rstrip()
