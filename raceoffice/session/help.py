"""What `help` lists: the lines of a role, and what the window does by itself."""
from __future__ import annotations

from raceoffice.program.codes import OF_COMMITTEE, OF_JURY
from raceoffice.session.parse import COMMANDS, MAY, short

LINES = {
    "FINISH race sail": "she finished, after all who have finished so far",
    "TIE race sail other": "she finished level with the other (RRS A7)",
    "BEFORE race sail other": "she finished just ahead of the other",
    "TIME race sail seconds": "her corrected time, in a series by corrected time",
    "STRIKE race sail": "she leaves the finishing order",
    "MARK race sail code": f"{' '.join(OF_COMMITTEE)}; the jury: {' '.join(OF_JURY)}",
    "PENALTY race sail kind": "one more ZFP or SCP",
    "REDRESS race sail how": "ALL, PRIOR, or points as 2.5",
    "CLEAR race sail": "her code, penalties and redress in that race go",
    "ENTER sail": "she enters the series",
    "SCORE race": "the race counts",
    "UNSCORE race": "the race counts no longer",
}
WINDOW = {
    "at 3": "from here on a bare sail is a finish in race 3, and lines need no race",
    "?": "after at: a finisher whose sail wasn't read keeps her place",
    "?1 sail": "she is known now; or ?1 none",
    "undo": "takes back what you did last, if one line can",
    "race 3": "the order of race 3, the codes, and who is missing",
    "abandon 3": "takes race 3 away, all but ZFP, BFD and the jury's decisions",
    "standing": "rank and net points",
    "rank sail": "how she stands",
    "show": "the journal and the table",
    "role finish|jury|scorer": "from here on you type in that role",
    "help mark": "more of a line; any word of this list will do",
    "quit": "this window ends",
}
# What help says of one word, beside its line.
MORE = {
    "FINISH": ["After at 3 the sail alone will do: gbr 101, or 101."],
    "TIE": ["After at 3: tie 7 12. If 7 was ahead of her after all: strike 7, then before 7 12"],
    "BEFORE": ["After at 3: before 33 9. To move a boat, strike her first."],
    "STRIKE": ["After at 3: strike 33"],
    "MARK": ["After at 3: mark 33 ocs, or ocs 33, or 33 ocs. A new code replaces the old one; clear takes "
             "it away."],
    "PENALTY": ["After at 3: penalty 33 zfp, or zfp 33, or 33 zfp"],
    "REDRESS": ["After at 3: redress 33 all"],
    "CLEAR": ["After at 3: clear 33. Type again what she keeps."],
    "ENTER": ["While the office is open nothing takes her out again."],
    "?": ["So does a number that isn't clear: 101? is GBR 101 or GER 101. Her place is kept for all windows, "
          "and after a crash, until somebody says who she is: ?1 gbr 101, 101? ger, or ?1 none."],
    "UNDO": ["It shows the line that reverses yours, and asks. enter, abandon and a clear of several things "
             "have no such line."],
}


# What isn't for the jury, nor for a series with and without corrected times.
FINISHERS = {"at", "?", "?1", "abandon"}
ORDERED, TIMED = {"FINISH", "TIE", "BEFORE", "?", "?1"}, {"TIME"}


def help_of(word: str) -> list[str]:
    """What somebody may type with this word in it: a line, a code, or what the window does."""
    word = "?" if "?" in word else word.upper()
    command = COMMANDS.get(word, word)
    found = [f"   {line:<26}{text}" for line, text in {**LINES, **WINDOW}.items()
             if line.upper().split()[0].rstrip("1") == command]
    return [*found, *(f"   {text}" for text in MORE.get(command, []))] or [
        f"   {short(word.lower())} is no line: help lists them"]


def help_lines(role: str, is_timed: bool = False) -> list[str]:
    """What somebody in this role may type, in a series by corrected time or any other."""
    left_out = (ORDERED if is_timed else TIMED) | (FINISHERS if role == "JURY" else set())
    known = {command: text for command, text in LINES.items() if command.split()[0] in MAY[role]}
    known |= WINDOW | ({"at 3": "from here on a line is a sail and her seconds, in race 3"} if is_timed
                       else {})
    known = {command: text for command, text in known.items() if command.split()[0] not in left_out}
    return [f"The lines of the {role.lower()} (small letters will do):",
            *(f"   {command:<26}{text}" for command, text in known.items())]
