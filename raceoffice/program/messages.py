"""What the program's answers and faults say, and how boats moved, in words."""
from __future__ import annotations

import contextlib
import os
import re
from collections.abc import Mapping

from raceoffice.errors import Trouble
from raceoffice.files import LARGEST_SHOWN, read_whole
from raceoffice.program.standing import Change, Row, Score
from raceoffice.remarks import remark
from raceoffice.wording import count, ordinal

# What each number of a reply says. The guide's table has these words, and a check compares them.
NUMBERS = {
    1: "the computer has no memory left for this line",
    2: "the journal is full: it holds 8,192 entries",
    3: "this seat has used up its numbers",
    4: "your role doesn't send this line",
    5: "500 boats are entered, and no more fit",
    6: "she is entered already",
    7: "a boat that is named isn't entered",
    8: "she is in the finishing order of this race already: strike her first if she is to be moved",
    9: "she, or the other boat, isn't in the finishing order of this race",
    10: "she holds DSQ, DNE or redress in this race, and only the jury clears that",
    11: "she has nine penalties of this kind in this race, and no more fit",
    12: "she has no code, penalty or redress in this race",
    13: "this race counts already",
    14: "this race doesn't count",
    15: "nobody has finished in this race",
    16: "a series by corrected time takes TIME, and any other takes FINISH, TIE and BEFORE",
    20: "the line is longer than 80 letters",
    21: "the line is empty, or its first word isn't known; help lists the lines",
    22: "the line has too few words, or too many",
    23: "this is no sail: 1 to 12 letters, digits and dashes",
    24: "this is no race: a number from 1 to 40",
    25: "this is no redress: ALL, PRIOR, or points from 1.0 to 999.9, with one decimal at most",
    26: "this is no code, or no kind of penalty",
    27: "this is no role: FINISH, JURY or SCORER",
    29: "these are no seconds: a whole number from 0 to 999,999",
}
ROLES = {"FINISH": "the finish", "JURY": "the jury", "SCORER": "the scorer"}


def refusal(answer: str) -> str:
    """Why a line was refused, from its answer."""
    number = answer.removeprefix("NO ")
    return NUMBERS.get(int(number) if re.fullmatch("[0-9]{1,3}", number) else 0,
                       "an answer that isn't known here; docs/FORMATS.md may know it")
RULES = {1: "scp has to be 1 to 99", 6: "absent, scp or exclude is written wrongly"}
JOURNAL = {1: "isn't a line of a journal", 2: "is after the 8,192nd entry",
           4: "names a version that this program doesn't read"}
LIST = {1: "no column has the heading Sail", 2: "the row ends before the column of sails",
        3: "what is in the column of sails is no sail", 4: "the sail is in an earlier row",
        5: "500 boats were read before"}
# What the program says of journal.txt, which it keeps.
KEPT = {
    "taken": remark("journal-taken"),
    "fault": remark("journal-fault"),
    "fault: no space left": remark("disk-make-space"),
    "fault: no permission": remark("journal-forbidden"),
    "too long": remark("journal-long"),
    "damaged after line 0": remark("no-journal"),
}
# What to do about a journal with a line that is none, or is refused, and about one of another kind of series.
UNLIKE = "Compare it with the copies in kept/."
EDITED = f"Has somebody edited it? {UNLIKE}"
OTHER_RULES = ("The journal and series.ini disagree on handicap: yes takes a journal with corrected times, and no takes one "
               "with finishes.")
# Letters of a line that are shown, and bytes that surely have them.
SHOWN, BYTES = 80, 320
DAMAGED, DIFFERS = "damaged after line ([1-9][0-9]*)", r"differs at (\d+)"


def without_note(said: str) -> str:
    """What the program said, without its note of what it cut off."""
    return re.sub(r"^regatta: keep cut .*\n.*\n", "", said)


def cut_note(said: str) -> str:
    """The note of what the program cut off, in words; empty if it cut nothing off."""
    found = re.match(r"regatta: keep cut (\d+) bytes after line (\d+)\n(.*)\n", said)
    if not found:
        return ""
    return (f"journal.txt ended in a torn line, as after a crash. What came after line {found[2]} was cut "
            f"off, and is in journal.txt.cut now ({count(int(found[1]), 'byte')}):\n   {found[3]}\n"
            "Nobody had an answer to that. If it was meant, type it again from its fourth word on.")


def start_fault(said: str, journal: str, entries: str) -> list[str]:
    """What the program said when it didn't start, in words; a line of the journal is shown."""
    said = without_note(said)
    for pattern, text in KEPT.items():
        if re.search(f"^regatta: keep {pattern}$", said, re.MULTILINE):
            return [text]
    if found := re.search(f"^regatta: keep {DAMAGED}$", said, re.MULTILINE):
        return [remark("journal-damaged", line=found[1])]
    if found := re.search(f"^regatta: keep {DIFFERS}$", said, re.MULTILINE):
        return [remark("journal-begun-otherwise", entry=found[1])]
    if found := re.search(r"^regatta: rules fault (\d)", said, re.MULTILINE):
        why = RULES.get(int(found[1]), "exclude has to be none, or up to four rising numbers")
        return [f"series.ini: {why}."]
    name, entries = os.path.basename(journal), os.path.basename(entries)
    if found := re.search(r"^regatta: entries fault (\d) row (\d+)", said, re.MULTILINE):
        return [f"{entries}, row {found[2]}: {LIST.get(int(found[1]), said.strip())}."]
    if found := re.search(r"^regatta: (?:keep )?journal fault (\d) line (\d+)", said, re.MULTILINE):
        return [unread_line(name, int(found[2]), int(found[1]), line_of(journal, int(found[2]))), UNLIKE]
    if found := re.search(r"^regatta: start refused (\d+) at (\d+)", said, re.MULTILINE):
        if found[1] == "16":
            return [OTHER_RULES]
        place = int(found[2]) + (line_of(journal, 1).upper().split()[:1] == ["REGATTA"])
        return [refused_line(name, place, int(found[1]), line_of(journal, place)), EDITED]
    if "regatta: input too long" in said:
        return [f"{name} or {entries} is longer than 1,048,576 bytes."]
    if "regatta: device fault" in said:
        return [f"The program can't read {name} or {entries}, or can't make its socket in office/."]
    if "'--keep'" in said:
        return ["The program is older than raceoffice: it can't keep a journal. Use the one that came with "
                "them."]
    return [f"The program says: {said.strip() or 'nothing'}."]


def unread_line(name: str, place: int, number: int, text: str) -> str:
    """Which line of a journal isn't one that the program reads, and why."""
    return f"Line {place} of {name} {JOURNAL.get(number, 'is at fault')}: {text!r}."


def refused_line(name: str, place: int, number: int, text: str) -> str:
    """Which line of a journal is refused, and why."""
    return f"Line {place} of {name} is refused: {refusal(f'NO {number}')}. It is {text!r}."


def line_of(path: str, number: int) -> str:
    """A line of a file as it is shown; empty if there is none."""
    data = b""
    with contextlib.suppress(Trouble):
        data = read_whole(path, LARGEST_SHOWN)
    return shown_line(b"".join(data.split(b"\n")[number - 1:number]))


def shown_line(line: bytes) -> str:
    """A line of a file as an editor shows it, without the carriage return at its end, and cut after 80 letters."""
    return line.removesuffix(b"\r")[:BYTES].decode("utf-8", "replace")[:SHOWN]


def rank_of(row: Row) -> str:
    return rank_words(row.rank, row.shared)


def rank_words(rank: object, is_tied: object) -> str:
    return ordinal(int(str(rank))) + (" (tied)" if is_tied else "")


def score_of(score: Score) -> str:
    return score.points + (f"/{score.code}" if score.code else "")


def move_values(change: Change) -> dict[str, str | int | tuple[str, ...]]:
    """How a boat moved, as values: her rank, her net and her scores."""
    was, now = change.before, change.after
    return {"sail": now.sail, "was": was.rank, "was_tied": was.shared, "rank": now.rank, "tied": now.shared,
            "before": was.net, "net": now.net, "races": tuple(str(number) for number, _, _ in change.races),
            "scores_before": tuple(score_of(score) for _, score, _ in change.races),
            "scores": tuple(score_of(score) for _, _, score in change.races)}


def move_words(boat: str, values: Mapping[str, object]) -> str:
    """How a boat moved, in words."""
    was, now = rank_words(values["was"], values["was_tied"]), rank_words(values["rank"], values["tied"])
    rank = f"{was} to {now}" if was != now else now
    before, net = values["before"], values["net"]
    points = f"net {before} to {net}" if before != net else f"net {net}"
    races, scores_before, scores = values["races"], values["scores_before"], values["scores"]
    assert isinstance(races, tuple) and isinstance(scores_before, tuple) and isinstance(scores, tuple)
    cells = [f"race {number}: {a} to {b}" for number, a, b in zip(races, scores_before, scores)]
    return f"{boat}: {rank}, {points}" + (f" ({'; '.join(cells)})" if cells else "")


def move_text(change: Change) -> str:
    """How a boat moved, as one value of a question: her sail, her rank before and after, her net before and after."""
    before, after = change.before, change.after
    return f"{after.sail} {before.rank} {after.rank} {before.net} {after.net}"


def moved(change: Change, boat: str) -> str:
    """How a boat moved: her rank, her net and her scores."""
    return move_words(boat, move_values(change))
