"""Numbers, lists and characters in words."""
from __future__ import annotations

from collections.abc import Sequence

from raceoffice.characters import is_known, is_unseen, number_of, replaced

TIMES = ["no", "one", "two", "three", "four"]
SIGNS = {"/": "a slash", "\\": "a backslash", ".": "a dot", ",": "a comma", "_": "an underscore",
         "\t": "a tab", "\u00a0": "a no-break space (U+00A0), which looks like a space",
         "\u2013": "a long dash (U+2013), not a hyphen", "\u2014": "a long dash (U+2014), not a hyphen"}


def ordinal(number: int) -> str:
    ends = {1: "st", 2: "nd", 3: "rd"}
    return f"{number}" + ("th" if number % 100 in (11, 12, 13) else ends.get(number % 10, "th"))


def duration(seconds: int) -> str:
    """`1:06:45`."""
    return f"{seconds // 3600}:{seconds // 60 % 60:02}:{seconds % 60:02}"


def one_decimal(tenths: int) -> str:
    """25 tenths as `2.5`."""
    return f"{tenths // 10}.{tenths % 10}"


def count(number: int, one: str, more: str = "") -> str:
    """`1 boat`, `2 boats`, `no boats`."""
    return f"{number or 'no'} {one if number == 1 else more or one + 's'}"


def joined(texts: Sequence[str], last: str = "and") -> str:
    """`A, B and C`."""
    return texts[0] if len(texts) == 1 else f"{', '.join(texts[:-1])} {last} {texts[-1]}"


def spans(numbers: list[int]) -> str:
    """1, 2, 3, 5 as `1–3, 5`."""
    runs: list[list[int]] = []
    for number in numbers:
        if runs and number == runs[-1][1] + 1:
            runs[-1][1] = number
        else:
            runs.append([number, number])
    return ", ".join(f"{a}" if a == b else f"{a}–{b}" if b > a + 1 else f"{a}, {b}"
                     for a, b in runs)


def sign(letter: str) -> str:
    """A sign by its name, the same in every Python: one that not each knows by its number."""
    if is_unseen(letter) and letter not in SIGNS:
        return f"the invisible sign {number_of(letter)}"
    return SIGNS.get(letter, f"the sign {letter!r}" if is_known(letter) else f"the sign {number_of(letter)}")


def on_one_line(text: str) -> str:
    """A text of a file or of a command as names are shown: on one line, without signs that aren't seen."""
    seen = "".join(letter for letter in " ".join(text.split()) if letter.isprintable())
    return " ".join(replaced(seen, lambda _: "").split())
