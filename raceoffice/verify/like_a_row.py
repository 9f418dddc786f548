"""Names that may be taken for a row of a table, or for a leader. A browser of texts has the cells of a wide table one after the
other, and breaks them anywhere: so a line may begin with any word of a name, and end with the points of her boat."""
from __future__ import annotations

import re
import unicodedata
from collections.abc import Iterator, Sequence, Set

from raceoffice.characters import in_one_form
from raceoffice.series.entry_list import Boat

# Helm, boat and club that have more letters fill a line of such a browser, so that they go on where the next row begins.
LONG = 80
# More commas, and signs that may be taken for them, than names have. To look at each takes some microseconds.
SIGNS, MANY = re.compile(r"[^\w\s/-]"), 16
# A row of an overall table has two at least: the net and a score. Signs of other writings look like a point, and letters like
# digits.
POINTS = re.compile(r"\d[.,\u0080-\U0010ffff]\d|\b[\dlIOo|]{1,3}[.,'\u0080-\U0010ffff][\dlIOo]\b")
# The marks of letters, which change no word.
MARKS = re.compile(r"(?<=[^\W\d_])[\u0300-\u036f]+")
# What may be taken for the comma behind a sail; behind one with a digit; and for a colon.
COMMAS, STOPS, COLONS, POINTED = ",;", ".:'`", ":;", "\u00b7\u2022"
# The rank before a sail, also of letters that look like digits, and one that is hardly anything else.
RANK, SURE = re.compile(r"(?:[\dlIiOo|!ZzSsB]{1,3}|[^\W_\x00-\x7f])=?"), re.compile(r"[\dlI|]{1,3}=?")
# The words before a comma that may be a sail, and the signs of one at most.
WORDS, SAIL = 6, 14
# How far from such a sign a sail and its rank may be.
NEAR = 40
# The small letters that look like capitals and digits.
SMALL = frozenset("cikloposuvwxz" "абзкорсухчіјѕԁӏ" "οικνρυχ")
# The last sign of Latin, Greek, Cyrillic and Armenian.
WITH_CASE = "\u058f"
# A sail with the letters of a nation, and what the list of classes has before its leaders.
NATIONAL = re.compile(r"[^\W\d_]{3}-?\d[\w-]*")
LEADER = re.compile(r"\b(?:leads|first)\s*(?:[:;\u0080-\U0010ffff]|(?=[a-z]{3} ?\d))")


def is_like_a_row(boat: Boat, sails: Set[str]) -> bool:
    """Whether the names of a boat are long, have many signs, or points, a sail with its comma or its rank, or what names a leader."""
    names = " ".join(filter(None, (boat.helm, boat.name, boat.club)))
    if len(names) > LONG or len(SIGNS.findall(names)) > MANY:
        return True
    text = MARKS.sub("", in_one_form(row_text(boat)))
    return len(POINTS.findall(in_one_form(names))) > 1 or names_leader(text) or has_sail(text, sails) or has_rank(text, sails)


def row_text(boat: Boat) -> str:
    """The names as a row has them one after the other: first the helm alone. The sign between boat and club is no comma."""
    first, *rest = [text for text in (boat.helm, boat.name, boat.club) if text] or [""]
    return " ".join([boat.helm or boat.name, first, " / ".join(rest)])


def names_leader(text: str) -> bool:
    """Whether a text names a leader as the list of classes does."""
    return LEADER.search(text.lower()) is not None


def has_sail(text: str, sails: Set[str]) -> bool:
    """Whether a text has a sail before a comma or behind a colon: that of a boat; one with the letters of a nation; or what looks
    like one behind a rank or a colon."""
    for at, sign in enumerate(text):
        if sign.isalnum() and (sign.isascii() or not is_behind_sail(text[:at])) or sign in " -/":
            continue
        ends = text[at + 1:at + 2] in ("", " ")
        if any(is_before_comma(one, before, sign, sails, ends) for one, before in endings(text[max(0, at - NEAR):at].split())):
            return True
        if is_colon(sign) and any(is_behind_colon(one, sign, sails) for one in beginnings(text[at + 1:at + NEAR].split())):
            return True
    return False


def is_behind_sail(text: str) -> bool:
    """Whether a letter of another writing may be behind a sail with a digit, so that it looks like a comma."""
    return text.rstrip()[-1:].isascii() and any(map(str.isdigit, text[-SAIL:]))


def has_rank(text: str, sails: Set[str]) -> bool:
    """Whether a text has a rank before the sail of a boat, or before one with the letters of a nation."""
    words = text.split()
    return any(is_written(one, sails) for at, word in enumerate(words) if SURE.fullmatch(word) for one in beginnings(words[at + 1:]))


def endings(words: Sequence[str]) -> Iterator[tuple[str, str]]:
    """The last words, one to several, as one, and the word before these."""
    for many in range(1, min(WORDS, len(words)) + 1):
        yield "".join(words[-many:]), words[-many - 1] if many < len(words) else ""


def beginnings(words: Sequence[str]) -> Iterator[str]:
    """The first words, one to several, as one."""
    for many in range(1, min(WORDS, len(words)) + 1):
        yield "".join(words[:many])


def is_known(text: str, sails: Set[str]) -> bool:
    """Whether a text is the sail of a boat, or one with the letters of a nation, also in small letters."""
    return text.upper() in sails or NATIONAL.fullmatch(text) is not None and is_like_a_sail(text[3:])


def is_written(text: str, sails: Set[str]) -> bool:
    """The same, in capitals."""
    return is_known(text, sails) and text[:3] == text[:3].upper()


def is_before_comma(text: str, before: str, sign: str, sails: Set[str], ends: bool) -> bool:
    """Whether a text before a sign that is a comma, or looks like one, may be taken for a sail. `ends`: nothing follows at once."""
    if sign in POINTED:
        return False
    is_ranked = RANK.fullmatch(before) is not None and is_like_a_sail(text)
    if sign in COMMAS or not sign.isascii() and not sign.isalnum():
        return is_ranked or is_known(text, sails)
    has_digit = any(map(str.isdigit, text))
    return has_digit and (not sign.isascii() or sign in STOPS and ends) and (is_ranked or is_written(text, sails))


def is_colon(sign: str) -> bool:
    """Whether a sign is a colon, or looks like one. Dashes and points between two names don't."""
    return sign in COLONS or not sign.isascii() and not sign.isalnum() and sign not in POINTED and unicodedata.category(sign) != "Pd"


def is_behind_colon(text: str, sign: str, sails: Set[str]) -> bool:
    """Whether a text behind a colon, or what looks like one, may be taken for the sail of a leader."""
    looks_so = is_like_a_sail(text) and any(sign.isdigit() or not sign.isascii() for sign in text)
    return is_known(text, sails) or sign in COLONS and looks_so


def is_like_a_sail(text: str) -> bool:
    """Whether a text has the form of a sail, or looks so: no small letters but those that look like capitals or digits."""
    return 0 < len(text) <= SAIL and all(sign in SMALL or sign == "-" or sign.isalnum() and not is_small(sign) for sign in text)


def is_small(sign: str) -> bool:
    """Whether a letter is a small one, of writings that have others beside."""
    return sign.islower() and sign <= WITH_CASE
