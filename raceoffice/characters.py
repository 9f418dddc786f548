"""Signs that aren't seen, or that move or strike out what is beside them, and what a page may say of signs in every
Python."""
from __future__ import annotations

import itertools
import re
import unicodedata
from collections.abc import Callable

# What Python calls printable and yet isn't seen, or lies over its neighbours: fillers, joiners, variants
# of signs, strokes, what encloses letters, and marks of which three are over one letter.
UNSEEN = re.compile("[\u034f\u115f\u1160\u17b4\u17b5\u180b-\u180f\u2800\u3164\ufe00-\ufe0f\uffa0\ufffc"
                    "\U00013441\U00013442\U00016fe4\U0001d159\U000e0100-\U000e01ef\u0334-\u0338\u0488\u0489\u1abe\u20d0-\u20f0"
                    "\ua670-\ua672\u1cd4\u1ce2-\u1ce8\U00010a39\U00016af0-\U00016af4\U0001bc9e"
                    "\U0001d167-\U0001d169]"
                    "|(?<=[\u0300-\u036f]{2})[\u0300-\u036f]")
# Signs that join others, beside the marks over a letter (o) and beside it (m): vowels of Thai and Lao and what else comes
# after a letter as marks do, what joins two letters into one (k), the parts of Korean syllables (l, v, t, and s for whole
# ones), and what joins the letter behind it (p).
JOINS = [(kind, re.compile(f"[{signs}]")) for kind, signs in (
    ("m", "\u0e33\u0eb3\uff9e\uff9f\U0001f3fb-\U0001f3ff"),
    ("k", "\u094d\u09cd\u0acd\u0b4d\u0c4d\u0d4d\u1039\u17d2\u1a60\u1b44\u1bab\ua9c0\uaaf6\U00010a3f\U00011133\U000113d0"
          "\U0001193e\U00011a47\U00011a99\U00011f42"),
    ("l", "\u1100-\u115f\ua960-\ua97c"), ("v", "\u1160-\u11a7\ud7b0-\ud7c6\U00016d63\U00016d67-\U00016d6a"),
    ("t", "\u11a8-\u11ff\ud7cb-\ud7fb"), ("s", "\uac00-\ud7a3"),
    ("p", "\u0d4e\U000111c2\U000111c3\U000113d1\U0001193f\U00011941\U00011a3a\U00011a84-\U00011a89\U00011d46\U00011f02"))]
# Marks after what joins two letters belong to that. Any other sign is a letter (c).
JOINING = re.compile("k[omb]+")
# The blocks in which four marks and more of a letter stand at its sides (b), as in Burmese and Tibetan
BESIDE = re.compile("[\u0f00-\u109f\ua9e0-\ua9ff\uaa60-\uaa7f]")
# More signs than any writing makes one letter of. Four marks over a letter lie over the lines around it, or six. No line is
# broken in a letter: one with nine marks, nine parts of a kind, or twelve signs that join pushes off a page what is
# beside it.
PILE = re.compile(r"[ok]{4,}|[okb]{6,}|[okmb]{9,}|([lvtp])\1{8,}|(?:[okmb]|(?<=p)[^ ]|(?<=l)[lvs]|(?<=[vs])[vt]|(?<=t)t|(?<=k)c){12}")
# Signs of a line that is said, and of what is quoted; longer ones are cut.
MOST, QUOTED = 100, 60
# A sign that stands for a space.
LIKE_A_SPACE = "\u2423"
# Unicode 3.2, whose data every Python has. What a page says follows these alone: each Python has other new signs besides.
OF_ALL = unicodedata.ucd_3_2_0
# Signs of Unicode 14 to 16 that stand for others, or that have an order behind a letter. Each Python from 3.10 on has the same
# of all older ones.
NEWER = re.compile("[\u0897-\u089f\u08ca-\u08d2\u0c3c\u1715\u1ac1-\u1ace\u1dfa\ua7f2-\ua7f4\U000105c0-\U000105ff"
                   "\U00010781-\U00010785\U00010787-\U000107b0\U000107b2-\U000107ba\U00010d40-\U00010d8f"
                   "\U00010efc-\U00010eff\U00010f82-\U00010f85\U00011070\U00011380-\U000113ff\U00011f41\U00011f42"
                   "\U00016100-\U0001613f\U00016d40-\U00016d7f\U0001cc00-\U0001cebf\U0001e030-\U0001e06d\U0001e08f"
                   "\U0001e2ae\U0001e4ec-\U0001e4ef\U0001e5d0-\U0001e5ff]")
# The blocks of what is written from right to left, and those of Unicode after 3.2 with signs that are turned among it.
RIGHT_TO_LEFT = re.compile("[\u0590-\u08ff\ufb1d-\ufdff\ufe70-\ufeff\U00010800-\U00010fff\U0001e800-\U0001efff]")
TURNED = re.compile("[\u0f3a-\u0f3d\u169b\u169c\u27c0-\u27ef\u2b00-\u2bff\u2e00-\u2e7f]")
# It calls this one a dash.
SOFT_HYPHEN = "\u00ad"


def utf8(text: str) -> bytes:
    """A text as UTF-8. What the name of a file has that is no text is written as `?`."""
    return text.encode("utf-8", "replace")


def is_utf8(text: str) -> bool:
    """Whether a text, which may be the name of a file, can be written as UTF-8."""
    return utf8(text).decode() == text


def is_odd(sign: str) -> bool:
    return not sign.isprintable() and sign != " "


def has_odd(text: str) -> bool:
    """Whether a text has a sign that isn't seen, that turns the direction of others or strikes them."""
    return not text.isascii() and has_mark_of_another(text) or any(map(is_odd, text)) or \
        UNSEEN.search(text) is not None or is_piled(text)


def has_mark_of_another(text: str) -> bool:
    """Whether a mark is after a letter of another script than its own, where it may not be seen. Those that Unicode
    calls combining are for all scripts."""
    letter = ""
    for sign in text:
        if unicodedata.category(sign) not in ("Mn", "Me"):
            letter = sign
        elif script_of(sign) not in ("COMBINING", script_of(letter)):
            return True
    return False


def script_of(sign: str) -> str:
    """The script of a sign, as its name begins; empty if it has none."""
    return unicodedata.name(sign, "").partition(" ")[0] if sign else ""


def kind_of(sign: str) -> str:
    """How a sign joins the others of a letter."""
    if found := next((kind for kind, signs in JOINS if signs.match(sign)), ""):
        return found
    category = unicodedata.category(sign)
    if category in ("Mn", "Me"):
        return "b" if BESIDE.match(sign) else "o"
    return "m" if category == "Mc" else " " if sign.isspace() else "c"


def kinds_of(text: str) -> str:
    """How each sign of a text joins the others."""
    kinds = text.translate({ord(sign): kind_of(sign) for sign in set(text)})
    return JOINING.sub(lambda found: "k" * len(found[0]), kinds)


def is_piled(text: str) -> bool:
    """Whether a letter is of more signs than any writing makes one of."""
    return not text.isascii() and PILE.search(kinds_of(text)) is not None


# What is the same in every Python

def is_known(sign: str) -> bool:
    """Whether every Python knows a sign."""
    return OF_ALL.category(sign) not in ("Cn", "Co", "Cs")


def is_unseen(sign: str) -> bool:
    """Whether every Python knows that a sign isn't seen."""
    return is_known(sign) and (OF_ALL.category(sign)[0] in "CZ" or sign == SOFT_HYPHEN) and sign != " "


def is_word(text: str) -> bool:
    """Whether a text has letters alone, and every Python knows these."""
    return all(OF_ALL.category(sign)[0] == "L" for sign in set(text))


def number_of(sign: str) -> str:
    """A sign as books have it: `U+1FAE8`."""
    return f"U+{ord(sign):04X}"


def is_newer(sign: str) -> bool:
    """Whether some Pythons know that a sign stands for others, or has an order behind a letter, and some don't."""
    return NEWER.match(sign) is not None


def in_one_form(text: str) -> str:
    """A text in which signs that mean the same are the same (NFKD). Those that not every Python knows stay as they are. The
    tools of Python would take the square of the number of marks in a row."""
    parted = text.translate({ord(sign): unicodedata.normalize("NFKD", sign) for sign in set(text) if not is_newer(sign)})
    marks = "".join(filter(place_of_mark, set(parted)))
    return re.sub(f"[{re.escape(marks)}]{{2,}}", in_order, parted) if marks else parted


def is_right_to_left(text: str) -> bool:
    """Whether a text has a sign that is written from right to left. Then digits, brackets and other letters of it are shown
    in another order than they are in: so `1` and a Hebrew letter look as the letter and `1`."""
    return RIGHT_TO_LEFT.search(text) is not None


def in_no_order(text: str) -> str:
    """The signs of a text, in whatever order they are and whichever way they are turned."""
    turned = {ord(sign): "(" for sign in set(text) if OF_ALL.mirrored(sign) or TURNED.match(sign)}
    return "".join(sorted(text.translate(turned)))


def in_order(marks: re.Match[str]) -> str:
    """Marks in the order that Unicode gives them."""
    return "".join(sorted(marks[0], key=place_of_mark))


def place_of_mark(sign: str) -> int:
    """The place of a mark among those behind a letter; 0 for what is no mark, or not in every Python."""
    return 0 if is_newer(sign) else unicodedata.combining(sign)


def is_composed(name: str) -> bool:
    """Whether the name of a file is as short as one that means the same can be (NFKC)."""
    return "".join("".join(part) if newer else unicodedata.normalize("NFKC", "".join(part))
                   for newer, part in itertools.groupby(name, is_newer)) == name


class Written(str):
    """What somebody has written. In quotation marks it is the same in every Python: what isn't known to be seen is shown by
    its number."""

    def __repr__(self) -> str:
        mark = '"' if "'" in self and '"' not in self else "'"
        numbered = {ord(sign): code_of(sign) for sign in set(self) if is_unseen(sign) or not is_known(sign)}
        shown = self.translate({**numbered, ord("\\"): "\\\\", ord(mark): f"\\{mark}"})
        return f"{mark}{shown}{mark}"


# What is shown

def replaced(text: str, by: Callable[[str], str]) -> str:
    """A text in which each sign that isn't seen, or is one of a pile of them, is replaced."""
    seen = UNSEEN.sub(lambda found: by(found[0]), text)
    if seen.isascii():
        return seen
    parts, at = list[str](), 0
    for found in PILE.finditer(kinds_of(seen)):
        parts += [seen[at:found.start()], *map(by, seen[found.start():found.end()])]
        at = found.end()
    return "".join([*parts, seen[at:]])


def code_of(sign: str) -> str:
    number = ord(sign)
    return f"\\x{number:02x}" if number < 256 else f"\\u{number:04x}" if number < 65536 else \
        f"\\U{number:08x}"


def plainly(text: str) -> str:
    """A text on one line of a terminal: what isn't seen is shown by its number."""
    seen = "".join(code_of(sign) if is_odd(sign) else sign for sign in text)
    return replaced(seen, code_of)


def quoted(value: object) -> str:
    """What was read, in quotation marks and on one line: what isn't seen is shown by its number, and the rest of a long
    text is left out."""
    shown = plainly(repr(value[:QUOTED + 1] if isinstance(value, str) else value)).replace(LIKE_A_SPACE, code_of(LIKE_A_SPACE))
    return shown if len(shown) <= QUOTED + 2 else f"{shown[:QUOTED + 1]}…{shown[0]}"


def shortly(text: str, most: int = MOST) -> str:
    """The same, and no longer than that."""
    seen = plainly(text[:most + 1])
    return seen if len(seen) <= most else f"{seen[:most]}…"
