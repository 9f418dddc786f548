"""The codes of the program (RRS A10): what each means, who gives it, and how it is scored."""
from __future__ import annotations

from dataclasses import dataclass


@dataclass(frozen=True)
class Code:
    """A code: its meaning, whether only the jury gives it, whether she broke a rule, and whether she
    scores as for Did Not Finish (RRS A5.2, A5.3)."""
    meaning: str
    is_of_jury: bool = False
    is_breach: bool = False
    is_as_dnf: bool = True


CODES = {
    "DNC": Code("did not come to the starting area", is_as_dnf=False),
    "DNS": Code("did not start"),
    "OCS": Code("on the course side at the start (RRS 28.1, 30.1)", is_breach=True),
    "UFD": Code("broke the flag U rule (RRS 30.3)", is_breach=True),
    "BFD": Code("broke the black flag rule (RRS 30.4)", is_breach=True),
    "DNF": Code("did not finish"),
    "RET": Code("retired"),
    "DSQ": Code("disqualified", is_of_jury=True, is_breach=True),
    "DNE": Code("disqualified; the score can’t be excluded (RRS 90.3(b))", is_of_jury=True, is_breach=True),
}
OF_COMMITTEE = tuple(word for word, code in CODES.items() if not code.is_of_jury)
OF_JURY = tuple(word for word, code in CODES.items() if code.is_of_jury)
AS_DNF = tuple(word for word, code in CODES.items() if code.is_as_dnf)
