"""What each boat holds in each race by the journal, with the role that gave it to her."""
from __future__ import annotations

from collections import defaultdict
from collections.abc import Sequence
from dataclasses import dataclass, field

from raceoffice.program.codes import OF_JURY
from raceoffice.program.replay import Line

HOLDING = ("MARK", "PENALTY", "REDRESS", "CLEAR")


@dataclass
class Holding:
    """What CLEAR takes from a boat in a race. Of DSQ and DNE also the code that each replaced."""
    code: str = ""
    role: str = ""
    before: tuple[str, str] = ("", "")
    penalties: list[tuple[str, str]] = field(default_factory=list)
    redress: str = ""
    # Whether the jury ever decided anything about her there.
    was_decided: bool = False

    def take(self, role: str, command: str, what: str) -> None:
        """Follows one entry of the journal about her."""
        if command == "MARK":
            if what in OF_JURY:
                self.before = (self.code, self.role)
            self.code, self.role = what, role
        elif command == "PENALTY":
            self.penalties.append((what, role))
        elif command == "REDRESS":
            self.redress = what
        elif command == "CLEAR":
            self.code, self.role, self.before, self.redress = "", "", ("", ""), ""
            self.penalties = []
        # Of a decision that gave her a DNF alone, and was taken out, the jury's CLEAR is left.
        self.was_decided |= role == "JURY" or command == "REDRESS" or what in OF_JURY

    @property
    def is_any(self) -> bool:
        return bool(self.code or self.penalties or self.redress)

    @property
    def is_of_jury(self) -> bool:
        """Whether she holds anything that the jury gave her."""
        return bool(self.redress or self.code in OF_JURY
                    or any(role == "JURY" for _, role in self.penalties))

    @property
    def kinds(self) -> tuple[object, ...]:
        """What she holds, whoever gave it."""
        return self.code, sorted(kind for kind, _ in self.penalties), self.redress

    @property
    def is_points(self) -> bool:
        """Whether her redress is a number of points, as a decision's is."""
        return self.redress[:1].isdigit()


@dataclass(frozen=True)
class Known:
    """The entries of a journal of which a page knows that they are of decisions, or of other lines."""
    of_decisions: frozenset[str] = frozenset()
    of_others: frozenset[str] = frozenset()


def about(journal: Sequence[str], race: int, sail: str) -> list[str]:
    """The entries by which a boat holds something in a race, or no longer does."""
    return [entry for entry in journal if entry.split()[3] in HOLDING and entry.split()[4:6] == [str(race), sail]]


def holdings(journal: Sequence[str]) -> defaultdict[tuple[int, str], Holding]:
    """What each boat holds, by race and sail."""
    found: defaultdict[tuple[int, str], Holding] = defaultdict(Holding)
    for entry in journal:
        _, _, role, command, *rest = entry.split()
        if command in HOLDING:
            found[int(rest[0]), rest[1]].take(role, command, rest[2] if len(rest) > 2 else "")
    return found


def cleared(race: int, sail: str) -> Line:
    return Line("JURY", f"CLEAR {race} {sail}")


def marked(race: int, sail: str, code: str, role: str = "SCORER") -> Line:
    return Line(role, f"MARK {race} {sail} {code}")


def restored(race: int, sail: str, held: Holding) -> list[Line]:
    """The lines that give back what CLEAR took with a redress: her code and her penalties, each in the role that gave
    it."""
    code = [marked(race, sail, held.code, held.role)] if held.code else []
    return code + [Line(role, f"PENALTY {race} {sail} {kind}") for kind, role in held.penalties]


def without_one(race: int, sail: str, code: str, held: Holding) -> list[Line]:
    """The lines after which a boat holds all but one thing: DSQ or DNE, which gives back what it has replaced, one of her
    penalties, or her redress (`RDG`). None if she doesn't hold it."""
    kept = Holding(held.code, held.role, held.before, list(held.penalties), held.redress)
    given = next((one for one in reversed(held.penalties) if one[0] == code), None)
    if code == "RDG" and held.redress:
        kept.redress = ""
    elif code in OF_JURY and code == held.code:
        kept.code, kept.role, kept.before = *held.before, ("", "")
    elif given:
        kept.penalties.remove(given)
    else:
        return []
    replaced = [marked(race, sail, *kept.before)] if kept.before[0] else []
    redress = [Line("JURY", f"REDRESS {race} {sail} {kept.redress}")] if kept.redress else []
    return [cleared(race, sail), *replaced, *restored(race, sail, kept), *redress]


def reinstated(race: int, sail: str, held: Holding) -> list[Line]:
    """The lines that take away what the jury gave her, and leave what the committee did."""
    if not held.is_of_jury:
        return []
    code, role = held.before if held.code in OF_JURY else (held.code, held.role)
    kept = Holding(code, role, penalties=[given for given in held.penalties if given[1] != "JURY"])
    return [cleared(race, sail), *restored(race, sail, kept)]
