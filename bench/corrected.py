"""Seasons whose races count from the first day on, and are corrected while they count."""
from __future__ import annotations

import random
from dataclasses import dataclass, field

SEED = 2026
GIVEN_CODES = ("DNC", "DNS", "OCS", "UFD", "BFD", "DNF", "RET")
JURY_CODES = ("DSQ", "DNE")
MAX_PENALTIES = 9


@dataclass
class Race:
    """What a race has had so far."""

    number: int
    placed: list[str] = field(default_factory=list)
    # How many of each kind of penalty a boat has, and who has a code, a penalty or redress.
    penalties: dict[tuple[str, str], int] = field(default_factory=dict)
    held: set[str] = field(default_factory=set)
    # Who has DSQ, DNE or redress.
    decided: set[str] = field(default_factory=set)


class Season:
    """The lines of a season, all of whose commands are accepted."""

    def __init__(self, boats: int, seed: int = SEED) -> None:
        self.by_chance = random.Random(seed)
        self.sails = [f"GBR{boat + 1}" for boat in range(boats)]
        self.lines: list[str] = []
        self.commands = 0
        self.role = "SCORER"
        self.races: list[Race] = []

    def send(self, role: str, command: str) -> None:
        """Adds a command in this role, with a line for the role if it changes."""
        if role != self.role:
            self.lines.append(f"ROLE {role}")
            self.role = role
        self.lines.append(command)
        self.commands += 1

    def committee(self) -> str:
        """Who records a place: the committee at the finishing line or the scorer."""
        return self.by_chance.choice(("FINISH", "FINISH", "SCORER"))

    def place(self, race: Race, sail: str) -> None:
        """Places a boat last, or now and then by the place of another."""
        chance, other = self.by_chance.random(), self.by_chance.choice(race.placed or [sail])
        if other == sail or chance < 0.86:
            words = f"FINISH {race.number} {sail}"
        else:
            words = f"{'TIE' if chance < 0.92 else 'BEFORE'} {race.number} {sail} {other}"
        self.send(self.committee(), words)
        race.placed.append(sail)

    def sail_race(self, most: int) -> None:
        """A new race with at most this many commands: it is sailed, and then it counts."""
        race = Race(len(self.races) + 1)
        self.races.append(race)
        sails = self.by_chance.sample(self.sails, min(len(self.sails), most - 1))
        for sail in sails:
            if race.placed and self.by_chance.random() < 0.06:
                self.send("SCORER", f"MARK {race.number} {sail} {self.by_chance.choice(GIVEN_CODES)}")
                race.held.add(sail)
            else:
                self.place(race, sail)
        self.send("SCORER", f"SCORE {race.number}")

    def correct(self, left: int) -> None:
        """One correction of a race that counts, mostly the last; it takes one or two commands."""
        race = self.by_chance.choice([self.races[-1]] * 3 + self.races)
        sail = self.by_chance.choice(self.sails)
        what = self.by_chance.random()
        if left > 1 and what < 0.03:
            self.send("SCORER", f"UNSCORE {race.number}")
            self.send("SCORER", f"SCORE {race.number}")
        elif left > 1 and what < 0.15:
            sail = race.placed.pop(self.by_chance.randrange(len(race.placed)))
            self.send("SCORER", f"STRIKE {race.number} {sail}")
            self.place(race, sail)
        elif what < 0.30 and race.held:
            sail = self.by_chance.choice(sorted(race.held))
            self.send("JURY", f"CLEAR {race.number} {sail}")
            race.held.discard(sail)
            race.decided.discard(sail)
            race.penalties = {of: n for of, n in race.penalties.items() if of[0] != sail}
        elif sail not in race.decided:
            self.decide(race, sail)

    def decide(self, race: Race, sail: str) -> None:
        """A code, a penalty or redress for a boat without a decision of the jury."""
        what = self.by_chance.random()
        kind = self.by_chance.choice(("ZFP", "SCP"))
        if what < 0.40:
            self.send("SCORER", f"MARK {race.number} {sail} {self.by_chance.choice(GIVEN_CODES)}")
        elif what < 0.55:
            self.send("JURY", f"MARK {race.number} {sail} {self.by_chance.choice(JURY_CODES)}")
            race.decided.add(sail)
        elif what < 0.78 and race.penalties.get((sail, kind), 0) < MAX_PENALTIES:
            self.send("JURY", f"PENALTY {race.number} {sail} {kind}")
            race.penalties[sail, kind] = race.penalties.get((sail, kind), 0) + 1
        else:
            how = self.by_chance.choice(("ALL", "PRIOR", f"{self.by_chance.randrange(1, 20)}.5"))
            self.send("JURY", f"REDRESS {race.number} {sail} {how}")
            race.decided.add(sail)
        race.held.add(sail)


def season(boats: int, races: int, entries: int) -> list[str]:
    """The lines of such a season with `boats` boats, `races` races and `entries` commands."""
    made = Season(boats)
    for sail in made.sails:
        made.send("SCORER", f"ENTER {sail}")
    for race in range(1, races + 1):
        upto = boats + (entries - boats) * race // races
        # Two thirds of a race's commands are those of the day, if there are boats enough.
        made.sail_race((upto - made.commands) * 2 // 3)
        while made.commands < upto:
            made.correct(upto - made.commands)
    return made.lines
