"""Two devices record races at random: finishers, level ones, those ahead of others, places of unread sails, who they were,
strikes and undos. Each order is compared with when everybody crossed the line, which the check knows by itself."""
from __future__ import annotations

import os
import random
import unittest
from collections.abc import Callable, Mapping
from typing import Any

from on_water import Device, OnWater, Scorer, Water, Window, lines_of_swap
from raceoffice.errors import NotSent
from raceoffice.web.finish_order import Elsewhere
from raceoffice.web.room import Room
from raceoffice.web.tap_session import Asked
from raceoffice.web.taps import Tap
from web_devices import SAILS, new_id

# Races of a series, and steps in each.
RACES, STEPS = 15, 16
# How many sequences each of three checks tries, and with which the first begins.
SEQUENCES, FIRST = int(os.environ.get("SEQUENCES", "100")), int(os.environ.get("FIRST", "0"))


class Sequence:
    """A race, recorded at random."""

    def __init__(self, race: int, dice: random.Random, devices: list[Device], scorer: Scorer,
                 seen: Callable[[int], list[list[str]]]) -> None:
        self.race, self.dice, self.devices, self.scorer, self.seen = race, dice, devices, scorer, seen
        self.water, self.log = Water(), list[str]()
        for device in devices:
            device.done = []

    def step(self) -> None:
        """Does something."""
        water, dice = self.water, self.dice
        device = dice.choice(self.devices)
        device.asked, device.answers = [], [dice.random() < 0.5 for _ in range(6)]
        out = [sail for sail in SAILS if sail not in water.here]
        ways: list[Callable[[Device], None]] = [self.keep, self.keep, self.undo, self.undo]
        ways += [self.finish] * 3 if out else []
        ways += [self.level, self.ahead, self.ahead] if out and water.boats() else []
        ways += [self.strike] * 2 if water.boats() else []
        ways += [self.know] * 3 if out and water.marks() else []
        ways += [self.drop] if water.marks() else []
        if len(water.boats()) > 1:
            ways += [self.move, self.swap]
        dice.choice(ways)(device)
        order = water.order()
        found = self.seen(self.race)
        self.log.append(f"    {found}")
        if found != order:
            raise AssertionError("\n".join([*self.log, f"on the water {order}"]))

    def out(self) -> str:
        return self.dice.choice([sail for sail in SAILS if sail not in self.water.here])

    def send(self, device: Device, line: str, undoes: str = "") -> Mapping[str, Any] | None:
        found = device.send(self.race, line, undoes)
        self.log.append(f"{type(device).__name__} {line} {device.asked} {'' if found is not None else 'NOT TAKEN'}")
        return found

    def came(self, device: Device, sail: str, line: str, moment: float) -> None:
        """A boat comes by a line that puts her at a moment, unless somebody says that she is where she was."""
        wanted, answers = self.water.asked_of(sail, moment), list(device.answers)
        found = self.send(device, line)
        noes = [at for at, _ in enumerate(wanted) if not answers[at]]
        if device.asked != (wanted[:noes[0] + 1] if noes else wanted):
            raise AssertionError("\n".join([*self.log, f"should ask about {wanted}"]))
        if found is None:
            return
        if noes:
            moment = self.water.as_before(sail, wanted[noes[0]], noes[0] == 0)
        self.water.come(sail, moment)
        device.done.append((found["id"], "came", sail))

    def finish(self, device: Device) -> None:
        sail = self.out()
        self.came(device, sail, f"FINISH {self.race} {sail}", self.water.last())

    def ahead(self, device: Device) -> None:
        sail, other = self.out(), self.dice.choice(self.water.boats())
        self.came(device, sail, f"BEFORE {self.race} {sail} {other}", self.water.just_ahead(other))

    def move(self, _: Device) -> None:
        """The scorer moves a boat ahead of another, or after all."""
        water, scorer = self.water, self.scorer
        scorer.asked, scorer.answers = [], [self.dice.random() < 0.5 for _ in range(6)]
        sail, other = self.dice.sample(water.boats(), 2)
        is_last = self.dice.random() < 0.3
        water.here.discard(sail)
        line = f"FINISH {self.race} {sail}" if is_last else f"BEFORE {self.race} {sail} {other}"
        self.came(scorer, sail, line, water.last() if is_last else water.just_ahead(other))
        water.here.add(sail)

    def swap(self, _: Device) -> None:
        """The scorer swaps two boats."""
        water = self.water
        one, other = self.dice.sample(water.boats(), 2)
        if water.when[one] == water.when[other]:
            return
        lines = lines_of_swap(self.seen(self.race), self.race, one, other)
        self.log.append(str(lines))
        self.scorer.correct(lines)
        water.when[one], water.when[other] = water.when[other], water.when[one]
        for sail in (one, other):
            water.come(sail, water.when[sail])
        # The page doesn't know of boats and places that aren't there any more.
        for device in self.devices:
            device.done = [done for done in device.done if done[1] not in ("struck", "dropped")]

    def level(self, device: Device) -> None:
        sail, other = self.out(), self.dice.choice(self.water.boats())
        if (found := self.send(device, f"TIE {self.race} {sail} {other}")) is not None:
            self.water.come(sail, self.water.when[other])
            device.done.append((found["id"], "came", sail))

    def strike(self, device: Device) -> None:
        sail = self.dice.choice(self.water.boats())
        if (found := self.send(device, f"STRIKE {self.race} {sail}")) is not None:
            self.water.here.discard(sail)
            device.done.append((found["id"], "struck", sail))

    def keep(self, device: Device) -> None:
        if (found := self.send(device, f"? {self.race}")) is not None:
            self.water.come(found["mark"], self.water.last())
            device.done.append((found["id"], "kept", found["mark"]))

    def know(self, device: Device) -> None:
        mark, sail = self.dice.choice(self.water.marks()), self.out()
        if (found := self.send(device, f"{mark} {self.race} {sail}")) is not None:
            self.water.here.discard(mark)
            self.water.come(sail, self.water.when[mark])
            self.water.whose[sail] = mark
            device.done.append((found["id"], "known", sail))

    def drop(self, device: Device) -> None:
        mark = self.dice.choice(self.water.marks())
        if (found := self.send(device, f"{mark} {self.race} NONE")) is not None:
            self.water.here.discard(mark)
            device.done.append((found["id"], "dropped", mark))

    def undo(self, device: Device) -> None:
        """Takes back what a device has done last; a phone also what came before."""
        if not device.done:
            return
        at = self.dice.randrange(-min(len(device.done), 1 if isinstance(device, Window) else 2), 0)
        id, what, name = device.done[at]
        if self.send(device, "UNDO", id) is None:
            return
        del device.done[at]
        self.undone(what, name)
        if isinstance(device, Window):
            # There what was undone can be done again, except that a boat has left a place.
            again = {"came": "struck", "struck": "came", "kept": "dropped", "dropped": "kept"}
            device.done = [("", again[what], name)] if what in again else []

    def undone(self, what: str, name: str) -> None:
        water = self.water
        if what in ("came", "kept", "known"):
            water.here.discard(name)
        else:
            water.come(name, water.when[name])
        if what == "known":
            # She was never there.
            del water.when[name]
            water.ahead = {pair for pair in water.ahead if pair[0] != name}
            mark = water.whose.pop(name)
            water.come(mark, water.when[mark])


class LatePhone:
    """A phone: the boats that it shows in their order, and its taps that wait, each with when somebody crossed the line and
    the last boat that was shown then."""

    def __init__(self, name: str) -> None:
        self.name, self.is_away = name, False
        self.shown: list[str] = []
        self.waiting: list[tuple[str, float, str | None]] = []

    def tap(self, line: str, moment: float) -> None:
        command, _, *rest = line.split()
        behind = (self.shown or [""])[-1] if command in ("FINISH", "?") else None
        self.waiting.append((line, moment, behind))
        if command == "FINISH":
            self.shown.append(rest[0])


class Meanwhile:
    """A race at random that two phones record, each of which has no connection for a while. What is asked is answered
    by where she was on the water."""

    def __init__(self, race: int, dice: random.Random, room: Room, seen: Callable[[int], list[list[str]]]) -> None:
        self.race, self.dice, self.room, self.seen = race, dice, room, seen
        self.water, self.log, self.now = Water(), list[str](), 0.0
        self.phones = [LatePhone("Ann"), LatePhone("Bob")]
        # Boats whose taps haven't arrived.
        self.tapped: set[str] = set()
        # How often it was asked where a boat, or a place, was, and how often the clock had no true answer.
        self.asked = self.dropped = 0

    def step(self) -> None:
        """Somebody crosses the line, is known or is nobody after all, or a phone comes or goes."""
        phone = self.dice.choice(self.phones)
        self.now += self.dice.choice([0.2, 0.6, 1.5, 5])
        if self.dice.random() < 0.25:
            phone.is_away = not phone.is_away
        else:
            if not phone.is_away:
                self.show(phone)
            self.tap(phone)
        if not phone.is_away:
            self.arrive(phone)

    def show(self, phone: LatePhone) -> None:
        phone.shown = [sail for group in self.seen(self.race) for sail in group if "?" not in sail]

    def tap(self, phone: LatePhone) -> None:
        """Taps something that the phone can show."""
        # A boat that was struck may be the last that a phone without a connection shows.
        gone = set(self.water.when) if any(other.is_away for other in self.phones) else set()
        left = [sail for sail in SAILS if sail not in self.water.here | self.tapped | gone]
        marks, boats = ([], []) if phone.is_away else (self.water.marks(), self.water.boats())
        ways = [f"? {self.race}"] * 3 + [f"{mark} {self.race} NONE" for mark in marks[:1]]
        ways += [f"STRIKE {self.race} {self.dice.choice(boats)}"] * 2 if boats else []
        if left:
            sail = self.dice.choice(left)
            ways += [f"FINISH {self.race} {sail}"] * 4 + [f"{mark} {self.race} {sail}" for mark in marks]
            ways += [f"{command} {self.race} {sail} {other}" for other in phone.shown[-1:] for command in ("BEFORE", "TIE")]
        line = self.dice.choice(ways)
        self.tapped.update(line.split()[2:3])
        phone.tap(line, self.now)

    def arrive(self, phone: LatePhone) -> None:
        """The taps of a phone arrive in their order."""
        while phone.waiting:
            line, moment, behind = phone.waiting.pop(0)
            self.log.append(f"{phone.name} {line} at {moment:.1f}, behind {behind}")
            self.tapped -= set(line.split()[2:3])
            if found := self.send(phone, line, moment, behind):
                self.came(line, str(found["mark"]), moment)
            order, now = self.water.order(), self.seen(self.race)
            self.log.append(f"    {now}")
            if now != order:
                raise AssertionError("\n".join([*self.log, f"on the water {order}"]))

    def send(self, phone: LatePhone, line: str, moment: float, behind: str | None) -> Mapping[str, Any] | None:
        """What came of a tap; None if nothing did."""
        values: dict[str, Any] = {"id": new_id(), "line": line, "at": 10_000_000 + round(1000 * moment), "behind": behind,
                                  "agreed": []}
        while True:
            try:
                found = self.room.do("FINISH", phone.name, Tap.read(values))
                return found if found["outcome"] != "refused" else None
            except NotSent:
                return None
            except Elsewhere as where:
                self.log.append(f"    {where} {where.clock}")
                self.asked += 1
                if (answer := self.answer(moment, where.clock)) is None:
                    self.dropped += 1
                    return None
                values |= answer
            except Asked as asked:
                mark = str(asked.question.values["mark"])
                self.log.append(f"    {asked}")
                if self.water.when[mark] > moment:
                    return None
                values["agreed"].append({"kind": asked.question.kind, "values": dict(asked.question.values)})

    def answer(self, moment: float, clock: str) -> dict[str, Any] | None:
        """The true answer to where somebody was who crossed the line at a moment; None if there is no such."""
        later = [self.water.when[name] for name in self.water.here if self.water.when[name] > moment]
        told = clock.split()[3:] if clock.startswith("BEFORE ") else []
        if [self.water.when[name] for name in told] == sorted(later)[:1]:
            return {"by_clock": True}
        return None if later else {"behind": None}

    def came(self, line: str, mark: str, moment: float) -> None:
        """Follows on the water what was taken."""
        water, (first, _, *rest) = self.water, line.split()
        match [first, *rest]:
            case ["?"]:
                water.come(mark, moment)
            case ["FINISH", sail]:
                water.come(sail, moment)
            case ["STRIKE", sail]:
                water.here.discard(sail)
            case ["TIE", sail, other]:
                water.come(sail, water.when[other])
            case ["BEFORE", sail, other]:
                water.come(sail, water.just_ahead(other))
            case [place, sail]:
                water.here.discard(place)
                if sail != "NONE":
                    water.come(sail, water.when[place])


class AtRandom(OnWater):
    def check(self, first: int) -> None:
        """In each order everybody is where she crossed the line, unless the office has asked."""
        for seed in range(first, first + SEQUENCES):
            race = (seed - first) % RACES + 1
            if race == 1 and seed > first:
                self.doCleanups()
                self.setUp()
            sequence = Sequence(race, random.Random(seed), [self.phone, self.window_bob], self.scorer, self.seen)
            with self.subTest(seed=seed):
                for _ in range(STEPS):
                    sequence.step()

    def test_some(self) -> None:
        self.check(FIRST)

    def test_others(self) -> None:
        self.check(FIRST + SEQUENCES)

    def test_more(self) -> None:
        self.check(FIRST + 2 * SEQUENCES)


class WithoutConnection(OnWater):
    def test_some(self) -> None:
        """Taps that arrive late are where their boats crossed the line, or it was asked."""
        asked = dropped = 0
        for seed in range(FIRST, FIRST + SEQUENCES // 3):
            race = (seed - FIRST) % RACES + 1
            if race == 1 and seed > FIRST:
                self.doCleanups()
                self.setUp()
            sequence = Meanwhile(race, random.Random(seed), self.room, self.seen)
            with self.subTest(seed=seed):
                for _ in range(2 * STEPS):
                    sequence.step()
            asked, dropped = asked + sequence.asked, dropped + sequence.dropped
        self.assertGreater(asked, SEQUENCES // 3)
        self.assertLess(dropped, asked // 5)


if __name__ == "__main__":
    unittest.main()
