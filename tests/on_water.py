"""Devices that record races over the real program, and what happened on the water, which the checks know by
themselves."""
from __future__ import annotations

import os
from collections.abc import Mapping
from typing import Any

import helpers
from raceoffice.errors import NotSent
from raceoffice.series.folder import Folder
from raceoffice.session.dialogue import Question
from raceoffice.session.session import Session
from raceoffice.web.corrections import correct
from raceoffice.web.room import Room
from raceoffice.web.tap_session import Asked
from raceoffice.web.taps import Tap
from web_devices import new_id


class Water:
    """When everybody of a race crossed the line. `here` are the boats of the order and the places that are kept; `ahead`
    has the boats that were ahead of a place when both were here last."""

    def __init__(self) -> None:
        self.when: dict[str, float] = {}
        self.here: set[str] = set()
        self.ahead: set[tuple[str, str]] = set()
        # For whom each place was.
        self.whose: dict[str, str] = {}

    def order(self) -> list[list[str]]:
        moments = sorted({self.when[name] for name in self.here})
        return [sorted(name for name in self.here if self.when[name] == moment) for moment in moments]

    def boats(self) -> list[str]:
        return sorted(name for name in self.here if "?" not in name)

    def marks(self) -> list[str]:
        return sorted(name for name in self.here if "?" in name)

    def last(self) -> float:
        return max(self.when.values(), default=0.0) + 1

    def just_ahead(self, name: str) -> float:
        """A moment just before somebody's, after all who came before."""
        moment = self.when[name]
        return (moment + max((other for other in self.when.values() if other < moment), default=moment - 1)) / 2

    def come(self, name: str, moment: float) -> None:
        self.when[name] = moment
        self.here.add(name)
        for mark in self.marks():
            for sail in self.boats():
                pair = (sail, mark)
                (self.ahead.add if self.when[sail] < self.when[mark] else self.ahead.discard)(pair)

    def asked_of(self, sail: str, moment: float) -> list[str]:
        """The places that a boat was ahead of before she was struck, and that nobody is behind who finished before a
        moment."""
        boats = [self.when[boat] for boat in self.boats()]
        return sorted((mark for mark in self.marks() if (sail, mark) in self.ahead and self.when[mark] < moment
                       and not any(self.when[mark] < boat < moment for boat in boats)), key=lambda mark: self.when[mark])

    def as_before(self, sail: str, mark: str, is_first: bool) -> float:
        """When a boat crossed the line that isn't behind a place."""
        was, moment = self.when.get(sail, self.last()), self.when[mark]
        is_alone = not any(was <= self.when[boat] < moment for boat in self.boats())
        return was if is_first and was < moment and is_alone else self.just_ahead(mark)


class Device:
    """Somebody who records. `answer` says yes or no to a question about a boat and a place."""

    def __init__(self) -> None:
        self.answers: list[bool] = []
        self.asked: list[str] = []
        # What can be undone: a tap's identity or nothing, what was done, and to whom.
        self.done: list[tuple[str, str, str]] = []

    def answer(self, question: Question) -> bool:
        if question.kind != "finished-after":
            return True
        self.asked.append(str(question.values["mark"]))
        return self.answers.pop(0) if self.answers else True

    def send(self, race: int, line: str, undoes: str = "") -> Mapping[str, Any] | None:
        """Sends a line; what came of it, None if nothing did."""
        raise NotImplementedError


class Phone(Device):
    can_say_no = False

    def __init__(self, room: Room, name: str) -> None:
        super().__init__()
        self.room, self.name = room, name

    def send(self, race: int, line: str, undoes: str = "") -> Mapping[str, Any] | None:
        values: dict[str, Any] = {"id": new_id(), "line": line, "undoes": undoes, "agreed": []}
        while True:
            try:
                found = self.room.do("FINISH", self.name, Tap.read(values))
                return {**found, "id": values["id"]} if found["outcome"] != "refused" else None
            except Asked as asked:
                if not self.answer(asked.question):
                    return None
                values["agreed"].append({"kind": asked.question.kind, "values": dict(asked.question.values)})
            except NotSent:
                return None


class Window(Device):
    can_say_no = True

    def __init__(self, folder: Folder, name: str) -> None:
        super().__init__()
        self.session = Session(folder, "FINISH", name, lambda said: None, self.answer)
        self.session.connect()

    def send(self, race: int, line: str, undoes: str = "") -> Mapping[str, Any] | None:
        self.session.at = race
        first, *rest = line.split()
        typed = first if rest == [str(race)] else " ".join([first, *rest[1:]]) if "?" in first else line
        try:
            found = self.session.do(typed.lower())
        except NotSent:
            return None
        return {"mark": found.mark, "id": ""} if found.is_taken else None


class Scorer(Device):
    """Somebody who corrects by pointing."""

    def __init__(self, room: Room) -> None:
        super().__init__()
        self.room = room

    def correct(self, lines: list[str]) -> bool:
        """Sends the lines of a correction; whether it was done."""
        values: dict[str, Any] = {"id": new_id(), "lines": list(lines), "agreed": []}
        while True:
            try:
                return correct(self.room, values, "Cy")["outcome"] == "taken"
            except Asked as asked:
                if not self.answer(asked.question):
                    return False
                values["agreed"].append({"kind": asked.question.kind, "values": dict(asked.question.values)})

    def send(self, race: int, line: str, undoes: str = "") -> Mapping[str, Any] | None:
        """Moves a boat by the line that puts her elsewhere."""
        return {"id": ""} if self.correct([f"STRIKE {race} {line.split()[2]}", line]) else None


def lines_of_swap(order: list[list[str]], race: int, one: str, other: str) -> list[str]:
    """The lines after which two boats stand where the other stood, as the page has them."""
    boats = [group for group in order if "?" not in group[0]]
    first, second = (one, other) if order.index(group_of(order, one)) < order.index(group_of(order, other)) else (other, one)
    group = group_of(order, first)
    level = next((sail for sail in group if sail != first), "")
    next_one = boats[boats.index(group) + 1][0]
    place = order[order.index(group) + 1][0]
    back = f"TIE {race} {second} {level}" if level else " ".join(
        [f"BEFORE {race} {second} {first if next_one == second else next_one}", *([place] if "?" in place else [])])
    return [f"STRIKE {race} {first}", f"TIE {race} {first} {second}", f"STRIKE {race} {second}", back]


def group_of(order: list[list[str]], sail: str) -> list[str]:
    return next(group for group in order if sail in group)


class OnWater(helpers.Series):
    def setUp(self) -> None:
        super().setUp()
        self.open()
        folder = Folder(os.path.join(self.here, "cup"))
        self.room = Room(folder, lambda: None)
        self.addCleanup(lambda: self.room.close())
        self.phone, self.window_bob = Phone(self.room, "Ann"), Window(folder, "Bob")
        self.addCleanup(self.window_bob.session.disconnect)
        self.scorer = Scorer(self.room)

    def shown(self, race: int) -> Any:
        """What a page shows of a race."""
        self.room.look()
        values: Any = self.room.state(False)["races"]
        return values.get(str(race), {"order": [], "unread": []})

    def seen(self, race: int) -> list[list[str]]:
        """The order of a race with the places that are kept."""
        shown = self.shown(race)
        found = list[list[str]]()
        for at, group in enumerate([*shown["order"], []]):
            found += [[unread["mark"]] for unread in shown["unread"] if unread["after"] == at]
            found += [sorted(group)] if group else []
        return found
