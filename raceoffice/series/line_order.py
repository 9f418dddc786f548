"""Who crossed the line of a race, boats and those whose sails aren't known, in one list. The lines of the journal and
the notes of office/places are followed in their order in time. A boat that is struck stays where she was, as somebody
may put her back there, and so does a place that has ended."""
from __future__ import annotations

import contextlib
from collections.abc import Collection, Mapping, Sequence
from dataclasses import dataclass, field

# Lines that change the order of a race in which places can be kept.
ORDERING = ("FINISH", "TIE", "BEFORE", "STRIKE")
# The place of a boat alone: where she was before she was struck
HERS = "?"


@dataclass(frozen=True)
class Kept:
    """How a place is kept: behind these boats, when the journal has this number of entries. `later` is the boat or the
    place just ahead of which it comes; empty if it comes last."""
    mark: str
    behind: Collection[str]
    entries: int
    later: str = ""


@dataclass(frozen=True)
class Meant:
    """What a line does with a place: it puts its boat there (`resolved`), takes her out again (`leaving`), or puts her
    ahead of it, where she was before she was struck (`back`)."""
    what: str = ""
    mark: str = HERS


def is_mark(name: str) -> bool:
    """Whether somebody in the list is a place, and no boat."""
    return "?" in name


@dataclass
class LineOrder:
    """The list: a group for each place on the water. `struck` are boats that aren't in the order any more; `ahead` has,
    for each place, the boats that were ahead of it when both were there last."""
    groups: list[list[str]] = field(default_factory=list)
    struck: set[str] = field(default_factory=set)
    ahead: dict[str, set[str]] = field(default_factory=dict)
    # After how many groups no boat of the order comes any more; None after a line, until somebody needs it.
    end: int | None = field(default=None, compare=False)

    def copy(self) -> LineOrder:
        """The same order, which may be changed."""
        ahead = {mark: set(sails) for mark, sails in self.ahead.items()}
        return LineOrder([list(group) for group in self.groups], set(self.struck), ahead, self.end)

    def go_on(self, number: int, journal: Sequence[str], kept: Sequence[Kept], meant: Mapping[int, Meant], since: int) -> None:
        """Follows the lines of a race that come after the first `since` ones of a journal, and these places. `meant` has what is
        noted of some entries, by their numbers."""
        due, race = dict[int, list[Kept]](), f" {number} "
        for place in kept:
            due.setdefault(min(place.entries, len(journal)), []).append(place)
        for at in range(since, len(journal) + 1):
            line = journal[at - 1] if at > since else ""
            if race in line and line.startswith(ORDERING):
                self.follow_line(number, line, meant.get(at, Meant()))
            for place in due.get(at, ()):
                self.keep(place)

    # What is there

    def at(self, name: str) -> int:
        """Where a boat or a place is; a ValueError if it is nowhere."""
        found = next((at for at, group in enumerate(self.groups) if name in group), None)
        if found is None:
            raise ValueError(name)
        return found

    def boats(self, group: Sequence[str]) -> list[str]:
        """The boats of a group that are in the order."""
        return [name for name in group if not is_mark(name) and name not in self.struck]

    def are_none_between(self, first: int, end: int) -> bool:
        """Whether no boat of the order is in these groups."""
        return not any(self.boats(group) for group in self.groups[first:end])

    def standing(self, marks: Collection[str]) -> list[list[str]]:
        """The list with the boats of the order and these places alone."""
        found = [[name for name in group if name in marks or name in self.boats(group)] for group in self.groups]
        return [group for group in found if group]

    def boats_before(self, name: str) -> list[str]:
        """The boats of the order ahead of somebody of the list."""
        return [sail for group in self.groups[:self.at(name)] for sail in self.boats(group)]

    def ahead_of(self, mark: str) -> set[str]:
        """The boats ahead of a place, and those that were and aren't in the order."""
        return self.ahead_of_each({mark})[mark]

    def ahead_of_each(self, marks: Collection[str]) -> dict[str, set[str]]:
        """The same of some places, in their order."""
        now = {sail for group in self.groups for sail in self.boats(group)}
        first, found = set[str](), dict[str, set[str]]()
        for group in self.groups:
            first.update(self.boats(group))
            found |= {mark: first | (self.ahead[mark] - now) for mark in group if mark in marks}
        return found

    def end_of_boats(self) -> int:
        """After how many groups no boat of the order comes any more. However many places are kept then, each comes last."""
        if self.end is None:
            self.end = next((at for at in range(len(self.groups), 0, -1) if self.boats(self.groups[at - 1])), 0)
        return self.end

    def ahead_before(self, line: str, later: str = "") -> list[str]:
        """The places that a boat was ahead of when she was struck, and that she would come behind by this line if it
        is taken as it stands, or puts her just ahead of the place `later`. No boat is between."""
        command, _, sail, *other = line.split()
        with contextlib.suppress(ValueError):
            next_one = [later] if later else other
            at = self.at(next_one[0]) if next_one else len(self.groups)
            behind = [(where, mark) for where, group in enumerate(self.groups[:at]) for mark in filter(is_mark, group)
                      if sail in self.ahead[mark]]
            return [mark for where, mark in behind if self.are_none_between(where, at)]
        return []

    def places_level_with(self, sail: str) -> list[str]:
        """The places, open or not, that a boat is level with, or was before she was struck."""
        return [name for name in self.groups[self.at(sail)] if is_mark(name)]

    def line_back(self, number: int, sail: str) -> str:
        """The line that puts a boat that was struck where she was."""
        at = self.at(sail)
        if level := self.boats(self.groups[at]):
            return f"TIE {number} {sail} {level[0]}"
        later = [boats[0] for group in self.groups[at + 1:] if (boats := self.boats(group))]
        return f"BEFORE {number} {sail} {later[0]}" if later else f"FINISH {number} {sail}"

    # What comes

    def keep(self, place: Kept) -> None:
        """Puts a place behind its boats, and behind the places there. If it is there already, others are known now to
        be ahead of it."""
        is_there = place.mark in self.ahead
        self.ahead[place.mark] = set(place.behind)
        if is_there:
            return
        behind, end = set(place.behind), self.end_of_boats()
        last = next((at for at in range(end, 0, -1) if behind.intersection(self.boats(self.groups[at - 1]))), 0)
        at = next((at for at in range(last, end) if self.boats(self.groups[at])), len(self.groups))
        with contextlib.suppress(ValueError):
            at = self.at(place.later) if place.later else at
        self.groups.insert(at, [place.mark])
        self.end = end + (at < end)

    def suppose(self, mark: str, sail: str) -> None:
        """Has a boat in a place, although no line has put her there: she is ahead of all places after it."""
        if not any(sail in self.boats(group) for group in self.groups):
            for group in self.groups[self.at(mark) + 1:]:
                for other in filter(is_mark, group):
                    self.ahead[other].add(sail)

    def follow_line(self, number: int, line: str, meant: Meant) -> None:
        """Follows a line of the journal if it is one of this race. A journal that was edited by hand may have any line."""
        command, of, *words = [*line.split(), "", ""]
        if command in ORDERING and of == str(number):
            with contextlib.suppress(ValueError):
                self.follow([command, *filter(None, words)], meant)

    def follow(self, words: Sequence[str], meant: Meant) -> None:
        """Follows a line; a ValueError if it can't be one."""
        self.end = None
        match words:
            case ["STRIKE", sail] if meant.what == "leaving":
                # She was never there.
                self.take_away(sail)
                for known in self.ahead.values():
                    known.discard(sail)
            case ["STRIKE", sail]:
                self.struck.add(sail)
            case ["TIE", sail, other]:
                self.take_away(sail)
                self.groups[self.at(other)].append(sail)
                self.note_ahead(sail)
            case ["FINISH", sail]:
                self.put(sail, "", meant)
            case ["BEFORE", sail, other]:
                self.put(sail, other, meant)

    def put(self, sail: str, other: str, meant: Meant) -> None:
        """Puts a boat ahead of another, or last; or among the places there where she is meant to be."""
        at = self.at(other) if other else len(self.groups)
        if meant.what == "back" and sail in self.struck and self.is_alone(sail, at) and self.is_ahead(sail, meant.mark):
            self.struck.discard(sail)
            self.note_ahead(sail)
            return
        self.take_away(sail)
        at = self.at(other) if other else len(self.groups)
        is_there = meant.mark in self.ahead and self.is_alone(meant.mark, at)
        if meant.what == "resolved" and is_there:
            self.groups[self.at(meant.mark)].append(sail)
        elif meant.what == "back" and is_there:
            self.groups.insert(self.at(meant.mark), [sail])
        else:
            self.groups.insert(self.ahead_as_before(sail, at), [sail])
        self.note_ahead(sail)

    def is_ahead(self, sail: str, mark: str) -> bool:
        """Whether a boat that was struck was ahead of a place, and of all places from there to this one."""
        if mark not in self.ahead:
            return True
        marks = [name for group in self.groups[self.at(sail):self.at(mark) + 1] for name in group if is_mark(name)]
        return mark in marks and all(sail in self.ahead[other] for other in marks)

    def is_alone(self, name: str, at: int) -> bool:
        """Whether no boat is where somebody of the list is, nor between there and where a line would put her."""
        with contextlib.suppress(ValueError):
            there = self.at(name)
            return self.are_none_between(there, at) and self.are_none_between(at, there + 1)
        return False

    def ahead_as_before(self, sail: str, at: int) -> int:
        """Where a boat comes that was ahead of places before she was struck, and of which nobody has said that she
        isn't now. She is behind those who were known then."""
        found = at
        for there in range(at - 1, -1, -1):
            marks = list(filter(is_mark, self.groups[there]))
            is_known = bool(marks) and len(marks) < len(self.groups[there])
            if is_known or self.boats(self.groups[there]) or any(sail not in self.ahead[mark] for mark in marks):
                break
            found = there if marks else found
        return found

    def take_away(self, sail: str) -> None:
        """Takes a boat from where she was when she was struck."""
        self.struck.discard(sail)
        with contextlib.suppress(ValueError):
            at = self.at(sail)
            self.groups[at].remove(sail)
            self.groups[at:at + 1] = filter(None, [self.groups[at]])

    def note_ahead(self, sail: str) -> None:
        """Notes of which places a boat is ahead now."""
        here = self.at(sail)
        for at, group in enumerate(self.groups):
            for mark in filter(is_mark, group):
                if here < at:
                    self.ahead[mark].add(sail)
                else:
                    self.ahead[mark].discard(sail)


@dataclass(frozen=True)
class Followed:
    """An order, which nobody changes, and what was followed of a race for it: the journal, how places are kept, and what is noted
    of entries. Journal and notes grow all the time, and each tap asks for the order: so it goes on from an earlier one."""
    journal: list[str] = field(default_factory=list)
    kept: list[Kept] = field(default_factory=list)
    meant: Mapping[int, Meant] = field(default_factory=dict)
    order: LineOrder = field(default_factory=LineOrder)

    def is_beginning_of(self, journal: list[str], kept: list[Kept], meant: Mapping[int, Meant]) -> bool:
        """Whether all that was followed comes first in what is to be followed now."""
        entries, places = len(self.journal), len(self.kept)
        is_same = self.journal == journal[:entries] and self.kept == kept[:places] and self.meant == of_first(meant, entries)
        # A place that was kept when the journal had more entries than it has now comes elsewhere once it has those again.
        is_before = all(one.entries <= entries for one in self.kept)
        return is_same and is_before and all(one.entries >= entries for one in kept[places:])


def followed(number: int, journal: Sequence[str], kept: Sequence[Kept], meant: Mapping[int, Meant],
             earlier: Sequence[Followed] = ()) -> Followed:
    """Follows the lines of a race, from where it was followed `earlier` if that comes first. `meant` has what is noted of some
    entries, by their numbers."""
    journal, kept = list(journal), list(kept)
    before = next((one for one in earlier if one.is_beginning_of(journal, kept, meant)), Followed())
    order = before.order.copy()
    order.go_on(number, journal, kept[len(before.kept):], meant, len(before.journal))
    return Followed(journal, kept, of_first(meant, len(journal)), order)


def of_first(meant: Mapping[int, Meant], entries: int) -> Mapping[int, Meant]:
    """What is noted of the first entries. Line 0 is none."""
    return {at: one for at, one in meant.items() if 0 < at <= entries}
