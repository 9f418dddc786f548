"""Which class a line is for, when one window types for several."""
from __future__ import annotations

from raceoffice.errors import NotSent
from raceoffice.program.messages import ROLES
from raceoffice.session.finishers import marked
from raceoffice.session.parse import COMMANDS, FIRST, OTHERS, SAILS, boats_meant
from raceoffice.session.session import Session
from raceoffice.wording import joined


class ClassUnclear(NotSent):
    """Somebody crossed the line, and it isn't clear in which class. `sessions` can keep her place; `sail` is
    what was typed of her sail."""

    def __init__(self, what: str, advice: str, sessions: list[Session], sail: str) -> None:
        super().__init__(what + advice)
        self.what, self.sessions, self.sail = what, sessions, sail


# Lines about a whole class: a number in them is that of a race, or of a new boat.
WHOLE = {"SCORE", "UNSCORE", "AT", "RACE", "ABANDON", "STANDING", "SHOW", "ENTER"}


def session_meant(sessions: list[Session], typed: str) -> tuple[Session, str]:
    """The class that a line is for, and the line without its class; NotSent if it isn't clear."""
    words = typed.split()
    if len(sessions) == 1 or not words or words[0].lower() == "help":
        return sessions[0], typed
    if named := class_named(sessions, words):
        return named, " ".join(words[1:])
    first = words[0].upper()
    if first in WHOLE:
        raise NotSent(f"{typed.strip()} is for one class: type {ways(sessions, typed.strip())}")
    if first == "UNDO":
        return last_used(sessions), typed
    if meant := marked(words):
        return class_keeping(sessions, *meant), typed
    rest, found = boats_of_line(sessions, words)
    keepers = [session for session in sessions if session.crossed(typed)]
    if len({id(session) for session, _ in found}) == 1:
        return found[0][0], typed
    if not found and len(keepers) == 1:
        return keepers[0], typed
    sail = keepers[0].crossed(typed) if keepers else ""
    if found:
        boats = [f"{session.facts.called(boat)} ({session.folder.name})" for session, boat in found]
        raise ClassUnclear(f"{' '.join(rest).upper()} may be {joined(boats, 'or')}", ": type her class first",
                           keepers, sail)
    raise ClassUnclear("it isn't clear for which class this is",
                       f": type {ways(sessions, typed.strip())}", keepers, sail)


def boats_of_line(sessions: list[Session], words: list[str]) -> tuple[list[str], list[tuple[Session, str]]]:
    """The words of a line from its sail on, and the boats that they may mean, of all classes."""
    first = words[0].upper()
    starts = [2, 1] if first in SAILS else [1] if first in OTHERS | COMMANDS.keys() else [0]
    for start in starts:
        rest = words[start:]
        found = [(session, boat) for session in sessions for boat in first_meant(rest, session)]
        if start < 2 and first not in OTHERS:
            # A line without its race is for a class that is at one.
            found = [(session, boat) for session, boat in found if session.at] or found
        if found:
            return rest, found
    return rest, []


def last_used(sessions: list[Session]) -> Session:
    """The class in which something was done last."""
    return max(sessions, key=lambda session: session.done.time if session.done else 0.0)


def ways(sessions: list[Session], line: str) -> str:
    """The line with each class in front: `c score 4 (cup) or f score 4 (fleet)`."""
    return joined([f"{short(one, sessions)} {line} ({one.folder.name})" for one in sessions], "or")


def class_keeping(sessions: list[Session], mark: str, sail: list[str]) -> Session:
    """The class that the place of a finisher without a sail is in: the one at a race, that of the sail,
    or the one in which somebody is called so."""
    there = [session for session in sessions if session.at]
    if len(there) < 2:
        return (there or sessions)[0]
    of_sail = [session for session in there if first_meant(sail, session)]
    keeping = [session for session in there if mark in session.unread.marks(session.at or 0)]
    found: list[Session] = next((some for some in (of_sail, keeping) if len(some) == 1), [])
    if sail and found:
        return found[0]
    way = ways(there, " ".join([mark.lower(), *sail]))
    is_new = not sail and (mark == "?" or not keeping and there[0].crossed(mark.removesuffix("?")))
    keepers = [session for session in there if session.may_keep and is_new]
    raise ClassUnclear(f"{mark} is for one class", f": type {way}", keepers, mark.removesuffix("?"))


def class_named(sessions: list[Session], words: list[str]) -> Session | None:
    """The class that the first word names by its first letters, unless it begins a line or a boat."""
    first = words[0].lower()
    named = [session for session in sessions if session.folder.name.lower().startswith(first)]
    named = [session for session in named if session.folder.name.lower() == first] or (
        [] if is_like_a_sail(words) else named)
    is_boat = any("".join(words).upper() in session.facts.boats for session in sessions)
    if len(named) != 1 or len(words) == 1 or words[0].upper() in FIRST or is_boat:
        return None
    return named[0]


def is_like_a_sail(words: list[str]) -> bool:
    """Whether a line begins as a sail does, by three letters of a nation and a number."""
    return len(words[0]) == 3 and words[0].isalpha() and words[1:2] != [] and words[1][0].isdigit()


def short(session: Session, sessions: list[Session]) -> str:
    """The fewest first letters of a folder that name this class alone; but not three, as a nation has."""
    name = session.folder.name
    others = [other.folder.name.lower() for other in sessions if other is not session]
    heads = [name[:at].lower() for at in range(1, len(name)) if at != 3]
    return next((head for head in heads if head.upper() not in FIRST and " " not in head
                 and not any(other.startswith(head) for other in others)), name)


def choosing(sessions: list[Session]) -> str:
    """How a class is chosen."""
    letters = joined([f"{short(session, sessions)} for {session.folder.name}" for session in sessions])
    return f"A sail chooses its class. Otherwise the class comes first: {letters}."


def greeting(sessions: list[Session]) -> str:
    """Whose lines these are, of which classes, and how one is chosen."""
    classes = joined([f"{session.folder.name} ({session.folder.settings.title})" for session in sessions])
    return (f"You type as {ROLES[sessions[0].role]}, for {classes}.\n{choosing(sessions)}\n"
            "help lists your lines.")


def first_meant(words: list[str], session: Session) -> list[str]:
    """The boats of a class that the first of these words may mean, as many words as name one."""
    ways = [boats_meant(words[:at], session.facts.boats) for at in range(len(words), 0, -1)]
    return next((boats for boats in ways if boats), [])
