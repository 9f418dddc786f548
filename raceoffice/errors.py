"""What can go wrong, as exceptions. Each has a text that says in words what happened."""
from __future__ import annotations

import contextlib
from collections.abc import Iterator

from raceoffice.remarks import Value, on_lines, remark, system_remark


class Explained(Exception):
    """Why something can't be done: one thing or several that are said, each perhaps with its kind and values, which
    are a line each as a text."""

    def __init__(self, *said: str) -> None:
        super().__init__("\n".join(said))
        self.said = said


def said_of(cause: Explained) -> str:
    """What an exception says: the remark itself if it is one alone, and otherwise one of them all, a line each."""
    return cause.said[0] if len(cause.said) == 1 else on_lines(*cause.said)


class Trouble(Explained):
    """Why something can't be done, in words. It is shown, and nothing stops at one with a page of Python."""


@contextlib.contextmanager
def as_trouble(kind: str, /, **values: Value) -> Iterator[None]:
    """Makes a Trouble of what the system refuses: a remark of this kind, with why."""
    try:
        yield
    except OSError as cause:
        raise Trouble(remark(kind, why=system_remark(cause), **values)) from None


class Lost(Trouble):
    """A link to an office failed, or has to be left: only another link can be used."""


class Gone(Lost):
    """Nobody serves at the socket."""


class Served(Trouble):
    """Another process serves the series to browsers."""


class NoSeat(Lost):
    """All seats of the office are taken."""


class NotThere(Trouble):
    """No file has this name."""


class NoTable(Trouble):
    """What a program or an office gave as its table is none."""


class NoJournal(Trouble):
    """What a program or an office gave as its journal is none."""


class NoCheck(Trouble):
    """A program can't be asked what is wrong with a journal: it can't be run, doesn't end, or is older than that question."""


class Fault(Trouble):
    """A fault of this package itself, of which only its trace says more."""


class Stopped(Exception):
    """Somebody stopped what was going on while something was asked: that is no answer."""


class Unheard(OSError):
    """Why what is said can't be written, as on a full disk. Whoever reads a pipe may have gone, too: that
    is a BrokenPipeError."""


class NotSent(Explained):
    """Why a line wasn't sent, in words."""


class NotNow(NotSent):
    """Why a line wasn't sent that may go later, as there is no room just now."""


class ForeignPage(Exception):
    """Why a page isn't one that this package wrote, in words."""


class Unsure(Exception):
    """Why nothing can be said of a page, in words."""
