"""What a session of one class says, asks and has done, as values, which a terminal or a page shows."""
from __future__ import annotations

from collections.abc import Iterable, Mapping
from dataclasses import dataclass, field
from typing import Union

# What a question is about: a race, a sail, a line, some of them, or whether something holds.
Value = Union[str, int, tuple[str, ...]]
# Kinds of what is said: an answer to a line, a refusal, what is wrong, what was asked for, and all else.
ANSWER, REFUSAL, WARNING, SHOWN, NOTE = "answer", "refusal", "warning", "shown", "note"


@dataclass(frozen=True)
class Said:
    """A text, and of which kind it is. `what` is a fixed word for what it says, and `values` what that is about;
    both are empty if the text has no words, or none but those of the terminal."""
    text: str
    kind: str = NOTE
    what: str = field(default="", compare=False)
    values: Mapping[str, Value] = field(default_factory=dict, compare=False)


def texts_of(said: Iterable[Said]) -> list[str]:
    """What is said, as texts."""
    return [one.text for one in said]


@dataclass(frozen=True)
class Question:
    """What is answered by yes or no before something is done: its kind, which is a fixed word, and what it is
    about. Two with the same of both are the same question. `text` says it in English; `prefix` is the class,
    if there are several."""
    kind: str
    values: Mapping[str, Value]
    text: str = field(compare=False)
    prefix: str = field(default="", compare=False)


@dataclass(frozen=True)
class Outcome:
    """What became of what was typed: whether it was taken; the line that was sent and its entry, and what a
    finisher without a sail is called whose place it is about, if there are any."""
    is_taken: bool
    line: str = ""
    entry: int = 0
    mark: str = ""
