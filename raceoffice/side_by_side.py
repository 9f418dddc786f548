"""What is asked of several classes side by side: one whose folder hangs, as on a drive that died, holds up no other."""
from __future__ import annotations

import threading
import time
from collections.abc import Callable, Mapping
from concurrent.futures import Future, wait
from typing import Generic, TypeVar

Answer = TypeVar("Answer")
# Seconds that the others wait for one that may hang.
PATIENCE = 3.0


class SideBySide(Generic[Answer]):
    """Asks each of several for an answer in a thread of its own, and waits for them a while. One that hangs isn't asked again
    until that answer has come: threads that hang would pile up."""

    def __init__(self, patience: float = PATIENCE) -> None:
        self.patience = patience
        # The answers that didn't come in time, each with the moment from which on it is late.
        self.late: dict[str, tuple[Future[Answer], float]] = {}

    def answers(self, asked: Mapping[str, Callable[[], Answer]]) -> dict[str, Answer]:
        """The answers by the names of those who were asked; none of one who hangs."""
        begun = {name: answer_of(call) for name, call in asked.items() if not self.is_late(name)}
        wait(begun.values(), self.patience)
        self.late |= {name: (answer, time.monotonic()) for name, answer in begun.items() if not answer.done()}
        return {name: answer.result() for name, answer in begun.items() if answer.done()}

    def late_answers(self) -> dict[str, Answer]:
        """The answers that have come late since this was asked last."""
        came = {name: answer for name, (answer, _) in list(self.late.items()) if answer.done()}
        self.late = {name: held for name, held in list(self.late.items()) if name not in came}
        return {name: answer.result() for name, answer in came.items()}

    def is_late(self, name: str, seconds: float = 0.0) -> bool:
        """Whether an answer still hasn't come so many seconds after its time."""
        answer, since = self.late.get(name, (None, 0.0))
        return answer is not None and not answer.done() and time.monotonic() >= since + seconds


def answer_of(call: Callable[[], Answer]) -> Future[Answer]:
    """The answer of a call that is made in a thread of its own, for which the end of the process doesn't wait."""
    answer: Future[Answer] = Future()

    def ask() -> None:
        try:
            answer.set_result(call())
        except BaseException as cause:
            answer.set_exception(cause)
    threading.Thread(target=ask, daemon=True).start()
    return answer
