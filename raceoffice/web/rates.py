"""How often somebody may do something."""
from __future__ import annotations

import time
from collections.abc import Callable

from raceoffice.web.requests import Wrong

# How many names are remembered at most.
NAMES = 5000


class Rate:
    """A bucket for each name, of so many tries, that fills up again by so many each second."""

    def __init__(self, most: float, each_second: float, now: Callable[[], float] = time.monotonic) -> None:
        self.most, self.each_second, self.now = most, each_second, now
        self.left: dict[str, tuple[float, float]] = {}

    def take(self, name: str) -> None:
        """Takes one try; Wrong if none is left."""
        now = self.now()
        if len(self.left) > NAMES:
            self.forget_full(now)
        left = self.left_of(name, now)
        if left < 1:
            raise Wrong(429, "too many requests: wait a moment")
        self.left[name] = (left - 1, now)

    def check(self, name: str) -> None:
        """Wrong if no try is left."""
        if self.left_of(name, self.now()) < 1:
            raise Wrong(429, "too many requests: wait a moment")

    def pause(self, name: str) -> float:
        """Takes one try, and says after how many seconds it has its turn: those that come too often queue."""
        now = self.now()
        if len(self.left) > NAMES:
            self.forget_full(now)
        left = self.left_of(name, now) - 1
        self.left[name] = (left, now)
        return max(0.0, -left / self.each_second)

    def give_back(self, name: str) -> None:
        """Gives a try back that wasn't used after all."""
        now = self.now()
        self.left[name] = (min(self.most, self.left_of(name, now) + 1), now)

    def forget(self, name: str) -> None:
        """Gives somebody all tries again."""
        self.left.pop(name, None)

    def left_of(self, name: str, now: float) -> float:
        left, then = self.left.get(name, (self.most, now))
        return min(self.most, left + (now - then) * self.each_second)

    def forget_full(self, now: float) -> None:
        """Forgets names whose buckets are full again. If too many are left, the fullest half goes."""
        self.left = {name: held for name, held in self.left.items() if self.left_of(name, now) < self.most}
        if len(self.left) > NAMES:
            emptiest = sorted(self.left, key=lambda name: self.left_of(name, now))[:NAMES // 2]
            self.left = {name: self.left[name] for name in emptiest}
