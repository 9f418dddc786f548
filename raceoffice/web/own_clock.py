"""The time as the web counts it: it goes on with the computer, and nobody sets it.

Devices are known for days. If the computer's clock is set meanwhile, as one that began in another year and is put right by
a network, they grow no older by it.
"""
from __future__ import annotations

import time
from collections.abc import Iterable, Mapping
from typing import Any

from raceoffice import system


# The last second of a day in the year 9998, since 1970: no clock shows a later one.
LAST = 253_370_000_000


def need_numbers(values: Iterable[object]) -> None:
    """A TypeError or ValueError unless each of these is a number that a clock may show."""
    for value in values:
        if not isinstance(value, (int, float)):
            raise TypeError("a number is of another type")
        # One that is no number is in no order.
        if not 0 <= value <= LAST:
            raise ValueError("no clock shows this")


class OwnClock:
    """Seconds since 1970, as the computer's clock had them when the first file was written."""

    def __init__(self) -> None:
        self.ahead = time.time() - system.uptime()

    def now(self) -> float:
        return system.uptime() + self.ahead

    def values(self) -> dict[str, object]:
        """What a file has of it."""
        return {"now": self.now(), "uptime": system.uptime(), "boot": system.boot(), "clock": time.time()}

    def go_on(self, values: Mapping[str, Any]) -> None:
        """Goes on where a file has it. Since the computer was started again only its clock says how long that took; one
        that was set back says nothing."""
        need_numbers([values["now"], values["uptime"], values["clock"]])
        is_same = values["boot"] == system.boot() != ""
        gone = system.uptime() - values["uptime"] if is_same else time.time() - values["clock"]
        self.ahead = values["now"] + max(0.0, gone) - system.uptime()
