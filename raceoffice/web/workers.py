"""The threads that do what may take time, and whose turn it is."""
from __future__ import annotations

import asyncio
import collections
import contextlib
import functools
from collections.abc import Callable
from concurrent.futures import Future, ThreadPoolExecutor
from typing import TypeVar

# How many threads each role has for each class and for all else, and so have strangers. So many requests of one device, or
# of the strangers at one address, have a thread or wait in line for one.
THREADS, AT_ONCE = 10, 3
Done = TypeVar("Done")


class Turns:
    """The turns of one device: how many are taken, and what waits for one."""

    def __init__(self) -> None:
        self.taken, self.waiting = 0, collections.deque[asyncio.Future[None]]()


class Workers:
    """Does what requests ask for. No role waits for the requests of another, nor for those about another class, which may hang.
    Others of a role wait for a few of each device, however many that has sent: the rest of them wait without a thread."""

    def __init__(self) -> None:
        self.pools = collections.defaultdict[str, ThreadPoolExecutor](functools.partial(ThreadPoolExecutor, THREADS))
        # Of those devices alone that have a turn
        self.turns: dict[str, Turns] = {}

    async def outcome(self, pool: str, name: str, work: Callable[[], Done]) -> Done:
        """What comes of it, in a thread of a pool, once it is its turn among what the device of that name has asked for there."""
        await self.take_turn(name)
        loop = asyncio.get_running_loop()

        def end(_: Future[Done]) -> None:
            # At the very end nobody waits any more.
            with contextlib.suppress(RuntimeError):
                loop.call_soon_threadsafe(self.end_turn, name)

        try:
            doing = self.pools[pool].submit(work)
        except BaseException:
            # The system has no thread just now.
            self.end_turn(name)
            raise
        # A turn lasts as long as its thread takes, also if its connection was given up.
        doing.add_done_callback(end)
        return await asyncio.wrap_future(doing)

    async def take_turn(self, name: str) -> None:
        """Waits until a device has a turn."""
        turns = self.turns.setdefault(name, Turns())
        if turns.taken < AT_ONCE:
            turns.taken += 1
            return
        turn: asyncio.Future[None] = asyncio.get_running_loop().create_future()
        turns.waiting.append(turn)
        try:
            await turn
        except asyncio.CancelledError:
            if not turn.cancelled():
                # It had come just now.
                self.end_turn(name)
            raise

    def end_turn(self, name: str) -> None:
        """Gives a turn of a device to what has waited longest for one."""
        turns = self.turns[name]
        while turns.waiting:
            turn = turns.waiting.popleft()
            if not turn.done():
                turn.set_result(None)
                return
        turns.taken -= 1
        if not turns.taken:
            del self.turns[name]
