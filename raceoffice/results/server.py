"""The board's door for phones: who is let in, and how long a request and its answer may take.

One thread waits for all of them, so that those who are slow hold nobody up.
"""
from __future__ import annotations

import asyncio
import collections
import contextlib
import errno
import os
import re
import socket
import threading
import traceback
from collections.abc import Callable, Iterator

from raceoffice import system
from raceoffice.errors import Trouble
from raceoffice.results.http_answers import LARGEST, Board, Request, answer, told

# Seconds that a request may take, and as many again for its answer.
PATIENCE = 5.0
# Of each address: how many requests may be unfinished, and how many after this many seconds.
CROWD, SLOW, MOMENT = 512, 16, 1.0
# How many files and connections this process may have, if its system allows that, and how many of them
# are left to the rest of the board.
ROOM, SPARE = 8192, 32
# Bytes of an answer that are handed over at a time.
PIECE = 65536
# The most bytes that are read after a request.
REST = 1 << 20
END = re.compile(rb"\r?\n\r?\n")


class Refused(Exception):
    """Why a request isn't answered, as the number of a status."""


async def head_of(reader: asyncio.StreamReader) -> bytes:
    """A request up to its empty line; no bytes if the client left without one."""
    head = b""
    while not (found := END.search(head)):
        if len(head) > LARGEST:
            raise Refused(431)
        piece = await reader.read(4096)
        if not piece:
            return b""
        head += piece
    if found.start() > LARGEST:
        raise Refused(431)
    return head[:found.start()]


async def hand_over(writer: asyncio.StreamWriter, data: bytes) -> None:
    """Sends an answer, of which the system has taken all at the end."""
    writer.transport.set_write_buffer_limits(0)
    for start in range(0, len(data), PIECE):
        writer.write(data[start:start + PIECE])
        await writer.drain()
    writer.write_eof()


async def rest_of(reader: asyncio.StreamReader) -> None:
    """Reads what is still being sent, unless it is a lot: a client who can't send it all would never read the answer."""
    come = 0
    while come <= REST and (piece := await reader.read(PIECE)):
        come += len(piece)


@contextlib.contextmanager
def counted(counts: collections.Counter[str], address: str) -> Iterator[None]:
    """Counts one more of an address as long as it lasts."""
    counts[address] += 1
    try:
        yield
    finally:
        counts[address] -= 1
        if not counts[address]:
            del counts[address]


class Listener:
    """Answers phones at an address of this computer; what goes wrong in that is noted."""

    def __init__(self, address: str, port: int, board: Board, note: Callable[[str], None]) -> None:
        self.board, self.note = board, note
        self.unfinished: collections.Counter[str] = collections.Counter()
        self.slow: collections.Counter[str] = collections.Counter()
        self.door = door_at(address, port)
        self.room = system.room_for_files(ROOM) - SPARE
        self.visits: set[asyncio.Task[None]] = set()

    def start(self) -> None:
        """Answers in a thread of its own until the board ends."""
        threading.Thread(target=asyncio.run, args=(self.serve(),), daemon=True).start()

    async def serve(self) -> None:
        """Lets in whoever there is room for."""
        loop = asyncio.get_running_loop()
        self.door.setblocking(False)
        while True:
            try:
                link, peer = await loop.sock_accept(self.door)
            except ConnectionError:
                continue
            except OSError as cause:
                self.note(trace_of(cause))
                await asyncio.sleep(MOMENT)
                continue
            address = str(peer[0])
            if len(self.visits) < self.room and self.unfinished[address] < CROWD:
                visit = loop.create_task(self.visit(link, address))
                self.visits.add(visit)
                visit.add_done_callback(self.visits.discard)
            else:
                link.close()
            # Those who are in come first.
            await asyncio.sleep(0)

    async def visit(self, link: socket.socket, address: str) -> None:
        """One request and one answer."""
        try:
            reader, writer = await asyncio.open_connection(sock=link, limit=LARGEST)
            try:
                await self.answer(reader, writer, address)
            finally:
                writer.transport.abort()
        except (OSError, asyncio.TimeoutError):
            # A phone that goes away before its answer is no fault of the office's.
            pass
        except Exception as cause:
            self.note(trace_of(cause))

    async def answer(self, reader: asyncio.StreamReader, writer: asyncio.StreamWriter,
                     address: str) -> None:
        try:
            with counted(self.unfinished, address):
                head = await self.head(reader, address)
            if not head:
                return
            said = answer(Request.read(head), self.board.texts)
        except Refused as refused:
            said = told(refused.args[0])
        except ValueError:
            said = told(400)
        await asyncio.wait_for(hand_over(writer, said), PATIENCE)
        with contextlib.suppress(asyncio.TimeoutError):
            await asyncio.wait_for(rest_of(reader), MOMENT)

    async def head(self, reader: asyncio.StreamReader, address: str) -> bytes:
        """A request up to its empty line. Each has a moment for it, and few of an address have more."""
        reading = asyncio.ensure_future(head_of(reader))
        try:
            done, _ = await asyncio.wait([reading], timeout=MOMENT)
            if done:
                return reading.result()
            if self.slow[address] >= SLOW:
                raise Refused(408)
            with counted(self.slow, address):
                return await asyncio.wait_for(reading, PATIENCE - MOMENT)
        except asyncio.TimeoutError:
            raise Refused(408) from None
        finally:
            reading.cancel()
            await asyncio.wait([reading])


def door_at(address: str, port: int) -> socket.socket:
    """A socket that phones can connect to from now on."""
    try:
        return socket.create_server((address, port), backlog=CROWD)
    except PermissionError:
        raise Trouble(f"this account may not use port {port}: "
                      "take one from 1024 on, as --http 8080") from None
    except OSError as cause:
        if cause.errno == errno.EADDRNOTAVAIL:
            raise Trouble(f"this computer doesn't have the address {address}, which --address or series.ini "
                          "names") from None
        raise Trouble(f"port {port} can't be used: {os.strerror(cause.errno or 0)}. Another program may "
                      "have it: take another, as --http 8081") from None


def trace_of(cause: BaseException) -> str:
    return "".join(traceback.format_exception(type(cause), cause, cause.__traceback__))
