"""Connections: requests are answered one after another, and news is sent to those who wait for it.

One thread has all connections (asyncio): three hundred phones that wait cost three hundred sockets and no
thread. What may take time, as a line to an office, runs in other threads.
"""
from __future__ import annotations

import asyncio
import collections
import contextlib
import functools
import itertools
import logging
import socket
import ssl
import time
import traceback
from collections.abc import Awaitable, Callable, Mapping
from dataclasses import dataclass

from raceoffice import system
from raceoffice.results.server import door_at
from raceoffice.web.rates import Rate
from raceoffice.web.requests import (HEAD, SAFE, Reply, Request, Wrong, bytes_of, head_of, packed, request_of,
                                     with_body, within)

# Seconds for an answer to be taken, for a handshake of TLS, and between two signs of life to those who wait
# for news.
SLOW, HANDSHAKE, BEAT = 20.0, 10.0, 5.0
# The most bytes that somebody who waits for news may not have taken yet.
BEHIND = 64 << 10
# After how many milliseconds a browser comes again whose connection has ended.
RETRY = "retry: 1500\n\n"
# How many connections this process may have, if its system allows that, fewer by HTTPS, where each takes 280 KB. So many
# files are left to the rest of it, for which a class takes seven, or this part of all. One address may have so many, and
# leaves at least some to the others.
ROOM, ROOM_SECURE, SPARE, SPARE_PART, CROWD, OTHERS = 8192, 2048, 512, 4, 2000, 256
# How many at one address may wait for news of the board: two for each of three hundred phones.
WATCHING = 600
# How many requests of a device, or of all strangers at one address, are answered at once, and each second from then on:
# three hundred phones may have one address.
AT_ONCE, EACH_SECOND = 600, 300
# Bytes of an answer that are handed over at a time: a client that takes none of them holds no more.
PIECE = 64 << 10
# How many may wait to be let in, how many are let in at once, also by HTTPS, where each takes a millisecond and more, and for
# how many turns of the loop the next ones wait until those that were given up have ended, which takes a few.
WAITING, TOGETHER, TOGETHER_SECURE, ENDING = 1024, 16, 4, 100
# Seconds for a connection to end in order.
MOMENT = 1.0
# Who has a connection, if it isn't that of a device: one that has asked for nothing yet, or a stranger. Seconds for which the
# first ones are young: a phone has asked by then. So many the pages of a device may have.
SILENT, STRANGER, YOUNG, FEW = "silent", "", 1.0, 32
# It prints what clients do to connections, and a terminal that was stopped would hold up all of them.
logging.getLogger("asyncio").addHandler(logging.NullHandler())
logging.getLogger("asyncio").propagate = False


class News:
    """What some wait for (server-sent events): news, and a sign of life in between. Of several pieces of news
    within `pause` seconds they learn at once."""

    def __init__(self, pause: float) -> None:
        self.pause, self.is_due = pause, False
        self.loop: asyncio.AbstractEventLoop | None = None

    def send_news(self) -> None:
        """Sends what is new."""
        raise NotImplementedError

    def send_life(self) -> None:
        """Sends a sign of life."""
        raise NotImplementedError

    def start(self) -> None:
        """Begins to send, in the thread of all connections. Who waits already may have missed something."""
        self.loop = asyncio.get_running_loop()
        self.take_news()
        self.loop.call_later(BEAT, self.beat)

    def wake(self) -> None:
        """There is news; from any thread."""
        if self.loop:
            # At the very end nobody waits any more.
            with contextlib.suppress(RuntimeError):
                self.loop.call_soon_threadsafe(self.take_news)

    def take_news(self) -> None:
        if self.loop and not self.is_due:
            self.is_due = True
            self.loop.call_later(self.pause, self.send_due)

    def send_due(self) -> None:
        self.is_due = False
        self.send_news()

    def beat(self) -> None:
        self.send_life()
        if self.loop:
            self.loop.call_later(BEAT, self.beat)


class Hub(News):
    """Those who wait for the same news: the newest text whenever it is another. `is_known` says of the name of one
    who waits whether it is still let in."""

    def __init__(self, text: Callable[[], str], pause: float,
                 is_known: Callable[[str], bool] = lambda name: True) -> None:
        super().__init__(pause)
        self.text, self.is_known = text, is_known
        # Those who wait, with their names.
        self.waiting: dict[asyncio.StreamWriter, str] = {}
        self.sent = ""

    def names(self) -> set[str]:
        """Those who wait just now; from any thread."""
        return set(self.waiting.copy().values())

    def put_out(self) -> None:
        """Ends what those get who aren't let in any more; from any thread."""
        if self.loop:
            with contextlib.suppress(RuntimeError):
                self.loop.call_soon_threadsafe(self.end_unknown)

    def end_unknown(self) -> None:
        for writer, name in list(self.waiting.items()):
            if not self.is_known(name):
                writer.close()

    def send_news(self) -> None:
        if (text := self.text()) != self.sent:
            self.sent = text
            self.send(f"data: {text}\n\n")

    def send_life(self) -> None:
        self.end_unknown()
        self.send("event: beat\ndata: \n\n")

    def send(self, text: str) -> None:
        """Sends a text to all."""
        data = text.encode()
        for writer in list(self.waiting):
            send_or_cut(writer, data)

    async def serve(self, reader: asyncio.StreamReader, writer: asyncio.StreamWriter, name: str = "") -> None:
        """Sends news to one more until the connection ends, or until who has this name isn't let in any more."""
        # All have the same: those who wait already get it now, too.
        self.send_news()
        writer.write(news_head({}) + f"{RETRY}data: {self.sent}\n\n".encode())
        self.waiting[writer] = name
        try:
            await end_of(reader)
        finally:
            self.waiting.pop(writer, None)


def news_head(more: Mapping[str, str]) -> bytes:
    """The head of an answer that goes on."""
    fields = {**SAFE, "Content-Type": "text/event-stream", "Cache-Control": "no-store", "Connection": "close",
              "X-Accel-Buffering": "no", **more}
    return "\r\n".join(["HTTP/1.1 200 OK", *(f"{name}: {value}" for name, value in fields.items()), "", ""]).encode()


async def end_of(reader: asyncio.StreamReader) -> None:
    """Waits for the end of a connection on which nothing is expected any more. One that sends a lot all the same is at
    its end, too."""
    come = 0
    while come <= HEAD and (piece := await reader.read(HEAD)):
        come += len(piece)


def send_or_cut(writer: asyncio.StreamWriter, data: bytes) -> None:
    """Sends something to one who waits, or cuts off one who doesn't take what comes."""
    if writer.transport.get_write_buffer_size() > BEHIND:
        writer.transport.abort()
    elif not writer.transport.is_closing():
        writer.write(data)


@dataclass(frozen=True)
class Waiting:
    """What sends news to one who waits, and the name of that one."""
    serve: Callable[[asyncio.StreamReader, asyncio.StreamWriter], Awaitable[None]]
    name: str = ""


class Crowd:
    """The connections of one address that haven't been given up, by who has them: silent ones, strangers, and each device that
    was let in; each with its moment, in the order in which that was learnt."""

    def __init__(self) -> None:
        self.who: dict[asyncio.Task[None], str] = {}
        self.silent, self.strangers = dict[asyncio.Task[None], float](), dict[asyncio.Task[None], float]()
        self.devices: dict[str, dict[asyncio.Task[None], float]] = {}

    def __len__(self) -> int:
        return len(self.who)

    def connections_of(self, who: str) -> dict[asyncio.Task[None], float]:
        """The connections that somebody has."""
        if who in (SILENT, STRANGER):
            return self.silent if who == SILENT else self.strangers
        return self.devices.setdefault(who, {})

    def add(self, visit: asyncio.Task[None], who: str = SILENT) -> None:
        self.who[visit] = who
        self.connections_of(who)[visit] = time.monotonic()

    def learn(self, visit: asyncio.Task[None], who: str) -> None:
        """Notes who has one now: a stranger, or a device, which stays that one, whatever it asks for next."""
        before = self.who.get(visit)
        if before == SILENT or before == STRANGER != who:
            self.is_removed(visit)
            self.add(visit, who)

    def take_first(self) -> asyncio.Task[None]:
        """The one that is given up first, which is no part of the crowd any more: the first silent one if that isn't young,
        else one of the device that has most, if it has many and more than there are strangers, else a stranger's. Without
        strangers it is that device's, too, if nobody is silent."""
        is_old = bool(self.silent) and time.monotonic() - next(iter(self.silent.values())) >= YOUNG
        most = max(self.devices.values(), key=len, default=self.silent)
        if is_old:
            found = self.silent
        elif self.devices and len(most) > max(FEW, len(self.strangers)):
            found = most
        else:
            found = self.strangers or self.silent or most
        visit = next(iter(found))
        self.is_removed(visit)
        return visit

    def is_removed(self, visit: asyncio.Task[None]) -> bool:
        """Removes one that has ended; whether it was here."""
        who = self.who.pop(visit, None)
        if who is None:
            return False
        del self.connections_of(who)[visit]
        if not self.connections_of(who):
            self.devices.pop(who, None)
        return True


class Queues:
    """Whose head is read next: one of each address in each turn of the loop, which does all else in between. However many
    heads come at once, and however long they take, others have their turn."""

    def __init__(self) -> None:
        # Those that wait, of each address of which one has had its turn just now.
        self.waiting: dict[str, collections.deque[asyncio.Future[None]]] = {}

    async def turn(self, address: str) -> None:
        """Waits until it is the turn of one more of an address."""
        loop = asyncio.get_running_loop()
        if not self.waiting:
            loop.call_soon(self.give_turns)
        if address not in self.waiting:
            self.waiting[address] = collections.deque()
            return
        turn: asyncio.Future[None] = loop.create_future()
        self.waiting[address].append(turn)
        await turn

    def give_turns(self) -> None:
        """Gives the next one of each address its turn, and more of each while those are few in all: a turn of the loop may have
        much else to do."""
        given = 0
        while given == 0 or 0 < len(self.waiting) <= TOGETHER - given:
            self.waiting = {address: turns for address, turns in self.waiting.items() if is_given(turns)}
            given += max(1, len(self.waiting))
        if self.waiting:
            asyncio.get_running_loop().call_soon(self.give_turns)


def is_given(turns: collections.deque[asyncio.Future[None]]) -> bool:
    """Gives the first that waits still its turn; whether there is one."""
    while turns:
        turn = turns.popleft()
        if not turn.done():
            turn.set_result(None)
            return True
    return False


class Host:
    """Answers at an address. `answer` says what is sent for a request, `room` how many bytes its body may
    have, and `device` the name of the device that it comes from, if that is known; what goes wrong in that is noted."""

    def __init__(self, answer: Callable[[Request], Awaitable[Reply | Waiting]], room: Callable[[Request], int],
                 note: Callable[[str], None], device: Callable[[Request], str] = lambda _: "") -> None:
        self.answer, self.room, self.note, self.device = answer, room, note, device
        # How many connections there may be, and of one address; how many there are, and how many of them have been given up
        # and are about to end, of which there may be some, too.
        self.most = self.most_of_one = self.open = self.ending = self.most_ending = 0
        # The connections of each address, and how many wait for news by their names.
        self.visits: dict[str, Crowd] = {}
        self.watching: collections.Counter[str] = collections.Counter()
        self.turns, self.heads = Rate(AT_ONCE, EACH_SECOND), Queues()
        # What comes is taken by this: all connections have one thread, which hands it on before it takes the next.
        self.piece = memoryview(bytearray(HEAD))
        self.letting_in: asyncio.Task[None] | None = None

    async def start(self, address: str, port: int, secure: ssl.SSLContext | None) -> None:
        """Lets in whoever there is room for, until `close`."""
        files = system.room_for_files(ROOM + SPARE)
        spare = min(SPARE, files // SPARE_PART)
        self.most, self.most_ending = max(8, min(ROOM_SECURE if secure else ROOM, files - spare)), spare // SPARE_PART
        self.most_of_one = min(CROWD, max(self.most // 2, self.most - OTHERS))
        door = door_at(address, port)
        door.listen(WAITING)
        door.setblocking(False)
        self.letting_in = asyncio.get_running_loop().create_task(self.let_in(door, secure))

    def close(self) -> None:
        """Lets nobody in any more."""
        if self.letting_in:
            self.letting_in.cancel()

    async def let_in(self, door: socket.socket, secure: ssl.SSLContext | None) -> None:
        """Takes one connection after another. Each is counted before the next is taken, so that however many come
        at once, files are left to the rest of this process."""
        with door:
            for number in itertools.count(1):
                try:
                    link, peer = await asyncio.get_running_loop().sock_accept(door)
                except ConnectionError:
                    continue
                except OSError as cause:
                    self.note("".join(traceback.format_exception(cause)))
                    await asyncio.sleep(MOMENT)
                    continue
                address = str(peer[0])
                if self.is_room_for(address):
                    self.open += 1
                    visit = asyncio.get_running_loop().create_task(self.visit(link, address, secure))
                    self.visits.setdefault(address, Crowd()).add(visit)
                    visit.add_done_callback(functools.partial(self.forget, address, link))
                else:
                    link.close()
                if number % (TOGETHER_SECURE if secure else TOGETHER) == 0:
                    # Those who are in have their turn, too.
                    await asyncio.sleep(0)
                await self.wait_for_ends()

    async def wait_for_ends(self) -> None:
        """Waits until those that were given up have ended, as they do at once; but for none without end."""
        for _ in range(ENDING):
            if self.ending <= self.most_ending:
                return
            await asyncio.sleep(0)

    def is_room_for(self, address: str) -> bool:
        """Whether an address may have one more connection. One that has all it may have gives another up for it; and if there
        is no room left at all, the address that has most does so for another that has fewer. So some that take all they get
        keep out nobody, not even at their own address."""
        own = self.visits.get(address, Crowd())
        if self.open >= self.most + self.most_ending:
            # Those that were given up haven't ended yet.
            return False
        if len(own) >= self.most_of_one:
            self.give_up(own)
        elif self.open - self.ending >= self.most:
            greedy = max(self.visits.values(), key=len)
            if len(greedy) <= len(own) + 1:
                return False
            self.give_up(greedy)
        return True

    def give_up(self, crowd: Crowd) -> None:
        """Ends the connection of an address that goes first."""
        self.ending += 1
        crowd.take_first().cancel()

    def forget(self, address: str, link: socket.socket, visit: asyncio.Task[None]) -> None:
        """Forgets a connection of an address that has ended, perhaps before it began."""
        link.close()
        self.open -= 1
        crowd = self.visits.get(address)
        if crowd is None or not crowd.is_removed(visit):
            self.ending -= 1
        if crowd is not None and not len(crowd):
            del self.visits[address]

    async def visit(self, link: socket.socket, address: str, secure: ssl.SSLContext | None) -> None:
        """One connection, from its first request to its end."""
        try:
            reader, writer = await streams_of(link, secure, self.piece)
            try:
                while await self.is_going_on(reader, writer, address):
                    pass
            except asyncio.CancelledError:
                # It gives way to another address at once.
                writer.transport.abort()
                raise
            finally:
                await end(writer)
        except (OSError, EOFError, asyncio.TimeoutError):
            # A phone that goes away is no fault of the office's.
            pass
        except Exception as cause:
            self.note("".join(traceback.format_exception(cause)))
        finally:
            link.close()

    async def turn(self, name: str) -> None:
        """Waits for the turn of one request. A connection that is given up meanwhile has taken none: who comes after many
        that have gone doesn't wait for them."""
        try:
            await asyncio.sleep(self.turns.pause(name))
        except asyncio.CancelledError:
            self.turns.give_back(name)
            raise

    async def is_going_on(self, reader: asyncio.StreamReader, writer: asyncio.StreamWriter,
                          address: str) -> bool:
        """Answers one request; whether another may follow."""
        try:
            head = await head_of(reader, writer)
            if not head:
                return False
            await self.heads.turn(address)
            request = request_of(head, address)
            request = await with_body(reader, writer, request, self.room(request))
        except Wrong as wrong:
            await self.turn(address)
            await send(writer, bytes_of(wrong.reply(), True, False))
            return False
        # However many requests have come already, those of others have their turn in between. Strangers don't take the
        # turns of a device that has their address.
        device = self.device(request)
        if not self.is_learnt(address, device or STRANGER):
            return False
        await self.turn(device or address)
        try:
            reply = await self.answer(request)
        except Wrong as wrong:
            reply = wrong.reply()
        if isinstance(reply, Waiting) and request.method == "HEAD":
            reply = Wrong(405).reply()
        if isinstance(reply, Waiting):
            await self.send_news(reader, writer, reply, address)
            return False
        is_last = request.fields.get("connection", "").lower() == "close"
        await send(writer, bytes_of(packed(request, reply), is_last, request.method == "HEAD"))
        # A client that has gone gets no more answers, whatever it asked in advance.
        return not is_last and not writer.transport.is_closing()

    def is_learnt(self, address: str, who: str) -> bool:
        """Notes who has the connection that is served just now; False if it was given up, and so has to end."""
        visit, crowd = asyncio.current_task(), self.visits.get(address)
        if visit is None or crowd is None or visit not in crowd.who:
            return False
        crowd.learn(visit, who)
        return True

    async def send_news(self, reader: asyncio.StreamReader, writer: asyncio.StreamWriter, reply: Waiting,
                        address: str) -> None:
        """Sends news to one who waits, until the connection ends. Strangers at one address have a share of them; a page
        that gets no news looks every few seconds."""
        name = reply.name or address
        if not reply.name and self.watching[name] >= WATCHING:
            await send(writer, bytes_of(Wrong(429).reply(), True, False))
            return
        self.watching[name] += 1
        try:
            await reply.serve(reader, writer)
        finally:
            self.watching[name] -= 1
            if not self.watching[name]:
                del self.watching[name]


class InPieces(asyncio.StreamReaderProtocol, asyncio.BufferedProtocol):
    """Hands on what comes piece by piece. Whatever a client sends in advance, three of them are held at most: by itself asyncio
    takes 256 KB at once."""

    def __init__(self, reader: asyncio.StreamReader, piece: memoryview) -> None:
        super().__init__(reader)
        self.piece = piece

    def get_buffer(self, sizehint: int) -> memoryview:
        return self.piece

    def buffer_updated(self, nbytes: int) -> None:
        self.data_received(bytes(self.piece[:nbytes]))


async def streams_of(link: socket.socket, secure: ssl.SSLContext | None,
                     piece: memoryview) -> tuple[asyncio.StreamReader, asyncio.StreamWriter]:
    """What comes by a connection, and what is sent by it, once its handshake is over if it has one."""
    loop, reader = asyncio.get_running_loop(), asyncio.StreamReader(HEAD)
    protocol = InPieces(reader, piece)
    transport, _ = await loop.connect_accepted_socket(
        lambda: protocol, link, ssl=secure, ssl_handshake_timeout=HANDSHAKE if secure else None)
    return reader, asyncio.StreamWriter(transport, protocol, reader, loop)


async def send(writer: asyncio.StreamWriter, data: tuple[bytes, bytes]) -> None:
    """Sends the head and the body of an answer, as far as they are taken."""
    head, body = data
    with within(writer, SLOW):
        for start in range(0, max(1, len(body)), PIECE):
            if writer.transport.is_closing():
                return
            writer.write((b"" if start else head) + body[start:start + PIECE])
            if writer.transport.get_write_buffer_size():
                await writer.drain()


async def end(writer: asyncio.StreamWriter) -> None:
    """Ends a connection. What hasn't been taken a moment later won't be, nor when it is given up meanwhile: its socket is left
    before somebody else's has the same number."""
    try:
        writer.close()
        with within(writer, MOMENT), contextlib.suppress(Exception):
            await writer.wait_closed()
    finally:
        writer.transport.abort()


def secure_with(certificate: str, key: str) -> ssl.SSLContext:
    """What HTTPS needs, from a certificate and its private key."""
    secure = ssl.SSLContext(ssl.PROTOCOL_TLS_SERVER)
    secure.minimum_version = ssl.TLSVersion.TLSv1_2
    secure.load_cert_chain(certificate, key or None)
    return secure
