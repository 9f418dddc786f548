"""News of the board's pages: whoever looks at one is sent the next one itself, packed once for all."""
from __future__ import annotations

import asyncio
import functools
import json
import socket
import zlib
from collections.abc import Mapping
from dataclasses import dataclass

from raceoffice.results.html.page import script
from raceoffice.results.http_answers import Board, Text
from raceoffice.web.hosting import BEHIND, RETRY, News, end_of, news_head, send_or_cut

# What a stream of gzip begins with. It has no end: none is expected of one that is cut off at any moment.
GZIP_HEAD = b"\x1f\x8b\x08\0\0\0\0\0\0\xff"
LEVEL = 6
# A page with more bytes isn't sent as news: a weak line would never be done with it.
LONGEST = BEHIND // 2
# The most bytes that the system holds back for one who is slow. Beyond that a page isn't sent, but only its news.
UNSENT = 16 << 10
# How many of the last events are kept.
KEPT = 32
# The script of a page stays as it is, and needn't come again.
SCRIPT = script().html


@dataclass
class Looker:
    """One who looks at a page, and which one this has been told of."""
    address: str
    tag: str
    takes_gzip: bool


class PageNews(News):
    """Those who look at pages of the board. Each gets what `now.json` says, as a sign of life, and with it the page
    when that is another. Who is slow, or can't unpack, gets no page, and asks for it."""

    def __init__(self, board: Board, pause: float) -> None:
        super().__init__(pause)
        self.board = board
        self.lookers: dict[asyncio.StreamWriter, Looker] = {}

    def send_news(self) -> None:
        texts, made = self.board.texts, dict[str, bytes]()
        for writer, looker in list(self.lookers.items()):
            text = texts.get(looker.address)
            if text is None or text.tag == looker.tag:
                continue
            looker.tag = text.tag
            if looker.takes_gzip and not writer.transport.get_write_buffer_size():
                if looker.address not in made:
                    made[looker.address] = with_page(texts, looker.address)
                send_or_cut(writer, made[looker.address])
            else:
                self.send_short(writer, looker)

    def send_life(self) -> None:
        # Whoever learns that there is another page has it already.
        self.send_news()
        for writer, looker in list(self.lookers.items()):
            self.send_short(writer, looker)

    def send_short(self, writer: asyncio.StreamWriter, looker: Looker) -> None:
        """Sends what is known of a page without the page."""
        send_or_cut(writer, event(known_of(self.board.texts, looker.address), looker.takes_gzip))

    async def serve(self, reader: asyncio.StreamReader, writer: asyncio.StreamWriter, address: str,
                    takes_gzip: bool) -> None:
        """Sends news of a page to one more until the connection ends. This one has the page, or asks for it."""
        text = self.board.texts.get(address)
        looker = Looker(address, text.tag if text else "", takes_gzip)
        link = writer.get_extra_info("socket")
        if link is None:
            # By HTTPS there is none any more once the client has gone.
            return
        link.setsockopt(socket.IPPROTO_TCP, socket.TCP_NOTSENT_LOWAT, UNSENT)
        begin = RETRY.encode()
        if takes_gzip:
            writer.write(news_head({"Content-Encoding": "gzip"}) + GZIP_HEAD + packed(begin))
        else:
            writer.write(news_head({}) + begin)
        self.send_short(writer, looker)
        self.lookers[writer] = looker
        try:
            await end_of(reader)
        finally:
            self.lookers.pop(writer, None)


def known_of(texts: Mapping[str, Text], address: str) -> str:
    """What `now.json` says of the series of a page. The page of one series alone is at the top as well."""
    own = texts.get(f"{address.rpartition('/')[0]}/now.json")
    found = own or next((text for name, text in texts.items() if name.endswith("/now.json")), None)
    return found.plain.decode().strip() if found else "{}"


def with_page(texts: Mapping[str, Text], address: str) -> bytes:
    """What is known of a page with the page, packed, unless that is long."""
    known, page = known_of(texts, address), texts[address].plain.decode().replace(SCRIPT, "", 1)
    data = event(json.dumps({**json.loads(known), "page": page}, ensure_ascii=False), True)
    return data if len(data) <= LONGEST else event(known, True)


@functools.lru_cache(KEPT)
def event(data: str, takes_gzip: bool) -> bytes:
    """A server-sent event, made once for all who get it."""
    made = f"data: {data}\n\n".encode()
    return packed(made) if takes_gzip else made


def packed(data: bytes) -> bytes:
    """A part of a stream of gzip. It refers to no part before it, so that it is the same in all streams."""
    packer = zlib.compressobj(LEVEL, zlib.DEFLATED, -zlib.MAX_WBITS)
    return packer.compress(data) + packer.flush(zlib.Z_SYNC_FLUSH)
