"""HTTP requests and what is sent for them: read within limits, answered whole."""
from __future__ import annotations

import asyncio
import base64
import contextlib
import dataclasses
import functools
import gzip
import hashlib
import json
import re
import urllib.parse
from collections.abc import Iterator, Mapping, Sequence
from dataclasses import dataclass, field
from email.utils import formatdate
from typing import Any

from raceoffice.results.http_answers import VERSIONS

# Seconds for a request's head to come, for its body, and for a connection without a request.
HEAD_TIME, BODY_TIME, IDLE = 10.0, 30.0, 70.0
# The most bytes of a request's head and of its first line; how many fields it may have, and how many parts its path.
# Whatever it has, reading it takes the thread of all connections a small part of a millisecond. Phones that had an older
# package may send 180 cookies.
HEAD, LINE = 16 << 10, 2 << 10
FIELDS, PARTS = 100, 16
# What follows the role in a cookie by which a device may be known; the name of an older package's has no more. This many of
# a role are read: a browser has one for each office of a computer.
COOKIE, COOKIES = re.compile("(?:-[0-9a-f]{8})?=([^; ]{43,})"), 64
REASONS = {200: "OK", 204: "No Content", 301: "Moved Permanently", 304: "Not Modified",
           400: "Bad Request", 401: "Unauthorized", 403: "Forbidden", 404: "Not Found",
           405: "Method Not Allowed", 409: "Conflict", 413: "Content Too Large",
           421: "Misdirected Request", 422: "Unprocessable Content", 429: "Too Many Requests",
           431: "Request Header Fields Too Large", 500: "Internal Server Error",
           503: "Service Unavailable"}
# A page runs the scripts of this server and no other, asks nobody else, and is in nobody's frame.
POLICY = ("default-src 'none'; script-src 'self'; style-src 'self'; connect-src 'self'; img-src 'self'; "
          "manifest-src 'self'; worker-src 'self'; base-uri 'none'; form-action 'none'; "
          "frame-ancestors 'none'")
SAFE = {"Content-Security-Policy": POLICY, "X-Content-Type-Options": "nosniff",
        "X-Frame-Options": "DENY", "Referrer-Policy": "no-referrer",
        "Cross-Origin-Resource-Policy": "same-origin", "Cross-Origin-Opener-Policy": "same-origin"}
# A phone at the finish loads some twenty parts of a page over a weak line: their heads are short.
SAFE_PART = {"X-Content-Type-Options": "nosniff", "Cross-Origin-Resource-Policy": "same-origin"}
# How hard a reply is packed: a state, which is made for each change, and a part of a page
QUICK, SMALLEST = 4, 9
JSON = "application/json"
# Replies with fewer bytes aren't packed.
LEAST_PACKED = 1000
# How many of the last replies stay packed; and of those with more bytes than this, as states of a class with many boats and
# races, of which there is another after each tap.
PACKED, PACKED_LONG, LONG = 128, 8, 64 << 10


# Why a request isn't done, as a fixed word that pages translate, if nothing more is known.
WHY = {401: "unknown-device", 403: "not-from-a-page", 404: "not-there", 413: "too-long",
       421: "other-name", 422: "not-sent", 429: "too-many", 431: "too-long", 503: "office-away"}


class Wrong(Exception):
    """Why a request isn't done: the number of a status, words, and a fixed word for pages in other
    languages; perhaps what more is known, as remarks."""

    def __init__(self, status: int, words: str = "", kind: str = "", said: Sequence[object] = ()) -> None:
        super().__init__(words or REASONS[status])
        self.status, self.kind, self.said = status, kind or WHY.get(status, "no-request"), said

    def reply(self) -> Reply:
        values: dict[str, object] = {"words": str(self), "kind": self.kind}
        if self.said:
            values["said"] = self.said
        return reply_of(values, self.status)


@dataclass(frozen=True)
class Request:
    """A request. Its body is read once its head is known."""
    method: str
    path: str
    fields: Mapping[str, str]
    address: str
    body: bytes = b""
    query: str = ""
    # The cookies of each role that was asked about, as they were found.
    found: dict[str, list[tuple[str, str]]] = field(default_factory=dict, compare=False, repr=False)

    def values(self) -> dict[str, Any]:
        """The body's values."""
        if self.fields.get("content-type", "").partition(";")[0].strip() != JSON:
            raise Wrong(400, "the body has to be JSON")
        try:
            found = json.loads(self.body)
            # Half of a surrogate pair is no text.
            json.dumps(found, ensure_ascii=False).encode()
        except (ValueError, RecursionError):
            raise Wrong(400, "the body can't be read") from None
        if not isinstance(found, dict):
            raise Wrong(400, "the body can't be read")
        return found

    def cookies(self, role: str) -> list[tuple[str, str]]:
        """The last cookies by which a device of a role may be known, as browsers send the newest last: of each its value and
        the hash of that."""
        if role not in self.found:
            parts = f" {self.fields.get('cookie', '')}".rsplit(f" office-{role.lower()}", COOKIES)[1:]
            values = [form[1] for form in map(COOKIE.match, parts) if form]
            self.found[role] = [(value, hashed(value)) for value in values]
        return self.found[role]

    @property
    def takes_gzip(self) -> bool:
        return "gzip" in self.fields.get("accept-encoding", "").replace(" ", "").split(",")

    @functools.cached_property
    def parts(self) -> list[str]:
        """The parts of its path, decoded; none for `/`."""
        return [urllib.parse.unquote(part) for part in self.path.strip("/").split("/") if part]


@dataclass(frozen=True)
class Reply:
    """What is sent for a request. `is_ready` says that nothing is to be packed, and that its own policy
    holds."""
    status: int = 200
    kind: str = JSON
    data: bytes = b""
    fields: Mapping[str, str] = field(default_factory=dict)
    is_ready: bool = False
    # Part of a page, as a script or a style: what is said of pages holds for the page that loads it.
    is_part: bool = False


def hashed(text: str) -> str:
    return hashlib.sha256(text.encode("utf-8", "replace")).hexdigest()


def reply_of(values: object, status: int = 200, fields: Mapping[str, str] | None = None) -> Reply:
    """A reply with these values."""
    data = json.dumps(values, ensure_ascii=False, separators=(",", ":")).encode("utf-8", "replace")
    return Reply(status, JSON, data, fields or {})


def tag_of(data: bytes) -> str:
    """What tells a text from others: 48 bits of its SHA-256, since each file of a first visit has one."""
    return base64.b64encode(hashlib.sha256(data).digest())[:8].decode()


def tagged(request: Request, kind: str, data: bytes, is_part: bool = False) -> Reply:
    """A text that a browser keeps, and asks about by its tag."""
    tag = f'"{tag_of(data)}"'
    fields = {"ETag": tag, "Cache-Control": "no-cache"}
    if tag in request.fields.get("if-none-match", ""):
        return Reply(304, kind, b"", fields, is_part=is_part)
    return Reply(200, kind, data, fields, is_part=is_part)


def packed(request: Request, reply: Reply) -> Reply:
    """The same with fewer bytes, for those who can unpack it. No secret is in the same text as what a request
    may choose: only states and files are this long."""
    if len(reply.data) < LEAST_PACKED or not request.takes_gzip or reply.is_ready:
        return reply
    fields = {**reply.fields, "Content-Encoding": "gzip", "Vary": "Accept-Encoding"}
    zipped = zipped_short if len(reply.data) <= LONG else zipped_long
    data = zipped(reply.data, SMALLEST if reply.is_part else QUICK)
    return Reply(reply.status, reply.kind, data, fields, is_part=reply.is_part)


@functools.lru_cache(PACKED)
def zipped_short(data: bytes, level: int) -> bytes:
    """These bytes, packed once for all who ask for them."""
    return gzip.compress(data, level, mtime=0)


@functools.lru_cache(PACKED_LONG)
def zipped_long(data: bytes, level: int) -> bytes:
    """The same of many bytes, of which a few stay."""
    return gzip.compress(data, level, mtime=0)


def bytes_of(reply: Reply, is_last: bool, is_head: bool) -> tuple[bytes, bytes]:
    """The head and the body of an answer. A body is never copied: many may ask for the same."""
    safe = SAFE_PART if reply.is_part else SAFE
    fields = {"Date": formatdate(usegmt=True), **safe, "Cache-Control": "no-store", **reply.fields,
              **({"Connection": "close"} if is_last else {})}
    if reply.status not in (204, 304):
        # Modules and workers are UTF-8 whatever is said of them.
        is_text = reply.kind.startswith("text/") and reply.kind != "text/javascript" and "charset" not in reply.kind
        kind = reply.kind + ("; charset=utf-8" if is_text else "")
        fields |= {"Content-Type": kind, "Content-Length": str(len(reply.data))}
    lines = [f"HTTP/1.1 {reply.status} {REASONS[reply.status]}",
             *(f"{name}: {value}" for name, value in fields.items()), "", ""]
    return "\r\n".join(lines).encode("latin-1"), b"" if is_head else reply.data


# Reading

@contextlib.contextmanager
def within(writer: asyncio.StreamWriter, seconds: float) -> Iterator[None]:
    """Cuts a connection off if what is done here takes longer. It costs less than a task with a timeout,
    which counts when hundreds of phones ask at once."""
    alarm = asyncio.get_running_loop().call_later(seconds, writer.transport.abort)
    try:
        yield
    finally:
        alarm.cancel()


async def head_of(reader: asyncio.StreamReader, writer: asyncio.StreamWriter) -> bytes:
    """The head of the next request; empty if the client leaves without one."""
    try:
        with within(writer, IDLE):
            first = await reader.read(1)
        if not first:
            return b""
        with within(writer, HEAD_TIME):
            return first + await reader.readuntil(b"\r\n\r\n")
    except asyncio.LimitOverrunError:
        raise Wrong(431) from None


def request_of(head: bytes, address: str) -> Request:
    """A head as a request; Wrong if it isn't one, or has too much to be read."""
    # Its last line is empty.
    if head.find(b"\r\n") > LINE or head.count(b"\r\n") > FIELDS + 2:
        raise Wrong(431)
    line, *lines = head.decode("latin-1").split("\r\n")
    words = line.split(" ")
    if len(words) != 3 or words[2] not in VERSIONS or not words[1].startswith("/"):
        raise Wrong(400)
    fields: dict[str, str] = {}
    for text in filter(None, lines):
        name, colon, value = text.partition(":")
        key = name.lower()
        # Two readers would take two hosts or lengths for different ones.
        if not colon or not name or name != name.strip() or key in fields and key in ("host", "content-length"):
            raise Wrong(400)
        fields[key] = value.strip()
    if "transfer-encoding" in fields:
        raise Wrong(400, "the body needs its length")
    path, _, query = words[1].partition("?")
    if path.count("/") > PARTS:
        raise Wrong(404)
    return Request(words[0], path, fields, address, query=query)


async def with_body(reader: asyncio.StreamReader, writer: asyncio.StreamWriter, request: Request, most: int) -> Request:
    """A request with its body, which may have so many bytes."""
    size = request.fields.get("content-length", "0")
    if not (size.isascii() and size.isdecimal()):
        raise Wrong(400)
    if len(size) > 9 or int(size) > most:
        raise Wrong(413)
    if not int(size):
        return request
    # A timeout of asyncio (before Python 3.12) would drop a cancellation that comes just as the body is whole.
    with within(writer, BODY_TIME):
        body = await reader.readexactly(int(size))
    return dataclasses.replace(request, body=body)
