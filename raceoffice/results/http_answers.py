"""Serves texts to phones: what is asked for is looked up in one dictionary, and nothing else.

No part of a request reaches the file system or an office.
"""
from __future__ import annotations

import base64
import gzip
import hashlib
import http
import re
import socket
import urllib.parse
from collections.abc import Mapping
from dataclasses import dataclass
from email.utils import formatdate

from raceoffice import system
from raceoffice.results.html import assets

# How many bytes a request may have.
LARGEST = 8192
# How many slashes an address may have: a page of the board is at most in the folder of a class.
DEEPEST = 8
# The versions of HTTP in which somebody may ask.
VERSIONS = ("HTTP/1.0", "HTTP/1.1")
WORDS = {301: "The page is at the address with a slash at its end.",
         400: "This isn't a request that is answered here.",
         404: "There is no such page here.", 405: "This board can only be read.",
         408: "The request took too long.", 431: "The request is too long."}
# The address of this computer that it has without a network
LOOPBACK = "127.0.0.1"
SAFE = {"X-Content-Type-Options": "nosniff", "Referrer-Policy": "no-referrer"}


@dataclass(frozen=True)
class Text:
    """What is sent for one address. It is made once, and sent as often as somebody asks."""
    kind: str
    plain: bytes
    packed: bytes
    tag: str
    policy: str

    @classmethod
    def of(cls, kind: str, data: bytes) -> Text:
        tag = hashlib.sha256(data).hexdigest()[:20]
        return cls(kind, data, gzip.compress(data, 6, mtime=0), tag, policy(kind))


def policy(kind: str) -> str:
    """A page may run the script of the package and no other, and ask this server and nobody
    else."""
    if "html" not in kind:
        return "default-src 'none'"
    digest = base64.b64encode(hashlib.sha256(assets.script().encode()).digest()).decode()
    return (f"default-src 'none'; script-src 'sha256-{digest}'; style-src 'unsafe-inline'; "
            "connect-src 'self'; base-uri 'none'; form-action 'none'")


class Board:
    """The texts that are served, by their addresses."""

    def __init__(self) -> None:
        self.texts: Mapping[str, Text] = {}

    def put(self, texts: Mapping[str, tuple[str, bytes]]) -> None:
        """Replaces all texts: a reader sees the old ones or the new. Equal ones aren't packed again."""
        old = self.texts
        self.texts = {address: old[address] if address in old and old[address].plain == data
                      else Text.of(kind, data) for address, (kind, data) in texts.items()}


@dataclass(frozen=True)
class Request:
    """The parts of a request that matter here."""
    method: str
    address: str
    is_packed: bool
    tags: tuple[str, ...]

    @classmethod
    def read(cls, head: bytes) -> Request:
        first, *lines = re.split("\r?\n", head.decode("latin-1"))
        method, target, version = first.split(" ")
        if version not in VERSIONS or not target.startswith("/"):
            raise ValueError(first)
        fields = {name.strip().lower(): value.strip()
                  for name, _, value in (line.partition(":") for line in lines)}
        offered = re.sub(r"\s", "", fields.get("accept-encoding", "").lower()).split(",")
        tags = fields.get("if-none-match", "").split(",")
        is_packed = any(coding in offered for coding in ("gzip", "gzip;q=1", "gzip;q=1.0"))
        return cls(method, address_of(target.partition("?")[0]), is_packed,
                   tuple(tag.strip().removeprefix("W/").strip('"') for tag in tags))


def address_of(path: str) -> str:
    """The address that a path stands for, in the one way in which the board writes it: a browser may
    leave signs as they are that others write by their numbers. Nothing is at one of many folders."""
    if path.count("/") > DEEPEST:
        return path
    parts = [urllib.parse.unquote_to_bytes(part.encode("latin-1")) for part in path.split("/")]
    return "/".join(urllib.parse.quote(part, safe="") for part in parts)


def with_head(status: int, fields: Mapping[str, str], body: bytes = b"") -> bytes:
    lines = [f"HTTP/1.1 {status} {http.HTTPStatus(status).phrase}", f"Date: {formatdate(usegmt=True)}",
             *(f"{name}: {value}" for name, value in {**SAFE, **fields}.items()),
             "Connection: close"]
    return "\r\n".join([*lines, "", ""]).encode("latin-1") + body


def told(status: int, is_head: bool = False, **fields: str) -> bytes:
    """An answer in one sentence."""
    data = WORDS[status].encode() + b"\n"
    more = {"Allow": "GET, HEAD"} if status == 405 else {}
    return with_head(status, {"Content-Type": "text/plain; charset=utf-8",
                              "Content-Length": str(len(data)), "Cache-Control": "no-cache",
                              "Content-Security-Policy": "default-src 'none'", **more, **fields},
                     b"" if is_head else data)


def answer(request: Request, texts: Mapping[str, Text]) -> bytes:
    """What is sent for a request."""
    is_head = request.method == "HEAD"
    if request.method not in ("GET", "HEAD"):
        return told(405)
    text = texts.get(request.address)
    if text is None and f"{request.address}/" in texts:
        return told(301, is_head, Location=f"{request.address}/")
    if text is None:
        return told(404, is_head)
    tag = text.tag + ("-z" if request.is_packed else "")
    fields = {"ETag": f'"{tag}"', "Cache-Control": "no-cache", "Vary": "Accept-Encoding",
              "Content-Security-Policy": text.policy}
    if tag in request.tags or "*" in request.tags:
        return with_head(304, fields)
    data = text.packed if request.is_packed else text.plain
    fields |= {"Content-Type": text.kind, "Content-Length": str(len(data))}
    fields |= {"Content-Encoding": "gzip"} if request.is_packed else {}
    return with_head(200, fields, b"" if is_head else data)


def addresses() -> list[str]:
    """This computer's addresses in its networks; the one towards the others first."""
    found: list[str] = []
    with socket.socket(socket.AF_INET, socket.SOCK_DGRAM) as probe:
        try:
            # Nothing is sent: the system only says by which address it would be.
            probe.connect(("192.0.2.1", 9))
            found.append(probe.getsockname()[0])
        except OSError:
            pass
    found += system.addresses_in_networks()
    outside = [text for text in dict.fromkeys(found) if not text.startswith("127.")]
    return outside or [LOOPBACK]
