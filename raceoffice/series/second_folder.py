"""The second folder for the journal and the places, as on a stick.

Its disk or its network may hang. So a process of its own looks at it, reads and writes there, and who
asks waits for some seconds alone. That process is this module: it answers requests, one a line.
"""
from __future__ import annotations

import contextlib
import json
import os
import select
import socket
import subprocess
import sys
import time
from collections.abc import Iterator
from dataclasses import dataclass

from raceoffice.errors import NotThere, Trouble, said_of
from raceoffice.files import read_whole, replace_whole
from raceoffice.remarks import packed, remark, unpacked
from raceoffice.series.folder import LARGEST, VERSION, Folder

MODULE = "raceoffice.series.second_folder"
# Seconds that the process may take to start, and to answer; and after which another one is tried.
START, PATIENCE, GIVE_UP = 30.0, 5.0, 60.0


@dataclass(frozen=True)
class Answer:
    """Why a request failed, or nothing; the device of the second folder; the copy, if it was asked for; when that
    was written last, in seconds since 1970, or 0 if it isn't there."""
    fault: str = ""
    device: int = 0
    text: str = ""
    written: float = 0.0


class Second:
    """The process that has the second folder to do with."""

    def __init__(self, folder: Folder) -> None:
        self.folder, self.path = folder, copy_of(folder)
        self.process: subprocess.Popen[bytes] | None = None
        self.line: socket.socket | None = None
        self.rest, self.asked_at, self.failed_at = b"", 0.0, -GIVE_UP

    def ask(self, what: str, text: str = "", path: str = "") -> Answer:
        """Looks at the second folder, reads the copy in it, or writes one; nothing if none is named. The
        copy is that of the journal, or the file of this path."""
        if not self.path:
            return Answer()
        if self.is_busy() or time.monotonic() < self.failed_at + GIVE_UP:
            return self.silence()
        try:
            line = self.start()
        except OSError:
            self.failed_at = time.monotonic()
            self.close()
            return self.silence()
        try:
            line.sendall(json.dumps({"what": what, "path": path or self.path, "text": text}).encode()
                         + b"\n")
        except OSError:
            # It has ended. The next request starts another one.
            self.close()
            return self.silence()
        self.asked_at = time.monotonic()
        return self.answer(PATIENCE) or self.silence()

    def is_busy(self) -> bool:
        """Whether the process still hasn't answered what it was asked before. At last it is given up."""
        if not self.asked_at or self.answer(0.0):
            return False
        if time.monotonic() < self.asked_at + GIVE_UP:
            return True
        self.close()
        return False

    def silence(self) -> Answer:
        return Answer(remark("folder-silent", path=os.path.dirname(self.path)))

    def start(self) -> socket.socket:
        """The line to the process, which is started if it isn't there. Ctrl-C doesn't reach it."""
        if self.line is None:
            self.line, theirs = socket.socketpair()
            with theirs:
                self.process = subprocess.Popen(
                    [sys.executable, "-m", MODULE], stdin=theirs.fileno(), stdout=theirs.fileno(),
                    stderr=subprocess.DEVNULL, start_new_session=True, cwd="/",
                    env={**os.environ, "PYTHONPATH": os.pathsep.join(filter(None, sys.path))})
            self.asked_at, self.rest = time.monotonic(), b""
            if self.answer(START) is None:
                raise TimeoutError
            self.line.settimeout(PATIENCE)
        return self.line

    def answer(self, patience: float) -> Answer | None:
        """What the process answers within the patience; None if it doesn't."""
        end = time.monotonic() + patience
        while b"\n" not in self.rest:
            if not select.select([self.line], [], [], max(0.0, end - time.monotonic()))[0]:
                return None
            data = self.received()
            if not data:
                self.close()
                return None
            self.rest += data
        text, _, self.rest = self.rest.partition(b"\n")
        self.asked_at = 0.0
        return Answer(**{name: unpacked(value) for name, value in json.loads(text).items()})

    def received(self) -> bytes:
        """What has come from the process; nothing if it has ended."""
        with contextlib.suppress(OSError):
            return self.line.recv(1 << 20) if self.line else b""
        return b""

    def is_on_our_disk(self, answer: Answer) -> bool:
        """Whether the second folder is on the disk of the journal, so that one fault takes both."""
        with contextlib.suppress(OSError):
            ours = os.path.dirname(os.path.realpath(self.folder.journal))
            return bool(self.path) and not answer.fault and answer.device == os.stat(ours).st_dev
        return False

    def close(self) -> None:
        """Ends the process. One that hangs in the system ends when that lets it."""
        if self.line:
            self.line.close()
        if self.process:
            self.process.kill()
            with contextlib.suppress(subprocess.TimeoutExpired):
                self.process.wait(0.1)
        self.line = self.process = None
        self.asked_at = 0.0


def copy_of(folder: Folder) -> str:
    """The file of the copy on a second disk; empty if the settings name none."""
    copy = folder.settings.copy
    return os.path.join(folder.file(copy), f"{folder.name}-journal.txt") if copy else ""


def places_copy_of(second: Second) -> str:
    """The file of the copy of the places on a second disk."""
    return os.path.join(os.path.dirname(second.path), f"{second.folder.name}-places")


@contextlib.contextmanager
def second_of(folder: Folder) -> Iterator[Second]:
    """The second folder for a short while."""
    second = Second(folder)
    try:
        yield second
    finally:
        second.close()


# In the process itself

def text_of_copy(path: str) -> str:
    """What the copy holds; nothing if there is none."""
    with contextlib.suppress(NotThere):
        return read_whole(path, LARGEST).decode("utf-8", "replace").replace("\r\n", "\n")
    return ""


def save_to(path: str, text: str) -> None:
    """Makes a file hold a journal, or places, that go on where the file ends."""
    held = "" if os.path.islink(path) else text_of_copy(path)
    if not text.removeprefix(VERSION).startswith(held.removeprefix(VERSION)):
        raise Trouble(remark("copy-other-lines", path=path))
    if text != held:
        put_copy(path, text)


def put_copy(path: str, text: str) -> None:
    """Writes a copy. What is on a stick may be somebody else's: a link there leads nowhere, and the copy takes its place."""
    replace_whole(path, text.encode(), is_linked=False)


def answered(what: str, path: str, text: str) -> Answer:
    """Does what is asked of the second folder."""
    place = os.path.dirname(path)
    if not os.path.isdir(place):
        return Answer(remark("folder-gone", path=place))
    found = ""
    try:
        if what == "save":
            save_to(path, text)
        elif what == "replace":
            put_copy(path, text)
        elif what == "read":
            found = text_of_copy(path)
        return Answer(device=os.stat(place).st_dev, text=found, written=written_at(path))
    except Trouble as trouble:
        return Answer(said_of(trouble))
    except OSError as cause:
        return Answer(str(cause))


def written_at(path: str) -> float:
    """When a file was written last; 0 if it isn't there."""
    with contextlib.suppress(FileNotFoundError):
        return os.stat(path).st_mtime
    return 0.0


def main() -> None:
    print(json.dumps({}), flush=True)
    for line in sys.stdin:
        answer = answered(**json.loads(line))
        print(json.dumps({**answer.__dict__, "fault": packed(answer.fault)}), flush=True)


if __name__ == "__main__":
    main()
