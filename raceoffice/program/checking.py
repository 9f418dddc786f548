"""What is wrong with a kept journal, by `regatta check`: each faulty line at its place, and what the next opening would cut
off. Nothing of it is judged here."""
from __future__ import annotations

import hashlib
import json
import os
import subprocess
import threading
import time
from collections.abc import Sequence
from dataclasses import dataclass
from typing import Any

from raceoffice import system
from raceoffice.errors import NoCheck, Trouble
from raceoffice.program.messages import (EDITED, KEPT, OTHER_RULES, UNLIKE, refused_line, shown_line,
                                         unread_line)
from raceoffice.program.replay import not_run, program_said
from raceoffice.remarks import remark

# Seconds that the program may take, and after which a look asks it again if it didn't say what is torn. A check of the longest
# file takes a tenth of one.
PATIENCE, AGAIN = 10.0, 60.0
# The files whose ends are remembered, for all classes of a computer.
ENDS = 32
# The numbers of `regatta: journal fault N`, by the names of a check; a line that is refused has a number of its own.
UNREAD = {"BadLine": 1, "TooMany": 2, "BadVersion": 4}
REFUSED = "Refused"
# The refusal of a line that belongs to the other kind of series: with corrected times, or without.
WRONG_SYSTEM = 16
Key = tuple[str, tuple[int, ...], bytes]


@dataclass(frozen=True)
class LineFault:
    """A line that something is wrong with: its number from 1, the place of its first byte, its bytes, and the program's
    word. `number` is that of its reason, if it has one."""
    line: int
    at: int
    size: int
    kind: str
    number: int

    def shown(self, data: bytes) -> str:
        """The line in its file, as it is shown."""
        return shown_line(data[self.at:self.at + self.size])


@dataclass(frozen=True)
class End:
    """What follows the whole lines of a kept file, from its first byte on. If it is damaged, the program wouldn't cut it
    off, but refuse the file."""
    lines: int
    at: int
    is_damaged: bool


@dataclass(frozen=True)
class Check:
    """What is wrong with a kept file."""
    faults: tuple[LineFault, ...]
    end: End


def checked(program: str, options: Sequence[str], data: bytes) -> Check:
    """What the program finds in a kept file with these bytes, under these rules. NoCheck if it can't be asked, or a Trouble
    if it takes no file of that kind."""
    text = printed(program, options, data)
    try:
        document = json.loads(text)
        faults = tuple(fault_of(one) for one in document["faults"])
        torn = document["torn"]
        return Check(faults, End(int(torn["lines"]), int(torn["at"]), torn["damaged"] is not False))
    except (AttributeError, KeyError, TypeError, ValueError, RecursionError):
        raise NoCheck(remark("program-says", said=repr(text[:60]))) from None


def fault_of(one: Any) -> LineFault:
    return LineFault(int(one["line"]), int(one["at"]), int(one["bytes"]), str(one["fault"]), int(one.get("number", 0)))


def printed(program: str, options: Sequence[str], data: bytes) -> str:
    """What the program prints of a kept file with these bytes. Whoever writes it may go on meanwhile."""
    try:
        with system.lent_files({"--keep": data}) as (files, numbers):
            done = subprocess.run([program, "check", *options, *files], stdin=subprocess.DEVNULL, capture_output=True,
                                  encoding="utf-8", errors="replace", timeout=PATIENCE, pass_fds=numbers)
    except (OSError, subprocess.TimeoutExpired) as cause:
        raise NoCheck(*not_run(program, cause).said) from cause
    said = done.stderr.strip()
    if said == "regatta: keep too long":
        raise Trouble(KEPT["too long"])
    # If something is wrong, its status is 1.
    if done.returncode not in (0, 1) or not done.stdout:
        raise NoCheck(program_said(said))
    return done.stdout


def in_words(faults: Sequence[LineFault], data: bytes, name: str) -> list[str]:
    """What is wrong with lines of a file of this name, and what to do. If the first that is refused is of another kind of
    series, each other refusal may follow from that."""
    refused = [fault for fault in faults if fault.kind == REFUSED]
    is_other = bool(refused) and refused[0].number == WRONG_SYSTEM
    shown = [fault for fault in faults if not is_other or fault.kind != REFUSED]
    lines = [refused_line(name, fault.line, fault.number, fault.shown(data)) if fault.kind == REFUSED else
             unread_line(name, fault.line, UNREAD.get(fault.kind, 0), fault.shown(data)) for fault in shown]
    advice = [UNLIKE if is_other or not refused else EDITED] if lines else []
    return [*lines, *advice, *([OTHER_RULES] if is_other else [])]


class Remembered:
    """The ends of files, by the program's file and by their bytes: a look at a file that hasn't changed asks nothing."""

    def __init__(self) -> None:
        self.lock = threading.Lock()
        self.found: dict[Key, tuple[float, End | Trouble]] = {}

    def end_of(self, program: str, data: bytes) -> End:
        """What follows the whole lines of a kept file with these bytes, as the program says. NoCheck if it can't be asked."""
        key = (program, state_of(program), hashlib.sha256(data).digest())
        with self.lock:
            until, found = self.found.get(key, (0.0, None))
        if found is None or isinstance(found, NoCheck) and time.monotonic() >= until:
            found = asked(program, data)
            self.keep(key, found)
        if isinstance(found, Trouble):
            raise type(found)(*found.said)
        return found

    def keep(self, key: Key, found: End | Trouble) -> None:
        with self.lock:
            self.found.pop(key, None)
            while len(self.found) >= ENDS:
                del self.found[next(iter(self.found))]
            self.found[key] = (time.monotonic() + AGAIN, found)


def asked(program: str, data: bytes) -> End | Trouble:
    """The end of a kept file with these bytes, or why the program doesn't say it."""
    try:
        return checked(program, [], data).end
    except Trouble as trouble:
        return trouble


def state_of(program: str) -> tuple[int, ...]:
    """What shows that a program's file is another one; empty if there is none."""
    try:
        found = os.stat(program)
    except (OSError, ValueError):
        return ()
    return found.st_dev, found.st_ino, found.st_size, found.st_mtime_ns


REMEMBERED = Remembered()
