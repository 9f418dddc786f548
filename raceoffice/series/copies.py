"""The dated copies of a journal in kept/: their names, and which is the newest."""
from __future__ import annotations

import calendar
import contextlib
import os
import re
import time
from dataclasses import dataclass

from raceoffice.errors import as_trouble
from raceoffice.files import read_whole, replace_whole
from raceoffice.series.folder import LARGEST, Folder, entries_of, whole_part
from raceoffice.series.second_folder import Second, copy_of, places_copy_of

KEPT, STAMP = "kept", "%Y-%m-%d-%H%M%S"
# The time, in UTC if a Z follows it; the number of the copy within its second; what made it.
NAME = re.compile(r"([0-9]{4}-[0-9]{2}-[0-9]{2}-[0-9]{6})(Z?)(?:-([0-9]{1,6}))?(?:-office)?\.txt")


@dataclass(frozen=True, order=True)
class Copy:
    """A dated copy: the second in which it was made, since 1970, its number in that second, its name."""
    second: int
    number: int
    name: str


def copy_named(name: str) -> Copy | None:
    """The copy of a file's name in kept/; None if the name is no copy's. A name without Z has the time of
    this computer, as all had once."""
    found = NAME.fullmatch(name)
    if not found:
        return None
    try:
        read = time.strptime(found[1], STAMP)
        second = calendar.timegm(read) if found[2] else int(time.mktime(read))
    except (ValueError, OverflowError):
        return None
    return Copy(second, int(found[3] or 1), os.path.join(KEPT, name))


def dated(folder: Folder) -> list[Copy]:
    """The dated copies, the newest last."""
    names: list[str] = []
    with as_trouble("file-unread", name="kept/"), contextlib.suppress(FileNotFoundError, NotADirectoryError):
        names = os.listdir(folder.file(KEPT))
    return sorted(copy for name in names if (copy := copy_named(name)))


def newest(folder: Folder) -> Copy | None:
    """The newest dated copy; None if there is none."""
    return max(dated(folder), default=None)


def bytes_of(folder: Folder, copy: Copy) -> bytes:
    """What counts of a copy."""
    return whole_part(read_whole(folder.file(copy.name), LARGEST, copy.name))


def keep(folder: Folder, data: bytes, more: str = "") -> str:
    """Makes a copy that is the newest, whatever the clock says; its name."""
    with as_trouble("file-unmade", name="kept/"):
        os.makedirs(folder.file(KEPT), mode=0o700, exist_ok=True)
    last, second, number = newest(folder), int(time.time()), 1
    if last and last.second >= second:
        second, number = last.second, last.number + 1
    stamp = time.strftime(f"{STAMP}Z", time.gmtime(second))
    name = os.path.join(KEPT, f"{stamp}-{number}{more}.txt" if number > 1 else f"{stamp}{more}.txt")
    replace_whole(folder.file(name), data)
    return name


def best_copy(folder: Folder, second: Second) -> tuple[str, bytes]:
    """The copy that has most of a journal that is lost, and what it holds: the newest in kept/, or that
    in the second folder if it goes on from the newest. No name if there is neither."""
    last = newest(folder)
    held = bytes_of(folder, last) if last else b""
    other = second.ask("read").text.encode() if copy_of(folder) else b""
    ours, theirs = entries_of(held), entries_of(other)
    if len(theirs) > len(ours) and theirs[:len(ours)] == ours:
        return copy_of(folder), other
    return (folder.file(last.name), held) if last and ours else ("", b"")


def places_with(folder: Folder, second: Second, data: bytes) -> str:
    """The copy of the places in the second folder, if that has copies of this journal."""
    if not copy_of(folder):
        return ""
    ours, theirs = entries_of(data), entries_of(second.ask("read").text.encode())
    is_of_this = theirs and theirs == ours[:len(theirs)]
    return second.ask("read", path=places_copy_of(second)).text if is_of_this else ""
