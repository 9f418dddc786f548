"""The windows of a series that are open: each holds the lock of a file of its own in office/windows for as
long as its process lives, by whatever name that was started."""
from __future__ import annotations

import contextlib
import os
import time
from typing import Protocol

from raceoffice import system
from raceoffice.files import PRIVATE

FOLDER = "windows"
OFFICE, TYPING, BOARD = "office", "typing", "board"
# How often a window tries, and seconds for each time: one that looks for windows that have gone may take its
# file for one of theirs.
TRIES, PATIENCE = 10, 0.2


class Files(Protocol):
    """The folder of a series, as far as windows know it."""

    def file(self, *names: str) -> str:
        """The path of a file of the series."""


class Presence:
    """Shows that this window is open, of which kind it is, and who types there; not on a full disk."""

    def __init__(self, folder: Files, kind: str, who: str = "", of: str = "") -> None:
        # A process may show two of a series: its own window, and what it shows `of` others.
        self.path = folder.file(PRIVATE, FOLDER, f"{os.getpid()}{of}")
        self.file = -1
        text = f"{kind}\t{who or kind} since {time.strftime('%H:%M')}\n"
        with contextlib.suppress(OSError):
            os.makedirs(os.path.dirname(self.path), mode=0o700, exist_ok=True)
            # Whatever the umask and the folder's old mode, windows can be shown there.
            os.chmod(os.path.dirname(self.path), 0o700)
            for _ in range(TRIES):
                if self.is_held():
                    os.truncate(self.file, 0)
                    os.write(self.file, text.encode("utf-8", "replace"))
                    return
        # What has no words shows nothing.
        self.close()

    def is_held(self) -> bool:
        """Takes the lock of a file that has this window's number; whether nobody has removed the file."""
        self.file = os.open(self.path, os.O_RDWR | os.O_CREAT | system.NO_LINK, 0o600)
        if system.take_lock(self.file, PATIENCE):
            with contextlib.suppress(FileNotFoundError):
                if os.path.samestat(os.fstat(self.file), os.stat(self.path)):
                    return True
        os.close(self.file)
        self.file = -1
        return False

    def is_shown(self) -> bool:
        """Whether others can see that the window is open."""
        return self.file >= 0

    def close(self) -> None:
        """The window isn't open any more."""
        if self.is_shown():
            with contextlib.suppress(OSError):
                os.remove(self.path)
            os.close(self.file)
            self.file = -1


def open_windows(folder: Files, *kinds: str) -> dict[str, str]:
    """The windows of these kinds that are open, or of all, by the numbers of their processes: who types
    there, and since when."""
    place, found = folder.file(PRIVATE, FOLDER), {}
    with contextlib.suppress(OSError):
        for number in sorted(os.listdir(place)):
            kind, _, who = said_by(os.path.join(place, number)).partition("\t")
            if who and (kind in kinds or not kinds):
                found[number] = who
    return found


def said_by(path: str) -> str:
    """What an open window says of itself; empty if it has gone: then its file is removed."""
    with contextlib.suppress(OSError):
        with system.opened(path, os.O_RDONLY | system.NO_LINK | system.AT_ONCE) as file:
            if not system.take_lock(file, is_shared=True):
                return os.read(file, 1000).decode("utf-8", "replace").strip()
            # Another window may have a file of this name by now.
            if os.path.samestat(os.fstat(file), os.lstat(path)):
                os.remove(path)
    return ""
