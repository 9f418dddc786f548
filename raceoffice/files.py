"""Files that are read whole, replaced whole and added to whole."""
from __future__ import annotations

import contextlib
import os
import secrets
import stat

from raceoffice import system
from raceoffice.errors import NotThere, Trouble, as_trouble
from raceoffice.remarks import remark, system_remark

# The folder in that of a series which lets in this account alone.
PRIVATE = "office"
# A file of a series lets in this account alone.
PRIVATE_MODE, PUBLIC_MODE = 0o600, 0o666
# Bytes of a file that somebody has edited that are read at most, and letters of one that is shown.
LARGEST_EDITED, LARGEST_SHOWN = 1 << 20, 4 << 20
# Seconds that an addition waits for another: that one's process may have been stopped.
PATIENCE = 1.0


def opened_at_once(path: str, flags: int) -> int:
    """Opens a file. A pipe of this name holds nobody up."""
    return os.open(path, flags | system.AT_ONCE)


def opened_as_ours(path: str, flags: int) -> int:
    """Opens a file that lets in this account alone, whatever the umask. A pipe of this name is refused."""
    return os.open(path, flags | system.AT_ONCE, PRIVATE_MODE)


def read_whole(path: str, most: int, called: str = "") -> bytes:
    """All bytes of a file; a Trouble if it has more than `most`, or isn't a plain file. It calls the file
    by its path, or otherwise."""
    called = called or path
    try:
        with open(path, "rb", opener=opened_at_once) as file:
            if not stat.S_ISREG(os.fstat(file.fileno()).st_mode):
                raise Trouble(remark("file-unplain", name=called))
            data = file.read(most + 1)
    except FileNotFoundError:
        raise NotThere(remark("file-gone", name=called)) from None
    except OSError as cause:
        raise Trouble(remark("file-unread", name=called, why=system_remark(cause))) from None
    except ValueError:
        raise Trouble(remark("file-odd-name", name=called)) from None
    if len(data) > most:
        raise Trouble(remark("file-long", name=called, most=f"{most:,}"))
    return data


def edited_text(path: str) -> str:
    """The text of a file that somebody writes with an editor."""
    try:
        return read_whole(path, LARGEST_EDITED).decode("utf-8-sig")
    except UnicodeDecodeError:
        raise Trouble(remark("file-not-utf8", name=path)) from None


def text_if_any(path: str, most: int = LARGEST_SHOWN) -> str:
    """The text of a file, or how it begins; empty if it can't be read."""
    with contextlib.suppress(OSError), \
            open(path, encoding="utf-8", errors="replace", opener=opened_at_once) as file:
        return file.read(most) if stat.S_ISREG(os.fstat(file.fileno()).st_mode) else ""
    return ""


def place_of(path: str) -> str:
    """Where a file is. A link of this account's own is followed: another's may lead anywhere."""
    with contextlib.suppress(FileNotFoundError):
        found = os.lstat(path)
        if stat.S_ISLNK(found.st_mode) and found.st_uid == system.account():
            return os.path.realpath(path)
    return path


def mode_of(path: str) -> int | None:
    """The mode of a plain file; None if there is none. A Trouble if it is something else."""
    try:
        found = os.lstat(path)
    except FileNotFoundError:
        return None
    if stat.S_ISLNK(found.st_mode):
        return None
    if not stat.S_ISREG(found.st_mode):
        raise Trouble(remark("file-unwritten", name=path, why=remark("why-unplain")))
    return stat.S_IMODE(found.st_mode)


def write_fresh(path: str, data: bytes, mode: int, kept: int | None) -> None:
    """Makes a new file with these bytes, which are on the disk then. `kept` is the mode of an old file
    that it replaces."""
    number = os.open(path, os.O_WRONLY | os.O_CREAT | os.O_EXCL | system.NO_LINK, mode)
    with open(number, "wb") as file:
        # A stick's modes can't be changed, and are the same anyway.
        if kept is not None and kept != stat.S_IMODE(os.fstat(number).st_mode):
            os.fchmod(number, kept)
        file.write(data)
        file.flush()
        os.fsync(number)


def replace_whole(path: str, data: bytes, is_public: bool = False, is_linked: bool = True) -> None:
    """Makes a file hold these bytes, so that whoever reads it finds the old ones or the new.

    They are on the disk when it is done. An old file's mode stays, and so does a link, unless `is_linked` is false: then the
    file takes its place. A new file is this account's alone, unless it is public: then the umask decides.
    """
    fresh = ""
    try:
        place = place_of(path) if is_linked else path
        kept = mode_of(place)
        folder = os.path.dirname(place) or "."
        # A name that nobody can guess: in a shared folder another account may have put a file there.
        fresh = os.path.join(folder, f".{secrets.token_hex(8)}.new")
        write_fresh(fresh, data, PUBLIC_MODE if is_public else PRIVATE_MODE, kept)
        os.replace(fresh, place)
        system.sync_folder(folder)
    except OSError as cause:
        with contextlib.suppress(OSError):
            os.remove(fresh)
        raise Trouble(remark("file-unwritten", name=path, why=system_remark(cause))) from None


def is_torn(number: int) -> bool:
    """Whether a file ends in a line without its end."""
    size = os.fstat(number).st_size
    return size > 0 and os.pread(number, 1, size - 1) != b"\n"


def write_all(number: int, data: bytes, is_alone: bool) -> None:
    """Adds all of these bytes to the end of a file and puts them on the disk, or adds none."""
    start, left = os.fstat(number).st_size, data
    try:
        while left:
            left = left[os.write(number, left):]
        os.fsync(number)
    except OSError:
        if is_alone:
            os.ftruncate(number, start)
        raise


def append_whole(path: str, data: bytes, ended: bytes = b"", called: str = "") -> None:
    """Adds bytes to a file: all of them, which are on the disk then, or none. A link isn't followed.

    `ended` is put before them if the file ends in a torn line, as after a power cut.
    """
    called = called or path
    flags = os.O_RDWR | os.O_APPEND | os.O_CREAT | system.NO_LINK | system.AT_ONCE
    with as_trouble("file-unwritten", name=called), system.opened(path, flags, PRIVATE_MODE) as number:
        if not stat.S_ISREG(os.fstat(number).st_mode):
            raise Trouble(remark("file-unwritten", name=called, why=remark("why-unplain")))
        # One who has the lock may have been stopped.
        is_alone = system.take_lock(number, PATIENCE)
        write_all(number, (ended if is_torn(number) else b"") + data, is_alone)


def stamp_of(path: str) -> object:
    """What is another whenever a file is; None if there is none."""
    with contextlib.suppress(OSError):
        found = os.stat(path)
        return found.st_mtime_ns, found.st_size, found.st_ino
    return None
