"""A look at a series before its office is opened: what keeps it shut, and what should be known."""
from __future__ import annotations

import contextlib
import errno
import glob
import os
import re
import stat
import time

from raceoffice import system
from raceoffice.characters import is_utf8
from raceoffice.errors import Trouble
from raceoffice.files import PRIVATE
from raceoffice.program.journal import Series
from raceoffice.program.standing import Change, changes
from raceoffice.remarks import remark, system_remark
from raceoffice.series import entry_list
from raceoffice.series.continuity import added
from raceoffice.series.copies import best_copy
from raceoffice.series.folder import LARGEST, Folder, entries_of
from raceoffice.series.kept_places import kept_in_words
from raceoffice.series.read_list import bytes_of
from raceoffice.series.run_program import Program, options_before, options_in_force, replayed
from raceoffice.series.second_folder import second_of
from raceoffice.terminal import sentence

# The journal, what the program cuts off it, and what it may leave of an opening.
OURS = ("journal.txt", "journal.txt.cut", "journal.txt.opening")
# How a file is called that is about to replace another, the folders that may have one beside that of the office, and
# seconds after which nobody is about to do that any more.
FRESH, HOLDERS, LONG_AGO = re.compile(r"\.[0-9a-f]{16}\.new"), ("kept", "times"), 3600.0
# Bytes that have to be free on the disk beside what the journal has already.
ROOM = 64 << 10


def faults(folder: Folder) -> list[str]:
    """All that keeps the office from being opened, in words."""
    program = Program(folder)
    if wrong := path_fault(folder) or program.fault():
        return [wrong]
    if wrong := folder.private_fault():
        return [sentence(wrong)]
    if wrong := journal_fault(folder):
        return [wrong]
    if not folder.kept():
        if lost := lost_journal(folder):
            return [lost]
        if listed := list_faults(folder):
            return listed
    return program.start_faults()


def path_fault(folder: Folder) -> str:
    """Which path the program wouldn't take; empty if it takes both."""
    for path in (os.path.abspath(folder.program), folder.journal):
        if not is_utf8(path):
            return remark("folder-odd", path=path)
    return ""


def journal_fault(folder: Folder) -> str:
    """Why the program couldn't keep journal.txt; empty if it can, or if there is none yet."""
    path = os.path.realpath(folder.journal)
    try:
        held = os.stat(path)
        if not stat.S_ISREG(held.st_mode):
            return remark("journal-unplain")
        if held.st_nlink > 1:
            return remark("journal-linked")
        if not os.access(path, os.R_OK | os.W_OK) or not os.access(os.path.dirname(path), os.W_OK):
            return remark("journal-denied", path=path)
        folder.parts()
    except FileNotFoundError:
        return ""
    except OSError as cause:
        return sentence(remark("file-unread", name="journal.txt", why=system_remark(cause)))
    except Trouble as trouble:
        return sentence(trouble)
    return ""


def list_faults(folder: Folder) -> list[str]:
    """What is wrong with the entry list."""
    try:
        return [*entry_list.problems(bytes_of(folder.entries), folder.entries)]
    except Trouble as trouble:
        return [sentence(trouble)]


def list_notes(folder: Folder) -> list[str]:
    """What of the entry list isn't read, and whether it has the ratings that a series may need."""
    if not os.path.exists(folder.entries) or list_faults(folder):
        return []
    data, name = bytes_of(folder.entries), os.path.basename(folder.entries)
    found = [entry_list.left_in_words(data), entry_list.rating_note(data, name, folder.settings.handicap)]
    return [text for text in found if text]


def lost_journal(folder: Folder) -> str:
    """What the log and the copies say of a journal that is empty or gone."""
    with second_of(folder) as second:
        path, data = best_copy(folder, second)
    held = len(entries_of(data))
    logged = [entry.entries for entry in folder.logged() if entry.line in ("opened", "closed")]
    had = max([held, *logged])
    if not had:
        return ""
    entries = remark("some-entries", n=had)
    return (remark("journal-lost-copy", entries=entries, copy=os.path.relpath(path, folder.path), held=held) if path else
            remark("journal-lost", entries=entries))


def disk_fault(folder: Folder) -> str:
    """Why the folder can't hold a journal and a socket; empty if it can."""
    if cause := room_fault(folder):
        return (remark("disk-full") if cause.errno == errno.ENOSPC else
                remark("disk-unwritten", why=system_remark(cause)))
    path = probe_of(folder)
    try:
        with system.socket_of_office() as made, system.short_name(path) as name:
            made.bind(name)
    except OSError:
        return remark("disk-no-sockets")
    finally:
        remove_probe(path)
    return ""


def room_fault(folder: Folder) -> OSError | None:
    """Why the disk has no room for what an opening and its day may write; None if it has."""
    path = probe_of(folder)
    size = os.path.getsize(folder.journal) if os.path.exists(folder.journal) else 0
    # A longer journal isn't opened.
    size = min(size, LARGEST)
    remove_probe(path)
    try:
        # It has to be a new file: a link of this name may lead to another, and a pipe holds up who opens it.
        with open(path, "xb") as file:
            file.write(b"\0" * (2 * size + ROOM))
            file.flush()
            os.fsync(file.fileno())
    except OSError as cause:
        return cause
    finally:
        remove_probe(path)
    return None


def is_full(folder: Folder) -> bool:
    """Whether the disk is full."""
    cause = room_fault(folder)
    return cause is not None and cause.errno == errno.ENOSPC


def probe_of(folder: Folder) -> str:
    """The file with which this process tries the disk: two may open a series at once."""
    return folder.file(PRIVATE, f"probe-{os.getpid()}")


def remove_probe(path: str) -> None:
    with contextlib.suppress(OSError):
        os.remove(path)


def remove_probes(folder: Folder) -> None:
    """Removes what openings have left that were killed."""
    for path in glob.glob(glob.escape(folder.file(PRIVATE, "probe")) + "*"):
        remove_probe(path)


def remove_fresh(folder: Folder) -> None:
    """Removes what was about to replace a file when its process was killed."""
    paths = [path for place in ("", PRIVATE, *HOLDERS) for path in
             glob.glob(os.path.join(glob.escape(folder.file(place)), ".*.new"))]
    for path in paths:
        with contextlib.suppress(OSError):
            held = os.lstat(path)
            is_left = stat.S_ISREG(held.st_mode) and held.st_mtime < time.time() - LONG_AGO
            if is_left and FRESH.fullmatch(os.path.basename(path)):
                os.remove(path)


def notes(folder: Folder) -> list[str]:
    """What should be known, and keeps nobody from opening."""
    return [note for note in (folder.torn_end(), added(folder), boats_left(folder), other_journals(folder),
                              kept_in_words(folder)) if note]


def boats_left(folder: Folder) -> str:
    """Which boats of the entry list aren't entered; empty before the first opening."""
    entered: list[str] = []
    with contextlib.suppress(Trouble):
        entered = Series.read(list(replayed(folder, options_in_force(folder)).journal)).boats
    left = [str(boat) for sail, boat in entry_list.read_if_there(folder.entries).items()
            if sail not in entered]
    if not entered or not left:
        return ""
    return remark("boats-left", boats=left)


def other_journals(folder: Folder) -> str:
    """Files that a cloud folder made beside the journal, as `journal (conflicted copy).txt`."""
    names = sorted(os.path.basename(path) for path in glob.glob(glob.escape(folder.file("journal")) + "*")
                   if os.path.basename(path) not in OURS and not path.endswith(".new"))
    if not names:
        return ""
    return remark("other-journals", names=names)


def summary(folder: Folder) -> str:
    """The series in one line, from journal and table."""
    standing = Program(folder).standing(options_in_force(folder))
    return remark("office-summary", title=folder.settings.title, boats=remark("some-boats", n=len(standing.rows)),
                  races=remark("some-scored", n=len(standing.races)),
                  entries=remark("some-entries", n=len(folder.kept()) or len(standing.rows)))


def rules_before(folder: Folder) -> list[str]:
    """The options of the last opening, if the settings give others now; else none."""
    before = options_before(folder)
    return before if before and before != folder.settings.options() and folder.kept() else []


def changes_of_rules(folder: Folder, before: list[str]) -> list[Change]:
    """Whom other rules move; none if the program has no table to compare."""
    program = Program(folder)
    try:
        return changes(program.standing(before), program.standing(folder.settings.options()))
    except Trouble:
        # With or without corrected times the journal gives no table.
        return []
