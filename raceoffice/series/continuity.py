"""Whether journal.txt and office/places go on from what the office had: the newest copy in kept/, and the ends
that office.log notes, have to be their beginning."""
from __future__ import annotations

import hashlib
import re
from collections.abc import Sequence
from dataclasses import dataclass

from raceoffice.errors import Trouble, said_of
from raceoffice.remarks import Remark, in_a_row, on_lines, remark
from raceoffice.series.copies import Copy, bytes_of, newest
from raceoffice.series.folder import Folder, shown, whole_part
from raceoffice.series.kept_places import Places
from raceoffice.series.log import Logged
from raceoffice.series.older_copy import REMOVED, is_from_before
from raceoffice.series.second_folder import second_of
from raceoffice.wording import count

# What the office notes when it is opened or closed, and when a copy becomes the journal again.
NOTING = ("opened", "closed", "restored")
# What the log has before a boat is taken out, with the journal that is to be there then.
REMOVING = "removing "
NOTED = re.compile(r"(no|[0-9]{1,9}) entr(?:y|ies)(?: ([0-9a-f]{16}))?"
                   r"(?:, (no|[0-9]{1,9}) lines? of places ([0-9a-f]{16}))?")


@dataclass(frozen=True)
class Noted:
    """The end of a journal as the log has it: when, how many entries, and a short sum of them; and how many
    lines of places, with a sum of these. Older versions noted no sum, or no places."""
    when: str
    entries: int
    digest: str
    lines: int = 0
    lines_digest: str = ""


def parts_of(data: bytes) -> tuple[bytes, list[bytes]]:
    """The line of a journal's version, if it has one, and its entries, all without their ends."""
    lines = data.split(b"\n")[:-1]
    if lines and lines[0].upper().split()[:1] == [b"REGATTA"]:
        return lines[0], lines[1:]
    return b"", lines


def with_entries(version: bytes, entries: list[bytes]) -> bytes:
    """A journal of these entries."""
    lines = [version, *entries] if version else entries
    return b"".join(line + b"\n" for line in lines)


def first_entries(data: bytes, number: int) -> bytes:
    """A journal up to this entry."""
    version, entries = parts_of(data)
    return with_entries(version, entries[:number])


def note_of(data: bytes, places: Sequence[bytes]) -> str:
    """What the log notes of a journal, and of the lines of office/places."""
    entries = len(parts_of(data)[1])
    return (f"{count(entries, 'entry', 'entries')} {digest_of(data)}, "
            f"{count(len(places), 'line')} of places {digest_of(b''.join(places))}")


def note_now(folder: Folder, data: bytes) -> str:
    """What the log notes of a journal, and of office/places as it is now. If that can't be read, nothing of it
    is compared at the next opening."""
    try:
        return note_of(data, Places(folder).lines())
    except Trouble:
        return note_of(data, []).partition(",")[0]


def digest_of(data: bytes) -> str:
    return hashlib.sha256(data).hexdigest()[:16]


def noted_end(logged: list[Logged]) -> Noted | None:
    """The last end that the log notes."""
    found = None
    for entry in logged:
        # A boat is taken out while the office is closed.
        what = "closed" if is_of_removal(entry, REMOVED) else entry.line
        read = NOTED.match(entry.answer) if what in NOTING else None
        if read:
            found = Noted(what, number_of(read[1]), read[2] or "", number_of(read[3]), read[4] or "")
    return found


def is_of_removal(entry: Logged, *words: str) -> bool:
    """Whether the office has noted with one of these words that a boat is taken out. What somebody types has a role."""
    return entry.line.startswith(words) and not entry.seat and not entry.role


def removal_begun(folder: Folder, data: bytes) -> str:
    """The boat without whom a journal is there, if a kill came before that was logged; empty if there is none. The log has
    nothing of the office since, and said how the journal would be."""
    found = [entry for entry in folder.logged() if entry.line in NOTING or is_of_removal(entry, REMOVING, REMOVED)]
    last = next((entry for entry in found[-1:] if is_of_removal(entry, REMOVING)), None)
    read = NOTED.match(last.answer) if last else None
    is_there = read and data and digest_of(data) == read[2]
    return last.line.removeprefix(REMOVING) if last and is_there else ""


def number_of(text: str | None) -> int:
    """A number as `count` writes it."""
    return int(text) if text and text != "no" else 0


def difference(folder: Folder) -> str:
    """How journal.txt isn't what the office had; empty if it goes on from that, or has no entries."""
    data = folder.parts()[0]
    if not parts_of(data)[1] or removal_begun(folder, data):
        return ""
    try:
        last = newest(folder)
        held = bytes_of(folder, last) if last else b""
    except Trouble as trouble:
        return remark("journal-unknown", why=said_of(trouble))
    if last and not data.startswith(held):
        return from_copy(data, held, last)
    noted = noted_end(folder.logged())
    return (from_note(data, noted) if noted else "") or from_second(folder, data)


def from_second(folder: Folder, data: bytes) -> str:
    """How the copy in the second folder goes on beyond a journal, as after an old folder was restored whole; empty if it
    doesn't, if all that it has beyond is of boats that were taken out since, or if that folder doesn't answer."""
    with second_of(folder) as second:
        answer = second.ask("read")
    held = whole_part(answer.text.encode())
    ours, theirs = parts_of(data)[1], parts_of(held)[1]
    if len(theirs) <= len(ours) or theirs[:len(ours)] != ours:
        return ""
    if is_from_before(folder.logged(), theirs, answer.written, ours):
        return ""
    return from_copy(data, held, Copy(0, 1, second.path))


def differences(folder: Folder) -> str:
    """How journal.txt and office/places aren't what the office had; empty if both go on from that."""
    found = [text for text in (difference(folder), difference_of_places(folder)) if text]
    return on_lines(*found) if found else ""


def difference_of_places(folder: Folder) -> str:
    """How office/places isn't what the office had; empty if it goes on from that, or if that wasn't noted."""
    noted = noted_end(folder.logged())
    if noted is None or not noted.lines_digest:
        return ""
    try:
        held = Places(folder).lines()
    except Trouble as trouble:
        return remark("places-unknown", why=said_of(trouble))
    if digest_of(b"".join(held[:noted.lines])) == noted.lines_digest:
        return ""
    lines = remark("some-lines", n=len(held))
    return remark("places-differ-same" if len(held) >= noted.lines else "places-differ", lines=lines,
                  when=when_remark(noted), had=noted.lines)


def added(folder: Folder) -> str:
    """What was added to journal.txt since the office was closed; empty if nothing was, or if the end of
    the office wasn't noted."""
    noted, held = noted_end(folder.logged()), len(parts_of(folder.parts()[0])[1])
    if noted is None or noted.when != "closed" or held <= noted.entries:
        return ""
    return remark("journal-added", entries=remark("some-entries", n=held), more=held - noted.entries)


def own_entries(folder: Folder) -> int:
    """How many entries of journal.txt, from the first, the office has written. If it wasn't closed, or if nothing is
    noted, that is all; if the journal doesn't go on from what it had, none is known to be."""
    data, noted = folder.parts()[0], noted_end(folder.logged())
    if noted and from_note(data, noted):
        return 0
    return noted.entries if noted and noted.when == "closed" else len(parts_of(data)[1])


def when_remark(noted: Noted) -> Remark:
    """What was done to the office when this was noted."""
    return remark(f"when-{noted.when}")


def from_copy(data: bytes, held: bytes, copy: Copy) -> Remark:
    """How a journal doesn't begin with the newest copy."""
    (version, ours), (other, theirs) = parts_of(data), parts_of(held)
    sizes = remark("journal-differs", entries=remark("some-entries", n=len(ours)), copy=copy.name, had=len(theirs))
    places = [at for at, line in enumerate(theirs, 1) if ours[at - 1:at] != [line]]
    compare = remark("journal-compare")
    if not places:
        return in_a_row(sizes, remark("journal-differs-version", line=shown(version), other=shown(other)), compare)
    at = places[0]
    first = (remark("journal-differs-more", n=len(places), entry=at) if len(places) > 1 else
             remark("journal-differs-one", entry=at))
    now = (remark("journal-in-file", line=shown(ours[at - 1])) if at <= len(ours) else remark("journal-in-file-none"))
    return on_lines(in_a_row(sizes, first), remark("journal-in-copy", line=shown(theirs[at - 1])), now, compare)


def from_note(data: bytes, noted: Noted) -> str:
    """How a journal doesn't begin with what the log notes; empty if it does."""
    held = len(parts_of(data)[1])
    entries, when = remark("some-entries", n=held), when_remark(noted)
    if held < noted.entries:
        return remark("journal-short", entries=entries, when=when, had=noted.entries)
    if noted.digest and digest_of(first_entries(data, noted.entries)) != noted.digest:
        return remark("journal-not-same", entries=entries, when=when, had=noted.entries)
    return ""
