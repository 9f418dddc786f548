"""The copies of the journal that the program keeps in journal.txt: one on a second disk, with one of the
places of finishers without a sail, and dated ones in kept/."""
from __future__ import annotations

import contextlib

from raceoffice.errors import NotSent, Trouble, said_of
from raceoffice.program.link import Sheet
from raceoffice.remarks import remark
from raceoffice.series import copies
from raceoffice.series.continuity import first_entries, own_entries, parts_of
from raceoffice.series.folder import VERSION, Folder
from raceoffice.series.kept_places import History, Places, command_of
from raceoffice.series.older_copy import is_from_before
from raceoffice.series.run_program import replayed
from raceoffice.series.second_folder import Second, copy_of, places_copy_of
from raceoffice.terminal import sentence


class Backups:
    """Copies journal and places to a second disk if the settings say so, and looks whether journal.txt has
    the journal.

    While the office is open, only the program writes journal.txt: a rename over it would break the
    keeping. The copy is replaced only by a journal that goes on where it ends, or that lacks
    nothing of it except boats that were taken out since. So an office that was opened with an older journal
    never costs the entries that were copied.
    """

    def __init__(self, folder: Folder) -> None:
        self.folder, self.second, self.places = folder, Second(folder), Places(folder)
        # How many entries the second copy has, and which places.
        self.copied: tuple[int, object] = (-1, None)
        # Why there is no second copy, and what else should be known of it.
        self.trouble = self.note = ""
        # The places as this window saw them last: their lines, and the state of their file.
        self.noted: list[bytes] = []
        self.noted_state: object = None
        # What the office has, and how journal.txt began when this window came.
        self.sheet = Sheet((), ())
        # Whether places may have to be kept again, as somebody held their file at the opening.
        self.is_owed = False
        self.first: list[str] | None = None

    def save(self, sheet: Sheet) -> None:
        """Copies the journal; a Trouble if journal.txt isn't what the office keeps. A copy that fails
        is only remembered."""
        self.sheet = sheet
        self.take_up_folder()
        if self.second.path and (self.copied != (len(sheet.journal), self.places.state()) or self.trouble):
            self.copy(sheet)
        if not self.is_kept():
            raise Trouble(remark("journal-changed"))

    def take_up_folder(self) -> None:
        """Takes up a second folder that the settings have come to name while the office is open, or leaves one."""
        if self.second.path != copy_of(self.folder):
            self.second.close()
            self.second, self.copied, self.trouble, self.note = Second(self.folder), (-1, None), "", ""

    def look_again(self) -> None:
        """Has the copy looked at next time, although nothing is new: another stick may be in by then."""
        self.copied = (-1, None)

    def copy(self, sheet: Sheet) -> None:
        """Copies the journal to the second disk, and remembers what is wrong with that."""
        # What is noted meanwhile is copied next time.
        state = self.places.state()
        answer = self.second.ask("save", as_file(sheet))
        if answer.fault and self.is_copy_from_before(sheet):
            # The copy of the places comes first, since it has the numbers of the shorter journal.
            self.copy_places()
            answer = self.second.ask("replace", as_file(sheet))
        self.trouble, self.copied = answer.fault or self.copy_places(), (len(sheet.journal), state)
        self.note = same_disk(self.second.path) if self.second.is_on_our_disk(answer) else ""

    def is_copy_from_before(self, sheet: Sheet) -> bool:
        """Whether all that the copy has beyond the journal is of boats that were taken out while it wasn't there."""
        with contextlib.suppress(Trouble):
            held = self.second.ask("read")
            theirs, ours = (parts_of(text.encode())[1] for text in (held.text, as_file(sheet)))
            return not held.fault and is_from_before(self.folder.logged(), theirs, held.written, ours)
        return False

    def take_up_places(self) -> bool:
        """Takes up the places that the second folder has with this journal, if none is noted here: somebody
        has put the copy of the journal back by hand. Whether there were any."""
        if self.places.data():
            return False
        text = copies.places_with(self.folder, self.second, self.folder.parts()[0])
        self.places.put_back(text)
        return bool(text)

    def note_removals(self) -> None:
        """Notes which boats are out of journal.txt, and which it has still, or again, that were about to be taken out
        of it."""
        with contextlib.suppress(Trouble, NotSent):
            self.places.note_removals([command_of(line) for line in self.folder.kept()], own_entries(self.folder))

    def keep_lost(self, patience: float | None = None) -> None:
        """Keeps the places again that were said to be boats whose lines journal.txt lacks. It is still owed if their file
        can't be written within the patience, as while a window that has it is stopped."""
        self.is_owed = True
        with contextlib.suppress(Trouble, NotSent):
            # These notes are of lines that the journal had before it is read.
            data = self.places.data()
            journal = [command_of(line) for line in self.folder.kept()]
            for end in History.read(data, journal).lost():
                self.places.keep_lost(end, min(len(journal), end.entry - 1), patience)
            self.is_owed = False

    def guard_places(self) -> str:
        """Puts places in again that somebody has taken out of their file; what is said of that, or nothing.
        While an office is open lines are only added there."""
        state = self.places.state()
        if state == self.noted_state and (state or not self.noted):
            return ""
        try:
            again, others = 0, ""
            if self.noted and self.places.lines()[:len(self.noted)] != self.noted:
                again, others = self.places.put_in_again(self.noted)
            self.noted = self.places.lines()
        except (Trouble, NotSent) as trouble:
            return remark("beware", said=sentence(trouble))
        self.noted_state = state
        if not again and not others:
            return ""
        return remark("places-not-again", n=again, others=others) if others else remark("places-again", n=again)

    def copy_places(self) -> str:
        """Copies the places to the second disk; why that failed, or nothing."""
        try:
            text = self.places.text()
        except Trouble as trouble:
            return said_of(trouble)
        return self.second.ask("save", text, places_copy_of(self.second)).fault

    def is_kept(self) -> bool:
        """Whether journal.txt is what the office has; a Trouble if it can't be read."""
        held, journal = self.folder.kept(), list(self.sheet.journal)
        if self.first is None:
            self.first = self.beginning(held[:len(journal)], journal)
        return held[:len(journal)] == [*self.first, *journal[len(self.first):]]

    def beginning(self, held: list[str], journal: list[str]) -> list[str]:
        """How journal.txt has to begin. An older one may be written otherwise than the office shows it:
        then it is right as it is."""
        if held != journal:
            with contextlib.suppress(Trouble):
                shown = replayed(self.folder, self.folder.settings.options()).journal
                if list(shown[:len(journal)]) == journal:
                    return held
        return journal

    def data(self) -> bytes:
        """What the office has, as journal.txt has it if that is right. What it hasn't shown yet may be
        lost in a crash, and is no part of this."""
        with contextlib.suppress(Trouble):
            if self.is_kept():
                return first_entries(self.folder.parts()[0], len(self.sheet.journal))
        return as_file(self.sheet).encode()

    def keep_dated(self) -> str:
        """Makes a dated copy of the journal in kept/; its name."""
        return copies.keep(self.folder, self.data())

    def keep_beside(self) -> str:
        """Keeps the office's journal in kept/ if journal.txt isn't it any more; the copy's name."""
        return copies.keep(self.folder, self.data(), "-office")


def same_disk(path: str) -> str:
    """What is said of a copy that breaks with the disk of the journal."""
    return remark("copy-same-disk", path=path)


def as_file(sheet: Sheet) -> str:
    """The journal of a sheet as a file has it."""
    return VERSION + "".join(f"{line}\n" for line in sheet.journal)
