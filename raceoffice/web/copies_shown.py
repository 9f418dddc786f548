"""The journal of a class and its copies, as the scorer's page shows them."""
from __future__ import annotations

import os
import threading
import time

from raceoffice.errors import Trouble
from raceoffice.series import copies
from raceoffice.series.continuity import difference
from raceoffice.series.folder import Folder, entries_of
from raceoffice.series.second_folder import Second, copy_of
from raceoffice.terminal import sentence
from raceoffice.web.states import Values, remarks_of

# Seconds until the copies are read again.
AGAIN = 3.0


class CopiesShown:
    """The copies of one class. They are read when somebody asks, and not too often: the disk of the second
    folder may hang."""

    def __init__(self, folder: Folder) -> None:
        self.folder, self.second, self.lock = folder, Second(folder), threading.Lock()
        self.found: Values = {}
        self.looked_at = -AGAIN

    def look(self, trouble: str) -> Values:
        """What there is. `trouble` says why the office that this web keeps has no second copy; empty if it has
        one, or if a window keeps the office."""
        with self.lock:
            if time.monotonic() >= self.looked_at + AGAIN:
                self.found = {"dated": self.dated(), "second": self.second_copy()}
                self.looked_at = time.monotonic()
            second = self.found["second"]
            if trouble and isinstance(second, dict) and not second["fault"]:
                return {**self.found, "second": {**second, "fault": remarks_of([sentence(trouble)])}}
            return self.found

    def look_again(self) -> None:
        """Has the copies read whoever asks next: the second folder may be another."""
        self.looked_at = -AGAIN

    def dated(self) -> Values:
        """How many dated copies there are, and the newest."""
        try:
            found = copies.dated(self.folder)
            if not found:
                return {"count": 0, "fault": []}
            last = found[-1]
            held = len(entries_of(copies.bytes_of(self.folder, last)))
        except Trouble as trouble:
            return {"count": 0, "fault": remarks_of([sentence(trouble)])}
        return {"count": len(found), "fault": [], "name": last.name, "at": last.second * 1000, "entries": held}

    def second_copy(self) -> Values | None:
        """The copy in the second folder; None if the settings name none."""
        if self.second.path != copy_of(self.folder):
            self.second.close()
            self.second = Second(self.folder)
        if not self.second.path:
            return None
        answer = self.second.ask("read")
        return {"path": os.path.dirname(self.second.path), "fault": remarks_of([sentence(answer.fault)] if answer.fault else []),
                "is_same_disk": self.second.is_on_our_disk(answer), "at": int(answer.written * 1000),
                "entries": len(entries_of(answer.text.encode()))}

    def close(self) -> None:
        with self.lock:
            self.second.close()


def journal_shown(folder: Folder, is_open: bool, warned: str) -> Values:
    """How many entries journal.txt has, and how it isn't what the office keeps, or had. `warned` is what this process
    says of an office that it keeps; that of another window is in a file, in English alone."""
    try:
        held, wrong = len(folder.kept()), (warned or folder.beware()) if is_open else difference(folder)
    except Trouble as trouble:
        return {"entries": 0, "differs": remarks_of([sentence(trouble)])}
    return {"entries": held, "differs": remarks_of([wrong] if wrong else [])}
