"""The decisions of a series beside its scores, worked out again once its journal, its rules or decisions.txt are others."""
from __future__ import annotations

import threading

from raceoffice.decisions import decision_lines
from raceoffice.decisions.points import Decided, decided
from raceoffice.errors import Trouble
from raceoffice.program.link import Sheet
from raceoffice.remarks import remark
from raceoffice.series.folder import Folder
from raceoffice.series.run_program import options_in_force

FILE = decision_lines.NAME


class DecisionsNow:
    """What the decisions of one series come to."""

    def __init__(self, folder: Folder) -> None:
        self.folder, self.lock = folder, threading.Lock()
        self.held: tuple[object, Decided] | None = None

    def look(self, sheet: Sheet) -> Decided:
        """The decisions beside the scores as they are."""
        try:
            text = decision_lines.read(self.folder.path)
        except Trouble as trouble:
            return Decided("", (), (remark("decisions-fault", why=trouble.said[0]),))
        if not text.strip():
            return Decided()
        with self.lock:
            options = options_in_force(self.folder)
            key = (sheet.journal, options, text)
            if self.held is None or self.held[0] != key:
                self.held = (key, decided(self.folder.program, options, sheet.journal, text))
            return self.held[1]
