"""office/line.lock: whoever looks at an order, works out a line by it and sends that, does so alone among all windows and
pages of a class."""
from __future__ import annotations

import contextlib
import os
import time
from collections.abc import Iterator

from raceoffice import system
from raceoffice.errors import NotNow
from raceoffice.files import PRIVATE
from raceoffice.remarks import remark
from raceoffice.series.folder import Folder

# Seconds for which somebody waits for another, and for which nobody waits again for one that didn't go on.
PATIENCE, STOPPED = 0.5, 10.0


class AtTheLine:
    """The lock of a class, as one window or session has it."""

    def __init__(self, folder: Folder) -> None:
        self.path, self.is_held, self.stopped_until = folder.file(PRIVATE, "line.lock"), False, 0.0
        # Whether nobody else holds it meanwhile.
        self.is_alone = False

    @contextlib.contextmanager
    def alone(self) -> Iterator[bool]:
        """Does what follows while no other window or page does; whether this begins only now. If another holds the lock for
        long, as a window that was stopped, it is done all the same: no tap waits for that one."""
        if self.is_held:
            yield False
            return
        file = -1
        try:
            with contextlib.suppress(OSError):
                file = os.open(self.path, os.O_RDWR | os.O_CREAT | system.NO_LINK, 0o600)
                self.take(file)
            self.is_held = True
            yield True
        finally:
            self.is_held = self.is_alone = False
            if file >= 0:
                os.close(file)

    def need_alone(self) -> None:
        """NotNow if another holds the lock: what it may send meanwhile would have to be put right afterwards."""
        if not self.is_alone:
            raise NotNow(remark("file-unwritten", name=self.path, why=remark("why-written")))

    def take(self, file: int) -> None:
        """Takes the lock, unless another doesn't go on."""
        patience = PATIENCE if time.monotonic() >= self.stopped_until else 0.0
        self.is_alone = system.take_lock(file, patience)
        if not self.is_alone and patience:
            self.stopped_until = time.monotonic() + STOPPED
