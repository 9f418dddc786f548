"""The trace of a fault of the package itself: it is written into a file, and the fault is said in a sentence.

Nothing that a file holds ends a board or a window: their loops go on after such a fault.
"""
from __future__ import annotations

import contextlib
import os
import tempfile
import time
import traceback
from collections.abc import Iterator

from raceoffice.characters import utf8
from raceoffice.errors import Fault, Trouble
from raceoffice.files import PRIVATE, append_whole
from raceoffice.remarks import remark

NAME = "faults.txt"


@contextlib.contextmanager
def guarded(folder: str, *passed: type[Exception]) -> Iterator[None]:
    """Makes a Fault of what goes wrong in the package itself. A Trouble stays as it is, and so do the
    exceptions that are named."""
    try:
        yield
    except Exception as cause:
        if isinstance(cause, (Trouble, *passed)):
            raise
        raise Fault(fault_sentence(folder, cause)) from cause


def fault_sentence(folder: str, cause: Exception) -> str:
    """A fault in one sentence, once its trace has been written."""
    path = written(folder, "".join(traceback.format_exception(cause)))
    name = type(cause).__name__
    return remark("program-fault", name=name, path=path) if path else remark("program-fault-untold", name=name)


WRITTEN: dict[str, str] = {}


def written(folder: str, trace: str) -> str:
    """Writes a trace into the series' folder, or else into one for temporary files; the file, or nothing
    if neither takes it. A loop that meets the same fault again doesn't write it again."""
    if trace not in WRITTEN:
        data = utf8(f"{time.strftime('%Y-%m-%dT%H:%M:%S%z')}\n{trace}\n")
        places = [os.path.join(folder, PRIVATE, NAME)] if folder else []
        WRITTEN[trace] = next((path for path in places if is_added(path, data)), "") or temporary(data)
    return WRITTEN[trace]


def is_added(path: str, data: bytes) -> bool:
    try:
        append_whole(path, data)
    except Trouble:
        return False
    return True


def temporary(data: bytes) -> str:
    """A new file with these bytes; empty if there can't be one."""
    with contextlib.suppress(OSError):
        number, path = tempfile.mkstemp(prefix="regatta-fault-", suffix=".txt")
        with open(number, "wb") as file:
            file.write(data)
        return path
    return ""
