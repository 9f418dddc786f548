"""A folder that hangs, as one on a stick or in a network may: the second folder of a series, or all of a series."""
from __future__ import annotations

import contextlib
import os
import sys
import tempfile
import unittest
from unittest import mock

# The process of the second folder waits while there is such a file, and for ever if that isn't empty.
MARK = "hangs"
WAITING = f"""
import os, sys, time
if "raceoffice.series.second_folder" in sys.orig_argv:
    is_folder = os.path.isdir

    def is_folder_at_last(path):
        mark, is_for_good = os.path.join(path, {MARK!r}), False
        while is_for_good or os.path.exists(mark):
            is_for_good = is_for_good or os.path.getsize(mark) > 0
            time.sleep(0.01)
        return is_folder(path)

    os.path.isdir = is_folder_at_last
"""

# Whoever asks a system about a path of this folder waits while its mark is there, but for a program of the series. The folder
# is a file system of its own, as a drive is.
DEAD = """
import builtins, io, os, time
dead, mark, look = os.environ["DEAD_FOLDER"], os.environ["DEAD_FOLDER"] + ".mark", os.lstat

def is_marked():
    try:
        return bool(look(mark))
    except OSError:
        return False

def waiting(call):
    def asked(path=".", *words, **more):
        place = os.fsdecode(path) if isinstance(path, (str, bytes, os.PathLike)) else ""
        if place.startswith("/proc/") and place.endswith("/cwd"):
            place = os.readlink(place)
        while (place + "/").startswith(dead + "/") and is_marked():
            time.sleep(0.01)
        return call(path, *words, **more)
    return asked

def with_mount(call):
    def opened(path, *words, **more):
        file = call(path, *words, **more)
        if path != "/proc/self/mountinfo":
            return file
        with file:
            return io.StringIO(f"{file.read()}1 1 0:999 / {dead} rw - far far rw\\n")
    return opened

for name in ("stat", "lstat", "open", "listdir", "scandir", "mkdir", "remove"):
    setattr(os, name, waiting(getattr(os, name)))
builtins.open = io.open = with_mount(waiting(io.open))
"""


def load_first(trial: unittest.TestCase, text: str, **more: str) -> None:
    """Has each process that a trial starts from now on run this before all else."""
    place = tempfile.TemporaryDirectory()
    trial.addCleanup(place.cleanup)
    with open(os.path.join(place.name, "sitecustomize.py"), "w", encoding="ascii") as file:
        file.write(text)
    # Windows have it from the environment, and a process that the trial starts from its own path.
    paths = [place.name, *filter(None, [os.environ.get("PYTHONPATH")])]
    environment = mock.patch.dict(os.environ, PYTHONPATH=os.pathsep.join(paths), **more)
    environment.start()
    trial.addCleanup(environment.stop)
    path = mock.patch.object(sys, "path", [place.name, *sys.path])
    path.start()
    trial.addCleanup(path.stop)


class Dead:
    """Has a folder of a trial be on a drive that answers nobody, as long as it likes. It has to be made before a window is
    opened."""

    def __init__(self, trial: unittest.TestCase, folder: str) -> None:
        self.mark = f"{folder}.mark"
        load_first(trial, DEAD, DEAD_FOLDER=folder)
        trial.addCleanup(self.end)

    def begin(self) -> None:
        with open(self.mark, "w", encoding="ascii"):
            pass

    def end(self) -> None:
        with contextlib.suppress(FileNotFoundError):
            os.remove(self.mark)


class Hanging:
    """Has the second folders of a trial hang as it likes. It has to be made before a window is opened."""

    def __init__(self, trial: unittest.TestCase) -> None:
        load_first(trial, WAITING)

    def begin(self, folder: str, is_for_good: bool = False) -> None:
        with open(os.path.join(folder, MARK), "w", encoding="ascii") as file:
            file.write("for good" if is_for_good else "")

    def end(self, folder: str) -> None:
        os.remove(os.path.join(folder, MARK))
