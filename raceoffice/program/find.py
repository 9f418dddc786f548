"""Where the programs are: `regatta` and `times`."""
from __future__ import annotations

import os
import shutil
import sys

HERE = os.path.dirname(os.path.dirname(os.path.abspath(__file__)))
TOP = os.path.dirname(HERE)
BUILT = os.path.join(TOP, "crates", "{0}", "out")
# What a program may be called, besides its own name: an installation calls `times` so.
NAMES = {"times": "regatta-times"}


def beside_the_command() -> list[str]:
    """The folder of the command that runs, where an installation has the programs, too."""
    return [os.path.dirname(os.path.realpath(sys.argv[0]))] if os.path.isfile(sys.argv[0]) else []


def whole_path() -> str:
    """The folders of the PATH that are named whole: `.` and the like are the current folder, which nobody means."""
    folders = os.environ.get("PATH", os.defpath).split(os.pathsep)
    return os.pathsep.join(folder for folder in folders if os.path.isabs(folder))


def program_at(named: str) -> str:
    """The file of a program that somebody names: by its path, or by its name alone. What lies in the current
    folder isn't meant by a name alone: it may have come with what is looked at."""
    return named if os.path.dirname(named) else found_program(named) or named


def found_program(name: str, *near: str) -> str:
    """The file of a program: in one of the folders near, beside the command, beside the package, where it
    is built, or on the PATH; empty if it is nowhere. One that may be run comes first."""
    names = [NAMES[name], name] if name in NAMES else [name]
    places = [*near, *beside_the_command(), TOP, HERE, BUILT.format(name)]
    paths = [os.path.join(place, file) for place in places for file in names]
    found = [path for path in paths if os.path.isfile(path)]
    may_run = [path for path in found if os.access(path, os.X_OK)]
    on_path = [shutil.which(file, path=whole_path()) for file in names]
    return next((path for path in [*may_run, *on_path, *found] if path), "")
