"""The version of this package, and the commit that it was made of."""
from __future__ import annotations

import importlib.resources
import os
import subprocess

VERSION = "1.0"
# A release has the commit in this file of the package; a clone asks git.
NAME = "commit.txt"


def commit() -> str:
    """The commit; empty if nobody knows it."""
    place = importlib.resources.files("raceoffice")
    if (noted := place.joinpath(NAME)).is_file():
        return noted.read_text(encoding="ascii").strip()
    above = os.path.dirname(os.path.abspath(str(place)))
    if not os.path.exists(os.path.join(above, ".git")):
        return ""
    try:
        done = subprocess.run(["git", "-C", above, "describe", "--always", "--dirty", "--abbrev=12"],
                              capture_output=True, text=True, timeout=10.0)
    except (OSError, subprocess.TimeoutExpired):
        return ""
    return done.stdout.strip()


def version_text() -> str:
    """`raceoffice 1.0, commit 30cd1c540b52`."""
    found = commit()
    return f"raceoffice {VERSION}" + (f", commit {found}" if found else "")
