"""The series beside those that are served, as those that are final: the scorer may have them served, too."""
from __future__ import annotations

import functools
import os
from collections.abc import Collection, Iterable, Mapping
from typing import Any

from raceoffice import system
from raceoffice.characters import is_utf8
from raceoffice.errors import NotSent, Trouble
from raceoffice.remarks import remark
from raceoffice.series import settings
from raceoffice.side_by_side import SideBySide
from raceoffice.web.states import Values

# The settings of series, by their folders: None if they are wrong; and what reads those of several, of which one may hang.
Read = dict[str, settings.Settings | None]
Reading = SideBySide[Read]


def series_beside(parent: str, served: Collection[str], reading: Reading) -> list[Values]:
    """The series in a folder that aren't served, in the order of their names; none whose settings are wrong, or whose folder
    doesn't answer."""
    found = {name: may_hang for name, may_hang in folders_in(parent).items() if name not in served}
    paths = {name: os.path.join(parent, name) for name in found}
    # There may be thousands of folders: those that hang only with the one that they are in have one thread.
    apart, together = ([paths[name] for name in found if found[name] is may_hang] for may_hang in (True, False))
    some = {parent: together} | {path: [path] for path in apart}
    answers = reading.answers({name: functools.partial(settings_in, group) for name, group in some.items()})
    read = {path: one for answer in answers.values() for path, one in answer.items()}
    return [{"name": name, "title": one.title, "state": one.state} for name, path in paths.items() if (one := read.get(path))]


def folders_in(parent: str) -> dict[str, bool]:
    """The folders in a folder, by the names that a page can show; whether each may hang though that one doesn't, as a link
    or a drive that is mounted there may. None of them is asked."""
    try:
        with os.scandir(parent) as found:
            links = {one.name: one.is_symlink() for one in found if one.is_symlink() or one.is_dir(follow_symlinks=False)}
    except OSError:
        return {}
    top, mounts = os.path.realpath(parent), system.mounts()
    return {name: is_link or os.path.join(top, name) in mounts for name, is_link in sorted(links.items())
            if is_utf8(name) and name[0] != "."}


def settings_in(paths: Iterable[str]) -> Read:
    """The settings of series, by their folders."""
    return {path: settings_or_none(path) for path in paths}


def settings_or_none(path: str) -> settings.Settings | None:
    """The settings of a series; None if they are wrong."""
    try:
        return settings.read(path)
    except Trouble:
        return None


def path_of(parent: str, served: Collection[str], values: Mapping[str, Any], reading: Reading) -> str:
    """The folder of a series that isn't served yet: one of those that are shown, and no other."""
    name = values.get("name")
    if name not in [one["name"] for one in series_beside(parent, served, reading)]:
        raise NotSent(remark("no-series-beside"))
    return os.path.join(parent, str(name))
