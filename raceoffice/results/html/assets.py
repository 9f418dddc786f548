"""The style and the script that all pages have."""
from __future__ import annotations

import functools
import importlib.resources


@functools.cache
def read(name: str) -> str:
    return importlib.resources.files("raceoffice.results.html").joinpath(name).read_text(encoding="utf-8")


def style() -> str:
    return f"\n{read('page.css')}"


def script() -> str:
    """The only script that a browser is to run."""
    return f"\n{read('page.js')}"
