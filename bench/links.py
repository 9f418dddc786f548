#!/usr/bin/env python3
"""Checks the links of the repository's pages: README.md, docs, and a page for each crate.

    bench/links.py

Each relative link has to lead to a file or folder of this repository, and each `#anchor` to a
heading of that page. Links to other hosts aren't followed. The script names each broken link with
its file and line, and exits 1 if there is one. Its last line is `N links, M broken`.
"""
import re
import sys
from collections.abc import Iterator
from functools import lru_cache
from pathlib import Path
from urllib.parse import unquote

ROOT = Path(__file__).resolve().parent.parent
# What a build leaves, and what git keeps.
SKIPPED = {"out", ".git"}

LINK = re.compile(r"\[(?:[^\[\]]|\[[^\]]*\])*\]\(\s*<?([^)\s>]+)>?(?:\s+[\"'][^)]*)?\)")
DEFINITION = re.compile(r"^ {0,3}\[[^\]]+\]:\s*<?(\S+?)>?\s*$")
HEADING = re.compile(r"^ {0,3}#{1,6}\s+(.*?)(?:\s+#+)?\s*$")
FENCE = re.compile(r"^ {0,3}(```|~~~)")
CODE = re.compile(r"(`+)(.+?)\1")
SCHEME = re.compile(r"^[a-zA-Z][a-zA-Z0-9+.-]*:")


def pages() -> list[Path]:
    """The repository's Markdown files."""
    return sorted(page for page in ROOT.rglob("*.md")
                  if not SKIPPED & set(page.relative_to(ROOT).parts))


def text_lines(page: Path) -> Iterator[tuple[int, str]]:
    """The lines outside of blocks of code, each with its number."""
    fence, after_text = None, False
    for number, line in enumerate(page.read_text(encoding="utf-8").splitlines(), 1):
        marks = FENCE.match(line)
        if marks and fence in (None, marks[1]):
            fence = None if fence else marks[1]
        elif not fence and (after_text or not line.startswith("    ")):
            after_text = bool(line.strip())
            yield number, line


def links(page: Path) -> Iterator[tuple[int, str]]:
    """The targets of the page's links, each with the number of its line."""
    for number, line in text_lines(page):
        prose = CODE.sub(lambda code: "`" + " " * len(code[2]) + "`", line)
        definition = DEFINITION.match(prose)
        if definition:
            yield number, definition[1]
        for link in LINK.finditer(prose):
            yield number, link[1]


def slug(heading: str) -> str:
    """The anchor of a heading, as forges make it."""
    text = re.sub(r"\[([^\]]*)\]\([^)]*\)", r"\1", heading)
    text = re.sub(r"[`*]", "", text).strip().lower()
    return re.sub(r"[^\w\- ]", "", text).replace(" ", "-")


@lru_cache(maxsize=None)
def anchors(page: Path) -> frozenset[str]:
    """The anchors of the page's headings; one that comes again has a number."""
    counts: dict[str, int] = {}
    found = set()
    for _, line in text_lines(page):
        heading = HEADING.match(line)
        if heading:
            name = slug(heading[1])
            count = counts.get(name, 0)
            found.add(f"{name}-{count}" if count else name)
            counts[name] = count + 1
    return frozenset(found)


def trouble(page: Path, target: str) -> str | None:
    """Why the link leads nowhere, or None if it leads somewhere."""
    path, _, anchor = unquote(target).partition("#")
    found = (page.parent / path).resolve() if path else page
    if found != ROOT and ROOT not in found.parents:
        return "leads out of the repository"
    if not found.exists():
        return "no such file"
    if anchor and found.suffix == ".md" and anchor not in anchors(found):
        return "no such heading"
    return None


def main() -> int:
    """Names the broken links; the status to exit with."""
    count = broken = 0
    for page in pages():
        for number, target in links(page):
            if SCHEME.match(target) or target.startswith("//"):
                continue
            count += 1
            why = trouble(page, target)
            if why:
                broken += 1
                print(f"{page.relative_to(ROOT)}:{number}: {target}: {why}")
    print(f"{count} links, {broken} broken")
    return 1 if broken else 0


if __name__ == "__main__":
    sys.exit(main())
