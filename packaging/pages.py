#!/usr/bin/env python3
"""Makes the pages that a club reads, in HTML, from those in Markdown.

    packaging/pages.py DOCS FOLDER

It reads the Markdown that these pages use, and a fault names a line with any other. A link to a page that
isn't among them becomes its text.
"""
from __future__ import annotations

import os
import re
import shutil
import sys
from collections.abc import Iterator

sys.path.insert(1, os.path.dirname(os.path.dirname(os.path.abspath(__file__))))

from raceoffice.results.html.markup import Markup, Part, document, raw, tag, together

# Each page, and what it is called in the line of links at the top.
PAGES = {"GUIDE": "Guide", "TYPING": "The typing window", "SCORING": "How a series is scored", "RULES": "The rules",
         "JURY": "Decisions", "VERIFY": "Verifying a page", "KEEPING": "The kept file", "FORMATS": "Formats"}
STYLE = """
body { max-width: 50rem; margin: 1rem auto; padding: 0 1rem; font: 1rem/1.5 sans-serif; color: #222; }
pre { background: #f3f3f0; padding: .6rem .8rem; overflow-x: auto; line-height: 1.35; }
code { background: #f3f3f0; }
.shown { margin: 1rem 0 -.9rem; font-size: .8rem; color: #666; }
table { border-collapse: collapse; margin: 1rem 0; }
th, td { border: 1px solid #bbb; padding: .25rem .5rem; text-align: left; vertical-align: top; }
nav { border-bottom: 1px solid #bbb; padding-bottom: .5rem; }
nav a { margin-right: 1rem; white-space: nowrap; }
img { max-width: 100%; }
@media print { nav { display: none; } pre, table { break-inside: avoid; } body { max-width: none; } }
"""
HEADING = re.compile("(#{1,4}) (.+)")
ITEM = re.compile(r"(- |\d+\. )(.+)")
RULE = re.compile(r"\|(?:[ :]*-+[ :]*\|)+")
COMMENT = re.compile("<!--.*-->")
PICTURE = r"!\[(?P<seen>[^\]]*)\]\((?P<picture>[a-z0-9-]+\.png)\)"
# What no page has outside of code: other pictures, tags, signs by their names, backslashes; and what begins
# no paragraph: quotations, odd indents, rows of dashes.
UNKNOWN = re.compile(r"!\[|<[a-zA-Z/!]|&[a-z#0-9]+;|\\")
ODD_START = re.compile(r">| {1,3}\S|[-=*_]{3,}$|[*+] ")
KNOWN = re.compile(f"`[^`]*`|{PICTURE}")
# The parts of a line: code, a picture, a link, bold, italic, and any other text.
INLINE = re.compile(rf"`(?P<code>[^`]+)`|{PICTURE}"
                    r"|\[(?P<text>(?:`[^`]*`|[^\[\]`])+)\]\((?P<target>[^)\s]+)\)"
                    r"|\*\*(?P<bold>(?:`[^`]*`|[^*`])+)\*\*|\*(?P<italic>(?:`[^`]*`|[^*`])+)\*"
                    r"|(?P<plain>[^`!\[*]+|.)")
TAGS = {"bold": "strong", "italic": "em"}


class Fault(Exception):
    """What isn't read of a page."""


def address(target: str) -> str:
    """The address of what a link leads to; empty if it is no page of these."""
    page, _, place = target.partition("#")
    name = page.removesuffix(".md")
    if page and (name not in PAGES or page == name):
        return ""
    return (f"{name.lower()}.html" if page else "") + (f"#{place}" if place else "")


def inline(text: str) -> Markup:
    """A line with what is marked in it."""
    if UNKNOWN.search(KNOWN.sub("", text)):
        raise Fault(f"this line isn't read: {text}")
    parts: list[Part] = []
    for found in INLINE.finditer(text):
        kind, inner = str(found.lastgroup), found[str(found.lastgroup)]
        if kind == "code":
            parts.append(tag("code", inner))
        elif kind == "picture":
            parts.append(tag("img", src=inner, alt=found["seen"]))
        elif kind == "target":
            leads = address(inner)
            parts.append(tag("a", inline(found["text"]), href=leads) if leads else inline(found["text"]))
        else:
            parts.append(tag(TAGS[kind], inline(inner)) if kind in TAGS else inner)
    return together(*parts)


def slug(heading: str) -> str:
    """The place of a heading, as links name it."""
    text = re.sub(r"\[([^\]]*)\]\([^)]*\)", r"\1", heading)
    return re.sub(r"[^\w\- ]", "", text.lower()).replace(" ", "-")


def cells(line: str) -> list[str]:
    """The cells of a row of a table; a bar in code parts none."""
    return [cell.strip() for cell in re.findall(r"\|((?:`[^`]*`|[^|`])*)(?=\|)", line)]


class Lines:
    """The lines of a page or of a part of it, taken one after another."""

    def __init__(self, lines: list[str]) -> None:
        self.lines, self.at = lines, 0

    def next(self) -> str | None:
        return self.lines[self.at] if self.at < len(self.lines) else None

    def take(self) -> str:
        self.at += 1
        return self.lines[self.at - 1]

    def while_so(self, pattern: str) -> list[str]:
        """The lines from here on that begin as the pattern does."""
        taken = []
        while (line := self.next()) is not None and re.match(pattern, line):
            taken.append(self.take())
        return taken


def table(lines: Lines) -> Markup:
    head = cells(lines.take())
    if not RULE.fullmatch(lines.take()):
        raise Fault("a table without a rule below its head")
    rows = [cells(line) for line in lines.while_so(r"\|")]
    if any(len(row) != len(head) for row in rows):
        raise Fault(f"a row of the table {head} has too few cells, or too many")
    return tag("table", *([tag("tr", *(tag("th", inline(cell)) for cell in head))] if any(head) else []),
               *(tag("tr", *(tag("td", inline(cell)) for cell in row)) for row in rows))


def fenced(lines: Lines) -> Markup:
    """A box, below the name of the window or the file that it shows."""
    kind, *named = lines.take().removeprefix("```").split() or [""]
    body = lines.while_so("(?!```)")
    if lines.next() is None:
        raise Fault("a box without an end")
    lines.take()
    above = [tag("p", f"{kind}: {named[0]}", class_="shown")] if named else []
    return together(*above, tag("pre", "\n".join(body)))


def indented(lines: Lines) -> Markup:
    body = [line.removeprefix("    ") for line in lines.while_so(" {4}|$")]
    return tag("pre", "\n".join(body).rstrip("\n"))


def listed(lines: Lines) -> Markup:
    """A list. What belongs to an item is indented below it."""
    items, is_ordered = [], not (lines.next() or "").startswith("-")
    while (found := ITEM.fullmatch(lines.next() or "")) and (found[1] != "- ") == is_ordered:
        lines.take()
        width = len(found[1])
        below = Lines([line[width:] for line in lines.while_so(f" {{{width}}}|$")])
        items.append(tag("li", inline(found[2]), *blocks(below)))
    return tag("ol" if is_ordered else "ul", *items)


def heading(level: int, text: str, places: list[str]) -> Markup:
    """A heading, which links find by its place; one that comes again has a number."""
    name, count = slug(text), places.count(slug(text))
    places.append(name)
    return tag(f"h{level}", inline(text), id=f"{name}-{count}" if count else name)


def blocks(lines: Lines) -> Iterator[Markup]:
    """The blocks of a page, or of an item of a list."""
    places: list[str] = []
    while (line := lines.next()) is not None:
        if found := HEADING.fullmatch(line):
            lines.take()
            yield heading(len(found[1]), found[2], places)
        elif not line.strip() or COMMENT.fullmatch(line):
            lines.take()
        elif line.startswith("```"):
            yield fenced(lines)
        elif line.startswith("    "):
            yield indented(lines)
        elif line.startswith("|"):
            yield table(lines)
        elif ITEM.fullmatch(line):
            yield listed(lines)
        elif ODD_START.match(line):
            raise Fault(f"this line isn't read: {line}")
        else:
            yield tag("p", inline(" ".join(lines.while_so(r"(?!$|```|[|]|#|- |\d+\. )"))))


def page(name: str, text: str) -> str:
    """A page in HTML."""
    links = tag("nav", *(tag("a", title, href=address(f"{other}.md")) for other, title in PAGES.items()))
    try:
        body = together(links, *blocks(Lines(text.splitlines())))
    except (Fault, ValueError) as cause:
        raise SystemExit(f"{name}.md: {cause}") from None
    title = tag("title", f"Regatta: {PAGES[name]}")
    head = tag("head", tag("meta", charset="utf-8"), title, raw("style", STYLE),
               tag("meta", name="viewport", content="width=device-width, initial-scale=1"))
    return document(tag("html", head, tag("body", body), lang="en"))


def main(docs: str, folder: str) -> None:
    os.makedirs(folder, exist_ok=True)
    for name in PAGES:
        with open(os.path.join(docs, f"{name}.md"), encoding="utf-8") as file:
            made = page(name, file.read())
        with open(os.path.join(folder, address(f"{name}.md")), "w", encoding="utf-8") as file:
            file.write(made)
        for picture in re.findall('<img src="([^"]*)"', made):
            shutil.copy(os.path.join(docs, picture), folder)


if __name__ == "__main__":
    main(*sys.argv[1:])
