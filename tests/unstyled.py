"""The text of a page in a browser that knows no styles, as w3m and lynx do: lines, and the cells of tables. Only what HTML
itself parts is parted there."""
from __future__ import annotations

import re
from html.parser import HTMLParser

# Parts that begin a line whatever a style says. What came with HTML 5, or draws, begins none in some browsers.
LINES = {"body", "h1", "h2", "p", "div", "ul", "li", "dl", "dt", "dd", "table", "caption", "tr", "title", "noscript"}
# What has a border around it.
CELLS = {"td", "th", "input"}
SILENT = {"script", "style"}
# How a piece of text may end or begin beside another.
END, BEGIN = re.compile(r"\s$"), re.compile(r"[\s,]")
# The tenth of points, and the bracket behind it, are in tags of their own.
WHOLE, TENTH = re.compile("[0-9]$"), re.compile(r"\.[0-9]$|\)$")


class Unstyled(HTMLParser):
    """A page as lines of cells of pieces of text, which nothing but a tag parts."""

    def __init__(self, page: str) -> None:
        super().__init__(convert_charrefs=True)
        self.lines: list[list[list[str]]] = [[[]]]
        self.open = ""
        self.feed(page)
        self.close()

    def begin(self, tag: str) -> None:
        """A new line or cell, if a tag makes one."""
        if tag in LINES:
            self.lines.append([[]])
        elif tag in CELLS:
            self.lines[-1].append([])

    def handle_starttag(self, tag: str, attrs: list[tuple[str, str | None]]) -> None:
        self.begin(tag)
        self.open = tag

    def handle_endtag(self, tag: str) -> None:
        self.begin(tag)
        self.open = ""

    def handle_data(self, data: str) -> None:
        if self.open not in SILENT:
            self.lines[-1][-1].append(data)

    def texts(self) -> list[list[str]]:
        """The texts of the cells of each line."""
        found = [[" ".join("".join(cell).split()) for cell in line] for line in self.lines]
        return [texts for line in found if (texts := [text for text in line if text])]

    def glued(self) -> list[str]:
        """The pieces of text that nothing parts from the next."""
        return [f"{one[-20:]}<>{other[:20]}" for line in self.lines for cell in line for one, other in zip(cell, cell[1:])
                if is_glued(one, other)]


def is_glued(one: str, other: str) -> bool:
    """Whether two pieces of text have nothing between them, and aren't the parts of a number."""
    if END.search(one) or BEGIN.match(other):
        return False
    return not (WHOLE.search(one) and TENTH.match(other))
