"""What a page may hold: each tag with its attributes, and where links may lead. A browser is asked for
nothing else, whatever the names and titles of a series are."""
from __future__ import annotations

import re
from html.parser import HTMLParser

from raceoffice.results.html import assets
from raceoffice.verify import page_data

NUMBER = r"-?[0-9]{1,5}"
FREE = r"(?s).*"
ADDRESS = r"[A-Za-z0-9%._~-]+/"
HREF = (r"#(?:c[0-9]+-)?(?:table|class|tie-[a-z]+)|\.\./index\.html"
        rf"|\.\./{ADDRESS}index\.html|(?:{ADDRESS})?(?:index|race-[0-9]+)\.html|(?:{ADDRESS})?results\.csv")
IDS = (r"alarm|once|find|found|more|proof|coded|missing"
       r"|(?:c[0-9]+-)?(?:table|caption|class|tie-[a-z]+|[A-Z0-9-]{1,12})")
CLASSES = (r"skip|alarm|once|classes|ways|open|bar|find|hidden|more|state|when"
           r"|word (?:provisional|final|amended)|reason (?:changed|stale|provisional|final|amended)"
           r"|facts|aside|standing(?: class-[0-9]+)?|results|race|series|scroll|paper|rank|sail|helm|who|net"
           r"|total|r|r win|p|m[123]|notes|ties|key|course|axes"
           r"|c[0-7]|to|hollow|list|sub|place|time|pts|below|timed|hard|kind|given")
MARK = {"class": CLASSES}
CELL = {**MARK, "scope": "row|col", "aria-label": "Race [0-9]+"}
AREA = {**MARK, "id": IDS, "role": "region", "tabindex": "0", "aria-labelledby": IDS,
        "aria-label": "Chart of ranks|Ranks after each race"}
ALLOWED: dict[str, dict[str, str]] = {
    "html": {"lang": "en", "data-live": "yes|no", "data-every": "[0-9]{1,4}",
             "data-checked": r"|[0-9T:-]{19}\+00:00", "data-office": "|open|journal|once|away(?::[0-9,]+)?",
             "data-version": "(?:(?:[0-9]+-)?[0-9a-f]{8}-?)*", "data-now": rf"|(?:{ADDRESS})?now\.json"},
    "head": {}, "body": {}, "title": {}, "style": {}, "noscript": {}, "header": {}, "footer": {},
    "meta": {"charset": "utf-8", "name": "viewport|color-scheme", "http-equiv": "refresh",
             "content": "60|light dark|width=device-width, initial-scale=1"},
    "main": MARK, "section": {**MARK, "id": IDS}, "nav": {"aria-label": "Classes|Races"},
    "ul": {**MARK, "id": "table"}, "li": {**MARK, "id": IDS}, "dl": MARK, "dt": {}, "dd": {},
    "h1": {}, "h2": {"id": IDS}, "small": {}, "b": {}, "i": MARK, "s": {}, "em": {}, "summary": {},
    "details": {}, "p": {**MARK, "id": IDS, "role": "alert", "hidden": ""},
    "a": {**MARK, "href": HREF, "aria-current": "true|page", "aria-label": "Race [0-9]+|tie, note [a-z]+"},
    "span": {**MARK, "id": IDS, "role": "status"}, "del": MARK, "abbr": {**MARK, "title": FREE},
    "time": {"datetime": r"[0-9T:-]{19}\+00:00"}, "div": AREA, "label": {**MARK, "for": "find"},
    "input": {"type": "search|checkbox", "id": IDS, "placeholder": "Find a sail or a name",
              "autocomplete": "off", "spellcheck": "false"},
    "table": {**MARK, "aria-labelledby": IDS}, "caption": {**MARK, "id": IDS}, "thead": {}, "tbody": {},
    "tr": {"id": IDS, "data-find": FREE, "valign": "top"}, "td": MARK, "th": CELL,
    "script": {"type": "application/json", "id": "proof"},
    "svg": {"width": "[0-9.]{1,8}rem", "height": "[0-9.]{1,8}rem", "viewbox": "0 0 [0-9]+ [0-9]+", "role": "img",
            "aria-label": "Chart: the rank of .* boats after each race. .*"},
    "g": MARK, "polyline": {"points": "[0-9 ,]+", "stroke-dasharray": "[0-9 ]+"},
    "circle": {**MARK, "cx": NUMBER, "cy": NUMBER, "r": "4"},
    "rect": {**MARK, "x": NUMBER, "y": NUMBER, "width": "8", "height": "8"},
    "path": {**MARK, "d": "[MLlhz0-9 -]+"},
    "line": {name: NUMBER for name in ("x1", "y1", "x2", "y2")},
    "text": {"x": NUMBER, "y": NUMBER, "text-anchor": "middle|end"},
}


class Parts(HTMLParser):
    """What of a page isn't allowed."""

    def __init__(self, page: str) -> None:
        super().__init__(convert_charrefs=True)
        self.odd: list[str] = []
        self.raw: list[tuple[str, list[str]]] = []
        self.open = ""
        self.feed(page)
        self.close()

    def handle_starttag(self, tag: str, attrs: list[tuple[str, str | None]]) -> None:
        known = ALLOWED.get(tag)
        if known is None:
            self.odd.append(f"<{tag}>")
            return
        names = [name for name, _ in attrs]
        self.odd += [f"<{tag}> with {name} twice" for name in names if names.count(name) > 1]
        for name, value in attrs:
            if name not in known or not re.fullmatch(known[name], value or ""):
                self.odd.append(f"<{tag} {name}={value!r}>")
        if tag in ("script", "style"):
            self.open = tag
            self.raw.append((f"{tag} {' '.join(names)}".strip(), []))

    def handle_endtag(self, tag: str) -> None:
        self.open = ""
        if tag not in ALLOWED:
            self.odd.append(f"</{tag}>")

    def handle_data(self, data: str) -> None:
        if self.open:
            self.raw[-1][1].append(data)

    def handle_comment(self, data: str) -> None:
        self.odd.append(f"<!--{data[:30]}")

    def handle_decl(self, decl: str) -> None:
        if decl != "DOCTYPE html":
            self.odd.append(f"<!{decl[:30]}")

    def handle_pi(self, data: str) -> None:
        self.odd.append(f"<?{data[:30]}")

    def unknown_decl(self, data: str) -> None:
        self.odd.append(f"<![{data[:30]}")


def odd_parts(page: str) -> list[str]:
    """The tags, attributes, addresses, scripts and styles of a page that no page may have."""
    parts = Parts(page)
    odd, raw = parts.odd, [(name, "".join(texts)) for name, texts in parts.raw]
    if [name for name, _ in raw] != ["style", "script type id", "script"]:
        return odd + [f"the scripts and styles are {[name for name, _ in raw]}"]
    style, block, script = (text for _, text in raw)
    # A text in quotation marks shows a title on paper; a backslash in it begins a sign's number.
    plain = re.sub(r'"(?:[^"\\\n]|\\[0-9a-f]{1,6} )*"', '""', style.removeprefix(assets.style()))
    if not style.startswith(assets.style()) or re.search(r"url|@import|expression|[\\<]", plain):
        odd.append(f"a style {plain[:80]!r}")
    if block != f"\n{page_data.block_of(page)}" or "<" in block:
        odd.append("the block isn't what `verify` reads")
    if script != assets.script():
        odd.append(f"a script {script[:40]!r}")
    return odd
