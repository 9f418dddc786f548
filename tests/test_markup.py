"""Only the builder makes markup, and what it makes holds no text that a browser would run."""
from __future__ import annotations

import ast
import pathlib
import re
import unittest
from html.parser import HTMLParser

import helpers

from allowed import odd_parts
from forger import MARKUP, ForgedPages
from raceoffice.results import http_answers
from raceoffice.results.html import assets, markup
from raceoffice.results.html.markup import NOTHING, Markup, raw, separated, tag, together

# What looks like a part of a page, or its attribute.
LIKE_MARKUP = re.compile(r'<[A-Za-z/!]|&[a-z]+;|[a-z]="')
# What has such texts, and writes no page: it reads pages, or shows signs by their numbers.
READERS = {"results/html/page.py": {"OURS"}, "verify/page_data.py": {"START", "END"},
           "verify/verifier.py": {"CONFIRMED"}, "verify/visible.py": {"AND", "CLASS", "OWN", "TAG", "tokens"}}
HOSTILE = [MARKUP, "</script>", "<!--", "' onload='x", "&lt;b&gt;", "]]>", "<", ">", "&", "\0", "a\u2028b"]


class Read(HTMLParser):
    """The tags, texts and attributes of a piece of a page."""

    def __init__(self, text: str) -> None:
        super().__init__(convert_charrefs=True)
        self.found: list[object] = []
        self.feed(text)
        self.close()

    def handle_starttag(self, tag: str, attrs: list[tuple[str, str | None]]) -> None:
        self.found.append((tag, attrs))

    def handle_data(self, data: str) -> None:
        before = self.found[-1] if self.found else None
        if isinstance(before, str):
            self.found[-1] = before + data
        else:
            self.found.append(data)


class Builder(unittest.TestCase):
    def test_escaped(self) -> None:
        """A text comes back from a page as it was put in, in an element and in an attribute."""
        for text in HOSTILE:
            made = tag("p", text, title=text, data_find=text).html
            self.assertEqual(Read(made).found, [
                ("p", [("title", text), ("data-find", text)]), text], made)
            self.assertEqual(Read(together("x", text).html).found, [f"x{text}"])
            self.assertEqual(Read(separated(["a", "b"], text).html).found, [f"a{text}b"])

    def test_glued(self) -> None:
        """Markup that is glued to a text, or formatted into one, is a text again."""
        inner = tag("b", "x")
        with self.assertRaises(TypeError):
            inner + "y"  # type: ignore[operator]
        self.assertEqual(len(Read(tag("p", f"{inner}").html).found), 2)
        self.assertEqual(Read(tag("p", inner.html).html).found, [("p", []), "<b>x</b>"])

    def test_attributes(self) -> None:
        self.assertEqual(tag("input", hidden=True, id=None, disabled=False, class_="a", tabindex=0).html,
                         '<input hidden class="a" tabindex="0">')
        self.assertEqual(tag("circle", cx=1).html, '<circle cx="1"/>')
        self.assertFalse(NOTHING)
        for name in ("x onload", "x=", "1", "", "a\"", "on/load", "é"):
            with self.assertRaises(ValueError):
                tag("p", **{name: "x"})
            with self.assertRaises(ValueError):
                tag(name)

    def test_addresses(self) -> None:
        """A link leads to a place in a page of the same site; a picture is one of that site."""
        for text in ("index.html", "race-12.html", "../index.html", "a%20b/results.csv", "?", "#c1-table",
                     "../A%3Cb%3E/index.html", "#tie-aa", "formats.html#the-program"):
            self.assertIn("href=", tag("a", "x", href=text).html)
        self.assertEqual(tag("img", src="a-board.png", alt="<").html, '<img src="a-board.png" alt="&lt;">')
        for text in ("javascript:alert(1)", "//example.org/index.html", "https://example.org/", "/index.html",
                     "data:text/html,x", "\tjavascript:x", "index.html\"", "../../index.html", "a/b/c.html",
                     "index.html\n", "java\nscript:x", "", " index.html", "#\"><b>", "a b/index.html",
                     "index.html#\"", "index.html#a b", "a.csv#b", "https://example.org/a.png"):
            with self.assertRaises(ValueError, msg=text):
                tag("a", "x", href=text)
            with self.assertRaises(ValueError, msg=text):
                tag("img", src=text)

    def test_raw(self) -> None:
        """A script or a style sheet can't hold what could end it, or hide its end."""
        self.assertEqual(raw("style", "a > b {}").html, "<style>a > b {}</style>")
        for text in ("</script>", "</SCRIPT ", "</style", "<!--", "x</", "<!-- <script>"):
            with self.assertRaises(ValueError):
                raw("script", text)


class Source(unittest.TestCase):
    def trees(self) -> dict[str, ast.Module]:
        found = {}
        package = pathlib.Path(helpers.TOP, "raceoffice")
        for path in sorted(package.rglob("*.py")):
            if path.name != "markup.py":
                found[path.relative_to(package).as_posix()] = ast.parse(path.read_text(encoding="utf-8"))
        return found

    def test_no_text_is_markup(self) -> None:
        """No text in the package is a piece of a page: parts are made by the builder alone."""
        odd = []
        for name, tree in self.trees().items():
            known = READERS.get(name, set())
            for node in tree.body:
                named = {getattr(target, "id", "") for target in getattr(node, "targets", [])}
                if named & known or getattr(node, "name", "") in known:
                    continue
                odd += [(name, part.lineno, part.value[:40]) for part in ast.walk(node)
                        if isinstance(part, ast.Constant) and isinstance(part.value, str)
                        and LIKE_MARKUP.search(part.value)]
        self.assertEqual(odd, [])

    def test_trusted(self) -> None:
        """Nothing but the builder says of a text that it is markup."""
        made = [(name, node.lineno) for name, tree in self.trees().items() for node in ast.walk(tree)
                if isinstance(node, ast.Call) and getattr(node.func, "id", getattr(
                    node.func, "attr", "")) == "Markup"]
        self.assertEqual(made, [])
        raws = {name for name, tree in self.trees().items() for node in ast.walk(tree)
                if isinstance(node, ast.Call) and getattr(node.func, "id", "") == "raw"}
        self.assertEqual(raws, {"results/html/page.py", "results/html/sealing.py"})


class Policy(ForgedPages):
    def test_policy(self) -> None:
        """What a browser may run is the script of the package, whatever a page holds."""
        fixed = http_answers.Text.of("text/html", b"<p>x</p>").policy
        self.assertEqual(fixed.count("sha256-"), 1)
        for page in (*self.pages().values(), f"<script>alert(1)</script>{MARKUP}"):
            self.assertEqual(http_answers.Text.of("text/html", page.encode()).policy, fixed)
        self.assertEqual(http_answers.Text.of("text/csv", b"").policy, "default-src 'none'")

    def test_table(self) -> None:
        """The table of what is allowed finds what isn't."""
        for page in self.pages().values():
            self.assertEqual(odd_parts(page), [])
            for old, new in [("<main", "<img src=x><main"), ("<main", "<main onclick=x"),
                             ("</b>", "</b><b style=x>"),
                             ("</main>", "</main><script></script>"), ('class="skip"', 'class="skip x"'),
                             ('class="skip" href="#', 'class="skip" href="//x#'), ("</style>", "p { background: url(x) }</style>"),
                             ("<main", "<!--x--><main"), ("</body>", "</object></body>"),
                             ('"use strict";', "alert(1);")]:
                self.assertNotEqual(odd_parts(page.replace(old, new, 1)), [], new)
        self.assertTrue(assets.script() and markup.NOTHING == Markup(""))


if __name__ == "__main__":
    unittest.main()
