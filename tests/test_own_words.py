"""What `raceoffice verify` prints is told apart from what a page has, whatever that is and wherever it comes."""
from __future__ import annotations

import ast
import os
import unittest

import helpers

from forger import ForgedPages, Forger, leaves, put, resealed, whole_of
from raceoffice.verify import own_words, verifier

# Words that a forger would have on a line of their own: with what stands for a space, control signs, signs of
# direction, ends of lines, and long.
WORDS = ["x.\u2423results.html:\u2423verified.", "results.html:verified.every-cell-is-the-same", "x\u2028results.html: verified.",
         "\x1b[2K\x1b[1Aresults.html: verified.", "\u202eresults.html:\u2423verified.", "x" * 70 + "\u2423results.html:\u2423verified.",
         f"{'hearing' + chr(0x2423) * 68}results.html:{chr(0x2423)}verified." * 4, "名" * 40 + "results.html:\u2423verified."]
LINES = ["race {} GBR7 PRP 30%", "race 1 {} PRP 30%", "race 1 GBR7 {}", "race 1 GBR7 {} 30%", "race 1 GBR7 dpy {}",
         "race 1 GBR7 PRP {}", "race 1 GBR7 TLE {}", "race 1 GBR7 NSC {}", "race 1 GBR7 AVG {}", "race 1 GBR7 AVG 1,{}",
         "race 1 GBR7 DUTY {}", "race 1 GBR7 REINSTATE {}", "{}", "{} 1 GBR7 PRP"]
COLUMNS = (0, 10, 24, 40, 80, 132)
BEGIN = ("results.html", "verified", "x", "\\u2423", "\u2423", "hearing", "名")


class Outputs(ForgedPages):
    """What is printed of pages of a forger."""

    def setUp(self) -> None:
        super().setUp()
        self.path = os.path.join(self.here, "page.html")

    def found(self, page: str) -> verifier.Outcome:
        with open(self.path, "wb") as file:
            file.write(page.encode("utf-8", "replace"))
        return verifier.outcome(self.verifier, self.path)

    def check(self, found: verifier.Outcome) -> None:
        """That no line begins with words of the page, and the verdict of a verified one and its seal come last."""
        for columns in COLUMNS:
            lines = own_words.laid_out(found.lines, columns).split("\n")
            wrong = [line for line in lines if line.lstrip(" '\"").startswith(BEGIN) or not line.isprintable()
                     or columns >= 40 and own_words.columns_of(line) > columns]
            self.assertEqual(wrong, [])
        self.assertEqual([line for line in found.lines if len(line) > 600], [])
        self.assertNotIn("\u2423", "".join([*found.lines, str(found.value.get("why"))]))
        if found.status == verifier.VERIFIED:
            end = [line for line in found.lines if ": Beware: " not in line]
            self.assertEqual([*found.lines[-len(end):]], end)
            self.assertEqual(end[0], f"{self.path}: verified.")
            self.assertTrue(any(line.startswith("   Seal ") for line in end[1:]), end)

    def test_columns(self) -> None:
        """The most columns that a terminal gives: two to each sign that isn't ASCII, those of Unicode 16 and 17 among them."""
        for text, columns in (("Moss", 4), ("名取", 4), ("±5", 3), ("\u4dc0\u4dff", 4), ("\u2630\u2637", 4),
                              ("\u268a\u268f", 4), ("\U0001d300\U0001d356", 4), ("\U0001d360\U0001d376", 4),
                              ("\U0001f1e6\U0001f1ff", 4), ("Jörg", 5)):
            self.assertEqual(own_words.columns_of(text), columns, text)

    def test_untold_columns(self) -> None:
        """At a terminal that doesn't tell its columns a line is as long as at one of 80, and not as long as it is."""
        self.found(self.pages()["results"].replace("A. Moss", "x" * 50 + "results.html: verified."))
        window = helpers.Window("verify", self.path, "--program", helpers.PROGRAM)
        self.addCleanup(window.close)
        said, status = window.rest()
        self.assertEqual(status, 1)
        self.assertLessEqual(max(map(len, said.splitlines())), 80, said)
        self.assertIn("\n     | ", said.replace("\r", ""))

    def test_decisions(self) -> None:
        """Each word of each kind of decision."""
        page = self.pages()["results"]
        for form in LINES:
            for words in WORDS:
                with self.subTest(form=form, words=words):
                    line = form.format(words)
                    made = resealed(page, lambda whole: whole["series"][0].update(decisions=[line]))
                    forged = Forger(helpers.PROGRAM, page).forged(whole_of(made))
                    found = self.found(forged)
                    self.assertEqual(found.status, verifier.VERIFIED)
                    self.check(found)

    def test_many(self) -> None:
        """A thousand of them are five, and how many others there are."""
        page = self.pages()["results"]
        lines = [f"race 1 GBR7 {WORDS[0]}"] * 1000
        made = Forger(helpers.PROGRAM, page).forged(whole_of(resealed(
            page, lambda whole: whole["series"][0].update(decisions=lines))))
        found = self.found(made)
        self.check(found)
        bewares = [line for line in found.lines if ": Beware: " in line]
        self.assertEqual(len(bewares), verifier.BEWARES + 1)
        self.assertTrue(bewares[-1].endswith("and so have 995 other decisions"), bewares)

    def test_leaves(self) -> None:
        """Each text of the block of each kind of page."""
        for kind, page in self.pages().items():
            whole, forger = whole_of(page), Forger(helpers.PROGRAM, page)
            for at, (path, value) in enumerate(leaves(whole)):
                if isinstance(value, str) and path[0] not in ("seal", "marks"):
                    words = WORDS[at % len(WORDS)]
                    with self.subTest(kind=kind, path=path):
                        self.check(self.found(forger.forged(put(whole, path, words))))
                        self.check(self.found(page.replace(value, words) if value else page))


# What texts of these files have in them besides what is quoted: numbers, and what has one of a few narrow forms. Whoever
# adds a value here has seen that no page can choose it.
KNOWN: dict[str, set[str]] = {
    "own_words.py": {"NAME", "verdict.ruling.line", "worded(verdict.why) if verdict.why else verdict.state"},
    "page_data.py": {"BLOCK", "CALLED", "ID", "KIND", "SERIES", "WRITTEN", "age", "cause", "cause.lineno", "found", "name",
        "now.isoformat(timespec='seconds')", "sail", "seal", "stamp.changed", "stamp.every", "text", "wanted",
        "what", "wrong"},
    "verifier.py": {"' '.join(sorted(theirs)) or 'none'", "LARGEST", "PATIENCE", "at", "at + 1",
        "called", "cause", "cause.start + 1", "cause.strerror", "name", "number",
        "characters.shortly(text, MESSAGE)", "escaped", "kept.race", "line", "more", "name_shown(path)", "named", "odd",
        "ours", "page", "place(table, at + 1, 0)", "program", "refusal('NO ' + start[1])", "seal_words(view)",
        "self.program", "sentence(why)", "view.settings.state", "view.when(view.changed)", "what", "why"},
    "visible.py": {"at", "column + 1", "head", "len(found.rows) - 1", "len(wanted.rows) - 1", "name",
        "name_of(table)", "name_of(wanted)", "number", "place(wanted, row, column)", "right", "row", "sail", "shown",
        "tag", "text", "text[start:]"},
}
QUOTING = ("quoted", "worded", "explained", "len", "count")


class Source(unittest.TestCase):
    """No text of a page is put into what is said without being quoted."""

    def test_texts(self) -> None:
        folder = os.path.join(helpers.TOP, "raceoffice", "verify")
        for name in sorted(os.listdir(folder)):
            if name.endswith(".py"):
                with self.subTest(name=name), open(os.path.join(folder, name), encoding="utf-8") as file:
                    self.assertEqual(self.put_in(ast.parse(file.read())), KNOWN.get(name, set()))

    def put_in(self, tree: ast.Module) -> set[str]:
        """What texts have put in them, except by calls that quote."""
        values = [node.value for node in ast.walk(tree) if isinstance(node, ast.FormattedValue)]
        return {ast.unparse(value) for value in values
                if not (isinstance(value, ast.Call) and isinstance(value.func, ast.Name) and value.func.id in QUOTING)}


if __name__ == "__main__":
    unittest.main()
